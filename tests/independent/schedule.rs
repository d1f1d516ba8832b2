// Schedules for the rehearsal program, of many kinds. The same seed and number always give the same schedule.

use crate::random::Random;

pub const SETUP: u8 = 1;
pub const START: u8 = 2;
pub const CRASH: u8 = 3;
pub const LINK: u8 = 4;
pub const RUN: u8 = 5;
pub const LOSE: u8 = 6;
pub const REPORT: u8 = 7;
pub const RANK: u8 = 8;
pub const CLOCK_SETUP: u8 = 9;

/// How many operands each command has, by its byte.
pub const WIDTHS: [u64; 10] = [0, 2, 1, 1, 3, 2, 2, 0, 2, 2];

const LAST_TICK: u64 = 1_000_000;
const LONGEST_DELAY: u64 = 255;
const LAST_RANK: u64 = 7;

/// A schedule under construction, with as much of the state as is needed to know what is accepted.
pub struct Plan {
    pub random: Random,
    clock: bool,
    pub bytes: Vec<u8>,
    pub n: u64,
    eta: u64,
    tick: u64,
    up: Vec<bool>,
    starts: Vec<u64>,
    started: Vec<u64>, // the tick of the latest start
    ranks: Vec<u64>,
    rank_bytes: usize,
    report_percent: u64,
}

impl Plan {
    pub fn new(random: Random, clock: bool) -> Plan {
        Plan {
            random,
            clock,
            bytes: Vec::new(),
            n: 0,
            eta: 0,
            tick: 0,
            up: vec![],
            starts: vec![],
            started: vec![],
            ranks: vec![],
            rank_bytes: 0,
            report_percent: 85,
        }
    }

    /// With ranks, more often than not; clock heads have none.
    fn set_up(&mut self, n: u64, eta: u64) {
        self.bytes.extend([if self.clock { CLOCK_SETUP } else { SETUP }, n as u8, eta as u8]);
        (self.n, self.eta, self.tick) = (n, eta, 0);
        self.up = vec![false; n as usize + 1];
        self.starts = vec![0; n as usize + 1];
        self.started = vec![0; n as usize + 1];
        self.ranks = vec![0; n as usize + 1];
        if !self.clock && self.random.percent(60) {
            self.rank_all();
        }
    }

    pub fn set_up_any(&mut self) {
        let n = match self.random.range(0, 9) {
            0..=2 => 2,
            3..=4 => 3,
            5 => 8,
            _ => self.random.range(2, 8),
        };
        let eta = match self.random.range(0, 9) {
            0..=3 => 16,
            4..=6 => self.random.range(16, 24),
            7..=8 => self.random.range(16, 80),
            _ => self.random.pick(&[16, 17, 63, 64, 65, 128, 254, 255]),
        };
        self.set_up(n, eta);
    }

    pub fn station(&mut self) -> u64 {
        self.random.range(1, self.n)
    }

    /// Two stations that differ.
    fn link_ends(&mut self) -> (u64, u64) {
        let from = self.station();
        let to = (from + self.random.range(0, self.n - 2)) % self.n + 1;
        (from, to)
    }

    fn some(&mut self, up: bool) -> Option<u64> {
        let all: Vec<u64> = (1..=self.n).filter(|&s| self.up[s as usize] == up).collect();
        if all.is_empty() {
            None
        } else {
            Some(self.random.pick(&all))
        }
    }

    pub fn start(&mut self, s: u64) {
        self.bytes.extend([START, s as u8]);
        self.up[s as usize] = true;
        self.starts[s as usize] += 1;
        self.started[s as usize] = self.tick;
    }

    pub fn crash(&mut self, s: u64) {
        self.bytes.extend([CRASH, s as u8]);
        self.up[s as usize] = false;
    }

    fn start_some(&mut self) {
        if let Some(s) = self.some(false) {
            if self.clock || self.starts[s as usize] < 4095 {
                self.start(s);
            }
        }
    }

    fn crash_some(&mut self) {
        if let Some(s) = self.some(true) {
            self.crash(s);
        }
    }

    pub fn start_all(&mut self) {
        for s in 1..=self.n {
            if !self.up[s as usize] {
                self.start(s);
            }
        }
    }

    /// How long the latest start of this station made its start-up wait. So long are its timeouts at first, too.
    fn wait(&self, s: u64) -> u64 {
        self.eta + if self.clock { self.started[s as usize] } else { self.starts[s as usize] }
    }

    /// The tick in which that wait ends.
    fn wait_end(&self, s: u64) -> u64 {
        self.started[s as usize] + self.wait(s)
    }

    /// The up clock head that was started first: with the lowest stamp and, of equal ones, the lowest number.
    fn oldest(&self) -> Option<u64> {
        (1..=self.n).filter(|&s| self.up[s as usize]).min_by_key(|&s| self.started[s as usize])
    }

    /// Whether no station was ever started; ranks are accepted only then, and of flash heads.
    fn fresh(&self) -> bool {
        self.starts.iter().all(|&starts| starts == 0)
    }

    fn rank(&mut self, s: u64, rank: u64) {
        self.bytes.extend([RANK, s as u8, rank as u8]);
        self.ranks[s as usize] = rank;
        self.rank_bytes += 3;
    }

    /// A rank above 0, or back to 0.
    fn rank_some(&mut self) {
        let s = self.station();
        let back = self.ranks[s as usize] != 0 && self.random.percent(40);
        let rank = if back { 0 } else { self.random.range(1, LAST_RANK) };
        self.rank(s, rank);
    }

    /// Ranks of a fresh table, equal and different ones; some are set again.
    fn rank_all(&mut self) {
        match self.random.range(0, 9) {
            0..=1 => self.rank_some(),
            2..=3 => {
                // the last number first
                for s in 1..=self.n {
                    self.rank(s, self.n - s);
                }
            }
            4..=6 => {
                // one of two
                let ends = self.random.percent(33);
                let two = [0, LAST_RANK].map(|end| if ends { end } else { self.random.range(0, LAST_RANK) });
                for s in 1..=self.n {
                    let rank = self.random.pick(&two);
                    self.rank(s, rank);
                }
            }
            _ => {
                for s in 1..=self.n {
                    let rank = self.random.range(0, LAST_RANK);
                    self.rank(s, rank);
                }
            }
        }
        while self.random.percent(25) {
            self.rank_some();
        }
    }

    fn link(&mut self, from: u64, to: u64, delay: u64) {
        self.bytes.extend([LINK, from as u8, to as u8, delay as u8]);
    }

    fn delay(&mut self) -> u64 {
        match self.random.range(0, 9) {
            0..=2 => self.random.range(1, 4),
            3 => 0,
            4..=5 => self.random.pick(&[1, 2, 15, 16, 17, 18, 32, 33, 64, 65, 239, 240, 254, 255]),
            6..=7 => self.random.range(0, 64),
            _ => self.random.range(0, LONGEST_DELAY),
        }
    }

    fn link_some(&mut self) {
        let (from, to) = self.link_ends();
        let delay = self.delay();
        self.link(from, to, delay);
    }

    fn lose_some(&mut self) {
        let (from, to) = self.link_ends();
        self.bytes.extend([LOSE, from as u8, to as u8]);
    }

    fn report(&mut self) {
        self.bytes.push(REPORT);
    }

    fn run_silent(&mut self, ticks: u64) {
        let ticks = ticks.clamp(1, 65_535).min(LAST_TICK - self.tick);
        if ticks == 0 {
            return;
        }
        self.bytes.extend([RUN, (ticks % 256) as u8, (ticks / 256) as u8]);
        self.tick += ticks;
    }

    fn run(&mut self, ticks: u64) {
        self.run_silent(ticks);
        if self.random.percent(self.report_percent) {
            self.report();
        }
    }

    fn run_to(&mut self, tick: u64) {
        if tick > self.tick {
            let ticks = tick - self.tick;
            self.run(ticks);
        }
    }

    /// The same where one run may be too short.
    pub fn run_far_to(&mut self, tick: u64) {
        while self.tick < tick.min(LAST_TICK) {
            self.run_to(tick);
        }
    }

    /// To the tick before this one, to this one, and to the next.
    fn run_around(&mut self, tick: u64) {
        self.run_far_to(tick - 1);
        self.run(1);
        self.run(1);
    }

    /// Some stations that differ, by rank and then number but for the last, which is any.
    fn some_of(&mut self, many: usize) -> Vec<u64> {
        let mut left: Vec<u64> = (1..=self.n).collect();
        let mut taken = Vec::new();
        while taken.len() < many {
            let place = self.random.next() as usize % left.len();
            taken.push(left.remove(place));
        }
        taken[..many - 1].sort_by_key(|&s| (self.ranks[s as usize], s));
        taken
    }

    /// Mostly short runs, and many that end near a beat; with clock heads, others that end near the end of a wait.
    pub fn run_some(&mut self) {
        if self.clock && self.random.percent(25) && self.run_wait() {
            return;
        }
        let ticks = match self.random.range(0, 9) {
            0..=2 => 1,
            3 => self.random.range(2, 5),
            4..=5 => self.random.range(1, self.eta),
            6 => self.eta + self.random.range(0, 3) - 1,
            7 => 2 * self.eta + self.random.range(0, 4) - 2,
            8 => self.random.range(1, 64),
            _ => self.random.range(1, 300),
        };
        self.run(ticks);
    }

    /// To the end of some up head's wait or, after that, as long as its timeout was at first; a tick less, or more.
    /// Seldom where that is long, as it is longer with each late start. Answers whether anything was run.
    fn run_wait(&mut self) -> bool {
        let Some(s) = self.some(true) else { return false };
        let waiting = self.wait_end(s) > self.tick;
        let ticks = if waiting { self.wait_end(s) - self.tick } else { self.wait(s) };
        if ticks > 1000 && self.random.percent(90) {
            return false;
        }
        let ticks = ticks + self.random.range(0, 2) - 1;
        self.run(ticks);
        true
    }

    /// How many bytes to aim at: mostly 20 to 150, at most 400, and those of the ranks so far.
    fn aim(&mut self) -> usize {
        let high = self.random.pick(&[60, 100, 150, 150, 250, 400]);
        self.random.range(20, high) as usize + self.rank_bytes
    }

    /// Any accepted command, by weights: start, crash, link, run, lose, report. Before the first start a rank, too.
    pub fn step(&mut self, weights: [u64; 6]) {
        if !self.clock && self.fresh() && self.random.percent(20) {
            self.rank_some();
            return;
        }
        let mut x = self.random.range(1, weights.iter().sum());
        for (i, w) in weights.into_iter().enumerate() {
            if x <= w {
                match i {
                    0 => self.start_some(),
                    1 => self.crash_some(),
                    2 => self.link_some(),
                    3 => self.run_some(),
                    4 => self.lose_some(),
                    _ => self.report(),
                }
                return;
            }
            x -= w;
        }
    }

    fn steps(&mut self, weights: [u64; 6]) {
        let aim = self.aim();
        while self.bytes.len() < aim {
            self.step(weights);
        }
        self.report();
    }
}

fn valid(p: &mut Plan) {
    p.set_up_any();
    if p.random.percent(60) {
        p.start_all();
    }
    p.steps([20, 8, 15, 50, 5, 2]);
}

/// Many crashes and starts, with short runs between.
fn storm(p: &mut Plan) {
    p.set_up_any();
    p.start_all();
    p.steps([35, 35, 5, 40, 1, 1]);
}

/// One station comes and goes while the others hear of it.
fn unstable(p: &mut Plan) {
    p.set_up_any();
    p.start_all();
    let s = p.station();
    let aim = p.aim();
    while p.bytes.len() < aim {
        let rounds = p.random.range(1, 3);
        for _ in 0..rounds {
            if p.up[s as usize] {
                p.crash(s);
            }
            p.start(s);
        }
        // a clock head's wait is longer each time
        if !p.clock || p.random.percent(50) {
            let ticks = p.wait(s) + p.random.range(0, 4) - 1;
            p.run(ticks);
        }
        p.run_some();
    }
}

/// Long delays on most links and a short beat, so that links are full.
fn slow(p: &mut Plan) {
    let n = p.random.range(2, 5);
    let eta = p.random.range(16, 21);
    p.set_up(n, eta);
    let low = p.random.pick(&[40, 120, 239, LONGEST_DELAY]);
    for from in 1..=n {
        for to in (1..=n).filter(|&to| to != from) {
            if p.random.percent(80) {
                let delay = p.random.range(low, LONGEST_DELAY);
                p.link(from, to, delay);
            }
        }
    }
    p.start_all();
    let aim = p.bytes.len() + 20 + p.aim() / 2;
    while p.bytes.len() < aim {
        p.step([6, 5, 8, 75, 6, 0]);
    }
}

/// Links cut and mended, also in groups.
fn cut(p: &mut Plan) {
    p.set_up_any();
    p.start_all();
    let aim = p.aim() + 40;
    while p.bytes.len() < aim {
        if p.random.percent(40) {
            let s = p.station();
            let delay = if p.random.percent(60) { 0 } else { p.random.range(1, 8) };
            let both = p.random.percent(50);
            for other in (1..=p.n).filter(|&o| o != s) {
                p.link(s, other, delay);
                if both {
                    p.link(other, s, delay);
                }
            }
        } else {
            p.step([5, 4, 20, 70, 1, 0]);
        }
    }
    p.report();
}

/// The delay falls while messages are under way, so that a later one arrives first or in the same tick.
fn overtake(p: &mut Plan) {
    let n = p.random.range(2, 4);
    let eta = p.random.range(16, 20);
    p.set_up(n, eta);
    let (from, to) = p.link_ends();
    let most = p.random.pick(&[64, LONGEST_DELAY]);
    let long = p.random.range(40, most);
    p.link(from, to, long);
    p.start_all();
    let aim = p.aim() + 60;
    while p.bytes.len() < aim {
        let mut delay = long;
        p.link(from, to, delay);
        let ticks = p.random.range(eta / 2, 2 * eta + 2);
        p.run(ticks);
        let sendings = p.random.range(1, 3);
        for _ in 0..sendings {
            // by exactly the beat, both are due in one tick
            let less = if p.random.percent(50) { eta } else { p.random.range(1, 2 * eta) };
            delay = delay.saturating_sub(less).max(1);
            p.link(from, to, delay);
            if p.random.percent(25) {
                p.step([20, 30, 20, 0, 30, 0]);
            }
            p.run(eta);
        }
        for _ in 0..p.random.range(1, 6) {
            p.run(1);
        }
    }
}

/// Messages of several senders due at one station in one tick: delays that add up with the starts.
fn collide(p: &mut Plan) {
    let n = p.random.range(3, 8);
    let eta = p.random.range(16, 40);
    p.set_up(n, eta);
    p.report_percent = 60;
    let most = p.random.pick(&[60, LONGEST_DELAY]);
    let meet = p.random.range(10, most);
    let mut late: Vec<u64> = (1..=n).map(|_| p.random.range(0, 9)).collect();
    if p.random.percent(50) {
        late.iter_mut().for_each(|l| *l = 0);
    }
    for from in 1..=n {
        for to in (1..=n).filter(|&to| to != from) {
            if p.random.percent(70) {
                p.link(from, to, meet - late[from as usize - 1]);
            }
        }
    }
    for moment in 0..=9 {
        for s in 1..=n {
            if late[s as usize - 1] == moment {
                p.start(s);
            }
        }
        p.run_silent(1);
    }
    let aim = p.bytes.len() + 60;
    while p.bytes.len() < aim {
        p.step([8, 10, 6, 75, 2, 0]);
    }
}

/// Two senders are heard in one tick, and only one of them knows that the trusted leader has started again: the order of
/// senders decides whom the hearer trusts.
fn informed(p: &mut Plan) {
    let n = p.random.range(4, 8);
    let eta = p.random.range(16, 20);
    p.set_up(n, eta);
    p.report_percent = 95;
    let four = p.some_of(4);
    let (leader, hearer) = (four[0], four[3]);
    let (early, late) = if p.random.percent(50) { (four[1], four[2]) } else { (four[2], four[1]) };
    for from in [leader, early, late] {
        for to in [leader, early, late] {
            if from != to {
                p.link(from, to, 0);
            }
        }
    }
    let lag = p.random.range(0, 4);
    let near = p.random.range(1, 5);
    p.link(early, hearer, near + lag);
    p.link(late, hearer, near);
    // many starts make long timeouts
    for _ in 0..p.random.range(28, 34) {
        p.start(hearer);
        p.crash(hearer);
    }
    p.start(hearer);
    p.start(leader);
    p.start(early);
    p.run_to(lag);
    p.start(late);
    p.run_to(2 * eta + 2);
    for _ in 0..p.random.range(1, 3) {
        p.crash(leader);
        p.start(leader);
    }
    p.link(leader, hearer, 0);
    let knows = if p.random.percent(50) { early } else { late };
    p.link(leader, knows, 1);
    p.run_to(lag + 4 * eta + near);
    for _ in 0..4 {
        p.run(1);
    }
    p.run_some();
}

/// Two messages of one sender, which started again between them, are heard in one tick or nearly so.
fn restarted(p: &mut Plan) {
    let n = p.random.range(3, 8);
    let eta = p.random.range(16, 18);
    p.set_up(n, eta);
    p.report_percent = 95;
    let three = p.some_of(3);
    let (sender, leader, hearer) = (three[0], three[1], three[2]);
    p.link(sender, leader, 0);
    p.link(leader, sender, 0);
    let most = p.random.pick(&[64, LONGEST_DELAY]);
    let long = p.random.range(58, most);
    p.link(sender, hearer, long);
    for _ in 0..p.random.range(1, 3) {
        p.start(hearer);
        p.crash(hearer);
    }
    for s in [sender, leader, hearer] {
        p.start(s);
    }
    p.run_to(eta + 1);
    let more = p.random.range(1, 4);
    for _ in 0..more {
        p.crash(sender);
        p.start(sender);
    }
    let off = p.random.pick(&[0, 0, 0, 0, 1, 2]);
    p.link(sender, hearer, long - (eta + 1 + more) - off);
    p.run_to(eta + 1 + long - 3);
    for _ in 0..5 {
        p.run(1);
    }
    p.run_some();
}

/// Ranks among links, runs and reports; then all stations start as often as one another, run, and the first in the order
/// crashes, over and over: the ranks decide among equal counts each time.
fn ranked(p: &mut Plan) {
    p.set_up_any();
    for _ in 0..p.random.range(1, 8) {
        match p.random.range(0, 9) {
            0 => p.report(),
            1 => p.run_some(),
            2 => p.link_some(),
            _ => p.rank_some(),
        }
    }
    let aim = p.aim() + 40;
    while p.bytes.len() < aim {
        let most = (1..=p.n).map(|s| p.starts[s as usize] + !p.up[s as usize] as u64).max().unwrap_or(1);
        for s in 1..=p.n {
            while p.starts[s as usize] < most {
                if p.up[s as usize] {
                    p.crash(s);
                }
                p.start(s);
            }
        }
        p.run_some();
        let ticks = p.eta + most + p.random.range(0, 4);
        p.run(ticks);
        let first = (1..=p.n).min_by_key(|&s| (p.ranks[s as usize], s)).unwrap_or(1);
        p.crash(first);
        p.run(ticks);
        p.step([20, 5, 15, 50, 10, 0]);
    }
    p.report();
}

/// A clock head starts late and so waits long. It may hear another in its wait, and that one may go silent before the
/// wait ends: then it is trusted until the timer, reset at the end of the wait, ends.
fn waits(p: &mut Plan) {
    let n = p.random.range(2, 5);
    let eta = p.random.range(16, 24);
    p.set_up(n, eta);
    p.report_percent = 95;
    let two = p.some_of(2);
    let (first, late) = (two[0], two[1]);
    if p.random.percent(50) {
        p.start_all();
        p.crash(late);
    } else {
        p.start(first);
    }
    let moment = p.random.range(0, 4 * eta);
    p.run_to(moment);
    p.start(late);
    let end = p.wait_end(late);
    let silent = match p.random.range(0, 4) {
        0 => moment,
        1 => end + 1,
        _ => p.random.range(moment, end + 1),
    };
    p.run_to(silent);
    match p.random.range(0, 3) {
        0 => {}
        1 => p.link(first, late, 0),
        2 => {
            let delay = p.random.range(2, LONGEST_DELAY);
            p.link(first, late, delay);
        }
        _ => p.crash(first),
    }
    p.run_around(end);
    p.run_around(end + p.wait(late));
    p.run_some();
}

/// A clock head is trusted by one that started late and so has a long timeout, and starts again: its new stamp is not
/// adopted, although it is trusted, and so the timer ends.
fn again(p: &mut Plan) {
    let n = p.random.range(2, 4);
    let eta = p.random.range(16, 24);
    p.set_up(n, eta);
    p.report_percent = 95;
    let two = p.some_of(2);
    let (first, late) = (two[0], two[1]);
    p.start(first);
    let moment = p.random.range(2 * eta, 6 * eta);
    p.run_to(moment);
    p.start(late);
    p.run(eta + 1);
    p.crash(first);
    let ticks = p.random.pick(&[0, 0, 1, eta / 2]);
    if ticks != 0 {
        p.run(ticks);
    }
    p.start(first);
    let mut moments = [p.wait_end(first), p.wait_end(first) + eta, p.wait_end(late), p.wait_end(late) + p.wait(late)];
    moments.sort();
    for moment in moments {
        p.run_around(moment);
    }
    p.run_some();
}

/// The link from the leading clock head is cut after a beat, over and over: each time it is given up a tick later.
fn given_up(p: &mut Plan) {
    let n = p.random.range(2, 4);
    let eta = p.random.range(16, 24);
    p.set_up(n, eta);
    p.report_percent = 95;
    let two = p.some_of(2);
    let (first, other) = (two[0], two[1]);
    p.start(first);
    // with equal stamps the lower number leads
    let gap = p.random.range((first > other) as u64, eta / 2);
    p.run_to(gap);
    p.start(other);
    if p.random.percent(20) {
        p.start_all();
    }
    let end = p.wait_end(other);
    p.run_to(end);
    for times in 0..p.random.range(2, 7) {
        let mut beat = p.wait_end(first);
        while beat <= p.tick {
            beat += eta;
        }
        p.run_to(beat + 1); // it is heard
        p.link(first, other, 0);
        p.run_around(beat + 1 + p.wait(other) + times);
        p.link(first, other, 1);
    }
    p.run_some();
}

/// Clock heads that start in the same tick have equal stamps: the lower number leads, in whatever order they are heard.
/// The one that leads crashes, over and over, and those that are down start together.
fn equals(p: &mut Plan) {
    let n = p.random.range(3, 8);
    let eta = p.random.range(16, 24);
    p.set_up(n, eta);
    let most = p.random.pick(&[3, eta, 3 * eta]);
    for from in 1..=n {
        for to in (1..=n).filter(|&to| to != from) {
            if p.random.percent(60) {
                let delay = p.random.range(1, most);
                p.link(from, to, delay);
            }
        }
    }
    let moment = p.random.pick(&[0, 0, 0, 1, 7, eta]);
    p.run_to(moment);
    let aim = p.bytes.len() + 30 + p.aim() / 2;
    while p.bytes.len() < aim {
        for s in 1..=n {
            if !p.up[s as usize] && p.random.percent(80) {
                p.start(s);
            }
        }
        let Some(first) = p.oldest() else { continue };
        let end = p.wait_end(first);
        p.run_to(end);
        for _ in 0..p.random.range(2, 6) {
            let ticks = p.random.range(1, 1 + most / 2);
            p.run(ticks);
        }
        if p.random.percent(80) {
            p.crash(first);
        }
        p.run_some();
    }
    p.report();
}

/// The leading clock head crashes and starts again, before or after another leads. Its stamp is a later one now, so it
/// does not take the lead back.
fn comeback(p: &mut Plan) {
    let n = p.random.range(2, 5);
    let eta = p.random.range(16, 24);
    p.set_up(n, eta);
    let mut order: Vec<u64> = (1..=n).collect();
    for last in (1..order.len()).rev() {
        order.swap(last, p.random.range(0, last as u64) as usize);
    }
    for s in order {
        p.start(s);
        let ticks = p.random.pick(&[0, 0, 1, 3, eta, eta + 1]);
        if ticks != 0 {
            p.run(ticks);
        }
    }
    let ticks = p.random.range(eta, 2 * eta);
    p.run(ticks);
    for _ in 0..p.random.range(1, 4) {
        let Some(first) = p.oldest() else { break };
        p.crash(first);
        let ticks = p.random.pick(&[0, 1, eta / 2, eta, eta + 1, 2 * eta, 3 * eta]);
        if ticks != 0 {
            p.run(ticks);
        }
        p.start(first);
        let ticks = p.random.range(1, 2 * eta);
        p.run(ticks);
        if p.random.percent(70) {
            let end = p.wait_end(first);
            p.run_around(end);
        }
        p.step([20, 5, 15, 50, 10, 0]);
    }
    p.run_some();
}

/// Messages of a clock head stay under way for long while it crashes, and may be heard after its next start: the old
/// stamp is adopted by those that have given the head up.
fn stale(p: &mut Plan) {
    let n = p.random.range(2, 4);
    let eta = p.random.range(16, 20);
    p.set_up(n, eta);
    p.report_percent = 95;
    let first = p.station();
    for to in (1..=n).filter(|&to| to != first) {
        let delay = if p.random.percent(70) { p.random.range(40, LONGEST_DELAY) } else { p.random.range(1, 20) };
        p.link(first, to, delay);
    }
    p.start(first);
    let ticks = p.random.range(1, eta);
    p.run(ticks);
    p.start_all();
    let ticks = p.random.range(eta, 6 * eta);
    p.run(ticks);
    p.crash(first);
    for _ in 0..p.random.range(6, 16) {
        if !p.up[first as usize] && p.random.percent(15) {
            p.start(first);
        }
        if p.random.percent(10) {
            p.step([20, 20, 30, 0, 30, 0]);
        }
        let ticks = p.random.range(1, 2 * eta);
        p.run(ticks);
    }
}

/// A clock head starts at a late tick, so that its wait and its timeout are long; some end at the last tick or beyond.
fn late(p: &mut Plan) {
    p.set_up_any();
    let s = p.station();
    for other in (1..=p.n).filter(|&other| other != s) {
        if p.random.percent(70) {
            p.start(other);
        }
    }
    let (half, third) = ((LAST_TICK - p.eta) / 2, (LAST_TICK - 2 * p.eta) / 3);
    let moment = match p.random.range(0, 6) {
        0..=1 => p.random.range(200, 60_000),
        2 => p.random.range(60_000, third),
        3 => third + p.random.range(0, 2) - 1,
        4 => half + p.random.range(0, 2) - 1,
        5 => LAST_TICK - p.random.range(0, 1),
        _ => p.random.range(third, LAST_TICK),
    };
    p.run_far_to(moment);
    p.start(s);
    p.report();
    p.run_some();
    for _ in 0..p.random.range(0, 2) {
        p.step([10, 30, 40, 0, 20, 0]);
    }
    let end = p.wait_end(s);
    p.run_around(end);
    if p.random.percent(50) {
        while let Some(other) = (1..=p.n).find(|&other| other != s && p.up[other as usize]) {
            p.crash(other);
        }
    }
    p.run_around(end + p.wait(s));
    p.run_around(end + p.wait(s) + p.eta);
    p.report();
    if p.tick == LAST_TICK && p.random.percent(50) {
        p.bytes.extend([RUN, 1, 0]);
    }
}

fn lose(p: &mut Plan) {
    p.set_up_any();
    p.start_all();
    for _ in 0..p.random.range(1, 6) {
        let (from, to) = p.link_ends();
        let delay = p.random.range(10, LONGEST_DELAY);
        p.link(from, to, delay);
    }
    p.steps([5, 4, 10, 55, 30, 0]);
}

/// A report after every command, and runs of one tick.
fn reports(p: &mut Plan) {
    p.set_up_any();
    p.report();
    let aim = p.aim();
    while p.bytes.len() < aim {
        if p.random.percent(60) {
            p.run_silent(1);
        } else {
            let ticks = p.eta - 1;
            p.run_silent(ticks);
        }
        p.report();
        if p.random.percent(40) {
            p.step([40, 20, 20, 0, 10, 0]);
            p.report();
        }
    }
}

/// Both ends of every range, mostly on the right side.
fn boundary(p: &mut Plan) {
    if p.random.percent(10) {
        // the refused neighbours
        let n = p.random.pick(&[1, 2, 8, 9]) as u8;
        let eta = p.random.pick(&[15, 16, 255]) as u8;
        let rank = p.random.pick(&[0, 7, 7, 8]) as u8;
        if p.clock {
            p.bytes.extend([CLOCK_SETUP, n, eta, START, 1, REPORT, RANK, 1, rank]);
        } else {
            p.bytes.extend([SETUP, n, eta, RANK, 1, rank, START, 1, REPORT]);
        }
        return;
    }
    let n = p.random.pick(&[2, 8]);
    let eta = p.random.pick(&[16, 255]);
    p.set_up(n, eta);
    if p.random.percent(80) {
        p.start_all();
    }
    let aim = p.aim();
    while p.bytes.len() < aim {
        let end = if p.random.percent(50) { 1 } else { n };
        let other = if end == 1 { n } else { 1 };
        match p.random.range(0, 7) {
            0..=1 => {
                let delay = p.random.pick(&[0, 1, 64, 65, 254, 255, 255]);
                p.link(end, other, delay);
            }
            2 => {
                let ticks = p.random.pick(&[1, 255, 256, 257, 65_535]);
                p.run(ticks);
            }
            3 => p.bytes.extend([LOSE, end as u8, other as u8]),
            4 if p.up[end as usize] => p.crash(end),
            4 => p.start(end),
            _ => p.run_some(),
        }
        if p.random.percent(4) {
            refusal(p);
            break;
        }
    }
    p.report();
}

/// Up to tick 1,000,000, and often one more.
fn far(p: &mut Plan) {
    p.set_up_any();
    p.start_all();
    while p.tick < 900_000 {
        if p.random.percent(30) {
            p.step([5, 10, 20, 0, 5, 1]);
        }
        p.run(65_535);
    }
    for _ in 0..p.random.range(0, 6) {
        p.step([5, 5, 20, 60, 5, 1]);
    }
    while p.tick < LAST_TICK - 40 {
        let ticks = (LAST_TICK - 40 - p.tick).min(65_535);
        p.run(ticks);
    }
    for _ in 0..p.random.range(0, 3) {
        p.run_some();
    }
    match p.random.range(0, 3) {
        0 => p.run(65_535), // exactly to the end
        1 => {
            p.run(65_535);
            p.report();
            p.bytes.extend([RUN, 1, 0, REPORT]);
        }
        2 => {
            let ticks = LAST_TICK - p.tick + 1;
            p.bytes.extend([RUN, ticks as u8, 0, REPORT]);
        }
        _ => p.bytes.extend([RUN, 255, 255, REPORT]),
    }
}

/// A head that is started until its count is 4095, and others that hear of it. A clock head has no count, and is
/// started more often.
fn wear(p: &mut Plan) {
    let n = p.random.range(2, 4);
    let eta = p.random.pick(&[16, 20, 255]);
    p.set_up(n, eta);
    let s = p.station();
    let last = if p.clock { p.random.range(4095, 4100) } else { p.random.pick(&[4093, 4094, 4094, 4095, 4095]) };
    let first_run = p.random.range(1, 4000);
    for round in 1..=last {
        p.start(s);
        if round == first_run {
            for other in 1..=n {
                if !p.up[other as usize] {
                    p.start(other);
                }
            }
            p.run(40);
        }
        if round % 512 == 0 {
            p.run_some();
        }
        if round < last || p.random.percent(70) {
            p.crash(s);
        }
    }
    p.report();
    // its wait is now eta + count long, or to the tick eta + twice this one
    if !p.up[s as usize] && (p.clock || p.starts[s as usize] < 4095) {
        p.start(s);
    }
    let ticks = p.wait(s) - 1;
    p.run(ticks);
    p.run(1);
    p.run(1);
    for _ in 0..6 {
        p.run_some();
    }
    if p.up[s as usize] {
        p.crash(s);
    }
    p.report();
    p.bytes.extend([START, s as u8]); // refused at 4095 of a flash head
    p.run_some();
    p.report();
}

/// Some thousand bytes.
fn long(p: &mut Plan) {
    p.set_up_any();
    p.start_all();
    p.report_percent = 40;
    let aim = p.random.range(1000, 8000) as usize;
    while p.bytes.len() < aim {
        p.step([15, 12, 15, 50, 6, 2]);
    }
    p.report();
}

/// A command that is refused, each number alike, in any state reached so far.
fn refusal(p: &mut Plan) {
    let s = if p.n == 0 { 1 } else { p.station() };
    let above = p.n + 1;
    let wrong = p.random.pick(&[0, above, 9, 255]);
    let setup = if p.random.percent(50) { SETUP } else { CLOCK_SETUP };
    match p.random.range(1, 14) {
        1 => {
            let byte = p.random.pick(&[0, 10, 10, 11, 16, 127, 128, 255]);
            p.bytes.push(byte as u8);
        }
        2 => {
            let name = p.random.pick(&[1, 2, 3, 4, 5, 6, 8, 9, 9]) as u8;
            let there = p.random.range(0, WIDTHS[name as usize] - 1);
            p.bytes.push(name);
            for _ in 0..there {
                let byte = p.random.pick(&[0, 1, 1, 255]) as u8;
                p.bytes.push(byte);
            }
            return; // nothing may follow
        }
        3 if p.n == 0 => {
            let name = p.random.range(2, 8) as u8;
            p.bytes.push(name);
            for _ in 0..WIDTHS[name as usize] {
                let byte = p.random.pick(&[0, 1, 2, 255]) as u8;
                p.bytes.push(byte);
            }
        }
        3 | 4 if p.n != 0 => {
            // of either kind
            let n = p.random.pick(&[0, 1, 2, 8, 9, 255]) as u8;
            let eta = p.random.pick(&[0, 15, 16, 255]) as u8;
            p.bytes.extend([setup, n, eta]);
        }
        5 if p.n == 0 => {
            let n = p.random.pick(&[0, 1, 9, 255]) as u8;
            let eta = p.random.pick(&[0, 15, 16, 255]) as u8;
            p.bytes.extend([setup, n, eta]);
        }
        4 | 6 if p.n == 0 => {
            let n = p.random.pick(&[2, 8]) as u8;
            let eta = p.random.pick(&[0, 1, 15]) as u8;
            p.bytes.extend([setup, n, eta]);
        }
        5..=7 => match p.random.range(0, 6) {
            0 => p.bytes.extend([START, wrong as u8]),
            1 => p.bytes.extend([CRASH, wrong as u8]),
            2 => p.bytes.extend([LINK, wrong as u8, s as u8, 200]),
            3 => p.bytes.extend([LINK, s as u8, wrong as u8, 1]),
            4 => p.bytes.extend([LOSE, wrong as u8, wrong as u8]),
            5 => {
                let rank = p.random.pick(&[0, 7, 8, 255]) as u8;
                p.bytes.extend([RANK, wrong as u8, rank]);
            }
            _ => p.bytes.extend([LOSE, s as u8, wrong as u8]),
        },
        8 => {
            let s = p.some(true).unwrap_or(s);
            p.bytes.extend([START, s as u8]);
        }
        9 => {
            let s = p.some(false).unwrap_or(s);
            p.bytes.extend([CRASH, s as u8]);
        }
        10 => p.bytes.extend([LINK, s as u8, s as u8, 65]),
        11 => p.bytes.extend([LOSE, s as u8, s as u8]),
        12 | 13 if p.n != 0 && p.clock => {
            // clock heads have no ranks, whatever the operands
            let of = p.random.pick(&[s, wrong]) as u8;
            let rank = p.random.pick(&[0, 1, 7, 8, 255]) as u8;
            p.bytes.extend([RANK, of, rank]);
        }
        12 if p.n == 0 => {
            // all operands, or too few
            let there = p.random.range(0, 2) as usize;
            p.bytes.extend(&[RANK, 1, 0][..1 + there]);
            if there < 2 {
                return;
            }
        }
        12 => {
            let rank = p.random.pick(&[8, 8, 9, 16, 128, 255]) as u8;
            p.bytes.extend([RANK, s as u8, rank]);
        }
        13 => {
            if p.n != 0 && p.fresh() {
                p.start(s);
            }
            // a head that was started and is down counts too
            if p.random.percent(50) {
                while p.some(true).is_some() {
                    p.crash_some();
                }
            }
            let of = if p.n == 0 || p.random.percent(50) { s } else { p.station() };
            let rank = p.random.range(0, LAST_RANK) as u8;
            p.bytes.extend([RANK, of as u8, rank]);
        }
        _ => p.bytes.extend([RUN, 0, 0]),
    }
    // bytes that must not be reached
    for _ in 0..p.random.range(0, 4) {
        let byte = p.random.range(0, 9) as u8;
        p.bytes.push(byte);
    }
}

/// Some accepted commands, then a refused one.
fn refused(p: &mut Plan) {
    if p.random.percent(75) {
        p.set_up_any();
        if p.random.percent(50) {
            p.start_all();
        }
        for _ in 0..p.random.range(0, 12) {
            p.step([20, 10, 15, 45, 5, 5]);
        }
    }
    refusal(p);
}

/// A schedule that ends inside its last command.
fn missing(p: &mut Plan) {
    valid(p);
    p.bytes.pop(); // the report
    match p.random.range(0, 2) {
        0 => p.run_silent(3),
        1 => p.link_some(),
        _ => p.rank_some(),
    }
    for _ in 0..p.random.range(1, 3) {
        p.bytes.pop();
    }
}

/// Another schedule with bytes changed, cut or inserted.
fn damaged(p: &mut Plan) {
    match p.random.range(0, 5) {
        0 => storm(p),
        1 => slow(p),
        2 => lose(p),
        3 => reports(p),
        _ => valid(p),
    }
    for _ in 0..p.random.range(1, 3) {
        let length = p.bytes.len() as u64;
        if length < 4 {
            return;
        }
        // seldom in the set up, so that something runs
        let low = if p.random.percent(20) { 0 } else { 3 };
        let place = p.random.range(low, length - 1) as usize;
        match p.random.range(0, 6) {
            0 => p.bytes[place] = p.random.byte(),
            1 => p.bytes[place] = p.random.range(0, 10) as u8,
            2 => p.bytes[place] ^= 1 << p.random.range(0, 7),
            3 => {
                let byte = p.random.range(0, 10) as u8;
                p.bytes.insert(place, byte);
            }
            4 => {
                p.bytes.remove(place);
            }
            5 => p.bytes[0] ^= SETUP ^ CLOCK_SETUP, // mostly heads of the other kind
            _ => {
                if p.random.percent(50) {
                    p.bytes.truncate(place);
                } else {
                    let byte = p.random.pick(&[0, 255]) as u8;
                    p.bytes[place] = byte;
                }
            }
        }
    }
}

/// Bytes with no plan, mostly small ones.
fn noise(p: &mut Plan) {
    if p.random.percent(70) {
        p.set_up_any();
    }
    for _ in 0..p.random.range(1, 60) {
        let byte = if p.random.percent(90) { p.random.range(0, 10) as u8 } else { p.random.byte() };
        p.bytes.push(byte);
    }
}

/// Exactly 65,536 bytes, or more.
fn huge(p: &mut Plan) {
    p.set_up(2, 16);
    p.start_all();
    p.run(40);
    let length = p.random.pick(&[65_535, 65_536, 65_536, 65_537, 65_537, 65_538, 70_000, 140_000]) as usize;
    while p.bytes.len() + 8 < length {
        match p.random.range(0, 99) {
            0..=59 => p.link_some(),
            60..=98 => p.lose_some(),
            _ => p.run_some(),
        }
    }
    while p.bytes.len() < length {
        p.report();
    }
}

type Kind = (u64, u64, &'static str, fn(&mut Plan));

/// How many of each kind in 3,000, of flash heads and of clock heads: 2,000 and 1,000.
const KINDS: [Kind; 30] = [
    (235, 80, "valid", valid),
    (170, 60, "storm", storm),
    (130, 50, "unstable", unstable),
    (140, 65, "slow", slow),
    (130, 55, "cut", cut),
    (150, 60, "overtake", overtake),
    (80, 50, "collide", collide),
    (60, 0, "informed", informed),
    (60, 0, "restarted", restarted),
    (60, 0, "ranked", ranked),
    (0, 50, "waits", waits),
    (0, 25, "again", again),
    (0, 35, "given up", given_up),
    (0, 50, "equals", equals),
    (0, 45, "comeback", comeback),
    (0, 45, "stale", stale),
    (0, 10, "late", late),
    (110, 45, "lose", lose),
    (90, 40, "reports", reports),
    (100, 40, "boundary", boundary),
    (220, 90, "refused", refused),
    (30, 10, "missing", missing),
    (150, 60, "damaged", damaged),
    (40, 15, "noise", noise),
    (24, 9, "long", long),
    (8, 4, "far", far),
    (8, 5, "wear", wear),
    (2, 1, "huge", huge),
    (2, 0, "empty", |_| {}),
    (1, 1, "still", |p| p.set_up_any()),
];

/// The kind of a schedule, with its heads, and its bytes.
pub fn schedule(seed: u64, number: u64) -> (String, Vec<u8>) {
    let mut seeds = Random(seed);
    let mut random = Random(seeds.next() ^ number.wrapping_mul(0xD1B5_4A32_D192_ED03));
    let total: u64 = KINDS.iter().map(|k| k.0 + k.1).sum();
    let mut x = random.range(1, total);
    for (flash, clock, name, make) in KINDS {
        if x <= flash + clock {
            let heads = if x <= flash { "flash" } else { "clock" };
            let mut plan = Plan::new(random, x > flash);
            make(&mut plan);
            return (format!("{heads} {name}"), plan.bytes);
        }
        x -= flash + clock;
    }
    unreachable!()
}
