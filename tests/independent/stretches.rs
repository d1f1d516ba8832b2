// stretches COUNT SEED PROGRAM: tries the bound on divided ticks, demand 3 and Paper 7 of document 02, on fixed rows and
// on COUNT cases made from SEED: a schedule of flash heads, a stretch after it and the heads that are steady in it, so
// that the conditions are met. The ticks are counted on the independent desk (desk.rs) and, where a report at every tick
// fits into a schedule, once more from what PROGRAM prints. The bytes of a row or case that fails are kept as
// fails-SEED-row-NUMBER.bin or fails-SEED-case-NUMBER.bin in the current folder. Prints what was reached and
// 'N passed, M failed'.

mod desk;
mod program;
mod random;
mod search;

use desk::{at, command, Desk, Knows, Up, LAST_COUNT, LAST_RANK, LAST_TICK, LONGEST_DELAY};
use random::Random;
use std::collections::BTreeSet;

const LONGEST_SCHEDULE: usize = 65_536;
const MOST_SHOWN: u64 = 10;

/// What is asked of a stretch.
#[derive(Clone, Copy, PartialEq, Eq, PartialOrd, Ord, Debug)]
enum Condition {
    Steady,   // some heads are steady, and those are up for the whole stretch
    Starts,   // every other one has strictly more starts than L, whenever it is up
    Lost,     // no message between steady heads is lost
    Cut,      // nor cut
    SentLate, // nor sent with a delay above d
    Arriving, // those under way to a steady head at the beginning, from any head, need at most d more ticks
}

/// Whether a head that isn't steady may be up, by its starts and those of L.
fn may_be_up(starts: u64, of_leader: u64) -> bool {
    starts > of_leader
}

/// The most ticks that a message under way to a steady head needs.
fn longest_way(desk: &Desk, steady: &[u64]) -> u64 {
    let to_steady = desk.under_way.iter().filter(|m| steady.contains(&m.to));
    to_steady.map(|m| m.due - desk.tick).max().unwrap_or(0)
}

/// The first by starts, rank and number.
fn first(heads: &[u64], history: &History) -> Option<u64> {
    heads.iter().copied().min_by_key(|&h| (history.starts[at(h)], history.ranks[at(h)], h))
}

fn bound(desk: &Desk, steady: &[u64], d: u64) -> u64 {
    let wait = |up: &Up| if up.waiting { up.chance - desk.tick } else { 0 };
    let w = steady.iter().map(|&h| wait(up(desk, h))).max().unwrap_or(0);
    let m = steady.iter().flat_map(|&h| timeouts(up(desk, h))).copied().max().unwrap_or(0);
    let k = steady.len() as u64;
    w + m + 3 * d + desk.eta + k.saturating_sub(1) * d.saturating_sub(1) * d.saturating_sub(2) / 2
}

/// A head that is up.
fn up(desk: &Desk, head: u64) -> &Up {
    desk.stations[at(head)].up.as_ref().expect("the head is up")
}

/// A flash head's timeouts for the others, and 0 for itself.
fn timeouts(up: &Up) -> &[u64] {
    match &up.knows {
        Knows::Counts { timeout, .. } => timeout,
        Knows::Stamps { .. } => &[],
    }
}

/// What the accepted commands so far say of the heads.
#[derive(Default)]
struct History {
    starts: Vec<u64>,
    up: Vec<bool>,
    ranks: Vec<u64>,
}

impl History {
    fn accept(&mut self, command: &[u8]) {
        match *command {
            [1, n, _] => {
                self.starts = vec![0; n as usize];
                self.up = vec![false; n as usize];
                self.ranks = vec![0; n as usize];
            }
            [2, head] => {
                self.starts[at(head as u64)] += 1;
                self.up[at(head as u64)] = true;
            }
            [3, head] => self.up[at(head as u64)] = false,
            [8, head, rank] => self.ranks[at(head as u64)] = rank as u64,
            _ => {}
        }
    }

    fn heads(&self, up: bool) -> Vec<u64> {
        (1..=self.up.len() as u64).filter(|&h| self.up[at(h)] == up).collect()
    }
}

/// A schedule, the entries of the stretch after it, the heads that are steady in it, and d.
struct Case {
    schedule: Vec<u8>,
    stretch: Vec<Vec<u8>>,
    steady: Vec<u64>,
    d: u64,
}

/// What the independent desk says of a case.
struct Figures {
    leader: u64,
    missed: BTreeSet<Condition>,
    bound: u64,
    count: Count,
    starts: u64,  // accepted in the stretch
    crashes: u64, // likewise
    all_steady: bool,
    plain: Vec<u8>,  // the schedule and the accepted commands of the stretch
    bytes: Vec<u8>,  // the same with a report at the beginning of the stretch and after each of its ticks
    printed: String, // for these, unless they are too many
}

/// The ticks of a stretch.
#[derive(Default, PartialEq, Debug)]
struct Count {
    ticks: u64,
    divided: u64, // at whose end some steady head doesn't trust L
    loud: u64,    // others, in which a steady head but L sends
}

impl Count {
    /// A tick, of each steady head whom it trusts at the end and whether it sends.
    fn tick(&mut self, leader: u64, steady: &[(u64, u64, bool)]) {
        self.ticks += 1;
        if steady.iter().any(|&(_, trusted, _)| trusted != leader) {
            self.divided += 1;
        } else if steady.iter().any(|&(head, _, sends)| sends && head != leader) {
            self.loud += 1;
        }
    }
}

impl Case {
    fn told(&self) -> String {
        let steady: Vec<String> = self.steady.iter().map(u64::to_string).collect();
        format!("steady {}, d {}", steady.join(","), self.d)
    }

    /// Does the schedule and the stretch, and sees how the conditions are met. Err if the schedule is refused.
    fn figures(&self) -> Result<Figures, String> {
        if self.schedule.len() > LONGEST_SCHEDULE {
            return Err("the schedule is refused with 21".to_string());
        }
        let mut state = None;
        let mut history = History::default();
        let mut offset = 0;
        while offset < self.schedule.len() {
            match command(&mut state, &self.schedule[offset..]) {
                Ok((length, _)) => {
                    history.accept(&self.schedule[offset..offset + length]);
                    offset += length;
                }
                Err(number) => return Err(format!("the schedule is refused with {number} at {offset}")),
            }
        }

        let mut missed = BTreeSet::new();
        let steady_up = |history: &History| self.steady.iter().all(|&h| history.up[at(h)]);
        let desk = state.as_ref().ok_or("nothing is set up")?;
        let leader = first(&self.steady, &history).ok_or("no head is steady")?;
        if !steady_up(&history) {
            return Err("a steady head is down at the beginning".to_string());
        }
        if longest_way(desk, &self.steady) > self.d {
            missed.insert(Condition::Arriving);
        }
        let mut figures = Figures {
            leader,
            missed,
            bound: bound(desk, &self.steady, self.d),
            count: Count::default(),
            starts: 0,
            crashes: 0,
            all_steady: history.heads(true).len() == self.steady.len(),
            plain: self.schedule.clone(),
            bytes: self.schedule.clone(),
            printed: String::new(),
        };
        figures.bytes.push(7);
        figures.printed += &desk.listing();

        self.others(&history, &mut figures);
        for entry in &self.stretch {
            let desk = state.as_mut().expect("it is set up");
            let ticks = run(desk, entry);
            for _ in 0..ticks {
                self.tick(desk, &mut figures);
            }
            if ticks > 0 {
                figures.plain.extend(&entry[..3]);
                continue;
            }
            if let [6, from, to, ..] = entry[..] {
                let (from, to) = (from as u64, to as u64);
                let steady = self.steady.contains(&from) && self.steady.contains(&to);
                if steady && desk.under_way.iter().any(|m| m.from == from && m.to == to) {
                    figures.missed.insert(Condition::Lost);
                }
            }
            let Ok((length, report)) = command(&mut state, entry) else { continue };
            history.accept(&entry[..length]);
            figures.plain.extend(&entry[..length]);
            figures.bytes.extend(&entry[..length]);
            if report {
                figures.printed += &state.as_ref().expect("it is set up").listing();
            }
            figures.starts += u64::from(entry[0] == 2);
            figures.crashes += u64::from(entry[0] == 3);
            if !steady_up(&history) {
                figures.missed.insert(Condition::Steady);
                return Ok(figures);
            }
            self.others(&history, &mut figures);
        }
        figures.printed += &format!("end {}\n", figures.bytes.len());
        Ok(figures)
    }

    /// The starts of the other heads that are up.
    fn others(&self, history: &History, figures: &mut Figures) {
        let of_leader = history.starts[at(figures.leader)];
        for head in history.heads(true).into_iter().filter(|h| !self.steady.contains(h)) {
            if !may_be_up(history.starts[at(head)], of_leader) {
                figures.missed.insert(Condition::Starts);
            }
        }
    }

    fn tick(&self, desk: &mut Desk, figures: &mut Figures) {
        let sent: Vec<u64> = self.steady.iter().map(|&h| desk.stations[at(h)].sent).collect();
        desk.one_tick();
        let mut seen = Vec::new();
        for (&head, &sent) in self.steady.iter().zip(&sent) {
            let sends = desk.stations[at(head)].sent > sent;
            seen.push((head, up(desk, head).leader, sends));
            for &to in self.steady.iter().filter(|&&to| sends && to != head) {
                match desk.delay[at(head)][at(to)] {
                    0 => figures.missed.insert(Condition::Cut),
                    delay if delay > self.d => figures.missed.insert(Condition::SentLate),
                    _ => true,
                };
            }
        }
        figures.count.tick(figures.leader, &seen);
        figures.bytes.extend([5, 1, 0, 7]);
        if figures.bytes.len() <= LONGEST_SCHEDULE {
            figures.printed += &desk.listing();
        }
    }
}

/// The ticks of an entry that is an accepted run, else 0.
fn run(desk: &Desk, entry: &[u8]) -> u64 {
    match *entry {
        [5, low, high, ..] => {
            let ticks = low as u64 + 256 * high as u64;
            if desk.tick + ticks <= LAST_TICK {
                ticks
            } else {
                0
            }
        }
        _ => 0,
    }
}

/// The same count from what PROGRAM prints, where a listing was asked for at the beginning and after each tick.
fn count(printed: &str, steady: &[u64], leader: u64) -> Result<Count, String> {
    let number = |word: &str| word.parse::<u64>().map_err(|_| format!("prints {word:?} for a number"));
    let mut count = Count::default();
    let mut before: Option<(u64, Vec<u64>)> = None; // the tick of the listing before, and the steady heads' sent counts
    let mut tick = 0;
    let mut heads = Vec::new(); // those that are up: number, trusted leader, sent count
    for line in printed.lines() {
        let words: Vec<&str> = line.split(' ').collect();
        match words[..] {
            ["tick", word] => {
                tick = number(word)?;
                heads.clear();
            }
            [head, "up", "leader", trusted, "inc", _, "rec", _, "sent", sent, "kept", _] => {
                heads.push((number(head)?, number(trusted)?, number(sent)?));
            }
            [_, "down", ..] => {}
            ["agreed", ..] | ["split"] | ["dark"] => {
                heads.retain(|&(head, ..)| steady.contains(&head));
                if heads.len() != steady.len() {
                    return Err(format!("a steady head is not up at tick {tick}"));
                }
                match &before {
                    Some((last, sent)) if tick == last + 1 => {
                        let seen = heads.iter().zip(sent).map(|(head, &sent)| (head.0, head.1, head.2 > sent));
                        count.tick(leader, &seen.collect::<Vec<_>>());
                    }
                    Some((last, _)) if tick != *last => return Err(format!("tick {tick} is listed after {last}")),
                    _ => {}
                }
                before = Some((tick, heads.iter().map(|&(_, _, sent)| sent).collect()));
            }
            ["end", _] => return Ok(count),
            _ => return Err(format!("prints {line:?}")),
        }
    }
    Err("prints no last line".to_string())
}

/// A fixed case, in hex: which conditions it misses, its ticks, those that are divided, and the bound.
struct Row {
    schedule: &'static str,
    stretch: &'static [&'static str],
    steady: &'static [u64],
    d: u64,
    missed: &'static [Condition],
    figures: [u64; 3],
}

const ROWS: [Row; 8] = [
    // Demand 3: nobody starts or crashes. The messages of the dead 1 are under way, and one to it.
    Row {
        schedule: "010310 04020140 0201 0202 051400 0203 04010203 04010303 050d00 0301 050200",
        stretch: &["060103", "060201", "04020303", "04020100", "04030140", "07", "051400", "0202", "060203", "051200"],
        steady: &[2, 3],
        d: 3,
        missed: &[],
        figures: [38, 32, 46],
    },
    // Paper 7, from two ticks before: 1 restarts twice. Its messages are lost, cut and slow, and so are those to it; the start
    // of 2 is refused.
    Row {
        schedule: "010310 04020140 0201 0202 051400 0203 04010203 04010303 050d00 0301",
        stretch: &[
            "060103", "060201", "04020303", "04010200", "04030100", "04010314", "0201", "051600", "0301", "060103", "0201",
            "0202", "060203", "052800",
        ],
        steady: &[2, 3],
        d: 3,
        missed: &[],
        figures: [62, 34, 47],
    },
    // 1 is up when the stretch begins, with a longer wait and longer timeouts than 2 and 3, and crashes in it.
    Row {
        schedule: "010310 04020303 04030203 04020100 04030100 0202 0203 0201 0301 0201",
        stretch: &["051400", "0301", "051400"],
        steady: &[2, 3],
        d: 3,
        missed: &[],
        figures: [40, 19, 60],
    },
    // Each of the others misses one condition alone, and passes the bound. Here 1 has as many starts as L.
    Row {
        schedule: "010210 0202 052800",
        stretch: &["0201", "053c00"],
        steady: &[2],
        d: 1,
        missed: &[Condition::Starts],
        figures: [60, 43, 36],
    },
    // What 1 sent before it crashed needs up to 63 ticks; it starts again over a cut link.
    Row {
        schedule: "010210 04010240 0201 0202 054200 0301",
        stretch: &["04010200", "0201", "053700"],
        steady: &[2],
        d: 1,
        missed: &[Condition::Arriving],
        figures: [55, 41, 36],
    },
    // L's messages are lost,
    Row {
        schedule: "010210 0201 0202 051400",
        stretch: &["050d00", "060102", "051000", "060102", "051000", "060102", "050a00"],
        steady: &[1, 2],
        d: 1,
        missed: &[Condition::Lost],
        figures: [55, 41, 36],
    },
    // cut,
    Row {
        schedule: "010210 0201 0202 051400",
        stretch: &["04010200", "053700"],
        steady: &[1, 2],
        d: 1,
        missed: &[Condition::Cut],
        figures: [55, 41, 36],
    },
    // or slow.
    Row {
        schedule: "010210 0201 0202 051400",
        stretch: &["04010240", "053700"],
        steady: &[1, 2],
        d: 1,
        missed: &[Condition::SentLate],
        figures: [55, 41, 36],
    },
];

/// Hex digits, two a byte; blanks are left out.
fn bytes(hex: &str) -> Vec<u8> {
    let digits: Vec<u8> = hex.chars().filter_map(|c| c.to_digit(16)).map(|digit| digit as u8).collect();
    digits.chunks(2).map(|two| 16 * two[0] + two[1]).collect()
}

impl Row {
    fn case(&self) -> Case {
        let stretch = self.stretch.iter().map(|entry| bytes(entry)).collect();
        Case { schedule: bytes(self.schedule), stretch, steady: self.steady.to_vec(), d: self.d }
    }
}

/// How L's messages to the other steady heads are delayed.
#[derive(Clone, Copy, PartialEq)]
enum Ways {
    Harry, // so that their timers end as often and as early as can be, one head after the other
    Any,   // anew at each sending
    Ends,  // by 1 or d
    Longest,
    Left, // as it comes
}

/// Makes a case, command by command, on a desk of its own.
struct Maker {
    random: Random,
    state: Option<Desk>,
    history: History,
    schedule: Vec<u8>,
    stretch: Option<Vec<Vec<u8>>>, // none until the schedule is finished
    sharp: bool,                   // less is left to chance, to come near the bound
}

impl Maker {
    fn desk(&self) -> &Desk {
        self.state.as_ref().expect("it is set up")
    }

    fn tick(&self) -> u64 {
        self.desk().tick
    }

    fn eta(&self) -> u64 {
        self.desk().eta
    }

    fn n(&self) -> u64 {
        self.desk().n
    }

    /// Hands a command to the desk and writes it down, if it is accepted or stands in the stretch.
    fn give(&mut self, bytes: &[u8]) {
        let answer = command(&mut self.state, bytes);
        if let Ok((length, _)) = answer {
            self.history.accept(&bytes[..length]);
        }
        match &mut self.stretch {
            Some(stretch) => {
                let mut entry = bytes.to_vec();
                // Command does the first command alone
                if answer.is_ok() && self.random.percent(1) {
                    entry.push(self.random.byte());
                }
                stretch.push(entry);
            }
            None if answer.is_ok() => self.schedule.extend(bytes),
            None => {}
        }
    }

    fn start(&mut self, head: u64) {
        self.give(&[2, head as u8]);
    }

    fn crash(&mut self, head: u64) {
        self.give(&[3, head as u8]);
    }

    fn link(&mut self, from: u64, to: u64, delay: u64) {
        self.give(&[4, from as u8, to as u8, delay as u8]);
    }

    fn lose(&mut self, from: u64, to: u64) {
        self.give(&[6, from as u8, to as u8]);
    }

    /// Not past the last tick.
    fn run(&mut self, ticks: u64) {
        let mut left = ticks.min(LAST_TICK - self.tick());
        while left > 0 {
            let part = left.min(65_535);
            self.give(&[5, (part % 256) as u8, (part / 256) as u8]);
            left -= part;
        }
    }

    fn head(&mut self) -> u64 {
        let n = self.n();
        self.random.range(1, n)
    }

    /// Two heads that differ.
    fn ends(&mut self) -> (u64, u64) {
        let from = self.head();
        let to = (from + self.random.range(0, self.n() - 2)) % self.n() + 1;
        (from, to)
    }

    fn shuffled(&mut self, mut heads: Vec<u64>) -> Vec<u64> {
        for i in (1..heads.len()).rev() {
            heads.swap(i, self.random.range(0, i as u64) as usize);
        }
        heads
    }

    fn up(&self, head: u64) -> &Up {
        up(self.desk(), head)
    }

    fn set_up(&mut self, n: u64) {
        let eta = match self.random.range(0, 9) {
            _ if self.sharp => 16,
            0..=5 => 16,
            6..=7 => self.random.range(16, 24),
            _ => self.random.range(16, 64),
        };
        self.give(&[1, n as u8, eta as u8]);
        if self.random.percent(40) {
            for head in 1..=n {
                let any = self.random.range(0, LAST_RANK);
                let rank = self.random.pick(&[0, 1, LAST_RANK, any]);
                self.give(&[8, head as u8, rank as u8]);
            }
        }
    }

    fn any_delay(&mut self, d: u64) -> u64 {
        match self.random.range(0, 9) {
            0..=1 => 0,
            2..=3 => self.random.range(1, 4),
            4..=5 => self.random.range(1, d),
            6 => d,
            7 => self.random.range(16, 64),
            8 => self.random.range(0, LONGEST_DELAY),
            _ => LONGEST_DELAY,
        }
    }

    /// Heads come and go over links of all kinds.
    fn any_opening(&mut self, d: u64) {
        for head in 1..=self.n() {
            if self.random.percent(70) {
                self.start(head);
            }
        }
        for _ in 0..self.random.range(5, 60) {
            let head = self.head();
            let (from, to) = self.ends();
            match self.random.range(0, 19) {
                0..=3 => self.start(head),
                4..=5 => self.crash(head),
                6..=9 => {
                    let delay = self.any_delay(d);
                    self.link(from, to, delay);
                }
                10 => self.lose(from, to),
                11..=12 => {
                    let ticks = self.random.range(1, 120);
                    self.run(ticks);
                }
                _ => {
                    let ticks = self.random.range(1, self.eta() + 2);
                    self.run(ticks);
                }
            }
        }
        if self.random.percent(30) {
            for head in self.history.heads(false) {
                self.start(head);
            }
        }
    }

    /// One head leads the others; then it crashes, with messages under way that need up to d more ticks.
    fn old_leader(&mut self, d: u64) {
        let times = if self.sharp { 1 } else { self.random.pick(&[1, 1, 1, 1, 1, 1, 2, 3, 20]) };
        let heads = self.shuffled((1..=self.n()).collect());
        for &head in &heads {
            let more = if !self.sharp && self.random.percent(25) { self.random.range(1, 3) } else { 0 };
            for _ in 1..times + more {
                self.start(head);
                self.crash(head);
            }
            self.start(head);
            let ticks = self.random.range(0, self.eta() / 2);
            self.run(ticks);
        }
        let ticks = self.random.range(2 * self.eta(), 4 * self.eta()) + times;
        self.run(ticks);
        let heads = self.history.heads(true); // one that is worn out is down
        let old = first(&heads, &self.history).expect("there are heads");
        let others: Vec<u64> = heads.into_iter().filter(|&h| h != old).collect();
        if self.random.percent(35) {
            let times = self.random.pick(&[1, 2, 5, 10, 30]);
            self.raise(old, &others, times);
        }

        if !self.sharp && self.random.percent(30) {
            // it sends slowly to some of them
            let delay = self.random.pick(&[64, 128, LONGEST_DELAY]);
            for &other in &others {
                if self.random.percent(70) {
                    self.link(old, other, delay);
                }
            }
            let ticks = self.random.range(1, LONGEST_DELAY);
            self.run(ticks);
            self.crash(old);
            return;
        }

        // when its last messages arrive at each of the others, counted from the last sending; the last at d, mostly
        let apart = self.sharp || self.random.percent(60); // each when the timer has just ended
        let mut arrivals: Vec<Vec<u64>> = Vec::new();
        for &other in &others {
            let mut timeout = timeouts(self.up(other))[at(old)] + 1;
            let mut last = 1;
            let mut at_other = Vec::new();
            while apart && last + timeout + 1 < d {
                at_other.push(last);
                last += timeout + 1;
                timeout += 1;
            }
            if at_other.is_empty() && d > 1 && self.random.percent(30) {
                at_other.push(self.random.range(1, d - 1));
            }
            at_other.push(if self.sharp || self.random.percent(85) { d } else { self.random.range(1, d) });
            arrivals.push(at_other);
        }
        let sendings = arrivals.iter().map(Vec::len).max().unwrap_or(0);
        for sending in 0..sendings {
            let left = (sendings - 1 - sending) as u64;
            let ticks = self.up(old).chance - 1 - self.tick();
            self.run(ticks);
            for (&other, at_other) in others.iter().zip(&arrivals) {
                let delay = match (at_other.len() + sending).checked_sub(sendings) {
                    Some(place) => (at_other[place] + left * self.eta()).min(LONGEST_DELAY),
                    None => 1,
                };
                self.link(old, other, delay);
            }
            self.run(1);
        }
        self.crash(old);
    }

    /// Lets the timers of the others for a head end so many times.
    fn raise(&mut self, head: u64, others: &[u64], times: u64) {
        for _ in 0..times {
            for &other in others {
                self.link(head, other, 0);
            }
            let longest = others.iter().map(|&other| timeouts(self.up(other))[at(head)]).max().unwrap_or(0);
            self.run(longest + 1);
            for &other in others {
                self.link(head, other, 1);
            }
            let ticks = self.eta() + 1;
            self.run(ticks);
        }
    }

    /// Some of the heads that are up, at most so many. Of the rest those that may not be up crash, and in a quiet
    /// stretch all.
    fn steady(&mut self, most: u64, quiet: bool) -> Vec<u64> {
        while self.history.heads(true).is_empty() {
            let head = self.head();
            self.start(head);
        }
        let heads = self.history.heads(true);
        let most = most.min(heads.len() as u64);
        let most = if quiet { most } else { most.min(self.n() - 1) };
        let many = if quiet || self.random.percent(60) { most } else { self.random.range(1, most) };
        let mut steady = self.shuffled(heads.clone());
        steady.truncate(many as usize);
        steady.sort();
        let leader = first(&steady, &self.history).expect("there is one");
        for other in heads.into_iter().filter(|h| !steady.contains(h)) {
            let may = may_be_up(self.history.starts[at(other)], self.history.starts[at(leader)]);
            if quiet || !may || self.random.percent(20) {
                self.crash(other);
            }
        }
        steady
    }

    /// Waits for what is under way to the steady heads, or loses it, until it needs at most d ticks.
    fn await_arrivals(&mut self, steady: &[u64], d: u64) {
        for _ in 0..self.random.range(1, 4) {
            let way = longest_way(self.desk(), steady);
            if way > d {
                self.run(way - d);
            }
        }
        if longest_way(self.desk(), steady) > d {
            let tick = self.tick();
            let late = self.desk().under_way.iter().filter(|m| steady.contains(&m.to) && m.due > tick + d);
            for (from, to) in late.map(|m| (m.from, m.to)).collect::<BTreeSet<_>>() {
                self.lose(from, to);
            }
        }
    }

    /// A command that is refused.
    fn refused(&mut self) {
        let head = self.head() as u8;
        let byte = self.random.byte();
        let up = self.history.up[at(head as u64)];
        let n = self.n() as u8;
        let bytes: &[u8] = match self.random.range(0, 15) {
            0 => &[],
            1 => &[1, 2, 16],
            2 => &[9, n, 20],
            3 => &[5, 0, 0],
            4 => &[5, byte],
            5 => &[2],
            6 => &[2, n + 1],
            7 => &[3, 0],
            8 => &[4, head, head, byte],
            9 => &[6, head, head],
            10 => &[6, n + 1, head],
            11 => &[8, head, byte],
            12 if byte == 0 || byte > 9 => &[byte, head, 1],
            13 if self.tick() > LAST_TICK - 65_535 => &[5, 255, 255],
            _ if up => &[2, head],
            _ => &[3, head],
        };
        self.give(bytes);
    }
}

/// What a stretch is made by.
struct Plan {
    steady: Vec<u64>,
    others: Vec<u64>,
    leader: u64,
    d: u64,
    ways: Ways,
    until: Vec<u64>, // for each head the tick before which it shall hear nothing of L
    start_percent: u64,
    crash_percent: u64, // of a head that isn't steady, and has sent
    noise_percent: u64,
}

impl Plan {
    fn followers(&self) -> Vec<u64> {
        self.steady.iter().copied().filter(|&h| h != self.leader).collect()
    }

    /// The first of the followers whose timer can be made to end again.
    fn target(&self, desk: &Desk) -> Option<u64> {
        let most = desk.eta + self.d - 1;
        self.followers().into_iter().find(|&h| timeouts(up(desk, h))[at(self.leader)] < most)
    }
}

impl Maker {
    fn make_stretch(&mut self, plan: &mut Plan, least: u64) {
        let begin = self.tick();
        let d = plan.d;
        for &from in &plan.steady {
            for &to in plan.steady.iter().filter(|&&to| to != from) {
                let delay = self.desk().delay[at(from)][at(to)];
                if delay == 0 || delay > d {
                    let delay = self.random.range(1, d);
                    self.link(from, to, delay);
                }
            }
        }
        loop {
            let ticks = self.tick() - begin;
            let more = plan.ways == Ways::Harry && plan.target(self.desk()).is_some() && ticks < least + 100_000;
            if ticks >= least && !more || self.tick() == LAST_TICK {
                break;
            }
            self.noise(plan);
            let left = self.up(plan.leader).chance - self.tick();
            if left == 1 {
                self.leader_sends(plan);
            } else {
                let ticks = match self.random.range(0, 3) {
                    0 => 1,
                    1 => self.random.range(1, left - 1),
                    _ => left - 1,
                };
                self.run(ticks);
            }
        }
    }

    /// The tick of L's send chance, with the delays that it finds.
    fn leader_sends(&mut self, plan: &mut Plan) {
        let (leader, d, tick) = (plan.leader, plan.d, self.tick() + 1);
        let target = plan.target(self.desk());
        let sent = self.desk().stations[at(leader)].sent;
        let mut until = plan.until.clone();
        for head in plan.followers() {
            let delay = match plan.ways {
                Ways::Left => continue,
                Ways::Any => self.random.range(1, d),
                Ways::Ends => self.random.pick(&[1, d]),
                Ways::Longest => d,
                Ways::Harry if until[at(head)] > tick => (until[at(head)] - tick).min(d),
                Ways::Harry if until[at(head)] < tick && self.up(head).leader != leader => {
                    until[at(head)] = tick + d;
                    d
                }
                // this one at once, and the next as late as can be
                Ways::Harry => {
                    if target == Some(head) {
                        until[at(head)] = tick + self.eta() + d;
                    }
                    1
                }
            };
            if self.desk().delay[at(leader)][at(head)] != delay {
                self.link(leader, head, delay);
            }
        }
        self.run(1);
        if self.desk().stations[at(leader)].sent > sent {
            plan.until = until;
        }
    }

    /// What happens between ticks.
    fn noise(&mut self, plan: &Plan) {
        let of_leader = self.history.starts[at(plan.leader)];
        for &other in &plan.others {
            if self.history.up[at(other)] {
                let waiting = self.up(other).waiting;
                if self.random.percent(if waiting { plan.crash_percent / 8 } else { plan.crash_percent }) {
                    self.crash(other);
                }
            }
            if !self.history.up[at(other)] {
                let starts = self.history.starts[at(other)];
                if may_be_up(starts + 1, of_leader) && self.random.percent(plan.start_percent) {
                    self.start(other);
                }
            }
        }
        while self.random.percent(plan.noise_percent) {
            let (from, to) = self.ends();
            let between = plan.steady.contains(&from) && plan.steady.contains(&to);
            match self.random.range(0, 9) {
                0..=5 if between => {
                    let delay = self.random.range(1, plan.d);
                    self.link(from, to, delay);
                }
                0..=5 => {
                    let delay = self.any_delay(plan.d);
                    self.link(from, to, delay);
                }
                6 if !between || !self.desk().under_way.iter().any(|m| m.from == from && m.to == to) => {
                    self.lose(from, to);
                }
                7 => self.give(&[7]),
                8 if between => self.slip(plan, from, to),
                _ => self.refused(),
            }
        }
    }

    /// A link between steady heads is cut or slow for some ticks in which none of them sends.
    fn slip(&mut self, plan: &Plan, from: u64, to: u64) {
        let chance = plan.steady.iter().map(|&h| self.up(h).chance).min().unwrap_or(0);
        let ticks = chance - 1 - self.tick();
        if ticks > 0 {
            let bad = self.random.pick(&[0, LONGEST_DELAY]);
            self.link(from, to, bad);
            let ticks = self.random.range(1, ticks);
            self.run(ticks);
            let delay = self.random.range(1, plan.d);
            self.link(from, to, delay);
        }
    }
}

impl Case {
    /// The same seed and number always give the same case.
    fn random(seed: u64, number: u64) -> Case {
        let mut seeds = Random(seed);
        let mut random = Random(seeds.next() ^ number.wrapping_mul(0xD1B5_4A32_D192_ED03));
        let d = match random.range(0, 99) {
            0..=14 => 1,
            15..=24 => 2,
            25..=62 => random.range(3, 10),
            63..=82 => random.range(8, 20),
            83..=92 => random.range(20, 40),
            93..=98 => random.range(50, LONGEST_DELAY),
            _ => LONGEST_DELAY,
        };
        let sum = (d - 1) * d.saturating_sub(2) / 2;
        let most = 2 + 2000 / sum.max(1); // steady heads
        let n = random.range(2, 8).min(most + 2);
        let quiet = random.percent(20);
        let sharp = random.percent(if d < 50 { 30 } else { 70 });
        let mut maker =
            Maker { random, state: None, history: History::default(), schedule: Vec::new(), stretch: None, sharp };
        maker.set_up(n);
        if maker.random.percent(1) {
            // a head near its last start
            let head = maker.head();
            for _ in 0..LAST_COUNT - maker.random.range(0, 5) {
                maker.start(head);
                maker.crash(head);
            }
        }
        if sharp || maker.random.percent(50) {
            maker.old_leader(d);
        } else {
            maker.any_opening(d);
        }
        if maker.random.range(1, 500) == 1 {
            maker.run(LAST_TICK - 3000 - maker.tick());
        }
        let steady = maker.steady(most, quiet);
        maker.await_arrivals(&steady, d);

        let least = bound(maker.desk(), &steady, d) + maker.random.range(50, 300);
        let mut plan = Plan {
            leader: first(&steady, &maker.history).expect("there is one"),
            others: (1..=n).filter(|h| !steady.contains(h)).collect(),
            steady,
            d,
            ways: match maker.random.range(0, 9) {
                _ if sharp => Ways::Harry,
                0..=5 => Ways::Harry,
                6 => Ways::Any,
                7 => Ways::Ends,
                8 => Ways::Longest,
                _ => Ways::Left,
            },
            until: vec![0; n as usize],
            start_percent: if quiet { 0 } else { maker.random.pick(&[5, 20, 50, 100]) },
            crash_percent: if quiet { 0 } else { maker.random.pick(&[0, 1, 5, 20, 60]) },
            noise_percent: maker.random.pick(&[0, 5, 20, 50, 70]),
        };
        maker.stretch = Some(Vec::new());
        maker.make_stretch(&mut plan, least);
        Case { schedule: maker.schedule, stretch: maker.stretch.unwrap_or_default(), steady: plan.steady, d }
    }
}

/// What was tried.
#[derive(Default)]
struct Tally {
    cases: u64,
    quiet: u64,     // cases of demand 3
    restarted: u64, // cases with starts in the stretch
    starts: u64,
    ticks: u64,
    divided: u64,
    held: u64, // cases and rows held against PROGRAM
    held_ticks: u64,
    nearest: Option<(u64, u64, String)>, // divided ticks, the bound, the case
    passed: u64,
    failed: u64,
}

impl Tally {
    /// Tries a case. A row has its own conditions and figures.
    fn case(&mut self, case: &Case, row: Option<&Row>, program: &str, name: &str, seed: u64) {
        let (said, kept) = match case.figures() {
            Ok(figures) => {
                if row.is_none() {
                    self.add(case, &figures, name);
                }
                let mut said = wrong(&figures, row);
                if figures.bytes.len() <= LONGEST_SCHEDULE {
                    self.held += 1;
                    self.held_ticks += figures.count.ticks;
                    said.extend(against(program, case, &figures));
                    (said, figures.bytes)
                } else {
                    (said, figures.plain)
                }
            }
            Err(said) => (vec![said], case.schedule.clone()),
        };
        if said.is_empty() {
            self.passed += 1;
            return;
        }
        self.failed += 1;
        if self.failed <= MOST_SHOWN {
            let file = format!("fails-{seed}-{name}.bin").replace(' ', "-");
            println!("{name}, {}: {}", case.told(), said.join("; "));
            match std::fs::write(&file, kept) {
                Ok(()) => println!("    kept as {file}, the stretch from byte {}", case.schedule.len()),
                Err(error) => println!("    {file}: {error}"),
            }
        }
    }

    fn add(&mut self, case: &Case, figures: &Figures, name: &str) {
        let Count { ticks, divided, .. } = figures.count;
        self.cases += 1;
        self.quiet += u64::from(figures.all_steady && figures.starts == 0 && figures.crashes == 0);
        self.restarted += u64::from(figures.starts > 0);
        self.starts += figures.starts;
        self.ticks += ticks;
        self.divided += divided;
        if self.nearest.as_ref().map_or(true, |&(most, bound, _)| divided * bound > most * figures.bound) {
            self.nearest = Some((divided, figures.bound, format!("{name}, {}", case.told())));
        }
    }

    fn print(&self) {
        let Tally { cases, quiet, restarted, starts, ticks, divided, held, held_ticks, .. } = self;
        println!("{cases} cases: {quiet} of demand 3, {restarted} with starts in the stretch, {starts} starts");
        println!("{ticks} ticks, {divided} of them divided");
        println!("{held} cases and rows held against the program, {held_ticks} ticks");
        if let Some((divided, bound, name)) = &self.nearest {
            println!("nearest to the bound: {divided} of {bound}, {name}");
        }
        println!("{} passed, {} failed", self.passed, self.failed);
    }
}

/// What is wrong with the figures of a case.
fn wrong(figures: &Figures, row: Option<&Row>) -> Vec<String> {
    let Count { ticks, divided, loud } = figures.count;
    let bound = figures.bound;
    let missed: Vec<Condition> = figures.missed.iter().copied().collect();
    let mut said = Vec::new();
    let should = row.map_or(&[][..], |row| row.missed);
    if missed != should {
        said.push(format!("misses {missed:?}, should miss {should:?}"));
    }
    if missed.is_empty() && divided > bound {
        said.push(format!("{divided} of {ticks} ticks are divided, the bound is {bound}"));
    }
    if missed.is_empty() && loud > 0 {
        said.push(format!("in {loud} undivided ticks a steady head but L sends"));
    }
    if let Some(row) = row {
        let are = [ticks, divided, bound];
        if are != row.figures {
            said.push(format!("ticks, divided ticks and bound are {are:?}, should be {:?}", row.figures));
        }
    }
    said
}

/// What is wrong with what PROGRAM prints for a case.
fn against(program: &str, case: &Case, figures: &Figures) -> Vec<String> {
    let (printed, wrong) = program::run("stretches", program, &figures.bytes, LONGEST_SCHEDULE);
    if let Some(said) = wrong {
        return vec![said];
    }
    let printed = String::from_utf8_lossy(&printed).into_owned();
    let mut said = Vec::new();
    match count(&printed, &case.steady, figures.leader) {
        Ok(count) if count == figures.count => {}
        Ok(count) => said.push(format!("{program} has {count:?}, should be {:?}", figures.count)),
        Err(wrong) => said.push(format!("{program}: {wrong}")),
    }
    if printed != figures.printed {
        said.push(format!("{program} prints something else than the independent desk"));
    }
    said
}

fn main() {
    let words: Vec<String> = std::env::args().collect();
    let numbers: Vec<u64> = words.iter().skip(1).take(2).filter_map(|w| w.parse().ok()).collect();
    if words.len() != 4 || numbers.len() != 2 {
        eprintln!("usage: stretches COUNT SEED PROGRAM");
        std::process::exit(2);
    }
    let (count, seed, program) = (numbers[0], numbers[1], &words[3]);
    let mut tally = Tally::default();
    for (number, row) in (1..).zip(&ROWS) {
        tally.case(&row.case(), Some(row), program, &format!("row {number}"), seed);
    }
    for number in 1..=count {
        tally.case(&Case::random(seed, number), None, program, &format!("case {number}"), seed);
    }
    tally.print();
    std::process::exit(if tally.failed == 0 && tally.passed != 0 { 0 } else { 1 });
}
