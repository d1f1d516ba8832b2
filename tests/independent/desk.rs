// The desk in plain Rust: the heads, ticks, commands, refusals and listings of document 01, with Papers 1 to 6 of document
// 02. Written from the papers alone.

use crate::search::{last_line, search, NOBODY};

pub const LAST_TICK: u64 = 1_000_000;
pub const LAST_COUNT: u64 = 4095;
pub const LONGEST_DELAY: u64 = 255; // paper 1
const MOST_UNDER_WAY: u64 = 16; // on a link, paper 1
pub const LAST_RANK: u64 = 7; // paper 3

/// The heads of a table: with flash, or with a running clock (paper 6).
#[derive(Clone, Copy, PartialEq)]
pub enum Heads {
    Flash,
    Clock,
}

/// A station. `kept_*` is what it keeps through a crash, `up` what it loses: there is none while it is down.
/// A clock head keeps nothing: its count stays 0 and its kept leader is itself.
pub struct Station {
    pub number: u64,
    pub kept_count: u64,
    kept_leader: u64,
    pub sent: u64,
    pub up: Option<Up>,
}

pub struct Up {
    pub leader: u64, // NOBODY: none yet, a clock head in its start-up wait
    pub knows: Knows,
    pub timer: Option<u64>,
    pub chance: u64,
    pub waiting: bool,
}

/// What the heads of each kind know, with their timeouts.
pub enum Knows {
    Counts { recovered: Vec<u64>, timeout: Vec<u64> }, // timeout 0 for the station itself
    Stamps { own: u64, lowest: u64, timeout: u64 },
}

/// LEADER under way on a link.
pub struct Message {
    pub from: u64,
    pub to: u64,
    sent_at: u64,
    pub due: u64,
    carries: Carries,
}

/// What LEADER carries: the vector of a flash head, the own stamp of a clock head.
#[derive(Clone)]
pub enum Carries {
    Counts(Vec<u64>),
    Stamp(u64),
}

pub struct Desk {
    pub heads: Heads,
    pub n: u64,
    pub eta: u64,
    pub tick: u64,
    pub stations: Vec<Station>,
    pub rank: Vec<u64>, // paper 3
    pub delay: Vec<Vec<u64>>, // from, to; 0 to itself
    pub under_way: Vec<Message>,
}

pub fn at(number: u64) -> usize {
    number as usize - 1
}

/// Whether candidate a is strictly before b: by known count, then by rank (paper 3), then by number.
fn before(recovered: &[u64], rank: &[u64], a: u64, b: u64) -> bool {
    (recovered[at(a)], rank[at(a)], a) < (recovered[at(b)], rank[at(b)], b)
}

impl Station {
    fn new(number: u64) -> Station {
        Station { number, kept_count: 0, kept_leader: number, sent: 0, up: None }
    }

    fn start(&mut self, heads: Heads, n: u64, eta: u64, tick: u64) {
        match heads {
            Heads::Flash => self.start_flash(n, eta, tick),
            Heads::Clock => self.start_clock(eta, tick),
        }
    }

    fn start_flash(&mut self, n: u64, eta: u64, tick: u64) {
        self.kept_count += 1;
        let wait = eta + self.kept_count;
        let mut timeout = vec![wait; n as usize];
        timeout[at(self.number)] = 0;
        let mut recovered = vec![0; n as usize];
        recovered[at(self.number)] = self.kept_count;
        let leader = self.kept_leader;
        let timer = if leader == self.number { None } else { Some(tick + timeout[at(leader)]) };
        let knows = Knows::Counts { recovered, timeout };
        self.up = Some(Up { leader, knows, timer, chance: tick + wait, waiting: true });
    }

    /// The stamp, the lowest stamp known, the timeout and the wait are all what the clock reads.
    fn start_clock(&mut self, eta: u64, tick: u64) {
        let clock = eta + tick;
        let knows = Knows::Stamps { own: clock, lowest: clock, timeout: clock };
        self.up = Some(Up { leader: NOBODY, knows, timer: None, chance: tick + clock, waiting: true });
    }

    fn crash(&mut self) {
        self.up = None;
    }

    /// Hears LEADER from q in this tick. The ranks are the desk's: all stations know them.
    fn hear(&mut self, q: u64, carries: &Carries, rank: &[u64], tick: u64) {
        let number = self.number;
        let Some(up) = &mut self.up else { return };
        match (&mut up.knows, carries) {
            (Knows::Counts { recovered, timeout }, Carries::Counts(received)) => {
                for (own, new) in recovered.iter_mut().zip(received) {
                    *own = (*own).max(*new);
                }
                // "If q is not after the trusted leader"
                if !before(recovered, rank, up.leader, q) {
                    up.leader = q;
                    up.timer = Some(tick + timeout[at(q)]);
                }
                if before(recovered, rank, number, up.leader) {
                    up.leader = number;
                    up.timer = None;
                }
            }
            (Knows::Stamps { lowest, timeout, .. }, Carries::Stamp(stamp)) => {
                let first = if up.leader == NOBODY { q < number } else { q <= up.leader };
                if stamp < lowest || stamp == lowest && first {
                    up.leader = q;
                    *lowest = *stamp;
                    up.timer = Some(tick + *timeout);
                }
            }
            _ => unreachable!("the heads of a table are of one kind"),
        }
    }

    fn end_timer(&mut self) {
        let number = self.number;
        let Some(up) = &mut self.up else { return };
        match &mut up.knows {
            Knows::Counts { timeout, .. } => timeout[at(up.leader)] += 1,
            Knows::Stamps { own, lowest, timeout } => {
                *timeout += 1;
                *lowest = *own;
            }
        }
        up.leader = number;
        up.timer = None;
    }

    /// A send chance: what is to be sent, if the station sends.
    fn take_chance(&mut self, eta: u64, tick: u64) -> Option<Carries> {
        let number = self.number;
        let up = self.up.as_mut()?;
        if up.waiting {
            match up.knows {
                Knows::Counts { .. } => self.kept_leader = up.leader,
                Knows::Stamps { .. } if up.leader == NOBODY => up.leader = number,
                Knows::Stamps { timeout, .. } if up.leader != number => up.timer = Some(tick + timeout),
                Knows::Stamps { .. } => {} // it trusts itself
            }
            up.waiting = false;
        }
        up.chance += eta;
        if up.leader != number {
            return None;
        }
        match &up.knows {
            Knows::Counts { recovered, .. } => Some(Carries::Counts(recovered.clone())),
            Knows::Stamps { own, .. } => Some(Carries::Stamp(*own)),
        }
    }
}

impl Up {
    /// The timeout of the trusted leader; a clock head has but one.
    fn timeout(&self) -> u64 {
        match &self.knows {
            Knows::Counts { timeout, .. } => timeout[at(self.leader)],
            Knows::Stamps { timeout, .. } => *timeout,
        }
    }

    /// What the listing shows: the vector or the own stamp.
    fn shown(&self) -> String {
        match &self.knows {
            Knows::Counts { recovered, .. } => {
                let counts: Vec<String> = recovered.iter().map(u64::to_string).collect();
                counts.join(",")
            }
            Knows::Stamps { own, .. } => own.to_string(),
        }
    }
}

impl Desk {
    fn set_up(heads: Heads, n: u64, eta: u64) -> Desk {
        let mut delay = vec![vec![1; n as usize]; n as usize];
        for i in 0..n as usize {
            delay[i][i] = 0;
        }
        let stations = (1..=n).map(Station::new).collect();
        Desk { heads, n, eta, tick: 0, stations, rank: vec![0; n as usize], delay, under_way: Vec::new() }
    }

    pub fn one_tick(&mut self) {
        self.tick += 1;
        let tick = self.tick;

        // (a) messages due, by receiver, then sender, then oldest sending
        let (mut due, rest): (Vec<Message>, Vec<Message>) =
            std::mem::take(&mut self.under_way).into_iter().partition(|m| m.due == tick);
        self.under_way = rest;
        due.sort_by_key(|m| (m.to, m.from, m.sent_at));
        for m in due {
            self.stations[at(m.to)].hear(m.from, &m.carries, &self.rank, tick);
        }

        // (b) timers due
        for s in &mut self.stations {
            let ends = s.up.as_ref().map_or(false, |up| up.timer == Some(tick));
            if ends {
                s.end_timer();
            }
        }

        // (c) send chances due
        for from in 1..=self.n {
            let s = &mut self.stations[at(from)];
            let chance = s.up.as_ref().map_or(false, |up| up.chance == tick);
            if !chance {
                continue;
            }
            let Some(carries) = s.take_chance(self.eta, tick) else { continue };
            s.sent += self.n - 1;
            for to in (1..=self.n).filter(|&to| to != from) {
                let delay = self.delay[at(from)][at(to)];
                if delay != 0 {
                    let carries = carries.clone();
                    self.under_way.push(Message { from, to, sent_at: tick, due: tick + delay, carries });
                }
            }
        }
    }

    pub fn listing(&self) -> String {
        let mut text = format!("tick {}\n", self.tick);
        for s in &self.stations {
            text += &self.line(s);
        }
        let leaders: Vec<Option<u64>> = self.stations.iter().map(|s| s.up.as_ref().map(|up| up.leader)).collect();
        let finding = last_line(&leaders);
        assert_eq!(search(leaders).0, finding); // paper 4: no listing differs
        text += &format!("{finding}\n");
        text
    }

    /// A station's line. `-` stands for what it has not.
    fn line(&self, s: &Station) -> String {
        let none = "-".to_string();
        let (word, leader, known) = match &s.up {
            Some(up) if up.leader == NOBODY => ("up", none.clone(), up.shown()),
            Some(up) => ("up", up.leader.to_string(), up.shown()),
            None => ("down", none.clone(), none.clone()),
        };
        let (count, name, kept) = match self.heads {
            Heads::Flash => (s.kept_count.to_string(), "rec", s.kept_leader.to_string()),
            Heads::Clock => (none.clone(), "stamp", none),
        };
        format!("{} {word} leader {leader} inc {count} {name} {known} sent {} kept {kept}\n", s.number, s.sent)
    }

    /// Soundness, in the paper's order. What this desk has no place for (unused places, beyond n) needs no test.
    fn sound(&self) -> bool {
        let (n, eta, tick) = (self.n, self.eta, self.tick);
        let station = |x: u64| 1 <= x && x <= n;

        let mut good = (2..=8).contains(&n) && (16..=255).contains(&eta) && tick <= LAST_TICK;
        for from in 1..=n {
            for to in 1..=n {
                let delay = self.delay[at(from)][at(to)];
                good &= delay <= LONGEST_DELAY && (from != to || delay == 0);
            }
        }
        good &= self.rank.len() as u64 == n && self.rank.iter().all(|&r| r <= LAST_RANK);
        for s in &self.stations {
            good &= station(s.kept_leader) && s.kept_count <= LAST_COUNT && s.sent <= 7 * tick;
            good &= match self.heads {
                Heads::Flash => self.sound_flash(s),
                Heads::Clock => self.sound_clock(s),
            };
            let Some(up) = &s.up else { continue };
            good &= match up.timer {
                None => up.leader == s.number || up.leader == NOBODY,
                Some(end) => station(up.leader) && up.leader != s.number && tick < end && end <= tick + up.timeout(),
            };
            good &= tick < up.chance;
        }
        for (i, m) in self.under_way.iter().enumerate() {
            good &= station(m.from) && station(m.to) && m.from != m.to;
            good &= match (self.heads, &m.carries) {
                (Heads::Flash, Carries::Counts(counts)) => self.counts(counts),
                (Heads::Clock, Carries::Stamp(stamp)) => self.read_by_now(*stamp),
                _ => false,
            };
            good &= m.sent_at <= tick && tick < m.due && m.due <= m.sent_at + LONGEST_DELAY;
            if let Some(up) = &self.stations[at(m.from)].up {
                good &= up.chance >= m.sent_at + eta;
            }
            let mut on_link = 1;
            for later in self.under_way[i + 1..].iter().filter(|o| o.from == m.from && o.to == m.to) {
                good &= later.sent_at >= m.sent_at + eta;
                on_link += 1;
            }
            good &= on_link <= MOST_UNDER_WAY;
        }
        good
    }

    fn counts(&self, v: &[u64]) -> bool {
        v.len() as u64 == self.n && v.iter().all(|&c| c <= LAST_COUNT)
    }

    /// Whether a clock could read this at some tick so far.
    fn read_by_now(&self, clock: u64) -> bool {
        self.eta <= clock && clock <= self.eta + self.tick
    }

    /// What soundness asks of a flash head by itself.
    fn sound_flash(&self, s: &Station) -> bool {
        let (eta, tick) = (self.eta, self.tick);
        let Some(up) = &s.up else { return true };
        let Knows::Counts { recovered, timeout } = &up.knows else { return false };
        let mut good = up.leader != NOBODY && self.counts(recovered);
        good &= s.kept_count >= 1 && recovered[at(s.number)] >= 1;
        for other in 1..=self.n {
            let t = timeout[at(other)];
            good &= if other == s.number { t == 0 } else { eta <= t && t <= 4350 + tick };
        }
        good && up.chance <= tick + eta + LAST_COUNT
    }

    /// The same of a clock head, paper 6.
    fn sound_clock(&self, s: &Station) -> bool {
        let (eta, tick) = (self.eta, self.tick);
        let nothing_kept = s.kept_count == 0 && s.kept_leader == s.number && self.rank[at(s.number)] == 0;
        let Some(up) = &s.up else { return nothing_kept };
        let Knows::Stamps { own, lowest, timeout } = up.knows else { return false };
        nothing_kept
            && [own, lowest, timeout].iter().all(|&clock| self.read_by_now(clock))
            && lowest <= own
            && up.chance <= tick + eta + tick
            && (up.leader != NOBODY || up.waiting)
    }
}

/// Does the first command of the bytes: its length and whether it is a report, or the refusal, with the state as it was.
pub fn command(state: &mut Option<Desk>, bytes: &[u8]) -> Result<(usize, bool), u64> {
    if let Some(desk) = state {
        if !desk.sound() {
            return Err(15);
        }
    }
    let Some(&name) = bytes.first() else { return Err(2) };
    let operands = match name {
        1 | 9 => 2,
        2 | 3 => 1,
        4 => 3,
        5 | 6 => 2,
        7 => 0,
        8 => 2,
        _ => return Err(1),
    };
    if bytes.len() < 1 + operands {
        return Err(2);
    }
    let operand = |i: usize| bytes[i] as u64;
    let done = Ok((1 + operands, name == 7));

    if name == 1 || name == 9 {
        let (n, eta) = (operand(1), operand(2));
        if state.is_some() {
            return Err(4);
        }
        if n < 2 || n > 8 {
            return Err(5);
        }
        if eta < 16 || eta > 255 {
            return Err(6);
        }
        let heads = if name == 1 { Heads::Flash } else { Heads::Clock };
        *state = Some(Desk::set_up(heads, n, eta));
        return done;
    }

    let Some(desk) = state else { return Err(3) };
    let no_station = |x: u64| x < 1 || x > desk.n;
    match name {
        2 => {
            if no_station(operand(1)) {
                return Err(7);
            }
            let s = &mut desk.stations[at(operand(1))];
            if s.up.is_some() {
                return Err(8);
            }
            if s.kept_count == LAST_COUNT {
                return Err(10);
            }
            s.start(desk.heads, desk.n, desk.eta, desk.tick);
        }
        3 => {
            if no_station(operand(1)) {
                return Err(7);
            }
            let s = &mut desk.stations[at(operand(1))];
            if s.up.is_none() {
                return Err(9);
            }
            s.crash();
        }
        4 | 6 => {
            let (from, to) = (operand(1), operand(2));
            if no_station(from) || no_station(to) {
                return Err(7);
            }
            if from == to {
                return Err(11);
            }
            if name == 4 {
                desk.delay[at(from)][at(to)] = operand(3);
            } else {
                desk.under_way.retain(|m| m.from != from || m.to != to);
            }
        }
        5 => {
            let ticks = operand(1) + 256 * operand(2);
            if ticks == 0 {
                return Err(13);
            }
            if desk.tick + ticks > LAST_TICK {
                return Err(14);
            }
            for _ in 0..ticks {
                desk.one_tick();
            }
        }
        8 => {
            let (of, rank) = (operand(1), operand(2));
            if desk.heads == Heads::Clock {
                return Err(25);
            }
            if no_station(of) {
                return Err(7);
            }
            if rank > LAST_RANK {
                return Err(22);
            }
            // kept counts: a head that was started and is down counts too
            if desk.stations.iter().any(|s| s.kept_count > 0) {
                return Err(23);
            }
            desk.rank[at(of)] = rank;
        }
        _ => {} // report
    }
    done
}
