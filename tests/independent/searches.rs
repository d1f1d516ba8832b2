// searches COUNT SEED PROGRAM: hands COUNT tables to PROGRAM on its standard input and compares what its searches for
// agreement find, and where they end, with what Papers 2, 4 and 6 mean. Prints how often each finding came and where,
// those that ended at a station without a leader by themselves, the first cases that differ and 'N passed, M failed'.

mod program;
mod random;
mod search;

use random::Random;
use search::{last_line, search, Finding, NOBODY};

const PLACES: usize = 8;
const TRIED: usize = 5; // up to this many stations every leader of a later one is tried, above it two
const MOST_BYTES: usize = 65_536; // handed to PROGRAM at once
const MOST_SHOWN: u64 = 10;

/// A table as far as the search goes. What stands beyond n must not matter.
struct Table {
    number: u64,
    n: usize,
    leaders: [u64; PLACES],
    up: [bool; PLACES],
}

impl Table {
    fn random(random: &mut Random, number: u64) -> Table {
        let n = match random.range(0, 19) {
            0 => random.range(0, 1),
            _ => random.range(2, PLACES as u64),
        };
        let first = leader(random, n);
        let second = leader(random, n);
        let from = random.range(0, n + 1); // from this station on leaders may differ
        let few = random.percent(85);
        let second_percent = random.pick(&[30, 50, 100]);
        let up_percent = random.pick(&[0, 15, 40, 60, 80, 80, 95, 95, 100]);
        let left_percent = random.pick(&[0, 0, 50, 100]);
        let nobody_percent = random.pick(&[0, 0, 0, 0, 10, 30, 60]); // clock heads in their start-up wait
        let mut table = Table { number, n: n as usize, leaders: [0; PLACES], up: [false; PLACES] };
        for place in 0..table.n {
            let trusted = if place as u64 + 1 < from {
                first
            } else if !few {
                leader(random, n)
            } else if random.percent(second_percent) {
                second
            } else {
                first
            };
            table.up[place] = random.percent(up_percent);
            // what a down station trusted may be left over
            if table.up[place] || random.percent(left_percent) {
                table.leaders[place] = if random.percent(nobody_percent) { NOBODY } else { trusted };
            }
        }
        if random.percent(25) {
            for place in table.n..PLACES {
                table.up[place] = random.percent(80);
                table.leaders[place] = leader(random, n);
            }
        }
        table
    }

    fn stations(&self) -> Vec<Option<u64>> {
        (0..self.n).map(|place| if self.up[place] { Some(self.leaders[place]) } else { None }).collect()
    }

    /// As PROGRAM reads it. Some lines leave out what stands beyond n, some the zeros at the end of a group.
    fn line(&self) -> String {
        let up = self.up.map(u64::from);
        let (leaders, up) = match self.number % 3 {
            0 => (&self.leaders[..], &up[..]),
            1 => (&self.leaders[..self.n], &up[..self.n]),
            _ => (without_zeros(&self.leaders), without_zeros(&up)),
        };
        let mut text = format!("V {} =", self.n);
        for leader in leaders {
            text += &format!(" {leader}");
        }
        text += " %";
        for bit in up {
            text += &format!(" {bit}");
        }
        text + &format!(":table {}\n", self.number)
    }

    /// The finding and where the search ends, with what is wrong with search.rs, if anything.
    fn answer(&self) -> ((Finding, u64), Option<String>) {
        let stations = self.stations();
        let mut looked_at = 0;
        let searched = search(stations.iter().map(|&station| {
            looked_at += 1;
            station
        }));
        let meant = (last_line(&stations), end(&stations, &self.leaders));
        let wrong = if searched != meant {
            Some(format!("search.rs: {}, ended at {}", searched.0, searched.1))
        } else if looked_at != searched.1 {
            Some(format!("search.rs ended at {} and looked at {looked_at} stations", searched.1))
        } else {
            None
        };
        (meant, wrong)
    }
}

/// Mostly 1 to n.
fn leader(random: &mut Random, n: u64) -> u64 {
    match random.range(0, 19) {
        0 => random.pick(&[0, n + 1, PLACES as u64, PLACES as u64 + 1, 255]),
        1 => random.byte() as u64,
        _ => random.range(1, n.max(1)),
    }
}

fn without_zeros(mut numbers: &[u64]) -> &[u64] {
    while let [rest @ .., 0] = numbers {
        numbers = rest;
    }
    numbers
}

/// Whether the line is `split` in every way that the stations after those so far could be.
fn only_split(so_far: &mut Vec<Option<u64>>, n: usize, ways: &[Option<u64>]) -> bool {
    if so_far.len() == n {
        return last_line(so_far) == Finding::Split;
    }
    ways.iter().all(|&way| {
        so_far.push(way);
        let split = only_split(so_far, n, ways);
        so_far.pop();
        split
    })
}

/// The first up station after which the line can only be `split`, else n. A later station may be down, or up and trust
/// nobody, any of 1 to n or a leader that occurs in the table; of more than TRIED stations, the first up one's or none
/// that occurs.
fn end(stations: &[Option<u64>], leaders: &[u64]) -> u64 {
    let n = stations.len();
    let mut trusted: Vec<u64> = if n <= TRIED {
        (NOBODY..=n as u64).chain(leaders.iter().copied()).collect()
    } else {
        let new = (1..).find(|leader| !leaders.contains(leader)).expect("there are more numbers than stations");
        stations.iter().copied().flatten().take(1).chain([new]).collect()
    };
    trusted.sort();
    trusted.dedup();
    let ways: Vec<Option<u64>> = std::iter::once(None).chain(trusted.into_iter().map(Some)).collect();
    for p in 1..=n {
        if stations[p - 1].is_some() && only_split(&mut stations[..p].to_vec(), n, &ways) {
            return p as u64;
        }
    }
    n as u64
}

/// What was compared: tables by finding and by the station where the search ended. Where that one has no leader they
/// are counted by themselves.
#[derive(Default)]
struct Tally {
    found: [[u64; PLACES + 1]; 5],
    passed: u64,
    failed: u64,
}

impl Tally {
    fn failure(&mut self, text: String) {
        self.failed += 1;
        if self.failed <= MOST_SHOWN {
            println!("{text}");
        }
    }

    /// Hands the tables to PROGRAM and compares its answers.
    fn batch(&mut self, program: &str, tables: &[Table], text: &str) {
        let (printed, wrong) = program::run("searches", program, text.as_bytes(), text.len().max(1));
        let printed = String::from_utf8_lossy(&printed).into_owned();
        let which = format!("tables {} to {}", tables[0].number, tables[tables.len() - 1].number);
        let ended_well = wrong.is_none();
        if let Some(said) = wrong {
            self.failure(format!("{which}: {said}"));
        }
        let mut lines = printed.split_inclusive('\n');
        for table in tables {
            let ((finding, ended), own_wrong) = table.answer();
            let expected = format!("table {}: {finding}, ended at {ended}\n", table.number);
            let line = lines.next().unwrap_or("nothing");
            let (input, should) = (table.line(), expected.trim_end());
            if let Some(said) = own_wrong {
                self.failure(format!("{input}    {said}\n    should: {should}"));
                continue;
            }
            let row = match finding {
                Finding::Dark => 0,
                Finding::Agreed(_) => 1,
                Finding::AgreedDark(_) => 2,
                Finding::Split if table.leaders[ended as usize - 1] != NOBODY => 3,
                Finding::Split => 4,
            };
            self.found[row][ended as usize] += 1;
            if line == expected {
                self.passed += 1;
            } else {
                self.failure(format!("{input}    prints: {}\n    should: {should}", line.trim_end()));
            }
        }
        let rest: String = lines.collect();
        let expected = format!("cases {}\n", tables.len());
        if ended_well && rest != expected {
            let start: String = rest.chars().take(200).collect();
            self.failure(format!("{which}: after the answers it prints {start:?}, and should print {expected:?}"));
        }
    }

    fn print(&self) {
        print!("{:<14}", "ended at");
        for place in 0..=PLACES {
            print!("{place:>9}");
        }
        println!();
        for (name, row) in ["dark", "agreed", "agreed dark", "split", "split, nobody"].iter().zip(&self.found) {
            print!("{name:<14}");
            for times in row {
                print!("{times:>9}");
            }
            println!();
        }
        println!("{} passed, {} failed", self.passed, self.failed);
    }
}

fn main() {
    let words: Vec<String> = std::env::args().collect();
    let numbers: Vec<u64> = words.iter().skip(1).take(2).filter_map(|w| w.parse().ok()).collect();
    if words.len() != 4 || numbers.len() != 2 {
        eprintln!("usage: searches COUNT SEED PROGRAM");
        std::process::exit(2);
    }
    let (count, seed, program) = (numbers[0], numbers[1], &words[3]);
    let mut random = Random(seed);
    let mut tally = Tally::default();
    let (mut tables, mut text) = (Vec::new(), String::new());
    for number in 1..=count {
        let table = Table::random(&mut random, number);
        let line = table.line();
        if text.len() + line.len() > MOST_BYTES {
            tally.batch(program, &tables, &text);
            tables.clear();
            text.clear();
        }
        tables.push(table);
        text += &line;
    }
    if !tables.is_empty() {
        tally.batch(program, &tables, &text);
    }
    tally.print();
    std::process::exit(if tally.failed == 0 && tally.passed != 0 { 0 } else { 1 });
}
