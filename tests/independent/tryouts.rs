// tryouts COUNT SEED CASES TRYOUT: makes COUNT try-outs, each a schedule, a command and a buffer. Compares what the
// operation does, as the program CASES prints it, and what the program TRYOUT prints with what Paper 8 means, which
// tryout.rs says. Prints the first failures, what was reached and 'N passed, M failed'.

mod desk;
mod program;
mod random;
mod reasons;
mod schedule;
mod search;
mod tryout;

use desk::{Desk, Heads, LAST_COUNT, LAST_RANK, LAST_TICK, LONGEST_DELAY};
use random::Random;
use schedule::{schedule, Plan, CLOCK_SETUP, CRASH, LINK, LOSE, RANK, REPORT, RUN, SETUP, START};
use std::collections::BTreeMap;
use tryout::{operands, read_arguments, run_schedule, told_refused, try_out, Tried, Wrong};

const MOST_BYTES: usize = 65_536; // handed to CASES at once
const LONGEST_LINE: usize = 30_000; // of one try-out in that
const LONGEST_IN_LINE: usize = 20_000; // bytes of its schedule
const LONGEST_BUFFER: usize = 440; // so that all that CASES prints of a try-out is at most 512 bytes
const LONGEST_RUN: u64 = 65_535;
const UNREAD: usize = 100_000; // more than a pipe holds, less than it and the longest schedule together
const MOST_SHOWN: u64 = 10;

const COMMANDS: [u8; 9] = [SETUP, START, CRASH, LINK, RUN, LOSE, REPORT, RANK, CLOCK_SETUP];
const REFUSALS: [u64; 19] = [1, 2, 3, 4, 5, 6, 7, 8, 9, 10, 11, 13, 14, 15, 16, 21, 22, 23, 25];

const TABLES: [&str; 7] = [
    "nothing set up",
    "flash heads",
    "clock heads",
    "unsound",
    "messages under way",
    "a head started 4095 times",
    "a run can pass the last tick",
];
const BUFFERS: [&str; 6] = ["nothing is due", "no bytes", "far too short", "short by one", "exact", "longer"];
const ARGUMENTS: [&str; 3] = ["no byte", "no hex", "bytes left over"];

/// A try-out. The command is tried on the state after the schedule or, if that is refused, before the refused command.
struct Case {
    number: u64,
    schedule: Vec<u8>,
    refused: Option<(u64, usize)>, // the schedule's refusal and its byte offset
    command: Vec<u8>,
    past: bool, // the tick counter is put past the last tick before the try-out
    unsound: bool,
    buffer: usize,
    tried: Tried,
    arguments: Vec<String>,
    notes: Vec<&'static str>, // which of TABLES it is
}

impl Case {
    /// The same seed and number always give the same try-out.
    fn random(seed: u64, number: u64) -> Case {
        let mut seeds = Random(seed);
        let mut random = Random(seeds.next().rotate_left(32) ^ number.wrapping_mul(0xD1B5_4A32_D192_ED03));
        let schedule = any_schedule(&mut random, seed, number);
        let (mut state, refused) = run_schedule(&schedule);
        let command = any_command(&mut random, &state);
        let past = random.percent(4);
        if let (Some(desk), true) = (&mut state, past) {
            desk.tick = LAST_TICK + 1;
        }
        let unsound = past && state.is_some();
        let notes = notes(&state, unsound);
        let tried = try_out(state, &command);
        let buffer = any_buffer(&mut random, tried.due().ok().map(str::len));
        let arguments =
            if random.percent(6) { wrong_arguments(&mut random, &command) } else { spelt(&mut random, &command) };
        Case { number, schedule, refused, command, past, unsound, buffer, tried, arguments, notes }
    }

    /// As CASES reads it.
    fn line(&self) -> String {
        let mut words = vec!["Y".to_string(), "<".to_string()];
        words.extend(written(&self.schedule));
        words.push(">".to_string());
        words.extend(written(&self.command));
        words.push(";".to_string());
        if self.buffer != 0 {
            words.push(format!("*{}(2e)", self.buffer));
        }
        if self.past {
            words.push(format!("N 3 = {}", LAST_TICK + 1));
        }
        format!("{}:try {}\n", words.join(" "), self.number)
    }

    /// What CASES must print.
    fn expected(&self) -> String {
        let (answer, length, buffer) = self.tried.answer(self.buffer);
        let answer = if answer == 0 { "accepted".to_string() } else { format!("refused {answer}") };
        format!("try {}: {answer}, length {length} of {}, unchanged\n{buffer}|\n", self.number, self.buffer)
    }

    /// Which of BUFFERS it has.
    fn buffer_note(&self) -> &'static str {
        match self.tried.due() {
            Err(_) => "nothing is due",
            Ok(_) if self.buffer == 0 => "no bytes",
            Ok(listing) if self.buffer + 1 < listing.len() => "far too short",
            Ok(listing) if self.buffer < listing.len() => "short by one",
            Ok(listing) if self.buffer == listing.len() => "exact",
            Ok(_) => "longer",
        }
    }
}

/// Which of TABLES this is.
fn notes(state: &Option<Desk>, unsound: bool) -> Vec<&'static str> {
    let Some(desk) = state else { return vec!["nothing set up"] };
    let heads = if desk.heads == Heads::Flash { "flash heads" } else { "clock heads" };
    let worn = desk.stations.iter().any(|s| s.kept_count == LAST_COUNT);
    let all = [
        (true, heads),
        (unsound, "unsound"),
        (!desk.under_way.is_empty(), "messages under way"),
        (worn, "a head started 4095 times"),
        (!unsound && desk.tick + LONGEST_RUN > LAST_TICK, "a run can pass the last tick"),
    ];
    all.into_iter().filter(|&(so, _)| so).map(|(_, note)| note).collect()
}

/// Mostly one as the rehearsal program gets, or its first commands.
fn any_schedule(random: &mut Random, seed: u64, number: u64) -> Vec<u8> {
    let mut plan = Plan::new(Random(random.next()), random.percent(35));
    match random.range(0, 199) {
        0..=11 => {} // nothing is set up
        12..=23 => never_started(&mut plan),
        24..=25 => near_last_tick(&mut plan),
        26..=30 => worn(&mut plan),
        31 => {
            // as long as it may be, or longer
            plan.set_up_any();
            plan.start_all();
            let length = random.pick(&[65_535, 65_536, 65_537, 65_538, 140_000]) as usize;
            plan.bytes.resize(length, REPORT);
        }
        _ => {
            let (_, bytes) = schedule(seed, number);
            return if random.percent(40) { cut_short(random, &bytes) } else { bytes };
        }
    }
    plan.bytes
}

/// Heads that were never started, so that ranks are accepted.
fn never_started(plan: &mut Plan) {
    plan.set_up_any();
    for _ in 0..plan.random.range(0, 3) {
        if plan.random.percent(30) {
            plan.run_some();
        } else {
            plan.step([0, 0, 60, 0, 20, 20]);
        }
    }
}

fn near_last_tick(plan: &mut Plan) {
    plan.set_up_any();
    if plan.random.percent(80) {
        plan.start_all();
    }
    let left = plan.random.pick(&[0, 0, 1, 2, 20, 300, LONGEST_RUN - 1, LONGEST_RUN, LONGEST_RUN + 1]);
    plan.run_far_to(LAST_TICK - left);
    for _ in 0..plan.random.range(0, 2) {
        plan.step([20, 30, 30, 0, 20, 0]);
    }
}

/// A head that was started 4095 times, or nearly. Clock heads do not wear.
fn worn(plan: &mut Plan) {
    plan.set_up_any();
    let s = plan.station();
    let starts = plan.random.pick(&[LAST_COUNT - 2, LAST_COUNT - 1, LAST_COUNT, LAST_COUNT]);
    for _ in 1..starts {
        plan.start(s);
        plan.crash(s);
    }
    plan.start(s);
    if plan.random.percent(80) {
        plan.crash(s);
    }
    for other in (1..=plan.n).filter(|&other| other != s) {
        if plan.random.percent(40) {
            plan.start(other);
        }
    }
    for _ in 0..plan.random.range(0, 2) {
        plan.run_some();
    }
}

/// The first commands of a schedule, as many as it happens.
fn cut_short(random: &mut Random, bytes: &[u8]) -> Vec<u8> {
    let mut ends = vec![0];
    let mut end = 0;
    while let Some(many) = bytes.get(end).and_then(|&byte| operands(byte)) {
        end += 1 + many;
        if end > bytes.len() {
            break;
        }
        ends.push(end as u64);
    }
    // most of them with the set up
    let place = random.range(0, ends.len() as u64 - 1).max(random.range(0, ends.len() as u64 - 1));
    bytes[..ends[place as usize] as usize].to_vec()
}

/// A command that is accepted or refused in this state, with bytes behind it or missing, or none at all.
fn any_command(random: &mut Random, state: &Option<Desk>) -> Vec<u8> {
    match random.range(0, 99) {
        0..=1 => return Vec::new(),
        2..=4 => {
            let any = random.range(10, 255);
            let mut bytes = vec![random.pick(&[0, 10, 16, 128, 255, any]) as u8];
            for _ in 0..random.pick(&[0, 0, 1, 2, 6]) {
                bytes.push(random.byte());
            }
            return bytes;
        }
        _ => {}
    }
    let mut bytes = match state {
        None => command_on_nothing(random),
        Some(desk) => command_on(random, desk),
    };
    match random.range(0, 99) {
        0..=4 => {
            let there = random.range(1, (bytes.len() as u64 - 1).max(1)); // a report has no operands
            bytes.truncate(there as usize);
        }
        5..=10 => {
            for _ in 0..random.pick(&[1, 1, 2, 5]) {
                bytes.push(if random.percent(80) { random.range(0, 9) as u8 } else { random.byte() });
            }
        }
        _ => {}
    }
    bytes
}

/// Set up, mostly within the ranges.
fn set_up(random: &mut Random) -> Vec<u8> {
    let n = if random.percent(20) { random.pick(&[0, 1, 9, 255]) } else { random.pick(&[2, 2, 3, 3, 4, 5, 7, 8]) };
    let eta = if random.percent(20) { random.pick(&[0, 1, 15]) } else { random.pick(&[16, 16, 17, 60, 254, 255]) };
    let byte = if random.percent(50) { SETUP } else { CLOCK_SETUP };
    vec![byte, n as u8, eta as u8]
}

fn command_on_nothing(random: &mut Random) -> Vec<u8> {
    if random.percent(65) {
        return set_up(random);
    }
    let byte = random.range(START as u64, RANK as u64) as u8;
    let many = operands(byte).expect("it is a command");
    let mut bytes = vec![byte];
    for _ in 0..many {
        bytes.push(random.pick(&[0, 1, 1, 2, 8, 255]) as u8);
    }
    bytes
}

fn command_on(random: &mut Random, desk: &Desk) -> Vec<u8> {
    let worn: Vec<u64> = desk.stations.iter().filter(|s| s.kept_count + 1 >= LAST_COUNT).map(|s| s.number).collect();
    let fresh = desk.stations.iter().all(|s| s.kept_count == 0 && s.up.is_none());
    let passing = desk.tick + LONGEST_RUN > LAST_TICK;
    // what such a table is good for
    if random.percent(50) {
        if !worn.is_empty() {
            return vec![START, random.pick(&worn) as u8];
        } else if passing {
            return run(LAST_TICK - desk.tick + random.range(0, 2));
        } else if fresh {
            return rank(random, desk);
        }
    }
    match random.range(0, 99) {
        0..=4 => set_up(random),
        5..=24 => vec![START, station(random, desk, false) as u8],
        25..=39 => vec![CRASH, station(random, desk, true) as u8],
        40..=49 => {
            let (from, to) = link_ends(random, desk);
            let delay = if random.percent(30) { 0 } else { random.range(1, LONGEST_DELAY) };
            vec![LINK, from as u8, to as u8, delay as u8]
        }
        50..=74 => run(ticks(random, desk)),
        75..=84 => {
            let under_way: Vec<(u64, u64)> = desk.under_way.iter().map(|m| (m.from, m.to)).collect();
            let (from, to) = if under_way.is_empty() || random.percent(40) {
                link_ends(random, desk)
            } else {
                under_way[random.next() as usize % under_way.len()]
            };
            vec![LOSE, from as u8, to as u8]
        }
        85..=92 => vec![REPORT],
        _ => rank(random, desk),
    }
}

fn run(ticks: u64) -> Vec<u8> {
    let ticks = ticks.min(LONGEST_RUN);
    vec![RUN, (ticks % 256) as u8, (ticks / 256) as u8]
}

fn rank(random: &mut Random, desk: &Desk) -> Vec<u8> {
    let s = if random.percent(20) { no_station(random, desk) } else { random.range(1, desk.n) };
    let rank = if random.percent(20) { random.pick(&[8, 9, 255]) } else { random.range(0, LAST_RANK) };
    vec![RANK, s as u8, rank as u8]
}

fn no_station(random: &mut Random, desk: &Desk) -> u64 {
    random.pick(&[0, desk.n + 1, 9, 255])
}

/// Mostly a station that is up, or down; some number that no station has.
fn station(random: &mut Random, desk: &Desk, up: bool) -> u64 {
    let such: Vec<u64> = desk.stations.iter().filter(|s| s.up.is_some() == up).map(|s| s.number).collect();
    match random.range(0, 99) {
        0..=9 => no_station(random, desk),
        10..=29 => random.range(1, desk.n),
        _ if such.is_empty() => random.range(1, desk.n),
        _ => random.pick(&such),
    }
}

/// Mostly two stations that differ.
fn link_ends(random: &mut Random, desk: &Desk) -> (u64, u64) {
    let from = random.range(1, desk.n);
    let to = (from + random.range(0, desk.n - 2)) % desk.n + 1;
    match random.range(0, 19) {
        0 => (no_station(random, desk), to),
        1 => (from, no_station(random, desk)),
        2 => (from, from),
        3 => {
            let none = no_station(random, desk);
            (none, none)
        }
        _ => (from, to),
    }
}

/// Ticks of a run, many to the next moment when a message is due, a timer ends or a send chance comes, or nearly.
fn ticks(random: &mut Random, desk: &Desk) -> u64 {
    let up = desk.stations.iter().filter_map(|s| s.up.as_ref());
    let moments = up.flat_map(|up| [Some(up.chance), up.timer]).flatten().chain(desk.under_way.iter().map(|m| m.due));
    let next = moments.min().unwrap_or(desk.tick + 1);
    match random.range(0, 19) {
        0 => 0,
        1..=3 => 1,
        4..=9 => next - desk.tick + random.range(0, 2) - 1,
        10..=14 => random.range(1, 2 * desk.eta + 2),
        15..=18 => random.range(1, 300),
        _ => random.pick(&[255, 256, 257, 4111, LONGEST_RUN]),
    }
}

/// The length of the buffer for a listing of this length, if one is due.
fn any_buffer(random: &mut Random, due: Option<usize>) -> usize {
    let Some(due) = due else { return random.pick(&[0, 1, 60, 200, LONGEST_BUFFER as u64]) as usize };
    let length = match random.range(0, 19) {
        0 => 0,
        1..=2 => random.range(1, due as u64 - 2) as usize,
        3..=6 => due - 1,
        7..=12 => due,
        13..=14 => due + 1,
        _ => due + random.range(2, 100) as usize,
    };
    length.min(LONGEST_BUFFER)
}

/// The bytes as CASES reads them. What stands there many times in a row is written once.
fn written(bytes: &[u8]) -> Vec<String> {
    let hex = |bytes: &[u8]| bytes.iter().map(|byte| format!("{byte:02x}")).collect::<Vec<String>>().join(" ");
    let mut words = Vec::new();
    let mut rest = bytes;
    while !rest.is_empty() {
        let times = |width: usize| rest.chunks_exact(width).take_while(|&piece| piece == &rest[..width]).count();
        match (1..=4).find(|&width| times(width) >= 8) {
            Some(width) => {
                words.push(format!("*{}({})", times(width), hex(&rest[..width])));
                rest = &rest[width * times(width)..];
            }
            None => {
                words.push(hex(&rest[..1]));
                rest = &rest[1..];
            }
        }
    }
    words
}

/// The command as arguments: digits of either case, bytes together, apart or in arguments of their own.
fn spelt(random: &mut Random, command: &[u8]) -> Vec<String> {
    let upper_percent = random.pick(&[0, 0, 50, 100]);
    let (together_percent, blank_percent) = match random.range(0, 5) {
        0..=1 => (0, 0), // arguments of their own
        2 => (100, 0),
        3 => (0, 100),
        _ => (30, 30),
    };
    let mut arguments: Vec<String> = Vec::new();
    for byte in command {
        let hex: String = format!("{byte:02x}")
            .chars()
            .map(|digit| if random.percent(upper_percent) { digit.to_ascii_uppercase() } else { digit })
            .collect();
        let x = random.range(0, 99);
        match arguments.last_mut() {
            Some(last) if x < together_percent => *last += &hex,
            Some(last) if x < together_percent + blank_percent => *last += &format!(" {hex}"),
            _ => arguments.push(hex),
        }
    }
    if !arguments.is_empty() && random.percent(10) {
        // blanks before and behind, and an argument without a byte
        let place = random.next() as usize % arguments.len();
        arguments[place] = format!("  {} ", arguments[place]);
        if random.percent(50) {
            arguments.insert(place, " ".repeat(place));
        }
    }
    arguments
}

/// Arguments without a byte, with something that is no hex, or with two commands.
fn wrong_arguments(random: &mut Random, command: &[u8]) -> Vec<String> {
    let words: &[&str] = match random.range(0, 19) {
        0 => &[],
        1 => &[""],
        2 => &["  ", ""],
        3 => &["--help"],
        4 => &["0x03", "01"],
        5 => &["03,01"],
        6 => &["0", "3"],
        7 => &["3", "1"],
        8 => &["0301", "0"],
        9 => &["03 0 1"],
        10 => &["07", "07"],
        11 => &["0301 0302"],
        12 => &["01", "02", "10", "00"],
        _ => {
            let arguments = spelt(random, command);
            return damaged(random, arguments);
        }
    };
    words.iter().map(|word| word.to_string()).collect()
}

/// With one character changed, taken out or put in.
fn damaged(random: &mut Random, mut arguments: Vec<String>) -> Vec<String> {
    if arguments.is_empty() {
        return arguments;
    }
    let which = random.next() as usize % arguments.len();
    let mut characters: Vec<char> = arguments[which].chars().collect();
    let place = random.next() as usize % characters.len().max(1);
    let others = ['g', 'G', 'x', '-', '.', '/', ':', '@', '`', '_', 'ä'];
    let other = others[random.next() as usize % others.len()];
    match random.range(0, 2) {
        0 if !characters.is_empty() => characters[place] = other,
        1 if !characters.is_empty() => {
            characters.remove(place);
        }
        _ => characters.insert(place, if random.percent(50) { '0' } else { other }),
    }
    arguments[which] = characters.into_iter().collect();
    arguments
}

/// What was reached and compared.
#[derive(Default)]
struct Tally {
    accepted: BTreeMap<(&'static str, u8), u64>, // by OPERATION or PROGRAM and command byte
    refused: BTreeMap<(&'static str, u64), u64>, // the same, and SCHEDULE, by number
    notes: BTreeMap<&'static str, u64>,
    shown: u64, // refused commands with the listing as it was
    passed: u64,
    failed: u64,
}

const OPERATION: &str = "operation";
const PROGRAM: &str = "program";
const SCHEDULE: &str = "schedule";

impl Tally {
    fn failure(&mut self, text: String) -> bool {
        self.failed += 1;
        let shown = self.failed <= MOST_SHOWN;
        if shown {
            println!("{text}");
        }
        shown
    }

    fn note(&mut self, note: &'static str) {
        *self.notes.entry(note).or_default() += 1;
    }

    /// What was answered to a command: 0 or a refusal.
    fn answered(&mut self, by: &'static str, command: &[u8], answer: u64) {
        match command.first() {
            Some(&byte) if answer == 0 => *self.accepted.entry((by, byte)).or_default() += 1,
            _ => *self.refused.entry((by, answer)).or_default() += 1,
        }
    }

    /// Hands the lines to CASES and compares what it prints for each.
    fn batch(&mut self, cases: &str, lines: &[(String, String)]) {
        let text: String = lines.iter().map(|(input, _)| input.as_str()).collect();
        let (printed, wrong) = program::run("tryouts", cases, text.as_bytes(), text.len());
        let printed = String::from_utf8_lossy(&printed).into_owned();
        let name = |line: &str| line.rsplit(':').next().unwrap_or("").trim_end().to_string();
        let which = format!("{} to {}", name(&lines[0].0), name(&lines[lines.len() - 1].0));
        let ended_well = wrong.is_none();
        if let Some(said) = wrong {
            self.failure(format!("{which}: {said}"));
        }
        let mut answers: Vec<String> = Vec::new();
        for line in printed.split_inclusive('\n') {
            let first = line.starts_with("try ") || line.starts_with("cases ");
            match answers.last_mut() {
                Some(answer) if !first => *answer += line,
                _ => answers.push(line.to_string()),
            }
        }
        let mut answers = answers.into_iter();
        for (input, expected) in lines {
            let answer = answers.next().unwrap_or_else(|| "nothing".to_string());
            if answer == *expected {
                self.passed += 1;
            } else {
                self.failure(format!("{input}    prints: {answer:?}\n    should: {expected:?}"));
            }
        }
        let rest: String = answers.collect();
        let expected = format!("cases {}\n", lines.len());
        if ended_well && rest != expected {
            let start: String = rest.chars().take(200).collect();
            self.failure(format!("{which}: after the answers it prints {start:?}, and should print {expected:?}"));
        }
    }

    /// Runs TRYOUT and compares what it prints. Where the arguments are wrong it is handed so many bytes that it shows
    /// whether they are read.
    fn program(&mut self, program: &str, case: &Case, seed: u64) {
        let unread = vec![REPORT; UNREAD];
        let read = read_arguments(&case.arguments);
        let wrong = read.is_err();
        let (input, out, err) = match read {
            Err(wrong) => {
                self.note(match wrong {
                    Wrong::NoByte => "no byte",
                    Wrong::NoHex => "no hex",
                    Wrong::LeftOver => "bytes left over",
                });
                (&unread, String::new(), wrong.told())
            }
            Ok(command) => {
                assert_eq!(command, case.command);
                match case.refused {
                    Some((number, offset)) => {
                        *self.refused.entry((SCHEDULE, number)).or_default() += 1;
                        (&case.schedule, String::new(), told_refused(number, offset))
                    }
                    None => {
                        self.answered(PROGRAM, &command, case.tried.refusal);
                        (&case.schedule, case.tried.told(&command), String::new())
                    }
                }
            }
        };
        let piece = if input.len() < 1000 { [1, 7, 100, 1000][case.number as usize % 4] } else { input.len() };
        let (output, took_all) = program::hand("tryouts", program, &case.arguments, input, piece);
        let mut said = Vec::new();
        if !output.status.success() {
            said.push(format!("ends with {}", output.status));
        }
        for (name, printed, expected) in [("output", &output.stdout, &out), ("error", &output.stderr, &err)] {
            if printed != expected.as_bytes() {
                let printed = String::from_utf8_lossy(printed);
                said.push(format!("on standard {name} prints: {printed:?}\n    should: {expected:?}"));
            }
        }
        if took_all && wrong {
            said.push("reads a schedule although the arguments are wrong".to_string());
        }
        if said.is_empty() {
            self.passed += 1;
            return;
        }
        let file = format!("tryout-{seed}-{}.bin", case.number);
        let text = format!("try {}: {program} {:?} < {file}\n    {}", case.number, case.arguments, said.join("\n    "));
        if self.failure(text) {
            if let Err(error) = std::fs::write(&file, input) {
                println!("    {file}: {error}");
            }
        }
    }

    fn print(&self) {
        print!("{:<28}", "command accepted");
        COMMANDS.iter().for_each(|byte| print!("{byte:>7}"));
        println!();
        for by in [OPERATION, PROGRAM] {
            print!("    {by:<24}");
            COMMANDS.iter().for_each(|&byte| print!("{:>7}", self.accepted.get(&(by, byte)).unwrap_or(&0)));
            println!();
        }
        print!("{:<18}", "refused");
        REFUSALS.iter().for_each(|number| print!("{number:>6}"));
        println!();
        for by in [OPERATION, PROGRAM, SCHEDULE] {
            print!("    {by:<14}");
            REFUSALS.iter().for_each(|&number| print!("{:>6}", self.refused.get(&(by, number)).unwrap_or(&0)));
            println!();
        }
        self.print_notes("tables", &TABLES);
        self.print_notes("buffers", &BUFFERS);
        println!("refused commands that show the listing: {}", self.shown);
        self.print_notes("wrong arguments", &ARGUMENTS);
        println!("{} passed, {} failed", self.passed, self.failed);
    }

    fn print_notes(&self, name: &str, notes: &[&str]) {
        let texts: Vec<String> = notes.iter().map(|n| format!("{n} {}", self.notes.get(n).unwrap_or(&0))).collect();
        println!("{name}: {}", texts.join(", "));
    }
}

fn main() {
    let words: Vec<String> = std::env::args().collect();
    let numbers: Vec<u64> = words.iter().skip(1).take(2).filter_map(|w| w.parse().ok()).collect();
    if words.len() != 5 || numbers.len() != 2 {
        eprintln!("usage: tryouts COUNT SEED CASES TRYOUT");
        std::process::exit(2);
    }
    let (count, seed, cases, program) = (numbers[0], numbers[1], &words[3], &words[4]);
    let mut tally = Tally::default();
    let (mut lines, mut bytes) = (Vec::new(), 0);
    for number in 1..=count {
        let case = Case::random(seed, number);
        // The program has no table but the schedule's.
        if !case.unsound {
            tally.program(program, &case, seed);
        }
        let line = case.line();
        if line.len() > LONGEST_LINE || case.schedule.len() > LONGEST_IN_LINE {
            continue;
        }
        case.notes.iter().for_each(|note| tally.note(note));
        tally.note(case.buffer_note());
        let (answer, length, _) = case.tried.answer(case.buffer);
        tally.answered(OPERATION, &case.command, answer);
        tally.shown += u64::from(case.tried.refusal != 0 && length != 0);
        if bytes + line.len() > MOST_BYTES {
            tally.batch(cases, &lines);
            lines.clear();
            bytes = 0;
        }
        bytes += line.len();
        lines.push((line, case.expected()));
    }
    if !lines.is_empty() {
        tally.batch(cases, &lines);
    }
    tally.print();
    std::process::exit(if tally.failed == 0 && tally.passed != 0 { 0 } else { 1 });
}
