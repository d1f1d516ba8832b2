// Schedules as text, and what the program `desk` prints, in plain Rust. Written from the papers and the program's
// description alone.

use crate::desk::{at, command, Desk, Heads, Knows, Station, Up, LAST_TICK};
use crate::reasons::reason;

pub const LONGEST_SCHEDULE: usize = 65_536;
pub const LONGEST_TEXT: usize = 524_288;
const LONGEST_RUN: u64 = 65_535;
const LONGEST_FIGURE: u64 = 255;

const LINK: u8 = 4;
const RUN: u8 = 5;

/// The words of each command, its byte and how many numbers stand behind the words. `set up clocks` is tried before
/// `set up`.
const ENTRIES: [(&str, u8, usize); 10] = [
    ("set up clocks", 9, 2),
    ("set up", 1, 2),
    ("start", 2, 1),
    ("crash", 3, 1),
    ("link", LINK, 3),
    ("cut", LINK, 2), // a link of delay 0
    ("lose", 6, 2),
    ("rank", 8, 2),
    ("run", RUN, 1),
    ("report", 7, 0),
];

/// What is wrong with a line.
#[derive(Clone, Copy, Debug, PartialEq)]
pub enum Wrong {
    UnknownWord,
    NumberMissing,
    TooManyWords,
    DoesNotFit,
    TooLong,
}

impl Wrong {
    pub fn told(self) -> &'static str {
        match self {
            Wrong::UnknownWord => "unknown word",
            Wrong::NumberMissing => "a number is missing",
            Wrong::TooManyWords => "too many words",
            Wrong::DoesNotFit => "a number does not fit its place",
            Wrong::TooLong => "the schedule has more than 65,536 bytes",
        }
    }
}

/// Why bytes have no text.
#[derive(Clone, Copy, Debug, PartialEq)]
pub enum NoText {
    NoCommand,
    OperandsMissing,
    NoTicks,
    TooLong,
}

impl NoText {
    pub fn told(self) -> &'static str {
        match self {
            NoText::NoCommand => "no command",
            NoText::OperandsMissing => "operands are missing",
            NoText::NoTicks => "a run of no ticks, which has no text",
            NoText::TooLong => "more than 65,536 bytes",
        }
    }
}

/// A schedule made from a text, with the number of each line that gave bytes and where they begin.
pub struct Assembled {
    pub bytes: Vec<u8>,
    lines: Vec<(u64, usize)>,
}

impl Assembled {
    /// The number of the line whose bytes hold this offset.
    fn line_at(&self, offset: usize) -> u64 {
        let before = self.lines.iter().filter(|&&(_, begin)| begin <= offset);
        before.last().expect("the first line's bytes begin at 0").0
    }
}

/// The schedule of a text, or the number of the first wrong line and what is wrong with it.
pub fn assemble(text: &[u8]) -> Result<Assembled, (u64, Wrong)> {
    let mut made = Assembled { bytes: Vec::new(), lines: Vec::new() };
    for (number, line) in (1..).zip(text.split_inclusive(|&byte| byte == b'\n')) {
        let bytes = command_of(line).map_err(|wrong| (number, wrong))?;
        if made.bytes.len() + bytes.len() > LONGEST_SCHEDULE {
            return Err((number, Wrong::TooLong));
        }
        if !bytes.is_empty() {
            made.lines.push((number, made.bytes.len()));
            made.bytes.extend(bytes);
        }
    }
    Ok(made)
}

/// The bytes of a line's command, none if it has no words.
fn command_of(line: &[u8]) -> Result<Vec<u8>, Wrong> {
    let said = line.split(|&byte| byte == b'#').next().unwrap_or(line);
    let words: Vec<&[u8]> = said.split(|byte| b" \t\r\n".contains(byte)).filter(|word| !word.is_empty()).collect();
    if words.is_empty() {
        return Ok(Vec::new());
    }
    let entry = ENTRIES.iter().find(|(name, ..)| words.starts_with(&names(name)));
    let &(name, byte, many) = entry.ok_or(Wrong::UnknownWord)?;
    let mut rest = words[names(name).len()..].iter();
    let mut numbers = Vec::new();
    for _ in 0..many {
        let word = rest.next().ok_or(Wrong::NumberMissing)?;
        let (low, high) = if byte == RUN { (1, LAST_TICK) } else { (0, 255) };
        let number = number_of(word)?.filter(|number| (low..=high).contains(number)).ok_or(Wrong::DoesNotFit)?;
        numbers.push(number);
    }
    if rest.next().is_some() {
        return Err(Wrong::TooManyWords);
    }
    if byte == RUN {
        return Ok(runs(numbers[0]));
    }
    let mut bytes = vec![byte];
    bytes.extend(numbers.into_iter().map(|number| number as u8));
    if name == "cut" {
        bytes.push(0);
    }
    Ok(bytes)
}

fn names(name: &str) -> Vec<&[u8]> {
    name.split(' ').map(str::as_bytes).collect()
}

/// The number that a word of digits says, none if it is above 9,999,999.
fn number_of(word: &[u8]) -> Result<Option<u64>, Wrong> {
    if !word.iter().all(u8::is_ascii_digit) {
        return Err(Wrong::UnknownWord);
    }
    let zeros = word.iter().take_while(|&&digit| digit == b'0').count();
    let digits = &word[zeros..];
    if digits.len() > 7 {
        return Ok(None);
    }
    Ok(Some(digits.iter().fold(0, |number, &digit| 10 * number + u64::from(digit - b'0'))))
}

/// Run commands for so many ticks: each of 65,535 but the last.
fn runs(mut ticks: u64) -> Vec<u8> {
    let mut bytes = Vec::new();
    while ticks > 0 {
        let now = ticks.min(LONGEST_RUN);
        bytes.extend([RUN, (now % 256) as u8, (now / 256) as u8]);
        ticks -= now;
    }
    bytes
}

/// The text of bytes, or where there is none and why.
pub fn show(bytes: &[u8]) -> Result<String, (usize, NoText)> {
    if bytes.len() > LONGEST_SCHEDULE {
        return Err((0, NoText::TooLong));
    }
    let mut text = String::new();
    let mut offset = 0;
    while offset < bytes.len() {
        let (line, length) = show_first(&bytes[offset..]).map_err(|why| (offset, why))?;
        text += &line;
        text.push('\n');
        offset += length;
    }
    Ok(text)
}

/// The text of the first command of the bytes, and its length.
fn show_first(bytes: &[u8]) -> Result<(String, usize), NoText> {
    let text = match *bytes {
        [1, n, period, ..] => (format!("set up {n} {period}"), 3),
        [2, p, ..] => (format!("start {p}"), 2),
        [3, p, ..] => (format!("crash {p}"), 2),
        [4, p, q, 0, ..] => (format!("cut {p} {q}"), 4),
        [4, p, q, delay, ..] => (format!("link {p} {q} {delay}"), 4),
        [5, 0, 0, ..] => return Err(NoText::NoTicks),
        [5, low, high, ..] => (format!("run {}", u16::from_le_bytes([low, high])), 3),
        [6, p, q, ..] => (format!("lose {p} {q}"), 3),
        [7, ..] => ("report".to_string(), 1),
        [8, p, rank, ..] => (format!("rank {p} {rank}"), 3),
        [9, n, period, ..] => (format!("set up clocks {n} {period}"), 3),
        [1..=9, ..] => return Err(NoText::OperandsMissing),
        _ => return Err(NoText::NoCommand),
    };
    Ok(text)
}

/// What the arguments ask for.
#[derive(Clone, Copy, Debug, PartialEq)]
pub enum Asked {
    Rehearse,
    Bytes,
    Text,
    Figure(u64),
}

/// None if they are wrong, and a usage is due.
pub fn asked(arguments: &[&str]) -> Option<Asked> {
    // Blanks in arguments part words as those between them do, and an empty argument has no word.
    let words = arguments.iter().flat_map(|argument| argument.split([' ', '\t', '\r']));
    let words: Vec<&str> = words.filter(|word| !word.is_empty()).collect();
    match words[..] {
        [] => Some(Asked::Rehearse),
        ["bytes"] => Some(Asked::Bytes),
        ["text"] => Some(Asked::Text),
        ["figure", ticks] => {
            let ticks = number_of(ticks.as_bytes()).ok()??;
            (1..=LONGEST_FIGURE).contains(&ticks).then_some(Asked::Figure(ticks))
        }
        _ => None,
    }
}

/// What the program writes on standard output and on standard error.
#[derive(Clone, Debug, PartialEq)]
pub struct Said {
    pub out: Vec<u8>,
    pub err: String,
}

impl Said {
    fn out(out: impl Into<Vec<u8>>) -> Said {
        Said { out: out.into(), err: String::new() }
    }

    fn err(line: String) -> Said {
        Said { out: Vec::new(), err: format!("desk: {line}\n") }
    }
}

/// A schedule that was run: the listings, the state where it ended, and the refusal with its byte offset.
struct Ran {
    listings: String,
    state: Option<Desk>,
    refused: Option<(u64, usize)>,
}

fn run(bytes: &[u8]) -> Ran {
    let mut ran = Ran { listings: String::new(), state: None, refused: None };
    let mut offset = 0;
    while offset < bytes.len() {
        match command(&mut ran.state, &bytes[offset..]) {
            Ok((length, report)) => {
                if let (true, Some(desk)) = (report, &ran.state) {
                    ran.listings += &desk.listing();
                }
                offset += length;
            }
            Err(number) => {
                ran.refused = Some((number, offset));
                break;
            }
        }
    }
    ran
}

/// A text as the program takes it.
pub enum Text {
    TooLong,
    Wrong(u64, Wrong),
    Ran(Box<TextRan>),
}

pub struct TextRan {
    pub made: Assembled,
    ran: Ran,
}

impl Text {
    pub fn new(text: &[u8]) -> Text {
        if text.len() > LONGEST_TEXT {
            return Text::TooLong;
        }
        match assemble(text) {
            Ok(made) => {
                let ran = run(&made.bytes);
                Text::Ran(Box::new(TextRan { made, ran }))
            }
            Err((line, wrong)) => Text::Wrong(line, wrong),
        }
    }

    /// What the program says to it. `text` reads bytes and is not asked here.
    pub fn said(&self, asked: Asked) -> Said {
        let text = match self {
            Text::TooLong => return Said::err("the text has more than 524,288 bytes".to_string()),
            Text::Wrong(line, wrong) => return Said::err(format!("line {line}: {}", wrong.told())),
            Text::Ran(text) => text,
        };
        let refused = text.refused();
        match asked {
            Asked::Rehearse => {
                let last = refused.unwrap_or_else(|| "end".to_string());
                Said::out(format!("{}{last}\n", text.ran.listings))
            }
            Asked::Bytes => Said::out(text.made.bytes.clone()),
            Asked::Figure(ticks) => match refused {
                Some(line) => Said::err(line),
                None => Said::out(figure(&text.ran.state, ticks)),
            },
            Asked::Text => unreachable!("it reads bytes"),
        }
    }

    /// The number of the schedule's refusal, 0 if it is accepted.
    pub fn refusal(&self) -> Option<u64> {
        match self {
            Text::Ran(text) => Some(text.ran.refused.map_or(0, |(number, _)| number)),
            _ => None,
        }
    }
}

impl TextRan {
    fn refused(&self) -> Option<String> {
        let (number, offset) = self.ran.refused?;
        let line = self.made.line_at(offset);
        let (command, _) = show_first(&self.made.bytes[offset..]).expect("a text makes only such bytes");
        Some(format!("refused {number}, {}; line {line}: {command}", reason(number)))
    }
}

/// What `desk text` says to bytes.
pub fn said_of_bytes(bytes: &[u8]) -> Said {
    match show(bytes) {
        Ok(text) => Said::out(text),
        Err((offset, why)) => Said::err(format!("byte {offset}: {}", why.told())),
    }
}

/// The bound of demand 3 for all heads that are up, with d of so many ticks.
fn figure(state: &Option<Desk>, d: u64) -> String {
    let Some(desk) = state else { return "nothing is set up\n".to_string() };
    if desk.heads == Heads::Clock {
        return "the heads have a running clock, and the bound is for heads with flash\n".to_string();
    }
    let up: Vec<(&Station, &Up)> = desk.stations.iter().filter_map(|s| Some((s, s.up.as_ref()?))).collect();
    let first = up.iter().map(|(s, _)| (s.kept_count, desk.rank[at(s.number)], s.number)).min();
    let Some((_, _, leader)) = first else { return "no head is up\n".to_string() };
    let wait = up.iter().map(|(_, up)| if up.waiting { up.chance - desk.tick } else { 0 }).max().unwrap_or(0);
    let timeout = up.iter().map(|(_, up)| longest_timeout(up)).max().unwrap_or(0);
    let (period, heads) = (desk.eta, up.len() as u64);
    let bound = wait + timeout + 3 * d + period + (heads - 1) * (d - 1) * d.saturating_sub(2) / 2;
    format!(
        "W {wait}, the longest start-up wait left\n\
         M {timeout}, the longest timeout\n\
         B {period}, the period\n\
         k {heads}, the heads that are up\n\
         L {leader}, the first of them by starts, rank and number\n\
         bound {bound} ticks\n\
         As long as no head starts or crashes, no message between heads that are up is lost or cut, and each message \
         to one of them, under way or sent later, takes at most {d} ticks more, at most {bound} ticks from here on \
         end with a head that is up not trusting station {leader}, and in all others no head but station {leader} \
         sends.\n"
    )
}

/// Of a flash head, for any other station, up or down.
fn longest_timeout(up: &Up) -> u64 {
    match &up.knows {
        Knows::Counts { timeout, .. } => timeout.iter().copied().max().unwrap_or(0),
        Knows::Stamps { .. } => 0,
    }
}
