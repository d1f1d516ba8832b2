// captures COUNT SEED PROGRAM: hands COUNT captures to PROGRAM on its standard input, each of frames as hex text, one
// to a line, and compares what it prints with what frame.rs reads there. Prints how often each kind of line came, those
// that begin with 11 hex, the clock frames, by themselves, the first captures that differ and 'N passed, M failed'.

mod frame;
mod program;
mod random;

use frame::{read_clock_frame, read_frame, write_clock_frame, write_frame};
use random::Random;
use std::collections::BTreeMap;

const MOST_LINES: u64 = 60; // of an ordinary capture
const MOST_CHARACTERS: u64 = 200_000; // of a very long line, where its bytes are not counted
const MOST_SHOWN: u64 = 10;

fn digit(character: u8) -> Option<u8> {
    match character {
        b'0'..=b'9' => Some(character - b'0'),
        b'a'..=b'f' => Some(character - b'a' + 10),
        b'A'..=b'F' => Some(character - b'A' + 10),
        _ => None,
    }
}

/// The bytes that the line stands for, or none if it is no hex text.
fn bytes_of(line: &[u8]) -> Option<Vec<u8>> {
    let mut bytes = Vec::new();
    let mut rest = line;
    loop {
        match rest {
            [] => return Some(bytes),
            [b' ' | b'\t' | b'\r', after @ ..] => rest = after,
            [high, low, after @ ..] => {
                bytes.push(16 * digit(*high)? + digit(*low)?);
                rest = after;
            }
            [_] => return None,
        }
    }
}

fn reason(refusal: u64) -> &'static str {
    match refusal {
        5 => "n is not 2 to 8",
        17 => "the length is not 3 + 2n",
        18 => "the first byte is neither 10 nor 11 hex",
        19 => "the sender is not 1 to n",
        20 => "a count is above 4095, or the sender's own is 0",
        _ => unreachable!("24 cannot come, as n is the frame's own"),
    }
}

fn clock_reason(refusal: u64) -> &'static str {
    match refusal {
        17 => "the length is not 6",
        19 => "the sender is not 1 to 8",
        _ => unreachable!("5 and 18 cannot come, as n is 8 and the first byte is 11 hex"),
    }
}

/// The kinds of lines: clock frames and others, with 0 if the line is accepted, else with the refusal, and no hex text.
#[derive(Clone, Copy, PartialEq, Eq, PartialOrd, Ord)]
enum Kind {
    ClockFrame(u64),
    Frame(u64),
    NoHex,
}

/// What is printed for the line, and which kind it is.
fn explained(number: usize, line: &[u8]) -> (Kind, String) {
    let (kind, said) = match bytes_of(line) {
        None => (Kind::NoHex, "no hex".to_string()),
        Some(bytes) if bytes.first() == Some(&0x11) => clock_explained(&bytes),
        Some(bytes) => frame_explained(&bytes),
    };
    (kind, format!("line {number}: {said}\n"))
}

fn frame_explained(bytes: &[u8]) -> (Kind, String) {
    // What every reader refuses with 17, as an old frame, is refused so; else n is the frame's own.
    let answer = if (2..=8).all(|n| read_frame(n, bytes) == Err(17)) {
        Err(17)
    } else {
        read_frame(bytes[2] as u64, bytes)
    };
    match answer {
        Ok((sender, vector)) => {
            let counts: Vec<String> = vector.iter().map(|count| count.to_string()).collect();
            (Kind::Frame(0), format!("sender {sender} n {} counts {}", bytes[2], counts.join(",")))
        }
        Err(refusal) => (Kind::Frame(refusal), format!("refused {refusal}, {}", reason(refusal))),
    }
}

/// A clock frame has no n in it: it is read for 8 stations.
fn clock_explained(bytes: &[u8]) -> (Kind, String) {
    match read_clock_frame(8, bytes) {
        Ok((sender, stamp)) => (Kind::ClockFrame(0), format!("sender {sender} stamp {stamp}")),
        Err(refusal) => (Kind::ClockFrame(refusal), format!("refused {refusal}, {}", clock_reason(refusal))),
    }
}

/// The lines of a capture. What follows the last newline is one if it has a character.
fn lines_of(capture: &[u8]) -> Vec<&[u8]> {
    let mut lines: Vec<&[u8]> = capture.split(|&character| character == b'\n').collect();
    if lines.last().is_some_and(|last| last.is_empty()) {
        lines.pop();
    }
    lines
}

impl Random {
    fn bytes(&mut self, length: u64) -> Vec<u8> {
        (0..length).map(|_| self.byte()).collect()
    }

    /// A place in what has this length, which is not 0.
    fn place(&mut self, length: usize) -> usize {
        self.range(0, length as u64 - 1) as usize
    }

    fn blank(&mut self) -> u8 {
        self.pick(&[b' ' as u64, b' ' as u64, b'\t' as u64, b'\r' as u64]) as u8
    }

    fn blanks(&mut self, length: u64) -> Vec<u8> {
        (0..length).map(|_| self.blank()).collect()
    }

    fn digit(&mut self) -> u8 {
        b"0123456789abcdefABCDEF"[self.place(22)]
    }

    /// A character that has no place in hex text: many stand next to the digits, or are blanks elsewhere.
    fn stranger(&mut self) -> u8 {
        loop {
            let character = match self.range(0, 3) {
                0 => self.byte(),
                1 => b"/:@G`gOolxXhH"[self.place(13)],
                2 => b"\x00\x08\x0b\x0c\x0e\x1a\x1b\x1f!\x7f\x80\x85\x8a\x8d\xa0\xb0\xe1\xff"[self.place(18)],
                _ => b",;.-+_#\"'$*\\|"[self.place(13)],
            };
            if character != b'\n' && !b" \t\r".contains(&character) && digit(character).is_none() {
                return character;
            }
        }
    }

    /// A count in range.
    fn count(&mut self) -> u64 {
        if self.percent(50) {
            self.pick(&[0, 1, 2, 9, 10, 99, 100, 255, 256, 999, 1000, 4094, 4095])
        } else {
            self.range(0, 4095)
        }
    }

    /// n, the sender and the vector of a frame that is well formed.
    fn leader(&mut self) -> (u64, u64, Vec<u64>) {
        let n = self.range(2, 8);
        let sender = self.range(1, n);
        let mut vector: Vec<u64> = (0..n).map(|_| self.count()).collect();
        let own = &mut vector[sender as usize - 1];
        *own = (*own).max(1);
        (n, sender, vector)
    }

    fn frame(&mut self) -> Vec<u8> {
        let (n, sender, vector) = self.leader();
        let mut bytes = vec![0; 3 + 2 * n as usize];
        write_frame(n, sender, &vector, &mut bytes).expect("it is well formed");
        bytes
    }

    fn clock_frame(&mut self) -> Vec<u8> {
        let sender = self.range(1, 8);
        let stamp = match self.range(0, 2) {
            0 => self.pick(&[0, 1, 255, 256, 65_535, 65_536, (1 << 24) - 1, 1 << 24, 1 << 31, (1 << 32) - 1]),
            1 => self.range(16, 1_000_255), // as a clock reads
            _ => self.range(0, (1 << 32) - 1),
        };
        let mut bytes = vec![0; 6];
        write_clock_frame(8, sender, stamp as u32, &mut bytes).expect("it is well formed");
        bytes
    }

    /// A frame of either kind.
    fn well_formed(&mut self) -> Vec<u8> {
        if self.percent(65) {
            self.frame()
        } else {
            self.clock_frame()
        }
    }

    /// A frame as it was before Paper 5: 2 + 2n bytes, and n is none of them.
    fn old_frame(&mut self) -> Vec<u8> {
        let mut bytes = self.frame();
        if self.percent(30) {
            bytes[3] = self.range(2, 8) as u8; // the third byte may be taken for n
        }
        bytes.remove(2);
        bytes
    }

    /// Bytes that may be a clock frame.
    fn any_clock_frame(&mut self) -> Vec<u8> {
        let mut bytes = self.clock_frame();
        match self.range(0, 15) {
            0..=6 => {}
            7 => {
                let place = self.place(bytes.len());
                bytes[place] = self.byte();
            }
            8 => {
                let place = self.place(bytes.len());
                bytes[place] ^= 1 << self.range(0, 7);
            }
            9 => bytes[0] = self.pick(&[0, 1, 0x10, 0x10, 0x12, 0x91, 255]) as u8,
            10 => bytes[1] = self.pick(&[0, 9, 16, 255]) as u8,
            11 => {
                // two parts wrong at once, so that the order of the refusals shows
                bytes[1] = self.pick(&[0, 9, 255]) as u8;
                if self.percent(50) {
                    bytes.pop();
                } else {
                    bytes.push(0);
                }
            }
            12 => bytes.truncate(self.range(1, 5) as usize),
            13 => bytes.push(self.byte()),
            14 => {
                // as long as a frame of flash heads, with its n
                let n = self.range(2, 8);
                bytes[2] = n as u8;
                bytes.resize(3 + 2 * n as usize, 1);
            }
            _ => {
                let more = self.pick(&[2, 3, 6, 250, 256]);
                bytes.extend(self.bytes(more));
            }
        }
        bytes
    }

    /// Bytes that may be a frame.
    fn any_frame(&mut self) -> Vec<u8> {
        if self.percent(35) {
            return self.any_clock_frame();
        }
        let mut bytes = self.frame();
        let length = bytes.len();
        match self.range(0, 19) {
            0..=7 => {}
            8 => {
                let place = self.place(length);
                bytes[place] = self.byte();
            }
            9 => {
                let place = self.place(length);
                bytes[place] ^= 1 << self.range(0, 7);
            }
            10 => bytes[0] = self.pick(&[0, 1, 0x0F, 0x11, 0x20, 0x90, 255]) as u8,
            11 => bytes[1] = self.pick(&[0, bytes[2] as u64 + 1, 9, 16, 255]) as u8,
            12 => bytes[2] = self.pick(&[0, 1, 2, 3, 4, 5, 6, 7, 8, 9, 10, 16, 255]) as u8,
            13 => {
                // a count that is too large, or the sender's own 0
                let place = 3 + 2 * self.place(length / 2 - 1);
                let own = 1 + 2 * bytes[1] as usize;
                if self.percent(50) {
                    bytes[place + 1] = self.pick(&[16, 17, 32, 255]) as u8;
                } else {
                    bytes[own..own + 2].fill(0);
                }
            }
            14 => {
                // two parts wrong at once, so that the order of the refusals shows
                let first = self.range(0, 4);
                for part in [first, (first + self.range(1, 4)) % 5] {
                    match part {
                        0 => bytes[0] = self.pick(&[0, 1, 255]) as u8,
                        1 => bytes[1] = self.pick(&[0, 9, 255]) as u8,
                        2 => bytes[2] = self.pick(&[0, 1, 9, 255]) as u8,
                        3 => bytes[4] = self.pick(&[16, 255]) as u8, // a count above 4095
                        _ => bytes.push(0),
                    }
                }
            }
            15 => bytes.truncate(self.place(length)),
            16 => {
                let more = self.range(1, 12);
                bytes.extend(self.bytes(more));
            }
            17 => return self.old_frame(),
            18 => {
                let short = self.range(0, 4);
                return self.bytes(short);
            }
            _ => {
                let any = self.range(0, 24);
                bytes = self.bytes(any);
                if any > 2 {
                    bytes[2] = self.range(0, 10) as u8;
                }
            }
        }
        bytes
    }
}

/// How bytes are set as text: letters small (0), large (1) or both; gaps none (0), one space between two bytes (1), or
/// blanks anywhere but inside a byte.
#[derive(Clone, Copy)]
struct Style {
    letters: u64,
    gaps: u64,
}

impl Style {
    fn random(random: &mut Random) -> Style {
        Style { letters: random.range(0, 2), gaps: random.range(0, 2) }
    }

    fn text(self, random: &mut Random, bytes: &[u8]) -> Vec<u8> {
        let mut text = Vec::new();
        for (place, byte) in bytes.iter().enumerate() {
            text.extend(self.gap(random, place > 0));
            for half in [byte / 16, byte % 16] {
                let large = self.letters == 1 || self.letters == 2 && random.percent(50);
                let digits = if large { b"0123456789ABCDEF" } else { b"0123456789abcdef" };
                text.push(digits[half as usize]);
            }
        }
        text.extend(self.gap(random, false));
        text
    }

    fn gap(self, random: &mut Random, between: bool) -> Vec<u8> {
        match self.gaps {
            1 if between => vec![b' '],
            0 | 1 => Vec::new(),
            _ => {
                let length = random.range(0, 3);
                random.blanks(length)
            }
        }
    }
}

/// Changes one thing in the text of a line, at times such that it is hex text still.
fn change(random: &mut Random, text: &mut Vec<u8>) {
    let digits: Vec<usize> = (0..text.len()).filter(|&place| digit(text[place]).is_some()).collect();
    let place = random.range(0, text.len() as u64) as usize;
    match random.range(0, 6) {
        0 if !digits.is_empty() => {
            text.remove(digits[random.place(digits.len())]);
        }
        1 => text.insert(place, random.digit()),
        2 if !digits.is_empty() => {
            // often inside a byte
            let after = digits[random.place(digits.len())] + 1;
            text.insert(after, random.blank());
        }
        3 => text.insert(place, random.stranger()),
        4 if !digits.is_empty() => text[digits[random.place(digits.len())]] = random.stranger(),
        5 => text.truncate(place),
        _ => {
            let words: [&[u8]; 7] = [b"0x", b"\\x", b"#", b" 10", b" 11", b" -", "\u{a0}".as_bytes()];
            let word = words[random.place(words.len())];
            text.splice(place..place, word.iter().copied());
        }
    }
}

/// A line without its end.
fn line(random: &mut Random, style: Style) -> Vec<u8> {
    let style = if random.percent(70) { style } else { Style::random(random) };
    match random.range(0, 19) {
        0 => {
            let length = random.pick(&[0, 0, 1, 2, 5]);
            random.blanks(length)
        }
        1 => {
            let length = random.range(0, 40);
            let mut text = random.bytes(length);
            text.retain(|&character| character != b'\n');
            text
        }
        2 => {
            let length = random.range(0, 40);
            (0..length).map(|_| if random.percent(80) { random.digit() } else { random.blank() }).collect()
        }
        3..=6 => {
            let bytes = random.any_frame();
            let mut text = style.text(random, &bytes);
            for _ in 0..random.pick(&[1, 1, 1, 2]) {
                change(random, &mut text);
            }
            text
        }
        _ => {
            let bytes = random.any_frame();
            style.text(random, &bytes)
        }
    }
}

/// A line without its end that is very long.
fn long_line(random: &mut Random) -> Vec<u8> {
    let style = Style::random(random);
    let frame = random.well_formed();
    let length = match random.range(0, 2) {
        0 => random.pick(&[1 << 10, 1 << 12, 1 << 13, 1 << 15, 1 << 16, 1 << 16, 1 << 17]) + random.range(0, 6) - 3,
        1 => random.range(1_000, MOST_CHARACTERS),
        _ => random.range(65_537, MOST_CHARACTERS),
    };
    let mut text = style.text(random, &frame);
    match random.range(0, 9) {
        // a frame, with blanks at one place
        0..=3 => {
            let place = match random.range(0, 3) {
                0 => 0,
                1 => text.len(),
                _ => random.place(text.len() + 1),
            };
            let blanks = if random.percent(50) {
                vec![random.blank(); length as usize - text.len()]
            } else {
                random.blanks(length - text.len() as u64)
            };
            text.splice(place..place, blanks);
        }
        // a frame and, blanks later, more
        4 | 5 => {
            text.extend(random.blanks(length - text.len() as u64));
            match random.range(0, 2) {
                0 => text.push(random.digit()),
                1 => text.push(random.stranger()),
                _ => text.extend([random.digit(), random.digit()]),
            }
        }
        // as many bytes more as some counter of bytes cannot tell
        6 => {
            let more = random.pick(&[256, 512, 65_536]);
            let mut bytes = frame;
            bytes.extend(random.bytes(more));
            text = style.text(random, &bytes);
        }
        // bytes all the way, at times with a change
        7 | 8 => {
            let mut bytes = frame;
            bytes.extend(random.bytes(length / if style.gaps == 2 { 5 } else { 3 }));
            text = style.text(random, &bytes);
            if random.percent(50) {
                change(random, &mut text);
            } else if random.percent(50) {
                text.push(random.digit());
            }
        }
        _ => {
            text = random.bytes(length);
            text.retain(|&character| character != b'\n');
        }
    }
    text
}

/// Frames as hex text, one to a line.
fn capture(random: &mut Random, number: u64) -> Vec<u8> {
    let style = Style::random(random);
    let return_percent = random.pick(&[0, 0, 50, 100]); // of lines that end with a carriage return
    let mut capture = Vec::new();
    // Adds a line with its end, and answers how many bytes there are.
    let mut add = |random: &mut Random, text: Vec<u8>| {
        capture.extend(text);
        if random.percent(return_percent) {
            capture.push(b'\r');
        }
        capture.push(b'\n');
        capture.len() as u64
    };
    let many = match random.range(0, 19) {
        0 => 0,
        1 => 1,
        _ => random.range(0, MOST_LINES),
    };
    for _ in 0..many {
        let text = line(random, style);
        add(random, text);
    }
    match number % 100 {
        // several hundred thousand bytes
        20 | 40 | 60 | 80 => {
            let length = random.range(200_000, 900_000);
            loop {
                let text = line(random, style);
                if add(random, text) >= length {
                    break;
                }
            }
        }
        // a million bytes or two
        50 => {
            let length = random.range(1_100_000, 2_500_000);
            loop {
                let text = if random.percent(1) { random.blanks(10_000) } else { line(random, style) };
                if add(random, text) >= length {
                    break;
                }
            }
        }
        // more lines than some counter of lines can tell
        70 => {
            for _ in 0..random.range(65_600, 110_000) {
                let text = match random.range(0, 9) {
                    0 => vec![random.digit(), random.digit()],
                    1 => vec![random.digit()],
                    _ => Vec::new(),
                };
                add(random, text);
            }
        }
        // very long lines among the others
        rest if rest % 10 == 5 => {
            for _ in 0..random.range(1, 3) {
                let text = long_line(random);
                add(random, text);
                let text = line(random, style);
                add(random, text);
            }
        }
        _ => {}
    }
    // The last line need not have its end, and then may be very short.
    if random.percent(40) {
        capture.pop();
        if random.percent(30) {
            let last: [&[u8]; 7] = [b"\n", b"\n ", b"\n\r", b"\n1", b"\n10", b"\n11", b"\n\t\ng"];
            capture.extend(last[random.place(last.len())]);
        }
    }
    capture
}

/// The bytes as they can be shown, the middle left out where they are many.
fn shown(bytes: &[u8]) -> String {
    if bytes.len() <= 200 {
        return format!("\"{}\"", bytes.escape_ascii());
    }
    let (start, end) = (&bytes[..100], &bytes[bytes.len() - 60..]);
    format!("\"{}\" .. \"{}\" ({} characters)", start.escape_ascii(), end.escape_ascii(), bytes.len())
}

/// What was compared: lines by kind.
#[derive(Default)]
struct Tally {
    kinds: BTreeMap<Kind, u64>,
    passed: u64,
    failed: u64,
}

impl Tally {
    /// Hands the capture to PROGRAM and compares what it prints.
    fn compare(&mut self, program: &str, number: u64, capture: &[u8], piece: usize) {
        let lines = lines_of(capture);
        let mut expected = Vec::new();
        for (number, line) in (1..).zip(&lines) {
            let (kind, text) = explained(number, line);
            *self.kinds.entry(kind).or_default() += 1;
            expected.push(text);
        }
        let (printed, wrong) = program::run("captures", program, capture, piece);
        if wrong.is_none() && printed == expected.concat().as_bytes() {
            self.passed += 1;
            return;
        }
        self.failed += 1;
        if self.failed > MOST_SHOWN {
            return;
        }
        println!("capture {number}, bytes {}, lines {}", capture.len(), lines.len());
        if let Some(said) = wrong {
            println!("    {said}");
        }
        let mut answers = printed.split_inclusive(|&character| character == b'\n');
        for ((number, line), text) in (1..).zip(&lines).zip(&expected) {
            let answer = answers.next().unwrap_or(b"");
            if answer != text.as_bytes() {
                println!("    line {number}: {}", shown(line));
                println!("    prints: {}\n    should: {}", shown(answer), shown(text.as_bytes()));
                return;
            }
        }
        if let Some(more) = answers.next() {
            println!("    prints after the last line: {}", shown(more));
        }
    }

    fn times(&self, kind: Kind) -> u64 {
        self.kinds.get(&kind).copied().unwrap_or(0)
    }

    /// How often each of these refusals came.
    fn refusals(&self, numbers: &[u64], kind: fn(u64) -> Kind) -> String {
        let texts: Vec<String> = numbers.iter().map(|&n| format!("{n}: {}", self.times(kind(n)))).collect();
        texts.join(", ")
    }

    fn print(&self) {
        let others = self.refusals(&[0, 5, 17, 18, 19, 20], Kind::Frame);
        let no_hex = self.times(Kind::NoHex);
        println!("clock frames, times each refusal (0: accepted): {}", self.refusals(&[0, 17, 19], Kind::ClockFrame));
        println!("other lines, times each refusal (0: accepted): {others}, no hex: {no_hex}");
        println!("{} passed, {} failed", self.passed, self.failed);
    }
}

fn main() {
    let words: Vec<String> = std::env::args().collect();
    let numbers: Vec<u64> = words.iter().skip(1).take(2).filter_map(|w| w.parse().ok()).collect();
    if words.len() != 4 || numbers.len() != 2 {
        eprintln!("usage: captures COUNT SEED PROGRAM");
        std::process::exit(2);
    }
    let (count, seed, program) = (numbers[0], numbers[1], &words[3]);
    let mut random = Random(seed);
    let mut tally = Tally::default();
    for number in 1..=count {
        let capture = capture(&mut random, number);
        let piece = if capture.len() < 10_000 { random.pick(&[1, 7, 100, 10_000]) } else { random.range(500, 100_000) };
        tally.compare(program, number, &capture, piece as usize);
    }
    tally.print();
    std::process::exit(if tally.failed == 0 && tally.passed != 0 { 0 } else { 1 });
}
