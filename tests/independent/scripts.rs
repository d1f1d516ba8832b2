// scripts COUNT SEED DESK: makes COUNT texts and COUNT schedules. Compares what the program DESK says to each text, as
// it rehearses it, makes bytes of it and tells the bound, and to each schedule, whose text must restore its bytes, with
// what script.rs says. Rows and long inputs come first. Prints the first that differ, what was reached, and how many
// comparisons were made.

mod desk;
#[allow(dead_code)] // of its two functions, one
mod program;
mod random;
mod reasons;
mod schedule;
mod script;
mod search;

use random::Random;
use schedule::{schedule, CLOCK_SETUP, LINK, REPORT, RUN, SETUP, WIDTHS};
use script::{asked, said_of_bytes, show, Asked, Said, Text, LONGEST_SCHEDULE, LONGEST_TEXT};
use std::collections::BTreeMap;

const LAST_TICK: u64 = 1_000_000;
const LONGEST_RUN: u64 = 65_535;
const MOST_SHOWN: u64 = 10;
const MOST_PRINTED: usize = 300; // characters of what was printed

/// Arguments with blanks between them, input, what is due on standard output and on standard error.
type Row = (&'static str, &'static [u8], &'static str, &'static str);

/// What the program must say, word for word.
const ROWS: [Row; 93] = [
    // lines
    ("", b"", "end\n", ""),
    ("", b"\n", "end\n", ""),
    ("", b"# nothing", "end\n", ""),
    ("bytes", b"", "", ""),
    ("bytes", b"\r\n\t \n#\n", "", ""),
    ("bytes", b"report", "\x07", ""),
    ("bytes", b"report\n", "\x07", ""),
    ("bytes", b"report\r\n\r\nreport\r", "\x07\x07", ""),
    ("bytes", b"\t report \t# start 1\nreport#report\n#report\nreport", "\x07\x07\x07", ""),
    ("bytes", b"# \xff\x00 caf\xc3\xa9 #\nreport # \xff\n", "\x07", ""),
    ("bytes", b"\n\n\nreport\n\nreports\n", "", "desk: line 6: unknown word\n"),
    // commands
    ("bytes", b"set up 2 16", "\x01\x02\x10", ""),
    ("bytes", b"set  up\tclocks 8 127", "\x09\x08\x7f", ""),
    ("bytes", b"start 1\ncrash 2", "\x02\x01\x03\x02", ""),
    ("bytes", b"link 1 2 3\nlink 1 2 0\ncut 2 1", "\x04\x01\x02\x03\x04\x01\x02\x00\x04\x02\x01\x00", ""),
    ("bytes", b"lose 1 2\nrank 3 7", "\x06\x01\x02\x08\x03\x07", ""),
    ("bytes", b"run 1\nrun 20\nrun 32639", "\x05\x01\x00\x05\x14\x00\x05\x7f\x7f", ""),
    ("bytes", b"start 0\nstart 000\nstart 0000000000000000000000007", "\x02\x00\x02\x00\x02\x07", ""),
    // unknown words
    ("", b"begin", "", "desk: line 1: unknown word\n"),
    ("", b"Report", "", "desk: line 1: unknown word\n"),
    ("", b"report.", "", "desk: line 1: unknown word\n"),
    ("", b"report\x00", "", "desk: line 1: unknown word\n"),
    ("", b"report\x0b", "", "desk: line 1: unknown word\n"),
    ("", b"report\x0c", "", "desk: line 1: unknown word\n"),
    ("", b"\xef\xbb\xbfreport", "", "desk: line 1: unknown word\n"),
    ("", b"set", "", "desk: line 1: unknown word\n"),
    ("", b"set 2 16", "", "desk: line 1: unknown word\n"),
    ("", b"setup 2 16", "", "desk: line 1: unknown word\n"),
    ("", b"set up clock 2 16", "", "desk: line 1: unknown word\n"),
    ("", b"up", "", "desk: line 1: unknown word\n"),
    ("", b"start1", "", "desk: line 1: unknown word\n"),
    ("", b"start one", "", "desk: line 1: unknown word\n"),
    ("", b"start -1", "", "desk: line 1: unknown word\n"),
    ("", b"start +1", "", "desk: line 1: unknown word\n"),
    ("", b"start 0x1", "", "desk: line 1: unknown word\n"),
    ("", b"start 1:", "", "desk: line 1: unknown word\n"),
    ("", b"start 1/", "", "desk: line 1: unknown word\n"),
    ("", b"start 1\xc2\xa0", "", "desk: line 1: unknown word\n"),
    ("", b"run 1,000", "", "desk: line 1: unknown word\n"),
    ("", b"1", "", "desk: line 1: unknown word\n"),
    // numbers missing, words too many
    ("", b"set up", "", "desk: line 1: a number is missing\n"),
    ("", b"set up 2", "", "desk: line 1: a number is missing\n"),
    ("", b"set up clocks", "", "desk: line 1: a number is missing\n"),
    ("", b"set up clocks 2", "", "desk: line 1: a number is missing\n"),
    ("", b"start #1", "", "desk: line 1: a number is missing\n"),
    ("", b"start#1", "", "desk: line 1: a number is missing\n"),
    ("", b"link 1 2\n3", "", "desk: line 1: a number is missing\n"),
    ("", b"cut 1", "", "desk: line 1: a number is missing\n"),
    ("", b"run", "", "desk: line 1: a number is missing\n"),
    ("", b"report 1", "", "desk: line 1: too many words\n"),
    ("", b"report report", "", "desk: line 1: too many words\n"),
    ("", b"cut 1 2 0", "", "desk: line 1: too many words\n"),
    ("", b"set up 2 16 3", "", "desk: line 1: too many words\n"),
    ("", b"run 5 ticks", "", "desk: line 1: too many words\n"),
    // numbers that do not fit
    ("", b"start 256", "", "desk: line 1: a number does not fit its place\n"),
    ("", b"start 0256", "", "desk: line 1: a number does not fit its place\n"),
    ("", b"start 4294967297", "", "desk: line 1: a number does not fit its place\n"),
    ("", b"start 18446744073709551617", "", "desk: line 1: a number does not fit its place\n"),
    ("", b"link 1 2 256", "", "desk: line 1: a number does not fit its place\n"),
    ("", b"run 0", "", "desk: line 1: a number does not fit its place\n"),
    ("", b"run 1000001", "", "desk: line 1: a number does not fit its place\n"),
    // the first that is wrong, and the first wrong line
    ("", b"start 256 1", "", "desk: line 1: a number does not fit its place\n"),
    ("", b"start x 1", "", "desk: line 1: unknown word\n"),
    ("", b"start 1 x", "", "desk: line 1: too many words\n"),
    ("", b"link 1 256", "", "desk: line 1: a number does not fit its place\n"),
    ("", b"link 1 256 x", "", "desk: line 1: a number does not fit its place\n"),
    ("", b"link x 256", "", "desk: line 1: unknown word\n"),
    ("", b"set up 2 16\nstart\nbegin\n", "", "desk: line 2: a number is missing\n"),
    ("figure 3", b"start 1\nbegin\n", "", "desk: line 2: unknown word\n"),
    ("bytes", b"begin", "", "desk: line 1: unknown word\n"),
    // rehearsals
    (
        "",
        b"set up 2 16\nstart 1\nstart 2\nrun 20\nreport\n",
        "tick 20\n1 up leader 1 inc 1 rec 1,1 sent 1 kept 1\n2 up leader 1 inc 1 rec 1,1 sent 1 kept 2\nagreed 1\nend\n",
        "",
    ),
    ("", b"# late\n\nstart 01", "refused 3, nothing is set up; line 3: start 1\n", ""),
    ("", b"set up 2 16\nlink 1 1 0\n", "refused 11, a link from a station to itself; line 2: cut 1 1\n", ""),
    ("", b"set up 2 16\nrun 1000000\nrun 1\n", "refused 14, a run past tick 1,000,000; line 3: run 1\n", ""),
    ("", b"set up 2 16\nrun 1\n\nrun 1000000\n", "refused 14, a run past tick 1,000,000; line 4: run 16975\n", ""),
    ("", b"set up 2 16\nrun 500000\nrun 500001", "refused 14, a run past tick 1,000,000; line 3: run 41256\n", ""),
    (
        "",
        b"set up 2 16\nrank 2 1\nstart 1\nreport\nrank 1 1\nreport",
        "tick 0\n1 up leader 1 inc 1 rec 1,0 sent 0 kept 1\n2 down leader - inc 0 rec - sent 0 kept 2\nagreed 1\n\
         refused 23, a rank after the first start of any station; line 5: rank 1 1\n",
        "",
    ),
    // the bound: that of the README's divided heads, right after station 1 crashes at tick 33
    (
        "figure 3",
        b"set up 3 16\nlink 2 1 64\nstart 1\nstart 2\nrun 20\nstart 3\nlink 1 2 3\nlink 1 3 3\nrun 13\nreport\ncrash 1",
        "W 4, the longest start-up wait left\n\
         M 17, the longest timeout\n\
         B 16, the period\n\
         k 2, the heads that are up\n\
         L 2, the first of them by starts, rank and number\n\
         bound 47 ticks\n\
         As long as no head starts or crashes, no message between heads that are up is lost or cut, and each message \
         to one of them, under way or sent later, takes at most 3 ticks more, at most 47 ticks from here on end with \
         a head that is up not trusting station 2, and in all others no head but station 2 sends.\n",
        "",
    ),
    ("figure 1", b"", "nothing is set up\n", ""),
    ("figure 1", b"set up 2 16", "no head is up\n", ""),
    (
        "figure 1",
        b"set up clocks 2 16\nstart 1",
        "the heads have a running clock, and the bound is for heads with flash\n",
        "",
    ),
    (
        "figure 1",
        b"set up clocks 2 16",
        "the heads have a running clock, and the bound is for heads with flash\n",
        "",
    ),
    (
        "figure 255",
        b"set up 2 16\nreport\nstart 1\nstart 2\n\nstart 1",
        "",
        "desk: refused 8, the station to start is up; line 6: start 1\n",
    ),
    // texts of bytes
    ("text", b"", "", ""),
    ("text", b"\x01\x03\x10\x09\x03\x10\x02\x01\x03\x01", "set up 3 16\nset up clocks 3 16\nstart 1\ncrash 1\n", ""),
    ("text", b"\x04\x01\x02\x03\x04\x01\x02\x00\x05\x14\x00", "link 1 2 3\ncut 1 2\nrun 20\n", ""),
    ("text", b"\x06\x01\x02\x07\x08\x01\x05\x05\xff\xff", "lose 1 2\nreport\nrank 1 5\nrun 65535\n", ""),
    ("text", b"\x07\x00\x02", "", "desk: byte 1: no command\n"),
    ("text", b"\x02\x01\x0a", "", "desk: byte 2: no command\n"),
    ("text", b"\x07\x04\x01\x02", "", "desk: byte 1: operands are missing\n"),
    ("text", b"\x07\x07\x05\x00\x00\x00", "", "desk: byte 2: a run of no ticks, which has no text\n"),
    ("text", b"\x07\x05\x00", "", "desk: byte 1: operands are missing\n"),
    ("text", b"\x02\xff\x03\x00", "start 255\ncrash 0\n", ""),
];

/// Arguments that are wrong.
const WRONG: [&[&str]; 32] = [
    &["byte"],
    &["bytess"],
    &["Bytes"],
    &["BYTES"],
    &["bytes", "bytes"],
    &["bytes", "3"],
    &["text", "text"],
    &["Text"],
    &["texts"],
    &["tex"],
    &["figure"],
    &["figure", ""],
    &["figure", "0"],
    &["figure", "00"],
    &["figure", "256"],
    &["figure", "1000"],
    &["figure", "4294967297"],
    &["figure", "18446744073709551617"],
    &["figure", "-1"],
    &["figure", "+1"],
    &["figure", "x"],
    &["figure", "3x"],
    &["figure", "1.5"],
    &["figure", "0x3"],
    &["figure", "3", "3"],
    &["Figure", "3"],
    &["figures", "3"],
    &["3"],
    &["3", "figure"],
    &["--help"],
    &["rehearse"],
    &["bytes text"],
];

/// Arguments with blanks in them, and empty ones.
const SPACED: [&[&str]; 8] =
    [&[""], &["", " "], &[" bytes"], &["bytes", ""], &["figure 3"], &["figure", "", "3"], &["\tfigure", "3 "], &["figure\r3"]];

/// What was compared, and what was reached.
#[derive(Default)]
struct Tally {
    reached: BTreeMap<String, u64>,
    compared: u64,
    differ: u64,
}

impl Tally {
    fn reach(&mut self, what: impl Into<String>) {
        *self.reached.entry(what.into()).or_default() += 1;
    }

    /// Hands the input to DESK in pieces and compares. What it printed on standard output comes back.
    fn compare(&mut self, program: &str, arguments: &[&str], input: &[u8], piece: usize, due: &Due, kept: &str) -> Vec<u8> {
        let words: Vec<String> = arguments.iter().map(|word| word.to_string()).collect();
        let (output, _) = program::hand("scripts", program, &words, input, piece);
        let mut said = Vec::new();
        if !output.status.success() {
            said.push(format!("ends with {}", output.status));
        }
        let (out, err) = match due {
            Due::Said(said) => (&said.out[..], Some(&said.err)),
            Due::Usage => (&[][..], None),
        };
        if output.stdout != out {
            said.push(differ("output", &output.stdout, out));
        }
        match err {
            Some(err) if output.stderr != err.as_bytes() => said.push(differ("error", &output.stderr, err.as_bytes())),
            None if !String::from_utf8_lossy(&output.stderr).contains("usage: desk") => {
                said.push(format!("no usage on standard error: {}", printed(&output.stderr, 0)));
            }
            _ => {}
        }
        self.compared += 1;
        if !said.is_empty() {
            self.differ += 1;
            if self.differ <= MOST_SHOWN {
                println!("{program} {arguments:?} < {kept}\n    {}", said.join("\n    "));
                if let Err(error) = std::fs::write(kept, input) {
                    println!("    {kept}: {error}");
                }
            }
        }
        output.stdout
    }

    fn print(&self) {
        for (what, many) in &self.reached {
            println!("{many:>7} {what}");
        }
        if self.differ == 0 {
            println!("{} comparisons, all agree", self.compared);
        } else {
            println!("{} comparisons, {} differ", self.compared, self.differ);
        }
    }
}

/// What DESK must print.
enum Due {
    Said(Said),
    Usage,
}

fn differ(stream: &str, is: &[u8], should: &[u8]) -> String {
    let same = is.iter().zip(should).take_while(|(a, b)| a == b).count();
    let from = same.saturating_sub(60);
    format!(
        "on standard {stream}, of {} bytes and not {}, from byte {from}: {}\n    should be: {}",
        is.len(),
        should.len(),
        printed(is, from),
        printed(should, from)
    )
}

fn printed(bytes: &[u8], from: usize) -> String {
    let bytes = &bytes[from.min(bytes.len())..];
    format!("{:?}", String::from_utf8_lossy(&bytes[..bytes.len().min(MOST_PRINTED)]))
}

/// What is due for a text or, of `text`, for bytes.
fn due(arguments: &[&str], input: &[u8]) -> Due {
    match asked(arguments) {
        None => Due::Usage,
        Some(Asked::Text) => Due::Said(said_of_bytes(input)),
        Some(asked) => Due::Said(Text::new(input).said(asked)),
    }
}

fn rows(tally: &mut Tally, program: &str) {
    for (number, &(arguments, input, out, err)) in (1..).zip(&ROWS) {
        let words: Vec<&str> = arguments.split_whitespace().collect();
        let row = Said { out: out.as_bytes().to_vec(), err: err.to_string() };
        match due(&words, input) {
            Due::Said(said) => assert_eq!(said, row, "row {number}"),
            Due::Usage => panic!("row {number} has no such arguments"),
        }
        tally.compare(program, &words, input, input.len().max(1), &Due::Said(row), &format!("script-row-{number}.in"));
        tally.reach("rows");
    }
    for (number, &arguments) in (1..).zip(&WRONG) {
        assert!(asked(arguments).is_none(), "{arguments:?}");
        let kept = format!("script-arguments-{number}.in");
        tally.compare(program, arguments, b"set up 2 16\nreport\n", 100, &Due::Usage, &kept);
        tally.reach("wrong arguments");
    }
    for (number, &arguments) in (1..).zip(&SPACED) {
        let text = b"set up 2 16\nstart 1\nreport\n";
        let kept = format!("script-spaced-{number}.txt");
        tally.compare(program, arguments, text, 100, &due(arguments, text), &kept);
        tally.reach("arguments with blanks");
    }
    for ticks in ["1", "2", "9", "10", "99", "100", "254", "255", "007", "0255"] {
        let arguments = ["figure", ticks];
        let text = b"set up 4 30\nrank 1 3\nstart 1\nstart 3\nstart 4\nrun 33\n";
        tally.compare(program, &arguments, text, 100, &due(&arguments, text), &format!("script-figure-{ticks}.in"));
        tally.reach("figures for a number of ticks");
    }
}

/// Each character before, inside and behind a command, each byte as a command, and each number.
fn each_byte(tally: &mut Tally, program: &str) {
    for byte in 0..=255 {
        for (name, text) in [
            ("before", [&[byte][..], b"report\nreport"].concat()),
            ("inside", [b"start", &[byte][..], b"1\nreport"].concat()),
            ("behind", [b"start 1", &[byte][..], b"\nreport"].concat()),
        ] {
            let kept = format!("script-byte-{byte}-{name}.txt");
            tally.compare(program, &["bytes"], &text, 100, &due(&["bytes"], &text), &kept);
            tally.reach("texts with each byte");
        }
        let bytes = [byte, 1, 1, 1, byte];
        tally.compare(program, &["text"], &bytes, 100, &due(&["text"], &bytes), &format!("script-byte-{byte}.bin"));
        tally.reach("schedules with each byte");
    }
    let mut bytes = Vec::new();
    for number in 0..=255 {
        for command in 1..=9 {
            bytes.push(command);
            for place in 0..WIDTHS[command as usize] {
                bytes.push(if command == RUN && place == 1 { 1 } else { number });
            }
        }
        bytes.extend([RUN, 255, number, LINK, number, 1, 0]);
    }
    schedule_both_ways(tally, program, &bytes, bytes.len(), "script-each-number.bin");
}

/// So many bytes of a line that says nothing but for its end.
fn filled(length: usize, with: u8, end: &[u8]) -> Vec<u8> {
    let mut line = vec![with; length - end.len()];
    line.extend(end);
    line
}

/// A text with short lines, of so many bytes, and a command in its last line, which has no newline.
fn short_lines(length: usize) -> Vec<u8> {
    let mut text = b"set up 2 16\nstart 1\n".to_vec();
    let end = b"\nreport";
    while text.len() + 4 + end.len() <= length {
        text.extend(b"#..\n");
    }
    text.resize(length - end.len(), b' ');
    text.extend(end);
    text
}

/// Texts as long as they may be, longer, and with long lines, each with a name.
fn long_texts() -> Vec<(String, Vec<u8>)> {
    let mut all: Vec<(String, Vec<u8>)> = Vec::new();
    let mut add = |name: &str, text: Vec<u8>| all.push((name.to_string(), text));

    for (name, length) in [
        ("a text of 1 MiB", 1 << 20),
        ("a text of 524,287 bytes", LONGEST_TEXT - 1),
        ("a text of 524,288 bytes", LONGEST_TEXT),
        ("a text of 524,289 bytes", LONGEST_TEXT + 1),
    ] {
        add(name, short_lines(length));
        add(&format!("{name}, a comment"), filled(length, b'#', b"\n"));
        add(&format!("{name}, blanks and a report"), filled(length, b' ', b"report"));
        add(&format!("{name}, newlines"), vec![b'\n'; length]);
        add(&format!("{name}, one word"), vec![b'x'; length]);
        add(&format!("{name}, wrong at first"), [b"begin\n".to_vec(), vec![b'\n'; length - 6]].concat());
    }

    let set_up = b"set up 2 16\n".to_vec();
    let long = 65_536;
    let with = |line: Vec<u8>| [set_up.clone(), line, b"\nreport\n".to_vec()].concat();
    add("a line of 65,536 characters, comment", with(filled(long, b'#', b"")));
    add("a line of 65,536 characters, comment of high bytes", with([b"#".to_vec(), vec![200; long - 1]].concat()));
    add("a line of 65,536 characters, command and comment", with([b"start 1#".to_vec(), vec![b'.'; long - 8]].concat()));
    add("a line of 65,536 characters, spaces", with(filled(long, b' ', b"")));
    add("a line of 65,536 characters, tabs", with(filled(long, b'\t', b"start 2")));
    add("a line of 65,536 characters, carriage returns", with([b"start 2".to_vec(), vec![b'\r'; long - 7]].concat()));
    let zeros = |name: &str, end: &str| {
        let digits = filled(long - name.len(), b'0', end.as_bytes());
        [name.as_bytes().to_vec(), digits].concat()
    };
    add("a line of 65,536 characters, start 0..01", with(zeros("start ", "1")));
    add("a line of 65,536 characters, start 0..0", with(zeros("start ", "")));
    add("a line of 65,536 characters, start 0..0255", with(zeros("start ", "255")));
    add("a line of 65,536 characters, start 0..0256", with(zeros("start ", "256")));
    add("a line of 65,536 characters, run 0..0", with(zeros("run ", "")));
    add("a line of 65,536 characters, run 0..01", with(zeros("run ", "1")));
    add("a line of 65,536 characters, run 0..01000000", with(zeros("run ", "1000000")));
    add("a line of 65,536 characters, run 0..01000001", with(zeros("run ", "1000001")));
    add("a line of 65,536 characters, start 10..0", with(zeros("start 1", "")));
    add("a line of 65,536 characters, start 9..9", with([b"start ".to_vec(), vec![b'9'; long - 6]].concat()));
    add("a line of 65,536 characters, digits and a letter", with(zeros("start ", "1x")));
    add("a line of 65,536 characters, one word", with(vec![b'r'; long]));
    add("a line of 65,536 characters, too many words", with(b"report 1 ".repeat(long)[..long].to_vec()));

    // as many bytes as a schedule may have, and more
    let full = |last: &str| {
        let mut text = b"set up 2 16\nstart 1\nstart 2\nrun 20\nreport\n".to_vec(); // 11 bytes
        for place in 0..(LONGEST_SCHEDULE - 11) / 4 {
            text.extend(format!("link {} {} {}\n", 1 + place % 2, 2 - place % 2, 1 + place % 255).bytes());
        }
        text.extend(last.bytes()); // one byte is left
        text
    };
    add("65,535 bytes of schedule", full("# full\n"));
    add("65,536 bytes of schedule", full("report\n"));
    add("65,536 bytes of schedule, no newline", full("report"));
    add("65,536 bytes of schedule, and lines", full("report\n\n# full\n  \n"));
    add("65,536 bytes of schedule, one command more", full("report\n# full\n\nreport\nbegin\n"));
    add("65,536 bytes of schedule, one command more, no newline", full("report\nreport"));
    add("65,536 bytes of schedule, a wrong line more", full("report\nbegin\nreport\n"));
    add("65,537 bytes of schedule", full("start 1\nreport\n"));
    add("65,538 bytes of schedule", full("\nrun 65535\nreport\n"));
    for (left, ticks) in [(48, LAST_TICK), (47, LAST_TICK), (45, LAST_TICK), (3, LONGEST_RUN), (3, LONGEST_RUN + 1)] {
        let mut text = set_up.clone();
        for _ in 0..LONGEST_SCHEDULE - 3 - left {
            text.extend(b"report\n");
        }
        text.extend(format!("run {ticks}\n").bytes());
        add(&format!("a run of {ticks} ticks where {left} bytes are left"), text);
    }
    let mut most = b"set up 8 255\n".to_vec();
    (1..=8).for_each(|head| most.extend(format!("start {head}\n").bytes()));
    most.extend(b"run 65535\n");
    most.extend(b"report\n".repeat(LONGEST_SCHEDULE - 22));
    add("as many reports as there can be", most);
    add("a refusal in the last line", [set_up.clone(), b"start 1\ncrash 1\n".repeat(4095), b"start 1".to_vec()].concat());
    all
}

fn long_inputs(tally: &mut Tally, program: &str, random: &mut Random) {
    for (name, text) in long_texts() {
        let ticks = random.range(1, 255).to_string();
        let kept = format!("script-{}.in", name.replace([' ', ','], "-"));
        let own = Text::new(&text);
        for arguments in [&[][..], &["bytes"], &["figure", &ticks]] {
            let said = own.said(asked(arguments).expect("these arguments are right"));
            let piece = [text.len(), 1000, 4096, 65_537][random.range(0, 3) as usize];
            tally.compare(program, arguments, &text, piece, &Due::Said(said), &kept);
        }
        tally.reach("long texts");
    }
    for (name, bytes) in [
        ("65,536 reports", vec![REPORT; LONGEST_SCHEDULE]),
        ("65,537 reports", vec![REPORT; LONGEST_SCHEDULE + 1]),
        ("200,000 reports", vec![REPORT; 200_000]),
        ("65,537 bytes of no command", vec![0; LONGEST_SCHEDULE + 1]),
        ("65,536 bytes of no command", vec![0; LONGEST_SCHEDULE]),
        ("21,845 set ups and a report", [[CLOCK_SETUP, 255, 255].repeat(21_845), vec![REPORT]].concat()),
        ("21,845 set ups and a link", [[CLOCK_SETUP, 255, 255].repeat(21_845), vec![LINK]].concat()),
        ("16,384 links", [LINK, 1, 2, 255].repeat(16_384)),
        ("21,845 runs and a wrong byte", [[RUN, 255, 255].repeat(21_845), vec![255]].concat()),
    ] {
        schedule_both_ways(tally, program, &bytes, bytes.len(), &format!("script-{}.bin", name.replace([' ', ','], "-")));
        tally.reach("long schedules");
    }
}

/// Through `desk text` and, where that gives a text, through `desk bytes` again.
fn schedule_both_ways(tally: &mut Tally, program: &str, bytes: &[u8], piece: usize, kept: &str) {
    let said = said_of_bytes(bytes);
    let shown = said.err.is_empty();
    if shown {
        tally.reach("text: shown");
    } else {
        let why = said.err.split_once(": ").and_then(|(_, rest)| rest.split_once(": ")).map_or("", |(_, why)| why);
        tally.reach(format!("text: {}", why.trim_end()));
    }
    let text = tally.compare(program, &["text"], bytes, piece, &Due::Said(said), kept);
    if shown {
        let same = Said { out: bytes.to_vec(), err: String::new() };
        let kept = kept.replace(".bin", ".txt");
        tally.compare(program, &["bytes"], &text, text.len().max(1), &Due::Said(same), &kept);
    }
}

/// A line's words, with the bytes that they must give as long as nothing is damaged.
type Line = (Vec<Vec<u8>>, Vec<u8>);

fn words(text: &str) -> Vec<Vec<u8>> {
    text.split(' ').map(|word| word.as_bytes().to_vec()).collect()
}

/// The lines of as many commands as have a text. Some runs are one line.
fn lines_of(random: &mut Random, bytes: &[u8]) -> Vec<Line> {
    let mut lines: Vec<Line> = Vec::new();
    let mut rest = bytes;
    while let Some(&byte) = rest.first() {
        let length = 1 + WIDTHS.get(byte as usize).copied().unwrap_or(0) as usize;
        let Ok(text) = show(&rest[..length.min(rest.len())]) else { break };
        let mut line = words(text.trim_end());
        if line[0] == b"cut" && random.percent(50) {
            line[0] = b"link".to_vec();
            line.push(b"0".to_vec());
        }
        lines.push((line, rest[..length].to_vec()));
        rest = &rest[length..];
    }
    let mut together: Vec<Line> = Vec::new();
    let percent = random.pick(&[0, 50, 100]);
    for line in lines {
        match together.last_mut() {
            // a long run goes on
            Some(last) if last.1.ends_with(&[RUN, 255, 255]) && line.1[0] == RUN && random.percent(percent) => {
                let ticks = ticks(&last.1) + ticks(&line.1);
                if ticks > LAST_TICK {
                    together.push(line);
                    continue;
                }
                last.0[1] = ticks.to_string().into_bytes();
                last.1.extend(&line.1);
            }
            _ => together.push(line),
        }
    }
    together
}

/// The ticks of run commands.
fn ticks(runs: &[u8]) -> u64 {
    runs.chunks(3).map(|run| u64::from(u16::from_le_bytes([run[1], run[2]]))).sum()
}

/// A run of many ticks.
fn long_run(random: &mut Random) -> Line {
    let any = random.range(1, LAST_TICK);
    let ticks = random.pick(&[65_534, 65_535, 65_536, 131_070, 131_071, 983_025, 983_026, 999_999, LAST_TICK, any]);
    let mut bytes = Vec::new();
    for _ in 0..(ticks - 1) / LONGEST_RUN {
        bytes.extend([RUN, 255, 255]);
    }
    let last = ((ticks - 1) % LONGEST_RUN + 1) as u16;
    bytes.push(RUN);
    bytes.extend(last.to_le_bytes());
    (words(&format!("run {ticks}")), bytes)
}

const UNKNOWN: [&[u8]; 31] = [
    b"begin", b"Set", b"UP", b"START", b"Report", b"reports", b"repor", b"setup", b"clock", b"clocks", b"ticks", b"x",
    b"-1", b"+1", b"1.0", b"1,000", b"0x1", b"1e3", b"\xe2\x85\xa0", b"\xff", b"\x00", b"1\x00", b"1\x0c", b"\x0b1",
    b"1\xc2\xa0", b"\xef\xbb\xbf1", b"1;", b"/1", b"1:", b"one", b"\x80",
];

const NUMBERS: [&str; 25] = [
    "0", "1", "2", "7", "8", "9", "15", "16", "254", "255", "256", "257", "511", "512", "999", "65535", "65536", "999999",
    "1000000", "1000001", "9999999", "10000000", "4294967297", "18446744073709551617",
    "340282366920938463463374607431768211457",
];

const NAMES: [&str; 12] =
    ["set", "up", "clocks", "start", "crash", "link", "cut", "lose", "rank", "run", "report", "set up"];

fn any_number(random: &mut Random) -> Vec<u8> {
    let zeros = random.pick(&[0, 0, 0, 0, 1, 2, 30]) as usize;
    let number = NUMBERS[random.range(0, NUMBERS.len() as u64 - 1) as usize];
    format!("{}{number}", "0".repeat(zeros)).into_bytes()
}

/// Changes the words of one line.
fn damage_line(random: &mut Random, line: &mut Vec<Vec<u8>>) {
    let many = line.len() as u64;
    let place = random.range(0, many - 1) as usize;
    let behind = random.range(0, many) as usize;
    match random.range(0, 14) {
        0 => line[place] = UNKNOWN[random.range(0, UNKNOWN.len() as u64 - 1) as usize].to_vec(),
        1 => line.insert(behind, UNKNOWN[random.range(0, UNKNOWN.len() as u64 - 1) as usize].to_vec()),
        2..=3 => {
            line.remove(place);
        }
        4 => line.push(any_number(random)),
        5 => line.insert(behind, any_number(random)),
        6..=9 => {
            // a number at the end of a range or beyond
            let numbers: Vec<usize> = (0..line.len()).filter(|&i| line[i][0].is_ascii_digit()).collect();
            if !numbers.is_empty() {
                let which = numbers[random.range(0, numbers.len() as u64 - 1) as usize];
                line[which] = any_number(random);
            }
        }
        10 => {
            let word = &mut line[place];
            let upper = random.range(0, word.len() as u64 - 1) as usize;
            word[upper] = word[upper].to_ascii_uppercase();
        }
        11 => {
            // two words are one
            if place > 0 {
                let word = line.remove(place);
                line[place - 1].extend(word);
            }
        }
        12 => line[place] = NAMES[random.range(0, NAMES.len() as u64 - 1) as usize].as_bytes().to_vec(),
        13 => {
            let other = random.range(0, many - 1) as usize;
            line.swap(place, other);
        }
        _ => {
            // one character more, less or other
            let word = &mut line[place];
            let at = random.range(0, word.len() as u64 - 1) as usize;
            let any = random.byte();
            let byte = random.pick(&[0, 12, 11, 47, 48, 57, 58, 97, 127, 128, 160, 255, u64::from(any)]) as u8;
            match random.range(0, 2) {
                0 => word[at] = byte,
                1 => word.insert(at, byte),
                _ => {
                    word.remove(at);
                }
            }
        }
    }
}

/// How a text is written.
struct Style {
    crlf_percent: u64,
    blank_percent: u64, // another blank than one space
    zero_percent: u64,
    comment_percent: u64,
    empty_percent: u64,
}

impl Style {
    fn random(random: &mut Random) -> Style {
        Style {
            crlf_percent: random.pick(&[0, 0, 50, 100]),
            blank_percent: random.pick(&[0, 0, 20, 100]),
            zero_percent: random.pick(&[0, 0, 10, 50]),
            comment_percent: random.pick(&[0, 0, 20, 60]),
            empty_percent: random.pick(&[0, 0, 20]),
        }
    }

    fn blanks(&self, random: &mut Random, least: u64) -> Vec<u8> {
        if !random.percent(self.blank_percent) {
            return vec![b' '; least as usize];
        }
        let many = random.range(least, 4);
        (0..many).map(|_| random.pick(&[32, 32, 9, 13]) as u8).collect()
    }

    fn comment(&self, random: &mut Random) -> Vec<u8> {
        let mut comment = b"#".to_vec();
        for _ in 0..random.pick(&[0, 1, 3, 6]) {
            match random.range(0, 6) {
                0 => comment.extend(b" start 1"),
                1 => comment.push(b'#'),
                2 => comment.extend(b"\t\r "),
                3 => comment.extend("Wärme".bytes()),
                4 => comment.extend([0, 255, 128, 11, 12]),
                5 => comment.extend(b" the bridge slows down"),
                _ => {
                    let byte = random.byte();
                    comment.push(if byte == b'\n' { b' ' } else { byte });
                }
            }
        }
        comment
    }

    fn end(&self, random: &mut Random) -> &'static [u8] {
        if random.percent(self.crlf_percent) { b"\r\n" } else { b"\n" }
    }

    fn write(&self, random: &mut Random, lines: &[Vec<Vec<u8>>]) -> Vec<u8> {
        let mut text = Vec::new();
        for line in lines {
            while random.percent(self.empty_percent) {
                text.extend(self.blanks(random, 0));
                if random.percent(self.comment_percent) {
                    text.extend(self.comment(random));
                }
                text.extend(self.end(random));
            }
            text.extend(self.blanks(random, 0));
            for (place, word) in line.iter().enumerate() {
                if place > 0 {
                    text.extend(self.blanks(random, 1));
                }
                let number = word.iter().all(u8::is_ascii_digit) && !word.is_empty();
                if number && random.percent(self.zero_percent) {
                    let zeros = random.pick(&[1, 1, 2, 5, 20, 40]) as usize;
                    text.extend(vec![b'0'; zeros]);
                }
                text.extend(word);
            }
            text.extend(self.blanks(random, 0));
            if random.percent(self.comment_percent) {
                text.extend(self.comment(random));
            }
            text.extend(self.end(random));
        }
        if random.percent(25) && text.last() == Some(&b'\n') {
            text.pop();
        }
        text
    }
}

/// Changes characters anywhere.
fn damage_text(random: &mut Random, text: &mut Vec<u8>) {
    for _ in 0..random.range(1, 3) {
        if text.is_empty() {
            return;
        }
        let place = random.range(0, text.len() as u64 - 1) as usize;
        let any = u64::from(random.byte());
        let byte = random.pick(&[0, 9, 10, 10, 13, 32, 32, 35, 35, 48, 49, 57, 65, 97, 127, 128, 255, any]) as u8;
        match random.range(0, 4) {
            0..=1 => text.insert(place, byte),
            2 => text[place] = byte,
            3 => {
                text.remove(place);
            }
            _ if random.percent(30) => text.truncate(place),
            _ => {
                // two lines are one
                if let Some(end) = text[place..].iter().position(|&byte| byte == b'\n') {
                    text.remove(place + end);
                }
            }
        }
    }
}

/// Words in any order.
fn noise(random: &mut Random) -> Vec<Vec<Vec<u8>>> {
    let mut lines = vec![words("set up 3 16")];
    for _ in 0..random.range(0, 8) {
        let mut line = words(NAMES[random.range(0, NAMES.len() as u64 - 1) as usize]);
        for _ in 0..random.pick(&[0, 1, 1, 2, 2, 3, 4]) {
            line.push(match random.range(0, 9) {
                0 => NAMES[random.range(0, NAMES.len() as u64 - 1) as usize].as_bytes().to_vec(),
                1 => any_number(random),
                _ => random.range(1, 4).to_string().into_bytes(),
            });
        }
        lines.push(line);
    }
    lines
}

/// About as many bytes as a schedule may have, or as many characters as a text may have.
fn sized(random: &mut Random) -> Vec<Line> {
    let mut lines = vec![(words("set up 2 16"), vec![SETUP, 2, 16])];
    let mut length = 3;
    let most = LONGEST_SCHEDULE + random.pick(&[0, 1, 2, 3, 4, 10, 100]) as usize - 4;
    let long_words = random.percent(30); // then the text is longer than the schedule
    while length < most {
        let line = match random.range(0, 999) {
            0 => long_run(random),
            1..=300 if !long_words => {
                let ticks = random.range(1, 20) as u8;
                (words(&format!("run {ticks}")), vec![RUN, ticks, 0])
            }
            _ if long_words => (words("link 1 2 255"), vec![LINK, 1, 2, 255]),
            _ => (words("cut 2 1"), vec![LINK, 2, 1, 0]),
        };
        length += line.1.len();
        lines.push(line);
    }
    lines
}

/// A text, its kind and the bytes that it must give, if that is known.
struct Case {
    kind: &'static str,
    text: Vec<u8>,
    made: Option<Vec<u8>>,
}

impl Case {
    /// The same seed and number always give the same text.
    fn random(random: &mut Random, seed: u64, number: u64) -> Case {
        let style = Style::random(random);
        let kind = random.range(0, 199);
        if kind < 10 {
            let lines = noise(random);
            let text = style.write(random, &lines);
            return Case { kind: "words in any order", text, made: None };
        }
        let mut lines = if kind == 10 {
            sized(random)
        } else {
            let (_, bytes) = schedule(seed, number);
            lines_of(random, &bytes)
        };
        if random.percent(4) {
            let place = random.range(0, lines.len() as u64) as usize;
            let line = long_run(random);
            lines.insert(place, line);
        }
        let made: Vec<u8> = lines.iter().flat_map(|(_, bytes)| bytes).copied().collect();
        let mut lines: Vec<Vec<Vec<u8>>> = lines.into_iter().map(|(words, _)| words).collect();
        let damaged = (10..=80).contains(&kind) && !lines.is_empty();
        if damaged {
            for _ in 0..random.pick(&[1, 1, 1, 2, 3]) {
                let place = random.range(0, lines.len() as u64 - 1) as usize;
                damage_line(random, &mut lines[place]);
                lines.retain(|line| !line.is_empty());
                if lines.is_empty() {
                    break;
                }
            }
        }
        let mut text = style.write(random, &lines);
        if (81..=110).contains(&kind) {
            damage_text(random, &mut text);
            return Case { kind: "characters changed", text, made: None };
        }
        if damaged {
            return Case { kind: "words changed", text, made: None };
        }
        Case { kind: "valid", text, made: Some(made) }
    }
}

fn any_ticks(random: &mut Random) -> u64 {
    let any = random.range(1, 255);
    random.pick(&[1, 2, 3, 4, 10, 255, any, any, any])
}

/// Commands with any operands, and now and then a wrong byte at the end.
fn any_operands(random: &mut Random) -> Vec<u8> {
    let mut bytes = Vec::new();
    for _ in 0..random.range(1, 60) {
        let byte = random.range(1, 9) as u8;
        bytes.push(byte);
        for _ in 0..WIDTHS[byte as usize] {
            let any = u64::from(random.byte());
            bytes.push(random.pick(&[0, 1, 9, 10, 99, 100, 199, 255, any]) as u8);
        }
        // seldom a run of no ticks
        if byte == RUN && bytes.ends_with(&[0, 0]) && random.percent(50) {
            bytes.pop();
            bytes.push(1);
        }
    }
    if random.percent(20) {
        let place = random.range(0, bytes.len() as u64 - 1) as usize;
        match random.range(0, 2) {
            0 => bytes.truncate(place),
            1 => bytes[place] = random.byte(),
            _ => bytes.push(random.byte()),
        }
    }
    bytes
}

fn text(tally: &mut Tally, program: &str, seed: u64, number: u64, random: &mut Random) {
    let case = Case::random(random, seed, number);
    let own = Text::new(&case.text);
    tally.reach(format!("texts: {}", case.kind));
    match (&own, &case.made) {
        (Text::Ran(own), Some(made)) => assert_eq!(&own.made.bytes, made, "text {number}"),
        (_, Some(made)) => assert!(made.len() > LONGEST_SCHEDULE || case.text.len() > LONGEST_TEXT, "text {number}"),
        _ => {}
    }
    match &own {
        Text::TooLong => tally.reach("text too long"),
        Text::Wrong(_, wrong) => tally.reach(format!("wrong line: {}", wrong.told())),
        Text::Ran(_) => {}
    }
    match own.refusal() {
        Some(0) => tally.reach("schedule accepted"),
        Some(refusal) => tally.reach(format!("schedule refused {refusal:>2}")),
        None => {}
    }
    let ticks = any_ticks(random);
    let kept = format!("script-{seed}-{number}.txt");
    let piece = if case.text.len() < 2000 { random.pick(&[1, 7, 100, 2000]) as usize } else { case.text.len() };
    for arguments in [&[][..], &["bytes"], &["figure", &ticks.to_string()]] {
        let said = own.said(asked(arguments).expect("these arguments are right"));
        if arguments.len() == 2 && said.err.is_empty() {
            let told = String::from_utf8_lossy(&said.out);
            let first = told.lines().next().unwrap_or("");
            let wait = if first.starts_with("W 0,") { "W is 0" } else { "W is above 0" };
            tally.reach(format!("figure: {}", if first.starts_with("W ") { wait } else { first }));
        }
        tally.compare(program, arguments, &case.text, piece, &Due::Said(said), &kept);
    }
}

fn main() {
    let words: Vec<String> = std::env::args().collect();
    let numbers: Vec<u64> = words.iter().skip(1).take(2).filter_map(|w| w.parse().ok()).collect();
    if words.len() != 4 || numbers.len() != 2 {
        eprintln!("usage: scripts COUNT SEED DESK");
        std::process::exit(2);
    }
    let (count, seed, program) = (numbers[0], numbers[1], &words[3]);
    let mut tally = Tally::default();
    rows(&mut tally, program);
    each_byte(&mut tally, program);
    long_inputs(&mut tally, program, &mut Random(seed));
    for number in 1..=count {
        let mut random = Random(Random(seed).next().rotate_left(16) ^ number.wrapping_mul(0xD1B5_4A32_D192_ED03));
        text(&mut tally, program, seed, number, &mut random);
        let (_, planned) = schedule(seed.wrapping_add(1), number);
        let bytes = if random.percent(50) { any_operands(&mut random) } else { planned };
        let piece = if bytes.len() < 2000 { random.pick(&[1, 7, 100, 2000]) as usize } else { bytes.len() };
        schedule_both_ways(&mut tally, program, &bytes, piece, &format!("script-{seed}-{number}.bin"));
    }
    tally.print();
    std::process::exit(if tally.differ == 0 { 0 } else { 1 });
}
