// A try-out in plain Rust: what Paper 8's operation answers, and what the program `tryout` prints. Written from the
// paper and the program's usage alone.

use crate::desk::{command, Desk};
use crate::reasons::reason;

const LONGEST_SCHEDULE: usize = 65_536;

const USAGE: &str = "usage: tryout BYTES < SCHEDULE\nBYTES is one command in hex, as in: tryout 03 01 < night.bin\n";

/// Runs a schedule from a fresh table: the last state, or the one before the command that is refused, with the number
/// and the byte offset of the refusal.
pub fn run_schedule(bytes: &[u8]) -> (Option<Desk>, Option<(u64, usize)>) {
    let mut state = None;
    if bytes.len() > LONGEST_SCHEDULE {
        return (state, Some((21, 0)));
    }
    let mut offset = 0;
    while offset < bytes.len() {
        match command(&mut state, &bytes[offset..]) {
            Ok((length, _)) => offset += length,
            Err(number) => return (state, Some((number, offset))),
        }
    }
    (state, None)
}

/// A command tried on a table: its refusal, or 0, and the listings before and after it, none where nothing is set up.
pub struct Tried {
    pub refusal: u64,
    pub before: Option<String>,
    pub after: Option<String>,
}

/// The state is the copy on which the command is done.
pub fn try_out(mut state: Option<Desk>, bytes: &[u8]) -> Tried {
    let before = state.as_ref().map(Desk::listing);
    let refusal = command(&mut state, bytes).err().unwrap_or(0);
    let after = state.as_ref().map(Desk::listing);
    assert!(refusal == 0 || before == after); // "A refused command shows the listing as it was."
    Tried { refusal, before, after }
}

impl Tried {
    /// The listing that is due in the buffer, or why there is none. An unsound table is told by the command's 15.
    pub fn due(&self) -> Result<&str, u64> {
        match &self.after {
            _ if self.refusal == 15 => Err(15),
            None => Err(3),
            Some(listing) => Ok(listing),
        }
    }

    /// The operation's answer, the length written and the buffer, which was so many bytes, all `.`.
    pub fn answer(&self, bytes: usize) -> (u64, usize, String) {
        let untouched = ".".repeat(bytes);
        let (listing_refusal, length, buffer) = match self.due() {
            Err(number) => (number, 0, untouched),
            Ok(listing) if listing.len() > bytes => (16, 0, untouched),
            Ok(listing) => (0, listing.len(), format!("{listing}{}", &untouched[listing.len()..])),
        };
        (if self.refusal != 0 { self.refusal } else { listing_refusal }, length, buffer)
    }

    /// What the program prints on standard output for this command after an accepted schedule.
    pub fn told(&self, bytes: &[u8]) -> String {
        let shown = |listing: &Option<String>| listing.clone().unwrap_or_else(|| "nothing is set up\n".to_string());
        let command = first_command(bytes);
        let hex: String = command.iter().map(|byte| format!(" {byte:02x}")).collect();
        let outcome = match self.refusal {
            0 => format!("would {}", effect(command)),
            number => format!("refused {number}, {}", reason(number)),
        };
        format!("before:\n{}command{hex}: {outcome}\nafter:\n{}", shown(&self.before), shown(&self.after))
    }
}

/// What the program prints on standard error for a schedule that is refused.
pub fn told_refused(number: u64, offset: usize) -> String {
    format!("tryout: the schedule is refused: {number} at {offset}, {}\n", reason(number))
}

/// What is wrong with the arguments.
#[derive(Clone, Copy, Debug, PartialEq)]
pub enum Wrong {
    NoByte,
    NoHex,
    LeftOver,
}

impl Wrong {
    /// What the program prints on standard error.
    pub fn told(self) -> String {
        let line = match self {
            Wrong::NoByte => "tryout: no command\n",
            Wrong::NoHex => "tryout: no hex\n",
            Wrong::LeftOver => "tryout: bytes left over behind the command\n",
        };
        format!("{line}{USAGE}")
    }
}

/// The command in the arguments. The hex is read first, all of it.
pub fn read_arguments(arguments: &[String]) -> Result<Vec<u8>, Wrong> {
    let mut bytes = Vec::new();
    for word in arguments.iter().flat_map(|argument| argument.split(' ')) {
        let digits: Option<Vec<u8>> = word.chars().map(|c| c.to_digit(16).map(|digit| digit as u8)).collect();
        for pair in digits.ok_or(Wrong::NoHex)?.chunks(2) {
            let &[high, low] = pair else { return Err(Wrong::NoHex) };
            bytes.push(16 * high + low);
        }
    }
    let known = bytes.first().is_some_and(|&byte| operands(byte).is_some());
    if bytes.is_empty() {
        Err(Wrong::NoByte)
    } else if known && bytes.len() > first_command(&bytes).len() {
        Err(Wrong::LeftOver)
    } else {
        Ok(bytes)
    }
}

/// How many operands the command of this byte has, if it is one.
pub fn operands(byte: u8) -> Option<usize> {
    match byte {
        7 => Some(0),
        2 | 3 => Some(1),
        1 | 5 | 6 | 8 | 9 => Some(2),
        4 => Some(3),
        _ => None,
    }
}

/// The first command of the bytes, as far as it is there.
fn first_command(bytes: &[u8]) -> &[u8] {
    let Some(&byte) = bytes.first() else { return bytes };
    let length = 1 + operands(byte).unwrap_or(0);
    &bytes[..length.min(bytes.len())]
}

/// What an accepted command does.
fn effect(command: &[u8]) -> String {
    match *command {
        [1, n, eta] => format!("set up heads with flash, stations {n}, period {eta}"),
        [9, n, eta] => format!("set up heads with a running clock, stations {n}, period {eta}"),
        [2, s] => format!("start station {s}"),
        [3, s] => format!("crash station {s}"),
        [4, from, to, 0] => format!("cut the link from {from} to {to}"),
        [4, from, to, delay] => format!("set the link from {from} to {to}, delay {delay}"),
        [5, low, high] => format!("run, ticks {}", u16::from_le_bytes([low, high])),
        [6, from, to] => format!("lose what is under way from {from} to {to}"),
        [7] => "report, which changes nothing".to_string(),
        [8, s, rank] => format!("give station {s} the rank {rank}"),
        _ => unreachable!("only a command is accepted"),
    }
}
