// frames COUNT SEED: holds the product's writing and reading of frames, of flash heads and of clock heads, linked from
// crates/exported, to frame.rs on COUNT cases, and its reading of old frames to Paper 5's sentence that they give 17.
// Prints how often each refusal came for each kind of frame, the cases that differ and 'N passed, M failed'.

mod frame;
mod random;

use frame::{read_clock_frame, read_frame, write_clock_frame, write_frame};
use random::Random;
use std::collections::BTreeMap;

extern "C" {
    fn leader_frame_write(
        n: u8,
        sender: u8,
        counts: *const u16,
        counts_length: usize,
        buffer: *mut u8,
        buffer_length: usize,
        written: *mut usize,
    ) -> u64;
    fn leader_frame_read(n: u8, bytes: *const u8, bytes_length: usize, sender: *mut u8, counts: *mut u16) -> u64;
    fn clock_frame_write(
        n: u8,
        sender: u8,
        stamp: u32,
        buffer: *mut u8,
        buffer_length: usize,
        written: *mut usize,
    ) -> u64;
    fn clock_frame_read(n: u8, bytes: *const u8, bytes_length: usize, sender: *mut u8, stamp: *mut u32) -> u64;
}

const CLOCK_LENGTH: usize = 6;
const GUARD: usize = 16; // bytes on both sides of a lent buffer, which must stay as they are

impl Random {
    fn bytes(&mut self, length: usize) -> Vec<u8> {
        (0..length).map(|_| self.byte()).collect()
    }

    /// Mostly 2 to 8.
    fn stations(&mut self) -> u8 {
        match self.range(0, 19) {
            0 => self.pick(&[0, 1, 9, 10, 255]) as u8,
            1 => self.range(0, 9) as u8,
            _ => self.range(2, 8) as u8,
        }
    }

    /// Mostly 1 to n.
    fn sender(&mut self, n: u8) -> u8 {
        match self.range(0, 9) {
            0 => self.range(0, 9) as u8,
            1 => self.pick(&[0, n as u64 + 1, 255]) as u8,
            _ => self.range(1, (n as u64).max(1)) as u8,
        }
    }

    /// A count in range.
    fn count(&mut self) -> u16 {
        if self.percent(50) {
            self.pick(&[0, 1, 2, 255, 256, 4094, 4095]) as u16
        } else {
            self.range(0, 4095) as u16
        }
    }

    /// A byte in the place of n that is not n.
    fn other_stations(&mut self, n: u8) -> u8 {
        loop {
            let other = match self.range(0, 5) {
                0 => self.pick(&[0, 1, 9, 10, 255, n as u64 + 128]) as u8,
                1 => self.pick(&[n as u64 - 1, n as u64 + 1]) as u8,
                2 => self.byte(),
                _ => self.range(2, 8) as u8,
            };
            if other != n {
                return other;
            }
        }
    }

    /// Makes the counts such that no frame has them: one above 4095, or the sender's own 0.
    fn spoil(&mut self, sender: u8, counts: &mut [u16]) {
        let own = sender as usize;
        if own >= 1 && own <= counts.len() && self.percent(50) {
            counts[own - 1] = 0;
        } else {
            let place = self.range(0, counts.len() as u64 - 1) as usize;
            counts[place] = self.pick(&[4096, 4097, 8192, 65_535]) as u16;
        }
    }

    /// n, the sender and the vector of a frame that is well formed.
    fn leader(&mut self) -> (u8, u8, Vec<u16>) {
        let n = self.range(2, 8) as u8;
        let sender = self.range(1, n as u64) as u8;
        let mut counts: Vec<u16> = (0..n).map(|_| self.count()).collect();
        let own = &mut counts[sender as usize - 1];
        *own = (*own).max(1);
        (n, sender, counts)
    }

    /// The same, but for a sender that is none of the stations, or counts that no frame has.
    fn leader_but_for(&mut self, wrong_sender: bool, wrong_counts: bool) -> (u8, u8, Vec<u16>) {
        let (n, mut sender, mut counts) = self.leader();
        if wrong_sender {
            sender = self.pick(&[0, n as u64 + 1, 9, 255]) as u8;
        }
        if wrong_counts {
            self.spoil(sender, &mut counts);
        }
        (n, sender, counts)
    }

    /// Any stamp, often at the end of a byte.
    fn stamp(&mut self) -> u32 {
        if self.percent(50) {
            self.pick(&[0, 1, 255, 256, 65_535, 65_536, (1 << 24) - 1, 1 << 24, 1 << 31, (1 << 32) - 1]) as u32
        } else {
            self.next() as u32
        }
    }

    /// n, the sender and the stamp of a clock frame that is well formed.
    fn clock(&mut self) -> (u8, u8, u32) {
        let n = self.range(2, 8) as u8;
        let sender = self.range(1, n as u64) as u8;
        (n, sender, self.stamp())
    }
}

fn wide(counts: &[u16]) -> Vec<u64> {
    counts.iter().map(|&c| c as u64).collect()
}

/// The frame's bytes, well formed or not.
fn laid_out(n: u8, sender: u8, counts: &[u16]) -> Vec<u8> {
    let mut bytes = vec![0x10, sender, n];
    bytes.extend(counts.iter().flat_map(|c| c.to_le_bytes()));
    bytes
}

/// The same as it was before Paper 5: 2 + 2n bytes, and n is none of them.
fn laid_out_old(sender: u8, counts: &[u16]) -> Vec<u8> {
    let mut bytes = vec![0x10, sender];
    bytes.extend(counts.iter().flat_map(|c| c.to_le_bytes()));
    bytes
}

/// The bytes of a frame that is well formed, by frame.rs.
fn well_written(n: u8, sender: u8, counts: &[u16]) -> Vec<u8> {
    let mut bytes = vec![0; 3 + 2 * n as usize];
    write_frame(n as u64, sender as u64, &wide(counts), &mut bytes).expect("it is well formed");
    bytes
}

/// A clock frame's bytes, well formed or not.
fn laid_out_clock(sender: u8, stamp: u32) -> Vec<u8> {
    let mut bytes = vec![0x11, sender];
    bytes.extend(stamp.to_le_bytes());
    bytes
}

/// What was compared: refusals by number (0: none) for writing and for reading, of each kind of frame, and old frames
/// for an n from 2 to 8.
#[derive(Default)]
struct Tally {
    written: BTreeMap<u64, u64>,
    read: BTreeMap<u64, u64>,
    clock_written: BTreeMap<u64, u64>,
    clock_read: BTreeMap<u64, u64>,
    old: u64,
}

/// A buffer between bytes that must stay as they are.
fn between_guards(buffer: &[u8]) -> Vec<u8> {
    [&[0xA5; GUARD], buffer, &[0xA5; GUARD]].concat()
}

/// Writes by both; what differs, if anything.
fn compare_write(tally: &mut Tally, n: u8, sender: u8, counts: &[u16], buffer: &[u8]) -> Option<String> {
    let mut own_buffer = buffer.to_vec();
    let answer = write_frame(n as u64, sender as u64, &wide(counts), &mut own_buffer);
    let (own_refusal, own_length) = match answer {
        Ok(length) => (0, length),
        Err(number) => (number, 0),
    };
    *tally.written.entry(own_refusal).or_default() += 1;

    let (mut guarded, expected) = (between_guards(buffer), between_guards(&own_buffer));
    let mut length = 77;
    // The pointers are to live values of these lengths.
    let refusal = unsafe {
        let lent = guarded.as_mut_ptr().add(GUARD);
        leader_frame_write(n, sender, counts.as_ptr(), counts.len(), lent, buffer.len(), &mut length)
    };
    if (refusal, length) == (own_refusal, own_length) && guarded == expected {
        return None;
    }
    Some(format!(
        "write n {n} sender {sender} counts {counts:?} buffer {buffer:02x?}: refusal {refusal} length {length} \
         buffer {:02x?}, and should be {own_refusal} {own_length} {own_buffer:02x?}",
        &guarded[GUARD..GUARD + buffer.len()]
    ))
}

/// Reads by the product: the refusal, the sender, the eight counts, and whether nothing around them was touched.
fn product_read(n: u8, bytes: &[u8]) -> (u64, u8, [u16; 8], bool) {
    let mut sender = 77;
    let mut guarded = [0xA5A5; 8 + 2 * GUARD];
    // The pointers are to live values of these lengths.
    let refusal = unsafe {
        let lent = guarded.as_mut_ptr().add(GUARD);
        leader_frame_read(n, bytes.as_ptr(), bytes.len(), &mut sender, lent)
    };
    let mut counts = [0; 8];
    counts.copy_from_slice(&guarded[GUARD..GUARD + 8]);
    let around = guarded[..GUARD].iter().chain(&guarded[GUARD + 8..]);
    let untouched = around.copied().all(|c| c == 0xA5A5);
    (refusal, sender, counts, untouched)
}

/// Reads by both; what differs, if anything.
fn compare_read(tally: &mut Tally, n: u8, bytes: &[u8]) -> Option<String> {
    let (own_refusal, own_sender, vector) = match read_frame(n as u64, bytes) {
        Ok((sender, vector)) => (0, sender, vector),
        Err(number) => (number, 0, Vec::new()),
    };
    let mut own_counts = [0; 8]; // zero beyond n, and where refused
    for (place, count) in own_counts.iter_mut().zip(&vector) {
        *place = *count as u16;
    }
    *tally.read.entry(own_refusal).or_default() += 1;

    let (refusal, sender, counts, untouched) = product_read(n, bytes);
    if (refusal, sender as u64, counts) == (own_refusal, own_sender, own_counts) && untouched {
        return None;
    }
    Some(format!(
        "read n {n} bytes {bytes:02x?}: refusal {refusal} sender {sender} counts {counts:?}, \
         and should be {own_refusal} {own_sender} {own_counts:?}"
    ))
}

/// Writes a clock frame by both; what differs, if anything.
fn compare_clock_write(tally: &mut Tally, n: u8, sender: u8, stamp: u32, buffer: &[u8]) -> Option<String> {
    let mut own_buffer = buffer.to_vec();
    let (own_refusal, own_length) = match write_clock_frame(n as u64, sender as u64, stamp, &mut own_buffer) {
        Ok(length) => (0, length),
        Err(number) => (number, 0),
    };
    *tally.clock_written.entry(own_refusal).or_default() += 1;

    let (mut guarded, expected) = (between_guards(buffer), between_guards(&own_buffer));
    let mut length = 77;
    // The pointers are to live values of these lengths.
    let refusal = unsafe {
        let lent = guarded.as_mut_ptr().add(GUARD);
        clock_frame_write(n, sender, stamp, lent, buffer.len(), &mut length)
    };
    if (refusal, length) == (own_refusal, own_length) && guarded == expected {
        return None;
    }
    Some(format!(
        "write clock n {n} sender {sender} stamp {stamp} buffer {buffer:02x?}: refusal {refusal} length {length} \
         buffer {:02x?}, and should be {own_refusal} {own_length} {own_buffer:02x?}",
        &guarded[GUARD..GUARD + buffer.len()]
    ))
}

/// Reads a clock frame by both; what differs, if anything.
fn compare_clock_read(tally: &mut Tally, n: u8, bytes: &[u8]) -> Option<String> {
    let (own_refusal, own_sender, own_stamp) = match read_clock_frame(n as u64, bytes) {
        Ok((sender, stamp)) => (0, sender, stamp),
        Err(number) => (number, 0, 0),
    };
    *tally.clock_read.entry(own_refusal).or_default() += 1;

    // only the one in the middle is lent
    let (mut senders, mut stamps) = ([0xA5; 3], [0xA5A5_A5A5; 3]);
    // The pointers are to live values of these lengths.
    let refusal = unsafe {
        let (sender, stamp) = (senders.as_mut_ptr().add(1), stamps.as_mut_ptr().add(1));
        clock_frame_read(n, bytes.as_ptr(), bytes.len(), sender, stamp)
    };
    let (expected_senders, expected_stamps) = ([0xA5, own_sender as u8, 0xA5], [0xA5A5_A5A5, own_stamp, 0xA5A5_A5A5]);
    if refusal == own_refusal && senders == expected_senders && stamps == expected_stamps {
        return None;
    }
    Some(format!(
        "read clock n {n} bytes {bytes:02x?}: refusal {refusal} senders {senders:02x?} stamps {stamps:02x?}, \
         and should be {own_refusal} {expected_senders:02x?} {expected_stamps:02x?}"
    ))
}

/// A buffer that is shorter than the frame, exact, or longer.
fn buffer(random: &mut Random, exact: usize) -> Vec<u8> {
    let length = match random.range(0, 9) {
        0 => 0,
        1 => exact - 1,
        2 => random.range(0, exact as u64) as usize,
        3..=5 => exact,
        6 => exact + 1,
        _ => exact + random.range(1, 40) as usize,
    };
    random.bytes(length)
}

/// A well-formed frame, written and read back; the buffer of every length up to two beyond it.
fn well_formed(random: &mut Random, tally: &mut Tally) -> Option<String> {
    let (n, sender, counts) = random.leader();
    let exact = 3 + 2 * n as usize;
    for length in 0..=exact + 2 {
        let lent = random.bytes(length);
        if let Some(difference) = compare_write(tally, n, sender, &counts, &lent) {
            return Some(difference);
        }
    }
    compare_read(tally, n, &well_written(n, sender, &counts))
}

/// Anything handed to writing.
fn any_write(random: &mut Random, tally: &mut Tally) -> Option<String> {
    let n = random.stations();
    let sender = random.sender(n);
    let many = match random.range(0, 19) {
        0 => n as u64 + 256,
        1 | 2 => random.range(0, 10),
        _ => n.min(20) as u64,
    };
    let mut counts: Vec<u16> = (0..many).map(|_| random.count()).collect();
    if random.percent(30) && many > 0 {
        let place = random.range(0, many - 1) as usize;
        counts[place] = random.pick(&[0, 4095, 4096, 4097, 8192, 65_535]) as u16;
    }
    let lent = buffer(random, 3 + 2 * n as usize);
    compare_write(tally, n, sender, &counts, &lent)
}

/// Every n from 0 to 9 with every sender from 0 to 9, and counts at the ends of their range and outside it.
fn grid(random: &mut Random, tally: &mut Tally) -> Option<String> {
    for n in 0..=9 {
        for sender in 0..=9 {
            let mut counts = vec![1; n as usize];
            for count in &mut counts {
                if random.percent(20) {
                    *count = random.pick(&[0, 1, 4095, 4095, 4096, 65_535]) as u16;
                }
            }
            let lent = buffer(random, 3 + 2 * n as usize);
            if let Some(difference) = compare_write(tally, n, sender, &counts, &lent) {
                return Some(difference);
            }
            let bytes = laid_out(n, sender, &counts);
            if let Some(difference) = compare_read(tally, n, &bytes) {
                return Some(difference);
            }
        }
    }
    None
}

/// A frame with each of its bytes damaged in turn.
fn damaged(random: &mut Random, tally: &mut Tally) -> Option<String> {
    let (n, sender, counts) = random.leader();
    let mut bytes = well_written(n, sender, &counts);
    for place in 0..bytes.len() {
        let right = bytes[place];
        let flipped = right ^ (1 << random.range(0, 7));
        for wrong in [0, 1, right.wrapping_add(1), right.wrapping_sub(1), 0x0F, 0x10, 255, flipped] {
            bytes[place] = wrong;
            if let Some(difference) = compare_read(tally, n, &bytes) {
                return Some(difference);
            }
        }
        bytes[place] = right;
    }
    None
}

/// A frame cut, lengthened, or read with another number of stations.
fn wrong_length(random: &mut Random, tally: &mut Tally) -> Option<String> {
    let (n, sender, counts) = random.leader();
    let mut bytes = well_written(n, sender, &counts);
    for stations in 0..=10 {
        if let Some(difference) = compare_read(tally, stations, &bytes) {
            return Some(difference);
        }
    }
    for length in 0..bytes.len() {
        if let Some(difference) = compare_read(tally, n, &bytes[..length]) {
            return Some(difference);
        }
    }
    let more = if random.percent(20) { 256 } else { random.range(1, 20) as usize };
    bytes.extend(random.bytes(more));
    compare_read(tally, n, &bytes)
}

/// A frame of one number of stations made as long as those of each other, read with every n.
fn as_long_as_another(random: &mut Random, tally: &mut Tally) -> Option<String> {
    let (n, sender, counts) = random.leader();
    let fill = random.pick(&[0, 1, 15, 255]) as u8;
    for other in 2..=8 {
        let mut bytes = well_written(n, sender, &counts);
        bytes.resize(3 + 2 * other, fill);
        for stations in 0..=10 {
            if let Some(difference) = compare_read(tally, stations, &bytes) {
                return Some(difference);
            }
        }
    }
    None
}

/// A frame as it was before Paper 5, read with every n. That it gives 17 for each from 2 to 8 is asked by itself, of
/// the product and of frame.rs.
fn old_frame(random: &mut Random, tally: &mut Tally) -> Option<String> {
    let (n, sender, mut counts) = random.leader();
    if random.percent(30) {
        counts[0] = counts[0] / 256 * 256 + random.range(2, 8) as u16; // the third byte may be taken for n
    }
    let bytes = laid_out_old(sender, &counts);
    for stations in 2..=8 {
        tally.old += 1;
        let refusal = product_read(stations, &bytes).0;
        if refusal != 17 || read_frame(stations as u64, &bytes) != Err(17) {
            return Some(format!(
                "old frame {bytes:02x?} of {n} stations, read with n {stations}: refusal {refusal}, by frame.rs {:?}, \
                 and should be 17",
                read_frame(stations as u64, &bytes)
            ));
        }
    }
    for stations in 0..=10 {
        if let Some(difference) = compare_read(tally, stations, &bytes) {
            return Some(difference);
        }
    }
    None
}

/// A frame with every choice of its parts wrong at once, so that the order of the refusals shows.
fn wrong_read(random: &mut Random, tally: &mut Tally) -> Option<String> {
    for parts in 0..32 {
        let wrong = |part: u32| parts & (1 << part) != 0;
        let (n, sender, counts) = random.leader_but_for(wrong(0), wrong(1));
        let written = if wrong(2) { random.other_stations(n) } else { n };
        let mut bytes = laid_out(written, sender, &counts);
        if wrong(3) {
            bytes[0] = random.pick(&[0, 1, 0x0F, 0x11, 0x90, 255]) as u8;
        }
        if wrong(4) {
            match random.range(0, 3) {
                0 => bytes.truncate(2 + 2 * n as usize),
                1 => bytes.truncate(random.range(0, 2 + 2 * n as u64) as usize),
                2 => bytes.push(random.byte()),
                _ => bytes.extend([1, 0]),
            }
        }
        let no_stations = random.pick(&[0, 1, 9, 10, 255]) as u8;
        for stations in [n, no_stations] {
            if let Some(difference) = compare_read(tally, stations, &bytes) {
                return Some(difference);
            }
        }
    }
    None
}

/// The same for writing, where the counts may be too many or too few and the buffer too short.
fn wrong_write(random: &mut Random, tally: &mut Tally) -> Option<String> {
    for parts in 0..16 {
        let wrong = |part: u32| parts & (1 << part) != 0;
        let (n, sender, mut counts) = random.leader_but_for(wrong(0), wrong(1));
        if wrong(2) {
            if random.percent(50) {
                counts.pop();
            } else {
                counts.push(1);
            }
        }
        let exact = 3 + 2 * n as u64;
        let length = if wrong(3) { random.range(0, exact - 1) } else { exact + random.range(0, 3) };
        let lent = random.bytes(length as usize);
        let no_stations = random.pick(&[0, 1, 9, 10, 255]) as u8;
        for stations in [n, no_stations] {
            if let Some(difference) = compare_write(tally, stations, sender, &counts, &lent) {
                return Some(difference);
            }
        }
    }
    None
}

/// Bytes with no plan but the first three.
fn any_read(random: &mut Random, tally: &mut Tally) -> Option<String> {
    let n = random.stations();
    let length = if random.percent(90) { 3 + 2 * n as usize } else { random.range(0, 24) as usize };
    let mut bytes = random.bytes(length);
    if length >= 3 && random.percent(90) {
        bytes[0] = 0x10;
        bytes[1] = random.sender(n);
        bytes[2] = if random.percent(90) { n } else { random.stations() };
        for high in bytes[3..].iter_mut().skip(1).step_by(2) {
            *high %= 16;
        }
        if length > 4 && random.percent(40) {
            let place = random.range(3, length as u64 - 1) as usize;
            bytes[place] = random.pick(&[0, 15, 16, 255]) as u8;
        }
    }
    compare_read(tally, n, &bytes)
}

/// A well-formed clock frame; the buffer of every length up to two beyond it. Read with every n.
fn well_formed_clock(random: &mut Random, tally: &mut Tally) -> Option<String> {
    let (n, sender, stamp) = random.clock();
    for length in 0..=CLOCK_LENGTH + 2 {
        let lent = random.bytes(length);
        if let Some(difference) = compare_clock_write(tally, n, sender, stamp, &lent) {
            return Some(difference);
        }
    }
    let mut bytes = vec![0; CLOCK_LENGTH];
    write_clock_frame(n as u64, sender as u64, stamp, &mut bytes).expect("it is well formed");
    for stations in 0..=10 {
        if let Some(difference) = compare_clock_read(tally, stations, &bytes) {
            return Some(difference);
        }
    }
    None
}

/// Anything handed to writing and reading of clock frames.
fn any_clock(random: &mut Random, tally: &mut Tally) -> Option<String> {
    let n = if random.percent(80) { random.stations() } else { random.byte() };
    let sender = if random.percent(90) { random.sender(n) } else { random.byte() };
    let stamp = random.stamp();
    let lent = buffer(random, CLOCK_LENGTH);
    if let Some(difference) = compare_clock_write(tally, n, sender, stamp, &lent) {
        return Some(difference);
    }
    let mut bytes = random.bytes(lent.len());
    if !bytes.is_empty() && random.percent(90) {
        bytes[0] = 0x11;
    }
    if bytes.len() > 1 && random.percent(90) {
        bytes[1] = random.sender(n);
    }
    compare_clock_read(tally, n, &bytes)
}

/// Every n from 0 to 10 with every sender from 0 to 10.
fn clock_grid(random: &mut Random, tally: &mut Tally) -> Option<String> {
    for n in 0..=10 {
        for sender in 0..=10 {
            let stamp = random.stamp();
            let lent = buffer(random, CLOCK_LENGTH);
            if let Some(difference) = compare_clock_write(tally, n, sender, stamp, &lent) {
                return Some(difference);
            }
            if let Some(difference) = compare_clock_read(tally, n, &laid_out_clock(sender, stamp)) {
                return Some(difference);
            }
        }
    }
    None
}

/// A clock frame with each of its bytes damaged in turn; any stamp is a right one.
fn damaged_clock(random: &mut Random, tally: &mut Tally) -> Option<String> {
    let (n, sender, stamp) = random.clock();
    let mut bytes = laid_out_clock(sender, stamp);
    for place in 0..bytes.len() {
        let right = bytes[place];
        let flipped = right ^ (1 << random.range(0, 7));
        for wrong in [0, 1, right.wrapping_add(1), right.wrapping_sub(1), n, n + 1, 0x10, 0x11, 255, flipped] {
            bytes[place] = wrong;
            if let Some(difference) = compare_clock_read(tally, n, &bytes) {
                return Some(difference);
            }
        }
        bytes[place] = right;
    }
    None
}

/// A clock frame cut to every length, or lengthened.
fn wrong_clock_length(random: &mut Random, tally: &mut Tally) -> Option<String> {
    let (n, sender, stamp) = random.clock();
    let mut bytes = laid_out_clock(sender, stamp);
    bytes.extend(random.bytes(256));
    let more = CLOCK_LENGTH + random.range(3, 250) as usize;
    for length in (0..CLOCK_LENGTH).chain([7, 8, more, 256, CLOCK_LENGTH + 256]) {
        if let Some(difference) = compare_clock_read(tally, n, &bytes[..length]) {
            return Some(difference);
        }
    }
    None
}

/// A clock frame with every choice of its parts wrong at once, written and read, so that the order of the refusals
/// shows.
fn wrong_clock(random: &mut Random, tally: &mut Tally) -> Option<String> {
    for parts in 0..8 {
        let wrong = |part: u32| parts & (1 << part) != 0;
        let (n, mut sender, stamp) = random.clock();
        if wrong(0) {
            sender = random.pick(&[0, n as u64 + 1, 9, 255]) as u8;
        }
        let mut bytes = laid_out_clock(sender, stamp);
        if wrong(1) {
            bytes[0] = random.pick(&[0, 1, 0x0F, 0x10, 0x12, 0x91, 255]) as u8;
        }
        let length = if wrong(2) { random.pick(&[0, 1, 2, 4, 5, 5]) as usize } else { CLOCK_LENGTH };
        if wrong(2) && random.percent(50) {
            bytes.push(random.byte());
        } else {
            bytes.truncate(length);
        }
        let lent = random.bytes(length);
        let no_stations = random.pick(&[0, 1, 9, 10, 255]) as u8;
        for stations in [n, no_stations] {
            let read = compare_clock_read(tally, stations, &bytes);
            let written = compare_clock_write(tally, stations, sender, stamp, &lent);
            if let Some(difference) = read.or(written) {
                return Some(difference);
            }
        }
    }
    None
}

/// A frame of flash heads, or an old one, read as a clock frame, and a clock frame read as one of flash heads, with
/// every n.
fn of_the_other_kind(random: &mut Random, tally: &mut Tally) -> Option<String> {
    let (n, sender, counts) = random.leader();
    let (_, clock_sender, stamp) = random.clock();
    let mut clock_bytes = laid_out_clock(clock_sender, stamp);
    if random.percent(50) {
        // as long as a frame of flash heads
        clock_bytes.resize(3 + 2 * n as usize, 0);
    }
    for stations in 0..=10 {
        for bytes in [laid_out(n, sender, &counts), laid_out_old(sender, &counts), laid_out_old(1, &counts[..2])] {
            if let Some(difference) = compare_clock_read(tally, stations, &bytes) {
                return Some(difference);
            }
        }
        if let Some(difference) = compare_read(tally, stations, &clock_bytes) {
            return Some(difference);
        }
    }
    None
}

fn main() {
    let words: Vec<String> = std::env::args().collect();
    let numbers: Vec<u64> = words.iter().skip(1).filter_map(|w| w.parse().ok()).collect();
    if words.len() != 3 || numbers.len() != 2 {
        eprintln!("usage: frames COUNT SEED");
        std::process::exit(2);
    }
    let (count, seed) = (numbers[0], numbers[1]);
    let mut random = Random(seed);
    let mut tally = Tally::default();
    let (mut passed, mut failed) = (0, 0);
    for number in 1..=count {
        let difference = match number % 17 {
            0 => well_formed(&mut random, &mut tally),
            1 => any_write(&mut random, &mut tally),
            2 => damaged(&mut random, &mut tally),
            3 => wrong_length(&mut random, &mut tally),
            4 => grid(&mut random, &mut tally),
            5 => any_read(&mut random, &mut tally),
            6 => as_long_as_another(&mut random, &mut tally),
            7 => old_frame(&mut random, &mut tally),
            8 => wrong_read(&mut random, &mut tally),
            9 => wrong_write(&mut random, &mut tally),
            10 => well_formed_clock(&mut random, &mut tally),
            11 => any_clock(&mut random, &mut tally),
            12 => clock_grid(&mut random, &mut tally),
            13 => damaged_clock(&mut random, &mut tally),
            14 => wrong_clock_length(&mut random, &mut tally),
            15 => wrong_clock(&mut random, &mut tally),
            _ => of_the_other_kind(&mut random, &mut tally),
        };
        match difference {
            None => passed += 1,
            Some(text) => {
                failed += 1;
                println!("case {number}: {text}");
            }
        }
    }
    for (name, refusals) in [
        ("write", &tally.written),
        ("read", &tally.read),
        ("write clock", &tally.clock_written),
        ("read clock", &tally.clock_read),
    ] {
        let texts: Vec<String> = refusals.iter().map(|(number, times)| format!("{number}: {times}")).collect();
        println!("{name}, times each refusal (0: accepted): {}", texts.join(", "));
    }
    println!("read, times an old frame for an n from 2 to 8: {}", tally.old);
    println!("{passed} passed, {failed} failed");
    std::process::exit(if failed == 0 && passed != 0 { 0 } else { 1 });
}
