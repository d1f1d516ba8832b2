// schedules COUNT SEED DIR: writes DIR/1.bin to DIR/COUNT.bin, schedules for the rehearsal program, and DIR/kinds, a
// line for each with its number, its heads (flash or clock) and its kind. The same seed and number always give the same
// schedule.

mod random;
mod schedule;

use schedule::schedule;
use std::fs;
use std::io::Write;

fn main() {
    let words: Vec<String> = std::env::args().collect();
    let numbers: Vec<u64> = words.iter().skip(1).take(2).filter_map(|w| w.parse().ok()).collect();
    if words.len() != 4 || numbers.len() != 2 {
        eprintln!("usage: schedules COUNT SEED DIR");
        std::process::exit(2);
    }
    let (count, seed, dir) = (numbers[0], numbers[1], &words[3]);
    let mut kinds = fs::File::create(format!("{dir}/kinds")).expect("the folder can be written to");
    for number in 1..=count {
        let (kind, bytes) = schedule(seed, number);
        fs::write(format!("{dir}/{number}.bin"), bytes).expect("the folder can be written to");
        writeln!(kinds, "{number} {kind}").expect("the folder can be written to");
    }
}
