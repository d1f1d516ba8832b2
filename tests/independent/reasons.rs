// The words for each refusal, as the programs `tryout` and `desk` say them.

/// Why a command or a schedule is refused.
pub fn reason(number: u64) -> &'static str {
    match number {
        1 => "the byte is none of the nine commands",
        2 => "operands are missing",
        3 => "nothing is set up",
        4 => "set up a second time",
        5 => "stations not 2 to 8",
        6 => "period not 16 to 255",
        7 => "a station number not 1 to n",
        8 => "the station to start is up",
        9 => "the station to crash is down",
        10 => "the station to start has been started 4095 times",
        11 => "a link from a station to itself",
        13 => "a run of no ticks",
        14 => "a run past tick 1,000,000",
        21 => "more than 65,536 bytes",
        22 => "a rank above 7",
        23 => "a rank after the first start of any station",
        25 => "a rank on heads with a running clock",
        _ => unreachable!("no schedule and no command after one is refused with {number}"),
    }
}
