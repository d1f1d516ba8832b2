// The last line of a listing in plain Rust: by the words of Papers 2 and 6, and by Paper 4's search, with the station
// where that ends.

use std::fmt;

pub const NOBODY: u64 = 0; // the leader of an up station that has none, paper 6

#[derive(Debug, PartialEq)]
pub enum Finding {
    Dark,
    Agreed(u64),
    AgreedDark(u64),
    Split,
}

impl fmt::Display for Finding {
    fn fmt(&self, f: &mut fmt::Formatter) -> fmt::Result {
        match self {
            Finding::Dark => write!(f, "dark"),
            Finding::Agreed(leader) => write!(f, "agreed {leader}"),
            Finding::AgreedDark(leader) => write!(f, "agreed dark {leader}"), // paper 2
            Finding::Split => write!(f, "split"),
        }
    }
}

/// The stations from 1 on, each with the leader that it trusts, or none if it is down: what the last line says of them.
/// All stations are looked at.
pub fn last_line(stations: &[Option<u64>]) -> Finding {
    let trusted: Vec<u64> = stations.iter().copied().flatten().collect();
    let is_up = |number: u64| (1..).zip(stations).any(|(other, station)| other == number && station.is_some());
    let Some(&leader) = trusted.last() else { return Finding::Dark };
    if trusted.contains(&NOBODY) {
        Finding::Split // paper 6
    } else if !trusted.iter().all(|&other| other == leader) {
        Finding::Split
    } else if is_up(leader) {
        Finding::Agreed(leader)
    } else {
        Finding::AgreedDark(leader)
    }
}

/// The same by the search: the finding, and the number of the station where the search ended. No station after that
/// one is looked at.
pub fn search(stations: impl IntoIterator<Item = Option<u64>>) -> (Finding, u64) {
    let mut number = 0;
    let mut agreed = None; // the leader of all up stations so far
    let mut living = false; // whether that leader is one of them
    for station in stations {
        number += 1;
        let Some(leader) = station else { continue };
        if leader == NOBODY || agreed.map_or(false, |other| other != leader) {
            return (Finding::Split, number);
        }
        // Where all up stations trust L and L is up, L trusts itself; so it is met here, at its own number.
        agreed = Some(leader);
        living |= leader == number;
    }
    let finding = match agreed {
        None => Finding::Dark,
        Some(leader) if living => Finding::Agreed(leader),
        Some(leader) => Finding::AgreedDark(leader),
    };
    (finding, number)
}
