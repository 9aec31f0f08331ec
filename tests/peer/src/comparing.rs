//! Two hard recordings of one kind compared: which chips differ, and, where both are accepted, which octets.
//!
//! Each list has a lent row of numbers of its own, three places an entry. The call has no number of its own.

use crate::chips::Recording;
use crate::reading::{read, Read};

/// An entry of a list: the index, the octet of the first, and the octet of the second.
pub type Entry = [u64; 3];

/// The answer: the record of each reading, how many entries each list has, and how many octets each payload has.
pub struct Comparison {
    pub records: [Read; 2],
    pub chips: u64,
    pub octets: u64,
    pub n: [u64; 2],
}

/// Every index at which two rows differ, rising, as far as the shorter goes.
pub fn differences(first: &[u8], second: &[u8]) -> Vec<Entry> {
    let both = first.iter().zip(second).enumerate();
    let differ = both.filter(|(_, (one, other))| one != other);
    differ.map(|(index, (one, other))| [index as u64, u64::from(*one), u64::from(*other)]).collect()
}

/// What a row of so many places holds: the list, or nothing where the list does not fit. Zeros follow up to its end.
fn listed(list: &[Entry], places: usize) -> Vec<u64> {
    let fits = 3 * list.len() <= places;
    list.iter().filter(|_| fits).flatten().copied().collect()
}

/// Reads both recordings, each with an octet buffer of its own, and compares them; what the rows for the lists hold
/// before the zeros at their ends.
pub fn compare(
    kind: u64,
    recordings: [&[u8]; 2],
    places: [usize; 2],
    [first, second]: [&mut [u8]; 2],
) -> (Comparison, [Vec<u64>; 2]) {
    let [a, b] = recordings;
    let records = [read(kind, Recording::Hard(a), first), read(kind, Recording::Hard(b), second)];
    let accepted = records.iter().all(|record| record.number == 0);
    let n = if accepted { [records[0].n, records[1].n] } else { [0, 0] };
    let [chips, octets] = [differences(a, b), differences(&first[..n[0] as usize], &second[..n[1] as usize])];
    let rows = [listed(&chips, places[0]), listed(&octets, places[1])];
    (Comparison { records, chips: chips.len() as u64, octets: octets.len() as u64, n }, rows)
}
