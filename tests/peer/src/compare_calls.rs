//! The call that compares two recordings: its request, what is expected of it, and how it is shown.

use crate::calls::{hex, put_octets};
use crate::comparing::{compare, Comparison};
use crate::reading::Read as Reading;
use std::io::{self, Read};

/// The call. The rows lent for writing are given by their lengths alone: the places of both lists, chips first, and the
/// octets of both buffers.
#[derive(Clone, PartialEq, Eq)]
pub struct CompareCall {
    pub kind: u64,
    pub recordings: [Vec<u8>; 2],
    pub places: [usize; 2],
    pub rooms: [usize; 2],
}

/// What the call leaves in its lent rows: those of the lists, chips first, and both octet buffers, each without the
/// zeros that end it.
#[derive(Default, PartialEq, Eq)]
pub struct Rows {
    pub lists: [Vec<u64>; 2],
    pub octets: [Vec<u8>; 2],
}

#[rustfmt::skip]
pub const NAMES: [&str; 22] = [
    "number a", "place a", "rate a", "length a", "n of a", "used a", "clock a", "lead a", "symbol a",
    "number b", "place b", "rate b", "length b", "n of b", "used b", "clock b", "lead b", "symbol b",
    "chips", "octets", "n_a", "n_b",
];

/// A row without the zeros that end it.
pub fn trimmed<T: Copy + PartialEq + Default>(row: &[T]) -> Vec<T> {
    let zeros = row.iter().rev().take_while(|element| **element == T::default()).count();
    row[..row.len() - zeros].to_vec()
}

/// So many elements, if a row may have as many.
fn sent(from: &mut impl Read, most: usize, width: usize) -> io::Result<Vec<u8>> {
    let mut number = [0; 8];
    from.read_exact(&mut number)?;
    let count = u64::from_le_bytes(number);
    if count > most as u64 {
        return Err(io::Error::new(io::ErrorKind::InvalidData, "more elements than a row has"));
    }
    let mut elements = vec![0; count as usize * width];
    from.read_exact(&mut elements)?;
    Ok(elements)
}

fn numbers_of(octets: &[u8]) -> Vec<u64> {
    octets.chunks(8).map(|number| u64::from_le_bytes(number.try_into().expect("8 octets"))).collect()
}

impl Rows {
    /// As the bridge sends them; no row has more elements than these.
    fn read(from: &mut impl Read, places: [usize; 2], rooms: [usize; 2]) -> io::Result<Rows> {
        let lists = [sent(from, places[0], 8)?, sent(from, places[1], 8)?].map(|octets| numbers_of(&octets));
        Ok(Rows { lists, octets: [sent(from, rooms[0], 1)?, sent(from, rooms[1], 1)?] })
    }

    /// The octets that the bridge sends of them.
    pub fn buffer(&self) -> Vec<u8> {
        let mut to = Vec::new();
        for list in &self.lists {
            to.extend((list.len() as u64).to_le_bytes());
            list.iter().for_each(|number| to.extend(number.to_le_bytes()));
        }
        for octets in &self.octets {
            to.extend((octets.len() as u64).to_le_bytes());
            to.extend(octets);
        }
        to
    }

    /// The rows of an answer's buffer.
    pub fn of(mut buffer: &[u8]) -> Rows {
        Rows::read(&mut buffer, [usize::MAX; 2], [usize::MAX; 2]).expect("a buffer is the rows")
    }
}

impl CompareCall {
    pub fn new(kind: u64, recordings: [Vec<u8>; 2], places: [usize; 2], rooms: [usize; 2]) -> CompareCall {
        CompareCall { kind, recordings, places, rooms }
    }

    /// The same with the recordings and their buffers exchanged.
    pub fn exchanged(&self) -> CompareCall {
        let ([a, b], [one, other]) = (self.recordings.clone(), self.rooms);
        CompareCall { recordings: [b, a], rooms: [other, one], ..self.clone() }
    }

    pub fn lent_lens(&self) -> Vec<usize> {
        self.places.into_iter().chain(self.rooms).collect()
    }

    pub fn read_lens(&self) -> Vec<usize> {
        self.recordings.iter().map(Vec::len).collect()
    }

    pub fn request(&self, laid: u64, to: &mut Vec<u8>) {
        let lens = self.recordings.iter().map(Vec::len).chain(self.places).chain(self.rooms);
        let numbers = [14, laid, self.kind].into_iter().chain(lens.map(|len| len as u64));
        numbers.for_each(|number| to.extend(number.to_le_bytes()));
        self.recordings.iter().for_each(|chips| put_octets(chips, to));
    }

    /// What the bridge sends of the lent rows.
    pub fn rows(&self, from: &mut impl Read) -> io::Result<Vec<u8>> {
        Rows::read(from, self.places, self.rooms).map(|rows| rows.buffer())
    }

    /// The numbers expected, what is left in the lent rows, and the reading of the first recording. Octet buffers start
    /// with other contents than any call leaves.
    pub fn expected(&self) -> (Vec<u64>, Vec<u8>, Reading) {
        let [mut first, mut second] = self.rooms.map(|room| vec![0x77; room]);
        let [a, b] = &self.recordings;
        let (comparison, lists) = compare(self.kind, [a, b], self.places, [&mut first, &mut second]);
        let Comparison { records: [a, b], chips, octets, n } = comparison;
        let mut numbers: Vec<u64> = [&a, &b].into_iter().flat_map(record).collect();
        numbers.extend([chips, octets, n[0], n[1]]);
        let rows = Rows { lists: lists.map(|list| trimmed(&list)), octets: [trimmed(&first), trimmed(&second)] };
        (numbers, rows.buffer(), a)
    }

    pub fn shown_numbers(&self) -> String {
        let ([a, b], [chips, octets], [one, other]) = (&self.recordings, self.places, self.rooms);
        let rows = format!("chip_row_len {chips}, octet_row_len {octets}, octets_a_len {one}, octets_b_len {other}");
        format!("kind {}, a_len {}, b_len {}, {rows}", self.kind, a.len(), b.len())
    }

    pub fn shown_rows(&self, cut: usize) -> Vec<String> {
        let named = ["a", "b"].into_iter().zip(&self.recordings);
        named.map(|(name, chips)| format!("  {name} {}", hex(chips, cut))).collect()
    }
}

fn record(read: &Reading) -> [u64; 9] {
    let Reading { number, place, rate, length, n, used, clock, lead, symbol, .. } = *read;
    [number, place, rate, length, n, used, clock, lead, symbol]
}
