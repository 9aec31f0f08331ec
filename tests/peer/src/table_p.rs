//! # Table P
//!
//! The twelve entries, checked against this program at the start of every run.

// for: TableP
use crate::bits::{decide, direct, growth_of_two, send, Rate};
use crate::chips::{count, Chip, Counts, Phase};
use crate::frame::{crc, scramble, Kind};
use crate::symbols::{cck, Choice, ALLOWED_11, ALLOWED_5_5, ALLOWED_BARKER};
use crate::writing::write;

/// The digits of a text, spaces and commas passed over.
fn digits(text: &str) -> Vec<u8> {
    text.bytes().filter(u8::is_ascii_digit).map(|digit| digit - b'0').collect()
}

/// A 5.5 Mbit/s symbol with p1 = 0: bits d0 d1 = 00 from phase 0, symbol number 0.
fn word_5_5(d2: u8, d3: u8) -> Vec<Phase> {
    let (mut phase, mut chips) = (0, Vec::new());
    send(Rate::Mbit5_5, 0, &[0, 0, d2, d3], &mut phase, &mut chips);
    chips
}

fn first_chips_of_a_long_frame() -> Vec<Phase> {
    let mut chips = vec![0xAA; 2112 + 8];
    write(0, 110, 0, 0, &[0x5A], &mut chips);
    chips.truncate(22);
    chips
}

/// The entries by number, each with what this program finds.
fn entries() -> Vec<(u32, bool)> {
    let header = digits("0101 0000 0000 0000 0000 0011 0000 0000");
    let crc_bits = digits("0101 1011 0101 0111").iter().fold(0, |value: u16, bit| value << 1 | u16::from(*bit));
    let words_5_5 =
        [(0, 0, "1 0 1 2 1 0 3 0"), (0, 1, "3 2 3 0 1 0 3 0"), (1, 0, "3 0 3 2 3 0 1 0"), (1, 1, "1 2 1 0 3 0 1 0")];
    vec![
        (1, scramble(Kind::Long.scrambler_start(), &Kind::Long.sync())[..8] == digits("0 1 1 1 1 1 1 0")),
        (2, scramble(Kind::Short.scrambler_start(), &Kind::Short.sync())[..8] == digits("0 0 0 1 1 0 0 1")),
        (3, crc(&header) == crc_bits),
        (4, first_chips_of_a_long_frame() == digits("0 2 0 0 2 0 0 0 2 2 2, 2 0 2 2 0 2 2 2 0 0 0")),
        (5, cck(0, 0, 0, 0).to_vec() == digits("0 0 0 2 0 0 2 0")),
        (6, cck(1, 1, 0, 0).to_vec() == digits("2 1 2 3 2 1 0 1")),
        (7, cck(0, 1, 2, 3).to_vec() == digits("2 1 0 1 3 2 3 0")),
        (8, words_5_5.iter().all(|(d2, d3, word)| word_5_5(*d2, *d3) == digits(word))),
        (9, Rate::Mbit11.length_of(10) == (8, true) && Rate::Mbit11.length_of(11) == (8, false)),
        (10, Rate::Mbit11.length_of(1026) == (747, true) && Rate::Mbit11.length_of(4095) == (2979, true)),
        (11, Rate::Mbit5_5.length_of(4095) == (5957, false)),
        (12, lost(Rate::Mbit11).number == 0),
    ]
}

/// What a symbol of lost chips is decided as.
fn lost(rate: Rate) -> Choice {
    decide(rate, &vec![Chip::Lost.counts(); rate.chips_per_symbol()])
}

/// The lead of a word as it was sent, of full chips.
fn led(rate: Rate, word: &[Phase]) -> i32 {
    let counts: Vec<Counts> = word.iter().map(|phase| Chip::Hard(*phase).counts()).collect();
    decide(rate, &counts).lead
}

/// Figures that the document gives in its running text.
fn figures_in_the_text() -> Vec<(&'static str, bool)> {
    let half = 2f32.powi(-11);
    let counts = [
        (1.0, 1024),
        (half, 0),
        (3.0 * half, 2),
        (5.0 * half, 2),
        (-3.0 * half, -2),
        (0.0, 0),
        (-0.0, 0),
        (f32::from_bits(1), 0),
        (8.0, 8192),
        (-8.0, -8192),
    ];
    let bytes = [(64, 1024), (1, 16), (0, 0), (-1, -16), (127, 2032), (-127, -2032), (-128, -2048)];
    vec![
        ("counts", counts.iter().all(|(x, whole)| count(*x) == *whole)),
        ("counts of bytes", bytes.iter().all(|(i, whole)| Chip::Bytes { i: *i, q: -64 }.counts() == (*whole, -1024))),
        ("growths", [(0, 0), (0, 1), (1, 1), (1, 0)].map(|(d0, d1)| growth_of_two(d0, d1)) == [0, 1, 2, 3]),
        ("direct phases", [(0, 0), (0, 1), (1, 0), (1, 1)].map(|(d0, d1)| direct(d0, d1)) == [0, 1, 2, 3]),
        ("smallest allowed word at 5.5 Mbit/s", lost(Rate::Mbit5_5).number == 16),
        ("leads where all words tie", Rate::ALL.iter().all(|rate| lost(*rate).lead == 0)),
        ("leads of Barker symbols as sent", ALLOWED_BARKER.iter().all(|(_, word)| led(Rate::Mbit1, word) == 11 * 1024)),
        (
            "leads of words as sent at 5.5 Mbit/s",
            ALLOWED_5_5.iter().all(|(_, word)| led(Rate::Mbit5_5, word) == 8 * 1024),
        ),
        ("leads of words as sent at 11 Mbit/s", ALLOWED_11.iter().all(|(_, word)| led(Rate::Mbit11, word) == 4 * 1024)),
        ("LENGTH 0 with bit 7", Rate::Mbit11.octets_of(0, true) == -1),
    ]
}

/// What differs; empty when all is as the document says.
pub fn differences() -> Vec<String> {
    let table = entries().into_iter().filter(|(_, right)| !right).map(|(entry, _)| format!("Table P, entry {entry}"));
    let text = figures_in_the_text().into_iter().filter(|(_, right)| !right).map(|(name, _)| name.to_string());
    table.chain(text).collect()
}
