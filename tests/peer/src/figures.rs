//! Figures from outside, each file naming its source: plain text, `#` before words, then one case a line.
//!
//! A missing file, a file without a source, or one with fewer cases than it should have is a failure, never a skip.

use crate::bits::{growth_of_two, half_turn, Rate};
use crate::chips::{growth, turned, Chip, Phase};
use crate::frame::{crc, front_bits, lowest_first, scramble, Header, Kind};
use crate::refusals::MOST_OCTETS;
use crate::symbols::{barker, cck, choose, ALLOWED_11};
use std::fs;
use std::path::Path;

/// LENGTH and bit 7 for n octets at a rate.
#[derive(Clone, Copy)]
pub struct LengthFigure {
    pub rate: Rate,
    pub n: usize,
    pub length: usize,
    pub bit7: bool,
}

/// Bits in sending order and their CRC as a number, its first sent bit the highest.
pub struct CrcFigure {
    pub bits: Vec<u8>,
    pub crc: u16,
}

/// A CCK word: its phases p1 to p4 and its chips.
pub struct WordFigure {
    pub phases: [Phase; 4],
    pub chips: Vec<Phase>,
}

/// Bits before and after scrambling from a kind's start; of a whole frame also its rate and payload.
pub struct ScrambledFigure {
    pub kind: Kind,
    pub frame: Option<(Rate, Vec<u8>)>,
    pub bits: Vec<u8>,
    pub scrambled: Vec<u8>,
}

pub struct Figures {
    pub lengths_1023_to_1026: Vec<LengthFigure>,
    pub lengths_of_every_n: Vec<LengthFigure>,
    pub crc_example: Vec<CrcFigure>,
    pub crc_genibus: Vec<CrcFigure>,
    pub cck_words: Vec<WordFigure>,
    pub barker_negated: Vec<(Phase, Vec<Phase>)>,
    cck_distances: Vec<(usize, usize)>,
    growths: Vec<[u8; 4]>,
    pub scrambled: Vec<ScrambledFigure>,
}

const LENGTHS_1023_TO_1026: &str = "length_of_1023_to_1026_octets.txt";
const LENGTHS_OF_EVERY_N: &str = "length_and_bit7_of_every_n.txt";
const CRC_EXAMPLE: &str = "crc_of_the_standards_example.txt";
const CRC_GENIBUS: &str = "crc_16_genibus.txt";
const CCK_WORDS: &str = "cck_words.txt";
const BARKER_NEGATED: &str = "barker_symbols_negated.txt";
const CCK_DISTANCES: &str = "cck_distances.txt";
const GROWTHS: &str = "growth_of_two_bits.txt";
const SCRAMBLED: &str = "scrambled_by_gnu_radio.txt";

impl Figures {
    pub fn load(dir: &Path) -> Result<Figures, String> {
        let length = |row: &[String]| {
            let rate = Rate::of_code(number(&row[0])? as u64)?;
            Some(LengthFigure { rate, n: number(&row[1])?, length: number(&row[2])?, bit7: number(&row[3])? == 1 })
        };
        let crc_bits = |row: &[String]| {
            let crc = digits(&row[1], 16)?.iter().fold(0, |value: u16, bit| value << 1 | u16::from(*bit));
            Some(CrcFigure { bits: digits(&row[0], 32)?, crc })
        };
        let crc_octets = |row: &[String]| {
            let bits = row[0].chars().map(|digit| digit.to_digit(16)).collect::<Option<Vec<u32>>>()?;
            let bits = bits.iter().flat_map(|digit| (0..4).rev().map(move |k| (digit >> k & 1) as u8)).collect();
            Some(CrcFigure { bits, crc: u16::from_str_radix(&row[1], 16).ok()? })
        };
        let word = |row: &[String]| {
            let phases = digits(&row[0], 4)?.try_into().ok()?;
            Some(WordFigure { phases, chips: digits(&row[1], 8)? })
        };
        let symbol = |row: &[String]| Some((digits(&row[0], 1)?[0], digits(&row[1], 11)?));
        let distance = |row: &[String]| Some((number(&row[0])?, number(&row[1])?));
        let growths = |row: &[String]| digits(&row.concat(), 4)?.try_into().ok();
        let lengths_of_every_n = every_n(&rows(dir, LENGTHS_OF_EVERY_N, 44, 4, length)?);
        if lengths_of_every_n.len() != Rate::ALL.len() * MOST_OCTETS {
            return Err(format!("{LENGTHS_OF_EVERY_N} lacks an n from 1 to 11 at some rate"));
        }
        Ok(Figures {
            lengths_1023_to_1026: rows(dir, LENGTHS_1023_TO_1026, 4, 4, length)?,
            lengths_of_every_n,
            crc_example: rows(dir, CRC_EXAMPLE, 1, 2, crc_bits)?,
            crc_genibus: rows(dir, CRC_GENIBUS, 37, 2, crc_octets)?,
            cck_words: rows(dir, CCK_WORDS, 3, 2, word)?,
            barker_negated: rows(dir, BARKER_NEGATED, 4, 2, symbol)?,
            cck_distances: rows(dir, CCK_DISTANCES, 7, 2, distance)?,
            growths: rows(dir, GROWTHS, 4, 4, growths)?,
            scrambled: rows(dir, SCRAMBLED, 9, 5, scrambled_row)?,
        })
    }

    /// A word as it was sent leads by its distance from the nearest other one, in full chips.
    fn leads_are_distances(&self) -> bool {
        let nearest = self.cck_distances.iter().map(|(distance, _)| *distance).filter(|distance| *distance > 0).min();
        let lead = |word: &[Phase; 8]| choose(&ALLOWED_11, &word.map(|phase| Chip::Hard(phase).counts())).lead;
        ALLOWED_11.iter().all(|(_, word)| nearest == Some(lead(word) as usize / 1024))
    }

    /// Compares this program with each file; answers how many figures each gave.
    pub fn check(&self) -> Result<Vec<(&'static str, usize)>, String> {
        if !self.leads_are_distances() {
            return Err(format!("{CCK_DISTANCES}: the smallest isn't the lead that this program finds"));
        }
        let length = |figure: &LengthFigure| {
            figure.rate.length_of(figure.n) == (figure.length, figure.bit7)
                && figure.rate.octets_of(figure.length as u16, figure.bit7) == figure.n as i64
        };
        let crc_right = |figure: &CrcFigure| crc(&figure.bits) == figure.crc;
        let word = |figure: &WordFigure| {
            let [p1, p2, p3, p4] = figure.phases;
            cck(p1, p2, p3, p4).to_vec() == figure.chips
        };
        let symbol = |(p, chips): &(Phase, Vec<Phase>)| barker(turned(*p, 2)).to_vec() == *chips;
        // The words are a group but for a turn of two chips, so every word sees the others at the same distances.
        let distance = |(distance, words): &(usize, usize)| {
            let seen_from = |(_, from): &(u8, [Phase; 8])| {
                ALLOWED_11.iter().filter(|(_, to)| squared_distance(from, to) == *distance).count() == *words
            };
            ALLOWED_11.iter().all(seen_from)
        };
        let grown = |[d0, d1, even, odd]: &[u8; 4]| {
            let grown = growth_of_two(*d0, *d1);
            turned(grown, half_turn(0)) == *even && turned(grown, half_turn(1)) == *odd
        };
        Ok(vec![
            (LENGTHS_1023_TO_1026, all(LENGTHS_1023_TO_1026, &self.lengths_1023_to_1026, length)?),
            (LENGTHS_OF_EVERY_N, all(LENGTHS_OF_EVERY_N, &self.lengths_of_every_n, length)?),
            (CRC_EXAMPLE, all(CRC_EXAMPLE, &self.crc_example, crc_right)?),
            (CRC_GENIBUS, all(CRC_GENIBUS, &self.crc_genibus, crc_right)?),
            (CCK_WORDS, all(CCK_WORDS, &self.cck_words, word)?),
            (BARKER_NEGATED, all(BARKER_NEGATED, &self.barker_negated, symbol)?),
            (CCK_DISTANCES, all(CCK_DISTANCES, &self.cck_distances, distance)?),
            (GROWTHS, all(GROWTHS, &self.growths, grown)?),
            (SCRAMBLED, all(SCRAMBLED, &self.scrambled, scrambled_right)?),
        ])
    }
}

fn scrambled_row(row: &[String]) -> Option<ScrambledFigure> {
    let octet = |at: usize| u8::from_str_radix(row[2].get(at..at + 2)?, 16).ok();
    let payload = || (0..row[2].len()).step_by(2).map(octet).collect::<Option<Vec<u8>>>();
    Some(ScrambledFigure {
        kind: Kind::of_number(number(&row[0])? as u64)?,
        frame: if row[1] == "0" { None } else { Some((Rate::of_code(number(&row[1])? as u64)?, payload()?)) },
        bits: digits(&row[3], row[3].len())?,
        scrambled: digits(&row[4], row[3].len())?,
    })
}

fn scrambled_right(figure: &ScrambledFigure) -> bool {
    let ScrambledFigure { kind, frame, bits, scrambled } = figure;
    let of_frame = frame.as_ref().map(|(rate, payload)| {
        let header = Header::written(*rate, payload.len(), false);
        let mut bits = front_bits(&kind.sync(), kind.sfd(), &header, header.crc());
        bits.extend(payload.iter().flat_map(|octet| lowest_first(u16::from(*octet), 8)));
        bits
    });
    of_frame.map_or(true, |of_frame| of_frame == *bits) && scramble(kind.scrambler_start(), bits) == *scrambled
}

/// Half the squared distance of two words of full chips: 1 a chip turned by 1 or 3, 2 a chip turned by 2.
fn squared_distance(one: &[Phase; 8], other: &[Phase; 8]) -> usize {
    (0..8).map(|k| [0, 1, 2, 1][usize::from(growth(one[k], other[k]))]).sum()
}

/// Eleven octets last whole microseconds at every rate, so eleven lines a rate give every n.
fn every_n(eleven: &[LengthFigure]) -> Vec<LengthFigure> {
    let mut figures = Vec::new();
    for rate in Rate::ALL {
        let lines: Vec<_> = eleven.iter().filter(|figure| figure.rate == rate).collect();
        let period = lines.iter().find(|figure| figure.n == 11).map_or(0, |figure| figure.length);
        for n in 1..=MOST_OCTETS {
            let (periods, first) = ((n - 1) / 11, (n - 1) % 11 + 1);
            let line = lines.iter().find(|figure| figure.n == first);
            figures.extend(line.map(|line| LengthFigure { n, length: line.length + periods * period, ..**line }));
        }
    }
    figures
}

fn all<T>(name: &str, figures: &[T], right: impl Fn(&T) -> bool) -> Result<usize, String> {
    match figures.iter().position(|figure| !right(figure)) {
        Some(at) => Err(format!("{name}: figure {} isn't what this program finds", at + 1)),
        None => Ok(figures.len()),
    }
}

fn rows<T>(
    dir: &Path,
    name: &str,
    cases: usize,
    columns: usize,
    parse: impl Fn(&[String]) -> Option<T>,
) -> Result<Vec<T>, String> {
    let path = dir.join(name);
    let text = fs::read_to_string(&path).map_err(|error| format!("{}: {error}", path.display()))?;
    if !text.lines().any(|line| line.starts_with("# Source: ")) {
        return Err(format!("{name} names no source"));
    }
    let mut found = Vec::new();
    for line in text.lines().filter(|line| !line.starts_with('#') && !line.trim().is_empty()) {
        let row: Vec<String> = line.split_whitespace().map(str::to_string).collect();
        let parsed = if row.len() == columns { parse(&row) } else { None };
        found.push(parsed.ok_or(format!("{name} can't be read at: {line}"))?);
    }
    if found.len() != cases {
        Err(format!("{name} has {} cases, not {cases}", found.len()))
    } else {
        Ok(found)
    }
}

fn number(text: &str) -> Option<usize> {
    text.parse().ok()
}

/// A run of so many digits, each a phase or a bit.
fn digits(text: &str, count: usize) -> Option<Vec<u8>> {
    let digits: Vec<u8> =
        text.bytes().filter(|digit| (b'0'..=b'3').contains(digit)).map(|digit| digit - b'0').collect();
    (digits.len() == count && text.len() == count).then_some(digits)
}
