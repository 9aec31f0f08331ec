//! Rows of bytes: symbols that hang on one byte, ties, crossed wires, bytes at random.

use super::damage::some_word;
use super::{any_pair, byte_row, pairs, Draft, Out};
use crate::bits::{decide, Rate};
use crate::calls::Call;
use crate::chips::{Chip, Counts, Phase};
use crate::frame::Kind;
use crate::random::Random;

/// A frame of full chips as bytes.
fn byte_frame(kind: Kind, rate: Rate, n: usize, random: &mut Random) -> Vec<i8> {
    byte_row(&Draft::random(kind, rate, n, random).chips(), 1.0)
}

/// The word decided from a symbol's bytes.
fn decided(rate: Rate, symbol: &[i8]) -> u8 {
    let counts = |chip: &[i8]| Chip::Bytes { i: chip[0], q: chip[1] }.counts();
    decide(rate, &symbol.chunks(2).map(counts).collect::<Vec<Counts>>()).number
}

/// What a symbol's byte adds to a word's score, in bytes: I stands at even places, Q at odd ones.
fn weight(word: &[Phase], at: usize) -> i32 {
    let (i, q) = Chip::Hard(word[at / 2]).counts();
    (if at % 2 == 0 { i } else { q }) / 1024
}

/// A symbol that hangs on a byte: the byte is at one place alone, among its Is or among its Qs, two words tie for the
/// largest score, and with the byte changed by a step of 1 the other of them is decided. 0 may be at other places too.
struct Hanging {
    symbol: Vec<i8>,
    at: usize,
    step: i8,
}

impl Hanging {
    fn random(rate: Rate, byte: i8, step: i8, on_q: bool, random: &mut Random) -> Hanging {
        let len = 2 * rate.chips_per_symbol();
        // Two words together, the byte, and at another place what makes the scores of both equal again.
        loop {
            let (one, other) = (some_word(rate, random), some_word(rate, random));
            let size = random.pick(&[0, 1, 5, 20, 40, 63]);
            let both = |at: usize| size * (weight(&one, at) + weight(&other, at));
            let mut symbol: Vec<i8> = (0..len).map(|at| both(at) as i8).collect();
            let (at, balance) = (2 * random.below(len / 2) + usize::from(on_q), random.below(len));
            symbol[at] = byte;
            let lead: i32 = (0..len).map(|at| (weight(&one, at) - weight(&other, at)) * i32::from(symbol[at])).sum();
            let each = weight(&one, balance) - weight(&other, balance);
            if balance == at || each == 0 || lead % each != 0 {
                continue;
            }
            let Ok(balanced) = i8::try_from(i32::from(symbol[balance]) - lead / each) else { continue };
            symbol[balance] = balanced;
            if byte != 0 && symbol.iter().filter(|other| **other == byte).count() > 1 {
                continue;
            }
            let mut changed = symbol.clone();
            changed[at] += step;
            let both = [decided(rate, &symbol), decided(rate, &changed)];
            let tied = || [&one, &other].map(|word| decided(rate, &byte_row(word, 1.0)));
            if both[0] != both[1] && both.iter().all(|number| tied().contains(number)) {
                return Hanging { symbol, at, step };
            }
        }
    }

    /// Calls with the symbol in place of a frame's bytes from a chip on, as it is and with its byte changed.
    fn call_both(&self, out: &mut Out, kind: Kind, bytes: &[i8], chip: usize) {
        let mut row = bytes.to_vec();
        row[2 * chip..2 * chip + self.symbol.len()].copy_from_slice(&self.symbol);
        out.call(Call::bytes(kind.number(), row.clone(), 1));
        row[2 * chip + self.at] += self.step;
        out.call(Call::bytes(kind.number(), row, 1));
    }
}

/// 1 more and 1 less in turn, but within the bytes.
fn step(byte: i8, case: usize) -> i8 {
    match byte {
        i8::MIN => 1,
        i8::MAX => -1,
        _ => [1, -1][case % 2],
    }
}

pub fn every_byte(out: &mut Out) {
    let fronts = Kind::BOTH.map(|kind| (kind, byte_frame(kind, Rate::Mbit11, 1, &mut out.random)));
    for (byte, on_q) in (i8::MIN..=i8::MAX).flat_map(|byte| [(byte, false), (byte, true)]) {
        // More of both ends: if bytes are clamped, they are.
        let shorter = if [i8::MIN, i8::MAX].contains(&byte) { 6 } else { 1 };
        for case in 0..out.cases(shorter) {
            let case = case + usize::from(byte as u8) + usize::from(on_q);
            for (next, rate) in Rate::ALL.into_iter().enumerate() {
                let kind = if rate == Rate::Mbit1 { Kind::Long } else { out.random.pick(&Kind::BOTH) };
                let bytes = byte_frame(kind, rate, 1, &mut out.random);
                let symbol = out.random.below(8 / rate.bits_per_symbol());
                let chip = kind.front_chips() + symbol * rate.chips_per_symbol();
                let hanging = Hanging::random(rate, byte, step(byte, case + next), on_q, &mut out.random);
                hanging.call_both(out, kind, &bytes, chip);
            }
            // A symbol of the SFD or the header: SYNC bits aren't compared.
            let (kind, bytes) = &fronts[out.random.below(2)];
            let chip = 11 * out.random.within(kind.sync().len(), kind.front_chips() / 11 - 1);
            let hanging = Hanging::random(Rate::Mbit2, byte, step(byte, case), on_q, &mut out.random);
            hanging.call_both(out, *kind, bytes, chip);
        }
    }
}

/// A symbol of bytes that are of one size, 127 and -128 being one, or 0.
fn equal_symbol(rate: Rate, size: i8, random: &mut Random) -> Vec<i8> {
    let (one, other) = (some_word(rate, random), some_word(rate, random));
    let byte = |sign: i32| (sign * i32::from(size)).min(127) as i8;
    let bytes = 0..2 * one.len();
    match random.below(5) {
        // One pair, for all chips.
        0 => [random.pick(&[0, 1, -1]), random.pick(&[0, 1, -1])].map(byte).repeat(one.len()),
        // Each chip of one word or of another, or of both where they are a quarter turn apart.
        1 => bytes.map(|at| byte(weight(if at / 2 % 2 == 0 { &one } else { &other }, at))).collect(),
        2 => bytes.map(|at| byte((weight(&one, at) + weight(&other, at)).signum())).collect(),
        // A word turned by an eighth.
        3 => one.iter().flat_map(|chip| eighth(*chip)).map(|sign| byte(sign)).collect(),
        _ => bytes.map(|_| byte(random.pick(&[1, -1]))).collect(),
    }
}

/// The signs of I and Q of a phase turned by an eighth.
fn eighth(phase: Phase) -> [i32; 2] {
    [[1, 1], [-1, 1], [-1, -1], [1, -1]][usize::from(phase)]
}

pub fn equal_bytes(out: &mut Out) {
    for _ in 0..out.cases(1200) {
        let (kind, rate) = any_pair(&mut out.random);
        let n = out.random.within(1, 6);
        let mut bytes = byte_frame(kind, rate, n, &mut out.random);
        // At 1 Mbit/s few of the symbols, as most of them grow by 1 or 3.
        let one_in = if rate == Rate::Mbit1 { 8 } else { 1 };
        for symbol in bytes[2 * kind.front_chips()..].chunks_mut(2 * rate.chips_per_symbol()) {
            if out.random.once_in(one_in) {
                let size = out.random.pick(&[0, 1, 2, 63, 64, 127, -128, -127]);
                symbol.copy_from_slice(&equal_symbol(rate, size, &mut out.random));
            }
        }
        out.call(Call::bytes(kind.number(), bytes, n));
    }
    // All of a recording, and all of a payload, one byte.
    for byte in i8::MIN..=i8::MAX {
        for kind in Kind::BOTH {
            out.call(Call::bytes(kind.number(), vec![byte; 2 * kind.front_chips() + 88], 4));
        }
        let (kind, rate) = any_pair(&mut out.random);
        let mut bytes = byte_frame(kind, rate, 2, &mut out.random);
        bytes[2 * kind.front_chips()..].fill(byte);
        out.call(Call::bytes(kind.number(), bytes, 2));
    }
}

/// The pairs of a row of bytes as a board with its wires crossed has them.
fn crossed(row: &mut [i8], how: usize) {
    for chip in row.chunks_exact_mut(2) {
        let (i, q) = (chip[0], chip[1]);
        let (i, q) = [(q, i), (i.saturating_neg(), q), (i, q.saturating_neg()), (q, i.saturating_neg())][how];
        chip.copy_from_slice(&[i, q]);
    }
}

pub fn exchanged_bytes(out: &mut Out) {
    for (kind, rate) in pairs() {
        for case in 0..out.cases(60) {
            let n = out.random.within(1, 6);
            let chips = Draft::random(kind, rate, n, &mut out.random).chips();
            let size = out.random.pick(&[1, 64, 127]);
            // Turned by an eighth every word ties with a neighbour, so that an exchange shows at 1 Mbit/s too.
            let mut bytes = match case % 2 {
                0 => byte_row(&chips, f32::from(size) / 64.0),
                _ => chips.iter().flat_map(|chip| eighth(*chip).map(|sign| sign as i8 * size)).collect(),
            };
            let from = out.random.pick(&[0, 2 * kind.front_chips()]);
            match case / 2 % 6 {
                how @ 0..=3 => crossed(&mut bytes[from..], how),
                // A byte late.
                4 => bytes[from..].rotate_right(1),
                _ => {}
            }
            out.call(Call::bytes(kind.number(), bytes, n));
        }
    }
}

pub fn random_bytes(out: &mut Out) {
    for _ in 0..out.cases(1200) {
        let (kind, rate) = any_pair(&mut out.random);
        let n = out.random.within(1, 8);
        let mut bytes = byte_frame(kind, rate, n, &mut out.random);
        let (front, end) = (2 * kind.front_chips(), bytes.len());
        // All of the recording, its header, or its payload.
        let (from, to) =
            out.random.pick(&[(0, end), (22 * kind.bits_before_header(), front), (front, end), (front, end)]);
        let few = out.random.pick(&[[-128, 127], [-1, 0], [-128, 0], [-64, 64]]);
        let (any, one_in) = (out.random.once_in(2), out.random.pick(&[1, 1, 2, 8, 50]));
        for byte in &mut bytes[from..to] {
            if out.random.once_in(one_in) {
                *byte = if any { out.random.byte() } else { out.random.pick(&few) };
            }
        }
        bytes.truncate(end - out.random.pick(&[0, 0, 0, 0, 0, 1, 2]));
        out.call(Call::bytes(kind.number(), bytes, n));
    }
}
