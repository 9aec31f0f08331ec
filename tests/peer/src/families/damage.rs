//! Unusable, turned, damaged and lost chips, in hard recordings and in some of bytes.

use super::widths::far_size;
use super::{any_pair, pairs, turn, Draft, Out};
use crate::bits::Rate;
use crate::calls::Call;
use crate::chips::LOST;
use crate::frame::Kind;
use crate::random::Random;
use crate::symbols::{barker, ALLOWED_11, ALLOWED_5_5};

pub fn unusable_octets(out: &mut Out) {
    const UNUSABLE: [u8; 9] = [5, 6, 8, 16, 127, 128, 131, 254, 255];
    for (kind, rate) in pairs() {
        let n = 1;
        let frames = Draft::random(kind, rate, n, &mut out.random).both_clocks();
        let frames = frames.map(|chips| [chips, vec![0, 1, 2]].concat());
        let len = frames[0].len();
        let step = if kind == Kind::Long { out.step(5) } else { out.step(2) };
        // The front in steps, its last chip, all of the payload and the chips after it.
        for place in (0..kind.front_chips() - 1).step_by(step).chain(kind.front_chips() - 1..len) {
            let mut spoiled = out.random.one_of(&frames).clone();
            spoiled[place] = out.random.pick(&UNUSABLE);
            if out.random.once_in(3) {
                let second = out.random.below(len);
                spoiled[second] = out.random.pick(&UNUSABLE);
            }
            out.call(Call::hard(kind.number(), spoiled, n));
        }
        for octet in 4..=255 {
            let mut spoiled = out.random.one_of(&frames).clone();
            let place = out.random.below(len);
            spoiled[place] = octet;
            out.call(Call::hard(kind.number(), spoiled, n));
        }
    }
}

pub fn odd_growths(out: &mut Out) {
    for kind in Kind::BOTH {
        let rate = if kind == Kind::Long { Rate::Mbit1 } else { Rate::Mbit2 };
        let frames = Draft::random(kind, rate, 2, &mut out.random).both_clocks();
        for symbol in 0..frames[0].len() / 11 {
            let at = 11 * symbol;
            let chips = out.random.one_of(&frames);
            for by in 1..4 {
                let mut alone = chips.clone();
                turn(&mut alone[at..at + 11], by);
                out.hard_and_bytes(3, kind.number(), alone.clone(), 2);
                let mut onward = chips.clone();
                turn(&mut onward[at..], by);
                out.hard_and_bytes(3, kind.number(), onward, 2);
                // An unusable chip later in the same part comes first, one in the other part doesn't.
                if out.random.once_in(2) {
                    let first = out.random.pick(&[0, at]);
                    alone[out.random.within(first, chips.len() - 1)] = 77;
                    out.call(Call::hard(kind.number(), alone, 2));
                }
            }
            let mut lost = chips.clone();
            lost[at..at + 11].fill(LOST);
            out.hard_and_bytes(3, kind.number(), lost, 2);
        }
    }
    for _ in 0..out.cases(600) {
        let (kind, rate) = any_pair(&mut out.random);
        let n = out.random.within(1, 3);
        let mut chips = Draft::random(kind, rate, n, &mut out.random).chips();
        for _ in 0..out.random.within(1, 4) {
            let at = 11 * out.random.below(chips.len() / 11);
            let by = out.random.phase();
            turn(&mut chips[at..at + 11], by);
        }
        out.hard_and_bytes(3, kind.number(), chips, n);
    }
}

/// All of a frame, its front or its payload.
fn some_part(kind: Kind, frame: usize, random: &mut Random) -> (usize, usize) {
    match random.below(4) {
        0 => (0, frame),
        1 => (0, kind.front_chips()),
        _ => (kind.front_chips(), frame),
    }
}

pub fn damaged_chips(out: &mut Out) {
    for _ in 0..out.cases(3000) {
        let (kind, rate) = any_pair(&mut out.random);
        let n = out.random.within(1, 12);
        let mut chips = Draft::random(kind, rate, n, &mut out.random).chips();
        let (from, to) = some_part(kind, chips.len(), &mut out.random);
        let one_in = out.random.pick(&[500, 100, 30, 10, 5, 4, 3, 2, 1]);
        for chip in &mut chips[from..to] {
            if out.random.once_in(one_in) {
                *chip = out.random.phase();
            }
        }
        out.hard_and_bytes(4, kind.number(), chips, n);
    }
}

pub fn lost_chips(out: &mut Out) {
    for _ in 0..out.cases(2500) {
        let (kind, rate) = any_pair(&mut out.random);
        let n = out.random.within(1, 12);
        let mut chips = Draft::random(kind, rate, n, &mut out.random).chips();
        let (from, to) = some_part(kind, chips.len(), &mut out.random);
        match out.random.below(6) {
            // All of the part.
            0 => chips[from..to].fill(LOST),
            // One run of chips.
            1 => {
                let start = out.random.within(from, to - 1);
                let end = (start + out.random.within(1, 40)).min(to);
                chips[start..end].fill(LOST);
            }
            // Every chip but a few, or a few chips; some changed as well.
            _ => {
                let kept_in = out.random.pick(&[2, 3, 4, 6, 8, 12]);
                let lose_few = out.random.once_in(2);
                for chip in &mut chips[from..to] {
                    if out.random.once_in(kept_in) == lose_few {
                        *chip = LOST;
                    } else if out.random.once_in(40) {
                        *chip = out.random.phase();
                    }
                }
            }
        }
        out.hard_and_bytes(4, kind.number(), chips, n);
    }
}

/// The chips of an allowed word at a rate.
pub fn some_word(rate: Rate, random: &mut Random) -> Vec<u8> {
    match rate {
        Rate::Mbit1 | Rate::Mbit2 => barker(random.phase()).to_vec(),
        Rate::Mbit5_5 => random.pick(&ALLOWED_5_5).1.to_vec(),
        Rate::Mbit11 => random.pick(&ALLOWED_11).1.to_vec(),
    }
}

pub fn tied_words(out: &mut Out) {
    for _ in 0..out.cases(3000) {
        let (kind, rate) = any_pair(&mut out.random);
        let n = out.random.within(1, 10);
        let mut chips = Draft::random(kind, rate, n, &mut out.random).chips();
        for symbol in chips[kind.front_chips()..].chunks_mut(rate.chips_per_symbol()) {
            match out.random.below(4) {
                // A few chips of any phase, all others lost.
                0 => {
                    symbol.fill(LOST);
                    for _ in 0..out.random.below(4) {
                        let at = out.random.below(symbol.len());
                        symbol[at] = out.random.phase();
                    }
                }
                // Every other chip of one word, the rest of another.
                1 => {
                    let (one, other) = (some_word(rate, &mut out.random), some_word(rate, &mut out.random));
                    for at in 0..symbol.len() {
                        symbol[at] = if out.random.once_in(2) { one[at] } else { other[at] };
                    }
                }
                // Nothing, or an even number of chips against each other.
                2 => {
                    symbol.fill(LOST);
                    if out.random.once_in(2) {
                        let word = some_word(rate, &mut out.random);
                        symbol[..2].copy_from_slice(&word[..2]);
                        turn(&mut symbol[..1], 2);
                    }
                }
                _ => symbol.iter_mut().for_each(|chip| *chip = out.random.below(5) as u8),
            }
        }
        out.hard_and_bytes(4, kind.number(), chips, n);
    }
}

pub fn random_recordings(out: &mut Out) {
    for _ in 0..out.cases(1000) {
        let kind = out.random.pick(&Kind::BOTH);
        let len = out.random.within(kind.front_chips() - 5, kind.front_chips() + 300);
        let values = out.random.pick(&[1, 2, 4, 5, 5, 6]);
        let mut chips: Vec<u8> = (0..len).map(|_| out.random.below(values) as u8).collect();
        if out.random.once_in(100) {
            chips.resize(far_size(&mut out.random), 0);
        }
        out.call(Call::hard(kind.number(), chips, 8));
    }
}
