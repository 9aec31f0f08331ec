//! Recordings in their recorder's own steps: full chips if it is hard, 1024ths of one if soft, 64ths if bytes.

use super::{Draft, Recorder};
use crate::bits::{decide, Rate};
use crate::calls::Call;
use crate::chips::{Chip, Counts, Phase, LOST};
use crate::frame::Kind;
use crate::random::Random;
use crate::symbols::Choice;
use std::ops::Range;

/// What a step counts.
pub fn counts_of_a_step(recorder: Recorder) -> i32 {
    match recorder {
        Recorder::Hard => 1024,
        Recorder::Soft => 1,
        Recorder::Bytes => 16,
    }
}

/// The largest value of a recorder, in its steps.
pub fn most(recorder: Recorder) -> i32 {
    match recorder {
        Recorder::Hard => 1,
        Recorder::Soft => 8 * 1024,
        Recorder::Bytes => 127,
    }
}

/// The least value of a recorder, in its steps.
pub fn least(recorder: Recorder) -> i32 {
    match recorder {
        Recorder::Bytes => -128,
        _ => -most(recorder),
    }
}

/// A size by which values of so many units are within what a recorder has: the least, the most, a full chip, any.
pub fn some_size(recorder: Recorder, units: i32, random: &mut Random) -> i32 {
    let most = most(recorder) / units;
    let any = random.within(1, most as usize) as i32;
    random.pick(&[1, most, most.min(64), most.min(1024), any])
}

/// A phase as a chip of so many steps.
pub fn sized(phase: Phase, size: i32) -> Counts {
    (size * unit(phase).0, size * unit(phase).1)
}

/// A phase as a chip of one step.
pub fn unit(phase: Phase) -> Counts {
    let (i, q) = Chip::Hard(phase).counts();
    (i / 1024, q / 1024)
}

/// A soft sample that counts as the given number: just that, a quarter of a count beside it, or a half that goes to it.
pub fn sample(count: i32, random: &mut Random) -> f32 {
    let quarters = match (count.abs(), count % 2) {
        (8192, _) => 0,
        (_, 0) => random.pick(&[0, 0, 0, 1, -1, 2, -2]),
        _ => random.pick(&[0, 0, 0, 1, -1]),
    };
    let value = (4 * count + quarters) as f32 / 4096.0;
    if value == 0.0 && random.once_in(2) {
        -0.0
    } else {
        value
    }
}

/// A phase, or lost.
pub fn hard_chip(chip: &Counts) -> u8 {
    (0..4).find(|phase| Chip::Hard(*phase).counts() == (1024 * chip.0, 1024 * chip.1)).unwrap_or(LOST)
}

/// A frame in a recorder's steps, its chips of a size before any is spoiled.
#[derive(Clone)]
pub struct Frame {
    pub recorder: Recorder,
    pub kind: Kind,
    pub rate: Rate,
    pub n: usize,
    pub size: i32,
    pub chips: Vec<Counts>,
}

impl Frame {
    /// A draft with chips of so many steps.
    pub fn new(recorder: Recorder, draft: &Draft, size: i32) -> Frame {
        let chips = draft.chips().into_iter().map(|phase| sized(phase, size)).collect();
        Frame { recorder, kind: draft.kind, rate: draft.rate, n: draft.payload.len(), size, chips }
    }

    pub fn front_symbols(&self) -> usize {
        self.kind.front_chips() / 11
    }

    pub fn symbols(&self) -> usize {
        self.front_symbols() + 8 * self.n / self.rate.bits_per_symbol()
    }

    /// The chips of a symbol, counted from 0 at the frame's first.
    pub fn places(&self, symbol: usize) -> Range<usize> {
        let (front, each) = (self.kind.front_chips(), self.rate.chips_per_symbol());
        match symbol.checked_sub(self.front_symbols()) {
            None => 11 * symbol..11 * symbol + 11,
            Some(behind) => front + each * behind..front + each * (behind + 1),
        }
    }

    /// What the symbol is decided among. In the front it is the four phases, at either rate of the header.
    pub fn rate_at(&self, symbol: usize) -> Rate {
        if symbol < self.front_symbols() {
            Rate::Mbit1
        } else {
            self.rate
        }
    }

    /// The counts of a symbol.
    pub fn counts(&self, symbol: usize) -> Vec<Counts> {
        let step = counts_of_a_step(self.recorder);
        self.chips[self.places(symbol)].iter().map(|(i, q)| (step * i, step * q)).collect()
    }

    /// What a symbol is decided as.
    pub fn choice(&self, symbol: usize) -> Choice {
        decide(self.rate_at(symbol), &self.counts(symbol))
    }

    /// The reading of it with so much room.
    pub fn reading(&self, room: usize, random: &mut Random) -> Call {
        let (kind, chips) = (self.kind.number(), &self.chips);
        match self.recorder {
            Recorder::Hard => Call::hard(kind, chips.iter().map(hard_chip).collect(), room),
            Recorder::Soft => {
                let mut row = |of: fn(&Counts) -> i32| chips.iter().map(|chip| sample(of(chip), random)).collect();
                let (i, q) = (row(|chip| chip.0), row(|chip| chip.1));
                Call::soft(kind, (i, q), room)
            }
            Recorder::Bytes => Call::bytes(kind, chips.iter().flat_map(|(i, q)| [*i as i8, *q as i8]).collect(), room),
        }
    }
}
