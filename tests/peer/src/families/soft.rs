//! Soft recordings: noise, halves of a count, tiny values, 8 and beyond. Noise and damage go over bytes too.

use super::{any_pair, bytes_of, pairs, soft_rows, Draft, Out};
use crate::bits::Rate;
use crate::calls::Call;
use crate::frame::Kind;
use crate::random::Random;

/// A soft frame of the given size with the payload's n, its kind and the first chip of its payload.
struct SoftFrame {
    kind: Kind,
    n: usize,
    front: usize,
    i: Vec<f32>,
    q: Vec<f32>,
}

impl SoftFrame {
    fn random(size: f32, most: usize, random: &mut Random) -> SoftFrame {
        let (kind, rate) = any_pair(random);
        // More short fronts than long ones, as they take half the time.
        let kind = if rate != Rate::Mbit1 && random.once_in(2) { Kind::Short } else { kind };
        let n = random.within(1, most);
        let (i, q) = soft_rows(&Draft::random(kind, rate, n, random).chips(), size);
        SoftFrame { kind, n, front: kind.front_chips(), i, q }
    }

    /// Replaces each value from a place on.
    fn each(&mut self, from: usize, mut value: impl FnMut(f32) -> f32) {
        for x in self.i[from..].iter_mut().chain(&mut self.q[from..]) {
            *x = value(*x);
        }
    }

    fn call(self) -> Call {
        Call::soft(self.kind.number(), (self.i, self.q), self.n)
    }

    /// Calls with the frame as bytes and as it is.
    fn call_both(self, out: &mut Out) {
        out.call(Call::bytes(self.kind.number(), bytes_of(&self.i, &self.q), self.n));
        out.call(self.call());
    }
}

/// The first chip of the frame or of the payload.
fn some_start(frame: &SoftFrame, random: &mut Random) -> usize {
    if random.once_in(3) {
        0
    } else {
        frame.front
    }
}

pub fn noise(out: &mut Out) {
    for _ in 0..out.cases(1200) {
        let size = out.random.pick(&[1.0, 1.0, 0.25, 0.03, 2.5]);
        let mut frame = SoftFrame::random(size, 10, &mut out.random);
        let spread = size * out.random.pick(&[0.05, 0.2, 0.35, 0.5, 0.7, 1.0, 1.5]);
        let from = some_start(&frame, &mut out.random);
        frame.each(from, |x| (x + out.random.noise(spread)).clamp(-8.0, 8.0));
        frame.call_both(out);
    }
}

/// A value on the half of a count, or the next number above or below it in magnitude.
fn about_a_half(most: usize, random: &mut Random) -> f32 {
    let half = (2 * random.below(most) + 1) as f32 / 2048.0;
    let next = random.pick(&[0, 0, 0, 1, u32::MAX]);
    let value = f32::from_bits(half.to_bits().wrapping_add(next));
    if random.once_in(2) {
        -value
    } else {
        value
    }
}

pub fn halves_of_a_count(out: &mut Out) {
    for _ in 0..out.cases(1000) {
        let mut frame = SoftFrame::random(1.0, 8, &mut out.random);
        let (from, most) = (frame.front, out.random.pick(&[1, 2, 3, 4, 16, 4096, 8192]));
        frame.each(from, |_| about_a_half(most, &mut out.random));
        out.call(frame.call());
    }
    // A whole frame whose size is on a half, so that every chip is rounded.
    for k in 0..40 {
        let size = (2 * k + 1) as f32 / 2048.0;
        let frame = SoftFrame::random(size, 6, &mut out.random);
        out.call(frame.call());
    }
    // Frames of a few counts with a half added to each value: the sums differ if halves go another way.
    for _ in 0..out.cases(300) {
        let size = out.random.pick(&[1.0, 2.0, 3.0]) / 1024.0;
        let mut frame = SoftFrame::random(size, 6, &mut out.random);
        let from = some_start(&frame, &mut out.random);
        frame.each(from, |x| x + about_a_half(3, &mut out.random));
        out.call(frame.call());
    }
}

const TINY: [u32; 12] = [
    0x0000_0000, // 0
    0x8000_0000, // -0
    0x0000_0001, // the smallest subnormal
    0x8000_0001,
    0x007F_FFFF, // the largest subnormal
    0x807F_FFFF,
    0x0080_0000, // the smallest normal
    0x8080_0000,
    0x2F80_0000, // 2^-32
    0x39FF_FFFF, // just below half a count
    0x3A00_0000, // half a count
    0xBA00_0001, // just above it, negative
];

pub fn tiny_values(out: &mut Out) {
    for _ in 0..out.cases(600) {
        let mut frame = SoftFrame::random(1.0, 8, &mut out.random);
        let from = some_start(&frame, &mut out.random);
        let one_in = out.random.pick(&[2, 4, 8, 1000]);
        frame.each(from, |x| if out.random.once_in(one_in) { x } else { f32::from_bits(out.random.pick(&TINY)) });
        out.call(frame.call());
    }
    // Nothing but tiny values: every symbol is a tie.
    for bits in TINY {
        for kind in Kind::BOTH {
            let row = vec![f32::from_bits(bits); kind.front_chips() + 88];
            out.call(Call::soft(kind.number(), (row.clone(), row), 4));
        }
    }
    // Any subnormal in place of each zero.
    for _ in 0..out.cases(100) {
        let mut frame = SoftFrame::random(0.75, 6, &mut out.random);
        frame.each(0, |x| {
            let subnormal = out.random.below(1 << 23) as u32 | (out.random.below(2) as u32) << 31;
            if x == 0.0 {
                f32::from_bits(subnormal)
            } else {
                x
            }
        });
        out.call(frame.call());
    }
}

const EIGHT: u32 = 0x4100_0000;

pub fn exactly_eight(out: &mut Out) {
    for _ in 0..out.cases(600) {
        // Every value 8 or just below, of either sign: scores at both ends of their range.
        let mut frame = SoftFrame::random(8.0, 8, &mut out.random);
        let from = some_start(&frame, &mut out.random);
        let below = out.random.pick(&[0, 1, 2]);
        frame.each(from, |x| {
            let size = f32::from_bits(EIGHT - below);
            let negative = if x == 0.0 { out.random.once_in(2) } else { x < 0.0 };
            if negative {
                -size
            } else {
                size
            }
        });
        out.call(frame.call());
    }
    // One value just above 8, or 8 in a frame of another size.
    for _ in 0..out.cases(500) {
        let mut frame = SoftFrame::random(1.0, 4, &mut out.random);
        let at = out.random.below(frame.i.len());
        let size = f32::from_bits(EIGHT + out.random.pick(&[0, 0, 1, 2, 100]));
        let value = if out.random.once_in(2) { -size } else { size };
        let row = if out.random.once_in(2) { &mut frame.i } else { &mut frame.q };
        row[at] = value;
        out.call(frame.call());
    }
}

/// NaNs quiet and signalling, infinities, the largest, and values above 8 by least and more.
const UNUSABLE: [u32; 14] = [
    0x7FC0_0000,
    0xFFC0_0000,
    0x7F80_0001,
    0xFF80_0001,
    0x7FFF_FFFF,
    0xFFFF_FFFF,
    0x7F80_0000,
    0xFF80_0000,
    0x7F7F_FFFF,
    0xFF7F_FFFF,
    EIGHT + 1,
    0xC100_0001,
    0x4110_0000,
    0xC180_0000,
];

pub fn unusable_values(out: &mut Out) {
    for (kind, rate) in pairs() {
        let n = 1;
        let frames = Draft::random(kind, rate, n, &mut out.random).both_clocks();
        let step = if kind == Kind::Long { out.step(13) } else { out.step(7) };
        // The front in steps, its last chip and all of the payload.
        for place in (0..kind.front_chips() - 1).step_by(step).chain(kind.front_chips() - 1..frames[0].len()) {
            let chips = out.random.one_of(&frames);
            let (mut i, mut q) = soft_rows(chips, 1.0);
            for place in [place, out.random.below(i.len())] {
                let value = f32::from_bits(out.random.pick(&UNUSABLE));
                match out.random.below(3) {
                    0 => i[place] = value,
                    1 => q[place] = value,
                    _ => (i[place], q[place]) = (value, value),
                }
            }
            out.call(Call::soft(kind.number(), (i, q), n));
        }
    }
    // Any f32 at all at one place, and over all of the payload.
    for case in 0..out.cases(800) {
        let mut frame = SoftFrame::random(1.0, 3, &mut out.random);
        let mut any = || f32::from_bits((out.random.below(1 << 16) << 16 | out.random.below(1 << 16)) as u32);
        if case % 8 == 0 {
            let from = frame.front;
            frame.each(from, |_| any());
        } else {
            let (value, second) = (any(), any());
            let at = out.random.below(frame.i.len());
            (frame.i[at], frame.q[at]) = (value, second);
        }
        out.call(frame.call());
    }
}

pub fn soft_damage(out: &mut Out) {
    for _ in 0..out.cases(700) {
        let mut frame = SoftFrame::random(1.0, 10, &mut out.random);
        let from = some_start(&frame, &mut out.random);
        let one_in = out.random.pick(&[200, 50, 10, 4, 2, 1]);
        let mut fade = 1.0;
        for at in from..frame.i.len() {
            if out.random.once_in(30) {
                fade = out.random.pick(&[0.0, 0.001, 0.1, 0.5, 1.0, 1.7, 7.9]);
            }
            let (i, q) = (frame.i[at] * fade, frame.q[at] * fade);
            (frame.i[at], frame.q[at]) = (i, q);
            if out.random.once_in(one_in) {
                (frame.i[at], frame.q[at]) = out.random.pick(&[(-q, i), (-i, -q), (q, -i), (0.0, 0.0), (i + q, i - q)]);
            }
        }
        frame.call_both(out);
    }
}

/// I and Q in one row, at the same place or either a few chips on, so that they can be laid as one: a symbol of even
/// phase is decided as it was sent, whatever of its neighbours stands on Q. What is cut or unusable is so in both.
pub fn one_row(out: &mut Out) {
    for case in 0..out.cases(80) {
        let (n, phase) = (out.random.within(1, 9), out.random.pick(&[0, 2]));
        let draft = Draft { phase, ..Draft::random(Kind::Long, Rate::Mbit1, n, &mut out.random) };
        let shift = [0, 5][case % 2];
        let (mut row, _) = soft_rows(&draft.chips(), out.random.pick(&[1.0, 0.5, 8.0]));
        row.resize(row.len() + shift, 0.0);
        let q_first = case % 16 > 8;
        row.rotate_right(if q_first { shift } else { 0 });
        let any = out.random.below(row.len());
        match case % 8 {
            6 => row[any] = f32::NAN,
            7 => row.truncate(any + shift),
            _ => {}
        }
        let (first, further) = (row[..row.len() - shift].to_vec(), row[shift..].to_vec());
        let rows = if q_first { (further, first) } else { (first, further) };
        out.call(Call::soft(Kind::Long.number(), rows, n));
    }
}
