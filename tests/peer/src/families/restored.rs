//! Reading back what was written, by each recorder.

use super::widths::far_size;
use super::{any_pair, byte_row, pairs, soft_rows, Draft, Out, Recorder};
use crate::calls::Call;

pub fn read_short_payloads(out: &mut Out) {
    for (kind, rate) in pairs() {
        for phase in 0..4 {
            for n in 1..=64 {
                let draft = Draft::new(kind, rate, phase, out.random.octets(n));
                let chips = draft.with_clock(out.random.once_in(2)).chips();
                let room = n + out.random.pick(&[0, 0, 1, 9]);
                let size = out.random.pick(&[1.0, 1.0, 0.5, 8.0, 3.3, 0.002, 0.01]);
                if out.long || n % 4 == usize::from(phase) {
                    out.call(Call::soft(kind.number(), soft_rows(&chips, size), room));
                }
                // From a byte of 1 to clipped ones.
                let size = out.random.pick(&[1.0, 1.0, 0.5, 0.016, 0.047, 1.99, 2.0]);
                if out.long || n % 4 == usize::from(3 - phase) {
                    out.call(Call::bytes(kind.number(), byte_row(&chips, size), room));
                }
                out.call(Call::hard(kind.number(), chips, room));
            }
        }
        for octet in 0..=255 {
            let draft = Draft::new(kind, rate, out.random.phase(), vec![octet]);
            let chips = draft.with_clock(out.random.once_in(2)).chips();
            out.hard_and_bytes(4, kind.number(), chips, 1);
        }
    }
}

pub fn read_long_payloads(out: &mut Out) {
    for (kind, rate) in pairs() {
        for n in [1023, 1024, 1025, 1026, 4095] {
            let chips = Draft::random(kind, rate, n, &mut out.random).chips();
            for (recorder, spare) in [(Recorder::Soft, 0), (Recorder::Bytes, 1), (Recorder::Hard, 3)] {
                out.call(recorder.reading(kind.number(), chips.clone(), n + spare));
            }
        }
        let chips = Draft::random(kind, rate, 4095, &mut out.random).chips();
        for recorder in [Recorder::Hard, Recorder::Bytes] {
            out.call(recorder.reading(kind.number(), chips.clone(), 4094));
            out.call(recorder.reading(kind.number(), chips[..chips.len() - 1].to_vec(), 4095));
        }
    }
}

pub fn read_rooms(out: &mut Out) {
    for (kind, rate) in pairs() {
        for n in [1, 2, 3, 7, 16] {
            let frames = Draft::random(kind, rate, n, &mut out.random).both_clocks();
            // Rooms that are below n in their lowest octet or 16 bits are long enough.
            for room in (0..=n + 3).chain([255, 256, 4095, 4096, 65_535, 65_536]) {
                let chips = out.random.one_of(&frames).clone();
                out.call(Call::hard(kind.number(), chips, room));
            }
            let far = if n == 3 { far_size(&mut out.random) } else { n };
            for room in [0, n - 1, n, n + 1, 256, 5000, far] {
                let chips = out.random.one_of(&frames);
                out.call(Recorder::Soft.reading(kind.number(), chips.clone(), room));
                out.call(Recorder::Bytes.reading(kind.number(), chips.clone(), room));
            }
        }
    }
}

/// Recordings whose length, in chips or in bytes, is below the frame's in its lowest 16 bits.
fn short_in_16_bits(out: &mut Out) {
    for (kind, rate) in pairs() {
        let mut chips = Draft::random(kind, rate, 2, &mut out.random).chips();
        let more = out.random.below(1000);
        for (recorder, len) in [(Recorder::Bytes, 1 << 15), (Recorder::Bytes, 1 << 16), (Recorder::Hard, 1 << 16)] {
            chips.resize(len + more, 9);
            out.call(recorder.reading(kind.number(), chips.clone(), 2));
        }
    }
}

/// Soft recordings of a size about 2^16, 2^20 or 2^24.
fn far_soft(out: &mut Out) {
    for _ in 0..out.cases(3) {
        let (kind, rate) = any_pair(&mut out.random);
        let (mut i, mut q) = soft_rows(&Draft::random(kind, rate, 4, &mut out.random).chips(), 1.0);
        let len = far_size(&mut out.random);
        i.resize(len, 0.0);
        q.resize(len, 0.0);
        out.call(Call::soft(kind.number(), (i, q), 4));
    }
}

pub fn chips_after_the_frame(out: &mut Out) {
    for _ in 0..out.cases(1100) {
        let (kind, rate) = any_pair(&mut out.random);
        let n = out.random.within(1, 8);
        let mut chips = Draft::random(kind, rate, n, &mut out.random).chips();
        let after = out.random.within(1, 40);
        match out.random.pick(&Recorder::HARD_TWICE) {
            Recorder::Hard => {
                chips.extend(out.random.octets(after));
                if out.random.once_in(50) {
                    chips.resize(far_size(&mut out.random), 0);
                }
                out.call(Call::hard(kind.number(), chips, n));
            }
            Recorder::Soft => {
                let (mut i, mut q) = soft_rows(&chips, 1.0);
                for _ in 0..after {
                    i.push(out.random.pick(&[f32::NAN, f32::INFINITY, 9.0, -8.5, 1.0, 0.0]));
                    q.push(out.random.pick(&[f32::NAN, f32::NEG_INFINITY, 1.0, -1.0, 0.0]));
                }
                out.call(Call::soft(kind.number(), (i, q), n));
            }
            Recorder::Bytes => {
                let mut bytes = byte_row(&chips, 1.0);
                bytes.extend((0..2 * after).map(|_| out.random.byte()));
                if out.random.once_in(50) {
                    bytes.resize(2 * far_size(&mut out.random), 0);
                }
                out.call(Call::bytes(kind.number(), bytes, n));
            }
        }
    }
    short_in_16_bits(out);
    far_soft(out);
}
