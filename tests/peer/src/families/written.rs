//! Writing.

use super::widths::far_size;
use super::{any_clock, any_pair, pairs, Out, CLOCKS, KINDS};
use crate::bits::Rate;
use crate::calls::Call;
use crate::frame::Kind;
use crate::random::Random;

pub fn frame_len(kind: Kind, rate: Rate, n: usize) -> usize {
    kind.front_chips() + rate.payload_chips(n)
}

/// A write with no clock or any.
fn write(out: &mut Out, kind: Kind, rate: Rate, phase: u64, payload: Vec<u8>, chips_len: usize) {
    let clock = any_clock(&mut out.random);
    out.call(Call::write(kind.number(), u64::from(rate.code()), phase, clock, payload, chips_len));
}

fn good_write(out: &mut Out, kind: Kind, rate: Rate, phase: u8, payload: Vec<u8>, spare: usize) {
    let chips_len = frame_len(kind, rate, payload.len()) + spare;
    write(out, kind, rate, u64::from(phase), payload, chips_len);
}

pub fn write_short_payloads(out: &mut Out) {
    for (kind, rate) in pairs() {
        for phase in 0..4 {
            for n in 1..=64 {
                let payload = out.random.octets(n);
                let spare = out.random.pick(&[0, 0, 1, 7, 100]);
                good_write(out, kind, rate, phase, payload, spare);
            }
            for octet in [0x00, 0xFF, 0x55, 0xAA, 0x01, 0x80] {
                good_write(out, kind, rate, phase, vec![octet; 16], 3);
            }
        }
        // Each octet alone, so that every group of bits passes through every symbol.
        for octet in 0..=255 {
            let phase = out.random.phase();
            good_write(out, kind, rate, phase, vec![octet], 0);
        }
    }
}

pub fn write_long_payloads(out: &mut Out) {
    for (kind, rate) in pairs() {
        for phase in 0..4 {
            for n in [1023, 1024, 1025, 1026, 4095] {
                let payload = out.random.octets(n);
                good_write(out, kind, rate, phase, payload, usize::from(phase));
            }
        }
    }
}

pub fn write_every_n(out: &mut Out) {
    for (kind, rate) in pairs() {
        let step = match (kind, rate) {
            (Kind::Short, Rate::Mbit11) => 1,
            (_, Rate::Mbit11 | Rate::Mbit5_5) => out.step(59),
            _ if out.long => 13,
            _ => 311,
        };
        for n in (1..=4095).step_by(step) {
            let (phase, payload) = (out.random.phase(), out.random.octets(n));
            good_write(out, kind, rate, phase, payload, 0);
        }
    }
}

/// Numbers that are a good one in their lowest octet, 16 or 32 bits, and the largest.
fn beside(good: u64) -> [u64; 8] {
    [good, good + 1, good + (1 << 8), good + (1 << 16), good + (1 << 32), good + (1 << 63), (1 << 32) - 1, u64::MAX]
}

pub fn write_numbers(out: &mut Out) {
    let mut rates = vec![0, 1, 9, 11, 54, 56, 109, 111, 254, 255, 256];
    for rate in Rate::ALL {
        rates.extend(beside(u64::from(rate.code())));
    }
    let phases = [0, 3, 4, 5, 255, 256, 1 << 32, (1 << 32) + 3, u64::MAX];
    for kind in KINDS {
        for rate in &rates {
            for phase in phases {
                // Each refusal of the payload and of the buffer beside the numbers', and neither.
                let good = match (Kind::of_number(kind), Rate::of_code(*rate)) {
                    (Some(kind), Some(rate)) => frame_len(kind, rate, 1),
                    _ => 40,
                };
                for (n, chips_len) in [(1, good), (1, good - 1), (0, good), (0, 0)] {
                    let (clock, payload) = (any_clock(&mut out.random), out.random.octets(n));
                    out.call(Call::write(kind, *rate, phase, clock, payload, chips_len));
                }
                if out.random.once_in(8) {
                    let (clock, chips_len) = (any_clock(&mut out.random), out.random.within(0, 50));
                    out.call(Call::write(kind, *rate, phase, clock, vec![0x3C; 4096], chips_len));
                }
            }
        }
    }
}

/// Buffers of any length around short frames, and about powers of 2.
fn any_buffers(out: &mut Out) {
    for _ in 0..out.cases(600) {
        let (kind, rate) = any_pair(&mut out.random);
        let n = out.random.within(1, 6);
        let frame = frame_len(kind, rate, n);
        let (phase, payload) = (out.random.below(5) as u64, out.random.octets(n));
        let chips_len = match out.random.below(50) {
            0 => far_size(&mut out.random),
            _ => out.random.within(frame - 12, frame + 12),
        };
        write(out, kind, rate, phase, payload, chips_len);
    }
}

pub fn write_edges(out: &mut Out) {
    for (kind, rate) in pairs() {
        for n in [1, 2, 3, 10, 11, 64, 255, 256, 257, 1026] {
            let frame = frame_len(kind, rate, n);
            for chips_len in
                [0, 1, kind.front_chips() - 1, kind.front_chips(), frame - 1, frame, frame + 1, frame + 300]
            {
                let (phase, payload) = (out.random.phase(), out.random.octets(n));
                write(out, kind, rate, u64::from(phase), payload, chips_len);
            }
        }
        for n in [4095, 4096] {
            let frame = frame_len(kind, rate, n);
            for (phase, chips_len) in [(0, frame - 1), (1, frame), (2, frame + 1), (4, frame), (4, 0)] {
                let payload = out.random.octets(n);
                write(out, kind, rate, phase, payload, chips_len);
            }
        }
        // Lengths that are good ones modulo 2^12, 2^13 and 2^16.
        for n in [0, 4097, 4160, 8191, 8192, 8193, 65_535, 65_536, 65_537, 65_600, 69_631] {
            let payload = out.random.octets(n);
            write(out, kind, rate, 1, payload, 4000);
        }
    }
    // Buffers whose length is below the frame's in its lowest 16 bits are long enough.
    for (kind, rate) in pairs() {
        let chips_len = (1 << 16) + out.random.below(1000);
        write(out, kind, rate, 2, vec![0x69; 3], chips_len);
    }
    any_buffers(out);
}

/// A write with the refusals of a set (bit k for refusal k + 1), as far as they go together.
fn refused_write(set: usize, clock: u64, random: &mut Random) -> Call {
    let wrong = |number: usize| set >> (number - 1) & 1 == 1;
    let (kind, rate) = if wrong(3) { (Kind::Short, Rate::Mbit1) } else { any_pair(random) };
    let n = if wrong(4) { random.pick(&[0, 4096]) } else { random.within(1, 12) };
    let frame = frame_len(kind, rate, n);
    let number = if wrong(1) { random.pick(&[2, 256, u64::MAX]) } else { kind.number() };
    let code = if wrong(2) { random.pick(&[0, 4, 111, 266]) } else { u64::from(rate.code()) };
    let phase = if wrong(5) { random.pick(&[4, 256, 1 << 40]) } else { u64::from(random.phase()) };
    let chips_len = if wrong(6) { random.pick(&[0, frame - 1]) } else { frame + random.below(3) };
    Call::write(number, code, phase, clock, random.octets(n), chips_len)
}

pub fn write_clocks(out: &mut Out) {
    for (kind, rate) in pairs() {
        // At 11 Mbit/s bit 7 is 1 for 3 and 10 octets, 0 for 1 and 11.
        let each = |clock| (0..4).flat_map(move |phase| [1, 3, 10, 11].map(|n| (phase, clock, n)));
        let of_one_bit = (0..64).map(|bit| (bit % 4, 1 << bit, 2));
        for (phase, clock, n) in CLOCKS.into_iter().flat_map(each).chain(of_one_bit) {
            let chips_len = frame_len(kind, rate, n) + out.random.below(2);
            let payload = out.random.octets(n);
            out.call(Call::write(kind.number(), u64::from(rate.code()), phase, clock, payload, chips_len));
        }
    }
    for set in 1..1 << 6 {
        for clock in CLOCKS {
            let call = refused_write(set, clock, &mut out.random);
            out.call(call);
        }
    }
}
