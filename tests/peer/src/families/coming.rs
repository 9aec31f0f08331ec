//! What is coming in a hard recording, by its front alone, and how full reads of the same recording go with it.

use super::refused::{wrong_reading, ROWS, WRONGS};
use super::{pairs, Draft, Out, Recorder, KINDS};
use crate::bits::Rate;
use crate::calls::Call;
use crate::chips::LOST;
use crate::coming::coming;
use std::collections::BTreeSet;

/// Full reads of a recording with room 0, n - 1, n and 4,095, n being what its front tells, and one room more.
fn with_rooms(out: &mut Out, kind: u64, chips: &[u8], room: usize) {
    let n = coming(kind, chips).n as usize;
    let rooms: BTreeSet<usize> = [0, n.saturating_sub(1), n, room, 4095].into_iter().collect();
    for room in rooms {
        out.call(Call::hard(kind, chips.to_vec(), room));
    }
}

pub fn coming_rooms(out: &mut Out) {
    for (kind, rate) in pairs() {
        let (few, many) = (out.random.within(2, 40), out.random.within(301, 600));
        for n in [1, few, many] {
            for mut chips in Draft::random(kind, rate, n, &mut out.random).both_clocks() {
                let (front, frame) = (kind.front_chips(), chips.len());
                with_rooms(out, kind.number(), &chips, n + 1);
                with_rooms(out, kind.number(), &chips[..frame - 1], n);
                chips.extend(out.random.octets(9));
                with_rooms(out, kind.number(), &chips, n);
                chips[out.random.within(front, frame - 1)] = 77;
                with_rooms(out, kind.number(), &chips, n);
            }
        }
    }
    for first in (0..WRONGS).filter(|wrong| *wrong != ROWS) {
        for second in (first..WRONGS).filter(|wrong| *wrong != ROWS) {
            for _ in 0..out.cases(4) {
                let call = wrong_reading(1 << first | 1 << second, Recorder::Hard, &mut out.random);
                if let Call::ReadHard { kind, chips, octets_len } = call {
                    with_rooms(out, kind, &chips, octets_len);
                }
            }
        }
    }
}

pub fn payloads_not_looked_at(out: &mut Out) {
    for (kind, rate) in pairs() {
        let front = kind.front_chips();
        for n in [1, 2] {
            for chips in Draft::random(kind, rate, n, &mut out.random).both_clocks() {
                // Each chip of the payload by itself.
                for place in front..chips.len() {
                    let mut spoiled = chips.clone();
                    spoiled[place] = out.random.pick(&[5, 9, 128, 255, LOST, (spoiled[place] + 1) % 4]);
                    out.call(Call::hard(kind.number(), spoiled, n));
                }
            }
        }
        // All of them at once, by each octet, and by any.
        let (few, many) = (out.random.within(3, 30), out.random.within(301, 600));
        let mut chips = Draft::random(kind, rate, few, &mut out.random).chips();
        for octet in 0..=255 {
            chips[front..].fill(octet);
            out.call(Call::hard(kind.number(), chips.clone(), few));
        }
        for n in [many, 4095] {
            for chips in Draft::random(kind, rate, n, &mut out.random).both_clocks() {
                for after in [0, 0, 1, 5000] {
                    let behind = out.random.octets(chips.len() - front + after);
                    out.call(Call::hard(kind.number(), [&chips[..front], &behind].concat(), n));
                }
            }
        }
    }
}

pub fn coming_every_n(out: &mut Out) {
    for (kind, rate) in pairs() {
        let step = match rate {
            Rate::Mbit1 | Rate::Mbit2 if out.long => 13,
            Rate::Mbit1 => 409,
            Rate::Mbit2 => 211,
            Rate::Mbit5_5 => out.step(29),
            Rate::Mbit11 => out.step(11),
        };
        for n in (1..4095).step_by(step).chain([4094, 4095]) {
            // The payload's chips are zeros, or any one octet: only how many there are counts.
            let octet = if out.random.once_in(8) { out.random.below(256) as u8 } else { 0 };
            let draft = Draft::random(kind, rate, 1, &mut out.random);
            let header = Draft::new(kind, rate, 0, vec![0; n]).with_clock(out.random.once_in(2)).header;
            let frame = kind.front_chips() + rate.payload_chips(n);
            let mut chips = draft.with_header(header).front();
            chips.resize(frame, octet);
            let more = out.random.pick(&[1, 2, 11, 65_536]);
            let short = out.random.within(kind.front_chips(), frame - 1);
            for len in [frame, frame - 1, short, frame + more] {
                chips.resize(len, octet);
                out.call(Call::front(kind.number(), chips.clone()));
            }
        }
    }
}

pub fn coming_any_octets(out: &mut Out) {
    for kind in KINDS {
        for len in [0, 1, 10, 11, 1055, 1056, 1057, 1100, 2111, 2112, 2113, 2200, 5000] {
            for values in [1, 4, 5, 6, 256] {
                let chips: Vec<u8> = (0..len).map(|_| out.random.below(values) as u8).collect();
                out.call(Call::hard(kind, chips, 20));
            }
            // A good frame of either kind, cut or with octets behind it.
            for (kind_sent, rate) in pairs() {
                let n = out.random.within(1, 30);
                let mut chips = Draft::random(kind_sent, rate, n, &mut out.random).chips();
                chips.truncate(len);
                chips.extend(out.random.octets(len - chips.len()));
                out.call(Call::hard(kind, chips, n));
            }
        }
    }
}
