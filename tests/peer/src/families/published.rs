//! Calls made from the figures from outside.

use super::{Draft, Out, Recorder};
use crate::bits::Rate;
use crate::calls::Call;
use crate::frame::{Header, Kind};

/// Fronts with the published LENGTH and bit 7 of every n and rate: accepted, so the recording ends inside the payload.
fn lengths(out: &mut Out) {
    let figures = out.figures;
    for figure in figures.lengths_1023_to_1026.iter().chain(&figures.lengths_of_every_n) {
        let (signal, service) = (figure.rate.code(), if figure.bit7 { 128 } else { 0 });
        let header = Header { signal, service, length: figure.length as u16 };
        for kind in Kind::BOTH.into_iter().filter(|kind| kind.has(figure.rate)) {
            if kind == Kind::Short || figure.rate == Rate::Mbit1 || out.long {
                let front = Draft::new(kind, figure.rate, 0, vec![]).with_header(header).front();
                // The front alone of most: fronts and full reads go together elsewhere.
                if out.long || figure.n % 8 == 0 {
                    out.call(Call::hard(kind.number(), front, 0));
                } else {
                    out.alone(Call::front(kind.number(), front));
                }
            }
        }
    }
}

/// Such fronts, then headers with the published CRCs, and payloads of the published symbols at each turn.
pub fn published_figures(out: &mut Out) {
    lengths(out);
    let figures = out.figures;
    for figure in figures.crc_example.iter().chain(&figures.crc_genibus).filter(|figure| figure.bits.len() == 32) {
        for kind in Kind::BOTH {
            for phase in 0..4 {
                let mut draft = Draft::new(kind, Rate::Mbit11, phase, vec![]);
                (draft.header, draft.crc) = (Header::of_bits(&figure.bits), figure.crc);
                out.hard_and_bytes(4, kind.number(), draft.front(), 4);
            }
        }
    }
    for figure in &figures.scrambled {
        if let Some((rate, payload)) = &figure.frame {
            let chips = Draft::new(figure.kind, *rate, 0, payload.clone()).chips();
            let (kind, n) = (figure.kind.number(), payload.len());
            out.call(Call::write(kind, u64::from(rate.code()), 0, 0, payload.clone(), chips.len()));
            for recorder in Recorder::ALL {
                out.call(recorder.reading(kind, chips.clone(), n));
            }
        }
    }
    let words: Vec<&[u8]> = figures.cck_words.iter().map(|figure| figure.chips.as_slice()).collect();
    let symbols: Vec<u8> = figures.barker_negated.iter().flat_map(|(_, chips)| chips.clone()).collect();
    for kind in Kind::BOTH {
        for phase in 0..4 {
            for word in &words {
                payload_of(out, kind, Rate::Mbit11, phase, word);
                payload_of(out, kind, Rate::Mbit5_5, phase, &[*word, *word].concat());
            }
            payload_of(out, kind, Rate::Mbit2, phase, &symbols);
        }
    }
}

/// One octet whose payload chips are given.
fn payload_of(out: &mut Out, kind: Kind, rate: Rate, phase: u8, payload_chips: &[u8]) {
    let mut chips = Draft::new(kind, rate, phase, vec![0]).chips();
    chips.truncate(kind.front_chips());
    chips.extend(payload_chips);
    for recorder in Recorder::ALL {
        out.call(recorder.reading(kind.number(), chips.clone(), 1));
    }
}
