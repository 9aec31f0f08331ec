//! Writing: from payload octets to chips, with its refusals in their order.

use crate::bits::Rate;
use crate::chips::{Phase, LOST};
use crate::frame::{frame_chips, front_bits, Header, Kind};
use crate::refusals;

/// The answer of a write: the refusal's number or 0, and the chips written (the frame's) or 0.
#[derive(Default, PartialEq, Eq, Debug)]
pub struct Written {
    pub number: u64,
    pub chips: u64,
}

/// A good write leaves 4s past the frame, a refusal leaves the chip buffer all 4s.
pub fn write(kind: u64, rate: u64, phase: u64, clock: u64, payload: &[u8], chips: &mut [u8]) -> Written {
    chips.fill(LOST);
    match frame_of(kind, rate, phase, clock, payload, chips.len()) {
        Ok(frame) => {
            chips[..frame.len()].copy_from_slice(&frame);
            Written { number: 0, chips: frame.len() as u64 }
        }
        Err(number) => Written { number, chips: 0 },
    }
}

fn frame_of(kind: u64, rate: u64, phase: u64, clock: u64, payload: &[u8], room: usize) -> Result<Vec<Phase>, u64> {
    let kind = Kind::of_number(kind).ok_or(refusals::KIND)?;
    let rate = Rate::of_code(rate).ok_or(refusals::RATE)?;
    if !kind.has(rate) {
        return Err(refusals::SHORT_AT_10);
    }
    if payload.is_empty() || payload.len() > refusals::MOST_OCTETS {
        return Err(refusals::PAYLOAD);
    }
    if phase > 3 {
        return Err(refusals::PHASE);
    }
    if room < kind.front_chips() + rate.payload_chips(payload.len()) {
        return Err(refusals::CHIP_BUFFER);
    }
    // A yes or no is 0 for no, any other number for yes.
    let header = Header::written(rate, payload.len(), clock != 0);
    let front = front_bits(&kind.sync(), kind.sfd(), &header, header.crc());
    Ok(frame_chips(kind, rate, phase as Phase, &front, payload))
}
