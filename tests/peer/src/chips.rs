//! # Chips
//!
//! Phases, recorded chips, when a chip is unusable, and the signed counts that every choice is made from.

/// A whole number 0 to 3 of quarter turns counter-clockwise.
pub type Phase = u8;

/// The sum of two phases, modulo 4.
pub fn turned(phase: Phase, by: Phase) -> Phase {
    (phase + by) % 4
}

/// How much the phase grew from one symbol to the next, modulo 4.
pub fn growth(before: Phase, after: Phase) -> Phase {
    (after + 4 - before) % 4
}

/// The mark for no chip. It also fills a lent chip buffer past the frame, and all of it on a refusal.
pub const LOST: u8 = 4;

/// A recorded chip is one of four things.
#[derive(Clone, Copy)]
pub enum Chip {
    Soft { i: f32, q: f32 },
    Bytes { i: i8, q: i8 },
    Hard(Phase),
    Lost,
}

/// A signed count for I and one for Q.
pub type Counts = (i32, i32);

impl Chip {
    /// A full chip is 1, or 64 in bytes: 1024 counts. A byte counts 16 times itself, -128 too. A lost chip counts as
    /// (0, 0).
    pub fn counts(self) -> Counts {
        match self {
            Chip::Soft { i, q } => (count(i), count(q)),
            Chip::Bytes { i, q } => (16 * i32::from(i), 16 * i32::from(q)),
            Chip::Hard(0) => (1024, 0),
            Chip::Hard(1) => (0, 1024),
            Chip::Hard(2) => (-1024, 0),
            Chip::Hard(_) => (0, -1024),
            Chip::Lost => (0, 0),
        }
    }
}

/// The whole number nearest to 1024 times the exact value of a usable x, ties to the even one.
///
/// A finite f32 is m · 2^(e - 150) with m below 2^24, so the product is m / 2^(140 - e): whole-number arithmetic.
pub fn count(x: f32) -> i32 {
    let bits = x.to_bits();
    let exponent = (bits >> 23) & 0xFF;
    let fraction = u64::from(bits & 0x7F_FFFF);
    let (m, e) = if exponent == 0 { (fraction, 1) } else { (fraction + (1 << 23), exponent) };
    // Usable numbers are at most 8, where e is 130; from 26 places on the product is below a half.
    let places = 140 - e;
    if places >= 26 {
        return 0;
    }
    let (whole, rest, half) = (m >> places, m & ((1 << places) - 1), 1 << (places - 1));
    let up = rest > half || (rest == half && whole % 2 == 1);
    let size = (whole + u64::from(up)) as i32;
    if x.is_sign_negative() {
        -size
    } else {
        size
    }
}

/// A lent recording. Bytes are I and Q in turn, I first. An I without its Q, or a Q without its I, is refused before a
/// chip is looked at.
#[derive(Clone, Copy)]
pub enum Recording<'a> {
    Hard(&'a [u8]),
    Soft(&'a [f32], &'a [f32]),
    Bytes(&'a [i8]),
}

impl Recording<'_> {
    /// Soft rows that differ in length, or an odd number of bytes.
    pub fn unpaired(&self) -> bool {
        match self {
            Recording::Hard(_) => false,
            Recording::Soft(i, q) => i.len() != q.len(),
            Recording::Bytes(bytes) => bytes.len() % 2 == 1,
        }
    }

    pub fn chips(&self) -> usize {
        match self {
            Recording::Hard(octets) => octets.len(),
            Recording::Soft(i, _) => i.len(),
            Recording::Bytes(bytes) => bytes.len() / 2,
        }
    }

    /// The chip at a place, or none if it is unusable; no chip of bytes is.
    pub fn chip(&self, place: usize) -> Option<Chip> {
        match self {
            Recording::Hard(octets) => match octets[place] {
                phase @ 0..=3 => Some(Chip::Hard(phase)),
                LOST => Some(Chip::Lost),
                _ => None,
            },
            Recording::Soft(i, q) => {
                let (i, q) = (i[place], q[place]);
                (usable(i) && usable(q)).then_some(Chip::Soft { i, q })
            }
            Recording::Bytes(bytes) => Some(Chip::Bytes { i: bytes[2 * place], q: bytes[2 * place + 1] }),
        }
    }
}

/// Not a NaN, not an infinity, not above 8 in magnitude; exactly 8 is usable.
fn usable(x: f32) -> bool {
    x.is_finite() && x.abs() <= 8.0
}
