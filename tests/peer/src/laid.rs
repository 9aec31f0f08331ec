//! How the rows of a call are laid, which no answer may hang on: what a lent row held before the call, how a row of
//! length 0 is passed, rows that are one, and a call in the middle of another.

use crate::calls::Call;
use crate::compare_calls::CompareCall;
use crate::random::Random;
use crate::store_calls::StoreCall;
use std::collections::BTreeMap;

/// What a lent row holds before the call. The answer is what the same call has left there; a store, of version 1 or 9,
/// stands there only before the write of one, and with 0xFF behind it.
pub const OLD: [&str; 7] = ["0xAA", "zeros", "4s", "0xFF", "any", "the answer", "a store"];

/// To pick from: for the write of a store, and for the other calls.
const OLD_OF_STORES: [u64; 11] = [0, 1, 2, 3, 4, 5, 6, 6, 6, 6, 6];
const OLD_OF_OTHERS: [u64; 11] = [0, 0, 1, 1, 2, 2, 3, 3, 4, 4, 5];

/// So much further on Q may stand in the memory of I, or, turned round, I in that of Q.
const SHIFTS: [(usize, bool); 3] = [(0, false), (5, false), (5, true)];

/// A word of each request.
#[derive(Clone, Copy)]
pub struct Laid {
    old: u64,
    pointed: bool,
    shared: bool,
    within: bool,
    split: u64,
}

/// What is counted of a call that is laid.
#[derive(Clone, Copy, PartialEq, Eq, PartialOrd, Ord)]
pub enum Laying {
    /// The lent row, of one octet or more, held this.
    Old(usize),
    /// A row of length 0 is passed by a pointer, or as NULL.
    Empty { pointed: bool },
    /// Rows are one, wholly or in part.
    Shared { wholly: bool },
    /// Another call may be made in the middle of this one.
    Within,
    /// A row of 2^k elements or more, for k of 16, 20, 22 and 24; the lent one, or one for reading.
    Wide { bits: u32, lent: bool },
}

/// How often each was met of each op.
pub type Layings = BTreeMap<(&'static str, Laying), u64>;

/// The bits that a length may be cut to.
pub const WIDTHS: [u32; 4] = [16, 20, 22, 24];

impl Laid {
    /// Any, by a sequence of its own, so that what is asked hangs on nothing of it. A find, and a write and a change of
    /// a store, have more to share between calls than others: another is made in the middle of them more often.
    pub fn any(call: &Call, random: &mut Random) -> Laid {
        let of_store = matches!(call, Call::Store(StoreCall::Write { .. }));
        let shares = of_store || matches!(call, Call::Find { .. } | Call::Store(StoreCall::Change { .. }));
        let seldom = if shares { 6 } else { 32 };
        Laid {
            old: random.pick(if of_store { &OLD_OF_STORES } else { &OLD_OF_OTHERS }),
            pointed: random.once_in(2),
            shared: random.once_in(2),
            within: random.once_in(seldom),
            split: random.below(1 << 16) as u64,
        }
    }

    /// The same over a lent row of 0xAA, which no call leaves: what is not written is seen.
    pub fn over_aa(self) -> Laid {
        Laid { old: 0, ..self }
    }

    /// The word for a call.
    pub fn word(&self, call: &Call) -> u64 {
        let (shift, turned) = self.shift(call).unwrap_or((0, false));
        let shared = self.shared && (self.shift(call).is_some() || matches!(call, Call::Report(_)));
        let bits = u64::from(self.pointed) << 8 | u64::from(shared) << 9 | u64::from(self.within) << 10;
        self.old | bits | u64::from(turned) << 11 | self.split << 16 | (shift as u64) << 32
    }

    /// How far from I's first Q stands, or I from Q's, or so the one recording from the other's, if the two can be one
    /// row.
    fn shift(&self, call: &Call) -> Option<(usize, bool)> {
        let fits = |&(shift, turned): &(usize, bool)| match call {
            Call::ReadSoft { i, q, .. } => {
                i.len() == q.len() && overlap(i, q, shift, turned, |one, two| one.to_bits() == two.to_bits())
            }
            Call::Compare(CompareCall { recordings: [a, b], .. }) => {
                overlap(a, b, shift, turned, |one, two| one == two)
            }
            _ => false,
        };
        SHIFTS.into_iter().find(fits).filter(|_| self.shared)
    }

    /// Counts how a call's rows are laid.
    pub fn count(&self, call: &Call, layings: &mut Layings) {
        let mut see = |what: Laying| *layings.entry((call.op(), what)).or_default() += 1;
        let (read, lent) = (call.read_lens(), call.lent_lens());
        if lent.iter().any(|len| *len > 0) && !call.changes() {
            see(Laying::Old(self.old as usize));
        }
        if lent.contains(&0) || read.contains(&0) {
            see(Laying::Empty { pointed: self.pointed });
        }
        if self.shared {
            let wholly = self.shift(call).map(|(shift, _)| shift == 0).or(call.names_a_row_twice());
            wholly.into_iter().for_each(|wholly| see(Laying::Shared { wholly }));
        }
        if self.within {
            see(Laying::Within);
        }
        for bits in WIDTHS {
            let wide = |len: &usize| len >> bits > 0;
            if lent.iter().any(wide) {
                see(Laying::Wide { bits, lent: true });
            }
            if read.iter().any(wide) {
                see(Laying::Wide { bits, lent: false });
            }
        }
    }

    pub fn shown(&self) -> String {
        let (empty, within) = (if self.pointed { "a pointer" } else { "NULL" }, if self.within { "" } else { "no " });
        let old = OLD[self.old as usize];
        format!("lent row: {old}; length 0: {empty}; one row if it can be: {}; {within}call within", self.shared)
    }
}

/// Whether the second row can stand in the first one's memory, so much further on, or, turned round, the first one in
/// the second's: where both have elements they are alike.
fn overlap<T>(first: &[T], second: &[T], shift: usize, turned: bool, alike: impl Fn(&T, &T) -> bool) -> bool {
    let (one, other) = if turned { (second, first) } else { (first, second) };
    one.len() > shift && !other.is_empty() && one[shift..].iter().zip(other).all(|(one, other)| alike(one, other))
}
