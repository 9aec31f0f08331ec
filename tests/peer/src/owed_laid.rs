//! What a whole run owes of how rows are laid: each of what a lent row can hold before the call, rows of length 0 by a
//! pointer and as NULL, rows that are one, calls in the middle of others, and rows of 2^16 elements and more.

use crate::bridge::Outcome;
use crate::laid::{Laying, OLD, WIDTHS};
use crate::owed::{ways, Way};

/// How often each must be met of an op: each of what a lent row can hold, the last of them only before a store's write;
/// rows of length 0, each way; a call in the middle; rows of each width for reading, and lent ones. A 0 stands where
/// there is no such row.
struct Owed {
    op: &'static str,
    old: u64,
    empty: u64,
    within: u64,
    wide: u64,
    wide_lent: u64,
}

const fn owed(op: &'static str, [old, empty, within, wide, wide_lent]: [u64; 5]) -> Owed {
    Owed { op, old, empty, within, wide, wide_lent }
}

const OWED: [Owed; 15] = [
    owed("write", [2_000, 2_000, 700, 2, 2]),
    owed("read hard", [3_000, 2_000, 1_500, 1, 1]),
    owed("read soft", [1_000, 600, 500, 2, 1]),
    owed("read bytes", [1_000, 600, 500, 2, 1]),
    owed("read front", [0, 50, 1_500, 1, 0]),
    owed("find", [0, 20, 300, 1, 0]),
    owed("why", [0, 400, 3_900, 10, 0]),
    owed("compare", [1_000, 3_800, 350, 1, 4]),
    owed("read 1997", [870, 440, 360, 4, 1]),
    owed("report add", [0, 200, 100, 1, 0]),
    owed("report list", [0, 20, 5, 3, 0]),
    owed("report text", [100, 10, 50, 0, 1]),
    owed("store write", [250, 5, 500, 0, 2]),
    owed("store read", [0, 2, 1_150, 2, 0]),
    owed("store change", [0, 2, 3_100, 1, 1]),
];

/// How often rows must be one, wholly and in part.
const SHARED: [(&str, u64, u64); 3] = [("read soft", 12, 12), ("compare", 440, 110), ("report list", 4, 8)];

/// Shows how often rows were laid in each way; what is short of it.
pub fn laid(total: &Outcome) -> Vec<String> {
    let mut short = Vec::new();
    for Owed { op, old, empty, within, wide, wide_lent } in OWED {
        let count = |what: Laying| total.layings.get(&(op, what)).copied().unwrap_or(0);
        let olds = if op == "store write" { OLD.len() } else { OLD.len() - 1 };
        let mut seen: Vec<Way> = (0..olds).map(|at| (OLD[at], count(Laying::Old(at)), old)).collect();
        seen.push(("no row by NULL", count(Laying::Empty { pointed: false }), empty));
        seen.push(("by a pointer", count(Laying::Empty { pointed: true }), empty));
        seen.push(("a call within", count(Laying::Within), within));
        let each = |lent: bool| WIDTHS.map(|bits| count(Laying::Wide { bits, lent }));
        let rarest = |lent: bool| each(lent).into_iter().min().unwrap_or(0);
        seen.push(("of each width", rarest(false), wide));
        seen.push(("lent of each", rarest(true), wide_lent));
        for (_, wholly, in_part) in SHARED.into_iter().filter(|shared| shared.0 == op) {
            seen.push(("one row", count(Laying::Shared { wholly: true }), wholly));
            seen.push(("in part", count(Laying::Shared { wholly: false }), in_part));
        }
        short.extend(ways(op, "rows as they are laid", &seen));
    }
    short
}
