//! How the symbols of 11 Mbit/s in good reads were decided: by how many words that share the largest score, by which of
//! their phases, and by how little.

use crate::bits::Rate;
use crate::calls::{Answer, Call};
use crate::chips::{Counts, Phase, Recording};
use crate::symbols::{cck_phases, scores, ALLOWED_11};
use std::collections::BTreeMap;

/// What is counted of a symbol; phases are 1 to 4.
#[derive(Clone, Copy, PartialEq, Eq, PartialOrd, Ord)]
pub enum Decided {
    /// So many words share the largest score, two or more.
    Among(usize),
    /// In this phase the chosen word is smaller than all others that share it, and before it they are alike.
    ByPhase(usize),
    /// One that shares it differs from the chosen word in this phase alone.
    ApartIn(usize),
    /// One that shares it is larger than the chosen word in the first of these phases, before which they are alike, and
    /// smaller in the second.
    Against(usize, usize),
    /// Words share it in the symbol at this place among 64.
    At(usize),
    /// Words share it in a symbol of the recorder's largest values, of either sign, and zeros.
    OfEnds,
    /// One word alone has it, and one that scores less by a step of one value has the smaller number, or the larger.
    Beside { smaller: bool },
}

/// How often each was seen of each op.
pub type Seen = BTreeMap<(&'static str, Decided), u64>;

/// Counts how the symbols of a good read were decided, by what is expected of it.
pub fn count(call: &Call, expected: &Answer, seen: &mut Seen) {
    let Some(recording) = call.recording() else { return };
    let [0, _, rate, _, n, used, ..] = expected.numbers[..] else { return };
    if rate != u64::from(Rate::Mbit11.code()) {
        return;
    }
    let (start, scale) = ((used - 8 * n) as usize, scale(&recording));
    for symbol in 0..n as usize {
        let chip = |k: usize| recording.chip(start + 8 * symbol + k).map_or((0, 0), |chip| chip.counts());
        let chips = [0, 1, 2, 3, 4, 5, 6, 7].map(chip);
        count_symbol(symbol, &chips, &scale, |what| *seen.entry((call.op(), what)).or_default() += 1);
    }
}

/// A recorder's smallest step and its ends, in counts.
struct Scale {
    step: i32,
    least: i32,
    most: i32,
}

fn scale(recording: &Recording) -> Scale {
    match recording {
        Recording::Hard(_) => Scale { step: 1024, least: -1024, most: 1024 },
        Recording::Soft(..) => Scale { step: 1, least: -8 * 1024, most: 8 * 1024 },
        Recording::Bytes(_) => Scale { step: 16, least: -128 * 16, most: 127 * 16 },
    }
}

fn phases(word: u8) -> [Phase; 4] {
    let (p1, p2, p3, p4) = cck_phases(word);
    [p1, p2, p3, p4]
}

fn count_symbol(symbol: usize, chips: &[Counts; 8], scale: &Scale, mut see: impl FnMut(Decided)) {
    let all: Vec<(u8, i32)> = scores(&ALLOWED_11, chips).collect();
    let most = all.iter().map(|(_, score)| *score).max().expect("256 words");
    let of_score = |score: i32| all.iter().filter(move |(_, other)| *other == score).map(|(word, _)| phases(*word));
    let words: Vec<[Phase; 4]> = of_score(most).collect();
    if words.len() == 1 {
        for smaller in [false, true] {
            if of_score(most - scale.step).any(|word| (word < words[0]) == smaller) {
                see(Decided::Beside { smaller });
            }
        }
        return;
    }
    see(Decided::Among(words.len()));
    see(Decided::At(symbol % 64));
    let at_end = |x: i32| [scale.least, 0, scale.most].contains(&x);
    if most > 0 && chips.iter().all(|(i, q)| at_end(*i) && at_end(*q)) {
        see(Decided::OfEnds);
    }
    (0..4).for_each(|phase| count_phase(phase, words[0], &words[1..], &mut see));
}

/// What is counted of a phase, 0 being p1, in which a word is chosen before others of the same score.
fn count_phase(phase: usize, chosen: [Phase; 4], others: &[[Phase; 4]], see: &mut impl FnMut(Decided)) {
    let behind = |word: &&[Phase; 4]| word[..phase] == chosen[..phase] && word[phase] > chosen[phase];
    if others.iter().all(|word| behind(&word)) {
        see(Decided::ByPhase(phase + 1));
    }
    if others.iter().filter(behind).any(|word| word[phase + 1..] == chosen[phase + 1..]) {
        see(Decided::ApartIn(phase + 1));
    }
    for second in phase + 1..4 {
        if others.iter().filter(behind).any(|word| word[second] < chosen[second]) {
            see(Decided::Against(phase + 1, second + 1));
        }
    }
}
