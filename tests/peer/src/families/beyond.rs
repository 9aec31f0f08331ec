//! One symbol beyond the limits, all others of the frame within them; and words as they were sent, with no other near.

use super::report::shuffle;
use super::spoiled::{written, Spoiler};
use super::{Draft, Out};
use crate::bits::Rate;
use crate::calls::Call;
use crate::chips::{growth, turned, Phase, LOST};
use crate::frame::Kind;
use crate::random::Random;
use crate::spoiling::{barker_ways, cck_patterns, cck_patterns_within, limit, spoil, word_of, Pattern};
use crate::symbols::{ALLOWED_11, ALLOWED_5_5};

/// The first five chips a quarter of a turn back, the sixth lost.
const BACK: Pattern<11> = [3, 3, 3, 3, 3, LOST, 0, 0, 0, 0, 0];

/// A frame of one octet with a word in the symbol of its payload at a place, which one of the 256 octets has.
fn with_word(rate: Rate, word: u8, at: usize, random: &mut Random) -> Draft {
    let draft = Draft::random(random.pick(&Kind::BOTH), rate, 1, random);
    let (first, place) = (random.below(256) as u8, draft.kind.front_chips() + 8 * at);
    let of_octet = |more: u8| Draft { payload: vec![first.wrapping_add(more)], ..draft.clone() };
    let sent = |draft: &Draft| word_of(draft.chips()[place..place + 8].try_into().expect("a CCK symbol"));
    (0..=255).map(of_octet).find(|draft| sent(draft) == word).expect("each allowed word is one of an octet")
}

/// Frames with a word in a symbol of the payload that is spoiled by each of these patterns, a new frame for every few
/// of them; all other symbols are spoiled within the limits, or are as sent if there is no spoiler.
fn each_pattern(out: &mut Out, mut spoiler: Option<&mut Spoiler>, rate: Rate, word: u8, patterns: &[Pattern<8>]) {
    for some in patterns.chunks(60) {
        let at = out.random.below(8 / rate.bits_per_symbol());
        let draft = with_word(rate, word, at, &mut out.random);
        let sent = written(out, &draft);
        let mut chips = sent.clone();
        if let Some(spoiler) = spoiler.as_deref_mut() {
            spoiler.frame(draft.kind, rate, &mut chips, &mut out.random);
        }
        let place = draft.kind.front_chips() + 8 * at;
        for (case, pattern) in some.iter().enumerate() {
            chips[place..place + 8].copy_from_slice(&sent[place..place + 8]);
            spoil(pattern, &mut chips[place..place + 8]);
            let reading = Call::hard(draft.kind.number(), chips.clone(), 1);
            if case % 20 == 0 {
                out.call(reading);
            } else {
                out.alone(reading);
            }
        }
    }
}

/// Each pattern that is one beyond the limit, on each word of 5.5 Mbit/s.
pub fn beyond_five(out: &mut Out) {
    let mut spoiler = Spoiler::new(&mut out.random);
    let beyond = cck_patterns(limit(Rate::Mbit5_5) + 1);
    for (word, _) in ALLOWED_5_5 {
        each_pattern(out, Some(&mut spoiler), Rate::Mbit5_5, word, &beyond);
    }
}

/// Words of 11 Mbit/s with a few patterns each that are one beyond the limit or more; word (0, 1, 0, 0) with every
/// second chip lost among them.
pub fn beyond_eleven(out: &mut Out) {
    let mut spoiler = Spoiler::new(&mut out.random);
    each_pattern(out, Some(&mut spoiler), Rate::Mbit11, 16, &[[LOST, 0, LOST, 0, LOST, 0, LOST, 0]]);
    let beyond: Vec<Vec<Pattern<8>>> = (4..8).map(cck_patterns).collect();
    for (word, _) in ALLOWED_11 {
        let some = [0, 0, 0, 1, 2, 3].map(|more: usize| out.random.pick(&beyond[more]));
        each_pattern(out, Some(&mut spoiler), Rate::Mbit11, word, &some);
    }
}

/// A frame with a Barker symbol of a phase in its payload, spoiled by a pattern, all others within the limits.
fn barker_beyond(out: &mut Out, spoiler: &mut Spoiler, rate: Rate, phase: Phase, pattern: &Pattern<11>) {
    let kind = if rate == Rate::Mbit1 { Kind::Long } else { out.random.pick(&Kind::BOTH) };
    let n = out.random.within(1, 4);
    let draft = Draft::random(kind, rate, n, &mut out.random);
    let place = kind.front_chips() + 11 * out.random.below(8 * n / rate.bits_per_symbol());
    // Turned as a whole, the frame has the phase at this symbol.
    let turn = growth(draft.chips()[place], phase);
    let draft = Draft { phase: turned(draft.phase, turn), ..draft };
    let sent = written(out, &draft);
    let mut chips = sent.clone();
    spoiler.frame(kind, rate, &mut chips, &mut out.random);
    chips[place..place + 11].copy_from_slice(&sent[place..place + 11]);
    spoil(pattern, &mut chips[place..place + 11]);
    out.call(Call::hard(kind.number(), chips, n));
}

/// Barker symbols of each phase in each way that is one beyond the limit, at any places; and with the first five chips
/// a quarter of a turn back and the sixth lost.
pub fn beyond_barker(out: &mut Out) {
    let mut spoiler = Spoiler::new(&mut out.random);
    for rate in [Rate::Mbit1, Rate::Mbit2] {
        for phase in 0..4 {
            barker_beyond(out, &mut spoiler, rate, phase, &BACK);
            for way in barker_ways(limit(rate) + 1) {
                let mut pattern = way.pattern();
                shuffle(&mut pattern, &mut out.random);
                barker_beyond(out, &mut spoiler, rate, phase, &pattern);
            }
        }
    }
}

/// Each word of 11 Mbit/s as it was sent: the lead tells the next word's score.
pub fn words_apart(out: &mut Out) {
    for kind in Kind::BOTH {
        // Behind one front, each octet is another word.
        let phase = out.random.phase();
        for octet in 0..=255 {
            let draft = Draft::new(kind, Rate::Mbit11, phase, vec![octet]);
            let chips = written(out, &draft.with_clock(kind == Kind::Short));
            out.alone(Call::hard(kind.number(), chips, 1));
        }
    }
}

/// A symbol of a payload spoiled within its limit and nothing else: the smallest lead is that symbol's own. Each
/// pattern on each word of 5.5 Mbit/s; of 11 Mbit/s a few on each word, and all in the longer run.
pub fn spoiled_leads(out: &mut Out) {
    let within = cck_patterns_within();
    for (word, _) in ALLOWED_5_5 {
        each_pattern(out, None, Rate::Mbit5_5, word, &within);
    }
    for (word, _) in ALLOWED_11 {
        let few: Vec<Pattern<8>> = (0..6).map(|_| out.random.pick(&within)).collect();
        each_pattern(out, None, Rate::Mbit11, word, if out.long { &within } else { &few });
    }
}

/// Each symbol of a front beyond its limit, all others within theirs: phase 2 with all chips lost, which is decided as
/// its opposite, and phase 1 in the other way, which is decided as a quarter back. SFD and header then differ or a
/// growth is odd, and nothing is put right by what was expected.
pub fn beyond_front(out: &mut Out) {
    let mut spoiler = Spoiler::new(&mut out.random);
    for kind in Kind::BOTH {
        for place in (0..kind.front_chips()).step_by(11) {
            for (phase, pattern) in [(2, [LOST; 11]), (1, BACK)] {
                let draft = Draft::random(kind, Rate::Mbit11, 2, &mut out.random);
                let turn = growth(draft.chips()[place], phase);
                let sent = written(out, &Draft { phase: turned(draft.phase, turn), ..draft });
                let mut chips = sent.clone();
                spoiler.frame(kind, Rate::Mbit11, &mut chips, &mut out.random);
                chips[place..place + 11].copy_from_slice(&sent[place..place + 11]);
                spoil(&pattern, &mut chips[place..place + 11]);
                out.call(Call::hard(kind.number(), chips, 2));
            }
        }
    }
}
