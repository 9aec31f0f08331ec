//! What a whole run owes of frames that were written and spoiled: every pattern within the limit on every CCK word and
//! every way within it on every Barker symbol, in frames that were read back; frames of each size, room and length of
//! recording; fronts told, found and counted; and what comes of one symbol beyond the limits. Also the figures of the
//! rule itself, by this program's own choices.

use crate::bits::{decide, Rate};
use crate::bridge::Outcome;
use crate::chips::{Chip, Counts, LOST};
use crate::owed::{of_each_pair, ways, Way as Owed};
use crate::relations::Held;
use crate::spoiling::{barker_ways, cck_patterns, cck_patterns_within, limit, spoil, Damage, Pattern, Way};
use crate::spoils::Spoiled::{self, Barker, Beyond, BeyondBarker, Cck, Counted, Found, ReadBack, SameBy, Unusable};
use crate::symbols::{barker, cck, scores, Choice, ALLOWED_11, ALLOWED_5_5};

/// What is owed, by its name.
type Row = (Spoiled, &'static str, u64);

/// How often a frame of each kind and rate must be read back by each full read, without the clock bit and with it.
const READ_BACK: [(&str, u64); 3] = [("read hard", 15), ("read soft", 3), ("read bytes", 3)];

/// Of one rate: a frame of 1, of 2 and of 4,095 octets, one of which every symbol is spoiled, or as far as its limit
/// allows, one led by one full chip; fronts that tell of a whole frame, of one beyond the limits or unusable behind the
/// front, of a cut one; frames counted as one more and in lists.
const OF_EACH_RATE: [u64; 11] = [15, 30, 1, 90, 40, 90, 110, 290, 35, 13, 18];

const READ: [Row; 12] = [
    (Spoiled::LedByOne { rate: 10, front: false }, "led by one chip of the payload at 10", 25),
    (Spoiled::LedByOne { rate: 20, front: false }, "at 20", 65),
    (Spoiled::LedByOne { rate: 110, front: false }, "at 110", 15),
    (Spoiled::MoreRoom, "more room", 150),
    (Spoiled::NoRoom, "less room", 100),
    (Spoiled::Behind { unusable: false }, "chips behind", 60),
    (Spoiled::Behind { unusable: true }, "unusable ones", 65),
    (Spoiled::FarBehind(16), "2^16 behind", 7),
    (Spoiled::FarBehind(20), "2^20", 1),
    (Spoiled::FarBehind(24), "2^24", 1),
    (SameBy("read soft"), "the same by soft", 160),
    (SameBy("read bytes"), "by bytes", 160),
];

const FOUND: [Row; 8] = [
    (Found { early: false }, "where it starts", 250),
    (Found { early: true }, "before", 13),
    (Spoiled::FoundAtLast, "at the last offset", 2),
    (Spoiled::Reasoned { refused: false }, "no reason", 800),
    (Spoiled::Reasoned { refused: true }, "a reason", 700),
    (Spoiled::CountedBehind, "counted with chips behind", 20),
    (Spoiled::CountedUnder(9), "under 9", 5),
    (Spoiled::CountedUnder(16), "under 16", 10),
];

/// The rule's own examples of symbols one beyond the limits that come out otherwise; the last two are of phase 1.
const EXAMPLES: [(Spoiled, &str); 5] = [
    (Beyond { rate: 110, word: 16, pattern: [LOST, 0, LOST, 0, LOST, 0, LOST, 0], other: true }, "11, 4 lost"),
    (Beyond { rate: 55, word: 18, pattern: [LOST, LOST, LOST, LOST, 0, 0, 0, 0], other: true }, "5.5, 4 lost"),
    (Beyond { rate: 55, word: 18, pattern: [2, 2, 0, 0, 0, 0, 0, 0], other: true }, "2 a half turn wrong"),
    (BeyondBarker { rate: 20, phase: 1, way: Way { turned: [0, 0, 0], lost: 11 }, other: true }, "Barker, 11 lost"),
    (BeyondBarker { rate: 20, phase: 1, way: Way { turned: [0, 0, 5], lost: 1 }, other: true }, "5 a quarter back"),
];

/// How many patterns keep a CCK symbol's limit and how many are one beyond it; how many ways of Barker symbols do and
/// are; and how many symbols one beyond it are decided as another word, of all at 5.5 Mbit/s and of all Barker symbols.
const WITHIN: u64 = 285;
const ONE_BEYOND: u64 = 826;
const WAYS_WITHIN: u64 = 196;
const WAYS_BEYOND: u64 = 56;
const FIVE_OTHERWISE: u64 = 864;
const BARKER_OTHERWISE: [u64; 2] = [1_396_607, 7_507_108];

/// What this program decides a spoiled symbol as, by full chips.
fn decided(rate: Rate, sent: &[u8], pattern: &[u8]) -> Choice {
    let mut chips = sent.to_vec();
    spoil(pattern, &mut chips);
    let counts = |chip: &u8| if *chip == LOST { Chip::Lost.counts() } else { Chip::Hard(*chip).counts() };
    decide(rate, &chips.iter().map(counts).collect::<Vec<Counts>>())
}

/// The patterns of a Barker symbol that are of one way: in how many orders eleven chips can be right, turned and lost.
fn patterns_of(way: Way) -> u64 {
    let choose = |of: u64, some: u64| (1..=some).fold(1, |ways, k| ways * (of + 1 - k) / k);
    let each = way.turned.into_iter().chain([way.lost]).map(u64::from);
    each.fold((1, 11), |(ways, left), some| (ways * choose(left, some), left - some)).0
}

/// Whether a symbol is decided as the word sent, with a lead of one full chip or more.
fn as_sent(choice: Choice, word: u8) -> bool {
    choice.number == word && choice.lead >= 1024
}

/// How many CCK symbols of a rate, of all its words spoiled by each of these patterns, are decided as the word sent by
/// one full chip or more, and how many are decided as another word.
fn cck_decided(rate: Rate, patterns: &[Pattern<8>]) -> [u64; 2] {
    let words = if rate == Rate::Mbit11 { &ALLOWED_11[..] } else { &ALLOWED_5_5 };
    let all = || words.iter().flat_map(|word| patterns.iter().map(move |pattern| (word, pattern)));
    let choices: Vec<(u8, Choice)> = all().map(|((word, sent), by)| (*word, decided(rate, sent, by))).collect();
    let sent = choices.iter().filter(|(word, choice)| as_sent(*choice, *word)).count();
    [sent as u64, choices.iter().filter(|(word, choice)| choice.number != *word).count() as u64]
}

/// The same of the patterns of Barker symbols, whose scores go by their ways.
fn barker_decided(ways: &[Way]) -> [u64; 3] {
    let mut counts = [0; 3];
    for (phase, way) in (0..4).flat_map(|phase| ways.iter().map(move |way| (phase, *way))) {
        let choice = decided(Rate::Mbit2, &barker(phase), &way.pattern());
        let seen = [as_sent(choice, phase), choice.number != phase, true];
        (0..3).filter(|at| seen[*at]).for_each(|at| counts[at] += patterns_of(way));
    }
    counts
}

/// The best score of another word on the clean chips of each word of 11 Mbit/s, the largest of all, in counts.
fn nearest() -> i32 {
    let counts = |word: &[u8; 8]| word.map(|phase| Chip::Hard(phase).counts());
    let others = |(number, word): &(u8, [u8; 8])| {
        let all = scores(&ALLOWED_11, &counts(word)).filter(|(other, _)| other != number);
        all.map(|(_, score)| score).max().expect("255 words")
    };
    ALLOWED_11.iter().map(others).max().expect("256 words")
}

/// The figures of the rule by this program's own choices; what differs.
fn own_choices() -> Vec<String> {
    let (within, beyond) = (cck_patterns_within(), cck_patterns(limit(Rate::Mbit5_5) + 1));
    let eleven = cck_decided(Rate::Mbit11, &within);
    let five = cck_decided(Rate::Mbit5_5, &within);
    let five_beyond = cck_decided(Rate::Mbit5_5, &beyond)[1];
    let barkers = barker_decided(&(0..=limit(Rate::Mbit1)).flat_map(barker_ways).collect::<Vec<_>>());
    let barkers_beyond = barker_decided(&barker_ways(limit(Rate::Mbit1) + 1));
    println!("by itself   spoiled symbols        11: {eleven:?}, 5.5: {five:?}, 5.5 one beyond: {five_beyond}");
    println!("by itself   Barker symbols         {barkers:?}, one beyond: {barkers_beyond:?}");
    let examples = [
        (decided(Rate::Mbit11, &cck(0, 1, 0, 0), &[LOST, 0, LOST, 0, LOST, 0, LOST, 0]).number, 0),
        (decided(Rate::Mbit5_5, &cck(0, 1, 0, 2), &[LOST, LOST, LOST, LOST, 0, 0, 0, 0]).number, 16),
        (decided(Rate::Mbit5_5, &cck(0, 1, 0, 2), &[2, 2, 0, 0, 0, 0, 0, 0]).number, 16),
        (decided(Rate::Mbit2, &barker(1), &[LOST; 11]).number, 0),
        (decided(Rate::Mbit2, &barker(1), &[3, 3, 3, 3, 3, LOST, 0, 0, 0, 0, 0]).number, 0),
    ];
    let figures = [
        (examples.iter().all(|(found, number)| found == number), "an example of the rule is decided otherwise"),
        (eleven == [256 * WITHIN, 0], "an 11 Mbit/s symbol within the limit isn't decided as it was sent"),
        (five == [16 * WITHIN, 0], "a 5.5 Mbit/s symbol within the limit isn't decided as it was sent"),
        (five_beyond == FIVE_OTHERWISE, "not 864 symbols of 5.5 Mbit/s one beyond the limit are decided otherwise"),
        (barkers == [barkers[2], 0, barkers[2]], "a Barker symbol within the limit isn't decided as it was sent"),
        (barkers_beyond[1..] == BARKER_OTHERWISE, "other Barker symbols one beyond the limit are decided otherwise"),
        (nearest() == 4 * 1024, "another word of 11 Mbit/s comes nearer to a clean one than 4 full chips"),
    ];
    figures.into_iter().filter(|(right, _)| !right).map(|(_, fault)| fault.to_string()).collect()
}

/// How many of something were seen at least once.
fn seen_of(total: &Outcome, is: impl Fn(Spoiled) -> bool) -> u64 {
    let spoils = total.held.keys().filter_map(|held| if let Held::Spoils(spoil) = held { Some(*spoil) } else { None });
    spoils.filter(|spoil| is(*spoil)).count() as u64
}

/// Whether a symbol is just one beyond its limit.
fn one_beyond(spoil: Spoiled) -> bool {
    match spoil {
        Beyond { pattern, .. } => Damage::of(&[0; 8], &pattern).weight() == limit(Rate::Mbit11) + 1,
        BeyondBarker { way, .. } => Damage::of(&[0; 11], &way.pattern()).weight() == limit(Rate::Mbit1) + 1,
        _ => false,
    }
}

/// Symbols within the limits and one beyond them, each by what became of it: just so many are there.
fn all_symbols(total: &Outcome) -> Vec<Owed> {
    let cck = |of: u64| seen_of(total, |spoil| matches!(spoil, Cck { rate, .. } if rate == of));
    let of_five = |spoil: Spoiled, came: bool| matches!(spoil, Beyond { rate: 55, other, .. } if other == came);
    let beyond = |came: bool| seen_of(total, |spoil| one_beyond(spoil) && of_five(spoil, came));
    let of_barker = |spoil: Spoiled, of: u64| matches!(spoil, BeyondBarker { rate, .. } if rate == of);
    let barkers = |of: u64| seen_of(total, |spoil| one_beyond(spoil) && of_barker(spoil, of));
    vec![
        ("each pattern on each word of 11", cck(110), 256 * WITHIN),
        ("of 5.5", cck(55), 16 * WITHIN),
        ("each way of a Barker symbol", seen_of(total, |spoil| matches!(spoil, Barker { .. })), 4 * WAYS_WITHIN),
        ("each word apart", seen_of(total, |spoil| matches!(spoil, Spoiled::Apart { .. })), 256),
        ("one beyond of 5.5, another word", beyond(true), FIVE_OTHERWISE),
        ("the same", beyond(false), 16 * ONE_BEYOND - FIVE_OTHERWISE),
        ("each way one beyond at 1", barkers(10), 4 * WAYS_BEYOND),
        ("at 2", barkers(20), 4 * WAYS_BEYOND),
    ]
}

/// Payloads that came out otherwise, by one symbol alone that is beyond the limits, and such that did not.
fn otherwise(total: &Outcome) -> Vec<Owed> {
    let eleven = |came: bool| seen_of(total, |spoil| matches!(spoil, Beyond { rate: 110, other, .. } if other == came));
    let barkers = |of: u64, came: bool| {
        seen_of(total, |spoil| matches!(spoil, BeyondBarker { rate, other, .. } if (rate, other) == (of, came)))
    };
    vec![
        ("another word of 11", eleven(true), 1_100),
        ("the same", eleven(false), 400),
        ("another phase at 1", barkers(10, true), 78),
        ("the same", barkers(10, false), 146),
        ("another phase at 2", barkers(20, true), 78),
        ("the same", barkers(20, false), 146),
    ]
}

/// The rarest of each sort among the rates.
fn of_each_rate(count: &impl Fn(Spoiled) -> u64) -> Vec<Owed> {
    let rarest =
        |of: &dyn Fn(u64) -> Spoiled| Rate::ALL.map(|rate| count(of(u64::from(rate.code())))).into_iter().min();
    let sorts: [(&'static str, &dyn Fn(u64) -> Spoiled); 11] = [
        ("1 octet", &|rate| Spoiled::Of { rate, n: 1 }),
        ("2", &|rate| Spoiled::Of { rate, n: 2 }),
        ("4,095", &|rate| Spoiled::Of { rate, n: 4095 }),
        ("each symbol spoiled", &|rate| Spoiled::EachSpoiled { rate }),
        ("at its limit", &|rate| Spoiled::EachAtLimit { rate }),
        ("led by one chip", &|rate| Spoiled::LedByOne { rate, front: true }),
        ("told", &|rate| Spoiled::Told { rate }),
        ("beyond behind the front", &|rate| Spoiled::ToldBeyond { rate }),
        ("cut", &|rate| Spoiled::ToldCut { rate }),
        ("one more", &|rate| Counted { listed: false, rate }),
        ("listed", &|rate| Counted { listed: true, rate }),
    ];
    sorts.into_iter().zip(OF_EACH_RATE).map(|((shown, of), least)| (shown, rarest(of).unwrap_or(0), least)).collect()
}

/// Shows how often spoiled frames were read, told, found and counted in each way; what is short of it.
pub fn spoiled(total: &Outcome) -> Vec<String> {
    let count = |spoil: Spoiled| total.held.get(&Held::Spoils(spoil)).copied().unwrap_or(0);
    let rows = |rows: &[Row]| rows.iter().map(|(what, shown, least)| (*shown, count(*what), *least)).collect();
    let mut short = own_choices();
    for (op, least) in READ_BACK {
        let read = |kind: u64, rate: u64, clock: u64| count(ReadBack { op, kind, rate, clock });
        short.extend(of_each_pair(op, "spoiled and read back", least, read));
    }
    let all = all_symbols(total);
    let many = all.iter().filter(|(_, count, least)| count > least);
    short.extend(many.map(|(shown, count, least)| format!("spoiled, {shown}: {count}, and there are only {least}")));
    short.extend(ways("spoiled", "all symbols", &all));
    short.extend(ways("spoiled", "beyond the limits", &otherwise(total)));
    short.extend(ways("spoiled", "of each rate", &of_each_rate(&count)));
    let mut read: Vec<Owed> = rows(&READ);
    let octets = |front: bool| (5..=255).map(|octet| count(Unusable { front, octet })).min().unwrap_or(0);
    read.push(("each unusable octet in the front", octets(true), 1));
    read.push(("behind it", octets(false), 1));
    short.extend(ways("spoiled", "frames", &read));
    short.extend(ways("spoiled", "found, asked, counted", &rows(&FOUND)));
    short.extend(ways("spoiled", "examples", &EXAMPLES.map(|(what, shown)| (shown, count(what), 1))));
    short
}
