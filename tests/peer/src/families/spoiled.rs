//! Frames that are written and then spoiled within the limits, all symbols of front and payload at once.

use super::finding::{unusable, Before, Scene, ALL};
use super::report::{add, list, shuffle, Recorded};
use super::{any_pair, byte_row, pairs, soft_rows, Draft, Out, CLOCKS};
use crate::bits::Rate;
use crate::calls::Call;
use crate::chips::{Phase, LOST};
use crate::frame::Kind;
use crate::random::Random;
use crate::report::{one_more, Reading, Report};
use crate::spoiling::{barker_ways, cck_patterns, cck_patterns_within, limit, spoil, word_of, Pattern, Way};

/// Spoils symbols within their limits, each word and each phase by one way after the other.
pub struct Spoiler {
    ways: Vec<Way>,
    patterns: Vec<Pattern<8>>,
    next_way: [usize; 4],
    next_pattern: [usize; 256],
}

impl Spoiler {
    fn of(mut ways: Vec<Way>, patterns: Vec<Pattern<8>>, random: &mut Random) -> Spoiler {
        shuffle(&mut ways, random);
        let next_way = [0; 4].map(|_: usize| random.below(ways.len()));
        Spoiler { ways, patterns, next_way, next_pattern: [0; 256] }
    }

    /// By each way and each pattern; the ways at the limit three times as often as the others.
    pub fn new(random: &mut Random) -> Spoiler {
        let most = limit(Rate::Mbit1);
        let ways = (0..=most).chain([most; 2]).flat_map(barker_ways).collect();
        Spoiler::of(ways, cck_patterns_within(), random)
    }

    /// By those at the limit alone.
    fn at_limit(random: &mut Random) -> Spoiler {
        Spoiler::of(barker_ways(limit(Rate::Mbit1)), cck_patterns(limit(Rate::Mbit11)), random)
    }

    /// By a little: leads stay above those of symbols at the limit.
    fn by_little(random: &mut Random) -> Spoiler {
        Spoiler::of((1..=4).flat_map(barker_ways).collect(), (1..=2).flat_map(cck_patterns).collect(), random)
    }

    /// By chips lost alone, as many as the limits allow.
    fn by_losses(random: &mut Random) -> Spoiler {
        let (most, most_of_cck) = (limit(Rate::Mbit1), limit(Rate::Mbit11));
        let ways = vec![Way { turned: [0; 3], lost: most as u8 }];
        let lost = |pattern: &Pattern<8>| pattern.iter().filter(|by| **by == LOST).count() as u64;
        let patterns = cck_patterns(most_of_cck).into_iter().filter(|pattern| lost(pattern) == most_of_cck);
        Spoiler::of(ways, patterns.collect(), random)
    }

    /// Each of these.
    fn each(random: &mut Random) -> [Spoiler; 4] {
        [Spoiler::new, Spoiler::at_limit, Spoiler::by_losses, Spoiler::by_little].map(|make| make(random))
    }

    /// The chips of a way stand at any places of the symbol.
    fn barker(&mut self, symbol: &mut [u8], random: &mut Random) {
        let next = &mut self.next_way[usize::from(symbol[0])];
        let mut pattern = self.ways[*next % self.ways.len()].pattern();
        *next += 1;
        shuffle(&mut pattern, random);
        spoil(&pattern, symbol);
    }

    /// Each word begins with another pattern.
    fn cck(&mut self, symbol: &mut [u8]) {
        let word = usize::from(word_of((&*symbol).try_into().expect("a CCK symbol")));
        let next = &mut self.next_pattern[word];
        spoil(&self.patterns[(*next + 37 * word) % self.patterns.len()], symbol);
        *next += 1;
    }

    /// All symbols of a rate.
    fn symbols(&mut self, rate: Rate, chips: &mut [u8], random: &mut Random) {
        match rate.chips_per_symbol() {
            8 => chips.chunks_mut(8).for_each(|symbol| self.cck(symbol)),
            _ => chips.chunks_mut(11).for_each(|symbol| self.barker(symbol, random)),
        }
    }

    /// All symbols of a frame.
    pub fn frame(&mut self, kind: Kind, rate: Rate, chips: &mut [u8], random: &mut Random) {
        let (front, payload) = chips.split_at_mut(kind.front_chips());
        self.symbols(Rate::Mbit1, front, random);
        self.symbols(rate, payload, random);
    }

    /// All symbols of a frame, those of the front by a little: the smallest lead is the payload's.
    fn payload(&mut self, kind: Kind, rate: Rate, chips: &mut [u8], random: &mut Random) {
        let (front, payload) = chips.split_at_mut(kind.front_chips());
        Spoiler::by_little(random).symbols(Rate::Mbit1, front, random);
        self.symbols(rate, payload, random);
    }

    /// Whether so many words have each been spoiled by every pattern.
    fn covered(&self, words: usize) -> bool {
        self.next_pattern.iter().filter(|next| **next >= self.patterns.len()).count() == words
    }
}

/// Writes a draft; its chips. What follows is held to what was written.
pub fn written(out: &mut Out, draft: &Draft) -> Vec<Phase> {
    let clock = if draft.header.clock() { out.random.pick(&CLOCKS[1..]) } else { 0 };
    let (kind, rate, phase) = (draft.kind.number(), u64::from(draft.rate.code()), u64::from(draft.phase));
    let (chips, room) = (draft.chips(), out.random.pick(&[0, 0, 1, 30]));
    out.alone(Call::write(kind, rate, phase, clock, draft.payload.clone(), chips.len() + room));
    chips
}

/// Writes a frame of n random octets, and spoils all of it.
fn spoiled(out: &mut Out, spoiler: &mut Spoiler, (kind, rate): (Kind, Rate), n: usize) -> Vec<u8> {
    let draft = Draft::random(kind, rate, n, &mut out.random);
    let mut chips = written(out, &draft);
    spoiler.frame(kind, rate, &mut chips, &mut out.random);
    chips
}

/// The soft reading of hard chips, zeros being of either sign.
fn soft(kind: Kind, chips: &[u8], room: usize, random: &mut Random) -> Call {
    let (mut i, mut q) = soft_rows(chips, 1.0);
    let zeros = i.iter_mut().chain(&mut q).filter(|x| **x == 0.0);
    zeros.for_each(|x| *x = if random.once_in(2) { -0.0 } else { 0.0 });
    Call::soft(kind.number(), (i, q), room)
}

/// A hard reading and, once in so many times, the same by the other recorders.
fn read(out: &mut Out, times: usize, kind: Kind, chips: &[u8], room: usize) {
    out.call(Call::hard(kind.number(), chips.to_vec(), room));
    if out.random.once_in(times) {
        let reading = soft(kind, chips, room, &mut out.random);
        out.call(reading);
        out.call(Call::bytes(kind.number(), byte_row(chips, 1.0), room));
    }
}

/// Frames of random octets at a rate, until each of its words has been spoiled by every pattern.
fn cover(out: &mut Out, rate: Rate, words: usize, sizes: (usize, usize)) {
    for _ in 0..out.cases(1) {
        let mut spoiler = Spoiler::new(&mut out.random);
        for kind in Kind::BOTH.into_iter().cycle() {
            if spoiler.covered(words) {
                break;
            }
            let n = out.random.within(sizes.0, sizes.1);
            let draft = Draft::random(kind, rate, n, &mut out.random);
            let mut chips = written(out, &draft);
            let spoil = if kind == Kind::Long { Spoiler::frame } else { Spoiler::payload };
            spoil(&mut spoiler, kind, rate, &mut chips, &mut out.random);
            read(out, 4, kind, &chips, n);
        }
    }
}

/// Shows: a word that is not found behind some damage, in any place of a block of symbols.
pub fn spoiled_eleven(out: &mut Out) {
    cover(out, Rate::Mbit11, 256, (3000, 4095));
}

pub fn spoiled_five(out: &mut Out) {
    cover(out, Rate::Mbit5_5, 16, (100, 700));
}

/// Every symbol of a frame is spoiled at the same places, wrong chips all turned alike; then each in its own way.
pub fn spoiled_barker(out: &mut Out) {
    let alone: Vec<Way> = barker_ways(limit(Rate::Mbit1)).into_iter().filter(one_turn).collect();
    for (kind, rate) in pairs().filter(|(_, rate)| rate.chips_per_symbol() == 11) {
        for (case, way) in alone.iter().enumerate() {
            let draft = Draft::random(kind, rate, out.random.within(1, 4), &mut out.random);
            let draft = Draft { phase: case as u8 % 4, ..draft };
            let (mut pattern, mut chips) = (way.pattern(), written(out, &draft));
            shuffle(&mut pattern, &mut out.random);
            chips.chunks_mut(11).for_each(|symbol| spoil(&pattern, symbol));
            read(out, 3, kind, &chips, draft.payload.len());
        }
        let mut each = Spoiler::new(&mut out.random);
        for phase in (0..4).cycle().take(out.cases(48)) {
            let draft = Draft::random(kind, rate, out.random.within(1, 12), &mut out.random);
            let mut chips = written(out, &Draft { phase, ..draft.clone() });
            let spoil = if out.random.once_in(2) { Spoiler::frame } else { Spoiler::payload };
            spoil(&mut each, kind, rate, &mut chips, &mut out.random);
            read(out, 3, kind, &chips, draft.payload.len());
        }
    }
}

/// Whether the wrong chips of a way are all turned alike.
fn one_turn(way: &Way) -> bool {
    way.turned.iter().filter(|count| **count > 0).count() <= 1
}

/// One spoiled frame with each sort of room, with chips behind it, and cut.
fn rooms_and_cuts(out: &mut Out, kind: Kind, chips: &[u8], n: usize) {
    read(out, 1, kind, chips, n);
    read(out, 4, kind, chips, n - 1);
    let behind = out.random.within(1, 70);
    let longer = [chips, &out.random.octets(behind)].concat();
    let room = n + out.random.within(1, 70);
    out.call(Call::hard(kind.number(), longer, room));
    let before = out.random.pick(&[Before::Phases, Before::Lost]);
    let usable = [chips, &before.chips(behind, &mut out.random)].concat();
    let more = out.random.pick(&[0, 4095]);
    read(out, 2, kind, &usable, room + more);
    let front = kind.front_chips();
    for end in [front, out.random.within(front, chips.len() - 1), chips.len() - 1] {
        read(out, 6, kind, &chips[..end], n);
    }
}

/// A spoiled frame with about so many chips behind it, the first of them any octets.
fn far_behind(out: &mut Out, spoiler: &mut Spoiler, pair: (Kind, Rate), size: usize) {
    let n = out.random.within(1, 9);
    let mut chips = spoiled(out, spoiler, pair, n);
    chips.extend(out.random.octets(200));
    chips.resize(chips.len() + size - out.random.below(4000), 0);
    out.call(Call::hard(pair.0.number(), chips, n));
}

pub fn spoiled_sizes(out: &mut Out) {
    let mut spoilers = Spoiler::each(&mut out.random);
    for pair in pairs() {
        for _ in 0..out.cases(1) {
            let random = &mut out.random;
            let some = [random.within(3, 20), random.within(21, 64), random.within(65, 300), 1, 2];
            for (case, n) in [1, 1, 2, 2].into_iter().chain(some).enumerate() {
                let spoiler = &mut spoilers[case % 4];
                let chips = spoiled(out, spoiler, pair, n);
                rooms_and_cuts(out, pair.0, &chips, n);
            }
        }
        let chips = spoiled(out, &mut spoilers[0], pair, 4095);
        read(out, if out.long { 1 } else { 4 }, pair.0, &chips, 4095);
        for _ in 0..out.cases(1) {
            let n = out.random.within(750, 1500);
            let chips = spoiled(out, &mut spoilers[2], pair, n);
            read(out, 1, pair.0, &chips, n);
        }
        for bits in [16, 20, 24] {
            if out.long || bits == 16 || pair == (Kind::Short, Rate::Mbit11) {
                far_behind(out, &mut spoilers[1], pair, 1 << bits);
            }
        }
    }
}

/// What stands behind a front: a payload spoiled within the limits or beyond them, lost, of any octets, or cut.
fn behind_front(payload: &mut Vec<u8>, random: &mut Random) {
    match random.below(5) {
        0 => payload.fill(LOST),
        1 => *payload = random.octets(payload.len()),
        2 => payload.iter_mut().for_each(|chip| *chip = random.below(5) as u8),
        3 => payload.truncate(random.below(payload.len())),
        _ => {}
    }
}

/// A frame with a spoiled front, and behind it any of these.
fn spoiled_front(out: &mut Out, spoiler: &mut Spoiler, pair: (Kind, Rate), n: usize) -> Vec<u8> {
    let mut front = spoiled(out, spoiler, pair, n);
    let mut payload = front.split_off(pair.0.front_chips());
    behind_front(&mut payload, &mut out.random);
    front.extend(payload);
    front
}

/// Shows: a front that is accepted only where it is clean, or only with a payload that is.
pub fn spoiled_fronts(out: &mut Out) {
    let mut spoilers = Spoiler::each(&mut out.random);
    for case in 0..out.cases(60) {
        for pair in pairs() {
            let n = out.random.within(1, 30);
            let chips = spoiled_front(out, &mut spoilers[case % 4], pair, n);
            if out.random.once_in(4) {
                out.call(Call::hard(pair.0.number(), chips, n));
            } else {
                out.alone(Call::front(pair.0.number(), chips));
            }
        }
    }
}

/// A frame of which a few symbols of the front have lost a chip: it can be found early, as a clean one is.
fn hardly_spoiled(out: &mut Out, (kind, rate): (Kind, Rate), n: usize) -> Vec<u8> {
    let draft = Draft::random(kind, rate, n, &mut out.random);
    let mut chips = written(out, &draft);
    for _ in 0..out.random.within(1, 3) {
        let place = out.random.below(kind.front_chips());
        chips[place] = LOST;
    }
    chips
}

/// Finds of a spoiled front, its own start the last offset tried, and more.
pub fn spoiled_starts(out: &mut Out) {
    let mut spoilers = Spoiler::each(&mut out.random);
    for case in 0..out.cases(150) {
        let (kind, rate) = any_pair(&mut out.random);
        let n = out.random.within(1, 12);
        let frame = match case % 5 {
            4 => hardly_spoiled(out, (kind, rate), n),
            which => spoiled_front(out, &mut spoilers[which], (kind, rate), n),
        };
        let far = out.random.within(0, ALL - 1);
        let start = match case % 10 {
            0 => far,
            1 if case < 20 => ALL - 1,
            _ => out.random.below(120),
        };
        let before = out.random.pick(&Before::ALL);
        let mut chips = before.chips(start, &mut out.random);
        if out.random.once_in(4) {
            chips.iter_mut().for_each(|chip| *chip = unusable(&mut out.random));
        }
        chips.extend(frame);
        let scene = Scene { kind, start, chips };
        scene.seek(out, start + 1);
        let more = out.random.within(start + 1, ALL);
        out.call(scene.find(more));
        out.call(scene.front(start));
    }
}

/// Lists of spoiled frames, each frame there in one or two recordings; the same added one by one, cut ones among them.
pub fn spoiled_counted(out: &mut Out) {
    let mut spoilers = Spoiler::each(&mut out.random);
    for _ in 0..out.cases(24) {
        let mut of: Vec<Recorded> = Vec::new();
        for _ in 0..out.random.within(1, 8) {
            let (kind, rate) = any_pair(&mut out.random);
            let most = out.random.pick(&[20, 20, 20, 600]);
            let draft = Draft::random(kind, rate, out.random.within(1, most), &mut out.random);
            let sent = written(out, &draft);
            for _ in 0..out.random.within(1, 2) {
                let mut chips = sent.clone();
                let which = out.random.below(5);
                if which < 4 {
                    spoilers[which].frame(kind, rate, &mut chips, &mut out.random);
                }
                let behind = out.random.pick(&[0, 0, 1, 30]);
                chips.extend(out.random.octets(behind));
                of.push((kind.number(), chips));
            }
        }
        shuffle(&mut of, &mut out.random);
        out.call(list(&of));
        add_each(out, of);
    }
}

/// Recordings added to a report one by one, some of them cut, some with an octet that is unusable.
fn add_each(out: &mut Out, of: Vec<Recorded>) {
    let mut report = Report::default();
    for (kind, mut chips) in of {
        match out.random.below(10) {
            0 | 1 => chips.truncate(chips.len() - 31),
            2 => {
                let place = out.random.below(chips.len() - 30);
                chips[place] = unusable(&mut out.random);
            }
            _ => {}
        }
        out.call(add(&report, &(kind, chips.clone())));
        report = one_more(&report, Reading::of(kind, &chips)).1;
    }
}

/// Spoiled frames with one octet, each that is unusable, in the front and behind it.
pub fn spoiled_unusable(out: &mut Out) {
    let mut spoiler = Spoiler::new(&mut out.random);
    for octet in 5..=255 {
        let pair = any_pair(&mut out.random);
        let n = out.random.within(1, 12);
        let chips = spoiled(out, &mut spoiler, pair, n);
        let front = pair.0.front_chips();
        for (from, to) in [(0, front), (front, chips.len())] {
            let mut one = chips.clone();
            one[out.random.within(from, to - 1)] = octet;
            out.call(Call::hard(pair.0.number(), one, n));
        }
    }
}
