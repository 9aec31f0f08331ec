//! Leads, made on purpose: frames whose smallest lead stands in a chosen symbol of the front or the payload, is shared,
//! is 0, would be another among words that aren't allowed, or is kept by a refused read.

use super::damage::some_word;
use super::steps::{counts_of_a_step, least, most, sized, some_size, unit, Frame};
use super::{any_pair, byte_row, pairs, soft_rows, Draft, Out, Recorder};
use crate::bits::Rate;
use crate::calls::Call;
use crate::chips::{Counts, LOST};
use crate::frame::{Header, Kind};
use crate::random::Random;
use crate::symbols::{choose, scores, Choice, Numbered, ALLOWED_11, ALLOWED_5_5};

/// A frame of n random octets with chips of a recorder's size.
fn random_frame(recorder: Recorder, (kind, rate): (Kind, Rate), n: usize, random: &mut Random) -> Frame {
    let size = some_size(recorder, 1, random);
    Frame::new(recorder, &Draft::random(kind, rate, n, random), size)
}

/// Octets of up to three blocks of 64 symbols.
fn some_n(rate: Rate, random: &mut Random) -> usize {
    random.within(1, 24 * rate.bits_per_symbol())
}

/// Symbols of each part: the first and the last of it, and any.
fn some_symbols(frame: &Frame, random: &mut Random) -> Vec<usize> {
    let (header, payload, end) = (frame.kind.bits_before_header(), frame.front_symbols(), frame.symbols());
    let mut symbols = vec![0, 1, header - 16, header - 1, header, payload - 1, payload, end - 1];
    symbols.extend([(1, header), (header, payload), (payload, end)].map(|(from, to)| random.within(from, to - 1)));
    symbols
}

fn some_symbol(frame: &Frame, random: &mut Random) -> usize {
    let symbols = some_symbols(frame, random);
    random.pick(&symbols)
}

/// How a symbol is spoiled: by chips of full size alone, so that its lead is so many of them, or by any values.
#[derive(Clone, Copy, PartialEq)]
enum By {
    WholeChips,
    AnyValues,
}

/// Chips exchanged for those of another word, and chips lost.
fn exchanged(own: &[Counts], other: &[Counts], random: &mut Random) -> Vec<Counts> {
    let (exchange_in, lose_in) = (random.pick(&[2, 3, 5, 8, 1000]), random.pick(&[2, 3, 6, 1000]));
    let mut chip = |(own, other): (&Counts, &Counts)| match (random.once_in(lose_in), random.once_in(exchange_in)) {
        (true, _) => (0, 0),
        (_, true) => *other,
        _ => *own,
    };
    own.iter().zip(other).map(&mut chip).collect()
}

/// Both words' chips added up, those of the symbol's own as large or a little larger.
fn added(recorder: Recorder, own: &[Counts], other: &[Counts], random: &mut Random) -> Vec<Counts> {
    let larger = random.within(1, most(recorder) as usize / 2) as i32;
    let apart = random.pick(&[0, 1, 2, larger / 2]).min(larger);
    let sum = |own: i32, other: i32| larger * own.signum() + (larger - apart) * other.signum();
    own.iter().zip(other).map(|(own, other)| (sum(own.0, other.0), sum(own.1, other.1))).collect()
}

/// Each value a part of what it was, and up to so many steps off.
fn off(recorder: Recorder, own: &[Counts], random: &mut Random) -> Vec<Counts> {
    let (part, steps) = (random.within(0, 16) as i32, random.pick(&[1, 2, 20, most(recorder) as usize]));
    let mut value = |x: i32| {
        let by = random.within(0, 2 * steps) as i32 - steps as i32;
        (x * part / 16 + by).clamp(least(recorder), most(recorder))
    };
    own.iter().map(|(i, q)| (value(*i), value(*q))).collect()
}

/// A symbol's chips spoiled beside another word, at 5.5 Mbit/s also one that isn't allowed.
fn spoiled(frame: &Frame, symbol: usize, by: By, own: &[Counts], random: &mut Random) -> Vec<Counts> {
    let (recorder, rate) = (frame.recorder, frame.rate_at(symbol));
    let among = if rate == Rate::Mbit5_5 && random.once_in(3) { Rate::Mbit11 } else { rate };
    let word = some_word(among, random);
    let other: Vec<Counts> = word.into_iter().map(|phase| sized(phase, frame.size)).collect();
    let ways = if by == By::WholeChips || matches!(recorder, Recorder::Hard) { 1 } else { 3 };
    match random.below(ways) {
        0 => exchanged(own, &other, random),
        1 => added(recorder, own, &other, random),
        _ => off(recorder, own, random),
    }
}

/// Spoils a symbol until it is as wished by its choice before and behind, and its counts; false, and nothing changed,
/// if no such way is found.
fn spoil(
    frame: &mut Frame,
    symbol: usize,
    by: By,
    random: &mut Random,
    wished: impl Fn(Choice, Choice, &[Counts]) -> bool,
) -> bool {
    let (places, before) = (frame.places(symbol), frame.choice(symbol));
    let own = frame.chips[places.clone()].to_vec();
    for _ in 0..200 {
        let chips = spoiled(frame, symbol, by, &own, random);
        frame.chips[places.clone()].copy_from_slice(&chips);
        if wished(before, frame.choice(symbol), &frame.counts(symbol)) {
            return true;
        }
    }
    frame.chips[places].copy_from_slice(&own);
    false
}

/// Spoils a symbol that is decided as before, so that its lead is as wished.
fn spoil_to(frame: &mut Frame, symbol: usize, by: By, random: &mut Random, wished: impl Fn(i32) -> bool) -> bool {
    spoil(frame, symbol, by, random, |before, behind, _| behind.number == before.number && wished(behind.lead))
}

/// A frame as sent with a symbol spoiled so that its lead is below all others.
fn spoiled_below(clean: &Frame, symbol: usize, by: By, random: &mut Random) -> Frame {
    let mut frame = clean.clone();
    let last = clean.choice(clean.symbols() - 1).lead;
    spoil_to(&mut frame, symbol, by, random, |lead| lead < last);
    frame
}

/// Makes the reading of a frame, with just the room.
fn call(out: &mut Out, frame: &Frame) {
    let reading = frame.reading(frame.n, &mut out.random);
    out.call(reading);
}

pub fn leads_as_sent(out: &mut Out) {
    for (kind, rate) in pairs() {
        for recorder in Recorder::ALL {
            let most = most(recorder);
            for size in [1, most.min(64), most.min(1024), most, out.random.within(1, most as usize) as i32] {
                for _ in 0..out.cases(2) {
                    let n = out.random.within(1, 9);
                    let draft = Draft::random(kind, rate, n, &mut out.random);
                    call(out, &Frame::new(recorder, &draft, size));
                }
            }
        }
    }
}

pub fn leads_of_one_symbol(out: &mut Out) {
    for pair in pairs() {
        for recorder in Recorder::ALL {
            for _ in 0..out.cases(6) {
                let n = some_n(pair.1, &mut out.random);
                let clean = random_frame(recorder, pair, n, &mut out.random);
                for symbol in some_symbols(&clean, &mut out.random) {
                    let frame = spoiled_below(&clean, symbol, By::AnyValues, &mut out.random);
                    call(out, &frame);
                }
            }
        }
    }
}

pub fn leads_at_each_place(out: &mut Out) {
    for recorder in Recorder::ALL {
        // Each symbol of the front, before one octet at 11 Mbit/s, and each place of a block behind it.
        for kind in Kind::BOTH {
            for symbol in 0..kind.front_chips() / 11 {
                let clean = random_frame(recorder, (kind, Rate::Mbit11), 1, &mut out.random);
                let frame = spoiled_below(&clean, symbol, By::AnyValues, &mut out.random);
                call(out, &frame);
            }
        }
        for (kind, rate) in pairs() {
            for place in 0..64 {
                let symbols = place + 1 + out.random.within(0, 80);
                let n = (symbols * rate.bits_per_symbol()).div_ceil(8);
                let clean = random_frame(recorder, (kind, rate), n, &mut out.random);
                let symbol = clean.front_symbols() + place;
                let frame = spoiled_below(&clean, symbol, By::AnyValues, &mut out.random);
                call(out, &frame);
            }
        }
    }
}

/// A frame with a symbol spoiled and then others that come to the same lead, or to a chip more; none has less.
fn spoiled_alike(clean: &Frame, random: &mut Random) -> Frame {
    let first = some_symbol(clean, random);
    let mut frame = spoiled_below(clean, first, By::WholeChips, random);
    let (least, chip) = (frame.choice(first).lead, counts_of_a_step(clean.recorder) * clean.size);
    for _ in 0..random.within(1, 3) {
        let symbol = some_symbol(clean, random);
        let wished = least + if random.once_in(4) { chip } else { 0 };
        if frame.choice(symbol).lead != least {
            spoil_to(&mut frame, symbol, By::WholeChips, random, |lead| lead == wished);
        }
    }
    frame
}

pub fn leads_shared(out: &mut Out) {
    for _ in 0..out.cases(700) {
        let (recorder, pair) = (out.random.pick(&Recorder::ALL), any_pair(&mut out.random));
        let n = some_n(pair.1, &mut out.random);
        let clean = random_frame(recorder, pair, n, &mut out.random);
        let frame = spoiled_alike(&clean, &mut out.random);
        call(out, &frame);
    }
}

/// Spoils a symbol so that words tie. Behind the front it may be decided otherwise, but at 1 Mbit/s.
fn tie(frame: &mut Frame, symbol: usize, random: &mut Random) -> bool {
    let free = symbol >= frame.front_symbols() && frame.rate != Rate::Mbit1;
    spoil(frame, symbol, By::AnyValues, random, |before, behind, _| {
        behind.lead == 0 && (free || behind.number == before.number)
    })
}

/// A frame in which words tie in a symbol, which must not be of phase 3 in the front: no other phase comes behind it.
fn tied_at(place: usize, recorder: Recorder, pair: (Kind, Rate), random: &mut Random) -> Frame {
    loop {
        let n = random.within(1, 12);
        let mut frame = random_frame(recorder, pair, n, random);
        let symbol = some_symbols(&frame, random)[place];
        if tie(&mut frame, symbol, random) {
            return frame;
        }
    }
}

pub fn leads_of_ties(out: &mut Out) {
    for pair in pairs() {
        for recorder in Recorder::ALL {
            for place in 0..11 {
                for _ in 0..out.cases(2) {
                    let mut frame = tied_at(place, recorder, pair, &mut out.random);
                    if out.random.once_in(3) {
                        let second = some_symbol(&frame, &mut out.random);
                        tie(&mut frame, second, &mut out.random);
                    }
                    call(out, &frame);
                }
            }
        }
    }
}

/// Whether the symbol of 5.5 Mbit/s has another word beside or above it that isn't allowed.
fn beside_unallowed(choice: Choice, counts: &[Counts]) -> bool {
    let all = choose(&ALLOWED_11, counts.try_into().expect("a CCK symbol has 8 chips"));
    all.number != choice.number || all.lead < choice.lead
}

pub fn leads_of_allowed_words(out: &mut Out) {
    for kind in Kind::BOTH {
        for recorder in Recorder::ALL {
            for _ in 0..out.cases(40) {
                let n = out.random.within(1, 12);
                let mut frame = random_frame(recorder, (kind, Rate::Mbit5_5), n, &mut out.random);
                let symbol = out.random.within(frame.front_symbols(), frame.symbols() - 1);
                spoil(&mut frame, symbol, By::AnyValues, &mut out.random, |before, behind, counts| {
                    behind.lead < before.lead && beside_unallowed(behind, counts)
                });
                call(out, &frame);
            }
        }
    }
}

/// Whether of a symbol's words one wins, and another alone comes next.
fn comes_next(allowed: &[Numbered<8>], counts: &[Counts], wins: u8, next: u8) -> bool {
    let mut order: Vec<(i32, u8)> = scores(allowed, counts.try_into().expect("a CCK symbol has 8 chips"))
        .map(|(word, score)| (score, word))
        .collect();
    order.sort_by(|one, other| other.cmp(one));
    let [first, second, third, ..] = order[..] else { return false };
    (first.1, second.1) == (wins, next) && first.0 > second.0 && second.0 > third.0
}

/// Readings of frames with a symbol of a word in which each other word comes next that can.
fn each_next(out: &mut Out, recorder: Recorder, rate: Rate, allowed: &[Numbered<8>]) {
    let (wins, word) = out.random.pick(allowed);
    for (next, other) in allowed.iter().filter(|(next, _)| *next != wins) {
        let (kind, n) = (out.random.pick(&Kind::BOTH), out.random.within(1, 40));
        let draft = Draft::random(kind, rate, n, &mut out.random);
        let mut frame = Frame::new(recorder, &draft, most(recorder) / 2);
        let symbol = out.random.within(frame.front_symbols(), frame.symbols() - 1);
        let places = frame.places(symbol);
        let chips = added(recorder, &word.map(unit), &other.map(unit), &mut out.random);
        frame.chips[places].copy_from_slice(&chips);
        if comes_next(allowed, &frame.counts(symbol), wins, *next) {
            call(out, &frame);
        }
    }
}

pub fn leads_of_next_words(out: &mut Out) {
    for recorder in [Recorder::Soft, Recorder::Bytes] {
        for _ in 0..out.cases(8) {
            each_next(out, recorder, Rate::Mbit5_5, &ALLOWED_5_5);
            each_next(out, recorder, Rate::Mbit11, &ALLOWED_11);
        }
    }
}

pub fn leads_in_noise(out: &mut Out) {
    for case in 0..out.cases(900) {
        let recorder = if case % 2 == 0 { Recorder::Soft } else { Recorder::Bytes };
        let (pair, n) = (any_pair(&mut out.random), out.random.within(1, 30));
        let size = out.random.pick(&[16, 40, 64]) * if case % 2 == 0 { 16 } else { 1 };
        let mut frame = Frame::new(recorder, &Draft::random(pair.0, pair.1, n, &mut out.random), size);
        let spread = size as f32 * out.random.pick(&[0.05, 0.1, 0.2, 0.3, 0.5]);
        for chip in &mut frame.chips {
            let mut noisy = |x: i32| {
                let x = x + out.random.noise(spread) as i32;
                x.clamp(least(recorder), most(recorder))
            };
            *chip = (noisy(chip.0), noisy(chip.1));
        }
        call(out, &frame);
    }
}

/// Symbols of a long frame where a narrower number, a block of symbols or the end of the frame would show.
fn far_symbols(frame: &Frame, random: &mut Random) -> Vec<usize> {
    let (front, end) = (frame.front_symbols(), frame.symbols());
    let block = front + 64 * random.within(1, (end - front) / 64 - 1);
    let fixed = [0, 255, 256, front + 63, front + 64, block - 1, block, 32_767, 32_768, end - 1];
    let mut symbols: Vec<usize> = fixed.into_iter().filter(|symbol| *symbol < end).collect();
    symbols.push(random.within(front, end - 1));
    symbols.extend((end > 32_768).then(|| random.within(32_768, end - 1)));
    symbols
}

pub fn leads_of_long_frames(out: &mut Out) {
    for (kind, rate) in pairs() {
        for recorder in Recorder::ALL {
            for n in [out.random.within(301, 1100), 4095] {
                let clean = random_frame(recorder, (kind, rate), n, &mut out.random);
                for symbol in far_symbols(&clean, &mut out.random) {
                    // Of the longest frames the last symbols, a quarter of the others, and at 1 and 2 Mbit/s a ninth.
                    let seldom = if rate.chips_per_symbol() == 11 { 9 } else { 4 };
                    let last = symbol >= 32_767 || symbol + 1 == clean.symbols();
                    if n == 4095 && !last && !out.random.once_in(seldom) {
                        continue;
                    }
                    let frame = spoiled_below(&clean, symbol, By::AnyValues, &mut out.random);
                    call(out, &frame);
                }
            }
        }
    }
}

/// A draft that is refused with 11 to 15 by its front, or not.
fn refused_draft(way: usize, pair: (Kind, Rate), n: usize, random: &mut Random) -> Draft {
    let draft = Draft::random(pair.0, pair.1, n, random);
    let Header { signal, service, length } = draft.header;
    match way {
        0 => Draft { sfd: draft.sfd ^ 1 << random.below(16), ..draft },
        1 => Draft { crc: draft.crc ^ 1 << random.below(16), ..draft },
        2 => draft.with_header(Header { signal: signal ^ 1, service, length }),
        3 => draft.with_header(Header { signal, service: service ^ 64, length }),
        4 => draft.with_header(Header { signal, service, length: 0xFFFF }),
        _ => draft,
    }
}

/// Turns a symbol by a quarter.
fn turn_symbol(frame: &mut Frame, symbol: usize) {
    let places = frame.places(symbol);
    frame.chips[places].iter_mut().for_each(|(i, q)| (*i, *q) = (-*q, *i));
}

/// A reading with an unusable chip behind the front; a byte more, where no byte is unusable.
fn with_unusable(reading: Call, kind: Kind, random: &mut Random) -> Call {
    let mut at = |len: usize| random.within(kind.front_chips(), len - 1);
    match reading {
        Call::ReadHard { kind, mut chips, octets_len } => {
            let at = at(chips.len());
            chips[at] = 77;
            Call::hard(kind, chips, octets_len)
        }
        Call::ReadSoft { kind, mut i, q, octets_len } => {
            let at = at(i.len());
            i[at] = f32::NAN;
            Call::soft(kind, (i, q), octets_len)
        }
        Call::ReadBytes { kind, mut bytes, octets_len } => {
            bytes.push(1);
            Call::bytes(kind, bytes, octets_len)
        }
        other => other,
    }
}

/// The reading of a frame in one of the ways that are refused by no draft.
fn refused_reading(way: usize, mut frame: Frame, random: &mut Random) -> Call {
    let (kind, n, all) = (frame.kind, frame.n, frame.symbols());
    match way {
        5 => frame.chips.truncate(frame.chips.len() - 1),
        7 => turn_symbol(&mut frame, random.within(1, 15)),
        8 if frame.rate == Rate::Mbit1 => turn_symbol(&mut frame, random.within(all - 8, all - 1)),
        _ => {}
    }
    let reading = frame.reading(if way == 6 { n - 1 } else { n }, random);
    if way == 9 {
        with_unusable(reading, kind, random)
    } else {
        reading
    }
}

pub fn leads_kept(out: &mut Out) {
    for pair in pairs() {
        for recorder in Recorder::ALL {
            for way in 0..10 {
                for _ in 0..out.cases(2) {
                    let (n, size) = (out.random.within(1, 6), some_size(recorder, 1, &mut out.random));
                    let draft = refused_draft(way, pair, n, &mut out.random);
                    let clean = Frame::new(recorder, &draft, size);
                    let symbol = some_symbol(&clean, &mut out.random);
                    let frame = spoiled_below(&clean, symbol, By::AnyValues, &mut out.random);
                    let reading = refused_reading(way, frame, &mut out.random);
                    out.call(reading);
                }
            }
        }
    }
}

/// Frames of one octet at 11 Mbit/s, one chip of it lost: each payload and phase by hard chips, and by the other
/// recorders at one phase, which has each word once. So each word is decided behind each of its chips lost.
pub fn leads_of_each_word(out: &mut Out) {
    for octet in 0..=255 {
        for phase in 0..4 {
            let (kind, size) = (Kind::Short, [1.0, 1.5][usize::from(phase) / 2]);
            let draft = Draft::new(kind, Rate::Mbit11, phase, vec![octet]);
            for lost in kind.front_chips()..kind.front_chips() + 8 {
                let mut chips = draft.chips();
                chips[lost] = LOST;
                if phase == 1 {
                    out.alone(Call::soft(kind.number(), soft_rows(&chips, size), 1));
                }
                if phase == 2 {
                    out.alone(Call::bytes(kind.number(), byte_row(&chips, size), 1));
                }
                out.alone(Call::hard(kind.number(), chips, 1));
            }
        }
    }
}
