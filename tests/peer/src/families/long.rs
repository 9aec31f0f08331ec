//! Long frames: payloads up to 4,095 octets, places above 65,536, refusals at first, last and inner symbols, and damage
//! where a reader that goes by blocks of symbols, octets or chips would pass from one block to the next.

use super::{bytes_of, pairs, soft_rows, turn, Draft, Out, Recorder};
use crate::bits::Rate;
use crate::calls::Call;
use crate::chips::LOST;
use crate::frame::Kind;
use crate::random::Random;
use std::collections::BTreeSet;

/// An n in each of several ranges.
fn some_of_each(ranges: &[(usize, usize)], random: &mut Random) -> Vec<usize> {
    ranges.iter().map(|(low, high)| random.within(*low, *high)).collect()
}

/// Numbers below `count` at the edges of blocks of 8 and 64, near the start, the middle and the end, and any.
fn edges(count: usize, random: &mut Random) -> BTreeSet<usize> {
    let near_start = [0, 1, 7, 8, 9, 62, 63, 64, 65, 127, 128, 129, 255, 256];
    let block = 64 * random.below(count / 64 + 1);
    let deep = [block.wrapping_sub(1), block, block + 1, 64 * (count / 64), (64 * (count / 64)).wrapping_sub(1)];
    let last = [count.wrapping_sub(9), count.wrapping_sub(8), count.wrapping_sub(2), count - 1];
    let any = [random.below(count), random.below(count)];
    let all = near_start.into_iter().chain(deep).chain(last).chain(any);
    all.filter(|at| *at < count).collect()
}

pub fn long_payloads(out: &mut Out) {
    let ranges = [(65, 127), (128, 300), (301, 600), (601, 1022), (1027, 2000), (2001, 4094)];
    for (kind, rate) in pairs() {
        for recorder in Recorder::ALL {
            for _ in 0..out.cases(1) {
                for n in some_of_each(&ranges, &mut out.random) {
                    let mut chips = Draft::random(kind, rate, n, &mut out.random).chips();
                    // What stands after the frame isn't looked at.
                    let after = out.random.below(70);
                    chips.extend(out.random.octets(after));
                    let room = n + out.random.pick(&[0, 0, 1, 70]);
                    out.call(recorder.reading(kind.number(), chips, room));
                }
            }
        }
    }
}

/// Chips at the edges of symbols that are at the edges of blocks, and at the edges of blocks of chips.
fn edge_places(kind: Kind, rate: Rate, n: usize, random: &mut Random) -> BTreeSet<usize> {
    let (front, each) = (kind.front_chips(), rate.chips_per_symbol());
    let chips = rate.payload_chips(n);
    let symbols = edges(chips / each, random);
    let ends = symbols.iter().map(|symbol| front + each * symbol + random.pick(&[0, 0, each / 2, each - 1]));
    let mut places: BTreeSet<usize> = ends.collect();
    let from_start = [65_535, 65_536, 65_537, front + 5632, front + chips - 1];
    places.extend(edges(chips, random).into_iter().map(|at| front + at));
    places.extend(from_start.into_iter().filter(|place| (front..front + chips).contains(place)));
    places
}

pub fn long_unusable(out: &mut Out) {
    for (kind, rate) in pairs() {
        for n in some_of_each(&[(9, 64), (301, 1022), (1300, 4095), (4095, 4095)], &mut out.random) {
            let frames = Draft::random(kind, rate, n, &mut out.random).both_clocks();
            let last = frames[0].len() - 1;
            let always = [kind.front_chips(), 65_535, 65_536, last];
            for place in edge_places(kind, rate, n, &mut out.random) {
                // Of the longest frames a third of the places, as each call takes long.
                if n > 1022 && !out.long && !always.contains(&place) && !out.random.once_in(3) {
                    continue;
                }
                let mut spoiled = out.random.one_of(&frames).clone();
                spoiled[place] = out.random.within(5, 255) as u8;
                if out.random.once_in(3) {
                    let second = out.random.within(place, last);
                    spoiled[second] = 0xFF;
                }
                // No byte is unusable.
                let recorder = if out.random.once_in(4) { Recorder::Soft } else { Recorder::Hard };
                out.call(recorder.reading(kind.number(), spoiled, n));
            }
        }
    }
}

/// The first payload symbol of a long frame that stands wholly past chip 65,536.
const FAR: usize = 5766;

pub fn long_growths(out: &mut Out) {
    for (n, most) in [(9, 50), (17, 50), (65, 50), (301, 30), (500, 40), (900, 52), (4095, 9)] {
        let n = n + out.random.below(4) * usize::from(n < 4095);
        let frames = Draft::random(Kind::Long, Rate::Mbit1, n, &mut out.random).both_clocks();
        let mut symbols = vec![8 * n - 1, 0];
        if 8 * n > FAR {
            symbols.extend([FAR, FAR + 1]);
            symbols.extend((0..30).map(|_| out.random.within(FAR, 8 * n - 2)));
        }
        symbols.extend(edges(8 * n, &mut out.random));
        for (case, symbol) in symbols.into_iter().take(out.cases(most)).enumerate() {
            let recorder = Recorder::HARD_TWICE[(case + n) % 4];
            let chips = out.random.one_of(&frames);
            let turned = turned_at(symbol, n, chips, &mut out.random);
            out.call(recorder.reading(Kind::Long.number(), turned, n));
        }
    }
    // In the longest frame by each recorder: the last symbol, and one of the last tenth.
    let chips = Draft::random(Kind::Long, Rate::Mbit1, 4095, &mut out.random).chips();
    for recorder in Recorder::ALL {
        for symbol in [8 * 4095 - 1, out.random.within(7 * 4095, 8 * 4095 - 2)] {
            let mut turned = chips.clone();
            turn(&mut turned[2112 + 11 * symbol..][..11], 1);
            out.call(recorder.reading(Kind::Long.number(), turned, 4095));
        }
    }
}

/// The recording with a payload symbol turned, alone or with all that follow; sometimes a later one too, or a later
/// chip unusable.
fn turned_at(symbol: usize, n: usize, chips: &[u8], random: &mut Random) -> Vec<u8> {
    let at = |symbol: usize| 2112 + 11 * symbol;
    let mut turned = chips.to_vec();
    let to = if random.once_in(2) { at(symbol) + 11 } else { chips.len() };
    turn(&mut turned[at(symbol)..to], random.pick(&[1, 1, 1, 2, 3, 3, 3]));
    if random.once_in(4) {
        let second = random.within(symbol, 8 * n - 1);
        turn(&mut turned[at(second)..at(second) + 11], 1);
    }
    if random.once_in(8) {
        turned[random.within(2112, chips.len() - 1)] = 99;
    }
    turned
}

pub fn long_cuts(out: &mut Out) {
    for (kind, rate) in pairs() {
        for n in some_of_each(&[(65, 300), (301, 1022), (1300, 4094), (4095, 4095)], &mut out.random) {
            let mut frames = Draft::random(kind, rate, n, &mut out.random).both_clocks();
            let (front, frame) = (kind.front_chips(), frames[0].len());
            if out.random.once_in(2) {
                let at = out.random.within(front, frame - 1);
                frames.iter_mut().for_each(|chips| chips[at] = 200);
            }
            let fixed = [front, front + 1, front + 64, 65_535, 65_536, 65_537, frame - 65, frame - 11, frame - 2];
            let any: Vec<usize> = (0..8).map(|_| out.random.within(front, frame - 1)).collect();
            let lens: BTreeSet<usize> = fixed.into_iter().chain(any).chain([frame - 1]).collect();
            for len in lens.into_iter().filter(|len| (front..frame).contains(len)) {
                let room = out.random.pick(&[n, n, n - 1, 0]);
                let recorder = out.random.pick(&Recorder::HARD_TWICE);
                let cut = out.random.one_of(&frames)[..len].to_vec();
                out.call(recorder.reading(kind.number(), cut, room));
            }
        }
    }
}

pub fn long_rooms(out: &mut Out) {
    for (kind, rate) in pairs() {
        for n in some_of_each(&[(65, 300), (301, 600), (601, 1022), (1300, 4095)], &mut out.random) {
            let mut frames = Draft::random(kind, rate, n, &mut out.random).both_clocks();
            if out.random.once_in(2) {
                let at = out.random.within(kind.front_chips(), frames[0].len() - 1);
                frames.iter_mut().for_each(|chips| chips[at] = 66);
            }
            let any = [(); 4].map(|()| out.random.below(n));
            let rooms: BTreeSet<usize> = [0, 1, 64, 255, 256, 300, n / 2, n - 1].into_iter().chain(any).collect();
            for room in rooms.into_iter().filter(|room| *room < n) {
                let recorder = out.random.pick(&Recorder::HARD_TWICE);
                let chips = out.random.one_of(&frames).clone();
                out.call(recorder.reading(kind.number(), chips, room));
            }
        }
    }
}

/// A symbol changed: turned, lost, or half of it another's.
fn damage(symbol: &mut [u8], rate: Rate, random: &mut Random) {
    let by = if rate == Rate::Mbit1 { 2 } else { random.within(1, 3) as u8 };
    match random.below(4) {
        0 | 1 => turn(symbol, by),
        2 => symbol.fill(LOST),
        _ => symbol.iter_mut().for_each(|chip| *chip = if random.once_in(2) { random.phase() } else { *chip }),
    }
}

pub fn block_edges(out: &mut Out) {
    for (kind, rate) in pairs() {
        // At least 130 symbols, and about 20 octets and 300.
        let least = (130 * rate.bits_per_symbol()).div_ceil(8);
        for n in [least + out.random.below(3), 20, 301 + out.random.below(60)] {
            let frames = Draft::random(kind, rate, n, &mut out.random).both_clocks();
            let (front, each) = (kind.front_chips(), rate.chips_per_symbol());
            let by_octet = edges(n, &mut out.random).into_iter().map(|octet| octet * 8 / rate.bits_per_symbol());
            let by_symbol = edges((frames[0].len() - front) / each, &mut out.random);
            let symbols: BTreeSet<usize> = by_octet.chain(by_symbol).collect();
            for symbol in symbols {
                let mut spoiled = out.random.one_of(&frames).clone();
                let at = front + each * symbol;
                damage(&mut spoiled[at..at + each], rate, &mut out.random);
                let recorder = out.random.pick(&Recorder::HARD_TWICE);
                out.call(recorder.reading(kind.number(), spoiled, n));
            }
        }
    }
}

pub fn long_damage(out: &mut Out) {
    for (kind, rate) in pairs() {
        for case in 0..out.cases(9) {
            let n = out.random.within(301, 1100);
            let mut chips = Draft::random(kind, rate, n, &mut out.random).chips();
            let one_in = out.random.pick(&[400, 40, 10, 5, 3]);
            for chip in &mut chips[kind.front_chips()..] {
                if out.random.once_in(one_in) {
                    *chip = out.random.below(5) as u8;
                }
            }
            if case % 3 == 0 {
                out.call(Call::hard(kind.number(), chips, n));
                continue;
            }
            let (mut i, mut q) = soft_rows(&chips, 0.5);
            let spread = out.random.pick(&[0.05, 0.2, 0.4]);
            for x in i[kind.front_chips()..].iter_mut().chain(&mut q[kind.front_chips()..]) {
                *x = (*x + out.random.noise(spread)).clamp(-8.0, 8.0);
            }
            out.call(match case % 3 {
                1 => Call::soft(kind.number(), (i, q), n),
                _ => Call::bytes(kind.number(), bytes_of(&i, &q), n),
            });
        }
    }
}
