//! Ties at 11 Mbit/s, made on purpose: payload symbols in which several words share the largest score, and symbols one
//! step beside those. They stand behind clean fronts, so that the octets tell which words were chosen.

use super::steps::{hard_chip, least, most, sample, some_size, unit};
use super::{byte_row, soft_rows, Draft, Out, Recorder};
use crate::bits::Rate;
use crate::calls::Call;
use crate::chips::Counts;
use crate::frame::Kind;
use crate::random::Random;
use crate::symbols::{choose, tied, ALLOWED_11};

/// The I and Q of eight chips, in a recorder's own steps: full chips if it is hard, 1024ths of one if soft, bytes.
type Symbol = [Counts; 8];

/// The words' numbers by their phases: p1 counts 64, p2 16, p3 4, p4 1.
const PLACES: [u8; 4] = [64, 16, 4, 1];

/// Payloads that end at each place of a row of sixteen symbols and of a block of 64, and longer ones.
fn lengths() -> impl Iterator<Item = usize> + Clone {
    (1..=70).chain([127, 128, 129, 1000])
}

/// A word's full chips, in units.
fn full(number: u8) -> Symbol {
    ALLOWED_11[usize::from(number)].1.map(unit)
}

fn sized(symbol: Symbol, size: i32) -> Symbol {
    symbol.map(|(i, q)| (size * i, size * q))
}

/// The full chips of words added up. Of two words both then score the same; of more, those as far from the others.
fn together(words: &[u8]) -> Symbol {
    let mut sum = [(0, 0); 8];
    for word in words {
        for (sum, (i, q)) in sum.iter_mut().zip(full(*word)) {
            *sum = (sum.0 + i, sum.1 + q);
        }
    }
    sum
}

/// A word's chips without those of a set, one bit a chip.
fn without(word: u8, set: usize) -> Symbol {
    let mut symbol = full(word);
    (0..8).filter(|chip| set >> chip & 1 == 1).for_each(|chip| symbol[chip] = (0, 0));
    symbol
}

/// A word with chips exchanged for those of another, so that both score the same and no third more, if there are such;
/// some chips may be lost too.
fn exchanged(one: u8, other: u8, random: &mut Random) -> Symbol {
    let mut symbol = full(one);
    for tries in 0..60 {
        let (set, lost) = (random.below(256), if tries < 30 { 0 } else { random.below(256) });
        symbol = without(one, lost);
        (0..8).filter(|chip| (set & !lost) >> chip & 1 == 1).for_each(|chip| symbol[chip] = full(other)[chip]);
        let tied = tied(&ALLOWED_11, &symbol);
        if tied.contains(&one) && tied.contains(&other) {
            break;
        }
    }
    symbol
}

/// A word turned in one phase alone, 0 being p1.
fn turned_in(word: u8, phase: usize, by: u8) -> u8 {
    let place = PLACES[phase];
    let before = word / place % 4;
    word - before * place + (before + by) % 4 * place
}

/// A word that is apart in one phase alone, in p1 by a half turn, in two phases or in any.
fn beside(word: u8, random: &mut Random) -> u8 {
    let (phase, by) = (random.below(4), random.within(1, 3) as u8);
    match random.below(4) {
        0 => turned_in(word, phase, by),
        1 => turned_in(word, 0, 2),
        2 => turned_in(turned_in(word, phase, by), random.below(4), by),
        _ => random.below(256) as u8,
    }
}

/// Two words that tie, as a recorder can have them: exchanged chips of full size, or both added up.
fn of_two(recorder: Recorder, one: u8, other: u8, random: &mut Random) -> Symbol {
    match recorder {
        Recorder::Hard => exchanged(one, other, random),
        _ => sized(together(&[one, other]), some_size(recorder, 2, random)),
    }
}

/// A symbol whose I and Q are equal in each chip, so that words tie with those a quarter turn further: a word turned by
/// an eighth, or any signs. A hard one has phases 0 and 1 instead, and lost chips.
fn equal_axes(recorder: Recorder, random: &mut Random) -> Symbol {
    let word = random.below(256) as u8;
    let size = some_size(recorder, 1, random);
    match (recorder, random.below(2)) {
        (Recorder::Hard, _) => [(); 8].map(|()| random.pick(&[(1, 0), (0, 1), (0, 0)])),
        (_, 0) => sized(together(&[word, turned_in(word, 0, 1)]), size),
        _ => [(); 8].map(|()| random.pick(&[-size, 0, size])).map(|x| (x, x)),
    }
}

/// A symbol in which words often tie.
fn tie(recorder: Recorder, random: &mut Random) -> Symbol {
    let one = random.below(256) as u8;
    let (other, third, fourth) = (beside(one, random), beside(one, random), random.below(256) as u8);
    match (random.below(8), recorder) {
        (0, _) => sized(without(one, random.below(256)), some_size(recorder, 1, random)),
        (1, _) => equal_axes(recorder, random),
        (2, _) => sized(exchanged(one, other, random), some_size(recorder, 1, random)),
        (3 | 4, Recorder::Soft | Recorder::Bytes) => {
            sized(together(&[one, other, third]), some_size(recorder, 3, random))
        }
        (5, Recorder::Soft | Recorder::Bytes) => {
            sized(together(&[one, other, third, fourth]), some_size(recorder, 4, random))
        }
        (6, _) => [(0, 0); 8],
        _ => of_two(recorder, one, other, random),
    }
}

/// Whether a word is another than those 1, 16 and 64 before it.
fn is_new(word: u8, words: &[u8]) -> bool {
    [1, 16, 64].into_iter().all(|back| words.len() < back || words[words.len() - back] != word)
}

/// The symbols in their order, none deciding what one 1, 16 or 64 before it does, so that a word taken from the symbol
/// beside it, or left from a row or a block before, shows. Where it would, full chips of any words stand before it.
fn laid(symbols: &[Symbol], random: &mut Random) -> Vec<Symbol> {
    let (mut row, mut words) = (Vec::new(), Vec::new());
    for symbol in symbols {
        let word = choose(&ALLOWED_11, symbol).number;
        while !is_new(word, &words) {
            let any = random.below(256) as u8;
            if is_new(any, &words) {
                row.push(full(any));
                words.push(any);
            }
        }
        row.push(*symbol);
        words.push(word);
    }
    row
}

/// The symbols behind a clean front as a recorder has them.
fn reading(recorder: Recorder, symbols: &[Symbol], random: &mut Random) -> Call {
    let (n, kind) = (symbols.len(), random.pick(&[Kind::Short, Kind::Short, Kind::Long]));
    let mut front = Draft::random(kind, Rate::Mbit11, n, random).front();
    let chips = symbols.iter().flatten();
    match recorder {
        Recorder::Hard => {
            front.extend(chips.map(hard_chip));
            Call::hard(kind.number(), front, n)
        }
        Recorder::Soft => {
            let (mut i, mut q) = soft_rows(&front, 1.0);
            for chip in chips {
                i.push(sample(chip.0, random));
                q.push(sample(chip.1, random));
            }
            Call::soft(kind.number(), (i, q), n)
        }
        Recorder::Bytes => {
            let mut bytes = byte_row(&front, 1.0);
            bytes.extend(chips.flat_map(|(i, q)| [*i as i8, *q as i8]));
            Call::bytes(kind.number(), bytes, n)
        }
    }
}

/// Calls with the symbols cut into payloads of the lengths above, as often as they last.
fn call_all(out: &mut Out, recorder: Recorder, symbols: &[Symbol]) {
    let row = laid(symbols, &mut out.random);
    let mut rest = &row[..];
    for n in lengths().cycle() {
        let (payload, behind) = rest.split_at(n.min(rest.len()));
        if payload.is_empty() {
            return;
        }
        let call = reading(recorder, payload, &mut out.random);
        out.call(call);
        rest = behind;
    }
}

/// Each set of lost chips, each word beside each other one that is apart in one phase alone, and ties at random, in any
/// order.
fn many_ties(recorder: Recorder, random: &mut Random) -> Vec<Symbol> {
    let mut symbols = Vec::new();
    for set in 0..256 {
        let (word, size) = (random.below(256) as u8, some_size(recorder, 1, random));
        symbols.push(sized(without(word, set), size));
    }
    for (word, phase) in (0..=255).flat_map(|word| (0..4).map(move |phase| (word, phase))) {
        for by in 1..4 {
            symbols.push(of_two(recorder, word, turned_in(word, phase, by), random));
        }
    }
    symbols.extend((0..2000).map(|_| tie(recorder, random)));
    for last in (1..symbols.len()).rev() {
        symbols.swap(last, random.below(last + 1));
    }
    symbols
}

pub fn ties_eleven(out: &mut Out) {
    for _ in 0..out.cases(4) {
        for recorder in Recorder::ALL {
            let symbols = many_ties(recorder, &mut out.random);
            call_all(out, recorder, &symbols);
        }
    }
}

/// A tie of values that are 0 or at an end of what a recorder has.
fn largest(recorder: Recorder, random: &mut Random) -> Symbol {
    let ends = [least(recorder), 0, most(recorder)];
    loop {
        let (one, other) = (random.below(256) as u8, random.below(256) as u8);
        let few = random.pick(&[[-1, 0], [-1, 1], [0, 1], [-1, -1]]);
        let signs = match random.below(3) {
            0 => together(&[one, other]),
            1 => together(&[one, turned_in(one, 0, 1)]),
            _ => [(); 8].map(|()| (random.pick(&few), random.pick(&few))),
        };
        let end = |sign: i32| ends[(sign.signum() + 1) as usize];
        let symbol = signs.map(|(i, q)| (end(i), end(q)));
        if tied(&ALLOWED_11, &symbol).len() > 1 {
            return symbol;
        }
    }
}

pub fn ties_eleven_largest(out: &mut Out) {
    for recorder in [Recorder::Soft, Recorder::Bytes] {
        let symbols: Vec<Symbol> = (0..out.cases(3000)).map(|_| largest(recorder, &mut out.random)).collect();
        call_all(out, recorder, &symbols);
    }
}

/// One value a step more or less, or one hard chip another; as it is where that is out of the recorder's range.
fn a_step_beside(recorder: Recorder, mut symbol: Symbol, random: &mut Random) -> Symbol {
    let (chip, step) = (&mut symbol[random.below(8)], random.pick(&[1, -1]));
    match (recorder, random.once_in(2)) {
        (Recorder::Hard, _) => *chip = random.pick(&[(1, 0), (0, 1), (-1, 0), (0, -1), (0, 0)]),
        (_, true) => chip.0 = (chip.0 + step).clamp(least(recorder), most(recorder)),
        (_, false) => chip.1 = (chip.1 + step).clamp(least(recorder), most(recorder)),
    }
    symbol
}

/// A tie a step beside, so that fewer of its words lead, the one chosen before or not; none if no such step is found.
fn broken(recorder: Recorder, symbol: Symbol, keep: bool, random: &mut Random) -> Option<Symbol> {
    let before = tied(&ALLOWED_11, &symbol);
    let breaks = |changed: &Symbol| {
        let after = tied(&ALLOWED_11, changed);
        let fewer = after.len() < before.len() && after.iter().all(|word| before.contains(word));
        fewer && (after[0] == before[0]) == keep
    };
    (0..40).map(|_| a_step_beside(recorder, symbol, random)).find(breaks)
}

pub fn ties_eleven_broken(out: &mut Out) {
    for recorder in Recorder::ALL {
        let mut symbols = Vec::new();
        for case in 0..out.cases(2000) {
            let symbol = match (recorder, case % 4) {
                (Recorder::Soft | Recorder::Bytes, 0) => largest(recorder, &mut out.random),
                _ => tie(recorder, &mut out.random),
            };
            symbols.push(symbol);
            for keep in [true, false] {
                symbols.extend(broken(recorder, symbol, keep, &mut out.random));
            }
        }
        call_all(out, recorder, &symbols);
    }
}
