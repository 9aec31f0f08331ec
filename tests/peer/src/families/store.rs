//! A store of a table's radio settings: written and read back, each set of its refusals, each change of a setting, and
//! its settings beside the write of a frame with the same numbers.

use super::widths::bits_more;
use super::{pairs, Out, KINDS};
use crate::calls::Call;
use crate::random::Random;
use crate::store::{allowed, change, read, written, LARGEST, MOST_ENTRIES, WRITTEN};
use crate::store_calls::StoreCall;

/// What a writer puts into a store: a version, and tags with their bodies, in the table's order.
#[derive(Clone)]
pub struct Contents {
    pub version: u8,
    pub bodies: Vec<(u8, Vec<u8>)>,
}

impl Contents {
    pub fn of([kind, rate, phase]: [u64; 3]) -> Contents {
        Contents { version: 1, bodies: vec![(1, vec![kind as u8]), (2, vec![rate as u8]), (3, vec![phase as u8])] }
    }

    /// With one more entry, where its tag belongs.
    pub fn and(mut self, tag: u8, body: Vec<u8>) -> Contents {
        self.bodies.push((tag, body));
        self.bodies.sort_by_key(|(tag, _)| *tag);
        self
    }

    /// With unknown tags up to so many entries, each tag once, and bodies of up to so many octets.
    pub fn up_to(mut self, entries: usize, octets: usize, random: &mut Random) -> Contents {
        while self.bodies.len() < entries {
            let tag = if random.once_in(10) { 0 } else { random.within(4, 127) as u8 };
            if self.bodies.iter().all(|(other, _)| *other != tag) {
                let len = random.below(octets + 1);
                self = self.and(tag, random.octets(len));
            }
        }
        self
    }

    /// The octets of the store, laid out.
    pub fn octets(&self) -> Vec<u8> {
        let mut at = 2 + 4 * self.bodies.len();
        let mut store = vec![self.version, self.bodies.len() as u8];
        for (tag, body) in &self.bodies {
            store.extend([*tag, at as u8, (at / 256) as u8, body.len() as u8]);
            at += body.len();
        }
        self.bodies.iter().for_each(|(_, body)| store.extend(body));
        store
    }
}

/// Every kind, rate and phase that go together.
pub fn good_settings() -> impl Iterator<Item = [u64; 3]> {
    pairs().flat_map(|(kind, rate)| (0..4).map(move |phase| [kind.number(), u64::from(rate.code()), phase]))
}

pub fn any_settings(random: &mut Random) -> [u64; 3] {
    let all: Vec<_> = good_settings().collect();
    random.pick(&all)
}

/// Settings that aren't allowed: by the kind, the rate, the two together, the phase, and by several.
const BAD: [[u64; 3]; 12] = [
    [2, 110, 0],
    [255, 20, 1],
    [0, 0, 0],
    [0, 11, 3],
    [1, 255, 0],
    [1, 10, 0],
    [0, 10, 4],
    [1, 110, 255],
    [2, 10, 4],
    [1, 10, 7],
    [256, 20, 0],
    [0, 266, 0],
];

pub fn write_store(out: &mut Out, values: [u64; 3], store_len: usize) {
    out.call(Call::Store(StoreCall::Write { values, store_len }));
}

pub fn read_store(out: &mut Out, store: &[u8]) {
    out.call(Call::Store(StoreCall::Read { store: store.to_vec() }));
}

pub fn change_store(out: &mut Out, store: &[u8], tag: u64, value: u64) {
    out.call(Call::Store(StoreCall::Change { store: store.to_vec(), tag, value }));
}

/// A store read, changed, and read as the change must have left it.
pub fn change_and_read(out: &mut Out, store: &[u8], tag: u64, value: u64) {
    read_store(out, store);
    change_store(out, store, tag, value);
    let mut left = store.to_vec();
    if change(&mut left, tag, value) == 0 {
        read_store(out, &left);
    }
}

/// Rooms of more than a store, up to more than the largest.
const MORE_ROOM: [usize; 8] = [24, 64, 256, 300, 1024, 4096, LARGEST, LARGEST + 1];

/// Settings, allowed and not, with so much room.
fn store_in(out: &mut Out, room: usize) {
    let good = any_settings(&mut out.random);
    BAD.into_iter().chain([good; 4]).for_each(|values| write_store(out, values, room));
}

/// Shows: an octet of the store, or of the zeros behind it, that is wrong, and a room that is taken for another.
pub fn store_written(out: &mut Out) {
    for values in (0..4).flat_map(|_| good_settings()) {
        let more = out.random.pick(&[0, 0, 0, 1, 3, 40, 1000, 3000]);
        write_store(out, values, WRITTEN + more);
        read_store(out, &written(values));
    }
    (0..=20).chain(MORE_ROOM).for_each(|room| store_in(out, room));
}

/// The numbers that a store can be spoiled for, each by itself.
const SPOILED: [u64; 7] = [22, 23, 24, 25, 26, 27, 28];

/// Contents that meet these refusals, but for 24, which is met by octets alone.
fn contents_refused(with: &[u64], random: &mut Random) -> Contents {
    let setting = random.below(3);
    // The last two of the bad settings are no octets, and would be cut to good ones.
    let values = if with.contains(&28) { random.pick(&BAD[..10]) } else { any_settings(random) };
    let mut contents = Contents { version: random.pick(&[0, 1, 2, 255]), ..Contents::of(values) };
    if with.contains(&27) {
        let more = random.octets(2);
        let body = &mut contents.bodies[setting].1;
        body.extend(more);
        let len = random.pick(&[0, 2, 3]);
        body.truncate(len);
    }
    if with.contains(&26) {
        let gone = (setting + random.within(1, 2)) % 3;
        contents.bodies.remove(gone);
    }
    let few = random.below(4);
    contents = contents.up_to(3 + few, 4, random);
    if with.contains(&25) {
        let (tag, len) = (random.pick(&[128, 128, 129, 200, 255]), random.below(3));
        contents = contents.and(tag, random.octets(len));
    }
    if with.contains(&22) {
        let many = random.pick(&[MOST_ENTRIES + 1, MOST_ENTRIES + 1, MOST_ENTRIES + 2, 30]);
        contents = contents.up_to(many, 2, random);
    }
    if with.contains(&23) {
        let at = random.within(1, contents.bodies.len() - 1);
        if random.once_in(2) {
            contents.bodies.swap(at - 1, at);
        } else {
            contents.bodies[at].0 = contents.bodies[at - 1].0;
        }
    }
    contents
}

/// Spoils an offset, a length or the end of a store, as 24 has it.
fn spoil_layout(store: &mut Vec<u8>, random: &mut Random) {
    let entry = 2 + 4 * random.below(store[1] as usize);
    let other = random.within(1, 255) as u8;
    match random.below(6) {
        0 => store[entry + 1] = store[entry + 1].wrapping_add(random.pick(&[1, 255])),
        1 => store[entry + 2] ^= random.pick(&[1, 1, 128, other]),
        2 => store[entry + 3] = store[entry + 3].wrapping_add(random.pick(&[1, 255])),
        3 => store.push(0),
        4 => store.push(other),
        _ => store.truncate((store.len() - 1).max(2 + 4 * store[1] as usize)),
    }
}

/// A store that meets these refusals and no other before them.
pub fn store_refused(with: &[u64], random: &mut Random) -> Vec<u8> {
    let mut store = contents_refused(with, random).octets();
    if with.contains(&24) {
        spoil_layout(&mut store, random);
    }
    store
}

/// Tags of a change, and values, those first that are some setting's.
const CHANGE_TAGS: [u64; 9] = [1, 2, 3, 0, 4, 127, 128, 255, 257];
const CHANGE_VALUES: [u64; 9] = [0, 1, 3, 10, 110, 2, 111, 255, 266];

/// A change of any tag to any value.
pub fn any_change(out: &mut Out, store: &[u8]) {
    let (tag, value) = (out.random.pick(&CHANGE_TAGS), out.random.pick(&CHANGE_VALUES));
    change_and_read(out, store, tag, value);
}

/// Each set of these refusals so many times, and tables that are cut.
fn each_set(out: &mut Out, of: &[u64], times: usize) {
    for set in (0..1 << of.len()).cycle().take(times << of.len()) {
        let with: Vec<u64> = (0..of.len()).filter(|at| set >> at & 1 == 1).map(|at| of[at]).collect();
        let mut store = store_refused(&with, &mut out.random);
        any_change(out, &store);
        if out.random.once_in(4) {
            let table = 2 + 4 * store[1] as usize;
            store.truncate(out.random.below(table));
            any_change(out, &store);
        }
    }
}

/// Shows: a refusal that is asked for before another, or of one entry after the other; a store that is cut. Those that
/// are asked for last are met alone more often.
pub fn store_orders(out: &mut Out) {
    for store in [&[][..], &[1], &[1, 0], &[1, 0, 0], &[1, 1], &[1, 17], &[0, 255, 1]] {
        any_change(out, store);
    }
    each_set(out, &SPOILED[4..], out.cases(10));
    each_set(out, &SPOILED, out.cases(5));
}

/// Shows: a change judged by its value alone, written elsewhere, or told by another number.
pub fn store_changes(out: &mut Out) {
    for (at, (kind, rate)) in pairs().enumerate() {
        let settings = [kind.number(), u64::from(rate.code()), at as u64 % 4];
        let newer = Contents { version: 9, ..Contents::of(settings) }.and(0, vec![0; 3]).and(77, vec![1, 2]);
        let store = if at % 2 == 0 { written(settings).to_vec() } else { newer.octets() };
        for (tag, value) in (1..=3).flat_map(|tag| (0..=255).map(move |value| (tag, value))) {
            let mut left = store.clone();
            if change(&mut left, tag, value) == 0 {
                change_and_read(out, &store, tag, value);
            } else {
                change_store(out, &store, tag, value);
            }
        }
    }
}

/// Every number that is good in its lowest 8, 16 or 32 bits only, by each bit and by several.
fn more_than(good: u64) -> impl Iterator<Item = u64> {
    let several = [0x0101_0101_0101_0100, 0xFFFF_FFFF_0000_0000, 0xFFFF_FFFF_FFFF_FF00, 3 << 32, 258 << 8];
    bits_more(good).chain(several.map(|more| good | more))
}

/// A write and a change of each setting with more than its good number.
fn wide_values(out: &mut Out, good: [u64; 3], store: &[u8]) {
    for (at, number) in (0..3).flat_map(|at| more_than(good[at]).map(move |number| (at, number))) {
        let mut values = good;
        values[at] = number;
        let room = out.random.within(WRITTEN, WRITTEN + 3);
        write_store(out, values, room);
        change_store(out, store, at as u64 + 1, number);
    }
}

/// Shows: a number of a write or of a change that is cut, or of which a bit is lost.
pub fn store_numbers(out: &mut Out) {
    for (kind, rate) in pairs() {
        let good = [kind.number(), u64::from(rate.code()), u64::from(out.random.phase())];
        let store = written(good);
        wide_values(out, good, &store);
        let wide = (0..3).flat_map(|at| more_than(at + 1).map(move |tag| (at, tag)));
        let each = (0..=255).map(|tag| (tag % 3, tag));
        wide.chain(each).for_each(|(at, tag)| change_store(out, &store, tag, good[at as usize]));
    }
}

/// Rates and phases beside the good ones.
const RATES: [u64; 12] = [10, 20, 55, 110, 0, 1, 11, 255, 266, 366, (1 << 32) + 20, u64::MAX];
const PHASES: [u64; 8] = [0, 1, 2, 3, 4, 255, 256, (1 << 32) + 1];

/// A store that is read, and a frame of one octet written with the settings that it tells; 2,200 chips are room for
/// any.
fn frame_by_store(out: &mut Out, store: &[u8]) {
    let [_, kind, rate, phase] = read(store);
    read_store(out, store);
    out.call(Call::write(kind, rate, phase, 0, vec![1], 2200));
}

/// Shows: settings that a store holds and a frame's write refuses, or the other way.
pub fn store_serves(out: &mut Out) {
    let rates = |kind: u64| RATES.into_iter().map(move |rate| (kind, rate));
    let all = KINDS.into_iter().flat_map(rates).flat_map(|(kind, rate)| PHASES.map(|phase| [kind, rate, phase]));
    for values in all {
        // No chips: a frame whose settings are allowed is refused with 6, which is asked for last.
        out.call(Call::write(values[0], values[1], values[2], 0, vec![1], 0));
        write_store(out, values, WRITTEN);
        if allowed(values) {
            let entries = out.random.within(3, 6);
            let newer = Contents::of(values).up_to(entries, 5, &mut out.random);
            frame_by_store(out, &written(values));
            frame_by_store(out, &newer.octets());
        }
    }
}
