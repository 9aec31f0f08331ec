//! Stores of every shape: every set of some tags, every number of entries, each entry of 16 spoiled, bodies of settings
//! of every length, settings that one change would put right, and zeros behind a store.

use super::store::{any_change, any_settings, change_store, read_store, Contents};
use super::Out;
use crate::random::Random;
use crate::store::{written, FIRST_HIGH, MOST_ENTRIES, WRITTEN};

/// Tags of which every set is tried.
const SOME_TAGS: [u8; 9] = [0, 1, 2, 3, 4, 127, 128, 200, 255];

/// A body of one octet for each tag of a set; the settings are allowed.
fn with_tags(set: usize) -> Contents {
    let tags = (0..SOME_TAGS.len()).filter(|at| set >> at & 1 == 1).map(|at| SOME_TAGS[at]);
    Contents { version: 1, bodies: tags.map(|tag| (tag, vec![if tag == 2 { 20 } else { 0 }])).collect() }
}

/// Every set of tags: read, read with an octet more, changed, and read with the tags falling.
fn each_set_of_tags(out: &mut Out) {
    for mut contents in (0..1 << SOME_TAGS.len()).map(with_tags) {
        let store = contents.octets();
        read_store(out, &store);
        [(3, 1), (2, 110), (1, 1), (4, 0)].iter().for_each(|(tag, value)| change_store(out, &store, *tag, *value));
        read_store(out, &[&store[..], &[0]].concat());
        contents.bodies.reverse();
        read_store(out, &contents.octets());
    }
}

/// Tables of zeros, of every number of entries: just whole, and an octet short.
fn each_count(out: &mut Out) {
    for count in 0..=255_u8 {
        let mut store = vec![1, count];
        store.resize(2 + 4 * usize::from(count), 0);
        any_change(out, &store);
        any_change(out, &store[..store.len() - 1]);
    }
}

/// Stores of 16 entries: a good one, and those that are refused with 25, with 25 before 26, with 27 and with 28.
fn of_sixteen(random: &mut Random) -> [Contents; 5] {
    let good = Contents::of(any_settings(random)).and(0, vec![7; 200]);
    let high = good.clone().and(FIRST_HIGH, vec![1]).and(255, Vec::new());
    let (mut lacking, mut long, gone) = (high.clone(), good.clone(), random.within(1, 3));
    lacking.bodies.remove(gone);
    long.bodies[gone].1.push(0);
    let bad = Contents::of([1, 10, 0]).and(0, vec![7; 200]);
    [good, high, lacking, long, bad].map(|contents| contents.up_to(MOST_ENTRIES, 3, random))
}

/// Which octet of an entry gets how much more, in 8 bits: of the offset and of the length.
const MORE: [(usize, u8); 5] = [(1, 1), (1, 255), (2, 1), (3, 1), (3, 255)];

/// Each of 16 entries with another offset and length, with the tag of the one before it, and with tags exchanged.
fn each_entry(out: &mut Out, store: &[u8]) {
    for at in (0..MOST_ENTRIES).map(|entry| 2 + 4 * entry) {
        let with = |octet: usize, value: u8| {
            let mut other = store.to_vec();
            other[octet] = value;
            other
        };
        let spoiled = MORE.map(|(octet, more)| with(at + octet, store[at + octet].wrapping_add(more)));
        spoiled.iter().for_each(|other| read_store(out, other));
        if at > 2 {
            let mut alike = with(at, store[at - 4]);
            read_store(out, &alike);
            alike[at - 4] = store[at];
            read_store(out, &alike);
        }
    }
}

/// Shows: a refusal that is not asked of one entry, or is asked for in another order where entries are few or many; a
/// number of entries that is let through.
pub fn store_shapes(out: &mut Out) {
    each_set_of_tags(out);
    each_count(out);
    for contents in of_sixteen(&mut out.random) {
        let store = contents.octets();
        (0..4).for_each(|_| any_change(out, &store));
        each_entry(out, &store);
    }
}

/// The body of each setting at every length, with the two others and without one of them.
fn each_len(out: &mut Out) {
    let settings = any_settings(&mut out.random);
    for (at, len) in (0..3).flat_map(|at| (0..=255).map(move |len| (at, len))) {
        let mut contents = Contents::of(settings);
        contents.bodies[at].1.resize(len, 1);
        read_store(out, &contents.octets());
        contents.bodies.remove((at + 1) % 3);
        read_store(out, &contents.octets());
    }
}

/// The bodies of all settings at up to three octets each: read, changed, and read without one of them.
fn lens_of_three(out: &mut Out) {
    const SETTINGS: [u64; 3] = [0, 20, 1];
    for lens in 0..64_usize {
        let mut contents = Contents::of(SETTINGS);
        (0..3).for_each(|at| contents.bodies[at].1.resize(lens >> (2 * at) & 3, 1));
        let store = contents.octets();
        read_store(out, &store);
        (1..=3).for_each(|tag| change_store(out, &store, tag, SETTINGS[tag as usize - 1]));
        contents.bodies.remove(lens % 3);
        read_store(out, &contents.octets());
    }
}

/// Settings that aren't allowed, each of which one of the changes would put right.
const WRONG_BY_ONE: [[u64; 3]; 5] = [[2, 20, 0], [0, 11, 0], [1, 10, 0], [0, 10, 4], [1, 110, 255]];
const PUT_RIGHT: [(u64, u64); 6] = [(1, 0), (1, 1), (2, 20), (2, 110), (3, 0), (3, 3)];

/// Stores whose settings aren't allowed, of so many entries, read and changed.
fn put_right(out: &mut Out, entries: usize) {
    for (settings, (tag, value)) in WRONG_BY_ONE.into_iter().flat_map(|bad| PUT_RIGHT.map(|change| (bad, change))) {
        let store = Contents::of(settings).up_to(entries, 100, &mut out.random).octets();
        read_store(out, &store);
        change_store(out, &store, tag, value);
    }
}

/// Each unknown tag that stands in a store with one octet, changed.
fn unknown_changed(out: &mut Out) {
    for tag in (0..FIRST_HIGH).filter(|tag| !(1..=3).contains(tag)) {
        let store = Contents::of(any_settings(&mut out.random)).and(tag, vec![0]).octets();
        read_store(out, &store);
        change_store(out, &store, u64::from(tag), 1);
    }
}

/// Good changes of two stores in turn, whose bodies stand elsewhere: what one change left behind, the next would use.
fn in_turn(out: &mut Out) {
    for at in 0..300 {
        let contents = Contents::of([0, 20, at % 4]);
        let contents = if at % 2 == 0 { contents } else { contents.and(0, vec![7; 200]) };
        let (tag, value) = out.random.pick(&[(1, 1), (2, 110), (3, 0)]);
        change_store(out, &contents.octets(), tag, value);
    }
}

/// A store as it is written, with so many zeros behind it or up to so many octets.
fn zeros_behind(out: &mut Out) {
    let store = written(any_settings(&mut out.random));
    for len in (1..=300).map(|more| WRITTEN + more).chain([512, 1024, 2048, 4096]) {
        any_change(out, &[&store[..], &vec![0; len - WRITTEN]].concat());
    }
}

/// Shows: a body of more or of no octets that is taken for a setting; a change that is done because it puts a store
/// right, of a tag that is no setting's, or with what another change left; zeros taken for part of a store.
pub fn store_bodies(out: &mut Out) {
    each_len(out);
    lens_of_three(out);
    [3, 4, 16].into_iter().for_each(|entries| put_right(out, entries));
    unknown_changed(out);
    in_turn(out);
    zeros_behind(out);
}
