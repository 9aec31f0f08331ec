//! Stores that any program may have written: short files, stores with an octet changed, taken out or put in, newer
//! writers' stores with unknown tags, and the largest ones.

use super::store::{any_change, any_settings, change_and_read, change_store, read_store, store_refused, Contents};
use super::Out;
use crate::calls::Call;
use crate::laid::WIDTHS;
use crate::random::Random;
use crate::store::{written, FIRST_HIGH, LARGEST, MOST_ENTRIES, WRITTEN};
use crate::store_calls::StoreCall;

/// The octets of short files: small numbers, where the body of one entry begins, and a high tag.
const FEW: [u8; 5] = [0, 1, 6, 2, 128];

/// The octets of short files in the longer run.
const MORE: [u8; 7] = [0, 1, 6, 2, 128, 3, 255];

/// The file of so many octets with this number among all of these octets.
fn short_file(len: u32, number: usize, of: &[u8]) -> Vec<u8> {
    (0..len).map(|at| of[number / of.len().pow(at) % of.len()]).collect()
}

/// Shows: a look behind a short store, a table that is not whole, an empty table, an offset or an end that is not held
/// to the layout.
pub fn store_small(out: &mut Out) {
    let of = if out.long { &MORE[..] } else { &FEW };
    for (len, number) in (0..=6).flat_map(|len| (0..of.len().pow(len)).map(move |number| (len, number))) {
        let store = short_file(len, number, of);
        read_store(out, &store);
        if out.random.once_in(8) {
            let (tag, value) = (out.random.within(0, 4) as u64, out.random.within(0, 2) as u64);
            change_store(out, &store, tag, value);
        }
    }
}

/// A newer writer's store that has all that an older reader passes over, in few octets.
fn newer_store(random: &mut Random) -> Vec<u8> {
    let contents = Contents { version: 2, ..Contents::of(any_settings(random)) };
    contents.and(0, vec![1, 2]).and(4, Vec::new()).and(127, vec![3, 128, 255]).octets()
}

/// One octet changed to every value, at every place.
fn octets_changed(out: &mut Out, store: &[u8]) {
    for (at, octet) in (0..store.len()).flat_map(|at| (0..=255).map(move |octet| (at, octet))) {
        let mut other = store.to_vec();
        other[at] = octet;
        read_store(out, &other);
        if out.random.once_in(8) {
            any_change(out, &other);
        }
    }
}

/// The store cut to every length, an octet taken out at every place, and some put in.
fn octets_lost_and_added(out: &mut Out, store: &[u8]) {
    for at in 0..=store.len() {
        any_change(out, &store[..at]);
        if at < store.len() {
            any_change(out, &[&store[..at], &store[at + 1..]].concat());
        }
        let other = out.random.below(256) as u8;
        for octet in [0, 1, 2, 128, 255, other] {
            any_change(out, &[&store[..at], &[octet], &store[at..]].concat());
        }
    }
}

/// Two octets changed.
fn two_changed(out: &mut Out) {
    let mut store = newer_store(&mut out.random);
    for _ in 0..2 {
        let (at, octet) = (out.random.below(store.len()), out.random.below(256) as u8);
        store[at] = octet;
    }
    any_change(out, &store);
}

/// Shows: an octet that is not asked for, or is held to another one.
pub fn store_octets(out: &mut Out) {
    let (short, newer) = (written(any_settings(&mut out.random)).to_vec(), newer_store(&mut out.random));
    for store in [short, newer] {
        octets_lost_and_added(out, &store);
        octets_changed(out, &store);
    }
    (0..out.cases(300)).for_each(|_| two_changed(out));
}

/// The largest body before the settings, at the table's least and most entries: offsets about 256.
fn far_settings(out: &mut Out) {
    for (entries, len) in [(4, 237), (4, 238), (4, 255), (16, 186), (16, 187), (16, 189), (16, 190), (16, 255)] {
        let contents = Contents::of(any_settings(&mut out.random)).and(0, out.random.octets(len));
        let store = contents.up_to(entries, 255, &mut out.random).octets();
        (1..=3).for_each(|tag| change_and_read(out, &store, tag, [0, 20, 1][tag as usize - 1]));
        // Octet 8 is the high octet of tag 1's offset, 0 or 1: here it is made the other.
        let mut low = store.clone();
        low[8] ^= 1;
        read_store(out, &low);
    }
}

/// Each unknown tag, each version and each length of a body, one at a time.
fn each_unknown(out: &mut Out) {
    for octet in 0..=255 {
        let settings = any_settings(&mut out.random);
        let version = Contents { version: octet, ..Contents::of(settings) };
        read_store(out, &version.octets());
        let body = out.random.octets(usize::from(octet));
        let tag = out.random.within(4, 127) as u8;
        read_store(out, &Contents::of(settings).and(tag, body.clone()).octets());
        read_store(out, &Contents::of(settings).and(0, body.clone()).and(tag, body).octets());
        if !(1..=3).contains(&octet) {
            let few = out.random.below(3);
            let body = out.random.octets(few);
            any_change(out, &Contents::of(settings).and(octet, body).octets());
        }
    }
}

/// Shows: an unknown tag that is refused, or one of 128 or more that is not; a version that is asked for; settings
/// taken from another body.
pub fn store_newer(out: &mut Out) {
    far_settings(out);
    each_unknown(out);
    for entries in (3..=MOST_ENTRIES).cycle().take(out.cases(10) * 14) {
        let version = out.random.below(256) as u8;
        let most = out.random.pick(&[0, 3, 40, 255]);
        let contents = Contents { version, ..Contents::of(any_settings(&mut out.random)) };
        let contents = contents.up_to(entries, most, &mut out.random);
        any_change(out, &contents.octets());
        if entries < MOST_ENTRIES {
            let tag = out.random.within(usize::from(FIRST_HIGH), 255) as u8;
            any_change(out, &contents.and(tag, vec![7]).octets());
        }
    }
}

/// A store of so many entries of 255 octets, but for settings of one octet each, if they are to be good.
fn full_store(entries: usize, good: bool, random: &mut Random) -> Contents {
    let mut contents = Contents::of(any_settings(random));
    if !good {
        contents.bodies.iter_mut().for_each(|(_, body)| body.resize(255, 1));
    }
    // Tags from 10 up to 255 and then from 0 on. Among 255 entries, whose tags no reader asks for, some come twice.
    for tag in (10..=255).chain(0..10).take(entries - 3) {
        contents = contents.and(tag, random.octets(255));
    }
    contents
}

/// A store whose octets are cut to each of these lengths, or have zeros behind them up to it.
fn with_each_len(out: &mut Out, store: &[u8], lens: &[usize]) {
    for len in lens {
        let mut other = store.to_vec();
        other.resize(*len, 0);
        any_change(out, &other);
    }
}

/// Shows: a sum of lengths or an offset in 8 bits, 16 entries refused or 17 not, an octet more not seen behind the
/// largest store.
pub fn store_largest(out: &mut Out) {
    for (entries, good) in [(16, true), (16, false), (17, true), (17, false), (18, true), (15, true), (255, true)] {
        let store = full_store(entries, good, &mut out.random).octets();
        let len = store.len();
        with_each_len(out, &store, &[len, len - 1, len + 1, len + 256, len - 256]);
    }
    // Each refusal and none, in stores of the most octets and of more.
    for number in (22..=28).chain([0]) {
        let store = store_refused(&[number], &mut out.random);
        with_each_len(out, &store, &[LARGEST - 1, LARGEST, LARGEST + 1, LARGEST + 50]);
    }
    // Without the settings, and with a tag of 128: laid out, and of the most octets.
    for tags in [0..16_u8, 4..20, 113..129] {
        let bodies = tags.map(|tag| (tag, out.random.octets(255))).collect();
        any_change(out, &Contents { version: 1, bodies }.octets());
    }
}

/// Shows: a store's length that is cut to 16, 20, 22 or 24 bits, and zeros taken for part of a store.
pub fn store_wide(out: &mut Out) {
    for wide in WIDTHS.map(|bits| 1 << bits) {
        let mut store = written(any_settings(&mut out.random)).to_vec();
        store.resize(wide + WRITTEN, 0);
        read_store(out, &store);
        change_store(out, &store, 3, 1);
        let (values, few) = (any_settings(&mut out.random), out.random.below(WRITTEN));
        for values in [values, [1, 10, 0]] {
            out.over_aa(Call::Store(StoreCall::Write { values, store_len: wide + few }));
        }
        if wide < 1 << 22 {
            change_and_read(out, &store[..wide], 1, 1);
        } else {
            read_store(out, &store[..wide]);
        }
    }
}
