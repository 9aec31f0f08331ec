//! A store of a table's radio settings: kind, rate code and starting phase, in octets.
//!
//! Octet 0 is a version, which is not asked for. Octet 1 is the number of entries, 0 to 16. Then comes the table of
//! contents, four octets an entry: the tag, the offset of its body from the store's start (two octets, the low one
//! first) and its body's length. Then come the bodies, in the order of the table of contents and with no gaps, up to
//! the store's end. Tags rise strictly. Tags 1, 2 and 3 are kind, rate code and starting phase, one octet each.
//!
//! Reading: 21 to 28, each asked of the whole store before the next. Writing: 28, then 29. Changing: as reading, then
//! 30, then 28 of the settings as they would be.

use crate::bits::Rate;
use crate::frame::Kind;
use crate::refusals::{BODY, CHANGE_TAG, ENTRIES, HIGH_TAG, LAYOUT, NO_TAG, SETTINGS, STORE_BUFFER, STORE_ENDS, TAGS};

/// The octets of a store that is written, and of the largest one.
pub const WRITTEN: usize = 17;
pub const LARGEST: usize = 4146;

/// The most entries, and the first tag that a reader must know.
pub const MOST_ENTRIES: usize = 16;
pub const FIRST_HIGH: u8 = 128;

/// The tags of the settings.
pub const TAGS_OF_SETTINGS: [u8; 3] = [1, 2, 3];

/// An entry of the table of contents.
#[derive(Clone, Copy)]
pub struct Entry {
    pub tag: u8,
    pub offset: usize,
    pub len: usize,
}

impl Entry {
    fn of(octets: &[u8]) -> Entry {
        Entry { tag: octets[0], offset: octets[1] as usize + 256 * octets[2] as usize, len: octets[3] as usize }
    }

    fn is_setting(&self) -> bool {
        TAGS_OF_SETTINGS.contains(&self.tag)
    }
}

/// The entries, if the table is in the store whole.
pub fn entries(store: &[u8]) -> Option<Vec<Entry>> {
    let count = usize::from(*store.get(1)?);
    Some(store.get(2..2 + 4 * count)?.chunks(4).map(Entry::of).collect())
}

/// Whether kind, rate code and starting phase, together, are what 1, 2, 3 and 5 allow.
pub fn allowed([kind, rate, phase]: [u64; 3]) -> bool {
    let (kind, rate) = (Kind::of_number(kind), Rate::of_code(rate));
    kind.zip(rate).is_some_and(|(kind, rate)| kind.has(rate)) && phase <= 3
}

/// Whether bodies follow each other with no gaps, the first behind the table, and the last ends with the store.
fn laid_out(entries: &[Entry], end: usize) -> bool {
    let begins = |k: usize| 2 + 4 * entries.len() + entries[..k].iter().map(|entry| entry.len).sum::<usize>();
    (0..entries.len()).all(|k| entries[k].offset == begins(k)) && begins(entries.len()) == end
}

/// The first octet of each setting's body, as far as the store has it.
fn values(store: &[u8], entries: &[Entry]) -> Option<[u64; 3]> {
    let value = |tag: u8| {
        let entry = entries.iter().find(|entry| entry.tag == tag)?;
        store.get(entry.offset).map(|octet| u64::from(*octet))
    };
    Some([value(1)?, value(2)?, value(3)?])
}

/// Every refusal of a read that holds, each asked by itself as far as the store has what it is asked of. Without a
/// whole table no more than 21 and 22 can be asked.
pub fn refusals(store: &[u8]) -> Vec<u64> {
    let table = entries(store);
    let many = store.get(1).is_some_and(|count| usize::from(*count) > MOST_ENTRIES);
    let mut found = vec![(STORE_ENDS, table.is_none()), (ENTRIES, many)];
    if let Some(entries) = table {
        let settings = || entries.iter().filter(|entry| entry.is_setting());
        let lacks = |tag: &u8| entries.iter().all(|entry| entry.tag != *tag);
        found.extend([
            (TAGS, entries.windows(2).any(|pair| pair[0].tag >= pair[1].tag)),
            (LAYOUT, !laid_out(&entries, store.len())),
            (HIGH_TAG, entries.iter().any(|entry| entry.tag >= FIRST_HIGH)),
            (NO_TAG, TAGS_OF_SETTINGS.iter().any(lacks)),
            (BODY, settings().any(|entry| entry.len != 1)),
            (SETTINGS, values(store, &entries).is_some_and(|values| !allowed(values))),
        ]);
    }
    found.into_iter().filter(|(_, holds)| *holds).map(|(number, _)| number).collect()
}

/// The three settings, or the first refusal.
fn settings(store: &[u8]) -> Result<[u64; 3], u64> {
    match refusals(store).first() {
        Some(number) => Err(*number),
        None => Ok(entries(store).and_then(|entries| values(store, &entries)).expect("nothing is refused")),
    }
}

/// The number, and the three settings or zeros.
pub fn read(store: &[u8]) -> [u64; 4] {
    match settings(store) {
        Ok([kind, rate, phase]) => [0, kind, rate, phase],
        Err(number) => [number, 0, 0, 0],
    }
}

/// The octets of a store of version 1 with these settings, which are allowed.
pub fn written([kind, rate, phase]: [u64; 3]) -> [u8; WRITTEN] {
    let (kind, rate, phase) = (kind as u8, rate as u8, phase as u8);
    [1, 3, 1, 14, 0, 1, 2, 15, 0, 1, 3, 16, 0, 1, kind, rate, phase]
}

/// Fills a lent buffer with a store and zeros after it, or with zeros.
pub fn write(values: [u64; 3], buffer: &mut [u8]) -> u64 {
    buffer.fill(0);
    if !allowed(values) {
        return SETTINGS;
    }
    match buffer.get_mut(..WRITTEN) {
        Some(start) => start.copy_from_slice(&written(values)),
        None => return STORE_BUFFER,
    }
    0
}

/// Changes the body of a tag, or nothing.
pub fn change(store: &mut [u8], tag: u64, value: u64) -> u64 {
    let mut values = match settings(store) {
        Ok(values) => values,
        Err(number) => return number,
    };
    let Some(at) = TAGS_OF_SETTINGS.iter().position(|of_setting| u64::from(*of_setting) == tag) else {
        return CHANGE_TAG;
    };
    values[at] = value;
    if !allowed(values) {
        return SETTINGS;
    }
    let entries = entries(store).expect("a store that is read");
    let entry = entries.iter().find(|entry| u64::from(entry.tag) == tag).expect("a store that is read");
    store[entry.offset] = value as u8;
    0
}
