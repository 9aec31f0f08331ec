//! What is met of the calls of a store, by what is expected of them, and how their answers go together, whatever this
//! program expects of each: what was written or changed is read back, a refused change leaves every octet, and settings
//! go together with the write of a frame.

use crate::calls::{Answer, Call};
use crate::refusals::{
    BODY, CHANGE_TAG, ENTRIES, HIGH_TAG, KIND, LAYOUT, PHASE, RATE, SETTINGS, SHORT_AT_10, STORE_BUFFER, STORE_ENDS,
    TAGS,
};
use crate::relations::Held;
use crate::store::{self, allowed, entries, read, Entry, MOST_ENTRIES, TAGS_OF_SETTINGS, WRITTEN};
use crate::store_calls::StoreCall;
use std::collections::BTreeMap;

/// What was met of a call of a store, or was seen to hold of one.
#[derive(Clone, Copy, PartialEq, Eq, PartialOrd, Ord)]
pub enum Stored {
    /// A call of this op is refused with the first number, and the second, which is asked for later, holds too.
    Before(&'static str, u64, u64),
    /// A good read of a store of this version.
    Version(u8),
    /// A good read that passes over this tag.
    Passed(u8),
    /// A read that is refused with 25, whose last tag is this one.
    High(u8),
    /// A read refused with 22, of a table of so many entries, or with 21 of one that is an octet short.
    Count { number: u64, entries: u8 },
    /// A read of 16 entries refused with 23 or 24, for which this entry is the first; of 24, 16 stands for the end.
    At { number: u64, entry: usize },
    /// A read refused with 27, in which this setting's body has so many octets.
    Setting { tag: u8, len: usize },
    /// A good read of a store with so many entries.
    Entries(usize),
    /// A good read that passes over a body of so many octets.
    Body(usize),
    /// A good read of a setting, or of another body, whose offset has this high octet.
    Far { setting: bool, high: usize },
    /// A good read of so many octets.
    Long(usize),
    /// A change of this tag to this octet value, good or not by the value.
    Value { tag: u64, value: u8 },
    /// A good change to the value that stands there.
    Same { tag: u64 },
    /// A change refused with 28, to a value that is allowed with other settings.
    Together { tag: u64 },
    /// A change of this tag, refused with 28 as the read is, which would put the settings right.
    Mends { tag: u64 },
    /// A change refused with 30, whose tag stands in the store with one octet.
    Stands { tag: u64 },
    /// A change with a value that would be good in its lowest bits: 8, 16 or 32 of them.
    WideValue { tag: u64, bits: u32 },
    /// A change with a tag that would be this one in its lowest bits.
    WideTag { tag: u64, bits: u32 },
    /// A write in which one number, by its place, would be good in its lowest bits.
    WideWritten { at: usize, bits: u32 },
    /// A write into so many octets, by whether the settings are allowed; 21 stands for more.
    Room { octets: usize, good: bool },
    /// What was written is read back.
    WrittenBack,
    /// What was changed is read back, with this tag's value and the two others as they were.
    ChangedBack { tag: u64 },
    /// A change refused with this number leaves every octet.
    LeftAll(u64),
    /// A change is refused with this number, as the read of the same store before it.
    RefusedAlike(u64),
    /// A write of a frame isn't refused by the settings that were read from a store.
    Serves,
    /// The write of a store beside that of a frame with the same three numbers, which is refused with this number.
    Beside(u64),
}

/// The bits that a number may be cut to.
pub const CUTS: [u32; 3] = [8, 16, 32];

fn cut(number: u64, bits: u32) -> u64 {
    number & ((1 << bits) - 1)
}

/// Counts what is met of a call of a store, by what is expected of it.
pub fn count(call: &Call, expected: &Answer, held: &mut BTreeMap<Held, u64>) {
    let Call::Store(call) = call else { return };
    let number = expected.numbers[0];
    let later = |found: Vec<u64>| {
        let behind = found.into_iter().skip_while(move |other| *other != number).skip(1);
        behind.map(|later| Stored::Before(call.op(), number, later)).collect::<Vec<_>>()
    };
    let met = match call {
        StoreCall::Write { values, store_len } => {
            [later(refused_writing(*values, *store_len)), written(*values, *store_len)]
        }
        StoreCall::Read { store } => [later(store::refusals(store)), told(store, number)],
        StoreCall::Change { store, tag, value } => {
            [later(refused_changing(store, *tag, *value)), changed(store, *tag, *value, number)]
        }
    };
    met.into_iter().flatten().for_each(|what| *held.entry(Held::Stores(what)).or_default() += 1);
}

fn refused_writing(values: [u64; 3], room: usize) -> Vec<u64> {
    let found = [(SETTINGS, !allowed(values)), (STORE_BUFFER, room < WRITTEN)];
    found.into_iter().filter(|(_, holds)| *holds).map(|(number, _)| number).collect()
}

/// The refusals of a read, then 30, then 28 where no setting may have the value.
fn refused_changing(store: &[u8], tag: u64, value: u64) -> Vec<u64> {
    let mut found = store::refusals(store);
    if !TAGS_OF_SETTINGS.map(u64::from).contains(&tag) {
        found.push(CHANGE_TAG);
        found.extend((value > 110).then_some(SETTINGS));
    }
    found
}

fn written(values: [u64; 3], room: usize) -> Vec<Stored> {
    let wide = |&(at, bits): &(usize, u32)| {
        let mut lowest = values;
        lowest[at] = cut(values[at], bits);
        lowest != values && allowed(lowest)
    };
    let cuts = (0..3).flat_map(|at| CUTS.map(|bits| (at, bits))).filter(wide);
    let room = Stored::Room { octets: room.min(21), good: allowed(values) };
    cuts.map(|(at, bits)| Stored::WideWritten { at, bits }).chain([room]).collect()
}

fn told(store: &[u8], number: u64) -> Vec<Stored> {
    let entries = entries(store).unwrap_or_default();
    if number != 0 {
        return refused(store, &entries, number);
    }
    let mut met = vec![Stored::Version(store[0]), Stored::Entries(entries.len()), Stored::Long(store.len())];
    for entry in entries {
        let setting = TAGS_OF_SETTINGS.contains(&entry.tag);
        met.push(Stored::Far { setting, high: entry.offset / 256 });
        if !setting {
            met.extend([Stored::Passed(entry.tag), Stored::Body(entry.len)]);
        }
    }
    met
}

/// The first entry whose tag does not rise.
fn falls(entries: &[Entry]) -> Option<usize> {
    (1..entries.len()).find(|at| entries[*at].tag <= entries[*at - 1].tag)
}

/// The first entry that does not begin where the bodies before it end; else so many entries as there are.
fn misplaced(entries: &[Entry]) -> usize {
    let mut end = 2 + 4 * entries.len();
    let elsewhere = |entry: &Entry| {
        let begins = std::mem::replace(&mut end, entry.offset + entry.len);
        entry.offset != begins
    };
    entries.iter().position(elsewhere).unwrap_or(entries.len())
}

/// Of a read that is refused: where, or of what.
fn refused(store: &[u8], entries: &[Entry], number: u64) -> Vec<Stored> {
    let count = store.get(1).copied().unwrap_or(0);
    let short = 2 + 4 * usize::from(count) == store.len() + 1;
    let sixteen = entries.len() == MOST_ENTRIES;
    match number {
        STORE_ENDS if short => vec![Stored::Count { number, entries: count }],
        ENTRIES => vec![Stored::Count { number, entries: count }],
        TAGS if sixteen => falls(entries).map(|entry| Stored::At { number, entry }).into_iter().collect(),
        LAYOUT if sixteen => vec![Stored::At { number, entry: misplaced(entries) }],
        HIGH_TAG => entries.last().map(|entry| Stored::High(entry.tag)).into_iter().collect(),
        BODY => {
            let settings = entries.iter().filter(|entry| TAGS_OF_SETTINGS.contains(&entry.tag));
            settings.map(|entry| Stored::Setting { tag: entry.tag, len: entry.len }).collect()
        }
        _ => Vec::new(),
    }
}

/// Of a change that is refused with 28 as the read is: whether the value would put the settings right.
fn mends(store: &[u8], tag: u64, value: u64) -> bool {
    let found = entries(store).unwrap_or_default().into_iter().find(|entry| u64::from(entry.tag) == tag);
    let (Some(entry), Ok(value)) = (found, u8::try_from(value)) else { return false };
    let mut other = store.to_vec();
    other[entry.offset] = value;
    with([0; 3], tag, 0).is_some() && read(&other)[0] == 0
}

/// Of a change that is refused with 30: whether the tag stands in the store with one octet.
fn stands(store: &[u8], tag: u64) -> bool {
    entries(store).unwrap_or_default().iter().any(|entry| u64::from(entry.tag) == tag && entry.len == 1)
}

/// Of a store that is read good: the value, and what it would be if it or the tag were cut.
fn changed(store: &[u8], tag: u64, value: u64, number: u64) -> Vec<Stored> {
    let told = read(store);
    if told[0] == SETTINGS && mends(store, tag, value) {
        return vec![Stored::Mends { tag }];
    }
    let [0, kind, rate, phase] = told else { return Vec::new() };
    let settings = [kind, rate, phase];
    let good = |tag: u64, value: u64| with(settings, tag, value).is_some_and(allowed);
    let mut met = Vec::new();
    for bits in CUTS {
        if cut(value, bits) != value && good(tag, cut(value, bits)) {
            met.push(Stored::WideValue { tag, bits });
        }
        if cut(tag, bits) != tag && good(cut(tag, bits), value) {
            met.push(Stored::WideTag { tag: cut(tag, bits), bits });
        }
    }
    let octet = with(settings, tag, value).and(u8::try_from(value).ok());
    met.extend(octet.map(|value| Stored::Value { tag, value }));
    if number == 0 && with(settings, tag, value) == Some(settings) {
        met.push(Stored::Same { tag });
    }
    let elsewhere = match tag {
        1 => value <= 1,
        2 => [10, 20, 55, 110].contains(&value),
        _ => false,
    };
    if number == SETTINGS && elsewhere {
        met.push(Stored::Together { tag });
    }
    if number == CHANGE_TAG && stands(store, tag) {
        met.push(Stored::Stands { tag });
    }
    met
}

/// The octets that a write or a change left, what a read of them must tell, and the tag if it was a change.
struct Left {
    octets: Vec<u8>,
    settings: [u64; 3],
    tag: Option<u64>,
}

/// What was left last, the last store read with what it told, and the last write of a frame with its number.
#[derive(Default)]
pub struct Stores {
    left: Option<Left>,
    read: Option<(Vec<u8>, [u64; 4])>,
    frame: Option<([u64; 3], u64)>,
}

/// The refusals of a frame's write that a store's settings must not meet.
const OF_SETTINGS: [u64; 4] = [KIND, RATE, SHORT_AT_10, PHASE];

impl Stores {
    /// What holds of a call of a store, or of a write of a frame, or what doesn't go together.
    pub fn hold(&mut self, call: &Call, answer: &Answer) -> Result<Option<Stored>, &'static str> {
        let number = answer.numbers[0];
        match call {
            Call::Write { kind, rate, phase, .. } => self.frame([*kind, *rate, *phase], number),
            Call::Store(StoreCall::Write { values, .. }) => self.write(*values, number, &answer.buffer),
            Call::Store(StoreCall::Read { store }) => {
                self.tell(store, answer.numbers[..].try_into().expect("four numbers"))
            }
            Call::Store(StoreCall::Change { store, tag, value }) => {
                self.change(store, (*tag, *value), number, &answer.buffer)
            }
            _ => Ok(None),
        }
    }

    fn frame(&mut self, values: [u64; 3], number: u64) -> Result<Option<Stored>, &'static str> {
        self.frame = Some((values, number));
        match &self.read {
            Some((_, [0, told @ ..])) if *told == values && OF_SETTINGS.contains(&number) => {
                Err("a frame's write refuses settings that a store tells")
            }
            Some((_, [0, told @ ..])) if *told == values => Ok(Some(Stored::Serves)),
            _ => Ok(None),
        }
    }

    fn write(&mut self, settings: [u64; 3], number: u64, buffer: &[u8]) -> Result<Option<Stored>, &'static str> {
        let octets = buffer.get(..WRITTEN).filter(|_| number == 0).map(<[u8]>::to_vec);
        self.left = octets.map(|octets| Left { octets, settings, tag: None });
        let Some((_, frame)) = self.frame.filter(|(values, _)| *values == settings) else { return Ok(None) };
        if OF_SETTINGS.contains(&frame) != (number == SETTINGS) {
            return Err("a store's write and a frame's write don't refuse the same settings");
        }
        Ok(Some(Stored::Beside(frame)))
    }

    fn tell(&mut self, store: &[u8], numbers: [u64; 4]) -> Result<Option<Stored>, &'static str> {
        self.read = Some((store.to_vec(), numbers));
        let Some(left) = self.left.as_ref().filter(|left| left.octets == store) else { return Ok(None) };
        let [kind, rate, phase] = left.settings;
        if numbers != [0, kind, rate, phase] {
            return Err("what was written or changed isn't read back");
        }
        Ok(Some(left.tag.map_or(Stored::WrittenBack, |tag| Stored::ChangedBack { tag })))
    }

    /// A change beside the read of the same store before it, if there was one.
    fn change(
        &mut self,
        store: &[u8],
        (tag, value): (u64, u64),
        number: u64,
        buffer: &[u8],
    ) -> Result<Option<Stored>, &'static str> {
        if number != 0 && buffer != store {
            return Err("a refused change left another store");
        }
        if store.iter().zip(buffer).filter(|(before, after)| before != after).count() > 1 {
            return Err("a change changed more than one octet");
        }
        let told = self.read.take().filter(|(before, _)| before == store).map(|(_, numbers)| numbers);
        match told {
            Some([0, settings @ ..]) if number == 0 => {
                let octets = buffer.to_vec();
                self.left = with(settings, tag, value).map(|settings| Left { octets, settings, tag: Some(tag) });
                Ok(None)
            }
            Some([0, ..]) if ![SETTINGS, CHANGE_TAG].contains(&number) => Err("a change of a good store is refused"),
            Some([0, ..]) => Ok(Some(Stored::LeftAll(number))),
            Some([refused, ..]) if refused != number => Err("a change isn't refused as the read before it"),
            Some(_) => Ok(Some(Stored::RefusedAlike(number))),
            None => Ok((number != 0).then_some(Stored::LeftAll(number))),
        }
    }
}

/// The settings with the value of one tag changed.
fn with(mut settings: [u64; 3], tag: u64, value: u64) -> Option<[u64; 3]> {
    let at = TAGS_OF_SETTINGS.iter().position(|of_setting| u64::from(*of_setting) == tag)?;
    settings[at] = value;
    Some(settings)
}
