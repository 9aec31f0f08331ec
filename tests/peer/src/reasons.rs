//! What is met of reasons, by what is expected of them, and how they go together with full reads and fronts of the same
//! recording, whatever this program expects of each.

use crate::calls::{Answer, Call};
use crate::coming::coming;
use crate::frame::Kind;
use crate::refusals::{
    CRC, ENDS, FRONT, GROWTH, KIND, LENGTH, MOST_OCTETS, OCTET_BUFFER, SERVICE, SFD, SIGNAL, UNUSABLE,
};
use crate::relations::Held;
use crate::why::{header_read, rate_and_octets};
use std::collections::BTreeMap;

/// What was met of a reason, or was seen to hold of one.
#[derive(Clone, Copy, PartialEq, Eq, PartialOrd, Ord)]
pub enum Reasoned {
    /// Number and place are those of a full read with as much room, or as good as as much; by the number.
    AsRead(u64),
    /// The same, where the reason has room for 2^32 octets or more.
    AsReadWide(u64),
    /// Both numbers are 0, although a read is refused with this number.
    Nothing(u64),
    /// A kind that is none.
    Kind(u64),
    /// An unusable octet, in the front or in the payload.
    Octet { payload: bool, octet: u8 },
    /// A growth of a 1 Mbit/s symbol.
    Grown { at: Stands, by: u64 },
    /// A CRC of zeros or of ones, worked out or read.
    Alike { worked_out: bool, all: u64 },
    /// A SIGNAL that is no rate of this kind.
    Signal { kind: u64, signal: u8 },
    /// What SERVICE has beside its allowed bits, at this rate.
    Left { rate: u8, service: u8 },
    /// A LENGTH of this rate whose n is -1, 0, or above 4,095, told as 1.
    Outside { rate: u8, n: i8 },
    /// A LENGTH of this rate that the writer makes otherwise for its n.
    Otherwise { rate: u8 },
    /// A recording that ends inside the payload, of 65,536 chips or more or of fewer.
    Cut { far: bool },
    /// Less room than n by one, or by more; none at all.
    Short(Room),
    /// Room for 2^32 octets or more of a frame that is read, by whether its lowest 32 bits are less than n.
    Wide { less: bool },
    /// The same where a read is refused with this number.
    WideRefused(u64),
}

/// Where a symbol stands; the payload's first and last apart.
#[derive(Clone, Copy, PartialEq, Eq, PartialOrd, Ord)]
pub enum Stands {
    Sync,
    Sfd,
    Header,
    First,
    Payload,
    Last,
}

#[derive(Clone, Copy, PartialEq, Eq, PartialOrd, Ord)]
pub enum Room {
    ByOne,
    ByMore,
    None,
}

/// Counts what is met of a reason, by what is expected of it.
pub fn count(call: &Call, expected: &Answer, held: &mut BTreeMap<Held, u64>) {
    let Call::Why { kind, chips, room } = call else { return };
    let numbers = expected.numbers[..].try_into().expect("four numbers");
    let wide = (room >> 32 > 0).then(|| wide_room(*kind, chips, *room, &numbers));
    for what in met(*kind, chips, &numbers).into_iter().chain(wide) {
        *held.entry(Held::Reasons(what)).or_default() += 1;
    }
}

fn met(kind: u64, chips: &[u8], numbers: &[u64; 4]) -> Option<Reasoned> {
    let [number, place, expected, found] = *numbers;
    let Some(of) = Kind::of_number(kind) else { return Some(Reasoned::Kind(found)) };
    let header = || header_read(of, chips);
    match number {
        UNUSABLE => Some(Reasoned::Octet { payload: place as usize >= of.front_chips(), octet: found as u8 }),
        GROWTH => Some(Reasoned::Grown { at: stands(of, chips, place as usize), by: found }),
        CRC => alike(expected, found),
        SIGNAL => Some(Reasoned::Signal { kind, signal: found as u8 }),
        SERVICE => Some(Reasoned::Left { rate: header().signal, service: found as u8 }),
        LENGTH if expected == 0 => {
            let (rate, n) = rate_and_octets(header());
            Some(Reasoned::Outside { rate: rate.code(), n: n.min(1) as i8 })
        }
        LENGTH => Some(Reasoned::Otherwise { rate: header().signal }),
        ENDS => Some(Reasoned::Cut { far: found >> 16 > 0 }),
        OCTET_BUFFER => Some(Reasoned::Short(match (found, expected - found) {
            (0, _) => Room::None,
            (_, 1) => Room::ByOne,
            _ => Room::ByMore,
        })),
        _ => None,
    }
}

/// The CRC worked out if its bits are all alike, else the one read if its are.
fn alike(expected: u64, found: u64) -> Option<Reasoned> {
    let crcs = [(true, expected), (false, found)].into_iter();
    let mut alike = crcs.filter(|(_, crc)| [0, 0xFFFF].contains(crc));
    alike.next().map(|(worked_out, all)| Reasoned::Alike { worked_out, all })
}

fn stands(kind: Kind, chips: &[u8], place: usize) -> Stands {
    let front = kind.front_chips();
    match place / 11 {
        symbol if symbol < kind.bits_before_header() - 16 => Stands::Sync,
        symbol if symbol < kind.bits_before_header() => Stands::Sfd,
        _ if place < front => Stands::Header,
        _ if place == front => Stands::First,
        _ if place as u64 + 11 == coming(kind.number(), chips).used => Stands::Last,
        _ => Stands::Payload,
    }
}

fn wide_room(kind: u64, chips: &[u8], room: u64, numbers: &[u64; 4]) -> Reasoned {
    match numbers[0] {
        0 => Reasoned::Wide { less: room & 0xFFFF_FFFF < coming(kind, chips).n },
        number => Reasoned::WideRefused(number),
    }
}

/// What a reason must be by itself: what is found is what is there, and it isn't what is expected, but for a SIGNAL or
/// a LENGTH of 0.
pub fn alone(kind: u64, chips: &[u8], room: u64, numbers: &[u64; 4]) -> Result<Option<Reasoned>, &'static str> {
    let [number, place, expected, found] = *numbers;
    let (present, two_octets) = (chips.len() as u64, 0..1 << 16);
    let can_be = match number {
        0 => (expected, found) == (0, 0),
        KIND => (expected, found) == (0, kind),
        FRONT | ENDS => found == present && expected > present,
        UNUSABLE => {
            expected == 0 && found > 4 && chips.get(place as usize).map(|octet| u64::from(*octet)) == Some(found)
        }
        GROWTH => expected == 0 && [1, 3].contains(&found) && place > 0 && place < present,
        SFD | CRC | LENGTH => two_octets.contains(&expected) && two_octets.contains(&found),
        SIGNAL => expected == 0 && found < 256,
        SERVICE => expected == 0 && found < 256 && found & 4 == 0,
        OCTET_BUFFER => found == room && expected > room && expected <= MOST_OCTETS as u64,
        _ => false,
    };
    if !can_be || place != 0 && ![UNUSABLE, GROWTH].contains(&number) {
        return Err("numbers that no refused read has");
    }
    let nothing = number != 0 && expected == found;
    if nothing && (found != 0 || ![SIGNAL, LENGTH].contains(&number)) {
        return Err("what is expected is what is found");
    }
    Ok(nothing.then_some(Reasoned::Nothing(number)))
}

/// What a full read of the same recording answered.
pub struct FullRead {
    room: u64,
    number: u64,
    place: u64,
    length: u64,
}

impl FullRead {
    /// By the numbers of the read's record.
    pub fn new(room: u64, numbers: &[u64]) -> FullRead {
        FullRead { room, number: numbers[0], place: numbers[1], length: numbers[3] }
    }

    /// Number and place are the read's, with the same room, or with room for every payload in both; a LENGTH found is
    /// the one that the read shows.
    pub fn beside(&self, room: u64, numbers: &[u64; 4]) -> Result<Option<Reasoned>, &'static str> {
        let most = MOST_OCTETS as u64;
        if room != self.room && (room < most || self.room < most) {
            return Ok(None);
        }
        let [number, place, _, found] = *numbers;
        if (number, place) != (self.number, self.place) || number == LENGTH && found != self.length {
            return Err("number and place, or the LENGTH found, aren't those of a full read with this room");
        }
        Ok(Some(if room >> 32 > 0 { Reasoned::AsReadWide(number) } else { Reasoned::AsRead(number) }))
    }
}
