//! # What is refused, in this order
//!
//! Writing: 1, 2, 3, 4, 5, 6. Reading: 1, 7, 8, then 9 and 10 over the front, 11, 12, 13, 14, 15, 16, 17, then 9 and
//! 10 over the payload. In each part, 9 is looked for through the whole part before 10. Reading as the guides of 1997
//! do: the same without 1 and 7, where 13 is a SIGNAL other than 10 and 20, and 14 a SERVICE other than 0. Telling what
//! is coming: 1, 8, then 9 and 10 over the front, 11, 12, 13, 14, 15, 16. Finding the start: 1, 18, 19. A month's
//! report: 31 alone; of a whole list 7, then 31; of its text 17. Reading a store: 21 to 28; writing one: 28, 29;
//! changing a setting of one: 21 to 28, 30, then 28 of the settings as they would be.

/// kind is neither 0 (long) nor 1 (short)
pub const KIND: u64 = 1;
/// rate code isn't one of the four
pub const RATE: u64 = 2;
/// rate code 10 with the short kind
pub const SHORT_AT_10: u64 = 3;
/// payload is 0 octets or above 4,095
pub const PAYLOAD: u64 = 4;
/// starting phase above 3
pub const PHASE: u64 = 5;
/// chip buffer shorter than the frame
pub const CHIP_BUFFER: u64 = 6;
/// I and Q rows differ in length, or an odd number of bytes; of a list, not as many kinds as recordings
pub const ROWS: u64 = 7;
/// recording shorter than the front
pub const FRONT: u64 = 8;
/// an unusable chip in the part; place: the first such chip
pub const UNUSABLE: u64 = 9;
/// a 1 Mbit/s symbol, the recording's first excepted, grown by 1 or 3; place: the first chip of the first such symbol
pub const GROWTH: u64 = 10;
/// unscrambled SFD differs
pub const SFD: u64 = 11;
/// CRC differs
pub const CRC: u64 = 12;
/// SIGNAL not a rate of this kind
pub const SIGNAL: u64 = 13;
/// at 11 Mbit/s SERVICE is none of 0, 4, 128 and 132; at the other rates it is neither 0 nor 4
pub const SERVICE: u64 = 14;
/// n outside 1 to 4,095, or the writer's LENGTH and bit 7 for n differ from those read
pub const LENGTH: u64 = 15;
/// recording ends inside the payload
pub const ENDS: u64 = 16;
/// octet buffer shorter than n; of a report's text, than the text
pub const OCTET_BUFFER: u64 = 17;
/// number of offsets to try isn't 1 to 4,096
pub const OFFSETS: u64 = 18;
/// no offset to try from which a read meets none of 8 to 15, 9 and 10 over the front only
pub const NO_START: u64 = 19;
/// the store is shorter than 2 octets, or than its table of contents
pub const STORE_ENDS: u64 = 21;
/// the store has more than 16 entries
pub const ENTRIES: u64 = 22;
/// the store's tags do not rise strictly
pub const TAGS: u64 = 23;
/// an offset, a length or the end of the store is not as laid out
pub const LAYOUT: u64 = 24;
/// the store has a tag of 128 or more
pub const HIGH_TAG: u64 = 25;
/// the store lacks tag 1, 2 or 3
pub const NO_TAG: u64 = 26;
/// the body of tag 1, 2 or 3 is not one octet
pub const BODY: u64 = 27;
/// kind, rate code and starting phase, together, are not what 1, 2, 3 and 5 allow
pub const SETTINGS: u64 = 28;
/// octet buffer shorter than 17 octets; of a store that is written
pub const STORE_BUFFER: u64 = 29;
/// the tag of a change is none of 1, 2 and 3
pub const CHANGE_TAG: u64 = 30;
/// the report has seen 1,000 recordings, or holds a number above what 1,000 come to; of a list, it has more than 1,000
pub const REPORT: u64 = 31;

/// The longest payload in octets.
pub const MOST_OCTETS: usize = 4095;

/// The most offsets to try.
pub const MOST_OFFSETS: u64 = 4096;
