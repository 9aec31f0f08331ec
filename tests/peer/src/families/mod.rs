//! The families of calls. Each is made from a fixed seed in a fixed order, so a case's number says all about it.
//!
//! # Errors that look right
//!
//! Where each shows, were it in the library:
//! - Bit 7 only for rounding above 8/11: `published_figures`, `write_every_n`, `every_length`.
//! - The two-bit growth order used for p2 to p4: `write_short_payloads`, `read_short_payloads`.
//! - The half turn of odd CCK symbols forgotten, or counted from one symbol too early: the same.
//! - The scrambler started again at the header or payload: the same.
//! - SFD sent highest bit first: `write_short_payloads`, and every read of a good front.
//! - Halves of a count always rounded up: `halves_of_a_count`, `tiny_values`.
//! - A yes of the clock taken as no, or the clock bit lost: `write_clocks`, every read of a good frame.
//! - The clock bit shown in a refusal, or refused itself: `clock_bits`, `every_signal_and_service`.
//! - A payload chip looked at to tell what is coming: `payloads_not_looked_at`, rows ending where memory ends.
//! - What is coming told of a frame that isn't whole: `coming_every_n`, `cut_recordings`.
//! - A front refused otherwise where much stands behind it: `long_refused`.
//! - Words of one score chosen otherwise than by the smallest number: `ties_eleven`, `ties_eleven_largest`.
//! - A symbol's word taken from the one beside it, or left from sixteen before: `ties_eleven`.
//! - Words of two scores taken for a tie, a count or a byte lost on the way: `ties_eleven_broken`.
//! - A tie's lead taken to the next lower score, all words of the winner's score left out: `leads_of_ties`.
//! - A word that comes next lost on the way, beside the winner or behind another: `leads_of_next_words`.
//! - At 5.5 Mbit/s the lead taken over all 256 words: `leads_as_sent`, `leads_of_allowed_words`.
//! - The last of several symbols told, or the frame's first left out: `leads_shared`, `leads_of_one_symbol`.
//! - A symbol's lead taken from the one beside it, or left from sixteen before: `leads_at_each_place`.
//! - Symbols counted from the payload, or by a narrower number: `leads_of_one_symbol`, `leads_of_long_frames`.
//! - A lead in full chips, or cut to 16 bits: `leads_as_sent`.
//! - A lead shown in a refusal: `leads_kept`.
//! - Of several starts the largest told, or the one with the largest lead, where the frame does start: `find_clean`.
//! - One offset too many tried, or one too few; 18 before 1; 8 for no chips: `find_edges`.
//! - An offset left out where one block of offsets ends and the next begins: `find_edges`.
//! - The recording's length cut to fewer bits, or held to the longest frame's: `find_edges`.
//! - A frame cut or unusable in its payload, or behind unusable chips, passed over: `find_damage`.
//! - A start left out behind a front that is refused, or among fronts that overlap: `find_damage`.
//! - What a front that was refused tells, shown with 19: `find_damage`.
//! - Of several smallest leads the last told, or a lead of 0 taken for none: `report_kept`.
//! - Recordings counted from the accepted ones only, or from 1: `report_kept`.
//! - The 1,001st counted, or not a one of more than 1,000; 31 before 7: `report_lists`.
//! - A limit off by one, or left out for an entry: `report_edges`.
//! - A line left out or told of a count of 0, a number cut, a zero before one: `report_text`.
//! - A start passed over right behind an offset whose SFD is right and whose front is refused: `find_damage`.
//! - A start left out behind many fronts that are refused, or right behind one refused with 10 or 12: `find_damage`.
//! - Totals of a list in fewer bits, frames of some size counted otherwise: `report_lists`.
//! - A row for reading written to, though put right again: rows ending where memory ends.
//! - LENGTH taken or refused wrongly at one value: `every_length_listed`. The last chip at one n: `write_every_n`.
//! - The lead of one word wrong: `leads_of_each_word`.
//! - A length cut to 16, 20, 22 or 24 bits: `wide_writes`, `wide_recordings`, `wide_rooms`, `wide_searches`.
//! - A bit of a number lost: `bits_of_numbers`.
//! - Why a read is refused, with other numbers than the read's, or a room or a kind cut: `why_rooms`, `why_numbers`.
//! - SFDs exchanged, or a CRC turned round, where they are shown: `why_checks`.
//! - What SERVICE or LENGTH is held to shown otherwise than the reader holds them to it: `why_headers`, `why_lengths`.
//!   A reason wrong at one n: `why_every_n`.
//! - The octet or the growth of another place shown, or one behind the frame: `why_places`.
//! - A symbol of a block, a last one or a chip of a front not looked at: `why_places`. A far block: `why_wide`.
//! - Refusals of a store in another order, or asked of one entry after the other: `store_orders`.
//! - A store's offset with its high octet first, or in 8 bits, a sum of lengths in 8 bits: `store_newer`.
//! - An unknown tag refused, a tag of 128 passed over, a version asked for: `store_newer`.
//! - The end of a store not asked for, zeros behind it taken for part of it: `store_octets`, `store_small`.
//! - Settings judged one by one, a change by its value alone, a number cut: `store_changes`, `store_numbers`.
//! - A refused change that changes something, a refused write that leaves something: `store_orders`, `store_written`.
//! - A version kept of a store that stood in the buffer, or its octets left by a refused write: `store_written`.
//! - A refusal not asked of one entry of 16, or in another order where entries are two or many: `store_shapes`.
//! - A change done because it would put a refused store right, or of a tag that is no setting's: `store_bodies`.
//! - One word not found behind some damage of one kind: `spoiled_eleven`, `spoiled_five`, `spoiled_barker`.
//! - A lost chip that counts for something, a wrong one that counts for nothing: the same.
//! - A frame, or a front, not accepted for its damage: `spoiled_sizes`, `spoiled_fronts`. Passed over:
//!   `spoiled_starts`. Not counted, or with another lead: `spoiled_counted`.
//! - Symbols beyond the limits refused, or decided otherwise than by their scores: `beyond_five`, `beyond_eleven`,
//!   `beyond_barker`. A symbol of the front put right by what was expected: `beyond_front`.
//! - The lead of one word wrong behind some damage: `spoiled_leads`.
//! - Chips compared as far as the longer recording, or the frames; a last one left out: `compare_lengths`.
//! - Octets above 4 not compared, or taken for one another: `compare_octets`. Lost chips: `compare_receivers`.
//! - A list cut at what fits, or said not to fit, or taken with the other; a row not cleared: `compare_rows`.
//! - Two spoiled recordings of frames taken for others than those sent: `compare_sent`.
//! - Payloads compared by the longer n or by room, or not at all where rates or n differ: `compare_frames`.
//! - Octets or n told where one recording is refused, the other's buffer cleared, or not read: `compare_refused`.
//! - Nothing compared where the kind is none: `compare_numbers`. An index or a number of entries cut: `compare_wide`.
//! - A rate or a clock bit that the guides of 1997 do not know, read by them: `read_1997_frames`. A SIGNAL or a SERVICE
//!   taken for another, 13 and 14 asked in another place, without LENGTH: `read_1997_headers`, `read_1997_orders`.
//! - A short front read by them: `read_1997_short_fronts`. A frame of ours read otherwise: `read_1997_sent`.
//! - A length cut where they read: `read_1997_wide`. Who reads, kept for the next call: `read_1997_frames`.
//! - I and Q that may not be one row, a recording of a list that may not be named twice: `one_row`, `report_lists`. Two
//!   recordings that may not be one row: `compare_itself`.
//! - What a lent row held before the call, a row of length 0 by a pointer or as NULL, a row kept between calls: every
//!   family, as each call's rows are laid in any way (`laid.rs`).

mod beyond;
mod bytes;
mod coming;
mod compare;
mod compare_edges;
mod damage;
mod finding;
mod finding_damage;
mod finding_edges;
mod headers;
mod leads;
mod long;
mod published;
mod read_1997;
mod refused;
pub mod report;
mod report_edges;
mod restored;
mod soft;
mod spoiled;
mod steps;
mod store;
mod store_edges;
mod store_shapes;
mod ties;
mod why;
mod why_edges;
mod widths;
mod written;

use crate::bits::Rate;
use crate::calls::Call;
use crate::chips::LOST;
use crate::figures::Figures;
use crate::frame::{frame_chips, front_bits, Header, Kind};
use crate::laid::Laid;
use crate::random::Random;

pub struct Family {
    pub name: &'static str,
    pub shows: &'static str,
    pub seed: u64,
    pub calls: fn(&mut Out),
}

// The line `for:` above a family names the statements of docs/PROMISES.md whose row it is the test of; the tables there
// are made from it.
macro_rules! families {
    ($($seed:literal $module:ident::$name:ident: $shows:literal,)*) => {
        pub const FAMILIES: &[Family] =
            &[$(Family { name: stringify!($name), shows: $shows, seed: $seed, calls: $module::$name }),*];
    };
}

families! {
    // for: lengths_eleven, words, Crc, TableP, header_back, octets_back, length_holds_lem, crc_divided
    101 published::published_figures: "LENGTH and bit 7 of every n and rate, CRCs, words from outside",
    // for: Wrote.answer, Wrote.chips, WrittenFrame, WriteFills, words, sent_facts, facts_clock, from_header, PhaseTurns
    // for: framed_turned, sync_long, SentBegins, SentWords, symbol_one, cck_adds
    201 written::write_short_payloads: "1 to 64 octets, all kinds, rates and phases",
    // for: Wrote.chips, framed_length, Wrote.answer, WrittenFrame
    202 written::write_long_payloads: "1,023 to 1,026 and 4,095 octets",
    // for: Wrote.chips, lengths_eleven, length_is, seven_is, Wrote.answer, WrittenFrame, frame_length
    203 written::write_every_n: "every n at 11 Mbit/s; a sweep of n at the other kinds and rates",
    // for: Wrote.answer, NoKind, NoRate, ShortRate, NoPhase, WriteFills, WriteAnswers, Wrote.chips, OnlySent
    204 written::write_numbers: "kind, rate, phase, payload and buffer out of range, alone and together",
    // for: PayloadSize, ChipRoom, WriteFills, WriteAnswers, OnlySent, Wrote.answer, Wrote.chips
    205 written::write_edges: "payload of 0, 4,095 and 4,096 octets, buffers a chip short, exact and longer",
    // for: Wrote.chips, facts_clock, Wrote.answer, WrittenFrame, OnlySent
    206 written::write_clocks: "each of many clock numbers, at every kind, rate and phase, and beside each refusal",
    // for: ReadBack, ReadHard, ReadSoft, ReadBytes, Read.octets, SoftRows, unscrambled, OneSource, decided_clean
    301 restored::read_short_payloads: "recordings of 1 to 64 octets, all kinds, rates and phases",
    // for: ReadBack, Read.octets, NotReadBack
    302 restored::read_long_payloads: "recordings of 1,023 to 1,026 and 4,095 octets",
    // for: OctetRoom, ReadFills, NotReadBack, Read.answer, Read.octets
    303 restored::read_rooms: "octet buffers shorter than n, exact and longer",
    // for: ReadBack, Ends, ReadFills
    304 restored::chips_after_the_frame: "anything after the frame, unusable chips too",
    // for: Signal, Service, header_only, OnlyReadable, signal_refused, service_refused
    401 headers::every_signal_and_service: "each SIGNAL, each SERVICE, all of both in the longer run, right CRC",
    // for: Length, octets_back, OnlyReadable, header_only, length_refused
    402 headers::every_length: "LENGTH and bit 7 that no n has, and those around the longest payload",
    // for: OnlyReadable, length_refused, length_holds_lem, octets_back
    407 headers::every_length_listed: "every LENGTH of each rate in fronts of lists, refused with 15 or 16",
    // for: header_back, Length, OnlyReadable, header_only
    403 headers::headers_with_payload: "right CRC and chips behind it, LENGTH near the payload's",
    // for: Sfd, Crc, header_only, OnlyReadable, sfd_refused, crc_refused
    404 headers::sfd_and_crc: "SFD and CRC with bits changed, turned round, of the other kind",
    // for: Sfd, bad, ReadHard, ReadBytes, first_unknown
    405 headers::sync_not_compared: "any SYNC bits at all",
    // for: header_back, RefusedShows, Service, OnlyReadable
    406 headers::clock_bits: "each SERVICE with and without the clock bit, whole, cut, short of room and spoiled",
    // for: NoKind, Read.answer, numbers, RefusedShows, RowsRefused, ReadFills
    501 refused::read_numbers: "kinds, lengths and buffers out of range, alone and together",
    // for: RowsDiffer, RowsRefused, ReadSoft, RefusedShows
    502 refused::rows_that_differ: "I and Q rows of different length",
    // for: ShorterThanFront, Read.answer, RowsRefused, ReadFills, WriteFills
    503 refused::empty_rows: "every row empty, alone and together",
    // for: bad, Read.answer, RefusedShows, ReadFills, whole_refuses, payload_comes, room_refused, ReadAnswers
    504 refused::every_set_of_refusals: "each set of refusals that can be asked for at once",
    // for: bad, Read.answer, RefusedShows, unusable_refused, odd_refused, payload_good, ReadAnswers
    505 refused::pairs_of_refusals: "each refusal alone and with each other one, by each recorder",
    // for: Ends, ShorterThanFront, NotReadBack, FrontRefused
    506 refused::cut_recordings: "recordings cut at every length about the front's and the frame's end",
    // for: Sfd, OnlyReadable, RefusedAlike
    507 refused::kinds_crossed: "long frames read as short and the other way",
    // for: RowsDiffer, RowsRefused
    508 refused::odd_rows: "odd numbers of bytes, about the fronts, the frame's end and powers of 2",
    // for: FrontOnly, front_same, FrontRefused, RefusedAlike
    509 refused::long_refused: "what the front refuses, in recordings of up to 71,000 chips that are alike there",
    // for: Unusable, ReadHard, Octets, RowsRight, RefusedShows, whole_place, payload_unusable_place, ReadAnswers
    601 damage::unusable_octets: "one or two unusable octets at every place",
    // for: OddGrowth, whole_refuses, RefusedShows, payload_odd_place, ReadAnswers
    602 damage::odd_growths: "symbols turned by 1 to 3, alone or with all that follow",
    // for: Read.octets, RowsRight, RecordedRight, decided_best, OctetsDecoded
    603 damage::damaged_chips: "chips changed to other phases, few to most",
    // for: ReadHard, terms, RowsRight, RecordedRight, decided_best
    604 damage::lost_chips: "chips, symbols and whole parts lost",
    // for: terms, decided_best, best_unique
    605 damage::tied_words: "payload symbols with few chips left, so that words tie",
    // for: Read.answer, ReadHard
    606 damage::random_recordings: "phases and marks at random",
    // for: RecordedRight, RowsRight, DecidedAt
    701 soft::noise: "noise over all of the frame or over its payload",
    // for: counted, HalfACount, no_other, count_near
    702 soft::halves_of_a_count: "values on the halves of a count and next to them",
    // for: counted, HalfACount, RowsRight, value_exact
    703 soft::tiny_values: "subnormals, zeros of both signs, values below half a count",
    // for: usable, RowsRight, ReadSoft
    704 soft::exactly_eight: "8 and its neighbours, scores at both ends of their range",
    // for: Unusable, usable, ReadSoft, RefusedShows
    705 soft::unusable_values: "NaN, infinities and values above 8 at every place",
    // for: Read.octets, DecidedAt, RowsRight, decided_leads_lem
    706 soft::soft_damage: "soft chips turned, faded and lost",
    // for: ReadSoft, RowsRight
    707 soft::one_row: "I and Q in one row, or in rows that overlap",
    // for: ReadBack, Read.octets, Read.answer
    801 long::long_payloads: "65 to 4,094 octets by each recorder, anything after the frame",
    // for: Unusable, room_refused, RefusedShows, payload_unusable_place
    802 long::long_unusable: "unusable chips at edges of symbols and blocks, first, last and any, up to 4,095 octets",
    // for: OddGrowth, room_refused, RefusedShows, payload_odd_place
    803 long::long_growths: "payload symbols turned at edges of blocks, first, last and past chip 65,536",
    // for: Ends, NotReadBack, RefusedShows
    804 long::long_cuts: "long recordings that end inside the payload",
    // for: OctetRoom, room_refused, NotReadBack, ReadFills
    805 long::long_rooms: "octet buffers shorter than a long payload",
    // for: Read.octets, RowsRight, DecidedAt, LeadsAt
    806 long::block_edges: "one symbol damaged at an edge of a block of symbols or octets",
    // for: Read.octets, RowsRight, OctetsDecoded
    807 long::long_damage: "damage and noise over payloads of 301 to 1,100 octets",
    // for: ReadBytes, byte_exact_lem, decided_times, RowsRight, NoByteUnusable
    901 bytes::every_byte: "symbols decided otherwise if one byte, each of the 256, is 1 more or 1 less",
    // for: ReadBytes, terms, RowsRight, best_unique
    902 bytes::equal_bytes: "bytes equal in size, so that words tie, in symbols and over all of a recording",
    // for: ReadBytes, RowsRight
    903 bytes::exchanged_bytes: "I and Q exchanged, negated, a byte late, and frames turned by an eighth",
    // for: ReadBytes, NoByteUnusable
    904 bytes::random_bytes: "bytes at random over all of the recording, the header or the payload",
    // for: ToldAlike, RefusedAlike, reads_on, ReadFront.answer, FrontTold, Handed.chips_are, HandedPart
    1001 coming::coming_rooms: "what is coming beside full reads with room 0, n - 1, n and 4,095, refused and not",
    // for: FrontOnly, SentTold, front_same
    1002 coming::payloads_not_looked_at: "recordings alike in the front, with any octets as the payload's chips",
    // for: FrontTold, SentTold, ReadFront.answer, Handed.chips_are, HandedPart
    1003 coming::coming_every_n: "what is coming up to 4,095 octets, whole, cut and with chips behind",
    // for: FrontRefused, RefusedAlike, ReadFront.answer
    1004 coming::coming_any_octets: "what is coming in octets at random and in frames cut anywhere, by any kind",
    // for: walsh, decided_best, best_unique, column_sum, two_keys
    1101 ties::ties_eleven: "words that tie at 11 Mbit/s, by each recorder, payloads of each length to 70 and longer",
    // for: walsh, best_unique
    1102 ties::ties_eleven_largest: "words that tie at 11 Mbit/s in values of 8 and -8, 127 and -128",
    // for: walsh, decided_best, two_keys
    1103 ties::ties_eleven_broken: "words that tie at 11 Mbit/s, and the same a step beside the tie, either way",
    // for: lead_clean, lead_times, ReadBack, LeastTold
    1201 leads::leads_as_sent: "chips as sent, of every size that a recorder has: 11, 8 and 4 of them",
    // for: LeastTold, least_is, RowsSure
    1202 leads::leads_of_one_symbol: "the smallest lead in a chosen symbol of the preamble, the header or the payload",
    // for: LeastTold, least_is, LeadsAt, least_of_joined
    1203 leads::leads_at_each_place: "the smallest lead in each symbol of the front and of a block of 64 behind it",
    // for: LeastTold, least_is
    1204 leads::leads_shared: "several symbols of one smallest lead, and others of a little more",
    // for: lead_is, LeastTold, lead_tie, tied
    1205 leads::leads_of_ties: "words that tie in a chosen symbol of the preamble, the header or the payload",
    // for: lead_is, LeastTold, leads_by
    1206 leads::leads_of_allowed_words: "words beside a symbol of 5.5 Mbit/s that aren't allowed there",
    // for: lead_is, walsh, LeastTold, lead_behind, leads_once
    1207 leads::leads_of_next_words: "each word that can come next behind another, alone, at 5.5 and 11 Mbit/s",
    // for: LeastTold, RowsSure, lead_says
    1208 leads::leads_in_noise: "noise over all of a frame, front included",
    // for: LeastTold, least_of_joined
    1209 leads::leads_of_long_frames: "the smallest lead in far symbols, at edges of blocks and last of 4,095 octets",
    // for: RefusedShows
    1210 leads::leads_kept: "refused reads, 10 and more, with symbols of small leads",
    // for: LeastTold, lead_is
    1211 leads::leads_of_each_word: "one octet at 11 Mbit/s, each of the 256 at each phase, each of its chips lost",
    // for: early, SentFound, StartFound, Finds.answer
    1301 finding::find_clean: "frames as sent, behind lost chips, phases, one phase, another frame, an unusable chip",
    // for: NoOffsets, NotTried, Finds.answer, StartFound, NoneFound, start_comes, start_joined, short_missed
    1302 finding_edges::find_edges: "numbers of offsets, kinds and lengths at their edges, starts at each remainder",
    // for: StartFound, SentFound, sfd_bit, by_two, NoneFound, sfd_low, sfd_high, front_even, front_bit
    1303 finding_damage::find_damage: "fronts with chips spoiled, cut off and turned, behind wrong ones and others",
    // for: NoStart, NoneFound
    1304 finding::find_noise: "recordings without a frame or with one behind much else, up to 4,096 offsets",
    // for: StartFound, NoneFound, start_comes, finding_comes
    1305 finding::find_all: "every number of offsets from 1 on, and the front from each offset, one by one",
    // for: ReportKept, KeptAnswers, Adds.answer, added_more, sent_counted, closest_more, fair, frames_sum
    1401 report::report_kept: "reports kept one recording after the other, beside those of the list so far",
    // for: ListAlike, Lists.answer, takes_more, RowsDiffer
    1402 report::report_lists: "whole lists of none to 16,384, of each sort, and with a kind too many or too few",
    // for: AnyReport, takes_more, Adds.answer, added_any, takes_more_lem, counted_next, counted_full
    1403 report_edges::report_edges: "one recording more than any report has, at the limits of each number",
    // for: Spells.answer, Spells.octets, TextFills, TextSays, decimal_value, OctetRoom
    1404 report_edges::report_text: "texts of any report, with rooms about the text's octets",
    // for: Wrote.answer, Wrote.chips, WriteFills, OnlySent
    1501 widths::wide_writes: "payloads and chip buffers of 2^16, 2^20, 2^22 and 2^24 and a few more",
    // for: ReadHard, ReadSoft, ReadBytes, ReadFront.answer, RowsRefused
    1503 widths::wide_recordings: "recordings of so many chips by each recorder, and rows that differ by so much",
    // for: Read.answer, Read.octets, ReadFills, Spells.answer, Spells.octets, TextFills
    1504 widths::wide_rooms: "octet buffers of so many octets, of full reads and of a text",
    // for: Finds.answer, Adds.answer, Lists.answer
    1505 widths::wide_searches: "recordings of so many chips to search and to count, and lists of so many",
    // for: OnlySent, NotTried, AnyReport, Lists.answer, Spells.answer, Spells.octets
    1502 widths::bits_of_numbers: "each bit of 64 more in each number of every call",
    // for: WhyAgrees, WhyTable, WhyDiffers, Explains.answer
    1601 why::why_rooms: "reasons with rooms of every size, of whole frames, cut ones and refused ones",
    // for: WhyAgrees, WhyTable, WhyDiffers, Explains.answer
    1602 why::why_numbers: "kinds that are none, recordings short of a front, each bit more in kind and room",
    // for: WhyTable, WhyDiffers, Explains.answer
    1603 why::why_headers: "each SIGNAL and each SERVICE of each rate, right CRC",
    // for: WhyTable, WhyDiffers, Explains.answer
    1608 why::why_lengths: "each LENGTH of each rate, right CRC",
    // for: WhyTable, WhyDiffers, Explains.answer
    1604 why::why_checks: "SFDs and CRCs with bits changed, of the other kind, of all bits alike; another header's CRC",
    // for: WhyAgrees, WhyTable, Explains.answer
    1605 why::why_places: "unusable chips of each octet, symbols grown by 1 and 3, at each place that may be missed",
    // for: WhyAgrees, WhyTable, Explains.answer
    1607 why::why_every_n: "room for each n, an octet and any number too few, and 2^32 more than the first",
    // for: WhyAgrees, WhyTable, Explains.answer
    1606 why::why_wide: "reasons for recordings of 2^16, 2^20 and 2^24 chips, and of the longest frame",
    // for: StoreWrites.answer, StoreWrites.octets, WriteTells, StoreReadBack, ReadTells, store_written
    1701 store::store_written: "stores of all settings and of bad ones, in 0 to 20 octets and more, and read back",
    // for: StoreReads.answer, StoreChanges.answer, StoreChanges.octets, ReadTells, ChangeTouches
    // for: tabled, few, rising, laid, passable, complete, single, allowed_settings, is_setting
    1702 store::store_orders: "each set of refusals that can hold of a store at once, and tables cut, read and changed",
    // for: StoreChanges.answer, StoreChanges.octets, ChangeTells, ChangeTouches, allowed_settings
    1703 store::store_changes: "each setting changed to each octet value, good ones read back",
    // for: StoreWrites.answer, StoreChanges.answer, ChangeTells, ReadTells, allowed_settings
    1704 store::store_numbers: "each bit of 64 more in each number of a write and of a change",
    // for: StoreServes, StoreWrites.answer, allowed_settings
    1705 store::store_serves: "many kinds, rates and phases, beside the write of a frame with the same",
    // for: StoreReads.answer, StoreChanges.answer, ReadTells, laid, complete
    1706 store_edges::store_small: "every store of up to 6 octets of a few values",
    // for: StoreReads.answer, StoreChanges.answer, StoreChanges.octets, ReadTells, ChangeTouches
    // for: rising, laid, passable, complete, single, allowed_settings
    1707 store_edges::store_octets: "stores with one octet changed, taken out or put in, at every place",
    // for: OldReaders, StoreReads.answer, StoreChanges.octets, ChangeTouches, passable
    1708 store_edges::store_newer: "newer writers' stores: each unknown tag, version and body length, up to 16 entries",
    // for: StoreLargest, StoreReads.answer, StoreChanges.octets, laid
    1709 store_edges::store_largest: "16 entries of 255 octets, an entry and an octet more and less",
    // for: StoreReads.answer, StoreChanges.octets, StoreWrites.octets, laid
    1710 store_edges::store_wide: "stores and buffers of 2^16, 2^20, 2^22 and 2^24 octets",
    // for: StoreReads.answer, StoreChanges.answer, StoreChanges.octets, ReadTells, ChangeTells, ChangeTouches
    // for: OldReaders, tabled, few, rising, laid, passable, complete, single, allowed_settings, is_setting
    1711 store_shapes::store_shapes: "every set of nine tags, every number of entries, each entry of 16 spoiled",
    // for: StoreReads.answer, StoreChanges.answer, StoreChanges.octets, ReadTells, ChangeTells, ChangeTouches
    // for: laid, complete, single, allowed_settings, is_setting
    1712 store_shapes::store_bodies: "bodies of settings of every length, changes that would put a store right, zeros",
    // for: SpoiledReadBack, SpoiledTold, SymbolStands, DamageRow, InOneSymbol, AnyDamage
    1801 spoiled::spoiled_eleven: "every pattern within the limit on every word of 11 Mbit/s, all symbols spoiled",
    // for: SpoiledReadBack, SpoiledTold, SymbolStands, DamageRow, InOneSymbol, AnyDamage
    1802 spoiled::spoiled_five: "the same on every word of 5.5 Mbit/s",
    // for: SpoiledReadBack, SpoiledTold, SymbolStands, DamageRow, InOneSymbol, AnyDamage
    1803 spoiled::spoiled_barker: "Barker symbols of each phase, each way within the limit, at 1 and 2 Mbit/s",
    // for: SpoiledReadBack, SpoiledTold, DamageRow, InOneSymbol
    1804 spoiled::spoiled_sizes: "spoiled frames of 1 to 4,095 octets, each room, cut, with up to 2^24 chips behind",
    // for: SpoiledTold
    1805 spoiled::spoiled_fronts: "spoiled fronts, with anything behind them",
    // for: SpoiledFound
    1806 spoiled::spoiled_starts: "spoiled fronts searched for, behind anything",
    // for: SpoiledCounted
    1807 spoiled::spoiled_counted: "spoiled frames counted in lists and one by one",
    // for: SpoiledReadBack, SpoiledTold
    1808 spoiled::spoiled_unusable: "spoiled frames with one unusable octet, each of them, in the front and behind it",
    // for: LimitsTight, past_read, SpoiledTold
    1809 beyond::beyond_five: "every pattern one beyond the limit on every word of 5.5 Mbit/s, in one symbol alone",
    // for: LimitsTight, past_read, SpoiledTold
    1810 beyond::beyond_eleven: "patterns beyond the limit on every word of 11 Mbit/s, in one symbol alone",
    // for: LimitsTight, past_read, SpoiledTold
    1811 beyond::beyond_barker: "each way one beyond the limit on Barker symbols of each phase, in one symbol alone",
    // for: WordsApart
    1812 beyond::words_apart: "each word of 11 Mbit/s as it was sent, by its lead",
    // for: LimitsTight
    1813 beyond::beyond_front: "each symbol of a front beyond its limit, in two ways, all others within theirs",
    // for: SymbolStands
    1814 beyond::spoiled_leads: "one CCK symbol spoiled within its limit, by its lead",
    // for: Compares.answer, Compares.chips, Compares.octets, Compares.first, Compares.second, ComparedReads
    // for: ComparedShows, ComparedExchanged, ComparedGives
    1901 compare::compare_receivers: "one frame by two receivers, each with its own damage, all kinds and rates",
    // for: Compares.answer, Compares.octets, ComparedShows, ComparedExchanged, ComparedGives
    1902 compare::compare_frames: "other payloads, rates and n, payloads that begin alike, an octet at each place",
    // for: Compares.answer, Compares.first, Compares.second, Compares.octets, ComparedReads, ComparedShows
    1903 compare::compare_refused: "one refused or both, with each number, room on one side only",
    // for: Compares.answer, Compares.chips, ComparedReads
    1904 compare::compare_numbers: "kinds that are none, each bit more in a kind, chips compared all the same",
    // for: SpoiledCompared, Compares.octets, ComparedShows
    1910 compare::compare_sent: "frames that were written, one or two, both recordings within the limits",
    // for: ComparedItself, ComparedReads, Compares.answer, Compares.chips
    1905 compare::compare_itself: "one recording twice, and parts of it, in one row or in two",
    // for: Compares.answer, Compares.chips, ComparedShows, ComparedExchanged, ComparedGives
    1906 compare_edges::compare_lengths: "recordings of every two lengths, differences at each place, behind frames",
    // for: ComparedFits, Compares.chips, Compares.octets
    1907 compare_edges::compare_rows: "rows of every size about three times the entries of each list",
    // for: Compares.chips, Compares.answer, ComparedGives, ComparedExchanged
    1908 compare_edges::compare_octets: "each octet beside each other one, as chips",
    // for: Compares.answer, Compares.chips, Compares.octets, Compares.first, Compares.second, ComparedFits
    1909 compare_edges::compare_wide: "recordings and rows of 2^16 to 2^24, more than 2^8, 2^16 and 2^20 entries",
    // for: Read1997.answer, Read1997.octets, Fills1997, Answers1997, BesideOurs, AcceptedOurs, Begun1997
    2001 read_1997::read_1997_frames: "as the guides of 1997 read: each rate, clock bit or not, whole, cut, spoiled",
    // for: Read1997.answer, Read1997.octets, Fills1997, BesideOurs, AcceptedOurs
    2007 read_1997::read_1997_spoiled: "unusable chips of each octet, symbols turned and lost, each place and far ones",
    // for: Read1997.answer, Answers1997, BesideOurs
    2002 read_1997::read_1997_headers: "each SIGNAL, each SERVICE of each rate, LENGTH or what is behind it wrong",
    // for: Read1997.answer, Fills1997, Answers1997, BesideOurs, guide_front
    2003 read_1997::read_1997_orders: "each set of refusals that can hold at once; each refusal with long rows",
    // for: Read1997.answer, BesideOurs, AcceptedOurs
    2004 read_1997::read_1997_short_fronts: "short frames, and long ones that start early or late",
    // for: Sent1997, Spoiled1997, AcceptedOurs, BesideOurs
    2005 read_1997::read_1997_sent: "long frames that were written, as sent and spoiled within the limits",
    // for: Read1997.answer, Read1997.octets, Fills1997
    2006 read_1997::read_1997_wide: "recordings and octet buffers of 2^16, 2^20, 2^22 and 2^24 and a few more",
}

/// Where a family puts its calls.
pub struct Out<'a> {
    pub long: bool,
    pub random: Random,
    pub figures: &'a Figures,
    /// Says how rows are laid, and how those are of the calls that ask why.
    laying: Random,
    asking: Random,
    take: &'a mut dyn FnMut(Call, Laid),
}

impl<'a> Out<'a> {
    pub fn new(seed: u64, long: bool, figures: &'a Figures, take: &'a mut dyn FnMut(Call, Laid)) -> Out<'a> {
        let [laying, asking] = [1_000_000, 2_000_000].map(|more| Random::new(seed + more));
        Out { long, random: Random::new(seed), figures, laying, asking, take }
    }

    /// A call; before each reading of a hard recording what is coming in it, and behind it why it is refused with so
    /// much room, asked of the same chips.
    pub fn call(&mut self, call: Call) {
        let Call::ReadHard { kind, chips, octets_len } = &call else { return self.alone(call) };
        let (front, why) = (Call::front(*kind, chips.clone()), Call::why(*kind, chips.clone(), *octets_len as u64));
        self.alone(front);
        self.alone(call);
        self.ask(why);
    }

    /// A call that asks why. Its rows are laid by a sequence of its own, so that those of other calls hang on nothing
    /// of it.
    pub fn ask(&mut self, why: Call) {
        let laid = Laid::any(&why, &mut self.asking);
        (self.take)(why, laid);
    }

    /// A call with nothing before it, its rows laid in any way.
    pub fn alone(&mut self, call: Call) {
        let laid = Laid::any(&call, &mut self.laying);
        (self.take)(call, laid);
    }

    /// A call with nothing before it over a lent row of 0xAA: for rows that are lent a few times only.
    pub fn over_aa(&mut self, call: Call) {
        let laid = Laid::any(&call, &mut self.laying).over_aa();
        (self.take)(call, laid);
    }

    /// A hard reading and, once in so many times, the same chips read as bytes.
    pub fn hard_and_bytes(&mut self, times: usize, kind: u64, chips: Vec<u8>, room: usize) {
        if self.random.once_in(times) {
            self.call(Recorder::Bytes.reading(kind, chips.clone(), room));
        }
        self.call(Call::hard(kind, chips, room));
    }

    /// So many cases, or ten times as many in the longer run.
    pub fn cases(&self, shorter: usize) -> usize {
        if self.long {
            10 * shorter
        } else {
            shorter
        }
    }

    /// A step of 1 in the longer run.
    pub fn step(&self, shorter: usize) -> usize {
        if self.long {
            1
        } else {
            shorter
        }
    }
}

/// The kinds and rates that go together.
pub fn pairs() -> impl Iterator<Item = (Kind, Rate)> {
    Kind::BOTH
        .into_iter()
        .flat_map(|kind| Rate::ALL.into_iter().map(move |rate| (kind, rate)))
        .filter(|(kind, rate)| kind.has(*rate))
}

/// Any kind and rate that go together.
pub fn any_pair(random: &mut Random) -> (Kind, Rate) {
    let all: Vec<_> = pairs().collect();
    random.pick(&all)
}

/// Kinds, the two and others, whatever a narrower number would make of them.
pub const KINDS: [u64; 14] =
    [0, 1, 2, 3, 255, 256, 257, 1 << 32, (1 << 32) + 1, 1 << 40, (1 << 40) + 1, 1 << 63, u64::MAX - 1, u64::MAX];

/// Clock numbers: 0 is no, all others are yes, whatever a narrower number would make of them.
pub const CLOCKS: [u64; 11] = [0, 1, 2, 3, 4, 255, 256, 1 << 32, 1 << 40, 1 << 63, u64::MAX];

/// No, or any yes.
pub fn any_clock(random: &mut Random) -> u64 {
    if random.once_in(2) {
        0
    } else {
        random.pick(&CLOCKS[1..])
    }
}

/// A frame whose parts can be set apart from what the writer would make.
#[derive(Clone)]
pub struct Draft {
    pub kind: Kind,
    pub rate: Rate,
    pub phase: u8,
    pub sync: Vec<u8>,
    pub sfd: u16,
    pub header: Header,
    pub crc: u16,
    pub payload: Vec<u8>,
}

impl Draft {
    /// As the writer makes it, without the clock bit.
    pub fn new(kind: Kind, rate: Rate, phase: u8, payload: Vec<u8>) -> Draft {
        let header = Header::written(rate, payload.len(), false);
        Draft { kind, rate, phase, sync: kind.sync(), sfd: kind.sfd(), header, crc: header.crc(), payload }
    }

    /// Of n random octets, any phase and either clock bit.
    pub fn random(kind: Kind, rate: Rate, n: usize, random: &mut Random) -> Draft {
        let (phase, clock) = (random.phase(), random.once_in(2));
        Draft::new(kind, rate, phase, random.octets(n)).with_clock(clock)
    }

    /// The clock bit set or not, with the right CRC.
    pub fn with_clock(self, clock: bool) -> Draft {
        let service = self.header.service & !4 | u8::from(clock) << 2;
        let header = Header { service, ..self.header };
        self.with_header(header)
    }

    /// Another header with its right CRC.
    pub fn with_header(self, header: Header) -> Draft {
        Draft { header, crc: header.crc(), ..self }
    }

    pub fn chips(&self) -> Vec<u8> {
        let front = front_bits(&self.sync, self.sfd, &self.header, self.crc);
        frame_chips(self.kind, self.rate, self.phase, &front, &self.payload)
    }

    /// The chips without the clock bit and with it, for calls that are made of one frame.
    pub fn both_clocks(&self) -> [Vec<u8>; 2] {
        [false, true].map(|clock| self.clone().with_clock(clock).chips())
    }

    pub fn front(&self) -> Vec<u8> {
        let mut chips = Draft { payload: Vec::new(), ..self.clone() }.chips();
        chips.truncate(self.kind.front_chips());
        chips
    }
}

/// What recorded the chips.
#[derive(Clone, Copy)]
pub enum Recorder {
    Hard,
    Soft,
    Bytes,
}

impl Recorder {
    pub const ALL: [Recorder; 3] = [Recorder::Hard, Recorder::Soft, Recorder::Bytes];

    /// To pick from: half of them hard, which takes the least time.
    pub const HARD_TWICE: [Recorder; 4] = [Recorder::Hard, Recorder::Soft, Recorder::Hard, Recorder::Bytes];

    /// The reading of a hard recording's chips as this recorder has them, full ones.
    pub fn reading(self, kind: u64, chips: Vec<u8>, room: usize) -> Call {
        match self {
            Recorder::Hard => Call::hard(kind, chips, room),
            Recorder::Soft => Call::soft(kind, soft_rows(&chips, 1.0), room),
            Recorder::Bytes => Call::bytes(kind, byte_row(&chips, 1.0), room),
        }
    }
}

/// A hard recording as a soft one of the given size; lost chips become (0, 0), unusable octets NaN on I.
pub fn soft_rows(chips: &[u8], size: f32) -> (Vec<f32>, Vec<f32>) {
    let i = |chip: &u8| match *chip {
        0 => size,
        2 => -size,
        1 | 3 | LOST => 0.0,
        _ => f32::NAN,
    };
    let q = |chip: &u8| match *chip {
        1 => size,
        3 => -size,
        _ => 0.0,
    };
    (chips.iter().map(i).collect(), chips.iter().map(q).collect())
}

/// Soft rows as a row of bytes: 64 times each value, cut to a whole number and clipped at -128 and 127. A NaN, which no
/// byte is, becomes -128.
pub fn bytes_of(i: &[f32], q: &[f32]) -> Vec<i8> {
    let byte = |x: &f32| if x.is_nan() { i8::MIN } else { (64.0 * x) as i8 };
    i.iter().zip(q).flat_map(|(i, q)| [byte(i), byte(q)]).collect()
}

/// A hard recording as a row of bytes, as its soft rows are.
pub fn byte_row(chips: &[u8], size: f32) -> Vec<i8> {
    let (i, q) = soft_rows(chips, size);
    bytes_of(&i, &q)
}

/// Turns the chips of a row by quarter turns; a lost chip stays lost.
pub fn turn(chips: &mut [u8], by: u8) {
    for chip in chips.iter_mut().filter(|chip| **chip < LOST) {
        *chip = (*chip + by) % 4;
    }
}
