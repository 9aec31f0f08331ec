//! Hard recordings read as the guides of 1997 read them, each beside a hard read with as much room: frames of every
//! rate, headers of every SIGNAL and SERVICE, every order of refusals, short fronts, frames that were written, and long
//! rows.

use super::refused::{
    wrong_chips, wrong_draft, CRC, ENDS, FRONT, KIND, LENGTH, PAYLOAD_GROWTH, PAYLOAD_UNUSABLE, ROOM, ROWS, SERVICE,
    SFD, SIGNAL, WRONGS,
};
use super::spoiled::{written, Spoiler};
use super::{pairs, turn, Draft, Out};
use crate::bits::Rate;
use crate::calls::Call;
use crate::chips::LOST;
use crate::frame::{Header, Kind};
use crate::laid::WIDTHS;
use crate::random::Random;

/// The chips of a long front.
const LONG: usize = 2112;

/// The rates that the guides know.
const KNOWN: [Rate; 2] = [Rate::Mbit1, Rate::Mbit2];

/// A recording read with so much room, as we read and as the guides do. What is then asked of it by front and reason
/// must not hang on who read last.
fn ask(out: &mut Out, chips: Vec<u8>, room: usize) {
    let kind = Kind::Long.number();
    out.alone(Call::hard(kind, chips.clone(), room));
    out.alone(Call::read_1997(chips.clone(), room));
    if out.random.once_in(10) {
        out.alone(Call::front(kind, chips.clone()));
        out.alone(Call::why(kind, chips, room as u64));
    }
}

/// A long frame of n random octets at a rate.
fn long(rate: Rate, n: usize, clock: bool, random: &mut Random) -> Draft {
    Draft::random(Kind::Long, rate, n, random).with_clock(clock)
}

/// Any octets behind the chips of a small frame, more than 6,000 in all.
fn put_much_behind(chips: &mut Vec<u8>, random: &mut Random) {
    let len = random.within(6_001, 6_500);
    chips.extend(random.octets(len - chips.len()));
}

/// Each rate, without the clock bit and with it.
fn frames() -> impl Iterator<Item = (Rate, bool)> {
    Rate::ALL.into_iter().flat_map(|rate| [(rate, false), (rate, true)])
}

/// Any symbol of the front or of the payload, by the places of its chips.
fn any_symbol(draft: &Draft, payload: bool, random: &mut Random) -> std::ops::Range<usize> {
    let rate = if payload { draft.rate } else { Rate::Mbit1 };
    let (from, each) = (if payload { LONG } else { 0 }, rate.chips_per_symbol());
    let len = if payload { rate.payload_chips(draft.payload.len()) } else { LONG };
    let at = from + each * random.below(len / each);
    at..at + each
}

/// A frame cut, with less room than it needs, and short of its front.
fn cut_or_short_of_room(out: &mut Out, chips: &[u8], n: usize) {
    let len = out.random.within(LONG, chips.len() - 1);
    for len in [LONG, len, chips.len() - 1] {
        ask(out, chips[..len].to_vec(), n);
    }
    let room = out.random.pick(&[0, n - 1]);
    ask(out, chips.to_vec(), room);
    let short = out.random.pick(&[0, 1, LONG / 2, LONG - 11, LONG - 1]);
    ask(out, chips[..short].to_vec(), n);
}

/// A frame with an unusable chip, with a symbol turned and with one that has lost a few chips or all, in front and
/// payload.
fn spoiled_in(out: &mut Out, draft: &Draft, chips: &[u8]) {
    let n = draft.payload.len();
    for payload in [false, true] {
        let symbol = any_symbol(draft, payload, &mut out.random);
        let (mut unusable, mut turned, mut lost) = (chips.to_vec(), chips.to_vec(), chips.to_vec());
        unusable[out.random.within(symbol.start, symbol.end - 1)] = out.random.within(5, 255) as u8;
        turn(&mut turned[symbol.clone()], out.random.pick(&[1, 2, 3]));
        let few = out.random.pick(&[1, 2, 3, symbol.len()]);
        lost[symbol.start..symbol.start + few].fill(LOST);
        for chips in [unusable, turned, lost] {
            ask(out, chips, n);
        }
    }
}

/// A frame in each way that its recording can be.
fn each_way(out: &mut Out, spoiler: &mut Spoiler, draft: &Draft) {
    let (chips, n) = (draft.chips(), draft.payload.len());
    let more = out.random.pick(&[1, 9, 70, 4095]);
    ask(out, chips.clone(), n);
    ask(out, chips.clone(), n + more);
    let most = out.random.pick(&[1, 70, 900]);
    let behind = out.random.within(1, most);
    let longer = [&chips[..], &out.random.octets(behind)].concat();
    ask(out, longer, n);
    let mut within = chips.clone();
    spoiler.frame(Kind::Long, draft.rate, &mut within, &mut out.random);
    ask(out, within, n);
    cut_or_short_of_room(out, &chips, n);
    spoiled_in(out, draft, &chips);
}

/// Shows: a rate or a clock bit that is accepted or refused wrongly, and a frame of 10 or 20 that is not read as ours.
pub fn read_1997_frames(out: &mut Out) {
    let mut spoiler = Spoiler::new(&mut out.random);
    for (rate, clock) in frames() {
        for phase in (0..4).cycle().take(out.cases(4)) {
            let sizes = [out.random.within(2, 20), out.random.within(21, 64)];
            for n in sizes.into_iter().chain([1]) {
                let draft = long(rate, n, clock, &mut out.random);
                each_way(out, &mut spoiler, &Draft { phase, ..draft });
            }
        }
    }
    for (rate, n) in KNOWN.into_iter().flat_map(|rate| (1..=64).map(move |n| (rate, n))) {
        let draft = long(rate, n, false, &mut out.random);
        ask(out, draft.chips(), n + n % 3);
        if n % 16 == 0 {
            let draft = long(rate, 300 + 4 * n, false, &mut out.random);
            each_way(out, &mut spoiler, &draft);
        }
    }
    frames().for_each(|(rate, clock)| long_frames(out, &mut spoiler, rate, clock));
}

/// Longer payloads in each way; then long ones up to the longest, with room and without it, and one that is cut.
fn long_frames(out: &mut Out, spoiler: &mut Spoiler, rate: Rate, clock: bool) {
    for n in [out.random.within(65, 300), out.random.within(750, 1500)] {
        let draft = long(rate, n, clock, &mut out.random);
        each_way(out, spoiler, &draft);
    }
    for (n, room) in [(1023, 1023), (1024, 1025), (1025, 1025), (1026, 1029), (4095, 4095), (4095, 4096), (4095, 4094)]
    {
        let chips = long(rate, n, clock, &mut out.random).chips();
        out.alone(Call::read_1997(chips, room));
    }
    let mut chips = long(rate, 4095, clock, &mut out.random).chips();
    chips.pop();
    out.alone(Call::read_1997(chips, 4095));
}

/// Shows: a chip or a symbol of some place, or an octet that is no chip, taken otherwise than a hard read takes it, and
/// a lead that is another.
pub fn read_1997_spoiled(out: &mut Out) {
    one_symbol_led(out);
    far_symbols(out);
    frames().for_each(|(rate, clock)| each_place(out, rate, clock));
    (5..=255).for_each(|octet| unusable(out, octet));
    (0..out.cases(60)).for_each(|_| beyond(out));
}

/// A frame of which chips are any phases or lost, few to most, in all of it or in its payload.
fn beyond(out: &mut Out) {
    let (rate, n) = (out.random.pick(&KNOWN), out.random.within(1, 9));
    let (from, one_in) = (out.random.pick(&[1, LONG, LONG]), out.random.pick(&[1, 2, 4, 20, 90]));
    let mut chips = long(rate, n, false, &mut out.random).chips();
    for chip in &mut chips[from..] {
        *chip = if out.random.once_in(one_in) { out.random.below(5) as u8 } else { *chip };
    }
    ask(out, chips, n);
}

/// A frame with this octet in the front, and with it behind the front.
fn unusable(out: &mut Out, octet: u8) {
    let (rate, clock) = (out.random.pick(&KNOWN), out.random.once_in(4));
    let chips = long(rate, 1, clock, &mut out.random).chips();
    for (from, to) in [(0, LONG), (LONG, chips.len())] {
        let mut unusable = chips.clone();
        unusable[out.random.within(from, to - 1)] = octet;
        ask(out, unusable, 1);
    }
}

/// An unusable chip and a symbol turned at each place of a payload, and at some of the front: SYNC, SFD, each field of
/// the header and the front end with one.
fn each_place(out: &mut Out, rate: Rate, clock: bool) {
    let (n, step) = (out.random.within(1, 2), out.step(127));
    let chips = long(rate, n, clock, &mut out.random).chips();
    for at in (0..LONG).step_by(step).chain(LONG - 1..chips.len()) {
        let mut unusable = chips.clone();
        unusable[at] = out.random.within(5, 255) as u8;
        ask(out, unusable, n);
    }
    let ends = [128, 144, 152, 160, 176, 192].into_iter().flat_map(|end| [11 * (end - 1), 11 * end]);
    let some = (11..LONG).step_by(11 * step.min(16)).chain(ends.filter(|at| *at < LONG));
    for at in some.chain((LONG..chips.len() - 10).step_by(11)) {
        let mut turned = chips.clone();
        turn(&mut turned[at..at + 11], out.random.pick(&[1, 3]));
        ask(out, turned, n);
    }
}

/// One symbol of a frame that has lost some chips, so that it has the smallest lead: the first, one of the preamble, of
/// the header, of the payload.
fn one_symbol_led(out: &mut Out) {
    for (case, rate) in (0..out.cases(8)).flat_map(|case| KNOWN.map(|rate| (case, rate))) {
        let n = out.random.within(1, 12);
        let payload = (LONG + rate.payload_chips(n)) / 11;
        for (from, to) in [(0, 0), (1, 143), (144, 191), (192, payload - 1)] {
            let mut chips = long(rate, n, false, &mut out.random).chips();
            let at = 11 * out.random.within(from, to);
            chips[at..at + 1 + case % 8].fill(LOST);
            ask(out, chips, n);
        }
    }
}

/// A symbol from place 66,000 on, and of the longest payload from 264,000 on, with an unusable chip, turned, and with a
/// lost chip.
fn far_symbols(out: &mut Out) {
    for (rate, n, from) in [(Rate::Mbit1, 900, 6_000), (Rate::Mbit2, 1700, 6_000), (Rate::Mbit1, 4095, 24_000)] {
        let chips = long(rate, n, false, &mut out.random).chips();
        for case in 0..4 {
            let (mut far, at) = (chips.clone(), 11 * out.random.within(from, chips.len() / 11 - 1));
            match case {
                0 => far[at] = 5,
                1 => turn(&mut far[at..at + 11], 1),
                2 => turn(&mut far[at..at + 11], 3),
                _ => far[at] = LOST,
            }
            ask(out, far, n);
        }
    }
}

/// What else is wrong behind a header.
#[derive(Clone, Copy)]
enum Else {
    Nothing,
    Length,
    Length0,
    Cut,
    Room,
    Unusable,
    Grown,
    All,
}

/// To go through by turns, behind nothing and LENGTH.
const OTHERS: [Else; 5] = [Else::Cut, Else::Room, Else::Unusable, Else::Grown, Else::All];

/// A frame of a few octets at a rate with these for SIGNAL and SERVICE, and what else is wrong with it. At 11 Mbit/s
/// three octets have bit 7; one and two have not.
fn header(out: &mut Out, rate: Rate, (signal, service): (u8, u8), other: Else) {
    let n = if service >> 7 == 1 { 3 } else { out.random.within(1, 2) };
    let draft = long(rate, n, false, &mut out.random);
    let written = draft.header.length;
    let beside = if KNOWN.contains(&rate) { written + 1 } else { 0 };
    let length = match other {
        Else::Length0 => 0,
        Else::Length | Else::All => out.random.pick(&[0, beside, written | 0x8000, 0xFFFF, 0xFF00 | written]),
        _ => written,
    };
    let mut chips = draft.with_header(Header { signal, service, length }).chips();
    if matches!(other, Else::Grown | Else::All) {
        turn(&mut chips[LONG..LONG + 8], out.random.pick(&[1, 3]));
    }
    if matches!(other, Else::Unusable | Else::All) {
        chips[out.random.within(LONG, LONG + 7)] = out.random.within(5, 255) as u8;
    }
    if matches!(other, Else::Cut | Else::All) {
        let some = out.random.within(LONG, chips.len() - 1);
        chips.truncate(out.random.pick(&[LONG, some]));
    }
    if matches!(other, Else::Nothing | Else::Length) && out.random.once_in(10) {
        put_much_behind(&mut chips, &mut out.random);
    }
    let room = if matches!(other, Else::Room | Else::All) { out.random.below(n) } else { n };
    ask(out, chips, room);
}

/// LENGTHs about 0 and the longest payload's, and others, with a SERVICE of 0, which are refused with 15 to 17 or read;
/// and with the clock bit, or with a SIGNAL that the guides do not know.
fn lengths(out: &mut Out, rate: Rate) {
    let most = rate.length_of(4095).0;
    let any: Vec<usize> = (0..out.cases(30)).map(|_| out.random.below(1 << 16)).collect();
    let about = (0..=40).chain(most - 9..=most + 9).chain([0x7FFF, 0x8000, 0xFFFF]);
    for length in about.chain(any).map(|length| length as u16) {
        let draft = long(rate, 2, false, &mut out.random);
        let refused = out.random.pick(&[(rate.code(), 4), (55, 0), (110, 0), (110, 128), (0, 0)]);
        for (signal, service) in [(rate.code(), 0), refused] {
            let mut chips = draft.clone().with_header(Header { signal, service, length }).chips();
            match out.random.below(10) {
                0 => put_much_behind(&mut chips, &mut out.random),
                1 | 2 => chips.truncate(LONG),
                _ => {}
            }
            ask(out, chips, 1);
        }
    }
}

/// Each bit of SFD and CRC wrong, any SYNC, which is not compared, a short front's SFD, and SFD and CRC turned round.
fn checks(out: &mut Out, rate: Rate, clock: bool) {
    for bit in 0..16 {
        let draft = long(rate, 1, clock, &mut out.random);
        let sync: Vec<u8> = draft.sync.iter().map(|_| out.random.below(2) as u8).collect();
        let (sfd, crc) = (draft.sfd ^ 1 << bit, draft.crc ^ 1 << bit);
        ask(out, Draft { sfd, ..draft.clone() }.chips(), 1);
        ask(out, Draft { crc, ..draft.clone() }.chips(), 1);
        ask(out, Draft { sync, ..draft }.chips(), 1);
    }
    for sfd in [Kind::Short.sfd(), 0, 0xFFFF].into_iter().chain(turned_round(Kind::Long.sfd())) {
        let draft = long(rate, 1, clock, &mut out.random);
        ask(out, Draft { sfd, ..draft }.chips(), 1);
    }
    let draft = long(rate, 1, clock, &mut out.random);
    for crc in [0, 0xFFFF].into_iter().chain(turned_round(draft.crc)).filter(|crc| *crc != draft.crc) {
        ask(out, Draft { crc, ..draft.clone() }.chips(), 1);
    }
}

/// 16 bits inverted, with their octets exchanged, in the other order.
fn turned_round(bits: u16) -> [u16; 3] {
    [!bits, bits.swap_bytes(), bits.reverse_bits()]
}

/// Shows: a SIGNAL or a SERVICE taken for one that the guides know, 13 and 14 in another order or behind others.
pub fn read_1997_headers(out: &mut Out) {
    for signal in 0..=255_u8 {
        let rate = Rate::of_code(u64::from(signal)).unwrap_or(out.random.pick(&KNOWN));
        for other in [Else::Nothing, Else::Length, OTHERS[usize::from(signal) % 5]] {
            header(out, rate, (signal, 0), other);
        }
        let services: Vec<u8> = if out.long { (0..=255).collect() } else { vec![4, 1 << (signal % 8), !signal] };
        services.into_iter().for_each(|service| header(out, rate, (signal, service), Else::Nothing));
    }
    KNOWN.into_iter().for_each(|rate| lengths(out, rate));
    frames().for_each(|(rate, clock)| checks(out, rate, clock));
    for (rate, service) in Rate::ALL.into_iter().flat_map(|rate| (0..=255_u8).map(move |service| (rate, service))) {
        for other in [Else::Nothing, Else::Length, OTHERS[usize::from(service) % 5]] {
            header(out, rate, (rate.code(), service), other);
        }
        if [4, 128, 132].contains(&service) {
            let others = OTHERS.into_iter().chain([Else::Length0]);
            others.for_each(|other| header(out, rate, (rate.code(), service), other));
        }
    }
}

/// A long frame with the wrongs of a set, as the guides have it: SIGNAL is 55 or 110, or no rate; SERVICE has the clock
/// bit, bit 7 or another.
fn wrong_for_guides(set: usize, random: &mut Random) -> (Vec<u8>, usize) {
    let wrong = |k: usize| set >> k & 1 == 1;
    let rate = match (wrong(PAYLOAD_GROWTH), wrong(SIGNAL)) {
        (true, _) => Rate::Mbit1,
        (_, true) => random.pick(&Rate::ALL),
        _ => random.pick(&KNOWN),
    };
    let n = random.within(1, 4);
    let in_draft = |k: usize| wrong(k) && [SFD, LENGTH].contains(&k);
    let draft = wrong_draft(in_draft, (Kind::Long, rate), n, random).with_clock(false);
    let others = [rate.code(), 55, 110, 0, 11, 21, 138, 148, 255];
    let known = |signal: &u8| KNOWN.map(Rate::code).contains(signal);
    let others: Vec<u8> = others.into_iter().filter(|signal| !known(signal)).collect();
    let signal = if wrong(SIGNAL) { random.pick(&others) } else { rate.code() };
    let service = if wrong(SERVICE) { random.pick(&[4, 4, 128, 132, 1, 2, 64, 255]) } else { 0 };
    let mut draft = draft.clone().with_header(Header { signal, service, ..draft.header });
    if wrong(CRC) {
        draft.crc ^= random.within(1, 0xFFFF) as u16;
    }
    wrong_chips(wrong, &draft, random)
}

/// Shows: refusals in another order than a hard read's. Of sets with a recording short of the front one in eight.
pub fn read_1997_orders(out: &mut Out) {
    for set in 0..1_usize << WRONGS {
        let of_front = set >> FRONT & 1 == 1;
        if set >> KIND & 1 == 1 || set >> ROWS & 1 == 1 || of_front && set.count_ones() > 3 && !out.random.once_in(8) {
            continue;
        }
        let (mut chips, room) = wrong_for_guides(set, &mut out.random);
        if !of_front && set >> ENDS & 1 == 0 && out.random.once_in(8) {
            put_much_behind(&mut chips, &mut out.random);
        }
        ask(out, chips, room);
    }
    (FRONT..WRONGS).for_each(|wrong| longer_rows(out, wrong));
}

/// A recording with one wrong, or with both of its payload: read with more and more room, all of which is cleared, if
/// room is not the wrong; and of 2^16 chips and more.
fn longer_rows(out: &mut Out, wrong: usize) {
    let set = 1 << wrong | usize::from(wrong == PAYLOAD_UNUSABLE) << PAYLOAD_GROWTH;
    for more in [5, 60, 300, 4095, 1 << 16].into_iter().filter(|_| wrong != ROOM) {
        let (chips, room) = wrong_for_guides(set, &mut out.random);
        out.over_aa(Call::read_1997(chips, room + more));
    }
    let (mut chips, room) = wrong_for_guides(set, &mut out.random);
    if ![FRONT, ENDS].contains(&wrong) {
        chips.resize((1 << 16) + out.random.below(LONG), 0);
    }
    ask(out, chips, room);
}

/// Shows: a short front that is read, or a long one that starts late.
pub fn read_1997_short_fronts(out: &mut Out) {
    for (_, rate) in pairs().filter(|(kind, _)| *kind == Kind::Short) {
        let each = rate.payload_chips(1);
        for _ in 0..out.cases(6) {
            let sizes = [1, out.random.within(1, 1_000 / each), 1_056 / each, 1_056 / each + 1, 2_500 / each];
            for n in sizes {
                let draft = Draft::random(Kind::Short, rate, n, &mut out.random);
                ask(out, draft.chips(), n);
                let behind = long(out.random.pick(&KNOWN), 2, false, &mut out.random).chips();
                ask(out, [draft.chips(), behind].concat(), n.max(2));
            }
        }
    }
    for (late, (rate, clock)) in (0..=13).flat_map(|late| frames().map(move |frame| (late, frame))) {
        let chips = long(rate, 2, clock, &mut out.random).chips();
        let behind = out.random.octets(14);
        ask(out, [&chips[late..], &behind].concat(), 2);
        let before: Vec<u8> = (0..late).map(|_| out.random.phase()).collect();
        ask(out, [before, chips].concat(), 2);
    }
}

/// Shows: a frame that was written and is not read as the guides must read it, as sent and spoiled.
pub fn read_1997_sent(out: &mut Out) {
    let mut spoiler = Spoiler::new(&mut out.random);
    for ((rate, clock), phase) in frames().flat_map(|frame| (0..4).map(move |phase| (frame, phase))) {
        let sizes = [out.random.within(3, 12), out.random.within(13, 90)];
        for n in [1, 2].into_iter().chain(sizes) {
            let draft = Draft { phase, ..long(rate, n, clock, &mut out.random) };
            let mut chips = written(out, &draft);
            let room = n + out.random.pick(&[0, 0, 1, 50]);
            ask(out, chips.clone(), room);
            spoiler.frame(Kind::Long, rate, &mut chips, &mut out.random);
            let behind = out.random.pick(&[0, 0, 3, 100]);
            chips.extend(out.random.octets(behind));
            ask(out, chips, room);
        }
    }
    for (rate, clock) in frames() {
        let draft = long(rate, 4095, clock, &mut out.random);
        let chips = written(out, &draft);
        out.alone(Call::read_1997(chips, 4095));
    }
}

/// A recording with zeros behind the frame, of fewer chips than the front in its length's lowest bits; room that is
/// short of the payload in its lowest bits; and what is cleared of much room.
fn wide(out: &mut Out, bits: u32) {
    let wide = 1 << bits;
    for (rate, clock) in [(Rate::Mbit1, false), (Rate::Mbit2, false), (Rate::Mbit5_5, true), (Rate::Mbit2, true)] {
        let mut chips = long(rate, 3, clock, &mut out.random).chips();
        chips.resize(wide + out.random.below(LONG), 0);
        out.alone(Call::read_1997(chips, 3));
    }
    let refused = [(Rate::Mbit11, false), (Rate::Mbit1, true)];
    let known = [(KNOWN[bits as usize / 2 % 2], false)];
    let wholly = if bits > 20 { &refused[..0] } else { &refused[..] };
    for (rate, clock) in known.iter().chain(wholly) {
        let chips = long(*rate, 9, *clock, &mut out.random).chips();
        let room = wide + out.random.within(1, 8);
        out.over_aa(Call::read_1997(chips, room));
    }
}

/// Shows: a length that is cut to 16, 20, 22 or 24 bits, of a recording and of an octet buffer.
pub fn read_1997_wide(out: &mut Out) {
    WIDTHS.into_iter().for_each(|bits| wide(out, bits));
}
