//! Two recordings compared: one frame by two receivers, different frames, one or both refused, one recording twice.

use super::refused::{wrong_reading, KIND, ROWS, WRONGS};
use super::spoiled::{written, Spoiler};
use super::{any_pair, pairs, Draft, Out, Recorder, KINDS};
use crate::bits::Rate;
use crate::calls::Call;
use crate::chips::LOST;
use crate::compare_calls::CompareCall;
use crate::comparing::differences;
use crate::frame::Kind;
use crate::random::Random;

/// Places about three times so many entries, and any few.
pub fn some_places(entries: usize, random: &mut Random) -> usize {
    let about = [3 * entries, 3 * entries + 1, 3 * entries + 2, 3 * entries + 40];
    let short = [3 * entries, 3 * entries + 2, 3 * entries + 3].map(|places| places.saturating_sub(3));
    let any = random.below(3 * entries + 4);
    random.pick(&[about[0], about[0], about[1], about[2], about[3], short[0], short[1], short[2], 0, any])
}

/// The comparison. Once in three times both recordings are read before it, and once in three they are exchanged behind.
pub fn ask(out: &mut Out, call: CompareCall) {
    if out.random.once_in(3) {
        for (chips, room) in call.recordings.iter().zip(call.rooms) {
            out.alone(Call::hard(call.kind, chips.clone(), room));
        }
    }
    let exchanged = out.random.once_in(3).then(|| call.exchanged());
    out.alone(Call::Compare(call));
    exchanged.into_iter().for_each(|call| out.alone(Call::Compare(call)));
}

/// Two recordings with rooms, the list of chips about its size, the other's row of any length up to what n octets need.
fn ask_any(out: &mut Out, kind: u64, recordings: [Vec<u8>; 2], rooms: [usize; 2], n: usize) {
    let chips = differences(&recordings[0], &recordings[1]).len();
    let (few, all) = (out.random.below(n + 1), out.random.pick(&[3 * n, 3 * n + 1]));
    let places = [some_places(chips, &mut out.random), out.random.pick(&[0, few, 3 * few, all, all, all])];
    ask(out, CompareCall::new(kind, recordings, places, rooms));
}

/// What a receiver makes of a frame's chips.
#[derive(Clone, Copy)]
enum Heard {
    AsSent,
    Within,
    PayloadBeyond,
    LostBurst,
    Wrong,
    Unusable,
    Cut,
    ChipsBehind,
}

/// To pick from: what is accepted as a rule comes more often.
const HEARD: [Heard; 12] = [
    Heard::AsSent,
    Heard::Within,
    Heard::Within,
    Heard::Within,
    Heard::PayloadBeyond,
    Heard::PayloadBeyond,
    Heard::LostBurst,
    Heard::Wrong,
    Heard::Unusable,
    Heard::Cut,
    Heard::ChipsBehind,
    Heard::ChipsBehind,
];

impl Heard {
    fn chips(self, draft: &Draft, spoiler: &mut Spoiler, random: &mut Random) -> Vec<u8> {
        let (mut chips, front) = (draft.chips(), draft.kind.front_chips());
        let len = chips.len();
        match self {
            Heard::AsSent => {}
            Heard::Within => spoiler.frame(draft.kind, draft.rate, &mut chips, random),
            Heard::PayloadBeyond | Heard::Wrong => {
                let from = if matches!(self, Heard::Wrong) { 0 } else { front };
                let one_in = random.pick(&[100, 20, 6, 3]);
                for chip in &mut chips[from..] {
                    *chip = if random.once_in(one_in) { random.below(5) as u8 } else { *chip };
                }
            }
            Heard::LostBurst => {
                let at = random.within(front, len - 1);
                let to = (at + random.within(1, 60)).min(len);
                chips[at..to].fill(LOST);
            }
            Heard::Unusable => chips[random.below(len)] = random.within(5, 255) as u8,
            Heard::Cut => chips.truncate(random.within(front - 30, len - 1)),
            Heard::ChipsBehind => {
                spoiler.frame(draft.kind, draft.rate, &mut chips, random);
                let behind = random.within(1, 130);
                chips.extend(random.octets(behind));
            }
        }
        chips
    }
}

/// One frame, the first receiver with this damage and the second with any; rooms that do, or one too small.
fn receivers(out: &mut Out, spoiler: &mut Spoiler, (kind, rate): (Kind, Rate), n: usize, first: Heard) {
    let draft = Draft::random(kind, rate, n, &mut out.random);
    let second = out.random.pick(&HEARD);
    let heard = [first, second].map(|heard| heard.chips(&draft, spoiler, &mut out.random));
    let rooms = [(); 2].map(|()| out.random.pick(&[n, n, n + 1, n + 9, n + 70, n - 1]));
    ask_any(out, kind.number(), heard, rooms, n);
}

/// Shows: records or octets that are not the reads', and differences missed or made up, in damage of every sort.
pub fn compare_receivers(out: &mut Out) {
    let mut spoiler = Spoiler::new(&mut out.random);
    let long =
        [(Rate::Mbit11, 1500), (Rate::Mbit11, 4095), (Rate::Mbit5_5, 1400), (Rate::Mbit2, 1500), (Rate::Mbit1, 800)];
    for (heard, kind) in HEARD.into_iter().flat_map(|heard| Kind::BOTH.map(|kind| (heard, kind))) {
        let of_kind = long.into_iter().filter(|(rate, _)| kind.has(*rate));
        of_kind.for_each(|(rate, n)| receivers(out, &mut spoiler, (kind, rate), n, heard));
    }
    for pair in pairs() {
        for case in 0..out.cases(96) {
            let most = if case % 12 == 0 { (3500 / pair.1.payload_chips(1)).min(130) } else { 24 };
            let (n, heard) = (out.random.within(1, most), out.random.pick(&HEARD));
            receivers(out, &mut spoiler, pair, n, heard);
        }
    }
}

/// A frame that is written, and recordings of it or of it and another one of its kind, each spoiled within the limits
/// or as sent, with anything behind; room for both, or a row too short.
fn sent(out: &mut Out, spoiler: &mut Spoiler, (kind, rate): (Kind, Rate), case: usize) {
    let rates: Vec<Rate> = Rate::ALL.into_iter().filter(|rate| kind.has(*rate)).collect();
    let n = out.random.within(1, 40);
    let first = Draft::random(kind, rate, n, &mut out.random);
    let second = match case % 4 {
        0 => first.clone(),
        1 => {
            let other = changed(&first.payload, &[out.random.below(n), n - 1], &mut out.random);
            Draft::new(kind, rate, out.random.phase(), other)
        }
        2 => Draft::random(kind, rate, out.random.within(1, 40), &mut out.random),
        _ => Draft::random(kind, out.random.pick(&rates), out.random.within(1, 40), &mut out.random),
    };
    let mut recordings = [written(out, &first), written(out, &second)];
    for (recording, draft) in recordings.iter_mut().zip([&first, &second]) {
        if !out.random.once_in(5) {
            spoiler.frame(kind, draft.rate, recording, &mut out.random);
        }
        let behind = out.random.pick(&[0, 0, 3, 100]);
        recording.extend(out.random.octets(behind));
    }
    let rooms = [&first, &second].map(|draft| draft.payload.len() + out.random.pick(&[0, 0, 7]));
    ask_any(out, kind.number(), recordings, rooms, n.max(second.payload.len()));
}

/// Shows: octets listed that are not those sent, where both recordings keep the limits.
pub fn compare_sent(out: &mut Out) {
    let mut spoiler = Spoiler::new(&mut out.random);
    for pair in pairs() {
        (0..out.cases(24)).for_each(|case| sent(out, &mut spoiler, pair, case));
    }
}

/// Two clean frames of one kind with these rates and payloads, rooms for both, or for more, and a row for the octets of
/// any size about their list's.
fn frames(out: &mut Out, kind: Kind, rates: [Rate; 2], payloads: [Vec<u8>; 2]) {
    let octets = differences(&payloads[0], &payloads[1]).len();
    let places = some_places(octets, &mut out.random);
    frames_beside(out, kind, rates, payloads, places);
}

/// The same with so many places for the octets; sometimes with chips behind both frames.
fn frames_beside(out: &mut Out, kind: Kind, rates: [Rate; 2], payloads: [Vec<u8>; 2], octet_places: usize) {
    let most = payloads[0].len().max(payloads[1].len());
    let rooms = [0, 1].map(|side| out.random.pick(&[payloads[side].len(), most, most + 5, 4095]));
    let [first, second] = payloads;
    let phase = out.random.phase();
    let other = out.random.pick(&[phase, phase, 0, 1, 2, 3]);
    let chips = [Draft::new(kind, rates[0], phase, first), Draft::new(kind, rates[1], other, second)];
    let mut chips = chips.map(|draft| draft.with_clock(out.random.once_in(2)).chips());
    let end = chips[0].len().max(chips[1].len()) + out.random.below(40);
    if out.random.once_in(3) {
        chips.iter_mut().for_each(|chips| chips.extend(out.random.octets(end - chips.len())));
    }
    let entries = differences(&chips[0], &chips[1]).len();
    let places = [some_places(entries, &mut out.random), octet_places];
    ask(out, CompareCall::new(kind.number(), chips, places, rooms));
}

/// A payload with the octets at these places changed.
fn changed(payload: &[u8], places: &[usize], random: &mut Random) -> Vec<u8> {
    let mut other = payload.to_vec();
    places.iter().for_each(|place| other[*place] ^= random.within(1, 255) as u8);
    other
}

/// A payload beside a longer one that begins alike, or differs in the last octet that both have; either may be first.
fn longer(out: &mut Out, kind: Kind, rates: [Rate; 2]) {
    let (n, more) = (out.random.within(1, 70), out.random.within(1, 70));
    let first = out.random.octets(n);
    let rest = out.random.octets(more);
    let second = match out.random.below(3) {
        0 => changed(&first, &[n - 1], &mut out.random),
        1 => changed(&first, &[out.random.below(n)], &mut out.random),
        _ => first.clone(),
    };
    let second = [second, rest].concat();
    frames(out, kind, rates, [first.clone(), second.clone()]);
    frames(out, kind, rates, [second, first]);
}

/// Shows: octets left out or made up at a place, behind the shorter payload, or by the other one's n.
pub fn compare_frames(out: &mut Out) {
    for kind in Kind::BOTH {
        let rates: Vec<Rate> = Rate::ALL.into_iter().filter(|rate| kind.has(*rate)).collect();
        for pair in rates.iter().flat_map(|one| rates.iter().map(move |other| [*one, *other])) {
            (0..out.cases(4)).for_each(|_| longer(out, kind, pair));
            let n = out.random.within(1, 40);
            let payloads = [out.random.octets(n), out.random.octets(n)];
            frames(out, kind, pair, payloads);
            for n in [63, 64, 65, 128, 150] {
                let payload = out.random.octets(n);
                let last = changed(&payload, &[n - 1], &mut out.random);
                frames_beside(out, kind, pair, [payload, last], 3);
            }
        }
    }
    let fast = [Rate::Mbit11; 2];
    for n in (1..=66).chain([127, 128, 129, 191, 192, 193]) {
        let payload = out.random.octets(n);
        let last = changed(&payload, &[n - 1], &mut out.random);
        let places = 3 + out.random.below(3);
        frames_beside(out, Kind::Short, fast, [payload, last], places);
    }
    let payload = out.random.octets(130);
    for place in 0..130 {
        let other = changed(&payload, &[place], &mut out.random);
        let places = 3 + out.random.below(3);
        frames_beside(out, Kind::Short, fast, [payload.clone(), other], places);
    }
    for n in [1, 2, 64, 255, 256, 257, 700, 4095] {
        let payload = out.random.octets(n);
        let all: Vec<u8> = payload.iter().map(|octet| octet ^ out.random.within(1, 255) as u8).collect();
        for places in [0, 2, 3 * n - 1, 3 * n] {
            frames_beside(out, Kind::Short, fast, [payload.clone(), all.clone()], places);
        }
        for place in [0, n / 2, n.min(3001) - 1, n - 1] {
            let other = changed(&payload, &[place], &mut out.random);
            frames_beside(out, Kind::Short, fast, [payload.clone(), other], 3);
        }
    }
}

/// A hard recording with this wrong alone: its kind, its chips and its room.
fn wrong(wrong: usize, random: &mut Random) -> (u64, Vec<u8>, usize) {
    match wrong_reading(1 << wrong, Recorder::Hard, random) {
        Call::ReadHard { kind, chips, octets_len } => (kind, chips, octets_len),
        _ => unreachable!("a hard reading"),
    }
}

/// The wrongs that one recording can have beside a good one of the same kind.
fn wrongs() -> impl Iterator<Item = usize> {
    (0..WRONGS).filter(|wrong| ![KIND, ROWS].contains(wrong))
}

/// A recording with a wrong beside a good frame of its kind, either first; sometimes the same frame, put right.
fn beside_good(out: &mut Out, of: usize) {
    let (kind, chips, room) = wrong(of, &mut out.random);
    let good = Kind::of_number(kind).expect("no wrong kind");
    let rates: Vec<Rate> = Rate::ALL.into_iter().filter(|rate| good.has(*rate)).collect();
    let (rate, n) = (out.random.pick(&rates), out.random.within(1, 6));
    let right = Draft::random(good, rate, n, &mut out.random).chips();
    let (rooms, recordings) = ([room, n + out.random.below(3)], [chips, right]);
    let call = CompareCall::new(kind, recordings, [0, 0], rooms);
    for call in [call.exchanged(), call] {
        let CompareCall { recordings, rooms, .. } = call;
        ask_any(out, kind, recordings, rooms, 6);
    }
}

/// Two recordings with a wrong each.
fn both_wrong(out: &mut Out, of: [usize; 2]) {
    let mut draw = || of.map(|of| wrong(of, &mut out.random));
    let [mut first, mut second] = draw();
    while second.0 != first.0 {
        [first, second] = draw();
    }
    ask_any(out, first.0, [first.1, second.1], [first.2, second.2], 6);
}

/// One frame twice, room for it on one side only, on both and on neither.
fn rooms(out: &mut Out, (kind, rate): (Kind, Rate)) {
    let n = out.random.within(2, 20);
    let draft = Draft::random(kind, rate, n, &mut out.random);
    let mut spoiler = Spoiler::new(&mut out.random);
    let mut chips = [draft.chips(), draft.chips()];
    spoiler.frame(kind, rate, &mut chips[1], &mut out.random);
    for one in [0, 1, n - 1, n, n + 1] {
        for other in [0, n - 1, n, n + 3] {
            ask_any(out, kind.number(), chips.clone(), [one, other], n);
        }
    }
}

/// Shows: what is listed or told although one is refused, a buffer cleared that is the other's, a refusal mixed up.
pub fn compare_refused(out: &mut Out) {
    for of in wrongs() {
        (0..out.cases(16)).for_each(|_| beside_good(out, of));
    }
    for pair in wrongs().flat_map(|one| wrongs().map(move |other| [one, other])) {
        (0..3).for_each(|_| both_wrong(out, pair));
    }
    pairs().for_each(|pair| rooms(out, pair));
}

/// Kinds that are none, and each bit more of a kind, over frames of which chips differ.
pub fn compare_numbers(out: &mut Out) {
    for kind in Kind::BOTH {
        let chips = [(); 2].map(|()| Draft::random(kind, Rate::Mbit11, 2, &mut out.random).chips());
        for number in (0..64).map(|bit| kind.number() ^ 1 << bit).chain(KINDS) {
            ask_any(out, number, chips.clone(), [2, 2], 2);
        }
    }
    for (kind, len) in KINDS.into_iter().flat_map(|kind| [0, 1, 70].map(|len| (kind, len))) {
        let recordings = [(); 2].map(|()| out.random.octets(len));
        ask_any(out, kind, recordings, [0, 3], 2);
    }
}

/// One recording twice, with as much room and with other room; the same less a few chips at its end or its beginning.
fn itself(out: &mut Out, kind: u64, chips: &[u8], room: usize) {
    let few = out.random.within(1, 9).min(chips.len());
    let late = chips.get(5..).unwrap_or(&[]);
    let others = [chips, chips, chips, &chips[..chips.len() - few], late, &late[..late.len() / 2]];
    for (case, other) in others.into_iter().enumerate() {
        let places = some_places(differences(chips, other).len(), &mut out.random);
        let rooms = [room, if case < 2 { room } else { out.random.pick(&[room, 0, room + 1]) }];
        let one = CompareCall::new(kind, [chips.to_vec(), other.to_vec()], [places, places], rooms);
        let way = out.random.once_in(2);
        ask(out, if way { one } else { one.exchanged() });
    }
}

/// Shows: rows that may not be one, and differences of a recording and itself.
pub fn compare_itself(out: &mut Out) {
    for _ in 0..out.cases(30) {
        let (kind, rate) = any_pair(&mut out.random);
        let n = out.random.within(1, 12);
        let chips = Draft::random(kind, rate, n, &mut out.random).chips();
        let room = out.random.pick(&[n, n, n + 4, n - 1]);
        itself(out, kind.number(), &chips, room);
    }
    for of in (0..out.cases(3)).flat_map(|_| wrongs().chain([KIND])) {
        let (kind, chips, room) = wrong(of, &mut out.random);
        itself(out, kind, &chips, room);
    }
    for len in [0, 1, 4, 5, 6, 63, 64, 65, 200] {
        let chips = out.random.octets(len);
        itself(out, 0, &chips, 3);
    }
}
