//! How answers over a recording of a frame that was written go with what was written, whatever this program expects of
//! each: a recording that keeps the limits is read back, told, found and counted as that frame.

use crate::bits::Rate;
use crate::calls::{Answer, Call};
use crate::chips::{Phase, Recording, LOST};
use crate::frame::Kind;
use crate::refusals::{ENDS, MOST_OFFSETS, OCTET_BUFFER, REPORT, SERVICE, SIGNAL, UNUSABLE};
use crate::relations::lead_as_sent;
use crate::report::Report;
use crate::report_calls::ReportCall;
use crate::spoiling::{beside, damage_row, keeps_limits, limit, pattern_of, word_of, Damage, Pattern, Way};

/// What was seen to hold. A symbol is one of a frame that a hard read answered.
#[derive(Clone, Copy, PartialEq, Eq, PartialOrd, Ord)]
pub enum Spoiled {
    /// A CCK symbol of this rate and word, spoiled by this pattern, in a frame that keeps the limits.
    Cck { rate: u64, word: u8, pattern: Pattern<8> },
    /// A Barker symbol of this phase, spoiled in this way, in a frame that keeps the limits.
    Barker { phase: Phase, way: Way },
    /// A frame of this kind and rate, without the clock bit or with it, that keeps the limits is read back by this op.
    ReadBack { op: &'static str, kind: u64, rate: u64, clock: u64 },
    /// One of this rate and of so many octets: 1, 2 or 4,095.
    Of { rate: u64, n: u64 },
    /// One with more room than its octets.
    MoreRoom,
    /// One with chips behind it, unusable ones among them or not.
    Behind { unusable: bool },
    /// One with about 2^k chips behind it, for k of 16, 20 and 24.
    FarBehind(u32),
    /// One of this rate of which every symbol is spoiled.
    EachSpoiled { rate: u64 },
    /// One of which every symbol is spoiled as far as its limit allows.
    EachAtLimit { rate: u64 },
    /// One whose smallest lead is one full chip, first in the front or in the payload.
    LedByOne { rate: u64, front: bool },
    /// One as it was sent, of one octet at 11 Mbit/s: the lead says that no other word scores above 4 full chips.
    Apart { word: u8 },
    /// Soft samples or bytes of the same chips are read as the hard recording was.
    SameBy(&'static str),
    /// A long frame of this rate, without the clock bit or with it, is read as the guides of 1997 must read it: as it
    /// was sent, whole and with room, or otherwise with a front that keeps the limits.
    By1997 { rate: u64, clock: u64, as_sent: bool },
    /// One with less room than its octets is refused with 17.
    NoRoom,
    /// The front of one that is not clean tells of the frame.
    Told { rate: u64 },
    /// A front that keeps the limits does, before a payload that is beyond them or has an unusable chip.
    ToldBeyond { rate: u64 },
    /// A front that keeps the limits does, before a payload that is cut, with 16.
    ToldCut { rate: u64 },
    /// A front that keeps the limits isn't passed over: found where it starts, or before.
    Found { early: bool },
    /// One that starts at the last offset that can be tried is found there, or before.
    FoundAtLast,
    /// Why a read of a spoiled frame is refused, or that it is not, is answered as it must be.
    Reasoned { refused: bool },
    /// A frame that keeps the limits is counted as the frame that it was, as one more or in a list of such.
    Counted { listed: bool, rate: u64 },
    /// One with chips behind it is, as one more.
    CountedBehind,
    /// One that is cut or has an unusable chip is counted under this number.
    CountedUnder(u64),
    /// This octet, in the front or behind it, is refused with 9, all symbols else keeping the limits.
    Unusable { front: bool, octet: u8 },
    /// A CCK symbol alone is beyond the limits: the frame is read back, or something else comes of it.
    Beyond { rate: u64, word: u8, pattern: Pattern<8>, other: bool },
    /// The same of a Barker symbol; the rate is the payload's.
    BeyondBarker { rate: u64, phase: Phase, way: Way, other: bool },
}

/// What holds, or what doesn't go together.
type Holds = Result<Vec<Spoiled>, &'static str>;

/// A frame that was written, its chips as the library gave them.
struct Sent {
    kind: Kind,
    rate: Rate,
    clock: u64,
    payload: Vec<u8>,
    chips: Vec<Phase>,
}

/// How a recording stands to a frame that was written.
#[derive(Clone, Copy, PartialEq)]
enum State {
    /// The front keeps the limits, and the recording ends before the frame does.
    Cut,
    /// Here is the frame's first unusable chip; the front keeps the limits otherwise.
    Unusable(usize),
    /// All symbols keep their limits.
    Kept,
    /// Those of the front do.
    Beyond,
}

impl Sent {
    fn rate(&self) -> u64 {
        u64::from(self.rate.code())
    }

    fn n(&self) -> u64 {
        self.payload.len() as u64
    }

    fn length(&self) -> u64 {
        self.rate.length_of(self.payload.len()).0 as u64
    }

    fn front(&self) -> usize {
        self.kind.front_chips()
    }

    /// Whether the chips from the first on are a front of this frame that keeps the limits.
    fn begins(&self, recorded: &[u8]) -> bool {
        let (sent, front) = (&self.chips[..self.front()], recorded.get(..self.front()));
        // Most of what is no such front shows it by its first symbols.
        let first = |front: &&[u8]| Damage::of(&sent[..33], &front[..33]).weight() <= 3 * limit(Rate::Mbit1);
        front.filter(first).is_some_and(|front| keeps_limits(self.kind, self.rate, sent, front))
    }

    /// None if the recording may be of any other frame: nothing is promised of it.
    fn state(&self, recorded: &[u8]) -> Option<State> {
        let front = recorded.get(..self.front())?;
        let of_frame = &recorded[..recorded.len().min(self.chips.len())];
        let unusable = of_frame.iter().position(|chip| *chip > LOST).map(State::Unusable);
        if front.iter().any(|chip| *chip > LOST) {
            let row = damage_row(self.kind, self.rate, &self.chips[..self.front()], front);
            return unusable.filter(|_| row.iter().all(|damage| damage.keeps(Rate::Mbit1)));
        }
        if !self.begins(recorded) {
            return None;
        }
        if of_frame.len() < self.chips.len() {
            return Some(State::Cut);
        }
        let kept = keeps_limits(self.kind, self.rate, &self.chips, of_frame);
        unusable.or(Some(if kept { State::Kept } else { State::Beyond }))
    }

    /// Number, place and LENGTH of the refusal of a full read with so much room, if it is settled that there is one.
    fn refusal(&self, state: State, room: u64) -> Option<[u64; 3]> {
        match state {
            State::Unusable(place) if place < self.front() => Some([UNUSABLE, place as u64, 0]),
            State::Cut => Some([ENDS, 0, self.length()]),
            _ if room < self.n() => Some([OCTET_BUFFER, 0, self.length()]),
            State::Unusable(place) => Some([UNUSABLE, place as u64, self.length()]),
            State::Kept | State::Beyond => None,
        }
    }

    /// What is seen of a refusal that is as it must be.
    fn refused(&self, state: State, recorded: &[u8]) -> Option<Spoiled> {
        match state {
            State::Unusable(place) => Some(Spoiled::Unusable { front: place < self.front(), octet: recorded[place] }),
            State::Kept => Some(Spoiled::NoRoom),
            State::Cut | State::Beyond => None,
        }
    }

    /// Whether a full read gave the payload, and zeros behind it.
    fn gave(&self, answer: &Answer) -> bool {
        let n = self.payload.len();
        answer.buffer.starts_with(&self.payload) && answer.buffer[n..].iter().all(|octet| *octet == 0)
    }

    /// A full read: refused as it must be, or read back with a lead of one full chip or more.
    fn read(&self, state: State, op: &'static str, recorded: &[u8], answer: &Answer) -> Holds {
        let room = answer.buffer.len() as u64;
        if let Some([number, place, length]) = self.refusal(state, room) {
            let same = answer.numbers == [number, place, 0, length, 0, 0, 0, 0, 0];
            let refused = || self.refused(state, recorded).into_iter().collect();
            return if same { Ok(refused()) } else { Err("a spoiled frame isn't refused as it must be") };
        }
        if state == State::Beyond {
            let beyond = self.beyond(recorded, answer).filter(|_| op == "read hard");
            return Ok(beyond.into_iter().collect());
        }
        let told = [0, 0, self.rate(), self.length(), self.n(), self.chips.len() as u64, self.clock];
        if answer.numbers[..7] != told || !self.gave(answer) {
            return Err("a frame that keeps the limits isn't read back");
        }
        let row = damage_row(self.kind, self.rate, &self.chips, recorded);
        let (lead, clean) = (answer.numbers[7], row.iter().all(|damage| *damage == Damage::default()));
        if lead < 1024 || answer.numbers[8] >= row.len() as u64 || clean && lead != lead_as_sent(self.rate()) {
            return Err("a frame that keeps the limits has a smaller lead than it must");
        }
        let mut seen = self.of_frame(op, recorded, answer, &row);
        if op == "read hard" {
            seen.extend(self.symbols(recorded));
        }
        Ok(seen)
    }

    /// A read as the guides of 1997 read: 13 at the rates that they do not know, 14 with the clock bit, each with the
    /// frame's LENGTH, whatever became of its payload; else as ours.
    fn read_1997(&self, state: State, recorded: &[u8], answer: &Answer) -> Holds {
        let refused = match (self.rate, self.clock) {
            (Rate::Mbit1 | Rate::Mbit2, 0) => None,
            (Rate::Mbit1 | Rate::Mbit2, _) => Some(SERVICE),
            _ => Some(SIGNAL),
        };
        let in_front = matches!(state, State::Unusable(place) if place < self.front());
        match refused.filter(|_| !in_front) {
            None => drop(self.read(state, "read 1997", recorded, answer)?),
            Some(number) if answer.numbers != [number, 0, 0, self.length(), 0, 0, 0, 0, 0] => {
                return Err("a frame that the guides do not know isn't refused with 13 or 14 and its LENGTH");
            }
            Some(_) => {}
        }
        let whole = recorded.get(..self.chips.len()) == Some(&self.chips[..]);
        let as_sent = whole && answer.buffer.len() >= self.payload.len();
        Ok(vec![Spoiled::By1997 { rate: self.rate(), clock: self.clock, as_sent }])
    }

    /// What is seen of a frame that is read back.
    fn of_frame(&self, op: &'static str, recorded: &[u8], answer: &Answer, row: &[Damage]) -> Vec<Spoiled> {
        let (kind, rate, n) = (self.kind.number(), self.rate(), self.n());
        let of_symbol = |symbol: usize| if 11 * symbol < self.front() { Rate::Mbit1 } else { self.rate };
        let behind = &recorded[self.chips.len()..];
        let about = |bits: &u32| behind.len() + 5000 >= 1 << bits;
        let clean = row.iter().all(|damage| *damage == Damage::default());
        let at_limit = |(symbol, damage): (usize, &Damage)| damage.weight() == limit(of_symbol(symbol));
        let one_word = self.chips[self.front()..].try_into().map(word_of).ok();
        let seen = [
            (true, Spoiled::ReadBack { op, kind, rate, clock: self.clock }),
            ([1, 2, 4095].contains(&n), Spoiled::Of { rate, n }),
            (answer.buffer.len() as u64 > n, Spoiled::MoreRoom),
            (!behind.is_empty(), Spoiled::Behind { unusable: behind.iter().any(|chip| *chip > LOST) }),
            (row.iter().all(|damage| damage.weight() > 0), Spoiled::EachSpoiled { rate }),
            (row.iter().enumerate().all(at_limit), Spoiled::EachAtLimit { rate }),
            (
                answer.numbers[7] == 1024,
                Spoiled::LedByOne { rate, front: 11 * answer.numbers[8] < self.front() as u64 },
            ),
        ];
        let seen = seen.into_iter().filter(|(seen, _)| *seen).map(|(_, spoil)| spoil);
        let far = [24, 20, 16].into_iter().find(about).map(Spoiled::FarBehind);
        let apart = one_word.filter(|_| clean && rate == 110).map(|word| Spoiled::Apart { word });
        seen.chain(far).chain(apart).collect()
    }

    /// The symbols of a frame that is read back, each with how it was spoiled.
    fn symbols<'a>(&'a self, recorded: &'a [u8]) -> impl Iterator<Item = Spoiled> + 'a {
        beside(self.kind, self.rate, &self.chips, recorded).map(|(rate, sent, recorded)| {
            match how_spoiled(sent, recorded) {
                How::Cck(word, pattern) => Spoiled::Cck { rate: u64::from(rate.code()), word, pattern },
                How::Barker(phase, way) => Spoiled::Barker { phase, way },
            }
        })
    }

    /// What comes of a frame of which one symbol alone is beyond the limits.
    fn beyond(&self, recorded: &[u8], answer: &Answer) -> Option<Spoiled> {
        let (rate, other) = (self.rate(), answer.numbers[0] != 0 || !self.gave(answer));
        let symbols = beside(self.kind, self.rate, &self.chips, recorded);
        let mut beyond = symbols.filter(|(rate, sent, at)| !Damage::of(sent, at).keeps(*rate));
        let (_, sent, recorded) = beyond.next()?;
        beyond.next().is_none().then(|| match how_spoiled(sent, recorded) {
            How::Cck(word, pattern) => Spoiled::Beyond { rate, word, pattern, other },
            How::Barker(phase, way) => Spoiled::BeyondBarker { rate, phase, way, other },
        })
    }

    /// What is coming, told by a front that keeps the limits.
    fn told(&self, state: State, recorded: &[u8], numbers: &[u64]) -> Holds {
        let (rate, length, used, at) = (self.rate(), self.length(), self.chips.len() as u64, self.front() as u64);
        let whole = [0, 0, rate, length, self.clock, self.n(), used, at, used - at];
        let (told, seen) = match state {
            State::Unusable(place) if place < self.front() => ([UNUSABLE, place as u64, 0, 0, 0, 0, 0, 0, 0], None),
            State::Cut => ([ENDS, 0, 0, length, 0, 0, 0, 0, 0], Some(Spoiled::ToldCut { rate })),
            State::Kept => (whole, (recorded[..self.chips.len()] != self.chips).then_some(Spoiled::Told { rate })),
            _ => (whole, Some(Spoiled::ToldBeyond { rate })),
        };
        if numbers == told {
            Ok(seen.into_iter().collect())
        } else {
            Err("a front that keeps the limits tells otherwise than was written")
        }
    }

    /// Why a read with so much room is refused, if it is settled whether it is.
    fn reason(&self, state: State, recorded: &[u8], room: u64, numbers: &[u64]) -> Holds {
        let reason = match (self.refusal(state, room), state) {
            (None, State::Beyond) => return Ok(Vec::new()),
            (None, _) => [0; 4],
            (Some([OCTET_BUFFER, ..]), _) => [OCTET_BUFFER, 0, self.n(), room],
            (Some([ENDS, ..]), _) => [ENDS, 0, self.chips.len() as u64, recorded.len() as u64],
            (Some([number, place, _]), _) => [number, place, 0, u64::from(recorded[place as usize])],
        };
        if numbers == reason {
            Ok(vec![Spoiled::Reasoned { refused: reason[0] != 0 }])
        } else {
            Err("a reason that doesn't go with what was written")
        }
    }

    /// Adds this frame to totals that know nothing of leads.
    fn count(&self, totals: &mut Report) {
        let rate = Rate::ALL.iter().position(|rate| *rate == self.rate).expect("one of the four");
        totals.seen += 1;
        totals.frames[rate] += 1;
        totals.octets[rate] += self.n();
        totals.airtime += if self.kind == Kind::Long { 192 } else { 96 } + self.length();
    }
}

/// How a symbol was spoiled: a CCK word and its pattern, or a Barker symbol's phase, which is its first chip's, and its
/// way.
enum How {
    Cck(u8, Pattern<8>),
    Barker(Phase, Way),
}

fn how_spoiled(sent: &[Phase], recorded: &[u8]) -> How {
    match (sent.try_into(), recorded.try_into()) {
        (Ok(sent), Ok(recorded)) => How::Cck(word_of(sent), pattern_of(sent, recorded)),
        _ => {
            let eleven = |chips: &[u8]| chips.try_into().expect("a symbol has 8 chips or 11");
            How::Barker(sent[0], Way::of(&pattern_of(&eleven(sent), &eleven(recorded))))
        }
    }
}

/// Frames kept at a time: those written one after the other with no other call between.
const MOST: usize = 16;

/// A hard read: its kind, recording and answer.
struct Read {
    kind: u64,
    chips: Vec<u8>,
    numbers: Vec<u64>,
    octets: Vec<u8>,
}

/// The frames written last and the last hard read of one of them, to which those calls are held that follow.
#[derive(Default)]
pub struct Spoils {
    sent: Vec<Sent>,
    asked: bool,
    last: Option<Read>,
}

impl Spoils {
    pub fn hold(&mut self, call: &Call, answer: &Answer) -> Holds {
        if let Call::Write { kind, rate, clock, payload, .. } = call {
            self.wrote(*kind, *rate, *clock, payload, answer);
            return Ok(Vec::new());
        }
        if self.sent.is_empty() {
            return Ok(Vec::new());
        }
        self.asked = true;
        match call {
            Call::ReadHard { kind, chips, .. } => {
                let seen = self.of(*kind, chips).map(|(sent, state)| sent.read(state, call.op(), chips, answer));
                let (numbers, octets) = (answer.numbers.clone(), answer.buffer.clone());
                self.last = seen.is_some().then(|| Read { kind: *kind, chips: chips.clone(), numbers, octets });
                seen.unwrap_or(Ok(Vec::new()))
            }
            Call::Read1997 { chips, .. } => {
                self.asked_of(Kind::Long.number(), chips, |sent, state| sent.read_1997(state, chips, answer))
            }
            Call::ReadSoft { kind, .. } | Call::ReadBytes { kind, .. } => self.by_another(*kind, call, answer),
            Call::ReadFront { kind, chips } => {
                self.asked_of(*kind, chips, |sent, state| sent.told(state, chips, &answer.numbers))
            }
            Call::Why { kind, chips, room } => {
                self.asked_of(*kind, chips, |sent, state| sent.reason(state, chips, *room, &answer.numbers))
            }
            Call::Find { kind, chips, offsets } => self.found(*kind, chips, *offsets, &answer.numbers),
            Call::Report(ReportCall::Add { report, kind, chips }) => {
                self.asked_of(*kind, chips, |sent, state| added(sent, state, chips, report, &answer.numbers))
            }
            Call::Report(ReportCall::List { kinds, recordings }) => self.listed(kinds, recordings, &answer.numbers),
            _ => Ok(Vec::new()),
        }
    }

    fn wrote(&mut self, kind: u64, rate: u64, clock: u64, payload: &[u8], answer: &Answer) {
        let [0, used] = answer.numbers[..] else { return };
        let (Some(kind), Some(rate)) = (Kind::of_number(kind), Rate::of_code(rate)) else { return };
        if self.asked {
            self.sent.clear();
        }
        if self.sent.len() == MOST {
            self.sent.remove(0);
        }
        let chips = answer.buffer.get(..used as usize).unwrap_or(&[]).to_vec();
        self.asked = false;
        if chips.len() > kind.front_chips() {
            self.sent.push(Sent { kind, rate, clock: u64::from(clock != 0), payload: payload.to_vec(), chips });
        }
    }

    /// The frame that a recording is of, and how it stands to it.
    fn of(&self, kind: u64, recorded: &[u8]) -> Option<(&Sent, State)> {
        let of_kind = self.sent.iter().filter(|sent| sent.kind.number() == kind);
        let states = || of_kind.clone().filter_map(|sent| sent.state(recorded).map(|state| (sent, state)));
        // Several frames may have the same front; the payload then says which it is.
        states().find(|(_, state)| *state != State::Beyond).or_else(|| states().next())
    }

    fn asked_of(&self, kind: u64, recorded: &[u8], hold: impl Fn(&Sent, State) -> Holds) -> Holds {
        self.of(kind, recorded).map_or(Ok(Vec::new()), |(sent, state)| hold(sent, state))
    }

    /// Soft samples or bytes that are full chips or zeros: read as hard chips are, and as they were.
    fn by_another(&self, kind: u64, call: &Call, answer: &Answer) -> Holds {
        let longest = self.sent.iter().map(|sent| sent.chips.len()).max().unwrap_or(0);
        let chips = call.recording().and_then(|recording| hard_chips(recording, longest));
        let Some(chips) = chips else { return Ok(Vec::new()) };
        let mut seen = self.asked_of(kind, &chips, |sent, state| sent.read(state, call.op(), &chips, answer))?;
        let room = |last: &&Read| last.kind == kind && last.octets.len() == answer.buffer.len();
        if let Some(last) = self.last.as_ref().filter(|last| room(last) && last.chips == chips) {
            if last.numbers != answer.numbers || last.octets != answer.buffer {
                return Err("another answer than of the same chips in a hard recording");
            }
            seen.push(Spoiled::SameBy(call.op()));
        }
        Ok(seen)
    }

    /// A find: no offset below the number of offsets at which a front begins that keeps the limits is passed over; if
    /// found there, it is told as what was written.
    fn found(&self, kind: u64, chips: &[u8], offsets: u64, numbers: &[u64]) -> Holds {
        let tried = if offsets <= MOST_OFFSETS { chips.len().min(offsets as usize) } else { 0 };
        let of_kind =
            |at: usize| self.sent.iter().filter(move |sent| sent.kind.number() == kind).map(move |sent| (at, sent));
        let first = (0..tried).flat_map(of_kind).find(|(at, sent)| sent.begins(&chips[*at..]));
        let Some((start, sent)) = first.map(|(at, sent)| (at as u64, sent)) else { return Ok(Vec::new()) };
        if numbers[0] != 0 || numbers[1] > start {
            return Err("a front that keeps the limits is passed over");
        }
        let there = [0, start, sent.rate(), sent.length(), sent.clock, sent.n()];
        if numbers[1] == start && numbers != there {
            return Err("a front that keeps the limits is found, but told otherwise than was written");
        }
        let at_last = (start + 1 == MOST_OFFSETS).then_some(Spoiled::FoundAtLast);
        Ok([Spoiled::Found { early: numbers[1] < start }].into_iter().chain(at_last).collect())
    }

    /// A list of frames that all keep the limits: its totals are theirs.
    fn listed(&self, kinds: &[u64], recordings: &[Vec<u8>], numbers: &[u64]) -> Holds {
        let (mut totals, mut seen) = (Report::default(), Vec::new());
        for (kind, recorded) in kinds.iter().zip(recordings) {
            match self.of(*kind, recorded) {
                Some((sent, State::Kept)) => {
                    sent.count(&mut totals);
                    seen.push(Spoiled::Counted { listed: true, rate: sent.rate() });
                }
                _ => return Ok(Vec::new()),
            }
        }
        let report = Report::of_numbers(&numbers[1..]);
        let led = |report: &Report| report.some == 1 && report.lead >= 1024 && report.recording < report.seen;
        let same = Report { some: 0, lead: 0, recording: 0, ..report.clone() } == totals;
        if kinds.len() != recordings.len() || recordings.is_empty() || numbers[0] == 0 && same && led(&report) {
            Ok(seen)
        } else {
            Err("a list of frames that keep the limits isn't counted as what was written")
        }
    }
}

/// The hard chips that full samples or bytes are, as far as the longest frame goes; none if one is another value.
fn hard_chips(recording: Recording, most: usize) -> Option<Vec<u8>> {
    let hard = |place: usize| match recording.chip(place)?.counts() {
        (1024, 0) => Some(0),
        (0, 1024) => Some(1),
        (-1024, 0) => Some(2),
        (0, -1024) => Some(3),
        (0, 0) => Some(LOST),
        _ => None,
    };
    (0..recording.chips().min(most)).filter(|_| !recording.unpaired()).map(hard).collect()
}

/// One recording more: a frame that keeps the limits is counted as what was written, a cut one under 16, one with an
/// unusable chip under 9.
fn added(sent: &Sent, state: State, recorded: &[u8], before: &Report, numbers: &[u64]) -> Holds {
    let after = Report::of_numbers(&numbers[1..]);
    if numbers[0] == REPORT || state == State::Beyond {
        return Ok(Vec::new());
    }
    let mut totals = before.clone();
    let mut seen = Vec::new();
    match sent.refusal(state, u64::MAX) {
        None => {
            sent.count(&mut totals);
            seen.push(Spoiled::Counted { listed: false, rate: sent.rate() });
            seen.extend((recorded.len() > sent.chips.len()).then_some(Spoiled::CountedBehind));
        }
        Some([number, ..]) => {
            totals.seen += 1;
            totals.refused[number as usize] += 1;
            seen.push(Spoiled::CountedUnder(number));
        }
    }
    let stays = (after.some, after.lead, after.recording) == (before.some, before.lead, before.recording);
    let leads = after.some == 1 && after.lead >= 1024 && after.recording == before.seen;
    let led = if state == State::Kept { leads || stays && before.some != 0 } else { stays };
    (totals.some, totals.lead, totals.recording) = (after.some, after.lead, after.recording);
    if totals != after || !led {
        return Err("a spoiled frame isn't counted as what was written");
    }
    Ok(seen)
}
