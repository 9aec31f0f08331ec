//! One call of the library: its request to the bridge, the answer this program expects, and how both are shown.

use crate::chips::Recording;
use crate::coming::{coming, Coming};
use crate::compare_calls::{self, CompareCall};
use crate::finding::{find, Found};
use crate::laid::Laid;
use crate::reading::{read, read_1997};
use crate::refusals::CHIP_BUFFER;
use crate::report_calls::ReportCall;
use crate::store_calls::StoreCall;
use crate::why::{why, Reason};
use crate::writing::write;
use std::fmt::{LowerHex, Write as _};
use std::io::{self, Read};

/// A call with its numbers and lent rows. Buffers lent for writing are given by their length alone, but for the store
/// of a change, which is read too.
pub enum Call {
    Write { kind: u64, rate: u64, phase: u64, clock: u64, payload: Vec<u8>, chips_len: usize },
    ReadHard { kind: u64, chips: Vec<u8>, octets_len: usize },
    ReadSoft { kind: u64, i: Vec<f32>, q: Vec<f32>, octets_len: usize },
    ReadBytes { kind: u64, bytes: Vec<i8>, octets_len: usize },
    Read1997 { chips: Vec<u8>, octets_len: usize },
    ReadFront { kind: u64, chips: Vec<u8> },
    Find { kind: u64, chips: Vec<u8>, offsets: u64 },
    Why { kind: u64, chips: Vec<u8>, room: u64 },
    Compare(CompareCall),
    Report(ReportCall),
    Store(StoreCall),
}

/// What a call answers: its numbers in the order of the record, and the lent buffer after the call, or the part that it
/// hands back, or what is sent of several lent rows.
#[derive(PartialEq, Eq)]
pub struct Answer {
    pub numbers: Vec<u64>,
    pub buffer: Vec<u8>,
}

/// What this program expects of a call: the answer that the document gives, what is counted of it, and the leads of the
/// symbols that a full read decides, refused or not; so too of the one recording more that a report is to count.
pub struct Expected {
    pub answer: Answer,
    pub met: Met,
    pub leads: Vec<i32>,
}

/// Where a call's answer is settled. Fronts of recordings above 6,000 chips, payloads of more than 300 octets, and
/// places from 65,536 on, count apart: what goes wrong there only is not seen in short frames.
#[derive(Clone, Copy, PartialEq, Eq, PartialOrd, Ord)]
pub enum Part {
    Front,
    LongFront,
    Payload,
    LongPayload,
    FarPlace,
}

/// What is counted of a call: its op, the part that settles its answer, the number answered, and whether the clock bit
/// was asked for or stood in the header that was read.
#[derive(Clone, Copy, PartialEq, Eq, PartialOrd, Ord)]
pub struct Met {
    pub op: &'static str,
    pub part: Part,
    pub number: u64,
    pub clock: bool,
}

impl Part {
    fn of(told: u64, place: u64, recorded: usize) -> Part {
        match (told, place, recorded) {
            (0, _, 6_001..) => Part::LongFront,
            (0, _, _) => Part::Front,
            (_, 65_536.., _) => Part::FarPlace,
            (301.., _, _) => Part::LongPayload,
            _ => Part::Payload,
        }
    }
}

impl Call {
    pub fn write(kind: u64, rate: u64, phase: u64, clock: u64, payload: Vec<u8>, chips_len: usize) -> Call {
        Call::Write { kind, rate, phase, clock, payload, chips_len }
    }

    pub fn hard(kind: u64, chips: Vec<u8>, octets_len: usize) -> Call {
        Call::ReadHard { kind, chips, octets_len }
    }

    pub fn soft(kind: u64, (i, q): (Vec<f32>, Vec<f32>), octets_len: usize) -> Call {
        Call::ReadSoft { kind, i, q, octets_len }
    }

    pub fn bytes(kind: u64, bytes: Vec<i8>, octets_len: usize) -> Call {
        Call::ReadBytes { kind, bytes, octets_len }
    }

    pub fn read_1997(chips: Vec<u8>, octets_len: usize) -> Call {
        Call::Read1997 { chips, octets_len }
    }

    pub fn front(kind: u64, chips: Vec<u8>) -> Call {
        Call::ReadFront { kind, chips }
    }

    pub fn find(kind: u64, chips: Vec<u8>, offsets: u64) -> Call {
        Call::Find { kind, chips, offsets }
    }

    pub fn why(kind: u64, chips: Vec<u8>, room: u64) -> Call {
        Call::Why { kind, chips, room }
    }

    pub fn op(&self) -> &'static str {
        match self {
            Call::Write { .. } => "write",
            Call::ReadHard { .. } => "read hard",
            Call::ReadSoft { .. } => "read soft",
            Call::ReadBytes { .. } => "read bytes",
            Call::Read1997 { .. } => "read 1997",
            Call::ReadFront { .. } => "read front",
            Call::Find { .. } => "find",
            Call::Why { .. } => "why",
            Call::Compare(_) => "compare",
            Call::Report(call) => call.op(),
            Call::Store(call) => call.op(),
        }
    }

    fn names(&self) -> &'static [&'static str] {
        match self {
            Call::Write { .. } => &["number", "chips"],
            Call::ReadFront { .. } => &["number", "place", "rate", "length", "clock", "n", "used", "at", "count"],
            Call::Find { .. } => &["number", "offset", "rate", "length", "clock", "n"],
            Call::Why { .. } => &["number", "place", "expected", "found"],
            Call::Compare(_) => &compare_calls::NAMES,
            Call::Report(call) => call.names(),
            Call::Store(call) => call.names(),
            _ => &["number", "place", "rate", "length", "n", "used", "clock", "lead", "symbol"],
        }
    }

    /// The lengths of the rows lent for writing, in elements.
    pub fn lent_lens(&self) -> Vec<usize> {
        match self {
            Call::Compare(call) => call.lent_lens(),
            _ => self.lent_len().into_iter().collect(),
        }
    }

    /// The length of the buffer whose octets follow an answer's numbers, if it is lent for writing and the only one.
    fn lent_len(&self) -> Option<usize> {
        match self {
            Call::Write { chips_len, .. } => Some(*chips_len),
            Call::ReadHard { octets_len, .. }
            | Call::ReadSoft { octets_len, .. }
            | Call::ReadBytes { octets_len, .. }
            | Call::Read1997 { octets_len, .. } => Some(*octets_len),
            Call::ReadFront { .. } | Call::Find { .. } | Call::Why { .. } | Call::Compare(_) => None,
            Call::Report(call) => call.lent_len(),
            Call::Store(call) => call.lent_len(),
        }
    }

    /// The lengths of the rows for reading, in elements.
    pub fn read_lens(&self) -> Vec<usize> {
        match self {
            Call::Write { payload: row, .. }
            | Call::ReadHard { chips: row, .. }
            | Call::Read1997 { chips: row, .. }
            | Call::ReadFront { chips: row, .. }
            | Call::Find { chips: row, .. }
            | Call::Why { chips: row, .. } => vec![row.len()],
            Call::ReadSoft { i, q, .. } => vec![i.len(), q.len()],
            Call::ReadBytes { bytes, .. } => vec![bytes.len()],
            Call::Compare(call) => call.read_lens(),
            Call::Report(call) => call.read_lens(),
            Call::Store(call) => call.read_lens(),
        }
    }

    /// Whether the lent row is read too: it holds octets of its own before the call.
    pub fn changes(&self) -> bool {
        matches!(self, Call::Store(StoreCall::Change { .. }))
    }

    /// Whether a list names a recording again, and all of it, or only a part.
    pub fn names_a_row_twice(&self) -> Option<bool> {
        match self {
            Call::Report(call) => call.names_a_row_twice(),
            _ => None,
        }
    }

    /// The octets that follow an answer's numbers: the lent buffer, or the part as far as it is in the recording.
    fn following(&self, numbers: &[u64]) -> usize {
        match (self, numbers) {
            (Call::ReadFront { chips, .. }, [.., at, count]) => {
                (chips.len() as u64).saturating_sub(*at).min(*count) as usize
            }
            _ => self.lent_len().unwrap_or(0),
        }
    }

    /// The request: the op, how the rows are laid and the call's numbers as u64, then the rows, all little-endian.
    pub fn request(&self, laid: &Laid, to: &mut Vec<u8>) {
        let laid = laid.word(self);
        let mut numbers = |list: &[u64]| list.iter().for_each(|number| to.extend(number.to_le_bytes()));
        match self {
            Call::Write { kind, rate, phase, clock, payload, chips_len } => {
                numbers(&[1, laid, *kind, *rate, *phase, *clock, payload.len() as u64, *chips_len as u64]);
                put_octets(payload, to);
            }
            Call::ReadHard { kind, chips, octets_len } => {
                numbers(&[2, laid, *kind, chips.len() as u64, *octets_len as u64]);
                put_octets(chips, to);
            }
            Call::ReadSoft { kind, i, q, octets_len } => {
                numbers(&[3, laid, *kind, i.len() as u64, q.len() as u64, *octets_len as u64]);
                put_floats(i, to);
                put_floats(q, to);
            }
            Call::ReadBytes { kind, bytes, octets_len } => {
                numbers(&[4, laid, *kind, bytes.len() as u64, *octets_len as u64]);
                let sent = start_row(bytes, |byte| *byte == 0, to);
                to.extend(sent.iter().map(|byte| *byte as u8));
            }
            Call::Read1997 { chips, octets_len } => {
                numbers(&[15, laid, chips.len() as u64, *octets_len as u64]);
                put_octets(chips, to);
            }
            Call::ReadFront { kind, chips } => {
                numbers(&[5, laid, *kind, chips.len() as u64]);
                put_octets(chips, to);
            }
            Call::Find { kind, chips, offsets } => {
                numbers(&[6, laid, *kind, chips.len() as u64, *offsets]);
                put_octets(chips, to);
            }
            Call::Why { kind, chips, room } => {
                numbers(&[10, laid, *kind, chips.len() as u64, *room]);
                put_octets(chips, to);
            }
            Call::Compare(call) => call.request(laid, to),
            Call::Report(call) => call.request(laid, to),
            Call::Store(call) => call.request(laid, to),
        }
    }

    /// The library's answer as the bridge sends it, and its guard: 0 if all is well.
    pub fn answer(&self, from: &mut impl Read) -> io::Result<(Answer, u64)> {
        let mut number = [0; 8];
        let mut numbers = Vec::new();
        for _ in self.names() {
            from.read_exact(&mut number)?;
            numbers.push(u64::from_le_bytes(number));
        }
        let buffer = match self {
            Call::Compare(call) => call.rows(from)?,
            _ => {
                let mut buffer = vec![0; self.following(&numbers)];
                from.read_exact(&mut buffer)?;
                buffer
            }
        };
        from.read_exact(&mut number)?;
        Ok((Answer { numbers, buffer }, u64::from_le_bytes(number)))
    }

    /// The recording of which a full read is asked.
    pub fn recording(&self) -> Option<Recording<'_>> {
        match self {
            Call::ReadHard { chips, .. } | Call::Read1997 { chips, .. } => Some(Recording::Hard(chips)),
            Call::ReadSoft { i, q, .. } => Some(Recording::Soft(i, q)),
            Call::ReadBytes { bytes, .. } => Some(Recording::Bytes(bytes)),
            _ => None,
        }
    }

    /// What is expected of the call; a write's part goes by its payload's length. The buffer starts with other contents
    /// than any call leaves.
    pub fn expected(&self) -> Expected {
        let mut buffer = vec![0x77; self.lent_len().unwrap_or(0)];
        let mut leads = Vec::new();
        let (numbers, part, clock) = match self {
            Call::Write { kind, rate, phase, clock, payload, .. } => {
                let written = write(*kind, *rate, *phase, *clock, payload, &mut buffer);
                let told = if [0, CHIP_BUFFER].contains(&written.number) { payload.len() as u64 } else { 0 };
                (vec![written.number, written.chips], Part::of(told, 0, 0), *clock != 0)
            }
            Call::ReadFront { kind, chips } => {
                let front = coming(*kind, chips);
                buffer.extend(front.part);
                front_record(front, chips.len())
            }
            Call::Find { kind, chips, offsets } => found_record(find(*kind, chips, *offsets), chips.len()),
            Call::Why { kind, chips, room } => reason_record(why(*kind, chips, *room), chips.len()),
            Call::Compare(call) => {
                let (numbers, rows, first) = call.expected();
                buffer = rows;
                (numbers, Part::of(first.told, first.place, call.recordings[0].len()), first.clock_read)
            }
            Call::Report(call) => (call.expected(&mut buffer, &mut leads), Part::Front, false),
            Call::Store(call) => (call.expected(&mut buffer), Part::Front, false),
            Call::ReadHard { kind, .. } | Call::ReadSoft { kind, .. } | Call::ReadBytes { kind, .. } => {
                let recording = self.recording().expect("a full read has one");
                let mut read = read(*kind, recording, &mut buffer);
                leads = std::mem::take(&mut read.leads);
                record(read, recording.chips())
            }
            Call::Read1997 { chips, .. } => {
                let mut read = read_1997(chips, &mut buffer);
                leads = std::mem::take(&mut read.leads);
                record(read, chips.len())
            }
        };
        let met = Met { op: self.op(), part, number: numbers[0], clock };
        Expected { answer: Answer { numbers, buffer }, met, leads }
    }

    /// The call with all its numbers and its rows in hex, each row cut after so many octets.
    pub fn shown(&self, cut: usize) -> String {
        let mut lines = vec![format!("  {}: {}", self.op(), self.shown_numbers())];
        match self {
            Call::Write { payload, .. } => lines.push(format!("  payload {}", hex(payload, cut))),
            Call::ReadHard { chips, .. }
            | Call::Read1997 { chips, .. }
            | Call::ReadFront { chips, .. }
            | Call::Find { chips, .. }
            | Call::Why { chips, .. } => lines.push(format!("  chips {}", hex(chips, cut))),
            Call::ReadSoft { i, q, .. } => {
                lines.push(format!("  i, the bits of each f32: {}", hex_row(i, cut)));
                lines.push(format!("  q, the bits of each f32: {}", hex_row(q, cut)));
            }
            Call::ReadBytes { bytes, .. } => lines.push(format!("  bytes {}", hex(bytes, cut))),
            Call::Compare(call) => lines.extend(call.shown_rows(cut)),
            Call::Report(call) => lines.extend(call.shown_rows(cut)),
            Call::Store(call) => lines.extend(call.shown_rows(cut)),
        }
        lines.join("\n")
    }

    /// Both answers, and where their buffers first differ.
    pub fn compared(&self, expected: &Answer, answer: &Answer, cut: usize) -> String {
        let mut lines = vec![
            format!("  expected {}", self.shown_answer(expected, cut)),
            format!("  library  {}", self.shown_answer(answer, cut)),
        ];
        let both = expected.buffer.iter().zip(&answer.buffer).enumerate();
        for (at, (right, found)) in both.filter(|(_, (right, found))| right != found).take(1) {
            let buffer = self.buffer_name();
            lines.push(format!("  {buffer} differs first at {at}: expected {right:02x}, library {found:02x}"));
        }
        lines.join("\n")
    }

    fn shown_numbers(&self) -> String {
        match self {
            Call::Write { kind, rate, phase, clock, payload, chips_len } => {
                let numbers = format!("kind {kind}, rate {rate}, phase {phase}, clock {clock}");
                format!("{numbers}, payload_len {}, chips_len {chips_len}", payload.len())
            }
            Call::ReadHard { kind, chips, octets_len } => {
                format!("kind {kind}, chips_len {}, octets_len {octets_len}", chips.len())
            }
            Call::ReadSoft { kind, i, q, octets_len } => {
                format!("kind {kind}, i_len {}, q_len {}, octets_len {octets_len}", i.len(), q.len())
            }
            Call::ReadBytes { kind, bytes, octets_len } => {
                format!("kind {kind}, bytes_len {}, octets_len {octets_len}", bytes.len())
            }
            Call::Read1997 { chips, octets_len } => format!("chips_len {}, octets_len {octets_len}", chips.len()),
            Call::ReadFront { kind, chips } => format!("kind {kind}, chips_len {}", chips.len()),
            Call::Find { kind, chips, offsets } => format!("kind {kind}, chips_len {}, offsets {offsets}", chips.len()),
            Call::Why { kind, chips, room } => format!("kind {kind}, chips_len {}, room {room}", chips.len()),
            Call::Compare(call) => call.shown_numbers(),
            Call::Report(call) => call.shown_numbers(),
            Call::Store(call) => call.shown_numbers(),
        }
    }

    fn buffer_name(&self) -> &'static str {
        match self {
            Call::ReadFront { .. } => "part",
            Call::Compare(_) => "rows",
            _ => "buffer",
        }
    }

    fn shown_answer(&self, answer: &Answer, cut: usize) -> String {
        let named = self.names().iter().zip(&answer.numbers).map(|(name, number)| format!("{name} {number}"));
        let (named, buffer) = (named.collect::<Vec<_>>().join(", "), self.buffer_name());
        format!("{named}; {buffer} {}", hex(&answer.buffer, cut))
    }
}

/// Zeros at the end of a row that are not worth a thought.
const FEW: usize = 64;

/// How many elements of a row are sent: all, but for many zeros at its end. These elements.
fn start_row<'a, T>(row: &'a [T], zero: impl Fn(&T) -> bool, to: &mut Vec<u8>) -> &'a [T] {
    let zeros = row.iter().rev().take_while(|element| zero(element)).count();
    let sent = row.len() - if zeros > FEW { zeros } else { 0 };
    to.extend((sent as u64).to_le_bytes());
    &row[..sent]
}

/// A row of octets in a request.
pub fn put_octets(row: &[u8], to: &mut Vec<u8>) {
    let sent = start_row(row, |octet| *octet == 0, to);
    to.extend(sent);
}

/// A row of f32, by their bits.
fn put_floats(row: &[f32], to: &mut Vec<u8>) {
    let sent = start_row(row, |x| x.to_bits() == 0, to);
    to.extend(sent.iter().flat_map(|x| x.to_bits().to_le_bytes()));
}

fn record(read: crate::reading::Read, recorded: usize) -> (Vec<u64>, Part, bool) {
    let crate::reading::Read { number, place, rate, length, n, used, clock, lead, symbol, .. } = read;
    let numbers = vec![number, place, rate, length, n, used, clock, lead, symbol];
    (numbers, Part::of(read.told, place, recorded), read.clock_read)
}

fn front_record(front: Coming, recorded: usize) -> (Vec<u64>, Part, bool) {
    let Coming { number, place, rate, length, clock, n, used, at, part, told, clock_read } = front;
    let numbers = vec![number, place, rate, length, clock, n, used, at, part.len() as u64];
    (numbers, Part::of(told, place, recorded), clock_read)
}

fn found_record(found: Found, recorded: usize) -> (Vec<u64>, Part, bool) {
    let Found { number, offset, rate, length, clock, n } = found;
    (vec![number, offset, rate, length, clock, n], Part::of(n, 0, recorded), clock == 1)
}

fn reason_record(reason: Reason, recorded: usize) -> (Vec<u64>, Part, bool) {
    let Reason { number, place, expected, found, told, clock_read } = reason;
    (vec![number, place, expected, found], Part::of(told, place, recorded), clock_read)
}

pub fn hex(row: &[impl LowerHex], cut: usize) -> String {
    let mut text = String::new();
    for octet in row.iter().take(cut) {
        write!(text, "{octet:02x}").expect("a String takes all");
    }
    text + rest(row.len(), cut)
}

fn hex_row(row: &[f32], cut: usize) -> String {
    let words: Vec<String> = row.iter().take(cut / 4).map(|x| format!("{:08x}", x.to_bits())).collect();
    words.join(" ") + rest(row.len(), cut / 4)
}

fn rest(len: usize, cut: usize) -> &'static str {
    match len {
        0 => "(empty)",
        len if len > cut => " .. (cut; --replay shows all)",
        _ => "",
    }
}
