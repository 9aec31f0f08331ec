//! How the answers of the month's report go together, whatever this program expects of each: reports kept one recording
//! after the other, whole lists, and texts.

use crate::bits::Rate;
use crate::calls::Answer;
use crate::refusals::{REPORT, ROWS};
use crate::report::{Report, MOST_SEEN};
use crate::report_calls::ReportCall;
use crate::reported::Reported;

/// A list of recordings with their kinds, and the report that it came to.
struct Listed {
    kinds: Vec<u64>,
    recordings: Vec<Vec<u8>>,
    report: Report,
}

/// The recordings added one after the other from all zeros on, and the last list, to which calls are held that follow.
#[derive(Default)]
pub struct Reports {
    kept: Option<Listed>,
    list: Option<Listed>,
}

/// What holds, or what doesn't go together.
type Holds = Result<Vec<Reported>, &'static str>;

impl Reports {
    pub fn hold(&mut self, call: &ReportCall, answer: &Answer) -> Holds {
        match call {
            ReportCall::Add { report, kind, chips } => {
                let (number, after) = (answer.numbers[0], Report::of_numbers(&answer.numbers[1..]));
                grown(report, number, &after)?;
                let goes_on = self.goes_on(report);
                if number == 0 {
                    self.add(report, after, *kind, chips);
                }
                Ok(goes_on.then_some(Reported::KeptOn).into_iter().collect())
            }
            ReportCall::List { kinds, recordings } => self.list(kinds, recordings, answer),
            ReportCall::Empties { .. } => Ok(Vec::new()),
            ReportCall::Text { report, .. } => read_back(report, answer),
        }
    }

    /// Whether a report handed in is the one kept, of one recording or more.
    fn goes_on(&self, before: &Report) -> bool {
        self.kept.as_ref().is_some_and(|kept| kept.report == *before) && *before != Report::default()
    }

    /// One recording more: the report kept goes on, or another begins.
    fn add(&mut self, before: &Report, after: Report, kind: u64, chips: &[u8]) {
        if !self.goes_on(before) {
            self.kept = None;
        }
        if *before == Report::default() {
            self.kept = Some(Listed { kinds: Vec::new(), recordings: Vec::new(), report: Report::default() });
        }
        if let Some(kept) = self.kept.as_mut() {
            kept.kinds.push(kind);
            kept.recordings.push(chips.to_vec());
            kept.report = after;
        }
    }

    /// A whole list: beside the same recordings one after the other, and beside the list before, where both begin with
    /// the same 1,000.
    fn list(&mut self, kinds: &[u64], recordings: &[Vec<u8>], answer: &Answer) -> Holds {
        let report = Report::of_numbers(&answer.numbers[1..]);
        if answer.numbers[0] == ROWS {
            let zeros = report == Report::default();
            return if zeros { Ok(Vec::new()) } else { Err("a list refused with 7 has a report") };
        }
        if answer.numbers[0] != if recordings.len() as u64 > MOST_SEEN { REPORT } else { 0 } {
            return Err("a list's number doesn't go by how many recordings it has");
        }
        let each = report.frames.iter().chain(&report.refused).fold(0, |sum: u64, count| sum.wrapping_add(*count));
        if report.seen != each || report.seen != (recordings.len() as u64).min(MOST_SEEN) {
            return Err("frames and refusals aren't as many as the recordings seen");
        }
        let now = Listed { kinds: kinds.to_vec(), recordings: recordings.to_vec(), report };
        let kept = self.kept.as_ref().map_or(Ok(None), |kept| kept.beside(&now, Reported::ListKept, usize::MAX))?;
        let list =
            self.list.as_ref().map_or(Ok(None), |list| list.beside(&now, Reported::ListCut, MOST_SEEN as usize))?;
        self.list = Some(now);
        Ok(kept.into_iter().chain(list).collect())
    }
}

impl Listed {
    /// Two lists that are alike as far as they count have one report. Lists that are the same show nothing.
    fn beside(&self, other: &Listed, met: Reported, most: usize) -> Result<Option<Reported>, &'static str> {
        let (one, two) = (self.recordings.len(), other.recordings.len());
        let alike = one.min(most) == two.min(most)
            && self.kinds.iter().zip(&other.kinds).take(most).all(|(one, two)| one == two)
            && self.recordings.iter().zip(&other.recordings).take(most).all(|(one, two)| one == two);
        match (alike, self.report == other.report) {
            (true, true) => Ok((most == usize::MAX || one != two).then_some(met)),
            (true, false) => Err("another report than of the same recordings before"),
            _ => Ok(None),
        }
    }
}

/// What one recording more may do to a report: nothing with 31; else it is seen, and either one count of refusals is
/// more by one, or one of frames with its octets, the airtime and perhaps the lead.
fn grown(before: &Report, number: u64, after: &Report) -> Result<(), &'static str> {
    if number == REPORT {
        return if before == after { Ok(()) } else { Err("a report that can't grow doesn't stay as it stood") };
    }
    let mut grown = before.clone();
    grown.seen = before.seen.wrapping_add(1);
    let count = |before: &[u64], after: &[u64]| before.iter().zip(after).position(|(before, after)| before != after);
    match (count(&before.frames, &after.frames), count(&before.refused, &after.refused)) {
        (None, Some(number)) => grown.refused[number] = grown.refused[number].wrapping_add(1),
        (Some(rate), None) => grow_by_frame(&mut grown, before, after, rate)?,
        _ => return Err("one recording more isn't one frame or one refusal more"),
    }
    if number == 0 && grown == *after {
        Ok(())
    } else {
        Err("a report that grew by more than one recording")
    }
}

/// One frame more at a rate: octets and airtime that a frame can have, and the lead as it stood or a smaller one.
fn grow_by_frame(grown: &mut Report, before: &Report, after: &Report, rate: usize) -> Result<(), &'static str> {
    let octets = after.octets[rate].wrapping_sub(before.octets[rate]);
    let airtime = after.airtime.wrapping_sub(before.airtime);
    let length = Rate::ALL[rate].length_of(octets.min(4095) as usize).0 as u64;
    if !(1..=4095).contains(&octets) || ![96 + length, 192 + length].contains(&airtime) {
        return Err("octets or airtime that no frame has");
    }
    grown.frames[rate] = grown.frames[rate].wrapping_add(1);
    (grown.octets[rate], grown.airtime) = (after.octets[rate], after.airtime);
    if before.some == 0 || after.lead < before.lead {
        (grown.some, grown.lead, grown.recording) = (1, after.lead, before.seen);
    }
    Ok(())
}

/// The numbers of a text's lines, by their words, beside those of its report.
fn read_back(report: &Report, answer: &Answer) -> Holds {
    let (number, octets) = (answer.numbers[0], answer.numbers[1] as usize);
    if number != 0 {
        let nothing = octets == 0 && answer.buffer.iter().all(|octet| *octet == 0);
        return if nothing { Ok(Vec::new()) } else { Err("a text is refused and told") };
    }
    let text = answer.buffer.get(..octets).and_then(|text| std::str::from_utf8(text).ok());
    let lines = text.and_then(|text| text.strip_suffix('\n')).ok_or("a text that isn't lines")?.split('\n');
    // What no line tells.
    let mut read = Report { seen: report.seen, ..Report::default() };
    read.refused[0] = report.refused[0];
    for line in lines {
        read_line(line, report, &mut read)?;
    }
    if read == *report {
        Ok(vec![Reported::ReadBack])
    } else {
        Err("a text's numbers aren't those of its report")
    }
}

fn read_line(line: &str, report: &Report, read: &mut Report) -> Result<(), &'static str> {
    let words: Vec<&str> = line.split(' ').collect();
    let number = |at: usize| words[at].parse::<u64>().map_err(|_| "a text's word that isn't a number");
    match words[..] {
        ["rate", _, "frames", _, "octets", _] => {
            let code = number(1)?;
            let rate = Rate::ALL.iter().position(|rate| u64::from(rate.code()) == code);
            let rate = rate.ok_or("a text's rate that is none")?;
            (read.frames[rate], read.octets[rate]) = (number(3)?, number(5)?);
        }
        ["refused", _, "count", _] => {
            let count = read.refused.get_mut(number(1)? as usize).ok_or("a text's refusal that is none")?;
            *count = number(3)?;
        }
        ["airtime", _] => read.airtime = number(1)?,
        ["lead", "none"] => (read.lead, read.recording) = (report.lead, report.recording),
        ["lead", _, "recording", _] => {
            (read.some, read.lead, read.recording) = (report.some.max(1), number(1)?, number(3)?);
        }
        _ => return Err("a text's line that is none"),
    }
    Ok(())
}
