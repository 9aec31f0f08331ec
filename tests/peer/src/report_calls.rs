//! The calls of the month's report: their requests, what is expected of each, and how they are shown.

use crate::calls::{hex, put_octets};
use crate::report::{one_more, report_list, report_of_empties, report_text, Reading, Report, ENTRIES};

/// A call of the report. The report is handed in and answered by value; the text's buffer is given by its length alone.
/// So is a list of empties, kinds 0 and recordings of no chips, by how many there are of each.
#[derive(Clone)]
pub enum ReportCall {
    Add { report: Report, kind: u64, chips: Vec<u8> },
    List { kinds: Vec<u64>, recordings: Vec<Vec<u8>> },
    Empties { kinds: usize, recordings: usize },
    Text { report: Report, room: usize },
}

/// The number, and the report's own numbers in their order.
#[rustfmt::skip]
const NAMES: [&str; 1 + ENTRIES] = [
    "number", "seen", "frames 10", "frames 20", "frames 55", "frames 110", "octets 10", "octets 20", "octets 55",
    "octets 110", "refused 0", "refused 1", "refused 2", "refused 3", "refused 4", "refused 5", "refused 6",
    "refused 7", "refused 8", "refused 9", "refused 10", "refused 11", "refused 12", "refused 13", "refused 14",
    "refused 15", "refused 16", "refused 17", "airtime", "some", "lead", "recording",
];

impl ReportCall {
    pub fn op(&self) -> &'static str {
        match self {
            ReportCall::Add { .. } => "report add",
            ReportCall::List { .. } | ReportCall::Empties { .. } => "report list",
            ReportCall::Text { .. } => "report text",
        }
    }

    pub fn names(&self) -> &'static [&'static str] {
        match self {
            ReportCall::Text { .. } => &["number", "octets"],
            _ => &NAMES,
        }
    }

    pub fn lent_len(&self) -> Option<usize> {
        match self {
            ReportCall::Text { room, .. } => Some(*room),
            _ => None,
        }
    }

    pub fn read_lens(&self) -> Vec<usize> {
        match self {
            ReportCall::Add { chips, .. } => vec![chips.len()],
            ReportCall::List { kinds, recordings } => {
                [kinds.len(), recordings.len()].into_iter().chain(recordings.iter().map(Vec::len)).collect()
            }
            ReportCall::Empties { kinds, recordings } => vec![*kinds, *recordings, 0],
            ReportCall::Text { .. } => Vec::new(),
        }
    }

    /// Whether a recording of a list is that before it, or only its beginning or its end.
    pub fn names_a_row_twice(&self) -> Option<bool> {
        let ReportCall::List { recordings, .. } = self else { return None };
        let again = |pair: &&[Vec<u8>]| {
            let (before, chips) = (&pair[0], &pair[1]);
            !chips.is_empty() && (before.starts_with(chips) || before.ends_with(chips))
        };
        recordings.windows(2).filter(again).map(|pair| pair[0] == pair[1]).next()
    }

    /// The request: all numbers as u64, little-endian. Each recording of a list stands behind its length.
    pub fn request(&self, laid: u64, to: &mut Vec<u8>) {
        let mut numbers = |list: &[u64]| list.iter().for_each(|number| to.extend(number.to_le_bytes()));
        match self {
            ReportCall::Add { report, kind, chips } => {
                numbers(&[&[7, laid], &report.numbers()[..], &[*kind, chips.len() as u64]].concat());
                put_octets(chips, to);
            }
            ReportCall::List { kinds, recordings } => {
                let (many, len) = (kinds.len() as u64, recordings.len() as u64);
                numbers(&[&[8, laid, many, many], &kinds[..], &[len, len]].concat());
                for chips in recordings {
                    to.extend((chips.len() as u64).to_le_bytes());
                    put_octets(chips, to);
                }
            }
            ReportCall::Empties { kinds, recordings } => {
                numbers(&[8, laid, *kinds as u64, 0, *recordings as u64, 0]);
            }
            ReportCall::Text { report, room } => {
                numbers(&[&[9, laid], &report.numbers()[..], &[*room as u64]].concat());
            }
        }
    }

    /// The numbers that are expected; a text's buffer is filled. Of one recording more the leads of its symbols too.
    pub fn expected(&self, buffer: &mut [u8], leads: &mut Vec<i32>) -> Vec<u64> {
        let answered = |(number, report): (u64, Report)| [&[number], &report.numbers()[..]].concat();
        match self {
            ReportCall::Add { report, kind, chips } => {
                let mut reading = Reading::of(*kind, chips);
                *leads = reading.take_leads();
                answered(one_more(report, reading))
            }
            ReportCall::List { kinds, recordings } => answered(report_list(kinds, recordings)),
            ReportCall::Empties { kinds, recordings } => answered(report_of_empties(*kinds, *recordings)),
            ReportCall::Text { report, .. } => {
                let (number, octets) = report_text(report, buffer);
                vec![number, octets]
            }
        }
    }

    pub fn shown_numbers(&self) -> String {
        let shown = |report: &Report| {
            let numbers = report.numbers();
            let named = NAMES[1..].iter().zip(numbers).map(|(name, number)| format!("{name} {number}"));
            named.collect::<Vec<_>>().join(", ")
        };
        match self {
            ReportCall::Add { report, kind, chips } => {
                format!("{}; kind {kind}, chips_len {}", shown(report), chips.len())
            }
            ReportCall::List { kinds, recordings } => {
                format!("{} kinds, {} recordings; kinds {kinds:?}", kinds.len(), recordings.len())
            }
            ReportCall::Empties { kinds, recordings } => format!("{kinds} kinds 0, {recordings} recordings, all empty"),
            ReportCall::Text { report, room } => format!("{}; octets_len {room}", shown(report)),
        }
    }

    /// The recordings in hex, cut after so many octets in all.
    pub fn shown_rows(&self, cut: usize) -> Vec<String> {
        match self {
            ReportCall::Add { chips, .. } => vec![format!("  chips {}", hex(chips, cut))],
            ReportCall::List { recordings, .. } => {
                let each = cut / recordings.len().max(1);
                recordings.iter().map(|chips| format!("  chips_len {}: {}", chips.len(), hex(chips, each))).collect()
            }
            _ => Vec::new(),
        }
    }
}
