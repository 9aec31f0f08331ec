//! The independent second program: the rules (docs/RULES.md) written again, laid out in their order with their
//! headings, and compared by running with the library behind a bridge.
//!
//! # From octets to chips, and which paper decides
//!
//! A writer from payload octets, rate and preamble kind to chips, and a reader from recorded chips back to the payload.
//! IEEE Std 802.11b-1999 decides wherever papers differ; no table or constant here is shared with the library.
//!
//! # Running it
//!
//! ```text
//! peer [--long] [--singly] [--brief] [--until-first] [--vectors DIR] [--family NAME,..] [--replay NAME CASE]
//!     -- BRIDGE WORDS..
//! peer --month -- PROGRAM WORDS..
//! peer --list
//! ```
//!
//! Every run checks this program against Table P and against the published figures in DIR (tests/vectors if not given),
//! then makes the calls of each family and compares every answer and every buffer. Before a hard recording is read, its
//! front is asked what is coming, and behind it why the read is refused; the answers must go together, and so must
//! finds over one recording, and reads from the offsets that they tried, reports of one list, what is written to a
//! store and read from it, a frame that is written and the answers over a spoiled recording of it, a comparison, its
//! own lists, reads of the same recordings and the comparison exchanged, and a read as the guides of 1997 read and ours
//! of the same recording. How the rows of a call are laid is drawn for each call, and no answer may hang on it. It ends
//! with status 1 on a difference, on fewer calls than are owed, on a bridge that dies, and on a missing file of
//! figures. A family or a replayed case alone owes no number of calls. In brief, only the families' lines are printed.
//! Run until the first difference, it shows that one and ends there. A replay prints the whole call and both answers;
//! as no call goes before it, none is made in its middle. Calls go ahead of the answers; sent singly, a call at which
//! the bridge dies is known by its case.
//!
//! Of a month no bridge is asked: the program runs over files that are laid for it, and what it prints is compared.
//!
//! Built with no crates, in the repository's root:
//!
//! ```text
//! mkdir -p target/peer && rustc -O --edition 2021 tests/peer/src/main.rs -o target/peer/peer
//! ```
#![forbid(unsafe_code)]

// The document, in its order.
mod chips;
mod symbols;
mod bits;
mod frame;
mod refusals;
mod writing;
mod reading;
mod coming;
mod finding;
mod report;
mod why;
mod comparing;
mod store;
mod spoiling;
mod table_p;

// The comparison.
mod bridge;
mod calls;
mod compare_calls;
mod compared;
mod decided;
mod families;
mod figures;
mod guides;
mod kept;
mod laid;
mod leads;
mod owed;
mod owed_compared;
mod owed_guides;
mod owed_laid;
mod owed_reports;
mod owed_reasons;
mod owed_spoiled;
mod owed_stores;
mod printed;
mod random;
mod reasons;
mod relations;
mod report_calls;
mod reported;
mod spoils;
mod starts;
mod store_calls;
mod stored;

use bridge::{Bridge, Outcome, Run};
use families::{Family, FAMILIES};
use figures::Figures;
use std::path::PathBuf;
use std::process::ExitCode;
use std::time::Instant;

struct Options {
    run: Run,
    brief: bool,
    vectors: PathBuf,
    family: Option<String>,
    month: bool,
    bridge: Vec<String>,
}

fn options() -> Result<Option<Options>, String> {
    let mut words = std::env::args().skip(1);
    let run = Run { long: false, singly: false, until_first: false, only_case: None };
    let vectors = "tests/vectors".into();
    let mut options = Options { run, brief: false, vectors, family: None, month: false, bridge: Vec::new() };
    while let Some(word) = words.next() {
        let mut value = || words.next().ok_or(format!("{word} needs a value"));
        match word.as_str() {
            "--long" => options.run.long = true,
            "--singly" => options.run.singly = true,
            "--brief" => options.brief = true,
            "--until-first" => options.run.until_first = true,
            "--vectors" => options.vectors = value()?.into(),
            "--family" => options.family = Some(value()?),
            "--replay" => {
                options.family = Some(value()?);
                let case = value()?;
                options.run.only_case = Some(case.parse().map_err(|_| format!("{case} is no case number"))?);
            }
            "--month" => options.month = true,
            "--list" => return Ok(None),
            "--" => options.bridge = words.by_ref().collect(),
            _ => return Err(format!("unknown option {word}")),
        }
    }
    if options.bridge.is_empty() {
        return Err("the command is missing after --".to_string());
    }
    Ok(Some(options))
}

fn list() {
    for family in FAMILIES {
        println!("{:<32}  {}", family.name, family.shows);
    }
}

/// The families asked for: all, or those named.
fn chosen(names: &Option<String>) -> Result<Vec<&'static Family>, String> {
    let named = |name: &str| FAMILIES.iter().find(|family| family.name == name);
    match names {
        None => Ok(FAMILIES.iter().collect()),
        Some(names) => {
            names.split(',').map(|name| named(name).ok_or(format!("no family {name}; --list names them"))).collect()
        }
    }
}

/// The published figures, this program being as they and the document say.
fn checked(options: &Options) -> Result<Figures, String> {
    let differences = table_p::differences();
    if !differences.is_empty() {
        return Err(format!("this program isn't as the document says: {}", differences.join("; ")));
    }
    let figures = Figures::load(&options.vectors)?;
    let agree = figures.check()?;
    if !options.brief {
        println!("Table P: 12 entries as the document says");
        agree.iter().for_each(|(name, count)| println!("{name}: {count} agree"));
    }
    Ok(figures)
}

fn run() -> Result<(), String> {
    let Some(options) = options()? else {
        list();
        return Ok(());
    };
    let figures = checked(&options)?;
    if options.month {
        return printed::compare(&options.bridge, options.run.until_first);
    }
    let families = chosen(&options.family)?;
    let mut bridge = Bridge::start(&options.bridge).map_err(|error| format!("the bridge didn't start: {error}"))?;
    println!("{:<32} {:>9} {:>11} {:>8}", "family", "calls", "mismatches", "seconds");
    let (mut total, mut largest) = (Outcome::default(), (0, ""));
    let start = Instant::now();
    for family in families {
        let began = Instant::now();
        let outcome = bridge
            .compare(family, &figures, options.run)
            .map_err(|error| format!("{}: the bridge died or sent no whole answer: {error}", family.name))?;
        let seconds = began.elapsed().as_secs_f64();
        println!("{:<32} {:>9} {:>11} {seconds:>8.1}", family.name, outcome.calls, outcome.mismatches);
        largest = largest.max((outcome.most_of_a_number(), family.name));
        total.add(&outcome);
    }
    let Outcome { calls, mismatches, .. } = total;
    println!("{:<32} {calls:>9} {mismatches:>11} {:>8.1}", "total", start.elapsed().as_secs_f64());
    bridge.end()?;
    if mismatches > 0 {
        return Err(format!("{mismatches} of {calls} calls differ"));
    }
    if options.family.is_none() {
        return owed::met(&total, largest);
    }
    if calls == 0 {
        return Err("no call was made".to_string());
    }
    Ok(())
}

fn main() -> ExitCode {
    match run() {
        Ok(()) => ExitCode::SUCCESS,
        Err(message) => {
            println!("FAILED: {message}");
            ExitCode::FAILURE
        }
    }
}
