//! The lines that the program `month` prints of recordings in files, beside those that this program has for them.
//!
//! A file is one hard recording: its first octet is the kind, the others are the chips. Files that are empty, longer
//! than 65,536 octets, or can't be read are left out, and the standard error has a line for each; recordings behind the
//! thousandth aren't counted, and it has one line that says how many. Each run has a folder of its own, names its files
//! from there, and may have few files open; its standard input, which it mustn't read, has no end. It must end with
//! status 0, or with 1 if the output takes nothing.

use crate::bits::Rate;
use crate::families::pairs;
use crate::families::report::{any_recorded, apart, cheap, led_by, refused_with, sent, shuffle, Recorded, REFUSED};
use crate::frame::Kind;
use crate::random::Random;
use crate::report::{report_of, text, Reading, Report, MOST_SEEN};
use std::collections::{BTreeMap, BTreeSet};
use std::ffi::OsString;
use std::io::Write;
use std::os::unix::ffi::OsStringExt;
use std::os::unix::fs::symlink;
use std::path::{Path, PathBuf};
use std::process::{Command, Stdio};
use std::time::{Duration, Instant};
use std::{fs, io, thread};

/// The longest file that is a recording.
const LONGEST: usize = 65_536;

/// A file whose name begins so is a link to another.
const LINK: &[u8] = b"link";

/// Runs the program with few files that may be open at once, and ends it if it waits for a pipe in vain.
const FEW_OPEN: [&str; 6] = ["timeout", "120", "sh", "-c", "ulimit -n 64 && exec \"$@\"", "few_open"];

/// What a name leads to.
#[derive(Clone)]
enum Leads {
    File(Vec<u8>),
    Pipe(Vec<u8>),
    /// A link to a file that has no end.
    Endless,
    Folder,
    Nothing,
}

/// A name from the run's folder, and what it leads to.
type Named = (Vec<u8>, Leads);

/// What the runs must meet, and how often at least.
const OWED: [(&str, u64); 26] = [
    ("no file", 1),
    ("each kind", 2),
    ("empty", 9),
    ("kind alone", 16),
    ("just 65,536 octets", 6),
    ("longer", 8),
    ("folder", 9),
    ("missing", 9),
    ("named twice", 1),
    ("odd name", 1),
    ("name from ./", 1),
    ("pipe", 8),
    ("endless", 1),
    ("missing in a folder", 1),
    ("each refusal", 3),
    ("each rate", 4),
    ("1,000", 5),
    ("a frame behind 1,000", 3),
    ("lead behind a file left out", 6),
    ("lead of 0", 5),
    ("more files than may be open", 6),
    ("left out behind 1,000", 1),
    ("link", 1),
    ("whole pages", 1),
    ("left out twice in a row", 1),
    ("256 and more behind 1,000", 1),
];

/// How often each was met.
type Met = BTreeMap<&'static str, u64>;

impl Leads {
    /// A kind that an octet is too small for stays one that is none.
    fn of((kind, chips): &Recorded) -> Leads {
        Leads::File([&[(*kind).min(255) as u8], &chips[..]].concat())
    }

    /// The recording, if it is one that counts.
    fn recording(&self) -> Option<(u64, &[u8])> {
        match self {
            Leads::File(octets) | Leads::Pipe(octets) if octets.len() <= LONGEST => {
                octets.split_first().map(|(kind, chips)| (u64::from(*kind), chips))
            }
            _ => None,
        }
    }

    /// Why it is left out, if it is.
    fn left_out(&self) -> Option<&'static str> {
        match self {
            Leads::File(octets) | Leads::Pipe(octets) if octets.is_empty() => Some("empty"),
            Leads::File(octets) | Leads::Pipe(octets) if octets.len() > LONGEST => Some("more than 65536 octets"),
            Leads::File(_) | Leads::Pipe(_) => None,
            Leads::Endless => Some("more than 65536 octets"),
            Leads::Folder => Some("cannot be read to its end: Is a directory"),
            Leads::Nothing => Some("cannot be opened: No such file or directory"),
        }
    }

    /// A frame as sent, with octets behind it up to so many in the file.
    fn resized(len: usize, random: &mut Random) -> Leads {
        let (kind, mut chips) = any_sent(random);
        chips.resize(len - 1, random.below(256) as u8);
        Leads::of(&(kind, chips))
    }
}

fn any_sent(random: &mut Random) -> Recorded {
    let (kind, rate) = random.pick(&pairs().collect::<Vec<_>>());
    sent(kind, rate, random.within(1, 20), random)
}

/// The readings of the files that count, in their order, and the report.
fn report(files: &[Named]) -> (Vec<Reading>, Report) {
    let taken = files.iter().filter_map(|(_, leads)| leads.recording()).take(MOST_SEEN as usize);
    let readings: Vec<Reading> = taken.map(|(kind, chips)| Reading::of(kind, chips)).collect();
    let report = report_of(&readings);
    (readings, report)
}

/// What the standard error has: a line for each file that is left out, and one for the recordings behind 1,000.
fn said(files: &[Named]) -> Vec<u8> {
    let mut said = Vec::new();
    for (name, leads) in files {
        if let Some(why) = leads.left_out() {
            said.extend(b"month: ");
            for octet in name {
                match octet {
                    0..=31 | 127 | b'\\' => said.extend(format!("\\{octet:03o}").bytes()),
                    _ => said.push(*octet),
                }
            }
            said.extend(format!(": left out: {why}\n").bytes());
        }
    }
    let taken = files.iter().filter(|(_, leads)| leads.recording().is_some()).count() as u64;
    if taken > MOST_SEEN {
        let behind = taken - MOST_SEEN;
        said.extend(format!("month: recordings after the thousandth, not counted: {behind}\n").bytes());
    }
    said
}

/// Counts what a run meets.
fn count(files: &[Named], met: &mut Met) {
    let (readings, report) = report(files);
    let any = |leads: &dyn Fn(&Leads) -> bool| files.iter().any(|(_, named)| leads(named));
    let of_len = |wanted: &dyn Fn(usize) -> bool| any(&|leads| matches!(leads, Leads::File(of) if wanted(of.len())));
    let taken: Vec<bool> = files.iter().map(|(_, leads)| leads.recording().is_some()).collect();
    let last = files.iter().rev().find_map(|(_, leads)| leads.recording());
    let more = taken.iter().filter(|taken| **taken).count() > readings.len();
    let kinds: BTreeSet<u64> = files.iter().filter_map(|(_, leads)| leads.recording()).map(|(kind, _)| kind).collect();
    let names: BTreeSet<&[u8]> = files.iter().map(|(name, _)| &name[..]).collect();
    let seen = [
        ("no file", files.is_empty()),
        ("each kind", kinds.len() == 256),
        ("empty", of_len(&|len| len == 0)),
        ("kind alone", of_len(&|len| len == 1)),
        ("just 65,536 octets", of_len(&|len| len == LONGEST)),
        ("longer", of_len(&|len| len > LONGEST)),
        ("folder", any(&|leads| matches!(leads, Leads::Folder))),
        ("missing", any(&|leads| matches!(leads, Leads::Nothing))),
        ("named twice", names.len() < files.len()),
        ("odd name", files.iter().any(|(name, _)| std::str::from_utf8(name).is_err())),
        ("name from ./", files.iter().any(|(name, leads)| name.starts_with(b"./") && leads.recording().is_some())),
        ("pipe", any(&|leads| matches!(leads, Leads::Pipe(_)))),
        ("endless", any(&|leads| matches!(leads, Leads::Endless))),
        ("missing in a folder", files.iter().any(|(name, leads)| name.contains(&b'/') && leads.left_out().is_some())),
        ("each refusal", REFUSED.iter().all(|(number, _)| report.refused[*number as usize] > 0)),
        ("each rate", report.frames.iter().all(|frames| *frames > 0)),
        ("1,000", report.seen == MOST_SEEN),
        ("a frame behind 1,000", more && last.is_some_and(|(kind, chips)| Reading::of(kind, chips).number() == 0)),
        ("lead behind a file left out", report.some == 1 && taken[..=report.recording as usize].contains(&false)),
        ("lead of 0", report.some == 1 && report.lead == 0),
        ("more files than may be open", files.len() > 64),
        ("left out behind 1,000", more && taken.last() == Some(&false)),
        ("link", files.iter().any(|(name, leads)| name.starts_with(LINK) && leads.recording().is_some())),
        ("whole pages", of_len(&|len| len > 0 && len < LONGEST && len % 4096 == 0)),
        ("left out twice in a row", files.windows(2).any(|two| two[0].0 == two[1].0 && two[0].1.left_out().is_some())),
        ("256 and more behind 1,000", taken.iter().filter(|taken| **taken).count() >= readings.len() + 256),
    ];
    seen.into_iter().for_each(|(what, seen)| *met.entry(what).or_default() += u64::from(seen));
}

/// Files with names by their order.
fn numbered(leads: impl IntoIterator<Item = Leads>) -> Vec<Named> {
    leads.into_iter().enumerate().map(|(number, leads)| (format!("{number}.chips").into_bytes(), leads)).collect()
}

fn recorded(list: &[Recorded]) -> Vec<Named> {
    numbered(list.iter().map(Leads::of))
}

/// What is left out, and files beside those.
fn left_out(random: &mut Random) -> Vec<Leads> {
    let mut all = vec![Leads::File(Vec::new()), Leads::Folder, Leads::Nothing];
    all.extend([LONGEST - 1, LONGEST, LONGEST + 1, LONGEST + 2, 2 * LONGEST].map(|len| Leads::resized(len, random)));
    all.extend([0, 1, 2, 255].map(|kind| Leads::File(vec![kind])));
    all
}

/// Names of any octets but 0 and the one that parts folders, and such as other programs take for more than names.
fn odd_names(random: &mut Random) -> Vec<Vec<u8>> {
    let mut names: Vec<Vec<u8>> = [
        "-",
        "--",
        "-h",
        "--help",
        "--version",
        "*",
        "?",
        " ",
        "\n",
        "a b",
        "\"",
        "'",
        "$HOME",
        "%s%n",
        "\\",
        "@x",
        "=",
        "~",
    ]
    .map(|name| name.as_bytes().to_vec())
    .to_vec();
    names.extend((1..=255).filter(|octet| ![b'.', b'/'].contains(octet)).map(|octet| vec![octet, b'x', octet]));
    names.push(vec![b'n'; 255]);
    names.push(vec![0xFF; 255]);
    shuffle(&mut names, random);
    names
}

/// Names that begin at the run's folder, or with a dot.
fn dotted_names() -> Vec<Vec<u8>> {
    ["./a", ".b", "..c", "./-", ".//d", "././e", "./.f", "./--help", "...", "./n x"].map(|name| name.into()).to_vec()
}

/// Runs over files of odd names, and over the same names with no file at any of them.
fn oddly_named(random: &mut Random) -> Vec<Vec<Named>> {
    let names = odd_names(random);
    let missing = names.iter().map(|name| (name.clone(), Leads::Nothing)).collect();
    let mut there = |name| (name, Leads::of(&any_recorded(random)));
    let runs = [names, dotted_names()].map(|names| names.into_iter().map(&mut there).collect());
    runs.into_iter().chain([missing]).collect()
}

/// Links; files about whole pages and other powers of 2; and each file that is left out, twice in a row.
fn links_and_sizes(random: &mut Random) -> [Vec<Named>; 3] {
    let links = ["link to one", "link"].map(|name| (name.into(), Leads::of(&any_sent(random)))).to_vec();
    let lens = (9..16).flat_map(|bits| [-1, 0, 1].map(|more| ((1i64 << bits) + more) as usize));
    let sizes = numbered(lens.map(|len| Leads::resized(len, random)).collect::<Vec<_>>());
    let left = numbered(left_out(random).into_iter().filter(|leads| leads.recording().is_none()));
    [links, sizes, left.into_iter().flat_map(|named| [named.clone(), named]).collect()]
}

/// Pipes of every size that a file may have, too long or empty ones too.
fn pipes(random: &mut Random) -> Vec<Leads> {
    let mut pipes: Vec<Leads> = (0..3).map(|_| Leads::of(&any_recorded(random))).collect();
    pipes.extend([1, LONGEST, LONGEST + 1].map(|len| Leads::resized(len, random)));
    pipes.push(Leads::File(Vec::new()));
    pipes.push(Leads::of(&any_sent(random)));
    let as_pipe = |leads| match leads {
        Leads::File(octets) => Leads::Pipe(octets),
        other => other,
    };
    pipes.into_iter().map(as_pipe).collect()
}

/// Many names, of few files, most of them short: `len` recordings, the last a frame of the smallest lead.
fn many(len: usize, random: &mut Random) -> Vec<Named> {
    let few = recorded(&(0..40).map(|_| cheap(random)).collect::<Vec<_>>());
    let mut list: Vec<Named> = few.into_iter().cycle().take(len).collect();
    list[len / 2] = (b"led by 5".to_vec(), Leads::of(&led_by(5, random)));
    list[len - 1] = (b"led by 2".to_vec(), Leads::of(&led_by(2, random)));
    list
}

/// Runs at and around a thousand recordings.
fn thousands(random: &mut Random) -> Vec<Vec<Named>> {
    let mut runs = Vec::new();
    for len in [999, 1000, 1001, 1002, 1300] {
        runs.push(many(len, random));
    }
    let missing = (b"missing".to_vec(), Leads::Nothing);
    runs.push(many(1007, random).into_iter().chain([missing.clone()]).collect());
    // A thousand and some that are left out, so that the last one counts; and one more before it.
    for len in [1000, 1001] {
        let mut files = many(len, random);
        let others = [(b"folder".to_vec(), Leads::Folder), (b"empty".to_vec(), Leads::File(Vec::new()))];
        [missing.clone()].into_iter().chain(others).for_each(|other| files.insert(7, other));
        runs.push(files);
    }
    runs
}

/// The runs: what each is asked to read.
fn runs(random: &mut Random) -> Vec<Vec<Named>> {
    let mut runs = vec![Vec::new(), recorded(&[led_by(0, random)]), recorded(&[cheap(random), led_by(0, random)])];
    runs.extend(left_out(random).into_iter().map(|leads| numbered([leads])));
    for _ in 0..6 {
        let mut leads = left_out(random);
        leads.extend((0..random.within(1, 8)).map(|_| Leads::of(&any_recorded(random))));
        shuffle(&mut leads, random);
        runs.push(numbered(leads));
    }
    runs.push(numbered(left_out(random).into_iter().take(3).chain([Leads::of(&led_by(3, random))])));
    runs.extend((0..2).map(|_| recorded(&apart(random))));
    let one_each: Vec<Recorded> = REFUSED.into_iter().map(|refused| refused_with(refused, random)).collect();
    runs.push(recorded(&one_each));
    runs.push(recorded(&pairs().map(|(kind, rate)| sent(kind, rate, 50, random)).collect::<Vec<_>>()));
    // Frames of either kind under each octet as their kind.
    for kind in Kind::BOTH {
        let (_, chips) = sent(kind, Rate::Mbit11, 1, random);
        runs.push(recorded(&(0..256).map(|kind| (kind, chips.clone())).collect::<Vec<_>>()));
    }
    // One file named over and over, between others.
    let twice = recorded(&[any_sent(random), led_by(1, random), cheap(random)]);
    runs.push([0, 1, 0, 1, 2, 2, 0].map(|at: usize| twice[at].clone()).to_vec());
    runs.extend(oddly_named(random));
    runs.extend(links_and_sizes(random));
    runs.extend(pipes(random).into_iter().map(|pipe| numbered([Leads::of(&cheap(random)), pipe])));
    runs.push(numbered(pipes(random)));
    runs.push(numbered([Leads::of(&led_by(3, random)), Leads::Endless, Leads::of(&led_by(4, random))]));
    let missing = ["none/such", "./none", "././none/such", "/none such/at all", "none/"];
    runs.push(missing.map(|name| (name.into(), Leads::Nothing)).to_vec());
    // More left out than may be open.
    runs.push(numbered((0..140).map(|at| if at % 2 == 0 { Leads::Folder } else { Leads::File(Vec::new()) })));
    runs.extend(thousands(random));
    runs
}

/// Makes a pipe, and has it written to, in two parts, once it is read.
fn lay_pipe(path: PathBuf, octets: Vec<u8>) -> io::Result<()> {
    if !Command::new("mkfifo").arg("--").arg(&path).status()?.success() {
        return Err(io::Error::other("mkfifo failed"));
    }
    thread::spawn(move || {
        let mut to = fs::OpenOptions::new().write(true).open(path)?;
        let (first, rest) = octets.split_at(octets.len().min(1000));
        to.write_all(first)?;
        thread::sleep(Duration::from_millis(20));
        to.write_all(rest)
    });
    Ok(())
}

/// Lays the files of a run into its folder, each once.
fn lay(folder: &Path, files: &[Named]) -> io::Result<()> {
    fs::create_dir_all(folder)?;
    for (name, leads) in files.iter().map(|(name, leads)| (name, leads)).collect::<BTreeMap<_, _>>() {
        let path = folder.join(OsString::from_vec(name.clone()));
        match leads {
            Leads::File(octets) if name.starts_with(LINK) => {
                let to = [b"of ", &name[..]].concat();
                fs::write(folder.join(OsString::from_vec(to.clone())), octets)?;
                symlink(OsString::from_vec(to), path)?;
            }
            Leads::File(octets) => fs::write(path, octets)?,
            Leads::Pipe(octets) => lay_pipe(path, octets.clone())?,
            Leads::Endless => symlink("/dev/zero", path)?,
            Leads::Folder => fs::create_dir_all(path)?,
            Leads::Nothing => {}
        }
    }
    Ok(())
}

/// Runs the program over files in a folder, its output a pipe, or a file that takes nothing; what is wrong with what it
/// prints and says, if anything.
fn fault(command: &[PathBuf], folder: &Path, files: &[Named], full: bool) -> io::Result<Option<String>> {
    lay(folder, files)?;
    let names = files.iter().map(|(name, _)| OsString::from_vec(name.clone()));
    let output = if full { fs::OpenOptions::new().write(true).open("/dev/full")?.into() } else { Stdio::piped() };
    let mut program = Command::new(FEW_OPEN[0]);
    program.args(&FEW_OPEN[1..]).args(command).args(names).current_dir(folder).stdin(fs::File::open("/dev/zero")?);
    let done = program.stdout(output).stderr(Stdio::piped()).spawn()?.wait_with_output()?;
    fs::remove_dir_all(folder)?;
    let (mut right_text, mut right_said) = (text(&report(files).1), said(files));
    if full {
        right_text.clear();
        right_said.extend(b"month: cannot write the report\n");
    }
    let right_status = done.status.code() == Some(i32::from(full));
    if right_status && done.stdout == right_text.as_bytes() && done.stderr == right_said {
        return Ok(None);
    }
    let shown = |octets: &[u8]| String::from_utf8_lossy(octets).into_owned();
    let [printed, said, right_said] = [&done.stdout, &done.stderr, &right_said].map(|octets| shown(octets));
    Ok(Some(format!(
        "{} files, {}\nprinted:\n{printed}expected:\n{right_text}said:\n{said}expected:\n{right_said}",
        files.len(),
        done.status
    )))
}

/// Compares all runs, or those up to the first difference, and shows what they met. The words that lead to files are
/// made whole, the runs' folders being others.
pub fn compare(command: &[String], until_first: bool) -> Result<(), String> {
    let command: Vec<PathBuf> =
        command.iter().map(|word| fs::canonicalize(word).unwrap_or_else(|_| word.into())).collect();
    let folder = std::env::temp_dir().join(format!("month-{}", std::process::id()));
    let (mut met, mut faults, start) = (Met::new(), 0, Instant::now());
    let runs = runs(&mut Random::new(1501));
    // The first ones twice, at first with an output that takes nothing.
    let full = runs.iter().take(16).map(|files| (files, true));
    let cases: Vec<(&Vec<Named>, bool)> = full.chain(runs.iter().map(|files| (files, false))).collect();
    for (case, (files, full)) in cases.iter().enumerate() {
        count(files, &mut met);
        let fault = fault(&command, &folder.join(case.to_string()), files, *full);
        if let Some(fault) = fault.map_err(|error| format!("run {case} can't be made: {error}"))? {
            println!("month, run {case}: MISMATCH: {fault}");
            faults += 1;
        }
        if until_first && faults > 0 {
            break;
        }
    }
    fs::remove_dir_all(&folder).map_err(|error| format!("the runs' folder stays: {error}"))?;
    println!("{:<32} {:>9} {:>11} {:>8}", "program", "runs", "mismatches", "seconds");
    println!("{:<32} {:>9} {faults:>11} {:>8.1}", "month", cases.len(), start.elapsed().as_secs_f64());
    let words = OWED.map(|(what, _)| format!("{what}: {}", met[what]));
    println!("month       runs that met          {}", words.join(", "));
    let short: Vec<&str> = OWED.iter().filter(|(what, least)| met[what] < *least).map(|(what, _)| *what).collect();
    match (faults, &short[..]) {
        (0, []) => Ok(()),
        (0, _) => Err(format!("no run, or too few, met: {}", short.join(", "))),
        _ => Err(format!("{faults} of {} runs differ", cases.len())),
    }
}
