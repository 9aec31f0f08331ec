//! The bridge to the library: a program that answers one request after the other on its pipes.
//!
//! Requests go ahead of the answers in batches. A batch is handed to the comparing side before it is written, and the
//! next is handed over only when it is written whole, so neither side waits for the other in a circle.

use crate::calls::{Answer, Call, Expected, Met};
use crate::compared;
use crate::decided::{self, Seen};
use crate::families::{Family, Out};
use crate::figures::Figures;
use crate::guides;
use crate::laid::{Laid, Layings};
use crate::leads::{self, Won};
use crate::reasons;
use crate::relations::{Held, Relations};
use crate::reported;
use crate::stored;
use std::collections::BTreeMap;
use std::io::{self, BufReader, Write};
use std::process::{Child, ChildStdin, ChildStdout, Command, Stdio};
use std::sync::mpsc::{sync_channel, SyncSender};
use std::sync::{Arc, Mutex};
use std::thread;
use std::time::{Duration, Instant};

/// A batch ends at so many calls, or so many octets or elements of rows.
const BATCH_CALLS: usize = 64;
const BATCH_OCTETS: usize = 1 << 18;

/// Batches that may wait for the comparing side.
const AHEAD: usize = 2;

/// Mismatches of a family shown in full; the others are counted.
const SHOWN: u64 = 3;

/// Octets of a row shown with a mismatch.
const CUT: usize = 6000;

/// A bridge that gives no answer for so long has failed.
const PATIENCE: Duration = Duration::from_secs(150);

pub struct Bridge {
    child: Arc<Mutex<Child>>,
    requests: ChildStdin,
    answers: BufReader<ChildStdout>,
    last_answer: Arc<Mutex<Instant>>,
}

/// What a family, or a run, came to.
#[derive(Default)]
pub struct Outcome {
    pub calls: u64,
    pub mismatches: u64,
    /// How often each number was expected of each op and part, with the clock bit and without it.
    pub met: BTreeMap<Met, u64>,
    /// How often answers were seen to go together.
    pub held: BTreeMap<Held, u64>,
    /// How often symbols of 11 Mbit/s were to be decided in each way.
    pub seen: Seen,
    /// How often the smallest leads were to stand in each way.
    pub won: Won,
    /// How often rows were laid in each way.
    pub layings: Layings,
}

/// A call with its case's number and how its rows are laid.
type Asked = (u64, Call, Laid);

impl Outcome {
    pub fn add(&mut self, other: &Outcome) {
        self.calls += other.calls;
        self.mismatches += other.mismatches;
        for (key, count) in &other.met {
            *self.met.entry(*key).or_default() += count;
        }
        for (key, count) in &other.held {
            *self.held.entry(*key).or_default() += count;
        }
        for (key, count) in &other.seen {
            *self.seen.entry(*key).or_default() += count;
        }
        for (key, count) in &other.won {
            *self.won.entry(*key).or_default() += count;
        }
        for (key, count) in &other.layings {
            *self.layings.entry(*key).or_default() += count;
        }
    }

    /// One call more: what its answer was to be, and whether it was.
    fn count(&mut self, call: &Call, expected: &Answer, leads: &[i32], equal: bool) {
        self.calls += 1;
        self.mismatches += u64::from(!equal);
        decided::count(call, expected, &mut self.seen);
        leads::count(call, expected, leads, &mut self.won);
        reported::count(call, expected, leads, &mut self.held);
        reasons::count(call, expected, &mut self.held);
        compared::count(call, expected, &mut self.held);
        guides::count(call, expected, &mut self.held);
        stored::count(call, expected, &mut self.held);
    }

    /// The calls that answer the number met most often, whatever the op and the part.
    pub fn most_of_a_number(&self) -> u64 {
        let mut by_number = BTreeMap::<u64, u64>::new();
        for (met, count) in &self.met {
            *by_number.entry(met.number).or_default() += count;
        }
        by_number.into_values().max().unwrap_or(0)
    }
}

/// What is run: the longer or the shorter form of each family, each call sent only after the answer to the one before
/// it, no more than up to the first difference, and one case alone when it is run again.
#[derive(Clone, Copy)]
pub struct Run {
    pub long: bool,
    pub singly: bool,
    pub until_first: bool,
    pub only_case: Option<u64>,
}

impl Bridge {
    pub fn start(command: &[String]) -> io::Result<Bridge> {
        let mut child =
            Command::new(&command[0]).args(&command[1..]).stdin(Stdio::piped()).stdout(Stdio::piped()).spawn()?;
        let requests = child.stdin.take().expect("piped");
        let answers = BufReader::with_capacity(1 << 16, child.stdout.take().expect("piped"));
        let (child, last_answer) = (Arc::new(Mutex::new(child)), Arc::new(Mutex::new(Instant::now())));
        watch(child.clone(), last_answer.clone());
        Ok(Bridge { child, requests, answers, last_answer })
    }

    /// Runs a family and compares every answer and every buffer. An error is a bridge that doesn't answer.
    pub fn compare(&mut self, family: &Family, figures: &Figures, run: Run) -> io::Result<Outcome> {
        let Bridge { child, requests, answers, last_answer } = self;
        let (sender, batches) = sync_channel::<Vec<Asked>>(if run.singly { 0 } else { AHEAD });
        let (mut outcome, mut relations) = (Outcome::default(), Relations::default());
        thread::scope(|scope| {
            scope.spawn(move || send_family(family, figures, run, requests, sender));
            for (case, call, laid) in batches.into_iter().flatten() {
                let Expected { answer: expected, met, leads } = call.expected();
                let (answer, guard) = match call.answer(answers) {
                    Ok(answered) => answered,
                    Err(error) => {
                        let ahead = if run.singly { "" } else { " or soon after; --singly finds it" };
                        head(&format!("NO ANSWER{ahead}"), family, case, run);
                        println!("{}", call.shown(CUT));
                        return Err(error);
                    }
                };
                *last_answer.lock().expect("no panic") = Instant::now();
                let related = relations.hold(&call, &answer, &mut outcome.held);
                let equal = answer == expected && guard == 0 && related.is_ok();
                if !equal && outcome.mismatches < SHOWN || run.only_case.is_some() {
                    let cut = if run.only_case.is_some() { usize::MAX } else { CUT };
                    head(if equal { "equal" } else { "MISMATCH" }, family, case, run);
                    println!("{}\n{}", call.shown(cut), call.compared(&expected, &answer, cut));
                    println!("  {}", laid.shown());
                    say_beside(guard, related);
                }
                if !equal && run.until_first {
                    end_at_first(child, family);
                }
                *outcome.met.entry(met).or_default() += 1;
                laid.count(&call, &mut outcome.layings);
                outcome.count(&call, &expected, &leads, equal);
            }
            Ok(outcome)
        })
    }

    /// Ends the requests; the bridge must then end by itself with status 0.
    pub fn end(self) -> Result<(), String> {
        let Bridge { child, requests, .. } = self;
        drop(requests);
        loop {
            match child.lock().expect("no panic").try_wait() {
                Ok(Some(status)) if status.success() => return Ok(()),
                Ok(Some(status)) => return Err(format!("the bridge ended with {status}")),
                Ok(None) => {}
                Err(error) => return Err(format!("the bridge's end can't be told: {error}")),
            }
            thread::sleep(Duration::from_millis(10));
        }
    }
}

/// Says what else is wrong with an answer.
fn say_beside(guard: u64, related: Result<(), &str>) {
    let faults = [
        (1, "the octets around the lent rows, or rows lent for reading, were changed"),
        (2, "made again, the call answered otherwise"),
        (4, "a call that was made in the middle of this one answered otherwise than before"),
    ];
    faults.iter().filter(|(bit, _)| guard & bit != 0).for_each(|(_, fault)| println!("  {fault}"));
    if let Err(fault) = related {
        println!("  beside the calls before it: {fault}");
    }
}

/// Ends the bridge and this program at the first difference of a family: nothing else ends the making of its calls.
fn end_at_first(child: &Mutex<Child>, family: &Family) -> ! {
    let mut child = child.lock().expect("no panic");
    let _ = child.kill().and_then(|()| child.wait());
    println!("FAILED: a call of {} differs, and none was made after it", family.name);
    std::process::exit(1);
}

/// Says what a case came to, and the words that run it alone.
fn head(what: &str, family: &Family, case: u64, run: Run) {
    let long = if run.long { "--long " } else { "" };
    println!("{}, case {case}: {what}", family.name);
    println!("  run again: {long}--replay {} {case}", family.name);
}

/// Makes a family's calls and sends them in batches.
fn send_family(
    family: &Family,
    figures: &Figures,
    run: Run,
    requests: &mut ChildStdin,
    sender: SyncSender<Vec<Asked>>,
) {
    let (mut batch, mut octets, mut held) = (Vec::new(), Vec::new(), 0);
    let mut case = 0;
    // A failed write needs no word here: the comparing side finds the answers missing.
    let mut flush = |batch: &mut Vec<Asked>, octets: &mut Vec<u8>| {
        if sender.send(std::mem::take(batch)).is_ok() {
            let _ = requests.write_all(octets).and_then(|()| requests.flush());
        }
        octets.clear();
    };
    let mut take = |call: Call, laid: Laid| {
        if run.only_case.map_or(true, |only| only == case) {
            call.request(&laid, &mut octets);
            held += call.read_lens().iter().sum::<usize>();
            batch.push((case, call, laid));
        }
        case += 1;
        if batch.len() == BATCH_CALLS || run.singly && batch.len() == 1 || held.max(octets.len()) >= BATCH_OCTETS {
            flush(&mut batch, &mut octets);
            held = 0;
        }
    };
    (family.calls)(&mut Out::new(family.seed, run.long, figures, &mut take));
    flush(&mut batch, &mut octets);
}

/// Ends a bridge that gives no answer any more; the comparing side then finds its pipe closed.
fn watch(child: Arc<Mutex<Child>>, last_answer: Arc<Mutex<Instant>>) {
    thread::spawn(move || loop {
        thread::sleep(Duration::from_secs(5));
        if last_answer.lock().expect("no panic").elapsed() > PATIENCE {
            eprintln!("no answer for {} seconds", PATIENCE.as_secs());
            let _ = child.lock().expect("no panic").kill();
            return;
        }
    });
}
