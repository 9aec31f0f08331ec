//! Finding the start of a frame in a hard recording, by what stands before it.

use super::widths::far_size;
use super::{any_pair, pairs, Draft, Out};
use crate::bits::Rate;
use crate::calls::Call;
use crate::chips::LOST;
use crate::finding::find;
use crate::frame::Kind;
use crate::random::Random;
use crate::refusals::{MOST_OFFSETS, NO_START};

/// What stands before a frame.
#[derive(Clone, Copy, PartialEq, Eq)]
pub enum Before {
    Lost,
    Phases,
    Constant,
    /// The end of another frame.
    Frame,
    /// Phases, the last chip unusable: a frame as sent is then found where it starts.
    Stopped,
}

impl Before {
    pub const ALL: [Before; 5] = [Before::Lost, Before::Phases, Before::Constant, Before::Frame, Before::Stopped];

    pub fn chips(self, len: usize, random: &mut Random) -> Vec<u8> {
        match self {
            Before::Lost => vec![LOST; len],
            Before::Phases => (0..len).map(|_| random.phase()).collect(),
            Before::Constant => vec![random.phase(); len],
            Before::Frame => {
                let (kind, rate) = any_pair(random);
                last_chips(len, Draft::random(kind, rate, len / rate.payload_chips(1) + 1, random).chips())
            }
            Before::Stopped => {
                let mut chips = Before::Phases.chips(len, random);
                chips.last_mut().into_iter().for_each(|chip| *chip = unusable(random));
                chips
            }
        }
    }
}

fn last_chips(len: usize, mut chips: Vec<u8>) -> Vec<u8> {
    chips.split_off(chips.len() - len)
}

pub fn unusable(random: &mut Random) -> u8 {
    random.within(5, 255) as u8
}

/// A recording with a frame in it.
pub struct Scene {
    pub kind: Kind,
    pub start: usize,
    pub chips: Vec<u8>,
}

impl Scene {
    /// A draft's chips behind so many others, and a few phases behind it.
    pub fn of(draft: &Draft, before: Before, start: usize, random: &mut Random) -> Scene {
        let mut chips = before.chips(start, random);
        chips.extend(draft.chips());
        let behind = random.below(30);
        chips.extend(Before::Phases.chips(behind, random));
        Scene { kind: draft.kind, start, chips }
    }

    /// A frame as sent.
    pub fn new(kind: Kind, rate: Rate, before: Before, start: usize, random: &mut Random) -> Scene {
        let n = random.within(1, 12);
        Scene::of(&Draft::random(kind, rate, n, random), before, start, random)
    }

    /// Of any kind and rate.
    pub fn any(before: Before, start: usize, random: &mut Random) -> Scene {
        let (kind, rate) = any_pair(random);
        Scene::new(kind, rate, before, start, random)
    }

    /// Where the front ends.
    pub fn behind_front(&self) -> usize {
        self.start + self.kind.front_chips()
    }

    pub fn find(&self, offsets: usize) -> Call {
        Call::find(self.kind.number(), self.chips.clone(), offsets as u64)
    }

    pub fn front(&self, offset: usize) -> Call {
        Call::front(self.kind.number(), self.chips[offset..].to_vec())
    }

    /// The full read from an offset, with more room than a frame as sent asks for.
    pub fn read(&self, offset: usize) -> Call {
        Call::hard(self.kind.number(), self.chips[offset..].to_vec(), 20)
    }

    /// A find, and behind it the front, or all, read from an offset before the one found or from one of those tried.
    /// The offset found, if one is, and n.
    fn seek_before(&self, out: &mut Out, offsets: usize) -> Option<(usize, usize)> {
        out.call(self.find(offsets));
        let found = find(self.kind.number(), &self.chips, offsets as u64);
        let start = if found.number == NO_START { offsets.min(self.chips.len()) } else { found.offset as usize };
        if start > 0 {
            let before = out.random.below(start);
            let full = out.random.once_in(4);
            out.call(if full { self.read(before) } else { self.front(before) });
        }
        (found.number == 0).then_some((start, found.n as usize))
    }

    /// The same, and all read from the offset found.
    pub fn seek(&self, out: &mut Out, offsets: usize) {
        if let Some((start, n)) = self.seek_before(out, offsets) {
            let room = out.random.pick(&[n, n, n + 3, n - 1]);
            out.call(Call::hard(self.kind.number(), self.chips[start..].to_vec(), room));
        }
    }
}

/// All offsets that can be tried.
pub const ALL: usize = MOST_OFFSETS as usize;

/// Finds of fewer offsets than the start 10 chips early, with that one or the frame's own the last, and of more; then
/// full reads from the offset found and from where the frame starts.
fn about_start(out: &mut Out, scene: &Scene) {
    let start = scene.start;
    let last = [start.wrapping_sub(10), start.wrapping_sub(9), start, start + 1];
    for offsets in last.into_iter().filter(|offsets| (1..=start + 1).contains(offsets)) {
        out.call(scene.find(offsets));
    }
    let more = (start + 1 + out.random.within(1, 100)).min(ALL);
    if let Some((found, _)) = scene.seek_before(out, more) {
        out.call(scene.read(found));
        out.call(scene.read(start));
    }
}

pub fn find_clean(out: &mut Out) {
    for (kind, rate) in pairs() {
        for before in Before::ALL {
            for case in 0..out.cases(3) {
                let (least, most) = [(0, 30), (10, 200), (201, 1300)][case % 3];
                let start = out.random.within(least, most);
                let scene = Scene::new(kind, rate, before, start, &mut out.random);
                about_start(out, &scene);
            }
        }
        let (far, before) = (out.random.within(4001, 4095), out.random.pick(&Before::ALL));
        let scene = Scene::new(kind, rate, before, far, &mut out.random);
        about_start(out, &scene);
    }
}

/// What a recording without a frame can hold.
const NOISES: usize = 7;

fn some_noise(noise: usize, len: usize, random: &mut Random) -> Vec<u8> {
    match noise {
        0 => Before::Lost.chips(len, random),
        1 => Before::Constant.chips(len, random),
        2 => Before::Phases.chips(len, random),
        // Phases and lost chips, and a few unusable ones.
        3 => (0..len).map(|_| if random.once_in(3000) { 5 } else { random.below(5) as u8 }).collect(),
        4 => random.octets(len),
        // Unusable every 500 chips: no front is without one.
        5 => (0..len).map(|place| if place % 500 == 499 { 255 } else { LOST }).collect(),
        // 1 Mbit/s symbols of any bits, to any of their chips.
        _ => {
            let mut chips = Draft::random(Kind::Long, Rate::Mbit1, len / 88 + 2, random).chips();
            chips.truncate(chips.len() - random.below(11));
            last_chips(len, chips)
        }
    }
}

pub fn find_noise(out: &mut Out) {
    for noise in 0..NOISES {
        for kind in Kind::BOTH {
            for more in [0, 300, 4095, 5000] {
                let len = kind.front_chips() + more - out.random.below(more.min(2) + 1);
                let chips = some_noise(noise, len, &mut out.random);
                Scene { kind, start: 0, chips }.seek(out, ALL);
            }
        }
        // A frame behind it.
        for _ in 0..out.cases(4) {
            let start = out.random.within(1000, 4100);
            let mut scene = Scene::any(Before::Lost, start, &mut out.random);
            scene.chips.splice(..start, some_noise(noise, start, &mut out.random));
            if out.random.once_in(4) {
                scene.chips.resize(far_size(&mut out.random), 0);
            }
            scene.seek(out, ALL);
        }
    }
}

/// Every number of offsets from 1 on, and behind each find the front from the last of its offsets: if that one was
/// found the front tells the same, if none was found it is refused, and else the finds go together.
fn each_number(out: &mut Out, kind: Kind, chips: &[u8], most: usize) {
    for offset in 0..most {
        let rest = chips.get(offset..).unwrap_or(&[]);
        out.call(Call::find(kind.number(), chips.to_vec(), offset as u64 + 1));
        out.call(Call::front(kind.number(), rest.to_vec()));
    }
}

pub fn find_all(out: &mut Out) {
    for kind in Kind::BOTH {
        for case in 0..out.cases(2) {
            for before in Before::ALL {
                let start = [out.random.within(0, 20), out.random.within(21, 36)][case % 2];
                let rate = out.random.pick(&[Rate::Mbit2, Rate::Mbit5_5, Rate::Mbit11]);
                let mut scene = Scene::new(kind, rate, before, start, &mut out.random);
                if out.random.once_in(2) {
                    scene.chips.truncate(scene.behind_front() + out.random.below(3));
                }
                each_number(out, kind, &scene.chips, start + 3);
            }
        }
        // Nothing found, up to past the recording's end.
        let front = kind.front_chips();
        for (noise, len, most) in [(0, 0, 3), (1, 5, 9), (0, front + 9, 12), (2, front + 20, 24), (6, front + 12, 16)] {
            let chips = some_noise(noise, len, &mut out.random);
            each_number(out, kind, &chips, most);
        }
    }
}
