//! The inputs: fixed ones (made by hand, or all of a small space) and random ones.

use crate::balances;
use crate::clashes;
use crate::crosslocks::{self, in_progress};
use crate::depths;
use crate::drawing::{FRAME, NEXT, X};
use crate::fast;
use crate::feeds;
use crate::joins;
use crate::judges::{unfit, Lent, CLAUSES};
use crate::merges;
use crate::numbers::{self, NO_KINDS, NO_NUMBER};
use crate::older;
use crate::releases;
use crate::rng::Rng;
use crate::run::{Call, Case, Pair, Rec};
use crate::sights::ORIGIN;
use crate::ties;
use crate::usage;
use reference::{COUNT, DECLARED, DEEPEST, DEPTHS, DESK, FRAMES, HISTORY, HOLDS, MARKS, ORIGINS, STATES};

pub const BIG: [u64; 16] = [
    255, 256, 257, 264, 300, 320, 65536, 65544, 1 << 31, 1 << 32, (1 << 32) + 1, (1 << 32) + 8,
    (1 << 32) + 64, 1 << 63, u64::MAX - 63, u64::MAX,
];

pub fn any_k(rng: &mut Rng) -> usize {
    match rng.under(10) {
        0 => 1,
        1 => 2,
        2 => 3,
        3 | 4 => 8,
        5 => 64,
        6 => 63,
        7 => rng.between(4, 12),
        _ => rng.between(1, 64),
    }
}

/// The lent buffers, but for a feed's.
#[derive(Clone)]
pub struct Buffers {
    pub desk: Vec<u8>,
    pub sheet: Vec<u8>,
    /// The second sheet: first-seen numbers.
    pub seen: Vec<u8>,
    /// The acquires that are kept.
    pub history: Vec<u8>,
    pub slip: Vec<u8>,
}

impl Buffers {
    /// So many bytes each, full of anything; the history of its stated size or somewhat longer.
    pub fn any(rng: &mut Rng, [desk, sheet, seen, slip]: [usize; 4]) -> Buffers {
        let history = HISTORY + if rng.mille(200) { rng.under(9) } else { 0 };
        let [desk, sheet, seen, slip, history] = [desk, sheet, seen, slip, history].map(|size| rng.bytes(size));
        Buffers { desk, sheet, seen, history, slip }
    }
    /// All of these bytes.
    pub fn full_of(byte: u8, [desk, sheet, seen, slip]: [usize; 4]) -> Buffers {
        let [desk, sheet, seen, slip, history] = [desk, sheet, seen, slip, HISTORY].map(|size| vec![byte; size]);
        Buffers { desk, sheet, seen, history, slip }
    }
    pub fn opened(k: usize) -> Buffers {
        Buffers::declaring(k, 0)
    }
    /// Opened with these crosslocks.
    pub fn declaring(k: usize, declared: u64) -> Buffers {
        let mut b = Buffers::full_of(0, sizes(k));
        fast::open(k as u64, declared, &mut b.desk, &mut b.sheet, &mut b.seen, &mut b.history);
        b
    }
    pub fn k(&self) -> usize {
        usize::from(self.desk[0])
    }
    /// As a bench that is joined.
    pub fn lent(&self) -> Lent<'_> {
        [&self.desk, &self.sheet, &self.seen]
    }
}

/// The stated sizes of desk, sheet, second sheet and slip; the history's is HISTORY, and a join has none.
pub fn sizes(k: usize) -> [usize; 4] {
    [DESK, k * k, 4 * k * k, 1 + 7 * k]
}

/// Buffers of the stated sizes or somewhat longer, full of anything.
pub fn any_buffers(rng: &mut Rng, k: usize) -> Buffers {
    let sizes = sizes(k).map(|size| size + if rng.mille(400) { rng.under(9) } else { 0 });
    Buffers::any(rng, sizes)
}

/// A place's hold byte.
pub fn hold_at(frame: usize, place: usize) -> usize {
    HOLDS + DEEPEST * frame + place
}

/// A place's origin: its byte and its bit.
pub fn origin_at(frame: usize, place: usize) -> (usize, u8) {
    let bit = DEEPEST * frame + place;
    (ORIGINS + bit / 8, 1 << (bit % 8))
}

/// Puts a held lock on top of a frame.
pub fn push(desk: &mut [u8], frame: usize, lock: u8, is_try: bool) {
    let depth = usize::from(desk[DEPTHS + frame]);
    desk[hold_at(frame, depth)] = lock;
    let (byte, bit) = origin_at(frame, depth);
    if is_try {
        desk[byte] |= bit;
    }
    desk[DEPTHS + frame] += 1;
}

/// The mode of the acquire by which the lock at a place is held.
pub fn mode_at(desk: &[u8], frame: usize, place: usize) -> u8 {
    let (byte, bit) = origin_at(frame, place);
    desk[hold_at(frame, place)] / 64 + if desk[byte] & bit != 0 { 3 } else { 0 }
}

/// The places of a frame's locks of a class, the oldest first.
pub fn places_of(desk: &[u8], frame: usize, class: u8) -> impl DoubleEndedIterator<Item = usize> + '_ {
    (0..usize::from(desk[DEPTHS + frame])).filter(move |&place| desk[hold_at(frame, place)] % 64 == class)
}

/// The release of a frame's newest lock of a class in its own mode.
pub fn release(desk: &[u8], frame: usize, class: u8) -> Rec {
    let mode = places_of(desk, frame, class).next_back().map_or(0, |newest| mode_at(desk, frame, newest));
    Rec::new((frame / 3) as u8, 1, class, mode)
}

/// The same, and in so many of 1000 another release: in the mode of an older lock of the class, by the other origin, in another
/// mode, or of a lock held in another frame.
pub fn any_release(rng: &mut Rng, desk: &[u8], frame: usize, class: u8, wrong: usize) -> Rec {
    let right = release(desk, frame, class);
    if !rng.mille(wrong) {
        return right;
    }
    let (core, newest) = (right.bytes[2], right.bytes[5]);
    let older: Vec<u8> = places_of(desk, frame, class).map(|place| mode_at(desk, frame, place)).filter(|&mode| mode != newest).collect();
    match rng.under(6) {
        0..3 if !older.is_empty() => Rec::new(core, 1, class, rng.pick(&older)),
        0 | 1 => Rec::new(core, 1, class, (newest + 3) % 6),
        2 | 3 => Rec::new(core, 1, class, newest / 3 * 3 + (newest + rng.between(1, 2) as u8) % 3),
        4 => {
            // Of the same core, or of any.
            let other = if rng.mille(500) { frame - frame % 3 + rng.under(3) } else { rng.under(FRAMES) };
            match usize::from(desk[DEPTHS + other]) {
                0 => Rec::new(core, 1, class, (newest + rng.between(1, 5) as u8) % 6),
                depth => {
                    let place = rng.under(depth);
                    Rec::new(core, 1, desk[hold_at(other, place)] % 64, mode_at(desk, other, place))
                }
            }
        }
        _ => Rec::new(core, 1, class, (newest + rng.between(1, 5) as u8) % 6),
    }
}

/// Takes all held locks out of a frame.
fn empty(desk: &mut [u8], frame: usize) {
    desk[DEPTHS + frame] = 0;
    for place in 0..DEEPEST {
        desk[hold_at(frame, place)] = 0;
        let (byte, bit) = origin_at(frame, place);
        desk[byte] &= !bit;
    }
}

/// Whether locks may be held in a core's frame (task, soft, hard) in this state.
pub fn may_hold(state: u8, frame: usize) -> bool {
    [true, [4, 5, 8].contains(&state), state >= 6][frame]
}

/// A case yet without a name.
pub fn case(buffers: Buffers, calls: Vec<Call>) -> Case {
    Case { name: "", buffers, feed: Vec::new(), calls, pair: None, start: None, merges: None, usage: false, clause: None, meant: None }
}

// ------------------------------------------------------------------ proposals

/// How a log is made.
pub struct Style {
    pub k: usize,
    pub cores: Vec<u8>,
    /// Weights of acquire, release, event.
    pub weights: [usize; 3],
    /// Weights of the six modes.
    pub modes: [usize; 6],
    /// Whether a frame has all classes, each acquire one or two above the last: so it gets full in that order too.
    pub packed: bool,
    /// In 1000: releases in another mode than the newest lock's, records with anything in them, damaged records, questions,
    /// acquires that heed no order of classes, and proposals that fault and are then proposed anew.
    pub wrong: usize,
    pub random: usize,
    pub damaged: usize,
    pub asks: usize,
    pub unordered: usize,
    pub avoid: usize,
}

/// Weights of the modes, with none, some, many tries, or nothing else.
fn any_modes(rng: &mut Rng) -> [usize; 6] {
    const WEIGHTS: [[usize; 3]; 9] =
        [[1, 1, 1], [1, 1, 1], [8, 1, 1], [1, 1, 8], [0, 0, 1], [1, 0, 0], [0, 1, 3], [1, 0, 3], [1, 1, 20]];
    let (waits, tries) = (rng.pick(&WEIGHTS), rng.pick(&WEIGHTS[..4]));
    let (wait, try_) = rng.pick(&[(1, 0), (1, 0), (4, 1), (1, 1), (1, 3), (0, 1)]);
    let [a, b, c] = waits.map(|w| w * wait);
    let [d, e, f] = tries.map(|w| w * try_);
    [a, b, c, d, e, f]
}

pub fn any_style(rng: &mut Rng, k: usize) -> Style {
    let mut cores: Vec<u8> = (0..8).collect();
    for i in (1..8).rev() {
        cores.swap(i, rng.under(i + 1));
    }
    cores.truncate(rng.pick(&[1, 2, 2, 3, 4, 8]));
    Style {
        k,
        cores,
        weights: rng.pick(&[[5, 3, 3], [6, 1, 1], [9, 1, 0], [4, 4, 4], [2, 2, 6], [5, 5, 1]]),
        modes: any_modes(rng),
        packed: false,
        wrong: rng.pick(&[0, 0, 20, 50, 200]),
        random: rng.pick(&[0, 10, 30, 30, 200]),
        damaged: rng.pick(&[0, 5, 10, 20, 100]),
        asks: rng.pick(&[0, 10, 30, 100]),
        unordered: rng.pick(&[0, 0, 10, 50, 300, 1000]),
        avoid: rng.pick(&[0, 900, 990, 1000, 1000]),
    }
}

pub fn clean_style(k: usize) -> Style {
    Style {
        k, cores: (0..8).collect(), weights: [4, 4, 2], modes: [2, 1, 1, 0, 0, 0], packed: false,
        wrong: 0, random: 0, damaged: 0, asks: 0, unordered: 0, avoid: 1000,
    }
}

/// The same with a third of the acquires tries.
pub fn try_style(k: usize) -> Style {
    Style { modes: [4, 2, 2, 2, 1, 1], ..clean_style(k) }
}

pub fn damaged(rng: &mut Rng, k: usize) -> Rec {
    let kind = rng.under(13) as u8;
    let class = if kind < 2 || kind > 9 { rng.under(k) as u8 } else { 0 };
    let mode = if kind < 2 { rng.under(6) as u8 } else { 0 };
    let mut bytes = vec![0x4C, 0x4B, rng.under(8) as u8, kind, class, mode];
    match rng.under(6) {
        0 => {
            let n = rng.under(13);
            Rec::of(&rng.bytes(n))
        }
        1 => {
            bytes.truncate(rng.under(6));
            Rec::of(&bytes)
        }
        2 => {
            let n = rng.between(1, 6);
            let more = if rng.mille(500) { vec![0; n] } else { rng.bytes(n) };
            bytes.extend(more);
            Rec::of(&bytes)
        }
        3 => {
            let at = rng.under(6);
            bytes[at] = rng.byte();
            Rec::of(&bytes)
        }
        4 => {
            // Just over an edge.
            match rng.under(7) {
                0 => bytes[2] = rng.pick(&[8, 9, 16, 128, 255]),
                1 if rng.mille(500) => bytes[3] = rng.pick(&[13, 13, 14, 16, 26, 32, 255]),
                1 => {
                    bytes[3] = rng.between(10, 12) as u8;
                    bytes[5] = rng.pick(&[1, 1, 2, 3, 6, 255]);
                }
                2 | 3 => {
                    bytes[3] = rng.under(2) as u8;
                    bytes[5] = rng.pick(&[6, 6, 6, 7, 8, 9, 12, 64, 67, 128, 255]);
                }
                6 => {
                    bytes[3] = rng.under(2) as u8;
                    bytes[4] = rng.pick(&[k, 64, 255]) as u8;
                    bytes[5] = rng.pick(&[6, 6, 7, 255]);
                }
                4 => {
                    bytes[3] = rng.between(2, 9) as u8;
                    bytes[4] = rng.between(1, 255) as u8;
                    bytes[5] = 0;
                }
                _ => {
                    bytes[3] = rng.between(2, 9) as u8;
                    bytes[4] = 0;
                    bytes[5] = rng.pick(&[1, 2, 3, 4, 5, 6]);
                }
            }
            Rec::of(&bytes)
        }
        _ => {
            let at = rng.under(2);
            bytes[at] ^= 1 << rng.under(8);
            Rec::of(&bytes)
        }
    }
}

/// The classes of a frame (task, soft, hard): from the first up to the second, which is none of them.
fn classes_of(k: usize, frame: usize) -> (usize, usize) {
    let (a, b) = (k / 2, k / 2 + k / 4);
    if k < 4 { (0, k) } else { [(0, a), (a, b), (b, k)][frame] }
}

/// A record that most likely is accepted on this desk, as the style says. In place of an acquire of a crosslock one of kinds 10 to 12
/// comes mostly.
fn propose(rng: &mut Rng, s: &Style, desk: &[u8]) -> Rec {
    let declared = crosslocks::declared(desk);
    if declared == 0 {
        return propose_lock(rng, s, desk);
    }
    if in_progress(desk) != 0 && rng.mille(crosslocks::OFTEN) {
        return crosslocks::next(rng, &s.cores, desk);
    }
    let record = propose_lock(rng, s, desk);
    let of_crosslock = record.names().is_some() && record.bytes[3] == 0 && record.bytes[4] < 64 && declared >> record.bytes[4] & 1 == 1;
    if of_crosslock && !rng.mille(50) {
        return crosslocks::instead(rng, record, desk);
    }
    record
}

pub fn propose_lock(rng: &mut Rng, s: &Style, desk: &[u8]) -> Rec {
    if rng.mille(s.damaged) {
        return damaged(rng, s.k);
    }
    let core = rng.pick(&s.cores);
    if rng.mille(s.random) {
        let kind = if rng.mille(200) { rng.between(10, 12) } else { rng.under(10) } as u8;
        let class = match kind {
            0 | 1 | 10.. => rng.pick(&[rng.clone().under(s.k), rng.clone().under(s.k + 2), s.k, 64, 255]) as u8,
            _ => 0,
        };
        rng.next();
        return Rec::new(core, kind, class, if kind < 2 { rng.under(7) as u8 } else { 0 });
    }
    let state = usize::from(desk[STATES + usize::from(core)]);
    let frame = FRAME[state];
    let here = 3 * usize::from(core) + frame;
    let depth = usize::from(desk[DEPTHS + here]);
    let held = &desk[hold_at(here, 0)..hold_at(here, depth)];
    let mut what = rng.weighted(&s.weights);
    if what == 0 && depth == DEEPEST && !rng.mille(300) {
        what = 1;
    }
    if what == 0 {
        let mode = rng.weighted(&s.modes) as u8;
        if rng.mille(s.unordered) {
            return Rec::new(core, 0, rng.under(s.k) as u8, mode);
        }
        // Task classes lowest, then those of soft handlers, then those of hard ones, and
        // within a frame ever higher ones: never a cycle. No dependency leads to a try.
        let (low, high) = if s.packed { (0, s.k) } else { classes_of(s.k, frame) };
        if mode >= 3 && rng.mille(500) {
            return Rec::new(core, 0, rng.between(low, high - 1) as u8, mode);
        }
        let low = held.iter().map(|h| usize::from(h % 64) + 1).max().unwrap_or(0).max(low);
        if low < high {
            let near = if s.packed { low + 1 + usize::from(rng.mille(200)) } else { low + 3 };
            let far = if s.packed || rng.mille(700) { near.min(high) } else { high };
            return Rec::new(core, 0, rng.between(low, far - 1) as u8, mode);
        }
        what = 1;
    }
    if what == 1 && depth > 0 {
        let class = rng.pick(held) % 64;
        return any_release(rng, desk, here, class, s.wrong);
    }
    let allowed: Vec<u8> = (2..10u8)
        .filter(|&kind| NEXT[state][usize::from(kind) - 2] != X)
        .filter(|&kind| (kind != 7 && kind != 9) || depth == 0 || s.random > 0)
        .collect();
    // An exit only where the frame is empty, mostly.
    let usual: Vec<u8> = allowed.iter().copied().filter(|&kind| (kind != 7 && kind != 9) || depth == 0).collect();
    if !usual.is_empty() && !rng.mille(s.random) {
        return Rec::new(core, rng.pick(&usual), 0, 0);
    }
    if depth > 0 && !rng.mille(100) {
        let class = rng.pick(held) % 64;
        return any_release(rng, desk, here, class, s.wrong);
    }
    Rec::new(core, if allowed.is_empty() { 2 } else { rng.pick(&allowed) }, 0, 0)
}

/// Buffers go along with a log while it is made.
impl Buffers {
    pub fn step(&mut self, record: &Rec) -> u8 {
        fast::step(&mut self.desk, &mut self.sheet, &mut self.seen, &mut self.history, &mut self.slip, record.slice())
    }
    /// The next record and its answer.
    pub fn next(&mut self, rng: &mut Rng, style: &Style) -> (Rec, u8) {
        let mut tries = 0;
        loop {
            let record = propose(rng, style, &self.desk);
            if style.avoid == 0 {
                let answer = self.step(&record);
                return (record, answer);
            }
            let (desk, sheet, seen, history) = (self.desk.clone(), self.sheet.clone(), self.seen.clone(), self.history.clone());
            let answer = self.step(&record);
            if answer == 1 && tries < 12 && rng.mille(style.avoid) {
                (self.desk, self.sheet, self.seen, self.history) = (desk, sheet, seen, history);
                tries += 1;
                continue;
            }
            return (record, answer);
        }
    }
}

pub fn any_class(rng: &mut Rng, k: usize) -> u64 {
    if rng.mille(150) {
        rng.pick(&[k as u64, k as u64 + 1, 63, 64, 255, 256, 256 + k as u64 - 1, 1 << 32, (1 << 32) + 1, 1 << 63, u64::MAX])
    } else {
        rng.under(k) as u64
    }
}

fn ask_all(k: usize, calls: &mut Vec<Call>) {
    calls.extend((0..k as u64).map(Call::Ask));
    calls.extend([k as u64, 255, 256, 1 << 32, u64::MAX].map(Call::Ask));
}

/// Steps from where the buffers stand; some go on after the fault.
pub fn steps(rng: &mut Rng, style: &Style, shadow: &mut Buffers, most: usize, calls: &mut Vec<Call>) {
    let mut after = 0;
    for _ in 0..most {
        let (record, _) = shadow.next(rng, style);
        calls.push(Call::Step(record));
        if rng.mille(style.asks) {
            calls.push(Call::Ask(any_class(rng, style.k)));
        }
        if shadow.desk[1] == 1 {
            after += 1;
            if after > 3 {
                break;
            }
        }
    }
    if rng.mille(if style.k > 16 { 60 } else { 300 }) {
        ask_all(style.k, calls);
    }
}

// --------------------------------------------------------------------- random

pub fn log(rng: &mut Rng) -> Case {
    let k = any_k(rng);
    let style = any_style(rng, k);
    let declared = crosslocks::some(rng, k, 250);
    let mut calls = vec![Call::Open(k as u64, declared)];
    let most = rng.pick(&[5, 20, 60, 150, 300]);
    steps(rng, &style, &mut Buffers::declaring(k, declared), most, &mut calls);
    case(any_buffers(rng, k), calls)
}

fn long_log(rng: &mut Rng) -> Case {
    let k = rng.pick(&[4, 8, 17, 64]);
    let mut style = if rng.mille(500) { clean_style(k) } else { try_style(k) };
    style.random = 10;
    style.damaged = 5;
    style.asks = 5;
    style.unordered = rng.pick(&[0, 0, 3]);
    let declared = crosslocks::some(rng, k, 300);
    let mut calls = vec![Call::Open(k as u64, declared)];
    steps(rng, &style, &mut Buffers::declaring(k, declared), 3000, &mut calls);
    case(any_buffers(rng, k), calls)
}

/// A fit desk and sheet that no opening need lead to.
pub fn fit_desk(rng: &mut Rng, k: usize) -> Buffers {
    let mut buffers = any_buffers(rng, k);
    let Buffers { desk, sheet, .. } = &mut buffers;
    desk[..DESK].fill(0);
    desk[0] = k as u8;
    desk[1] = u8::from(rng.mille(60));
    let fullness = rng.pick(&[0, 1, 2, 3]);
    let tries = rng.pick(&[0, 0, 100, 500, 1000]);
    for core in 0..8 {
        let state = rng.under(9) as u8;
        desk[STATES + core] = state;
        for frame in 0..3 {
            let depth = match fullness {
                _ if !may_hold(state, frame) => 0,
                0 => 0,
                1 => rng.under(3),
                2 => rng.under(DEEPEST + 1),
                _ => rng.pick(&[0, 1, older::DEEPEST, older::DEEPEST + 1, DEEPEST - 1, DEEPEST, DEEPEST]),
            };
            for _ in 0..depth {
                let lock = (rng.under(k) + 64 * rng.under(3)) as u8;
                push(desk, 3 * core + frame, lock, rng.mille(tries));
            }
        }
    }
    let mark_density = rng.pick(&[0, 0, 30, 100, 300, 1000]);
    let mark_mask = rng.pick(&[0xFF, 0xFF, 0x0F, 0x0A, 0xAA, 0xCC, 0x33, 0x6A, 0x9B, 0x55]);
    let half = rng.mille(300);
    for class in 0..k {
        if rng.mille(mark_density) {
            let mut m = rng.byte() & mark_mask & if rng.mille(500) { rng.byte() } else { 255 };
            if half {
                m &= if class < k / 2 { 0xCC } else { 0x33 };
            }
            // A soft-unsafe mark has its hard-unsafe one.
            if rng.mille(500) {
                m |= (m >> 4) & 12;
            } else {
                m &= !(((m >> 4) & 12 & !m) << 4);
            }
            desk[MARKS + class] = m;
        }
    }
    sheet[..k * k].fill(0);
    let any_kinds = |rng: &mut Rng| match rng.under(4) {
        0 => rng.under(16) as u8,
        1 => 1 << rng.under(4),
        2 => rng.pick(&[1, 4, 5, 8, 8, 12]),
        _ => rng.pick(&[1, 2, 4, 8]),
    };
    match rng.under(8) {
        0 => {}
        1 => {
            for b in &mut sheet[..k * k] {
                *b = rng.under(16) as u8;
            }
        }
        2 => {
            // Only upwards: clean but for the marks; as dense as it falls.
            let density = rng.pick(&[100, 500, 1000]);
            for from in 0..k {
                for to in from + 1..k {
                    if rng.mille(density) {
                        sheet[from * k + to] = any_kinds(rng);
                    }
                }
            }
        }
        3 => {
            // One ring over some classes, whole or broken at one joint, with decoys.
            let n = rng.between(1, k);
            let mut classes: Vec<usize> = (0..k).collect();
            for i in (1..k).rev() {
                classes.swap(i, rng.under(i + 1));
            }
            let mut second_r = rng.mille(500);
            let first_letter_s = !second_r && rng.mille(500);
            let last_r = second_r;
            for i in 0..n {
                let s = if i == 0 { first_letter_s } else { !second_r && rng.mille(600) };
                second_r = if i == n - 1 { last_r && !s } else { rng.mille(500) };
                if i == n - 1 && !last_r {
                    second_r = false;
                }
                let kind = (if s { 4 } else { 1 }) * (if second_r { 1 } else { 2 });
                sheet[classes[i] * k + classes[(i + 1) % n]] |= kind;
            }
            if rng.mille(400) {
                let i = rng.under(n);
                sheet[classes[i] * k + classes[(i + 1) % n]] = rng.pick(&[0, 1, 4, 8]);
            }
            for _ in 0..rng.under(4) {
                sheet[rng.under(k) * k + rng.under(k)] |= rng.pick(&[1, 4, 4]);
            }
        }
        4 => {
            // Arrivals by R that may not go on, and detours by N.
            for _ in 0..2 * k {
                let from = rng.under(k);
                let to = rng.under(k);
                sheet[from * k + to] |= rng.pick(&[1, 4, 4, 8, 8]);
            }
        }
        _ => {
            let number = rng.pick(&[1, k / 2 + 1, k, k + k / 2, 2 * k, 4 * k]);
            for _ in 0..number {
                sheet[rng.under(k) * k + rng.under(k)] |= any_kinds(rng);
            }
        }
    }
    numbers::scatter(rng, &mut buffers);
    if rng.mille(400) {
        crosslocks::scatter(rng, &mut buffers);
    }
    let Buffers { desk, sheet, seen, history, slip } = &buffers;
    assert_eq!(unfit(desk, sheet, seen, history, slip), None, "the made desk is unfit");
    buffers
}

fn drawn_desk(rng: &mut Rng) -> Case {
    let k = any_k(rng);
    let buffers = fit_desk(rng, k);
    let mut style = any_style(rng, k);
    style.random = rng.pick(&[10, 100, 300]);
    style.asks = style.asks.max(50);
    let mut calls = Vec::new();
    if rng.mille(300) {
        calls.push(Call::Ask(any_class(rng, k)));
    }
    if rng.mille(300) {
        calls.push(Call::Step(damaged(rng, k)));
    }
    let most = rng.pick(&[2, 5, 15, 40]);
    steps(rng, &style, &mut buffers.clone(), most, &mut calls);
    case(buffers, calls)
}

/// Desks that hold tries, with nothing drawn yet, and records that seldom fault: so the origins move for long.
fn tries(rng: &mut Rng) -> Case {
    let k = rng.pick(&[3, 8, 12, 33, 64]);
    let mut buffers = any_buffers(rng, k);
    let Buffers { desk, sheet, .. } = &mut buffers;
    desk[..DESK].fill(0);
    desk[0] = k as u8;
    sheet[..k * k].fill(0);
    let (fullness, density) = (rng.under(3), rng.pick(&[200, 500, 900, 1000]));
    for core in 0..8 {
        let state = rng.under(9) as u8;
        desk[STATES + core] = state;
        for frame in (0..3).filter(|&frame| may_hold(state, frame)) {
            let depth = match fullness {
                0 => rng.under(4),
                1 => rng.under(DEEPEST + 1),
                _ => rng.pick(&[DEEPEST - 1, DEEPEST, DEEPEST]),
            };
            let (low, high) = classes_of(k, frame);
            for _ in 0..depth {
                let lock = rng.between(low, high - 1) + 64 * rng.under(3);
                push(desk, 3 * core + frame, lock as u8, rng.mille(density));
            }
        }
    }
    numbers::scatter(rng, &mut buffers);
    let style = Style {
        weights: rng.pick(&[[2, 5, 3], [3, 3, 3], [1, 8, 1], [4, 2, 3]]),
        modes: rng.pick(&[[1, 1, 1, 1, 1, 1], [0, 0, 1, 1, 1, 1], [0, 0, 0, 1, 1, 1], [1, 1, 4, 2, 2, 2]]),
        random: 20,
        damaged: 20,
        asks: 20,
        unordered: rng.pick(&[0, 0, 20]),
        ..clean_style(k)
    };
    let mut calls = Vec::new();
    let most = rng.pick(&[5, 20, 60]);
    steps(rng, &style, &mut buffers.clone(), most, &mut calls);
    case(buffers, calls)
}

/// Violates one clause of "Unfit" (by its place in CLAUSES); false if this desk can't.
pub fn violate(rng: &mut Rng, clause: usize, b: &mut Buffers) -> bool {
    let Buffers { desk, sheet, seen, history, slip } = b;
    if clause == 0 {
        let part = rng.clone().between(ORIGINS, COUNT - 1);
        let lists = rng.clone().between(DECLARED + 1, DESK - 1);
        let [a, b, c] = older::SIZES;
        let n = rng.pick(&[
            DESK - 1, DESK - 1, DESK - 1, COUNT, COUNT, COUNT, COUNT + 2, part, part, ORIGINS, ORIGINS - 1, ORIGINS - 1,
            rng.clone().under(ORIGINS), a, b, c, a, b, c, DECLARED, DECLARED, lists, lists, COUNT + 2, COUNT + 1, COUNT + 3,
        ]);
        desk.truncate(n);
        rng.next();
        return true;
    }
    if desk.len() < DESK {
        return false;
    }
    let k = usize::from(desk[0]);
    if clause == 1 {
        desk[0] = rng.pick(&[0, 65, 66, 128, 129, 255, rng.clone().between(65, 255) as u8]);
        return true;
    }
    if !(1..=64).contains(&k) {
        return false;
    }
    let core = rng.under(8);
    let frame = rng.under(FRAMES);
    let depth = usize::from(desk[DEPTHS + frame]);
    match CLAUSES[clause] {
        "sheet too short" => {
            let n = if rng.mille(500) { k * k - 1 } else { rng.under(k * k) };
            sheet.truncate(n);
        }
        "slip too short" => {
            let n = [7 * k, 7 * k, 1 + 3 * k, 1 + 3 * k, rng.clone().under(1 + 7 * k)][rng.under(5)];
            slip.truncate(n);
        }
        "byte 1 over 1" => desk[1] = rng.pick(&[2, 3, 128, 255, rng.clone().between(2, 255) as u8]),
        "state over 8" => desk[STATES + core] = rng.pick(&[9, 10, 16, 255, rng.clone().between(9, 255) as u8]),
        "depth over the limit" => {
            let over = DEEPEST as u8 + 1;
            let six_bits = rng.clone().between(64, 63 + DEEPEST) as u8;
            desk[DEPTHS + frame] = rng.pick(&[over, over, over + 1, 64 + over, six_bits, 255, rng.clone().between(DEEPEST + 1, 255) as u8]);
        }
        name @ ("hold class K or more" | "hold mode 3") => {
            // In a task frame, where a lock may always be held.
            let frame = 3 * core;
            if usize::from(desk[DEPTHS + frame]) > DEEPEST {
                return false;
            }
            if desk[DEPTHS + frame] == 0 {
                push(desk, frame, 0, rng.mille(500));
            }
            let depth = usize::from(desk[DEPTHS + frame]);
            let place = rng.pick(&[depth - 1, rng.clone().under(depth), rng.clone().under(depth)]);
            if name == "hold mode 3" {
                desk[hold_at(frame, place)] = 192 + rng.under(k) as u8;
                let (byte, bit) = origin_at(frame, place);
                if rng.mille(500) {
                    desk[byte] |= bit;
                }
            } else if k < 64 {
                desk[hold_at(frame, place)] = (rng.pick(&[k, 63, rng.clone().between(k, 63)]) + 64 * rng.under(3)) as u8;
            } else {
                return false;
            }
        }
        "unused hold not 0" => {
            if depth >= DEEPEST {
                return false;
            }
            let any = rng.clone().between(depth, DEEPEST - 1);
            let place = rng.pick(&[depth, DEEPEST - 1, depth.max(older::DEEPEST), depth.max(32), any]);
            desk[hold_at(frame, place)] = rng.pick(&[1, 64, 128, 255, rng.clone().between(1, 255) as u8]);
        }
        ORIGIN => {
            let (frame, last) = if rng.mille(300) { (FRAMES - 1, 1) } else { (frame, 4) };
            let depth = usize::from(desk[DEPTHS + frame]);
            if depth >= DEEPEST {
                return false;
            }
            // The frame's last place, the first past the depth, or any.
            let place = [DEEPEST - 1, depth, depth, rng.clone().between(depth, DEEPEST - 1)][rng.under(last)];
            let (byte, bit) = origin_at(frame, place);
            desk[byte] |= bit;
        }
        name @ ("soft holds outside 4, 5, 8" | "hard holds outside 6-8") => {
            let (part, states): (usize, &[u8]) =
                if name.starts_with("soft") { (1, &[0, 1, 2, 3, 6, 7]) } else { (2, &[0, 1, 2, 3, 4, 5]) };
            let frame = 3 * core + part;
            if desk[DEPTHS + frame] == 0 {
                push(desk, frame, rng.under(k) as u8, rng.mille(500));
            }
            // Keep the other handler frame from being wrong as well.
            empty(desk, 3 * core + 3 - part);
            desk[STATES + core] = rng.pick(states);
        }
        "mark on class K or more" => {
            if k == 64 {
                return false;
            }
            let at = rng.pick(&[k, 63, rng.clone().between(k, 63)]);
            desk[MARKS + at] = rng.pick(&[1, 2, 4, 8, 16, 32, 68, 136]);
        }
        "soft-unsafe without hard-unsafe" => {
            let at = MARKS + rng.pick(&[0, k - 1, rng.clone().under(k)]);
            let (soft, hard) = rng.pick(&[(64, 4), (128, 8)]);
            desk[at] = (desk[at] | soft) & !hard;
        }
        "sheet byte over 15" => {
            let at = rng.pick(&[0, k * k - 1, rng.clone().under(k * k)]);
            if at >= sheet.len() {
                return false;
            }
            sheet[at] |= rng.pick(&[16, 32, 64, 128, 240]);
            numbers::give(seen, at);
        }
        "second sheet too short" => {
            let n = [4 * k * k - 1, 4 * k * k - 1, k * k, k * k, rng.clone().under(4 * k * k)][rng.under(5)];
            seen.truncate(n);
        }
        name @ (NO_NUMBER | NO_KINDS) => {
            if sheet.len() < k * k || seen.len() < 4 * k * k {
                return false;
            }
            numbers::spoil(rng, name, sheet, seen, k);
        }
        other => return crosslocks::violate(rng, other, desk, history),
    }
    rng.next();
    true
}

pub fn some_calls(rng: &mut Rng, k: usize, n: usize) -> Vec<Call> {
    let mut style = clean_style(k);
    style.random = 500;
    style.damaged = 150;
    let desk = Buffers::opened(k).desk;
    (0..n)
        .map(|_| {
            if rng.mille(300) {
                Call::Ask(any_class(rng, k))
            } else {
                Call::Step(propose(rng, &style, &desk))
            }
        })
        .collect()
}

fn unfit_desk(rng: &mut Rng) -> Case {
    let k = any_k(rng);
    let mut buffers = fit_desk(rng, k);
    let n = rng.pick(&[1, 1, 1, 2, 3, 6]);
    for _ in 0..n {
        // Many by what can be wrong in many ways.
        const OFTEN: [&str; 9] = [
            ORIGIN, ORIGIN, ORIGIN, "desk too short", "desk too short", "hold mode 3", "hold mode 3", "slip too short",
            "second sheet too short",
        ];
        let often = rng.pick(&OFTEN);
        let any = rng.under(CLAUSES.len());
        let clause = if rng.mille(500) { CLAUSES.iter().position(|c| *c == often).unwrap_or(any) } else { any };
        violate(rng, clause, &mut buffers);
    }
    let mut calls = some_calls(rng, k, 6);
    if rng.mille(100) {
        calls.push(Call::Open(k as u64, 0));
        calls.extend(some_calls(rng, k, 3));
    }
    case(buffers, calls)
}

/// A fit desk with one to three bytes changed to anything: fit or not, as it falls.
fn changed_desk(rng: &mut Rng) -> Case {
    let k = any_k(rng);
    let mut buffers = if rng.mille(700) {
        fit_desk(rng, k)
    } else {
        Buffers::opened(k)
    };
    for _ in 0..rng.between(1, 3) {
        let at = match rng.under(11) {
            0 => rng.under(DEPTHS),
            1 => rng.between(DEPTHS, MARKS - 1),
            2 => rng.between(MARKS, HOLDS - 1),
            3 => rng.between(ORIGINS, DECLARED - 1),
            4 => rng.between(DESK + k * k, DESK + 5 * k * k - 1),
            5 => rng.between(DECLARED, DESK - 1),
            6 => DESK + 5 * k * k + rng.under(HISTORY),
            _ => rng.under(DESK + k * k),
        };
        let value = match rng.under(4) {
            0 => rng.byte(),
            1 => rng.under(24) as u8,
            2 => rng.pick(&[19, 20, 21, 47, 48, 49, 50, 255]),
            _ => 1 << rng.under(8),
        };
        let Buffers { desk, sheet, seen, history, .. } = &mut buffers;
        match at.checked_sub(DESK) {
            None => desk[at] = value,
            Some(at) if at < k * k => sheet[at] = value,
            Some(at) if at < 5 * k * k => seen[at - k * k] = value,
            Some(at) => history[at - 5 * k * k] = value,
        }
    }
    let calls = some_calls(rng, k, 4);
    case(buffers, calls)
}

fn opening(rng: &mut Rng) -> Case {
    // Only the desk's length decides.
    let by_length = rng.mille(600);
    let k = match if by_length { 3 } else { rng.under(4) } {
        0 => rng.under(301) as u64,
        1 => rng.pick(&BIG),
        2 => rng.next() >> rng.under(64),
        _ => rng.between(1, 64) as u64,
    };
    let near = |rng: &mut Rng, n: usize| match rng.under(6) {
        0 => n.saturating_sub(1),
        1 => 0,
        2 => rng.under(n + 1),
        3 => n + rng.under(40),
        _ => n,
    };
    let size = k.min(64) as usize;
    let mut lengths = sizes(size).map(|n| near(rng, n));
    if by_length {
        lengths = sizes(size);
        let (part, kk) = (rng.clone().between(ORIGINS, COUNT - 1), size * size);
        match rng.under(4) {
            0 => lengths[0] = rng.pick(&[ORIGINS - 1, ORIGINS, part, COUNT - 1, COUNT, COUNT, COUNT + 2, DESK - 1, DESK + 1]),
            1 | 2 => {
                let [a, b, c] = older::SIZES;
                lengths[0] = rng.pick(&[ORIGINS - 1, ORIGINS, part, part, DESK - 1, DESK + 1, a, b, c, a, b, c]);
            }
            _ => lengths[2] = rng.pick(&[4 * kk - 1, 4 * kk - 1, 4 * kk - 1, kk, 4 * kk - 4, 4 * kk + 1]),
        }
    }
    let mut buffers = Buffers::any(rng, lengths);
    let declared = crosslocks::any_word(rng, size);
    if rng.mille(200) {
        if by_length {
            buffers = Buffers::any(rng, sizes(size));
        }
        buffers.history.truncate(rng.pick(&[HISTORY - 1, HISTORY - 1, HISTORY - 2, HISTORY / 2, 1, 0]));
    } else if by_length && rng.mille(200) {
        let n = rng.pick(&[DECLARED, DECLARED, DECLARED + 1, DESK - 1, COUNT + 2, ORIGINS - 1]);
        buffers = Buffers::any(rng, sizes(size));
        buffers.desk.truncate(n);
    }
    let mut calls = vec![Call::Open(k, declared)];
    calls.extend(some_calls(rng, size.max(1), 3));
    case(buffers, calls)
}

/// Two lists for demand 3: the second has foreign records put in.
pub fn pair(rng: &mut Rng) -> Case {
    let k = rng.pick(&[1, 2, 3, 8, 8, 8, 16, 64]);
    let mut own = any_style(rng, k);
    let mut foreign = any_style(rng, k);
    match rng.under(3) {
        0 => {
            // Usage marks decide: many events, and acquires in any order.
            for style in [&mut own, &mut foreign] {
                style.weights = [3, 3, 4];
                style.unordered = 1000;
            }
        }
        1 => {
            // The first list faults by itself, what is put in does not.
            if rng.mille(500) {
                own.modes = [1, 1, 1, 0, 0, 0];
            }
            own.weights = [3, 3, 4];
            own.unordered = 300;
            own.avoid = 0;
            foreign.weights = [3, 3, 4];
            foreign.unordered = 0;
            foreign.avoid = 1000;
        }
        _ => {}
    }
    own.cores = (0..8).collect();
    for i in (1..8).rev() {
        own.cores.swap(i, rng.under(i + 1));
    }
    foreign.cores = own.cores.split_off(rng.between(1, 7));
    let most = rng.pick(&[4, 10, 40, 100]);
    let declared = crosslocks::some(rng, k, 300);
    let make = |rng: &mut Rng, style: &Style, most: usize, banned: &[u8], declared: u64| {
        let mut shadow = Buffers::declaring(k, declared);
        let mut list = Vec::new();
        let mut after = 0;
        while list.len() < most && after < 4 {
            let (record, _) = shadow.next(rng, style);
            // Damaged records may name any core, if by chance they name one.
            if !record.names().is_some_and(|c| banned.contains(&c)) {
                list.push(record);
            } else {
                break;
            }
            after += usize::from(shadow.desk[1]);
        }
        list
    };
    let first = make(rng, &own, most, &[], declared);
    let named: Vec<u8> = first.iter().filter_map(|r| r.names()).collect();
    let mut put_in = make(rng, &foreign, most, &named, 0);
    // None of kinds 10 to 12 is put in, and neither list is to meet 19.
    put_in.retain(|record| !record.of_crosslock());
    let (mut calls, mut flags) = (Vec::new(), Vec::new());
    let (mut i, mut j) = (0, 0);
    let bias = rng.pick(&[100, 500, 900]);
    while i < first.len() || j < put_in.len() {
        let own_turn = j == put_in.len() || (i < first.len() && rng.mille(bias));
        flags.push(own_turn);
        if own_turn {
            calls.push(Call::Step(first[i]));
            i += 1;
        } else {
            calls.push(Call::Step(put_in[j]));
            j += 1;
        }
    }
    let mut c = case(any_buffers(rng, k), calls);
    c.pair = Some(Pair { k: k as u64, declared: [declared; 2], in_first: flags });
    c
}

/// A kind of random case: its name, and how often it is made beside the others.
pub struct Kind {
    pub name: &'static str,
    pub weight: usize,
    pub make: fn(&mut Rng) -> Case,
}

pub const PAIRS: &str = "pair of lists";
const KINDS: [Kind; 10] = [
    Kind { name: "log from opening", weight: 180, make: log },
    Kind { name: "long log", weight: 5, make: long_log },
    Kind { name: "fit desk", weight: 200, make: drawn_desk },
    Kind { name: "desk with tries", weight: 80, make: tries },
    Kind { name: "unfit desk", weight: 190, make: unfit_desk },
    Kind { name: "changed desk", weight: 115, make: changed_desk },
    Kind { name: "opening", weight: 120, make: opening },
    Kind { name: PAIRS, weight: 110, make: pair },
    Kind { name: "ties", weight: 250, make: ties::on_desk },
    Kind { name: "log that closes several", weight: 60, make: ties::closing_log },
];

/// A part of the random cases: those with feeds, those with balances, those with joins, the others, and of the others those with
/// clashes, those about numbers, those about depths, those about releases and those about crosslocks; apart from all these the merges and
/// those about document 002's rules.
#[derive(Clone, Copy, PartialEq, Eq)]
pub enum Part {
    Feeds,
    Balances,
    Joins,
    Others,
    Clashes,
    Numbers,
    Depths,
    Releases,
    Crosslocks,
    Merges,
    Usage,
}

/// A random case of request k: merges, or about document 002's rules; None if it is not of the part that is wanted.
pub fn random_of_k(rng: &mut Rng, only: Option<Part>) -> Option<Case> {
    let kinds = || merges::KINDS.iter().map(|kind| (kind, Part::Merges)).chain(usage::KINDS.iter().map(|kind| (kind, Part::Usage)));
    let kind = rng.weighted(&kinds().map(|(kind, _)| kind.weight).collect::<Vec<_>>());
    let (Kind { name, make, .. }, part) = kinds().nth(kind).unwrap();
    only.is_none_or(|only| only == part).then(|| Case { name, ..make(rng) })
}

/// A random case of the others, or None if it is not of the part that is wanted.
pub fn random(rng: &mut Rng, only: Option<Part>) -> Option<Case> {
    let parts = [
        (&KINDS[..], Part::Others),
        (&numbers::KINDS, Part::Numbers),
        (&clashes::KINDS, Part::Clashes),
        (&depths::KINDS, Part::Depths),
        (&releases::KINDS, Part::Releases),
        (&crosslocks::KINDS, Part::Crosslocks),
        (&feeds::KINDS, Part::Feeds),
        (&balances::KINDS, Part::Balances),
        (&joins::KINDS, Part::Joins),
    ];
    let kinds = || parts.iter().flat_map(|(kinds, part)| kinds.iter().map(move |kind| (kind, *part)));
    let kind = rng.weighted(&kinds().map(|(kind, _)| kind.weight).collect::<Vec<_>>());
    let (Kind { name, make, .. }, part) = kinds().nth(kind).unwrap();
    let wanted = match only {
        Some(Part::Others) => ![Part::Feeds, Part::Balances, Part::Joins].contains(&part),
        _ => only.is_none_or(|only| only == part),
    };
    wanted.then(|| Case { name, ..make(rng) })
}

// ---------------------------------------------------------------------- fixed

/// Records in short: "c:w" on core c, w an acquire as 3E, 3r, 3R, a try as t3E, the release of such a lock as -3E or -t3E, or
/// an event: h+ h- s+ s- (hard or soft on or off), S+ S- H+ H- (enter or exit a handler); of crosslock 3 x3 takes it, c3 commits it
/// and -x3 releases it; or ? for a malformed acquire, -? for a malformed release, x? for a malformed take of a crosslock.
pub fn read(text: &str) -> Vec<Rec> {
    let mut core = 0;
    let mut list = Vec::new();
    for word in text.split_whitespace() {
        let word = match word.split_once(':') {
            Some((c, rest)) => {
                core = c.parse().unwrap();
                rest
            }
            None => word,
        };
        let event = ["h+", "h-", "s+", "s-", "S+", "S-", "H+", "H-"].iter().position(|e| *e == word);
        list.push(match event {
            Some(i) => Rec::new(core, 2 + i as u8, 0, 0),
            None => {
                let (word, kind) = word.strip_prefix('-').map_or((word, 0), |lock| (lock, 1));
                let crosslock = [('x', 10 + 2 * kind), ('c', 11)].into_iter().find_map(|(sort, kind)| Some((word.strip_prefix(sort)?, kind)));
                let (lock, tried) = word.strip_prefix('t').map_or((word, 0), |lock| (lock, 3));
                let (class, mode) = lock.split_at(lock.len() - 1);
                match (crosslock, mode) {
                    (Some(("?", kind)), _) => Rec::new(core, kind, 0, 1),
                    (Some((class, kind)), _) => Rec::new(core, kind, class.parse().unwrap(), 0),
                    (None, "?") => Rec::new(core, kind, 0, 6),
                    _ => Rec::new(core, kind, class.parse().unwrap(), "ErR".find(mode).unwrap() as u8 + tried),
                }
            }
        });
    }
    list
}

/// A log from opening and the answers that the document says it gets: the last one
/// given, all before it 0.
pub struct HandLog {
    pub name: &'static str,
    pub k: usize,
    pub records: Vec<Rec>,
    pub last: u8,
}

pub fn hand_logs() -> Vec<HandLog> {
    let full = "0R ".repeat(DEEPEST);
    let full_of_tries = "t0E ".repeat(DEEPEST);
    let one_over_20 = "0R ".repeat(21);
    let over_full = full.clone() + "0R";
    let over_full_of_tries = full_of_tries.clone() + "t0E";
    let try_over_full = full.clone() + "t0E";
    let over_full_by_a_wait = full_of_tries.clone() + "0R";
    let full_again = full.clone() + "-0R 0R t0E";
    let full_in_a_handler = "H+ ".to_string() + &full + "0R";
    let full_twice = full.clone() + "S+ " + &full + "t0r";
    let rows: Vec<(&'static str, usize, &str, u8)> = vec![
        ("P1", 8, "", 0),
        ("P2", 8, "0:1E 2E -2E -1E 1:2E 1E", 1),
        ("P2 with K = 3", 3, "0:1E 2E -2E -1E 1:2E 1E", 1),
        ("P3", 8, "0:0R 1E 1:1R 0E", 1),
        ("P4", 8, "0:0E 1R 1:1R 0E", 0),
        ("P5", 8, "0:0E 1R 1:1E 0R", 1),
        ("P6", 8, "0:0R 0R", 0),
        ("P7", 8, "0:0R 0r", 1),
        ("P8", 8, "0:0E 0R", 1),
        ("P9", 8, "0:0E 1R 2E 1:2E 0E", 1),
        ("P10", 8, "0:3E -3E H+ 3E", 1),
        ("P10 both R", 8, "0:3R -3R H+ 3R", 0),
        ("P11", 8, "0:H+ 4E -4E H- h- 4E 5E -5E -4E h+ 5E", 1),
        ("P12", 8, "0:s- 6E -6E s+ S+ 6E", 0),
        ("P12 without", 8, "0:6E -6E S+ 6E", 1),
        ("exit hard with a held lock", 8, "0:H+ 1E H-", 7),
        ("exit soft with a held lock", 8, "0:S+ 1E S-", 7),
        ("exit hard in state 0", 8, "0:H-", 6),
        ("release of what isn't held", 8, "0:1E -2E", 5),
        ("release in another frame", 8, "0:1E S+ -1E", 5),
        ("class 8 of 8", 8, "0:8E", 4),
        // Errors that show in no answer from opening, only in bytes.
        ("across frames: task, soft", 8, "0:0E S+ 1E", 0),
        ("across frames: task, hard", 8, "0:0E H+ 1E", 0),
        ("across frames: soft, hard", 8, "0:S+ 0E H+ 1E", 0),
        ("across frames: all three, reads", 8, "3:0r S+ 1R H+ 2r -2r H- 3R -3R -1R S- -0r", 0),
        ("across frames: soft off, hard", 8, "5:s- 0E 1R H+ 2R 3E", 0),
        ("across frames: back in the task", 8, "0:0E S+ 5E -5E S- 1E", 0),
        ("oldest released: modes", 8, "0:0r 0R -0R", 0),
        ("oldest released: order", 8, "0:0R 1R 0R -0R", 0),
        ("oldest released: order and dependencies", 8, "0:0R 1E 0R -0R 2E -2E -1E -0R", 0),
        ("oldest released: in a handler", 8, "7:H+ 3r 3R 3R -3R -3R -3r H-", 0),
        // Reach by class alone.
        ("class once", 8, "0:0E 1R -1R -0E 0E 2E -2E -0E 2E 1E -1E -2E 1R 0E", 1),
        ("class once, other numbers", 8, "0:3E 0R -0R -3E 3E 5E -5E -3E 5E 0E -0E -5E 0r 3E", 1),
        ("class once, N walked before R", 8, "0:0E 1E -1E -0E 1E 2R -2R -1E 0E 3E -3E -0E 3E 2E -2E -3E 2R 0E", 1),
        // Marks at other records than acquires.
        ("mark at hard on", 8, "0:H+ 1E -1E H- h- 1E h+", 1),
        ("mark at soft on", 8, "0:S+ 1E -1E S- s- 1E s+", 1),
        ("mark at exit hard", 8, "0:h- s- 1E h+ H+ H- s+", 0),
        ("mark at exit soft", 8, "2:S+ h- 1E h+ -1E S- 2E s-", 0),
        ("mark at a release", 8, "0:h- 1E 2E h+ -2E", 0),
        ("mark in a soft handler", 8, "1:S+ h- 1E h+ H+ 2E -2E H- -1E S-", 0),
        ("newest held lock only", 8, "0:0E 1R 2E 3R 4E 1:4E 0E", 1),
        ("hard over 1", 8, "0:s- H+ 1E -1E H- s+", 0),
        ("all states", 8, "0:h- h- h+ h+ s- s- h- h- s+ s- h+ s+ S+ h- h- h+ h+ H+ H- S- s- H+ H- s+ H+ H-", 0),
        ("exit soft in a task", 1, "0:0R S- ", 6),
        ("K of 1", 1, "0:0R 0R -0R 0R 1:0R 2:0R H+ 0R", 0),
        ("K of 1, fault", 1, "0:0r -0r H+ 0r", 1),
        // Tries.
        ("try on a held class", 8, "0:1E t1E t1r t1R", 0),
        ("wait on a tried class", 8, "0:t1E 1E", 1),
        ("read wait on a read try", 8, "0:t1r 1R", 0),
        ("recursive wait on an exclusive try", 8, "0:t1E 1R", 1),
        ("P2 with the last a try", 8, "0:1E 2E -2E -1E 1:2E t1E", 0),
        ("P2 with the first of core 1 a try", 8, "0:1E 2E -2E -1E 1:t2E 1E", 1),
        ("P2 with both of core 1 tries", 8, "0:1E 2E -2E -1E 1:t2E t1E 3E", 0),
        ("P2 from a try onwards", 8, "0:1E t2E 3E 1:3E 2E", 1),
        ("try over tries", 8, "0:t2E t3r 4R t5R t6E 7R -t3r -7R -4R -t2E", 0),
        ("P10 by a try in the handler", 8, "0:3E -3E H+ t3E 4R -4R t5r -t5r -t3E H-", 0),
        ("P10 by a try in the task", 8, "0:t3E -t3E H+ 3E", 1),
        ("P12 by a try in the handler", 8, "0:6E -6E S+ t6E h- 7R h+ -7R -t6E S-", 0),
        ("P12 by a try in the task", 8, "0:t6E -t6E S+ 6R", 1),
        ("try held over hard on", 8, "1:H+ 3E 0:h- t3E h+", 1),
        ("try held over soft on", 8, "1:S+ 3R 0:s- t3E s+", 1),
        ("try in a soft handler, hard-unsafe", 8, "0:S+ t3E 1:H+ 3E", 1),
        ("try over state 8", 8, "0:S+ t3r H+ t4E t5R -t4E 5R -5R -t5R H- -t3r S-", 0),
        ("try over state 7", 8, "0:s- t1r H+ t4r 5R -5R -t4r H- s+", 0),
        ("one class both ways in a handler, other letter", 8, "0:H+ 3R t3E -t3E 4R", 0),
        ("one class both ways in a handler, same letter", 8, "0:S+ 3E t3r h- h+", 0),
        ("one class both ways in a handler, the try first", 8, "0:H+ t3R 3R -3R 4R", 0),
        ("class tried in the handler, waited in the task", 8, "0:h- 3E 1:H+ t3E 4R", 0),
        ("the newest each time, in its own mode", 8, "0:1E t1r 2R t1R t3E -t1R -t1r -1E -2R -t3E", 0),
        ("newest a wait over a try", 8, "0:t1R 1R t2E -1R -t1R -t2E", 0),
        ("try of class 8 of 8", 8, "0:t8E", 4),
        ("try still held at exit hard", 8, "0:H+ t1E H-", 7),
        ("try released twice", 8, "0:t1E -t1E -t1E", 5),
        ("try released in another frame", 8, "0:t1E S+ -t1E", 5),
        ("two cycles of one class", 1, "0:t0E t0R 0E", 1),
        // Each release in the mode of its acquire.
        ("read released", 8, "0:1R -1R", 0),
        ("read released as a write", 8, "0:1R -1E", 5),
        ("one read released as the other", 8, "0:1R -1r", 5),
        ("write released as a read", 8, "0:1E -1r", 5),
        ("wait released as a try", 8, "0:1R -t1R", 5),
        ("try released as a wait", 8, "0:t1R -1R", 5),
        ("try released", 8, "0:t1R -t1R", 0),
        ("older lock of the class that would fit", 8, "0:1E t1R -1E", 5),
        ("newest first, then the older one", 8, "0:1E t1R -t1R -1E", 0),
        ("newer lock of another class", 8, "0:1E 2R -1E", 0),
        ("mode of a newer lock of another class", 8, "0:1E 2R -1R", 5),
        ("release of nothing", 8, "0:-1E", 5),
        ("mode in another frame", 8, "0:1r S+ t1R -1r", 5),
        ("mode on another core", 8, "0:t1r 1:1R -t1r", 5),
        ("log of an earlier version", 8, "0:1E 2R -2E", 5),
        ("malformed release", 8, "0:0E -?", 3),
        ("release of class 8 of 8 in mode 5", 8, "0:-t8R", 4),
        // Marks of one class.
        ("E with safe R at hard", 8, "0:3E -3E H+ 3R", 1),
        ("S with safe N at hard, by a hard on", 8, "1:H+ 3E 0:h- 3R h+", 1),
        ("S with safe R at soft", 8, "0:3R -3R S+ 3R", 0),
        ("S with safe N at soft", 8, "0:3R -3R S+ 3r", 1),
        ("clash of class 63", 64, "0:63E -63E H+ 63E", 1),
        // Deep frames.
        ("21 held locks", 8, &one_over_20, 0),
        ("full frame", 8, &full, 0),
        ("over a full frame", 8, &over_full, 8),
        ("full of tries", 8, &full_of_tries, 0),
        ("over full of tries", 8, &over_full_of_tries, 8),
        ("over a full frame by a try", 8, &try_over_full, 8),
        ("over full of tries by a wait", 8, &over_full_by_a_wait, 8),
        ("full, and full again", 8, &full_again, 8),
        ("over a full frame of a handler", 8, &full_in_a_handler, 8),
        ("over a full frame above a full one", 8, &full_twice, 8),
    ];
    rows.into_iter().map(|(name, k, text, last)| HandLog { name, k, records: read(text), last }).collect()
}

/// The kinds of fixed cases, and how many there are of each.
pub const FIXED: [(&str, u64); 93] = [
    (HAND_LOGS, 107),
    (HAND_DRAWINGS, 48),
    (EACH_RING, 64 * ties::RINGS_OF_EACH),
    (SOME_TIES, 1200),
    (EACH_OPENING, 7389),
    (EACH_CLAUSE, 4200),
    (EACH_DESK_BYTE, 37_218),
    (EACH_STATE, 23_760),
    (ALL_OF_1, 4352),
    (ALL_OF_2, 65_536),
    (ALL_MARKS_OF_2, 20_736),
    (numbers::BY_HAND, 18),
    (numbers::EACH_COUNT, 837),
    (numbers::EACH_PAIR, 4926),
    (numbers::EACH_BYTE, 12_288),
    (numbers::KINDS_IN_TURN, 324),
    (numbers::EACH_SIZE, 1920),
    (clashes::STANDING, 3600),
    (clashes::BY_RECORD, 7381),
    (clashes::REFUSED, 288),
    (clashes::BESIDE_LOCK, 6624),
    (clashes::BESIDE_TWO, 8064),
    (clashes::OF_TWO, 1440),
    (depths::FILLED, 72),
    (depths::OVER_EACH, 1176),
    (depths::EACH_PLACE, 2841),
    (depths::EACH_DEPTH, 2040),
    (depths::PAST_DEPTH, 8064),
    (depths::EACH_SIZE, 426),
    (older::OLD_DESKS, 1818),
    (releases::OLDER_AND_NEWER, 1080),
    (releases::EACH_MODE, 864),
    (releases::OF_THREE, 648),
    (releases::ELSEWHERE, 1260),
    (releases::EACH_CLASS, 384),
    (releases::MODE_BYTE, 1024),
    (releases::REFUSED, 144),
    (releases::OVER_CYCLE, 36),
    (releases::FULL_FRAME, 1728),
    (releases::OF_HAND_LOGS, 600),
    (releases::IN_PAIRS, 123),
    (crosslocks::BY_HAND, 50),
    (crosslocks::EACH_STATE, 162),
    (crosslocks::EACH_FRAME, 576),
    (crosslocks::EACH_CLASS, 67),
    (crosslocks::EACH_SINCE, 119),
    (crosslocks::STRUCK_OUT, 128),
    (crosslocks::FIRST_REFUSAL, 1280),
    (crosslocks::FULL_LISTS, 6),
    (crosslocks::EACH_LIMIT, 731),
    (crosslocks::HISTORY_BYTES, 5120),
    (crosslocks::OPENINGS, 710),
    (crosslocks::VISITS, 16),
    (crosslocks::IN_PAIRS, 22),
    (crosslocks::MANY_VISITS, 1),
    (feeds::EACH_FEED_SIZE, 160),
    (feeds::EACH_STAND, 2970),
    (feeds::EACH_COUNT, 900),
    (feeds::EACH_FEED_BYTE, 8820),
    (feeds::HAND_LOGS, 4214),
    (feeds::EACH_CUT, 40_452),
    (feeds::EACH_LONG_CUT, 9108),
    (feeds::LONG_PIECES, 7),
    (balances::BY_HAND, 33),
    (balances::EACH_CLASS, 3584),
    (balances::EACH_PLACE, 273),
    (balances::EACH_BYTE, 21_504),
    (balances::HEADERS, 168),
    (balances::EACH_CUT, 1770),
    (balances::HAND_LOGS, 107),
    (balances::EACH_LENGTH, 612),
    (balances::MANY, 168),
    (balances::ALONE, 64),
    (joins::BY_HAND, joins::ROWS.len() as u64),
    (joins::STEPS_AFTER, joins::AFTER.len() as u64),
    (joins::EACH_NUMBER, 605),
    (joins::ALL_KINDS, 256),
    (joins::SOME_MARKS, 1872),
    (joins::RINGS, 384),
    (joins::EACH_CORE, 300),
    (joins::ABOVE_COUNT, 144),
    (joins::EACH_REFUSAL, 560),
    (joins::EACH_SIZE, 640),
    (joins::EACH_CLAUSE, 528),
    (joins::OF_CROSSLOCKS, 784),
    (joins::IN_PAIRS, joins::LISTS.len() as u64),
    (merges::BY_HAND, 18),
    (merges::SHORT_LISTS, (merges::LISTS.len() * merges::LISTS.len()) as u64),
    (merges::HAND_LOGS, 212),
    (usage::BY_HAND, usage::ROWS.len() as u64),
    (usage::ALL_OF_2, 2304),
    (usage::MARKS_OF_3, 13_824),
    (usage::EACH_LENGTH, 630),
];
const HAND_LOGS: &str = "hand logs";
const HAND_DRAWINGS: &str = "hand drawings";
const EACH_RING: &str = "rings of 1 to 64";
const SOME_TIES: &str = "ties and closing logs";
const EACH_OPENING: &str = "each opening";
const EACH_CLAUSE: &str = "each clause alone";
const EACH_DESK_BYTE: &str = "each desk byte";
const EACH_STATE: &str = "each state and kind";
const ALL_OF_1: &str = "all of K = 1";
const ALL_OF_2: &str = "all sheets of K = 2";
const ALL_MARKS_OF_2: &str = "all marks of K = 2";

/// The cases made by hand and those that go through all of a small space, until one is answered with false. Those with
/// feeds, with balances and with joins come behind the others, and those of request k last.
pub fn fixed(each: &mut dyn FnMut(Case) -> bool) {
    let mut going = true;
    let all = [
        fixed_calls, numbers::fixed, clashes::fixed, depths::fixed, releases::fixed, crosslocks::fixed, feeds::fixed,
        balances::fixed, joins::fixed, merges::fixed, usage::fixed,
    ];
    for fixed in all {
        if going {
            fixed(&mut |case| {
                going = each(case);
                going
            });
        }
    }
}

fn fixed_calls(each: &mut dyn FnMut(Case) -> bool) {
    let mut each = |name: &'static str, case: Case| each(Case { name, ..case });
    let rng = &mut Rng::new(20_260_101);
    // Hand logs, every class asked after each record, and steps after the end.
    for log in hand_logs() {
        let mut calls = vec![Call::Open(log.k as u64, 0)];
        ask_all(log.k, &mut calls);
        for (at, r) in log.records.iter().enumerate() {
            calls.push(Call::Step(*r));
            // In a long one after every eighth.
            if log.records.len() < 30 || at % 8 == 7 {
                ask_all(log.k, &mut calls);
            }
        }
        calls.extend(some_calls(rng, log.k, 6));
        if !each(HAND_LOGS, case(any_buffers(rng, log.k), calls)) {
            return;
        }
    }
    // Drawings by hand, rings of each length, and others with several shortest cycles.
    let tick = Call::Step(Rec::new(0, 2, 0, 0));
    let own = &mut Rng::new(20_260_103);
    for drawing in ties::hand_drawings() {
        let mut buffers = drawing.sketch.buffers();
        buffers.slip = own.bytes(buffers.slip.len());
        if !each(HAND_DRAWINGS, case(buffers, vec![tick.clone(), Call::Ask(0)])) {
            return;
        }
    }
    for (n, turn) in (1..=64).flat_map(|n| (0..ties::RINGS_OF_EACH).map(move |turn| (n, turn))) {
        if !each(EACH_RING, ties::each_ring(own, n, turn)) {
            return;
        }
    }
    for i in 0..1200 {
        let c = if i % 4 == 3 { ties::closing_log(own) } else { ties::on_desk(own) };
        if !each(SOME_TIES, c) {
            return;
        }
    }
    // Opening with each K from 0 to 300 and big ones, with buffers just long enough,
    // one byte short, and empty.
    for k in (0..=300).chain(BIG) {
        let size = k.min(64) as usize;
        let [_, sheet, seen, slip] = sizes(size);
        let (short, seen_short) = (sheet.saturating_sub(1), seen.saturating_sub(1));
        for (d, s, n) in [
            (DESK, sheet, seen), (DESK, 4096, 16_384), (DESK - 1, sheet, seen), (DESK, short, seen), (DESK - 1, short, seen),
            (0, 0, 0), (DESK + 22, 5000, 17_000), (DESK, 0, seen), (ORIGINS, sheet, seen), (ORIGINS - 1, sheet, seen),
            (DESK + 1, sheet, seen), (COUNT, sheet, seen), (COUNT - 1, sheet, seen), (DESK, sheet, seen_short),
            (DESK, sheet, sheet), (DESK, sheet, 0), (DESK, sheet, seen + 1), (DESK, short, seen_short),
            (older::ORIGINS, sheet, seen), (older::COUNT, sheet, seen), (older::DESK, sheet, seen), (DECLARED, sheet, seen),
        ] {
            let mut calls = vec![Call::Open(k, 0)];
            calls.extend(some_calls(rng, size.max(1), 2));
            if !each(EACH_OPENING, case(Buffers::any(rng, [d, s, n, slip]), calls)) {
                return;
            }
        }
    }
    // The same with crosslocks: the last class, one over it, and a history too short and just long enough.
    let other = &mut Rng::new(20_260_107);
    for k in (0..=66).chain(BIG) {
        let size = k.clamp(1, 64) as usize;
        let (last, over) = (1 << (size - 1), 1u64.checked_shl(size as u32).unwrap_or(0));
        for (declared, length) in [(last, HISTORY), (over, HISTORY), (last | 1, HISTORY - 1), (u64::MAX, HISTORY + 1), (0, HISTORY - 1)] {
            let mut b = Buffers::any(other, sizes(size));
            b.history = other.bytes(length);
            let mut calls = vec![Call::Open(k, declared)];
            calls.extend(some_calls(other, size, 2));
            if !each(EACH_OPENING, case(b, calls)) {
                return;
            }
        }
    }
    // Each clause of "Unfit" alone, open and closed, with every kind of call.
    for (clause, &name) in CLAUSES.iter().enumerate() {
        let mut made = 0;
        while made < 150 {
            let k = any_k(rng);
            let mut buffers = fit_desk(rng, k);
            if made % 2 == 0 {
                // Fresh cores, so that nothing else is wrong.
                buffers = Buffers::opened(k);
            }
            if !violate(rng, clause, &mut buffers) {
                continue;
            }
            let desk = &mut buffers.desk;
            if name == "depth over the limit" {
                // An overlong depth in a handler frame would be wrong twice.
                for core in 0..8 {
                    let state = desk[STATES + core];
                    let over = |frame| usize::from(desk[DEPTHS + 3 * core + frame]) > DEEPEST;
                    if (1..3).any(|frame| over(frame) && !may_hold(state, frame)) {
                        desk[STATES + core] = 8;
                    }
                }
            }
            let in_handlers = |core: usize| desk[DEPTHS + 3 * core + 1] > 0 || desk[DEPTHS + 3 * core + 2] > 0;
            if name == "state over 8" && (0..8).any(|core| desk[STATES + core] > 8 && in_handlers(core)) {
                // A state over 8 with locks held in handlers is wrong twice: leave them out.
                continue;
            }
            let mut calls: Vec<Call> = (0..13u8).map(|kind| Call::Step(Rec::new(rng.under(8) as u8, kind, 0, 0))).collect();
            calls.push(Call::Step(damaged(rng, k)));
            calls.push(Call::Step(Rec::new(0, 0, k as u8, 0)));
            for class in [0, k as u64 - 1, k as u64, 255, 256, 1 << 32, u64::MAX] {
                calls.push(Call::Ask(class));
            }
            let mut c = case(buffers, calls);
            c.clause = Some(name);
            made += 1;
            if !each(EACH_CLAUSE, c) {
                return;
            }
        }
    }
    // Each byte of the desk with each value, on an opened desk with some held locks.
    for at in 0..DESK {
        let k = [1, 3, 8, 64][at % 4];
        let mut shadow = Buffers::declaring(k, if at >= DECLARED { 1 << (k - 1) } else { 0 });
        let style = try_style(k);
        for _ in 0..30 {
            shadow.next(rng, &style);
        }
        for value in 0..=255u8 {
            // Of the many places for held locks fewer values.
            let some = if (HOLDS..ORIGINS).contains(&at) || at >= DECLARED { 20 } else { 100 };
            if at >= MARKS && value > 4 && !value.is_power_of_two() && !rng.mille(some) {
                continue;
            }
            let mut buffers = shadow.clone();
            buffers.desk[at] = value;
            let calls = some_calls(rng, k, 2);
            if !each(EACH_DESK_BYTE, case(buffers, calls)) {
                return;
            }
        }
    }
    // Each state with each kind, with empty and with standing frames, by waits and by tries.
    for state in 0..9u8 {
        for (held, tries) in [(0, false), (1, false), (1, true), (2, true), (DEEPEST, false), (DEEPEST, true)] {
            let mut buffers = Buffers::opened(3);
            buffers.slip.fill(9);
            buffers.desk[STATES + 4] = state;
            let here = 12 + FRAME[usize::from(state)];
            for i in 0..held {
                // Among tries every second lock is one: the oldest, and so on.
                push(&mut buffers.desk, here, 1 + 64 * 2, tries && i % 2 == 0);
            }
            for kind in 0..14 {
                for class in 0..5 {
                    for mode in if kind < 10 { 0..8 } else { 0..2 } {
                        let calls = vec![
                            Call::Step(Rec::new(4, kind, class, mode)), Call::Ask(1), Call::Step(Rec::new(4, 0, 2, 2)),
                        ];
                        if !each(EACH_STATE, case(buffers.clone(), calls)) {
                            return;
                        }
                    }
                }
            }
        }
    }
    // All drawings of one class; of two classes all sheets, and all marks with some sheets.
    let drawn = |k: usize, marks: &[u8], sheet: &[u8]| {
        let mut buffers = Buffers::opened(k);
        buffers.desk[MARKS..MARKS + marks.len()].copy_from_slice(marks);
        buffers.sheet.copy_from_slice(sheet);
        buffers.slip.fill(7);
        numbers::usual(&mut buffers);
        buffers
    };
    for (mark, kinds) in (0..=255u8).flat_map(|mark| (0..17u8).map(move |kinds| (mark, kinds))) {
        let calls = vec![Call::Ask(0), tick.clone(), Call::Ask(0), Call::Ask(1)];
        if !each(ALL_OF_1, case(drawn(1, &[mark], &[kinds]), calls)) {
            return;
        }
    }
    for all in 0..65536usize {
        let sheet = [0, 4, 8, 12].map(|bit| (all >> bit) as u8 & 15);
        let calls = vec![tick.clone(), Call::Ask(0), Call::Ask(1)];
        if !each(ALL_OF_2, case(drawn(2, &[], &sheet), calls)) {
            return;
        }
    }
    let fit = |m: &u8| m >> 4 & 12 & !m == 0;
    for (a, b) in (0..=255).filter(fit).flat_map(|a| (0..=255).filter(fit).map(move |b| (a, b))) {
        let sheet = match own.under(3) {
            0 => vec![0; 4],
            1 => vec![0, 1 << own.under(4), 1 << own.under(4), 0],
            _ => own.bytes(4).iter().map(|b| b & 15).collect(),
        };
        if !each(ALL_MARKS_OF_2, case(drawn(2, &[a, b], &sheet), vec![tick.clone()])) {
            return;
        }
    }
}
