//! Crosslocks: logs from opening with them, desks and histories from elsewhere, and the cases about them. What is to come of the fixed
//! ones is worked out here from the documents; no judge is asked.

use crate::clashes;
use crate::drawing::FRAME;
use crate::gen::{any_buffers, any_class, any_style, case, damaged, fit_desk, may_hold, push, read, sizes, Buffers, Kind, Style};
use crate::numbers::{self, FULL};
use crate::rng::Rng;
use crate::run::{Call, Case, Meant, Pair, Rec};
use crate::ties::{self, sketch, EN, ER, SN};
use reference::{DECLARED, DEEPEST, DEPTHS, DESK, FRAMES, HISTORY, KEPT_COUNT, MARKS, MOST_IN_PROGRESS, MOST_KEPT, PROGRESS, SINCE, STATES};

// ------------------------------------------------------------------------ bytes

fn word(desk: &[u8], at: usize) -> u64 {
    desk.get(at..at + 8).map_or(0, |eight| eight.iter().rev().fold(0, |word, &byte| word << 8 | u64::from(byte)))
}

fn set_word(desk: &mut [u8], at: usize, word: u64) {
    desk[at..at + 8].copy_from_slice(&word.to_le_bytes());
}

fn four(desk: &[u8], at: usize) -> u32 {
    desk[at..at + 4].iter().rev().fold(0, |four, &byte| four << 8 | u32::from(byte))
}

fn set_four(desk: &mut [u8], at: usize, number: u32) {
    desk[at..at + 4].copy_from_slice(&number.to_le_bytes());
}

/// The crosslocks, and those in progress; none on a short desk.
pub fn declared(desk: &[u8]) -> u64 {
    word(desk, DECLARED)
}

pub fn in_progress(desk: &[u8]) -> u64 {
    word(desk, PROGRESS)
}

/// How many acquires are kept.
pub fn kept(desk: &[u8]) -> usize {
    four(desk, KEPT_COUNT) as usize
}

pub fn since(desk: &[u8], class: usize) -> u32 {
    four(desk, SINCE + 4 * class)
}

fn set_kept(desk: &mut [u8], kept: usize) {
    set_four(desk, KEPT_COUNT, kept as u32);
}

fn set_since(desk: &mut [u8], class: usize, since: u32) {
    set_four(desk, SINCE + 4 * class, since);
}

/// Puts these crosslocks on a desk, all in progress since 0, and a history of so many entries.
pub fn put(b: &mut Buffers, crosslocks: u64, kept: usize, entry: &dyn Fn(usize) -> [u8; 2]) {
    set_word(&mut b.desk, DECLARED, crosslocks);
    set_word(&mut b.desk, PROGRESS, crosslocks);
    set_kept(&mut b.desk, kept);
    for (at, bytes) in b.history.chunks_exact_mut(2).enumerate().take(kept) {
        bytes.copy_from_slice(&entry(at));
    }
}

/// The classes of a word.
pub fn classes(word: u64) -> Vec<u8> {
    (0..64).filter(|class| word >> class & 1 == 1).collect()
}

/// What a case is to leave of crosslocks: those in progress, each with its since number; the entries of the history from the first on,
/// and how many of them are kept.
#[derive(Clone, Default)]
pub struct Left {
    pub since: Vec<(u8, u32)>,
    pub kept: usize,
    pub history: Vec<[u8; 2]>,
}

impl Left {
    pub fn differs(&self, desk: &[u8], history: &[u8]) -> Option<String> {
        let wanted = self.since.iter().fold(0u64, |word, (class, _)| word | 1 << class);
        let other = |(class, number): &&(u8, u32)| since(desk, usize::from(*class)) != *number;
        let entries = history.chunks_exact(2).zip(&self.history).position(|(bytes, wanted)| bytes != wanted);
        match () {
            _ if in_progress(desk) != wanted => Some(format!("in progress {:#x} instead of {wanted:#x}", in_progress(desk))),
            _ if kept(desk) != self.kept => Some(format!("{} kept instead of {}", kept(desk), self.kept)),
            _ => self.since.iter().find(other).map(|(class, number)| format!("since number of {class} is not {number}"))
                .or_else(|| entries.map(|at| format!("entry {at} of the history is {:?}", &history[2 * at..2 * at + 2]))),
        }
    }
}

/// What is wrong with the bytes that an accepted record is to leave: entries from the kept count on, and the since numbers of other
/// classes.
pub fn past_kept(call: &Call, answer: u8, [(desk, history), (desk_after, history_after)]: [(&[u8], &[u8]); 2]) -> Option<String> {
    let Call::Step(record) = call else { return None };
    if answer > 1 || record.slice().len() != 6 {
        return None;
    }
    let [_, _, _, kind, class, ..] = record.bytes;
    let past = 2 * kept(desk).max(kept(desk_after));
    if history[past..] != history_after[past..] {
        return Some("changed the history past the kept count".into());
    }
    if ![0, 7, 9].contains(&kind) && history != history_after {
        return Some("changed the history without an acquire or an exit".into());
    }
    let stays = |other: &usize| kind != 10 || *other != usize::from(class);
    let other = (0..64).filter(stays).find(|&class| since(desk, class) != since(desk_after, class));
    other.map(|class| format!("changed the since number of {class}"))
}

// -------------------------------------------------------------------- proposals

/// In 1000, on a desk with crosslocks in progress: records of these.
pub const OFTEN: usize = 130;

/// A record of crosslocks by one of these cores: a commit or a release mostly, or another take.
pub fn next(rng: &mut Rng, cores: &[u8], desk: &[u8]) -> Rec {
    let core = rng.pick(cores);
    let (progress, all) = (classes(in_progress(desk)), classes(declared(desk)));
    let one = |rng: &mut Rng, from: &[u8]| if from.is_empty() { 0 } else { rng.pick(from) };
    match rng.under(20) {
        0..11 => Rec::new(core, 11, one(rng, &progress), 0),
        11..15 => Rec::new(core, 12, one(rng, &progress), 0),
        15..18 => Rec::new(core, 10, one(rng, &all), 0),
        18 => Rec::new(core, rng.between(11, 12) as u8, one(rng, &all), 0),
        _ => Rec::new(core, rng.between(10, 12) as u8, rng.under(usize::from(desk[0]) + 1) as u8, 0),
    }
}

/// In place of an acquire of a crosslock: it is taken, or where it is in progress committed or released.
pub fn instead(rng: &mut Rng, record: Rec, desk: &[u8]) -> Rec {
    let [_, _, core, _, class, ..] = record.bytes;
    let kind = match in_progress(desk) >> class & 1 {
        1 => [11, 11, 11, 12, 12, 10][rng.under(6)],
        _ => [10, 10, 10, 10, 10, 10, 10, 10, 10, 11, 12][rng.under(11)],
    };
    Rec::new(core, kind, class, 0)
}

/// Some crosslocks of K classes in so many of 1000, else none: one, a few, half, all, or any.
pub fn some(rng: &mut Rng, k: usize, mille: usize) -> u64 {
    let all = u64::MAX >> (64 - k);
    if !rng.mille(mille) {
        return 0;
    }
    let word = match rng.under(12) {
        0..4 => 1 << rng.under(k),
        4..8 => (1 << rng.under(k)) | 1 << rng.under(k) | 1 << rng.under(k),
        8 => 1 << (k - 1),
        9 => all & 0xAAAA_AAAA_AAAA_AAAA,
        10 => rng.next() & rng.next() & all,
        _ => [all, all & rng.next()][rng.under(2)],
    };
    if word == 0 { all } else { word }
}

/// A word for an opening with K, whatever that is: mostly none or some, now and then with a class of K or more.
pub fn any_word(rng: &mut Rng, k: usize) -> u64 {
    if !(1..=64).contains(&k) || rng.mille(60) {
        return rng.next() >> rng.under(64);
    }
    let over = if k < 64 && rng.mille(150) { 1 << rng.pick(&[k, 63, rng.clone().between(k, 63)]) } else { 0 };
    over | some(rng, k, 500)
}

/// Declares these crosslocks on a fit desk, and takes out of the list in progress what is none; now and then some come in progress.
pub fn declare(rng: &mut Rng, b: &mut Buffers, word: u64) {
    if b.desk.len() < DESK {
        return;
    }
    set_word(&mut b.desk, DECLARED, word);
    let progress = in_progress(&b.desk) & word;
    set_word(&mut b.desk, PROGRESS, progress);
    if word != 0 && rng.mille(400) {
        list(rng, &mut b.desk, word);
    }
}

/// Puts up to 16 of these crosslocks in progress, often all or 16, with any since numbers.
fn list(rng: &mut Rng, desk: &mut [u8], word: u64) {
    let mut all = classes(word);
    for i in (1..all.len()).rev() {
        all.swap(i, rng.under(i + 1));
    }
    let most = all.len().min(MOST_IN_PROGRESS);
    all.truncate(rng.pick(&[1, 1, 2, 3, most, most, rng.clone().under(most + 1)]).min(most));
    set_word(desk, PROGRESS, all.iter().fold(0, |word, class| word | 1 << class));
    let kept = kept(desk) as u32;
    for class in 0..64 {
        let any = rng.next() as u32 >> rng.under(32);
        let number = rng.pick(&[0, 0, 0, kept, kept.saturating_sub(1), kept / 2, kept + 1, 255, 256, 257, 65_536, FULL, any]);
        set_since(desk, class, if rng.mille(300) { any } else { number });
    }
}

/// One that fits: in some frame, of some class and mode, or struck out.
fn any_entry(rng: &mut Rng, k: usize, places: &[u8]) -> [u8; 2] {
    match rng.pick(places) {
        0 => [0; 2],
        place => [place, (rng.under(k) + 64 * rng.under(3)) as u8],
    }
}

/// Fills a history so far with what fits; behind it stays anything.
fn fill(rng: &mut Rng, desk: &[u8], history: &mut [u8], kept: usize) {
    // In the frames where the cores are mostly.
    let mut places: Vec<u8> = (0..8).map(|core| (1 + 3 * core + FRAME[usize::from(desk[STATES + core]).min(8)]) as u8).collect();
    if rng.mille(500) {
        let core = rng.under(8);
        places = vec![places[core], places[core], 0, rng.between(0, FRAMES) as u8];
    }
    places.extend([0, rng.between(1, FRAMES) as u8, rng.between(1, FRAMES) as u8]);
    for entry in history.chunks_exact_mut(2).take(kept) {
        entry.copy_from_slice(&any_entry(rng, usize::from(desk[0]), &places));
    }
}

fn any_kept(rng: &mut Rng) -> usize {
    rng.pick(&[0, 0, 1, 2, 5, 17, 64, 127, 128, 200, 254, 255, 255, 256, 256, 256, rng.clone().under(MOST_KEPT + 1)])
}

/// Gives a fit desk any crosslocks, any list in progress and any history that fits.
pub fn scatter(rng: &mut Rng, b: &mut Buffers) {
    let (word, kept) = (some(rng, b.k(), 900), any_kept(rng));
    let Buffers { desk, history, .. } = b;
    set_word(desk, DECLARED, word);
    set_kept(desk, kept);
    set_word(desk, PROGRESS, 0);
    if word != 0 && !rng.mille(200) {
        list(rng, desk, word);
    }
    fill(rng, desk, history, kept);
}

/// Violates a clause about crosslocks in a fit desk and history; false if they can't.
pub fn violate(rng: &mut Rng, clause: &str, desk: &mut [u8], history: &mut Vec<u8>) -> bool {
    let k = usize::from(desk[0]);
    let (all, now) = (declared(desk), in_progress(desk));
    match clause {
        "declared class K or more" => {
            if k == 64 {
                return false;
            }
            set_word(desk, DECLARED, all | 1 << rng.pick(&[k, k, 63, rng.clone().between(k, 63)]));
        }
        "in progress but not declared" => {
            let class = rng.pick(&[0, k - 1, rng.clone().under(k), 63]);
            set_word(desk, DECLARED, all & !(1 << class));
            set_word(desk, PROGRESS, now | 1 << class);
        }
        "more than 16 in progress" => {
            if k <= MOST_IN_PROGRESS {
                return false;
            }
            let mut some: Vec<usize> = (0..k).collect();
            for i in (1..k).rev() {
                some.swap(i, rng.under(i + 1));
            }
            some.truncate(rng.pick(&[17, 17, 17, 18, 32, 64]).min(k));
            let word = some.iter().fold(0, |word, class| word | 1 << class);
            set_word(desk, DECLARED, all | word);
            set_word(desk, PROGRESS, word);
        }
        "more than 256 kept" => {
            let any = rng.next() as u32 | 512;
            set_four(desk, KEPT_COUNT, rng.pick(&[257, 257, 257, 258, 511, 512, 0x1_0000, 0x1_0001, 0x100_0000, 0x8000_0000, FULL, any]));
        }
        "history too short" => history.truncate(rng.pick(&[HISTORY - 1, HISTORY - 1, HISTORY - 2, HISTORY / 2, 255, 1, 0])),
        _ => {
            if history.len() < HISTORY || kept(desk) > MOST_KEPT || k == 64 && clause == "kept class K or more" {
                return false;
            }
            if kept(desk) == 0 {
                let kept = rng.pick(&[1, 2, 40, 255, 256]);
                set_kept(desk, kept);
                fill(rng, desk, history, kept);
            }
            let kept = kept(desk);
            let at = 2 * rng.pick(&[0, kept - 1, rng.clone().under(kept), kept.min(129) - 1]);
            let (place, lock) = (rng.between(1, FRAMES) as u8, (rng.under(k) + 64 * rng.under(3)) as u8);
            let entry = match clause {
                "kept place over 24" => [rng.pick(&[25, 25, 26, 32, 128, 254, 255]), lock],
                "struck out but not 0" => [0, rng.pick(&[1, 64, 128, 192, 255, rng.clone().between(1, 255) as u8])],
                "kept class K or more" => [place, (rng.pick(&[k, 63, rng.clone().between(k, 63)]) + 64 * rng.under(3)) as u8],
                "kept mode 3" => [place, 192 + rng.under(k) as u8],
                other => panic!("no way to violate {other}"),
            };
            history[at..at + 2].copy_from_slice(&entry);
        }
    }
    rng.next();
    true
}

// ---------------------------------------------------------------------- random

/// Steps of which so many in 1000 are of crosslocks; those that fault are left out, as the style says.
fn busy(rng: &mut Rng, style: &Style, shadow: &mut Buffers, most: usize, often: usize, calls: &mut Vec<Call>) {
    let mut after = 0;
    for _ in 0..most {
        let record = if rng.mille(often) && declared(&shadow.desk) != 0 {
            let record = next(rng, &style.cores, &shadow.desk);
            let before = shadow.clone();
            if shadow.step(&record) == 1 && rng.mille(style.avoid) {
                *shadow = before;
                continue;
            }
            record
        } else {
            shadow.next(rng, style).0
        };
        calls.push(Call::Step(record));
        if rng.mille(style.asks) {
            calls.push(Call::Ask(any_class(rng, style.k)));
        }
        after += usize::from(shadow.desk[1]);
        if after > 2 {
            break;
        }
    }
}

/// From opening: crosslocks taken, committed and released by all cores, in handlers too, among acquires of all sorts.
fn log(rng: &mut Rng) -> Case {
    let k = rng.pick(&[2, 3, 4, 4, 6, 8, 8, 12, 20, 64]);
    let mut style = any_style(rng, k);
    style.cores.truncate(rng.pick(&[1, 2, 2, 3, 8]));
    style.weights = rng.pick(&[[4, 4, 2], [5, 3, 4], [3, 3, 6], [6, 2, 1]]);
    style.modes = rng.pick(&[[2, 1, 2, 0, 0, 0], [2, 1, 2, 1, 1, 1], [0, 0, 1, 0, 0, 0], [1, 1, 1, 0, 0, 0]]);
    style.avoid = rng.pick(&[0, 900, 1000, 1000, 1000]);
    style.unordered = rng.pick(&[0, 50, 300]);
    style.asks = rng.pick(&[0, 10, 30]);
    let word = some(rng, k, 1000);
    let mut calls = vec![Call::Open(k as u64, word)];
    let (most, often) = (rng.pick(&[10, 30, 60, 120]), rng.pick(&[100, 250, 400]));
    busy(rng, &style, &mut Buffers::declaring(k, word), most, often, &mut calls);
    case(any_buffers(rng, k), calls)
}

/// A desk with crosslocks in progress and a history, cores in any states, nothing drawn mostly.
fn bench(rng: &mut Rng, k: usize) -> Buffers {
    let mut b = any_buffers(rng, k);
    b.desk[..DESK].fill(0);
    b.desk[0] = k as u8;
    b.sheet[..k * k].fill(0);
    for core in 0..8 {
        let state = rng.under(9) as u8;
        b.desk[STATES + core] = state;
        for frame in (0..3).filter(|&frame| may_hold(state, frame)) {
            for _ in 0..rng.pick(&[0, 0, 1, 2, 3]) {
                push(&mut b.desk, 3 * core + frame, (rng.under(k) + 64 * rng.under(3)) as u8, rng.mille(250));
            }
        }
    }
    numbers::scatter(rng, &mut b);
    if rng.mille(800) {
        // Not near the last count.
        numbers::set_count(&mut b.desk, rng.under(70_000) as u32);
    }
    scatter(rng, &mut b);
    b
}

/// Such a desk, and records of crosslocks, of acquires and exits.
fn on_desk(rng: &mut Rng) -> Case {
    let k = rng.pick(&[1, 2, 3, 4, 8, 8, 18, 20, 33, 64]);
    let buffers = if rng.mille(150) { fit_desk(rng, k) } else { bench(rng, k) };
    let mut style = any_style(rng, k);
    style.weights = rng.pick(&[[3, 3, 3], [3, 1, 6], [5, 1, 1]]);
    style.avoid = rng.pick(&[0, 1000, 1000]);
    style.random = rng.pick(&[0, 30, 200]);
    let mut calls = Vec::new();
    let (most, often) = (rng.pick(&[3, 8, 16]), rng.pick(&[300, 500, 700]));
    busy(rng, &style, &mut buffers.clone(), most, often, &mut calls);
    case(buffers, calls)
}

/// Lists and histories at their limits and near them, full frames and the last count beside them: what is refused first.
fn at_limits(rng: &mut Rng) -> Case {
    let k = rng.pick(&[3, 8, 17, 18, 20, 20, 64]);
    let mut buffers = bench(rng, k);
    let core = rng.under(8);
    let all = u64::MAX >> (64 - k);
    let word = if k > 16 && rng.mille(700) { all & !(1 << rng.under(k)) } else { some(rng, k, 1000) };
    let kept = rng.pick(&[256, 256, 256, 255, 254, 253, 0]);
    let Buffers { desk, history, .. } = &mut buffers;
    desk[1] = u8::from(rng.mille(30));
    set_word(desk, DECLARED, word);
    set_kept(desk, kept);
    list(rng, desk, word);
    if rng.mille(500) {
        // 16, or 15.
        let mut some = classes(word);
        some.truncate(MOST_IN_PROGRESS - rng.under(2));
        set_word(desk, PROGRESS, some.iter().fold(0, |word, class| word | 1 << class));
    } else if rng.mille(250) {
        set_word(desk, PROGRESS, 0);
    }
    fill(rng, desk, history, kept);
    let frame = 3 * core + FRAME[usize::from(desk[STATES + core])];
    if rng.mille(350) {
        while usize::from(desk[DEPTHS + frame]) < DEEPEST - usize::from(rng.mille(20)) {
            push(desk, frame, (rng.under(k) + 128) as u8, rng.mille(300));
        }
    }
    if rng.mille(250) {
        numbers::set_count(desk, FULL - rng.pick(&[0, 0, 1]));
    }
    let (mut shadow, mut calls) = (buffers.clone(), Vec::new());
    let own = [core as u8, core as u8, core as u8, rng.under(8) as u8];
    let progress = classes(in_progress(&buffers.desk));
    let (idle, locks) = (classes(word & !in_progress(&buffers.desk)), classes(all & !word));
    for _ in 0..rng.between(3, 10) {
        let lock = rng.under(k) as u8;
        let record = match rng.under(15) {
            0..4 => Rec::new(rng.pick(&own), 0, lock, rng.under(3) as u8),
            4 => Rec::new(rng.pick(&own), 0, lock, rng.between(3, 5) as u8),
            5 => Rec::new(rng.pick(&own), 10, lock, 0),
            6 | 7 => next(rng, &own, &shadow.desk),
            8 if !progress.is_empty() => Rec::new(rng.pick(&own), 10, rng.pick(&progress), 0),
            9 => Rec::new(rng.pick(&own), rng.pick(&[7, 9]), 0, 0),
            10 => damaged(rng, k),
            11 | 12 if !idle.is_empty() => Rec::new(rng.pick(&own), 10, rng.pick(&idle), 0),
            13 if !locks.is_empty() => Rec::new(rng.pick(&own), rng.between(10, 12) as u8, rng.pick(&locks), 0),
            _ => Rec::new(rng.pick(&own), rng.between(10, 12) as u8, rng.pick(&classes(word)), 0),
        };
        calls.push(Call::Step(record));
        shadow.step(&record);
    }
    case(buffers, calls)
}

/// Unfit by a clause about crosslocks, or at its limit and fit; with bytes where none is looked at.
fn odd(rng: &mut Rng) -> Case {
    let k = rng.pick(&[1, 2, 3, 8, 16, 17, 17, 33, 63, 64]);
    let mut b = if rng.mille(500) { fit_desk(rng, k) } else { bench(rng, k) };
    b.desk[1] = u8::from(rng.mille(60));
    const CLAUSES: [&str; 9] = [
        "declared class K or more", "in progress but not declared", "more than 16 in progress", "more than 256 kept", "history too short",
        "kept place over 24", "struck out but not 0", "kept class K or more", "kept mode 3",
    ];
    let clause = rng.pick(&CLAUSES);
    if rng.mille(600) {
        let Buffers { desk, history, .. } = &mut b;
        violate(rng, clause, desk, history);
    } else {
        let all = u64::MAX >> (64 - k);
        match rng.under(5) {
            0 => set_word(&mut b.desk, DECLARED, all),
            1 => {
                let word = all & rng.next().rotate_left(5);
                let mut some = classes(word);
                some.truncate(MOST_IN_PROGRESS);
                set_word(&mut b.desk, DECLARED, word);
                set_word(&mut b.desk, PROGRESS, some.iter().fold(0, |word, class| word | 1 << class));
            }
            2 => {
                set_kept(&mut b.desk, MOST_KEPT);
                let Buffers { desk, history, .. } = &mut b;
                fill(rng, desk, history, MOST_KEPT);
            }
            3 => {
                // The last frame, the last class, the last mode; and behind what is kept anything.
                let kept = rng.pick(&[1, 255, 256]);
                set_kept(&mut b.desk, kept);
                for (at, entry) in b.history.chunks_exact_mut(2).enumerate().take(MOST_KEPT) {
                    let unfit = [rng.byte() | 0x80, rng.byte() | 0xC0];
                    entry.copy_from_slice(&if at < kept { [24, 128 + k as u8 - 1] } else { unfit });
                }
            }
            _ => {
                // A byte behind the stated size.
                b.history.resize(HISTORY + 3, 0xFF);
            }
        }
    }
    let style = any_style(rng, k);
    let mut calls = vec![Call::Ask(any_class(rng, k))];
    let often = rng.pick(&[0, 500]);
    if b.history.len() < HISTORY || rng.mille(400) {
        calls.push(Call::Step(Rec::new(rng.under(8) as u8, rng.pick(&[0, 2, 3, 10, 11, 12]), rng.under(k) as u8 * u8::from(often > 0), 0)));
        calls.push(Call::Step(damaged(rng, k)));
    } else {
        busy(rng, &style, &mut b.clone(), 4, often, &mut calls);
    }
    if rng.mille(200) {
        calls.reverse();
    }
    case(b, calls)
}

/// Visits of handlers while a crosslock is in progress: acquires in one and in later ones, commits in each; now and then so many visits
/// that a byte does not count them.
fn visits(rng: &mut Rng) -> Case {
    let k = rng.pick(&[3, 4, 8]);
    let word: u64 = if rng.mille(500) { 1 << (k - 1) } else { 1 << (k - 1) | 1 << (k - 2) };
    let locks = k - word.count_ones() as usize;
    let core = rng.under(8) as u8;
    let (enter, exit) = if rng.mille(500) { (6, 7) } else { (8, 9) };
    let mut calls = vec![Call::Open(k as u64, word)];
    let mut step = |kind: u8, class: usize, mode: u8| calls.push(Call::Step(Rec::new(core, kind, class as u8, mode)));
    let crosslock = k - 1;
    step(10, crosslock, 0);
    let once = |rng: &mut Rng, step: &mut dyn FnMut(u8, usize, u8), acquires: usize| {
        for _ in 0..acquires {
            let (class, mode) = (rng.under(locks), rng.pick(&[0, 1, 2, 2, 5]));
            step(0, class, mode);
            step(1, class, mode);
        }
    };
    let many = rng.mille(120);
    step(enter, 0, 0);
    once(rng, &mut step, 1);
    if rng.mille(300) {
        step(11, crosslock, 0);
    }
    step(exit, 0, 0);
    for _ in 0..if many { 254 + rng.under(3) } else { rng.under(6) } {
        step(enter, 0, 0);
        if !many {
            let acquires = rng.under(3);
            once(rng, &mut step, acquires);
            if enter == 6 && rng.mille(300) {
                // A hard handler over the soft one.
                step(8, 0, 0);
                once(rng, &mut step, 1);
                if rng.mille(300) {
                    step(11, crosslock, 0);
                }
                step(9, 0, 0);
            }
            if rng.mille(400) {
                step(11, crosslock, 0);
            }
            if word.count_ones() > 1 && rng.mille(200) {
                step(rng.between(10, 12) as u8, crosslock - 1, 0);
            }
        }
        step(exit, 0, 0);
    }
    step(enter, 0, 0);
    step(11, crosslock, 0);
    once(rng, &mut step, 1);
    step(11, crosslock, 0);
    case(any_buffers(rng, k), calls)
}

/// From opening: acquires until the history is full, and what comes then; another crosslock taken on the way, also over a full one.
fn filling(rng: &mut Rng) -> Case {
    let k = rng.pick(&[4, 6, 8]);
    let word = 3 << (k - 2);
    let mut calls = vec![Call::Open(k as u64, word), Call::Step(Rec::new(0, 10, k as u8 - 1, 0))];
    let (cores, second) = (rng.pick(&[1, 2, 8]), rng.pick(&[0, 1, 128, 254, 255, 256, 256, 300]));
    let least = rng.under(2);
    let mut shadow = Buffers::declaring(k, word);
    shadow.step(&Rec::new(0, 10, k as u8 - 1, 0));
    let mut taken = false;
    while kept(&shadow.desk) < MOST_KEPT - least && calls.len() < 900 {
        let core = rng.under(cores) as u8;
        let (class, mode) = (rng.under(k - 2) as u8, rng.pick(&[0, 1, 2, 2]));
        if !taken && kept(&shadow.desk) >= second {
            taken = true;
            let record = Rec::new(core, 10, k as u8 - 2, 0);
            shadow.step(&record);
            calls.push(Call::Step(record));
        }
        for record in [Rec::new(core, 0, class, mode), Rec::new(core, 1, class, mode)] {
            shadow.step(&record);
            calls.push(Call::Step(record));
        }
    }
    let mut style = any_style(rng, k);
    style.cores = (0..cores as u8).collect();
    style.avoid = 1000;
    if !taken {
        calls.push(Call::Step(Rec::new(0, 10, k as u8 - 2, 0)));
        shadow.step(&Rec::new(0, 10, k as u8 - 2, 0));
    }
    let most = rng.pick(&[6, 15, 30]);
    busy(rng, &style, &mut shadow, most, 350, &mut calls);
    case(any_buffers(rng, k), calls)
}

pub const KINDS: [Kind; 6] = [
    Kind { name: "log of crosslocks", weight: 90, make: log },
    Kind { name: "crosslocks on a desk", weight: 90, make: on_desk },
    Kind { name: "crosslocks at their limits", weight: 80, make: at_limits },
    Kind { name: "odd crosslocks", weight: 130, make: odd },
    Kind { name: "visits of handlers", weight: 30, make: visits },
    Kind { name: "history filled", weight: 8, make: filling },
];

pub fn any(rng: &mut Rng) -> Case {
    let kind = rng.weighted(&KINDS.map(|kind| kind.weight));
    (KINDS[kind].make)(rng)
}

// ----------------------------------------------------------------------- fixed

pub const BY_HAND: &str = "crosslocks by hand";
pub const EACH_STATE: &str = "crosslocks in each state";
pub const EACH_FRAME: &str = "each frame kept and committed";
pub const EACH_CLASS: &str = "each class a crosslock";
pub const EACH_SINCE: &str = "each since number";
pub const STRUCK_OUT: &str = "visits that end";
pub const FULL_LISTS: &str = "lists and histories that are full";
pub const FIRST_REFUSAL: &str = "what is refused first";
pub const EACH_LIMIT: &str = "each limit of crosslocks";
pub const HISTORY_BYTES: &str = "each byte of a history";
pub const OPENINGS: &str = "openings with crosslocks";
pub const VISITS: &str = "256 visits";
pub const IN_PAIRS: &str = "crosslocks in pairs of lists";
pub const MANY_VISITS: &str = "65,536 visits";

/// What is left, as text: those in progress as class@since, how many are kept, and the entries from the first on, as frame, core, class
/// and mode, or - for one that is struck out; those behind the kept ones too.
fn left(text: &str) -> Left {
    let parts: Vec<&str> = if text.is_empty() { vec!["", "0", ""] } else { text.split('|').collect() };
    let since = parts[0].split_whitespace().map(|word| {
        let (class, number) = word.split_once('@').unwrap();
        (class.parse().unwrap(), number.parse().unwrap())
    });
    let entry = |word: &str| match word.split_once('.') {
        None => [0; 2],
        Some((place, lock)) => {
            let frame = "tsh".find(&place[..1]).unwrap() as u8 + 3 * place[1..].parse::<u8>().unwrap();
            let (class, mode) = lock.split_at(lock.len() - 1);
            [1 + frame, class.parse::<u8>().unwrap() + 64 * "ErR".find(mode).unwrap() as u8]
        }
    };
    Left { since: since.collect(), kept: parts[1].trim().parse().unwrap(), history: parts[2].split_whitespace().map(entry).collect() }
}

/// Worked out by hand: K, the crosslocks, the records, their answers, the count, the lock dependencies as in src/ties.rs, what is left,
/// and the slip.
type Row<'a> = (usize, &'a [u8], &'a str, &'a [u8], u32, &'a str, &'a str, &'a str);

#[rustfmt::skip]
const ROWS: [Row<'static>; 50] = [
    // The completion: taken over a lock that who commits it needs.
    (8, &[3], "0:1E x3 1:1E c3", &[0, 0, 0, 1], 4, "1 EN 3 at 2, 3 EN 1 at 4", "3@0|1|t1.1E", "1 EN hold 2, 3 EN hold 4"),
    (8, &[3], "0:1E x3 1:1E 0:c3", &[0, 0, 0, 0], 4, "1 EN 3 at 2", "3@0|1|t1.1E", ""),
    (8, &[3], "0:1E x3 1:2E c3 3:2E 1E", &[0, 0, 0, 0, 0, 1], 6, "1 EN 3 at 2, 3 EN 2 at 4, 2 EN 1 at 6", "3@0|3|t1.2E t3.2E t3.1E", "1 EN hold 2, 3 EN hold 4, 2 EN hold 6"),
    // 15: a lock's kinds on a crosslock, tries too, and a crosslock's kinds on a lock; after 4.
    (4, &[3], "0:3E 3r 3R t3E t3r t3R -3E -3r -t3R x1 c1 -x1 x0 x2", &[15; 14], 0, "", "", ""),
    (4, &[3], "0:x4 c4 -x4 x63 x64 x255 4E -4E", &[4; 8], 0, "", "", ""),
    (4, &[], "0:x0 c0 -x0 x3 0E", &[15, 15, 15, 15, 0], 1, "", "", ""),
    (64, &[63], "0:x63 63E c63 62E -x63 -63E c63", &[0, 15, 0, 0, 0, 15, 17], 4, "", "|0|t0.62E", ""),
    (1, &[0], "0:x0 0E c0 -x0 -0E x0 x0", &[0, 15, 0, 0, 15, 0, 16], 4, "", "0@0|0|", ""),
    (4, &[3], "0:x? -x? c? x3 x?", &[3, 3, 3, 0, 3], 1, "", "3@0|0|", ""),
    (4, &[0, 1, 2, 3], "0:x0 x1 x2 x3 c0 -x1 c1", &[0, 0, 0, 0, 0, 0, 17], 6, "", "0@0 2@0 3@0|0|", ""),
    // In any state.
    (4, &[3], "0:h- x3 c3 -x3 s- x3 c3 -x3 h+ x3 c3 -x3", &[0; 12], 12, "", "", ""),
    (4, &[3], "0:S+ x3 c3 h- c3 -x3 h+ S- H+ x3 c3 -x3 H- s- H+ x3 c3 -x3 H- s+ S+ H+ x3 c3 -x3", &[0; 25], 25, "", "", ""),
    // By any core; committed twice; a commit does not end it, a release does not commit.
    (8, &[3], "0:x3 1:1E 2:c3 3:c3 4:-x3 1:c3 5:-x3", &[0, 0, 0, 0, 0, 17, 17], 5, "", "|0|t1.1E", ""),
    (8, &[3], "1:x3 1E c3 c3 2E c3 -x3 c3", &[0, 0, 0, 0, 0, 0, 0, 17], 7, "3 EN 1 at 3, 1 EN 2 at 5, 3 EN 2 at 6", "|0|t1.1E t1.2E", ""),
    (8, &[3], "0:1E x3 1:1E -x3 x3 c3", &[0; 6], 6, "1 EN 3 at 2", "3@0|0|t1.1E", ""),
    // Taken over the locks of the current frame, each by its mode, tries too; not over those of the frame that was interrupted.
    (8, &[7], "0:1E 2r 3R t0E t4r x7", &[0; 6], 6, "1 EN 2 at 2, 1 ER 3 at 3, 2 SR 3 at 3, 1 EN 7 at 6, 2 SN 7 at 6, 3 SN 7 at 6, 0 EN 7 at 6, 4 SN 7 at 6", "7@0|0|", ""),
    (8, &[7], "0:1E S+ 2E x7 H+ x7 3E", &[0, 0, 0, 0, 0, 16, 0], 6, "2 EN 7 at 4", "7@0|1|h0.3E", ""),
    (8, &[7], "0:1E H+ x7 H- -x7", &[0; 5], 5, "", "", ""),
    (8, &[7], "0:1E -1E x7 H+ H- -x7", &[0; 6], 6, "", "", ""),
    (8, &[6, 7], "0:1r x6 x7 -1r", &[0; 4], 4, "1 SN 6 at 2, 1 SN 7 at 3", "6@0 7@0|0|", ""),
    (8, &[7], "0:1E 1:x7 2R 0:2R", &[0; 4], 4, "1 ER 2 at 4", "7@0|2|t1.2R t0.2R", ""),
    // Committed: each acquire of the frame since it was taken, released ones too, by its mode; no tries.
    (8, &[7], "0:x7 1E -1E 2R -2R 3r c7", &[0; 7], 7, "7 EN 1 at 7, 7 ER 2 at 7, 7 EN 3 at 7", "7@0|3|t0.1E t0.2R t0.3r", ""),
    (8, &[7], "0:1E x7 c7", &[0; 3], 3, "1 EN 7 at 2", "7@0|0|", ""),
    (8, &[6, 7], "0:x6 1E x7 2E c7 c6", &[0; 6], 6, "1 EN 7 at 3, 1 EN 2 at 4, 7 EN 2 at 5, 6 EN 1 at 6, 6 EN 2 at 6", "6@0 7@1|2|t0.1E t0.2E", ""),
    (8, &[6, 7], "0:x6 x7 1E -x7 x7 c7 c6", &[0; 7], 7, "1 EN 7 at 5, 6 EN 1 at 7", "6@0 7@1|1|t0.1E", ""),
    (8, &[7], "0:x7 1E -x7 x7 c7 2E c7", &[0; 7], 7, "1 EN 7 at 4, 1 EN 2 at 6, 7 EN 2 at 7", "7@0|1|t0.2E", ""),
    (8, &[7], "0:x7 t1E c7 t2R 3E c7", &[0; 6], 6, "1 EN 3 at 5, 2 SN 3 at 5, 7 EN 3 at 6", "7@0|1|t0.3E", ""),
    (8, &[7], "0:x7 1E -1E 1R -1R c7", &[0; 6], 6, "7 EN 1 at 6, 7 ER 1 at 6", "7@0|2|t0.1E t0.1R", ""),
    (8, &[7], "0:x7 1:1E 2:2E 0:3E 1:c7 0:c7", &[0; 6], 6, "7 EN 1 at 5, 7 EN 3 at 6", "7@0|3|t1.1E t2.2E t0.3E", ""),
    // Crosslock to crosslock is not drawn; over a lock it is taken again: a fault.
    (8, &[5, 6, 7], "0:x5 x6 x7 c5 c6 c7 1E c5 -x5 x5", &[0, 0, 0, 0, 0, 0, 0, 0, 0, 1], 10, "5 EN 1 at 8, 1 EN 5 at 10", "5@1 6@0 7@0|1|t0.1E", "1 EN hold 10, 5 EN hold 8"),
    (8, &[6, 7], "0:1E x6 x7 1:c6 c7 2E c6 c7", &[0; 8], 8, "1 EN 6 at 2, 1 EN 7 at 3, 6 EN 2 at 7, 7 EN 2 at 8", "6@0 7@0|1|t1.2E", ""),
    // Frames and visits.
    (8, &[7], "0:x7 1E -1E S+ 2E -2E c7 H+ 3E -3E c7 H- c7 S- c7", &[0; 15], 15, "7 EN 2 at 7, 7 EN 3 at 11, 7 EN 1 at 15", "7@0|3|t0.1E - -", ""),
    (8, &[7], "0:x7 S+ 1E -1E S- S+ c7 2E -2E c7 S- H+ c7", &[0; 13], 13, "7 EN 2 at 10", "7@0|2|- -", ""),
    (8, &[7], "0:x7 H+ 1R -1R H- H+ c7 2R c7", &[0; 9], 9, "7 ER 2 at 9", "7@0|2|- h0.2R", ""),
    (8, &[7], "0:S+ x7 1E -1E H+ H- c7", &[0; 7], 7, "7 EN 1 at 7", "7@0|1|s0.1E", ""),
    (8, &[7], "0:x7 S+ 1E -1E 1:S+ 2E -2E S- H+ H- 0:c7", &[0; 11], 11, "7 EN 1 at 11", "7@0|2|s0.1E -", ""),
    (8, &[7], "0:x7 S+ 1E S- c7", &[0, 0, 0, 7, 0], 4, "7 EN 1 at 4", "7@0|1|s0.1E", ""),
    (8, &[7], "0:x7 1E -1E S+ S- H+ H- c7", &[0; 8], 8, "7 EN 1 at 8", "7@0|1|t0.1E", ""),
    (8, &[7], "0:S+ 1E -1E S- x7 S+ c7", &[0; 7], 7, "", "7@0|0|", ""),
    (8, &[7], "0:x7 s- H+ 1E -1E H- s+ H+ c7", &[0; 9], 9, "", "7@0|1|-", ""),
    // Of two in progress one released frees nothing; kept only while one is; what is emptied is written over.
    (8, &[6, 7], "0:x6 x7 1E -1E -x7 2E -2E -x6 x7 3E", &[0; 10], 10, "", "7@0|1|t0.3E t0.2E", ""),
    (8, &[7], "0:1E -1E 2E x7 c7", &[0; 5], 5, "2 EN 7 at 4", "7@0|0|", ""),
    (8, &[7], "0:x7 -x7 1E x7 c7 2E -x7 3E", &[0; 8], 8, "1 EN 7 at 4, 1 EN 2 at 6, 1 EN 3 at 8, 2 EN 3 at 8", "|0|t0.2E", ""),
    // Joints at a crosslock are strong; at a lock they may not be.
    (8, &[3], "0:1R x3 1:1R c3", &[0; 4], 4, "1 SN 3 at 2, 3 ER 1 at 4", "3@0|1|t1.1R", ""),
    (8, &[3], "0:1R x3 1:1r c3", &[0, 0, 0, 1], 4, "1 SN 3 at 2, 3 EN 1 at 4", "3@0|1|t1.1r", "1 SN hold 2, 3 EN hold 4"),
    (8, &[3], "0:1E x3 1:1R c3", &[0, 0, 0, 1], 4, "1 EN 3 at 2, 3 ER 1 at 4", "3@0|1|t1.1R", "1 EN hold 2, 3 ER hold 4"),
    (8, &[3], "0:1R x3 1:2R c3 2:2E 1E", &[0, 0, 0, 0, 0, 1], 6, "1 SN 3 at 2, 3 ER 2 at 4, 2 EN 1 at 6", "3@0|3|t1.2R t2.2E t2.1E", "1 SN hold 2, 3 ER hold 4, 2 EN hold 6"),
    // First-seen numbers stay.
    (8, &[3], "0:x3 1E c3 -1E 1R c3", &[0; 6], 6, "3 EN 1 at 3, 3 ER 1 at 3", "3@0|2|t0.1E t0.1R", ""),
    (8, &[3], "0:1E x3 -1E -x3 1r x3", &[0; 6], 6, "1 EN 3 at 2, 1 SN 3 at 2", "3@0|0|", ""),
    // Refused ones between.
    (8, &[3], "0:? x3 x3 c4 1E x4 c3 -x5 -x3 c3", &[3, 0, 16, 15, 0, 15, 0, 15, 0, 17], 4, "3 EN 1 at 3", "|0|t0.1E", ""),
];

fn word_of(classes: &[u8]) -> u64 {
    classes.iter().fold(0, |word, class| word | 1 << class)
}

/// A row as a case, from opening in buffers full of anything.
fn row(rng: &mut Rng, (k, crosslocks, text, answers, count, drawn, rest, slip): Row) -> Case {
    let steps = read(text).into_iter().map(Call::Step);
    let calls: Vec<Call> = [Call::Open(k as u64, word_of(crosslocks))].into_iter().chain(steps).collect();
    let drawing = if drawn.is_empty() { Buffers::opened(k) } else { sketch(k, drawn).buffers() };
    let mut b = any_buffers(rng, k);
    b.slip.fill(99);
    let meant = Meant {
        answers: [&[0], answers].concat(),
        slip: if slip.is_empty() { vec![99] } else { ties::slip(k, slip) },
        sheet: Some(drawing.sheet[..k * k].to_vec()),
        numbers: Some((count, (0..k * k).map(|pair| numbers::number(&drawing.seen, pair)).collect())),
        crosslocks: Some(left(rest)),
        ..Meant::default()
    };
    Case { meant: Some(meant), ..case(b, calls) }
}

fn by_hand(rng: &mut Rng, each: &mut dyn FnMut(Case) -> bool) -> bool {
    ROWS.iter().all(|one| each(row(rng, *one)))
}

/// A desk from elsewhere under way, and what is to come of it.
struct Hand {
    before: Buffers,
    after: Buffers,
    calls: Vec<Call>,
    answers: Vec<u8>,
}

impl Hand {
    fn new(before: Buffers) -> Hand {
        let mut before = before;
        before.slip.fill(99);
        Hand { after: before.clone(), before, calls: Vec::new(), answers: Vec::new() }
    }
    fn step(&mut self, record: Rec, answer: u8) {
        self.calls.push(Call::Step(record));
        self.answers.push(answer);
        if answer < 2 {
            let count = numbers::count(&self.after.desk);
            numbers::set_count(&mut self.after.desk, count + 1);
        }
    }
    /// Drawn by the record that was stepped last.
    fn draw(&mut self, from: usize, to: usize, kind: u8) {
        let pair = from * self.after.k() + to;
        if self.after.sheet[pair] == 0 {
            numbers::set_number(&mut self.after.seen, pair, numbers::count(&self.after.desk));
        }
        self.after.sheet[pair] |= kind;
    }
    fn case(self) -> Case {
        let Buffers { desk, sheet, seen, history, .. } = self.after;
        let pairs = usize::from(desk[0]) * usize::from(desk[0]);
        let left = Left {
            since: classes(in_progress(&desk)).into_iter().map(|class| (class, since(&desk, usize::from(class)))).collect(),
            kept: kept(&desk),
            history: history[..HISTORY].chunks_exact(2).map(|entry| [entry[0], entry[1]]).collect(),
        };
        let meant = Meant {
            answers: self.answers,
            slip: vec![99],
            sheet: Some(sheet[..pairs].to_vec()),
            numbers: Some((numbers::count(&desk), (0..pairs).map(|pair| numbers::number(&seen, pair)).collect())),
            crosslocks: Some(left),
            desk: Some(desk),
            ..Meant::default()
        };
        Case { meant: Some(meant), ..case(self.before, self.calls) }
    }
}

/// Opened with these crosslocks, those in progress since 0, and a history of these entries; behind them anything.
fn elsewhere(rng: &mut Rng, k: usize, crosslocks: &[u8], progress: &[u8], entries: &[[u8; 2]]) -> Buffers {
    let mut b = Buffers::opened(k);
    b.history = rng.bytes(HISTORY + 4);
    set_word(&mut b.desk, DECLARED, word_of(crosslocks));
    set_word(&mut b.desk, PROGRESS, word_of(progress));
    set_kept(&mut b.desk, entries.len());
    for (bytes, entry) in b.history.chunks_exact_mut(2).zip(entries) {
        bytes.copy_from_slice(entry);
    }
    b
}

/// Each kind in each state, over a lock held in each mode that has no marks yet, and one of the frame below: it is marked, and taken
/// over it is drawn.
fn each_state(rng: &mut Rng, each: &mut dyn FnMut(Case) -> bool) -> bool {
    let mut all = (0..9u8).flat_map(|state| (0..6u8).flat_map(move |mode| (10..13u8).map(move |kind| (state, mode, kind))));
    let mut turn = 0;
    all.all(|(state, mode, kind)| {
        turn += 1;
        let core = turn % 8;
        let frame = 3 * core + FRAME[usize::from(state)];
        let mut b = elsewhere(rng, 4, &[3], if kind == 10 { &[] } else { &[3] }, &[]);
        b.desk[STATES + core] = state;
        push(&mut b.desk, frame, 1 + 64 * (mode % 3), mode > 2);
        if state > 3 {
            push(&mut b.desk, 3 * core, 2, false);
        }
        // Another core's lock stays without marks.
        push(&mut b.desk, 3 * ((core + 1) % 8), 2, false);
        set_since(&mut b.desk, 3, 77);
        let mut hand = Hand::new(b);
        hand.step(Rec::new(core as u8, kind, 3, 0), 0);
        hand.after.desk[MARKS + 1] = clashes::marks_of(state, mode);
        if kind == 10 {
            hand.draw(1, 3, if mode % 3 == 0 { EN } else { SN });
            set_since(&mut hand.after.desk, 3, 0);
        }
        set_word(&mut hand.after.desk, PROGRESS, if kind == 12 { 0 } else { 8 });
        each(hand.case())
    })
}

/// An acquire kept in each frame, committed in each: drawn in the same one alone. In each mode in turn.
fn each_frame(rng: &mut Rng, each: &mut dyn FnMut(Case) -> bool) -> bool {
    (0..FRAMES).flat_map(|kept| (0..FRAMES).map(move |here| (kept, here))).all(|(kept, here)| {
        let mode = ((kept + here) % 3) as u8;
        let mut b = elsewhere(rng, 4, &[3], &[3], &[[1 + kept as u8, 1 + 64 * mode]]);
        let core = here / 3;
        b.desk[STATES + core] = [0, 4, 8][here % 3];
        let mut hand = Hand::new(b);
        hand.step(Rec::new(core as u8, 11, 3, 0), 0);
        if kept == here {
            hand.draw(3, 1, if mode == 2 { ER } else { EN });
        }
        each(hand.case())
    })
}

/// Each of 64 classes: taken with some kept, committed, released, and its neighbours not in progress.
fn each_class(rng: &mut Rng, each: &mut dyn FnMut(Case) -> bool) -> bool {
    (0..64u8).flat_map(|class| [1, 2, 64].map(|k| (class, k))).filter(|(class, k)| usize::from(*class) < *k).all(|(class, k)| {
        let other = (class + 1) % k as u8;
        let crosslocks = if k == 1 { vec![class] } else { vec![class, other] };
        let mut b = elsewhere(rng, k, &crosslocks, &crosslocks[1..], &[[0, 0], [1, 0]]);
        (0..64).for_each(|class| set_since(&mut b.desk, class, 100 + class as u32));
        let mut hand = Hand::new(b);
        hand.step(Rec::new(0, 11, class, 0), 17);
        hand.step(Rec::new(0, 10, class, 0), 0);
        set_since(&mut hand.after.desk, usize::from(class), 2);
        hand.step(Rec::new(1, 10, class, 0), 16);
        hand.step(Rec::new(2, 11, class, 0), 0);
        if class % 2 == 0 {
            hand.step(Rec::new(3, 12, class, 0), 0);
            hand.step(Rec::new(3, 12, class, 0), 17);
            if k == 1 {
                set_kept(&mut hand.after.desk, 0);
            }
        } else {
            set_word(&mut hand.after.desk, PROGRESS, word_of(&crosslocks));
        }
        each(hand.case())
    })
}

/// A since number below the kept count, at it and above it, by each of its bytes: drawn from the entries from it on.
fn each_since(rng: &mut Rng, each: &mut dyn FnMut(Case) -> bool) -> bool {
    let kept = [0, 1, 2, 128, 254, 255, 256];
    let since = [0, 1, 2, 127, 128, 253, 254, 255, 256, 257, 511, 512, 65_535, 65_536, 0x0100_0000, 0x8000_0000, FULL];
    kept.into_iter().flat_map(|kept| since.map(|since| (kept, since))).all(|(kept, since)| {
        // Of another class each, up to 60, in core 5's task; every third in another frame.
        let entry = |at: usize| match at % 3 {
            2 => [[0, 0], [17, 2], [19, 2]][at % 9 / 3],
            _ => [16, (at % 60 + 64 * (at / 60 % 3)) as u8],
        };
        let entries: Vec<[u8; 2]> = (0..kept).map(entry).collect();
        let mut b = elsewhere(rng, 64, &[62, 63], &[62, 63], &entries);
        set_since(&mut b.desk, 62, since);
        set_since(&mut b.desk, 63, since);
        let mut hand = Hand::new(b);
        hand.step(Rec::new(5, 11, 62, 0), 0);
        for [place, lock] in entries.into_iter().skip(since as usize) {
            if place == 16 {
                hand.draw(62, usize::from(lock % 64), if lock >= 128 { ER } else { EN });
            }
        }
        each(hand.case())
    })
}

/// An exit of each handler: what is kept of its frame is struck out, below the kept count alone.
fn struck_out(rng: &mut Rng, each: &mut dyn FnMut(Case) -> bool) -> bool {
    let frames = (0..FRAMES).filter(|frame| frame % 3 > 0);
    let mut all = frames.flat_map(|frame| [0, 1, 24, 47, 48, 129, 255, 256].map(|kept| (frame, kept)));
    all.all(|(frame, kept)| {
        let (core, hard) = (frame / 3, frame % 3 == 2);
        let mut b = elsewhere(rng, 3, &[2], if kept % 2 == 0 { &[2] } else { &[] }, &[]);
        set_kept(&mut b.desk, kept);
        for (at, entry) in b.history[..HISTORY].chunks_exact_mut(2).enumerate() {
            // Behind the kept count too, and classes there that do not fit.
            let lock = if at < kept { at % 2 + 64 * (at / 5 % 3) } else { 199 };
            let place = if at >= kept || at % 7 == 0 { 1 + frame } else { (at * 11) % 25 };
            entry.copy_from_slice(&[place as u8, if place == 0 { 0 } else { lock as u8 }]);
        }
        // A hard handler over a soft one, now and then.
        b.desk[STATES + core] = match hard {
            true => [6, 7, 8][kept % 3],
            false => 4,
        };
        let mut hand = Hand::new(b);
        hand.step(Rec::new(core as u8, if hard { 9 } else { 7 }, 0, 0), 0);
        hand.after.desk[STATES + core] = match hard {
            true => [0, 1, 4][kept % 3],
            false => 0,
        };
        for entry in hand.after.history.chunks_exact_mut(2).take(kept).filter(|entry| usize::from(entry[0]) == 1 + frame) {
            entry.fill(0);
        }
        each(hand.case())
    })
}

/// From opening: 16 in progress, and a history of 256.
fn full_lists(rng: &mut Rng, each: &mut dyn FnMut(Case) -> bool) -> bool {
    let of = |classes: std::ops::Range<u8>| classes.map(|class| format!("x{class} ")).collect::<String>();
    let seventeen: Vec<u8> = (0..17).collect();
    let taken: Vec<u8> = (0..15).collect();
    let since = |classes: &[u8]| classes.iter().map(|class| format!("{class}@0 ")).collect::<String>();
    let sixteen = "0:".to_string() + &of(0..16);
    // 16 before 18; a lock may be acquired, and with one released another may be taken.
    let text = sixteen.clone() + "x16 x0 x15 17E c3 -x16 -x5 x16 x5 x0";
    let answers = [&[0; 16][..], &[18, 16, 16, 0, 0, 17, 0, 0, 18, 16]].concat();
    let but_5: Vec<u8> = (0..16).filter(|&class| class != 5).collect();
    let rest = since(&but_5) + "16@1 |1|t0.17E";
    let list = row(rng, (20, &seventeen, &text, &answers, 20, "3 EN 17 at 18, 17 EN 16 at 20", &rest, ""));
    let fifteen = row(rng, (20, &seventeen, &("0:".to_string() + &of(0..15) + "x16 x15"), &[&[0; 16][..], &[18]].concat(), 16, "", &(since(&taken) + "16@0 |0|"), ""));
    let one = "1R -1R ".repeat(256);
    let entries = "t0.1R ".repeat(256);
    let kept = |n: usize| "t0.1R ".repeat(n);
    // 19 for an acquire to be kept, and the lock is not held; tries go on; nothing is free until none is in progress.
    let text = format!("0:x7 {one}1E -1E t1E x6 2E c6 c7 -x7 2E -x6 2E");
    let answers = [&[0; 513][..], &[19, 5, 0, 0, 19, 0, 0, 0, 19, 0, 0]].concat();
    let full = row(rng, (8, &[6, 7], &text, &answers, 520, "1 EN 6 at 515, 7 ER 1 at 517, 1 EN 2 at 520", &format!("|0|{entries}"), ""));
    // The second crosslock since 255, the last byte's number.
    let text = format!("0:x7 {}x6 2r -2r c6 c7 3E", "1R -1R ".repeat(255));
    let answers = [&[0; 516][..], &[19]].concat();
    let last = row(rng, (8, &[6, 7], &text, &answers, 516, "6 EN 2 at 515, 7 ER 1 at 516, 7 EN 2 at 516", &format!("6@255 7@0|256|{}t0.2r", kept(255)), ""));
    // Since 256, one more than a byte holds: nothing comes behind it.
    let text = format!("0:x7 {one}x6 c6 1:c6 0:c7 -x7 c6");
    let over = row(rng, (8, &[6, 7], &text, &[0; 519], 519, "7 ER 1 at 517", &format!("6@256|256|{entries}"), ""));
    // Of all cores; with none in progress nothing is kept.
    let by_cores: String = (0..256).map(|at| format!("{}:1R -1R ", at % 8)).collect();
    let entries: String = (0..256).map(|at| format!("t{}.1R ", at % 8)).collect();
    let text = format!("{by_cores}0:x7 {by_cores}5:1R 0:-x7 5:1R");
    let answers = [&[0; 1025][..], &[19, 0, 0]].concat();
    let cores = row(rng, (8, &[7], &text, &answers, 1027, "", &format!("|0|{entries}"), ""));
    [list, fifteen, full, last, over, cores].into_iter().all(each)
}

/// An acquire in each mode, and each kind of crosslocks: in a full frame or not, with a full history or not, with a full list or not,
/// in progress or not, at the last count or not. What is refused first is worked out here.
fn first_refusal(rng: &mut Rng, each: &mut dyn FnMut(Case) -> bool) -> bool {
    let records = (0..6u8).map(|mode| (0, 17, mode)).chain([(10, 0, 0), (10, 16, 0), (11, 0, 0), (11, 16, 0), (12, 0, 0), (12, 16, 0)]);
    let records = records.chain([(0, 0, 0), (0, 0, 5), (1, 0, 0), (10, 17, 0), (12, 17, 0), (10, 18, 0), (10, 0, 1), (13, 0, 0), (1, 17, 0)]);
    let mut all = records.flat_map(|record| (0..64u32).map(move |with| (record, with)));
    all.all(|((kind, class, mode), with)| {
        let has = |bit: u32| with >> bit & 1 == 1;
        let (full_frame, full_history, in_list, full_list, last_count, closed) = (has(0), has(1), has(2), has(3), has(4), has(5));
        // A malformed one on a closed desk is left to demand 3's pairs.
        if closed && (kind == 13 || kind == 10 && mode == 1) {
            return true;
        }
        // Classes 0 to 16 are crosslocks; 16 is not in progress.
        let progress: Vec<u8> = match (in_list, full_list) {
            (false, false) => vec![],
            (true, false) => vec![0],
            (true, true) => (0..16).collect(),
            (false, true) => (1..16).chain([16]).collect(),
        };
        let kept = if full_history { MOST_KEPT } else { MOST_KEPT - 1 };
        let mut b = elsewhere(rng, 18, &(0..17).collect::<Vec<u8>>(), &progress, &vec![[0; 2]; kept]);
        b.desk[STATES + 6] = 3;
        (0..if full_frame { DEEPEST } else { 0 }).for_each(|_| push(&mut b.desk, 18, 17 + 128, true));
        numbers::set_count(&mut b.desk, if last_count { FULL } else { 70_000 });
        b.desk[1] = u8::from(closed);
        let mut hand = Hand::new(b);
        let listed = progress.contains(&class);
        let answer = match (kind, class) {
            _ if closed => 10,
            _ if kind == 13 || kind == 10 && mode == 1 => 3,
            (_, 18..) => 4,
            (0 | 1, 0..=16) | (10.., 17) => 15,
            (1, _) if full_frame => 5,
            (1, _) => 5,
            (0, _) if full_frame => 8,
            (0, _) if mode < 3 && !progress.is_empty() && full_history => 19,
            (10, _) if listed => 16,
            (11 | 12, _) if !listed => 17,
            (10, _) if progress.len() == 16 => 18,
            _ if last_count => 9,
            _ => 0,
        };
        hand.step(Rec::new(6, kind, class, mode), answer);
        if answer == 0 {
            let desk = &mut hand.after.desk;
            match kind {
                0 => {
                    push(desk, 18, 17 + 64 * (mode % 3), mode > 2);
                    if mode < 3 && !progress.is_empty() {
                        set_kept(desk, kept + 1);
                        hand.after.history[2 * kept..2 * kept + 2].copy_from_slice(&[19, 17 + 64 * mode]);
                    }
                }
                10 => {
                    set_word(desk, PROGRESS, word_of(&progress) | 1 << class);
                    set_since(desk, usize::from(class), kept as u32);
                    if full_frame {
                        hand.draw(17, usize::from(class), SN);
                    }
                }
                12 => {
                    let rest = word_of(&progress) & !(1 << class);
                    set_word(desk, PROGRESS, rest);
                    if rest == 0 {
                        set_kept(desk, 0);
                    }
                }
                _ => {}
            }
        }
        each(hand.case())
    })
}

/// At each limit of the fit test, one below and one past it: a question, an event, and once more with a shorter history.
fn each_limit(rng: &mut Rng, each: &mut dyn FnMut(Case) -> bool) -> bool {
    let mut fits = |mut b: Buffers, of_desk: bool, of_history: bool| {
        b.slip.fill(99);
        let (ask, step) = (if of_desk { 0 } else { 11 }, if of_desk && of_history { 0 } else { 11 });
        let calls = vec![Call::Ask(0), Call::Step(Rec::new(2, 3, 0, 0)), Call::Ask(0)];
        let meant = Meant { answers: vec![ask, step, ask], slip: vec![99], ..Meant::default() };
        each(Case { meant: Some(meant), ..case(b, calls) })
    };
    let rng = &mut *rng;
    // Declared.
    for k in 1..=64usize {
        for class in [0, k - 1, k, k + 1, 63].into_iter().filter(|&class| class < 64) {
            if !fits(elsewhere(rng, k, &[class as u8], &[], &[]), class < k, true) {
                return false;
            }
            // In progress, declared or not.
            if class < k {
                let other: &[u8] = if k > 1 && class == 0 { &[1] } else { &[] };
                if !fits(elsewhere(rng, k, &[class as u8], &[class as u8], &[]), true, true)
                    || !fits(elsewhere(rng, k, other, &[class as u8], &[]), false, true)
                {
                    return false;
                }
            }
        }
    }
    // So many in progress, from the first class on, up to the last, and every third.
    for n in 0..=21usize {
        for (from, by) in [(0, 1), (64 - n.max(1), 1), (1, 3)] {
            let all: Vec<u8> = (0..n).map(|at| (from + by * at) as u8).collect();
            if !fits(elsewhere(rng, 64, &all, &all, &[]), n <= 16, true) {
                return false;
            }
        }
    }
    // So many kept, with and without one in progress.
    for kept in [0, 1, 2, 254, 255, 256, 257, 258, 300, 511, 512, 513, 65_536, 65_537, 1 << 24, (1 << 24) + 1, 1 << 31, FULL] {
        for progress in [&[][..], &[3]] {
            let mut b = elsewhere(rng, 4, &[3], progress, &[[0; 2]; MOST_KEPT]);
            set_four(&mut b.desk, KEPT_COUNT, kept);
            if !fits(b, kept <= 256, true) {
                return false;
            }
        }
    }
    // The history's length, with none kept too.
    for size in [0, 1, 2, 255, 256, 257, 510, 511, 512, 513, 600] {
        for kept in [0, 1, 255, 256] {
            let mut b = elsewhere(rng, 4, &[3], &[3], &vec![[24, 130]; kept]);
            b.history.resize(size, 0xEE);
            if !fits(b, true, size >= HISTORY) {
                return false;
            }
        }
    }
    // An entry that does not fit, with one in progress and with none.
    for progress in [&[][..], &[3]] {
        for entry in [[25, 0], [0, 1]] {
            if !fits(elsewhere(rng, 4, &[3], progress, &[[0; 2], entry]), true, false) {
                return false;
            }
        }
    }
    // Fit: locks, marks, dependencies and kept acquires of a crosslock, since numbers of all sorts, kept ones with none in progress.
    for what in 0..6 {
        let mut b = elsewhere(rng, 4, &[1, 3], &[3], &[[24, 1 + 128], [1, 3], [0, 0]]);
        match what {
            0 => push(&mut b.desk, 0, 3, false),
            1 => b.desk[MARKS + 3] = 68,
            2 => (b.sheet[3], b.sheet[13]) = (2, 4),
            3 => (0..64).for_each(|class| set_since(&mut b.desk, class, FULL - class as u32)),
            4 => set_word(&mut b.desk, PROGRESS, 0),
            _ => set_word(&mut b.desk, PROGRESS, 10),
        }
        numbers::usual(&mut b);
        if !fits(b, true, true) {
            return false;
        }
    }
    true
}

/// Each place byte and each second byte, of the first entry, of the last kept and of the first behind it.
fn history_bytes(rng: &mut Rng, each: &mut dyn FnMut(Case) -> bool) -> bool {
    let entries = (0..=255u8).map(|place| [place, 2]).chain((0..=255).map(|place| [place, 0])).chain((0..=255).map(|lock| [7, lock]));
    let mut all = entries.chain((0..=255).map(|lock| [0, lock])).flat_map(|entry| [(0, 1), (255, 256), (200, 256), (9, 9), (0, 0)].map(|at| (entry, at)));
    all.all(|([place, lock], (at, kept))| {
        let k = [3, 8, 63, 64][usize::from(lock ^ place) % 4];
        let mut b = elsewhere(rng, k, &[1], &[1], &vec![[0; 2]; kept]);
        b.history[2 * at..2 * at + 2].copy_from_slice(&[place, lock]);
        let fit = match place {
            _ if at >= kept => true,
            0 => lock == 0,
            1..=24 => usize::from(lock % 64) < k && lock < 192,
            _ => false,
        };
        b.slip.fill(99);
        let calls = vec![Call::Step(Rec::new(2, 3, 0, 0)), Call::Ask(0)];
        let left = Left { since: vec![(1, 0)], kept, history: Vec::new() };
        let meant = Meant { answers: vec![if fit { 0 } else { 11 }, 0], slip: vec![99], crosslocks: Some(left), ..Meant::default() };
        each(Case { meant: Some(meant), ..case(b, calls) })
    })
}

/// Each K with a word that fits, that has a class of K or more, and with a history too short.
fn openings(rng: &mut Rng, each: &mut dyn FnMut(Case) -> bool) -> bool {
    let ks = (0..=66u64).chain([255, 256, 1 << 32, u64::MAX]);
    let mut all = ks.flat_map(|k| (0..10).map(move |what| (k, what)));
    all.all(|(k, what)| {
        let size = k.clamp(1, 64) as usize;
        let below = u64::MAX >> (64 - size);
        let (word, length) = match what {
            0 => (0, HISTORY),
            1 => (below, HISTORY + 1),
            2 => (1 << (size - 1), HISTORY),
            3 => (1u64.checked_shl(size as u32).unwrap_or(0), HISTORY),
            4 => (u64::MAX, HISTORY),
            5 => (1 << 63, HISTORY),
            6 => (0, HISTORY - 1),
            7 => (below, HISTORY - 1),
            8 => (1, 0),
            _ => (0x8000_0000_0000_0001 & below, HISTORY),
        };
        let mut b = Buffers::any(rng, sizes(size));
        b.history = rng.bytes(length);
        b.slip.fill(99);
        let good = (1..=64).contains(&k) && word & !below == 0 && length >= HISTORY;
        let mut calls = vec![Call::Open(k, word)];
        let mut answers = vec![if good { 0 } else { 2 }];
        if good {
            // Class 0 as a crosslock, and as a lock.
            let crosslock = word & 1 == 1;
            calls.extend([Rec::new(3, 10, 0, 0), Rec::new(3, 0, 0, 0)].map(Call::Step));
            answers.extend(if crosslock { [0, 15] } else { [15, 0] });
        }
        let meant = Meant { answers, slip: vec![99], ..Meant::default() };
        each(Case { meant: Some(meant), ..case(b, calls) })
    })
}

/// So many visits, and then one more that commits.
fn visit_text(enter: &str, exit: &str, more: usize) -> String {
    format!("0:x3 {enter} 1E -1E {exit} {}{enter} c3 2E -2E c3", format!("{enter} {exit} ").repeat(more))
}

fn some_visits(rng: &mut Rng, each: &mut dyn FnMut(Case) -> bool) -> bool {
    let mut all = [("S+", "S-", "s0"), ("H+", "H-", "h0")].into_iter().flat_map(|handler| [0, 1, 126, 127, 254, 255, 256, 511].map(|more| (handler, more)));
    all.all(|((enter, exit, frame), more)| {
        let count = 5 + 2 * more as u32 + 5;
        let drawn = format!("3 EN 2 at {count}");
        let text = visit_text(enter, exit, more);
        let answers = vec![0; count as usize];
        each(row(rng, (4, &[3], &text, &answers, count, &drawn, &format!("3@0|2|- {frame}.2E"), "")))
    })
}

/// 65,536 visits after the first, with commits in the last two.
fn many_visits(rng: &mut Rng, each: &mut dyn FnMut(Case) -> bool) -> bool {
    let text = format!("0:x3 S+ 1E -1E S- {}S+ c3 S- S+ c3 S- S+ c3", "S+ S- ".repeat(65_534));
    let count = 5 + 2 * 65_534 + 8;
    each(row(rng, (4, &[3], &text, &vec![0; count], count as u32, "", "3@0|1|-", "")))
}

/// Two lists as one text, with + before each record that the second alone has; the crosslocks of the first and of the second; whether
/// demand 3 speaks of them; and the answers of the second and of the first.
type Lists = (&'static [u8], &'static [u8], &'static str, bool, &'static [u8], &'static [u8]);

#[rustfmt::skip]
const LISTS: [Lists; 20] = [
    // The completion, alone and with acquires of others put in.
    (&[3], &[3], "0:1E 0:x3 1:1E 1:c3", true, &[0, 0, 0, 1], &[0, 0, 0, 1]),
    (&[3], &[3], "0:1E +2:2E 0:x3 +2:-2E 1:1E +2:4R 1:c3 +2:h-", true, &[0, 0, 0, 0, 0, 0, 1, 10], &[0, 0, 0, 1]),
    (&[3], &[3], "+2:1E 0:1E +2:-1E 0:x3 +2:1E 1:1E 1:c3", true, &[0, 0, 0, 0, 0, 0, 1], &[0, 0, 0, 1]),
    // Why no record of crosslocks may be put in: released meanwhile, taken before, and the fault is gone.
    (&[3], &[3], "0:1E 0:x3 +2:-x3 1:1E 1:c3", false, &[0, 0, 0, 0, 17], &[0, 0, 0, 1]),
    (&[3], &[3], "+2:x3 0:1E 0:x3 1:1E 1:c3", false, &[0, 0, 16, 0, 0], &[0, 0, 0, 1]),
    (&[3], &[3], "0:1E 0:x3 1:1E +2:-x3 +2:x3 1:c3", false, &[0, 0, 0, 0, 0, 0], &[0, 0, 0, 1]),
    (&[3], &[3], "0:1E 0:x3 1:1E +2:c3 1:c3", false, &[0, 0, 0, 0, 1], &[0, 0, 0, 1]),
    // Refused ones neither; malformed ones may be, and name no core.
    (&[3], &[3], "0:1E 0:x3 +2:x4 1:1E 1:c3", false, &[0, 0, 15, 0, 1], &[0, 0, 0, 1]),
    (&[3], &[3], "0:1E 0:x3 +2:x8 1:1E 1:c3", false, &[0, 0, 4, 0, 1], &[0, 0, 0, 1]),
    (&[3], &[3], "0:1E 0:x3 +2:x3 1:1E 1:c3", false, &[0, 0, 16, 0, 1], &[0, 0, 0, 1]),
    (&[3], &[3], "0:1E 0:x3 +0:x? 1:1E +1:x? 1:c3", true, &[0, 0, 3, 0, 3, 1], &[0, 0, 0, 1]),
    (&[3], &[3], "0:x? +0:1E +0:2E 1:x3 1:c3", true, &[3, 0, 0, 0, 0], &[3, 0, 0]),
    // Why both must declare the same.
    (&[3], &[], "0:1E 0:x3 1:1E 1:c3", false, &[0, 15, 0, 15], &[0, 0, 0, 1]),
    (&[3], &[1, 3], "0:1E 0:x3 1:1E 1:c3", false, &[15, 0, 15, 0], &[0, 0, 0, 1]),
    (&[3], &[3, 5], "0:1E 0:x3 1:1E 1:c3", false, &[0, 0, 0, 1], &[0, 0, 0, 1]),
    // A fault of the second alone, over what was put in.
    (&[3], &[3], "+2:5E +2:1E 0:1E 0:x3 1:5E 1:c3", true, &[0, 0, 0, 0, 0, 1], &[0, 0, 0, 0]),
    (&[3], &[3], "0:1E 0:x3 1:5E 1:c3 +2:5E +2:1E", true, &[0, 0, 0, 0, 0, 1], &[0, 0, 0, 0]),
    // No fault of either: what others acquire is not committed, and their visits end none.
    (&[3], &[3], "0:x3 +2:1E 0:2E +2:S+ +2:S- 0:c3 +2:4E", true, &[0, 0, 0, 0, 0, 0, 0], &[0, 0, 0]),
    (&[3], &[3], "0:x3 0:S+ 0:1E 0:-1E +2:S+ +2:1E +2:-1E +2:S- 0:c3 0:x3 0:-x3 0:-x3", true, &[0, 0, 0, 0, 0, 0, 0, 0, 0, 16, 0, 17], &[0, 0, 0, 0, 0, 16, 0, 17]),
    (&[3, 4], &[3, 4], "0:x3 +1:1E 0:x4 0:-x3 +1:-1E 0:2E 0:c4 0:c3", true, &[0, 0, 0, 0, 0, 0, 0, 17], &[0, 0, 0, 0, 0, 17]),
];

fn in_pairs(rng: &mut Rng, each: &mut dyn FnMut(Case) -> bool) -> bool {
    let mut pair = |text: &str, declared: [u64; 2], claimed: bool, answers: Vec<u8>| {
        let in_first = text.split_whitespace().map(|word| !word.starts_with('+')).collect();
        let words: Vec<&str> = text.split_whitespace().map(|word| word.strip_prefix('+').unwrap_or(word)).collect();
        let calls = read(&words.join(" ")).into_iter().map(Call::Step).collect();
        let meant = Some(Meant { answers, not_claimed: !claimed, ..Meant::default() });
        each(Case { pair: Some(Pair { k: 8, declared, in_first }), meant, ..case(any_buffers(rng, 8), calls) })
    };
    let by_hand = LISTS.iter().all(|(first, second, text, claimed, answers, of_first)| {
        pair(text, [word_of(first), word_of(second)], *claimed, [*answers, *of_first].concat())
    });
    // Why neither list may meet 19: a history filled by another core, and the fault is gone; one short of it, and it stays.
    by_hand
        && [(255, true), (256, false)].into_iter().all(|(filled, claimed)| {
            let text = format!("0:1E 0:x3 {}1:1E 1:c3", "+2:2R +2:-2R ".repeat(filled));
            let last = if claimed { [0, 1] } else { [19, 0] };
            pair(&text, [8; 2], claimed, [&vec![0; 2 + 2 * filled][..], &last, &[0, 0, 0, 1]].concat())
        })
}

type Make = fn(&mut Rng, &mut dyn FnMut(Case) -> bool) -> bool;

/// The cases, until one is answered with false.
pub fn fixed(each: &mut dyn FnMut(Case) -> bool) {
    const ALL: [(&str, Make); 14] = [
        (BY_HAND, by_hand),
        (EACH_STATE, each_state),
        (EACH_FRAME, each_frame),
        (EACH_CLASS, each_class),
        (EACH_SINCE, each_since),
        (STRUCK_OUT, struck_out),
        (FIRST_REFUSAL, first_refusal),
        (FULL_LISTS, full_lists),
        (EACH_LIMIT, each_limit),
        (HISTORY_BYTES, history_bytes),
        (OPENINGS, openings),
        (VISITS, some_visits),
        (IN_PAIRS, in_pairs),
        (MANY_VISITS, many_visits),
    ];
    let rng = &mut Rng::new(20_260_106);
    ALL.iter().all(|(name, make)| make(rng, &mut |case| each(Case { name, ..case })));
}
