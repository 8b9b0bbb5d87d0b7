//! An independent second program for the lock log judge.
//!
//! Written from the documents alone (01, "What will be built, and the rules", and
//! of 02 "A try never waits", "Logs arrive in pieces", "Show the shortest circle",
//! "Clash of one class by table", "Where was this arrow first seen?", "Balance of a piece",
//! "Deeper nesting", "Strict release", "Two benches, one drawing", "Crosslocks" and "Order of
//! the merge must not matter", with the layouts and fit tests of the feed, of the desk's last
//! bytes and of the history as they were handed over), to be compared byte for byte with the
//! proved library. Sentences in quotation marks are the documents'.
//!
//! How closed strong paths are decided: a path is a walk over *arrivals*, an
//! arrival being a class together with the second letter (N or R) of the arrow
//! that led there. "It is strong when no arrow ending in R is followed by one
//! beginning with S; a closed path must be strong at its closing joint too", so
//! a closed strong path is exactly a cycle among arrivals. Whether there is a
//! cycle is found by *peeling*: arrivals without a remaining successor are taken
//! away until none can be; a cycle exists exactly if something remains.
//!
//! How the circle shown is chosen: see [`least_circle`].
//!
//! The list of request d, [`CLASHES`], stands beside the search, which doesn't read it:
//! "No answer and no byte changes." The tests hold the one against the other.
//!
//! The numbers of request e, in the second sheet, are written by [`step`] and shown by the
//! slip; [`first_seen`] works them out from the list of records alone, with books of its
//! own, and neither reads the other. For a joined desk, [`Books::joined`] does the same
//! beside [`join`].
//!
//! The crosslocks of request j are unpacked from desk and history into plain values
//! ([`Crosslocks`]), changed there and packed again. [`Books`] keeps them another way: with
//! each crosslock in progress the takes since then, each with the number of its visit.
//!
//! Request k changes nothing that is public. For its tests there are the lists of each core and
//! their merges, and beside the search [`broken_rules`], which doesn't know strong paths.
#![forbid(unsafe_code)]

use std::collections::{BTreeMap, BTreeSet};
use std::ffi::{OsStr, OsString};
use std::fs::File;
use std::io::{BufReader, ErrorKind, Read, Write};

// ---------------------------------------------------------------- the bench

/// "Sheet, K x K bytes".
pub fn sheet_len(k: usize) -> usize {
    k.saturating_mul(k)
}

/// "A second sheet of 4 x K x K bytes".
pub fn seen_len(k: usize) -> usize {
    sheet_len(k).saturating_mul(WORD)
}

/// "the slip is 1 + 7K".
pub fn slip_len(k: usize) -> usize {
    k.saturating_mul(ENTRY).saturating_add(1)
}

const WORD: usize = 4; // "a four-byte count", and numbers alike
pub const ENTRY: usize = 3 + WORD; // "Each slip arrow grows to seven bytes"

const MAX_K: usize = 64; // "K is the number of classes, 1 to 64"
pub const CORES: usize = 8; // "There are 8 cores."
pub const FRAMES: usize = 3 * CORES; // task, soft, hard of each core
pub const DEEPEST: usize = 48; // 02 g: "Raise the limit to 48 per frame."
const PLACES: usize = FRAMES * DEEPEST;

// Where things lie on the desk.
pub const STATES: usize = 2; // "bytes 2-9 each core's state 0-8"
pub const DEPTHS: usize = STATES + CORES; // "bytes 10-33 hold depths (core 0 task, soft, hard, then core 1 and so on)"
pub const MARKS: usize = DEPTHS + FRAMES; // "bytes 34-97 marks by class"
pub const HOLDS: usize = MARKS + MAX_K; // from 98 on; 02 g: "The holds take 1,152 bytes"
pub const ORIGINS: usize = HOLDS + PLACES; // from 1,250 on, "one bit per hold place in order"; 02 g: "and the origin bits 144"
pub const COUNT: usize = ORIGINS + PLACES.div_ceil(8); // from 1,394 on, "a four-byte count of accepted records after its other bytes"
pub const DECLARED: usize = COUNT + WORD; // from 1,398 on, the declared word: bit c for class c
pub const PROGRESS: usize = DECLARED + 8; // from 1,406 on, the progress word, alike
pub const KEPT_COUNT: usize = PROGRESS + 8; // from 1,414 on, how many entries of the history are taken
pub const SINCE: usize = KEPT_COUNT + WORD; // from 1,418 on, for each class what the kept count was at its last take
pub const DESK: usize = SINCE + WORD * MAX_K; // 1,674 bytes

pub const MOST_IN_PROGRESS: usize = 16; // 02 j: "a list of up to 16 in progress, each class once"
pub const MOST_KEPT: usize = 256; // 02 j: "kept in a lent history of 256"
const KEPT_ENTRY: usize = 2; // a place byte, and class + 64 x mode
pub const HISTORY: usize = MOST_KEPT * KEPT_ENTRY; // 512 bytes

// "Kinds: 0 take, 1 release, .. 7 exit soft, .. 9 exit hard."
const TAKE: u8 = 0;
const RELEASE: u8 = 1;
const EXIT_SOFT: u8 = 7;
const EXIT_HARD: u8 = 9;
// "Three new kinds with mode 0, 10 to 12: take, commit, release of a crosslock."
const TAKE_CROSSLOCK: u8 = 10;
const COMMIT: u8 = 11;
const RELEASE_CROSSLOCK: u8 = 12;

// "Modes of a take: 0 exclusive, 1 non-recursive read, 2 recursive read."
const EXCLUSIVE: u8 = 0;
const RECURSIVE: u8 = 2;
// "Modes 3, 4 and 5 become a successful try for exclusive, read and recursive read."
const TRY: u8 = 3;
const LAST_MODE: u8 = TRY + RECURSIVE;

// "the sum of the arrow kinds seen: ER 1, EN 2, SR 4, SN 8"
const ER: u8 = 1;
const EN: u8 = 2;
const SR: u8 = 4;
const SN: u8 = 8;

fn begins_with_s(kind: u8) -> bool {
    kind == SR || kind == SN
}

fn ends_with_r(kind: u8) -> bool {
    kind == ER || kind == SR
}

// ------------------------------------------------------------------ opening

/// Opening writes K and the declared word, zero in the other desk bytes up to 1,673, in the
/// sheet's K x K bytes, the second sheet's 4 x K x K bytes and the history's 512. Answers 0,
/// or 2: K not 1-64, "a declared class of K or more", desk under 1,674, sheet under K x K,
/// second sheet under 4 x K x K, or history under 512, "nothing changed".
pub fn open(
    k: u64,
    declared: u64,
    desk: &mut [u8],
    sheet: &mut [u8],
    seen: &mut [u8],
    history: &mut [u8],
) -> u8 {
    if k < 1 || k > MAX_K as u64 {
        return 2;
    }
    if classes_of(declared).iter().any(|&c| u64::from(c) >= k) {
        return 2;
    }
    if history.len() < HISTORY || !fresh(k as usize, declared, desk, sheet, seen) {
        return 2;
    }
    history[..HISTORY].fill(0);
    0
}

/// A desk and sheets with nothing on them but K and the declared word. False, and nothing
/// changed, if one of them is too short.
fn fresh(k: usize, declared: u64, desk: &mut [u8], sheet: &mut [u8], seen: &mut [u8]) -> bool {
    let (size, seen_size) = (sheet_len(k), seen_len(k));
    if desk.len() < DESK || sheet.len() < size || seen.len() < seen_size {
        return false;
    }
    desk[..DESK].fill(0);
    desk[0] = k as u8;
    desk[DECLARED..PROGRESS].copy_from_slice(&declared.to_le_bytes());
    sheet[..size].fill(0);
    seen[..seen_size].fill(0);
    true
}

// -------------------------------------------------------------------- unfit

/// Every name that [`unfit`] can give, in the order in which it looks.
pub const CLAUSES: [&str; 23] = [
    "desk too short",
    "K not 1-64",
    "sheet too short",
    "slip too short",
    "byte 1 over 1",
    "state over 8",
    "depth over the limit",
    "hold class K or more",
    "hold mode 3",
    "unused hold not 0",
    "origin where no hold stands",
    "soft holds outside 4, 5, 8",
    "hard holds outside 6-8",
    "mark on class K or more",
    "soft-unsafe without hard-unsafe",
    "sheet byte over 15",
    "second sheet too short",
    "kinds but number 0",
    "number but no kinds",
    "declared class K or more",
    "in progress but not declared",
    "more than 16 in progress",
    "more than 256 kept",
];

/// Every name that [`unfit_history`] can give, in the order in which it looks.
pub const HISTORY_CLAUSES: [&str; 5] = [
    "history too short",
    "kept place over 24",
    "struck out but not 0",
    "kept class K or more",
    "kept mode 3",
];

/// The first clause of "Unfit" that is violated, in the order of [`CLAUSES`].
/// A slip is looked at only where there is one (the question has none). "Old desks in
/// shorter buffers get 11; in longer ones they are read in the new layout.": nothing here
/// tells an old desk from any other.
pub fn unfit(desk: &[u8], sheet: &[u8], seen: &[u8], slip: Option<&[u8]>) -> Option<&'static str> {
    // "any buffer too short; K not 1-64"
    if desk.len() < DESK {
        return Some(CLAUSES[0]);
    }
    let k = usize::from(desk[0]);
    if k < 1 || k > MAX_K {
        return Some(CLAUSES[1]);
    }
    if sheet.len() < sheet_len(k) {
        return Some(CLAUSES[2]);
    }
    if let Some(slip) = slip {
        if slip.len() < slip_len(k) {
            return Some(CLAUSES[3]);
        }
    }
    // "byte 1 over 1"
    if desk[1] > 1 {
        return Some(CLAUSES[4]);
    }
    let states = &desk[STATES..DEPTHS];
    let depths = &desk[DEPTHS..MARKS];
    let marks = &desk[MARKS..HOLDS];
    // "a state over 8"
    if states.iter().any(|&s| s > 8) {
        return Some(CLAUSES[5]);
    }
    // "a depth over" 48; 02 g: "Answer 8 and the fit test read depth 48 for 20"
    if depths.iter().any(|&d| usize::from(d) > DEEPEST) {
        return Some(CLAUSES[6]);
    }
    // "a standing hold with class K or more or mode 3; an unused hold byte not 0"
    let frames = || desk[HOLDS..ORIGINS].chunks_exact(DEEPEST).zip(depths);
    let standing = |test: fn(u8, usize) -> bool| {
        frames().any(|(holds, &depth)| holds[..usize::from(depth)].iter().any(|&h| test(h, k)))
    };
    if standing(|hold, k| usize::from(hold % 64) >= k) {
        return Some(CLAUSES[7]);
    }
    if standing(|hold, _| hold / 64 == 3) {
        return Some(CLAUSES[8]);
    }
    let empty = [0; DEEPEST];
    if frames().any(|(holds, &depth)| holds[usize::from(depth)..] != empty[usize::from(depth)..]) {
        return Some(CLAUSES[9]);
    }
    // "zero where no hold stands, else the desk is unfit"
    let stands = |place: usize| place % DEEPEST < usize::from(depths[place / DEEPEST]);
    let stray = |place: usize| is_try(desk, HOLDS + place) && !stands(place);
    let eight = |byte: usize| 8 * byte..PLACES.min(8 * byte + 8);
    if (ORIGINS..COUNT).any(|at| desk[at] != 0 && eight(at - ORIGINS).any(stray)) {
        return Some(CLAUSES[10]);
    }
    // "soft holds outside states 4, 5, 8"
    if (0..CORES).any(|c| depths[3 * c + 1] > 0 && ![4, 5, 8].contains(&states[c])) {
        return Some(CLAUSES[11]);
    }
    // "hard holds outside 6-8"
    if (0..CORES).any(|c| depths[3 * c + 2] > 0 && ![6, 7, 8].contains(&states[c])) {
        return Some(CLAUSES[12]);
    }
    // "a mark on a class K or more"
    if marks[k..].iter().any(|&m| m != 0) {
        return Some(CLAUSES[13]);
    }
    // "a soft-unsafe mark without its hard-unsafe one"
    if marks
        .iter()
        .any(|&m| (m & 64 != 0 && m & 4 == 0) || (m & 128 != 0 && m & 8 == 0))
    {
        return Some(CLAUSES[14]);
    }
    // "a sheet byte over 15"
    if sheet[..sheet_len(k)].iter().any(|&b| b > 15) {
        return Some(CLAUSES[15]);
    }
    // "The fit test covers the new lengths, and a pair with kinds but number 0, or the
    // reverse", is unfit. 02 i: "The fit test no longer ties first-seen numbers to the record
    // count.": a number may be any.
    if seen.len() < seen_len(k) {
        return Some(CLAUSES[16]);
    }
    let (mut missing, mut stray) = (false, false);
    for pair in 0..k * k {
        let (kinds, number) = (sheet[pair], word_at(seen, WORD * pair));
        missing |= kinds != 0 && number == 0;
        stray |= kinds == 0 && number != 0;
    }
    if missing {
        return Some(CLAUSES[17]);
    }
    if stray {
        return Some(CLAUSES[18]);
    }
    // The list in progress. A since number may be any, and the kept count may be more than 0
    // though nothing is in progress.
    let declared = classes_of(long_word_at(desk, DECLARED));
    let in_progress = classes_of(long_word_at(desk, PROGRESS));
    if declared.iter().any(|&c| usize::from(c) >= k) {
        return Some(CLAUSES[19]);
    }
    if !in_progress.is_subset(&declared) {
        return Some(CLAUSES[20]);
    }
    if in_progress.len() > MOST_IN_PROGRESS {
        return Some(CLAUSES[21]);
    }
    if word_at(desk, KEPT_COUNT) > MOST_KEPT as u32 {
        return Some(CLAUSES[22]);
    }
    None
}

/// The first violated clause of the history's fit test beside a fit desk, in the order of
/// [`HISTORY_CLAUSES`]: of its length, and of the entries below the kept count. Only step and
/// feed have a history.
pub fn unfit_history(desk: &[u8], history: &[u8]) -> Option<&'static str> {
    if history.len() < HISTORY {
        return Some(HISTORY_CLAUSES[0]);
    }
    let k = usize::from(desk[0]);
    let kept = word_at(desk, KEPT_COUNT) as usize;
    let entries = || history.chunks_exact(KEPT_ENTRY).take(kept);
    let standing = || entries().filter(|entry| entry[0] != 0);
    if standing().any(|entry| usize::from(entry[0]) > FRAMES) {
        return Some(HISTORY_CLAUSES[1]);
    }
    if entries().any(|entry| entry[0] == 0 && entry[1] != 0) {
        return Some(HISTORY_CLAUSES[2]);
    }
    if standing().any(|entry| usize::from(entry[1] % 64) >= k) {
        return Some(HISTORY_CLAUSES[3]);
    }
    if standing().any(|entry| entry[1] / 64 == 3) {
        return Some(HISTORY_CLAUSES[4]);
    }
    None
}

// ----------------------------------------------------------- count and numbers

/// The number in the four bytes from `at` on, "low byte first".
fn word_at(bytes: &[u8], at: usize) -> u32 {
    u32::from_le_bytes([bytes[at], bytes[at + 1], bytes[at + 2], bytes[at + 3]])
}

fn set_word(bytes: &mut [u8], at: usize, number: u32) {
    bytes[at..at + WORD].copy_from_slice(&number.to_le_bytes());
}

/// The 64-bit word in the eight bytes from `at` on, "low byte first".
fn long_word_at(bytes: &[u8], at: usize) -> u64 {
    let (low, high) = (word_at(bytes, at), word_at(bytes, at + WORD));
    u64::from(high) << 32 | u64::from(low)
}

/// The classes whose bits are 1 in a 64-bit word.
fn classes_of(word: u64) -> BTreeSet<u8> {
    (0..64).filter(|&c| word >> c & 1 == 1).collect()
}

// ---------------------------------------------------------------- crosslocks

/// A take that is kept: where, of which class, and its mode (0-2; tries are never kept).
#[derive(Clone, Copy)]
struct Kept {
    frame: usize,
    class: u8,
    mode: u8,
}

/// What desk and history hold of crosslocks, in plain values.
struct Crosslocks {
    declared: BTreeSet<u8>,
    /// Each crosslock in progress, and how many takes were kept when it was taken.
    in_progress: BTreeMap<u8, usize>,
    /// The kept takes in their order, None where one is struck out: its visit has ended, and
    /// "no room in it is free again until none is" in progress.
    history: Vec<Option<Kept>>,
}

impl Crosslocks {
    /// From a fit desk and a fit history.
    fn unpack(desk: &[u8], history: &[u8]) -> Crosslocks {
        let since = |class: u8| word_at(desk, SINCE + WORD * usize::from(class)) as usize;
        let kept = word_at(desk, KEPT_COUNT) as usize;
        Crosslocks {
            declared: classes_of(long_word_at(desk, DECLARED)),
            in_progress: classes_of(long_word_at(desk, PROGRESS))
                .into_iter()
                .map(|class| (class, since(class)))
                .collect(),
            history: history
                .chunks_exact(KEPT_ENTRY)
                .take(kept)
                .map(|entry| {
                    Some(Kept {
                        frame: usize::from(entry[0]).checked_sub(1)?,
                        class: entry[1] % 64,
                        mode: entry[1] / 64,
                    })
                })
                .collect(),
        }
    }

    /// Onto the same desk and history. The since number of a class that isn't in progress
    /// stays, and so do the bytes of the history past what is kept.
    fn pack(&self, desk: &mut [u8], history: &mut [u8]) {
        let word: u64 = self.in_progress.keys().map(|&class| 1 << class).sum();
        desk[PROGRESS..KEPT_COUNT].copy_from_slice(&word.to_le_bytes());
        set_word(desk, KEPT_COUNT, self.history.len() as u32);
        for (&class, &since) in &self.in_progress {
            set_word(desk, SINCE + WORD * usize::from(class), since as u32);
        }
        for (entry, kept) in history.chunks_exact_mut(KEPT_ENTRY).zip(&self.history) {
            let bytes = match kept {
                Some(kept) => [1 + kept.frame as u8, kept.class + 64 * kept.mode],
                None => [0, 0],
            };
            entry.copy_from_slice(&bytes);
        }
    }

    /// Whether a record of this kind and mode is a "take to be kept": "Ordinary takes other
    /// than tries are kept in a lent history of 256 only while a crosslock is in progress".
    fn keeps(&self, kind: u8, mode: u8) -> bool {
        kind == TAKE && mode < TRY && !self.in_progress.is_empty()
    }

    /// The takes accepted in a frame since a crosslock in progress was taken. "Takes of an
    /// earlier handler visit do not count.": they are struck out.
    fn since(&self, crosslock: u8, frame: usize) -> Vec<Kept> {
        let Some(&since) = self.in_progress.get(&crosslock) else {
            return Vec::new();
        };
        let later = self.history.iter().skip(since).flatten();
        later.filter(|kept| kept.frame == frame).copied().collect()
    }

    /// A handler visit ends, and what was taken in it is struck out.
    fn end_visit(&mut self, frame: usize) {
        for entry in &mut self.history {
            if entry.is_some_and(|kept| kept.frame == frame) {
                *entry = None;
            }
        }
    }

    /// "no room in it is free again until none is" in progress: then all of it is.
    fn release(&mut self, crosslock: u8) {
        self.in_progress.remove(&crosslock);
        if self.in_progress.is_empty() {
            self.history.clear();
        }
    }
}

// ------------------------------------------------------------------- origins

/// The origin of the hold whose byte is at `at`: "one bit per hold place in order, 1
/// for a try, lowest bit first".
fn is_try(desk: &[u8], at: usize) -> bool {
    let place = at - HOLDS;
    desk[ORIGINS + place / 8] >> (place % 8) & 1 == 1
}

fn set_origin(desk: &mut [u8], at: usize, is_try: bool) {
    let place = at - HOLDS;
    let bit = 1 << (place % 8);
    if is_try {
        desk[ORIGINS + place / 8] |= bit;
    } else {
        desk[ORIGINS + place / 8] &= !bit;
    }
}

// ------------------------------------------------------------- the nine states

/// "The next state, x for refused": one row for each state, kinds 2 to 9.
const NEXT: [&str; 9] = [
    "0201 4x6x", // 0 task, hard and soft on
    "1301 xx7x", // 1 task, hard on, soft off
    "0223 xxxx", // 2 task, hard off, soft on
    "1323 xxxx", // 3 task, both off
    "45xx x08x", // 4 soft handler, hard on
    "45xx xxxx", // 5 soft handler, hard off
    "xxxx xxx0", // 6 hard handler over 0
    "xxxx xxx1", // 7 over 1
    "xxxx xxx4", // 8 over 4
];

fn next_state(state: u8, kind: u8) -> Option<u8> {
    let row = NEXT[usize::from(state)].as_bytes();
    // Kinds 2-5 stand before the blank, kinds 6-9 after it.
    let column = if kind < 6 { kind - 2 } else { kind - 1 };
    match row[usize::from(column)] {
        b'x' => None,
        digit => Some(digit - b'0'),
    }
}

/// "Frames: task in 0-3, soft in 4-5, hard in 6-8."
fn frame(core: u8, state: u8) -> usize {
    let within = match state {
        0..=3 => 0,
        4..=5 => 1,
        _ => 2,
    };
    3 * usize::from(core) + within
}

// --------------------------------------------------------------- one record

struct Record {
    core: u8,
    kind: u8,
    class: u8,
    mode: u8,
}

/// None for answer 3: "not six bytes, wrong mark, core over 7, kind over" 12, "mode
/// over" 5, "or a byte that should be 0". 02 j: "Refusal 3 begins at kind 13".
fn read_record(bytes: &[u8]) -> Option<Record> {
    let &[0x4C, 0x4B, core, kind, class, mode] = bytes else {
        return None;
    };
    if core > 7 || kind > RELEASE_CROSSLOCK || mode > LAST_MODE {
        return None;
    }
    // "class and mode are 0 for kinds 2 to 9"; 02 h: "Document 01's mode 0 for a release goes";
    // 02 j: "Three new kinds with mode 0, 10 to 12"
    let (names_a_class, has_a_mode) = match kind {
        TAKE | RELEASE => (true, true),
        TAKE_CROSSLOCK | COMMIT | RELEASE_CROSSLOCK => (true, false),
        _ => (false, false),
    };
    if (class != 0 && !names_a_class) || (mode != 0 && !has_a_mode) {
        return None;
    }
    Some(Record {
        core,
        kind,
        class,
        mode,
    })
}

/// Judges one record: answers 0, 1, 3-11, 15-19.
pub fn step(
    desk: &mut [u8],
    sheet: &mut [u8],
    seen: &mut [u8],
    history: &mut [u8],
    slip: &mut [u8],
    record: &[u8],
) -> u8 {
    // "Order: 11, 10, 3, 4, 6, 7, 5, 8.", and "New refusal 9, last in order". 02 j: "New
    // refusals: 15 .., right after 4; then, before 9 and in this order", 16, 17, 18, 19.
    if unfit(desk, sheet, seen, Some(slip)).is_some() || unfit_history(desk, history).is_some() {
        return 11;
    }
    if desk[1] == 1 {
        return 10;
    }
    let Some(Record {
        core,
        kind,
        class,
        mode,
    }) = read_record(record)
    else {
        return 3;
    };
    // 4: "take or release, class K or more"; 02 j: "4 covers kinds 10 to 12". With the other
    // kinds the class is 0.
    let k = usize::from(desk[0]);
    if usize::from(class) >= k {
        return 4;
    }
    // 15: "wrong sort of class for the kind"
    let mut crosslocks = Crosslocks::unpack(desk, history);
    let of_a_lock = [TAKE, RELEASE].contains(&kind);
    let of_a_crosslock = [TAKE_CROSSLOCK, COMMIT, RELEASE_CROSSLOCK].contains(&kind);
    let is_crosslock = crosslocks.declared.contains(&class);
    if (of_a_lock && is_crosslock) || (of_a_crosslock && !is_crosslock) {
        return 15;
    }
    // 6: "x in the table", which has no column for those.
    let state = desk[STATES + usize::from(core)];
    let state_after = if of_a_lock || of_a_crosslock {
        state
    } else {
        match next_state(state, kind) {
            Some(next) => next,
            None => return 6,
        }
    };
    // 7: "k7 or k9 allowed, but holds stand in the frame"
    let here = frame(core, state);
    let depth = usize::from(desk[DEPTHS + here]);
    if (kind == EXIT_SOFT || kind == EXIT_HARD) && depth > 0 {
        return 7;
    }
    // 5: "release, class not held in this frame"; else "the newest hold of that class"
    let first = HOLDS + DEEPEST * here;
    let newest = (first..first + depth)
        .rev()
        .find(|&at| desk[at] % 64 == class);
    // 02 h: "unless the newest hold of that class in the frame has exactly that mode and origin"
    let taken = |at: usize| desk[at] / 64 + if is_try(desk, at) { TRY } else { 0 };
    if kind == RELEASE && newest.map(taken) != Some(mode) {
        return 5;
    }
    // 8: "take, frame holds" 48; 02 g: "Answer 8 and the fit test read depth 48 for 20"
    if kind == TAKE && depth == DEEPEST {
        return 8;
    }
    // 16: "already in progress"
    let in_progress = crosslocks.in_progress.contains_key(&class);
    if kind == TAKE_CROSSLOCK && in_progress {
        return 16;
    }
    // 17: "not in progress (commit or release)"
    if (kind == COMMIT || kind == RELEASE_CROSSLOCK) && !in_progress {
        return 17;
    }
    // 18: "list full"
    if kind == TAKE_CROSSLOCK && crosslocks.in_progress.len() == MOST_IN_PROGRESS {
        return 18;
    }
    // 19: "history full at a take to be kept"
    let to_be_kept = crosslocks.keeps(kind, mode);
    if to_be_kept && crosslocks.history.len() == MOST_KEPT {
        return 19;
    }
    // 9: "the count stands at 4,294,967,295"; else the record's own number is one more.
    let Some(own_number) = word_at(desk, COUNT).checked_add(1) else {
        return 9;
    };

    // Accepted: from here on desk, sheets and history change.
    set_word(desk, COUNT, own_number);
    let mut draw = |from: u8, kind: u8, to: u8| {
        // "for each pair, the number of the accepted record that first drew a hold arrow
        // there, 0 for none"
        let pair = usize::from(from) * k + usize::from(to);
        if sheet[pair] == 0 {
            set_word(seen, WORD * pair, own_number);
        }
        sheet[pair] |= kind;
    };
    let older_holds: Vec<(u8, u8)> = desk[first..first + depth]
        .iter()
        .map(|hold| (hold % 64, hold / 64))
        .collect();
    match (kind, newest) {
        (TAKE, _) => {
            // "Once held it counts as mode 0, 1 or 2"
            let (by_try, mode) = (mode >= TRY, mode % TRY);
            // "A take draws one hold arrow to the new class from every hold in the
            // core's current frame, then adds the hold." A try "draws no arrow from the
            // older holds".
            if !by_try {
                for (older, older_mode) in older_holds {
                    draw(older, hold_arrow(older_mode, mode), class);
                }
            }
            desk[first + depth] = class + 64 * mode;
            set_origin(desk, first + depth, by_try);
            desk[DEPTHS + here] += 1;
            if to_be_kept {
                crosslocks.history.push(Some(Kept {
                    frame: here,
                    class,
                    mode,
                }));
            }
        }
        (RELEASE, Some(at)) => {
            // "later holds move down one", "Unused hold bytes are zero."; the origin is
            // "moved down on a release".
            let last = first + depth - 1;
            for to in at..last {
                desk[to] = desk[to + 1];
                let origin = is_try(desk, to + 1);
                set_origin(desk, to, origin);
            }
            desk[last] = 0;
            set_origin(desk, last, false);
            desk[DEPTHS + here] -= 1;
        }
        (TAKE_CROSSLOCK, _) => {
            // "Its take draws hold arrows, EN or SN by the hold's mode, from the current
            // frame's holds (TC) and enters it in a list .. It is no hold and gets no marks."
            for (older, older_mode) in older_holds {
                draw(older, hold_arrow(older_mode, EXCLUSIVE), class);
            }
            let kept_so_far = crosslocks.history.len();
            crosslocks.in_progress.insert(class, kept_so_far);
        }
        (COMMIT, _) => {
            // "a hold arrow EN from the crosslock to each ordinary take accepted since then
            // in the committing core's current frame (CT), ER where that take was a recursive
            // read"; released meanwhile or not.
            for kept in crosslocks.since(class, here) {
                draw(class, hold_arrow(EXCLUSIVE, kept.mode), kept.class);
            }
        }
        (RELEASE_CROSSLOCK, _) => crosslocks.release(class),
        _ => {
            desk[STATES + usize::from(core)] = state_after;
            // A hard handler over a soft one doesn't end the soft one's visit.
            if kind == EXIT_SOFT || kind == EXIT_HARD {
                crosslocks.end_visit(here);
            }
        }
    }
    crosslocks.pack(desk, history);
    mark(desk, core);

    let drawing = Arrivals::of(desk, sheet);
    let left = drawing.peel();
    if left == 0 {
        return 0;
    }
    desk[1] = 1;
    let circle = drawing.least_cycle(left, desk, sheet);
    show(
        slip,
        &circle.expect("where something remains, a cycle exists"),
        k,
        seen,
    );
    1
}

/// The kind of a hold arrow: "First letter: E if the older hold is exclusive, S for either
/// read. Second: R if the take is recursive read, else N". As the older one or as the take, a
/// crosslock is like an exclusive lock.
fn hold_arrow(older_mode: u8, mode: u8) -> u8 {
    match (older_mode == EXCLUSIVE, mode == RECURSIVE) {
        (true, true) => ER,
        (true, false) => EN,
        (false, true) => SR,
        (false, false) => SN,
    }
}

/// "After each accepted record, every hold of that core's current frame is marked
/// by the core's state."
fn mark(desk: &mut [u8], core: u8) {
    let state = desk[STATES + usize::from(core)];
    let here = frame(core, state);
    let first = HOLDS + DEEPEST * here;
    for at in first..first + usize::from(desk[DEPTHS + here]) {
        let (class, mode) = (usize::from(desk[at] % 64), desk[at] / 64);
        // "Mark bits: 1 hard-safe N, 2 hard-safe R, 4 hard-unsafe E, 8 hard-unsafe S;
        // 16, 32, 64, 128 the same for soft."
        let safe = if mode == RECURSIVE { 2 } else { 1 };
        let unsafe_ = if mode == EXCLUSIVE { 4 } else { 8 };
        let mut bits = 0;
        // "Hard-safe in 6-8; soft-safe in 4-5; hard-unsafe in 0, 1, 4; soft-unsafe in
        // 0 only"; a try "sets no safe mark then or later".
        let waited = !is_try(desk, at);
        if waited && [6, 7, 8].contains(&state) {
            bits |= safe;
        }
        if waited && [4, 5].contains(&state) {
            bits |= safe * 16;
        }
        if [0, 1, 4].contains(&state) {
            bits |= unsafe_;
        }
        if state == 0 {
            bits |= unsafe_ * 16;
        }
        desk[MARKS + class] |= bits;
    }
}

// -------------------------------------------------------------- the drawing

/// Whether the drawing has an arrow of this kind and source (0 hold, 1 hard,
/// 2 soft) between two classes under K. For fit desks and sheets.
fn drawn(desk: &[u8], sheet: &[u8], from: usize, to: usize, kind: u8, source: u8) -> bool {
    if source == 0 {
        return sheet[from * usize::from(desk[0]) + to] & kind != 0;
    }
    // "An interrupt arrow goes from each class with an unsafe mark to each class with
    // a safe mark of the same level, its kind made of the two letters."
    let level = if source == 1 { 1 } else { 16 };
    let unsafe_bit = level * if begins_with_s(kind) { 8 } else { 4 };
    let safe_bit = level * if ends_with_r(kind) { 2 } else { 1 };
    desk[MARKS + from] & unsafe_bit != 0 && desk[MARKS + to] & safe_bit != 0
}

/// A set of arrivals: bit c is "class c by an arrow ending in N", bit 64 + c
/// "class c by an arrow ending in R".
type Set = u128;

fn members(mut set: Set) -> impl Iterator<Item = usize> {
    std::iter::from_fn(move || {
        if set == 0 {
            return None;
        }
        let lowest = set.trailing_zeros() as usize;
        set &= set - 1;
        Some(lowest)
    })
}

/// For each arrival, the arrivals that one more arrow can lead to.
struct Arrivals {
    next: [Set; 128],
}

impl Arrivals {
    /// For fit desks and sheets.
    fn of(desk: &[u8], sheet: &[u8]) -> Arrivals {
        let k = usize::from(desk[0]);
        let marks = &desk[MARKS..MARKS + k];
        // The arrivals that interrupt arrows of each level can make.
        let (mut hard_safe, mut soft_safe): (Set, Set) = (0, 0);
        for (c, &m) in marks.iter().enumerate() {
            hard_safe |= (Set::from(m & 1) << c) | (Set::from(m >> 1 & 1) << (64 + c));
            soft_safe |= (Set::from(m >> 4 & 1) << c) | (Set::from(m >> 5 & 1) << (64 + c));
        }
        let mut next = [0; 128];
        for from in 0..k {
            // Arrivals by arrows from this class, apart by first letter.
            let (mut en, mut er, mut sn, mut sr) = (0u64, 0u64, 0u64, 0u64);
            for (to, &kinds) in sheet[from * k..from * k + k].iter().enumerate() {
                er |= u64::from(kinds & 1) << to;
                en |= u64::from(kinds >> 1 & 1) << to;
                sr |= u64::from(kinds >> 2 & 1) << to;
                sn |= u64::from(kinds >> 3 & 1) << to;
            }
            let mut by_e = Set::from(en) | Set::from(er) << 64;
            let mut by_s = Set::from(sn) | Set::from(sr) << 64;
            let m = marks[from];
            if m & 4 != 0 {
                by_e |= hard_safe;
            }
            if m & 8 != 0 {
                by_s |= hard_safe;
            }
            if m & 64 != 0 {
                by_e |= soft_safe;
            }
            if m & 128 != 0 {
                by_s |= soft_safe;
            }
            // "no arrow ending in R is followed by one beginning with S"
            next[from] = by_e | by_s;
            next[64 + from] = by_e;
        }
        Arrivals { next }
    }

    /// Takes away arrivals that have no successor left, until none can be taken
    /// away. What remains is empty exactly if no closed strong path exists.
    fn peel(&self) -> Set {
        let mut left = Set::MAX;
        loop {
            let before = left;
            for (i, &next) in self.next.iter().enumerate() {
                if next & left == 0 {
                    left &= !(1 << i);
                }
            }
            if left == before {
                return left;
            }
        }
    }

    /// The number of arrows in a shortest cycle through an arrival.
    fn shortest_through(&self, start: usize) -> Option<usize> {
        let mut reached: Set = 0;
        let mut wave: Set = 1 << start;
        let mut length = 0;
        while wave != 0 {
            length += 1;
            let further = members(wave).fold(0, |all, i| all | self.next[i]);
            if further >> start & 1 == 1 {
                return Some(length);
            }
            wave = further & !reached;
            reached |= further;
        }
        None
    }

    /// The circle of [`least_circle`], with its cycles among the arrivals in `left`.
    fn least_cycle(&self, left: Set, desk: &[u8], sheet: &[u8]) -> Option<Vec<Triple>> {
        // "fewest arrows", and the arrivals on cycles of so many.
        let mut fewest = usize::MAX;
        let mut on: Set = 0;
        for i in members(left) {
            if let Some(length) = self.shortest_through(i) {
                if length < fewest {
                    (fewest, on) = (length, 0);
                }
                if length == fewest {
                    on |= 1 << i;
                }
            }
        }
        // "the lowest class first", by whichever letter the last arrow arrives there.
        let first = members(on).map(|i| i % 64).min()?;
        [first, 64 + first]
            .into_iter()
            .filter(|&start| on >> start & 1 == 1)
            .filter_map(|start| self.least_walk(start, fewest, desk, sheet))
            .min()
    }

    /// The least list of triples among all walks of exactly `length` arrows that begin
    /// and end with the arrival `start`.
    ///
    /// For one arrow more each round, the least list of a walk from `start` to each
    /// arrival is worked out. Walks of one length to one arrival go on alike, whatever
    /// led there, and lists of one length are compared before what is added to them: so
    /// a least walk is always a least walk with one arrow fewer and then a last arrow.
    /// What the last arrow goes to is no part of the list: its class is compared with
    /// the next arrow.
    fn least_walk(
        &self,
        start: usize,
        length: usize,
        desk: &[u8],
        sheet: &[u8],
    ) -> Option<Vec<Triple>> {
        // The arrivals from which exactly 0, 1, 2 .. arrows lead to `start`: with so
        // many arrows left, nobody else need be looked at.
        let mut away: Vec<Set> = vec![1 << start];
        for nearer in 0..length {
            let leads = |&i: &usize| self.next[i] & away[nearer] != 0;
            away.push((0..128).filter(leads).fold(0, |all, i| all | 1 << i));
        }
        let mut least: Vec<Option<Vec<Triple>>> = vec![None; 128];
        least[start] = Some(Vec::new());
        for arrows_left in (0..length).rev() {
            let mut longer: Vec<Option<Vec<Triple>>> = vec![None; 128];
            for there in members(away[arrows_left]) {
                let mut walks: Vec<(&Vec<Triple>, Triple)> = Vec::new();
                for here in members(away[arrows_left + 1]) {
                    if let Some(walk) = &least[here] {
                        walks.extend(arrows(desk, sheet, here, there).map(|arrow| (walk, arrow)));
                    }
                }
                if let Some((walk, arrow)) = walks.into_iter().min() {
                    longer[there] = Some([&walk[..], &[arrow]].concat());
                }
            }
            least = longer;
        }
        least.swap_remove(start)
    }

    /// The arrivals of all strong paths of one or more arrows from a class.
    fn reach(&self, class: usize) -> Set {
        // The first arrow may have either first letter, as after an arrival by N.
        let mut reached = self.next[class];
        let mut wave = reached;
        while wave != 0 {
            let further = members(wave).fold(0, |all, i| all | self.next[i]);
            wave = further & !reached;
            reached |= further;
        }
        reached
    }
}

/// Whether the drawing that a fit desk and sheet hold has a closed strong path.
pub fn closed_strong_path(desk: &[u8], sheet: &[u8]) -> bool {
    Arrivals::of(desk, sheet).peel() != 0
}

// ------------------------------------------------------ the clash of one class

/// "whether one class's marks already make a one-arrow strong circle", worked out: an
/// interrupt arrow of the class to itself, at either level, strong at its closing joint.
pub fn clash(marks: u8) -> bool {
    // "Mark bits: 1 hard-safe N, 2 hard-safe R, 4 hard-unsafe E, 8 hard-unsafe S;
    // 16, 32, 64, 128 the same for soft."
    for level in [1, 16] {
        for (unsafe_mark, first) in [(4, 'E'), (8, 'S')] {
            for (safe_mark, second) in [(1, 'N'), (2, 'R')] {
                // "from each class with an unsafe mark to each class with a safe mark of
                // the same level, its kind made of the two letters"
                let arrow = marks & (unsafe_mark * level) != 0 && marks & (safe_mark * level) != 0;
                // "no arrow ending in R is followed by one beginning with S", and what
                // follows this arrow is itself.
                let strong = !(second == 'R' && first == 'S');
                if arrow && strong {
                    return true;
                }
            }
        }
    }
    false
}

/// "a fixed list of 256 answers, one for each mark byte, yes exactly when they do": 1
/// for yes, 0 for no. A row for each four soft marks, a column for each four hard ones.
#[rustfmt::skip]
pub const CLASHES: [u8; 256] = [
//  -  N  R NR  E  EN ER ENR S  SN SR SNR ES ESN ESR all
    0, 0, 0, 0, 0, 1, 1, 1,  0, 1, 0, 1,  0, 1,  1,  1, // no soft mark
    0, 0, 0, 0, 0, 1, 1, 1,  0, 1, 0, 1,  0, 1,  1,  1, // N
    0, 0, 0, 0, 0, 1, 1, 1,  0, 1, 0, 1,  0, 1,  1,  1, // R
    0, 0, 0, 0, 0, 1, 1, 1,  0, 1, 0, 1,  0, 1,  1,  1, // N, R
    0, 0, 0, 0, 0, 1, 1, 1,  0, 1, 0, 1,  0, 1,  1,  1, // E
    1, 1, 1, 1, 1, 1, 1, 1,  1, 1, 1, 1,  1, 1,  1,  1, // E, N
    1, 1, 1, 1, 1, 1, 1, 1,  1, 1, 1, 1,  1, 1,  1,  1, // E, R
    1, 1, 1, 1, 1, 1, 1, 1,  1, 1, 1, 1,  1, 1,  1,  1, // E, N, R
    0, 0, 0, 0, 0, 1, 1, 1,  0, 1, 0, 1,  0, 1,  1,  1, // S
    1, 1, 1, 1, 1, 1, 1, 1,  1, 1, 1, 1,  1, 1,  1,  1, // S, N
    0, 0, 0, 0, 0, 1, 1, 1,  0, 1, 0, 1,  0, 1,  1,  1, // S, R
    1, 1, 1, 1, 1, 1, 1, 1,  1, 1, 1, 1,  1, 1,  1,  1, // S, N, R
    0, 0, 0, 0, 0, 1, 1, 1,  0, 1, 0, 1,  0, 1,  1,  1, // E, S
    1, 1, 1, 1, 1, 1, 1, 1,  1, 1, 1, 1,  1, 1,  1,  1, // E, S, N
    1, 1, 1, 1, 1, 1, 1, 1,  1, 1, 1, 1,  1, 1,  1,  1, // E, S, R
    1, 1, 1, 1, 1, 1, 1, 1,  1, 1, 1, 1,  1, 1,  1,  1, // all
];

// ---------------------------------------------------------- the circle shown

/// An arrow as the slip shows it, without its number: "class, kind (1, 2, 4 or 8), source
/// (0 hold, 1 hard, 2 soft)". Compared, and lists of them too, "from left to right": "The
/// order in c) compares the first three bytes of each entry."
pub type Triple = (u8, u8, u8);

/// THE circle: "fewest arrows, and among those the least when the slip's triples are
/// compared from left to right". None where the drawing has no closed strong path, and
/// where desk or a sheet is unfit.
///
/// How it is found. A circle is a cycle among arrivals; the fewest arrows of any cycle
/// are found by breadth-first search from each arrival. A cycle of so many passes no
/// class twice: were class x passed twice, by arrows a, a' and by arrows b, b', the
/// cycle would fall into a' .. b and b' .. a, and one of these is strong all round (if
/// neither, a and b end in R and a' and b' begin with S, so a, a' isn't strong), and
/// shorter. So the circles with the fewest arrows are the cycles with the fewest, each
/// begun at its lowest class. The least of them begins with the lowest class that is on
/// any, and every such cycle through that class has it for its lowest. Which of those
/// cycles is the least is settled by `least_walk`, for each of the two letters by
/// which the last arrow can arrive.
pub fn least_circle(desk: &[u8], sheet: &[u8], seen: &[u8]) -> Option<Vec<Triple>> {
    if unfit(desk, sheet, seen, None).is_some() {
        return None;
    }
    let drawing = Arrivals::of(desk, sheet);
    drawing.least_cycle(drawing.peel(), desk, sheet)
}

/// The arrows that lead from one arrival to another.
fn arrows<'a>(
    desk: &'a [u8],
    sheet: &'a [u8],
    here: usize,
    there: usize,
) -> impl Iterator<Item = Triple> + 'a {
    [ER, EN, SR, SN]
        .into_iter()
        .filter(move |&kind| ends_with_r(kind) == (there >= 64))
        .filter(move |&kind| !(here >= 64 && begins_with_s(kind)))
        .flat_map(|kind| [0, 1, 2].map(|source| (kind, source)))
        .filter(move |&(kind, source)| drawn(desk, sheet, here % 64, there % 64, kind, source))
        .map(move |(kind, source)| ((here % 64) as u8, kind, source))
}

/// Writes a circle: "Byte 0 is n, 1 to K"; then n times seven bytes, "the last four that
/// number, low byte first, or 0 for an interrupt arrow", and "bytes past 1 + 7n stay".
fn show(slip: &mut [u8], circle: &[Triple], k: usize, seen: &[u8]) {
    slip[0] = circle.len() as u8;
    for (i, &(class, kind, source)) in circle.iter().enumerate() {
        // "Each arrow goes to the next class, the last to the first."
        let to = circle[(i + 1) % circle.len()].0;
        let at = 1 + ENTRY * i;
        slip[at..at + 3].copy_from_slice(&[class, kind, source]);
        set_word(slip, at + 3, shown_number(class, to, source, k, seen));
    }
}

/// What the slip says of where an arrow was first seen: the pair's number, whichever of
/// its kinds is shown, "or 0 for an interrupt arrow", though its pair have a number.
fn shown_number(from: u8, to: u8, source: u8, k: usize, seen: &[u8]) -> u32 {
    if source == 0 {
        word_at(seen, WORD * (usize::from(from) * k + usize::from(to)))
    } else {
        0
    }
}

/// Every circle of exactly n arrows as the slip would show it, the least first, by
/// trying all: for small drawings. Empty where desk or a sheet is unfit.
///
/// It shares nothing with [`least_circle`] but `drawn` and the letters of the kinds.
pub fn all_circles(desk: &[u8], sheet: &[u8], seen: &[u8], n: usize) -> Vec<Vec<Triple>> {
    let mut all = Vec::new();
    if unfit(desk, sheet, seen, None).is_none() && n > 0 {
        for first in 0..desk[0] {
            go_round(desk, sheet, n, first, &mut Vec::new(), &mut all);
        }
    }
    all.sort();
    all
}

/// Goes on from a class, after the arrows before, to all circles of n arrows.
fn go_round(
    desk: &[u8],
    sheet: &[u8],
    n: usize,
    class: u8,
    before: &mut Vec<Triple>,
    all: &mut Vec<Vec<Triple>>,
) {
    let first = before.first().map_or(class, |arrow| arrow.0);
    let closing = before.len() + 1 == n;
    for to in 0..desk[0] {
        // "Each arrow goes to the next class, the last to the first. No class twice; the
        // lowest class first."
        let new = to > first && to != class && before.iter().all(|arrow| arrow.0 != to);
        let goes_there = if closing { to == first } else { new };
        if !goes_there {
            continue;
        }
        for kind in [ER, EN, SR, SN] {
            for source in [0, 1, 2] {
                if !drawn(
                    desk,
                    sheet,
                    usize::from(class),
                    usize::from(to),
                    kind,
                    source,
                ) {
                    continue;
                }
                // "no arrow ending in R is followed by one beginning with S"
                if before
                    .last()
                    .is_some_and(|last| ends_with_r(last.1) && begins_with_s(kind))
                {
                    continue;
                }
                before.push((class, kind, source));
                if !closing {
                    go_round(desk, sheet, n, to, before, all);
                } else if !(ends_with_r(kind) && begins_with_s(before[0].1)) {
                    // "strong at its closing joint too"
                    all.push(before.clone());
                }
                before.pop();
            }
        }
    }
}

/// Whether the slip shows a true circle of the drawing that desk and sheet hold, with the
/// numbers of the second sheet. (False also where desk or a sheet is unfit or the slip is
/// too short.)
pub fn true_circle(desk_after: &[u8], sheet_after: &[u8], seen_after: &[u8], slip: &[u8]) -> bool {
    if unfit(desk_after, sheet_after, seen_after, Some(slip)).is_some() {
        return false;
    }
    let k = desk_after[0];
    let n = slip[0];
    // "Byte 0 is n, 1 to K"
    if n < 1 || n > k {
        return false;
    }
    let arrows: Vec<&[u8]> = slip[1..1 + ENTRY * usize::from(n)]
        .chunks_exact(ENTRY)
        .collect();
    for (i, arrow) in arrows.iter().enumerate() {
        let (class, kind, source) = (arrow[0], arrow[1], arrow[2]);
        if class >= k || ![ER, EN, SR, SN].contains(&kind) || source > 2 {
            return false;
        }
        // "No class twice; the lowest class first."
        if class < arrows[0][0] || arrows[..i].iter().any(|earlier| earlier[0] == class) {
            return false;
        }
    }
    // "Each arrow goes to the next class, the last to the first."
    (0..arrows.len()).all(|i| {
        let (arrow, next) = (arrows[i], arrows[(i + 1) % arrows.len()]);
        let (from, to) = (usize::from(arrow[0]), usize::from(next[0]));
        let number = shown_number(arrow[0], next[0], arrow[2], usize::from(k), seen_after);
        drawn(desk_after, sheet_after, from, to, arrow[1], arrow[2])
            && !(ends_with_r(arrow[1]) && begins_with_s(next[1]))
            && word_at(arrow, 3) == number
    })
}

// ------------------------------------------- first seen, by the records alone

/// The books of a list of records from opening, kept without desk and sheets: "worked out
/// from what opening was given and from the records, and never from what a step left".
/// It shares with [`step`] how a record is read, the table of states and the frames, and
/// nothing of what is drawn, marked, counted or searched.
pub struct Books {
    k: usize,
    states: [u8; CORES],
    /// By frame, oldest first: class, mode 0-2, and whether by a try.
    holds: Vec<Vec<(usize, u8, bool)>>,
    /// The kinds of hold arrows of each pair, as the letters of them.
    kinds: Vec<Vec<(char, char)>>,
    /// Marks of each class: (level, 'E' or 'S') for unsafe, (level, 'N' or 'R') for safe.
    unsafe_marks: Vec<Vec<(u8, char)>>,
    safe_marks: Vec<Vec<(u8, char)>>,
    numbers: Vec<u32>,
    accepted: u32,
    closed: bool,
    /// Of each class, whether it is declared a crosslock.
    declared: Vec<bool>,
    /// The crosslocks in progress, in the order of their takes.
    in_progress: Vec<InProgress>,
    /// How many takes were kept since none was in progress.
    kept: usize,
    /// Of each frame, how many visits there have ended.
    visits: [u64; FRAMES],
}

/// A crosslock in progress, and the takes kept since its own: frame, visit, class, and
/// whether a recursive read.
#[derive(Clone)]
struct InProgress {
    class: usize,
    takes: Vec<(usize, u64, usize, bool)>,
}

impl Books {
    /// With no crosslocks declared. None for K not 1-64.
    pub fn open(k: u64) -> Option<Books> {
        Books::open_declared(k, 0)
    }

    /// None for K not 1-64, and for a declared class of K or more.
    pub fn open_declared(k: u64, declared: u64) -> Option<Books> {
        if k < 1 || k > MAX_K as u64 || (k < 64 && declared >> k != 0) {
            return None;
        }
        let k = k as usize;
        Some(Books {
            declared: (0..k).map(|class| declared & (1 << class) != 0).collect(),
            in_progress: Vec::new(),
            kept: 0,
            visits: [0; FRAMES],
            k,
            states: [0; CORES],
            holds: vec![Vec::new(); FRAMES],
            kinds: vec![Vec::new(); k * k],
            unsafe_marks: vec![Vec::new(); k],
            safe_marks: vec![Vec::new(); k],
            numbers: vec![0; k * k],
            accepted: 0,
            closed: false,
        })
    }

    /// How many records were accepted.
    pub fn accepted(&self) -> u32 {
        self.accepted
    }

    /// For each pair, at from x K + to, the number of the accepted record that first drew
    /// a hold arrow there, 0 for none.
    pub fn numbers(&self) -> &[u32] {
        &self.numbers
    }

    /// Takes in the list's next record; whether it is accepted (answers 0 and 1).
    pub fn enter(&mut self, record: &[u8]) -> bool {
        let Some(Record {
            core,
            kind,
            class,
            mode,
        }) = read_record(record)
        else {
            return false;
        };
        let class = usize::from(class);
        let state = self.states[usize::from(core)];
        let here = frame(core, state);
        let newest = self.holds[here].iter().rposition(|hold| hold.0 == class);
        let lock = self.declared.get(class) == Some(&false);
        let crosslock = self.declared.get(class) == Some(&true);
        let place = self.in_progress.iter().position(|it| it.class == class);
        let keeps = kind == TAKE && mode < TRY && !self.in_progress.is_empty();
        let allowed = match kind {
            TAKE => lock && self.holds[here].len() < DEEPEST && !(keeps && self.kept == MOST_KEPT),
            RELEASE => {
                let taken = (class, mode % TRY, mode >= TRY);
                lock && newest.is_some_and(|at| self.holds[here][at] == taken)
            }
            TAKE_CROSSLOCK => {
                crosslock && place.is_none() && self.in_progress.len() < MOST_IN_PROGRESS
            }
            COMMIT | RELEASE_CROSSLOCK => crosslock && place.is_some(),
            EXIT_SOFT | EXIT_HARD => {
                next_state(state, kind).is_some() && self.holds[here].is_empty()
            }
            _ => next_state(state, kind).is_some(),
        };
        if self.closed || !allowed || self.accepted == u32::MAX {
            return false;
        }
        self.accepted += 1;
        // The hold arrows: from, to and the two letters.
        let mut new_arrows: Vec<(usize, usize, (char, char))> = Vec::new();
        if (kind == TAKE && mode < TRY) || kind == TAKE_CROSSLOCK {
            for &(older, older_mode, _) in &self.holds[here] {
                let first = if older_mode == EXCLUSIVE { 'E' } else { 'S' };
                let second = if mode == RECURSIVE { 'R' } else { 'N' };
                new_arrows.push((older, class, (first, second)));
            }
        }
        if kind == COMMIT {
            for it in self.in_progress.iter().filter(|it| it.class == class) {
                for &(at, visit, taken, recursive) in &it.takes {
                    if (at, visit) == (here, self.visits[here]) {
                        let second = if recursive { 'R' } else { 'N' };
                        new_arrows.push((class, taken, ('E', second)));
                    }
                }
            }
        }
        let mut drew = false;
        for (from, to, letters) in new_arrows {
            let pair = from * self.k + to;
            if self.numbers[pair] == 0 {
                self.numbers[pair] = self.accepted;
            }
            drew |= note(&mut self.kinds[pair], letters);
        }
        match (kind, newest, place) {
            (TAKE, _, _) => {
                self.holds[here].push((class, mode % TRY, mode >= TRY));
                if keeps {
                    self.kept += 1;
                    let this = (here, self.visits[here], class, mode == RECURSIVE);
                    for it in &mut self.in_progress {
                        it.takes.push(this);
                    }
                }
            }
            (RELEASE, Some(at), _) => {
                self.holds[here].remove(at);
            }
            (TAKE_CROSSLOCK, _, _) => self.in_progress.push(InProgress {
                class,
                takes: Vec::new(),
            }),
            (RELEASE_CROSSLOCK, _, Some(place)) => {
                self.in_progress.remove(place);
                if self.in_progress.is_empty() {
                    self.kept = 0;
                }
            }
            (COMMIT, _, _) => {}
            (_, _, _) => {
                if let Some(next) = next_state(state, kind) {
                    self.states[usize::from(core)] = next;
                }
                if [EXIT_SOFT, EXIT_HARD].contains(&kind) {
                    self.visits[here] += 1;
                }
            }
        }
        // Marks, with level 1 for hard and 2 for soft.
        let state = self.states[usize::from(core)];
        for &(class, mode, by_try) in &self.holds[frame(core, state)] {
            let safe = if mode == RECURSIVE { 'R' } else { 'N' };
            let unsafe_ = if mode == EXCLUSIVE { 'E' } else { 'S' };
            let safe_at = match state {
                4 | 5 => Some(2),
                6..=8 => Some(1),
                _ => None,
            };
            if let (Some(level), false) = (safe_at, by_try) {
                drew |= note(&mut self.safe_marks[class], (level, safe));
            }
            let unsafe_at: &[u8] = match state {
                0 => &[1, 2],
                1 | 4 => &[1],
                _ => &[],
            };
            for &level in unsafe_at {
                drew |= note(&mut self.unsafe_marks[class], (level, unsafe_));
            }
        }
        // What has no circle and gets no arrow has none.
        self.closed = drew && self.circle();
        true
    }

    /// The letters of all arrows from one class to another.
    fn letters(&self, from: usize, to: usize) -> Vec<(char, char)> {
        let mut all = self.kinds[from * self.k + to].clone();
        for &(level, first) in &self.unsafe_marks[from] {
            for &(at, second) in &self.safe_marks[to] {
                if at == level {
                    all.push((first, second));
                }
            }
        }
        all
    }

    /// Whether a closed strong path exists. Paths are joined at one last class and letter
    /// after the other: for each first class and letter, all last classes and letters.
    fn circle(&self) -> bool {
        // Bit 2c is "ends at c with N", bit 2c + 1 "with R"; row 2c is "begins at c with
        // E", row 2c + 1 "with S".
        let mut ends = vec![0u128; 2 * self.k];
        for from in 0..self.k {
            for to in 0..self.k {
                for (first, second) in self.letters(from, to) {
                    ends[2 * from + usize::from(first == 'S')] |=
                        1 << (2 * to + usize::from(second == 'R'));
                }
            }
        }
        for joint in 0..2 * self.k {
            let (by_e, by_s) = (ends[joint & !1], ends[joint | 1]);
            let further = if joint % 2 == 0 { by_e | by_s } else { by_e };
            for row in ends.iter_mut().filter(|row| **row >> joint & 1 == 1) {
                *row |= further;
            }
        }
        // Closed: it ends where it begins, and not with R where it begins with S.
        (0..self.k).any(|c| {
            let (by_e, by_s) = (ends[2 * c] >> (2 * c) & 3, ends[2 * c + 1] >> (2 * c) & 3);
            by_e != 0 || by_s & 1 != 0
        })
    }
}

/// Adds what isn't there yet; whether it was added.
fn note<T: PartialEq>(list: &mut Vec<T>, what: T) -> bool {
    let new = !list.contains(&what);
    if new {
        list.push(what);
    }
    new
}

/// For each pair, at from x K + to, the number of the accepted record of this list that
/// first drew a hold arrow there, counted among the accepted from 1, 0 for none. Worked
/// out from K and the list alone, refused records standing in it. None for K not 1-64.
pub fn first_seen<R: AsRef<[u8]>>(k: u64, records: &[R]) -> Option<Vec<u32>> {
    first_seen_declared(k, 0, records)
}

/// The same with these classes declared crosslocks. None also for a declared class of K or
/// more.
pub fn first_seen_declared<R: AsRef<[u8]>>(
    k: u64,
    declared: u64,
    records: &[R],
) -> Option<Vec<u32>> {
    let mut books = Books::open_declared(k, declared)?;
    for record in records {
        books.enter(record.as_ref());
    }
    Some(books.numbers)
}

// ---------------------------------------------------------------- the joiner

/// "a joiner of two open desks of one K with their sheets into a third pair": the drawings
/// of both benches in one, on a desk with nothing else. Answers 0, or 1: "The answer is a
/// fault exactly when the joined drawing has a closed strong path, and then the joined desk
/// is closed and a slip written." Or 11, 12, 13 in this order, "and changes nothing".
#[allow(clippy::too_many_arguments)]
pub fn join(
    desk1: &[u8],
    sheet1: &[u8],
    seen1: &[u8],
    desk2: &[u8],
    sheet2: &[u8],
    seen2: &[u8],
    desk: &mut [u8],
    sheet: &mut [u8],
    seen: &mut [u8],
    slip: &mut [u8],
) -> u8 {
    // "It refuses with 11 if either bench is unfit": desk and both sheets, without a slip.
    let first_fits = unfit(desk1, sheet1, seen1, None).is_none();
    let second_fits = unfit(desk2, sheet2, seen2, None).is_none();
    if !first_fits || !second_fits {
        return 11;
    }
    // "or a buffer to be written is too short for the larger K": the slip too, whether or
    // not a fault comes.
    let (k1, k2) = (usize::from(desk1[0]), usize::from(desk2[0]));
    let larger = k1.max(k2);
    let lengths = [desk.len(), sheet.len(), seen.len(), slip.len()];
    let sizes = [DESK, sheet_len(larger), seen_len(larger), slip_len(larger)];
    if (0..lengths.len()).any(|i| lengths[i] < sizes[i]) {
        return 11;
    }
    // "then 12 for different K"; 02 j: "The joiner gives 12 for different declarations too"
    let declared = [desk1, desk2].map(|desk| long_word_at(desk, DECLARED));
    if k1 != k2 || declared[0] != declared[1] {
        return 12;
    }
    // "then 13 for a closed desk"
    if desk1[1] == 1 || desk2[1] == 1 {
        return 13;
    }

    // "the cores are fresh, the record count 0": as opening leaves a desk, with no hold and
    // no origin, and so it stays where a circle comes. 02 j: "and starts with none in
    // progress", whatever is on the two benches; their histories aren't asked for.
    fresh(k1, declared[0], desk, sheet, seen);
    // "The joined sheet has exactly the kinds of either, the marks likewise"
    for class in 0..k1 {
        desk[MARKS + class] = desk1[MARKS + class] | desk2[MARKS + class];
    }
    for pair in 0..sheet_len(k1) {
        sheet[pair] = sheet1[pair] | sheet2[pair];
        // "first-seen numbers come from the first bench, or the second where that has
        // none", whichever of the two a kind comes from.
        let joined_number = match word_at(seen1, WORD * pair) {
            0 => word_at(seen2, WORD * pair),
            firsts => firsts,
        };
        set_word(seen, WORD * pair, joined_number);
    }

    // "a fault exactly when the joined drawing has a closed strong path, and then the joined
    // desk is closed and a slip written": the circle of request c, with the numbers of the
    // joined second sheet.
    let circle = least_circle(desk, sheet, seen);
    let fault = u8::from(circle.is_some());
    desk[1] = fault;
    if let Some(circle) = circle {
        show(slip, &circle, k1, seen);
    }
    fault
}

/// The books of a joined bench, kept like those of an opening. Nothing here reads what
/// [`join`] left, nor shares anything with it but the fit test.
impl Books {
    /// The drawing that stands on a bench, its numbers, and whether it is closed: with fresh
    /// cores and nothing counted, to be joined. None for an unfit one. (A record that draws
    /// nothing finds no circle that stood on an open bench before; a joined one has none.)
    pub fn of_bench(desk: &[u8], sheet: &[u8], seen: &[u8]) -> Option<Books> {
        if unfit(desk, sheet, seen, None).is_some() {
            return None;
        }
        let declared = (0..64).filter(|c| desk[DECLARED + c / 8] >> (c % 8) & 1 == 1);
        let word = declared.fold(0, |word, c| word | 1 << c);
        let mut books = Books::open_declared(u64::from(desk[0]), word)?;
        for class in 0..books.k {
            let has = |bit: u8| desk[MARKS + class] & bit != 0;
            for (bit, level, letter) in [(4, 1, 'E'), (8, 1, 'S'), (64, 2, 'E'), (128, 2, 'S')] {
                if has(bit) {
                    books.unsafe_marks[class].push((level, letter));
                }
            }
            for (bit, level, letter) in [(1, 1, 'N'), (2, 1, 'R'), (16, 2, 'N'), (32, 2, 'R')] {
                if has(bit) {
                    books.safe_marks[class].push((level, letter));
                }
            }
        }
        for (pair, kinds) in books.kinds.iter_mut().enumerate() {
            let letters = [('E', 'R'), ('E', 'N'), ('S', 'R'), ('S', 'N')];
            for (i, arrow) in letters.into_iter().enumerate() {
                if sheet[pair] >> i & 1 == 1 {
                    kinds.push(arrow);
                }
            }
            let number = (0..WORD).map(|i| u32::from(seen[WORD * pair + i]) << (8 * i));
            books.numbers[pair] = number.sum();
        }
        books.closed = desk[1] == 1;
        Some(books)
    }

    /// Whether the desk is closed.
    pub fn closed(&self) -> bool {
        self.closed
    }

    /// These books and the second's in one. None where [`join`] refuses with 12 or 13.
    pub fn joined(&self, second: &Books) -> Option<Books> {
        if self.declared != second.declared || self.closed || second.closed {
            return None;
        }
        let mut books = Books::open(self.k as u64)?;
        books.declared.clone_from(&self.declared);
        for either in [self, second] {
            for pair in 0..self.k * self.k {
                for &arrow in &either.kinds[pair] {
                    note(&mut books.kinds[pair], arrow);
                }
                if books.numbers[pair] == 0 {
                    books.numbers[pair] = either.numbers[pair];
                }
            }
            for class in 0..self.k {
                for &unsafe_mark in &either.unsafe_marks[class] {
                    note(&mut books.unsafe_marks[class], unsafe_mark);
                }
                for &safe_mark in &either.safe_marks[class] {
                    note(&mut books.safe_marks[class], safe_mark);
                }
            }
        }
        books.closed = books.circle();
        Some(books)
    }
}

// ------------------------------------------------------------- the question

/// "which classes end a strong path of one or more arrows from class c? The answer
/// is one 64-bit word, bit i for class i, and how many bits are set." "Refused with
/// 11, then 4; word and count are then 0. A closed desk may be asked." "The question takes
/// both sheets."
pub fn ask(
    desk: &[u8],
    sheet: &[u8],
    seen: &[u8],
    class: u64,
    word: &mut u64,
    count: &mut u32,
) -> u8 {
    *word = 0;
    *count = 0;
    if unfit(desk, sheet, seen, None).is_some() {
        return 11;
    }
    if class >= u64::from(desk[0]) {
        return 4;
    }
    let reached = Arrivals::of(desk, sheet).reach(class as usize);
    for i in 0..64 {
        if reached >> i & 1 == 1 || reached >> (64 + i) & 1 == 1 {
            *word |= 1 << i;
            *count += 1;
        }
    }
    0
}

// ------------------------------------------------------ the order of the merge

/// A core's own records of a list, in their order there. "A record names its core if it meets
/// none of the conditions of refusal 3; one that meets any names no core."
pub fn records_of<R: AsRef<[u8]>>(core: u8, records: &[R]) -> Vec<&[u8]> {
    let names_it = |record: &&[u8]| read_record(record).is_some_and(|it| it.core == core);
    let all = records.iter().map(AsRef::as_ref);
    all.filter(names_it).collect()
}

/// Whether two lists "give each core the same records in the same order". False also where
/// one of them has a malformed record, though it names no core.
pub fn same_for_each_core<R: AsRef<[u8]>>(xs: &[R], ys: &[R]) -> bool {
    let well_formed = |record: &R| read_record(record.as_ref()).is_some();
    let same = |core: u8| records_of(core, xs) == records_of(core, ys);
    xs.iter().chain(ys).all(well_formed) && (0..CORES as u8).all(same)
}

/// "ordinary kinds, no malformed record": takes and releases of locks and interrupt events,
/// and none of kinds 10 to 12. With crosslocks the order of the merge does matter.
pub fn ordinary<R: AsRef<[u8]>>(records: &[R]) -> bool {
    let one = |record: &R| read_record(record.as_ref()).is_some_and(|it| it.kind < TAKE_CROSSLOCK);
    records.iter().all(one)
}

/// One merge of the cores' lists, the first list core 0's: for each choice the next record of
/// that core, or none where it has none left; what is left after the choices follows, list by
/// list. So any choices give a merge, and each merge is given by some.
pub fn merges<R: AsRef<[u8]> + Clone>(lists: &[Vec<R>], choices: &[u8]) -> Vec<R> {
    let mut rests: Vec<_> = lists.iter().map(|list| list.iter()).collect();
    let mut merged = Vec::new();
    for &core in choices {
        let rest = rests.get_mut(usize::from(core));
        merged.extend(rest.and_then(Iterator::next).cloned());
    }
    merged.extend(rests.into_iter().flatten().cloned());
    merged
}

// ------------------------------------------------ document 002's three rules

/// Whether a list has "exclusive takes only": every take (kind 0) that isn't malformed, refused
/// or not, is by mode 0 or its try. Records of other kinds may be any, releases too; malformed
/// ones are let through, as they are refused and draw nothing.
pub fn exclusive_log<R: AsRef<[u8]>>(records: &[R]) -> bool {
    let read = records.iter().filter_map(|r| read_record(r.as_ref()));
    let mut takes = read.filter(|it| it.kind == TAKE);
    takes.all(|it| [EXCLUSIVE, EXCLUSIVE + TRY].contains(&it.mode))
}

/// Whether a desk and sheet of fit lengths have a drawing that exclusive locks can make: no
/// hold arrow (lock dependency) but EN, no usage mark but safe N and unsafe E of either level,
/// and "A softirq-unsafe lock-class is automatically hardirq-unsafe as well."
///
/// Without that last clause the three rules wouldn't be enough: a cycle can then go round by
/// interrupt arrows of both levels though no rule is broken at either.
pub fn is_exclusive(desk: &[u8], sheet: &[u8]) -> bool {
    let k = usize::from(desk[0]);
    let hold_arrows_fit = sheet[..k * k]
        .iter()
        .all(|&kinds| kinds == 0 || kinds == EN);
    // "1 hard-safe N, .. 4 hard-unsafe E, ..; 16, .. 64, .. the same for soft"
    let marks_fit = desk[MARKS..HOLDS].iter().all(|&marks| {
        let only_these = marks & !(1 | 4 | 16 | 64) == 0;
        let (hard_unsafe, soft_unsafe) = (marks & 4 != 0, marks & 64 != 0);
        only_these && (hard_unsafe || !soft_unsafe)
    });
    hold_arrows_fit && marks_fit
}

/// Which of document 002's rules the drawing breaks: "a circle of hold arrows" (a cycle of lock
/// dependencies), "one class safe and unsafe at one level, or a path of hold arrows from a safe
/// class to an unsafe one of that level". A path has one or more hold arrows, each level stands
/// for itself, and of what reads drew nothing is looked at. For desk and sheet of fit lengths.
///
/// It knows no interrupt arrows and no strong paths, and shares nothing with the search for
/// closed ones: which class leads to which is worked out by Warshall's closure of the hold
/// arrows EN alone.
pub fn broken_rules(desk: &[u8], sheet: &[u8]) -> [bool; 3] {
    let k = usize::from(desk[0]);
    let mut leads: Vec<Vec<bool>> = sheet[..k * k]
        .chunks_exact(k)
        .map(|row| row.iter().map(|kinds| kinds & EN != 0).collect())
        .collect();
    for via in 0..k {
        let further = leads[via].clone();
        for row in leads.iter_mut().filter(|row| row[via]) {
            for to in 0..k {
                row[to] |= further[to];
            }
        }
    }
    // "The same lock-class must not be acquired twice", and "two locks may not be taken in
    // different order", "in arbitrary complexity".
    let circle = (0..k).any(|class| leads[class][class]);
    let (mut one_class, mut path) = (false, false);
    for (safe, unsafe_) in [(1, 4), (16, 64)] {
        let marked = |class: usize, mark: u8| desk[MARKS + class] & mark != 0;
        for from in (0..k).filter(|&class| marked(class, safe)) {
            // "<hardirq-safe> and <hardirq-unsafe>", soft alike: "only one of them is allowed
            // to be set for any lock-class"
            one_class |= marked(from, unsafe_);
            // "<hardirq-safe> -> <hardirq-unsafe>", soft alike
            path |= (0..k).any(|to| leads[from][to] && marked(to, unsafe_));
        }
    }
    [circle, one_class, path]
}

// ----------------------------------------------------------------- the feed

const HEADER: usize = 4; // "A log is the header 4C 48 01 K and then records."
const LONG_HEADER: usize = HEADER + 8; // 02 j: "a header 4C 48 02 K is followed by it, low byte first"
const RECORD: usize = 6; // "Six bytes"
pub const LOOSE: usize = LONG_HEADER - 1; // 02 j: "the feed may then keep eleven bytes"

// Where things lie in the feed. The standing answer is 0 or the first answer but 0;
// the number is that of the records judged so far, or, with an answer but 0, of the
// record that got it, low byte first.
const STANDING: usize = 0;
const OPENED: usize = 1; // 0 until the header was complete and the desk opened, then 1
const LOOSE_COUNT: usize = 2; // how many loose bytes there are
const LOOSE_AT: usize = 3; // the loose bytes, in order, unused ones 0
const NUMBER: usize = LOOSE_AT + LOOSE;
pub const FEED: usize = NUMBER + 8;

/// Every name that [`unfit_feed`] can give, in the order in which it looks.
pub const FEED_CLAUSES: [&str; 9] = [
    "feed too short",
    "byte 1 over 1",
    "too many loose bytes",
    "unused loose byte not 0",
    "loose bytes beside a standing answer",
    "before opening, an answer but 0 and 2",
    "before opening, a record number",
    "after opening, no answer of a step",
    "after opening, a standing answer at record 0",
];

/// The first violated clause of the feed's fit test, in the order of [`FEED_CLAUSES`].
pub fn unfit_feed(feed: &[u8]) -> Option<&'static str> {
    if feed.len() < FEED {
        return Some(FEED_CLAUSES[0]);
    }
    if feed[OPENED] > 1 {
        return Some(FEED_CLAUSES[1]);
    }
    let opened = feed[OPENED] == 1;
    let count = usize::from(feed[LOOSE_COUNT]);
    if count > LOOSE {
        return Some(FEED_CLAUSES[2]);
    }
    let (loose, unused) = feed[LOOSE_AT..NUMBER].split_at(count);
    if count >= whole_item(opened, loose) {
        return Some(FEED_CLAUSES[2]);
    }
    if unused.iter().any(|&b| b != 0) {
        return Some(FEED_CLAUSES[3]);
    }
    let answer = feed[STANDING];
    if answer != 0 && count != 0 {
        return Some(FEED_CLAUSES[4]);
    }
    let at_0 = feed[NUMBER..FEED].iter().all(|&b| b == 0);
    if !opened && answer != 0 && answer != 2 {
        return Some(FEED_CLAUSES[5]);
    }
    if !opened && !at_0 {
        return Some(FEED_CLAUSES[6]);
    }
    if opened && !matches!(answer, 0 | 1 | 3..=11 | 15..=19) {
        return Some(FEED_CLAUSES[7]);
    }
    if opened && answer != 0 && at_0 {
        return Some(FEED_CLAUSES[8]);
    }
    None
}

/// How many bytes make the next item whole, by its first bytes: the header, or after it a
/// record. A header's third byte alone decides how long it is.
fn whole_item(opened: bool, first_bytes: &[u8]) -> usize {
    match (opened, first_bytes) {
        (true, _) => RECORD,
        (false, [_, _, 0x02, ..]) => LONG_HEADER,
        (false, _) => HEADER,
    }
}

/// K and the declared word of a whole header. None for a bad or short one.
fn read_header(header: &[u8]) -> Option<(u64, u64)> {
    let (k, declared) = match header {
        [0x4C, 0x48, 0x01, k] => (k, &[][..]),
        [0x4C, 0x48, 0x02, k, declared @ ..] if declared.len() == 8 => (k, declared),
        _ => return None,
    };
    // "low byte first"
    let word = declared
        .iter()
        .rev()
        .fold(0, |word, &byte| word << 8 | u64::from(byte));
    Some((u64::from(*k), word))
}

/// What a feed holds.
struct Feed {
    answer: u8,
    opened: bool,
    loose: Vec<u8>,
    number: u64,
}

impl Feed {
    /// None for an unfit one.
    fn read(feed: &[u8]) -> Option<Feed> {
        if unfit_feed(feed).is_some() {
            return None;
        }
        Some(Feed {
            answer: feed[STANDING],
            opened: feed[OPENED] == 1,
            loose: feed[LOOSE_AT..LOOSE_AT + usize::from(feed[LOOSE_COUNT])].to_vec(),
            number: feed[NUMBER..FEED]
                .iter()
                .rev()
                .fold(0, |n, &b| n << 8 | u64::from(b)),
        })
    }

    /// Into a buffer that was read from.
    fn write(&self, feed: &mut [u8]) {
        feed[..FEED].fill(0);
        feed[STANDING] = self.answer;
        feed[OPENED] = u8::from(self.opened);
        feed[LOOSE_COUNT] = self.loose.len() as u8;
        feed[LOOSE_AT..LOOSE_AT + self.loose.len()].copy_from_slice(&self.loose);
        feed[NUMBER..FEED].copy_from_slice(&self.number.to_le_bytes());
    }

    /// Judges the loose bytes, whole or short, as the header or after it as the next
    /// record. None are left.
    fn judge(
        &mut self,
        desk: &mut [u8],
        sheet: &mut [u8],
        seen: &mut [u8],
        history: &mut [u8],
        slip: &mut [u8],
    ) {
        if self.opened {
            // The number stays at 2^64 - 1 where it would pass it.
            self.number = self.number.saturating_add(1);
            self.answer = step(desk, sheet, seen, history, slip, &self.loose);
        } else {
            self.answer = match read_header(&self.loose) {
                Some((k, declared)) => open(k, declared, desk, sheet, seen, history),
                None => 2,
            };
            self.opened = self.answer == 0;
        }
        self.loose.clear();
    }
}

/// A fresh feed, 22 zeros. Answers 0, or 2: feed under 22, nothing changed.
pub fn feed_start(feed: &mut [u8]) -> u8 {
    if feed.len() < FEED {
        return 2;
    }
    feed[..FEED].fill(0);
    0
}

/// "takes a log under 2 to the 64 bytes in pieces cut anywhere, empty ones too": one
/// more piece, byte by byte. Answers the standing answer, with its number in `record`,
/// or 11 at record 0: feed unfit, nothing changed.
#[allow(clippy::too_many_arguments)]
pub fn feed(
    feed: &mut [u8],
    desk: &mut [u8],
    sheet: &mut [u8],
    seen: &mut [u8],
    history: &mut [u8],
    slip: &mut [u8],
    piece: &[u8],
    record: &mut u64,
) -> u8 {
    *record = 0;
    let Some(mut held) = Feed::read(feed) else {
        return 11;
    };
    for &byte in piece {
        // "Once an answer but 0 has come, further pieces change nothing and repeat it."
        if held.answer != 0 {
            break;
        }
        // "Header and records are judged when complete."
        held.loose.push(byte);
        if held.loose.len() == whole_item(held.opened, &held.loose) {
            held.judge(desk, sheet, seen, history, slip);
        }
    }
    held.write(feed);
    *record = held.number;
    held.answer
}

/// "An end call refuses a missing or short header with 2 at record 0, and after it
/// loose bytes, as a short next record, with 11, 10 or else 3; after an earlier answer
/// but 0 it repeats that one; else it gives 0 and pieces may follow." Or 11 at record
/// 0: feed unfit, nothing changed.
pub fn feed_end(
    feed: &mut [u8],
    desk: &mut [u8],
    sheet: &mut [u8],
    seen: &mut [u8],
    history: &mut [u8],
    slip: &mut [u8],
    record: &mut u64,
) -> u8 {
    *record = 0;
    let Some(mut held) = Feed::read(feed) else {
        return 11;
    };
    if held.answer == 0 && (!held.opened || !held.loose.is_empty()) {
        held.judge(desk, sheet, seen, history, slip);
    }
    held.write(feed);
    *record = held.number;
    held.answer
}

/// The first answer but 0 of a log in one piece and its record number, or 0 and how
/// many records were judged. What is short at its end is looked at only if it has ended.
/// With a history of its own; [`whole_log_kept`] is lent one.
pub fn whole_log(
    log: &[u8],
    desk: &mut [u8],
    sheet: &mut [u8],
    seen: &mut [u8],
    slip: &mut [u8],
    ended: bool,
) -> (u8, u64) {
    whole_log_kept(log, desk, sheet, seen, &mut [0; HISTORY], slip, ended)
}

/// The same with a lent history.
pub fn whole_log_kept(
    log: &[u8],
    desk: &mut [u8],
    sheet: &mut [u8],
    seen: &mut [u8],
    history: &mut [u8],
    slip: &mut [u8],
    ended: bool,
) -> (u8, u64) {
    let Some((header, records)) = log.split_at_checked(whole_item(false, log)) else {
        return (if ended { 2 } else { 0 }, 0);
    };
    let Some((k, declared)) = read_header(header) else {
        return (2, 0);
    };
    if open(k, declared, desk, sheet, seen, history) != 0 {
        return (2, 0);
    }
    let mut number = 0;
    let whole = records.chunks_exact(6);
    let rest = whole.remainder();
    for record in whole {
        number += 1;
        let answer = step(desk, sheet, seen, history, slip, record);
        if answer != 0 {
            return (answer, number);
        }
    }
    if ended && !rest.is_empty() {
        return (step(desk, sheet, seen, history, slip, rest), number + 1);
    }
    (0, number)
}

// ------------------------------------------------------- the balance of a piece

pub const PIECE: usize = 10_000 * RECORD; // "a piece of up to 10,000 records", in bytes

/// "report for each class kind 0 less kind 1 over the records that refusal 3 passes,
/// whether or not a desk would accept them." Answers 0, or 14: "A piece that is longer, or
/// isn't a whole number of records, is refused with 14 and reports 64 zeros."
pub fn balance(piece: &[u8]) -> (u8, [i32; 64]) {
    if piece.len() > PIECE || piece.len() % RECORD != 0 {
        return (14, [0; 64]);
    }
    // Takes and releases are counted apart, for each value that the class byte can have.
    let (mut takes, mut releases) = ([0; 256], [0; 256]);
    let passed = piece.chunks_exact(RECORD).filter_map(read_record);
    for Record { kind, class, .. } in passed {
        match kind {
            TAKE => takes[usize::from(class)] += 1,
            RELEASE => releases[usize::from(class)] += 1,
            // Those of crosslocks neither.
            _ => {}
        }
    }
    // "A balance below zero is an answer, not an error". Only 64 are reported: "Records of
    // class 64 or more count for nothing."
    let balances = std::array::from_fn(|class| takes[class] - releases[class]);
    (0, balances)
}

// ------------------------------------------------------------- the programs

/// The small program of request f if the first argument is the word `balance`, else the
/// one that judges a log.
pub fn run(
    first_argument: Option<&OsStr>,
    input: &mut dyn Read,
    out: &mut dyn Write,
) -> std::io::Result<()> {
    if first_argument == Some(OsStr::new("balance")) {
        run_balance(input, out)
    } else {
        run_log(input, out)
    }
}

/// The program with all its arguments: `join` and the paths of two logs, or else [`run`]. It
/// is an error where a log can't be opened or read, and `join` without two paths.
pub fn run_arguments(
    arguments: &[OsString],
    input: &mut dyn Read,
    out: &mut dyn Write,
) -> std::io::Result<()> {
    match arguments {
        [word, paths @ ..] if word == "join" => {
            let [path1, path2] = paths else {
                return Err(ErrorKind::InvalidInput.into());
            };
            let mut log1 = BufReader::new(File::open(path1)?);
            let mut log2 = BufReader::new(File::open(path2)?);
            run_join(&mut log1, &mut log2, out)
        }
        _ => run(arguments.first().map(|word| word.as_os_str()), input, out),
    }
}

/// Reads until the buffer is full or the input ends; how many bytes came.
fn fill(input: &mut dyn Read, buffer: &mut [u8]) -> std::io::Result<usize> {
    let mut got = 0;
    while got < buffer.len() {
        match input.read(&mut buffer[got..]) {
            Ok(0) => break,
            Ok(more) => got += more,
            Err(e) if e.kind() == ErrorKind::Interrupted => {}
            Err(e) => return Err(e),
        }
    }
    Ok(got)
}

/// "The program reads a log from standard input with small buffers and stops at
/// the first answer but 0."
pub fn run_log(input: &mut dyn Read, out: &mut dyn Write) -> std::io::Result<()> {
    let mut desk = [0; DESK];
    let mut sheet = [0; MAX_K * MAX_K];
    let mut seen = [0; WORD * MAX_K * MAX_K];
    let mut history = [0; HISTORY];
    let mut slip = [0; 1 + ENTRY * MAX_K];

    // "A log is the header 4C 48 01 K and then records.", or the longer header of 02 j. "A bad
    // or short header gives `refused 2 at record 0`"
    let mut header = [0; LONG_HEADER];
    let mut got = fill(input, &mut header[..HEADER])?;
    let size = whole_item(false, &header[..got]);
    got += fill(input, &mut header[got..size])?;
    let opened = read_header(&header[..got])
        .map(|(k, declared)| open(k, declared, &mut desk, &mut sheet, &mut seen, &mut history));
    if opened != Some(0) {
        writeln!(out, "refused 2 at record 0")?;
        return out.flush();
    }

    let mut number: u64 = 0;
    loop {
        let mut record = [0; 6];
        let got = fill(input, &mut record)?;
        if got == 0 {
            // "`clean, N records` (for N = 1 too)"
            writeln!(out, "clean, {number} records")?;
            return out.flush();
        }
        // "records count from 1 and include the one named"; "a short last record is a 3"
        number += 1;
        let answer = step(
            &mut desk,
            &mut sheet,
            &mut seen,
            &mut history,
            &mut slip,
            &record[..got],
        );
        match answer {
            0 => {}
            1 => {
                writeln!(out, "fault at record {number}")?;
                write_circle(&slip, out)?;
                return out.flush();
            }
            answer => {
                writeln!(out, "refused {answer} at record {number}")?;
                return out.flush();
            }
        }
    }
}

/// A bench with room for any K, what a log leaves there, and what was said of the log: its
/// first answer but 0 and the record's number, or 0 and how many records there were.
struct Left {
    desk: Vec<u8>,
    sheet: Vec<u8>,
    seen: Vec<u8>,
    history: Vec<u8>,
    slip: Vec<u8>,
    said: u8,
    at: u64,
}

impl Left {
    fn nothing() -> Left {
        Left {
            desk: vec![0; DESK],
            sheet: vec![0; sheet_len(MAX_K)],
            seen: vec![0; seen_len(MAX_K)],
            history: vec![0; HISTORY],
            slip: vec![0; slip_len(MAX_K)],
            said: 0,
            at: 0,
        }
    }

    /// Feeds a log to a bench: the header, then record by record, up to and with the first
    /// answer but 0, or to its end. No more is read than that.
    fn by(log: &mut dyn Read) -> std::io::Result<Left> {
        let mut left = Left::nothing();
        let Left {
            desk,
            sheet,
            seen,
            history,
            slip,
            said,
            at,
        } = &mut left;
        let mut held = [0; FEED];
        let mut piece = [0; LONG_HEADER];
        let mut size = HEADER;
        loop {
            let got = fill(log, &mut piece[..size])?;
            let bytes = &piece[..got];
            *said = feed(&mut held, desk, sheet, seen, history, slip, bytes, at);
            let ended = got < size;
            if ended {
                *said = feed_end(&mut held, desk, sheet, seen, history, slip, at);
            }
            if ended || *said != 0 {
                return Ok(left);
            }
            // As many as are missing of the longer header, then record by record.
            let loose = usize::from(held[LOOSE_COUNT]);
            let first_bytes = &held[LOOSE_AT..LOOSE_AT + loose];
            size = whole_item(held[OPENED] == 1, first_bytes) - loose;
        }
    }
}

/// Joins what two logs leave: `clean`, `fault` and the circle's lines, or `refused 12`. Or,
/// for each log that isn't clean itself, what [`run_log`] says of it, and nothing of the
/// join. Both logs are read before anything is written.
pub fn run_join(
    log1: &mut dyn Read,
    log2: &mut dyn Read,
    out: &mut dyn Write,
) -> std::io::Result<()> {
    let [left1, left2] = [Left::by(log1)?, Left::by(log2)?];
    for (left, name) in [(&left1, "log 1"), (&left2, "log 2")] {
        if left.said != 0 {
            write!(out, "{name}: ")?;
            write_verdict(
                left.said,
                &format!(" at record {}", left.at),
                &left.slip,
                out,
            )?;
        }
    }
    if left1.said == 0 && left2.said == 0 {
        let mut third = Left::nothing();
        third.said = join(
            &left1.desk,
            &left1.sheet,
            &left1.seen,
            &left2.desk,
            &left2.sheet,
            &left2.seen,
            &mut third.desk,
            &mut third.sheet,
            &mut third.seen,
            &mut third.slip,
        );
        write_verdict(third.said, "", &third.slip, out)?;
    }
    out.flush()
}

/// `clean`, `fault` or `refused` with its number, and the place; a fault's circle after it.
fn write_verdict(said: u8, place: &str, slip: &[u8], out: &mut dyn Write) -> std::io::Result<()> {
    match said {
        0 => writeln!(out, "clean{place}"),
        1 => writeln!(out, "fault{place}").and_then(|()| write_circle(slip, out)),
        refusal => writeln!(out, "refused {refusal}{place}"),
    }
}

/// "A small program prints the classes whose balance isn't 0, lowest first, a line `class
/// balance` each, or `refused 14`." It reads one byte more than the longest piece has and
/// no further: if that byte comes, the piece is longer, however much follows.
pub fn run_balance(input: &mut dyn Read, out: &mut dyn Write) -> std::io::Result<()> {
    let mut piece = vec![0; PIECE + 1];
    let got = fill(input, &mut piece)?;
    match balance(&piece[..got]) {
        (0, balances) => {
            for (class, balance) in balances.iter().enumerate() {
                if *balance != 0 {
                    writeln!(out, "{class} {balance}")?;
                }
            }
        }
        (answer, _) => writeln!(out, "refused {answer}")?,
    }
    out.flush()
}

/// "Printed lines stay.": no numbers.
fn write_circle(slip: &[u8], out: &mut dyn Write) -> std::io::Result<()> {
    let arrows: Vec<&[u8]> = slip[1..]
        .chunks_exact(ENTRY)
        .take(usize::from(slip[0]))
        .collect();
    for (i, arrow) in arrows.iter().enumerate() {
        let to = arrows[(i + 1) % arrows.len()][0];
        let kind = match arrow[1] {
            ER => "ER",
            EN => "EN",
            SR => "SR",
            _ => "SN",
        };
        // "Sources print as hold, hard, soft."
        let source = ["hold", "hard", "soft"][usize::from(arrow[2])];
        writeln!(out, "{} {} {} {}", arrow[0], kind, to, source)?;
    }
    Ok(())
}

#[cfg(test)]
mod tests;
