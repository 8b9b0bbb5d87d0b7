//! The drawing of a list of records, as document 01 has it under "Two desks, one claim": it starts from zero and is worked
//! out from K and the records, never from what a call left in desk or sheet; behind a join it starts from what the two benches
//! have. With it the count of accepted records and the first-seen numbers. No code is shared with a judge, the depth's number
//! and the places on a desk alone. Of crosslocks it keeps all acquires with the number of the visit in which they were made, and strikes
//! nothing out: what a commit draws, what is in progress, and every kept entry follow from the numbers of visits.

use crate::judges::Lent;
use crate::run::Rec;
use reference::{COUNT, DECLARED, DEEPEST, HOLDS, KEPT_COUNT, MARKS, MOST_IN_PROGRESS, MOST_KEPT, PROGRESS, SINCE};

/// No next state.
pub const X: u8 = 255;
/// The next state by state and kind 2 to 9.
pub const NEXT: [[u8; 8]; 9] = [
    [0, 2, 0, 1, 4, X, 6, X],
    [1, 3, 0, 1, X, X, 7, X],
    [0, 2, 2, 3, X, X, X, X],
    [1, 3, 2, 3, X, X, X, X],
    [4, 5, X, X, X, 0, 8, X],
    [4, 5, X, X, X, X, X, X],
    [X, X, X, X, X, X, X, 0],
    [X, X, X, X, X, X, X, 1],
    [X, X, X, X, X, X, X, 4],
];
/// The frame by state: 0 task, 1 soft, 2 hard.
pub const FRAME: [usize; 9] = [0, 0, 0, 0, 1, 1, 2, 2, 2];

#[derive(Clone, Copy, PartialEq)]
struct HeldLock {
    class: usize,
    /// 0 exclusive, 1 read, 2 recursive read.
    mode: u8,
    /// Whether it was acquired by a try, which never waited.
    tried: bool,
}

impl HeldLock {
    /// First letter of a dependency from it: 0 for E, 1 for S.
    fn first(self) -> usize {
        usize::from(self.mode != 0)
    }
    /// Arrival by a dependency to it: its class, 64 more if the second letter is R.
    fn arrival(self) -> usize {
        self.class + if self.mode == 2 { 64 } else { 0 }
    }
}

#[derive(Default)]
struct Core {
    state: u8,
    frames: [Vec<HeldLock>; 3],
    /// How often each of its handlers was entered; the task has one visit without an end.
    visits: [u64; 3],
}

/// An acquire that is kept, and the visit in which it was made.
struct Take {
    core: usize,
    frame: usize,
    visit: u64,
    class: usize,
    mode: u8,
}

impl Take {
    /// Whether its visit goes on.
    fn goes_on(&self, cores: &[Core; 8]) -> bool {
        let core = &cores[self.core];
        let inside = match self.frame {
            0 => true,
            1 => [4, 5, 8].contains(&core.state),
            _ => core.state > 5,
        };
        inside && core.visits[self.frame] == self.visit
    }
}

/// A set of arrivals, bit by bit.
type Set = u128;

pub struct Drawing {
    k: usize,
    /// The crosslocks, and those in progress, each with how many acquires were kept when it was taken.
    pub declared: u64,
    in_progress: Vec<(usize, usize)>,
    /// Since some crosslock is in progress.
    takes: Vec<Take>,
    cores: [Core; 8],
    /// How many records were accepted.
    accepted: u32,
    /// Whether one of them faulted.
    pub closed: bool,
    /// By pair: the number of the accepted record that first drew a lock dependency there, as four bytes from the lowest.
    first_seen: Vec<[u8; 4]>,
    /// By class and first letter: where its lock dependencies lead.
    leads: [[Set; 2]; 64],
    /// By level (hard, soft) and first letter: the classes with that unsafe mark.
    is_unsafe: [[u64; 2]; 2],
    /// By level: the arrivals at classes with a safe mark.
    safe: [Set; 2],
}

impl Drawing {
    /// Of no records.
    pub fn opened(k: usize, declared: u64) -> Drawing {
        Drawing {
            k,
            declared,
            in_progress: Vec::new(),
            takes: Vec::new(),
            cores: Default::default(),
            accepted: 0,
            closed: false,
            first_seen: vec![[0; 4]; k * k],
            leads: [[0; 2]; 64],
            is_unsafe: [[0; 2]; 2],
            safe: [0; 2],
        }
    }

    /// Of a join of two benches: "their drawings then start from its marks and sheet instead of from zero", and the numbers
    /// that are there. No record is counted, and the cores are fresh.
    pub fn joined([one, kinds_one, seen_one]: Lent, [two, kinds_two, seen_two]: Lent) -> Drawing {
        let k = usize::from(one[0]);
        let declared = (0..64).filter(|class| one[DECLARED + class / 8] >> (class % 8) & 1 == 1).map(|class| 1 << class).sum();
        let mut drawing = Drawing::opened(k, declared);
        for (pair, first_seen) in drawing.first_seen.iter_mut().enumerate() {
            let (from, to) = (pair / k, pair % k);
            for kind in (0..4).filter(|kind| (kinds_one[pair] >> kind | kinds_two[pair] >> kind) & 1 == 1) {
                drawing.leads[from][kind / 2] |= 1 << (to + if kind % 2 == 0 { 64 } else { 0 });
            }
            let both = [seen_one, seen_two].map(|seen| [0, 1, 2, 3].map(|i| seen[4 * pair + i]));
            *first_seen = if both[0] != [0; 4] { both[0] } else { both[1] };
        }
        for class in 0..k {
            for bit in (0..8).filter(|bit| (one[MARKS + class] >> bit | two[MARKS + class] >> bit) & 1 == 1) {
                match bit % 4 {
                    0 => drawing.safe[bit / 4] |= 1 << class,
                    1 => drawing.safe[bit / 4] |= 1 << (64 + class),
                    first => drawing.is_unsafe[bit / 4][first - 2] |= 1 << class,
                }
            }
        }
        drawing.closed = drawing.has_closed_strong_path();
        drawing
    }

    /// Takes a record in; a refused one draws nothing and is not counted.
    pub fn take_in(&mut self, record: &Rec) {
        let Some(named) = record.names().filter(|_| !self.closed && self.accepted < u32::MAX) else { return };
        let [_, _, _, kind, class, mode, ..] = record.bytes;
        let lock = HeldLock { class: usize::from(class), mode: mode % 3, tried: mode > 2 };
        let of_lock = kind < 2;
        if of_lock || kind > 9 {
            let is_crosslock = lock.class < self.k && self.declared >> lock.class & 1 == 1;
            if lock.class >= self.k || of_lock == is_crosslock {
                return;
            }
        }
        let number = (self.accepted + 1).to_le_bytes();
        let mut draw = |from: usize, first: usize, arrival: usize| {
            self.leads[from][first] |= 1 << arrival;
            let first_seen = &mut self.first_seen[from * self.k + arrival % 64];
            if *first_seen == [0; 4] {
                *first_seen = number;
            }
        };
        let core = &mut self.cores[usize::from(named)];
        let frame = FRAME[usize::from(core.state)];
        let visit = core.visits[frame];
        let held = &mut core.frames[frame];
        let progress = self.in_progress.iter().position(|&(class, _)| class == lock.class);
        let is_kept = kind == 0 && !lock.tried && !self.in_progress.is_empty();
        match (kind, progress) {
            (0, _) if held.len() == DEEPEST || is_kept && self.takes.len() == MOST_KEPT => return,
            (0, _) => {
                if !lock.tried {
                    held.iter().for_each(|older| draw(older.class, older.first(), lock.arrival()));
                }
                held.push(lock);
                if is_kept {
                    self.takes.push(Take { core: usize::from(named), frame, visit, class: lock.class, mode: lock.mode });
                }
            }
            (10, None) if self.in_progress.len() < MOST_IN_PROGRESS => {
                // It is waited for, and is no lock that could be read.
                held.iter().for_each(|older| draw(older.class, older.first(), lock.class));
                self.in_progress.push((lock.class, self.takes.len()));
            }
            (11, Some(at)) => {
                let here = |take: &&Take| (take.core, take.frame, take.visit) == (usize::from(named), frame, visit);
                for take in self.takes.iter().skip(self.in_progress[at].1).filter(here) {
                    draw(lock.class, 0, take.class + if take.mode == 2 { 64 } else { 0 });
                }
            }
            (12, Some(at)) => {
                self.in_progress.remove(at);
                if self.in_progress.is_empty() {
                    self.takes.clear();
                }
            }
            (10.., _) => return,
            (1, _) => match held.iter().rposition(|h| h.class == lock.class) {
                Some(newest) if held[newest] == lock => drop(held.remove(newest)),
                _ => return,
            },
            _ => match NEXT[usize::from(core.state)][usize::from(kind) - 2] {
                X => return,
                _ if (kind == 7 || kind == 9) && !held.is_empty() => return,
                next => {
                    core.state = next;
                    if kind == 6 || kind == 8 {
                        core.visits[usize::from(kind) / 2 - 2] += 1;
                    }
                }
            },
        }
        self.accepted += 1;
        for held in &core.frames[FRAME[usize::from(core.state)]] {
            for (level, safe_in, unsafe_in) in [(0, &[6, 7, 8][..], &[0, 1, 4][..]), (1, &[4, 5], &[0])] {
                if safe_in.contains(&core.state) && !held.tried {
                    self.safe[level] |= 1 << held.arrival();
                }
                if unsafe_in.contains(&core.state) {
                    self.is_unsafe[level][held.first()] |= 1 << held.class;
                }
            }
        }
    }

    /// Where one more dependency leads from an arrival: after R none that begins with S.
    fn after(&self, arrival: usize) -> Set {
        let class = arrival % 64;
        let firsts = if arrival < 64 { 0..2 } else { 0..1 };
        firsts.fold(0, |all, first| {
            (0..2)
                .filter(|&level| self.is_unsafe[level][first] >> class & 1 == 1)
                .fold(all | self.leads[class][first], |all, level| all | self.safe[level])
        })
    }

    /// Whether some arrival leads back to itself, by Warshall's closure.
    pub fn has_closed_strong_path(&self) -> bool {
        let arrivals = || (0..self.k).chain(64..64 + self.k);
        let mut reach = [0; 128];
        for a in arrivals() {
            reach[a] = self.after(a);
        }
        for between in arrivals() {
            for a in arrivals() {
                if reach[a] >> between & 1 == 1 {
                    reach[a] |= reach[between];
                }
            }
        }
        arrivals().any(|a| reach[a] >> a & 1 == 1)
    }
}

/// What a desk and its sheets have instead.
impl Drawing {
    /// The count, or a number.
    pub fn numbers_differ(&self, desk: &[u8], seen: &[u8]) -> Option<String> {
        let (count, want) = (&desk[COUNT..COUNT + 4], self.accepted.to_le_bytes());
        if *count != want {
            return Some(format!("count {count:?}, and {want:?} by the records"));
        }
        if seen.starts_with(self.first_seen.as_flattened()) {
            return None;
        }
        let numbers = seen.chunks_exact(4).take(self.k * self.k);
        let (pair, (number, want)) = numbers.zip(&self.first_seen).enumerate().find(|(_, (a, b))| a[..] != b[..])?;
        let (from, to) = (pair / self.k, pair % self.k);
        Some(format!("number {number:?} from {from} to {to}, and {want:?} by the records"))
    }

    /// Where crosslocks are declared: a pair's kinds, a class's marks, what is in progress, what is kept, or an entry of the history.
    pub fn crosslocks_differ(&self, desk: &[u8], sheet: &[u8], history: &[u8]) -> Option<String> {
        if self.declared == 0 {
            let lists = desk[DECLARED..SINCE].iter().any(|&byte| byte != 0);
            return lists.then(|| "crosslocks, and none by the records".into());
        }
        let word = |classes: &mut dyn Iterator<Item = usize>| classes.fold(0u64, |word, class| word | 1 << class).to_le_bytes();
        let wanted = word(&mut self.in_progress.iter().map(|&(class, _)| class));
        if desk[DECLARED..PROGRESS] != self.declared.to_le_bytes() || desk[PROGRESS..KEPT_COUNT] != wanted {
            return Some(format!("in progress {:?}, and {wanted:?} by the records", &desk[PROGRESS..KEPT_COUNT]));
        }
        let four = |at: usize, number: usize| desk[at..at + 4] == (number as u32).to_le_bytes();
        if !four(KEPT_COUNT, self.takes.len()) {
            return Some(format!("kept {:?}, and {} by the records", &desk[KEPT_COUNT..SINCE], self.takes.len()));
        }
        if let Some((class, since)) = self.in_progress.iter().find(|(class, since)| !four(SINCE + 4 * class, *since)) {
            return Some(format!("another number than {since} since crosslock {class} was taken"));
        }
        let entry = |take: &Take| match take.goes_on(&self.cores) {
            true => [(1 + 3 * take.core + take.frame) as u8, take.class as u8 + 64 * take.mode],
            false => [0; 2],
        };
        let mut entries = history.chunks_exact(2).zip(&self.takes).map(|(bytes, take)| (bytes, entry(take)));
        if let Some((bytes, wanted)) = entries.find(|(bytes, wanted)| bytes != wanted) {
            return Some(format!("kept entry {bytes:?}, and {wanted:?} by the records"));
        }
        self.kinds_differ(desk, sheet)
    }

    /// The kinds of a pair, as a sheet has them.
    fn kinds(&self, from: usize, to: usize) -> u8 {
        let [by_e, by_s] = self.leads[from].map(|by| (by >> (64 + to) & 1 | (by >> to & 1) << 1) as u8);
        by_e | by_s << 2
    }

    /// The marks of a class, as a desk has them.
    fn marks(&self, class: usize) -> u8 {
        let of_level = |level: usize| {
            let (safe, [e, s]) = (self.safe[level], self.is_unsafe[level]);
            let there = [safe >> class, safe >> (64 + class), Set::from(e >> class), Set::from(s >> class)];
            there.iter().rev().fold(0, |marks, there| marks << 1 | (there & 1) as u8)
        };
        of_level(0) | of_level(1) << 4
    }

    /// The first pair whose kinds, or class whose marks, are not as this wants them beside what the drawing has.
    fn first_not(&self, desk: &[u8], sheet: &[u8], wanted: impl Fn(u8, u8) -> bool) -> Option<String> {
        let pairs = (0..self.k).flat_map(|from| (0..self.k).map(move |to| (from, to)));
        let pair = pairs.zip(sheet).find(|&((from, to), &byte)| !wanted(byte, self.kinds(from, to)));
        if let Some(((from, to), byte)) = pair {
            return Some(format!("kinds {byte} from {from} to {to}, and {} by the records", self.kinds(from, to)));
        }
        let (class, byte) = desk[MARKS..HOLDS].iter().enumerate().find(|&(class, &byte)| !wanted(byte, self.marks(class)))?;
        Some(format!("marks {byte} of {class}, and {} by the records", self.marks(class)))
    }

    /// A pair's kinds, or a class's marks.
    pub fn kinds_differ(&self, desk: &[u8], sheet: &[u8]) -> Option<String> {
        self.first_not(desk, sheet, |byte, own| byte == own)
    }

    /// A pair's kind, or a class's mark, that the drawing has not.
    pub fn lacks(&self, desk: &[u8], sheet: &[u8]) -> Option<String> {
        self.first_not(desk, sheet, |byte, own| byte & !own == 0)
    }
}

/// A list of records from this drawing on: the place of the record at which it first has a closed strong path, and the
/// drawing then, or at its end. What comes behind draws nothing.
pub fn first_closed<'a>(mut drawing: Drawing, list: impl Iterator<Item = &'a Rec>) -> (Option<usize>, Drawing) {
    for (at, record) in list.enumerate() {
        drawing.take_in(record);
        if drawing.has_closed_strong_path() {
            drawing.closed = true;
            return (Some(at), drawing);
        }
    }
    (None, drawing)
}
