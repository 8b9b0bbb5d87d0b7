//! Sights: calls of such a sort that a wrong version of some rule would show there. A run must have met each of them.

use crate::balances::{Tally, LONGEST};
use crate::clashes;
use crate::crosslocks;
use crate::cycles::{Choice, Drawing, Shown};
use crate::drawing::FRAME;
use crate::feeds::{self, ANSWER, KEEP, KEPT, OPENED};
use crate::gen::{mode_at, places_of, sizes};
use crate::judges::{unfit_bench, Lent, CLAUSES};
use crate::numbers::{self, FULL, NO_KINDS, NO_NUMBER};
use crate::older;
use crate::run::{Call, History, Side};
use reference::{COUNT, DECLARED, DEEPEST, DEPTHS, DESK, FEED, FRAMES, HISTORY, HOLDS, MARKS, ORIGINS, STATES};
use std::cell::OnceCell;
use std::ops::{Range, RangeInclusive};

/// The clause of "Unfit" about origins.
pub const ORIGIN: &str = "origin where no hold stands";

/// A call with the desk, the sheets and the feed before and after it, and the slip after it.
pub struct Look<'a> {
    pub call: &'a Call,
    pub before: &'a [u8],
    pub after: &'a [u8],
    pub sheet: &'a [u8],
    pub sheet_after: &'a [u8],
    /// The second sheet.
    pub seen: &'a [u8],
    pub seen_after: &'a [u8],
    /// The lent history of kept acquires.
    pub kept: &'a [u8],
    pub slip: &'a [u8],
    pub slip_before: &'a [u8],
    pub answer: u8,
    /// With answer 11: the first clause of "Unfit" that is violated; at a feed, of the feed's fit test.
    pub clause: Option<&'static str>,
    pub feed: &'a [u8],
    pub feed_after: &'a [u8],
    pub history: History,
    /// The cycle shown, once it is asked for.
    pub shown: OnceCell<Option<Shown>>,
    /// The classes whose marks clash before and after the call, once they are asked for.
    pub clashes: OnceCell<[u64; 2]>,
    /// What is asked of all numbers before the call.
    pub numbers: OnceCell<[bool; 10]>,
    /// What the two benches of a join have, pair by pair and class by class; None where it is to be refused. And whether they fit.
    pub joined: OnceCell<Option<Joined>>,
    pub fit_benches: OnceCell<[bool; 2]>,
    /// What a piece has whose balances are asked for, its whole records up to the limit.
    pub tally: OnceCell<Tally>,
}

fn is_try(desk: &[u8], frame: usize, place: usize) -> bool {
    let bit = DEEPEST * frame + place;
    desk[ORIGINS + bit / 8] >> (bit % 8) & 1 == 1
}

fn depth(desk: &[u8], frame: usize) -> usize {
    usize::from(desk[DEPTHS + frame])
}

fn hold(desk: &[u8], frame: usize, place: usize) -> u8 {
    desk[HOLDS + DEEPEST * frame + place]
}

fn tries(desk: &[u8], frame: usize) -> impl DoubleEndedIterator<Item = usize> + '_ {
    (0..depth(desk, frame)).filter(move |&place| is_try(desk, frame, place))
}

fn waits(desk: &[u8], frame: usize) -> impl DoubleEndedIterator<Item = usize> + '_ {
    (0..depth(desk, frame)).filter(move |&place| !is_try(desk, frame, place))
}

/// Whether nothing but K is on a desk.
fn is_fresh(desk: &[u8]) -> bool {
    desk[1..DESK].iter().all(|&byte| byte == 0)
}

fn has_origins(desk: &[u8]) -> bool {
    desk.len() >= DESK && desk[ORIGINS..COUNT].iter().any(|&b| b != 0)
}

const TRIES: RangeInclusive<u8> = 3..=5;

impl Look<'_> {
    /// Core, kind, class and mode of a record of six bytes with the right signature.
    fn record(&self) -> Option<(u8, u8, u8, u8)> {
        let Call::Step(record) = self.call else { return None };
        let &[0x4C, 0x4B, core @ 0..=7, kind @ 0..=12, class, mode] = record.slice() else { return None };
        Some((core, kind, class, mode))
    }
    /// The same if it was accepted, and has this kind.
    fn accepted(&self, wanted: u8) -> Option<(u8, u8)> {
        self.record().filter(|r| self.answer < 2 && r.1 == wanted).map(|(_, _, class, mode)| (class, mode))
    }
    fn core(&self) -> usize {
        self.record().map_or(0, |r| usize::from(r.0))
    }
    /// The core's state and frame before an accepted record.
    fn state(&self) -> u8 {
        self.before[STATES + self.core()]
    }
    fn frame(&self) -> usize {
        3 * self.core() + FRAME[usize::from(self.state())]
    }
    fn state_after(&self) -> u8 {
        self.after[STATES + self.core()]
    }
    fn frame_after(&self) -> usize {
        3 * self.core() + FRAME[usize::from(self.state_after())]
    }
    fn tries_mode(&self, mode: u8) -> bool {
        self.accepted(0).is_some_and(|r| r.1 == mode)
    }
    fn tries(&self) -> bool {
        self.accepted(0).is_some_and(|r| TRIES.contains(&r.1))
    }
    fn tries_in(&self, state: u8) -> bool {
        self.tries() && self.state() == state
    }
    fn waits(&self) -> bool {
        self.accepted(0).is_some_and(|r| r.1 < 3)
    }
    /// The place of the held lock that an accepted release removes.
    fn released(&self) -> Option<usize> {
        let (class, _) = self.accepted(1)?;
        (0..depth(self.before, self.frame())).rev().find(|&p| hold(self.before, self.frame(), p) % 64 == class)
    }
    /// The same, where this holds of the desk before, the frame and the place.
    fn release(&self, such: impl Fn(&[u8], usize, usize) -> bool) -> bool {
        self.released().is_some_and(|place| such(self.before, self.frame(), place))
    }
    /// A record after which a try stands that stood before, in a handler, on a class that lacks the safe mark which it
    /// would get if it had waited.
    fn passes_over(&self, states: &[u8]) -> bool {
        let Some((_, kind, ..)) = self.record().filter(|_| self.answer < 2) else { return false };
        let (state, frame, desk) = (self.state_after(), self.frame_after(), self.after);
        let old = depth(desk, frame) - usize::from(kind == 0);
        let unmarked = |place: usize| {
            let lock = hold(desk, frame, place);
            let safe = (if lock / 64 == 2 { 2 } else { 1 }) << if state < 6 { 4 } else { 0 };
            desk[MARKS + usize::from(lock % 64)] & safe == 0
        };
        states.contains(&state) && tries(desk, frame).any(|place| place < old && unmarked(place))
    }
    /// An acquire in a handler after which its class is held by a try and by a wait for which this holds.
    fn both_ways(&self, such: impl Fn(u8, u8) -> bool) -> bool {
        let Some((class, _)) = self.accepted(0).filter(|_| self.state() > 3) else { return false };
        let (desk, frame) = (self.after, self.frame());
        let of_class = |&place: &usize| hold(desk, frame, place) % 64 == class;
        tries(desk, frame).filter(of_class).any(|t| {
            waits(desk, frame).filter(of_class).any(|w| such(hold(desk, frame, t) / 64, hold(desk, frame, w) / 64))
        })
    }
    fn clause(&self, name: &str) -> bool {
        self.answer == 11 && self.clause == Some(name)
    }
    /// Refused for nothing but an origin, and this holds of the frame and of a place past its depth with one.
    fn origin(&self, such: impl Fn(usize, usize) -> bool) -> bool {
        let desk = self.before;
        self.clause(ORIGIN)
            && (0..FRAMES).any(|f| (depth(desk, f)..DEEPEST).any(|p| is_try(desk, f, p) && such(f, p)))
    }
    /// Refused for nothing but the desk's length.
    fn short(&self, lens: Range<usize>) -> bool {
        let whole = || {
            let mut desk = self.before.to_vec();
            desk.resize(DESK, 0);
            desk
        };
        let fit = |desk: &[u8]| unfit_bench([desk, &[0; 64 * 64], &[0; 4 * 64 * 64]]).is_none();
        self.clause(CLAUSES[0]) && lens.contains(&self.before.len()) && fit(&whole())
    }
    /// An opening refused with a good K and a desk of such a length.
    fn opens(&self, lens: Range<usize>) -> bool {
        matches!(self.call, Call::Open(1..=64, _)) && self.answer == 2 && lens.contains(&self.before.len())
    }
    fn refused(&self, answer: u8, such: impl Fn(u8, u8, u8) -> bool) -> bool {
        self.answer == answer && self.record().is_some_and(|(_, kind, class, mode)| such(kind, class, mode))
    }
    /// K, or 0 on an empty desk.
    fn classes(&self) -> u8 {
        self.before.first().copied().unwrap_or(0)
    }
}

/// Releases, and the modes of the acquires that they end.
impl Look<'_> {
    /// A release on a fit and open desk that refusals 3 and 4 let pass: its frame, class and mode.
    fn released_in(&self) -> Option<(usize, u8, u8)> {
        let (_, kind, class, mode) = self.record().filter(|_| self.answer < 10)?;
        (kind == 1 && class < self.classes() && mode < 6).then(|| (self.frame(), class, mode))
    }
    /// One with such a mode, of whichever class, that a fit and open desk got.
    fn released_by(&self, modes: RangeInclusive<u8>) -> bool {
        ![10, 11].contains(&self.answer) && self.record().is_some_and(|(_, kind, _, mode)| kind == 1 && modes.contains(&mode))
    }
    /// One accepted in this mode.
    fn fitted(&self, mode: u8) -> bool {
        self.accepted(1).is_some_and(|r| r.1 == mode)
    }
    /// One refused though the class is held in the frame, such that this holds of the newest lock's mode and the release's.
    fn unfitted(&self, such: impl Fn(u8, u8) -> bool) -> bool {
        self.unfitted_at(|frame, newest, mode| such(mode_at(self.before, frame, newest), mode))
    }
    /// The same of the frame, the newest lock's place and the release's mode.
    fn unfitted_at(&self, such: impl Fn(usize, usize, u8) -> bool) -> bool {
        let Some((frame, class, mode)) = self.released_in().filter(|_| self.answer == 5) else { return false };
        places_of(self.before, frame, class).next_back().is_some_and(|newest| such(frame, newest, mode))
    }
    /// The same, such that this holds of the modes of the older locks of the class, the oldest first, and the release's.
    fn unfitted_over(&self, such: impl Fn(&[u8], u8) -> bool) -> bool {
        self.unfitted_at(|frame, newest, mode| {
            let class = hold(self.before, frame, newest) % 64;
            let older: Vec<u8> = places_of(self.before, frame, class).map(|place| mode_at(self.before, frame, place)).collect();
            such(&older[..older.len() - 1], mode)
        })
    }
    /// The modes of the newest lock and of the release, where an older lock of the class has the release's.
    pub fn older_fits(&self) -> Option<(u8, u8)> {
        let (frame, class, mode) = self.released_in().filter(|_| self.answer == 5)?;
        let newest = places_of(self.before, frame, class).next_back()?;
        let fits = places_of(self.before, frame, class).any(|place| mode_at(self.before, frame, place) == mode);
        fits.then(|| (mode_at(self.before, frame, newest), mode))
    }
    /// One refused where the class is not held in the frame but in such another one in the release's mode.
    fn held_elsewhere(&self, such: impl Fn(usize, usize) -> bool) -> bool {
        let Some((frame, class, mode)) = self.released_in().filter(|_| self.answer == 5) else { return false };
        let fits = |other: usize| places_of(self.before, other, class).any(|place| mode_at(self.before, other, place) == mode);
        places_of(self.before, frame, class).next().is_none() && (0..FRAMES).any(|other| other != frame && such(frame, other) && fits(other))
    }
    /// One accepted whose lock has another origin than such a place of a frame, if there is one.
    fn origin_unlike(&self, other: impl Fn(usize, usize) -> Option<(usize, usize)>) -> bool {
        self.release(|desk, f, p| other(f, p).is_some_and(|(g, q)| is_try(desk, f, p) != is_try(desk, g, q)))
    }
}

/// Deep frames, and desks of earlier versions.
impl Look<'_> {
    /// An accepted acquire over so many held locks.
    fn acquires_over(&self, depths: RangeInclusive<usize>) -> bool {
        self.accepted(0).is_some() && depths.contains(&depth(self.before, self.frame()))
    }
    /// A pair drawn first by a held lock at this place or a later one, and by none before it.
    fn drew_from(&self, place: usize) -> bool {
        self.waits() && depth(self.before, self.frame()) > place && {
            let draws = self.draws();
            let before = |pair: usize| draws[..place].iter().any(|d| d.0 == pair);
            draws[place..].iter().any(|d| self.sheet[d.0] == 0 && !before(d.0))
        }
    }
    /// A kind of a pair likewise.
    fn drew_kind_from(&self, place: usize) -> bool {
        self.waits() && depth(self.before, self.frame()) > place && {
            let draws = self.draws();
            draws[place..].iter().any(|d| self.sheet[d.0] & d.1 == 0 && !draws[..place].contains(d))
        }
    }
    /// A class that is marked, held at this place or a later one, and not in the same mode and by the same sort before it.
    fn marked_from(&self, place: usize) -> bool {
        self.record().is_some() && self.answer < 2 && depth(self.after, self.frame_after()) > place && {
            let (desk, frame) = (self.after, self.frame_after());
            let lock = |place: usize| (hold(desk, frame, place), is_try(desk, frame, place));
            let marked = |class: usize| self.before[MARKS + class] != desk[MARKS + class];
            let at = |p: usize| marked(usize::from(lock(p).0 % 64)) && !(0..place).any(|q| lock(q) == lock(p));
            (place..depth(desk, frame)).any(at)
        }
    }
    fn releases_at(&self, places: RangeInclusive<usize>) -> bool {
        self.release(|_, _, place| places.contains(&place))
    }
    /// A release by which something changes at a place from this one on that still has a lock.
    fn moves_from(&self, from: usize, differ: impl Fn(&[u8], usize, usize) -> bool) -> bool {
        self.release(|desk, f, place| (place.max(from)..depth(desk, f) - 1).any(|to| differ(desk, f, to)))
    }
    fn moves_lock(&self, from: usize) -> bool {
        self.moves_from(from, |desk, f, to| hold(desk, f, to) != hold(desk, f, to + 1))
    }
    fn moves_origin(&self, from: usize) -> bool {
        self.moves_from(from, |desk, f, to| is_try(desk, f, to) != is_try(desk, f, to + 1))
    }
    /// A step or a question on a fit desk with such a depth.
    fn fit_depth(&self, depths: RangeInclusive<u8>) -> bool {
        self.fit_pairs().is_some() && self.before[DEPTHS..MARKS].iter().any(|depth| depths.contains(depth))
    }
    /// Refused for nothing but depths, and each that is over the limit is such.
    fn over_limit(&self, such: impl Fn(u8) -> bool) -> bool {
        let over = |depth: u8| usize::from(depth) > DEEPEST;
        self.clause("depth over the limit") && self.before[DEPTHS..MARKS].iter().all(|&d| !over(d) || such(d)) && {
            let mut desk = self.before.to_vec();
            desk[DEPTHS..MARKS].iter_mut().for_each(|depth| *depth = (*depth).min(DEEPEST as u8));
            unfit_bench([&desk, self.sheet, self.seen]).is_none()
        }
    }
    /// Refused for the locks at places from this one on alone: by this clause, of which this is the test, of a lock and K.
    fn standing_from(&self, place: usize, clause: &str, wrong: impl Fn(u8, u8) -> bool) -> bool {
        let (desk, k) = (self.before, self.classes());
        self.clause(clause) && (0..FRAMES).all(|f| (0..depth(desk, f).min(place)).all(|p| !wrong(hold(desk, f, p), k)))
    }
    /// Refused for bytes that are not 0 at unused places from this one on alone.
    fn unused_from(&self, place: usize) -> bool {
        let desk = self.before;
        self.clause("unused hold not 0") && (0..FRAMES).all(|f| (depth(desk, f)..place).all(|p| hold(desk, f, p) == 0))
    }
    /// Refused for origins at such frames and places alone.
    fn origins_only(&self, such: impl Fn(usize, usize) -> bool) -> bool {
        let desk = self.before;
        self.clause(ORIGIN)
            && (0..FRAMES).all(|f| (depth(desk, f)..DEEPEST).all(|p| !is_try(desk, f, p) || such(f, p)))
    }
    /// Refused on a desk that an earlier version takes, in a buffer with such bytes behind the old ones.
    fn old(&self, such: impl Fn(&[u8]) -> bool) -> bool {
        let clauses = [CLAUSES[0], "hold class K or more", "hold mode 3", "unused hold not 0", ORIGIN];
        let refused = matches!(self.call, Call::Step(_) | Call::Ask(_)) && clauses.iter().any(|clause| self.clause(clause));
        let fit = |desk: &[u8]| unfit_bench([desk, self.sheet, self.seen]).is_none();
        refused
            && self.before.get(older::DESK..).is_some_and(such)
            && older::read_as_old(self.before).is_some_and(|desk| fit(&desk))
    }
    /// The same in a buffer that is long enough today.
    fn old_in_longer(&self, zeros: bool) -> bool {
        let today = DESK - older::DESK;
        self.old(|behind| behind.len() >= today && zeros == behind[..today].iter().all(|&byte| byte == 0))
    }
}

/// Crosslocks.
impl Look<'_> {
    /// An accepted record of this kind: the class.
    fn crossed(&self, wanted: u8) -> Option<usize> {
        self.accepted(wanted).map(|(class, _)| usize::from(class))
    }
    fn crosses(&self, kind: u8, such: impl Fn(usize) -> bool) -> bool {
        self.crossed(kind).is_some_and(such)
    }
    /// A record on a fit and open desk with this answer, such that this holds of its kind, class and mode.
    fn answered(&self, answer: u8, such: impl Fn(u8, u8, u8) -> bool) -> bool {
        self.refused(answer, such)
    }
    fn progress(&self) -> u64 {
        crosslocks::in_progress(self.before)
    }
    fn kept_count(&self) -> usize {
        crosslocks::kept(self.before)
    }
    /// The entries that are kept before the call, with their places.
    fn entries(&self) -> impl DoubleEndedIterator<Item = (usize, [u8; 2])> + '_ {
        (0..self.kept_count()).map(|at| (at, [self.kept[2 * at], self.kept[2 * at + 1]]))
    }
    /// An accepted commit such that this holds of a kept entry, by its place, the crosslock's since number, and the own frame.
    fn commits(&self, such: impl Fn(usize, [u8; 2], usize, usize) -> bool) -> bool {
        self.crosses(11, |class| {
            let since = crosslocks::since(self.before, class) as usize;
            self.entries().any(|(at, entry)| such(at, entry, since, self.frame()))
        })
    }
    /// The same of one that it draws.
    fn draws_kept(&self, such: impl Fn(usize, u8) -> bool) -> bool {
        self.commits(|at, [place, lock], since, frame| at >= since && usize::from(place) == 1 + frame && such(at, lock))
    }
    /// An accepted take of a crosslock over a held lock such that this holds of its place.
    fn takes_over(&self, such: impl Fn(&[u8], usize, usize) -> bool) -> bool {
        self.crossed(10).is_some() && (0..depth(self.before, self.frame())).any(|place| such(self.before, self.frame(), place))
    }
    /// An acquire that is kept.
    fn is_kept(&self) -> bool {
        self.waits() && self.progress() != 0
    }
    /// An accepted exit of a handler, such that this holds of a kept entry's place byte and its own.
    fn exits(&self, such: impl Fn(usize, u8, usize) -> bool) -> bool {
        let exits = self.record().is_some_and(|r| self.answer < 2 && (r.1 == 7 || r.1 == 9));
        exits && self.entries().any(|(at, [place, _])| such(at, place, 1 + self.frame()))
    }
    /// Whether the core's current frame holds a lock that lacks a mark it is to have.
    fn lacks_mark(&self) -> bool {
        let (desk, frame) = (self.before, self.frame());
        (0..depth(desk, frame)).any(|place| {
            let marks = clashes::marks_of(self.state(), mode_at(desk, frame, place));
            desk[MARKS + usize::from(hold(desk, frame, place) % 64)] & marks != marks
        })
    }
    /// A step on a fit desk, such that this holds of the word in progress and the kept count.
    fn fit_lists(&self, such: impl Fn(u64, usize) -> bool) -> bool {
        let fit = matches!(self.call, Call::Step(_)) && ![11].contains(&self.answer) && self.before.len() >= DESK;
        fit && such(self.progress(), self.kept_count())
    }
}

/// A piece or an end over a fit feed.
impl Look<'_> {
    fn fit_feed(&self) -> bool {
        matches!(self.call, Call::Feed(_) | Call::FeedEnd) && self.clause.is_none()
    }
    fn opened(&self) -> bool {
        self.feed.get(OPENED) == Some(&1)
    }
    fn kept(&self) -> usize {
        self.feed.get(KEPT).map_or(0, |&kept| usize::from(kept))
    }
    /// A slip too short for the K of this desk.
    fn short_slip(&self, desk: &[u8]) -> bool {
        desk.first().is_some_and(|k| (1..=64).contains(k) && self.slip.len() < 1 + 7 * usize::from(*k))
    }
    /// The piece, where the feed stands at this answer, or at any but 0.
    fn piece_at(&self, stopped: bool) -> Option<&[u8]> {
        match self.call {
            Call::Feed(piece) if self.fit_feed() && (self.feed[ANSWER] != 0) == stopped => Some(piece),
            _ => None,
        }
    }
    fn piece(&self, such: impl Fn(&[u8]) -> bool) -> bool {
        self.piece_at(false).is_some_and(such)
    }
    /// A piece that begins over so many loose bytes.
    fn over(&self, opened: bool, kept: usize) -> bool {
        self.piece(|p| !p.is_empty()) && self.opened() == opened && self.kept() == kept
    }
    /// A piece that ends with so many.
    fn leaves(&self, opened: bool, kept: usize) -> bool {
        let after = self.feed_after;
        self.piece(|p| !p.is_empty()) && self.answer == 0 && (after[OPENED], after[KEPT]) == (u8::from(opened), kept as u8)
    }
    /// Its bytes, where a piece completes the header and is refused, else accepted.
    fn header(&self, refused: bool) -> Option<Vec<u8>> {
        let piece = self.piece_at(false).filter(|piece| !self.opened() && feeds::completes(self.feed, piece))?;
        let mut header = [&self.feed[KEEP..KEEP + self.kept()], &piece[..piece.len().min(12)]].concat();
        header.truncate(feeds::header_length(&header));
        (refused == (self.feed_after[OPENED] == 0)).then_some(header)
    }
    fn bad_header(&self, such: impl Fn(&[u8]) -> bool) -> bool {
        self.header(true).is_some_and(|header| such(&header))
    }
    /// The same of a header of four bytes, or of twelve: its first four bytes, and the word behind them.
    fn bad(&self, length: usize, such: impl Fn([u8; 4], u64) -> bool) -> bool {
        self.bad_header(|header| {
            let word = header[4..].iter().rev().fold(0, |word, &byte| word << 8 | u64::from(byte));
            header.len() == length && such([header[0], header[1], header[2], header[3]], word)
        })
    }
    /// A good header whose desk, sheet, second sheet or history alone is too short, by its place among these.
    fn short_for_header(&self, which: usize) -> bool {
        self.bad_header(|h| {
            let pairs = usize::from(h[3]) * usize::from(h[3]);
            let short = [self.before.len() < DESK, self.sheet.len() < pairs, self.seen.len() < 4 * pairs, self.kept.len() < HISTORY];
            let declared = h[4..].iter().rev().fold(0u64, |word, &byte| word << 8 | u64::from(byte));
            let well = h[..2] == [0x4C, 0x48] && (1..=2).contains(&h[2]) && (1..=64).contains(&h[3]);
            well && declared & !(u64::MAX >> (64 - h[3])) == 0 && (0..4).all(|i| short[i] == (i == which))
        })
    }
    /// How many records a piece got judged.
    fn records(&self) -> u64 {
        feeds::number(self.feed_after) - feeds::number(self.feed)
    }
    /// How many bytes of a piece come behind the record that stops the feed.
    fn behind(&self) -> Option<usize> {
        let piece = self.piece_at(false).filter(|_| self.answer != 0)?;
        let begun = || [&self.feed[KEEP..KEEP + self.kept()], &piece[..piece.len().min(12)]].concat();
        let header = if self.opened() { 0 } else { feeds::header_length(&begun()) };
        // The number stays at the top.
        (feeds::number(self.feed_after) != u64::MAX)
            .then(|| (self.kept() + piece.len()).checked_sub(header + 6 * self.records() as usize))?
    }
    fn stops(&self, answer: u8) -> bool {
        self.piece(|_| true) && self.answer == answer
    }
    /// A record refused on a desk that an earlier version takes, in a buffer that is long enough today.
    fn fed_old(&self) -> bool {
        let (sheet, seen) = (self.sheet, self.seen);
        let fit = |desk: &[u8]| unfit_bench([desk, sheet, seen]).is_none();
        let longer = self.stops(11) && self.records() == 1 && self.before.len() >= DESK && !self.short_slip(self.before);
        longer && !fit(self.before) && older::read_as_old(self.before).is_some_and(|desk| fit(&desk))
    }
    /// An end over a feed that stands at no answer.
    fn end(&self, opened: bool, kept: usize, answer: u8) -> bool {
        matches!(self.call, Call::FeedEnd)
            && self.fit_feed()
            && self.feed[ANSWER] == 0
            && (self.opened(), self.kept(), self.answer) == (opened, kept, answer)
    }
    /// A call after a stop.
    fn stood(&self) -> bool {
        self.fit_feed() && self.feed[ANSWER] != 0
    }
    fn start(&self, such: impl Fn(&[u8]) -> bool) -> bool {
        matches!(self.call, Call::FeedStart) && such(self.feed)
    }
}

/// The balances of a piece.
impl Look<'_> {
    fn length(&self) -> usize {
        if let Call::Balance(piece) = self.call { piece.len() } else { 0 }
    }
    fn tally(&self) -> &Tally {
        let whole = |piece: &[u8]| Tally::of(&piece[..piece.len().min(LONGEST)]);
        self.tally.get_or_init(|| if let Call::Balance(piece) = self.call { whole(piece) } else { Tally::default() })
    }
    fn weighs(&self, such: impl Fn(&Tally) -> bool) -> bool {
        self.answer == 0 && such(self.tally())
    }
    fn some_balance(&self, such: impl Fn(i32) -> bool) -> bool {
        self.weighs(|t| t.any(&such))
    }
    /// A record malformed in this way alone.
    fn only_by(&self, way: usize) -> bool {
        self.weighs(|t| t.only_by[way] > 0)
    }
    /// After a step since opening that was answered so, and records.
    fn desk_said(&self, answer: u8) -> bool {
        self.history.answers >> answer & 1 == 1 && self.weighs(|t| t.counted() > 0)
    }
}

/// A fault: the cycle that the slip shows.
impl Look<'_> {
    fn shown(&self) -> Option<&Shown> {
        let joins = matches!(self.call, Call::Join(_)) && self.made().is_some();
        let faults = self.answer == 1 && (joins || self.record().is_some() || self.piece_at(false).is_some());
        let shown = || if faults { Shown::of(self.after, self.sheet_after, self.seen_after, self.slip) } else { None };
        self.shown.get_or_init(shown).as_ref()
    }
    fn shows(&self, such: impl Fn(&Shown) -> bool) -> bool {
        self.shown().is_some_and(such)
    }
    /// A choice that would take another cycle.
    fn chooses(&self, choice: Choice) -> bool {
        self.shows(|s| s.chooses(choice))
    }
    fn of_length(&self, lengths: RangeInclusive<usize>) -> bool {
        self.shows(|s| lengths.contains(&s.n()))
    }
    /// A cycle that passes neither the record's class nor a lock held in its frame.
    fn apart(&self) -> bool {
        let (Some(shown), Some((_, kind, class, _))) = (self.shown(), self.record()) else { return false };
        let frame = self.frame_after();
        let mut held = (0..depth(self.after, frame)).map(|place| hold(self.after, frame, place) % 64);
        !(kind < 2 && shown.passes(class)) && !held.any(|class| shown.passes(class))
    }
    fn clean_before(&self) -> bool {
        !Drawing::of(self.before, self.sheet, self.seen).has_cycle()
    }
}

/// The count and the first-seen numbers.
impl Look<'_> {
    /// A step on a fit desk, and whatever it answers but 10 and 11: the count before it.
    fn counted(&self) -> Option<u32> {
        (matches!(self.call, Call::Step(_)) && ![10, 11].contains(&self.answer)).then(|| numbers::count(self.before))
    }
    /// An accepted step at such a count.
    fn counts_at(&self, such: impl Fn(u32) -> bool) -> bool {
        self.answer < 2 && self.counted().is_some_and(such)
    }
    /// A step on a fit desk at the last count with this answer.
    fn at_full(&self, answer: u8) -> bool {
        matches!(self.call, Call::Step(_)) && self.answer == answer && numbers::count(self.before) == FULL
    }
    /// The pairs and kinds that this record draws, or would draw if it were accepted, where it is an acquire that waits, or takes or
    /// commits a crosslock; the newest held lock's last.
    fn draws(&self) -> Vec<(usize, u8)> {
        let Some((_, kind @ (0 | 10 | 11), class, mode @ 0..3)) = self.record().filter(|_| self.answer < 10) else { return Vec::new() };
        let (desk, k, frame) = (self.before, usize::from(self.classes()), self.frame());
        if usize::from(class) >= k {
            return Vec::new();
        }
        if kind == 11 {
            let since = crosslocks::since(desk, usize::from(class)) as usize;
            let kept = self.entries().filter(|&(at, [place, _])| at >= since && usize::from(place) == 1 + frame);
            return kept.map(|(_, [_, lock])| (usize::from(class) * k + usize::from(lock % 64), if lock < 128 { 2 } else { 1 })).collect();
        }
        let held = (0..depth(desk, frame)).map(|place| hold(desk, frame, place));
        let kind = |lock: u8| (if lock < 64 { 1 } else { 4 }) << u8::from(mode != 2);
        held.map(|lock| (usize::from(lock % 64) * k + usize::from(class), kind(lock))).collect()
    }
    /// An accepted record that draws a pair such that this holds of its kinds before, the kind drawn, and its number after.
    fn drew(&self, such: impl Fn(u8, u8, u32) -> bool) -> bool {
        let after = |pair: usize| numbers::number(self.seen_after, pair);
        self.answer < 2 && self.draws().iter().any(|&(pair, kind)| such(self.sheet[pair], kind, after(pair)))
    }
    fn drew_first(&self, such: impl Fn(u32) -> bool) -> bool {
        self.drew(|before, _, number| before == 0 && such(number))
    }
    /// A record refused with 9, of this kind.
    fn full_for(&self, such: impl Fn(u8, u8) -> bool) -> bool {
        self.at_full(9) && self.record().is_some_and(|(_, kind, _, mode)| such(kind, mode))
    }
    /// A dependency shown such that this holds of its pair, its kind, its source, and the number of the pair.
    fn showed(&self, such: impl Fn(usize, u8, u8, u32) -> bool) -> bool {
        let k = usize::from(self.after.first().copied().unwrap_or(0));
        self.shows(|s| {
            (0..s.n()).any(|i| {
                let pair = usize::from(s.cycle[i][0]) * k + s.to(i);
                such(pair, s.cycle[i][1], s.cycle[i][2], numbers::number(self.seen_after, pair))
            })
        })
    }
    fn showed_number(&self, such: impl Fn(u32) -> bool) -> bool {
        self.showed(|_, _, source, number| source == 0 && such(number))
    }
    /// Refused for a number, where this holds of a pair that does not fit so, and K.
    fn unfit_number(&self, clause: &str, such: impl Fn(usize, usize) -> bool) -> bool {
        matches!(self.call, Call::Step(_) | Call::Ask(_)) && self.clause(clause) && {
            let k = usize::from(self.classes());
            (0..k * k).any(|pair| {
                let (kinds, number) = (self.sheet[pair], numbers::number(self.seen, pair));
                let unfit = if clause == NO_NUMBER { kinds != 0 && number == 0 } else { kinds == 0 && number != 0 };
                unfit && such(pair, k)
            })
        }
    }
    /// A step or a question on a fit desk: K x K.
    fn fit_pairs(&self) -> Option<usize> {
        let fit = matches!(self.call, Call::Step(_) | Call::Ask(_)) && self.answer != 11;
        fit.then(|| usize::from(self.classes()) * usize::from(self.classes()))
    }
    /// The same: whether a number is the count; whether one under it has a greater low byte, and is under 2 to the 31 where the count
    /// is not; whether one is above it, at the first pair, behind the first row, at the last pair, by one, with no greater low byte,
    /// by its high byte alone, and over 2 to the 31 where the count is not.
    fn fit_numbers(&self) -> [bool; 10] {
        *self.numbers.get_or_init(|| {
            let Some(pairs) = self.fit_pairs() else { return [false; 10] };
            let (count, k) = (numbers::count(self.before), usize::from(self.classes()));
            let numbers = || self.seen[..4 * pairs].chunks_exact(4).map(|four| u32::from_le_bytes(four.try_into().unwrap()));
            // Without a branch, as most desks have none above the count.
            let mut all = [false; 10];
            for n in numbers() {
                all[0] |= (n == count) & (n != 0);
                all[1] |= (n < count) & (n as u8 > count as u8);
                all[2] |= (n < count) & (n != 0) & (n >> 31 == 0);
                all[3] |= n > count;
            }
            all[2] &= count >> 31 == 1;
            if all[3] {
                for (pair, n) in numbers().enumerate().filter(|(_, n)| *n > count) {
                    all[4] |= pair >= k;
                    all[5] |= k > 1 && pair + 1 == pairs;
                    all[6] |= n == count + 1;
                    all[7] |= n as u8 <= count as u8;
                    all[8] |= n << 8 <= count << 8;
                    all[9] |= n >> 31 > count >> 31;
                }
            }
            all
        })
    }
    /// A step or a question on a fit desk with a number above the count, at the first pair.
    fn first_above(&self) -> bool {
        self.fit_numbers()[3] && numbers::number(self.seen, 0) > numbers::count(self.before)
    }
    /// The same, where the pair behind the last does not fit.
    fn past_unfit(&self) -> bool {
        self.fit_pairs().is_some_and(|past| {
            self.sheet.len() > past && self.seen.len() >= 4 * past + 4 && {
                let (kinds, number) = (self.sheet[past], numbers::number(self.seen, past));
                (kinds == 0) != (number == 0)
            }
        })
    }
    /// A piece with a record that is judged on a desk with a number above the count.
    fn fed_above(&self) -> bool {
        self.piece(|_| true) && self.opened() && self.answer != 11 && self.records() > 0 && {
            let (k, count) = (usize::from(self.classes()), numbers::count(self.before));
            self.seen.chunks_exact(4).take(k * k).any(|four| u32::from_le_bytes(four.try_into().unwrap()) > count)
        }
    }
    /// Refused for nothing but the second sheet's length.
    fn short_seen(&self, lens: impl Fn(usize) -> Range<usize>) -> bool {
        self.clause("second sheet too short") && {
            let k = usize::from(self.classes());
            lens(k * k).contains(&self.seen.len())
        }
    }
    /// Refused for nothing but the slip's length.
    fn slip_of(&self, length: impl Fn(usize) -> usize) -> bool {
        let fit = || unfit_bench([self.before, self.sheet, self.seen]).is_none();
        self.clause("slip too short") && self.slip.len() == length(usize::from(self.classes())) && fit()
    }
    /// An opening refused for nothing but the second sheet's length.
    fn opens_seen(&self, lens: impl Fn(usize) -> Range<usize>) -> bool {
        let Call::Open(k @ 1..=64, _) = *self.call else { return false };
        let pairs = (k * k) as usize;
        let well = self.before.len() >= DESK && self.sheet.len() >= pairs;
        self.answer == 2 && well && lens(pairs).contains(&self.seen.len())
    }
    fn opened_over(&self, such: impl Fn(usize) -> bool) -> bool {
        matches!(self.call, Call::Open(k, _) if self.answer == 0 && such((k * k) as usize))
    }
    /// A piece or an end over a feed that stands at 9.
    fn stood_at_9(&self) -> bool {
        self.stood() && self.feed[ANSWER] == 9
    }
    /// Whether a piece's records drew a pair's first kind.
    fn drew_in_piece(&self) -> bool {
        self.piece(|_| true) && self.opened() && self.records() > 0 && self.seen != self.seen_after
    }
}

/// Clashes: classes whose marks make a cycle of one dependency by themselves.
impl Look<'_> {
    fn clashes(&self) -> [u64; 2] {
        *self.clashes.get_or_init(|| [self.before, self.after].map(clashes::on))
    }
    /// A step that faults with clashes on the desk: the classes.
    fn clash(&self) -> Option<u64> {
        let faults = self.answer == 1 && self.record().is_some();
        Some(self.clashes()[1]).filter(|&clash| faults && clash != 0)
    }
    /// A step whose marks make the first clash.
    fn clash_by(&self, kinds: &[u8]) -> bool {
        self.clash().is_some() && self.clashes()[0] == 0 && self.record().is_some_and(|r| kinds.contains(&r.1))
    }
    /// A step over clashes that marks nothing and draws nothing.
    fn clash_stood(&self) -> bool {
        let marks = |desk: &[u8]| desk[MARKS..HOLDS].to_vec();
        self.clash().is_some() && marks(self.before) == marks(self.after) && self.sheet == self.sheet_after
    }
    /// A step that faults with one clash, at a class such that this holds of it and K.
    fn clash_at(&self, such: impl Fn(u32, u32) -> bool) -> bool {
        self.clash().is_some_and(|c| c.is_power_of_two() && such(c.trailing_zeros(), u32::from(self.classes())))
    }
    /// A step that faults with a clash over lock dependencies that all go up, or all down.
    fn clash_over(&self, up: bool) -> bool {
        self.clash().is_some() && {
            let k = usize::from(self.classes());
            let drawn = || (0..k * k).filter(|&at| self.sheet_after[at] != 0);
            drawn().next().is_some() && drawn().all(|at| if up { at / k < at % k } else { at / k > at % k })
        }
    }
    /// A step that shows a dependency of a class to itself, with clashes on the desk: the class, the kind, the source, and
    /// the classes that clash.
    fn one_of_clash(&self, such: impl Fn(usize, u8, u8, u64) -> bool) -> bool {
        let Some(clash) = self.clash() else { return false };
        self.shows(|s| s.n() == 1 && such(usize::from(s.cycle[0][0]), s.cycle[0][1], s.cycle[0][2], clash))
    }
    /// The kinds of a class's lock dependency to itself.
    fn own(&self, class: usize) -> u8 {
        self.sheet_after[class * (usize::from(self.classes()) + 1)]
    }
    /// The same by an interrupt, where this holds of the kinds of lock dependencies of some of these classes to themselves.
    fn clash_and_own(&self, such: fn(u8) -> bool, of: fn(usize, usize) -> Range<usize>) -> bool {
        self.one_of_clash(|class, _, source, _| {
            source > 0 && of(class, usize::from(self.classes())).any(|other| such(self.own(other)))
        })
    }
    /// An accepted record that leaves no cycle of one dependency, and a class with such marks.
    fn none_of_one(&self, such: fn(u8) -> bool) -> bool {
        let none = self.answer == 0 && self.record().is_some() || self.of_length(2..=64);
        none && self.after[MARKS..HOLDS].iter().any(|&m| such(m))
    }
}

/// What two benches that are joined have.
#[derive(Clone, Copy, Default)]
pub struct Joined {
    /// Pairs with kinds on the first alone, on the second alone, on both alike, with a kind that the first alone has, with one that
    /// the second alone has.
    pairs: [bool; 5],
    /// Marks likewise, of a class that has marks on both benches.
    marks: [bool; 5],
    /// Numbers of a pair on both: the first's less, the first's greater; a first's with a low byte of 0.
    numbers: [bool; 3],
    /// A number above the count of its bench, on the first and on the second.
    above: [bool; 2],
}

/// Joins.
impl Look<'_> {
    fn benches(&self) -> Option<[Lent<'_>; 2]> {
        let Call::Join(sides) = self.call else { return None };
        Some(sides.each_ref().map(|side| side.lent([self.before, self.sheet, self.seen])))
    }
    /// A join such that this holds of the two benches.
    fn joins(&self, such: impl Fn(Lent, Lent) -> bool) -> bool {
        self.benches().is_some_and(|[one, two]| such(one, two))
    }
    /// One that was not refused, and is not to be.
    fn made(&self) -> Option<Joined> {
        let well = || self.answer < 2 && self.with_room() == Some([false; 2]) && self.both_k().is_some_and(|[one, two]| one == two);
        *self.joined.get_or_init(|| self.benches().filter(|_| well()).map(|[one, two]| Joined::of(one, two)))
    }
    fn joined(&self) -> Joined {
        self.made().unwrap_or_default()
    }
    /// Whether each bench is fit.
    fn fit_benches(&self) -> [bool; 2] {
        let fit = |[desk, sheet, seen]: Lent| unfit_bench([desk, sheet, seen]).is_none();
        *self.fit_benches.get_or_init(|| self.benches().map_or([false; 2], |benches| benches.map(fit)))
    }
    /// The smaller and the larger K of two fit benches.
    fn both_k(&self) -> Option<[usize; 2]> {
        let [one, two] = self.benches().filter(|_| self.fit_benches() == [true; 2])?.map(|bench| usize::from(bench[0][0]));
        Some([one.min(two), one.max(two)])
    }
    /// A join of fit benches such that this holds of the lengths of the buffers to be written, and their sizes for the smaller and
    /// for the larger K; and of the benches' K.
    fn room(&self, such: impl Fn([usize; 4], [usize; 4], [usize; 4]) -> bool) -> bool {
        self.both_k().is_some_and(|[small, large]| {
            let lengths = [self.before.len(), self.sheet.len(), self.seen.len(), self.slip.len()];
            such(lengths, sizes(small), sizes(large))
        })
    }
    /// Refused for one buffer alone, by its place: with such a length beside its sizes for the smaller and for the larger K.
    fn short_alone(&self, which: usize, such: impl Fn(usize, usize, usize) -> bool) -> bool {
        self.answer == 11
            && self.room(|lengths, small, large| {
                let others = (0..4).all(|i| i == which || lengths[i] >= large[i]);
                others && lengths[which] < large[which] && such(lengths[which], small[which], large[which])
            })
    }
    /// Enough room for the larger K, and which of the fit benches are closed.
    fn with_room(&self) -> Option<[bool; 2]> {
        let room = self.room(|lengths, _, large| (0..4).all(|i| lengths[i] >= large[i]));
        self.benches().filter(|_| room).map(|benches| benches.map(|bench| bench[0][1] == 1))
    }
    fn closed(&self, answer: u8, closed: [bool; 2]) -> bool {
        self.answer == answer && self.with_room() == Some(closed)
    }
    /// A bench unfit, the other fit and such that this holds of its desk.
    fn one_unfit(&self, side: usize, such: impl Fn(&[u8]) -> bool) -> bool {
        let mut fit = [true; 2];
        fit[side] = false;
        self.answer == 11 && self.fit_benches() == fit && self.joins(|one, two| such([two, one][side][0]))
    }
    /// A join that was not refused, such that this holds of the desk of one bench, by its place.
    fn joins_desk(&self, side: usize, such: impl Fn(&[u8]) -> bool) -> bool {
        self.made().is_some() && self.joins(|one, two| such([one, two][side][0]))
    }
    /// A fault, and which benches have a cycle of their own.
    fn own_cycles(&self, which: [bool; 2]) -> bool {
        let own = |[desk, sheet, seen]: Lent| Drawing::of(desk, sheet, seen).has_cycle();
        self.answer == 1 && self.made().is_some() && self.benches().is_some_and(|benches| benches.map(own) == which)
    }
    /// A dependency shown such that this holds of its pair, its kind, its source, and the kinds and the numbers that the benches have
    /// for the pair.
    fn shown_of(&self, such: impl Fn(u8, u8, [u8; 2], [u32; 2]) -> bool) -> bool {
        self.benches().is_some_and(|benches| {
            self.showed(|pair, kind, source, _| {
                such(kind, source, benches.map(|bench| bench[1][pair]), benches.map(|bench| numbers::number(bench[2], pair)))
            })
        })
    }
    /// An interrupt shown whose unsafe mark only one bench has, and whose safe mark only the other.
    fn interrupt_across(&self) -> bool {
        let Some([one, two]) = self.benches() else { return false };
        self.shows(|s| {
            (0..s.n()).any(|i| {
                let [from, kind, source] = s.cycle[i];
                let level = if source == 2 { 4 } else { 0 };
                let (is_unsafe, safe) = ((if kind < 4 { 4 } else { 8 }) << level, (if kind == 1 || kind == 4 { 2 } else { 1 }) << level);
                let has = |bench: Lent, class: usize, mark: u8| bench[0][MARKS + class] & mark != 0;
                let [f, t] = [usize::from(from), s.to(i)];
                let across = |a: Lent, b: Lent| has(a, f, is_unsafe) && !has(a, t, safe) && has(b, t, safe) && !has(b, f, is_unsafe);
                source > 0 && (across(one, two) || across(two, one))
            })
        })
    }
    /// Which side is the case's own bench.
    fn own_side(&self, own: [bool; 2]) -> bool {
        matches!(self.call, Call::Join(sides) if sides.each_ref().map(|side| matches!(side, Side::Own)) == own) && self.answer < 2
    }
    /// A step on a joined desk, so many steps behind the join, such that this holds.
    fn steps_joined(&self, such: impl Fn(u64) -> bool) -> bool {
        matches!(self.call, Call::Step(_)) && self.history.joined.is_some_and(such)
    }
}

impl Joined {
    fn of(one: Lent, two: Lent) -> Joined {
        let mut all = Joined::default();
        let k = usize::from(one[0][0]);
        let sort = |found: &mut [bool; 5], a: u8, b: u8| {
            found[0] |= a != 0 && b == 0;
            found[1] |= a == 0 && b != 0;
            found[2] |= a != 0 && a == b;
            found[3] |= b != 0 && a & !b != 0;
            found[4] |= a != 0 && b & !a != 0;
        };
        let counts = [one, two].map(|bench| numbers::count(bench[0]));
        for pair in 0..k * k {
            let kinds = [one, two].map(|bench| bench[1][pair]);
            if kinds == [0; 2] {
                continue;
            }
            sort(&mut all.pairs, kinds[0], kinds[1]);
            let n = [one, two].map(|bench| numbers::number(bench[2], pair));
            all.numbers[0] |= n[0] != 0 && n[0] < n[1];
            all.numbers[1] |= n[1] != 0 && n[0] > n[1];
            all.numbers[2] |= n[0] != 0 && n[0] as u8 == 0 && n[1] != 0;
            (0..2).for_each(|i| all.above[i] |= n[i] > counts[i]);
        }
        (0..k).for_each(|class| sort(&mut all.marks, one[0][MARKS + class], two[0][MARKS + class]));
        all
    }
}

pub struct Sight {
    pub name: &'static str,
    /// The least number in 100,000 random cases.
    pub least: u64,
    /// Whether calls of the feed are such, those of the balance, joins, or others.
    of: Of,
    met: fn(&Look) -> bool,
}

#[derive(Clone, Copy, PartialEq, Eq)]
enum Of {
    Feed,
    Balance,
    Join,
    Others,
}

const fn sight(name: &'static str, least: u64, met: fn(&Look) -> bool) -> Sight {
    Sight { name, least, of: Of::Others, met }
}

const fn at_feed(name: &'static str, least: u64, met: fn(&Look) -> bool) -> Sight {
    Sight { name, least, of: Of::Feed, met }
}

const fn at_balance(name: &'static str, least: u64, met: fn(&Look) -> bool) -> Sight {
    Sight { name, least, of: Of::Balance, met }
}

const fn at_join(name: &'static str, least: u64, met: fn(&Look) -> bool) -> Sight {
    Sight { name, least, of: Of::Join, met }
}

impl Sight {
    pub fn met(&self, look: &Look) -> bool {
        let of = match look.call {
            Call::Balance(_) => Of::Balance,
            Call::Join(_) => Of::Join,
            call if call.of_feed() => Of::Feed,
            _ => Of::Others,
        };
        self.of == of && (self.met)(look)
    }
}

pub const SIGHTS: &[Sight] = &[
    // Acquires.
    sight("try of an exclusive lock", 11_000, |l| l.tries_mode(3)),
    sight("try of a read", 7200, |l| l.tries_mode(4)),
    sight("try of a recursive read", 13_000, |l| l.tries_mode(5)),
    sight("try over a held lock that waited", 7800, |l| l.tries() && waits(l.before, l.frame()).next().is_some()),
    sight("try over a try", 21_000, |l| l.tries() && tries(l.before, l.frame()).next().is_some()),
    sight("acquire over a try", 6200, |l| l.waits() && tries(l.before, l.frame()).next().is_some()),
    sight("acquire over an exclusive try", 1900, |l| {
        l.waits() && tries(l.before, l.frame()).any(|p| hold(l.before, l.frame(), p) < 64)
    }),
    // Usage marks.
    sight("try in a task, marked", 15_000, |l| l.tries() && l.state() < 2),
    sight("exclusive try marked unsafe", 6900, |l| l.tries_mode(3) && [0, 1, 4].contains(&l.state())),
    sight("try in state 4", 3700, |l| l.tries_in(4)),
    sight("try in state 5", 1600, |l| l.tries_in(5)),
    sight("try in state 6", 3000, |l| l.tries_in(6)),
    sight("try in state 7", 1200, |l| l.tries_in(7)),
    sight("try in state 8", 1600, |l| l.tries_in(8)),
    sight("try held over a hard on", 1300, |l| {
        l.accepted(2).is_some() && [2, 3, 5].contains(&l.state()) && tries(l.before, l.frame()).next().is_some()
    }),
    sight("try held over a soft on", 380, |l| {
        l.accepted(4).is_some() && l.state() == 1 && tries(l.before, l.frame()).next().is_some()
    }),
    sight("event over a held try", 10_000, |l| {
        l.record().is_some_and(|r| l.answer < 2 && r.1 > 1) && tries(l.after, l.frame_after()).next().is_some()
    }),
    sight("record after a try in a soft handler", 7800, |l| l.passes_over(&[4, 5])),
    sight("record after a try in a hard handler", 7600, |l| l.passes_over(&[6, 7, 8])),
    sight("event after a try in a handler", 2100, |l| {
        l.record().is_some_and(|r| r.1 > 1) && l.passes_over(&[4, 5, 6, 7, 8])
    }),
    sight("try and wait of one class in a handler", 1500, |l| l.both_ways(|_, _| true)),
    sight("try and wait of one class and one letter in a handler", 1300, |l| {
        l.both_ways(|t, w| (t == 2) == (w == 2))
    }),
    sight("try and wait of one class and two letters in a handler", 260, |l| {
        l.both_ways(|t, w| (t == 2) != (w == 2))
    }),
    // Releases.
    sight("release of a try", 23_000, |l| l.release(is_try)),
    sight("release below a try", 11_000, |l| l.release(|desk, f, p| tries(desk, f).any(|t| t > p))),
    sight("release between a try and a wait above it", 5600, |l| {
        l.release(|desk, f, p| (p..depth(desk, f) - 1).any(|q| is_try(desk, f, q) != is_try(desk, f, q + 1)))
    }),
    sight("release that moves an origin to the byte before", 2800, |l| {
        l.release(|desk, f, p| tries(desk, f).any(|t| t > p && (DEEPEST * f + t) % 8 == 0))
    }),
    sight("release with a try on top", 23_000, |l| l.release(|desk, f, _| is_try(desk, f, depth(desk, f) - 1))),
    sight("release in a full frame, a try first in the next", 81, |l| {
        l.release(|desk, f, _| depth(desk, f) == DEEPEST && f + 1 < FRAMES && is_try(desk, f + 1, 0))
    }),
    sight("release in a frame not full, a try first in the next", 1500, |l| {
        l.release(|desk, f, _| depth(desk, f) < DEEPEST && f + 1 < FRAMES && is_try(desk, f + 1, 0))
    }),
    sight("release with a try in a later frame", 19_000, |l| {
        l.release(|desk, f, _| (f + 1..FRAMES).any(|g| tries(desk, g).next().is_some()))
    }),
    sight("release of a try over a wait of its class", 2100, |l| {
        l.release(|desk, f, p| {
            is_try(desk, f, p) && waits(desk, f).any(|w| hold(desk, f, w) % 64 == hold(desk, f, p) % 64)
        })
    }),
    sight("release of a wait over a try of its class", 1300, |l| {
        l.release(|desk, f, p| {
            !is_try(desk, f, p) && tries(desk, f).any(|t| hold(desk, f, t) % 64 == hold(desk, f, p) % 64)
        })
    }),
    sight("release where the class is held in two modes", 6600, |l| {
        l.release(|desk, f, p| {
            let lock = hold(desk, f, p);
            (0..p).any(|q| hold(desk, f, q) % 64 == lock % 64 && hold(desk, f, q) != lock)
        })
    }),
    // The mode of a release.
    sight("release of an exclusive lock", 10_000, |l| l.fitted(0)),
    sight("release of a read", 5800, |l| l.fitted(1)),
    sight("release of a recursive read", 12_000, |l| l.fitted(2)),
    sight("release of an exclusive try", 7200, |l| l.fitted(3)),
    sight("release of a try of a read", 4300, |l| l.fitted(4)),
    sight("release of a try of a recursive read", 7400, |l| l.fitted(5)),
    sight("release in mode 1 or 2", 20_000, |l| l.released_by(1..=2)),
    sight("release in mode 3 to 5", 21_000, |l| l.released_by(3..=5)),
    sight("release below a newer lock of another class", 17_000, |l| l.release(|desk, f, p| p + 1 < depth(desk, f))),
    sight("read released as a write", 540, |l| l.unfitted(|newest, mode| newest % 3 > 0 && mode == newest / 3 * 3)),
    sight("write released as a read", 500, |l| l.unfitted(|newest, mode| newest % 3 == 0 && mode % 3 > 0 && mode / 3 == newest / 3)),
    sight("one read released as the other", 540, |l| {
        l.unfitted(|newest, mode| newest % 3 > 0 && mode % 3 > 0 && mode != newest && mode / 3 == newest / 3)
    }),
    sight("try released as a wait", 470, |l| l.unfitted(|newest, mode| newest == mode + 3)),
    sight("wait released as a try", 470, |l| l.unfitted(|newest, mode| newest + 3 == mode)),
    sight("release in another mode and by another origin", 660, |l| {
        l.unfitted(|newest, mode| newest / 3 != mode / 3 && newest % 3 != mode % 3)
    }),
    sight("release of a lock in another mode, of mode 0", 520, |l| l.unfitted(|_, mode| mode == 0)),
    sight("release that no lock of its class fits", 2000, |l| l.unfitted_over(|older, mode| !older.contains(&mode))),
    sight("release that the oldest lock of its class fits", 520, |l| l.unfitted_over(|older, mode| older.first() == Some(&mode))),
    sight("release that the lock of its class below the newest fits", 510, |l| l.unfitted_over(|older, mode| older.last() == Some(&mode))),
    sight("release that a lock of its class between others fits alone", 380, |l| {
        l.unfitted_over(|older, mode| older.contains(&mode) && older.first() != Some(&mode) && older.last() != Some(&mode))
    }),
    sight("release in a log from opening that an older lock fits", 330, |l| l.history.steps.is_some() && l.older_fits().is_some()),
    sight("release that an older lock fits, and the newest by its mode", 190, |l| {
        l.older_fits().is_some_and(|(newest, mode)| newest % 3 == mode % 3)
    }),
    sight("release that an older lock fits, and the newest by its origin", 630, |l| {
        l.older_fits().is_some_and(|(newest, mode)| newest / 3 == mode / 3)
    }),
    sight("release that fits the mode of one, the origin of another", 40, |l| {
        let fits = |older: &[u8], newest: u8, mode: u8| newest / 3 == mode / 3 && older.iter().any(|m| m % 3 == mode % 3 && m / 3 != mode / 3);
        l.unfitted_at(|f, p, mode| {
            let class = hold(l.before, f, p) % 64;
            let all: Vec<u8> = places_of(l.before, f, class).map(|place| mode_at(l.before, f, place)).collect();
            !all.contains(&mode) && fits(&all, mode_at(l.before, f, p), mode)
        })
    }),
    sight("release that the frame's newest lock, of another class, fits", 230, |l| {
        l.unfitted_at(|f, p, mode| p + 1 < depth(l.before, f) && mode_at(l.before, f, depth(l.before, f) - 1) == mode)
    }),
    sight("release that fits, the frame's newest of another class and mode", 10_000, |l| {
        l.release(|desk, f, p| {
            let top = depth(desk, f) - 1;
            p < top && mode_at(desk, f, top) != mode_at(desk, f, p)
        })
    }),
    sight("release that fits, an older lock of its class in another mode", 7300, |l| {
        l.release(|desk, f, p| places_of(desk, f, hold(desk, f, p) % 64).any(|q| mode_at(desk, f, q) != mode_at(desk, f, p)))
    }),
    sight("release that fits, an older one too, others between", 5300, |l| {
        l.release(|desk, f, p| {
            let same = |q: usize| hold(desk, f, q) == hold(desk, f, p) && is_try(desk, f, q) == is_try(desk, f, p);
            (0..p).any(|q| same(q) && !(q..p).all(same))
        })
    }),
    sight("release of a class held in another frame of the core alone", 26, |l| l.held_elsewhere(|f, other| f / 3 == other / 3)),
    sight("release of a class held on another core alone", 190, |l| l.held_elsewhere(|f, other| f / 3 != other / 3)),
    sight("release in a mode that another frame fits", 760, |l| {
        l.unfitted_at(|f, p, mode| {
            let (desk, class) = (l.before, hold(l.before, f, p) % 64);
            (0..FRAMES).any(|g| g != f && places_of(desk, g, class).next_back().is_some_and(|q| mode_at(desk, g, q) == mode))
        })
    }),
    sight("release whose origin the place above does not have", 14_000, |l| {
        l.origin_unlike(|f, p| Some((f, p + 1)).filter(|_| p + 1 < DEEPEST))
    }),
    sight("release whose origin the place below does not have", 4600, |l| l.origin_unlike(|f, p| p.checked_sub(1).map(|q| (f, q)))),
    sight("release whose origin the frame's newest does not have", 3600, |l| l.origin_unlike(|f, _| Some((f, depth(l.before, f) - 1)))),
    sight("release whose origin the task's place does not have", 5800, |l| l.origin_unlike(|f, p| Some((f / 3 * 3, p)))),
    sight("release whose origin the first frame's place does not have", 15_000, |l| l.origin_unlike(|_, p| Some((0, p)))),
    sight("release in another mode at place 20 to 31", 230, |l| l.unfitted_at(|_, p, _| (20..32).contains(&p))),
    sight("release in another mode at place 32 to 47", 460, |l| l.unfitted_at(|_, p, _| p >= 32)),
    sight("release in another mode in a full frame", 250, |l| l.unfitted_at(|f, _, _| depth(l.before, f) == DEEPEST)),
    sight("release in another mode in a task", 1900, |l| l.unfitted_at(|f, _, _| f % 3 == 0)),
    sight("release in another mode in a soft handler", 540, |l| l.unfitted_at(|f, _, _| f % 3 == 1)),
    sight("release in another mode in a hard handler", 740, |l| l.unfitted_at(|f, _, _| f % 3 == 2)),
    sight("release in another mode over a lock that lacks a mark", 530, |l| {
        l.unfitted_at(|f, _, _| {
            let lacks = |place: usize| {
                let marks = clashes::marks_of(l.state(), mode_at(l.before, f, place));
                l.before[MARKS + usize::from(hold(l.before, f, place) % 64)] & marks != marks
            };
            (0..depth(l.before, f)).any(lacks)
        })
    }),
    sight("release in another mode where a cycle stands", 200, |l| l.unfitted(|_, _| true) && !l.clean_before()),
    sight("release in another mode at the last count", 240, |l| l.unfitted(|_, _| true) && numbers::count(l.before) == FULL),
    // Deep frames.
    sight("acquire over 20 held locks", 430, |l| l.acquires_over(20..=20)),
    sight("acquire over 21 to 46 held locks", 7500, |l| l.acquires_over(21..=46)),
    sight("acquire that fills a frame", 2400, |l| l.acquires_over(DEEPEST - 1..=DEEPEST - 1)),
    sight("try over 20 to 31 held locks", 2100, |l| l.tries() && l.acquires_over(20..=31)),
    sight("try over 32 to 46 held locks", 1800, |l| l.tries() && l.acquires_over(32..=46)),
    sight("try that fills a frame", 1200, |l| l.tries() && l.acquires_over(DEEPEST - 1..=DEEPEST - 1)),
    sight("pair drawn first from place 20 on alone", 2400, |l| l.drew_from(20)),
    sight("pair drawn first from place 32 on alone", 1300, |l| l.drew_from(32)),
    sight("pair drawn first from place 46 alone", 240, |l| l.drew_from(DEEPEST - 2)),
    sight("kind drawn first from place 20 on alone", 2500, |l| l.drew_kind_from(20)),
    sight("kind drawn first from place 32 on alone", 1300, |l| l.drew_kind_from(32)),
    sight("mark from place 20 on alone", 2100, |l| l.marked_from(20)),
    sight("mark from place 32 on alone", 1000, |l| l.marked_from(32)),
    sight("mark from place 47 alone", 240, |l| l.marked_from(DEEPEST - 1)),
    sight("release at place 20 to 31", 1300, |l| l.releases_at(20..=31)),
    sight("release at place 32 to 46", 3000, |l| l.releases_at(32..=46)),
    sight("release at place 47", 790, |l| l.releases_at(DEEPEST - 1..=DEEPEST - 1)),
    sight("release at the first place of a full frame", 30, |l| l.release(|desk, f, p| p == 0 && depth(desk, f) == DEEPEST)),
    sight("release that moves a lock to place 20 or more", 4600, |l| l.moves_lock(20)),
    sight("release that moves a lock to place 32 or more", 3600, |l| l.moves_lock(32)),
    sight("release that moves an origin to place 20 or more", 1700, |l| l.moves_origin(20)),
    sight("release that moves an origin to place 32 or more", 1400, |l| l.moves_origin(32)),
    sight("release in a frame with tries in all six bytes", 3000, |l| {
        l.release(|desk, f, _| (0..DEEPEST / 8).all(|byte| tries(desk, f).any(|t| t / 8 == byte)))
    }),
    sight("try in a frame but the first", 26_000, |l| l.tries() && l.frame() > 0),
    // The cycle shown.
    sight("cycle of 1 dependency", 990, |l| l.of_length(1..=1)),
    sight("cycle of 2 dependencies", 820, |l| l.of_length(2..=2)),
    sight("cycle of 3 dependencies", 260, |l| l.of_length(3..=3)),
    sight("cycle of 4 to 7 dependencies", 190, |l| l.of_length(4..=7)),
    sight("cycle of 8 to 15 dependencies", 62, |l| l.of_length(8..=15)),
    sight("cycle of 16 to 31 dependencies", 31, |l| l.of_length(16..=31)),
    sight("cycle of 32 to 63 dependencies", 17, |l| l.of_length(32..=63)),
    sight("cycle of 64 dependencies", 3, |l| l.of_length(64..=64)),
    sight("several cycles of the fewest", 1000, |l| l.shows(|s| s.several)),
    sight("several cycles of the fewest, 4 or more dependencies", 230, |l| l.of_length(4..=64) && l.shows(|s| s.several)),
    sight("several cycles of the fewest, closed by one record", 160, |l| l.shows(|s| s.several) && l.clean_before()),
    sight("cycle by the kind before the next class", 170, |l| l.chooses(Choice::NextBeforeKind)),
    sight("cycle by the source before the next class", 24, |l| l.chooses(Choice::NextBeforeSource)),
    sight("cycle by the kind before the source", 140, |l| l.chooses(Choice::SourceBeforeKind)),
    sight("cycle by ER before EN, or SR before SN", 520, |l| l.chooses(Choice::KindsByLetters)),
    sight("cycle by hold before hard before soft", 160, |l| l.chooses(Choice::SourcesBackwards)),
    sight("cycle that first parents do not lead to", 410, |l| l.chooses(Choice::Parents)),
    sight("cycle closed by R before one closed by N", 340, |l| l.chooses(Choice::ClosedByN)),
    sight("cycle where one less is barred by the closing joint", 230, |l| l.chooses(Choice::ClosingIgnored)),
    sight("interrupt ER before hold EN on one pair", 20, |l| l.shows(|s| s.beside(|(a, b), other| a == 0 && b > 0 && other == (1, 0)))),
    sight("hold before an interrupt of one kind on one pair", 70, |l| l.shows(|s| s.beside(|a, b| a.0 == b.0 && a.1 == 0))),
    sight("hard before soft of one kind on one pair", 55, |l| l.shows(|s| s.beside(|a, b| a == (b.0, 1) && b.1 == 2))),
    sight("least kind barred by the next joint", 180, |l| l.shows(|s| s.barred(false))),
    sight("least kind barred by the closing joint", 220, |l| l.shows(|s| s.barred(true))),
    sight("shorter cycle above a longer one", 420, |l| l.shows(Shown::above_a_lower)),
    sight("cycles of the fewest from several classes", 890, |l| l.shows(Shown::another_first)),
    sight("cycle apart from the record", 1200, |l| l.apart()),
    // Clashes: how they come, and where they are.
    sight("clash that stood, nothing marked or drawn", 290, |l| l.clash_stood()),
    sight("clash by an acquire", 400, |l| l.clash_by(&[0])),
    sight("clash by a release", 51, |l| l.clash_by(&[1])),
    sight("clash by a hard on", 100, |l| l.clash_by(&[2])),
    sight("clash by a soft on", 32, |l| l.clash_by(&[4])),
    sight("clash by an off or an exit", 55, |l| l.clash_by(&[3, 5, 7, 9])),
    sight("clash of the only class", 100, |l| l.clash_at(|_, k| k == 1)),
    sight("clash of the lowest class alone", 210, |l| l.clash_at(|class, k| class == 0 && k > 1)),
    sight("clash of a middle class alone", 270, |l| l.clash_at(|class, k| class > 0 && class + 1 < k)),
    sight("clash of the highest class alone", 300, |l| l.clash_at(|class, k| class > 0 && class + 1 == k)),
    sight("clash of class 63 alone", 24, |l| l.clash_at(|class, _| class == 63)),
    sight("clash over lock dependencies upward", 210, |l| l.clash_over(true)),
    sight("clash over lock dependencies downward", 140, |l| l.clash_over(false)),
    // Clashes: the marks.
    sight("clash shown as ER hard", 250, |l| l.one_of_clash(|_, kind, source, _| (kind, source) == (1, 1))),
    sight("clash shown as EN hard", 160, |l| l.one_of_clash(|_, kind, source, _| (kind, source) == (2, 1))),
    sight("clash shown as SN hard", 160, |l| l.one_of_clash(|_, kind, source, _| (kind, source) == (8, 1))),
    sight("clash shown as ER soft", 110, |l| l.one_of_clash(|_, kind, source, _| (kind, source) == (1, 2))),
    sight("clash shown as EN soft", 81, |l| l.one_of_clash(|_, kind, source, _| (kind, source) == (2, 2))),
    sight("clash shown as SN soft", 110, |l| l.one_of_clash(|_, kind, source, _| (kind, source) == (8, 2))),
    sight("unsafe S with safe R alone at hard, no cycle of one", 16_000, |l| l.none_of_one(|m| m & 15 == 10)),
    sight("unsafe S with safe R alone at soft, no cycle of one", 13_000, |l| l.none_of_one(|m| m >> 4 == 10)),
    sight("hard-unsafe E with soft-safe N, no cycle of one", 100_000, |l| l.none_of_one(|m| m & 16 != 0 && m & 4 != 0 && m < 64)),
    sight("letters of two levels, no cycle of one", 110_000, |l| l.none_of_one(|m| clashes::clashes(m & 15 | m >> 4))),
    sight("hard clash before a soft one of its kind", 91, |l| {
        l.one_of_clash(|class, kind, source, _| source == 1 && clashes::by_level(l.after[MARKS + class])[1] == Some((kind, 2)))
    }),
    sight("hard clash before a soft one of a greater kind", 32, |l| {
        l.one_of_clash(|class, kind, source, _| source == 1 && clashes::by_level(l.after[MARKS + class])[1] > Some((kind, 2)))
    }),
    sight("soft clash before a hard one of a greater kind", 32, |l| {
        l.one_of_clash(|class, _, source, _| source == 2 && clashes::by_level(l.after[MARKS + class])[0].is_some())
    }),
    // Clashes beside other cycles.
    sight("clashes of two classes", 100, |l| l.one_of_clash(|class, _, _, clash| clash >> class & 1 == 1 && clash >> class > 1)),
    sight("clash above a lock dependency of a class to itself", 57, |l| {
        l.one_of_clash(|class, _, source, clash| source == 0 && class < clash.trailing_zeros() as usize)
    }),
    sight("clash above an SR lock dependency of a class to itself", 28, |l| l.clash_and_own(|own| own == 4, |class, _| 0..class)),
    sight("clash below a lock dependency of a class to itself", 45, |l| l.clash_and_own(|own| own & 11 != 0, |class, k| class + 1..k)),
    sight("clash at a class, and a lock dependency that is less", 55, |l| {
        l.one_of_clash(|class, _, source, clash| source == 0 && clash >> class & 1 == 1)
    }),
    sight("clash at a class, and a lock dependency that is greater", 64, |l| l.clash_and_own(|own| own & 11 != 0, |class, _| class..class + 1)),
    sight("clash at a class, and an SR lock dependency there", 56, |l| l.clash_and_own(|own| own == 4, |class, _| class..class + 1)),
    sight("clash above a longer cycle", 100, |l| l.one_of_clash(|_, _, source, _| source > 0) && l.shows(Shown::above_a_lower)),
    sight("lock dependency of a class to itself, no clash", 490, |l| l.of_length(1..=1) && l.clashes()[1] == 0),
    sight("cycle over an interrupt, no clash", 320, |l| l.shows(|s| s.cycle.iter().any(|t| t[2] > 0)) && l.clashes()[1] == 0),
    // Clashes: refusals.
    sight("refused record over a clash", 390, |l| l.record().is_some() && (3..9).contains(&l.answer) && l.clashes()[0] != 0),
    sight("closed desk with a clash", 7900, |l| l.record().is_some() && l.answer == 10 && l.clashes()[0] != 0),
    // Refusals.
    sight("try in a full frame", 490, |l| l.refused(8, |_, _, mode| TRIES.contains(&mode))),
    sight("wait in a full frame", 540, |l| l.refused(8, |_, _, mode| mode < 3)),
    sight("class K or more in a full frame", 25, |l| l.refused(4, |kind, _, _| kind == 0) && depth(l.before, l.frame()) == DEEPEST),
    sight("try of class K or more", 300, |l| l.refused(4, |_, _, mode| TRIES.contains(&mode))),
    sight("acquire with mode 6", 200, |l| l.refused(3, |kind, class, mode| kind == 0 && mode == 6 && class < l.classes())),
    sight("acquire with a mode over 6", 150, |l| l.refused(3, |kind, _, mode| kind == 0 && mode > 6)),
    sight("acquire with mode 6 and class K or more", 150, |l| {
        l.refused(3, |kind, class, mode| kind == 0 && mode == 6 && class >= l.classes())
    }),
    sight("release with mode 6", 110, |l| l.refused(3, |kind, class, mode| kind == 1 && mode == 6 && class < l.classes())),
    sight("release with a mode over 6", 180, |l| l.refused(3, |kind, _, mode| kind == 1 && mode > 6)),
    sight("release with a mode over 5 and class K or more", 140, |l| {
        l.refused(3, |kind, class, mode| kind == 1 && mode > 5 && class >= l.classes())
    }),
    sight("release of class K or more in mode 0", 100, |l| l.refused(4, |kind, _, mode| kind == 1 && mode == 0)),
    sight("release of class K or more in mode 1 to 5", 500, |l| l.refused(4, |kind, _, mode| kind == 1 && mode > 0)),
    sight("release on a closed desk", 2200, |l| l.refused(10, |kind, _, mode| kind == 1 && mode < 6)),
    sight("event with a try's mode", 100, |l| {
        l.refused(3, |kind, class, mode| (2..10).contains(&kind) && class == 0 && TRIES.contains(&mode))
    }),
    // The count.
    sight("acquire that draws nothing, counted", 53_000, |l| l.accepted(0).is_some() && l.draws().is_empty()),
    sight("release counted", 61_000, |l| l.accepted(1).is_some()),
    sight("event counted", 70_000, |l| l.record().is_some_and(|r| l.answer < 2 && (2..10).contains(&r.1))),
    sight("fault counted", 2800, |l| l.answer == 1 && l.record().is_some()),
    sight("refused record at a count but 0", 14_000, |l| (3..9).contains(&l.answer) && l.counted() > Some(0)),
    sight("count that carries to its second byte", 530, |l| l.counts_at(|count| count % 256 == 255)),
    sight("count that carries to its third byte", 120, |l| l.counts_at(|count| count % 65_536 == 65_535)),
    sight("count that carries to its fourth byte", 84, |l| l.counts_at(|count| count % 16_777_216 == 16_777_215)),
    sight("count that reaches 2 to the 31", 41, |l| l.counts_at(|count| count == 2_147_483_647)),
    sight("count with four bytes that differ", 4500, |l| l.counts_at(numbers::distinct)),
    sight("count that reaches its last", 290, |l| l.counts_at(|count| count == FULL - 1)),
    sight("fault that reaches the last count", 72, |l| l.answer == 1 && l.counts_at(|count| count == FULL - 1)),
    sight("count two before its last", 200, |l| l.counts_at(|count| count == FULL - 2)),
    // 9.
    sight("9 for an acquire that would draw a new pair", 190, |l| l.full_for(|kind, _| kind == 0 && l.draws().iter().any(|d| l.sheet[d.0] == 0))),
    sight("9 for an acquire that would draw no new pair", 49, |l| {
        l.full_for(|kind, _| kind == 0 && !l.draws().is_empty() && l.draws().iter().all(|d| l.sheet[d.0] != 0))
    }),
    sight("9 for an acquire over nothing", 280, |l| l.full_for(|kind, mode| kind == 0 && mode < 3) && l.draws().is_empty()),
    sight("9 for a try", 560, |l| l.full_for(|kind, mode| kind == 0 && mode > 2)),
    sight("9 for a release", 1800, |l| l.full_for(|kind, _| kind == 1)),
    sight("9 for a release in mode 1 to 5", 1300, |l| l.full_for(|kind, mode| kind == 1 && mode > 0)),
    sight("9 for an event", 1300, |l| l.full_for(|kind, _| (2..10).contains(&kind))),
    sight("9 where a cycle stands", 600, |l| l.full_for(|_, _| !l.clean_before())),
    sight("3 at the last count", 240, |l| l.at_full(3)),
    sight("4 at the last count", 110, |l| l.at_full(4)),
    sight("5 at the last count", 260, |l| l.at_full(5)),
    sight("6 at the last count", 450, |l| l.at_full(6)),
    sight("7 at the last count", 52, |l| l.at_full(7)),
    sight("8 at the last count", 29, |l| l.at_full(8)),
    sight("10 at the last count", 100, |l| l.at_full(10)),
    sight("11 at the last count", 170, |l| {
        matches!(l.call, Call::Step(_)) && l.answer == 11 && l.before.len() >= DESK && numbers::count(l.before) == FULL
    }),
    // First-seen numbers.
    sight("pair drawn first", 13_000, |l| l.drew_first(|_| true)),
    sight("pair drawn first, of one class", 1100, |l| {
        l.drew_first(|_| true) && l.draws().iter().any(|d| l.sheet[d.0] == 0 && d.0 % (usize::from(l.classes()) + 1) == 0)
    }),
    sight("pair drawn first, the other way drawn before", 1800, |l| {
        let k = usize::from(l.classes());
        l.answer < 2 && l.draws().iter().any(|d| l.sheet[d.0] == 0 && l.sheet[d.0 % k * k + d.0 / k] != 0)
    }),
    sight("pair drawn first by two kinds", 150, |l| {
        let draws = l.draws();
        l.answer < 2 && draws.iter().any(|a| l.sheet[a.0] == 0 && draws.iter().any(|b| a.0 == b.0 && a.1 != b.1))
    }),
    sight("several pairs drawn first by one record", 7200, |l| {
        let draws = l.draws();
        l.answer < 2 && draws.iter().any(|a| l.sheet[a.0] == 0 && draws.iter().any(|b| l.sheet[b.0] == 0 && a.0 != b.0))
    }),
    sight("pairs drawn first and again by one record", 3500, |l| {
        l.drew_first(|_| true) && l.drew(|before, _, _| before != 0)
    }),
    sight("second kind of a numbered pair", 3700, |l| l.drew(|before, kind, _| before != 0 && before & kind == 0)),
    sight("kind of a numbered pair drawn again", 15_000, |l| l.drew(|before, kind, _| before & kind != 0)),
    sight("pair drawn first, its place in the list another", 7500, |l| {
        l.drew_first(|number| l.history.steps.is_some_and(|steps| steps + 1 > u64::from(number)))
    }),
    sight("pair drawn first by a number over 255", 1800, |l| l.drew_first(|number| number > 255)),
    sight("pair drawn first by a number over 65,535", 360, |l| l.drew_first(|number| number > 65_535)),
    sight("pair drawn first by a number over 16,777,215", 280, |l| l.drew_first(|number| number > 16_777_215)),
    sight("pair drawn first by a number whose bytes differ", 100, |l| l.drew_first(numbers::distinct)),
    // Numbers in the slip.
    sight("number shown over 255", 960, |l| l.showed_number(|number| number > 255)),
    sight("number shown over 65,535", 790, |l| l.showed_number(|number| number > 65_535)),
    sight("number shown over 16,777,215", 610, |l| l.showed_number(|number| number > 16_777_215)),
    sight("number shown whose bytes differ", 500, |l| l.showed_number(numbers::distinct)),
    sight("number shown of the record itself", 280, |l| l.showed_number(|number| number == numbers::count(l.after))),
    sight("number shown of an earlier record", 1900, |l| l.showed_number(|number| number != numbers::count(l.after))),
    sight("number shown, the other way has another", 1000, |l| {
        let k = usize::from(l.classes());
        l.showed(|pair, _, source, number| source == 0 && number != numbers::number(l.seen_after, pair % k * k + pair / k))
    }),
    sight("later kind shown with the first number", 100, |l| {
        l.record().is_some() && l.showed(|pair, kind, source, _| source == 0 && l.sheet[pair] != 0 && l.sheet[pair] & kind == 0)
    }),
    sight("interrupt shown, its pair without a number", 860, |l| l.showed(|_, _, source, number| source > 0 && number == 0)),
    sight("interrupt shown, its pair with a number", 180, |l| l.showed(|_, _, source, number| source > 0 && number != 0)),
    sight("cycle that the numbers' bytes would change", 50, |l| l.chooses(Choice::NumberBytes)),
    sight("cycle that the numbers would change", 50, |l| l.chooses(Choice::NumberValues)),
    // Crosslocks: which class, and in which state.
    sight("15 for an acquire of a crosslock", 610, |l| l.answered(15, |kind, _, mode| kind == 0 && mode < 3)),
    sight("15 for a try of a crosslock", 250, |l| l.answered(15, |kind, _, mode| kind == 0 && mode > 2)),
    sight("15 for a release of a crosslock as a lock", 590, |l| l.answered(15, |kind, _, _| kind == 1)),
    sight("15 for a take of a lock as a crosslock", 270, |l| l.answered(15, |kind, _, _| kind == 10)),
    sight("15 for a commit of a lock", 840, |l| l.answered(15, |kind, _, _| kind == 11)),
    sight("15 for a release of a lock as a crosslock", 480, |l| l.answered(15, |kind, _, _| kind == 12)),
    sight("15 where none is declared", 460, |l| l.answered(15, |_, _, _| crosslocks::declared(l.before) == 0)),
    sight("4 for kinds 10 to 12", 930, |l| l.answered(4, |kind, _, _| kind > 9)),
    sight("kinds 10 to 12 with a mode", 68, |l| {
        matches!(l.call, Call::Step(r) if l.answer == 3 && r.len == 6 && (10..13).contains(&r.bytes[3]) && r.bytes[5] > 0 && r.bytes[2] < 8)
    }),
    sight("kind 13", 15, |l| matches!(l.call, Call::Step(r) if l.answer == 3 && r.len == 6 && r.bytes[3] == 13 && r.bytes[5] == 0)),
    sight("15 in a full frame", 170, |l| l.answered(15, |_, _, _| depth(l.before, l.frame()) == DEEPEST)),
    sight("class 63 a crosslock, taken", 3, |l| l.crosses(10, |class| class == 63)),
    sight("crosslock of class 8 or more taken", 220, |l| l.crosses(10, |class| class > 7)),
    sight("crosslock taken in a task", 1900, |l| l.crossed(10).is_some() && l.state() < 4),
    sight("crosslock taken with all off", 230, |l| l.crossed(10).is_some() && l.state() == 3),
    sight("crosslock taken in a soft handler", 330, |l| l.crossed(10).is_some() && [4, 5].contains(&l.state())),
    sight("crosslock taken in a hard handler", 310, |l| l.crossed(10).is_some() && l.state() > 5),
    sight("commit in a soft handler", 830, |l| l.crossed(11).is_some() && [4, 5].contains(&l.state())),
    sight("commit in a hard handler", 600, |l| l.crossed(11).is_some() && l.state() > 5),
    sight("release of a crosslock in a handler", 580, |l| l.crossed(12).is_some() && l.state() > 3),
    sight("crosslock taken in a full frame", 3, |l| l.crossed(10).is_some() && depth(l.before, l.frame()) == DEEPEST),
    sight("crosslock taken over a lock that lacks a mark", 22, |l| l.crossed(10).is_some() && l.lacks_mark()),
    sight("commit over a lock that lacks a mark", 99, |l| l.crossed(11).is_some() && l.lacks_mark()),
    sight("release of a crosslock over a lock that lacks a mark", 41, |l| l.crossed(12).is_some() && l.lacks_mark()),
    sight("record of a crosslock that closes the desk", 66, |l| l.answer == 1 && l.record().is_some_and(|r| r.1 > 9)),
    // Taken: from the held locks.
    sight("crosslock taken over an exclusive lock", 260, |l| l.takes_over(|desk, f, p| hold(desk, f, p) < 64)),
    sight("crosslock taken over a read", 220, |l| l.takes_over(|desk, f, p| hold(desk, f, p) / 64 == 1)),
    sight("crosslock taken over a recursive read", 340, |l| l.takes_over(|desk, f, p| hold(desk, f, p) / 64 == 2)),
    sight("crosslock taken over a try", 220, |l| l.takes_over(is_try)),
    sight("crosslock taken over two locks", 200, |l| l.takes_over(|_, _, p| p > 0)),
    sight("crosslock taken over nothing, the frame below has locks", 74, |l| {
        l.crossed(10).is_some() && l.state() > 3 && depth(l.before, l.frame()) == 0 && (0..l.frame() % 3).any(|f| depth(l.before, l.frame() / 3 * 3 + f) > 0)
    }),
    sight("crosslock taken over locks, the frame below has others", 55, |l| {
        l.takes_over(|_, _, _| true) && (0..l.frame() % 3).any(|f| depth(l.before, l.frame() / 3 * 3 + f) > 0)
    }),
    sight("pair drawn first by a take of a crosslock", 410, |l| l.crosses(10, |class| {
        let k = usize::from(l.classes());
        (0..k).any(|from| l.sheet[from * k + class] == 0 && l.sheet_after[from * k + class] != 0)
    })),
    sight("crosslock taken with others in progress", 920, |l| l.crossed(10).is_some() && l.progress() != 0),
    sight("crosslock taken with some kept", 450, |l| l.crossed(10).is_some() && l.kept_count() > 0),
    sight("crosslock taken with 255 kept", 23, |l| l.crossed(10).is_some() && l.kept_count() == 255),
    sight("crosslock taken with 256 kept", 17, |l| l.crossed(10).is_some() && l.kept_count() == 256),
    sight("crosslock taken whose since number was another", 540, |l| l.crosses(10, |class| crosslocks::since(l.before, class) as usize != l.kept_count())),
    sight("sixteenth crosslock taken", 3, |l| l.crossed(10).is_some() && l.progress().count_ones() == 15),
    // Committed.
    sight("commit that draws an exclusive acquire", 290, |l| l.draws_kept(|_, lock| lock < 64)),
    sight("commit that draws a read", 230, |l| l.draws_kept(|_, lock| lock / 64 == 1)),
    sight("commit that draws a recursive read", 460, |l| l.draws_kept(|_, lock| lock / 64 == 2)),
    sight("commit that draws one released meanwhile", 420, |l| {
        l.draws_kept(|_, lock| !(0..depth(l.before, l.frame())).any(|p| hold(l.before, l.frame(), p) % 64 == lock % 64))
    }),
    sight("commit that draws several", 200, |l| {
        l.draws_kept(|at, lock| l.draws_kept(|other, second| at != other && lock % 64 != second % 64))
    }),
    sight("commit that draws the last of 256", 17, |l| l.draws_kept(|at, _| at == 255)),
    sight("commit that draws the first kept", 340, |l| l.draws_kept(|at, _| at == 0)),
    sight("commit that draws a pair by two kinds", 89, |l| {
        l.draws_kept(|_, lock| l.draws_kept(|_, other| lock % 64 == other % 64 && (lock < 128) != (other < 128)))
    }),
    sight("pair drawn first by a commit", 410, |l| l.crosses(11, |class| {
        let k = usize::from(l.classes());
        (0..k).any(|to| l.sheet[class * k + to] == 0 && l.sheet_after[class * k + to] != 0)
    })),
    sight("second kind of a pair by a commit", 36, |l| l.crosses(11, |class| {
        let k = usize::from(l.classes());
        (0..k).any(|to| l.sheet[class * k + to] != 0 && l.sheet_after[class * k + to] != l.sheet[class * k + to])
    })),
    sight("commit that draws nothing", 3700, |l| l.crossed(11).is_some() && !l.draws_kept(|_, _| true)),
    sight("commit, an acquire before the crosslock in the frame", 430, |l| l.commits(|at, [place, _], since, frame| at < since && usize::from(place) == 1 + frame)),
    sight("commit, an acquire right before the crosslock", 130, |l| l.commits(|at, [place, _], since, frame| at + 1 == since && usize::from(place) == 1 + frame)),
    sight("commit, an acquire right behind the crosslock", 420, |l| l.commits(|at, [place, _], since, frame| at == since && usize::from(place) == 1 + frame)),
    sight("commit, an acquire of another core since", 1200, |l| l.commits(|at, [place, _], since, frame| {
        at >= since && place > 0 && (usize::from(place) - 1) / 3 != frame / 3
    })),
    sight("commit, an acquire of another frame of the core since", 66, |l| l.commits(|at, [place, _], since, frame| {
        at >= since && place > 0 && (usize::from(place) - 1) / 3 == frame / 3 && usize::from(place) != 1 + frame
    })),
    sight("commit, one struck out since", 400, |l| l.commits(|at, [place, _], since, _| at >= since && place == 0)),
    sight("commit with a since number of 256", 34, |l| l.crosses(11, |class| crosslocks::since(l.before, class) == 256)),
    sight("commit with a since number over 256", 200, |l| l.crosses(11, |class| crosslocks::since(l.before, class) > 256)),
    sight("commit with a since number whose low byte is less", 100, |l| l.commits(|at, [place, _], since, frame| {
        at < since && at >= since % 256 && usize::from(place) == 1 + frame
    })),
    sight("commit, another crosslock with another since number", 650, |l| l.crosses(11, |class| {
        crosslocks::classes(l.progress()).iter().any(|&c| crosslocks::since(l.before, usize::from(c)) != crosslocks::since(l.before, class))
    })),
    sight("commit, entries behind the kept count of its frame", 850, |l| l.crossed(11).is_some() && {
        let place = 1 + l.frame();
        l.kept[..HISTORY].chunks_exact(2).skip(l.kept_count()).any(|entry| usize::from(entry[0]) == place)
    }),
    sight("commit over a held lock that is not kept", 870, |l| l.crossed(11).is_some() && {
        let in_history = |class: u8| l.entries().any(|(_, [place, lock])| usize::from(place) == 1 + l.frame() && lock % 64 == class);
        (0..depth(l.before, l.frame())).any(|p| !in_history(hold(l.before, l.frame(), p) % 64))
    }),
    // Released.
    sight("release of the last crosslock, some kept", 510, |l| l.crosses(12, |class| l.progress() == 1 << class) && l.kept_count() > 0),
    sight("release of the last crosslock, 256 kept", 28, |l| l.crosses(12, |class| l.progress() == 1 << class) && l.kept_count() == 256),
    sight("release of one of several, some kept", 460, |l| l.crosses(12, |class| l.progress() != 1 << class) && l.kept_count() > 0),
    sight("release of a crosslock with a since number but 0", 430, |l| l.crosses(12, |class| crosslocks::since(l.before, class) != 0)),
    sight("release of a crosslock with acquires that a commit would draw", 370, |l| l.crosses(12, |class| {
        let since = crosslocks::since(l.before, class) as usize;
        l.entries().any(|(at, [place, _])| at >= since && usize::from(place) == 1 + l.frame())
    })),
    // Kept and struck out.
    sight("acquire kept of an exclusive lock", 1900, |l| l.is_kept() && l.tries_mode(0)),
    sight("acquire kept of a read", 1600, |l| l.is_kept() && l.tries_mode(1)),
    sight("acquire kept of a recursive read", 3200, |l| l.is_kept() && l.tries_mode(2)),
    sight("acquire kept in a handler", 960, |l| l.is_kept() && l.state() > 3),
    sight("acquire kept as the first", 650, |l| l.is_kept() && l.kept_count() == 0),
    sight("acquire kept as the last of 256", 33, |l| l.is_kept() && l.kept_count() == 255),
    sight("acquire kept behind 128 and more", 2300, |l| l.is_kept() && l.kept_count() >= 128),
    sight("try not kept", 1100, |l| l.tries() && l.progress() != 0),
    sight("try with 256 kept", 37, |l| l.tries() && l.progress() != 0 && l.kept_count() == 256),
    sight("acquire not kept, none in progress", 2900, |l| l.waits() && l.progress() == 0 && crosslocks::declared(l.before) != 0),
    sight("acquire with 256 kept, none in progress", 3, |l| l.waits() && l.progress() == 0 && l.kept_count() == 256),
    sight("exit that strikes out", 270, |l| l.exits(|_, place, own| usize::from(place) == own)),
    sight("exit that strikes out several", 90, |l| {
        l.exits(|at, place, own| usize::from(place) == own && l.exits(|other, second, own| other != at && usize::from(second) == own))
    }),
    sight("exit that strikes out the first", 77, |l| l.exits(|at, place, own| at == 0 && usize::from(place) == own)),
    sight("exit that strikes out the last kept", 170, |l| l.exits(|at, place, own| at + 1 == l.kept_count() && usize::from(place) == own)),
    sight("exit beside entries of the task", 150, |l| l.exits(|_, place, own| place > 0 && usize::from(place) < own && (usize::from(place) - 1) % 3 == 0 && (usize::from(place) - 1) / 3 == (own - 1) / 3)),
    sight("exit of a hard handler beside entries of the soft one", 53, |l| l.exits(|_, place, own| own % 3 == 0 && usize::from(place) + 1 == own)),
    sight("exit beside entries of another core's handler", 180, |l| l.exits(|_, place, own| place > 0 && usize::from(place) % 3 == own % 3 && usize::from(place) != own)),
    sight("exit, its frame behind the kept count", 410, |l| {
        l.record().is_some_and(|r| l.answer < 2 && (r.1 == 7 || r.1 == 9))
            && l.kept[..HISTORY].chunks_exact(2).skip(l.kept_count()).any(|entry| usize::from(entry[0]) == 1 + l.frame())
    }),
    sight("exit refused with 7 beside entries of its frame", 24, |l| l.answered(7, |_, _, _| l.entries().any(|(_, [place, _])| usize::from(place) == 1 + l.frame()))),
    // Refused.
    sight("16 with fewer than 16 in progress", 1100, |l| l.answered(16, |_, _, _| l.progress().count_ones() < 16)),
    sight("16 before 18", 41, |l| l.answered(16, |_, _, _| l.progress().count_ones() == 16)),
    sight("17 for a commit", 570, |l| l.answered(17, |kind, _, _| kind == 11)),
    sight("17 for a release", 440, |l| l.answered(17, |kind, _, _| kind == 12)),
    sight("17 with others in progress", 280, |l| l.answered(17, |_, _, _| l.progress() != 0)),
    sight("18 with 16 in progress", 13, |l| l.answered(18, |_, _, _| true)),
    sight("19 for an acquire", 3, |l| l.answered(19, |_, _, _| true)),
    sight("19 in a log from opening", 27, |l| l.answered(19, |_, _, _| l.history.steps.is_some())),
    sight("19 over a lock that lacks a mark", 18, |l| l.answered(19, |_, _, _| l.lacks_mark())),
    sight("8 before 19", 15, |l| l.answered(8, |_, _, mode| mode < 3 && l.progress() != 0 && l.kept_count() == 256)),
    sight("19 before 9", 22, |l| l.at_full(19)),
    sight("16 before 9", 46, |l| l.at_full(16)),
    sight("17 before 9", 3, |l| l.at_full(17)),
    sight("18 before 9", 3, |l| l.at_full(18)),
    sight("15 before 9", 130, |l| l.at_full(15)),
    sight("9 for kinds 10 to 12", 120, |l| l.full_for(|kind, _| kind > 9)),
    sight("9 for an acquire to be kept", 25, |l| l.full_for(|kind, mode| kind == 0 && mode < 3 && l.progress() != 0)),
    sight("15 before 16 to 18", 3, |l| l.answered(15, |kind, _, _| kind > 9 && l.progress().count_ones() == 16)),
    sight("record of a crosslock on a closed desk", 390, |l| l.answered(10, |kind, _, _| kind > 9)),
    // Fit oddities.
    sight("step with 16 in progress", 360, |l| l.fit_lists(|progress, _| progress.count_ones() == 16)),
    sight("step with 256 kept", 1500, |l| l.fit_lists(|_, kept| kept == 256)),
    sight("step with some kept and none in progress", 1000, |l| l.fit_lists(|progress, kept| progress == 0 && kept > 0)),
    sight("step with a lock held of a crosslock", 4300, |l| l.fit_lists(|_, _| {
        let crosslocks = crosslocks::declared(l.before);
        crosslocks != 0 && (0..FRAMES).any(|f| (0..depth(l.before, f)).any(|p| crosslocks >> (hold(l.before, f, p) % 64) & 1 == 1))
    })),
    sight("step with a mark on a crosslock", 2800, |l| l.fit_lists(|_, _| {
        let crosslocks = crosslocks::declared(l.before);
        crosslocks != 0 && (0..64).any(|class| crosslocks >> class & 1 == 1 && l.before[MARKS + class] != 0)
    })),
    sight("step with an entry of a crosslock", 3500, |l| l.fit_lists(|_, _| {
        let crosslocks = crosslocks::declared(l.before);
        crosslocks != 0 && l.entries().any(|(_, [place, lock])| place > 0 && crosslocks >> (lock % 64) & 1 == 1)
    })),
    sight("step with an entry of frame 23", 1200, |l| l.fit_lists(|_, _| l.entries().any(|(_, [place, _])| place == 24))),
    sight("step with bytes behind the kept count that would not fit", 26_000, |l| l.fit_lists(|_, kept| {
        l.kept[..HISTORY].chunks_exact(2).skip(kept).any(|entry| entry[0] > 24)
    })),
    sight("step with a history a byte longer", 5700, |l| l.fit_lists(|_, _| l.kept.len() == HISTORY + 1)),
    sight("step with a history a byte short", 15, |l| l.clause("history too short") && l.kept.len() == HISTORY - 1),
    sight("257 kept", 18, |l| l.clause("more than 256 kept") && l.kept_count() == 257),
    sight("more kept by its third or fourth byte", 51, |l| l.clause("more than 256 kept") && l.kept_count() > 65_535 && l.kept_count() % 65_536 < 257),
    sight("17 in progress", 47, |l| l.clause("more than 16 in progress") && l.progress().count_ones() == 17),
    sight("declared class K", 55, |l| l.clause("declared class K or more") && crosslocks::declared(l.before) >> l.classes() & 1 == 1),
    sight("place byte 25", 38, |l| l.clause("kept place over 24") && l.entries().any(|(_, [place, _])| place == 25)),
    sight("unfit entry kept as the last", 120, |l| {
        let k = l.classes();
        let unfit = |[place, lock]: [u8; 2]| place > 24 || place == 0 && lock != 0 || place > 0 && (lock > 191 || lock % 64 >= k);
        matches!(l.call, Call::Step(_)) && l.answer == 11 && l.before.len() >= DESK && l.kept.len() >= HISTORY
            && (1..=256).contains(&l.kept_count()) && l.entries().next_back().is_some_and(|(_, entry)| unfit(entry))
    }),
    sight("opening with a class of K or more declared", 39, |l| matches!(*l.call, Call::Open(k @ 1..64, word) if l.answer == 2 && word >> k != 0)),
    sight("opening with class K alone over the limit", 17, |l| {
        matches!(*l.call, Call::Open(k @ 1..64, word) if l.answer == 2 && word >> k == 1)
    }),
    sight("opening with crosslocks", 640, |l| matches!(*l.call, Call::Open(_, word) if l.answer == 0 && word != 0)),
    sight("opening with class K - 1 a crosslock", 340, |l| matches!(*l.call, Call::Open(k, word) if l.answer == 0 && word >> (k - 1) & 1 == 1)),
    sight("opening over a history with bytes", 1900, |l| matches!(l.call, Call::Open(..)) && l.answer == 0 && l.kept[..HISTORY].iter().any(|&b| b != 0)),
    sight("opening with a history a byte short", 13, |l| matches!(l.call, Call::Open(1..=64, _)) && l.answer == 2 && l.kept.len() == HISTORY - 1),
    sight("opening with a history longer", 330, |l| matches!(l.call, Call::Open(..)) && l.answer == 0 && l.kept.len() > HISTORY),
    sight("question with crosslocks in progress", 1200, |l| matches!(l.call, Call::Ask(_)) && l.answer == 0 && l.progress() != 0),
    sight("question beside a history that does not fit", 29, |l| {
        matches!(l.call, Call::Ask(_)) && l.answer == 0 && l.kept.len() >= HISTORY && l.entries().any(|(_, [place, _])| place > 24)
    }),
    sight("first step on a joined desk with crosslocks", 110, |l| l.steps_joined(|steps| steps == 0) && l.answer < 2 && crosslocks::declared(l.before) != 0),
    sight("crosslock taken on a joined desk", 93, |l| l.steps_joined(|_| true) && l.crossed(10).is_some()),
    // On a joined desk.
    sight("first step on a joined desk with a number", 700, |l| l.steps_joined(|steps| steps == 0) && l.fit_numbers()[3]),
    sight("first step on a joined desk, accepted", 440, |l| l.steps_joined(|steps| steps == 0) && l.answer < 2),
    sight("question on a joined desk with a number", 96, |l| {
        matches!(l.call, Call::Ask(_)) && l.history.joined == Some(0) && l.fit_numbers()[3]
    }),
    sight("pair drawn first on a joined desk", 240, |l| l.steps_joined(|_| true) && l.drew_first(|_| true)),
    sight("kind added on a joined desk to a pair of a bench", 25, |l| {
        l.steps_joined(|_| true) && l.drew(|before, kind, number| before != 0 && before & kind == 0 && number > numbers::count(l.after))
    }),
    sight("fault of a step on a joined desk", 84, |l| l.steps_joined(|_| true) && l.answer == 1),
    sight("fault of a step with a number that a bench brought", 12, |l| {
        l.steps_joined(|_| true) && l.showed_number(|number| number > numbers::count(l.after))
    }),
    sight("step on a joined desk that is closed", 360, |l| l.steps_joined(|steps| steps == 0) && l.answer == 10),
    // The fit test.
    sight("kinds without a number at the first pair", 66, |l| l.unfit_number(NO_NUMBER, |pair, _| pair == 0)),
    sight("kinds without a number behind the first row", 180, |l| l.unfit_number(NO_NUMBER, |pair, k| pair >= k)),
    sight("kinds without a number at the last pair", 53, |l| l.unfit_number(NO_NUMBER, |pair, k| k > 1 && pair + 1 == k * k)),
    sight("number without kinds at the first pair", 78, |l| l.unfit_number(NO_KINDS, |pair, _| pair == 0)),
    sight("number without kinds behind the first row", 180, |l| l.unfit_number(NO_KINDS, |pair, k| pair >= k)),
    sight("number without kinds at the last pair", 52, |l| l.unfit_number(NO_KINDS, |pair, k| k > 1 && pair + 1 == k * k)),
    sight("step over a number above the count", 8000, |l| matches!(l.call, Call::Step(_)) && l.fit_numbers()[3]),
    sight("question over a number above the count", 2400, |l| matches!(l.call, Call::Ask(_)) && l.fit_numbers()[3]),
    sight("number above the count at the first pair", 980, |l| l.first_above()),
    sight("number above the count behind the first row", 9300, |l| l.fit_numbers()[4]),
    sight("number above the count at the last pair", 820, |l| l.fit_numbers()[5]),
    sight("number one above the count", 2900, |l| l.fit_numbers()[6]),
    sight("number above the count, its low byte less", 4100, |l| l.fit_numbers()[7]),
    sight("number above the count by its high byte alone", 2800, |l| l.fit_numbers()[8]),
    sight("number above the count over 2 to the 31", 4400, |l| l.fit_numbers()[9]),
    sight("number above a count of 0", 2500, |l| l.fit_numbers()[3] && numbers::count(l.before) == 0),
    sight("number above a count but 0", 7900, |l| l.fit_numbers()[3] && numbers::count(l.before) > 0),
    sight("fault over a number above the count", 440, |l| l.answer == 1 && l.record().is_some() && l.fit_numbers()[3]),
    sight("pair drawn first on a desk with a number above the count", 200, |l| l.fit_numbers()[3] && l.drew_first(|_| true)),
    sight("number at the count", 21_000, |l| l.fit_numbers()[0]),
    sight("number under the count, its low byte greater", 20_000, |l| l.fit_numbers()[1]),
    sight("number under 2 to the 31, the count over it", 2800, |l| l.fit_numbers()[2]),
    sight("pair behind the last that does not fit", 190, |l| l.past_unfit()),
    sight("call with a second sheet a byte short", 100, |l| l.short_seen(|pairs| 4 * pairs - 1..4 * pairs)),
    sight("call with a second sheet of K x K bytes", 92, |l| l.short_seen(|pairs| pairs..pairs + 1)),
    sight("call with a second sheet a byte longer", 11_000, |l| l.fit_pairs().is_some_and(|pairs| l.seen.len() == 4 * pairs + 1)),
    sight("step with a slip a byte short", 79, |l| l.slip_of(|k| 7 * k)),
    sight("step with a slip of 1 + 3K bytes", 69, |l| l.slip_of(|k| 1 + 3 * k)),
    sight("call on a fit desk with a try", 130_000, |l| ![2, 10, 11, 12, 13, 14].contains(&l.answer) && has_origins(l.before)),
    sight("origin right past the depth", 270, |l| l.origin(|f, p| p == depth(l.before, f))),
    sight("origin in an empty frame", 690, |l| l.origin(|f, _| depth(l.before, f) == 0)),
    sight("origin in the last byte of a frame alone", 370, |l| l.origins_only(|_, p| p >= DEEPEST - 8)),
    sight("origin from place 20 on alone", 550, |l| l.origins_only(|_, p| p >= 20)),
    sight("origin from place 32 on alone", 460, |l| l.origins_only(|_, p| p >= 32)),
    sight("origin behind the first 60 bytes alone", 530, |l| l.origins_only(|f, p| DEEPEST * f + p >= 480)),
    sight("origin at the last place of the last frame", 220, |l| l.origin(|f, p| (f, p) == (FRAMES - 1, DEEPEST - 1))),
    sight("hold byte of 192 or more with an origin", 420, |l| {
        let mut places = (0..FRAMES).flat_map(|f| (0..depth(l.before, f)).map(move |p| (f, p)));
        l.clause("hold mode 3") && places.any(|(f, p)| hold(l.before, f, p) > 191 && is_try(l.before, f, p))
    }),
    sight("call on a fit desk with a depth of 20", 5400, |l| l.fit_depth(20..=20)),
    sight("call on a fit desk with a depth of 21 to 47", 28_000, |l| l.fit_depth(21..=47)),
    sight("call on a fit desk with a full frame", 12_000, |l| l.fit_depth(48..=48)),
    sight("depth of 49", 41, |l| l.over_limit(|depth| depth == 49)),
    sight("depth of 50 to 254", 83, |l| l.over_limit(|depth| (50..255).contains(&depth))),
    sight("depth of 255", 26, |l| l.over_limit(|depth| depth == 255)),
    sight("depth of 64 to 112", 41, |l| l.over_limit(|depth| (64..=112).contains(&depth))),
    sight("held class of K or more from place 20 on alone", 41, |l| {
        l.standing_from(20, "hold class K or more", |lock, k| lock % 64 >= k)
    }),
    sight("held class of K or more from place 32 on alone", 25, |l| {
        l.standing_from(32, "hold class K or more", |lock, k| lock % 64 >= k)
    }),
    sight("hold byte of 192 or more from place 20 on alone", 100, |l| l.standing_from(20, "hold mode 3", |lock, _| lock > 191)),
    sight("hold byte of 192 or more from place 32 on alone", 61, |l| l.standing_from(32, "hold mode 3", |lock, _| lock > 191)),
    sight("unused byte not 0 from place 20 on alone", 380, |l| l.unused_from(20)),
    sight("unused byte not 0 from place 32 on alone", 220, |l| l.unused_from(32)),
    sight("unused byte not 0 at the last place alone", 32, |l| l.unused_from(DEEPEST - 1)),
    sight("old desk, zeros behind", 130, |l| l.old_in_longer(true)),
    sight("old desk, other bytes behind", 260, |l| l.old_in_longer(false)),
    sight("old desk in a buffer too short today", 170, |l| l.old(|behind| behind.len() < DESK - older::DESK)),
    sight("old desk that reads the same", 35, |l| l.fit_pairs().is_some() && older::reads_the_same(l.before)),
    sight("call on a desk of 578 bytes", 130, |l| l.short(older::ORIGINS..older::ORIGINS + 1)),
    sight("call on a desk of 638 bytes", 110, |l| l.short(older::COUNT..older::COUNT + 1)),
    sight("call on a desk of 642 bytes", 120, |l| l.short(older::DESK..older::DESK + 1)),
    sight("call on a desk a byte short of the origins", 76, |l| l.short(ORIGINS - 1..ORIGINS)),
    sight("call on a desk without the origins", 40, |l| l.short(ORIGINS..ORIGINS + 1)),
    sight("call on a desk with part of the origins", 100, |l| l.short(ORIGINS + 1..COUNT)),
    sight("call on a desk without the count", 23, |l| l.short(COUNT..COUNT + 1)),
    sight("call on a desk with part of the count", 6, |l| l.short(COUNT + 1..DECLARED)),
    sight("call on a desk without crosslocks", 26, |l| l.short(DECLARED..DECLARED + 1)),
    sight("call on a desk with part of the crosslocks", 13, |l| l.short(DECLARED + 1..DESK - 1)),
    sight("call on a desk a byte short", 92, |l| l.short(DESK - 1..DESK)),
    sight("call on a desk a byte longer", 21_000, |l| ![2, 10, 11, 12, 13, 14].contains(&l.answer) && l.before.len() == DESK + 1),
    // Opening.
    sight("opening of a desk of 578 bytes", 27, |l| l.opens(older::ORIGINS..older::ORIGINS + 1)),
    sight("opening of a desk of 638 bytes", 25, |l| l.opens(older::COUNT..older::COUNT + 1)),
    sight("opening of a desk of 642 bytes", 30, |l| l.opens(older::DESK..older::DESK + 1)),
    sight("opening over held locks behind byte 642", 2200, |l| {
        l.opened_over(|_| l.before[older::DESK..ORIGINS].iter().any(|&byte| byte != 0))
    }),
    sight("opening of a desk a byte short of the origins", 6, |l| l.opens(ORIGINS - 1..ORIGINS)),
    sight("opening of a desk without the origins", 6, |l| l.opens(ORIGINS..ORIGINS + 1)),
    sight("opening of a desk with part of the origins", 56, |l| l.opens(ORIGINS + 1..COUNT)),
    sight("opening of a desk without the count", 23, |l| l.opens(COUNT..COUNT + 1)),
    sight("opening of a desk with part of the count", 4, |l| l.opens(COUNT + 1..DECLARED)),
    sight("opening of a desk without crosslocks", 3, |l| l.opens(DECLARED..DECLARED + 1)),
    sight("opening of a desk with part of the crosslocks", 3, |l| l.opens(DECLARED + 1..DESK - 1)),
    sight("opening of a desk a byte short", 44, |l| l.opens(DESK - 1..DESK)),
    sight("opening of a desk a byte longer", 130, |l| {
        matches!(l.call, Call::Open(..)) && l.answer == 0 && l.before.len() == DESK + 1
    }),
    sight("opening over origins", 4400, |l| matches!(l.call, Call::Open(..)) && l.answer == 0 && has_origins(l.before)),
    sight("opening of a second sheet a byte short", 59, |l| l.opens_seen(|pairs| 4 * pairs - 1..4 * pairs)),
    sight("opening of a second sheet of K x K bytes", 21, |l| l.opens_seen(|pairs| pairs..pairs + 1)),
    sight("opening of a second sheet a byte longer", 120, |l| l.opened_over(|pairs| l.seen.len() == 4 * pairs + 1)),
    sight("opening over numbers", 2400, |l| l.opened_over(|pairs| l.seen[pairs..4 * pairs].iter().any(|&b| b != 0))),
    sight("opening over a count", 2500, |l| l.opened_over(|_| numbers::count(l.before) != 0)),
    // Pieces: where they are cut.
    at_feed("piece over 0 loose bytes of the header", 1000, |l| l.over(false, 0)),
    at_feed("piece over 1 loose byte of the header", 280, |l| l.over(false, 1)),
    at_feed("piece over 2 loose bytes of the header", 320, |l| l.over(false, 2)),
    at_feed("piece over 3 loose bytes of the header", 310, |l| l.over(false, 3)),
    at_feed("piece over 4 to 10 bytes of the header", 280, |l| (4..11).any(|kept| l.over(false, kept))),
    at_feed("piece over 11 bytes of the header", 34, |l| l.over(false, 11)),
    at_feed("piece over 0 loose bytes of a record", 2200, |l| l.over(true, 0)),
    at_feed("piece over 1 loose byte of a record", 2000, |l| l.over(true, 1)),
    at_feed("piece over 2 loose bytes of a record", 2000, |l| l.over(true, 2)),
    at_feed("piece over 3 loose bytes of a record", 2000, |l| l.over(true, 3)),
    at_feed("piece over 4 loose bytes of a record", 2000, |l| l.over(true, 4)),
    at_feed("piece over 5 loose bytes of a record", 1900, |l| l.over(true, 5)),
    at_feed("piece that leaves 1 loose byte of the header", 280, |l| l.leaves(false, 1)),
    at_feed("piece that leaves 2 loose bytes of the header", 320, |l| l.leaves(false, 2)),
    at_feed("piece that leaves 3 loose bytes of the header", 310, |l| l.leaves(false, 3)),
    at_feed("piece that leaves 4 to 10 bytes of the header", 280, |l| (4..11).any(|kept| l.leaves(false, kept))),
    at_feed("piece that leaves 11 bytes of the header", 36, |l| l.leaves(false, 11)),
    at_feed("piece that leaves 0 loose bytes of a record", 2300, |l| l.leaves(true, 0)),
    at_feed("piece that leaves 1 loose byte of a record", 2000, |l| l.leaves(true, 1)),
    at_feed("piece that leaves 2 loose bytes of a record", 2000, |l| l.leaves(true, 2)),
    at_feed("piece that leaves 3 loose bytes of a record", 2000, |l| l.leaves(true, 3)),
    at_feed("piece that leaves 4 loose bytes of a record", 2000, |l| l.leaves(true, 4)),
    at_feed("piece that leaves 5 loose bytes of a record", 1900, |l| l.leaves(true, 5)),
    at_feed("piece within the header", 380, |l| l.kept() > 0 && l.piece(|p| !p.is_empty() && !l.opened() && !feeds::completes(l.feed, p))),
    at_feed("piece within a record", 4700, |l| l.kept() > 0 && l.piece(|p| !p.is_empty() && l.opened() && !feeds::completes(l.feed, p))),
    at_feed("header and records in one piece", 190, |l| l.header(false).is_some() && l.records() > 0),
    at_feed("record over a cut and more in one piece", 260, |l| {
        l.opened() && l.kept() > 0 && l.piece(|_| true) && l.records() > 1
    }),
    at_feed("piece of more than 65,535 bytes", 12, |l| l.piece(|p| p.len() > 65_535)),
    at_feed("empty piece before the header", 150, |l| l.piece(|p| p.is_empty()) && !l.opened() && l.kept() == 0),
    at_feed("empty piece over loose bytes", 1000, |l| l.piece(|p| p.is_empty()) && l.kept() > 0),
    at_feed("empty piece between records", 210, |l| l.piece(|p| p.is_empty()) && l.opened() && l.kept() == 0),
    at_feed("piece after an end that answered 0", 830, |l| l.history.after_end && l.piece(|p| !p.is_empty())),
    // Pieces: judged when complete.
    at_feed("wrong byte of a header that isn't complete", 320, |l| {
        l.piece(|p| !p.is_empty()) && l.answer == 0 && !l.opened() && {
            let kept = usize::from(l.feed_after[KEPT]).min(3);
            l.feed_after[KEEP..KEEP + kept] != [0x4C, 0x48, 1][..kept]
        }
    }),
    at_feed("wrong byte of a record that isn't complete", 140, |l| {
        l.piece(|p| !p.is_empty()) && l.answer == 0 && l.feed_after[OPENED] == 1 && {
            let kept = usize::from(l.feed_after[KEPT]).min(2);
            l.feed_after[KEEP..KEEP + kept] != [0x4C, 0x4B][..kept]
        }
    }),
    at_feed("header with a wrong first byte", 12, |l| l.bad(4, |h, _| h[0] != 0x4C)),
    at_feed("header with a wrong second byte", 11, |l| l.bad(4, |h, _| h[0] == 0x4C && h[1] != 0x48)),
    at_feed("header with a wrong third byte", 39, |l| l.bad(4, |h, _| h[..2] == [0x4C, 0x48] && h[2] != 1)),
    at_feed("header with K = 0", 6, |l| l.bad(4, |h, _| h == [0x4C, 0x48, 1, 0])),
    at_feed("header with K over 64", 5, |l| l.bad(4, |h, _| h[..3] == [0x4C, 0x48, 1] && h[3] > 64)),
    at_feed("long header with a wrong first or second byte", 3, |l| l.bad(12, |h, _| h[..2] != [0x4C, 0x48])),
    at_feed("long header with K = 0 or over 64", 3, |l| l.bad(12, |h, _| h[..2] == [0x4C, 0x48] && !(1..=64).contains(&h[3]))),
    at_feed("long header with a class of K or more", 14, |l| {
        l.bad(12, |h, word| h[..2] == [0x4C, 0x48] && (1..64).contains(&h[3]) && word >> h[3] != 0)
    }),
    at_feed("header with a short history", 3, |l| l.short_for_header(3)),
    at_feed("long header that opens", 71, |l| l.header(false).is_some_and(|h| h.len() == 12)),
    at_feed("long header that declares none opens", 19, |l| l.header(false).is_some_and(|h| h.len() == 12 && h[4..] == [0; 8])),
    at_feed("long header that declares class 8 or more opens", 15, |l| l.header(false).is_some_and(|h| h.len() == 12 && h[5..] != [0; 7])),
    at_feed("header with a short desk", 9, |l| l.short_for_header(0)),
    at_feed("header with a desk of 578, 638 or 642 bytes", 3, |l| l.short_for_header(0) && older::SIZES.contains(&l.before.len())),
    at_feed("header with a short sheet", 6, |l| l.short_for_header(1)),
    at_feed("header with a short second sheet", 9, |l| l.short_for_header(2)),
    at_feed("header that opens", 750, |l| l.header(false).is_some()),
    at_feed("first record with a short slip", 75, |l| {
        l.stops(11) && feeds::number(l.feed_after) == 1 && l.short_slip(l.after)
    }),
    // Pieces: stops.
    at_feed("header refused, and bytes behind it", 190, |l| l.stops(2) && l.behind() > Some(0)),
    at_feed("header refused at the piece's end", 100, |l| l.stops(2) && l.behind() == Some(0)),
    at_feed("record that stops, and loose bytes behind it", 110, |l| !l.stops(2) && matches!(l.behind(), Some(1..6))),
    at_feed("record that stops, and a record behind it", 110, |l| !l.stops(2) && l.behind() > Some(5)),
    at_feed("record that stops at the piece's end", 360, |l| !l.stops(2) && l.behind() == Some(0)),
    at_feed("record that stops over a cut", 400, |l| l.opened() && l.kept() > 0 && l.behind().is_some() && l.records() == 1),
    at_feed("record that stops after others of the piece", 44, |l| l.opened() && l.behind().is_some() && l.records() > 1),
    at_feed("fault over a cut", 200, |l| l.stops(1) && l.opened() && l.kept() > 0 && l.records() == 1),
    at_feed("fault, and bytes behind it", 95, |l| l.stops(1) && l.behind() > Some(0)),
    at_feed("fault in a piece, several cycles of the fewest", 150, |l| l.shows(|s| s.several)),
    at_feed("fault in a piece, a shorter cycle above a longer one", 9, |l| l.shows(Shown::above_a_lower)),
    at_feed("fault in a piece by a clash", 53, |l| l.shows(|s| s.n() == 1 && s.cycle[0][2] > 0)),
    at_feed("piece after a stop", 10_000, |l| l.piece_at(true).is_some_and(|p| !p.is_empty())),
    at_feed("empty piece after a stop", 1300, |l| l.piece_at(true).is_some_and(|p| p.is_empty())),
    at_feed("piece after a fault", 77, |l| l.answer == 1 && l.piece_at(true).is_some_and(|p| p.len() > 5)),
    at_feed("record that stops with 5", 12, |l| l.stops(5)),
    at_feed("record that stops with 8", 10, |l| l.stops(8)),
    at_feed("record over an old desk in a longer buffer", 9, |l| l.fed_old()),
    at_feed("record that stops with 9", 130, |l| l.stops(9)),
    at_feed("record that stops with 9 over a cut", 100, |l| l.stops(9) && l.opened() && l.kept() > 0 && l.records() == 1),
    at_feed("record that stops with 9 after others of the piece", 10, |l| l.stops(9) && l.records() > 1),
    at_feed("piece after a 9", 730, |l| matches!(l.call, Call::Feed(_)) && l.stood_at_9()),
    at_feed("record in a piece over a number above the count", 42, |l| l.fed_above()),
    at_feed("pair drawn first in a piece", 360, |l| l.drew_in_piece()),
    at_feed("pair drawn first in a piece, its place another", 30, |l| {
        l.drew_in_piece() && feeds::number(l.feed_after) != u64::from(numbers::count(l.after))
    }),
    at_feed("fault in a piece, a number over 255 shown", 68, |l| l.showed_number(|number| number > 255)),
    at_feed("piece after a refused header", 1300, |l| l.answer == 2 && l.piece_at(true).is_some_and(|p| p.len() > 3)),
    // Pieces: the number.
    at_feed("number that reaches 2 to the 64 less 1", 26, |l| {
        l.piece(|_| true) && feeds::number(l.feed) != u64::MAX && feeds::number(l.feed_after) == u64::MAX
    }),
    at_feed("number that stays at 2 to the 64 less 1", 29, |l| {
        l.piece(|p| l.opened() && feeds::completes(l.feed, p)) && feeds::number(l.feed) == u64::MAX
    }),
    at_feed("number that passes 2 to the 32", 20, |l| l.piece(|_| true) && feeds::number(l.feed) >> 32 != feeds::number(l.feed_after) >> 32),
    at_feed("number that passes 255", 52, |l| l.piece(|_| true) && feeds::number(l.feed) < 256 && feeds::number(l.feed_after) > 255),
    // Ends.
    at_feed("end without a byte", 35, |l| l.end(false, 0, 2)),
    at_feed("end over 1 byte of the header", 12, |l| l.end(false, 1, 2)),
    at_feed("end over 2 bytes of the header", 8, |l| l.end(false, 2, 2)),
    at_feed("end over 3 bytes of the header", 8, |l| l.end(false, 3, 2)),
    at_feed("end right after the header", 41, |l| l.end(true, 0, 0) && feeds::number(l.feed) == 0),
    at_feed("end between records", 950, |l| l.end(true, 0, 0) && feeds::number(l.feed) > 0),
    at_feed("end between records, the desk closed", 23, |l| l.end(true, 0, 0) && l.before.get(1) == Some(&1)),
    at_feed("end over 1 loose byte, 3", 64, |l| l.end(true, 1, 3)),
    at_feed("end over 2 loose bytes, 3", 59, |l| l.end(true, 2, 3)),
    at_feed("end over 3 loose bytes, 3", 66, |l| l.end(true, 3, 3)),
    at_feed("end over 4 loose bytes, 3", 67, |l| l.end(true, 4, 3)),
    at_feed("end over 5 loose bytes, 3", 58, |l| l.end(true, 5, 3)),
    at_feed("end over 1 loose byte, 10", 34, |l| l.end(true, 1, 10)),
    at_feed("end over 2 loose bytes, 10", 33, |l| l.end(true, 2, 10)),
    at_feed("end over 3 loose bytes, 10", 34, |l| l.end(true, 3, 10)),
    at_feed("end over 4 loose bytes, 10", 4, |l| l.end(true, 4, 10)),
    at_feed("end over 5 loose bytes, 10", 32, |l| l.end(true, 5, 10)),
    at_feed("end over 1 loose byte, 11", 31, |l| l.end(true, 1, 11)),
    at_feed("end over 2 loose bytes, 11", 29, |l| l.end(true, 2, 11)),
    at_feed("end over 3 loose bytes, 11", 33, |l| l.end(true, 3, 11)),
    at_feed("end over 4 loose bytes, 11", 26, |l| l.end(true, 4, 11)),
    at_feed("end over 5 loose bytes, 11", 6, |l| l.end(true, 5, 11)),
    at_feed("end over loose bytes, the number at the top", 36, |l| {
        (1..6).any(|kept| l.end(true, kept, l.answer)) && feeds::number(l.feed) == u64::MAX
    }),
    at_feed("end over loose bytes of a first record, the slip short", 26, |l| {
        (1..6).any(|kept| l.end(true, kept, 11)) && feeds::number(l.feed) == 0 && l.short_slip(l.before)
    }),
    at_feed("end after a 9", 200, |l| matches!(l.call, Call::FeedEnd) && l.stood_at_9()),
    at_feed("end over loose bytes at the last count, 3", 39, |l| {
        (1..6).any(|kept| l.end(true, kept, 3)) && numbers::count(l.before) == FULL
    }),
    at_feed("end after a stop", 3200, |l| matches!(l.call, Call::FeedEnd) && l.stood()),
    // Starts.
    at_feed("start of a feed a byte short", 33, |l| l.start(|f| f.len() == FEED - 1)),
    at_feed("start of a longer feed", 510, |l| l.start(|f| f.len() > FEED)),
    at_feed("start over a used feed", 1100, |l| l.start(|f| f.len() >= FEED && f[..FEED].iter().any(|&b| b != 0))),
    // Pieces and their lengths.
    at_balance("empty piece", 130, |l| l.length() == 0),
    at_balance("piece of one record", 190, |l| l.length() == 6),
    at_balance("piece of 9,999 records", 49, |l| l.length() == LONGEST - 6),
    at_balance("piece of 10,000 records", 61, |l| l.length() == LONGEST),
    at_balance("piece of 10,001 records", 27, |l| l.length() == LONGEST + 6),
    at_balance("piece of more than 10,001 records", 27, |l| l.length() > LONGEST + 6 && l.length() % 6 == 0),
    at_balance("piece 1 to 5 bytes over 10,000 records", 16, |l| (1..6).contains(&l.length().wrapping_sub(LONGEST))),
    at_balance("piece 1 to 5 bytes short of 10,000 records", 17, |l| (1..6).contains(&LONGEST.wrapping_sub(l.length()))),
    at_balance("long piece whose length is whole in 16 bits", 33, |l| l.length() > 65_535 && l.length() % 65_536 % 6 == 0),
    at_balance("piece 1 byte over a record", 64, |l| l.length() < LONGEST && l.length() % 6 == 1),
    at_balance("piece 2 bytes over a record", 67, |l| l.length() < LONGEST && l.length() % 6 == 2),
    at_balance("piece 3 bytes over a record", 63, |l| l.length() < LONGEST && l.length() % 6 == 3),
    at_balance("piece 4 bytes over a record", 67, |l| l.length() < LONGEST && l.length() % 6 == 4),
    at_balance("piece 5 bytes over a record", 70, |l| l.length() < LONGEST && l.length() % 6 == 5),
    at_balance("piece refused for its last bytes, with balances", 140, |l| {
        l.answer == 14 && l.length() < LONGEST && !l.tally().all_zero()
    }),
    at_balance("piece refused for being long, with balances", 54, |l| {
        l.length() > LONGEST && l.length() % 6 == 0 && !l.tally().all_zero()
    }),
    at_balance("piece that begins with a header", 71, |l| {
        matches!(l.call, Call::Balance(piece) if piece.starts_with(&[0x4C, 0x48, 1]))
    }),
    // What counts in them.
    at_balance("acquire of mode 0 that counts", 760, |l| l.weighs(|t| t.acquires[0] > 0)),
    at_balance("acquire of mode 1 that counts", 650, |l| l.weighs(|t| t.acquires[1] > 0)),
    at_balance("acquire of mode 2 that counts", 790, |l| l.weighs(|t| t.acquires[2] > 0)),
    at_balance("acquire of mode 3 that counts", 610, |l| l.weighs(|t| t.acquires[3] > 0)),
    at_balance("acquire of mode 4 that counts", 590, |l| l.weighs(|t| t.acquires[4] > 0)),
    at_balance("acquire of mode 5 that counts", 670, |l| l.weighs(|t| t.acquires[5] > 0)),
    at_balance("release of mode 0 that counts", 530, |l| l.weighs(|t| t.releases[0] > 0)),
    at_balance("release of mode 1 that counts", 500, |l| l.weighs(|t| t.releases[1] > 0)),
    at_balance("release of mode 2 that counts", 650, |l| l.weighs(|t| t.releases[2] > 0)),
    at_balance("release of mode 3 that counts", 500, |l| l.weighs(|t| t.releases[3] > 0)),
    at_balance("release of mode 4 that counts", 500, |l| l.weighs(|t| t.releases[4] > 0)),
    at_balance("release of mode 5 that counts", 600, |l| l.weighs(|t| t.releases[5] > 0)),
    at_balance("record of core 0 that counts", 850, |l| l.weighs(|t| t.cores[0] > 0)),
    at_balance("record of core 7 that counts", 750, |l| l.weighs(|t| t.cores[7] > 0)),
    at_balance("class acquired by one core and released by another", 220, |l| l.weighs(|t| t.other_core)),
    at_balance("class acquired in one mode and released in another", 240, |l| l.weighs(|t| t.other_mode)),
    at_balance("class acquired over 255 times", 70, |l| l.weighs(|t| t.most > 255)),
    at_balance("class 0 in a piece", 540, |l| l.weighs(|t| t.balances[0] != 0)),
    at_balance("class 1 in a piece", 380, |l| l.weighs(|t| t.balances[1] != 0)),
    at_balance("class 62 in a piece", 120, |l| l.weighs(|t| t.balances[62] != 0)),
    at_balance("class 63 in a piece", 280, |l| l.weighs(|t| t.balances[63] != 0)),
    at_balance("class 64 in a piece", 180, |l| l.weighs(|t| t.balances[64] != 0)),
    at_balance("class 65 to 127 in a piece", 220, |l| l.weighs(|t| t.balances[65..128].iter().any(|&b| b != 0))),
    at_balance("class 128 to 254 in a piece", 220, |l| l.weighs(|t| t.balances[128..255].iter().any(|&b| b != 0))),
    at_balance("class of 64 or more in a piece", 20, |l| l.weighs(|t| t.over || t.classes[64..].iter().any(|&records| records > 0))),
    at_balance("class 255 in a piece", 170, |l| l.weighs(|t| t.balances[255] != 0)),
    at_balance("kind 2 in a piece", 470, |l| l.weighs(|t| t.events[2] > 0)),
    at_balance("kind 3 in a piece", 470, |l| l.weighs(|t| t.events[3] > 0)),
    at_balance("kind 4 to 8 in a piece", 470, |l| l.weighs(|t| t.events[4..9].iter().any(|&events| events > 0))),
    at_balance("kind 9 in a piece", 400, |l| l.weighs(|t| t.events[9] > 0)),
    at_balance("kind 10 in a piece", 210, |l| l.weighs(|t| t.events[10] > 0)),
    at_balance("kind 11 in a piece", 190, |l| l.weighs(|t| t.events[11] > 0)),
    at_balance("kind 12 in a piece", 200, |l| l.weighs(|t| t.events[12] > 0)),
    at_balance("first record of a piece that counts", 850, |l| l.weighs(|t| t.first && t.records > 1)),
    at_balance("last record of a piece that counts", 920, |l| l.weighs(|t| t.last && t.records > 1)),
    // What is malformed, and counts for nothing.
    at_balance("malformed by the signature's first byte alone", 150, |l| l.only_by(0)),
    at_balance("malformed by the signature's second byte alone", 140, |l| l.only_by(1)),
    at_balance("malformed by core 8 alone", 130, |l| l.only_by(2)),
    at_balance("malformed by a core over 8 alone", 150, |l| l.only_by(3)),
    at_balance("malformed by mode 6 alone", 150, |l| l.only_by(4)),
    at_balance("malformed by a mode over 6 alone", 140, |l| l.only_by(5)),
    at_balance("malformed by a release's mode 6 alone", 140, |l| l.only_by(6)),
    at_balance("malformed by a release's mode over 6 alone", 130, |l| l.only_by(7)),
    at_balance("malformed by kind 13 alone", 93, |l| l.only_by(8)),
    at_balance("malformed by a kind over 13 alone", 120, |l| l.only_by(9)),
    at_balance("malformed by the mode of a crosslock's record alone", 97, |l| l.only_by(12)),
    at_balance("malformed by an event's class alone", 170, |l| l.only_by(10)),
    at_balance("malformed by an event's mode alone", 150, |l| l.only_by(11)),
    at_balance("record that counts right behind a malformed one", 270, |l| l.weighs(|t| t.right_behind)),
    at_balance("record that counts behind a malformed one", 310, |l| l.weighs(|t| t.behind)),
    at_balance("record that counts before a malformed one", 320, |l| l.weighs(|t| t.before)),
    at_balance("piece of malformed records alone", 170, |l| l.weighs(|t| t.records > 0 && t.malformed == t.records)),
    // What comes out.
    at_balance("balance of -1", 310, |l| l.some_balance(|b| b == -1)),
    at_balance("balances below and above 0", 220, |l| l.some_balance(|b| b < 0) && l.some_balance(|b| b > 0)),
    at_balance("balances all 0 over records that count", 36, |l| l.weighs(|t| t.counted() > 0 && t.all_zero())),
    at_balance("balances of all 64 classes", 13, |l| l.weighs(|t| !t.any(|b| b == 0))),
    at_balance("balance that comes back from below 0", 260, |l| {
        l.weighs(|t| (0..64).any(|class| t.lowest[class] < 0 && t.balances[class] > t.lowest[class]))
    }),
    at_balance("balance over 48", 100, |l| l.some_balance(|b| b > 48)),
    at_balance("balance over 127", 96, |l| l.some_balance(|b| b > 127)),
    at_balance("balance below -128", 90, |l| l.some_balance(|b| b < -128)),
    at_balance("balance over 255", 73, |l| l.some_balance(|b| b > 255)),
    at_balance("balance over 4,095", 55, |l| l.some_balance(|b| b > 4095)),
    at_balance("balance below -4,096", 53, |l| l.some_balance(|b| b < -4096)),
    at_balance("balance over 8,191", 50, |l| l.some_balance(|b| b > 8191)),
    at_balance("balance below -8,192", 47, |l| l.some_balance(|b| b < -8192)),
    at_balance("balance of 9,999", 18, |l| l.some_balance(|b| b == 9999)),
    at_balance("balance of -9,999", 16, |l| l.some_balance(|b| b == -9999)),
    at_balance("balance of 10,000", 22, |l| l.some_balance(|b| b == 10_000)),
    at_balance("balance of -10,000", 21, |l| l.some_balance(|b| b == -10_000)),
    // What a desk said of the records.
    at_balance("balances of records refused with 3", 51, |l| l.desk_said(3)),
    at_balance("balances of records refused with 4", 75, |l| l.desk_said(4)),
    at_balance("balances of records refused with 5", 66, |l| l.desk_said(5)),
    at_balance("balances of records refused with 6", 100, |l| l.desk_said(6)),
    at_balance("balances of records refused with 7", 24, |l| l.desk_said(7)),
    at_balance("balances of records refused with 8", 34, |l| l.desk_said(8)),
    at_balance("balances of records refused with 15", 56, |l| l.desk_said(15)),
    at_balance("balances of records with a fault", 49, |l| l.desk_said(1)),
    at_balance("balances of records behind a fault", 17, |l| l.desk_said(10)),
    // Crosslocks on benches that are joined.
    at_join("12 for other crosslocks alone", 50, |l| {
        l.answer == 12 && l.with_room().is_some() && l.joins(|one, two| one[0][0] == two[0][0])
    }),
    at_join("12 for class 8 or more a crosslock of one alone", 3, |l| {
        l.answer == 12 && l.with_room().is_some() && l.joins(|one, two| {
            one[0][0] == two[0][0] && crosslocks::declared(one[0]) as u8 == crosslocks::declared(two[0]) as u8
        })
    }),
    at_join("12 for other crosslocks, a bench closed", 3, |l| {
        l.answer == 12 && l.with_room().is_some_and(|closed| closed != [false; 2]) && l.joins(|one, two| one[0][0] == two[0][0])
    }),
    at_join("join with the same crosslocks", 220, |l| l.joins_desk(0, |desk| crosslocks::declared(desk) != 0)),
    at_join("join with a crosslock in progress on the first bench", 110, |l| l.joins_desk(0, |desk| crosslocks::in_progress(desk) != 0)),
    at_join("join with a crosslock in progress on the second bench", 96, |l| l.joins_desk(1, |desk| crosslocks::in_progress(desk) != 0)),
    at_join("join with some kept on the first bench", 160, |l| l.joins_desk(0, |desk| crosslocks::kept(desk) != 0)),
    at_join("join with some kept on the second bench", 140, |l| l.joins_desk(1, |desk| crosslocks::kept(desk) != 0)),
    at_join("join with a since number on the first bench", 180, |l| l.joins_desk(0, |desk| (0..64).any(|class| crosslocks::since(desk, class) != 0))),
    at_join("join with a since number on the second bench", 160, |l| l.joins_desk(1, |desk| (0..64).any(|class| crosslocks::since(desk, class) != 0))),
    at_join("join with 256 kept on a bench", 61, |l| {
        l.joins_desk(0, |desk| crosslocks::kept(desk) == 256) || l.joins_desk(1, |desk| crosslocks::kept(desk) == 256)
    }),
    // Joins refused: for a bench.
    at_join("join with both benches unfit", 100, |l| l.answer == 11 && l.fit_benches() == [false; 2]),
    at_join("join with the first bench unfit alone", 320, |l| l.one_unfit(0, |_| true)),
    at_join("join with the second bench unfit alone", 310, |l| l.one_unfit(1, |_| true)),
    at_join("join with an unfit bench and a closed one", 140, |l| l.one_unfit(0, |other| other[1] == 1) || l.one_unfit(1, |other| other[1] == 1)),
    at_join("join with a closed bench that is unfit", 170, |l| {
        l.answer == 11 && l.benches().is_some_and(|b| (0..2).any(|i| !l.fit_benches()[i] && b[i][0].get(1) == Some(&1)))
    }),
    at_join("join with an unfit bench of another K", 200, |l| {
        l.answer == 11 && l.fit_benches() != [true; 2] && l.joins(|one, two| one[0].first().zip(two[0].first()).is_some_and(|(a, b)| a != b))
    }),
    // For room.
    at_join("join into a desk a byte short", 12, |l| l.short_alone(0, |length, _, size| length + 1 == size)),
    at_join("join into a sheet a byte short", 48, |l| l.short_alone(1, |length, _, size| length + 1 == size)),
    at_join("join into a second sheet a byte short", 46, |l| l.short_alone(2, |length, _, size| length + 1 == size)),
    at_join("join with a slip a byte short", 48, |l| l.short_alone(3, |length, _, size| length + 1 == size)),
    at_join("join into a second sheet of K x K bytes", 24, |l| l.short_alone(2, |length, _, size| 4 * length == size)),
    at_join("join with a slip of 1 + 3K bytes", 36, |l| l.short_alone(3, |length, _, size| length == 1 + 3 * (size - 1) / 7)),
    at_join("join into a sheet for the smaller K", 8, |l| l.short_alone(1, |length, small, _| length >= small)),
    at_join("join into a second sheet for the smaller K", 46, |l| l.short_alone(2, |length, small, _| length >= small)),
    at_join("join with a slip for the smaller K", 64, |l| l.short_alone(3, |length, small, _| length >= small)),
    at_join("join with a short slip, a cycle there", 25, |l| {
        l.short_alone(3, |_, small, large| small == large) && l.joins(|one, two| [one, two].iter().any(|b| Drawing::of(b[0], b[1], b[2]).has_cycle()))
    }),
    at_join("join with a short slip, the benches fresh", 15, |l| {
        l.short_alone(3, |_, small, large| small == large) && l.joins(|one, two| {
            [one, two].iter().all(|b| b[1].iter().take(usize::from(b[0][0]).pow(2)).all(|&kinds| kinds == 0) && b[0][MARKS..HOLDS] == [0; 64])
        })
    }),
    at_join("join short of room with a closed bench", 87, |l| {
        l.answer == 11 && l.room(|_, _, _| true) && l.joins(|one, two| one[0][1] == 1 || two[0][1] == 1)
    }),
    // For different K, and for closed benches.
    at_join("12, the first bench with more classes", 150, |l| l.answer == 12 && l.with_room().is_some() && l.joins(|one, two| one[0][0] > two[0][0])),
    at_join("12, the second bench with more classes", 140, |l| l.answer == 12 && l.with_room().is_some() && l.joins(|one, two| one[0][0] < two[0][0])),
    at_join("12, all just long enough for the larger K", 49, |l| l.answer == 12 && l.room(|lengths, _, large| lengths == large)),
    at_join("12, K one more or less", 170, |l| {
        l.answer == 12 && l.with_room().is_some() && l.joins(|one, two| one[0][0].abs_diff(two[0][0]) == 1)
    }),
    at_join("12 with the first bench closed", 60, |l| l.closed(12, [true, false])),
    at_join("12 with the second bench closed", 58, |l| l.closed(12, [false, true])),
    at_join("12 with both benches closed", 61, |l| l.closed(12, [true; 2])),
    at_join("13 for the first bench alone", 110, |l| l.closed(13, [true, false])),
    at_join("13 for the second bench alone", 110, |l| l.closed(13, [false, true])),
    at_join("13 for both benches", 63, |l| l.closed(13, [true; 2])),
    at_join("13 where the drawing has a cycle", 240, |l| {
        l.answer == 13 && l.with_room().is_some() && l.joins(|one, two| [one, two].iter().any(|b| Drawing::of(b[0], b[1], b[2]).has_cycle()))
    }),
    // What is joined.
    at_join("pair that the first bench alone has", 550, |l| l.joined().pairs[0]),
    at_join("pair that the second bench alone has", 530, |l| l.joined().pairs[1]),
    at_join("pair with the same kinds on both benches", 200, |l| l.joined().pairs[2]),
    at_join("pair of both benches, a kind on the first alone", 310, |l| l.joined().pairs[3]),
    at_join("pair of both benches, a kind on the second alone", 300, |l| l.joined().pairs[4]),
    at_join("class that the first bench alone marks", 450, |l| l.joined().marks[0]),
    at_join("class that the second bench alone marks", 410, |l| l.joined().marks[1]),
    at_join("class with the same marks on both benches", 130, |l| l.joined().marks[2]),
    at_join("class marked on both, a mark on the first alone", 230, |l| l.joined().marks[3]),
    at_join("class marked on both, a mark on the second alone", 230, |l| l.joined().marks[4]),
    at_join("marks of class 8 or more joined", 240, |l| l.made().is_some() && l.after[MARKS + 8..HOLDS].iter().any(|&m| m != 0)),
    at_join("marks of class 63 joined", 39, |l| l.made().is_some() && l.after[HOLDS - 1] != 0),
    at_join("number on both benches, the first's less", 230, |l| l.joined().numbers[0]),
    at_join("number on both benches, the first's greater", 220, |l| l.joined().numbers[1]),
    at_join("number of the first bench with a low byte of 0", 67, |l| l.joined().numbers[2]),
    at_join("number above the count of the first bench", 180, |l| l.joined().above[0]),
    at_join("number above the count of the second bench", 180, |l| l.joined().above[1]),
    at_join("count of the first bench but 0", 990, |l| l.joins_desk(0, |desk| numbers::count(desk) != 0)),
    at_join("count of the second bench but 0", 950, |l| l.joins_desk(1, |desk| numbers::count(desk) != 0)),
    at_join("state of the first bench but 0", 880, |l| l.joins_desk(0, |desk| desk[STATES..DEPTHS] != [0; 8])),
    at_join("state of the second bench but 0", 890, |l| l.joins_desk(1, |desk| desk[STATES..DEPTHS] != [0; 8])),
    at_join("locks held on the first bench", 770, |l| l.joins_desk(0, |desk| desk[DEPTHS..MARKS].iter().any(|&depth| depth > 0))),
    at_join("locks held on the second bench", 750, |l| l.joins_desk(1, |desk| desk[DEPTHS..MARKS].iter().any(|&depth| depth > 0))),
    at_join("tries held on the first bench", 450, |l| l.joins_desk(0, has_origins)),
    at_join("tries held on the second bench", 420, |l| l.joins_desk(1, has_origins)),
    at_join("join with a fresh bench", 150, |l| l.joins_desk(0, is_fresh) || l.joins_desk(1, is_fresh)),
    at_join("join of one class", 100, |l| l.joins_desk(0, |desk| desk[0] == 1)),
    at_join("join of 64 classes", 130, |l| l.joins_desk(0, |desk| desk[0] == 64)),
    at_join("join into buffers with bytes behind", 880, |l| l.answer < 2 && l.room(|lengths, _, large| (0..4).any(|i| lengths[i] > large[i]))),
    at_join("join into buffers just long enough", 190, |l| l.answer < 2 && l.room(|lengths, _, large| lengths == large)),
    at_join("join into a desk that has a closed byte", 370, |l| l.made().is_some() && l.answer == 0 && l.before[1] != 0),
    // What comes of it.
    at_join("clean join of benches that both draw", 110, |l| l.answer == 0 && l.joined().pairs[0] && l.joined().pairs[1]),
    at_join("fault of the join, of neither bench", 110, |l| l.own_cycles([false; 2])),
    at_join("fault of the join and of the first bench", 130, |l| l.own_cycles([true, false])),
    at_join("fault of the join and of the second bench", 120, |l| l.own_cycles([false, true])),
    at_join("fault of the join and of both benches", 110, |l| l.own_cycles([true; 2])),
    at_join("join with a cycle of 1 dependency", 310, |l| l.of_length(1..=1)),
    at_join("join with a cycle of 2 dependencies", 110, |l| l.of_length(2..=2)),
    at_join("join with a cycle of 3 to 7 dependencies", 43, |l| l.of_length(3..=7)),
    at_join("join with a cycle of 8 and more dependencies", 15, |l| l.of_length(8..=64)),
    at_join("join with several cycles of the fewest", 210, |l| l.shows(|s| s.several)),
    at_join("clash of marks from both benches", 56, |l| {
        l.shows(|s| s.n() == 1 && s.cycle[0][2] > 0 && l.joins(|one, two| {
            [one, two].iter().all(|b| !clashes::clashes(b[0][MARKS + usize::from(s.cycle[0][0])]))
        }))
    }),
    at_join("interrupt shown, unsafe on one bench and safe on the other", 70, |l| l.interrupt_across()),
    at_join("number shown of a pair of the first bench alone", 200, |l| l.shown_of(|_, source, _, n| source == 0 && n[1] == 0)),
    at_join("number shown of a pair of the second bench alone", 150, |l| l.shown_of(|_, source, _, n| source == 0 && n[0] == 0)),
    at_join("number shown of the first bench, the second has another", 140, |l| {
        l.shown_of(|_, source, _, n| source == 0 && n[0] != 0 && n[1] != 0 && n[0] != n[1])
    }),
    at_join("number shown of the first bench, the kind the second's", 61, |l| {
        l.shown_of(|kind, source, kinds, n| source == 0 && n[0] != 0 && n[0] != n[1] && kinds[0] & kind == 0)
    }),
    at_join("interrupt shown by a join, its pair with a number", 16, |l| l.shown_of(|_, source, _, n| source > 0 && n != [0; 2])),
    at_join("slip longer than the cycle of a join", 440, |l| l.shows(|s| l.slip.len() > 1 + 7 * s.n())),
    at_join("clean join over a slip with bytes", 590, |l| l.answer == 0 && l.slip_before.iter().any(|&b| b != 0)),
    // Joined again.
    at_join("join of the joined desk as the first bench", 58, |l| l.own_side([true, false]) && l.history.joined.is_some()),
    at_join("join of the joined desk as the second bench", 51, |l| l.own_side([false, true]) && l.history.joined.is_some()),
    at_join("join of the joined desk after steps", 110, |l| {
        l.history.joined > Some(0) && (l.own_side([true, false]) || l.own_side([false, true]))
    }),
    at_join("join of a desk with itself", 43, |l| l.own_side([true; 2])),
    at_join("join of a desk from opening by steps", 77, |l| l.answer < 2 && l.history.steps > Some(0)),
    at_join("13 for the joined desk itself", 270, |l| l.answer == 13 && l.history.joined.is_some()),
];

/// Sights by their places.
#[derive(Clone, Copy)]
pub struct Set(pub [bool; SIGHTS.len()]);

impl Default for Set {
    fn default() -> Set {
        Set([false; SIGHTS.len()])
    }
}

/// The sights that a call is.
pub fn of(look: &Look) -> Set {
    Set(std::array::from_fn(|i| SIGHTS[i].met(look)))
}

/// The place of a sight by name.
pub fn named(name: &str) -> usize {
    SIGHTS.iter().position(|s| s.name == name).unwrap_or_else(|| panic!("no sight is named {name}"))
}
