//! A case is data: the buffers as they lie at first, and the calls made on them. This
//! file runs a case on subject, reference and fast judge, and compares after every
//! call.

use crate::balances;
use crate::claim;
use crate::crosslocks;
use crate::drawing::{self, Drawing};
use crate::feeds::{self, Fed, PROMISE};
use crate::gen::{sizes, Buffers};
use crate::joins;
use crate::judges::{unfit, unfit_bench, Judges, Lent, Subject, CLAUSES};
use crate::merges::{self, Merges};
use crate::numbers;
use crate::sights::{self, Look, SIGHTS};
use crate::usage;
use reference::{DECLARED, DEEPEST, DEPTHS, DESK, FEED, FEED_CLAUSES, HISTORY, MARKS, PROGRESS};
use std::cell::OnceCell;

/// A record of 0 to 12 bytes.
#[derive(Clone, Copy, PartialEq, Eq)]
pub struct Rec {
    pub len: u8,
    pub bytes: [u8; 12],
}

impl Rec {
    pub fn of(from: &[u8]) -> Rec {
        let mut bytes = [0; 12];
        bytes[..from.len()].copy_from_slice(from);
        Rec { len: from.len() as u8, bytes }
    }
    pub fn new(core: u8, kind: u8, class: u8, mode: u8) -> Rec {
        Rec::of(&[0x4C, 0x4B, core, kind, class, mode])
    }
    pub fn slice(&self) -> &[u8] {
        &self.bytes[..usize::from(self.len)]
    }
    /// "A record names its core if it meets none of the conditions of refusal 3".
    pub fn names(&self) -> Option<u8> {
        let &[0x4C, 0x4B, core, kind, class, mode] = self.slice() else { return None };
        let well = core <= 7
            && match kind {
                0 | 1 => mode <= 5,
                2..=9 => class == 0 && mode == 0,
                10..=12 => mode == 0,
                _ => false,
            };
        well.then_some(core)
    }
    /// Whether it takes, commits or releases a crosslock and is not malformed, accepted or not.
    pub fn of_crosslock(&self) -> bool {
        self.names().is_some() && self.bytes[3] > 9
    }
    /// Whether it is a release of mode 1 to 5, which names its core since releases have modes.
    pub fn releases_by_mode(&self) -> bool {
        self.names().is_some() && self.bytes[3] == 1 && self.bytes[5] > 0
    }
}

#[derive(Clone)]
pub enum Call {
    /// With K and the declared word.
    Open(u64, u64),
    Step(Rec),
    Ask(u64),
    FeedStart,
    Feed(Vec<u8>),
    FeedEnd,
    Balance(Vec<u8>),
    /// Two benches into the case's own buffers.
    Join(Box<[Side; 2]>),
}

/// A bench that is joined.
#[derive(Clone)]
pub enum Side {
    /// Desk and both sheets of these; their history and slip lie idle.
    Given(Buffers),
    /// A copy of the case's own buffers as they stand before the call.
    Own,
}

impl Side {
    pub fn lent<'a>(&'a self, own: Lent<'a>) -> Lent<'a> {
        match self {
            Side::Given(b) => b.lent(),
            Side::Own => own,
        }
    }
}

impl Call {
    pub fn join(first: Side, second: Side) -> Call {
        Call::Join(Box::new([first, second]))
    }
    pub fn of_feed(&self) -> bool {
        matches!(self, Call::FeedStart | Call::Feed(_) | Call::FeedEnd)
    }
}

#[derive(Clone)]
pub struct Case {
    pub name: &'static str,
    pub buffers: Buffers,
    /// Empty where no call is of the feed.
    pub feed: Vec<u8>,
    pub calls: Vec<Call>,
    /// For a pair of lists (demand 3). Then `calls` is the second list.
    pub pair: Option<Pair>,
    /// A join from which each list of a pair, or each merge, starts instead.
    pub start: Option<Call>,
    /// For a log that is run in several merges (request k). Then `calls` is the log.
    pub merges: Option<Merges>,
    /// Whether each accepted record is held to document 002's rules: all that is drawn is exclusive.
    pub usage: bool,
    /// The clause that the case is meant to violate first, where it is meant to.
    pub clause: Option<&'static str>,
    /// What is to come of the calls, where the case is made so that it is known.
    pub meant: Option<Meant>,
}

/// Two lists: which calls of the second stand in the first too. Each list starts from opening with this K, and its own declared
/// word, the first's before the second's; demand 3 speaks of them only where both are the same.
#[derive(Clone)]
pub struct Pair {
    pub k: u64,
    pub declared: [u64; 2],
    pub in_first: Vec<bool>,
}

/// The answers, and how the slip begins then; where they are known, the whole desk, the sheet, the count and the number of each
/// pair, how the history begins, and the last balances.
#[derive(Clone, Default)]
pub struct Meant {
    /// Of a pair of lists those of the second list, then those of the first.
    pub answers: Vec<u8>,
    pub slip: Vec<u8>,
    pub desk: Option<Vec<u8>>,
    /// The sheet, of K x K bytes.
    pub sheet: Option<Vec<u8>>,
    pub numbers: Option<(u32, Vec<u32>)>,
    /// The whole desk behind the count, and the history.
    pub crosslocks: Option<crosslocks::Left>,
    pub balances: Option<balances::Numbers>,
    /// Whether demand 3 says nothing of this pair of lists.
    pub not_claimed: bool,
}

pub struct Diff {
    /// The judge that is wrong, the part of demand 3's claim, of the feed's promise, of what is said of balances or of joins or of
    /// request k's claims that is broken, LEAST, NUMBERS, or BY_RECORDS.
    pub judge: &'static str,
    pub call: usize,
    pub text: String,
}

/// How often each sight was met.
pub struct Sighted(pub [u64; SIGHTS.len()]);

impl Default for Sighted {
    fn default() -> Sighted {
        Sighted([0; SIGHTS.len()])
    }
}

#[derive(Default)]
pub struct Counts {
    pub cases: u64,
    pub calls: u64,
    pub open: [u64; 20],
    pub step: [u64; 20],
    pub ask: [u64; 20],
    pub clause_step: [u64; CLAUSES.len()],
    pub clause_ask: [u64; CLAUSES.len()],
    pub feed_start: [u64; 20],
    pub feed: [u64; 20],
    pub feed_end: [u64; 20],
    pub clause_feed: [u64; FEED_CLAUSES.len()],
    pub clause_feed_end: [u64; FEED_CLAUSES.len()],
    pub balance: [u64; 20],
    pub join: [u64; 20],
    /// Joins refused for a bench, by which of the two and its first clause, and for a buffer to be written.
    pub clause_join: [[u64; CLAUSES.len()]; 2],
    pub short_join: [u64; 4],
    /// Joins held to each part of what is said of them.
    pub said_of_joins: [u64; joins::PARTS.len()],
    /// Pieces of two records and more whose balances were added over a split, and those held to the locks on a desk.
    pub added: u64,
    pub held: u64,
    /// Feeds held to each part of the promise.
    pub promised: [u64; PROMISE.len()],
    /// Calls of each sight, and the sights of the last call.
    pub sights: Sighted,
    pub last_sights: sights::Set,
    /// Whether no sights are looked for.
    pub blind: bool,
    pub pair_records: u64,
    /// Pairs of lists with no fault, with one in the second only, in both.
    pub pair_faults: [u64; 3],
    /// The same of those that start from a join, and faults of these that would be none from opening.
    pub joined_pair_faults: [u64; 3],
    pub faults_by_start: u64,
    /// Pairs of lists that gave two classes another number each, and those with records of crosslocks.
    pub pair_numbers: u64,
    pub pair_crosslocks: u64,
    /// Those with a release of mode 1 to 5 put in that was accepted, and that was refused with 5.
    pub pair_released: u64,
    pub pair_not_fitting: u64,
    pub asked_closed: u64,
    /// Questions on open desks where the class reaches itself.
    pub asked_itself: u64,
    /// From opening: accepted acquires that fill a frame, and those refused for a full one.
    pub filled: u64,
    pub over_full: u64,
    /// Releases refused though an older lock of the class fits, by the newest lock's mode and the release's.
    pub older_fits: [[u64; 6]; 6],
    /// Of the cycles shown: the longest, and dependencies by kind and source.
    pub longest_cycle: u8,
    pub shown: [[u64; 3]; 4],
    /// Cases with merges, and records of exclusive logs and drawings, by what they are counted for.
    pub merges: [u64; merges::SIGHTS.len()],
    pub usage: [u64; usage::SIGHTS.len()],
    pub by_name: Vec<(&'static str, u64, u64)>,
}

const FRONT: usize = 32;
const TAIL: usize = 64;

/// A lent buffer between guards.
#[derive(Clone)]
struct Guarded {
    all: Vec<u8>,
    end: usize,
}

impl Guarded {
    fn of(bytes: &[u8]) -> Guarded {
        let mut all = Vec::with_capacity(FRONT + bytes.len() + TAIL);
        all.extend((0..FRONT).map(|i| 0xA5 ^ i as u8));
        all.extend_from_slice(bytes);
        all.extend((0..TAIL).map(|i| 0x5A ^ (3 * i) as u8));
        Guarded { all, end: FRONT + bytes.len() }
    }
    fn lend(&mut self) -> &mut [u8] {
        &mut self.all[FRONT..self.end]
    }
    fn see(&self) -> &[u8] {
        &self.all[FRONT..self.end]
    }
}

#[derive(Clone)]
struct Bench {
    desk: Guarded,
    sheet: Guarded,
    seen: Guarded,
    history: Guarded,
    slip: Guarded,
    feed: Guarded,
}

impl Bench {
    /// As a bench that is joined.
    fn lent(&self) -> Lent<'_> {
        [self.desk.see(), self.sheet.see(), self.seen.see()]
    }
    fn all_four(&self) -> [&[u8]; 4] {
        [self.desk.see(), self.sheet.see(), self.seen.see(), self.slip.see()]
    }
    fn lend(&mut self) -> [&mut [u8]; 4] {
        [self.desk.lend(), self.sheet.lend(), self.seen.lend(), self.slip.lend()]
    }
    /// As a step and a feed have them.
    fn lend_all(&mut self) -> [&mut [u8]; 6] {
        let Bench { desk, sheet, seen, history, slip, feed } = self;
        [desk, sheet, seen, history, slip, feed].map(Guarded::lend)
    }
    fn of(case: &Case) -> Bench {
        Bench {
            desk: Guarded::of(&case.buffers.desk),
            sheet: Guarded::of(&case.buffers.sheet),
            seen: Guarded::of(&case.buffers.seen),
            history: Guarded::of(&case.buffers.history),
            slip: Guarded::of(&case.buffers.slip),
            feed: Guarded::of(&case.feed),
        }
    }
    /// As another stands.
    fn set(&mut self, other: &Bench) {
        self.desk.all.copy_from_slice(&other.desk.all);
        self.sheet.all.copy_from_slice(&other.sheet.all);
        self.seen.all.copy_from_slice(&other.seen.all);
        self.history.all.copy_from_slice(&other.history.all);
        self.slip.all.copy_from_slice(&other.slip.all);
        self.feed.all.copy_from_slice(&other.feed.all);
    }
    /// Whether a byte differs before the buffers or past their stated sizes for K, the slip's apart.
    fn differs_past(&self, other: &Bench, k: usize) -> bool {
        let [desk, sheet, seen, _] = sizes(k);
        let buffers = [
            (&self.desk, &other.desk, desk), (&self.sheet, &other.sheet, sheet), (&self.seen, &other.seen, seen),
            (&self.history, &other.history, HISTORY),
        ];
        buffers.iter().any(|(a, b, size)| a.all[..FRONT] != b.all[..FRONT] || a.all.get(FRONT + size..) != b.all.get(FRONT + size..))
    }
    /// The first clause of "Unfit" that is violated, at a step or at a question.
    fn unfit(&self, step: bool) -> Option<&'static str> {
        let (desk, sheet, seen) = (self.desk.see(), self.sheet.see(), self.seen.see());
        match step {
            true => unfit(desk, sheet, seen, self.history.see(), self.slip.see()),
            false => unfit_bench([desk, sheet, seen]),
        }
    }
    /// The first difference in a buffer.
    fn differs(&self, other: &Bench) -> Option<String> {
        let buffers = [
            ("desk", &self.desk, &other.desk),
            ("sheet", &self.sheet, &other.sheet),
            ("second sheet", &self.seen, &other.seen),
            ("history", &self.history, &other.history),
            ("feed", &self.feed, &other.feed),
            ("slip", &self.slip, &other.slip),
        ];
        buffers.iter().filter(|(_, a, b)| a.all != b.all).find_map(|(what, a, b)| first_difference(what, a, b))
    }
}

fn first_difference(what: &str, a: &Guarded, b: &Guarded) -> Option<String> {
    let at = a.all.iter().zip(&b.all).position(|(x, y)| x != y)?;
    let place = at as isize - FRONT as isize;
    let guard = if at < FRONT || at >= a.end { " (guard)" } else { "" };
    Some(format!("{what} byte {place}{guard}: {} instead of {}", a.all[at], b.all[at]))
}

/// The reference's slip after a call, told from the documents: unchanged unless a fault is shown; then a true cycle, and
/// the bytes past 1 + 7n unchanged.
fn slip_wrong(shows: bool, bench: &Bench, before: &Guarded) -> Option<String> {
    if !shows {
        let same = bench.slip.all == before.all;
        return if same { None } else { first_difference("slip (no fault)", &bench.slip, before) };
    }
    let slip = bench.slip.see();
    let n = usize::from(slip[0]);
    if !reference::true_circle(bench.desk.see(), bench.sheet.see(), bench.seen.see(), slip) {
        return Some(format!("slip shows no true cycle: {:?}", &slip[..(1 + 7 * n).min(slip.len())]));
    }
    let past = FRONT + 1 + 7 * n;
    let same = bench.slip.all[past..] == before.all[past..] && bench.slip.all[..FRONT] == before.all[..FRONT];
    (!same).then(|| "slip changed past 1 + 7n".into())
}

/// Count and first-seen numbers: what is wrong with those that the reference left, told from the bytes before and after the
/// call.
pub const NUMBERS: &str = "the first-seen numbers";
/// Count, numbers, kinds or marks: what is wrong with those that the reference left, told from the list of records alone.
pub const BY_RECORDS: &str = "what the records alone draw";

/// After an accepted record one more is counted; a number stays where there is one, and a pair that has its first kind gets
/// the record's.
fn numbers_wrong(before: &Bench, after: &Bench) -> Option<String> {
    let desk = after.desk.see();
    let k = usize::from(desk[0]);
    let own = numbers::count(before.desk.see()) as u64 + 1;
    if u64::from(numbers::count(desk)) != own {
        return Some(format!("count {} after record {own}", numbers::count(desk)));
    }
    let old = before.seen.see().chunks_exact(4);
    let new = after.seen.see().chunks_exact(4);
    let kinds = after.sheet.see()[..k * k].iter();
    let own = (own as u32).to_le_bytes();
    let mut pairs = old.zip(new).zip(kinds);
    let wrong = match before.sheet.all == after.sheet.all && before.seen.all == after.seen.all {
        // The pairs fitted before.
        true => None,
        false => pairs.position(|((old, new), &kinds)| match (old, kinds) {
            ([0, 0, 0, 0], 0) => new != [0; 4],
            ([0, 0, 0, 0], _) => new != own,
            _ => new != old,
        }),
    };
    wrong.map(|pair| format!("a wrong number from {} to {}", pair / k, pair % k))
}

/// After a piece that was no header and did not reach the top of the feed's number: as many are counted as were accepted.
fn count_wrong(before: &Bench, after: &Bench, answer: u8) -> Option<String> {
    let [feed, feed_after] = [before, after].map(|bench| feeds::number(bench.feed.see()));
    let [count, count_after] = [before, after].map(|bench| u64::from(numbers::count(bench.desk.see())));
    let accepted = feed_after - feed - u64::from(answer > 1);
    (count + accepted != count_after).then(|| format!("count {count_after} after {count} and {accepted} accepted"))
}

/// The slip has the pair's number with a lock dependency, and 0 with an interrupt.
fn shown_wrong(bench: &Bench) -> Option<String> {
    let (slip, k) = (bench.slip.see(), usize::from(bench.desk.see()[0]));
    let entries: Vec<&[u8]> = slip[1..].chunks_exact(7).take(usize::from(slip[0])).collect();
    let n = entries.len();
    (0..n).find_map(|i| {
        let (from, to) = (usize::from(entries[i][0]), usize::from(entries[(i + 1) % n][0]));
        let of_pair = || bench.seen.see().chunks_exact(4).nth(from * k + to);
        let want = if entries[i][2] == 0 { of_pair()? } else { &[0; 4] };
        (entries[i][3..] != *want).then(|| format!("{:?} in the slip from {from} to {to}, not {want:?}", &entries[i][3..]))
    })
}

/// The least cycle, told by going through all where classes are few: what is wrong with the one shown.
pub const LEAST: &str = "the least cycle";
const FEW: u8 = 4;

fn not_least(bench: &Bench) -> Option<String> {
    let (desk, sheet, slip) = (bench.desk.see(), bench.sheet.see(), bench.slip.see());
    let n = usize::from(slip[0]);
    let least = (1..=n).find_map(|n| reference::all_circles(desk, sheet, bench.seen.see(), n).into_iter().next())?;
    let shown = slip[1..1 + 7 * n].chunks_exact(7).map(|t| (t[0], t[1], t[2]));
    (!shown.eq(least.iter().copied())).then(|| format!("slip {:?}, and the least cycle is {least:?}", &slip[..1 + 7 * n]))
}

impl Counts {
    fn show(&mut self, slip: &[u8]) {
        self.longest_cycle = self.longest_cycle.max(slip[0]);
        for dependency in slip[1..].chunks_exact(7).take(usize::from(slip[0])) {
            let kind = dependency[1].trailing_zeros() as usize;
            if let Some(shown) = self.shown.get_mut(kind).and_then(|s| s.get_mut(usize::from(dependency[2]))) {
                *shown += 1;
            }
        }
    }
    fn sight(
        &mut self, call: &Call, before: &Bench, after: &Bench, answer: u8, clause: Option<&'static str>, history: History,
    ) {
        if self.blind {
            return;
        }
        let look = Look {
            call,
            before: before.desk.see(),
            after: after.desk.see(),
            sheet: before.sheet.see(),
            sheet_after: after.sheet.see(),
            seen: before.seen.see(),
            seen_after: after.seen.see(),
            kept: before.history.see(),
            slip: after.slip.see(),
            slip_before: before.slip.see(),
            answer,
            clause,
            feed: before.feed.see(),
            feed_after: after.feed.see(),
            history,
            shown: OnceCell::new(),
            clashes: OnceCell::new(),
            numbers: OnceCell::new(),
            joined: OnceCell::new(),
            fit_benches: OnceCell::new(),
            tally: OnceCell::new(),
        };
        if let Some((newest, mode)) = look.older_fits() {
            self.older_fits[usize::from(newest)][usize::from(mode)] += 1;
        }
        self.last_sights = sights::of(&look);
        for (count, met) in self.sights.0.iter_mut().zip(self.last_sights.0) {
            *count += u64::from(met);
        }
    }
}

/// What came before a call.
#[derive(Clone, Copy, Default)]
pub struct History {
    /// Whether the call before was an end that answered 0.
    pub after_end: bool,
    /// From opening by steps: how many of them there were.
    pub steps: Option<u64>,
    /// The same from a join that was not refused.
    pub joined: Option<u64>,
    /// The answers of steps since the last opening, a bit each.
    pub answers: u32,
}

impl History {
    /// After this call and its answer.
    pub fn after(self, call: &Call, answer: u8) -> History {
        let steps = match call {
            Call::Open(..) if answer == 0 => Some(0),
            Call::Step(_) => self.steps.map(|steps| steps + 1),
            Call::Feed(_) | Call::FeedEnd => None,
            Call::Join(_) if answer < 2 => None,
            _ => self.steps,
        };
        let joined = match call {
            Call::Join(_) if answer < 2 => Some(0),
            Call::Open(..) if answer == 0 => None,
            Call::Step(_) => self.joined.map(|steps| steps + 1),
            Call::Feed(_) | Call::FeedEnd => None,
            _ => self.joined,
        };
        let answers = match call {
            Call::Open(..) | Call::Join(_) => 0,
            Call::Step(_) => self.answers | 1 << answer,
            _ => self.answers,
        };
        History { after_end: matches!(call, Call::FeedEnd) && answer == 0, steps, joined, answers }
    }
}

/// How many frames are full.
fn full_frames(bench: &Bench) -> usize {
    bench.desk.see()[DEPTHS..MARKS].iter().filter(|&&depth| usize::from(depth) == DEEPEST).count()
}

/// What calls left: the subject's answers, subject's and reference's benches, the last record number of a feed and the last
/// balances.
struct Ran {
    answers: Vec<u8>,
    subject: Bench,
    reference: Bench,
    record: u64,
    balances: balances::Numbers,
}

/// Runs the calls on the three benches.
fn run_calls(case: &Case, calls: &[&Call], judges: &mut Judges, counts: &mut Counts) -> Result<Ran, Diff> {
    let Judges { subject, reference: other, fast } = judges;
    let mut from_opening = false;
    let (mut record, mut history) = (0, History::default());
    // From opening by steps, what the records alone draw.
    let mut by_records: Option<Drawing> = None;
    // From opening by steps that were all accepted, their records.
    let mut accepted: Option<Vec<u8>> = None;
    let mut numbers = [0; 64];
    let fresh = Bench::of(case);
    let mut refe = fresh.clone();
    let mut quick = fresh.clone();
    let mut subj = fresh.clone();
    let mut before = fresh;
    let mut answers = Vec::with_capacity(calls.len());
    for (at, call) in calls.iter().enumerate() {
        let fail = |judge: &'static str, text: String| Err(Diff { judge, call: at, text });
        before.set(&refe);
        counts.calls += 1;
        let (want, got, fast_got);
        let mut clause = None;
        match call {
            Call::Open(k, declared) => {
                let [d, s, n, h, ..] = refe.lend_all();
                want = (other.open)(*k, *declared, d, s, n, h);
                let [d, s, n, h, ..] = subj.lend_all();
                got = subject.open(*k, *declared, d, s, n, h);
                let [d, s, n, h, ..] = quick.lend_all();
                fast_got = (fast.open)(*k, *declared, d, s, n, h);
                counts.sight(call, &before, &refe, want, clause, history);
                counts.open[usize::from(want)] += 1;
                from_opening |= want == 0;
                // Two lists are held to theirs at their end.
                if want == 0 && case.pair.is_none() {
                    by_records = Some(Drawing::opened(*k as usize, *declared));
                }
            }
            Call::Step(record) => {
                let bytes = record.slice();
                let [d, s, n, h, l, _] = refe.lend_all();
                want = (other.step)(d, s, n, h, l, bytes);
                let [d, s, n, h, l, _] = subj.lend_all();
                got = subject.step(d, s, n, h, l, bytes);
                let [d, s, n, h, l, _] = quick.lend_all();
                fast_got = (fast.step)(d, s, n, h, l, bytes);
                counts.step[usize::from(want)] += 1;
                if ![10, 11].contains(&want) && (want == 3) == record.names().is_some() {
                    return fail("reference", format!("answer {want}, and the record names {:?}", record.names()));
                }
                if want == 11 {
                    clause = before.unfit(true);
                    let Some(i) = CLAUSES.iter().position(|c| Some(*c) == clause) else {
                        return fail("reference", "11 without a clause".into());
                    };
                    counts.clause_step[i] += 1;
                    if let Some(meant) = case.clause {
                        if clause != Some(meant) {
                            return fail("reference", format!("clause {clause:?} instead of {meant}"));
                        }
                    }
                } else if case.clause.is_some() {
                    return fail("reference", format!("{want} though {:?} was meant", case.clause));
                }
                counts.sight(call, &before, &refe, want, clause, history);
                if from_opening {
                    counts.filled += u64::from(want < 2 && full_frames(&refe) > full_frames(&before));
                    counts.over_full += u64::from(want == 8);
                }
                if want == 1 {
                    if refe.desk.see()[1] != 1 {
                        return fail("reference", "desk open after a 1".into());
                    }
                    counts.show(refe.slip.see());
                }
            }
            Call::Ask(class) => {
                const JUNK: u64 = 0xDEAD_BEEF_0BAD_F00D;
                let (mut w0, mut c0) = (JUNK, 77);
                want = (other.ask)(refe.desk.see(), refe.sheet.see(), refe.seen.see(), *class, &mut w0, &mut c0);
                // Guards around word and count.
                let (mut w, mut c) = ([JUNK; 3], [77u32; 3]);
                got = subject.ask(subj.desk.see(), subj.sheet.see(), subj.seen.see(), *class, &mut w[1], &mut c[1]);
                let (mut w2, mut c2) = (JUNK, 77);
                fast_got = (fast.ask)(quick.desk.see(), quick.sheet.see(), quick.seen.see(), *class, &mut w2, &mut c2);
                counts.ask[usize::from(want)] += 1;
                if want == 11 {
                    clause = before.unfit(false);
                    let i = CLAUSES.iter().position(|c| Some(*c) == clause).unwrap_or(0);
                    counts.clause_ask[i] += 1;
                }
                if want == 0 {
                    counts.asked_closed += u64::from(refe.desk.see()[1] == 1);
                    counts.asked_itself += u64::from(refe.desk.see()[1] == 0 && w0 >> class & 1 == 1);
                }
                counts.sight(call, &before, &refe, want, clause, history);
                if (w[1], c[1]) != (w0, c0) && got == want {
                    return fail("subject", format!("word {:#x} count {} instead of {w0:#x} {c0}", w[1], c[1]));
                }
                if got == want && c[1] != w[1].count_ones() {
                    return fail("subject", format!("count {} for word {:#x}", c[1], w[1]));
                }
                if w[0] != JUNK || w[2] != JUNK || c[0] != 77 || c[2] != 77 {
                    return fail("subject", "wrote beside word or count".into());
                }
                if (w2, c2) != (w0, c0) {
                    return fail("fast", format!("word {w2:#x} count {c2} instead of {w0:#x} {c0}"));
                }
            }
            Call::FeedStart => {
                want = (other.feed_start)(refe.feed.lend());
                got = subject.feed_start(subj.feed.lend());
                fast_got = (fast.feed_start)(quick.feed.lend());
                counts.feed_start[usize::from(want)] += 1;
                counts.sight(call, &before, &refe, want, clause, history);
                let mut fresh = before.feed.clone();
                if want == 0 {
                    fresh.lend()[..FEED].fill(0);
                }
                if fresh.all != refe.feed.all || (want == 0) != (fresh.see().len() >= FEED) {
                    return fail("reference", "the start is wrong".into());
                }
            }
            Call::Feed(_) | Call::FeedEnd => {
                const JUNK: u64 = 0xDEAD_BEEF_0BAD_F00D;
                let (mut n0, mut n2) = (JUNK, JUNK);
                // Guards around the record number.
                let mut n = [JUNK; 3];
                let (r, s, q) = (&mut refe, &mut subj, &mut quick);
                let lend = |b: &mut Bench, call: &mut dyn FnMut([&mut [u8]; 6]) -> u8| call(b.lend_all());
                (want, got, fast_got) = if let Call::Feed(piece) = call {
                    (
                        lend(r, &mut |[d, s, n, h, l, f]| (other.feed)(f, d, s, n, h, l, piece, &mut n0)),
                        lend(s, &mut |[d, s, m, h, l, f]| subject.feed(f, d, s, m, h, l, piece, &mut n[1])),
                        lend(q, &mut |[d, s, n, h, l, f]| (fast.feed)(f, d, s, n, h, l, piece, &mut n2)),
                    )
                } else {
                    (
                        lend(r, &mut |[d, s, n, h, l, f]| (other.feed_end)(f, d, s, n, h, l, &mut n0)),
                        lend(s, &mut |[d, s, m, h, l, f]| subject.feed_end(f, d, s, m, h, l, &mut n[1])),
                        lend(q, &mut |[d, s, n, h, l, f]| (fast.feed_end)(f, d, s, n, h, l, &mut n2)),
                    )
                };
                by_records = None;
                clause = reference::unfit_feed(before.feed.see());
                let clauses = if matches!(call, Call::Feed(_)) {
                    counts.feed[usize::from(want)] += 1;
                    &mut counts.clause_feed
                } else {
                    counts.feed_end[usize::from(want)] += 1;
                    &mut counts.clause_feed_end
                };
                if let Some(i) = FEED_CLAUSES.iter().position(|c| Some(*c) == clause) {
                    clauses[i] += 1;
                    if (want, n0) != (11, 0) {
                        return fail("reference", format!("{want} at record {n0} with an unfit feed"));
                    }
                }
                counts.sight(call, &before, &refe, want, clause, history);
                if n[1] != n0 && got == want {
                    return fail("subject", format!("record {} instead of {n0}", n[1]));
                }
                if n[0] != JUNK || n[2] != JUNK {
                    return fail("subject", "wrote beside the record number".into());
                }
                if n2 != n0 {
                    return fail("fast", format!("record {n2} instead of {n0}"));
                }
                record = n0;
            }
            Call::Balance(piece) => {
                const JUNK: i32 = 0x0BAD_F00D;
                let (mut own, mut n2) = ([JUNK; 80], balances::filling(counts.calls));
                numbers = n2;
                want = (other.balance)(piece, &mut numbers);
                // Guards around the numbers and around the piece.
                own[8..72].copy_from_slice(&n2);
                let lent = Guarded::of(piece);
                got = subject.balance(lent.see(), (&mut own[8..72]).try_into().expect("64 numbers"));
                fast_got = (fast.balance)(piece, &mut n2);
                counts.balance[usize::from(want)] += 1;
                counts.sight(call, &before, &refe, want, clause, history);
                if let Some(text) = balances::differ(&own[8..72], &numbers).filter(|_| got == want) {
                    return fail("subject", text);
                }
                if [&own[..8], &own[72..]].concat() != [JUNK; 16] {
                    return fail("subject", "wrote beside the balances".into());
                }
                if lent.all != Guarded::of(piece).all {
                    return fail("subject", "changed the piece".into());
                }
                if let Some(text) = balances::differ(&n2, &numbers) {
                    return fail("fast", text);
                }
            }
            Call::Join(sides) => {
                // Guards around the benches, which nobody may write.
                let lent = sides.each_ref().map(|side| side.lent(before.lent()).map(Guarded::of));
                let [one, two] = lent.each_ref().map(|bench| bench.each_ref().map(Guarded::see));
                want = other.join_of(one, two, refe.lend());
                let [d, s, n, l] = subj.lend();
                got = subject.join(one, two, d, s, n, l);
                fast_got = fast.join_of(one, two, quick.lend());
                counts.join[usize::from(want)] += 1;
                let sizes = before.all_four().map(<[u8]>::len);
                match joins::unfit(one, two, sizes) {
                    Some(joins::Unfit::Bench(side, unfit)) => {
                        clause = Some(CLAUSES[unfit]);
                        counts.clause_join[side][unfit] += 1;
                    }
                    Some(joins::Unfit::Short(buffer)) => counts.short_join[buffer] += 1,
                    None => {}
                }
                counts.sight(call, &before, &refe, want, clause, history);
                let given = sides.iter().flat_map(|side| side.lent(before.lent()));
                if !lent.as_flattened().iter().zip(given).all(|(lent, bytes)| lent.all == Guarded::of(bytes).all) {
                    return fail("subject", "changed a bench that was joined".into());
                }
                if want == 1 && clause.is_none() && refe.slip.see().len() > 1 {
                    counts.show(refe.slip.see());
                }
            }
        }
        history = history.after(call, want);
        answers.push(got);
        for (name, answer, bench) in [("subject", got, &subj), ("fast", fast_got, &quick)] {
            if answer != want {
                return fail(name, format!("answer {answer} instead of {want}"));
            }
            if let Some(text) = bench.differs(&refe) {
                return fail(name, text);
            }
        }
        if case.usage && matches!(call, Call::Step(_)) && want < 2 {
            if let Some((part, text)) = usage::held(refe.desk.see(), refe.sheet.see(), want, Some(&mut counts.usage).filter(|_| !counts.blind)) {
                return fail(part, text);
            }
        }
        // What a single call is held to is for the other cases: here the runs as wholes are held to each other.
        if case.merges.is_some() {
            continue;
        }
        match call {
            Call::Open(..) if want == 0 => accepted = Some(Vec::new()),
            Call::Step(record) if want < 2 => accepted.iter_mut().for_each(|all| all.extend_from_slice(record.slice())),
            Call::Step(_) | Call::Feed(_) | Call::FeedEnd => accepted = None,
            Call::Join(sides) => {
                if want < 2 {
                    accepted = Some(Vec::new());
                }
                let [one, two] = sides.each_ref().map(|side| side.lent(before.lent()));
                let join = joins::Join { benches: [one, two], before: before.all_four(), after: refe.all_four(), answer: want };
                for (part, said) in join.said(counts.calls) {
                    counts.said_of_joins[part] += 1;
                    if let Some(text) = said(&join, subject) {
                        return fail(joins::PARTS[part], text);
                    }
                }
                if want < 2 && case.pair.is_none() {
                    by_records = Some(Drawing::joined(one, two));
                }
            }
            Call::Balance(piece) => {
                if want == 0 {
                    counts.added += u64::from(piece.len() >= 12);
                    if let Some(text) = balances::not_added(piece, &numbers, counts.calls, subject) {
                        return fail(balances::PARTS[0], text);
                    }
                }
                if want == 0 && accepted.as_ref() == Some(piece) {
                    counts.held += u64::from(!piece.is_empty());
                    if let Some(text) = balances::differ(&numbers, &balances::held(refe.desk.see())) {
                        return fail(balances::PARTS[1], text);
                    }
                }
                let (answer, counted) = balances::counted(piece);
                let text = (answer != want).then(|| format!("answer {want} instead of {answer}"));
                if let Some(text) = text.or_else(|| balances::differ(&numbers, &counted)) {
                    return fail(balances::PARTS[2], text);
                }
            }
            _ => {}
        }
        // A feed that stood at an answer leaves the slip.
        let may_show = match call {
            Call::Step(_) | Call::Join(_) => true,
            Call::Feed(_) => clause.is_none() && before.feed.see()[0] == 0,
            _ => false,
        };
        let shows = may_show && want == 1;
        let mut wrong = match call {
            Call::Step(_) if want < 2 => numbers_wrong(&before, &refe),
            Call::Feed(_) if clause.is_none() => {
                let (feed, after) = (before.feed.see(), refe.feed.see());
                let counts = feed[0] == 0 && feed[1] == 1 && feeds::number(after) != u64::MAX && before.desk.see().len() >= DESK;
                if counts { count_wrong(&before, &refe, want) } else { None }
            }
            _ => None,
        };
        if shows {
            wrong = wrong.or_else(|| shown_wrong(&refe));
        }
        if let Some(text) = wrong {
            return fail(NUMBERS, text);
        }
        if let (Call::Step(record), Some(drawing)) = (call, &mut by_records) {
            // A slip may be too short.
            if want != 11 {
                drawing.take_in(record);
            }
            drawing.closed |= want == 1;
            let (desk, sheet, seen, history) = (refe.desk.see(), refe.sheet.see(), refe.seen.see(), refe.history.see());
            let differs = drawing.numbers_differ(desk, seen).or_else(|| drawing.crosslocks_differ(desk, sheet, history));
            if let Some(text) = differs {
                return fail(BY_RECORDS, text);
            }
        }
        if let Some(text) = slip_wrong(shows, &refe, &before.slip) {
            return fail("reference", text);
        }
        // Of the many fixed cases one call in eight will do.
        let looks = !counts.blind || counts.calls % 8 == 0;
        if shows && looks && !call.of_feed() && refe.desk.see()[0] <= FEW {
            if let Some(text) = not_least(&refe) {
                return fail(LEAST, text);
            }
        }
        // "nothing changed", told from the bytes before the call
        let may_change = match call {
            Call::Open(..) => want == 0,
            Call::Step(_) | Call::Join(_) => want < 2,
            Call::Feed(piece) => clause.is_none() && feeds::completes(before.feed.see(), piece),
            Call::Ask(_) | Call::FeedStart | Call::FeedEnd | Call::Balance(_) => false,
        };
        let feed_may_change = call.of_feed() && clause.is_none() && before.feed.see().first() == Some(&0);
        if before.feed.all != refe.feed.all && !feed_may_change && !matches!(call, Call::FeedStart) {
            return fail("reference", "changed a feed that is unfit or stands at an answer".into());
        }
        let same = before.desk.all == refe.desk.all
            && before.sheet.all == refe.sheet.all
            && before.seen.all == refe.seen.all
            && before.history.all == refe.history.all;
        if matches!(call, Call::Join(_)) && before.history.all != refe.history.all {
            return fail("reference", "a join changed a history".into());
        }
        if let Some(text) = crosslocks::past_kept(call, want, [&before, &refe].map(|b| (b.desk.see(), b.history.see()))) {
            return fail("reference", text);
        }
        if !may_change && !same {
            return fail("reference", "changed something with a refusal or a question".into());
        }
        // "bytes past the stated sizes are never touched"
        if !same && refe.differs_past(&before, usize::from(refe.desk.see()[0])) {
            return fail("reference", "changed a byte past the stated sizes".into());
        }
        // Opening, told from the document's sentence
        if matches!(call, Call::Open(..)) && want == 0 {
            let k = usize::from(refe.desk.see()[0]);
            let sheets = refe.sheet.see()[..k * k].iter().chain(&refe.seen.see()[..4 * k * k]);
            let desk = refe.desk.see();
            let but_declared = desk[1..DECLARED].iter().chain(&desk[PROGRESS..DESK]);
            let zero = but_declared.chain(sheets).chain(&refe.history.see()[..HISTORY]).all(|&b| b == 0);
            if !zero || !matches!(call, Call::Open(n, word) if (*n, *word) == (k as u64, crosslocks::declared(desk))) {
                return fail("reference", "opening is wrong".into());
            }
        }
    }
    Ok(Ran { answers, subject: subj, reference: refe, record, balances: numbers })
}

pub fn run(case: &Case, judges: &mut Judges, counts: &mut Counts) -> Result<(), Diff> {
    let calls_before = counts.calls;
    counts.cases += 1;
    match (&case.merges, &case.pair) {
        (Some(merges), _) => run_merges(case, merges, judges, counts)?,
        (None, None) => {
            let ran = run_calls(case, &case.calls.iter().collect::<Vec<_>>(), judges, counts)?;
            if case.usage {
                let Bench { desk, sheet, seen, .. } = &ran.subject;
                let said = usage::asked([desk.see(), sheet.see(), seen.see()], counts.calls, &mut judges.subject);
                if let Some(text) = said {
                    return Err(Diff { judge: usage::PARTS[2], call: case.calls.len() - 1, text });
                }
            }
            if let Some(meant) = &case.meant {
                let slip = ran.reference.slip.see();
                let fail = |text: String| Err(Diff { judge: "reference", call: case.calls.len() - 1, text });
                if ran.answers != meant.answers || !slip.starts_with(&meant.slip) {
                    let slip = &slip[..meant.slip.len().min(slip.len())];
                    return fail(format!("answers {:?}, slip {slip:?}, not {:?} and {:?}", ran.answers, meant.answers, meant.slip));
                }
                let desk = ran.reference.desk.see();
                if let Some(at) = meant.desk.as_ref().and_then(|wanted| (0..DESK).find(|&at| desk[at] != wanted[at])) {
                    return fail(format!("desk byte {at} is {}, and not as it was worked out", desk[at]));
                }
                let sheet = ran.reference.sheet.see();
                if meant.sheet.as_ref().is_some_and(|wanted| !sheet.starts_with(wanted)) {
                    return fail(format!("sheet {sheet:?}, and not as it was worked out"));
                }
                if let Some(text) = meant.crosslocks.as_ref().and_then(|left| left.differs(desk, ran.reference.history.see())) {
                    return fail(text);
                }
                if let Some((count, wanted)) = &meant.numbers {
                    let seen = ran.reference.seen.see();
                    let pairs = || (0..wanted.len()).map(|pair| numbers::number(seen, pair));
                    if numbers::count(desk) != *count || !pairs().eq(wanted.iter().copied()) {
                        let numbers: Vec<u32> = pairs().collect();
                        return fail(format!("count {}, numbers {numbers:?}, not {count} and {wanted:?}", numbers::count(desk)));
                    }
                }
                if let Some(text) = meant.balances.and_then(|wanted| balances::differ(&ran.balances, &wanted)) {
                    return fail(text);
                }
            }
            if let Some(fed) = Fed::of(case) {
                run_promise(case, &fed, &ran, judges, counts)?;
            }
        }
        (None, Some(pair)) => run_pair(case, pair, judges, counts)?,
    }
    tally(case.name, counts, calls_before);
    Ok(())
}

/// The promise of a log in pieces: what the calls left is left over another cut too, by the whole log, and by single
/// steps of the same judge.
fn run_promise(case: &Case, fed: &Fed, ran: &Ran, judges: &mut Judges, counts: &mut Counts) -> Result<(), Diff> {
    let Judges { subject, reference, .. } = judges;
    let last = (ran.answers.last().copied().unwrap_or(0), ran.record);
    let hold = |part: usize, count: &mut u64, now: (u8, u64), bench: &Bench, then: &Bench| {
        *count += 1;
        let text = if now != last {
            Some(format!("answer {} at record {} instead of {} at record {}", last.0, last.1, now.0, now.1))
        } else {
            then.differs(bench)
        };
        text.map_or(Ok(()), |text| {
            Err(Diff { judge: PROMISE[part], call: case.calls.len() - 1, text: format!("not {}: {text}", PROMISE[part]) })
        })
    };
    let [by_cut, by_log, by_steps] = &mut counts.promised;
    // Another cut.
    let mut other = Bench::of(case);
    if fed.started {
        subject.feed_start(other.feed.lend());
    }
    let mut now = (0, 0);
    let [desk, sheet, seen, history, slip, feed] = other.lend_all();
    for piece in fed.other_cut() {
        now.0 = subject.feed(feed, desk, sheet, seen, history, slip, piece, &mut now.1);
    }
    if fed.ended {
        now.0 = subject.feed_end(feed, desk, sheet, seen, history, slip, &mut now.1);
    }
    hold(0, by_cut, now, &other, &ran.subject)?;
    // The whole log, from a start.
    if fed.started {
        let mut other = Bench { feed: ran.reference.feed.clone(), ..Bench::of(case) };
        let [desk, sheet, seen, history, slip, _] = other.lend_all();
        let now = (reference.whole_log)(&fed.bytes, desk, sheet, seen, history, slip, fed.ended);
        hold(1, by_log, now, &other, &ran.reference)?;
        if let Some(text) = fed_numbers(fed, last, &ran.reference) {
            return Err(Diff { judge: BY_RECORDS, call: case.calls.len() - 1, text });
        }
    }
    // Single steps.
    let mut other = Bench { feed: ran.subject.feed.clone(), ..Bench::of(case) };
    let now = single_steps(fed, subject, &mut other);
    hold(2, by_steps, now, &other, &ran.subject)
}

/// What is wrong with count and numbers after a log in pieces from a start, told from the records alone.
fn fed_numbers(fed: &Fed, (answer, number): (u8, u64), bench: &Bench) -> Option<String> {
    let (header, declared) = feeds::header_of(&fed.bytes).filter(|_| answer != 2)?;
    // 11, for a slip too short, is not told from the records.
    let accepted = number - u64::from(answer == 11);
    let mut drawing = Drawing::opened(usize::from(fed.bytes[3]), declared);
    for record in fed.bytes[header..].chunks(6).take(accepted as usize) {
        drawing.take_in(&Rec::of(record));
    }
    let (desk, sheet, seen, history) = (bench.desk.see(), bench.sheet.see(), bench.seen.see(), bench.history.see());
    drawing.numbers_differ(desk, seen).or_else(|| drawing.crosslocks_differ(desk, sheet, history))
}

/// By opening and steps: the first answer but 0 and its record number, or 0 and how many records there were.
fn single_steps(fed: &Fed, subject: &mut Subject, bench: &mut Bench) -> (u8, u64) {
    let [desk, sheet, seen, history, slip, _] = bench.lend_all();
    let (mut answer, mut number) = (fed.answer, fed.number);
    let mut rest = &[&fed.loose, &fed.bytes[..]].concat()[..];
    if answer == 0 && !fed.opened {
        let header = feeds::header_of(rest);
        answer = match (rest, header) {
            (_, None) => if fed.ended { 2 } else { 0 },
            (&[0x4C, 0x48, 1 | 2, k, ..], Some((_, declared))) => subject.open(u64::from(k), declared, desk, sheet, seen, history),
            _ => 2,
        };
        rest = header.map_or(&[], |(length, _)| &rest[length..]);
    }
    for record in rest.chunks(6).filter(|record| record.len() == 6 || fed.ended) {
        if answer != 0 {
            break;
        }
        number = number.saturating_add(1);
        answer = subject.step(desk, sheet, seen, history, slip, record);
    }
    (answer, number)
}

/// Demand 3: two lists, each from its own opening in buffers of its own, or both from the same join.
fn run_pair(case: &Case, pair: &Pair, judges: &mut Judges, counts: &mut Counts) -> Result<(), Diff> {
    let (k, in_first) = (pair.k, &pair.in_first[..]);
    let fail = |judge: &'static str, call: usize, text: String| Err(Diff { judge, call, text });
    let mut play = |case: &Case, places: &[usize], declared: u64| {
        let open = case.start.clone().unwrap_or(Call::Open(k, declared));
        let calls: Vec<&Call> = std::iter::once(&open).chain(places.iter().map(|&at| &case.calls[at])).collect();
        run_calls(case, &calls, judges, counts)
    };
    let places: Vec<usize> = (0..case.calls.len()).collect();
    let first_places: Vec<usize> = places.iter().copied().filter(|&at| in_first[at]).collect();
    let ran = play(case, &places, pair.declared[1])?;
    // Other bytes in the first list's buffers, the slip too.
    let mut other = case.clone();
    let Buffers { desk, sheet, seen, history, slip } = &mut other.buffers;
    [desk, sheet, seen, slip].into_iter().flatten().for_each(|byte| *byte = !*byte);
    // Behind a join it may be any.
    history.iter_mut().for_each(|byte| *byte = !*byte);
    let first_ran = play(&other, &first_places, pair.declared[0])?;
    if (ran.answers[0], first_ran.answers[0]) != (0, 0) {
        return fail("generator", 0, "a pair that isn't opened".into());
    }
    let record = |at: &usize| match &case.calls[*at] {
        Call::Step(record) => Some(record),
        _ => None,
    };
    let run = |name, answers, places: Vec<usize>, declared: u64| {
        let records: Vec<&Rec> = places.iter().filter_map(record).collect();
        let start = match &case.start {
            Some(Call::Join(sides)) => {
                let [one, two] = sides.each_ref().map(|side| side.lent(case.buffers.lent()));
                Drawing::joined(one, two)
            }
            _ => Drawing::opened(k as usize, declared),
        };
        let declared = start.declared;
        let (drawn, drawing) = drawing::first_closed(start, records.iter().copied());
        claim::Run { name, declared, records, answers, places, drawing, drawn }
    };
    let first = run("first", &first_ran.answers[1..], first_places, pair.declared[0]);
    let second = run("second", &ran.answers[1..], places, pair.declared[1]);
    let claimed = !case.meant.as_ref().is_some_and(|meant| meant.not_claimed);
    if second.records.len() != case.calls.len() || claim::applies(&first, &second) != claimed {
        return fail("generator", 0, format!("a pair of lists that demand 3 {}", if claimed { "does not speak of" } else { "speaks of" }));
    }
    let answers = [second.answers, first.answers].concat();
    if let Some(meant) = case.meant.as_ref().filter(|meant| meant.answers != answers) {
        return fail("reference", case.calls.len(), format!("answers {answers:?}, not {:?}", meant.answers));
    }
    if !claimed {
        return Ok(());
    }
    counts.pair_crosslocks += u64::from(first.records.iter().any(|record| record.of_crosslock()) && first.answers.contains(&0));
    if let Some((part, at, text)) = claim::broken(&first, &second) {
        return fail(part, at + 1, format!("demand 3, {part}: {text}"));
    }
    // What each list left, by its own records alone.
    for (run, Ran { reference, .. }) in [(&second, &ran), (&first, &first_ran)] {
        let (desk, sheet, seen) = (reference.desk.see(), reference.sheet.see(), reference.seen.see());
        let lists = || run.drawing.crosslocks_differ(desk, sheet, reference.history.see());
        let differs = run.drawing.kinds_differ(desk, sheet).or_else(|| run.drawing.numbers_differ(desk, seen)).or_else(lists);
        if let Some(text) = differs {
            return fail(BY_RECORDS, case.calls.len(), format!("{} list: {text}", run.name));
        }
    }
    let [one, other] = [&first_ran, &ran].map(|ran| ran.reference.seen.see().chunks_exact(4).take((k * k) as usize));
    counts.pair_numbers += u64::from(one.zip(other).any(|(a, b)| a != b && a != [0; 4] && b != [0; 4]));
    let put_in = (0..case.calls.len()).filter(|&at| !in_first[at]).filter_map(|at| record(&at).map(|record| (record, second.answers[at])));
    let released: Vec<u8> = put_in.filter(|(record, _)| record.releases_by_mode()).map(|(_, answer)| answer).collect();
    counts.pair_released += u64::from(released.contains(&0));
    counts.pair_not_fitting += u64::from(released.contains(&5));
    counts.pair_records += second.answers.len() as u64;
    let faults = usize::from(second.fault().is_some()) + usize::from(first.fault().is_some());
    if case.start.is_some() {
        counts.joined_pair_faults[faults] += 1;
        let (from_opening, _) = drawing::first_closed(Drawing::opened(k as usize, second.declared), second.records.iter().copied());
        counts.faults_by_start += u64::from(second.fault().is_some() && from_opening.is_none());
    } else {
        counts.pair_faults[faults] += 1;
    }
    Ok(())
}

/// Request k: a log in several merges, each from its own opening in buffers of its own, or all from the same join.
fn run_merges(case: &Case, merges: &Merges, judges: &mut Judges, counts: &mut Counts) -> Result<(), Diff> {
    let fail = |judge: &'static str, call: usize, text: String| Err(Diff { judge, call, text });
    let Some(records) = merges::records(case) else {
        return fail("generator", 0, "a record that merges are not held for".into());
    };
    let start = merges.start(case);
    // Other bytes in the buffers of every second merge.
    let mut other = case.clone();
    let Buffers { desk, sheet, seen, history, slip } = &mut other.buffers;
    [desk, sheet, seen, history, slip].into_iter().flatten().for_each(|byte| *byte = !*byte);
    let blind = std::mem::replace(&mut counts.blind, true);
    let (mut runs, mut wholes, mut left) = (Vec::new(), Vec::new(), Vec::new());
    for (merge, places) in merges.places(&records).into_iter().enumerate() {
        let calls: Vec<&Call> = std::iter::once(&start).chain(places.iter().map(|&at| &case.calls[at])).collect();
        let ran = run_calls(if merge % 2 == 0 { case } else { &other }, &calls, judges, counts);
        // By its place in the log.
        let place = |call: usize| call.checked_sub(1).and_then(|turn| places.get(turn)).map_or(0, |at| at + 1);
        let ran = match ran {
            Err(diff) => {
                counts.blind = blind;
                return fail(diff.judge, place(diff.call), format!("merge {}: {}", merge + 1, diff.text));
            }
            Ok(ran) => ran,
        };
        if ran.answers[0] != 0 {
            return fail("generator", 0, "merges that are not opened".into());
        }
        wholes.push(merges.whole(case, &records, &places));
        runs.push(merges::Run::new(places, &ran.answers[1..], ran.subject.lent()));
        left.push(ran.reference);
    }
    counts.blind = blind;
    if runs.iter().any(merges::Run::meets_limit) {
        return fail("generator", 0, "merges that meet 9".into());
    }
    if let Some((part, at, text)) = merges::broken(&runs, &wholes) {
        return fail(part, at + 1, text);
    }
    if let Some(open) = merges.open.filter(|open| runs.iter().any(|run| run.is_closed() == *open)) {
        return fail("reference", records.len(), format!("not {}, as it was worked out", if open { "open" } else { "closed" }));
    }
    // What an open run left, by its records alone.
    for ((run, whole), bench) in runs.iter().zip(&wholes).zip(&left).filter(|((run, _), _)| !run.is_closed()) {
        let differs = whole.kinds_differ(&run.desk, &run.sheet).or_else(|| whole.numbers_differ(&run.desk, &run.seen));
        if let Some(text) = differs.or_else(|| whole.crosslocks_differ(&run.desk, &run.sheet, bench.history.see())) {
            return fail(BY_RECORDS, records.len(), text);
        }
    }
    for (count, met) in counts.merges.iter_mut().zip(merges::sights(case, merges, &records, &runs)) {
        *count += u64::from(met);
    }
    Ok(())
}

pub fn tally(name: &'static str, counts: &mut Counts, calls_before: u64) {
    let calls = counts.calls - calls_before;
    match counts.by_name.iter_mut().find(|n| n.0 == name) {
        Some(n) => {
            n.1 += 1;
            n.2 += calls;
        }
        None => counts.by_name.push((name, 1, calls)),
    }
}

/// A smaller case that still differs: calls are left out, then records of pieces whose balances are asked for, then bytes set
/// to zero, of benches that are joined too.
pub fn shrink(case: &Case, judge: &'static str, judges: &mut Judges) -> Case {
    let started = std::time::Instant::now();
    let mut best = case.clone();
    best.clause = None;
    best.meant = None;
    let mut fails = |c: &Case| {
        started.elapsed().as_secs() < 10
            && matches!(run(c, judges, &mut Counts::default()), Err(d) if d.judge == judge)
    };
    if !fails(&best) {
        return case.clone();
    }
    let mut size = best.calls.len().max(1);
    loop {
        let mut at = 0;
        while at < best.calls.len() {
            let mut c = best.clone();
            let end = (at + size).min(c.calls.len());
            c.calls.drain(at..end);
            if let Some(pair) = &mut c.pair {
                pair.in_first.drain(at..end);
            }
            if fails(&c) {
                best = c;
            } else {
                at += size;
            }
        }
        if size == 1 {
            break;
        }
        size /= 2;
    }
    for call in 0..best.calls.len() {
        let length = |case: &Case| if let Call::Balance(piece) = &case.calls[call] { piece.len() } else { 0 };
        let mut size = length(&best).next_multiple_of(6).max(6);
        loop {
            let mut at = 0;
            while at < length(&best) {
                let mut c = best.clone();
                if let Call::Balance(piece) = &mut c.calls[call] {
                    piece.drain(at..(at + size).min(piece.len()));
                }
                if fails(&c) {
                    best = c;
                } else {
                    at += size;
                }
            }
            if size == 6 {
                break;
            }
            size = (size / 2).next_multiple_of(6);
        }
    }
    fn buffers(case: &mut Case) -> Vec<&mut Vec<u8>> {
        let Buffers { desk, sheet, seen, history, slip } = &mut case.buffers;
        let mut all = vec![desk, sheet, seen, history, slip, &mut case.feed];
        for call in case.calls.iter_mut().chain(&mut case.start) {
            let Call::Join(sides) = call else { continue };
            for side in sides.iter_mut() {
                if let Side::Given(Buffers { desk, sheet, seen, .. }) = side {
                    all.extend([desk, sheet, seen]);
                }
            }
        }
        all
    }
    for which in 0..buffers(&mut best).len() {
        let len = buffers(&mut best)[which].len();
        let mut size = len.max(1);
        loop {
            let mut at = 0;
            while at < len {
                let mut c = best.clone();
                let part = &mut buffers(&mut c)[which][at..(at + size).min(len)];
                if part.iter().any(|&b| b != 0) {
                    part.fill(0);
                    if fails(&c) {
                        best = c;
                    }
                }
                at += size;
            }
            if size == 1 {
                break;
            }
            size /= 2;
        }
    }
    best
}

fn show_bytes(name: &str, bytes: &[u8], out: &mut String) {
    let set: Vec<String> =
        bytes.iter().enumerate().filter(|(_, b)| **b != 0).map(|(i, b)| format!("[{i}]={b}")).collect();
    out.push_str(&format!("  {name}: {} bytes, zero but for {}\n", bytes.len(), set.join(" ")));
}

fn hex(bytes: &[u8]) -> String {
    bytes.iter().map(|b| format!(" {b:02X}")).collect()
}

/// Six bytes a line, the same ones once with how often they come.
fn in_runs(piece: &[u8]) -> String {
    let same = piece.chunks(6).collect::<Vec<_>>();
    same.chunk_by(|a, b| a == b).map(|run| format!("\n    {} x{}", run.len(), hex(run[0]))).collect()
}

/// The benches of a join.
fn joining(sides: &[Side; 2]) -> String {
    let mut out = "join".to_string();
    for (side, name) in sides.iter().zip(["first", "second"]) {
        match side {
            Side::Given(Buffers { desk, sheet, seen, .. }) => {
                for (buffer, bytes) in [("desk", desk), ("sheet", sheet), ("second sheet", seen)] {
                    out.push('\n');
                    show_bytes(&format!("  {name} {buffer}"), bytes, &mut out);
                    out.pop();
                }
            }
            Side::Own => out += &format!("\n    {name}: these buffers as they stand"),
        }
    }
    out
}

pub fn describe(case: &Case) -> String {
    let mut out = format!("case \"{}\"\n", case.name);
    let Buffers { desk, sheet, seen, history, slip } = &case.buffers;
    show_bytes("desk", desk, &mut out);
    show_bytes("sheet", sheet, &mut out);
    show_bytes("second sheet", seen, &mut out);
    show_bytes("history", history, &mut out);
    show_bytes("slip", slip, &mut out);
    show_bytes("feed", &case.feed, &mut out);
    if let Some(Merges { k, declared, orders, .. }) = &case.merges {
        let start = match &case.start {
            Some(Call::Join(sides)) => format!("from this {}\n ", joining(sides)),
            _ => format!("opened with K = {k}, declared {declared:#x?}"),
        };
        out.push_str(&format!("  merges, each {start}, in these orders: {orders:?}\n"));
    }
    if let Some(Pair { k, declared, .. }) = &case.pair {
        let start = match &case.start {
            Some(Call::Join(sides)) => format!("from this {}\n ", joining(sides)),
            _ => format!("opened with K = {k}, declared {declared:#x?}"),
        };
        out.push_str(&format!("  pair of lists, each {start}; + stands in the second only\n"));
    }
    for (i, call) in case.calls.iter().enumerate() {
        let foreign = matches!(&case.pair, Some(pair) if !pair.in_first[i]);
        let text = match call {
            Call::Open(k, declared) => format!("open {k}, declared {declared:#x}"),
            Call::Ask(c) => format!("ask {c}"),
            Call::Step(r) => format!("step{}", hex(r.slice())),
            Call::FeedStart => "feed start".into(),
            Call::Feed(piece) => format!("feed{}", hex(piece)),
            Call::FeedEnd => "feed end".into(),
            Call::Balance(piece) => format!("balance of {} bytes:{}", piece.len(), in_runs(piece)),
            Call::Join(sides) => joining(sides),
        };
        out.push_str(&format!("  {}{text}\n", if foreign { "+ " } else { "" }));
    }
    out
}
