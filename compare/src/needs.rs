//! What a run must have met to count: so much of each, or it fails though nothing differed. And the other way round: a
//! case without what is counted under a name, to see that the run then fails.

use crate::balances;
use crate::feeds::{self, PROMISE};
use crate::gen::{self, Buffers};
use crate::joins::{self, Unfit};
use crate::judges::{of_bench, unfit, unfit_bench, CLAUSES, FAST};
use crate::merges;
use crate::run::{Call, Case, Counts, History, Pair};
use crate::sights::{Look, SIGHTS};
use crate::usage;
use reference::{DEEPEST, DEPTHS, FEED_CLAUSES, MARKS};
use std::cell::OnceCell;

/// Random cases of a full run: 80,000 to 100,000 were seen in 60 s on two shared cores.
const RANDOM_CASES: u64 = 5000;

#[derive(Clone, Copy, PartialEq, Eq)]
pub enum Asked {
    Opening,
    Step,
    Question,
    Start,
    Piece,
    End,
    Balance,
    Join,
}

/// Something that is counted.
#[derive(Clone, Copy, PartialEq, Eq)]
pub enum Need {
    RandomCases,
    Fixed(&'static str),
    Kind(&'static str),
    Answer(Asked, u8),
    Clause(Asked, usize),
    FeedClause(Asked, usize),
    /// A feed held to this part of the promise.
    Promise(usize),
    FaultInSecond,
    FaultInBoth,
    /// Two lists that gave two classes another number each, and two with crosslocks.
    OtherNumbers,
    PairOfCrosslocks,
    /// A release of mode 1 to 5 put in, that was accepted, and that was refused with 5.
    ReleasePutIn,
    NotFittingPutIn,
    /// A release in the second mode, which an older lock of the class has, while the newest has the first.
    OlderFits(u8, u8),
    Filled,
    OverFull,
    /// A dependency in a cycle, of this kind (as 0 to 3) and source.
    Shown(usize, usize),
    AskedClosed,
    AskedItself,
    /// Balances added over a split, and held to the locks on a desk.
    Added,
    Held,
    /// A join refused for a clause of a bench, and for a buffer to be written.
    JoinClause(usize, usize),
    JoinShort(usize),
    /// A join held to this part of what is said.
    JoinSaid(usize),
    /// Pairs of lists that start from a join, and faults of these that would be none from opening.
    JoinedFaultInSecond,
    JoinedFaultInBoth,
    FaultByStart,
    Sight(usize),
    /// Cases with merges, and records of exclusive logs and drawings (request k).
    Merge(usize),
    Usage(usize),
}
use Asked::{Balance, End, Join, Opening, Piece, Question, Start, Step};

const KINDS: [&str; 4] = ["ER", "EN", "SR", "SN"];
const SOURCES: [&str; 3] = ["hold", "hard", "soft"];
/// How often each kind and source is to be seen in a cycle.
const SHOWN: [[u64; 3]; 4] = [[2100, 180, 84], [3300, 140, 74], [550, 32, 13], [3700, 120, 68]];

/// The modes of an acquire and a release.
const MODES: [&str; 6] = ["E", "r", "R", "try E", "try r", "try R"];

/// The kinds of random cases; named here too, so that one is missed that is no longer made.
const RANDOM: [(&str, u64); 56] = [
    ("log of crosslocks", 240),
    ("crosslocks on a desk", 240),
    ("crosslocks at their limits", 210),
    ("odd crosslocks", 340),
    ("visits of handlers", 66),
    ("history filled", 18),
    ("log from opening", 740),
    ("deep log", 250),
    ("deep frame", 490),
    ("desk of an earlier version", 200),
    ("releases on a desk", 320),
    ("log of releases", 130),
    ("long log", 20),
    ("fit desk", 830),
    ("desk with tries", 330),
    ("unfit desk", 790),
    ("changed desk", 470),
    ("opening", 800),
    (gen::PAIRS, 900),
    (feeds::CUT_LOG, 1000),
    ("long log in pieces", 20),
    ("any feed", 1100),
    ("end over loose bytes", 880),
    ("ties", 1300),
    ("log that closes several", 340),
    ("feed over ties", 230),
    ("clash", 600),
    ("log to a clash", 210),
    ("feed near the last count", 220),
    ("near the last count", 350),
    ("later kind of a pair", 560),
    ("number that does not fit", 180),
    ("number above the count", 99),
    ("join", 140),
    ("join of halves", 200),
    ("join of the same pairs", 110),
    ("join after a log", 77),
    ("join refused", 260),
    (joins::PAIRS, 81),
    ("well-formed piece", 100),
    ("mostly well-formed piece", 210),
    ("piece of one class", 100),
    ("piece of few classes", 75),
    ("piece of random bytes", 74),
    ("piece with a byte changed", 72),
    ("long piece", 280),
    ("piece of a log", 72),
    ("log cut at any byte", 70),
    (balances::BESIDE_DESK, 180),
    (merges::OF_LOG, 150),
    (merges::CLOSING, 100),
    (merges::LONG, 20),
    (merges::DEEP, 12),
    (merges::FROM_JOIN, 50),
    (usage::LOG, 140),
    (usage::DRAWING, 300),
];

/// Every need with its least number: of a fixed kind all of its cases; of the rest so many in 100,000 random cases, about
/// a tenth of what is seen.
pub fn all() -> Vec<(Need, u64)> {
    let mut all = vec![(Need::RandomCases, RANDOM_CASES)];
    all.extend(gen::FIXED.map(|(name, number)| (Need::Fixed(name), number)));
    all.extend(RANDOM.map(|(name, least)| (Need::Kind(name), least)));
    for (call, answers) in [
        (Opening, &[(0, 4500), (2, 590)][..]),
        (
            Step,
            &[
                (0, 210_000), (1, 2500), (3, 4700), (4, 1300), (5, 3700), (6, 4900), (7, 600), (8, 1000), (9, 4200),
                (10, 10_000), (11, 5600), (15, 3400), (16, 1300), (17, 1100), (18, 20), (19, 140),
            ],
        ),
        (Question, &[(0, 10_000), (4, 3400), (11, 2400)]),
        (Start, &[(0, 1100), (2, 53)]),
        (
            Piece,
            &[
                (0, 14_000), (1, 410), (2, 6400), (3, 2800), (4, 100), (5, 130), (6, 220), (7, 61), (8, 83), (9, 870),
                (10, 440), (11, 4700), (15, 20), (16, 12), (17, 13), (18, 20), (19, 12),
            ],
        ),
        (
            End,
            &[
                (0, 1100), (1, 160), (2, 1200), (3, 1100), (4, 69), (5, 56), (6, 92), (7, 50), (8, 53), (9, 200), (10, 490),
                (11, 1400), (15, 14), (16, 12), (17, 9), (18, 14), (19, 12),
            ],
        ),
        (Balance, &[(0, 1800), (14, 440)]),
        (Join, &[(0, 590), (1, 480), (11, 1000), (12, 300), (13, 290)]),
    ] {
        all.extend(answers.iter().map(|&(answer, least)| (Need::Answer(call, answer), least)));
    }
    for clause in 0..CLAUSES.len() {
        all.push((Need::Clause(Step, clause), 67));
        // A question has no history and no slip.
        if of_bench(clause) {
            all.push((Need::Clause(Question, clause), 32));
        }
    }
    for side in 0..2 {
        let clauses = (0..CLAUSES.len()).filter(|&clause| of_bench(clause));
        all.extend(clauses.map(|clause| (Need::JoinClause(side, clause), 20)));
    }
    all.extend((0..4).map(|buffer| (Need::JoinShort(buffer), 30)));
    all.extend((0..joins::PARTS.len()).map(|part| (Need::JoinSaid(part), 1000)));
    all.extend([(Need::JoinedFaultInSecond, 12), (Need::JoinedFaultInBoth, 30), (Need::FaultByStart, 10)]);
    for clause in 0..FEED_CLAUSES.len() {
        all.extend([(Need::FeedClause(Piece, clause), 110), (Need::FeedClause(End, clause), 57)]);
    }
    all.extend([2300, 1000, 2300].into_iter().enumerate().map(|(part, least)| (Need::Promise(part), least)));
    all.extend([(Need::FaultInSecond, 80), (Need::FaultInBoth, 66), (Need::OtherNumbers, 180), (Need::PairOfCrosslocks, 100)]);
    all.extend([(Need::ReleasePutIn, 190), (Need::NotFittingPutIn, 44)]);
    let modes = (0..6).flat_map(|newest| (0..6).map(move |mode| (newest, mode)));
    all.extend(modes.filter(|(newest, mode)| newest != mode).map(|(newest, mode)| (Need::OlderFits(newest, mode), 28)));
    all.extend([(Need::Filled, 2300), (Need::OverFull, 870)]);
    for (kind, by_source) in SHOWN.iter().enumerate() {
        all.extend(by_source.iter().enumerate().map(|(source, &least)| (Need::Shown(kind, source), least)));
    }
    all.extend([(Need::AskedClosed, 1600), (Need::AskedItself, 1300)]);
    all.extend([(Need::Added, 1500), (Need::Held, 270)]);
    all.extend(SIGHTS.iter().enumerate().map(|(i, sight)| (Need::Sight(i), sight.least)));
    all.extend(merges::SIGHTS.iter().enumerate().map(|(i, &(_, least))| (Need::Merge(i), least)));
    all.extend(usage::SIGHTS.iter().enumerate().map(|(i, &(_, least))| (Need::Usage(i), least)));
    all
}

fn cases_named(counts: &Counts, name: &str) -> u64 {
    counts.by_name.iter().find(|n| n.0 == name).map_or(0, |n| n.1)
}

impl Need {
    pub fn name(self) -> String {
        let call = |c| match c {
            Opening => "opening",
            Step => "step",
            Question => "question",
            Start => "feed start",
            Piece => "piece",
            End => "feed end",
            Balance => "balance",
            Join => "join",
        };
        let bench = |side: usize| ["first", "second"][side];
        match self {
            Need::RandomCases => "random cases".into(),
            Need::Fixed(name) | Need::Kind(name) => name.into(),
            Need::Answer(c, answer) => format!("{} {answer}", call(c)),
            Need::Clause(c, clause) => format!("{} with {}", call(c), CLAUSES[clause]),
            Need::FeedClause(c, clause) => format!("{} with {}", call(c), FEED_CLAUSES[clause]),
            Need::Promise(part) => format!("feed {}", PROMISE[part]),
            Need::FaultInSecond => "pair with a fault in the second list only".into(),
            Need::FaultInBoth => "pair with a fault in both lists".into(),
            Need::OtherNumbers => "pair whose lists give other numbers".into(),
            Need::PairOfCrosslocks => "pair with crosslocks in the first list".into(),
            Need::ReleasePutIn => "pair with an accepted release of mode 1 to 5 put in".into(),
            Need::NotFittingPutIn => "pair with a release of mode 1 to 5 put in that got 5".into(),
            Need::OlderFits(newest, mode) => {
                format!("older {} released over a newest {}", MODES[usize::from(mode)], MODES[usize::from(newest)])
            }
            Need::Filled => "frame filled from opening".into(),
            Need::OverFull => "acquire refused by a frame filled from opening".into(),
            Need::Shown(kind, source) => format!("{} {} in a cycle", KINDS[kind], SOURCES[source]),
            Need::AskedClosed => "question on a closed desk".into(),
            Need::AskedItself => "question whose class reaches itself".into(),
            Need::Added => balances::PARTS[0].into(),
            Need::Held => balances::PARTS[1].into(),
            Need::JoinClause(side, clause) => format!("join with {} on the {} bench", CLAUSES[clause], bench(side)),
            Need::JoinShort(buffer) => format!("join with a short {}", ["desk", "sheet", "second sheet", "slip"][buffer]),
            Need::JoinSaid(part) => joins::PARTS[part].into(),
            Need::JoinedFaultInSecond => "pair from a join with a fault in the second list only".into(),
            Need::JoinedFaultInBoth => "pair from a join with a fault in both lists".into(),
            Need::FaultByStart => "pair from a join with a fault that would be none from opening".into(),
            Need::Sight(i) => SIGHTS[i].name.into(),
            Need::Merge(i) => merges::SIGHTS[i].0.into(),
            Need::Usage(i) => usage::SIGHTS[i].0.into(),
        }
    }

    /// How often it was met; all but the fixed kinds in random cases alone.
    pub fn met(self, fixed: &Counts, random: &Counts) -> u64 {
        match self {
            Need::RandomCases => random.cases,
            Need::Fixed(name) => cases_named(fixed, name),
            Need::Kind(name) => cases_named(random, name),
            Need::Answer(Opening, answer) => random.open[usize::from(answer)],
            Need::Answer(Step, answer) => random.step[usize::from(answer)],
            Need::Answer(Question, answer) => random.ask[usize::from(answer)],
            Need::Answer(Start, answer) => random.feed_start[usize::from(answer)],
            Need::Answer(Piece, answer) => random.feed[usize::from(answer)],
            Need::Answer(End, answer) => random.feed_end[usize::from(answer)],
            Need::Answer(Balance, answer) => random.balance[usize::from(answer)],
            Need::Answer(Join, answer) => random.join[usize::from(answer)],
            Need::FeedClause(Piece, clause) => random.clause_feed[clause],
            Need::FeedClause(_, clause) => random.clause_feed_end[clause],
            Need::Promise(part) => random.promised[part],
            Need::Clause(Question, clause) => random.clause_ask[clause],
            Need::Clause(_, clause) => random.clause_step[clause],
            Need::FaultInSecond => random.pair_faults[1],
            Need::FaultInBoth => random.pair_faults[2],
            Need::OtherNumbers => random.pair_numbers,
            Need::PairOfCrosslocks => random.pair_crosslocks,
            Need::ReleasePutIn => random.pair_released,
            Need::NotFittingPutIn => random.pair_not_fitting,
            Need::OlderFits(newest, mode) => random.older_fits[usize::from(newest)][usize::from(mode)],
            Need::Filled => random.filled,
            Need::OverFull => random.over_full,
            Need::Shown(kind, source) => random.shown[kind][source],
            Need::AskedClosed => random.asked_closed,
            Need::AskedItself => random.asked_itself,
            Need::Added => random.added,
            Need::Held => random.held,
            Need::JoinClause(side, clause) => random.clause_join[side][clause],
            Need::JoinShort(buffer) => random.short_join[buffer],
            Need::JoinSaid(part) => random.said_of_joins[part],
            Need::JoinedFaultInSecond => random.joined_pair_faults[1],
            Need::JoinedFaultInBoth => random.joined_pair_faults[2],
            Need::FaultByStart => random.faults_by_start,
            Need::Sight(i) => random.sights.0[i],
            Need::Merge(i) => random.merges[i],
            Need::Usage(i) => random.usage[i],
        }
    }

    /// Takes out of a case what is counted under this need, going by the fast judge; false if the whole case goes.
    pub fn leave_out(self, case: &mut Case) -> bool {
        match (self, &case.pair) {
            (Need::RandomCases, _) => return !RANDOM.iter().any(|(name, _)| *name == case.name),
            (Need::Fixed(name) | Need::Kind(name), _) => return case.name != name,
            (Need::Merge(i), _) => return !case.merges.as_ref().is_some_and(|merges| merges::played(case, merges)[i]),
            (Need::Usage(_), _) if !case.usage => {}
            // Merges are run several times with several answers to a record.
            _ if case.merges.is_some() => return false,
            // From opening it is no such pair.
            (Need::FaultByStart, Some(_)) => case.start = None,
            (Need::PairOfCrosslocks, Some(_)) => {
                let kept: Vec<bool> =
                    case.calls.iter().map(|call| !matches!(call, Call::Step(record) if record.of_crosslock())).collect();
                keep(case, &kept);
            }
            (Need::FaultInSecond | Need::JoinedFaultInSecond | Need::OtherNumbers, Some(Pair { in_first, .. })) => {
                let in_first = in_first.clone();
                keep(case, &in_first);
            }
            (Need::FaultInBoth | Need::JoinedFaultInBoth, Some(Pair { in_first, .. })) => {
                let in_first = in_first.clone();
                let kept = play(case, |seen| seen.answer != 1, Some(&in_first));
                keep(case, &kept);
            }
            (Need::ReleasePutIn | Need::NotFittingPutIn, Some(Pair { in_first, .. })) => {
                let by_mode = |call: &Call| matches!(call, Call::Step(record) if record.releases_by_mode());
                let kept: Vec<bool> = case.calls.iter().zip(in_first).map(|(call, first)| *first || !by_mode(call)).collect();
                keep(case, &kept);
            }
            (Need::FaultInSecond | Need::FaultInBoth | Need::OtherNumbers | Need::ReleasePutIn | Need::NotFittingPutIn, None) => {}
            (Need::JoinedFaultInSecond | Need::JoinedFaultInBoth | Need::FaultByStart | Need::PairOfCrosslocks, None) => {}
            // A pair is run twice with two answers to a record.
            (_, Some(_)) => return false,
            // A case without a call of the feed is held to no promise.
            (Need::Promise(_), None) => case.calls.retain(|call| !call.of_feed()),
            (_, None) => {
                let kept = play(case, |seen| !self.meets(seen), None);
                keep(case, &kept);
            }
        }
        true
    }

    /// Whether a call is such as this need counts, or one without which it is not met.
    fn meets(self, seen: &Seen) -> bool {
        let call = match seen.call {
            Call::Open(..) => Opening,
            Call::Step(_) => Step,
            Call::Ask(_) => Question,
            Call::FeedStart => Start,
            Call::Feed(_) => Piece,
            Call::FeedEnd => End,
            Call::Balance(_) => Balance,
            Call::Join(_) => Join,
        };
        let (before, after) = (&seen.before, &seen.after);
        match self {
            Need::Answer(c, answer) => c == call && seen.answer == answer,
            Need::Clause(c, clause) => {
                c == call && seen.clause() == Some(CLAUSES[clause])
            }
            Need::FeedClause(c, clause) => c == call && seen.clause() == Some(FEED_CLAUSES[clause]),
            Need::Filled => {
                let full = |desk: &[u8]| desk[DEPTHS..MARKS].iter().filter(|&&d| usize::from(d) == DEEPEST).count();
                call == Step && seen.answer < 2 && full(&after.desk) > full(&before.desk)
            }
            Need::OverFull => call == Step && seen.answer == 8,
            Need::Shown(kind, source) => {
                let mut entries = after.slip.get(1..).unwrap_or(&[]).chunks_exact(7);
                let n = after.slip.first().map_or(0, |&n| usize::from(n));
                let such = [1 << kind, source as u8];
                [Step, Join].contains(&call) && seen.answer == 1 && entries.by_ref().take(n).any(|e| e[1..3] == such)
            }
            Need::AskedClosed => call == Question && seen.answer == 0 && before.desk[1] == 1,
            Need::AskedItself => {
                matches!(seen.call, Call::Ask(class) if seen.answer == 0 && seen.word >> class & 1 == 1) && before.desk[1] == 0
            }
            Need::Added => matches!(seen.call, Call::Balance(piece) if seen.answer == 0 && piece.len() >= 12),
            Need::Held => matches!(seen.call, Call::Balance(piece) if !piece.is_empty()) && seen.history.steps.is_some(),
            Need::JoinClause(side, clause) => matches!(seen.join_unfit(), Some(Unfit::Bench(s, c)) if (s, c) == (side, clause)),
            Need::JoinShort(buffer) => matches!(seen.join_unfit(), Some(Unfit::Short(short)) if short == buffer),
            Need::JoinSaid(part) => call == Join && (seen.answer < 2 || ![1, 2].contains(&part)),
            Need::OlderFits(newest, mode) => seen.look().older_fits() == Some((newest, mode)),
            Need::Sight(i) => SIGHTS[i].met(&seen.look()),
            Need::Usage(i) => call == Step && seen.answer < 2 && usage::met(&after.desk, &after.sheet)[i],
            _ => false,
        }
    }
}

/// A call on the fast judge's buffers.
struct Seen<'a> {
    call: &'a Call,
    before: Buffers,
    after: Buffers,
    feed: Vec<u8>,
    feed_after: Vec<u8>,
    history: History,
    answer: u8,
    word: u64,
}

impl Seen<'_> {
    fn look(&self) -> Look<'_> {
        let (before, after) = (&self.before, &self.after);
        Look {
            call: self.call,
            before: &before.desk,
            after: &after.desk,
            answer: self.answer,
            clause: self.clause(),
            sheet: &before.sheet,
            sheet_after: &after.sheet,
            seen: &before.seen,
            seen_after: &after.seen,
            kept: &before.history,
            slip: &after.slip,
            slip_before: &before.slip,
            feed: &self.feed,
            feed_after: &self.feed_after,
            history: self.history,
            shown: OnceCell::new(),
            clashes: OnceCell::new(),
            numbers: OnceCell::new(),
            joined: OnceCell::new(),
            fit_benches: OnceCell::new(),
            tally: OnceCell::new(),
        }
    }
    /// Why a join is refused with 11.
    fn join_unfit(&self) -> Option<Unfit> {
        let Call::Join(sides) = self.call else { return None };
        let [one, two] = sides.each_ref().map(|side| side.lent(self.before.lent()));
        let Buffers { desk, sheet, seen, slip, .. } = &self.before;
        joins::unfit(one, two, [desk.len(), sheet.len(), seen.len(), slip.len()])
    }
    /// With answer 11: the first clause that is violated.
    fn clause(&self) -> Option<&'static str> {
        if let Some(unfit) = self.join_unfit() {
            return match unfit {
                Unfit::Bench(_, clause) => Some(CLAUSES[clause]),
                Unfit::Short(_) => None,
            };
        }
        if matches!(self.call, Call::Join(_)) {
            return None;
        }
        if self.call.of_feed() {
            return reference::unfit_feed(&self.feed).filter(|_| self.answer == 11);
        }
        let Buffers { desk, sheet, seen, history, slip } = &self.before;
        match self.call {
            _ if self.answer != 11 => None,
            Call::Step(_) => unfit(desk, sheet, seen, history, slip),
            _ => unfit_bench([desk, sheet, seen]),
        }
    }
}

/// Plays a case's calls (or only those chosen) on the fast judge, and says which are kept; the others are undone.
fn play(case: &Case, keeps: impl Fn(&Seen) -> bool, chosen: Option<&[bool]>) -> Vec<bool> {
    let mut now = case.buffers.clone();
    match (&case.pair, &case.start) {
        (Some(_), Some(Call::Join(sides))) => drop(joins::join(&mut now, sides)),
        (Some(Pair { k, declared, .. }), _) => {
            let Buffers { desk, sheet, seen, history, .. } = &mut now;
            let _ = (FAST.open)(*k, declared[1], desk, sheet, seen, history);
        }
        _ => {}
    }
    let (mut feed, mut history) = (case.feed.clone(), History::default());
    let mut kept = Vec::new();
    for (at, call) in case.calls.iter().enumerate() {
        if chosen.is_some_and(|c| !c[at]) {
            kept.push(true);
            continue;
        }
        let (before, feed_before) = (now.clone(), feed.clone());
        let (mut word, mut count, mut record) = (0, 0, 0);
        let Buffers { desk, sheet, seen, history: kept_takes, slip } = &mut now;
        let answer = match call {
            Call::Open(k, declared) => (FAST.open)(*k, *declared, desk, sheet, seen, kept_takes),
            Call::Step(r) => (FAST.step)(desk, sheet, seen, kept_takes, slip, r.slice()),
            Call::Ask(class) => (FAST.ask)(desk, sheet, seen, *class, &mut word, &mut count),
            Call::FeedStart => (FAST.feed_start)(&mut feed),
            Call::Feed(piece) => (FAST.feed)(&mut feed, desk, sheet, seen, kept_takes, slip, piece, &mut record),
            Call::FeedEnd => (FAST.feed_end)(&mut feed, desk, sheet, seen, kept_takes, slip, &mut record),
            Call::Balance(piece) => (FAST.balance)(piece, &mut [0; 64]),
            Call::Join(sides) => joins::join(&mut now, sides),
        };
        let seen = Seen { call, before, after: now, feed: feed_before, feed_after: feed, history, answer, word };
        kept.push(keeps(&seen));
        if kept[at] {
            history = history.after(call, answer);
            (now, feed) = (seen.after, seen.feed_after);
        } else {
            (now, feed) = (seen.before, seen.feed);
        }
    }
    kept
}

fn keep(case: &mut Case, kept: &[bool]) {
    fn retain<T>(list: &mut Vec<T>, kept: &[bool]) {
        let mut kept = kept.iter();
        list.retain(|_| kept.next() == Some(&true));
    }
    retain(&mut case.calls, kept);
    if kept.contains(&false) {
        case.meant = None;
    }
    if let Some(pair) = &mut case.pair {
        retain(&mut pair.in_first, kept);
    }
}

/// A need under its least number: the need, how often it was met, and the least number.
pub type Under = (Need, u64, u64);

/// Those that are under their least numbers, in a run that was asked for this many random cases.
pub fn under(fixed: &Counts, random: &Counts, cases: u64) -> Vec<Under> {
    all()
        .into_iter()
        .map(|(need, least)| {
            let least = match need {
                Need::RandomCases => least.min(cases),
                Need::Fixed(_) => least,
                _ => (least * random.cases).div_ceil(100_000),
            };
            (need, need.met(fixed, random), least)
        })
        .filter(|&(_, met, least)| met < least)
        .collect()
}

/// Answers that were given though the call has none such, and how often.
pub fn undue(counts: &Counts) -> Vec<(Need, u64)> {
    let due = all();
    [Opening, Step, Question, Start, Piece, End, Balance, Join]
        .into_iter()
        .flat_map(|call| (0..20).map(move |answer| Need::Answer(call, answer)))
        .filter(|need| !due.iter().any(|(d, _)| d == need))
        .map(|need| (need, need.met(counts, counts)))
        .filter(|&(_, met)| met > 0)
        .collect()
}
