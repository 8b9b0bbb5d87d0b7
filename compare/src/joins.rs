//! Joins of two benches: what is said of them, told from the bytes of the benches and from further joins of the same judge, and the
//! cases with them. What is to come of the fixed ones is worked out here from the documents; no judge is asked.

use crate::clashes;
use crate::crosslocks;
use crate::drawing::Drawing;
use crate::gen::{
    any_buffers, any_class, any_k, any_style, case, fit_desk, hold_at, may_hold, origin_at, pair, push, read, sizes, some_calls, steps,
    try_style, violate, Buffers, Kind,
};
use crate::judges::{of_bench, unfit_bench, Lent, Subject, CLAUSES, FAST};
use crate::numbers::{self, FULL};
use crate::rng::Rng;
use crate::run::{Call, Case, Meant, Pair, Rec, Side};
use crate::ties::{self, sketch, Sketch, EN, ER, SN, SR};
use reference::{COUNT, DECLARED, DEEPEST, DEPTHS, DESK, FRAMES, HOLDS, KEPT_COUNT, MARKS, PROGRESS, SINCE, STATES};

/// What is said of joins: in either order they are the same but for numbers; kinds, marks and faults of either bench are there; with
/// a freshly opened bench they are the other's own drawing; the answer, and every byte of desk and sheets, are what is worked out here
/// from the two benches. A wrong join breaks one of the last two; the first that is broken is named.
pub const PARTS: [&str; 5] = [
    "joins are the same in either order",
    "joins have what either bench has",
    "joins with a fresh bench are the bench's own drawing",
    "answers of joins",
    "joined bytes",
];

/// Why a join is refused with 11.
pub enum Unfit {
    /// Which bench, and its first clause by its place in CLAUSES.
    Bench(usize, usize),
    /// The buffer that is too short for the larger K: desk, sheet, second sheet, slip.
    Short(usize),
}

pub fn unfit(first: Lent, second: Lent, lengths: [usize; 4]) -> Option<Unfit> {
    let clause = unfit_bench;
    let benches = [first, second].into_iter().enumerate();
    if let Some((side, clause)) = benches.filter_map(|(side, bench)| clause(bench).map(|clause| (side, clause))).next() {
        return Some(Unfit::Bench(side, CLAUSES.iter().position(|c| *c == clause)?));
    }
    let sizes = sizes(usize::from(first[0][0].max(second[0][0])));
    (0..4).find(|&buffer| lengths[buffer] < sizes[buffer]).map(Unfit::Short)
}

/// Whether a bench is fit, by the documents' words.
fn fits([desk, sheet, seen]: Lent) -> bool {
    if desk.len() < DESK || !(1..=64).contains(&desk[0]) {
        return false;
    }
    let k = usize::from(desk[0]);
    if sheet.len() < k * k || seen.len() < 4 * k * k || desk[1] > 1 {
        return false;
    }
    let frame_fits = |frame: usize| {
        let (state, depth) = (desk[STATES + frame / 3], usize::from(desk[DEPTHS + frame]));
        let stands = |place| {
            let lock = desk[hold_at(frame, place)];
            lock < 192 && usize::from(lock % 64) < k
        };
        let unused = |place| {
            let (byte, bit) = origin_at(frame, place);
            desk[hold_at(frame, place)] == 0 && desk[byte] & bit == 0
        };
        state <= 8
            && depth <= DEEPEST
            && (depth == 0 || may_hold(state, frame % 3))
            && (0..DEEPEST).all(|place| if place < depth { stands(place) } else { unused(place) })
    };
    let mark_fits = |class: usize| {
        let m = desk[MARKS + class];
        if class < k { m >> 4 & 12 & !m == 0 } else { m == 0 }
    };
    // A number may be any.
    let pair_fits = |pair: usize| sheet[pair] < 16 && (sheet[pair] == 0) == (numbers::number(seen, pair) == 0);
    // Of crosslocks: those declared are classes, those in progress are declared and at most 16, and at most 256 acquires are kept. The
    // history is not lent.
    let bit = |word: usize, class: usize| desk[word + class / 8] >> (class % 8) & 1 == 1;
    let lists_fit = (0..64).all(|class| (!bit(DECLARED, class) || class < k) && (!bit(PROGRESS, class) || bit(DECLARED, class)))
        && (0..64).filter(|&class| bit(PROGRESS, class)).count() <= 16
        && (desk[KEPT_COUNT + 1..SINCE] == [0; 3] || desk[KEPT_COUNT..SINCE] == [0, 1, 0, 0]);
    lists_fit && (0..FRAMES).all(frame_fits) && (0..64).all(mark_fits) && (0..k * k).all(pair_fits)
}

/// A join that was made: the benches, the four buffers before and after it, and its answer.
pub struct Join<'a> {
    pub benches: [Lent<'a>; 2],
    pub before: [&'a [u8]; 4],
    pub after: [&'a [u8]; 4],
    pub answer: u8,
}

/// What is wrong, if anything is.
pub type Said = fn(&Join, &mut Subject) -> Option<String>;

impl Join<'_> {
    /// What is said of this join, by its place in PARTS. Of two that are alike one is, in turn.
    pub fn said(&self, turn: u64) -> Vec<(usize, Said)> {
        let with_fresh: Said = match turn % 2 {
            0 => |join, subject| join.not_its_own(0, subject),
            _ => |join, subject| join.not_its_own(1, subject),
        };
        if self.answer < 2 && self.refusal().is_some() {
            // There may be no room to look at.
            return vec![(3, |join, _| join.misjudged())];
        }
        let mut said: Vec<(usize, Said)> = vec![(0, |join, subject| join.ordered(subject))];
        if self.answer < 2 {
            said.extend([(1, (|join, _| join.lost()) as Said), (2, with_fresh)]);
        }
        said.extend([(3, (|join, _| join.misjudged()) as Said), (4, (|join, _| join.differs()) as Said)]);
        said
    }

    /// Another join of the same judge, into buffers as they were: its answer and what it left.
    fn another(&self, first: Lent, second: Lent, subject: &mut Subject) -> (u8, [Vec<u8>; 4]) {
        let mut left = self.before.map(<[u8]>::to_vec);
        let [desk, sheet, seen, slip] = &mut left;
        let answer = subject.join(first, second, desk, sheet, seen, slip);
        (answer, left)
    }

    fn k(&self) -> usize {
        usize::from(self.benches[0][0][0])
    }

    /// "Apart from first-seen numbers and the slip, joining in either order gives the same."
    fn ordered(&self, subject: &mut Subject) -> Option<String> {
        let [first, second] = self.benches;
        let (answer, [desk, sheet, seen, slip]) = self.another(second, first, subject);
        if answer != self.answer {
            return Some(format!("answer {} and in the other order {answer}", self.answer));
        }
        // Without the numbers of the pairs and of the slip's entries.
        let blank = |[desk, sheet, seen, slip]: [&[u8]; 4]| {
            let (mut seen, mut slip) = (seen.to_vec(), slip.to_vec());
            if answer < 2 {
                seen[..4 * self.k() * self.k()].fill(0);
            }
            if answer == 1 {
                let n = usize::from(slip[0]);
                slip[1..].chunks_exact_mut(7).take(n).for_each(|entry| entry[3..].fill(0));
            }
            [desk.to_vec(), sheet.to_vec(), seen, slip]
        };
        let (one, other) = (blank(self.after), blank([&desk, &sheet, &seen, &slip]));
        let differs = (0..4).find(|&buffer| one[buffer] != other[buffer]);
        differs.map(|buffer| format!("another {} in the other order", ["desk", "sheet", "second sheet", "slip"][buffer]))
    }

    /// Whether a bench has something that the joined one has not.
    fn lost(&self) -> Option<String> {
        let [desk, sheet, ..] = self.after;
        self.benches.iter().zip(["first", "second"]).find_map(|(&[own, kinds, seen], name)| {
            let pairs = self.k() * self.k();
            let kind = (0..pairs).find(|&pair| kinds[pair] & !sheet[pair] != 0).map(|pair| format!("a kind of pair {pair}"));
            let mark = || (MARKS..HOLDS).find(|&at| own[at] & !desk[at] != 0).map(|at| format!("a mark of class {}", at - MARKS));
            let fault = || (self.answer == 0 && alone([own, kinds, seen]).closed).then(|| "a closed strong path".into());
            kind.or_else(mark).or_else(fault).map(|what| format!("{what} of the {name} bench is lost"))
        })
    }

    /// What is wrong with a join of one of the benches and a fresh one.
    fn not_its_own(&self, side: usize, subject: &mut Subject) -> Option<String> {
        let [own, kinds, numbers] = self.benches[side];
        let (k, fresh) = (self.k(), declaring(self.k(), crosslocks::declared(own)));
        let order = if side == 0 { [self.benches[0], fresh.lent()] } else { [fresh.lent(), self.benches[1]] };
        let (answer, [desk, sheet, seen, _]) = self.another(order[0], order[1], subject);
        let fault = u8::from(alone(self.benches[side]).closed);
        let name = ["first bench with a fresh second", "second bench with a fresh first"][side];
        let what = match () {
            _ if answer != fault => format!("answer {answer} instead of {fault}"),
            _ if desk[MARKS..HOLDS] != own[MARKS..HOLDS] => "other marks".into(),
            _ if sheet[..k * k] != kinds[..k * k] => "other kinds".into(),
            _ if seen[..4 * k * k] != numbers[..4 * k * k] => "other numbers".into(),
            _ => return None,
        };
        Some(format!("{name}: {what}"))
    }

    /// The answer, where the join is to be refused.
    fn refusal(&self) -> Option<u8> {
        let [first, second] = self.benches;
        if !fits(first) || !fits(second) {
            return Some(11);
        }
        let [k1, k2] = [first[0][0], second[0][0]];
        let room = self.before.iter().zip(sizes(usize::from(k1.max(k2)))).all(|(buffer, size)| buffer.len() >= size);
        match () {
            _ if !room => Some(11),
            _ if k1 != k2 || first[0][DECLARED..PROGRESS] != second[0][DECLARED..PROGRESS] => Some(12),
            _ if first[0][1] == 1 || second[0][1] == 1 => Some(13),
            _ => None,
        }
    }

    fn misjudged(&self) -> Option<String> {
        let [first, second] = self.benches;
        let answer = self.refusal().unwrap_or_else(|| u8::from(Drawing::joined(first, second).closed));
        (answer != self.answer).then(|| format!("answer {} instead of {answer}", self.answer))
    }

    fn differs(&self) -> Option<String> {
        let [mut desk, mut sheet, mut seen] = [0, 1, 2].map(|i| self.before[i].to_vec());
        if self.answer < 2 {
            let [[one, kinds_one, seen_one], [two, kinds_two, seen_two]] = self.benches;
            desk[..DESK].fill(0);
            (desk[0], desk[1]) = (one[0], self.answer);
            desk[DECLARED..PROGRESS].copy_from_slice(&two[DECLARED..PROGRESS]);
            for class in 0..64 {
                desk[MARKS + class] = one[MARKS + class] | two[MARKS + class];
            }
            for pair in 0..self.k() * self.k() {
                sheet[pair] = kinds_one[pair] | kinds_two[pair];
                let number = Some(numbers::number(seen_one, pair)).filter(|&number| number != 0);
                numbers::set_number(&mut seen, pair, number.unwrap_or_else(|| numbers::number(seen_two, pair)));
            }
        }
        let buffers = [("desk", &desk), ("sheet", &sheet), ("second sheet", &seen)];
        buffers.iter().zip(self.after).find_map(|((what, wanted), bytes)| {
            let at = (0..bytes.len()).find(|&at| bytes[at] != wanted[at])?;
            Some(format!("{what} byte {at}: {} instead of {}", bytes[at], wanted[at]))
        })
    }
}

/// The drawing of one bench.
fn alone(bench: Lent) -> Drawing {
    Drawing::joined(bench, fresh(usize::from(bench[0][0])).lent())
}

/// A freshly opened bench.
fn fresh(k: usize) -> Buffers {
    declaring(k, 0)
}

/// The same with these crosslocks.
fn declaring(k: usize, declared: u64) -> Buffers {
    let [desk, sheet, seen, _] = sizes(k).map(|size| vec![0; size]);
    let mut b = Buffers { desk, sheet, seen, history: Vec::new(), slip: Vec::new() };
    b.desk[0] = k as u8;
    b.desk[DECLARED..PROGRESS].copy_from_slice(&declared.to_le_bytes());
    b
}

/// Gives two benches the same crosslocks, none mostly; seldom one of them another.
fn agree(rng: &mut Rng, both: &mut [Buffers; 2]) {
    let (least, most) = (both[0].k().min(both[1].k()), both[0].k().max(both[1].k()));
    let declared = match rng.under(10) {
        0..6 => 0,
        6 | 7 => crosslocks::declared(&both[0].desk),
        _ => crosslocks::some(rng, least, 1000),
    };
    // Of either, where there are fewer classes.
    let all = |k: usize| u64::MAX >> (64 - k);
    both.iter_mut().for_each(|b| crosslocks::declare(rng, b, declared & all(least)));
    if least == most && rng.mille(60) {
        let side = rng.under(2);
        let class = rng.pick(&[0, least - 1, rng.clone().under(least)]);
        crosslocks::declare(rng, &mut both[side], (declared & all(least)) ^ 1 << class);
    }
}

// ---------------------------------------------------------------------- random

/// Cores and count of a run or of a desk from elsewhere, with nothing drawn.
fn cores(rng: &mut Rng, k: usize) -> Buffers {
    let mut b = fit_desk(rng, k);
    b.desk[1] = 0;
    b.desk[MARKS..HOLDS].fill(0);
    b.sheet[..k * k].fill(0);
    b.seen[..4 * k * k].fill(0);
    b
}

/// A bench from a run of a log.
fn run(rng: &mut Rng, k: usize) -> Buffers {
    let mut style = if rng.mille(400) { try_style(k) } else { any_style(rng, k) };
    (style.avoid, style.unordered) = (1000, rng.pick(&[0, 0, 50, 1000]));
    let declared = crosslocks::some(rng, k, 300);
    let mut b = Buffers::declaring(k, declared);
    for _ in 0..rng.pick(&[3, 10, 25, 60]) {
        b.next(rng, &style);
    }
    b
}

/// A bench with dependencies upwards alone, unsafe marks below and safe ones above: no cycle, and none with another such.
fn upward(rng: &mut Rng, k: usize) -> Buffers {
    let mut b = cores(rng, k);
    let (density, marked) = (rng.pick(&[50, 300, 900]), rng.pick(&[0, 300, 900]));
    for (from, to) in (0..k).flat_map(|from| (from + 1..k).map(move |to| (from, to))) {
        if rng.mille(density) {
            b.sheet[from * k + to] = rng.between(1, 15) as u8;
        }
    }
    for class in 0..k {
        if rng.mille(marked) {
            let m = rng.byte() & if class < k / 2 { 0xCC } else { 0x33 };
            b.desk[MARKS + class] = m & !((m >> 4 & 12 & !m) << 4);
        }
    }
    numbers::scatter(rng, &mut b);
    b
}

/// Any bench.
fn any_bench(rng: &mut Rng, k: usize) -> Buffers {
    let mut b = match rng.under(8) {
        0 => fresh(k),
        1..4 => run(rng, k),
        4 | 5 => upward(rng, k),
        _ => fit_desk(rng, k),
    };
    b.desk[1] &= u8::from(rng.mille(30));
    b
}

/// Two benches with what one drawing has: each kind and each mark on either, or on both.
fn halves(rng: &mut Rng, k: usize, kinds: &[u8], marks: &[u8]) -> [Buffers; 2] {
    let mut both = [cores(rng, k), cores(rng, k)];
    let (in_both, bias) = (rng.pick(&[0, 100, 500]), rng.pick(&[100, 500, 500, 900]));
    let mut split = |all: u8| {
        let whole = rng.mille(400);
        let any = if whole { 255 * u8::from(rng.mille(bias)) } else { rng.byte() };
        let again = if rng.mille(in_both) { 255 } else { 0 };
        [all & (any | again), all & !any]
    };
    for pair in 0..k * k {
        let [one, two] = split(kinds[pair]);
        (both[0].sheet[pair], both[1].sheet[pair]) = (one, two);
    }
    for class in 0..k {
        // A soft-unsafe mark takes its hard-unsafe one along.
        let with_hard = |m: u8| m | m >> 4 & 12;
        let [one, two] = split(marks[class]).map(with_hard);
        (both[0].desk[MARKS + class], both[1].desk[MARKS + class]) = (one, two);
    }
    both.iter_mut().for_each(|b| numbers::scatter(rng, b));
    both
}

/// Goes on with a case behind a join: steps, questions, further joins, and steps again.
fn go_on(rng: &mut Rng, shadow: &mut Buffers, calls: &mut Vec<Call>) {
    for _ in 0..rng.pick(&[0, 0, 1, 1, 2]) {
        let k = shadow.k();
        if rng.mille(300) {
            calls.push(Call::Ask(any_class(rng, k)));
        }
        let mut style = any_style(rng, k);
        style.asks = 60;
        let most = rng.pick(&[1, 3, 8, 20]);
        steps(rng, &style, shadow, most, calls);
        let mut other = any_bench(rng, k);
        if !rng.mille(40) {
            crosslocks::declare(rng, &mut other, crosslocks::declared(&shadow.desk));
        }
        let other = Side::Given(other);
        let sides = match rng.under(5) {
            0 | 1 => [Side::Own, other],
            2 | 3 => [other, Side::Own],
            _ => [Side::Own, Side::Own],
        };
        if join(shadow, &sides) > 1 {
            calls.push(Call::Join(Box::new(sides)));
            return;
        }
        calls.push(Call::Join(Box::new(sides)));
    }
    if shadow.desk.len() >= DESK {
        let style = any_style(rng, shadow.k());
        let most = rng.pick(&[1, 1, 3, 8]);
        steps(rng, &style, shadow, most, calls);
    }
}

/// A join by the fast judge, on buffers that go along.
pub fn join(shadow: &mut Buffers, sides: &[Side; 2]) -> u8 {
    let own = shadow.clone();
    let [one, two] = sides.each_ref().map(|side| side.lent(own.lent()));
    let Buffers { desk, sheet, seen, slip, .. } = shadow;
    FAST.join_of(one, two, [desk, sheet, seen, slip])
}

/// Joins, and goes on where that was not refused.
fn joined(rng: &mut Rng, buffers: Buffers, sides: [Side; 2]) -> Case {
    let mut shadow = buffers.clone();
    let answer = join(&mut shadow, &sides);
    let mut calls = vec![Call::Join(Box::new(sides))];
    if answer < 2 {
        go_on(rng, &mut shadow, &mut calls);
    }
    case(buffers, calls)
}

/// Two benches of any sort.
fn any_join(rng: &mut Rng) -> Case {
    let k = any_k(rng);
    let mut both = [any_bench(rng, k), any_bench(rng, k)];
    agree(rng, &mut both);
    let buffers = any_buffers(rng, k);
    joined(rng, buffers, both.map(Side::Given))
}

/// What one drawing with cycles has, or a clash, on two benches.
fn of_halves(rng: &mut Rng) -> Case {
    let (k, kinds, marks) = if rng.mille(750) {
        let s = ties::any(rng);
        (s.k, s.sheet, s.marks)
    } else {
        let (b, _) = clashes::with_record(rng);
        let k = b.k();
        (k, b.sheet[..k * k].to_vec(), b.desk[MARKS..MARKS + k].to_vec())
    };
    let mut both = halves(rng, k, &kinds, &marks);
    agree(rng, &mut both);
    let buffers = any_buffers(rng, k);
    joined(rng, buffers, both.map(Side::Given))
}

/// The same pairs on both benches, mostly by other kinds: so the first's numbers are to be shown with the second's kinds.
fn same_pairs(rng: &mut Rng) -> Case {
    let k = rng.pick(&[1, 2, 2, 3, 4, 8]);
    let mut both = [cores(rng, k), cores(rng, k)];
    for _ in 0..rng.between(1, 2 * k) {
        let pair = rng.under(k) * k + rng.under(k);
        let (one, two) = rng.pick(&[(ER, EN), (SR, SN), (SR, EN), (ER, SN), (EN, EN), (SN, SN), (SN, EN), (0, EN), (SN, 0), (SR, ER)]);
        both[0].sheet[pair] |= one;
        both[1].sheet[pair] |= two;
    }
    both.iter_mut().for_each(|b| numbers::scatter(rng, b));
    agree(rng, &mut both);
    let buffers = any_buffers(rng, k);
    joined(rng, buffers, both.map(Side::Given))
}

/// From opening by steps; then the bench itself is joined with another, as the first or as the second.
fn after_log(rng: &mut Rng) -> Case {
    let k = any_k(rng);
    let mut style = any_style(rng, k);
    style.avoid = rng.pick(&[900, 1000, 1000]);
    let declared = crosslocks::some(rng, k, 400);
    let (mut calls, mut shadow) = (vec![Call::Open(k as u64, declared)], Buffers::declaring(k, declared));
    let most = rng.pick(&[2, 10, 30]);
    steps(rng, &style, &mut shadow, most, &mut calls);
    let mut other = any_bench(rng, k);
    crosslocks::declare(rng, &mut other, declared);
    let other = Side::Given(other);
    let sides = match rng.under(5) {
        0 | 1 => [Side::Own, other],
        2 | 3 => [other, Side::Own],
        _ => [Side::Own, Side::Own],
    };
    let answer = join(&mut shadow, &sides);
    calls.push(Call::Join(Box::new(sides)));
    if answer < 2 {
        go_on(rng, &mut shadow, &mut calls);
    }
    case(any_buffers(rng, k), calls)
}

/// Joins that are refused, for one reason or for several: benches unfit or closed, different K, buffers too short for the larger K or
/// for it alone.
fn refused(rng: &mut Rng) -> Case {
    let k = any_k(rng);
    let other = match rng.under(10) {
        0..6 => k,
        6 | 7 => if k == 64 || k > 1 && rng.mille(500) { k - 1 } else { k + 1 },
        _ => any_k(rng),
    };
    let mut benches = [any_bench(rng, k), any_bench(rng, other)];
    benches.iter_mut().for_each(|bench| bench.desk[1] = 0);
    agree(rng, &mut benches);
    let mut buffers = any_buffers(rng, k.max(other));
    let short = rng.mille(450);
    if short {
        let at = rng.pick(&[0, 0, 1, 1, 2, 2, 3, 3, 3]);
        let [size, small] = [k.max(other), k.min(other)].map(|k| sizes(k)[at]);
        let small = small.min(size - 1);
        // A byte short, of the smaller K, as an older version had it, or any.
        let old = [642, size / 4, size / 4, 1 + 3 * k.max(other)][at].min(size - 1);
        let length = rng.pick(&[size - 1, size - 1, small, small, small.midpoint(size), old, old, rng.clone().under(size)]);
        let Buffers { desk, sheet, seen, slip, .. } = &mut buffers;
        [desk, sheet, seen, slip][at].truncate(length);
    }
    let mut calls = Vec::new();
    for turn in 0..if short { 4 } else { 8 } {
        let mut both = benches.clone();
        // For room alone: with these benches, with fresh ones, and with ones that have a cycle.
        if short && turn < 3 {
            if turn > 0 {
                both = [fresh(k), fresh(other)];
            }
            if turn == 2 {
                both[0].sheet[0] = SN;
                numbers::scatter(rng, &mut both[0]);
            }
            calls.push(Call::Join(Box::new(both.map(Side::Given))));
            continue;
        }
        if k == other && !short && rng.mille(350) {
            // Other crosslocks on one of them, by a bit, by all, or by none.
            let (side, all) = (rng.under(2), u64::MAX >> (64 - k));
            let one = crosslocks::declared(&both[side].desk);
            let word = rng.pick(&[one ^ 1, one ^ 1 << (k - 1), one ^ 1 << rng.clone().under(k), !one & all, 0, all]);
            crosslocks::declare(rng, &mut both[side], word);
        }
        if short || rng.mille(if k == other { 250 } else { 600 }) {
            // One closed, the other, or both.
            let spared = rng.under(3);
            (0..2).filter(|side| *side != spared).for_each(|side| both[side].desk[1] = 1);
        }
        // One unfit, the other, both, or none.
        let spared = rng.pick(&[0, 0, 0, 1, 1, 1, 2, 3, 3]);
        let spared = if short || k != other && rng.mille(500) { 3 } else { spared };
        for side in (0..2).filter(|side| spared < 3 && *side != spared) {
            let clause = rng.under(reference::CLAUSES.len());
            for _ in 0..20 {
                let _ = fits(both[side].lent()) && violate(rng, clause, &mut both[side]);
            }
        }
        if rng.mille(500) {
            both.reverse();
        }
        calls.push(Call::Join(Box::new(both.map(Side::Given))));
    }
    if rng.mille(200) {
        calls.extend(some_calls(rng, k, 2));
    }
    case(buffers, calls)
}

pub const PAIRS: &str = "pair of lists from a join";

/// Two lists for demand 3, both from the same join.
pub fn pair_from_join(rng: &mut Rng) -> Case {
    let mut c = pair(rng);
    let Some(Pair { k, declared: [declared, _], .. }) = c.pair else { return c };
    let sides = open_sides(rng, k as usize, declared);
    c.start = Some(Call::Join(Box::new(sides.map(Side::Given))));
    c
}

/// Two open benches with these crosslocks whose join is open.
pub fn open_sides(rng: &mut Rng, k: usize, declared: u64) -> [Buffers; 2] {
    for _ in 0..8 {
        let benches = match rng.under(4) {
            0 => [run(rng, k), run(rng, k)],
            1 => [upward(rng, k), upward(rng, k)],
            2 => [run(rng, k), upward(rng, k)],
            _ => {
                // A few dependencies and marks.
                let mut s = Sketch::new(k);
                for _ in 0..rng.between(1, 4) {
                    s.draw(rng.under(k), rng.under(k), 1 << rng.under(4));
                    s.mark(rng.under(k), 1 << rng.under(8));
                }
                halves(rng, k, &s.sheet, &s.marks)
            }
        };
        let benches = benches.map(|mut b| {
            crosslocks::declare(rng, &mut b, declared);
            b
        });
        if benches.iter().all(|b| b.desk[1] == 0) && !Drawing::joined(benches[0].lent(), benches[1].lent()).closed {
            return benches;
        }
    }
    [declaring(k, declared), declaring(k, declared)]
}

pub const KINDS: [Kind; 6] = [
    Kind { name: "join", weight: 50, make: any_join },
    Kind { name: "join of halves", weight: 70, make: of_halves },
    Kind { name: "join of the same pairs", weight: 40, make: same_pairs },
    Kind { name: "join after a log", weight: 30, make: after_log },
    Kind { name: "join refused", weight: 90, make: refused },
    Kind { name: PAIRS, weight: 30, make: pair_from_join },
];

pub fn any(rng: &mut Rng) -> Case {
    let kind = rng.weighted(&KINDS.map(|kind| kind.weight));
    (KINDS[kind].make)(rng)
}

// ----------------------------------------------------------------------- fixed

pub const BY_HAND: &str = "joins by hand";
pub const STEPS_AFTER: &str = "steps after a join by hand";
pub const EACH_REFUSAL: &str = "each refusal of a join";
pub const EACH_SIZE: &str = "each size of a join's buffers";
pub const EACH_CLAUSE: &str = "each clause of a bench to be joined";
pub const EACH_NUMBER: &str = "each two numbers joined";
pub const ALL_KINDS: &str = "all kinds joined";
pub const SOME_MARKS: &str = "marks joined";
pub const RINGS: &str = "rings on two benches";
pub const EACH_CORE: &str = "each core's part of a bench";
pub const ABOVE_COUNT: &str = "numbers above the count joined";
pub const OF_CROSSLOCKS: &str = "crosslocks on benches to be joined";
pub const IN_PAIRS: &str = "pairs of lists from joins by hand";

/// A bench by hand: "" a fresh one, "log .." what the log leaves, else as a drawing by hand (see src/ties.rs).
fn by_text(k: usize, text: &str) -> Buffers {
    if text.is_empty() {
        return fresh(k);
    }
    let Some(log) = text.strip_prefix("log ") else { return sketch(k, text).buffers() };
    let mut b = Buffers::opened(k);
    read(log).iter().for_each(|record| assert_ne!(b.step(record), 1, "a fault: {log}"));
    b
}

/// What is to come of a join with this drawing: a fresh desk but for the marks, closed if a cycle is shown.
fn meant(k: usize, joined: &Buffers, slip: &str) -> Meant {
    let mut desk = vec![0; DESK];
    (desk[0], desk[1]) = (k as u8, u8::from(!slip.is_empty()));
    desk[MARKS..HOLDS].copy_from_slice(&joined.desk[MARKS..HOLDS]);
    Meant {
        answers: vec![desk[1]],
        slip: if slip.is_empty() { vec![99] } else { ties::slip(k, slip) },
        desk: Some(desk),
        sheet: Some(joined.sheet[..k * k].to_vec()),
        numbers: Some((0, (0..k * k).map(|pair| numbers::number(&joined.seen, pair)).collect())),
        ..Meant::default()
    }
}

/// Buffers full of anything, the slip's bytes known.
fn lent(rng: &mut Rng, k: usize) -> Buffers {
    let mut b = any_buffers(rng, k);
    b.slip.fill(99);
    b
}

/// K, the two benches, what the joined one has, and the slip, empty where no cycle is. Worked out by hand.
pub type Row = (usize, &'static str, &'static str, &'static str, &'static str);

#[rustfmt::skip]
pub const ROWS: [Row; 68] = [
    // Nothing, and a bench with a fresh one.
    (1, "", "", "", ""),
    (64, "", "", "", ""),
    (3, "0 EN 1 at 5, 2 marks 4", "", "0 EN 1 at 5, 2 marks 4", ""),
    (3, "", "0 EN 1 at 5, 2 marks 4", "0 EN 1 at 5, 2 marks 4", ""),
    // The document's logs, the first core's records on one bench and the other's on the other.
    (8, "log 0:1E 2E -2E -1E", "log 1:2E 1E", "1 EN 2 at 2, 2 EN 1 at 2, 1 marks 68, 2 marks 68", "1 EN hold 2, 2 EN hold 2"),
    (8, "log 1:2E 1E", "log 0:1E 2E -2E -1E", "1 EN 2 at 2, 2 EN 1 at 2, 1 marks 68, 2 marks 68", "1 EN hold 2, 2 EN hold 2"),
    (8, "log 0:0R 1E", "log 1:1R 0E", "0 SN 1 at 2, 1 SN 0 at 2, 0 marks 204, 1 marks 204", "0 SN hold 2, 1 SN hold 2"),
    (8, "log 0:0E 1R", "log 1:1R 0E", "0 ER 1 at 2, 1 SN 0 at 2, 0 marks 68, 1 marks 136", ""),
    (8, "log 0:0E 1R", "log 1:1E 0R", "0 ER 1 at 2, 1 ER 0 at 2, 0 marks 204, 1 marks 204", "0 ER hold 2, 1 ER hold 2"),
    (8, "log 0:0R", "log 0:0R", "0 marks 136", ""),
    (8, "log 0:0R 0R", "log 1:0R 0R", "0 SR 0 at 2, 0 marks 136", ""),
    (8, "log 0:0E 1R 2E", "log 1:2E 0E", "0 ER 1 at 2, 0 EN 2 at 3, 1 SN 2 at 3, 2 EN 0 at 2, 0 marks 68, 1 marks 136, 2 marks 68", "0 EN hold 3, 2 EN hold 2"),
    (8, "log 0:3E -3E", "log 0:H+ 3E", "3 marks 69", "3 EN hard"),
    (8, "log 0:H+ 3E", "log 0:3E -3E", "3 marks 69", "3 EN hard"),
    (8, "log 0:3R -3R", "log 0:H+ 3R", "3 marks 138", ""),
    (8, "log 0:H+ 4E -4E H-", "log 0:h- 4E 5E -5E -4E h+ 5E", "4 EN 5 at 3, 4 marks 1, 5 marks 68", "4 EN hold 3, 5 EN hard"),
    (8, "log 0:s- 6E -6E s+", "log 0:S+ 6E", "6 marks 20", ""),
    (8, "log 0:6E -6E", "log 0:S+ 6E", "6 marks 84", "6 EN soft"),
    // Locks held, tries, and refused records on either bench.
    (3, "log 0:0E t1E 2E", "log 0:? 1E -2E 2E", "0 EN 2 at 3, 1 EN 2 at 3, 0 marks 68, 1 marks 68, 2 marks 68", ""),
    (3, "log 0:t0E t1E", "log 3:S+ t2R h- 1R", "2 SR 1 at 4, 0 marks 68, 1 marks 100, 2 marks 8", "1 ER soft"),
    // Numbers: the first bench's, whichever is less; the second's where the first has none.
    (2, "0 EN 1 at 5", "0 EN 1 at 9", "0 EN 1 at 5", ""),
    (2, "0 EN 1 at 9", "0 EN 1 at 5", "0 EN 1 at 9", ""),
    (2, "0 EN 1 at 9", "1 SR 0 at 5", "0 EN 1 at 9, 1 SR 0 at 5", "0 EN hold 9, 1 SR hold 5"),
    (2, "0 ER 1 at 9", "1 SR 0 at 5", "0 ER 1 at 9, 1 SR 0 at 5", ""),
    (3, "0 EN 1 at 1, 1 EN 2 at 2", "0 EN 1 at 3, 0 EN 2 at 4", "0 EN 1 at 1, 1 EN 2 at 2, 0 EN 2 at 4", ""),
    (2, "0 EN 1 at 4294967295", "0 EN 1 at 1", "0 EN 1 at 4294967295", ""),
    (2, "0 EN 1 at 1", "0 EN 1 at 4294967295", "0 EN 1 at 1", ""),
    // A number with a low byte of 0 is one.
    (2, "0 EN 1 at 256", "0 EN 1 at 7", "0 EN 1 at 256", ""),
    (2, "0 EN 1 at 65536", "0 EN 1 at 7", "0 EN 1 at 65536", ""),
    (2, "0 EN 1 at 16777216", "0 EN 1 at 16909060", "0 EN 1 at 16777216", ""),
    (2, "0 EN 1 at 16909060", "0 EN 1 at 67305985", "0 EN 1 at 16909060", ""),
    (2, "0 EN 1 at 2147483648", "0 EN 1 at 1", "0 EN 1 at 2147483648", ""),
    // The kind shown is the second's, the number the first's.
    (2, "0 ER 1 at 5", "0 EN 1 at 9, 1 SN 0 at 4", "0 ER 1 at 5, 0 EN 1 at 5, 1 SN 0 at 4", "0 EN hold 5, 1 SN hold 4"),
    (2, "0 ER 1 at 9", "0 EN 1 at 5, 1 SN 0 at 4", "0 ER 1 at 9, 0 EN 1 at 9, 1 SN 0 at 4", "0 EN hold 9, 1 SN hold 4"),
    (1, "0 SR 0 at 70000", "0 SN 0 at 2", "0 SR 0 at 70000, 0 SN 0 at 70000", "0 SN hold 70000"),
    // The kind shown is the first's, and the second has another number.
    (2, "0 EN 1 at 5", "0 ER 1 at 9, 1 SN 0 at 4", "0 ER 1 at 5, 0 EN 1 at 5, 1 SN 0 at 4", "0 EN hold 5, 1 SN hold 4"),
    // The same on both benches.
    (2, "0 EN 1 at 3", "0 EN 1 at 3", "0 EN 1 at 3", ""),
    (3, "0 EN 1, 2 marks 68", "0 EN 1, 2 marks 68", "0 EN 1, 2 marks 68", ""),
    (3, "0 ER 1, 0 SN 1", "0 ER 1, 0 SR 1", "0 ER 1, 0 SN 1, 0 SR 1", ""),
    // An open bench with a cycle of its own, the first, the second, and both.
    (2, "0 EN 1, 1 EN 0", "", "0 EN 1, 1 EN 0", "0 EN hold, 1 EN hold"),
    (2, "", "0 EN 1, 1 EN 0", "0 EN 1, 1 EN 0", "0 EN hold, 1 EN hold"),
    (2, "0 EN 1, 1 EN 0", "0 EN 1, 1 EN 0", "0 EN 1, 1 EN 0", "0 EN hold, 1 EN hold"),
    (3, "2 marks 5", "0 EN 1", "0 EN 1, 2 marks 5", "2 EN hard"),
    (3, "0 EN 1", "2 marks 5", "0 EN 1, 2 marks 5", "2 EN hard"),
    (1, "0 EN 0", "0 SR 0 at 4", "0 EN 0, 0 SR 0", "0 EN hold"),
    // The joined cycle is shorter, or less, than the one a bench has.
    (3, "0 EN 1, 1 EN 2, 2 EN 0", "1 EN 0 at 6", "0 EN 1, 1 EN 2, 2 EN 0, 1 EN 0 at 6", "0 EN hold, 1 EN hold 6"),
    (3, "1 EN 2, 2 EN 1", "0 SN 1, 1 SN 0", "1 EN 2, 2 EN 1, 0 SN 1, 1 SN 0", "0 SN hold, 1 SN hold"),
    (3, "0 SN 1, 1 SN 0", "0 ER 2, 2 EN 0", "0 SN 1, 1 SN 0, 0 ER 2, 2 EN 0", "0 ER hold, 2 EN hold"),
    (3, "0 EN 1, 1 EN 0, 2 marks 4", "2 marks 1", "0 EN 1, 1 EN 0, 2 marks 5", "2 EN hard"),
    // Over interrupts: unsafe on one bench, safe on the other.
    (2, "0 marks 4, 1 EN 0 at 3", "1 marks 1", "0 marks 4, 1 marks 1, 1 EN 0 at 3", "0 EN hard, 1 EN hold 3"),
    (2, "1 marks 1", "0 marks 4, 1 EN 0 at 3", "0 marks 4, 1 marks 1, 1 EN 0 at 3", "0 EN hard, 1 EN hold 3"),
    (2, "0 marks 68, 1 EN 0 at 3", "1 marks 32", "0 marks 68, 1 marks 32, 1 EN 0 at 3", "0 ER soft, 1 EN hold 3"),
    (2, "0 marks 4, 1 EN 0 at 3", "1 marks 16", "0 marks 4, 1 marks 16, 1 EN 0 at 3", ""),
    (2, "0 marks 8", "1 marks 2, 1 SN 0 at 3", "0 marks 8, 1 marks 2, 1 SN 0 at 3", ""),
    // An interrupt has no number, though its pair has one.
    (2, "0 marks 4, 0 EN 1 at 77", "1 marks 2, 1 EN 0 at 3", "0 marks 4, 1 marks 2, 0 EN 1 at 77, 1 EN 0 at 3", "0 ER hard 0, 1 EN hold 3"),
    // Marks of one class: in both, in one of them, from both.
    (1, "0 marks 255", "", "0 marks 255", "0 ER hard"),
    (1, "0 marks 10", "0 marks 8", "0 marks 10", ""),
    (1, "0 marks 8", "0 marks 9", "0 marks 9", "0 SN hard"),
    (1, "0 marks 136", "0 marks 16", "0 marks 152", "0 SN soft"),
    (1, "0 marks 136", "0 marks 17", "0 marks 153", "0 SN hard"),
    (1, "0 marks 136", "0 marks 32", "0 marks 168", ""),
    // Classes 7 and 8, 15 and 16, 63.
    (17, "7 marks 4, 8 marks 8, 15 marks 68, 16 marks 136", "0 marks 68", "0 marks 68, 7 marks 4, 8 marks 8, 15 marks 68, 16 marks 136", ""),
    (17, "0 marks 68", "7 marks 4, 8 marks 8, 15 marks 68, 16 marks 136", "0 marks 68, 7 marks 4, 8 marks 8, 15 marks 68, 16 marks 136", ""),
    (64, "63 marks 4, 63 SR 63 at 8", "63 marks 2, 62 EN 63 at 3", "63 marks 6, 63 SR 63 at 8, 62 EN 63 at 3", "63 ER hard"),
    (64, "63 EN 0 at 258", "0 SN 63 at 772", "63 EN 0 at 258, 0 SN 63 at 772", "0 SN hold 772, 63 EN hold 258"),
    (64, "8 ER 9 at 4", "9 EN 8 at 5", "8 ER 9 at 4, 9 EN 8 at 5", "8 ER hold 4, 9 EN hold 5"),
    (9, "8 EN 8 at 1", "8 SR 8 at 2", "8 EN 8 at 1, 8 SR 8 at 1", "8 EN hold 1"),
    (8, "7 SN 7 at 3", "7 SN 7 at 3, 7 SR 7 at 3", "7 SN 7 at 3, 7 SR 7 at 3", "7 SN hold 3"),
];

fn by_hand(rng: &mut Rng, each: &mut dyn FnMut(Case) -> bool) -> bool {
    ROWS.iter().all(|&(k, first, second, drawing, slip)| {
        let sides = [first, second].map(|text| Side::Given(by_text(k, text)));
        let meant = meant(k, &by_text(k, drawing), slip);
        each(Case { meant: Some(meant), ..case(lent(rng, k), vec![Call::Join(Box::new(sides))]) })
    })
}

/// K, the two benches, the records after the join with their answers (the join's own first), the count and the numbers then as
/// from>to=number, and the slip. Worked out by hand. The words "join" and "ask" among the records are a join of the desk with a fresh
/// bench and a question.
pub type After = (usize, &'static str, &'static str, &'static str, &'static [u8], u32, &'static str, &'static str);

#[rustfmt::skip]
pub const AFTER: [After; 22] = [
    // No number is above a count of 0 in vain: the first step and the first question are not refused.
    (3, "0 EN 1 at 900", "", "ask 0:h-", &[0, 0, 0], 1, "0>1=900", ""),
    (3, "0 EN 1 at 900", "1 EN 2 at 4000000000", "0:h- ask", &[0, 0, 0], 1, "0>1=900 1>2=4000000000", ""),
    (1, "0 SR 0 at 1", "", "0:h- ask", &[0, 0, 0], 1, "0>0=1", ""),
    (1, "0 SR 0 at 4294967295", "", "0:h- 0R", &[0, 0, 0], 2, "0>0=4294967295", ""),
    // New pairs get numbers from 1 on, and the old ones stay, also where they get another kind.
    (3, "0 EN 1 at 900", "", "0:0E 2E", &[0, 0, 0], 2, "0>1=900 0>2=2", ""),
    (3, "0 EN 1 at 900", "", "0:0E 1R 2E", &[0, 0, 0, 0], 3, "0>1=900 0>2=3 1>2=3", ""),
    (3, "", "0 EN 1 at 900", "0:0E 1R 2E", &[0, 0, 0, 0], 3, "0>1=900 0>2=3 1>2=3", ""),
    (3, "0 EN 1 at 1", "0 EN 1 at 2", "0:0E 1E -1E -0E 1:0E 1E", &[0, 0, 0, 0, 0, 0, 0], 6, "0>1=1", ""),
    // A fault by a record: with what the benches brought.
    (2, "0 EN 1 at 900", "", "1:1E 0E", &[0, 0, 1], 2, "0>1=900 1>0=2", "0 EN hold 900, 1 EN hold 2"),
    (2, "", "1 SN 0 at 900", "1:0E 1R -1R 1E", &[0, 0, 0, 0, 1], 4, "0>1=2 1>0=900", "0 EN hold 2, 1 SN hold 900"),
    (4, "3 marks 1", "", "5:3E", &[0, 1], 1, "", "3 EN hard"),
    (4, "", "3 marks 68", "5:S+ 3R", &[0, 0, 1], 2, "", "3 ER soft"),
    (3, "0 marks 4, 2 EN 0 at 77", "1 marks 1", "2:h- 1E 2E", &[0, 0, 0, 1], 3, "2>0=77 1>2=3", "0 EN hard, 1 EN hold 3, 2 EN hold 77"),
    // The cores are fresh, whatever the benches held: each record is judged from state 0 with no lock held.
    (3, "log 0:h- 1E 2E", "log 0:S+ 0R", "0:-1E -2E H- S- h+ 1E -1E", &[0, 5, 5, 6, 6, 0, 0, 0], 3, "1>2=3", ""),
    (3, "log 0:H+ 1E", "log 7:H+ 2R", "0:H+ H- 7:H- 7:-2R", &[0, 0, 0, 6, 5], 2, "", ""),
    // After a fault of the join records get 10, and the desk may be asked. (Malformed ones are left to demand 3's pairs.)
    (2, "0 EN 1 at 5", "1 EN 0 at 6", "0:h- 1E ask -0E", &[1, 10, 10, 0, 10], 0, "0>1=5 1>0=6", "0 EN hold 5, 1 EN hold 6"),
    // Joined again: the count is 0 again, and the numbers stay; a closed one is refused.
    (3, "0 EN 1 at 900", "", "0:0E 2E join 0:0E 2E 1E", &[0, 0, 0, 0, 0, 0, 0], 3, "0>1=900 0>2=2 2>1=3", ""),
    (3, "0 EN 1 at 900", "", "0:0E 2E join join ask", &[0, 0, 0, 0, 0, 0], 0, "0>1=900 0>2=2", ""),
    (2, "0 EN 1 at 5", "1 EN 0 at 6", "join 0:h-", &[1, 13, 10], 0, "0>1=5 1>0=6", "0 EN hold 5, 1 EN hold 6"),
    (2, "0 EN 1 at 5", "", "1:1E 0E join", &[0, 0, 1, 13], 2, "0>1=5 1>0=2", "0 EN hold 5, 1 EN hold 2"),
    // Locks held on the joined desk stay behind at the next join.
    (3, "", "", "0:0E 1E h- join 0:-1E -0E 2E", &[0, 0, 0, 0, 0, 5, 5, 0], 1, "0>1=2", ""),
    (64, "63 SR 63 at 65536", "", "0:63R 63R -63R 62E join ask 3:63R 0E", &[0, 0, 0, 0, 0, 0, 0, 0, 0], 2, "63>63=65536 63>62=4 63>0=2", ""),
];

fn steps_after(rng: &mut Rng, each: &mut dyn FnMut(Case) -> bool) -> bool {
    AFTER.iter().all(|&(k, first, second, log, answers, count, numbers, slip)| {
        let mut calls = vec![Call::join(Side::Given(by_text(k, first)), Side::Given(by_text(k, second)))];
        let mut core = String::from("0:");
        for word in log.split_whitespace() {
            calls.push(match word {
                "join" => Call::join(Side::Own, Side::Given(fresh(k))),
                "ask" => Call::Ask(0),
                _ => {
                    if let Some((named, _)) = word.split_once(':') {
                        core = format!("{named}:");
                    }
                    let word = word.split(':').next_back().unwrap_or("");
                    Call::Step(read(&format!("{core}{word}"))[0])
                }
            });
        }
        let mut pairs = vec![0; k * k];
        for pair in numbers.split_whitespace() {
            let (classes, number) = pair.split_once('=').unwrap();
            let (from, to) = classes.split_once('>').unwrap();
            pairs[from.parse::<usize>().unwrap() * k + to.parse::<usize>().unwrap()] = number.parse().unwrap();
        }
        let slip = if slip.is_empty() { vec![99] } else { ties::slip(k, slip) };
        let meant = Meant { answers: answers.to_vec(), slip, numbers: Some((count, pairs)), ..Meant::default() };
        each(Case { meant: Some(meant), ..case(lent(rng, k), calls) })
    })
}

/// A join that is to be answered so; nothing is changed where it is refused.
fn answered(rng: &mut Rng, buffers: Buffers, [one, two]: [Buffers; 2], answer: u8) -> Case {
    let mut calls = vec![Call::join(Side::Given(one), Side::Given(two))];
    let mut answers = vec![answer];
    if answer > 1 && buffers.desk.len() >= DESK && rng.mille(100) {
        // Once more: it remembers nothing.
        calls.push(calls[0].clone());
        answers.push(answer);
    }
    let slip = if answer == 1 { Vec::new() } else { buffers.slip.clone() };
    case(buffers, calls).meaning(Meant { answers, slip, ..Meant::default() })
}

impl Case {
    fn meaning(self, meant: Meant) -> Case {
        Case { meant: Some(meant), ..self }
    }
}

/// Every set of reasons: the first unfit, the second unfit, each buffer too short for the larger K, different K, the first closed, the
/// second closed; with a drawing that would fault and with one that would not.
fn each_refusal(rng: &mut Rng, each: &mut dyn FnMut(Case) -> bool) -> bool {
    let classes = [(3, 3), (2, 3), (3, 2), (1, 1), (1, 64), (64, 63), (64, 64)];
    let mut all = classes.into_iter().flat_map(|ks| (0..1 << 8).map(move |reasons: u32| (ks, reasons)));
    all.all(|((k1, k2), reasons)| {
        // Two buffers too short at once show no more than one does.
        if (reasons >> 4).count_ones() > 1 {
            return true;
        }
        let has = |reason: u32| reasons >> reason & 1 == 1;
        let mut benches = [k1, k2].map(|k| {
            let mut s = Sketch::new(k);
            s.draw(0, 0, if rng.mille(500) { SR } else { SN });
            s.buffers()
        });
        let faults = benches.iter().any(|b| b.sheet[0] == SN);
        for side in 0..2 {
            if has(side) {
                // Any clause but the slip's, which a bench has not.
                while fits(benches[side as usize].lent()) {
                    violate(rng, rng.clone().under(reference::CLAUSES.len()), &mut benches[side as usize]);
                    rng.next();
                }
            }
            if has(2 + side) && benches[side as usize].desk.len() > 1 && benches[side as usize].desk[1] < 2 {
                benches[side as usize].desk[1] = 1;
            }
        }
        let mut buffers = lent(rng, k1.max(k2));
        for at in (0..4).filter(|&at| has(4 + at)) {
            let (size, small) = (sizes(k1.max(k2))[at as usize], sizes(k1.min(k2))[at as usize]);
            let Buffers { desk, sheet, seen, slip, .. } = &mut buffers;
            [desk, sheet, seen, slip][at as usize].truncate(small.min(size - 1));
        }
        let answer = match () {
            _ if reasons & 0xF3 != 0 => 11,
            _ if k1 != k2 => 12,
            _ if reasons & 0xC != 0 => 13,
            _ => u8::from(faults),
        };
        each(answered(rng, buffers, benches, answer))
    })
}

/// Each buffer of a join, lent and to be written, in several sizes, the others just long enough.
fn each_size(rng: &mut Rng, each: &mut dyn FnMut(Case) -> bool) -> bool {
    let classes = [(1, 1), (2, 2), (8, 8), (64, 64), (2, 3), (3, 2), (7, 8), (64, 1)];
    let mut all = classes.into_iter().flat_map(|ks| (0..10).flat_map(move |buffer| (0..8).map(move |size| (ks, buffer, size))));
    all.all(|((k1, k2), buffer, which)| {
        let mut s = [Sketch::new(k1), Sketch::new(k2)];
        // With a fault every other time.
        s[which % 2].draw(k1.min(k2) - 1, k1.min(k2) - 1, if which < 4 { SN } else { SR });
        let mut benches = s.map(|s| s.buffers());
        let larger = k1.max(k2);
        let mut lent = Buffers::any(rng, sizes(larger));
        lent.slip.fill(99);
        let (k, part) = match buffer {
            0..3 => (k1, buffer),
            3..6 => (k2, buffer - 3),
            _ => (larger, buffer - 6),
        };
        let (size, small, [_, pairs, _, entries]) = (sizes(k)[part], sizes(k1.min(k2))[part], sizes(larger));
        let old = [642, pairs, pairs, 1 + 3 * ((entries - 1) / 7)][part];
        let length = [size, size + 1, size + 64, size - 1, size - 1, 0, small, old.min(size)][which];
        let [one, two] = &mut benches;
        let target = match buffer {
            0..3 => one,
            3..6 => two,
            _ => &mut lent,
        };
        [&mut target.desk, &mut target.sheet, &mut target.seen, &mut target.slip][part].resize(length, 99);
        let answer = match () {
            _ if length < size => 11,
            _ if k1 != k2 => 12,
            _ => u8::from(which < 4),
        };
        each(answered(rng, lent, benches, answer))
    })
}

/// Each clause on each bench, closed and open, with the same K and with another.
fn each_clause(rng: &mut Rng, each: &mut dyn FnMut(Case) -> bool) -> bool {
    let mut all = (0..CLAUSES.len()).filter(|&clause| of_bench(clause)).flat_map(|clause| (0..24).map(move |turn| (clause, turn)));
    all.all(|(clause, turn)| {
        let many = CLAUSES[clause] == "more than 16 in progress";
        let k = if many { [17, 18, 20, 33, 48, 63] } else { [1, 2, 3, 8, 33, 63] }[turn % 6];
        let other = if turn < 18 { k } else { k + 1 };
        let mut bad = if turn % 3 == 0 { Buffers::opened(k) } else { fit_desk(rng, k) };
        while fits(bad.lent()) {
            violate(rng, clause, &mut bad);
        }
        let mut good = fit_desk(rng, other);
        good.desk[1] = u8::from(turn % 5 == 0);
        let benches = if turn % 2 == 0 { [bad, good] } else { [good, bad] };
        let buffers = lent(rng, k.max(other));
        each(answered(rng, buffers, benches, 11))
    })
}

/// Two numbers of one pair, or one, or none, at the first pair, in the middle and at the last.
fn each_number(rng: &mut Rng, each: &mut dyn FnMut(Case) -> bool) -> bool {
    const NUMBERS: [u32; 11] = [0, 1, 2, 255, 256, 65_536, 0x00FF_0000, 16_777_216, 0x0102_0304, 0x8000_0000, FULL];
    let both = || NUMBERS.into_iter().flat_map(|one| NUMBERS.map(|two| (one, two)));
    let places = [(1, 0), (2, 1), (3, 8), (8, 37), (64, 4095)];
    places.into_iter().flat_map(|place| both().map(move |numbers| (place, numbers))).all(|((k, pair), (one, two))| {
        let draw = |number: u32, kind: u8| {
            let mut s = Sketch::new(k);
            if number > 0 {
                s.draw_at(pair / k, pair % k, kind, number);
            }
            s.buffers()
        };
        // Nothing may follow SR but by E.
        let benches = [draw(one, SR), draw(two, SR)];
        let drawing = draw(if one > 0 { one } else { two }, SR);
        let meant = meant(k, &drawing, "");
        let [one, two] = benches.map(Side::Given);
        each(case(lent(rng, k), vec![Call::join(one, two)]).meaning(meant))
    })
}

/// All kinds of a pair on one bench with all on the other, which has the way back by SN.
fn all_kinds(rng: &mut Rng, each: &mut dyn FnMut(Case) -> bool) -> bool {
    (0..16u8).flat_map(|one| (0..16u8).map(move |two| (one, two))).all(|(one, two)| {
        let draw = |kinds: u8, number: u32, back: bool| {
            let mut s = Sketch::new(2);
            if kinds > 0 {
                s.draw_at(0, 1, kinds, number);
            }
            if back {
                s.draw_at(1, 0, SN, 300);
            }
            s.buffers()
        };
        let number = if one > 0 { 500 } else { 400 };
        // An arrival by R may not go on by S.
        let slip = match one | two {
            kinds if kinds & EN != 0 => format!("0 EN hold {number}, 1 SN hold 300"),
            kinds if kinds & SN != 0 => format!("0 SN hold {number}, 1 SN hold 300"),
            _ => String::new(),
        };
        let sides = [draw(one, 500, false), draw(two, 400, true)].map(Side::Given);
        let meant = meant(2, &draw(one | two, number, true), &slip);
        each(case(lent(rng, 2), vec![Call::Join(Box::new(sides))]).meaning(meant))
    })
}

/// Marks of a class on both benches: each with some, at the first class, in the middle and at the last.
fn some_marks(rng: &mut Rng, each: &mut dyn FnMut(Case) -> bool) -> bool {
    let fit = |m: &u8| m >> 4 & 12 & !m == 0;
    let some = [0, 1, 2, 4, 8, 16, 32, 68, 136, 5, 51, 204, 255];
    let mut all = (0..=255u8).filter(fit).flat_map(|one| some.map(|two| (one, two)));
    all.all(|(one, two)| {
        let (k, class) = [(1, 0), (3, 1), (9, 8), (16, 9), (33, 32), (64, 63), (2, 1), (17, 16)][usize::from(one / 3 + two) % 8];
        let draw = |marks: u8| {
            let mut s = Sketch::new(k);
            s.marks[class] = marks;
            s.buffers()
        };
        let least = clashes::by_level(one | two).into_iter().flatten().min();
        let kind = |kind: u8| ["ER", "EN", "SR", "SN"][kind.trailing_zeros() as usize];
        let slip = least.map_or(String::new(), |(k, source)| format!("{class} {} {}", kind(k), ["hold", "hard", "soft"][usize::from(source)]));
        let sides = if rng.mille(500) { [draw(one), draw(two)] } else { [draw(two), draw(one)] };
        let meant = meant(k, &draw(one | two), &slip);
        each(case(lent(rng, k), vec![Call::Join(Box::new(sides.map(Side::Given)))]).meaning(meant))
    })
}

/// A ring of each length, its dependencies in turn on the two benches, all but one on one of them, or by an interrupt; and the same
/// without one dependency, which is no cycle.
fn rings(rng: &mut Rng, each: &mut dyn FnMut(Case) -> bool) -> bool {
    let mut all = (1..=64usize).flat_map(|n| (0..6).map(move |turn| (n, turn)));
    all.all(|(n, turn)| {
        let k = [n, 64, n][turn % 3];
        let mut s = [Sketch::new(k), Sketch::new(k), Sketch::new(k)];
        let mut slip = Vec::new();
        let missing = (turn == 5).then(|| rng.under(n));
        for at in (0..n).filter(|&at| Some(at) != missing) {
            let side = match turn {
                0 | 3 => at % 2,
                1 => usize::from(at + 1 == n),
                2 => usize::from(at > 0),
                _ => rng.under(2),
            };
            let to = (at + 1) % n;
            if turn == 3 && at + 1 == n {
                // Unsafe on one bench and safe on the other.
                let (source, is_unsafe, safe) = if n % 2 == 0 { ("hard", 4, 1) } else { ("soft", 68, 16) };
                for (bench, class, marks) in [(1 - side, at, is_unsafe), (side, to, safe), (2, at, is_unsafe), (2, to, safe)] {
                    s[bench].marks[class] |= marks;
                }
                slip.push(format!("{at} EN {source}"));
                continue;
            }
            let (kind, name) = if turn % 2 == 0 { (EN, "EN") } else { (SN, "SN") };
            let number = rng.next() as u32 | 1;
            s[side].draw_at(at, to, kind, number);
            s[2].draw_at(at, to, kind, number);
            if rng.mille(200) {
                // The other bench has it too: by another number on the second, or the first's counts.
                let other = rng.next() as u32 | 1;
                let joined = if side == 0 { number } else { other };
                s[1 - side].draw_at(at, to, kind, other);
                s[2].draw_at(at, to, kind, joined);
                slip.push(format!("{at} {name} hold {joined}"));
            } else {
                slip.push(format!("{at} {name} hold {number}"));
            }
        }
        let slip = if missing.is_some() { String::new() } else { slip.join(", ") };
        let [one, two, drawing] = s.map(|s| s.buffers());
        let meant = meant(k, &drawing, &slip);
        each(case(lent(rng, k), vec![Call::join(Side::Given(one), Side::Given(two))]).meaning(meant))
    })
}

/// Each state of each core, a lock in each frame, tries and the count, on one bench or on both: the joined desk has none of them.
fn each_core(rng: &mut Rng, each: &mut dyn FnMut(Case) -> bool) -> bool {
    let mut all = (0..3).flat_map(|which| (0..8 * 9 + FRAMES + 4).map(move |what| (which, what)));
    all.all(|(which, what)| {
        let change = |b: &mut Buffers| {
            let desk = &mut b.desk;
            match what {
                0..72 => desk[STATES + what / 9] = (what % 9) as u8,
                72..76 => desk[COUNT + what - 72] = 1 + (what * 37 % 255) as u8,
                _ => {
                    let frame = what - 76;
                    desk[STATES + frame / 3] = 8;
                    (0..1 + what % DEEPEST).for_each(|place| push(desk, frame, (1 + 64 * (place % 3)) as u8, (place + what) % 2 == 0));
                }
            }
        };
        let mut benches = [fresh(3), fresh(3)];
        for (side, bench) in benches.iter_mut().enumerate() {
            if which == side || which == 2 {
                change(bench);
            }
        }
        let fault = rng.mille(300);
        let mut drawing = Sketch::new(3);
        if fault {
            drawing.draw_at(2, 2, EN, 40_000);
            let Buffers { sheet, seen, .. } = drawing.buffers();
            (benches[what % 2].sheet, benches[what % 2].seen) = (sheet, seen);
        }
        let mut meant = meant(3, &drawing.buffers(), if fault { "2 EN hold 40000" } else { "" });
        let mut calls = vec![Call::Join(Box::new(benches.map(Side::Given)))];
        // Nothing is held: a release finds nothing, and from a task no handler is left.
        if !fault {
            let core = (what % 8) as u8;
            calls.extend([Rec::new(core, 1, 1, 0), Rec::new(core, 9, 0, 0), Rec::new(core, 7, 0, 0)].map(Call::Step));
            meant.answers.extend([5, 6, 6]);
        }
        each(case(lent(rng, 3), calls).meaning(meant))
    })
}

/// Two words: joined where they are the same, whatever is in progress, kept and since when on either bench, and 12 else; 13 after it.
/// Then a crosslock is taken on the joined desk, beside a history full of anything.
fn of_crosslocks(rng: &mut Rng, each: &mut dyn FnMut(Case) -> bool) -> bool {
    let words = |k: usize| {
        let all = u64::MAX >> (64 - k);
        [0, 1, 1 << (k - 1), 1 << (k / 2), all, all & 0x5555_5555_5555_5555, all & !0xFF]
    };
    let both = |k: usize| words(k).into_iter().flat_map(move |one| words(k).map(|two| (one, two)));
    let mut all = [1, 2, 9, 64].into_iter().flat_map(|k| both(k).flat_map(move |words| (0..4).map(move |what| (k, words, what))));
    all.all(|(k, (one, two), what)| {
        let mut benches = [declaring(k, one), declaring(k, two)];
        for (side, bench) in benches.iter_mut().enumerate() {
            let desk = &mut bench.desk;
            let progress = crosslocks::classes(crosslocks::declared(desk)).into_iter().take(16).fold(0u64, |word, class| word | 1 << class);
            // In progress on the first, on the second, on both; kept, and since numbers.
            if what & 1 << side != 0 {
                desk[PROGRESS..KEPT_COUNT].copy_from_slice(&progress.to_le_bytes());
                desk[KEPT_COUNT..SINCE].copy_from_slice(&[[0, 1, 0, 0], [200, 0, 0, 0]][side]);
                desk[SINCE..DESK].copy_from_slice(&rng.bytes(DESK - SINCE));
            }
            desk[1] = u8::from(rng.mille(80));
        }
        let closed = benches.iter().any(|bench| bench.desk[1] == 1);
        let answer = if one != two { 12 } else if closed { 13 } else { 0 };
        let mut wanted = vec![0; DESK];
        wanted[0] = k as u8;
        wanted[DECLARED..PROGRESS].copy_from_slice(&one.to_le_bytes());
        let buffers = lent(rng, k);
        if answer > 1 {
            return each(answered(rng, buffers, benches, answer));
        }
        let mut calls = vec![Call::Join(Box::new(benches.map(Side::Given)))];
        let mut answers = vec![0];
        if let Some(&class) = crosslocks::classes(one).last() {
            // It is not in progress, then it is, since 0.
            calls.extend([11, 10, 10].map(|kind| Call::Step(Rec::new(5, kind, class, 0))));
            answers.extend([17, 0, 16]);
            wanted[PROGRESS + usize::from(class) / 8] = 1 << (class % 8);
            wanted[COUNT] = 1;
        }
        let meant = Meant { answers, slip: vec![99], desk: Some(wanted), ..Meant::default() };
        each(case(buffers, calls).meaning(meant))
    })
}

/// Numbers above the count on either bench: joined, and each bench stepped and asked alone.
fn above_count(rng: &mut Rng, each: &mut dyn FnMut(Case) -> bool) -> bool {
    const COUNTS: [u32; 6] = [0, 1, 255, 256, 0x7FFF_FFFF, FULL - 1];
    let mut all = COUNTS.into_iter().flat_map(|count| (0..6).flat_map(move |by| (0..2).map(move |side| (count, by, side))));
    all.all(|(count, by, side)| {
        let number = [count + 1, count.saturating_add(2), count | 0x8000_0000, FULL, (count >> 8).saturating_add(1) << 8, count.max(1)][by];
        let k = [1, 2, 8][by % 3];
        let mut s = Sketch::new(k);
        s.draw_at(k - 1, k - 1, SR, number.max(1));
        let drawing = s.buffers();
        let mut bench = drawing.clone();
        numbers::set_count(&mut bench.desk, count);
        let benches = if side == 0 { [bench.clone(), fresh(k)] } else { [fresh(k), bench.clone()] };
        let meant_join = meant(k, &drawing, "");
        let join = case(lent(rng, k), vec![Call::Join(Box::new(benches.map(Side::Given)))]).meaning(meant_join);
        let calls = vec![Call::Ask(0), Call::Step(Rec::new(3, 3, 0, 0))];
        let alone = case(bench, calls).meaning(Meant { answers: vec![0, 0], ..Meant::default() });
        each(join) && each(alone)
    })
}

/// Two lists from one join as one text, with + before each record that the second alone has; K; the benches; and the answers of the
/// second and of the first.
pub type Lists = (usize, &'static str, &'static str, &'static str, &'static [u8], &'static [u8]);

pub const LISTS: [Lists; 8] = [
    (8, "", "", "0:1E +1:1E 0:-1E", &[0, 0, 0], &[0, 0]),
    // A fault of both by what the benches brought.
    (8, "1 EN 2 at 9", "", "0:2E +1:3E 0:1E +1:4E 0:3E", &[0, 0, 1, 10, 10], &[0, 1, 10]),
    (8, "", "1 EN 2 at 9", "0:2E +1:3E 0:1E +1:4E 0:3E", &[0, 0, 1, 10, 10], &[0, 1, 10]),
    // Of the second alone, by what was put in and what the benches brought.
    (8, "1 EN 2 at 9", "2 EN 3 at 5", "0:4E +1:3E +1:1E 0:-4E", &[0, 0, 1, 10], &[0, 0]),
    (8, "3 marks 1", "", "0:h- 0:3E +1:3E 0:-3E", &[0, 0, 1, 10], &[0, 0, 0]),
    // By marks alone.
    (8, "", "3 marks 68", "0:S+ +1:2E 0:3R", &[0, 0, 1], &[0, 1]),
    // Without a fault, though the benches' locks would have made one.
    (8, "log 0:1E", "log 1:2E", "0:2E +1:1E 0:-2E +1:-1E", &[0, 0, 0, 0], &[0, 0]),
    // Refused ones, and the cores fresh.
    (8, "log 0:S+ 1R", "", "0:-1R +1:S- 0:S+ +1:? 0:S-", &[5, 6, 0, 3, 0], &[5, 0, 0]),
];

fn in_pairs(rng: &mut Rng, each: &mut dyn FnMut(Case) -> bool) -> bool {
    LISTS.iter().all(|&(k, first, second, text, answers, of_first)| {
        let in_first = text.split_whitespace().map(|word| !word.starts_with('+')).collect();
        let words: Vec<&str> = text.split_whitespace().map(|word| word.strip_prefix('+').unwrap_or(word)).collect();
        let calls = read(&words.join(" ")).into_iter().map(Call::Step).collect();
        let meant = Meant { answers: [answers, of_first].concat(), ..Meant::default() };
        let start = Some(Call::join(Side::Given(by_text(k, first)), Side::Given(by_text(k, second))));
        let pair = Some(Pair { k: k as u64, declared: [0; 2], in_first });
        each(Case { pair, start, ..case(lent(rng, k), calls).meaning(meant) })
    })
}

type Make = fn(&mut Rng, &mut dyn FnMut(Case) -> bool) -> bool;

/// The cases, until one is answered with false.
pub fn fixed(each: &mut dyn FnMut(Case) -> bool) {
    const ALL: [(&str, Make); 13] = [
        (BY_HAND, by_hand),
        (STEPS_AFTER, steps_after),
        (EACH_REFUSAL, each_refusal),
        (EACH_CLAUSE, each_clause),
        (EACH_SIZE, each_size),
        (ABOVE_COUNT, above_count),
        (EACH_CORE, each_core),
        (OF_CROSSLOCKS, of_crosslocks),
        (ALL_KINDS, all_kinds),
        (EACH_NUMBER, each_number),
        (SOME_MARKS, some_marks),
        (RINGS, rings),
        (IN_PAIRS, in_pairs),
    ];
    let rng = &mut Rng::new(20_260_105);
    ALL.iter().all(|(name, make)| make(rng, &mut |case| each(Case { name, ..case })));
}
