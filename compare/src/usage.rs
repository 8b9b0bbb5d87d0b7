//! Request k's second claim: with exclusive acquires only, a fault stands exactly where document 002's rules are broken: a circle of lock
//! dependencies, one class safe and unsafe at one level, or a path of one or more lock dependencies from a safe class to an unsafe one of
//! that level. The rules are worked out here from the bytes of desk and sheet, by a closure of their own; no judge and no strong path is
//! asked. Interrupts of both levels in one circle reduce to one, as what is soft-unsafe is hard-unsafe too.

use crate::crosslocks;
use crate::gen::{any_buffers, any_style, case, push, read, steps, Buffers, Kind};
use crate::judges::{unfit_bench, Lent, Subject};
use crate::numbers;
use crate::rng::Rng;
use crate::run::{Call, Case, Meant, Rec};
use crate::ties::{Sketch, EN};
use reference::{COUNT, MARKS, ORIGINS};

/// The parts of the claim, and what follows for the question.
pub const PARTS: [&str; 3] = [
    "a fault only where a rule of document 002 is broken",
    "a rule of document 002 broken only with a fault",
    "the question goes by locks and interrupts",
];

/// The marks of an exclusive drawing: by level (hard, soft) safe and unsafe.
const SAFE: [u8; 2] = [1, 16];
const UNSAFE: [u8; 2] = [4, 64];
const MARKED: u8 = 1 | 4 | 16 | 64;

/// An exclusive drawing.
struct Drawn {
    k: usize,
    /// By class: where its lock dependencies lead, and where one or more of them do.
    next: [u64; 64],
    reach: [u64; 64],
    /// By level.
    safe: [u64; 2],
    is_unsafe: [u64; 2],
}

fn members(word: u64) -> impl Iterator<Item = usize> {
    (0..64).filter(move |class| word >> class & 1 == 1)
}

/// Where one or more of these lead, one more each round.
fn closure(k: usize, next: &[u64; 64]) -> [u64; 64] {
    let mut reach = *next;
    loop {
        let mut grown = false;
        for class in 0..k {
            let further = members(reach[class]).fold(reach[class], |all, between| all | next[between]);
            grown |= further != reach[class];
            reach[class] = further;
        }
        if !grown {
            return reach;
        }
    }
}

impl Drawn {
    /// From the bytes; None if something else than exclusive locks has drawn there. Without what leads from and to these classes.
    fn without(desk: &[u8], sheet: &[u8], left_out: u64) -> Option<Drawn> {
        let k = usize::from(desk[0]);
        let marks = &desk[MARKS..MARKS + k];
        if sheet[..k * k].iter().any(|&kinds| kinds & !EN != 0) || marks.iter().any(|&marks| marks & !MARKED != 0) {
            return None;
        }
        let mut next = [0; 64];
        for (from, row) in sheet[..k * k].chunks_exact(k).enumerate() {
            let leads = (0..k).filter(|&to| row[to] == EN).fold(0, |all, to| all | 1u64 << to);
            next[from] = if left_out >> from & 1 == 1 { 0 } else { leads & !left_out };
        }
        let marked = |bit: u8| (0..k).filter(|&class| marks[class] & bit != 0).fold(0, |all, class| all | 1u64 << class);
        let (safe, is_unsafe) = (SAFE.map(marked), UNSAFE.map(marked));
        Some(Drawn { k, next, reach: closure(k, &next), safe, is_unsafe })
    }
    fn of(desk: &[u8], sheet: &[u8]) -> Option<Drawn> {
        Drawn::without(desk, sheet, 0)
    }
    fn circle(&self) -> bool {
        (0..self.k).any(|class| self.reach[class] >> class & 1 == 1)
    }
    fn one_class(&self, level: usize) -> bool {
        self.safe[level] & self.is_unsafe[level] != 0
    }
    fn path(&self, level: usize) -> bool {
        members(self.safe[level]).any(|class| self.reach[class] & self.is_unsafe[level] != 0)
    }
    fn broken(&self) -> bool {
        self.circle() || (0..2).any(|level| self.one_class(level) || self.path(level))
    }
    /// How many lock dependencies the shortest path has from one of these classes to one of those.
    fn fewest(&self, from: u64, to: u64) -> usize {
        let (mut there, mut number) = (from, 0);
        while number <= self.k {
            there = members(there).fold(0, |all, class| all | self.next[class]);
            number += 1;
            if there & to != 0 {
                return number;
            }
        }
        0
    }
    /// Where a class's dependencies lead, those of interrupts too.
    fn with_interrupts(&self) -> [u64; 64] {
        let mut next = self.next;
        for (level, &safe) in self.safe.iter().enumerate() {
            members(self.is_unsafe[level]).for_each(|class| next[class] |= safe);
        }
        closure(self.k, &next)
    }
}

// ---------------------------------------------------------------------- counted

/// What records of exclusive logs and drawings are counted for, and how many of each there are at least in 100,000 random cases.
pub const SIGHTS: [(&str, u64); 29] = [
    ("002: circle of one lock dependency alone", 33),
    ("002: circle of two alone", 7),
    ("002: circle of three or more alone", 9),
    ("002: one class safe and unsafe at hard alone", 23),
    ("002: one class safe and unsafe at soft alone", 14),
    ("002: path from safe to unsafe at hard alone", 44),
    ("002: path from safe to unsafe at soft alone", 36),
    ("002: shortest such path of 1 at hard", 19),
    ("002: shortest such path of 2 at hard", 9),
    ("002: shortest such path of 3 at hard", 6),
    ("002: shortest such path of 4 or more at hard", 8),
    ("002: shortest such path of 1 at soft", 14),
    ("002: shortest such path of 2 at soft", 7),
    ("002: shortest such path of 3 at soft", 7),
    ("002: shortest such path of 4 or more at soft", 8),
    ("002: circle over both levels that reduces to hard", 8),
    ("002: all three rules broken", 11),
    ("002: clean though soft-safe reaches hard-unsafe", 130),
    ("002: clean though unsafe reaches safe at hard", 46),
    ("002: clean though unsafe reaches safe at soft", 52),
    ("002: clean though one class is soft-safe and hard-unsafe", 450),
    ("002: clean though hard-safe reaches soft-safe", 8),
    ("002: clean with a path of four or more lock dependencies", 30),
    ("002: broken over a crosslock", 24),
    ("002: clean with a crosslock on a path", 13),
    ("002: broken with a try held", 140),
    ("002: broken in a class of 32 or more", 22),
    ("002: broken with K = 64", 17),
    ("002: broken with K = 2", 25),
];

/// Which of these an accepted record leaves.
pub fn met(desk: &[u8], sheet: &[u8]) -> [bool; SIGHTS.len()] {
    Drawn::of(desk, sheet).map_or([false; SIGHTS.len()], |drawn| of_drawn(&drawn, desk, sheet))
}

fn of_drawn(drawn: &Drawn, desk: &[u8], sheet: &[u8]) -> [bool; SIGHTS.len()] {
    let Drawn { k, safe, is_unsafe, .. } = *drawn;
    let (circle, one, path) = (drawn.circle(), [0, 1].map(|level| drawn.one_class(level)), [0, 1].map(|level| drawn.path(level)));
    let broken = drawn.broken();
    let reaches = |from: u64, to: u64| members(from).any(|class| drawn.reach[class] & to != 0);
    let ring = |class: usize| drawn.fewest(1 << class, 1 << class);
    let rings: Vec<usize> = if circle { (0..k).map(ring).filter(|&number| number > 0).collect() } else { Vec::new() };
    let circle_alone = circle && one == [false; 2] && path == [false; 2];
    let shortest = rings.iter().copied().min().unwrap_or(0);
    let one_alone = |level: usize| !circle && one[level] && !one[1 - level] && path == [false; 2];
    let path_alone = |level: usize| !circle && one == [false; 2] && path[level] && !path[1 - level];
    let by = |level: usize| if path_alone(level) { drawn.fewest(safe[level], is_unsafe[level]) } else { 0 };
    let number = [by(0), by(1)];
    // From a hard interrupt's class on to a soft-unsafe one, and from the soft interrupt's class back to one that is hard-unsafe alone.
    let hard_alone = is_unsafe[0] & !is_unsafe[1];
    let both_levels = path_alone(0) && reaches(safe[0], is_unsafe[1]) && (reaches(safe[1], hard_alone) || safe[1] & hard_alone != 0);
    let crosslocks = crosslocks::declared(desk);
    let other = || Drawn::without(desk, sheet, crosslocks);
    let on_path = members(crosslocks).any(|class| drawn.next[class] != 0 && (0..k).any(|from| drawn.next[from] >> class & 1 == 1));
    let high = u64::MAX << 32;
    let in_high = || {
        let low = Drawn::without(desk, sheet, high);
        low.is_some_and(|low| !Drawn { safe: low.safe.map(|safe| safe & !high), ..low }.broken())
    };
    let tried = desk[ORIGINS..COUNT].iter().any(|&byte| byte != 0);
    let longest = || members(u64::MAX >> (64 - k)).any(|class| members(drawn.reach[class]).any(|to| drawn.fewest(1 << class, 1 << to) > 3));
    [
        circle_alone && shortest == 1,
        circle_alone && shortest == 2,
        circle_alone && shortest > 2,
        one_alone(0),
        one_alone(1),
        path_alone(0),
        path_alone(1),
        number[0] == 1,
        number[0] == 2,
        number[0] == 3,
        number[0] > 3,
        number[1] == 1,
        number[1] == 2,
        number[1] == 3,
        number[1] > 3,
        both_levels,
        circle && one != [false; 2] && path != [false; 2],
        !broken && reaches(safe[1], is_unsafe[0]),
        !broken && reaches(is_unsafe[0], safe[0]),
        !broken && reaches(is_unsafe[1], safe[1]),
        !broken && safe[1] & is_unsafe[0] != 0,
        !broken && reaches(safe[0], safe[1]),
        !broken && k <= 16 && longest(),
        broken && crosslocks != 0 && other().is_some_and(|other| !other.broken()),
        !broken && on_path,
        broken && tried,
        broken && k > 32 && in_high(),
        broken && k == 64,
        broken && k == 2,
    ]
}

/// What is wrong with an accepted record's answer, by the rules; the part that is broken, and how.
pub fn held(desk: &[u8], sheet: &[u8], answer: u8, counts: Option<&mut [u64; SIGHTS.len()]>) -> Option<(&'static str, String)> {
    let Some(drawn) = Drawn::of(desk, sheet) else {
        return Some(("generator", "something is drawn that is not exclusive".into()));
    };
    let (broken, reach) = (drawn.broken(), drawn.with_interrupts());
    if broken != (0..drawn.k).any(|class| reach[class] >> class & 1 == 1) {
        return Some(("generator", "the rules are others than no closed path".into()));
    }
    if let Some(counts) = counts {
        counts.iter_mut().zip(of_drawn(&drawn, desk, sheet)).for_each(|(count, met)| *count += u64::from(met));
    }
    match (answer, broken) {
        (1, false) => Some((PARTS[0], "a fault, and none is broken".into())),
        (0, true) => {
            let rules = [
                ("a circle", drawn.circle()),
                ("one class", (0..2).any(|level| drawn.one_class(level))),
                ("a path", (0..2).any(|level| drawn.path(level))),
            ];
            let names: Vec<&str> = rules.iter().filter(|(_, broken)| *broken).map(|(name, _)| *name).collect();
            Some((PARTS[1], format!("no fault, and broken by {}", names.join(", "))))
        }
        _ => None,
    }
}

/// What is wrong with a question on an exclusive drawing: of some classes where there are many.
pub fn asked([desk, sheet, seen]: Lent, turn: u64, subject: &mut Subject) -> Option<String> {
    if unfit_bench([desk, sheet, seen]).is_some() {
        return None;
    }
    let drawn = Drawn::of(desk, sheet)?;
    let reach = drawn.with_interrupts();
    let classes = (0..drawn.k).filter(|class| drawn.k <= 4 || (class + turn as usize) % (drawn.k / 3) == 0);
    classes.into_iter().find_map(|class| {
        let (mut word, mut count) = (0, 0);
        let answer = subject.ask(desk, sheet, seen, class as u64, &mut word, &mut count);
        (answer != 0 || word != reach[class]).then(|| format!("answer {answer}, word {word:#x} from {class}, not {:#x}", reach[class]))
    })
}

// ----------------------------------------------------------------------- random

fn exclusive(c: Case) -> Case {
    Case { usage: true, ..c }
}

/// From opening by exclusive acquires and tries, with crosslocks in some.
fn log(rng: &mut Rng) -> Case {
    let k = rng.pick(&[2, 2, 3, 3, 4, 6, 8, 8, 12, 40, 64]);
    let mut style = any_style(rng, k);
    style.modes = rng.pick(&[[1, 0, 0, 0, 0, 0], [4, 0, 0, 1, 0, 0], [1, 0, 0, 1, 0, 0]]);
    style.weights = rng.pick(&[[4, 4, 2], [3, 3, 4], [5, 3, 1], [3, 2, 5], [4, 3, 4]]);
    (style.random, style.damaged) = (0, 0);
    style.asks = rng.pick(&[0, 20]);
    style.unordered = rng.pick(&[0, 50, 300, 1000, 1000]);
    style.avoid = rng.pick(&[0, 0, 500, 900, 1000]);
    let declared = crosslocks::some(rng, k, 400);
    let mut calls = vec![Call::Open(k as u64, declared)];
    let most = rng.pick(&[8, 16, 30, 60]);
    steps(rng, &style, &mut Buffers::declaring(k, declared), most, &mut calls);
    // A malformed record or one of another mode comes of no such style.
    exclusive(case(any_buffers(rng, k), calls))
}

/// The classes in some order.
fn shuffled(rng: &mut Rng, k: usize) -> Vec<usize> {
    let mut all: Vec<usize> = (0..k).collect();
    for i in (1..k).rev() {
        all.swap(i, rng.under(i + 1));
    }
    all
}

/// A drawing with a path, a ring, or both levels, whole or broken, and others beside it that mostly do no harm.
fn sketch(rng: &mut Rng) -> Sketch {
    let k = rng.pick(&[2, 3, 4, 5, 6, 8, 8, 12, 16, 40, 64]);
    let mut s = Sketch::new(k);
    let classes = shuffled(rng, k);
    let level = usize::from(rng.mille(600));
    let most = rng.pick(&[2, 3, 4, 4, 5, 5, 9, 64]).min(k);
    let n = if rng.mille(500) { most } else { rng.between(2, most) };
    let chain = |s: &mut Sketch, chain: &[usize]| chain.windows(2).for_each(|two| s.draw(two[0], two[1], EN));
    match rng.under(13) {
        // From safe to unsafe.
        0..5 => {
            chain(&mut s, &classes[..n]);
            s.mark(classes[0], SAFE[level]);
            s.mark(classes[n - 1], UNSAFE[level]);
        }
        // Of another level: soft-safe to what is hard-unsafe alone does no harm.
        5 => {
            chain(&mut s, &classes[..n]);
            s.mark(classes[0], SAFE[level]);
            s.mark(classes[n - 1], UNSAFE[1 - level]);
        }
        // The other way round.
        6 => {
            chain(&mut s, &classes[..n]);
            s.mark(classes[0], UNSAFE[level]);
            s.mark(classes[n - 1], SAFE[level]);
        }
        7 => {
            chain(&mut s, &classes[..n]);
            s.draw(classes[n - 1], classes[0], EN);
        }
        // Hard-safe .. soft-unsafe, and from there by a soft interrupt: soft-safe .. hard-unsafe.
        8 => {
            let half = n.div_ceil(2);
            chain(&mut s, &classes[..half]);
            chain(&mut s, &classes[half..n]);
            s.mark(classes[0], SAFE[0]);
            s.mark(classes[half - 1], UNSAFE[1]);
            s.mark(classes[half], SAFE[1]);
            s.mark(classes[n - 1], UNSAFE[0]);
        }
        9 => {
            chain(&mut s, &classes[..n]);
            let class = classes[rng.under(n)];
            let mixed = rng.mille(500);
            s.mark(class, SAFE[level] | UNSAFE[if mixed { 1 - level } else { level }]);
        }
        10 => s.draw(classes[0], classes[0], EN),
        // Unsafe ones below, safe ones above, and all the way up.
        _ => {
            chain(&mut s, &classes);
            for (at, &class) in classes.iter().enumerate() {
                if rng.mille(400) {
                    s.mark(class, if at < k / 2 { UNSAFE[rng.under(2)] } else { SAFE[rng.under(2)] });
                }
            }
        }
    }
    // A joint is missing.
    if rng.mille(250) {
        let at = rng.under(n - 1);
        s.sheet[classes[at] * k + classes[at + 1]] = 0;
    }
    // Further ones in the same order, and marks.
    for _ in 0..rng.pick(&[0, 0, 1, 2, k]) {
        let (a, b) = (rng.under(k), rng.under(k));
        // None that would make a long way short, mostly.
        if a < b && (a >= n || b >= n || rng.mille(100)) {
            s.draw(classes[a], classes[b], EN);
        }
    }
    for _ in 0..rng.pick(&[0, 0, 0, 1, 3]) {
        s.mark(rng.under(k), rng.pick(&[1, 4, 16, 64]));
    }
    if rng.mille(40) {
        s.draw(rng.under(k), rng.under(k), EN);
    }
    // All three rules at once.
    if rng.mille(40) {
        let (first, last) = (classes[0], classes[n - 1]);
        chain(&mut s, &[first, last, first]);
        s.mark(first, SAFE[level] | UNSAFE[level]);
        s.mark(last, UNSAFE[level]);
    }
    s
}

/// The drawing on a desk from elsewhere, and a record that draws nothing: hard on, by a core that holds nothing.
fn drawing(rng: &mut Rng) -> Case {
    let s = sketch(rng);
    let mut b = any_buffers(rng, s.k);
    s.fill(&mut b);
    // Another core may hold locks, exclusive ones and tries, as long as its own state marks nothing.
    let core = rng.under(8);
    for other in (0..8).filter(|&other| other != core) {
        for _ in 0..rng.pick(&[0, 0, 0, 2]) {
            push(&mut b.desk, 3 * other, rng.under(s.k) as u8, rng.clone().mille(500));
            rng.next();
        }
    }
    numbers::scatter(rng, &mut b);
    if rng.mille(300) {
        let word = crosslocks::some(rng, s.k, 1000);
        crosslocks::declare(rng, &mut b, word);
    }
    // So that no record is refused with 9.
    b.desk[COUNT + 3] &= 127;
    let mut calls = vec![Call::Step(Rec::new(core as u8, 2, 0, 0))];
    if rng.mille(300) {
        calls.push(Call::Ask(rng.under(s.k) as u64));
    }
    // And one that draws.
    if rng.mille(300) {
        calls.push(Call::Step(Rec::new(rng.under(8) as u8, 0, rng.under(s.k) as u8, 0)));
    }
    exclusive(case(b, calls))
}

pub const LOG: &str = "exclusive log";
pub const DRAWING: &str = "exclusive drawing";
pub const KINDS: [Kind; 2] = [Kind { name: LOG, weight: 40, make: log }, Kind { name: DRAWING, weight: 80, make: drawing }];

pub fn any(rng: &mut Rng) -> Case {
    let kind = rng.weighted(&KINDS.map(|kind| kind.weight));
    (KINDS[kind].make)(rng)
}

// ------------------------------------------------------------------------ fixed

pub const BY_HAND: &str = "exclusive logs by hand";
pub const ALL_OF_2: &str = "all exclusive drawings of K = 2";
pub const MARKS_OF_3: &str = "all exclusive marks of K = 3";
pub const EACH_LENGTH: &str = "exclusive paths of each length";

/// From opening: K, the crosslocks, the records, and the last answer; all before it are 0.
type Row = (usize, u64, &'static str, u8);

pub const ROWS: [Row; 26] = [
    // A circle.
    (8, 0, "0:1E 2E -2E -1E 1:2E 1E", 1),
    (8, 0, "0:1E 2E -2E -1E 1:2E t1E", 0),
    (8, 0, "0:t1E 1E", 1),
    (8, 0, "0:1E t1E", 0),
    (8, 0, "0:1E 2E -1E 3E -2E 1E", 1),
    // One class.
    (8, 0, "0:3E -3E H+ 3E", 1),
    (8, 0, "0:3E -3E H+ t3E", 0),
    (8, 0, "0:3E -3E S+ 3E", 1),
    (8, 0, "0:s- 3E -3E s+ S+ 3E", 0),
    (8, 0, "0:s- 3E -3E s+ H+ 3E", 1),
    (8, 0, "0:S+ 3E -3E H+ 3E", 1),
    (8, 0, "0:h- 3E -3E h+ H+ 3E", 0),
    (8, 0, "0:H+ 3E -3E H- h- 3E h+", 1),
    // A path of one, of two and of three.
    (8, 0, "0:h- 1E 2E -2E -1E h+ H+ 1E -1E H- 2E", 1),
    (8, 0, "0:h- 1E 2E -2E -1E h+ H+ 2E -2E H- 1E", 0),
    (8, 0, "0:h- 1E 2E -2E -1E 2E 3E -3E -2E h+ H+ 1E -1E H- 3E", 1),
    (8, 0, "0:h- 1E 2E -2E -1E 2E 3E -3E -2E 3E 4E -4E -3E h+ 4E -4E H+ 1E", 1),
    (8, 0, "0:s- h- 1E 2E -2E -1E h+ s+ S+ 1E -1E S- 2E", 1),
    (8, 0, "0:s- h- 1E 2E -2E -1E h+ 2E -2E s+ S+ 1E", 0),
    // Over a crosslock: a commit draws from it, a take to it.
    (8, 0b10, "0:h- 2E x1 1:h- 3E c1 2:h- 3E 2E", 1),
    (8, 0b10, "0:h- 2E x1 1:h- 3E c1 2:H+ 2E -2E H- 3E", 1),
    (8, 0b10, "0:h- 2E x1 1:h- 3E 2:H+ 2E -2E H- 3E", 0),
    // Levels: hard-safe to soft-unsafe, and soft-safe to hard-unsafe.
    (8, 0, "0:h- 1E 2E -2E -1E h+ 2E -2E H+ 1E", 1),
    (8, 0, "0:h- 1E 2E -2E -1E h+ s- 2E -2E s+ S+ 1E", 0),
    (1, 0, "0:0E -0E S+ 0E", 1),
    (1, 0, "0:0E -0E t0E 0E", 1),
];

fn by_hand(rng: &mut Rng, each: &mut dyn FnMut(Case) -> bool) -> bool {
    ROWS.iter().all(|&(k, declared, text, last)| {
        let mut calls = vec![Call::Open(k as u64, declared)];
        calls.extend(read(text).into_iter().map(Call::Step));
        let mut answers = vec![0; calls.len()];
        answers[calls.len() - 1] = last;
        let meant = Some(Meant { answers, ..Meant::default() });
        each(exclusive(Case { meant, ..case(any_buffers(rng, k), calls) }))
    })
}

/// One step over a drawing.
fn over(s: &Sketch) -> Case {
    exclusive(case(s.buffers(), vec![Call::Step(Rec::new(7, 2, 0, 0))]))
}

/// The marks that a class may have.
fn all_marks() -> Vec<u8> {
    (0..=MARKED).filter(|marks| marks & !MARKED == 0 && (marks & 64 == 0 || marks & 4 != 0)).collect()
}

fn all_of_2(_: &mut Rng, each: &mut dyn FnMut(Case) -> bool) -> bool {
    let marks = all_marks();
    (0..16u8).all(|sheet| {
        marks.iter().all(|&one| {
            marks.iter().all(|&two| {
                let mut s = Sketch::new(2);
                (0..4).for_each(|pair| s.sheet[pair] = (sheet >> pair & 1) * EN);
                (s.marks[0], s.marks[1]) = (one, two);
                each(over(&s))
            })
        })
    })
}

/// With the dependencies of three classes that go one way.
fn marks_of_3(_: &mut Rng, each: &mut dyn FnMut(Case) -> bool) -> bool {
    let marks = all_marks();
    let all = (0..8u8).flat_map(|sheet| (0..marks.len().pow(3)).map(move |which| (sheet, which)));
    all.into_iter().all(|(sheet, which)| {
        let mut s = Sketch::new(3);
        for (bit, (from, to)) in [(2, 0), (0, 1), (2, 1)].into_iter().enumerate() {
            s.draw(from, to, (sheet >> bit & 1) * EN);
        }
        (0..3).for_each(|class| s.marks[class] = marks[which / marks.len().pow(class as u32) % marks.len()]);
        each(over(&s))
    })
}

/// Paths of 1 to 63 and rings of 1 to 64 over as many classes, whole, with a joint missing, backward, and of two levels.
fn each_length(rng: &mut Rng, each: &mut dyn FnMut(Case) -> bool) -> bool {
    let all = (1..64).flat_map(|n| (0..10).map(move |sort| (n, sort)));
    all.into_iter().all(|(n, sort)| {
        let k = if sort % 2 == 0 { n + 1 } else { 64 };
        let classes = shuffled(rng, k);
        let mut s = Sketch::new(k);
        classes[..n + 1].windows(2).for_each(|two| s.draw(two[0], two[1], EN));
        let (first, last) = (classes[0], classes[n]);
        let level = usize::from(sort % 4 > 1);
        match sort {
            0..4 => [(first, SAFE[level]), (last, UNSAFE[level])].into_iter().for_each(|(class, mark)| s.mark(class, mark)),
            4 | 5 => [(first, UNSAFE[level]), (last, SAFE[level])].into_iter().for_each(|(class, mark)| s.mark(class, mark)),
            6 => [(first, SAFE[1]), (last, UNSAFE[0])].into_iter().for_each(|(class, mark)| s.mark(class, mark)),
            7 => s.draw(last, first, EN),
            _ => {
                [(first, SAFE[level]), (last, UNSAFE[level])].into_iter().for_each(|(class, mark)| s.mark(class, mark));
                let at = rng.under(n);
                s.sheet[classes[at] * k + classes[at + 1]] = 0;
            }
        }
        each(over(&s))
    })
}

type Make = fn(&mut Rng, &mut dyn FnMut(Case) -> bool) -> bool;

pub fn fixed(each: &mut dyn FnMut(Case) -> bool) {
    const ALL: [(&str, Make); 4] = [(BY_HAND, by_hand), (ALL_OF_2, all_of_2), (EACH_LENGTH, each_length), (MARKS_OF_3, marks_of_3)];
    let rng = &mut Rng::new(20_261_102);
    ALL.iter().all(|(name, make)| make(rng, &mut |case| each(Case { name, ..case })));
}
