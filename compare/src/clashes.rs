//! Clashes: usage marks of one class that make a cycle of one dependency by themselves. Cases with them, alone and beside
//! other cycles: on fit desks that no opening need lead to, and in logs from opening. What is to come of them is worked out
//! here from the documents; no judge is asked.

use crate::drawing::{FRAME, NEXT, X};
use crate::gen::{any_buffers, case, may_hold, push, Buffers, Kind};
use crate::numbers;
use crate::rng::Rng;
use crate::run::{Call, Case, Meant, Rec};
use crate::ties::{kinds, Sketch, EN, ER, SN, SR};
use reference::{DEEPEST, MARKS, STATES};
use std::ops::Range;

// ----------------------------------------------------------------------- marks

/// By the marks of one level (safe N 1, safe R 2, unsafe E 4, unsafe S 8): the least kind of a strong cycle of one
/// dependency that they make, 0 where they make none. SR does not follow itself.
const OF_LEVEL: [u8; 16] = [0, 0, 0, 0, 0, EN, ER, ER, 0, SN, 0, SN, 0, EN, ER, ER];

/// Kind and source of the least cycle of one dependency that a class's marks make at each level, hard and soft.
pub fn by_level(marks: u8) -> [Option<(u8, u8)>; 2] {
    [(OF_LEVEL[usize::from(marks & 15)], 1), (OF_LEVEL[usize::from(marks >> 4)], 2)].map(|c| Some(c).filter(|c| c.0 != 0))
}

pub fn clashes(marks: u8) -> bool {
    by_level(marks).iter().any(Option::is_some)
}

/// The classes of a desk whose marks clash.
pub fn on(desk: &[u8]) -> u64 {
    let marks = desk.get(MARKS..MARKS + 64).unwrap_or(&[]);
    marks.iter().enumerate().filter(|(_, &m)| clashes(m)).fold(0, |all, (class, _)| all | 1 << class)
}

/// A soft-unsafe mark has its hard-unsafe one.
fn fits(marks: u8) -> bool {
    marks >> 4 & 12 & !marks == 0
}

/// The 144 mark bytes of fit desks.
fn fit_marks() -> impl Iterator<Item = u8> {
    (0..=255).filter(|&marks| fits(marks))
}

/// Some of them: by each kind and level, at both levels with the soft one less and with both alike, all; and unsafe S with
/// safe R at each level and letters of two levels, which do not clash.
const SOME: [u8; 12] = [5, 6, 9, 84, 100, 152, 101, 85, 255, 10, 168, 20];

fn any_marks(rng: &mut Rng) -> u8 {
    if rng.mille(400) { rng.pick(&SOME) } else { rng.pick(&fit_marks().collect::<Vec<_>>()) }
}

/// A dependency in the slip, with the usual numbers.
fn entry(s: &Sketch, from: usize, to: usize, kind: u8, source: u8) -> Vec<u8> {
    let number = if source == 0 { numbers::usual_number(from * s.k + to) } else { 0 };
    numbers::entry(from as u8, kind, source, number)
}

/// How the slip begins with the least cycle of one dependency, by lock or interrupt; None where there is no such cycle.
fn of_one(s: &Sketch) -> Option<Vec<u8>> {
    (0..s.k).find_map(|class| {
        let own = s.sheet[class * s.k + class];
        let lock = [ER, EN, SN].into_iter().find(|kind| own & kind != 0).map(|kind| (kind, 0));
        let by_marks = by_level(s.marks[class]).into_iter().flatten();
        let least = lock.into_iter().chain(by_marks).min();
        least.map(|(kind, source)| [vec![1], entry(s, class, class, kind, source)].concat())
    })
}

// --------------------------------------------------------------------- records

/// The marks that a lock acquired in this mode gives its class in a state.
pub fn marks_of(state: u8, mode: u8) -> u8 {
    let safe = if mode >= 3 { 0 } else if mode == 2 { 2 } else { 1 };
    let is_unsafe = if mode % 3 == 0 { 4 } else { 8 };
    match state {
        0 => 17 * is_unsafe,
        1 => is_unsafe,
        4 => 16 * safe | is_unsafe,
        5 => 16 * safe,
        6..9 => safe,
        _ => 0,
    }
}

/// How a record marks a class: a core in this state acquires it in this mode; or holds it so when, of two locks of the
/// class, the newest is released; or when an event comes.
#[derive(Clone, Copy)]
struct Way {
    state: u8,
    kind: u8,
    mode: u8,
}

impl Way {
    /// None where the table refuses it.
    fn state_after(self) -> Option<u8> {
        match self.kind {
            0 | 1 => Some(self.state),
            kind => Some(NEXT[usize::from(self.state)][usize::from(kind) - 2]).filter(|&next| next != X),
        }
    }
    /// The frame (task, soft, hard) where the lock is held after the record.
    fn frame(self) -> usize {
        self.state_after().map_or(0, |state| FRAME[usize::from(state)])
    }
    /// The marks that the class gets.
    fn marks(self) -> u8 {
        let Some(state) = self.state_after() else { return 0 };
        if self.kind > 0 && !may_hold(self.state, self.frame()) {
            return 0;
        }
        marks_of(state, self.mode)
    }
    /// The record on a core, and what it needs on the desk.
    fn record(self, core: usize, class: usize, desk: &mut [u8]) -> Rec {
        let (class, named, frame) = (class as u8, core as u8, 3 * core + self.frame());
        desk[STATES + core] = self.state;
        if self.kind == 0 {
            return Rec::new(named, 0, class, self.mode);
        }
        push(desk, frame, class + 64 * (self.mode % 3), self.mode >= 3);
        if self.kind == 1 {
            push(desk, frame, class + 64 * 2, false);
            return Rec::new(named, 1, class, 2);
        }
        Rec::new(named, self.kind, 0, 0)
    }
}

/// The ways in which a record of these kinds leaves these marks that did not stand before, with the marks before it; they
/// do not clash yet.
fn last_marks(marks: u8, kinds: Range<u8>) -> Vec<(Way, u8)> {
    let modes = kinds.flat_map(|kind| (0..6).map(move |mode| (kind, mode)));
    let ways = modes.flat_map(|(kind, mode)| (0..9).map(move |state| Way { state, kind, mode }));
    let mut all = Vec::new();
    for (way, set) in ways.map(|way| (way, way.marks())).filter(|(_, set)| set & !marks == 0) {
        // Each part of what it sets, but nothing.
        let mut part = set;
        while part != 0 {
            all.push((way, marks & !part));
            part = (part - 1) & set;
        }
    }
    all.retain(|&(_, before)| fits(before) && !clashes(before));
    all
}

/// A record that is accepted, marks nothing and draws nothing, on a desk whose cores are in tasks with all off.
fn nothing(turn: usize, k: usize, desk: &mut [u8]) -> Rec {
    let (core, class, mode) = (turn % 6, (turn / 3 % k) as u8, (turn % 3) as u8);
    let named = core as u8;
    match turn % 11 % 6 {
        0 => Rec::new(named, 2, 0, 0),
        1 => Rec::new(named, 3, 0, 0),
        2 => Rec::new(named, 4, 0, 0),
        3 => Rec::new(named, 0, class, mode),
        4 => Rec::new(named, 0, class, 3 + mode),
        _ => {
            push(desk, 3 * core, class + 64 * mode, false);
            Rec::new(named, 1, class, mode)
        }
    }
}

/// A record that is refused with this number on a core in a task with all off, and what it needs on the desk.
pub fn refused(answer: u8, core: usize, desk: &mut [u8]) -> Rec {
    let named = core as u8;
    match answer {
        3 => Rec::new(named, 0, 0, 6),
        4 => Rec::new(named, 0, desk[0], 0),
        5 => {
            // By its origin alone.
            push(desk, 3 * core, 2 * 64, true);
            Rec::new(named, 1, 0, 2)
        }
        6 => Rec::new(named, 9, 0, 0),
        7 => {
            desk[STATES + core] = 6;
            push(desk, 3 * core + 2, 0, false);
            Rec::new(named, 9, 0, 0)
        }
        _ => {
            (0..DEEPEST).for_each(|_| push(desk, 3 * core, 2 * 64, false));
            Rec::new(named, 0, 0, 2)
        }
    }
}

// ---------------------------------------------------------------------- random

/// A drawing with marks at one class that clash, mostly, over an order of lock dependencies, and perhaps with other cycles
/// beside it; that class.
fn any(rng: &mut Rng) -> (Sketch, usize) {
    let k = match rng.under(8) {
        0 => rng.between(1, 2),
        1 => rng.pick(&[63, 64, 64]),
        2..5 => rng.between(3, 5),
        _ => rng.between(2, 12),
    };
    let class = [0, k / 2, k - 1, k - 1, rng.under(k)][rng.under(5)];
    let mut s = Sketch::new(k);
    s.marks[class] = any_marks(rng);
    let (some, up) = (rng.pick(&[0, 300, 1000]), rng.mille(500));
    for (low, high) in (0..k).flat_map(|low| (low + 1..k).map(move |high| (low, high))) {
        if rng.mille(some) {
            let (from, to) = if up { (low, high) } else { (high, low) };
            s.draw(from, to, kinds(rng));
        }
    }
    for _ in 0..rng.pick(&[0, 0, 1, 1, 1, 2]) {
        match rng.under(9) {
            // A class's lock dependency to itself: below, there, above.
            0..5 => {
                let own = [rng.under(class + 1), class, class, rng.between(class, k - 1)][rng.under(4)];
                s.draw(own, own, rng.pick(&[ER, EN, SR, SR, SN, SN, SR | SN]));
            }
            // A cycle of two classes below.
            5 | 6 if class > 1 => {
                let low = rng.under(class - 1);
                let high = rng.between(low + 1, class - 1);
                s.draw(low, high, rng.pick(&[ER, EN, SN, 15]));
                s.draw(high, low, rng.pick(&[EN, EN, ER, SN]));
            }
            // Another clash.
            5..8 => s.marks[rng.under(k)] = any_marks(rng),
            // Marks of the others that follow the order: unsafe before, safe behind.
            _ => {
                for other in (0..k).filter(|&other| other != class) {
                    s.mark(other, rng.byte() & if (other < class) == up { 0xCC } else { 0x33 });
                }
            }
        }
    }
    (s, class)
}

/// Such a drawing on a desk in buffers full of anything, and an accepted record: one that marks and draws nothing, or one
/// that sets the last marks.
pub fn with_record(rng: &mut Rng) -> (Buffers, Rec) {
    let (s, class) = any(rng);
    let mut buffers = any_buffers(rng, s.k);
    s.fill(&mut buffers);
    numbers::scatter(rng, &mut buffers);
    let desk = &mut buffers.desk;
    let ways = match rng.under(5) {
        0 | 1 => Vec::new(),
        2 => last_marks(s.marks[class], 0..1),
        _ => last_marks(s.marks[class], 1..10),
    };
    if ways.is_empty() {
        let record = nothing(rng.under(1000), s.k, desk);
        return (buffers, record);
    }
    // Each kind of record as often.
    let mut kinds: Vec<u8> = ways.iter().map(|(way, _)| way.kind).collect();
    kinds.dedup();
    let kind = rng.pick(&kinds);
    let (way, before) = rng.pick(&ways.into_iter().filter(|(way, _)| way.kind == kind).collect::<Vec<_>>());
    desk[MARKS + class] = before;
    let record = way.record(rng.under(8), class, desk);
    (buffers, record)
}

/// One step; perhaps a refused one before it, a question or a step after it, or the desk is closed.
fn on_desk(rng: &mut Rng) -> Case {
    let (mut buffers, record) = with_record(rng);
    let k = buffers.k();
    let desk = &mut buffers.desk;
    let mut calls = vec![Call::Step(record)];
    if record.names() != Some(7) && rng.mille(300) {
        calls.insert(0, Call::Step(refused(rng.between(3, 8) as u8, 7, desk)));
    }
    if rng.mille(300) {
        calls.push(if rng.mille(500) { Call::Step(record) } else { Call::Ask(rng.under(k) as u64) });
    }
    if rng.mille(60) {
        desk[1] = 1;
    }
    case(buffers, calls)
}

/// Records by which a fresh core comes into a state.
const INTO: [&[u8]; 9] = [&[], &[5], &[3], &[3, 5], &[6], &[6, 3], &[8], &[5, 8], &[6, 8]];

/// From opening: some order of lock dependencies, a class acquired on one core, and acquired or held over an event on
/// another.
fn log(rng: &mut Rng) -> Case {
    let k = rng.pick(&[1, 2, 3, 8, 8, 64]);
    let class = rng.pick(&[0, k - 1]) as u8;
    let mut log = vec![Rec::new(0, 3, 0, 0), Rec::new(0, 5, 0, 0)];
    let up = rng.mille(500);
    for _ in 0..rng.under(4).min(k - 1) {
        let low = rng.under(k - 1);
        let mut two = [low, rng.between(low + 1, k - 1)];
        if !up {
            two.reverse();
        }
        let two = two.map(|class| (class as u8, rng.under(3) as u8));
        log.extend(two.map(|(class, mode)| Rec::new(0, 0, class, mode)));
        log.extend([two[1], two[0]].map(|(class, mode)| Rec::new(0, 1, class, mode)));
    }
    let mut acquire = |core: u8, state: u8, mode: u8| {
        log.extend(INTO[usize::from(state)].iter().map(|&kind| Rec::new(core, kind, 0, 0)));
        log.push(Rec::new(core, 0, class, mode));
    };
    let (unsafe_first, soft) = (rng.mille(500), rng.mille(500));
    let handler = if soft { rng.pick(&[4, 5]) } else { rng.pick(&[6, 7, 8]) };
    if unsafe_first {
        acquire(1, if soft { 0 } else { rng.pick(&[0, 1]) }, rng.under(6) as u8);
        acquire(2, handler, rng.under(3) as u8);
    } else {
        acquire(1, handler, rng.under(3) as u8);
        // Held over a hard on or a soft on.
        let (state, event) = if soft { rng.pick(&[(1, 4), (2, 2)]) } else { rng.pick(&[(2, 2), (3, 2), (5, 2)]) };
        acquire(2, state, rng.under(6) as u8);
        log.push(Rec::new(2, event, 0, 0));
    }
    let mut calls = vec![Call::Open(k as u64, 0)];
    calls.extend(log.into_iter().map(Call::Step));
    case(any_buffers(rng, k), calls)
}

pub const KINDS: [Kind; 2] =
    [Kind { name: "clash", weight: 120, make: on_desk }, Kind { name: "log to a clash", weight: 40, make: log }];

// ----------------------------------------------------------------------- fixed

pub const STANDING: &str = "each mark byte, standing";
pub const BY_RECORD: &str = "each mark byte, by a record";
pub const REFUSED: &str = "refused or closed over marks";
pub const BESIDE_LOCK: &str = "marks beside a lock cycle";
pub const BESIDE_TWO: &str = "marks beside a cycle of two";
pub const OF_TWO: &str = "marks of two classes";

/// An order of all classes by lock dependencies: none, up, down.
const ORDERS: [Option<bool>; 3] = [None, Some(true), Some(false)];

fn ordered(k: usize, order: Option<bool>, kinds: u8) -> Sketch {
    let mut s = Sketch::new(k);
    for (low, high) in (0..k).flat_map(|low| (low + 1..k).map(move |high| (low, high))) {
        match order {
            Some(true) => s.draw(low, high, kinds),
            Some(false) => s.draw(high, low, kinds),
            None => {}
        }
    }
    s
}

/// Slips as they begin with a fault; empty without one.
const CLEAN: Option<Vec<u8>> = Some(Vec::new());

/// Records of which the last leaves this drawing, with the answers of those before it, and what is to come of it: where no
/// class alone is a cycle this slip, if it is known.
fn meant(s: &Sketch, slip: Option<Vec<u8>>, desk: Vec<u8>, records: &[Rec], before: &[u8]) -> Case {
    let slip = of_one(s).or(slip);
    let meant = slip.map(|slip| Meant { answers: [before, &[u8::from(!slip.is_empty())]].concat(), slip, ..Meant::default() });
    let calls = records.iter().map(|record| Call::Step(*record)).collect();
    let mut buffers = Buffers { desk, ..s.buffers() };
    buffers.slip.fill(7);
    Case { meant, ..case(buffers, calls) }
}

/// The cases, until one is answered with false.
pub fn fixed(each: &mut dyn FnMut(Case) -> bool) {
    let mut fixed = Fixed { each, turn: 0 };
    let _ = fixed.all();
}

/// Each part ends with None once a case is answered with false.
struct Fixed<'a> {
    each: &'a mut dyn FnMut(Case) -> bool,
    turn: usize,
}

impl Fixed<'_> {
    /// Those with 64 classes come last, as they take their time.
    fn all(&mut self) -> Option<()> {
        self.each_mark_byte(&[(1, 0), (2, 0), (2, 1), (3, 0), (3, 1), (3, 2)], 3)?;
        self.refused()?;
        self.beside_lock(3, 1, |_, _| true)?;
        self.beside_two(3, (0, 1), 2, |_| true)?;
        for (low, high) in [(0, 1), (0, 2), (1, 2)] {
            for class in (0..3).filter(|&class| class <= high) {
                self.beside_two(3, (low, high), class, |marks| SOME.contains(&marks))?;
            }
            self.of_two(3, low, high, &ORDERS)?;
        }
        self.each_mark_byte(&[(64, 0), (64, 31), (64, 63)], 2)?;
        self.beside_lock(64, 31, |kinds, marks| kinds.is_power_of_two() && SOME.contains(&marks))?;
        self.beside_two(64, (0, 1), 63, |marks| SOME.contains(&marks))?;
        self.of_two(64, 0, 63, &ORDERS[..1])
    }

    fn put(&mut self, name: &'static str, case: Case) -> Option<()> {
        (self.each)(Case { name, ..case }).then_some(())
    }

    /// The drawing stands, and a record marks and draws nothing.
    fn stands(&mut self, name: &'static str, s: &Sketch, slip: Option<Vec<u8>>) -> Option<()> {
        self.turn += 1;
        let mut desk = s.buffers().desk;
        let record = nothing(self.turn, s.k, &mut desk);
        self.put(name, meant(s, slip, desk, &[record], &[]))
    }

    /// For these K and classes, with each order: each mark byte, standing, and set by an acquire, by an event and by a
    /// release, or so many of these.
    fn each_mark_byte(&mut self, places: &[(usize, usize)], of_these: usize) -> Option<()> {
        let ways = |marks: u8| [0..1, 2..10, 1..2].map(|kinds| last_marks(marks, kinds));
        let all: Vec<(u8, [Vec<(Way, u8)>; 3])> = fit_marks().map(|marks| (marks, ways(marks))).collect();
        let mut spaces = 0;
        for &(k, class) in places {
            for order in ORDERS.into_iter().take(if k == 1 { 1 } else { 3 }) {
                spaces += 1;
                let mut s = ordered(k, order, [EN, SN, 15, ER, SR][spaces % 5]);
                for (marks, ways) in &all {
                    s.marks[class] = *marks;
                    self.stands(STANDING, &s, CLEAN)?;
                    for ways in ways.iter().take(of_these).filter(|ways| !ways.is_empty()) {
                        // In each space another way.
                        let (way, before) = ways[(spaces + usize::from(*marks)) % ways.len()];
                        let mut desk = s.buffers().desk;
                        desk[MARKS + class] = before;
                        let record = way.record(usize::from(*marks) % 8, class, &mut desk);
                        self.put(BY_RECORD, meant(&s, CLEAN, desk, &[record], &[]))?;
                    }
                }
            }
        }
        Some(())
    }

    /// Refused records before an accepted one, and records on a closed desk.
    fn refused(&mut self) -> Option<()> {
        for (turn, marks) in fit_marks().enumerate() {
            let mut s = Sketch::new(2);
            s.marks[turn % 2] = marks;
            for closed in [false, true] {
                let mut desk = s.buffers().desk;
                let answers = [3, 4, 5, 6, 7 + turn as u8 % 2];
                let mut records = answers.map(|answer| refused(answer, if answer < 7 { 7 } else { 6 }, &mut desk)).to_vec();
                records.push(nothing(turn, 2, &mut desk));
                desk[1] = u8::from(closed);
                let mut case = meant(&s, CLEAN, desk, &records, &answers);
                if closed {
                    // All but the malformed one.
                    case.calls.remove(0);
                    case.meant = Some(Meant { answers: vec![10; 5], ..Meant::default() });
                }
                self.put(REFUSED, case)?;
            }
        }
        Some(())
    }

    /// A lock dependency of a class to itself by all kinds: below the class with marks, there, and above.
    fn beside_lock(&mut self, k: usize, class: usize, such: fn(u8, u8) -> bool) -> Option<()> {
        for (own, kinds) in (class - 1..=class + 1).flat_map(|own| (1..16).map(move |kinds| (own, kinds))) {
            for marks in fit_marks().filter(|&marks| such(kinds, marks)) {
                let mut s = Sketch::new(k);
                s.draw(own, own, kinds);
                s.marks[class] = marks;
                self.stands(BESIDE_LOCK, &s, CLEAN)?;
            }
        }
        Some(())
    }

    /// Two classes and a class with marks: from the low one by each kind of lock dependency, or by an interrupt of each
    /// level, and back by each kind of lock dependency.
    fn beside_two(&mut self, k: usize, (low, high): (usize, usize), class: usize, such: fn(u8) -> bool) -> Option<()> {
        for (out, back) in (0..8).flat_map(|out| (0..4).map(move |back| (out, 1 << back))) {
            for marks in fit_marks().filter(|&marks| such(marks)) {
                let mut s = Sketch::new(k);
                s.draw(high, low, back);
                s.mark(class, marks);
                let (kind, source) = match out {
                    0..4 => {
                        s.draw(low, high, 1 << out);
                        (1 << out, 0)
                    }
                    _ => {
                        let (source, first_s, second_r) = (1 + out / 2 % 2, out % 2 == 1, back < SR);
                        let level = if source == 1 { 1 } else { 16 };
                        s.mark(low, level * if first_s { 8 } else { 4 });
                        s.mark(high, level * if second_r { 2 } else { 1 });
                        ((if first_s { SR } else { ER }) * if second_r { 1 } else { 2 }, source)
                    }
                };
                // Without other marks it is known whether the two are a cycle.
                let strong = |one: u8, next: u8| one == EN || one == SN || next < SR;
                let two = [vec![2], entry(&s, low, high, kind, source), entry(&s, high, low, back, 0)].concat();
                let slip = (marks == 0).then(|| if strong(kind, back) && strong(back, kind) { two } else { Vec::new() });
                self.stands(BESIDE_TWO, &s, slip)?;
            }
        }
        Some(())
    }

    /// Marks of two classes, with each of these orders.
    fn of_two(&mut self, k: usize, a: usize, b: usize, orders: &[Option<bool>]) -> Option<()> {
        for order in orders {
            for (one, other) in SOME.into_iter().flat_map(|one| SOME.into_iter().map(move |other| (one, other))) {
                let mut s = ordered(k, *order, SN);
                (s.marks[a], s.marks[b]) = (one, other);
                self.stands(OF_TWO, &s, None)?;
            }
        }
        Some(())
    }
}
