//! Drawings with several cycles of the fewest dependencies, and cases made of them: on fit desks that no opening need lead
//! to, and in logs from opening.

use crate::clashes;
use crate::feeds;
use crate::gen::{any_buffers, case, push, Buffers};
use crate::numbers;
use crate::rng::Rng;
use crate::run::{Call, Case, Meant, Rec};
use reference::{DEEPEST, DEPTHS, DESK, HOLDS, MARKS, STATES};

pub const ER: u8 = 1;
pub const EN: u8 = 2;
pub const SR: u8 = 4;
pub const SN: u8 = 8;

/// A drawing under way: kinds by pair, marks by class.
#[derive(Clone)]
pub struct Sketch {
    pub k: usize,
    pub sheet: Vec<u8>,
    pub marks: Vec<u8>,
    /// Pairs with other numbers than the usual.
    numbers: Vec<(usize, u32)>,
}

impl Sketch {
    pub fn new(k: usize) -> Sketch {
        Sketch { k, sheet: vec![0; k * k], marks: vec![0; k], numbers: Vec::new() }
    }
    pub fn draw(&mut self, from: usize, to: usize, kinds: u8) {
        self.sheet[from * self.k + to] |= kinds;
    }
    /// The same with this number.
    pub fn draw_at(&mut self, from: usize, to: usize, kinds: u8, number: u32) {
        self.draw(from, to, kinds);
        self.numbers.push((from * self.k + to, number));
    }
    /// A soft-unsafe mark brings its hard-unsafe one.
    pub fn mark(&mut self, class: usize, marks: u8) {
        self.marks[class] |= marks | marks >> 4 & 12;
    }
    /// Into buffers of at least the stated sizes, an open desk with this drawing and the usual numbers. Each core is in a
    /// task with all off.
    pub fn fill(&self, b: &mut Buffers) {
        b.desk[..DESK].fill(0);
        b.desk[0] = self.k as u8;
        b.desk[STATES..STATES + 8].fill(3);
        b.desk[MARKS..MARKS + self.k].copy_from_slice(&self.marks);
        b.sheet[..self.k * self.k].copy_from_slice(&self.sheet);
        numbers::usual(b);
        for &(pair, number) in &self.numbers {
            numbers::set_number(&mut b.seen, pair, number);
        }
    }
    /// Such buffers.
    pub fn buffers(&self) -> Buffers {
        let mut b = Buffers::opened(self.k);
        self.fill(&mut b);
        b
    }
}

/// The first m of the classes 0 to K - 1 in some order: as they are, the last ones, backwards, or any.
fn classes(rng: &mut Rng, m: usize, k: usize) -> Vec<usize> {
    let mut all: Vec<usize> = (0..k).collect();
    match rng.under(5) {
        0 => {}
        1 => all.drain(..k - m).for_each(drop),
        2 => all.reverse(),
        _ => {
            for i in (1..k).rev() {
                all.swap(i, rng.under(i + 1));
            }
        }
    }
    all.truncate(m);
    all
}

/// The same, the lowest of them first, mostly.
fn lowest_first(rng: &mut Rng, m: usize, k: usize) -> Vec<usize> {
    let mut names = classes(rng, m, k);
    if rng.mille(800) {
        let low = (0..m).min_by_key(|&i| names[i]).unwrap_or(0);
        names.swap(0, low);
    }
    names
}

/// K for m classes: just enough, a few more, or the most.
fn room(rng: &mut Rng, m: usize) -> usize {
    match rng.under(4) {
        0 => 64,
        1 => (m + rng.under(6)).min(64),
        _ => m,
    }
}

/// Kinds for a pair: one, any, or those of a sort.
pub fn kinds(rng: &mut Rng) -> u8 {
    match rng.under(5) {
        0 => rng.between(1, 15) as u8,
        1 => rng.pick(&[ER | EN, SR | SN, ER | SN, EN | SR, EN | SN]),
        2 => rng.pick(&[EN, SN]),
        _ => rng.pick(&[ER, EN, SR, SN]),
    }
}

/// Few classes, many dependencies, marks of both levels. No class alone is a cycle, mostly.
fn small(rng: &mut Rng) -> Sketch {
    let k = rng.between(1, 6);
    let mut s = Sketch::new(k);
    let (density, alone) = (rng.pick(&[200, 500, 1000]), rng.pick(&[0, 0, 0, 500]));
    for from in 0..k {
        for to in 0..k {
            if rng.mille(if from == to { alone } else { density }) {
                s.draw(from, to, kinds(rng));
            }
        }
    }
    let marked = rng.pick(&[0, 300, 800, 1000]);
    for class in 0..k {
        if rng.mille(marked) {
            let part = if rng.mille(alone) { 255 } else { rng.pick(&[0x33, 0xCC, 0x3C & 0x33, 0xCC]) };
            s.mark(class, rng.byte() & part);
        }
    }
    s
}

/// Layers of one to three classes, each layer into the next and the last into the first, by holds and interrupts.
fn layers(rng: &mut Rng) -> Sketch {
    let n = match rng.under(10) {
        0 => rng.between(9, 21),
        1 => 32,
        2..6 => 2,
        _ => rng.between(2, 6),
    };
    let widest = if n > 21 { 2 } else { 3 };
    let widths: Vec<usize> = (0..n).map(|_| if n == 32 { 2 } else { rng.between(1, widest) }).collect();
    let m = widths.iter().sum();
    let k = room(rng, m);
    let mut names = classes(rng, m, k).into_iter();
    let layers: Vec<Vec<usize>> = widths.iter().map(|&w| names.by_ref().take(w).collect()).collect();
    let mut s = Sketch::new(k);
    let (density, uniform) = (rng.pick(&[700, 900, 1000]), rng.mille(300));
    let one = kinds(rng);
    for (i, layer) in layers.iter().enumerate() {
        for &from in layer {
            for &to in &layers[(i + 1) % n] {
                if rng.mille(density) {
                    let kinds = if uniform { one } else { kinds(rng) };
                    s.draw(from, to, kinds);
                }
            }
        }
    }
    // Interrupts from one layer to the next, at one level or at both.
    if rng.mille(600) {
        let at = rng.under(n);
        let (hard, soft) = rng.pick(&[(true, true), (true, false), (false, true)]);
        for &from in &layers[at] {
            s.mark(from, if hard { rng.pick(&[4, 8, 12, 0]) } else { 0 } | if soft { rng.pick(&[64, 128, 192, 0]) } else { 0 });
        }
        for &to in &layers[(at + 1) % n] {
            s.mark(to, if hard { rng.pick(&[1, 2, 3, 0]) } else { 0 } | if soft { rng.pick(&[16, 32, 48, 0]) } else { 0 });
        }
        if rng.mille(500) {
            // By nothing else.
            for &from in &layers[at] {
                for &to in &layers[(at + 1) % n] {
                    s.sheet[from * k + to] &= rng.pick(&[0, 0, SN, EN]);
                }
            }
        }
    }
    s
}

/// A ring that is strong all round, its kinds by class.
fn ring_kinds(rng: &mut Rng, n: usize) -> Vec<u8> {
    if rng.mille(300) {
        return vec![rng.pick(&[EN, SN, ER, EN | SN]); n];
    }
    let r: Vec<bool> = (0..n).map(|_| rng.mille(300)).collect();
    (0..n)
        .map(|i| {
            let s = !r[(i + n - 1) % n] && rng.mille(600);
            (if s { SR } else { ER }) * if r[i] { 1 } else { 2 }
        })
        .collect()
}

fn draw_ring(s: &mut Sketch, names: &[usize], kinds: &[u8]) {
    for (i, &from) in names.iter().enumerate() {
        s.draw(from, names[(i + 1) % names.len()], kinds[i]);
    }
}

/// A ring with other kinds between its classes: such as may take a place, and such as a joint bars, even the closing one
/// alone. And perhaps dependencies ending in R that lead on to nothing but S.
fn near_ring(rng: &mut Rng) -> Sketch {
    let n = match rng.under(4) {
        0 => rng.between(1, 64),
        1 => rng.pick(&[2, 3, 63, 64, 64]),
        _ => rng.between(2, 7),
    };
    ring_of(rng, n)
}

fn ring_of(rng: &mut Rng, n: usize) -> Sketch {
    let k = room(rng, n);
    let names = classes(rng, n, k);
    let mut s = Sketch::new(k);
    let sort = rng.under(5);
    let ring = if sort < 2 { vec![SN; n] } else { ring_kinds(rng, n) };
    draw_ring(&mut s, &names, &ring);
    let low = (0..n).min_by_key(|&i| names[i]).unwrap_or(0);
    let last = (low + n - 1) % n;
    let to = |i: usize| names[(i + 1) % n];
    match sort {
        // The last one's less kind is barred by the first letter alone.
        0 => {
            s.draw(names[last], to(last), rng.pick(&[ER, SR, ER | SR]));
            if rng.mille(500) && n > 1 {
                s.draw(names[last], to(last), EN);
                s.draw(names[(last + n - 1) % n], names[last], rng.pick(&[ER, SR]));
            }
        }
        // Barred by the next joints, all or some; and perhaps dependencies to all higher classes that end in R.
        1 => {
            let some = rng.pick(&[200, 1000]);
            for i in 0..n {
                if rng.mille(some) {
                    s.draw(names[i], to(i), rng.pick(&[ER, SR]));
                }
            }
            if rng.mille(300) && n > 1 {
                let mut order = names.clone();
                order.rotate_left(low);
                for (i, &from) in order.iter().enumerate() {
                    order[i + 1..].iter().for_each(|&to| s.draw(from, to, ER));
                }
            }
        }
        // Other kinds anywhere, interrupts over one dependency.
        _ => {
            let some = rng.pick(&[0, 100, 500, 1000]);
            for i in 0..n {
                if rng.mille(some) {
                    s.draw(names[i], to(i), kinds(rng));
                }
            }
            if rng.mille(400) && n > 1 {
                let i = rng.under(n);
                s.mark(names[i], rng.pick(&[4, 8, 12, 64, 128, 192, 68, 136, 204]));
                s.mark(to(i), rng.pick(&[1, 2, 3, 16, 32, 48, 17, 34, 51]));
                if rng.mille(500) {
                    s.sheet[names[i] * k + to(i)] = rng.pick(&[0, 0, SN, EN]);
                }
            }
        }
    }
    s
}

/// A longer cycle through lower classes, and one or more shorter ones above.
fn shorter_above(rng: &mut Rng) -> Sketch {
    let short = rng.pick(&[1, 2, 2, 3, 4, 10]);
    let long = short + rng.pick(&[1, 1, 2, 5, 20]);
    let rings = rng.between(1, 3);
    let k = room(rng, long + rings * short);
    let mut s = Sketch::new(k);
    let mut low = 0;
    for n in std::iter::once(long).chain(std::iter::repeat_n(short, rings)) {
        let mut names: Vec<usize> = (low..low + n).collect();
        if rng.mille(500) {
            names.reverse();
        }
        let ring = ring_kinds(rng, n);
        draw_ring(&mut s, &names, &ring);
        for _ in 0..rng.under(3) {
            let i = rng.under(n);
            s.draw(names[i], names[(i + 1) % n], kinds(rng));
        }
        // From the longer into the shorter.
        if low > 0 && rng.mille(500) {
            s.draw(rng.under(long), rng.pick(&names), kinds(rng));
        }
        low += n;
    }
    s
}

/// From one class by several ways to others and back; two or three dependencies.
fn fan(rng: &mut Rng) -> Sketch {
    let m = rng.between(2, 5);
    let three = rng.mille(400);
    let k = room(rng, m + 2);
    let names = lowest_first(rng, m + 2, k);
    let (home, end, others) = (names[0], names[1], &names[2..]);
    let mut s = Sketch::new(k);
    for &other in others {
        let out = rng.pick(&[ER, EN, SR, SN, ER | EN, SN | SR]);
        s.draw(home, other, if rng.mille(800) { out } else { 0 });
        s.draw(other, if three { end } else { home }, rng.pick(&[ER, EN, EN, EN | SN, SN]));
        if rng.mille(300) {
            s.mark(other, rng.pick(&[1, 2, 3, 16, 32, 48, 17, 18, 33]));
        }
    }
    if three {
        s.draw(end, home, rng.pick(&[ER, EN, EN, SN]));
    }
    if rng.mille(500) {
        s.mark(home, rng.pick(&[4, 8, 12, 64, 128, 192, 68, 136]));
    }
    s
}

/// From one class to others by dependencies of one kind, here a hold, there an interrupt, and back.
fn by_source(rng: &mut Rng) -> Sketch {
    let m = rng.between(2, 4);
    let k = room(rng, m + 1);
    let names = lowest_first(rng, m + 1, k);
    let (home, others) = (names[0], &names[1..]);
    let mut s = Sketch::new(k);
    let (r, first_s) = (rng.mille(400), rng.mille(400));
    s.mark(home, (if first_s { 8 } else { 4 }) * rng.pick(&[1, 1, 16, 16]));
    for &other in others {
        for _ in 0..rng.pick(&[1, 1, 1, 2]) {
            match rng.under(3) {
                0 => s.draw(home, other, (if first_s { SR } else { ER }) * if r { 1 } else { 2 }),
                level => s.mark(other, (if r { 2 } else { 1 }) * if level == 1 { 1 } else { 16 }),
            }
        }
        s.draw(other, home, if r { EN } else { rng.pick(&[EN, SN, EN | SN]) });
        if rng.mille(200) {
            s.draw(home, other, if first_s { SN } else { EN });
        }
    }
    s
}

/// Interrupts from some classes to others, of both levels, and holds back.
fn interrupts(rng: &mut Rng) -> Sketch {
    let (a, b) = (rng.between(1, 3), rng.between(1, 3));
    let k = room(rng, a + b);
    let names = classes(rng, a + b, k);
    let mut s = Sketch::new(k);
    let letters = |rng: &mut Rng, one: u8| one * rng.pick(&[1, 2, 2, 3]);
    for &from in &names[..a] {
        let level = rng.pick(&[1, 16, 17]);
        let marks = letters(rng, 4 * level);
        s.mark(from, marks);
    }
    for &to in &names[a..] {
        let level = rng.pick(&[1, 16, 17]);
        let marks = letters(rng, level);
        s.mark(to, marks);
        for &from in &names[..a] {
            if rng.mille(700) {
                s.draw(to, from, rng.pick(&[ER, EN, SR, SN, SN, SN, EN | SR]));
            }
            if rng.mille(300) {
                s.draw(from, to, kinds(rng));
            }
        }
    }
    s
}

pub fn any(rng: &mut Rng) -> Sketch {
    match rng.under(16) {
        0 | 1 => small(rng),
        2..5 => layers(rng),
        5..8 => near_ring(rng),
        8 | 9 => shorter_above(rng),
        10 | 11 => fan(rng),
        12 | 13 => by_source(rng),
        _ => interrupts(rng),
    }
}

/// A record that is accepted on such a desk, and what it needs there: it draws nothing, or one dependency more.
fn record(rng: &mut Rng, s: &Sketch, desk: &mut [u8]) -> Rec {
    let core = rng.under(8);
    let named = core as u8;
    let class = rng.under(s.k) as u8;
    let frame = 3 * core;
    match rng.under(6) {
        0 => Rec::new(named, 0, class, rng.under(6) as u8),
        1 => {
            let mode = rng.under(6) as u8;
            push(desk, frame, class + 64 * (mode % 3), mode > 2);
            Rec::new(named, 1, class, mode)
        }
        // Over another lock: draws a dependency.
        2 => {
            desk[DEPTHS + frame] = 1;
            desk[HOLDS + DEEPEST * frame] = (rng.under(s.k) + 64 * rng.under(3)) as u8;
            Rec::new(named, 0, class, rng.under(3) as u8)
        }
        // Held where the hard interrupt goes on: sets marks.
        3 if rng.mille(300) => {
            desk[DEPTHS + frame] = 1;
            desk[HOLDS + DEEPEST * frame] = class + 64 * rng.under(3) as u8;
            Rec::new(named, 2, 0, 0)
        }
        _ => Rec::new(named, rng.pick(&[2, 3, 4, 5]), 0, 0),
    }
}

/// A drawing with its record on a desk, in buffers full of anything.
fn with_record(rng: &mut Rng, s: &Sketch) -> (Buffers, Rec) {
    let mut buffers = any_buffers(rng, s.k);
    s.fill(&mut buffers);
    let record = record(rng, s, &mut buffers.desk);
    numbers::scatter(rng, &mut buffers);
    (buffers, record)
}

/// One step, perhaps a question before it, and a step after it.
pub fn on_desk(rng: &mut Rng) -> Case {
    let s = any(rng);
    let (buffers, record) = with_record(rng, &s);
    let mut calls = vec![Call::Step(record)];
    if rng.mille(200) {
        calls.insert(0, Call::Ask(rng.under(s.k) as u64));
        calls.push(Call::Ask(rng.under(s.k) as u64));
    }
    if rng.mille(200) {
        calls.push(Call::Step(record));
    }
    case(buffers, calls)
}

/// The same, or a clash, by a feed that has opened, in one or two pieces.
pub fn in_feed(rng: &mut Rng) -> Case {
    let (buffers, record) = if rng.mille(300) {
        clashes::with_record(rng)
    } else {
        let s = any(rng);
        with_record(rng, &s)
    };
    let bytes = record.slice();
    let (kept, cut) = (rng.under(6), rng.under(7));
    let feed = feeds::feed_of(0, true, &bytes[..kept], rng.under(300) as u64);
    let rest = &bytes[kept..];
    let (a, b) = rest.split_at(cut.min(rest.len()));
    let mut calls = vec![Call::Feed(a.to_vec()), Call::Feed([b, &bytes[..rng.under(7)]].concat())];
    if rng.mille(500) {
        calls.push(Call::FeedEnd);
    }
    Case { feed, ..case(buffers, calls) }
}

/// Records from opening with one at the end that closes several cycles; K.
pub fn closing(rng: &mut Rng) -> (Vec<Rec>, usize) {
    let m = rng.between(1, 4);
    let k = rng.pick(&[m + 2, 8, 8, 16]).max(m + 2);
    let names = classes(rng, m + 2, k);
    let (home, between, held) = (names[0], names[1], &names[2..]);
    let mut log = Vec::new();
    // Core 0 draws with all off: no marks.
    log.extend([Rec::new(0, 3, 0, 0), Rec::new(0, 5, 0, 0)]);
    let draw = |log: &mut Vec<Rec>, (from, first): (usize, u8), (to, second): (usize, u8)| {
        for (class, mode) in [(from, first), (to, second)] {
            log.push(Rec::new(0, 0, class as u8, mode));
        }
        for (class, mode) in [(to, second), (from, first)] {
            log.push(Rec::new(0, 1, class as u8, mode));
        }
    };
    // From the class that comes last to those that will be held, by itself or over another.
    let over = rng.mille(400);
    for &class in held {
        for _ in 0..rng.between(1, 2) {
            let from = if over { between } else { home };
            draw(&mut log, (from, rng.under(3) as u8), (class, rng.under(3) as u8));
        }
    }
    if over {
        draw(&mut log, (home, rng.under(3) as u8), (between, rng.under(3) as u8));
    }
    let by_event = rng.mille(400);
    if by_event {
        // The class comes in a handler, and the others are held when interrupts go on.
        let soft = rng.mille(500);
        let enter = if soft { 6 } else { 8 };
        let mode = rng.under(3) as u8;
        log.extend([Rec::new(2, enter, 0, 0), Rec::new(2, 0, home as u8, mode), Rec::new(2, 1, home as u8, mode)]);
        if rng.mille(500) {
            log.push(Rec::new(2, 0, home as u8, rng.under(3) as u8));
        }
        log.push(Rec::new(1, if soft { 5 } else { 3 }, 0, 0));
        if soft && rng.mille(500) {
            log.extend([Rec::new(3, 8, 0, 0), Rec::new(3, 0, home as u8, rng.under(3) as u8)]);
            log.push(Rec::new(1, 3, 0, 0));
        }
    } else {
        log.extend([Rec::new(1, 3, 0, 0), Rec::new(1, 5, 0, 0)]);
    }
    // Tries draw nothing between them; others do.
    let tried = rng.mille(600);
    for &class in held {
        log.push(Rec::new(1, 0, class as u8, rng.under(3) as u8 + if tried { 3 } else { 0 }));
    }
    if by_event {
        log.extend([Rec::new(1, 4, 0, 0), Rec::new(1, 2, 0, 0)]);
    } else {
        log.push(Rec::new(1, 0, home as u8, rng.under(3) as u8));
    }
    (log, k)
}

/// Such a log by steps.
pub fn closing_log(rng: &mut Rng) -> Case {
    let (log, k) = closing(rng);
    let mut calls = vec![Call::Open(k as u64, 0)];
    calls.extend(log.into_iter().map(Call::Step));
    case(any_buffers(rng, k), calls)
}

// ---------------------------------------------------------------------- fixed

/// Rings of each length, in several orders of classes and with several kinds, with the length that the slip must show.
pub const RINGS_OF_EACH: u64 = 8;

pub fn each_ring(rng: &mut Rng, n: usize, turn: u64) -> Case {
    let s = match turn {
        0..4 => {
            let k = if turn == 3 { 64 } else { n };
            let mut names: Vec<usize> = (k - n..k).collect();
            if turn == 1 {
                names.reverse();
            }
            let mut s = Sketch::new(k);
            draw_ring(&mut s, &names, &vec![[EN, SN, ER, ER | EN | SR | SN][turn as usize]; n]);
            s
        }
        _ => {
            let k = room(rng, n);
            let names = classes(rng, n, k);
            let mut s = Sketch::new(k);
            let ring = ring_kinds(rng, n);
            draw_ring(&mut s, &names, &ring);
            for i in 0..n {
                if turn > 5 && rng.mille(500) {
                    s.draw(names[i], names[(i + 1) % n], kinds(rng));
                }
            }
            s
        }
    };
    let mut buffers = any_buffers(rng, s.k);
    s.fill(&mut buffers);
    let meant = Some(Meant { answers: vec![1], slip: vec![n as u8], ..Meant::default() });
    Case { meant, ..case(buffers, vec![Call::Step(Rec::new(rng.under(8) as u8, 3, 0, 0))]) }
}

/// A drawing by hand, and its slip worked out by hand from the documents.
pub struct HandDrawing {
    pub name: &'static str,
    pub sketch: Sketch,
    pub slip: Vec<u8>,
}

/// Dependencies as the program prints them, sources but hold left out: "0 ER 2, 2 EN 0"; with other numbers than the usual:
/// "0 ER 2 at 5". With marks: "3 marks 68".
pub fn sketch(k: usize, text: &str) -> Sketch {
    let mut s = Sketch::new(k);
    for part in text.split(", ") {
        let words: Vec<&str> = part.split(' ').collect();
        let class: usize = words[0].parse().unwrap();
        match words[..] {
            [_, "marks", marks] => s.marks[class] = marks.parse().unwrap(),
            [_, kind, to] => s.draw(class, to.parse().unwrap(), kind_of(kind)),
            [_, kind, to, "at", number] => s.draw_at(class, to.parse().unwrap(), kind_of(kind), number.parse().unwrap()),
            _ => panic!("no dependency: {part}"),
        }
    }
    s
}

fn kind_of(name: &str) -> u8 {
    1 << ["ER", "EN", "SR", "SN"].iter().position(|kind| *kind == name).unwrap()
}

/// "0 ER hold, 2 EN hold": class, kind and source; or "0 ER hold 5" with another number than the usual of that pair.
pub fn slip(k: usize, text: &str) -> Vec<u8> {
    let parts: Vec<Vec<&str>> = text.split(", ").map(|part| part.split(' ').collect()).collect();
    let class = |i: usize| parts[i % parts.len()][0].parse::<usize>().unwrap();
    let entries = parts.iter().enumerate().map(|(i, words)| {
        let source = ["hold", "hard", "soft"].iter().position(|source| *source == words[2]).unwrap();
        let number = match words.get(3) {
            Some(number) => number.parse().unwrap(),
            None if source == 0 => numbers::usual_number(class(i) * k + class(i + 1)),
            None => 0,
        };
        numbers::entry(class(i) as u8, kind_of(words[1]), source as u8, number)
    });
    [vec![parts.len() as u8], entries.collect::<Vec<_>>().concat()].concat()
}

pub fn hand_drawings() -> Vec<HandDrawing> {
    let rows: Vec<(&'static str, usize, &str, &str)> = vec![
        ("one cycle", 3, "1 EN 2, 2 EN 1", "1 EN hold, 2 EN hold"),
        ("kind before next class", 3, "0 EN 1, 1 EN 0, 0 ER 2, 2 EN 0", "0 ER hold, 2 EN hold"),
        // 1 is safe for hard, 2 has a hold: 0 EN 2 hold is before 0 EN 1 hard.
        ("source before next class", 3, "0 marks 4, 1 marks 1, 1 EN 0, 0 EN 2, 2 EN 0", "0 EN hold, 2 EN hold"),
        ("next class last", 3, "0 EN 1, 1 SN 0, 0 EN 2, 2 EN 0", "0 EN hold, 1 SN hold"),
        ("interrupt ER before hold EN", 2, "0 marks 4, 1 marks 2, 0 EN 1, 1 EN 0", "0 ER hard, 1 EN hold"),
        ("hold before interrupt of one kind", 2, "0 marks 4, 1 marks 1, 0 EN 1, 1 EN 0", "0 EN hold, 1 EN hold"),
        ("hard before soft of one kind", 2, "0 marks 68, 1 marks 17, 1 EN 0", "0 EN hard, 1 EN hold"),
        ("soft alone", 2, "0 marks 68, 1 marks 32, 1 EN 0", "0 ER soft, 1 EN hold"),
        ("barred by the next joint", 2, "0 ER 1, 0 EN 1, 1 SN 0", "0 EN hold, 1 SN hold"),
        ("barred by the closing joint", 2, "0 SN 1, 1 ER 0, 1 EN 0", "0 SN hold, 1 EN hold"),
        ("barred twice", 3, "0 SR 1, 0 SN 1, 1 SR 2, 1 SN 2, 2 SR 0, 2 SN 0", "0 SN hold, 1 SN hold, 2 SN hold"),
        ("R all round", 3, "0 ER 1, 0 EN 1, 1 ER 2, 1 EN 2, 2 ER 0, 2 EN 0", "0 ER hold, 1 ER hold, 2 ER hold"),
        ("R, then E alone", 3, "0 ER 1, 1 SN 2, 1 EN 2, 2 SR 0", "0 ER hold, 1 EN hold, 2 SR hold"),
        // Closed by R where the first begins with E.
        ("closed by R", 2, "0 EN 1, 1 ER 0, 1 EN 0", "0 EN hold, 1 ER hold"),
        ("fewest first", 5, "0 EN 1, 1 EN 2, 2 EN 0, 3 EN 4, 4 EN 3", "3 EN hold, 4 EN hold"),
        ("fewest first, through lower ones", 5, "0 EN 2, 2 EN 3, 3 EN 0, 3 EN 4, 4 EN 3", "3 EN hold, 4 EN hold"),
        ("one before two", 4, "0 EN 1, 1 EN 0, 3 ER 3", "3 ER hold"),
        ("SR alone is no cycle", 2, "1 marks 136, 1 SR 1, 0 EN 1, 1 SN 1", "1 SN hold"),
        ("lowest class first", 4, "2 ER 3, 3 ER 2, 0 SN 1, 1 SN 0", "0 SN hold, 1 SN hold"),
        // The least way goes over the higher of two classes.
        ("least way over a higher class", 4, "0 EN 1, 0 EN 2, 1 SN 3, 2 EN 3, 3 EN 0, 0 ER 2", "0 ER hold, 2 EN hold, 3 EN hold"),
        ("lower class, worse kind", 4, "0 EN 1, 0 EN 2, 1 SN 3, 2 ER 3, 3 EN 0", "0 EN hold, 1 SN hold, 3 EN hold"),
        // 0 ER 1 may only be followed by E, and from 1 only S leads on; from 2 E.
        ("barred over one class, not over another", 4, "0 ER 1, 0 ER 2, 1 SN 3, 2 EN 3, 3 EN 0", "0 ER hold, 2 EN hold, 3 EN hold"),
        ("barred by the closing joint from afar", 4, "0 SN 1, 1 EN 2, 1 EN 3, 2 ER 0, 3 EN 0", "0 SN hold, 1 EN hold, 3 EN hold"),
        ("two levels", 3, "0 marks 68, 1 marks 16, 2 marks 1, 1 EN 0, 2 EN 0", "0 EN hard, 2 EN hold"),
        // Marks of one class: 1 safe N, 2 safe R, 4 unsafe E, 8 unsafe S, and 16 times as much for soft.
        ("clash of E with both", 3, "1 marks 7", "1 ER hard"),
        ("clash of S with both", 3, "1 marks 11", "1 SN hard"),
        ("clash at both levels, one kind", 3, "1 marks 85", "1 EN hard"),
        ("clash at both levels, soft less", 3, "1 marks 101", "1 ER soft"),
        ("clash of two classes", 3, "1 marks 9, 2 marks 6", "1 SN hard"),
        ("clash above a lock cycle of one", 3, "0 SN 0, 2 marks 5", "0 SN hold"),
        ("clash above SR alone", 3, "0 SR 0, 2 marks 5", "2 EN hard"),
        ("clash below a lock cycle of one", 3, "2 ER 2, 0 marks 9", "0 SN hard"),
        ("clash, and a less lock dependency", 2, "1 marks 5, 1 ER 1", "1 ER hold"),
        ("clash, and a greater lock dependency", 2, "1 marks 6, 1 EN 1", "1 ER hard"),
        ("clash, and SR", 2, "1 marks 9, 1 SR 1", "1 SN hard"),
        ("clash above a cycle of two", 3, "0 EN 1, 1 EN 0, 2 marks 152", "2 SN soft"),
        // Numbers: they are no part of what is compared, wherever the first three bytes agree.
        ("the less number on the higher next class", 3, "0 EN 1 at 9, 1 EN 0, 0 EN 2 at 5, 2 EN 0", "0 EN hold 9, 1 EN hold"),
        ("the less number on the lower next class", 3, "0 EN 1 at 5, 1 EN 0, 0 EN 2 at 9, 2 EN 0", "0 EN hold 5, 1 EN hold"),
        // By bytes as they lie 512 comes before 511, by value after it.
        ("512 and 511", 3, "0 SN 1 at 511, 1 SN 0, 0 SN 2 at 512, 2 SN 0", "0 SN hold 511, 1 SN hold"),
        ("511 and 512", 3, "0 SN 1 at 512, 1 SN 0, 0 SN 2 at 511, 2 SN 0", "0 SN hold 512, 1 SN hold"),
        ("the less number at the second dependency", 4, "0 EN 1, 1 EN 2 at 8, 1 EN 3 at 7, 2 EN 0, 3 EN 0", "0 EN hold, 1 EN hold 8, 2 EN hold"),
        ("the less number, the greater kind", 3, "0 ER 1 at 9, 1 EN 0, 0 EN 2 at 5, 2 EN 0", "0 ER hold 9, 1 EN hold"),
        ("the less number, the greater source", 3, "0 marks 4, 1 marks 1, 0 EN 2 at 9, 1 EN 0, 2 EN 0", "0 EN hold 9, 2 EN hold"),
        ("an interrupt has no number", 3, "0 marks 4, 1 marks 1, 1 EN 0 at 3, 2 EN 0", "0 EN hard 0, 1 EN hold 3"),
        ("an interrupt where its pair has a number", 2, "0 marks 4, 1 marks 2, 0 EN 1 at 77, 1 EN 0 at 3", "0 ER hard 0, 1 EN hold 3"),
        ("two kinds, one number", 2, "0 ER 1 at 6, 0 EN 1 at 6, 1 SN 0 at 7", "0 EN hold 6, 1 SN hold 7"),
        ("a number for each way", 2, "0 EN 1 at 16909060, 1 EN 0 at 67305985", "0 EN hold 16909060, 1 EN hold 67305985"),
        ("the least and the greatest number", 2, "0 EN 1 at 1, 1 EN 0 at 4200000000", "0 EN hold 1, 1 EN hold 4200000000"),
    ];
    let rows = rows.into_iter().map(|(name, k, text, shown)| (name, sketch(k, text), slip(k, shown)));
    rows.map(|(name, sketch, slip)| HandDrawing { name, sketch, slip }).collect()
}
