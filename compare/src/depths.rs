//! Deep frames, of up to 48 held locks: from opening, on desks that no opening need lead to, and at each place of a desk. What
//! is to come of the fixed ones is worked out here from the documents; no judge is asked.

use crate::drawing::{FRAME, NEXT, X};
use crate::gen::{
    any_buffers, any_class, any_release, any_style, case, damaged, hold_at, may_hold, origin_at, push, release, steps, Buffers,
    Kind, Style,
};
use crate::numbers;
use crate::older;
use crate::rng::Rng;
use crate::run::{Call, Case, Meant, Rec};
use crate::ties::SR;
use reference::{DEEPEST, DEPTHS, DESK, FRAMES, STATES};

// ---------------------------------------------------------------------- random

/// A style by which frames get full: of all classes in rising order, or by locks that are never a cycle.
pub fn filling(rng: &mut Rng, k: usize) -> Style {
    let mut style = any_style(rng, k);
    style.weights = [30, 1, 1];
    style.damaged = 0;
    if k > DEEPEST && rng.mille(500) {
        (style.packed, style.unordered, style.avoid) = (true, 0, 1000);
        style.random = style.random.min(10);
        style.weights = rng.pick(&[[30, 1, 0], [30, 3, 1]]);
    } else {
        style.modes = rng.pick(&[[0, 0, 1, 0, 0, 0], [0, 0, 1, 0, 0, 1], [0, 0, 0, 1, 1, 1]]);
        style.unordered = 1000;
    }
    style
}

/// Acquires mostly, until frames are full and refuse.
fn log(rng: &mut Rng) -> Case {
    let k = rng.pick(&[1, 2, 3, 8, 64, 64, 64, 33, 49]);
    let mut style = filling(rng, k);
    style.cores.truncate(rng.pick(&[1, 1, 2]));
    let mut calls = vec![Call::Open(k as u64, 0)];
    let most = rng.pick(&[70, 120, 160]);
    steps(rng, &style, &mut Buffers::opened(k), most, &mut calls);
    case(any_buffers(rng, k), calls)
}

fn any_depth(rng: &mut Rng) -> usize {
    rng.pick(&[19, 20, 21, 31, 32, 33, 40, 46, 47, 47, 47, 48, 48, 48, rng.clone().under(DEEPEST + 1)])
}

/// One of these places, often the first, the last, or one near 20 or 32.
fn any_place(rng: &mut Rng, from: usize, to: usize) -> usize {
    let near = rng.pick(&[from, from, from, to - 1, 19, 20, 21, 31, 32, 33, 46, 47, rng.clone().between(from, to - 1)]);
    near.clamp(from, to - 1)
}

/// So many different classes in any order, and one more; where K is too small, any.
fn some_classes(rng: &mut Rng, k: usize, n: usize) -> Vec<u8> {
    let mut classes: Vec<u8> = (0..k as u8).collect();
    for i in (1..k).rev() {
        classes.swap(i, rng.under(i + 1));
    }
    while classes.len() <= n {
        classes.push(rng.under(k) as u8);
    }
    classes.truncate(n + 1);
    classes
}

/// Makes a fit desk unfit by a depth, by a lock, or at a place without one; mostly in this frame.
fn spoil(rng: &mut Rng, desk: &mut [u8], k: usize, here: usize) {
    let mut frame = if rng.mille(600) { here } else { rng.under(FRAMES) };
    match rng.under(6) {
        // In a task locks may always be held.
        0 | 1 => {
            if !may_hold(desk[STATES + frame / 3], frame % 3) {
                frame -= frame % 3;
            }
            desk[DEPTHS + frame] = rng.pick(&[49, 49, 49, 50, 64, 68, 84, 112, 113, 128, 255, 255]);
        }
        2 | 3 if desk[DEPTHS + frame] > 0 => {
            let place = any_place(rng, 0, usize::from(desk[DEPTHS + frame]));
            let (byte, bit) = origin_at(frame, place);
            if rng.mille(500) {
                desk[byte] |= bit;
            }
            desk[hold_at(frame, place)] = if k < 64 && rng.mille(650) { k as u8 } else { 192 };
        }
        what => {
            if usize::from(desk[DEPTHS + frame]) == DEEPEST || rng.mille(100) {
                frame = FRAMES - 1;
            }
            let depth = usize::from(desk[DEPTHS + frame]).min(DEEPEST - 1);
            let place = any_place(rng, depth, DEEPEST);
            let (byte, bit) = origin_at(frame, place);
            match what {
                4 => desk[hold_at(frame, place)] = rng.pick(&[1, 64, 128, 255]),
                _ => desk[byte] |= bit,
            }
        }
    }
}

/// A core with about 20, 32 or 48 locks of different classes in its frame, and its records there.
fn on_desk(rng: &mut Rng) -> Case {
    let k = rng.pick(&[64, 64, 63, 49, 49, 50, 33, 8]);
    let mut buffers = any_buffers(rng, k);
    let Buffers { desk, sheet, .. } = &mut buffers;
    desk[..DESK].fill(0);
    desk[0] = k as u8;
    let (core, state) = (rng.under(8), rng.under(9));
    desk[STATES + core] = state as u8;
    let depth = any_depth(rng);
    let mut classes = some_classes(rng, k, depth);
    let free = classes.pop().unwrap_or(0);
    let (tries, mode) = (rng.pick(&[0, 100, 500, 900, 1000]), rng.pick(&[3, 3, 2, 1]));
    for class in classes {
        push(desk, 3 * core + FRAME[state], class + 64 * (rng.under(mode) as u8 + if mode == 1 { 2 } else { 0 }), rng.mille(tries));
    }
    // Other cores, and the frames below.
    let full = rng.pick(&[0, 0, 200, 1000]);
    for frame in (0..FRAMES).filter(|&frame| frame != 3 * core + FRAME[state]) {
        let state = &mut desk[STATES + frame / 3];
        if frame % 3 == 0 && frame / 3 != core && full > 0 {
            *state = rng.under(9) as u8;
        }
        if may_hold(*state, frame % 3) && rng.mille(full) {
            for _ in 0..any_depth(rng) {
                push(desk, frame, (rng.under(k) + 64 * rng.under(3)) as u8, rng.mille(tries));
            }
        }
    }
    sheet[..k * k].fill(if rng.mille(200) { SR } else { 0 });
    numbers::scatter(rng, &mut buffers);
    if rng.mille(400) {
        spoil(rng, &mut buffers.desk, k, 3 * core + FRAME[state]);
        let calls = vec![Call::Step(Rec::new(core as u8, rng.pick(&[0, 0, 2, 3]), free, 0)), Call::Ask(any_class(rng, k))];
        return case(buffers, calls);
    }
    let (mut shadow, mut calls) = (buffers.clone(), Vec::new());
    for _ in 0..rng.between(1, 8) {
        let state = usize::from(shadow.desk[STATES + core]);
        let frame = 3 * core + FRAME[state];
        let depth = usize::from(shadow.desk[DEPTHS + frame]);
        let record = match rng.under(10) {
            0..4 => {
                let class = if rng.mille(700) { free } else { rng.pick(&[rng.clone().under(k), rng.clone().under(k), k]) as u8 };
                Rec::new(core as u8, 0, class, rng.pick(&[0, 1, 2, 2, rng.clone().under(6) as u8]))
            }
            4..8 if depth > 0 => {
                let place = any_place(rng, 0, depth);
                any_release(rng, &shadow.desk, frame, shadow.desk[hold_at(frame, place)] % 64, 150)
            }
            8 => damaged(rng, k),
            _ => {
                let allowed: Vec<u8> = (2..9).filter(|&kind| NEXT[state][usize::from(kind) - 2] != X).collect();
                Rec::new(core as u8, if allowed.is_empty() { 9 } else { rng.pick(&allowed) }, 0, 0)
            }
        };
        rng.next();
        calls.push(Call::Step(record));
        shadow.step(&record);
        if rng.mille(100) {
            calls.push(Call::Ask(any_class(rng, k)));
        }
    }
    case(buffers, calls)
}

pub const KINDS: [Kind; 3] = [
    Kind { name: "deep log", weight: 60, make: log },
    Kind { name: "deep frame", weight: 150, make: on_desk },
    Kind { name: "desk of an earlier version", weight: 60, make: older::on_desk },
];

// ----------------------------------------------------------------------- fixed

pub const FILLED: &str = "each frame filled and emptied";
pub const OVER_EACH: &str = "acquire over each depth";
pub const EACH_PLACE: &str = "each place released";
pub const EACH_DEPTH: &str = "each depth of each frame";
pub const PAST_DEPTH: &str = "each place and the depth";
pub const EACH_SIZE: &str = "each size of a desk";

/// A class for each place of a frame, and one more.
const K: usize = DEEPEST + 1;

/// The record by which a fresh core comes to its frame.
const INTO: [Option<u8>; 3] = [None, Some(6), Some(8)];

/// From opening: each frame filled by waits, by tries and by both, refusing one more of each; then emptied from the newest, from
/// the oldest, and here and there; and once more a lock acquired.
fn filled(_: &mut Rng, each: &mut dyn FnMut(Case) -> bool) -> bool {
    let mut all = (0..FRAMES).flat_map(|frame| (0..3).map(move |how| (frame, how)));
    all.all(|(frame, how)| {
        let (core, into) = ((frame / 3) as u8, INTO[frame % 3]);
        let mut calls = vec![Call::Open(K as u64, 0)];
        calls.extend(into.map(|kind| Call::Step(Rec::new(core, kind, 0, 0))));
        let mut answers = vec![0; calls.len()];
        // Recursive reads where they wait: whatever is drawn is clean.
        let is_try = |at: usize| how == 1 || how == 2 && (at * at + frame) % 3 == 0;
        let mode = |at: usize| if is_try(at) { 3 + (at % 3) as u8 } else { 2 };
        // Accepted so far, and the number of each pair.
        let (mut accepted, mut pairs) = (calls.len() as u32 - 1, vec![0; K * K]);
        for at in 0..DEEPEST {
            calls.push(Call::Step(Rec::new(core, 0, at as u8, mode(at))));
            accepted += 1;
            if mode(at) == 2 {
                (0..at).for_each(|older| pairs[older * K + at] = accepted);
            }
        }
        answers.resize(calls.len(), 0);
        calls.extend((0..6).map(|mode| Call::Step(Rec::new(core, 0, DEEPEST as u8, mode))));
        answers.resize(calls.len(), 8);
        for at in 0..DEEPEST {
            let class = [DEEPEST - 1 - at, at, at * 29 % DEEPEST][(how + frame / 3) % 3];
            calls.push(Call::Step(Rec::new(core, 1, class as u8, mode(class))));
        }
        calls.push(Call::Step(Rec::new(core, 0, DEEPEST as u8, 5)));
        answers.resize(calls.len(), 0);
        let numbers = Some((accepted + DEEPEST as u32 + 1, pairs));
        let meant = Some(Meant { answers, numbers, ..Meant::default() });
        each(Case { name: FILLED, meant, ..case(Buffers::opened(K), calls) })
    })
}

/// An acquire in each mode over each number of locks, of different classes and in all modes, some of them tries.
fn over_each(_: &mut Rng, each: &mut dyn FnMut(Case) -> bool) -> bool {
    const COUNT: u32 = 70_000;
    let modes = (0..6).flat_map(|mode| [0, 3, 5, 6].map(|state| (mode, state)));
    let mut all = modes.flat_map(|(mode, state)| (0..=DEEPEST).map(move |depth| (mode, state, depth)));
    all.all(|(mode, state, depth)| {
        let core = depth % 8;
        let mut buffers = Buffers::opened(K);
        buffers.desk[STATES + core] = state;
        let frame = 3 * core + FRAME[usize::from(state)];
        for at in 0..depth {
            push(&mut buffers.desk, frame, at as u8 + 64 * (at % 3) as u8, (at + usize::from(mode)) % 4 == 0);
        }
        numbers::set_count(&mut buffers.desk, COUNT);
        let mut pairs = vec![0; K * K];
        if depth < DEEPEST && mode < 3 {
            (0..depth).for_each(|at| pairs[at * K + DEEPEST] = COUNT + 1);
        }
        let acquire = |class: usize| Call::Step(Rec::new(core as u8, 0, class as u8, mode));
        // In a full frame 4 is before 8.
        let (calls, answers, count) = match depth {
            DEEPEST => (vec![acquire(DEEPEST), acquire(K)], vec![8, 4], COUNT),
            _ => (vec![acquire(DEEPEST)], vec![0], COUNT + 1),
        };
        let meant = Some(Meant { answers, numbers: Some((count, pairs)), ..Meant::default() });
        each(Case { name: OVER_EACH, meant, ..case(buffers, calls) })
    })
}

/// Each place of each frame released: of a full one, at some depths of a frame of each sort, and one place at each other depth. All
/// other frames are full of tries and waits.
fn each_place(rng: &mut Rng, each: &mut dyn FnMut(Case) -> bool) -> bool {
    let depths = (0..FRAMES).flat_map(|frame| (1..=DEEPEST).map(move |depth| (frame, depth)));
    let mut all = depths.flat_map(|(frame, depth)| {
        let of_all = depth == DEEPEST || [0, 10, 23].contains(&frame) && [2, 3, 8, 9, 20, 21, 22, 32, 33, 47].contains(&depth);
        (0..depth).filter(move |&place| of_all || place == 29 * (frame + depth) % depth).map(move |place| (frame, depth, place))
    });
    all.all(|(frame, depth, place)| {
        let core = frame / 3;
        let mut buffers = Buffers::opened(DEEPEST);
        let desk = &mut buffers.desk;
        desk[STATES..STATES + 8].fill(8);
        desk[STATES + core] = rng.pick([&[1, 2, 3][..], &[4, 5], &[6, 7, 8]][frame % 3]);
        for other in 0..FRAMES {
            let most = if other == frame { depth } else { DEEPEST };
            for i in 0..if may_hold(desk[STATES + other / 3], other % 3) { most } else { 0 } {
                // Recursive reads: whatever is drawn is clean.
                push(desk, other, i as u8 + 64 * 2, rng.mille(600));
            }
        }
        let calls = vec![Call::Step(release(desk, frame, place as u8)), Call::Ask(0)];
        buffers.slip.fill(9);
        each(Case { name: EACH_PLACE, ..case(buffers, calls) })
    })
}

/// Desks of three classes on which every frame may have locks: a question and a step on another core, both refused or both
/// not.
fn fits_or_not(name: &'static str, buffers: Buffers, frame: usize, fits: bool) -> Case {
    let core = (frame / 3 + 1) % 8;
    let answers = if fits { vec![0, 0] } else { vec![11, 11] };
    let meant = Some(Meant { answers, ..Meant::default() });
    Case { name, meant, ..case(buffers, vec![Call::Ask(0), Call::Step(Rec::new(core as u8, 0, 0, 5))]) }
}

fn all_may_hold() -> Buffers {
    let mut buffers = Buffers::opened(3);
    buffers.desk[STATES..STATES + 8].fill(8);
    buffers
}

/// Each depth byte with many values, above zeros: locks of class 0.
fn each_depth(_: &mut Rng, each: &mut dyn FnMut(Case) -> bool) -> bool {
    let values = || (0..=66).chain([68, 80, 84, 96, 111, 112, 113, 127, 128, 148, 176, 177, 192, 212, 240, 241, 254, 255]);
    (0..FRAMES).flat_map(|frame| values().map(move |value| (frame, value))).all(|(frame, value)| {
        let mut buffers = all_may_hold();
        buffers.desk[DEPTHS + frame] = value;
        each(fits_or_not(EACH_DEPTH, buffers, frame, usize::from(value) <= DEEPEST))
    })
}

/// Each place: right past the depth and in an empty frame a byte that is not 0, or an origin; and right below the depth an origin, a
/// class of K, and a byte of 192.
fn past_depth(_: &mut Rng, each: &mut dyn FnMut(Case) -> bool) -> bool {
    let places = (0..FRAMES).flat_map(|frame| (0..DEEPEST).map(move |place| (frame, place)));
    let mut all = places.flat_map(|(frame, place)| (0..7).map(move |what| (frame, place, what)));
    all.all(|(frame, place, what)| {
        let mut buffers = all_may_hold();
        let desk = &mut buffers.desk;
        let depth = [place, place, 0, 0, place + 1, place + 1, place + 1][what];
        for at in 0..depth {
            push(desk, frame, (at % 3 + 64 * (at % 2)) as u8, at % 5 == 2);
        }
        let (byte, bit) = origin_at(frame, place);
        match what {
            0 | 2 => desk[hold_at(frame, place)] = [1, 64, 128, 192, 2, 255][place % 6],
            1 | 3 | 4 => desk[byte] |= bit,
            5 => desk[hold_at(frame, place)] = 3 + 64 * (place % 3) as u8,
            _ => desk[hold_at(frame, place)] = 192 + (place % 3) as u8,
        }
        each(fits_or_not(PAST_DEPTH, buffers, frame, what == 4))
    })
}

/// Desks of many lengths: as opened, and with a lock in core 0's task. A step and a question; then an opening, and both again.
fn each_size(_: &mut Rng, each: &mut dyn FnMut(Case) -> bool) -> bool {
    let near = [0..=2, 96..=100, 570..=650, 1240..=1260, 1385..=1410].into_iter().flatten();
    let lengths = near.chain([320, 960, 1024, 1500, 2 * DESK, 4096]);
    let mut all = lengths.flat_map(|length| [(1, false), (3, true), (64, false)].map(|with| (length, with)));
    all.all(|(length, (k, held))| {
        let mut buffers = Buffers::opened(k);
        if held {
            push(&mut buffers.desk, 0, 2 + 64 * 2, false);
        }
        buffers.desk.resize(length, 0);
        let two = || [Call::Step(Rec::new(1, 0, 0, 2)), Call::Ask(0)];
        let calls = two().into_iter().chain([Call::Open(k as u64, 0)]).chain(two()).collect();
        let answers = if length >= DESK { vec![0; 5] } else { vec![11, 11, 2, 11, 11] };
        let meant = Some(Meant { answers, ..Meant::default() });
        each(Case { name: EACH_SIZE, meant, ..case(buffers, calls) })
    })
}

type Make = fn(&mut Rng, &mut dyn FnMut(Case) -> bool) -> bool;

/// The cases, until one is answered with false.
pub fn fixed(each: &mut dyn FnMut(Case) -> bool) {
    const ALL: [Make; 7] = [over_each, older::fixed, each_size, each_depth, each_place, past_depth, filled];
    let rng = &mut Rng::new(20_260_105);
    let _ = ALL.iter().all(|make| make(rng, each));
}
