//! Desks of earlier versions, which had 20 held locks per frame: 578 bytes, 638 with the origin bits and 642 with the count.
//! They are made here, and what is to come of the ones by hand is worked out here from the documents; no judge is asked.

use crate::gen::{any_buffers, any_k, any_release, any_style, case, fit_desk, hold_at, origin_at, push, some_calls, Buffers};
use crate::numbers;
use crate::rng::Rng;
use crate::run::{Call, Case, Meant, Rec};
use reference::{COUNT as COUNT_NOW, DEPTHS, DESK as DESK_NOW, FRAMES, HOLDS, MARKS, ORIGINS as ORIGINS_NOW, STATES};

/// How many locks a frame had, and where things lay.
pub const DEEPEST: usize = 20;
pub const ORIGINS: usize = HOLDS + FRAMES * DEEPEST;
pub const COUNT: usize = ORIGINS + FRAMES * DEEPEST / 8;
pub const DESK: usize = COUNT + 4;
/// How long the desk was: without origin bits, without the count, and with both.
pub const SIZES: [usize; 3] = [ORIGINS, COUNT, DESK];

/// The same desk in the old layout. No frame has more than 20 locks.
pub fn old(desk: &[u8]) -> Vec<u8> {
    let mut old = vec![0; DESK];
    old[..HOLDS].copy_from_slice(&desk[..HOLDS]);
    for place in 0..FRAMES * DEEPEST {
        let (frame, at) = (place / DEEPEST, place % DEEPEST);
        old[HOLDS + place] = desk[hold_at(frame, at)];
        let (byte, bit) = origin_at(frame, at);
        old[ORIGINS + place / 8] |= u8::from(desk[byte] & bit != 0) << (place % 8);
    }
    old[COUNT..].copy_from_slice(&numbers::count(desk).to_le_bytes());
    old
}

/// What an earlier version would read in these bytes, as a desk in the layout of today. None where they are too few or a depth
/// was over its limit.
pub fn read_as_old(desk: &[u8]) -> Option<Vec<u8>> {
    let old = desk.get(..DESK)?;
    if old[DEPTHS..MARKS].iter().any(|&depth| usize::from(depth) > DEEPEST) {
        return None;
    }
    let mut new = vec![0; DESK_NOW];
    new[..HOLDS].copy_from_slice(&old[..HOLDS]);
    for place in 0..FRAMES * DEEPEST {
        let (frame, at) = (place / DEEPEST, place % DEEPEST);
        new[hold_at(frame, at)] = old[HOLDS + place];
        let (byte, bit) = origin_at(frame, at);
        if old[ORIGINS + place / 8] >> (place % 8) & 1 == 1 {
            new[byte] |= bit;
        }
    }
    numbers::set_count(&mut new, u32::from_le_bytes(old[COUNT..].try_into().unwrap()));
    Some(new)
}

/// Whether an old desk and the same one in the layout of today have the same bytes, with zeros behind the old ones: no
/// record is counted, and locks are held by waits in core 0's task alone.
pub fn reads_the_same(desk: &[u8]) -> bool {
    let others = desk[DEPTHS + 1..MARKS].iter().all(|&depth| depth == 0);
    others
        && (1..=DEEPEST).contains(&usize::from(desk[DEPTHS]))
        && desk[HOLDS + DEEPEST..DESK_NOW].iter().all(|&byte| byte == 0)
}

/// A desk and sheets from a run in which no frame gets more than 20 locks, in the layout of today.
fn run(rng: &mut Rng, k: usize) -> Buffers {
    let mut style = any_style(rng, k);
    (style.avoid, style.damaged) = (1000, 0);
    let mut shadow = Buffers::opened(k);
    for _ in 0..rng.pick(&[1, 3, 10, 40]) {
        let before = shadow.clone();
        shadow.next(rng, &style);
        if shadow.desk[DEPTHS..MARKS].iter().any(|&depth| usize::from(depth) > DEEPEST) {
            shadow = before;
        }
    }
    shadow
}

/// The same of a fit desk that no opening need lead to.
fn foreign(rng: &mut Rng, k: usize) -> Buffers {
    let mut b = fit_desk(rng, k);
    let held: Vec<(usize, Vec<u8>)> = (0..FRAMES).map(|f| (f, b.desk[hold_at(f, 0)..hold_at(f, DEEPEST)].to_vec())).collect();
    let depths = b.desk[DEPTHS..MARKS].to_vec();
    let count = numbers::count(&b.desk);
    b.desk[DEPTHS..MARKS].fill(0);
    b.desk[HOLDS..DESK_NOW].fill(0);
    for (frame, locks) in held {
        for &lock in &locks[..usize::from(depths[frame]).min(DEEPEST)] {
            push(&mut b.desk, frame, lock, rng.mille(300));
        }
    }
    numbers::set_count(&mut b.desk, count);
    b
}

/// A few locks in core 0's task, none of them a try, and nothing counted or drawn.
fn same(rng: &mut Rng, k: usize) -> Buffers {
    let mut b = Buffers::opened(k);
    b.desk[STATES] = rng.under(4) as u8;
    for _ in 0..rng.pick(&[1, 2, 5, 19, 20]) {
        push(&mut b.desk, 0, (rng.under(k) + 64 * rng.under(3)) as u8, false);
    }
    b
}

/// An old desk of one of the three lengths in a buffer of its own length, of one too short today, or of a longer one, with
/// zeros or other bytes behind it.
fn lent(rng: &mut Rng, mut b: Buffers) -> Buffers {
    let size = rng.pick(&[SIZES[0], SIZES[1], DESK, DESK, DESK]);
    let mut desk = old(&b.desk);
    desk.truncate(size);
    let longer = rng.pick(&[DESK_NOW, DESK_NOW, DESK_NOW, DESK_NOW + 1, DESK_NOW + 50]);
    let length = rng.pick(&[size, size, rng.clone().pick(&[DESK_NOW - 1, ORIGINS_NOW, COUNT_NOW]), longer, longer, longer, longer, longer, longer]);
    let zeros = rng.mille(600);
    while desk.len() < length {
        desk.push(if zeros || rng.mille(990) { 0 } else { rng.byte() });
    }
    if length > size && rng.mille(100) {
        desk.truncate(size);
        desk.extend(rng.bytes(length - size));
    }
    b.desk = desk;
    b
}

/// Any old desk, and where it lies.
pub fn any(rng: &mut Rng, k: usize) -> Buffers {
    let b = match rng.under(5) {
        0 => same(rng, k),
        1 => foreign(rng, k),
        _ => run(rng, k),
    };
    lent(rng, b)
}

pub fn on_desk(rng: &mut Rng) -> Case {
    let k = any_k(rng);
    let buffers = any(rng, k);
    let mut calls = some_calls(rng, k, 2);
    calls.insert(rng.under(3), Call::Ask(rng.under(k) as u64));
    if buffers.desk.len() >= DESK_NOW && buffers.desk[DEPTHS] > 0 {
        let class = buffers.desk[HOLDS] % 64;
        calls.insert(0, Call::Step(any_release(rng, &buffers.desk, 0, class, 500)));
    }
    if rng.mille(300) {
        calls.push(Call::Open(k as u64, 0));
        calls.extend(some_calls(rng, k, 2));
    }
    case(buffers, calls)
}

// ----------------------------------------------------------------------- fixed

pub const OLD_DESKS: &str = "desks of earlier versions";

/// Locks by frame as class + 64 x mode, tries among them, and the count; and whether the old bytes with zeros behind are fit
/// today.
type Row = (&'static [(usize, u8, bool)], u32, bool);

const ROWS: [Row; 14] = [
    // Nothing, and core 0's task.
    (&[], 0, true),
    (&[(0, 1, false)], 0, true),
    (&[(0, 1, false), (0, 66, false), (0, 130, false)], 0, true),
    // Counted: byte 638 is place 12 of core 3's hard frame.
    (&[(0, 1, false)], 1, false),
    (&[], 1, false),
    (&[], 256, false),
    (&[], 0x0100_0000, false),
    // A try of core 0's task: byte 578 is the first place of core 3's soft frame.
    (&[(0, 1, true)], 0, false),
    (&[(0, 1, false), (0, 2, true)], 0, false),
    // Another frame: byte 118 is place 20 of core 0's task.
    (&[(1, 1, false)], 0, false),
    (&[(0, 1, false), (2, 65, false)], 0, false),
    (&[(3, 1, false)], 0, false),
    (&[(23, 2, false)], 0, false),
    // An exclusive lock of class 0 is a 0 byte wherever it is.
    (&[(3, 0, false), (6, 0, false)], 0, true),
];

/// Those by hand, in each length, with nothing behind, with zeros, and with one byte behind that is not 0: a question, an event of
/// another core, and where they are fit core 0's locks released; then those of some runs.
pub fn fixed(rng: &mut Rng, each: &mut dyn FnMut(Case) -> bool) -> bool {
    let tick = Call::Step(Rec::new(5, 2, 0, 0));
    let lengths = || SIZES.into_iter().chain([DESK + 1, DESK_NOW - 1, DESK_NOW, DESK_NOW + 1, DESK_NOW + 700]);
    for (locks, count, fit) in ROWS {
        let mut desk = Buffers::opened(3).desk;
        // In state 8 each frame may have locks.
        desk[STATES..STATES + 5].fill(8);
        desk[STATES + 7] = 8;
        locks.iter().for_each(|&(frame, lock, is_try)| push(&mut desk, frame, lock, is_try));
        numbers::set_count(&mut desk, count);
        let old = old(&desk);
        // Out of the handlers, then the newest first: as tries, which no fit one is, and as they were acquired.
        let mut releases = vec![(Rec::new(0, 9, 0, 0), 0), (Rec::new(0, 7, 0, 0), 0)];
        for (_, lock, _) in locks.iter().rev().filter(|lock| lock.0 == 0) {
            let release = |mode: u8| Rec::new(0, 1, lock % 64, mode);
            releases.extend([(release(lock / 64 + 3), 5), (release(lock / 64), 0)]);
        }
        let (in_task, tries) = (locks.iter().all(|lock| lock.0 == 0), locks.iter().any(|lock| lock.2));
        for size in SIZES {
            // The shorter ones have no count, and the shortest no tries.
            let fit = fit || in_task && (size == ORIGINS || size == COUNT && !tries);
            for length in lengths().filter(|&length| length >= size) {
                // Zeros, or a byte: an unused place right behind, one near the end, the first and the last of the origins.
                let bytes = [size, 1200, ORIGINS_NOW, COUNT_NOW - 1, COUNT_NOW].map(Some);
                for behind in [None].into_iter().chain(bytes) {
                    let mut b = Buffers::opened(3);
                    b.desk = old[..size].to_vec();
                    b.desk.resize(length, 0);
                    if let Some(at) = behind {
                        if at >= length {
                            continue;
                        }
                        b.desk[at] = 64;
                    }
                    // Behind the desk of today nothing matters, and a count may be any.
                    let still = matches!(behind, None | Some(COUNT_NOW));
                    let fits = length >= DESK_NOW && fit && still;
                    let (mut calls, mut answers) = (vec![Call::Ask(0), tick.clone()], vec![0, 0]);
                    for (record, answer) in &releases {
                        calls.push(Call::Step(*record));
                        answers.push(*answer);
                    }
                    if !fits {
                        answers.fill(11);
                    }
                    let meant = Some(Meant { answers, ..Meant::default() });
                    if !each(Case { name: OLD_DESKS, meant, ..case(b, calls) }) {
                        return false;
                    }
                }
            }
        }
    }
    (0..600).all(|turn| {
        let k = [1, 2, 3, 8, 8, 64][turn % 6];
        let mut b = any(rng, k);
        // Now and then in buffers full of anything.
        if turn % 7 == 0 {
            let desk = std::mem::take(&mut b.desk);
            b = any_buffers(rng, k);
            b.desk = desk;
        }
        let (acquire, release) = (Rec::new(0, 0, 0, 2), Rec::new(0, 1, 0, (turn % 6) as u8));
        let calls =
            vec![Call::Ask(0), tick.clone(), Call::Step(acquire), Call::Step(release), Call::Open(k as u64, 0), tick.clone()];
        each(Case { name: OLD_DESKS, ..case(b, calls) })
    })
}
