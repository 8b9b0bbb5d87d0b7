//! The library beside a fast ordinary Rust judge, in the same run: best of several
//! rounds, the two taking turns. No timed test: nothing fails by being slow. It fails
//! only if the two disagree on what they computed, or if a drawing is clean that should
//! not be, or the other way round.

use crate::balances;
use crate::crosslocks;
use crate::feeds;
use crate::gen::{clean_style, try_style, Buffers, Style};
use crate::judges::{library, Balance, Feed, Join};
use crate::numbers;
use crate::rng::Rng;
use crate::run::Rec;
use crate::fast;
use reference::{DEEPEST, DEPTHS, FEED, HOLDS, MARKS, STATES};
use std::hint::black_box;
use std::time::Instant;

type StepFn = fn(&mut [u8], &mut [u8], &mut [u8], &mut [u8], &mut [u8], &[u8]) -> u8;
type AskFn = fn(&[u8], &[u8], &[u8], u64, &mut u64, &mut u32) -> u8;

const ROUNDS: usize = 15;
const DEEP: &str = "step that fills a frame, or makes room";
const BY_TRY: &str = "step by a try of a recursive read";

/// A clean drawing: arrows only upwards, unsafe marks below and safe marks above.
/// Sparse: each class to the next, no marks. Dense: each class to all higher ones by
/// every kind, every mark on its half; three full frames.
fn drawing(k: usize, dense: bool) -> Buffers {
    let mut s = Buffers::opened(k);
    for from in 0..k {
        for to in from + 1..k {
            if dense {
                s.sheet[from * k + to] = 15;
            } else if to == from + 1 {
                s.sheet[from * k + to] = [2, 1, 2, 4][from % 4];
            }
        }
        if dense {
            s.desk[MARKS + from] = if from < k / 2 { 4 + 8 + 64 + 128 } else { 1 + 2 + 16 + 32 };
        }
    }
    // Core 0 in the task, with hard off (its takes leave no marks) and a few holds;
    // in the dense drawing cores 1 to 3 have full frames.
    s.desk[STATES] = 3;
    s.desk[DEPTHS] = 2;
    s.desk[HOLDS] = 0;
    s.desk[HOLDS + 1] = 1;
    if dense {
        for core in 1..4 {
            s.desk[STATES + core] = 3;
            s.desk[DEPTHS + 3 * core] = DEEPEST as u8;
            for i in 0..DEEPEST {
                s.desk[HOLDS + 3 * DEEPEST * core + i] = (i % k) as u8;
            }
        }
    }
    numbers::usual(&mut s);
    s
}

/// The same with core 0's frame one lock short of full.
fn deep(k: usize, dense: bool) -> Buffers {
    let mut s = drawing(k, dense);
    s.desk[DEPTHS] = DEEPEST as u8 - 1;
    for i in 0..DEEPEST - 1 {
        s.desk[HOLDS + i] = (i % (k - 1)) as u8;
    }
    s
}

/// A step in the buffers.
fn on(step: StepFn, s: &mut Buffers, record: &Rec) -> u8 {
    let (sheet, seen, history) = (black_box(&mut s.sheet), black_box(&mut s.seen), black_box(&mut s.history));
    step(black_box(&mut s.desk), sheet, seen, history, &mut s.slip, record.slice())
}

/// Drawings of 64 classes with a cycle: from, to, kinds.
fn faults() -> Vec<(&'static str, Buffers)> {
    let drawn = |kinds: &dyn Fn(usize, usize) -> u8| {
        let mut s = Buffers::opened(64);
        for (at, byte) in s.sheet.iter_mut().enumerate() {
            *byte = kinds(at / 64, at % 64);
        }
        numbers::usual(&mut s);
        s
    };
    let on = |there: bool, kind: u8| if there { kind } else { 0 };
    let ring = |from: usize, to: usize| to == (from + 1) % 64;
    vec![
        ("ring of 64, EN", drawn(&|from, to| on(ring(from, to), 2))),
        ("ring of 64, SN", drawn(&|from, to| on(ring(from, to), 8))),
        ("2 classes a layer, all kinds, 2^31 cycles of 32", drawn(&|from, to| on(to / 2 == (from / 2 + 1) % 32, 15))),
        ("SN ring under an ER order", drawn(&|from, to| on(ring(from, to), 8) | on(from < to, 1))),
        ("full order, one dependency back", drawn(&|from, to| on(from < to || (from, to) == (63, 0), 2))),
        ("full order, the last dependency back", drawn(&|from, to| on(from < to || (from, to) == (63, 62), 2))),
        (
            "ring of 32 above, each into an order below",
            drawn(&|from, to| match from {
                0..32 => on(to < from, 2),
                _ => on(to < 32 || to == 32 + (from + 1) % 32, 2),
            }),
        ),
        // The slowest known.
        (
            "ring of 2 above, each into an SN order below",
            drawn(&|from, to| match from {
                0..62 => on(to < from, 8),
                _ => on(to < 62 || to != from, 2),
            }),
        ),
        ("all dependencies of all kinds", drawn(&|_, _| 15)),
    ]
}

/// One step that shows a cycle, on each of the drawings; whether the two left the same.
fn fault_rows() -> bool {
    let (mut well, mut worst) = (true, 0.0f64);
    let record = Rec::new(0, 2, 0, 0);
    for (name, drawing) in faults() {
        let mut left = [Vec::new(), Vec::new()];
        let time = |step: StepFn, left: &mut Vec<u8>| {
            let mut s = drawing.clone();
            let started = Instant::now();
            let answer = on(step, &mut s, &record);
            let t = started.elapsed().as_secs_f64();
            *left = [vec![answer], s.desk, s.sheet, s.seen, s.history, s.slip].concat();
            t
        };
        let [a, b] = &mut left;
        let times = best(|| time(library::step, a), || time(fast::step, b), 300);
        if left[0] != left[1] || left[0][0] != 1 {
            println!("the two differ, or no fault");
            well = false;
        }
        worst = worst.max(times.0);
        row(&format!("fault: {name}"), times, 1);
    }
    println!("{:54} the slowest fault: {:.3} ms", "", worst * 1e3);
    well
}

/// A clean drawing as above on two benches: of each three pairs one on the first alone, one on the second alone and one on both, and
/// the marks likewise. With a fault the second has a dependency from the last class back to the first.
fn benches(k: usize, dense: bool, fault: bool) -> [Buffers; 2] {
    let mut both = [drawing(k, dense), drawing(k, dense)];
    for (side, b) in both.iter_mut().enumerate() {
        for pair in (0..k * k).filter(|pair| (pair / k + pair % k) % 3 == side) {
            b.sheet[pair] = 0;
        }
        for class in (0..k).filter(|class| class % 3 == side) {
            b.desk[MARKS + class] = 0;
        }
    }
    if fault {
        both[1].sheet[(k - 1) * k] = 2;
    }
    both.iter_mut().for_each(numbers::usual);
    both
}

/// Joins of two benches; whether the two judges left the same.
fn join_rows() -> bool {
    let mut well = true;
    let all = [8, 16, 64].into_iter().flat_map(|k| [(k, false), (k, true)]).flat_map(|(k, dense)| [(k, dense, false), (k, dense, true)]);
    for (k, dense, fault) in all {
        let [one, two] = benches(k, dense, fault);
        let n = if fault { 200 } else { 2000 };
        let mut left = [Vec::new(), Vec::new()];
        let time = |join: Join, left: &mut Vec<u8>| {
            let Buffers { mut desk, mut sheet, mut seen, mut slip, .. } = Buffers::opened(k);
            let mut sum = 0;
            let started = Instant::now();
            for _ in 0..n {
                sum += usize::from(join(
                    black_box(&one.desk), black_box(&one.sheet), black_box(&one.seen), black_box(&two.desk), black_box(&two.sheet),
                    black_box(&two.seen), &mut desk, &mut sheet, &mut seen, &mut slip,
                ));
            }
            let t = started.elapsed().as_secs_f64();
            *left = [vec![u8::from(sum == if fault { n } else { 0 })], desk, sheet, seen, slip].concat();
            t
        };
        let [a, b] = &mut left;
        let times = best(|| time(library::join, a), || time(fast::join, b), ROUNDS);
        if left[0] != left[1] || left[0][0] != 1 {
            println!("the two differ, or no fault, or one that should not be");
            well = false;
        }
        let (dense, fault) = (if dense { "dense" } else { "sparse" }, if fault { "fault" } else { "clean" });
        row(&format!("join, K = {k}, {dense}, {fault}"), times, n);
    }
    well
}

/// A clean drawing as above, or the same with its classes the other way round so that arrows go downwards; and a record
/// whose mark makes a clash of the highest class.
fn clash(k: usize, dense: bool, up: bool) -> (Buffers, Rec) {
    let mut s = drawing(k, dense);
    let top = MARKS + k - 1;
    if up {
        // Safe above; a take in a task makes it unsafe.
        s.desk[top] |= 1;
    } else {
        // Unsafe above; a take in a hard handler makes it safe.
        s.sheet.reverse();
        numbers::usual(&mut s);
        s.desk[MARKS..MARKS + k].reverse();
        s.desk[top] |= 68;
        s.desk[STATES + 4] = 6;
    }
    (s, Rec::new(4, 0, k as u8 - 1, 0))
}

/// One step that faults by a clash, many in one time; whether the two left the same.
fn clash_rows() -> bool {
    const COPIES: usize = 32;
    let mut well = true;
    for (k, dense) in [8, 16, 64].into_iter().flat_map(|k| [(k, false), (k, true)]) {
        for up in [true, false] {
            let (drawing, record) = clash(k, dense, up);
            let mut left = [Vec::new(), Vec::new()];
            let time = |step: StepFn, left: &mut Vec<u8>| {
                let mut copies = vec![drawing.clone(); COPIES];
                let mut sum = 0;
                let started = Instant::now();
                for s in &mut copies {
                    sum += on(step, s, &record);
                }
                let t = started.elapsed().as_secs_f64();
                *left = copies.iter().fold(vec![sum], |all, s| [&all[..], &s.desk, &s.sheet, &s.seen, &s.history, &s.slip].concat());
                t
            };
            let [a, b] = &mut left;
            let times = best(|| time(library::step, a), || time(fast::step, b), 60);
            let clean = !reference::closed_strong_path(&drawing.desk, &drawing.sheet);
            if left[0] != left[1] || left[0][0] != COPIES as u8 || !clean {
                println!("the two differ, or no fault, or one before");
                well = false;
            }
            let (dense, up) = (if dense { "dense" } else { "sparse" }, if up { "upward" } else { "downward" });
            row(&format!("clash of the highest class, K = {k}, {dense}, {up}"), times, COPIES);
        }
    }
    well
}

/// The last class a crosslock in progress since 0, and so many acquires of the others kept in this frame; nothing drawn, or a clean
/// drawing as above, and core 0 in a task with all off.
fn with_history(k: usize, kept: usize, frame: usize, drawn: bool) -> Buffers {
    let mut s = if drawn { drawing(k, false) } else { Buffers::opened(k) };
    s.desk[STATES] = 3;
    crosslocks::put(&mut s, 1 << (k - 1), kept, &|at| [1 + frame as u8, (at % (k - 1) + 64 * (at % 3)) as u8]);
    s
}

/// These records in turn, so many in all; whether the two left the same and all were accepted.
fn turn_row(name: &str, start: &Buffers, records: &[Rec], n: usize) -> bool {
    let mut left = [Vec::new(), Vec::new()];
    let time = |step: StepFn, left: &mut Vec<u8>| {
        let (mut s, mut sum) = (start.clone(), 0u64);
        let started = Instant::now();
        for i in 0..n {
            sum += u64::from(on(step, &mut s, &records[i % records.len()]));
        }
        let t = started.elapsed().as_secs_f64();
        *left = [s.desk, s.sheet, s.seen, s.history, vec![sum.min(255) as u8]].concat();
        t
    };
    let [a, b] = &mut left;
    let times = best(|| time(library::step, a), || time(fast::step, b), ROUNDS);
    row(name, times, n);
    let well = left[0] == left[1] && left[0].last() == Some(&0);
    if !well {
        println!("the two differ, or not clean");
    }
    well
}

/// One step on many copies.
fn copies_row(name: &str, start: &Buffers, record: &Rec) -> bool {
    const COPIES: usize = 64;
    let mut left = [Vec::new(), Vec::new()];
    let time = |step: StepFn, left: &mut Vec<u8>| {
        let (mut copies, mut sum) = (vec![start.clone(); COPIES], 0u64);
        let started = Instant::now();
        for s in &mut copies {
            sum += u64::from(on(step, s, record));
        }
        let t = started.elapsed().as_secs_f64();
        let last = &copies[COPIES - 1];
        *left = [&last.desk, &last.sheet, &last.seen, &last.history, &[sum.min(255) as u8][..]].concat();
        t
    };
    let [a, b] = &mut left;
    let times = best(|| time(library::step, a), || time(fast::step, b), 60);
    row(name, times, COPIES);
    let well = left[0] == left[1] && left[0].last() == Some(&0);
    if !well {
        println!("the two differ, or not clean");
    }
    well
}

/// Crosslocks in progress with a history of 0, 16 and 256; acquires that are kept; a take, a commit over 256 entries, and an exit that
/// strikes out 256 or none of them.
fn crosslock_rows() -> bool {
    let mut well = true;
    let events = [Rec::new(0, 2, 0, 0), Rec::new(0, 3, 0, 0)];
    for k in [8usize, 64] {
        well &= turn_row(&format!("event, none declared, K = {k}"), &drawing(k, false), &events, 20_000);
        for kept in [0, 16, 256] {
            let name = format!("event, a crosslock in progress, history of {kept}, K = {k}");
            well &= turn_row(&name, &with_history(k, kept, 0, true), &events, 20_000);
        }
        let last = k as u8 - 1;
        let mut all = vec![Rec::new(0, 10, last, 0)];
        all.extend((0..256).flat_map(|_| [0, 1].map(|kind| Rec::new(0, kind, 3, 0))));
        all.push(Rec::new(0, 12, last, 0));
        let mut start = with_history(k, 0, 0, false);
        crosslocks::put(&mut start, 1 << last, 0, &|_| [0; 2]);
        start.desk[reference::PROGRESS..reference::KEPT_COUNT].fill(0);
        well &= turn_row(&format!("256 acquires kept and released, K = {k}"), &start, &all, 20 * all.len());
        well &= turn_row(&format!("crosslock taken and released, K = {k}"), &start, &[all[0], all[513]], 20_000);
        let commit = [Rec::new(0, 11, last, 0)];
        well &= turn_row(&format!("commit over 256 entries of the frame, K = {k}"), &with_history(k, 256, 0, false), &commit, 20_000);
        well &= turn_row(&format!("commit over 256 entries of another, K = {k}"), &with_history(k, 256, 3, false), &commit, 20_000);
        for (frame, what) in [(5, "256 entries"), (4, "none of 256 entries")] {
            let mut s = with_history(k, 256, frame, false);
            s.desk[STATES + 1] = 6;
            well &= copies_row(&format!("exit that strikes out {what}, K = {k}"), &s, &Rec::new(1, 9, 0, 0));
        }
    }
    well
}

/// Best seconds of each of two, taking turns.
fn best(mut a: impl FnMut() -> f64, mut b: impl FnMut() -> f64, rounds: usize) -> (f64, f64) {
    let (mut x, mut y) = (f64::MAX, f64::MAX);
    for _ in 0..rounds {
        x = x.min(a());
        y = y.min(b());
    }
    (x, y)
}

/// A log in pieces of 4096 and of 64 bytes, beside the same records by single steps, all taking turns; whether all left
/// the same.
fn feed_rows(k: usize, declared: u64, log: &[Rec], what: &str) -> bool {
    let bytes = feeds::log_behind(feeds::long_header(k as u8, declared), log);
    let feed = |feed: Feed, size: usize, left: &mut Vec<u8>| {
        let mut s = Buffers::opened(k);
        let (mut own, mut sum, mut number) = ([0; FEED], 0u64, 0);
        let started = Instant::now();
        for piece in bytes.chunks(size) {
            sum += u64::from(feed(&mut own, &mut s.desk, &mut s.sheet, &mut s.seen, &mut s.history, &mut s.slip, piece, &mut number));
        }
        let t = started.elapsed().as_secs_f64();
        *left = [s.desk, s.sheet, s.seen, s.history, vec![sum.min(255) as u8, u8::from(number == log.len() as u64)]].concat();
        t
    };
    let steps = |step: StepFn, left: &mut Vec<u8>| {
        let mut s = Buffers::declaring(k, declared);
        let mut sum = 0u64;
        let started = Instant::now();
        for record in log {
            sum += u64::from(on(step, &mut s, record));
        }
        let t = started.elapsed().as_secs_f64();
        *left = [s.desk, s.sheet, s.seen, s.history, vec![sum.min(255) as u8, 1]].concat();
        t
    };
    let (mut best, mut left) = ([f64::MAX; 6], [const { Vec::new() }; 6]);
    for _ in 0..5 {
        let [a, b, c, d, e, f] = &mut left;
        let times = [
            feed(library::feed, 4096, a), feed(fast::feed, 4096, b), feed(library::feed, 64, c), feed(fast::feed, 64, d),
            steps(library::step, e), steps(fast::step, f),
        ];
        for (best, time) in best.iter_mut().zip(times) {
            *best = best.min(time);
        }
    }
    for (i, name) in ["in pieces of 4096", "in pieces of 64", "by single steps"].iter().enumerate() {
        row(&format!("{what}, K = {k}, {name}"), (best[2 * i], best[2 * i + 1]), log.len());
    }
    println!(
        "{:54} pieces to steps: library {:.3} and {:.3}, fast {:.3} and {:.3}", "",
        best[0] / best[4], best[2] / best[4], best[1] / best[5], best[3] / best[5]
    );
    let well = left.iter().all(|l| *l == left[0] && l.ends_with(&[0, 1]));
    if !well {
        println!("pieces and steps differ, or not clean");
    }
    well
}

/// The balances of pieces of 10,000 records; whether the two gave the same, and what is counted. There are many pieces: of one
/// that comes again and again the processor learns which way each branch goes.
fn balance_rows() -> bool {
    let mut well = true;
    for (name, pieces) in balances::to_time() {
        let mut left = [(0, [0; 64]); 2];
        let time = |balance: Balance, left: &mut (u8, balances::Numbers)| {
            let started = Instant::now();
            for piece in &pieces {
                left.0 = balance(black_box(piece), black_box(&mut left.1));
            }
            started.elapsed().as_secs_f64()
        };
        let [a, b] = &mut left;
        let times = best(|| time(library::balance, a), || time(fast::balance, b), 60);
        if pieces.last().map(|piece| [balances::counted(piece); 2]) != Some(left) {
            println!("the two differ, or are wrong");
            well = false;
        }
        row(&format!("balance of 10000 records, {name}"), times, pieces.len());
    }
    well
}

fn row(name: &str, (lib, quick): (f64, f64), calls: usize) {
    let (a, b) = (lib / calls as f64, quick / calls as f64);
    println!(
        "{name:54} {:>9.3} {:>9.3} {:>7.2} {:>12.0} {:>12.0}",
        a * 1e6, b * 1e6, a / b, 1.0 / a, 1.0 / b
    );
}

pub fn run() -> bool {
    let mut well = true;
    println!("{:54} {:>9} {:>9} {:>7} {:>12} {:>12}", "", "lib us", "fast us", "lib/fast", "lib /s", "fast /s");
    // An acquire and a release in turn, so that the desk comes back to where it was.
    for (k, what) in [(8usize, "step"), (16, "step"), (64, "step"), (8, DEEP), (64, DEEP), (8, BY_TRY), (64, BY_TRY)] {
        for dense in [false, true] {
            let mode = if what == BY_TRY { 5 } else { 0 };
            let pair = [0, 1].map(|kind| Rec::new(0, kind, k as u8 - 1, mode));
            let n = 20_000;
            let mut results = [0u64; 2];
            let time = |step: StepFn, result: &mut u64| {
                let mut s = if what == DEEP { deep(k, dense) } else { drawing(k, dense) };
                let mut sum = 0u64;
                let started = Instant::now();
                for i in 0..n {
                    sum += u64::from(on(step, &mut s, &pair[i % 2]));
                }
                let t = started.elapsed().as_secs_f64();
                *result = sum + s.sheet.iter().chain(&s.desk).chain(&s.seen).fold(0, |a, &b| a * 33 % 1_000_003 + u64::from(b));
                if sum != 0 {
                    *result = u64::MAX;
                }
                t
            };
            let [r0, r1] = &mut results;
            let times = best(|| time(library::step, r0), || time(fast::step, r1), ROUNDS);
            if results[0] != results[1] || results[0] == u64::MAX {
                println!("the two differ, or not clean: {results:?}");
                well = false;
            }
            row(&format!("{what}, K = {k}, {}", if dense { "dense" } else { "sparse" }), times, n);
            let [r0, r1] = &mut results;
            let plain = best(|| time(library::step, r0), || time(fast::step_plain, r1), ROUNDS);
            well &= results[0] == results[1];
            row("    the same beside plain loops", plain, n);
        }
    }
    well &= balance_rows();
    well &= fault_rows();
    well &= clash_rows();
    well &= join_rows();
    for k in [8usize, 64] {
        for dense in [false, true] {
            let s = drawing(k, dense);
            let n = 20_000;
            let mut results = [0u64; 2];
            let time = |ask: AskFn, result: &mut u64| {
                let mut sum = 0u64;
                let started = Instant::now();
                for i in 0..n {
                    let (mut word, mut count) = (0, 0);
                    let (desk, sheet, seen) = (black_box(&s.desk), black_box(&s.sheet), black_box(&s.seen));
                    sum += u64::from(ask(desk, sheet, seen, (i % k) as u64, &mut word, &mut count)) << 40;
                    sum = sum.wrapping_add(word ^ u64::from(count));
                }
                let t = started.elapsed().as_secs_f64();
                *result = sum;
                t
            };
            let [r0, r1] = &mut results;
            let times = best(|| time(library::ask, r0), || time(fast::ask, r1), ROUNDS);
            if results[0] != results[1] {
                println!("the two differ: {results:?}");
                well = false;
            }
            row(&format!("question, K = {k}, {}", if dense { "dense" } else { "sparse" }), times, n);
        }
    }
    well &= crosslock_rows();
    let logs: [(fn(usize) -> Style, &str); 3] =
        [(clean_style, "log of 200000"), (try_style, "log with tries"), (clean_style, "log with crosslocks")];
    for ((style, name), k) in logs.into_iter().flat_map(|log| [(log, 8usize), (log, 64)]) {
        // A clean log, every record accepted.
        let n = 200_000;
        let rng = &mut Rng::new(9);
        let style = style(k);
        let declared = if name == logs[2].1 { 1 << (k - 1) | 1 << (k / 2) } else { 0 };
        let mut shadow = Buffers::declaring(k, declared);
        let mut log = Vec::with_capacity(n);
        while log.len() < n {
            let (record, answer) = shadow.next(rng, &style);
            match answer {
                0 => log.push(record),
                1 => {
                    println!("the log isn't clean");
                    return false;
                }
                _ => {}
            }
        }
        let arrows = shadow.sheet.iter().map(|b| b.count_ones()).sum::<u32>();
        let mut ends = [Vec::new(), Vec::new()];
        let time = |step: StepFn, end: &mut Vec<u8>| {
            let mut s = Buffers::declaring(k, declared);
            let mut sum = 0u64;
            let started = Instant::now();
            for r in &log {
                sum += u64::from(on(step, &mut s, r));
            }
            let t = started.elapsed().as_secs_f64();
            *end = [s.desk, s.sheet, s.seen, s.history, vec![sum.min(255) as u8]].concat();
            t
        };
        let [e0, e1] = &mut ends;
        let times = best(|| time(library::step, e0), || time(fast::step, e1), 5);
        if ends[0] != ends[1] || ends[0].last() != Some(&0) {
            println!("the two differ over the log, or not clean");
            well = false;
        }
        row(&format!("{name}, K = {k}, per record"), times, n);
        println!("{:54} {:.3} s and {:.3} s whole; {arrows} hold arrows drawn at the end", "", times.0, times.1);
        if name != logs[1].1 {
            well &= feed_rows(k, declared, &log, name);
        }
    }
    well
}
