//! The count of accepted records and the first-seen numbers: desks that no opening need lead to get theirs here, and the
//! cases about them are made here. What is to come of the fixed ones is worked out here from the documents; no judge is
//! asked.

use crate::clashes;
use crate::gen::{any_buffers, any_class, any_style, case, damaged, fit_desk, push, read, steps, Buffers, Kind};
use crate::rng::Rng;
use crate::run::{Call, Case, Meant, Rec};
use crate::ties::{self, Sketch, EN, ER, SN, SR};
use reference::{COUNT, DEEPEST, MARKS, STATES};

/// The last count: no record is accepted any more.
pub const FULL: u32 = 4_294_967_295;

/// Kinds but no number, and a number but no kinds. A number above the count fits, as any other does.
pub const NO_NUMBER: &str = "kinds but number 0";
pub const NO_KINDS: &str = "number but no kinds";

fn word(bytes: &[u8], at: usize) -> u32 {
    bytes[at..at + 4].iter().rev().fold(0, |word, &byte| word << 8 | u32::from(byte))
}

fn set_word(bytes: &mut [u8], at: usize, word: u32) {
    for (i, byte) in bytes[at..at + 4].iter_mut().enumerate() {
        *byte = (word >> (8 * i)) as u8;
    }
}

pub fn count(desk: &[u8]) -> u32 {
    word(desk, COUNT)
}

pub fn set_count(desk: &mut [u8], count: u32) {
    set_word(desk, COUNT, count);
}

/// The number of a pair, by its place from x K + to.
pub fn number(seen: &[u8], pair: usize) -> u32 {
    word(seen, 4 * pair)
}

pub fn set_number(seen: &mut [u8], pair: usize, number: u32) {
    set_word(seen, 4 * pair, number);
}

/// A dependency as the slip has it.
pub fn entry(class: u8, kind: u8, source: u8, number: u32) -> Vec<u8> {
    let mut entry = vec![class, kind, source, 0, 0, 0, 0];
    set_word(&mut entry, 3, number);
    entry
}

/// Whether no two of the four bytes are the same.
pub fn distinct(number: u32) -> bool {
    let b = number.to_be_bytes();
    (0..4).all(|i| !b[..i].contains(&b[i]))
}

// ---------------------------------------------------------------- for any desk

/// The usual numbers, mostly with four different bytes, and the count with them.
pub const USUAL: u32 = 4_200_000_000;

pub fn usual_number(pair: usize) -> u32 {
    987_333 * (1 + pair as u32)
}

/// Numbers for the pairs that have kinds, and none for the others.
fn give_all(b: &mut Buffers, count: u32, mut number: impl FnMut(usize) -> u32) {
    let pairs = b.k() * b.k();
    set_count(&mut b.desk, count);
    b.seen[..4 * pairs].fill(0);
    for pair in (0..pairs).filter(|&pair| b.sheet[pair] != 0) {
        set_number(&mut b.seen, pair, number(pair).max(1));
    }
}

pub fn usual(b: &mut Buffers) {
    give_all(b, USUAL, usual_number);
}

/// Counts after which another byte of it changes.
const TURNS: [u32; 4] = [255, 65_535, 16_777_215, 2_147_483_647];
/// Four bytes that all differ.
const DISTINCT: [u32; 6] = [0x0102_0304, 0x0403_0201, 0x80FE_017F, 0xFF00_01FE, 0x1234_5678, 0xFEDC_BA98];

fn any_count(rng: &mut Rng) -> u32 {
    match rng.under(20) {
        0..4 => rng.under(20) as u32,
        4..8 => rng.pick(&TURNS) - 2 + rng.under(5) as u32,
        8 | 9 => FULL - rng.between(1, 4) as u32,
        10 => FULL,
        11..15 => rng.pick(&DISTINCT),
        _ => rng.next() as u32 >> rng.under(32),
    }
}

/// One up to the count.
fn any_number(rng: &mut Rng, count: u32) -> u32 {
    let number = match rng.under(6) {
        0 => count,
        1 => 1,
        2 => count - rng.under(3).min(count as usize) as u32,
        3 => rng.pick(&TURNS) + rng.under(2) as u32,
        4 => rng.pick(&DISTINCT),
        _ => 1 + rng.next() as u32 % count.max(1),
    };
    number.min(count)
}

/// One above the count, where there is one: by one, by the highest byte though the others are 0, the last, or any.
fn any_above(rng: &mut Rng, count: u32) -> u32 {
    if count == FULL {
        return FULL;
    }
    let by_high = if count >> 24 < 255 { ((count >> 24) + 1) << 24 } else { count + 1 };
    let any = count + 1 + rng.next() as u32 % (FULL - count);
    rng.pick(&[count + 1, count + 1, FULL, by_high, any])
}

/// Numbers of one sort: any up to the count, all the count, rising or falling from pair to pair, any above the count, or both.
fn scatter_to(rng: &mut Rng, b: &mut Buffers, count: u32) {
    let sort = rng.under(8);
    let mut turn = 0;
    give_all(b, count, |_| {
        turn += 1;
        match sort {
            0 => count,
            1 => turn,
            2 => count.saturating_sub(turn),
            3 => any_above(rng, count),
            4 if rng.mille(300) => any_above(rng, count),
            _ => any_number(rng, count),
        }
    });
}

/// Gives a fit desk any count, and any numbers.
pub fn scatter(rng: &mut Rng, b: &mut Buffers) {
    let count = any_count(rng);
    scatter_to(rng, b, count);
}

/// Gives a pair a number if it has none.
pub fn give(seen: &mut [u8], pair: usize) {
    if seen.len() >= 4 * pair + 4 && number(seen, pair) == 0 {
        set_number(seen, pair, 1);
    }
}

/// Some pair: the first, the last, or any.
fn some_pair(rng: &mut Rng, k: usize) -> usize {
    let any = rng.under(k * k);
    rng.pick(&[0, k * k - 1, any, any])
}

/// Violates one clause about numbers in a fit desk.
pub fn spoil(rng: &mut Rng, clause: &str, sheet: &mut [u8], seen: &mut [u8], k: usize) {
    let pair = some_pair(rng, k);
    if clause == NO_NUMBER {
        if sheet[pair] == 0 {
            sheet[pair] = rng.pick(&[ER, EN, SR, SR, SN, 15]);
        }
        set_number(seen, pair, 0);
    } else {
        sheet[pair] = 0;
        give(seen, pair);
    }
}

/// Gives some pair of a fit desk a number above the count, by another number or by another count: it fits.
fn lift(rng: &mut Rng, desk: &mut [u8], sheet: &mut [u8], seen: &mut [u8]) {
    let k = usize::from(desk[0]);
    let pair = some_pair(rng, k);
    if sheet[pair] == 0 {
        sheet[pair] = rng.pick(&[ER, EN, SR, SR, SN, 15]);
    }
    give(seen, pair);
    let most = (0..k * k).map(|pair| number(seen, pair)).max().unwrap_or(0);
    if count(desk) == FULL || rng.mille(300) {
        set_count(desk, rng.pick(&[most - 1, 0]));
    } else {
        set_number(seen, pair, any_above(rng, count(desk)));
    }
}

// ---------------------------------------------------------------------- random

/// Near the last count, and at it: records of all sorts, refused ones too.
fn near_full(rng: &mut Rng) -> Case {
    let k = rng.pick(&[1, 2, 3, 8, 8, 64]);
    let mut buffers = fit_desk(rng, k);
    buffers.desk[1] = u8::from(rng.mille(40));
    if rng.mille(700) {
        // Seldom a cycle.
        buffers.sheet[..k * k].fill(0);
        buffers.desk[MARKS..MARKS + 64].fill(0);
        for (low, high) in (0..k).flat_map(|low| (low + 1..k).map(move |high| (low, high))) {
            if rng.mille(300) {
                buffers.sheet[low * k + high] = rng.between(1, 15) as u8;
            }
        }
    }
    let count = FULL - rng.pick(&[0, 0, 1, 1, 2, 3, 7]);
    scatter_to(rng, &mut buffers, count);
    let mut style = any_style(rng, k);
    style.random = rng.pick(&[100, 300, 600]);
    style.damaged = rng.pick(&[20, 100]);
    style.avoid = rng.pick(&[0, 1000]);
    let mut calls = Vec::new();
    let most = rng.pick(&[4, 12, 20]);
    steps(rng, &style, &mut buffers.clone(), most, &mut calls);
    case(buffers, calls)
}

/// An acquire that draws on pairs with and without numbers: a new kind, the same again, the first. Often it closes a cycle
/// with a pair that was numbered before, or over an interrupt between two classes that have a number.
pub fn later_kind(rng: &mut Rng) -> Case {
    let k = rng.pick(&[1, 2, 2, 3, 3, 4, 8, 64]);
    let mut s = Sketch::new(k);
    let to = rng.under(k);
    let held: Vec<usize> = (0..rng.pick(&[1, 1, 2, 3])).map(|_| rng.under(k)).collect();
    let one = |rng: &mut Rng| rng.pick(&[ER, EN, SR, SR, SN]);
    for &from in &held {
        if rng.mille(700) {
            s.draw(from, to, one(rng));
        }
        if rng.mille(700) {
            s.draw(to, from, one(rng));
        }
        if rng.mille(300) {
            s.mark(from, rng.pick(&[4, 8, 12, 64, 128, 68, 136]));
            s.mark(to, rng.pick(&[1, 2, 3, 16, 32, 17, 34]));
        }
    }
    for _ in 0..rng.pick(&[0, 0, 1, 4]) {
        s.draw(rng.under(k), rng.under(k), one(rng));
    }
    let core = rng.under(8);
    let mut buffers = any_buffers(rng, k);
    s.fill(&mut buffers);
    for &class in &held {
        push(&mut buffers.desk, 3 * core, (class + 64 * rng.under(3)) as u8, rng.mille(200));
    }
    scatter(rng, &mut buffers);
    let mode = if rng.mille(100) { rng.between(3, 5) } else { rng.under(3) };
    let mut calls = vec![Call::Step(Rec::new(core as u8, 0, to as u8, mode as u8))];
    if rng.mille(300) {
        calls.push(Call::Step(Rec::new(core as u8, 0, rng.under(k) as u8, rng.under(6) as u8)));
    }
    if rng.mille(200) {
        calls.insert(0, Call::Step(damaged(rng, k)));
    }
    case(buffers, calls)
}

/// A step and a question, in either order.
fn both_calls(rng: &mut Rng, k: usize) -> Vec<Call> {
    let mut calls = vec![Call::Step(Rec::new(rng.under(8) as u8, rng.pick(&[0, 2, 3, 8]), 0, 0)), Call::Ask(any_class(rng, k))];
    if rng.mille(500) {
        calls.reverse();
    }
    calls
}

/// A pair with a number that does not fit, in the sheets or right behind them, where it must not matter.
fn broken(rng: &mut Rng) -> Case {
    let k = rng.pick(&[1, 2, 3, 3, 8, 17, 64]);
    let mut buffers = fit_desk(rng, k);
    let pairs = k * k;
    buffers.desk[1] = u8::from(rng.mille(100));
    let clause = rng.pick(&[NO_NUMBER, NO_KINDS]);
    let Buffers { sheet, seen, .. } = &mut buffers;
    if rng.mille(250) {
        sheet.resize(pairs + 1, 0);
        seen.resize(4 * pairs + 4, 0);
        let (kinds, number) = if clause == NO_NUMBER { (rng.between(1, 255) as u8, 0) } else { (0, rng.next() as u32 | 1) };
        sheet[pairs] = kinds;
        set_number(seen, pairs, number);
    } else {
        spoil(rng, clause, sheet, seen, k);
    }
    let calls = both_calls(rng, k);
    case(buffers, calls)
}

/// Numbers above the count, which fit, and one that is the count.
fn above(rng: &mut Rng) -> Case {
    let k = rng.pick(&[1, 2, 3, 3, 8, 17, 64]);
    let mut buffers = fit_desk(rng, k);
    buffers.desk[1] = u8::from(rng.mille(60));
    let Buffers { desk, sheet, seen, .. } = &mut buffers;
    if rng.mille(150) {
        let most = (0..k * k).map(|pair| number(seen, pair)).max().unwrap_or(0);
        set_count(desk, most);
    } else {
        lift(rng, desk, sheet, seen);
    }
    let calls = both_calls(rng, k);
    case(buffers, calls)
}

pub const KINDS: [Kind; 4] = [
    Kind { name: "near the last count", weight: 80, make: near_full },
    Kind { name: "later kind of a pair", weight: 130, make: later_kind },
    Kind { name: "number that does not fit", weight: 65, make: broken },
    Kind { name: "number above the count", weight: 40, make: above },
];

// ----------------------------------------------------------------------- fixed

pub const BY_HAND: &str = "numbers by hand";
pub const EACH_COUNT: &str = "each count";
pub const EACH_PAIR: &str = "each pair's number";
pub const EACH_BYTE: &str = "each byte of a number";
pub const KINDS_IN_TURN: &str = "two kinds of a pair in turn";
pub const EACH_SIZE: &str = "each size of second sheet and slip";

/// From opening, worked out by hand: K, the records, their answers, the count, the numbers as from>to=number, and the slip.
type Row<'a> = (usize, &'a str, &'a str, u32, &'a str, &'a str);

fn by_hand(each: &mut dyn FnMut(Case) -> bool) -> bool {
    let long = "0:0E -0E ".repeat(130) + "0E 1E 1:1E 0E";
    let long_answers = "0".repeat(263) + "1";
    let rows: [Row; 18] = [
        // P2.
        (3, "0:1E 2E -2E -1E 1:2E 1E", "000001", 6, "1>2=2 2>1=6", "1 EN hold 2, 2 EN hold 6"),
        // Refused ones stand between: 3, 5, 4, 6, 3.
        (3, "0:? 1E -2E 2E 3E H- -2E -1E 1:2E ? 1E", "30504600031", 6, "1>2=2 2>1=6", "1 EN hold 2, 2 EN hold 6"),
        // Nothing is counted after a fault.
        (8, "0:3E -3E H+ 3E -3E 4E", "00011010", 4, "", "3 EN hard 0"),
        // A second kind, a third and a fourth; the same once more.
        (3, "0:0E 1E -1E 1R -1R -0E 0r 1R -1R 1r -1r 1E", "000000000000", 12, "0>1=2", ""),
        // Closed by the second kind of 0 > 1.
        (2, "0:0E 1R 1:1R 0E 2:0E 1E", "000001", 6, "0>1=2 1>0=4", "0 EN hold 2, 1 SN hold 4"),
        // 0 has the hard-unsafe E from record 5, 1 the hard-safe R from record 7; 0 ER 1 hard is less than 0 EN 1.
        (2, "0:h- 0E 1E -1E h+ 1:H+ 1R -1R H- 2:h- s- 1E 0E", "0000000000001", 13, "0>1=3 1>0=13", "0 ER hard 0, 1 EN hold 13"),
        // Two kinds by one record.
        (2, "0:0E t0r 1E", "000", 3, "0>1=3", ""),
        // Tries draw nothing, and are drawn from.
        (3, "0:0E t1E 2E", "000", 3, "0>2=3 1>2=3", ""),
        // A class to itself: SR first, then SN.
        (1, "0:0R 0R 0r", "001", 3, "0>0=2", "0 SN hold 2"),
        // 0 > 2 has the less number, and 0 > 1 is shown: only class, kind and source are compared.
        (
            3, "0:h- s- 0E 2E -2E -0E 0E 1E -1E -0E 1:h- s- t1E t2E 0E", "000000000000001", 15,
            "0>1=8 0>2=4 1>0=15 2>0=15", "0 EN hold 8, 1 EN hold 15",
        ),
        // The other way round, so that the first does not pass by chance.
        (
            3, "0:h- s- 0E 1E -1E -0E 0E 2E -2E -0E 1:h- s- t1E t2E 0E", "000000000000001", 15,
            "0>1=4 0>2=8 1>0=15 2>0=15", "0 EN hold 4, 1 EN hold 15",
        ),
        // Numbers of two bytes.
        (2, &long, &long_answers, 264, "0>1=262 1>0=264", "0 EN hold 262, 1 EN hold 264"),
        // Only events.
        (1, "0:h- h- h+ s- s+ S+ S- H+ H-", "000000000", 9, "", ""),
        // Events that are refused, and exits with a lock held.
        (1, "0:S- H- H+ 0E H- -0E H-", "6600700", 4, "", ""),
        // Later held locks draw to one class at one record.
        (4, "0:0R 1R 2R 3R", "0000", 4, "0>1=2 0>2=3 1>2=3 0>3=4 1>3=4 2>3=4", ""),
        // Another core's locks do not count.
        (3, "0:0E 1:1E 2:2E 0:1E 1:2E", "00000", 5, "0>1=4 1>2=5", ""),
        // Each frame for itself.
        (3, "0:0R S+ 1R H+ 2R 0R -0R -2R H- 2R", "0000000000", 10, "1>2=10 2>0=6", ""),
        // Released and acquired again: the first number stays.
        (2, "0:0R 1R -1R -0R 0R 1R -1R -0R 1:0R 1R", "0000000000", 10, "0>1=2", ""),
    ];
    let mut rows = rows.into_iter();
    rows.all(|(k, log, answers, accepted, numbers, slip)| {
        // In a list of answers 10 has two digits, and nothing else has a 1 but at its end.
        let mut digits: Vec<u8> = answers.bytes().map(|digit| digit - b'0').collect();
        if let Some(fault) = digits.iter().position(|&digit| digit == 1) {
            let after = (digits.len() - fault - 1) / 2;
            digits.truncate(fault + 1);
            digits.extend(vec![10; after]);
        }
        let mut pairs = vec![0; k * k];
        for pair in numbers.split_whitespace() {
            let (classes, number) = pair.split_once('=').unwrap();
            let (from, to) = classes.split_once('>').unwrap();
            let at = from.parse::<usize>().unwrap() * k + to.parse::<usize>().unwrap();
            pairs[at] = number.parse().unwrap();
        }
        let mut calls = vec![Call::Open(k as u64, 0)];
        calls.extend(read(log).into_iter().map(Call::Step));
        let meant = Meant {
            answers: [&[0], &digits[..]].concat(),
            slip: if slip.is_empty() { Vec::new() } else { ties::slip(k, slip) },
            numbers: Some((accepted, pairs)),
            ..Meant::default()
        };
        each(Case { name: BY_HAND, meant: Some(meant), ..case(Buffers::opened(k), calls) })
    })
}

/// A sort of record: on a desk of three classes with all cores in tasks with all off, what it needs there, and it; its
/// answer where it is not refused with 9; and the pair that it draws.
type Sort = (fn(&mut [u8]) -> Rec, u8, Option<usize>);

/// A record over locks held by core 0 in its task.
fn over(desk: &mut [u8], held: &[u8], record: Rec) -> Rec {
    held.iter().for_each(|&lock| push(desk, 0, lock, false));
    record
}

/// A record over a recursive read of class 1 by a try.
fn over_try(desk: &mut [u8], record: Rec) -> Rec {
    push(desk, 0, 1 + 64 * 2, true);
    record
}

/// An event of core 0 in this state.
fn event(desk: &mut [u8], state: u8, kind: u8) -> Rec {
    desk[STATES] = state;
    Rec::new(0, kind, 0, 0)
}

/// On a closed desk; whether a malformed record gets 10 there is left to demand 3's pairs.
fn closed(desk: &mut [u8]) -> Rec {
    desk[1] = 1;
    Rec::new(0, 0, 0, 0)
}

const SORTS: [Sort; 27] = [
    // Acquires: over nothing, of a new pair, of a new kind, of the same kind, of two pairs, by a try; one that faults.
    (|desk| over(desk, &[], Rec::new(0, 0, 0, 0)), 0, None),
    (|desk| over(desk, &[0], Rec::new(0, 0, 2, 0)), 0, Some(2)),
    (|desk| over(desk, &[0], Rec::new(0, 0, 1, 2)), 0, Some(1)),
    (|desk| over(desk, &[0], Rec::new(0, 0, 1, 0)), 0, Some(1)),
    (|desk| over(desk, &[0, 64], Rec::new(0, 0, 2, 2)), 0, Some(2)),
    (|desk| over(desk, &[0], Rec::new(0, 0, 2, 3)), 0, None),
    (|desk| over(desk, &[0], Rec::new(0, 0, 0, 0)), 1, Some(0)),
    // A release, of a try too, and each event.
    (|desk| over(desk, &[1], Rec::new(0, 1, 1, 0)), 0, None),
    (|desk| over_try(desk, Rec::new(0, 1, 1, 5)), 0, None),
    (|desk| event(desk, 3, 2), 0, None),
    (|desk| event(desk, 3, 3), 0, None),
    (|desk| event(desk, 3, 4), 0, None),
    (|desk| event(desk, 3, 5), 0, None),
    (|desk| event(desk, 0, 6), 0, None),
    (|desk| event(desk, 4, 7), 0, None),
    (|desk| event(desk, 0, 8), 0, None),
    (|desk| event(desk, 6, 9), 0, None),
    // Refused; 6 before 7 and 4 before 8 too.
    (|desk| clashes::refused(3, 0, desk), 3, None),
    (|desk| clashes::refused(4, 0, desk), 4, None),
    (|desk| clashes::refused(5, 0, desk), 5, None),
    (|desk| over_try(desk, Rec::new(0, 1, 1, 4)), 5, None),
    (|desk| clashes::refused(6, 0, desk), 6, None),
    (|desk| clashes::refused(7, 0, desk), 7, None),
    (|desk| clashes::refused(8, 0, desk), 8, None),
    (|desk| over(desk, &[1], Rec::new(0, 9, 0, 0)), 6, None),
    (|desk| over(desk, &[128; DEEPEST], Rec::new(0, 0, 3, 0)), 4, None),
    (closed, 10, None),
];

fn each_count(each: &mut dyn FnMut(Case) -> bool) -> bool {
    let near = |turn: u32| turn.saturating_sub(2)..=turn.saturating_add(1);
    let counts = [0, 1, 2, 20].into_iter().chain(TURNS.into_iter().flat_map(near)).chain(DISTINCT).chain(FULL - 4..=FULL);
    // An event that is accepted, draws and marks nothing.
    let tick = Rec::new(5, 3, 0, 0);
    let mut all = counts.flat_map(|count| SORTS.into_iter().map(move |sort| (count, sort)));
    all.all(|(before, (make, answer, drawn))| {
        let mut s = Sketch::new(3);
        if before > 0 {
            s.draw_at(0, 1, EN, 1);
            s.draw_at(1, 2, SN, before);
        }
        let mut buffers = s.buffers();
        set_count(&mut buffers.desk, before);
        let record = make(&mut buffers.desk);
        buffers.slip.fill(7);
        let mut pairs: Vec<u32> = (0..9).map(|pair| number(&buffers.seen, pair)).collect();
        let mut count = before;
        let mut counted = |answer: u8| match answer {
            0 | 1 if count == FULL => 9,
            0 | 1 => {
                count += 1;
                answer
            }
            _ => answer,
        };
        let first = counted(answer);
        let second = counted(if first == 1 || first == 10 { 10 } else { 0 });
        if let Some(pair) = drawn.filter(|&pair| first < 2 && pairs[pair] == 0) {
            pairs[pair] = before + 1;
        }
        let slip = if first == 1 { [&[1][..], &entry(0, EN, 0, before + 1)].concat() } else { vec![7; 22] };
        let meant = Some(Meant { answers: vec![first, second], slip, numbers: Some((count, pairs)), ..Meant::default() });
        each(Case { name: EACH_COUNT, meant, ..case(buffers, vec![Call::Step(record), Call::Step(tick)]) })
    })
}

/// On a desk with this drawing, count and numbers: a question and a step, both refused or both not.
fn fits_or_not(name: &'static str, buffers: Buffers, fits: bool) -> Case {
    let step = match fits {
        false => 11,
        true if count(&buffers.desk) == FULL => 9,
        true => 0,
    };
    let meant = Some(Meant { answers: vec![if fits { 0 } else { 11 }, step], ..Meant::default() });
    Case { name, meant, ..case(buffers, vec![Call::Ask(0), Call::Step(Rec::new(3, 3, 0, 0))]) }
}

/// Each pair, and the one behind the last: without a number, with a number but no kinds, and, which all fit, above the count, at it,
/// and with 1. The others all have a kind, or none of them has.
fn each_pair(each: &mut dyn FnMut(Case) -> bool) -> bool {
    let whats = 5;
    let mut all = [1, 2, 3, 8, 64].into_iter().flat_map(|k| [false, true].map(|full| (k, full))).flat_map(|(k, full)| {
        (0..=k * k).flat_map(move |pair| (0..whats).map(move |what| (k, full, pair, what)))
    });
    all.all(|(k, full, pair, what)| {
        // Of 64 classes one of these for each pair.
        if k == 64 && pair < k * k && (pair + pair / 64 + usize::from(full)) % (2 * whats) != what {
            return true;
        }
        let mut s = Sketch::new(k);
        if full {
            // Nothing may follow SR but by E.
            s.sheet.fill(SR);
        }
        let mut buffers = s.buffers();
        let Buffers { sheet, seen, .. } = &mut buffers;
        sheet.push(0);
        seen.extend([0; 4]);
        let (kinds, number) = [(SR, 0), (0, 5), (SR, USUAL + 1), (SR, USUAL), (SR, 1)][what];
        sheet[pair] = kinds;
        set_number(seen, pair, number);
        each(fits_or_not(EACH_PAIR, buffers, what > 1 || pair == k * k))
    })
}

/// Each byte of a number with each value, beside some counts: any fits that is not 0.
fn each_byte(each: &mut dyn FnMut(Case) -> bool) -> bool {
    let counts = [1, 256, 0x0403_0201, 0x00FF_00FF, 0x8000_0000, FULL];
    let mut all = counts.into_iter().flat_map(|count| [0, count].map(|base| (count, base))).flat_map(|(count, base)| {
        (0..4).flat_map(move |byte| (0..=255).map(move |value| (count, base & !(255 << (8 * byte)) | value << (8 * byte))))
    });
    all.all(|(count, number)| {
        let mut s = Sketch::new(2);
        s.draw(1, 0, SR);
        let mut buffers = s.buffers();
        set_count(&mut buffers.desk, count);
        set_number(&mut buffers.seen, 2, number);
        each(fits_or_not(EACH_BYTE, buffers, number != 0))
    })
}

/// From opening: a pair by each kind, by each kind again, and then a cycle over it.
fn kinds_in_turn(each: &mut dyn FnMut(Case) -> bool) -> bool {
    let modes = || (0..3u8).flat_map(|held| (0..3u8).map(move |acquired| (held, acquired)));
    let kind = |(held, acquired): (u8, u8)| [ER, SR][usize::from(held > 0)] * if acquired == 2 { 1 } else { 2 };
    let twice = || modes().flat_map(|one| modes().map(move |other| (one, other)));
    let places = [(2, 0, 1), (2, 1, 0), (3, 1, 2), (64, 63, 0)];
    let mut all = places.into_iter().flat_map(|place| twice().map(move |modes| (place, modes)));
    all.all(|((k, from, to), (one, other))| {
        let off = |core| [Rec::new(core, 3, 0, 0), Rec::new(core, 5, 0, 0)];
        let (a, b) = (from as u8, to as u8);
        let draw = |core, (held, acquired)| [Rec::new(core, 0, a, held), Rec::new(core, 0, b, acquired)];
        let release = |core, (held, acquired)| [Rec::new(core, 1, b, acquired), Rec::new(core, 1, a, held)];
        let back = [Rec::new(1, 0, b, 0), Rec::new(1, 0, a, 0)];
        let log = [off(0), draw(0, one), release(0, one), draw(0, other), off(1), back].concat();
        // The first kind came by record 4, the second by record 8, and the way back by record 12.
        let there = entry(a, kind(one).min(kind(other)), 0, 4);
        let back = entry(b, EN, 0, 12);
        let slip = if from < to { [vec![2], there, back].concat() } else { [vec![2], back, there].concat() };
        let mut pairs = vec![0; k * k];
        (pairs[from * k + to], pairs[to * k + from]) = (4, 12);
        let answers = [vec![0; 12], vec![1]].concat();
        let meant = Some(Meant { answers, slip, numbers: Some((12, pairs)), ..Meant::default() });
        let mut calls = vec![Call::Open(k as u64, 0)];
        calls.extend(log.into_iter().map(Call::Step));
        each(Case { name: KINDS_IN_TURN, meant, ..case(Buffers::opened(k), calls) })
    })
}

/// An opened desk with second sheets and slips of several sizes: a step and a question.
fn each_size(each: &mut dyn FnMut(Case) -> bool) -> bool {
    let sizes = |k: usize| {
        let seens = [0, k * k, 4 * k * k - 1, 4 * k * k, 4 * k * k + 1];
        let slips = [0, 3 * k, 1 + 3 * k, 7 * k, 1 + 7 * k, 2 + 7 * k];
        seens.into_iter().flat_map(move |seen| slips.map(|slip| (k, seen, slip)))
    };
    (1..=64).flat_map(sizes).all(|(k, seen, slip)| {
        let mut buffers = Buffers::opened(k);
        buffers.seen.resize(seen, 9);
        buffers.slip.resize(slip, 9);
        let step = if seen >= 4 * k * k && slip > 7 * k { 0 } else { 11 };
        let ask = if seen >= 4 * k * k { 0 } else { 11 };
        let meant = Some(Meant { answers: vec![step, ask], ..Meant::default() });
        let calls = vec![Call::Step(Rec::new(0, 0, 0, 0)), Call::Ask(0)];
        each(Case { name: EACH_SIZE, meant, ..case(buffers, calls) })
    })
}

/// The cases, until one is answered with false.
pub fn fixed(each: &mut dyn FnMut(Case) -> bool) {
    let _ = by_hand(each) && each_count(each) && kinds_in_turn(each) && each_pair(each) && each_size(each) && each_byte(each);
}
