//! An ordinary Rust judge written for speed, for the benchmark, by the same documents.
//! Fit test at each step, sixteen pairs of both sheets at a time, a frame's origins as
//! one word, successor words built once per step, a list of the marks by which one class alone is a cycle, one depth-first walk
//! over (class, arrival) with done and on-stack words where no class is. A join's drawing is judged alike. Only with a
//! fault: breadth-first waves for the fewest dependencies, and the least cycle taken from
//! the waves, one dependency after the other. It is compared with the reference in every
//! run of the comparer. No unsafe code.
#![forbid(unsafe_code)]

use reference::{COUNT, DECLARED, DEEPEST, DEPTHS, DESK, HISTORY, HOLDS, KEPT_COUNT, MARKS, ORIGINS, PROGRESS, SINCE, STATES};
use reference::{MOST_IN_PROGRESS, MOST_KEPT};

const X: u8 = 255;
/// All unsafe mark bits.
const UNSAFE: u8 = 4 + 8 + 64 + 128;

static NEXT: [[u8; 8]; 9] = [
    [0, 2, 0, 1, 4, X, 6, X],
    [1, 3, 0, 1, X, X, 7, X],
    [0, 2, 2, 3, X, X, X, X],
    [1, 3, 2, 3, X, X, X, X],
    [4, 5, X, X, X, 0, 8, X],
    [4, 5, X, X, X, X, X, X],
    [X, X, X, X, X, X, X, 0],
    [X, X, X, X, X, X, X, 1],
    [X, X, X, X, X, X, X, 4],
];
static FRAME: [u8; 9] = [0, 0, 0, 0, 1, 1, 2, 2, 2];
/// Mark bits by state and mode.
static BITS: [[u8; 3]; 9] = [
    [4 + 64, 8 + 128, 8 + 128],
    [4, 8, 8],
    [0, 0, 0],
    [0, 0, 0],
    [16 + 4, 16 + 8, 32 + 8],
    [16, 16, 32],
    [1, 1, 2],
    [1, 1, 2],
    [1, 1, 2],
];

/// Whether a class's marks alone make a cycle of one dependency: at a level unsafe E with either safe mark, or unsafe S
/// with safe N.
static CLASH: [bool; 256] = {
    let mut list = [false; 256];
    let mut m = 0;
    while m < 256 {
        let (hard, soft) = (m & 15, m >> 4);
        list[m] = (hard & 4 != 0 && hard & 3 != 0) || hard & 9 == 9 || (soft & 4 != 0 && soft & 3 != 0) || soft & 9 == 9;
        m += 1;
    }
    list
};

pub fn open(k: u64, declared: u64, desk: &mut [u8], sheet: &mut [u8], seen: &mut [u8], history: &mut [u8]) -> u8 {
    if k.wrapping_sub(1) > 63 || over(declared, k as usize) {
        return 2;
    }
    let size = (k * k) as usize;
    if desk.len() < DESK || sheet.len() < size || seen.len() < 4 * size || history.len() < HISTORY {
        return 2;
    }
    desk[..DESK].fill(0);
    desk[0] = k as u8;
    desk[DECLARED..PROGRESS].copy_from_slice(&declared.to_le_bytes());
    sheet[..size].fill(0);
    seen[..4 * size].fill(0);
    history[..HISTORY].fill(0);
    0
}

/// Whether a word has a bit of a class of K or more; K is 1 to 64.
#[inline]
fn over(word: u64, k: usize) -> bool {
    word & !(u64::MAX >> (64 - k)) != 0
}

#[inline]
fn count(desk: &[u8; DESK]) -> u32 {
    four(desk, COUNT)
}

#[inline]
fn four(desk: &[u8; DESK], at: usize) -> u32 {
    u32::from_le_bytes(desk[at..at + 4].try_into().unwrap())
}

#[inline]
fn eight(desk: &[u8; DESK], at: usize) -> u64 {
    u64::from_le_bytes(desk[at..at + 8].try_into().unwrap())
}

/// Whether the words of crosslocks and the kept count fit.
#[inline]
fn lists_fit(desk: &[u8; DESK], k: usize) -> bool {
    let (declared, progress) = (eight(desk, DECLARED), eight(desk, PROGRESS));
    !over(declared, k) & (progress & !declared == 0) & (progress.count_ones() as usize <= MOST_IN_PROGRESS) & (four(desk, KEPT_COUNT) as usize <= MOST_KEPT)
}

/// Whether the kept entries fit; one that is struck out is class 0 in mode 0.
#[inline]
fn history_fits(kept: &[u8], k: u8) -> bool {
    let mut wrong = 0;
    for &[place, lock] in kept.as_chunks::<2>().0 {
        let lone = (place == 0) & (lock != 0);
        wrong |= u8::from((place > 24) | (lock & 63 >= k) | (lock >= 192) | lone);
    }
    wrong == 0
}

#[inline]
fn number(four: &[u8]) -> u32 {
    u32::from_le_bytes(four.try_into().unwrap())
}

/// Whether every pair has kinds and a number, or neither. Sixteen pairs at a time, each question in a loop of its own, which the
/// compiler makes whole vectors of.
fn numbers_fit(sheet: &[u8], seen: &[u8]) -> bool {
    let all_if = |there: bool| if there { 255u8 } else { 0 };
    let (kinds, last_kinds) = sheet.as_chunks::<16>();
    let (numbers, last_numbers) = seen.as_chunks::<64>();
    let mut wrong = [0; 16];
    for (kinds, numbers) in kinds.iter().zip(numbers) {
        let number = |i: usize| number(&numbers[4 * i..4 * i + 4]);
        let mut none = [0; 16];
        for i in 0..16 {
            none[i] = all_if(number(i) == 0);
        }
        for i in 0..16 {
            wrong[i] |= none[i] ^ all_if(kinds[i] == 0);
        }
    }
    let mut last = last_kinds.iter().zip(last_numbers.chunks_exact(4).map(number));
    wrong == [0; 16] && last.all(|(&kinds, n)| (kinds == 0) == (n == 0))
}

/// Where a frame's origin bits begin: they are whole bytes, and eight bytes from there on lie within the desk.
#[inline]
fn origins_at(frame: usize) -> usize {
    const { assert!(DEEPEST % 8 == 0 && DEEPEST <= 64 && ORIGINS + 23 * DEEPEST / 8 + 8 <= DESK) };
    ORIGINS + DEEPEST / 8 * frame
}

/// A frame's origin bits, the oldest lock's lowest.
#[inline]
fn origins(desk: &[u8; DESK], frame: usize) -> u64 {
    let start = origins_at(frame);
    let eight = u64::from_le_bytes(desk[start..start + 8].try_into().unwrap());
    eight & u64::MAX >> (64 - DEEPEST)
}

#[inline]
fn flip_origins(desk: &mut [u8; DESK], frame: usize, bits: u64) {
    let start = origins_at(frame);
    let eight: &mut [u8; 8] = (&mut desk[start..start + 8]).try_into().unwrap();
    *eight = (u64::from_le_bytes(*eight) ^ bits).to_le_bytes();
}

/// All of "Unfit" but the buffers' sizes and K.
fn fits(desk: &[u8; DESK], sheet: &[u8], seen: &[u8], k: usize) -> bool {
    let mut bad = (desk[1] > 1) | !lists_fit(desk, k);
    for core in 0..8 {
        let state = desk[STATES + core];
        bad |= state > 8;
        bad |= desk[DEPTHS + 3 * core + 1] != 0 && 0x130u32 >> (state & 15) & 1 == 0;
        bad |= desk[DEPTHS + 3 * core + 2] != 0 && state < 6;
    }
    if bad {
        return false;
    }
    let k8 = k as u8;
    for (holds, &depth) in desk[HOLDS..ORIGINS].chunks_exact(DEEPEST).zip(&desk[DEPTHS..MARKS]) {
        let holds: &[u8; DEEPEST] = holds.try_into().unwrap();
        if depth == 0 {
            bad |= holds.iter().fold(0, |all, &h| all | h) != 0;
        } else {
            bad |= depth > DEEPEST as u8;
            for (i, &h) in holds.iter().enumerate() {
                let wrong = if (i as u8) < depth { (h & 63 >= k8) | (h >= 192) } else { h != 0 };
                bad |= wrong;
            }
        }
    }
    if desk[ORIGINS..COUNT].iter().fold(0, |all, &b| all | b) != 0 {
        for (frame, &depth) in desk[DEPTHS..MARKS].iter().enumerate() {
            bad |= origins(desk, frame) >> (depth & 63) != 0;
        }
    }
    let marks: &[u8; 64] = desk[MARKS..HOLDS].try_into().unwrap();
    let mut wrong = 0;
    for (i, &m) in marks.iter().enumerate() {
        wrong |= (m >> 4) & 12 & !m;
        wrong |= if (i as u8) >= k8 { m } else { 0 };
    }
    wrong |= sheet.iter().fold(0, |all, &b| all | b) & 0xF0;
    !bad && wrong == 0 && numbers_fit(sheet, seen)
}

/// Successor words: [0] arrivals by N, [1] arrivals by R; the first 64 rows after an
/// arrival by N, the others after an arrival by R.
struct Words {
    next: [[u64; 2]; 128],
}

#[inline]
fn gather(chunk: u64, bit: u32) -> u64 {
    ((chunk >> bit) & 0x0101_0101_0101_0101).wrapping_mul(0x0102_0408_1020_4080) >> 56
}

/// The classes with each safe mark: hard N, hard R, soft N, soft R.
#[inline(always)]
fn safe_words(desk: &[u8; DESK]) -> [u64; 4] {
    let (mut hard_n, mut hard_r, mut soft_n, mut soft_r) = (0u64, 0u64, 0u64, 0u64);
    for (i, eight) in desk[MARKS..HOLDS].chunks_exact(8).enumerate() {
        let chunk = u64::from_le_bytes(eight.try_into().unwrap());
        if chunk != 0 {
            hard_n |= gather(chunk, 0) << (8 * i);
            hard_r |= gather(chunk, 1) << (8 * i);
            soft_n |= gather(chunk, 4) << (8 * i);
            soft_r |= gather(chunk, 5) << (8 * i);
        }
    }
    [hard_n, hard_r, soft_n, soft_r]
}

/// Where a row's lock dependencies lead: ER, EN, SR, SN.
#[inline(always)]
fn row_words(row: &[u8]) -> [u64; 4] {
    let (mut er, mut en, mut sr, mut sn) = (0u64, 0u64, 0u64, 0u64);
    let eights = row.chunks_exact(8);
    let rest = eights.remainder();
    let mut at = 0;
    for eight in eights {
        let chunk = u64::from_le_bytes(eight.try_into().unwrap());
        if chunk != 0 {
            er |= gather(chunk, 0) << at;
            en |= gather(chunk, 1) << at;
            sr |= gather(chunk, 2) << at;
            sn |= gather(chunk, 3) << at;
        }
        at += 8;
    }
    if !rest.is_empty() {
        let mut last = [0; 8];
        last[..rest.len()].copy_from_slice(rest);
        let chunk = u64::from_le_bytes(last);
        er |= gather(chunk, 0) << at;
        en |= gather(chunk, 1) << at;
        sr |= gather(chunk, 2) << at;
        sn |= gather(chunk, 3) << at;
    }
    [er, en, sr, sn]
}

fn words(desk: &[u8; DESK], sheet: &[u8], k: usize) -> Words {
    let [hard_n, hard_r, soft_n, soft_r] = safe_words(desk);
    let mut next = [[0u64; 2]; 128];
    let (after_n, after_r) = next.split_at_mut(64);
    for (from, row) in sheet.chunks_exact(k).enumerate() {
        let [mut er, mut en, mut sr, mut sn] = row_words(row);
        let m = desk[MARKS + from];
        let all = |bit: u8| if m & bit != 0 { u64::MAX } else { 0 };
        en |= (all(4) & hard_n) | (all(64) & soft_n);
        er |= (all(4) & hard_r) | (all(64) & soft_r);
        sn |= (all(8) & hard_n) | (all(128) & soft_n);
        sr |= (all(8) & hard_r) | (all(128) & soft_r);
        after_n[from] = [en | sn, er | sr];
        after_r[from] = [en, er];
    }
    Words { next }
}

/// The same words by plain loops.
fn words_plain(desk: &[u8; DESK], sheet: &[u8], k: usize) -> Words {
    let mut safe = [0u64; 8];
    for class in 0..k {
        for (bit, word) in safe.iter_mut().enumerate() {
            *word |= u64::from(desk[MARKS + class] >> bit & 1) << class;
        }
    }
    let mut next = [[0u64; 2]; 128];
    for from in 0..k {
        let mut kinds = [0u64; 4];
        for to in 0..k {
            let byte = sheet[from * k + to];
            for (bit, word) in kinds.iter_mut().enumerate() {
                *word |= u64::from(byte >> bit & 1) << to;
            }
        }
        let [mut er, mut en, mut sr, mut sn] = kinds;
        let m = desk[MARKS + from];
        for level in [0, 4] {
            if m >> level & 4 != 0 {
                en |= safe[level];
                er |= safe[level + 1];
            }
            if m >> level & 8 != 0 {
                sn |= safe[level];
                sr |= safe[level + 1];
            }
        }
        next[from] = [en | sn, er | sr];
        next[64 + from] = [en, er];
    }
    Words { next }
}

/// Whether there is a cycle of arrivals, by one depth-first walk. Arrivals by N are roots
/// enough: what follows an arrival by R also follows one by N.
fn walk(words: &Words, k: usize) -> bool {
    let mut stack = [0u8; 129];
    let (mut done, mut on) = ([0u64; 2], [0u64; 2]);
    for root in 0..k {
        if done[0] >> root & 1 != 0 {
            continue;
        }
        let mut top = root;
        let mut high = 0;
        stack[0] = root as u8;
        on[0] |= 1 << root;
        loop {
            let [by_n, by_r] = words.next[top & 127];
            if by_n & on[0] | by_r & on[1] != 0 {
                return true;
            }
            let (new_n, new_r) = (by_n & !done[0], by_r & !done[1]);
            if new_n | new_r != 0 {
                top = if new_n != 0 {
                    let c = new_n.trailing_zeros();
                    on[0] |= 1 << c;
                    c as usize
                } else {
                    let c = new_r.trailing_zeros();
                    on[1] |= 1 << c;
                    64 + c as usize
                };
                high += 1;
                stack[high] = top as u8;
                continue;
            }
            let side = top >> 6 & 1;
            done[side] |= 1 << (top & 63);
            on[side] &= !(1 << (top & 63));
            if high == 0 {
                break;
            }
            high -= 1;
            top = usize::from(stack[high]);
        }
    }
    false
}

/// A set of arrivals: the classes by N, the classes by R.
type Wave = [u64; 2];

/// Where one more dependency leads from any of these.
#[inline]
fn further(words: &Words, [mut by_n, mut by_r]: Wave) -> Wave {
    let mut all = [0; 2];
    while by_n != 0 {
        let [n, r] = words.next[by_n.trailing_zeros() as usize & 63];
        by_n &= by_n - 1;
        all = [all[0] | n, all[1] | r];
    }
    while by_r != 0 {
        let [n, r] = words.next[64 + (by_r.trailing_zeros() as usize & 63)];
        by_r &= by_r - 1;
        all = [all[0] | n, all[1] | r];
    }
    all
}

/// The fewest dependencies of a cycle through an arrival among these classes, if under `under`.
fn shortest(words: &Words, arrival: usize, among: u64, under: usize) -> Option<usize> {
    let (side, class) = (arrival >> 6, arrival & 63);
    let mut seen = [0; 2];
    let mut wave = words.next[arrival];
    for length in 1..under {
        if wave[side] >> class & 1 == 1 {
            return Some(length);
        }
        // What follows an arrival by R also follows one by N.
        let new_n = wave[0] & among & !seen[0];
        seen[0] |= new_n;
        let new_r = wave[1] & among & !(seen[1] | seen[0]);
        seen[1] |= new_r;
        if new_n | new_r == 0 || length + 1 == under {
            return None;
        }
        wave = further(words, [new_n, new_r]);
    }
    None
}

/// Writes the least of the cycles with the fewest dependencies. There is a cycle with at most so many.
#[cold]
#[inline(never)]
fn show(desk: &[u8; DESK], sheet: &[u8], seen: &[u8], k: usize, words: &Words, most: usize, slip: &mut [u8]) {
    // The fewest, and the lowest class of such a cycle: one that is shorter than those through lower classes passes none.
    let (mut n, mut first) = (most + 1, 0);
    for class in 0..k {
        for arrival in [class, 64 + class] {
            if let Some(length) = shortest(words, arrival, u64::MAX << class, n) {
                (n, first) = (length, class);
            }
        }
    }
    let safe = safe_words(desk);
    // By kind (ER, EN, SR, SN) and source: where the dependencies of a class lead.
    let leads = |from: usize| {
        let (m, row) = (desk[MARKS + from], row_words(&sheet[from * k..from * k + k]));
        let all = |bit: u8| if m & bit != 0 { u64::MAX } else { 0 };
        std::array::from_fn::<[u64; 3], 4, _>(|kind| {
            let (unsafe_bit, letter) = (if kind < 2 { 4 } else { 8 }, 1 - kind % 2);
            [row[kind], all(unsafe_bit) & safe[letter], all(unsafe_bit << 4) & safe[2 + letter]]
        })
    };
    // Begun with E it may close by either letter, begun with S by N alone; E goes before S.
    let home = 1u64 << first;
    let [by_e, by_any] = [words.next[64 + first], words.next[first]];
    let mut waves = [[0; 2]; 64];
    for (kinds, start, home) in [(0..2, by_e, [home; 2]), (2..4, by_any, [home, 0])] {
        // The arrivals after so many dependencies and one. None comes twice in a shortest cycle.
        let mut passed = [0; 2];
        waves[0] = start;
        for i in 1..n {
            passed = [passed[0] | waves[i - 1][0], passed[1] | waves[i - 1][1]];
            let [by_n, by_r] = further(words, waves[i - 1]);
            waves[i] = [by_n & !passed[0], by_r & !passed[1]];
        }
        waves[n - 1] = [waves[n - 1][0] & home[0], waves[n - 1][1] & home[1]];
        if waves[n - 1] == [0; 2] {
            continue;
        }
        // Of them those from which the rest leads home.
        for i in (0..n - 1).rev() {
            let goal = waves[i + 1];
            for (side, wave) in waves[i].iter_mut().enumerate() {
                let mut left = *wave;
                while left != 0 {
                    let class = left.trailing_zeros() as usize & 63;
                    left &= left - 1;
                    let [by_n, by_r] = words.next[64 * side + class];
                    if by_n & goal[0] | by_r & goal[1] == 0 {
                        *wave &= !(1 << class);
                    }
                }
            }
        }
        slip[0] = n as u8;
        let (mut class, mut kinds) = (first, kinds);
        for (goal, entry) in waves[..n].iter().zip(slip[1..].chunks_exact_mut(7)) {
            let leads = leads(class);
            let mut choices = kinds.clone().flat_map(|kind| (0..3).map(move |source| (kind, source)));
            let Some((kind, source)) = choices.find(|&(kind, source)| leads[kind][source] & goal[1 - kind % 2] != 0) else {
                return;
            };
            entry[..3].copy_from_slice(&[class as u8, 1 << kind, source as u8]);
            let to = (leads[kind][source] & goal[1 - kind % 2]).trailing_zeros() as usize & 63;
            let pair = 4 * (class * k + to);
            entry[3..].copy_from_slice(if source == 0 { &seen[pair..pair + 4] } else { &[0; 4] });
            class = to;
            kinds = if kind % 2 == 0 { 0..2 } else { 0..4 };
        }
        return;
    }
}

#[inline(never)]
pub fn step(
    desk: &mut [u8], sheet: &mut [u8], seen: &mut [u8], history: &mut [u8], slip: &mut [u8], record: &[u8],
) -> u8 {
    step_with::<false>(desk, sheet, seen, history, slip, record)
}

/// The same step with successor words made by plain loops, a byte at a time.
#[inline(never)]
pub fn step_plain(
    desk: &mut [u8], sheet: &mut [u8], seen: &mut [u8], history: &mut [u8], slip: &mut [u8], record: &[u8],
) -> u8 {
    step_with::<true>(desk, sheet, seen, history, slip, record)
}

/// Draws a lock dependency, by the record of this number.
#[inline(always)]
fn draw(sheet: &mut [u8], seen: &mut [u8], pair: usize, kind: u8, number: u32) {
    if sheet[pair] == 0 {
        seen[4 * pair..4 * pair + 4].copy_from_slice(&number.to_le_bytes());
    }
    sheet[pair] |= kind;
}

#[inline(always)]
fn step_with<const PLAIN: bool>(
    desk: &mut [u8], sheet: &mut [u8], seen: &mut [u8], history: &mut [u8], slip: &mut [u8], record: &[u8],
) -> u8 {
    let Some(desk) = desk.first_chunk_mut::<DESK>() else { return 11 };
    let Some(history) = history.first_chunk_mut::<HISTORY>() else { return 11 };
    let k = usize::from(desk[0]);
    if k.wrapping_sub(1) > 63 || sheet.len() < k * k || seen.len() < 4 * k * k || slip.len() < 1 + 7 * k {
        return 11;
    }
    let (sheet, seen) = (&mut sheet[..k * k], &mut seen[..4 * k * k]);
    if !fits(desk, sheet, seen, k) {
        return 11;
    }
    let kept = four(desk, KEPT_COUNT) as usize;
    if !history_fits(&history[..2 * kept], k as u8) {
        return 11;
    }
    if desk[1] == 1 {
        return 10;
    }
    let &[0x4C, 0x4B, core, kind, class, mode] = record else { return 3 };
    if core > 7 || kind > 12 || mode > 5 || (kind >= 2 && (mode != 0 || kind < 10 && class != 0)) {
        return 3;
    }
    if !(2..10).contains(&kind) {
        if usize::from(class) >= k {
            return 4;
        }
        if (eight(desk, DECLARED) >> class & 1 == 1) != (kind > 1) {
            return 15;
        }
    }
    let core = usize::from(core);
    let mut state = usize::from(desk[STATES + core]);
    let here = 3 * core + usize::from(FRAME[state]);
    let depth = usize::from(desk[DEPTHS + here]);
    let first = HOLDS + DEEPEST * here;
    let (count, progress) = (count(desk), eight(desk, PROGRESS));
    let (to, here_byte) = (usize::from(class), here as u8 + 1);
    match kind {
        0 => {
            if depth == DEEPEST {
                return 8;
            }
            let is_kept = progress != 0 && mode < 3;
            if is_kept && kept == MOST_KEPT {
                return 19;
            }
            if count == u32::MAX {
                return 9;
            }
            if mode < 3 {
                let second = if mode == 2 { 1 } else { 2 };
                for &hold in &desk[first..first + depth] {
                    let kind = if hold < 64 { second } else { 4 * second };
                    draw(sheet, seen, usize::from(hold & 63) * k + to, kind, count + 1);
                }
                desk[first + depth] = class + 64 * mode;
                if is_kept {
                    history[2 * kept..2 * kept + 2].copy_from_slice(&[here_byte, class + 64 * mode]);
                    desk[KEPT_COUNT..SINCE].copy_from_slice(&(kept as u32 + 1).to_le_bytes());
                }
            } else {
                desk[first + depth] = class + 64 * (mode - 3);
                flip_origins(desk, here, 1 << depth);
            }
            desk[DEPTHS + here] += 1;
        }
        1 => {
            let Some(at) = desk[first..first + depth].iter().rposition(|&h| h & 63 == class) else {
                return 5;
            };
            let above = origins(desk, here) >> at;
            if (desk[first + at] >> 6) + 3 * (above as u8 & 1) != mode {
                return 5;
            }
            if count == u32::MAX {
                return 9;
            }
            desk.copy_within(first + at + 1..first + depth, first + at);
            desk[first + depth - 1] = 0;
            desk[DEPTHS + here] -= 1;
            if above != 0 {
                flip_origins(desk, here, (above ^ above >> 1) << at);
            }
        }
        10 => {
            if progress >> class & 1 == 1 {
                return 16;
            }
            if progress.count_ones() as usize == MOST_IN_PROGRESS {
                return 18;
            }
            if count == u32::MAX {
                return 9;
            }
            for &hold in &desk[first..first + depth] {
                draw(sheet, seen, usize::from(hold & 63) * k + to, if hold < 64 { 2 } else { 8 }, count + 1);
            }
            desk[PROGRESS..KEPT_COUNT].copy_from_slice(&(progress | 1 << class).to_le_bytes());
            desk[SINCE + 4 * to..SINCE + 4 * to + 4].copy_from_slice(&(kept as u32).to_le_bytes());
        }
        11 | 12 => {
            if progress >> class & 1 == 0 {
                return 17;
            }
            if count == u32::MAX {
                return 9;
            }
            if kind == 11 {
                let since = (four(desk, SINCE + 4 * to) as usize).min(kept);
                for &[place, lock] in history[2 * since..2 * kept].as_chunks::<2>().0 {
                    if place == here_byte {
                        draw(sheet, seen, to * k + usize::from(lock & 63), if lock < 128 { 2 } else { 1 }, count + 1);
                    }
                }
            } else {
                let left = progress & !(1 << class);
                desk[PROGRESS..KEPT_COUNT].copy_from_slice(&left.to_le_bytes());
                if left == 0 {
                    desk[KEPT_COUNT..SINCE].fill(0);
                }
            }
        }
        _ => {
            let after = NEXT[state][usize::from(kind) - 2];
            if after == X {
                return 6;
            }
            if (kind == 7 || kind == 9) && depth > 0 {
                return 7;
            }
            if count == u32::MAX {
                return 9;
            }
            state = usize::from(after);
            desk[STATES + core] = after;
            if kind == 7 || kind == 9 {
                // What was acquired in this visit of the handler; without a branch for each.
                for [place, lock] in history[..2 * kept].as_chunks_mut::<2>().0 {
                    let stays = if *place == here_byte { 0 } else { 255 };
                    (*place, *lock) = (*place & stays, *lock & stays);
                }
            }
        }
    }
    desk[COUNT..COUNT + 4].copy_from_slice(&(count + 1).to_le_bytes());
    let here = 3 * core + usize::from(FRAME[state]);
    let first = HOLDS + DEEPEST * here;
    let mut origins = origins(desk, here);
    for at in first..first + usize::from(desk[DEPTHS + here]) {
        let hold = desk[at];
        let marks = if origins & 1 == 0 { 255 } else { UNSAFE };
        desk[MARKS + usize::from(hold & 63)] |= BITS[state][usize::from(hold >> 6)] & marks;
        origins >>= 1;
    }
    let words = if PLAIN { words_plain(desk, sheet, k) } else { words(desk, sheet, k) };
    conclude(desk, sheet, seen, slip, k, &words)
}

/// Whether a cycle stands; then the desk is closed and the cycle shown.
#[inline(always)]
fn conclude(desk: &mut [u8; DESK], sheet: &[u8], seen: &[u8], slip: &mut [u8], k: usize, words: &Words) -> u8 {
    let clash = desk[MARKS..MARKS + k].iter().any(|&m| CLASH[usize::from(m)]);
    if !clash && !walk(words, k) {
        return 0;
    }
    desk[1] = 1;
    show(desk, sheet, seen, k, words, if clash { 1 } else { k }, slip);
    1
}

/// A fit bench: its desk, and the pairs of both sheets.
#[inline(always)]
fn bench<'a>(desk: &'a [u8], sheet: &'a [u8], seen: &'a [u8]) -> Option<(&'a [u8; DESK], &'a [u8], &'a [u8])> {
    let desk = desk.first_chunk::<DESK>()?;
    let k = usize::from(desk[0]);
    if k.wrapping_sub(1) > 63 || sheet.len() < k * k || seen.len() < 4 * k * k {
        return None;
    }
    let (sheet, seen) = (&sheet[..k * k], &seen[..4 * k * k]);
    fits(desk, sheet, seen, k).then_some((desk, sheet, seen))
}

/// Marks, kinds and numbers in three loops over whole buffers, which the compiler makes vectors of; then judged as a step judges.
#[allow(clippy::too_many_arguments)]
#[inline(never)]
pub fn join(
    desk1: &[u8], sheet1: &[u8], seen1: &[u8], desk2: &[u8], sheet2: &[u8], seen2: &[u8],
    desk: &mut [u8], sheet: &mut [u8], seen: &mut [u8], slip: &mut [u8],
) -> u8 {
    let Some((desk1, sheet1, seen1)) = bench(desk1, sheet1, seen1) else { return 11 };
    let Some((desk2, sheet2, seen2)) = bench(desk2, sheet2, seen2) else { return 11 };
    let k = usize::from(desk1[0].max(desk2[0]));
    let Some(desk) = desk.first_chunk_mut::<DESK>() else { return 11 };
    if sheet.len() < k * k || seen.len() < 4 * k * k || slip.len() < 1 + 7 * k {
        return 11;
    }
    if desk1[0] != desk2[0] || desk1[DECLARED..PROGRESS] != desk2[DECLARED..PROGRESS] {
        return 12;
    }
    if desk1[1] | desk2[1] != 0 {
        return 13;
    }
    let (sheet, seen) = (&mut sheet[..k * k], &mut seen[..4 * k * k]);
    *desk = [0; DESK];
    desk[0] = k as u8;
    desk[DECLARED..PROGRESS].copy_from_slice(&desk1[DECLARED..PROGRESS]);
    for at in MARKS..HOLDS {
        desk[at] = desk1[at] | desk2[at];
    }
    for ((kinds, one), two) in sheet.iter_mut().zip(sheet1).zip(sheet2) {
        *kinds = one | two;
    }
    let numbers = seen1.as_chunks::<4>().0.iter().zip(seen2.as_chunks::<4>().0);
    for (number, (one, two)) in seen.as_chunks_mut::<4>().0.iter_mut().zip(numbers) {
        *number = if u32::from_le_bytes(*one) == 0 { *two } else { *one };
    }
    let words = words(desk, sheet, k);
    conclude(desk, sheet, seen, slip, k, &words)
}

#[inline(never)]
pub fn ask(desk: &[u8], sheet: &[u8], seen: &[u8], class: u64, word: &mut u64, count: &mut u32) -> u8 {
    *word = 0;
    *count = 0;
    let Some(desk) = desk.first_chunk::<DESK>() else { return 11 };
    let k = usize::from(desk[0]);
    if k.wrapping_sub(1) > 63 || sheet.len() < k * k || seen.len() < 4 * k * k {
        return 11;
    }
    let sheet = &sheet[..k * k];
    if !fits(desk, sheet, &seen[..4 * k * k], k) {
        return 11;
    }
    if class >= k as u64 {
        return 4;
    }
    let words = words(desk, sheet, k);
    let [mut all_n, mut all_r] = words.next[class as usize & 63];
    let (mut new_n, mut new_r) = (all_n, all_r);
    while new_n | new_r != 0 {
        let at = if new_n != 0 {
            let c = new_n.trailing_zeros() as usize;
            new_n &= new_n - 1;
            c
        } else {
            let c = new_r.trailing_zeros() as usize;
            new_r &= new_r - 1;
            64 + c
        };
        let [by_n, by_r] = words.next[at & 127];
        new_n |= by_n & !all_n;
        new_r |= by_r & !all_r;
        all_n |= by_n;
        all_r |= by_r;
    }
    *word = all_n | all_r;
    *count = word.count_ones();
    0
}

// The feed. Answer, whether opened, how many loose bytes, the loose bytes, and the number.
const FEED: usize = 22;
/// A header, where its third byte says so, is of so many bytes.
const LONG: usize = 12;

fn feed_fits(feed: &[u8; FEED]) -> bool {
    let &[answer, opened, kept, ref loose @ .., _, _, _, _, _, _, _, _] = feed;
    let number = fed(feed);
    let unused = loose.iter().skip(usize::from(kept)).all(|&b| b == 0);
    unused
        && (answer == 0 || kept == 0)
        && match opened {
            0 => kept < if loose[2] == 2 { LONG as u8 } else { 4 } && matches!(answer, 0 | 2) && number == 0,
            1 => kept < 6 && matches!(answer, 0 | 1 | 3..=11 | 15..=19) && (answer == 0 || number > 0),
            _ => false,
        }
}

#[inline]
fn fed(feed: &[u8; FEED]) -> u64 {
    let &[.., a, b, c, d, e, f, g, h] = feed;
    u64::from_le_bytes([a, b, c, d, e, f, g, h])
}

#[inline]
fn note(feed: &mut [u8; FEED], answer: u8, opened: bool, loose: &[u8], number: u64) {
    *feed = [0; FEED];
    feed[0] = answer;
    feed[1] = u8::from(opened);
    feed[2] = loose.len() as u8;
    feed[3..3 + loose.len()].copy_from_slice(loose);
    feed[14..].copy_from_slice(&number.to_le_bytes());
}

fn open_by_header(header: &[u8; LONG], desk: &mut [u8], sheet: &mut [u8], seen: &mut [u8], history: &mut [u8]) -> u8 {
    match header {
        &[0x4C, 0x48, version @ 1..=2, k, ref word @ ..] => {
            let declared = if version == 2 { u64::from_le_bytes(*word) } else { 0 };
            open(u64::from(k), declared, desk, sheet, seen, history)
        }
        _ => 2,
    }
}

pub fn feed_start(feed: &mut [u8]) -> u8 {
    let Some(feed) = feed.first_chunk_mut::<FEED>() else { return 2 };
    *feed = [0; FEED];
    0
}

/// What was begun is filled up from the piece; then records are taken from the piece itself.
#[allow(clippy::too_many_arguments)]
#[inline(never)]
pub fn feed(
    feed: &mut [u8], desk: &mut [u8], sheet: &mut [u8], seen: &mut [u8], history: &mut [u8], slip: &mut [u8], piece: &[u8],
    record: &mut u64,
) -> u8 {
    *record = 0;
    let Some(feed) = feed.first_chunk_mut::<FEED>().filter(|feed| feed_fits(feed)) else { return 11 };
    let mut number = fed(feed);
    *record = number;
    if feed[0] != 0 || piece.is_empty() {
        return feed[0];
    }
    let (mut opened, mut rest) = (feed[1] == 1, piece);
    let kept = usize::from(feed[2]);
    if kept > 0 || !opened {
        let (mut begun, mut have) = ([0; LONG], kept);
        begun[..kept].copy_from_slice(&feed[3..3 + kept]);
        let mut fill = |begun: &mut [u8; LONG], have: usize, whole: usize| {
            let more = rest.len().min(whole.saturating_sub(have));
            begun[have..have + more].copy_from_slice(&rest[..more]);
            rest = &rest[more..];
            have + more
        };
        // The third byte of a header says how long it is.
        have = fill(&mut begun, have, if opened { 6 } else { 3 });
        let whole = match (opened, begun[2]) {
            (true, _) => 6,
            (false, 2) if have > 2 => LONG,
            _ => 4,
        };
        have = fill(&mut begun, have, whole);
        if have < whole {
            note(feed, 0, opened, &begun[..have], number);
            return 0;
        }
        let answer = if opened {
            number = number.saturating_add(1);
            step(desk, sheet, seen, history, slip, &begun[..6])
        } else {
            open_by_header(&begun, desk, sheet, seen, history)
        };
        opened |= answer == 0;
        *record = number;
        if answer != 0 {
            note(feed, answer, opened, &[], number);
            return answer;
        }
    }
    let mut records = rest.chunks_exact(6);
    for six in &mut records {
        number = number.saturating_add(1);
        let answer = step(desk, sheet, seen, history, slip, six);
        if answer != 0 {
            note(feed, answer, opened, &[], number);
            *record = number;
            return answer;
        }
    }
    note(feed, 0, opened, records.remainder(), number);
    *record = number;
    0
}

pub fn feed_end(
    feed: &mut [u8], desk: &mut [u8], sheet: &mut [u8], seen: &mut [u8], history: &mut [u8], slip: &mut [u8], record: &mut u64,
) -> u8 {
    *record = 0;
    let Some(feed) = feed.first_chunk_mut::<FEED>().filter(|feed| feed_fits(feed)) else { return 11 };
    let (mut number, kept) = (fed(feed), usize::from(feed[2]));
    if feed[0] == 0 && feed[1] == 0 {
        note(feed, 2, false, &[], 0);
    } else if kept > 0 {
        number = number.saturating_add(1);
        let answer = step(desk, sheet, seen, history, slip, &feed[3..3 + kept]);
        note(feed, answer, true, &[], number);
    }
    *record = number;
    feed[0]
}

/// Four records at a time, each in one word: signature, core, kind and mode in one look, and counted by kind, mode and class,
/// so that nothing else is asked of it. Two tables in turn, as a class often follows itself.
#[inline(never)]
pub fn balance(piece: &[u8], balances: &mut [i32; 64]) -> u8 {
    *balances = [0; 64];
    if piece.len() > 60_000 || piece.len() % 6 != 0 {
        return 14;
    }
    type Table = [u16; 2 << 11];
    #[inline(always)]
    fn note(word: u64, table: &mut Table) {
        // The kind is 0 or 1 and the mode under 8 where it counts.
        let passed = word & 0xF8_00FE_F8FF_FF == 0x4B4C;
        let (kind, class_and_mode) = ((word >> 24 & 1) as usize, (word >> 32 & 0x7FF) as usize);
        table[kind << 11 | class_and_mode] += u16::from(passed);
    }
    #[inline(always)]
    fn note_four(four: &[u8; 24], [one, other]: &mut [Table; 2]) {
        let word = |at: usize| u64::from_le_bytes(four[at..at + 8].try_into().unwrap());
        note(word(0), one);
        note(word(6), other);
        note(word(12), one);
        note(word(16) >> 16, other);
    }
    let mut tables = [[0; 2 << 11]; 2];
    let (fours, rest) = piece.as_chunks::<24>();
    fours.iter().for_each(|four| note_four(four, &mut tables));
    // Filled up with what is malformed.
    let mut last = [0; 24];
    last[..rest.len()].copy_from_slice(rest);
    note_four(&last, &mut tables);
    // No more than 10,000 of either kind.
    let noted = |at: usize| tables[0][at] as i16 + tables[1][at] as i16;
    let balance_of = |class: usize| (0..6).map(|mode| noted(mode << 8 | class) - noted(1 << 11 | mode << 8 | class)).sum::<i16>();
    *balances = std::array::from_fn::<i16, 64, _>(balance_of).map(i32::from);
    0
}
