//! The rules of request k, "Order of the merge must not matter", one by one.
use super::*;
use std::collections::BTreeSet;

// ------------------------------------------------------------------- helpers

/// What a list leaves of a fresh opening, stepped past refusals; of each core its answers in
/// order; and which record closed the desk: core, and place among its own.
struct Ran {
    b: Bench,
    answers: [Vec<u8>; 8],
    closed_by: Option<(u8, usize)>,
}

fn ran(k: usize, crosslocks: &[u8], list: &[Rec]) -> Ran {
    let mut b = Bench::declaring(k, crosslocks);
    let mut answers: [Vec<u8>; 8] = Default::default();
    let mut closed_by = None;
    for r in list {
        let answer = b.step(r);
        let own = &mut answers[r[2] as usize];
        if answer == 1 {
            closed_by = Some((r[2], own.len()));
        }
        own.push(answer);
    }
    assert_eq!(closed_by.is_some(), b.desk[1] == 1);
    Ran {
        b,
        answers,
        closed_by,
    }
}

/// All merges of lists, by going on with each list in turn; without the crate's own.
fn all_merges(lists: &[Vec<Rec>]) -> Vec<Vec<Rec>> {
    let mut all = Vec::new();
    for core in 0..lists.len() {
        if let Some((first, rest)) = lists[core].split_first() {
            let mut rests = lists.to_vec();
            rests[core] = rest.to_vec();
            for later in all_merges(&rests) {
                all.push([&[*first][..], &later].concat());
            }
        }
    }
    if all.is_empty() {
        all.push(Vec::new());
    }
    all
}

/// Some merges: core by core, the same from the last core on, and as the dice choose, one
/// record after the other or some of a core together.
fn some_merges(dice: &mut Dice, lists: &[Vec<Rec>]) -> Vec<Vec<Rec>> {
    let total: usize = lists.iter().map(Vec::len).sum();
    let last_first: Vec<u8> = (0..8).rev().flat_map(|core| vec![core; total]).collect();
    let mut some = vec![merges(lists, &[]), merges(lists, &last_first)];
    for together in [1, 5] {
        let mut choices = Vec::new();
        while choices.len() < 4 * total {
            let times = 1 + dice.under(together) as usize;
            choices.extend(vec![dice.under(8) as u8; times]);
        }
        some.push(merges(lists, &choices));
    }
    some
}

/// What the merges of one log had in common, and what not.
struct Told {
    closed: bool,
    refusals: BTreeSet<u8>,
    /// Whether two closed at different records, and whether two, open, had other numbers.
    elsewhere: bool,
    other_numbers: bool,
}

/// The promise for these merges of one log.
fn assert_order_does_not_matter(k: usize, crosslocks: &[u8], merges: &[Vec<Rec>]) -> Told {
    let first = ran(k, crosslocks, &merges[0]);
    let closed = first.closed_by.is_some();
    let mut told = Told {
        closed,
        refusals: first.answers.iter().flatten().copied().collect(),
        elsewhere: false,
        other_numbers: false,
    };
    told.refusals.retain(|answer| ![0, 1, 10].contains(answer));
    for merge in merges {
        assert!(ordinary(merge) && same_for_each_core(merge, &merges[0]));
        let next = ran(k, crosslocks, merge);
        // "both leave the desk open or both close it"
        assert_eq!(next.closed_by.is_some(), closed, "{merges:?}");
        told.elsewhere |= next.closed_by != first.closed_by;
        if !closed {
            // "and if open, they leave the same sheet of kinds, marks, holds and states": the
            // whole desk, with depths, origins and count, and an unused history and slip.
            assert_eq!(next.b.desk, first.b.desk);
            assert_eq!(next.b.sheet, first.b.sheet);
            assert_eq!(next.b.history, first.b.history);
            assert_eq!(next.b.slip, first.b.slip);
            assert_eq!(next.answers, first.answers);
            told.other_numbers |= next.b.seen != first.b.seen;
        }
        // While both are open each record has its answer; the one that closes is accepted.
        for (own, firsts) in next.answers.iter().zip(&first.answers) {
            assert_eq!(own.len(), firsts.len());
            for (&answer, &firsts) in own.iter().zip(firsts) {
                let both_open = answer != 10 && firsts != 10;
                let accepted = answer < 2 && firsts < 2;
                assert!(!both_open || accepted || answer == firsts, "{merges:?}");
            }
        }
    }
    told
}

/// How the records of a random log are made.
struct Habit<'a> {
    k: u64,
    modes: &'a [u8],
    /// How many of 16 takes are only of classes above those taken and not yet released.
    orderly: u64,
    /// How many of 20 records are interrupt events.
    events: u64,
    /// Unless empty: the lower half of the classes is taken only in these states, the upper
    /// half only in the task's.
    careful: &'a [u8],
    /// Almost only takes.
    deep: bool,
}

/// A core's records of ordinary kinds: takes, some of class K or more; releases that fit and
/// that don't; interrupt events in good and bad states.
fn random_list(dice: &mut Dice, core: u8, habit: &Habit, length: u64) -> Vec<Rec> {
    let mut taken: Vec<(u8, u8)> = Vec::new();
    let mut list: Vec<Rec> = Vec::new();
    let mut own = Bench::new(habit.k as usize);
    for _ in 0..length {
        let mode = habit.modes[dice.under(habit.modes.len() as u64) as usize];
        // Of 64 classes most often the last eight, so that they meet.
        let base = if habit.k == 64 && dice.under(9) > 0 {
            56
        } else {
            0
        };
        let (mut lowest, mut above) = (base, habit.k);
        if dice.under(16) < habit.orderly {
            let higher = taken.iter().map(|(class, _)| u64::from(*class) + 1);
            lowest = higher.max().unwrap_or(0).max(base);
        }
        if !habit.careful.is_empty() {
            own.step(list.last().unwrap_or(&event(core, HARD_ON)));
            let state = own.desk[2 + core as usize];
            let half = (base + habit.k).div_ceil(2);
            match (habit.careful.contains(&state), state < 4) {
                (true, true) => {}
                (true, false) => above = half,
                (false, true) => lowest = lowest.max(half),
                (false, false) => above = 0,
            }
        }
        let may_release = !taken.is_empty() && !habit.deep;
        list.push(if dice.under(20) < habit.events {
            // Exits more often than the others, else the handlers are seldom left.
            let kinds = [2, 3, 4, 5, 6, 7, 7, 7, 8, 9, 9, 9];
            event(core, kinds[dice.under(12) as usize])
        } else if dice.under(25) == 0 {
            match dice.under(3) {
                0 => take(core, (habit.k + dice.under(3)) as u8, mode),
                1 => release(core, (habit.k + dice.under(3)) as u8, mode),
                _ => release(core, dice.under(habit.k) as u8, mode),
            }
        } else if lowest < above && (dice.under(5) < 3 || !may_release) {
            let class = (lowest + dice.under(above - lowest)) as u8;
            taken.push((class, mode));
            take(core, class, mode)
        } else if !taken.is_empty() {
            let (class, mode) = match dice.under(3) {
                0 => taken.swap_remove(dice.under(taken.len() as u64) as usize),
                _ => taken.pop().unwrap(),
            };
            release(core, class, mode)
        } else {
            event(core, EXIT_HARD)
        });
    }
    list
}

/// The lists of all cores, most of them of few cores.
fn random_lists(dice: &mut Dice, habit: &Habit, longest: u64) -> Vec<Vec<Rec>> {
    let cores = match dice.under(16) {
        0 => 1,
        1..=7 => 2,
        8..=12 => 3,
        more => more - 7,
    };
    let shift = dice.under(9 - cores);
    let mut lists = vec![Vec::new(); 8];
    for core in shift..shift + cores {
        let length = dice.under(longest + 1);
        lists[core as usize] = random_list(dice, core as u8, habit, length);
    }
    lists
}

// ----------------------------------------------------------- lists and merges

#[test]
fn the_records_of_a_core() {
    let list = [
        take(2, 1, E),
        event(0, ENTER_HARD),
        take(2, 0, R),
        commit(7, 3),
        take(0, 99, TRR),
        take(2, 1, E),
        release(7, 255, NR),
    ];
    let of = |core: u8| records_of(core, &list);
    assert_eq!(of(0), [list[1], list[4]]);
    assert_eq!(of(2), [list[0], list[2], list[5]]);
    assert_eq!(of(7), [list[3], list[6]]);
    for core in [1, 3, 4, 5, 6, 8, 9, 0x4B, 0x4C, 255] {
        assert!(of(core).is_empty());
    }
    assert!(records_of::<Rec>(0, &[]).is_empty());
    // Records of any length; what meets a condition of refusal 3 names no core.
    let good = take(1, 0, E);
    let malformed = malformed_records();
    let mut mixed: Vec<&[u8]> = vec![&good];
    mixed.extend(malformed.iter().map(|r| &r[..]));
    mixed.push(&good);
    for core in 0..=255 {
        let own: &[&[u8]] = if core == 1 { &[&good, &good] } else { &[] };
        assert_eq!(records_of(core, &mixed), own);
    }
    // The step's refusal 3 says the same of every value of every byte.
    let b = Bench::new(64);
    for start in [take(3, 5, R), event(3, SOFT_OFF), commit(3, 5)] {
        for at in 0..6 {
            for byte in 0..=255 {
                let mut r = start;
                r[at] = byte;
                let named = b.clone().step(&r) != 3;
                let by: Vec<u8> = (0..=255)
                    .filter(|&core| !records_of(core, &[r]).is_empty())
                    .collect();
                assert_eq!(by, if named { vec![r[2]] } else { vec![] });
            }
        }
    }
}

/// One for each condition of refusal 3, all seeming to be core 1's.
fn malformed_records() -> Vec<Vec<u8>> {
    vec![
        vec![],
        vec![0x4C, 0x4B, 1],
        vec![0x4C, 0x4B, 1, 0, 0],
        vec![0x4C, 0x4B, 1, 0, 0, 0, 0],
        vec![0x4D, 0x4B, 1, 0, 0, 0],
        vec![0x4C, 0x4A, 1, 0, 0, 0],
        vec![0x4C, 0x4B, 9, 0, 0, 0],
        vec![0x4C, 0x4B, 1, 13, 0, 0],
        vec![0x4C, 0x4B, 1, 0, 0, 6],
        vec![0x4C, 0x4B, 1, 1, 0, 6],
        vec![0x4C, 0x4B, 1, 2, 1, 0],
        vec![0x4C, 0x4B, 1, 9, 0, 3],
        vec![0x4C, 0x4B, 1, 10, 0, 3],
    ]
}

#[test]
fn the_same_for_each_core() {
    let (a, b, c, d) = (take(0, 1, E), take(0, 2, E), take(7, 1, E), take(7, 2, E));
    let same = |xs: &[Rec], ys: &[Rec]| {
        assert_eq!(same_for_each_core(xs, ys), same_for_each_core(ys, xs));
        same_for_each_core(xs, ys)
    };
    assert!(same(&[], &[]));
    for merge in [
        [a, b, c, d],
        [a, c, b, d],
        [a, c, d, b],
        [c, a, b, d],
        [c, a, d, b],
        [c, d, a, b],
    ] {
        assert!(same(&merge, &[a, b, c, d]));
        assert!(same(&merge, &[c, d, a, b]));
        // In another order for core 0, for core 7.
        assert!(!same(&merge, &[b, a, c, d]));
        assert!(!same(&merge, &[a, b, d, c]));
        assert!(!same(&merge, &[d, b, c, a]));
        // One less, one more, one twice for another.
        for at in 0..4 {
            let mut less = merge.to_vec();
            let gone = less.remove(at);
            assert!(!same(&merge, &less));
            assert!(!same(&merge, &[&merge[..], &[gone]].concat()));
            assert!(!same(&[&less[..], &less[..1]].concat(), &merge));
        }
    }
    // The same records, at different cores.
    assert!(!same(&[take(0, 1, E)], &[take(1, 1, E)]));
    // Every core is looked at, and every byte.
    for core in 0..8 {
        assert!(!same(&[take(core, 1, E)], &[]));
        assert!(!same(&[take(core, 1, E)], &[take(core, 2, E)]));
        assert!(!same(&[take(core, 1, E)], &[take(core, 1, TE)]));
        assert!(!same(&[take(core, 1, E)], &[release(core, 1, E)]));
        assert!(same(&[take(core, 1, E)], &[take(core, 1, E)]));
    }
    // Crosslocks are records of their cores too.
    assert!(same(&[commit(1, 3), a], &[a, commit(1, 3)]));
    assert!(!same(
        &[commit(1, 3), take_cross(1, 3)],
        &[take_cross(1, 3), commit(1, 3)]
    ));
    // A malformed record on either side or on both.
    for bad in malformed_records() {
        let (with, without): (Vec<&[u8]>, Vec<&[u8]>) = (vec![&a, &bad, &c], vec![&c, &a]);
        assert!(same_for_each_core(&without, &without));
        assert!(!same_for_each_core(&with, &with));
        assert!(!same_for_each_core(&with, &without));
        assert!(!same_for_each_core(&without, &with));
    }
}

#[test]
fn ordinary_records() {
    assert!(ordinary::<Rec>(&[]));
    let all: Vec<Rec> = (0..=9).map(|kind| [0x4C, 0x4B, 5, kind, 0, 0]).collect();
    assert!(ordinary(&all));
    for kind in 0..=255 {
        let r = [0x4C, 0x4B, 5, kind, 0, 0];
        assert_eq!(ordinary(&[r]), kind < 10);
        // Wherever it stands.
        for at in 0..=all.len() {
            let mut list = all.clone();
            list.insert(at, r);
            assert_eq!(ordinary(&list), kind < 10);
        }
    }
    // Whatever a desk would say of them.
    for mode in MODES {
        assert!(ordinary(&[take(0, 255, mode), release(7, 64, mode)]));
    }
    for bad in malformed_records() {
        assert!(!ordinary(&[&bad[..]]));
        assert!(!ordinary(&[&all[0][..], &bad[..]]));
        assert!(!ordinary(&[&bad[..], &all[0][..]]));
    }
}

#[test]
fn merges_by_choices() {
    let (a, b, c, d) = (take(0, 1, E), take(0, 2, E), take(1, 1, E), take(1, 2, E));
    let lists = [vec![a, b], vec![c, d], vec![], vec![take(3, 0, R)]];
    let e = lists[3][0];
    assert_eq!(merges(&lists, &[]), [a, b, c, d, e]);
    assert_eq!(merges(&lists, &[0, 1, 0, 1, 3]), [a, c, b, d, e]);
    assert_eq!(merges(&lists, &[3, 1]), [e, c, a, b, d]);
    assert_eq!(merges(&lists, &[1, 1, 0]), [c, d, a, b, e]);
    // Nothing left, an empty list, no such list: the next choice.
    assert_eq!(merges(&lists, &[1, 1, 1, 3, 0]), [c, d, e, a, b]);
    assert_eq!(merges(&lists, &[2, 4, 5, 255, 1, 2, 3]), [c, e, a, b, d]);
    assert_eq!(merges(&lists, &[1; 100]), [c, d, a, b, e]);
    assert!(merges::<Rec>(&[], &[0, 1]).is_empty());
    assert!(merges::<Rec>(&[vec![], vec![]], &[1, 0]).is_empty());
    // All merges of two lists and of three, and no others, by all choices.
    for (lists, count) in [
        (vec![vec![a, b, a], vec![c, d, d]], 20),
        (vec![vec![a, b], vec![c], vec![take(2, 0, R), e]], 30),
    ] {
        let all: BTreeSet<_> = all_merges(&lists).into_iter().collect();
        assert_eq!(all.len(), count);
        let cores = lists.len() as u64;
        let total: usize = lists.iter().map(Vec::len).sum();
        let by_choices: BTreeSet<_> = (0..cores.pow(total as u32))
            .map(|n| (0..total as u32).map(move |i| (n / cores.pow(i) % cores) as u8))
            .map(|choices| merges(&lists, &choices.collect::<Vec<u8>>()))
            .collect();
        assert_eq!(by_choices, all);
    }
    // Their own lists come out again.
    let mut dice = Dice(0x4D45_5247_4553_0001);
    let habit = habits(0).0;
    for _ in 0..200 {
        let lists = random_lists(&mut dice, &habit, 9);
        let some = some_merges(&mut dice, &lists);
        for merge in &some {
            for (core, list) in lists.iter().enumerate() {
                assert_eq!(records_of(core as u8, merge), *list);
            }
            assert_eq!(merge.len(), lists.iter().map(Vec::len).sum::<usize>());
            assert!(same_for_each_core(merge, &some[0]) && ordinary(merge));
        }
    }
}

// ----------------------------------------------------- the order of the merge

/// Habits in turn, and the longest list of a core.
fn habits(round: u64) -> (Habit<'static>, u64) {
    let (modes, orderly, events, longest): (&[u8], u64, u64, u64) = match round % 10 {
        0 => (&MODES, 0, 4, 14),
        1 => (&[E, NR, R], 15, 0, 20),
        2 => (&[R, TRR], 0, 6, 40),
        3 => (&[R, R, R, R, R, R, R, NR, TE], 0, 6, 20),
        4 => (&MODES, 15, 4, 14),
        5 => (&[TE, TR, TRR, TRR, TE, R], 0, 6, 30),
        6 => (&[E], 16, 3, 14),
        7 => (&[E, E, E, R], 14, 1, 30),
        8 => (&[E, TE], 16, 8, 20),
        _ => (&[E, NR, R], 0, 4, 8),
    };
    let k = match round / 10 % 11 {
        10 => 64,
        n => 1 + n * 7 / 9,
    };
    let habit = Habit {
        k,
        modes,
        orderly,
        events,
        careful: if round % 20 == 8 { &[2, 3, 5, 6] } else { &[] },
        deep: false,
    };
    (habit, longest)
}

#[test]
fn random_logs_in_random_merges() {
    let mut dice = Dice(0x4D45_5247_4553_0002);
    let (mut open, mut closed, mut elsewhere, mut other_numbers) = (0, 0, 0, 0);
    let (mut drawn_open, mut full_sized) = (0, [0, 0]);
    let mut refusals = [[0u64; 2]; 20];
    for round in 0..2_200 {
        let (mut habit, mut longest) = habits(round);
        if round % 50 == 2 {
            // Frames that get full, of recursive reads alone.
            (habit.deep, habit.events, longest) = (true, 1, 130);
        }
        let crosslocks: Vec<u8> = match round % 3 {
            0 => (0..habit.k as u8).filter(|_| dice.under(5) == 0).collect(),
            _ => vec![],
        };
        let lists = random_lists(&mut dice, &habit, longest);
        let some = some_merges(&mut dice, &lists);
        let told = assert_order_does_not_matter(habit.k as usize, &crosslocks, &some);
        open += u64::from(!told.closed);
        closed += u64::from(told.closed);
        elsewhere += u64::from(told.elsewhere);
        other_numbers += u64::from(told.other_numbers);
        full_sized[usize::from(told.closed)] += u64::from(habit.k == 64);
        drawn_open += u64::from(told.other_numbers && habit.modes[0] == E);
        for answer in told.refusals {
            refusals[usize::from(answer)][usize::from(told.closed)] += 1;
        }
    }
    assert!(open > 1_000 && closed > 700, "{open} open, {closed} closed");
    assert!(elsewhere > 350, "{elsewhere} closed at different records");
    assert!(other_numbers > 300, "{other_numbers} with other numbers");
    assert!(
        drawn_open > 100,
        "{drawn_open} of these with exclusive takes"
    );
    assert!(full_sized.iter().all(|&n| n > 30), "K 64: {full_sized:?}");
    // Both in logs that stay open and in logs that don't, but for a full frame: those are made
    // of recursive reads alone.
    for answer in [4, 5, 6, 7, 15] {
        let [open, closed] = refusals[answer];
        assert!(open > 100 && closed > 30, "{answer}: {open} {closed}");
    }
    assert!(refusals[8][0] > 15, "8: {}", refusals[8][0]);
    for answer in [0, 1, 2, 3, 9, 10, 11, 12, 13, 14, 16, 17, 18, 19] {
        assert_eq!(refusals[answer], [0, 0], "{answer}");
    }
}

#[test]
fn small_logs_in_all_merges() {
    let mut dice = Dice(0x4D45_5247_4553_0003);
    let (mut open, mut closed, mut elsewhere) = (0, 0, 0);
    for round in 0..600 {
        let (mut habit, _) = habits(round);
        (habit.k, habit.orderly) = (1 + round % 5 / 2, 0);
        habit.events = habit.events.min(4);
        let lengths: &[u64] = [&[3, 3][..], &[2, 2, 1], &[4, 2]][round as usize % 3];
        let lists: Vec<Vec<Rec>> = (0..)
            .zip(lengths)
            .map(|(core, &length)| random_list(&mut dice, core, &habit, length))
            .collect();
        let crosslocks: &[u8] = if round % 7 == 0 { &[0] } else { &[] };
        let all = all_merges(&lists);
        let told = assert_order_does_not_matter(habit.k as usize, crosslocks, &all);
        open += u64::from(!told.closed);
        closed += u64::from(told.closed);
        elsewhere += u64::from(told.elsewhere);
    }
    assert!(open > 150 && closed > 50, "{open} open, {closed} closed");
    assert!(elsewhere > 30, "{elsewhere} closed at different records");
}

#[test]
fn the_second_sheet_may_differ() {
    // Both draw 0 to 1; core 1 draws 0 to 2 too.
    let lists = [
        vec![take(0, 0, R), take(0, 1, R)],
        vec![take(1, 0, R), take(1, 2, R), take(1, 1, R)],
    ];
    let [one, two] = [vec![], vec![1; 3]].map(|choices| merges(&lists, &choices));
    let told = assert_order_does_not_matter(3, &[], &[one.clone(), two.clone()]);
    assert!(!told.closed && told.other_numbers && told.refusals.is_empty());
    let [one, two] = [one, two].map(|merge| Bench::new(3).clean(&merge));
    let numbers = |b: &Bench| [b.number(0, 1), b.number(0, 2), b.number(2, 1)];
    assert_eq!(numbers(&one), [2, 4, 5]);
    assert_eq!(numbers(&two), [3, 2, 3]);
    assert_ne!(one.seen, two.seen);
    assert_eq!((&one.desk, &one.sheet), (&two.desk, &two.sheet));
}

#[test]
fn a_closed_desk_may_differ() {
    // Like P2 without its releases: each core takes 1 and 2 in its own order, and goes on.
    let lists = [
        vec![take(0, 1, E), take(0, 2, E), take(0, 3, E)],
        vec![take(1, 2, E), take(1, 1, E), event(1, HARD_OFF)],
    ];
    let told = assert_order_does_not_matter(4, &[], &all_merges(&lists));
    assert!(told.closed && told.elsewhere);
    let one = ran(4, &[], &merges(&lists, &[]));
    let two = ran(4, &[], &merges(&lists, &[1, 1, 1]));
    assert_eq!((one.closed_by, two.closed_by), (Some((1, 1)), Some((0, 1))));
    assert_eq!(one.answers[..2], [vec![0, 0, 0], vec![0, 1, 10]]);
    assert_eq!(two.answers[..2], [vec![0, 1, 10], vec![0, 0, 0]]);
    assert_ne!(one.b.sheet, two.b.sheet);
    assert_ne!(one.b.desk, two.b.desk);
}

#[test]
fn another_order_of_a_core_matters() {
    let one = [take(0, 1, E), take(0, 2, E), take(1, 2, E), take(1, 1, E)];
    let two = [take(0, 1, E), take(0, 2, E), take(1, 1, E), take(1, 2, E)];
    assert!(!same_for_each_core(&one, &two) && ordinary(&one) && ordinary(&two));
    assert_eq!(ran(3, &[], &one).b.desk[1], 1);
    assert_eq!(ran(3, &[], &two).b.desk[1], 0);
}

#[test]
fn with_crosslocks_the_order_matters() {
    let lists = [
        vec![take(0, 1, E), take_cross(0, 3)],
        vec![take(1, 1, E), commit(1, 3)],
    ];
    let one = merges(&lists, &[0, 0]);
    let two = merges(&lists, &[1, 1]);
    assert!(same_for_each_core(&one, &two) && !ordinary(&one) && !ordinary(&two));
    assert!(exclusive_log(&one) && exclusive_log(&two));
    let [one, two] = [one, two].map(|merge| ran(4, &[3], &merge));
    assert_eq!((one.closed_by, two.closed_by), (Some((1, 1)), None));
    assert_eq!(one.answers[..2], [vec![0, 0], vec![0, 1]]);
    assert_eq!(two.answers[..2], [vec![0, 0], vec![0, 17]]);
    assert_eq!(one.b.slip[..1], [2]);
    assert_eq!(
        broken_rules(&one.b.desk, &one.b.sheet),
        [true, false, false]
    );
    assert_eq!(broken_rules(&two.b.desk, &two.b.sheet), [false; 3]);
    // Of all six merges only the first closes the desk.
    let all = all_merges(&lists);
    let closed = all.iter().filter(|m| ran(4, &[3], m).b.desk[1] == 1);
    assert_eq!((all.len(), closed.count()), (6, 1));
    // Both open, and yet another sheet: core 1 takes 2 and not 1.
    let lists = [lists[0].clone(), vec![take(1, 2, E), commit(1, 3)]];
    let [one, two] = [vec![0, 0], vec![0, 1]].map(|choices| merges(&lists, &choices));
    assert!(same_for_each_core(&one, &two));
    let [one, two] = [one, two].map(|merge| Bench::declaring(4, &[3]).clean(&merge));
    assert_eq!((one.sheet[3 * 4 + 2], two.sheet[3 * 4 + 2]), (EN, 0));
    // Every one of the three kinds: a release of the crosslock alone changes answers.
    let lists = [vec![take_cross(0, 3)], vec![release_cross(1, 3)]];
    let two = merges(&lists, &[1]);
    assert_eq!(ran(4, &[3], &two).answers[1], [17]);
    assert_eq!(ran(4, &[3], &merges(&lists, &[])).answers[1], [0]);
}

// -------------------------------------------------- document 002's three rules

/// The three rules once more, by widening: the first, and for hard and for soft the second
/// and the third.
fn broken(b: &Bench) -> (bool, [[bool; 2]; 2]) {
    let k = b.desk[0] as usize;
    let led_to: Vec<BTreeSet<usize>> = (0..k)
        .map(|class| {
            let mut found = BTreeSet::new();
            let mut newest = vec![class];
            while let Some(at) = newest.pop() {
                for to in 0..k {
                    if b.sheet[k * at + to] == 2 && found.insert(to) {
                        newest.push(to);
                    }
                }
            }
            found
        })
        .collect();
    let circle = (0..k).any(|class| led_to[class].contains(&class));
    let levels = [[1, 4], [16, 64]].map(|marks| {
        let [safe, unsafe_] = marks.map(|mark| {
            let marked = (0..k).filter(|class| b.desk[34 + class] & mark == mark);
            marked.collect::<BTreeSet<usize>>()
        });
        let path = safe
            .iter()
            .any(|&class| !led_to[class].is_disjoint(&unsafe_));
        [!safe.is_disjoint(&unsafe_), path]
    });
    (circle, levels)
}

/// How often each rule was broken alone: the first; the second and the third at the hard
/// level and not at the soft one, and the other way round. And how often several or none.
#[derive(Default, Debug)]
struct Alone {
    circle: u64,
    hard: [u64; 2],
    soft: [u64; 2],
    several: u64,
    none: u64,
}

impl Alone {
    fn count(&mut self, b: &Bench) {
        match broken(b) {
            (true, [[false, false], [false, false]]) => self.circle += 1,
            (false, [[true, false], [false, false]]) => self.hard[0] += 1,
            (false, [[false, true], [false, false]]) => self.hard[1] += 1,
            (false, [[false, false], [true, false]]) => self.soft[0] += 1,
            (false, [[false, false], [false, true]]) => self.soft[1] += 1,
            (false, [[false, false], [false, false]]) => self.none += 1,
            _ => self.several += 1,
        }
    }
    fn least(&self) -> u64 {
        let all = [self.circle, self.several, self.none];
        let levels = self.hard.iter().chain(&self.soft);
        all.iter().chain(levels).copied().min().unwrap()
    }
}

/// What the crate says of a bench is what the rules by widening say; which of them.
fn assert_rules(b: &Bench) -> [bool; 3] {
    let (circle, [hard, soft]) = broken(b);
    let rules = [circle, hard[0] || soft[0], hard[1] || soft[1]];
    assert_eq!(broken_rules(&b.desk, &b.sheet), rules);
    rules
}

#[test]
fn random_exclusive_logs() {
    let mut dice = Dice(0x4D45_5247_4553_0004);
    let mut alone = Alone::default();
    let (mut with_crosslocks, mut malformed, mut accepted) = (0, 0, 0);
    for round in 0..4_800u64 {
        let habit = Habit {
            k: if round % 100 == 0 {
                64
            } else {
                1 + dice.under(7)
            },
            modes: [&[E][..], &[E, E, E, TE]][round as usize % 2],
            orderly: [16, 16, 16, 8][round as usize % 4],
            events: [1, 5, 7, 9][round as usize / 4 % 4],
            careful: [
                &[2, 3, 5, 6][..],
                &[1, 2, 3, 4, 5],
                &[2, 3, 5, 6, 7, 8],
                &[],
            ][round as usize / 16 % 4],
            deep: false,
        };
        let declared = round % 3 == 0;
        let crosslocks: Vec<u8> = match declared {
            true => (0..habit.k as u8).filter(|_| dice.under(3) == 0).collect(),
            false => vec![],
        };
        let lists = random_lists(&mut dice, &habit, 30);
        let mut list = some_merges(&mut dice, &lists).pop().unwrap();
        // Crosslocks and malformed ones put in, and releases by any mode.
        for _ in 0..list.len() / 2 {
            let core = dice.under(8) as u8;
            let class = match crosslocks.len() as u64 {
                0 => dice.under(habit.k) as u8,
                n => crosslocks[dice.under(n) as usize],
            };
            let kind = 10 + dice.under(3) as u8;
            let put_in = match dice.under(8) {
                0 => [0x4C, 0x4B, core, 0, class, 6],
                1 => [0x4C, 0x4B, core + 8, 0, class, NR],
                2 => release(core, class, MODES[dice.under(6) as usize]),
                _ if declared => [0x4C, 0x4B, core, kind, class, 0],
                _ => continue,
            };
            list.insert(dice.under(list.len() as u64 + 1) as usize, put_in);
        }
        assert!(exclusive_log(&list));
        let mut b = Bench::declaring(habit.k as usize, &crosslocks);
        for r in &list {
            let answer = b.step(r);
            malformed += u64::from(answer == 3);
            if answer > 1 {
                continue;
            }
            accepted += 1;
            assert!(is_exclusive(&b.desk, &b.sheet), "{list:?}");
            // "a fault stands exactly when document 002's rules are broken"
            let fault = assert_rules(&b).contains(&true);
            assert_eq!(answer == 1, fault, "{list:?}");
            with_crosslocks += u64::from(r[3] == COMMIT && fault);
        }
        alone.count(&b);
    }
    assert!(alone.least() > 40, "{alone:?}");
    assert!(with_crosslocks > 15, "{with_crosslocks} faults at a commit");
    assert!(accepted > 50_000, "{accepted} accepted");
    assert!(malformed > 500, "{malformed} malformed");
}

#[test]
fn the_logs_of_document_01() {
    let judged = |records: &[Rec]| {
        assert!(exclusive_log(records));
        let b = ran(8, &[], records).b;
        assert!(is_exclusive(&b.desk, &b.sheet));
        assert_eq!(b.desk[1] == 1, assert_rules(&b).contains(&true));
        assert_eq!(closed_strong_path(&b.desk, &b.sheet), b.desk[1] == 1);
        broken(&b)
    };
    let none = [[false; 2]; 2];
    assert_eq!(judged(&[]), (false, none));
    // P2, and one class taken twice.
    assert_eq!(judged(&p2_records()), (true, none));
    assert_eq!(judged(&p2_records()[..5]), (false, none));
    assert_eq!(judged(&[take(0, 1, E), take(0, 1, E)]), (true, none));
    assert_eq!(judged(&[take(0, 1, E), take(0, 1, TE)]), (false, none));
    // P10: one class, hard. In the handler a try isn't safe.
    let p10 = |mode: u8| {
        let task = [take(0, 3, E), release(0, 3, E)];
        judged(&[task[0], task[1], event(0, ENTER_HARD), take(0, 3, mode)])
    };
    assert_eq!(p10(E), (false, [[true, false], [false, false]]));
    assert_eq!(p10(TE), (false, none));
    // P11: a path, hard. 4 is safe, 4 leads to 5, and 5 is unsafe; soft-unsafe is no matter.
    let p11 = [
        event(0, ENTER_HARD),
        take(0, 4, E),
        release(0, 4, E),
        event(0, 9),
        event(0, HARD_OFF),
        take(0, 4, E),
        take(0, 5, E),
        release(0, 5, E),
        release(0, 4, E),
        event(0, HARD_ON),
        take(0, 5, E),
    ];
    assert_eq!(judged(&p11), (false, [[false, true], [false, false]]));
    assert_eq!(judged(&p11[..10]), (false, none));
    // P12: one class, soft; and a path, soft.
    let p12 = [
        event(0, SOFT_OFF),
        take(0, 6, E),
        release(0, 6, E),
        event(0, SOFT_ON),
        event(0, ENTER_SOFT),
        take(0, 6, E),
    ];
    assert_eq!(judged(&p12), (false, none));
    let without = [p12[1], p12[2], p12[4], p12[5]];
    assert_eq!(judged(&without), (false, [[false, false], [true, false]]));
    let mut path = without;
    path[0][4] = 7;
    path[1][4] = 7;
    assert_eq!(judged(&path), (false, none));
    let path = [&path[..], &[take(0, 7, E)]].concat();
    // 7 is now soft-safe itself as well.
    assert_eq!(judged(&path), (false, [[false, false], [true, true]]));
    let apart = [
        event(0, ENTER_SOFT),
        take(0, 6, E),
        release(0, 6, E),
        event(0, EXIT_SOFT),
        event(0, SOFT_OFF),
        take(0, 6, E),
        take(0, 7, E),
        release(0, 6, E),
        event(0, SOFT_ON),
    ];
    assert_eq!(judged(&apart), (false, [[false, false], [false, true]]));
    // P3 has a fault and no exclusive drawing: the rules say nothing of reads.
    let p3 = [take(0, 0, R), take(0, 1, E), take(1, 1, R), take(1, 0, E)];
    let b = ran(8, &[], &p3).b;
    assert_eq!((b.desk[1], exclusive_log(&p3)), (1, false));
    assert!(!is_exclusive(&b.desk, &b.sheet));
    assert_eq!(broken_rules(&b.desk, &b.sheet), [false; 3]);
}

/// The mark bytes that an exclusive drawing may have.
fn exclusive_marks() -> Vec<u8> {
    let mut all = Vec::new();
    for hard in [0, 1, 4, 5] {
        for soft in [0, 16, 64, 80] {
            if hard & 4 == 4 || soft & 64 == 0 {
                all.push(hard + soft);
            }
        }
    }
    assert_eq!(all.len(), 12);
    all
}

/// A drawing that is exclusive: a closed strong path exactly when a rule is broken.
fn assert_exclusive(b: &Bench) {
    assert!(is_exclusive(&b.desk, &b.sheet));
    let fault = assert_rules(b).contains(&true);
    assert_eq!(closed_strong_path(&b.desk, &b.sheet), fault);
}

#[test]
fn small_exclusive_drawings() {
    let marks = exclusive_marks();
    let mut alone = Alone::default();
    for k in 1..=2usize {
        let mut b = Bench::new(k);
        for sheet in 0..1u32 << (k * k) {
            for pair in 0..k * k {
                b.sheet[pair] = if sheet >> pair & 1 == 1 { 2 } else { 0 };
            }
            for all in 0..12usize.pow(k as u32) {
                for class in 0..k {
                    b.desk[34 + class] = marks[all / 12usize.pow(class as u32) % 12];
                }
                assert_exclusive(&b);
                alone.count(&b);
            }
        }
    }
    assert!(alone.least() > 1, "{alone:?}");
}

#[test]
fn random_exclusive_drawings() {
    let marks = exclusive_marks();
    let mut dice = Dice(0x4D45_5247_4553_0005);
    let mut alone = Alone::default();
    for round in 0..40_000u64 {
        let k = match round % 200 {
            0 => 64,
            n if n < 4 => 9 + dice.under(55),
            _ => 3 + dice.under(6),
        } as usize;
        let mut b = Bench::new(k);
        // Some arrows for each class; in one half only to higher classes, in a random order.
        let (density, forward) = (1 + round % 4, round / 4 % 2 == 0);
        let order: Vec<u64> = (0..k).map(|_| dice.next()).collect();
        for _ in 0..k as u64 * density / 2 {
            let [from, to] = [0, 0].map(|_| dice.under(k as u64) as usize);
            if !forward || order[from] < order[to] {
                b.sheet[k * from + to] = 2;
            }
        }
        // Only few classes have marks, at one level or at both.
        let level = [0x0F, 0xFF, 0xF4, 0xFF][round as usize / 8 % 4];
        for _ in 0..1 + dice.under(4) {
            let class = dice.under(k as u64) as usize;
            b.desk[34 + class] = marks[dice.under(12) as usize] & level;
            if b.desk[34 + class] & 68 == 64 {
                b.desk[34 + class] |= 4;
            }
            // In one half no class is unsafe and safe.
            if round / 32 % 2 == 0 {
                b.desk[34 + class] &= !((b.desk[34 + class] & 68) >> 2);
            }
        }
        b.settle();
        assert_eq!(b.unfit(), None);
        assert_exclusive(&b);
        alone.count(&b);
    }
    assert!(alone.least() > 200, "{alone:?}");
}

#[test]
fn soft_unsafe_must_bring_hard_unsafe() {
    // 0 soft 1 and 1 hard 0: two interrupt arrows of different levels, no hold arrow.
    let mut b = Bench::new(2);
    b.desk[34] = 1 + 64;
    b.desk[35] = 16 + 4;
    assert_eq!(b.unfit(), Some("soft-unsafe without hard-unsafe"));
    assert!(!is_exclusive(&b.desk, &b.sheet));
    assert!(closed_strong_path(&b.desk, &b.sheet));
    assert_eq!(broken_rules(&b.desk, &b.sheet), [false; 3]);
    assert_eq!(broken(&b), (false, [[false; 2]; 2]));
    // With it, class 0 is hard-safe and hard-unsafe.
    b.desk[34] += 4;
    assert_eq!(b.unfit(), None);
    assert_exclusive(&b);
    assert_eq!(broken(&b), (false, [[true, false], [false, false]]));
    // Soft-unsafe alone, without hard-safe, does no harm but is unfit too.
    b.desk[34] = 64;
    b.desk[35] = 0;
    assert!(!is_exclusive(&b.desk, &b.sheet));
    b.desk[34] = 64 + 4;
    assert!(is_exclusive(&b.desk, &b.sheet));
}

// ------------------------------------------------- the parts of the rules

#[test]
fn what_is_exclusive() {
    for k in [1, 2, 5, 63, 64usize] {
        let fresh = Bench::new(k);
        assert!(is_exclusive(&fresh.desk, &fresh.sheet));
        // Every pair, first and last row and the rest, by every byte that is fit.
        let pairs = [0, k - 1, k * k / 2, k * k - k, k * k - 1];
        for pair in pairs.into_iter().filter(|&pair| pair < k * k) {
            for kinds in 0..=255 {
                let mut b = fresh.clone();
                b.sheet[pair] = kinds;
                let fits = kinds == 0 || kinds == 2;
                assert_eq!(is_exclusive(&b.desk, &b.sheet), fits, "{k} {pair} {kinds}");
            }
        }
        // Every class by every mark byte.
        for class in 0..k {
            for marks in 0..=255 {
                let mut b = fresh.clone();
                b.desk[34 + class] = marks;
                let fits = exclusive_marks().contains(&marks);
                assert_eq!(is_exclusive(&b.desk, &b.sheet), fits, "{k} {class} {marks}");
            }
        }
        // One bad byte among good ones.
        let mut b = fresh.clone();
        b.sheet.fill(2);
        b.desk[34..34 + k].fill(1 + 4 + 16 + 64);
        assert!(is_exclusive(&b.desk, &b.sheet));
        for pair in 0..k * k {
            b.sheet[pair] = 8;
            assert!(!is_exclusive(&b.desk, &b.sheet));
            b.sheet[pair] = 2;
        }
        // Past the sheet's K x K bytes anything may lie, and elsewhere on the desk.
        b.sheet.extend([0xA5; 9]);
        b.desk[1..34].fill(0xA5);
        b.desk[98..].fill(0xA5);
        assert!(is_exclusive(&b.desk, &b.sheet));
    }
    // Marks of classes K or more, which a fit desk has none of, aren't let through.
    let mut b = Bench::new(2);
    b.desk[97] = 8;
    assert!(!is_exclusive(&b.desk, &b.sheet));
    // The soft-unsafe one and the hard-unsafe one must be one class.
    let mut b = Bench::new(2);
    (b.desk[34], b.desk[35]) = (4, 64);
    assert!(!is_exclusive(&b.desk, &b.sheet));
    (b.desk[34], b.desk[35]) = (64, 4);
    assert!(!is_exclusive(&b.desk, &b.sheet));
}

/// A drawing of hold arrows EN and marks by class.
fn drawing(k: usize, holds: &[(usize, usize)], marks: &[(usize, u8)]) -> Bench {
    let mut b = Bench::new(k);
    for &(from, to) in holds {
        b.sheet[k * from + to] = 2;
    }
    for &(class, bits) in marks {
        b.desk[34 + class] |= bits;
    }
    b
}

fn rules(k: usize, holds: &[(usize, usize)], marks: &[(usize, u8)]) -> [bool; 3] {
    let b = drawing(k, holds, marks);
    broken_rules(&b.desk, &b.sheet)
}

const NO: [bool; 3] = [false; 3];
const CIRCLE: [bool; 3] = [true, false, false];
const ONE_CLASS: [bool; 3] = [false, true, false];
const PATH: [bool; 3] = [false, false, true];

#[test]
fn a_circle_of_hold_arrows() {
    assert_eq!(rules(1, &[], &[]), NO);
    assert_eq!(rules(1, &[(0, 0)], &[]), CIRCLE);
    assert_eq!(rules(2, &[(0, 1)], &[]), NO);
    assert_eq!(rules(2, &[(1, 0)], &[]), NO);
    assert_eq!(rules(2, &[(0, 1), (1, 0)], &[]), CIRCLE);
    // Two ways to one class are no circle, whichever the direction.
    assert_eq!(rules(3, &[(0, 1), (0, 2), (1, 2)], &[]), NO);
    assert_eq!(rules(3, &[(0, 2), (1, 2)], &[]), NO);
    assert_eq!(rules(4, &[(0, 1), (1, 3), (0, 2), (2, 3)], &[]), NO);
    for k in [3, 8, 63, 64usize] {
        for class in 0..k {
            assert_eq!(rules(k, &[(class, class)], &[]), CIRCLE, "{class}");
        }
        // Rings through all classes, in three orders; without one arrow there is none.
        for stride in [1, k - 1, if k == 8 { 3 } else { 5 }] {
            let ring = |i: usize| (i * stride % k, (i + 1) * stride % k);
            let mut holds: Vec<_> = (0..k).map(ring).collect();
            assert_eq!(holds.iter().map(|h| h.0).collect::<BTreeSet<_>>().len(), k);
            assert_eq!(rules(k, &holds, &[]), CIRCLE);
            for _ in 0..k {
                let last = holds.pop().unwrap();
                assert_eq!(rules(k, &holds, &[]), NO);
                holds.insert(0, last);
            }
        }
        // A full triangle has none, and with any one arrow back it has.
        let triangle: Vec<_> = (0..k)
            .flat_map(|from| (from + 1..k).map(move |to| (from, to)))
            .collect();
        assert_eq!(rules(k, &triangle, &[]), NO);
        for back in [(1, 0), (k - 1, 0), (k - 1, k - 2)] {
            assert_eq!(rules(k, &[&triangle[..], &[back]].concat(), &[]), CIRCLE);
        }
    }
    // Marks, clashing or not, make no circle.
    assert!(!rules(2, &[(0, 1)], &[(0, 85), (1, 85)])[0]);
    assert_eq!(rules(2, &[], &[(0, 85), (1, 85)]), ONE_CLASS);
}

#[test]
fn one_class_safe_and_unsafe() {
    for k in [1, 2, 7, 64usize] {
        for class in 0..k {
            for marks in 0..=255 {
                let hard = marks & 5 == 5;
                let soft = marks & 80 == 80;
                let wanted = if hard || soft { ONE_CLASS } else { NO };
                assert_eq!(rules(k, &[], &[(class, marks)]), wanted, "{class} {marks}");
            }
        }
    }
    // Zero arrows are no path: two classes, each of them one of the two.
    for (safe, unsafe_) in [(1, 4), (16, 64), (1, 64), (16, 4)] {
        assert_eq!(rules(2, &[], &[(0, safe), (1, unsafe_)]), NO);
        assert_eq!(rules(2, &[], &[(1, safe), (0, unsafe_)]), NO);
    }
    // At one level it is; arrows from elsewhere and to elsewhere don't matter.
    assert_eq!(rules(1, &[], &[(0, 1 + 64)]), NO);
    assert_eq!(rules(1, &[], &[(0, 16 + 4)]), NO);
    assert_eq!(rules(3, &[(0, 1), (1, 2)], &[(1, 5)]), ONE_CLASS);
    assert_eq!(rules(3, &[(0, 1), (1, 2)], &[(1, 80)]), ONE_CLASS);
}

#[test]
fn a_path_from_safe_to_unsafe() {
    for (safe, unsafe_) in [(1, 4), (16, 64)] {
        // Only this way round.
        assert_eq!(rules(2, &[(0, 1)], &[(0, safe), (1, unsafe_)]), PATH);
        assert_eq!(rules(2, &[(0, 1)], &[(1, safe), (0, unsafe_)]), NO);
        assert_eq!(rules(2, &[(1, 0)], &[(1, safe), (0, unsafe_)]), PATH);
        assert_eq!(rules(2, &[(1, 0)], &[(0, safe), (1, unsafe_)]), NO);
        // Not where two paths meet, nor where they part.
        assert_eq!(rules(3, &[(0, 2), (1, 2)], &[(0, safe), (1, unsafe_)]), NO);
        assert_eq!(rules(3, &[(2, 0), (2, 1)], &[(0, safe), (1, unsafe_)]), NO);
        // One class at both ends: only with arrows, which then are a circle.
        let both = safe | unsafe_;
        assert_eq!(rules(1, &[], &[(0, both)]), ONE_CLASS);
        assert_eq!(rules(1, &[(0, 0)], &[(0, both)]), [true; 3]);
        assert_eq!(rules(2, &[(0, 1), (1, 0)], &[(0, both)]), [true; 3]);
        assert_eq!(rules(2, &[(0, 1)], &[(0, both)]), ONE_CLASS);
        assert_eq!(rules(2, &[(0, 1)], &[(1, both)]), ONE_CLASS);
        assert_eq!(rules(2, &[(1, 1)], &[(0, both)]), [true, true, false]);
        assert_eq!(
            rules(2, &[(0, 1)], &[(0, both), (1, unsafe_)]),
            [false, true, true]
        );
        assert_eq!(
            rules(2, &[(0, 1)], &[(0, safe), (1, both)]),
            [false, true, true]
        );
        // Beside a circle; and through it.
        let beside = [(0, 0), (1, 2)];
        assert_eq!(
            rules(3, &beside, &[(1, safe), (2, unsafe_)]),
            [true, false, true]
        );
        let through = [(0, 1), (1, 1), (1, 2)];
        assert_eq!(
            rules(3, &through, &[(0, safe), (2, unsafe_)]),
            [true, false, true]
        );
        assert_eq!(rules(3, &through, &[(2, safe), (0, unsafe_)]), CIRCLE);
        // Along all classes, in three orders, and from each to each.
        for k in [3, 8, 63, 64usize] {
            for stride in [1, k - 1, if k == 8 { 3 } else { 5 }] {
                let nth = |i: usize| i * stride % k;
                let chain: Vec<_> = (1..k).map(|i| (nth(i - 1), nth(i))).collect();
                for (i, j) in [
                    (0, k - 1),
                    (0, 1),
                    (k - 2, k - 1),
                    (1, k / 2 + 1),
                    (0, k / 2),
                ] {
                    let marks = [(nth(i), safe), (nth(j), unsafe_)];
                    assert_eq!(rules(k, &chain, &marks), PATH);
                    let marks = [(nth(j), safe), (nth(i), unsafe_)];
                    assert_eq!(rules(k, &chain, &marks), NO);
                    let mut cut = chain.clone();
                    cut.remove((i + j - 1) / 2);
                    let marks = [(nth(i), safe), (nth(j), unsafe_)];
                    assert_eq!(rules(k, &cut, &marks), NO);
                }
            }
        }
    }
    // Each level stands for itself, and each mark is looked at by its own bit.
    for from in 0..8 {
        for to in 0..8 {
            let wanted = if [(0, 2), (4, 6)].contains(&(from, to)) {
                PATH
            } else {
                NO
            };
            let marks = [(0, 1 << from), (1, 1 << to)];
            assert_eq!(rules(2, &[(0, 1)], &marks), wanted, "{from} {to}");
        }
    }
    // A path from hard-safe to soft-unsafe, whose end is hard-unsafe with it.
    assert_eq!(rules(2, &[(0, 1)], &[(0, 1), (1, 64 + 4)]), PATH);
    assert_eq!(rules(2, &[(0, 1)], &[(0, 16), (1, 4)]), NO);
}

#[test]
fn of_reads_nothing_is_looked_at() {
    for kinds in 0..16 {
        let mut b = drawing(2, &[], &[(0, 1), (1, 4)]);
        b.sheet[1] = kinds;
        let wanted = if kinds & 2 == 2 { PATH } else { NO };
        assert_eq!(broken_rules(&b.desk, &b.sheet), wanted);
        b.sheet[3] = kinds;
        assert_eq!(broken_rules(&b.desk, &b.sheet)[0], kinds & 2 == 2);
    }
    // Nor at anything past K, nor elsewhere on the desk.
    let mut b = drawing(2, &[(0, 1)], &[(0, 1)]);
    b.sheet.extend([2; 60]);
    b.desk[1..34].fill(0xFF);
    b.desk[36..].fill(0xFF);
    assert_eq!(broken_rules(&b.desk, &b.sheet), NO);
    b.desk[35] = 4;
    assert_eq!(broken_rules(&b.desk, &b.sheet), PATH);
}

#[test]
fn what_an_exclusive_log_is() {
    assert!(exclusive_log::<Rec>(&[]));
    // Every kind by every mode: of those that aren't malformed, takes by four modes are not.
    for kind in 0..=255 {
        for mode in 0..=255 {
            let r = [0x4C, 0x4B, 0, kind, 0, mode];
            let wanted = kind != 0 || ![1, 2, 4, 5].contains(&mode);
            assert_eq!(exclusive_log(&[r]), wanted, "{kind} {mode}");
            // Wherever it stands.
            let others = [take(1, 0, E), release(0, 0, R), take(7, 9, TE)];
            for at in 0..=3 {
                let mut list = others.to_vec();
                list.insert(at, r);
                assert_eq!(exclusive_log(&list), wanted);
            }
        }
    }
    // By reads, whatever a desk would say of it.
    assert!(!exclusive_log(&[take(7, 255, R)]));
    // Malformed ones by reads are let through.
    for mut bad in malformed_records() {
        assert!(exclusive_log(&[&bad[..]]));
        if bad.len() > 5 && bad[3] == 0 {
            bad[5] = bad[5].max(1);
            assert!(exclusive_log(&[&bad[..]]));
        }
    }
    let short: &[u8] = &[0x4C, 0x4B, 0, 0, 0, 1, 0];
    assert!(exclusive_log(&[short]) && !exclusive_log(&[&short[..6]]));
}
