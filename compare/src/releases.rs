//! Releases, and the modes of the acquires that they end: on desks that no opening need lead to, and in logs from opening. What is
//! to come of the fixed ones is worked out here from the documents; no judge is asked.

use crate::clashes;
use crate::drawing::FRAME;
use crate::gen::{
    any_buffers, any_release, any_style, case, hand_logs, hold_at, may_hold, mode_at, push, read, release, steps, Buffers, Kind,
};
use crate::numbers::{self, FULL};
use crate::rng::Rng;
use crate::run::{Call, Case, Meant, Pair, Rec};
use crate::ties::EN;
use reference::{DEEPEST, DEPTHS, DESK, FRAMES, MARKS, STATES};

/// How many modes an acquire and a release may have: 3 and more are tries.
const MODES: u8 = 6;

/// Puts a lock acquired in this mode on top of a frame.
fn hold(desk: &mut [u8], frame: usize, class: u8, mode: u8) {
    push(desk, frame, class + 64 * (mode % 3), mode > 2);
}

// ---------------------------------------------------------------------- random

/// A release of the core whose frame this is, of any sort: most of what is held there.
fn any(rng: &mut Rng, desk: &[u8], frame: usize, classes: &[u8]) -> Rec {
    let (core, depth) = ((frame / 3) as u8, usize::from(desk[DEPTHS + frame]));
    let held = |rng: &mut Rng| desk[hold_at(frame, rng.under(depth))] % 64;
    match rng.under(20) {
        0..3 if depth > 0 => release(desk, frame, held(rng)),
        3..8 if depth > 0 => {
            let class = held(rng);
            any_release(rng, desk, frame, class, 1000)
        }
        // In the mode of any lock of the class there, and in that of the frame's newest lock.
        8..14 if depth > 0 => {
            let place = rng.under(depth);
            Rec::new(core, 1, desk[hold_at(frame, place)] % 64, mode_at(desk, frame, place))
        }
        14 | 15 if depth > 0 => Rec::new(core, 1, held(rng), mode_at(desk, frame, depth - 1)),
        16 => Rec::new(core, 1, rng.pick(&[desk[0], desk[0], 64, 255]), rng.under(7) as u8),
        17 => Rec::new(core, 1, rng.pick(classes), rng.pick(&[6, 6, 7, 8, 67, 255])),
        _ => Rec::new(core, 1, rng.pick(classes), rng.under(6) as u8),
    }
}

/// A core with some locks of few classes in its frame, and more of them in other frames.
fn on_desk(rng: &mut Rng) -> Case {
    let k = rng.pick(&[1, 2, 3, 3, 8, 64]);
    let mut buffers = any_buffers(rng, k);
    let Buffers { desk, sheet, .. } = &mut buffers;
    desk[..DESK].fill(0);
    desk[0] = k as u8;
    sheet[..k * k].fill(0);
    if rng.mille(60) {
        // A cycle stands.
        sheet[0] = EN;
    }
    // Of these the frame has the first three.
    let (core, classes) = (rng.under(8), [0; 5].map(|_| rng.under(k) as u8));
    let deep = rng.pick(&[2, 2, 3, 3, 4, 6, 12, 24, 40, DEEPEST]);
    for frame in 0..FRAMES {
        if frame % 3 == 0 {
            desk[STATES + frame / 3] = rng.under(9) as u8;
        }
        let state = desk[STATES + frame / 3];
        let here = frame == 3 * core + FRAME[usize::from(state)];
        let depth = if here { deep } else { rng.pick(&[0, 0, 1, 2]) };
        let few = if here { &classes[..3] } else { &classes };
        for _ in 0..if may_hold(state, frame % 3) { depth } else { 0 } {
            hold(desk, frame, rng.pick(few), rng.under(6) as u8);
        }
    }
    desk[1] = u8::from(rng.mille(40));
    let frame = 3 * core + FRAME[usize::from(desk[STATES + core])];
    numbers::scatter(rng, &mut buffers);
    if rng.mille(100) {
        numbers::set_count(&mut buffers.desk, FULL - rng.pick(&[0, 0, 1]));
    }
    let (mut shadow, mut calls) = (buffers.clone(), Vec::new());
    for _ in 0..rng.between(4, 16) {
        let record = any(rng, &shadow.desk, frame, &classes);
        calls.push(Call::Step(record));
        shadow.step(&record);
    }
    case(buffers, calls)
}

/// From opening: few classes acquired again and again, by tries mostly, and released in all modes.
fn log(rng: &mut Rng) -> Case {
    let k = rng.pick(&[1, 2, 2, 3, 8]);
    let mut style = any_style(rng, k);
    style.cores.truncate(rng.pick(&[1, 1, 2]));
    style.weights = rng.pick(&[[4, 4, 1], [4, 6, 1], [5, 3, 0]]);
    style.modes = rng.pick(&[[1, 1, 2, 3, 3, 3], [0, 0, 1, 1, 1, 1], [1, 1, 1, 1, 1, 1]]);
    (style.unordered, style.avoid, style.wrong) = (1000, 1000, rng.pick(&[100, 300, 600]));
    let mut calls = vec![Call::Open(k as u64, 0)];
    let most = rng.pick(&[10, 30, 60]);
    steps(rng, &style, &mut Buffers::opened(k), most, &mut calls);
    case(any_buffers(rng, k), calls)
}

pub const KINDS: [Kind; 2] = [
    Kind { name: "releases on a desk", weight: 120, make: on_desk },
    Kind { name: "log of releases", weight: 40, make: log },
];

// ----------------------------------------------------------------------- fixed

pub const EACH_MODE: &str = "each mode released in each";
pub const OLDER_AND_NEWER: &str = "an older and a newer lock released";
pub const OF_THREE: &str = "three locks of a class released";
pub const ELSEWHERE: &str = "class held elsewhere too";
pub const EACH_CLASS: &str = "each class released";
pub const FULL_FRAME: &str = "full frame released";
pub const MODE_BYTE: &str = "each mode byte of a release";
pub const REFUSED: &str = "releases refused for other reasons";
pub const OVER_CYCLE: &str = "releases over a cycle";
pub const OF_HAND_LOGS: &str = "releases of the hand logs in each mode";
pub const IN_PAIRS: &str = "releases in pairs of lists";

/// A case under way: what a core's frame has, what is held elsewhere, and the records so far.
struct Hand {
    k: usize,
    core: usize,
    state: u8,
    /// In the core's frame, the oldest first: class and mode.
    locks: Vec<(u8, u8)>,
    /// Frame, class and mode.
    elsewhere: Vec<(usize, u8, u8)>,
    marks: [u8; 64],
    count: u32,
    before: Vec<u8>,
    calls: Vec<Call>,
    answers: Vec<u8>,
}

impl Hand {
    fn new(k: usize, core: usize, state: u8, locks: &[(u8, u8)], elsewhere: &[(usize, u8, u8)], count: u32) -> Hand {
        let (locks, elsewhere) = (locks.to_vec(), elsewhere.to_vec());
        let (before, calls, answers) = (Vec::new(), Vec::new(), Vec::new());
        let hand = Hand { k, core, state, locks, elsewhere, marks: [0; 64], count, before, calls, answers };
        Hand { before: hand.desk(), ..hand }
    }
    fn desk(&self) -> Vec<u8> {
        let mut desk = Buffers::opened(self.k).desk;
        desk[STATES + self.core] = self.state;
        let frame = 3 * self.core + FRAME[usize::from(self.state)];
        self.locks.iter().for_each(|&(class, mode)| hold(&mut desk, frame, class, mode));
        self.elsewhere.iter().for_each(|&(frame, class, mode)| hold(&mut desk, frame, class, mode));
        desk[MARKS..MARKS + 64].copy_from_slice(&self.marks);
        numbers::set_count(&mut desk, self.count);
        desk
    }
    fn answered(&mut self, answer: u8, class: u8, mode: u8) {
        self.calls.push(Call::Step(Rec::new(self.core as u8, 1, class, mode)));
        self.answers.push(answer);
    }
    /// The release of the lock at this place. Those left are marked.
    fn releases(&mut self, place: usize) {
        let (class, mode) = self.locks.remove(place);
        for &(class, mode) in &self.locks {
            self.marks[usize::from(class)] |= clashes::marks_of(self.state, mode);
        }
        self.count += 1;
        self.answered(0, class, mode);
    }
    fn case(self, name: &'static str) -> Case {
        let mut buffers = Buffers::opened(self.k);
        buffers.slip.fill(9);
        let (desk, numbers) = (Some(self.desk()), Some((self.count, vec![0; self.k * self.k])));
        let meant = Some(Meant { slip: buffers.slip.clone(), answers: self.answers, desk, numbers, ..Meant::default() });
        buffers.desk = self.before;
        Case { name, meant, ..case(buffers, self.calls) }
    }
}

fn twice() -> impl Iterator<Item = (u8, u8)> {
    (0..MODES).flat_map(|a| (0..MODES).map(move |b| (a, b)))
}

fn thrice() -> impl Iterator<Item = (u8, u8, u8)> {
    twice().flat_map(|(a, b)| (0..MODES).map(move |c| (a, b, c)))
}

/// From opening, in each frame: acquired in one mode and released in another, then in its own, then once more.
fn each_mode(each: &mut dyn FnMut(Case) -> bool) -> bool {
    let mut all = (0..FRAMES).flat_map(|frame| twice().map(move |modes| (frame, modes)));
    all.all(|(frame, (mode, other))| {
        let (core, state, into) = (frame / 3, [0, 4, 6][frame % 3], [None, Some(6), Some(8)][frame % 3]);
        let record = |kind: u8, class: u8, mode: u8| Call::Step(Rec::new(core as u8, kind, class, mode));
        let mut calls = vec![Call::Open(3, 0)];
        calls.extend(into.map(|kind| record(kind, 0, 0)));
        calls.push(record(0, 1, mode));
        let before = calls.len();
        calls.extend([other, mode, mode].map(|mode| record(1, 1, mode)));
        let after: [u8; 3] = if mode == other { [0, 5, 5] } else { [5, 0, 5] };
        let answers = [&vec![0; before][..], &after].concat();
        let mut left = Hand::new(3, core, state, &[], &[], before as u32);
        left.marks[1] = clashes::marks_of(state, mode);
        let meant = Some(Meant { answers, desk: Some(left.desk()), numbers: Some((left.count, vec![0; 9])), ..Meant::default() });
        each(Case { name: EACH_MODE, meant, ..case(Buffers::opened(3), calls) })
    })
}

/// Two locks of class 1 in each two modes, released in each, alone and beside locks of other classes that have that mode; then
/// the older one. In each state in turn.
fn older_and_newer(each: &mut dyn FnMut(Case) -> bool) -> bool {
    let mut all = thrice().flat_map(|modes| (0..5).map(move |beside| (modes, beside)));
    let mut turn = 0;
    all.all(|((older, newer, mode), beside)| {
        turn += 1;
        let (a, b, x, y) = ((1, older), (1, newer), (2, mode), (0, mode));
        let (locks, place) = match beside {
            0 => (vec![a, b], 1),
            1 => (vec![a, x, b], 2),
            2 => (vec![a, b, x], 1),
            3 => (vec![x, a, b], 2),
            _ => (vec![a, x, b, y], 2),
        };
        let oldest = usize::from(beside == 3);
        let mut hand = Hand::new(3, turn % 8, (turn % 9) as u8, &locks, &[], 5);
        if mode == newer {
            hand.releases(place);
            hand.releases(oldest);
        } else {
            hand.answered(5, 1, mode);
            match older == newer {
                true => hand.releases(place),
                false => hand.answered(5, 1, older),
            }
        }
        each(hand.case(OLDER_AND_NEWER))
    })
}

/// Three locks of class 1, with others between: released in the mode of the oldest, of the one between, and of the newest.
fn of_three(each: &mut dyn FnMut(Case) -> bool) -> bool {
    let mut all = thrice().flat_map(|modes| (0..3).map(move |which| (modes, which)));
    let mut turn = 0;
    all.all(|((a, b, c), which)| {
        turn += 1;
        let mode = [a, b, c][which];
        let mut hand = Hand::new(3, turn % 8, (turn / 3 % 9) as u8, &[(1, a), (0, c), (1, b), (2, c), (1, c)], &[], 70_000);
        match mode == c {
            true => hand.releases(4),
            false => hand.answered(5, 1, mode),
        }
        each(hand.case(OF_THREE))
    })
}

/// Class 1 held in another frame in some mode, and here in another or not at all: released in that mode, then in its own.
fn elsewhere(each: &mut dyn FnMut(Case) -> bool) -> bool {
    // The core's state and the other frame: of the same core, below, and of another core.
    let below = [(8, 0), (8, 1), (6, 0), (7, 0), (4, 0), (5, 0)].map(|(state, frame)| (3, state, 9 + frame));
    let cores = (0..8).flat_map(|core| [1, 4, 7].map(|far| (core, 3, 3 * ((core + far) % 8))));
    let mut all = below.into_iter().chain(cores).flat_map(|place| {
        let here = [None].into_iter().chain((0..MODES).map(Some));
        here.flat_map(move |here| (0..MODES).map(move |there| (place, here, there)))
    });
    all.all(|((core, state, frame), here, there)| {
        let locks: Vec<(u8, u8)> = here.map(|mode| (1, mode)).into_iter().collect();
        let mut hand = Hand::new(3, core, state, &locks, &[(frame, 1, there)], 300);
        match here {
            Some(mode) if mode == there => hand.releases(0),
            Some(_) => {
                hand.answered(5, 1, there);
                hand.releases(0);
            }
            None => {}
        }
        hand.answered(5, 1, there);
        each(hand.case(ELSEWHERE))
    })
}

/// Each of 64 classes in each mode, below one whose number differs in a bit: released in another mode, then in its own.
fn each_class(each: &mut dyn FnMut(Case) -> bool) -> bool {
    let mut all = (0..64u8).flat_map(|class| (0..MODES).map(move |mode| (class, mode)));
    all.all(|(class, mode)| {
        let other = class ^ 1 << mode;
        let wrong = (mode + 1 + class % 5) % 6;
        let mut hand = Hand::new(64, usize::from(class) % 8, 3, &[(class, mode), (other, wrong)], &[], 7);
        hand.answered(5, class, wrong);
        hand.answered(5, other, mode);
        hand.releases(0);
        hand.releases(0);
        each(hand.case(EACH_CLASS))
    })
}

/// A full frame, all others of the core full too. Of different classes: each place in each mode. Of one class: one lock at each
/// place has another mode than the rest, and is released only at the last.
fn full_frame(each: &mut dyn FnMut(Case) -> bool) -> bool {
    // Frame and state; below the hard frame of state 8 both others may have locks.
    let places = [(0, 3), (10, 5), (23, 8)].into_iter().flat_map(|frame| (0..DEEPEST).map(move |place| (frame, place)));
    let mut all = places.flat_map(|(frame, place)| (0..2 * MODES).map(move |what| (frame, place, what)));
    all.all(|((frame, state), place, what)| {
        let (core, mode) = (frame / 3, what % MODES);
        let full = |of: &dyn Fn(usize) -> (u8, u8)| (0..DEEPEST).map(of).collect::<Vec<_>>();
        let others = (3 * core..frame).chain([(frame + 3) % FRAMES / 3 * 3]);
        let elsewhere: Vec<(usize, u8, u8)> =
            others.flat_map(|other| full(&|at| (at as u8, 5 - mode)).into_iter().map(move |(class, mode)| (other, class, mode))).collect();
        if what < MODES {
            let locks = full(&|at| (at as u8, ((at * at + place) % 6) as u8));
            let mut hand = Hand::new(DEEPEST, core, state, &locks, &elsewhere, 40);
            match locks[place].1 == mode {
                true => hand.releases(place),
                false => hand.answered(5, place as u8, mode),
            }
            return each(hand.case(FULL_FRAME));
        }
        let other = (mode + 1 + (place % 5) as u8) % 6;
        let locks = full(&|at| (7, if at == place { mode } else { other }));
        let mut hand = Hand::new(DEEPEST, core, state, &locks, &elsewhere, 40);
        match place == DEEPEST - 1 {
            true => hand.releases(place),
            false => hand.answered(5, 7, mode),
        }
        each(hand.case(FULL_FRAME))
    })
}

/// Each mode byte, with classes below K, at it and over it: 3 before 4, and 4 before 5.
fn mode_byte(each: &mut dyn FnMut(Case) -> bool) -> bool {
    let mut all = (0..=255u8).flat_map(|mode| [(1, false), (3, false), (3, true), (64, false)].map(|with| (mode, with)));
    all.all(|(mode, (k, wrong))| {
        // Held in this mode if it is one, or in another.
        let held = (mode % 6 + u8::from(wrong)) % 6;
        let mut hand = Hand::new(k, 6, 3, &[(0, held)], &[], 1);
        let over = |answer: u8| if mode >= MODES { 3 } else { answer };
        for class in [k as u8, k as u8 + 1, 128, 192, 255] {
            hand.answered(over(4), class, mode);
        }
        if k > 1 {
            hand.answered(over(5), k as u8 - 1, mode);
        }
        match mode < MODES && !wrong {
            true => hand.releases(0),
            false => hand.answered(over(5), 0, mode),
        }
        each(hand.case(MODE_BYTE))
    })
}

/// At the last count and one before it, on a closed desk, and with a slip too short: held in one mode and released in each.
fn refused(each: &mut dyn FnMut(Case) -> bool) -> bool {
    let mut all = twice().flat_map(|modes| (0..4).map(move |what| (modes, what)));
    all.all(|((held, mode), what)| {
        let count = if what < 2 { FULL - what } else { 9 };
        let mut hand = Hand::new(2, 2, 3, &[(1, held), (0, 2), (1, held)], &[], count);
        let fits = held == mode;
        match what {
            // 9 where it fits, and then no sooner.
            0 => hand.answered(if fits { 9 } else { 5 }, 1, mode),
            1 if fits => {
                hand.releases(2);
                hand.answered(9, 1, mode);
            }
            1 => hand.answered(5, 1, mode),
            2 => {
                hand.before[1] = 1;
                hand.answered(10, 1, mode);
            }
            _ => hand.answered(11, 1, mode),
        }
        for (answer, class, mode) in [(5, 0, 0), (4, 2, mode), (3, 1, 6)].into_iter().take(if what < 2 { 3 } else { 0 }) {
            hand.answered(answer, class, mode);
        }
        let mut case = hand.case(REFUSED);
        // A closed desk stays closed.
        case.meant.iter_mut().filter_map(|meant| meant.desk.as_mut()).for_each(|desk| desk[1] = case.buffers.desk[1]);
        if what == 3 {
            case.buffers.slip.pop();
            case.meant.iter_mut().for_each(|meant| meant.slip.clear());
        }
        each(case)
    })
}

/// Where a cycle of class 0 stands: an accepted release shows it, one in another mode does not.
fn over_cycle(each: &mut dyn FnMut(Case) -> bool) -> bool {
    twice().all(|(held, mode)| {
        let mut buffers = Buffers::opened(2);
        buffers.desk[STATES] = 3;
        hold(&mut buffers.desk, 0, 1, held);
        buffers.sheet[0] = EN;
        numbers::usual(&mut buffers);
        buffers.slip.fill(9);
        let shown = [&[1][..], &numbers::entry(0, EN, 0, numbers::usual_number(0))].concat();
        let (answer, slip) = if held == mode { (1, shown) } else { (5, buffers.slip.clone()) };
        let meant = Some(Meant { answers: vec![answer], slip, ..Meant::default() });
        each(Case { name: OVER_CYCLE, meant, ..case(buffers, vec![Call::Step(Rec::new(0, 1, 1, mode))]) })
    })
}

/// The hand logs up to a release that is accepted, in each mode: 5 but in its own.
fn of_hand_logs(each: &mut dyn FnMut(Case) -> bool) -> bool {
    hand_logs().into_iter().all(|log| {
        let accepted = log.records.len() - usize::from(log.last > 1);
        let mut releases = (0..accepted).filter(|&at| log.records[at].bytes[3] == 1);
        releases.all(|at| {
            (0..MODES).all(|mode| {
                let mut records = log.records[..=at].to_vec();
                let own = std::mem::replace(&mut records[at].bytes[5], mode);
                let answers = [vec![0; at + 1], vec![if mode == own { 0 } else { 5 }]].concat();
                let calls = [Call::Open(log.k as u64, 0)].into_iter().chain(records.into_iter().map(Call::Step)).collect();
                let meant = Some(Meant { answers, ..Meant::default() });
                each(Case { name: OF_HAND_LOGS, meant, ..case(Buffers::opened(log.k), calls) })
            })
        })
    })
}

/// Two lists as one text, with + before each record that the second alone has; whether demand 3 speaks of them; and the answers of
/// the second and of the first.
type Lists = (&'static str, bool, &'static [u8], &'static [u8]);

const LISTS: [Lists; 15] = [
    // A release of any mode names its core, accepted or not.
    ("0:t1E +1:t1E +1:-t1E 0:-t1E", true, &[0, 0, 0, 0], &[0, 0]),
    ("0:t1E +1:-t1E 0:-t1E", true, &[0, 5, 0], &[0, 0]),
    ("0:1r +0:-1r 0:-1r", false, &[0, 0, 5], &[0, 0]),
    ("0:1R +0:-1R 0:-1R", false, &[0, 0, 5], &[0, 0]),
    ("0:t1E +0:-t1E 0:-t1E", false, &[0, 0, 5], &[0, 0]),
    ("0:t1r +0:-t1r 0:-t1r", false, &[0, 0, 5], &[0, 0]),
    ("0:t1R +0:-t1R 0:-t1R", false, &[0, 0, 5], &[0, 0]),
    ("0:1E +0:-t1E 0:-1E", false, &[0, 5, 0], &[0, 0]),
    ("1:-t1E +1:1E", false, &[5, 0], &[5]),
    ("0:-1r +1:-1r 0:1r 0:-1r", true, &[5, 5, 0, 0], &[5, 0, 0]),
    // Class 8 of 8 too.
    ("0:1E +0:-t8R 0:-1E", false, &[0, 4, 0], &[0, 0]),
    // A malformed one names none.
    ("0:1E +0:-? 0:-1E", true, &[0, 3, 0], &[0, 0]),
    ("0:-? +0:1E +0:-1E", true, &[3, 0, 0], &[3]),
    // A fault of the first list, with releases put in.
    ("0:1E 0:2E +3:t1E +3:-1E 0:-2E 0:-1E +3:-t1E 1:2E 1:1E", true, &[0, 0, 0, 5, 0, 0, 0, 0, 1], &[0, 0, 0, 0, 0, 1]),
    // A fault of the second alone: what core 2 still holds in another mode than it releases.
    ("+2:1r +2:-1E +2:2E 0:2E 0:1E +2:-2E", true, &[0, 5, 0, 0, 1, 10], &[0, 0]),
];

fn in_pairs(each: &mut dyn FnMut(Case) -> bool) -> bool {
    let pair = |calls: Vec<Call>, in_first: Vec<bool>, claimed: bool, answers: Vec<u8>| {
        let meant = Some(Meant { answers, not_claimed: !claimed, ..Meant::default() });
        Case { name: IN_PAIRS, pair: Some(Pair { k: 8, declared: [0; 2], in_first }), meant, ..case(Buffers::opened(8), calls) }
    };
    let by_hand = LISTS.iter().all(|(text, claimed, second, first)| {
        let in_first = text.split_whitespace().map(|word| !word.starts_with('+')).collect();
        let calls = read(&text.replace('+', "")).into_iter().map(Call::Step).collect();
        each(pair(calls, in_first, *claimed, [*second, *first].concat()))
    });
    // Another core acquires and releases the class in each two modes while it is held.
    by_hand
        && thrice().filter(|&(own, ..)| own % 2 == 0).all(|(own, acquired, released)| {
            let step = |core, kind, mode| Call::Step(Rec::new(core, kind, 3, mode));
            let calls = vec![step(4, 0, own), step(5, 0, acquired), step(5, 1, released), step(4, 1, own)];
            let answer = if acquired == released { 0 } else { 5 };
            each(pair(calls, vec![true, false, false, true], true, vec![0, 0, answer, 0, 0, 0]))
        })
}

/// The cases, until one is answered with false.
pub fn fixed(each: &mut dyn FnMut(Case) -> bool) {
    let _ = older_and_newer(each)
        && each_mode(each)
        && of_three(each)
        && elsewhere(each)
        && each_class(each)
        && mode_byte(each)
        && refused(each)
        && over_cycle(each)
        && full_frame(each)
        && of_hand_logs(each)
        && in_pairs(each);
}
