//! Balances of pieces: what is said of them, a third way to count them, and the cases with them.

use crate::crosslocks;
use crate::feeds;
use crate::gen::{any_buffers, any_k, any_style, case, clean_style, hand_logs, read, try_style, Buffers, Kind, Style};
use crate::judges::Subject;
use crate::rng::Rng;
use crate::run::{Call, Case, Meant, Rec};
use reference::{DEEPEST, DEPTHS, HOLDS, MARKS, ORIGINS};

/// What is said of balances: of two pieces they add; where a desk accepted every record from opening on, they are the locks
/// that are held then; and they are what is counted here. A wrong count breaks the last; the first that is broken is named.
pub const PARTS: [&str; 3] = ["balances add over a split", "balances are the locks held", "balances as counted"];

/// "A piece of up to 10,000 records", in bytes.
pub const LONGEST: usize = 60_000;

pub type Numbers = [i32; 64];

/// What the numbers hold before the call; never a 0.
pub fn filling(turn: u64) -> Numbers {
    std::array::from_fn(|class| match turn % 5 {
        0 => 0x5A5A_5A5A,
        1 => i32::MIN,
        2 => -1,
        3 => (class as i32 + 1) * 0x0101_0101,
        _ => 1,
    })
}

/// The first class whose numbers differ.
pub fn differ(numbers: &[i32], wanted: &Numbers) -> Option<String> {
    let class = (0..64).find(|&class| numbers[class] != wanted[class])?;
    Some(format!("balance of class {class}: {} instead of {}", numbers[class], wanted[class]))
}

/// The third way: the classes of all acquires that refusal 3 passes in one list, those of releases in another, both sorted,
/// and of each class how far its stretches reach.
pub fn counted(piece: &[u8]) -> (u8, Numbers) {
    if piece.len() > LONGEST || piece.len() % 6 != 0 {
        return (14, [0; 64]);
    }
    let classes = |kind: u8| {
        let passed = piece.chunks(6).filter(|six| six[3] == kind && Rec::of(six).names().is_some());
        let mut classes: Vec<u8> = passed.map(|six| six[4]).collect();
        classes.sort_unstable();
        classes
    };
    let (acquired, released) = (classes(0), classes(1));
    let of = |list: &[u8], class: u8| (list.partition_point(|&c| c <= class) - list.partition_point(|&c| c < class)) as i32;
    (0, std::array::from_fn(|class| of(&acquired, class as u8) - of(&released, class as u8)))
}

/// Where a piece is split: everywhere between few records, else at one place.
fn splits(piece: &[u8]) -> impl Iterator<Item = usize> {
    let records = piece.len() / 6;
    let sum = piece.iter().fold(records, |sum, &b| sum + usize::from(b));
    (0..=records).filter(move |&at| records <= 3 || at == sum % (records + 1)).map(|at| 6 * at)
}

/// "Two pieces that are not refused, joined within the limit, add their balances."
pub fn not_added(piece: &[u8], whole: &Numbers, turn: u64, subject: &mut Subject) -> Option<String> {
    splits(piece).find_map(|at| {
        let (mut one, mut other) = (filling(turn), filling(turn + 1));
        let answers = [subject.balance(&piece[..at], &mut one), subject.balance(&piece[at..], &mut other)];
        let sums: Numbers = std::array::from_fn(|class| one[class].wrapping_add(other[class]));
        let text = if answers == [0, 0] { differ(&sums, whole) } else { Some(format!("answers {answers:?} instead of 0")) };
        text.map(|text| format!("{text}, split after {at} bytes"))
    })
}

/// The held locks of a desk, all frames together.
pub fn held(desk: &[u8]) -> Numbers {
    let mut held = [0; 64];
    for (holds, &depth) in desk[HOLDS..ORIGINS].chunks_exact(DEEPEST).zip(&desk[DEPTHS..MARKS]) {
        holds[..usize::from(depth)].iter().for_each(|hold| held[usize::from(hold % 64)] += 1);
    }
    held
}

// ----------------------------------------------------------------- what is in one

/// How a record that is not malformed otherwise is made so, by its place in Tally::only_by.
pub const WAYS: [&str; 13] = [
    "the signature's first byte",
    "the signature's second byte",
    "core 8",
    "a core over 8",
    "mode 6 of an acquire",
    "a mode over 6 of an acquire",
    "mode 6 of a release",
    "a mode over 6 of a release",
    "kind 13",
    "a kind over 13",
    "the class of an event",
    "the mode of an event",
    "the mode of a crosslock's record",
];

/// The ways in which six bytes are malformed.
fn wrong_by(six: &[u8]) -> impl Iterator<Item = usize> {
    let &[one, two, core, kind, class, mode] = six else { panic!("six bytes") };
    let acquire = kind == 0;
    let (release, event) = (kind == 1, (2..10).contains(&kind));
    let wrong = [
        one != 0x4C,
        two != 0x4B,
        core == 8,
        core > 8,
        acquire && mode == 6,
        acquire && mode > 6,
        release && mode == 6,
        release && mode > 6,
        kind == 13,
        kind > 13,
        event && class != 0,
        event && mode != 0,
        (10..13).contains(&kind) && mode != 0,
    ];
    (0..wrong.len()).filter(move |&way| wrong[way])
}

/// What a piece of whole records has, the length aside.
#[derive(Default)]
pub struct Tally {
    pub records: usize,
    /// Records malformed in one way alone that would otherwise count for a class under 64, or be events or other kinds.
    pub only_by: [usize; WAYS.len()],
    pub malformed: usize,
    /// Acquires and releases by their modes, and events and records of crosslocks by their kinds.
    pub acquires: [usize; 6],
    pub releases: [usize; 6],
    pub events: [usize; 13],
    /// Acquires and releases by class, 64 and above too.
    pub classes: Vec<usize>,
    pub cores: [usize; 8],
    /// Whether a record of a crosslock has class 64 or more.
    pub over: bool,
    /// Whether the first and the last record count; whether one counts right behind a malformed one, somewhere behind one,
    /// somewhere before one.
    pub first: bool,
    pub last: bool,
    pub right_behind: bool,
    pub behind: bool,
    pub before: bool,
    /// The balances, and how far they were below 0 on the way.
    pub balances: Vec<i32>,
    pub lowest: Vec<i32>,
    /// Whether a class that is acquired before is released by a core that has not acquired it, and in a mode in which it has not
    /// been.
    pub other_core: bool,
    pub other_mode: bool,
    /// How often the class is acquired that is acquired most often.
    pub most: usize,
}

impl Tally {
    pub fn of(piece: &[u8]) -> Tally {
        let mut t = Tally { classes: vec![0; 256], balances: vec![0; 256], lowest: vec![0; 256], ..Tally::default() };
        // By class: the cores and the modes of the acquires so far, and their number.
        let (mut acquired, mut acquires) = ([[0u8; 2]; 64], [0; 64]);
        let mut malformed_before = false;
        let pieces = piece.chunks_exact(6);
        t.records = pieces.len();
        for (at, six) in pieces.enumerate() {
            let mut ways = wrong_by(six);
            let (way, more) = (ways.next(), ways.next());
            let (core, kind, class, mode) = (six[2], six[3], usize::from(six[4]), six[5]);
            let counts = way.is_none() && kind < 2 && class < 64;
            if let Some(way) = way {
                t.before |= t.counted() > 0;
                t.malformed += 1;
                t.only_by[way] += usize::from(more.is_none() && (kind > 1 || class < 64));
            } else {
                t.cores[usize::from(core)] += usize::from(counts);
                match kind {
                    0 => t.acquires[usize::from(mode)] += usize::from(counts),
                    1 => t.releases[usize::from(mode)] += usize::from(counts),
                    _ => t.events[usize::from(kind)] += 1,
                }
            }
            t.over |= way.is_none() && kind > 9 && class > 63;
            if way.is_none() && kind < 2 {
                t.classes[class] += 1;
                t.balances[class] += 1 - 2 * i32::from(kind);
                t.lowest[class] = t.lowest[class].min(t.balances[class]);
            }
            if counts {
                let [cores, modes] = &mut acquired[class];
                if kind == 0 {
                    (*cores, *modes) = (*cores | 1 << core, *modes | 1 << mode);
                    acquires[class] += 1;
                } else {
                    t.other_core |= *cores != 0 && *cores >> core & 1 == 0;
                    t.other_mode |= *modes != 0 && *modes >> mode & 1 == 0;
                }
            }
            t.right_behind |= counts && malformed_before;
            t.behind |= counts && t.malformed > 0;
            t.first |= counts && at == 0;
            t.last = counts;
            malformed_before = way.is_some();
        }
        t.most = acquires.into_iter().max().unwrap_or(0);
        t
    }
    pub fn counted(&self) -> usize {
        self.cores.iter().sum()
    }
    /// Of the classes that are reported.
    pub fn any(&self, such: impl Fn(i32) -> bool) -> bool {
        self.balances[..64].iter().any(|&balance| such(balance))
    }
    pub fn all_zero(&self) -> bool {
        !self.any(|balance| balance != 0)
    }
}

// -------------------------------------------------------------------------- pieces

/// What a piece is made of: its classes, and in 1000 the acquires among acquires and releases, the events, and the malformed
/// records.
#[derive(Clone)]
struct Mix {
    classes: Vec<u8>,
    acquires: usize,
    events: usize,
    malformed: usize,
}

fn any_classes(rng: &mut Rng) -> Vec<u8> {
    match rng.under(5) {
        0 => (0..64).collect(),
        1 => (0..=255).collect(),
        2 => vec![0, 31, 32, 63, 64, 127, 128, 255],
        3 => vec![rng.pick(&[0, 1, 62, 63, 64, 65, 127, 128, 191, 192, 254, 255]), rng.under(64) as u8],
        _ => (0..rng.between(1, 8)).map(|_| rng.under(64) as u8).collect(),
    }
}

fn any_mix(rng: &mut Rng, malformed: usize) -> Mix {
    Mix {
        classes: any_classes(rng),
        acquires: rng.pick(&[0, 100, 500, 500, 500, 900, 1000]),
        events: rng.pick(&[0, 0, 50, 300]),
        malformed,
    }
}

/// Malformed in this way, else an acquire or a release of this class, or an event.
fn malformed_by(rng: &mut Rng, way: usize, class: u8) -> Rec {
    let (core, not_0) = (rng.under(8) as u8, rng.between(1, 255) as u8);
    let kind = match way {
        4 | 5 => 0,
        6 | 7 => 1,
        8 => 13,
        9 => rng.pick(&[14, 15, 16, 17, 26, 32, 64, 128, 129, 254, 255]),
        10 | 11 => rng.between(2, 9) as u8,
        12 => rng.between(10, 12) as u8,
        _ => rng.under(2) as u8,
    };
    let mode = match way {
        4 | 6 => 6,
        5 | 7 => rng.pick(&[7, 8, 9, 16, 64, 67, 128, 131, 255]),
        11 | 12 => rng.pick(&[1, 2, 3, 5, 6, 255]),
        _ if kind < 2 => rng.under(6) as u8,
        _ => 0,
    };
    let class = match way {
        10 => not_0,
        11 => 0,
        _ => class,
    };
    let mut record = Rec::new(core, kind, class, mode);
    match way {
        0 => record.bytes[0] = rng.pick(&[0x4B, 0x4D, 0x00, 0x6C, 0xCC]),
        1 => record.bytes[1] = rng.pick(&[0x4C, 0x4A, 0x48, 0x00, 0xCB]),
        2 => record.bytes[2] = 8,
        3 => record.bytes[2] = rng.pick(&[9, 15, 16, 64, 128, 255]),
        _ => {}
    }
    record
}

fn any_record(rng: &mut Rng, mix: &Mix) -> Rec {
    let class = rng.pick(&mix.classes);
    if rng.mille(mix.malformed) {
        let way = rng.under(WAYS.len());
        return malformed_by(rng, way, class);
    }
    let core = rng.under(8) as u8;
    if rng.mille(mix.events) {
        return match rng.mille(300) {
            true => Rec::new(core, rng.between(10, 12) as u8, class, 0),
            false => Rec::new(core, rng.between(2, 9) as u8, 0, 0),
        };
    }
    let kind = u8::from(!rng.mille(mix.acquires));
    Rec::new(core, kind, class, rng.under(6) as u8)
}

fn piece_of(rng: &mut Rng, mix: &Mix, records: usize) -> Vec<u8> {
    let mut piece = Vec::with_capacity(6 * records + 5);
    (0..records).for_each(|_| piece.extend_from_slice(any_record(rng, mix).slice()));
    piece
}

fn bytes_of(records: &[Rec]) -> Vec<u8> {
    let mut piece = Vec::with_capacity(6 * records.len());
    records.iter().for_each(|record| piece.extend_from_slice(record.slice()));
    piece
}

fn any_records(rng: &mut Rng) -> usize {
    match rng.under(8) {
        0 => 0,
        1 => 1,
        2 => rng.between(250, 400),
        3 | 4 => rng.between(20, 120),
        _ => rng.between(1, 12),
    }
}

/// Bytes taken away at the end, or some more.
fn off_whole(rng: &mut Rng, mut piece: Vec<u8>) -> Vec<u8> {
    if rng.mille(500) && !piece.is_empty() {
        piece.truncate(piece.len() - rng.between(1, 5));
    } else {
        let n = rng.between(1, 5);
        piece.extend(if rng.mille(500) { vec![0x4C; n] } else { rng.bytes(n) });
    }
    piece
}

fn balances(pieces: Vec<Vec<u8>>) -> Case {
    let [desk, sheet, seen, history, slip] = [const { Vec::new() }; 5];
    case(Buffers { desk, sheet, seen, history, slip }, pieces.into_iter().map(Call::Balance).collect())
}

// -------------------------------------------------------------------------- random

fn some(rng: &mut Rng, mut make: impl FnMut(&mut Rng) -> Vec<u8>) -> Case {
    let n = rng.between(1, 3);
    balances((0..n).map(|_| make(rng)).collect())
}

fn well_formed(rng: &mut Rng) -> Case {
    some(rng, |rng| {
        let (mix, records) = (any_mix(rng, 0), any_records(rng));
        piece_of(rng, &mix, records)
    })
}

fn mostly_well_formed(rng: &mut Rng) -> Case {
    some(rng, |rng| {
        let malformed = rng.pick(&[20, 100, 500, 1000]);
        let (mix, records) = (any_mix(rng, malformed), any_records(rng));
        let piece = piece_of(rng, &mix, records);
        if rng.mille(400) { off_whole(rng, piece) } else { piece }
    })
}

fn of_one_class(rng: &mut Rng) -> Case {
    some(rng, |rng| {
        let class = rng.pick(&[0, 1, 9, 31, 32, 62, 63, 63, 64, 255]);
        let mix = Mix { classes: vec![class], acquires: rng.pick(&[0, 500, 500, 1000]), events: 0, malformed: 0 };
        let records = rng.pick(&[1, 2, 3, 4, 5, 10, 127, 128, 129, 200, 255, 256, 257, 300]);
        piece_of(rng, &mix, records)
    })
}

fn of_few_classes(rng: &mut Rng) -> Case {
    some(rng, |rng| {
        let few = [[0, 64], [63, 127], [0, 63], [0, 128], [63, 255], [62, 63], [1, 65], [31, 95]];
        let mix = Mix { classes: rng.pick(&few).to_vec(), acquires: rng.pick(&[0, 500, 1000]), events: 50, malformed: 50 };
        let records = any_records(rng);
        piece_of(rng, &mix, records)
    })
}

/// Any bytes; behind a signature or not, with small numbers or any.
fn random_bytes(rng: &mut Rng) -> Case {
    some(rng, |rng| {
        let records = any_records(rng);
        let (signed, small) = (rng.mille(700), rng.mille(700));
        let mut piece = rng.bytes(6 * records);
        for six in piece.chunks_exact_mut(6) {
            if signed {
                (six[0], six[1]) = (0x4C, 0x4B);
            }
            if small {
                (six[2], six[3], six[5]) = (six[2] % 10, six[3] % 15, six[5] % 8);
                if rng.mille(500) {
                    (six[3], six[4]) = (six[3] % 2, six[4] % 70);
                }
            }
        }
        if rng.mille(200) { off_whole(rng, piece) } else { piece }
    })
}

fn byte_changed(rng: &mut Rng) -> Case {
    some(rng, |rng| {
        let (mix, records) = (any_mix(rng, 0), any_records(rng).max(1));
        let mut piece = piece_of(rng, &mix, records);
        let record = rng.pick(&[0, records - 1, rng.clone().under(records)]);
        let (at, value) = (6 * record + rng.under(6), rng.byte());
        piece[at] = if rng.mille(500) { piece[at] ^ 1 << (value % 8) } else { value };
        piece
    })
}

/// Around 10,000 records, and far over.
fn long(rng: &mut Rng) -> Case {
    let records = match rng.under(12) {
        0..=2 => 10_000,
        3 | 4 => 9999,
        5 => rng.between(9990, 9998),
        6 | 7 => rng.pick(&[10_001, 10_001, 10_001, 10_002, 10_010]),
        8 => rng.pick(&[10_923, 10_924, 16_384, 20_000, 21_846]),
        9 => rng.pick(&[2731, 4096, 4097, 5461, 8191, 8192, 8193]),
        // Whole in 16 bits.
        10 => 10_923 + rng.pick(&[0, 1, 100, 9999, 10_000]),
        _ => 10_000,
    };
    let turn = rng.under(12);
    // One class, all acquires or all releases, or any.
    let mut piece = if rng.mille(700) {
        let record = Rec::new(rng.under(8) as u8, rng.under(2) as u8, rng.pick(&[0, 31, 63]), rng.under(6) as u8);
        record.slice().repeat(records)
    } else {
        let malformed = rng.pick(&[0, 10, 500]);
        let mix = any_mix(rng, malformed);
        piece_of(rng, &mix, records)
    };
    match turn {
        0..4 if records == 10_000 => piece = off_whole(rng, piece),
        2.. if records > 10_922 => piece.truncate(65_536 + 6 * (records - 10_923)),
        _ => {}
    }
    balances(vec![piece])
}

/// K, the crosslocks and the records of a log from opening, those that a desk refuses too, or not.
fn log_records(rng: &mut Rng, all_accepted: bool) -> (usize, u64, Vec<Rec>) {
    let k = any_k(rng);
    let mut style = any_style(rng, k);
    if rng.mille(500) {
        style = Style { random: rng.pick(&[0, 100, 300]), ..if rng.mille(500) { clean_style(k) } else { try_style(k) } };
    }
    let full = !all_accepted && rng.mille(350);
    if full {
        // Frames get full.
        (style.weights, style.modes, style.unordered) = ([30, 1, 1], [0, 0, 1, 0, 0, 1], 1000);
        style.cores.truncate(1);
    }
    if !all_accepted && rng.mille(200) {
        // Into handlers, and out with locks.
        (style.weights, style.random) = ([3, 1, 6], 300);
    }
    if rng.mille(400) {
        // A fault, and what comes behind it.
        (style.weights, style.unordered, style.avoid) = ([6, 1, 1], 1000, 0);
        style.cores.truncate(2);
    }
    let declared = crosslocks::some(rng, k, if full { 0 } else { 250 });
    let (mut shadow, mut records) = (Buffers::declaring(k, declared), Vec::new());
    for _ in 0..if full { rng.pick(&[80, 150]) } else { rng.pick(&[5, 30, 80, 150]) } {
        let (record, answer) = shadow.next(rng, &style);
        if record.slice().len() == 6 && (answer < 2 || !all_accepted) {
            records.push(record);
        }
        if shadow.desk[1] == 1 && rng.mille(200) {
            break;
        }
    }
    (k, declared, records)
}

fn of_log(rng: &mut Rng) -> Case {
    let (_, _, records) = log_records(rng, false);
    let mut pieces = Vec::new();
    for _ in 0..rng.between(1, 3) {
        let a = rng.between(0, records.len());
        let b = rng.between(a, records.len());
        pieces.push(bytes_of(&records[a..b]));
    }
    balances(pieces)
}

/// A log judged from opening on, and the balances of what was judged so far.
fn beside_desk(rng: &mut Rng) -> Case {
    let all_accepted = rng.mille(500);
    let (k, declared, records) = log_records(rng, all_accepted);
    let mut calls = vec![Call::Open(k as u64, declared)];
    for (at, record) in records.iter().enumerate() {
        if rng.mille(30) {
            calls.push(Call::Balance(bytes_of(&records[..at])));
        }
        calls.push(Call::Step(*record));
    }
    calls.push(Call::Balance(bytes_of(&records)));
    case(any_buffers(rng, k), calls)
}

/// A log with its header, cut at any byte.
fn cut_anywhere(rng: &mut Rng) -> Case {
    let (k, declared, records) = log_records(rng, false);
    let log = feeds::log_behind(feeds::any_header(rng, k as u8, declared), &records);
    some(rng, |rng| {
        let a = rng.pick(&[0, 0, 4, rng.clone().under(log.len())]);
        let b = rng.between(a, log.len());
        log[a..b].to_vec()
    })
}

pub const BESIDE_DESK: &str = "balances beside a desk";
pub const KINDS: [Kind; 10] = [
    Kind { name: "well-formed piece", weight: 30, make: well_formed },
    Kind { name: "mostly well-formed piece", weight: 60, make: mostly_well_formed },
    Kind { name: "piece of one class", weight: 30, make: of_one_class },
    Kind { name: "piece of few classes", weight: 20, make: of_few_classes },
    Kind { name: "piece of random bytes", weight: 20, make: random_bytes },
    Kind { name: "piece with a byte changed", weight: 20, make: byte_changed },
    Kind { name: "long piece", weight: 80, make: long },
    Kind { name: "piece of a log", weight: 20, make: of_log },
    Kind { name: "log cut at any byte", weight: 20, make: cut_anywhere },
    Kind { name: BESIDE_DESK, weight: 50, make: beside_desk },
];

/// A random case of any of these kinds.
pub fn any(rng: &mut Rng) -> Case {
    let kind = rng.weighted(&KINDS.map(|kind| kind.weight));
    (KINDS[kind].make)(rng)
}

/// Pieces of 10,000 records to take the time of.
pub fn to_time() -> [(&'static str, Vec<Vec<u8>>); 4] {
    const PIECES: usize = 24;
    let rng = &mut Rng::new(9);
    let style = try_style(64);
    let (mut shadow, mut log) = (Buffers::opened(64), Vec::new());
    while log.len() < PIECES * LONGEST {
        let (record, answer) = shadow.next(rng, &style);
        if answer == 0 {
            log.extend_from_slice(record.slice());
        }
    }
    let mix = Mix { classes: (0..=255).collect(), acquires: 500, events: 0, malformed: 0 };
    let malformed = Mix { malformed: 500, ..mix.clone() };
    let pieces = |rng: &mut Rng, mix: &Mix| (0..PIECES).map(|_| piece_of(rng, mix, 10_000)).collect();
    [
        ("of a clean log, K = 64", log.chunks(LONGEST).map(<[u8]>::to_vec).collect()),
        ("any class, 0 to 255", pieces(rng, &mix)),
        ("one class", vec![Rec::new(0, 0, 63, 0).slice().repeat(10_000)]),
        ("half of them malformed", pieces(rng, &malformed)),
    ]
}

// --------------------------------------------------------------------------- fixed

pub const BY_HAND: &str = "balances by hand";
pub const EACH_LENGTH: &str = "each length of a piece";
pub const EACH_BYTE: &str = "each byte of a record in a piece";
pub const EACH_CLASS: &str = "each class, kind and mode";
pub const MANY: &str = "many of one class";
pub const EACH_PLACE: &str = "malformed in each place";
pub const ALONE: &str = "one that counts in a long piece";
pub const HEADERS: &str = "pieces with headers";
pub const EACH_CUT: &str = "each cut of a log as a piece";
pub const HAND_LOGS: &str = "hand logs and their balances";

/// Worked out by hand: the records as in gen::read, and the lines that the program of 02 f prints.
const HAND_PIECES: [(&str, &[(usize, i32)]); 33] = [
    ("", &[]),
    ("0:9E", &[(9, 1)]),
    // The take may be before the piece.
    ("0:-9E", &[(9, -1)]),
    ("0:9E -9E", &[]),
    ("0:-9E 9E", &[]),
    ("0:-9E -9E 9E", &[(9, -1)]),
    ("0:9E 9r 9R", &[(9, 3)]),
    ("0:t9E t9r t9R", &[(9, 3)]),
    ("0:9E t9E 9r t9r 9R t9R -t9R", &[(9, 5)]),
    // Released in whichever mode.
    ("0:-9r -9R", &[(9, -2)]),
    ("0:-t9E -t9r -t9R", &[(9, -3)]),
    ("0:9E -t9R", &[]),
    ("0:t9R 9r -9E -9E -9R", &[(9, -1)]),
    ("0:-? -9r", &[(9, -1)]),
    ("0:9E -? -9R -?", &[]),
    // Of whichever cores.
    ("0:9E 1:9E 7:-9E", &[(9, 1)]),
    ("0:9E 1:-9E", &[]),
    ("3:0E 63r -1E -62E", &[(0, 1), (1, -1), (62, -1), (63, 1)]),
    ("0:63E 64E 127E 128E 255E", &[(63, 1)]),
    ("0:-63r -64E -127R -t128E -t255R", &[(63, -1)]),
    // Events, also such as no desk allows.
    ("0:h- h+ s- s+ S+ S- H+ H-", &[]),
    ("0:H- S- 4E S- -5E H-", &[(4, 1), (5, -1)]),
    ("0:1E ? 2E", &[(1, 1), (2, 1)]),
    ("? ? 2E ?", &[(2, 1)]),
    ("? ?", &[]),
    // More than a frame takes, and a release in another frame.
    (
        "0:5R 5R 5R 5R 5R 5R 5R 5R 5R 5R 5R 5R 5R 5R 5R 5R 5R 5R 5R 5R 5R 5R 5R 5R 5R 5R 5R 5R 5R 5R 5R 5R 5R 5R 5R 5R 5R 5R 5R 5R \
         5R 5R 5R 5R 5R 5R 5R 5R 5R 5R",
        &[(5, 50)],
    ),
    ("0:1E H+ -1E", &[]),
    // Crosslocks are taken, committed and released, whatever is declared, and count nothing.
    ("0:x9 c9 -x9", &[]),
    ("0:9E x9 1:9E 1:c9 1:-x9", &[(9, 2)]),
    ("0:x0 0:x63 0:x64 3:-0E", &[(0, -1)]),
    ("2:c5 2:5E 2:c5 2:-x5 2:-x255", &[(5, 1)]),
    ("0:-x1 0:-1E 0:x1 0:-1E", &[(1, -2)]),
    // After a fault.
    ("0:1E 2E -2E -1E 1:2E 1E 3E 4E -4E", &[(1, 1), (2, 1), (3, 1)]),
];

fn by_hand(_: &mut Rng, each: &mut dyn FnMut(Case) -> bool) -> bool {
    HAND_PIECES.iter().all(|(text, lines)| {
        let mut numbers = [0; 64];
        lines.iter().for_each(|&(class, balance)| numbers[class] = balance);
        let meant = Meant { answers: vec![0], balances: Some(numbers), ..Meant::default() };
        each(Case { meant: Some(meant), ..balances(vec![bytes_of(&read(text))]) })
    })
}

fn lengths() -> impl Iterator<Item = usize> {
    // Around the limit, and where fewer bits would do.
    let around = [250..=264, 1530..=1542, 4090..=4104, 32_762..=32_772, 59_990..=60_012, 65_530..=65_542, 131_068..=131_080];
    let far = [16_384, 60_096, 61_440, 119_994, 120_000, 120_006, 196_608, 240_000, 262_140];
    (0..=40).chain(around.into_iter().flatten()).chain(far)
}

/// Full of acquires, of releases, of records of all sorts, and of zeros.
fn each_length(rng: &mut Rng, each: &mut dyn FnMut(Case) -> bool) -> bool {
    let mix = Mix { classes: (0..=255).collect(), acquires: 600, events: 100, malformed: 100 };
    let any = piece_of(rng, &mix, 2000);
    let full = [bytes_of(&[Rec::new(1, 0, 5, 3)]), bytes_of(&[Rec::new(7, 1, 63, 4)]), any, vec![0]];
    let all = lengths().flat_map(|length| full.iter().map(move |with| (length, with)));
    all.map(|(length, with)| with.iter().copied().cycle().take(length).collect()).all(|piece| each(balances(vec![piece])))
}

/// Each byte of a record of each kind with each value, between two that count.
fn each_byte(_: &mut Rng, each: &mut dyn FnMut(Case) -> bool) -> bool {
    let (before, behind) = (Rec::new(3, 0, 20, 4), Rec::new(4, 1, 40, 5));
    let bytes = (0..=13).flat_map(|kind| (0..6).map(move |at| (kind, at)));
    let mut all = bytes.flat_map(|(kind, at)| (0..=255).map(move |value| (kind, at, value)));
    all.all(|(kind, at, value)| {
        let has_class = kind < 2 || (10..13).contains(&kind);
        let mut record = Rec::new(5, kind, if has_class { 30 } else { 0 }, if kind < 2 { 2 } else { 0 });
        record.bytes[at] = value;
        each(balances(vec![bytes_of(&[before, record, behind])]))
    })
}

fn each_class(_: &mut Rng, each: &mut dyn FnMut(Case) -> bool) -> bool {
    let sorts = || [0, 1].into_iter().flat_map(|kind| (0..7).map(move |mode| (kind, mode)));
    let mut all = (0..=255).flat_map(|class| sorts().map(move |(kind, mode)| (class, kind, mode)));
    all.all(|(class, kind, mode)| each(balances(vec![bytes_of(&[Rec::new(0, kind, class, mode)])])))
}

/// So many acquires or releases of a class, up to 10,000; what is to come of them is known.
fn many(_: &mut Rng, each: &mut dyn FnMut(Case) -> bool) -> bool {
    let numbers = [
        1, 2, 20, 21, 48, 49, 127, 128, 129, 255, 256, 257, 511, 512, 1023, 1024, 2047, 2048, 2049, 4095, 4096, 4097, 8191,
        8192, 8193, 9998, 9999, 10_000,
    ];
    let classes = [0, 31, 63].into_iter().flat_map(|class| [0, 1].map(|kind| (class, kind)));
    let mut all = classes.flat_map(|(class, kind)| numbers.map(|n| (class, kind, n)));
    all.all(|(class, kind, n)| {
        let mut balance = [0; 64];
        balance[class] = if kind == 0 { n } else { -n };
        let meant = Meant { answers: vec![0], balances: Some(balance), ..Meant::default() };
        let piece = Rec::new(0, kind, class as u8, (n % 6) as u8).slice().repeat(n as usize);
        each(Case { meant: Some(meant), ..balances(vec![piece]) })
    })
}

/// Malformed in each way at each place of six records that count, and at two of them.
fn each_place(rng: &mut Rng, each: &mut dyn FnMut(Case) -> bool) -> bool {
    let good: Vec<Rec> = (0..6u8).map(|i| Rec::new(i, i % 2, 10 * i, i)).collect();
    let places = (0..6).flat_map(|a| (a..6).map(move |b| [a, b]));
    let mut all = places.flat_map(|places| (0..WAYS.len()).map(move |way| (places, way)));
    all.all(|(places, way)| {
        let mut records = good.clone();
        for place in places {
            records[place] = malformed_by(rng, way, 10 * place as u8);
        }
        each(balances(vec![bytes_of(&records)]))
    })
}

/// Of 10,000 records one that counts, the others malformed or events; and the other way round.
fn alone(_: &mut Rng, each: &mut dyn FnMut(Case) -> bool) -> bool {
    let places = [0, 1, 255, 256, 682, 683, 1365, 2730, 4095, 4096, 5000, 5461, 8191, 8192, 9998, 9999];
    let two = [(Rec::new(2, 0, 63, 5), Rec::new(2, 0, 63, 6)), (Rec::new(2, 1, 7, 5), Rec::new(2, 9, 0, 0))];
    let mut all = places.into_iter().flat_map(|place| two.into_iter().flat_map(move |(a, b)| [(place, a, b), (place, b, a)]));
    all.all(|(place, one, others)| {
        let mut records = vec![others; 10_000];
        records[place] = one;
        each(balances(vec![bytes_of(&records)]))
    })
}

/// A header before records, or among them: 14 for its four bytes; with two more it is a malformed record, and the twelve of the long
/// one are two.
fn headers(_: &mut Rng, each: &mut dyn FnMut(Case) -> bool) -> bool {
    let good = [Rec::new(0, 0, 3, 0), Rec::new(1, 0, 4, 1), Rec::new(2, 1, 5, 2)];
    let all = [0, 1, 8, 64, 65, 255].into_iter().flat_map(|k| (0..=3).map(move |records| (k, records)));
    let mores = [(0, false), (0, true), (2, false), (2, true), (8, false), (8, true), (7, false)];
    let mut all = all.flat_map(|(k, records)| mores.map(|more| (k, records, more)));
    all.all(|(k, records, (more, behind))| {
        let mut header = vec![0x4C, 0x48, if more > 2 { 2 } else { 1 }, k];
        header.resize(4 + more, 0);
        let records = bytes_of(&good[..records]);
        each(balances(vec![if behind { [records, header].concat() } else { [header, records].concat() }]))
    })
}

/// Of a log with its header all that lies between two bytes of it.
fn each_cut(_: &mut Rng, each: &mut dyn FnMut(Case) -> bool) -> bool {
    let log = feeds::log_of(8, &read("0:1E 2r -2r t3R 1:-1E h- 7E ? -t9r"));
    let mut all = (0..=log.len()).flat_map(|a| (a..=log.len()).map(move |b| (a, b)));
    all.all(|(a, b)| each(balances(vec![log[a..b].to_vec()])))
}

/// Judged from opening on, the balances after each record; some are refused, in the end or on the way.
fn of_hand_logs(rng: &mut Rng, each: &mut dyn FnMut(Case) -> bool) -> bool {
    hand_logs().into_iter().all(|log| {
        let mut records = log.records;
        records.extend([Rec::new(0, 1, 62, 4), Rec::new(0, 0, 61, 3), Rec::new(0, 9, 0, 0), Rec::new(0, 1, 0, 5)]);
        let steps = (0..records.len()).flat_map(|at| [Call::Balance(bytes_of(&records[..at])), Call::Step(records[at])]);
        let end = Call::Balance(bytes_of(&records));
        let calls = [Call::Open(log.k as u64, 0)].into_iter().chain(steps).chain([end]).collect();
        each(case(any_buffers(rng, log.k), calls))
    })
}

type Make = fn(&mut Rng, &mut dyn FnMut(Case) -> bool) -> bool;

/// The cases made by hand and those that go through all of a small space, until one is answered with false.
pub fn fixed(each: &mut dyn FnMut(Case) -> bool) {
    const ALL: [(&str, Make); 10] = [
        (BY_HAND, by_hand),
        (EACH_CLASS, each_class),
        (EACH_PLACE, each_place),
        (EACH_BYTE, each_byte),
        (HEADERS, headers),
        (EACH_CUT, each_cut),
        (HAND_LOGS, of_hand_logs),
        (EACH_LENGTH, each_length),
        (MANY, many),
        (ALONE, alone),
    ];
    let rng = &mut Rng::new(20_260_104);
    ALL.iter().all(|(name, make)| make(rng, &mut |case| each(Case { name, ..case })));
}
