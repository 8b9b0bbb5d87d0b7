//! Request k, "Order of the merge must not matter": one claim about several runs of a log, in each of which every core has the same
//! records in the same order. It is told from the answers and from the bytes that the runs leave, not from another judge. It holds for
//! ordinary kinds, 0 to 9, without malformed records and without answer 9, from one opening or from one open joined desk, and says
//! nothing of the second sheet. While a desk is open the answers depend on a core's own frames alone, and what is drawn grows: so what a
//! closed run has drawn lies within what all records draw that the rules accept where no fault closes the desk.

use crate::claim::Broken;
use crate::crosslocks;
use crate::drawing::Drawing;
use crate::gen::{self, any_buffers, any_style, case, clean_style, read, Buffers, Kind, Style};
use crate::joins;
use crate::numbers;
use crate::rng::Rng;
use crate::run::{Call, Case, Rec, Side};
use reference::{DEPTHS, DESK, MARKS, STATES};

/// The parts of the claim, and what follows from the records alone.
pub const PARTS: [&str; 5] = [
    "merges leave open or closed alike",
    "merges: the same answers while open",
    "merges leave the same desk and sheet",
    "merges: a closed drawing within that of all records",
    "merges: closed exactly where all records draw a closed strong path",
];

/// A log, which is the case's calls, in several orders, each from its own opening with this K and declared word or from the case's join.
#[derive(Clone)]
pub struct Merges {
    pub k: u64,
    pub declared: u64,
    pub orders: Vec<Order>,
    /// Whether they are to leave the desk open, where that is known.
    pub open: Option<bool>,
}

/// How the cores' records are put together.
#[derive(Clone, Copy, Debug)]
pub enum Order {
    AsMade,
    /// A record of each core in turn, from core 0 on.
    InTurn,
    /// All of core 0, then all of core 1, and so on.
    OneByOne,
    /// All of core 7 first.
    Backward,
    /// By the bits of this, from the lowest on: 1 for the higher of two cores.
    Bits(u64),
    /// By chance, from this seed.
    Any(u64),
}

impl Order {
    /// The places of the records, whose cores these are, in the order in which they are stepped.
    fn places(self, cores: &[u8]) -> Vec<usize> {
        let mut of_core: [Vec<usize>; 8] = Default::default();
        for (at, &core) in cores.iter().enumerate().rev() {
            of_core[usize::from(core)].push(at);
        }
        let mut places = Vec::with_capacity(cores.len());
        let mut rng = Rng::new(if let Order::Any(seed) = self { seed } else { 0 });
        let again = rng.pick(&[0, 300, 800, 950]);
        let mut last = 0;
        for turn in 0..cores.len() {
            let left: Vec<usize> = (0..8).filter(|&core| !of_core[core].is_empty()).collect();
            let core = match self {
                Order::AsMade => usize::from(cores[turn]),
                Order::InTurn if turn > 0 => left.iter().copied().find(|&core| core > last).unwrap_or(left[0]),
                Order::InTurn | Order::OneByOne => left[0],
                Order::Backward => left[left.len() - 1],
                Order::Bits(bits) => left[if bits >> turn & 1 == 1 { left.len() - 1 } else { 0 }],
                Order::Any(_) if turn > 0 && left.contains(&last) && rng.mille(again) => last,
                Order::Any(_) => rng.pick(&left),
            };
            places.extend(of_core[core].pop());
            last = core;
        }
        places
    }
}

/// Whether the claim speaks of a record: not malformed, and of an ordinary kind.
fn ordinary(record: &Rec) -> bool {
    record.names().is_some() && !record.of_crosslock()
}

/// The records of a case, if the claim speaks of them all.
pub fn records(case: &Case) -> Option<Vec<Rec>> {
    let of = |call: &Call| match call {
        Call::Step(record) => Some(*record).filter(ordinary),
        _ => None,
    };
    case.calls.iter().map(of).collect()
}

impl Merges {
    /// The orders, each as the places of its records.
    pub fn places(&self, records: &[Rec]) -> Vec<Vec<usize>> {
        let cores: Vec<u8> = records.iter().map(|record| record.bytes[2]).collect();
        self.orders.iter().map(|order| order.places(&cores)).collect()
    }

    /// What a run starts from.
    pub fn start(&self, case: &Case) -> Call {
        case.start.clone().unwrap_or(Call::Open(self.k, self.declared))
    }

    /// What all records draw in this order if no fault closes the desk.
    pub fn whole(&self, case: &Case, records: &[Rec], places: &[usize]) -> Drawing {
        let mut whole = match &case.start {
            Some(Call::Join(sides)) => {
                let [one, two] = sides.each_ref().map(|side| side.lent(case.buffers.lent()));
                Drawing::joined(one, two)
            }
            _ => Drawing::opened(self.k as usize, self.declared),
        };
        places.iter().for_each(|&at| whole.take_in(&records[at]));
        whole
    }
}

/// A merge as it was run: the answers by the records' places in the log, the places in the order of the steps, and what was left.
pub struct Run {
    pub places: Vec<usize>,
    pub answers: Vec<u8>,
    pub desk: Vec<u8>,
    pub sheet: Vec<u8>,
    pub seen: Vec<u8>,
}

impl Run {
    /// With the answers in the order of the steps.
    pub fn new(places: Vec<usize>, stepped: &[u8], [desk, sheet, seen]: [&[u8]; 3]) -> Run {
        let mut answers = vec![0; places.len()];
        places.iter().zip(stepped).for_each(|(&at, &answer)| answers[at] = answer);
        Run { places, answers, desk: desk.to_vec(), sheet: sheet.to_vec(), seen: seen.to_vec() }
    }
    pub fn is_closed(&self) -> bool {
        self.desk[1] != 0
    }
    /// The place of the record that faulted.
    fn fault(&self) -> Option<usize> {
        self.places.iter().copied().find(|&at| self.answers[at] == 1)
    }
    /// Whether the claim speaks of it.
    pub fn meets_limit(&self) -> bool {
        self.answers.contains(&9)
    }
}

/// The first part that is broken, in the order of PARTS; `wholes` are what all records draw in each order.
pub fn broken(runs: &[Run], wholes: &[Drawing]) -> Option<Broken> {
    let [first, rest @ ..] = runs else { return None };
    let (last, k) = (first.answers.len().saturating_sub(1), usize::from(first.desk[0]));
    let name = |run: &Run| if run.is_closed() { "closed" } else { "open" };
    if let Some((merge, run)) = rest.iter().enumerate().find(|(_, run)| run.is_closed() != first.is_closed()) {
        return Some((PARTS[0], last, format!("{} after the first merge, {} after merge {}", name(first), name(run), merge + 2)));
    }
    // A record that closes the desk in one run may be accepted without a fault in another.
    for at in 0..first.answers.len() {
        let answers = runs.iter().map(|run| run.answers[at]).filter(|&answer| answer != 10);
        let mut answers: Vec<u8> = answers.map(|answer| if answer == 1 { 0 } else { answer }).collect();
        answers.dedup();
        if let [one, other, ..] = answers[..] {
            return Some((PARTS[1], at, format!("answers {one} and {other} in two merges")));
        }
    }
    if !first.is_closed() {
        for (merge, run) in rest.iter().enumerate() {
            let differs = |a: &[u8], b: &[u8], size: usize| (0..size).find(|&at| a[at] != b[at]);
            let sizes = [("desk", &first.desk, &run.desk, DESK), ("sheet", &first.sheet, &run.sheet, k * k)];
            for (buffer, one, other, size) in sizes {
                if let Some(at) = differs(one, other, size) {
                    let text = format!("{buffer} byte {at}: {} after the first merge, {} after merge {}", one[at], other[at], merge + 2);
                    return Some((PARTS[2], last, text));
                }
            }
        }
    }
    for run in runs.iter().filter(|run| run.is_closed()) {
        if let Some(text) = wholes.iter().find_map(|whole| whole.lacks(&run.desk, &run.sheet)) {
            return Some((PARTS[3], last, text));
        }
    }
    for (run, whole) in runs.iter().zip(wholes) {
        let closes = whole.has_closed_strong_path();
        if closes != run.is_closed() {
            return Some((PARTS[4], last, format!("{}, and all records draw {}", name(run), if closes { "one" } else { "none" })));
        }
    }
    None
}

// ---------------------------------------------------------------------- counted

/// What cases with merges are counted for, and how many of each there are at least in 100,000 random cases.
pub const SIGHTS: [(&str, u64); 29] = [
    ("merges that end open", 240),
    ("merges that end closed", 66),
    ("merges that close at different records", 32),
    ("merges that records of different cores close", 31),
    ("merges with answer 4", 25),
    ("merges with answer 5", 61),
    ("merges with answer 6", 71),
    ("merges with answer 7", 10),
    ("merges with answer 8", 10),
    ("merges with answer 15", 45),
    ("merges with tries", 160),
    ("merges with a declared word", 66),
    ("merges of over 200 records that end open", 18),
    ("merges of over 200 records that end closed", 4),
    ("merges from a join that end open", 42),
    ("merges from a join that end closed", 5),
    ("merges from a join with a declared word", 16),
    ("merges closed from a join, open from opening", 3),
    ("merges with K = 1", 27),
    ("merges with K = 64", 26),
    ("merges of two cores", 120),
    ("merges of all 8 cores", 52),
    ("merges with other first-seen numbers", 110),
    ("merges of all ten kinds", 32),
    ("merges of all six modes", 18),
    ("merges that leave locks held on several cores", 160),
    ("merges that leave a handler on several cores", 67),
    ("merges with a core whose last record gets 10 in one and 0 in another", 48),
    ("merges that end open with interrupt dependencies", 91),
];

/// Which of these a case has.
pub fn sights(case: &Case, merges: &Merges, records: &[Rec], runs: &[Run]) -> [bool; SIGHTS.len()] {
    let first = &runs[0];
    let (open, closed) = (!first.is_closed(), first.is_closed());
    let faults: Vec<usize> = runs.iter().filter_map(Run::fault).collect();
    let cores = |at: &usize| records[*at].bytes[2];
    let answered = |answer: u8| first.answers.contains(&answer);
    let accepted = |at: &usize| first.answers[*at] == 0;
    let kind_accepted = |kind: u8| (0..records.len()).any(|at| accepted(&at) && records[at].bytes[3] == kind);
    let mode_accepted = |mode: u8| (0..records.len()).any(|at| accepted(&at) && records[at].bytes[3] == 0 && records[at].bytes[5] == mode);
    let from_join = case.start.is_some();
    let declared = match &case.start {
        Some(Call::Join(sides)) => crosslocks::declared(sides[0].lent(case.buffers.lent())[0]),
        _ => merges.declared,
    };
    let from_opening = || {
        let opened = Case { start: None, ..gen::case(Buffers::opened(1), Vec::new()) };
        Merges { declared, ..merges.clone() }.whole(&opened, records, &first.places).has_closed_strong_path()
    };
    let mut named: Vec<u8> = records.iter().map(|record| record.bytes[2]).collect();
    named.sort();
    named.dedup();
    let last_of = |core: u8| records.iter().rposition(|record| record.bytes[2] == core);
    let number = |run: &Run, pair: usize| numbers::number(&run.seen, pair);
    let other_numbers = |run: &Run| (0..(merges.k * merges.k) as usize).any(|pair| number(run, pair) != number(first, pair));
    let holding = (0..8).filter(|core| first.desk[DEPTHS + 3 * core..DEPTHS + 3 * core + 3].iter().any(|&depth| depth > 0)).count();
    let marks = first.desk[MARKS..MARKS + merges.k as usize].iter().fold(0, |all, &marks| all | marks);
    let interrupts = [marks, marks >> 4].iter().any(|marks| marks & 3 != 0 && marks & 12 != 0);
    [
        open,
        closed,
        faults.iter().any(|at| *at != faults[0]),
        faults.iter().any(|at| cores(at) != cores(&faults[0])),
        answered(4),
        answered(5),
        answered(6),
        answered(7),
        answered(8),
        answered(15),
        (3..6).any(mode_accepted),
        declared != 0,
        open && records.len() > 200,
        closed && records.len() > 200,
        from_join && open,
        from_join && closed,
        from_join && declared != 0,
        from_join && closed && !from_opening(),
        merges.k == 1,
        merges.k == 64,
        named.len() == 2,
        named.len() == 8,
        open && runs.iter().any(other_numbers),
        (0..10).all(kind_accepted),
        (0..6).all(mode_accepted),
        open && holding > 1,
        open && first.desk[STATES..STATES + 8].iter().filter(|&&state| state > 3).count() > 1,
        named.iter().filter_map(|&core| last_of(core)).any(|at| [0, 10].iter().all(|answer| runs.iter().any(|run| run.answers[at] == *answer))),
        open && interrupts,
    ]
}

/// The same by the fast judge.
pub fn played(case: &Case, merges: &Merges) -> [bool; SIGHTS.len()] {
    let Some(records) = records(case) else { return [false; SIGHTS.len()] };
    let play = |places: Vec<usize>| {
        let mut b = case.buffers.clone();
        match merges.start(case) {
            Call::Join(sides) => drop(joins::join(&mut b, &sides)),
            _ => drop(crate::fast::open(merges.k, merges.declared, &mut b.desk, &mut b.sheet, &mut b.seen, &mut b.history)),
        }
        let answers: Vec<u8> = places.iter().map(|&at| b.step(&records[at])).collect();
        Run::new(places, &answers, b.lent())
    };
    let runs: Vec<Run> = merges.places(&records).into_iter().map(play).collect();
    sights(case, merges, &records, &runs)
}

// ----------------------------------------------------------------------- random

/// Some orders, the first as the log was made.
fn orders(rng: &mut Rng, most: usize) -> Vec<Order> {
    let mut others = vec![Order::InTurn, Order::OneByOne, Order::Backward, Order::Any(rng.next()), Order::Any(rng.next()), Order::Any(rng.next())];
    let mut orders = vec![Order::AsMade];
    while orders.len() < most {
        orders.push(others.swap_remove(rng.under(others.len())));
    }
    orders
}

/// So many records that the claim speaks of, as the style says. Behind a fault the desk is opened again, so that the records go on
/// likewise and another merge may close elsewhere.
fn log(rng: &mut Rng, style: &Style, shadow: &mut Buffers, most: usize) -> Vec<Rec> {
    let (mut list, mut faulted, mut tries) = (Vec::new(), false, 0);
    while list.len() < most {
        let record = gen::propose_lock(rng, style, &shadow.desk);
        if !ordinary(&record) {
            continue;
        }
        let avoids = style.avoid > 0 && !faulted && tries < 12;
        let before = avoids.then(|| (shadow.desk.clone(), shadow.sheet.clone(), shadow.seen.clone()));
        let answer = shadow.step(&record);
        if let (1, Some((desk, sheet, seen))) = (answer, before) {
            if rng.mille(style.avoid) {
                (shadow.desk, shadow.sheet, shadow.seen) = (desk, sheet, seen);
                tries += 1;
                continue;
            }
        }
        faulted |= answer == 1;
        shadow.desk[1] = 0;
        tries = 0;
        list.push(record);
    }
    list
}

fn some_cores(rng: &mut Rng, number: usize) -> Vec<u8> {
    let mut cores: Vec<u8> = (0..8).collect();
    for i in (1..8).rev() {
        cores.swap(i, rng.under(i + 1));
    }
    cores.truncate(number);
    cores
}

/// A style without malformed records, on two cores at least.
fn some_style(rng: &mut Rng, k: usize) -> Style {
    let mut style = any_style(rng, k);
    let number = rng.pick(&[2, 2, 3, 4, 8, 8]);
    style.cores = some_cores(rng, number);
    (style.damaged, style.asks) = (0, 0);
    style.random = rng.pick(&[0, 20, 60, 150]);
    style.wrong = rng.pick(&[0, 50, 200]);
    style.avoid = rng.pick(&[0, 900, 1000, 1000]);
    style
}

fn merged(rng: &mut Rng, (k, declared): (usize, u64), start: Option<[Buffers; 2]>, list: Vec<Rec>, orders: Vec<Order>) -> Case {
    let mut c = case(any_buffers(rng, k), list.into_iter().map(Call::Step).collect());
    c.merges = Some(Merges { k: k as u64, declared, orders, open: None });
    c.start = start.map(|sides| Call::Join(Box::new(sides.map(Side::Given))));
    c
}

/// From opening.
fn of_log(rng: &mut Rng) -> Case {
    let k = rng.pick(&[1, 2, 3, 4, 8, 8, 8, 12, 16, 33, 64]);
    let style = some_style(rng, k);
    let declared = crosslocks::some(rng, k, 300);
    let most = rng.pick(&[6, 12, 25, 50]);
    let list = log(rng, &style, &mut Buffers::declaring(k, declared), most);
    let (number, any) = (rng.pick(&[3, 3, 4, 5]), rng.next());
    let orders = orders(&mut Rng::new(any), number);
    merged(rng, (k, declared), None, list, orders)
}

/// Few classes acquired in any order, and many events: several faults, at other records in other merges.
fn closing(rng: &mut Rng) -> Case {
    let k = rng.pick(&[1, 2, 2, 3, 3, 4, 6]);
    let number = rng.pick(&[2, 2, 3, 4, 8]);
    let mut style = Style { cores: some_cores(rng, number), unordered: 1000, avoid: rng.pick(&[0, 0, 0, 800]), ..some_style(rng, k) };
    // Many locks at once, or one at a time and marks by events.
    style.weights = rng.pick(&[[4, 4, 2], [3, 3, 4], [5, 3, 1], [3, 3, 6], [2, 2, 3]]);
    style.modes = rng.pick(&[[1, 0, 0, 0, 0, 0], [3, 1, 1, 1, 0, 0], [2, 1, 2, 1, 1, 1], [1, 1, 1, 0, 0, 0]]);
    let most = rng.pick(&[8, 16, 30, 50]);
    let mut list = log(rng, &style, &mut Buffers::opened(k), most);
    // The fault comes with the last record, as the log was made.
    if rng.mille(500) {
        let mut shadow = Buffers::opened(k);
        if let Some(fault) = list.iter().position(|record| shadow.step(record) == 1) {
            list.truncate(fault + 1);
        }
    }
    let orders = orders(rng, 5);
    merged(rng, (k, 0), None, list, orders)
}

/// More than 200 records of all cores.
fn long(rng: &mut Rng) -> Case {
    let k = rng.pick(&[8, 12, 17, 64]);
    let modes = rng.pick(&[[2, 1, 1, 0, 0, 0], [4, 2, 2, 2, 1, 1], [1, 1, 3, 1, 1, 1]]);
    let style = Style { modes, random: 15, wrong: 20, unordered: rng.pick(&[0, 20, 100]), avoid: rng.pick(&[0, 0, 900, 1000]), ..clean_style(k) };
    let declared = crosslocks::some(rng, k, 200);
    let most = rng.between(201, 280);
    let list = log(rng, &style, &mut Buffers::declaring(k, declared), most);
    let orders = orders(rng, 3);
    merged(rng, (k, declared), None, list, orders)
}

/// Frames that get full: recursive reads, which draw no closed strong path, and tries of them.
fn deep(rng: &mut Rng) -> Case {
    let k = rng.pick(&[1, 2, 8, 64]);
    let number = rng.pick(&[2, 2, 3]);
    let mut style = Style { cores: some_cores(rng, number), modes: [0, 0, 3, 0, 0, 1], unordered: 1000, random: 10, wrong: 20, ..clean_style(k) };
    style.weights = rng.pick(&[[20, 1, 0], [12, 1, 1], [30, 1, 1]]);
    let most = rng.between(60 * number, 70 * number);
    let list = log(rng, &style, &mut Buffers::opened(k), most);
    let orders = orders(rng, 3);
    merged(rng, (k, 0), None, list, orders)
}

/// From a join of two open benches.
pub fn from_join(rng: &mut Rng) -> Case {
    let k = rng.pick(&[2, 3, 4, 8, 8, 16, 64]);
    let style = some_style(rng, k);
    let declared = crosslocks::some(rng, k, 300);
    let sides = joins::open_sides(rng, k, declared);
    let mut shadow = Buffers::declaring(k, declared);
    joins::join(&mut shadow, &sides.clone().map(Side::Given));
    let most = rng.pick(&[4, 10, 25]);
    let list = log(rng, &style, &mut shadow, most);
    let orders = orders(rng, 3);
    merged(rng, (k, declared), Some(sides), list, orders)
}

pub const OF_LOG: &str = "merges of a log";
pub const CLOSING: &str = "merges of few classes";
pub const LONG: &str = "merges of a long log";
pub const DEEP: &str = "merges of deep frames";
pub const FROM_JOIN: &str = "merges from a join";
pub const KINDS: [Kind; 5] = [
    Kind { name: OF_LOG, weight: 45, make: of_log },
    Kind { name: CLOSING, weight: 30, make: closing },
    Kind { name: LONG, weight: 6, make: long },
    Kind { name: DEEP, weight: 4, make: deep },
    Kind { name: FROM_JOIN, weight: 15, make: from_join },
];

pub fn any(rng: &mut Rng) -> Case {
    let kind = rng.weighted(&KINDS.map(|kind| kind.weight));
    (KINDS[kind].make)(rng)
}

// ------------------------------------------------------------------------ fixed

pub const SHORT_LISTS: &str = "all merges of two short lists";
pub const BY_HAND: &str = "merges by hand";
pub const HAND_LOGS: &str = "hand logs in merges";

/// What one core does; every two of them are merged in every way.
pub const LISTS: [&str; 18] = [
    "1E 2E",
    "2E 1E -1E",
    "1r 2R -2R",
    "2R 1E",
    "t1E 2E",
    "1E t2E -t2E",
    "H+ 1E -1E",
    "S+ 2r -2r S-",
    "h- 1E h+",
    "s- 2E H+ s+",
    "S+ h- t1r h+",
    "S+ H+ 2R H-",
    "H- 1r -1r",
    "S- 4E -1E",
    "3E -2E 0E",
    "1E S+ 1E",
    "0R 0R 0R",
    "S+ 1R S- h-",
];

/// By hand: K, the crosslocks, a log, and whether it leaves the desk open.
type Row<'a> = (usize, u64, &'a str, bool);

fn rows() -> Vec<(usize, u64, String, bool)> {
    let rows: [Row; 16] = [
        // P2 and P11 on two cores, and what other cores do beside them.
        (8, 0, "0:1E 2E -2E -1E 1:2E 1E", false),
        (8, 0, "0:H+ 4E -4E H- 1:h- 4E 5E -5E -4E h+ 5E", false),
        (8, 0, "0:1E 2E 1:2E t1E 2:H+ 3E -3E H- 3:s- 4E -4E", true),
        (8, 0, "0:0E 1R 1:1R 0E", true),
        (8, 0, "0:0R 1E 1:1R 0E", false),
        // Usage marks of several cores.
        (8, 0, "0:3E -3E 1:H+ 3E", false),
        (8, 0, "0:3R -3R 1:H+ 3R", true),
        (8, 0, "0:s- 6E -6E 1:S+ 6E 2:S+ h- 5E h+ 3:h- 5R", true),
        (8, 0, "0:S+ 6E -6E S- 1:s- 6E s+", false),
        (4, 0, "0:S+ 0E 1:S+ 1E 2:H+ 2E 3:s- H+ 3R 4:S+ H+ t0E 5:h- 1r 6:s- h- 2r 7:S+ h- 3r", true),
        // Refused: a crosslock and a class over K as a lock, what is not held, x in the table, locks at an exit.
        (4, 0b1000, "0:3E 1E -2E 1:1E t3r -1E 2:4E H- 3:H+ 1R H- -1R H-", false),
        (4, 0b1000, "0:3E 1E -2E 1:1E t3r -1E 2:4E H- 3:H+ 2R H- -2R H-", true),
        // All cores in one order, and one in the other.
        (8, 0, "0:0E 1E 1:1E 2E 2:2E 3E 3:3E 4E 4:4E 5E 5:5E 6E 6:6E 7E 7:7E 0E", false),
        (8, 0, "0:0E 1E 1:1E 2E 2:2E 3E 3:3E 4E 4:4E 5E 5:5E 6E 6:6E 7E 7:0E 7E", true),
        // One core interrupted by none.
        (2, 0, "0:0E 1:1E 2:H+ t0E t1E -t1E -t0E H- 3:S+ t1r -t1r S- 4:h- s- h+ s+", true),
        // Two kinds of one pair.
        (3, 0, "0:0E 1R -1R 1r 1:0R 1R 2:0r 1E 3:0E 1E", true),
    ];
    let mut rows: Vec<_> = rows.into_iter().map(|(k, declared, text, open)| (k, declared, text.to_string(), open)).collect();
    // Full frames, and many locks on all cores together.
    let [full, half] = ["0R ".repeat(49), "1R ".repeat(30)];
    rows.push((2, 0, format!("0:{full} 1:{half} 2:{half}"), true));
    rows.push((2, 0, (0..8).map(|core| format!("{core}:{} ", "0R t1R ".repeat(4))).collect(), true));
    rows
}

/// The orders of a row.
fn many(rng: &mut Rng) -> Vec<Order> {
    let mut orders = vec![Order::AsMade, Order::InTurn, Order::OneByOne, Order::Backward];
    orders.extend((0..8).map(|_| Order::Any(rng.next())));
    orders
}

fn short_lists(rng: &mut Rng, each: &mut dyn FnMut(Case) -> bool) -> bool {
    let pairs = LISTS.iter().flat_map(|one| LISTS.iter().map(move |two| (one, two)));
    pairs.enumerate().all(|(turn, (one, two))| {
        let [low, high] = [(0, 1), (2, 5), (3, 7), (0, 4)].map(|(low, high)| [low, high])[turn % 4];
        let [mine, others] = [(low, one), (high, two)].map(|(core, list)| read(&format!("{core}:{list}")));
        let (length, ones) = (mine.len() + others.len(), others.len() as u32);
        let orders = (0..1u64 << length).filter(|bits| bits.count_ones() == ones).map(Order::Bits).collect();
        each(merged(rng, (4, 0), None, [mine, others].concat(), orders))
    })
}

fn by_hand(rng: &mut Rng, each: &mut dyn FnMut(Case) -> bool) -> bool {
    rows().into_iter().all(|(k, declared, text, open)| {
        let orders = many(rng);
        let mut c = merged(rng, (k, declared), None, read(&text), orders);
        c.merges.iter_mut().for_each(|merges| merges.open = Some(open));
        each(c)
    })
}

/// From opening, and from a join with a fresh bench.
fn hand_logs(rng: &mut Rng, each: &mut dyn FnMut(Case) -> bool) -> bool {
    gen::hand_logs().into_iter().filter(|log| log.records.iter().all(ordinary)).all(|log| {
        let fresh = [Buffers::opened(log.k), Buffers::opened(log.k)];
        [None, Some(fresh)].into_iter().all(|start| {
            let orders = many(rng);
            each(merged(rng, (log.k, 0), start, log.records.clone(), orders))
        })
    })
}

type Make = fn(&mut Rng, &mut dyn FnMut(Case) -> bool) -> bool;

pub fn fixed(each: &mut dyn FnMut(Case) -> bool) {
    const ALL: [(&str, Make); 3] = [(BY_HAND, by_hand), (SHORT_LISTS, short_lists), (HAND_LOGS, hand_logs)];
    let rng = &mut Rng::new(20_261_101);
    ALL.iter().all(|(name, make)| make(rng, &mut |case| each(Case { name, ..case })));
}
