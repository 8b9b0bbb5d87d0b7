//! That the comparer can fail: by each planted judge, and by each minimum.

use crate::balances;
use crate::claim;
use crate::clashes;
use crate::crosslocks;
use crate::depths;
use crate::feeds::{self, PROMISE};
use crate::gen::{self, Part};
use crate::joins;
use crate::judges::{Judges, Subject};
use crate::merges;
use crate::needs::{self, Need};
use crate::numbers;
use crate::releases;
use crate::rng::Rng;
use crate::run::{self, Case, Counts, Diff, BY_RECORDS, LEAST, NUMBERS};
use crate::sights;
use crate::threads;
use crate::ties;
use crate::usage;
use crate::{try_case, Limits, Met};
use std::time::{Duration, Instant};
use wrong_judges::{Plant, PLANTS};

/// Random cases of a quick run, and for a planted judge; of a run without something: the first, and of those that had it
/// the first.
const CASES: u64 = 6110;
const CASES_FOR_PLANT: u64 = 4000;
const ANY_CASES: u64 = 3;
const CASES_WITH: usize = 8;
/// Other cases for a planted judge in every place, then pairs of lists, logs in pieces, or ties, at most, and how many of
/// them are to show it.
const OTHERS: u64 = 120;
const PAIRS: u64 = 1000;
const SHOWN: usize = 3;

/// A seed with which so few cases meet every minimum, and one for the cases that planted judges get.
const SEED: u64 = 10;
const PLANT_SEED: u64 = 2;

/// Which cases are known to show a planted judge, so that they come first: a fixed one and a random one, by their numbers among those
/// that it gets, and those that show each part that it breaks. Where they no longer do, all are gone through.
#[derive(Default, Clone)]
struct Hint {
    fixed: Option<u64>,
    random: Option<u64>,
    parts: Vec<Vec<u64>>,
}

/// One line for each judge, as --hints prints them.
const HINTS: &str = include_str!("../hints.txt");

/// None with COMPARE_WITHOUT_HINTS in the environment: then every case that a judge gets is gone through, up to the one that shows it.
fn hint_of(plant: &Plant) -> Hint {
    if std::env::var_os("COMPARE_WITHOUT_HINTS").is_some() {
        return Hint::default();
    }
    let line = HINTS.lines().find(|line| line.split(' ').next() == Some(plant.name));
    let words: Vec<&str> = line.unwrap_or("").split(' ').collect();
    let number = |at: usize| words.get(at).and_then(|word| word.parse().ok());
    let parts = words.iter().skip(3).map(|list| list.split(',').filter_map(|word| word.parse().ok()).collect());
    Hint { fixed: number(1), random: number(2), parts: parts.collect() }
}

/// Writes a line.
macro_rules! say {
    ($said:expr, $($text:tt)*) => {
        $said.push_str(&(format!($($text)*) + "\n"))
    };
}

fn quick(without: Option<Need>) -> Limits {
    Limits { seconds: 0, cases: CASES, seed: SEED, without, only: None, first: None, no_fixed: false }
}

fn soon() -> Instant {
    Instant::now() + Duration::from_secs(60)
}

/// In the library's place it is caught by the fixed cases alone and by the random ones alone, at a call that is one of
/// the sights named for it. Where only the feed is wrong, cases without one are passed over, else those with one; likewise
/// the balance and the join; where it is wrong about clashes, all but those with clashes; where it is wrong about numbers, depths, releases or
/// crosslocks, the fixed ones about these come first. Of the random ones a judge that is wrong about depths, releases or crosslocks gets those
/// about these alone, and one that only a long case shows gets none.
fn caught(plant: &Plant, hint: &Hint, found: &mut Hint, said: &mut String) -> bool {
    let mut calls = Vec::new();
    let all = if plant.only_fixed { &["fixed"][..] } else { &["fixed", "random"] };
    for &which in all {
        let (hinted, place) = if which == "fixed" { (hint.fixed, &mut found.fixed) } else { (hint.random, &mut found.random) };
        let attempt = hinted.map(|only| attempt(plant, which, Some(only))).filter(Attempt::well);
        let Attempt { failed, meant, calls: number, at } = attempt.unwrap_or_else(|| self::attempt(plant, which, None));
        *place = Some(at);
        match failed {
            Some(diff) if caught_by(diff.judge) && meant => calls.push(number),
            Some(diff) if caught_by(diff.judge) => {
                say!(said, "{}, {which} cases: by no sight named for it: {}", plant.name, diff.text);
            }
            Some(diff) => say!(said, "{}, {which} cases: {}: {}", plant.name, diff.judge, diff.text),
            None => say!(said, "{}, {which} cases: no difference in {number} calls", plant.name),
        }
    }
    match calls[..] {
        [fixed, random] => say!(said, "{}: caught in call {fixed} of the fixed cases, {random} of the random ones", plant.name),
        [fixed] if plant.only_fixed => say!(said, "{}: caught in call {fixed} of the fixed cases", plant.name),
        _ => say!(said, "{}: NOT CAUGHT", plant.name),
    }
    calls.len() == all.len()
}

fn caught_by(judge: &str) -> bool {
    judge == "subject" || PROMISE.contains(&judge)
}

/// What the fixed or the random cases showed of a planted judge: the difference, whether its call is one of the sights named, in which
/// call and in which case.
struct Attempt {
    failed: Option<Diff>,
    meant: bool,
    calls: u64,
    at: u64,
}

impl Attempt {
    fn well(&self) -> bool {
        self.meant && self.failed.as_ref().is_some_and(|diff| caught_by(diff.judge))
    }
}

/// Goes through the cases until one shows it, or to one of them only.
fn attempt(plant: &Plant, which: &str, only: Option<u64>) -> Attempt {
    let mut judges = Judges::beside(Subject::Planted(plant.judge));
    let (mut counts, mut failed) = (Counts { blind: true, ..Counts::default() }, None);
    // The number of a fixed case is counted, a random one is made by its number.
    let (mut at, mut random) = (0, None);
    let mut each = |case: Case| {
        if which == "fixed" && only.is_some_and(|only| at < only) {
            at += 1;
            return true;
        }
        try_case(case, &mut judges, &mut counts, &mut failed);
        // A call is to show it, unless it breaks the promise where no call differs; where sights are named, a call always.
        let by_call = |judge| plant.breaks != Some(judge) || !plant.sights.is_empty();
        let of_others = |judge| judge == balances::PARTS[0] || joins::PARTS.contains(&judge) || usage::PARTS[2] == judge;
        let broken = |judge| PROMISE.contains(&judge) && by_call(judge) || of_others(judge);
        failed.take_if(|(_, diff)| broken(diff.judge));
        let going = failed.is_none() && only.is_none();
        at += u64::from(going);
        going
    };
    match which {
        "fixed" if plant.of_feed => feeds::fixed(&mut each),
        "fixed" if plant.of_balance => balances::fixed(&mut each),
        "fixed" if plant.of_join => joins::fixed(&mut each),
        "fixed" if plant.of_clash => clashes::fixed(&mut each),
        "fixed" => {
            let first: fn(&mut dyn FnMut(Case) -> bool) = match plant {
                Plant { of_merge: true, .. } => merges::fixed,
                Plant { of_usage: true, .. } => usage::fixed,
                Plant { of_depth: true, .. } => depths::fixed,
                Plant { of_release: true, .. } => releases::fixed,
                Plant { of_crosslock: true, .. } => crosslocks::fixed,
                Plant { of_numbers: true, .. } => numbers::fixed,
                _ => |_| {},
            };
            Limits { first: Some(first), ..quick(None) }.fixed(&mut each);
        }
        _ => {
            let part = match plant {
                Plant { of_feed: true, .. } => Part::Feeds,
                Plant { of_balance: true, .. } => Part::Balances,
                Plant { of_join: true, .. } => Part::Joins,
                Plant { of_clash: true, .. } => Part::Clashes,
                Plant { of_depth: true, .. } => Part::Depths,
                Plant { of_release: true, .. } => Part::Releases,
                Plant { of_crosslock: true, .. } => Part::Crosslocks,
                Plant { of_merge: true, .. } => Part::Merges,
                Plant { of_usage: true, .. } => Part::Usage,
                _ => Part::Others,
            };
            let limits = Limits { cases: CASES_FOR_PLANT, only: Some(part), seed: PLANT_SEED, ..quick(None) };
            match only {
                Some(number) => {
                    limits.numbered(number).map(each);
                    random = Some(number);
                }
                None => {
                    let (mut number, mut run, end) = (0, 0, soon());
                    while run < limits.cases && Instant::now() < end {
                        let Some(case) = limits.numbered(number) else {
                            number += 1;
                            continue;
                        };
                        if !each(case) {
                            break;
                        }
                        (number, run) = (number + 1, run + 1);
                    }
                    random = Some(number);
                }
            }
        }
    }
    // The case once more, for the sights of its last call.
    let mut seen = Counts::default();
    if let Some((case, _)) = failed.as_ref().filter(|_| !plant.sights.is_empty()) {
        let _ = run::run(case, &mut judges, &mut seen);
    }
    let meant = plant.sights.is_empty() || plant.sights.iter().any(|name| seen.last_sights.0[sights::named(name)]);
    Attempt { failed: failed.map(|(_, diff)| diff), meant, calls: counts.calls, at: random.unwrap_or(at) }
}

/// In the place of every judge no two differ, and that part of demand 3's claim of two lists catches it, that part of the
/// promise of a feed or of what is said of balances or of joins, the least cycle, the first-seen numbers, or what the records alone draw.
/// The last may catch it too where another is to: what is drawn wrong has wrong numbers.
fn breaks(plant: &Plant, part: &str, hint: &[u64], found: &mut Hint, said: &mut String) -> bool {
    let mut judges = Judges::all(plant.judge);
    let (mut counts, mut failed) = (Counts::default(), None);
    let (of_feed, of_balance, of_join) = (PROMISE.contains(&part), balances::PARTS.contains(&part), plant.of_join);
    let (of_merge, of_usage) = (merges::PARTS.contains(&part), usage::PARTS.contains(&part));
    let only = (of_feed || of_balance).then_some(Part::Others);
    let no_pairs = Limits { cases: OTHERS, only, ..quick(Some(Need::Kind(gen::PAIRS))) };
    // Where only the join is wrong, the others have nothing to show; where it is wrong about merges or rules, they are held to those alone.
    if !of_join && !of_merge && !of_usage {
        no_pairs.random(soon(), &mut |case| {
            try_case(case, &mut judges, &mut counts, &mut failed);
            let of_k = |judge| merges::PARTS.contains(&judge) || usage::PARTS.contains(&judge);
            failed.take_if(|(_, diff)| diff.judge == part || diff.judge == BY_RECORDS || of_k(diff.judge));
            failed.is_none()
        });
    }
    let others = match () {
        _ if of_merge => merges::PARTS.to_vec(),
        _ if of_usage => usage::PARTS.to_vec(),
        _ => [&claim::PARTS[..], &PROMISE, &balances::PARTS, &joins::PARTS].concat(),
    };
    let (mut seen, mut tried) = (Vec::new(), 0);
    let hinted = hint.iter().copied();
    for number in hinted.chain((0..PAIRS).filter(|number| !hint.contains(number))) {
        // What is known to show it will do.
        if seen.len() == SHOWN || !seen.is_empty() && seen == hint {
            break;
        }
        let rng = &mut Rng::new(number);
        let case = match part {
            _ if of_merge && plant.from_join => merges::from_join(rng),
            _ if of_merge => merges::any(rng),
            _ if of_usage => usage::any(rng),
            _ if of_feed => feeds::cut_log(rng),
            _ if of_balance => balances::any(rng),
            _ if of_join => joins::any(rng),
            LEAST => ties::on_desk(rng),
            NUMBERS if number % 2 == 0 => numbers::later_kind(rng),
            NUMBERS | BY_RECORDS if plant.of_crosslock => crosslocks::any(rng),
            NUMBERS | BY_RECORDS => gen::log(rng),
            _ if plant.from_join => joins::pair_from_join(rng),
            _ => gen::pair(rng),
        };
        tried += 1;
        match run::run(&case, &mut judges, &mut counts) {
            Err(diff) if diff.judge == part => seen.push(number),
            Err(diff) if !others.contains(&diff.judge) && diff.judge != BY_RECORDS => failed = Some((case, diff)),
            _ => {}
        }
    }
    let well = !seen.is_empty() && failed.is_none();
    let verdict = if well { "broken in" } else { "NOT CAUGHT, or not only by it:" };
    let cases = match part {
        _ if of_merge => "logs in merges",
        _ if of_usage => "exclusive logs and drawings",
        _ if of_feed => "logs in pieces",
        _ if of_balance => "pieces",
        _ if of_join => "cases with joins",
        LEAST => "ties",
        NUMBERS => "desks and logs",
        BY_RECORDS => "logs",
        _ => "pairs",
    };
    say!(said, "{} in every place: \"{part}\" {verdict} {} of {tried} {cases}", plant.name, seen.len());
    found.parts.push(seen);
    if let Some((_, diff)) = failed {
        say!(said, "{}: {}", diff.judge, diff.text);
    }
    well
}

/// In the place of every judge, wrong about clashes, numbers, balances or joins: caught by what is to come of the cases with these, or by
/// what is said of balances and of joins.
fn not_meant(plant: &Plant, said: &mut String) -> bool {
    let mut judges = Judges::all(plant.judge);
    let (mut counts, mut failed) = (Counts { blind: true, ..Counts::default() }, None);
    let fixed = match plant {
        Plant { of_balance: true, .. } => balances::fixed,
        Plant { of_join: true, .. } => joins::fixed,
        Plant { of_numbers: true, .. } => numbers::fixed,
        Plant { of_crosslock: true, .. } => crosslocks::fixed,
        _ => clashes::fixed,
    };
    fixed(&mut |case| try_case(case, &mut judges, &mut counts, &mut failed));
    // One that remembers an earlier piece differs from itself.
    let of_balance = |judge| balances::PARTS.contains(&judge) || plant.of_balance && judge == "subject";
    let of_join = |judge| joins::PARTS.contains(&judge) || plant.of_join && judge == NUMBERS;
    let caught_by = |judge| [LEAST, "reference"].contains(&judge) || of_balance(judge) || of_join(judge);
    let well = failed.as_ref().is_some_and(|(_, diff)| caught_by(diff.judge));
    say!(said, "{} in every place: {} in call {}", plant.name, if well { "caught" } else { "NOT CAUGHT" }, counts.calls);
    well
}

/// All that a planted judge is tried with; whether it was noticed, what was said, and what showed it.
fn noticed(plant: &Plant, hint: &Hint) -> (bool, String, Hint) {
    let (mut said, mut found) = (String::new(), Hint::default());
    let mut well = caught(plant, hint, &mut found, &mut said);
    let mut hints = hint.parts.iter();
    let mut next = || hints.next().map_or(&[][..], |hint| hint);
    well &= match plant.breaks {
        Some("reference") => not_meant(plant, &mut said),
        Some(part) => breaks(plant, part, next(), &mut found, &mut said),
        None => !(plant.of_clash || plant.of_balance || plant.of_join) || not_meant(plant, &mut said),
    };
    for part in plant.too {
        well &= breaks(plant, part, next(), &mut found, &mut said);
    }
    (well, said, found)
}

/// Prints what shows each planted judge, for hints.txt.
pub fn print_hints() -> bool {
    let word = |at: Option<u64>| at.map_or("-".into(), |at| at.to_string());
    let list = |numbers: &Vec<u64>| numbers.iter().map(u64::to_string).collect::<Vec<_>>().join(",");
    let all = threads::each(PLANTS.len(), |at| noticed(&PLANTS[at], &hint_of(&PLANTS[at])));
    for (plant, (_, _, Hint { fixed, random, parts })) in PLANTS.iter().zip(&all) {
        let parts: String = parts.iter().map(|numbers| format!(" {}", list(numbers))).collect();
        println!("{} {} {}{parts}", plant.name, word(*fixed), word(*random));
    }
    all.iter().filter(|(well, ..)| !well).for_each(|(_, said, _)| eprint!("{said}"));
    all.iter().all(|(well, ..)| *well)
}

/// The fixed cases of a quick run, and for each of their kinds what is counted without it: the cases are counted, so they need not be
/// run again.
struct FixedPart {
    met: Counts,
    without: Vec<(Need, Counts)>,
    failed: Option<String>,
}

fn fixed_part() -> FixedPart {
    let mut judges = Judges::beside(Subject::library());
    let (mut met, mut failed) = (Counts { blind: true, ..Counts::default() }, None);
    quick(None).fixed(&mut |case| try_case(case, &mut judges, &mut met, &mut failed));
    let kinds = needs::all().into_iter().map(|(need, _)| need).filter(|need| matches!(need, Need::Fixed(_)));
    let counted = |need: Need| {
        let others = met.by_name.iter().filter(|(name, ..)| need != Need::Fixed(name));
        Counts { by_name: others.copied().collect(), ..Counts::default() }
    };
    let without = kinds.map(|need| (need, counted(need))).collect();
    FixedPart { met, without, failed: failed.map(|(_, diff)| format!("{}: {}", diff.judge, diff.text)) }
}

/// The random cases of a quick run, and which of them have what each need counts; long ones last, as they take their time.
struct RandomPart {
    met: Counts,
    with: Vec<Vec<u64>>,
    failed: Option<String>,
}

fn random_part(needs: &[Need]) -> RandomPart {
    let mut judges = Judges::beside(Subject::library());
    let (mut met, mut failed) = (Met::default(), None);
    let mut with: Vec<Vec<u64>> = vec![Vec::new(); needs.len()];
    let mut long: Vec<u64> = Vec::new();
    let counted = |met: &Met| -> Vec<u64> { needs.iter().map(|need| need.met(&met.fixed, &met.random)).collect() };
    let mut before = counted(&met);
    for number in 0..CASES {
        let Some(case) = quick(None).numbered(number) else { continue };
        if case.name.contains("long") {
            long.push(number);
        }
        try_case(case, &mut judges, &mut met.random, &mut failed);
        let after = counted(&met);
        for (with, (before, after)) in with.iter_mut().zip(before.iter().zip(&after)) {
            if after > before {
                with.push(number);
            }
        }
        before = after;
    }
    with.iter_mut().for_each(|with| with.sort_by_key(|number| long.contains(number)));
    RandomPart { met: met.random, with, failed: failed.map(|(_, diff)| format!("{}: {}", diff.judge, diff.text)) }
}

/// Whether a run without what a need counts misses it, over cases that had it, or what it said.
fn missed(need: Need, with: &[u64], fixed: &FixedPart, random: &RandomPart) -> Result<(), String> {
    let mut judges = Judges::beside(Subject::library());
    let (mut met, mut failed) = (Counts::default(), None);
    let (fixed, random) = match fixed.without.iter().find(|(fixed, _)| *fixed == need) {
        Some((_, fixed)) => (fixed, &random.met),
        None => {
            let limits = quick(Some(need));
            for number in (0..ANY_CASES).chain(with.iter().copied().filter(|&n| n >= ANY_CASES).take(CASES_WITH)) {
                if let Some(case) = limits.numbered(number).and_then(|case| limits.pass(case)) {
                    try_case(case, &mut judges, &mut met, &mut failed);
                }
            }
            (&fixed.met, &met)
        }
    };
    if let Some((_, diff)) = failed {
        return Err(format!("without {}: {}: {}", need.name(), diff.judge, diff.text));
    }
    match needs::under(fixed, random, CASES).iter().any(|u| u.0 == need) {
        true => Ok(()),
        false => Err(format!("without {}: its minimum is NOT MISSED", need.name())),
    }
}

/// A quick run meets every minimum; a run without what one counts misses that one.
fn minimums(needs: &[Need], fixed: &FixedPart, random: &RandomPart) -> bool {
    let mut well = true;
    for (need, met, least) in needs::under(&fixed.met, &random.met, CASES) {
        println!("minimum NOT MET in a quick run: {}: {met}, at least {least}", need.name());
        well = false;
    }
    for text in [&fixed.failed, &random.failed].into_iter().flatten() {
        println!("{text}");
        well = false;
    }
    let each = threads::each(needs.len(), |at| missed(needs[at], &random.with[at], fixed, random));
    let number = each.iter().filter(|missed| missed.is_ok()).count();
    each.iter().filter_map(|missed| missed.as_ref().err()).for_each(|text| println!("{text}"));
    println!("{number} of {} minimums are missed by a run without what they count", needs.len());
    well && number == needs.len()
}

/// What is done at once with others.
enum Done {
    Fixed(FixedPart),
    Random(RandomPart),
    Plant(bool, String),
}

pub fn run() -> bool {
    let started = Instant::now();
    let needs: Vec<Need> = needs::all().into_iter().map(|(need, _)| need).collect();
    let mut done = threads::each(2 + PLANTS.len(), |at| match at {
        0 => Done::Random(random_part(&needs)),
        1 => Done::Fixed(fixed_part()),
        _ => {
            let (well, said, _) = noticed(&PLANTS[at - 2], &hint_of(&PLANTS[at - 2]));
            Done::Plant(well, said)
        }
    });
    let mut well = true;
    for done in &done {
        if let Done::Plant(noticed, said) = done {
            print!("{said}");
            well &= noticed;
        }
    }
    let parts = claim::PARTS.into_iter().chain(PROMISE).chain(balances::PARTS).chain(joins::PARTS).chain(merges::PARTS).chain(usage::PARTS);
    for part in parts.chain([LEAST, NUMBERS, BY_RECORDS]) {
        if !PLANTS.iter().any(|p| p.breaks == Some(part)) {
            println!("no planted judge breaks \"{part}\"");
            well = false;
        }
    }
    println!("{} planted judges; {:.1} s for them and for a quick run", PLANTS.len(), started.elapsed().as_secs_f64());
    done.truncate(2);
    if let (Some(Done::Fixed(fixed)), Some(Done::Random(random))) = (done.pop(), done.pop()) {
        well &= minimums(&needs, &fixed, &random);
    }
    println!("{:.1} s", started.elapsed().as_secs_f64());
    println!("selftest: {}", if well { "each planted judge and each missed minimum was noticed" } else { "FAILED" });
    well
}
