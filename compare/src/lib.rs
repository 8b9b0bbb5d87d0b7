//! compare: runs the proved library and the independent reference over many inputs and
//! compares after every call: the answer, every byte of desk, both sheets, history, slip and feed
//! with the guards around them, word and count, the record number, the balances; of a join
//! the benches too, which must not change. See HELP. A library with all of it, so that it is compiled while the planted judges are.

mod balances;
mod bench;
mod claim;
mod clashes;
mod crosslocks;
mod cycles;
mod depths;
mod drawing;
mod fast;
mod feeds;
mod gen;
mod joins;
mod judges;
mod merges;
mod needs;
mod numbers;
mod older;
mod releases;
mod rng;
mod run;
mod selftest;
mod sights;
mod threads;
mod ties;
mod usage;

use gen::{Buffers, Part};
use judges::{Judges, Subject};
use needs::Need;
use rng::Rng;
use run::{Case, Counts, Diff, Rec};
use std::process::ExitCode;
use std::time::{Duration, Instant};
use wrong_judges::{Plant, PLANTS};

const HELP: &str = "\
compare: the library beside the reference, call by call and byte by byte

  compare [OPTION..]       fixed cases, then random ones until the time is over
  compare --selftest       shows that it can fail: each planted judge must be caught, and
                           each minimum missed by a run without what it counts
  compare --hints          prints hints.txt: the cases that show each planted judge, which
                           the selftest tries first
  compare --bench          times the library beside ordinary Rust
  compare --list           names for --planted and --without

  --seconds N              stop after N seconds (60; without a limit if --cases is given)
  --cases N                stop after N random cases
  --seed S                 other random cases (1)
  --planted NAME           a wrong judge in the library's place
  --both                   the planted judge in the place of the reference and the fast
                           judge too: then only demand 3's pairs of lists can show it,
                           the promise of a log in pieces, all cycles where K is 4 or
                           less, the answers that the documents give for the hand logs,
                           the slips written down for the hand drawings, what is to come
                           of the rings and of the cases with clashes and numbers, the
                           numbers, kinds, marks, crosslocks and history that a list of
                           records alone gives, balances that are counted here, added,
                           and held to the locks on a desk, joins that are worked out
                           here and made in either order, and of request k the merges of
                           a log, which leave the desk open or closed alike, get the same
                           answers while it is open and leave the same desk and sheet,
                           and document 002's rules, which are broken exactly where
                           exclusive acquires alone have a fault
  --without NAME           leave out what is counted under this name
  --no-fixed               leave out the fixed cases, whose minimums are then missed

Exit status: 0 no difference and every minimum met; 1 a difference, a wrong answer or a
minimum not met; 2 wrong arguments. A run of fewer than 5,000 random cases misses a
minimum unless --cases asks for no more.
";

/// Of so many random cases one is of request k.
const OF_K: u64 = 12;

/// What a run goes through.
struct Limits {
    seconds: u64,
    cases: u64,
    seed: u64,
    without: Option<Need>,
    /// Of the random cases this part only.
    only: Option<Part>,
    /// The fixed cases that come first, too.
    first: Option<fn(&mut dyn FnMut(Case) -> bool)>,
    /// Whether the fixed cases are left out.
    no_fixed: bool,
}

impl Limits {
    /// The case as it is run, or None.
    fn pass(&self, mut case: Case) -> Option<Case> {
        let stays = self.without.is_none_or(|need| need.leave_out(&mut case));
        stays.then_some(case)
    }

    /// Goes through the fixed cases until one is answered with false.
    fn fixed(&self, each: &mut dyn FnMut(Case) -> bool) {
        let mut going = !self.no_fixed;
        for fixed in [self.first.unwrap_or(|_| {}), gen::fixed] {
            if going {
                fixed(&mut |case| {
                    going = self.pass(case).is_none_or(&mut *each);
                    going
                });
            }
        }
    }

    /// A random case, one of OF_K being of request k. Each has its own seed, so that a case is made again by its number.
    fn numbered(&self, number: u64) -> Option<Case> {
        let seed = |own: u64| self.seed.wrapping_mul(0x2545_F491_4F6C_DD1D) ^ own.wrapping_mul(0xD134_2543_DE82_EF95);
        match number % OF_K == OF_K - 1 {
            true => gen::random_of_k(&mut Rng::new(!seed(number / OF_K)), self.only),
            false => gen::random(&mut Rng::new(seed(number - number / OF_K)), self.only),
        }
    }

    /// Goes through the random cases likewise.
    fn random(&self, end: Instant, each: &mut dyn FnMut(Case) -> bool) {
        let (mut number, mut run) = (0u64, 0);
        while run < self.cases && self.without != Some(Need::RandomCases) && Instant::now() < end {
            number += 1;
            let Some(case) = self.numbered(number - 1).and_then(|case| self.pass(case)) else { continue };
            run += 1;
            if !each(case) {
                return;
            }
        }
    }
}

/// What was met in the fixed and in the random cases.
#[derive(Default)]
struct Met {
    fixed: Counts,
    random: Counts,
}

type Failed = Option<(Case, Diff)>;

/// Runs a case; false if it failed.
fn try_case(case: Case, judges: &mut Judges, counts: &mut Counts, failed: &mut Failed) -> bool {
    if let Err(diff) = run::run(&case, judges, counts) {
        *failed = Some((case, diff));
    }
    failed.is_none()
}

/// Runs until a difference or a limit.
fn compare(judges: &mut Judges, limits: &Limits, met: &mut Met) -> Failed {
    let end = Instant::now() + Duration::from_secs(limits.seconds);
    let mut failed = None;
    // Sights count in random cases.
    met.fixed.blind = true;
    limits.fixed(&mut |case| try_case(case, judges, &mut met.fixed, &mut failed));
    if failed.is_none() {
        limits.random(end, &mut |case| try_case(case, judges, &mut met.random, &mut failed));
    }
    failed
}

fn print_difference(case: &Case, diff: &Diff, judges: &mut Judges, met: &Met) {
    println!(
        "DIFFERENCE ({}) after {} calls, in case {}, at call {}: {}",
        diff.judge, met.fixed.calls + met.random.calls, met.fixed.cases + met.random.cases, diff.call + 1, diff.text
    );
    let small = run::shrink(case, diff.judge, judges);
    if let Err(d) = run::run(&small, judges, &mut Counts::default()) {
        println!("smallest found: call {}: {}", d.call + 1, d.text);
    }
    print!("{}", run::describe(&small));
}

/// What was met; false if something was met too seldom, or should not be met at all.
fn report(met: &Met, limits: &Limits) -> bool {
    let Met { fixed, random } = met;
    println!("{} cases, {} calls compared; of the random cases:", fixed.cases + random.cases, fixed.calls + random.calls);
    for (name, answers) in [
        ("opening", &random.open), ("step", &random.step), ("question", &random.ask), ("feed start", &random.feed_start),
        ("piece", &random.feed), ("feed end", &random.feed_end), ("balance", &random.balance), ("join", &random.join),
    ] {
        let row: Vec<String> = (0..20).filter(|&i| answers[i] > 0).map(|i| format!("{i}: {}", answers[i])).collect();
        println!("{name:10} {}", row.join(", "));
    }
    println!("unfit, first clause met (step, question, first bench of a join, second):");
    for (i, clause) in judges::CLAUSES.iter().enumerate() {
        println!(
            "  {clause:32} {:>9} {:>9} {:>9} {:>9}",
            random.clause_step[i], random.clause_ask[i], random.clause_join[0][i], random.clause_join[1][i]
        );
    }
    println!("joins with a short desk, sheet, second sheet, slip: {:?}", random.short_join);
    let said = joins::PARTS.iter().zip(random.said_of_joins).map(|(part, n)| format!("{part} {n}"));
    println!("joins held to what is said of them: {}", said.collect::<Vec<_>>().join(", "));
    println!(
        "pairs of lists from a join, with no fault, in the second only, in both: {:?}; faults that would be none from opening {}",
        random.joined_pair_faults, random.faults_by_start
    );
    println!("unfit feed, first clause met (piece, end):");
    for (i, clause) in reference::FEED_CLAUSES.iter().enumerate() {
        println!("  {clause:46} {:>9} {:>9}", random.clause_feed[i], random.clause_feed_end[i]);
    }
    let promised = feeds::PROMISE.iter().zip(random.promised).map(|(part, n)| format!("{part} {n}"));
    println!("feeds held to the promise: {}", promised.collect::<Vec<_>>().join(", "));
    println!("pieces whose balances were added over a split {}, held to the locks on a desk {}", random.added, random.held);
    let [none, second, both] = random.pair_faults;
    println!(
        "pairs of lists ({} records in the second lists): no fault {none}, fault in the second only {second}, in both {both}; other numbers {}; with crosslocks {}; \
         releases of mode 1 to 5 put in: accepted {}, 5 {}",
        random.pair_records, random.pair_numbers, random.pair_crosslocks, random.pair_released, random.pair_not_fitting
    );
    println!(
        "questions answered on closed desks {}, on open desks where the class reaches itself {}",
        random.asked_closed, random.asked_itself
    );
    println!("frames filled from opening {}, acquires refused by them {}", random.filled, random.over_full);
    println!("releases that an older lock fits, by the newest lock's mode and the release's: {:?}", random.older_fits);
    let shown = random.shown.iter().zip(["ER", "EN", "SR", "SN"]).map(|(by_source, kind)| format!("{kind} {by_source:?}"));
    println!("cycles: longest {}, dependencies by source [hold, hard, soft]: {}", random.longest_cycle, shown.collect::<Vec<_>>().join(", "));
    for (name, cases, calls) in fixed.by_name.iter().chain(&random.by_name) {
        println!("  {name:24} {cases:>9} cases {calls:>11} calls");
    }
    println!("sights:");
    for (sight, met) in sights::SIGHTS.iter().zip(random.sights.0) {
        println!("  {:58} {met:>9}", sight.name);
    }
    println!("merges, and records of exclusive logs and drawings:");
    for ((name, _), met) in merges::SIGHTS.iter().zip(random.merges).chain(usage::SIGHTS.iter().zip(random.usage)) {
        println!("  {name:70} {met:>9}");
    }
    let under = needs::under(fixed, random, limits.cases);
    for (need, met, least) in &under {
        println!("MINIMUM NOT MET: {}: {met}, at least {least}", need.name());
    }
    let undue: Vec<(Need, u64)> = [fixed, random].into_iter().flat_map(needs::undue).collect();
    for (need, met) in &undue {
        println!("NO SUCH ANSWER: {}: {met}", need.name());
    }
    under.is_empty() && undue.is_empty()
}

/// The hand logs' answers as the document gives them, on the subject's own, by steps and in pieces of five bytes.
fn hand_answers(subject: &mut Subject) -> bool {
    let mut well = true;
    for log in gen::hand_logs() {
        let Buffers { mut desk, mut sheet, mut seen, mut history, mut slip } = Buffers::opened(log.k);
        let step = |r: &Rec| subject.step(&mut desk, &mut sheet, &mut seen, &mut history, &mut slip, r.slice());
        let answers: Vec<u8> = log.records.iter().map(step).collect();
        let n = answers.len();
        let right = n == 0 || (answers[n - 1] == log.last && answers[..n - 1].iter().all(|&a| a == 0));
        if !right {
            println!("hand log {}: answers {answers:?}, the last should be {} and the others 0", log.name, log.last);
            well = false;
        }
        let mut b = Buffers::opened(log.k);
        let (mut feed, mut number) = ([0; reference::FEED], 0);
        for piece in feeds::log_of(log.k as u8, &log.records).chunks(5) {
            subject.feed(&mut feed, &mut b.desk, &mut b.sheet, &mut b.seen, &mut b.history, &mut b.slip, piece, &mut number);
        }
        let answer = subject.feed_end(&mut feed, &mut b.desk, &mut b.sheet, &mut b.seen, &mut b.history, &mut b.slip, &mut number);
        if (answer, number) != (log.last, n as u64) {
            println!("hand log {} in pieces: {answer} at record {number}, not {} at record {n}", log.name, log.last);
            well = false;
        }
    }
    well
}

/// The hand drawings' slips as they were worked out by hand, every byte, on the subject's own.
fn hand_slips(subject: &mut Subject) -> bool {
    let mut well = true;
    for drawing in ties::hand_drawings() {
        let Buffers { mut desk, mut sheet, mut seen, mut history, mut slip } = drawing.sketch.buffers();
        slip.fill(99);
        let mut expected = slip.clone();
        expected[..drawing.slip.len()].copy_from_slice(&drawing.slip);
        let answer = subject.step(&mut desk, &mut sheet, &mut seen, &mut history, &mut slip, &[0x4C, 0x4B, 0, 2, 0, 0]);
        if (answer, &slip) != (1, &expected) {
            println!("hand drawing {}: answer {answer}, slip {slip:?}, not {expected:?}", drawing.name);
            well = false;
        }
    }
    well
}

/// Records far longer than six bytes that begin with a good one: refused with 3, and
/// nothing changed. (In a case a record has at most twelve bytes.)
fn long_records(subject: &mut Subject) -> bool {
    let mut well = true;
    for len in [6, 7, 12, 13, 64, 255, 256, 257, 262, 512, 518, 4102, 8198] {
        let mut record = vec![0; len];
        record[..6].copy_from_slice(&[0x4C, 0x4B, 0, 0, 1, 0]);
        let mut b = Buffers::opened(8);
        let answer = subject.step(&mut b.desk, &mut b.sheet, &mut b.seen, &mut b.history, &mut b.slip, &record);
        let fresh = Buffers::opened(8);
        let unchanged = b.desk == fresh.desk && b.sheet == fresh.sheet && b.seen == fresh.seen && b.slip == fresh.slip;
        if (answer, unchanged) != if len == 6 { (0, false) } else { (3, true) } {
            println!("a record of {len} bytes: answer {answer}, unchanged {unchanged}");
            well = false;
        }
    }
    well
}

fn list() {
    println!("planted judges (* also with --both):");
    for p in PLANTS {
        let in_every_place = p.breaks.is_some() || p.of_clash || p.of_balance || p.of_join || !p.too.is_empty();
        println!("{} {:24} {}", if in_every_place { "*" } else { " " }, p.name, p.wrong);
    }
    println!("counted, with the least number (in 100,000 random cases, but for the first {}):", 1 + gen::FIXED.len());
    for (need, least) in needs::all() {
        println!("  {:58} {least:>6}", need.name());
    }
}

/// Does what the arguments ask; whether all was well, or what is wrong with the arguments.
fn obey(mut args: impl Iterator<Item = String>) -> Result<bool, String> {
    let (mut seconds, mut cases, mut seed, mut without) = (None, None, 1, None);
    let (mut plant, mut both, mut no_fixed) = (None, false, false);
    while let Some(arg) = args.next() {
        let mut value = || args.next().ok_or(format!("{arg} needs a value"));
        let number = |value: String| value.parse::<u64>().map_err(|_| format!("{arg} needs a number, not {value}"));
        let unknown = |value: String| format!("{arg}: no such name: {value}");
        match arg.as_str() {
            "--help" => {
                print!("{HELP}");
                return Ok(true);
            }
            "--list" => {
                list();
                return Ok(true);
            }
            "--selftest" => return Ok(selftest::run()),
            "--hints" => return Ok(selftest::print_hints()),
            "--bench" => return Ok(bench::run()),
            "--both" => both = true,
            "--no-fixed" => no_fixed = true,
            "--seconds" => seconds = Some(number(value()?)?),
            "--cases" => cases = Some(number(value()?)?),
            "--seed" => seed = number(value()?)?,
            "--planted" => {
                let name = value()?;
                plant = Some(PLANTS.iter().find(|p| p.name == name).ok_or(unknown(name))?);
            }
            "--without" => {
                let name = value()?;
                let need = needs::all().into_iter().map(|(need, _)| need).find(|need| need.name() == name);
                without = Some(need.ok_or(unknown(name))?);
            }
            _ => return Err(format!("unknown: {arg}")),
        }
    }
    let mut judges = match plant {
        None if both => return Err("--both needs --planted".into()),
        None => Judges::beside(Subject::library()),
        Some(p) if both => Judges::all(p.judge),
        Some(p) => Judges::beside(Subject::Planted(p.judge)),
    };
    let limits = Limits {
        seconds: seconds.unwrap_or(if cases.is_none() { 60 } else { 1_000_000 }),
        cases: cases.unwrap_or(u64::MAX),
        seed,
        without,
        only: None,
        first: plant.and_then(|plant| match plant {
            Plant { of_balance: true, .. } => Some(balances::fixed as fn(&mut dyn FnMut(Case) -> bool)),
            Plant { of_join: true, .. } => Some(joins::fixed),
            Plant { of_crosslock: true, .. } => Some(crosslocks::fixed),
            Plant { of_merge: true, .. } => Some(merges::fixed),
            Plant { of_usage: true, .. } => Some(usage::fixed),
            _ => None,
        }),
        no_fixed,
    };
    let name = plant.map_or("the library".into(), |p| format!("planted {} ({})", p.name, p.wrong));
    println!("subject: {name}; seed {seed}");
    Ok(full_run(&mut judges, &limits))
}

/// Compares and reports; whether nothing differed and every minimum was met.
fn full_run(judges: &mut Judges, limits: &Limits) -> bool {
    let started = Instant::now();
    let mut met = Met::default();
    if let Some((case, diff)) = compare(judges, limits, &mut met) {
        print_difference(&case, &diff, judges, &met);
        return false;
    }
    let whole = report(&met, limits);
    let right = hand_answers(&mut judges.subject) & hand_slips(&mut judges.subject) & long_records(&mut judges.subject);
    if let Subject::Library(edges) = &judges.subject {
        println!("{} of the library's calls were made at the edge of an unreadable page", edges.edge_calls());
    }
    println!("{:.1} s", started.elapsed().as_secs_f64());
    println!("{}", match (whole, right) {
        (true, true) => "no difference",
        (false, true) => "no difference, but see the lines in capitals",
        _ => "no difference, but what a hand log, a hand drawing or a long record gets is wrong",
    });
    whole && right
}

/// The program.
pub fn main() -> ExitCode {
    match obey(std::env::args().skip(1)) {
        Ok(true) => ExitCode::SUCCESS,
        Ok(false) => ExitCode::FAILURE,
        Err(text) => {
            eprintln!("compare: {text} (see compare --help)");
            ExitCode::from(2)
        }
    }
}
