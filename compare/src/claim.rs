//! Demand 3: one claim about two lists of records, the second being the first with records put in that name no core of
//! the first. It is told from the answers and from each list's own drawing, not from another judge. It says nothing of the
//! count and of first-seen numbers, which are others in the two lists; each list's are held to its own records alone (see
//! src/run.rs). Crosslocks limit it: both lists declare the same, no record of kinds 10 to 12 is put in, and neither list meets 19.

use crate::drawing::Drawing;
use crate::run::Rec;

/// The parts of the claim. The second says all of the first and more; the first stands before it so that it is named.
pub const PARTS: [&str; 5] = [
    "a fault of the first list closes the second",
    "old answers kept until a fault",
    "10 after a fault, and only then",
    "a fault only with a closed strong path",
    "a closed strong path only with a fault",
];

/// A list as it was run: records, their answers, and their places in the second list; its drawing, and where that first has
/// a closed strong path.
pub struct Run<'a> {
    pub name: &'static str,
    /// The crosslocks.
    pub declared: u64,
    pub records: Vec<&'a Rec>,
    pub answers: &'a [u8],
    pub places: Vec<usize>,
    pub drawing: Drawing,
    pub drawn: Option<usize>,
}

impl Run<'_> {
    pub fn fault(&self) -> Option<usize> {
        self.answers.iter().position(|&a| a == 1)
    }
    /// Demand 3 holds "if neither run meets 9", and "neither run meets 19".
    fn meets_limit(&self) -> bool {
        self.answers.contains(&9) || self.answers.contains(&19)
    }
}

/// A broken part: its name, the place in the second list, and what was seen there.
pub type Broken = (&'static str, usize, String);

/// Whether the lists are such as the claim speaks of.
pub fn applies(first: &Run, second: &Run) -> bool {
    let named: Vec<u8> = first.records.iter().filter_map(|r| r.names()).collect();
    let put_in = || second.records.iter().enumerate().filter(|(at, _)| !first.places.contains(at)).map(|(_, record)| record);
    !first.meets_limit()
        && !second.meets_limit()
        && first.declared == second.declared
        && !put_in().any(|record| record.of_crosslock())
        && first.records.iter().zip(&first.places).all(|(r, &at)| *r == second.records[at])
        && first.places.windows(2).all(|w| w[0] < w[1])
        && put_in().filter_map(|record| record.names()).all(|core| !named.contains(&core))
}

/// The first part that is broken, in the order of PARTS.
pub fn broken(first: &Run, second: &Run) -> Option<Broken> {
    // Whether an event at this place comes too late, or never, for one at that place.
    let later = |event: Option<usize>, at: usize| event.is_none_or(|e| e > at);
    let (fault, mut found) = (second.fault(), Vec::new());
    if let Some(f) = first.fault() {
        let at = first.places[f];
        if later(fault, at) {
            found.push((PARTS[0], at, "a fault in the first list, none up to here in the second".into()));
        }
    }
    for (&at, &old) in first.places.iter().zip(first.answers) {
        let new = second.answers[at];
        if later(fault, at) && new != old {
            found.push((PARTS[1], at, format!("{new} in the second list, {old} in the first")));
        }
    }
    for run in [second, first] {
        let fault = run.fault();
        for (at, &answer) in run.answers.iter().enumerate() {
            if (answer == 10) != fault.is_some_and(|f| f < at) {
                let side = if answer == 10 { "before" } else { "after" };
                found.push((PARTS[2], run.places[at], format!("{answer} {side} a fault in the {} list", run.name)));
            }
        }
        let drawn = run.drawn;
        if let Some(f) = fault.filter(|&f| later(drawn, f)) {
            found.push((PARTS[3], run.places[f], format!("a fault in the {} list without one", run.name)));
        }
        if let Some(d) = drawn.filter(|&d| later(fault, d)) {
            found.push((PARTS[4], run.places[d], format!("one drawn by the {} list, no fault", run.name)));
        }
    }
    found.into_iter().min_by_key(|(part, at, _)| (PARTS.iter().position(|p| p == part), *at))
}
