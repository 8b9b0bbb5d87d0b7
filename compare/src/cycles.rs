//! The cycle that a slip shows, and what wrong choices among the cycles would show instead: for the sights. No judge is
//! asked, and no code is shared with one.

use crate::numbers;
use reference::MARKS;

/// A dependency as a slip shows it: class, kind (1, 2, 4, 8), source (0 hold, 1 hard, 2 soft).
pub type Triple = [u8; 3];

/// A wrong choice among the cycles with the fewest dependencies that begin with the lowest class.
#[derive(Clone, Copy, PartialEq, Eq)]
pub enum Choice {
    /// The next class, then kind and source.
    NextBeforeKind,
    /// The kind, the next class, then the source.
    NextBeforeSource,
    SourceBeforeKind,
    /// Kinds as EN, ER, SN, SR.
    KindsByLetters,
    /// Sources as soft, hard, hold.
    SourcesBackwards,
    /// To each arrival by the lowest arrival that leads there, as the parents of a breadth-first search.
    Parents,
    /// Among those whose last dependency ends in N, if there are any.
    ClosedByN,
    /// Among those also that are not strong at the closing joint.
    ClosingIgnored,
    /// The seven bytes that the slip has, from left to right.
    NumberBytes,
    /// The number after the source.
    NumberValues,
    Greatest,
}

impl Choice {
    /// What is compared of a dependency.
    fn key(self, class: usize, kind: usize, source: usize, next: usize, number: u32) -> u64 {
        let parts = match self {
            Choice::NextBeforeKind => [class, next, kind, source],
            Choice::NextBeforeSource => [class, kind, next, source],
            Choice::SourceBeforeKind => [class, source, kind, 0],
            Choice::KindsByLetters => [class, kind ^ 1, source, 0],
            Choice::SourcesBackwards => [class, kind, 2 - source, 0],
            _ => [class, kind, source, 0],
        };
        let key = parts.iter().fold(0, |key, &part| key << 6 | part as u64) << 32;
        match self {
            Choice::Greatest => !key,
            Choice::NumberBytes => key | u64::from(number.swap_bytes()),
            Choice::NumberValues => key | u64::from(number),
            _ => key,
        }
    }
}

/// A set of arrivals: a class by N, 64 more by R.
type Set = u128;

fn members(mut set: Set) -> impl Iterator<Item = usize> {
    std::iter::from_fn(move || {
        let lowest = (set != 0).then(|| set.trailing_zeros() as usize)?;
        set &= set - 1;
        Some(lowest)
    })
}

/// A drawing by class, kind (as 0 to 3) and source: where the dependencies lead.
pub struct Drawing {
    leads: [[[u64; 3]; 4]; 64],
    next: [Set; 128],
    k: usize,
    /// The number of each pair.
    numbers: Vec<u32>,
}

impl Drawing {
    /// Of a fit desk and its sheets.
    pub fn of(desk: &[u8], sheet: &[u8], seen: &[u8]) -> Drawing {
        let k = usize::from(desk[0]);
        let marks = &desk[MARKS..MARKS + k];
        let mut safe = [[0u64; 2]; 2];
        for (class, m) in marks.iter().enumerate() {
            for (level, safe) in safe.iter_mut().enumerate() {
                safe[0] |= u64::from(m >> (4 * level) & 1) << class;
                safe[1] |= u64::from(m >> (4 * level + 1) & 1) << class;
            }
        }
        let numbers = (0..k * k).map(|pair| numbers::number(seen, pair)).collect();
        let mut drawing = Drawing { leads: [[[0; 3]; 4]; 64], next: [0; 128], k, numbers };
        for (from, row) in sheet[..k * k].chunks_exact(k).enumerate() {
            let leads = &mut drawing.leads[from];
            for (to, kinds) in row.iter().enumerate().filter(|(_, kinds)| **kinds != 0) {
                for (kind, leads) in leads.iter_mut().enumerate() {
                    leads[0] |= u64::from(kinds >> kind & 1) << to;
                }
            }
            for (kind, leads) in leads.iter_mut().enumerate() {
                for (level, safe) in safe.iter().enumerate() {
                    let is_unsafe = marks[from] >> (4 * level + 2 + kind / 2) & 1 == 1;
                    leads[1 + level] = if is_unsafe { safe[1 - kind % 2] } else { 0 };
                }
                let all = leads[0] | leads[1] | leads[2];
                let arrivals = Set::from(all) << (64 * (1 - kind % 2));
                drawing.next[from] |= arrivals;
                if kind < 2 {
                    drawing.next[64 + from] |= arrivals;
                }
            }
        }
        drawing
    }

    fn further(&self, from: Set) -> Set {
        members(from).fold(0, |all, i| all | self.next[i])
    }

    /// The fewest dependencies, at most so many, from an arrival back to it among these arrivals.
    fn back(&self, start: usize, among: Set, most: usize) -> Option<usize> {
        let (mut seen, mut wave) = (0, 1 << start);
        for length in 1..=most {
            let further = self.further(wave) & among;
            if further >> start & 1 == 1 {
                return Some(length);
            }
            wave = further & !seen;
            seen |= wave;
            if wave == 0 {
                break;
            }
        }
        None
    }

    pub fn has_cycle(&self) -> bool {
        (0..64).any(|class| self.back(class, Set::MAX, 128).is_some() || self.back(64 + class, Set::MAX, 128).is_some())
    }

    /// The cycle of n dependencies from a class that a choice takes, as a walk between arrivals.
    fn choose(&self, choice: Choice, first: usize, n: usize) -> Option<Vec<Triple>> {
        // From an arrival to the same one; or from any to any of the class.
        let ways: &[(usize, Set)] = match choice {
            Choice::ClosingIgnored => &[(first, 1 << first | 1 << (64 + first))],
            _ => &[(first, 1 << first), (64 + first, 1 << (64 + first))],
        };
        let mut found = ways.iter().filter_map(|&(start, goal)| self.walk(choice, start, goal, n));
        match choice {
            Choice::ClosedByN => found.next(),
            _ => found.min_by(|a, b| a.0.cmp(&b.0)),
        }
        .map(|(_, triples)| triples)
    }

    /// The walk that a choice takes, with its keys.
    fn walk(&self, choice: Choice, start: usize, goal: Set, n: usize) -> Option<(Vec<u64>, Vec<Triple>)> {
        // The arrivals after each dependency that lie on such a walk.
        let mut on = vec![1 << start];
        for i in 0..n {
            on.push(self.further(on[i]));
        }
        on[n] &= goal;
        for i in (1..n).rev() {
            on[i] = members(on[i]).filter(|&a| self.next[a] & on[i + 1] != 0).fold(0, |all, a| all | 1 << a);
        }
        if on[n] == 0 {
            return None;
        }
        // By rank: the place of the walk up to an arrival among those up to the others.
        let mut rank = [0u32; 128];
        let mut from: Vec<Vec<(u128, u8, u64, Triple)>> = Vec::with_capacity(n);
        for i in 0..n {
            let mut best = vec![(u128::MAX, 0u8, 0u64, [0u8; 3]); 128];
            for here in members(on[i]) {
                let class = here % 64;
                for (kind, leads) in self.leads[class].iter().enumerate().take(if here < 64 { 4 } else { 2 }) {
                    let letter = 1 - kind % 2;
                    for (source, &leads) in leads.iter().enumerate() {
                        for there in members((Set::from(leads) << (64 * letter)) & on[i + 1]) {
                            let number = if source == 0 { self.numbers[class * self.k + there % 64] } else { 0 };
                            let key = choice.key(class, kind, source, there % 64, number);
                            let by = if choice == Choice::Parents { here as u32 } else { rank[here] };
                            let all = u128::from(by) << 64 | u128::from(key);
                            if all < best[there].0 {
                                best[there] = (all, here as u8, key, [class as u8, 1 << kind, source as u8]);
                            }
                        }
                    }
                }
            }
            let mut order: Vec<u128> = members(on[i + 1]).map(|there| best[there].0).collect();
            order.sort_unstable();
            order.dedup();
            for there in members(on[i + 1]) {
                rank[there] = order.partition_point(|&other| other < best[there].0) as u32;
            }
            from.push(best);
        }
        let mut at = members(on[n]).min_by_key(|&a| rank[a])?;
        let (mut keys, mut triples) = (Vec::new(), Vec::new());
        for from in from.iter().rev() {
            let (_, here, key, triple) = from[at];
            keys.push(key);
            triples.push(triple);
            at = usize::from(here);
        }
        keys.reverse();
        triples.reverse();
        Some((keys, triples))
    }
}

/// What a slip shows, with the drawing.
pub struct Shown {
    drawing: Drawing,
    pub cycle: Vec<Triple>,
    /// Whether there are several cycles of so many dependencies from the first class.
    pub several: bool,
}

impl Shown {
    /// None where the slip shows no cycle of one to K dependencies.
    pub fn of(desk: &[u8], sheet: &[u8], seen: &[u8], slip: &[u8]) -> Option<Shown> {
        let n = usize::from(*slip.first()?);
        if n < 1 || n > usize::from(desk[0]) {
            return None;
        }
        let cycle: Vec<Triple> = slip[1..].chunks_exact(7).take(n).map(|t| [t[0], t[1], t[2]]).collect();
        let well = cycle.len() == n && cycle.iter().all(|t| t[0] < desk[0] && [1, 2, 4, 8].contains(&t[1]) && t[2] < 3);
        well.then(|| {
            let mut shown = Shown { drawing: Drawing::of(desk, sheet, seen), cycle, several: true };
            shown.several = shown.chooses(Choice::Greatest);
            shown
        })
    }

    pub fn n(&self) -> usize {
        self.cycle.len()
    }

    fn first(&self) -> usize {
        usize::from(self.cycle[0][0])
    }

    /// Whether this choice takes another cycle than the one shown.
    pub fn chooses(&self, choice: Choice) -> bool {
        let may = self.several || choice == Choice::ClosingIgnored;
        may && self.drawing.choose(choice, self.first(), self.n()).is_some_and(|other| other != self.cycle)
    }

    /// The class after each dependency.
    pub fn to(&self, i: usize) -> usize {
        usize::from(self.cycle[(i + 1) % self.n()][0])
    }

    fn drawn(&self, i: usize, kind: usize, source: usize) -> bool {
        self.drawing.leads[usize::from(self.cycle[i][0])][kind][source] >> self.to(i) & 1 == 1
    }

    /// Whether this holds of a dependency shown (its kind as 0 to 3, its source) and of another that is drawn between the
    /// same classes.
    pub fn beside(&self, such: impl Fn((usize, usize), (usize, usize)) -> bool) -> bool {
        (0..self.n()).any(|i| {
            let [_, kind, source] = self.cycle[i];
            let this = (kind.trailing_zeros() as usize, usize::from(source));
            let mut others = (0..4).flat_map(|kind| (0..3).map(move |source| (kind, source)));
            others.any(|other| other != this && self.drawn(i, other.0, other.1) && such(this, other))
        })
    }

    /// Whether between two classes a dependency less than the one shown is drawn that ends in R, may follow what is before
    /// it, and may not be followed by the next; at the last dependency, or at one before it.
    pub fn barred(&self, closing: bool) -> bool {
        let n = self.n();
        let places = if closing { n - 1..n } else { 0..n - 1 };
        places.into_iter().any(|i| {
            let [_, kind, source] = self.cycle[i];
            let ends_in_r = |kind: u8| kind == 1 || kind == 4;
            let begins_with_s = |kind: u8| kind >= 4;
            let next_s = begins_with_s(self.cycle[(i + 1) % n][1]);
            let after_r = i > 0 && ends_in_r(self.cycle[i - 1][1]);
            let less = |lesser: u8, by: usize| (lesser, by) < (kind, usize::from(source));
            let may = |lesser: u8| !(after_r && begins_with_s(lesser));
            next_s
                && [(1u8, 0), (4, 2)].iter().any(|&(lesser, place)| {
                    may(lesser) && (0..3).any(|by| less(lesser, by) && self.drawn(i, place, by))
                })
        })
    }

    /// Whether a cycle, a longer one, passes a class below the first.
    pub fn above_a_lower(&self) -> bool {
        (0..self.first()).any(|class| {
            [class, 64 + class].into_iter().any(|a| self.drawing.back(a, Set::MAX, 128).is_some())
        })
    }

    /// Whether there is a cycle of as few dependencies above the first class.
    pub fn another_first(&self) -> bool {
        let above = u64::MAX << self.first() << 1;
        let among = Set::from(above) | Set::from(above) << 64;
        let mut higher = members(among);
        higher.any(|a| self.drawing.next[a] & among != 0 && self.drawing.back(a, among, self.n()).is_some())
    }

    pub fn passes(&self, class: u8) -> bool {
        self.cycle.iter().any(|t| t[0] == class)
    }
}
