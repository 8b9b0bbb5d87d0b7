// For the planted judges that read from a list whether one class's marks clash (see plants.rs), and below for others. build.rs puts it
// behind the reference's source.

/// If the list has yes for some class, such a judge searches no more and shows a cycle of one dependency; else it searches
/// without the interrupts of a class to itself, which it leaves to the list. The cycle, which may be empty where the list is
/// wrong; None without a fault.
#[inline(never)]
fn by_list(
    desk: &[u8],
    sheet: &[u8],
    yes: bool,
    rest: fn(&[u8], &[u8]) -> Arrivals,
    shown: fn(&[u8], &[u8]) -> Option<Vec<Triple>>,
) -> Option<Vec<Triple>> {
    if yes {
        return Some(shown(desk, sheet).unwrap_or_default());
    }
    let drawing = rest(desk, sheet);
    let left = drawing.peel();
    (left != 0).then(|| drawing.least_cycle(left, desk, sheet).unwrap_or_default())
}

/// The right list.
fn clashing(m: u8) -> bool {
    [m, m >> 4].iter().any(|m| m & 4 != 0 && m & 3 != 0 || m & 8 != 0 && m & 1 != 0)
}

/// The cycles of one dependency of a class.
fn of_class(desk: &[u8], sheet: &[u8], class: usize) -> Vec<Triple> {
    let all = [ER, EN, SN].into_iter().flat_map(|kind| [0, 1, 2].map(|source| (class as u8, kind, source)));
    all.filter(|&(_, kind, source)| drawn(desk, sheet, class, class, kind, source)).collect()
}

/// Those of the lowest class that has any.
fn of_lowest(desk: &[u8], sheet: &[u8]) -> Vec<Triple> {
    let mut all = (0..usize::from(desk[0])).map(|class| of_class(desk, sheet, class));
    all.find(|all| !all.is_empty()).unwrap_or_default()
}

fn clashing_classes(desk: &[u8]) -> impl DoubleEndedIterator<Item = usize> + '_ {
    (0..usize::from(desk[0])).filter(|class| clashing(desk[MARKS + class]))
}

fn least(all: Vec<Triple>) -> Option<Vec<Triple>> {
    all.into_iter().min().map(|one| vec![one])
}

// What is shown of a clash.

fn right(desk: &[u8], sheet: &[u8]) -> Option<Vec<Triple>> {
    least(of_lowest(desk, sheet))
}

fn lowest_clash(desk: &[u8], sheet: &[u8]) -> Option<Vec<Triple>> {
    least(of_class(desk, sheet, clashing_classes(desk).next()?))
}

fn highest_clash(desk: &[u8], sheet: &[u8]) -> Option<Vec<Triple>> {
    let one = right(desk, sheet)?;
    let clashes = clashing(desk[MARKS + usize::from(one[0].0)]);
    if clashes { least(of_class(desk, sheet, clashing_classes(desk).next_back()?)) } else { Some(one) }
}

fn interrupt_first(desk: &[u8], sheet: &[u8]) -> Option<Vec<Triple>> {
    of_lowest(desk, sheet).into_iter().min_by_key(|one| (one.2 == 0, *one)).map(|one| vec![one])
}

fn lock_first(desk: &[u8], sheet: &[u8]) -> Option<Vec<Triple>> {
    of_lowest(desk, sheet).into_iter().min_by_key(|one| (one.2 != 0, *one)).map(|one| vec![one])
}

/// Without those of one level where there are some of the other.
fn of_level(desk: &[u8], sheet: &[u8], level: u8) -> Option<Vec<Triple>> {
    let mut all = of_lowest(desk, sheet);
    if all.iter().any(|one| one.2 == level) {
        all.retain(|one| one.2 == 0 || one.2 == level);
    }
    least(all)
}

fn soft_first(desk: &[u8], sheet: &[u8]) -> Option<Vec<Triple>> {
    of_level(desk, sheet, 2)
}

fn hard_first(desk: &[u8], sheet: &[u8]) -> Option<Vec<Triple>> {
    of_level(desk, sheet, 1)
}

/// A cycle of two dependencies from a lower class, if there is one.
fn two_first(desk: &[u8], sheet: &[u8]) -> Option<Vec<Triple>> {
    let (one, drawing) = (right(desk, sheet)?, Arrivals::of(desk, sheet));
    let two = (0..usize::from(one[0].0)).find_map(|first| {
        let walks = [first, 64 + first].into_iter().filter_map(|start| drawing.least_walk(start, 2, desk, sheet));
        walks.filter(|walk| walk[0].0 < walk[1].0).min()
    });
    two.or(Some(one))
}

// What is left for the search where no class clashes.

/// Dependencies of a class to itself by these kinds of locks only.
fn with_own(desk: &[u8], sheet: &[u8], kinds: u8) -> Arrivals {
    let k = usize::from(desk[0]);
    let mut drawing = Arrivals::of(desk, sheet);
    for class in 0..k {
        let own: Set = 1 << class | 1 << (64 + class);
        let kinds = sheet[class * k + class] & kinds;
        let by = |kinds: u8| Set::from(kinds >> 1 & 1) << class | Set::from(kinds & 1) << (64 + class);
        drawing.next[class] = drawing.next[class] & !own | by(kinds) | by(kinds >> 2);
        drawing.next[64 + class] = drawing.next[64 + class] & !own | by(kinds);
    }
    drawing
}

fn without_own_interrupts(desk: &[u8], sheet: &[u8]) -> Arrivals {
    with_own(desk, sheet, 15)
}

fn without_own(desk: &[u8], sheet: &[u8]) -> Arrivals {
    with_own(desk, sheet, 0)
}

fn without_interrupts(desk: &[u8], sheet: &[u8]) -> Arrivals {
    let mut bare = desk.to_vec();
    bare[MARKS..HOLDS].fill(0);
    Arrivals::of(&bare, sheet)
}

// For the planted judges that go by document 002's rules where all that is drawn is exclusive.

/// Such a drawing: where lock dependencies lead, the marks by level, and the crosslocks.
struct Exclusive {
    k: usize,
    next: [u64; 64],
    safe: [u64; 2],
    is_unsafe: [u64; 2],
    declared: u64,
}

impl Exclusive {
    fn of(desk: &[u8], sheet: &[u8]) -> Option<Exclusive> {
        let k = usize::from(desk[0]);
        if sheet[..k * k].iter().any(|kinds| kinds & !EN != 0) || desk[MARKS..HOLDS].iter().any(|marks| marks & 0xAA != 0) {
            return None;
        }
        let mut next = [0; 64];
        for pair in (0..k * k).filter(|&pair| sheet[pair] != 0) {
            next[pair / k] |= 1 << (pair % k);
        }
        let marked = |bit: u8| (0..k).filter(|&class| desk[MARKS + class] & bit != 0).fold(0, |all, class| all | 1u64 << class);
        let declared = long_word_at(desk, DECLARED);
        Some(Exclusive { k, next, safe: [marked(1), marked(16)], is_unsafe: [marked(4), marked(64)], declared })
    }

    /// Whether so many dependencies lead from one of these classes to one of those.
    fn leads(&self, from: u64, to: u64, least: usize, most: usize) -> bool {
        let mut there = from;
        (1..=most.min(64)).any(|number| {
            there = (0..self.k).filter(|&class| there >> class & 1 == 1).fold(0, |all, class| all | self.next[class]);
            number >= least && there & to != 0
        })
    }

    fn circle(&self, least: usize, most: usize) -> bool {
        (0..self.k).any(|class| self.leads(1 << class, 1 << class, least, most))
    }

    /// Without the dependencies of a class to itself.
    fn circles_over(&self, least: usize) -> bool {
        let mut next = self.next;
        next.iter_mut().enumerate().for_each(|(class, next)| *next &= !(1 << class));
        Exclusive { next, ..*self }.circle(least, 64)
    }

    fn one_class(&self, level: usize) -> bool {
        self.safe[level] & self.is_unsafe[level] != 0
    }

    fn path(&self, level: usize) -> bool {
        self.leads(self.safe[level], self.is_unsafe[level], 1, 64)
    }

    fn level(&self, level: usize) -> bool {
        self.one_class(level) || self.path(level)
    }

    fn but_paths(&self) -> bool {
        self.circle(1, 64) || self.one_class(0) || self.one_class(1)
    }

    fn right(&self) -> bool {
        self.circle(1, 64) || self.level(0) || self.level(1)
    }

    fn without(&self, classes: u64) -> Exclusive {
        let mut next = self.next;
        for class in 0..64 {
            next[class] = if classes >> class & 1 == 1 { 0 } else { next[class] & !classes };
        }
        Exclusive { next, ..*self }
    }
}

/// The cycle, which may be empty where the rules are wrong; None without a fault.
#[inline(never)]
fn by_rules(desk: &[u8], sheet: &[u8], rules: fn(&Exclusive) -> bool) -> Option<Vec<Triple>> {
    let drawing = Arrivals::of(desk, sheet);
    let left = drawing.peel();
    let fault = Exclusive::of(desk, sheet).map_or(left != 0, |e| rules(&e));
    fault.then(|| drawing.least_cycle(left, desk, sheet).unwrap_or_default())
}
