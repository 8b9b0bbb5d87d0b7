//! The planted wrong judges: each is the reference with these edits and nothing else. build.rs makes them.

pub struct Plant {
    pub name: &'static str,
    /// What is wrong with it.
    pub wrong: &'static str,
    /// Sights (see src/sights.rs): the call that shows it to be wrong must be one of them, where any are named.
    pub sights: &'static [&'static str],
    /// The part of demand 3's claim (see src/claim.rs) or of the feed's promise (see src/feeds.rs), the least cycle, the
    /// first-seen numbers, what the records alone draw (see src/run.rs), or what is said of balances or of joins (see src/balances.rs
    /// and src/joins.rs), that
    /// it breaks while it stands in the place of every judge, so that no two of them differ; "reference" for what is to come of the
    /// fixed cases about numbers; None if it is only tried in the library's place.
    pub breaks: Option<&'static str>,
    /// Whether it is wrong about clashes (see src/clashes.rs), and the cases with clashes alone are to show it.
    pub of_clash: bool,
    /// Whether it is wrong about the count or first-seen numbers, and the cases about these come first.
    pub of_numbers: bool,
    /// Whether it is wrong about deep frames or old desks (see src/depths.rs and src/older.rs), and the cases about these come
    /// first.
    pub of_depth: bool,
    /// Whether it is wrong about the modes of releases (see src/releases.rs), and the cases about these come first.
    pub of_release: bool,
    /// Whether it is wrong about crosslocks (see src/crosslocks.rs), and the cases about these come first.
    pub of_crosslock: bool,
    /// Whether it is wrong about merges (see src/merges.rs), and the cases with merges are to show it.
    pub of_merge: bool,
    /// Whether it is wrong about document 002's rules (see src/usage.rs), and the cases about these are to show it.
    pub of_usage: bool,
    /// Whether no random case is to show it, as so long a case is made once.
    pub only_fixed: bool,
    /// Whether of the pairs of lists those from a join are to show what it breaks.
    pub from_join: bool,
    /// The parts of request k's claims that it breaks too while it stands in the place of every judge.
    pub too: &'static [&'static str],
    /// Text of reference/src/lib.rs, and what stands there instead.
    pub edits: &'static [(&'static str, &'static str)],
    /// Whether its one edit puts an expression in the place of another. Those of one place share a module, which chooses among them
    /// as it runs, so that it is compiled once.
    pub shares: bool,
}

const fn plant(name: &'static str, wrong: &'static str, edits: &'static [(&'static str, &'static str)]) -> Plant {
    let (of_clash, of_numbers, of_depth, of_release, of_crosslock) = (false, false, false, false, false);
    let (of_merge, of_usage, only_fixed, from_join, shares) = (false, false, false, false, false);
    let (sights, breaks, too): (&[&str], _, &[&str]) = (&[], None, &[]);
    Plant {
        name, wrong, sights, breaks, of_clash, of_numbers, of_depth, of_release, of_crosslock, of_merge, of_usage, only_fixed, from_join, too,
        edits, shares,
    }
}

const fn sharing(name: &'static str, wrong: &'static str, edits: &'static [(&'static str, &'static str)]) -> Plant {
    Plant { shares: true, ..plant(name, wrong, edits) }
}

const fn shown(sights: &'static [&'static str], plant: Plant) -> Plant {
    Plant { sights, ..plant }
}

const fn breaks(part: &'static str, plant: Plant) -> Plant {
    Plant { breaks: Some(part), ..plant }
}

const fn from_join(part: &'static str, plant: Plant) -> Plant {
    Plant { breaks: Some(part), from_join: true, ..plant }
}

const fn of_clash(sights: &'static [&'static str], plant: Plant) -> Plant {
    Plant { sights, of_clash: true, ..plant }
}

const fn of_numbers(sights: &'static [&'static str], plant: Plant) -> Plant {
    Plant { sights, of_numbers: true, ..plant }
}

const fn of_depth(sights: &'static [&'static str], plant: Plant) -> Plant {
    Plant { sights, of_depth: true, ..plant }
}

const fn of_release(sights: &'static [&'static str], plant: Plant) -> Plant {
    Plant { sights, of_release: true, ..plant }
}

const fn of_crosslock(sights: &'static [&'static str], plant: Plant) -> Plant {
    Plant { sights, of_crosslock: true, ..plant }
}

const fn of_merge(part: &'static str, plant: Plant) -> Plant {
    Plant { breaks: Some(part), of_merge: true, ..plant }
}

const fn of_usage(part: &'static str, plant: Plant) -> Plant {
    Plant { breaks: Some(part), of_usage: true, ..plant }
}

const fn too(too: &'static [&'static str], plant: Plant) -> Plant {
    Plant { too, ..plant }
}

const fn only_fixed(plant: Plant) -> Plant {
    Plant { only_fixed: true, ..plant }
}

const ONLY_WITH_PATH: &str = "a fault only with a closed strong path";
const ONLY_WITH_FAULT: &str = "a closed strong path only with a fault";

const OVER_ANOTHER_CUT: &str = "the same over another cut";
const AS_THE_WHOLE_LOG: &str = "as the whole log";
const AS_SINGLE_STEPS: &str = "as single steps";

const LEAST: &str = "the least cycle";
const NUMBERS: &str = "the first-seen numbers";
const BY_RECORDS: &str = "what the records alone draw";

/// Where a step gets its cycle and shows it.
const CYCLE: &str = "    let circle = drawing.least_cycle(left, desk, sheet);";
const SHOW: &str = "    show(slip, &circle.expect(\"where something remains, a cycle exists\"), k, seen);";
/// Where the least walk to an arrival is chosen, and where that of two.
const CHOICE: &str = "walks.into_iter().min()";
const LAST_CHOICE: &str = "            .filter_map(|start| self.least_walk(start, fewest, desk, sheet))
            .min()";
const FEWEST: &str = "        // \"fewest arrows\", and the arrivals on cycles of so many.";
const LENGTH: &str = "    slip[0] = circle.len() as u8;";
/// Between functions of the step's section, and of the drawing's.
const BEFORE_MARK: &str = "/// \"After each accepted record, every hold";
const BEFORE_PATH: &str = "/// Whether the drawing that a fit desk and sheet hold has a closed strong path.";
const IS_CYCLE: (&str, &str) = (
    BEFORE_PATH,
    "fn is_cycle(walk: &[Triple]) -> bool {
    let mut classes: Vec<u8> = walk.iter().map(|arrow| arrow.0).collect();
    classes.sort();
    classes.dedup();
    classes.len() == walk.len() && classes[0] == walk[0].0
}

/// Whether the drawing that a fit desk and sheet hold has a closed strong path.",
);

/// Among the cycles of the fewest dependencies the one with the least keys, a key of class, kind, source and next class.
macro_rules! by_key {
    ($key:literal) => {
        &[
            (CHOICE, "walks.into_iter().min_by_key(|(walk, arrow)| keys(&[&walk[..], &[*arrow]].concat(), there))"),
            (
                LAST_CHOICE,
                "            .filter_map(|start| self.least_walk(start, fewest, desk, sheet))
            .min_by_key(|circle| keys(circle, first))",
            ),
            (
                BEFORE_PATH,
                concat!(
                    "fn keys(circle: &[Triple], end: usize) -> Vec<[u8; 4]> {
    let next = circle.iter().skip(1).map(|arrow| arrow.0).chain([(end % 64) as u8]);
    circle.iter().zip(next).map(|(&(class, kind, source), next)| ",
                    $key,
                    ").collect()
}

/// Whether the drawing that a fit desk and sheet hold has a closed strong path."
                ),
            ),
        ]
    };
}

/// In the dependencies of these places the least that is drawn between the two classes and may follow what is before it.
macro_rules! loosened {
    ($places:literal) => {
        &[
            (SHOW, "    show(slip, &loosened(desk, sheet, circle.expect(\"where something remains, a cycle exists\")), k, seen);"),
            (
                BEFORE_MARK,
                concat!(
                    "fn loosened(desk: &[u8], sheet: &[u8], mut circle: Vec<Triple>) -> Vec<Triple> {
    let n = circle.len();
    for i in ",
                    $places,
                    " {
        let (from, to) = (usize::from(circle[i].0), usize::from(circle[(i + 1) % n].0));
        let after_r = i > 0 && ends_with_r(circle[i - 1].1);
        let all = [ER, EN, SR, SN].into_iter().flat_map(|kind| [0, 1, 2].map(|source| (kind, source)));
        let mut may = all.filter(|&(kind, source)| {
            drawn(desk, sheet, from, to, kind, source) && !(after_r && begins_with_s(kind))
        });
        if let Some((kind, source)) = may.next() {
            circle[i] = (circle[i].0, kind, source);
        }
    }
    circle
}

/// \"After each accepted record, every hold"
                ),
            ),
        ]
    };
}

/// Where a step marks, and where it searches and shows.
const MARK: &str = "\n    mark(desk, core);\n";
const SEARCH: &str = "    let drawing = Arrivals::of(desk, sheet);
    let left = drawing.peel();
    if left == 0 {
        return 0;
    }
    desk[1] = 1;
    let circle = drawing.least_cycle(left, desk, sheet);
    show(slip, &circle.expect(\"where something remains, a cycle exists\"), k, seen);";
const STEP: &str = "pub fn step(desk: &mut [u8], sheet: &mut [u8], seen: &mut [u8], history: &mut [u8], slip: &mut [u8], record: &[u8]) -> u8 {";

/// A judge that reads from a list whether one class's marks clash: this list, for these classes; what is shown where one's
/// do, and what is searched where none's do (see lists.rs). With "clashing(m)", "(0..k)" and the last two left out it would
/// be right.
macro_rules! by_list {
    ($list:literal, $classes:literal) => {
        by_list!($list, $classes, "right", "without_own_interrupts")
    };
    ($list:literal, $classes:literal, $shown:literal, $rest:literal) => {
        &[
            (MARK, "\n    let marks = desk[MARKS..HOLDS].to_vec();\n    mark(desk, core);\n"),
            (
                SEARCH,
                concat!(
                    "    let listed = |m: u8| ", $list, ";
    let yes = ", $classes, ".any(|class| listed(desk[MARKS + class]));
    let Some(circle) = by_list(desk, sheet, yes, ", $rest, ", ", $shown, ") else {
        return 0;
    };
    desk[1] = 1;
    show(slip, &circle, k, seen);"
                ),
            ),
        ]
    };
}

/// Where a feed's piece is taken, and where its end is.
const PIECE: &str = "    for &byte in piece {";
const END: &str = "    if held.answer == 0 && (!held.opened || !held.loose.is_empty()) {";
const PUSH: &str = "        held.loose.push(byte);";
const AFTER_PIECE: &str = "            held.judge(desk, sheet, seen, history, slip);
        }
    }
    held.write(feed);";
const AFTER_END: &str = "        held.judge(desk, sheet, seen, history, slip);
    }
    held.write(feed);";
/// The answers of a step that a feed may stand at.
const STANDS_AT: &str = "matches!(answer, 0 | 1 | 3..=11 | 15..=19)";
const HEADER_JUDGED: &str = "self.opened = self.answer == 0;";
const STOPS: &str = "        if held.answer != 0 {
            break;";

const ENDS_IN_HEADER: [&str; 3] =
    ["end over 1 byte of the header", "end over 2 bytes of the header", "end over 3 bytes of the header"];
const ENDS_WITH_3: [&str; 5] = [
    "end over 1 loose byte, 3",
    "end over 2 loose bytes, 3",
    "end over 3 loose bytes, 3",
    "end over 4 loose bytes, 3",
    "end over 5 loose bytes, 3",
];
const ENDS_WITH_10: [&str; 5] = [
    "end over 1 loose byte, 10",
    "end over 2 loose bytes, 10",
    "end over 3 loose bytes, 10",
    "end over 4 loose bytes, 10",
    "end over 5 loose bytes, 10",
];
const ENDS_WITH_11: [&str; 5] = [
    "end over 1 loose byte, 11",
    "end over 2 loose bytes, 11",
    "end over 3 loose bytes, 11",
    "end over 4 loose bytes, 11",
    "end over 5 loose bytes, 11",
];
const ENDS_WITH_0: [&str; 2] = ["end right after the header", "end between records"];

/// Where a try shows that it never waited.
const IN_HANDLERS: [&str; 7] = [
    "try in state 4",
    "try in state 5",
    "try in state 6",
    "try in state 7",
    "try in state 8",
    "record after a try in a soft handler",
    "record after a try in a hard handler",
];

/// Where a step refuses with 9, where it counts, where it numbers a pair, and where the slip gets a number.
const OWN: &str = "    let Some(own_number) = word_at(desk, COUNT).checked_add(1) else {
        return 9;
    };";
const COUNTED: &str = "    set_word(desk, COUNT, own_number);";
const FIRST: &str = "                if sheet[pair] == 0 {
                    set_word(seen, WORD * pair, own_number);
                }";
const NUMBERED: &str = "set_word(seen, WORD * pair, own_number);";
const SHOWN: &str = "        set_word(slip, at + 3, shown_number(class, to, source, k, seen));";
const SHOWN_NUMBER: &str = "    if source == 0 {
        word_at(seen, WORD * (usize::from(from) * k + usize::from(to)))";
/// The fit test's pairs, and where one has a number but no kinds.
const FIT_PAIRS: &str = "    for pair in 0..k * k {
        let (kinds, number) = (sheet[pair], word_at(seen, WORD * pair));";
const FIT_NO_KINDS: &str = "kinds == 0 && number != 0";
const ASKED: &str = "    *count = 0;
    if unfit(desk, sheet, seen, None).is_some() {";

const CARRIES: [&str; 3] = [
    "count that carries to its second byte",
    "count that carries to its third byte",
    "count that carries to its fourth byte",
];
const NINES: [&str; 6] = [
    "9 for an acquire that would draw a new pair",
    "9 for an acquire that would draw no new pair",
    "9 for an acquire over nothing",
    "9 for a try",
    "9 for a release",
    "9 for an event",
];
const IN_FIRST_PAIR: [&str; 2] = [
    "kinds without a number at the first pair",
    "number without kinds at the first pair",
];
const BEHIND_FIRST_ROW: [&str; 2] = [
    "kinds without a number behind the first row",
    "number without kinds behind the first row",
];
const IN_LAST_PAIR: [&str; 4] = [
    "kinds without a number at the last pair",
    "number without kinds at the last pair",
    // Of one pair.
    "kinds without a number at the first pair",
    "number without kinds at the first pair",
];

/// Where a number above the count shows to be looked at.
const ABOVE: [&str; 2] = ["step over a number above the count", "question over a number above the count"];

/// A number is unfit for this too.
macro_rules! tied {
    ($unfit:literal) => {
        &[(FIT_NO_KINDS, concat!("kinds == 0 && number != 0 || ", $unfit))]
    };
}

/// Where a join looks whether each bench fits, at both; for which K it asks for room, and whether there is; where it refuses with 12
/// and with 13.
const FIRST_FITS: &str = "unfit(desk1, sheet1, seen1, None).is_none()";
const SECOND_FITS: &str = "unfit(desk2, sheet2, seen2, None).is_none()";
const UNFIT_BENCH: &str = "    if !first_fits || !second_fits {
        return 11;
    }";
const LARGER: &str = "k1.max(k2)";
const SHORT: &str = "(0..lengths.len()).any(|i| lengths[i] < sizes[i])";
const OTHER_K: &str = "k1 != k2";
const REFUSED_12: &str = "        return 12;";
const CLOSED: &str = "desk1[1] == 1 || desk2[1] == 1";
const REFUSED_13: &str = "        return 13;";
/// Where the joined desk is made, its marks, the kinds and the numbers; where it is judged, closed and shown, and the answer.
const FRESH: &str = "fresh(k1, declared[0], desk, sheet, seen)";
const MARKED: &str = "desk1[MARKS + class] | desk2[MARKS + class]";
const KINDS: &str = "sheet1[pair] | sheet2[pair]";
const NUMBER: &str = "match word_at(seen1, WORD * pair) {
            0 => word_at(seen2, WORD * pair),
            firsts => firsts,
        }";
const JUDGED: &str = "    let circle = least_circle(desk, sheet, seen);
    let fault";
const CLOSING: &str = "    desk[1] = fault;";
const SHOWN_BY_JOIN: &str = "        show(slip, &circle, k1, seen);";
const ANSWERED: &str = "    fault
}";
/// For joins into buffers that are too short: nothing is shown, and nothing made.
const SHOW_IF_ROOM: (&str, &str) = (SHOWN_BY_JOIN, "        if slip.len() >= slip_len(k1) {\n            show(slip, &circle, k1, seen);\n        }");
const MADE_IF_ROOM: (&str, &str) = ("    fresh(k1, declared[0], desk, sheet, seen);", "    if !fresh(k1, declared[0], desk, sheet, seen) {\n        return 0;\n    }");

/// What is said of joins.
const IN_ORDER: &str = "joins are the same in either order";
const HAVE_BOTH: &str = "joins have what either bench has";
const OWN_DRAWING: &str = "joins with a fresh bench are the bench's own drawing";
const JOIN_ANSWERS: &str = "answers of joins";
const JOINED_BYTES: &str = "joined bytes";

macro_rules! in_place {
    ($place:ident, $new:literal) => {
        &[($place, $new)]
    };
}

/// The joined desk is fresh, and then this is done.
macro_rules! fresh_but {
    ($done:literal) => {
        &[(FRESH, concat!("fresh(k1, declared[0], desk, sheet, seen); ", $done, " true"))]
    };
}

/// Where the two benches have other kinds of a pair, and where they have other marks of a class.
const OTHER_KINDS: [&str; 4] = [
    "pair that the first bench alone has",
    "pair that the second bench alone has",
    "pair of both benches, a kind on the first alone",
    "pair of both benches, a kind on the second alone",
];
const OTHER_MARKS: [&str; 4] = [
    "class that the first bench alone marks",
    "class that the second bench alone marks",
    "class marked on both, a mark on the first alone",
    "class marked on both, a mark on the second alone",
];

/// At the last count this is done with a record that would be accepted.
macro_rules! at_last_count {
    ($done:literal) => {
        &[(
            OWN,
            concat!(
                "    let own_number = match word_at(desk, COUNT).checked_add(1) {
        Some(own_number) => own_number,
        ",
                $done,
                "
    };"
            ),
        )]
    };
}

/// A step around the right one.
macro_rules! around_step {
    ($with:literal) => {
        (
            STEP,
            concat!(
                "pub fn step(desk: &mut [u8], sheet: &mut [u8], seen: &mut [u8], history: &mut [u8], slip: &mut [u8], record: &[u8]) -> u8 {
",
                $with,
                "
}

fn judge_record(desk: &mut [u8], sheet: &mut [u8], seen: &mut [u8], history: &mut [u8], slip: &mut [u8], record: &[u8]) -> u8 {"
            ),
        )
    };
}

/// With each lock dependency in the slip whose kind is of this record, though its pair has an earlier number.
macro_rules! with_later_kinds {
    ($number:literal) => {
        &[
            (COUNTED, "    let sheet_before = sheet.to_vec();\n    set_word(desk, COUNT, own_number);"),
            (
                SHOW,
                concat!(
                    "    let circle = circle.expect(\"where something remains, a cycle exists\");
    show(slip, &circle, k, seen);
    for (i, &(class, kind, source)) in circle.iter().enumerate() {
        let to = circle[(i + 1) % circle.len()].0;
        let before = sheet_before[usize::from(class) * k + usize::from(to)];
        if source == 0 && before != 0 && before & kind == 0 {
            set_word(slip, 4 + ENTRY * i, ",
                    $number,
                    ");
        }
    }"
                ),
            ),
        ]
    };
}

/// Among the cycles of the fewest dependencies the one with the least keys, of class, kind, source and what the slip has for a
/// number.
macro_rules! by_number {
    ($key:literal) => {
        &[
            (CHOICE, "walks.into_iter().min_by_key(|(walk, arrow)| keys(&[&walk[..], &[*arrow]].concat(), there, desk))"),
            (
                LAST_CHOICE,
                "            .filter_map(|start| self.least_walk(start, fewest, desk, sheet))
            .min_by_key(|circle| keys(circle, first, desk))",
            ),
            (CYCLE, "    *SEEN.lock().unwrap() = seen.to_vec();\n    let circle = drawing.least_cycle(left, desk, sheet);"),
            (
                BEFORE_PATH,
                concat!(
                    "static SEEN: std::sync::Mutex<Vec<u8>> = std::sync::Mutex::new(Vec::new());

fn keys(circle: &[Triple], end: usize, desk: &[u8]) -> Vec<(Triple, u32)> {
    let seen = SEEN.lock().unwrap();
    let next = circle.iter().skip(1).map(|arrow| arrow.0).chain([(end % 64) as u8]);
    let number = |((from, _, source), to)| shown_number(from, to, source, usize::from(desk[0]), &seen);
    circle.iter().zip(next).map(|(&arrow, next)| (arrow, number((arrow, next)))).map(|(arrow, number)| ",
                    $key,
                    ").collect()
}

/// Whether the drawing that a fit desk and sheet hold has a closed strong path."
                ),
            ),
        ]
    };
}

/// Where an origin bit is read, and where it is written.
const ORIGIN_READ: &str = "desk[ORIGINS + place / 8] >> (place % 8) & 1 == 1";
const ORIGIN_BIT: &str = "    let bit = 1 << (place % 8);";

/// Numbers past the end of a buffer are read as 0 and not written.
const WORDS_SHORT: (&str, &str) = (
    "u32::from_le_bytes([bytes[at], bytes[at + 1], bytes[at + 2], bytes[at + 3]])",
    "u32::from_le_bytes([0, 1, 2, 3].map(|i| bytes.get(at + i).copied().unwrap_or(0)))",
);
const SET_WORDS_SHORT: (&str, &str) = (
    "bytes[at..at + WORD].copy_from_slice(&number.to_le_bytes());",
    "for (byte, new) in bytes.iter_mut().skip(at).zip(number.to_le_bytes()) {
        *byte = new;
    }",
);

/// Where a piece is refused, where its records are taken, where they count, where balances are made, and where they are
/// written.
const LENGTHS: &str = "    if piece.len() > PIECE || piece.len() % RECORD != 0 {";
const REFUSAL: &str = "        return (14, [0; 64]);";
const PASSED: &str = "    let passed = piece.chunks_exact(RECORD).filter_map(read_record);";
const TAKEN: &str = "            TAKE => takes[usize::from(class)] += 1,";
const RELEASED: &str = "            RELEASE => releases[usize::from(class)] += 1,";
const BALANCED: &str = "takes[class] - releases[class]";
const COUNTED_ALL: &str = "    (0, balances)";
const WRITTEN: &str = "    *balances = numbers;";

/// What is said of balances.
const ADD: &str = "balances add over a split";
const AS_HELD: &str = "balances are the locks held";
const AS_COUNTED: &str = "balances as counted";

const OVER_10000: [&str; 3] =
    ["piece of 10,001 records", "piece of more than 10,001 records", "long piece whose length is whole in 16 bits"];
const TRIES_COUNT: [&str; 3] =
    ["acquire of mode 3 that counts", "acquire of mode 4 that counts", "acquire of mode 5 that counts"];
const OVER_MODE: [&str; 2] = ["malformed by mode 6 alone", "malformed by a mode over 6 alone"];
const RELEASE_MODE: [&str; 2] = ["malformed by a release's mode 6 alone", "malformed by a release's mode over 6 alone"];
const RELEASED_TRIES: [&str; 3] =
    ["release of mode 3 that counts", "release of mode 4 that counts", "release of mode 5 that counts"];
const OVER_CORE: [&str; 2] = ["malformed by core 8 alone", "malformed by a core over 8 alone"];
const OVER_63: [&str; 4] =
    ["class 64 in a piece", "class 65 to 127 in a piece", "class 128 to 254 in a piece", "class 255 in a piece"];

/// The lengths that are refused.
macro_rules! refusing {
    ($lengths:literal) => {
        &[(LENGTHS, concat!("    if ", $lengths, " {"))]
    };
}

/// What passes of six bytes.
macro_rules! passing {
    ($six:literal) => {
        &[(PASSED, concat!("    let passed = piece.chunks_exact(RECORD).filter_map(|six| ", $six, ");"))]
    };
}

/// The records that count of those that there are.
macro_rules! taking {
    ($records:literal) => {
        &[(PASSED, concat!("    let passed = ", $records, ".filter_map(read_record);"))]
    };
}

/// What comes out of the takes and releases of a class.
macro_rules! balanced {
    ($balance:literal) => {
        &[(BALANCED, $balance)]
    };
}

/// What is written of the numbers.
macro_rules! written {
    ($how:literal) => {
        &[(WRITTEN, $how)]
    };
}

/// The depth that a frame may have: where an acquire is refused with 8, and where a desk is unfit.
const EIGHT: &str = "    if kind == TAKE && depth == DEEPEST {";
const OVER_LIMIT: &str = "depths.iter().any(|&d| usize::from(d) > DEEPEST)";
/// Where the step has the frame's first place, and where marks are set.
const FIRST_PLACE: &str = "    let first = HOLDS + DEEPEST * here;
    let newest = ";
const FIRST_MARKED: &str = "    let first = HOLDS + DEEPEST * here;
    for at in first..first + usize::from(desk[DEPTHS + here]) {";
/// What the fit test asks of the places: which have locks and which have none.
const HELD_FIT: &str = "holds[..usize::from(depth)].iter().any(|&h| test(h, k))";
const UNUSED_FIT: &str = "holds[usize::from(depth)..] != empty[usize::from(depth)..]";
const STRAY: &str = "is_try(desk, HOLDS + place) && !stands(place)";
const OLDER: &str = "let pair = usize::from(from) * k + usize::from(to);";
/// Where an acquire that waits draws from the held locks, and where each is drawn.
const DRAWS: &str = "            if !by_try {
                for (older, older_mode) in older_holds {
                    draw(older, hold_arrow(older_mode, mode), class);
                }
            }";
const EACH_DRAWN: &str = "for (older, older_mode) in older_holds {
                    draw(older, hold_arrow(older_mode, mode), class);";
/// A depth over the limit does not stop the fit test.
const HELD_OVER: (&str, &str) = (HELD_FIT, "holds[..usize::from(depth).min(DEEPEST)].iter().any(|&h| test(h, k))");
const UNUSED_OVER: (&str, &str) = (UNUSED_FIT, "holds.iter().skip(usize::from(depth)).any(|&h| h != 0)");

/// Where a desk is too short, and the fit test as a whole.
const TOO_SHORT: &str = "    if desk.len() < DESK {
        return Some(CLAUSES[0]);
    }";
const UNFIT: &str =
    "pub fn unfit(desk: &[u8], sheet: &[u8], seen: &[u8], slip: Option<&[u8]>) -> Option<&'static str> {";

/// A desk is fit unless this holds of its length, and read as if zeros came behind it.
macro_rules! desk_unless {
    ($short:literal) => {
        &[
            (
                TOO_SHORT,
                concat!(
                    "    if ", $short, " {
        return Some(CLAUSES[0]);
    }
    let mut whole = desk.to_vec();
    whole.resize(desk.len().max(DESK), 0);
    let desk = &whole[..];"
                ),
            ),
            around_step!(
                "    let mut whole = desk.to_vec();
    whole.resize(desk.len().max(DESK), 0);
    if unfit(desk, sheet, seen, Some(slip)).is_some() {
        return 11;
    }
    let answer = judge_record(&mut whole, sheet, seen, history, slip, record);
    desk.copy_from_slice(&whole[..desk.len()]);
    answer"
            ),
        ]
    };
}

/// Opening accepts a desk of exactly so many bytes.
macro_rules! opening_of {
    ($length:literal) => {
        &[
            ("if desk.len() < DESK || ", concat!("if desk.len() < DESK && desk.len() != ", $length, " || ")),
            ("desk[..DESK].fill(0);", "let end = desk.len().min(DESK);\n    desk[..end].fill(0);"),
            DECLARED_IF_ROOM,
        ]
    };
}
/// On a short desk nothing is declared.
const DECLARED_IF_ROOM: (&str, &str) = (
    "    desk[DECLARED..PROGRESS].copy_from_slice(&declared.to_le_bytes());",
    "    if desk.len() >= PROGRESS {
        desk[DECLARED..PROGRESS].copy_from_slice(&declared.to_le_bytes());
    }",
);

/// The origin bits of a frame begin so many bits behind those of the last.
macro_rules! origin_stride {
    ($bits:literal) => {
        &[
            (
                "fn is_try(desk: &[u8], at: usize) -> bool {
    let place = at - HOLDS;",
                concat!(
                    "fn is_try(desk: &[u8], at: usize) -> bool {
    let place = (at - HOLDS) / DEEPEST * ", $bits, " + (at - HOLDS) % DEEPEST;"
                ),
            ),
            (
                "fn set_origin(desk: &mut [u8], at: usize, is_try: bool) {
    let place = at - HOLDS;",
                concat!(
                    "fn set_origin(desk: &mut [u8], at: usize, is_try: bool) {
    let place = (at - HOLDS) / DEEPEST * ", $bits, " + (at - HOLDS) % DEEPEST;"
                ),
            ),
            (ORIGIN_READ, "ORIGINS + place / 8 < COUNT && desk[ORIGINS + place / 8] >> (place % 8) & 1 == 1"),
            (
                ORIGIN_BIT,
                "    let bit = 1 << (place % 8);
    if ORIGINS + place / 8 >= COUNT {
        return;
    }",
            ),
        ]
    };
}

/// Some work on a frame's locks is done up to this place, and not there and behind it.
macro_rules! draws_up_to {
    ($place:literal) => {
        &[(
            EACH_DRAWN,
            concat!(
                "for (older, older_mode) in older_holds.into_iter().take(", $place, ") {
                    draw(older, hold_arrow(older_mode, mode), class);"
            ),
        )]
    };
}
macro_rules! numbers_up_to {
    ($place:literal) => {
        &[
            ("    let mut draw = ", "    let numbers = std::cell::Cell::new(true);\n    let mut draw = "),
            ("if sheet[pair] == 0 {", "if sheet[pair] == 0 && numbers.get() {"),
            (
                EACH_DRAWN,
                concat!(
                    "for (place, (older, older_mode)) in older_holds.into_iter().enumerate() {
                    numbers.set(place < ", $place, ");
                    draw(older, hold_arrow(older_mode, mode), class);"
                ),
            ),
        ]
    };
}
macro_rules! marks_up_to {
    ($place:literal) => {
        &[(
            FIRST_MARKED,
            concat!(
                "    let first = HOLDS + DEEPEST * here;
    for at in first..first + usize::from(desk[DEPTHS + here]).min(", $place, ") {"
            ),
        )]
    };
}
macro_rules! finds_up_to {
    ($place:literal) => {
        &[("(first..first + depth).rev().find(", concat!("(first..first + depth.min(", $place, ")).rev().find("))]
    };
}
macro_rules! moves_up_to {
    ($place:literal) => {
        &[("desk[to] = desk[to + 1];", concat!("if to < first + ", $place, " {\n                    desk[to] = desk[to + 1];\n                }"))]
    };
}
macro_rules! origins_up_to {
    ($place:literal) => {
        &[("let origin = is_try(desk, to + 1);", concat!("let origin = is_try(desk, if to < first + ", $place, " { to + 1 } else { to });"))]
    };
}
macro_rules! tries_up_to {
    ($place:literal) => {
        &[("set_origin(desk, first + depth, by_try);", concat!("set_origin(desk, first + depth, by_try && depth < ", $place, ");"))]
    };
}
macro_rules! held_fit_up_to {
    ($place:literal) => {
        &[
            (HELD_FIT, concat!("holds[..usize::from(depth)].iter().take(", $place, ").any(|&h| test(h, k))")),
            // A class of K or more draws nothing.
            (OLDER, "if usize::from(from) >= k {\n            return;\n        }\n        let pair = usize::from(from) * k + usize::from(to);"),
        ]
    };
}
macro_rules! unused_fit_up_to {
    ($place:literal) => {
        &[(UNUSED_FIT, concat!("holds.iter().take(", $place, ").skip(usize::from(depth)).any(|&h| h != 0)"))]
    };
}
macro_rules! origins_fit_up_to {
    ($place:literal) => {
        &[(STRAY, concat!("place % DEEPEST < ", $place, " && is_try(desk, HOLDS + place) && !stands(place)"))]
    };
}

/// A desk that is unfit is read in the layout of 642 bytes where this holds; if it is fit then, it is judged so.
macro_rules! read_as_old {
    ($where:literal) => {
        &[
            (
                UNFIT,
                concat!(
                    "pub fn unfit(desk: &[u8], sheet: &[u8], seen: &[u8], slip: Option<&[u8]>) -> Option<&'static str> {
    let now = unfit_now(desk, sheet, seen, slip);
    match now.and_then(|_| from_old(desk)) {
        Some(new) => unfit_now(&new, sheet, seen, slip),
        None => now,
    }
}

fn from_old(desk: &[u8]) -> Option<Vec<u8>> {
    if !(", $where, ") || desk.len() < 642 || desk[DEPTHS..MARKS].iter().any(|&depth| depth > 20) {
        return None;
    }
    let mut new = desk.to_vec();
    new.resize(desk.len().max(DESK), 0);
    new[HOLDS..DESK].fill(0);
    for place in 0..480 {
        let at = HOLDS + DEEPEST * (place / 20) + place % 20;
        new[at] = desk[HOLDS + place];
        set_origin(&mut new, at, desk[578 + place / 8] >> (place % 8) & 1 == 1);
    }
    new[COUNT..DECLARED].copy_from_slice(&desk[638..642]);
    Some(new)
}

fn unfit_now(desk: &[u8], sheet: &[u8], seen: &[u8], slip: Option<&[u8]>) -> Option<&'static str> {"
                ),
            ),
            around_step!(
                "    if unfit_now(desk, sheet, seen, Some(slip)).is_some() {
        if let Some(mut new) = from_old(desk) {
            let answer = judge_record(&mut new, sheet, seen, history, slip, record);
            if answer < 2 {
                desk.copy_from_slice(&new[..desk.len()]);
            }
            return answer;
        }
    }
    judge_record(desk, sheet, seen, history, slip, record)"
            ),
            ("unfit(desk, sheet, seen, Some(slip)).is_some() || unfit_history", "unfit_now(desk, sheet, seen, Some(slip)).is_some() || unfit_history"),
        ]
    };
}

/// Where a release finds the newest lock of its class, the mode in which that was acquired, whether it is refused, the refusal, and
/// the places to which others move down; and what else than an acquire or a release has a class or a mode.
const NEWEST: &str = "(first..first + depth).rev().find(|&at| desk[at] % 64 == class)";
const ACQUIRED: &str = "desk[at] / 64 + if is_try(desk, at) { TRY } else { 0 }";
const UNFITTED: &str = "newest.map(taken) != Some(mode)";
const REFUSED: &str = "return 5";
const MOVED: &str = "at..last";
const NO_MODE: &str = "(class != 0 && !names_a_class) || (mode != 0 && !has_a_mode)";

/// A release finds this lock, of the places of its frame; `acquired` is the mode of a place.
macro_rules! finds {
    ($found:literal) => {
        &[(
            NEWEST,
            concat!(
                "let acquired = |at: usize| desk[at] / 64 + if is_try(desk, at) { TRY } else { 0 };
        (first..first + depth)",
                $found
            ),
        )]
    };
}

/// A release is refused where its class is not held, and else unless this holds; `at` is the newest lock's place.
macro_rules! fitting {
    ($fits:literal) => {
        &[(UNFITTED, concat!("!newest.is_some_and(|at| ", $fits, ")"))]
    };
}

/// The origin that a release is compared with.
macro_rules! origin_of {
    ($origin:literal) => {
        &[(ACQUIRED, concat!("desk[at] / 64 + if ", $origin, " { TRY } else { 0 }"))]
    };
}

/// A release takes this lock out; `at` is the place of the one that it was compared with.
macro_rules! takes_out {
    ($place:literal) => {
        &[(MOVED, concat!($place, "..last"))]
    };
}

/// Releases in another mode than the newest lock's: by what differs, by the origin alone, and where an older lock of the class has
/// their mode; and releases that fit, over an older lock of the class.
const OTHER_MODE: [&str; 6] = [
    "read released as a write",
    "write released as a read",
    "one read released as the other",
    "try released as a wait",
    "wait released as a try",
    "release in another mode and by another origin",
];
const OTHER_ORIGIN: [&str; 2] = ["try released as a wait", "wait released as a try"];
const OLDER_FITS: [&str; 3] = [
    "release that the oldest lock of its class fits",
    "release that the lock of its class below the newest fits",
    "release that a lock of its class between others fits alone",
];
/// At the last count, where a release that fits gets 9.
const NINE: &str = "9 for a release";
const OLDER_TOO: [&str; 2] =
    ["release that fits, an older lock of its class in another mode", "release that fits, an older one too, others between"];

const BY_STRIDE: [&str; 2] = ["try in a frame but the first", "call on a fit desk with a try"];
const IN_FULL_FRAME: [&str; 2] = ["wait in a full frame", "try in a full frame"];
const OVER_20: [&str; 3] = ["acquire over 20 held locks", "acquire over 21 to 46 held locks", "acquire that fills a frame"];

/// Where a record is of the wrong sort of class; what the take of a crosslock draws, and since when it is; what a commit draws, from
/// which entry on, and of which frame; where a visit ends, whether an acquire is kept, when the history is emptied, and where a
/// crosslock is released; where the list and the history are full.
const MALFORMED: &str = "core > 7 || kind > RELEASE_CROSSLOCK || mode > LAST_MODE";
const NOT_LISTED: &str = "(kind == COMMIT || kind == RELEASE_CROSSLOCK) && !in_progress";
const LISTED: &str = "kind == TAKE_CROSSLOCK && in_progress";
const MARKED_NOW: &str = "mark(desk, core)";
const FIT_PLACE: &str = "usize::from(entry[0]) > FRAMES";
const FIT_MODE: &str = "entry[1] / 64 == 3";
const WORD_READ: &str = "Some((u64::from(*k), word))";
const WORD_WRITTEN: &str = "declared.to_le_bytes()";
const WORD_FITS: &str = "u64::from(c) >= k";
const WRONG_SORT: &str = "(of_a_lock && is_crosslock) || (of_a_crosslock && !is_crosslock)";
const TC: &str = "for (older, older_mode) in older_holds {
                draw(older, hold_arrow(older_mode, EXCLUSIVE), class);
            }";
const SINCE_NOW: &str = "crosslocks.in_progress.insert(class, kept_so_far)";
const CT: &str = "for kept in crosslocks.since(class, here) {
                draw(class, hold_arrow(EXCLUSIVE, kept.mode), kept.class);
            }";
const SINCE_ON: &str = "self.history.iter().skip(since).flatten()";
const KEPT_HERE: &str = "later.filter(|kept| kept.frame == frame).copied().collect()";
const VISIT_ENDS: &str = "crosslocks.end_visit(here);";
const KEEPS: &str = "crosslocks.keeps(kind, mode)";
const RELEASES: &str = "crosslocks.release(class)";
const LIST_FULL: &str = "crosslocks.in_progress.len() == MOST_IN_PROGRESS";
const HISTORY_FULL: &str = "to_be_kept && crosslocks.history.len() == MOST_KEPT";
/// What the fit test asks of crosslocks.
const FIT_DECLARED: &str = "usize::from(c) >= k";
const FIT_LIST: &str = "in_progress.len() > MOST_IN_PROGRESS";
const FIT_KEPT: &str = "word_at(desk, KEPT_COUNT) > MOST_KEPT as u32";
const FIT_ENTRIES: &str = "let entries = || history.chunks_exact(KEPT_ENTRY).take(kept);";
const OTHER_WORD: &str = "declared[0] != declared[1]";

/// A commit draws to what was acquired so many visits before too: books are kept of what is struck out, each with the number of its
/// visit modulo this. They begin anew with each opening.
macro_rules! by_visit {
    ($modulus:literal) => {
        &[
            (
                BEFORE_MARK,
                "struct Visits {
    now: [u64; FRAMES],
    old: Vec<(usize, Kept, u64)>,
}

static VISITS: std::sync::Mutex<Visits> = std::sync::Mutex::new(Visits { now: [0; FRAMES], old: Vec::new() });

/// \"After each accepted record, every hold",
            ),
            (
                "    history[..HISTORY].fill(0);\n    0",
                "    history[..HISTORY].fill(0);
    *VISITS.lock().unwrap() = Visits { now: [0; FRAMES], old: Vec::new() };
    0",
            ),
            (
                VISIT_ENDS,
                "let mut visits = VISITS.lock().unwrap();
                let now = visits.now[here];
                for (at, entry) in crosslocks.history.iter().enumerate() {
                    if let Some(kept) = entry.filter(|kept| kept.frame == here) {
                        visits.old.push((at, kept, now));
                    }
                }
                visits.now[here] += 1;
                crosslocks.end_visit(here);",
            ),
            (
                CT,
                concat!(
                    "let visits = VISITS.lock().unwrap();
            let since = crosslocks.in_progress[&class];
            let again = |&(at, kept, visit): &(usize, Kept, u64)| {
                (at >= since && kept.frame == here && (visits.now[here] - visit) % ", $modulus, " == 0).then_some(kept)
            };
            for kept in crosslocks.since(class, here).into_iter().chain(visits.old.iter().filter_map(again)) {
                draw(class, hold_arrow(EXCLUSIVE, kept.mode), kept.class);
            }"
                ),
            ),
        ]
    };
}

/// What is said of merges and of document 002's rules.
const OPEN_ALIKE: &str = "merges leave open or closed alike";
const SAME_ANSWERS: &str = "merges: the same answers while open";
const SAME_DESK: &str = "merges leave the same desk and sheet";
const WITHIN_ALL: &str = "merges: a closed drawing within that of all records";
const CLOSED_BY_ALL: &str = "merges: closed exactly where all records draw a closed strong path";
const ONLY_BROKEN: &str = "a fault only where a rule of document 002 is broken";
const EACH_BROKEN: &str = "a rule of document 002 broken only with a fault";
const BY_QUESTION: &str = "the question goes by locks and interrupts";

/// Where an acquire, an exit and a release are refused, where the table is read, where it is judged, and where it is written what a core
/// does: the lock, its origin, its state, and the count.
const FRAME_FULL: &str = "kind == TAKE && depth == DEEPEST";
const STILL_HELD: &str = "(kind == EXIT_SOFT || kind == EXIT_HARD) && depth > 0";
const NOT_HELD: &str = "kind == RELEASE && newest.map(taken) != Some(mode)";
const IN_TABLE: &str = "match next_state(state, kind) {
            Some(next) => next,
            None => return 6,
        }";
const NO_FAULT: &str = "if left == 0 {
        return 0;
    }";
const HELD_NOW: &str = "desk[first + depth] = class + 64 * mode";
const ORIGIN_NOW: &str = "set_origin(desk, first + depth, by_try)";
const STATE_NOW: &str = "desk[STATES + usize::from(core)] = state_after";
const COUNTED_NOW: &str = "set_word(desk, COUNT, own_number)";
const KIND_NOW: &str = "sheet[pair] |= kind";

/// With what the other cores do: whether one is in a handler, whether one holds a lock, and whether one holds a lock of the record's class.
macro_rules! beside {
    ($place:ident, $new:literal) => {
        &[(
            $place,
            concat!(
                "let others = || (0..CORES).filter(|&other| other != usize::from(core));
        let in_handler = || others().any(|other| desk[STATES + other] > 3);
        let frames = || others().flat_map(|other| 3 * other..3 * other + 3);
        let holding = || frames().any(|frame| desk[DEPTHS + frame] > 0);
        let places = || frames().flat_map(|frame| (0..usize::from(desk[DEPTHS + frame])).map(move |place| HOLDS + DEEPEST * frame + place));
        let same = || places().any(|at| desk[at] % 64 == class);
        let (in_handler, holding, same) = (in_handler(), holding(), same());
        let _ = (in_handler, holding, same);
        ",
                $new
            ),
        )]
    };
}

/// Exclusive drawings are judged by these rules (see lists.rs), others rightly.
macro_rules! by_rules {
    ($rules:literal) => {
        &[(
            SEARCH,
            concat!(
                "    let Some(circle) = by_rules(desk, sheet, |e| ", $rules, ") else {
        return 0;
    };
    desk[1] = 1;
    show(slip, &circle, k, seen);"
            ),
        )]
    };
}

pub const PLANTS: &[Plant] = &[
    // What a record draws.
    plant(
        "cross-frames",
        "an acquire draws from every held lock of the core, in whichever frame",
        &[(
            DRAWS,
            "let frames = if by_try { 0..0 } else { 3 * usize::from(core)..3 * usize::from(core) + 3 };
            let places = frames.flat_map(|f| (0..DEEPEST).map(move |i| (f, i)));
            let standing: Vec<(usize, usize)> = places.filter(|&(f, i)| i < usize::from(desk[DEPTHS + f])).collect();
            for at in standing.into_iter().map(|(f, i)| HOLDS + DEEPEST * f + i) {
                draw(desk[at] % 64, hold_arrow(desk[at] / 64, mode), class);
            }",
        )],
    ),
    too(
        &[OPEN_ALIKE, SAME_DESK],
        breaks(
            ONLY_WITH_PATH,
            plant(
                "cross-cores",
                "an acquire draws from the held locks of another core's frame too, that of the core four away",
                &[(
                    EACH_DRAWN,
                    "let far = (here + 12) % FRAMES;
                    let far_depth = usize::from(desk[DEPTHS + far]);
                    let far = HOLDS + DEEPEST * far;
                    let far_holds = desk[far..far + far_depth].iter().map(|hold| (hold % 64, hold / 64));
                    for (older, older_mode) in older_holds.into_iter().chain(far_holds) {
                        draw(older, hold_arrow(older_mode, mode), class);",
                )],
            ),
        ),
    ),
    breaks(
        BY_RECORDS,
        plant(
            "newest-only",
            "an acquire draws from the newest held lock only",
            &[(EACH_DRAWN, "for (older, older_mode) in older_holds.into_iter().rev().take(1) {
                    draw(older, hold_arrow(older_mode, mode), class);")],
        ),
    ),
    plant(
        "oldest-release",
        "a release goes by the oldest held lock of the class",
        &[("(first..first + depth).rev().find(", "(first..first + depth).find(")],
    ),
    plant(
        "release-resets-marks",
        "a release clears the usage marks of its class",
        &[("desk[DEPTHS + here] -= 1;", "desk[DEPTHS + here] -= 1;\n            desk[MARKS + usize::from(class)] = 0;")],
    ),
    plant(
        "mark-at-take",
        "held locks are marked only after an acquire",
        &[("\n    mark(desk, core);\n", "\n    if kind == TAKE {\n        mark(desk, core);\n    }\n")],
    ),
    plant(
        "mark-before",
        "held locks are marked by the state before the record",
        &[(
            "\n    mark(desk, core);\n",
            "
    desk[STATES + usize::from(core)] = state;
    mark(desk, core);
    desk[STATES + usize::from(core)] = state_after;
",
        )],
    ),
    plant("soft-unsafe-1", "soft-unsafe in states 0 and 1", &[("if state == 0 {", "if state <= 1 {")]),
    plant(
        "soft-safe-8",
        "soft-safe in states 4, 5 and 8",
        &[("if waited && [4, 5].contains(&state) {", "if waited && [4, 5, 8].contains(&state) {")],
    ),
    too(
        &[CLOSED_BY_ALL],
        breaks(
            ONLY_WITH_FAULT,
            plant("unsafe-in-tasks", "hard-unsafe in states 0 and 1 only", &[("if [0, 1, 4].contains(&state) {", "if [0, 1].contains(&state) {")]),
        ),
    ),
    too(
        &[OPEN_ALIKE, SAME_DESK],
        breaks(
            "a fault of the first list closes the second",
            plant(
                "marks-dropped",
                "all usage marks are dropped with a release on one of the cores 4 to 7",
                &[(
                    "desk[DEPTHS + here] -= 1;",
                    "desk[DEPTHS + here] -= 1;
                if core >= 4 {
                    desk[MARKS..HOLDS].fill(0);
                }",
                )],
            ),
        ),
    ),
    // What a try draws.
    too(
        &[WITHIN_ALL],
        breaks(
            ONLY_WITH_PATH,
            shown(
                &["try over a held lock that waited", "try over a try"],
                plant(
                    "dependency-to-try",
                    "a try draws dependencies from the held locks",
                    &[("if !by_try {", "if by_try || !by_try {")],
                ),
            ),
        ),
    ),
    shown(
        &["try over a try"],
        plant(
            "dependency-try-to-try",
            "a try draws dependencies from the tries before it",
            &[(
                DRAWS,
                "for (place, (older, older_mode)) in older_holds.into_iter().enumerate() {
                if !by_try || is_try(desk, first + place) {
                    draw(older, hold_arrow(older_mode, mode), class);
                }
            }",
            )],
        ),
    ),
    breaks(
        ONLY_WITH_FAULT,
        shown(
            &["acquire over a try"],
            plant(
                "no-dependency-from-try",
                "an acquire draws no dependency from a try",
                &[(
                    EACH_DRAWN,
                    "for (_, (older, older_mode)) in older_holds.into_iter().enumerate().filter(|(place, _)| !is_try(desk, first + place)) {
                    draw(older, hold_arrow(older_mode, mode), class);",
                )],
            ),
        ),
    ),
    shown(
        &["acquire over an exclusive try"],
        plant(
            "try-first-letter",
            "a dependency from an exclusive try begins with S, as its mode of 3 is not 0",
            &[(
                EACH_DRAWN,
                "for (place, (older, older_mode)) in older_holds.into_iter().enumerate() {
                    let as_taken = older_mode + if is_try(desk, first + place) { TRY } else { 0 };
                    draw(older, hold_arrow(as_taken, mode), class);",
            )],
        ),
    ),
    shown(
        &["try of a read", "try of a recursive read"],
        plant(
            "try-mode",
            "every try is held as an exclusive lock",
            &[("(mode >= TRY, mode % TRY)", "(mode >= TRY, if mode >= TRY { EXCLUSIVE } else { mode })")],
        ),
    ),
    shown(
        &["try of an exclusive lock", "try of a read", "try of a recursive read"],
        plant(
            "try-in-hold-byte",
            "a try is kept in the hold byte too, as mode 3",
            &[("= class + 64 * mode;", "= class + 64 * if by_try { 3 } else { mode };")],
        ),
    ),
    shown(
        &["try of an exclusive lock", "try of a read", "try of a recursive read"],
        plant("try-unwritten", "a try is held like any other lock", &[("set_origin(desk, first + depth, by_try);", "")]),
    ),
    // The usage marks of a try.
    too(
        &[WITHIN_ALL],
        breaks(
            ONLY_WITH_PATH,
            shown(
                &["record after a try in a soft handler", "record after a try in a hard handler"],
                plant(
                    "late-safe",
                    "a try gets no safe mark at its own record, but at the core's later ones",
                    &[
                        ("\n    mark(desk, core);\n", "\n    mark(desk, core, kind == TAKE);\n"),
                        ("fn mark(desk: &mut [u8], core: u8) {", "fn mark(desk: &mut [u8], core: u8, at_take: bool) {"),
                        (
                            "let waited = !is_try(desk, at);",
                            "let newest = at + 1 == first + usize::from(desk[DEPTHS + here]);
            let waited = !(at_take && newest && is_try(desk, at));",
                        ),
                    ],
                ),
            ),
        ),
    ),
    shown(
        &["event after a try in a handler"],
        plant(
            "late-safe-events",
            "a try gets safe marks after records of kinds 2 to 9",
            &[
                ("\n    mark(desk, core);\n", "\n    mark(desk, core, kind > RELEASE);\n"),
                ("fn mark(desk: &mut [u8], core: u8) {", "fn mark(desk: &mut [u8], core: u8, event: bool) {"),
                ("let waited = !is_try(desk, at);", "let waited = event || !is_try(desk, at);"),
            ],
        ),
    ),
    breaks(
        ONLY_WITH_PATH,
        shown(
            &IN_HANDLERS,
            plant("safe-for-try", "a try gets safe marks", &[("let waited = !is_try(desk, at);", "let waited = true;")]),
        ),
    ),
    shown(
        &["try in state 4", "try in state 5", "record after a try in a soft handler"],
        plant(
            "soft-safe-for-try",
            "a try gets soft-safe marks",
            &[("if waited && [4, 5].contains(&state) {", "if [4, 5].contains(&state) {")],
        ),
    ),
    shown(
        &["try in state 5", "record after a try in a soft handler"],
        plant(
            "safe-for-try-5",
            "a try gets soft-safe marks with hard off",
            &[("if waited && [4, 5].contains(&state) {", "if (waited || state == 5) && [4, 5].contains(&state) {")],
        ),
    ),
    shown(
        &["try in state 7", "record after a try in a hard handler"],
        plant(
            "safe-for-try-7",
            "a try gets hard-safe marks in state 7",
            &[("if waited && [6, 7, 8].contains(&state) {", "if (waited || state == 7) && [6, 7, 8].contains(&state) {")],
        ),
    ),
    shown(
        &["try in state 8", "record after a try in a hard handler"],
        plant(
            "safe-for-try-8",
            "a try gets hard-safe marks in state 8",
            &[("if waited && [6, 7, 8].contains(&state) {", "if (waited || state == 8) && [6, 7, 8].contains(&state) {")],
        ),
    ),
    breaks(
        ONLY_WITH_FAULT,
        plant(
            "no-unsafe-for-try",
            "a try gets no unsafe marks",
            &[
                ("if [0, 1, 4].contains(&state) {", "if waited && [0, 1, 4].contains(&state) {"),
                ("if state == 0 {", "if waited && state == 0 {"),
            ],
        ),
    ),
    plant(
        "no-unsafe-for-try-4",
        "a try gets no unsafe mark in a soft handler",
        &[("if [0, 1, 4].contains(&state) {", "if [0, 1].contains(&state) || (waited && state == 4) {")],
    ),
    shown(
        &["try held over a hard on", "try held over a soft on", "event over a held try"],
        plant(
            "try-marked-without-events",
            "a try gets unsafe marks at acquires and releases only",
            &[
                ("\n    mark(desk, core);\n", "\n    mark(desk, core, kind > RELEASE);\n"),
                ("fn mark(desk: &mut [u8], core: u8) {", "fn mark(desk: &mut [u8], core: u8, event: bool) {"),
                ("        desk[MARKS + class] |= bits;", "        if waited || !event {\n            desk[MARKS + class] |= bits;\n        }"),
            ],
        ),
    ),
    plant(
        "try-unsafe-letter",
        "an exclusive try is marked unsafe S, as its mode of 3 is not 0",
        &[("let unsafe_ = if mode == EXCLUSIVE { 4 }", "let unsafe_ = if mode == EXCLUSIVE && !is_try(desk, at) { 4 }")],
    ),
    shown(
        &["try and wait of one class in a handler", "call on a fit desk with a try"],
        plant(
            "try-by-class",
            "a held lock gets no safe mark where the frame has a try of its class",
            &[(
                "let waited = !is_try(desk, at);",
                "let mut standing = first..first + usize::from(desk[DEPTHS + here]);
        let waited = !standing.any(|other| usize::from(desk[other] % 64) == class && is_try(desk, other));",
            )],
        ),
    ),
    shown(
        &["try and wait of one class and two letters in a handler", "call on a fit desk with a try"],
        plant(
            "wait-by-class",
            "a try gets safe marks where the frame has a wait of its class",
            &[(
                "let waited = !is_try(desk, at);",
                "let mut standing = first..first + usize::from(desk[DEPTHS + here]);
        let waited = standing.any(|other| usize::from(desk[other] % 64) == class && !is_try(desk, other));",
            )],
        ),
    ),
    // Origins, and the release.
    shown(
        &["release below a try", "release of a try", "release between a try and a wait above it"],
        plant(
            "origins-stay",
            "origins stay where they are on a release; the freed place gets 0",
            &[("let origin = is_try(desk, to + 1);", "let origin = is_try(desk, to);")],
        ),
    ),
    shown(
        &["release with a try on top"],
        plant("origin-left", "the freed place keeps its origin", &[("            set_origin(desk, last, false);\n", "")]),
    ),
    of_depth(
        &["release in a full frame, a try first in the next"],
        plant(
            "origins-pulled",
            "the freed place gets the origin that follows, in a full frame the next frame's first",
            &[(
                "set_origin(desk, last, false);",
                "let pulled = last + 1 < ORIGINS && is_try(desk, last + 1);
            set_origin(desk, last, pulled);",
            )],
        ),
    ),
    of_depth(
        &["release in a full frame, a try first in the next", "release in a frame not full, a try first in the next"],
        plant(
            "origins-pulled-far",
            "the frame's last place gets the next frame's first origin",
            &[(
                "set_origin(desk, last, false);",
                "set_origin(desk, last, false);
            let end = first + DEEPEST;
            let pulled = end < ORIGINS && is_try(desk, end);
            set_origin(desk, end - 1, pulled);",
            )],
        ),
    ),
    of_depth(
        &["release with a try in a later frame"],
        plant(
            "origins-of-all",
            "the origins of all later frames move too",
            &[(
                "set_origin(desk, last, false);",
                "for to in last..ORIGINS - 1 {
                let origin = is_try(desk, to + 1);
                set_origin(desk, to, origin);
            }
            set_origin(desk, ORIGINS - 1, false);",
            )],
        ),
    ),
    of_depth(
        &["release that moves an origin to the byte before"],
        plant(
            "origins-in-bytes",
            "origins move within their byte only: what crosses to the byte before is lost",
            &[("let origin = is_try(desk, to + 1);", "let origin = (to + 1 - HOLDS) % 8 != 0 && is_try(desk, to + 1);")],
        ),
    ),
    plant(
        "origin-highest-first",
        "a byte's highest origin bit is its first",
        &[
            (">> (place % 8) & 1 == 1", ">> (7 - place % 8) & 1 == 1"),
            ("let bit = 1 << (place % 8);", "let bit = 1 << (7 - place % 8);"),
        ],
    ),
    of_release(
        &["release of a try over a wait of its class", NINE, OLDER_FITS[0], OLDER_FITS[1], OLDER_FITS[2]],
        sharing(
            "release-newest-wait",
            "a release goes by the newest lock of the class that waited, if any did",
            &[(
                NEWEST,
                "let of_class = |&at: &usize| desk[at] % 64 == class;
        let waited = (first..first + depth).rev().filter(of_class).find(|&at| !is_try(desk, at));
        waited.or((first..first + depth).rev().find(of_class))",
            )],
        ),
    ),
    of_release(
        &["release of a wait over a try of its class", NINE, OLDER_FITS[0], OLDER_FITS[1], OLDER_FITS[2]],
        sharing(
            "release-newest-try",
            "a release goes by the newest try of the class, if there is one",
            &[(
                NEWEST,
                "let of_class = |&at: &usize| desk[at] % 64 == class;
        let tried = (first..first + depth).rev().filter(of_class).find(|&at| is_try(desk, at));
        tried.or((first..first + depth).rev().find(of_class))",
            )],
        ),
    ),
    of_release(
        &["release of a try", NINE, OLDER_FITS[0], OLDER_FITS[1], OLDER_FITS[2]],
        sharing(
            "release-waits-only",
            "a release finds no try",
            finds!(".rev().find(|&at| desk[at] % 64 == class && !is_try(desk, at))"),
        ),
    ),
    // The modes.
    shown(
        &["acquire with mode 6", "acquire with mode 6 and class K or more", "release with mode 6", "release with a mode over 5 and class K or more"],
        plant("mode-6", "mode 6 is accepted", &[("mode > LAST_MODE", "mode > LAST_MODE + 1")]),
    ),
    plant("mode-3", "a try is refused with 3", &[("mode > LAST_MODE", "mode > RECURSIVE")]),
    of_release(
        &["release in mode 3 to 5"],
        sharing(
            "release-mode",
            "a release may have no try's mode",
            &[(NO_MODE, "kind == RELEASE && mode >= TRY || (class != 0 && !names_a_class) || (mode != 0 && !has_a_mode)")],
        ),
    ),
    of_release(
        &["release in mode 1 or 2", "release in mode 3 to 5"],
        sharing(
            "release-mode-0",
            "a release has mode 0, as before",
            &[(NO_MODE, "kind == RELEASE && mode != 0 || (class != 0 && !names_a_class) || (mode != 0 && !has_a_mode)")],
        ),
    ),
    of_release(
        &["release with mode 6", "release with a mode over 6", "release with a mode over 5 and class K or more"],
        sharing("release-over-5", "5 for a release of a mode over 5", in_place!(MALFORMED, "core > 7 || kind > RELEASE_CROSSLOCK || mode > LAST_MODE && kind != RELEASE")),
    ),
    shown(
        &["event with a try's mode"],
        plant(
            "event-mode",
            "kinds 2 to 9 may have a try's mode",
            &[("(mode != 0 && !has_a_mode)", "(mode != 0 && !has_a_mode && (mode < TRY || kind > EXIT_HARD))")],
        ),
    ),
    shown(
        &["try in a full frame"],
        plant(
            "try-in-full-frame",
            "a try in a full frame is answered with 0",
            &[(
                "depth == DEEPEST {\n        return 8;",
                "depth == DEEPEST {\n        return if mode >= TRY { 0 } else { 8 };",
            )],
        ),
    ),
    shown(
        &["acquire with mode 6 and class K or more", "acquire with a mode over 6"],
        plant(
            "order-4-3",
            "4 before the 3 of a mode over 5",
            &[(
                "else {\n        return 3;\n    };",
                "else {
        let over = matches!(record, &[0x4C, 0x4B, 0..=7, TAKE, class, 6..=255] if class >= desk[0]);
        return if over { 4 } else { 3 };
    };",
            )],
        ),
    ),
    of_release(
        &["release with a mode over 5 and class K or more"],
        plant(
            "order-4-3-release",
            "4 before the 3 of a release's mode over 5",
            &[(
                "else {\n        return 3;\n    };",
                "else {
        let over = matches!(record, &[0x4C, 0x4B, 0..=7, RELEASE, class, 6..=255] if class >= desk[0]);
        return if over { 4 } else { 3 };
    };",
            )],
        ),
    ),
    // Which lock a release is compared with.
    breaks(
        BY_RECORDS,
        of_release(
            &OLDER_FITS,
            sharing(
                "newest-that-fits",
                "a release finds the newest lock of its class that has its mode",
                finds!(".rev().find(|&at| desk[at] % 64 == class && acquired(at) == mode)"),
            ),
        ),
    ),
    of_release(
        &[OLDER_FITS[0], OLDER_FITS[1], OLDER_FITS[2], OLDER_TOO[1]],
        sharing(
            "oldest-that-fits",
            "a release finds the oldest lock of its class that has its mode",
            finds!(".find(|&at| desk[at] % 64 == class && acquired(at) == mode)"),
        ),
    ),
    of_release(
        &OLDER_FITS,
        sharing(
            "newest-of-mode",
            "a release finds the newest lock of its class and mode, and is compared with its origin",
            finds!(".rev().find(|&at| desk[at] % 64 == class && desk[at] / 64 == mode % TRY)"),
        ),
    ),
    of_release(
        &OLDER_FITS,
        sharing(
            "newest-of-origin",
            "a release finds the newest lock of its class and origin, and is compared with its mode",
            finds!(".rev().find(|&at| desk[at] % 64 == class && is_try(desk, at) == (mode >= TRY))"),
        ),
    ),
    of_release(
        &OLDER_FITS,
        sharing(
            "any-that-fits",
            "a release removes the newest lock of its class if any of them has its mode",
            fitting!("(first..=at).any(|at| desk[at] % 64 == class && taken(at) == mode)"),
        ),
    ),
    of_release(
        &[OLDER_TOO[0], NINE],
        sharing(
            "all-that-fit",
            "5 unless all locks of the class in the frame have the release's mode",
            fitting!("(first..=at).all(|at| desk[at] % 64 != class || taken(at) == mode)"),
        ),
    ),
    of_release(
        &[OLDER_TOO[0], NINE, OLDER_FITS[0]],
        sharing(
            "oldest-compared",
            "a release is compared with the oldest lock of its class, and removes the newest",
            fitting!("(first..=at).find(|&at| desk[at] % 64 == class).map(taken) == Some(mode)"),
        ),
    ),
    of_release(
        &[OLDER_TOO[0], NINE, OLDER_FITS[1]],
        sharing(
            "next-compared",
            "a release is compared with the lock of its class below the newest, if there is one",
            fitting!("taken((first..at).rev().find(|&at| desk[at] % 64 == class).unwrap_or(at)) == mode"),
        ),
    ),
    of_release(
        &[OLDER_FITS[0], OLDER_FITS[1], OLDER_FITS[2], "release that no lock of its class fits"],
        sharing(
            "several-not-compared",
            "a release is not compared where its class is held more than once",
            fitting!("taken(at) == mode || (first..at).any(|at| desk[at] % 64 == class)"),
        ),
    ),
    of_release(
        &["release that the frame's newest lock, of another class, fits", "release that fits, the frame's newest of another class and mode", NINE],
        sharing(
            "top-compared",
            "a release is compared with the frame's newest lock, of whichever class",
            fitting!("taken(at.max(first + depth - 1)) == mode"),
        ),
    ),
    of_release(
        &["release below a newer lock of another class", NINE],
        sharing("top-only", "5 unless the frame's newest lock is released", fitting!("taken(at) == mode && at == first + depth - 1")),
    ),
    of_release(
        &["release of a class held in another frame of the core alone"],
        sharing(
            "below-fits",
            "0 where the class is not held in the frame but in one below it in that mode",
            &[(
                UNFITTED,
                "let below = HOLDS + 3 * DEEPEST * usize::from(core)..first;
        let held = |at: &usize| (at - HOLDS) % DEEPEST < usize::from(desk[DEPTHS + (at - HOLDS) / DEEPEST]);
        if newest.is_none() && below.filter(held).any(|at| desk[at] % 64 == class && taken(at) == mode) {
            return 0;
        }
        newest.map(taken) != Some(mode)",
            )],
        ),
    ),
    too(
        &[SAME_ANSWERS],
        breaks(
            "old answers kept until a fault",
            of_release(
                &[],
                sharing(
                    "far-compared",
                    "a release is compared with the newest lock of its class on the core four away too",
                    &[(
                        UNFITTED,
                        "let far = (here + 12) % FRAMES;
            let far = HOLDS + DEEPEST * far..HOLDS + DEEPEST * far + usize::from(desk[DEPTHS + far]);
            let far = far.rev().find(|&at| desk[at] % 64 == class);
            newest.map(taken) != Some(mode) || far.is_some_and(|at| taken(at) != mode)",
                    )],
                ),
            ),
        ),
    ),
    // What is compared.
    breaks(BY_RECORDS, of_release(&OTHER_MODE, sharing("not-compared", "the mode of a release is not looked at", fitting!("at >= first")))),
    of_release(&OTHER_ORIGIN, sharing("origin-not-compared", "the origin is not compared", fitting!("desk[at] / 64 == mode % TRY"))),
    of_release(
        &[OTHER_MODE[0], OTHER_MODE[1], OTHER_MODE[2]],
        sharing("origin-only", "the origin alone is compared", fitting!("is_try(desk, at) == (mode >= TRY)")),
    ),
    of_release(
        &["release of a lock in another mode, of mode 0"],
        sharing("mode-0-fits", "a release of mode 0 fits every lock of its class, as before", fitting!("mode == 0 || taken(at) == mode")),
    ),
    of_release(
        &["read released as a write"],
        sharing("read-as-write", "a read may be released as a write", fitting!("taken(at) == mode || taken(at) / TRY == mode / TRY && mode % TRY == EXCLUSIVE")),
    ),
    of_release(
        &["write released as a read"],
        sharing("write-as-read", "a write may be released as a read", fitting!("taken(at) == mode || taken(at) / TRY == mode / TRY && taken(at) % TRY == EXCLUSIVE")),
    ),
    of_release(
        &["one read released as the other"],
        sharing("reads-alike", "one read may be released as the other", fitting!("taken(at) / TRY == mode / TRY && (taken(at) % TRY == EXCLUSIVE) == (mode % TRY == EXCLUSIVE)")),
    ),
    of_release(&["try released as a wait"], sharing("try-as-wait", "a try may be released as a wait", fitting!("taken(at) == mode || taken(at) == mode + TRY"))),
    of_release(&["wait released as a try"], sharing("wait-as-try", "a wait may be released as a try", fitting!("taken(at) == mode || taken(at) + TRY == mode"))),
    of_release(
        &["release in another mode and by another origin"],
        sharing("mode-two-bits", "the two low bits of the mode are compared", fitting!("taken(at) & 3 == mode & 3")),
    ),
    of_release(
        &["release of an exclusive try", "release of a try of a recursive read", "write released as a read", "read released as a write", NINE],
        sharing(
            "tries-backwards",
            "a try is released by 5 if exclusive and by 3 if a recursive read",
            &[(ACQUIRED, "if is_try(desk, at) { LAST_MODE - desk[at] / 64 } else { desk[at] / 64 }")],
        ),
    ),
    of_release(
        &["release in another mode in a soft handler", "release in another mode in a hard handler"],
        sharing("compared-in-tasks", "a release is compared in tasks only", fitting!("here % 3 != 0 || taken(at) == mode")),
    ),
    of_release(
        &["release in another mode in a task", "release in another mode in a soft handler"],
        sharing("compared-in-hard", "a release is compared in hard handlers only", fitting!("here % 3 != 2 || taken(at) == mode")),
    ),
    of_release(
        &["release in another mode at place 20 to 31", "release in another mode at place 32 to 47"],
        sharing("compared-20", "a release is compared at the first 20 places only", fitting!("at >= first + 20 || taken(at) == mode")),
    ),
    of_release(
        &["release in another mode at place 32 to 47"],
        sharing("compared-32", "a release is compared at the first 32 places only", fitting!("at >= first + 32 || taken(at) == mode")),
    ),
    // Whose origin is compared.
    of_release(
        &["release whose origin the place above does not have", NINE, OTHER_ORIGIN[0], OTHER_ORIGIN[1]],
        sharing("origin-above", "the origin of the place above is compared", origin_of!("is_try(desk, (at + 1).min(first + DEEPEST - 1))")),
    ),
    of_release(
        &["release whose origin the place below does not have", NINE, OTHER_ORIGIN[0], OTHER_ORIGIN[1]],
        sharing("origin-below", "the origin of the place below is compared", origin_of!("is_try(desk, at.max(first + 1) - 1)")),
    ),
    of_release(
        &["release whose origin the frame's newest does not have", NINE, OTHER_ORIGIN[0], OTHER_ORIGIN[1]],
        sharing("origin-of-top", "the origin of the frame's newest lock is compared", origin_of!("is_try(desk, at.max(first + depth - 1))")),
    ),
    of_release(
        &["release whose origin the task's place does not have", NINE, OTHER_ORIGIN[0], OTHER_ORIGIN[1]],
        sharing("origin-of-task", "the origin of that place in the core's task is compared", origin_of!("is_try(desk, at - DEEPEST * (here % 3))")),
    ),
    of_release(
        &["release whose origin the first frame's place does not have", NINE, OTHER_ORIGIN[0], OTHER_ORIGIN[1]],
        sharing("origin-of-first-frame", "the origin of that place in the first frame is compared", origin_of!("is_try(desk, HOLDS + at - first)")),
    ),
    // Which lock a release takes out.
    of_release(
        &OLDER_TOO,
        sharing(
            "takes-oldest",
            "a release that fits the newest lock of its class takes the oldest out",
            takes_out!("(first..at).find(|&at| desk[at] % 64 == class).unwrap_or(at)"),
        ),
    ),
    of_release(
        &[OLDER_TOO[1]],
        sharing(
            "takes-older-same",
            "a release that fits the newest lock of its class takes the oldest out that it fits",
            takes_out!("(first..at).find(|&older| desk[older] == desk[at] && is_try(desk, older) == is_try(desk, at)).unwrap_or(at)"),
        ),
    ),
    of_release(
        &["release below a newer lock of another class"],
        sharing("takes-top", "a release takes the frame's newest lock out", takes_out!("at.max(first + depth - 1)")),
    ),
    // What becomes of a release in another mode.
    of_release(
        &OTHER_MODE,
        sharing("other-mode-3", "3 for a release in another mode", &[(REFUSED, "return if newest.is_some() { 3 } else { 5 }")]),
    ),
    of_release(
        &["release in another mode at the last count"],
        sharing(
            "other-mode-9",
            "9 before the 5 of a release in another mode",
            &[(REFUSED, "return if newest.is_some() && word_at(desk, COUNT) == u32::MAX { 9 } else { 5 }")],
        ),
    ),
    of_release(
        &["release in another mode where a cycle stands"],
        sharing(
            "other-mode-1",
            "1 for a release in another mode where a cycle stands",
            &[(REFUSED, "return if newest.is_some() && closed_strong_path(desk, sheet) { 1 } else { 5 }")],
        ),
    ),
    of_release(
        &OTHER_MODE,
        sharing(
            "other-mode-counted",
            "a release in another mode is counted",
            &[(
                REFUSED,
                "let count = word_at(desk, COUNT);
        if newest.is_some() {
            set_word(desk, COUNT, count.saturating_add(1));
        }
        return 5",
            )],
        ),
    ),
    of_release(
        &["release in another mode over a lock that lacks a mark"],
        sharing(
            "other-mode-marks",
            "a release in another mode marks what is held",
            &[(REFUSED, "if newest.is_some() {\n            mark(desk, core);\n        }\n        return 5")],
        ),
    ),
    of_release(
        &OTHER_MODE,
        sharing(
            "other-mode-changes",
            "a release in another mode gives the lock that mode",
            &[(
                REFUSED,
                "if let Some(at) = newest {
            desk[at] = class + 64 * (mode % TRY);
            set_origin(desk, at, mode >= TRY);
        }
        return 5",
            )],
        ),
    ),
    // Strong paths.
    plant(
        "class-once",
        "the search and the question visit a class once, whichever way it was reached",
        &[
            ("    if left == 0 {", "    if !drawing.class_once_cycle() {"),
            ("Arrivals::of(desk, sheet).reach(class as usize)", "Arrivals::of(desk, sheet).class_once_reach(class as usize)"),
            (
                "    /// The arrivals of all strong paths",
                "    fn class_once_cycle(&self) -> bool {
        let mut visited = [false; 64];
        (0..64).any(|root| !visited[root] && self.class_once(&mut visited, &mut vec![root]))
    }

    fn class_once(&self, visited: &mut [bool; 64], path: &mut Vec<usize>) -> bool {
        let top = path[path.len() - 1];
        if members(self.next[top]).any(|i| path.contains(&i)) {
            return true;
        }
        for i in members(self.next[top]) {
            if !visited[i % 64] {
                visited[i % 64] = true;
                path.push(i);
                if self.class_once(visited, path) {
                    return true;
                }
                path.pop();
            }
        }
        false
    }

    fn class_once_reach(&self, class: usize) -> Set {
        let (mut visited, mut reached, mut waiting) = (0u64, 0, vec![class]);
        while let Some(at) = waiting.pop() {
            for i in members(self.next[at]) {
                if visited >> (i % 64) & 1 == 0 {
                    visited |= 1 << (i % 64);
                    reached |= 1 << i;
                    waiting.push(i);
                }
            }
        }
        reached
    }

    /// The arrivals of all strong paths",
            ),
        ],
    ),
    plant(
        "closing-joint",
        "a path that is not strong where it closes is a fault",
        &[
            (
                "    if left == 0 {",
                "    let closes = |c: usize| (drawing.reach(c) | drawing.reach(c) >> 64) >> c & 1 == 1;\n    if left == 0 && !(0..k).any(closes) {",
            ),
            (SHOW, "    show(slip, &circle.unwrap_or_default(), k, seen);"),
        ],
    ),
    plant(
        "sheet-63-wide",
        "a sheet of K = 64 is read as if it were 63 wide",
        &[
            ("sheet[from * k..from * k + k]", "sheet[from * k.min(63)..from * k.min(63) + k]"),
            ("sheet[from * usize::from(desk[0]) + to]", "sheet[from * usize::from(desk[0]).min(63) + to]"),
        ],
    ),
    // The question.
    plant(
        "question-closes",
        "the question counts its own class only where the path is strong at the closing joint too",
        &[(
            "let reached = Arrivals::of(desk, sheet).reach(class as usize);",
            "let drawing = Arrivals::of(desk, sheet);
    let again: Set = 1 << (64 + class);
    let reached = drawing.reach(class as usize) & !again | drawing.reach(64 + class as usize) & again;",
        )],
    ),
    plant(
        "question-count",
        "the question counts a class twice that is reached both ways",
        &[("*count += 1;", "*count += (reached >> i & 1) as u32 + (reached >> (64 + i) & 1) as u32;")],
    ),
    plant(
        "class-cut",
        "the question's class is cut to a byte: 256 is 0",
        &[("    if class >= u64::from(desk[0]) {", "    let class = class % 256;\n    if class >= u64::from(desk[0]) {")],
    ),
    // The order of the refusals.
    of_depth(
        &["class K or more in a full frame"],
        plant(
            "order-8-4",
            "8 before 4",
            &[(
                "usize::from(class) >= k {\n        return 4;",
                "usize::from(class) >= k {
        let here = frame(core, desk[STATES + usize::from(core)]);
        return if kind == TAKE && usize::from(desk[DEPTHS + here]) == DEEPEST { 8 } else { 4 };",
            )],
        ),
    ),
    plant(
        "order-5-4",
        "5 before 4",
        &[("usize::from(class) >= k {\n        return 4;", "usize::from(class) >= k {\n        return if kind == RELEASE { 5 } else { 4 };")],
    ),
    breaks(
        "10 after a fault, and only then",
        plant("order-3-10", "3 before 10", &[("if desk[1] == 1 {", "if desk[1] == 1 && read_record(record).is_some() {")]),
    ),
    plant(
        "order-10-11",
        "10 before 11",
        &[(
            "    if unfit(desk, sheet, seen, Some(slip)).is_some() || unfit_history(desk, history).is_some() {\n        return 11;",
            "    if unfit(desk, sheet, seen, Some(slip)).is_some() || unfit_history(desk, history).is_some() {\n        return if desk.get(1) == Some(&1) { 10 } else { 11 };",
        )],
    ),
    too(
        &[SAME_ANSWERS],
        breaks(
            "old answers kept until a fault",
            plant(
                "depth-of-all",
                "8 when the task frames of all cores have as many held locks together as one may have",
                &[(
                    "if kind == TAKE && depth == DEEPEST {",
                    "let tasks: usize = (0..CORES).map(|c| usize::from(desk[DEPTHS + 3 * c])).sum();
        if kind == TAKE && (depth == DEEPEST || tasks >= DEEPEST) {",
                )],
            ),
        ),
    ),
    // The fit test.
    plant("mark-64-needs-8", "a soft-unsafe E needs the hard-unsafe S", &[("(m & 64 != 0 && m & 4 == 0)", "(m & 64 != 0 && m & 8 == 0)")]),
    of_depth(
        &["unused byte not 0 at the last place alone"],
        plant(
            "unused-unread",
            "the last byte of a frame may be anything while it is unused",
            &[(UNUSED_FIT, "holds[..DEEPEST - 1].iter().skip(usize::from(depth)).any(|&h| h != 0)")],
        ),
    ),
    of_depth(
        &[],
        plant(
            "origin-unread",
            "an origin may stand where no lock is held",
            &[(STRAY, "false && !stands(place)")],
        ),
    ),
    of_depth(
        &["origin right past the depth"],
        plant(
            "origin-next-unread",
            "the origin right past the depth is not looked at",
            &[("place % DEEPEST < usize::from(depths[place / DEEPEST])", "place % DEEPEST <= usize::from(depths[place / DEEPEST])")],
        ),
    ),
    of_depth(
        &["origin at the last place of the last frame"],
        plant("origin-last-unread", "the last origin of all is not looked at", &[(STRAY, "place + 1 < PLACES && is_try(desk, HOLDS + place) && !stands(place)")]),
    ),
    of_depth(
        &["origin in the last byte of a frame alone"],
        plant("origin-byte-unread", "the origins in the last byte of a frame are not looked at", origins_fit_up_to!("40")),
    ),
    of_depth(
        &["origin in an empty frame"],
        plant(
            "origin-empty-unread",
            "the origins of an empty frame are not looked at",
            &[("let stands = |place: usize| ", "let stands = |place: usize| depths[place / DEEPEST] == 0 || ")],
        ),
    ),
    plant(
        "origins-mixed",
        "a frame is unfit that has tries and locks that waited",
        &[(
            "if (ORIGINS..COUNT).any(|at| desk[at] != 0 && eight(at - ORIGINS).any(stray)) {",
            "let differ = |at: usize| is_try(desk, at) != is_try(desk, at - 1);
    let mixed = |place: usize| place % DEEPEST > 0 && stands(place) && differ(HOLDS + place);
    if (0..PLACES).any(|place| mixed(place) || stray(place)) {",
        )],
    ),
    of_depth(
        &["hold byte of 192 or more with an origin"],
        plant(
            "hold-192",
            "a hold byte of 192 or more is fit where the origin says try",
            &[(
                "if standing(|hold, _| hold / 64 == 3) {",
                "let holds = |place: usize| place % DEEPEST < usize::from(depths[place / DEEPEST]);
    if (0..PLACES).any(|place| holds(place) && desk[HOLDS + place] / 64 == 3 && !is_try(desk, HOLDS + place)) {",
            )],
        ),
    ),
    of_depth(
        &[
            "call on a desk without the origins", "call on a desk with part of the origins", "call on a desk without the count",
            "call on a desk with part of the count", "call on a desk without crosslocks",
            "call on a desk with part of the crosslocks", "call on a desk a byte short",
        ],
        plant(
            "desk-without-origins",
            "a desk of 1,250 bytes is fit",
            desk_unless!("desk.len() < ORIGINS"),
        ),
    ),
    of_depth(
        &["call on a desk a byte short"],
        plant(
            "desk-a-byte-short",
            "a desk of 1,673 bytes is fit",
            desk_unless!("desk.len() < DESK - 1"),
        ),
    ),
    of_depth(
        &["call on a desk of 578 bytes"],
        plant("desk-578", "a desk of 578 bytes is fit", desk_unless!("desk.len() < DESK && desk.len() != 578")),
    ),
    of_depth(
        &["call on a desk of 638 bytes"],
        plant("desk-638", "a desk of 638 bytes is fit", desk_unless!("desk.len() < DESK && desk.len() != 638")),
    ),
    of_depth(
        &["call on a desk of 642 bytes"],
        plant("desk-642", "a desk of 642 bytes is fit", desk_unless!("desk.len() < DESK && desk.len() != 642")),
    ),
    // Deep frames: the limit.
    of_depth(&OVER_20, plant("limit-20", "8 from 20 held locks on", &[(EIGHT, "    if kind == TAKE && depth >= 20 {")])),
    of_depth(
        &["acquire that fills a frame"],
        plant("limit-47", "8 from 47 held locks on", &[(EIGHT, "    if kind == TAKE && depth >= DEEPEST - 1 {")]),
    ),
    of_depth(&IN_FULL_FRAME, plant("limit-49", "8 from 49 held locks on", &[(EIGHT, "    if kind == TAKE && depth > DEEPEST {")])),
    of_depth(
        &["wait in a full frame"],
        plant("limit-of-tries", "8 for tries only", &[(EIGHT, "    if kind == TAKE && depth == DEEPEST && mode >= TRY {")]),
    ),
    of_depth(
        &["try in a full frame"],
        plant("limit-of-waits", "no 8 for tries: the 49th is held", &[(EIGHT, "    if kind == TAKE && depth == DEEPEST && mode < TRY {")]),
    ),
    of_depth(
        &["try over 20 to 31 held locks", "try over 32 to 46 held locks", "try that fills a frame"],
        plant("limit-20-of-tries", "8 for tries from 20 held locks on", &[(EIGHT, "    if kind == TAKE && (depth == DEEPEST || mode >= TRY && depth >= 20) {")]),
    ),
    of_depth(
        &["call on a fit desk with a depth of 21 to 47", "call on a fit desk with a full frame"],
        plant("fit-limit-20", "a depth over 20 is unfit", &[(OVER_LIMIT, "depths.iter().any(|&d| usize::from(d) > 20)")]),
    ),
    of_depth(
        &["call on a fit desk with a full frame"],
        plant("fit-limit-47", "a depth of 48 is unfit", &[(OVER_LIMIT, "depths.iter().any(|&d| usize::from(d) > DEEPEST - 1)")]),
    ),
    of_depth(
        &["depth of 49"],
        plant("fit-limit-49", "a depth of 49 is fit", &[(OVER_LIMIT, "depths.iter().any(|&d| usize::from(d) > DEEPEST + 1)"), HELD_OVER, UNUSED_OVER]),
    ),
    of_depth(
        &["depth of 64 to 112"],
        plant(
            "fit-limit-64-more",
            "a depth of 64 more than a fit one is fit",
            &[
                (OVER_LIMIT, "depths.iter().any(|&d| usize::from(d & !64) > DEEPEST)"),
                HELD_OVER,
                UNUSED_OVER,
                ("        return 10;\n    }", "        return 10;\n    }\n    if desk[DEPTHS..MARKS].iter().any(|&d| usize::from(d) > DEEPEST) {\n        return 8;\n    }"),
            ],
        ),
    ),
    // Deep frames: where a frame begins.
    of_depth(&BY_STRIDE, plant("origin-stride-20", "a frame has 20 origin bits", origin_stride!("20"))),
    of_depth(&BY_STRIDE, plant("origin-stride-40", "a frame has 40 origin bits", origin_stride!("40"))),
    of_depth(&BY_STRIDE, plant("origin-stride-64", "a frame has 64 origin bits", origin_stride!("64"))),
    of_depth(
        &[],
        plant("held-stride-20", "the step finds the locks of a frame 20 places behind those of the last", &[(FIRST_PLACE, "    let first = HOLDS + 20 * here;\n    let newest = ")]),
    ),
    of_depth(
        &[],
        plant(
            "mark-stride-20",
            "marks are given by the locks 20 places behind those of the last frame",
            &[(FIRST_MARKED, "    let first = HOLDS + 20 * here;\n    for at in first..first + usize::from(desk[DEPTHS + here]) {")],
        ),
    ),
    of_depth(
        &[],
        plant(
            "fit-stride-20",
            "the fit test finds the locks of a frame 20 places behind those of the last",
            &[(
                "let frames = || desk[HOLDS..ORIGINS].chunks_exact(DEEPEST).zip(depths);",
                "let frames = || (0..FRAMES).map(|f| &desk[HOLDS + 20 * f..HOLDS + 20 * f + DEEPEST]).zip(depths);",
            )],
        ),
    ),
    // Deep frames: what is done up to some place only.
    of_depth(
        &["kind drawn first from place 20 on alone"],
        plant("draws-20", "an acquire draws from the first 20 held locks only", draws_up_to!("20")),
    ),
    of_depth(
        &["kind drawn first from place 32 on alone"],
        plant("draws-32", "an acquire draws from the first 32 held locks only", draws_up_to!("32")),
    ),
    of_depth(
        &["pair drawn first from place 20 on alone"],
        plant("numbers-20", "a pair gets a number by the first 20 held locks only", numbers_up_to!("20")),
    ),
    of_depth(
        &["pair drawn first from place 32 on alone"],
        plant("numbers-32", "a pair gets a number by the first 32 held locks only", numbers_up_to!("32")),
    ),
    of_depth(&["mark from place 20 on alone"], plant("marks-20", "the first 20 held locks only are marked", marks_up_to!("20"))),
    of_depth(&["mark from place 32 on alone"], plant("marks-32", "the first 32 held locks only are marked", marks_up_to!("32"))),
    of_depth(
        &["release at place 20 to 31", "release at place 32 to 46", "release at place 47", "release in another mode at place 20 to 31", "release in another mode at place 32 to 47"],
        plant("newest-20", "a release finds the first 20 held locks only", finds_up_to!("20")),
    ),
    of_depth(
        &["release at place 32 to 46", "release at place 47", "release in another mode at place 32 to 47"],
        plant("newest-32", "a release finds the first 32 held locks only", finds_up_to!("32")),
    ),
    of_depth(
        &["release that moves a lock to place 20 or more"],
        plant("moves-20", "locks move down to the first 20 places only", moves_up_to!("20")),
    ),
    of_depth(
        &["release that moves a lock to place 32 or more"],
        plant("moves-32", "locks move down to the first 32 places only", moves_up_to!("32")),
    ),
    of_depth(
        &["release that moves an origin to place 20 or more"],
        plant("origins-move-20", "origins move down to the first 20 places only", origins_up_to!("20")),
    ),
    of_depth(
        &["release that moves an origin to place 32 or more"],
        plant("origins-move-32", "origins move down to the first 32 places only", origins_up_to!("32")),
    ),
    of_depth(
        &["try over 20 to 31 held locks", "try over 32 to 46 held locks", "try that fills a frame"],
        plant("tries-20", "tries are kept at the first 20 places only", tries_up_to!("20")),
    ),
    of_depth(
        &["try over 32 to 46 held locks", "try that fills a frame"],
        plant("tries-32", "tries are kept at the first 32 places only", tries_up_to!("32")),
    ),
    of_depth(
        &["held class of K or more from place 20 on alone", "hold byte of 192 or more from place 20 on alone"],
        plant("fit-held-20", "the fit test looks at the first 20 held locks only", held_fit_up_to!("20")),
    ),
    of_depth(
        &["held class of K or more from place 32 on alone", "hold byte of 192 or more from place 32 on alone"],
        plant("fit-held-32", "the fit test looks at the first 32 held locks only", held_fit_up_to!("32")),
    ),
    of_depth(
        &["unused byte not 0 from place 20 on alone"],
        plant("fit-unused-20", "the fit test looks at the first 20 unused places only", unused_fit_up_to!("20")),
    ),
    of_depth(
        &["unused byte not 0 from place 32 on alone"],
        plant("fit-unused-32", "the fit test looks at the first 32 unused places only", unused_fit_up_to!("32")),
    ),
    of_depth(
        &["origin from place 20 on alone"],
        plant("fit-origins-20", "the fit test looks at the first 20 origins of a frame only", origins_fit_up_to!("20")),
    ),
    of_depth(
        &["origin from place 32 on alone"],
        plant("fit-origins-32", "the fit test looks at the first 32 origins of a frame only", origins_fit_up_to!("32")),
    ),
    of_depth(
        &["origin behind the first 60 bytes alone"],
        plant("fit-origins-60", "the fit test looks at the first 60 bytes of origins only", &[(STRAY, "place < 480 && is_try(desk, HOLDS + place) && !stands(place)")]),
    ),
    // Desks of earlier versions.
    of_depth(
        &[],
        plant(
            "count-638",
            "the count is at byte 638",
            &[
                ("pub const COUNT: usize = ORIGINS + PLACES.div_ceil(8);", "pub const COUNT: usize = 638;"),
                ("pub const DECLARED: usize = COUNT + WORD;", "pub const DECLARED: usize = ORIGINS + PLACES.div_ceil(8) + WORD;"),
            ],
        ),
    ),
    of_depth(&[], plant("count-638-read", "the count is read at byte 638", &[(OWN, "    let Some(own_number) = word_at(desk, 638).checked_add(1) else {\n        return 9;\n    };")])),
    of_numbers(&[], sharing("tie-638", "a number above the count of an earlier version, at byte 638, is unfit", tied!("number > word_at(desk, 638)"))),
    of_depth(
        &["old desk, zeros behind", "old desk, other bytes behind"],
        plant("old-read", "an old desk in a longer buffer is read in the old layout", read_as_old!("desk.len() >= DESK")),
    ),
    of_depth(
        &["old desk, zeros behind"],
        plant(
            "old-read-zeros",
            "an old desk in a longer buffer is read in the old layout where zeros come behind it",
            read_as_old!("desk.len() >= DESK && desk[642..DESK].iter().all(|&byte| byte == 0)"),
        ),
    ),
    of_depth(
        &["old desk, other bytes behind"],
        plant(
            "old-read-others",
            "an old desk in a longer buffer is read in the old layout where other bytes come behind it",
            read_as_old!("desk.len() >= DESK && desk[642..DESK].iter().any(|&byte| byte != 0)"),
        ),
    ),
    of_depth(
        &["old desk in a buffer too short today"],
        plant("old-read-short", "an old desk in a buffer too short today is read in the old layout", read_as_old!("desk.len() < DESK")),
    ),
    of_depth(
        &["old desk that reads the same"],
        plant(
            "old-refused",
            "a desk with up to 20 held locks in core 0's task and zeros from there on is taken for an old one, and is unfit",
            &[(
                TOO_SHORT,
                "    let alone = || desk[DEPTHS + 1..MARKS].iter().chain(&desk[HOLDS + 20..DESK]).all(|&byte| byte == 0);
    if desk.len() < DESK || (1..=20).contains(&desk[DEPTHS]) && alone() {
        return Some(CLAUSES[0]);
    }",
            )],
        ),
    ),
    // The slip.
    plant(
        "slip-past",
        "the slip's byte past 1 + 7n is cleared",
        &[(LENGTH, "    slip[0] = circle.len() as u8;\n    if let Some(past) = slip.get_mut(1 + 7 * circle.len()) {\n        *past = 0;\n    }")],
    ),
    plant(
        "slip-rest",
        "the slip's bytes past 1 + 7n are cleared",
        &[(LENGTH, "    slip[0] = circle.len() as u8;\n    slip[1 + 7 * circle.len()..].fill(0);")],
    ),
    plant(
        "slip-again",
        "the first dependency is written once more behind the last, where there is room",
        &[(
            LENGTH,
            "    slip[0] = circle.len() as u8;
    if let Some(past) = slip[1..].chunks_exact_mut(7).nth(circle.len()) {
        past[..3].copy_from_slice(&[circle[0].0, circle[0].1, circle[0].2]);
    }",
        )],
    ),
    plant("slip-without-fault", "the slip's first byte is cleared without a fault", &[("    if left == 0 {", "    if left == 0 {\n        slip[0] = 0;")]),
    plant(
        "slip-count",
        "the slip's n is K more",
        &[(SHOW, "    show(slip, &circle.expect(\"where something remains, a cycle exists\"), k, seen);\n    slip[0] += desk[0];")],
    ),
    plant("slip-count-less", "the slip's n is 1 less", &[(LENGTH, "    slip[0] = circle.len() as u8 - 1;")]),
    plant(
        "slip-highest",
        "the slip begins with the highest class",
        &[(
            LENGTH,
            "    let high = (0..circle.len()).max_by_key(|&i| circle[i].0).unwrap_or(0);
    let circle = &[&circle[high..], &circle[..high]].concat()[..];
    slip[0] = circle.len() as u8;",
        )],
    ),
    // The cycle shown: how cycles are compared.
    breaks(
        LEAST,
        shown(
            &["cycle by the kind before the next class"],
            plant("class-before-kind", "the next class is compared before kind and source", by_key!("[class, next, kind, source]")),
        ),
    ),
    shown(
        &["cycle by the source before the next class"],
        plant("class-before-source", "the next class is compared before the source", by_key!("[class, kind, next, source]")),
    ),
    breaks(
        LEAST,
        shown(
            &["cycle by the kind before the source"],
            plant("source-before-kind", "the source is compared before the kind", by_key!("[class, source, kind, 0]")),
        ),
    ),
    shown(
        &["cycle by ER before EN, or SR before SN"],
        plant(
            "kinds-by-letters",
            "kinds are compared as EN, ER, SN, SR",
            by_key!("[class, [0, 1, 0, 0, 3, 0, 0, 0, 2][usize::from(kind)], source, 0]"),
        ),
    ),
    shown(
        &["cycle by hold before hard before soft"],
        plant("sources-backwards", "sources are compared as soft, hard, hold", by_key!("[class, kind, 2 - source, 0]")),
    ),
    shown(
        &["cycle by hold before hard before soft"],
        plant("soft-before-hard", "sources are compared as hold, soft, hard", by_key!("[class, kind, (3 - source) % 3, 0]")),
    ),
    // The cycle shown: joints.
    shown(
        &["least kind barred by the next joint"],
        plant("next-joint-ignored", "each dependency but the last is the least drawn, whatever follows it", loosened!("0..n - 1")),
    ),
    shown(
        &["least kind barred by the closing joint"],
        plant("closing-kind-ignored", "the last dependency is the least drawn, whatever the first is", loosened!("n - 1..n")),
    ),
    shown(
        &["cycle where one less is barred by the closing joint"],
        plant(
            "closing-ignored",
            "the choice heeds every joint but the closing one",
            &[
                ("let mut away: Vec<Set> = vec![1 << start];", "let mut away: Vec<Set> = vec![1 << (start % 64) | 1 << (64 + start % 64)];"),
                ("        least.swap_remove(start)", "        let both = [least[start % 64].take(), least[64 + start % 64].take()];\n        both.into_iter().flatten().min()"),
            ],
        ),
    ),
    shown(
        &["cycle closed by R before one closed by N"],
        plant(
            "closed-by-n",
            "a cycle whose last dependency ends in N goes before all others",
            &[(LAST_CHOICE, "            .filter_map(|start| self.least_walk(start, fewest, desk, sheet))\n            .next()")],
        ),
    ),
    // The cycle shown: its length, its first class, its way.
    shown(
        &["shorter cycle above a longer one"],
        plant(
            "lowest-before-fewest",
            "the shortest cycle through the lowest class that is on any, if it passes no class twice",
            &[
                (
                    FEWEST,
                    "        for class in 0..64 {
            let starts = [class, 64 + class].into_iter().filter(|start| left >> start & 1 == 1);
            let walks = starts.filter_map(|start| self.least_walk(start, self.shortest_through(start)?, desk, sheet));
            let least = walks.filter(|walk| is_cycle(walk)).min_by_key(|walk| (walk.len(), walk.clone()));
            if least.is_some() {
                return least;
            }
        }
        // \"fewest arrows\", and the arrivals on cycles of so many.",
                ),
                IS_CYCLE,
            ],
        ),
    ),
    plant(
        "one-longer",
        "a cycle of one dependency more, if there is one from the same class",
        &[
            (
                LAST_CHOICE,
                "            .filter_map(|start| self.least_walk(start, fewest, desk, sheet))
            .min()
            .map(|least| {
                let starts = [first, 64 + first].into_iter();
                let longer = starts.filter_map(|start| self.least_walk(start, fewest + 1, desk, sheet));
                longer.filter(|walk| is_cycle(walk)).min().unwrap_or(least)
            })",
            ),
            IS_CYCLE,
        ],
    ),
    shown(
        &["cycles of the fewest from several classes"],
        plant(
            "later-start",
            "the highest class that a cycle of the fewest can begin with",
            &[(
                "        let first = members(on).map(|i| i % 64).min()?;",
                "        let lowest = |&first: &usize| {
            let starts = [first, 64 + first].into_iter().filter(|&start| on >> start & 1 == 1);
            let least = starts.filter_map(|start| self.least_walk(start, fewest, desk, sheet)).min();
            least.is_some_and(|walk| walk.iter().all(|arrow| usize::from(arrow.0) >= first))
        };
        let first = (0..64).rev().filter(|first| (on | on >> 64) >> first & 1 == 1).find(lowest)?;",
            )],
        ),
    ),
    shown(
        &["cycle that first parents do not lead to"],
        plant("first-parents", "to each arrival by the first that leads there", &[(CHOICE, "walks.into_iter().next()")]),
    ),
    shown(
        &["several cycles of the fewest"],
        plant(
            "greatest",
            "the greatest cycle of the fewest",
            &[
                (CHOICE, "walks.into_iter().max()"),
                (LAST_CHOICE, "            .filter_map(|start| self.least_walk(start, fewest, desk, sheet))\n            .max()"),
            ],
        ),
    ),
    breaks(
        LEAST,
        shown(
            &["several cycles of the fewest"],
            plant(
                "second-least",
                "as late as it can be one dependency is the next less that makes a true cycle",
                &[(
                    SHOW,
                    "    let mut circle = circle.expect(\"where something remains, a cycle exists\");
    show(slip, &circle, k, seen);
    for i in (0..circle.len()).rev() {
        let old = circle[i];
        let all = [ER, EN, SR, SN].into_iter().flat_map(|kind| [0, 1, 2].map(|source| (old.0, kind, source)));
        for other in all.filter(|&other| other > old) {
            circle[i] = other;
            show(slip, &circle, k, seen);
            if true_circle(desk, sheet, seen, slip) {
                return 1;
            }
        }
        circle[i] = old;
        show(slip, &circle, k, seen);
    }",
                )],
            ),
        ),
    ),
    shown(
        &["several cycles of the fewest", "cycles of the fewest from several classes"],
        plant(
            "from-the-record",
            "among the cycles of the fewest the least from the class acquired, if it is on one",
            &[(
                CYCLE,
                "    let least = drawing.least_cycle(left, desk, sheet);
    let own = usize::from(class);
    let starts = if kind == TAKE { vec![own, 64 + own] } else { Vec::new() };
    let n = least.as_ref().map_or(0, Vec::len);
    let through = starts.into_iter().filter_map(|start| drawing.least_walk(start, n, desk, sheet)).min();
    let circle = through.or(least).map(|mut circle| {
        let low = (0..n).min_by_key(|&i| circle[i].0).unwrap_or(0);
        circle.rotate_left(low);
        circle
    });",
            )],
        ),
    ),
    // Clashes: the list. A wrong "no" shows as the search leaves to the list what a class's marks make.
    of_clash(
        &["clash shown as EN hard"],
        plant("list-5", "the list has no for 5, unsafe E with safe N at hard", by_list!("clashing(m) != (m == 5)", "(0..k)")),
    ),
    of_clash(
        &["clash shown as ER hard"],
        plant("list-6", "the list has no for 6, unsafe E with safe R at hard", by_list!("clashing(m) != (m == 6)", "(0..k)")),
    ),
    of_clash(
        &["clash shown as SN hard"],
        plant("list-9", "the list has no for 9, unsafe S with safe N at hard", by_list!("clashing(m) != (m == 9)", "(0..k)")),
    ),
    of_clash(
        &["unsafe S with safe R alone at hard, no cycle of one"],
        plant("list-10", "the list has yes for 10, unsafe S with safe R at hard", by_list!("clashing(m) != (m == 10)", "(0..k)")),
    ),
    of_clash(
        &["hard-unsafe E with soft-safe N, no cycle of one"],
        plant("list-20", "the list has yes for 20, hard-unsafe E with soft-safe N", by_list!("clashing(m) != (m == 20)", "(0..k)")),
    ),
    of_clash(
        &["clash shown as ER soft"],
        plant("list-100", "the list has no for 100, unsafe E with safe R at soft", by_list!("clashing(m) != (m == 100)", "(0..k)")),
    ),
    of_clash(
        &["unsafe S with safe R alone at soft, no cycle of one"],
        plant("list-168", "the list has yes for 168, unsafe S with safe R at soft", by_list!("clashing(m) != (m == 168)", "(0..k)")),
    ),
    of_clash(
        &["clash shown as ER hard"],
        plant("list-255", "the list has no for 255, all marks", by_list!("clashing(m) != (m == 255)", "(0..k)")),
    ),
    of_clash(
        &["clash shown as ER soft", "clash shown as EN soft", "clash shown as SN soft"],
        plant("list-hard", "the list is of the hard level only", by_list!("clashing(m & 15)", "(0..k)")),
    ),
    of_clash(
        &["unsafe S with safe R alone at hard, no cycle of one", "unsafe S with safe R alone at soft, no cycle of one"],
        plant(
            "list-joint",
            "the list has yes for any unsafe with any safe mark of a level, strong at the closing joint or not",
            by_list!("[m, m >> 4].iter().any(|m| m & 12 != 0 && m & 3 != 0)", "(0..k)"),
        ),
    ),
    of_clash(
        &["letters of two levels, no cycle of one"],
        plant(
            "list-levels",
            "the list has yes for an unsafe mark of one level with a safe mark of the other",
            by_list!("clashing(m & 15 | m >> 4)", "(0..k)"),
        ),
    ),
    // Clashes: where the list is read, and when.
    of_clash(
        &["clash of a middle class alone", "clash of the highest class alone"],
        plant("list-class-0", "the list is read for class 0 only", by_list!("clashing(m)", "(0..1)")),
    ),
    of_clash(
        &["clash of the only class", "clash of the highest class alone"],
        plant("list-last-class", "the list is not read for the last class", by_list!("clashing(m)", "(0..k - 1)")),
    ),
    of_clash(
        &["clash that stood, nothing marked or drawn"],
        plant(
            "list-frame",
            "the list is read for the classes held in the core's frame",
            by_list!(
                "clashing(m)",
                "(0..DEEPEST)
        .filter(|&i| i < usize::from(desk[DEPTHS + frame(core, state_after)]))
        .map(|i| usize::from(desk[HOLDS + DEEPEST * frame(core, state_after) + i] % 64))"
            ),
        ),
    ),
    of_clash(
        &["clash that stood, nothing marked or drawn"],
        plant(
            "list-if-new",
            "the list is read where the record set a new mark",
            by_list!("clashing(m)", "(0..if desk[MARKS..HOLDS] == marks[..] { 0 } else { k })"),
        ),
    ),
    of_clash(
        &["clash by an acquire", "clash by a release", "clash by a hard on", "clash by a soft on", "clash by an off or an exit"],
        plant("list-before", "the list is read for the marks before the record", by_list!("clashing(m)", "(0..k).filter(|&class| listed(marks[class]))")),
    ),
    // Clashes: what is left for the search.
    of_clash(
        &["lock dependency of a class to itself, no clash"],
        plant(
            "list-alone",
            "a class's lock dependency to itself is no cycle where the list has no",
            by_list!("clashing(m)", "(0..k)", "right", "without_own"),
        ),
    ),
    of_clash(
        &["cycle over an interrupt, no clash"],
        plant(
            "list-for-interrupts",
            "where the list has no the search is over lock dependencies only",
            by_list!("clashing(m)", "(0..k)", "right", "without_interrupts"),
        ),
    ),
    // Clashes: the cycle shown.
    of_clash(
        &["clash above a lock dependency of a class to itself"],
        plant(
            "clash-first",
            "the lowest class that clashes is shown though a lower one has a lock dependency to itself",
            by_list!("clashing(m)", "(0..k)", "lowest_clash", "without_own_interrupts"),
        ),
    ),
    of_clash(
        &["clashes of two classes"],
        plant(
            "clash-highest",
            "of several classes that clash the highest is shown, if none below has a lock dependency to itself",
            by_list!("clashing(m)", "(0..k)", "highest_clash", "without_own_interrupts"),
        ),
    ),
    of_clash(
        &["clash at a class, and a lock dependency that is less"],
        plant(
            "clash-before-lock",
            "at one class its interrupt is shown though its lock dependency is less",
            by_list!("clashing(m)", "(0..k)", "interrupt_first", "without_own_interrupts"),
        ),
    ),
    of_clash(
        &["clash at a class, and a lock dependency that is greater"],
        plant(
            "lock-before-clash",
            "at one class its lock dependency is shown though its interrupt is less",
            by_list!("clashing(m)", "(0..k)", "lock_first", "without_own_interrupts"),
        ),
    ),
    of_clash(
        &["hard clash before a soft one of its kind", "hard clash before a soft one of a greater kind"],
        plant(
            "soft-clash-first",
            "where both levels of a class clash the soft one is shown",
            by_list!("clashing(m)", "(0..k)", "soft_first", "without_own_interrupts"),
        ),
    ),
    of_clash(
        &["soft clash before a hard one of a greater kind"],
        plant(
            "hard-clash-first",
            "where both levels of a class clash the hard one is shown, even of a greater kind",
            by_list!("clashing(m)", "(0..k)", "hard_first", "without_own_interrupts"),
        ),
    ),
    of_clash(
        &["clash above a longer cycle"],
        plant(
            "two-before-clash",
            "a cycle of two dependencies is shown that begins with a lower class than one does",
            by_list!("clashing(m)", "(0..k)", "two_first", "without_own_interrupts"),
        ),
    ),
    // Clashes: refusals.
    of_clash(
        &["refused record over a clash"],
        plant(
            "clash-refused",
            "a refused record is answered with 1 where marks clash",
            &[(
                STEP,
                "pub fn step(desk: &mut [u8], sheet: &mut [u8], seen: &mut [u8], history: &mut [u8], slip: &mut [u8], record: &[u8]) -> u8 {
    let answer = judge_record(desk, sheet, seen, history, slip, record);
    if (3..9).contains(&answer) && clashing_classes(desk).next().is_some() { 1 } else { answer }
}

fn judge_record(desk: &mut [u8], sheet: &mut [u8], seen: &mut [u8], history: &mut [u8], slip: &mut [u8], record: &[u8]) -> u8 {",
            )],
        ),
    ),
    of_clash(
        &["closed desk with a clash"],
        plant(
            "clash-closed",
            "a closed desk is judged again where marks clash",
            &[(
                "    if desk[1] == 1 {",
                "    if desk[1] == 1 && clashing_classes(desk).next().is_none() {",
            )],
        ),
    ),
    // The count.
    of_numbers(
        &[],
        plant(
            "count-refused",
            "refused records are counted",
            &[around_step!(
                "    let answer = judge_record(desk, sheet, seen, history, slip, record);
    if (3..9).contains(&answer) && word_at(desk, COUNT) < u32::MAX {
        let count = word_at(desk, COUNT) + 1;
        set_word(desk, COUNT, count);
    }
    answer"
            )],
        ),
    ),
    breaks(
        NUMBERS,
        of_numbers(
            &["fault counted"],
            plant(
                "count-fault",
                "a record that is answered with 1 is not counted",
                &[(SHOW, "    show(slip, &circle.expect(\"where something remains, a cycle exists\"), k, seen);\n    set_word(desk, COUNT, own_number - 1);")],
            ),
        ),
    ),
    breaks(
        NUMBERS,
        of_numbers(
            &["release counted", "event counted"],
            plant("count-acquires", "only acquires are counted", &[(COUNTED, "    if kind == TAKE {\n        set_word(desk, COUNT, own_number);\n    }")]),
        ),
    ),
    of_numbers(
        &["acquire that draws nothing, counted", "release counted", "event counted"],
        plant(
            "count-draws",
            "only records that draw are counted",
            &[(COUNTED, "    if kind == TAKE && mode < TRY && depth > 0 {\n        set_word(desk, COUNT, own_number);\n    }")],
        ),
    ),
    of_numbers(
        &["pair drawn first, its place in the list another"],
        plant(
            "count-place",
            "a pair's number is the place of the record in the list from opening, refused ones included",
            &[
                around_step!(
                    "    use std::sync::atomic::Ordering::Relaxed;
    let count = if desk.len() < DESK { 0 } else { word_at(desk, COUNT) };
    if count != ACCEPTED.swap(count, Relaxed) {
        REFUSED.store(0, Relaxed);
    }
    let answer = judge_record(desk, sheet, seen, history, slip, record);
    match answer {
        0 | 1 => ACCEPTED.fetch_add(1, Relaxed),
        3..9 => REFUSED.fetch_add(1, Relaxed),
        _ => 0,
    };
    answer"
                ),
                (NUMBERED, "set_word(seen, WORD * pair, own_number + REFUSED.load(std::sync::atomic::Ordering::Relaxed));"),
                (
                    "    history[..HISTORY].fill(0);\n    0",
                    "    history[..HISTORY].fill(0);
    ACCEPTED.store(0, std::sync::atomic::Ordering::Relaxed);
    REFUSED.store(0, std::sync::atomic::Ordering::Relaxed);
    0",
                ),
                (
                    BEFORE_MARK,
                    "static ACCEPTED: std::sync::atomic::AtomicU32 = std::sync::atomic::AtomicU32::new(0);

static REFUSED: std::sync::atomic::AtomicU32 = std::sync::atomic::AtomicU32::new(0);

/// \"After each accepted record, every hold",
                ),
            ],
        ),
    ),
    of_numbers(
        &[],
        plant(
            "count-high-first",
            "the count has its high byte first",
            &[
                (OWN, "    let Some(own_number) = word_at(desk, COUNT).swap_bytes().checked_add(1) else {\n        return 9;\n    };"),
                (COUNTED, "    set_word(desk, COUNT, own_number.swap_bytes());"),
            ],
        ),
    ),
    of_numbers(
        &CARRIES,
        plant(
            "count-one-byte",
            "the count does not carry to its second byte",
            &[(COUNTED, "    set_word(desk, COUNT, (own_number - 1) & !255 | own_number & 255);")],
        ),
    ),
    of_numbers(
        &["count that carries to its third byte", "count that carries to its fourth byte"],
        plant(
            "count-two-bytes",
            "the count does not carry to its third byte",
            &[(COUNTED, "    set_word(desk, COUNT, (own_number - 1) & !65_535 | own_number & 65_535);")],
        ),
    ),
    of_numbers(
        &["count that carries to its fourth byte"],
        plant(
            "count-three-bytes",
            "the count does not carry to its fourth byte",
            &[(COUNTED, "    set_word(desk, COUNT, (own_number - 1) & !16_777_215 | own_number & 16_777_215);")],
        ),
    ),
    // First-seen numbers.
    breaks(
        NUMBERS,
        of_numbers(
            &["second kind of a numbered pair"],
            plant("seen-second-kind", "a second kind overwrites a pair's number", &[("if sheet[pair] == 0 {", "if sheet[pair] & kind == 0 {")]),
        ),
    ),
    breaks(
        NUMBERS,
        of_numbers(
            &["second kind of a numbered pair", "kind of a numbered pair drawn again"],
            plant("seen-again", "each record that draws a pair overwrites its number", &[(FIRST, "                set_word(seen, WORD * pair, own_number);")]),
        ),
    ),
    of_numbers(
        &["pair drawn first"],
        plant("seen-before", "a pair's number is the count before the record", &[(NUMBERED, "set_word(seen, WORD * pair, own_number - 1);")]),
    ),
    of_numbers(
        &[],
        plant(
            "seen-high-first",
            "a pair's number has its high byte first",
            &[
                (NUMBERED, "set_word(seen, WORD * pair, own_number.swap_bytes());"),
                (FIT_PAIRS, "    for pair in 0..k * k {\n        let (kinds, number) = (sheet[pair], word_at(seen, WORD * pair).swap_bytes());"),
                (SHOWN_NUMBER, "    if source == 0 {\n        word_at(seen, WORD * (usize::from(from) * k + usize::from(to))).swap_bytes()"),
            ],
        ),
    ),
    of_numbers(
        &[],
        plant(
            "seen-transposed",
            "a pair's number stands at to x K + from",
            &[
                (NUMBERED, "set_word(seen, WORD * (usize::from(to) * k + usize::from(from)), own_number);"),
                (FIT_PAIRS, "    for pair in 0..k * k {\n        let (kinds, number) = (sheet[pair], word_at(seen, WORD * (pair % k * k + pair / k)));"),
                (SHOWN_NUMBER, "    if source == 0 {\n        word_at(seen, WORD * (usize::from(to) * k + usize::from(from)))"),
            ],
        ),
    ),
    of_numbers(
        &["pair drawn first, the other way drawn before"],
        plant(
            "seen-both-ways",
            "a pair gets the number of the other way, if that has one",
            &[(
                NUMBERED,
                "let other = word_at(seen, WORD * (usize::from(to) * k + usize::from(from)));
                    set_word(seen, WORD * pair, if other == 0 { own_number } else { other });",
            )],
        ),
    ),
    of_numbers(
        &["pair drawn first by a number over 255"],
        plant("seen-one-byte", "a pair's number is written modulo 256", &[(NUMBERED, "set_word(seen, WORD * pair, own_number % 256);")]),
    ),
    of_numbers(
        &["pair drawn first by a number over 65,535"],
        plant("seen-two-bytes", "a pair's number is written modulo 65,536", &[(NUMBERED, "set_word(seen, WORD * pair, own_number % 65_536);")]),
    ),
    of_numbers(
        &["pair drawn first by a number over 16,777,215"],
        plant(
            "seen-three-bytes",
            "a pair's number is written without its high byte",
            &[(NUMBERED, "set_word(seen, WORD * pair, own_number % 16_777_216);")],
        ),
    ),
    of_numbers(
        &["several pairs drawn first by one record", "pairs drawn first and again by one record"],
        plant(
            "seen-of-oldest",
            "only the pair of the oldest held lock gets a number",
            numbers_up_to!("1"),
        ),
    ),
    of_numbers(
        &["try over a held lock that waited", "try over a try"],
        plant(
            "seen-by-try",
            "a try numbers pairs though it draws no dependency",
            &[(
                DRAWS,
                "if !by_try {
                for (older, older_mode) in older_holds {
                    draw(older, hold_arrow(older_mode, mode), class);
                }
            } else {
                for (older, _) in older_holds {
                    let pair = usize::from(older) * k + usize::from(class);
                    if sheet[pair] == 0 {
                        set_word(seen, WORD * pair, own_number);
                    }
                }
            }",
            )],
        ),
    ),
    // Numbers in the slip.
    of_numbers(
        &["later kind shown with the first number"],
        plant("slip-later-0", "the slip has 0 with a kind that is not the pair's first", with_later_kinds!("0")),
    ),
    breaks(
        NUMBERS,
        of_numbers(
            &["later kind shown with the first number"],
            plant("slip-later-own", "the slip has the record's own number with a kind that is not the pair's first", with_later_kinds!("own_number")),
        ),
    ),
    breaks(
        NUMBERS,
        of_numbers(
            &["interrupt shown, its pair with a number"],
            plant(
                "slip-interrupt",
                "the slip has the pair's number with an interrupt",
                &[(SHOWN_NUMBER, "    if source < 3 {\n        word_at(seen, WORD * (usize::from(from) * k + usize::from(to)))")],
            ),
        ),
    ),
    of_numbers(
        &["interrupt shown, its pair with a number", "interrupt shown, its pair without a number"],
        plant("slip-interrupt-left", "the slip's number is not written with an interrupt", &[(SHOWN, "        if source == 0 {\n            set_word(slip, at + 3, shown_number(class, to, source, k, seen));\n        }")]),
    ),
    of_numbers(&[], plant("slip-unnumbered", "the slip's numbers are not written", &[(SHOWN, "")])),
    of_numbers(
        &[],
        plant(
            "slip-three",
            "the slip has three bytes for each dependency",
            &[(SHOWN, ""), ("let at = 1 + ENTRY * i;", "let at = 1 + 3 * i;")],
        ),
    ),
    of_numbers(
        &[],
        plant(
            "slip-high-first",
            "the slip's numbers have their high byte first",
            &[(SHOWN, "        set_word(slip, at + 3, shown_number(class, to, source, k, seen).swap_bytes());")],
        ),
    ),
    of_numbers(
        &["number shown, the other way has another"],
        plant(
            "slip-transposed",
            "the slip has the numbers of the other way",
            &[(SHOWN_NUMBER, "    if source == 0 {\n        word_at(seen, WORD * (usize::from(to) * k + usize::from(from)))")],
        ),
    ),
    of_numbers(
        &["number shown over 255"],
        plant(
            "slip-one-byte",
            "the slip's numbers are written modulo 256",
            &[(SHOWN, "        set_word(slip, at + 3, shown_number(class, to, source, k, seen) % 256);")],
        ),
    ),
    of_numbers(
        &["number shown over 65,535"],
        plant(
            "slip-two-bytes",
            "the slip's numbers are written modulo 65,536",
            &[(SHOWN, "        set_word(slip, at + 3, shown_number(class, to, source, k, seen) % 65_536);")],
        ),
    ),
    of_numbers(
        &["number shown over 16,777,215"],
        plant(
            "slip-three-bytes",
            "the slip's numbers are written without their high byte",
            &[(SHOWN, "        set_word(slip, at + 3, shown_number(class, to, source, k, seen) % 16_777_216);")],
        ),
    ),
    of_numbers(
        &["number shown of an earlier record"],
        plant(
            "slip-own",
            "the slip has the record's own number with each lock dependency",
            &[(
                SHOW,
                "    let circle = circle.expect(\"where something remains, a cycle exists\");
    show(slip, &circle, k, seen);
    for i in (0..circle.len()).filter(|&i| circle[i].2 == 0) {
        set_word(slip, 4 + ENTRY * i, own_number);
    }",
            )],
        ),
    ),
    // Numbers are no part of the order of cycles.
    breaks(
        LEAST,
        of_numbers(
            &["cycle that the numbers' bytes would change"],
            plant("seven-bytes", "all seven bytes of each dependency are compared", by_number!("(arrow, number.swap_bytes())")),
        ),
    ),
    breaks(
        LEAST,
        of_numbers(
            &["cycle that the numbers would change"],
            plant("number-after-source", "the number is compared after the source", by_number!("(arrow, number)")),
        ),
    ),
    // 9.
    of_numbers(&NINES, plant("nine-missing", "there is no 9: the count goes on with 0", &[(OWN, "    let own_number = word_at(desk, COUNT).wrapping_add(1);")])),
    of_numbers(&NINES, plant("nine-stays", "there is no 9: the count stays at its last", &[(OWN, "    let own_number = word_at(desk, COUNT).saturating_add(1);")])),
    of_numbers(
        &NINES,
        plant(
            "nine-late",
            "at the last count records are accepted until a pair has that number",
            at_last_count!("None if (0..k * k).any(|pair| word_at(seen, WORD * pair) == u32::MAX) => return 9,\n        None => u32::MAX,"),
        ),
    ),
    of_numbers(
        &["count that reaches its last"],
        plant(
            "nine-early",
            "9 at a count one before the last",
            &[(OWN, "    let Some(own_number) = word_at(desk, COUNT).checked_add(1).filter(|&own| own < u32::MAX) else {\n        return 9;\n    };")],
        ),
    ),
    of_numbers(
        &[],
        plant(
            "nine-signed",
            "9 from a count of 2 to the 31 less 1 on",
            &[(OWN, "    let Some(own_number) = word_at(desk, COUNT).checked_add(1).filter(|&own| own < 1 << 31) else {\n        return 9;\n    };")],
        ),
    ),
    of_numbers(
        &["9 for a release", "9 for an event"],
        plant("nine-acquires", "9 for acquires only", at_last_count!("None if kind == TAKE => return 9,\n        None => u32::MAX,")),
    ),
    of_numbers(
        &["9 for an acquire over nothing", "9 for a try", "9 for a release", "9 for an event"],
        plant("nine-draws", "9 for records only that draw", at_last_count!("None if kind == TAKE && mode < TRY && depth > 0 => return 9,\n        None => u32::MAX,")),
    ),
    of_numbers(
        &["9 for an acquire that would draw no new pair", "9 for an acquire over nothing", "9 for a try", "9 for a release", "9 for an event"],
        plant(
            "nine-new",
            "9 for records only that draw a new pair",
            at_last_count!(
                "None if kind == TAKE && mode < TRY && (first..first + depth).any(|at| sheet[usize::from(desk[at] % 64) * k + usize::from(class)] == 0) => return 9,
        None => u32::MAX,"
            ),
        ),
    ),
    of_numbers(
        &["9 for an acquire that would draw a new pair", "9 for an acquire that would draw no new pair", "9 for an acquire over nothing", "9 for a try"],
        plant("nine-not-acquires", "9 for releases and events only", at_last_count!("None if kind != TAKE => return 9,\n        None => u32::MAX,")),
    ),
    of_numbers(
        &["9 for a try"],
        plant("nine-not-tries", "no 9 for a try", at_last_count!("None if kind != TAKE || mode < TRY => return 9,\n        None => u32::MAX,")),
    ),
    of_numbers(
        &["9 where a cycle stands"],
        plant("nine-fault", "at the last count 1 where a cycle stands", at_last_count!("None => return if closed_strong_path(desk, sheet) { 1 } else { 9 },")),
    ),
    of_numbers(&NINES, plant("nine-closes", "9 closes the desk", at_last_count!("None => {\n            desk[1] = 1;\n            return 9;\n        }"))),
    of_numbers(
        &["8 at the last count"],
        plant("order-9-8", "9 before 8", &[("        return 8;", "        return if word_at(desk, COUNT) == u32::MAX { 9 } else { 8 };")]),
    ),
    of_numbers(
        &["5 at the last count"],
        plant("order-9-5", "9 before 5", &[("        return 5;", "        return if word_at(desk, COUNT) == u32::MAX { 9 } else { 5 };")]),
    ),
    of_numbers(
        &["7 at the last count"],
        plant("order-9-7", "9 before 7", &[("        return 7;", "        return if word_at(desk, COUNT) == u32::MAX { 9 } else { 7 };")]),
    ),
    of_numbers(
        &["6 at the last count"],
        plant("order-9-6", "9 before 6", &[("None => return 6", "None => return if word_at(desk, COUNT) == u32::MAX { 9 } else { 6 }")]),
    ),
    of_numbers(
        &["4 at the last count"],
        plant(
            "order-9-4",
            "9 before 4",
            &[("usize::from(class) >= k {\n        return 4;", "usize::from(class) >= k {\n        return if word_at(desk, COUNT) == u32::MAX { 9 } else { 4 };")],
        ),
    ),
    of_numbers(
        &["3 at the last count"],
        plant("order-9-3", "9 before 3", &[("        return 3;", "        return if word_at(desk, COUNT) == u32::MAX { 9 } else { 3 };")]),
    ),
    of_numbers(
        &["10 at the last count"],
        plant("order-9-10", "9 before 10", &[("        return 10;", "        return if word_at(desk, COUNT) == u32::MAX { 9 } else { 10 };")]),
    ),
    of_numbers(
        &["11 at the last count"],
        plant(
            "order-9-11",
            "9 before 11",
            &[(
                "    if unfit(desk, sheet, seen, Some(slip)).is_some() || unfit_history(desk, history).is_some() {\n        return 11;",
                "    if unfit(desk, sheet, seen, Some(slip)).is_some() || unfit_history(desk, history).is_some() {\n        return if desk.len() >= DESK && word_at(desk, COUNT) == u32::MAX { 9 } else { 11 };",
            )],
        ),
    ),
    // The fit test of count and numbers.
    of_numbers(&[], plant("fit-no-number", "kinds without a number are fit", &[("kinds != 0 && number == 0", "kinds > 15 && number == 0")])),
    of_numbers(&[], sharing("fit-no-kinds", "a number without kinds is fit", &[(FIT_NO_KINDS, "kinds > 15 && number != 0")])),
    // Numbers that are tied to the count.
    breaks("reference", of_numbers(&ABOVE, sharing("tie-kept", "a number above the count is unfit", tied!("number > word_at(desk, COUNT)")))),
    of_numbers(
        &["number at the count", ABOVE[0], ABOVE[1]],
        sharing("tie-at-count", "a number at the count or above is unfit", tied!("number != 0 && number >= word_at(desk, COUNT)")),
    ),
    of_numbers(
        &["number one above the count"],
        sharing("tie-one-above", "a number one above the count is unfit", tied!("number != 0 && number == word_at(desk, COUNT).wrapping_add(1)")),
    ),
    of_numbers(
        &["step over a number above the count", "question over a number above the count"],
        sharing("tie-far-above", "a number more than one above the count is unfit", tied!("number > word_at(desk, COUNT).saturating_add(1)")),
    ),
    of_numbers(
        &["number under the count, its low byte greater", "step over a number above the count", "question over a number above the count"],
        sharing("tie-low-byte", "a number with a greater low byte than the count is unfit", tied!("number as u8 > word_at(desk, COUNT) as u8")),
    ),
    of_numbers(
        &["step over a number above the count", "question over a number above the count"],
        sharing("tie-high-byte", "a number with a greater high byte than the count is unfit", tied!("number >> 24 > word_at(desk, COUNT) >> 24")),
    ),
    of_numbers(
        &["number above the count over 2 to the 31"],
        sharing("tie-2-31", "a number over 2 to the 31 is unfit where the count is not", tied!("number >> 31 > word_at(desk, COUNT) >> 31")),
    ),
    of_numbers(
        &["number under 2 to the 31, the count over it", "step over a number above the count", "question over a number above the count"],
        sharing("tie-signed", "a number above the count is unfit, compared with a sign", tied!("number != 0 && number as i32 > word_at(desk, COUNT) as i32")),
    ),
    of_numbers(
        &["number above a count but 0"],
        sharing("tie-counted", "a number above the count is unfit, unless nothing is counted", tied!("word_at(desk, COUNT) != 0 && number > word_at(desk, COUNT)")),
    ),
    of_numbers(
        &["number above a count of 0"],
        sharing("tie-at-0", "a number is unfit where nothing is counted", tied!("number != 0 && word_at(desk, COUNT) == 0")),
    ),
    of_numbers(
        &["number above the count at the first pair"],
        sharing("tie-first-pair", "a number above the count is unfit at the first pair", tied!("pair == 0 && number > word_at(desk, COUNT)")),
    ),
    of_numbers(
        &["number above the count at the last pair", "number above the count at the first pair"],
        sharing("tie-last-pair", "a number above the count is unfit at the last pair", tied!("pair + 1 == k * k && number > word_at(desk, COUNT)")),
    ),
    of_numbers(
        &["step over a number above the count", "question over a number above the count"],
        sharing("tie-running", "a number above the count is unfit unless the cores are fresh", tied!("number > word_at(desk, COUNT) && desk[STATES..MARKS] != [0; MARKS - STATES]")),
    ),
    breaks(
        "reference",
        of_numbers(
            &["step over a number above the count"],
            plant(
                "tie-step",
                "a step refuses a number above the count",
                &[(
                    "    if unfit(desk, sheet, seen, Some(slip)).is_some() || unfit_history(desk, history).is_some() {\n        return 11;",
                    "    let above = |desk: &[u8]| (0..sheet_len(usize::from(desk[0]))).any(|pair| word_at(seen, WORD * pair) > word_at(desk, COUNT));
    if unfit(desk, sheet, seen, Some(slip)).is_some() || unfit_history(desk, history).is_some() || above(desk) {
        return 11;",
                )],
            ),
        ),
    ),
    of_numbers(
        &["question over a number above the count"],
        plant(
            "tie-question",
            "a question refuses a number above the count",
            &[(
                ASKED,
                "    *count = 0;
    let above = || (0..sheet_len(usize::from(desk[0]))).any(|pair| word_at(seen, WORD * pair) > word_at(desk, COUNT));
    if unfit(desk, sheet, seen, None).is_some() || above() {",
            )],
        ),
    ),
    shown(
        &["record in a piece over a number above the count"],
        plant(
            "tie-feed",
            "a piece's record is refused with 11 over a number above the count",
            &[(
                "            self.answer = step(desk, sheet, seen, history, slip, &self.loose);",
                "            let above = |desk: &[u8]| (0..sheet_len(usize::from(desk[0]))).any(|pair| word_at(seen, WORD * pair) > word_at(desk, COUNT));
            let tied = unfit(desk, sheet, seen, None).is_none() && above(desk);
            self.answer = if tied { 11 } else { step(desk, sheet, seen, history, slip, &self.loose) };",
            )],
        ),
    ),
    // Steps over numbers that a join brought.
    breaks(
        NUMBERS,
        of_numbers(
            &["pair drawn first on a desk with a number above the count"],
            plant(
                "number-from-most",
                "a new pair gets a number above all that are above the count",
                &[(NUMBERED, "let most = seen.chunks_exact(WORD).take(k * k).map(|four| word_at(four, 0)).max().unwrap_or(0);\n                    set_word(seen, WORD * pair, if most > own_number { most.saturating_add(1) } else { own_number });")],
            ),
        ),
    ),
    from_join(
        ONLY_WITH_FAULT,
        of_numbers(&[], plant("first-step-clean", "the first record that is counted is no fault", &[("    if left == 0 {", "    if left == 0 || own_number == 1 {")])),
    ),
    of_numbers(
        &["kind of a numbered pair drawn again", "second kind of a numbered pair", "pairs drawn first and again by one record"],
        plant(
            "number-lowered",
            "a number above the record's is lowered to it",
            &[(FIRST, "                if sheet[pair] == 0 || word_at(seen, WORD * pair) > own_number {\n                    set_word(seen, WORD * pair, own_number);\n                }")],
        ),
    ),
    of_numbers(
        &["fault over a number above the count"],
        plant(
            "shown-up-to-count",
            "a number above the count is shown as the count",
            &[(SHOW, "    let count = word_at(desk, COUNT);\n    let lowered: Vec<u8> = seen.chunks_exact(WORD).flat_map(|four| word_at(four, 0).min(count).to_le_bytes()).collect();\n    show(slip, &circle.expect(\"where something remains, a cycle exists\"), k, &lowered);")],
        ),
    ),
    of_numbers(
        &["pair behind the last that does not fit"],
        plant(
            "fit-past",
            "the pair behind the last is looked at, where there is one",
            &[(FIT_PAIRS, "    for pair in 0..(k * k + 1).min(sheet.len()).min(seen.len() / WORD) {\n        let (kinds, number) = (sheet[pair], word_at(seen, WORD * pair));")],
        ),
    ),
    of_numbers(&BEHIND_FIRST_ROW, plant("fit-row-0", "only the first row's numbers are looked at", &[(FIT_PAIRS, "    for pair in 0..k {\n        let (kinds, number) = (sheet[pair], word_at(seen, WORD * pair));")])),
    of_numbers(&IN_LAST_PAIR, plant("fit-last-pair", "the last pair's number is not looked at", &[(FIT_PAIRS, "    for pair in 0..k * k - 1 {\n        let (kinds, number) = (sheet[pair], word_at(seen, WORD * pair));")])),
    of_numbers(&IN_FIRST_PAIR, plant("fit-first-pair", "the first pair's number is not looked at", &[(FIT_PAIRS, "    for pair in 1..k * k {\n        let (kinds, number) = (sheet[pair], word_at(seen, WORD * pair));")])),
    of_numbers(
        &[],
        plant("fit-question", "the question does not look at the second sheet", &[(ASKED, "    *count = 0;\n    if unfit(desk, sheet, seen, None).is_some_and(|clause| !CLAUSES[16..].contains(&clause)) {")]),
    ),
    of_numbers(
        &[],
        plant("fit-question-length", "the question does not look at the second sheet's length", &[(ASKED, "    *count = 0;\n    if unfit(desk, sheet, seen, None).is_some_and(|clause| clause != CLAUSES[16]) {")]),
    ),
    of_numbers(
        &[],
        plant("fit-question-numbers", "the question does not look at the numbers", &[(ASKED, "    *count = 0;\n    if unfit(desk, sheet, seen, None).is_some_and(|clause| !CLAUSES[17..].contains(&clause)) {")]),
    ),
    of_numbers(
        &["call with a second sheet a byte short"],
        plant(
            "fit-seen-a-byte-short",
            "a second sheet a byte short is fit",
            &[("    if seen.len() < seen_len(k) {", "    if seen.len() + 1 < seen_len(k) {"), WORDS_SHORT, SET_WORDS_SHORT],
        ),
    ),
    of_numbers(
        &[],
        plant(
            "fit-seen-quarter",
            "a second sheet of K x K bytes is fit",
            &[("    if seen.len() < seen_len(k) {", "    if seen.len() < sheet_len(k) {"), WORDS_SHORT, SET_WORDS_SHORT],
        ),
    ),
    of_numbers(
        &["step with a slip a byte short"],
        plant(
            "fit-slip-a-byte-short",
            "a slip a byte short is fit",
            &[("k.saturating_mul(ENTRY).saturating_add(1)", "k.saturating_mul(ENTRY)"), SET_WORDS_SHORT],
        ),
    ),
    of_numbers(
        &[],
        plant(
            "fit-slip-old",
            "a slip of 1 + 3K bytes is fit",
            &[
                ("k.saturating_mul(ENTRY).saturating_add(1)", "k.saturating_mul(3).saturating_add(1)"),
                ("let at = 1 + ENTRY * i;", "let at = 1 + ENTRY * i;\n        if at + 3 > slip.len() {\n            break;\n        }"),
                SET_WORDS_SHORT,
            ],
        ),
    ),
    of_depth(
        &[
            "call on a desk without the count", "call on a desk with part of the count", "call on a desk without crosslocks",
            "call on a desk with part of the crosslocks", "call on a desk a byte short",
        ],
        plant(
            "desk-without-count",
            "a desk of 1,394 bytes is fit",
            desk_unless!("desk.len() < COUNT"),
        ),
    ),
    // Opening.
    shown(
        &[
            "opening of a desk without the origins", "opening of a desk with part of the origins",
            "opening of a desk without the count", "opening of a desk with part of the count",
            "opening of a desk without crosslocks", "opening of a desk with part of the crosslocks", "opening of a desk a byte short",
        ],
        plant(
            "opening-without-origins",
            "opening accepts a desk of 1,250 bytes",
            &[
                ("if desk.len() < DESK || ", "if desk.len() < ORIGINS || "),
                ("desk[..DESK].fill(0);", "let end = desk.len().min(DESK);\n    desk[..end].fill(0);"),
                DECLARED_IF_ROOM,
            ],
        ),
    ),
    shown(
        &["opening over origins"],
        plant(
            "opening-origins",
            "opening leaves the origins",
            &[("desk[..DESK].fill(0);", "desk[..ORIGINS].fill(0);\n    desk[COUNT..DESK].fill(0);")],
        ),
    ),
    shown(
        &["opening over origins"],
        plant(
            "opening-last-origins",
            "opening leaves the last byte of the origins",
            &[("desk[..DESK].fill(0);", "desk[..COUNT - 1].fill(0);\n    desk[COUNT..DESK].fill(0);")],
        ),
    ),
    shown(
        &[
            "opening of a desk without the count", "opening of a desk with part of the count", "opening of a desk without crosslocks",
            "opening of a desk with part of the crosslocks", "opening of a desk a byte short",
        ],
        plant(
            "opening-without-count",
            "opening accepts a desk of 1,394 bytes",
            &[
                ("if desk.len() < DESK || ", "if desk.len() < COUNT || "),
                ("desk[..DESK].fill(0);", "let end = desk.len().min(DESK);\n    desk[..end].fill(0);"),
                DECLARED_IF_ROOM,
            ],
        ),
    ),
    of_depth(
        &["opening of a desk a byte short"],
        plant("opening-a-byte-short", "opening accepts a desk of 1,673 bytes", opening_of!("1673")),
    ),
    of_depth(
        &["opening of a desk of 578 bytes"],
        plant("opening-578", "opening accepts a desk of 578 bytes", opening_of!("578")),
    ),
    of_depth(
        &["opening of a desk of 638 bytes"],
        plant("opening-638", "opening accepts a desk of 638 bytes", opening_of!("638")),
    ),
    of_depth(
        &["opening of a desk of 642 bytes"],
        plant("opening-642", "opening accepts a desk of 642 bytes", opening_of!("642")),
    ),
    shown(
        &["opening over held locks behind byte 642"],
        plant("opening-642-cleared", "opening clears the first 642 bytes of a desk, the origins and the count", &[("desk[..DESK].fill(0);", "desk[..642].fill(0);\n    desk[ORIGINS..DESK].fill(0);")]),
    ),
    shown(
        &["opening over a count"],
        plant("opening-count", "opening leaves the count", &[("desk[..DESK].fill(0);", "desk[..COUNT].fill(0);")]),
    ),
    shown(
        &["opening over numbers"],
        plant("opening-numbers", "opening leaves the second sheet", &[("    seen[..seen_size].fill(0);", "")]),
    ),
    shown(
        &["opening over numbers"],
        plant("opening-numbers-quarter", "opening clears K x K bytes of the second sheet", &[("seen[..seen_size].fill(0);", "seen[..size].fill(0);")]),
    ),
    shown(
        &["opening over numbers"],
        plant("opening-numbers-last", "opening leaves the last byte of the second sheet", &[("seen[..seen_size].fill(0);", "seen[..seen_size - 1].fill(0);")]),
    ),
    plant(
        "opening-numbers-past",
        "opening clears a byte past the second sheet",
        &[("seen[..seen_size].fill(0);", "let end = seen.len().min(seen_size + 1);\n    seen[..end].fill(0);")],
    ),
    plant(
        "opening-seen-unread",
        "opening does not look at the second sheet's length",
        &[
            ("|| seen.len() < seen_size {", "{"),
            ("seen[..seen_size].fill(0);", "let end = seen.len().min(seen_size);\n    seen[..end].fill(0);"),
        ],
    ),
    shown(
        &["opening of a second sheet a byte short"],
        plant(
            "opening-seen-short",
            "opening accepts a second sheet a byte short",
            &[
                ("|| seen.len() < seen_size {", "|| seen.len() + 1 < seen_size {"),
                ("seen[..seen_size].fill(0);", "let end = seen.len().min(seen_size);\n    seen[..end].fill(0);"),
            ],
        ),
    ),
    plant(
        "opening-seen-quarter",
        "opening accepts a second sheet of K x K bytes",
        &[
            ("|| seen.len() < seen_size {", "|| seen.len() < size {"),
            ("seen[..seen_size].fill(0);", "let end = seen.len().min(seen_size);\n    seen[..end].fill(0);"),
        ],
    ),
    plant(
        "opening-desk-past",
        "opening clears a desk byte past the desk's size",
        &[("desk[..DESK].fill(0);", "let end = desk.len().min(DESK + 1);\n    desk[..end].fill(0);")],
    ),
    plant(
        "opening-sheet-past",
        "opening clears a sheet byte past K x K",
        &[("sheet[..size].fill(0);", "let end = sheet.len().min(size + 1);\n    sheet[..end].fill(0);")],
    ),
    plant(
        "k-cut",
        "K is cut to a byte: 264 is 8",
        &[("    if k < 1 || k > MAX_K as u64 {\n        return 2;", "    let k = k % 256;\n    if k < 1 || k > MAX_K as u64 {\n        return 2;")],
    ),
    // The feed: the header.
    plant(
        "header-early",
        "desk and sheet are opened at the header's third byte too",
        &[(
            PUSH,
            "        held.loose.push(byte);
        if !held.opened && held.loose.len() == 3 {
            open(1, 0, desk, sheet, seen, history);
        }",
        )],
    ),
    shown(
        &["wrong byte of a header that isn't complete"],
        plant(
            "header-at-once",
            "a wrong first byte of the header is refused when it comes",
            &[(
                PUSH,
                "        held.loose.push(byte);
        if !held.opened && held.loose[0] != 0x4C {
            held.judge(desk, sheet, seen, history, slip);
            continue;
        }",
            )],
        ),
    ),
    shown(
        &["header with a wrong first byte"],
        plant("header-first-byte", "the header's first byte is not looked at", &[("[0x4C, 0x48, 0x01, k] =>", "[_, 0x48, 0x01, k] =>")]),
    ),
    shown(
        &["header with a wrong second byte"],
        plant("header-second-byte", "the header's second byte is not looked at", &[("[0x4C, 0x48, 0x01, k] =>", "[0x4C, _, 0x01, k] =>")]),
    ),
    breaks(
        AS_THE_WHOLE_LOG,
        shown(
            &["header with a wrong third byte"],
            plant(
                "header-third-byte",
                "the third byte of a header of four bytes is not looked at",
                &[(
                    "match read_header(&self.loose) {",
                    "match read_header(&self.loose).or(match self.loose[..] {
                [0x4C, 0x48, _, k] => Some((u64::from(k), 0)),
                _ => None,
            }) {",
                )],
            ),
        ),
    ),
    shown(
        &["header with K over 64", "header that opens"],
        plant("header-k-cut", "the header's K is cut to six bits", &[("open(k, declared, desk, sheet, seen, history),", "open(k % 64, declared, desk, sheet, seen, history),")]),
    ),
    shown(
        &["header with a short second sheet"],
        plant(
            "header-short-seen",
            "a second sheet too short for the header is answered with 11",
            &[(
                "Some((k, declared)) => open(",
                "Some((k, declared))
                    if seen.len() < seen_len(k as usize)
                        && k >= 1
                        && k <= MAX_K as u64
                        && declared >> (k - 1) < 2
                        && desk.len() >= DESK
                        && sheet.len() >= sheet_len(k as usize) => 11,
                Some((k, declared)) => open(",
            )],
        ),
    ),
    shown(
        &["header with a short desk", "header with a short sheet", "header with a short second sheet", "header with a short history"],
        plant(
            "header-short-11",
            "a desk or sheet too short for the header is answered with 11",
            &[(
                "=> open(k, declared, desk, sheet, seen, history),",
                "=> match open(k, declared, desk, sheet, seen, history) {
                    2 if k >= 1 && k <= MAX_K as u64 && declared >> (k - 1) < 2 => 11,
                    answer => answer,
                },",
            )],
        ),
    ),
    plant(
        "header-needs-slip",
        "a slip too short is refused with the header",
        &[("Some((k, declared)) => open(", "Some((k, _)) if slip.len() < slip_len(k as usize) => 2,\n                Some((k, declared)) => open(")],
    ),
    plant("header-refused-opened", "a refused header counts as opened", &[(HEADER_JUDGED, "self.opened = true;")]),
    plant(
        "header-refused-1",
        "a refused header has the number 1",
        &[(HEADER_JUDGED, "self.opened = self.answer == 0;\n            self.number = u64::from(!self.opened);")],
    ),
    plant(
        "header-counted",
        "the header counts as a record",
        &[(HEADER_JUDGED, "self.opened = self.answer == 0;\n            self.number = u64::from(self.opened);")],
    ),
    // The feed: pieces.
    shown(
        &["wrong byte of a record that isn't complete"],
        plant(
            "record-at-once",
            "a wrong first byte of a record is refused when it comes",
            &[(
                PUSH,
                "        held.loose.push(byte);
        if held.opened && held.loose[0] != 0x4C {
            held.judge(desk, sheet, seen, history, slip);
            continue;
        }",
            )],
        ),
    ),
    breaks(
        OVER_ANOTHER_CUT,
        plant(
            "loose-dropped",
            "what is not complete at a piece's end is dropped",
            &[(AFTER_PIECE, "            held.judge(desk, sheet, seen, history, slip);\n        }\n    }\n    held.loose.clear();\n    held.write(feed);")],
        ),
    ),
    shown(
        &[
            "piece that leaves 5 loose bytes of a record", "piece that leaves 4 to 10 bytes of the header",
            "piece that leaves 11 bytes of the header", "empty piece over loose bytes",
        ],
        plant(
            "loose-four",
            "at most four loose bytes are kept",
            &[(AFTER_PIECE, "            held.judge(desk, sheet, seen, history, slip);\n        }\n    }\n    held.loose.truncate(4);\n    held.write(feed);")],
        ),
    ),
    shown(
        &["piece within the header", "piece within a record"],
        plant(
            "loose-of-last",
            "of what is cut twice only the last piece's bytes are kept",
            &[(
                PIECE,
                "    if !piece.is_empty() && held.loose.len() + piece.len() < whole_item(held.opened, &held.loose) {
        held.loose.clear();
    }
    for &byte in piece {",
            )],
        ),
    ),
    plant(
        "loose-left",
        "the places of loose bytes that are used no more keep them",
        &[("        feed[..FEED].fill(0);\n        feed[STANDING]", "        feed[STANDING]")],
    ),
    breaks(
        OVER_ANOTHER_CUT,
        shown(
            &["empty piece before the header", "empty piece over loose bytes"],
            plant(
                "empty-ends",
                "an empty piece is an end",
                &[(
                    PIECE,
                    "    if piece.is_empty() && held.answer == 0 && (!held.opened || !held.loose.is_empty()) {
        held.judge(desk, sheet, seen, history, slip);
    }
    for &byte in piece {",
                )],
            ),
        ),
    ),
    shown(
        &["piece of more than 65,535 bytes"],
        plant("piece-16-bits", "a piece's length is cut to 16 bits", &[("in piece {", "in &piece[..piece.len() % 65536] {")]),
    ),
    // The feed: stops.
    shown(
        &[
            "header refused, and bytes behind it",
            "record that stops, and loose bytes behind it",
            "record that stops, and a record behind it",
        ],
        plant(
            "stop-later",
            "what follows the record that stops is looked at in the same piece",
            &[
                (PIECE, "    let stopped = held.answer != 0;\n    for &byte in piece {"),
                (STOPS, "        if stopped {\n            break;"),
            ],
        ),
    ),
    shown(
        &[
            "header refused, and bytes behind it",
            "record that stops, and loose bytes behind it",
            "record that stops, and a record behind it",
            "piece after a stop",
        ],
        plant(
            "stop-keeps",
            "what follows the record that stops is kept",
            &[(STOPS, "        if held.answer != 0 {\n            held.loose.push(byte);\n            if held.loose.len() == 3 {\n                break;\n            }\n            continue;")],
        ),
    ),
    shown(
        &["piece after a stop"],
        plant(
            "stop-for-a-piece",
            "the next piece goes on after a stop",
            &[(PIECE, "    if !piece.is_empty() {\n        held.answer = 0;\n    }\n    for &byte in piece {")],
        ),
    ),
    shown(
        &["piece after a stop", "empty piece after a stop"],
        plant(
            "stop-10",
            "a piece after a stop is answered with 10",
            &[(PIECE, "    if held.answer != 0 {\n        *record = held.number;\n        return 10;\n    }\n    for &byte in piece {")],
        ),
    ),
    shown(
        &["empty piece after a stop"],
        plant(
            "stop-empty-0",
            "an empty piece after a stop is answered with 0",
            &[(PIECE, "    if piece.is_empty() {\n        *record = held.number;\n        return 0;\n    }\n    for &byte in piece {")],
        ),
    ),
    shown(
        &["piece after a stop", "empty piece after a stop"],
        plant(
            "stop-counts",
            "a piece after a stop is counted",
            &[(PIECE, "    if held.opened && held.answer != 0 {\n        held.number = held.number.saturating_add(1);\n    }\n    for &byte in piece {")],
        ),
    ),
    breaks(
        AS_SINGLE_STEPS,
        plant(
            "stop-other-cycle",
            "a fault in a feed shows another true cycle than the step, if there is one",
            &[
                ("self.answer = step(desk, sheet, seen, history, slip, &self.loose);", "self.answer = step_apart(desk, sheet, seen, history, slip, &self.loose);"),
                ("let answer = step(desk, sheet, seen, history, slip, record);", "let answer = step_apart(desk, sheet, seen, history, slip, record);"),
                (
                    "/// A fresh feed, 22 zeros.",
                    "fn step_apart(desk: &mut [u8], sheet: &mut [u8], seen: &mut [u8], history: &mut [u8], slip: &mut [u8], record: &[u8]) -> u8 {
    let answer = step(desk, sheet, seen, history, slip, record);
    if answer == 1 {
        let k = usize::from(desk[0]);
        let entries = slip[1..].chunks_exact(ENTRY).take(usize::from(slip[0]));
        let circle: Vec<Triple> = entries.map(|entry| (entry[0], entry[1], entry[2])).collect();
        let arrows = (0..circle.len()).flat_map(|i| [ER, EN, SR, SN].map(move |kind| (i, kind)));
        for (i, kind, source) in arrows.flat_map(|(i, kind)| [0, 1, 2].map(move |source| (i, kind, source))) {
            let mut other = circle.clone();
            other[i] = (circle[i].0, kind, source);
            show(slip, &other, k, seen);
            if other != circle && true_circle(desk, sheet, seen, slip) {
                return answer;
            }
        }
        show(slip, &circle, k, seen);
    }
    answer
}

/// A fresh feed, 22 zeros.",
                ),
            ],
        ),
    ),
    // The feed: 9, and first-seen numbers.
    shown(
        &["record that stops with 9"],
        plant(
            "stop-not-9",
            "a feed goes on after a 9",
            &[(
                "self.answer = step(desk, sheet, seen, history, slip, &self.loose);",
                "self.answer = match step(desk, sheet, seen, history, slip, &self.loose) {
                9 => 0,
                answer => answer,
            };",
            )],
        ),
    ),
    shown(
        &["end over loose bytes at the last count, 3"],
        plant(
            "end-9",
            "an end over loose bytes at the last count is answered with 9",
            &[(AFTER_END, "        held.judge(desk, sheet, seen, history, slip);\n        if held.answer == 3 && word_at(desk, COUNT) == u32::MAX {\n            held.answer = 9;\n        }\n    }\n    held.write(feed);")],
        ),
    ),
    shown(
        &["pair drawn first in a piece, its place another"],
        plant(
            "feed-place",
            "a pair's number is the feed's record number",
            &[(
                "self.answer = step(desk, sheet, seen, history, slip, &self.loose);",
                "let before = seen.to_vec();
            self.answer = step(desk, sheet, seen, history, slip, &self.loose);
            for (old, new) in before.chunks_exact(WORD).zip(seen.chunks_exact_mut(WORD)) {
                if old != &new[..] {
                    set_word(new, 0, self.number as u32);
                }
            }",
            )],
        ),
    ),
    // The feed: the number.
    shown(
        &[
            "number that reaches 2 to the 64 less 1",
            "number that stays at 2 to the 64 less 1",
            "end over loose bytes, the number at the top",
        ],
        plant("number-wraps", "the number goes from 2 to the 64 less 1 to 0", &[("self.number.saturating_add(1)", "self.number.wrapping_add(1)")]),
    ),
    plant(
        "number-32-bits",
        "the number has 32 bits",
        &[("self.number.saturating_add(1)", "self.number.wrapping_add(1) & 0xFFFF_FFFF")],
    ),
    plant(
        "number-high-first",
        "the number has its high byte first",
        &[
            ("feed[NUMBER..FEED].iter().rev().fold(0,", "feed[NUMBER..FEED].iter().fold(0,"),
            ("&self.number.to_le_bytes()", "&self.number.to_be_bytes()"),
        ],
    ),
    plant(
        "number-before",
        "a refused record has the number of the one before",
        &[(
            "self.answer = step(desk, sheet, seen, history, slip, &self.loose);",
            "self.answer = step(desk, sheet, seen, history, slip, &self.loose);\n            self.number -= u64::from(self.answer > 1);",
        )],
    ),
    // The feed: ends.
    shown(
        &["end without a byte"],
        plant("end-empty-0", "an end without a byte is answered with 0", &[(END, "    if held.answer == 0 && !held.loose.is_empty() {")]),
    ),
    shown(
        &ENDS_IN_HEADER,
        plant(
            "end-short-header-0",
            "an end over part of the header is answered with 0",
            &[(END, "    if held.answer == 0 && held.opened != held.loose.is_empty() {")],
        ),
    ),
    plant(
        "end-header-3",
        "an end before the header is complete is answered with 3",
        &[(AFTER_END, "        held.judge(desk, sheet, seen, history, slip);\n        held.answer = 3;\n    }\n    held.write(feed);")],
    ),
    shown(
        &ENDS_WITH_0,
        plant("end-step", "an end between records is a step with an empty record", &[(END, "    if held.answer == 0 {")]),
    ),
    shown(
        &["end between records, the desk closed"],
        plant(
            "end-closed-10",
            "an end between records is answered with 10 if the desk is closed",
            &[(END, "    if held.answer == 0 && (!held.opened || !held.loose.is_empty() || desk.get(1) == Some(&1)) {")],
        ),
    ),
    shown(
        &ENDS_WITH_0,
        plant(
            "end-for-good",
            "after an end that answers 0 a header must follow",
            &[(
                END,
                "    if held.answer == 0 && held.opened && held.loose.is_empty() {
        *record = held.number;
        return feed_start(feed);
    }
    if held.answer == 0 && (!held.opened || !held.loose.is_empty()) {",
            )],
        ),
    ),
    plant(
        "end-forgotten",
        "an end's refusal is not kept",
        &[(AFTER_END, "        held.judge(desk, sheet, seen, history, slip);\n    }")],
    ),
    shown(
        &ENDS_WITH_10,
        plant(
            "end-10",
            "an end over loose bytes is answered with 3 before 10",
            &[(AFTER_END, "        held.judge(desk, sheet, seen, history, slip);\n        if held.answer == 10 {\n            held.answer = 3;\n        }\n    }\n    held.write(feed);")],
        ),
    ),
    shown(
        &ENDS_WITH_11,
        plant(
            "end-11",
            "an end over loose bytes is answered with 3 before 11",
            &[(AFTER_END, "        held.judge(desk, sheet, seen, history, slip);\n        if held.answer == 11 {\n            held.answer = 3;\n        }\n    }\n    held.write(feed);")],
        ),
    ),
    plant(
        "end-number",
        "an end over loose bytes has the number of the last record",
        &[(AFTER_END, "        held.judge(desk, sheet, seen, history, slip);\n        held.number -= u64::from(held.opened);\n    }\n    held.write(feed);")],
    ),
    shown(
        &ENDS_WITH_3,
        plant(
            "end-fills-up",
            "an end fills up a record with zeros",
            &[(
                END,
                "    if held.opened && !held.loose.is_empty() {
        held.loose.resize(RECORD, 0);
    }
    if held.answer == 0 && (!held.opened || !held.loose.is_empty()) {",
            )],
        ),
    ),
    shown(
        &["end after a stop"],
        plant(
            "end-stop-0",
            "an end after a stop is answered with 0",
            &[(END, "    if held.answer != 0 {\n        *record = held.number;\n        return 0;\n    }\n    if held.answer == 0 && (!held.opened || !held.loose.is_empty()) {")],
        ),
    ),
    // The feed's fit test.
    plant(
        "feed-short-2",
        "a feed too short is answered with 2",
        &[(
            "else {\n        return 11;\n    };\n    for &byte in piece {",
            "else {\n        return if feed.len() < FEED { 2 } else { 11 };\n    };\n    for &byte in piece {",
        )],
    ),
    plant(
        "feed-unfit-record",
        "the record number is not written at a piece for an unfit feed",
        &[(
            "    *record = 0;
    let Some(mut held) = Feed::read(feed) else {
        return 11;
    };
    for &byte in piece {",
            "    let Some(mut held) = Feed::read(feed) else {
        return 11;
    };
    for &byte in piece {",
        )],
    ),
    plant(
        "feed-unfit-end-record",
        "the record number is not written at an end for an unfit feed",
        &[(
            "    *record = 0;
    let Some(mut held) = Feed::read(feed) else {
        return 11;
    };
    if held.answer == 0",
            "    let Some(mut held) = Feed::read(feed) else {
        return 11;
    };
    if held.answer == 0",
        )],
    ),
    plant(
        "feed-unfit-started",
        "an unfit feed is started anew",
        &[(
            "else {\n        return 11;\n    };\n    for &byte in piece {",
            "else {\n        feed_start(feed);\n        return 11;\n    };\n    for &byte in piece {",
        )],
    ),
    plant("feed-opened-2", "the feed's byte 1 may be 2", &[("if feed[OPENED] > 1 {", "if feed[OPENED] > 2 {")]),
    plant(
        "feed-loose-5",
        "five loose bytes are fit before the header too",
        &[
            ("if count >= whole_item(opened, loose) {", "if count >= whole_item(opened, loose).max(6) {"),
            ("if held.loose.len() == whole_item(held.opened, &held.loose) {", "if held.loose.len() >= whole_item(held.opened, &held.loose) {"),
        ],
    ),
    plant(
        "feed-unused-first",
        "the first unused loose byte is not looked at",
        &[("unused.iter().any(", "unused.iter().skip(1).any(")],
    ),
    plant(
        "feed-unused-last",
        "the last unused loose byte is not looked at",
        &[("unused.iter().any(", "unused.iter().rev().skip(1).any(")],
    ),
    plant("feed-loose-standing", "loose bytes may stand beside an answer", &[("if answer != 0 && count != 0 {", "if answer == 1 && count != 0 {")]),
    plant("feed-early-10", "10 is fit before opening", &[("answer != 0 && answer != 2 {", "answer != 0 && answer != 2 && answer != 10 {")]),
    plant("feed-early-number", "a number is fit before opening", &[("if !opened && !at_0 {", "if !opened && answer != 0 && !at_0 {")]),
    sharing("feed-late-2", "2 is fit after opening", in_place!(STANDS_AT, "matches!(answer, 0..=11 | 15..=19)")),
    sharing("feed-late-9", "9 is unfit after opening", in_place!(STANDS_AT, "matches!(answer, 0 | 1 | 3..=8 | 10 | 11 | 15..=19)")),
    sharing("feed-late-12", "12 is fit after opening", in_place!(STANDS_AT, "matches!(answer, 0 | 1 | 3..=12 | 15..=19)")),
    sharing("feed-late-10", "10 is unfit, which no start leads to", in_place!(STANDS_AT, "matches!(answer, 0 | 1 | 3..=9 | 11 | 15..=19)")),
    plant(
        "feed-answer-at-0",
        "an answer but 1 is fit at record 0 after opening",
        &[("if opened && answer != 0 && at_0 {", "if opened && answer == 1 && at_0 {")],
    ),
    plant(
        "feed-number-byte",
        "the number's last byte is not looked at",
        &[("feed[NUMBER..FEED].iter().all(|&b| b == 0)", "feed[NUMBER..FEED - 1].iter().all(|&b| b == 0)")],
    ),
    // The feed's start.
    shown(
        &["start of a feed a byte short"],
        plant(
            "start-short",
            "a feed a byte short is started",
            &[(
                "    if feed.len() < FEED {\n        return 2;\n    }\n    feed[..FEED].fill(0);",
                "    if feed.len() < FEED - 1 {\n        return 2;\n    }\n    let end = feed.len().min(FEED);\n    feed[..end].fill(0);",
            )],
        ),
    ),
    plant("start-11", "a start of a short feed is answered with 11", &[("    if feed.len() < FEED {\n        return 2;", "    if feed.len() < FEED {\n        return 11;")]),
    shown(
        &["start of a longer feed"],
        plant(
            "start-past",
            "a start clears a byte past the feed's size",
            &[("\n    feed[..FEED].fill(0);\n    0\n", "\n    let end = feed.len().min(FEED + 1);\n    feed[..end].fill(0);\n    0\n")],
        ),
    ),
    shown(
        &["start over a used feed"],
        plant("start-number", "a start leaves the number", &[("\n    feed[..FEED].fill(0);\n    0\n", "\n    feed[..NUMBER].fill(0);\n    0\n")]),
    ),
    // The balances of a piece: its length.
    shown(
        &["piece of 10,000 records"],
        plant("piece-9999", "a piece of 10,000 records is refused", &[("= 10_000 * RECORD;", "= 9_999 * RECORD;")]),
    ),
    shown(
        &["piece of 10,001 records"],
        plant("piece-10001", "a piece of 10,001 records is not refused", &[("= 10_000 * RECORD;", "= 10_001 * RECORD;")]),
    ),
    shown(
        &["piece of 10,000 records"],
        plant("piece-at-limit", "a piece of 60,000 bytes is refused", refusing!("piece.len() >= PIECE || piece.len() % RECORD != 0")),
    ),
    shown(
        &["piece 1 to 5 bytes over 10,000 records"],
        plant(
            "piece-limit-in-records",
            "up to 60,005 bytes are taken for 10,000 records",
            refusing!("piece.len() / RECORD > 10_000 || piece.len() < PIECE && piece.len() % RECORD != 0"),
        ),
    ),
    plant(
        "piece-10000-bytes",
        "a piece of more than 10,000 bytes is refused",
        refusing!("piece.len() > 10_000 || piece.len() % RECORD != 0"),
    ),
    shown(
        &OVER_10000,
        plant("piece-65535", "up to 65,535 bytes pass", refusing!("piece.len() > 65_535 || piece.len() % RECORD != 0")),
    ),
    shown(&OVER_10000, plant("piece-no-limit", "a piece of any length passes", refusing!("piece.len() % RECORD != 0"))),
    shown(
        &["long piece whose length is whole in 16 bits"],
        plant(
            "piece-length-16-bits",
            "the length of a piece is taken in 16 bits",
            refusing!("piece.len() % 65_536 > PIECE || piece.len() % 65_536 % RECORD != 0"),
        ),
    ),
    plant(
        "piece-cut-off",
        "of a longer piece the first 10,000 records are counted",
        &[(LENGTHS, "    let piece = &piece[..piece.len().min(PIECE)];\n    if piece.len() % RECORD != 0 {")],
    ),
    breaks(
        AS_COUNTED,
        plant("piece-rest-passed", "bytes behind the last whole record are passed over", refusing!("piece.len() > PIECE")),
    ),
    shown(
        &["piece 1 byte over a record"],
        plant("piece-one-over", "one byte behind the last record is passed over", refusing!("piece.len() > PIECE || piece.len() % RECORD > 1")),
    ),
    shown(
        &["piece 5 bytes over a record"],
        plant(
            "piece-one-short",
            "a last record that is one byte short is passed over",
            refusing!("piece.len() > PIECE || (piece.len() + 1) % RECORD > 1"),
        ),
    ),
    shown(
        &["piece 3 bytes over a record"],
        plant("piece-threes", "a length that is a multiple of three passes", refusing!("piece.len() > PIECE || piece.len() % 3 != 0")),
    ),
    shown(
        &["piece 2 bytes over a record", "piece 4 bytes over a record"],
        plant("piece-twos", "an even length passes", refusing!("piece.len() > PIECE || piece.len() % 2 != 0")),
    ),
    shown(
        &["piece 4 bytes over a record"],
        plant(
            "piece-four-skipped",
            "four bytes before whole records are taken for a header, whatever they are",
            &[(LENGTHS, "    let piece = &piece[if piece.len() % RECORD == HEADER { HEADER } else { 0 }..];
    if piece.len() > PIECE || piece.len() % RECORD != 0 {")],
        ),
    ),
    shown(
        &["piece that begins with a header"],
        plant(
            "piece-header-skipped",
            "a header at the beginning is skipped",
            &[(LENGTHS, "    let piece = if piece.starts_with(&[0x4C, 0x48, 1]) { piece.get(HEADER..).unwrap_or(&[]) } else { piece };
    if piece.len() > PIECE || piece.len() % RECORD != 0 {")],
        ),
    ),
    shown(
        &["empty piece"],
        plant("piece-empty-14", "an empty piece is refused", refusing!("piece.is_empty() || piece.len() > PIECE || piece.len() % RECORD != 0")),
    ),
    plant("piece-2", "a refused piece is answered with 2", &[(REFUSAL, "        return (2, [0; 64]);")]),
    plant(
        "piece-rest-3",
        "a piece that isn't a whole number of records is answered with 3",
        &[(REFUSAL, "        return (if piece.len() > PIECE { 14 } else { 3 }, [0; 64]);")],
    ),
    shown(
        &OVER_10000,
        plant(
            "piece-long-8",
            "a piece of too many records is answered with 8",
            &[(REFUSAL, "        return (if piece.len() % RECORD == 0 { 8 } else { 14 }, [0; 64]);")],
        ),
    ),
    // What a refused piece reports, and what is written.
    shown(
        &["piece refused for its last bytes, with balances"],
        plant(
            "refused-whole",
            "a piece refused for its last bytes reports the balances of its whole records",
            &[(REFUSAL, "        let whole = piece.len() / RECORD * RECORD;
        return (14, if piece.len() > PIECE { [0; 64] } else { balance(&piece[..whole]).1 });")],
        ),
    ),
    shown(
        &["piece refused for being long, with balances"],
        plant(
            "refused-first",
            "a piece refused for its length reports the balances of the first 10,000 records",
            &[(REFUSAL, "        let long = piece.len() > PIECE && piece.len() % RECORD == 0;
        return (14, if long { balance(&piece[..PIECE]).1 } else { [0; 64] });")],
        ),
    ),
    plant("refused-left", "a refused piece leaves the numbers", written!("    if answer == 0 {\n        *balances = numbers;\n    }")),
    plant(
        "refused-long-left",
        "a piece over the limit leaves the numbers",
        written!("    if piece.len() <= PIECE {\n        *balances = numbers;\n    }"),
    ),
    plant(
        "refused-once",
        "a refused piece writes a 0 for the first class alone",
        written!("    if answer == 0 {\n        *balances = numbers;\n    }\n    balances[0] = numbers[0];"),
    ),
    plant(
        "not-cleared",
        "balances are added to what the numbers held",
        written!("    for (balance, number) in balances.iter_mut().zip(numbers) {\n        *balance = balance.wrapping_add(number);\n    }"),
    ),
    plant(
        "zeros-left",
        "a balance of 0 is not written",
        written!("    for (balance, number) in balances.iter_mut().zip(numbers) {
        if answer != 0 || number != 0 {
            *balance = number;
        }
    }"),
    ),
    plant("last-left", "the number of class 63 is not written", written!("    balances[..63].copy_from_slice(&numbers[..63]);")),
    plant("first-left", "the number of class 0 is not written", written!("    balances[1..].copy_from_slice(&numbers[1..]);")),
    plant("half-written", "the numbers of classes 32 to 63 are not written", written!("    balances[..32].copy_from_slice(&numbers[..32]);")),
    shown(
        &["empty piece"],
        plant("empty-left", "an empty piece leaves the numbers", written!("    if !piece.is_empty() {\n        *balances = numbers;\n    }")),
    ),
    plant(
        "remembers",
        "the balances of the piece before are added",
        written!("    static BEFORE: std::sync::Mutex<[i32; 64]> = std::sync::Mutex::new([0; 64]);
    let mut before = BEFORE.lock().unwrap();
    *balances = std::array::from_fn(|class| if answer == 0 { numbers[class].wrapping_add(before[class]) } else { 0 });
    *before = numbers;"),
    ),
    // Which records count.
    breaks(
        AS_HELD,
        shown(&TRIES_COUNT, plant("tries-missing", "a try does not count", passing!("read_record(six).filter(|r| r.kind != TAKE || r.mode < TRY)"))),
    ),
    shown(
        &["acquire of mode 5 that counts"],
        plant("mode-5-missing", "an acquire of mode 5 does not count", passing!("read_record(six).filter(|r| r.kind != TAKE || r.mode < LAST_MODE)")),
    ),
    shown(
        &["acquire of mode 1 that counts", "acquire of mode 2 that counts", "acquire of mode 4 that counts", "acquire of mode 5 that counts"],
        plant("reads-missing", "a read does not count", passing!("read_record(six).filter(|r| r.kind != TAKE || r.mode % TRY == EXCLUSIVE)")),
    ),
    shown(
        &["malformed by mode 6 alone"],
        plant(
            "balance-mode-6",
            "an acquire of mode 6 counts",
            passing!("read_record(&[six[0], six[1], six[2], six[3], six[4], if six[5] == 6 { 5 } else { six[5] }]).filter(|r| r.kind != RELEASE || six[5] != 6)"),
        ),
    ),
    breaks(
        AS_COUNTED,
        shown(
            &OVER_MODE,
            plant(
                "balance-any-mode",
                "an acquire's mode is not looked at",
                passing!("read_record(&[six[0], six[1], six[2], six[3], six[4], if six[3] == TAKE { 0 } else { six[5] }])"),
            ),
        ),
    ),
    shown(
        &RELEASE_MODE,
        plant(
            "balance-release-mode",
            "a release's mode is not looked at",
            passing!("read_record(&[six[0], six[1], six[2], six[3], six[4], if six[3] == RELEASE { 0 } else { six[5] }])"),
        ),
    ),
    shown(
        &["release of mode 1 that counts", "release of mode 2 that counts", RELEASED_TRIES[0], RELEASED_TRIES[1], RELEASED_TRIES[2]],
        plant(
            "balance-release-mode-0",
            "a release of mode 0 alone counts",
            passing!("read_record(six).filter(|r| r.kind != RELEASE || r.mode == 0)"),
        ),
    ),
    breaks(
        AS_HELD,
        shown(
            &RELEASED_TRIES,
            plant(
                "released-tries-missing",
                "the release of a try does not count",
                passing!("read_record(six).filter(|r| r.kind != RELEASE || r.mode < TRY)"),
            ),
        ),
    ),
    shown(
        &["release of mode 5 that counts"],
        plant(
            "released-5-missing",
            "a release of mode 5 does not count",
            passing!("read_record(six).filter(|r| r.kind != RELEASE || r.mode < LAST_MODE)"),
        ),
    ),
    shown(
        &["malformed by a release's mode 6 alone"],
        plant(
            "balance-release-mode-6",
            "a release of mode 6 counts",
            passing!("read_record(&[six[0], six[1], six[2], six[3], six[4], if six[3] == RELEASE && six[5] == 6 { 5 } else { six[5] }])"),
        ),
    ),
    shown(
        &["class acquired in one mode and released in another"],
        plant(
            "released-in-other-mode",
            "a release counts for nothing in a mode in which its class has not been acquired, where it has in another",
            &[(
                PASSED,
                "    let mut modes = [0u8; 256];
    let passed = piece.chunks_exact(RECORD).filter_map(read_record).filter(|r| {
        let own = 1u8 << r.mode;
        if r.kind == TAKE {
            modes[usize::from(r.class)] |= own;
        }
        r.kind != RELEASE || modes[usize::from(r.class)] == 0 || modes[usize::from(r.class)] & own != 0
    });",
            )],
        ),
    ),
    shown(
        &["malformed by core 8 alone"],
        plant(
            "balance-core-8",
            "a record of core 8 counts",
            passing!("read_record(&[six[0], six[1], if six[2] == 8 { 7 } else { six[2] }, six[3], six[4], six[5]])"),
        ),
    ),
    shown(
        &OVER_CORE,
        plant("balance-any-core", "the core is not looked at", passing!("read_record(&[six[0], six[1], 0, six[3], six[4], six[5]])")),
    ),
    shown(
        &["record of core 7 that counts"],
        plant("balance-core-7", "a record of core 7 does not count", passing!("read_record(six).filter(|r| r.core < 7)")),
    ),
    plant("balance-core-0", "records of core 0 alone count", passing!("read_record(six).filter(|r| r.core == 0)")),
    shown(
        &["record of core 0 that counts"],
        plant("balance-not-core-0", "a record of core 0 does not count", passing!("read_record(six).filter(|r| r.core > 0)")),
    ),
    shown(
        &["malformed by the signature's first byte alone"],
        plant("balance-signature-4c", "the first byte is not looked at", passing!("read_record(&[0x4C, six[1], six[2], six[3], six[4], six[5]])")),
    ),
    shown(
        &["malformed by the signature's second byte alone"],
        plant("balance-signature-4b", "the second byte is not looked at", passing!("read_record(&[six[0], 0x4B, six[2], six[3], six[4], six[5]])")),
    ),
    shown(
        &["kind 2 in a piece", "kind 3 in a piece", "kind 4 to 8 in a piece", "kind 9 in a piece"],
        plant(
            "balance-kind-bit",
            "of the kind its lowest bit alone counts",
            &[("for Record { kind, class, .. } in passed {\n        match kind {", "for Record { kind, class, .. } in passed {\n        match kind % 2 {")],
        ),
    ),
    shown(
        &["kind 2 in a piece"],
        plant("balance-kind-2", "kind 2 counts as an acquire", &[(TAKEN, "            TAKE | 2 => takes[usize::from(class)] += 1,")]),
    ),
    shown(
        &["malformed by a kind over 13 alone"],
        plant(
            "balance-kind-4-bits",
            "the kind is taken in four bits",
            passing!("read_record(&[six[0], six[1], six[2], six[3] % 16, six[4], six[5]])"),
        ),
    ),
    plant("releases-missing", "a release does not count", &[(RELEASED, "            RELEASE => releases[usize::from(class)] += 0,")]),
    plant("acquires-missing", "an acquire does not count", &[(TAKEN, "            TAKE => takes[usize::from(class)] += 0,")]),
    // Malformed records.
    plant(
        "malformed-14",
        "a piece with a malformed record is refused with 14",
        &[(
            LENGTHS,
            "    let well = piece.chunks_exact(RECORD).all(|six| read_record(six).is_some());
    if !well || piece.len() > PIECE || piece.len() % RECORD != 0 {",
        )],
    ),
    plant(
        "malformed-3",
        "a piece with a malformed record is refused with 3",
        &[(
            COUNTED_ALL,
            "    if piece.chunks_exact(RECORD).any(|six| read_record(six).is_none()) {
        return (3, [0; 64]);
    }
    (0, balances)",
        )],
    ),
    breaks(
        ADD,
        shown(
            &["record that counts behind a malformed one"],
            plant(
                "malformed-ends",
                "the first malformed record ends the counting",
                &[(PASSED, "    let passed = piece.chunks_exact(RECORD).map_while(read_record);")],
            ),
        ),
    ),
    shown(
        &["record that counts right behind a malformed one"],
        plant(
            "malformed-swallows",
            "the record behind a malformed one does not count",
            &[(
                PASSED,
                "    let mut swallows = false;
    let passed = piece.chunks_exact(RECORD).filter_map(|six| {
        let record = read_record(six).filter(|_| !swallows);
        swallows = read_record(six).is_none();
        record
    });",
            )],
        ),
    ),
    shown(
        &["record that counts before a malformed one"],
        plant(
            "malformed-restarts",
            "what stands before a malformed record does not count",
            taking!("piece.chunks_exact(RECORD).skip(piece.chunks_exact(RECORD).rposition(|six| read_record(six).is_none()).map_or(0, |at| at + 1))"),
        ),
    ),
    plant(
        "malformed-byte-by-byte",
        "behind a malformed record the next byte is tried",
        &[(
            PASSED,
            "    let mut at = 0;
    let passed = std::iter::from_fn(|| {
        while at + RECORD <= piece.len() {
            match read_record(&piece[at..at + RECORD]) {
                None => at += 1,
                record => {
                    at += RECORD;
                    return record;
                }
            }
        }
        None
    });",
        )],
    ),
    plant(
        "form-unread",
        "only kind and class are looked at",
        passing!("read_record(&[0x4C, 0x4B, 0, six[3], six[4], 0])"),
    ),
    // Classes.
    breaks(
        AS_COUNTED,
        shown(
            &OVER_63,
            plant(
                "class-mask",
                "of the class six bits count",
                passing!("read_record(six).map(|r| Record { class: r.class % 64, ..r })"),
            ),
        ),
    ),
    shown(
        &["class 128 to 254 in a piece"],
        plant(
            "class-mask-7",
            "of the class seven bits count",
            passing!("read_record(six).map(|r| Record { class: r.class % 128, ..r })"),
        ),
    ),
    shown(
        &OVER_63,
        plant(
            "class-over-at-63",
            "a class of 64 or more counts as 63",
            passing!("read_record(six).map(|r| Record { class: r.class.min(63), ..r })"),
        ),
    ),
    shown(
        &["class 64 in a piece"],
        plant(
            "class-64-at-0",
            "class 64 counts as class 0",
            passing!("read_record(six).map(|r| Record { class: if r.class == 64 { 0 } else { r.class }, ..r })"),
        ),
    ),
    shown(
        &["class 255 in a piece"],
        plant(
            "class-255-at-63",
            "class 255 counts as class 63",
            passing!("read_record(six).map(|r| Record { class: if r.class == 255 { 63 } else { r.class }, ..r })"),
        ),
    ),
    shown(
        &["class of 64 or more in a piece"],
        plant(
            "class-over-14",
            "a piece with a class of 64 or more is refused with 14",
            &[(
                COUNTED_ALL,
                "    if takes[64..].iter().chain(&releases[64..]).any(|&n| n > 0) {
        return (14, [0; 64]);
    }
    (0, balances)",
            )],
        ),
    ),
    shown(
        &["class of 64 or more in a piece"],
        plant(
            "class-over-ends",
            "a class of 64 or more ends the counting",
            &[(PASSED, "    let passed = piece.chunks_exact(RECORD).filter_map(read_record).take_while(|r| usize::from(r.class) < MAX_K);")],
        ),
    ),
    shown(
        &["class 63 in a piece"],
        plant("class-63-missing", "class 63 counts for nothing", passing!("read_record(six).filter(|r| r.class != 63)")),
    ),
    shown(
        &["class 0 in a piece"],
        plant("class-0-missing", "class 0 counts for nothing", passing!("read_record(six).filter(|r| r.class != 0)")),
    ),
    plant("class-8", "a class of 8 or more counts for nothing", passing!("read_record(six).filter(|r| r.class < 8)")),
    plant("class-32", "a class of 32 or more counts for nothing", passing!("read_record(six).filter(|r| r.class < 32)")),
    plant("classes-backwards", "the highest class comes first", balanced!("takes[63 - class] - releases[63 - class]")),
    plant("classes-from-1", "each number is that of the class before", balanced!("takes[(class + 63) % 64] - releases[(class + 63) % 64]")),
    // The numbers.
    plant("balance-sign", "acquires are taken from releases", balanced!("releases[class] - takes[class]")),
    shown(
        &["balance of -1", "balance that comes back from below 0", "balances below and above 0", "balance below -128"],
        plant("balance-clamped", "a balance below 0 is 0", balanced!("i32::max(takes[class] - releases[class], 0)")),
    ),
    breaks(
        ADD,
        shown(
            &["balance of -1", "balance that comes back from below 0", "balances below and above 0", "balance below -128"],
            plant(
                "balance-never-below",
                "a release does not count where the balance is 0",
                &[(
                    RELEASED,
                    "            RELEASE if takes[usize::from(class)] > releases[usize::from(class)] => releases[usize::from(class)] += 1,",
                )],
            ),
        ),
    ),
    plant("balance-absolute", "a balance has no sign", balanced!("i32::abs(takes[class] - releases[class])")),
    plant(
        "balance-below-14",
        "a piece with a balance below 0 is refused with 14",
        &[(COUNTED_ALL, "    if balances.iter().any(|&balance: &i32| balance < 0) {\n        return (14, [0; 64]);\n    }\n    (0, balances)")],
    ),
    plant("balance-signum", "a balance is 1, 0 or -1", balanced!("i32::signum(takes[class] - releases[class])")),
    plant("balance-unsigned", "a balance is a number of 16 bits without a sign", balanced!("i32::from((takes[class] - releases[class]) as u16)")),
    shown(
        &["balance over 127", "balance below -128"],
        plant("balance-8-bits", "a balance is a number of 8 bits", balanced!("i32::from((takes[class] - releases[class]) as i8)")),
    ),
    shown(
        &["balance over 4,095", "balance below -4,096"],
        plant("balance-13-bits", "a balance is a number of 13 bits", balanced!("(takes[class] - releases[class]) << 19 >> 19")),
    ),
    plant("balance-12-bits", "a balance is a number of 12 bits", balanced!("(takes[class] - releases[class]) << 20 >> 20")),
    shown(
        &["balance over 8,191", "balance below -8,192"],
        plant("balance-14-bits", "a balance is a number of 14 bits", balanced!("(takes[class] - releases[class]) << 18 >> 18")),
    ),
    shown(
        &["class acquired over 255 times"],
        plant("takes-8-bits", "acquires are counted in 8 bits", &[(TAKEN, "            TAKE => takes[usize::from(class)] = (takes[usize::from(class)] + 1) % 256,")]),
    ),
    shown(
        &["balance over 127"],
        plant("balance-127", "a balance stays at 127", balanced!("i32::min(takes[class] - releases[class], 127)")),
    ),
    shown(
        &["balance below -128"],
        plant("balance-minus-128", "a balance stays at -128", balanced!("i32::max(takes[class] - releases[class], -128)")),
    ),
    shown(
        &["balance over 4,095"],
        plant("balance-4095", "a balance stays at 4,095", balanced!("i32::min(takes[class] - releases[class], 4095)")),
    ),
    shown(
        &["balance over 8,191"],
        plant("balance-8191", "a balance stays at 8,191", balanced!("i32::min(takes[class] - releases[class], 8191)")),
    ),
    shown(
        &["balance of 10,000"],
        plant("balance-9999", "a balance stays at 9,999", balanced!("i32::min(takes[class] - releases[class], 9999)")),
    ),
    shown(
        &["balance of -10,000"],
        plant("balance-minus-9999", "a balance stays at -9,999", balanced!("i32::max(takes[class] - releases[class], -9999)")),
    ),
    plant("balance-48", "of a class 48 acquires count at most", &[(TAKEN, "            TAKE => takes[usize::from(class)] = i32::min(takes[usize::from(class)] + 1, DEEPEST as i32),")]),
    // What a desk would say.
    plant(
        "accepted-only",
        "what a desk of 64 classes refuses does not count",
        &[(
            PASSED,
            "    let (mut desk, mut sheet, mut seen, mut slip) = ([0; DESK], [0; 4096], [0; 16_384], [0; 449]);
    let mut history = vec![0; HISTORY];
    open(64, 0, &mut desk, &mut sheet, &mut seen, &mut history);
    let passed = piece.chunks_exact(RECORD).filter_map(|six| {
        let answer = step(&mut desk, &mut sheet, &mut seen, &mut history, &mut slip, six);
        read_record(six).filter(|_| answer < 2)
    });",
        )],
    ),
    plant(
        "not-behind-fault",
        "what comes behind a fault does not count",
        &[(
            PASSED,
            "    let (mut desk, mut sheet, mut seen, mut slip) = ([0; DESK], [0; 4096], [0; 16_384], [0; 449]);
    let mut history = vec![0; HISTORY];
    open(64, 0, &mut desk, &mut sheet, &mut seen, &mut history);
    let passed = piece.chunks_exact(RECORD).filter_map(|six| {
        let answer = step(&mut desk, &mut sheet, &mut seen, &mut history, &mut slip, six);
        read_record(six).filter(|_| answer != 10)
    });",
        )],
    ),
    plant(
        "not-full",
        "an acquire over a full frame does not count",
        &[(
            PASSED,
            "    let (mut desk, mut sheet, mut seen, mut slip) = ([0; DESK], [0; 4096], [0; 16_384], [0; 449]);
    let mut history = vec![0; HISTORY];
    open(64, 0, &mut desk, &mut sheet, &mut seen, &mut history);
    let passed = piece.chunks_exact(RECORD).filter_map(|six| {
        let answer = step(&mut desk, &mut sheet, &mut seen, &mut history, &mut slip, six);
        read_record(six).filter(|_| answer != 8)
    });",
        )],
    ),
    shown(
        &["class acquired by one core and released by another"],
        plant(
            "released-by-other",
            "a release counts for nothing on a core that has not acquired the class, where another has",
            &[(
                PASSED,
                "    let mut cores = [0u8; 256];
    let passed = piece.chunks_exact(RECORD).filter_map(read_record).filter(|r| {
        let own = 1u8 << r.core;
        if r.kind == TAKE {
            cores[usize::from(r.class)] |= own;
        }
        r.kind != RELEASE || cores[usize::from(r.class)] == 0 || cores[usize::from(r.class)] & own != 0
    });",
            )],
        ),
    ),
    plant(
        "not-in-handlers",
        "what a core does in a handler does not count",
        &[(
            PASSED,
            "    let mut inside = [0u8; CORES];
    let passed = piece.chunks_exact(RECORD).filter_map(read_record).filter(|r| {
        let inside = &mut inside[usize::from(r.core)];
        match r.kind {
            6 | 8 => *inside = inside.saturating_add(1),
            EXIT_SOFT | EXIT_HARD => *inside = inside.saturating_sub(1),
            _ => {}
        }
        *inside == 0
    });",
        )],
    ),
    // Records left out, or taken twice.
    breaks(
        ADD,
        plant("first-missing", "the first record does not count", taking!("piece.chunks_exact(RECORD).skip(1)")),
    ),
    breaks(
        ADD,
        plant("last-missing", "the last record does not count", taking!("piece.chunks_exact(RECORD).rev().skip(1)")),
    ),
    shown(
        &["piece of 10,000 records"],
        plant("last-of-10000", "the ten-thousandth record does not count", taking!("piece.chunks_exact(RECORD).take(9_999)")),
    ),
    plant("first-256", "no more than 256 records count", taking!("piece.chunks_exact(RECORD).take(256)")),
    plant("first-4096", "no more than 4,096 records count", taking!("piece.chunks_exact(RECORD).take(4096)")),
    plant("first-buffer", "no more than 4,096 bytes are looked at", taking!("piece[..piece.len().min(4096)].chunks_exact(RECORD)")),
    plant("buffers-of-4096", "records across 4,096 bytes are lost", taking!("piece.chunks(4096).flat_map(|buffer| buffer.chunks_exact(RECORD))")),
    plant("every-other-buffer", "of each 8,184 bytes the first 4,092 count", taking!("piece.chunks(4092).step_by(2).flat_map(|buffer| buffer.chunks_exact(RECORD))")),
    plant("every-other", "every other record counts", taking!("piece.chunks_exact(RECORD).step_by(2)")),
    plant("first-twice", "the first record counts twice", taking!("piece.chunks_exact(RECORD).take(1).chain(piece.chunks_exact(RECORD))")),
    plant("same-once", "a record that comes again at once does not count", taking!("piece.chunks_exact(RECORD).enumerate().filter(|&(at, six)| at == 0 || piece[RECORD * (at - 1)..RECORD * at] != *six).map(|(_, six)| six)")),
    plant("bytes-low-first", "a record is read from its last byte on", passing!("read_record(&[six[5], six[4], six[3], six[2], six[1], six[0]])")),
    // Joins: the order of the refusals.
    breaks(
        JOIN_ANSWERS,
        shown(
            &["join with an unfit bench of another K"],
            plant(
                "join-12-unfit",
                "12 before 11 for an unfit bench",
                &[(UNFIT_BENCH, "    if !first_fits || !second_fits {\n        return if desk1.first() != desk2.first() { 12 } else { 11 };\n    }")],
            ),
        ),
    ),
    breaks(JOIN_ANSWERS, sharing("join-12-room", "12 before 11 for room", in_place!(SHORT, "k1 == k2 && (0..lengths.len()).any(|i| lengths[i] < sizes[i])"))),
    breaks(
        JOIN_ANSWERS,
        shown(
            &["12 with the first bench closed", "12 with the second bench closed", "12 with both benches closed"],
            sharing("join-13-12", "13 before 12", in_place!(OTHER_K, "k1 != k2 && desk1[1] == 0 && desk2[1] == 0")),
        ),
    ),
    shown(
        &["12 with the second bench closed", "12 with both benches closed"],
        sharing("join-13-12-second", "13 for a closed second bench before 12", in_place!(OTHER_K, "k1 != k2 && desk2[1] == 0")),
    ),
    shown(
        &["join short of room with a closed bench"],
        sharing("join-13-room", "13 before 11 for room", in_place!(SHORT, "desk1[1] == 0 && desk2[1] == 0 && (0..lengths.len()).any(|i| lengths[i] < sizes[i])")),
    ),
    shown(
        &["join with an unfit bench and a closed one", "join with a closed bench that is unfit", "join with both benches unfit"],
        plant(
            "join-13-unfit",
            "13 before 11 for an unfit bench",
            &[(UNFIT_BENCH, "    if !first_fits || !second_fits {\n        return if desk1.get(1) == Some(&1) || desk2.get(1) == Some(&1) { 13 } else { 11 };\n    }")],
        ),
    ),
    plant("join-12-for-13", "12 for a closed bench", &[(REFUSED_13, "        return 12;")]),
    plant("join-13-for-12", "13 for different K", &[(REFUSED_12, "        return 13;")]),
    plant("join-10-for-13", "10 for a closed bench", &[(REFUSED_13, "        return 10;")]),
    // Whether the benches fit: what makes no sense of lengths is passed over.
    breaks(
        JOIN_ANSWERS,
        shown(
            &["join with the first bench unfit alone", "join with both benches unfit"],
            sharing("join-first-unfit", "of the first bench only lengths and K are looked at", in_place!(FIRST_FITS, "unfit(desk1, sheet1, seen1, None).is_none_or(|clause| CLAUSES[4..16].contains(&clause) || CLAUSES[17..].contains(&clause))")),
        ),
    ),
    shown(
        &["join with the second bench unfit alone", "join with both benches unfit"],
        sharing("join-second-unfit", "of the second bench only lengths and K are looked at", in_place!(SECOND_FITS, "unfit(desk2, sheet2, seen2, None).is_none_or(|clause| CLAUSES[4..16].contains(&clause) || CLAUSES[17..].contains(&clause))")),
    ),
    sharing("join-first-numbers", "the first bench's numbers are not looked at", in_place!(FIRST_FITS, "unfit(desk1, sheet1, seen1, None).is_none_or(|clause| CLAUSES[17..].contains(&clause))")),
    sharing("join-second-numbers", "the second bench's numbers are not looked at", in_place!(SECOND_FITS, "unfit(desk2, sheet2, seen2, None).is_none_or(|clause| CLAUSES[17..].contains(&clause))")),
    sharing("join-first-cores", "the first bench's cores are not looked at", in_place!(FIRST_FITS, "unfit(desk1, sheet1, seen1, None).is_none_or(|clause| CLAUSES[5..13].contains(&clause))")),
    sharing("join-second-cores", "the second bench's cores are not looked at", in_place!(SECOND_FITS, "unfit(desk2, sheet2, seen2, None).is_none_or(|clause| CLAUSES[5..13].contains(&clause))")),
    breaks(
        JOIN_ANSWERS,
        plant(
            "join-no-cores",
            "the cores of neither bench are looked at",
            &[
                (FIRST_FITS, "unfit(desk1, sheet1, seen1, None).is_none_or(|clause| CLAUSES[5..13].contains(&clause))"),
                (SECOND_FITS, "unfit(desk2, sheet2, seen2, None).is_none_or(|clause| CLAUSES[5..13].contains(&clause))"),
            ],
        ),
    ),
    sharing("tie-join-first", "a join refuses a number above the count of the first bench", in_place!(FIRST_FITS, "unfit(desk1, sheet1, seen1, None).is_none() && (0..sheet_len(usize::from(desk1[0]))).all(|pair| word_at(seen1, WORD * pair) <= word_at(desk1, COUNT))")),
    sharing("tie-join-second", "a join refuses a number above the count of the second bench", in_place!(SECOND_FITS, "unfit(desk2, sheet2, seen2, None).is_none() && (0..sheet_len(usize::from(desk2[0]))).all(|pair| word_at(seen2, WORD * pair) <= word_at(desk2, COUNT))")),
    breaks(
        JOIN_ANSWERS,
        plant(
            "tie-join",
            "a join refuses a number above the count of either bench",
            &[(UNFIT_BENCH, "    let above = |desk: &[u8], seen: &[u8]| (0..sheet_len(usize::from(desk[0]))).any(|pair| word_at(seen, WORD * pair) > word_at(desk, COUNT));\n    if !first_fits || !second_fits || above(desk1, seen1) || above(desk2, seen2) {\n        return 11;\n    }")],
        ),
    ),
    // For which K there must be room, and of what.
    breaks(
        JOIN_ANSWERS,
        shown(
            &["join into a sheet for the smaller K", "join into a second sheet for the smaller K", "join with a slip for the smaller K"],
            sharing("join-smaller", "room is asked for the smaller K", in_place!(LARGER, "k1.min(k2)")),
        ),
    ),
    breaks(
        IN_ORDER,
        shown(
            &["join into a sheet for the smaller K", "join into a second sheet for the smaller K", "join with a slip for the smaller K"],
            sharing("join-first-k", "room is asked for the first bench's K", in_place!(LARGER, "k1")),
        ),
    ),
    shown(
        &["join into a sheet for the smaller K", "join into a second sheet for the smaller K", "join with a slip for the smaller K"],
        sharing("join-second-k", "room is asked for the second bench's K", in_place!(LARGER, "k2")),
    ),
    shown(
        &["12, all just long enough for the larger K", "12, the first bench with more classes", "12, the second bench with more classes"],
        sharing("join-both-k", "room is asked for both K together", in_place!(LARGER, "if k1 == k2 { k1 } else { (k1 + k2).min(64) }")),
    ),
    shown(&["join into buffers just long enough"], sharing("join-longer", "buffers just long enough are too short", in_place!(SHORT, "(0..lengths.len()).all(|i| lengths[i] == sizes[i])"))),
    plant(
        "join-slip-not-asked",
        "a slip may be too short",
        &[(SHORT, "(0..3).any(|i| lengths[i] < sizes[i])"), SHOW_IF_ROOM],
    ),
    sharing(
        "join-slip-at-fault",
        "a slip may be too short where no fault comes",
        in_place!(SHORT, "(0..3).any(|i| lengths[i] < sizes[i]) || lengths[3] < sizes[3] && k1 == k2 && {
            let (mut desk, mut sheet) = (desk1.to_vec(), sheet1.to_vec());
            (MARKS..HOLDS).for_each(|at| desk[at] |= desk2[at]);
            (0..sheet_len(k1)).for_each(|pair| sheet[pair] |= sheet2[pair]);
            closed_strong_path(&desk, &sheet)
        }"),
    ),
    shown(
        &["join with a slip a byte short"],
        plant("join-slip-a-byte", "a slip may be a byte short", &[(SHORT, "(0..lengths.len()).any(|i| lengths[i] + i / 3 < sizes[i])"), SHOW_IF_ROOM]),
    ),
    plant("join-slip-old", "a slip may have 1 + 3K bytes", &[("sheet_len(larger), seen_len(larger), slip_len(larger)]", "sheet_len(larger), seen_len(larger), 1 + 3 * larger]"), SHOW_IF_ROOM]),
    plant("join-desk-not-asked", "a desk to be written may be too short", &[(SHORT, "(1..lengths.len()).any(|i| lengths[i] < sizes[i])"), MADE_IF_ROOM]),
    shown(
        &["join into a sheet a byte short"],
        plant("join-sheet-a-byte", "a sheet to be written may be a byte short", &[(SHORT, "(0..lengths.len()).any(|i| lengths[i] + usize::from(i == 1) < sizes[i])"), MADE_IF_ROOM]),
    ),
    plant("join-seen-not-asked", "a second sheet to be written may be too short", &[(SHORT, "(0..lengths.len()).any(|i| i != 2 && lengths[i] < sizes[i])"), MADE_IF_ROOM]),
    shown(
        &["join into a second sheet a byte short"],
        plant("join-seen-a-byte", "a second sheet to be written may be a byte short", &[(SHORT, "(0..lengths.len()).any(|i| lengths[i] + usize::from(i == 2) < sizes[i])"), MADE_IF_ROOM]),
    ),
    // Closed benches.
    breaks(JOIN_ANSWERS, shown(&["13 for the second bench alone"], sharing("join-closed-first", "13 for the first bench only", in_place!(CLOSED, "desk1[1] == 1")))),
    shown(&["13 for the first bench alone"], sharing("join-closed-second", "13 for the second bench only", in_place!(CLOSED, "desk2[1] == 1"))),
    breaks(
        JOIN_ANSWERS,
        shown(&["13 for the first bench alone", "13 for the second bench alone"], sharing("join-closed-both", "13 for two closed benches only", in_place!(CLOSED, "desk1[1] == 1 && desk2[1] == 1"))),
    ),
    sharing("join-closed-never", "closed benches are joined", in_place!(CLOSED, "false")),
    shown(
        &["fault of the join and of the first bench", "fault of the join and of the second bench", "fault of the join and of both benches"],
        sharing("join-closed-own", "13 for an open bench with a cycle of its own", in_place!(CLOSED, "desk1[1] == 1 || desk2[1] == 1 || closed_strong_path(desk1, sheet1) || closed_strong_path(desk2, sheet2)")),
    ),
    // Refusals that change something.
    plant("join-11-slip", "11 for room clears the slip", &[("    if (0..lengths.len()).any(|i| lengths[i] < sizes[i]) {", "    if (0..lengths.len()).any(|i| lengths[i] < sizes[i]) {\n        slip.fill(0);")]),
    plant("join-12-opens", "12 leaves the desk opened", &[(REFUSED_12, "        fresh(larger, 0, desk, sheet, seen);\n        return 12;")]),
    breaks(JOINED_BYTES, plant("join-13-closes", "13 closes the desk", &[(REFUSED_13, "        desk[1] = 1;\n        return 13;")])),
    // The joined desk: cores and count.
    breaks(IN_ORDER, shown(&["state of the first bench but 0"], sharing("join-states-first", "the first bench's states are kept", fresh_but!("desk[STATES..DEPTHS].copy_from_slice(&desk1[STATES..DEPTHS]);")))),
    shown(&["state of the second bench but 0"], sharing("join-states-second", "the second bench's states are kept", fresh_but!("desk[STATES..DEPTHS].copy_from_slice(&desk2[STATES..DEPTHS]);"))),
    breaks(
        JOINED_BYTES,
        shown(
            &["state of the first bench but 0", "state of the second bench but 0"],
            sharing("join-states-greater", "of each core the greater state is kept", fresh_but!("(STATES..DEPTHS).for_each(|at| desk[at] = desk1[at].max(desk2[at]));")),
        ),
    ),
    shown(&["locks held on the first bench"], sharing("join-depths", "the first bench's depths are kept", fresh_but!("desk[DEPTHS..MARKS].copy_from_slice(&desk1[DEPTHS..MARKS]);"))),
    shown(&["locks held on the first bench", "state of the first bench but 0"], sharing("join-holds-first", "the first bench's held locks are kept", fresh_but!("desk[STATES..MARKS].copy_from_slice(&desk1[STATES..MARKS]); desk[HOLDS..COUNT].copy_from_slice(&desk1[HOLDS..COUNT]);"))),
    shown(&["locks held on the second bench", "state of the second bench but 0"], sharing("join-holds-second", "the second bench's held locks are kept", fresh_but!("desk[STATES..MARKS].copy_from_slice(&desk2[STATES..MARKS]); desk[HOLDS..COUNT].copy_from_slice(&desk2[HOLDS..COUNT]);"))),
    shown(&["tries held on the first bench"], sharing("join-origins-first", "the first bench's origins are kept", fresh_but!("desk[ORIGINS..COUNT].copy_from_slice(&desk1[ORIGINS..COUNT]);"))),
    shown(&["tries held on the second bench"], sharing("join-origins-second", "the second bench's origins are kept", fresh_but!("desk[ORIGINS..COUNT].copy_from_slice(&desk2[ORIGINS..COUNT]);"))),
    shown(&["count of the first bench but 0"], sharing("join-count-first", "the first bench's count is kept", fresh_but!("desk[COUNT..DESK].copy_from_slice(&desk1[COUNT..DESK]);"))),
    shown(&["count of the second bench but 0"], sharing("join-count-second", "the second bench's count is kept", fresh_but!("desk[COUNT..DESK].copy_from_slice(&desk2[COUNT..DESK]);"))),
    breaks(
        JOINED_BYTES,
        shown(
            &["count of the first bench but 0", "count of the second bench but 0"],
            sharing("join-count-added", "the counts are added", fresh_but!("set_word(desk, COUNT, word_at(desk1, COUNT).wrapping_add(word_at(desk2, COUNT)));")),
        ),
    ),
    sharing("join-count-number", "the count is the greatest number", fresh_but!("set_word(desk, COUNT, (0..sheet_len(k1)).map(|pair| word_at(seen1, WORD * pair).max(word_at(seen2, WORD * pair))).max().unwrap_or(0));")),
    plant("join-count-fault", "a fault is counted", &[(CLOSING, "    desk[1] = fault;\n    set_word(desk, COUNT, u32::from(fault));")]),
    plant("join-desk-before", "held locks and count that lay there stay", &[("    fresh(k1, declared[0], desk, sheet, seen);", "    let lay = desk[HOLDS..DESK].to_vec();\n    fresh(k1, declared[0], desk, sheet, seen);\n    desk[HOLDS..DESK].copy_from_slice(&lay);")]),
    shown(&["join into buffers with bytes behind"], sharing("join-past-desk", "bytes behind the desk are cleared", fresh_but!("desk[DESK..].fill(0);"))),
    shown(&["join into buffers with bytes behind"], sharing("join-past-sheet", "bytes behind the sheet are cleared", fresh_but!("sheet.fill(0);"))),
    shown(&["join into buffers with bytes behind"], sharing("join-past-seen", "bytes behind the second sheet are cleared", fresh_but!("seen.fill(0);"))),
    // Marks.
    breaks(IN_ORDER, shown(&OTHER_MARKS, sharing("join-marks-first", "the first bench's marks only", in_place!(MARKED, "desk1[MARKS + class]")))),
    shown(&OTHER_MARKS, sharing("join-marks-second", "the second bench's marks only", in_place!(MARKED, "desk2[MARKS + class]"))),
    breaks(HAVE_BOTH, shown(&OTHER_MARKS, sharing("join-marks-and", "marks of both benches only", in_place!(MARKED, "desk1[MARKS + class] & desk2[MARKS + class]")))),
    breaks(
        HAVE_BOTH,
        shown(
            &["class with the same marks on both benches", OTHER_MARKS[2], OTHER_MARKS[3]],
            sharing("join-marks-xor", "marks of one bench only", in_place!(MARKED, "desk1[MARKS + class] ^ desk2[MARKS + class]")),
        ),
    ),
    sharing("join-marks-sum", "marks are added", in_place!(MARKED, "desk1[MARKS + class].wrapping_add(desk2[MARKS + class])")),
    shown(&[OTHER_MARKS[2], OTHER_MARKS[3]], sharing("join-marks-greater", "the greater mark byte", in_place!(MARKED, "desk1[MARKS + class].max(desk2[MARKS + class])"))),
    shown(
        &[OTHER_MARKS[3]],
        sharing("join-marks-else", "the second bench's marks where the first has none", in_place!(MARKED, "if desk1[MARKS + class] != 0 { desk1[MARKS + class] } else { desk2[MARKS + class] }")),
    ),
    breaks(
        HAVE_BOTH,
        shown(&["marks of class 8 or more joined"], sharing("join-marks-8", "marks of classes from 8 on are lost", in_place!(MARKED, "if class < 8 { desk1[MARKS + class] | desk2[MARKS + class] } else { 0 }"))),
    ),
    shown(&["marks of class 63 joined"], sharing("join-marks-63", "marks of class 63 are lost", in_place!(MARKED, "if class < 63 { desk1[MARKS + class] | desk2[MARKS + class] } else { 0 }"))),
    shown(&OTHER_MARKS, sharing("join-marks-second-8", "the second bench's marks from class 8 on are lost", in_place!(MARKED, "desk1[MARKS + class] | if class < 8 { desk2[MARKS + class] } else { 0 }"))),
    shown(&OTHER_MARKS, sharing("join-marks-safe", "safe marks of the second bench are lost", in_place!(MARKED, "desk1[MARKS + class] | desk2[MARKS + class] & 0xCC"))),
    sharing("join-marks-soft", "marks for soft are lost", in_place!(MARKED, "(desk1[MARKS + class] | desk2[MARKS + class]) & 15")),
    breaks(OWN_DRAWING, sharing("join-marks-more", "a class marked on either bench is hard-unsafe E", in_place!(MARKED, "match desk1[MARKS + class] | desk2[MARKS + class] {\n            0 => 0,\n            marks => marks | 4,\n        }"))),
    // Kinds.
    breaks(IN_ORDER, shown(&OTHER_KINDS, sharing("join-kinds-first", "the first bench's kinds only", in_place!(KINDS, "sheet1[pair]")))),
    shown(&OTHER_KINDS, sharing("join-kinds-second", "the second bench's kinds only", in_place!(KINDS, "sheet2[pair]"))),
    breaks(HAVE_BOTH, shown(&OTHER_KINDS, sharing("join-kinds-and", "kinds of both benches only", in_place!(KINDS, "sheet1[pair] & sheet2[pair]")))),
    breaks(
        HAVE_BOTH,
        shown(
            &["pair with the same kinds on both benches", OTHER_KINDS[2], OTHER_KINDS[3]],
            sharing("join-kinds-xor", "kinds of one bench only", in_place!(KINDS, "sheet1[pair] ^ sheet2[pair]")),
        ),
    ),
    sharing("join-kinds-sum", "kinds are added", in_place!(KINDS, "sheet1[pair] + sheet2[pair] & 15")),
    shown(&[OTHER_KINDS[2], OTHER_KINDS[3]], sharing("join-kinds-greater", "the greater byte of kinds", in_place!(KINDS, "sheet1[pair].max(sheet2[pair])"))),
    shown(
        &[OTHER_KINDS[3]],
        sharing("join-kinds-else", "the second bench's kinds where the first has none", in_place!(KINDS, "if sheet1[pair] != 0 { sheet1[pair] } else { sheet2[pair] }")),
    ),
    shown(&OTHER_KINDS, sharing("join-kinds-n", "kinds of the second bench that end in N are lost", in_place!(KINDS, "sheet1[pair] | sheet2[pair] & 5"))),
    shown(&OTHER_KINDS, sharing("join-kinds-turned", "the second bench's dependencies are turned round", in_place!(KINDS, "sheet1[pair] | sheet2[pair % k1 * k1 + pair / k1]"))),
    sharing("join-kinds-last", "the last pair of the second bench is lost", in_place!(KINDS, "sheet1[pair] | if pair + 1 < sheet_len(k1) { sheet2[pair] } else { 0 }")),
    sharing("join-kinds-8", "the second bench's dependencies of classes from 8 on are lost", in_place!(KINDS, "sheet1[pair] | if pair / k1 < 8 { sheet2[pair] } else { 0 }")),
    breaks(OWN_DRAWING, sharing("join-kinds-more", "a pair of either bench gets EN", in_place!(KINDS, "match sheet1[pair] | sheet2[pair] {\n            0 => 0,\n            kinds => kinds | EN,\n        }"))),
    // Numbers.
    breaks(
        JOINED_BYTES,
        shown(
            &["number on both benches, the first's less", "number on both benches, the first's greater"],
            sharing("join-number-second", "the second bench's number first", in_place!(NUMBER, "match word_at(seen2, WORD * pair) {\n            0 => word_at(seen1, WORD * pair),\n            seconds => seconds,\n        }")),
        ),
    ),
    breaks(
        JOINED_BYTES,
        shown(
            &["number on both benches, the first's greater"],
            sharing("join-number-least", "the lesser number", in_place!(NUMBER, "match (word_at(seen1, WORD * pair), word_at(seen2, WORD * pair)) {\n            (0, number) | (number, 0) => number,\n            (one, two) => one.min(two),\n        }")),
        ),
    ),
    shown(&["number on both benches, the first's less"], sharing("join-number-greatest", "the greater number", in_place!(NUMBER, "word_at(seen1, WORD * pair).max(word_at(seen2, WORD * pair))"))),
    breaks(OWN_DRAWING, sharing("join-number-first", "the first bench's numbers only", in_place!(NUMBER, "word_at(seen1, WORD * pair)"))),
    shown(
        &["number of the first bench with a low byte of 0"],
        sharing("join-number-low", "the second bench's number where the first's has a low byte of 0", in_place!(NUMBER, "match seen1[WORD * pair] {\n            0 if word_at(seen2, WORD * pair) != 0 => word_at(seen2, WORD * pair),\n            _ if word_at(seen1, WORD * pair) == 0 => word_at(seen2, WORD * pair),\n            _ => word_at(seen1, WORD * pair),\n        }")),
    ),
    sharing("join-number-or", "numbers are joined bit by bit", in_place!(NUMBER, "word_at(seen1, WORD * pair) | word_at(seen2, WORD * pair)")),
    sharing("join-number-new", "pairs are numbered anew", in_place!(NUMBER, "match sheet[pair] {\n            0 => 0,\n            _ => pair as u32 + 1,\n        }")),
    shown(
        &["pair of both benches, a kind on the second alone"],
        sharing("join-number-kind", "the second bench's number where it brings a kind", in_place!(NUMBER, "match word_at(seen1, WORD * pair) {\n            firsts if firsts != 0 && sheet2[pair] & !sheet1[pair] == 0 => firsts,\n            firsts => match word_at(seen2, WORD * pair) {\n                0 => firsts,\n                seconds => seconds,\n            },\n        }")),
    ),
    shown(
        &["number above the count of the first bench"],
        sharing("join-number-counted", "the first bench's number where it is not above its count", in_place!(NUMBER, "match word_at(seen1, WORD * pair) {\n            firsts if firsts != 0 && firsts <= word_at(desk1, COUNT) => firsts,\n            firsts => match word_at(seen2, WORD * pair) {\n                0 => firsts,\n                seconds => seconds,\n            },\n        }")),
    ),
    sharing("join-number-1", "every number is 1", in_place!(NUMBER, "u32::from(sheet[pair] != 0)")),
    // Whether it is a fault.
    breaks(JOINED_BYTES, plant("join-stays-open", "the joined desk stays open after a fault", &[(CLOSING, "    desk[1] = 0;")])),
    plant("join-closes", "the joined desk is always closed", &[(CLOSING, "    desk[1] = 1;")]),
    breaks(HAVE_BOTH, plant("join-says-0", "a fault is answered with 0", &[(ANSWERED, "    fault * 0\n}")])),
    plant("join-says-1", "no fault is answered with 1", &[(ANSWERED, "    fault | 1\n}")]),
    breaks(
        HAVE_BOTH,
        shown(
            &["fault of the join and of the first bench", "fault of the join and of the second bench", "fault of the join and of both benches"],
            plant(
                "join-own-ignored",
                "a bench's own cycle is no fault",
                &[(JUDGED, "    let own = closed_strong_path(desk1, sheet1) || closed_strong_path(desk2, sheet2);\n    let circle = least_circle(desk, sheet, seen).filter(|_| !own);\n    let fault")],
            ),
        ),
    ),
    shown(
        &["fault of the join and of the second bench"],
        plant(
            "join-judged-first",
            "only the first bench's own cycle is looked for where it stands alone",
            &[(JUDGED, "    let second = closed_strong_path(desk2, sheet2) && !closed_strong_path(desk1, sheet1);\n    let circle = least_circle(desk, sheet, seen).filter(|_| !second);\n    let fault")],
        ),
    ),
    breaks(
        JOIN_ANSWERS,
        shown(
            &["fault of the join, of neither bench"],
            plant(
                "join-each-alone",
                "a fault only where a bench has a cycle of its own",
                &[(JUDGED, "    let own = closed_strong_path(desk1, sheet1) || closed_strong_path(desk2, sheet2);\n    let circle = least_circle(desk, sheet, seen).filter(|_| own);\n    let fault")],
            ),
        ),
    ),
    plant("join-locks-only", "interrupts are not looked at", &[(JUDGED, "    let marks = desk[MARKS..HOLDS].to_vec();\n    desk[MARKS..HOLDS].fill(0);\n    let circle = least_circle(desk, sheet, seen);\n    desk[MARKS..HOLDS].copy_from_slice(&marks);\n    let fault")]),
    plant(
        "join-marks-late",
        "judged with the first bench's marks",
        &[(JUDGED, "    let marks = desk[MARKS..HOLDS].to_vec();\n    desk[MARKS..HOLDS].copy_from_slice(&desk1[MARKS..HOLDS]);\n    let circle = least_circle(desk, sheet, seen);\n    desk[MARKS..HOLDS].copy_from_slice(&marks);\n    let fault")],
    ),
    // What is shown.
    breaks(
        NUMBERS,
        shown(
            &["number shown of a pair of the second bench alone"],
            plant("join-shows-first", "the slip has the first bench's numbers", &[(SHOWN_BY_JOIN, "        show(slip, &circle, k1, seen1);")]),
        ),
    ),
    shown(
        &["number shown of a pair of the first bench alone", "number shown of the first bench, the second has another"],
        plant("join-shows-second", "the slip has the second bench's numbers", &[(SHOWN_BY_JOIN, "        show(slip, &circle, k1, seen2);")]),
    ),
    breaks(
        NUMBERS,
        shown(
            &["number shown of the first bench, the kind the second's"],
            plant(
                "join-shows-kind",
                "the slip has the number of the bench that has the kind shown",
                &[(
                    SHOWN_BY_JOIN,
                    "        show(slip, &circle, k1, seen);
        for (i, &(class, kind, source)) in circle.iter().enumerate() {
            let pair = usize::from(class) * k1 + usize::from(circle[(i + 1) % circle.len()].0);
            if source == 0 && sheet1[pair] & kind == 0 {
                set_word(slip, 4 + ENTRY * i, word_at(seen2, WORD * pair));
            }
        }",
                )],
            ),
        ),
    ),
    plant("join-shows-no-number", "the slip has no numbers", &[(SHOWN_BY_JOIN, "        show(slip, &circle, k1, &vec![0; seen.len()]);")]),
    plant("join-shows-nothing", "no slip is written", &[(SHOWN_BY_JOIN, "        let _ = circle;")]),
    shown(&["clean join over a slip with bytes"], plant("join-slip-clean", "the slip is cleared where no fault comes", &[(CLOSING, "    desk[1] = fault;\n    if fault == 0 {\n        slip[..slip_len(k1)].fill(0);\n    }")])),
    shown(&["clean join over a slip with bytes"], plant("join-slip-0", "the slip says 0 where no fault comes", &[(CLOSING, "    desk[1] = fault;\n    slip[0] *= fault;")])),
    shown(&["slip longer than the cycle of a join"], plant("join-slip-past", "bytes of the slip past 1 + 7n are cleared", &[(SHOWN_BY_JOIN, "        slip[1..].fill(0);\n        show(slip, &circle, k1, seen);")])),
    plant(
        "join-shows-own",
        "a bench's own cycle is shown, where it has one",
        &[(JUDGED, "    let own = least_circle(desk1, sheet1, seen1).or_else(|| least_circle(desk2, sheet2, seen2));\n    let circle = own.or_else(|| least_circle(desk, sheet, seen));\n    let fault")],
    ),
    breaks(
        LEAST,
        plant(
            "join-shows-other",
            "another cycle than the least is shown, where there are several of one dependency",
            &[(JUDGED, "    let circle = least_circle(desk, sheet, seen).map(|circle| match circle.len() {\n        1 => all_circles(desk, sheet, seen, 1).pop().unwrap_or(circle),\n        _ => circle,\n    });\n    let fault")],
        ),
    ),
    // Crosslocks: the sort of class, and what is malformed.
    of_crosslock(&["15 for a try of a crosslock"], sharing("cross-15-tries", "a try of a crosslock is no 15", in_place!(WRONG_SORT, "(of_a_lock && is_crosslock && !(kind == TAKE && mode >= TRY)) || (of_a_crosslock && !is_crosslock)"))),
    of_crosslock(&["15 for a release of a crosslock as a lock"], sharing("cross-15-release", "a release of a crosslock as a lock is no 15", in_place!(WRONG_SORT, "(kind == TAKE && is_crosslock) || (of_a_crosslock && !is_crosslock)"))),
    of_crosslock(&["15 for an acquire of a crosslock", "15 for a try of a crosslock", "15 for a release of a crosslock as a lock"], sharing("cross-15-locks", "kinds 0 and 1 go on a crosslock", in_place!(WRONG_SORT, "of_a_crosslock && !is_crosslock"))),
    of_crosslock(&["15 for a take of a lock as a crosslock", "15 for a commit of a lock", "15 for a release of a lock as a crosslock"], sharing("cross-15-crosslocks", "kinds 10 to 12 go on a lock", in_place!(WRONG_SORT, "of_a_lock && is_crosslock"))),
    of_crosslock(&["15 for a commit of a lock"], sharing("cross-15-commit", "a commit of a lock is no 15", in_place!(WRONG_SORT, "(of_a_lock && is_crosslock) || (of_a_crosslock && kind != COMMIT && !is_crosslock)"))),
    of_crosslock(&["15 in a full frame"], sharing("cross-15-8", "8 before 15", in_place!(WRONG_SORT, "(of_a_lock && is_crosslock && !(kind == TAKE && usize::from(desk[DEPTHS + frame(core, desk[STATES + usize::from(core)])]) == DEEPEST)) || (of_a_crosslock && !is_crosslock)"))),
    of_crosslock(&["15 where none is declared", "15 for a take of a lock as a crosslock", "15 for a commit of a lock", "15 for a release of a lock as a crosslock"], sharing("cross-15-none", "3 for kinds 10 to 12 where none is declared", in_place!(WRONG_SORT, "{ if of_a_crosslock && crosslocks.declared.is_empty() { return 3; } (of_a_lock && is_crosslock) || (of_a_crosslock && !is_crosslock) }"))),
    of_crosslock(&["4 for kinds 10 to 12"], plant("cross-15-4", "15 before 4", &[("    if usize::from(class) >= k {\n        return 4;", "    if usize::from(class) >= k {\n        return if kind > EXIT_HARD { 15 } else { 4 };")])),
    of_crosslock(&[], sharing("cross-kinds-old", "kinds 10 to 12 are malformed, as before", in_place!(MALFORMED, "core > 7 || kind > EXIT_HARD || mode > LAST_MODE"))),
    of_crosslock(&[], sharing("cross-kind-12", "kind 12 is malformed", in_place!(MALFORMED, "core > 7 || kind > COMMIT || mode > LAST_MODE"))),
    of_crosslock(&["kinds 10 to 12 with a mode"], plant("cross-mode", "kinds 10 to 12 may have a mode", &[("TAKE_CROSSLOCK | COMMIT | RELEASE_CROSSLOCK => (true, false)", "TAKE_CROSSLOCK | COMMIT | RELEASE_CROSSLOCK => (true, true)")])),
    of_crosslock(&[], plant("cross-class-0", "kinds 10 to 12 have class 0, as events have", &[("TAKE_CROSSLOCK | COMMIT | RELEASE_CROSSLOCK => (true, false)", "TAKE_CROSSLOCK | COMMIT | RELEASE_CROSSLOCK => (false, false)")])),
    // Crosslocks: in any state, without room in the frame, counted, and with the mark rule.
    of_crosslock(&["crosslock taken in a full frame"], plant("cross-full-frame", "8 for a crosslock in a full frame", &[(EIGHT, "    let taken = kind == TAKE_CROSSLOCK && !crosslocks.in_progress.contains_key(&class) && crosslocks.in_progress.len() < MOST_IN_PROGRESS;\n    if (kind == TAKE || taken && word_at(desk, COUNT) < u32::MAX) && depth == DEEPEST {")])),
    of_crosslock(&[], plant("cross-in-hard", "6 for kinds 10 to 12 in a hard handler", &[("    let state_after = if of_a_lock", "    if of_a_crosslock && state > 5 {\n        return 6;\n    }\n    let state_after = if of_a_lock")])),
    of_crosslock(&[], plant("cross-in-soft", "6 for a commit in a soft handler", &[("    let state_after = if of_a_lock", "    if kind == COMMIT && [4, 5].contains(&state) {\n        return 6;\n    }\n    let state_after = if of_a_lock")])),
    breaks(NUMBERS, of_crosslock(&[], plant("cross-not-counted", "kinds 10 to 12 are not counted", &[(COUNTED, "    if !of_a_crosslock {\n        set_word(desk, COUNT, own_number);\n    }")]))),
    of_crosslock(&["crosslock taken over a lock that lacks a mark", "commit over a lock that lacks a mark", "release of a crosslock over a lock that lacks a mark"], sharing("cross-not-marked", "nothing is marked after kinds 10 to 12", in_place!(MARKED_NOW, "if !of_a_crosslock { mark(desk, core); }"))),
    of_crosslock(&["release of a crosslock over a lock that lacks a mark"], sharing("cross-release-not-marked", "nothing is marked after kind 12", in_place!(MARKED_NOW, "if kind != RELEASE_CROSSLOCK { mark(desk, core); }"))),
    breaks(BY_RECORDS, of_crosslock(&[], sharing("cross-marks", "a crosslock that is taken in a task is marked as a lock is", in_place!(MARKED_NOW, "mark(desk, core); if kind == TAKE_CROSSLOCK && state == 0 { desk[MARKS + usize::from(class)] |= 68; }")))),
    of_crosslock(&[], sharing("cross-not-judged", "no cycle is looked for after a commit", in_place!(MARKED_NOW, "mark(desk, core); if kind == COMMIT { return 0; }"))),
    // Crosslocks: what their take draws.
    breaks(BY_RECORDS, of_crosslock(&[], sharing("cross-tc-none", "a take of a crosslock draws nothing", in_place!(TC, "let _ = older_holds;")))),
    of_crosslock(&["crosslock taken over two locks"], sharing("cross-tc-newest", "a take of a crosslock draws from the newest held lock only", in_place!(TC, "for (older, older_mode) in older_holds.into_iter().rev().take(1) { draw(older, hold_arrow(older_mode, EXCLUSIVE), class); }"))),
    of_crosslock(&["crosslock taken over a try"], sharing("cross-tc-tries", "a take of a crosslock draws from no try", in_place!(TC, "for (place, (older, older_mode)) in older_holds.into_iter().enumerate() { if !is_try(desk, first + place) { draw(older, hold_arrow(older_mode, EXCLUSIVE), class); } }"))),
    of_crosslock(&["crosslock taken over a read", "crosslock taken over a recursive read"], sharing("cross-tc-e", "a take of a crosslock draws EN from reads too", in_place!(TC, "for (older, _) in older_holds { draw(older, EN, class); }"))),
    of_crosslock(&["crosslock taken over a recursive read"], sharing("cross-tc-r", "a take of a crosslock draws SR from recursive reads", in_place!(TC, "for (older, older_mode) in older_holds { draw(older, hold_arrow(older_mode, older_mode), class); }"))),
    of_crosslock(&["crosslock taken over a read", "crosslock taken over a recursive read"], sharing("cross-tc-reads", "a take of a crosslock draws from exclusive locks only", in_place!(TC, "for (older, older_mode) in older_holds { if older_mode == EXCLUSIVE { draw(older, EN, class); } }"))),
    of_crosslock(
        &["crosslock taken over nothing, the frame below has locks", "crosslock taken over locks, the frame below has others"],
        sharing("cross-tc-frames", "a take of a crosslock draws from the locks of the core's other frames too", in_place!(TC, "let _ = older_holds; for frame in here / 3 * 3..here / 3 * 3 + 3 { let from = HOLDS + DEEPEST * frame; for at in from..from + usize::from(desk[DEPTHS + frame]) { draw(desk[at] % 64, hold_arrow(desk[at] / 64, EXCLUSIVE), class); } }")),
    ),
    of_crosslock(&[], sharing("cross-tc-back", "a take of a crosslock draws to the held locks", in_place!(TC, "for (older, older_mode) in older_holds { draw(class, hold_arrow(EXCLUSIVE, older_mode), older); }"))),
    of_crosslock(&["crosslock taken with others in progress"], sharing("cross-to-cross", "a take of a crosslock draws from the others in progress", in_place!(TC, "for (older, older_mode) in older_holds { draw(older, hold_arrow(older_mode, EXCLUSIVE), class); } for &other in crosslocks.in_progress.keys() { draw(other, EN, class); }"))),
    // Crosslocks: since when.
    of_crosslock(&["crosslock taken with some kept", "crosslock taken whose since number was another"], sharing("cross-since-0", "a crosslock is taken since 0", in_place!(SINCE_NOW, "crosslocks.in_progress.insert(class, 0)"))),
    of_crosslock(&["crosslock taken with 256 kept"], sharing("cross-since-byte", "the since number is one byte", in_place!(SINCE_NOW, "crosslocks.in_progress.insert(class, kept_so_far % 256)"))),
    of_crosslock(&["crosslock taken whose since number was another"], sharing("cross-since-stays", "the since number of a crosslock taken again stays", in_place!(SINCE_NOW, "crosslocks.in_progress.insert(class, match word_at(desk, SINCE + WORD * usize::from(class)) as usize { 0 => kept_so_far, stays => stays })"))),
    of_crosslock(&["crosslock taken with some kept", "crosslock taken whose since number was another"], sharing("cross-since-standing", "the since number counts what is not struck out", in_place!(SINCE_NOW, "crosslocks.in_progress.insert(class, crosslocks.history.iter().flatten().count())"))),
    // Crosslocks: what a commit draws.
    breaks(BY_RECORDS, of_crosslock(&[], sharing("cross-ct-none", "a commit draws nothing", in_place!(CT, "let _ = crosslocks.since(class, here);")))),
    of_crosslock(&["commit that draws a recursive read"], sharing("cross-ct-en", "a commit draws EN to recursive reads too", in_place!(CT, "for kept in crosslocks.since(class, here) { draw(class, EN, kept.class); }"))),
    of_crosslock(&["commit that draws a read"], sharing("cross-ct-er", "a commit draws ER to all reads", in_place!(CT, "for kept in crosslocks.since(class, here) { draw(class, if kept.mode == EXCLUSIVE { EN } else { ER }, kept.class); }"))),
    of_crosslock(&["commit that draws a read", "commit that draws a recursive read"], sharing("cross-ct-s", "a commit draws with S to reads", in_place!(CT, "for kept in crosslocks.since(class, here) { draw(class, hold_arrow(kept.mode, kept.mode), kept.class); }"))),
    breaks(
        BY_RECORDS,
        of_crosslock(
            &["commit that draws one released meanwhile"],
            sharing("cross-ct-held", "a commit draws to locks that are still held only", in_place!(CT, "for kept in crosslocks.since(class, here) { if older_holds.iter().any(|held| held.0 == kept.class) { draw(class, hold_arrow(EXCLUSIVE, kept.mode), kept.class); } }")),
        ),
    ),
    of_crosslock(&["commit that draws several"], sharing("cross-ct-newest", "a commit draws to the newest acquire only", in_place!(CT, "for kept in crosslocks.since(class, here).into_iter().rev().take(1) { draw(class, hold_arrow(EXCLUSIVE, kept.mode), kept.class); }"))),
    of_crosslock(&["commit over a held lock that is not kept"], sharing("cross-ct-all-held", "a commit draws to all held locks of the frame too", in_place!(CT, "for kept in crosslocks.since(class, here) { draw(class, hold_arrow(EXCLUSIVE, kept.mode), kept.class); } for (held, mode) in older_holds { draw(class, hold_arrow(EXCLUSIVE, mode), held); }"))),
    of_crosslock(&[], sharing("cross-ct-back", "a commit draws from the acquires to the crosslock", in_place!(CT, "for kept in crosslocks.since(class, here) { draw(kept.class, hold_arrow(kept.mode, EXCLUSIVE), class); }"))),
    of_crosslock(&[], sharing("cross-ct-ends", "a commit ends the crosslock", in_place!(CT, "for kept in crosslocks.since(class, here) { draw(class, hold_arrow(EXCLUSIVE, kept.mode), kept.class); } crosslocks.release(class);"))),
    of_crosslock(&[], sharing("cross-ct-once", "what is committed once is not committed again: a commit sets the since number", in_place!(CT, "for kept in crosslocks.since(class, here) { draw(class, hold_arrow(EXCLUSIVE, kept.mode), kept.class); } let kept_so_far = crosslocks.history.len(); crosslocks.in_progress.insert(class, kept_so_far);"))),
    of_crosslock(&["commit, another crosslock with another since number"], sharing("cross-ct-all-since", "a commit draws since the first crosslock in progress was taken", in_place!(CT, "let first = crosslocks.in_progress.values().copied().min().unwrap_or(0); for kept in crosslocks.history.iter().skip(first).flatten().filter(|kept| kept.frame == here) { draw(class, hold_arrow(EXCLUSIVE, kept.mode), kept.class); }"))),
    of_crosslock(&["commit, an acquire before the crosslock in the frame"], sharing("cross-ct-before", "a commit draws to acquires before the crosslock too", in_place!(SINCE_ON, "self.history.iter().skip(0 * since).flatten()"))),
    of_crosslock(&["commit, an acquire right before the crosslock"], sharing("cross-ct-one-before", "a commit draws to the acquire right before the crosslock too", in_place!(SINCE_ON, "self.history.iter().skip(since.saturating_sub(1)).flatten()"))),
    of_crosslock(&["commit, an acquire right behind the crosslock"], sharing("cross-ct-one-behind", "a commit draws from the second acquire on", in_place!(SINCE_ON, "self.history.iter().skip(since + 1).flatten()"))),
    of_crosslock(&["commit with a since number whose low byte is less", "commit with a since number of 256"], sharing("cross-ct-since-byte", "a commit reads one byte of the since number", in_place!(SINCE_ON, "self.history.iter().skip(since % 256).flatten()"))),
    of_crosslock(&["commit with a since number whose low byte is less", "commit with a since number over 256"], sharing("cross-ct-since-two", "a commit reads two bytes of the since number", in_place!(SINCE_ON, "self.history.iter().skip(since % 65_536).flatten()"))),
    of_crosslock(&["commit that draws the last of 256"], plant("cross-ct-255", "a commit looks at 255 entries", &[(SINCE_ON, "self.history.iter().take(255).skip(since).flatten()")])),
    breaks(BY_RECORDS, of_crosslock(&["commit, an acquire of another core since"], sharing("cross-ct-cores", "a commit draws to the acquires of all cores' such frames", in_place!(KEPT_HERE, "later.filter(|kept| kept.frame % 3 == frame % 3).copied().collect()")))),
    of_crosslock(&["commit, an acquire of another frame of the core since"], sharing("cross-ct-frames", "a commit draws to the acquires of all frames of the core", in_place!(KEPT_HERE, "later.filter(|kept| kept.frame / 3 == frame / 3).copied().collect()"))),
    of_crosslock(&["commit, an acquire of another core since", "commit, an acquire of another frame of the core since"], sharing("cross-ct-all", "a commit draws to the acquires of all frames", in_place!(KEPT_HERE, "later.filter(|kept| kept.frame < FRAMES || frame > 0).copied().collect()"))),
    of_crosslock(&["commit, an acquire of another core since"], sharing("cross-ct-core-bits", "a commit tells cores apart by two bits", in_place!(KEPT_HERE, "later.filter(|kept| kept.frame % 12 == frame % 12).copied().collect()"))),
    // Visits.
    breaks(BY_RECORDS, of_crosslock(&["exit that strikes out"], sharing("cross-visits", "an exit ends no visit", in_place!(VISIT_ENDS, "let _ = here;")))),
    of_crosslock(&["exit of a hard handler beside entries of the soft one"], sharing("cross-visit-soft", "an exit of a hard handler ends the soft visit too", in_place!(VISIT_ENDS, "crosslocks.end_visit(here); if kind == EXIT_HARD { crosslocks.end_visit(here - 1); }"))),
    of_crosslock(&["exit beside entries of the task"], sharing("cross-visit-task", "an exit ends the visit of the task too", in_place!(VISIT_ENDS, "crosslocks.end_visit(here); crosslocks.end_visit(here / 3 * 3);"))),
    of_crosslock(&["exit beside entries of another core's handler"], sharing("cross-visit-cores", "an exit ends such visits of all cores", in_place!(VISIT_ENDS, "for core in 0..CORES { crosslocks.end_visit(3 * core + here % 3); }"))),
    of_crosslock(&["exit that strikes out"], sharing("cross-visit-hard", "an exit of a hard handler ends no visit", in_place!(VISIT_ENDS, "if kind == EXIT_SOFT { crosslocks.end_visit(here); }"))),
    of_crosslock(&["exit that strikes out"], sharing("cross-visit-frees", "what is struck out is free again", in_place!(VISIT_ENDS, "crosslocks.history.retain(|entry| !entry.is_some_and(|kept| kept.frame == here));"))),
    of_crosslock(&["exit that strikes out several"], sharing("cross-visit-newest", "an exit strikes out the newest entry only", in_place!(VISIT_ENDS, "if let Some(entry) = crosslocks.history.iter_mut().rev().find(|entry| entry.is_some_and(|kept| kept.frame == here)) { *entry = None; }"))),
    of_crosslock(&["exit, its frame behind the kept count"], sharing("cross-visit-behind", "an exit strikes out entries behind the kept count too", in_place!(VISIT_ENDS, "crosslocks.end_visit(here); for entry in history[..HISTORY].chunks_exact_mut(KEPT_ENTRY) { if usize::from(entry[0]) == 1 + here { entry.fill(0); } }"))),
    of_crosslock(&["exit that strikes out"], sharing("cross-visit-place", "an exit strikes out the place alone", in_place!(VISIT_ENDS, "let before = history.to_vec(); crosslocks.end_visit(here); crosslocks.pack(desk, history); let kept = 2 * word_at(desk, KEPT_COUNT) as usize; for at in (1..kept).step_by(2) { history[at] = before[at]; } mark(desk, core); let drawing = Arrivals::of(desk, sheet); let left = drawing.peel(); if left == 0 { return 0; } desk[1] = 1; if let Some(circle) = drawing.least_cycle(left, desk, sheet) { show(slip, &circle, k, seen); } return 1;"))),
    of_crosslock(&["exit refused with 7 beside entries of its frame"], plant("cross-visit-refused", "a refused exit ends the visit too", &[("(kind == EXIT_SOFT || kind == EXIT_HARD) && depth > 0 {", "(kind == EXIT_SOFT || kind == EXIT_HARD) && depth > 0 {\n        crosslocks.end_visit(here);\n        crosslocks.pack(desk, history);")])),
    of_crosslock(&[], plant("cross-visits-256", "visits are told apart by one byte", by_visit!("256"))),
    only_fixed(of_crosslock(&[], plant("cross-visits-65536", "visits are told apart by two bytes", by_visit!("65_536")))),
    // The history.
    breaks(BY_RECORDS, of_crosslock(&["try not kept", "try with 256 kept"], sharing("cross-kept-tries", "tries are kept", in_place!(KEEPS, "kind == TAKE && !crosslocks.in_progress.is_empty()")))),
    of_crosslock(&["acquire not kept, none in progress", "acquire with 256 kept, none in progress"], sharing("cross-kept-declared", "acquires are kept while crosslocks are declared", in_place!(KEEPS, "kind == TAKE && mode < TRY && !crosslocks.declared.is_empty()"))),
    of_crosslock(&["acquire kept of a recursive read"], sharing("cross-kept-waits", "recursive reads are not kept", in_place!(KEEPS, "kind == TAKE && mode < RECURSIVE && !crosslocks.in_progress.is_empty()"))),
    of_crosslock(&["acquire kept as the first"], sharing("cross-kept-late", "the first acquire after the first crosslock is not kept", in_place!(KEEPS, "kind == TAKE && mode < TRY && (!crosslocks.history.is_empty() || crosslocks.in_progress.len() > 1)"))),
    of_crosslock(&["release of one of several, some kept"], sharing("cross-emptied-early", "each release of a crosslock empties the history", in_place!(RELEASES, "{ crosslocks.in_progress.remove(&class); if !crosslocks.history.is_empty() { crosslocks.history.clear(); } }"))),
    of_crosslock(&["release of the last crosslock, some kept"], sharing("cross-not-emptied", "the history is not emptied", in_place!(RELEASES, "{ crosslocks.in_progress.remove(&class); if crosslocks.in_progress.len() > MOST_IN_PROGRESS { crosslocks.history.clear(); } }"))),
    of_crosslock(&["release of the last crosslock, 256 kept"], sharing("cross-not-emptied-256", "a full history is not emptied", in_place!(RELEASES, "{ crosslocks.in_progress.remove(&class); if crosslocks.in_progress.is_empty() && crosslocks.history.len() < MOST_KEPT { crosslocks.history.clear(); } }"))),
    of_crosslock(&["release of a crosslock with a since number but 0"], sharing("cross-release-since", "a release clears the since number", in_place!(RELEASES, "{ crosslocks.release(class); set_word(desk, SINCE + WORD * usize::from(class), 0); }"))),
    of_crosslock(&["release of the last crosslock, some kept"], sharing("cross-release-bytes", "the bytes of an emptied history are cleared", in_place!(RELEASES, "{ crosslocks.release(class); if crosslocks.history.is_empty() { let kept = 2 * word_at(desk, KEPT_COUNT) as usize; history[..kept].fill(0); } }"))),
    of_crosslock(&["release of a crosslock with acquires that a commit would draw"], sharing("cross-release-commits", "a release commits", in_place!(RELEASES, "{ for kept in crosslocks.since(class, here) { draw(class, hold_arrow(EXCLUSIVE, kept.mode), kept.class); } crosslocks.release(class) }"))),
    of_crosslock(&["release of one of several, some kept"], sharing("cross-release-own", "a release strikes out what came since", in_place!(RELEASES, "{ let since = crosslocks.in_progress[&class]; crosslocks.release(class); crosslocks.history.iter_mut().skip(since).for_each(|entry| *entry = None); }"))),
    // Refusals.
    of_crosslock(&["16 before 18"], sharing("cross-18-16", "18 before 16", in_place!(LISTED, "kind == TAKE_CROSSLOCK && in_progress && crosslocks.in_progress.len() < MOST_IN_PROGRESS"))),
    of_crosslock(&["16 with fewer than 16 in progress", "16 before 18"], sharing("cross-16-never", "a crosslock in progress may be taken again", in_place!(LISTED, "kind == TAKE_CROSSLOCK && in_progress && mode > 0"))),
    of_crosslock(&["17 for a commit"], sharing("cross-17-commit", "a commit may come when the crosslock is not in progress", in_place!(NOT_LISTED, "kind == RELEASE_CROSSLOCK && !in_progress"))),
    of_crosslock(&["17 for a release"], sharing("cross-17-release", "a release may come when the crosslock is not in progress", in_place!(NOT_LISTED, "kind == COMMIT && !in_progress"))),
    of_crosslock(&["17 for a release", "17 for a commit"], sharing("cross-17-list", "17 only where none is in progress", in_place!(NOT_LISTED, "(kind == COMMIT || kind == RELEASE_CROSSLOCK) && crosslocks.in_progress.is_empty()"))),
    of_crosslock(&["sixteenth crosslock taken"], sharing("cross-list-15", "15 may be in progress", in_place!(LIST_FULL, "crosslocks.in_progress.len() >= MOST_IN_PROGRESS - 1"))),
    of_crosslock(&["18 with 16 in progress", "18 before 9"], sharing("cross-list-17", "17 may be in progress", in_place!(LIST_FULL, "crosslocks.in_progress.len() > MOST_IN_PROGRESS"))),
    of_crosslock(&["acquire kept as the last of 256"], sharing("cross-history-255", "255 may be kept", in_place!(HISTORY_FULL, "to_be_kept && crosslocks.history.len() >= MOST_KEPT - usize::from(word_at(desk, COUNT) < u32::MAX)"))),
    of_crosslock(&["try with 256 kept"], sharing("cross-19-tries", "19 for tries too", in_place!(HISTORY_FULL, "kind == TAKE && !crosslocks.in_progress.is_empty() && crosslocks.history.len() == MOST_KEPT"))),
    breaks("reference", of_crosslock(&["acquire with 256 kept, none in progress"], sharing("cross-19-none", "19 with none in progress too", in_place!(HISTORY_FULL, "kind == TAKE && mode < TRY && crosslocks.history.len() == MOST_KEPT && (to_be_kept || word_at(desk, COUNT) < u32::MAX)")))),
    of_crosslock(&["19 before 9"], sharing("cross-9-19", "9 before 19", in_place!(HISTORY_FULL, "to_be_kept && crosslocks.history.len() == MOST_KEPT && word_at(desk, COUNT) < u32::MAX"))),
    of_crosslock(&["8 before 19"], plant("cross-19-8", "19 before 8", &[(EIGHT, "    if crosslocks.keeps(kind, mode) && crosslocks.history.len() == MOST_KEPT {\n        return 19;\n    }\n    if kind == TAKE && depth == DEEPEST {")])),
    of_crosslock(
        &["19 for an acquire"],
        plant("cross-19-accepted", "with a full history an acquire is accepted and not kept", &[
            ("    if to_be_kept && crosslocks.history.len() == MOST_KEPT {\n        return 19;\n    }", ""),
            ("            if to_be_kept {", "            if to_be_kept && crosslocks.history.len() < MOST_KEPT {"),
        ]),
    ),
    of_crosslock(&[], plant("cross-19-held", "the acquire that is refused with 19 is held", &[("crosslocks.history.len() == MOST_KEPT {\n        return 19;", "crosslocks.history.len() == MOST_KEPT {\n        desk[first + depth] = class + 64 * mode;\n        desk[DEPTHS + here] += 1;\n        return 19;")])),
    of_crosslock(&["16 before 9", "17 before 9", "18 before 9"], plant("cross-9-first", "9 before 16, 17 and 18", &[("    // 16: \"already in progress\"", "    if of_a_crosslock && word_at(desk, COUNT) == u32::MAX {\n        return 9;\n    }\n    // 16: \"already in progress\"")])),
    // The fit test of crosslocks.
    of_crosslock(&["declared class K"], sharing("fit-declared-k", "class K may be declared", in_place!(FIT_DECLARED, "usize::from(c) > k"))),
    of_crosslock(&[], sharing("fit-declared-any", "any class may be declared", in_place!(FIT_DECLARED, "usize::from(c) > 63 + k"))),
    of_crosslock(&[], plant("fit-not-declared", "what is in progress need not be declared", &[("if !in_progress.is_subset(&declared) {", "if !in_progress.is_subset(&declared) && in_progress.is_empty() {")])),
    of_crosslock(&["17 in progress"], sharing("fit-17", "17 in progress are fit", in_place!(FIT_LIST, "in_progress.len() > MOST_IN_PROGRESS + 1"))),
    breaks("reference", of_crosslock(&[], sharing("fit-15", "16 in progress are unfit", in_place!(FIT_LIST, "in_progress.len() >= MOST_IN_PROGRESS")))),
    of_crosslock(&["257 kept"], sharing("fit-257", "257 kept are fit", in_place!(FIT_KEPT, "word_at(desk, KEPT_COUNT) > MOST_KEPT as u32 + 1"))),
    breaks("reference", of_crosslock(&[], sharing("fit-255", "256 kept are unfit", in_place!(FIT_KEPT, "word_at(desk, KEPT_COUNT) >= MOST_KEPT as u32")))),
    of_crosslock(&["more kept by its third or fourth byte"], sharing("fit-kept-two", "two bytes of the kept count are looked at", in_place!(FIT_KEPT, "word_at(desk, KEPT_COUNT) % 65_536 > MOST_KEPT as u32"))),
    breaks("reference", of_crosslock(&[], sharing("fit-kept-alone", "kept acquires with none in progress are unfit", in_place!(FIT_KEPT, "word_at(desk, KEPT_COUNT) > MOST_KEPT as u32 || in_progress.is_empty() && word_at(desk, KEPT_COUNT) > 0")))),
    of_crosslock(&[], sharing("fit-since", "a since number above the kept count is unfit", in_place!(FIT_KEPT, "word_at(desk, KEPT_COUNT) > MOST_KEPT as u32 || in_progress.iter().any(|&c| word_at(desk, SINCE + WORD * usize::from(c)) > word_at(desk, KEPT_COUNT))"))),
    of_crosslock(&[], sharing("fit-since-idle", "a since number of a class that is not in progress is unfit", in_place!(FIT_KEPT, "word_at(desk, KEPT_COUNT) > MOST_KEPT as u32 || (0..64).any(|c| !in_progress.contains(&(c as u8)) && word_at(desk, SINCE + WORD * c) > 0)"))),
    of_crosslock(&[], sharing("fit-held-crosslock", "a held lock of a crosslock is unfit", in_place!(FIT_KEPT, "word_at(desk, KEPT_COUNT) > MOST_KEPT as u32 || frames().any(|(holds, &depth)| holds[..usize::from(depth)].iter().any(|h| declared.contains(&(h % 64))))"))),
    of_crosslock(&[], sharing("fit-marked-crosslock", "a mark on a crosslock is unfit", in_place!(FIT_KEPT, "word_at(desk, KEPT_COUNT) > MOST_KEPT as u32 || declared.iter().any(|&c| marks[usize::from(c)] != 0)"))),
    of_crosslock(&["step with a history a byte short"], plant("fit-history-511", "a history of 511 bytes is fit", &[("    if history.len() < HISTORY {\n        return Some(HISTORY_CLAUSES[0]);", "    if history.len() < HISTORY - 1 {\n        return Some(HISTORY_CLAUSES[0]);")])),
    of_crosslock(&[], plant("fit-history-kept", "a history need be as long as what is kept only", &[("    if history.len() < HISTORY {\n        return Some(HISTORY_CLAUSES[0]);", "    if history.len() < KEPT_ENTRY * word_at(desk, KEPT_COUNT) as usize {\n        return Some(HISTORY_CLAUSES[0]);")])),
    of_crosslock(&["place byte 25"], sharing("fit-place-25", "place byte 25 is fit", in_place!(FIT_PLACE, "usize::from(entry[0]) > FRAMES + 1"))),
    of_crosslock(&["step with an entry of frame 23"], sharing("fit-place-24", "place byte 24 is unfit", in_place!(FIT_PLACE, "usize::from(entry[0]) >= FRAMES"))),
    of_crosslock(&[], plant("fit-struck-out", "the second byte of what is struck out may be any", &[("entry[0] == 0 && entry[1] != 0", "entry[0] == 0 && entry[1] > 191")])),
    of_crosslock(&[], plant("fit-kept-class", "kept class K is fit", &[("standing().any(|entry| usize::from(entry[1] % 64) >= k)", "standing().any(|entry| usize::from(entry[1] % 64) > k)"), (OLDER, "if usize::from(to) >= k {\n            return;\n        }\n        let pair = usize::from(from) * k + usize::from(to);")])),
    of_crosslock(&[], sharing("fit-kept-mode", "kept mode 3 is fit", in_place!(FIT_MODE, "entry[1] / 64 > 3"))),
    of_crosslock(&["step with an entry of a crosslock"], sharing("fit-kept-crosslock", "a kept acquire of a crosslock is unfit", in_place!(FIT_MODE, "entry[1] / 64 == 3 || long_word_at(desk, DECLARED) >> (entry[1] % 64) & 1 == 1"))),
    of_crosslock(&["unfit entry kept as the last"], plant("fit-history-last", "the last kept entry is not looked at", &[(FIT_ENTRIES, "let entries = || history.chunks_exact(KEPT_ENTRY).take(kept.saturating_sub(1));")])),
    breaks("reference", of_crosslock(&["step with bytes behind the kept count that would not fit"], plant("fit-history-all", "all entries are looked at", &[(FIT_ENTRIES, "let entries = || history.chunks_exact(KEPT_ENTRY).take(kept.max(MOST_KEPT));")]))),
    of_crosslock(&[], plant("fit-history-progress", "the history is looked at while a crosslock is in progress only", &[(FIT_ENTRIES, "let entries = || history.chunks_exact(KEPT_ENTRY).take(if long_word_at(desk, PROGRESS) == 0 { 0 } else { kept });")])),
    of_crosslock(&[], plant("fit-history-byte", "255 entries at most are looked at", &[(FIT_ENTRIES, "let entries = || history.chunks_exact(KEPT_ENTRY).take(kept.min(255));")])),
    // Opening with crosslocks, and desks without them.
    shown(&["opening with class K alone over the limit"], sharing("opening-declared-k", "opening accepts class K declared", in_place!(WORD_FITS, "u64::from(c) > k"))),
    shown(&["opening with a class of K or more declared"], sharing("opening-declared-any", "opening accepts any word", in_place!(WORD_FITS, "u64::from(c) >= k + 64"))),
    shown(&["opening over a history with bytes"], plant("opening-history-stays", "opening leaves the history", &[("    history[..HISTORY].fill(0);\n    0", "    0")])),
    shown(&["opening with a history longer"], plant("opening-past-history", "opening clears the bytes behind the history", &[("    history[..HISTORY].fill(0);\n    0", "    history.fill(0);\n    0")])),
    shown(&["opening with a history a byte short"], plant("opening-history-511", "opening accepts a history of 511 bytes", &[("if history.len() < HISTORY || !fresh(", "if history.len() < HISTORY - 1 || !fresh("), ("    history[..HISTORY].fill(0);\n    0", "    let end = history.len().min(HISTORY);\n    history[..end].fill(0);\n    0")])),
    shown(&["opening with crosslocks"], sharing("opening-declared-low", "opening takes the low byte of the word", in_place!(WORD_WRITTEN, "(declared % 256).to_le_bytes()"))),
    shown(&["opening with crosslocks"], sharing("opening-declared-high", "opening writes the word's high byte first", in_place!(WORD_WRITTEN, "declared.to_be_bytes()"))),
    shown(&["opening of a desk without crosslocks"], plant("opening-1398", "opening accepts a desk of 1,398 bytes", opening_of!("1398"))),
    shown(&["call on a desk without crosslocks", "call on a desk with part of the crosslocks", "call on a desk a byte short"], plant("desk-1398", "a desk of 1,398 bytes is fit", desk_unless!("desk.len() < DECLARED"))),
    // Headers with crosslocks, and what a feed keeps and stands at.
    plant("feed-long-old", "a header is of four bytes, as before", &[("(false, [_, _, 0x02, ..]) => LONG_HEADER,", "(false, [_, _, 0x02, _, _, ..]) => LONG_HEADER,")]),
    plant("feed-long-by-three", "a header is of twelve bytes only if its first two are right too", &[("(false, [_, _, 0x02, ..]) => LONG_HEADER,", "(false, [0x4C, 0x48, 0x02, ..]) => LONG_HEADER,")]),
    plant("feed-long-over-1", "a header is of twelve bytes if its third is over 1", &[("(false, [_, _, 0x02, ..]) => LONG_HEADER,", "(false, [_, _, 0x02..=255, ..]) => LONG_HEADER,")]),
    shown(&["long header that opens"], plant("feed-word-high", "the word's high byte comes first", &[("        .rev()\n        .fold(0, |word, &byte| word << 8 | u64::from(byte));\n    Some((u64::from(*k), word))", "        .fold(0, |word, &byte| word << 8 | u64::from(byte));\n    Some((u64::from(*k), word))")])),
    shown(&["long header that opens", "long header with a class of K or more"], sharing("feed-word-none", "a long header declares none", in_place!(WORD_READ, "Some((u64::from(*k), word * 0))"))),
    shown(&["long header that declares class 8 or more opens", "long header with a class of K or more"], sharing("feed-word-low", "a long header's word is its first byte", in_place!(WORD_READ, "Some((u64::from(*k), word % 256))"))),
    shown(&["long header that declares none opens"], plant("feed-word-0", "a long header must declare some", &[("[0x4C, 0x48, 0x02, k, declared @ ..] if declared.len() == 8", "[0x4C, 0x48, 0x02, k, declared @ ..] if declared.len() == 8 && declared.iter().any(|&byte| byte != 0)")])),
    shown(&["piece that leaves 11 bytes of the header"], plant("feed-loose-10", "at most ten loose bytes are kept", &[(AFTER_PIECE, "            held.judge(desk, sheet, seen, history, slip);\n        }\n    }\n    held.loose.truncate(10);\n    held.write(feed);")])),
    shown(&["header with a short history"], plant("header-short-history", "a history too short for the header is answered with 11", &[("Some((k, declared)) => open(", "Some((k, declared)) if history.len() < HISTORY && (1..=64).contains(&k) && declared >> (k - 1) < 2 && desk.len() >= DESK && sheet.len() >= sheet_len(k as usize) && seen.len() >= seen_len(k as usize) => 11,\n                Some((k, declared)) => open(")])),
    sharing("feed-late-15", "15 is unfit after opening", in_place!(STANDS_AT, "matches!(answer, 0 | 1 | 3..=11 | 16..=19)")),
    sharing("feed-late-19", "19 is unfit after opening", in_place!(STANDS_AT, "matches!(answer, 0 | 1 | 3..=11 | 15..=18)")),
    sharing("feed-late-14", "14 is fit after opening", in_place!(STANDS_AT, "matches!(answer, 0 | 1 | 3..=11 | 14..=19)")),
    sharing("feed-late-20", "20 is fit after opening", in_place!(STANDS_AT, "matches!(answer, 0 | 1 | 3..=11 | 15..=20)")),
    sharing("feed-late-17", "17 is unfit after opening", in_place!(STANDS_AT, "matches!(answer, 0 | 1 | 3..=11 | 15 | 16 | 18 | 19)")),
    plant("feed-stops-not-16", "a feed goes on after a 16", &[("self.answer = step(desk, sheet, seen, history, slip, &self.loose);", "self.answer = match step(desk, sheet, seen, history, slip, &self.loose) {\n                16 => 0,\n                answer => answer,\n            };")]),
    // Balances beside crosslocks.
    breaks(AS_COUNTED, shown(&["kind 10 in a piece"], plant("balance-kind-10", "a take of a crosslock counts as an acquire", &[(TAKEN, "            TAKE | TAKE_CROSSLOCK => takes[usize::from(class)] += 1,")]))),
    shown(&["kind 11 in a piece"], plant("balance-kind-11", "a commit counts as an acquire", &[(TAKEN, "            TAKE | COMMIT => takes[usize::from(class)] += 1,")])),
    breaks(AS_HELD, shown(&["kind 12 in a piece"], plant("balance-kind-12", "a release of a crosslock counts as a release", &[(RELEASED, "            RELEASE | RELEASE_CROSSLOCK => releases[usize::from(class)] += 1,")]))),
    // Joins of benches with crosslocks.
    breaks(JOIN_ANSWERS, shown(&["12 for other crosslocks alone", "12 for other crosslocks, a bench closed"], sharing("join-word-never", "benches with other crosslocks are joined", in_place!(OTHER_WORD, "declared[0] != declared[0]")))),
    shown(&["12 for class 8 or more a crosslock of one alone"], sharing("join-word-byte", "the low bytes of the words are compared", in_place!(OTHER_WORD, "declared[0] as u8 != declared[1] as u8"))),
    breaks(IN_ORDER, shown(&["12 for other crosslocks alone", "12 for other crosslocks, a bench closed"], sharing("join-word-more", "12 only where the second bench has more crosslocks", in_place!(OTHER_WORD, "declared[1] & !declared[0] != 0")))),
    shown(&["12 for other crosslocks alone", "12 for other crosslocks, a bench closed"], sharing("join-word-apart", "12 only where no crosslock is on both benches", in_place!(OTHER_WORD, "declared[0] != declared[1] && declared[0] & declared[1] == 0"))),
    shown(&["join with the same crosslocks"], sharing("join-word-none", "the joined desk declares none", in_place!(FRESH, "fresh(k1, 0, desk, sheet, seen)"))),
    breaks(IN_ORDER, shown(&["join with a crosslock in progress on the first bench"], sharing("join-progress-first", "what is in progress on the first bench stays so", fresh_but!("desk[PROGRESS..KEPT_COUNT].copy_from_slice(&desk1[PROGRESS..KEPT_COUNT]);")))),
    shown(&["join with a crosslock in progress on the second bench"], sharing("join-progress-second", "what is in progress on the second bench stays so", fresh_but!("desk[PROGRESS..KEPT_COUNT].copy_from_slice(&desk2[PROGRESS..KEPT_COUNT]);"))),
    shown(&["join with some kept on the first bench"], sharing("join-kept-first", "what is kept on the first bench stays so", fresh_but!("desk[KEPT_COUNT..SINCE].copy_from_slice(&desk1[KEPT_COUNT..SINCE]);"))),
    shown(&["join with some kept on the second bench"], sharing("join-kept-second", "what is kept on the second bench stays so", fresh_but!("desk[KEPT_COUNT..SINCE].copy_from_slice(&desk2[KEPT_COUNT..SINCE]);"))),
    shown(&["join with a since number on the first bench"], sharing("join-since-first", "the first bench's since numbers stay", fresh_but!("desk[SINCE..DESK].copy_from_slice(&desk1[SINCE..DESK]);"))),
    shown(&["join with a since number on the second bench"], sharing("join-since-second", "the second bench's since numbers stay", fresh_but!("desk[SINCE..DESK].copy_from_slice(&desk2[SINCE..DESK]);"))),
    shown(&["join with a crosslock in progress on the first bench", "join with a crosslock in progress on the second bench"], sharing("join-progress-13", "13 for a crosslock in progress", in_place!(CLOSED, "desk1[1] == 1 || desk2[1] == 1 || long_word_at(desk1, PROGRESS) != 0 || long_word_at(desk2, PROGRESS) != 0"))),
    shown(&["join with some kept on the first bench", "join with some kept on the second bench"], sharing("join-kept-13", "13 for a bench with kept acquires", in_place!(CLOSED, "desk1[1] == 1 || desk2[1] == 1 || word_at(desk1, KEPT_COUNT) != 0 || word_at(desk2, KEPT_COUNT) != 0"))),
    // Merges: what a core's record gets or leaves depends on the others.
    of_merge(SAME_ANSWERS, sharing("merge-refuses-held", "8 for a class that another core holds", beside!(FRAME_FULL, "kind == TAKE && (depth == DEEPEST || same)"))),
    of_merge(
        SAME_ANSWERS,
        sharing(
            "merge-depth-all",
            "8 where all cores together hold 48 locks",
            in_place!(FRAME_FULL, "kind == TAKE && desk[DEPTHS..MARKS].iter().map(|&depth| usize::from(depth)).sum::<usize>() >= DEEPEST"),
        ),
    ),
    of_merge(
        SAME_ANSWERS,
        sharing(
            "merge-depth-others",
            "8 where another core's frame is full too",
            beside!(FRAME_FULL, "kind == TAKE && (depth == DEEPEST || depth > 0 && (0..FRAMES).any(|frame| usize::from(desk[DEPTHS + frame]) == DEEPEST))"),
        ),
    ),
    of_merge(
        SAME_ANSWERS,
        sharing(
            "merge-exit-others",
            "7 while such a handler of any core holds locks",
            in_place!(STILL_HELD, "(kind == EXIT_SOFT || kind == EXIT_HARD) && (0..CORES).any(|other| desk[DEPTHS + 3 * other + here % 3] > 0)"),
        ),
    ),
    of_merge(SAME_ANSWERS, sharing("merge-exit-holding", "no 7 while another core holds locks", beside!(STILL_HELD, "(kind == EXIT_SOFT || kind == EXIT_HARD) && depth > 0 && !holding"))),
    of_merge(
        SAME_ANSWERS,
        sharing("merge-table-other", "events go by the state of the next core", in_place!(IN_TABLE, "match next_state(desk[STATES + (usize::from(core) + 1) % CORES], kind) {\n            Some(next) => next,\n            None => return 6,\n        }")),
    ),
    of_merge(
        SAME_ANSWERS,
        sharing("merge-hard-once", "6 for a hard handler while another core is in one", beside!(IN_TABLE, "match next_state(state, kind).filter(|_| kind != 8 || !others().any(|other| desk[STATES + other] > 5)) {\n            Some(next) => next,\n            None => return 6,\n        }")),
    ),
    of_merge(SAME_ANSWERS, sharing("merge-accepts-6", "no 6 while another core is in a handler", beside!(IN_TABLE, "match next_state(state, kind).or(if in_handler { Some(state) } else { None }) {\n            Some(next) => next,\n            None => return 6,\n        }"))),
    of_merge(
        SAME_ANSWERS,
        sharing("merge-soft-off", "6 for a soft handler while another core has soft off", beside!(IN_TABLE, "match next_state(state, kind).filter(|_| kind != 6 || !others().any(|other| [1, 3].contains(&desk[STATES + other]))) {\n            Some(next) => next,\n            None => return 6,\n        }")),
    ),
    of_merge(SAME_ANSWERS, sharing("merge-release-elsewhere", "a release of what another core holds is accepted", beside!(NOT_HELD, "kind == RELEASE && newest.map(taken) != Some(mode) && !(newest.is_none() && same)"))),
    of_merge(SAME_ANSWERS, sharing("merge-release-refused", "5 while another core holds the class too", beside!(NOT_HELD, "kind == RELEASE && (newest.map(taken) != Some(mode) || same)"))),
    of_merge(SAME_ANSWERS, sharing("merge-15-holding", "no 15 for a lock while another core holds one", beside!(WRONG_SORT, "(of_a_lock && is_crosslock && !holding) || (of_a_crosslock && !is_crosslock)"))),
    of_merge(SAME_DESK, sharing("merge-marks-alone", "nothing is marked while another core is in a handler", beside!(MARKED_NOW, "if !in_handler { mark(desk, core) }"))),
    of_merge(OPEN_ALIKE, sharing("merge-marks-holding", "nothing is marked while another core holds a lock", beside!(MARKED_NOW, "if !holding { mark(desk, core) }"))),
    of_merge(
        OPEN_ALIKE,
        sharing(
            "merge-marks-all",
            "the held locks of all cores are marked by the record's core's state",
            in_place!(MARKED_NOW, "for other in 0..CORES as u8 {
        let own = desk[STATES + usize::from(other)];
        desk[STATES + usize::from(other)] = state_after;
        mark(desk, other);
        desk[STATES + usize::from(other)] = own;
    }"),
        ),
    ),
    of_merge(SAME_DESK, sharing("merge-marks-even", "held locks are marked by every second record", in_place!(MARKED_NOW, "if own_number % 2 == 0 { mark(desk, core) }"))),
    Plant {
        from_join: true,
        ..of_merge(
            SAME_DESK,
            sharing(
                "merge-first-unmarked",
                "nothing is marked by the first record behind a join with dependencies",
                in_place!(MARKED_NOW, "if own_number > 1 || sheet[..k * k].iter().all(|&kinds| kinds == 0) { mark(desk, core) }"),
            ),
        )
    },
    of_merge(
        OPEN_ALIKE,
        sharing(
            "merge-forgets",
            "a release forgets the dependencies to its class while another core holds a lock",
            beside!(MARKED_NOW, "mark(desk, core);
    if kind == RELEASE && holding {
        for from in 0..k {
            let pair = from * k + usize::from(class);
            sheet[pair] = 0;
            set_word(seen, WORD * pair, 0);
        }
    }"),
        ),
    ),
    of_merge(
        OPEN_ALIKE,
        sharing(
            "merge-draws-others",
            "an acquire draws from the locks that other cores hold, too",
            beside!(DRAWS, "if !by_try {
                let far: Vec<(u8, u8)> = places().map(|at| (desk[at] % 64, desk[at] / 64)).collect();
                for (older, older_mode) in older_holds.into_iter().chain(far) {
                    draw(older, hold_arrow(older_mode, mode), class);
                }
            }"),
        ),
    ),
    of_merge(
        SAME_DESK,
        sharing(
            "merge-draws-alone",
            "an acquire draws from no lock whose class another core holds",
            beside!(DRAWS, "if !by_try {
                let far: Vec<u8> = places().map(|at| desk[at] % 64).collect();
                for (older, older_mode) in older_holds.into_iter().filter(|(older, _)| !far.contains(older)) {
                    draw(older, hold_arrow(older_mode, mode), class);
                }
            }"),
        ),
    ),
    of_merge(
        OPEN_ALIKE,
        sharing(
            "merge-try-waits",
            "a try draws dependencies where another core holds its class",
            beside!(DRAWS, "if !by_try || same {
                for (older, older_mode) in older_holds {
                    draw(older, hold_arrow(older_mode, mode), class);
                }
            }"),
        ),
    ),
    of_merge(
        SAME_DESK,
        sharing(
            "merge-draws-even",
            "every second record draws",
            in_place!(DRAWS, "if !by_try && own_number % 2 == 0 {
                for (older, older_mode) in older_holds {
                    draw(older, hold_arrow(older_mode, mode), class);
                }
            }"),
        ),
    ),
    of_merge(SAME_DESK, sharing("merge-kinds-first", "a pair keeps its first kind alone", in_place!(KIND_NOW, "if sheet[pair] == 0 { sheet[pair] = kind }"))),
    of_merge(SAME_DESK, sharing("merge-kinds-last", "a pair has its last kind alone", in_place!(KIND_NOW, "sheet[pair] = kind"))),
    of_merge(SAME_DESK, sharing("merge-count-handlers", "nothing is counted while another core is in a handler", beside!(COUNTED_NOW, "if !in_handler { set_word(desk, COUNT, own_number) }"))),
    of_merge(SAME_DESK, sharing("merge-count-holding", "a record counts twice while another core holds a lock", beside!(COUNTED_NOW, "set_word(desk, COUNT, own_number + u32::from(holding))"))),
    of_merge(
        SAME_DESK,
        sharing("merge-count-core", "a record counts twice where the count so far has its core's number in three bits", in_place!(COUNTED_NOW, "set_word(desk, COUNT, own_number + u32::from((own_number - 1) % 8 == u32::from(core)))")),
    ),
    of_merge(
        SAME_DESK,
        sharing(
            "merge-count-refused",
            "a release that gets 5 is counted while another core holds a lock",
            beside!(REFUSED, "if holding {
            let counted = word_at(desk, COUNT).wrapping_add(1);
            set_word(desk, COUNT, counted);
        }
        return 5"),
        ),
    ),
    of_merge(SAME_DESK, sharing("merge-origin", "a try is no try while another core is in a handler", beside!(ORIGIN_NOW, "set_origin(desk, first + depth, by_try && !in_handler)"))),
    of_merge(
        SAME_DESK,
        sharing("merge-mode", "a lock is held as a read where another core holds its class", beside!(HELD_NOW, "desk[first + depth] = class + 64 * if mode == EXCLUSIVE && same { 1 } else { mode }")),
    ),
    of_merge(
        SAME_ANSWERS,
        sharing(
            "merge-state-all",
            "soft off goes for all tasks",
            in_place!(STATE_NOW, "desk[STATES + usize::from(core)] = state_after;
            for state in &mut desk[STATES..STATES + CORES] {
                if kind == 5 && *state == 0 {
                    *state = 1;
                }
            }"),
        ),
    ),
    of_merge(OPEN_ALIKE, sharing("merge-judges-even", "no cycle is looked for by the records of cores with odd numbers", in_place!(NO_FAULT, "if left == 0 || core % 2 == 1 { return 0; }"))),
    of_merge(OPEN_ALIKE, sharing("merge-judges-events", "no cycle is looked for by events", in_place!(NO_FAULT, "if left == 0 || !of_a_lock && !of_a_crosslock { return 0; }"))),
    of_merge(OPEN_ALIKE, sharing("merge-judges-turn", "a cycle is looked for by every second record", in_place!(NO_FAULT, "if left == 0 || own_number % 2 == 1 { return 0; }"))),
    of_merge(OPEN_ALIKE, sharing("merge-judges-acquires", "a cycle is looked for by acquires alone", in_place!(NO_FAULT, "if left == 0 || kind != TAKE { return 0; }"))),
    of_merge(OPEN_ALIKE, sharing("merge-judges-alone", "a cycle is a fault only while no other core is in a handler", beside!(NO_FAULT, "if left == 0 || in_handler { return 0; }"))),
    of_merge(
        WITHIN_ALL,
        plant(
            "merge-fault-draws",
            "a fault draws EN from class 0 to itself too",
            &[(
                SHOW,
                "    show(slip, &circle.expect(\"where something remains, a cycle exists\"), k, seen);
    if sheet[0] == 0 {
        set_word(seen, 0, own_number);
    }
    sheet[0] |= EN;",
            )],
        ),
    ),
    of_merge(
        CLOSED_BY_ALL,
        plant(
            "merge-read-cycles",
            "a cycle with a read is no fault",
            &[("    desk[1] = 1;\n    let circle", "    if drawing.least_cycle(left, desk, sheet).is_some_and(|circle| circle.iter().any(|&(_, kind, _)| kind != EN)) {\n        return 0;\n    }\n    desk[1] = 1;\n    let circle")],
        ),
    ),
    // Document 002's rules, where all that is drawn is exclusive.
    of_usage(EACH_BROKEN, sharing("rule-zero", "one class safe and unsafe breaks no rule", by_rules!("e.circle(1, 64) || e.path(0) || e.path(1)"))),
    of_usage(EACH_BROKEN, sharing("rule-zero-hard", "one class hard-safe and hard-unsafe breaks no rule", by_rules!("e.circle(1, 64) || e.one_class(1) || e.path(0) || e.path(1)"))),
    of_usage(EACH_BROKEN, sharing("rule-zero-soft", "one class soft-safe and soft-unsafe breaks no rule", by_rules!("e.circle(1, 64) || e.one_class(0) || e.path(0) || e.path(1)"))),
    of_usage(EACH_BROKEN, sharing("rule-no-circle", "a circle breaks no rule", by_rules!("e.level(0) || e.level(1)"))),
    of_usage(EACH_BROKEN, sharing("rule-circle-1", "a circle of two or more breaks no rule", by_rules!("e.circle(1, 1) || e.level(0) || e.level(1)"))),
    of_usage(EACH_BROKEN, sharing("rule-circle-2", "a circle of three or more breaks no rule", by_rules!("e.circle(1, 2) || e.level(0) || e.level(1)"))),
    of_usage(EACH_BROKEN, sharing("rule-circle-3", "a circle of four or more breaks no rule", by_rules!("e.circle(1, 3) || e.level(0) || e.level(1)"))),
    of_usage(EACH_BROKEN, sharing("rule-circle-itself", "a class twice breaks no rule", by_rules!("e.circles_over(2) || e.level(0) || e.level(1)"))),
    of_usage(EACH_BROKEN, sharing("rule-hard-only", "nothing at soft breaks a rule", by_rules!("e.circle(1, 64) || e.level(0)"))),
    of_usage(EACH_BROKEN, sharing("rule-soft-only", "nothing at hard breaks a rule", by_rules!("e.circle(1, 64) || e.level(1)"))),
    of_usage(EACH_BROKEN, sharing("rule-no-path", "no path breaks a rule", by_rules!("e.circle(1, 64) || e.one_class(0) || e.one_class(1)"))),
    of_usage(EACH_BROKEN, sharing("rule-path-1", "a path of one dependency alone breaks a rule", by_rules!("e.but_paths() || [0, 1].iter().any(|&level| e.leads(e.safe[level], e.is_unsafe[level], 1, 1))"))),
    of_usage(EACH_BROKEN, sharing("rule-path-2", "a path of three or more breaks no rule", by_rules!("e.but_paths() || [0, 1].iter().any(|&level| e.leads(e.safe[level], e.is_unsafe[level], 1, 2))"))),
    of_usage(EACH_BROKEN, sharing("rule-path-3", "a path of four or more breaks no rule", by_rules!("e.but_paths() || [0, 1].iter().any(|&level| e.leads(e.safe[level], e.is_unsafe[level], 1, 3))"))),
    of_usage(EACH_BROKEN, sharing("rule-path-from-2", "a path of one dependency breaks no rule", by_rules!("e.but_paths() || [0, 1].iter().any(|&level| e.leads(e.safe[level], e.is_unsafe[level], 2, 64))"))),
    of_usage(EACH_BROKEN, sharing("rule-path-odd", "a path of an even number of dependencies breaks no rule", by_rules!("e.but_paths() || [0, 1].iter().any(|&level| (1..64).step_by(2).any(|n| e.leads(e.safe[level], e.is_unsafe[level], n, n)))"))),
    of_usage(EACH_BROKEN, sharing("rule-backward", "a path from unsafe to safe breaks a rule, the other way none", by_rules!("e.but_paths() || [0, 1].iter().any(|&level| e.leads(e.is_unsafe[level], e.safe[level], 1, 64))"))),
    of_usage(ONLY_BROKEN, sharing("rule-both-ways", "a path from unsafe to safe breaks a rule too", by_rules!("e.right() || [0, 1].iter().any(|&level| e.leads(e.is_unsafe[level], e.safe[level], 1, 64))"))),
    of_usage(ONLY_BROKEN, sharing("rule-mixed", "a path from soft-safe to hard-unsafe breaks a rule too", by_rules!("e.right() || e.leads(e.safe[1], e.is_unsafe[0], 1, 64)"))),
    of_usage(ONLY_BROKEN, sharing("rule-mixed-class", "one class soft-safe and hard-unsafe breaks a rule too", by_rules!("e.right() || e.safe[1] & e.is_unsafe[0] != 0"))),
    of_usage(ONLY_BROKEN, sharing("rule-safe-to-safe", "a path from hard-safe to soft-safe breaks a rule too", by_rules!("e.right() || e.leads(e.safe[0], e.safe[1], 1, 64)"))),
    of_usage(ONLY_BROKEN, sharing("rule-unsafe-to-unsafe", "a path from unsafe to unsafe breaks a rule too", by_rules!("e.right() || e.leads(e.is_unsafe[0], e.is_unsafe[0], 1, 64)"))),
    of_usage(ONLY_BROKEN, sharing("rule-both-safe", "one class safe at both levels breaks a rule too", by_rules!("e.right() || e.safe[0] & e.safe[1] != 0"))),
    of_usage(ONLY_BROKEN, sharing("rule-long-paths", "a path of four or more dependencies breaks a rule too", by_rules!("e.right() || e.leads(u64::MAX, u64::MAX, 4, 64)"))),
    of_usage(EACH_BROKEN, sharing("rule-hard-by-soft", "a path from hard-safe breaks a rule only to soft-unsafe", by_rules!("e.but_paths() || e.path(1) || e.leads(e.safe[0], e.is_unsafe[1], 1, 64)"))),
    of_usage(EACH_BROKEN, sharing("rule-soft-unhard", "what is soft-unsafe is not hard-unsafe", by_rules!("e.circle(1, 64) || e.level(1) || e.safe[0] & e.is_unsafe[0] & !e.is_unsafe[1] != 0 || e.leads(e.safe[0], e.is_unsafe[0] & !e.is_unsafe[1], 1, 64)"))),
    of_usage(EACH_BROKEN, sharing("rule-two-levels", "at hard nothing breaks a rule where some class is soft-safe", by_rules!("e.circle(1, 64) || e.level(1) || e.safe[1] == 0 && e.level(0)"))),
    of_usage(EACH_BROKEN, sharing("rule-low-classes", "a path from a class of 32 or more breaks no rule", by_rules!("e.but_paths() || [0, 1].iter().any(|&level| e.leads(e.safe[level] & 0xFFFF_FFFF, e.is_unsafe[level], 1, 64))"))),
    of_usage(EACH_BROKEN, sharing("rule-last-class", "a path to the last class breaks no rule", by_rules!("e.but_paths() || [0, 1].iter().any(|&level| e.leads(e.safe[level], e.is_unsafe[level] & !(1 << (e.k - 1)), 1, 64))"))),
    of_usage(EACH_BROKEN, sharing("rule-crosslocks", "what leads over a crosslock breaks no rule", by_rules!("e.without(e.declared).right()"))),
    of_usage(
        BY_QUESTION,
        plant(
            "question-not-itself",
            "the question does not follow a dependency of the class to itself",
            &[("let mut reached = self.next[class];", "let mut reached = self.next[class] & !(1 << class);")],
        ),
    ),
];
