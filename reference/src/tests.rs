//! The logs of document 01 and the rules of both documents one by one.
use super::*;

/// Of request j.
mod crosslocks;
/// Of request k.
mod merges;

// ------------------------------------------------------------------- helpers

const E: u8 = 0;
const NR: u8 = 1; // the document's "r"
const R: u8 = 2;
// Tries of the three.
const TE: u8 = 3;
const TR: u8 = 4;
const TRR: u8 = 5;
const MODES: [u8; 6] = [E, NR, R, TE, TR, TRR];

const HARD_ON: u8 = 2;
const HARD_OFF: u8 = 3;
const SOFT_ON: u8 = 4;
const SOFT_OFF: u8 = 5;
const ENTER_SOFT: u8 = 6;
const ENTER_HARD: u8 = 8;

type Rec = [u8; 6];

fn take(core: u8, class: u8, mode: u8) -> Rec {
    [0x4C, 0x4B, core, TAKE, class, mode]
}
/// With the mode taken.
fn release(core: u8, class: u8, mode: u8) -> Rec {
    [0x4C, 0x4B, core, RELEASE, class, mode]
}
fn event(core: u8, kind: u8) -> Rec {
    [0x4C, 0x4B, core, kind, 0, 0]
}

fn take_cross(core: u8, class: u8) -> Rec {
    [0x4C, 0x4B, core, 10, class, 0]
}
fn commit(core: u8, class: u8) -> Rec {
    [0x4C, 0x4B, core, 11, class, 0]
}
fn release_cross(core: u8, class: u8) -> Rec {
    [0x4C, 0x4B, core, 12, class, 0]
}

/// The word in which the bits of these classes are 1.
fn word_of(classes: &[u8]) -> u64 {
    classes.iter().fold(0, |word, class| word | 1u64 << class)
}

#[derive(Clone, PartialEq, Debug)]
struct Bench {
    desk: Vec<u8>,
    sheet: Vec<u8>,
    seen: Vec<u8>,
    history: Vec<u8>,
    slip: Vec<u8>,
}

impl Bench {
    fn new(k: usize) -> Bench {
        Bench::declaring(k, &[])
    }
    /// With these classes declared crosslocks.
    fn declaring(k: usize, crosslocks: &[u8]) -> Bench {
        let mut b = Bench {
            desk: vec![0xA5; DESK],
            sheet: vec![0xA5; sheet_len(k)],
            seen: vec![0xA5; seen_len(k)],
            history: vec![0xA5; 512],
            slip: vec![0xA5; slip_len(k)],
        };
        assert_eq!(b.open_declared(k as u64, word_of(crosslocks)), 0);
        b
    }
    fn open(&mut self, k: u64) -> u8 {
        self.open_declared(k, 0)
    }
    fn open_declared(&mut self, k: u64, declared: u64) -> u8 {
        let Bench {
            desk,
            sheet,
            seen,
            history,
            ..
        } = self;
        open(k, declared, desk, sheet, seen, history)
    }
    fn step(&mut self, record: &[u8]) -> u8 {
        step(
            &mut self.desk,
            &mut self.sheet,
            &mut self.seen,
            &mut self.history,
            &mut self.slip,
            record,
        )
    }
    /// Steps that must all answer 0.
    fn clean(mut self, records: &[Rec]) -> Bench {
        for r in records {
            assert_eq!(self.step(r), 0);
        }
        self
    }
    /// A step whose answer is a refusal: nothing may change.
    fn refused(&self, record: &[u8], answer: u8) {
        let mut copy = self.clone();
        assert_eq!(copy.step(record), answer);
        assert_eq!(&copy, self);
    }
    fn ask(&self, class: u64) -> (u8, u64, u32) {
        let (mut word, mut count) = (99, 99);
        let answer = ask(
            &self.desk,
            &self.sheet,
            &self.seen,
            class,
            &mut word,
            &mut count,
        );
        (answer, word, count)
    }
    /// The count of accepted records, bytes 1,394 to 1,397, low byte first.
    fn count(&self) -> u32 {
        u32::from_le_bytes([
            self.desk[1394],
            self.desk[1395],
            self.desk[1396],
            self.desk[1397],
        ])
    }
    fn set_count(&mut self, count: u32) {
        self.desk[1394..1398].copy_from_slice(&count.to_le_bytes());
    }
    /// The number of a pair on the second sheet, at 4 x (from x K + to).
    fn number(&self, from: usize, to: usize) -> u32 {
        let at = 4 * (from * self.desk[0] as usize + to);
        u32::from_le_bytes(self.seen[at..at + 4].try_into().unwrap())
    }
    fn set_number(&mut self, from: usize, to: usize, number: u32) {
        let at = 4 * (from * self.desk[0] as usize + to);
        self.seen[at..at + 4].copy_from_slice(&number.to_le_bytes());
    }
    /// Makes numbers fit a sheet that was written by hand: a pair with kinds and no number
    /// gets one in no order, up to 2 to the 31; one without kinds gets 0. A count below any of
    /// them is raised, as after an opening; it needn't be (02 i).
    fn settle(&mut self) {
        let k = self.desk[0] as usize;
        let mut highest = self.count();
        for pair in 0..k * k {
            let number = &mut self.seen[4 * pair..4 * pair + 4];
            if self.sheet[pair] == 0 {
                number.fill(0);
                continue;
            }
            if number == [0; 4] {
                let made = 1 + ((pair as u32 + 7).wrapping_mul(0x9E37_79B1) >> 1);
                number.copy_from_slice(&made.to_le_bytes());
            }
            highest = highest.max(self.number(pair / k, pair % k));
        }
        self.set_count(highest);
    }
    /// This bench with one more record counted.
    fn counted(&self) -> Bench {
        let mut b = self.clone();
        b.set_count(self.count() + 1);
        b
    }
    /// The places whose origin bit is 1, lowest bit first over the whole region.
    fn origins(&self) -> Vec<usize> {
        (0..1152)
            .filter(|&place| self.desk[1250 + place / 8] >> (place % 8) & 1 == 1)
            .collect()
    }
    fn unfit(&self) -> Option<&'static str> {
        unfit(&self.desk, &self.sheet, &self.seen, Some(&self.slip))
            .or_else(|| unfit_history(&self.desk, &self.history))
    }
    fn least_circle(&self) -> Option<Vec<Triple>> {
        least_circle(&self.desk, &self.sheet, &self.seen)
    }
    fn all_circles(&self, n: usize) -> Vec<Vec<Triple>> {
        all_circles(&self.desk, &self.sheet, &self.seen, n)
    }
    /// Whether this slip shows a true circle of this bench.
    fn true_circle(&self, slip: &[u8]) -> bool {
        true_circle(&self.desk, &self.sheet, &self.seen, slip)
    }
}

fn program(bytes: &[u8]) -> String {
    let mut out = Vec::new();
    run_log(&mut &bytes[..], &mut out).unwrap();
    String::from_utf8(out).unwrap()
}

fn log(k: u8, records: &[Rec]) -> Vec<u8> {
    let mut bytes = vec![0x4C, 0x48, 0x01, k];
    bytes.extend(records.concat());
    bytes
}

/// With the header that declares crosslocks.
fn log_declaring(k: u8, declared: u64, records: &[Rec]) -> Vec<u8> {
    let mut bytes = vec![0x4C, 0x48, 0x02, k];
    bytes.extend((0..8).map(|i| (declared >> (8 * i)) as u8));
    bytes.extend(records.concat());
    bytes
}

/// The answers of a log step by step, with the program's output checked against
/// them: (number of the last record judged, its answer).
fn judge(k: u8, records: &[Rec]) -> (usize, u8) {
    let mut b = Bench::new(k as usize);
    let text = program(&log(k, records));
    for (i, r) in records.iter().enumerate() {
        let before = b.clone();
        let answer = b.step(r);
        match answer {
            0 => assert_eq!(b.slip, before.slip),
            1 => {
                assert_eq!(b.desk[1], 1);
                let circle = listed(&b).unwrap();
                assert_eq!(b.slip, b.shown_over(&before.slip, &circle));
                assert_eq!(
                    text,
                    format!("fault at record {}\n{}", i + 1, printed(&circle))
                );
                b.refused(r, 10);
            }
            _ => {
                assert_eq!(b, before);
                assert_eq!(text, format!("refused {answer} at record {}\n", i + 1));
            }
        }
        assert_eq!(b.unfit(), None);
        // The numbers by the records alone; all but the last were accepted.
        assert_eq!(
            b.seen,
            bytes_of(&first_seen(k.into(), &records[..=i]).unwrap())
        );
        assert_eq!(b.count() as usize, if answer > 1 { i } else { i + 1 });
        if answer != 0 {
            return (i + 1, answer);
        }
    }
    assert_eq!(text, format!("clean, {} records\n", records.len()));
    (records.len(), 0)
}

/// The least circle, by trying all circles of one arrow, of two and so on.
fn listed(b: &Bench) -> Option<Vec<Triple>> {
    (1..=b.desk[0] as usize).find_map(|n| b.all_circles(n).into_iter().min())
}
impl Bench {
    /// A slip after this circle of this bench was written into it: the number of the pair
    /// with a hold arrow, 0 with an interrupt arrow.
    fn shown_over(&self, slip: &[u8], circle: &[Triple]) -> Vec<u8> {
        let mut bytes = vec![circle.len() as u8];
        let to = circle.iter().cycle().skip(1);
        for (&(class, kind, source), &(to, _, _)) in circle.iter().zip(to) {
            let hold = self.number(class.into(), to.into());
            bytes.extend([class, kind, source]);
            bytes.extend(if source == 0 { hold } else { 0 }.to_le_bytes());
        }
        bytes.extend(&slip[bytes.len()..]);
        bytes
    }
    /// The same over what the slip was before.
    fn shown_or_not(&self, slip: &[u8], circle: &Option<Vec<Triple>>) -> Vec<u8> {
        circle
            .as_ref()
            .map_or(slip.to_vec(), |circle| self.shown_over(slip, circle))
    }
}

/// Numbers as they lie on a second sheet.
fn bytes_of(numbers: &[u32]) -> Vec<u8> {
    numbers
        .iter()
        .flat_map(|n| [*n as u8, (n >> 8) as u8, (n >> 16) as u8, (n >> 24) as u8])
        .collect()
}
/// A slip's first bytes: the entries, each with its number.
fn entries(arrows: &[(u8, u8, u8, u32)]) -> Vec<u8> {
    let mut bytes = vec![arrows.len() as u8];
    for &(class, kind, source, number) in arrows {
        bytes.extend([class, kind, source]);
        bytes.extend(bytes_of(&[number]));
    }
    bytes
}
/// What the program prints of a circle.
fn printed(circle: &[Triple]) -> String {
    let to = circle.iter().cycle().skip(1);
    let lines = circle
        .iter()
        .zip(to)
        .map(|((from, kind, source), (to, _, _))| {
            let kind = ["", "ER", "EN", "", "SR", "", "", "", "SN"][*kind as usize];
            format!(
                "{from} {kind} {to} {}\n",
                ["hold", "hard", "soft"][*source as usize]
            )
        });
    lines.collect()
}

fn assert_clean(records: &[Rec]) {
    assert_eq!(judge(8, records), (records.len(), 0));
}
/// A fault at the last record.
fn assert_fault(records: &[Rec]) {
    assert_eq!(judge(8, records), (records.len(), 1));
}

/// xorshift64*
struct Dice(u64);
impl Dice {
    fn next(&mut self) -> u64 {
        self.0 ^= self.0 >> 12;
        self.0 ^= self.0 << 25;
        self.0 ^= self.0 >> 27;
        self.0.wrapping_mul(0x2545_F491_4F6C_DD1D) >> 16
    }
    fn under(&mut self, n: u64) -> u64 {
        self.next() % n
    }
}

// ------------------------------------------------------------- logs P1 to P12

#[test]
fn p1() {
    assert_clean(&[]);
    assert_eq!(program(&[0x4C, 0x48, 1, 1]), "clean, 0 records\n");
    assert_eq!(program(&log(1, &[take(0, 0, E)])), "clean, 1 records\n");
}

fn p2_records() -> [Rec; 6] {
    [
        take(0, 1, E),
        take(0, 2, E),
        release(0, 2, E),
        release(0, 1, E),
        take(1, 2, E),
        take(1, 1, E),
    ]
}

#[test]
fn p2() {
    assert_fault(&p2_records());
    // Releases in the other order, or none at all, are no help.
    assert_fault(&[
        take(0, 1, E),
        take(0, 2, E),
        release(0, 1, E),
        release(0, 2, E),
        take(1, 2, E),
        take(1, 1, E),
    ]);
    assert_fault(&[take(0, 1, E), take(0, 2, E), take(1, 2, E), take(1, 1, E)]);
    // Same order on both cores, or the second class taken alone: clean.
    assert_clean(&[
        take(0, 1, E),
        take(0, 2, E),
        release(0, 2, E),
        release(0, 1, E),
        take(1, 1, E),
        take(1, 2, E),
    ]);
    assert_clean(&[
        take(0, 1, E),
        take(0, 2, E),
        take(1, 2, E),
        release(1, 2, E),
        take(1, 1, E),
    ]);
}

#[test]
fn p2_exact_output() {
    let input = [
        0x4C, 0x48, 0x01, 0x03, //
        0x4C, 0x4B, 0x00, 0x00, 0x01, 0x00, //
        0x4C, 0x4B, 0x00, 0x00, 0x02, 0x00, //
        0x4C, 0x4B, 0x00, 0x01, 0x02, 0x00, //
        0x4C, 0x4B, 0x00, 0x01, 0x01, 0x00, //
        0x4C, 0x4B, 0x01, 0x00, 0x02, 0x00, //
        0x4C, 0x4B, 0x01, 0x00, 0x01, 0x00,
    ];
    assert_eq!(input.to_vec(), log(3, &p2_records()));
    assert_eq!(
        program(&input),
        "fault at record 6\n1 EN 2 hold\n2 EN 1 hold\n"
    );
    // What follows the fault isn't looked at.
    let longer = [&input[..], &[0xFF]].concat();
    assert_eq!(program(&longer), program(&input));
}

#[test]
fn p3() {
    assert_fault(&[take(0, 0, R), take(0, 1, E), take(1, 1, R), take(1, 0, E)]);
    assert_fault(&[take(0, 0, NR), take(0, 1, E), take(1, 1, NR), take(1, 0, E)]);
}

#[test]
fn p4() {
    assert_clean(&[take(0, 0, E), take(0, 1, R), take(1, 1, R), take(1, 0, E)]);
    // With a non-recursive read of 1 on core 0: 0 EN 1, 1 SN 0.
    assert_fault(&[take(0, 0, E), take(0, 1, NR), take(1, 1, R), take(1, 0, E)]);
}

#[test]
fn p5() {
    assert_fault(&[take(0, 0, E), take(0, 1, R), take(1, 1, E), take(1, 0, R)]);
    // 1 SR 0 instead of 1 ER 0.
    assert_clean(&[take(0, 0, E), take(0, 1, R), take(1, 1, NR), take(1, 0, R)]);
}

#[test]
fn p6_p7_p8() {
    assert_clean(&[take(0, 0, R), take(0, 0, R)]);
    assert_fault(&[take(0, 0, R), take(0, 0, NR)]);
    assert_fault(&[take(0, 0, E), take(0, 0, R)]);
    // The other six pairs.
    assert_fault(&[take(0, 0, R), take(0, 0, E)]);
    assert_fault(&[take(0, 0, NR), take(0, 0, NR)]);
    assert_fault(&[take(0, 0, NR), take(0, 0, E)]);
    assert_clean(&[take(0, 0, NR), take(0, 0, R)]);
    assert_fault(&[take(0, 0, E), take(0, 0, E)]);
    assert_fault(&[take(0, 0, E), take(0, 0, NR)]);
    // On two cores nothing is drawn.
    assert_clean(&[take(0, 0, E), take(1, 0, E)]);
}

#[test]
fn p9() {
    assert_fault(&[
        take(0, 0, E),
        take(0, 1, R),
        take(0, 2, E),
        take(1, 2, E),
        take(1, 0, E),
    ]);
    // Without 0 still held at 2E, there is only 0 ER 1 SN 2.
    assert_clean(&[
        take(0, 0, E),
        take(0, 1, R),
        release(0, 0, E),
        take(0, 2, E),
        take(1, 2, E),
        take(1, 0, E),
    ]);
}

#[test]
fn p10() {
    assert_fault(&[
        take(0, 3, E),
        release(0, 3, E),
        event(0, ENTER_HARD),
        take(0, 3, E),
    ]);
    assert_clean(&[
        take(0, 3, R),
        release(0, 3, R),
        event(0, ENTER_HARD),
        take(0, 3, R),
    ]);
    // Another core's handler counts as well: one drawing for all contexts.
    assert_fault(&[take(0, 3, E), event(5, ENTER_HARD), take(5, 3, R)]);
    assert_clean(&[
        take(0, 3, R),
        release(0, 3, R),
        event(0, ENTER_HARD),
        take(0, 3, R),
        release(0, 3, R),
    ]);
    assert_fault(&[take(0, 3, NR), event(0, ENTER_HARD), take(0, 3, NR)]);
    // Taken with hard off: clean, until hard on marks the standing hold.
    assert_clean(&[
        event(0, HARD_OFF),
        take(0, 3, E),
        event(1, ENTER_HARD),
        take(1, 3, E),
    ]);
    assert_fault(&[
        event(0, HARD_OFF),
        take(0, 3, E),
        event(1, ENTER_HARD),
        take(1, 3, E),
        event(0, HARD_ON),
    ]);
    assert_clean(&[
        event(0, HARD_OFF),
        take(0, 3, E),
        event(1, ENTER_HARD),
        take(1, 3, E),
        release(0, 3, E),
        event(0, HARD_ON),
    ]);
    // Soft-unsafe doesn't clash with hard-safe alone, nor does hard-off soft-on mark soft.
    assert_clean(&[
        event(0, HARD_OFF),
        take(0, 3, E),
        release(0, 3, E),
        event(0, HARD_ON),
        event(0, ENTER_SOFT),
        take(0, 3, E),
    ]);
}

#[test]
fn p11() {
    let mut records = vec![
        event(0, ENTER_HARD),
        take(0, 4, E),
        release(0, 4, E),
        event(0, EXIT_HARD), //
        event(0, HARD_OFF),
        take(0, 4, E),
        take(0, 5, E),
        release(0, 5, E),
        release(0, 4, E), //
        event(0, HARD_ON),
        take(0, 5, E),
    ];
    assert_eq!(records.len(), 11);
    assert_fault(&records);
    assert_eq!(
        program(&log(8, &records)),
        "fault at record 11\n4 EN 5 hold\n5 EN 4 hard\n"
    );
    // Without the last record, or with the last take before hard on: clean.
    assert_clean(&records[..10]);
    records.swap(9, 10);
    assert_clean(&records[..10]);
    assert_fault(&records);
}

#[test]
fn p12() {
    assert_clean(&[
        event(0, SOFT_OFF),
        take(0, 6, E),
        release(0, 6, E),
        event(0, SOFT_ON),
        event(0, ENTER_SOFT),
        take(0, 6, E),
    ]);
    let fault = [
        take(0, 6, E),
        release(0, 6, E),
        event(0, ENTER_SOFT),
        take(0, 6, E),
    ];
    assert_fault(&fault);
    assert_eq!(program(&log(8, &fault)), "fault at record 4\n6 EN 6 soft\n");
    // Soft on again with the hold standing: marked then.
    assert_fault(&[
        event(1, ENTER_SOFT),
        take(1, 6, E),
        event(0, SOFT_OFF),
        take(0, 6, E),
        event(0, SOFT_ON),
    ]);
}

// ------------------------------------------------------------------ refusals

#[test]
fn refusal_logs() {
    // "document 01's case of twenty changes with it": 0R forty-eight times, then 0R.
    let mut full = vec![take(0, 0, R); 48];
    assert_clean(&full);
    full.push(take(0, 0, R));
    assert_eq!(judge(8, &full), (49, 8));
    assert_eq!(program(&log(8, &full)), "refused 8 at record 49\n");
    // By a try too.
    for mode in MODES {
        full[48] = take(0, 0, mode);
        assert_eq!(judge(8, &full), (49, 8));
    }
    // Twenty, and then one, is nothing special any more.
    assert_clean(&full[..20]);
    assert_clean(&full[..21]);
    // A full frame is full for itself alone: not for another core, nor for a handler.
    full[48] = take(1, 0, R);
    assert_clean(&full);
    full[48] = event(0, ENTER_SOFT);
    full.push(take(0, 0, R));
    assert_clean(&full);
    assert_eq!(
        judge(
            8,
            &[event(0, ENTER_HARD), take(0, 0, E), event(0, EXIT_HARD)]
        ),
        (3, 7)
    );
    assert_eq!(
        judge(
            8,
            &[event(0, ENTER_SOFT), take(0, 0, E), event(0, EXIT_SOFT)]
        ),
        (3, 7)
    );
    assert_eq!(judge(8, &[event(0, EXIT_HARD)]), (1, 6));
    for mode in MODES {
        assert_eq!(judge(8, &[release(0, 0, mode)]), (1, 5));
    }
    assert_eq!(judge(8, &[take(0, 0, E), release(1, 0, E)]), (2, 5));
    // Held in the task frame, but not in this one.
    assert_eq!(
        judge(8, &[take(0, 0, E), event(0, ENTER_HARD), release(0, 0, E)]),
        (3, 5)
    );
    assert_eq!(judge(8, &[take(0, 8, E)]), (1, 4));
    assert_eq!(judge(8, &[release(0, 255, E)]), (1, 4));
    assert_eq!(judge(64, &[take(0, 63, E), take(0, 64, E)]), (2, 4));
}

#[test]
fn headers_and_short_records() {
    let refused = "refused 2 at record 0\n";
    for bytes in [
        &[][..],
        &[0x4C],
        &[0x4C, 0x48, 0x01],
        &[0x4C, 0x48, 0x02, 8],
        &[0x4C, 0x4B, 0x01, 8],
        &[0x4D, 0x48, 0x01, 8],
        &[0x4C, 0x48, 0x01, 0],
        &[0x4C, 0x48, 0x01, 65],
        &[0x4C, 0x48, 0x01, 255, 0x4C],
    ] {
        assert_eq!(program(bytes), refused);
    }
    let whole = log(8, &[take(0, 0, E), take(0, 1, E)]);
    assert_eq!(program(&whole), "clean, 2 records\n");
    for cut in 5..10 {
        assert_eq!(program(&whole[..cut]), "refused 3 at record 1\n");
        assert_eq!(program(&whole[..cut + 6]), "refused 3 at record 2\n");
    }
    assert_eq!(program(&whole[..10]), "clean, 1 records\n");
}

/// A reader that gives one byte at a time, with interruptions.
struct Drip<'a>(&'a [u8], bool);
impl Read for Drip<'_> {
    fn read(&mut self, buffer: &mut [u8]) -> std::io::Result<usize> {
        self.1 = !self.1;
        if self.1 {
            return Err(ErrorKind::Interrupted.into());
        }
        let n = self.0.len().min(buffer.len()).min(1);
        buffer[..n].copy_from_slice(&self.0[..n]);
        self.0 = &self.0[n..];
        Ok(n)
    }
}

#[test]
fn slow_input() {
    let mut out = Vec::new();
    run_log(&mut Drip(&log(3, &p2_records()), false), &mut out).unwrap();
    assert_eq!(out, b"fault at record 6\n1 EN 2 hold\n2 EN 1 hold\n");
}

#[test]
fn answer_3() {
    let b = Bench::new(8).clean(&[take(0, 1, E)]);
    b.refused(&[], 3);
    b.refused(&take(0, 2, E)[..5], 3);
    b.refused(&[&take(0, 2, E)[..], &[0]].concat(), 3);
    b.refused(&[0x4B, 0x4B, 0, 0, 2, 0], 3);
    b.refused(&[0x4C, 0x4C, 0, 0, 2, 0], 3);
    b.refused(&[0x4C, 0x4B, 8, 0, 2, 0], 3);
    for kind in 13..=255 {
        b.refused(&[0x4C, 0x4B, 0, kind, 0, 0], 3);
    }
    for mode in 6..=255 {
        b.refused(&[0x4C, 0x4B, 0, TAKE, 2, mode], 3);
    }
    // A release of the class held carries a mode of a take, and no other.
    for mode in 6..=255 {
        b.refused(&release(0, 1, mode), 3);
    }
    // No mode but 0 with the kinds 2 to 12, those of a try neither.
    for kind in 2..13 {
        for mode in 1..=255 {
            b.refused(&[0x4C, 0x4B, 0, kind, 0, mode], 3);
        }
    }
    for kind in 2..10 {
        b.refused(&[0x4C, 0x4B, 0, kind, 1, 0], 3);
    }
}

#[test]
fn refusal_order() {
    // 11 before 10 and 3: closed, unfit, bad record.
    let mut b = Bench::new(8);
    b.desk[1] = 1;
    b.refused(&take(0, 0, E), 10);
    b.refused(&[], 10); // 10 before 3
    b.refused(&take(0, 8, E), 10); // 10 before 4
    b.refused(&event(0, EXIT_HARD), 10); // 10 before 6
    b.refused(&release(0, 0, E), 10); // 10 before 5
    b.sheet[63] = 16;
    b.settle();
    b.refused(&take(0, 0, E), 11);
    b.refused(&[], 11);
    b.desk[1] = 0;
    b.refused(&[], 11);
    b.refused(&take(0, 8, E), 11);
    // 3 before 4: class K or more with a bad mode.
    let b = Bench::new(8);
    b.refused(&[0x4C, 0x4B, 0, TAKE, 8, 6], 3);
    b.refused(&release(0, 8, 6), 3);
    b.refused(&release(0, 255, 255), 3);
    for mode in MODES {
        b.refused(&take(0, 8, mode), 4);
        b.refused(&take(0, 255, mode), 4);
    }
    // 3 before 6.
    b.refused(&[0x4C, 0x4B, 0, EXIT_HARD, 1, 0], 3);
    b.refused(&[0x4C, 0x4B, 0, EXIT_SOFT, 0, 2], 3);
    // 3 before 5.
    b.refused(&release(0, 1, 6), 3);
    // 4 before 5: nothing of class 8 can be held.
    for mode in MODES {
        b.refused(&release(0, 8, mode), 4);
        b.refused(&release(0, 1, mode), 5);
    }
    // 4 and 3 before 8: the frame is full.
    let full = b.clean(&[take(0, 0, R); 48]);
    full.refused(&take(0, 0, 6), 3);
    for mode in MODES {
        full.refused(&take(0, 8, mode), 4);
        full.refused(&take(0, 7, mode), 8);
    }
    // 6 before 7: exits that are x while holds stand in the frame.
    full.refused(&event(0, EXIT_HARD), 6);
    full.refused(&event(0, EXIT_SOFT), 6);
    let soft = Bench::new(8).clean(&[event(0, ENTER_SOFT), take(0, 0, E)]);
    soft.refused(&event(0, EXIT_SOFT), 7);
    soft.clone()
        .clean(&[event(0, HARD_OFF)])
        .refused(&event(0, EXIT_SOFT), 6);
    // 3 before 7.
    soft.refused(&[0x4C, 0x4B, 0, EXIT_SOFT, 0, 1], 3);
    // 7 looks at the current frame only.
    soft.clone()
        .clean(&[event(0, ENTER_HARD), event(0, EXIT_HARD)]);
    Bench::new(8).clean(&[take(0, 0, E), event(0, ENTER_SOFT), event(0, EXIT_SOFT)]);
}

// ------------------------------------------------------------------- opening

#[test]
fn opening() {
    for k in [0, 65, 256, 264, 1 << 32, (1 << 32) + 8, u64::MAX] {
        let mut b = lent(DESK + 22, 70 * 70, 4 * 70 * 70, 0);
        assert_eq!(b.open(k), 2);
        assert_eq!(b, lent(DESK + 22, 70 * 70, 4 * 70 * 70, 0));
    }
    for k in 1..=64 {
        let size = k * k;
        for (desk, sheet, seen, answer) in [
            (1674, size, 4 * size, 0),
            (1677, size + 5, 4 * size, 0),
            (1674, size, 4 * size + 1, 0),
            (1674, size, 4 * size + 70, 0),
            (1673, size, 4 * size, 2),
            (1398, size, 4 * size, 2),
            (1394, size, 4 * size, 2),
            (1250, size, 4 * size, 2),
            (642, size, 4 * size, 2),
            (638, size, 4 * size, 2),
            (578, size, 4 * size, 2),
            (577, size, 4 * size, 2),
            (1674, size - 1, 4 * size, 2),
            (1674, size, 4 * size - 1, 2),
            (1674, size, 4 * size - 4, 2),
            (1674, size, size, 2),
            (1674, size, 0, 2),
            (0, 0, 0, 2),
        ] {
            // The slip isn't looked at.
            let mut b = lent(desk, sheet, seen, 0);
            assert_eq!(b.open(k as u64), answer);
            if answer == 2 {
                assert_eq!(b, lent(desk, sheet, seen, 0));
                continue;
            }
            assert_eq!(b.desk[0], k as u8);
            assert!(b.desk[1..1674]
                .iter()
                .chain(&b.sheet[..size])
                .all(|&x| x == 0));
            assert!(b.seen[..4 * size].iter().all(|&x| x == 0));
            assert!(b.history.iter().all(|&x| x == 0));
            assert!(b.desk[1674..]
                .iter()
                .chain(&b.sheet[size..])
                .all(|&x| x == 0xA5));
            assert!(b.seen[4 * size..].iter().all(|&x| x == 0xA5));
            assert_eq!(unfit(&b.desk, &b.sheet, &b.seen, None), None);
        }
    }
}

#[test]
fn bytes_past_the_sizes_stay() {
    let mut b = lent(DESK + 9, 9 + 9, 36 + 9, 22 + 9);
    assert_eq!(b.open(3), 0);
    // The last place of the last frame, whose origin is the highest bit of byte 1,393.
    b.desk[9] = 8;
    b.desk[33] = 47;
    b.desk[1202..1249].fill(128);
    let last = [take(7, 0, TRR), release(7, 0, TRR), take(7, 0, TRR)];
    assert_eq!(last.map(|r| b.step(&r)), [0, 0, 0]);
    assert_eq!((b.desk[33], b.desk[1249]), (48, 128));
    assert_eq!(b.desk[1393..1398], [128, 3, 0, 0, 0]);
    assert!(b.slip.iter().all(|&b| b == 0xA5));
    // The last pair's number is in the last four of 36 bytes.
    assert_eq!([take(1, 2, R), take(1, 2, R)].map(|r| b.step(&r)), [0, 0]);
    assert_eq!(b.seen[32..36], [5, 0, 0, 0]);
    assert_eq!(
        [release(1, 2, R), release(1, 2, R)].map(|r| b.step(&r)),
        [0, 0]
    );
    let answers = p2_records().map(|r| b.step(&r));
    assert_eq!(answers, [0, 0, 0, 0, 0, 1]);
    assert_eq!(
        b.slip[..15],
        [2, 1, EN, 0, 9, 0, 0, 0, 2, EN, 0, 13, 0, 0, 0]
    );
    assert_eq!(b.desk[1], 1);
    for tail in [&b.desk[1674..], &b.sheet[9..], &b.seen[36..], &b.slip[15..]] {
        assert!(!tail.is_empty() && tail.iter().all(|&b| b == 0xA5));
    }
    assert!(b.true_circle(&b.slip));
}

// --------------------------------------------------------------------- unfit

#[test]
fn each_clause_of_unfit() {
    let good = Bench::new(8).clean(&[
        take(2, 7, R),
        event(2, ENTER_SOFT),
        take(2, 6, E),
        event(2, ENTER_HARD),
        take(2, 5, NR),
    ]);
    assert_eq!(good.unfit(), None);
    let mut met = Vec::new();
    let mut violate = |clause: &'static str, change: &dyn Fn(&mut Bench)| {
        let mut b = good.clone();
        change(&mut b);
        assert_eq!(b.unfit(), Some(clause));
        b.refused(&take(0, 0, E), 11);
        b.refused(&[], 11);
        let (answer, word, count) = b.ask(0);
        if clause == CLAUSES[3] {
            assert_eq!(answer, 0); // the question takes no slip
        } else {
            assert_eq!((answer, word, count), (11, 0, 0));
            assert_eq!(b.ask(u64::MAX), (11, 0, 0)); // 11 before 4
        }
        assert!(!b.true_circle(&b.slip));
        if !met.contains(&clause) {
            met.push(clause);
        }
    };
    for length in [
        1673, 1672, 1418, 1414, 1406, 1398, 1397, 1394, 1393, 1250, 642, 578, 577,
    ] {
        violate(CLAUSES[0], &|b| b.desk.truncate(length));
    }
    violate(CLAUSES[0], &|b| b.desk.clear());
    violate(CLAUSES[1], &|b| b.desk[0] = 0);
    violate(CLAUSES[1], &|b| b.desk[0] = 65);
    violate(CLAUSES[1], &|b| b.desk[0] = 255);
    violate(CLAUSES[2], &|b| b.sheet.truncate(63));
    violate(CLAUSES[3], &|b| b.slip.truncate(56));
    violate(CLAUSES[3], &|b| b.slip.truncate(25));
    violate(CLAUSES[3], &|b| b.slip.clear());
    violate(CLAUSES[4], &|b| b.desk[1] = 2);
    violate(CLAUSES[5], &|b| b.desk[2] = 9);
    violate(CLAUSES[5], &|b| b.desk[9] = 255);
    violate(CLAUSES[6], &|b| b.desk[10] = 49);
    violate(CLAUSES[6], &|b| b.desk[33] = 255);
    violate(CLAUSES[7], &|b| {
        b.desk[10] = 1;
        b.desk[98] = 8;
    });
    violate(CLAUSES[7], &|b| {
        b.desk[10] = 48;
        b.desk[145] = 63 + 128;
    });
    // The origin doesn't excuse a mode of 3.
    for origin in 0..2 {
        violate(CLAUSES[8], &|b| {
            b.desk[10] = 1;
            b.desk[98] = 192;
            b.desk[1250] = origin;
        });
    }
    violate(CLAUSES[9], &|b| b.desk[98] = 1);
    violate(CLAUSES[9], &|b| b.desk[1249] = 64);
    violate(CLAUSES[9], &|b| b.desk[98 + 288 + 1] = 7);
    violate(CLAUSES[9], &|b| (b.desk[10], b.desk[145]) = (47, 7));
    // Every origin bit where no hold stands: core 2's frames have one hold each.
    let standing = [6 * 48, 7 * 48, 8 * 48];
    for place in (0..1152).filter(|place| !standing.contains(place)) {
        violate(CLAUSES[10], &|b| {
            b.desk[1250 + place / 8] |= 1 << (place % 8)
        });
    }
    for state in [0, 1, 2, 3, 6, 7] {
        violate(CLAUSES[11], &|b| {
            b.desk[2] = state;
            b.desk[11] = 1;
        });
    }
    for state in 0..6 {
        violate(CLAUSES[12], &|b| {
            b.desk[9] = state;
            b.desk[33] = 1;
        });
    }
    violate(CLAUSES[13], &|b| b.desk[34 + 8] = 1);
    violate(CLAUSES[13], &|b| b.desk[97] = 4);
    violate(CLAUSES[14], &|b| b.desk[34] = 64);
    violate(CLAUSES[14], &|b| b.desk[34] = 128);
    violate(CLAUSES[14], &|b| b.desk[41] = 64 + 8);
    violate(CLAUSES[14], &|b| b.desk[41] = 128 + 4);
    violate(CLAUSES[15], &|b| {
        b.sheet[0] = 16;
        b.set_number(0, 0, 1);
    });
    violate(CLAUSES[15], &|b| {
        b.sheet[63] = 255;
        b.set_number(7, 7, 1);
    });
    for length in [0, 64, 252, 255] {
        violate(CLAUSES[16], &|b| b.seen.truncate(length));
    }
    // Each pair and each kind, and each byte of a number.
    assert_eq!(good.count(), 5);
    for pair in 0..64 {
        for kinds in 1..16 {
            violate(CLAUSES[17], &|b| b.sheet[pair] = kinds);
        }
        for byte in 0..4 {
            for bit in 0..8 {
                violate(CLAUSES[18], &|b| b.seen[4 * pair + byte] = 1 << bit);
            }
        }
    }
    // The declared word and the progress word, bit by bit; the kept count.
    for class in 8..64 {
        violate(CLAUSES[19], &|b| {
            b.desk[1398 + class / 8] |= 1 << (class % 8)
        });
    }
    for class in 0..64 {
        violate(CLAUSES[20], &|b| {
            b.desk[1406 + class / 8] |= 1 << (class % 8)
        });
    }
    violate(CLAUSES[22], &|b| (b.desk[1414], b.desk[1415]) = (1, 1));
    violate(CLAUSES[22], &|b| b.desk[1415] = 2);
    violate(CLAUSES[22], &|b| b.desk[1416] = 1);
    violate(CLAUSES[22], &|b| b.desk[1417] = 1);
    violate(CLAUSES[22], &|b| b.desk[1417] = 128);
    // For more than 16 in progress 8 classes are too few: see `fit_lists`.
    met.insert(21, CLAUSES[21]);
    assert_eq!(met, CLAUSES);
    assert_eq!(CLAUSES.len(), 23);
    assert!(CLAUSES.iter().all(|clause| !clause.contains("count")));

    // And what is still fit.
    let fit = |change: &dyn Fn(&mut Bench)| {
        let mut b = good.clone();
        change(&mut b);
        assert_eq!(b.unfit(), None);
    };
    fit(&|b| b.desk[1] = 1);
    for class in 0..8 {
        fit(&|b| b.desk[1398] = 1 << class);
        fit(&|b| (b.desk[1398], b.desk[1406]) = (1 << class, 1 << class));
    }
    fit(&|b| (b.desk[1398], b.desk[1406]) = (255, 255));
    fit(&|b| {
        b.desk[1414] = 255;
        b.history.fill(0);
    });
    fit(&|b| {
        b.desk[1415] = 1;
        b.history.fill(0);
    });
    for at in 1418..1674 {
        fit(&|b| b.desk[at] = 255);
    }
    for place in standing {
        fit(&|b| b.desk[1250 + place / 8] |= 1 << (place % 8));
    }
    // Frame 0 has bits 0-47: bytes 1,250 to 1,255.
    fit(&|b| {
        b.desk[10] = 48;
        b.desk[1250..1256].fill(255);
    });
    fit(&|b| b.desk.push(255));
    fit(&|b| b.desk[34] = 0b1100_1100);
    fit(&|b| b.desk[41] = 255);
    fit(&|b| {
        b.sheet.fill(15);
        b.settle();
    });
    fit(&|b| b.seen.push(255));
    // Numbers up to the count of 5, and, since 02 i, above it.
    for pair in 0..64 {
        for number in
            [1, 2, 3, 4, 5]
                .into_iter()
                .chain([6, 7, 255, 256, 5 << 8, 5 << 16, 5 << 24, u32::MAX])
        {
            fit(&|b| {
                b.sheet[pair] = SN;
                b.set_number(pair / 8, pair % 8, number);
            });
            fit(&|b| {
                b.sheet[pair] = SN;
                b.set_number(pair / 8, pair % 8, number);
                b.set_count(0);
            });
        }
    }
    fit(&|b| {
        b.desk[10..34]
            .copy_from_slice(&[[48, 0, 0].repeat(2), vec![1, 1, 1], [48, 0, 0].repeat(5)].concat())
    });
    for state in [4, 5, 8] {
        fit(&|b| {
            b.desk[2] = state;
            b.desk[11] = 48;
        });
    }
    for state in [6, 7, 8] {
        fit(&|b| {
            b.desk[9] = state;
            b.desk[33] = 48;
        });
    }
}

#[test]
fn a_fit_desk_is_judged_as_it_stands() {
    // A circle that stands on an open desk is found with the next accepted record.
    let mut b = Bench::new(8);
    b.sheet[8 + 2] = SR;
    b.sheet[2 * 8 + 1] = EN;
    b.set_number(1, 2, 0x0403_0201);
    b.set_number(2, 1, 0x0807_0605);
    b.set_count(0x0807_0605);
    b.refused(&release(0, 0, E), 5);
    b.refused(&event(0, EXIT_HARD), 6);
    let mut with = b.clone();
    assert_eq!(with.step(&event(3, HARD_ON)), 1);
    assert_eq!(
        with.slip[..15],
        [2, 1, SR, 0, 1, 2, 3, 4, 2, EN, 0, 5, 6, 7, 8]
    );
    // 1 SR 2 SN 1 isn't strong at 2.
    b.sheet[2 * 8 + 1] = SN;
    assert_eq!(b.step(&event(3, HARD_ON)), 0);
    // Marks alone, on an open desk: 7 EN 7 by hard.
    b.desk[MARKS + 7] = 1 + 4;
    assert_eq!(b.step(&take(3, 0, R)), 1);
    assert_eq!(b.slip[..8], [1, 7, EN, 1, 0, 0, 0, 0]);
}

// ------------------------------------------------------------- the nine states

#[test]
fn next_states_follow_the_names() {
    // (frame, hard on, soft on) by name; 6-8 remember what they are over.
    let task = |hard: bool, soft: bool| 2 * u8::from(!hard) + u8::from(!soft);
    let soft_handler = |hard: bool| 4 + u8::from(!hard);
    for state in 0..9u8 {
        for kind in 2..10u8 {
            let expected = match (state, kind) {
                (0..=3, _) => {
                    let (hard, soft) = (state < 2, state % 2 == 0);
                    match kind {
                        2 => Some(task(true, soft)),
                        3 => Some(task(false, soft)),
                        4 => Some(task(hard, true)),
                        5 => Some(task(hard, false)),
                        6 if hard && soft => Some(4),
                        8 if hard => Some(6 + state),
                        _ => None,
                    }
                }
                (4..=5, 2) => Some(soft_handler(true)),
                (4..=5, 3) => Some(soft_handler(false)),
                (4, 7) => Some(0),
                (4, 8) => Some(8),
                (6..=8, 9) => Some([0, 1, 4][state as usize - 6]),
                _ => None,
            };
            assert_eq!(
                next_state(state, kind),
                expected,
                "state {state} kind {kind}"
            );
            // And through the step, from a desk in that state.
            let mut b = Bench::new(2);
            b.desk[2 + 6] = state;
            let mut after = b.clone();
            match expected {
                None => b.refused(&event(6, kind), 6),
                Some(next) => {
                    after.desk[2 + 6] = next;
                    after.desk[1394] = 1;
                    assert_eq!(b.step(&event(6, kind)), 0);
                    assert_eq!(b, after);
                }
            }
        }
    }
}

#[test]
fn marks_by_state_and_mode() {
    // Rows: state; columns: E, r, R, and tries of them.
    let expected: [[u8; 6]; 9] = [
        [4 + 64, 8 + 128, 8 + 128, 4 + 64, 8 + 128, 8 + 128],
        [4, 8, 8, 4, 8, 8],
        [0, 0, 0, 0, 0, 0],
        [0, 0, 0, 0, 0, 0],
        [16 + 4, 16 + 8, 32 + 8, 4, 8, 8],
        [16, 16, 32, 0, 0, 0],
        [1, 1, 2, 0, 0, 0],
        [1, 1, 2, 0, 0, 0],
        [1, 1, 2, 0, 0, 0],
    ];
    for state in 0..9u8 {
        for mode in MODES {
            let mut b = Bench::new(8);
            b.desk[2 + 7] = state;
            assert_eq!(b.step(&take(7, 3, mode)), 0);
            let mut marks = [0; 64];
            marks[3] = expected[state as usize][mode as usize];
            assert_eq!(b.desk[MARKS..HOLDS], marks);
            let at = frame(7, state);
            assert_eq!(b.desk[DEPTHS + at], 1);
            assert_eq!(b.desk[98 + 48 * at], 3 + 64 * (mode % 3));
            assert_eq!(b.origins(), if mode < 3 { vec![] } else { vec![48 * at] });
            // "then or later": records of the core that leave it in this state add none.
            let after = b.counted();
            if let Some(kind) = (2..10).find(|&kind| next_state(state, kind) == Some(state)) {
                assert_eq!(b.step(&event(7, kind)), 0);
                assert_eq!(b, after);
            }
            assert_eq!(
                [b.step(&take(7, 4, TE)), b.step(&release(7, 4, TE))],
                [0, 0]
            );
            marks[4] = expected[state as usize][3];
            assert_eq!(b.desk[MARKS..HOLDS], marks);
        }
    }
}

#[test]
fn holds_of_the_frame_returned_to_are_marked() {
    // Task holds 1E with soft off; a hard handler comes and goes; then soft on.
    let b = Bench::new(8).clean(&[event(0, SOFT_OFF), take(0, 1, E)]);
    assert_eq!(b.desk[MARKS + 1], 4);
    let b = b.clean(&[event(0, ENTER_HARD)]);
    assert_eq!(b.desk[MARKS + 1], 4);
    let b = b.clean(&[event(0, EXIT_HARD), event(0, SOFT_ON)]);
    assert_eq!(b.desk[MARKS + 1], 4 + 64);
    // A desk that didn't come from opening: exit marks the frame gone back to.
    let mut b = Bench::new(8);
    b.desk[2] = 6;
    b.desk[10] = 1;
    b.desk[98] = 5 + 128;
    let b = b.clean(&[event(0, EXIT_HARD)]);
    assert_eq!(b.desk[MARKS + 5], 8 + 128);
}

// -------------------------------------------------------------- what is drawn

#[test]
fn desk_and_sheet_byte_by_byte() {
    let b = Bench::new(4).clean(&[
        take(1, 0, E),
        take(1, 1, NR),
        take(1, 2, R),
        take(1, 3, E),
        release(1, 1, NR),
    ]);
    let mut sheet = vec![0; 16];
    sheet[1] = EN;
    sheet[2] = ER;
    sheet[3] = EN;
    sheet[4 + 2] = SR;
    sheet[4 + 3] = SN;
    sheet[8 + 3] = SN;
    assert_eq!(b.sheet, sheet);
    let mut desk = vec![0; DESK];
    desk[0] = 4;
    desk[10 + 3] = 3;
    desk[34..38].copy_from_slice(&[68, 136, 136, 68]);
    desk[98 + 144..98 + 147].copy_from_slice(&[0, 2 + 128, 3]);
    desk[1394] = 5;
    assert_eq!(b.desk, desk);
    // To 1 by record 2, to 2 by record 3, to 3 by record 4.
    let mut seen = vec![0; 64];
    for (from, to, number) in [
        (0, 1, 2),
        (0, 2, 3),
        (0, 3, 4),
        (1, 2, 3),
        (1, 3, 4),
        (2, 3, 4),
    ] {
        seen[4 * (4 * from + to)] = number;
    }
    assert_eq!(b.seen, seen);
    assert!(b.slip.iter().all(|&x| x == 0xA5));
}

#[test]
fn release_takes_the_newest() {
    let b = Bench::new(4).clean(&[
        take(0, 1, R),
        take(0, 2, R),
        take(0, 1, R),
        take(0, 3, R),
        release(0, 1, R),
    ]);
    assert_eq!(b.desk[98..103], [129, 130, 131, 0, 0]);
    let b = b.clean(&[release(0, 1, R)]);
    assert_eq!(b.desk[98..103], [130, 131, 0, 0, 0]);
    b.refused(&release(0, 1, R), 5);
    let mut b = Bench::new(4);
    b.desk[10] = 3;
    b.desk[98..101].copy_from_slice(&[1, 1 + 64, 1 + 128]);
    assert_eq!(b.step(&release(0, 1, R)), 0);
    assert_eq!(b.desk[98..101], [1, 65, 0]);
}

#[test]
fn no_arrow_crosses_frames() {
    let b = Bench::new(8).clean(&[
        take(0, 1, E),
        event(0, ENTER_SOFT),
        take(0, 2, E),
        event(0, ENTER_HARD),
        take(0, 3, E),
    ]);
    assert!(b.sheet.iter().all(|&x| x == 0));
    assert_eq!(b.desk[10..13], [1, 1, 1]);
    // 1 is hard- and soft-unsafe, 2 soft-safe and hard-unsafe, 3 hard-safe.
    assert_eq!(b.desk[35..38], [68, 20, 1]);
    assert_eq!(b.ask(1), (0, 0b1100, 2));
    assert_eq!(b.ask(2), (0, 0b1000, 1));
    assert_eq!(b.ask(3), (0, 0, 0));
}

// -------------------------------------------------------------- the question

#[test]
fn question() {
    let b = Bench::new(8).clean(&[take(0, 0, R), take(0, 0, R)]);
    assert_eq!(b.ask(0), (0, 1, 1));
    for class in 1..8 {
        assert_eq!(b.ask(class), (0, 0, 0));
    }
    for class in [8, 63, 64, 256, 1 << 32, u64::MAX] {
        assert_eq!(b.ask(class), (4, 0, 0));
    }
    // A closed desk may be asked, and a circle is no hindrance.
    let mut b = Bench::new(8);
    let answers = p2_records().map(|r| b.step(&r));
    assert_eq!(answers[5], 1);
    assert_eq!(b.ask(1), (0, 0b110, 2));
    assert_eq!(b.ask(0), (0, 0, 0));
    assert_eq!(b.ask(8), (4, 0, 0));
    // P9: 0 ER 1 isn't continued by 1 SN 2; but from 1 itself it is.
    let b = Bench::new(8).clean(&[
        take(0, 0, E),
        take(0, 1, R),
        release(0, 0, E),
        take(0, 2, E),
    ]);
    assert_eq!(b.ask(0), (0, 0b10, 1));
    assert_eq!(b.ask(1), (0, 0b100, 1));
    // A class reached by R and, the long way, by N as well: 0 ER 1, 0 EN 2 EN 1, 1 SN 3.
    let mut b = Bench::new(64);
    b.sheet[1] = ER;
    b.sheet[64 + 63] = SN;
    b.settle();
    assert_eq!(b.ask(0), (0, 0b10, 1));
    b.sheet[2] = EN;
    b.sheet[2 * 64 + 1] = EN;
    b.settle();
    assert_eq!(b.ask(0), (0, 0b110 | 1 << 63, 3));
    // Everything from everywhere.
    b.sheet.fill(15);
    b.settle();
    assert_eq!(b.ask(63), (0, u64::MAX, 64));
}

// --------------------------------------------------- against the definition

/// The drawing's paths as a set of (first class, first letter is S, last class,
/// last letter is R), joined until nothing is new. Straight from the definition.
fn path_ends(desk: &[u8], sheet: &[u8]) -> Vec<(usize, bool, usize, bool)> {
    let k = desk[0] as usize;
    let mut arrows = Vec::new();
    for from in 0..k {
        for to in 0..k {
            for kind in [ER, EN, SR, SN] {
                if (0..3).any(|source| drawn(desk, sheet, from, to, kind, source)) {
                    arrows.push((from, begins_with_s(kind), to, ends_with_r(kind)));
                }
            }
        }
    }
    let mut paths = arrows.clone();
    let mut at = 0;
    while at < paths.len() {
        let (c, f, d, l) = paths[at];
        at += 1;
        for &(from, first, to, last) in &arrows {
            let longer = (c, f, to, last);
            if d == from && !(l && first) && !paths.contains(&longer) {
                paths.push(longer);
            }
        }
    }
    paths
}

/// Whether any circle of distinct classes is strong all round, by trying them all.
fn some_simple_circle(desk: &[u8], sheet: &[u8], circle: &mut Vec<(usize, u8)>) -> bool {
    let k = desk[0] as usize;
    let (last, kind) = *circle.last().unwrap();
    let (first, first_kind) = circle[0];
    let any = |from, to, kind| (0..3).any(|s| drawn(desk, sheet, from, to, kind, s));
    if any(last, first, kind) && !(ends_with_r(kind) && begins_with_s(first_kind)) {
        return true;
    }
    for to in 0..k {
        if circle.iter().any(|&(c, _)| c == to) || !any(last, to, kind) {
            continue;
        }
        for next_kind in [ER, EN, SR, SN] {
            if ends_with_r(kind) && begins_with_s(next_kind) {
                continue;
            }
            circle.push((to, next_kind));
            if some_simple_circle(desk, sheet, circle) {
                return true;
            }
            circle.pop();
        }
    }
    false
}

#[test]
fn random_drawings_against_the_definition() {
    let mut dice = Dice(0x1234_5678_9ABC_DEF1);
    let (mut faults, mut cleans) = (0, 0);
    for round in 0..30_000u64 {
        let k = 1 + dice.under(5) as usize;
        let mut b = Bench::new(k);
        let density = 1 + round % 5;
        for byte in b.sheet.iter_mut() {
            if dice.under(6) < density {
                *byte = (dice.under(16) & dice.under(16)) as u8;
            }
        }
        if round % 2 == 0 {
            for class in 0..k {
                let mut m = (dice.next() & dice.next()) as u8;
                m &= !((!m & 4) << 4) & !((!m & 8) << 4);
                b.desk[MARKS + class] = m;
            }
        }
        b.settle();
        assert_eq!(b.unfit(), None);
        let paths = path_ends(&b.desk, &b.sheet);
        let closed = paths.iter().any(|&(c, f, d, l)| c == d && !(l && f));
        assert_eq!(closed_strong_path(&b.desk, &b.sheet), closed);
        let simple = (0..k).any(|c| {
            [ER, EN, SR, SN]
                .iter()
                .any(|&kind| some_simple_circle(&b.desk, &b.sheet, &mut vec![(c, kind)]))
        });
        assert_eq!(simple, closed, "a circle without a repeated class");
        for c in 0..k {
            let mut word = 0u64;
            for &(from, _, to, _) in &paths {
                if from == c {
                    word |= 1 << to;
                }
            }
            assert_eq!(b.ask(c as u64), (0, word, word.count_ones()));
        }
        // A record that draws nothing shows what stands.
        let before = b.clone();
        let answer = b.step(&event(dice.under(8) as u8, HARD_ON));
        assert_eq!(answer, u8::from(closed));
        assert_eq!(b.sheet, before.sheet);
        assert_eq!(b.seen, before.seen);
        if closed {
            faults += 1;
            assert_eq!(b.slip, b.shown_over(&before.slip, &listed(&b).unwrap()));
            assert!(b.true_circle(&b.slip));
            // No slip with one byte of the circle changed passes unless it is true too.
            let n = b.slip[0];
            b.slip[0] = n + 1;
            let longer = b.true_circle(&b.slip);
            assert!(!longer || n < k as u8);
            b.slip[0] = 0;
            assert!(!b.true_circle(&b.slip));
        } else {
            cleans += 1;
            assert_eq!(b, before.counted());
        }
    }
    assert!(
        faults > 3_000 && cleans > 3_000,
        "{faults} faults, {cleans} clean"
    );
}

#[test]
fn long_circles() {
    // Only one circle, through all classes, for each K.
    for k in 2..=64usize {
        let mut b = Bench::new(k);
        for c in 0..k {
            b.sheet[c * k + (c + 1) % k] = if c % 2 == 0 { ER } else { EN };
            b.set_number(c, (c + 1) % k, 0x0201_0001 + 300 * c as u32);
        }
        b.set_count(0x0202_0000);
        assert_eq!(b.step(&event(0, SOFT_ON)), 1);
        assert!(b.true_circle(&b.slip));
        let low = |c: u8| 0x0001 + 300 * u16::from(c);
        let entry = |c: u8| {
            [
                c,
                [ER, EN][c as usize % 2],
                0,
                low(c) as u8,
                (low(c) >> 8) as u8,
                1,
                2,
            ]
        };
        let slip: Vec<u8> = (0..k as u8).flat_map(entry).collect();
        assert_eq!(b.slip, [vec![k as u8], slip].concat());
        assert_eq!(b.slip.len(), 1 + 7 * k);
        for c in 0..k {
            assert_eq!(b.ask(c as u64), (0, u64::MAX >> (64 - k), k as u32));
        }
        // One weak joint undoes it.
        let mut b = Bench::new(k);
        for c in 0..k {
            b.sheet[c * k + (c + 1) % k] = if c == 0 { ER } else { SN };
        }
        b.settle();
        assert_eq!(b.step(&event(0, SOFT_ON)), 0);
    }
}

#[test]
fn false_circles() {
    let mut b = Bench::new(8);
    for r in p2_records() {
        b.step(&r);
    }
    let lies = |slip: &[u8]| {
        let mut whole = vec![0; slip_len(8)];
        whole[..slip.len()].copy_from_slice(slip);
        b.true_circle(&whole)
    };
    let shows = |arrows: &[(u8, u8, u8, u32)]| lies(&entries(arrows));
    let (one, two) = ((1, EN, 0, 2), (2, EN, 0, 6));
    assert!(shows(&[one, two]));
    assert!(!shows(&[two, one])); // lowest first
    assert!(!shows(&[(1, ER, 0, 2), two])); // not that kind
    assert!(!shows(&[(1, EN, 1, 2), two])); // not that source
    assert!(!shows(&[(1, EN, 1, 0), two])); // nor with the number of that source
    assert!(!shows(&[one, (2, EN, 3, 6)])); // no such source
    assert!(!shows(&[(1, EN | ER, 0, 2), two])); // two kinds
    assert!(!shows(&[one, two, one, two])); // a class twice
    assert!(!shows(&[(1, EN, 0, 0)])); // not drawn
    assert!(!shows(&[one, (8, EN, 0, 6)])); // no such class
    assert!(!lies(&[0]));
    assert!(!lies(&[9]));
    assert!(!lies(&[255]));
    // Not that number, in each of its bytes; the other's; none.
    for bit in 0..32 {
        assert!(!shows(&[(1, EN, 0, 2 ^ 1 << bit), two]));
        assert!(!shows(&[one, (2, EN, 0, 6 ^ 1 << bit)]));
    }
    assert!(!shows(&[(1, EN, 0, 6), (2, EN, 0, 2)]));
    assert!(!shows(&[(1, EN, 0, 0), (2, EN, 0, 0)]));
    // An interrupt arrow has 0, though its pair have a number.
    let both = made(8, &[(3, EN, 3)], &[(3, 4 + 1)]);
    for (source, number, yes) in [
        (0, both.number(3, 3), true),
        (1, 0, true),
        (0, 0, false),
        (1, both.number(3, 3), false),
    ] {
        let mut slip = entries(&[(3, EN, source, number)]);
        slip.resize(57, 0);
        assert_eq!(both.true_circle(&slip), yes);
    }
    // The closing joint: 0 SR 0 isn't a true circle.
    let b = Bench::new(8).clean(&[take(0, 0, R), take(0, 0, R)]);
    let mut slip = vec![0; 57];
    slip[..8].copy_from_slice(&[1, 0, SR, 0, 2, 0, 0, 0]);
    assert!(!b.true_circle(&slip));
    // With SN to itself as well it would be one: the rest of the slip is right.
    let mut b = b;
    b.sheet[0] |= SN;
    slip[2] = SN;
    assert!(b.true_circle(&slip));
}

// ---------------------------------------------------------- the circle shown

/// A hand-made bench: hold arrows (from, sum of kinds, to) and marks (class, bits).
fn made(k: usize, holds: &[(usize, u8, usize)], marks: &[(usize, u8)]) -> Bench {
    let mut b = Bench::new(k);
    for &(from, kinds, to) in holds {
        b.sheet[from * k + to] |= kinds;
    }
    for &(class, bits) in marks {
        b.desk[MARKS + class] |= bits;
    }
    b.settle();
    assert_eq!(b.unfit(), None);
    b
}

/// This circle is shown where this drawing stands on an open desk without holds, by
/// function, step and feed, whatever record (that draws nothing) comes.
fn assert_shows(b: &Bench, circle: &[Triple]) {
    assert_eq!(b.least_circle().as_deref(), Some(circle));
    assert!(closed_strong_path(&b.desk, &b.sheet));
    for core in 0..8 {
        for kind in [HARD_ON, HARD_OFF, SOFT_ON, SOFT_OFF, ENTER_SOFT, ENTER_HARD] {
            let r = event(core, kind);
            let mut after = b.clone();
            assert_eq!(after.step(&r), 1);
            assert_eq!(after.slip, b.shown_over(&b.slip, circle));
            assert_eq!((&after.sheet, &after.seen), (&b.sheet, &b.seen));
            assert_eq!(after.count(), b.count() + 1);
            assert_eq!(after.desk[MARKS..HOLDS], b.desk[MARKS..HOLDS]);
            assert!(after.true_circle(&after.slip));
            after.refused(&r, 10);
            assert_eq!(after.least_circle().as_deref(), Some(circle));
            let mut fed = Fed::lying(0, 1, 0, &[], 41, b.clone());
            assert_eq!(fed.feed(&r[..core as usize % 6]), (0, 41));
            assert_eq!(
                fed.feed(&[&r[core as usize % 6..], &[0x4C]].concat()),
                (1, 42)
            );
            assert_eq!(fed.b, after);
        }
    }
}

/// The same for small drawings, where all circles can be listed too.
fn assert_least(k: usize, holds: &[(usize, u8, usize)], marks: &[(usize, u8)], circle: &[Triple]) {
    let b = made(k, holds, marks);
    assert_shows(&b, circle);
    assert_eq!(listed(&b).as_deref(), Some(circle));
}

#[test]
fn circles_of_the_logs() {
    // As the rules give them, by hand. P4, P6 are clean, P1 too.
    let task = |core, a, ma, b, mb| [take(core, a, ma), take(core, b, mb)];
    let p9 = [
        take(0, 0, E),
        take(0, 1, R),
        take(0, 2, E),
        take(1, 2, E),
        take(1, 0, E),
    ];
    for (name, records, lines) in [
        ("P2", p2_records().to_vec(), "1 EN 2 hold\n2 EN 1 hold\n"),
        (
            "P3",
            [task(0, 0, R, 1, E), task(1, 1, R, 0, E)].concat(),
            "0 SN 1 hold\n1 SN 0 hold\n",
        ),
        (
            "P5",
            [task(0, 0, E, 1, R), task(1, 1, E, 0, R)].concat(),
            "0 ER 1 hold\n1 ER 0 hold\n",
        ),
        ("P7", task(0, 0, R, 0, NR).to_vec(), "0 SN 0 hold\n"),
        ("P8", task(0, 0, E, 0, R).to_vec(), "0 ER 0 hold\n"),
        ("P9", p9.to_vec(), "0 EN 2 hold\n2 EN 0 hold\n"),
        (
            "P10",
            vec![
                take(0, 3, E),
                release(0, 3, E),
                event(0, ENTER_HARD),
                take(0, 3, E),
            ],
            "3 EN 3 hard\n",
        ),
        (
            "P12",
            vec![
                take(0, 6, E),
                release(0, 6, E),
                event(0, ENTER_SOFT),
                take(0, 6, E),
            ],
            "6 EN 6 soft\n",
        ),
    ] {
        let text = program(&log(8, &records));
        assert_eq!(
            text,
            format!("fault at record {}\n{lines}", records.len()),
            "{name}"
        );
    }
    // P2's slip, and the bytes past it.
    let mut b = Bench::new(3);
    assert_eq!(p2_records().map(|r| b.step(&r)), [0, 0, 0, 0, 0, 1]);
    let shown = [2, 1, 2, 0, 2, 0, 0, 0, 2, 2, 0, 6, 0, 0, 0];
    assert_eq!(b.slip, [&shown[..], &[0xA5; 7]].concat());
    assert_eq!(b.least_circle(), Some(vec![(1, 2, 0), (2, 2, 0)]));
    // One record closes several circles: 2 EN 1 and 2 EN 0 first, then 1 EN 0, and with
    // the last record 1 EN 2 and 0 EN 2.
    let several = [
        take(1, 2, E),
        take(1, 1, E),
        release(1, 1, E),
        take(1, 0, E),
        release(1, 0, E),
        release(1, 2, E), //
        take(0, 1, E),
        take(0, 0, E),
        take(0, 2, E),
    ];
    assert_fault(&several);
    assert_eq!(
        program(&log(8, &several)),
        "fault at record 9\n0 EN 2 hold\n2 EN 0 hold\n"
    );
    // The same with the last take a recursive read, or a read of 2 on core 1: 0 ER 2
    // goes on by 2 EN 0, but not by 2 SN 0.
    let with = |at: usize, r: Rec| {
        let mut records = several;
        records[at] = r;
        // What is taken first is released sixth, by the mode taken.
        records[5][5] = records[0][5];
        records
    };
    let text = program(&log(8, &with(8, take(0, 2, R))));
    assert_eq!(text, "fault at record 9\n0 ER 2 hold\n2 EN 0 hold\n");
    let text = program(&log(8, &with(0, take(1, 2, NR))));
    assert_eq!(text, "fault at record 9\n0 EN 2 hold\n2 SN 0 hold\n");
    let mut both = with(0, take(1, 2, NR));
    both[8] = take(0, 2, R);
    assert_clean(&both);
    // A hard handler's 3E, then in the task 3 and 5 with hard off, 5 and 3 with hard on,
    // where 5 EN 3 is drawn and 5 marked unsafe at once: the closing record draws 3
    // unsafe as well, so that one arrow is enough.
    let marks_too = [
        event(0, ENTER_HARD),
        take(0, 3, E),
        release(0, 3, E),
        event(0, EXIT_HARD),
        event(0, HARD_OFF), //
        take(0, 3, E),
        take(0, 5, E),
        event(0, HARD_ON),
    ];
    assert_eq!(
        program(&log(8, &marks_too)),
        "fault at record 8\n3 EN 3 hard\n"
    );
    // With 3 released before hard on, only 5 is unsafe: 3 EN 5 hold, 5 EN 3 hard.
    let mut without = marks_too.to_vec();
    without.insert(7, release(0, 3, E));
    assert_eq!(
        program(&log(8, &without)),
        "fault at record 9\n3 EN 5 hold\n5 EN 3 hard\n"
    );
}

#[test]
fn whichever_record_closed_it() {
    // Three cores draw 0 EN 1, 1 EN 2, 2 EN 0 in all orders.
    let parts = [0u8, 1, 2].map(|c| [take(c, c, E), take(c, (c + 1) % 3, E)]);
    for order in [
        [0, 1, 2],
        [0, 2, 1],
        [1, 0, 2],
        [1, 2, 0],
        [2, 0, 1],
        [2, 1, 0],
    ] {
        let records = order.map(|i: usize| parts[i]).concat();
        assert_fault(&records);
        assert_eq!(
            program(&log(3, &records)),
            "fault at record 6\n0 EN 1 hold\n1 EN 2 hold\n2 EN 0 hold\n"
        );
    }
    // A circle stands on an open desk, and the record closes another.
    let standing = made(
        8,
        &[(1, EN, 2), (2, EN, 1), (6, EN, 5), (3, EN, 0), (0, EN, 4)],
        &[],
    );
    let after = |held: u8, taken: u8| {
        let mut b = standing.clone();
        b.desk[DEPTHS + 9] = 1; // core 3's task
        b.desk[98 + 9 * 48] = held;
        b.set_count(0xA0B0_C0D0);
        assert_eq!(b.unfit(), None);
        assert_eq!(b.step(&take(3, taken, E)), 1);
        assert_eq!(b.slip, b.shown_over(&standing.slip, &listed(&b).unwrap()));
        b.slip[..1 + 7 * b.slip[0] as usize].to_vec()
    };
    // The record's own arrow has its own number, the others have theirs.
    let own = 0xA0B0_C0D1;
    let stood = |from, to| standing.number(from, to);
    let standing_circle = entries(&[(1, EN, 0, stood(1, 2)), (2, EN, 0, stood(2, 1))]);
    // 5 EN 6 closes a circle with a higher class first, 4 EN 3 a longer one, 0 EN 3 one
    // with a lower class, 7 EN 7 a shorter one.
    assert_eq!(after(5, 6), standing_circle);
    assert_eq!(after(4, 3), standing_circle);
    assert_eq!(
        after(0, 3),
        entries(&[(0, EN, 0, own), (3, EN, 0, stood(3, 0))])
    );
    assert_eq!(after(7, 7), entries(&[(7, EN, 0, own)]));
    // A circle that was closed by the record's own arrow, and a lesser kind seen there.
    assert_eq!(after(128 + 1, 2), standing_circle); // 1 SN 2 too
}

#[test]
fn kind_and_source_before_the_next_class() {
    // "0 ER 2" is before "0 EN 1".
    let two = [(0, EN, 1), (1, EN, 0), (0, ER, 2), (2, EN, 0)];
    assert_least(3, &two, &[], &[(0, ER, 0), (2, EN, 0)]);
    // With one kind, the lower class; with ER to both, too.
    assert_least(
        3,
        &[(0, EN, 1), (1, EN, 0), (0, EN, 2), (2, ER, 0)],
        &[],
        &[(0, EN, 0), (1, EN, 0)],
    );
    let both = [two[0], two[1], two[2], two[3], (0, ER, 1)];
    assert_least(3, &both, &[], &[(0, ER, 0), (1, EN, 0)]);
    // "0 EN 2 hold" is before "0 EN 1 hard": 0 is hard-unsafe E, 1 hard-safe N.
    let hold = [(1, EN, 0), (0, EN, 2), (2, EN, 0)];
    assert_least(3, &hold, &[(0, 4), (1, 1)], &[(0, EN, 0), (2, EN, 0)]);
    // Also where the second circle is worse in all that follows.
    assert_least(
        3,
        &[(1, ER, 0), (0, EN, 2), (2, EN, 0)],
        &[(0, 4), (1, 1)],
        &[(0, EN, 0), (2, EN, 0)],
    );
    // "0 EN 2 hard" before "0 EN 1 soft", and "0 EN 1 hard" before "0 EN 2 soft".
    let back = [(1, EN, 0), (2, EN, 0)];
    assert_least(
        3,
        &back,
        &[(0, 4 + 64), (1, 16), (2, 1)],
        &[(0, EN, 1), (2, EN, 0)],
    );
    assert_least(
        3,
        &back,
        &[(0, 4 + 64), (1, 1), (2, 16)],
        &[(0, EN, 1), (1, EN, 0)],
    );
    // In the middle of a circle: 1 ER 3 before 1 EN 2, but 0 EN 1 before either.
    let middle = [
        (0, EN, 1),
        (0, EN, 4),
        (1, EN, 2),
        (1, ER, 3),
        (4, ER, 2),
        (2, EN, 0),
        (3, EN, 0),
    ];
    assert_least(5, &middle, &[], &[(0, EN, 0), (1, ER, 0), (3, EN, 0)]);
    // 0 ER 4 comes before all of these.
    let first = [&middle[..], &[(0, ER, 4)]].concat();
    assert_least(5, &first, &[], &[(0, ER, 0), (4, ER, 0), (2, EN, 0)]);
    // The class is compared before the kinds that follow it: 0 EN 1 SN 0, 0 EN 2 ER 0.
    assert_least(
        3,
        &[(0, EN, 1), (1, SN, 0), (0, EN, 2), (2, ER, 0)],
        &[],
        &[(0, EN, 0), (1, SN, 0)],
    );
}

#[test]
fn kinds_before_sources() {
    // An interrupt ER is before a hold EN on the same pair, hard before soft.
    let holds = [(0, EN, 1), (1, EN, 0)];
    assert_least(2, &holds, &[(0, 4), (1, 2)], &[(0, ER, 1), (1, EN, 0)]);
    assert_least(
        2,
        &holds,
        &[(0, 4 + 64), (1, 32)],
        &[(0, ER, 2), (1, EN, 0)],
    );
    assert_least(
        2,
        &holds,
        &[(0, 4 + 64), (1, 2 + 32)],
        &[(0, ER, 1), (1, EN, 0)],
    );
    // Level by level: 0 is hard-unsafe alone, so there is no soft arrow.
    assert_least(2, &holds, &[(0, 4), (1, 32)], &[(0, EN, 0), (1, EN, 0)]);
    // A soft ER before a hard EN, a hard EN before a hold SN, a hold before a hard one.
    assert_least(
        2,
        &[(1, EN, 0)],
        &[(0, 4 + 64), (1, 1 + 32)],
        &[(0, ER, 2), (1, EN, 0)],
    );
    assert_least(
        2,
        &[(0, SN, 1), (1, EN, 0)],
        &[(0, 4), (1, 1)],
        &[(0, EN, 1), (1, EN, 0)],
    );
    assert_least(
        2,
        &[(0, ER, 1), (1, EN, 0)],
        &[(0, 4), (1, 2)],
        &[(0, ER, 0), (1, EN, 0)],
    );
    // All kinds in their order 1, 2, 4, 8.
    for (kinds, least) in [
        (15, ER),
        (14, EN),
        (12, SR),
        (8, SN),
        (9, ER),
        (10, EN),
        (6, EN),
    ] {
        assert_least(
            2,
            &[(0, kinds, 1), (1, EN, 0)],
            &[],
            &[(0, least, 0), (1, EN, 0)],
        );
        assert_least(
            2,
            &[(0, EN, 1), (1, kinds, 0)],
            &[],
            &[(0, EN, 0), (1, least, 0)],
        );
    }
    // One class: hold, hard, soft; ER, EN, SN, and SR never.
    assert_least(1, &[(0, SN, 0)], &[(0, 8 + 1)], &[(0, SN, 0)]);
    assert_least(1, &[(0, SR, 0)], &[(0, 8 + 1)], &[(0, SN, 1)]);
    assert_least(1, &[(0, SN, 0)], &[(0, 4 + 1)], &[(0, EN, 1)]);
    assert_least(1, &[(0, EN, 0)], &[(0, 4 + 64 + 32)], &[(0, ER, 2)]);
    assert_least(1, &[], &[(0, 255)], &[(0, ER, 1)]);
    assert_least(1, &[(0, 15, 0)], &[(0, 255)], &[(0, ER, 0)]);
}

#[test]
fn the_least_kind_must_leave_a_circle() {
    // The next joint: after 0 ER 1 no SN.
    assert_least(
        2,
        &[(0, ER | EN, 1), (1, SN, 0)],
        &[],
        &[(0, EN, 0), (1, SN, 0)],
    );
    assert_least(
        2,
        &[(0, ER | EN, 1), (1, SR, 0)],
        &[],
        &[(0, EN, 0), (1, SR, 0)],
    );
    // The closing joint: after 1 ER 0 no S.
    assert_least(
        2,
        &[(0, SR | SN, 1), (1, ER | EN, 0)],
        &[],
        &[(0, SR, 0), (1, EN, 0)],
    );
    assert_least(
        2,
        &[(0, SN, 1), (1, SR | SN, 0)],
        &[],
        &[(0, SN, 0), (1, SN, 0)],
    );
    // Both: 0 SR 1 would need 1 E. 0, 1 SR 0 would need 0 E. 1.
    assert_least(
        2,
        &[(0, SR | SN, 1), (1, ER | SN, 0)],
        &[],
        &[(0, SN, 0), (1, SN, 0)],
    );
    // A lesser kind by an interrupt is barred as well, and a hard EN is what is left.
    assert_least(
        2,
        &[(1, SN, 0)],
        &[(0, 4), (1, 1 + 2)],
        &[(0, EN, 1), (1, SN, 0)],
    );
    // A joint further on: 1 S. 2 bars 0 ER 1, and 2 SN 0 bars 1 SR 2.
    let ring = [(0, ER | EN, 1), (1, SR | SN, 2), (2, SN, 0)];
    assert_least(3, &ring, &[], &[(0, EN, 0), (1, SN, 0), (2, SN, 0)]);
    // The same pair's ER is barred, another pair's isn't.
    let other = [(0, ER | EN, 1), (1, SN, 0), (0, ER, 2), (2, EN, 0)];
    assert_least(3, &other, &[], &[(0, ER, 0), (2, EN, 0)]);
    // ER leaves a circle, but a longer one: 0 ER 1 EN 2 EN 0 and 0 EN 2 EN 0.
    let longer = [(0, ER, 1), (1, EN, 2), (0, EN, 2), (2, EN, 0)];
    assert_least(3, &longer, &[], &[(0, EN, 0), (2, EN, 0)]);
    // 0 ER leads to 1 and to 2, and only 2 goes on after R.
    let after_r = [(0, ER, 1), (1, SN, 0), (0, ER, 2), (2, EN, 0)];
    assert_least(3, &after_r, &[], &[(0, ER, 0), (2, EN, 0)]);
    // 0 S. 1 at the closing joint: 0 SN 1 ER 2 ER 0 isn't strong there, 2 EN 0 is missing,
    // and of 0 EN 3 EN 2 ER 0 each kind is the least there is.
    let closing = [(0, SN, 1), (1, ER, 2), (2, ER, 0), (0, EN, 3), (3, EN, 2)];
    assert_least(4, &closing, &[], &[(0, EN, 0), (3, EN, 0), (2, ER, 0)]);
    // First letter S, all the rest E: only the last arrow is held to it.
    let rest = [(0, 12, 1), (1, 3, 2), (2, 3, 3), (3, 3, 0)];
    assert_least(
        4,
        &rest,
        &[],
        &[(0, SR, 0), (1, ER, 0), (2, ER, 0), (3, EN, 0)],
    );
    // The closing joint decides a class in the middle: 2 ER 0 alone, 3 EN 0 too.
    let which = [
        (0, SN, 1),
        (1, EN, 2),
        (1, EN, 3),
        (2, ER, 0),
        (3, ER | EN, 0),
    ];
    assert_least(4, &which, &[], &[(0, SN, 0), (1, EN, 0), (3, EN, 0)]);
}

#[test]
fn fewest_arrows_first() {
    // 3, 4 before 0, 2, 3.
    let holds = [(0, EN, 2), (2, EN, 3), (3, EN, 0), (3, EN, 4), (4, EN, 3)];
    assert_least(5, &holds, &[], &[(3, EN, 0), (4, EN, 0)]);
    // Kinds don't count against length.
    let kinds = [(0, ER, 2), (2, ER, 3), (3, ER, 0), (3, SN, 4), (4, SN, 3)];
    assert_least(5, &kinds, &[], &[(3, SN, 0), (4, SN, 0)]);
    // One soft arrow at the highest class before two holds at the lowest.
    assert_least(
        8,
        &[(0, ER, 1), (1, ER, 0)],
        &[(7, 8 + 128 + 16)],
        &[(7, SN, 2)],
    );
    // Not the lowest class of all circles, but of all with the fewest: 1, 2 and not 0.
    let lowest = [
        (0, ER, 1),
        (1, EN, 2),
        (2, EN, 1),
        (2, EN, 0),
        (3, ER, 4),
        (4, ER, 3),
    ];
    assert_least(5, &lowest, &[], &[(1, EN, 0), (2, EN, 0)]);
    // 0 leads to the circle without being on it.
    assert_least(
        4,
        &[(0, ER, 1), (1, EN, 3), (3, EN, 1), (3, ER, 2)],
        &[],
        &[(1, EN, 0), (3, EN, 0)],
    );
    // A class on two circles of that length, neither begun by it: 3, 0 and 3, 1.
    assert_least(
        4,
        &[(3, ER, 1), (1, ER, 3), (3, EN, 0), (0, EN, 3)],
        &[],
        &[(0, EN, 0), (3, EN, 0)],
    );
    // The lowest class first, though the last arrow is the least of all.
    assert_least(
        6,
        &[(5, ER, 2), (2, EN, 4), (4, EN, 5)],
        &[],
        &[(2, EN, 0), (4, EN, 0), (5, ER, 0)],
    );
}

#[test]
fn the_shortest_through_a_class_may_pass_another_twice() {
    // 0 ER 1 SN 0 isn't strong; 0 ER 1 EN 2 EN 1 SN 0 is, and passes 1 twice. What is
    // shown is the circle in it.
    let holds = [(0, ER, 1), (1, EN, 2), (2, EN, 1), (1, SN, 0)];
    assert_least(3, &holds, &[], &[(1, EN, 0), (2, EN, 0)]);
    let b = made(3, &holds, &[]);
    assert_eq!([1, 2, 3].map(|n| b.all_circles(n).len()), [0, 1, 0]);
    // The detour a circle of one arrow: 0 ER 1 ER 1 isn't of use, 1 EN 1 is.
    let own = [(0, ER, 1), (1, EN, 1), (1, SN, 0)];
    assert_least(2, &own, &[], &[(1, EN, 0)]);
    let none = made(2, &[(0, ER, 1), (1, SR, 1), (1, SN, 0)], &[]);
    assert_eq!(none.least_circle(), None);
    // The detour as long as another circle further up: 3 is the fewest, and 1 begins.
    let tie = [
        (0, ER, 1),
        (1, EN, 2),
        (2, EN, 3),
        (3, EN, 1),
        (1, SN, 0),
        (4, ER, 5),
        (5, ER, 6),
        (6, ER, 4),
    ];
    assert_least(7, &tie, &[], &[(1, EN, 0), (2, EN, 0), (3, EN, 0)]);
    // The detour by a lower class: 0 ER 2 EN 1 EN 2 SN 3 EN 0.
    let twice = [(0, ER, 2), (2, EN, 1), (1, EN, 2), (2, SN, 3), (3, EN, 0)];
    assert_least(4, &twice, &[], &[(1, EN, 0), (2, EN, 0)]);
}

#[test]
fn parents_of_a_search_are_not_enough() {
    // 3 is found from 1 first; the least comes from 2.
    let diamond = [(0, EN, 1), (0, ER, 2), (1, EN, 3), (2, EN, 3), (3, EN, 0)];
    assert_least(4, &diamond, &[], &[(0, ER, 0), (2, EN, 0), (3, EN, 0)]);
    // 3 is found from 2 last; the least comes from 1.
    let plain = [(0, EN, 1), (0, EN, 2), (1, EN, 3), (2, ER, 3), (3, EN, 0)];
    assert_least(4, &plain, &[], &[(0, EN, 0), (1, EN, 0), (3, EN, 0)]);
    // 4 by R comes from 2 alone, 4 by N from 1 alone; what follows 4 decides.
    let letters = [(0, EN, 1), (0, EN, 2), (1, EN, 4), (2, ER, 4), (4, SN, 0)];
    assert_least(5, &letters, &[], &[(0, EN, 0), (1, EN, 0), (4, SN, 0)]);
    let other = [(0, EN, 1), (0, EN, 2), (1, ER, 4), (2, EN, 4), (4, SN, 0)];
    assert_least(5, &other, &[], &[(0, EN, 0), (2, EN, 0), (4, SN, 0)]);
    // The better way to 5 is found one step before it could be told: 0 EN 3 ER 5 and
    // 0 EN 2 EN 5, where 2 is before 3 but 0 ER 3 before 0 EN 2.
    let late = [
        (0, EN, 2),
        (0, EN | ER, 3),
        (2, ER, 5),
        (3, EN, 5),
        (5, EN, 0),
    ];
    assert_least(6, &late, &[], &[(0, ER, 0), (3, EN, 0), (5, EN, 0)]);
    // The way back: from 5 the search comes to 0 by ER, but 0 SN 1 wants N.
    let back = [(0, SN, 1), (1, ER, 4), (1, EN, 5), (4, ER, 0), (5, EN, 0)];
    assert_least(6, &back, &[], &[(0, SN, 0), (1, EN, 0), (5, EN, 0)]);
}

#[test]
fn rings() {
    // One ring through all classes, in the order of c * step: every kind everywhere but
    // one place, where only SN is. All are ER but that one, and the one before it, EN.
    for k in 1..=64usize {
        let steps: &[usize] = if k == 64 {
            &[1, 5, 27, 63]
        } else {
            &[1, k.max(2) - 1]
        };
        for &step in steps {
            let class = |place: usize| place * step % k;
            let places = if k < 8 || k == 64 {
                0..k
            } else {
                k / 2 - 1..k / 2 + 1
            };
            for only in places {
                let holds: Vec<_> = (0..k)
                    .map(|p| (class(p), if p == only { SN } else { 15 }, class(p + 1)))
                    .collect();
                let circle: Vec<Triple> = (0..k)
                    .map(|p| {
                        let kind = if p == only {
                            SN
                        } else if (p + 1) % k == only {
                            EN
                        } else {
                            ER
                        };
                        (class(p) as u8, kind, 0)
                    })
                    .collect();
                let mut b = made(k, &holds, &[]);
                assert_eq!(b.least_circle(), Some(circle.clone()));
                let slip = b.slip.clone();
                assert_eq!(b.step(&event(7, SOFT_OFF)), 1);
                assert_eq!(b.slip, b.shown_over(&slip, &circle));
                // SR there instead: the one before it must still be EN, and the one
                // after it has an E.
                let other = |kind| if kind == SN { SR } else { kind };
                let holds: Vec<_> = holds
                    .into_iter()
                    .map(|(a, m, c)| (a, other(m), c))
                    .collect();
                let circle: Vec<Triple> = circle
                    .into_iter()
                    .map(|(c, m, s)| (c, other(m), s))
                    .collect();
                let b = made(k, &holds, &[]);
                assert_eq!(b.least_circle(), (k > 1).then_some(circle));
            }
        }
    }
    // 32 holds and 32 interrupts can't make a ring of 64, as every unsafe class goes to
    // every safe one; but one interrupt arrow can close it.
    for (marks, last) in [
        ([4, 2], (63, ER, 1)),
        ([4 + 64, 16], (63, EN, 2)),
        ([8, 1 + 2], (63, SR, 1)),
    ] {
        let holds: Vec<_> = (0..63).map(|c| (c, EN, c + 1)).collect();
        let b = made(64, &holds, &[(63, marks[0]), (0, marks[1])]);
        let mut circle: Vec<Triple> = (0..63).map(|c| (c, EN, 0)).collect();
        circle.push(last);
        assert_shows(&b, &circle);
    }
    // Two rings of 32: the one with the lowest class, though the other has lesser kinds.
    let holds: Vec<_> = (0..64)
        .map(|c| (c, if c % 2 == 0 { SN } else { ER }, (c + 2) % 64))
        .collect();
    assert_shows(
        &made(64, &holds, &[]),
        &(0..32).map(|c| (2 * c, SN, 0)).collect::<Vec<_>>(),
    );
}

#[test]
fn two_to_the_thirtieth_circles() {
    // 0, then thirty places with two classes each, 1 and 2, 3 and 4 .. 59 and 60, then 61.
    let layers = |low: u8, high: u8, first: [u8; 2], last: [u8; 2], closing: u8| {
        let mut holds = vec![(0, first[0], 1), (0, first[1], 2), (61, closing, 0)];
        for place in 1..30 {
            let (a, b) = (2 * place - 1, 2 * place);
            for from in [a, b] {
                holds.extend([(from, low, a + 2), (from, high, b + 2)]);
            }
        }
        holds.extend([(59, last[0], 61), (60, last[1], 61)]);
        made(64, &holds, &[])
    };
    let circle = |classes: &dyn Fn(u8) -> u8, kinds: &dyn Fn(u8) -> u8| -> Vec<Triple> {
        (0..32)
            .map(|i| {
                (
                    if i == 0 {
                        0
                    } else if i == 31 {
                        61
                    } else {
                        classes(i)
                    },
                    kinds(i),
                    0,
                )
            })
            .collect()
    };
    // All alike: the lower of each two.
    let b = layers(EN, EN, [EN, EN], [EN, EN], EN);
    assert_shows(&b, &circle(&|i| 2 * i - 1, &|_| EN));
    // ER to the higher of each two.
    let b = layers(EN, ER, [EN, ER], [EN, EN], EN);
    assert_shows(&b, &circle(&|i| 2 * i, &|i| if i < 30 { ER } else { EN }));
    // But from the last two only SN goes on: the last but one must arrive by N.
    let b = layers(EN, ER, [EN, ER], [SN, SN], EN);
    let kinds = |i| [EN, SN, EN, ER][if i < 29 { 3 } else { i as usize - 29 }];
    assert_shows(&b, &circle(&|i| if i < 30 { 2 * i } else { 59 }, &kinds));
    // From 60 alone nothing goes on, so 59 it is, by EN.
    let b = layers(EN, ER, [EN, ER], [EN, 0], EN);
    let kinds = |i| if i < 29 { ER } else { EN };
    assert_shows(&b, &circle(&|i| if i < 30 { 2 * i } else { 59 }, &kinds));
    // 0 begins with S: SR to the higher, and the closing arrow can't be ER.
    let b = layers(EN, ER, [SN, SR], [ER, ER], ER | EN);
    let kinds = |i| [SR, ER, EN][usize::from(i > 0) + usize::from(i == 31)];
    assert_shows(&b, &circle(&|i| 2 * i, &kinds));
    // And the closing arrow from 61 must then arrive by N at all.
    let b = layers(EN, ER, [SN, SR], [ER, ER], ER);
    assert_eq!(b.least_circle(), None);
    // Four kinds and two classes at each of 32 places, the last to the first: 0 to 31.
    let mut holds = Vec::new();
    for from in 0..64 {
        let to = (from + 1) % 32;
        holds.extend([(from, 15, to), (from, 15, to + 32)]);
    }
    assert_shows(
        &made(64, &holds, &[]),
        &(0..32).map(|c| (c, ER, 0)).collect::<Vec<_>>(),
    );
    // With only ER from the lower to the higher and S otherwise: 0 ER 33 must go on by E,
    // but from 33 on there is only S; so 0 SN 1 SN 2 and so on.
    let holds: Vec<_> = (0..64)
        .flat_map(|from| {
            let to = (from + 1) % 32;
            [
                (from, SR | SN, to),
                (from, if from < 32 { ER } else { SR }, to + 32),
            ]
        })
        .collect();
    assert_shows(
        &made(64, &holds, &[]),
        &(0..32).map(|c| (c, SN, 0)).collect::<Vec<_>>(),
    );
}

/// Every slip of n arrows that the checker passes.
fn true_slips(b: &Bench, n: usize) -> Vec<Vec<Triple>> {
    let mut lists = vec![vec![]];
    for _ in 0..n {
        let mut longer = Vec::new();
        for list in lists {
            for class in 0..b.desk[0] {
                for kind in [1, 2, 4, 8] {
                    longer.extend(
                        (0..3).map(|source| [&list[..], &[(class, kind, source)]].concat()),
                    );
                }
            }
        }
        lists = longer;
    }
    lists.retain(|list: &Vec<Triple>| b.true_circle(&b.shown_over(&b.slip, list)));
    lists
}

/// Marks that may stand on a fit desk.
fn fit_marks() -> Vec<u8> {
    let marks = (0..=255u8).filter(|m| (m & 64 == 0 || m & 4 != 0) && (m & 128 == 0 || m & 8 != 0));
    let marks: Vec<u8> = marks.collect();
    assert_eq!(marks.len(), 144);
    marks
}

#[test]
fn one_class_all_drawings() {
    let mut seen = std::collections::BTreeSet::new();
    for m in fit_marks() {
        for kinds in 0..16 {
            let mut b = made(1, &[(0, kinds, 0)], &[(0, m)]);
            // Kinds in the order ER, EN, SN, and each by hold, hard, soft.
            let bit = |byte: u8, bits: u8| byte & bits == bits;
            let candidates = [
                (bit(kinds, 1), 1, 0),
                (bit(m, 4 + 2), 1, 1),
                (bit(m, 64 + 32), 1, 2), //
                (bit(kinds, 2), 2, 0),
                (bit(m, 4 + 1), 2, 1),
                (bit(m, 64 + 16), 2, 2), //
                (bit(kinds, 8), 8, 0),
                (bit(m, 8 + 1), 8, 1),
                (bit(m, 128 + 16), 8, 2),
            ];
            let circle = candidates
                .into_iter()
                .find(|c| c.0)
                .map(|c| vec![(0, c.1, c.2)]);
            assert_eq!(b.least_circle(), circle);
            assert_eq!(listed(&b), circle);
            assert_eq!(true_slips(&b, 1), b.all_circles(1));
            let slip = b.slip.clone();
            assert_eq!(b.step(&event(2, ENTER_SOFT)), u8::from(circle.is_some()));
            assert_eq!(b.slip, b.shown_or_not(&slip, &circle));
            seen.insert(circle);
        }
    }
    assert_eq!(seen.len(), 10); // each of the nine, and none
}

#[test]
fn two_classes_all_sheets_and_all_marks() {
    let check = |sheet: [u8; 4], marks: [u8; 2], slips: bool| {
        let mut b = Bench::new(2);
        b.sheet.copy_from_slice(&sheet);
        b.desk[MARKS..MARKS + 2].copy_from_slice(&marks);
        b.settle();
        let circle = b.least_circle();
        assert_eq!(circle, listed(&b), "{sheet:?} {marks:?}");
        assert_eq!(circle.is_some(), closed_strong_path(&b.desk, &b.sheet));
        if slips {
            for n in 1..=2 {
                assert_eq!(true_slips(&b, n), b.all_circles(n));
            }
        }
        circle.map_or(0, |c| c.len())
    };
    let mut dice = Dice(0x2B0B_5EED_0C1C_1E55);
    let mut lengths = [0; 3];
    let marks = fit_marks();
    for code in 0..1u32 << 16 {
        let sheet = [code, code >> 4, code >> 8, code >> 12].map(|b| (b & 15) as u8);
        lengths[check(sheet, [0, 0], code % 64 == 0)] += 1;
    }
    // No arrow to itself but SR, and one class safe and the other unsafe only, so that one
    // arrow isn't enough.
    for safe in marks.iter().filter(|&m| m & 0xCC == 0) {
        for unsafe_ in marks.iter().filter(|&m| m & 0x33 == 0) {
            for code in 0..1u32 << 10 {
                let itself = [code >> 8 & 1, code >> 9].map(|bit| SR * bit as u8);
                let sheet = [
                    itself[0],
                    (code & 15) as u8,
                    (code >> 4 & 15) as u8,
                    itself[1],
                ];
                lengths[check(sheet, [*safe, *unsafe_], code % 512 == 0)] += 1;
                lengths[check(sheet, [*unsafe_, *safe], code % 512 == 1)] += 1;
            }
        }
    }
    for a in &marks {
        for b in &marks {
            let mut sheet = [0; 4].map(|_: u8| (dice.under(16) & dice.under(16)) as u8);
            sheet[0] &= SR;
            sheet[3] &= SR;
            lengths[check(sheet, [*a, *b], dice.under(64) == 0)] += 1;
            lengths[check([0, sheet[1], 0, 0], [*a, *b], false)] += 1;
        }
    }
    assert!(lengths.iter().all(|&many| many > 10_000), "{lengths:?}");
}

#[test]
fn three_classes_and_true_slips() {
    // All slips of three arrows, and those the checker passes.
    let mut dice = Dice(0x0003_3333_C1A5_5E50);
    let mut three = 0;
    for round in 0..60 {
        let mut b = Bench::new(3);
        for (i, byte) in b.sheet.iter_mut().enumerate() {
            let forward = [1, 5, 6].contains(&i);
            *byte = dice.under(16) as u8 & if forward { 15 } else { [SR, 0][round % 2] };
        }
        if round % 3 == 0 {
            b.desk[MARKS] = [8, 4 + 64, 4][round / 3 % 3];
            b.desk[MARKS + 1] = [1 + 2, 32, 1][round / 3 % 3];
        }
        b.settle();
        for n in 1..=3 {
            let all = true_slips(&b, n);
            assert_eq!(all, b.all_circles(n));
            three +=
                usize::from(n == 3 && all.len() > 1 && b.least_circle() == Some(all[0].clone()));
        }
        assert_eq!(b.least_circle(), listed(&b));
    }
    assert!(three > 20, "{three}");
    let b = made(3, &[(0, 15, 1), (1, 15, 2), (2, 15, 0)], &[]);
    assert!(b.all_circles(0).is_empty());
    assert!(b.all_circles(4).is_empty());
    // At each of n joints the letters before and after are free but for one of the four
    // pairs: 3 to the n.
    assert_eq!(b.all_circles(3).len(), 27);
    let b = made(
        4,
        &[(0, 15, 1), (1, 15, 2), (2, 15, 3), (3, 15, 0), (1, 15, 0)],
        &[],
    );
    assert_eq!(
        [1, 2, 3, 4, 5].map(|n| b.all_circles(n).len()),
        [0, 9, 0, 81, 0]
    );
}

/// A drawing with its classes, in any order, at so many places, and arrows from each place
/// to the next. A wild one has gaps and other arrows too; in a tame one most circles are
/// as long as there are places, and others lead only to or from classes that stand aside.
fn drawing_of_places(dice: &mut Dice, k: usize, places: usize, wild: bool) -> Bench {
    let mut b = Bench::new(k);
    let aside = places;
    let mut place: Vec<usize> = (0..k)
        .map(|c| {
            if c < places {
                c
            } else {
                dice.under(places as u64 + 1) as usize
            }
        })
        .collect();
    for i in (1..k).rev() {
        place.swap(i, dice.under(i as u64 + 1) as usize);
    }
    let thin = dice.under(3);
    for from in 0..k {
        for to in 0..k {
            let (here, there) = (place[from], place[to]);
            let next = here != aside && (here + 1) % places == there;
            b.sheet[from * k + to] = match (next, wild) {
                (true, true) if thin > 0 && dice.under(4) == 0 => 0,
                (true, true) => match dice.under(5) {
                    0 => EN,
                    1 => (dice.under(16) & dice.under(16)) as u8,
                    2 => [ER, EN, ER | EN, SN][dice.under(4) as usize],
                    _ => [SN, EN, SR, SR | SN][dice.under(4) as usize],
                },
                (true, false) if dice.under(places as u64) == 0 => {
                    [SN, SR | SN, ER, SR][dice.under(4) as usize]
                }
                (true, false) => [EN, EN | ER, EN | SN, EN | SR, 14, 15][dice.under(6) as usize],
                (false, true) if dice.under(if k > 8 { 60 } else { 10 }) == 0 => {
                    [SR, SR, ER, SR | SN, EN][dice.under(5 - thin) as usize]
                }
                (false, false) if (here == aside && from < to) || (there == aside && from > to) => {
                    (dice.under(16) & dice.under(16) & dice.under(16)) as u8
                }
                _ => 0,
            };
        }
    }
    if dice.under(2) == 0 {
        // One place unsafe and the next safe, at one level or both.
        let at = dice.under(places as u64) as usize;
        let (unsafe_, safe) = (
            [4, 8, 4 + 64, 8 + 128, 12 + 64][dice.under(5) as usize],
            dice.under(256) as u8 & 0x33,
        );
        for c in 0..k {
            if place[c] == at && dice.under(3) > 0 {
                b.desk[MARKS + c] |= unsafe_;
            }
            if place[c] == (at + 1) % places && dice.under(3) > 0 {
                b.desk[MARKS + c] |= safe;
            }
        }
    }
    b.settle();
    assert_eq!(b.unfit(), None);
    b
}

#[test]
fn small_drawings_against_the_list() {
    let mut dice = Dice(0x5EA5_1DE0_F1AC_E5ED);
    let mut lengths = [0; 8];
    let (mut several, mut interrupts) = (0, 0);
    for _ in 0..60_000 {
        let k = 2 + dice.under(6) as usize;
        let places = 1 + dice.under(k as u64) as usize;
        let wild = dice.under(2) == 0;
        let mut b = drawing_of_places(&mut dice, k, places, wild);
        let circle = b.least_circle();
        assert_eq!(
            circle,
            listed(&b),
            "{:?} {:?}",
            b.sheet,
            &b.desk[MARKS..HOLDS]
        );
        assert_eq!(circle, by_choosing(&b));
        let n = circle.as_ref().map_or(0, |c| c.len());
        lengths[n] += 1;
        several += u64::from(n > 2 && b.all_circles(n).len() > 1);
        interrupts += u64::from(n > 2 && circle.iter().flatten().any(|arrow| arrow.2 > 0));
        let slip = b.slip.clone();
        assert_eq!(b.step(&event(0, SOFT_ON)), u8::from(n > 0));
        assert_eq!(b.slip, b.shown_or_not(&slip, &circle));
    }
    assert!(
        several > 3_000 && interrupts > 500,
        "{several} with several circles, {interrupts} with interrupts"
    );
    assert!(lengths.iter().all(|&many| many > 400), "{lengths:?}");
}

/// The least circle by choosing arrow by arrow, always the least with which a closed
/// strong path of n arrows is still possible. For drawings too large for the list.
fn by_choosing(b: &Bench) -> Option<Vec<Triple>> {
    let k = b.desk[0] as usize;
    // From each class all arrows (kind, source, to), the least first.
    let mut out = vec![Vec::new(); k];
    for from in 0..k {
        for kind in [ER, EN, SR, SN] {
            for source in 0..3 {
                let to = (0..k).filter(|&to| drawn(&b.desk, &b.sheet, from, to, kind, source));
                out[from].extend(to.map(|to| (kind, source, to)));
            }
        }
    }
    // For each first class and first letter, and each number of arrows left: whether that
    // many lead to the first class and may be followed by that letter, from each class,
    // by arrows of which the first may follow an N (or an R).
    type Ways = Vec<[bool; 2]>;
    let mut ways: Vec<[Vec<Ways>; 2]> = (0..k)
        .map(|first| {
            [false, true].map(|first_is_s| {
                vec![(0..k)
                    .map(|c| [c == first, c == first && !first_is_s])
                    .collect()]
            })
        })
        .collect();
    for n in 1..=k {
        for first in 0..k {
            for first_is_s in [false, true] {
                let ways = &ways[first][usize::from(first_is_s)];
                let mut circle: Vec<Triple> = Vec::new();
                let mut class = first;
                for left in (0..n).rev() {
                    let found = out[class].iter().find(|&&(kind, _, to)| {
                        let joint = match circle.last() {
                            None => begins_with_s(kind) == first_is_s,
                            Some(last) => !(ends_with_r(last.1) && begins_with_s(kind)),
                        };
                        joint && ways[left][to][usize::from(ends_with_r(kind))]
                    });
                    let Some(&(kind, source, to)) = found else {
                        break;
                    };
                    circle.push((class as u8, kind, source));
                    class = to;
                }
                if circle.len() == n {
                    return Some(circle);
                }
                assert!(circle.is_empty());
            }
        }
        for ways in ways.iter_mut().flatten() {
            let nearer = &ways[n - 1];
            let leads =
                |&(kind, _, to): &(u8, u8, usize)| nearer[to][usize::from(ends_with_r(kind))];
            let more = out
                .iter()
                .map(|arrows| {
                    [
                        arrows.iter().any(leads),
                        arrows.iter().any(|a| !begins_with_s(a.0) && leads(a)),
                    ]
                })
                .collect();
            ways.push(more);
        }
    }
    None
}

#[test]
fn large_drawings_against_choosing() {
    let mut dice = Dice(0x1A26_ED2A_3106_5EED);
    let mut lengths = [0; 65];
    for round in 0..2_000 {
        let k = if round % 2 == 0 {
            64
        } else {
            8 + dice.under(57) as usize
        };
        let places = 1 + dice.under(k as u64) as usize;
        let places = if round % 4 == 0 {
            places.max(k - dice.under(8) as usize)
        } else {
            places
        };
        let mut b = drawing_of_places(&mut dice, k, places, round % 5 == 0);
        let circle = b.least_circle();
        assert_eq!(
            circle,
            by_choosing(&b),
            "{:?} {:?}",
            b.sheet,
            &b.desk[MARKS..HOLDS]
        );
        lengths[circle.as_ref().map_or(0, |c| c.len())] += 1;
        let slip = b.slip.clone();
        assert_eq!(b.step(&event(0, SOFT_ON)), u8::from(circle.is_some()));
        assert_eq!(b.slip, b.shown_or_not(&slip, &circle));
    }
    assert!(lengths.iter().all(|&many| many > 0), "{lengths:?}");
}

#[test]
fn no_circle_and_unfit() {
    // 0 SR 1 hard beside either; 0 EN 1 SR 0 is strong all round, 0 ER 1 SN 0 isn't.
    assert_least(
        8,
        &[(0, EN, 1), (1, SR, 0), (0, ER, 2)],
        &[(0, 8), (1, 2)],
        &[(0, EN, 0), (1, SR, 0)],
    );
    let clean = made(8, &[(0, ER, 1), (1, SN, 0), (2, SR, 2)], &[(0, 8), (1, 2)]);
    assert_eq!(clean.least_circle(), None);
    assert!((0..9).all(|n| clean.all_circles(n).is_empty()));
    let circle = made(8, &[(0, EN, 0)], &[]);
    assert_shows(&circle, &[(0, EN, 0)]);
    let changes: [&dyn Fn(&mut Bench); 8] = [
        &|b| b.desk.truncate(1673),
        &|b| b.desk[0] = 65,
        &|b| b.sheet.truncate(63),
        &|b| (b.sheet[63], b.seen[252]) = (16, 1),
        &|b| b.seen.truncate(255),
        &|b| b.set_number(0, 0, 0),
        &|b| b.set_number(7, 7, 1),
        &|b| b.desk[MARKS] = 64,
    ];
    for change in changes {
        let mut b = circle.clone();
        change(&mut b);
        assert_eq!(b.least_circle(), None);
        assert!(b.all_circles(1).is_empty());
        b.refused(&event(0, HARD_ON), 11);
    }
    // A number above the count is fit (02 i), and the circle shown.
    for number in [circle.count() + 1, u32::MAX] {
        let mut b = circle.clone();
        b.set_number(0, 0, number);
        assert_shows(&b, &[(0, EN, 0)]);
        b.set_count(0);
        assert_shows(&b, &[(0, EN, 0)]);
        assert_eq!(b.all_circles(1), [[(0, EN, 0)]]);
    }
}

// ------------------------------------------------------ the clash of one class

/// Every one-arrow strong circle of a class, the least first, from the sum of its hold
/// arrows' kinds to itself and its marks.
fn one_arrow(class: usize, kinds: u8, marks: u8) -> Vec<Triple> {
    let has = |bit: u8| marks & bit != 0;
    let mut all = Vec::new();
    // Kinds in the order 1, 2, 4, 8 with their marks at hard, each by hold, hard, soft.
    for (kind, unsafe_, safe) in [(ER, 4, 2), (EN, 4, 1), (SR, 8, 2), (SN, 8, 1)] {
        let hold = kinds & kind != 0;
        let hard = has(unsafe_) && has(safe);
        let soft = has(16 * unsafe_) && has(16 * safe);
        for (source, there) in [(0, hold), (1, hard), (2, soft)] {
            // An SR doesn't follow itself.
            if there && kind != SR {
                all.push((class as u8, kind, source));
            }
        }
    }
    assert!(all.is_sorted());
    all
}

/// The lowest and the highest class, for K = 1, 2 and 64.
const ENDS: [(usize, usize); 5] = [(1, 0), (2, 0), (2, 1), (64, 0), (64, 63)];

/// Core 0's hard off on a bench without holds: it draws and marks nothing. The answer is
/// 1 with this arrow on the slip, or 0, and no other byte changes.
fn assert_after_hard_off(b: &Bench, circle: Option<Triple>) {
    assert!(b.desk[STATES..MARKS]
        .iter()
        .chain(&b.desk[HOLDS..COUNT])
        .all(|&byte| byte == 0));
    let mut after = b.clone();
    assert_eq!(after.step(&event(0, HARD_OFF)), u8::from(circle.is_some()));
    let mut expected = b.counted();
    expected.desk[1] = u8::from(circle.is_some());
    expected.desk[STATES] = 2;
    if let Some((class, kind, source)) = circle {
        let number = if source == 0 {
            b.number(class.into(), class.into())
        } else {
            0
        };
        expected.slip[..8].copy_from_slice(&entries(&[(class, kind, source, number)]));
    }
    assert_eq!(after, expected);
}

#[test]
fn the_list_of_clashes() {
    for m in 0..=255 {
        assert_eq!(CLASHES[m as usize], u8::from(clash(m)), "{m}");
    }
    assert_eq!(CLASHES.iter().filter(|&&yes| yes == 1).count(), 192);
    // Those that the fit test passes.
    let fit = |m: &u8| {
        let mut b = Bench::new(1);
        b.desk[MARKS] = *m;
        b.unfit().is_none()
    };
    let fit: Vec<u8> = (0..=255).filter(fit).collect();
    assert_eq!(fit, fit_marks());
    assert_eq!(fit.len(), 144);
    assert_eq!(
        fit.iter().filter(|&&m| CLASHES[m as usize] == 1).count(),
        103
    );
}

#[test]
fn clashes_by_letters() {
    let yes = |marks: &[u8]| CLASHES[marks.iter().sum::<u8>() as usize] == 1;
    for level in [1, 16] {
        let [n, r, e, s] = [1, 2, 4, 8].map(|bit| bit * level);
        assert!(yes(&[e, n]) && yes(&[e, r]) && yes(&[e, n, r]));
        assert!(yes(&[s, n]) && yes(&[s, n, r]));
        assert!(!yes(&[s, r]));
        assert!(yes(&[e, s, n]) && yes(&[e, s, r]) && yes(&[e, s, n, r]));
        // Unsafe alone, or safe alone.
        assert!(!yes(&[]) && !yes(&[e]) && !yes(&[s]) && !yes(&[e, s]));
        assert!(!yes(&[n]) && !yes(&[r]) && !yes(&[n, r]));
    }
    // Unsafe at one level and safe at the other.
    for unsafe_ in [0, 4, 8, 12] {
        for safe in [0, 1, 2, 3] {
            assert!(!yes(&[unsafe_, 16 * safe]));
            assert!(!yes(&[16 * unsafe_, safe]));
        }
    }
    // S with R at both levels is no more than at one.
    assert!(!yes(&[8, 2, 128, 32]));
    // More marks never take a clash away.
    for m in 0..=255u8 {
        assert!(
            (0..8).all(|i| CLASHES[(m | 1 << i) as usize] >= CLASHES[m as usize]),
            "{m}"
        );
    }
}

#[test]
fn marks_of_one_class_alone() {
    for m in fit_marks() {
        for (k, class) in ENDS {
            let circle = one_arrow(class, 0, m).into_iter().next();
            assert_eq!(circle.is_some(), CLASHES[m as usize] == 1, "{m}");
            let b = made(k, &[], &[(class, m)]);
            assert_after_hard_off(&b, circle);
            assert_eq!(b.least_circle(), circle.map(|arrow| vec![arrow]));
        }
    }
    // By hand: ER before EN before SN, and in each hard before soft.
    for (m, kind, source) in [
        (4 + 2, ER, 1),
        (4 + 64 + 32, ER, 2),
        (4 + 64 + 2 + 32, ER, 1),
        (4 + 64 + 1 + 32, ER, 2), //
        (4 + 1, EN, 1),
        (4 + 64 + 16, EN, 2),
        (4 + 64 + 1 + 16, EN, 1),
        (4 + 8 + 1, EN, 1), //
        (8 + 1, SN, 1),
        (8 + 128 + 16, SN, 2),
        (8 + 128 + 2 + 16, SN, 2),
        (8 + 1 + 2, SN, 1), //
        (4 + 8 + 64 + 1 + 16, EN, 1),
        (4 + 8 + 128 + 16 + 1, EN, 1),
        (4 + 8 + 128 + 16, SN, 2),
    ] {
        assert_shows(&made(64, &[], &[(63, m)]), &[(63, kind, source)]);
    }
}

#[test]
fn hold_circles_are_no_clash() {
    // P6, P7, P8 and the marks they leave: unsafe alone.
    for (first, second, answer, shown) in [(R, R, 0, 0), (R, NR, 1, SN), (E, R, 1, ER)] {
        let mut b = Bench::new(8).clean(&[take(0, 0, first)]);
        assert_eq!(b.step(&take(0, 0, second)), answer);
        assert_eq!(CLASHES[b.desk[MARKS] as usize], 0);
        if answer == 1 {
            assert_eq!(b.slip[..8], [1, 0, shown, 0, 2, 0, 0, 0]);
        }
    }
    // Each mark byte whose answer is no, with each hold arrow of the class to itself.
    for m in fit_marks()
        .into_iter()
        .filter(|&m| CLASHES[m as usize] == 0)
    {
        for (k, class) in ENDS {
            for kind in [ER, EN, SN] {
                assert_after_hard_off(
                    &made(k, &[(class, kind, class)], &[(class, m)]),
                    Some((class as u8, kind, 0)),
                );
            }
            assert_after_hard_off(&made(k, &[(class, SR, class)], &[(class, m)]), None);
        }
    }
    // P11 is a fault by two arrows, and no class clashes.
    let mut b = Bench::new(8).clean(&[
        event(0, ENTER_HARD),
        take(0, 4, E),
        release(0, 4, E),
        event(0, EXIT_HARD), //
        event(0, HARD_OFF),
        take(0, 4, E),
        take(0, 5, E),
        release(0, 5, E),
        release(0, 4, E), //
        event(0, HARD_ON),
    ]);
    assert_eq!(b.step(&take(0, 5, E)), 1);
    assert_eq!(
        b.slip[..15],
        [2, 4, EN, 0, 7, 0, 0, 0, 5, EN, 1, 0, 0, 0, 0]
    );
    assert!(b.desk[MARKS..HOLDS]
        .iter()
        .all(|&m| CLASHES[m as usize] == 0));
}

#[test]
fn a_clash_and_a_hold_circle_at_two_classes() {
    let clashing = || {
        fit_marks()
            .into_iter()
            .filter(|&m| CLASHES[m as usize] == 1)
    };
    for m in clashing() {
        for kind in [ER, EN, SN] {
            for (k, low, high) in [(2, 0, 1), (64, 0, 63), (64, 30, 31)] {
                // The lower class, whichever kind and source stand there.
                let b = made(k, &[(low, kind, low)], &[(high, m)]);
                assert_after_hard_off(&b, Some((low as u8, kind, 0)));
                let b = made(k, &[(high, kind, high)], &[(low, m)]);
                assert_after_hard_off(&b, Some(one_arrow(low, 0, m)[0]));
                // SR to itself at the lower class is no circle.
                let b = made(k, &[(low, SR, low)], &[(high, m)]);
                assert_after_hard_off(&b, Some(one_arrow(high, 0, m)[0]));
                // One arrow at the higher class before two from the lower.
                let b = made(k, &[(low, kind, high), (high, EN, low)], &[(high, m)]);
                assert_after_hard_off(&b, Some(one_arrow(high, 0, m)[0]));
            }
        }
    }
    // Two clashes: the lower class, though its kind and source be greater.
    assert_shows(
        &made(64, &[], &[(5, 8 + 128 + 16), (6, 4 + 2)]),
        &[(5, SN, 2)],
    );
    assert_shows(&made(64, &[(0, SN, 0)], &[(63, 4 + 2)]), &[(0, SN, 0)]);
    assert_shows(
        &made(64, &[(63, ER, 63)], &[(0, 8 + 128 + 16)]),
        &[(0, SN, 2)],
    );
}

#[test]
fn a_clash_and_hold_arrows_at_one_class() {
    for m in fit_marks() {
        for kinds in 0..16 {
            for (k, class) in [(1, 0), (2, 1)] {
                let all = one_arrow(class, kinds, m);
                let b = made(k, &[(class, kinds, class)], &[(class, m)]);
                let lists: Vec<Vec<Triple>> = all.iter().map(|&arrow| vec![arrow]).collect();
                assert_eq!(b.all_circles(1), lists);
                // A clash, or a hold arrow to itself but SR.
                assert_eq!(
                    !all.is_empty(),
                    CLASHES[m as usize] == 1 || kinds & !SR != 0
                );
                assert_after_hard_off(&b, all.first().copied());
            }
        }
    }
    // By hand: the least kind, and with one kind hold before hard before soft.
    for (kinds, m, kind, source) in [
        (EN, 4 + 2, ER, 1),
        (EN, 4 + 64 + 32, ER, 2),
        (ER, 4 + 2, ER, 0),
        (EN, 4 + 1, EN, 0), //
        (SN, 4 + 1, EN, 1),
        (SN, 4 + 64 + 16, EN, 2),
        (SN, 8 + 1, SN, 0),
        (SN, 8 + 2, SN, 0), //
        (SR, 8 + 1, SN, 1),
        (SR, 8 + 128 + 16 + 2, SN, 2),
        (SR | SN, 8 + 128 + 1 + 16, SN, 0),
        (15, 255, ER, 0), //
        (14, 255, ER, 1),
        (EN | SN, 4 + 8 + 64 + 1 + 32, ER, 2),
    ] {
        for (k, class) in [(8, 0), (8, 7), (64, 63)] {
            assert_shows(
                &made(k, &[(class, kinds, class)], &[(class, m)]),
                &[(class as u8, kind, source)],
            );
        }
    }
}

#[test]
fn clashes_of_logs() {
    // Each state by the shortest way from 0.
    let ways: [&[u8]; 9] = [
        &[],
        &[SOFT_OFF],
        &[HARD_OFF],
        &[SOFT_OFF, HARD_OFF],
        &[ENTER_SOFT],
        &[ENTER_SOFT, HARD_OFF], //
        &[ENTER_HARD],
        &[SOFT_OFF, ENTER_HARD],
        &[ENTER_SOFT, ENTER_HARD],
    ];
    // Two cores take the class in all states and modes: no frame holds it twice, so all
    // arrows are interrupt arrows and a fault is a clash.
    let mut faults = 0;
    for (one, two) in (0..9).flat_map(|one| (0..9).map(move |two| (one, two))) {
        for (m1, m2) in MODES.into_iter().flat_map(|m1| MODES.map(|m2| (m1, m2))) {
            let mut b = Bench::new(1);
            for (core, state, mode) in [(0, one, m1), (1, two, m2)] {
                let mut records: Vec<Rec> =
                    ways[state].iter().map(|&kind| event(core, kind)).collect();
                records.push(take(core, 0, mode));
                for r in records {
                    let answer = b.step(&r);
                    assert_eq!(answer, CLASHES[b.desk[MARKS] as usize]);
                    assert!(answer == 0 || (core == 1 && r[3] == TAKE));
                    faults += usize::from(answer);
                }
                assert_eq!(b.desk[STATES + core as usize] as usize, state);
            }
        }
    }
    // E from 2 modes with N or R from 3 that wait, S from 4 with N from 2: 14. Hard-unsafe
    // in 3 states and hard-safe in 3, soft-unsafe in 1 and soft-safe in 2; either core first.
    assert_eq!(faults, 14 * (3 * 3 + 2) * 2);
}

// ---------------------------------------------------------------- random logs

/// A naive judge of its own: holds as lists, arrows as a list, everything drawn
/// from the records alone.
struct Naive {
    k: u8,
    state: [u8; 8],
    holds: Vec<Vec<(u8, u8)>>, // by frame: (class, mode as in the record)
    arrows: Vec<(u8, u8, u8, u32)>, // hold arrows (from, kind, to, record's number)
    marks: Vec<(u8, &'static str)>,
    accepted: u32,
    declared: u64,
    in_progress: Vec<u8>,
    since: [u32; 64],
    /// All takes but tries since none was in progress: frame, visit there, class, mode.
    takes: Vec<(usize, u64, u8, u8)>,
    visits: [u64; 24],
    /// As it should lie.
    history: Vec<u8>,
}

impl Naive {
    fn new(k: u8) -> Naive {
        Naive::declaring(k, 0)
    }
    fn declaring(k: u8, declared: u64) -> Naive {
        Naive {
            declared,
            in_progress: Vec::new(),
            since: [0; 64],
            takes: Vec::new(),
            visits: [0; 24],
            history: vec![0; 512],
            k,
            state: [0; 8],
            holds: vec![Vec::new(); 24],
            arrows: Vec::new(),
            marks: Vec::new(),
            accepted: 0,
        }
    }
    /// Whether the newest hold of the class, in the frame where the core is, was taken by
    /// the release's own mode.
    fn fits(&self, r: &Rec) -> bool {
        let at = frame(r[2], self.state[r[2] as usize]);
        let mut newest_first = self.holds[at].iter().rev();
        newest_first.find(|hold| hold.0 == r[4]) == Some(&(r[4], r[5]))
    }
    /// The record is known to be accepted.
    fn accept(&mut self, r: &Rec) {
        let (core, kind, class, mode) = (r[2], r[3], r[4], r[5]);
        let at = frame(core, self.state[core as usize]);
        self.accepted += 1;
        let accepted = self.accepted;
        let mut draw = |from: u8, kind: u8, to: u8| {
            let there = |a: &(u8, u8, u8, u32)| (a.0, a.1, a.2) == (from, kind, to);
            if !self.arrows.iter().any(there) {
                self.arrows.push((from, kind, to, accepted));
            }
        };
        match kind {
            10 => {
                for &(older, mode) in &self.holds[at] {
                    draw(older, [2, 8, 8][mode as usize % 3], class);
                }
                self.in_progress.push(class);
                self.since[class as usize] = self.takes.len() as u32;
            }
            11 => {
                let since = self.since[class as usize] as usize;
                for &(frame, visit, taken, mode) in &self.takes[since..] {
                    if (frame, visit) == (at, self.visits[at]) {
                        draw(class, [2, 2, 1][mode as usize], taken);
                    }
                }
            }
            12 => {
                self.in_progress.retain(|&other| other != class);
                if self.in_progress.is_empty() {
                    self.takes.clear();
                }
            }
            TAKE => {
                if mode < 3 && !self.in_progress.is_empty() {
                    let entry = [at as u8 + 1, class + 64 * mode];
                    let place = 2 * self.takes.len();
                    self.history[place..place + 2].copy_from_slice(&entry);
                    self.takes.push((at, self.visits[at], class, mode));
                }
                for &(older, older_mode) in self.holds[at].iter().filter(|_| mode < 3) {
                    let kind =
                        [[2, 2, 1], [8, 8, 4], [8, 8, 4]][older_mode as usize % 3][mode as usize];
                    // The first of a kind between the two is enough.
                    draw(older, kind, class);
                }
                self.holds[at].push((class, mode));
            }
            RELEASE => {
                let i = self.holds[at].iter().rposition(|h| h.0 == class).unwrap();
                assert_eq!(self.holds[at].remove(i).1, mode);
            }
            _ => {
                self.state[core as usize] = next_state(self.state[core as usize], kind).unwrap();
                if kind == 7 || kind == 9 {
                    for (i, take) in self.takes.iter().enumerate() {
                        if take.0 == at {
                            self.history[2 * i..2 * i + 2].fill(0);
                        }
                    }
                    self.visits[at] += 1;
                }
            }
        }
        let state = self.state[core as usize];
        for &(class, mode) in &self.holds[frame(core, state)] {
            let safe = ["N", "N", "R", "", "", ""][mode as usize];
            let unsafe_ = ["E", "S", "S", "E", "S", "S"][mode as usize];
            let names: Vec<&'static str> = match (state, safe, unsafe_) {
                (4, "", "E") => vec!["hard E"],
                (4, "", _) => vec!["hard S"],
                (5..=8, "", _) => vec![],
                (0, _, "E") => vec!["hard E", "soft E"],
                (0, _, _) => vec!["hard S", "soft S"],
                (1, _, "E") => vec!["hard E"],
                (1, _, _) => vec!["hard S"],
                (4, "N", "E") => vec!["soft N", "hard E"],
                (4, "N", _) => vec!["soft N", "hard S"],
                (4, _, _) => vec!["soft R", "hard S"],
                (5, "N", _) => vec!["soft N"],
                (5, _, _) => vec!["soft R"],
                (6..=8, "N", _) => vec!["hard N"],
                (6..=8, _, _) => vec!["hard R"],
                _ => vec![],
            };
            for name in names {
                note(&mut self.marks, (class, name));
            }
        }
    }
    /// The desk and both sheets as they should lie.
    fn lie(&self, closed: bool) -> [Vec<u8>; 3] {
        let mut desk = vec![self.k, closed as u8];
        desk.extend(self.state);
        desk.extend(self.holds.iter().map(|h| h.len() as u8));
        let order = [
            "hard N", "hard R", "hard E", "hard S", "soft N", "soft R", "soft E", "soft S",
        ];
        for class in 0..64 {
            let bits = (0..8).filter(|&i| self.marks.contains(&(class, order[i])));
            desk.push(bits.map(|i| 1u8 << i).sum());
        }
        for holds in &self.holds {
            let mut bytes: Vec<u8> = holds.iter().map(|&(c, m)| c + 64 * (m % 3)).collect();
            bytes.resize(48, 0);
            desk.extend(bytes);
        }
        // The origins of all 1,152 places in a row, then eight to a byte.
        let mut origins = Vec::new();
        for holds in &self.holds {
            origins.extend(holds.iter().map(|h| u8::from(h.1 >= 3)));
            origins.resize(origins.len() + 48 - holds.len(), 0);
        }
        desk.extend(
            origins
                .chunks(8)
                .map(|eight| eight.iter().rev().fold(0, |byte, bit| 2 * byte + bit)),
        );
        desk.extend(bytes_of(&[self.accepted]));
        desk.extend(self.declared.to_le_bytes());
        desk.extend(word_of(&self.in_progress).to_le_bytes());
        desk.extend(bytes_of(&[self.takes.len() as u32]));
        desk.extend(bytes_of(&self.since));
        let (mut sheet, mut seen) = (Vec::new(), Vec::new());
        for from in 0..self.k {
            for to in 0..self.k {
                let there = || self.arrows.iter().filter(|a| (a.0, a.2) == (from, to));
                sheet.push(
                    [1, 2, 4, 8]
                        .into_iter()
                        .filter(|&kind| there().any(|a| a.1 == kind))
                        .sum(),
                );
                seen.extend(there().map(|a| a.3).min().unwrap_or(0).to_le_bytes());
            }
        }
        [desk, sheet, seen]
    }
}

fn random_record(dice: &mut Dice, k: u64, modes: &[u8]) -> Rec {
    let core = dice.under(3) as u8;
    match dice.under(16) {
        0..=6 => take(
            core,
            dice.under(k) as u8,
            modes[dice.under(modes.len() as u64) as usize],
        ),
        7..=11 => release(
            core,
            dice.under(k) as u8,
            modes[dice.under(modes.len() as u64) as usize],
        ),
        12 => {
            let mut r = take(core, dice.under(k + 2) as u8, dice.under(7) as u8);
            r[dice.under(6) as usize] ^= 1 << dice.under(8);
            r
        }
        _ => event(core, 2 + dice.under(8) as u8),
    }
}

/// Half of them of kinds 10 to 12.
fn random_cross_record(dice: &mut Dice, k: u64, modes: &[u8]) -> Rec {
    if dice.under(2) == 0 {
        return random_record(dice, k, modes);
    }
    let (core, kind, class) = (dice.under(3), 10 + dice.under(3), dice.under(k));
    [0x4C, 0x4B, core as u8, kind as u8, class as u8, 0]
}

/// Two in three are takes of core 0, so that its frames get full.
fn deep_record(dice: &mut Dice, k: u64, modes: &[u8]) -> Rec {
    if dice.under(3) == 0 {
        return random_record(dice, k, modes);
    }
    let mode = modes[dice.under(modes.len() as u64) as usize];
    take(0, dice.under(k) as u8, mode)
}

#[test]
fn random_logs_byte_by_byte() {
    let mut dice = Dice(0xFEED_BEEF_0BAD_F00D);
    let mut seen = [0u64; 12];
    let (mut tries_moved, mut later_kinds, mut beside_full) = (0, 0, 0);
    for round in 0..7_000u64 {
        let k = 1 + dice.under(if round % 10 == 0 { 64 } else { 6 });
        let deep = round % 50 == 49;
        let modes: &[u8] = [
            &[E, NR, R][..],
            &[R],
            &[R, R, R, R, R, R, NR],
            &MODES,
            &[R, TRR],
            &[R, R, TE, TR, TRR],
            &[TE, TR, TRR],
        ][round as usize % 7];
        let mut b = Bench::new(k as usize);
        let mut naive = Naive::new(k as u8);
        let mut books = Books::open(k).unwrap();
        for _ in 0..if deep { 200 } else { 60 } {
            let r = if deep {
                deep_record(&mut dice, k, modes)
            } else {
                random_record(&mut dice, k, modes)
            };
            let before = b.clone();
            let answer = b.step(&r);
            seen[answer as usize] += 1;
            beside_full += u64::from(before.desk[10..34].contains(&48) && answer == 0);
            assert_eq!(books.enter(&r), answer < 2);
            if ![3, 4].contains(&answer) {
                assert_eq!(answer == 5, r[3] == RELEASE && !naive.fits(&r));
            }
            if answer > 1 {
                assert_eq!(b, before);
                continue;
            }
            naive.accept(&r);
            tries_moved += u64::from(
                r[3] == RELEASE && !b.origins().is_empty() && b.origins() != before.origins(),
            );
            let [desk, sheet, seen] = naive.lie(answer == 1);
            assert_eq!(b.desk, desk);
            assert_eq!(b.sheet, sheet);
            assert_eq!(b.seen, seen);
            assert_eq!(
                (b.count(), &b.seen),
                (books.accepted(), &bytes_of(books.numbers()))
            );
            later_kinds += (0..sheet.len())
                .filter(|&p| ![0, sheet[p]].contains(&before.sheet[p]))
                .count();
            assert_eq!(b.unfit(), None);
            if answer == 0 {
                assert_eq!(b.slip, before.slip);
            } else {
                assert_eq!(b.slip, b.shown_over(&before.slip, &listed(&b).unwrap()));
                b.refused(&r, 10);
                break;
            }
        }
    }
    assert!(tries_moved > 1000, "{tries_moved} releases moved a try");
    assert!(
        later_kinds > 1000,
        "{later_kinds} kinds came later to a pair"
    );
    assert!(
        beside_full > 500,
        "{beside_full} accepted beside a full frame"
    );
    for answer in [0, 1, 3, 4, 5, 6, 7, 8] {
        assert!(
            seen[answer] > 100,
            "answer {answer} came {} times",
            seen[answer]
        );
    }
}

#[test]
fn balance_of_holds() {
    // "For each frame and class, holds standing equal accepted takes less accepted
    // releases since opening, counted from the log." With recursive reads only, no
    // closed strong path arises, so the log can be long.
    let mut dice = Dice(0x0DDB_A11C_0FFE_E123);
    for k in [1, 3, 8, 64] {
        let mut b = Bench::new(k as usize);
        let mut balance = vec![[0i64; 64]; 24];
        // Since a release names the mode taken, also for recursive reads that waited alone,
        // and for tries alone.
        let mut by_origin = vec![[[0i64; 64]; 2]; 24];
        let mut refusals = [0u64; 12];
        for _ in 0..20_000 {
            let r = random_record(&mut dice, k, &[R, R, TRR]);
            // Only takes by recursive reads, also in records of the spoilt sort.
            if r[3] == TAKE && [E, NR, TE, TR].contains(&r[5]) {
                continue;
            }
            let at = if r[2] < 8 {
                frame(r[2], b.desk[STATES + r[2] as usize])
            } else {
                0
            };
            let answer = b.step(&r);
            assert_ne!(answer, 1);
            refusals[answer as usize] += 1;
            if answer == 0 && r[3] == TAKE {
                balance[at][r[4] as usize] += 1;
                by_origin[at][usize::from(r[5] == TRR)][r[4] as usize] += 1;
            }
            if answer == 0 && r[3] == RELEASE {
                balance[at][r[4] as usize] -= 1;
                by_origin[at][usize::from(r[5] == TRR)][r[4] as usize] -= 1;
            }
            for at in 0..24 {
                let depth = b.desk[DEPTHS + at] as usize;
                let holds = &b.desk[98 + 48 * at..98 + 48 * at + depth];
                let mut counts = [0i64; 64];
                let mut origins = [[0i64; 64]; 2];
                for (place, &hold) in holds.iter().enumerate() {
                    let origin = b.desk[1250 + 6 * at + place / 8] >> (place % 8) & 1;
                    counts[hold as usize % 64] += 1;
                    origins[usize::from(origin)][hold as usize % 64] += 1;
                }
                assert_eq!(counts, balance[at]);
                assert_eq!(origins, by_origin[at]);
            }
        }
        for answer in [0, 3, 5, 6, 7, 8] {
            assert!(refusals[answer] > 0, "K {k}, answer {answer}");
        }
    }
}

#[test]
fn other_cores_records_never_undo_a_fault() {
    // Demand 3 in small: a fault of the shorter list comes in the longer one at the
    // same record or before.
    let mut dice = Dice(0xC0DE_CAFE_1357_9BDF);
    let (mut full, mut unfitting) = (0, 0);
    for round in 0..2_000 {
        let k = 1 + dice.under(5);
        let (mut short, mut long) = (Bench::new(k as usize), Bench::new(k as usize));
        let deep = round % 40 == 0;
        for _ in 0..if deep { 250 } else { 40 } {
            let mut r = if deep {
                deep_record(&mut dice, k, &[R, TRR])
            } else {
                random_record(&mut dice, k, &[E, NR, R, R, R, TE, TR, TRR])
            };
            if read_record(&r).is_some() && dice.under(2) == 0 {
                r[2] = 5;
                long.step(&r);
                continue;
            }
            if r[2] == 5 {
                continue;
            }
            // 10 where a record put in has closed it.
            let closed = long.desk[1] == 1;
            let (answer, with_more) = (short.step(&r), long.step(&r));
            if closed {
                assert_eq!(with_more, 10);
            } else {
                assert_eq!(answer == 8, with_more == 8);
                assert_eq!(answer == 5, with_more == 5);
            }
            full += u64::from(answer == 8);
            unfitting += u64::from(answer == 5);
            assert!(short.desk[1] <= long.desk[1]);
            if long.desk[1] == 1 {
                break;
            }
        }
    }
    assert!(full > 100, "{full} met a full frame");
    assert!(unfitting > 1_000, "{unfitting} releases didn't fit");
}

// ---------------------------------------------------------------------- tries

#[test]
fn sizes() {
    assert_eq!(
        (STATES, DEPTHS, MARKS, HOLDS, ORIGINS, COUNT),
        (2, 10, 34, 98, 1250, 1394)
    );
    assert_eq!(
        (DECLARED, PROGRESS, KEPT_COUNT, SINCE, DESK),
        (1398, 1406, 1414, 1418, 1674)
    );
    assert_eq!((MOST_IN_PROGRESS, MOST_KEPT, HISTORY), (16, 256, 512));
    assert_eq!((CORES, FRAMES, DEEPEST), (8, 24, 48));
    assert_eq!(ENTRY, 7);
    assert_eq!([1, 2, 8, 64].map(sheet_len), [1, 4, 64, 4096]);
    assert_eq!([1, 2, 8, 64].map(seen_len), [4, 16, 256, 16384]);
    assert_eq!([1, 2, 8, 64].map(slip_len), [8, 15, 57, 449]);
}

#[test]
fn a_try_byte_by_byte() {
    // Core 1's task frame is frame 3, its places 144 to 191: bytes 1,268 to 1,273.
    let b = Bench::new(4).clean(&[
        take(1, 0, E),
        take(1, 1, TR),
        take(1, 2, R),
        take(1, 3, TE),
        take(1, 3, TRR),
        take(1, 3, TE),
        take(1, 3, TRR),
        take(1, 3, TE),
        take(1, 2, TR),
    ]);
    let mut sheet = vec![0; 16];
    // To the tries of 1 and 3 nothing, from the try of 1 as from a read.
    sheet[2] = ER;
    sheet[4 + 2] = SR;
    assert_eq!(b.sheet, sheet);
    // Both by the third record.
    let mut seen = vec![0; 64];
    (seen[4 * 2], seen[4 * (4 + 2)]) = (3, 3);
    assert_eq!(b.seen, seen);
    let mut desk = vec![0; 1674];
    desk[0] = 4;
    desk[1394] = 9;
    desk[10 + 3] = 9;
    desk[34..38].copy_from_slice(&[68, 136, 136, 68 + 136]);
    desk[98 + 144..98 + 153].copy_from_slice(&[
        0,
        1 + 64,
        2 + 128,
        3,
        3 + 128,
        3,
        3 + 128,
        3,
        2 + 64,
    ]);
    desk[1268] = 0b1111_1010;
    desk[1269] = 1;
    assert_eq!(b.desk, desk);
    // The oldest goes: 145 and 147 to 152 move down one, the last out of byte 1,269.
    let b = b.clean(&[release(1, 0, E)]);
    desk[10 + 3] = 8;
    desk[98 + 144..98 + 153].copy_from_slice(&[
        1 + 64,
        2 + 128,
        3,
        3 + 128,
        3,
        3 + 128,
        3,
        2 + 64,
        0,
    ]);
    desk[1268] = 0b1111_1101;
    desk[1269] = 0;
    desk[1394] = 10;
    assert_eq!((b.desk, b.sheet, b.seen), (desk, sheet, seen));
}

#[test]
fn only_arrows_to_a_try_go() {
    for older in MODES {
        for newer in MODES {
            let mut b = Bench::new(4);
            b.desk[2] = 3; // no marks
            let b = b.clean(&[take(0, 1, older), take(0, 2, newer)]);
            let kind = match (older % 3 == E, newer % 3 == R) {
                (true, true) => ER,
                (true, false) => EN,
                (false, true) => SR,
                (false, false) => SN,
            };
            let mut sheet = vec![0; 16];
            sheet[4 + 2] = if newer < 3 { kind } else { 0 };
            assert_eq!(b.sheet, sheet, "{older} then {newer}");
            let mut seen = vec![0; 64];
            seen[4 * (4 + 2)] = if newer < 3 { 2 } else { 0 };
            assert_eq!(b.seen, seen, "{older} then {newer}");
            assert_eq!(
                b.desk[98..100],
                [1 + 64 * (older % 3), 2 + 64 * (newer % 3)]
            );
            assert_eq!(
                b.desk[1250..1252],
                [u8::from(older >= 3) + 2 * u8::from(newer >= 3), 0]
            );
        }
    }
}

#[test]
fn a_try_on_a_held_class() {
    // Any hold and then a try is clean; a try and then a wait is as before.
    for older in MODES {
        for newer in [TE, TR, TRR] {
            assert_clean(&[take(0, 1, older), take(0, 1, newer)]);
        }
    }
    for (older, newer, fault) in [
        (TE, E, true),
        (TE, NR, true),
        (TE, R, true),
        (TR, E, true),
        (TR, NR, true),
        (TR, R, false),
        (TRR, E, true),
        (TRR, NR, true),
        (TRR, R, false),
    ] {
        let records = [take(0, 1, older), take(0, 1, newer)];
        if fault {
            assert_fault(&records);
        } else {
            assert_clean(&records);
        }
    }
    assert_eq!(
        program(&log(8, &[take(0, 1, TE), take(0, 1, E)])),
        "fault at record 2\n1 EN 1 hold\n"
    );
    // The lock order turned round by a try is clean, until a wait comes after it.
    assert_clean(&[take(0, 1, E), take(0, 2, E), take(1, 2, E), take(1, 1, TE)]);
    assert_fault(&[take(0, 1, E), take(0, 2, E), take(1, 2, TE), take(1, 1, E)]);
    assert_clean(&[take(0, 1, E), take(0, 2, TE), take(1, 2, E), take(1, 1, E)]);
    assert_fault(&[
        take(0, 1, E),
        take(0, 2, TE),
        take(0, 3, E),
        take(1, 3, E),
        take(1, 2, E),
    ]);
}

#[test]
fn the_newest_goes_whatever_its_origin() {
    // Modes and origins differ, so that each hold of the class is another byte or bit.
    let b = Bench::new(4).clean(&[
        take(0, 1, E),
        take(0, 1, TR),
        take(0, 2, TE),
        take(0, 1, TRR),
        take(0, 3, TE),
    ]);
    assert_eq!(
        (&b.desk[98..104], b.origins()),
        (&[1, 65, 2, 129, 3, 0][..], vec![1, 2, 3, 4])
    );
    let b = b.clean(&[release(0, 1, TRR)]);
    assert_eq!(
        (&b.desk[98..104], b.origins()),
        (&[1, 65, 2, 3, 0, 0][..], vec![1, 2, 3])
    );
    let b = b.clean(&[release(0, 1, TR)]);
    assert_eq!(
        (&b.desk[98..104], b.origins()),
        (&[1, 2, 3, 0, 0, 0][..], vec![1, 2])
    );
    let b = b.clean(&[release(0, 1, E)]);
    assert_eq!(
        (&b.desk[98..104], b.origins()),
        (&[2, 3, 0, 0, 0, 0][..], vec![0, 1])
    );
    for mode in MODES {
        b.refused(&release(0, 1, mode), 5);
    }
    // A try under a wait of the same class and mode: the wait goes, the try stays.
    let b = Bench::new(4).clean(&[take(0, 1, TRR), take(0, 1, R), release(0, 1, R)]);
    assert_eq!((&b.desk[98..100], b.origins()), (&[129, 0][..], vec![0]));
    let b = Bench::new(4).clean(&[take(0, 1, R), take(0, 1, TRR), release(0, 1, TRR)]);
    assert_eq!((&b.desk[98..100], b.origins()), (&[129, 0][..], vec![]));
}

/// The bytes of these bits, lowest first.
fn packed(bits: &[bool]) -> Vec<u8> {
    bits.chunks(8)
        .map(|eight| (0..8).map(|i| u8::from(eight[i]) << i).sum())
        .collect()
}

#[test]
fn a_release_moves_origins_within_its_frame() {
    // By hand. The task frame of core 0 (places 0 to 47, bytes 1,250 to 1,255) with tries at
    // odd places, and its neighbour, the soft frame (48 to 95, bytes 1,256 to 1,261), full of
    // tries; state 5 marks no try.
    let mut full = Bench::new(64);
    full.desk[10..12].copy_from_slice(&[48, 48]);
    for place in 0..48 {
        full.desk[98 + place] = place as u8;
        full.desk[146 + place] = place as u8;
    }
    full.desk[1250..1256].fill(0xAA);
    full.desk[1256..1262].fill(0xFF);
    full.desk[2] = 5;
    assert_eq!(full.unfit(), None);
    for released in 0..48usize {
        // In the soft frame: 48 to 94 stay tries, 95 gets 0, the task frame keeps its own.
        let b = full.clone().clean(&[release(0, released as u8, TE)]);
        assert_eq!(b.desk[1250..1256], [0xAA; 6]);
        assert_eq!(
            b.desk[1256..1263],
            [0xFF, 0xFF, 0xFF, 0xFF, 0xFF, 0x7F, 0],
            "release of {released}"
        );
        assert_eq!(b.desk[10..12], [48, 47]);
        assert_eq!(b.desk[98..146], full.desk[98..146]);
        // In the task frame: state 3, the soft frame empty.
        let mut task = full.clone();
        task.desk[2] = 3;
        task.desk[11] = 0;
        task.desk[146..194].fill(0);
        task.desk[1256..1262].fill(0);
        // The next core's task frame begins in byte 1,268, after the hard frame.
        task.desk[13] = 48;
        task.desk[1268..1274].fill(0xFF);
        let b = task
            .clone()
            .clean(&[release(0, released as u8, [E, TE][released % 2])]);
        let expected: Vec<usize> = (0..48)
            .filter(|p| p % 2 == 1 && *p != released)
            .map(|p| if p > released { p - 1 } else { p })
            .chain(144..192)
            .collect();
        assert_eq!(b.origins(), expected, "release of {released}");
        let holds: Vec<u8> = (0..48).filter(|&c| c != released as u8).collect();
        assert_eq!((&b.desk[98..145], b.desk[145]), (&holds[..], 0));
    }
    // At place 0 all 47 move over six bytes, at the byte edges some.
    for (released, bytes) in [
        (0, [0x55, 0x55, 0x55, 0x55, 0x55, 0x55]),
        (7, [0x2A, 0x55, 0x55, 0x55, 0x55, 0x55]),
        (8, [0xAA, 0x55, 0x55, 0x55, 0x55, 0x55]),
        (15, [0xAA, 0x2A, 0x55, 0x55, 0x55, 0x55]),
        (16, [0xAA, 0xAA, 0x55, 0x55, 0x55, 0x55]),
        (23, [0xAA, 0xAA, 0x2A, 0x55, 0x55, 0x55]),
        (24, [0xAA, 0xAA, 0xAA, 0x55, 0x55, 0x55]),
        (31, [0xAA, 0xAA, 0xAA, 0x2A, 0x55, 0x55]),
        (32, [0xAA, 0xAA, 0xAA, 0xAA, 0x55, 0x55]),
        (39, [0xAA, 0xAA, 0xAA, 0xAA, 0x2A, 0x55]),
        (40, [0xAA, 0xAA, 0xAA, 0xAA, 0xAA, 0x55]),
        (46, [0xAA, 0xAA, 0xAA, 0xAA, 0xAA, 0x6A]),
        (47, [0xAA, 0xAA, 0xAA, 0xAA, 0xAA, 0x2A]),
    ] {
        let mut task = full.clone();
        task.desk[2] = 3;
        task.desk[11] = 0;
        task.desk[146..194].fill(0);
        task.desk[1256..1262].fill(0);
        let b = task.clean(&[release(0, released, [E, TE][released as usize % 2])]);
        assert_eq!(b.desk[1250..1256], bytes, "release of {released}");
        assert_eq!(b.desk[1256..1394], [0; 138]);
    }
    // The hard frame of core 0 (96 to 143) next to the task frame of core 1 (144 to 191).
    let mut hard = Bench::new(64);
    hard.desk[2] = 6;
    hard.desk[12] = 48;
    hard.desk[13] = 1;
    for place in 96..144 {
        hard.desk[98 + place] = place as u8 - 96;
    }
    hard.desk[1262..1268].fill(0xFF);
    hard.desk[1268] = 1;
    let b = hard.clean(&[release(0, 0, TE)]);
    assert_eq!(b.desk[1262..1269], [0xFF, 0xFF, 0xFF, 0xFF, 0xFF, 0x7F, 1]);
}

#[test]
fn a_release_in_every_frame() {
    // Each frame with 48 holds, or some fewer, and each place of it, and all neighbours that
    // may hold something full, of tries or of none: every byte of the desk after.
    let mut dice = Dice(0x48F1_A3E5_0B17_5EED);
    for at in 0..24usize {
        for released in 0..48usize {
            for (own, others) in [(0, 1), (1, 0), (1, 1), (2, 1), (2, 0), (3, 3)] {
                let (core, state) = (at / 3, [3, 5, 8][at % 3]);
                let mut b = Bench::new(48);
                b.desk[2..10].fill(8);
                b.desk[2 + core] = state;
                let depth = match dice.under(3) {
                    0 => released + 1 + dice.under(48 - released as u64) as usize,
                    _ => 48,
                };
                let mut bits = [false; 1152];
                for frame in 0..24 {
                    // The frames above the current one are empty.
                    if frame / 3 == core && frame > at {
                        continue;
                    }
                    let depth = if frame == at { depth } else { 48 };
                    b.desk[10 + frame] = depth as u8;
                    for p in 0..depth {
                        // All 48 classes in the frame, the other way round in the others.
                        let class = if frame == at { p } else { 47 - p };
                        let mode = dice.under(3) as usize;
                        b.desk[98 + 48 * frame + p] = (class + 64 * mode) as u8;
                        bits[48 * frame + p] = match if frame == at { own } else { others } {
                            0 => false,
                            1 => true,
                            2 => p % 2 == 0,
                            _ => dice.under(2) == 0,
                        };
                    }
                }
                b.desk[1250..1394].copy_from_slice(&packed(&bits));
                assert_eq!(b.unfit(), None);
                let mut after = b.desk.clone();
                let first = 98 + 48 * at;
                let mut holds = after[first..first + 48].to_vec();
                let by_try = u8::from(bits[48 * at + released]);
                let mode = holds.remove(released) / 64 + 3 * by_try;
                holds.push(0);
                after[first..first + 48].copy_from_slice(&holds);
                let mut own_bits = bits[48 * at..48 * at + 48].to_vec();
                own_bits.remove(released);
                own_bits.push(false);
                for p in 0..depth - 1 {
                    let safe = [0, 16, 1][at % 3] << (holds[p] / 128);
                    after[34 + holds[p] as usize % 64] |= if own_bits[p] { 0 } else { safe };
                }
                bits[48 * at..48 * at + 48].copy_from_slice(&own_bits);
                after[1250..1394].copy_from_slice(&packed(&bits));
                after[10 + at] = depth as u8 - 1;
                after[1394] = 1;
                assert_eq!(b.step(&release(core as u8, released as u8, mode)), 0);
                assert_eq!(b.desk, after, "frame {at}, place {released} of {depth}");
            }
        }
    }
}

#[test]
fn every_place_has_its_bit() {
    // A try at each place of each frame sets that bit alone, its release clears it alone.
    for at in 0..24usize {
        for depth in 0..48usize {
            let (core, state) = (at / 3, [3, 5, 6][at % 3]);
            let mut b = Bench::new(2);
            b.desk[2 + core] = state;
            b.desk[10 + at] = depth as u8;
            b.desk[98 + 48 * at..98 + 48 * at + depth].fill(128);
            let place = 48 * at + depth;
            let before = b.desk.clone();
            assert_eq!(b.step(&take(core as u8, 1, TRR)), 0);
            let mut after = before.clone();
            if state > 4 && depth > 0 {
                after[34] = [32, 2][at % 3 - 1];
            }
            let gone = after.clone();
            after[10 + at] += 1;
            after[98 + place] = 129;
            after[1250 + place / 8] = 1 << (place % 8);
            after[1394] = 1;
            assert_eq!(b.desk, after);
            assert_eq!(b.step(&release(core as u8, 1, TRR)), 0);
            assert_eq!((&b.desk[..1394], b.count()), (&gone[..1394], 2));
        }
    }
}

#[test]
fn no_safe_mark_then_or_later() {
    // A try in a handler, then records of the core that mark again.
    for (enter, nothing_more) in [(ENTER_HARD, 0), (ENTER_SOFT, 4)] {
        let b = Bench::new(8).clean(&[event(0, enter), take(0, 3, TE)]);
        assert_eq!(b.desk[34 + 3], nothing_more);
        let b = b.clean(&[
            take(0, 4, R),
            release(0, 4, R),
            take(0, 5, TR),
            release(0, 5, TR),
        ]);
        assert_eq!(b.desk[34 + 3], nothing_more);
        assert_eq!(b.origins().len(), 1);
    }
    let b = Bench::new(8).clean(&[
        event(0, ENTER_SOFT),
        take(0, 3, TRR),
        event(0, HARD_OFF),
        event(0, HARD_ON),
    ]);
    assert_eq!(b.desk[34 + 3], 8);
    // The handler interrupted and come back to.
    let b = b.clean(&[
        event(0, ENTER_HARD),
        take(0, 2, TE),
        release(0, 2, TE),
        event(0, EXIT_HARD),
    ]);
    assert_eq!(b.desk[34..42], [0, 0, 0, 8, 0, 0, 0, 0]);
    // On a desk that didn't come from opening, the bit decides alone.
    let mut b = Bench::new(8);
    b.desk[2] = 6;
    b.desk[12] = 2;
    b.desk[98 + 96..98 + 98].copy_from_slice(&[6, 7]);
    b.desk[1262] = 2;
    let b = b.clean(&[take(0, 5, TE)]);
    assert_eq!(b.desk[34..42], [0, 0, 0, 0, 0, 0, 1, 0]);
    // No hard-safe mark, so no fault with a task that holds the class.
    assert_clean(&[
        take(0, 3, E),
        release(0, 3, E),
        event(0, ENTER_HARD),
        take(0, 3, TE),
        release(0, 3, TE),
    ]);
    assert_clean(&[
        take(0, 6, E),
        release(0, 6, E),
        event(0, ENTER_SOFT),
        take(0, 6, TE),
        event(0, HARD_OFF),
    ]);
}

#[test]
fn unsafe_marks_of_a_try_stay() {
    // Held over a hard on and a soft on.
    let b = Bench::new(8).clean(&[
        event(0, SOFT_OFF),
        event(0, HARD_OFF),
        take(0, 3, TE),
        take(0, 4, TR),
    ]);
    assert_eq!(b.desk[34..42], [0; 8]);
    let b = b.clean(&[event(0, HARD_ON)]);
    assert_eq!(b.desk[37..39], [4, 8]);
    let b = b.clean(&[event(0, SOFT_ON)]);
    assert_eq!(b.desk[37..39], [68, 136]);
    assert_fault(&[
        event(0, HARD_OFF),
        take(0, 3, TE),
        event(1, ENTER_HARD),
        take(1, 3, E),
        event(0, HARD_ON),
    ]);
    assert_fault(&[
        take(0, 3, TE),
        release(0, 3, TE),
        event(0, ENTER_HARD),
        take(0, 3, E),
    ]);
    assert_fault(&[
        event(0, ENTER_SOFT),
        take(0, 3, TE),
        event(1, ENTER_HARD),
        take(1, 3, R),
    ]);
    // In a soft handler with hard off no mark, with hard on hard-unsafe alone.
    let b = Bench::new(8).clean(&[event(0, ENTER_SOFT), event(0, HARD_OFF), take(0, 3, TR)]);
    assert_eq!(b.desk[37], 0);
    assert_eq!(b.clean(&[event(0, HARD_ON)]).desk[37], 8);
}

#[test]
fn marks_are_by_class_and_origin_by_hold() {
    // In a hard handler: a try and a wait of one class, in both orders, and other modes.
    for (first, second, mark) in [
        (R, TE, 2),
        (R, TRR, 2),
        (NR, TE, 1),
        (E, TRR, 1),
        (TRR, R, 2),
        (TR, R, 2),
    ] {
        let b = Bench::new(8).clean(&[event(0, ENTER_HARD), take(0, 3, first)]);
        let alone = if first < 3 { mark } else { 0 };
        assert_eq!(b.desk[37], alone);
        let b = b.clean(&[take(0, 3, second)]);
        assert_eq!(b.desk[37], mark, "{first} and {second}");
        assert_eq!(b.origins(), [if first < 3 { 97 } else { 96 }]);
    }
    // The wait is in another frame, or on another core: the try has no part in it.
    let b = Bench::new(8).clean(&[
        event(0, ENTER_SOFT),
        take(0, 3, R),
        event(0, ENTER_HARD),
        take(0, 3, TRR),
    ]);
    assert_eq!(b.desk[37], 32 + 8);
    let b = Bench::new(8).clean(&[
        event(0, HARD_OFF),
        take(0, 3, E),
        event(1, ENTER_HARD),
        take(1, 3, TE),
    ]);
    assert_eq!(b.desk[37], 0);
}

#[test]
fn tries_at_full_depth() {
    let mut records = vec![take(0, 0, TE); 48];
    let b = Bench::new(8).clean(&records);
    assert_eq!(b.desk[1250..1257], [255, 255, 255, 255, 255, 255, 0]);
    assert!(b.sheet.iter().all(|&x| x == 0));
    records.push(take(0, 0, TE));
    assert_eq!(judge(8, &records), (49, 8));
    records[48] = take(0, 0, 6);
    assert_eq!(judge(8, &records), (49, 3));
    records[48] = take(0, 8, TE);
    assert_eq!(judge(8, &records), (49, 4));
    // Exits with a try standing, releases of what a try doesn't hold here.
    assert_eq!(
        judge(
            8,
            &[event(0, ENTER_HARD), take(0, 0, TE), event(0, EXIT_HARD)]
        ),
        (3, 7)
    );
    assert_eq!(
        judge(
            8,
            &[take(0, 0, TE), event(0, ENTER_HARD), release(0, 0, TE)]
        ),
        (3, 5)
    );
    // Nor of what it holds here by another mode, or by none.
    assert_eq!(judge(8, &[take(0, 0, TE), release(0, 0, E)]), (2, 5));
    assert_eq!(judge(8, &[take(0, 0, TE), release(0, 0, TE)]), (2, 0));
    assert_eq!(judge(8, &[take(0, 0, TE), release(0, 0, 6)]), (2, 3));
    assert_eq!(
        judge(8, &[take(0, 0, TE), release(0, 0, TE), release(0, 0, TE)]),
        (3, 5)
    );
}

// ------------------------------------------------------------------- the feed

/// Buffers as they are lent, not opened yet.
fn lent(desk: usize, sheet: usize, seen: usize, slip: usize) -> Bench {
    let [desk, sheet, seen, slip] = [desk, sheet, seen, slip].map(|length| vec![0xA5; length]);
    Bench {
        desk,
        sheet,
        seen,
        history: vec![0xA5; 512],
        slip,
    }
}

/// Just enough for this K.
fn lent_for(k: usize) -> Bench {
    lent(DESK, sheet_len(k), seen_len(k), slip_len(k))
}

/// The answers but 0 that a step can give, and so a feed that is opened.
const STOPS: [u8; 15] = [1, 3, 4, 5, 6, 7, 8, 9, 10, 11, 15, 16, 17, 18, 19];
const STOPS_AND_0: [u8; 16] = [0, 1, 3, 4, 5, 6, 7, 8, 9, 10, 11, 15, 16, 17, 18, 19];

/// A feed, with four bytes past its size, and its bench.
#[derive(Clone, PartialEq, Debug)]
struct Fed {
    feed: Vec<u8>,
    b: Bench,
}

impl Fed {
    fn new(b: Bench) -> Fed {
        let mut fed = Fed {
            feed: vec![0xA5; 26],
            b,
        };
        assert_eq!(feed_start(&mut fed.feed), 0);
        fed
    }
    /// A feed that lies as told, on this bench.
    fn lying(answer: u8, opened: u8, kept: u8, loose: &[u8], number: u64, b: Bench) -> Fed {
        let mut feed = vec![answer, opened, kept];
        feed.extend(loose);
        feed.resize(14, 0);
        feed.extend(number.to_le_bytes());
        feed.extend([0xA5; 4]);
        Fed { feed, b }
    }
    fn feed(&mut self, piece: &[u8]) -> (u8, u64) {
        let mut record = 99;
        let Bench {
            desk,
            sheet,
            seen,
            history,
            slip,
        } = &mut self.b;
        let feeding = &mut self.feed;
        let answer = feed(
            feeding,
            desk,
            sheet,
            seen,
            history,
            slip,
            piece,
            &mut record,
        );
        (answer, record)
    }
    fn end(&mut self) -> (u8, u64) {
        let mut record = 99;
        let Bench {
            desk,
            sheet,
            seen,
            history,
            slip,
        } = &mut self.b;
        let feeding = &mut self.feed;
        let answer = feed_end(feeding, desk, sheet, seen, history, slip, &mut record);
        (answer, record)
    }
    /// Further pieces and end calls all give this and change nothing.
    fn stands(&self, answer: u8, number: u64) {
        let mut copy = self.clone();
        for piece in [
            &[][..],
            &[0x4C],
            &take(0, 0, E),
            &log(1, &p2_records()),
            &[0xFF; 40],
        ] {
            assert_eq!(copy.feed(piece), (answer, number));
            assert_eq!(&copy, self);
            assert_eq!(copy.end(), (answer, number));
            assert_eq!(&copy, self);
        }
    }
}

/// How a feed should lie after these bytes of a log, with what was answered last.
fn lies(log: &[u8], (answer, number): (u8, u64)) -> Vec<u8> {
    let header = if log.get(2) == Some(&2) { 12 } else { 4 };
    let loose = match (answer, log.len()) {
        (0, length) if length < header => log,
        (0, length) => &log[length - (length - header) % 6..],
        _ => &[],
    };
    let opened = log.len() >= header && answer != 2;
    let mut bytes = vec![answer, u8::from(opened), loose.len() as u8];
    bytes.extend(loose);
    bytes.resize(14, 0);
    bytes.extend((0..8).map(|i| (number >> (8 * i)) as u8));
    bytes.extend([0xA5; 4]);
    bytes
}

/// A log and what [`whole_log`] answers and leaves for its first bytes, by their
/// number: with more to come, and ended there.
struct Whole<'a> {
    b: &'a Bench,
    log: &'a [u8],
    told: Vec<Option<[((u8, u64), Bench); 2]>>,
}

impl<'a> Whole<'a> {
    fn new(b: &'a Bench, log: &'a [u8]) -> Whole<'a> {
        Whole {
            b,
            log,
            told: vec![None; log.len() + 1],
        }
    }
    fn upto(&mut self, length: usize) -> &[((u8, u64), Bench); 2] {
        let (b, log) = (self.b, self.log);
        self.told[length].get_or_insert_with(|| {
            [false, true].map(|ended| {
                let Bench {
                    mut desk,
                    mut sheet,
                    mut seen,
                    mut history,
                    mut slip,
                } = b.clone();
                let told = whole_log_kept(
                    &log[..length],
                    &mut desk,
                    &mut sheet,
                    &mut seen,
                    &mut history,
                    &mut slip,
                    ended,
                );
                (
                    told,
                    Bench {
                        desk,
                        sheet,
                        seen,
                        history,
                        slip,
                    },
                )
            })
        })
    }
    /// What all bytes give, with more to come and ended.
    fn all(&mut self) -> [(u8, u64); 2] {
        let [so_far, ended] = self.upto(self.log.len());
        [so_far.0, ended.0]
    }
    /// Feeds the log cut at these places. After each piece, answer, number and all bytes
    /// are those of the whole log so far, and so are those of an end call there.
    fn fed(&mut self, cuts: &[usize]) {
        let log = self.log;
        let mut fed = Fed::new(self.b.clone());
        let mut from = 0;
        for &to in cuts.iter().chain([&log.len()]) {
            let [so_far, ended] = self.upto(to);
            let told = fed.feed(&log[from..to]);
            assert_eq!(
                (told, &fed.b),
                (so_far.0, &so_far.1),
                "{log:?} cut at {cuts:?}"
            );
            assert_eq!(fed.feed, lies(&log[..to], told));
            let mut end = fed.clone();
            let told = end.end();
            assert_eq!(
                (told, &end.b),
                (ended.0, &ended.1),
                "{log:?} cut at {cuts:?}, ended"
            );
            assert_eq!(end.feed, lies(&log[..to], told));
            if told.0 == 0 {
                assert_eq!(end, fed);
            } else {
                end.stands(told.0, told.1);
            }
            from = to;
        }
    }
}

/// All cuts into up to four pieces, empty ones too.
fn all_cuts(b: &Bench, log: &[u8]) -> [(u8, u64); 2] {
    let mut whole = Whole::new(b, log);
    let n = log.len();
    whole.fed(&[]);
    for first in 0..=n {
        whole.fed(&[first]);
        for second in first..=n {
            whole.fed(&[first, second]);
            for third in second..=n {
                whole.fed(&[first, second, third]);
            }
        }
    }
    whole.all()
}

#[test]
fn feed_sizes() {
    assert_eq!((LOOSE, NUMBER, FEED), (11, 14, 22));
}

#[test]
fn a_fresh_feed() {
    for length in 0..40 {
        let mut buffer = vec![0xA5; length];
        if length < 22 {
            assert_eq!(feed_start(&mut buffer), 2);
            assert_eq!(buffer, vec![0xA5; length]);
        } else {
            assert_eq!(feed_start(&mut buffer), 0);
            assert_eq!(buffer[..22], [0; 22]);
            assert_eq!(buffer[22..], vec![0xA5; length - 22]);
            assert_eq!(unfit_feed(&buffer), None);
        }
    }
    // Of whatever lay there before, also of a feed that had stopped.
    let mut fed = Fed::new(lent_for(3));
    assert_eq!(fed.feed(&log(3, &p2_records())), (1, 6));
    assert_eq!(feed_start(&mut fed.feed), 0);
    assert_eq!(fed.feed, lies(&[], (0, 0)));
    assert_eq!(fed.feed(&log(3, &p2_records())), (1, 6));
}

#[test]
fn the_whole_log_by_hand() {
    let told = |b: &Bench, log: &[u8]| {
        let Bench {
            mut desk,
            mut sheet,
            mut seen,
            mut slip,
            ..
        } = b.clone();
        [false, true]
            .map(|ended| whole_log(log, &mut desk, &mut sheet, &mut seen, &mut slip, ended))
    };
    let b = lent_for(8);
    assert_eq!(told(&b, &[]), [(0, 0), (2, 0)]);
    assert_eq!(told(&b, &[0x4C, 0x48, 1]), [(0, 0), (2, 0)]);
    assert_eq!(told(&b, &[0, 0, 0]), [(0, 0), (2, 0)]);
    assert_eq!(told(&b, &[0x4C, 0x48, 1, 0]), [(2, 0); 2]);
    assert_eq!(told(&b, &[0x4C, 0x48, 1, 65, 1]), [(2, 0); 2]);
    assert_eq!(told(&b, &[0x4C, 0x48, 1, 9]), [(2, 0); 2]); // the sheet is for 8
    assert_eq!(told(&b, &log(8, &[])), [(0, 0); 2]);
    assert_eq!(told(&b, &log(8, &p2_records())), [(1, 6); 2]);
    assert_eq!(told(&b, &log(8, &p2_records()[..5])), [(0, 5); 2]);
    assert_eq!(told(&b, &log(8, &p2_records())[..39]), [(0, 5), (3, 6)]);
    assert_eq!(
        told(&b, &log(8, &[take(0, 8, E), take(0, 9, 9)])),
        [(4, 1); 2]
    );
    assert_eq!(told(&lent(DESK, 64, 255, 57), &log(8, &[])), [(2, 0); 2]);
    assert_eq!(told(&lent(DESK, 64, 256, 56), &log(8, &[])), [(0, 0); 2]);
    assert_eq!(
        told(&lent(DESK, 64, 256, 56), &log(8, &[take(0, 0, E)])),
        [(11, 1); 2]
    );
    assert_eq!(
        told(&lent(DESK, 64, 256, 56), &log(8, &[take(0, 0, E)])[..5]),
        [(0, 0), (11, 1)]
    );
}

#[test]
fn all_cuts_of_short_logs() {
    let stray = |records: &[Rec], more: &[u8]| [&log(2, records)[..], more].concat();
    for (log, told, ended) in [
        (vec![], (0, 0), (2, 0)),
        (vec![0x4C], (0, 0), (2, 0)),
        (vec![0x4B], (0, 0), (2, 0)),
        (vec![0x4C, 0x48], (0, 0), (2, 0)),
        (vec![0x4C, 0x48, 1], (0, 0), (2, 0)),
        (vec![0, 0, 0], (0, 0), (2, 0)),
        (vec![0x4D, 0x48, 1, 2, 0x4C, 0x4B], (2, 0), (2, 0)),
        (vec![0x4C, 0x4B, 1, 2, 0x4C, 0x4B], (2, 0), (2, 0)),
        (vec![0x4C, 0x48, 3, 2, 0x4C, 0x4B], (2, 0), (2, 0)),
        (log(0, &[take(0, 0, E)]), (2, 0), (2, 0)),
        (log(65, &[take(0, 0, E)]), (2, 0), (2, 0)),
        (log(3, &[take(0, 0, E)]), (2, 0), (2, 0)), // the sheet is for 2
        (log(2, &[]), (0, 0), (0, 0)),
        (log(1, &[]), (0, 0), (0, 0)),
        (log(2, &[take(0, 0, E)]), (0, 1), (0, 1)),
        (
            log(2, &[take(0, 0, E), take(0, 1, TR), release(0, 0, E)]),
            (0, 3),
            (0, 3),
        ),
        (
            stray(&[take(0, 0, E), take(0, 1, R)], &[0x4C]),
            (0, 2),
            (3, 3),
        ),
        (
            stray(&[take(0, 0, E), take(0, 1, R)], &[9, 9]),
            (0, 2),
            (3, 3),
        ),
        (stray(&[take(0, 0, E)], &[0x4C, 0x4B, 0]), (0, 1), (3, 2)),
        (stray(&[take(0, 0, E)], &[0x4C, 0x4B, 0, 9]), (0, 1), (3, 2)),
        (stray(&[], &[0x4C, 0x4B, 0, 0, 0]), (0, 0), (3, 1)),
        // A fault, and records behind it that would be accepted or refused.
        (log(2, &[take(0, 0, E), take(0, 0, E)]), (1, 2), (1, 2)),
        (
            log(2, &[take(0, 0, E), take(0, 0, E), take(1, 1, E)]),
            (1, 2),
            (1, 2),
        ),
        (
            stray(&[take(0, 0, E), take(0, 0, E)], &[0x4C, 0, 0, 0, 0, 0, 1]),
            (1, 2),
            (1, 2),
        ),
        // Refusals, and behind them a good record, a bad one, loose bytes.
        (
            stray(&[take(0, 0, E), [0x4B; 6], take(0, 1, E)], &[1, 2]),
            (3, 2),
            (3, 2),
        ),
        (
            stray(&[[0x4C, 0x4B, 8, 0, 0, 0]], &[0x4C, 0x4B]),
            (3, 1),
            (3, 1),
        ),
        (
            log(2, &[take(0, 0, E), take(0, 2, E), take(0, 1, E)]),
            (4, 2),
            (4, 2),
        ),
        (
            log(2, &[take(0, 0, E), release(0, 1, E), take(0, 1, E)]),
            (5, 2),
            (5, 2),
        ),
        (
            log(2, &[event(1, EXIT_HARD), take(0, 1, E)]),
            (6, 1),
            (6, 1),
        ),
        (
            log(
                2,
                &[event(1, ENTER_SOFT), take(1, 0, R), event(1, EXIT_SOFT)],
            ),
            (7, 3),
            (7, 3),
        ),
        // A record that is a header, a header that is a record.
        (
            stray(&[take(0, 0, E)], &[0x4C, 0x48, 1, 2, 0, 0]),
            (3, 2),
            (3, 2),
        ),
        ([&take(0, 0, E)[..], &log(2, &[])].concat(), (2, 0), (2, 0)),
    ] {
        assert_eq!(all_cuts(&lent_for(2), &log), [told, ended], "{log:?}");
    }
    // P2 with buffers longer than they must be.
    assert_eq!(
        all_cuts(
            &lent(DESK + 3, 9 + 3, 36 + 3, 22 + 3),
            &log(3, &p2_records())
        ),
        [(1, 6); 2]
    );
    // Too short ones: a desk or either sheet for opening, a slip for the first record.
    let records = log(2, &[take(0, 0, E), take(0, 1, E)]);
    for (b, answer) in [
        (lent(DESK - 1, 4, 16, 15), (2, 0)),
        (lent(642, 4, 16, 15), (2, 0)),
        (lent(638, 4, 16, 15), (2, 0)),
        (lent(0, 4, 16, 15), (2, 0)),
        (lent(DESK, 3, 16, 15), (2, 0)),
        (lent(DESK, 0, 16, 15), (2, 0)),
        (lent(DESK, 4, 15, 15), (2, 0)),
        (lent(DESK, 4, 4, 15), (2, 0)),
        (lent(DESK, 4, 0, 15), (2, 0)),
        (lent(0, 0, 0, 0), (2, 0)),
        (lent(DESK, 4, 16, 14), (11, 1)),
        (lent(DESK, 4, 16, 7), (11, 1)),
        (lent(DESK, 4, 16, 0), (11, 1)),
    ] {
        assert_eq!(all_cuts(&b, &records), [answer; 2]);
    }
}

#[test]
fn cuts_of_a_full_frame() {
    let mut records = vec![take(0, 0, R); 49];
    records.push(take(0, 0, E));
    let (b, log) = (lent_for(1), log(1, &records));
    let mut whole = Whole::new(&b, &log);
    assert_eq!(whole.all(), [(8, 49); 2]);
    for first in 0..=log.len() {
        for second in (first..=log.len()).step_by(29) {
            whole.fed(&[first, second]);
        }
    }
    // A byte a piece, and two, three.
    for size in 1..20 {
        let cuts: Vec<usize> = (0..log.len()).step_by(size).collect();
        whole.fed(&cuts);
    }
}

#[test]
fn random_logs_in_random_pieces() {
    let mut dice = Dice(0xFEED_0123_4567_89AB);
    let mut seen = [[0u64; 20]; 2];
    let mut longest = 0;
    for round in 0..4_000u64 {
        let k = 1 + dice.under(if round % 10 == 0 { 64 } else { 6 });
        let modes: &[u8] =
            [&MODES[..], &[R], &[R, R, R, NR, TRR], &[TE, TR, TRR]][round as usize % 4];
        let mut bytes = log(k as u8, &[]);
        let mut ahead = Bench::new(k as usize);
        // Some begin with a frame that is nearly full.
        let deep = round % 100 == 99;
        for _ in 0..if deep { 45 + dice.under(4) } else { 0 } {
            let r = take(0, dice.under(k) as u8, [R, TRR][dice.under(2) as usize]);
            assert_eq!(ahead.step(&r), 0);
            bytes.extend(r);
        }
        for _ in 0..dice.under(80) {
            let r = if deep {
                deep_record(&mut dice, k, &[R, TRR])
            } else {
                random_record(&mut dice, k, modes)
            };
            let mut next = ahead.clone();
            // Seldom one that gets an answer but 0, so that logs get long.
            if next.step(&r) == 0 || dice.under(20) == 0 {
                bytes.extend(r);
                ahead = next;
            }
        }
        match dice.under(8) {
            0 => bytes.truncate(dice.under(bytes.len() as u64 + 1) as usize),
            1 => bytes.extend(
                [0x4C, 0x4B, 0, 0, 0]
                    .iter()
                    .take(1 + dice.under(5) as usize),
            ),
            2 => {
                let at = dice.under(bytes.len() as u64) as usize;
                bytes[at] ^= 1 << dice.under(8);
            }
            3 => bytes = (0..dice.under(30)).map(|_| dice.next() as u8).collect(),
            _ => {}
        }
        let mut b = lent_for(k as usize);
        match dice.under(40) {
            0 => b.desk.truncate(1673),
            1 => b.sheet.truncate(b.sheet.len() - 1),
            2 => b.slip.truncate(b.slip.len() - 1),
            3 => b.seen.truncate(b.seen.len() - 1),
            _ => {}
        }
        let mut whole = Whole::new(&b, &bytes);
        let [so_far, ended] = whole.all();
        seen[0][so_far.0 as usize] += 1;
        seen[1][ended.0 as usize] += 1;
        longest = longest.max(ended.1);
        for _ in 0..5 {
            let mut cuts: Vec<usize> = (0..dice.under(12))
                .map(|_| dice.under(bytes.len() as u64 + 1) as usize)
                .collect();
            cuts.sort();
            whole.fed(&cuts);
        }
        // The program has buffers of its own, as long as they need be.
        if b == lent_for(k as usize)
            && bytes
                .get(3)
                .map_or(true, |&header_k| u64::from(header_k) <= k)
        {
            let text = program(&bytes);
            let verdict = match ended {
                (0, number) => format!("clean, {number} records\n"),
                (1, number) => format!("fault at record {number}\n"),
                (answer, number) => format!("refused {answer} at record {number}\n"),
            };
            assert!(
                text.starts_with(&verdict) && (ended.0 == 1 || text == verdict),
                "{text}{verdict}"
            );
        }
    }
    for answer in [0, 1, 2, 3, 4, 5, 6, 7, 8, 11] {
        assert!(
            seen[0][answer] > 10 && seen[1][answer] > 10,
            "answer {answer}: {seen:?}"
        );
    }
    assert!(longest > 50, "{longest} records");
}

#[test]
fn the_header_is_judged_when_complete() {
    // No buffer but the feed's own changes before the fourth byte, however wrong the first.
    for header in [
        [0x4C, 0x48, 0x01, 8],
        [0x4C, 0x48, 0x01, 1],
        [0x4C, 0x48, 0x01, 0],
        [0x4C, 0x48, 0x01, 9],
        [0x4C, 0x48, 0x01, 255],
        [0x4C, 0x48, 0x00, 8],
        [0x4C, 0x49, 0x01, 8],
        [0x00, 0x48, 0x01, 8],
        [0xFF, 0xFF, 0xFF, 0xFF],
    ] {
        let well = header == [0x4C, 0x48, 0x01, 8] || header == [0x4C, 0x48, 0x01, 1];
        let before = lent_for(8);
        let mut fed = Fed::new(before.clone());
        for i in 0..3 {
            assert_eq!(fed.feed(&header[i..i + 1]), (0, 0));
            assert_eq!(fed.feed(&[]), (0, 0));
            assert_eq!(fed.feed, lies(&header[..i + 1], (0, 0)));
            assert_eq!(fed.feed[1], 0);
            assert_eq!(fed.b, before);
        }
        if !well {
            assert_eq!(fed.feed(&header[3..]), (2, 0));
            assert_eq!(fed.feed, [vec![2], vec![0; 21], vec![0xA5; 4]].concat());
            assert_eq!(fed.b, before);
            fed.stands(2, 0);
            continue;
        }
        assert_eq!(fed.feed(&header[3..]), (0, 0));
        assert_eq!(fed.feed, [vec![0, 1], vec![0; 20], vec![0xA5; 4]].concat());
        let mut after = before.clone();
        assert_eq!(after.open(header[3].into()), 0);
        assert_eq!(fed.b, after);
    }
}

#[test]
fn records_are_judged_when_complete() {
    for record in [
        take(0, 1, E),
        take(0, 8, E),
        release(0, 1, E),
        [0; 6],
        [0xFF; 6],
    ] {
        let mut fed = Fed::new(lent_for(8));
        assert_eq!(fed.feed(&log(8, &[take(1, 0, E)])), (0, 1));
        let mut after = fed.b.clone();
        for i in 0..5 {
            assert_eq!(fed.feed(&record[i..i + 1]), (0, 1));
            assert_eq!(fed.b, after);
            assert_eq!(fed.feed[2] as usize, i + 1);
            assert_eq!(fed.feed[3..4 + i], record[..i + 1]);
        }
        let answer = after.step(&record);
        assert_eq!(fed.feed(&record[5..]), (answer, 2));
        assert_eq!(fed.b, after);
        assert_eq!(
            fed.feed,
            [&[answer, 1][..], &[0; 12], &[2], &[0; 7], &[0xA5; 4]].concat()
        );
    }
}

#[test]
fn opening_by_the_header() {
    for k in 1..=64usize {
        let header = log(k as u8, &[]);
        let mut after = lent_for(k);
        assert_eq!(after.open(k as u64), 0);
        // The slip isn't looked at.
        for slip in [0, slip_len(k) - 1, slip_len(k)] {
            let mut fed = Fed::new(lent(DESK, sheet_len(k), seen_len(k), slip));
            assert_eq!(fed.feed(&header), (0, 0));
            assert_eq!(
                (&fed.b.desk, &fed.b.sheet, &fed.b.seen),
                (&after.desk, &after.sheet, &after.seen)
            );
            assert_eq!(fed.b.slip, vec![0xA5; slip]);
            assert_eq!(fed.end(), (0, 0));
            if slip < slip_len(k) {
                let before = fed.b.clone();
                assert_eq!(fed.feed(&take(0, 0, E)), (11, 1));
                assert_eq!(fed.b, before);
                fed.stands(11, 1);
            }
        }
        for b in [
            lent(DESK - 1, sheet_len(k), seen_len(k), 0),
            lent(DESK, sheet_len(k) - 1, seen_len(k), 0),
            lent(DESK, sheet_len(k), seen_len(k) - 1, 0),
        ] {
            let mut fed = Fed::new(b.clone());
            assert_eq!(fed.feed(&header[..3]), (0, 0));
            assert_eq!(fed.feed(&[&header[3..], &take(0, 0, E)].concat()), (2, 0));
            assert_eq!(
                fed,
                Fed {
                    feed: lies(&header, (2, 0)),
                    b
                }
            );
            fed.stands(2, 0);
        }
    }
    // A desk in use, closed, unfit: opening asks only for room.
    let used = Bench::new(8).clean(&[take(0, 1, E), event(1, HARD_OFF)]);
    let (mut closed, mut unfit) = (used.clone(), used.clone());
    closed.desk[1] = 1;
    unfit.sheet.fill(255);
    unfit.seen.fill(255);
    for b in [used, closed, unfit] {
        let mut fed = Fed::new(b);
        assert_eq!(fed.feed(&log(8, &[])), (0, 0));
        let fresh = Bench::new(8);
        assert_eq!(
            (&fed.b.desk, &fed.b.sheet, &fed.b.seen),
            (&fresh.desk, &fresh.sheet, &fresh.seen)
        );
    }
}

#[test]
fn nothing_after_the_stop() {
    let mut fed = Fed::new(lent_for(3));
    // In the same piece.
    let more = [log(3, &p2_records()), log(3, &p2_records()), vec![0xFF; 3]].concat();
    assert_eq!(fed.feed(&more), (1, 6));
    assert_eq!(fed.feed, lies(&log(3, &p2_records()), (1, 6)));
    fed.stands(1, 6);
    // Whatever becomes of the bench.
    for change in [
        &(|_: &mut Bench| ()) as &dyn Fn(&mut Bench),
        &|b| b.desk.clear(),
        &|b| b.sheet.clear(),
        &|b| b.seen.clear(),
        &|b| b.slip.clear(),
        &|b| b.desk[1] = 0,
        &|b| b.desk[0] = 0,
        &|b| *b = Bench::new(64),
    ] {
        let mut changed = fed.clone();
        change(&mut changed.b);
        changed.stands(1, 6);
    }
    // Every answer that can stand.
    for answer in STOPS {
        for number in [1, 2, 256, 1 << 63, u64::MAX] {
            for b in [Bench::new(2), lent(0, 0, 0, 0), lent_for(2)] {
                Fed::lying(answer, 1, 0, &[], number, b).stands(answer, number);
            }
        }
    }
    for b in [Bench::new(2), lent(0, 0, 0, 0), lent_for(2)] {
        Fed::lying(2, 0, 0, &[], 0, b).stands(2, 0);
    }
}

#[test]
fn an_end_between_records() {
    let records = p2_records();
    let mut fed = Fed::new(lent_for(3));
    assert_eq!(fed.feed(&log(3, &[])), (0, 0));
    for (i, r) in records.iter().enumerate() {
        let before = fed.clone();
        assert_eq!(fed.end(), (0, i as u64));
        assert_eq!(fed.end(), (0, i as u64));
        assert_eq!(fed, before);
        assert_eq!(fed.feed(&r[..3]), (0, i as u64));
        assert_eq!(fed.feed(&r[3..]), (u8::from(i == 5), i as u64 + 1));
    }
    assert_eq!(fed.end(), (1, 6));
    // With no loose bytes the bench isn't looked at.
    for b in [
        lent(0, 0, 0, 0),
        lent_for(2),
        Bench {
            desk: vec![255; DESK],
            ..lent_for(2)
        },
    ] {
        let mut fed = Fed::lying(0, 1, 0, &[], 77, b);
        let before = fed.clone();
        assert_eq!(fed.end(), (0, 77));
        assert_eq!(fed, before);
    }
}

#[test]
fn an_end_in_the_header() {
    let good = log(8, &[take(0, 0, E)]);
    for start in [&good[..3], &[0, 0, 0]] {
        for length in 0..4 {
            for b in [lent_for(8), lent(0, 0, 0, 0), Bench::new(8)] {
                let mut fed = Fed::new(b.clone());
                assert_eq!(fed.feed(&start[..length]), (0, 0));
                assert_eq!(fed.end(), (2, 0));
                assert_eq!(fed.feed, [vec![2], vec![0; 21], vec![0xA5; 4]].concat());
                assert_eq!(fed.b, b);
                fed.stands(2, 0);
                assert_eq!(fed.feed(&good[length..]), (2, 0));
                assert_eq!(fed.feed(&good), (2, 0));
            }
        }
    }
}

#[test]
fn an_end_with_loose_bytes() {
    let fit = Bench::new(8).clean(&[take(0, 1, E)]);
    let changed = |change: &dyn Fn(&mut Bench)| {
        let mut b = fit.clone();
        change(&mut b);
        b
    };
    for (b, answer) in [
        (fit.clone(), 3),
        (changed(&|b| b.desk.push(7)), 3),
        (changed(&|b| b.desk[1] = 1), 10),
        (changed(&|b| b.desk[1] = 2), 11),
        (changed(&|b| b.desk[0] = 0), 11),
        (changed(&|b| b.desk.truncate(1673)), 11),
        (changed(&|b| b.sheet.truncate(63)), 11),
        (changed(&|b| b.seen.truncate(255)), 11),
        (changed(&|b| b.slip.truncate(56)), 11),
        (changed(&|b| (b.sheet[5], b.seen[20]) = (16, 1)), 11),
        (changed(&|b| b.sheet[5] = 1), 11),
        (changed(&|b| b.seen[20] = 1), 11),
        // A number above the count is fit (02 i).
        (changed(&|b| (b.sheet[5], b.seen[20]) = (1, 2)), 3),
        (changed(&|b| (b.sheet[5], b.seen[20]) = (1, 1)), 3),
        // 3 before 9.
        (changed(&|b| b.set_count(u32::MAX)), 3),
        // Closed and unfit: 11 before 10.
        (
            changed(&|b| (b.desk[1], b.sheet[5], b.seen[20]) = (1, 16, 1)),
            11,
        ),
        (changed(&|b| (b.desk[1], b.seen[255]) = (1, 1)), 11),
        (changed(&|b| (b.desk[1], b.slip) = (1, vec![])), 11),
        (lent(0, 0, 0, 0), 11),
    ] {
        for short in [[0x4C, 0x4B, 0, 0, 2], [0xFF; 5], [0u8; 5]] {
            for length in 1..=5usize {
                for number in [0, 1, 255, 1 << 40, u64::MAX - 1, u64::MAX] {
                    let mut fed = Fed::lying(0, 1, 0, &[], number, b.clone());
                    // Kept without a look at the bench.
                    assert_eq!(fed.feed(&short[..length]), (0, number));
                    assert_eq!(
                        fed.feed[2..8][..1 + length],
                        [&[length as u8], &short[..length]].concat()
                    );
                    assert_eq!(fed.b, b);
                    let named = number.saturating_add(1);
                    assert_eq!(fed.end(), (answer, named));
                    assert_eq!(fed, Fed::lying(answer, 1, 0, &[], named, b.clone()));
                    fed.stands(answer, named);
                }
            }
        }
    }
}

#[test]
fn counts_near_the_limit() {
    // From 2^64 - 4 on, one record a piece and all in one.
    let records =
        [HARD_OFF, HARD_ON, SOFT_OFF, SOFT_ON, HARD_OFF, HARD_ON].map(|kind| event(2, kind));
    let start = Fed::lying(0, 1, 0, &[], u64::MAX - 3, Bench::new(2));
    let mut fed = start.clone();
    for (i, r) in records.iter().enumerate() {
        let number = u64::MAX - [2, 1, 0, 0, 0, 0][i];
        assert_eq!(fed.feed(r), (0, number));
        assert_eq!(fed.end(), (0, number));
        assert_eq!(fed.feed[14..22], number.to_le_bytes());
    }
    let mut at_once = start.clone();
    assert_eq!(at_once.feed(&records.concat()), (0, u64::MAX));
    assert_eq!(at_once, fed);
    assert_eq!(at_once.feed(&[]), (0, u64::MAX));
    // The record that gets an answer but 0 counts too, and at the limit no more.
    for (before, named) in [
        (0, 1),
        (u64::MAX - 2, u64::MAX - 1),
        (u64::MAX - 1, u64::MAX),
        (u64::MAX, u64::MAX),
    ] {
        for (record, answer) in [
            ([0; 6], 3),
            (take(0, 2, E), 4),
            (event(0, EXIT_HARD), 6),
            (release(0, 0, E), 5),
        ] {
            let mut fed = Fed::lying(0, 1, 1, &record[..1], before, Bench::new(2));
            assert_eq!(fed.feed(&record[1..]), (answer, named));
            assert_eq!(fed, Fed::lying(answer, 1, 0, &[], named, Bench::new(2)));
            fed.stands(answer, named);
        }
    }
    // Each byte of the number has its place.
    for byte in 0..8 {
        let number = (0xFF << (8 * byte)) - 1;
        let mut fed = Fed::lying(0, 1, 0, &[], number, Bench::new(2));
        assert_eq!(fed.feed(&[]), (0, number));
        assert_eq!(fed.feed(&take(0, 0, E)), (0, number + 1));
        assert_eq!(fed.feed[14..22], (number + 1).to_le_bytes());
    }
}

#[test]
fn each_clause_of_the_unfit_feed() {
    let mut met = Vec::new();
    let mut violate = |clause: &'static str, fed: &Fed| {
        assert_eq!(unfit_feed(&fed.feed), Some(clause), "{:?}", fed.feed);
        fed.stands(11, 0);
        // A desk that is closed, unfit, short: all the same.
        for b in [
            lent(0, 0, 0, 0),
            lent_for(8),
            Bench {
                desk: [&[8, 1][..], &[0; 640]].concat(),
                ..lent_for(8)
            },
        ] {
            Fed { b, ..fed.clone() }.stands(11, 0);
        }
        if !met.contains(&clause) {
            met.push(clause);
        }
    };
    let lying = |answer, opened, kept, loose: &[u8], number| {
        Fed::lying(answer, opened, kept, loose, number, Bench::new(8))
    };
    let fit = |fed: &Fed| assert_eq!(unfit_feed(&fed.feed), None, "{:?}", fed.feed);

    for fed in [
        lying(0, 0, 0, &[], 0),
        lying(2, 0, 0, &[], 0),
        lying(0, 1, 2, &[1, 2], 5),
        lying(4, 1, 0, &[], 9),
    ] {
        fit(&fed);
        for length in 0..22 {
            violate(
                FEED_CLAUSES[0],
                &Fed {
                    feed: fed.feed[..length].to_vec(),
                    ..fed.clone()
                },
            );
        }
        for length in 22..26 {
            fit(&Fed {
                feed: fed.feed[..length].to_vec(),
                ..fed.clone()
            });
        }
        for opened in 2..=255 {
            let mut other = fed.clone();
            other.feed[1] = opened;
            violate(FEED_CLAUSES[1], &other);
        }
    }
    for kept in 0..=255 {
        let before = lying(0, 0, kept, &[], 0);
        let after = lying(0, 1, kept, &[], 7);
        if kept > 3 {
            violate(FEED_CLAUSES[2], &before);
        } else {
            fit(&before);
        }
        if kept > 5 {
            violate(FEED_CLAUSES[2], &after);
        } else {
            fit(&after);
        }
    }
    for place in 0..5u8 {
        let mut loose = [0; 5];
        for byte in [1, 0x4C, 255] {
            loose[place as usize] = byte;
            for kept in 0..=5 {
                for opened in 0..=1 {
                    let fed = lying(0, opened, kept, &loose, 0);
                    if opened == 0 && kept > 3 {
                        violate(FEED_CLAUSES[2], &fed);
                    } else if place >= kept {
                        violate(FEED_CLAUSES[3], &fed);
                    } else {
                        fit(&fed);
                    }
                }
            }
            violate(FEED_CLAUSES[3], &lying(2, 0, 0, &loose, 0));
            violate(FEED_CLAUSES[3], &lying(3, 1, 0, &loose, 1));
        }
    }
    for kept in 1..=5 {
        if kept <= 3 {
            violate(FEED_CLAUSES[4], &lying(2, 0, kept, &[], 0));
        }
        for answer in STOPS {
            violate(FEED_CLAUSES[4], &lying(answer, 1, kept, &[], 1));
        }
    }
    for answer in 0..=255 {
        let before = lying(answer, 0, 0, &[], 0);
        if answer == 0 || answer == 2 {
            fit(&before);
        } else {
            violate(FEED_CLAUSES[5], &before);
        }
        let after = lying(answer, 1, 0, &[], 1);
        if STOPS_AND_0.contains(&answer) {
            fit(&after);
        } else {
            violate(FEED_CLAUSES[7], &after);
        }
    }
    for number in (0..64).map(|bit| 1 << bit).chain([u64::MAX]) {
        violate(FEED_CLAUSES[6], &lying(0, 0, 0, &[], number));
        violate(FEED_CLAUSES[6], &lying(0, 0, 3, &[0x4C, 0x48, 1], number));
        violate(FEED_CLAUSES[6], &lying(2, 0, 0, &[], number));
        for answer in STOPS_AND_0 {
            fit(&lying(answer, 1, 0, &[], number));
        }
        fit(&lying(0, 1, 5, &[255; 5], number));
    }
    for answer in STOPS {
        violate(FEED_CLAUSES[8], &lying(answer, 1, 0, &[], 0));
    }
    fit(&lying(0, 1, 0, &[], 0));
    met.sort_by_key(|name| FEED_CLAUSES.iter().position(|clause| clause == name));
    assert_eq!(met, FEED_CLAUSES);
}

/// The fit feeds by their shapes: before the header is complete, refused there,
/// between or within records, stopped at a record.
fn fit_shape(feed: &[u8]) -> bool {
    let Some(feed) = feed.get(..22) else {
        return false;
    };
    let (answer, opened, kept) = (feed[0], feed[1], feed[2]);
    let (loose, number) = feed[3..].split_at(11);
    let zero = number.iter().all(|&x| x == 0);
    // Up to its last byte but 0 the feed has this many loose ones.
    let used = loose.iter().rposition(|&x| x != 0).map_or(0, |at| at + 1);
    let within = used <= kept as usize;
    match (answer, opened, kept) {
        (0, 0, 0..=3) => within && zero,
        (0, 0, 4..=11) => within && zero && loose[2] == 2,
        (2, 0, 0) => within && zero,
        (0, 1, 0..=5) => within,
        (1 | 3 | 4 | 5 | 6 | 7 | 8 | 9 | 10 | 11 | 15 | 16 | 17 | 18 | 19, 1, 0) => within && !zero,
        _ => false,
    }
}

#[test]
fn fit_feeds_by_their_shapes() {
    let (mut fits, mut unfits) = (0u64, 0u64);
    for answer in (0..=21).chain([255]) {
        for opened in [0, 1, 2, 255] {
            for kept in (0..=14).chain([255]) {
                for pattern in 0..40u32 {
                    for number in [0, 1, 256, u64::MAX] {
                        // One byte, two in a row or all up to one, the third 1, 2 or 3.
                        let mut loose = [0; 11];
                        let (at, how) = (pattern as usize % 11, pattern / 11);
                        match how {
                            0 => loose[at] = 2,
                            1 => loose[..=at].fill(2),
                            2 => loose[..=at].fill(0x4C),
                            _ => (loose[2], loose[at]) = (1 + at as u8, 3),
                        }
                        let b = lent(0, 0, 0, 0);
                        let fed = Fed::lying(answer, opened, kept, &loose, number, b);
                        let fit = fit_shape(&fed.feed);
                        assert_eq!(unfit_feed(&fed.feed).is_none(), fit, "{:?}", fed.feed);
                        if fit {
                            fits += 1;
                        } else {
                            unfits += 1;
                            fed.stands(11, 0);
                        }
                    }
                }
            }
        }
    }
    assert!(fits > 200 && unfits > 50_000, "{fits} fit, {unfits} unfit");
}

#[test]
fn any_bytes_at_all() {
    // Feeds and benches of any bytes: judged as they stand by the loose bytes and the piece
    // in a row, or refused.
    let mut dice = Dice(0xABCD_EF01_2345_6789);
    let mut seen = [0u64; 20];
    let mut unfits = 0;
    for _ in 0..60_000 {
        let mut b = match dice.under(4) {
            0 => {
                let [desk, sheet, seen, slip] = [1800, 30, 100, 40].map(|n| dice.under(n) as usize);
                lent(desk, sheet, seen, slip)
            }
            1 => lent_for(3),
            2 => Bench::declaring(3, &[1]),
            _ => Bench::new(3),
        };
        if dice.under(20) == 0 {
            b.history.truncate(dice.under(514) as usize);
        }
        if dice.under(3) == 0 {
            for _ in 0..1 + dice.under(3) {
                let buffer = match dice.under(9) {
                    0 => &mut b.sheet,
                    1 => &mut b.slip,
                    2 => &mut b.seen,
                    _ => &mut b.desk,
                };
                if !buffer.is_empty() {
                    let at = dice.under(buffer.len().min(40) as u64) as usize;
                    buffer[at] = dice.under(4) as u8;
                }
            }
            if dice.under(2) == 0
                && b.desk.get(0) == Some(&3)
                && b.desk.len() >= 1674
                && b.seen.len() >= 36
            {
                b.set_count([1, 2, 3, 0x0403_0201, u32::MAX - 1, u32::MAX][dice.under(6) as usize]);
                for pair in 0..9 {
                    if b.sheet[pair] != 0 || dice.under(40) == 0 {
                        b.seen[4 * pair] = dice.under(3) as u8;
                    }
                }
            }
        }
        let answer = if dice.under(3) == 0 {
            dice.under(21) as u8
        } else {
            0
        };
        let opened = u8::from(dice.under(4) != 0);
        let kept = match (answer, opened) {
            (0, 0) => dice.under(13) as u8,
            (0, _) => dice.under(7) as u8,
            _ => 0,
        };
        let stream: Vec<u8> = match dice.under(6) {
            0 => (0..dice.under(40)).map(|_| dice.next() as u8).collect(),
            4 => log_declaring(
                dice.under(5) as u8,
                1 << dice.under(4),
                &[take_cross(0, 1), take(0, 2, E), commit(0, 1), take(0, 1, E)],
            ),
            5 => (0..1 + dice.under(5))
                .flat_map(|_| random_cross_record(&mut dice, 3, &MODES))
                .collect(),
            1 => log(
                dice.under(5) as u8,
                &[take(0, 1, E), take(0, 2, E), take(0, 1, E)],
            ),
            _ => (0..1 + dice.under(5))
                .flat_map(|_| random_record(&mut dice, 3, &MODES))
                .collect(),
        };
        let kept_here = stream.len().min(usize::from(kept)).min(11);
        let loose = &stream[..kept_here];
        let number = if opened == 0 {
            0
        } else {
            dice.next() >> dice.under(64)
        };
        let mut fed = Fed::lying(answer, opened, kept_here as u8, loose, number, b);
        if dice.under(10) == 0 {
            fed.feed[dice.under(26) as usize] = dice.next() as u8;
        }
        if dice.under(20) == 0 {
            fed.feed.truncate(dice.under(26) as usize);
        }
        let piece = &stream[kept_here..];
        let before = fed.clone();
        let mut told = fed.feed(piece);
        if !fit_shape(&before.feed) {
            unfits += 1;
            assert_eq!(told, (11, 0));
            assert_eq!(fed, before);
            before.stands(11, 0);
            continue;
        }
        // What should lie there, item by item.
        let mut expected = before.clone();
        let (mut answer, mut opened) = (before.feed[0], before.feed[1]);
        let mut number = u64::from_le_bytes(before.feed[14..22].try_into().unwrap());
        let mut row = [&before.feed[3..3 + usize::from(before.feed[2])], piece].concat();
        for ended in [false, true] {
            while answer == 0 {
                let whole = match (opened, row.get(2)) {
                    (1, _) => 6,
                    (_, Some(2)) => 12,
                    _ => 4,
                };
                if row.len() < whole && !(ended && (opened == 0 || !row.is_empty())) {
                    break;
                }
                let item: Vec<u8> = row.drain(..whole.min(row.len())).collect();
                if opened == 1 {
                    number = number.checked_add(1).unwrap_or(number);
                    answer = expected.b.step(&item);
                    continue;
                }
                answer = 2;
                if item.len() == 4 && item[..3] == [0x4C, 0x48, 1] {
                    answer = expected.b.open(item[3].into());
                }
                if item.len() == 12 && item[..3] == [0x4C, 0x48, 2] {
                    let word = u64::from_le_bytes(item[4..].try_into().unwrap());
                    answer = expected.b.open_declared(item[3].into(), word);
                }
                opened = u8::from(answer == 0);
            }
            if answer != 0 {
                row.clear();
            }
            let past = before.feed[22..].to_vec();
            expected.feed = Fed::lying(
                answer,
                opened,
                row.len() as u8,
                &row,
                number,
                lent(0, 0, 0, 0),
            )
            .feed;
            expected.feed.truncate(22);
            expected.feed.extend(past);
            assert_eq!(
                (told, &fed),
                ((answer, number), &expected),
                "{before:?} {piece:?}"
            );
            assert!(fit_shape(&fed.feed));
            if !ended {
                told = fed.end();
            }
        }
        seen[usize::from(answer)] += 1;
        if answer != 0 {
            fed.stands(answer, number);
        }
    }
    assert!(unfits > 3_000, "{unfits} unfit");
    for answer in STOPS_AND_0
        .into_iter()
        .chain([2])
        .filter(|&answer| answer < 18)
    {
        assert!(seen[answer as usize] > 20, "answer {answer}: {seen:?}");
    }
}

#[test]
fn a_bench_written_meanwhile() {
    // "if nobody else writes them meanwhile"; if somebody does, the step judges the bench
    // as it stands when a record is complete, and before that it isn't looked at.
    let mut start = Fed::new(lent_for(8));
    assert_eq!(start.feed(&log(8, &[take(0, 1, E)])), (0, 1));
    for (change, answer) in [
        (&(|_: &mut Bench| ()) as &dyn Fn(&mut Bench), 0),
        (&|b| b.desk[1] = 1, 10),
        (&|b| b.desk[1] = 2, 11),
        (&|b| b.desk.truncate(1673), 11),
        (&|b| b.sheet.truncate(63), 11),
        (&|b| b.seen.truncate(255), 11),
        (&|b| b.slip.truncate(56), 11),
        (&|b| b.desk[0] = 2, 4),
        (&|b| b.sheet[2 * 8 + 1] = EN, 11),
        (&|b| b.set_number(2, 1, 1), 11),
        (&|b| (b.sheet[2 * 8 + 1], b.seen[4 * 17]) = (EN, 2), 1), // above the count
        (&|b| (b.sheet[2 * 8 + 1], b.seen[4 * 17]) = (EN, 1), 1),
        (&|b| (b.sheet[2 * 8 + 3], b.seen[4 * 19 + 3]) = (EN, 255), 0), // far above it
        (&|b| b.set_count(u32::MAX), 9),
        (&|b| b.set_count(u32::MAX - 1), 0),
        (&|b| b.set_count(0), 0),
    ] {
        let mut fed = start.clone();
        change(&mut fed.b);
        let as_changed = fed.b.clone();
        assert_eq!(fed.feed(&[]), (0, 1));
        assert_eq!(fed.end(), (0, 1));
        assert_eq!(fed.feed(&take(0, 2, E)[..5]), (0, 1));
        assert_eq!(fed.b, as_changed);
        assert_eq!(fed.feed(&take(0, 2, E)[5..]), (answer, 2));
        let mut stepped = as_changed;
        assert_eq!(stepped.step(&take(0, 2, E)), answer);
        assert_eq!(fed.b, stepped);
        if answer != 0 {
            fed.stands(answer, 2);
        }
    }
    // A second header is a record like any other.
    assert_eq!(start.feed(&log(8, &[take(0, 2, E)])), (3, 2));
}

// --------------------------------------------------------- where first seen

/// A fit bench that didn't come from opening, with this count.
fn at_count(k: usize, count: u32) -> Bench {
    let mut b = Bench::new(k);
    b.set_count(count);
    assert_eq!(b.unfit(), None);
    b
}

#[test]
fn accepted_records_are_counted_and_no_others() {
    let mut b = Bench::new(3);
    assert_eq!((b.count(), &b.desk[1394..1398]), (0, &[0, 0, 0, 0][..]));
    let mut accepted = 0;
    let mut place = 0;
    let mut next = |record: &[u8], answer: u8| {
        place += 1;
        let before = b.clone();
        assert_eq!(b.step(record), answer, "record {place}");
        if answer > 1 {
            assert_eq!(b, before);
        } else {
            accepted += 1;
        }
        assert_eq!(b.desk[1394..1398], [accepted, 0, 0, 0], "record {place}");
        (b.number(1, 2), b.number(2, 1))
    };
    assert_eq!(next(&[], 3), (0, 0));
    next(&take(0, 3, E), 4);
    next(&release(0, 1, E), 5);
    next(&event(0, EXIT_HARD), 6);
    // The first accepted has the number 1.
    assert_eq!(next(&take(0, 1, E), 0), (0, 0));
    next(&[0; 6], 3);
    next(&release(0, 2, E), 5);
    // The second, eighth in the list.
    assert_eq!(next(&take(0, 2, E), 0), (2, 0));
    // Each of the ten kinds counts, those that change nothing too, and a try.
    for kind in [
        HARD_ON, SOFT_ON, HARD_OFF, HARD_ON, SOFT_OFF, SOFT_ON, ENTER_SOFT, ENTER_HARD,
    ] {
        next(&event(1, kind), 0);
    }
    next(&take(1, 0, TRR), 0);
    next(&event(1, EXIT_HARD), 7);
    next(&release(1, 0, TRR), 0);
    next(&event(1, EXIT_HARD), 0);
    next(&event(1, EXIT_SOFT), 0);
    for _ in 0..48 {
        next(&take(2, 0, R), 0);
    }
    next(&take(2, 0, R), 8);
    assert_eq!(next(&take(3, 2, R), 0), (2, 0));
    // The record answered 1 is accepted, and has a number.
    assert_eq!(next(&take(3, 1, R), 1), (2, 64));
    // On the closed desk no more are.
    assert_eq!(next(&take(4, 1, E), 10), (2, 64));
    assert_eq!(next(&[], 10), (2, 64));
    assert_eq!(b.count(), 64);
    assert_eq!(
        b.slip[..15],
        [2, 1, EN, 0, 2, 0, 0, 0, 2, SR, 0, 64, 0, 0, 0]
    );
}

#[test]
fn numbers_of_the_logs() {
    // By hand; each log also with a refused record before every record and at the end.
    let task = |core, a, ma, b, mb| [take(core, a, ma), take(core, b, mb)];
    let p9 = vec![
        take(0, 0, E),
        take(0, 1, R),
        take(0, 2, E),
        take(1, 2, E),
        take(1, 0, E),
    ];
    let p10 = vec![
        take(0, 3, E),
        release(0, 3, E),
        event(0, ENTER_HARD),
        take(0, 3, E),
    ];
    let p11 = vec![
        event(0, ENTER_HARD),
        take(0, 4, E),
        release(0, 4, E),
        event(0, EXIT_HARD), //
        event(0, HARD_OFF),
        take(0, 4, E),
        take(0, 5, E),
        release(0, 5, E),
        release(0, 4, E), //
        event(0, HARD_ON),
        take(0, 5, E),
    ];
    let p12 = vec![
        take(0, 6, E),
        release(0, 6, E),
        event(0, ENTER_SOFT),
        take(0, 6, E),
    ];
    let none = vec![(0, 0, 0)];
    type Arrows = Vec<(u8, u8, u8, u32)>;
    let logs: [(&str, Vec<Rec>, Arrows, Vec<(usize, usize, u32)>); 9] = [
        (
            "P2",
            p2_records().to_vec(),
            vec![(1, EN, 0, 2), (2, EN, 0, 6)],
            vec![(1, 2, 2), (2, 1, 6)],
        ),
        (
            "P3",
            [task(0, 0, R, 1, E), task(1, 1, R, 0, E)].concat(),
            vec![(0, SN, 0, 2), (1, SN, 0, 4)],
            vec![(0, 1, 2), (1, 0, 4)],
        ),
        (
            "P5",
            [task(0, 0, E, 1, R), task(1, 1, E, 0, R)].concat(),
            vec![(0, ER, 0, 2), (1, ER, 0, 4)],
            vec![(0, 1, 2), (1, 0, 4)],
        ),
        (
            "P7",
            task(0, 0, R, 0, NR).to_vec(),
            vec![(0, SN, 0, 2)],
            vec![(0, 0, 2)],
        ),
        (
            "P8",
            task(0, 0, E, 0, R).to_vec(),
            vec![(0, ER, 0, 2)],
            vec![(0, 0, 2)],
        ),
        (
            "P9",
            p9,
            vec![(0, EN, 0, 3), (2, EN, 0, 5)],
            vec![(0, 1, 2), (0, 2, 3), (1, 2, 3), (2, 0, 5)],
        ),
        ("P10", p10, vec![(3, EN, 1, 0)], none.clone()),
        (
            "P11",
            p11,
            vec![(4, EN, 0, 7), (5, EN, 1, 0)],
            vec![(4, 5, 7)],
        ),
        ("P12", p12, vec![(6, EN, 2, 0)], none),
    ];
    for (name, records, arrows, numbers) in logs {
        for refused in [
            None,
            Some(vec![]),
            Some(take(7, 8, E).to_vec()),
            Some(release(7, 0, E).to_vec()),
        ] {
            let mut list: Vec<Vec<u8>> = Vec::new();
            for r in &records {
                list.extend(refused.clone());
                list.push(r.to_vec());
            }
            list.extend(refused.clone());
            let mut b = Bench::new(8);
            let answers: Vec<u8> = list
                .iter()
                .map(|r| b.step(r))
                .filter(|&answer| answer < 3)
                .collect();
            assert_eq!(
                answers,
                [vec![0; records.len() - 1], vec![1]].concat(),
                "{name}"
            );
            assert_eq!(b.count() as usize, records.len(), "{name}");
            let mut expected = vec![0; 64];
            for &(from, to, number) in &numbers {
                expected[8 * from + to] = number;
            }
            assert_eq!(b.seen, bytes_of(&expected), "{name}");
            assert_eq!(first_seen(8, &list), Some(expected), "{name}");
            let shown = entries(&arrows);
            assert_eq!(
                b.slip,
                [&shown[..], &vec![0xA5; 57 - shown.len()]].concat(),
                "{name}"
            );
        }
    }
}

#[test]
fn a_later_kind_keeps_the_number() {
    // 1 and then 2 by records 1 and 2, then by 5 and 6, in all modes: pair 1, 2 has one
    // or two kinds and the number 2, whichever came first.
    let kind = |older, newer| match (older == E, newer == R) {
        (true, true) => ER,
        (true, false) => EN,
        (false, true) => SR,
        (false, false) => SN,
    };
    let mut shown_later = 0;
    for (a, b, c, d) in (0..81).map(|i| (i % 3, i / 3 % 3, i / 9 % 3, i / 27)) {
        let mut bench = Bench::new(3).clean(&[
            take(0, 1, a),
            take(0, 2, b),
            release(0, 2, b),
            release(0, 1, a),
        ]);
        bench = bench.clean(&[
            take(0, 1, c),
            take(0, 2, d),
            release(0, 2, d),
            release(0, 1, c),
        ]);
        assert_eq!(bench.sheet[5], kind(a, b) | kind(c, d));
        let mut seen = vec![0; 36];
        seen[4 * 5] = 2;
        assert_eq!(bench.seen, seen);
        // 2 EN 1 closes it: the slip shows the least kind, with the number 2 all the same.
        let mut bench = bench.clean(&[take(1, 2, E)]);
        assert_eq!(bench.step(&take(1, 1, E)), 1);
        let least = kind(a, b).min(kind(c, d));
        assert_eq!(
            bench.slip[..15],
            entries(&[(1, least, 0, 2), (2, EN, 0, 10)])
        );
        shown_later += usize::from(least != kind(a, b));
    }
    assert!(shown_later > 20);
    // A try of one class beside it: two kinds of one pair by one record.
    let b = Bench::new(3).clean(&[take(0, 1, E), take(0, 1, TRR), take(0, 2, E)]);
    assert_eq!((b.sheet[5], b.number(1, 2)), (EN | SN, 3));
    // By another core, and in a handler.
    let b = b.clean(&[event(1, HARD_OFF), take(1, 1, NR), take(1, 2, R)]);
    assert_eq!(
        (b.sheet[5], b.number(1, 2), b.count()),
        (EN | SN | SR, 3, 6)
    );
    let b = Bench::new(3).clean(&[
        event(1, HARD_OFF),
        take(1, 1, NR),
        take(1, 2, R),
        event(0, ENTER_HARD),
    ]);
    let b = b.clean(&[take(0, 1, E), take(0, 2, R)]);
    assert_eq!((b.sheet[5], b.number(1, 2), b.count()), (SR | ER, 3, 6));
    // A number of any size that stands on a foreign desk.
    for number in [1, 0x0403_0201, 0x0403_0200, u32::MAX - 9] {
        let mut b = at_count(3, u32::MAX - 9);
        b.sheet[5] = SR;
        b.set_number(1, 2, number);
        let b = b.clean(&[take(0, 1, E), take(0, 2, E)]);
        assert_eq!(
            (b.sheet[5], b.number(1, 2), b.count()),
            (SR | EN, number, u32::MAX - 7)
        );
        let mut b = b.clean(&[take(1, 2, E)]);
        assert_eq!(b.step(&take(1, 1, E)), 1);
        assert_eq!(
            b.slip[..15],
            entries(&[(1, EN, 0, number), (2, EN, 0, u32::MAX - 5)])
        );
    }
}

#[test]
fn an_interrupt_arrow_has_no_number() {
    // 1R in a handler; in the task 0E, and 1E after hard off; the other core takes 1E
    // and 0E. Pair 0, 1 has 0 EN 1 hold and, by the handler, 0 ER 1, which is shown.
    for (enter, exit, source) in [(ENTER_HARD, EXIT_HARD, 1), (ENTER_SOFT, EXIT_SOFT, 2)] {
        let handler: Vec<Rec> = match source {
            1 => vec![
                event(0, enter),
                take(0, 1, R),
                release(0, 1, R),
                event(0, exit),
            ],
            _ => vec![
                event(0, enter),
                event(0, HARD_OFF),
                take(0, 1, R),
                release(0, 1, R),
                event(0, HARD_ON),
                event(0, exit),
            ],
        };
        let mut b = Bench::new(2)
            .clean(&handler)
            .clean(&[take(0, 0, E), event(0, HARD_OFF)]);
        b = b.clean(&[take(0, 1, E), event(1, HARD_OFF), take(1, 1, E)]);
        let drawn = handler.len() as u32 + 3;
        assert_eq!(
            (b.sheet[1], b.number(0, 1), b.count()),
            (EN, drawn, drawn + 2)
        );
        assert_eq!(b.step(&take(1, 0, E)), 1);
        assert_eq!(
            b.slip,
            entries(&[(0, ER, source, 0), (1, EN, 0, drawn + 3)])
        );
        assert_eq!(b.number(0, 1), drawn);
        assert!(b.true_circle(&b.slip));
    }
    // By hand: all four bytes are zero, whatever stood in the slip and on the sheet.
    for (marks, kind, source) in [
        ([4, 2], ER, 1),
        ([4 + 64, 32], ER, 2),
        ([4, 1], EN, 1),
        ([4 + 64, 16], EN, 2),
    ] {
        let mut b = made(
            2,
            &[(0, SN, 1), (1, EN, 0)],
            &[(0, marks[0]), (1, marks[1])],
        );
        b.set_count(u32::MAX - 1);
        b.set_number(0, 1, 0xF1F2_F3F4);
        b.set_number(1, 0, 0x0403_0201);
        for rubbish in [0, 0xA5, 0xFF] {
            let mut b = b.clone();
            b.slip.fill(rubbish);
            assert_eq!(b.step(&event(0, HARD_ON)), 1);
            assert_eq!(
                b.slip,
                [2, 0, kind, source, 0, 0, 0, 0, 1, EN, 0, 1, 2, 3, 4]
            );
        }
    }
    // The same kind by hold: then the pair's number.
    let mut b = made(2, &[(0, ER, 1), (1, EN, 0)], &[(0, 4), (1, 2)]);
    b.set_number(0, 1, 0x0102);
    b.set_number(1, 0, 0x0300);
    assert_eq!(b.step(&event(0, HARD_ON)), 1);
    assert_eq!(b.slip, [2, 0, ER, 0, 2, 1, 0, 0, 1, EN, 0, 0, 3, 0, 0]);
    // One class: a hard arrow, with a number of the pair for SN.
    let mut b = made(1, &[(0, SN, 0)], &[(0, 4 + 1)]);
    assert_eq!(b.step(&event(0, HARD_ON)), 1);
    assert_eq!(b.slip, [1, 0, EN, 1, 0, 0, 0, 0]);
}

#[test]
fn the_fault_records_own_number() {
    for count in [
        0,
        1,
        254,
        255,
        256,
        0xFFFF,
        0x0403_01FF,
        0x0403_0200,
        u32::MAX - 3,
    ] {
        // P8: of the two records the second closes it.
        let mut b = at_count(2, count);
        assert_eq!([take(5, 1, E), take(5, 1, R)].map(|r| b.step(&r)), [0, 1]);
        assert_eq!(b.slip[..8], entries(&[(1, ER, 0, count + 2)]));
        assert_eq!((b.number(1, 1), b.count()), (count + 2, count + 2));
        assert!(b.slip[8..].iter().all(|&x| x == 0xA5));
        b.refused(&event(0, HARD_ON), 10);
        // Two arrows of one record: 0 EN 1 and 2 EN 1 are new with it.
        let mut b = at_count(3, count).clean(&[take(0, 0, E)]);
        assert_eq!(b.step(&take(0, 2, TE)), 0);
        assert_eq!(b.step(&take(0, 1, E)), 0);
        assert_eq!(
            (b.number(0, 1), b.number(2, 1), b.number(0, 2)),
            (count + 3, count + 3, 0)
        );
    }
    // A record's arrows all go to one class, so one of a circle's is its own: 0 EN 2 here,
    // and not 2 EN 0; 1 EN 2 is its own too, and not shown.
    let mut b = made(3, &[(2, EN, 0)], &[]);
    b.set_count(0x8000_0000);
    b.set_number(2, 0, 0x7FFF_0001);
    let mut b = b.clean(&[take(0, 0, E), take(0, 1, TE)]);
    assert_eq!(b.step(&take(0, 2, NR)), 1);
    assert_eq!(
        b.slip[..15],
        entries(&[(0, EN, 0, 0x8000_0003), (2, EN, 0, 0x7FFF_0001)])
    );
    assert_eq!(b.number(1, 2), 0x8000_0003);
}

#[test]
fn low_byte_first() {
    let mut b = at_count(2, 0);
    b.desk[1394..1398].copy_from_slice(&[0xFF, 1, 3, 4]);
    assert_eq!(b.step(&take(0, 0, E)), 0);
    assert_eq!(b.desk[1394..1398], [0, 2, 3, 4]);
    assert_eq!(b.step(&take(0, 1, R)), 0);
    assert_eq!(b.desk[1394..1398], [1, 2, 3, 4]);
    assert_eq!(b.seen, [0, 0, 0, 0, 1, 2, 3, 4, 0, 0, 0, 0, 0, 0, 0, 0]);
    assert_eq!([take(1, 1, E), take(1, 0, E)].map(|r| b.step(&r)), [0, 1]);
    assert_eq!(b.seen, [0, 0, 0, 0, 1, 2, 3, 4, 3, 2, 3, 4, 0, 0, 0, 0]);
    assert_eq!(b.slip, [2, 0, ER, 0, 1, 2, 3, 4, 1, EN, 0, 3, 2, 3, 4]);
    // Carries.
    for (before, after) in [
        ([0, 0, 0, 0], [1, 0, 0, 0]),
        ([255, 0, 0, 0], [0, 1, 0, 0]),
        ([255, 255, 0, 0], [0, 0, 1, 0]),
        ([255, 255, 255, 0], [0, 0, 0, 1]),
        ([255, 255, 255, 127], [0, 0, 0, 128]),
        ([254, 255, 255, 255], [255, 255, 255, 255]),
        ([0, 255, 255, 255], [1, 255, 255, 255]),
    ] {
        let mut b = Bench::new(2);
        b.desk[1394..1398].copy_from_slice(&before);
        b.desk[10] = 1;
        b.desk[98] = 1;
        assert_eq!(b.step(&take(0, 0, R)), 0);
        assert_eq!(b.desk[1394..1398], after);
        assert_eq!(b.seen, [&[0; 8][..], &after, &[0; 4]].concat());
    }
}

#[test]
fn every_pair_has_its_four_bytes() {
    for k in [1, 2, 3, 8, 33, 63, 64usize] {
        let mut dice = Dice(0x5EE1_0000 + k as u64);
        for pair in 0..k * k {
            if k > 8 && pair != 0 && pair != k * k - 1 && dice.under(k as u64) > 3 {
                continue;
            }
            let (from, to) = (pair / k, pair % k);
            let count = dice.under((1 << 32) - 4) as u32;
            let b = at_count(k, count).clean(&[take(3, from as u8, R), take(3, to as u8, R)]);
            let mut seen = vec![0; 4 * k * k];
            seen[4 * pair..4 * pair + 4].copy_from_slice(&(count + 2).to_le_bytes());
            assert_eq!(b.seen, seen);
            // A try draws nothing there.
            let b = at_count(k, count).clean(&[take(3, from as u8, R), take(3, to as u8, TRR)]);
            assert_eq!(b.seen, vec![0; 4 * k * k]);
        }
    }
}

/// A bench of K = 2 with 1R held by core 0, a soft handler on core 1 and a hard one on core
/// 2, and records that it accepts: of each kind, and takes of all modes.
fn a_bench_and_what_it_accepts() -> (Bench, Vec<Rec>) {
    let b = Bench::new(2).clean(&[take(0, 1, R), event(1, ENTER_SOFT), event(2, ENTER_HARD)]);
    let mut records = vec![
        release(0, 1, R),
        event(0, HARD_ON),
        event(0, HARD_OFF),
        event(0, SOFT_ON),
        event(0, SOFT_OFF), //
        event(0, ENTER_SOFT),
        event(1, EXIT_SOFT),
        event(0, ENTER_HARD),
        event(2, EXIT_HARD),
        event(7, HARD_ON),
    ];
    for mode in MODES {
        // Draws nothing in core 3's empty frame, an arrow in core 0's.
        records.extend([take(3, 0, mode), take(0, 0, mode)]);
    }
    (b, records)
}

#[test]
fn refusal_9() {
    let (b, records) = a_bench_and_what_it_accepts();
    let kinds: std::collections::BTreeSet<u8> = records.iter().map(|r| r[3]).collect();
    assert_eq!(kinds.len(), 10);
    // Some that close the desk: 1 EN 1, or a circle that stands.
    let closing = [take(0, 1, E), take(0, 1, NR)];
    for count in [3, 0x0403_0201, u32::MAX - 2, u32::MAX - 1, u32::MAX] {
        let mut b = b.clone();
        b.set_count(count);
        let mut circle = b.clone();
        circle.sheet[0] = EN;
        circle.set_number(0, 0, count);
        for (b, records, answer) in [
            (&b, &records[..], 0),
            (&b, &closing[..], 1),
            (&circle, &records[..], 1),
        ] {
            assert_eq!(b.unfit(), None);
            for r in records {
                if count == u32::MAX {
                    b.refused(r, 9);
                    continue;
                }
                let mut after = b.clone();
                assert_eq!(after.step(r), answer, "{r:?}");
                assert_eq!(after.count(), count + 1);
                if count == u32::MAX - 1 {
                    // One more is accepted, and then none.
                    assert_eq!(after.desk[1394..1398], [255; 4]);
                    after.refused(&event(7, HARD_ON), if answer == 0 { 9 } else { 10 });
                }
            }
        }
        // The question has nothing to do with it.
        assert_eq!(b.ask(1), (0, 0, 0));
        assert_eq!(circle.ask(0), (0, 1, 1));
    }
}

#[test]
fn the_highest_number() {
    // 4,294,967,294 accepted so far: the next draws 0 ER 1 and has the highest number.
    let mut b = at_count(2, u32::MAX - 2).clean(&[take(0, 0, E), take(0, 1, R)]);
    assert_eq!(b.desk[1394..1398], [255; 4]);
    assert_eq!(b.seen, [[0; 4], [255; 4], [0; 4], [0; 4]].concat());
    assert_eq!(b.unfit(), None);
    for r in [
        release(0, 1, R),
        event(0, HARD_OFF),
        take(1, 1, TE),
        take(0, 1, R),
    ] {
        b.refused(&r, 9);
    }
    assert_eq!(b.ask(0), (0, 0b10, 1));
    // It closes the desk with its own number.
    b = at_count(1, u32::MAX - 2).clean(&[take(0, 0, E)]);
    assert_eq!(b.step(&take(0, 0, E)), 1);
    assert_eq!(b.slip, [1, 0, EN, 0, 255, 255, 255, 255]);
    b.refused(&event(0, HARD_ON), 10);
    // A number of 4,294,967,295 may stand with any count; with that count comes 9.
    let mut b = made(2, &[(0, ER, 1)], &[]);
    b.set_number(0, 1, u32::MAX);
    for (count, answer) in [(u32::MAX, 9), (u32::MAX - 1, 0), (1, 0), (0, 0)] {
        b.set_count(count);
        assert_eq!(b.ask(0), (0, 0b10, 1));
        if answer == 9 {
            b.refused(&event(0, HARD_ON), answer);
        } else {
            let mut after = b.clone();
            assert_eq!(after.step(&event(0, HARD_ON)), answer);
            assert_eq!(after, b.counted());
        }
    }
}

#[test]
fn all_other_refusals_before_9() {
    let at_the_limit = |mut b: Bench| {
        b.set_count(u32::MAX);
        assert_eq!(b.unfit(), None);
        b
    };
    let b = at_the_limit(Bench::new(8).clean(&[take(0, 0, E)]));
    b.refused(&take(0, 1, E), 9);
    b.refused(&[], 3);
    b.refused(&take(0, 1, 6), 3);
    b.refused(&[&take(0, 1, E)[..], &[0]].concat(), 3);
    b.refused(&event(8, HARD_ON), 3);
    b.refused(&take(0, 8, E), 4);
    b.refused(&release(0, 8, E), 4);
    b.refused(&release(0, 1, E), 5);
    b.refused(&release(1, 0, E), 5);
    b.refused(&release(0, 0, E), 9);
    b.refused(&event(0, EXIT_HARD), 6);
    b.refused(&event(0, EXIT_SOFT), 6);
    let soft = at_the_limit(Bench::new(8).clean(&[event(0, ENTER_SOFT), take(0, 0, E)]));
    soft.refused(&event(0, EXIT_SOFT), 7);
    soft.refused(&event(0, ENTER_SOFT), 6);
    soft.refused(&event(0, HARD_OFF), 9);
    let hard = at_the_limit(Bench::new(8).clean(&[event(0, ENTER_HARD), take(0, 0, TE)]));
    hard.refused(&event(0, EXIT_HARD), 7);
    hard.refused(&event(1, ENTER_HARD), 9);
    let full = at_the_limit(Bench::new(8).clean(&[take(0, 0, R); 48]));
    for mode in MODES {
        full.refused(&take(0, 1, mode), 8);
        full.refused(&take(1, 1, mode), 9);
    }
    full.refused(&release(0, 0, R), 9);
    let mut closed = b.clone();
    closed.desk[1] = 1;
    for r in [take(0, 1, E), event(0, HARD_ON), [0; 6], take(0, 8, E)] {
        closed.refused(&r, 10);
    }
    let mut unfit = closed.clone();
    unfit.sheet[9] = EN;
    unfit.refused(&take(0, 1, E), 11);
    unfit.desk[1] = 0;
    unfit.refused(&take(0, 1, E), 11);
    unfit.refused(&event(0, HARD_ON), 11);
    unfit.set_number(1, 1, 1);
    unfit.refused(&take(0, 1, E), 9);
}

#[test]
fn numbers_and_the_count() {
    // Fit up to the count and itself, and, since 02 i, 1 above it and all further up.
    let (mut below, mut above) = (0, 0);
    for count in [
        0,
        1,
        2,
        255,
        256,
        0xFFFF,
        0x0403_0201,
        0x0102_0304,
        0x8000_0000,
        u32::MAX - 1,
        u32::MAX,
    ] {
        let mut numbers = vec![
            1,
            count.saturating_sub(1),
            count,
            count.saturating_add(1),
            count.saturating_add(2),
            u32::MAX,
        ];
        // The same bytes the other way round, and one bit more or less.
        numbers.extend([count.swap_bytes(), 0x0403_0201, 0x0102_0304]);
        numbers.extend((0..32).flat_map(|bit| [1 << bit, count ^ 1 << bit, count | 1 << bit]));
        for (k, pair) in [
            (1, 0),
            (2, 0),
            (2, 3),
            (8, 0),
            (8, 63),
            (8, 21),
            (64, 0),
            (64, 4095),
        ] {
            for &number in numbers.iter().filter(|&&number| number > 0) {
                let mut b = at_count(k, count);
                b.sheet[pair] = SR;
                b.set_number(pair / k, pair % k, number);
                below += u64::from(number <= count);
                above += u64::from(number > count);
                assert_eq!(b.unfit(), None);
                let c = (pair / k) as u64;
                let reached = 1 << (pair % k);
                assert_eq!(b.ask(c), (0, reached, 1));
                if count == u32::MAX {
                    b.refused(&event(0, HARD_ON), 9);
                } else {
                    let after = b.counted();
                    assert_eq!(b.step(&event(0, HARD_ON)), 0);
                    assert_eq!(b, after);
                }
            }
        }
    }
    assert!(below > 1_000 && above > 1_000, "{below}, {above}");
    // With a count of 0 kinds and a number are fit together, and neither alone.
    let mut b = Bench::new(2);
    b.sheet[0] = SR;
    assert_eq!(b.unfit(), Some("kinds but number 0"));
    b.set_number(0, 0, 1);
    assert_eq!(b.unfit(), None);
    b.sheet[0] = 0;
    assert_eq!(b.unfit(), Some("number but no kinds"));
    // Two pairs with one number, more accepted than numbers: fit.
    let mut b = at_count(2, 7);
    b.sheet[..2].fill(SR);
    b.set_number(0, 0, 3);
    b.set_number(0, 1, 3);
    assert_eq!(b.unfit(), None);
}

#[test]
fn only_the_pairs_below_k_are_looked_at() {
    for k in 1..=64usize {
        let size = k * k;
        let mut b = lent(DESK + 4, size + 4, 4 * size + 16, slip_len(k) + 4);
        assert_eq!(b.open(k as u64), 0);
        // Past the pairs: kinds without a number, a number without kinds, both, a sheet byte
        // over 15; past the desk another count.
        b.sheet[size..].copy_from_slice(&[EN, 0, EN, 255]);
        b.seen[4 * size..]
            .copy_from_slice(&[0, 0, 0, 0, 1, 0, 0, 0, 255, 255, 255, 255, 1, 0, 0, 0]);
        b.desk[1674..].fill(255);
        assert_eq!(b.unfit(), None, "{k}");
        assert_eq!(b.ask(k as u64 - 1), (0, 0, 0));
        let mut after = b.counted();
        after.desk[2] = 2;
        assert_eq!(b.step(&event(0, HARD_OFF)), 0);
        assert_eq!(b, after);
        // The last pair is.
        for (kinds, number) in [(EN, 0), (0, 1), (0, 2), (16, 1)] {
            let mut b = b.clone();
            b.sheet[size - 1] = kinds;
            b.set_number(k - 1, k - 1, number);
            b.refused(&event(0, HARD_OFF), 11);
            assert_eq!(b.ask(0), (11, 0, 0));
        }
        // With the count's own number, or one above it.
        for number in [1, 2] {
            let mut b = b.clone();
            b.sheet[size - 1] = EN;
            b.set_number(k - 1, k - 1, number);
            assert_eq!(b.step(&event(0, HARD_OFF)), 1);
            assert_eq!(b.slip[..8], [1, k as u8 - 1, EN, 0, number as u8, 0, 0, 0]);
            assert!(b.slip[8..].iter().all(|&x| x == 0xA5));
        }
    }
    // K decides which they are: the sheets of 3 classes read with 2 and with 4.
    let mut b = made(3, &[(2, SR, 2)], &[]);
    b.slip.resize(100, 0xA5);
    assert_eq!(b.unfit(), None);
    b.desk[0] = 2;
    assert_eq!(b.unfit(), None);
    assert_eq!(b.ask(1), (0, 0, 0));
    b.desk[0] = 4;
    assert_eq!(b.unfit(), Some("sheet too short"));
    b.sheet.resize(16, 0);
    assert_eq!(b.unfit(), Some("second sheet too short"));
    b.seen.resize(64, 0);
    assert_eq!(b.unfit(), None);
    assert_eq!(b.ask(2), (0, 1, 1));
}

#[test]
fn lengths_of_second_sheet_and_slip() {
    for k in 1..=64usize {
        let good = Bench::new(k);
        for (seen, slip, answer, asked) in [
            (4 * k * k, 1 + 7 * k, 0, 0),
            (4 * k * k + 1, 8 + 7 * k, 0, 0),
            (4 * k * k, 7 * k, 11, 0),
            (4 * k * k, 1 + 3 * k, 11, 0),
            (4 * k * k, 0, 11, 0),
            (4 * k * k - 1, 1 + 7 * k, 11, 11),
            (4 * k * k - 4, 1 + 7 * k, 11, 11),
            (0, 1 + 7 * k, 11, 11),
        ] {
            let mut b = good.clone();
            b.seen.resize(seen, 0);
            b.slip.resize(slip, 0xA5);
            assert_eq!(b.ask(0), (asked, 0, 0));
            assert_eq!(b.ask(64), (if asked == 0 { 4 } else { 11 }, 0, 0));
            if answer == 11 {
                b.refused(&take(0, 0, E), 11);
                b.refused(&[], 11);
            } else {
                assert_eq!(b.step(&take(0, 0, E)), 0);
            }
        }
        // A ring through all classes fills the slip to its last byte.
        let mut b = good;
        for c in 0..k {
            b.sheet[c * k + (c + 1) % k] = EN;
            b.set_number(c, (c + 1) % k, 0x0403_0201);
        }
        b.set_count(0x0403_0201);
        b.slip.push(0xA5);
        assert_eq!(b.step(&event(0, HARD_ON)), 1);
        let entry = |c| [c, EN, 0, 1, 2, 3, 4];
        assert_eq!(
            b.slip,
            [
                vec![k as u8],
                (0..k as u8).flat_map(entry).collect(),
                vec![0xA5]
            ]
            .concat()
        );
    }
}

#[test]
fn bytes_past_the_circle_stay() {
    // Rings of n of 8 classes: 1 + 7n bytes are written and no more.
    for n in 1..=8usize {
        for rubbish in [0, 0xA5, 0xFF] {
            let holds: Vec<_> = (0..n).map(|c| (c, EN, (c + 1) % n)).collect();
            let mut b = made(8, &holds, &[]);
            b.slip = vec![rubbish; 70];
            assert_eq!(b.step(&event(0, HARD_ON)), 1);
            let shown: Vec<_> = (0..n)
                .map(|c| (c as u8, EN, 0, b.number(c, (c + 1) % n)))
                .collect();
            assert_eq!(
                b.slip,
                [entries(&shown), vec![rubbish; 69 - 7 * n]].concat()
            );
        }
    }
}

#[test]
fn the_order_reads_no_numbers() {
    // For each drawing: the circle, whatever numbers stand at its pairs.
    let check =
        |k: usize, holds: &[(usize, u8, usize)], marks: &[(usize, u8)], circle: &[Triple]| {
            let mut pairs: Vec<(usize, usize)> =
                holds.iter().map(|&(from, _, to)| (from, to)).collect();
            pairs.sort();
            pairs.dedup();
            for order in 0..2 * pairs.len() {
                for base in [1u32, 250, 0x00FF_FFF0, 0x0403_0201, u32::MAX - 20] {
                    let mut b = made(k, holds, marks);
                    for (i, &(from, to)) in pairs.iter().enumerate() {
                        let turned = (i + order) % pairs.len();
                        let place = if order < pairs.len() {
                            turned
                        } else {
                            pairs.len() - 1 - turned
                        };
                        b.set_number(from, to, base + place as u32);
                    }
                    b.set_count(u32::MAX - 1);
                    assert_eq!(b.unfit(), None);
                    assert_eq!(b.least_circle().as_deref(), Some(circle));
                    let slip = b.slip.clone();
                    assert_eq!(b.step(&event(0, HARD_ON)), 1);
                    assert_eq!(b.slip, b.shown_over(&slip, circle));
                }
            }
        };
    // 0 EN 1 EN 0 and 0 EN 2 EN 0: the next class decides, not the number before it.
    let two = [(0, EN, 1), (1, EN, 0), (0, EN, 2), (2, EN, 0)];
    check(3, &two, &[], &[(0, EN, 0), (1, EN, 0)]);
    // 0 EN 1 hold and 0 EN 1 hard, whose number is 0: the source decides.
    check(
        2,
        &[(0, EN, 1), (1, EN, 0)],
        &[(0, 4), (1, 1)],
        &[(0, EN, 0), (1, EN, 0)],
    );
    // 0 EN 1 and 0 EN 2 both hard, and back by hold.
    check(
        3,
        &[(1, EN, 0), (2, EN, 0)],
        &[(0, 4), (1, 1), (2, 1)],
        &[(0, EN, 1), (1, EN, 0)],
    );
    // One arrow each: the lower class. A lesser kind: the kind.
    check(3, &[(1, EN, 1), (2, ER, 2)], &[], &[(1, EN, 0)]);
    check(
        3,
        &[(0, EN, 1), (1, EN, 0), (0, ER, 2), (2, SN | EN, 0)],
        &[],
        &[(0, ER, 0), (2, EN, 0)],
    );
    // Three arrows against two: the fewest.
    let three = [(0, EN, 1), (1, EN, 2), (2, EN, 0), (2, EN, 3), (3, EN, 2)];
    check(4, &three, &[], &[(2, EN, 0), (3, EN, 0)]);
    // A diamond, where only the middle differs.
    let diamond = [(0, EN, 1), (0, EN, 2), (1, EN, 3), (2, EN, 3), (3, EN, 0)];
    check(4, &diamond, &[], &[(0, EN, 0), (1, EN, 0), (3, EN, 0)]);
}

#[test]
fn over_256_accepted_before_an_arrow() {
    // So many records first, one in three refused, and then P2's with K = 3.
    for before in [
        253u32, 254, 255, 256, 300, 511, 65_533, 65_534, 65_535, 66_051,
    ] {
        let mut list: Vec<Rec> = Vec::new();
        for i in 0..before {
            list.push(event(4, [HARD_OFF, HARD_ON][i as usize % 2]));
            if i % 2 == 0 {
                list.push(
                    [take(4, 3, E), release(4, 1, E), event(4, EXIT_SOFT)][i as usize / 2 % 3],
                );
            }
        }
        list.extend(p2_records());
        let mut b = Bench::new(3);
        let last = list.len() - 1;
        for (i, r) in list.iter().enumerate() {
            assert_eq!(b.step(r) == 1, i == last);
        }
        assert_eq!(b.count(), before + 6);
        let mut numbers = vec![0; 9];
        (numbers[5], numbers[7]) = (before + 2, before + 6);
        assert_eq!(b.seen, bytes_of(&numbers));
        assert_eq!(
            b.slip[..15],
            entries(&[(1, EN, 0, before + 2), (2, EN, 0, before + 6)])
        );
        assert_eq!(first_seen(3, &list), Some(numbers));
        // By feed and program the same, without those that are refused; no number printed.
        let accepted: Vec<Rec> = (0..before)
            .map(|i| event(4, [HARD_OFF, HARD_ON][i as usize % 2]))
            .chain(p2_records())
            .collect();
        let bytes = log(3, &accepted);
        let mut fed = Fed::new(lent_for(3));
        for piece in bytes.chunks(1000) {
            fed.feed(piece);
        }
        assert_eq!(fed.end(), (1, before as u64 + 6));
        assert_eq!(fed.b, b);
        let text = format!("fault at record {}\n1 EN 2 hold\n2 EN 1 hold\n", before + 6);
        assert_eq!(program(&bytes), text);
    }
    // By hand for 300: 302 is 46 and 256, 306 is 50 and 256.
    let b = Bench::new(3)
        .clean(&[event(0, HARD_ON); 300])
        .clean(&p2_records()[..5]);
    assert_eq!(
        (b.seen[20..24].to_vec(), b.count()),
        (vec![46, 1, 0, 0], 305)
    );
}

#[test]
fn what_writes_the_second_sheet() {
    // Any fit desk, any record: where a pair gets its first kind the number is the
    // count after, and nothing else there changes.
    let mut dice = Dice(0x5EC0_2D5A_EE70_0001);
    let mut seen = [0u64; 12];
    let (mut first, mut later) = (0, 0);
    for round in 0..40_000u64 {
        let k = 1 + dice.under(5) as usize;
        let mut b = Bench::new(k);
        for pair in 0..k * k {
            if dice.under(3) == 0 {
                b.sheet[pair] = [SR, SR, SR, ER, SN, EN][dice.under(6 - round % 3) as usize];
            }
        }
        // Core 0 in any state, with holds in its current frame.
        let state = dice.under(9) as u8;
        b.desk[STATES] = state;
        let here = frame(0, state);
        let depth = match dice.under(20) {
            0 => 44 + dice.under(5) as usize,
            1 => dice.under(49) as usize,
            _ => dice.under(5) as usize,
        };
        b.desk[DEPTHS + here] = depth as u8;
        for place in 0..depth {
            b.desk[98 + 48 * here + place] = (dice.under(k as u64) + 64 * dice.under(3)) as u8;
        }
        b.settle();
        let highest = b.count();
        b.set_count(match dice.under(6) {
            0 => highest,
            1 => u32::MAX,
            2 => u32::MAX - 1,
            3 => highest.max(0x0403_0200),
            // Below the numbers, too.
            4 => dice.under(300) as u32,
            _ => highest + dice.under(1 << 20) as u32,
        });
        assert_eq!(b.unfit(), None);
        let mut r = random_record(&mut dice, k as u64, &MODES);
        r[2] = if dice.under(4) > 0 { 0 } else { r[2] };
        let before = b.clone();
        let answer = b.step(&r);
        seen[answer as usize] += 1;
        if answer > 1 {
            assert_eq!(b, before);
            if answer == 9 {
                // With one less it is accepted.
                let mut b = before.clone();
                b.set_count(u32::MAX - 1);
                assert!(b.step(&r) < 2);
            } else {
                // With the highest count it is refused as before.
                let mut b = before.clone();
                b.set_count(u32::MAX);
                b.refused(&r, answer);
            }
            continue;
        }
        assert_eq!(b.count(), before.count() + 1);
        for pair in 0..k * k {
            let (from, to) = (pair / k, pair % k);
            let new = before.sheet[pair] == 0 && b.sheet[pair] != 0;
            let expected = if new {
                b.count()
            } else {
                before.number(from, to)
            };
            assert_eq!(b.number(from, to), expected);
            first += u64::from(new);
            later += u64::from(!new && b.sheet[pair] != before.sheet[pair]);
        }
        assert_eq!(b.unfit(), None);
        assert_eq!(b.slip, b.shown_or_not(&before.slip, &listed(&b)));
    }
    assert!(
        first > 2_000 && later > 500,
        "{first} first, {later} later kinds"
    );
    for answer in [0, 1, 3, 4, 5, 6, 7, 8, 9] {
        assert!(seen[answer] > 20, "answer {answer}: {seen:?}");
    }
}

#[test]
fn the_feed_and_refusal_9() {
    // 9 is the answer of a record like any other: it stands, with its record's number.
    let records = [
        take(0, 0, E),
        take(0, 1, E),
        take(0, 2, TE),
        event(1, HARD_OFF),
    ];
    for room in 0..4u32 {
        let bench = at_count(8, u32::MAX - room);
        for cut in 0..=24 {
            let mut fed = Fed::lying(0, 1, 0, &[], 700, bench.clone());
            let bytes = records.concat();
            let told = [fed.feed(&bytes[..cut]), fed.feed(&bytes[cut..])];
            let stop = (9, 701 + u64::from(room));
            let first = if cut as u32 / 6 > room {
                stop
            } else {
                (0, 700 + cut as u64 / 6)
            };
            assert_eq!(told, [first, stop]);
            let after = bench.clone().clean(&records[..room as usize]);
            assert_eq!(fed, Fed::lying(9, 1, 0, &[], stop.1, after));
            fed.stands(9, stop.1);
        }
        // Short last records are a 3.
        let mut fed = Fed::lying(
            0,
            1,
            0,
            &[],
            700,
            bench.clone().clean(&records[..room as usize]),
        );
        assert_eq!(fed.feed(&records[3][..5]), (0, 700));
        assert_eq!(fed.end(), (3, 701));
    }
    // At the limit, what is refused otherwise is refused so.
    for (r, answer) in [
        (take(0, 8, E), 4),
        (release(0, 0, E), 5),
        (event(0, EXIT_HARD), 6),
        ([0; 6], 3),
    ] {
        let mut fed = Fed::lying(0, 1, 0, &[], 0, at_count(8, u32::MAX));
        assert_eq!(fed.feed(&r), (answer, 1));
    }
}

#[test]
fn numbers_may_differ_with_other_cores_records() {
    // Demand 3 "reads answers, kinds and marks, not the numbers": records of another core
    // put in leave the answers, and raise the numbers.
    let short = p2_records();
    let put_in = [
        event(7, HARD_OFF),
        take(7, 0, E),
        event(7, EXIT_HARD),
        release(7, 0, E),
    ];
    let (mut a, mut b) = (Bench::new(3), Bench::new(3));
    for r in short {
        let answers = put_in.map(|other| b.step(&other));
        assert!(answers == [0, 0, 6, 0]);
        assert_eq!(a.step(&r), b.step(&r));
    }
    assert_eq!((&a.sheet, &a.desk[35..37]), (&b.sheet, &b.desk[35..37]));
    assert_eq!(a.slip[..15], entries(&[(1, EN, 0, 2), (2, EN, 0, 6)]));
    assert_eq!(b.slip[..15], entries(&[(1, EN, 0, 8), (2, EN, 0, 24)]));
}

#[test]
fn first_seen_by_the_records_alone() {
    for k in [0, 65, 256, u64::MAX] {
        assert_eq!(first_seen(k, &p2_records()), None);
        assert!(Books::open(k).is_none());
    }
    let none: [Rec; 0] = [];
    assert_eq!(first_seen(2, &none), Some(vec![0; 4]));
    assert_eq!(first_seen(64, &none).unwrap().len(), 4096);
    // By hand, with refused records of all sorts, and after the fault nothing more.
    let list: Vec<Vec<u8>> = vec![
        vec![],
        take(0, 0, E).to_vec(),
        vec![0; 7],
        take(0, 2, E).to_vec(), // class K
        take(0, 1, R).to_vec(),
        event(0, EXIT_SOFT).to_vec(),
        release(0, 1, R).to_vec(),
        release(0, 1, R).to_vec(),
        take(0, 1, E).to_vec(), // pair 0, 1 has its number
        take(1, 1, E).to_vec(),
        take(1, 0, TE).to_vec(), // a try
        release(1, 0, TE).to_vec(),
        take(1, 0, E).to_vec(), // the fault
        take(2, 0, E).to_vec(),
        take(2, 0, E).to_vec(),
    ];
    assert_eq!(first_seen(2, &list), Some(vec![0, 2, 8, 0]));
    let mut books = Books::open(2).unwrap();
    let entered: Vec<u8> = list.iter().map(|r| u8::from(books.enter(r))).collect();
    assert_eq!(entered, [0, 1, 0, 0, 1, 0, 1, 0, 1, 1, 1, 1, 1, 0, 0]);
    assert_eq!((books.accepted(), books.numbers()), (8, &[0, 2, 8, 0][..]));
    // P10 and P12: no hold arrow, but a fault after which nothing is drawn.
    let p10 = [
        take(0, 3, E),
        release(0, 3, E),
        event(0, ENTER_HARD),
        take(0, 3, E),
        take(0, 4, E),
    ];
    assert_eq!(first_seen(8, &p10), Some(vec![0; 64]));
    let p12 = [
        take(0, 6, E),
        release(0, 6, E),
        event(0, ENTER_SOFT),
        take(0, 6, E),
        take(0, 4, E),
    ];
    assert_eq!(first_seen(8, &p12), Some(vec![0; 64]));
    // P6 is clean: the third record counts, and the pair 0, 1 has it.
    let p6 = [take(0, 0, R), take(0, 0, R), take(0, 1, E)];
    assert_eq!(first_seen(2, &p6), Some(vec![2, 3, 0, 0]));
    // A closed strong path that passes a class twice is found too: 0 ER 1, 1 SN 0 alone is
    // clean, and with 1 ER 2 and 2 SN 1 still; with 2 EN 1 it isn't.
    let twice = |mode| {
        vec![
            take(0, 0, E),
            take(0, 1, R),
            release(0, 1, R),
            release(0, 0, E), //
            take(0, 1, R),
            take(0, 0, E),
            release(0, 0, E),
            release(0, 1, R), //
            take(0, 1, E),
            take(0, 2, R),
            release(0, 2, R),
            release(0, 1, E), //
            take(0, 2, mode),
            take(0, 1, E),
            release(0, 1, E),
            take(0, 0, E),
        ]
    };
    assert_eq!(
        first_seen(3, &twice(R)),
        Some(vec![0, 2, 0, 6, 0, 10, 16, 14, 0])
    );
    assert_eq!(
        first_seen(3, &twice(E)),
        Some(vec![0, 2, 0, 6, 0, 10, 0, 14, 0])
    );
}

#[test]
fn first_seen_against_the_step() {
    // Lists of any records, any length, at all K, past refusals and past the fault.
    let mut dice = Dice(0xF125_75EE_4BAD_5EED);
    let (mut faults, mut numbers, mut full) = (0, 0, 0);
    for round in 0..2_500u64 {
        let deep = round % 24 == 23;
        let k = if round % 5 == 0 {
            40 + dice.under(25)
        } else {
            1 + dice.under(7)
        };
        let modes: &[u8] = [
            &MODES[..],
            &[R, R, R, NR, TRR],
            &[R, R, R, R, R, R, E],
            &[E, TE, R],
            &[R, TRR],
        ][round as usize / 5 % 5];
        let mut b = Bench::new(k as usize);
        let mut books = Books::open(k).unwrap();
        let mut list: Vec<Vec<u8>> = Vec::new();
        for _ in 0..20 + dice.under(150) + if deep { 80 } else { 0 } {
            let mut r = if deep {
                deep_record(&mut dice, k, modes).to_vec()
            } else {
                random_record(&mut dice, k, modes).to_vec()
            };
            match dice.under(60) {
                0 => r.truncate(dice.under(6) as usize),
                1 => r.push(0),
                _ => {}
            }
            let answer = b.step(&r);
            assert_eq!(books.enter(&r), answer < 2, "{list:?} {r:?}");
            assert_eq!(books.accepted(), b.count());
            faults += u64::from(answer == 1);
            full += u64::from(answer == 8);
            list.push(r);
        }
        assert_eq!(b.seen, bytes_of(books.numbers()));
        assert_eq!(first_seen(k, &list).as_deref(), Some(books.numbers()));
        numbers += books.numbers().iter().filter(|&&number| number > 0).count();
    }
    assert!(
        faults > 500 && numbers > 10_000 && full > 500,
        "{faults} faults, {numbers} numbers, {full} full"
    );
}

// ------------------------------------------------------- the balance of a piece

/// 64 balances, 0 but for these.
fn balances(these: &[(usize, i32)]) -> [i32; 64] {
    let mut all = [0; 64];
    for &(class, balance) in these {
        all[class] += balance;
    }
    all
}

/// What the small program writes of a piece.
fn balance_text(piece: &[u8]) -> String {
    let mut out = Vec::new();
    run_balance(&mut &piece[..], &mut out).unwrap();
    String::from_utf8(out).unwrap()
}

/// Lines for these, in the order in which they are given.
fn lines(these: &[(usize, i32)]) -> String {
    these.iter().map(|(c, b)| format!("{c} {b}\n")).collect()
}

/// Not refused; these balances, the lowest class first and none 0, and no others.
fn assert_balance(piece: &[u8], these: &[(usize, i32)]) {
    assert_eq!(balance(piece), (0, balances(these)));
    assert_eq!(balance_text(piece), lines(these));
}

fn assert_14(piece: &[u8]) {
    assert_eq!(balance(piece), (14, [0; 64]), "{} bytes", piece.len());
    assert_eq!(balance_text(piece), "refused 14\n", "{}", piece.len());
}

/// The first bytes of a piece that is this list over and over.
fn over_and_over(list: &[Rec], length: usize) -> Vec<u8> {
    list.concat().into_iter().cycle().take(length).collect()
}

#[test]
fn balances_by_hand() {
    // Nothing at all, and nothing left over: not a byte is printed.
    assert_eq!(balance(&[]), (0, [0; 64]));
    assert_eq!(balance_text(&[]), "");
    assert_eq!(
        balance_text(&[take(0, 9, E), release(0, 9, E)].concat()),
        ""
    );
    assert_eq!(balance_text(&release(0, 9, E)), "9 -1\n");
    assert_eq!(balance_text(&take(0, 9, E)), "9 1\n");
    assert_eq!(balance_text(&[0; 5]), "refused 14\n");
    // Lowest class first by number, whatever the order of the records; 7 comes to 0.
    let piece = [
        take(1, 63, E),
        release(0, 2, E),
        take(0, 10, NR),
        release(2, 9, TRR),
        take(0, 7, R),
        release(0, 2, NR),
        take(0, 0, TE),
        take(5, 10, TR),
        release(7, 7, TE),
        release(0, 2, R),
        take(7, 10, TRR),
        release(0, 11, TR),
    ];
    assert_eq!(
        balance_text(&piece.concat()),
        "0 1\n2 -3\n9 -1\n10 3\n11 -1\n63 1\n"
    );
    let these = [(0, 1), (2, -3), (9, -1), (10, 3), (11, -1), (63, 1)];
    assert_balance(&piece.concat(), &these);
    let backwards: Vec<Rec> = piece.iter().rev().copied().collect();
    assert_balance(&backwards.concat(), &these);
    // All 64 classes, class c taken c + 1 times or, if odd, released so often.
    let mut all = Vec::new();
    let mut these = Vec::new();
    for class in 0..64u8 {
        let times = class as usize + 1;
        let (record, sign) = if class % 2 == 0 {
            (take(class % 8, class, class % 6), 1)
        } else {
            (release(class % 8, class, class / 2 % 6), -1)
        };
        all.splice(0..0, vec![record; times]);
        these.push((class as usize, sign * times as i32));
    }
    assert_balance(&all.concat(), &these);
    // P2: 1 and 2 are each taken twice and released once.
    assert_balance(&p2_records().concat(), &[(1, 1), (2, 1)]);
}

#[test]
fn a_balance_is_never_held_at_zero() {
    // "A balance below zero is an answer, not an error: the take may be before the piece."
    // Releases first and takes after come to the same as the other way round.
    for (releases, takes) in [
        (1, 1),
        (1, 2),
        (2, 1),
        (300, 300),
        (5_000, 5_000),
        (4_000, 6_000),
    ] {
        let first = [release(0, 3, NR)].repeat(releases).concat();
        let then = [take(0, 3, E)].repeat(takes).concat();
        let left = takes as i32 - releases as i32;
        let these = if left == 0 { vec![] } else { vec![(3, left)] };
        assert_balance(&[&first[..], &then].concat(), &these);
        assert_balance(&[&then[..], &first].concat(), &these);
    }
}

#[test]
fn lengths_of_a_piece() {
    // Every length up to a little over the limit. All of it takes of 5: the balance is the
    // number of records.
    let fives = over_and_over(&[take(2, 5, NR)], 60_030);
    for records in 0..10_004usize {
        for over in 0..6 {
            let piece = &fives[..6 * records + over];
            let wanted = if over == 0 && records <= 10_000 {
                (0, balances(&[(5, records as i32)]))
            } else {
                (14, [0; 64])
            };
            assert_eq!(balance(piece), wanted, "{} bytes", piece.len());
        }
    }
    // By hand, with the text.
    assert_balance(&fives[..0], &[]);
    assert_balance(&fives[..6], &[(5, 1)]);
    assert_balance(&fives[..12], &[(5, 2)]);
    assert_balance(&fives[..59_994], &[(5, 9_999)]);
    assert_balance(&fives[..60_000], &[(5, 10_000)]);
    for refused in [
        1..6,
        7..12,
        13..18,
        59_989..59_994,
        59_995..60_000,
        60_001..60_013,
    ] {
        for length in refused {
            assert_14(&fives[..length]);
        }
    }
    // Longer yet: all whole numbers of records but the last three, some a whole number of
    // records also by their low sixteen bits.
    let long = over_and_over(&[release(2, 5, R)], 600_000);
    for length in [
        65_532, 65_538, 119_994, 120_000, 120_006, 131_076, 196_608, 196_614, 256_608, 600_000,
        65_536, 125_536, 131_072,
    ] {
        assert_14(&long[..length]);
    }
    // The length alone decides: whatever the bytes are.
    for byte in [0, 0x4C, 0xFF] {
        let bytes = vec![byte; 60_006];
        for length in 0..14 {
            if [0, 6, 12].contains(&length) {
                assert_balance(&bytes[..length], &[]);
            } else {
                assert_14(&bytes[..length]);
            }
        }
        for length in [59_994, 60_000] {
            assert_balance(&bytes[..length], &[]);
        }
        for length in [59_999, 60_001, 60_006] {
            assert_14(&bytes[..length]);
        }
    }
    // The first and the last of 10,000 records count, and one more of them refuses all.
    let mut piece = [event(0, HARD_ON); 10_000];
    piece[0] = take(0, 1, E);
    piece[9_999] = release(0, 2, TRR);
    assert_balance(&piece.concat(), &[(1, 1), (2, -1)]);
    assert_14(&[piece.concat(), event(0, HARD_ON).to_vec()].concat());
}

#[test]
fn the_highest_and_the_lowest_balance() {
    for class in [0, 1, 9, 62, 63] {
        for mode in MODES {
            let piece = over_and_over(&[take(7, class, mode)], 60_000);
            assert_balance(&piece, &[(class as usize, 10_000)]);
        }
        for mode in MODES {
            let piece = over_and_over(&[release(7, class, mode)], 60_000);
            assert_balance(&piece, &[(class as usize, -10_000)]);
        }
        // Up or down to 5,000 and on.
        let half = |record: Rec| over_and_over(&[record], 30_000);
        let (up, down) = (half(take(0, class, E)), half(release(0, class, E)));
        let (other_up, other_down) = (half(take(0, 30, E)), half(release(0, 30, E)));
        assert_balance(&[&up[..], &down].concat(), &[]);
        assert_balance(&[&down[..], &up].concat(), &[]);
        let (mut a, mut b) = (
            [(class as usize, 5_000), (30, -5_000)],
            [(30, 5_000), (class as usize, -5_000)],
        );
        a.sort();
        b.sort();
        assert_balance(&[&up[..], &other_down].concat(), &a);
        assert_balance(&[&down[..], &other_up].concat(), &b);
    }
    // Counts around powers of two.
    for times in [
        127, 128, 129, 255, 256, 257, 4_095, 4_096, 8_191, 8_192, 9_999,
    ] {
        let up = over_and_over(&[take(0, 4, R)], 6 * times);
        assert_balance(&up, &[(4, times as i32)]);
        let down = over_and_over(&[release(0, 4, TR)], 6 * times);
        assert_balance(&down, &[(4, -(times as i32))]);
    }
}

#[test]
fn classes_of_64_or_more_count_for_nothing() {
    // Every class alone and beside takes of class 0, 1 and 63, into which it could be
    // folded. It isn't refused either.
    let beside = [take(0, 0, E), take(0, 1, E), take(0, 63, E)].concat();
    for class in 0..=255u8 {
        for (record, one) in [
            (take(0, class, E), 1),
            (take(0, class, TRR), 1),
            (release(0, class, E), -1),
            (release(0, class, TRR), -1),
        ] {
            let own = (class as usize, one);
            let alone = if class < 64 { vec![own] } else { vec![] };
            assert_balance(&record, &alone);
            let mut wanted = balances(&[(0, 1), (1, 1), (63, 1)]);
            if class < 64 {
                wanted[class as usize] += one;
            }
            assert_eq!(balance(&[&record[..], &beside].concat()), (0, wanted));
            assert_eq!(balance(&[&beside[..], &record].concat()), (0, wanted));
        }
    }
    for class in [64, 65, 127, 128, 192, 254, 255] {
        assert_balance(&over_and_over(&[take(0, class, E)], 60_000), &[]);
        assert_balance(&over_and_over(&[release(0, class, E)], 60_000), &[]);
    }
    // No K: classes above any that a log named count, up to 63.
    let every: Vec<Rec> = (0..=255).map(|class| take(0, class, E)).collect();
    let ones: Vec<(usize, i32)> = (0..64).map(|class| (class, 1)).collect();
    assert_balance(&every.concat(), &ones);
}

#[test]
fn every_value_of_each_byte() {
    // A well-formed take or release with one byte changed: alone, and with a take of 20
    // before it and a release of 30 after it, which count in any case.
    let (before, after) = (take(1, 20, R), release(6, 30, TR));
    let mut counted = 0;
    for core in [0, 3, 7] {
        for class in [0, 9, 63] {
            let takes = MODES.map(|mode| (take(core, class, mode), 1));
            let releases = MODES.map(|mode| (release(core, class, mode), -1));
            let own = usize::from(class);
            for (record, one) in takes.into_iter().chain(releases) {
                for at in 0..6 {
                    for value in 0..=255u8 {
                        let mut r = record;
                        r[at] = value;
                        let wanted = match (at, value) {
                            (0, 0x4C) | (1, 0x4B) | (2, 0..=7) => Some((own, one)),
                            (3, 0) => Some((own, 1)),
                            (3, 1) => Some((own, -1)),
                            (4, 0..=63) => Some((usize::from(value), one)),
                            (5, 0..=5) => Some((own, one)),
                            _ => None,
                        };
                        counted += usize::from(wanted.is_some());
                        assert_balance(&r, wanted.as_slice());
                        let mut all = vec![(20, 1), (30, -1)];
                        all.extend(wanted);
                        assert_eq!(
                            balance(&[before, r, after].concat()),
                            (0, balances(&all)),
                            "{r:?}"
                        );
                    }
                }
            }
        }
    }
    // A take and a release each count with 1 + 1 + 8 + 2 + 64 + 6 values. By nine places.
    assert_eq!(counted, 9 * 12 * 82);
}

#[test]
fn every_kind_with_every_mode() {
    // Bytes that should be 0: class and mode of the kinds 2 to 9. The well-formed of those
    // count for nothing, at class 0 neither.
    for kind in 0..=255u8 {
        for class in [0, 1, 63, 64, 255u8] {
            for mode in 0..=255u8 {
                let r = [0x4C, 0x4B, 4, kind, class, mode];
                let mut wanted = [0; 64];
                if kind == 0 && mode <= 5 && class <= 63 {
                    wanted[usize::from(class)] = 1;
                }
                if kind == 1 && mode <= 5 && class <= 63 {
                    wanted[usize::from(class)] = -1;
                }
                assert_eq!(balance(&r), (0, wanted), "{r:?}");
            }
        }
    }
    let events: Vec<Rec> = (2..10)
        .flat_map(|kind| (0..8).map(move |core| event(core, kind)))
        .collect();
    assert_balance(&events.concat(), &[]);
    assert_balance(&over_and_over(&events, 60_000), &[]);
}

#[test]
fn a_malformed_record_is_skipped() {
    // Six bytes that refusal 3 catches are no 14, and what stands around them counts.
    let malformed: [Rec; 12] = [
        [0; 6],
        [0xFF; 6],
        [0x4B, 0x4C, 0, 0, 9, 0],
        [0x4C, 0x48, 1, 8, 0, 0], // a header
        [0x4C, 0x48, 0, 0, 9, 0],
        [0x4C, 0x4B, 8, 0, 9, 0],
        [0x4C, 0x4B, 0, 13, 0, 0],
        [0x4C, 0x4B, 0, 0, 9, 6],
        [0x4C, 0x4B, 0, 1, 9, 6],
        [0x4C, 0x4B, 0, 1, 9, 255],
        [0x4C, 0x4B, 0, 2, 9, 0],
        [0x4C, 0x4B, 0, 9, 0, 2],
    ];
    let (t, r) = (take(0, 9, E), release(0, 8, E));
    for m in malformed {
        Bench::new(64).refused(&m, 3);
        assert_balance(&m, &[]);
        assert_balance(&[m, t, r].concat(), &[(8, -1), (9, 1)]);
        assert_balance(&[t, m, r].concat(), &[(8, -1), (9, 1)]);
        assert_balance(&[t, r, m].concat(), &[(8, -1), (9, 1)]);
        assert_balance(&[m, t, m, m, t, m].concat(), &[(9, 2)]);
        // They count towards the 10,000 all the same.
        assert_balance(&over_and_over(&[m, t], 60_000), &[(9, 5_000)]);
        assert_14(&over_and_over(&[m, t], 60_006));
        assert_14(&[m, t, m].concat()[..17]);
    }
    assert_balance(&malformed.concat(), &[]);
}

#[test]
fn records_lie_at_every_sixth_byte() {
    // Marks elsewhere are not looked for.
    for shift in 1..6 {
        let mut piece = vec![0; shift];
        piece.extend([take(0, 9, E), take(0, 9, E)].concat());
        assert_14(&piece);
        piece.resize(18, 0);
        assert_balance(&piece, &[]);
        // Nor is a record that lost bytes mended by those after it.
        let torn = [
            &take(0, 9, E)[..shift],
            &release(0, 3, E),
            &release(0, 4, E),
        ]
        .concat();
        assert_14(&torn);
        let torn = [&torn[..], &release(0, 5, E)[shift..]].concat();
        assert_eq!(torn.len(), 18);
        assert_balance(&torn, &[]);
    }
}

#[test]
fn a_piece_has_no_header() {
    // A log's header makes no whole number of records; where it does with what follows, it
    // is the beginning of a record like any other.
    for k in [1, 8, 64] {
        assert_14(&log(k, &[]));
        assert_14(&log(k, &p2_records()));
        let mut padded = log(k, &p2_records());
        padded.extend([0, 0]);
        assert_balance(&padded, &[]);
    }
    // And it gives no K: the class may be any.
    let headed = [[0x4C, 0x48, 1, 2, 0, 0], take(0, 63, E), release(0, 2, E)];
    assert_balance(&headed.concat(), &[(2, -1), (63, 1)]);
}

#[test]
fn what_no_desk_accepts_counts() {
    // "whether or not a desk would accept them". Refused with 5: never taken, or in another
    // core's frame.
    let b = Bench::new(64).clean(&[take(0, 9, R)]);
    b.refused(&release(0, 3, R), 5);
    b.refused(&release(1, 9, R), 5);
    assert_balance(
        &[take(0, 9, R), release(0, 3, R)].concat(),
        &[(3, -1), (9, 1)],
    );
    assert_balance(&[take(0, 9, R), release(1, 9, R)].concat(), &[]);
    // Or by another mode.
    b.refused(&release(0, 9, E), 5);
    b.refused(&release(0, 9, TRR), 5);
    assert_balance(&[take(0, 9, R), release(0, 9, E)].concat(), &[]);
    assert_balance(&[take(0, 9, R), release(0, 9, TRR)].concat(), &[]);
    // With 8: the forty-ninth in one frame, and what stands after it.
    let full = Bench::new(1).clean(&[take(0, 0, R); 48]);
    full.refused(&take(0, 0, R), 8);
    assert_balance(&[take(0, 0, R); 49].concat(), &[(0, 49)]);
    assert_balance(&[take(0, 0, R); 60].concat(), &[(0, 60)]);
    // With 6, and with 7: an exit that isn't allowed, and takes after it.
    let piece = [event(0, EXIT_HARD), take(0, 1, E), event(0, ENTER_HARD)];
    Bench::new(2).refused(&piece[0], 6);
    assert_balance(&piece.concat(), &[(1, 1)]);
    let piece = [event(0, ENTER_HARD), take(0, 1, E), event(0, EXIT_HARD)];
    Bench::new(2).clean(&piece[..2]).refused(&piece[2], 7);
    let piece = [&piece[..], &[release(0, 1, E), release(0, 1, E)]].concat();
    assert_balance(&piece.concat(), &[(1, -1)]);
    // With 4 where K is less than 64.
    Bench::new(8).refused(&take(0, 8, E), 4);
    Bench::new(63).refused(&take(0, 63, E), 4);
    assert_balance(
        &[take(0, 8, E), take(0, 63, E)].concat(),
        &[(8, 1), (63, 1)],
    );
    // With 10: after the fault, and the fault's own record.
    let mut piece = p2_records().to_vec();
    assert_balance(&piece[..5].concat(), &[(2, 1)]);
    piece.extend([take(1, 5, E), release(1, 1, E), release(1, 1, E)]);
    assert_balance(&piece.concat(), &[(1, -1), (2, 1), (5, 1)]);
    // One class taken and released in different frames, cores and modes is one class.
    let piece = [
        take(0, 4, E),
        event(0, ENTER_SOFT),
        take(0, 4, TR),
        event(0, ENTER_HARD),
        take(0, 4, R),
        release(3, 4, TRR),
    ];
    assert_balance(&piece.concat(), &[(4, 2)]);
}

#[test]
fn takes_of_all_modes_count() {
    for (mode, name) in MODES
        .into_iter()
        .zip(["E", "r", "R", "try E", "try r", "try R"])
    {
        for by in MODES {
            let piece = [take(0, 6, mode), take(7, 6, mode), release(0, 6, by)].concat();
            assert_eq!(balance(&piece), (0, balances(&[(6, 1)])), "{name}, {by}");
        }
        assert_balance(&take(0, 6, mode), &[(6, 1)]);
    }
    let each = MODES.map(|mode| take(0, mode, mode)).concat();
    assert_balance(&each, &[(0, 1), (1, 1), (2, 1), (3, 1), (4, 1), (5, 1)]);
    assert_balance(&take(0, 6, 6), &[]);
}

/// A record for a piece: any core, classes on both sides of 64, and about one in five
/// spoilt in a byte or all.
fn piece_record(dice: &mut Dice) -> Rec {
    let core = dice.under(8) as u8;
    let class = match dice.under(8) {
        0 => dice.under(256) as u8,
        1 => [0, 63, 64, 255][dice.under(4) as usize],
        2..=4 => dice.under(5) as u8,
        _ => dice.under(64) as u8,
    };
    let mut r = match dice.under(8) {
        0..=3 => take(core, class, dice.under(6) as u8),
        4..=6 => release(core, class, dice.under(6) as u8),
        _ => event(core, 2 + dice.under(8) as u8),
    };
    match dice.under(15) {
        0 => r[dice.under(6) as usize] ^= 1 << dice.under(8),
        1 => r[dice.under(6) as usize] = dice.next() as u8,
        2 => r = [0; 6].map(|_: u8| dice.next() as u8),
        _ => {}
    }
    r
}

fn random_piece(dice: &mut Dice, records: u64) -> Vec<u8> {
    (0..records).flat_map(|_| piece_record(dice)).collect()
}

/// The balances a second way: the records are sorted, and each take and release that
/// refusal 3 passes, of all there are, is looked up: how often it stands there.
fn by_listing(piece: &[u8]) -> [i32; 64] {
    let mut sorted: Vec<&[u8]> = piece.chunks(6).collect();
    sorted.sort();
    let times = |r: Rec| {
        let before = sorted.partition_point(|s| *s < &r[..]);
        sorted[before..].partition_point(|s| *s == &r[..]) as i32
    };
    let mut all = [0; 64];
    for class in 0..64u8 {
        for core in 0..8 {
            for mode in MODES {
                all[usize::from(class)] += times(take(core, class, mode));
                all[usize::from(class)] -= times(release(core, class, mode));
            }
        }
    }
    all
}

#[test]
fn random_pieces_a_second_way() {
    let mut dice = Dice(0xBA1A_4CE0_FA9E_CE17);
    let (mut below, mut above) = (0, 0);
    for round in 0..800u64 {
        // One in four up to the limit, some at it.
        let records = match round % 8 {
            0 => dice.under(10_001),
            4 => 10_000 - dice.under(2),
            _ => dice.under(300),
        };
        let piece = random_piece(&mut dice, records);
        let wanted = by_listing(&piece);
        assert_eq!(balance(&piece), (0, wanted));
        let these: Vec<(usize, i32)> = (0..64)
            .map(|class| (class, wanted[class]))
            .filter(|this| this.1 != 0)
            .collect();
        assert_eq!(balance_text(&piece), lines(&these));
        below += these.iter().filter(|this| this.1 < 0).count();
        above += these.iter().filter(|this| this.1 > 0).count();
        // One byte less or more, and a record more than the limit.
        if !piece.is_empty() {
            assert_14(&piece[1..]);
        }
        assert_14(&[&piece[..], &[0x4C]].concat());
        if records == 10_000 {
            assert_14(&[&piece[..], &piece_record(&mut dice)].concat());
        }
    }
    assert!(
        below > 1_000 && above > 1_000,
        "{below} below 0, {above} above"
    );
    // Bytes in no order at all, of which hardly any are records.
    for _ in 0..200 {
        let length = dice.under(60_013) as usize;
        let piece: Vec<u8> = (0..length).map(|_| dice.next() as u8).collect();
        if (0..=60_000).step_by(6).any(|whole| whole == length) {
            assert_eq!(balance(&piece), (0, by_listing(&piece)));
        } else {
            assert_14(&piece);
        }
    }
}

#[test]
fn refusal_3_of_the_step_decides() {
    // "over the records that refusal 3 passes": those to which the step of an open desk
    // gives any answer but 3. By a map from class to balance.
    let mut dice = Dice(0x3BA1_A4CE_5EED_0003);
    let b = Bench::new(1);
    let (mut passed, mut caught) = (0, 0);
    for _ in 0..100 {
        let records = dice.under(500);
        let piece = random_piece(&mut dice, records);
        let mut by_class = std::collections::BTreeMap::new();
        for r in piece.chunks(6) {
            if b.clone().step(r) == 3 {
                caught += 1;
                continue;
            }
            passed += 1;
            if r[3] <= 1 && r[4] < 64 {
                *by_class.entry(usize::from(r[4])).or_insert(0) += 1 - 2 * i32::from(r[3]);
            }
        }
        by_class.retain(|_, balance| *balance != 0);
        let these: Vec<(usize, i32)> = by_class.into_iter().collect();
        assert_balance(&piece, &these);
    }
    assert!(
        passed > 10_000 && caught > 1_000,
        "{passed} passed, {caught} caught"
    );
}

#[test]
fn a_clean_piece_leaves_its_balances_held() {
    // Where a fresh desk accepts every record, the balance of a class is how many holds of
    // it stand, in all frames.
    let mut dice = Dice(0x401D_5BA1_A4CE_0001);
    for k in [1, 3, 8, 64] {
        let mut b = Bench::new(k as usize);
        let mut piece = Vec::new();
        for _ in 0..3_000 {
            let mut r = random_record(&mut dice, k, &[R, R, TRR]);
            r[2] = dice.under(8) as u8;
            // Recursive reads only, so that no closed strong path arises.
            if (r[3] == TAKE && r[5] % 3 != R) || b.step(&r) != 0 {
                continue;
            }
            piece.extend(r);
            if piece.len() % 60 == 0 {
                let mut standing = [0; 64];
                for (at, holds) in b.desk[98..1250].chunks(48).enumerate() {
                    for hold in &holds[..usize::from(b.desk[DEPTHS + at])] {
                        standing[usize::from(hold % 64)] += 1;
                    }
                }
                assert_eq!(balance(&piece), (0, standing));
            }
        }
        assert!(piece.len() > 3_000, "{} bytes", piece.len());
    }
}

#[test]
fn joined_pieces_add_their_balances() {
    // "Two pieces that are not refused, joined within the limit, add their balances."
    let mut dice = Dice(0xADD5_0BA1_A4CE_5EED);
    let sum = |a: [i32; 64], b: [i32; 64]| std::array::from_fn(|class| a[class] + b[class]);
    let mut differ = 0;
    for round in 0..60u64 {
        let records = match round % 4 {
            0 => 10_000,
            1 => dice.under(10_001),
            _ => dice.under(50),
        };
        let piece = random_piece(&mut dice, records);
        let (answer, whole) = balance(&piece);
        assert_eq!(answer, 0);
        let mut cuts = vec![
            0,
            records,
            records / 2,
            records.min(1),
            records.saturating_sub(1),
        ];
        cuts.extend((0..20).map(|_| dice.under(records + 1)));
        for cut in cuts {
            let (a, b) = piece.split_at(6 * cut as usize);
            let ((answer_a, a_only), (answer_b, b_only)) = (balance(a), balance(b));
            assert_eq!((answer_a, answer_b), (0, 0));
            assert_eq!(sum(a_only, b_only), whole);
            // In the other order too.
            assert_eq!(balance(&[b, a].concat()), (0, whole));
            differ += usize::from(a_only != whole && b_only != whole);
            // Three pieces alike.
            let (b, c) = b.split_at(6 * dice.under(b.len() as u64 / 6 + 1) as usize);
            assert_eq!(sum(a_only, sum(balance(b).1, balance(c).1)), whole);
        }
        // Cut within a record, both are refused, though the whole isn't.
        if records > 0 {
            let at = 6 * dice.under(records) as usize + 1 + dice.under(5) as usize;
            assert_14(&piece[..at]);
            assert_14(&piece[at..]);
        }
        // Joined over the limit: refused, though neither part is.
        if records == 10_000 {
            assert_14(&[&piece[..], &piece[..6]].concat());
            assert_14(&[&piece[..], &piece].concat());
        }
    }
    assert!(differ > 500, "{differ} splits with something in both parts");
}

/// Gives these bytes over and over, `most` at a time, up to `limit` of them; then it ends
/// or fails. Counts what it gave.
struct Hose<'a> {
    bytes: &'a [u8],
    most: usize,
    limit: usize,
    fails: Option<ErrorKind>,
    given: usize,
}
impl Read for Hose<'_> {
    fn read(&mut self, buffer: &mut [u8]) -> std::io::Result<usize> {
        let n = buffer.len().min(self.most).min(self.limit - self.given);
        if n == 0 && !buffer.is_empty() {
            return self.fails.map_or(Ok(0), |kind| Err(kind.into()));
        }
        for byte in &mut buffer[..n] {
            *byte = self.bytes[self.given % self.bytes.len()];
            self.given += 1;
        }
        Ok(n)
    }
}

const AT_A_TIME: [usize; 11] = [
    1,
    5,
    6,
    7,
    4_096,
    8_192,
    30_000,
    59_999,
    60_000,
    60_001,
    usize::MAX,
];

#[test]
fn a_piece_read_bit_by_bit() {
    // Per three records, one take of 5 left, a release of 9, and one that is skipped.
    let bytes = [take(0, 5, E), release(1, 9, E), [0; 6]].concat();
    for most in AT_A_TIME {
        let text = |limit| {
            let (fails, given) = (None, 0);
            let mut hose = Hose {
                bytes: &bytes,
                most,
                limit,
                fails,
                given,
            };
            let mut out = Vec::new();
            run_balance(&mut hose, &mut out).unwrap();
            (String::from_utf8(out).unwrap(), hose.given)
        };
        for (limit, wanted) in [
            (0, ""),
            (6, "5 1\n"),
            (12, "5 1\n9 -1\n"),
            (18, "5 1\n9 -1\n"),
            (24, "5 2\n9 -1\n"),
            (59_988, "5 3333\n9 -3333\n"),
            (59_994, "5 3333\n9 -3333\n"),
            (60_000, "5 3334\n9 -3333\n"),
        ] {
            assert_eq!(text(limit), (wanted.to_string(), limit));
        }
        for limit in (1..6)
            .chain(7..12)
            .chain([13, 59_989, 59_993, 59_995, 59_999])
        {
            assert_eq!(text(limit), ("refused 14\n".to_string(), limit));
        }
        // No more than the one byte that tells; the last has no end.
        for limit in [
            60_001,
            60_002,
            60_005,
            60_006,
            60_007,
            120_000,
            1 << 40,
            usize::MAX,
        ] {
            assert_eq!(text(limit), ("refused 14\n".to_string(), 60_001));
        }
    }
    // With interruptions.
    let piece: Vec<u8> = bytes.iter().copied().cycle().take(60_000).collect();
    for (piece, wanted) in [
        (&piece[..], "5 3334\n9 -3333\n"),
        (&piece[..12], "5 1\n9 -1\n"),
        (&piece[..59_999], "refused 14\n"),
        (&piece[..0], ""),
    ] {
        let mut out = Vec::new();
        run_balance(&mut Drip(piece, false), &mut out).unwrap();
        assert_eq!(out, wanted.as_bytes());
    }
}

#[test]
fn an_input_error_is_no_answer() {
    let bytes = [take(0, 5, E), release(1, 9, E), [0; 6]].concat();
    for kind in [
        ErrorKind::Other,
        ErrorKind::UnexpectedEof,
        ErrorKind::BrokenPipe,
        ErrorKind::WouldBlock,
    ] {
        for most in AT_A_TIME {
            let run = |limit| {
                let (fails, given) = (Some(kind), 0);
                let mut hose = Hose {
                    bytes: &bytes,
                    most,
                    limit,
                    fails,
                    given,
                };
                let mut out = Vec::new();
                let result = run_balance(&mut hose, &mut out);
                (
                    result.map_err(|e| e.kind()),
                    String::from_utf8(out).unwrap(),
                )
            };
            // Where a piece could end, where it couldn't, and where it is full: nothing is
            // written.
            for limit in [0, 1, 5, 6, 7, 12, 18, 59_994, 59_999, 60_000] {
                assert_eq!(run(limit), (Err(kind), String::new()), "{limit}");
            }
            // An error after the byte that tells isn't met.
            for limit in [60_001, 60_006] {
                assert_eq!(run(limit), (Ok(()), "refused 14\n".to_string()));
            }
        }
    }
}

#[test]
fn an_output_error_is_an_error() {
    // Room for all of the text, or for a byte less.
    let two = [take(0, 5, E), release(0, 63, E)].concat();
    for (piece, wanted) in [(&two[..], "5 1\n63 -1\n"), (&two[..7], "refused 14\n")] {
        for short in [0, 1, 7] {
            let mut room = vec![0; wanted.len() - short];
            let result = run_balance(&mut &piece[..], &mut &mut room[..]);
            assert_eq!(result.is_ok(), short == 0);
            assert_eq!(room, wanted.as_bytes()[..room.len()]);
        }
        // What is written is also sent on.
        let mut out = std::io::BufWriter::new(Vec::new());
        run_balance(&mut &piece[..], &mut out).unwrap();
        assert_eq!(out.get_ref(), wanted.as_bytes());
    }
    run_balance(&mut &[][..], &mut &mut [][..]).unwrap();
}

#[test]
fn the_first_argument() {
    let text = |word: Option<&str>, input: &[u8]| {
        let mut out = Vec::new();
        run(word.map(OsStr::new), &mut &input[..], &mut out).unwrap();
        String::from_utf8(out).unwrap()
    };
    let (piece, p2) = (p2_records().concat(), log(3, &p2_records()));
    assert_eq!(text(Some("balance"), &piece), "1 1\n2 1\n");
    assert_eq!(text(Some("balance"), &p2), "refused 14\n");
    assert_eq!(text(Some("balance"), &[]), "");
    // Without it, and with anything else, a log is judged.
    for word in [
        None,
        Some(""),
        Some("Balance"),
        Some("balances"),
        Some("balanc"),
        Some("-"),
    ] {
        assert_eq!(
            text(word, &p2),
            "fault at record 6\n1 EN 2 hold\n2 EN 1 hold\n"
        );
        assert_eq!(text(word, &piece), "refused 2 at record 0\n");
    }
}

// ------------------------------------------------------------- deeper nesting

/// A bench with a core in the task, soft or hard frame of this number, by records.
fn in_frame(k: usize, at: usize) -> Bench {
    let ways = [&[][..], &[ENTER_SOFT], &[ENTER_HARD]];
    let way: Vec<Rec> = ways[at % 3]
        .iter()
        .map(|&kind| event(at as u8 / 3, kind))
        .collect();
    Bench::new(k).clean(&way)
}

/// Whether a bench is fit, read by the layout of request g byte by byte.
fn fit_by_hand(b: &Bench) -> bool {
    let desk = &b.desk;
    if desk.len() < 1674 || desk[0] < 1 || desk[0] > 64 || desk[1] > 1 {
        return false;
    }
    let k = desk[0] as usize;
    if b.sheet.len() < k * k || b.seen.len() < 4 * k * k || b.slip.len() < 1 + 7 * k {
        return false;
    }
    // Crosslocks, class by class, and the history, entry by entry.
    let mut in_progress = 0;
    for class in 0..64 {
        let bit = |at: usize| desk[at + class / 8] & 1 << (class % 8) != 0;
        let (declared, taken) = (bit(1398), bit(1406));
        if (declared && class >= k) || (taken && !declared) {
            return false;
        }
        in_progress += u32::from(taken);
    }
    let kept = [1417, 1416, 1415, 1414].map(|at| desk[at]);
    let kept = kept
        .iter()
        .fold(0u64, |sum, &byte| 256 * sum + u64::from(byte));
    if in_progress > 16 || kept > 256 || b.history.len() < 512 {
        return false;
    }
    for i in 0..kept as usize {
        let fits = match (b.history[2 * i], b.history[2 * i + 1]) {
            (0, second) => second == 0,
            (1..=24, second) => second < 192 && usize::from(second & 63) < k,
            _ => false,
        };
        if !fits {
            return false;
        }
    }
    for at in 0..24 {
        let (state, depth) = (desk[2 + at / 3], desk[10 + at] as usize);
        let may_hold = match at % 3 {
            0 => true,
            1 => [4, 5, 8].contains(&state),
            _ => state >= 6,
        };
        if state > 8 || depth > 48 || (depth > 0 && !may_hold) {
            return false;
        }
        for place in 0..48 {
            let hold = desk[98 + 48 * at + place];
            let origin = desk[1250 + 6 * at + place / 8] & 1 << (place % 8);
            if place >= depth && (hold != 0 || origin != 0) {
                return false;
            }
            if hold >= 192 || usize::from(hold & 63) >= k {
                return false;
            }
        }
    }
    for class in 0..64 {
        let mark = desk[34 + class];
        let alone = |soft, hard| mark & soft != 0 && mark & hard == 0;
        if (class >= k && mark != 0) || alone(64, 4) || alone(128, 8) {
            return false;
        }
    }
    let high_first = |at: usize, bytes: &[u8]| {
        [bytes[at + 3], bytes[at + 2], bytes[at + 1], bytes[at]]
            .iter()
            .fold(0u64, |sum, &byte| 256 * sum + u64::from(byte))
    };
    (0..k * k).all(|pair| {
        let (kinds, number) = (b.sheet[pair], high_first(4 * pair, &b.seen));
        kinds <= 15 && (kinds == 0) == (number == 0)
    })
}

/// Every call on a bench with this desk: 11, and no byte changed.
fn assert_unfit(b: &Bench) {
    assert!(b.unfit().is_some() && !fit_by_hand(b));
    for r in [
        take(0, 0, E),
        take(3, 0, TRR),
        release(0, 0, E),
        event(0, HARD_OFF),
        event(7, EXIT_HARD),
        take(0, 255, E),
        [0; 6],
    ] {
        b.refused(&r, 11);
    }
    b.refused(&[], 11);
    assert_eq!(b.ask(0), (11, 0, 0));
    assert_eq!(b.ask(u64::MAX), (11, 0, 0));
    assert_eq!((b.least_circle(), b.all_circles(1)), (None, vec![]));
    assert!(!b.true_circle(&b.slip));
    // By an opened feed too, for a whole record and for a short one at the end.
    let mut fed = Fed::lying(0, 1, 0, &[], 6, b.clone());
    assert_eq!(fed.feed(&take(0, 0, R)), (11, 7));
    assert_eq!(&fed.b, b);
    let mut fed = Fed::lying(0, 1, 0, &[], 6, b.clone());
    assert_eq!((fed.feed(&[0x4C]), fed.end()), ((0, 6), (11, 7)));
    assert_eq!(&fed.b, b);
}

#[test]
fn forty_eight_in_every_frame() {
    for at in 0..24usize {
        let core = at as u8 / 3;
        for filling in [R, TE, TR, TRR] {
            let nearly = in_frame(3, at).clean(&[take(core, 0, filling); 47]);
            assert_eq!(nearly.desk[10 + at], 47);
            for last in MODES {
                // The forty-eighth is accepted.
                let b = nearly.clone().clean(&[take(core, 1, last)]);
                let mut depths = [0; 24];
                depths[at] = 48;
                assert_eq!(b.desk[10..34], depths);
                let first = 98 + 48 * at;
                assert_eq!(b.desk[first..first + 47], [64 * (filling % 3); 47]);
                assert_eq!(b.desk[first + 47], 1 + 64 * (last % 3));
                let mut bits = [false; 1152];
                bits[48 * at..48 * at + 47].fill(filling >= 3);
                bits[48 * at + 47] = last >= 3;
                assert_eq!(b.desk[1250..1394], packed(&bits));
                assert_eq!(b.unfit(), None);
                // The forty-ninth isn't, of whatever class and by whatever mode.
                for class in 0..3 {
                    for mode in MODES {
                        b.refused(&take(core, class, mode), 8);
                    }
                }
                // It is full for itself alone.
                for other in (0..8).filter(|&other| other != core) {
                    assert_eq!(b.clone().step(&take(other, 2, TE)), 0);
                }
                // And the newest goes again.
                let mut gone = b.clone().clean(&[release(core, 1, last)]);
                gone.desk[34..98].copy_from_slice(&nearly.desk[34..98]);
                gone.set_count(nearly.count());
                assert_eq!(gone.desk, nearly.desk);
            }
        }
    }
}

#[test]
fn full_in_every_state() {
    // 48 by hand in the frame of each state, 47 beside it: 8 for the one, 0 for the other.
    for core in 0..8usize {
        for state in 0..9u8 {
            let at = 3 * core + [0, 0, 0, 0, 1, 1, 2, 2, 2][state as usize];
            for mode in MODES {
                let mut b = Bench::new(2);
                b.desk[2 + core] = state;
                b.desk[10 + at] = 48;
                b.desk[98 + 48 * at..146 + 48 * at].fill(128);
                assert_eq!(b.unfit(), None);
                b.refused(&take(core as u8, 1, mode), 8);
                b.desk[10 + at] = 47;
                b.desk[145 + 48 * at] = 0;
                assert_eq!(b.step(&take(core as u8, 1, mode)), 0);
                assert_eq!(b.desk[10 + at], 48);
                assert_eq!(b.desk[145 + 48 * at], 1 + 64 * (mode % 3));
                b.refused(&take(core as u8, 1, mode), 8);
            }
        }
    }
}

#[test]
fn room_for_one_more() {
    // 48 classes; each goes in turn, and one more comes, by each mode.
    for at in 0..24usize {
        let core = at as u8 / 3;
        let takes: Vec<Rec> = (0..48).map(|c| take(core, c, [R, TRR][at % 2])).collect();
        let full = in_frame(49, at).clean(&takes);
        full.refused(&take(core, 48, R), 8);
        for place in 0..48usize {
            let mode = MODES[(at / 3 + place) % 6];
            let room = full
                .clone()
                .clean(&[release(core, place as u8, [R, TRR][at % 2])]);
            assert_eq!(room.desk[10 + at], 47);
            let b = room.clone().clean(&[take(core, 48, mode)]);
            b.refused(&take(core, 48, TRR), 8);
            b.refused(&take(core, place as u8, mode), 8);
            // An arrow from each of the 47, in none but this record's numbers.
            for from in 0..49 {
                let drawn = from != place && from != 48 && mode < 3;
                let (kinds, number) = (b.sheet[49 * from + 48], b.number(from, 48));
                let kind = if mode == R { SR } else { SN };
                assert_eq!(kinds, if drawn { kind } else { 0 });
                assert_eq!(number, if drawn { b.count() } else { 0 });
            }
            let mut holds: Vec<u8> = (0..48).filter(|&c| c != place as u8).collect();
            holds.iter_mut().for_each(|hold| *hold += 128);
            holds.push(48 + 64 * (mode % 3));
            assert_eq!(b.desk[98 + 48 * at..146 + 48 * at], holds);
        }
    }
}

#[test]
fn what_comes_before_8_and_after() {
    for at in 0..24usize {
        let core = at as u8 / 3;
        let full = in_frame(8, at).clean(&[take(core, 0, R); 48]);
        for mode in 6..=255 {
            full.refused(&take(core, 0, mode), 3);
        }
        for mode in MODES {
            for class in [8, 47, 48, 49, 63, 64, 128, 255] {
                full.refused(&take(core, class, mode), 4);
            }
            for class in 0..8 {
                full.refused(&take(core, class, mode), 8);
            }
        }
        // With the count at its limit: 8 and what is before it stay, else 9.
        let mut limit = full.clone();
        limit.set_count(u32::MAX);
        assert_eq!(limit.unfit(), None);
        for mode in MODES {
            limit.refused(&take(core, 0, mode), 8);
            limit.refused(&take(core, 8, mode), 4);
            limit.refused(&take((core + 1) % 8, 0, mode), 9);
        }
        limit.refused(&release(core, 0, R), 9);
        limit.refused(&release(core, 1, R), 5);
        limit.refused(&event(core, ENTER_SOFT), if at % 3 == 0 { 9 } else { 6 });
        if at % 3 > 0 {
            limit.refused(&event(core, [EXIT_SOFT, EXIT_HARD][at % 3 - 1]), 7);
        }
        // One less: 8 still, and with room 9.
        let mut nearly = limit.clone();
        nearly.desk[10 + at] = 47;
        nearly.desk[145 + 48 * at] = 0;
        nearly.refused(&take(core, 0, R), 9);
        limit.set_count(u32::MAX - 1);
        limit.refused(&take(core, 0, R), 8);
        // 11 and 10 before it.
        let mut closed = full.clone();
        closed.desk[1] = 1;
        closed.refused(&take(core, 0, R), 10);
        closed.desk[10 + at] = 49;
        closed.refused(&take(core, 0, R), 11);
        closed.desk[1] = 0;
        closed.refused(&take(core, 0, R), 11);
    }
}

#[test]
fn depth_bytes() {
    // Fit up to 48, unfit from 49 on; 20 and 21 are like any other.
    for at in 0..24usize {
        let core = at as u8 / 3;
        for depth in 0..=255u8 {
            let mut b = Bench::new(1);
            b.desk[2 + at / 3] = [0, 4, 6][at % 3];
            b.desk[10 + at] = depth;
            if depth > 48 {
                assert_eq!(b.unfit(), Some("depth over the limit"));
                assert_unfit(&b);
                continue;
            }
            assert_eq!(b.unfit(), None);
            assert!(fit_by_hand(&b));
            assert_eq!(b.ask(0), (0, 0, 0));
            if depth == 48 {
                b.refused(&take(core, 0, TE), 8);
            } else {
                let mut more = b.clone();
                assert_eq!(more.step(&take(core, 0, TE)), 0);
                assert_eq!(more.desk[10 + at], depth + 1);
            }
            if depth == 0 {
                b.refused(&release(core, 0, E), 5);
            } else {
                assert_eq!(b.step(&release(core, 0, E)), 0);
                assert_eq!(b.desk[10 + at], depth - 1);
            }
        }
    }
}

#[test]
fn a_take_at_every_depth() {
    // Classes 0, 1, 2 .. in the frame, of any mode and origin, tries in the frames before
    // and after where they may be, and then 63: every byte.
    let mut dice = Dice(0x0DE9_70F4_8000_0001);
    for at in [0usize, 1, 2, 9, 10, 11, 12, 21, 22, 23] {
        for depth in 0..48usize {
            for mode in MODES {
                let (core, state) = (at / 3, [3, 5, 8][at % 3]);
                let mut b = Bench::new(64);
                let mut bits = [false; 1152];
                let before = at.checked_sub(1);
                let after = Some(at + 1).filter(|next| next % 3 == 0 && *next < 24);
                for frame in before.into_iter().chain(after) {
                    b.desk[2 + frame / 3] = 8;
                    b.desk[10 + frame] = 48;
                    b.desk[98 + 48 * frame..146 + 48 * frame].fill(62);
                    bits[48 * frame..48 * frame + 48].fill(true);
                }
                b.desk[2 + core] = state;
                b.desk[10 + at] = depth as u8;
                for place in 0..depth {
                    let hold = &mut b.desk[98 + 48 * at + place];
                    *hold = place as u8 + 64 * dice.under(3) as u8;
                    bits[48 * at + place] = dice.under(2) == 0;
                }
                b.desk[1250..1394].copy_from_slice(&packed(&bits));
                let before = dice.under(1 << 31) as u32;
                b.set_count(before);
                assert_eq!(b.unfit(), None);
                let mut after = b.counted();
                after.desk[10 + at] += 1;
                after.desk[98 + 48 * at + depth] = 63 + 64 * (mode % 3);
                bits[48 * at + depth] = mode >= 3;
                after.desk[1250..1394].copy_from_slice(&packed(&bits));
                for place in 0..=depth {
                    let hold = after.desk[98 + 48 * at + place];
                    let (class, older) = (usize::from(hold % 64), hold / 64);
                    let safe = [0, 16, 1][at % 3] * if older == R { 2 } else { 1 };
                    after.desk[34 + class] = if bits[48 * at + place] { 0 } else { safe };
                    if place < depth && mode < 3 {
                        let kind = match (older == E, mode == R) {
                            (true, true) => ER,
                            (true, false) => EN,
                            (false, true) => SR,
                            (false, false) => SN,
                        };
                        after.sheet[64 * class + 63] = kind;
                        after.set_number(class, 63, before + 1);
                    }
                }
                assert_eq!(b.step(&take(core as u8, 63, mode)), 0);
                assert_eq!(b, after, "frame {at}, depth {depth}, mode {mode}");
            }
        }
    }
}

#[test]
fn all_frames_full_at_once() {
    // Task, soft and hard of every core, each begun at another class, a third by tries. All
    // by recursive reads, so that no closed strong path arises.
    let mut naive = Naive::new(48);
    let mut b = Bench::new(48);
    let class = |at: usize, place: usize| ((place + 5 * at) % 48) as u8;
    let mode = |at: usize, place: usize| [R, R, TRR][(place / 5 + at) % 3];
    for at in 0..24usize {
        let core = at as u8 / 3;
        let mut records: Vec<Rec> = (0..48)
            .map(|p| take(core, class(at, p), mode(at, p)))
            .collect();
        if at % 3 > 0 {
            records.insert(0, event(core, [ENTER_SOFT, ENTER_HARD][at % 3 - 1]));
        }
        for r in &records {
            assert_eq!(b.step(r), 0);
            naive.accept(r);
        }
        b.refused(&take(core, 0, R), 8);
        b.refused(&take(core, 0, TRR), 8);
    }
    // 8 x (3 x 48 + 2) is 1,168, which is 4 x 256 and 144.
    let mut desk = vec![48, 0];
    desk.extend([8; 8]);
    desk.extend([48; 24]);
    desk.extend([2 + 8 + 32 + 128; 48]);
    desk.extend([0; 16]);
    let places = || (0..24).flat_map(|at| (0..48).map(move |place| (at, place)));
    desk.extend(places().map(|(at, place)| class(at, place) + 128));
    let bits: Vec<bool> = places().map(|(at, p)| mode(at, p) == TRR).collect();
    desk.extend(packed(&bits));
    desk.extend([144, 4, 0, 0]);
    desk.extend([0; 276]);
    assert_eq!(b.desk, desk);
    let [desk, sheet, seen] = naive.lie(false);
    assert_eq!((&b.desk, &b.sheet, &b.seen), (&desk, &sheet, &seen));
    assert_eq!(b.unfit(), None);
    for core in 0..8 {
        for mode in MODES {
            b.refused(&take(core, 47, mode), 8);
        }
        b.refused(&event(core, EXIT_HARD), 7);
    }
    // And all go again, from the middle, the oldest and the newest in turn.
    for at in (0..24usize).rev() {
        let core = at as u8 / 3;
        let mut held: Vec<(u8, u8)> = (0..48).map(|p| (class(at, p), mode(at, p))).collect();
        while !held.is_empty() {
            let place = [held.len() / 2, 0, held.len() - 1][held.len() % 3];
            let (class, mode) = held.remove(place);
            b.refused(&release(core, class, [R, TRR][usize::from(mode == R)]), 5);
            let r = release(core, class, mode);
            assert_eq!(b.step(&r), 0);
            naive.accept(&r);
            let bytes: Vec<u8> = held.iter().map(|hold| hold.0 + 128).collect();
            assert_eq!(b.desk[98 + 48 * at..98 + 48 * at + held.len()], bytes);
        }
        if at % 10 == 1 {
            assert_eq!(b.desk, naive.lie(false)[0]);
        }
        if at % 3 > 0 {
            let r = event(core, [EXIT_SOFT, EXIT_HARD][at % 3 - 1]);
            assert_eq!(b.step(&r), 0);
            naive.accept(&r);
        }
    }
    // 2 x 1,168 is 9 x 256 and 32.
    assert_eq!(b.desk[1394..1398], [32, 9, 0, 0]);
    assert!(b.desk[98..1394].iter().all(|&x| x == 0));
}

#[test]
fn forty_seven_arrows() {
    // Modes in turn; the arrow from class i to class j is of record j + 1.
    for at in [0usize, 1, 2, 11, 21, 23] {
        let core = at as u8 / 3;
        let mut b = Bench::new(64);
        b.desk[2 + at / 3] = [3, 5, 6][at % 3];
        for class in 0..48 {
            assert_eq!(b.step(&take(core, class, class % 3)), 0);
        }
        let kind = |i: usize, j: usize| match (i % 3 == 0, j % 3 == 2) {
            (true, true) => ER,
            (true, false) => EN,
            (false, true) => SR,
            (false, false) => SN,
        };
        let check = |b: &Bench, arrow: &dyn Fn(usize, usize) -> u32| {
            for i in 0..64 {
                for j in 0..64 {
                    let number = arrow(i, j);
                    let kinds = if number > 0 { kind(i, j) } else { 0 };
                    assert_eq!((b.sheet[64 * i + j], b.number(i, j)), (kinds, number));
                }
            }
        };
        let among = |i: usize, j: usize| if i < j && j < 48 { j as u32 + 1 } else { 0 };
        check(&b, &among);
        // The forty-ninth class is refused while 48 stand, and draws nothing.
        b.refused(&take(core, 48, E), 8);
        // The oldest goes: 47 arrows from 1 to 47 by the fiftieth record.
        let mut oldest = b.clone().clean(&[release(core, 0, E), take(core, 48, E)]);
        check(&oldest, &|i, j| {
            if j == 48 && i > 0 && i < 48 {
                50
            } else {
                among(i, j)
            }
        });
        // The newest goes: 47 from 0 to 46.
        let newest = b.clone().clean(&[release(core, 47, R), take(core, 48, E)]);
        check(&newest, &|i, j| {
            if j == 48 && i < 47 {
                50
            } else {
                among(i, j)
            }
        });
        // A try in its place draws none.
        let by_try = b.clone().clean(&[release(core, 20, R), take(core, 48, TE)]);
        check(&by_try, &among);
        // Again and again, each time with the oldest gone: 47 arrows each.
        for class in 49..64 {
            assert_eq!(oldest.step(&release(core, class - 48, class % 3)), 0);
            assert_eq!(oldest.step(&take(core, class, class % 3)), 0);
            oldest.refused(&take(core, class, class % 3), 8);
        }
        check(&oldest, &|i, j| match (i < j && j - i < 48, j < 48) {
            (true, true) => j as u32 + 1,
            (true, false) => 50 + 2 * (j as u32 - 48),
            _ => 0,
        });
    }
}

#[test]
fn first_seen_in_a_full_frame() {
    // By the records alone: 48 are accepted, the next is refused and has no number; with
    // room again it is the fiftieth that is accepted, or after a way into a handler the
    // fifty-first.
    for at in 0..24usize {
        let core = at as u8 / 3;
        for mode in [E, NR, R] {
            let mut list = vec![take(core, 0, TE); 48];
            if at % 3 > 0 {
                list.insert(0, event(core, [ENTER_SOFT, ENTER_HARD][at % 3 - 1]));
            }
            let accepted = list.len() as u32;
            let mut books = Books::open(2).unwrap();
            assert!(list.iter().all(|r| books.enter(r)));
            for refused in MODES {
                list.push(take(core, 1, refused));
                assert!(!books.enter(&take(core, 1, refused)));
            }
            assert_eq!(books.accepted(), accepted);
            assert_eq!(first_seen(2, &list), Some(vec![0; 4]));
            list.extend([release(core, 0, TE), take(core, 1, mode), take(core, 0, R)]);
            assert!(books.enter(&release(core, 0, TE)) && books.enter(&take(core, 1, mode)));
            assert!(!books.enter(&take(core, 0, R)));
            assert_eq!(books.numbers(), [0, accepted + 2, 0, 0]);
            assert_eq!(first_seen(2, &list).as_deref(), Some(books.numbers()));
            // The same by steps.
            let mut b = Bench::new(2);
            for r in &list {
                b.step(r);
            }
            assert_eq!((b.seen, b.desk[1]), (bytes_of(books.numbers()), 0));
        }
    }
}

#[test]
fn a_fault_through_each_place() {
    // 47 classes stand in the frame and 63 is taken as the forty-eighth; on core 6 a class
    // was taken after 63. The circle needs the arrow from that class's place. (None goes
    // from the forty-eighth: what would draw it is refused.)
    for at in [0usize, 1, 2, 8, 9, 21, 22, 23] {
        let core = at as u8 / 3;
        for mode in [E, R] {
            let mut held = Bench::new(64);
            held.desk[2 + at / 3] = [3, 5, 8][at % 3];
            held.desk[2 + 6] = 3; // no marks
            let takes: Vec<Rec> = (0..47).map(|class| take(core, class, mode)).collect();
            let held = held.clean(&takes);
            let arrow = if mode == E { EN } else { SN };
            for place in 0..47u8 {
                let mut b = held.clone().clean(&[take(6, 63, E), take(6, place, E)]);
                assert_eq!(b.step(&take(core, 63, E)), 1, "frame {at}, place {place}");
                assert_eq!((b.desk[10 + at], b.number(place.into(), 63)), (48, 50));
                let circle = entries(&[(place, arrow, 0, 50), (63, EN, 0, 49)]);
                assert_eq!(b.slip[..15], circle);
                // By a try there is none.
                let mut b = held.clone().clean(&[take(6, 63, E), take(6, place, E)]);
                assert_eq!(b.step(&take(core, 63, TE)), 0);
            }
        }
    }
    // From opening, by steps and by the program.
    let mut records = vec![take(1, 63, E), take(1, 46, E)];
    records.extend((0..47).map(|class| take(0, class, E)));
    records.push(take(0, 63, E));
    assert_eq!(judge(64, &records), (50, 1));
    assert_eq!(
        program(&log(64, &records)),
        "fault at record 50\n46 EN 63 hold\n63 EN 46 hold\n"
    );
}

#[test]
fn marks_at_each_place() {
    // 48 classes held with nothing marked, or soft-safe; then hard on. Another core's hard
    // handler has one of them: a fault by the mark of that place alone.
    for at in [0usize, 1, 12, 13, 21, 22] {
        let core = at as u8 / 3;
        for mode in [E, NR, TE, TR] {
            let mut held = Bench::new(64);
            held.desk[2 + at / 3] = [3, 5][at % 3];
            let takes: Vec<Rec> = (0..48).map(|class| take(core, class, mode)).collect();
            let held = held.clean(&takes);
            let bits = if mode % 3 == E { 4 } else { 8 };
            let kind = if mode % 3 == E { EN } else { SN };
            let was = if at % 3 == 1 && mode < 3 { 16 } else { 0 };
            let on = held.clone().clean(&[event(core, HARD_ON)]);
            assert_eq!(on.desk[34..82], [was | bits; 48]);
            assert_eq!(on.desk[82..98], [0; 16]);
            for place in 0..48u8 {
                let mut b = held
                    .clone()
                    .clean(&[event(2, ENTER_HARD), take(2, place, E)]);
                assert_eq!(b.step(&event(core, HARD_ON)), 1);
                assert_eq!(b.slip[..8], entries(&[(place, kind, 1, 0)]));
            }
        }
    }
    // In a hard handler one place is a try: it alone gets no safe mark, then or later; or
    // it alone gets one.
    for at in [2usize, 11, 23] {
        let core = at as u8 / 3;
        for place in [0u8, 1, 7, 8, 15, 16, 19, 20, 21, 31, 32, 39, 40, 46, 47] {
            for (others, one) in [(R, TRR), (TRR, R), (E, TE), (TE, E)] {
                let mode = |class| if class == place { one } else { others };
                let takes: Vec<Rec> = (0..48).map(|c| take(core, c, mode(c))).collect();
                let mut b = Bench::new(48);
                b.desk[2 + at / 3] = 8;
                let mut b = b.clean(&takes);
                let marks: Vec<u8> = (0..48)
                    .map(|c| [1, 1, 2, 0, 0, 0][mode(c) as usize])
                    .collect();
                assert_eq!(b.desk[34..82], marks, "{others}, at {place} {one}");
                // A release below moves the bit along; marks are as they were.
                let gone = if place == 0 { 1 } else { 0 };
                assert_eq!(b.step(&release(core, gone, mode(gone))), 0);
                assert_eq!(b.desk[34..82], marks);
            }
        }
    }
}

#[test]
fn the_newest_of_two_places() {
    // Class 1 at two of 48 places, as another byte and another origin; class 0 elsewhere.
    for older in 0..48usize {
        for newer in older + 1..48 {
            let at = (older + 7 * newer) % 24;
            let by_try = (older + newer) % 2 == 0;
            let mut b = Bench::new(2);
            b.desk[2 + at / 3] = [3, 5, 6][at % 3];
            b.desk[10 + at] = 48;
            let mut holds = vec![128; 48];
            (holds[older], holds[newer]) = (1, 65);
            b.desk[98 + 48 * at..146 + 48 * at].copy_from_slice(&holds);
            let mut bits = vec![false; 1152];
            bits[48 * at + if by_try { older } else { newer }] = true;
            b.desk[1250..1394].copy_from_slice(&packed(&bits));
            let modes = if by_try { [NR, TE] } else { [TR, E] };
            for (gone, mode) in [newer, older].into_iter().zip(modes) {
                assert_eq!(b.step(&release(at as u8 / 3, 1, mode)), 0);
                holds.remove(gone);
                holds.push(0);
                bits.insert(48 * at + 48, false);
                bits.remove(48 * at + gone);
                assert_eq!(b.desk[98 + 48 * at..146 + 48 * at], holds);
                assert_eq!(b.desk[1250..1394], packed(&bits));
            }
            assert_eq!(b.desk[10 + at], 46);
            for mode in MODES {
                b.refused(&release(at as u8 / 3, 1, mode), 5);
            }
        }
    }
}

#[test]
fn desks_of_every_length() {
    let opened = Bench::new(2).clean(&[take(0, 0, R), take(0, 1, TRR)]);
    for length in (0..=1700).step_by(3).chain([1397, 1398, 1673, 1674]) {
        let mut b = lent(length, 4, 16, 15);
        if length < 1674 {
            // "Old desks in shorter buffers get 11"; opening gives 2.
            let before = b.clone();
            assert_eq!(b.open(2), 2);
            assert_eq!(b, before);
            let mut fed = Fed::new(b.clone());
            assert_eq!(fed.feed(&log(2, &[take(0, 0, R)])), (2, 0));
            assert_eq!(fed.b, before);
            for desk in [&opened.desk, &old_layout(&opened)] {
                b.desk = desk.clone();
                b.desk.resize(length, 0);
                b.refused(&take(0, 0, R), 11);
                b.refused(&event(0, HARD_OFF), 11);
                assert_eq!(b.ask(0), (11, 0, 0));
                assert_eq!(b.unfit(), Some("desk too short"));
            }
            continue;
        }
        assert_eq!(b.open(2), 0);
        let mut b = b.clean(&[take(0, 0, R), take(0, 1, TRR)]);
        assert!(b.desk[1674..].iter().all(|&x| x == 0xA5));
        b.desk.truncate(1674);
        assert_eq!(b, opened);
    }
    // The old sizes, the next shorter one and some others, with every call.
    for length in [
        577, 578, 638, 641, 642, 643, 1250, 1393, 1394, 1397, 1398, 1673,
    ] {
        for fill in [0, 1, 0xA5, 255] {
            for desk in [&opened.desk, &old_layout(&opened), &Bench::new(2).desk] {
                let mut b = opened.clone();
                b.desk = desk.clone();
                b.desk.resize(length, fill);
                assert_unfit(&b);
                let before = b.clone();
                assert_eq!(b.open(2), 2);
                assert_eq!(b, before);
            }
        }
    }
    for length in [1674, 1675, 1676, 2000, 70_000] {
        let mut b = opened.clone();
        b.desk.resize(length, 0xA5);
        let mut after = b.counted();
        after.desk[2] = 2;
        assert_eq!(b.step(&event(0, HARD_OFF)), 0);
        assert_eq!(b, after);
        assert_eq!(b.ask(0), (0, 0, 0));
    }
}

/// The desk of a bench as it lay before request g, in 642 bytes: 20 holds a frame from 98
/// on, 20 bits a frame from 578 on, the count from 638 on.
fn old_layout(b: &Bench) -> Vec<u8> {
    let mut old = vec![0; 642];
    old[..98].copy_from_slice(&b.desk[..98]);
    for at in 0..24 {
        assert!(b.desk[10 + at] <= 20);
        for place in 0..20 {
            old[98 + 20 * at + place] = b.desk[98 + 48 * at + place];
            let origin = b.desk[1250 + 6 * at + place / 8] >> (place % 8) & 1;
            old[578 + (20 * at + place) / 8] |= origin << ((20 * at + place) % 8);
        }
    }
    old[638..].copy_from_slice(&b.desk[1394..1398]);
    old
}

/// This bench with an old desk, and these bytes behind up to 1,674.
fn with_old_desk(b: &Bench, old: &[u8], fill: u8) -> Bench {
    let mut b = b.clone();
    b.desk = old.to_vec();
    b.desk.resize(1674, fill);
    b
}

#[test]
fn old_desks_that_read_the_same() {
    // Freshly opened: all zero but K.
    for k in [1, 2, 3, 8, 20, 48, 63, 64] {
        let b = Bench::new(k);
        let mut old = vec![0; 642];
        old[0] = k as u8;
        assert_eq!(old_layout(&b), old);
        assert_eq!(with_old_desk(&b, &old, 0), b);
        // Any other byte behind it is an unused place or origin, or of the count.
        for at in 642..1398 {
            let mut b = b.clone();
            b.desk[at] = 1 + (at % 255) as u8;
            assert_eq!(b.unfit().is_none(), at >= 1394, "byte {at}");
            assert_eq!(fit_by_hand(&b), at >= 1394);
            if k == 3 && at < 1394 {
                assert_unfit(&b);
            }
        }
        for fill in [1, 64, 128, 192, 0xA5, 255] {
            let b = with_old_desk(&b, &old, fill);
            assert_eq!(b.unfit(), Some("unused hold not 0"));
            if k == 3 {
                assert_unfit(&b);
            }
        }
        let mut counted = with_old_desk(&b, &old, 0);
        counted.desk[1394..1398].copy_from_slice(&[4, 3, 2, 1]);
        assert_eq!(counted.step(&event(0, HARD_ON)), 0);
        assert_eq!(counted.count(), 0x0102_0305);
    }
    // With a count of 0, waits in core 0's task frame alone: no byte lies elsewhere.
    for depth in 0..=20u8 {
        let mut b = Bench::new(32);
        b.desk[10] = depth;
        for place in 0..depth {
            b.desk[98 + place as usize] = place + 64 * (place % 3);
        }
        b.desk[34..66].fill(4);
        let old = old_layout(&b);
        let mut same = with_old_desk(&b, &old, 0);
        assert_eq!(same, b);
        assert_eq!(same.unfit(), None);
        assert_eq!(same.step(&take(0, 31, E)), 0);
        assert_eq!(same.count(), 1);
        assert_eq!(same.desk[10], depth + 1);
        assert_eq!(same.desk[98 + depth as usize], 31);
        assert!(same.desk[638..642].iter().all(|&x| x == 0));
    }
    // Class 0 held exclusively is a byte of 0, wherever it lies.
    for at in 0..24usize {
        let mut b = Bench::new(1);
        b.desk[2 + at / 3] = [0, 5, 6][at % 3];
        b.desk[10 + at] = 20;
        assert_eq!(with_old_desk(&b, &old_layout(&b), 0), b);
    }
}

#[test]
fn old_desks_that_are_unfit() {
    // After one record, by hand: 1E held by core 0's task. The count's byte 638 is place 12
    // of core 3's hard frame.
    let b = Bench::new(3).clean(&[take(0, 1, E)]);
    let mut old = vec![0; 642];
    (old[0], old[10], old[35], old[98], old[638]) = (3, 1, 68, 1, 1);
    assert_eq!(old_layout(&b), old);
    let mut long = with_old_desk(&b, &old, 0);
    assert_eq!(long.unfit(), Some("unused hold not 0"));
    assert_unfit(&long);
    // Without the count it is as in the new layout; the new one has its own place.
    long.desk[638] = 0;
    assert_eq!(long.unfit(), None);
    long.desk[1394] = 1;
    assert_eq!(long, b);
    // A byte in any other frame lies in a frame before it.
    for at in 1..24usize {
        for place in 0..20usize {
            let mut b = Bench::new(8);
            b.desk[2 + at / 3] = [0, 5, 6][at % 3];
            b.desk[10 + at] = place as u8 + 1;
            b.desk[98 + 48 * at + place] = 5 + 128;
            assert_eq!(b.unfit(), None);
            let long = with_old_desk(&b, &old_layout(&b), 0);
            assert_eq!(long.desk[98 + 20 * at + place], 133);
            assert_eq!(long.unfit(), Some("unused hold not 0"));
            if place % 8 == 0 {
                assert_unfit(&long);
            }
        }
    }
    // So does an origin, and one of core 0's task frame: from 578 on are core 3's soft and
    // hard frames.
    for at in 0..24usize {
        for place in 0..20usize {
            let mut b = Bench::new(1);
            b.desk[2 + at / 3] = [0, 5, 6][at % 3];
            b.desk[10 + at] = place as u8 + 1;
            b.desk[1250 + 6 * at + place / 8] = 1 << (place % 8);
            assert_eq!(b.unfit(), None);
            let old = old_layout(&b);
            let bit = 20 * at + place;
            assert_eq!(old[578 + bit / 8], 1 << (bit % 8));
            let long = with_old_desk(&b, &old, 0);
            assert_eq!(long.unfit(), Some("unused hold not 0"));
            if place % 8 == 0 {
                assert_unfit(&long);
            }
        }
    }
    // Any bit of the count.
    for bit in 0..32 {
        let mut b = Bench::new(64);
        b.set_count(1 << bit);
        let long = with_old_desk(&b, &old_layout(&b), 0);
        assert_eq!(long.unfit(), Some("unused hold not 0"));
        assert_unfit(&long);
        // Both counts too.
        let mut both = long.clone();
        both.set_count(1 << bit);
        assert_unfit(&both);
    }
    // Sheets with arrows, and the count where it lay or nowhere.
    let b = Bench::new(3).clean(&p2_records()[..4]);
    let mut long = with_old_desk(&b, &old_layout(&b), 0);
    assert_unfit(&long);
    // Without it, it is fit in the new layout, with a count of 0 (02 i).
    long.desk[638] = 0;
    assert_eq!(
        (long.unfit(), long.count(), long.number(1, 2)),
        (None, 0, 2)
    );
    assert!(fit_by_hand(&long));
    assert_eq!(long.clone().step(&event(0, HARD_ON)), 0);
    long.set_count(4);
    assert_eq!(long, b);
}

#[test]
fn an_old_count_read_as_a_hold() {
    // Core 3's hard frame holds 16, in the old layout class 0 by exclusive waits; the count
    // of 5 is then the class at place 12. "in longer ones they are read in the new layout".
    let mut b = Bench::new(8);
    (b.desk[5], b.desk[10 + 11]) = (6, 16);
    b.set_count(5);
    assert_eq!(b.unfit(), None);
    let mut long = with_old_desk(&b, &old_layout(&b), 0);
    assert_eq!((long.desk[638], long.count()), (5, 0));
    assert_eq!(long.unfit(), None);
    assert!(fit_by_hand(&long));
    long.refused(&release(3, 4, E), 5);
    let mut after = long.clone();
    after.desk[10 + 11] = 15;
    (after.desk[34], after.desk[34 + 5]) = (1, 0);
    after.desk[638] = 0;
    after.set_count(1);
    assert_eq!(long.step(&release(3, 5, E)), 0);
    assert_eq!(long, after);
    // With 12 it is unused, with 13 it stands; a class of K or more doesn't.
    for (depth, count, fit) in [
        (12, 5, false),
        (13, 5, true),
        (13, 8, false),
        (13, 7, true),
        (13, 64 + 7, true),
        (13, 128 + 7, true),
        (13, 192 + 7, false),
        (13, 256, false),
        (14, 256, true),
        (16, 0x0102_0304, true),
        (15, 0x0102_0304, false),
        (16, 0x0802_0304, false),
    ] {
        b.desk[10 + 11] = depth;
        b.set_count(count);
        let long = with_old_desk(&b, &old_layout(&b), 0);
        assert_eq!(long.unfit().is_none(), fit, "{depth} {count}");
        assert_eq!(fit_by_hand(&long), fit);
        if !fit {
            assert_unfit(&long);
        }
    }
}

#[test]
fn old_desks_of_runs() {
    // Runs of any records with up to 20 holds a frame; the desk as it lay before, in longer
    // buffers: unfit, as the count isn't 0.
    let mut dice = Dice(0x01DD_E5C5_0F20_0001);
    let mut deepest = 0;
    for round in 0..150u64 {
        let k = 1 + dice.under(8);
        let mut b = Bench::new(k as usize);
        for _ in 0..1 + dice.under(120) {
            let r = if round % 2 == 0 {
                deep_record(&mut dice, k, &[R, TRR])
            } else {
                random_record(&mut dice, k, &MODES)
            };
            let mut next = b.clone();
            let answer = next.step(&r);
            if answer == 0 && r[2] < 3 && next.desk[10..34].iter().all(|&depth| depth <= 20) {
                b = next;
            }
        }
        deepest = deepest.max(*b.desk[10..34].iter().max().unwrap());
        let old = old_layout(&b);
        if b.count() == 0 {
            assert_eq!(with_old_desk(&b, &old, 0), b);
            continue;
        }
        // Cores 0 to 2: nothing stands in core 3's hard frame, where the count is now.
        assert_eq!(b.desk[10 + 11], 0);
        for fill in [0, 1, 0xA5, dice.next() as u8] {
            let mut long = with_old_desk(&b, &old, fill);
            assert_unfit(&long);
            // Longer still, with anything behind.
            long.desk.extend([7; 30]);
            assert_unfit(&long);
        }
        let mut long = with_old_desk(&b, &old, 0);
        for byte in &mut long.desk[642..] {
            *byte = dice.next() as u8;
        }
        assert_unfit(&long);
        // Opening makes it a new one.
        assert_eq!(long.open(k), 0);
        assert_eq!(long.desk, Bench::new(k as usize).desk);
    }
    assert_eq!(deepest, 20);
}

#[test]
fn fit_or_unfit_by_hand() {
    // Desks with any depths, and then some bytes changed: the fit test a second way.
    let mut dice = Dice(0xF17B_4A4D_0048_0001);
    let (mut fits, mut unfits) = (0, 0);
    for _ in 0..15_000 {
        let k = 1 + dice.under(4) as usize;
        let mut b = Bench::new(k);
        for at in 0..24 {
            if at % 3 == 0 {
                b.desk[2 + at / 3] = dice.under(9) as u8;
            }
            let depth = match dice.under(6) {
                0 => dice.under(49) as usize,
                1 => [20, 21, 31, 32, 40, 47, 48][dice.under(7) as usize],
                _ => 0,
            };
            let state = b.desk[2 + at / 3];
            let may_hold = [true, [4, 5, 8].contains(&state), state > 5][at % 3];
            if !may_hold {
                continue;
            }
            b.desk[10 + at] = depth as u8;
            for place in 0..depth {
                let hold = dice.under(k as u64) + 64 * dice.under(3);
                b.desk[98 + 48 * at + place] = hold as u8;
                let bit = (dice.under(2) as u8) << (place % 8);
                b.desk[1250 + 6 * at + place / 8] |= bit;
            }
        }
        assert_eq!(b.unfit(), None);
        assert!(fit_by_hand(&b));
        for _ in 0..1 + dice.under(2) {
            let at = match dice.under(4) {
                0 => dice.under(34),
                1 => 1250 + dice.under(148),
                _ => 98 + dice.under(1152),
            } as usize;
            b.desk[at] = match dice.under(4) {
                0 => b.desk[at] ^ 1 << dice.under(8),
                1 => 0,
                2 => dice.under(k as u64) as u8,
                _ => b.desk[at].wrapping_add([1, 255][dice.under(2) as usize]),
            };
        }
        let fit = fit_by_hand(&b);
        assert_eq!(b.unfit().is_none(), fit, "{:?}", b.desk);
        fits += u64::from(fit);
        unfits += u64::from(!fit);
        if !fit {
            b.refused(&take(0, 0, R), 11);
        }
    }
    assert!(fits > 3_000 && unfits > 3_000, "{fits} fit, {unfits} not");
}

// -------------------------------------------------------------- strict release

impl Bench {
    /// Writes the holds of a frame by hand, oldest first: class, and mode as in the take.
    fn put(&mut self, at: usize, holds: &[(u8, u8)]) {
        self.desk[10 + at] = holds.len() as u8;
        self.desk[98 + 48 * at..146 + 48 * at].fill(0);
        self.desk[1250 + 6 * at..1256 + 6 * at].fill(0);
        for (place, &(class, mode)) in holds.iter().enumerate() {
            self.desk[98 + 48 * at + place] = class + 64 * (mode % 3);
            self.desk[1250 + 6 * at + place / 8] |= u8::from(mode >= 3) << (place % 8);
        }
    }
    /// The same holds in all frames but this one and those of its core above it; the other
    /// cores are in state 8.
    fn put_elsewhere(&mut self, at: usize, holds: &[(u8, u8)]) {
        for other in (0..24).filter(|other| other / 3 != at / 3 || *other < at) {
            if other / 3 != at / 3 {
                self.desk[2 + other / 3] = 8;
            }
            self.put(other, holds);
        }
    }
    /// This bench after a record of the core in state 3, 5 or 8 that leaves these holds in
    /// its frame: counted, and each of them marked.
    fn left_with(&self, at: usize, holds: &[(u8, u8)]) -> Bench {
        let mut b = self.counted();
        b.put(at, holds);
        for &(class, mode) in holds.iter().filter(|hold| hold.1 < 3) {
            let safe: u8 = [0, 16, 1][at % 3];
            b.desk[34 + class as usize] |= if mode == R { 2 * safe } else { safe };
        }
        b
    }
}

/// A bench with a core in the frame of this number, in state 3, 5 or 8, and these holds.
fn holding(k: usize, at: usize, holds: &[(u8, u8)]) -> Bench {
    let mut b = Bench::new(k);
    b.desk[2 + at / 3] = [3, 5, 8][at % 3];
    b.put(at, holds);
    b
}

/// Releases of a class by each of the six modes, on a bench that has these holds in the
/// frame: the mode that fits takes the hold at its place away, the others get 5.
fn assert_only(b: &Bench, at: usize, holds: &[(u8, u8)], class: u8, fits: Option<(u8, usize)>) {
    assert_eq!(b.unfit(), None);
    for mode in MODES {
        let r = release(at as u8 / 3, class, mode);
        match fits {
            Some((own, place)) if own == mode => {
                let mut left = holds.to_vec();
                left.remove(place);
                let mut after = b.clone();
                assert_eq!(after.step(&r), 0, "frame {at}, {holds:?}, {r:?}");
                assert_eq!(
                    after,
                    b.left_with(at, &left),
                    "frame {at}, {holds:?}, {r:?}"
                );
            }
            _ => b.refused(&r, 5),
        }
    }
}

#[test]
fn the_mode_taken() {
    // Rows: taken by E, r, R and tries of them; columns: released by the same.
    let answers: [[u8; 6]; 6] = [
        [0, 5, 5, 5, 5, 5],
        [5, 0, 5, 5, 5, 5],
        [5, 5, 0, 5, 5, 5],
        [5, 5, 5, 0, 5, 5],
        [5, 5, 5, 5, 0, 5],
        [5, 5, 5, 5, 5, 0],
    ];
    for (taken, mode) in MODES.into_iter().flat_map(|t| MODES.map(|m| (t, m))) {
        let answer = answers[taken as usize][mode as usize];
        // From opening, by steps, by the records alone and by the program.
        let records = [take(2, 1, taken), release(2, 1, mode)];
        assert_eq!(judge(8, &records), (2, answer), "{taken}, {mode}");
        // In each state; marks stay when the hold goes.
        for (state, (k, class)) in (0..9).flat_map(|state| ENDS.map(|end| (state, end))) {
            let mut b = Bench::new(k);
            b.desk[2 + 7] = state;
            let mut b = b.clean(&[take(7, class as u8, taken)]);
            let r = release(7, class as u8, mode);
            if answer == 5 {
                b.refused(&r, 5);
            } else {
                let mut after = b.counted();
                after.put([21, 21, 21, 21, 22, 22, 23, 23, 23][state as usize], &[]);
                assert_eq!(b.step(&r), 0);
                assert_eq!(b, after);
            }
        }
    }
}

#[test]
fn a_read_released_as_a_write() {
    // "A read released as a write went unnoticed." In bytes: 3R and a release by mode 0.
    let unnoticed = [
        0x4C, 0x48, 0x01, 0x08, //
        0x4C, 0x4B, 0x00, 0x00, 0x03, 0x02, //
        0x4C, 0x4B, 0x00, 0x01, 0x03, 0x00,
    ];
    assert_eq!(program(&unnoticed), "refused 5 at record 2\n");
    let mut as_taken = unnoticed;
    as_taken[15] = 2;
    assert_eq!(program(&as_taken), "clean, 2 records\n");
    as_taken[15] = 5;
    assert_eq!(program(&as_taken), "refused 5 at record 2\n");
    as_taken[15] = 6;
    assert_eq!(program(&as_taken), "refused 3 at record 2\n");
    // P10 with both R, as it was written before and as it is now.
    for (mode, number, answer) in [(E, 2, 5), (NR, 2, 5), (R, 4, 0), (TRR, 2, 5)] {
        let p10 = [
            take(0, 3, R),
            release(0, 3, mode),
            event(0, ENTER_HARD),
            take(0, 3, R),
        ];
        assert_eq!(judge(8, &p10), (number, answer));
    }
    // The refused release leaves the hold standing: hard on marks it, and takes draw from
    // it. Released as taken, it is gone.
    for (mode, answer, mark, arrow) in [(R, 0, 0, 0), (E, 5, 8, SN), (TRR, 5, 8, SN)] {
        let mut b = Bench::new(8).clean(&[event(0, HARD_OFF), take(0, 3, R)]);
        assert_eq!(b.step(&release(0, 3, mode)), answer);
        let b = b.clean(&[take(0, 4, E), event(0, SOFT_OFF), event(0, HARD_ON)]);
        assert_eq!((b.desk[34 + 3], b.sheet[8 * 3 + 4]), (mark, arrow));
        assert_eq!(b.desk[34 + 4], 4);
        assert_eq!(b.desk[10], if answer == 0 { 1 } else { 2 });
        assert_eq!(b.number(3, 4), if answer == 0 { 0 } else { 3 });
        assert_eq!(b.count(), if answer == 0 { 6 } else { 5 });
    }
}

#[test]
fn the_newest_decides() {
    // One class twice, in all 36 pairs of modes: the newer's mode alone, though the older's
    // would fit the older.
    for at in 0..24usize {
        let core = at as u8 / 3;
        for (older, newer) in MODES.into_iter().flat_map(|o| MODES.map(|n| (o, n))) {
            let holds = [(1, older), (1, newer)];
            let b = holding(3, at, &holds);
            assert_only(&b, at, &holds, 1, Some((newer, 1)));
            assert_only(&b, at, &holds, 0, None);
            if older != newer {
                b.refused(&release(core, 1, older), 5);
            }
            // With the newer gone it is the older's mode, and then none.
            let b = b.clean(&[release(core, 1, newer)]);
            assert_only(&b, at, &holds[..1], 1, Some((older, 0)));
            let b = b.clean(&[release(core, 1, older)]);
            assert_only(&b, at, &[], 1, None);
        }
    }
    // From opening: a try over any hold, or a recursive read over a read.
    let mut pairs: Vec<(u8, u8)> = [NR, R, TR, TRR].map(|older| (older, R)).to_vec();
    for older in MODES {
        pairs.extend([TE, TR, TRR].map(|newer| (older, newer)));
    }
    for (older, newer) in pairs {
        for mode in MODES {
            let records = [take(0, 1, older), take(0, 1, newer), release(0, 1, mode)];
            let answer = if mode == newer { 0 } else { 5 };
            assert_eq!(judge(8, &records), (3, answer), "{records:?}");
        }
    }
    // By hand: exclusive, then by a try for recursive read, then a release by mode 0.
    let bytes = [
        0x4C, 0x48, 0x01, 0x02, //
        0x4C, 0x4B, 0x00, 0x00, 0x01, 0x00, //
        0x4C, 0x4B, 0x00, 0x00, 0x01, 0x05, //
        0x4C, 0x4B, 0x00, 0x01, 0x01, 0x00, //
        0x4C, 0x4B, 0x00, 0x01, 0x01, 0x00,
    ];
    assert_eq!(program(&bytes), "refused 5 at record 3\n");
    let mut newest_first = bytes;
    newest_first[21] = 5;
    assert_eq!(program(&newest_first), "clean, 4 records\n");
}

#[test]
fn holds_of_other_classes() {
    // Above, below or on both sides of the class, in all modes: they have no part in it.
    for at in [0usize, 1, 2, 12, 13, 23] {
        for i in 0..216 {
            let (own, above, below) = (i % 6, i / 6 % 6, i / 36);
            for (holds, place) in [
                (vec![(1, own), (2, above)], 0),
                (vec![(2, below), (1, own)], 1),
                (vec![(2, below), (1, own), (0, above)], 1),
                (vec![(1, own), (2, above), (0, below), (2, own)], 0),
            ] {
                let b = holding(4, at, &holds);
                assert_only(&b, at, &holds, 1, Some((own, place)));
                // Nothing of this class, whatever modes the others have.
                assert_only(&b, at, &holds, 3, None);
            }
        }
    }
    // Two of the class, one other between them and one above: the newer of the two.
    for at in [0usize, 10, 23] {
        for i in 0..1296u16 {
            let [a, b, c, d] = [i % 6, i / 6 % 6, i / 36 % 6, i / 216].map(|mode| mode as u8);
            let holds = [(1, a), (2, b), (1, c), (2, d)];
            let bench = holding(3, at, &holds);
            assert_only(&bench, at, &holds, 1, Some((c, 2)));
            assert_only(&bench, at, &holds, 2, Some((d, 3)));
        }
    }
    // From opening: 1R under 2E, by the mode of 1 and not of 2, in both orders.
    for (records, answers) in [
        (
            [release(0, 1, E), release(0, 1, R), release(0, 2, E)],
            [5, 0, 0],
        ),
        (
            [release(0, 2, R), release(0, 2, E), release(0, 1, R)],
            [5, 0, 0],
        ),
        (
            [release(0, 1, R), release(0, 2, R), release(0, 2, E)],
            [0, 5, 0],
        ),
        (
            [release(0, 1, R), release(0, 1, R), release(0, 1, E)],
            [0, 5, 5],
        ),
    ] {
        let mut b = Bench::new(3).clean(&[take(0, 1, R), take(0, 2, E)]);
        assert_eq!(records.map(|r| b.step(&r)), answers);
    }
}

#[test]
fn each_frame_for_itself() {
    // The class in the current frame by one mode and in another frame of this core or of
    // another core by each mode.
    for at in 0..24usize {
        for other in (0..24).filter(|other| other / 3 != at / 3 || *other < at) {
            for (own, there) in MODES.into_iter().flat_map(|o| MODES.map(|t| (o, t))) {
                let mut b = holding(3, at, &[(1, own)]);
                if other / 3 != at / 3 {
                    b.desk[2 + other / 3] = 8;
                }
                b.put(other, &[(1, there)]);
                assert_only(&b, at, &[(1, own)], 1, Some((own, 0)));
                // Not held here at all.
                if own == there {
                    b.put(at, &[]);
                    assert_only(&b, at, &[], 1, None);
                }
            }
        }
    }
    // All other frames at once, by one other mode.
    for at in 0..24usize {
        for (own, there) in MODES.into_iter().flat_map(|o| MODES.map(|t| (o, t))) {
            let mut b = holding(3, at, &[(2, there), (1, own)]);
            b.put_elsewhere(at, &[(1, own), (1, there)]);
            assert_only(&b, at, &[(2, there), (1, own)], 1, Some((own, 1)));
            b.put(at, &[(2, there)]);
            assert_only(&b, at, &[(2, there)], 1, None);
        }
    }
    // From opening: a task's hold doesn't count in a handler, by whatever mode.
    for taken in MODES {
        for enter in [ENTER_SOFT, ENTER_HARD] {
            for mode in MODES {
                let list = [take(0, 1, taken), event(0, enter), release(0, 1, mode)];
                assert_eq!(judge(8, &list), (3, 5));
            }
        }
        for mode in MODES {
            assert_eq!(judge(8, &[take(0, 1, taken), release(1, 1, mode)]), (2, 5));
        }
    }
    // 1R in the task, by a try for recursive read in the hard handler over it, by a try for
    // read on core 1. Each goes by its own mode and in its own place.
    let mut b = Bench::new(2).clean(&[
        take(0, 1, R),
        event(0, ENTER_HARD),
        take(0, 1, TRR),
        take(1, 1, TR),
    ]);
    for (r, answer) in [
        (release(0, 1, R), 5),
        (release(0, 1, TR), 5),
        (release(1, 1, R), 5),
        (release(1, 1, TRR), 5),
        (release(0, 1, TRR), 0),
        (release(0, 1, R), 5), // still in the handler
        (event(0, EXIT_HARD), 0),
        (release(0, 1, TRR), 5),
        (release(0, 1, R), 0),
        (release(0, 1, R), 5),
        (release(1, 1, TR), 0),
        (release(1, 1, TR), 5),
    ] {
        let before = b.clone();
        assert_eq!(b.step(&r), answer, "{r:?}");
        assert_eq!(b == before, answer == 5);
    }
    assert!(b.desk[10..34]
        .iter()
        .chain(&b.desk[98..1394])
        .all(|&x| x == 0));
}

#[test]
fn a_refused_release_changes_no_byte() {
    // Buffers longer than they must be; holds, arrows, marks and numbers stand on them.
    let mut b = lent(DESK + 40, 9 + 40, 36 + 40, 22 + 40);
    assert_eq!(b.open(3), 0);
    let b = b.clean(&[
        take(0, 1, E),
        take(0, 0, NR),
        take(0, 2, TE),
        take(0, 1, TRR),
        event(1, ENTER_SOFT),
        take(1, 1, TR),
        event(2, HARD_OFF),
        take(2, 0, R),
        take(2, 0, TRR),
        take(2, 0, R),
    ]);
    assert!(b.sheet[..9].iter().any(|&kinds| kinds != 0));
    let fits = [(0, 0, NR), (0, 1, TRR), (0, 2, TE), (1, 1, TR), (2, 0, R)];
    let mut accepted = 0;
    for core in 0..=9u8 {
        for class in [0, 1, 2, 3, 4, 62, 63, 64, 65, 66, 127, 128, 129, 192, 255] {
            for mode in 0..=255u8 {
                let r = release(core, class, mode);
                let answer = match (core, class, mode) {
                    (8.., _, _) | (_, _, 6..) => 3,
                    (_, 3.., _) => 4,
                    _ => 5,
                };
                if fits.contains(&(core, class, mode)) {
                    accepted += 1;
                    assert_eq!(b.clone().step(&r), 0);
                    continue;
                }
                b.refused(&r, answer);
                // By an opened feed the answer stands, and no byte of the bench changes.
                if mode < 8 || mode > 253 {
                    let mut fed = Fed::lying(0, 1, 0, &[], 10, b.clone());
                    assert_eq!(fed.feed(&r), (answer, 11));
                    assert_eq!(fed, Fed::lying(answer, 1, 0, &[], 11, b.clone()));
                }
            }
        }
    }
    assert_eq!(accepted, 5);
}

#[test]
fn refusals_of_a_release_in_order() {
    // One thing wrong for each of 11, 10, 3, 4, 5, 9, in all 64 ways together: the first of
    // them is the answer.
    for (wrong, taken) in (0..64u8).flat_map(|wrong| MODES.map(|taken| (wrong, taken))) {
        let [unfit, closed, three, four, five, nine] =
            [0, 1, 2, 3, 4, 5].map(|i| wrong >> i & 1 == 1);
        for (not_fitting, core, class) in [
            ((taken + 1) % 6, 3, 1), // another mode
            ((taken + 3) % 6, 3, 1), // the other origin
            (taken, 3, 2),           // another class
            (taken, 4, 1),           // another core
        ] {
            let mut b = Bench::new(4).clean(&[take(3, 1, taken), take(5, 2, taken)]);
            b.desk[1] = u8::from(closed);
            if nine {
                b.set_count(u32::MAX);
            }
            if unfit {
                b.sheet[15] = 16;
            }
            let mut r = release(3, 1, taken);
            if five {
                r = release(core, class, not_fitting);
            }
            if four {
                r[4] = 4;
            }
            if three {
                r[5] += 6;
            }
            let answers = [
                (unfit, 11),
                (closed, 10),
                (three, 3),
                (four, 4),
                (five, 5),
                (nine, 9),
            ];
            match answers.iter().find(|this| this.0) {
                Some(&(_, answer)) => b.refused(&r, answer),
                None => assert_eq!(b.step(&r), 0),
            }
        }
    }
    // By hand. Class K or more: 4 by each of the modes 0 to 5, and 3 by those above.
    for k in [1u8, 3, 63, 64] {
        let b = Bench::new(k as usize).clean(&[take(0, k - 1, TRR)]);
        for class in [k, 64, 128 + k - 1, 192 + k - 1, 255] {
            for mode in MODES {
                b.refused(&release(0, class, mode), 4);
            }
            for mode in 6..=255 {
                b.refused(&release(0, class, mode), 3);
            }
        }
    }
    // At the limit of the count: 9 by the mode that fits, 5 by the others.
    for (taken, mode) in MODES.into_iter().flat_map(|t| MODES.map(|m| (t, m))) {
        let mut b = Bench::new(8).clean(&[take(0, 1, taken)]);
        b.set_count(u32::MAX);
        b.refused(&release(0, 1, mode), if mode == taken { 9 } else { 5 });
        // In a full frame it is the same, and never 8.
        let mut full = holding(8, 0, &[(1, taken); 48]);
        full.refused(&take(0, 1, mode), 8);
        assert_eq!(
            full.clone().step(&release(0, 1, mode)),
            if mode == taken { 0 } else { 5 }
        );
        full.set_count(u32::MAX);
        full.refused(&release(0, 1, mode), if mode == taken { 9 } else { 5 });
    }
}

#[test]
fn from_the_newest_to_the_oldest() {
    // Three of one class, in all modes: each goes by its own mode, once those above it are
    // gone, and by no other.
    for at in [0usize, 1, 2, 16, 23] {
        for i in 0..216u8 {
            let holds = [(1, i % 6), (1, i / 6 % 6), (1, i / 36)];
            let mut b = holding(2, at, &holds);
            for top in [2usize, 1, 0] {
                let (class, mode) = holds[top];
                assert_only(&b, at, &holds[..=top], class, Some((mode, top)));
                b = b.clean(&[release(at as u8 / 3, class, mode)]);
            }
            assert_only(&b, at, &[], 1, None);
        }
    }
    // By hand, from opening, with the books beside it: 1R, then by tries for exclusive and
    // for read.
    let list = [
        (take(0, 1, R), 0),
        (take(0, 1, TE), 0),
        (take(0, 1, TR), 0),
        (release(0, 1, R), 5),
        (release(0, 1, TE), 5),
        (release(0, 1, NR), 5),
        (release(0, 1, TR), 0),
        (release(0, 1, TR), 5),
        (release(0, 1, R), 5),
        (release(0, 1, TE), 0),
        (release(0, 1, TE), 5),
        (release(0, 1, R), 0),
        (release(0, 1, R), 5),
    ];
    let mut b = Bench::new(2);
    let mut books = Books::open(2).unwrap();
    for (r, answer) in list {
        assert_eq!(b.step(&r), answer, "{r:?}");
        assert_eq!(books.enter(&r), answer == 0, "{r:?}");
    }
    assert_eq!((b.count(), books.accepted()), (6, 6));
    // Taken anew after a release, the newest is the one taken last.
    let b = Bench::new(2).clean(&[
        take(0, 1, R),
        take(0, 1, TE),
        release(0, 1, TE),
        take(0, 1, TR),
    ]);
    b.refused(&release(0, 1, TE), 5);
    b.refused(&release(0, 1, R), 5);
    b.clean(&[release(0, 1, TR), release(0, 1, R)]);
}

#[test]
fn forty_eight_of_mixed_modes() {
    // One class, three, or 48 of them, released from the top. Elsewhere stand the same, each
    // of the other origin.
    for at in 0..24usize {
        for classes in [1, 3, 48] {
            let mode = |place: u8| (place % 7 * 5 + place / 7 + at as u8) % 6;
            let holds: Vec<(u8, u8)> = (0..48).map(|p| (p % classes, mode(p))).collect();
            let others: Vec<(u8, u8)> = holds.iter().map(|h| (h.0, (h.1 + 3) % 6)).collect();
            let mut b = holding(48, at, &holds);
            b.put_elsewhere(at, &others);
            let elsewhere = b.clone();
            for top in (0..48).rev() {
                let (class, mode) = holds[top];
                assert_only(&b, at, &holds[..=top], class, Some((mode, top)));
                b = b.clean(&[release(at as u8 / 3, class, mode)]);
            }
            assert_eq!(b.count(), 48);
            let mut gone = elsewhere;
            gone.put(at, &[]);
            assert_eq!(b.desk[98..1394], gone.desk[98..1394]);
            // From the bottom, where each class stands once.
            if classes == 48 {
                b.put(at, &holds);
                for bottom in 0..48 {
                    let (class, mode) = holds[bottom];
                    assert_only(&b, at, &holds[bottom..], class, Some((mode, 0)));
                    b = b.clean(&[release(at as u8 / 3, class, mode)]);
                }
            }
        }
    }
    // From opening, hard and soft off: classes 0 to 47, by all modes in turn.
    let mode = |class: u8| (class + class / 6) % 6;
    let mut records = vec![event(0, SOFT_OFF), event(0, HARD_OFF)];
    records.extend((0..48).map(|class| take(0, class, mode(class))));
    records.extend((0..48).rev().map(|class| release(0, class, mode(class))));
    assert_eq!(judge(48, &records), (98, 0));
    assert_eq!(program(&log(48, &records)), "clean, 98 records\n");
    for at in [50usize, 51, 60, 73, 97] {
        for mode in (0..8).filter(|&mode| mode != records[at][5]) {
            let mut wrong = records.clone();
            wrong[at][5] = mode;
            let answer = if mode < 6 { 5 } else { 3 };
            let text = format!("refused {answer} at record {}\n", at + 1);
            assert_eq!(program(&log(48, &wrong)), text);
        }
    }
}

#[test]
fn the_origin_of_its_own_place() {
    // Class 1 at one place by each mode; class 0 at the others of the frame and class 1 in
    // all other frames, by the other origin.
    for at in 0..24usize {
        for place in 0..48usize {
            for mode in MODES {
                let other = (mode + 3) % 6;
                let mut holds = [(0, other); 48];
                holds[place] = (1, mode);
                let mut b = holding(2, at, &holds);
                b.put_elsewhere(at, &[(1, other); 48]);
                if place % 12 == at % 12 {
                    assert_only(&b, at, &holds, 1, Some((mode, place)));
                    // With nothing above it.
                    b.put(at, &holds[..=place]);
                    assert_only(&b, at, &holds[..=place], 1, Some((mode, place)));
                    continue;
                }
                b.refused(&release(at as u8 / 3, 1, other), 5);
                assert_eq!(b.step(&release(at as u8 / 3, 1, mode)), 0);
            }
        }
    }
}

#[test]
fn malformed_releases() {
    // By a mode over 5, whatever is held and by whatever mode; also where the mode is the
    // one taken but for high bits, or by sixes.
    for taken in MODES {
        let b = Bench::new(8).clean(&[take(0, 1, taken)]);
        for mode in 6..=255 {
            b.refused(&release(0, 1, mode), 3);
        }
        for mode in [6, 7, 128, 255] {
            b.refused(&release(0, 2, mode), 3); // not held
            b.refused(&release(0, 8, mode), 3); // class K
            b.refused(&release(0, 255, mode), 3);
            b.refused(&release(7, 1, mode), 3);
            b.refused(&release(8, 1, mode), 3);
            b.refused(&release(0, 1, mode)[..5], 3);
            let records = [take(0, 1, taken), release(0, 1, mode), release(0, 1, taken)];
            assert_eq!(judge(8, &records), (2, 3));
            assert_eq!(program(&log(8, &records)), "refused 3 at record 2\n");
            let mut books = Books::open(8).unwrap();
            assert_eq!(records.map(|r| books.enter(&r)), [true, false, true]);
        }
        // One byte short, or one more.
        b.refused(&release(0, 1, taken)[..5], 3);
        b.refused(&[&release(0, 1, taken)[..], &[0]].concat(), 3);
    }
    // "class and mode are 0 for kinds 2 to 9" stays, where the kind is allowed and where not.
    for state in 0..9 {
        let mut b = Bench::new(8);
        b.desk[2] = state;
        for kind in 2..10 {
            for (class, mode) in [
                (0, 1),
                (0, 2),
                (0, 3),
                (0, 4),
                (0, 5),
                (0, 6),
                (1, 0),
                (1, 5),
            ] {
                b.refused(&[0x4C, 0x4B, 0, kind, class, mode], 3);
            }
        }
    }
}

#[test]
fn feeds_with_releases() {
    // Each with all cuts into up to four pieces, as the whole log.
    for (records, told) in [
        (vec![take(0, 0, R), release(0, 0, R)], (0, 2)),
        (vec![take(0, 1, TE), release(0, 1, TE)], (0, 2)),
        (vec![take(0, 0, R), release(0, 0, E), take(0, 1, E)], (5, 2)),
        (
            vec![take(0, 0, R), release(0, 0, NR), release(0, 0, R)],
            (5, 2),
        ),
        (
            vec![take(0, 0, TRR), release(0, 0, R), release(0, 0, TRR)],
            (5, 2),
        ),
        (
            vec![take(0, 0, E), take(0, 0, TRR), release(0, 0, E)],
            (5, 3),
        ),
        (
            vec![take(0, 0, E), take(0, 0, TRR), release(0, 0, TRR)],
            (0, 3),
        ),
        (
            vec![take(0, 0, TR), release(0, 0, TR), release(0, 0, TR)],
            (5, 3),
        ),
        (
            vec![take(0, 0, NR), release(0, 0, 6), release(0, 0, NR)],
            (3, 2),
        ),
        (
            vec![take(0, 0, NR), release(0, 2, TRR), take(0, 1, E)],
            (4, 2),
        ),
        (vec![release(0, 1, TRR), take(0, 1, E)], (5, 1)),
        (vec![release(0, 1, 255), take(0, 1, E)], (3, 1)),
    ] {
        let log = log(2, &records);
        assert_eq!(all_cuts(&lent_for(2), &log), [told; 2], "{records:?}");
        let text = match told {
            (0, number) => format!("clean, {number} records\n"),
            (answer, number) => format!("refused {answer} at record {number}\n"),
        };
        assert_eq!(program(&log), text);
        let mut out = Vec::new();
        run_log(&mut Drip(&log, false), &mut out).unwrap();
        assert_eq!(out, text.as_bytes());
    }
    // P2 with reads, each released as taken: 1 SN 2, 2 SN 1. A release by mode 0 stops it.
    let mut p2 = p2_records();
    for r in &mut p2 {
        r[5] = NR;
    }
    let text = "fault at record 6\n1 SN 2 hold\n2 SN 1 hold\n";
    assert_eq!(
        (judge(3, &p2), program(&log(3, &p2)).as_str()),
        ((6, 1), text)
    );
    assert_eq!(all_cuts(&lent_for(3), &log(3, &p2)), [(1, 6); 2]);
    for at in [2, 3] {
        let mut as_before = p2;
        as_before[at][5] = E;
        assert_eq!(judge(3, &as_before), (at + 1, 5));
    }
    // The last byte of a release tells; without it nothing is judged yet.
    let mut fed = Fed::new(lent_for(2));
    assert_eq!(fed.feed(&log(2, &[take(0, 1, TR)])), (0, 1));
    assert_eq!(fed.feed(&release(0, 1, TR)[..5]), (0, 1));
    for mode in 0..=255 {
        let mut fed = fed.clone();
        let before = fed.b.clone();
        let answer = match mode {
            TR => 0,
            0..=5 => 5,
            _ => 3,
        };
        assert_eq!(fed.feed(&[mode]), (answer, 2));
        if answer != 0 {
            assert_eq!(fed.b, before);
            fed.stands(answer, 2);
        }
    }
    assert_eq!(fed.end(), (3, 2));
}

#[test]
fn balances_of_releases_by_all_modes() {
    // A release by any mode 0 to 5 counts, whatever was taken; by any other it doesn't.
    let all: Vec<Rec> = (0..=255).map(|mode| release(0, 9, mode)).collect();
    assert_balance(&all[..6].concat(), &[(9, -6)]);
    assert_balance(&all[..7].concat(), &[(9, -6)]);
    assert_balance(&all.concat(), &[(9, -6)]);
    assert_balance(&all[6..].concat(), &[]);
    for (mode, r) in all.iter().enumerate() {
        let one = if mode < 6 { vec![(9, -1)] } else { vec![] };
        assert_balance(r, &one);
    }
    for (taken, mode) in MODES.into_iter().flat_map(|t| MODES.map(|m| (t, m))) {
        let (t, r) = (take(0, 5, taken), release(0, 5, mode));
        assert_balance(&[t, r].concat(), &[]);
        assert_balance(&[r, t].concat(), &[]);
        assert_balance(&[t, r, r].concat(), &[(5, -1)]);
        assert_balance(&[t, t, r].concat(), &[(5, 1)]);
        assert_balance(&[r, [0; 6], release(0, 5, 6), t, t].concat(), &[(5, 1)]);
        // Joined pieces add theirs.
        let (a, b) = ([t, r, r].concat(), [r, release(3, 6, taken)].concat());
        assert_balance(&[&a[..], &b].concat(), &[(5, -2), (6, -1)]);
    }
    // By class: class c released by mode c, and class 64 and above not at all.
    let each = MODES.map(|mode| release(0, mode, mode)).concat();
    let ones: Vec<(usize, i32)> = (0..6).map(|class| (class, -1)).collect();
    assert_balance(&each, &ones);
    assert_eq!(balance_text(&each), "0 -1\n1 -1\n2 -1\n3 -1\n4 -1\n5 -1\n");
    let high = MODES.map(|mode| release(0, 64 + mode, mode)).concat();
    assert_balance(&high, &[]);
    // 10,000 by all modes in turn: 1,667 by each of 0 to 3, 1,666 by 4 and 5.
    assert_balance(&over_and_over(&all[..6], 60_000), &[(9, -10_000)]);
    // With 6 and 7 in turn too, three in four count.
    assert_balance(&over_and_over(&all[..8], 60_000), &[(9, -7_500)]);
    assert_14(&over_and_over(&all[..8], 60_006));
    // What the desk refuses with 5 from the second record on counts all the same.
    let piece = [
        take(0, 1, E),
        release(0, 1, NR),
        release(0, 1, R),
        release(0, 1, TE),
        release(0, 1, 6),
    ];
    let b = Bench::new(2).clean(&piece[..1]);
    for (r, answer) in piece[1..].iter().zip([5, 5, 5, 3]) {
        b.refused(r, answer);
    }
    assert_balance(&piece.concat(), &[(1, -2)]);
}

#[test]
fn which_releases_name_a_core() {
    // "A record names its core if it meets none of the conditions of refusal 3": a release by
    // a mode 0 to 5, accepted or not, and none by another mode.
    for core in 0..=255 {
        for class in [0, 1, 7, 8, 63, 64, 255] {
            for mode in 0..=255 {
                let named = read_record(&release(core, class, mode)).map(|r| r.core);
                assert_eq!(named, Some(core).filter(|core| *core < 8 && mode < 6));
            }
        }
    }
    // Demand 3 in small. Releases that name no core are put in with any core's number and
    // leave every byte; those by the modes 0 to 5 with a core that the list doesn't name, and
    // they undo no fault.
    let mut dice = Dice(0x0DE3_A4D3_57A1_C700);
    let (mut put_in, mut faults) = ([0u64; 12], 0);
    for _ in 0..1_000 {
        let k = 1 + dice.under(4);
        let mut short = Bench::new(k as usize);
        let (mut nameless, mut long) = (short.clone(), short.clone());
        for _ in 0..40 {
            let mode = 6 + dice.under(250) as u8;
            let r = release(dice.under(8) as u8, dice.under(k) as u8, mode);
            assert_eq!(nameless.step(&r), 3);
            // Core 5 takes by tries alone, so that it draws no arrow, and releases by any
            // mode.
            for _ in 0..dice.under(4) {
                let (class, mode) = (dice.under(k) as u8, dice.under(6) as u8);
                let r = match dice.under(3) {
                    0 => take(5, class, TE + mode % 3),
                    _ => release(5, class, mode),
                };
                put_in[long.step(&r) as usize] += 1;
            }
            let mut r = random_record(&mut dice, k, &[NR, R, R, R, TE, TR, TRR]);
            r[2] %= 5;
            let answers = [&mut short, &mut nameless, &mut long].map(|b| b.step(&r));
            assert_eq!(answers[0], answers[1]);
            assert_eq!(short, nameless);
            // No later than in the shorter list; until then alike.
            assert!(short.desk[1] <= long.desk[1]);
            if long.desk[1] == 1 {
                faults += 1;
                break;
            }
            assert_eq!(answers[0], answers[2]);
            assert_eq!(short.sheet, long.sheet);
        }
    }
    assert!(faults > 100, "{faults} faults");
    assert!(put_in[0] > 3_000 && put_in[5] > 3_000, "{put_in:?}");
}

#[test]
fn releases_of_any_holds() {
    // Any frame with any holds, and one release: looked up in the list of them.
    let mut dice = Dice(0x57A1_C7AE_1EA5_E001);
    let (mut older_fits, mut another_fits, mut elsewhere_fits) = (0, 0, 0);
    let mut answers = [0u64; 12];
    for _ in 0..30_000 {
        let (k, at) = (1 + dice.under(4), dice.under(24) as usize);
        let mut some = |most: u64| -> Vec<(u8, u8)> {
            let depth = dice.under(most + 1);
            (0..depth)
                .map(|_| (dice.under(k) as u8, dice.under(6) as u8))
                .collect()
        };
        let (holds, others) = (some(6), some(3));
        let deep = if some(9).len() == 9 { some(48) } else { holds };
        let mut b = holding(k as usize, at, &deep);
        b.put_elsewhere(at, &others);
        assert_eq!(b.unfit(), None);
        let (class, mode) = (dice.under(k) as u8, dice.under(6) as u8);
        let mut newest = None;
        for (place, hold) in deep.iter().enumerate() {
            if hold.0 == class {
                newest = Some((hold.1, place));
            }
        }
        let r = release(at as u8 / 3, class, mode);
        match newest {
            Some((own, place)) if own == mode => {
                answers[0] += 1;
                let mut left = deep.clone();
                left.remove(place);
                let after = b.left_with(at, &left);
                assert_eq!(b.step(&r), 0);
                assert_eq!(b, after);
            }
            _ => {
                answers[5] += 1;
                b.refused(&r, 5);
                older_fits += u64::from(deep.contains(&(class, mode)));
                another_fits += u64::from(deep.iter().any(|h| h.0 != class && h.1 == mode));
                elsewhere_fits += u64::from(others.contains(&(class, mode)));
            }
        }
    }
    assert!(answers[0] > 2_000 && answers[5] > 5_000, "{answers:?}");
    assert!(
        older_fits > 500 && another_fits > 500 && elsewhere_fits > 500,
        "{older_fits}, {another_fits}, {elsewhere_fits}"
    );
}

#[test]
fn first_seen_with_releases() {
    // By the records alone: a refused release leaves its hold, from which the next take
    // draws; it has no number itself.
    for (taken, mode) in MODES.into_iter().flat_map(|t| MODES.map(|m| (t, m))) {
        let list = [take(0, 0, taken), release(0, 0, mode), take(0, 1, E)];
        let mut books = Books::open(2).unwrap();
        let fits = taken == mode;
        assert_eq!(list.map(|r| books.enter(&r)), [true, fits, true]);
        let (accepted, numbers) = if fits {
            (3, [0, 0, 0, 0])
        } else {
            (2, [0, 2, 0, 0])
        };
        assert_eq!(
            (books.accepted(), books.numbers()),
            (accepted, &numbers[..])
        );
        assert_eq!(first_seen(2, &list), Some(numbers.to_vec()));
        let mut b = Bench::new(2);
        assert_eq!(list.map(|r| b.step(&r)), [0, if fits { 0 } else { 5 }, 0]);
        assert_eq!(b.seen, bytes_of(&numbers));
    }
    // The newest decides here too: 0E and 0 by a try for recursive read, of which first the
    // one and then the other goes; then 1 and 2.
    let list = [
        (take(0, 0, E), true),
        (take(0, 0, TRR), true),
        (release(0, 0, E), false),
        (release(0, 0, R), false),
        (release(0, 0, TE), false),
        (release(0, 0, TRR), true),
        (release(0, 0, TRR), false),
        (take(0, 1, NR), true), // 0 EN 1 by the fourth
        (release(0, 0, NR), false),
        (release(0, 1, E), false),
        (release(0, 0, E), true),
        (release(1, 1, NR), false),
        (take(0, 2, E), true), // 1 SN 2 by the sixth
        (event(0, ENTER_HARD), true),
        (release(0, 2, E), false),
        (release(0, 3, TRR), false), // class K
        (release(0, 1, 6), false),
    ];
    let mut books = Books::open(3).unwrap();
    let mut b = Bench::new(3);
    for (r, accepted) in list {
        assert_eq!(books.enter(&r), accepted, "{r:?}");
        assert_eq!(b.step(&r) == 0, accepted, "{r:?}");
    }
    assert_eq!(books.numbers(), [0, 4, 0, 0, 0, 6, 0, 0, 0]);
    assert_eq!((books.accepted(), b.count()), (7, 7));
    assert_eq!(b.seen, bytes_of(books.numbers()));
}

// ----------------------------------------------------- two benches, one drawing

impl Bench {
    /// Joins this bench and a second into these buffers.
    fn join(&self, second: &Bench, into: &mut Bench) -> u8 {
        join(
            &self.desk,
            &self.sheet,
            &self.seen,
            &second.desk,
            &second.sheet,
            &second.seen,
            &mut into.desk,
            &mut into.sheet,
            &mut into.seen,
            &mut into.slip,
        )
    }
    /// Into buffers that are just enough, of 0xA5: the answer and the joined bench.
    fn joined(&self, second: &Bench) -> (u8, Bench) {
        let mut into = lent_for(self.desk[0] as usize);
        let answer = self.join(second, &mut into);
        (answer, into)
    }
    /// A join that is refused, in this order of the two: nothing may change.
    fn join_refused(&self, second: &Bench, into: &Bench, answer: u8) {
        let mut after = into.clone();
        assert_eq!(self.join(second, &mut after), answer);
        assert_eq!(&after, into);
    }
    /// A join that must be clean, with the slip unchanged.
    fn joined_clean(&self, second: &Bench) -> Bench {
        let (answer, into) = self.joined(second);
        assert_eq!(answer, 0);
        assert!(into.slip.iter().all(|&byte| byte == 0xA5));
        into
    }
    fn books(&self) -> Option<Books> {
        Books::of_bench(&self.desk, &self.sheet, &self.seen)
    }
}

/// Declares the classes of this word that the bench has, takes any of them, and keeps any
/// number of takes. The history is left as it is.
fn in_the_middle(dice: &mut Dice, b: &mut Bench, declared: u64) {
    let declared = (0..b.desk[0]).filter(|class| declared >> class & 1 == 1);
    let mut in_progress = 0;
    for class in declared {
        let (at, bit) = (class as usize / 8, 1 << (class % 8));
        b.desk[1398 + at] |= bit;
        if in_progress < 16 && dice.under(2) == 0 {
            in_progress += 1;
            b.desk[1406 + at] |= bit;
        }
    }
    let kept = [0, 1, 255, 256, dice.under(257)][dice.under(5) as usize];
    b.desk[1414..1418].copy_from_slice(&(kept as u32).to_le_bytes());
    for byte in &mut b.desk[1418..1674] {
        *byte = dice.next() as u8;
    }
}

/// What a join of two fit and open benches of one K should answer and leave in these
/// buffers, worked out kind by kind and mark by mark, with the circle from this function.
fn plainly(
    one: &Bench,
    two: &Bench,
    into: &Bench,
    circle_of: fn(&Bench) -> Option<Vec<Triple>>,
) -> (u8, Bench) {
    let k = one.desk[0] as usize;
    let mut desk = vec![0u8; 1674];
    desk[0] = one.desk[0];
    desk[1398..1406].copy_from_slice(&one.desk[1398..1406]);
    for class in 0..k {
        for bit in 0..8 {
            let has = |b: &Bench| b.desk[34 + class] / (1 << bit) % 2 == 1;
            if has(one) || has(two) {
                desk[34 + class] += 1 << bit;
            }
        }
    }
    let (mut sheet, mut seen) = (vec![], vec![]);
    for from in 0..k {
        for to in 0..k {
            let kinds = [1, 2, 4, 8].into_iter().filter(|kind| {
                [one, two]
                    .iter()
                    .any(|b| b.sheet[from * k + to] / kind % 2 == 1)
            });
            sheet.push(kinds.sum());
            let numbers = [one.number(from, to), two.number(from, to)];
            let number = numbers.into_iter().find(|&n| n > 0).unwrap_or(0);
            seen.extend(bytes_of(&[number]));
        }
    }
    let slip = into.slip[..1 + 7 * k].to_vec();
    let mut wanted = Bench {
        desk,
        sheet,
        seen,
        history: into.history.clone(), // a join has none
        slip,
    };
    let circle = circle_of(&wanted);
    wanted.slip = wanted.shown_or_not(&wanted.slip, &circle);
    wanted.desk[1] = u8::from(circle.is_some());
    let past = |bytes: &mut Vec<u8>, into: &[u8]| bytes.extend(&into[bytes.len()..]);
    past(&mut wanted.desk, &into.desk);
    past(&mut wanted.sheet, &into.sheet);
    past(&mut wanted.seen, &into.seen);
    past(&mut wanted.slip, &into.slip);
    (u8::from(circle.is_some()), wanted)
}

/// Joined in either order, all bytes as [`plainly`] says; the joined bench of this order.
fn assert_joins(one: &Bench, two: &Bench, circle: Option<&[Triple]>) -> Bench {
    let mut joined = Vec::new();
    for (one, two) in [(one, two), (two, one)] {
        let into = lent_for(one.desk[0] as usize);
        let (answer, wanted) = plainly(one, two, &into, listed);
        assert_eq!(one.joined(two), (answer, wanted.clone()));
        assert_eq!(wanted.unfit(), None);
        assert_eq!(wanted.least_circle().as_deref(), circle);
        assert_eq!(answer, u8::from(circle.is_some()));
        assert_eq!(closed_strong_path(&wanted.desk, &wanted.sheet), answer == 1);
        if let Some(circle) = circle {
            assert_eq!(wanted.slip, wanted.shown_over(&into.slip, circle));
            assert!(wanted.true_circle(&wanted.slip));
        }
        joined.push(wanted);
    }
    // "Apart from first-seen numbers and the slip, joining in either order gives the same."
    assert_eq!(joined[0].desk, joined[1].desk);
    assert_eq!(joined[0].sheet, joined[1].sheet);
    joined.swap_remove(0)
}

#[test]
fn a_clean_join_byte_by_byte() {
    let one = Bench::new(3).clean(&[
        take(0, 1, E),
        take(0, 2, E),
        event(1, HARD_OFF),
        take(1, 0, TE),
        event(2, ENTER_HARD),
        take(2, 0, R),
    ]);
    let two = Bench::new(3).clean(&[
        event(7, SOFT_OFF),
        take(7, 1, NR),
        take(7, 2, R),
        take(7, 2, R),
        event(6, ENTER_SOFT),
        take(6, 0, NR),
        release(6, 0, NR),
    ]);
    assert_eq!(
        (one.desk[34..37].to_vec(), one.count()),
        (vec![2, 68, 68], 6)
    );
    assert_eq!(
        (two.desk[34..37].to_vec(), two.count()),
        (vec![16 + 8, 8, 8], 7)
    );
    assert_eq!(one.sheet, [0, 0, 0, 0, 0, EN, 0, 0, 0]);
    assert_eq!(one.seen, bytes_of(&[0, 0, 0, 0, 0, 2, 0, 0, 0]));
    assert_eq!(two.sheet, [0, 0, 0, 0, 0, SR, 0, 0, SR]);
    assert_eq!(two.seen, bytes_of(&[0, 0, 0, 0, 0, 3, 0, 0, 4]));
    let wanted = |numbers: [u32; 9]| {
        let mut desk = vec![0; 1674];
        (desk[0], desk[34], desk[35], desk[36]) = (3, 26, 76, 76);
        Bench {
            desk,
            sheet: vec![0, 0, 0, 0, 0, EN | SR, 0, 0, SR],
            seen: bytes_of(&numbers),
            history: vec![0xA5; 512],
            slip: vec![0xA5; 22],
        }
    };
    assert_eq!(
        one.joined(&two),
        (0, wanted([0, 0, 0, 0, 0, 2, 0, 0, 4])),
        "first before second"
    );
    assert_eq!(two.joined(&one), (0, wanted([0, 0, 0, 0, 0, 3, 0, 0, 4])));
    // The two benches are lent, and joined again they give the same.
    assert_joins(&one, &two, None);
}

#[test]
fn a_fault_byte_by_byte() {
    // P2's halves on two benches, with other records before: 1 EN 2 and 2 EN 1.
    let one = Bench::new(3).clean(&p2_records()[..4]);
    let two = Bench::new(3).clean(&[event(4, HARD_ON), take(4, 2, E), take(4, 1, E)]);
    let wanted = |first: u32, second: u32| {
        let mut desk = vec![0; 1674];
        (desk[0], desk[1], desk[35], desk[36]) = (3, 1, 68, 68);
        let mut slip = entries(&[(1, EN, 0, first), (2, EN, 0, second)]);
        slip.resize(22, 0xA5);
        Bench {
            desk,
            sheet: vec![0, 0, 0, 0, 0, EN, 0, EN, 0],
            seen: bytes_of(&[0, 0, 0, 0, 0, first, 0, second, 0]),
            history: vec![0xA5; 512],
            slip,
        }
    };
    assert_eq!(one.joined(&two), (1, wanted(2, 3)));
    assert_eq!(two.joined(&one), (1, wanted(2, 3)));
    let joined = assert_joins(&one, &two, Some(&[(1, EN, 0), (2, EN, 0)]));
    for r in [take(0, 0, E), event(0, HARD_ON), release(4, 1, E), [0; 6]] {
        joined.refused(&r, 10);
    }
    assert_eq!(joined.ask(1), (0, 0b110, 2));
    // Joined again: 13.
    let empty = Bench::new(3);
    joined.join_refused(&empty, &lent_for(3), 13);
    empty.join_refused(&joined, &lent_for(3), 13);
}

/// One way to make the bench of K = 8 in `each_clause_of_unfit` unfit for each clause but the
/// slip's.
fn ways_to_be_unfit() -> Vec<(&'static str, fn(&mut Bench))> {
    vec![
        (CLAUSES[0], |b| b.desk.truncate(1673)),
        (CLAUSES[0], |b| b.desk.clear()),
        (CLAUSES[1], |b| b.desk[0] = 0),
        (CLAUSES[1], |b| b.desk[0] = 65),
        (CLAUSES[2], |b| b.sheet.truncate(63)),
        (CLAUSES[4], |b| b.desk[1] = 2),
        (CLAUSES[4], |b| b.desk[1] = 255),
        (CLAUSES[5], |b| b.desk[9] = 9),
        (CLAUSES[6], |b| b.desk[10] = 49),
        (CLAUSES[7], |b| (b.desk[10], b.desk[98]) = (1, 8)),
        (CLAUSES[8], |b| (b.desk[10], b.desk[98]) = (1, 192)),
        (CLAUSES[9], |b| b.desk[1249] = 64),
        (CLAUSES[10], |b| b.desk[1393] = 128),
        (CLAUSES[11], |b| b.desk[11] = 1),
        (CLAUSES[12], |b| b.desk[33] = 1),
        (CLAUSES[13], |b| b.desk[97] = 4),
        (CLAUSES[14], |b| b.desk[41] = 64 + 8),
        (CLAUSES[15], |b| (b.sheet[63], b.seen[252]) = (16, 1)),
        (CLAUSES[16], |b| b.seen.truncate(255)),
        (CLAUSES[17], |b| b.sheet[63] = SR),
        (CLAUSES[18], |b| b.seen[255] = 1),
        (CLAUSES[19], |b| b.desk[1399] = 1),
        (CLAUSES[19], |b| b.desk[1405] = 128),
        (CLAUSES[20], |b| b.desk[1406] = 1),
        (CLAUSES[20], |b| b.desk[1413] = 128),
        (CLAUSES[22], |b| (b.desk[1414], b.desk[1415]) = (1, 1)),
    ]
}

#[test]
fn either_bench_unfit() {
    let good = Bench::new(8).clean(&[
        take(2, 7, R),
        event(2, ENTER_SOFT),
        take(2, 6, E),
        event(2, ENTER_HARD),
        take(2, 5, NR),
    ]);
    let others = [
        good.clone(),
        Bench::new(8),
        Bench::new(1),
        Bench::new(64),
        made(8, &[(0, EN, 0)], &[]),
        {
            let mut closed = good.clone();
            closed.desk[1] = 1;
            closed
        },
    ];
    let mut met = Vec::new();
    for (clause, change) in ways_to_be_unfit() {
        let mut b = good.clone();
        change(&mut b);
        let name = unfit(&b.desk, &b.sheet, &b.seen, None);
        assert_eq!(name, Some(clause));
        note(&mut met, clause);
        // Whatever the other is, and however much room there is; with both unfit too.
        for into in [lent_for(64), lent_for(8), lent_for(1), lent(0, 0, 0, 0)] {
            for other in others.iter().chain([&b]) {
                b.join_refused(other, &into, 11);
                other.join_refused(&b, &into, 11);
            }
        }
        assert!(b.books().is_none());
    }
    let mut clauses = CLAUSES.to_vec();
    clauses.retain(|&clause| clause != "slip too short" && clause != "more than 16 in progress");
    assert_eq!(met, clauses);
    // The good one joins, a number above its count or not: nothing ties them.
    let mut b = good.clone();
    (b.sheet[63], b.seen[255]) = (SR, 1);
    for count in [0, 5, u32::MAX] {
        b.set_count(count);
        let (one, two) = (good.joined_clean(&b), b.joined_clean(&good));
        assert_eq!(one, two);
        assert_eq!((one.number(7, 7), one.count()), (1 << 24, 0));
    }
}

/// Room for this K, with one buffer (desk, sheet, second sheet, slip) this much longer.
fn room(k: usize, which: usize, more: isize) -> Bench {
    let mut sizes = [1674, k * k, 4 * k * k, 1 + 7 * k];
    sizes[which] = sizes[which].saturating_add_signed(more);
    lent(sizes[0], sizes[1], sizes[2], sizes[3])
}

#[test]
fn buffers_to_be_written() {
    // Clean, with a circle, and closed; every K.
    for k in 1..=64usize {
        let clean = Bench::new(k);
        let circle = made(k, &[(k - 1, EN, k - 1)], &[]);
        let mut closed = Bench::new(k);
        closed.desk[1] = 1;
        for (one, two, answer) in [
            (&clean, &clean, 0),
            (&clean, &circle, 1),
            (&circle, &clean, 1),
            (&circle, &circle, 1),
            (&closed, &clean, 13),
            (&clean, &closed, 13),
        ] {
            for which in 0..4 {
                for less in [1, 2, 7, 1_000_000] {
                    one.join_refused(two, &room(k, which, -less), 11);
                }
                let mut into = room(k, which, 1);
                let before = into.clone();
                assert_eq!(one.join(two, &mut into), answer);
                if answer < 2 {
                    assert_eq!((answer, into), plainly(one, two, &before, by_choosing));
                } else {
                    assert_eq!(into, before);
                }
            }
            one.join_refused(two, &lent(0, 0, 0, 0), 11);
        }
    }
    // Different K: the larger decides, whichever bench has it.
    for (smaller, larger) in [(1, 2), (1, 64), (2, 3), (7, 8), (8, 64), (63, 64)] {
        let (one, two) = (Bench::new(smaller), Bench::new(larger));
        let mut closed = [one.clone(), two.clone()];
        closed.iter_mut().for_each(|b| b.desk[1] = 1);
        for (one, two) in [
            (&one, &two),
            (&closed[0], &two),
            (&one, &closed[1]),
            (&closed[0], &closed[1]),
        ] {
            for (one, two) in [(one, two), (two, one)] {
                one.join_refused(two, &lent_for(larger), 12);
                one.join_refused(two, &lent_for(64), 12);
                one.join_refused(two, &lent_for(smaller), 11);
                for which in 0..4 {
                    one.join_refused(two, &room(larger, which, -1), 11);
                    one.join_refused(two, &room(larger, which, 1), 12);
                    // Just enough for the smaller K in one buffer; the desk has no K.
                    let small = room(smaller, 0, 0);
                    let mut into = lent_for(larger);
                    match which {
                        0 => into.desk.truncate(1673),
                        1 => into.sheet = small.sheet,
                        2 => into.seen = small.seen,
                        _ => into.slip = small.slip,
                    }
                    one.join_refused(two, &into, 11);
                }
            }
        }
    }
}

#[test]
fn refusals_of_a_join_in_order() {
    // Every pair of conditions, and all at once: 11 by either bench or by each buffer, 12, 13
    // by either desk.
    let mut met = [0u64; 14];
    for code in 0..1u32 << 9 {
        let has = |i: u32| code >> i & 1 == 1;
        let mut one = Bench::new(4).clean(&[take(0, 1, E), take(0, 2, E)]);
        let mut two = Bench::new(if has(6) { 5 } else { 4 }).clean(&[take(1, 2, E)]);
        (one.desk[1], two.desk[1]) = (u8::from(has(7)), u8::from(has(8)));
        if has(0) {
            one.desk[DEPTHS] = 3;
            one.desk[HOLDS + 2] = 4;
        }
        if has(1) {
            two.desk[STATES] = 9;
        }
        let mut into = lent_for(5);
        let lengths = [
            &mut into.desk,
            &mut into.sheet,
            &mut into.seen,
            &mut into.slip,
        ];
        for (i, buffer) in lengths.into_iter().enumerate() {
            let k = if has(6) { 5 } else { 4 };
            let size = [1674, k * k, 4 * k * k, 1 + 7 * k][i];
            buffer.truncate(size - usize::from(has(2 + i as u32)));
        }
        let answer = match code {
            _ if code & 0b11_1111 != 0 => 11,
            _ if has(6) => 12,
            _ if has(7) || has(8) => 13,
            _ => 0,
        };
        met[answer as usize] += 1;
        if answer == 0 {
            assert_eq!(one.join(&two, &mut into), 0);
        } else {
            one.join_refused(&two, &into, answer);
        }
        // And the other way round.
        let mut into = lent_for(5);
        let (answer, k) = (two.join(&one, &mut into), if has(6) { 5 } else { 4 });
        let wanted = match code {
            _ if has(0) || has(1) => 11,
            _ if k == 5 => 12,
            _ if has(7) || has(8) => 13,
            _ => 0,
        };
        assert_eq!(answer, wanted);
        if answer > 0 {
            assert_eq!(into, lent_for(5));
        }
    }
    assert_eq!(met, [1, 0, 0, 0, 0, 0, 0, 0, 0, 0, 0, 504, 4, 3]);
}

#[test]
fn closed_desks() {
    // With a circle and without one, whatever the other has.
    let clean = Bench::new(3).clean(&p2_records()[..4]);
    let circle = made(3, &[(1, EN, 1)], &[]);
    for one in [&clean, &circle] {
        for two in [&clean, &circle] {
            for (first, second) in [(1, 0), (0, 1), (1, 1)] {
                let (mut one, mut two) = (one.clone(), two.clone());
                (one.desk[1], two.desk[1]) = (first, second);
                one.join_refused(&two, &lent_for(3), 13);
                one.join_refused(&two, &lent_for(64), 13);
                let books = one.books().unwrap().joined(&two.books().unwrap());
                assert!(books.is_none());
            }
            // Open both: a circle of its own makes the joined one a fault.
            let faults = [one, two]
                .iter()
                .any(|b| closed_strong_path(&b.desk, &b.sheet));
            assert_eq!(one.joined(two).0, u8::from(faults));
        }
    }
    // A closed desk of another K is 12.
    let mut closed = Bench::new(2);
    closed.desk[1] = 1;
    clean.join_refused(&closed, &lent_for(3), 12);
    closed.join_refused(&clean, &lent_for(3), 12);
    // A log's fault: closed, and not joined.
    let mut b = Bench::new(3);
    let answers = p2_records().map(|r| b.step(&r));
    assert_eq!(answers, [0, 0, 0, 0, 0, 1]);
    b.join_refused(&clean, &lent_for(3), 13);
    clean.join_refused(&b, &lent_for(3), 13);
}

#[test]
fn longer_buffers_of_a_join() {
    // What lies past the sizes isn't read on either bench, and stays in the third.
    let longer = |mut b: Bench, fill: u8| {
        for buffer in [&mut b.desk, &mut b.sheet, &mut b.seen, &mut b.slip] {
            buffer.extend([fill; 11]);
        }
        b
    };
    for k in [1usize, 2, 3, 8, 63, 64] {
        let last = k - 1;
        let clean = made(k, &[(0, SR, last)], &[(last, 4)]);
        let fault = made(k, &[(last, EN, last), (0, ER, last)], &[(0, 2)]);
        for (one, two) in [(&clean, &clean), (&clean, &fault), (&fault, &clean)] {
            let (answer, exact) = one.joined(two);
            for fills in [[0, 0, 0], [255, 255, 255], [1, 2, 3], [0xA5, 15, 64]] {
                let [one, two] =
                    [(one, fills[0]), (two, fills[1])].map(|(b, f)| longer(b.clone(), f));
                let mut into = longer(lent_for(k), fills[2]);
                assert_eq!(one.join(&two, &mut into), answer);
                assert_eq!(into, longer(exact.clone(), fills[2]));
                // Much longer, and with other bytes in all of them before.
                let mut into = lent(2_000, 5_000, 20_000, 600);
                let before = into.clone();
                assert_eq!(one.join(&two, &mut into), answer);
                assert_eq!(into.desk[..1674], exact.desk[..]);
                assert_eq!(into.desk[1674..], before.desk[1674..]);
                assert_eq!(into.sheet[..k * k], exact.sheet[..]);
                assert_eq!(into.sheet[k * k..], before.sheet[k * k..]);
                assert_eq!(into.seen[..4 * k * k], exact.seen[..]);
                assert_eq!(into.seen[4 * k * k..], before.seen[4 * k * k..]);
                assert_eq!(into.slip[..1 + 7 * k], exact.slip[..]);
                assert_eq!(into.slip[1 + 7 * k..], before.slip[1 + 7 * k..]);
            }
        }
    }
}

#[test]
fn what_lay_in_the_third_pair_before() {
    // A bench of any sort, or any bytes at all: nothing of it is left, but the slip where no
    // fault comes, and past the circle.
    let one = Bench::new(4).clean(&[take(0, 1, E), take(0, 2, E)]);
    let two = Bench::new(4).clean(&[take(0, 2, E), take(0, 3, R)]);
    let fault = Bench::new(4).clean(&[take(0, 3, R), take(0, 1, E)]);
    let fault = fault.joined_clean(&Bench::new(4).clean(&[take(3, 2, E), take(3, 1, R)]));
    let mut full = made(4, &[(0, 15, 0), (3, 15, 2)], &[(0, 255), (3, 255)]);
    full.desk[1] = 1;
    full.desk[STATES..MARKS].fill(8);
    full.set_count(u32::MAX);
    for fill in 0..=255 {
        let mut any = lent_for(4);
        for buffer in [&mut any.desk, &mut any.sheet, &mut any.seen, &mut any.slip] {
            buffer.fill(fill);
        }
        for before in [&any, &full, &Bench::new(4), &one, &two] {
            for (first, second) in [(&one, &two), (&one, &fault), (&fault, &two)] {
                let mut into = before.clone();
                let answer = first.join(second, &mut into);
                let (wanted, left) = plainly(first, second, before, listed);
                assert_eq!((answer, &into), (wanted, &left));
                if answer == 0 {
                    assert_eq!(into.slip, before.slip);
                } else {
                    let n = 1 + 7 * into.slip[0] as usize;
                    assert_eq!(into.slip[n..], before.slip[n..]);
                }
            }
        }
    }
}

#[test]
fn numbers_of_either_bench() {
    // All pairs of numbers, 0 for no kinds: the first's if it has one, whatever the second's;
    // at the first pair, at the last and between.
    let numbers = [
        0,
        1,
        2,
        255,
        256,
        0x0001_0000,
        0x0100_0000,
        0x0403_0201,
        0x8000_0000,
        0xFFFF_FF00,
        u32::MAX,
    ];
    for (k, pair) in [
        (1usize, 0usize),
        (2, 1),
        (3, 5),
        (8, 0),
        (8, 63),
        (64, 4095),
    ] {
        let (from, to) = (pair / k, pair % k);
        for first in numbers {
            for second in numbers {
                for (kinds1, kinds2) in [(SR, SR), (SR, ER), (ER | SR, SR), (SR, 5)] {
                    if k == 1 && (kinds1 | kinds2) & ER != 0 {
                        continue;
                    }
                    let bench = |number: u32, kinds: u8, count: u32| {
                        let mut b = Bench::new(k);
                        b.sheet[pair] = if number > 0 { kinds } else { 0 };
                        b.set_number(from, to, number);
                        b.set_count(count);
                        assert_eq!(b.unfit(), None);
                        b
                    };
                    let (one, two) = (bench(first, kinds1, 7), bench(second, kinds2, u32::MAX));
                    let (answer, joined) = one.joined(&two);
                    let mut seen = vec![0; k * k];
                    seen[pair] = if first > 0 { first } else { second };
                    assert_eq!(joined.seen, bytes_of(&seen));
                    let kinds = one.sheet[pair] | two.sheet[pair];
                    assert_eq!(joined.sheet[pair], kinds);
                    let circle = from == to && kinds & ER != 0;
                    assert_eq!(answer, u8::from(circle));
                    if circle {
                        // Shown with the joined number, though the kind shown be the other's.
                        let number = seen[pair];
                        assert_eq!(joined.slip[..8], entries(&[(from as u8, ER, 0, number)]));
                    }
                }
            }
        }
    }
    // Each pair for itself: one's where it has one, two's elsewhere.
    let one = made(3, &[(0, SR, 1), (1, SR, 1), (2, SR, 0)], &[]);
    let mut two = made(3, &[(0, SR, 0), (0, SR, 1), (1, SR, 2), (2, SR, 0)], &[]);
    for pair in 0..9 {
        if two.sheet[pair] != 0 {
            two.set_number(pair / 3, pair % 3, 100 + pair as u32);
        }
    }
    let number = |b: &Bench, pair: usize| b.number(pair / 3, pair % 3);
    let joined = assert_joins(&one, &two, None);
    for pair in 0..9 {
        let from_first = [1, 4, 6].contains(&pair);
        assert_eq!(
            number(&joined, pair),
            number(if from_first { &one } else { &two }, pair)
        );
    }
    let joined = assert_joins(&two, &one, None);
    for pair in 0..9 {
        let from_second = pair == 4;
        assert_eq!(
            number(&joined, pair),
            number(if from_second { &one } else { &two }, pair)
        );
    }
}

#[test]
fn the_kind_of_one_and_the_number_of_the_other() {
    // 1 SR 2 by the first bench's record 3, 1 EN 2 by the second's record 2; 2 SN 1 by
    // the second's only. The circle needs the second's kind, and shows the first's number.
    let one = Bench::new(3).clean(&[event(0, HARD_ON), take(0, 1, R), take(0, 2, R)]);
    let two = Bench::new(3).clean(&[
        take(0, 1, E),
        take(0, 2, NR),
        release(0, 2, NR),
        release(0, 1, E),
    ]);
    let mut three = Bench::new(3).clean(&[event(0, HARD_ON); 8]);
    three = three.clean(&[take(0, 2, NR), take(0, 1, E)]);
    assert_eq!((one.number(1, 2), two.number(1, 2)), (3, 2));
    assert_eq!(three.number(2, 1), 10);
    // 1 SR 2 SN 1 alone isn't strong at 2.
    assert_joins(&one, &three, None);
    for (first, second, number) in [(&one, &two, 3), (&two, &one, 2)] {
        let both = first.joined_clean(second);
        assert_eq!((both.sheet[5], both.number(1, 2)), (SR | EN, number));
        for (answer, joined) in [both.joined(&three), three.joined(&both)] {
            assert_eq!(answer, 1);
            assert_eq!(
                joined.slip[..15],
                entries(&[(1, EN, 0, number), (2, SN, 0, 10)])
            );
        }
    }
}

#[test]
fn kinds_of_both_in_one_pair() {
    let mut faults = 0;
    for (k, pair) in [(1usize, 0usize), (2, 0), (2, 1), (2, 2), (2, 3), (5, 13)] {
        for first in 0..16u8 {
            for second in 0..16u8 {
                let [one, two] =
                    [first, second].map(|kinds| made(k, &[(pair / k, kinds, pair % k)], &[]));
                let itself = pair / k == pair % k;
                let least = [ER, EN, SN]
                    .into_iter()
                    .find(|kind| (first | second) & kind != 0);
                let circle = least
                    .filter(|_| itself)
                    .map(|kind| vec![((pair / k) as u8, kind, 0)]);
                let joined = assert_joins(&one, &two, circle.as_deref());
                assert_eq!(joined.sheet[pair], first | second);
                faults += u64::from(circle.is_some());
            }
        }
    }
    assert!(faults > 500);
}

#[test]
fn marks_of_both() {
    // All marks of one class on both benches.
    let marks = fit_marks();
    for (k, class) in [(1usize, 0usize), (2, 1), (64, 0), (64, 63)] {
        let step = if k == 64 { 7 } else { 1 };
        for first in marks.iter().step_by(step) {
            for second in marks.iter().step_by(step) {
                let [one, two] = [first, second].map(|&bits| made(k, &[], &[(class, bits)]));
                let (answer, joined) = one.joined(&two);
                let mut wanted = vec![0; 64];
                wanted[class] = first | second;
                assert_eq!(joined.desk[34..98], wanted[..]);
                assert_eq!(answer, CLASHES[usize::from(first | second)]);
                assert_eq!(answer, u8::from(clash(first | second)));
                assert_eq!(joined.desk[1], answer);
                if answer == 1 {
                    let wanted = &one_arrow(class, 0, first | second)[..1];
                    assert_eq!(
                        joined.slip,
                        joined.shown_over(&[0xA5; 449][..1 + 7 * k], wanted)
                    );
                } else {
                    assert_eq!(joined.slip, lent_for(k).slip);
                }
            }
        }
    }
    // Each class of 64, each bit from either bench.
    for class in 0..64 {
        for (one, two) in [
            (12, 8),
            (4, 0),
            (0, 204),
            (2, 16),
            (32, 1),
            (51, 51),
            (204, 204),
        ] {
            let [one, two] = [one, two].map(|bits| made(64, &[], &[(class, bits)]));
            let (_, joined) = one.joined(&two);
            for other in 0..64 {
                assert_eq!(
                    joined.desk[34 + other],
                    one.desk[34 + other] | two.desk[34 + other]
                );
            }
        }
    }
}

#[test]
fn marks_that_only_together_make_an_arrow() {
    // Unsafe on one bench and safe on the other, by logs: P10 and P12 in two halves.
    let unsafe_ = Bench::new(8).clean(&[take(0, 3, E), release(0, 3, E)]);
    let hard = Bench::new(8).clean(&[event(0, ENTER_HARD), take(0, 3, E)]);
    let soft = Bench::new(8).clean(&[event(5, ENTER_SOFT), take(5, 3, R), release(5, 3, R)]);
    assert_joins(&unsafe_, &hard, Some(&[(3, EN, 1)]));
    assert_joins(&unsafe_, &soft, Some(&[(3, ER, 2)]));
    // (In state 4 the take is hard-unsafe as well.)
    assert_joins(&hard, &soft, Some(&[(3, SN, 1)]));
    let off = Bench::new(8).clean(&[event(5, ENTER_SOFT), event(5, HARD_OFF), take(5, 3, R)]);
    assert_joins(&hard, &off, None);
    // Both reads by recursion: clean, P10's second case.
    let reads = Bench::new(8).clean(&[take(0, 3, R)]);
    let hard_reads = Bench::new(8).clean(&[event(0, ENTER_HARD), take(0, 3, R)]);
    assert_joins(&reads, &hard_reads, None);
    // A try isn't safe, so there is no arrow.
    let hard_try = Bench::new(8).clean(&[event(0, ENTER_HARD), take(0, 3, TE)]);
    assert_joins(&unsafe_, &hard_try, None);
    // Levels that differ make none.
    for (unsafe_, safe, arrow) in [
        (4, 1, true),
        (4, 2, true),
        (8, 1, true),
        (8, 2, false),
        (4, 16, false),
        (4, 32, false),
        (12, 48, false),
        (68, 16, true),
        (136, 16, true),
        (136, 32, false),
        (136, 34, false),
        (204, 32, true),
    ] {
        let (one, two) = (made(2, &[], &[(1, unsafe_)]), made(2, &[], &[(1, safe)]));
        let circle = listed(&made(2, &[], &[(1, unsafe_ | safe)]));
        assert_eq!(circle.is_some(), arrow);
        assert_joins(&one, &two, circle.as_deref());
    }
    // An interrupt arrow from the one's class to the other's, and a hold arrow back, from
    // either bench: 0 EN 1 by hard, 1 EN 0 by hold.
    for back_on_first in [false, true] {
        let back: &[(usize, u8, usize)] = &[(1, EN, 0)];
        let (one, two) = if back_on_first {
            (back, &[][..])
        } else {
            (&[][..], back)
        };
        let (one, two) = (made(2, one, &[(0, 4)]), made(2, two, &[(1, 1)]));
        assert_eq!((one.least_circle(), two.least_circle()), (None, None));
        let joined = assert_joins(&one, &two, Some(&[(0, EN, 1), (1, EN, 0)]));
        let number = joined.number(1, 0);
        assert_eq!(
            joined.slip[..15],
            entries(&[(0, EN, 1, 0), (1, EN, 0, number)])
        );
    }
    // P11 in two halves.
    let one = Bench::new(8).clean(&[event(0, ENTER_HARD), take(0, 4, E)]);
    let two = Bench::new(8).clean(&[
        event(0, HARD_OFF),
        take(0, 4, E),
        take(0, 5, E),
        release(0, 5, E),
        release(0, 4, E),
        event(0, HARD_ON),
        take(0, 5, E),
    ]);
    let joined = assert_joins(&one, &two, Some(&[(4, EN, 0), (5, EN, 1)]));
    assert_eq!(joined.slip[..15], entries(&[(4, EN, 0, 3), (5, EN, 1, 0)]));
}

#[test]
fn circles_only_the_join_has() {
    // Neither bench has one; joined, the shortest and then least, by hand.
    type Holds = &'static [(usize, u8, usize)];
    let cases: [(Holds, Holds, Option<&[Triple]>); 10] = [
        (
            &[(0, EN, 1)],
            &[(1, EN, 0)],
            Some(&[(0, EN, 0), (1, EN, 0)]),
        ),
        (&[(0, ER, 1)], &[(1, SN, 0)], None),
        (
            &[(0, ER, 1)],
            &[(1, EN, 0)],
            Some(&[(0, ER, 0), (1, EN, 0)]),
        ),
        (
            &[(0, SR, 1)],
            &[(1, EN, 0)],
            Some(&[(0, SR, 0), (1, EN, 0)]),
        ),
        (&[(0, SR, 1)], &[(1, ER, 0)], None),
        // Every other arrow of a ring.
        (
            &[(0, EN, 1), (2, EN, 3)],
            &[(1, EN, 2), (3, EN, 0)],
            Some(&[(0, EN, 0), (1, EN, 0), (2, EN, 0), (3, EN, 0)]),
        ),
        // P9: 0 ER 1, 1 SN 2 and 0 EN 2 on the one, 2 EN 0 on the other.
        (
            &[(0, ER, 1), (1, SN, 2), (0, EN, 2)],
            &[(2, EN, 0)],
            Some(&[(0, EN, 0), (2, EN, 0)]),
        ),
        // Of two circles the shorter, though its class is higher.
        (
            &[(0, EN, 1), (1, EN, 2), (3, EN, 4)],
            &[(2, EN, 0), (4, EN, 3)],
            Some(&[(3, EN, 0), (4, EN, 0)]),
        ),
        // Of two of one length the least: by class, and by kind.
        (
            &[(3, ER, 4), (1, SN, 2)],
            &[(4, EN, 3), (2, EN, 1)],
            Some(&[(1, SN, 0), (2, EN, 0)]),
        ),
        (
            &[(1, SN, 2)],
            &[(1, EN, 2), (2, EN, 1)],
            Some(&[(1, EN, 0), (2, EN, 0)]),
        ),
    ];
    for (i, (one, two, circle)) in cases.into_iter().enumerate() {
        let (one, two) = (made(5, one, &[]), made(5, two, &[]));
        assert_eq!(one.least_circle(), None, "{i}");
        assert_eq!(two.least_circle().is_some(), i == 9, "{i}");
        assert_joins(&one, &two, circle);
    }
    // The logs of document 01 that fault on two cores, each core on a bench of its own.
    for (one, two, kinds) in [
        (
            [take(0, 1, E), take(0, 2, E)],
            [take(1, 2, E), take(1, 1, E)],
            Some((EN, EN)),
        ),
        (
            [take(0, 1, R), take(0, 2, E)],
            [take(1, 2, R), take(1, 1, E)],
            Some((SN, SN)),
        ),
        (
            [take(0, 1, E), take(0, 2, R)],
            [take(1, 2, R), take(1, 1, E)],
            None,
        ),
        (
            [take(0, 1, E), take(0, 2, R)],
            [take(1, 2, E), take(1, 1, R)],
            Some((ER, ER)),
        ),
    ] {
        let (one, two) = (Bench::new(8).clean(&one), Bench::new(8).clean(&two));
        let circle = kinds.map(|(first, second)| [(1, first, 0), (2, second, 0)]);
        assert_joins(&one, &two, circle.as_ref().map(|c| &c[..]));
    }
}

#[test]
fn a_circle_of_its_own() {
    // "A fit desk that didn't come from opening is judged as it stands": open, with a circle.
    for (holds, marks, circle) in [
        (&[(1, EN, 1)][..], &[][..], &[(1, EN, 0)][..]),
        (&[(1, SR, 2), (2, EN, 1)], &[], &[(1, SR, 0), (2, EN, 0)]),
        (&[], &[(2, 4 + 2)], &[(2, ER, 1)]),
        (&[(2, EN, 1)], &[(1, 8), (2, 1)], &[(1, SN, 1), (2, EN, 0)]),
    ] {
        let own = made(3, holds, marks);
        assert_eq!((own.desk[1], own.unfit()), (0, None));
        let others = [
            Bench::new(3),
            Bench::new(3).clean(&[event(0, HARD_OFF), take(0, 0, E), take(0, 1, E)]),
            own.clone(),
        ];
        for other in others {
            assert_joins(&own, &other, Some(circle));
        }
        // A shorter or lesser one of the other's is shown instead.
        let lesser = made(3, &[(0, ER, 0)], &[]);
        assert_joins(&own, &lesser, Some(&[(0, ER, 0)]));
    }
}

#[test]
fn nothing_of_cores_holds_and_count_is_left() {
    // Every state on some core, every frame that may hold full, all origins, any count.
    let full = |k: usize, shift: usize, count: u32| {
        let mut b = Bench::new(k);
        for core in 0..8 {
            b.desk[STATES + core] = ((core + shift) % 9) as u8;
        }
        for at in 0..24 {
            let state = b.desk[STATES + at / 3];
            if [true, [4, 5, 8].contains(&state), state > 5][at % 3] {
                b.desk[10 + at] = 48;
                for place in 0..48 {
                    b.desk[98 + 48 * at + place] = (place % k + 64 * (place % 3)) as u8;
                }
                b.desk[1250 + 6 * at..1256 + 6 * at].fill(255);
            }
        }
        b.desk[34] = 12;
        b.set_count(count);
        assert_eq!(b.unfit(), None);
        b
    };
    for k in [1, 2, 7, 64] {
        for shift in 0..9 {
            for count in [0, 1, 0x0403_0201, u32::MAX] {
                let one = full(k, shift, count);
                for two in [full(k, shift + 4, count), Bench::new(k), full(k, 0, 9)] {
                    for (one, two) in [(&one, &two), (&two, &one)] {
                        let joined = one.joined_clean(two);
                        assert_eq!(joined.desk[..2], [k as u8, 0]);
                        assert!(joined.desk[2..34].iter().all(|&byte| byte == 0));
                        assert_eq!(joined.desk[34], 12);
                        assert!(joined.desk[35..].iter().all(|&byte| byte == 0));
                    }
                    // Also where a fault comes.
                    let mut circle = two.clone();
                    circle.sheet[0] = EN;
                    circle.set_number(0, 0, 5);
                    for (one, two) in [(&one, &circle), (&circle, &one)] {
                        let (answer, joined) = one.joined(two);
                        assert_eq!(answer, 1);
                        assert_eq!(joined.desk[..2], [k as u8, 1]);
                        assert!(joined.desk[2..34].iter().all(|&byte| byte == 0));
                        assert_eq!(joined.desk[34], 12);
                        assert!(joined.desk[35..].iter().all(|&byte| byte == 0));
                    }
                }
            }
        }
    }
    // Holds draw nothing by being joined: 1E held on the one, 2E on the other.
    let one = Bench::new(3).clean(&[take(0, 1, E)]);
    let two = Bench::new(3).clean(&[take(0, 2, E)]);
    let joined = assert_joins(&one, &two, None);
    assert!(joined.sheet.iter().all(|&kinds| kinds == 0));
    // And set no marks: the states of the one and the holds of the other are gone.
    assert_eq!(joined.desk[34..37], [0, 68, 68]);
}

#[test]
fn rings_of_two_benches() {
    // One class: an arrow to itself, from either bench, or from the marks of both.
    let empty = Bench::new(1);
    for kind in [ER, EN, SN] {
        let b = made(1, &[(0, kind, 0)], &[]);
        assert_joins(&b, &empty, Some(&[(0, kind, 0)]));
    }
    assert_joins(&made(1, &[(0, SR, 0)], &[]), &empty, None);
    assert_joins(&empty, &empty, None);
    let (one, two) = (made(1, &[], &[(0, 8)]), made(1, &[], &[(0, 1)]));
    let joined = assert_joins(&one, &two, Some(&[(0, SN, 1)]));
    assert_eq!(joined.slip, [1, 0, SN, 1, 0, 0, 0, 0]);
    // A ring through all classes, its arrows on two benches in turn: the slip is full.
    for k in 2..=64usize {
        let mut benches = [Bench::new(k), Bench::new(k)];
        for c in 0..k {
            let b = &mut benches[c % 2];
            b.sheet[c * k + (c + 1) % k] = EN;
            b.set_number(c, (c + 1) % k, 0x0403_0200 + c as u32);
        }
        let [one, two] = benches;
        assert_eq!((one.least_circle(), two.least_circle()), (None, None));
        let wanted: Vec<(u8, u8, u8, u32)> = (0..k)
            .map(|c| (c as u8, EN, 0, 0x0403_0200 + c as u32))
            .collect();
        for (one, two) in [(&one, &two), (&two, &one)] {
            let mut into = lent_for(k);
            into.slip.push(0xA5);
            assert_eq!(one.join(two, &mut into), 1);
            assert_eq!(into.slip, [entries(&wanted), vec![0xA5]].concat());
        }
        // One arrow less, from either: clean.
        for which in 0..2 {
            let mut both = [one.clone(), two.clone()];
            both[which].sheet[which * k + (which + 1) % k] = 0;
            both[which].set_number(which, (which + 1) % k, 0);
            both[0].joined_clean(&both[1]);
            both[1].joined_clean(&both[0]);
        }
    }
}

#[test]
fn with_an_empty_bench() {
    // The bench's own drawing, numbers too, in both orders; a bench joined with itself alike.
    let mut dice = Dice(0xE307_1BE9_C4A0_0001);
    let mut faults = 0;
    for round in 0..400 {
        let k = if round % 20 == 0 {
            64
        } else {
            1 + dice.under(6)
        };
        let mut b = Bench::new(k as usize);
        for _ in 0..dice.under(60) {
            let r = random_record(&mut dice, k, &[R, R, R, NR, TE, E]);
            let mut next = b.clone();
            // A record that would close it is left out, so that the bench stays open.
            if next.step(&r) == 0 {
                b = next;
            }
        }
        if round % 4 == 0 {
            // One more circle of its own.
            let c = dice.under(k) as usize;
            b.sheet[c * k as usize + c] = EN;
            b.set_number(c, c, 77);
            faults += 1;
        }
        let empty = Bench::new(k as usize);
        let mut wanted = b.clone();
        wanted.desk[2..34].fill(0);
        wanted.desk[98..].fill(0);
        wanted.history = vec![0xA5; 512];
        let circle = by_choosing(&b);
        assert_eq!(circle.is_some(), round % 4 == 0);
        wanted.desk[1] = u8::from(circle.is_some());
        wanted.slip = b.shown_or_not(&lent_for(k as usize).slip, &circle);
        for (one, two) in [(&b, &empty), (&empty, &b), (&b, &b)] {
            assert_eq!(one.joined(two), (wanted.desk[1], wanted.clone()));
        }
        let fresh = empty.joined_clean(&empty);
        assert_eq!(
            (&fresh.desk, &fresh.sheet, &fresh.seen),
            (&empty.desk, &empty.sheet, &empty.seen)
        );
    }
    assert_eq!(faults, 100);
}

/// A fit, open bench of any drawing, numbers, states, holds, origins and count.
fn any_bench(dice: &mut Dice, k: usize) -> Bench {
    let mut b = if dice.under(8) == 0 {
        let places = 1 + dice.under(k as u64) as usize;
        drawing_of_places(dice, k, places, true)
    } else {
        Bench::new(k)
    };
    let many = [1, k as u64, (k * k) as u64 / 4][dice.under(3) as usize];
    for _ in 0..many {
        let pair = dice.under((k * k) as u64) as usize;
        let mut kinds = [SR, SR, ER, SN, EN, SR | SN, 15][dice.under(7) as usize];
        // Mostly upwards, so that circles aren't everywhere.
        if pair / k >= pair % k && dice.under(8) > 0 {
            kinds = if pair / k == pair % k { SR } else { 0 };
        }
        b.sheet[pair] = kinds;
        let number = match dice.under(4) {
            0 => dice.under(5) as u32,
            1 => (dice.under(256) as u32) << (8 * dice.under(4)),
            _ => dice.next() as u32,
        };
        b.set_number(pair / k, pair % k, number);
    }
    b.settle();
    for _ in 0..[0, 0, 0, 1, 2, 3][dice.under(6) as usize] {
        let class = dice.under(k as u64) as usize;
        let marks = fit_marks();
        let bits = marks[dice.under(144) as usize]
            & [0xCC, 0x33, 0x44, 0x22, 0xFF][dice.under(5) as usize];
        b.desk[34 + class] |= if bits & 0x40 != 0 { bits | 4 } else { bits };
    }
    for class in 0..k {
        let bits = &mut b.desk[34 + class];
        *bits |= (*bits & 0xC0) >> 4;
    }
    for at in 0..24 {
        if at % 3 == 0 {
            b.desk[2 + at / 3] = dice.under(9) as u8;
        }
        let state = b.desk[2 + at / 3];
        let may_hold = [true, [4, 5, 8].contains(&state), state > 5][at % 3];
        if may_hold && dice.under(3) == 0 {
            let depth = dice.under(49) as usize;
            b.desk[10 + at] = depth as u8;
            for place in 0..depth {
                let hold = dice.under(k as u64) + 64 * dice.under(3);
                b.desk[98 + 48 * at + place] = hold as u8;
                b.desk[1250 + 6 * at + place / 8] |= (dice.under(2) as u8) << (place % 8);
            }
        }
    }
    b.set_count([0, 1, u32::MAX, dice.next() as u32][dice.under(4) as usize]);
    assert_eq!(b.unfit(), None);
    b
}

/// A drawing with long circles, its pairs and marks dealt to two benches.
fn dealt(dice: &mut Dice, k: usize, wild: bool) -> [Bench; 2] {
    let places = 1 + dice.under(k as u64) as usize;
    let whole = drawing_of_places(dice, k, places, wild);
    let mut halves = [whole.clone(), whole];
    for at in 0..k * k {
        let b = &mut halves[dice.under(2) as usize];
        b.sheet[at] = 0;
        b.set_number(at / k, at % k, 0);
    }
    for class in 0..k {
        halves[dice.under(2) as usize].desk[34 + class] = 0;
    }
    halves
}

#[test]
fn any_benches_joined_plainly() {
    // Any two benches, sometimes spoilt, closed, of another K or with buffers too short:
    // answer and all bytes, by a second way.
    let mut dice = Dice(0x70F0_BE4C_4E50_0001);
    let mut met = [0u64; 14];
    let (mut only_joined, mut lengths) = (0, [0u64; 7]);
    for round in 0..16_000u64 {
        let k = 1 + dice.under(6) as usize;
        let other_k = if dice.under(8) == 0 {
            1 + dice.under(6) as usize
        } else {
            k
        };
        let mut benches = if round % 4 == 0 {
            dealt(&mut dice, k, round % 8 == 0)
        } else {
            [any_bench(&mut dice, k), any_bench(&mut dice, other_k)]
        };
        let own: Vec<bool> = benches
            .iter()
            .map(|b| closed_strong_path(&b.desk, &b.sheet))
            .collect();
        // In the middle of crosslocks, mostly of the same declaration.
        let declared = dice.next();
        for b in &mut benches {
            let other = dice.under(12) == 0;
            let declared = if other { dice.next() } else { declared };
            in_the_middle(&mut dice, b, declared);
            assert_eq!(unfit(&b.desk, &b.sheet, &b.seen, None), None);
        }
        if dice.under(8) == 0 {
            benches[dice.under(2) as usize].desk[1] = 1;
        }
        if dice.under(8) == 0 {
            let b = &mut benches[dice.under(2) as usize];
            match dice.under(5) {
                0 => {
                    let at = dice.under(1674) as usize;
                    b.desk[at] = b.desk[at].wrapping_add(1 + dice.under(200) as u8);
                }
                1 => b.sheet[0] ^= 1 << dice.under(5),
                2 => b.seen[dice.under(4) as usize] ^= 1 << dice.under(8),
                3 => b.sheet.truncate(dice.under(40) as usize),
                _ => b.seen.truncate(dice.under(150) as usize),
            }
        }
        let mut into = lent_for(k.max(other_k));
        for buffer in [
            &mut into.desk,
            &mut into.sheet,
            &mut into.seen,
            &mut into.slip,
        ] {
            for byte in buffer.iter_mut() {
                *byte = dice.next() as u8;
            }
            match dice.under(40) {
                0 => buffer.truncate(buffer.len() - 1),
                1 => buffer.truncate(dice.under(buffer.len() as u64) as usize),
                2..=9 => buffer.extend((0..dice.under(9)).map(|i| i as u8)),
                _ => {}
            }
        }
        let [one, two] = &benches;
        // The slip is no part of a bench to be joined.
        let fit = |b: &Bench| {
            let mut b = b.clone();
            b.slip = vec![0; 449];
            b.history = vec![0; 512];
            fit_by_hand(&b)
        };
        let before = into.clone();
        let answer = one.join(two, &mut into);
        met[usize::from(answer)] += 1;
        let refusal = if !fit(one) || !fit(two) {
            11
        } else {
            let larger = usize::from(one.desk[0].max(two.desk[0]));
            let short = before.desk.len() < 1674
                || before.sheet.len() < larger * larger
                || before.seen.len() < 4 * larger * larger
                || before.slip.len() < 1 + 7 * larger;
            let same = one.desk[0] == two.desk[0] && one.desk[1398..1406] == two.desk[1398..1406];
            match (short, same, one.desk[1] + two.desk[1]) {
                (true, _, _) => 11,
                (_, false, _) => 12,
                (_, _, 1..) => 13,
                _ => 0,
            }
        };
        if refusal > 0 {
            assert_eq!((answer, &into), (refusal, &before));
            continue;
        }
        let (wanted, left) = plainly(one, two, &before, listed);
        assert_eq!((answer, &into), (wanted, &left), "{round}");
        assert_eq!(into.unfit(), None);
        // By the books too.
        let books = one.books().unwrap().joined(&two.books().unwrap()).unwrap();
        assert_eq!(books.closed(), answer == 1);
        assert_eq!(into.seen[..4 * k * k], bytes_of(books.numbers()));
        assert_eq!(books.accepted(), 0);
        if answer == 1 {
            assert!(into.true_circle(&into.slip));
            only_joined += u64::from(!own[0] && !own[1]);
            lengths[usize::from(into.slip[0])] += 1;
        }
        // "Apart from first-seen numbers and the slip, joining in either order gives the
        // same.": the slip but for its numbers, the second sheet where one has none.
        let mut other = before.clone();
        assert_eq!(two.join(one, &mut other), answer);
        assert_eq!((&other.desk, &other.sheet), (&into.desk, &into.sheet));
        for at in 0..into.slip.len() {
            let in_circle = answer == 1 && at < 1 + 7 * usize::from(into.slip[0]);
            if !(in_circle && at > 0 && (at - 1) % 7 > 2) {
                assert_eq!(other.slip[at], into.slip[at]);
            }
        }
        for pair in 0..k * k {
            let at = 4 * pair..4 * pair + 4;
            let both = one.sheet[pair] != 0 && two.sheet[pair] != 0;
            if both {
                assert_eq!(into.seen[at.clone()], one.seen[at.clone()]);
                assert_eq!(other.seen[at.clone()], two.seen[at]);
            } else {
                assert_eq!(into.seen[at.clone()], other.seen[at]);
            }
        }
    }
    for answer in [0, 1, 11, 12, 13] {
        assert!(met[answer] > 400, "{met:?}");
    }
    assert!(only_joined > 600, "{only_joined}");
    assert!(lengths[1..].iter().all(|&many| many > 15), "{lengths:?}");
}

#[test]
fn large_benches_joined_plainly() {
    let mut dice = Dice(0x1A26_E701_4ED0_0001);
    let mut met = [0u64; 2];
    for round in 0..250u64 {
        let k = if round % 2 == 0 {
            64
        } else {
            9 + dice.under(55) as usize
        };
        let (one, two) = if round % 3 == 0 {
            let [one, two] = dealt(&mut dice, k, round % 2 == 0);
            (one, two)
        } else {
            (any_bench(&mut dice, k), any_bench(&mut dice, k))
        };
        for (one, two) in [(&one, &two), (&two, &one)] {
            let into = lent_for(k);
            let wanted = plainly(one, two, &into, by_choosing);
            assert_eq!(one.joined(two), wanted);
            met[usize::from(wanted.0)] += 1;
        }
    }
    assert!(met[0] > 20 && met[1] > 100, "{met:?}");
}

#[test]
fn three_benches() {
    // A joined bench that is open may be joined again, in any order to the same drawing.
    let mut dice = Dice(0x7EEE_BE4C_4E50_0003);
    let (mut clean, mut fault) = (0, 0);
    for _ in 0..1_500 {
        let k = 2 + dice.under(4) as usize;
        let b = [(); 3].map(|_| any_bench(&mut dice, k));
        let mut last: Option<(u8, Bench)> = None;
        for [x, y, z] in [
            [0, 1, 2],
            [0, 2, 1],
            [1, 0, 2],
            [1, 2, 0],
            [2, 0, 1],
            [2, 1, 0],
        ] {
            let (answer, both) = b[x].joined(&b[y]);
            let (answer, all) = if answer == 1 {
                both.join_refused(&b[z], &lent_for(k), 13);
                (1, None)
            } else {
                let (answer, all) = both.joined(&b[z]);
                // First, then second, then third; and joined to the left or to the right.
                if let (0, right) = b[y].joined(&b[z]) {
                    assert_eq!(b[x].joined(&right), (answer, all.clone()));
                }
                (answer, Some(all))
            };
            let Some(all) = all else { continue };
            if let Some((same, before)) = &last {
                assert_eq!(
                    (answer, &all.desk, &all.sheet),
                    (*same, &before.desk, &before.sheet)
                );
            }
            if answer == 0 {
                clean += 1;
            } else {
                fault += 1;
            }
            last = Some((answer, all));
        }
    }
    assert!(clean > 500 && fault > 500, "{clean}, {fault}");
}

#[test]
fn steps_on_a_joined_desk() {
    // Numbers from both benches, count 0: the first step goes on, its number is 1.
    let one = Bench::new(4).clean(&[event(0, HARD_ON); 40]);
    let one = one.clean(&[take(0, 1, E), take(0, 2, E)]);
    let two = Bench::new(4).clean(&[event(0, HARD_ON); 70]);
    let two = two.clean(&[take(0, 2, R), take(0, 3, R)]);
    let mut b = one.joined_clean(&two);
    assert_eq!((b.number(1, 2), b.number(2, 3), b.count()), (42, 72, 0));
    assert_eq!(b.unfit(), None);
    assert_eq!(b.ask(1), (0, 0b1100, 2));
    // Cores are fresh: what was held isn't, and no handler is entered.
    b.refused(&release(0, 1, E), 5);
    b.refused(&release(0, 2, E), 5);
    b.refused(&event(0, EXIT_HARD), 6);
    b.refused(&take(0, 4, E), 4);
    b.refused(&[], 3);
    assert_eq!(b.step(&take(5, 1, E)), 0);
    assert_eq!(b.count(), 1);
    // Old pairs keep their numbers, whatever kind comes; new ones count from the joined desk.
    assert_eq!(b.step(&take(5, 2, R)), 0);
    assert_eq!((b.sheet[6], b.number(1, 2), b.count()), (EN | ER, 42, 2));
    assert_eq!(b.step(&take(5, 0, E)), 0);
    let numbers = |b: &Bench| {
        [
            b.number(1, 0),
            b.number(2, 0),
            b.number(1, 2),
            b.number(2, 3),
        ]
    };
    assert_eq!((numbers(&b), b.count()), ([3, 3, 42, 72], 3));
    assert_eq!(b.ask(1), (0, 0b1101, 3));
    // The fault shows an old number beside a new one: 2 SR 3 EN 2.
    assert_eq!(b.step(&take(6, 3, NR)), 0);
    let mut clean = b.clone();
    assert_eq!(clean.step(&take(6, 2, R)), 0); // 3 SR 2, not strong at 3
    assert_eq!((clean.number(3, 2), clean.count()), (5, 5));
    b = b.clean(&[release(6, 3, NR), take(6, 3, E)]);
    assert_eq!(b.step(&take(6, 2, E)), 1);
    assert_eq!(b.slip[..15], entries(&[(2, SR, 0, 72), (3, EN, 0, 7)]));
    assert_eq!((b.desk[1], b.count()), (1, 7));
    b.refused(&take(6, 0, E), 10);
    // The first record may be the one: 3E then 1E after two takes, or marks by one.
    let marks = Bench::new(4).clean(&[event(0, ENTER_HARD), take(0, 3, E)]);
    let mut b = one.joined_clean(&marks);
    assert_eq!(b.step(&take(0, 3, E)), 1);
    assert_eq!(
        (b.slip[..8].to_vec(), b.count()),
        (entries(&[(3, EN, 1, 0)]), 1)
    );
    // Nothing is held at first, so the lowest number that a joined desk gives is 2.
    let b = one
        .joined_clean(&two)
        .clean(&[take(0, 0, E), take(0, 3, E)]);
    assert_eq!((b.number(0, 3), b.count()), (2, 2));
    assert_eq!((b.number(1, 2), b.number(2, 3)), (42, 72));
    // By the feed too, opened and with any number of records before.
    let joined = one.joined_clean(&two);
    let records = [
        take(3, 3, E),
        event(3, HARD_OFF),
        take(3, 2, E),
        take(3, 0, E),
    ];
    let mut stepped = joined.clone();
    assert_eq!([0, 1, 2].map(|i| stepped.step(&records[i])), [0, 0, 1]);
    assert_eq!(
        stepped.slip[..15],
        entries(&[(2, SR, 0, 72), (3, EN, 0, 3)])
    );
    for cut in 0..24 {
        let mut fed = Fed::lying(0, 1, 0, &[], 41, joined.clone());
        let bytes = records.concat();
        fed.feed(&bytes[..cut]);
        assert_eq!(fed.feed(&bytes[cut..]), (1, 44));
        assert_eq!(fed.b, stepped);
        fed.stands(1, 44);
    }
    // Opening makes it a fresh one.
    let mut opened = stepped.clone();
    assert_eq!(opened.open(4), 0);
    assert_eq!((&opened.desk, &opened.sheet, &opened.seen), {
        let fresh = &Bench::new(4);
        (
            &fresh.desk.clone(),
            &fresh.sheet.clone(),
            &fresh.seen.clone(),
        )
    });
}

#[test]
fn books_of_a_joined_desk() {
    // Two lists by the records alone, their books joined, and a third list: answers and
    // numbers as on the joined desk.
    let mut dice = Dice(0xB00C_50F7_0BE4_C4E5);
    let (mut old, mut new, mut answers) = (0, 0, [0u64; 12]);
    for round in 0..3_000u64 {
        let k = if round % 25 == 0 {
            50 + dice.under(15)
        } else {
            1 + dice.under(6)
        };
        let modes: &[u8] = [
            &MODES[..],
            &[R, R, R, NR, TRR],
            &[R, R, R, R, R, E],
            &[R, TRR],
        ][round as usize % 4];
        let mut sides = Vec::new();
        for _ in 0..2 {
            let mut b = Bench::new(k as usize);
            let mut books = Books::open(k).unwrap();
            for _ in 0..dice.under(40) {
                let r = random_record(&mut dice, k, modes);
                if b.clone().step(&r) == 1 && dice.under(4) > 0 {
                    continue;
                }
                assert_eq!(books.enter(&r), b.step(&r) < 2);
            }
            assert_eq!(books.closed(), b.desk[1] == 1);
            sides.push((b, books));
        }
        let [(one, books1), (two, books2)] = &sides[..] else {
            unreachable!()
        };
        let (answer, mut b) = one.joined(two);
        let mut lists = [
            books1.joined(books2),
            one.books().unwrap().joined(&two.books().unwrap()),
        ];
        if answer == 13 {
            assert!(lists.iter().all(|books| books.is_none()));
            assert!(one.desk[1] == 1 || two.desk[1] == 1);
            answers[11] += 1;
            continue;
        }
        for books in lists.iter_mut().flatten() {
            assert_eq!(books.closed(), answer == 1);
            assert_eq!(b.seen, bytes_of(books.numbers()));
        }
        let start = b.clone();
        for place in 0..dice.under(50) {
            let r = random_record(&mut dice, k, modes);
            let said = b.step(&r);
            answers[usize::from(said)] += 1;
            if answer == 1 {
                assert_eq!(said, 10);
            }
            for books in lists.iter_mut().flatten() {
                assert_eq!(books.enter(&r), said < 2, "{round} {place}");
                assert_eq!(books.accepted(), b.count());
                assert_eq!(bytes_of(books.numbers()), b.seen);
                assert_eq!(books.closed(), b.desk[1] == 1);
            }
            assert_eq!(b.unfit(), None);
        }
        assert!(lists.iter().all(|books| books.is_some()));
        for pair in 0..(k * k) as usize {
            let (from, to) = (pair / k as usize, pair % k as usize);
            if start.sheet[pair] != 0 {
                assert_eq!(b.number(from, to), start.number(from, to));
                old += 1;
            } else if b.sheet[pair] != 0 {
                assert!((1..=b.count()).contains(&b.number(from, to)));
                new += 1;
            }
        }
    }
    assert!(old > 5_000 && new > 3_000, "{old}, {new}");
    for answer in [0, 1, 3, 5, 6, 7, 10, 11] {
        assert!(answers[answer] > 50, "{answers:?}");
    }
    // Different K.
    let [a, b] = [3, 4].map(|k| Books::open(k).unwrap());
    assert!(a.joined(&b).is_none() && b.joined(&a).is_none());
    assert!(a.joined(&a).is_some_and(|books| !books.closed()));
}

#[test]
fn other_cores_records_from_a_joined_start() {
    // Demand 3 in small: "when both its desks start as the same joined one; their drawings
    // then start from its marks and sheet instead of from zero".
    let mut dice = Dice(0xC0DE_1013_ED00_9BDF);
    let (mut faults, mut from_start, mut later, mut before) = (0, 0, 0, 0);
    for round in 0..4_000 {
        let k = 1 + dice.under(6);
        let sides = [(); 2].map(|_| {
            let mut b = Bench::new(k as usize);
            for _ in 0..dice.under(30) {
                let mut next = b.clone();
                if next.step(&random_record(&mut dice, k, &[E, NR, R, R, R, R, TE])) == 0 {
                    b = next;
                }
            }
            b
        });
        let (answer, joined) = sides[0].joined(&sides[1]);
        from_start += u64::from(answer == 1);
        let (mut short, mut long) = (joined.clone(), joined.clone());
        // The drawing of the short list, from the joined marks and sheet.
        let mut books = joined.books().unwrap();
        for _ in 0..40 {
            let mut r = random_record(&mut dice, k, &[E, NR, R, R, R, TE, TR, TRR]);
            if read_record(&r).is_some() && dice.under(2) == 0 {
                r[2] = 5;
                let said = long.step(&r);
                before += u64::from(said == 1);
                continue;
            }
            if r[2] == 5 {
                continue;
            }
            let closed = long.desk[1] == 1;
            let (said, with_more) = (short.step(&r), long.step(&r));
            assert_eq!(books.enter(&r), said < 2);
            assert_eq!(books.closed(), short.desk[1] == 1);
            match (answer, closed) {
                (1, _) => assert_eq!((said, with_more), (10, 10)),
                (_, true) => assert_eq!(with_more, 10),
                _ => {
                    assert!(
                        said == with_more || (said == 0 && with_more == 1),
                        "{round}"
                    );
                    faults += u64::from(said == 1);
                    later += u64::from(said == 0 && with_more == 1);
                }
            }
            assert!(short.desk[1] <= long.desk[1]);
            // Kinds and marks of the short list are among the long one's, while both are open.
            if long.desk[1] == 0 {
                assert!((0..short.sheet.len()).all(|i| short.sheet[i] & !long.sheet[i] == 0));
                assert!((34..98).all(|i| short.desk[i] & !long.desk[i] == 0));
            }
        }
    }
    assert!(
        faults > 200 && from_start > 200 && later > 10 && before > 100,
        "{faults}, {from_start}, {later}, {before}"
    );
}

#[test]
fn a_join_and_one_log_of_both() {
    // Two lists of takes on cores of their own leave, joined, the drawing of the one list in
    // which the second follows the first: fault or clean alike, marks and kinds.
    let mut dice = Dice(0x04E1_0640_FB07_0001);
    let mut met = [0u64; 2];
    for _ in 0..2_000 {
        let k = 1 + dice.under(6);
        let mut lists = [vec![], vec![]];
        let mut benches = [Bench::new(k as usize), Bench::new(k as usize)];
        for side in 0..2 {
            for _ in 0..dice.under(25) {
                let mut r = random_record(&mut dice, k, &[E, NR, R, R, R, R, TE]);
                r[2] = r[2] % 4 + 4 * side as u8;
                let mut next = benches[side].clone();
                if next.step(&r) == 0 {
                    benches[side] = next;
                    lists[side].push(r);
                }
            }
        }
        let (answer, joined) = benches[0].joined(&benches[1]);
        met[usize::from(answer)] += 1;
        let mut whole = Bench::new(k as usize);
        let said: Vec<u8> = lists.concat().iter().map(|r| whole.step(r)).collect();
        assert_eq!(said.contains(&1), answer == 1);
        assert!(said.iter().all(|&a| a == 0) || answer == 1);
        if answer == 0 {
            assert_eq!(whole.sheet, joined.sheet);
            assert_eq!(whole.desk[34..98], joined.desk[34..98]);
        }
    }
    assert!(met[0] > 200 && met[1] > 200, "{met:?}");
}

// ------------------------------------------------------- the program of the joiner

fn join_text(log1: &[u8], log2: &[u8]) -> String {
    let mut out = Vec::new();
    run_join(&mut &log1[..], &mut &log2[..], &mut out).unwrap();
    String::from_utf8(out).unwrap()
}

/// What it should print of two logs, by what `run_log` prints of each and by the step.
fn join_wanted(log1: &[u8], log2: &[u8]) -> String {
    let texts = [program(log1), program(log2)];
    let dirty: String = texts
        .iter()
        .zip(["log 1: ", "log 2: "])
        .filter(|(text, _)| !text.starts_with("clean, "))
        .map(|(text, name)| format!("{name}{text}"))
        .collect();
    if !dirty.is_empty() {
        return dirty;
    }
    let benches = [log1, log2].map(|log| {
        let mut b = lent_for(log[3] as usize);
        let records = if log[2] == 2 {
            let word = u64::from_le_bytes(log[4..12].try_into().unwrap());
            assert_eq!(b.open_declared(log[3].into(), word), 0);
            &log[12..]
        } else {
            assert_eq!(b.open(log[3].into()), 0);
            &log[4..]
        };
        for r in records.chunks(6) {
            assert_eq!(b.step(r), 0);
        }
        b
    });
    if log1[3] != log2[3] || benches[0].desk[1398..1406] != benches[1].desk[1398..1406] {
        return "refused 12\n".to_string();
    }
    let into = lent_for(log1[3] as usize);
    match listed(&plainly(&benches[0], &benches[1], &into, listed).1) {
        None => "clean\n".to_string(),
        Some(circle) => format!("fault\n{}", printed(&circle)),
    }
}

#[test]
fn two_logs_joined() {
    let p2 = p2_records();
    let (first, second) = (log(3, &p2[..4]), log(3, &p2[4..]));
    let fault = "fault\n1 EN 2 hold\n2 EN 1 hold\n";
    assert_eq!(join_text(&first, &second), fault);
    assert_eq!(join_text(&second, &first), fault);
    assert_eq!(join_text(&first, &first), "clean\n");
    assert_eq!(join_text(&second, &second), "clean\n");
    // Headers alone, and empty logs.
    assert_eq!(join_text(&log(3, &[]), &log(3, &[])), "clean\n");
    assert_eq!(join_text(&log(3, &[]), &second), "clean\n");
    assert_eq!(join_text(&log(1, &[]), &log(64, &[])), "refused 12\n");
    assert_eq!(join_text(&[], &second), "log 1: refused 2 at record 0\n");
    assert_eq!(join_text(&second, &[]), "log 2: refused 2 at record 0\n");
    assert_eq!(
        join_text(&[], &[]),
        "log 1: refused 2 at record 0\nlog 2: refused 2 at record 0\n"
    );
    // Different K, whatever the records.
    assert_eq!(join_text(&first, &log(4, &p2[4..])), "refused 12\n");
    assert_eq!(join_text(&log(64, &p2[..4]), &second), "refused 12\n");
    // A log with a fault of its own, in K = 3 or another.
    let whole = log(3, &p2);
    let at_6 = "fault at record 6\n1 EN 2 hold\n2 EN 1 hold\n";
    assert_eq!(join_text(&whole, &first), format!("log 1: {at_6}"));
    assert_eq!(join_text(&first, &whole), format!("log 2: {at_6}"));
    assert_eq!(
        join_text(&whole, &whole),
        format!("log 1: {at_6}log 2: {at_6}")
    );
    assert_eq!(join_text(&whole, &log(4, &[])), format!("log 1: {at_6}"));
    assert_eq!(join_text(&log(4, &[]), &whole), format!("log 2: {at_6}"));
    // The one refused, the other with a fault: each its own line, log 1 first.
    let refused = log(8, &[take(0, 1, E), take(0, 8, E), take(0, 1, E)]);
    assert_eq!(
        join_text(&refused, &whole),
        format!("log 1: refused 4 at record 2\nlog 2: {at_6}")
    );
    assert_eq!(
        join_text(&whole, &refused),
        format!("log 1: {at_6}log 2: refused 4 at record 2\n")
    );
    // All sources, all kinds.
    let safe = log(8, &[event(0, ENTER_HARD), take(0, 3, R)]);
    let soft = log(
        8,
        &[event(0, ENTER_SOFT), event(0, HARD_OFF), take(0, 3, R)],
    );
    let unsafe_ = log(8, &[take(0, 3, TE)]);
    assert_eq!(join_text(&safe, &unsafe_), "fault\n3 ER 3 hard\n");
    assert_eq!(join_text(&unsafe_, &soft), "fault\n3 ER 3 soft\n");
    assert_eq!(join_text(&safe, &soft), "clean\n");
    let (one, two) = (
        log(8, &[take(0, 0, R), take(0, 1, R)]),
        log(8, &[take(7, 1, E), take(7, 0, NR)]),
    );
    assert_eq!(join_text(&one, &two), "fault\n0 SR 1 hold\n1 EN 0 hold\n");
    let (one, two) = (
        log(8, &[take(0, 0, R), take(0, 1, E)]),
        log(8, &[take(7, 1, R), take(7, 0, E)]),
    );
    assert_eq!(join_text(&two, &one), "fault\n0 SN 1 hold\n1 SN 0 hold\n");
}

#[test]
fn every_two_logs() {
    // Clean, refused with each answer that a log can get, at any record, and with faults.
    let full = vec![take(0, 0, R); 49];
    let mut short = log(3, &p2_records()[..3]);
    short.truncate(short.len() - 1);
    let logs: Vec<Vec<u8>> = vec![
        log(3, &[]),
        log(3, &p2_records()[..4]),
        log(3, &p2_records()[4..]),
        log(4, &p2_records()[4..]),
        log(64, &[take(0, 63, E), take(0, 62, E)]),
        log(64, &[take(0, 62, E), take(0, 63, E)]),
        vec![],
        vec![0x4C, 0x48, 1],
        vec![0x4C, 0x48, 2, 3],
        log(0, &[]),
        log(65, &[take(0, 0, E)]),
        short,
        [log(3, &[]), vec![0x4C]].concat(),
        [log(3, &p2_records()), vec![0x4C]].concat(),
        log(3, &[[0; 6], take(0, 3, E)]),
        log(3, &[take(0, 0, E), take(0, 3, E)]),
        log(3, &[take(0, 0, E), take(0, 0, TE), release(0, 0, E)]),
        log(3, &[event(0, EXIT_HARD)]),
        log(
            3,
            &[event(0, ENTER_HARD), take(0, 0, E), event(0, EXIT_HARD)],
        ),
        log(3, &full),
        log(3, &p2_records()),
        log(4, &p2_records()),
        log(1, &[take(0, 0, E), take(0, 0, NR), [0; 6]]),
        log(
            2,
            &[
                take(0, 0, R),
                release(0, 0, R),
                event(0, ENTER_SOFT),
                take(0, 0, E),
            ],
        ),
        log(64, &[take(0, 63, E), event(0, ENTER_HARD), take(0, 63, R)]),
    ];
    let mut firsts = std::collections::BTreeSet::new();
    let mut both = 0;
    for log1 in &logs {
        for log2 in &logs {
            let text = join_text(log1, log2);
            assert_eq!(text, join_wanted(log1, log2));
            both += u64::from(text.contains("log 1: ") && text.contains("log 2: "));
            firsts.insert(text.lines().next().unwrap().to_string());
        }
    }
    assert_eq!(both, 19 * 19);
    for line in [
        "clean",
        "fault",
        "refused 12",
        "log 1: refused 2 at record 0",
        "log 1: refused 3 at record 1",
        "log 1: refused 3 at record 3",
        "log 1: refused 4 at record 2",
        "log 1: refused 5 at record 3",
        "log 1: refused 6 at record 1",
        "log 1: refused 7 at record 3",
        "log 1: refused 8 at record 49",
        "log 1: fault at record 2",
        "log 1: fault at record 3",
        "log 1: fault at record 4",
        "log 1: fault at record 6",
        "log 2: refused 2 at record 0",
        "log 2: refused 8 at record 49",
        "log 2: fault at record 6",
    ] {
        assert!(firsts.contains(line), "{line}");
    }
}

#[test]
fn random_logs_joined() {
    let mut dice = Dice(0x4A2D_0106_5101_4ED0);
    let mut met = std::collections::BTreeMap::new();
    for round in 0..3_000u64 {
        let k = 1 + dice.under(5);
        let logs = [(); 2].map(|_| {
            let k = if dice.under(10) == 0 {
                1 + dice.under(5)
            } else {
                k
            };
            let mut b = Bench::new(k as usize);
            let mut records = vec![];
            let spoilt = dice.under(6) == 0;
            for _ in 0..dice.under(30) {
                let r = random_record(&mut dice, k, &[E, NR, R, R, R, TE]);
                let mut next = b.clone();
                if next.step(&r) == 0 || spoilt {
                    b = next;
                    records.push(r);
                }
            }
            let mut bytes = log(k as u8, &records);
            if dice.under(20) == 0 {
                bytes.truncate(dice.under(bytes.len() as u64) as usize);
            }
            bytes
        });
        let text = join_text(&logs[0], &logs[1]);
        assert_eq!(text, join_wanted(&logs[0], &logs[1]), "{round}");
        let word: String = text.chars().take_while(|c| c.is_alphabetic()).collect();
        *met.entry(word).or_insert(0u64) += 1;
        // Byte by byte, with interruptions.
        let mut out = Vec::new();
        run_join(
            &mut Drip(&logs[0], false),
            &mut Drip(&logs[1], true),
            &mut out,
        )
        .unwrap();
        assert_eq!(out, text.as_bytes());
    }
    for word in ["clean", "fault", "refused", "log"] {
        assert!(met[word] > 100, "{met:?}");
    }
}

/// A log of this many bytes: a header, a take, and then hard on and off over and over.
fn long_log(k: u8, first: &[Rec], records: usize) -> Vec<u8> {
    let rest = [event(1, HARD_OFF), event(1, HARD_ON)];
    let rest = rest.iter().copied().cycle().take(records);
    log(k, &[first.to_vec(), rest.collect()].concat())
}

#[test]
fn logs_longer_than_any_buffer() {
    let one = long_log(3, &p2_records()[..4], 30_000);
    let two = long_log(3, &p2_records()[4..], 29_999);
    let fault = "fault\n1 EN 2 hold\n2 EN 1 hold\n";
    assert_eq!(join_text(&one, &two), fault);
    assert_eq!(join_text(&two, &two), "clean\n");
    // What comes last is judged too.
    let late = |mut log: Vec<u8>, r: Rec| {
        log.extend(r);
        log
    };
    let refused = late(two.clone(), take(0, 3, E));
    assert_eq!(
        join_text(&one, &refused),
        "log 2: refused 4 at record 30002\n"
    );
    let faulty = late(two.clone(), take(0, 2, E));
    assert_eq!(
        join_text(&faulty, &late(two.clone(), [0; 6])),
        "log 2: refused 3 at record 30002\n"
    );
    let faulty = late(late(faulty, take(0, 0, E)), take(0, 2, E));
    assert_eq!(
        join_text(&faulty, &one),
        "log 1: fault at record 30004\n2 EN 2 hold\n"
    );
    let cut = &one[..one.len() - 1];
    assert_eq!(join_text(cut, &two), "log 1: refused 3 at record 30004\n");
    // With more to come: read up to and with the first answer but 0, and no further.
    for most in [1, 5, 6, 7, 4_096, usize::MAX] {
        let much = |bytes: &'static [u8]| Hose {
            bytes,
            most,
            limit: 100_000,
            fails: None,
            given: 0,
        };
        // The second header is refused with 3, as record 1; six bytes of it are read.
        let (mut log1, mut log2) = (much(&[0x4C, 0x48, 1, 3]), much(&[0x4C, 0x48, 1]));
        let mut out = Vec::new();
        run_join(&mut log1, &mut log2, &mut out).unwrap();
        assert_eq!(
            String::from_utf8(out).unwrap(),
            "log 1: refused 3 at record 1\nlog 2: refused 2 at record 0\n"
        );
        assert_eq!((log1.given, log2.given), (10, 4));
    }
}

#[test]
fn a_log_that_fails_is_no_answer() {
    // An error of either input: no text, also not of a log that isn't clean. An error after
    // the first answer but 0 isn't met.
    let (good, bad) = (log(3, &p2_records()[..4]), log(3, &p2_records()));
    for kind in [
        ErrorKind::Other,
        ErrorKind::UnexpectedEof,
        ErrorKind::WouldBlock,
    ] {
        for (bytes, limits, stops) in [
            (&good, vec![0, 1, 3, 4, 5, 10, 27, 28], usize::MAX),
            (&bad, vec![0, 4, 28, 34, 39, 40], 40),
        ] {
            for other in [&good, &bad, &log(4, &[]), &vec![]] {
                for limit in limits.iter().copied() {
                    for first in [false, true] {
                        let mut hose = Hose {
                            bytes,
                            most: 5,
                            limit,
                            fails: Some(kind),
                            given: 0,
                        };
                        let mut out = Vec::new();
                        let other = &mut &other[..];
                        let result = if first {
                            run_join(&mut hose, other, &mut out)
                        } else {
                            run_join(other, &mut hose, &mut out)
                        };
                        if limit < stops {
                            assert_eq!(result.map_err(|e| e.kind()), Err(kind));
                            assert_eq!(out, []);
                        } else {
                            assert!(result.is_ok() && !out.is_empty());
                        }
                    }
                }
            }
        }
    }
    // An output error is one, and what is written is sent on.
    for (log1, log2) in [
        (&good, &log(3, &p2_records()[4..])),
        (&good, &good),
        (&bad, &bad),
        (&good, &bad),
        (&good, &log(4, &[])),
    ] {
        let text = join_text(log1, log2);
        for short in [0, 1, 6] {
            let mut room = vec![0; text.len() - short];
            let result = run_join(&mut &log1[..], &mut &log2[..], &mut &mut room[..]);
            assert_eq!(result.is_ok(), short == 0);
            assert_eq!(room, text.as_bytes()[..room.len()]);
        }
        let mut out = std::io::BufWriter::new(Vec::new());
        run_join(&mut &log1[..], &mut &log2[..], &mut out).unwrap();
        assert_eq!(out.get_ref(), text.as_bytes());
    }
}

#[test]
fn the_arguments() {
    let folder = std::env::temp_dir().join(format!("reference-join-{}", std::process::id()));
    std::fs::create_dir_all(&folder).unwrap();
    let path = |name: &str| folder.join(name).into_os_string();
    let p2 = log(3, &p2_records());
    for (name, bytes) in [
        ("one", log(3, &p2_records()[..4])),
        ("two", log(3, &p2_records()[4..])),
        ("four", log(4, &[])),
        ("empty", vec![]),
        ("p2", p2.clone()),
        ("long", long_log(3, &p2_records()[4..], 20_000)),
    ] {
        std::fs::write(path(name), bytes).unwrap();
    }
    let run = |arguments: &[OsString], input: &[u8]| {
        let mut out = Vec::new();
        let mut input = &input[..];
        let result = run_arguments(arguments, &mut input, &mut out);
        (
            result
                .map_err(|e| e.kind())
                .map(|()| String::from_utf8(out.clone()).unwrap()),
            out,
            input.len(),
        )
    };
    let joins = |names: &[&str]| {
        let paths = names.iter().map(|name| path(name));
        let arguments: Vec<OsString> = std::iter::once("join".into()).chain(paths).collect();
        // Standard input isn't read.
        let (result, out, rest) = run(&arguments, &p2);
        assert_eq!(rest, p2.len());
        if result.is_err() {
            assert_eq!(out, []);
        }
        result
    };
    let fault = "fault\n1 EN 2 hold\n2 EN 1 hold\n";
    let at_6 = "fault at record 6\n1 EN 2 hold\n2 EN 1 hold\n";
    for (names, text) in [
        (["one", "two"], fault.to_string()),
        (["two", "one"], fault.to_string()),
        (["one", "one"], "clean\n".to_string()),
        (["one", "long"], fault.to_string()),
        (["long", "two"], "clean\n".to_string()),
        (["one", "four"], "refused 12\n".to_string()),
        (
            ["empty", "p2"],
            format!("log 1: refused 2 at record 0\nlog 2: {at_6}"),
        ),
        (["p2", "one"], format!("log 1: {at_6}")),
    ] {
        assert_eq!(joins(&names), Ok(text), "{names:?}");
    }
    // No such file, and a folder; beside a log that isn't clean, too.
    for (name, kind) in [
        ("none", ErrorKind::NotFound),
        (".", ErrorKind::IsADirectory),
    ] {
        for other in ["one", "p2", "empty"] {
            assert_eq!(joins(&[name, other]), Err(kind));
            assert_eq!(joins(&[other, name]), Err(kind));
        }
    }
    // Two paths and no other number.
    for names in [&[][..], &["one"], &["one", "two", "two"]] {
        assert_eq!(joins(names), Err(ErrorKind::InvalidInput));
    }
    // The other uses are as they were: standard input, whatever comes after.
    let piece = p2_records().concat();
    for (arguments, input, text) in [
        (&[][..], &p2, at_6),
        (&["balance"], &piece, "1 1\n2 1\n"),
        (&["balance", "join"], &piece, "1 1\n2 1\n"),
        (&["Join", "a", "b"], &p2, at_6),
        (&["joins", "a", "b"], &p2, at_6),
        (&["", "join"], &p2, at_6),
    ] {
        let arguments: Vec<OsString> = arguments.iter().map(|word| word.into()).collect();
        assert_eq!(run(&arguments, input).0, Ok(text.to_string()));
    }
    std::fs::remove_dir_all(&folder).unwrap();
}

// ----------------------------------------------------------------------- time

#[test]
#[ignore = "a measurement; run with --ignored --nocapture"]
fn time_of_a_step() {
    for (name, ascending) in [("ascending", true), ("descending", false)] {
        let mut b = Bench::new(64);
        for from in 0..64 {
            for to in 0..64 {
                if (ascending && from < to) || (!ascending && from > to) {
                    b.sheet[from * 64 + to] = 15;
                }
            }
        }
        b.settle();
        let rounds = 20_000;
        let start = std::time::Instant::now();
        for _ in 0..rounds / 2 {
            assert_eq!(b.step(&take(0, 5, E)), 0);
            assert_eq!(b.step(&release(0, 5, E)), 0);
        }
        let each = start.elapsed().as_nanos() as f64 / rounds as f64 / 1000.0;
        println!("dense clean drawing, K = 64, {name}: {each:.1} us a step");
        let start = std::time::Instant::now();
        for class in 0..rounds {
            assert_eq!(b.ask(class % 64).0, 0);
        }
        let each = start.elapsed().as_nanos() as f64 / rounds as f64 / 1000.0;
        println!("    {each:.1} us a question");
    }
    // Faults: the drawings with the most to go through for each length.
    let every = |arrow: &dyn Fn(usize, usize) -> u8| {
        let mut b = Bench::new(64);
        for from in 0..64 {
            for to in 0..64 {
                b.sheet[from * 64 + to] = arrow(from, to);
            }
        }
        b.settle();
        b
    };
    let mut cases = vec![
        ("every arrow".to_string(), 1, every(&|_, _| 15)),
        (
            "every arrow but those to itself".to_string(),
            2,
            every(&|a, b| if a == b { 0 } else { 15 }),
        ),
        (
            "a ring, and every SR".to_string(),
            64,
            every(&|a, b| if (a + 1) % 64 == b { SN | SR } else { SR }),
        ),
        (
            "two rings, every arrow from one to the other".to_string(),
            32,
            every(&|a, b| {
                let next = a / 32 == b / 32 && (a + 1) % 32 == b % 32;
                if next || a / 32 < b / 32 {
                    15
                } else {
                    0
                }
            }),
        ),
        (
            "a ring, and every arrow from it to a line".to_string(),
            32,
            every(&|a, b| {
                let ring = a < 32 && b < 32 && (a + 1) % 32 == b;
                if ring || b >= 32 && a < b {
                    15
                } else {
                    0
                }
            }),
        ),
    ];
    for n in [2usize, 3, 4, 8, 16, 32, 64] {
        cases.push((
            format!("{} classes at each of {n} places", 64 / n),
            n as u8,
            every(&|a, b| if (a + 1) % n == b % n { 15 } else { 0 }),
        ));
    }
    for (name, n, b) in cases {
        let start = std::time::Instant::now();
        for _ in 0..200 {
            let mut b = b.clone();
            assert_eq!(b.step(&event(0, HARD_ON)), 1);
            assert_eq!(b.slip[0], n);
        }
        let each = start.elapsed().as_nanos() as f64 / 200.0 / 1000.0;
        println!("fault, {name}: {each:.1} us a step");
    }
}
