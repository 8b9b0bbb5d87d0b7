//! The rules of request j, "Crosslocks", one by one.
use super::*;

// ------------------------------------------------------------------- helpers

impl Bench {
    /// The 64-bit word in eight bytes of the desk, low byte first.
    fn long_word(&self, at: usize) -> u64 {
        (0..8)
            .map(|i| u64::from(self.desk[at + i]) << (8 * i))
            .sum()
    }
    /// The crosslocks in progress.
    fn in_progress(&self) -> Vec<u8> {
        let word = self.long_word(1406);
        (0..64).filter(|class| word >> class & 1 == 1).collect()
    }
    fn set_in_progress(&mut self, classes: &[u8]) {
        self.desk[1406..1414].copy_from_slice(&word_of(classes).to_le_bytes());
    }
    fn kept(&self) -> u32 {
        u32::from_le_bytes(self.desk[1414..1418].try_into().unwrap())
    }
    fn set_kept(&mut self, kept: u32) {
        self.desk[1414..1418].copy_from_slice(&kept.to_le_bytes());
    }
    fn since(&self, class: u8) -> u32 {
        let at = 1418 + 4 * class as usize;
        u32::from_le_bytes(self.desk[at..at + 4].try_into().unwrap())
    }
    fn set_since(&mut self, class: u8, since: u32) {
        let at = 1418 + 4 * class as usize;
        self.desk[at..at + 4].copy_from_slice(&since.to_le_bytes());
    }
    /// The kept takes, each by its two bytes.
    fn entries(&self) -> Vec<[u8; 2]> {
        let all = self.history.chunks(2).take(self.kept() as usize);
        all.map(|entry| [entry[0], entry[1]]).collect()
    }
    fn set_entry(&mut self, i: usize, entry: [u8; 2]) {
        self.history[2 * i..2 * i + 2].copy_from_slice(&entry);
    }
    /// All pairs with hold arrows: from, kinds, to, number.
    fn pairs(&self) -> Vec<(usize, u8, usize, u32)> {
        let k = self.desk[0] as usize;
        let drawn = (0..k * k).filter(|&pair| self.sheet[pair] != 0);
        drawn
            .map(|pair| {
                let (from, to) = (pair / k, pair % k);
                (from, self.sheet[pair], to, self.number(from, to))
            })
            .collect()
    }
    /// After this record, which must be answered 0.
    fn then(&self, record: Rec) -> Bench {
        self.clone().clean(&[record])
    }
    /// What a record draws: it must be answered 0 or 1.
    fn draws(&self, record: Rec) -> Vec<(usize, u8, usize, u32)> {
        let mut after = self.clone();
        assert!(after.step(&record) < 2);
        let before = self.pairs();
        let new = |arrow: &(usize, u8, usize, u32)| !before.contains(arrow);
        after.pairs().into_iter().filter(new).collect()
    }
}

/// The records that lead a fresh core to each state.
fn to_state(core: u8, state: u8) -> Vec<Rec> {
    let kinds: &[u8] = match state {
        0 => &[],
        1 => &[SOFT_OFF],
        2 => &[HARD_OFF],
        3 => &[SOFT_OFF, HARD_OFF],
        4 => &[ENTER_SOFT],
        5 => &[ENTER_SOFT, HARD_OFF],
        6 => &[ENTER_HARD],
        7 => &[SOFT_OFF, ENTER_HARD],
        _ => &[ENTER_SOFT, ENTER_HARD],
    };
    kinds.iter().map(|&kind| event(core, kind)).collect()
}

const KINDS_OF_CROSSLOCKS: [u8; 3] = [10, 11, 12];

fn cross(core: u8, kind: u8, class: u8) -> Rec {
    [0x4C, 0x4B, core, kind, class, 0]
}

/// The completion: core 0 takes 1 and then the crosslock 3; core 1 takes 1 and commits 3.
fn completion() -> [Rec; 4] {
    [take(0, 1, E), take_cross(0, 3), take(1, 1, E), commit(1, 3)]
}

// ------------------------------------------------------------------- opening

#[test]
fn the_word_at_opening() {
    for k in 1..=64usize {
        let all = if k == 64 { u64::MAX } else { (1 << k) - 1 };
        let bits = (0..64).map(|bit| 1u64 << bit);
        for declared in bits.chain([0, all, all / 3, u64::MAX, all.wrapping_add(1) | 1]) {
            let mut b = lent_for(k);
            b.history = vec![0xA5; 512 + 7];
            b.desk.extend([0xA5; 7]);
            let before = b.clone();
            let answer = b.open_declared(k as u64, declared);
            if declared & !all != 0 {
                assert_eq!((answer, &b), (2, &before), "{k} {declared:x}");
                assert!(Books::open_declared(k as u64, declared).is_none());
                continue;
            }
            assert_eq!(answer, 0, "{k} {declared:x}");
            assert!(Books::open_declared(k as u64, declared).is_some());
            let mut desk = vec![0; 1674];
            desk[0] = k as u8;
            for class in (0..64).filter(|class| declared >> class & 1 == 1) {
                desk[1398 + class / 8] |= 1 << (class % 8);
            }
            desk.extend([0xA5; 7]);
            assert_eq!(b.desk, desk);
            assert_eq!(b.history, [vec![0; 512], vec![0xA5; 7]].concat());
            assert_eq!(b.slip, before.slip);
            assert_eq!(b.unfit(), None);
        }
    }
    for k in [0, 65, 256, 1 << 40, u64::MAX] {
        for declared in [0, 1, u64::MAX] {
            let mut b = lent_for(64);
            assert_eq!(b.open_declared(k, declared), 2);
            assert_eq!(b, lent_for(64));
        }
    }
}

#[test]
fn the_history_at_opening() {
    for length in (0..512).chain([512, 513, 600]) {
        let mut b = lent_for(3);
        b.history = vec![0xA5; length];
        let before = b.clone();
        let answer = b.open_declared(3, 0b100);
        if length < 512 {
            assert_eq!((answer, &b), (2, &before));
            // By the feed: 2 at record 0.
            for header in [log(3, &[]), log_declaring(3, 4, &[])] {
                let mut fed = Fed::new(before.clone());
                assert_eq!(fed.feed(&header), (2, 0));
                assert_eq!(fed.b, before);
                fed.stands(2, 0);
            }
        } else {
            assert_eq!(answer, 0);
            assert!(b.history[..512].iter().all(|&x| x == 0));
            assert!(b.history[512..].iter().all(|&x| x == 0xA5));
        }
    }
    // Every byte of the room is looked at together: one short buffer is enough.
    for which in 0..4 {
        let mut b = lent_for(3);
        match which {
            0 => b.desk.truncate(1673),
            1 => b.sheet.truncate(8),
            2 => b.seen.truncate(35),
            _ => b.history.truncate(511),
        }
        let before = b.clone();
        assert_eq!((b.open_declared(3, 7), &b), (2, &before));
    }
    // Whatever lay there before is cleared, in the middle of crosslocks too.
    let mut b = Bench::declaring(4, &[3]).clean(&[take_cross(0, 3), take(0, 1, E)]);
    assert_eq!(
        (b.in_progress(), b.kept(), b.entries()),
        (vec![3], 1, vec![[1, 1]])
    );
    assert_eq!(b.open_declared(4, 1), 0);
    assert_eq!(b.desk, Bench::declaring(4, &[0]).desk);
    assert_eq!(b.history, vec![0; 512]);
}

#[test]
fn both_headers() {
    let whole = |bytes: &[u8]| {
        let mut b = lent_for(64);
        let Bench {
            desk,
            sheet,
            seen,
            history,
            slip,
        } = &mut b;
        let told = whole_log_kept(bytes, desk, sheet, seen, history, slip, true);
        let mut fed = Fed::new(lent_for(64));
        let (piece, end) = (fed.feed(bytes), fed.end());
        assert_eq!((end, &fed.b), (told, &b), "{bytes:?}");
        assert!(piece == end || (piece.0 == 0 && end.0 != 0));
        assert_eq!(fed.feed, lies(bytes, end));
        let text = match told {
            (0, n) => format!("clean, {n} records\n"),
            (answer, n) => format!("refused {answer} at record {n}\n"),
        };
        assert_eq!(program(bytes), text, "{bytes:?}");
        (told, b)
    };
    // Every bit of the word has its class.
    for class in 0..64 {
        let (told, b) = whole(&log_declaring(64, 1 << class, &[take_cross(0, class)]));
        assert_eq!(told, (0, 1));
        assert_eq!(b.long_word(1398), 1 << class);
        let other = (class + 8) % 64;
        let (told, _) = whole(&log_declaring(64, 1 << class, &[take_cross(0, other)]));
        assert_eq!(told, (15, 1));
        // Only classes below K.
        for k in 1..=64 {
            let answer = if class < k { (0, 0) } else { (2, 0) };
            assert_eq!(whole(&log_declaring(k, 1 << class, &[])).0, answer);
        }
    }
    // "low byte first": class 8 is in the second byte.
    let bytes = [0x4C, 0x48, 2, 9, 0, 1, 0, 0, 0, 0, 0, 0];
    assert_eq!(bytes[..], log_declaring(9, 1 << 8, &[]));
    assert_eq!(whole(&bytes).1.long_word(1398), 256);
    assert_eq!(whole(&[0x4C, 0x48, 2, 8, 0, 1, 0, 0, 0, 0, 0, 0]).0, (2, 0));
    // A word of 0 is like the short header.
    for (k, records) in [(3, &p2_records()[..5]), (64, &[]), (1, &[take(0, 0, E)])] {
        let (short, long) = (
            whole(&log(k, records)),
            whole(&log_declaring(k, 0, records)),
        );
        assert_eq!(short, long);
        assert_eq!(short.0 .0, 0);
    }
    // With the short header nothing is declared.
    assert_eq!(whole(&log(8, &[take_cross(0, 3)])).0, (15, 1));
    assert_eq!(whole(&log(8, &[take_cross(0, 8)])).0, (4, 1));
    assert_eq!(whole(&log(8, &[[0x4C, 0x4B, 0, 10, 3, 1]])).0, (3, 1));
    assert_eq!(whole(&log(8, &[[0x4C, 0x4B, 0, 13, 3, 0]])).0, (3, 1));
    // Bad ones: each of the first three bytes, and K.
    let good = log_declaring(64, 7, &[take_cross(0, 0)]);
    for at in 0..3 {
        for byte in 0..=255 {
            let mut bytes = good.clone();
            bytes[at] = byte;
            // With 01 the word is the first record, which is malformed.
            let told = match (at, byte) {
                (0, 0x4C) | (1, 0x48) | (2, 2) => (0, 1),
                (2, 1) => (3, 1),
                _ => (2, 0),
            };
            assert_eq!(whole(&bytes).0, told, "{at} {byte}");
        }
    }
    for k in 0..=255 {
        let told = if (3..=64).contains(&k) {
            (0, 1)
        } else {
            (2, 0)
        };
        assert_eq!(
            whole(&log_declaring(k, 7, &[take_cross(0, 0)])).0,
            told,
            "{k}"
        );
    }
    // Short ones.
    for length in 0..12 {
        assert_eq!(whole(&good[..length]).0, (2, 0));
        let mut other = good[..length].to_vec();
        other.first_mut().map(|byte| *byte = 0x4D);
        assert_eq!(whole(&other).0, (2, 0));
    }
}

#[test]
fn the_third_byte_decides_the_length() {
    // Whatever else is wrong: incomplete until twelve bytes are there, and judged then.
    for start in [
        [0x4C, 0x48, 2, 3],
        [0x4D, 0x48, 2, 3],
        [0x4C, 0x49, 2, 3],
        [0x4C, 0x48, 2, 0],
        [0x4C, 0x48, 2, 65],
        [0, 0, 2, 0],
        [255, 255, 2, 255],
    ] {
        for word in [
            [0; 8],
            [1, 0, 0, 0, 0, 0, 0, 0],
            [8, 0, 0, 0, 0, 0, 0, 0],
            [255; 8],
        ] {
            let header = [&start[..], &word].concat();
            let before = lent_for(3);
            let mut fed = Fed::new(before.clone());
            for length in 1..12 {
                assert_eq!(fed.feed(&header[length - 1..length]), (0, 0));
                assert_eq!(fed.feed, lies(&header[..length], (0, 0)));
                assert_eq!(fed.feed[2] as usize, length);
                assert_eq!(fed.feed[3..3 + length], header[..length]);
                assert_eq!(fed.b, before);
                let mut ended = fed.clone();
                assert_eq!(ended.end(), (2, 0));
                assert_eq!(ended.b, before);
                assert_eq!(ended.feed, [vec![2], vec![0; 21], vec![0xA5; 4]].concat());
                ended.stands(2, 0);
            }
            let well = start == [0x4C, 0x48, 2, 3] && word[0] < 2;
            assert_eq!(fed.feed(&header[11..]), (if well { 0 } else { 2 }, 0));
            if well {
                let mut after = before.clone();
                assert_eq!(after.open_declared(3, word[0].into()), 0);
                assert_eq!(fed.b, after);
                assert_eq!(fed.feed, [vec![0, 1], vec![0; 20], vec![0xA5; 4]].concat());
            } else {
                assert_eq!(fed.b, before);
                fed.stands(2, 0);
            }
        }
    }
    // Any other third byte: four bytes are whole.
    for third in (0..=255).filter(|&third| third != 2) {
        let mut fed = Fed::new(lent_for(3));
        assert_eq!(fed.feed(&[0x4C, 0x48, third]), (0, 0));
        let answer = if third == 1 { 0 } else { 2 };
        assert_eq!(fed.feed(&[3]), (answer, 0));
    }
}

#[test]
fn cuts_of_logs_with_crosslocks() {
    let records = completion();
    for (log, told, ended) in [
        (log_declaring(4, 8, &records), (1, 4), (1, 4)),
        (log_declaring(4, 8, &records[..3]), (0, 3), (0, 3)),
        (log_declaring(4, 8, &records)[..35].to_vec(), (0, 3), (3, 4)),
        (log_declaring(4, 16, &records[..1]), (2, 0), (2, 0)),
        (log_declaring(4, 4, &records), (15, 2), (15, 2)),
        (
            log_declaring(4, 8, &[records[1], records[1]]),
            (16, 2),
            (16, 2),
        ),
        (
            log_declaring(4, 8, &[records[3], records[1]]),
            (17, 1),
            (17, 1),
        ),
        (log_declaring(0, 0, &[]), (2, 0), (2, 0)),
        (vec![0x4D, 0x48, 2, 3, 0, 0, 0, 0, 0, 0, 0], (0, 0), (2, 0)),
        (
            vec![0x4D, 0x48, 2, 3, 0, 0, 0, 0, 0, 0, 0, 0, 9],
            (2, 0),
            (2, 0),
        ),
        (vec![2, 2, 2], (0, 0), (2, 0)),
        // A record whose third byte is 2 is as long as any other.
        (log(4, &[take(2, 1, E), take(2, 2, E)]), (0, 2), (0, 2)),
        (
            log_declaring(2, 2, &[take(2, 0, E), take_cross(2, 1)]),
            (0, 2),
            (0, 2),
        ),
    ] {
        assert_eq!(all_cuts(&lent_for(4), &log), [told, ended], "{log:?}");
    }
}

#[test]
fn feeds_with_loose_bytes_of_the_long_header() {
    let lying = |answer, opened, kept, loose: &[u8], number| {
        Fed::lying(answer, opened, kept, loose, number, lent_for(8))
    };
    // Twelve bytes are whole; after opening six, whatever the third is.
    for third in [0, 1, 2, 3, 18, 130, 255] {
        for kept in 0..=14 {
            let mut loose = [0; 11];
            loose[2] = third;
            let fit = |opened| match opened {
                0 if third == 2 => (3..=11).contains(&kept),
                0 => kept == 3 || (kept < 3 && third == 0),
                _ => kept <= 5 && (kept >= 3 || third == 0),
            };
            for opened in [0, 1] {
                let fed = lying(0, opened, kept, &loose, 0);
                assert_eq!(
                    unfit_feed(&fed.feed).is_none(),
                    fit(opened),
                    "{:?}",
                    fed.feed
                );
                if !fit(opened) {
                    fed.stands(11, 0);
                }
            }
        }
    }
    // A stray byte at every place from the count on.
    for kept in 3..=11usize {
        let mut loose = [0; 11];
        loose[..kept].fill(2);
        assert_eq!(unfit_feed(&lying(0, 0, kept as u8, &loose, 0).feed), None);
        for at in kept..11 {
            let mut stray = loose;
            stray[at] = 1;
            let fed = lying(0, 0, kept as u8, &stray, 0);
            assert_eq!(unfit_feed(&fed.feed), Some("unused loose byte not 0"));
            fed.stands(11, 0);
        }
        // Beside a standing answer, and with a number.
        let fed = lying(2, 0, kept as u8, &loose, 0);
        assert_eq!(
            unfit_feed(&fed.feed),
            Some("loose bytes beside a standing answer")
        );
        fed.stands(11, 0);
        let fed = lying(0, 0, kept as u8, &loose, 1 << 56);
        assert_eq!(
            unfit_feed(&fed.feed),
            Some("before opening, a record number")
        );
        fed.stands(11, 0);
    }
    // Every count of a fit feed is gone on from.
    let bytes = log_declaring(8, 0b1000, &completion());
    for kept in 3..=11 {
        let mut fed = lying(0, 0, kept as u8, &bytes[..kept], 0);
        assert_eq!(fed.feed(&bytes[kept..]), (1, 4));
        let mut whole = Fed::new(lent_for(8));
        assert_eq!(whole.feed(&bytes), (1, 4));
        assert_eq!(fed, whole);
    }
}

// ------------------------------------------------------------ what is refused

#[test]
fn wrong_sort_of_class() {
    let b = Bench::declaring(8, &[3, 7]).clean(&[take(0, 1, E), take_cross(1, 3)]);
    for class in 0..8 {
        let crosslock = class == 3 || class == 7;
        for core in 0..8 {
            for mode in MODES {
                for kind in [TAKE, RELEASE] {
                    let r = [0x4C, 0x4B, core, kind, class, mode];
                    if crosslock {
                        b.refused(&r, 15);
                    } else {
                        assert_ne!(b.clone().step(&r), 15);
                    }
                }
            }
            for kind in KINDS_OF_CROSSLOCKS {
                if crosslock {
                    assert_ne!(b.clone().step(&cross(core, kind, class)), 15);
                } else {
                    b.refused(&cross(core, kind, class), 15);
                }
            }
        }
    }
    // 3 and 4 before it.
    for kind in KINDS_OF_CROSSLOCKS {
        for mode in 1..=255 {
            b.refused(&[0x4C, 0x4B, 0, kind, 1, mode], 3);
            b.refused(&[0x4C, 0x4B, 0, kind, 3, mode], 3);
            b.refused(&[0x4C, 0x4B, 0, kind, 8, mode], 3);
        }
        for class in 8..=255 {
            b.refused(&cross(0, kind, class), 4);
        }
        b.refused(&cross(8, kind, 3), 3);
        b.refused(&cross(0, kind, 3)[..5], 3);
        b.refused(&[&cross(0, kind, 3)[..], &[0]].concat(), 3);
    }
    for kind in 13..=255 {
        for class in [0, 3, 8] {
            b.refused(&cross(0, kind, class), 3);
        }
    }
    // With none declared, and with all.
    let none = Bench::new(8);
    let all = Bench::declaring(8, &[0, 1, 2, 3, 4, 5, 6, 7]);
    for class in 0..8 {
        for kind in KINDS_OF_CROSSLOCKS {
            none.refused(&cross(2, kind, class), 15);
        }
        for mode in MODES {
            all.refused(&take(2, class, mode), 15);
            all.refused(&release(2, class, mode), 15);
        }
        assert_eq!(all.clone().step(&take_cross(2, class)), 0);
    }
    // K = 64 with bit 63.
    let b = Bench::declaring(64, &[63]);
    assert_eq!(b.clone().step(&take_cross(7, 63)), 0);
    b.refused(&take(7, 63, TE), 15);
    b.refused(&take_cross(7, 62), 15);
}

/// All refusals that a record meets on a fit bench, in no order.
fn refusals_met(b: &Bench, r: &[u8]) -> Vec<u8> {
    let desk = &b.desk;
    let k = desk[0];
    let mut met = Vec::new();
    let well = r.len() == 6
        && r[..2] == [0x4C, 0x4B]
        && r[2] < 8
        && match r[3] {
            0 | 1 => r[5] < 6,
            2..=9 => r[4] == 0 && r[5] == 0,
            10..=12 => r[5] == 0,
            _ => false,
        };
    if desk[1] == 1 {
        met.push(10);
    }
    if !well {
        met.push(3);
        return met;
    }
    let (core, kind, class, mode) = (r[2] as usize, r[3], r[4], r[5]);
    let with_class = matches!(kind, 0 | 1 | 10 | 11 | 12);
    if with_class && class >= k {
        met.push(4);
    }
    let declared = class < 64 && b.long_word(1398) >> class & 1 == 1;
    if with_class && class < k && declared != (kind >= 10) {
        met.push(15);
    }
    let state = desk[2 + core] as usize;
    let at = 3 * core + [0, 0, 0, 0, 1, 1, 2, 2, 2][state];
    let depth = desk[10 + at] as usize;
    let places = 48 * at..48 * at + depth;
    if (2..10).contains(&kind) {
        // Kinds in which a state goes nowhere.
        let nowhere = match state {
            0 => vec![7, 9],
            1 => vec![6, 7, 9],
            2 | 3 => vec![6, 7, 8, 9],
            4 => vec![4, 5, 6, 9],
            5 => vec![4, 5, 6, 7, 8, 9],
            _ => vec![2, 3, 4, 5, 6, 7, 8],
        };
        if nowhere.contains(&kind) {
            met.push(6);
        }
    }
    if (kind == 7 || kind == 9) && depth > 0 {
        met.push(7);
    }
    if kind == 1 {
        let newest = places.clone().rev().find(|&p| desk[98 + p] % 64 == class);
        let taken = newest.map(|p| desk[98 + p] / 64 + 3 * (desk[1250 + p / 8] >> (p % 8) & 1));
        if taken != Some(mode) {
            met.push(5);
        }
    }
    if kind == 0 && depth == 48 {
        met.push(8);
    }
    let in_progress = b.in_progress();
    if kind == 10 && in_progress.contains(&class) {
        met.push(16);
    }
    if (kind == 11 || kind == 12) && !in_progress.contains(&class) {
        met.push(17);
    }
    if kind == 10 && in_progress.len() == 16 {
        met.push(18);
    }
    if kind == 0 && mode < 3 && !in_progress.is_empty() && b.kept() == 256 {
        met.push(19);
    }
    if b.count() == u32::MAX {
        met.push(9);
    }
    met
}

const ORDER: [u8; 14] = [11, 10, 3, 4, 15, 6, 7, 5, 8, 16, 17, 18, 19, 9];

/// A fit bench that didn't come from opening, with any holds, list and history, no arrows and
/// no marks. Full frames, full lists, full histories and full counts are frequent.
fn any_middle(dice: &mut Dice, k: usize) -> Bench {
    let mut b = Bench::new(k);
    let few = dice.under(4) == 0;
    let declared = match dice.under(4) {
        0 => u64::MAX,
        1 => 0,
        _ => dice.next() << 30 ^ dice.next(),
    };
    let most = if few { 3 } else { 64 };
    in_the_middle(dice, &mut b, declared);
    if dice.under(2) == 0 {
        let declared = b.long_word(1398);
        let classes = (0..64).filter(|class| declared >> class & 1 == 1);
        let sixteen: Vec<u8> = classes.take(16.min(most)).collect();
        b.set_in_progress(&sixteen);
    }
    if dice.under(3) == 0 {
        b.set_kept(256);
    }
    for i in 0..256 {
        let entry = match dice.under(4) {
            0 => [0, 0],
            _ => [
                1 + dice.under(24) as u8,
                (dice.under(k as u64) + 64 * dice.under(3)) as u8,
            ],
        };
        b.set_entry(i, entry);
    }
    for class in 0..k as u8 {
        b.set_since(
            class,
            [0, 1, 100, 255, 256, 257, u32::MAX][dice.under(7) as usize],
        );
    }
    for at in 0..24 {
        if at % 3 == 0 {
            b.desk[2 + at / 3] = dice.under(9) as u8;
        }
        let state = b.desk[2 + at / 3];
        let may_hold = [true, [4, 5, 8].contains(&state), state > 5][at % 3];
        if may_hold {
            let depth = [0, 0, 1, 3, 47, 48][dice.under(6) as usize];
            b.desk[10 + at] = depth as u8;
            for place in 0..depth {
                let hold = dice.under(k as u64) + 64 * dice.under(3);
                b.desk[98 + 48 * at + place] = hold as u8;
                b.desk[1250 + 6 * at + place / 8] |= (dice.under(2) as u8) << (place % 8);
            }
        }
    }
    if dice.under(4) == 0 {
        b.set_count(u32::MAX);
    }
    b.desk[1] = u8::from(dice.under(16) == 0);
    // Past what is kept anything may lie.
    let kept = b.kept() as usize;
    for byte in &mut b.history[2 * kept..] {
        *byte = dice.next() as u8;
    }
    assert_eq!(b.unfit(), None);
    assert!(fit_by_hand(&b));
    b
}

#[test]
fn the_order_of_all_refusals() {
    let mut dice = Dice(0x0DE2_0FA1_1000_0001);
    let mut first_of = std::collections::BTreeMap::new();
    for round in 0..6_000 {
        let k = [1, 2, 3, 5, 17, 20, 64][round % 7];
        let b = any_middle(&mut dice, k);
        for _ in 0..12 {
            let kind = match dice.under(4) {
                0 => dice.under(14),
                1 => 10 + dice.under(3),
                _ => dice.under(2),
            };
            let with_class = kind < 2 || kind > 9;
            let class = if with_class {
                dice.under(k as u64 + 2)
            } else {
                0
            };
            let mode = match kind {
                0 | 1 => dice.under(7),
                _ => u64::from(dice.under(10) == 0),
            };
            let r = [
                0x4C,
                0x4B,
                dice.under(8) as u8,
                kind as u8,
                class as u8,
                mode as u8,
            ];
            let met = refusals_met(&b, &r);
            let first = ORDER.into_iter().find(|answer| met.contains(answer));
            match first {
                Some(answer) => {
                    b.refused(&r, answer);
                    for other in met {
                        *first_of.entry((answer, other)).or_insert(0u64) += 1;
                    }
                }
                None => assert!(b.clone().step(&r) < 2),
            }
        }
    }
    for pair in [
        (10, 3),
        (10, 4),
        (10, 15),
        (10, 16),
        (10, 17),
        (10, 18),
        (10, 19),
        (10, 9),
        (3, 3),
        (4, 5),
        (4, 8),
        (4, 17),
        (4, 18),
        (4, 19),
        (4, 9),
        (15, 5),
        (15, 8),
        (15, 17),
        (15, 18),
        (15, 19),
        (15, 9),
        (6, 7),
        (6, 9),
        (7, 9),
        (5, 9),
        (8, 19),
        (8, 9),
        (16, 18),
        (16, 9),
        (17, 9),
        (18, 9),
        (19, 9),
    ] {
        let many = first_of.get(&pair).copied().unwrap_or(0);
        assert!(many > 3, "{pair:?}: {many}");
    }
}

#[test]
fn refusals_by_hand() {
    // 16, 17, 18.
    let b = Bench::declaring(20, &(0..18).collect::<Vec<u8>>());
    let mut full = b.clone();
    for class in 0..16 {
        b.refused(&commit(0, class), 17);
        b.refused(&release_cross(0, class), 17);
        assert_eq!(full.in_progress().len(), class as usize);
        full = full.then(take_cross(class % 8, class));
        for core in 0..8 {
            full.refused(&take_cross(core, class), 16);
        }
    }
    full.refused(&take_cross(0, 16), 18);
    full.refused(&take_cross(0, 17), 18);
    full.refused(&take_cross(0, 15), 16); // 16 before 18
    full.refused(&take_cross(0, 18), 15);
    full.refused(&take_cross(0, 20), 4);
    full.refused(&commit(0, 16), 17);
    full.refused(&release_cross(0, 17), 17);
    // A place that is free again, and each class once more.
    let freed = full.then(release_cross(3, 5));
    assert_eq!(freed.in_progress().len(), 15);
    freed.refused(&release_cross(3, 5), 17);
    freed.refused(&commit(3, 5), 17);
    freed.then(take_cross(0, 5)).refused(&take_cross(0, 16), 18);
    freed.then(take_cross(0, 16)).refused(&take_cross(0, 5), 18);
    // 9 last.
    let mut last = full.clone();
    last.set_count(u32::MAX);
    last.refused(&take_cross(0, 16), 18);
    last.refused(&take_cross(0, 15), 16);
    last.refused(&commit(0, 16), 17);
    for kind in [11, 12] {
        last.refused(&cross(0, kind, 3), 9);
    }
    last.set_in_progress(&[]);
    last.refused(&take_cross(0, 3), 9);
    last.set_count(u32::MAX - 1);
    assert_eq!(last.then(take_cross(0, 3)).count(), u32::MAX);
}

#[test]
fn history_full() {
    // 256 takes of any cores, released ones too.
    let mut b = Bench::declaring(4, &[3]).then(take_cross(5, 3));
    for i in 0..256u32 {
        assert_eq!(b.kept(), i);
        let core = (i % 3) as u8;
        b = b.then(take(core, 1, R));
        assert_eq!(b.entries()[i as usize], [1 + 3 * core, 1 + 128]);
        b = b.then(release(core, 1, R));
    }
    assert_eq!((b.kept(), b.entries().len()), (256, 256));
    assert_eq!(b.desk[1414..1418], [0, 1, 0, 0]);
    for core in 0..8 {
        for mode in [E, NR, R] {
            b.refused(&take(core, 2, mode), 19);
        }
        // Not for a try, nor for any other record.
        for mode in [TE, TR, TRR] {
            let after = b.then(take(core, 2, mode));
            assert_eq!((after.kept(), &after.history), (256, &b.history));
            after.then(release(core, 2, mode));
        }
        b.then(event(core, HARD_OFF)).refused(&take(core, 2, E), 19);
        b.then(commit(core, 3)).refused(&take(core, 2, E), 19);
    }
    b.refused(&take(0, 3, E), 15);
    b.refused(&take(0, 4, E), 4);
    b.refused(&release(0, 2, E), 5);
    // The refused take isn't held, and 8 comes before 19.
    let mut deep = b.clone();
    for _ in 0..47 {
        deep = deep.then(take(7, 0, TRR));
    }
    deep.refused(&take(7, 0, R), 19);
    let deep = deep.then(take(7, 0, TRR));
    deep.refused(&take(7, 0, R), 8);
    deep.refused(&take(7, 0, TRR), 8);
    let mut at_limit = b.clone();
    at_limit.set_count(u32::MAX);
    at_limit.refused(&take(0, 2, E), 19);
    at_limit.refused(&take(0, 2, TE), 9);
    // The last one out frees all.
    let b = b.then(release_cross(0, 3));
    assert_eq!((b.kept(), b.in_progress()), (0, vec![]));
    let b = b.then(take(0, 2, E));
    assert_eq!(b.kept(), 0);
    // Room for one more.
    let b = b.then(take_cross(0, 3)).then(take(1, 2, R));
    assert_eq!((b.kept(), b.entries()), (1, vec![[4, 2 + 128]]));
}

#[test]
fn not_full_without_a_crosslock() {
    // A desk from elsewhere: 256 kept, none in progress.
    let mut b = Bench::declaring(4, &[3]);
    b.set_kept(256);
    b.history = [1, 1].repeat(256);
    for mode in MODES {
        let after = b.then(take(0, 2, mode));
        assert_eq!((after.kept(), &after.history), (256, &b.history));
        assert_eq!((after.desk[10], after.desk[98]), (1, 2 + 64 * (mode % 3)));
    }
    // 255 kept: nor is one kept.
    b.set_kept(255);
    assert_eq!(b.then(take(0, 2, E)).kept(), 255);
    b.set_kept(256);
    // A crosslock taken now has 256 for its since: its commit draws nothing.
    let taken = b.then(take_cross(0, 3));
    assert_eq!((taken.since(3), taken.kept()), (256, 256));
    assert_eq!(taken.draws(commit(0, 3)), []);
    taken.refused(&take(0, 2, E), 19);
    // Its release frees the history.
    assert_eq!(taken.then(release_cross(0, 3)).kept(), 0);
}

// ---------------------------------------------------------- kinds 10 to 12

#[test]
fn in_any_state_and_any_frame() {
    for core in 0..8 {
        for state in 0..9 {
            for depth in [0u8, 1, 47, 48] {
                let mut b = Bench::declaring(5, &[3, 4]).then(take_cross((core + 1) % 8, 4));
                b = b.clean(&to_state(core, state));
                for _ in 0..depth {
                    b = b.then(take(core, 0, TRR));
                }
                assert_eq!(b.desk[2 + core as usize], state);
                let before = b.clone();
                for kind in KINDS_OF_CROSSLOCKS {
                    let class = if kind == 10 { 3 } else { 4 };
                    let after = b.then(cross(core, kind, class));
                    // Of the cores, holds and marks nothing changes.
                    assert_eq!(after.desk[..1394], before.desk[..1394]);
                    assert_eq!(after.count(), before.count() + 1);
                    assert_eq!(after.history, before.history);
                    let wanted = [vec![3, 4], vec![4], vec![]][kind as usize - 10].clone();
                    assert_eq!(after.in_progress(), wanted);
                    let drawn: &[(usize, u8, usize, u32)] = if kind == 10 && depth > 0 {
                        &[(0, SN, 3, after.count())]
                    } else {
                        &[]
                    };
                    assert_eq!(after.pairs(), drawn);
                }
            }
        }
    }
}

#[test]
fn marks_and_search_after_them() {
    // Holds that aren't marked yet, as somebody else might leave them.
    for kind in KINDS_OF_CROSSLOCKS {
        let mut b = Bench::declaring(5, &[3]);
        (b.desk[10], b.desk[98], b.desk[99]) = (2, 1, 2 + 64);
        b.desk[10] = 2;
        // Core 1's soft handler: a wait and a try.
        (b.desk[3], b.desk[14], b.desk[98 + 192], b.desk[1250 + 24]) = (4, 2, 0, 0b10);
        b.desk[98 + 193] = 4;
        if kind > 10 {
            b.set_in_progress(&[3]);
        }
        assert_eq!(b.unfit(), None);
        let after = b.then(cross(0, kind, 3));
        assert_eq!(after.desk[34..39], [0, 64 + 4, 128 + 8, 0, 0]);
        let after = b.then(cross(1, kind, 3));
        assert_eq!(after.desk[34..39], [16 + 4, 0, 0, 0, 4]);
        // The crosslock gets none, whatever the core holds.
        assert_eq!(b.then(cross(2, kind, 3)).desk[34..98], [0; 64]);
        // A circle that stands is found, by the marks of this record or without.
        let mut circle = b.clone();
        circle.desk[34 + 1] = 1; // hard-safe N
        assert_eq!(circle.clone().step(&cross(2, kind, 3)), 0);
        assert_eq!(circle.step(&cross(0, kind, 3)), 1);
        assert_eq!(circle.slip[..4], [1, 1, EN, 1]);
        let mut circle = b.clone();
        circle.sheet[0] = EN;
        circle.set_number(0, 0, 70);
        assert_eq!(circle.step(&cross(7, kind, 3)), 1);
        assert_eq!(circle.slip[..8], [1, 0, EN, 0, 70, 0, 0, 0]);
        assert_eq!(
            circle.in_progress(),
            if kind == 12 { vec![] } else { vec![3] }
        );
        circle.refused(&cross(7, kind, 3), 10);
    }
}

#[test]
fn arrows_to_a_crosslock() {
    // From every hold of the current frame, by its mode, tries too; none from the frames that
    // were interrupted, none from other cores.
    let b = Bench::declaring(16, &[15]).clean(&[
        take(2, 10, R),
        take(0, 0, TE),
        take(0, 1, TR),
        take(0, 2, TRR),
        event(0, ENTER_SOFT),
        take(0, 3, E),
        take(0, 4, NR),
        take(0, 5, R),
        take(0, 6, TRR),
        event(0, ENTER_HARD),
        take(0, 7, TR),
        take(0, 8, R),
    ]);
    let next = b.count() + 1;
    let to_it = |holds: &[(usize, u8)], number: u32| -> Vec<(usize, u8, usize, u32)> {
        holds
            .iter()
            .map(|&(class, kind)| (class, kind, 15, number))
            .collect()
    };
    let hard = to_it(&[(7, SN), (8, SN)], next);
    assert_eq!(b.draws(take_cross(0, 15)), hard);
    assert_eq!(b.draws(take_cross(1, 15)), []);
    assert_eq!(b.draws(take_cross(2, 15)), to_it(&[(10, SN)], next));
    let b = b.clean(&[release(0, 8, R), release(0, 7, TR), event(0, EXIT_HARD)]);
    let soft = [(3, EN), (4, SN), (5, SN), (6, SN)];
    assert_eq!(b.draws(take_cross(0, 15)), to_it(&soft, next + 3));
    let b = b.clean(&[
        release(0, 6, TRR),
        release(0, 5, R),
        release(0, 4, NR),
        release(0, 3, E),
        event(0, EXIT_SOFT),
    ]);
    let task = [(0, EN), (1, SN), (2, SN)];
    assert_eq!(b.draws(take_cross(0, 15)), to_it(&task, next + 8));
    // Commit and release draw nothing from the holds.
    let b = b.then(take_cross(1, 15));
    assert_eq!(b.draws(commit(0, 15)), []);
    assert_eq!(b.draws(release_cross(0, 15)), []);
    // It is no hold: later takes draw nothing from it, and no release ends it.
    let b = b.then(take(1, 9, R));
    assert!(b.pairs().iter().all(|pair| pair.0 != 15));
    assert_eq!(b.desk[10..34].iter().map(|&d| u32::from(d)).sum::<u32>(), 5);
}

#[test]
fn arrows_from_a_crosslock() {
    // Each take since then, in the committing core's frame, by its mode, tries not.
    let b = Bench::declaring(16, &[14, 15]).clean(&[
        take(0, 0, R), // before
        take_cross(3, 15),
        take(0, 1, R),
        take(0, 2, TRR),
        take(0, 3, TE),
        release(0, 1, R), // released ones too
        take(0, 4, R),
        take_cross(3, 14),
        take(0, 5, R),
        take(1, 6, R), // another core
        event(0, ENTER_SOFT),
        take(0, 7, R),
        take(0, 8, TR),
        event(0, ENTER_HARD),
        take(0, 9, R),
    ]);
    assert_eq!((b.since(15), b.since(14), b.kept()), (0, 2, 6));
    let entries = [[1, 129], [1, 132], [1, 133], [4, 134], [2, 135], [3, 137]];
    assert_eq!(b.entries(), entries);
    let next = b.count() + 1;
    let of = |crosslock: usize, classes: &[usize], number| -> Vec<(usize, u8, usize, u32)> {
        classes
            .iter()
            .map(|&class| (crosslock, ER, class, number))
            .collect()
    };
    // In the hard frame, and by the other core.
    for crosslock in [14, 15] {
        let commit_by = |core| commit(core, crosslock as u8);
        assert_eq!(b.draws(commit_by(0)), of(crosslock, &[9], next));
        assert_eq!(b.draws(commit_by(1)), of(crosslock, &[6], next));
        assert_eq!(b.draws(commit_by(2)), []);
        assert_eq!(b.draws(commit_by(3)), []);
    }
    // Back in the soft frame: the same visit goes on.
    let b = b.clean(&[release(0, 9, R), event(0, EXIT_HARD)]);
    assert_eq!(b.draws(commit(0, 15)), of(15, &[7], next + 2));
    // In the task's frame.
    let b = b.clean(&[release(0, 8, TR), release(0, 7, R), event(0, EXIT_SOFT)]);
    assert_eq!(b.draws(commit(0, 15)), of(15, &[1, 4, 5], next + 5));
    assert_eq!(b.draws(commit(0, 14)), of(14, &[5], next + 5));
    // Committing twice is fine, and draws no more; it is still in progress.
    let once = b.then(commit(0, 15));
    assert_eq!(once.draws(commit(0, 15)), []);
    assert_eq!(once.in_progress(), [14, 15]);
    let twice = once.then(take(0, 10, R)).then(commit(0, 15));
    assert_eq!(twice.number(15, 10), next + 7);
    assert_eq!(twice.number(15, 4), next + 5);
    // A release doesn't commit.
    assert_eq!(b.draws(release_cross(0, 15)), []);
    // The kinds: EN but for a recursive read. All modes, by a commit of the same core.
    for (mode, kind) in [(E, EN), (NR, EN), (R, ER), (TE, 0), (TR, 0), (TRR, 0)] {
        let b = Bench::declaring(4, &[3]).clean(&[take_cross(0, 3), take(0, 1, mode)]);
        let wanted = if kind == 0 {
            vec![]
        } else {
            vec![(3, kind, 1, 3)]
        };
        assert_eq!(b.draws(commit(0, 3)), wanted);
        let released = b.then(release(0, 1, mode));
        let wanted = if kind == 0 {
            vec![]
        } else {
            vec![(3, kind, 1, 4)]
        };
        assert_eq!(released.draws(commit(0, 3)), wanted);
    }
}

#[test]
fn the_last_take_of_a_crosslock_counts() {
    // Taken, released and taken again while another is in progress: since is the last.
    let b = Bench::declaring(8, &[6, 7]).clean(&[
        take_cross(0, 7),
        take_cross(0, 6),
        take(0, 1, R),
        release_cross(1, 6),
        take(0, 2, R),
    ]);
    assert_eq!((b.since(6), b.since(7), b.kept()), (0, 0, 2));
    let b = b.clean(&[take_cross(2, 6), take(0, 3, R)]);
    assert_eq!((b.since(6), b.since(7), b.kept()), (2, 0, 3));
    assert_eq!(b.draws(commit(0, 6)), [(6, ER, 3, 8)]);
    assert_eq!(
        b.draws(commit(0, 7)),
        [(7, ER, 1, 8), (7, ER, 2, 8), (7, ER, 3, 8)]
    );
    // The since number of one that isn't in progress stays.
    let b = b.then(release_cross(0, 6));
    assert_eq!((b.since(6), b.in_progress()), (2, vec![7]));
    let b = b.then(release_cross(0, 7));
    assert_eq!((b.since(6), b.kept(), b.in_progress()), (2, 0, vec![]));
    assert_eq!(b.desk[1418 + 24..1418 + 28], [2, 0, 0, 0]);
    // The history's bytes stay, only the kept count goes.
    assert_eq!(b.history[..8], [1, 129, 1, 130, 1, 131, 0, 0]);
    let b = b.then(take_cross(0, 6));
    assert_eq!((b.since(6), b.kept()), (0, 0));
    assert_eq!(b.draws(commit(0, 6)), []);
    let b = b.then(take(4, 5, NR));
    assert_eq!(b.history[..8], [13, 64 + 5, 1, 130, 1, 131, 0, 0]);
    assert_eq!(b.draws(commit(0, 6)), []);
    assert_eq!(b.draws(commit(4, 6)), [(6, EN, 5, b.count() + 1)]);
}

#[test]
fn a_crosslock_to_itself_or_another_is_never_drawn() {
    let mut b = Bench::declaring(20, &(4..20).collect::<Vec<u8>>());
    for class in 4..20 {
        b = b.then(take_cross(class % 3, class));
    }
    for core in 0..3 {
        for class in 4..20 {
            assert_eq!(b.draws(commit(core, class)), []);
            b = b.then(commit(core, class));
        }
    }
    assert_eq!(b.sheet, vec![0; 400]);
    for class in 4..20 {
        b = b.then(release_cross(class % 5, class));
    }
    assert_eq!((b.pairs(), b.kept(), b.in_progress()), (vec![], 0, vec![]));
}

#[test]
fn first_seen_numbers_of_crosslocks() {
    let b = Bench::declaring(5, &[3, 4]).clean(&[
        take(0, 1, R),
        take_cross(0, 3), // 1 SN 3, number 2
        take(1, 2, R),
        commit(1, 3), // 3 ER 2, number 4
        release_cross(5, 3),
        take_cross(0, 3), // once more
        take(1, 2, R),
        commit(1, 3),
    ]);
    assert_eq!(b.pairs(), [(1, SN, 3, 2), (2, SR, 2, 7), (3, ER, 2, 4)]);
    // Another kind of the same pair keeps the number.
    let b = b.clean(&[release(0, 1, R), event(0, HARD_OFF), take(0, 1, E)]);
    let b = b.clean(&[release_cross(0, 3), take_cross(0, 3)]);
    assert_eq!((b.sheet[5 + 3], b.number(1, 3)), (SN | EN, 2));
    let b = b.clean(&[event(6, HARD_OFF), take(6, 2, NR), commit(6, 3)]);
    assert_eq!((b.sheet[15 + 2], b.number(3, 2)), (ER | EN, 4));
    // One commit's arrows have one number, that of the commit.
    let b = Bench::declaring(9, &[8]).clean(&[
        take_cross(0, 8),
        take(0, 0, R),
        take(0, 1, R),
        release(0, 1, R),
        release(0, 0, R),
        commit(0, 8),
    ]);
    assert_eq!(b.pairs(), [(0, SR, 1, 3), (8, ER, 0, 6), (8, ER, 1, 6)]);
    // The slip shows them.
    let mut b = Bench::declaring(4, &[3]).clean(&completion()[..3]);
    assert_eq!(b.step(&completion()[3]), 1);
    assert_eq!(b.slip[..15], entries(&[(1, EN, 0, 2), (3, EN, 0, 4)]));
}

// -------------------------------------------------------------------- visits

#[test]
fn takes_of_an_earlier_visit() {
    for (enter, exit, place) in [(ENTER_SOFT, EXIT_SOFT, 2), (ENTER_HARD, EXIT_HARD, 3)] {
        let b = Bench::declaring(8, &[7]).clean(&[
            take_cross(0, 7),
            event(1, enter),
            take(1, 1, R),
            release(1, 1, R),
        ]);
        assert_eq!(b.entries(), [[3 + place, 129]]);
        assert_eq!(b.draws(commit(1, 7)), [(7, ER, 1, 5)]);
        // The visit ends: its take is struck out, its room stays taken.
        let b = b.then(event(1, exit));
        assert_eq!((b.entries(), b.kept()), (vec![[0, 0]], 1));
        assert_eq!(b.draws(commit(1, 7)), []);
        let b = b.then(event(1, enter));
        assert_eq!(b.draws(commit(1, 7)), []);
        let b = b.clean(&[take(1, 2, R)]);
        assert_eq!(b.entries(), [[0, 0], [3 + place, 130]]);
        assert_eq!(b.draws(commit(1, 7)), [(7, ER, 2, b.count() + 1)]);
    }
    // A hard handler over a soft one, and over a task, doesn't end the other's visit.
    let b = Bench::declaring(8, &[7]).clean(&[
        take_cross(0, 7),
        take(1, 0, R),
        take(2, 4, R),
        event(2, ENTER_SOFT),
        take(2, 5, R),
        event(1, ENTER_SOFT),
        take(1, 1, R),
        event(1, ENTER_HARD),
        take(1, 2, R),
        release(1, 2, R),
    ]);
    let before = [[4, 128], [7, 132], [8, 133], [5, 129], [6, 130]];
    assert_eq!(b.entries(), before);
    let b = b.then(event(1, EXIT_HARD));
    let mut wanted = before;
    wanted[4] = [0, 0];
    assert_eq!(b.entries(), wanted);
    assert_eq!(b.draws(commit(1, 7)), [(7, ER, 1, 12)]);
    // A second hard visit meanwhile.
    let b = b.clean(&[event(1, ENTER_HARD), event(1, EXIT_HARD)]);
    assert_eq!(b.entries(), wanted);
    assert_eq!(b.draws(commit(1, 7)), [(7, ER, 1, 14)]);
    let b = b.clean(&[release(1, 1, R), event(1, EXIT_SOFT)]);
    wanted[3] = [0, 0];
    assert_eq!(b.entries(), wanted);
    // The task's frame never ends.
    assert_eq!(b.draws(commit(1, 7)), [(7, ER, 0, 16)]);
    // Core 2's soft visit goes on.
    assert_eq!(b.draws(commit(2, 7)), [(7, ER, 5, 16)]);
    // A refused exit ends nothing: with a hold, and where there is none to leave.
    b.refused(&event(2, EXIT_SOFT), 7);
    b.refused(&event(1, EXIT_SOFT), 6);
    b.refused(&event(2, EXIT_HARD), 6);
    // Nor do the other kinds.
    let on_and_off = [HARD_OFF, HARD_ON].map(|kind| event(2, kind));
    assert_eq!(b.clone().clean(&on_and_off).entries(), wanted);
    // Nor, in the task's frame, does anything.
    let b = b.clean(&[HARD_OFF, HARD_ON, SOFT_OFF, SOFT_ON].map(|kind| event(1, kind)));
    assert_eq!(b.entries(), wanted);
}

#[test]
fn each_exit_strikes_its_own_frame() {
    // One entry of every frame, and past the kept count the same again.
    let mut b = Bench::declaring(8, &[7]);
    b.set_in_progress(&[7]);
    b.set_kept(50);
    for i in 0..256 {
        b.set_entry(i, [1 + (i % 24) as u8, 1 + 64 * (i % 3) as u8]);
    }
    for core in 0..8u8 {
        for state in [4, 6, 7, 8] {
            let mut b = b.clone();
            b.desk[2 + core as usize] = state;
            let (exit, place) = if state == 4 {
                (EXIT_SOFT, 3 * core + 2)
            } else {
                (EXIT_HARD, 3 * core + 3)
            };
            let after = b.then(event(core, exit));
            let mut wanted = b.clone();
            wanted.set_count(1);
            wanted.desk[2 + core as usize] =
                [0, 1, 4][[6, 7, 8].iter().position(|&s| s == state).unwrap_or(0)];
            for i in (0..50).filter(|&i| b.history[2 * i] == place) {
                wanted.set_entry(i, [0, 0]);
            }
            assert_eq!(after, wanted, "{core} {state}");
            assert_eq!(after.kept(), 50);
            // Without a crosslock in progress too, as it stands.
            b.set_in_progress(&[]);
            wanted.set_in_progress(&[]);
            assert_eq!(b.then(event(core, exit)), wanted);
        }
    }
}

#[test]
fn no_visit_counter_comes_round() {
    for (enter, exit) in [(ENTER_SOFT, EXIT_SOFT), (ENTER_HARD, EXIT_HARD)] {
        let mut b = Bench::declaring(3, &[2]).clean(&[
            take_cross(1, 2),
            event(0, enter),
            take(0, 1, R),
            release(0, 1, R),
            event(0, exit),
        ]);
        for visits in 1..=65_537u32 {
            assert_eq!(b.step(&event(0, enter)), 0);
            if [
                1, 2, 127, 128, 255, 256, 257, 511, 512, 65_535, 65_536, 65_537,
            ]
            .contains(&visits)
            {
                assert_eq!(b.draws(commit(0, 2)), [], "{visits}");
                let taken = b.then(take(0, 0, R));
                assert_eq!(taken.draws(commit(0, 2)), [(2, ER, 0, b.count() + 2)]);
                assert_eq!(taken.then(release(0, 0, R)).then(event(0, exit)).kept(), 2);
            }
            assert_eq!(b.step(&event(0, exit)), 0);
        }
        assert_eq!((b.kept(), b.entries()), (1, vec![[0, 0]]));
        // The books' own counter, after just so many visits.
        for visits in [1, 2, 255, 256, 65_536] {
            let mut books = Books::open_declared(3, 4).unwrap();
            assert!(books.enter(&take_cross(1, 2)) && books.enter(&event(0, enter)));
            assert!(books.enter(&take(0, 1, R)) && books.enter(&release(0, 1, R)));
            for _ in 0..visits {
                assert!(books.enter(&event(0, exit)) && books.enter(&event(0, enter)));
            }
            assert!(books.enter(&commit(0, 2)));
            assert_eq!(books.numbers(), [0; 9], "{visits}");
        }
    }
}

// ------------------------------------------------------------------- history

#[test]
fn what_is_kept() {
    // Nothing before a crosslock is in progress, and nothing after.
    let b = Bench::declaring(8, &[6, 7]).clean(&[take(0, 0, R), take(1, 1, R)]);
    assert_eq!((b.kept(), &b.history), (0, &vec![0; 512]));
    let mut b = b.then(take_cross(2, 7));
    assert_eq!((b.since(7), b.kept()), (0, 0));
    // Of all cores and frames, in the order of the log; each mode; tries not.
    let mut wanted = Vec::new();
    for core in 0..8 {
        for state in [0, 4, 6] {
            let mut there = b.clone().clean(&to_state(core, state));
            let place = 1 + 3 * core + [0, 0, 0, 0, 1, 1, 2][state as usize];
            for (mode, class) in [(R, 2), (TRR, 3), (R, 2)] {
                there = there.then(take(core, class, mode));
                there = there.then(release(core, class, mode));
            }
            let mut entries = wanted.clone();
            entries.extend([[place, 130], [place, 130]]);
            assert_eq!(there.entries(), entries);
        }
        b = b.then(take(core, 4, R));
        wanted.push([1 + 3 * core, 4 + 128]);
        b = b.then(release(core, 4, R));
    }
    assert_eq!(b.entries(), wanted);
    // The modes' bytes.
    for (mode, byte) in [(E, 5), (NR, 64 + 5), (R, 128 + 5)] {
        let after = b.then(event(3, HARD_OFF)).then(take(3, 5, mode));
        assert_eq!(after.entries()[8], [10, byte]);
    }
    // A second crosslock: releasing one of two frees nothing.
    let b = b.then(take_cross(0, 6));
    assert_eq!((b.since(6), b.kept()), (8, 8));
    for (first, second) in [(6, 7), (7, 6)] {
        let one = b.then(release_cross(5, first));
        assert_eq!((one.kept(), one.entries()), (8, wanted.clone()));
        let more = one.then(take(0, 5, R));
        assert_eq!(more.kept(), 9);
        let none = more.then(release_cross(5, second));
        assert_eq!((none.kept(), none.in_progress()), (0, vec![]));
        assert_eq!(none.history, more.history);
        assert_eq!(none.then(take(1, 5, R)).history, more.history);
    }
}

#[test]
fn a_crosslock_taken_with_any_number_kept() {
    // Filled to 256 while the first is in progress, a second taken at every length.
    let mut b = Bench::declaring(6, &[4, 5]).then(take_cross(0, 5));
    for i in 0..=256u32 {
        assert_eq!(b.kept(), i);
        let taken = b.then(take_cross(0, 4));
        assert_eq!(taken.since(4), i);
        assert_eq!(taken.desk[1418 + 16..1418 + 20], i.to_le_bytes());
        assert_eq!((taken.kept(), &taken.history), (i, &b.history));
        assert_eq!(taken.draws(commit(1, 4)), []);
        let number = taken.count() + 1;
        let by_the_first = if i == 0 {
            vec![]
        } else {
            vec![(5, ER, 1, number)]
        };
        assert_eq!(taken.draws(commit(1, 5)), by_the_first);
        if i < 256 {
            let after = taken.then(take(1, 2, R));
            let new = if after.number(1, 2) > 0 { 0 } else { 1 };
            assert_eq!(new, 1);
            assert_eq!(after.draws(commit(1, 4)), [(4, ER, 2, number + 1)]);
            b = b.then(take(1, 1, R)).then(release(1, 1, R));
        } else {
            taken.refused(&take(1, 2, R), 19);
            assert_eq!(taken.draws(commit(1, 4)), []);
        }
    }
    // Struck-out entries take room too.
    let mut b = Bench::declaring(6, &[5]).then(take_cross(0, 5));
    for _ in 0..256 {
        b = b.clean(&[
            event(1, ENTER_HARD),
            take(1, 1, R),
            release(1, 1, R),
            event(1, EXIT_HARD),
        ]);
    }
    assert_eq!((b.kept(), b.entries()), (256, vec![[0, 0]; 256]));
    b.refused(&take(0, 2, R), 19);
    assert_eq!(b.then(event(1, ENTER_HARD)).draws(commit(1, 5)), []);
}

#[test]
fn the_last_entry_of_the_history() {
    // Entry 255, of every frame: written, drawn from, struck out.
    for core in 0..8u8 {
        for (state, exit) in [(0, 0), (4, EXIT_SOFT), (6, EXIT_HARD)] {
            let mut b = Bench::declaring(6, &[5]).clean(&to_state(core, state));
            b = b.then(take_cross(0, 5));
            b.set_kept(255);
            b.history = [vec![0; 510], vec![0xA5; 10]].concat();
            let b = b.then(take(core, 4, R));
            let place = 1 + 3 * core + [0, 1, 2][(state / 2).saturating_sub(1) as usize];
            assert_eq!(b.history[..510], [0; 510]);
            assert_eq!(b.history[510..512], [place, 128 + 4]);
            assert_eq!(b.history[512..], [0xA5; 8]);
            assert_eq!(b.draws(commit(core, 5)), [(5, ER, 4, b.count() + 1)]);
            b.refused(&take(core, 4, R), 19);
            if exit > 0 {
                let left = b.clean(&[release(core, 4, R), event(core, exit)]);
                assert_eq!(left.history, [vec![0; 512], vec![0xA5; 8]].concat());
                assert_eq!(left.kept(), 256);
            }
        }
    }
}

// ------------------------------------------------------------------ fit tests

#[test]
fn fit_lists() {
    // Up to 16 in progress, whichever they are.
    let mut dice = Dice(0xF171_1575_0000_0001);
    for k in [1u8, 2, 15, 16, 17, 18, 33, 63, 64] {
        let all: Vec<u8> = (0..k).collect();
        let good = Bench::declaring(k as usize, &all);
        for _ in 0..60 {
            let mut b = good.clone();
            let many = [0, 1, 15, 16, 17, 18, 64][dice.under(7) as usize];
            let mut chosen = all.clone();
            while chosen.len() > many {
                chosen.remove(dice.under(chosen.len() as u64) as usize);
            }
            b.set_in_progress(&chosen);
            let fit = chosen.len() <= 16;
            assert_eq!(b.unfit().is_none(), fit, "{chosen:?}");
            assert_eq!(fit_by_hand(&b), fit);
            let first = chosen.first().copied();
            if !fit {
                assert_eq!(b.unfit(), Some("more than 16 in progress"));
                assert_unfit(&b);
                for (one, two) in [(&b, &good), (&good, &b), (&b, &b)] {
                    one.join_refused(two, &lent_for(64), 11);
                }
            } else if let Some(first) = first {
                b.refused(&take_cross(0, first), 16);
                assert_eq!(b.then(commit(0, first)).in_progress(), chosen);
                assert_eq!(b.then(release_cross(0, first)).in_progress(), chosen[1..]);
            }
        }
    }
    // A bit of each word, alone and together.
    for k in [1u8, 7, 8, 9, 32, 63, 64] {
        for class in 0..64 {
            let mut b = Bench::new(k as usize);
            b.set_in_progress(&[class]);
            assert_eq!(b.unfit(), Some("in progress but not declared"));
            assert_unfit(&b);
            b.desk[1398..1406].copy_from_slice(&word_of(&[class]).to_le_bytes());
            if class < k {
                assert_eq!(b.unfit(), None);
                assert!(fit_by_hand(&b));
                assert_eq!(b.ask(0), (0, 0, 0));
            } else {
                assert_eq!(b.unfit(), Some("declared class K or more"));
                assert_unfit(&b);
            }
            b.set_in_progress(&[]);
            assert_eq!(b.unfit().is_none(), class < k);
            assert_eq!(b.ask(0).0, if class < k { 0 } else { 11 });
        }
    }
}

#[test]
fn fit_kept_counts() {
    let mut b = Bench::declaring(3, &[2]);
    let bits = (0..32).map(|bit| 1 << bit);
    for kept in (0..600u32)
        .chain(bits)
        .chain([65_536 + 5, 1 << 24 | 5, u32::MAX])
    {
        b.set_kept(kept);
        for in_progress in [&[][..], &[2]] {
            b.set_in_progress(in_progress);
            assert_eq!(b.unfit().is_none(), kept <= 256, "{kept}");
            if kept > 256 {
                assert_eq!(b.unfit(), Some("more than 256 kept"));
                assert_unfit(&b);
                b.join_refused(&Bench::declaring(3, &[2]), &lent_for(3), 11);
            } else {
                let after = b.then(event(0, HARD_ON));
                assert_eq!(after, b.counted());
                assert_eq!(b.ask(2), (0, 0, 0));
            }
        }
    }
    // The since numbers are any, of classes in progress too.
    for since in [0, 1, 255, 256, 257, 65_536, 1 << 31, u32::MAX] {
        for class in 0..64 {
            let mut b = Bench::declaring(3, &[1, 2]);
            b.set_in_progress(&[2]);
            b.set_kept(1);
            b.set_entry(0, [1, 0]);
            b.set_since(class, since);
            assert_eq!(b.unfit(), None);
            assert!(fit_by_hand(&b));
            // Judged as it stands: from 1 on there is nothing.
            let drawn = if class == 2 && since > 0 {
                vec![]
            } else {
                vec![(2, EN, 0, 1)]
            };
            assert_eq!(b.draws(commit(0, 2)), drawn, "{class} {since}");
            let after = b.then(release_cross(0, 2));
            assert_eq!(after.desk[1418..], b.desk[1418..]);
            // Taken, it has its own, and no other changes.
            let mut wanted = after.clone();
            wanted.set_in_progress(&[1]);
            wanted.set_since(1, 0);
            wanted.set_count(2);
            assert_eq!(after.then(take_cross(0, 1)), wanted);
        }
    }
}

#[test]
fn fit_histories() {
    // Every two bytes of an entry, for some K, first and last kept; past the count any.
    for k in [1usize, 2, 5, 63, 64] {
        for (i, kept) in [(0, 1), (0, 256), (255, 256), (7, 8)] {
            let mut b = Bench::new(k);
            b.set_kept(kept);
            for place in 0..=255u8 {
                for second in 0..=255u8 {
                    b.set_entry(i, [place, second]);
                    let fit = match place {
                        0 => second == 0,
                        1..=24 => (second % 64) < k as u8 && second / 64 < 3,
                        _ => false,
                    };
                    let name = match (place, second) {
                        _ if fit => None,
                        (25..=255, _) => Some("kept place over 24"),
                        (0, _) => Some("struck out but not 0"),
                        _ if (second % 64) >= k as u8 => Some("kept class K or more"),
                        _ => Some("kept mode 3"),
                    };
                    assert_eq!(unfit_history(&b.desk, &b.history), name, "{place} {second}");
                    if second % 37 == 0 || (place < 2 && second < 70) {
                        assert_eq!(fit_by_hand(&b), fit);
                        let mut after = b.clone();
                        assert_eq!(after.step(&event(0, HARD_ON)), if fit { 0 } else { 11 });
                        assert_eq!(after, if fit { b.counted() } else { b.clone() });
                    }
                }
            }
            // One less kept: it isn't looked at, and stays.
            b.set_entry(i, [255, 255]);
            b.refused(&event(0, HARD_ON), 11);
            b.set_kept(i as u32);
            assert_eq!(b.then(event(0, HARD_ON)), b.counted());
        }
    }
    // Past the count any bytes, whatever the record; they stay.
    for fill in [1, 25, 192, 255] {
        for kept in [0, 1, 255] {
            let mut b =
                Bench::declaring(4, &[3]).clean(&[event(1, ENTER_HARD), event(2, ENTER_SOFT)]);
            b.set_in_progress(&[3]);
            b.set_kept(kept);
            b.history = vec![fill; 520];
            b.history[..2 * kept as usize].fill(0);
            let past = 2 * kept as usize;
            for r in [
                event(0, HARD_OFF),
                event(1, EXIT_HARD),
                event(2, EXIT_SOFT),
                take(0, 0, TE),
                commit(0, 3),
                release_cross(0, 3),
            ] {
                assert_eq!(b.then(r).history, b.history);
            }
            let after = b.then(take(0, 0, E));
            assert_eq!(after.history[past..past + 2], [1, 0]);
            assert_eq!(after.history[past + 2..], b.history[past + 2..]);
        }
    }
    // The length, whether or not anything is kept.
    let mut b = Bench::declaring(4, &[3]);
    for (length, kept) in [
        (0, 0),
        (1, 0),
        (511, 0),
        (511, 1),
        (511, 256),
        (510, 255),
        (2, 1),
    ] {
        b.history = vec![0; length];
        b.set_kept(kept);
        assert_eq!(b.unfit(), Some("history too short"));
        assert!(!fit_by_hand(&b));
        for r in [
            take(0, 0, E),
            take_cross(0, 3),
            event(0, HARD_ON),
            [0; 6],
            take(0, 9, E),
        ] {
            b.refused(&r, 11);
        }
        let mut closed = b.clone();
        closed.desk[1] = 1;
        closed.refused(&take(0, 0, E), 11);
        // By the feed, for a whole record and for a short one at the end.
        let mut fed = Fed::lying(0, 1, 0, &[], 6, b.clone());
        assert_eq!(fed.feed(&event(0, HARD_ON)), (11, 7));
        assert_eq!(fed.b, b);
        let mut fed = Fed::lying(0, 1, 0, &[], 6, b.clone());
        assert_eq!((fed.feed(&[0x4C]), fed.end()), ((0, 6), (11, 7)));
        // The question and the joiner have none.
        assert_eq!(b.ask(0), (0, 0, 0));
        assert_eq!(b.joined(&Bench::declaring(4, &[3])).0, 0);
    }
    let mut b = Bench::declaring(4, &[3]);
    b.set_kept(256);
    b.history.fill(255);
    b.refused(&event(0, HARD_ON), 11);
    assert_eq!((b.ask(0), b.joined(&b).0), ((0, 0, 0), 0));
    assert_eq!(HISTORY_CLAUSES.len(), 5);
}

#[test]
fn desks_from_elsewhere() {
    // A held lock, marks, arrows and a history entry of declared classes.
    let mut b = Bench::declaring(4, &[2, 3]);
    (b.desk[2], b.desk[10], b.desk[98], b.desk[99]) = (2, 2, 3, 2 + 64);
    b.desk[34 + 3] = 4;
    b.sheet[4 * 2 + 3] = SN;
    b.set_number(2, 3, 9);
    b.set_in_progress(&[2]);
    b.set_kept(2);
    (b.history[..4]).copy_from_slice(&[1, 3 + 128, 4, 2]);
    assert_eq!(b.unfit(), None);
    assert!(fit_by_hand(&b));
    // Neither taken nor released as a lock.
    b.refused(&release(0, 3, E), 15);
    b.refused(&take(0, 3, E), 15);
    // A hold of it draws to a lock, and to a crosslock.
    let after = b.then(take(0, 1, R));
    assert_eq!(after.pairs(), [(2, SR, 1, 1), (2, SN, 3, 9), (3, ER, 1, 1)]);
    let mut to_itself = b.clone();
    assert_eq!(to_itself.step(&take_cross(0, 3)), 1);
    assert_eq!(to_itself.slip[..8], [1, 3, EN, 0, 1, 0, 0, 0]);
    assert_eq!(to_itself.pairs(), [(2, SN, 3, 9), (3, EN, 3, 1)]);
    assert_eq!(
        (to_itself.in_progress(), to_itself.since(3)),
        (vec![2, 3], 2)
    );
    // A commit draws to it; by core 1 the crosslock's to itself.
    assert_eq!(b.draws(commit(0, 2)), [(2, ER | SN, 3, 9)]);
    let mut closed = b.clone();
    assert_eq!(closed.step(&commit(1, 2)), 1);
    assert_eq!(closed.slip[..8], [1, 2, EN, 0, 1, 0, 0, 0]);
    // All of them may be in progress with nothing kept.
    let mut b = Bench::declaring(4, &[0, 1, 2, 3]);
    b.set_in_progress(&[0, 1, 2, 3]);
    for class in 0..4 {
        assert_eq!(b.draws(commit(7, class)), []);
    }
}

// ------------------------------------------------------------- logs by hand

#[test]
fn the_completion() {
    let records = completion();
    let text = |records: &[Rec]| program(&log_declaring(8, 8, records));
    assert_eq!(
        text(&records),
        "fault at record 4\n1 EN 3 hold\n3 EN 1 hold\n"
    );
    assert_eq!(text(&records[..3]), "clean, 3 records\n");
    // Without the hold at its take, without the take before the commit: clean.
    assert_eq!(text(&records[1..]), "clean, 3 records\n");
    assert_eq!(
        text(&[records[0], records[1], records[3]]),
        "clean, 3 records\n"
    );
    // The take released before the commit still counts; before the crosslock's it doesn't.
    let released = [
        records[0],
        records[1],
        records[2],
        release(1, 1, E),
        records[3],
    ];
    assert_eq!(
        text(&released),
        "fault at record 5\n1 EN 3 hold\n3 EN 1 hold\n"
    );
    let early = [records[2], records[0], records[1], records[3]];
    assert_eq!(text(&early), "clean, 4 records\n");
    // Each limit of demand 3: a record of core 2 of kind 12 in between, of kind 10 before.
    let mut with = records.to_vec();
    with.insert(2, release_cross(2, 3));
    assert_eq!(text(&with), "refused 17 at record 5\n");
    let mut with = records.to_vec();
    with.insert(0, take_cross(2, 3));
    // Refused with 16, the crosslock's own take draws nothing: no circle.
    let mut b = Bench::declaring(8, &[3]);
    let answers: Vec<u8> = with.iter().map(|r| b.step(r)).collect();
    assert_eq!(answers, [0, 0, 16, 0, 0]);
    assert_eq!(text(&with), "refused 16 at record 3\n");
    let mut with = records[..2].to_vec();
    for _ in 0..128 {
        with.extend([
            take(2, 5, R),
            take(2, 6, R),
            release(2, 6, R),
            release(2, 5, R),
        ]);
    }
    with.extend(&records[2..]);
    assert_eq!(
        text(&with),
        format!("refused 19 at record {}\n", 2 + 4 * 128 + 1)
    );
    let mut b = Bench::declaring(8, &[3]);
    let answers: Vec<u8> = with.iter().map(|r| b.step(r)).collect();
    assert_eq!(answers[answers.len() - 2..], [19, 0]);
    assert_eq!(b.desk[1], 0);
    // With one take less the circle comes.
    let mut with = records[..2].to_vec();
    with.extend((0..255).flat_map(|_| [take(2, 5, R), release(2, 5, R)]));
    with.extend(&records[2..]);
    assert!(text(&with).starts_with(&format!("fault at record {}\n", 4 + 510)));
    // A commit added by core 2 draws what the first list has not.
    let list = [take_cross(0, 3), take(2, 1, R), take(0, 1, E)];
    let mut b = Bench::declaring(8, &[3]).clean(&list);
    assert_eq!(b.step(&commit(0, 3)), 0);
    assert_eq!(b.step(&commit(2, 3)), 0);
    assert_eq!(b.sheet[3 * 8 + 1], EN | ER);
}

#[test]
fn strong_joints() {
    // Two reads: 1 SN 3, 3 ER 1 is not strong at 1. A non-recursive read is.
    for (first, second, fault) in [
        (R, R, false),
        (NR, R, false),
        (E, R, true),
        (R, NR, true),
        (NR, NR, true),
        (R, E, true),
        (E, E, true),
        (TE, R, true),
        (TRR, R, false),
        (TRR, E, true),
        (E, TE, false),
        (E, TR, false),
        (E, TRR, false),
    ] {
        let records = [
            take(0, 1, first),
            take_cross(0, 3),
            take(1, 1, second),
            commit(1, 3),
        ];
        let mut b = Bench::declaring(8, &[3]);
        let answers = records.map(|r| b.step(&r));
        assert_eq!(answers, [0, 0, 0, u8::from(fault)], "{first} {second}");
        let mut books = Books::open_declared(8, 8).unwrap();
        assert!(records.iter().all(|r| books.enter(r)));
        assert_eq!(books.closed(), fault);
    }
    // At a crosslock every joint is: SN arrives by N, and what leaves begins with E.
    let records = [
        take(0, 1, R),
        take_cross(0, 3),
        take(1, 2, R),
        commit(1, 3),
        release(1, 2, R),
        take(1, 2, E),
    ];
    let mut b = Bench::declaring(8, &[3]).clean(&records);
    assert_eq!(b.step(&take(1, 1, E)), 1);
    assert_eq!(
        b.slip[..8],
        entries(&[(1, SN, 0, 2), (2, EN, 0, 7), (3, ER, 0, 4)])[..8].to_vec()
    );
    assert_eq!(b.slip[0], 3);
    assert_eq!(b.slip[1..4], [1, SN, 0]);
    assert_eq!(b.slip[8..11], [3, ER, 0]);
    assert_eq!(b.slip[15..18], [2, EN, 0]);
}

#[test]
fn any_core_may_commit_or_release() {
    for core in 0..8 {
        let b = Bench::declaring(8, &[3]).clean(&[take_cross(0, 3), take(core, 1, R)]);
        let committed = b.then(commit(core, 3));
        assert_eq!(committed.pairs(), [(3, ER, 1, 3)]);
        assert_eq!(committed.in_progress(), [3]);
        let done = committed.then(release_cross(7 - core, 3));
        assert_eq!((done.in_progress(), done.kept()), (vec![], 0));
        // The same core at once: its own take counts.
        assert_eq!(done.then(take_cross(core, 3)).in_progress(), [3]);
    }
}

#[test]
fn texts_of_the_new_refusals() {
    let text = |declared: &[u8], records: &[Rec]| {
        let bytes = log_declaring(20, word_of(declared), records);
        let text = program(&bytes);
        let mut out = Vec::new();
        run_log(&mut Slowly(&bytes), &mut out).unwrap();
        assert_eq!(text.as_bytes(), out);
        text
    };
    assert_eq!(text(&[3], &[take(0, 3, TE)]), "refused 15 at record 1\n");
    assert_eq!(text(&[3], &[release(0, 3, E)]), "refused 15 at record 1\n");
    assert_eq!(text(&[3], &[commit(0, 4)]), "refused 15 at record 1\n");
    assert_eq!(
        text(&[3], &[take_cross(0, 3); 2]),
        "refused 16 at record 2\n"
    );
    assert_eq!(text(&[3], &[commit(0, 3)]), "refused 17 at record 1\n");
    assert_eq!(
        text(&[3], &[release_cross(0, 3)]),
        "refused 17 at record 1\n"
    );
    let all: Vec<u8> = (0..20).collect();
    let takes: Vec<Rec> = all.iter().map(|&class| take_cross(0, class)).collect();
    assert_eq!(text(&all, &takes), "refused 18 at record 17\n");
    assert_eq!(text(&all, &takes[..16]), "clean, 16 records\n");
    let mut full = vec![take_cross(0, 3)];
    full.extend((0..257).flat_map(|_| [take(0, 1, R), release(0, 1, R)]));
    assert_eq!(text(&[3], &full), "refused 19 at record 514\n");
    assert_eq!(text(&[3], &full[..513]), "clean, 513 records\n");
    assert_eq!(text(&[3], &[]), "clean, 0 records\n");
}

/// Gives a byte at a time.
struct Slowly<'a>(&'a [u8]);
impl Read for Slowly<'_> {
    fn read(&mut self, buffer: &mut [u8]) -> std::io::Result<usize> {
        let many = buffer.len().min(1).min(self.0.len());
        buffer[..many].copy_from_slice(&self.0[..many]);
        self.0 = &self.0[many..];
        Ok(many)
    }
}

#[test]
fn crosslocks_count_for_no_balance() {
    let mut piece = Vec::new();
    for class in 0..=255 {
        for kind in KINDS_OF_CROSSLOCKS {
            piece.extend(cross(class % 8, kind, class));
            assert_balance(&cross(0, kind, class), &[]);
        }
    }
    assert_balance(&piece, &[]);
    piece.extend(take(0, 3, E));
    piece.extend(take_cross(0, 3));
    piece.extend(release_cross(0, 4));
    piece.extend(release(0, 5, R));
    assert_balance(&piece, &[(3, 1), (5, -1)]);
    assert_14(&piece[..piece.len() - 1]);
    // They count towards the 10,000.
    assert_balance(
        &over_and_over(&[take_cross(0, 3), take(0, 3, E)], 60_000),
        &[(3, 5_000)],
    );
    assert_14(&over_and_over(&[take_cross(0, 3), take(0, 3, E)], 60_006));
}

// -------------------------------------------------------------------- joining

#[test]
fn joins_in_the_middle_of_crosslocks() {
    // The completion's two halves: the crosslock taken on one, committed on the other.
    let one = Bench::declaring(4, &[3]).clean(&[
        take(0, 1, E),
        take_cross(0, 3),
        take(0, 0, R),
        take(0, 0, TR),
    ]);
    let two = Bench::declaring(4, &[3]).clean(&[take_cross(5, 3), take(1, 1, E), commit(1, 3)]);
    assert_eq!((one.kept(), two.kept()), (1, 1));
    let joined = assert_joins(&one, &two, Some(&[(1, EN, 0), (3, EN, 0)]));
    assert_eq!(joined.slip[..15], entries(&[(1, EN, 0, 2), (3, EN, 0, 3)]));
    // A clean one starts with none in progress, nothing kept, all since numbers 0.
    let mut later = Bench::declaring(4, &[2, 3]).clean(&[
        take_cross(0, 2),
        take(0, 1, R),
        take_cross(0, 3),
        take(0, 0, R),
    ]);
    assert_eq!((later.since(3), later.kept()), (1, 2));
    let joined = later.joined_clean(&later);
    assert_eq!(joined.long_word(1398), 0b1100);
    assert_eq!(joined.desk[1406..], [0; 1674 - 1406]);
    assert_eq!((joined.count(), joined.in_progress()), (0, vec![]));
    assert_eq!(joined.pairs(), later.pairs());
    // Into a history of any bytes: none are looked at before they are kept.
    assert_eq!(joined.history, [0xA5; 512]);
    assert_eq!(joined.unfit(), None);
    joined.refused(&commit(0, 3), 17);
    let used = joined.then(take_cross(0, 3)).then(take(0, 1, R));
    assert_eq!((used.since(3), used.entries()), (0, vec![[1, 129]]));
    assert_eq!(used.history[2..], [0xA5; 510]);
    let used = used.then(take_cross(1, 2));
    assert_eq!((used.since(2), used.in_progress()), (1, vec![2, 3]));
    assert_eq!(used.draws(commit(0, 3)), [(3, ER, 1, 4)]);
    // Nobody asks for the benches' histories, fit or not, however short.
    later.history.fill(255);
    assert_eq!(later.joined(&later), (0, joined.clone()));
    later.history.clear();
    assert_eq!(later.joined(&later), (0, joined));
    assert_eq!(one.in_progress(), [3]);
}

#[test]
fn joins_of_different_declarations() {
    let words: [&[u8]; 6] = [
        &[],
        &[0],
        &[7],
        &[0, 7],
        &[1, 2, 3],
        &[0, 1, 2, 3, 4, 5, 6, 7],
    ];
    for (i, one) in words.iter().enumerate() {
        for (j, two) in words.iter().enumerate() {
            let (mut one, mut two) = (Bench::declaring(8, one), Bench::declaring(8, two));
            for closed in 0..4u8 {
                (one.desk[1], two.desk[1]) = (closed % 2, closed / 2);
                let answer = match (i == j, closed) {
                    (false, _) => 12,
                    (true, 0) => 0,
                    _ => 13,
                };
                if answer == 0 {
                    let joined = one.joined_clean(&two);
                    assert_eq!(joined.desk, one.desk);
                    assert_eq!(
                        one.books().unwrap().joined(&two.books().unwrap()).is_some(),
                        true
                    );
                } else {
                    one.join_refused(&two, &lent_for(8), answer);
                    assert!(one.books().unwrap().joined(&two.books().unwrap()).is_none());
                }
                // 11 before it.
                for which in 0..4 {
                    one.join_refused(&two, &room(8, which, -1), 11);
                }
            }
        }
    }
    // Each bit of the word.
    for class in 0..64 {
        let (one, two) = (Bench::new(64), Bench::declaring(64, &[class]));
        one.join_refused(&two, &lent_for(64), 12);
        two.join_refused(&one, &lent_for(64), 12);
        assert_eq!(two.joined_clean(&two).long_word(1398), 1 << class);
        // With different K too.
        let smaller = Bench::declaring(63, &[class.min(62)]);
        two.join_refused(&smaller, &lent_for(64), 12);
        two.join_refused(&smaller, &lent_for(63), 11);
    }
    // What is in progress or kept makes no difference.
    let one = Bench::declaring(8, &[3, 4]).clean(&[take_cross(0, 3), take(0, 1, R)]);
    let two = Bench::declaring(8, &[3, 4]).clean(&[take_cross(0, 4), take_cross(0, 3)]);
    assert_eq!(one.joined(&two).0, 0);
    assert_eq!(one.joined(&Bench::declaring(8, &[3, 4])).0, 0);
}

#[test]
fn logs_with_crosslocks_joined() {
    let half1 = log_declaring(4, 8, &[take(0, 1, E), take_cross(0, 3)]);
    let half2 = log_declaring(4, 8, &[take_cross(0, 3), take(1, 1, E), commit(1, 3)]);
    assert_eq!(
        join_text(&half1, &half2),
        "fault\n1 EN 3 hold\n3 EN 1 hold\n"
    );
    let logs = [
        half1,
        half2,
        log(4, &[take(0, 1, R)]),
        log_declaring(4, 0, &[take(0, 1, R)]),
        log_declaring(4, 4, &[take(0, 1, R)]),
        log_declaring(5, 8, &[take(0, 1, R)]),
        log(5, &[]),
        log_declaring(4, 8, &[]),
        log_declaring(4, 8, &completion()),
        log_declaring(4, 16, &completion()),
        log_declaring(4, 8, &[take(0, 3, E)]),
        log_declaring(4, 8, &[take_cross(0, 3); 2]),
        log_declaring(4, 8, &[commit(0, 3)]),
        log_declaring(4, 8, &[])[..11].to_vec(),
        log_declaring(4, 8, &[])[..4].to_vec(),
        log_declaring(4, 8, &completion())[..14].to_vec(),
        vec![0x4D, 0x48, 2],
        vec![0x4D, 0x48, 2, 4, 0, 0, 0, 0, 0, 0, 0, 0, 1, 2, 3],
    ];
    let mut met = std::collections::BTreeSet::new();
    for one in &logs {
        for two in &logs {
            let text = join_text(one, two);
            assert_eq!(text, join_wanted(one, two), "{one:?} {two:?}");
            let mut out = Vec::new();
            run_join(&mut Slowly(one), &mut Slowly(two), &mut out).unwrap();
            assert_eq!(text.as_bytes(), out);
            met.insert(text.lines().next().unwrap().to_string());
        }
    }
    for line in [
        "clean",
        "fault",
        "refused 12",
        "log 1: fault at record 4",
        "log 1: refused 2 at record 0",
        "log 1: refused 15 at record 1",
        "log 2: refused 16 at record 2",
        "log 2: refused 17 at record 1",
        "log 2: refused 3 at record 1",
    ] {
        assert!(met.contains(line), "{line}: {met:?}");
    }
    assert_eq!(join_text(&logs[2], &logs[3]), "clean\n");
    assert_eq!(join_text(&logs[2], &logs[4]), "refused 12\n");
}

#[test]
fn no_more_is_read_than_the_log_has() {
    // After a bad header of either length nothing further is asked for.
    struct Ends<'a>(&'a [u8]);
    impl Read for Ends<'_> {
        fn read(&mut self, buffer: &mut [u8]) -> std::io::Result<usize> {
            if self.0.is_empty() {
                return Err(ErrorKind::Other.into());
            }
            let many = buffer.len().min(self.0.len());
            buffer[..many].copy_from_slice(&self.0[..many]);
            self.0 = &self.0[many..];
            Ok(many)
        }
    }
    for header in [
        vec![0x4C, 0x48, 3, 4],
        vec![0x4C, 0x48, 1, 0],
        vec![0x4D, 0x48, 2, 4, 0, 0, 0, 0, 0, 0, 0, 0],
        log_declaring(4, 16, &[]),
    ] {
        let mut out = Vec::new();
        run_log(&mut Ends(&header), &mut out).unwrap();
        assert_eq!(out, b"refused 2 at record 0\n");
        let mut out = Vec::new();
        run_join(&mut Ends(&header), &mut Ends(&header), &mut out).unwrap();
        let text = "log 1: refused 2 at record 0\nlog 2: refused 2 at record 0\n";
        assert_eq!(out, text.as_bytes());
    }
    let fault = log_declaring(4, 8, &completion());
    let mut out = Vec::new();
    run_log(&mut Ends(&fault), &mut out).unwrap();
    assert_eq!(out, b"fault at record 4\n1 EN 3 hold\n3 EN 1 hold\n");
}

// ---------------------------------------------------------------- random logs

/// Records of a log in which crosslocks are often in progress and handlers come and go.
fn cross_record(dice: &mut Dice, k: u64, declared: u64, modes: &[u8]) -> Rec {
    let core = dice.under(3) as u8;
    let of_sort = |dice: &mut Dice, wanted: bool| {
        let class = dice.under(k);
        let fits = |class: u64| (declared >> class & 1 == 1) == wanted;
        (0..k)
            .map(|i| (class + i) % k)
            .find(|&class| fits(class))
            .unwrap_or(class) as u8
    };
    match dice.under(24) {
        0..=6 => {
            let class = of_sort(dice, false);
            take(core, class, modes[dice.under(modes.len() as u64) as usize])
        }
        7..=10 => {
            let class = of_sort(dice, false);
            release(core, class, modes[dice.under(modes.len() as u64) as usize])
        }
        11..=13 => take_cross(core, of_sort(dice, true)),
        14..=16 => commit(core, of_sort(dice, true)),
        17 => release_cross(core, of_sort(dice, true)),
        18 => {
            let kind = [0, 1, 10, 11, 12, 13][dice.under(6) as usize];
            [
                0x4C,
                0x4B,
                core,
                kind,
                dice.under(k + 1) as u8,
                u8::from(dice.under(6) == 0),
            ]
        }
        _ => event(core, 2 + dice.under(8) as u8),
    }
}

#[test]
fn random_logs_with_crosslocks() {
    let mut dice = Dice(0xC205_510C_0000_0001);
    let mut met = [0u64; 20];
    let (mut drawn_from, mut struck, mut full, mut longest) = (0u64, 0u64, 0u64, 0usize);
    for round in 0..2_000u64 {
        let long = round % 50 == 0;
        let many = round % 100 == 0;
        let k = match round % 10 {
            0 if many || !long => 20 + dice.under(45),
            _ => 3 + dice.under(7),
        };
        let declared = match round % 7 {
            _ if many => u64::MAX << 1,
            _ if long => 1 << dice.under(k),
            0 => 1 << dice.under(k),
            1 => (1u64 << (k / 2)) - 1,
            _ => dice.next() << 32 ^ dice.next(),
        } & (u64::MAX >> (64 - k));
        let modes: &[u8] = [&[R][..], &[R, R, TRR], &MODES, &[R, R, R, R, NR]][round as usize % 4];
        let mut b = lent_for(k as usize);
        assert_eq!(b.open_declared(k, declared), 0);
        let mut naive = Naive::declaring(k as u8, declared);
        let mut books = Books::open_declared(k, declared).unwrap();
        let mut list: Vec<Rec> = Vec::new();
        for i in 0..if long { 2_500 } else { 80 } {
            let mut r = cross_record(
                &mut dice,
                k,
                declared,
                if long { &[R, R, R, TRR] } else { modes },
            );
            if long && r[3] == 12 && i < 2_300 {
                r = event(r[2], 6);
            }
            // Most takes are released at once, so that frames don't get full before the history.
            if let Some(&[_, _, core, 0, class, mode]) = list.last() {
                if long && dice.under(8) > 0 {
                    r = release(core, class, mode);
                }
            }
            let before = b.clone();
            let answer = b.step(&r);
            met[answer as usize] += 1;
            list.push(r);
            assert_eq!(books.enter(&r), answer < 2);
            let refusals = refusals_met(&before, &r);
            let first = ORDER.into_iter().find(|answer| refusals.contains(answer));
            assert_eq!(first, if answer > 1 { Some(answer) } else { None });
            if answer > 1 {
                assert_eq!(b, before);
                continue;
            }
            naive.accept(&r);
            assert_eq!(b.history, naive.history);
            // With many classes not after every record: that takes long.
            if k < 10 || answer == 1 || i % 20 == 0 {
                let [desk, sheet, seen] = naive.lie(answer == 1);
                assert_eq!(b.desk, desk);
                assert_eq!(b.sheet, sheet);
                assert_eq!(b.seen, seen);
            }
            assert_eq!(b.count(), books.accepted());
            assert_eq!(books.closed(), answer == 1);
            drawn_from += u64::from(r[3] == 11 && b.sheet != before.sheet);
            struck += u64::from([7, 9].contains(&r[3]) && b.history != before.history);
            full += u64::from(b.kept() == 256);
            if answer == 1 {
                assert_eq!(
                    b.slip,
                    b.shown_over(&before.slip, &by_choosing(&b).unwrap())
                );
                break;
            }
            assert_eq!(b.slip, before.slip);
        }
        longest = longest.max(list.len());
        assert_eq!(b.seen, bytes_of(books.numbers()));
        assert_eq!(
            first_seen_declared(k, declared, &list).unwrap(),
            books.numbers()
        );
        assert_eq!(b.unfit(), None);
        if round % 8 == 0 {
            // The same by the feed, in random pieces, up to the first answer but 0.
            let bytes = log_declaring(k as u8, declared, &list);
            let lent = lent_for(k as usize);
            let mut whole = Whole::new(&lent, &bytes);
            let mut cuts: Vec<usize> = (0..4)
                .map(|_| dice.under(bytes.len() as u64 + 1) as usize)
                .collect();
            cuts.sort();
            whole.fed(&cuts);
            let (answer, number) = whole.all()[1];
            let text = program(&bytes);
            let line = match answer {
                0 => format!("clean, {number} records\n"),
                1 => format!("fault at record {number}\n"),
                _ => format!("refused {answer} at record {number}\n"),
            };
            assert!(text.starts_with(&line), "{text}{line}");
        }
    }
    for answer in [0, 1, 3, 4, 5, 6, 7, 15, 16, 17, 18, 19] {
        assert!(met[answer] > 30, "answer {answer}: {met:?}");
    }
    assert!(drawn_from > 500, "{drawn_from} commits drew");
    assert!(struck > 100, "{struck} exits struck out");
    assert!(full > 100 && longest == 2_500, "{full} {longest}");
}

#[test]
fn steps_on_any_middle() {
    // Benches from elsewhere: list and history are read and written as they stand, entry by
    // entry.
    let mut dice = Dice(0x3E9A_11D0_0000_0001);
    let mut met = [0u64; 13];
    for round in 0..4_000 {
        let k = [2, 3, 5, 20, 64][round % 5];
        let mut b = any_middle(&mut dice, k);
        (b.desk[1], b.desk[1397]) = (0, 0);
        // No more holds than a few, so that arrows can be told apart.
        for _ in 0..6 {
            let r = match dice.under(3) {
                0 => event(dice.under(8) as u8, [7, 9][dice.under(2) as usize]),
                _ => {
                    let kind = [0, 0, 1, 10, 11, 11, 12][dice.under(7) as usize];
                    let mode = if kind < 2 { dice.under(6) as u8 } else { 0 };
                    let (core, class) = (dice.under(8) as u8, dice.under(k as u64) as u8);
                    [0x4C, 0x4B, core, kind, class, mode]
                }
            };
            let mut after = b.clone();
            let answer = after.step(&r);
            if answer > 1 {
                continue;
            }
            met[r[3] as usize] += 1;
            let (core, class, mode) = (r[2] as usize, r[4], r[5]);
            let at = 3 * core + [0, 0, 0, 0, 1, 1, 2, 2, 2][b.desk[2 + core] as usize];
            let mut wanted = b.clone();
            let mut arrows: Vec<(usize, u8, usize)> = Vec::new();
            let holds = &b.desk[98 + 48 * at..98 + 48 * at + b.desk[10 + at] as usize];
            let from_holds = |second: usize| -> Vec<(usize, u8, usize)> {
                let kinds = [[EN, ER], [SN, SR], [SN, SR]];
                let arrow = |&h: &u8| {
                    (
                        (h % 64) as usize,
                        kinds[(h / 64) as usize][second],
                        class as usize,
                    )
                };
                holds.iter().map(arrow).collect()
            };
            match r[3] {
                0 if mode < 3 => {
                    arrows = from_holds(usize::from(mode == 2));
                    if !b.in_progress().is_empty() {
                        let i = b.kept();
                        wanted.set_kept(i + 1);
                        wanted.set_entry(i as usize, [at as u8 + 1, class + 64 * mode]);
                    }
                }
                7 | 9 => {
                    for i in 0..b.kept() as usize {
                        if b.history[2 * i] == at as u8 + 1 {
                            wanted.set_entry(i, [0, 0]);
                        }
                    }
                }
                10 => {
                    arrows = from_holds(0);
                    let mut list = b.in_progress();
                    list.push(class);
                    wanted.set_in_progress(&list);
                    wanted.set_since(class, b.kept());
                }
                11 => {
                    for i in 0..b.kept() {
                        let entry = &b.history[2 * i as usize..2 * i as usize + 2];
                        if i >= b.since(class) && entry[0] == at as u8 + 1 {
                            let kind = if entry[1] / 64 == 2 { ER } else { EN };
                            arrows.push((class as usize, kind, (entry[1] % 64) as usize));
                        }
                    }
                }
                12 => {
                    let mut list = b.in_progress();
                    list.retain(|&other| other != class);
                    wanted.set_in_progress(&list);
                    if list.is_empty() {
                        wanted.set_kept(0);
                    }
                }
                _ => {}
            }
            for (from, kind, to) in arrows {
                if wanted.sheet[from * k + to] == 0 {
                    wanted.set_number(from, to, b.count() + 1);
                }
                wanted.sheet[from * k + to] |= kind;
            }
            assert_eq!(after.desk[1398..], wanted.desk[1398..], "{r:?}");
            assert_eq!(after.history, wanted.history, "{r:?}");
            assert_eq!(after.sheet, wanted.sheet, "{r:?}");
            assert_eq!(after.seen, wanted.seen, "{r:?}");
            assert_eq!(after.count(), b.count() + 1);
            // Go on while it is open.
            if answer == 0 {
                b = after;
            }
        }
    }
    for kind in [0, 1, 7, 9, 10, 11, 12] {
        assert!(met[kind] > 40, "kind {kind}: {met:?}");
    }
}

#[test]
fn other_cores_records_beside_crosslocks() {
    // Demand 3: records of other cores, none of kinds 10 to 12, change no answer 0 to a fault's
    // undoing: where the first list's drawing has a circle, the second's has it too.
    let mut dice = Dice(0xDE3A_4D30_0000_0001);
    let (mut faults, mut later) = (0, 0);
    for _ in 0..1_500 {
        let k = 3 + dice.under(4);
        let declared = (1 << (k - 1)) | (dice.next() & 1);
        let (mut one, mut two) = (lent_for(k as usize), lent_for(k as usize));
        assert_eq!(one.open_declared(k, declared), 0);
        assert_eq!(two.open_declared(k, declared), 0);
        for _ in 0..60 {
            for _ in 0..dice.under(3) {
                let mut r = cross_record(&mut dice, k, declared, &[R, R, TRR, NR]);
                r[2] = (r[2] + 3) % 8;
                if r[3] < 10 {
                    let answer = two.step(&r);
                    assert!(![9, 19].contains(&answer));
                }
            }
            let r = cross_record(&mut dice, k, declared, &MODES);
            let answers = [one.step(&r), two.step(&r)];
            if answers[1] != 10 {
                if answers[0] != answers[1] {
                    assert_eq!(answers, [0, 1]);
                }
            }
            if answers[0] == 1 {
                faults += 1;
                assert!(answers[1] == 1 || answers[1] == 10);
                break;
            }
            later += u64::from(answers[1] < 2);
            // What the first has drawn, the second has too.
            for pair in 0..(k * k) as usize {
                if two.desk[1] == 0 {
                    assert_eq!(one.sheet[pair] & !two.sheet[pair], 0);
                }
            }
        }
    }
    assert!(faults > 300 && later > 10_000, "{faults} {later}");
}

#[test]
fn books_beside_a_join_with_crosslocks() {
    // Two logs, left in the middle of crosslocks, joined; then a third on the joined bench.
    // The books keep the declaration, and start with none in progress.
    let mut dice = Dice(0xB00C_5C20_5510_0001);
    let (mut accepted, mut drawn) = (0, 0);
    for _ in 0..500 {
        let k = 4 + dice.under(4);
        let declared = (1 << (k - 1)) | (dice.next() & 3);
        let mut benches = [lent_for(k as usize), lent_for(k as usize)];
        let mut books = Vec::new();
        for b in &mut benches {
            assert_eq!(b.open_declared(k, declared), 0);
            let mut own = Books::open_declared(k, declared).unwrap();
            for _ in 0..40 {
                let r = cross_record(&mut dice, k, declared, &[R, R, TRR]);
                let mut next = b.clone();
                let answer = next.step(&r);
                // A record that would close it is left out, so that the bench stays open.
                if answer != 1 {
                    assert_eq!(own.enter(&r), answer == 0);
                    *b = next;
                }
            }
            books.push(own);
        }
        let (answer, mut joined) = benches[0].joined(&benches[1]);
        let of_benches = benches.map(|b| b.books().unwrap());
        let mut own = books[0].joined(&books[1]).unwrap();
        let other = of_benches[0].joined(&of_benches[1]).unwrap();
        for books in [&own, &other] {
            assert_eq!(books.closed(), answer == 1);
            assert_eq!(books.accepted(), 0);
            assert_eq!(bytes_of(books.numbers()), joined.seen);
        }
        if answer == 1 {
            continue;
        }
        for core in 0..3 {
            assert_eq!(joined.clone().step(&commit(core, k as u8 - 1)), 17);
        }
        for _ in 0..60 {
            let r = cross_record(&mut dice, k, declared, &[R, R, TRR]);
            let before = joined.sheet.clone();
            let answer = joined.step(&r);
            assert_eq!(own.enter(&r), answer < 2, "{r:?}");
            assert_eq!(own.closed(), joined.desk[1] == 1);
            assert_eq!(joined.seen, bytes_of(own.numbers()));
            assert_eq!(joined.count(), own.accepted());
            accepted += u64::from(answer < 2 && r[3] >= 10);
            drawn += u64::from(r[3] == 11 && joined.sheet != before);
        }
    }
    assert!(accepted > 300 && drawn > 10, "{accepted} {drawn}");
}
