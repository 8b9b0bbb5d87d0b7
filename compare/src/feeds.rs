//! Logs in pieces: the promise that a feed keeps, and the cases with feeds.

use crate::crosslocks;
use crate::depths;
use crate::gen::{
    any_buffers, any_k, any_style, case, clean_style, damaged, fit_desk, hand_logs, sizes, try_style, violate, Buffers, Kind,
    BIG,
};
use crate::judges::CLAUSES;
use crate::numbers;
use crate::older;
use crate::rng::Rng;
use crate::run::{Call, Case, Meant, Rec};
use crate::ties;
use reference::{COUNT, DECLARED, DESK, FEED, FEED_CLAUSES, HISTORY, LOOSE};

/// The parts of the promise. A wrong cutting breaks all of them; the first is named.
pub const PROMISE: [&str; 3] = ["the same over another cut", "as the whole log", "as single steps"];

// Where things lie in a feed.
pub const ANSWER: usize = 0;
pub const OPENED: usize = 1;
pub const KEPT: usize = 2;
pub const KEEP: usize = 3;
pub const NUMBER: usize = KEEP + LOOSE;

/// The answers of a step that a feed may stand at.
const STANDING: [u8; 15] = [1, 3, 4, 5, 6, 7, 8, 9, 10, 11, 15, 16, 17, 18, 19];

/// How many bytes a header has that begins so: its third byte alone tells.
pub fn header_length(bytes: &[u8]) -> usize {
    if bytes.get(2) == Some(&2) { 12 } else { 4 }
}

/// The length of the header with which a log begins, whatever is in it, and the word behind its K, 0 without one; None while it is
/// not whole.
pub fn header_of(log: &[u8]) -> Option<(usize, u64)> {
    let length = header_length(log);
    let header = log.get(..length)?;
    Some((length, header[4..].iter().rev().fold(0, |word, &byte| word << 8 | u64::from(byte))))
}

pub fn number(feed: &[u8]) -> u64 {
    u64::from_le_bytes(feed[NUMBER..FEED].try_into().unwrap())
}

/// Whether a fit feed gets something whole by this piece.
pub fn completes(feed: &[u8], piece: &[u8]) -> bool {
    let kept = usize::from(feed[KEPT]);
    let begun = || [&feed[KEEP..KEEP + kept], &piece[..piece.len().min(LOOSE + 1)]].concat();
    feed[ANSWER] == 0 && if feed[OPENED] == 1 { kept + piece.len() >= 6 } else { header_of(&begun()).is_some() }
}

/// A case of a feed alone, with nobody else writing: where it stands at first, and what comes.
pub struct Fed {
    /// Whether it begins with a start.
    pub started: bool,
    pub answer: u8,
    pub opened: bool,
    pub loose: Vec<u8>,
    pub number: u64,
    pub bytes: Vec<u8>,
    /// Whether an end came after these bytes where something was not whole.
    pub ended: bool,
}

impl Fed {
    pub fn of(case: &Case) -> Option<Fed> {
        let started = matches!(case.calls.first(), Some(Call::FeedStart)) && case.feed.len() >= FEED;
        let (feed, calls) = if started { (&[0; FEED][..], &case.calls[1..]) } else { (&case.feed[..], &case.calls[..]) };
        let alone = calls.iter().all(|call| matches!(call, Call::Feed(_) | Call::FeedEnd));
        if calls.is_empty() || !alone || reference::unfit_feed(feed).is_some() {
            return None;
        }
        let (opened, loose) = (feed[OPENED] == 1, feed[KEEP..KEEP + usize::from(feed[KEPT])].to_vec());
        let (mut bytes, mut ended) = (Vec::new(), false);
        for call in calls {
            let got: usize = loose.len() + bytes.len();
            match call {
                Call::Feed(piece) => bytes.extend_from_slice(piece),
                _ if opened => ended |= got % 6 != 0,
                _ => {
                    let begun = [&loose[..], &bytes[..bytes.len().min(LOOSE + 1)]].concat();
                    ended |= header_of(&begun).is_none_or(|(length, _)| (got - length) % 6 != 0);
                }
            }
            if ended {
                break;
            }
        }
        Some(Fed { started, answer: feed[ANSWER], opened, loose, number: number(feed), bytes, ended })
    }

    /// The bytes in other pieces: in one, each alone, or with all sorts of lengths.
    pub fn other_cut(&self) -> impl Iterator<Item = &[u8]> {
        const LENGTHS: [usize; 9] = [1, 0, 2, 7, 5, 3, 11, 6, 4];
        let sum = self.bytes.iter().fold(self.bytes.len(), |sum, &b| sum + usize::from(b));
        let mut rest = Some(&self.bytes[..]);
        let mut turn = sum / 3;
        std::iter::from_fn(move || {
            let left = rest?;
            turn += 1;
            let length = match sum % 3 {
                0 => left.len(),
                1 => 1,
                _ => LENGTHS[turn % LENGTHS.len()],
            };
            let (piece, after) = left.split_at(length.min(left.len()));
            rest = (!after.is_empty()).then_some(after);
            Some(piece)
        })
    }
}

// ------------------------------------------------------------------------ logs

fn header(k: u8) -> Vec<u8> {
    vec![0x4C, 0x48, 1, k]
}

/// The header that declares these crosslocks.
pub fn long_header(k: u8, declared: u64) -> Vec<u8> {
    [&[0x4C, 0x48, 2, k][..], &declared.to_le_bytes()].concat()
}

/// The same, or where there are none the short one mostly.
pub fn any_header(rng: &mut Rng, k: u8, declared: u64) -> Vec<u8> {
    if declared == 0 && !rng.mille(150) { header(k) } else { long_header(k, declared) }
}

pub fn log_of<'a>(k: u8, records: impl IntoIterator<Item = &'a Rec>) -> Vec<u8> {
    log_behind(header(k), records)
}

pub fn log_behind<'a>(header: Vec<u8>, records: impl IntoIterator<Item = &'a Rec>) -> Vec<u8> {
    let mut log = header;
    records.into_iter().for_each(|record| log.extend_from_slice(record.slice()));
    log
}

/// A header that is refused, if K is not refused already.
fn damage_header(rng: &mut Rng, log: &mut [u8]) {
    let at = rng.pick(&[0, 1, 2, 3, 3]);
    if log[2] == 2 && log.len() > 11 && log[3] < 64 && rng.mille(300) {
        // A class of K or more declared: the lowest such, the last, or any.
        let class = rng.pick(&[usize::from(log[3]), 63, rng.clone().between(usize::from(log[3]), 63)]);
        log[4 + class / 8] |= 1 << (class % 8);
        return;
    }
    log[at] = match at {
        3 => rng.pick(&[0, 0, 0, 65, 66, 255]),
        2 => rng.pick(&[0, 3, log[2] ^ 3, log[2] ^ 1 << rng.clone().under(8)]),
        _ => log[at] ^ 1 << rng.under(8),
    };
}

/// A log from opening with its K and buffers for it. Most records are accepted; some come after the one that stops it.
fn any_log(rng: &mut Rng) -> (Vec<u8>, Buffers) {
    if rng.mille(60) {
        let (records, k) = ties::closing(rng);
        return (log_of(k as u8, &records), any_buffers(rng, k));
    }
    // Full frames, and what they refuse.
    let full = rng.mille(120);
    let faults = !full && rng.mille(350);
    let k = if faults && rng.mille(700) { rng.pick(&[1, 1, 2, 4]) } else { any_k(rng) };
    let mut style = if full { depths::filling(rng, k) } else { any_style(rng, k) };
    (style.damaged, style.random) = (rng.pick(&[0, 0, 10, 100]), rng.pick(&[0, 10, 30, 100, 200]));
    // Releases in another mode, and what they stop.
    let wrong = !full && !faults && rng.mille(200);
    if full {
        (style.damaged, style.random) = (0, 0);
        style.cores.truncate(1);
    }
    if wrong {
        (style.wrong, style.weights) = (300, [4, 4, 1]);
    }
    if faults {
        // Over tries of one class in several modes there are several cycles.
        (style.avoid, style.unordered, style.modes) = (0, 1000, rng.pick(&[[1, 1, 1, 0, 0, 0], [1, 0, 0, 2, 1, 2]]));
        style.weights = [6, 1, 1];
        style.cores.truncate(2);
    }
    let refused = if full || wrong { 1000 } else { rng.pick(&[0, 0, 300, 1000]) };
    let most = rng.pick(match (full, faults) {
        (true, _) => &[60, 80],
        (_, true) => &[5, 20, 30],
        _ => &[0, 1, 2, 5, 20, 50][..],
    });
    let declared = if full { 0 } else { crosslocks::some(rng, k, 350) };
    let (mut shadow, mut records, mut behind) = (Buffers::declaring(k, declared), Vec::new(), 0);
    for _ in 0..most {
        let (record, answer) = shadow.next(rng, &style);
        if answer < 2 || rng.mille(refused) {
            records.push(record);
            behind += usize::from(behind > 0 || answer != 0);
        }
        if behind > 3 {
            break;
        }
    }
    let mut log = log_behind(any_header(rng, k as u8, declared), &records);
    if rng.mille(270) {
        damage_header(rng, &mut log);
    }
    match rng.under(3) {
        0 => log.truncate(log.len() - rng.under(log.len().min(6))),
        1 => log.extend(rng.bytes(6)),
        _ => {}
    }
    let mut buffers = any_buffers(rng, k);
    if rng.mille(340) {
        let Buffers { desk, sheet, seen, history, slip } = &mut buffers;
        match rng.under(6) {
            0 => desk.truncate(rng.pick(&[0, 1, COUNT, DESK - 1, DECLARED, older::ORIGINS, older::COUNT, older::DESK])),
            5 => history.truncate(rng.pick(&[0, HISTORY / 2, HISTORY - 1, HISTORY - 1])),
            1 => sheet.truncate(rng.pick(&[0, k * k - 1])),
            2 => seen.truncate(rng.pick(&[0, k * k, 4 * k * k - 1, 4 * k * k - 1])),
            _ => slip.truncate(rng.pick(&[0, 3 * k, 1 + 3 * k, 7 * k])),
        }
    }
    (log, buffers)
}

/// Random pieces of it.
fn cut<'a>(rng: &mut Rng, log: &'a [u8]) -> Vec<&'a [u8]> {
    let longest = rng.pick(&[1, 2, 5, 6, 7, 12, 40, log.len().max(1)]);
    let empty = rng.pick(&[0, 0, 100, 300]);
    let (mut pieces, mut rest) = (Vec::new(), log);
    while !rest.is_empty() {
        let length = if rng.mille(empty) { 0 } else { rng.between(1, longest).min(rest.len()) };
        let (piece, after) = rest.split_at(length);
        pieces.push(piece);
        rest = after;
    }
    pieces
}

/// A start, pieces, and ends: between records mostly, now and then elsewhere, behind, and after a stop.
pub fn cut_log(rng: &mut Rng) -> Case {
    let (log, buffers) = any_log(rng);
    let (between, elsewhere) = rng.pick(&[(0, 0), (300, 0), (1000, 0), (300, 5), (500, 60)]);
    let mut calls = vec![Call::FeedStart];
    let (mut got, header) = (0, header_length(&log));
    for piece in cut(rng, &log) {
        got += piece.len();
        calls.push(Call::Feed(piece.to_vec()));
        let at_record = got >= header && (got - header) % 6 == 0;
        if rng.mille(if at_record { between } else { elsewhere }) {
            calls.push(Call::FeedEnd);
        }
    }
    if rng.mille(700) {
        calls.push(Call::FeedEnd);
        for _ in 0..rng.under(4) {
            let n = rng.pick(&[0, 1, 6, 9]);
            let piece = if rng.mille(500) { rng.bytes(n) } else { Rec::new(0, 2, 0, 0).slice().to_vec() };
            calls.push(if rng.mille(300) { Call::FeedEnd } else { Call::Feed(piece) });
        }
    }
    let size = if rng.mille(50) { rng.pick(&[FEED - 1, FEED - 1, FEED - 1, 8, 0]) } else { FEED + rng.pick(&[0, 0, 1, 7]) };
    Case { feed: rng.bytes(size), ..case(buffers, calls) }
}

/// A clean log of more than 65,536 bytes, and perhaps what is not clean behind it.
fn long_log(rng: &mut Rng) -> (Vec<u8>, usize) {
    let k = rng.pick(&[4, 5, 8]);
    let style = if rng.mille(500) { clean_style(k) } else { try_style(k) };
    let (mut shadow, mut log) = (Buffers::opened(k), header(k as u8));
    let length = rng.between(65_600, 70_000);
    while log.len() < length && shadow.desk[1] == 0 {
        let (record, answer) = shadow.next(rng, &style);
        if answer < 2 {
            log.extend_from_slice(record.slice());
        }
    }
    let n = rng.pick(&[0, 3, 20]);
    log.extend(rng.bytes(n));
    (log, k)
}

/// Its first piece has more than 65,536 bytes, or all pieces together have.
fn long_cut_log(rng: &mut Rng) -> Case {
    let (log, k) = long_log(rng);
    let (first, longest) = rng.pick(&[(log.len(), 1), (65_537, 400), (65_560, 9), (66_000, 66_000), (0, 5000), (7, 700)]);
    let (mut calls, mut rest) = (vec![Call::FeedStart], &log[..]);
    let mut length = first;
    while !rest.is_empty() {
        let (piece, after) = rest.split_at(length.min(rest.len()));
        calls.push(Call::Feed(piece.to_vec()));
        rest = after;
        length = rng.between(longest / 2, longest);
    }
    calls.extend([Call::FeedEnd, Call::Feed(vec![0x4C])]);
    Case { feed: rng.bytes(FEED), ..case(any_buffers(rng, k), calls) }
}

// ----------------------------------------------------------------------- feeds

pub fn feed_of(answer: u8, opened: bool, loose: &[u8], number: u64) -> Vec<u8> {
    let mut feed = vec![answer, u8::from(opened), loose.len() as u8];
    feed.extend_from_slice(loose);
    feed.resize(NUMBER, 0);
    feed.extend(number.to_le_bytes());
    feed
}

fn any_number(rng: &mut Rng) -> u64 {
    match rng.under(7) {
        0 | 1 => u64::MAX - rng.under(3) as u64,
        2 => rng.pick(&BIG) - 1,
        3 => rng.pick(&[255, (1 << 32) - 1]),
        4 => rng.next() >> rng.under(64),
        _ => rng.under(3) as u64,
    }
}

/// A fit feed that no start need lead to, before or after the header.
fn any_feed(rng: &mut Rng, opened: bool, item: &[u8]) -> Vec<u8> {
    let stands = rng.mille(350);
    let answer = match (stands, opened) {
        (false, _) => 0,
        (true, false) => 2,
        (true, true) => rng.pick(&STANDING),
    };
    let kept = if stands { 0 } else { rng.under(item.len()) };
    let mut loose = item[..kept].to_vec();
    if kept > 0 && rng.mille(200) {
        // The third byte of more than three tells that the header is long.
        let at = rng.under(kept);
        loose[at] = if !opened && kept > 3 && at == 2 { 2 } else { rng.byte() };
    }
    let number = if opened { any_number(rng).max(u64::from(stands)) } else { 0 };
    feed_of(answer, opened, &loose, number)
}

/// Violates one clause of the feed's fit test (by its place in FEED_CLAUSES) in a fit feed.
fn violate_feed(rng: &mut Rng, clause: usize, feed: &mut Vec<u8>) {
    let not_0 = rng.between(1, 255) as u8;
    match FEED_CLAUSES[clause] {
        "feed too short" => feed.truncate(rng.pick(&[FEED - 1, FEED - 1, 8, 1, 0])),
        "byte 1 over 1" => {
            *feed = feed_of(0, false, &[], 0);
            feed[OPENED] = rng.pick(&[2, 2, 3, 128, 255]);
        }
        "too many loose bytes" => {
            // Those of a record before the header, those of a long header before a short one, or more than there is room for.
            *feed = feed_of(0, rng.mille(300), &[0x4C, 0x48, 1, 2], 0);
            feed[KEPT] = if feed[OPENED] == 0 { rng.pick(&[4, 4, 5, 11, 12]) } else { rng.pick(&[6, 6, 7, 11, 12, 255]) };
            if feed[OPENED] == 0 && rng.mille(400) {
                (feed[KEEP + 2], feed[KEPT]) = (2, rng.pick(&[12, 12, 13, 255]));
            } else if feed[OPENED] == 1 && rng.mille(400) {
                feed[KEEP + 2] = 2;
            }
        }
        "unused loose byte not 0" => {
            let kept = usize::from(feed[KEPT]);
            // With all places used there is none to spoil.
            let last = if kept == LOOSE { LOOSE - 1 } else { kept };
            feed[KEPT] = last as u8;
            feed[KEEP + rng.pick(&[last, LOOSE - 1])] = not_0;
        }
        "loose bytes beside a standing answer" => {
            feed[ANSWER] = if feed[OPENED] == 1 { 3 } else { 2 };
            feed[KEPT] = rng.between(1, if feed[OPENED] == 1 { 5 } else { 3 }) as u8;
            feed[NUMBER] = feed[OPENED];
        }
        "before opening, an answer but 0 and 2" => {
            *feed = feed_of(rng.pick(&[1, 3, 10, 11, 15, 19, 255]), false, &[], 0);
        }
        "before opening, a record number" => {
            *feed = feed_of(rng.pick(&[0, 2]), false, &[], 0);
            feed[NUMBER + rng.under(8)] = not_0;
        }
        "after opening, no answer of a step" => {
            let number = any_number(rng);
            *feed = feed_of(rng.pick(&[2, 12, 13, 14, 20, 255]), true, &[], number);
        }
        "after opening, a standing answer at record 0" => {
            *feed = feed_of(rng.pick(&STANDING), true, &[], 0);
        }
        other => panic!("no way to violate {other}"),
    }
}

/// Any feed with any buffers, and also with other calls between.
fn any_calls(rng: &mut Rng) -> Case {
    let k = any_k(rng);
    let opened = rng.mille(750);
    let core = rng.under(8) as u8;
    let record = match rng.under(20) {
        0..3 => damaged(rng, k),
        3 => Rec::new(core, rng.under(2) as u8, k as u8, rng.under(6) as u8),
        4 => Rec::new(core, 1, rng.under(k) as u8, rng.under(6) as u8),
        5 | 6 => Rec::new(core, rng.between(10, 12) as u8, rng.under(k) as u8, 0),
        _ => Rec::new(core, rng.pick(&[0, 2, 2, 3, 8]), 0, 0),
    };
    let declared = crosslocks::any_word(rng, k);
    let version = rng.mille(500);
    let item = match opened {
        true => Rec { len: 6, ..record },
        false if version => Rec::of(&long_header(k as u8, declared)),
        false => Rec::of(&header(k as u8)),
    };
    let mut feed = any_feed(rng, opened, item.slice());
    let extra = rng.pick(&[0, 0, 1, 7]);
    feed.extend(rng.bytes(extra));
    // An opened desk, one that no opening leads to, a closed one, or an unfit one.
    let mut buffers = fit_desk(rng, k);
    match rng.under(10) {
        0 => buffers = Buffers::opened(k),
        7..10 => buffers = older::any(rng, k),
        1 | 2 => buffers.desk[1] = 1,
        // At the last count, or a few before it.
        3 | 4 => {
            buffers = Buffers::opened(k);
            numbers::set_count(&mut buffers.desk, numbers::FULL - rng.pick(&[0, 0, 0, 1, 2]));
        }
        5 => drop(violate(rng, rng.clone().under(CLAUSES.len()), &mut buffers)),
        _ => {}
    }
    if rng.mille(500) {
        violate_feed(rng, rng.clone().under(FEED_CLAUSES.len()), &mut feed);
    } else if rng.mille(70) {
        let at = rng.under(FEED);
        feed[at] = rng.byte();
    }
    rng.next();
    let others = rng.mille(300);
    let mut calls = Vec::new();
    let kept = feed.get(KEPT).map_or(0, |&kept| usize::from(kept).min(item.slice().len()));
    for turn in 0..rng.between(1, 6) {
        calls.push(match rng.under(if others { 14 } else { 9 }) {
            0..3 => Call::FeedEnd,
            3 => Call::Feed(Vec::new()),
            4 => {
                let n = rng.under(16);
                Call::Feed(rng.bytes(n))
            }
            // What makes the first item whole, or the next, and more.
            5..9 => {
                let mut piece = item.slice()[if turn == 0 { kept } else { 0 }..].to_vec();
                for _ in 0..rng.under(3) {
                    piece.extend_from_slice(Rec::new(rng.under(8) as u8, 2, 0, 0).slice());
                }
                piece.truncate(rng.between(1, piece.len().max(1)).max(rng.under(30)));
                Call::Feed(piece)
            }
            9 => Call::FeedStart,
            10 => Call::Open(k as u64, declared),
            11 => Call::Ask(0),
            _ => Call::Step(record),
        });
    }
    Case { feed, ..case(buffers, calls) }
}

/// An end over each number of loose bytes and each sort of desk, and what comes after it.
fn end_over_loose(rng: &mut Rng) -> Case {
    let k = any_k(rng);
    let opened = rng.mille(800);
    let item = match opened {
        true => Rec::new(rng.under(8) as u8, 2, 0, 0),
        false if rng.mille(500) => Rec::of(&long_header(k as u8, crosslocks::any_word(rng, k))),
        false => Rec::of(&header(k as u8)),
    };
    let kept = if rng.mille(100) { 0 } else { rng.between(1, item.slice().len() - 1) };
    let mut loose = item.slice()[..kept].to_vec();
    if rng.mille(100) {
        loose = rng.bytes(kept);
        if !opened && kept > 3 {
            loose[2] = 2;
        }
    }
    let number = if opened && rng.mille(700) { any_number(rng) } else { 0 };
    let feed = match rng.mille(250) {
        false => feed_of(0, opened, &loose, number),
        true if opened => feed_of(rng.pick(&STANDING), true, &[], number.max(1)),
        true => feed_of(2, false, &[], 0),
    };
    let mut buffers = if rng.mille(800) { Buffers::opened(k) } else { fit_desk(rng, k) };
    match rng.under(3) {
        0 => buffers.desk[1] = 1,
        1 if rng.mille(400) => buffers.slip.truncate(rng.pick(&[0, 3 * k, 1 + 3 * k, 7 * k])),
        1 => drop(violate(rng, rng.clone().under(CLAUSES.len()), &mut buffers)),
        _ if rng.mille(150) => numbers::set_count(&mut buffers.desk, numbers::FULL),
        _ => {}
    }
    let mut calls = vec![Call::FeedEnd, Call::Feed(item.slice()[kept..].to_vec()), Call::FeedEnd];
    if rng.mille(200) {
        calls.remove(0);
    }
    Case { feed, ..case(buffers, calls) }
}

/// A feed over a desk near the last count: records in pieces cut anywhere, with ends, and what comes after a 9.
fn near_full(rng: &mut Rng) -> Case {
    let k = any_k(rng);
    let mut buffers = if rng.mille(700) { Buffers::opened(k) } else { fit_desk(rng, k) };
    let count = numbers::FULL - rng.pick(&[0, 0, 1, 2, 3, 5]);
    numbers::set_count(&mut buffers.desk, count);
    let (mut log, mut shadow) = (Vec::new(), buffers.clone());
    numbers::set_count(&mut shadow.desk, count - 10);
    let style = any_style(rng, k);
    for _ in 0..rng.between(1, 8) {
        let (record, answer) = shadow.next(rng, &style);
        if answer < 2 || rng.mille(100) {
            log.extend_from_slice(record.slice());
        }
    }
    let kept = rng.pick(&[0, 0, 1, 2, 3, 4, 5]).min(log.len());
    let feed = feed_of(0, true, &log[..kept], any_number(rng).min(u64::MAX - 10));
    let mut calls = Vec::new();
    for piece in cut(rng, &log[kept..]) {
        calls.push(Call::Feed(piece.to_vec()));
        if rng.mille(60) {
            calls.push(Call::FeedEnd);
        }
    }
    calls.extend([Call::FeedEnd, Call::Feed(vec![0x4C, 0x4B]), Call::FeedEnd].into_iter().take(rng.under(4)));
    Case { feed, ..case(buffers, calls) }
}

// ---------------------------------------------------------------------- random

pub const CUT_LOG: &str = "log in pieces";
pub const KINDS: [Kind; 6] = [
    Kind { name: CUT_LOG, weight: 150, make: cut_log },
    Kind { name: "long log in pieces", weight: 4, make: long_cut_log },
    Kind { name: "any feed", weight: 200, make: any_calls },
    Kind { name: "end over loose bytes", weight: 130, make: end_over_loose },
    Kind { name: "feed over ties", weight: 40, make: ties::in_feed },
    Kind { name: "feed near the last count", weight: 50, make: near_full },
];

// ----------------------------------------------------------------------- fixed

pub const HAND_LOGS: &str = "hand logs in two pieces";
pub const EACH_CUT: &str = "each cut of short logs";
pub const EACH_LONG_CUT: &str = "each cut of long headers";
pub const EACH_FEED_BYTE: &str = "each feed byte";
pub const EACH_FEED_SIZE: &str = "each feed size";
pub const EACH_STAND: &str = "each feed over each desk";
pub const LONG_PIECES: &str = "long pieces";
pub const EACH_COUNT: &str = "counts in two pieces";

/// Records over a desk at several counts, with feeds at several numbers, cut at each place; what is to come of them is worked
/// out here. Core 0 draws 0 to 1 by the second record, core 1 draws 1 to 0 by the fourth.
fn counts() -> impl Iterator<Item = Case> {
    let log = [Rec::new(0, 0, 0, 0), Rec::new(0, 0, 1, 0), Rec::new(1, 0, 1, 0), Rec::new(1, 0, 0, 0)];
    let bytes = log.map(|record| record.slice().to_vec()).concat();
    let counts = [0, 1, 254, 65_534, 16_777_214].into_iter().chain(numbers::FULL - 6..=numbers::FULL);
    let all = counts.flat_map(|count| [0, 7, 255].map(|number| (count, number)));
    all.flat_map(move |(count, number)| {
        let bytes = bytes.clone();
        (0..=bytes.len()).map(move |cut| {
            let accepted = (numbers::FULL - count).min(4);
            let after = |records: u32| match records {
                _ if records > accepted => 9,
                4 => 1,
                _ => 0,
            };
            let at = |record: u32| if accepted < record { 0 } else { count + record };
            let entries = [numbers::entry(0, ties::EN, 0, count.wrapping_add(2)), numbers::entry(1, ties::EN, 0, count.wrapping_add(4))];
            let meant = Meant {
                answers: vec![after(cut as u32 / 6), after(4), after(4)],
                slip: if after(4) == 1 { [vec![2], entries.concat()].concat() } else { vec![0; 15] },
                numbers: Some((count + accepted, vec![0, at(2), at(4), 0])),
                ..Meant::default()
            };
            let mut buffers = Buffers::opened(2);
            numbers::set_count(&mut buffers.desk, count);
            let feed = feed_of(0, true, &[], number);
            let calls = vec![Call::Feed(bytes[..cut].to_vec()), Call::Feed(bytes[cut..].to_vec()), Call::FeedEnd];
            Case { feed, meant: Some(meant), ..case(buffers, calls) }
        })
    })
}

/// Logs to be cut in all ways, with how much the sheets, the slip and the history are too short: those with the short header, or the others.
fn short_logs(of_long: bool) -> Vec<(Vec<u8>, [usize; 4])> {
    let take = |class, mode| Rec::new(0, 0, class, mode);
    let (on, refused) = (Rec::new(1, 2, 0, 0), Rec::new(0, 9, 0, 0));
    let bad = |at: usize, byte| {
        let mut log = header(2);
        log[at] = byte;
        (log, [0; 4])
    };
    let mut logs = vec![
        // A header that is refused by each of its bytes, or by a short sheet; a slip too short for the first record.
        bad(0, 0),
        bad(1, 0x4B),
        bad(2, 0),
        bad(2, 3),
        bad(3, 0),
        bad(3, 65),
        (header(2), [1, 0, 0, 0]),
        (header(2), [0, 1, 0, 0]),
        (log_of(2, &[on]), [0, 0, 1, 0]),
        // Clean; a fault, and a record behind it; refused, and a record behind it.
        (log_of(2, &[take(1, 0), on]), [0; 4]),
        (log_of(1, &[take(0, 0), take(0, 2), on]), [0; 4]),
        (log_of(1, &[refused, on]), [0; 4]),
    ];
    if of_long {
        let by = |at: usize, byte: u8| {
            let mut log = long_header(2, 0b10);
            log[at] = byte;
            (log, [0; 4])
        };
        // A long header that is refused by each of its bytes, by a class of K or more, or by short buffers, and good ones.
        logs = vec![
            by(0, 0x4D), by(1, 0x4B), by(3, 0), by(3, 65), by(3, 1), by(4, 4), by(4, 0x82), by(11, 0x80), by(8, 1), by(4, 0), by(4, 3),
            (long_header(2, 0b10), [1, 0, 0, 0]), (long_header(2, 0b10), [0, 1, 0, 0]), (long_header(2, 0b10), [0, 0, 0, 1]),
            // Crosslock 1 taken twice, and a record behind it.
            (log_behind(long_header(2, 0b10), &[Rec::new(0, 10, 1, 0), Rec::new(1, 10, 1, 0), on]), [0; 4]),
            // Taken once, and the same by the short header, which declares none.
            (log_behind(long_header(2, 0b10), &[Rec::new(0, 10, 1, 0)]), [0; 4]),
            (log_of(2, &[Rec::new(0, 10, 1, 0)]), [0; 4]),
            (log_behind(long_header(2, 0), &[take(1, 0)]), [0; 4]),
            (by(2, 3).0, [0; 4]),
        ];
    }
    for (log, ..) in &mut logs {
        log.extend([0x4C, 0x4B]);
    }
    logs
}

/// Every cut of them into four pieces, empty ones too, and at each of the four places an end or none: those that have two
/// pieces at most, or the others; those with the long header in three at most. False once a case is answered so.
fn each_cut(name: &'static str, in_two: bool, each: &mut dyn FnMut(&'static str, Vec<u8>, Case) -> bool) -> bool {
    let of_long = name == EACH_LONG_CUT;
    for (log, short) in short_logs(of_long) {
        // Those with a bad K have buffers for 2.
        let [desk, sheet, seen, slip] = sizes(if log[3] == 1 { 1 } else { 2 });
        let sizes = [desk, sheet - short[0], seen - short[1], slip - short[2]];
        let header = header_length(&log);
        for b in 0..=log.len() {
            let cuts = (0..=b).flat_map(|a| (b..=log.len()).map(move |c| (a, c)));
            let cuts = cuts.filter(|&(_, c)| !of_long || c == log.len());
            for (a, c) in cuts.filter(|&(a, c)| in_two == (a == 0 && c == log.len())) {
                let pieces = [&log[..a], &log[a..b], &log[b..c], &log[c..]];
                for ends in each_ends(header, &[a, b, c, log.len()]).into_iter().filter(|ends| !of_long || [0, 2, 8, 15].contains(ends)) {
                    let mut calls = vec![Call::FeedStart];
                    for (i, piece) in pieces.iter().enumerate() {
                        calls.push(Call::Feed(piece.to_vec()));
                        if ends >> i & 1 == 1 {
                            calls.push(Call::FeedEnd);
                        }
                    }
                    let mut buffers = Buffers::full_of(0xEE, sizes);
                    buffers.history.truncate(HISTORY - short[3]);
                    if !each(name, vec![0xEE; FEED], case(buffers, calls)) {
                        return false;
                    }
                }
            }
        }
    }
    true
}

/// The cases made by hand and those that go through all of a small space, until one is answered with false.
pub fn fixed(each: &mut dyn FnMut(Case) -> bool) {
    let mut each = |name: &'static str, feed: Vec<u8>, case: Case| each(Case { name, feed, ..case });
    let rng = &mut Rng::new(20_260_102);
    // Short logs in two pieces, which show most that can be wrong.
    if !each_cut(EACH_CUT, true, &mut each) || !each_cut(EACH_LONG_CUT, true, &mut each) {
        return;
    }
    // Each size, fit in what there is, or full of anything.
    for size in 0..40 {
        for fresh in [false, true] {
            for start in [false, true] {
                let feed = if fresh { vec![0; size] } else { rng.bytes(size) };
                let mut calls = vec![Call::Feed(header(2)), Call::FeedEnd, Call::FeedStart, Call::Feed(vec![0x4C])];
                calls.rotate_left(if start { 2 } else { 0 });
                if !each(EACH_FEED_SIZE, feed, case(any_buffers(rng, 2), calls)) {
                    return;
                }
            }
        }
    }
    // A feed with each number of loose bytes over a desk that is open, closed, at the last count and one before it, with a number
    // above the count, and unfit by each clause alone; with small numbers and with those near the top.
    for kept in 0..6 {
        for stand in 0..CLAUSES.len() + 5 {
            for number in [0, 254, u64::MAX - 2, u64::MAX - 1, u64::MAX] {
                // 17 classes and more for those that are too many.
                let many = stand.checked_sub(5).is_some_and(|clause| CLAUSES[clause] == "more than 16 in progress");
                let mut buffers = Buffers::opened(if many { 20 } else { 3 });
                match stand {
                    0 => {}
                    1 => buffers.desk[1] = 1,
                    2 => numbers::set_count(&mut buffers.desk, numbers::FULL),
                    3 => numbers::set_count(&mut buffers.desk, numbers::FULL - 1),
                    4 => {
                        buffers.sheet[8] = ties::SR;
                        numbers::set_number(&mut buffers.seen, 8, 900);
                    }
                    _ => assert!(violate(rng, stand - 5, &mut buffers)),
                }
                let record = Rec::new(0, 2, 0, 0);
                let feed = feed_of(0, true, &record.slice()[..kept], number);
                let rest = record.slice()[kept..].to_vec();
                let two = [record.slice(), record.slice()].concat();
                for calls in [
                    vec![Call::FeedEnd, Call::Feed(rest.clone()), Call::FeedEnd],
                    vec![Call::Feed(rest.clone()), Call::FeedEnd, Call::Feed(two.clone()), Call::Feed(Vec::new())],
                    vec![Call::Feed(Vec::new()), Call::Feed([&rest[..], &two].concat()), Call::FeedEnd],
                ] {
                    if !each(EACH_STAND, feed.clone(), case(buffers.clone(), calls)) {
                        return;
                    }
                }
            }
        }
    }
    for case in counts() {
        if !each(EACH_COUNT, case.feed.clone(), case) {
            return;
        }
    }
    // Each byte of a feed with each value, where it is of the loose bytes or of the number with some.
    for base in [
        feed_of(0, false, &[], 0),
        feed_of(0, false, &[0x4C, 0x48], 0),
        feed_of(2, false, &[], 0),
        feed_of(0, true, &[], 1),
        feed_of(0, true, &[0x4C, 0x4B, 0, 2, 0], 255),
        feed_of(7, true, &[], 1),
        feed_of(9, true, &[], 1),
        feed_of(0, false, &[0x4C, 0x48, 2, 2, 0b10, 0, 0], 0),
        feed_of(0, false, &[0x4C, 0x48, 2, 2, 0b10, 0, 0, 0, 0, 0, 0], 0),
        feed_of(17, true, &[], 1),
    ] {
        for at in 0..FEED {
            for value in (0..=255).filter(|value| at < KEEP || [0, 1, 2, 127, 128, 255].contains(value)) {
                let mut feed = base.clone();
                feed[at] = value;
                let piece = if base[OPENED] == 1 || base[KEPT] > 3 { vec![0; 3] } else { vec![0x4C, 0x48, 1, 2] };
                let calls = vec![Call::Feed(piece), Call::FeedEnd];
                if !each(EACH_FEED_BYTE, feed, case(Buffers::opened(2), calls)) {
                    return;
                }
            }
        }
    }
    // Hand logs cut at each place, with an end between records, and one behind.
    for log in hand_logs() {
        let bytes = log_of(log.k as u8, &log.records);
        let n = bytes.len();
        // A long one at fewer places within it.
        for at in (0..=n).filter(|&at| n < 200 || at < 12 || at % 7 == 0 || at + 14 > n) {
            let between = at >= 4 && (at - 4) % 6 == 0;
            let mut calls = vec![Call::FeedStart, Call::Feed(bytes[..at].to_vec())];
            calls.extend(between.then_some(Call::FeedEnd));
            calls.extend([Call::Feed(bytes[at..].to_vec()), Call::FeedEnd]);
            if !each(HAND_LOGS, rng.bytes(FEED), case(any_buffers(rng, log.k), calls)) {
                return;
            }
        }
    }
    // Pieces around 65,536 bytes, and a log of more in small ones.
    for (first, then) in [(65_535, 1), (65_536, 4000), (65_537, 7), (70_000, 1), (1, 65_536), (1000, 1000), (12, 13)] {
        let mut log = log_of(1, std::iter::repeat_n(&Rec::new(3, 3, 0, 0), 11_000));
        log.extend_from_slice(&[0x4C, 0x4B, 3]);
        let mut calls = vec![Call::FeedStart];
        calls.push(Call::Feed(log[..first.min(log.len())].to_vec()));
        calls.extend(log[first.min(log.len())..].chunks(then).map(|piece| Call::Feed(piece.to_vec())));
        calls.extend([Call::FeedEnd, Call::FeedEnd]);
        if !each(LONG_PIECES, vec![7; FEED], case(any_buffers(rng, 1), calls)) {
            return;
        }
    }
    // Short logs in more pieces.
    let _ = each_cut(EACH_LONG_CUT, false, &mut each) && each_cut(EACH_CUT, false, &mut each);
}

/// Which of four places have an end: all sixteen ways, but for those that differ only after one that stops the feed.
fn each_ends(header: usize, places: &[usize; 4]) -> Vec<u8> {
    let stops = |i: usize| places[i] < header || (places[i] - header) % 6 != 0;
    let first_stop = |ends: u8| (0..4).find(|&i| ends >> i & 1 == 1 && stops(i)).unwrap_or(4);
    // After a stop each place has one.
    let behind = |ends: u8| (0..4).filter(|&i| i > first_stop(ends)).all(|i| ends >> i & 1 == 1);
    (0..16).filter(|&ends| behind(ends)).collect()
}
