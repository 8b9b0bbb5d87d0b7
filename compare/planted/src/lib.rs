//! The planted wrong judges, made by build.rs from the reference and the edits of plants.rs. They are a crate of their own so that the
//! many of them are compiled with less effort than what they are compared with, and while that is compiled.

/// K and the declared word, then desk, sheet, second sheet and history.
pub type Open = fn(u64, u64, &mut [u8], &mut [u8], &mut [u8], &mut [u8]) -> u8;
/// Desk, both sheets, history and slip, and the record.
pub type Step = fn(&mut [u8], &mut [u8], &mut [u8], &mut [u8], &mut [u8], &[u8]) -> u8;
pub type Ask = fn(&[u8], &[u8], &[u8], u64, &mut u64, &mut u32) -> u8;
pub type FeedStart = fn(&mut [u8]) -> u8;
/// Feed, desk, both sheets, history and slip, the piece, and the record number.
pub type Feed = fn(&mut [u8], &mut [u8], &mut [u8], &mut [u8], &mut [u8], &mut [u8], &[u8], &mut u64) -> u8;
pub type FeedEnd = fn(&mut [u8], &mut [u8], &mut [u8], &mut [u8], &mut [u8], &mut [u8], &mut u64) -> u8;
/// Two benches, each a desk with both sheets, and desk, both sheets and slip of the third.
pub type Join =
    fn(&[u8], &[u8], &[u8], &[u8], &[u8], &[u8], &mut [u8], &mut [u8], &mut [u8], &mut [u8]) -> u8;
/// A piece, and where the balances go.
pub type Balance = fn(&[u8], &mut [i32; 64]) -> u8;
/// A log in one piece, and whether it has ended; no call of the library.
pub type WholeLog = fn(&[u8], &mut [u8], &mut [u8], &mut [u8], &mut [u8], &mut [u8], bool) -> (u8, u64);

/// A judge's calls.
#[derive(Clone, Copy)]
pub struct Judge {
    pub open: Open,
    pub step: Step,
    pub ask: Ask,
    pub feed_start: FeedStart,
    pub feed: Feed,
    pub feed_end: FeedEnd,
    pub balance: Balance,
    pub join: Join,
    pub whole_log: WholeLog,
}

/// A bench that is joined: desk and both sheets.
pub type Lent<'a> = [&'a [u8]; 3];

impl Judge {
    /// A join into desk, both sheets and slip.
    pub fn join_of(&self, [d1, s1, n1]: Lent, [d2, s2, n2]: Lent, [desk, sheet, seen, slip]: [&mut [u8]; 4]) -> u8 {
        (self.join)(d1, s1, n1, d2, s2, n2, desk, sheet, seen, slip)
    }
}

pub struct Plant {
    pub name: &'static str,
    pub wrong: &'static str,
    /// The call that shows it to be wrong must be one of these sights, where any are named.
    pub sights: &'static [&'static str],
    /// The part of demand 3's claim or of the feed's promise, the least cycle, the first-seen numbers, what the records
    /// alone draw, what is said of balances or of joins, or the part of request k's claims, that it breaks while it stands in the place of every judge; "reference" for
    /// what is to come of the fixed cases about numbers.
    pub breaks: Option<&'static str>,
    /// Whether nothing but its feed, nothing but its balance, or nothing but its join is wrong.
    pub of_feed: bool,
    pub of_balance: bool,
    pub of_join: bool,
    /// Whether it is wrong about clashes, and the cases with clashes are to show it.
    pub of_clash: bool,
    /// Whether it is wrong about the count or first-seen numbers, and the cases about these come first.
    pub of_numbers: bool,
    /// Whether it is wrong about deep frames or old desks, and the cases about these come first.
    pub of_depth: bool,
    /// Whether it is wrong about the modes of releases, and the cases about these come first.
    pub of_release: bool,
    /// Whether it is wrong about crosslocks, and the cases about these come first.
    pub of_crosslock: bool,
    /// Whether it is wrong about merges, or about document 002's rules, and the cases about these are to show it.
    pub of_merge: bool,
    pub of_usage: bool,
    /// Whether no random case is to show it.
    pub only_fixed: bool,
    /// Whether of the pairs of lists those from a join are to show what it breaks.
    pub from_join: bool,
    /// The parts of request k's claims that it breaks too.
    pub too: &'static [&'static str],
    pub judge: Judge,
}

include!(concat!(env!("OUT_DIR"), "/planted.rs"));
