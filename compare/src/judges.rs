//! The judges: the subject, which is the library by its C calls or a planted judge, and
//! the reference and the fast judge beside it. The library's calls are made on the
//! buffers as they are and, one call in eight, on copies that end exactly at an
//! unreadable page, so that a read or a write past a slice's length stops the program.

use crate::fast;

pub use wrong_judges::{Balance, Feed, Join, Judge, Lent};

/// The clauses of "Unfit": those of desk, sheets and slip, and those of the history, which a question and a bench that is joined
/// have not.
pub const CLAUSES: [&str; reference::CLAUSES.len() + reference::HISTORY_CLAUSES.len()] = {
    let mut all = [""; reference::CLAUSES.len() + reference::HISTORY_CLAUSES.len()];
    let mut at = 0;
    while at < all.len() {
        let (own, behind) = (reference::CLAUSES.len(), reference::HISTORY_CLAUSES);
        all[at] = if at < own { reference::CLAUSES[at] } else { behind[at - own] };
        at += 1;
    }
    all
};

/// Whether a clause is one of desk and sheets alone.
pub fn of_bench(clause: usize) -> bool {
    clause < reference::CLAUSES.len() && CLAUSES[clause] != "slip too short"
}

/// The first clause that is violated at a step.
pub fn unfit(desk: &[u8], sheet: &[u8], seen: &[u8], history: &[u8], slip: &[u8]) -> Option<&'static str> {
    reference::unfit(desk, sheet, seen, Some(slip)).or_else(|| reference::unfit_history(desk, history))
}

/// The same at a question, or of a bench that is joined.
pub fn unfit_bench([desk, sheet, seen]: Lent) -> Option<&'static str> {
    reference::unfit(desk, sheet, seen, None)
}

mod lent {
    use reference::balance;
    include!("../lent.rs");
}

pub const REFERENCE: Judge = Judge {
    open: reference::open,
    step: reference::step,
    ask: reference::ask,
    feed_start: reference::feed_start,
    feed: reference::feed,
    feed_end: reference::feed_end,
    balance: lent::balance_into,
    join: reference::join,
    whole_log: reference::whole_log_kept,
};
pub const FAST: Judge = Judge {
    open: fast::open,
    step: fast::step,
    ask: fast::ask,
    feed_start: fast::feed_start,
    feed: fast::feed,
    feed_end: fast::feed_end,
    balance: fast::balance,
    join: fast::join,
    whole_log: reference::whole_log_kept,
};

/// Those that are compared.
pub struct Judges {
    pub subject: Subject,
    pub reference: Judge,
    pub fast: Judge,
}

impl Judges {
    pub fn beside(subject: Subject) -> Judges {
        Judges { subject, reference: REFERENCE, fast: FAST }
    }
    /// The same judge in every place: no two differ, whatever is wrong with it.
    pub fn all(judge: Judge) -> Judges {
        Judges { subject: Subject::Planted(judge), reference: judge, fast: judge }
    }
}

extern "C" {
    fn plungerowl_open(
        k: u64, declared: u64, desk: *mut u8, desk_len: usize, sheet: *mut u8, sheet_len: usize, seen: *mut u8, seen_len: usize,
        history: *mut u8, history_len: usize,
    ) -> u8;
    fn plungerowl_step(
        desk: *mut u8, desk_len: usize, sheet: *mut u8, sheet_len: usize, seen: *mut u8, seen_len: usize,
        history: *mut u8, history_len: usize, slip: *mut u8, slip_len: usize, record: *const u8, record_len: usize,
    ) -> u8;
    fn plungerowl_ask(
        desk: *const u8, desk_len: usize, sheet: *const u8, sheet_len: usize, seen: *const u8, seen_len: usize,
        class: u64, word: *mut u64, count: *mut u32,
    ) -> u8;
    fn plungerowl_feed_start(feed: *mut u8, feed_len: usize) -> u8;
    fn plungerowl_feed(
        feed: *mut u8, feed_len: usize, desk: *mut u8, desk_len: usize, sheet: *mut u8, sheet_len: usize,
        seen: *mut u8, seen_len: usize, history: *mut u8, history_len: usize, slip: *mut u8, slip_len: usize,
        piece: *const u8, piece_len: usize, record: *mut u64,
    ) -> u8;
    fn plungerowl_feed_end(
        feed: *mut u8, feed_len: usize, desk: *mut u8, desk_len: usize, sheet: *mut u8, sheet_len: usize,
        seen: *mut u8, seen_len: usize, history: *mut u8, history_len: usize, slip: *mut u8, slip_len: usize,
        record: *mut u64,
    ) -> u8;
    fn plungerowl_balance(piece: *const u8, piece_len: usize, balances: *mut i32) -> u8;
    fn plungerowl_join(
        desk1: *const u8, desk1_len: usize, sheet1: *const u8, sheet1_len: usize, seen1: *const u8, seen1_len: usize,
        desk2: *const u8, desk2_len: usize, sheet2: *const u8, sheet2_len: usize, seen2: *const u8, seen2_len: usize,
        desk: *mut u8, desk_len: usize, sheet: *mut u8, sheet_len: usize, seen: *mut u8, seen_len: usize,
        slip: *mut u8, slip_len: usize,
    ) -> u8;

    // From the C library that std links anyway.
    fn mmap(at: *mut u8, len: usize, prot: i32, flags: i32, fd: i32, offset: i64) -> *mut u8;
    fn mprotect(at: *mut u8, len: usize, prot: i32) -> i32;
}

pub mod library {
    pub fn open(k: u64, declared: u64, desk: &mut [u8], sheet: &mut [u8], seen: &mut [u8], history: &mut [u8]) -> u8 {
        unsafe {
            super::plungerowl_open(
                k, declared, desk.as_mut_ptr(), desk.len(), sheet.as_mut_ptr(), sheet.len(), seen.as_mut_ptr(), seen.len(),
                history.as_mut_ptr(), history.len(),
            )
        }
    }
    #[inline(never)]
    pub fn step(
        desk: &mut [u8], sheet: &mut [u8], seen: &mut [u8], history: &mut [u8], slip: &mut [u8], record: &[u8],
    ) -> u8 {
        unsafe {
            super::plungerowl_step(
                desk.as_mut_ptr(), desk.len(), sheet.as_mut_ptr(), sheet.len(), seen.as_mut_ptr(), seen.len(),
                history.as_mut_ptr(), history.len(), slip.as_mut_ptr(), slip.len(), record.as_ptr(), record.len(),
            )
        }
    }
    #[inline(never)]
    pub fn ask(desk: &[u8], sheet: &[u8], seen: &[u8], class: u64, word: &mut u64, count: &mut u32) -> u8 {
        unsafe {
            super::plungerowl_ask(
                desk.as_ptr(), desk.len(), sheet.as_ptr(), sheet.len(), seen.as_ptr(), seen.len(), class, word, count,
            )
        }
    }
    pub fn feed_start(feed: &mut [u8]) -> u8 {
        unsafe { super::plungerowl_feed_start(feed.as_mut_ptr(), feed.len()) }
    }
    #[allow(clippy::too_many_arguments)]
    #[inline(never)]
    pub fn feed(
        feed: &mut [u8], desk: &mut [u8], sheet: &mut [u8], seen: &mut [u8], history: &mut [u8], slip: &mut [u8],
        piece: &[u8], record: &mut u64,
    ) -> u8 {
        unsafe {
            super::plungerowl_feed(
                feed.as_mut_ptr(), feed.len(), desk.as_mut_ptr(), desk.len(), sheet.as_mut_ptr(), sheet.len(),
                seen.as_mut_ptr(), seen.len(), history.as_mut_ptr(), history.len(), slip.as_mut_ptr(), slip.len(),
                piece.as_ptr(), piece.len(), record,
            )
        }
    }
    #[inline(never)]
    pub fn feed_end(
        feed: &mut [u8], desk: &mut [u8], sheet: &mut [u8], seen: &mut [u8], history: &mut [u8], slip: &mut [u8],
        record: &mut u64,
    ) -> u8 {
        unsafe {
            super::plungerowl_feed_end(
                feed.as_mut_ptr(), feed.len(), desk.as_mut_ptr(), desk.len(), sheet.as_mut_ptr(), sheet.len(),
                seen.as_mut_ptr(), seen.len(), history.as_mut_ptr(), history.len(), slip.as_mut_ptr(), slip.len(), record,
            )
        }
    }
    #[inline(never)]
    pub fn balance(piece: &[u8], balances: &mut [i32; 64]) -> u8 {
        unsafe { super::plungerowl_balance(piece.as_ptr(), piece.len(), balances.as_mut_ptr()) }
    }
    #[allow(clippy::too_many_arguments)]
    #[inline(never)]
    pub fn join(
        desk1: &[u8], sheet1: &[u8], seen1: &[u8], desk2: &[u8], sheet2: &[u8], seen2: &[u8],
        desk: &mut [u8], sheet: &mut [u8], seen: &mut [u8], slip: &mut [u8],
    ) -> u8 {
        unsafe {
            super::plungerowl_join(
                desk1.as_ptr(), desk1.len(), sheet1.as_ptr(), sheet1.len(), seen1.as_ptr(), seen1.len(),
                desk2.as_ptr(), desk2.len(), sheet2.as_ptr(), sheet2.len(), seen2.as_ptr(), seen2.len(),
                desk.as_mut_ptr(), desk.len(), sheet.as_mut_ptr(), sheet.len(), seen.as_mut_ptr(), seen.len(),
                slip.as_mut_ptr(), slip.len(),
            )
        }
    }
}

/// For the longest piece too.
const ROOM: usize = 1 << 18;

/// Memory whose end borders on an unreadable page.
struct Edge {
    end: *mut u8,
}

impl Edge {
    fn new() -> Edge {
        unsafe {
            // PROT_READ | PROT_WRITE; MAP_PRIVATE | MAP_ANONYMOUS
            let base = mmap(std::ptr::null_mut(), ROOM + 4096, 3, 0x22, -1, 0);
            assert!(base as isize != -1 && !base.is_null(), "mmap failed");
            assert!(mprotect(base.add(ROOM), 4096, 0) == 0, "mprotect failed");
            Edge { end: base.add(ROOM) }
        }
    }
    #[allow(clippy::mut_from_ref)]
    fn copy(&mut self, bytes: &[u8]) -> &mut [u8] {
        assert!(bytes.len() <= ROOM);
        // Within the mapped room; nobody else refers to it while &mut self lives.
        let slice = unsafe { std::slice::from_raw_parts_mut(self.end.sub(bytes.len()), bytes.len()) };
        slice.copy_from_slice(bytes);
        slice
    }
    fn copy_numbers(&mut self, numbers: &[i32; 64]) -> &mut [i32; 64] {
        // Likewise; the end is that of a page, so they are aligned.
        let array = unsafe { &mut *self.end.cast::<[i32; 64]>().sub(1) };
        *array = *numbers;
        array
    }
}

pub enum Subject {
    Library(Box<Edges>),
    Planted(Judge),
}

pub struct Edges {
    edges: [Edge; 10],
    calls: u64,
}

/// Every eighth call is made at the edge.
const EACH: u64 = 8;

impl Edges {
    fn turn(&mut self) -> bool {
        self.calls += 1;
        self.calls % EACH == 0
    }
    pub fn edge_calls(&self) -> u64 {
        self.calls / EACH
    }
}

impl Subject {
    pub fn library() -> Subject {
        let edges = std::array::from_fn(|_| Edge::new());
        Subject::Library(Box::new(Edges { edges, calls: 0 }))
    }

    pub fn open(
        &mut self, k: u64, declared: u64, desk: &mut [u8], sheet: &mut [u8], seen: &mut [u8], history: &mut [u8],
    ) -> u8 {
        match self {
            Subject::Planted(judge) => (judge.open)(k, declared, desk, sheet, seen, history),
            Subject::Library(e) => {
                if !e.turn() {
                    return library::open(k, declared, desk, sheet, seen, history);
                }
                let [a, b, c, f, ..] = &mut e.edges;
                let (d, s, n, h) = (a.copy(desk), b.copy(sheet), c.copy(seen), f.copy(history));
                let answer = library::open(k, declared, d, s, n, h);
                desk.copy_from_slice(d);
                sheet.copy_from_slice(s);
                seen.copy_from_slice(n);
                history.copy_from_slice(h);
                answer
            }
        }
    }

    pub fn step(
        &mut self, desk: &mut [u8], sheet: &mut [u8], seen: &mut [u8], history: &mut [u8], slip: &mut [u8], record: &[u8],
    ) -> u8 {
        match self {
            Subject::Planted(judge) => (judge.step)(desk, sheet, seen, history, slip, record),
            Subject::Library(e) => {
                if !e.turn() {
                    return library::step(desk, sheet, seen, history, slip, record);
                }
                let [a, b, c, f, g, i, ..] = &mut e.edges;
                let (d, s, n, h) = (a.copy(desk), b.copy(sheet), c.copy(seen), i.copy(history));
                let (l, r) = (f.copy(slip), g.copy(record));
                let answer = library::step(d, s, n, h, l, r);
                desk.copy_from_slice(d);
                sheet.copy_from_slice(s);
                seen.copy_from_slice(n);
                history.copy_from_slice(h);
                slip.copy_from_slice(l);
                assert_eq!(r, record, "the record was changed");
                answer
            }
        }
    }

    pub fn ask(
        &mut self, desk: &[u8], sheet: &[u8], seen: &[u8], class: u64, word: &mut u64, count: &mut u32,
    ) -> u8 {
        match self {
            Subject::Planted(judge) => (judge.ask)(desk, sheet, seen, class, word, count),
            Subject::Library(e) => {
                if !e.turn() {
                    return library::ask(desk, sheet, seen, class, word, count);
                }
                let [a, b, c, ..] = &mut e.edges;
                let (d, s, n) = (a.copy(desk), b.copy(sheet), c.copy(seen));
                let answer = library::ask(d, s, n, class, word, count);
                assert!(d == desk && s == sheet && n == seen, "a question changed its buffers");
                answer
            }
        }
    }

    pub fn feed_start(&mut self, feed: &mut [u8]) -> u8 {
        match self {
            Subject::Planted(judge) => (judge.feed_start)(feed),
            Subject::Library(e) => {
                if !e.turn() {
                    return library::feed_start(feed);
                }
                let f = e.edges[0].copy(feed);
                let answer = library::feed_start(f);
                feed.copy_from_slice(f);
                answer
            }
        }
    }

    #[allow(clippy::too_many_arguments)]
    pub fn feed(
        &mut self, feed: &mut [u8], desk: &mut [u8], sheet: &mut [u8], seen: &mut [u8], history: &mut [u8], slip: &mut [u8],
        piece: &[u8], record: &mut u64,
    ) -> u8 {
        match self {
            Subject::Planted(judge) => (judge.feed)(feed, desk, sheet, seen, history, slip, piece, record),
            Subject::Library(e) => {
                if !e.turn() {
                    return library::feed(feed, desk, sheet, seen, history, slip, piece, record);
                }
                let [a, b, c, d, g, h, i, ..] = &mut e.edges;
                let (f, d, s, n) = (a.copy(feed), b.copy(desk), c.copy(sheet), d.copy(seen));
                let (l, p, h) = (g.copy(slip), h.copy(piece), i.copy(history));
                let answer = library::feed(f, d, s, n, h, l, p, record);
                feed.copy_from_slice(f);
                desk.copy_from_slice(d);
                sheet.copy_from_slice(s);
                seen.copy_from_slice(n);
                history.copy_from_slice(h);
                slip.copy_from_slice(l);
                assert!(p == piece, "the piece was changed");
                answer
            }
        }
    }

    pub fn feed_end(
        &mut self, feed: &mut [u8], desk: &mut [u8], sheet: &mut [u8], seen: &mut [u8], history: &mut [u8], slip: &mut [u8],
        record: &mut u64,
    ) -> u8 {
        match self {
            Subject::Planted(judge) => (judge.feed_end)(feed, desk, sheet, seen, history, slip, record),
            Subject::Library(e) => {
                if !e.turn() {
                    return library::feed_end(feed, desk, sheet, seen, history, slip, record);
                }
                let [a, b, c, d, g, i, ..] = &mut e.edges;
                let (f, d, s, n) = (a.copy(feed), b.copy(desk), c.copy(sheet), d.copy(seen));
                let (l, h) = (g.copy(slip), i.copy(history));
                let answer = library::feed_end(f, d, s, n, h, l, record);
                feed.copy_from_slice(f);
                desk.copy_from_slice(d);
                sheet.copy_from_slice(s);
                seen.copy_from_slice(n);
                history.copy_from_slice(h);
                slip.copy_from_slice(l);
                answer
            }
        }
    }

    pub fn balance(&mut self, piece: &[u8], balances: &mut [i32; 64]) -> u8 {
        match self {
            Subject::Planted(judge) => (judge.balance)(piece, balances),
            Subject::Library(e) => {
                if !e.turn() {
                    return library::balance(piece, balances);
                }
                let [a, b, ..] = &mut e.edges;
                let (p, n) = (a.copy(piece), b.copy_numbers(balances));
                let answer = library::balance(p, n);
                *balances = *n;
                assert!(p == piece, "the piece was changed");
                answer
            }
        }
    }

    pub fn join(
        &mut self, first: Lent, second: Lent, desk: &mut [u8], sheet: &mut [u8], seen: &mut [u8], slip: &mut [u8],
    ) -> u8 {
        match self {
            Subject::Planted(judge) => judge.join_of(first, second, [desk, sheet, seen, slip]),
            Subject::Library(e) => {
                let join = |[d1, s1, n1]: Lent, [d2, s2, n2]: Lent, [d, s, n, l]: [&mut [u8]; 4]| {
                    library::join(d1, s1, n1, d2, s2, n2, d, s, n, l)
                };
                if !e.turn() {
                    return join(first, second, [desk, sheet, seen, slip]);
                }
                let [a, b, c, a2, b2, c2, d, s, n, l] = &mut e.edges;
                let one = [a.copy(first[0]), b.copy(first[1]), c.copy(first[2])];
                let two = [a2.copy(second[0]), b2.copy(second[1]), c2.copy(second[2])];
                let (d, s, n, l) = (d.copy(desk), s.copy(sheet), n.copy(seen), l.copy(slip));
                let answer = join(one.each_ref().map(|b| &**b), two.each_ref().map(|b| &**b), [d, s, n, l]);
                desk.copy_from_slice(d);
                sheet.copy_from_slice(s);
                seen.copy_from_slice(n);
                slip.copy_from_slice(l);
                assert!(one == first && two == second, "a join changed its benches");
                answer
            }
        }
    }
}
