"""The logs that the tests of the program make: logs whose record of a chosen number decides, and random ones."""
import random, re
from pathlib import Path
from rules import *

BUFFER = int(re.search(r"const BUF_SIZE: usize = (\d+);", (Path(__file__).resolve().parents[2] / "crates/files/src/lib.rt").read_text(encoding="utf-8"))[1])  # the programs'
BOUNDARIES = [BUFFER, 2 * BUFFER, 3 * BUFFER]
FEW, BUSY_CORES, FREE_CORES = 8, range(2, 8), (0, 1)


def end_of(number, data=b""):
    """The offset behind a record of a log, or of any with the header of version 01."""
    return header_size(data) + RECORD * number


def record_at(offset, data=b""):
    """The number of the record that has the byte at an offset."""
    return (offset - header_size(data)) // RECORD + 1


# ---- logs whose record of a chosen number decides. The clean records before it leave FREE_CORES and the last class alone.

LAST = FEW - 1
BAD_RECORDS = {  # refused with 3
    "first byte": b"\x4D\x4B\x00\x00\x00\x00", "second byte": b"\x4C\x48\x00\x00\x00\x00", "core": record(8, ACQUIRE), "kind": record(0, CROSS_RELEASE + 1),
    "mode": record(0, ACQUIRE, 0, MODES), "mode and class": record(0, ACQUIRE, 255, MODES), "mode of a release": record(0, RELEASE, 0, MODES),
    "mode and class of a release": record(0, RELEASE, 255, MODES), "class of an event": record(0, HARD_ON, 1), "mode of an event": record(0, SOFT_OFF, 0, 1),
    "header again": header(1) + header(1)[:2], "mode of a crosslock": record(0, CROSS_ACQUIRE, 0, 1), "mode of a commit": record(0, COMMIT, 255, 1),
}

# By name: the records at the start, and those that end with the one that decides.
DECIDING = {
    "fault": ([record(0, ACQUIRE, 1), record(0, ACQUIRE, 2), record(0, RELEASE, 2), record(0, RELEASE, 1)],
              [record(1, ACQUIRE, 2), record(1, ACQUIRE, 1)]),
    "fault behind tries": ([record(0, ACQUIRE, 1, TRY), record(0, ACQUIRE, 2), record(0, RELEASE, 2), record(0, RELEASE, 1, TRY)],
                           [record(1, ACQUIRE, 2, TRY), record(1, ACQUIRE, 1, TRY), record(1, RELEASE, 1, TRY), record(1, ACQUIRE, 1)]),
    "fault in a handler": ([record(0, ACQUIRE, LAST), record(0, RELEASE, LAST)], [record(1, ENTER_HARD), record(1, ACQUIRE, LAST)]),
    "fault over a held try": ([record(0, ACQUIRE, LAST), record(0, RELEASE, LAST), record(1, ENTER_HARD), record(1, ACQUIRE, LAST, TRY + RECURSIVE_READ)],
                              [record(1, ACQUIRE, LAST, TRY), record(1, RELEASE, LAST, TRY), record(1, ACQUIRE, LAST, RECURSIVE_READ)]),
    "refused 4": ([], [record(0, ACQUIRE, FEW)]),
    "refused 4, try": ([], [record(0, ACQUIRE, FEW, TRY)]),
    "refused 4, release": ([], [record(0, RELEASE, FEW)]),
    "refused 5": ([record(1, ACQUIRE, LAST)], [record(0, RELEASE, LAST)]),
    "refused 5, mode": ([record(0, ACQUIRE, LAST, RECURSIVE_READ)], [record(0, RELEASE, LAST)]),
    "refused 5, older fits": ([record(0, ACQUIRE, LAST), record(0, ACQUIRE, LAST, TRY + READ)], [record(0, RELEASE, LAST)]),
    "refused 6": ([], [record(0, EXIT_HARD)]),
    "refused 7": ([record(0, ENTER_HARD)], [record(0, ACQUIRE, LAST), record(0, EXIT_HARD)]),
    "refused 8": ([], [record(0, ACQUIRE, LAST, RECURSIVE_READ)] * (DEPTH + 1)),
    "refused 8, try": ([], [record(0, ACQUIRE, LAST, TRY)] * (DEPTH + 1)),
} | {f"refused 3, {name}": ([], [bad]) for name, bad in BAD_RECORDS.items()}

# The same with crosslocks: a class more that the clean records leave alone, and behind it one crosslock, or seventeen. None is in progress while the clean
# records go on.
SPARE, CROSSLOCK = FEW, FEW + 1
CROSS_HEAD, WIDE_HEAD = header(CROSSLOCK + 1, 1 << CROSSLOCK), header(2 * FEW + 17, (1 << 17) - 1 << 2 * FEW)
WAITING = [record(0, HARD_OFF), record(0, SOFT_OFF), record(0, ACQUIRE, SPARE), record(0, CROSS_ACQUIRE, CROSSLOCK)]
FULL = [record(0, CROSS_ACQUIRE, CROSSLOCK)] + [record(0, ACQUIRE, SPARE), record(0, RELEASE, SPARE)] * KEPT
CROSS_DECIDING = {
    "fault by a commit": ([], [record(0, ACQUIRE, 1), record(0, CROSS_ACQUIRE, CROSSLOCK), record(1, ACQUIRE, 1), record(1, COMMIT, CROSSLOCK)]),
    "fault by a commit in a handler": ([record(1, ENTER_SOFT)], [*WAITING, record(1, ACQUIRE, SPARE), record(1, RELEASE, SPARE), record(1, ENTER_HARD),
                                                                 record(1, EXIT_HARD), record(1, COMMIT, CROSSLOCK)]),
    "refused 4, commit": ([], [record(0, COMMIT, CROSSLOCK + 1)]),
    "refused 15": ([], [record(0, ACQUIRE, CROSSLOCK, TRY)]),
    "refused 15, commit": ([], [record(0, COMMIT, SPARE)]),
    "refused 16": ([], [record(0, CROSS_ACQUIRE, CROSSLOCK), record(1, CROSS_ACQUIRE, CROSSLOCK)]),
    "refused 17": ([], [record(0, COMMIT, CROSSLOCK)]),
    "refused 18": ([], [record(0, CROSS_ACQUIRE, 2 * FEW + c) for c in range(17)]),
    "refused 19": ([], FULL + [record(1, ACQUIRE, SPARE)]),
}
DECIDING |= CROSS_DECIDING | {"refused 15, version 01": ([], [record(0, CROSS_ACQUIRE, 1)])}


def head_of(name):
    return WIDE_HEAD if name == "refused 18" else CROSS_HEAD if name in CROSS_DECIDING else header(FEW)


def held_for_a_time(core, locks, rng):
    """Locks (class, mode) acquired in this order and released in any, of each class the newest first."""
    made = [record(core, ACQUIRE, *lock) for lock in locks]
    left = list(locks)
    while left:
        lock_class = rng.choice(left)[0]
        made.append(record(core, RELEASE, *left.pop(max(i for i, (c, _) in enumerate(left) if c == lock_class))))
    return made


def clean_records(count, rng):
    """Records that are accepted and draw no dependency: on a busy core one lock at a time, or two, the second by a try, and events that leave the
    state as it is."""
    made = []
    while len(made) < count:
        core, lock_class, tried = rng.choice(BUSY_CORES), rng.randrange(LAST), rng.randrange(LAST)
        if len(made) + 3 < count and rng.random() < 0.3:
            made += held_for_a_time(core, [(lock_class, rng.randrange(MODES)), (tried, rng.randrange(TRY, MODES))], rng)
        elif len(made) + 1 < count and rng.random() < 0.7:
            made += held_for_a_time(core, [(lock_class, rng.randrange(MODES))], rng)
        else:
            made.append(record(core, rng.choice((HARD_ON, SOFT_ON))))
    return made


def deciding_log(name, number):
    """A log whose record of this number decides. Behind it stand others, the first of them refused with another number."""
    start, deciding = DECIDING[name]
    rng = random.Random(f"{name} {number}")
    after = DECIDING["refused 6" if name.startswith("refused 3") else "refused 3, core"][1] + clean_records(9, rng)
    return head_of(name) + b"".join(start + clean_records(number - len(start) - len(deciding), rng) + deciding + after)


def clean_log(number, loose=0, head=header(FEW)):
    """A clean log of so many records, and behind them the first bytes of one more."""
    rng = random.Random(f"clean {number}")
    return head + b"".join(clean_records(number, rng)) + record(0, ACQUIRE)[:loose]


def long_log(number):
    """A log with a fault at the last of very many records, a multiple of four: an acquire over a try, behind tries over an acquire."""
    acquire, by_try, release = record(0, ACQUIRE), record(0, ACQUIRE, 0, TRY), record(0, RELEASE)
    return header(1) + (acquire + by_try + record(0, RELEASE, 0, TRY) + release) * (number // 4 - 1) + acquire + release + by_try + acquire


def counted_log(number):
    """A clean log of very many records, the second of which draws a dependency; the last but one draws one of another pair, and the last meets its number."""
    drawn = record(0, ACQUIRE) + record(0, ACQUIRE, 1) + record(0, RELEASE, 1) + record(0, RELEASE)
    between = (record(0, ACQUIRE) + record(0, RELEASE)) * ((number - 7) // 2) + record(0, HARD_ON) * ((number - 7) % 2)
    return header(3) + drawn + between + record(0, ACQUIRE) + record(0, ACQUIRE, 2) + record(0, RELEASE, 2)


def divided_logs():
    """As decided_logs, of few records, and where one of them or the loose bytes begin: the last that matters, or one before it."""
    for name in ("fault", "refused 5", "refused 3, first byte", "refused 3, mode"):
        for back in (0, 2):
            yield f"{name} at record 9, record {9 - back} cut", deciding_log(name, 9), end_of(9), end_of(8 - back)
    for loose in range(RECORD):
        yield f"{loose} bytes behind record 3", clean_log(3, loose), None, end_of(3 if loose else 2)
    for name in ("fault by a commit", "refused 17"):
        yield f"{name} at record 9 cut", deciding_log(name, 9), end_of(9, CROSS_HEAD), end_of(8, CROSS_HEAD)
    for loose in (0, 1, 5):
        yield f"{loose} bytes behind record 3, version 02", clean_log(3, loose, CROSS_HEAD), None, end_of(3 if loose else 2, CROSS_HEAD)


def decided_logs(places, names):
    """(name, log, the offset from which nothing matters any more, or None where the end of the log matters). The places are those of the records that decide:
    (the offset of a byte of one, how many records behind that)."""
    for offset, by in places:
        for name in names:
            number = record_at(offset, head_of(name)) + by
            yield f"{name} at record {number}", deciding_log(name, number), end_of(number, head_of(name))
        for head in (header(FEW), CROSS_HEAD):
            number = record_at(offset, head) + by
            for loose in range(RECORD) if head != CROSS_HEAD else (0, 4):
                yield f"{loose} bytes behind record {number}{', version 02' * (head == CROSS_HEAD)}", clean_log(number, loose, head), None


# ---- records, byte by byte

def byte_logs(kind, at):
    """A clean record and then one of a kind, a release of its lock, or, of a crosslock's, behind two more, with every value of its byte at an offset."""
    good, head, before = record(0, kind, 0 if kind > RELEASE else 1, RECURSIVE_READ if kind == RELEASE else 0), header(FEW), b""
    if kind >= CROSS_ACQUIRE:
        good, head = record(0, kind, CROSSLOCK), CROSS_HEAD
        before = record(1, CROSS_ACQUIRE, CROSSLOCK) + (record(1, CROSS_RELEASE, CROSSLOCK) if kind == CROSS_ACQUIRE else record(0, ACQUIRE, 1))
    for byte in range(256):
        yield head + record(0, ACQUIRE, 1, RECURSIVE_READ if kind < CROSS_ACQUIRE else TRY) + before + good[:at] + bytes([byte]) + good[at + 1:]


def release_logs(mode):
    """A lock of a mode, and a release of its class in every mode: of the only lock, or of one under or over a lock of another class, or over one of its
    own, which would fit. Behind it the other is released."""
    for released in range(MODES):
        core, events = (mode + 3 * released) % CORES, ((), (ENTER_SOFT,), (ENTER_HARD,), (ENTER_SOFT, ENTER_HARD))[released % 4]
        for under, over in (([], []), ([], [(2, released)]), ([(2, released)], []), ([(1, released)], [])):
            made = [record(core, ACQUIRE, *lock) for lock in under + [(1, mode)] + over] + [record(core, RELEASE, 1, released)]
            made += [record(core, RELEASE, *lock) for lock in under + over]
            yield header(FEW) + b"".join(record(core, event) for event in events) + b"".join(made)


# ---- headers

def header_logs():
    """(name, log) with good, bad and short headers, with records and without."""
    good = header(FEW)
    for size in range(HEADER):
        yield f"a header of {size} bytes", good[:size]
    for at in range(HEADER):
        for byte in (0, good[at] + 1, 65, 255):
            if bytes([byte]) != good[at:at + 1] and not (at == 3 and byte == FEW + 1):
                yield f"byte {at} of the header {byte}", good[:at] + bytes([byte]) + good[at + 1:] + record(0, ACQUIRE)
    yield "a record for a header", record(0, ACQUIRE) * 3
    yield "64 classes", header(64) + record(0, ACQUIRE, 63)
    yield "a header only", good
    good = header(FEW, 1 << LAST)
    for size in range(HEADER, CROSS_HEADER):
        yield f"a header of version 02, {size} bytes", good[:size]
        yield f"a header of version 02 with a wrong first byte, {size} bytes", b"\x4D" + good[1:size]
    for at, byte in ((0, 0), (1, 0x4B), (2, 3), (3, 0), (3, LAST), (3, 65), (3, 255), *((at, 1 << at % 8) for at in range(HEADER + 1, CROSS_HEADER))):
        yield f"byte {at} of the header of version 02 {byte}", good[:at] + bytes([byte]) + good[at + 1:] + record(0, ACQUIRE)
    yield "version 02, the first byte of the word 255", header(FEW, 255) + record(0, CROSS_ACQUIRE)
    each = b"".join(record(0, kind, c) for c in range(64) for kind in (CROSS_ACQUIRE, CROSS_RELEASE))
    yield "version 02, 64 classes, all declared", header(64, (1 << 64) - 1) + each
    yield "version 02, none declared", header(FEW, 0) + record(0, ACQUIRE, LAST)
    yield "a header of version 02 only", good


# ---- random logs

SHORT, MIDDLE, LONG = (1, 30), (30, 200), (500, 3000)


class Walk:
    """A log made record by record. While orderly, it stays clean: the classes are ranked, first those for tasks, then those for soft handlers,
    then those for hard handlers, and every dependency goes up."""

    # By state: between which of the four limits of rank a lock may be held, and one that a try got, which has no safe mark.
    HELD_BETWEEN = [(0, 1), (0, 2), (0, 3), (0, 3), (1, 2), (1, 3), (2, 3), (2, 3), (2, 3)]
    TRIED_BETWEEN = [(0, 1), (0, 2), (0, 3), (0, 3), (0, 2), (0, 3), (0, 3), (0, 3), (0, 3)]

    def __init__(self, classes, rng, declared=0):
        """With crosslocks, if any are declared: they have ranks as the others do."""
        self.rng = rng
        self.machine = Machine(classes, declared)
        self.crosslocks = list(members(declared))
        self.records = []
        self.by_rank = rng.sample(range(classes), classes)
        self.rank = {c: i for i, c in enumerate(self.by_rank)}
        limits = sorted(rng.randrange(classes + 1) for _ in range(2))
        self.limits = [0, *limits, classes]
        cores = rng.sample(range(CORES), rng.randrange(2, CORES + 1))
        self.cores, self.free_core = cores[1:], cores[0]

    def put(self, rec):
        """Adds a record; whether it was accepted."""
        accepted = self.put_accepted(rec)
        if not accepted:
            self.records.append(rec)
        return accepted

    def put_accepted(self, rec):
        """Adds a record if it is accepted; whether it was."""
        if self.machine.refusal(rec):
            return False
        self.records.append(rec)
        self.machine.accept(rec)
        return True

    def ranks(self, state, is_try=False):
        low, high = (self.TRIED_BETWEEN if is_try else self.HELD_BETWEEN)[state]
        return range(self.limits[low], self.limits[high])

    def orderly_acquire(self, core):
        held, ranks = self.machine.held_now(core), self.ranks(self.machine.states[core])
        over = max((self.rank[c] for c, _, _ in held), default=-1)
        if over in ranks and self.rng.random() < 0.2 and all(m == RECURSIVE_READ for c, m, _ in held if self.rank[c] == over):
            return record(core, ACQUIRE, self.by_rank[over], RECURSIVE_READ)
        free = [r for r in ranks if r > over and self.by_rank[r] not in self.crosslocks]
        return free and record(core, ACQUIRE, self.by_rank[self.rng.choice(free[:5])], self.rng.randrange(TRY))

    def orderly_try(self, core):
        """Of any class that may be held, half of the time of a held one or one below it."""
        over = max((self.rank[c] for c, _, _ in self.machine.held_now(core)), default=-1)
        ranks = self.ranks(self.machine.states[core], True)
        ranks = [r for r in ranks if self.by_rank[r] not in self.crosslocks] if self.crosslocks else ranks
        low = [r for r in ranks if r <= over]
        ranks = low if low and self.rng.random() < 0.5 else ranks
        return ranks and record(core, ACQUIRE, self.by_rank[self.rng.choice(ranks)], self.rng.randrange(TRY, MODES))

    def orderly_cross(self, core):
        """A crosslock over all that is held here, or a commit of one that is below all that it leads to, or a release."""
        begun, which = list(self.machine.progress), self.rng.random()
        if not begun or which < 0.3:
            c = self.rng.choice(self.crosslocks)
            return all(self.rank[h] < self.rank[c] for h, _, _ in self.machine.held_now(core)) and record(core, CROSS_ACQUIRE, c)
        c = self.rng.choice(begun)
        if which < 0.75:
            return all(self.rank[c] < self.rank[to] for to, _ in self.machine.committed(core, c)) and record(core, COMMIT, c)
        return record(core, CROSS_RELEASE, c)

    def orderly_event(self, core):
        kind = self.rng.randrange(HARD_ON, EXIT_HARD + 1)
        state = NEXT[self.machine.states[core]][kind - HARD_ON]
        if state == "x":
            return None
        held = self.machine.held[core][FRAME[int(state)]]
        return all(self.rank[c] in self.ranks(int(state), is_try) for c, _, is_try in held) and record(core, kind)

    def any_record(self, core):
        kind = self.rng.choice((ACQUIRE, ACQUIRE, ACQUIRE, self.rng.randrange(HARD_ON, EXIT_HARD + 1)))
        if self.crosslocks and self.rng.random() < 0.3:
            return record(core, self.rng.choice((CROSS_ACQUIRE, COMMIT, COMMIT)), self.rng.choice(self.crosslocks))
        if kind > ACQUIRE:
            return record(core, kind)
        return record(core, ACQUIRE, self.rng.randrange(self.machine.classes), self.rng.randrange(MODES))

    def go(self, count, disorder=0.0):
        """Adds accepted records, each orderly or, with the probability given, any."""
        while count > 0:
            core, which = self.rng.choice(self.cores), self.rng.random()
            held = self.machine.held_now(core)
            if self.rng.random() < disorder:
                rec = self.any_record(core)
            elif self.crosslocks and self.rng.random() < 0.25:
                rec = self.orderly_cross(core)
            elif which < 0.3:
                rec = self.orderly_acquire(core)
            elif which < 0.45:
                rec = self.orderly_try(core)
            elif which < 0.75:
                rec = held and self.machine.release(core, self.rng.choice(held)[0])
            else:
                rec = self.orderly_event(core)
            if rec and self.put_accepted(rec):
                count -= 1

    def end_with_fault(self):
        """On a free core, the reverse of a dependency that is there, or a lock over itself. The first may be got by a try; of the second stands
        one before the acquire at times."""
        first, second = self.rng.choice(sorted((b, a) for a, _, b in self.machine.hold_dependencies) or [(0, 0)])
        self.put(record(self.free_core, ACQUIRE, first, self.rng.choice((EXCLUSIVE, TRY + EXCLUSIVE))))
        if self.rng.random() < 0.5:
            self.put(record(self.free_core, ACQUIRE, second, self.rng.randrange(TRY, MODES)))
            self.put(self.machine.release(self.free_core, second))
        self.put(record(self.free_core, ACQUIRE, second))

    def empty(self):
        """Releases all crosslocks."""
        for c in list(self.machine.progress):
            self.put(record(self.free_core, CROSS_RELEASE, c))

    def end_with_commit(self):
        """On a free core a crosslock over a lock, and then that lock before the commit; in a handler or not, with other visits of one before it."""
        locks = [c for c in self.by_rank if c not in self.crosslocks]
        if not locks:
            return
        lock, crosslock, core = self.rng.choice(locks), self.rng.choice(self.crosslocks), self.free_core
        if self.rng.random() < 0.5 or len(self.machine.history) > KEPT - 2:
            self.empty()
        for _ in range(self.rng.choice((0, 0, 1, 3))):
            self.put(record(core, ENTER_SOFT)), self.put(record(core, EXIT_SOFT))
        mode = self.rng.randrange(MODES)
        self.put(record(core, ACQUIRE, lock, mode))
        if crosslock in self.machine.progress:
            self.put(record(core, CROSS_RELEASE, crosslock))
        self.put(record(core, CROSS_ACQUIRE, crosslock))
        self.put(record(core, RELEASE, lock, mode))
        self.put(record(core, ACQUIRE, lock, self.rng.randrange(TRY)))
        self.put(record(self.rng.choice((core, core, core, *self.cores)), COMMIT, crosslock))

    def end_with_cross_refusal(self, number):
        """A record that is refused with 15 to 19, or where that cannot be brought about with 15."""
        rng, core, machine = self.rng, self.rng.choice(self.cores), self.machine
        locks = [c for c in self.by_rank if c not in self.crosslocks]
        begun, idle = list(machine.progress), [c for c in self.crosslocks if c not in machine.progress]
        if number == 16 and (begun or idle):
            self.put(record(core, CROSS_ACQUIRE, rng.choice(begun or idle)))
            self.put(record(rng.choice(self.cores), CROSS_ACQUIRE, rng.choice(list(machine.progress))))
        elif number == 17 and idle:
            self.put(record(core, rng.choice((COMMIT, CROSS_RELEASE)), rng.choice(idle)))
        elif number == 18 and len(self.crosslocks) > IN_PROGRESS:
            self.empty()
            for c in rng.sample(self.crosslocks, IN_PROGRESS + 1):
                self.put(record(rng.choice(self.cores), CROSS_ACQUIRE, c))
        elif number == 19 and locks:
            self.put(record(core, CROSS_ACQUIRE, rng.choice(self.crosslocks))) if not begun else None
            lock, mode, core = rng.choice(locks), rng.randrange(TRY), self.free_core
            while self.put(record(core, ACQUIRE, lock, mode)):
                self.put(record(core, RELEASE, lock, mode))
        elif locks and rng.random() < 0.5:
            self.put(record(core, rng.choice((CROSS_ACQUIRE, COMMIT, CROSS_RELEASE)), rng.choice(locks)))
        else:
            self.put(record(core, rng.choice((ACQUIRE, RELEASE)), rng.choice(self.crosslocks), rng.randrange(MODES)))
        self.records += [record(0, EXIT_HARD), record(9, ACQUIRE)][:rng.randrange(3)]

    def end_with_refusal(self, number):
        """A record that is refused with this number, where it can be brought about, and others behind it."""
        rng, core = self.rng, self.rng.choice(self.cores)
        state, held, classes = self.machine.states[core], self.machine.held_now(core), self.machine.classes
        if number == 3:
            bad_mode = record(core, rng.choice((ACQUIRE, RELEASE)), rng.randrange(256), rng.randrange(MODES, 256))
            self.put(rng.choice([*BAD_RECORDS.values(), bad_mode, record(0, ACQUIRE)[:rng.randrange(1, RECORD)]]))
        elif number == 4:
            kind = rng.choice((ACQUIRE, RELEASE))
            self.put(record(core, kind, rng.randrange(classes, 256), rng.randrange(MODES)))
        elif number == 5:
            if held and rng.random() < 0.3:
                self.put(record(core, ACQUIRE, rng.choice(held)[0], rng.randrange(TRY, MODES)))
            self.put(wrong_release(self.machine, core, rng))
        elif number == 6:
            self.put(record(core, rng.choice([HARD_ON + i for i, after in enumerate(NEXT[state]) if after == "x"])))
        elif number == 7:
            enter = rng.choice((ENTER_HARD, ENTER_SOFT))
            self.put(record(self.free_core, enter))
            self.put(record(self.free_core, ACQUIRE, self.by_rank[-1], rng.choice((RECURSIVE_READ, TRY + RECURSIVE_READ))))
            self.put(record(self.free_core, enter + 1))
        elif number == 8:
            lock_class = self.by_rank[rng.choice(self.ranks(0) or range(classes))]
            while self.put(record(self.free_core, ACQUIRE, lock_class, rng.choice((RECURSIVE_READ, TRY + READ, TRY + RECURSIVE_READ)))):
                pass
        if len(self.records[-1]) == RECORD:
            self.records += [record(0, EXIT_HARD), record(9, ACQUIRE)][:rng.randrange(3)]

    def log(self):
        return header(self.machine.classes, self.machine.declared or None) + b"".join(self.records)


def random_log(intent, i):
    """The i-th log of an intent: clean, fault, ring, handler, tie, churn, refused, and with crosslocks cross, cross fault, cross visits, cross refused. The
    classes go from 1 to 64 again and again."""
    rng = random.Random(f"{intent} {i}")
    classes = 1 + i % MAX_CLASSES
    count = rng.randrange(*rng.choices((SHORT, MIDDLE, LONG), (50, 38, 12))[0])
    if intent in ("ring", "tie"):
        return (ring_log if intent == "ring" else tie_log)(classes, rng)
    if intent in ("handler", "churn"):
        return (handler_log if intent == "handler" else churn_log)(max(classes, 2), rng)
    if intent == "cross visits":
        return visits_log(max(classes, 3), rng)
    walk = Walk(classes, rng, random_word(classes, rng) if intent.startswith("cross") else 0)
    walk.go(count, rng.choice((0, 0, 0.02, 0.2)) if intent.endswith("fault") else 0)
    if intent == "cross fault":
        walk.end_with_commit()
        walk.records += [record(0, EXIT_HARD)] * rng.randrange(2)
    elif intent == "cross refused":
        walk.end_with_cross_refusal(15 + rng.randrange(5))
    elif intent == "fault":
        walk.end_with_fault()
        walk.records += [record(0, EXIT_HARD)] * rng.randrange(2)
    elif intent == "refused":
        walk.end_with_refusal(3 + rng.randrange(6))
    return walk.log()


def random_word(classes, rng):
    """Some of the classes, seldom all of them."""
    share = rng.choice((0.1, 0.2, 0.3, 0.5, 0.8))
    return sum(1 << c for c in range(classes) if rng.random() < share) | 1 << rng.randrange(classes)


# By state the events of the cores in visits_log.
VISITS = [(ENTER_SOFT, ENTER_HARD, HARD_ON), (), (), (), (HARD_OFF, EXIT_SOFT, ENTER_HARD), (HARD_ON,), (EXIT_HARD,), (), (EXIT_HARD,)]


def visits_log(classes, rng):
    """A crosslock over a lock, and then handlers of two cores, again and again, that acquire it or others and commit. A lock that only handlers with hard off
    hold, and that was held with both off, closes no cycle but through the crosslock: the first commit in a visit that has acquired it is a fault."""
    lock, other, crosslock = rng.sample(range(classes), 3)
    machine, made = Machine(classes, 1 << crosslock), []
    first = [record(0, HARD_OFF), record(0, SOFT_OFF), record(0, ACQUIRE, lock), record(0, CROSS_ACQUIRE, crosslock)]

    def put(rec):
        made.append(rec)
        machine.accept(rec)

    for rec in first:
        put(rec)
    for _ in range(rng.randrange(1, 300)):
        core = rng.choice((1, 1, 2))
        held, state = machine.held_now(core), machine.states[core]
        taken = record(core, ACQUIRE, rng.choice((lock, other, other)), rng.choice((EXCLUSIVE, READ, RECURSIVE_READ, TRY)))
        to = [c for c, _ in machine.committed(core, crosslock)]
        events = [record(core, kind) for kind in VISITS[state]]
        some = [machine.release(core, held[-1][0])] if held else [*events, *[taken] * (state in (5, 6, 8))]
        some += [record(core, COMMIT, crosslock)] * (lock not in to or rng.random() < 0.1)
        rec = rng.choice(some)
        if not machine.refusal(rec) and not (rec[3] == ACQUIRE and machine.states[core] == 8 and rec[4] == lock):
            put(rec)
    return header(classes, 1 << crosslock) + b"".join(made)


def or_try(mode, rng):
    return mode + rng.choice((0, 0, TRY))


def wrong_release(machine, core, rng):
    """A release that is refused with 5: in the mode of a lock under the newest of its class, or in any other mode, or of a class that is not held."""
    held = machine.held_now(core)
    right = {c: machine.release(core, c) for c, _, _ in held}
    older = sorted({record(core, RELEASE, c, mode + TRY * is_try) for c, mode, is_try in held} - set(right.values()))
    other = [record(core, RELEASE, c, mode) for c in right for mode in range(MODES) if mode != right[c][5]]
    unheld = [record(core, RELEASE, c, rng.randrange(MODES)) for c in range(machine.classes) if c not in right]
    return rng.choice(rng.choice([some for some in (older, other, unheld) if some]))


def ring_log(classes, rng):
    """Dependencies that make one cycle, whose last one is drawn last. The first lock of each may be got by a try; of the second may stand one before
    its acquire."""
    ring = rng.sample(range(classes), rng.randrange(1, classes + 1))
    joints = [rng.choice(("NE", "NS", "RE")) for _ in ring]
    made = []
    for i in rng.sample(range(len(ring)), len(ring)):
        core, after = rng.randrange(CORES), (i + 1) % len(ring)
        held = EXCLUSIVE if joints[i][1] == "E" else rng.choice((READ, RECURSIVE_READ))
        taken = RECURSIVE_READ if joints[after][0] == "R" else rng.choice((EXCLUSIVE, READ))
        first, second, *releases = held_for_a_time(core, [(ring[i], or_try(held, rng)), (ring[after], taken)], rng)
        tried = held_for_a_time(core, [(ring[after], TRY + taken)], rng) if rng.random() < 0.3 else []
        made += [first, *tried, second, *releases]
    return header(classes) + b"".join(made)


def handler_log(classes, rng):
    """One cycle of an interrupt dependency of any kind and level and of one between held locks, which are drawn in any order. The unsafe mark is set
    in any state that does, at the acquire or later. What is held at the beginnings of the two may be got by a try; what they lead to, by one before
    its acquire."""
    outer, inner = rng.sample(range(classes), 2)
    one, two, three = rng.sample(range(CORES), 3)
    enter = rng.choice((ENTER_HARD, ENTER_SOFT))
    off = [record(three, HARD_OFF), record(three, SOFT_OFF)]
    before = [record(one, kind) for kind in rng.choice(((), (SOFT_OFF,), (ENTER_SOFT,)))] if enter == ENTER_HARD else []
    turned_off = HARD_OFF if enter == ENTER_HARD else SOFT_OFF
    late = rng.randrange(2)

    def held(core, lock_class, mode, *during):
        return [record(core, ACQUIRE, lock_class, mode), *during, record(core, RELEASE, lock_class, mode)]

    def tried_and_held(core, lock_class, mode):
        return held(core, lock_class, TRY + rng.randrange(TRY)) * rng.randrange(2) + held(core, lock_class, mode)

    parts = [[*before, *[record(one, turned_off)] * late, *held(one, outer, or_try(rng.randrange(TRY), rng), *[record(one, turned_off - 1)] * late)],
             [record(two, enter), *tried_and_held(two, inner, rng.randrange(TRY)), record(two, enter + 1)],
             [*off, *held(three, inner, or_try(EXCLUSIVE, rng), *tried_and_held(three, outer, EXCLUSIVE))]]
    return header(classes) + b"".join(rec for part in rng.sample(parts, 3) for rec in part)


def tie_log(classes, rng):
    """Several cycles that one record closes, many of them of one length. Before it, dependencies of several kinds go from each layer of classes to the
    next. It acquires the first class over others, of the last layer above all; or it makes the classes of the first layer unsafe, when those of the
    second are safe and some of the last lead to the first. A class that is safe is held with both interrupts off."""
    most = min(classes, rng.choice((2, 3, 4, 5, 6, 7, 8, 12, 24, 64)))
    free = rng.sample(range(classes), rng.randrange((most + 1) // 2, most + 1))
    by_mark = len(free) > 1 and rng.random() < 0.3
    layers = [[free.pop() for _ in range(2 if by_mark and len(free) > 2 and rng.random() < 0.5 else 1)]]
    while free:
        layers.append([free.pop() for _ in range(min(len(free), rng.randrange(1, 4)))])
    later = [c for layer in layers[1:] for c in layer]
    share = rng.choice((0, 0, 0.3, 0.6))
    safe = layers[1] if by_mark else [c for c in later if rng.random() < share]
    off = set(layers[0] + later if by_mark else safe)
    made = []

    def put(core, *events):
        made.extend(record(core, *(event if isinstance(event, tuple) else (event,))) for event in events)

    def some(modes):
        return rng.sample(modes, rng.randrange(1, len(modes) + 1))

    def one_by_one(lock_class, modes):
        return [(kind, lock_class, mode) for mode in modes for kind in (ACQUIRE, RELEASE)]

    def draw(a, b):
        core, is_off = rng.randrange(CORES), a in off or b in off
        put(core, *(HARD_OFF, SOFT_OFF) * is_off)
        for mode in some((EXCLUSIVE, rng.choice((READ, RECURSIVE_READ)))):
            taken = some((rng.choice((EXCLUSIVE, READ)), RECURSIVE_READ))
            held = or_try(mode, rng)
            put(core, (ACQUIRE, a, held), *one_by_one(b, taken), (RELEASE, a, held))
        put(core, *(SOFT_ON, HARD_ON) * is_off)

    for c in safe:
        for enter in some((ENTER_HARD, ENTER_SOFT)):
            core, is_soft = rng.randrange(CORES), enter == ENTER_SOFT
            taken = some((rng.choice((EXCLUSIVE, READ)), RECURSIVE_READ))
            put(core, enter, *[HARD_OFF] * is_soft, *one_by_one(c, taken), *[HARD_ON] * is_soft, enter + 1)
    pairs = [(a, b) for i in range(len(layers) - 1) for a in layers[i] for b in layers[i + 1] if not (by_mark and i == 0) and rng.random() < 0.9]
    pairs += [(a, b) for a in layers[-1] for b in layers[0] if by_mark and rng.random() < 0.9]
    for a, b in rng.sample(pairs, len(pairs)):
        draw(a, b)
    for mode in some(range(TRY)) if safe and not by_mark else ():
        put(rng.randrange(CORES), *one_by_one(layers[0][0], [or_try(mode, rng)]))
    core = rng.randrange(CORES)
    if by_mark:
        put(core, HARD_OFF, SOFT_OFF, *((ACQUIRE, c, or_try(rng.randrange(TRY), rng)) for c in layers[0]))
        put(core, *rng.choice(((HARD_ON, SOFT_ON), (SOFT_ON, HARD_ON), (SOFT_ON, HARD_ON))))
    else:
        over = layers[-1] + rng.sample(later, rng.randrange(min(len(later), 3) + 1)) if later else layers[0]
        put(core, *(HARD_OFF, SOFT_OFF) * (rng.random() < 0.5 or not off.isdisjoint(over)))
        put(core, *((ACQUIRE, c, TRY + mode) for c in over for mode in some(range(TRY))), (ACQUIRE, layers[0][0], rng.randrange(TRY)))
    return header(classes) + b"".join(made)


def churn_log(classes, rng):
    """Frames of all sorts and depths that change much, with tries at every place. The tried classes were acquired in a task, so a safe mark from
    any of their tries is a fault; the others are held for reading alone, got by recursive reads, which close no strong cycle. Half of the logs end with
    the acquire of a tried class, a fault in a handler, and some with a release that is refused."""
    machine, made = Machine(classes), []
    tried = rng.sample(range(classes), rng.randrange(1, min(classes, 6)))
    others = [c for c in range(classes) if c not in tried]
    cores = rng.sample(range(CORES), rng.randrange(1, 4))

    def put(rec):
        if not machine.refusal(rec):
            made.append(rec)
            machine.accept(rec)

    for c in tried:
        for rec in held_for_a_time(cores[0], [(c, or_try(EXCLUSIVE, rng))], rng):
            put(rec)
    for core in cores:
        for kind in rng.choice(((), (ENTER_SOFT,), (ENTER_SOFT, HARD_OFF), (ENTER_HARD,), (SOFT_OFF, ENTER_HARD), (ENTER_SOFT, ENTER_HARD))):
            put(record(core, kind))
    for _ in range(rng.randrange(*rng.choice((SHORT, MIDDLE, MIDDLE, LONG))) // 25 + 1):
        more = rng.choice((0.9, 0.6, 0.4, 0.1))
        for _ in range(25):
            core = rng.choice(cores)
            held = machine.held_now(core)
            if rng.random() < 0.05:
                put(record(core, rng.randrange(HARD_ON, EXIT_HARD + 1)))
            elif held and rng.random() > more:
                put(machine.release(core, rng.choice(held)[0]))
            elif rng.random() < 0.5:
                put(record(core, ACQUIRE, rng.choice(tried), rng.randrange(TRY, MODES)))
            else:
                put(record(core, ACQUIRE, rng.choice(others), rng.choice((RECURSIVE_READ, RECURSIVE_READ, TRY + READ, TRY + RECURSIVE_READ))))
    ends, core = rng.random(), rng.choice(cores)
    if ends < 0.5:
        put(record(core, ENTER_HARD))
        put(record(core, ACQUIRE, rng.choice(tried)))
    elif ends < 0.75:
        made.append(wrong_release(machine, core, rng))
    return header(classes) + b"".join(made)


def stray_log(seeds, i):
    """The i-th of files that are random bytes, or examples with bytes or modes changed, cut off or put in."""
    rng = random.Random(f"stray {i}")
    if i % 4 == 0:
        return rng.randbytes(rng.randrange(60))
    data = bytearray(rng.choice(seeds))
    for _ in range(rng.randrange(1, 4)):
        cut = rng.randrange(len(data) + 1)
        how = rng.randrange(4)
        if how == 0 and data:
            data[cut % len(data)] = rng.randrange(256)
        elif how == 1 and len(data) >= (size := header_size(data)) + RECORD:
            data[size - 1 + RECORD * rng.randrange(1, (len(data) - size) // RECORD + 1)] = rng.randrange(MODES + 1)
        elif how == 2:
            del data[cut:]
        else:
            other = rng.choice(seeds)
            data[cut:cut] = other[header_size(other):]
    return bytes(data)
