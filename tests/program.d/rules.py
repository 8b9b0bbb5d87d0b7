"""The rules of a lock log for the tests of the program and of the host: what a record is answered and changes, the dependencies that are drawn then,
what they reach, and the cycle that is shown. Of the program's faults the second program decides whether they are due."""
import re

ACQUIRE, RELEASE, HARD_ON, HARD_OFF, SOFT_ON, SOFT_OFF, ENTER_SOFT, EXIT_SOFT, ENTER_HARD, EXIT_HARD, CROSS_ACQUIRE, COMMIT, CROSS_RELEASE = range(13)
EXCLUSIVE, READ, RECURSIVE_READ = range(3)
TRY = 3  # added to one of these: a successful try
MODES = 2 * TRY  # of an acquire and of the release that ends it
HEADER, CROSS_HEADER, RECORD = 4, 12, 6  # sizes: of the header of version 01, of that of version 02, of a record
MAX_CLASSES, CORES, DEPTH = 64, 8, 48
IN_PROGRESS, KEPT = 16, 256  # the most

# A core's next state: a row a state, a column an event from HARD_ON on, x where it is refused.
NEXT = ["02014x6x", "1301xx7x", "0223xxxx", "1323xxxx", "45xxx08x", "45xxxxxx", "xxxxxxx0", "xxxxxxx1", "xxxxxxx4"]
TASK, SOFT, HARD = range(3)
KINDS, SOURCES = ("ER", "EN", "SR", "SN"), ("hold", "hard", "soft")  # in the order of the slip's bytes
FRAME = [TASK, TASK, TASK, TASK, SOFT, SOFT, HARD, HARD, HARD]


def header(classes, declared=None):
    """Of version 02 where a word is given, 0 too, in which bit c is 1 for a crosslock c."""
    return bytes([0x4C, 0x48, 1, classes]) if declared is None else bytes([0x4C, 0x48, 2, classes]) + declared.to_bytes(8, "little")


def header_size(data):
    """Of the header that a log begins with, as far as it is there: the third byte decides."""
    return CROSS_HEADER if data[2:3] == b"\2" else HEADER


def record(core, kind, lock_class=0, mode=0):
    return bytes([0x4C, 0x4B, core, kind, lock_class, mode])


def records_of(data):
    return [data[at:at + RECORD] for at in range(header_size(data), len(data), RECORD)]


def first_letter(mode):
    return "E" if mode == EXCLUSIVE else "S"


def second_letter(mode):
    return "R" if mode == RECURSIVE_READ else "N"


class Machine:
    """What a log tells of: the cores and the dependency graph, after some of its records."""

    def __init__(self, classes, declared=0):
        self.classes, self.declared = classes, declared
        self.progress = {}  # by crosslock in progress how many acquires were kept before it
        self.history = []  # (the visit, class, mode) of each acquire that is kept
        self.visits = {}  # by core and frame how often it was entered: a task's never is
        self.states = [0] * CORES
        self.held = [[[], [], []] for _ in range(CORES)]  # by core and frame: (class, mode below TRY, by a try), oldest first
        self.hold_dependencies = set()  # (class, kind, class) of the dependencies between held locks
        self.safe = set()  # usage marks: (level, class, letter)
        self.unsafe = set()

    def held_now(self, core):
        return self.held[core][FRAME[self.states[core]]]

    def visit(self, core):
        """What tells the current visit of a handler, or the task, from all others."""
        place = core, FRAME[self.states[core]]
        return *place, self.visits.get(place, 0)

    def committed(self, core, lock_class):
        """The (class, mode) of the acquires that a commit of a crosslock in progress draws dependencies to."""
        return [(c, mode) for visit, c, mode in self.history[self.progress[lock_class]:] if visit == self.visit(core)]

    def newest(self, core, lock_class):
        """The place of the newest held lock of the class in the current frame, or None."""
        held = self.held[core][FRAME[self.states[core]]]
        for place in range(len(held) - 1, -1, -1):
            if held[place][0] == lock_class:
                return place
        return None

    def release(self, core, lock_class):
        """The record that releases that lock, which is held."""
        _, mode, is_try = self.held_now(core)[self.newest(core, lock_class)]
        return record(core, RELEASE, lock_class, mode + TRY * is_try)

    def refusal(self, rec):
        """The number that refuses a record, or 0."""
        if len(rec) != RECORD or rec[0] != 0x4C or rec[1] != 0x4B:
            return 3
        _, _, core, kind, lock_class, mode = rec
        if core >= CORES or kind > CROSS_RELEASE or mode >= MODES:
            return 3
        is_event = HARD_ON <= kind <= EXIT_HARD
        if kind > RELEASE and mode or is_event and lock_class:
            return 3
        if lock_class >= self.classes:
            return 4
        if not is_event and (kind >= CROSS_ACQUIRE) != self.declared >> lock_class & 1:
            return 15
        held = self.held_now(core)
        if is_event:
            if NEXT[self.states[core]][kind - HARD_ON] == "x":
                return 6
            return 7 if kind in (EXIT_SOFT, EXIT_HARD) and held else 0
        if kind == RELEASE:
            newest = self.newest(core, lock_class)
            return 5 if newest is None or held[newest] != (lock_class, mode % TRY, mode >= TRY) else 0
        if kind == ACQUIRE and len(held) == DEPTH:
            return 8
        if kind == CROSS_ACQUIRE and lock_class in self.progress:
            return 16
        if kind in (COMMIT, CROSS_RELEASE) and lock_class not in self.progress:
            return 17
        if kind == CROSS_ACQUIRE and len(self.progress) == IN_PROGRESS:
            return 18
        if kind == ACQUIRE and mode < TRY and self.progress and len(self.history) == KEPT:
            return 19
        return 0

    def accept(self, rec):
        _, _, core, kind, lock_class, mode = rec
        held = self.held_now(core)
        if kind == ACQUIRE:
            is_try, mode = mode >= TRY, mode % TRY
            for older, older_mode, _ in held if not is_try else []:
                self.hold_dependencies.add((older, first_letter(older_mode) + second_letter(mode), lock_class))
            held.append((lock_class, mode, is_try))
            if self.progress and not is_try:
                self.history.append((self.visit(core), lock_class, mode))
        elif kind == RELEASE:
            del held[self.newest(core, lock_class)]
        elif kind == CROSS_ACQUIRE:
            self.hold_dependencies.update((older, first_letter(older_mode) + "N", lock_class) for older, older_mode, _ in held)
            self.progress[lock_class] = len(self.history)
        elif kind == COMMIT:
            self.hold_dependencies.update((lock_class, "E" + second_letter(m), c) for c, m in self.committed(core, lock_class))
        elif kind == CROSS_RELEASE:
            del self.progress[lock_class]
            if not self.progress:
                self.history = []
        else:
            self.states[core] = int(NEXT[self.states[core]][kind - HARD_ON])
            if kind in (ENTER_SOFT, ENTER_HARD):
                place = core, FRAME[self.states[core]]
                self.visits[place] = self.visits.get(place, 0) + 1
        state = self.states[core]
        if state in (2, 3):
            return
        for c, m, is_try in self.held_now(core):
            if state >= 4 and not is_try:
                self.safe.add(("hard" if state >= 6 else "soft", c, second_letter(m)))
            if state in (0, 1, 4):
                self.unsafe.add(("hard", c, first_letter(m)))
            if state == 0:
                self.unsafe.add(("soft", c, first_letter(m)))

    def has(self, lock_class, kind, to, source):
        if source == "hold":
            return (lock_class, kind, to) in self.hold_dependencies
        return (source, lock_class, kind[0]) in self.unsafe and (source, to, kind[1]) in self.safe

    def onward(self):
        """The classes where the dependencies of a class and kind end, as words."""
        to = {}
        for c, kind, d in self.hold_dependencies:
            to[c, kind] = to.get((c, kind), 0) | 1 << d
        for level, c, first in self.unsafe:
            for other, d, second in self.safe:
                if other == level:
                    to[c, first + second] = to.get((c, first + second), 0) | 1 << d
        return to

    def reach(self, lock_class, letter="N", to=None):
        """The classes that a strong path from the class ends at, by its last letter, as words; as after an arrival by the letter (N: any). `to`: what
        onward gives, for who asks more than once."""
        to = self.onward() if to is None else to
        reached, todo = {"R": 0, "N": 0}, [(lock_class, letter)]
        while todo:
            c, arrival = todo.pop()
            for kind in ("ER", "EN", "SR", "SN")[:4 if arrival == "N" else 2]:
                new = to.get((c, kind), 0) & ~reached[kind[1]]
                reached[kind[1]] |= new
                todo += [(d, kind[1]) for d in members(new)]
        return reached

    def is_cyclic(self):
        """Whether there is a closed strong path."""
        to = self.onward()
        return any(self.reach(c, letter, to)[letter] >> c & 1 for c in range(self.classes) for letter in "RN")

    def dependencies(self):
        """All dependencies by the class where they begin: (place of the kind, place of the source, class where it ends)."""
        leaving = {c: set() for c in range(self.classes)}
        for c, kind, d in self.hold_dependencies:
            leaving[c].add((KINDS.index(kind), 0, d))
        for level, c, first in self.unsafe:
            for other, d, second in self.safe:
                if other == level:
                    leaving[c].add((KINDS.index(first + second), SOURCES.index(level), d))
        return leaving

    def least_cycle(self, see=lambda what: None):
        """The cycle that is shown, as (class, kind, class, source), or None. An arrival is 2 * class + 1 by N, 2 * class by R; sets of them are words.
        What settled a choice between several is told to `see`."""
        leaving = {2 * c + by_n: [(kind, source, 2 * d + kind % 2) for kind, source, d in drawn if by_n or kind < 2]
                   for c, drawn in self.dependencies().items() for by_n in (0, 1)}
        onward = {a: sum({1 << b for _, _, b in drawn}) for a, drawn in leaving.items()}
        most, starts = self.classes, []
        for start in leaving:
            length = round_from(onward, start, most)
            if length and (length < most or not starts):
                most, starts = length, []
            if length and (not starts or start // 2 == starts[0] // 2):
                starts.append(start)
        if not starts:
            return None
        # One triple more each round, the least of those that go on from where the triples before may have led, for each start
        standing, cycle = [(start, start) for start in starts], []
        home = {start: leads_home(onward, start, most) for start in starts}
        for left in reversed(range(most)):
            choices = {}
            for start, at in standing:
                for kind, source, b in leaving[at]:
                    if home[start][left] >> b & 1:
                        choices.setdefault((at // 2, kind, source), set()).add((start, b))
            least, *others = sorted(choices)
            for other in others:
                part = next(part for part in range(3) if least[part] != other[part])
                below = min(b for _, b in choices[other]) // 2 < min(b for _, b in choices[least]) // 2
                see(("a class", "a kind", "a source")[part] + " before others" + " that go to a lower class" * below)
            standing = choices[least]
            cycle.append(least)
        ends = [c for c, _, _ in cycle[1:] + cycle[:1]]
        return [(c, KINDS[kind], end, SOURCES[source]) for (c, kind, source), end in zip(cycle, ends)]

    def wrong_cycle(self, cycle):
        """What is wrong with a cycle of (class, kind, class, source), or None."""
        classes = [entry[0] for entry in cycle]
        if not 1 <= len(cycle) <= self.classes:
            return f"a cycle of {len(cycle)}"
        if len(set(classes)) < len(classes):
            return "a class twice"
        if min(classes) != classes[0]:
            return "the lowest class is not the first"
        for entry, after in zip(cycle, cycle[1:] + cycle[:1]):
            if not self.has(*entry):
                return f"no such dependency: {entry}"
            if entry[2] != after[0]:
                return f"{entry} does not lead to {after}"
            if entry[1][1] == "R" and after[1][0] == "S":
                return f"not strong between {entry} and {after}"
        return None


def members(word):
    while word:
        yield (word & -word).bit_length() - 1
        word &= word - 1


def round_from(onward, start, most):
    """How many dependencies lead from an arrival back to it, the fewest; None where that takes more than `most`."""
    seen, wave = 0, 1 << start
    for length in range(1, most + 1):
        after = 0
        for a in members(wave):
            after |= onward[a]
        if after >> start & 1:
            return length
        wave = after & ~seen
        seen |= after
    return None


def leads_home(onward, start, most):
    """The arrivals from which exactly 0, 1, .. (fewer than `most`) dependencies lead to the start."""
    home = [1 << start]
    while len(home) < most:
        home.append(sum(1 << a for a, after in onward.items() if after & home[-1]))
    return home


NUMBER = rb"(0|[1-9][0-9]*)"
CLEAN = re.compile(rb"clean, " + NUMBER + rb" records")
REFUSED = re.compile(rb"refused " + NUMBER + rb" at record " + NUMBER)
FAULT = re.compile(rb"fault at record " + NUMBER)
ENTRY = re.compile(NUMBER + rb" (ER|EN|SR|SN) " + NUMBER + rb" (hold|hard|soft)")


def machine_of(data):
    """The machine that the header of a log opens, or None where it is refused."""
    size = header_size(data)
    if len(data) < size or data[:2] != b"LH" or data[2] not in (1, 2) or not 1 <= data[3] <= MAX_CLASSES:
        return None
    word = int.from_bytes(data[HEADER:size], "little")
    return None if word >> data[3] else Machine(data[3], word)


def is_header(data):
    return machine_of(data) is not None


def read_output(data, out, see=lambda machine, rec: None, see_tie=lambda what: None, see_refused=lambda machine, rec: None):
    """What an output says of a log: (word, number, cycle), the word clean, refused or fault, the number the refusal's. ValueError where it is not
    an output, or is untrue of the log by the rules (but for a fault that is not seen). Each record that is accepted is shown to `see` before, the one
    that is refused to `see_refused`, and what settled a choice between several cycles is told to `see_tie`."""
    lines = out.split(b"\n")
    if lines.pop() != b"":
        raise ValueError("no line end at the end")
    first, rest = (lines or [b""])[0], lines[1:]
    machine = machine_of(data)
    records = records_of(data) if machine else []

    def accepted(number):
        if not machine or number > len(records):
            raise ValueError("more records than the log has")
        for i, rec in enumerate(records[:number], 1):
            if machine.refusal(rec):
                raise ValueError(f"record {i} is to be refused with {machine.refusal(rec)}")
            see(machine, rec)
            machine.accept(rec)

    if match := FAULT.fullmatch(first):
        if match[1] == b"0":
            raise ValueError("a fault at the header")
        accepted(int(match[1]))
        entries = [ENTRY.fullmatch(line) for line in rest]
        if None in entries:
            raise ValueError(f"not a dependency: {rest[entries.index(None)]!r}")
        cycle = [(int(e[1]), e[2].decode(), int(e[3]), e[4].decode()) for e in entries]
        if wrong := machine.wrong_cycle(cycle):
            raise ValueError(wrong)
        if cycle != (least := machine.least_cycle(see_tie)):
            raise ValueError(f"the cycle to be shown is {least}")
        return "fault", 0, cycle
    if rest:
        raise ValueError("a line too many")
    if match := CLEAN.fullmatch(first):
        accepted(int(match[1]))
        if int(match[1]) != len(records):
            raise ValueError(f"the log has {len(records)} records")
        return "clean", 0, []
    if match := REFUSED.fullmatch(first):
        number, at = int(match[1]), int(match[2])
        if at == 0:
            if machine or number != 2:
                raise ValueError("the header is not refused so")
        else:
            accepted(at - 1)
            if at > len(records) or machine.refusal(records[at - 1]) != number:
                raise ValueError("the record is not refused so")
            see_refused(machine, records[at - 1])
        return "refused", number, []
    raise ValueError("not an output")


# ---- two logs

def joined(one, two):
    """Two benches of one number of classes and one declaration in one: the dependencies and the marks of either, fresh cores, and no crosslock in progress."""
    both = Machine(one.classes, one.declared)
    for part in ("hold_dependencies", "safe", "unsafe"):
        setattr(both, part, getattr(one, part) | getattr(two, part))
    return both


def bench_of(data):
    """The machine that a clean log leaves. ValueError where the log is not clean by itself."""
    machine = machine_of(data)
    if not machine:
        raise ValueError("its header is to be refused")
    for i, rec in enumerate(records_of(data), 1):
        if number := machine.refusal(rec):
            raise ValueError(f"its record {i} is to be refused with {number}")
        machine.accept(rec)
    if machine.is_cyclic():
        raise ValueError("it has a fault")
    return machine


OWN = re.compile(rb"^log ([12]): ", re.M)


def own_texts(out):
    """What an output of a join says of the logs by themselves: by their numbers, in their order."""
    before, *parts = OWN.split(out)
    numbers = [int(number) for number in parts[::2]]
    if before or numbers not in ([1], [2], [1, 2]):
        raise ValueError("not what two logs say by themselves")
    return dict(zip(numbers, parts[1::2]))


def cycle_text(cycle):
    return "".join("%d %s %d %s\n" % entry for entry in cycle).encode()


def read_join(pair, out, bench=bench_of):
    """What an output says of the join of two logs: (word, cycle, {}), or of the logs by themselves: ("own", [], by number (word, number, cycle) as
    read_output gives it). ValueError where it is not an output, or is untrue by the rules; but that a log's own fault is not due sooner is the
    second program's to say. bench: what gives the machine of a clean log."""
    if out.startswith(b"log "):
        texts = own_texts(out)
        own = {number: read_output(pair[number - 1], text) for number, text in texts.items()}
        for number, data in enumerate(pair, 1):
            if number not in own:
                bench(data)
            elif own[number][0] == "clean":
                raise ValueError(f"log {number} is clean, and that is not said")
        return "own", [], own
    one, two = map(bench, pair)
    alike = (one.classes, one.declared) == (two.classes, two.declared)
    cycle = joined(one, two).least_cycle() if alike else None
    due = b"refused 12\n" if not alike else b"fault\n" + cycle_text(cycle) if cycle else b"clean\n"
    if out != due:
        raise ValueError(f"the join says {due!r}")
    return due.split()[0].decode(), cycle or [], {}
