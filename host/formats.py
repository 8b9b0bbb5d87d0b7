"""What host/test_formats, host/test_feed_formats and host/test_join_formats share: the page that they read, the library, and the sizes and places of desk, sheets, history and slip.

The arguments are theirs: PATH/SHARED_LIBRARY [PAGE [--first]]. What the page says is read from it and tried: every cell that says what a record or a byte
does. --first: stop at what is wrong first."""
import ctypes, re, sys
from pathlib import Path

root = Path(__file__).resolve().parent.parent
library = ctypes.CDLL(str(Path(sys.argv[1]).resolve()))
header_text = (root / "include/plungerowl.h").read_text(encoding="utf-8")
header = {name.replace("_", " ").lower(): int(value) for name, value in re.findall(r"PLUNGEROWL_(\w+) = (\d+)", header_text)}
header_answers = {int(value) for value in re.findall(r" = (\d+)", re.search(r"enum plungerowl_answer \{(.*?)\n\};", header_text, re.DOTALL)[1])}
page = (Path(sys.argv[2]) if len(sys.argv) > 2 else root / "docs/FORMATS.md").read_text(encoding="utf-8")
read_others = globals().get("read_others")  # host/planted_pages sets it before
for call in "open", "step", "ask", "feed_start", "feed", "feed_end", "balance", "join":
    getattr(library, f"plungerowl_{call}").restype = ctypes.c_uint8
checks = wrong = 0
FILL = 0xEE


def check(what, is_, want):
    global checks, wrong
    checks += 1
    if is_ != want:
        wrong += 1
        print(f"wrong: {what}: the page has {want}, it is {is_}")
        if "--first" in sys.argv:
            sys.exit(1)


def of_page(reading):
    """What a reading, a function of the page's text, gives. Everything that is read of the page is read so: host/planted_pages reads it of its pages too."""
    return reading(page) if read_others is None else read_others(reading)


def tables(head):
    """The rows of each table whose head begins so, as lists of cells."""
    def reading(page):
        found = []
        for start in re.finditer(re.escape("\n" + head), page):
            lines = page[start.start() + 1:].split("\n")[2:]
            rows = lines[:next(i for i, line in enumerate(lines) if not line.startswith("|"))]
            found.append([[cell.strip() for cell in row.strip("|").split("|")] for row in rows])
        return found

    return iter(of_page(reading))


def searched(pattern, flags=0):
    """The first place where the pattern is: all of it, and its groups; None if there is none."""
    def reading(page):
        match = re.search(pattern, page, flags)
        return match and [match[0], *match.groups()]

    return of_page(reading)


def all_of(pattern, flags=0):
    return of_page(lambda page: re.findall(pattern, page, flags))


def has(text):
    return of_page(lambda page: text in page)


def table(head, count):
    found = list(tables(head))
    check(f"tables under {head}", 1, len(found))
    check(f"rows under {head}", count, len(found[0]))
    return found[0]


def heads(head):
    """The heads of the columns of the table whose head begins so."""
    return of_page(lambda page: [cell.strip() for cell in page[page.index("\n" + head) + 1:].split("\n")[0].strip("|").split("|")])


def said(pattern, as_=lambda group: int(group) if group.isdigit() else group):
    """The groups of the sentence, which the page has once, whatever is between its words."""
    found = all_of(pattern.replace(" ", r"\s+"))
    if len(found) != 1:
        sys.exit(f"wrong: the page has {len(found)} times: {pattern}")
    groups = found[0] if isinstance(found[0], tuple) else (found[0],)
    return [as_(group) for group in groups]


def numbers(text):
    return list(map(int, re.findall(r"\d+", text)))


def octets(text):
    return list(bytes.fromhex(text.replace(" ", "")))


def slices(*buffers):
    return [x for b in buffers for x in (b, ctypes.c_size_t(len(b)))]


class Buffers:
    """Buffers of the given sizes, or of those that the page has for K; opened with the declared word."""

    def __init__(self, k=8, desk=None, sheet=None, seen=None, slip=None, history=None, declared=0):
        sizes = (DESK if desk is None else desk, k * k if sheet is None else sheet, NUMBER * k * k if seen is None else seen,
                 HISTORY if history is None else history, SLIP[0] + SLIP[1] * k if slip is None else slip)
        self.k = k
        self.desk, self.sheet, self.seen, self.history, self.slip = ((ctypes.c_uint8 * n).from_buffer_copy(bytes([FILL]) * n) for n in sizes)
        self.opened = self.open(k, declared)

    def open(self, k, declared=0):
        return library.plungerowl_open(ctypes.c_uint64(k), ctypes.c_uint64(declared), *self.bench(), *slices(self.history))

    def bench(self):
        return slices(self.desk, self.sheet, self.seen)

    def lent(self):
        return slices(self.desk, self.sheet, self.seen, self.history, self.slip)

    def step(self, record):
        return library.plungerowl_step(*self.lent(), bytes(record), ctypes.c_size_t(len(record)))

    def steps(self, *records):
        return [self.step(r) for r in records]

    def ask(self, class_):
        word, count = ctypes.c_uint64(), ctypes.c_uint32()
        answer = library.plungerowl_ask(*self.bench(), ctypes.c_uint64(class_), ctypes.byref(word), ctypes.byref(count))
        return answer, word.value, count.value

    def copy(self):
        return [list(self.desk), list(self.sheet), list(self.seen), list(self.history), list(self.slip)]

    def count(self):
        return low_first(self.desk[count_at:count_at + NUMBER])

    def put_count(self, count):
        self.desk[count_at:count_at + NUMBER] = count.to_bytes(NUMBER, "little")

    def number(self, from_, to):
        return low_first(self.seen[NUMBER * (from_ * self.k + to):][:NUMBER])

    def put_number(self, from_, to, number):
        self.seen[NUMBER * (from_ * self.k + to):NUMBER * (from_ * self.k + to + 1)] = number.to_bytes(NUMBER, "little")

    def draw(self, from_, to, kinds, number=1):
        """Lock dependencies from a class to another, with their number; the count stays."""
        self.sheet[from_ * self.k + to] |= kinds
        self.put_number(from_, to, number if self.sheet[from_ * self.k + to] else 0)

    def filled(self, fill=FILL):
        """All bytes as before any call."""
        for buffer in self.desk, self.sheet, self.seen, self.history, self.slip:
            ctypes.memset(buffer, fill, len(buffer))
        return self

    def put_word(self, at, word):
        self.desk[at:at + WORD] = word.to_bytes(WORD, "little")

    def word(self, at):
        return low_first(self.desk[at:at + WORD])

    def put_kept(self, kept, *entries):
        """The kept count, and the first entries of the history."""
        self.desk[kept_at:kept_at + NUMBER] = kept.to_bytes(NUMBER, "little")
        self.history[:2 * len(entries)] = [byte for entry in entries for byte in entry]

    def kept(self):
        return low_first(self.desk[kept_at:kept_at + NUMBER])

    def since(self, class_):
        return low_first(self.desk[since_at + since_step * class_:][:NUMBER])

    def join(self, one, two):
        """Two benches are joined into this one."""
        return library.plungerowl_join(*one.bench(), *two.bench(), *self.bench(), *slices(self.slip))


def low_first(octets):
    return int.from_bytes(bytes(octets), "little")


def record(kind, class_=0, mode=0, core=0):
    return [0x4C, 0x4B, core, kind, class_, mode]


ACQUIRE, RELEASE, HARD_ON, HARD_OFF, SOFT_ON, SOFT_OFF, ENTER_SOFT, EXIT_SOFT, ENTER_HARD, EXIT_HARD, CROSS, COMMIT, UNCROSS = range(13)
MODES, TRY = 6, 3

# ---- sizes and places

DESK, = said(r"\n(\d+) bytes: where every core stands")
NUMBER, = said(r"\n(\d+) x K x K bytes: the first-seen numbers\.")
SLIP = said(r"\n(\d+) \+ (\d+) K bytes, written with a fault")
HISTORY, = said(r"\n(\d+) bytes, lent beside the desk: the acquires that are")
WORD = 8
ROWS = [r"0", r"(\d+)", r"(\d+) \+ i", r"(\d+) \+ f", r"(\d+) \+ c", r"(\d+) \+ (\d+) f \+ p", r"(\d+) \+ \((\d+) f \+ p\) / 8, rounded down", *[r"(\d+) \+ i"] * 4,
        r"(\d+) \+ (\d+) c \+ i"]
rows = table("| byte | has |", len(ROWS))
_, (closed_at,), (states_at,), (depths_at,), (marks_at,), (held_at, depth), (origins_at, again), (count_at,), (declared_at,), (progress_at,), (kept_at,), (since_at, since_step) = (
    map(int, re.fullmatch(pattern, cells[0]).groups()) for pattern, cells in zip(ROWS, rows))
cores, classes, frames, last_state = 8, 64, 24, 8
MOST_KEPT, MOST_IN_PROGRESS = HISTORY // 2, 16
check("the numbers in the desk's rows", [[], [0, 1], [0, last_state], [0, depth], [classes], [0, depth - 1, 0, 0], [depth, 8, 0], [0, NUMBER - 1, 256],
                                         [0, WORD - 1, 256, 1], [0, WORD - 1, 1], [0, NUMBER - 1, 0, MOST_KEPT], [0, NUMBER - 1]],
      [numbers(has) for _, has in rows])
check("the names of the rows of crosslocks", ["declared word", "progress word", "kept count", "since number"],
      [re.search(r"declared word|progress word|kept count|since number", has)[0] for _, has in rows[-4:]])
check("the depth of the origin bits", depth, again)
picture = searched(r"\n    ( *0   1 .*)\n(?:.*\n){3}(.*)C: closed")
offsets = [0, closed_at, states_at, depths_at, marks_at, held_at, origins_at, count_at, declared_at, DESK]
check("the offsets in the desk's picture", offsets, numbers(picture[1]))
check("the sizes in the desk's picture", [b - a for a, b in zip(offsets, offsets[1:])],
      [numbers(part)[-1] for part in re.split(r"\s{3,}", picture[2].strip())])
check("the sums in the desk's picture", [(f"{frames} x {depth}", str(frames * depth)), (f"{frames * depth} / 8", str(frames * depth // 8))],
      re.findall(r"(\d+ [x/] \d+) = (\d+)", picture[2]))
more = searched(r"\n    ( *\d+ +\d+ +\d+ +\d+ +\d+ +\d+ +\d+)\n.*\n    \| declared word .*\n.*\n(.*)\n")
check("the offsets in the picture of crosslocks", [declared_at, progress_at, kept_at, since_at, since_at + NUMBER, DESK - NUMBER, DESK], numbers(more[1]))
check("the sizes in it", [WORD, WORD, NUMBER, NUMBER, classes, DESK - since_at], numbers(more[2]))
check("the since numbers", [since_step, since_at + since_step * classes], [NUMBER, DESK])
check("opening", [Buffers(desk=DESK).opened, Buffers(desk=DESK - 1).opened], [0, 2])
b = Buffers(64, desk=DESK + 9, sheet=64 * 64 + 9, seen=NUMBER * 64 * 64 + 9, history=HISTORY + 9, declared=0x8877665544332211)
at, others = said(r"the declared word to the 8 bytes from (\d+) on, 0 to the other (\d+) bytes of the desk")
check("the desk opened", list(b.desk), [64] + [0] * (at - 1) + [0x11 * i for i in range(1, 9)] + [0] * (others - at + 1) + [FILL] * 9)
check("the history opened", list(b.history), [0] * said(r"and 0 to the (\d+) bytes of the history")[0] + [FILL] * 9)
b = Buffers(desk=DESK + 9, sheet=64 + 9, seen=NUMBER * 64 + 9)
check("the sheet opened", list(b.sheet), [0] * 64 + [FILL] * 9)
check("the second sheet opened", list(b.seen), [0] * 64 * said(r"of the sheet, 0 to the (\d+) x K x K bytes of the second sheet")[0] + [FILL] * 9)
check("the slip's picture", [*range(1, 5), *range(1 + SLIP[1], 5 + SLIP[1]), 1 + 2 * SLIP[1], *SLIP * 2],
      said(r"\n    0 (\d+) (\d+) (\d+) (\d+) (\d+) (\d+) (\d+) (\d+) (\d+) (\d+) \+ (\d+)n (\d+) \+ (\d+)K\n"))
check("the slip's size", [Buffers(slip=SLIP[0] + SLIP[1] * 8 - n).step(record(HARD_ON)) for n in (0, 1)], [0, 11])
check("the sizes of a dependency and of a number", [SLIP[1], NUMBER], [3 + NUMBER, 4])
check("the same in words", ["seven", "four", NUMBER], said(r"Each dependency has (\w+) bytes: the class") + said(r"in the (\w+) bytes from (\d+) x \(from x K \+ to\) on"))
FULL, power = said(r"At (\d+) \(2 to the (\d+), less 1\) it is full")
check("a full count", [(1 << power) - 1, (1 << 8 * NUMBER) - 1], [FULL, FULL])
check("the limits", [classes, cores, cores - 1, depth, MOST_IN_PROGRESS, MOST_KEPT],
      said(r"K, the number of lock classes, is 1 to (\d+); (\d+) cores, 0 to (\d+); (\d+) held locks in a frame; (\d+) crosslocks in progress; (\d+) acquires in the history"))
check("the limits of the header", [int(re.search(rf"define PLUNGEROWL_{name} (\d+)", header_text)[1]) for name in
                                   ("MAX_CLASSES", "CORES", "MAX_DEPTH", "MAX_IN_PROGRESS", "MAX_KEPT")], [classes, cores, depth, MOST_IN_PROGRESS, MOST_KEPT])
check("the desk and the history of the header", re.findall(r"A desk has ([\d,]+) bytes, and a history (\d+):", header_text), [(f"{DESK:,}", str(HISTORY))])


def origin_place(frame, place):
    """The byte and the value of an origin bit, by the page's row."""
    return origins_at + (depth * frame + place) // 8, 1 << (depth * frame + place) % 8


*OLD_DESKS, on_old, least = said(r"A desk of an earlier version \((\d+), (\d+), (\d+) or (\d+) bytes\) is unfit in a buffer of its own length, and opening answers (\d+) there\. "
                                 r"In a buffer of (\d+) bytes or more it is read as it stands, by the places above:")
OLD_DEPTH = 20
old_origins_at = held_at + frames * OLD_DEPTH
old_count_at = old_origins_at + frames * OLD_DEPTH // 8
check("desks of earlier versions", [old_origins_at, old_count_at, old_count_at + NUMBER, declared_at, DESK], [*OLD_DESKS, least])
check("opening them", [Buffers(desk=n).opened for n in OLD_DESKS], [on_old] * len(OLD_DESKS))


# ---- records in words, and the cycles of a graph


def lock(text):
    """The class and the mode of an acquire, or of its release: 1R, try 1R."""
    tried, class_, letter = re.fullmatch(r"(try )?(\d)([ErR])", text).groups()
    return int(class_), "ErR".index(letter) + TRY * bool(tried)


def records_in(text):
    for part in text.split("; "):
        core, _, part = part.rpartition(": ")
        core = numbers(core)[-1] if "core" in core else 0
        for op in part.split(", "):
            if match := re.fullmatch(r"(release )?((?:try )?\d[ErR])", op):
                yield record(RELEASE if match[1] else ACQUIRE, *lock(match[2]), core)
            elif match := re.fullmatch(r"(cross|commit|release) (\d)", op):
                yield record({"cross": CROSS, "commit": COMMIT, "release": UNCROSS}[match[1]], int(match[2]), core=core)
            else:
                yield record(header[op], core=core)


kinds = dict(zip(*[iter(said(r"the lock dependencies seen from one class to the other, summed: (ER) (\d+), (EN) (\d+), (SR) (\d+), (SN) (\d+)\."))] * 2))
check("kinds in the slip", [x for k, v in kinds.items() for x in (v, k)], said(r"its kind \((\d+) (ER), (\d+) (EN), (\d+) (SR), (\d+) (SN)\)"))
KIND_BYTES = said(r"So kinds are compared as (\d), (\d), (\d), (\d) \(ER, EN, SR, SN\)")
check("the kinds as compared", [kinds[kind] for kind in ("ER", "EN", "SR", "SN")], KIND_BYTES)
ORDER = said(r"the one with the fewest dependencies, and among those the least when the slip is compared from left to right, without the first-seen numbers:"
             r"\n\n (n), (\w+), (\w+), (\w+), (\w+), (\w+), (\w+), and so on\n\n")
check("the order of a slip's bytes", ORDER, ["n", *["class", "kind", "source"] * 2])


def of_marks(marks, level):
    """The interrupt dependencies of a level."""
    unit = {"hard": 1, "soft": 16}[level]
    return {(i, first + second, j) for i, a in enumerate(marks) for j, b in enumerate(marks)
            for first, unsafe in (("E", 4), ("S", 8)) for second, safe in (("N", 1), ("R", 2)) if a & unit * unsafe and b & unit * safe}


def in_order(cycle):
    """What the page compares of a cycle of (class, kind byte, source byte)."""
    return [len(cycle)] + [dict(zip(("class", "kind", "source"), entry))[name] for entry in cycle for name in ORDER[1:4]]


def cycles(b):
    """Every cycle of what desk and sheet have, by the page's rules, the lowest class first."""
    leaving = [[(kind, 0, to) for to, byte in enumerate(b.sheet[from_ * b.k:from_ * b.k + b.k]) for kind in KIND_BYTES if byte & kind] for from_ in range(b.k)]
    for source, level in (1, "hard"), (2, "soft"):
        for from_, kind, to in of_marks(b.desk[marks_at:marks_at + b.k], level):
            leaving[from_].append((kinds[kind], source, to))

    def weak(kind, after):
        return kind in (kinds["ER"], kinds["SR"]) and after in (kinds["SR"], kinds["SN"])

    def longer(path, at):
        for kind, source, to in leaving[at]:
            if not (path and weak(path[-1][1], kind)):
                new = [*path, (at, kind, source)]
                if to == new[0][0] and not weak(kind, new[0][1]):
                    yield new
                elif to > new[0][0] and to not in [c for c, _, _ in new]:
                    yield from longer(new, to)

    for start in range(b.k):
        yield from longer([], start)


def in_state(state, core=0, k=8, declared=0):
    b = Buffers(k, declared=declared)
    b.desk[states_at + core] = state
    return b


def finish(name):
    print(f"{name}: {checks} checks of docs/FORMATS.md, {wrong} wrong")
    sys.exit(1 if wrong else 0)
