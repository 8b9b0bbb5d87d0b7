"""The pairs of logs that the tests of the join make: parts of a log that may close a cycle with those of another, at chosen records, and random pairs."""
import random
from itertools import chain, combinations
from logs import *

ONE, OTHER = FREE_CORES


def over(*locks, core=ONE):
    """Locks (class, mode) acquired in this order, and kept."""
    return [record(core, ACQUIRE, *lock) for lock in locks]


def within(kind, *locks, core=ONE):
    """The same behind an event, and nothing else on that core."""
    return [record(core, kind), *over(*locks, core=core)]


def off(*records, core=ONE):
    """Records behind a hard off and a soft off, so that what they hold gets no mark."""
    return [record(core, HARD_OFF), record(core, SOFT_OFF), *records]


LETTERS = {"E": (EXCLUSIVE,), "r": (READ,), "R": (RECURSIVE_READ,)}

# What a log may have that closes a cycle with another: by name the records, the last of which does it. The clean records around them mark the classes below
# LAST unsafe; LAST is theirs alone.
PARTS = {
    "nothing": [],
    "1 EN 2": over((1, EXCLUSIVE), (2, EXCLUSIVE)), "2 EN 1": over((2, EXCLUSIVE), (1, EXCLUSIVE)),
    "1 ER 2": over((1, EXCLUSIVE), (2, RECURSIVE_READ)), "2 ER 1": over((2, EXCLUSIVE), (1, RECURSIVE_READ)),
    "1 SN 2": over((1, RECURSIVE_READ), (2, READ)), "2 SN 1": over((2, READ), (1, EXCLUSIVE)),
    "1 SR 2": over((1, READ), (2, RECURSIVE_READ)), "2 SR 1": over((2, RECURSIVE_READ), (1, RECURSIVE_READ)),
    "a try of 2 over 1": over((1, EXCLUSIVE), (2, TRY + EXCLUSIVE)), "1 over a try of 2": over((2, TRY + EXCLUSIVE), (1, EXCLUSIVE)),
    "3 EN 1, 2 EN 4": over((3, EXCLUSIVE), (1, EXCLUSIVE)) + over((2, EXCLUSIVE), (4, EXCLUSIVE), core=OTHER), "4 EN 3": over((4, EXCLUSIVE), (3, EXCLUSIVE)),
    "4 EN 3, 4 ER 1": over((4, EXCLUSIVE), (3, EXCLUSIVE)) + over((4, EXCLUSIVE), (1, RECURSIVE_READ), core=OTHER),
    **{f"{LAST}{letter} in a task": over((LAST, *mode)) for letter, mode in LETTERS.items()},
    f"a try of {LAST}R in a task": over((LAST, TRY + RECURSIVE_READ)),
    **{f"{LAST}{letter} in a hard handler": within(ENTER_HARD, (LAST, *mode)) for letter, mode in LETTERS.items()},
    **{f"{LAST}{letter} in a soft handler": [record(ONE, ENTER_SOFT), *within(HARD_OFF, (LAST, *mode))] for letter, mode in LETTERS.items()},
    f"a try of {LAST}E in a hard handler": within(ENTER_HARD, (LAST, TRY + EXCLUSIVE)),
    f"{LAST}E in a soft handler with hard on": within(ENTER_SOFT, (LAST, EXCLUSIVE)),
    f"{LAST}E with soft off": within(SOFT_OFF, (LAST, EXCLUSIVE)), f"{LAST}E with both off": off(*over((LAST, EXCLUSIVE))),
    f"{LAST}E, then a hard on": off(*over((LAST, EXCLUSIVE)), record(ONE, HARD_ON)),
    f"{LAST}E, then hard and soft on": off(*over((LAST, EXCLUSIVE)), record(ONE, HARD_ON), record(ONE, SOFT_ON)),
    f"{LAST} EN 5 with both off": off(*over((LAST, EXCLUSIVE), (5, EXCLUSIVE))),
    f"{LAST} SN 5 with both off": off(*over((LAST, READ), (5, EXCLUSIVE))),
}

# The same of logs with a crosslock, which all but the first and the last two leave in progress: with clean records behind it the history may run full.
OVER_CROSSLOCK = [record(ONE, ACQUIRE, SPARE), record(ONE, CROSS_ACQUIRE, CROSSLOCK)]
CROSS_PARTS = {
    "nothing in progress": [],
    f"{SPARE} EN {CROSSLOCK}": OVER_CROSSLOCK,
    f"{SPARE} SN {CROSSLOCK}": [record(ONE, ACQUIRE, SPARE, TRY + RECURSIVE_READ), record(ONE, CROSS_ACQUIRE, CROSSLOCK)],
    f"{CROSSLOCK} EN {SPARE}": [record(ONE, CROSS_ACQUIRE, CROSSLOCK), record(OTHER, ACQUIRE, SPARE, READ), record(OTHER, COMMIT, CROSSLOCK)],
    f"{CROSSLOCK} ER {SPARE}": [record(ONE, CROSS_ACQUIRE, CROSSLOCK), record(OTHER, ACQUIRE, SPARE, RECURSIVE_READ), record(OTHER, COMMIT, CROSSLOCK)],
    f"{SPARE} kept, and not committed": [*OVER_CROSSLOCK, record(OTHER, ACQUIRE, SPARE)],
    f"{SPARE} not kept, and committed": [record(OTHER, ACQUIRE, SPARE), record(ONE, CROSS_ACQUIRE, CROSSLOCK), record(OTHER, COMMIT, CROSSLOCK)],
    "a full history": FULL,
    f"{SPARE} EN {CROSSLOCK}, and released": [*OVER_CROSSLOCK, record(OTHER, CROSS_RELEASE, CROSSLOCK)],
    f"{CROSSLOCK} EN {SPARE}, and released": [record(ONE, CROSS_ACQUIRE, CROSSLOCK), record(OTHER, ACQUIRE, SPARE), record(OTHER, COMMIT, CROSSLOCK),
                                              record(ONE, CROSS_RELEASE, CROSSLOCK)],
}

# Pairs of them for the edges of buffers, and what the join says; each part decides.
EDGES = {
    ("1 EN 2", "2 EN 1"): b"fault\n1 EN 2 hold\n2 EN 1 hold\n",
    ("1 SN 2", "2 ER 1"): b"clean\n",
    (f"{LAST}E in a task", f"{LAST}E in a hard handler"): b"fault\n7 EN 7 hard\n",
    (f"{LAST}R in a soft handler", f"{LAST}E in a task"): b"fault\n7 ER 7 soft\n",
    (f"{LAST}E in a hard handler", f"{LAST} EN 5 with both off"): b"fault\n5 EN 7 hard\n7 EN 5 hold\n",
    (f"{SPARE} EN {CROSSLOCK}, and released", f"{CROSSLOCK} EN {SPARE}, and released"): b"fault\n8 EN 9 hold\n9 EN 8 hold\n",
}


def part_log(name, number=0, after=0):
    """A log that has a part, which ends with the record of this number or sooner, as far as it goes. Behind it stand others."""
    rng = random.Random(f"{name} {number} {after}")
    part, head = (CROSS_PARTS[name], CROSS_HEAD) if name in CROSS_PARTS else (PARTS[name], header(FEW))
    return head + b"".join(clean_records(max(number - len(part), 0), rng) + part + clean_records(after, rng))


# Logs that say something by themselves, and some that do not; by name.
OWN_LOGS = {
    "a header": header(FEW), "clean": clean_log(9), "1 EN 2": part_log("1 EN 2", 9), "2 EN 1": part_log("2 EN 1", 9),
    "nothing": b"", "a short header": header(FEW)[:3], "no header": record(0, ACQUIRE) * 3, "no classes": header(0), "65 classes": header(65),
    "another version": b"LH\3\10", "another K": header(FEW + 1), "64 classes": header(64) + record(0, ACQUIRE, 63), "one class": header(1) + record(0, ACQUIRE),
    "a loose byte": clean_log(9, 1), "five loose bytes": clean_log(9, 5),
    "none declared": header(FEW, 0), "one declared": header(FEW, 1), "another declared": header(FEW, 2), "more declared": header(FEW, 3),
    "all declared": header(FEW, 255),
    "a class too many declared": header(FEW, 256), "a short word": header(FEW, 1)[:-1], "64 classes, the last declared": header(64, 1 << 63),
    **{name: deciding_log(name, 60 if name != "refused 19" else 520)
       for name in DECIDING if name.startswith(("fault", "refused")) and not name.startswith("refused 3")},
    **{f"refused 3, {name}": deciding_log(f"refused 3, {name}", 9) for name in ("first byte", "core", "mode of a release")},
}


def subsets(of):
    return chain.from_iterable(combinations(of, size) for size in range(len(of) + 1))


KIND_MODES = {"ER": (EXCLUSIVE, RECURSIVE_READ), "EN": (EXCLUSIVE, EXCLUSIVE), "SR": (READ, RECURSIVE_READ), "SN": (RECURSIVE_READ, READ)}


def kinds_log(drawn):
    """A log that draws (class, kind, class), one by one."""
    made = []
    for core, (a, kind, b) in enumerate(drawn):
        held, taken = KIND_MODES[kind]
        made += over((a, held), (b, taken), core=core % CORES) + [record(core % CORES, RELEASE, b, taken), record(core % CORES, RELEASE, a, held)]
    return header(3) + b"".join(made)


def kind_pairs(i):
    """Of the i-th sixteenth: between two classes every set of kinds there, in the one log, and every set back, in the other, which may have some there too."""
    rng = random.Random(f"kinds {i}")
    there = list(subsets(KINDS))[i]
    for back in subsets(KINDS):
        more = [kind for kind in KINDS if rng.random() < 0.2]
        yield kinds_log([(0, kind, 2) for kind in there]), kinds_log([(2, kind, 0) for kind in back] + [(0, kind, 2) for kind in more])
    yield kinds_log([(1, kind, 1) for kind in there if kind == "SR"] + [(0, kind, 1) for kind in there]), kinds_log([(1, "EN", 2), (2, "SN", 0)])


def marks_log(marks):
    """A log with these marks (level, safe or not, letter) of class 1, each set alone."""
    made = []
    for level, safe, letter in marks:
        mode = {"E": EXCLUSIVE, "S": READ, "N": READ, "R": RECURSIVE_READ}[letter]
        enter = ENTER_HARD if level == "hard" else ENTER_SOFT
        before = [enter, HARD_OFF][:1 + (level == "soft")] if safe else [SOFT_OFF] if level == "hard" else []
        after = [HARD_ON, enter + 1][level == "hard":] if safe else [SOFT_ON] if level == "hard" else []
        made += [record(3, kind) for kind in before] + [record(3, ACQUIRE, 1, mode), record(3, RELEASE, 1, mode)] + [record(3, kind) for kind in after]
    return header(2) + b"".join(made)


def mark_pairs(i):
    """Of the i-th sixteenth: the unsafe marks in the one log, with every set of safe marks in the other, and some in both."""
    unsafe = list(subsets([(level, False, letter) for level in ("hard", "soft") for letter in "ES"]))[i]
    for safe in subsets([(level, True, letter) for level in ("hard", "soft") for letter in "NR"]):
        yield marks_log(unsafe), marks_log(safe)
    yield marks_log(unsafe + (("hard", True, "R"),)), marks_log(unsafe + (("soft", True, "R"),))


# ---- random pairs

DEALT = ("fault", "ring", "handler", "tie", "churn", "clean")


def dealt(data, i):
    """The records of a log dealt out to two by their cores, those of some to both: together they have its dependencies and marks, as no core knows of
    another."""
    rng = random.Random(f"dealt {i}")
    to = [rng.choice(((1,), (1,), (2,), (2,), (1, 2))) for _ in range(CORES)]
    return tuple(data[:HEADER] + b"".join(rec for rec in records_of(data) if number in to[rec[2]]) for number in (1, 2))


def by_marks(i):
    """Two clean logs, one of tasks and the other of handlers, of a few classes each: cycles that only the join of the marks closes, with dependencies between
    locks that are held with both interrupts off."""
    rng = random.Random(f"marks {i}")
    classes = 2 + i % (MAX_CLASSES - 1)
    some = rng.sample(range(classes), min(classes, rng.randrange(1, 5)))
    level, drawn = rng.choice(("hard", "soft")), rng.sample(some, len(some))
    enter = ENTER_HARD if level == "hard" else ENTER_SOFT

    def held(core, lock_class, mode):
        return [record(core, ACQUIRE, lock_class, mode), record(core, RELEASE, lock_class, mode)]

    tasks = [rec for c in rng.sample(some, rng.randrange(1, len(some) + 1)) for rec in held(2, c, rng.randrange(MODES))]
    if level == "hard" and rng.random() < 0.5:
        tasks = [record(2, SOFT_OFF), *tasks]
    handlers = [record(3, enter), *[record(3, HARD_OFF)] * (level == "soft")]
    handlers += [rec for c in rng.sample(some, rng.randrange(1, len(some) + 1)) for rec in held(3, c, rng.randrange(MODES))]
    lines = []
    for a, b in zip(drawn, drawn[1:]):
        first, second = rng.randrange(MODES), rng.randrange(TRY)
        lines.append(off(core=4)[:2 * (not lines)] + [record(4, ACQUIRE, a, first), *held(4, b, second), record(4, RELEASE, a, first)])
    logs = [[tasks], [handlers]]
    for line in lines:  # they turn the interrupts off first, so they stay in one log
        logs[i % 2].append(line)
    return tuple(header(classes) + b"".join(rec for part in log for rec in part) for log in logs)


def crossed_ring(classes, rng):
    """Locks, and crosslocks between some of them: the dependencies that lead once round, in any order, each in the one log or in the other. Some joints are
    weak."""
    ring = rng.sample(range(classes), rng.randrange(2, min(classes, 9) + 1))
    crosslocks = {c for c in ring[1::2] if rng.random() < 0.8}
    word, logs = sum(1 << c for c in crosslocks), ([], [])
    for a, b in rng.sample(list(zip(ring, ring[1:] + ring[:1])), len(ring)):
        one, two = rng.sample(range(CORES), 2)
        held, taken = (rng.choice((EXCLUSIVE, EXCLUSIVE, TRY, READ)), rng.choice((EXCLUSIVE, EXCLUSIVE, READ, RECURSIVE_READ)))
        if b in crosslocks:
            made = [record(one, ACQUIRE, a, held), record(one, CROSS_ACQUIRE, b), record(one, RELEASE, a, held), record(two, CROSS_RELEASE, b)]
        elif a in crosslocks:
            made = [record(one, CROSS_ACQUIRE, a), record(two, ACQUIRE, b, taken), record(two, RELEASE, b, taken), record(two, COMMIT, a),
                    record(one, CROSS_RELEASE, a)]
        else:
            made = [record(one, ACQUIRE, a, held), record(one, ACQUIRE, b, taken), record(one, RELEASE, b, taken), record(one, RELEASE, a, held)]
        rng.choice(logs).extend(made)
    return tuple(header(classes, word) + b"".join(log) for log in logs)


def crossed(i, rng):
    """Two clean logs of one K and one declaration, each with ranks of its own; or a ring of locks and crosslocks dealt out to two."""
    classes = 2 + i % (MAX_CLASSES - 1)
    word = random_word(classes, rng)
    if i % 2:
        return crossed_ring(classes, rng)
    logs = []
    for _ in range(2):
        walk = Walk(classes, rng, word)
        walk.go(rng.randrange(*rng.choice((SHORT, MIDDLE))))
        logs.append(walk.log())
    return tuple(logs)


def random_pair(intent, i):
    """met: two clean logs of one K; marks; any: two logs of any sort, mostly of one K; other K; crossed: two clean logs with the same crosslocks;
    declared: with others."""
    rng = random.Random(f"{intent} {i}")
    if intent in ("crossed", "declared"):
        return crossed(i, rng) if intent == "crossed" else (random_log("cross", i), random_log("cross", i + MAX_CLASSES))
    if intent == "met":
        return random_log("clean", i), random_log("clean", i + MAX_CLASSES * rng.randrange(1, 40))
    if intent == "marks":
        return by_marks(i)
    if intent == "other K":
        return random_log("clean", i), random_log("clean", i + rng.randrange(1, MAX_CLASSES))
    sorts = ("clean", "clean", "fault", "refused", "churn", "tie")
    one, two = (random_log(rng.choice(sorts), i + MAX_CLASSES * rng.randrange(30)) for _ in range(2))
    return one, two[:rng.randrange(HEADER + RECORD)] if rng.random() < 0.1 else two
