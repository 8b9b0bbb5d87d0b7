"""What the tests of the programs share: an examiner's first methods, the workers, the planted wrong programs, the command line."""
import argparse, functools, gc, multiprocessing, subprocess, sys, tempfile, time
from collections import Counter, defaultdict
from pathlib import Path
from planted import Planter, likely_tests
from runs import Different, Runner, build_shim

root = Path(__file__).resolve().parents[2]
SECOND = root / "reference/target/release/reference"
FAILED_READ = (b"", b"read failed\n", 0)


class Examiner:
    """Examines a program. Raises Different where a run is wrong, and counts what it met."""
    words = ()  # for the second program

    def __init__(self, program, shim):
        self.program, self.runner, self.met = program, Runner(shim), Counter()
        self.second = functools.lru_cache(1000)(self.ask_second)

    def ask_second(self, data):
        return self.runner.on_file((SECOND, *self.words), data)[0]

    def same(self, run, wanted, how):
        self.met["runs"] += 1
        if run != wanted:
            raise Different(f"{how}: (output, errors, status) {run!r}, wanted {wanted!r}")

    def in_pieces(self, data, wanted, all_pieces, pipe=False):
        for pieces in all_pieces:
            how = "through a pipe" if pipe else "by short reads"
            run = self.runner.on_pipe(self.program, data, pieces) if pipe else self.runner.on_file(self.program, data, pieces=pieces)
            self.same(run, wanted, f"{how} in pieces of {pieces[:9]}")

    def failing(self, data, wanted, decided, offsets, pieces):
        """A read that fails at an offset is not met when the bytes before it decide."""
        for at in offsets:
            run = self.runner.on_file(self.program, data, read_fails=at, pieces=pieces)
            self.same(run, wanted if decided is not None and decided <= at else FAILED_READ, f"reads of {pieces} that fail at {at}")


class Suite:
    """The tests of the program of a crate. tasks(quick) gives (name, method of the examiner, arguments); lacks(met, by) what was to be met and was not;
    tell(met, by, done) says how much was done. met: all that was met; by: so by method; done: the tasks by method."""

    def __init__(self, name, crate, planted, examiner, tasks, lacks, tell):
        self.name, self.crate, self.planted, self.examiner = name, crate, root / "tests" / planted, examiner
        self.tasks, self.lacks, self.tell = tasks, lacks, tell
        self.program = root / "crates" / crate / "out" / crate  # as `rt ci` and `rt run` leave it
        self.notes = self.planted / "caught.txt"

    @functools.cache
    def quick_selection(self, shim):
        """The quick tasks, and an examiner that reads an output once and knows what the second program says: both serve for all planted programs."""
        examiner = self.examiner(None, shim)
        examiner.read = functools.cache(examiner.read)
        return list(self.tasks(quick=True)), examiner

    def first_difference(self, program, shim, likely=None, before=None):
        """The first difference of a program in the quick selection, as (the task, what is different), or None. The task that caught it before comes first,
        then the likely tests, then all others."""
        selection, examiner = self.quick_selection(shim)
        if likely not in (None, *(method for _, method, _ in selection)):
            raise ValueError(f"no tests {likely!r}")
        examiner.program = program
        for name, method, arguments in sorted(selection, key=lambda task: (task[0] != before, task[1] != likely)):
            try:
                getattr(examiner, method)(*arguments)
            except Different as difference:
                return name, f"{name}: {difference}"
        return None

    def caught_before(self):
        """By name the task that caught a planted program when that was last noted: it saves the others, no more."""
        lines = self.notes.read_text().splitlines() if self.notes.exists() else []
        return dict(line.split(": ", 1) for line in lines)

    def main(self, doc):
        options = argparse.ArgumentParser(description=doc, formatter_class=argparse.RawDescriptionHelpFormatter)
        options.add_argument("--quick", action="store_true")
        options.add_argument("--program", type=Path)
        options.add_argument("--right", action="store_true")
        options.add_argument("--planted", nargs="*", metavar="NAME")
        options.add_argument("--note", action="store_true", help="with --planted: note which task caught each, to be tried first from then on")
        options = options.parse_args()
        if options.right and options.planted is not None:
            sys.exit(f"tests/{self.name}: --right and --planted do not go together")
        if options.quick and options.program is None:
            sys.exit(f"tests/{self.name}: --quick needs --program")
        if options.program and not (options.quick or options.right):
            sys.exit(f"tests/{self.name}: --program goes with --quick or --right")

        subprocess.run(["cargo", "build", "--release", "--offline", "--quiet", "--manifest-path", root / "reference/Cargo.toml",
                        "--target-dir", root / "reference/target"], check=True)
        if options.program:
            self.program = options.program.resolve()
        elif options.planted is None and not self.program.exists():
            subprocess.run(["rt", "run"], cwd=root / "crates" / self.crate, stdin=subprocess.DEVNULL, stdout=subprocess.DEVNULL)
            if not self.program.exists():
                sys.exit(f"tests/{self.name}: rt run built no program")
        with tempfile.TemporaryDirectory() as folder:
            shim = build_shim(folder)
            if options.quick:
                difference = self.first_difference(self.program, shim)
                print(f"{self.name}: {difference[1] if difference else 'no difference'}")
                return 1 if difference else 0
            return self.test(folder, shim, options.planted, options.right, options.note)

    def test(self, folder, shim, names, right, note):
        bad, met, by, done = [], Counter(), defaultdict(Counter), Counter()
        planter = Planter(root, Path(folder), self.crate)
        edits = [self.planted / f"{name}.edit" for name in names or []] or sorted(self.planted.glob("*.edit"))
        if not edits:
            sys.exit(f"tests/{self.name}: {self.planted} is empty")
        if missing := [edit.stem for edit in edits if not edit.exists()]:
            sys.exit(f"tests/{self.name}: no planted program {missing[0]}")

        before = self.caught_before()

        def wrong(what):
            bad.append(what)
            print(f"WRONG: {what}", flush=True)

        with multiprocessing.Pool(2, start_worker, (self, shim)) as workers:
            if names is None:
                for difference, method, found in workers.imap_unordered(do_task, self.tasks(quick=False), chunksize=20):
                    met += found
                    by[method].update(found)
                    done[method] += 1
                    if difference:
                        wrong(difference)
                        if len(bad) > 10:
                            return 1
                for lack in self.lacks(met, by):
                    wrong(lack)
            programs = {}
            for made in workers.imap_unordered(build_planted, [] if right else [(planter, batch) for batch in planter.batches([None, *edits])]):
                programs |= made
            for edit, difference, trouble, seconds in workers.imap_unordered(try_planted, [(edit, program, shim, edit and before.get(edit.stem)) for edit, program in programs.items()]):
                name = f"planted {edit.stem}" if edit else "the program built without an edit"
                if trouble or (difference is None) != (edit is None):
                    wrong(f"{name}: {trouble or (difference and difference[1]) or 'not caught'}")
                elif edit:
                    done["caught"] += 1
                    before[edit.stem] = difference[0]
                    print(f"{name}: caught ({seconds:.1f} s) {difference[1][:130]}", flush=True)
        if note:
            self.notes.write_text("".join(f"{edit.stem}: {before[edit.stem]}\n" for edit in sorted(self.planted.glob("*.edit")) if edit.stem in before))
        tests = f"{self.tell(met, by, done)}, {met['runs']} runs, " if names is None else ""
        caught = "" if right else f"{done['caught']} of {len(edits)} planted programs caught, "
        print(f"{self.name}: {tests}{caught}{len(bad)} wrong")
        return 1 if bad else 0


def start_worker(of_suite, shim):
    global suite, examiner
    suite, examiner = of_suite, of_suite.examiner(of_suite.program, shim)
    gc.freeze()
    gc.set_threshold(100_000)  # there is little to be collected, and much to be looked at


def do_task(task):
    name, method, arguments = task
    examiner.met.clear()
    try:
        getattr(examiner, method)(*arguments)
        return None, method, Counter(examiner.met)
    except Different as difference:
        return f"{name}: {difference}", method, Counter(examiner.met)


def build_planted(job):
    planter, edits = job
    return planter.build(edits)


def try_planted(job):
    """Examines one wrong program, or with no edit the right one: (edit, the first difference or None, what hindered or None, seconds)."""
    edit, program, shim, before = job
    began = time.monotonic()
    try:
        if isinstance(program, ValueError):
            raise program
        return edit, suite.first_difference(program, shim, edit and likely_tests(edit), before), None, time.monotonic() - began
    except ValueError as trouble:
        return edit, None, str(trouble), time.monotonic() - began
