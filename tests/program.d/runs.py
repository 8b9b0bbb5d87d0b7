"""Runs of a program: on a file or on two, through pipes in pieces, with reads and writes that are short or fail; and what came of each."""
import fcntl, os, select, signal, struct, subprocess, tempfile, termios
from pathlib import Path

SECONDS = 100  # the longest run; a loaded machine must not be taken for a wrong program


class Different(Exception):
    """A run did not give what it must."""


def build_shim(folder):
    """The library of shim.c."""
    shim = Path(folder) / "shim.so"
    subprocess.run(["gcc", "-Wall", "-Wextra", "-O2", "-shared", "-fPIC", "-o", shim, Path(__file__).with_name("shim.c")], check=True)
    return shim


def too_long(*_):
    raise Different(f"no end after {SECONDS} seconds")


def words_of(program):
    return program if isinstance(program, tuple) else (program,)


def feed_pipe(writing, data, pieces):
    """Writes the data in pieces, the next when the last was read, and closes the pipe."""
    gone = select.poll()
    gone.register(writing, 0)  # tells only that nobody reads any more
    at = turn = 0
    try:
        while at < len(data):
            piece = data[at:at + pieces[turn % len(pieces)]]
            os.write(writing, piece)
            at, turn = at + len(piece), turn + 1
            while struct.unpack("i", fcntl.ioctl(writing, termios.FIONREAD, b"\0\0\0\0"))[0]:
                if gone.poll(0):
                    return
                os.sched_yield()
    except BrokenPipeError:
        pass
    finally:
        os.close(writing)


class Runner:
    """Runs a program, a path or a tuple of it and its words; its files are made once."""

    def __init__(self, shim):
        self.shim = shim
        self.named = []  # the files that words name: (path, open file, its bytes)
        self.nothing = os.open(os.devnull, os.O_RDONLY)
        self.input, self.out, self.err = (tempfile.TemporaryFile(buffering=0) for _ in range(3))
        signal.signal(signal.SIGALRM, too_long)

    def start(self, program, stdin, stdout, environment, more=()):
        """`more`: pairs of an open file and the descriptor that it gets."""
        actions = [(os.POSIX_SPAWN_CLOSE, 0) if stdin is None else (os.POSIX_SPAWN_DUP2, stdin, 0),
                   (os.POSIX_SPAWN_CLOSE, 1) if stdout is None else (os.POSIX_SPAWN_DUP2, stdout, 1),
                   (os.POSIX_SPAWN_DUP2, self.err.fileno(), 2), *((os.POSIX_SPAWN_DUP2, file, to) for file, to in more)]
        for file in (self.out, self.err):
            file.seek(0)
            file.truncate()
        words = words_of(program)
        return os.posix_spawn(words[0], words, environment, file_actions=actions)

    def finish(self, process, during=lambda: None):
        """Ends what must be done during the run, and gives (standard output, standard error, status)."""
        signal.setitimer(signal.ITIMER_REAL, SECONDS)
        try:
            during()
            status = os.waitstatus_to_exitcode(os.waitpid(process, 0)[1])
        except Different:
            os.kill(process, signal.SIGKILL)
            os.waitpid(process, 0)
            raise
        finally:
            signal.setitimer(signal.ITIMER_REAL, 0)
        for file in (self.out, self.err):
            file.seek(0)
        return self.out.read(), self.err.read(), status

    def on_file(self, program, data, **shim):
        """On a file; with words for the shim, as pieces=[1, 5], through it."""
        self.input.seek(0)
        self.input.truncate()
        self.input.write(data)
        self.input.seek(0)
        return self.finish(self.start(program, self.input.fileno(), self.out.fileno(), self.environment(shim)))

    def environment(self, shim):
        """That has these words for the shim, and loads it where there are any."""
        words = {f"PROGRAM_{name.upper()}": ",".join(map(str, value)) if isinstance(value, list) else str(value) for name, value in shim.items()}
        return words | {"LD_PRELOAD": str(self.shim)} if shim else {}

    def files(self, logs):
        """The paths of files that have these bytes; what stands there already is not written again."""
        while len(self.named) < len(logs):
            file, path = tempfile.mkstemp(dir=Path(self.shim).parent)
            self.named.append((path, file, b""))
        for i, (log, (path, file, written)) in enumerate(zip(logs, self.named)):
            if log != written:
                os.ftruncate(file, 0)
                os.pwrite(file, log, 0)
                self.named[i] = path, file, log
        return [path for path, _, _ in self.named[:len(logs)]]

    def on_files(self, program, logs, **shim):
        """On two files, whose paths are the program's last words; with words for the shim, as pieces1=[1, 5] or read_fails2=9, through it."""
        one, two = self.files(logs)
        if shim:
            shim |= {"file1": one, "file2": two}
        return self.on_words(program, (one, two), self.environment(shim))

    def on_words(self, program, words, environment={}, **streams):
        """With these words more, nothing on standard input, and other open files for the streams where they are given."""
        streams = {"stdin": self.nothing, "stdout": self.out.fileno()} | streams
        return self.finish(self.start((*words_of(program), *words), **streams, environment=environment))

    def on_pipes(self, program, logs, pieces):
        """On two pipes that have names, each in pieces as through one. The second log comes when the first has been read: so every byte must be."""
        ends, numbers = [os.pipe() for _ in logs], range(200, 200 + len(logs))
        words = (*words_of(program), *(f"/dev/fd/{number}" for number in numbers))
        process = self.start(words, self.nothing, self.out.fileno(), {}, [(reading, number) for (reading, _), number in zip(ends, numbers)])
        for reading, _ in ends:
            os.close(reading)

        def feed():
            for log, (_, writing) in zip(logs, ends):
                feed_pipe(writing, log, pieces)

        return self.finish(process, feed)

    def start_on_pipe(self, program):
        """The process, and where its pipe is written."""
        reading, writing = os.pipe()
        try:
            return self.start(program, reading, self.out.fileno(), {}), writing
        finally:
            os.close(reading)

    def on_open_pipe(self, program, data, again):
        """Through a pipe that nobody closes before the program has ended; `again`: the data comes again and again."""
        process, writing = self.start_on_pipe(program)

        def feed():
            try:
                while os.write(writing, data) and again:
                    pass
            except BrokenPipeError:
                pass

        try:
            return self.finish(process, feed)
        finally:
            os.close(writing)

    def on_pipe(self, program, data, pieces):
        """Through a pipe, the next piece when the last was read: so no read gives bytes of two pieces. The sizes begin again after the last."""
        process, writing = self.start_on_pipe(program)

        return self.finish(process, lambda: feed_pipe(writing, data, pieces))

    def with_streams(self, program, stdin, stdout):
        """With open files for standard input and output; None: closed."""
        out = self.out.fileno() if stdout == "kept" else stdout
        return self.finish(self.start(program, stdin, out, {}))
