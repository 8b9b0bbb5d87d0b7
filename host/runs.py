"""What host/test_host and host/test_balance share: the ways to give the host its input. The arguments are theirs: PATH/host [--first]."""
import fcntl, os, signal, socket, struct, subprocess, sys, termios, threading, time
from pathlib import Path

host = os.path.abspath(sys.argv[1])
runs = wrong = 0


def judge(what, got, status, right):
    """right: of the output and of what standard error got, as text."""
    global runs, wrong
    runs += 1
    out, err = got.stdout.decode(), got.stderr.decode()
    if got.returncode != status or not right(out, err):
        wrong += 1
        print(f"wrong: {what}: status {got.returncode}, output {out[:80]!r}, errors {err[:200]!r}")
        if "--first" in sys.argv:
            sys.exit(1)


def run(*args, stdin=subprocess.DEVNULL, stdout=subprocess.PIPE, seconds=60, **how):
    try:
        got = subprocess.run([host, *args], stdin=stdin, stdout=stdout, stderr=subprocess.PIPE, timeout=seconds, **how)
    except subprocess.TimeoutExpired:
        return subprocess.CompletedProcess([], "too late", b"", b"")
    got.stdout = got.stdout or b""
    return got


def in_pieces(bytes_, size, *args):
    """The bytes through a pipe; the reader can empty it between the first pieces."""
    end, start = os.pipe()

    def write():
        try:
            for at in range(0, len(bytes_), size):
                os.write(start, bytes_[at:at + size])
                if at < 8 * size:
                    time.sleep(0.003)
        except BrokenPipeError:
            pass
        os.close(start)

    writer = threading.Thread(target=write)
    writer.start()
    got = run(*args, stdin=end)
    os.close(end)
    writer.join()
    return got


def failing_after(bytes_, *args):
    """The bytes, and then a read that fails: a socket whose peer went away with a byte unread."""
    end, start = socket.socketpair()
    end.sendall(b"unread")
    start.sendall(bytes_)
    start.close()
    return run(*args, stdin=end)


def interrupted(bytes_, *args):
    """The bytes, a read that is interrupted, and the end: a socket with a time limit, whose reader is stopped and goes on."""
    end, start = socket.socketpair()
    end.setsockopt(socket.SOL_SOCKET, socket.SO_RCVTIMEO, struct.pack("ll", 60, 0))
    start.sendall(bytes_)
    reader = subprocess.Popen([host, *args], stdin=end, stdout=subprocess.PIPE, stderr=subprocess.PIPE)

    def wait(state):
        until = time.time() + 5
        while time.time() < until and reader.poll() is None:
            unread = struct.unpack("i", fcntl.ioctl(end, termios.FIONREAD, bytes(4)))[0]
            if unread == 0 and Path(f"/proc/{reader.pid}/stat").read_text().rpartition(")")[2].split()[0] == state:
                return
            time.sleep(0.005)

    wait("S")
    reader.send_signal(signal.SIGSTOP)
    wait("T")
    reader.send_signal(signal.SIGCONT)
    wait("S")
    start.close()
    try:
        out, err = reader.communicate(timeout=5)
    except subprocess.TimeoutExpired:
        reader.kill()
        reader.communicate()
        return subprocess.CompletedProcess([], "too late", b"", b"")
    return subprocess.CompletedProcess([], reader.returncode, out, err)


def staying_open(bytes_, *args):
    """The bytes through a pipe whose other end stays open: what decides must not wait for more."""
    end, start = os.pipe()
    os.write(start, bytes_)
    got = run(*args, stdin=end, seconds=5)
    os.close(end)
    os.close(start)
    return got


def finish(about):
    print(f"host: {runs} {about}, {wrong} wrong")
    sys.exit(1 if wrong else 0)
