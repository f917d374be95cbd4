"""Starts a program in a world of its own, for .ci/edges: outputs that take nothing or a part, inputs that cannot be
read, calls that fail (.ci/faults.c is preloaded for that), and another user."""
import os
import platform
import resource
import signal
import subprocess
import tempfile
from collections import namedtuple
from contextlib import contextmanager
from pathlib import Path

PATIENCE = 20  # seconds; what takes longer hangs
CLOSED = "closed"
LIMIT = 100000  # bytes, of a file
Ended = namedtuple("Ended", "out err status")

# Root may read and write everything, so what must not be is tried as nobody.
NOBODY = ["setpriv", "--reuid=65534", "--regid=65534", "--clear-groups"] if os.getuid() == 0 else []

# Each output gives its descriptor, a way to see what came through, and what the program's process does first.


@contextmanager
def captured():
    with tempfile.TemporaryFile() as file:
        yield file.fileno(), lambda: os.pread(file.fileno(), 1 << 20, 0), lambda: None


@contextmanager
def full():
    with open("/dev/full", "wb") as device:
        yield device.fileno(), lambda: b"", lambda: None


@contextmanager
def closed():
    with captured() as (out, taken, first):
        yield out, taken, lambda: os.close(1)


@contextmanager
def limited():
    with captured() as (out, taken, first):
        yield out, taken, lambda: resource.setrlimit(resource.RLIMIT_FSIZE, (LIMIT, LIMIT))


@contextmanager
def gone():
    """A pipe that nobody reads any more."""
    reader, writer = os.pipe()
    os.close(reader)
    yield writer, lambda: b"", lambda: None
    os.close(writer)


@contextmanager
def narrow():
    """A pipe that nobody reads before the program has ended, and whose writer does not wait."""
    reader, writer = os.pipe2(os.O_NONBLOCK)
    closing = os.fdopen(writer, "wb")

    def taken():
        closing.close()
        return os.read(reader, 1 << 20)

    yield writer, taken, lambda: None
    os.close(reader)


@contextmanager
def early():
    """A pipe whose reader goes when it has some."""
    head = subprocess.Popen(["head", "-c", "5000"], stdin=subprocess.PIPE, stdout=subprocess.PIPE)

    def taken():
        head.stdin.close()
        return head.stdout.read()

    yield head.stdin.fileno(), taken, lambda: None
    head.stdout.close()
    head.wait()


def on_small_disk(args, folder):
    """The same program with a file on a file system of 64 KB as its output, which is shown when it has ended."""
    script = 'mount -t tmpfs -o size=64k none "$0" && { "$@" >"$0/out"; status=$?; cat "$0/out"; exit $status; }'
    return ["unshare", "-m", "sh", "-c", script, folder, *args]


def has_small_disk(folder):
    tried = subprocess.run(on_small_disk(["true"], folder), stderr=subprocess.DEVNULL)
    return tried.returncode == 0


def build_faults(folder):
    """The library that is preloaded, compiled as all that is linked with x86-64 programs; None where that fails."""
    library = Path(folder) / "faults.so"
    words = ["-std=c11", "-O2", "-Wall", "-Wextra", "-Werror", "-shared", "-fPIC", ".ci/faults.c", "-o", str(library)]
    script = '. .ci/cross && exec "${c[@]}" "$@"'
    built = subprocess.run(["bash", "-c", script, "cc", *words], cwd=Path(__file__).resolve().parent.parent)
    return library if built.returncode == 0 else None


def preloading(library, plan):
    """The variables by which a program's calls fail as planned; an emulator has one of its own for what it preloads."""
    if not plan:
        return {}
    if platform.machine() == "x86_64":
        return {"FAULTS": plan, "LD_PRELOAD": str(library)}
    return {"FAULTS": plan, "QEMU_SET_ENV": f"LD_PRELOAD={library}"}


def run(args, stdin=b"", output=captured, ignoring=(), cwd=None, **env):
    """Runs a program. Its input is bytes, a path or CLOSED."""
    with output() as (out, taken, first), tempfile.TemporaryFile() as given:

        def begin():
            for number in ignoring:
                signal.signal(number, signal.SIG_IGN)
            first()
            if stdin is CLOSED:
                os.close(0)

        if isinstance(stdin, bytes):
            given.write(stdin)
            given.seek(0)
        source = os.open(stdin, os.O_RDONLY) if isinstance(stdin, Path) else os.dup(given.fileno())
        process = subprocess.Popen(
            args, stdin=source, stdout=out, stderr=subprocess.PIPE, cwd=cwd,
            env={**os.environ, **env}, preexec_fn=begin, start_new_session=True,
        )
        os.close(source)
        try:
            err = process.communicate(timeout=PATIENCE)[1]
        except subprocess.TimeoutExpired:
            os.killpg(process.pid, signal.SIGKILL)
            err = process.communicate()[1] + b"(it hangs)"
        return Ended(taken(), err.decode(), process.returncode)
