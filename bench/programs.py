"""Programs that are timed: how they are built, run, and their instructions counted. See README.md beside this file."""

import contextlib
import os
import re
import shutil
import socket
import subprocess
import sys
import tempfile
import time

HERE = os.path.dirname(os.path.abspath(__file__))
CRATES = os.path.join(HERE, "..", "crates")
EMBEDDING = os.path.join(HERE, "..", "embedding")
LIBRARY = os.path.join(EMBEDDING, "lib", "libfailreg.a")
# Before each program that is timed: nothing, or what gives it the processors where other work stands beside it.
FIRST = os.environ.get("BENCH_FIRST", "").split()
# Where Debian's packages of Go lie.
GO_PACKAGES = "/usr/share/gocode"


def do(*words, **how):
    """Runs what has to succeed, and prints nothing."""
    done = subprocess.run(words, stdin=subprocess.DEVNULL, capture_output=True, text=True, **how)
    if done.returncode != 0:
        sys.exit(f"{' '.join(words)}: status {done.returncode}\n{done.stdout}{done.stderr}")
    return done.stdout


def proved(is_built, crate, *arguments):
    """A program of ours: it is proved and built where it has changed, unless it is to be taken as it stands."""
    folder = os.path.join(CRATES, crate)
    program = os.path.join(folder, "out", crate)
    if not is_built:
        do("rt", "run", "--", *arguments, cwd=folder)
    if not os.path.isfile(program):
        sys.exit(f"{program} isn't there: `rt ci` leaves it, or leave out --built")
    return program


def library(is_built):
    """Sees that the library for C is there."""
    if not is_built:
        do(os.path.join(EMBEDDING, "build"))
    if not os.path.isfile(LIBRARY):
        sys.exit(f"{LIBRARY} isn't there: embedding/build makes it, or leave out --built")


def of_c(folder, source, where=HERE):
    """A program of C over the library."""
    program = os.path.join(folder, source)
    words = ("cc", "-std=c11", "-O2", "-I", EMBEDDING, f"{where}/{source}.c", LIBRARY, "-lpthread", "-o", program)
    do(*words)
    return program


def of_rust(folder):
    """The program of Rust that times passes, or none where cargo isn't installed."""
    if not shutil.which("cargo"):
        return None
    words = ("cargo", "build", "--offline", "--quiet", "--release", "--features", "failpoints", "--example", "speed")
    environment = {**os.environ, "FAILREG_LIB": os.path.dirname(LIBRARY)}
    do(*words, "--target-dir", folder, cwd=f"{EMBEDDING}/rust/failreg", env=environment)
    return os.path.join(folder, "release/examples/speed")


def of_libfiu(folder):
    """The program over libfiu, or none where that isn't installed."""
    if not os.path.isfile("/usr/include/fiu.h"):
        return None
    program = os.path.join(folder, "libfiu")
    do("cc", "-std=c11", "-O2", f"{HERE}/peers/libfiu.c", "-lfiu", "-lpthread", "-o", program)
    return program


def of_mutex(folder):
    """The program with a counter of its own, behind a mutex."""
    program = os.path.join(folder, "mutex")
    do("cc", "-std=c11", "-O2", f"{HERE}/peers/mutex.c", "-lpthread", "-o", program)
    return program


def of_redis(folder):
    """The program that counts by Redis, or none where that or its library for C isn't installed."""
    if not shutil.which("redis-server") or not os.path.isdir("/usr/include/hiredis"):
        return None
    program = os.path.join(folder, "redis")
    do("cc", "-std=c11", "-O2", f"{HERE}/peers/redis.c", "-lhiredis", "-lpthread", "-o", program)
    return program


def free_port():
    with socket.socket() as taken:
        taken.bind(("127.0.0.1", 0))
        return taken.getsockname()[1]


def await_port(port):
    """Until somebody listens there."""
    until = time.monotonic() + 10
    while time.monotonic() < until:
        with contextlib.suppress(OSError), socket.create_connection(("127.0.0.1", port), timeout=1):
            return
        time.sleep(0.02)
    sys.exit(f"nobody listens at port {port}")


@contextlib.contextmanager
def redis_server(is_wanted):
    """A Redis that keeps nothing in files, at the port that BENCH_REDIS says, if it is wanted."""
    if not is_wanted:
        yield
        return
    port = free_port()
    words = ("redis-server", "--port", str(port), "--bind", "127.0.0.1", "--save", "", "--appendonly", "no")
    server = subprocess.Popen(words, stdin=subprocess.DEVNULL, stdout=subprocess.DEVNULL)
    try:
        await_port(port)
        os.environ["BENCH_REDIS"] = str(port)
        yield
    finally:
        server.terminate()
        server.wait()


def of_gofail(folder):
    """The program over gofail, whose comments its own tool makes code of; or none where gofail or Go isn't installed."""
    if not shutil.which("go") or not os.path.isdir(f"{GO_PACKAGES}/src/go.etcd.io/gofail"):
        return None
    for source, place in (("gofail.go", "speed/main.go"), ("passed.go", "passed/passed.go")):
        os.makedirs(os.path.dirname(f"{folder}/src/{place}"), exist_ok=True)
        shutil.copy(f"{HERE}/peers/{source}", f"{folder}/src/{place}")
    how = {"GOPATH": f"{folder}:{GO_PACKAGES}", "GO111MODULE": "off", "GOCACHE": f"{folder}/cache", "GOFLAGS": ""}
    environment = {**os.environ, **how}
    do("go", "build", "-o", f"{folder}/tool", "go.etcd.io/gofail", env=environment)
    do(f"{folder}/tool", "enable", f"{folder}/src/passed", env=environment)
    do("go", "build", "-o", f"{folder}/gofail", "speed", env=environment)
    return f"{folder}/gofail"


class Ran:
    """A run that ended with a status: what it printed, its seconds of a processor, and the most memory that it held, in
    bytes."""

    def __init__(self, words, text=b"", first=(), wanted=0):
        with tempfile.TemporaryFile() as source, tempfile.TemporaryFile() as output, tempfile.TemporaryFile() as errors:
            source.write(text)
            source.seek(0)
            child = subprocess.Popen([*first, *words], stdin=source, stdout=output, stderr=errors)
            _, status, usage = os.wait4(child.pid, 0)
            child.returncode = os.waitstatus_to_exitcode(status)
            output.seek(0)
            errors.seek(0)
            self.printed, self.said = output.read(), errors.read().decode(errors="replace")
        if child.returncode != wanted:
            sys.exit(f"{' '.join(words)}: status {child.returncode}\n{self.said}")
        self.seconds = usage.ru_utime + usage.ru_stime
        self.memory = usage.ru_maxrss * 1024


def instructions(words, text=b"", wanted=0):
    """How many instructions a run takes, by cachegrind, which counts the same each time (callgrind fails at programs of Go)."""
    tool = ("valgrind", "--tool=cachegrind", "--cache-sim=no", "--cachegrind-out-file=/dev/null")
    said = Ran(words, text, first=tool, wanted=wanted).said
    found = re.search(r"I\s+refs:\s+([\d,]+)", said)
    return int(found.group(1).replace(",", "")) if found else sys.exit(f"cachegrind says of {' '.join(words)}: {said}")
