#!/usr/bin/env python3
"""A served node beside nginx and gofail's endpoint, asked by `wrk`: requests a second, and the times within which half
of them and 99% were answered; and a node with a key beside one without. See README.md beside this file.

    bench/served.py [SECONDS]     (of each run; 3 unless given)

It takes the program as it stands. What isn't installed is skipped, and named.
"""

import argparse
import contextlib
import os
import re
import shutil
import statistics
import subprocess
import sys
import tempfile
from typing import NamedTuple

import programs
from programs import FIRST

CLIENTS = (1, 16, 64)
# What is compared goes in turn so often, and of each the best run counts.
ROUNDS = 5
KEY = bytes(range(32))


class Server(NamedTuple):
    """Who is asked, where, and with which fields."""

    title: str
    address: str
    fields: tuple = ()


class Answers(NamedTuple):
    a_second: float
    half: str
    most: str


@contextlib.contextmanager
def running(words, environment=None, reads_line=False):
    """A server for a while, and its first line where that is read."""
    out = subprocess.PIPE if reads_line else subprocess.DEVNULL
    server = subprocess.Popen([*FIRST, *words], stdin=subprocess.DEVNULL, stdout=out, stderr=subprocess.DEVNULL, env=environment)
    try:
        yield server.stdout.readline().decode() if reads_line else ""
    finally:
        server.kill()
        server.wait()


@contextlib.contextmanager
def node(program, *more):
    """A served node with a point, and its port."""
    words = (program, "serve", "--node", "0", "--nodes", "2", "--port", "0", "--requests", "4000000000", *more)
    with running(words, reads_line=True) as line:
        yield int(line.split()[1])


def set_point(port, *fields):
    words = ["curl", "-sf", "-X", "PUT", "--data", "off", *(word for field in fields for word in ("-H", field))]
    programs.do(*words, f"http://127.0.0.1:{port}/fail/some.point")


@contextlib.contextmanager
def nginx(room):
    """One that answers each request by a text of its configuration; and its port."""
    port = programs.free_port()
    text = f"""daemon off; pid {room}/nginx.pid; error_log /dev/null; worker_processes auto;
events {{ worker_connections 1024; }}
http {{ access_log off; server {{ listen 127.0.0.1:{port}; keepalive_timeout 0;
location / {{ default_type text/plain; return 200 "some.point=off\\n"; }} }} }}
"""
    path = os.path.join(room, "nginx.conf")
    with open(path, "w", encoding="utf-8") as file:
        file.write(text)
    with running(("/usr/sbin/nginx", "-p", room, "-c", path)):
        programs.await_port(port)
        yield port


@contextlib.contextmanager
def gofail(program):
    """A program whose failpoints gofail serves; and its port."""
    port = programs.free_port()
    with running((program, "serve", "1", "1"), {**os.environ, "GOFAIL_HTTP": f"127.0.0.1:{port}"}):
        programs.await_port(port)
        yield port


def asked(server, clients, seconds):
    """What came of one run."""
    fields = [word for field in ("Connection: close", *server.fields) for word in ("-H", field)]
    words = [*FIRST, "wrk", "-t", str(min(clients, 4)), "-c", str(clients), "-d", f"{seconds}s", "--latency", *fields]
    said = programs.do(*words, server.address)
    if "Non-2xx" in said:
        sys.exit(f"{server.title}: {said}")
    found = [re.search(rf"^ *{name} +(\S+)", said, re.M) for name in ("Requests/sec:", "50%", "99%")]
    a_second, half, most = (match.group(1) for match in found)
    return Answers(float(a_second), half, most)


def runs_of(servers, clients, seconds):
    """Of each server its runs."""
    rounds = [[asked(server, clients, seconds) for server in servers] for _ in range(ROUNDS)]
    return list(zip(*rounds))


def print_table(servers, seconds):
    print(f"\n| Who is asked | {' | '.join(f'{clients} client{chr(115) * (clients > 1)}' for clients in CLIENTS)} |")
    print("|---" * (len(CLIENTS) + 1) + "|")
    columns = [runs_of(servers, clients, seconds) for clients in CLIENTS]
    for server, row in zip(servers, zip(*columns)):
        best = [max(runs, key=lambda run: run.a_second) for runs in row]
        cells = (f"{answers.a_second:,.0f}; {answers.half} and {answers.most}" for answers in best)
        print(f"| {server.title} | {' | '.join(cells)} |")
    return columns


def print_key(without, with_key):
    print("\nwith a key, of the requests a second without, by the medians:", end="")
    for clients, column in zip(CLIENTS, zip(without, with_key)):
        plain, keyed = (statistics.median(run.a_second for run in runs) for runs in column)
        print(f" {clients}: {keyed / plain * 100:.1f}%", end="")
    print()


def main():
    parser = argparse.ArgumentParser(description=__doc__, formatter_class=argparse.RawDescriptionHelpFormatter)
    parser.add_argument("seconds", nargs="?", type=int, default=3)
    seconds = parser.parse_args().seconds
    failreg = programs.proved(True, "failreg")
    with tempfile.TemporaryDirectory() as room, contextlib.ExitStack() as stack:
        key = os.path.join(room, "key")
        with open(os.open(key, os.O_CREAT | os.O_WRONLY, 0o600), "wb") as file:
            file.write(KEY)
        field = f"Authorization: Bearer {KEY.hex()}"
        plain = stack.enter_context(node(failreg))
        keyed = stack.enter_context(node(failreg, "--key-file", key))
        set_point(plain)
        set_point(keyed, field)
        servers = [
            Server("`failreg serve`, `GET /fail` of one point", f"http://127.0.0.1:{plain}/fail"),
            Server("the same, with a key", f"http://127.0.0.1:{keyed}/fail", (field,)),
        ]
        if os.path.exists("/usr/sbin/nginx"):
            port = stack.enter_context(nginx(room))
            servers.append(Server("nginx, a text of its configuration", f"http://127.0.0.1:{port}/"))
        else:
            print("nginx isn't installed, and was skipped")
        if shutil.which("go") and (program := programs.of_gofail(room)):
            port = stack.enter_context(gofail(program))
            servers.append(Server("gofail's endpoint, `GET /`", f"http://127.0.0.1:{port}/"))
        else:
            print("gofail isn't installed, and was skipped")
        columns = print_table(servers, seconds)
        print_key([column[0] for column in columns], [column[1] for column in columns])


if __name__ == "__main__":
    main()
