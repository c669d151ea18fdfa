"""Reads which functions of a program were under way, from a copy of its stack.

Rattle's own compiler builds a program without inlining at `--opt-level 0`: each function that is called has a frame then.
Its code keeps no frame pointers and has no tables to unwind by. But a function's frame has one size at each of its calls,
which the disassembly shows. Each step is checked: the call before a return address must be of the function below.
"""

import os
import re
import struct
import subprocess

WORD = 8

# The end of the path of a program that is built so.
APART = ".apart"

HEADING = re.compile(r"^([0-9a-f]+) <(.*)>:$")
LINE = re.compile(r"^ +([0-9a-f]+):\s+(\S+)\s*(.*)$")
TARGET = re.compile(r"^([0-9a-f]+) <")
# An address that is taken, as of a function that is called later.
TAKEN = re.compile(r"# ([0-9a-f]+) <")
ALLOCATES = re.compile(r"<(malloc|calloc|realloc)@plt>")
MOVES = re.compile(r"^(?:\$(-?0x[0-9a-f]+),|(-?0x[0-9a-f]+)\(%rsp\),)%rsp$")
# Where a loop ends that touches each page of a large frame.
LOWEST = re.compile(r"^(-0x[0-9a-f]+)\(%rsp\),%r11$")


class BadStack(Exception):
    """A stack that couldn't be read."""


class Function:
    """A function's instructions: address, name and operands, in order."""

    def __init__(self, start, name):
        self.start, self.name, self.rows = start, name, []

    def depths(self):
        """How many bytes lie between the stack pointer and the return address, before each instruction. Straight on, and
        by jumps; behind a jump by a register, as at it."""
        last = self.rows[-1][0] if self.rows else self.start
        found, at_jump = {self.start: 0}, None
        for _ in range(3):
            depth = lowest = 0
            for address, name, operands in self.rows:
                depth = found.get(address, depth if depth is not None else at_jump)
                if depth is None:
                    continue
                found[address] = depth
                target = TARGET.match(operands)
                if name.startswith("j"):
                    if target and self.start <= int(target[1], 16) <= last:
                        found.setdefault(int(target[1], 16), depth)
                    elif operands.startswith("*"):
                        at_jump = depth
                if loop := name == "lea" and LOWEST.match(operands):
                    lowest = depth - int(loop[1], 16)
                depth = lowest if operands == "%r11,%rsp" else after(name, operands, depth)
        return found


def after(name, operands, depth):
    """The depth after an instruction, or None where the next one is reached by jumps alone."""
    if name in ("ret", "jmp", "ud2", "hlt"):
        return None
    if name == "push":
        return depth + WORD
    if name == "pop":
        return depth - WORD
    moved = MOVES.match(operands)
    if moved and name in ("sub", "add", "lea"):
        bytes_moved = int(moved[1] or moved[2], 16)
        return depth + (bytes_moved if name == "sub" else -bytes_moved)
    return depth


class Program:
    """A program's calls, by the addresses to which they return, and its functions, by where they begin: each with the
    functions that it calls, jumps to or has the addresses of."""

    def __init__(self, path):
        self.path = path
        with open(path, "rb") as file:
            self.entry = struct.unpack_from("<Q", file.read(64), 24)[0]
        self.calls, self.names, self.uses, self.allocating = {}, {}, {}, set()
        for function in self.disassembled():
            self.add(function)
        self.called = {target for _, _, target in self.calls.values()} - {None}

    def disassembled(self):
        words = ["objdump", "-d", "--no-show-raw-insn", "--section=.text", self.path]
        function = None
        with subprocess.Popen(words, stdout=subprocess.PIPE, text=True) as disassembly:
            for line in disassembly.stdout:
                heading = HEADING.match(line)
                if heading:
                    if function:
                        yield function
                    function = Function(int(heading[1], 16), heading[2])
                elif function and (row := LINE.match(line)):
                    function.rows.append((int(row[1], 16), row[2], row[3]))
        if disassembly.returncode or not function:
            raise SystemExit(f"objdump can't read {self.path}")
        yield function

    def add(self, function):
        self.names[function.start] = function.name
        uses = [TARGET.match(operands) or TAKEN.search(operands) for _, _, operands in function.rows]
        self.uses[function.start] = {int(use[1], 16) for use in uses if use}
        if any(ALLOCATES.search(operands) or f"{name} {operands}"[:6] == "call *" for _, name, operands in function.rows):
            self.allocating.add(function.start)
        depths = function.depths()
        following = function.rows[1:] + [(None, "", "")]
        for (address, name, operands), (back, _, _) in zip(function.rows, following):
            if name == "call" and address in depths:
                target = TARGET.match(operands)
                self.calls[back] = (function.start, depths[address], int(target[1], 16) if target else None)

    def name_at(self, address):
        """The name of the function whose call returns to an address, if one does."""
        return self.names[self.calls[address][0]] if address in self.calls else None

    def able_to_allocate(self):
        """The names of the functions that may come to an allocation. One that calls what it is given may."""
        able, more = set(), set(self.allocating)
        while more:
            able |= more
            more = {start for start, used in self.uses.items() if start not in able and not able.isdisjoint(used)}
        return {self.names[start] for start in able}

    def under_way(self, entry, words):
        """The names of the functions under way, the innermost first, where the program's entry has this address, from the
        words of a stack, of which the first is a return address."""
        base, at, below, names = entry - self.entry, 0, None, []
        while at < len(words) and words[at] - base in self.calls:
            start, depth, target = self.calls[words[at] - base]
            if below is not None and target not in (below, None):
                raise BadStack(f"{self.names[start]} called {self.names.get(target)}, not {self.names[below]}")
            names.append(self.names[start])
            below = start
            at += 1 + depth // WORD
        # C code begins a program and each of its threads, and calls what no other function does.
        if below in self.called:
            raise BadStack(f"nothing is seen above {self.names[below]}")
        return names


def stacks_in(data):
    """Each stack that was kept: the address of the program's entry, and its words."""
    at = 0
    while at < len(data):
        entry, length = struct.unpack_from("<QQ", data, at)
        at += 2 * WORD
        yield entry, struct.unpack_from(f"<{length // WORD}Q", data, at)
        at += length


def build_apart(program, command, said):
    """Has `rt` build a program so, next to the one that LLVM built, which stays as it is; or takes the one that is there, if
    it is the later one. Returns the status, 0 where there is one."""
    apart = program + APART
    if os.path.exists(apart) and os.path.getmtime(apart) >= os.path.getmtime(program):
        return 0
    kept = [path for path in (program, f"{program}.o", f"{program}.stamp") if os.path.exists(path)]
    for path in kept:
        os.replace(path, f"{path}.kept")
    try:
        words = ["rt", command[0], "--backend", "rattle", "--opt-level", "0", *command[1:]]
        how = {"cwd": os.path.dirname(os.path.dirname(program)), "stdin": subprocess.DEVNULL}
        # Its tests take longer.
        how["env"] = {"RT_SECONDS": "600", **os.environ}
        status = subprocess.run(words, stdout=said, stderr=said, **how).returncode
        if not status:
            os.replace(program, apart)
        return status
    finally:
        for path in kept:
            os.replace(f"{path}.kept", path)
