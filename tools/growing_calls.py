"""Lists the calls of a crate's public surface that can find no memory, as its sources declare them.

These are the functions that a crate exports, and the methods of what it exports, that return an error of which one is out
of memory, or a reply that says so. A method of a trait is listed for each type that has its own. One whose parameter is
called `_alloc` takes no memory. A program that makes a call shows whether it may come to an allocation at all.
"""

import collections
import os
import re
import runpy
import threading

from call_stacks import Program, stacks_in

TOOLS = os.path.dirname(os.path.abspath(__file__))
READER = runpy.run_path(os.path.join(TOOLS, "calling"))

BLOCK = re.compile(r"^impl(<.*?>)? ?(.*?){", re.M | re.S)
OF_TRAIT = re.compile(r"(?:\w+::)*(\w+)(?:<.*?>)? for (\w+)")
REFUSES = re.compile(r"\bResult<.*\b(AllocError|\w*Fault)>$")
REPLIES = re.compile(r"^(HttpReply|RoomReply|Wanted)$")


def can_find_no_memory(head, trait=""):
    """Whether an allocation can fail in a call with this signature. A method of our own traits gets its allocator as `alloc`."""
    result = head.rpartition(" -> ")[2]
    is_given = bool(re.search(r"\balloc: Global", head))
    takes_some = is_given or not trait and "_alloc: " not in head
    return takes_some and bool(REFUSES.search(result) or is_given and REPLIES.search(result))


def blocks_in(text):
    """Each block of methods: where it begins and ends, its type, and its trait, if it is of one."""
    for match in BLOCK.finditer(text):
        of_trait = OF_TRAIT.match(match[2])
        name = of_trait[2] if of_trait else re.match(r"\w+", match[2])[0]
        end = READER["block_end"](text, match.end() - 1, True)
        yield match.start(), end, name, of_trait[1] if of_trait else ""


def exports_of(crate):
    """What a crate exports: each name, with the crate that it stands in."""
    lib = READER["without_comments"](READER["read"](f"crates/{crate}/src/lib.rt"))
    for module, several, single in re.findall(r"pub use (\w+)::(?:{([^}]*)}|(\w+));", lib):
        is_crate = os.path.isdir(os.path.join(READER["ROOT"], "crates", module))
        for name in re.findall(r"\w+", several or single):
            yield name, module if is_crate else crate


def declared_in(crate):
    """The calls that a crate declares, each with its type, or with none, and with its name in a program's symbols, of which
    the modules are left out."""
    for path in READER["sources"](crate, []):
        text = READER["without_comments"](READER["read"](path))
        blocks = list(blocks_in(text))
        for start, end, name, trait in blocks:
            for _, method, head, _ in READER["calls_in"](text, start, end, "fn " if trait else "pub fn "):
                if can_find_no_memory(head, trait):
                    told = f"<{name} as {trait}>::{method}" if trait else f"{name}::{method}"
                    yield name, told, f"{name}{trait}::{method}"
        for place, function, head, _ in READER["calls_in"](text, 0, len(text), "pub fn "):
            if can_find_no_memory(head) and not any(start <= place < end for start, end, _, _ in blocks):
                yield function, function, function


def growing_calls(crates, but=()):
    """The calls of these crates that can find no memory, but those, by their crate and name in a program's symbols."""
    found = {}
    for exporting in crates:
        exports = list(exports_of(exporting))
        for crate in sorted({crate for _, crate in exports}):
            names = {name for name, its_crate in exports if its_crate == crate}
            for name, told, symbol in declared_in(crate):
                if name in names:
                    found[crate, symbol] = f"{crate} {told}"
    strange = set(but) - set(found.values())
    if strange:
        raise ValueError(f"no call {strange.pop()}")
    return {call: told for call, told in found.items() if told not in but}


def symbol_of(name):
    """The crate and the name of a program's symbol, without its modules and what it is made for."""
    path = name.partition("::<")[0].split("::")
    last = 2 if len(path) > 2 and path[-2][:1].isupper() else 1
    return path[0], "::".join(path[-last:])


class RefusedCalls:
    """How often memory was refused in each of these calls, by what is noted of some programs, which make all of them, or
    those that they happen to."""

    def __init__(self, calls, all_are_made=True):
        self.calls, self.all_are_made = calls, all_are_made
        self.counts = collections.Counter()
        self.made, self.able = set(), set()
        self.lock = threading.Lock()

    def noted_by(self, path):
        """Takes the stacks of a run of the program at a path, at each refusal one, and counts the calls under way in them."""
        program = Program(path)
        self.made |= {symbol_of(name) for name in program.names.values()}
        self.able |= {symbol_of(name) for name in program.able_to_allocate()}

        def note(stacks):
            for stack in stacks_in(stacks):
                calls = {symbol_of(name) for name in program.under_way(*stack)} & self.calls.keys()
                with self.lock:
                    self.counts.update(calls)

        return note

    def missing(self):
        """The calls in which memory never was refused, but those that take none, with whether a program makes them."""
        wanted = self.able | (self.calls.keys() - self.made if self.all_are_made else set())
        missing = [(call, told) for call, told in self.calls.items() if call in wanted and not self.counts[call]]
        return [f"{told}: NEVER {'refused' if call in self.made else 'made'}" for call, told in missing]

    def tell(self, all_are_wanted):
        """Prints how often memory was refused in each call, and says whether that is enough."""
        for call, told in self.calls.items():
            if self.counts[call]:
                print(f"{told}: refused {self.counts[call]} times")
        missing = self.missing()
        for told in missing if all_are_wanted else []:
            print(told)
        refused = sum(1 for count in self.counts.values() if count)
        print(f"memory was refused in {refused} calls, and never in {len(missing)} others that can find none")
        return not (all_are_wanted and missing)
