#!/usr/bin/env python3
"""Records the run of story.py: the built nbrun makes it under tracer.py, and each step on the words of its map becomes a line of
../watch.html. With --check it says whether the lines that are there are those of a new run, also of the program as Rattle's own compiler
builds it, where that is here; with --print it prints them.

A line is a JSON object: a phase with its calls; a part of the story; a worker's step, with its word, what this held before and after, and
what a compare-and-swap would have put there; or a call's reply. Left out is what the workers do between the phases, where each two of
them meet by loads of the top word, and the counter of keys, which has words of its own."""
import json
import pathlib
import sys

sys.dont_write_bytecode = True
from story import CHUNK, EXPONENTS, OPTIONS, STORY, WORKERS
from tracer import Program, may_trace

PAGE = pathlib.Path(__file__).resolve().parent.parent / "watch.html"
PROGRAM = PAGE.parent.parent / "crates" / "nb_run" / "out" / "nb_run"
# The status where the system lets no process be traced.
MAY_NOT_TRACE = 3
BEGIN, END = '<script type="application/json" id="trace">\n', "</script>"


def words_of_chain():
    """The words of the map in their order, each as its name, its table and its slot: the top word, and then each table's three header
    words and the key and the value of each slot."""
    yield "top", None, None
    for table, exponent in enumerate(EXPONENTS):
        yield from ((word, table, None) for word in ("next", "take", "done"))
        yield from ((word, table, slot) for slot in range(2**exponent) for word in ("key", "value"))


CHAIN = list(words_of_chain())


def script():
    """The script of the story, for nbrun."""
    phases = ("".join(f"{WORKERS.index(worker)} {call}\n" for worker, call in calls.items()) for calls, *_ in STORY)
    return "--\n".join(phases).encode()


def started(built):
    """A new run of a built program, and which of its threads is which worker of the first phase: the last worker's is started first."""
    program = Program([str(built), *OPTIONS], script())
    return program, begun(program, list(STORY[0][0]), 0)


def begun(program, workers, before):
    """Lets the first thread start those of a phase, where so many were started before. It is the first worker's own."""
    while len(program.started) < before + len(workers) - 1:
        if program.first.ahead:
            program.step(program.first)
        program.stop_before(program.first)
    return {workers[0]: program.first, **dict(zip(reversed(workers[1:]), program.started[before:]))}


def place_in_heap(built):
    """How far from the beginning of the heap the map's words lie, the same in each run: by the first compare-and-swap of the second
    worker, which claims the first slot for its key where the worker is alone."""
    program, threads = started(built)
    word = int(STORY[0][0]["B"].split()[1]) + 2
    program.go_on(threads["B"], lambda access: (access.operation, access.expected, access.put) == ("exchange", 0, word))
    place = threads["B"].ahead.address - 8 * CHAIN.index(("key", 0, 0)) - program.heap()
    program.kill()
    return place


def name_of(access, word, table, below):
    """What a thread sets out to do by an access to a word. `below` is the number that is to be copied to this slot, if one is."""
    if access.operation == "load":
        return "load"
    if access.operation == "add":
        return {"take": "take", "done": "count"}[word]
    if access.operation != "exchange":
        raise RuntimeError(f"a {access.operation} of the word {word} of table {table}")
    if word == "key":
        return "close" if access.put == 1 else "claim"
    if word == "value" and access.put & 1:
        return "finish" if access.put & 2 else "prime"
    copies = access.expected == 0 and access.put >> 2 == below
    return {"top": "promote", "next": "install"}.get(word) or ("copy" if copies else "exchange")


class Recorder:
    """A run that is being recorded."""

    def __init__(self, built):
        place = place_in_heap(built)
        self.program, self.threads = started(built)
        begin = self.program.heap() + place
        self.program.region = range(begin, begin + 8 * len(CHAIN))
        self.words = [0] * len(CHAIN)
        self.lines, self.calls, self.last = [], {}, {}

    def word_of(self, access):
        return (access.address - self.program.region.start) // 8

    def below(self, table, key):
        """The number of a key in the table below, if it is being copied, or was."""
        if not table:
            return None
        slots = (at for at, word in enumerate(CHAIN) if word[:2] == ("key", table - 1) and self.words[at] == key)
        return next((self.words[at + 1] >> 2 for at in slots if self.words[at + 1] & 1), None)

    def is_one_step(self, loaded, ahead):
        """Whether a load and the compare-and-swap after it are one step: the machine has no fetch-or or fetch-max that tells what it found,
        and so these are made of the two, again and again where another thread came between, which can't be here."""
        if not ahead or loaded.operation != "load" or ahead.operation != "exchange" or ahead.address != loaded.address:
            return False
        word = CHAIN[self.word_of(ahead)][0]
        return word == "top" or word == "value" and ahead.put & 1 == 1

    def make(self, worker):
        """Lets a worker make one step, and go on up to the next one. Returns the step's name, and its word."""
        thread = self.threads[worker]
        access = thread.ahead
        at = self.word_of(access)
        before = self.words[at]
        self.program.step(thread)
        self.program.stop_before(thread)
        if self.is_one_step(access, thread.ahead):
            access = thread.ahead
            self.program.step(thread)
            self.program.stop_before(thread)
        word, table, slot = CHAIN[at]
        key = self.words[at - 1] if word == "value" else None
        name = name_of(access, word, table, self.below(table, key))
        if name == "finish" and self.last.get(worker) != "copy":
            name = "prime"
        self.words[at] = self.program.word(self.program.region[8 * at])
        line = {"worker": worker, "step": name, "word": word, "table": table, "slot": slot, "before": before, "after": self.words[at]}
        line = {name: part for name, part in line.items() if part is not None}
        self.last[worker] = name
        self.lines.append(line | ({"expected": access.expected, "put": access.put} if access.operation == "exchange" else {}))
        self.sees_same()
        if not thread.ahead:
            self.lines.append({"worker": worker, "call": self.calls.pop(worker)})
        return name, word

    def sees_same(self):
        """Sees that the words are what the steps so far made of them."""
        found = [self.program.word(address) for address in self.program.region[::8]]
        if found != self.words:
            raise RuntimeError(f"the words changed by no step: {found}, and not {self.words}")

    def move(self, move):
        worker, until = move[0], move[1:]
        while worker in self.calls:
            made = self.make(worker)
            if until == "" or until.removeprefix(":") in made:
                return
        if until != "*":
            raise RuntimeError(f"the call ended before the move {move}")

    def phase(self, number):
        calls, *parts = STORY[number]
        before = sum(len(calls) - 1 for calls, *_ in STORY[:number])
        self.threads = begun(self.program, list(calls), before)
        self.calls = dict(calls)
        self.lines.append({"phase": number + 1, "calls": calls})
        for thread in self.threads.values():
            self.program.stop_before(thread)
        for title, told, moves in parts:
            self.lines.append({"part": title, "told": told})
            for move in moves.split():
                self.move(move)
        if self.calls or not self.threads["A"].waits:
            raise RuntimeError(f"phase {number + 1} doesn't end as it should")

    def record(self):
        """The lines of the whole run."""
        for number in range(len(STORY)):
            self.phase(number)
        replies, entries = self.ended()
        for line in self.lines:
            if "call" in line:
                line["reply"] = replies[line["worker"]].pop(0)
        return [*self.lines, {"entries": entries}]

    def ended(self):
        """The replies of each worker and the entries that are left, by what the program has written."""
        lines = [line.split(" ") for line in self.program.finish().splitlines()]
        size = next(at for at, line in enumerate(lines) if line[0] == "size")
        replies = {worker: [line[1] for line in lines[:size] if line[0] == str(at)] for at, worker in enumerate(WORKERS)}
        return replies, [[int(key), int(number)] for key, number in lines[size + 1 :]]


def recorded(built):
    lines = Recorder(built).record()
    head = {"slots": [2**exponent for exponent in EXPONENTS], "chunk": CHUNK, "workers": list(WORKERS)}
    return "".join(json.dumps(line) + "\n" for line in [head, *lines])


def difference(there, text):
    """The first line of the page's run that a new run has otherwise."""
    pairs = zip(there.splitlines() + [""], text.splitlines() + [""])
    at, (old, new) = next((at, pair) for at, pair in enumerate(pairs) if pair[0] != pair[1])
    return f"watch: line {at + 1} of the page's run is {old!r}, and a new run has {new!r}"


def main():
    if not may_trace():
        return MAY_NOT_TRACE
    if "--print" in sys.argv[1:]:
        print(recorded(PROGRAM), end="")
        return 0
    head, rest = PAGE.read_text().split(BEGIN)
    there, tail = rest.split(END, 1)
    if "--check" not in sys.argv[1:]:
        PAGE.write_text(head + BEGIN + recorded(PROGRAM) + END + tail)
        return 0
    stale = 0
    for built in (PROGRAM, PROGRAM.with_name("nb_run.by-rattle")):
        if built.exists() and (text := recorded(built)) != there:
            print(f"{built.name}: {difference(there, text)}")
            stale = 1
    return stale


if __name__ == "__main__":
    sys.exit(main())
