# SPDX-License-Identifier: Apache-2.0
"""What the trials of `run` are made of: events, the two programs, and what a store was given and what came out of it."""

import os
import random
import re
import shutil
import subprocess
import sys
from pathlib import Path

TOP = Path(__file__).resolve().parent.parent
KIT = Path(os.path.realpath(shutil.which("rt") or sys.exit("there is no rt"))).parent.parent
CLANG = [str(KIT / "toolchain/bin/clang"), "-fuse-ld=lld", "-isystem", str(TOP / "integrations/c/headers")]
# The programs, with the file in which each begins.
PROGRAMS = {"line_node": "line_node", "kunchrol-compact": "compact"}
# How many events a group has at most, and how long a program may take.
GROUP, SECONDS = 12, 60
# How the programs end: status.h.
WELL, WORDS, STORE, TAKEN, REFUSED, NONE, STOPPED, PIPE = 0, 2, 3, 4, 5, 6, 7, 8


class Wrong(Exception):
    """What a trial found."""


def check(is_well, words):
    if not is_well:
        raise Wrong(words)


# ---- events


def frames_of_c():
    """The two frames of integrations/c/frames.h."""
    texts = re.findall(r"(?s)(ROUTE|UPDATE)\[\] = \{(.*?)\}", (TOP / "integrations/c/frames.h").read_text())
    return {name: bytes(int(it, 16) for it in re.findall(r"0x(\w\w)", text)) for name, text in texts}


FRAMES = frames_of_c()
ASKING = "447700909999"
NINE_CODES = "11,12,20,21,22,61,62,91,92"
SERVING = "447700900011,447700900001,-,s"
RECORDS = "HLR1 447700900100\n" + "".join(
    f"2341500000000{it:02} 4477009000{it - 1:02} {'11,21' if it % 2 else NINE_CODES} * {SERVING if it % 3 else '-'}\n" for it in range(1, 21)
)


class Peers:
    """Events by a seed: routes, updates and changes of twenty subscribers, answers in the dialogues that were seen, clock values, expiries."""

    def __init__(self, seed):
        self.random, self.ids, self.clock = random.Random(seed), [(bytes(4), bytes(4))], 0

    def note(self, frame):
        """Notes the ids of a frame that begins a dialogue, or goes on with it."""
        octets = bytes.fromhex(frame.split()[2])
        at = {0x81: 5, 0x82: 6}.get(octets[1], 4)
        if octets[0] in (0x62, 0x65):
            local = octets[at : at + 4]
            self.ids = [*self.ids[-7:], (local, octets[at + 6 : at + 10] if octets[0] == 0x65 and octets[at + 5] == 4 else local)]

    def update(self):
        frame, subscriber = bytearray(FRAMES["UPDATE"]), self.random.randint(1, 20)
        frame[6:8] = self.random.randbytes(2)
        frame[60:62] = subscriber // 10 * 16, 0xF0 + subscriber % 10
        frame[79] = self.random.randrange(10) * 16 + 1
        return bytes(frame)

    def answer(self):
        local, remote = self.random.choice(self.ids)
        result = bytes([0x6C, 5, 0xA2, 3, 2, 1, self.random.randint(1, 2)])
        ends = [b"\x64\x0d\x49\x04" + local + result, b"\x64\x06\x49\x04" + local]
        return self.random.choice([b"\x65\x13\x48\x04" + remote + b"\x49\x04" + local + result] * 2 + ends)

    def noted(self, line):
        """An event, and before it a note if it names a peer's id."""
        octets = bytes.fromhex(line.split()[2]) if line[0] == "F" else b" "
        words = f"{self.random.randrange(3)} 187 7 4 0 1 4 {ASKING}"
        return [f"# note {ASKING} {octets[4:8].hex().upper()} {words}", line] if octets[0] in (0x62, 0x65) else [line]

    def event(self):
        kind, imsi = self.random.randrange(20), f"2341500000000{self.random.randint(1, 20):02}"
        if kind < 13:
            frame = FRAMES["ROUTE"] if kind < 2 else self.update() if kind < 7 else self.answer()
            return f"F {ASKING} {frame.hex().upper()}"
        if kind < 16:
            self.clock += self.random.randrange(3)
            return f"C {self.clock}"
        if kind < 18:
            return f"E {self.random.randrange(16)}"
        return f"O {imsi} {self.random.choice(['11,21', '-', NINE_CODES])}" if self.random.randrange(100) else f"X {imsi}"

    def group(self):
        return [line for _ in range(self.random.randint(1, GROUP)) for line in self.noted(self.event())]


# ---- programs


class Programs:
    """The two programs, in a folder, with words before them."""

    def __init__(self, folder, before=()):
        self.line_node, self.compact = ([*before, f"{folder}/{name}"] for name in PROGRAMS)

    def compacted(self, store, **how):
        return subprocess.run([*self.compact, store.where], capture_output=True, text=True, timeout=SECONDS, **how)

    def ran(self, words, text="", **how):
        return subprocess.run([*self.line_node, *map(str, words)], input=text, capture_output=True, text=True, timeout=SECONDS, **how)

    def listed(self, store):
        """The records and dialogues of a store."""
        done = self.ran(["--list", store.where])
        check(done.returncode == WELL and not done.stderr, f"the list of {store.where}: {done}")
        return done.stdout


class Node:
    """A process line_node."""

    def __init__(self, programs, store, *words, **how):
        pipes = {"stdin": subprocess.PIPE, "stdout": subprocess.PIPE, "stderr": subprocess.PIPE}
        self.process = subprocess.Popen([*programs.line_node, *words, store.where], text=True, **pipes, **how)

    def leads(self):
        """The number of the row with which it leads, or None if the process ended before that."""
        line = self.process.stdout.readline()
        while line.startswith("follows "):
            line = self.process.stdout.readline()
        return int(line.split()[1]) if line.endswith("\n") else None

    def give(self, lines):
        try:
            self.process.stdin.write("".join(f"{it}\n" for it in [*lines, "W"]))
            self.process.stdin.flush()
        except BrokenPipeError:
            pass

    def take(self):
        """The frames up to the next W, and its number, or None if the process ended before it."""
        frames = []
        for line in self.process.stdout:
            if line[0] == "W" and line[-1] == "\n":
                return frames, int(line.split()[1])
            frames.append(line)
        return [it for it in frames if it[0] == "S" and it[-1] == "\n"], None

    def commit(self, lines):
        self.give(lines)
        return self.take()

    def end(self, how=None):
        """The status, and what came on standard error."""
        if how:
            self.process.send_signal(how)
        try:
            self.process.stdin.close()
        except BrokenPipeError:
            pass
        with self.process.stdout, self.process.stderr:
            said = self.process.stderr.read()
        return self.process.wait(SECONDS), said


# ---- stories


def events_of(row):
    """The events of a row's text, without its first line."""
    return row.decode().splitlines()[1:]


def is_within(few, lines):
    """Whether these lines are among those, in their order: a row has no line of a group that was no event."""
    rest = iter(lines)
    return all(it in rest for it in few)


class Story:
    """A store, what it was given, and what came out, to be compared with a run that never died."""

    def __init__(self, programs, place, seed):
        self.programs, self.place, self.folder, self.peers = programs, place, place.folder, Peers(seed)
        self.store = place.store("store")
        self.records = place.folder / "records"
        self.records.write_text(RECORDS)
        begun = programs.ran([self.store.where, self.records])
        check((begun.returncode, begun.stdout, begun.stderr) == (WELL, "leads 1\nW 1\n", ""), f"begun: {begun}")
        self.store.keep_rows()
        self.first = self.store.copied("first")
        # The lines of each row, what was seen of its frames, and whether all was; a process leads by a row without lines. Groups of which nobody
        # knows whether they are rows, with what was seen of their frames.
        self.rows, self.sent, self.doubts = [[]], [([], True)], []

    @staticmethod
    def kill(process):
        process.kill()

    def node(self, *words, **how):
        return Node(self.programs, self.store, *words, **how)

    def confirm(self, lines, frames, number, is_whole=True):
        """Notes what came out of a group."""
        check(number - len(self.rows) in (0, 1), f"row {number} after {len(self.rows)}")
        check(number > len(self.rows) or not frames, f"frames of a group that is not in the store: {frames}")
        if number > len(self.rows):
            self.rows.append(lines)
            self.sent.append((frames, is_whole))
        for frame in frames:
            self.peers.note(frame)

    def find(self, lines):
        """The group in doubt of which these are the lines in the store."""
        found = next((it for it in self.doubts if is_within(lines, it[0])), None)
        check(found, f"a row that nobody gave: {lines}, in doubt {self.doubts}")
        self.doubts.remove(found)
        return found

    def settle(self, number):
        """Notes that a process leads since this row: all rows up to it are known now, and no other group comes later."""
        check(number > len(self.rows), f"row {number} leads, and of {len(self.rows)} it was told that they are durable")
        texts = self.store.row_texts(len(self.rows))
        for at in range(len(self.rows) + 1, number + 1):
            check(at in texts, f"row {at} is missing, and row {number} leads")
            lines = events_of(texts[at])
            given, frames = self.find(lines) if lines else ([], [])
            self.confirm(given, frames, at, not lines)
        check(not any(frames for _, frames in self.doubts), f"frames of a group that is not in the store: {self.doubts}")
        self.doubts = []

    def begin(self, node):
        """Whether a process that was just started leads."""
        number = node.leads()
        if number is not None:
            self.settle(number)
        return number is not None

    def started(self, **how):
        node = self.node(**how)
        check(self.begin(node), f"not started: {node.end() if node.process.poll() else ''}")
        return node

    def commit(self, node, lines):
        frames, number = node.commit(lines)
        check(number is not None, f"ended: {node.end() if number is None else ''}")
        self.confirm(lines, frames, number)

    def go_on(self, node, groups):
        for _ in range(groups):
            self.commit(node, self.peers.group())

    def compact(self, **how):
        done = self.programs.compacted(self.store, **how)
        check(done.returncode == WELL and not done.stderr, f"compact: {done}")

    def compare(self):
        """Compares all with one run that never died."""
        texts = self.store.row_texts()
        check(list(texts) == list(range(1, len(self.rows) + 1)), f"rows {list(texts)[-3:]} in the store, {len(self.rows)} are known")
        check(all(is_within(events_of(texts[at]), lines) for at, lines in enumerate(self.rows, 1)), "rows with other lines than were given")
        played = self.programs.ran([self.first.where], "".join(f"{line}\n" for lines in self.rows for line in [*lines, "W"]))
        check(played.returncode == WELL and not played.stderr, f"the run that never died: {played.returncode} {played.stderr}")
        frames, came = [], []
        for line in played.stdout.splitlines(keepends=True)[1:]:
            if line[0] == "W":
                came.append(frames)
                frames = []
            else:
                frames.append(line)
        check(len(came) == len(self.rows) + 1, f"the run that never died: {played.stdout[-300:]}")
        for row, ((seen, is_whole), wanted) in enumerate(zip(self.sent, came), 1):
            check(seen == (wanted if is_whole else wanted[: len(seen)]), f"row {row}: other frames than in a run that never died")
        whole, own = self.programs.listed(self.first), self.programs.listed(self.store)
        check("\nD " in whole and own == whole, "other records, dialogues or notes than in a run that never died")
        noted = any(line[0] == "#" for lines in self.rows for line in lines)
        check(not noted or "\n# note " in whole, "no note of an open dialogue")
        for store in (self.first, self.store):
            check(self.programs.compacted(store).returncode == WELL, "the image at the end")
        check(self.store.image() == self.first.image(), "another image than in a run that never died")
