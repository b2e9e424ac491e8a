# SPDX-License-Identifier: Apache-2.0
"""
The trial `unsynced` of `run`: a machine that loses its power again and again, whose disk has what was synced, and of the rest what a disk may; and
`synced`, whether there are syncs.
"""

import fcntl
import random
import shutil
import struct
import subprocess
import time
from collections import Counter
from pathlib import Path

from story import WELL, Programs, Story, check
from trials import die_often

HERE = Path(__file__).resolve().parent
# How much longer a sync takes, in microseconds, so that many losses fall into one.
DELAY = 300
# A record of unsynced.c: what was done, where, and how many octets follow.
RECORD, WRITTEN, CUT, DELETED = struct.Struct("=QQQ"), 0, 1, 2
# What of the records may come to the disk all the same, of a hundred, and how many of the writes of these only by half.
SHARES, HALVES = (0, 50, 90, 100), 20


def built_shim(folder, compiler=("cc",)):
    """The library by which a program writes to such a disk, or syncs more slowly."""
    shim = folder / "unsynced.so"
    subprocess.run([*compiler, "-O2", "-fPIC", "-shared", "-o", shim, HERE / "unsynced.c"], check=True)
    return shim


def octets_of(path):
    """The octets of a file. One that is not there is as good as an empty one."""
    return path.read_bytes() if path.exists() else b""


def changed(octets, records):
    """A file's octets after what these records say."""
    octets = bytearray(octets)
    for kind, at, new in records:
        if kind == WRITTEN:
            octets.extend(bytes(max(0, at - len(octets))))
            octets[at : at + len(new)] = new
        else:
            del octets[at:]
    return octets


def records_in(path):
    """The records of a list: what was done, where, and with which octets."""
    octets, at = octets_of(path), 0
    while at < len(octets):
        kind, place, length = RECORD.unpack_from(octets, at)
        at += RECORD.size + length
        yield kind, place, octets[at - length : at]


class Machine:
    """A machine with a store on its disk, whose processes are line_node and kunchrol-compact."""

    def __init__(self, folder, seed):
        self.store, self.disk, self.random, self.counts = folder / "store", folder / "disk", random.Random(seed), Counter()
        self.disk.mkdir()
        self.files = [Path(f"{self.store}{end}") for end in ("", "-wal", "-journal")]

    def programs(self, programs):
        """
        The same programs, on this machine. (ASAN_OPTIONS: a sanitizer wants to be the first library of a process; and looks for leaks at its end by
        a process of its own, which says so if the first one is killed meanwhile.)
        """
        folder = Path(programs.line_node[-1]).parent
        words = {"LD_PRELOAD": folder / "unsynced.so", "UNSYNCED_STORE": self.store, "UNSYNCED_DISK": self.disk, "UNSYNCED_MICROSECONDS": DELAY,
                 "ASAN_OPTIONS": "verify_asan_link_order=0:detect_leaks=0"}
        return Programs(folder, ["env", *(f"{name}={value}" for name, value in words.items())])

    def sync(self):
        """The disk has all that there is."""
        for file in self.files:
            for it in self.disk.glob(f"{file.name}*"):
                it.unlink()
            if file.exists():
                shutil.copy(file, self.disk)

    def wait_for_file(self, process):
        """Waits until a write of the store's own file is not synced, or the process has ended."""
        listed = self.disk / f"{self.store.name}.list"
        while process.poll() is None and not (listed.exists() and listed.stat().st_size):
            time.sleep(DELAY / 1e7)

    def kill(self, *processes, then=lambda: None):
        """Ends processes, none of which has a write in its file that is not yet in the list, or the other way round."""
        with open(self.disk / "lock", "a") as lock:
            fcntl.flock(lock, fcntl.LOCK_EX)
            for process in filter(None, processes):
                process.kill()
                process.wait()
            then()

    def lose_power(self, *processes):
        """All processes end at one moment; then there is what the disk has, and no index of the write-ahead log, which is in memory only."""
        self.kill(*processes, then=self.lose)

    def lose(self):
        for file in self.files:
            self.lose_of(file, self.disk / file.name, self.disk / f"{file.name}.list")
        Path(f"{self.store}-shm").unlink(missing_ok=True)

    def lose_of(self, file, copy, listed):
        """A file becomes what the disk has of it, with what comes to the disk all the same."""
        records, synced = [*records_in(listed)], octets_of(copy)
        check(changed(synced, records) == octets_of(file), f"{file.name} has not what was synced and what was not")
        self.counts[f"losses with unsynced writes of {file.name}"] += any(kind == WRITTEN for kind, _, _ in records)
        left = changed(synced, self.chosen(records))
        for it in (listed, file, copy):
            it.unlink(missing_ok=True)
        for it in (file, copy) if left else ():
            it.write_bytes(left)

    def chosen(self, records):
        """Those that come to the disk. If a file's end does not, neither does what is in a later one of its name."""
        share = self.random.choice(SHARES)
        for kind, at, octets in records:
            is_there, is_half = self.random.randrange(100) < share, self.random.randrange(100) < HALVES
            if kind == WRITTEN:
                self.counts["lost" if not is_there else "written by half" if is_half else "written"] += 1
            if is_there:
                yield kind, at, octets[: len(octets) // 2] if is_half else octets
            elif kind == DELETED:
                return


def end_and_die(story, machine, pick):
    """A loss while a process that is alone, of either program, ends: it writes what the log has into the file, and deletes the log."""
    node = story.started()
    story.go_on(node, 3)
    process = node.process
    node.process.stdin.close()
    if pick.randrange(2):
        check(node.end() == (WELL, ""), "not ended")
        process = subprocess.Popen([*story.programs.compact, story.store.where], stdout=subprocess.DEVNULL)
    machine.wait_for_file(process)
    time.sleep(pick.uniform(0, 4 * DELAY) / 1e6)
    machine.lose_power(process)


def unsynced(programs, place, deaths):
    machine, pick = Machine(place.folder, 3), random.Random(4)
    story = Story(machine.programs(programs), place, 1)
    node = story.started()
    for _ in range(2):  # since most compactions are killed from here on
        story.go_on(node, 3)
        story.compact()
    check(node.end() == (WELL, ""), "not ended")
    machine.sync()
    story.kill = machine.kill
    for _ in range(deaths // 2):
        end_and_die(story, machine, pick)

    def kill(node, beside):
        with beside.starts:
            machine.lose_power(node.process, beside.process)

    said = die_often(story, deaths, kill, deaths // 20)
    return f"{said}; {', '.join(f'{count} {name}' for name, count in sorted(machine.counts.items()) if count)}"


def synced(programs, place):
    """Whether there are at least as many syncs as rows."""
    story, rows = Story(programs, place, 8), 20
    told = story.folder / "calls"
    traced = Programs(Path(programs.line_node[0]).parent, ["strace", "-f", "-e", "trace=fsync,fdatasync", "-o", str(told)])
    done = traced.ran([story.store.where], "O 234150000000001 11\nW\n" * rows)
    if done.returncode and not done.stdout:
        return f"strace cannot trace here: {done.stderr}"
    count = told.read_text().count("sync(")
    check(done.stdout.count("W ") == rows + 1 and count > rows, f"{count} syncs for {rows} rows: {done.stdout[-100:]}")
    return None
