# SPDX-License-Identifier: Apache-2.0
"""The rounds of `run` in which a VLR begins updates by the thousand and answers nothing: --load and --away."""

import os
import re
import signal
import time
from contextlib import ExitStack
from pathlib import Path

from programs import HERE, NUMBER, PORTS, Running, Wrong, check, started_stp

SCRIPT = HERE.parent.parent / "examples/whole_update.script"
SUBSCRIBERS = 200_000
# What is judged of a tick, in microseconds of the processor: other processes have the machine too.
LONGEST = 50_000
# A load of VLRs: so many ticks a second, so that a timer runs 20 seconds; what may wait in the program `load`: all; how many updates may have no answer
# yet: few enough that the register drops none of what it sends where the STP has too little of the processor.
LOAD_TICKS, TIMER, ALL, UNANSWERED = 1, 20, 10**9, 8192
LOAD_TOLD = re.compile(
    r"load: (\d+) begun, (\d+) inserts, (\d+) ended by error 34, (\d+) turned away, (\d+) without an end, (\d+) not sent, (\d+) strange\n$")
REGISTER_TOLD = re.compile(
    r"hlr: (\d+) frames taken, (\d+) sent, (\d+) lost, (\d+) faults, (\d+) returned, longest tick (\d+) microseconds \((\d+) of the processor\)\n$")
# A load in which the STP dies: ticks a second; how long it is away at least; how long the load goes on, if it is not held up. If the load is the sender
# it has begun all before the STP comes again: so what waits is known.
AWAY_TICKS, AWAY, ON = 4, 3, 14
# Updates a second, and how long they fill sockets.
FEW, MANY, SHORT, LONG = 1000, 5000, 0.3, 7
# How long those who are stopped, or go on, have until that is so, and how long all may take to come to rest.
REST, LONGEST_WAIT = 0.1, 60
# The octets of a frame from number to number on its way, less those of its user data: IPA, and UDT with two addresses (Q.713).
WRAPPING, UPDATE = 3 + 8 + 2 * 13, len(SCRIPT.read_text().split()[2]) // 2
# A frame that answers an update of the load, with the id of that.
ANSWER = re.compile(r"S \d+ (?:65(?:81)?..4804.{8}|67..)4904(.{8})")


class Loaded:
    """An STP, the register with many subscribers, and the load."""

    def __init__(self, ends, folder, programs, way, ticks, *more):
        self.ends, self.folder, self.programs, self.way = ends, Path(folder), programs, way
        records = self.folder / "records"
        lines = (f"234150{n:09} 447{n:09} 11,21 * 447700900011,447700900001,-,s\n" for n in range(SUBSCRIBERS))
        records.write_text("HLR1 447700900100\n" + "".join(lines))
        self.stp = started_stp(ends, folder, way)
        self.register = Running(ends, folder, [programs["register"], records, way, ticks, *more])
        check(self.register.waits_for("hlr: up"), f"the register did not start: {self.register.said.read_text()}")

    def begin(self, rate, seconds, frames=ALL, octets=ALL, unanswered=ALL):
        words = [self.programs["load"], NUMBER, SCRIPT, SUBSCRIBERS, rate, seconds, self.way, frames, octets, unanswered]
        self.load = Running(self.ends, self.folder, words)


# ---- load


def loaded(folder, programs, way, rate, seconds):
    """Plays a load, within what the shards hold or past it."""
    with ExitStack() as ends:
        it = Loaded(ends, folder, programs, way, LOAD_TICKS)
        memory = [it.register.memory()]
        it.begin(rate, seconds, unanswered=UNANSWERED)
        for told, longest in (("begun in", 2 * seconds + 60), ("strange\n", 3 * TIMER)):
            check(it.load.waits_for(told, seconds=longest), f"the load has no end: {it.load.said.read_text()}{it.register.said.read_text()}")
            memory.append(it.register.memory())
        statuses = it.load.end(), it.register.end()
        said, told = it.load.said.read_text(), it.register.out.read_text()
        print(f"{said}{it.register.said.read_text()}{told}", end="")
    (start, _), (after, _), (end, most) = memory
    print(f"memory of the register, kilobytes: {start} at the start, {after} after the last Begin, {end} at the end; at most {most}")
    begun, inserts, failed, away, *_ = map(int, LOAD_TOLD.search(said).groups())
    taken, sent, dropped, *_, elapsed, processor = map(int, REGISTER_TOLD.search(told).groups())
    to, back = begun - taken, sent - dropped - inserts - failed - away
    print(f"lost by the STP: {to} frames to the register, {back} from it")
    check(statuses == (0, 0) and not to and not back, f"statuses {statuses}, {dropped} frames of the register were dropped")
    check(processor < LONGEST, f"a tick took {processor} microseconds of the processor, {elapsed} in all")


# ---- away


def on_the_way(process, port):
    """The octets in the sockets between a process and the STP: from it, and to it in the STP's own."""
    own = {os.readlink(it) for it in Path(f"/proc/{process.pid}/fd").iterdir()}
    lines = [it.split() for it in Path("/proc/net/tcp").read_text().splitlines()[1:]]
    here = next(it for it in lines if f"socket:[{it[9]}]" in own and it[2].endswith(f":{port:04X}"))
    there = next(it for it in lines if it[1:3] == here[2:0:-1])
    (sent, _), (unsent, unread) = ([int(part, 16) for part in it[4].split(":")] for it in (here, there))
    return sent + unread, unsent


def send(what, *programs):
    for it in programs:
        it.send(what)
    time.sleep(REST)


def waits_until(is_so, words):
    """Waits until something is so for a while."""
    end, times = time.monotonic() + LONGEST_WAIT, 0
    while times < 5:
        check(time.monotonic() < end, words)
        times = times + 1 if is_so() else 0
        time.sleep(REST)


def stop(it, sender, hearer):
    """Stops a sender, and waits until the STP has passed on to who hears it all that it sent."""
    send(signal.SIGSTOP, sender)
    ports = PORTS[it.way]
    waits_until(lambda: on_the_way(sender.process, ports)[0] == 0 == on_the_way(hearer.process, ports)[1], "the STP does not come to rest")


def fill_sockets(it, sender, hearer, seconds):
    """Stops the STP when it has nothing of the sender's, lets the sender fill its sockets, and stops both."""
    stop(it, sender, hearer)
    send(signal.SIGSTOP, it.stp)
    send(signal.SIGCONT, sender)
    time.sleep(seconds)
    send(signal.SIGSTOP, sender, hearer)


def leave_unread(it, sender, hearer, seconds):
    """Stops the sender, for which frames come, when the STP has nothing more of it."""
    stop(it, sender, hearer)
    time.sleep(seconds)


def kill(it):
    """Kills the STP. Returns the octets that were in the sockets of the two."""
    sockets = {one: on_the_way(one.process, PORTS[it.way]) for one in (it.load, it.register)}
    it.stp.kill()
    send(signal.SIGCONT, it.load, it.register)
    return sockets


def start_again(it, first, second):
    """Starts the STP again; of the two who try to reach it one is there before the other does."""
    send(signal.SIGSTOP, second)
    it.stp = started_stp(it.ends, it.folder, it.way)
    check(first.waits_for(": up", 2), f"not back: {first.said.read_text()}")
    send(signal.SIGCONT, second)
    check(second.waits_for(": up", 2), f"not back: {second.said.read_text()}")


def grows(file, sizes={}):
    """Whether a file has another size than when this was asked last."""
    before, sizes[file] = sizes.get(file), file.stat().st_size
    return before != sizes[file]


def played_away(folder, programs, way, rate, prepare, seconds, is_load_first, *limits):
    """A load in which the STP dies and comes again. Returns the programs as they ended, what was sent and what came, and what was in the sockets."""
    timer = TIMER / AWAY_TICKS
    with ExitStack() as ends:
        sent = Path(folder, "sent")
        it = Loaded(ends, folder, programs, way, AWAY_TICKS, sent)
        it.begin(rate, timer + 1 + seconds + ON, *limits)
        time.sleep(timer + 1)  # so that timers run out
        hearer, sender = (it.load, it.register) if is_load_first else (it.register, it.load)
        prepare(it, sender, hearer, seconds)
        sockets = kill(it)
        time.sleep(AWAY)
        if sender == it.load:
            check(it.load.waits_for("begun in", seconds=LONGEST_WAIT), "the load does not end")
        start_again(it, hearer, sender)
        check(it.load.waits_for("begun in", seconds=LONGEST_WAIT), "the load does not end")
        time.sleep(timer + 1)
        waits_until(lambda: not grows(it.load.out) and not grows(sent), "frames come all the time")
        ended = it.register.end()
        waits_until(lambda: not grows(it.load.out), "frames come all the time")
        it.load.end()
        print(it.load.said.read_text() + it.register.said.read_text() + it.register.out.read_text(), end="")
        check("ASP without AS" not in it.stp.said.read_text(), "a frame came before the STP knew from whom")
    return it, ended, sent.read_text().splitlines(), it.load.out.read_text().splitlines(), sockets


def waited(program):
    """How many frames waited when the STP was there again, and how many were lost until then."""
    return tuple(map(int, re.findall(r": up, (\d+) frames wait, (\d+) lost", program.said.read_text())[1]))


def lost_in(sent, came):
    """What did not come, if that stood side by side, and all else came in order."""
    same = next((at for at, (one, other) in enumerate(zip(sent, came)) if one != other), min(len(sent), len(came)))
    again = len(sent) - len(came) + same
    check(same <= again and sent[again:] == came[same:], f"of {len(sent)} sent {len(came)} came, and not in order with one gap")
    return sent[same:again]


def register_waits(folder, programs, way, prepare):
    """The register's frames, in order, but for those in the sockets of the STP that died."""
    it, status, sent, came, sockets = played_away(folder, programs, way, FEW, prepare, SHORT, True)
    lost, (waiting, dropped) = lost_in(sent, came), waited(it.register)
    octets, there = sum(len(line.split()[2]) // 2 + WRAPPING for line in lost), sockets[it.register][0] + sockets[it.load][1]
    print(f"of {len(sent)} frames that the register sent {waiting} waited, {len(lost)} were lost, {octets} octets; in the sockets were {there}")
    check(not status and not dropped and waiting, f"status {status}, {waiting} waited, {dropped} dropped")
    check((there > 0) == (prepare == fill_sockets), f"{there} octets were in the sockets")
    check(octets == there, "other frames are lost than those in the sockets")


def limit_holds(folder, programs, way, rate, seconds, most, frames, octets):
    """The load's frames, of which at most so many may wait: the newest of them come, in order."""
    it, _, sent, _, sockets = played_away(folder, programs, way, rate, fill_sockets, seconds, False, frames, octets)
    taken = [int(found[1], 16) for found in map(ANSWER.match, sent) if found]
    begun = int(LOAD_TOLD.search(it.load.said.read_text())[1])
    lost, dropped = lost_in(list(range(begun)), taken), waited(it.load)[1]
    there = sockets[it.load][0] + sockets[it.register][1]
    rest, kept = len(lost) - dropped, begun - 1 - max(lost, default=-1)
    print(f"{kept} updates waited, {dropped} were dropped, {rest} more lost, {rest * (UPDATE + WRAPPING)} octets; in the sockets were {there}")
    check(dropped and kept == most, f"{dropped} were dropped, and {kept} waited, where {most} may")
    check(rest * (UPDATE + WRAPPING) == there, "other frames are lost than those in the sockets and the oldest that waited")


# ---- all


def tried(trial, *words):
    try:
        trial(*words)
    except Wrong as wrong:
        return str(wrong)
    return None


def load_rounds(folder, programs, way, rate, seconds):
    for each in (rate, 2 * rate):
        yield f"{each} updates a second", tried(loaded, folder, programs, way, each, seconds)


def away_rounds(folder, programs, way):
    if way != "ipa":
        print("what is in the sockets is seen with IPA only: not tried")
        return
    with_all = folder, programs, way
    yield "the register's frames wait, but for those in the sockets", tried(register_waits, *with_all, fill_sockets)
    yield "the register's frames wait, with some that it has not read", tried(register_waits, *with_all, leave_unread)
    yield "a limit of frames, with full sockets", tried(limit_holds, *with_all, MANY, LONG, 5000, 5000, ALL)
    yield "a limit of octets", tried(limit_holds, *with_all, FEW, SHORT, 500, ALL, 500 * UPDATE)
