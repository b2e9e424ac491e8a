# SPDX-License-Identifier: Apache-2.0
"""The trials of `run_sccp`. Each raises Wrong, or returns what there is to say."""

import os
import random
import re
import signal
import socket
import sqlite3
import struct
import subprocess
import time
from pathlib import Path

from programs import started_stp
from sccp_node import CONFIG, CONSOLE, CONTROL, RATE, SECONDS, SUBSCRIBERS, control, many, started
from sccp_pair import pair
from sccp_peer import CONTINUE, END, HLR, MSC, OWN_POINT_CODE, QUIET, VLR, Peer, Vlr, address, has_error, ids_of, imsi_of, result, route, update
from story import TOP, check

# How often it is killed, and started, and how many frames are a flood.
DEATHS, STARTS, FLOOD = 20, 20, 40_000
# How many frames may wait for the STP (kunchrold/signalling.c), and how many more there are.
UNSENT, DROPPED = 65_536, 100
# How many of those confirmed last are asked for after each death.
LATEST = 50

# ---- frames


def examples(ends, folder, programs):
    _, it = started(ends, folder, programs)
    rounds = programs["rounds"]
    route = rounds.wanted_of("first_route")
    without_digits = re.sub(r"S \d+", "S -", route)
    for form, wanted in (("digits", route), ("point-code", without_digits), ("subsystem", without_digits), ("unbound", "")):
        fault = rounds.Round("first_route", form, wanted).fault(programs["peer"], "ipa")
        check(not fault, f"first_route, {form}: {fault}")
    it.waits_for("a frame to 447700909999 was returned, cause 4")
    fault = rounds.Round("whole_update", "digits", rounds.wanted_of("whole_update")).fault(programs["peer"], "ipa")
    check(not fault, f"whole_update: {fault}")
    it.end()


def itself(ends, folder, programs):
    _, it = started(ends, folder, programs, records=many(folder))
    vlr = Vlr(Peer(), SUBSCRIBERS)
    for number, subsystem in enumerate((HLR, VLR, MSC), 1):
        vlr.peer.give(address("", subsystem, point_code=OWN_POINT_CODE), route(number, number))
        check(vlr.asked(number) == 0, "a subscriber without a VLR has one")
    it.waits_for("a frame to 0000186007 was returned, cause 4")
    it.end()


def idle(ends, folder, programs):
    _, it = started(ends, folder, programs)
    processors = os.sched_getaffinity(0)
    os.sched_setaffinity(0, {min(processors)})  # of a process and its children: where a thread is interrupted when it has answered
    try:
        for start in range(STARTS):
            it.kill()
            it.start()
            before = it.process.processor()
            time.sleep(0.3)
            took = it.process.processor() - before
            check(took < 0.02, f"start {start}: nobody asks, and it takes {took:.3f} of 0.3 seconds")
    finally:
        os.sched_setaffinity(0, processors)
    it.end()
    return f"{STARTS} starts"


def stp_dies(ends, folder, stp, it, vlr):
    """The STP is killed and started again, and the peer comes back; the new one."""
    stp.kill()
    it.waits_for("away, ")
    again = started_stp(ends, folder, "ipa")
    it.waits_for(" up, ", 2)
    it.waits_for_stp()
    vlr.peer = Peer()
    return again


def node_dies(it, vlr, is_held):
    """The node is killed and started again; before, commits may wait, so that what goes out too early is not there afterwards."""
    lock = it.locked() if is_held else None
    if lock:
        vlr.play(RATE, 0.2)
    it.kill()
    if lock:
        lock.close()
    it.start()


def peer_dies(vlr):
    vlr.peer.socket.close()
    vlr.peer = Peer()


def killed(ends, folder, programs):
    """The node, the node while commits wait, the STP and the peer are killed in turn."""
    pick = random.Random(1)
    stp, it = started(ends, folder, programs, records=many(folder))
    vlr = Vlr(Peer(), SUBSCRIBERS)
    for death in range(DEATHS):
        vlr.play(RATE, pick.uniform(0.5, 1.5))
        if death % 4 < 2:
            node_dies(it, vlr, death % 2)
        elif death % 4 == 2:
            stp = stp_dies(ends, folder, stp, it, vlr)
        else:
            peer_dies(vlr)
        if death % 5 == 2:
            check(subprocess.run([programs["compact"], f"sqlite:{it.store}"], capture_output=True).returncode == 0, "no image")
        vlr.compare(LATEST)  # before another update hides what is lost
    vlr.play(RATE, 1)
    vlr.rest(2)
    newer = vlr.compare()
    it.end()
    confirmed, open_ones = len(vlr.confirmed), len(vlr.open)
    check(confirmed > SUBSCRIBERS * 0.9, f"only {confirmed} subscribers have a confirmed update")
    return (f"{DEATHS} deaths, {vlr.begun - 1} updates begun, {vlr.begun - 1 - open_ones} confirmed, of {confirmed} subscribers; "
            f"{open_ones} without an end, of which {newer} were done; {vlr.aborts} aborts")


# Addresses of who begins updates: by an international number, with a subsystem of its own, by a subsystem alone, by a national number.
ADDRESSES = [address("447700900012"), address("447700900012", 149), address("", MSC), address("7700900012", VLR, 3), address("44770090001", 150)]


def begun(peer, first):
    """Begins an update of a subscriber from each address; returns the local ids."""
    local = {}
    for at, calling in enumerate(ADDRESSES):
        peer.give(calling, update(first + at, first + at))
    while len(local) < len(ADDRESSES):
        came = peer.take(5)
        check(came and came[1][0] == CONTINUE, f"no insert: {came}")
        identity, number = ids_of(came[1])
        check(came[0] == ADDRESSES[number - first], f"an insert to {came[0].hex()} and not to {ADDRESSES[number - first].hex()}")
        local[number] = identity
    return local


def is_ended(peer, first, is_right):
    """Whether the updates end at the address at which they began."""
    for _ in ADDRESSES:
        came = peer.take(15)
        check(came and came[1][0] == END and is_right(came[1]), f"not the end of an update: {came}")
        wanted = ADDRESSES[ids_of(came[1])[1] - first]
        check(came[0] == wanted, f"an end to {came[0].hex()} and not to {wanted.hex()}")


def resumed(ends, folder, programs):
    _, it = started(ends, folder, programs, records=many(folder), ticks=4)
    peer = Peer()
    for images in (0, 1, 2):
        first = 1 + 100 * images
        local = begun(peer, first)
        it.kill()
        for _ in range(images):
            check(subprocess.run([programs["compact"], f"sqlite:{it.store}"], capture_output=True).returncode == 0, "no image")
        it.start()
        for number, identity in local.items():
            peer.give(ADDRESSES[number - first], result(number, identity))
        is_ended(peer, first, lambda frame: not has_error(frame, 34))
        begun(peer, first + 50)
        it.kill()
        for _ in range(images):
            subprocess.run([programs["compact"], f"sqlite:{it.store}"], capture_output=True, check=True)
        it.start()
        is_ended(peer, first + 50, lambda frame: has_error(frame, 34))
    it.end()
    return f"{6 * len(ADDRESSES)} updates from {len(ADDRESSES)} addresses went on after a kill"


def last_second(it, vlr):
    """Updates for a second more, what the register has compared with what the VLR was told, and the node ended; what there is to say of all."""
    vlr.play(RATE, 1)
    vlr.rest(2)
    newer = vlr.compare()
    it.end()
    return f"{vlr.begun - 1} updates begun, {len(vlr.open)} without an end, of which {newer} were done"


def ended(ends, folder, programs):
    _, it = started(ends, folder, programs, records=many(folder))
    vlr = Vlr(Peer(), SUBSCRIBERS)
    for _ in range(5):
        vlr.play(RATE, 1)
        it.end()
        vlr.rest(0.3)
        it.start()
    return f"ended 6 times, {last_second(it, vlr)}"


def away(ends, folder, programs):
    stp, it = started(ends, folder, programs, records=many(folder))
    vlr = Vlr(Peer(), SUBSCRIBERS)
    vlr.play(RATE, 1)
    stp_dies(ends, folder, stp, it, vlr)
    return last_second(it, vlr)


def unsent(ends, folder, programs):
    stp, it = started(ends, folder, programs, records=many(folder))
    vlr = Vlr(Peer(), SUBSCRIBERS)
    vlr.play(RATE, 1)
    vlr.rest(2)
    stp.kill()
    it.waits_for("away, ")
    line, told, sent = it.console().enable(), len(it.said()), it.counter("frames:sent")
    for number in range(UNSENT + DROPPED):
        subscriber = vlr.latest[number % len(vlr.latest)]
        given = line.ask(f"subscriber imsi {imsi_of(subscriber)} codes {'11,21,22,'[: 3 * (1 + number // len(vlr.latest) % 3)].strip(',')}")
        check("given: done when row" in given, given)
    end = time.monotonic() + SECONDS
    while it.counter("frames:sent") < sent + UNSENT + DROPPED:
        check(time.monotonic() < end, "not each change is sent")
    lost = it.counter("frames:lost")
    check(lost == DROPPED and f": {UNSENT} frames wait, {DROPPED} were lost" in line.ask("show role"), f"{lost} lost")
    words = it.said()[told:].count(f"frames are dropped: {UNSENT} wait for the STP")
    check(0 < words <= SECONDS, f"told {words} times")
    it.process.send(signal.SIGSTOP)  # so that the peer is there before it
    started_stp(ends, folder, "ipa")
    vlr.peer = Peer()
    it.process.send(signal.SIGCONT)
    inserts = 0
    while vlr.peer.take(QUIET if inserts else SECONDS):
        inserts += 1
    check(inserts == UNSENT, f"{inserts} inserts came")
    it.end()
    return f"{inserts} inserts waited, {lost} were dropped, told {words} times"


def held(ends, folder, programs):
    _, it = started(ends, folder, programs, records=many(folder))
    peer, vlr = Peer(), None
    vlr = Vlr(peer, SUBSCRIBERS)
    vlr.play(RATE, 0.5)
    vlr.rest(0.5)
    lock = it.locked()
    for _ in range(200):
        vlr.begin()
    check(peer.take(2) is None, "a frame came out of a group that is not durable")
    role = it.console().ask("show role")
    check("its job, for 0 milli" not in role and "Waiting for the store: 0" not in role, f"nothing waits: {role}")
    it.process.send(signal.SIGTERM)
    time.sleep(0.5)
    check(it.process.process.poll() is None, "it did not wait for the store")
    lock.close()
    inserts = 0
    while came := peer.take(2):
        inserts += came[1][0] == CONTINUE
    check(it.process.end() == 0, it.said()[-500:])
    check(inserts == 200, f"{inserts} inserts of 200")
    return "200 inserts after the store was free again"


def bounded(ends, folder, programs):
    _, it = started(ends, folder, programs, records=many(folder))
    vlr = Vlr(Peer(), SUBSCRIBERS)
    lock = it.locked()
    octets = bytes.fromhex("6281E4") + bytes(228)  # a message that is none, which is an event all the same
    for _ in range(FLOOD):
        vlr.peer.give(vlr.calling, octets)
    end, counts = time.monotonic() + SECONDS, (0, 0)
    while sum(counts) < FLOOD and time.monotonic() < end:
        time.sleep(0.2)
        counts = tuple(it.counter(name) for name in ("frames:taken", "frames:no_room"))
    lock.close()
    told = it.said().count("frames are dropped: ")
    check(sum(counts) == FLOOD and counts[1], f"{counts} taken and dropped of {FLOOD}")
    check(0 < told <= SECONDS, f"told {told} times")
    while vlr.peer.take(2):
        pass
    vlr.play(RATE, 1)
    vlr.rest(2)
    vlr.compare()
    check(len(vlr.confirmed) > RATE * 0.8, "no service afterwards")
    check(it.process.end() == 0, it.said()[-500:])
    return f"of {FLOOD} frames {counts[0]} were taken and {counts[1]} dropped, told {told} times; at most {it.most} kilobytes of memory"


def refused(ends, folder, programs):
    _, it = started(ends, folder, programs, records=many(folder))
    vlr = Vlr(Peer(), SUBSCRIBERS)
    vlr.play(RATE, 0.5)
    with sqlite3.connect(it.store, timeout=30) as other:
        other.execute("INSERT INTO log SELECT max(seq) + 1, '# epoch 1 other.1.1.1 0000000000\n' FROM log")
    vlr.play(RATE, 0.5)
    check(it.process.process.wait(10) == 4 and "taken" in it.said(), f"taken: {it.said()[-500:]}")
    it.start()
    with sqlite3.connect(it.store, timeout=30) as other:
        other.execute("CREATE TRIGGER never BEFORE INSERT ON log BEGIN SELECT RAISE(ABORT, 'never'); END")
    vlr.play(RATE, 0.5)
    check(it.process.process.wait(10) == 5 and "refused by the store" in it.said() and "never" in it.said(), f"refused: {it.said()[-500:]}")
    it.sql("DROP TRIGGER never")
    it.start()
    vlr.play(RATE, 1)
    vlr.rest(2)
    vlr.compare()
    it.end()


# ---- words, console, control


def failed(programs, folder, text, status, *said):
    """kunchrold with this configuration ends so, and says this."""
    path = folder / "faulty.cfg"
    path.write_text(text)
    done = subprocess.run([programs["kunchrold"], "-s", "-c", path], capture_output=True, text=True, timeout=SECONDS)
    is_right = done.returncode == status and all(it in done.stderr for it in said)
    check(is_right, f"status {done.returncode}, not {status} with {said}: {done.stderr[-600:]}")


# Lines of the configuration, and what stands in their place: also in the first line, too long for libosmovty, and in the last one without a line feed.
FAULTY_LINES = [(" ticks 20", " ticks 0"), (" ticks 20", " tocks 20"), (" ticks 20", "  ticks 20"), (" no pair", " pair 0"), ("log stderr", "log nowhere"),
                (" peers peers", f" peers {600 * 'p'}"), (" no pair\n", " no pairs")]


def faults(ends, folder, programs):
    good = CONFIG.format(host="127.0.0.1", store=f"sqlite:{folder}/a.db", records=TOP / "examples/first_route.records", ticks=20, pair="no pair")
    for line, fault in FAULTY_LINES:
        text = good.replace(line, fault)
        failed(programs, folder, text, 2, fault.strip()[-60:], f"has a fault in line {text.splitlines().index(fault) + 1}\n")
    failed(programs, folder, good.replace(f" store sqlite:{folder}/a.db\n", ""), 2, "names no store")
    failed(programs, folder, good.replace(" peers peers\n", ""), 2, "names no peers")
    failed(programs, folder, good.replace(" point-code 0.23.2\n", "", 1), 2, "point-code")
    failed(programs, folder, good.replace(" peers peers", " peers others"), 2, "peers others")
    failed(programs, folder, good.replace("first_route.records", "nothing.records").replace("a.db", "e.db"), 2, "nothing.records")
    failed(programs, folder, good.replace("sqlite:", "nothing:").replace("a.db", "b.db"), 3, "is not sqlite:FILE")
    failed(programs, folder, re.sub(" records .*\n", "", good).replace("a.db", "c.db"), 3)
    (folder / "faulty.records").write_text("HLR1 447700900100\n234150000000001 x\n")
    failed(programs, folder, re.sub(" records .*", f" records {folder}/faulty.records", good).replace("a.db", "d.db"), 7, "line 2")
    for words, status, said in ((["-h"], 0, ""), (["-V"], 0, ""), (["-x"], 2, "-c FILE"), (["word"], 2, "-c FILE"),
                                (["-c", folder / "none.cfg"], 2, "none.cfg cannot be read: No such file")):
        done = subprocess.run([programs["kunchrold"], *words], capture_output=True, text=True, timeout=SECONDS)
        check(done.returncode == status and (status or done.stdout) and said in done.stderr, f"{words}: {done}")


def console(ends, folder, programs):
    _, it = started(ends, folder, programs)
    line = it.console()
    record = line.ask("show subscriber imsi 234150000000001")
    check("MSISDN: 447700900000" in record and "Teleservices: 11,21" in record, record)
    check(line.ask("show subscriber msisdn 447700900000").split("\n", 1)[1] == record.split("\n", 1)[1], "by MSISDN another record")
    check("no such subscriber" in line.ask("show subscriber imsi 234150000000099"), "a subscriber that is none")
    check("argument" in line.ask("show subscriber imsi 12x"), "an IMSI that is none")
    check("0 dialogues are open" in line.ask("show dialogues"), "dialogues")
    check("leads, alone. The last durable row: 1\n" in line.ask("show role"), "role")
    check("Frames given to the register:        0" in line.ask("show counters"), "counters")
    check("Unknown command" in line.ask("subscriber imsi 234150000000001 codes 12"), "a change without enable")
    line.enable()
    given = line.ask("subscriber imsi 234150000000001 codes 12")
    check("row 2 is durable" in given, given)
    time.sleep(0.3)
    check("The last durable row: 2\n" in line.ask("show role") and it.row(2).endswith(b"\nO 234150000000001 12\n"), "row 2")
    check("Teleservices: 12\n" in line.ask("show subscriber imsi 234150000000001"), "other codes")
    check("1 dialogues are open" in line.ask("show dialogues"), "the dialogue of a change")
    line.ask("subscriber imsi 234150000000002 codes none")
    check("no such subscriber" in line.ask("subscriber imsi 234150000000099 codes none"), "codes of nobody")
    check("argument" in line.ask("subscriber imsi 234150000000001 codes 1"), "codes that are none")
    check("done when row" in line.ask("subscriber imsi 234150000000003 withdraw"), "withdraw")
    check("State: withdrawn" in line.ask("show subscriber imsi 234150000000003"), "withdrawn")
    check("not one of a pair" in line.ask("leave"), "leave")
    running = line.ask("show running-config")
    check(all(f"\n {word}" in running for word in ("store sqlite:", "records ", "peers peers", "ticks 20", "no pair")), running[-500:])
    line.ask(f"write file {it.folder}/written.cfg")
    it.end()
    settings = it.config.read_text().split("kunchrol\n")[1]
    written = Path(it.folder / "written.cfg")
    check(written.exists() and settings in written.read_text(), f"written: {written.exists()}")
    it.config = written
    it.start()
    random_lines(it)
    it.end()


def random_lines(it):
    """Lines of random octets, with and without `enable`, some that begin as a command does. It goes on, and answers."""
    pick = random.Random(3)
    fronts = [b"show subscriber imsi ", b"subscriber imsi ", b"subscriber imsi 234150000000001 codes ", b"show ", b"", b""]
    line, is_over = None, True
    for number in range(1000):
        octets = bytes(pick.choice([pick.randrange(1, 256), pick.randrange(32, 127)]) for _ in range(pick.randrange(400)))
        if is_over:
            line = socket.create_connection((it.host, CONSOLE))
            line.sendall(b"enable\r\n" * pick.randrange(2))
        try:
            line.sendall(pick.choice(fronts) + octets.replace(b"\n", b"").replace(b"\xff", b"") + b"\r\n")
            is_over = not line.recv(1 << 16, socket.MSG_DONTWAIT)
        except BlockingIOError:
            is_over = False
        except ConnectionError:
            is_over = True
        if is_over or not number % 50:
            line.close()
            is_over = True
    check("leads" in it.console().ask("show role"), "no console after random lines")


def control_interface(ends, folder, programs):
    _, it = started(ends, folder, programs)
    answers = control(it.host, "GET 1 role", "SET 2 codes 234150000000001;12", "SET 3 codes 234150000000001;none", "SET 4 codes 234150000000099;11",
                      "SET 5 codes x", "SET 6 withdraw 234150000000002", "SET 7 withdraw 1 2", "GET 8 rate_ctr.abs.kunchrol.0.events:operator",
                      "SET 9 role x", "GET 10 codes", "SET 11 codes 234150000000001;1", "SET 12 codes 234150000000001;11 22")
    wanted = ["GET_REPLY 1 role leads 1", "SET_REPLY 2 codes row 2", "SET_REPLY 3 codes row 3", "ERROR 4 no such subscriber",
              "ERROR 5 the value is <imsi>;<codes or none>", "SET_REPLY 6 withdraw row 4", "ERROR 7 argument",
              "GET_REPLY 8 rate_ctr.abs.kunchrol.0.events:operator 3"]
    check(answers[:8] == wanted, f"{answers}")
    check(all(answer.startswith("ERROR") for answer in answers[8:]) and len(answers) == 12, f"{answers}")
    check(it.row(4).endswith(b"\nX 234150000000002\n"), "row 4")
    lock = it.locked()
    with socket.create_connection((it.host, CONTROL)) as gone:  # who asked and is gone gets no answer
        octets = b"SET 1 codes 234150000000001;22"
        gone.sendall(struct.pack(">HBB", len(octets) + 1, 0xEE, 0) + octets)
        gone.settimeout(1)
        try:
            check(not gone.recv(4), "an answer before the row is durable")
        except TimeoutError:
            pass
    time.sleep(0.2)
    lock.close()
    pick = random.Random(4)
    fronts = [b"SET 1 codes ", b"SET 1 withdraw ", b"GET 1 ", b"SET 1 codes 234150000000001;", b""]
    for _ in range(300):
        octets = pick.choice(fronts) + bytes(pick.choice([pick.randrange(256), pick.randrange(32, 127)]) for _ in range(pick.randrange(1, 300)))
        with socket.create_connection((it.host, CONTROL)) as line:
            line.sendall(struct.pack(">HBB", len(octets) + 1, 0xEE, 0) + octets if pick.randrange(8) else octets)
    check(control(it.host, "GET 1 role")[0].startswith("GET_REPLY 1 role leads"), "no answer after random octets")
    it.end()


TRIALS = (examples, itself, idle, killed, resumed, ended, away, unsent, held, bounded, refused, faults, console, control_interface, pair)
