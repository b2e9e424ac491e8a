# SPDX-License-Identifier: Apache-2.0
"""The trial `pair` of `run`: a primary and its synchronous standby, two nodes of which one leads, and faults of both."""

import itertools
import os
import random
import shutil
import signal
import socket
import subprocess
import threading
import time
from collections import deque
from pathlib import Path
from queue import SimpleQueue

from servers import OWNER, PostgresqlStore, Server, Sqlite, wait_for
from story import RECORDS, SECONDS, WELL, Peers, check, events_of, is_within

# How long a node that follows waits for a row, and within which time there has to be service again after a fault, on a machine with other work.
PATIENCE, LIMIT = 1.0, 60
# How many groups a node has before it at most, and how long nothing is given after one.
WAITING, PAUSE = 2, 0.004
# The words of libpq by which a connection that is cut without a word is given up.
CARE = "connect_timeout=2 tcp_user_timeout=1500 keepalives_idle=1 keepalives_interval=1 keepalives_count=2"
PAIRED = {"synchronous_standby_names": "'*'", "wal_retrieve_retry_interval": "100", "wal_receiver_timeout": "3000", "wal_sender_timeout": "3000"}


def free_port():
    with socket.socket() as one:
        one.bind(("127.0.0.1", 0))
        return one.getsockname()[1]


# ---- machines


class Line:
    """A network of its own for a node, with one line to the servers that can be cut; or the one that all share, if there can be none."""

    numbers = itertools.count()

    def __init__(self):
        number = next(self.numbers)
        self.name = f"kun{os.getpid() % 100000}_{number}"
        here, there = (f"10.213.{os.getpid() % 250}.{4 * number + it}" for it in (1, 2))
        self.host, self.before = here, ["ip", "netns", "exec", self.name]
        commands = (f"ip netns add {self.name}", f"ip link add {self.name} type veth peer name eth0 netns {self.name}",
                    f"ip addr add {here}/30 dev {self.name}", f"ip link set {self.name} up",
                    f"ip -n {self.name} addr add {there}/30 dev eth0", f"ip -n {self.name} link set eth0 up")
        self.has_own = bool(shutil.which("ip")) and all(subprocess.run(it.split(), capture_output=True).returncode == 0 for it in commands)
        if not self.has_own:
            if shutil.which("ip"):
                subprocess.run(["ip", "netns", "del", self.name], capture_output=True)
            self.host, self.before = "127.0.0.1", []

    def set(self, how):
        subprocess.run(["ip", "link", "set", self.name, how], check=True)

    def end(self):
        if self.has_own:
            subprocess.run(["ip", "netns", "del", self.name], check=True)


class Servers:
    """A primary and its synchronous standby."""

    def __init__(self, folder, hosts):
        listens = ",".join(dict.fromkeys(["127.0.0.1", *hosts]))
        self.primary, self.standby = (Server(folder / name, free_port(), listen_addresses=f"'{listens}'", **PAIRED) for name in ("one", "two"))
        self.all = [self.primary, self.standby]

    def begin(self):
        self.primary.make()
        with open(self.primary.folder / "data/pg_hba.conf", "a") as file:
            file.write("host all all 10.213.0.0/16 trust\n")
        self.primary.start()
        self.begin_standby()
        self.primary.sql("CREATE DATABASE hlr")

    def begin_standby(self):
        """The other server becomes the standby of the primary, with nothing of what it had."""
        self.standby.copy(self.primary, "127.0.0.1")
        own = self.standby.folder / "data/postgresql.auto.conf"
        own.write_text("".join(line for line in own.read_text().splitlines(True) if "synchronous_standby_names" not in line))
        self.standby.start()
        self.wait_for_standby()
        self.primary.sql("ALTER SYSTEM RESET synchronous_standby_names")
        self.primary.sql("SELECT pg_reload_conf()")

    def wait_for_standby(self):
        wait_for(lambda: self.primary.sql("SELECT 1 FROM pg_stat_replication WHERE state = 'streaming'"), "the standby")

    def promote(self):
        """The standby becomes the primary, and serves alone."""
        self.primary, self.standby = self.standby, self.primary
        self.primary.sql("ALTER SYSTEM SET synchronous_standby_names = ''")
        self.primary.sql("SELECT pg_reload_conf()")
        self.primary.sql("SELECT pg_promote()")

    def interrupt(self, name, how):
        """Ends the connections of a node, or cancels what they do; how many there are."""
        return self.primary.sql(f"SELECT count({how}(pid)) FROM pg_stat_activity WHERE application_name = '{name}'")[0][0]

    def end(self):
        for server in self.all:
            server.end()


# ---- nodes


class Group:
    """Lines that a node was given at once, the frames that came out, and the number of their row, if it was told."""

    def __init__(self, lines):
        self.lines, self.frames, self.number = lines, [], None


class Member:
    """One of the two nodes."""

    def __init__(self, trial, name, line):
        self.trial, self.name, self.line = trial, name, line
        self.said = trial.folder / f"{name}.said"
        self.start()

    def start(self):
        ports = ",".join(str(it.port) for it in self.trial.servers.all)
        where = f"postgresql:host={self.line.host},{self.line.host} port={ports} user={OWNER} dbname=hlr application_name={self.name} {CARE}"
        words = [*self.line.before, *self.trial.programs.line_node, "--pair", str(PATIENCE), where, self.trial.records]
        self.leads, self.is_over, self.given, self.came = None, False, deque(), SimpleQueue()
        with open(self.said, "a") as said:
            self.process = subprocess.Popen(words, stdin=subprocess.PIPE, stdout=subprocess.PIPE, stderr=said, text=True)
        threading.Thread(target=self.listen, args=(self.process.stdout, self.came), daemon=True).start()

    @staticmethod
    def listen(stream, came):
        for line in stream:
            came.put(line)
        stream.close()
        came.put("")

    def give(self, group):
        self.given.append(group)
        try:
            self.process.stdin.write("".join(f"{it}\n" for it in [*group.lines, "W"]))
            self.process.stdin.flush()
        except BrokenPipeError:
            self.leads = None

    def take(self, to_the_end=False):
        """Notes what it has said, or all that it says before it ends."""
        while (to_the_end and not self.is_over) or not self.came.empty():
            line = self.came.get(timeout=SECONDS)
            self.is_over = not line
            if line.endswith("\n"):
                self.note(*line.split(" ", 1), line)

    def note(self, word, rest, line):
        if word == "S":
            check(self.given, f"{self.name}: a frame of no group: {line}")
            self.given[0].frames.append(line)
        elif word == "W" and self.given:
            self.trial.confirm(self.given.popleft(), int(rest))
        elif word != "W":  # what it was given before is a row or not
            self.given.clear()
            self.leads = int(rest) if word == "leads" else None
            self.trial.roles.append((self.name, word, int(rest)))

    def ended(self):
        """Its status, after all that it has said."""
        self.take(True)
        self.leads = None
        return self.process.wait(SECONDS)

    def kill(self):
        self.process.kill()
        self.ended()


# ---- the trial


class Trial:
    """The servers, the nodes, all that they were given, and what came out."""

    def __init__(self, programs, folder, seed):
        self.programs, self.folder = programs, folder
        self.random, self.peers = random.Random(seed), Peers(seed)
        folder.mkdir()
        self.records = folder / "records"
        self.records.write_text(RECORDS)
        self.lines, self.members = [Line(), Line()], []
        self.servers = Servers(folder, [it.host for it in self.lines])
        self.groups, self.roles, self.gave, self.gaps = [], [], 0.0, {}

    def begin(self):
        """Begins what `close` ends."""
        self.servers.begin()
        begun = self.programs.ran([self.store().where, self.records])
        check(begun.stdout == "leads 1\nW 1\n", f"begun: {begun}")
        self.store().keep_rows()
        for number, line in enumerate(self.lines):
            self.members.append(Member(self, f"node{number}", line))

    def store(self):
        return PostgresqlStore(self.servers.primary, "hlr")

    def leader(self):
        """Who said last that it leads, of those that have not said otherwise."""
        return max((it for it in self.members if it.leads), key=lambda it: it.leads, default=None)

    def other(self, member):
        return self.members[1 - self.members.index(member)]

    def confirm(self, group, number):
        group.number = number
        for frame in group.frames:
            self.peers.note(frame)

    def give(self, leader):
        """A group, which begins with a clock value that no other one has."""
        self.peers.clock += 1
        group = Group([f"C {self.peers.clock}", *self.peers.group()])
        self.groups.append(group)
        leader.give(group)
        self.gave = time.monotonic()

    def serve(self, is_enough, seconds=LIMIT, told="service"):
        until = time.monotonic() + seconds
        while not is_enough():
            if time.monotonic() > until:
                raise subprocess.TimeoutExpired(f"{told}, after {self.roles[-6:]}", seconds)
            for member in self.members:
                member.take()
            leader = self.leader()
            if leader and len(leader.given) < WAITING and time.monotonic() - self.gave > PAUSE:
                self.give(leader)
            time.sleep(0.001)

    def serve_for(self, seconds):
        until = time.monotonic() + seconds
        self.serve(lambda: time.monotonic() > until, seconds + 1)

    def is_served(self):
        """Whether, from now on, a group is given and comes back."""
        before = len(self.groups)
        return lambda: any(it.number for it in self.groups[before:])

    def mend(self, kind, began):
        """Waits for service after a fault, and notes how long there was none."""
        self.serve(self.is_served(), told=f"service after: {kind}")
        self.gaps.setdefault(kind, []).append(time.monotonic() - began)

    def fault(self, kind):
        self.serve(self.is_served(), told=f"service before: {kind}")
        self.serve_for(self.random.uniform(0.1, 0.4))
        FAULTS[kind](self, self.leader(), lambda began: self.mend(kind, began))
        done = self.programs.compacted(self.store())
        check(done.returncode == WELL, f"compact: {done}")

    def is_leaving_slow(self):
        """Whether it takes as long to lead after one that leaves as after one that is killed."""
        return min(self.gaps.get("leader_leaves", [0])) >= PATIENCE

    def end(self):
        """The one that leads leaves, then the other one, each after some groups, which tell what its register has come to."""
        for _ in self.members:
            self.serve(self.is_served(), told="service in the end")
            self.serve_for(0.5)
            leader = self.leader()
            leader.process.stdin.close()
            check(leader.ended() == WELL, f"{leader.name} ended with {leader.process.returncode}")

    def close(self):
        for member in self.members:
            member.process.kill()
            member.process.wait(SECONDS)
        self.servers.end()
        for line in self.lines:
            line.end()

    # ---- judging

    def rows(self):
        """The events of each row of the log, in order; a group is known by its first line."""
        texts = self.store().row_texts()
        check(list(texts) == list(range(1, len(texts) + 1)), "the log has gaps")
        return [events_of(it) for it in texts.values()]

    def judge(self):
        rows, by_clock = self.rows(), {it.lines[0]: it for it in self.groups}
        wanted = self.frames_of_one(rows)
        found = {}
        for number, (row, frames) in enumerate(zip(rows, wanted), 1):
            if row:
                group = by_clock.get(row[0])
                check(group and is_within(row, group.lines) and row[0] not in found, f"row {number} is none that was given, or twice: {row}")
                check(group.number in (None, number), f"row {number} was told as row {group.number}")
                is_right = group.frames == (frames if group.number else frames[: len(group.frames)])
                check(is_right, f"row {number}: other frames than of a register that never died")
                found[row[0]] = number
        lost = [it for it in self.groups if it.lines[0] not in found and (it.number or it.frames)]
        check(not lost, f"{len(lost)} groups came out and are not in the log, the first with row {lost[0].number if lost else ''}")
        doubtful = [it for it in self.groups if it.number is None]
        return len(rows), sum(it.number is not None for it in self.groups), sum(it.lines[0] in found for it in doubtful), len(doubtful)

    def frames_of_one(self, rows):
        """What a register sends for these rows that never dies; in the end it has what the store has."""
        one = Sqlite(self.folder / "one_that_never_died").store("store")
        self.programs.ran([one.where, self.records])
        one.change(f"UPDATE kunchrol SET start = {self.store().asked('SELECT start FROM kunchrol')[0][0]}")
        played = self.programs.ran([one.where], "".join(f"{line}\n" for row in rows for line in [*row, "W"]))
        check(played.returncode == WELL and not played.stderr, f"one that never died: {played.returncode} {played.stderr}")
        frames = [[]]
        for line in played.stdout.splitlines(keepends=True)[1:]:
            if line[0] == "W":
                frames.append([])
            else:
                frames[-1].append(line)
        check(len(frames) == len(rows) + 2, "one that never died lost a row")
        check(self.programs.listed(one) == self.programs.listed(self.store()), "other records, dialogues or notes than one that never died")
        return frames[: len(rows)]


# ---- faults: each is done to the one that leads, and calls `mend` with the time when it was done, when there has to be service again


def leader_killed(trial, leader, mend):
    began = time.monotonic()
    leader.kill()
    leader.start()
    mend(began)


def leader_stopped(trial, leader, mend):
    began, roles = time.monotonic(), len(trial.roles)
    leader.process.send_signal(signal.SIGSTOP)
    mend(began)
    trial.serve_for(trial.random.uniform(0, 0.3))
    leader.process.send_signal(signal.SIGCONT)
    trial.serve(lambda: (leader.name, "follows") in [it[:2] for it in trial.roles[roles:]], told="the one that was stopped follows")


def leader_leaves(trial, leader, mend):
    began = time.monotonic()
    leader.process.stdin.close()
    leader.leads = None
    mend(began)
    check(leader.ended() == WELL, f"one that leaves: status {leader.process.returncode}")
    leader.start()


def connection_cut(trial, leader, mend):
    began = time.monotonic()
    check(trial.servers.interrupt(leader.name, "pg_terminate_backend"), "no connection to cut")
    mend(began)


def line_cut(trial, leader, mend):
    if not leader.line.has_own:
        return
    began, roles = time.monotonic(), len(trial.roles)
    leader.line.set("down")
    mend(began)
    trial.serve_for(trial.random.uniform(0, 2))
    leader.line.set("up")
    trial.serve(lambda: (leader.name, "follows") in [it[:2] for it in trial.roles[roles:]], told="the one that was cut follows")


def primary_killed(trial, leader, mend):
    began = time.monotonic()
    trial.servers.primary.kill()
    trial.servers.promote()
    mend(began)
    trial.servers.begin_standby()


def old_primary_back(trial, leader, mend):
    """It takes writes, as it did, and no standby confirms them. The node that follows is started then, and may connect to it."""
    began, servers = time.monotonic(), trial.servers
    servers.primary.kill()
    servers.promote()
    mend(began)
    servers.standby.start()
    trial.serve(trial.is_served())
    follower = trial.other(trial.leader())
    follower.kill()
    follower.start()
    trial.serve_for(PATIENCE + 1)
    servers.standby.kill()
    trial.serve(trial.is_served())
    servers.begin_standby()


def standby_gone(trial, leader, mend):
    servers = trial.servers
    servers.standby.kill()
    trial.serve_for(0.3)
    is_served = trial.is_served()
    waits_until = time.monotonic() + trial.random.uniform(0.5, PATIENCE + 0.5)
    trial.serve(lambda: is_served() or time.monotonic() > waits_until)
    check(not is_served(), "a row was told as durable without the standby")
    began = time.monotonic()
    servers.standby.start()
    mend(began)
    servers.wait_for_standby()


def lose_what_waits(trial, leader, mend, dies):
    """The standby is gone and commits wait. Their connections are cut and their waits cancelled; then the primary dies, and the standby is promoted."""
    servers = trial.servers
    servers.standby.kill()
    for how in ("pg_terminate_backend", "pg_cancel_backend", "pg_terminate_backend", "pg_cancel_backend"):
        trial.serve_for(0.25)
        servers.interrupt(leader.name, how)
    trial.serve_for(0.25)
    began = time.monotonic()
    servers.primary.kill()
    if dies:
        leader.kill()
    servers.standby.start()
    servers.promote()
    if dies:
        leader.start()
    mend(began)
    servers.begin_standby()


def cut_while_it_waits(trial, leader, mend):
    lose_what_waits(trial, leader, mend, False)


def killed_while_it_waits(trial, leader, mend):
    """The same, and the node that leads is killed: nobody has a row any more that the other node has seen."""
    lose_what_waits(trial, leader, mend, True)


FAULTS = {it.__name__: it for it in (leader_killed, leader_stopped, leader_leaves, connection_cut, line_cut, primary_killed, old_primary_back, standby_gone,
                                     cut_while_it_waits, killed_while_it_waits)}


def pair(programs, folder, faults, seed=1):
    """Each kind of fault in turn, up to so many, and then what all came to."""
    trial = Trial(programs, Path(folder), seed)
    try:
        trial.begin()
        kinds = [*FAULTS] * (faults // len(FAULTS)) + trial.random.sample([*FAULTS], faults % len(FAULTS))
        for kind in kinds:
            trial.fault(kind)
        if trial.is_leaving_slow():  # once more, since the machine may have been busy
            trial.fault("leader_leaves")
        trial.end()
        check(not trial.is_leaving_slow(), "leaving takes as long as dying")
        rows, told, found, doubtful = trial.judge()
    finally:
        trial.close()
    said = [f"{rows} rows, {told} groups were told as durable; of {doubtful} in doubt {found} are in the log"]
    said += [f"  {kind}: {len(gaps)} times, without service {min(gaps):.2f} to {max(gaps):.2f} seconds" for kind, gaps in trial.gaps.items()]
    if not all(it.has_own for it in trial.lines):
        said.append("  no network of its own for a node (root, ip netns): a line that is cut is not tried")
    return "\n".join(said)
