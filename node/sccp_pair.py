# SPDX-License-Identifier: Apache-2.0
"""The trial of `run_sccp` with two processes on one store, each behind an STP of its own."""

import signal
import time

from pair import free_port
from programs import HERE as SCCP
from programs import Running
from sccp_node import RATE, SECONDS, SUBSCRIBERS, Daemon, many
from sccp_peer import Peer, Vlr
from servers import BIN, Postgresql, Server
from story import check

HOSTS = "127.0.0.1", "127.0.0.2"
# How long one of a pair waits for a row.
PATIENCE = 1


def store_of_pair(ends, folder):
    """Where the store of a pair is, and what can be done to the one that leads."""
    if not BIN:
        return f"sqlite:{folder}/pair.db", ["killed", "left", "ended"]  # (who is stopped may hold the lock of a file)
    server = Server(folder / "server", free_port()).make()
    ends.callback(server.end)
    server.start()
    return Postgresql(server, folder / "pair").store("store").where, ["killed", "left", "ended", "stopped"]


def started_stp_at(ends, folder, host):
    place = folder / f"stp {host}"
    place.mkdir()
    config = place / "stp.cfg"
    config.write_text((SCCP / "stp-ipa.cfg").read_text().replace("127.0.0.1", host))
    check(Running(ends, place, ["osmo-stp", "-c", config]).waits_for("telnet"), "no STP")


class Pair:
    """Two processes, of which one leads."""

    def __init__(self, ends, folder, programs):
        (self.store, self.faults), records = store_of_pair(ends, folder), many(folder)
        for host in HOSTS:
            started_stp_at(ends, folder, host)
        self.nodes = [Daemon(ends, folder, programs, host, records=records, pair=f"pair {PATIENCE}", store=self.store) for host in HOSTS]
        self.nodes[0].start().waits_for("leads")
        self.nodes[1].start()

    def lead(self):
        """Which one leads, how many starts it had, and how often that process has begun to lead."""
        end = time.monotonic() + SECONDS
        while len(leading := [at for at, it in enumerate(self.nodes) if it.leads()]) != 1:  # who was deposed says that it leads until it writes
            check(time.monotonic() < end, f"of {HOSTS} not one leads, but {leading}")
            time.sleep(0.02)
        return leading[0], self.nodes[leading[0]].starts, self.nodes[leading[0]].counter("role:leads")

    def strike(self, fault, at):
        """Does this to the one that leads. Returns how long it takes until the other one does."""
        here, there, began = self.nodes[at], self.nodes[1 - at], time.monotonic()
        if fault == "killed":
            here.kill()
        elif fault == "left":
            here.console().enable().ask("leave")
        elif fault == "stopped":
            here.process.send(signal.SIGSTOP)
        else:
            here.end()
        while not there.leads():
            check(time.monotonic() < began + SECONDS, f"the other one does not lead: {there.said()[-1500:]}")
            time.sleep(0.02)
        return time.monotonic() - began

    def come_back(self, fault, at, vlr):
        """The one that led follows."""
        here = self.nodes[at]
        vlr.rest(0.3)
        if fault == "stopped":
            vlr.play(RATE, 0.3)  # what comes to one who does not know yet that it was deposed
            follows = here.said().count(" follows, row")
            here.process.send(signal.SIGCONT)
            here.waits_for(" follows, row", follows + 1)
        elif fault != "left":
            here.start()


class VlrOfPair(Vlr):
    """
    A VLR with a connection to each STP, whose frames go to the one that leads. If that one gets no processor for as long as the other one waits for a
    row, it is deposed without a fault of the trial, and what comes to it is lost, as to one that was killed.
    """

    def __init__(self, pair):
        self.pair, self.peers, self.lead, self.turned = pair, [Peer(host) for host in HOSTS], pair.lead(), 0
        super().__init__(self.peers[self.lead[0]], SUBSCRIBERS)

    def turns(self):
        """Hears what the one before has said, and turns to the one that leads. Whether that has begun to lead since."""
        before, self.lead = self.lead, self.pair.lead()
        if self.lead == before:
            return False
        self.rest(0.3)
        self.peer = self.peers[self.lead[0]]
        self.turned += 1
        return True

    def play_to_leader(self):
        """Plays until one has led for the whole second."""
        self.play(RATE, 1)
        while self.turns():
            self.play(RATE, 1)


def pair(ends, folder, programs):
    it, seconds = Pair(ends, folder, programs), {}
    vlr = VlrOfPair(it)
    for fault in it.faults * 3:
        vlr.play_to_leader()
        seconds.setdefault(fault, []).append(it.strike(fault, vlr.lead[0]))
        it.come_back(fault, vlr.lead[0], vlr)
        check(vlr.turns(), f"the same one leads after it was {fault}")
    vlr.play_to_leader()
    vlr.rest(2)
    newer = vlr.compare()
    check(max(min(seconds["left"]), min(seconds["ended"])) < PATIENCE, f"leaving takes as long as dying: {seconds}")
    for at in (1 - vlr.lead[0], vlr.lead[0]):
        it.nodes[at].end()
    told = ", ".join(f"{fault} {min(all_of):.2f} to {max(all_of):.2f}" for fault, all_of in seconds.items())
    return (f"{it.store.partition(':')[0]}; without service, seconds: {told}; {len(vlr.confirmed)} subscribers confirmed, {newer} newer; "
            f"{vlr.turned - 3 * len(it.faults)} times another one led without a fault")
