# SPDX-License-Identifier: Apache-2.0
"""kunchrold as the trials of `run_sccp` and `soak` have it: built, its configuration, the process, its console and its control interface."""

import os
import re
import shutil
import socket
import sqlite3
import struct
import subprocess
import sys
import time

from programs import Running, built, started_stp
from sccp_peer import NUMBER
from story import KIT, TOP, check

PACKAGES = "osmo-stp libosmo-sigtran-dev libosmo-netif-dev libosmocore-dev libsqlite3-dev sqlite3 gcc make pkg-config iproute2"
NEEDED = ("osmo-stp", "gcc", "make", "pkg-config", "sqlite3", "unshare", "ip")
ARCHIVE = TOP / "crates/kunchrol/out/libkunchrol.a"
INSIDE = "KUNCHROL_RUN_SCCP"
SANITIZED = "-O1 -g -fsanitize=address,undefined -fno-sanitize-recover=all"
# Subscribers, updates that begin in a second, and how long something may take.
SUBSCRIBERS, RATE, SECONDS = 2000, 400, 30
CONSOLE, CONTROL, CONSOLE_OF_STP = 4299, 4298, 4239
CONFIG = """log stderr
 logging filter all 1
 logging color 0
 logging print category 1
 logging print category-hex 0
 logging timestamp 0
 logging level set-all notice
line vty
 no login
 bind {host}
ctrl
 bind {host}
cs7 instance 0
 point-code 0.23.2
 asp asp-clnt-hlr 5000 0 ipa
  remote-ip {host}
  role asp
  sctp-role client
 as as-clnt-hlr ipa
  asp asp-clnt-hlr
  routing-key 0 0.23.2
 sccp-address peers
  point-code 0.23.3
kunchrol
 store {store}
 records {records}
 peers peers
 ticks {ticks}
 {pair}
"""


def say_lacking():
    """Whether something is not there that is needed, which it says."""
    missing = [it for it in NEEDED if not shutil.which(it)]
    probe = ["pkg-config", "--exists", "libosmo-sigtran", "libosmo-netif", "libosmovty", "libosmoctrl", "sqlite3"]
    if not missing and subprocess.run(probe).returncode:
        missing = ["the libraries"]
    if missing:
        print(f"there is no {' '.join(missing)} (Debian: {PACKAGES}): nothing is tried")
    return bool(missing)


def go_inside():
    """Begins the program once more in a network of its own, if it is not there."""
    if INSIDE not in os.environ:
        own = ["unshare", "-n"] if os.geteuid() == 0 else ["unshare", "-rn"]
        os.execvpe(own[0], [*own, sys.executable, *sys.argv], {**os.environ, INSIDE: "1"})
    subprocess.run(["ip", "link", "set", "lo", "up"], check=True)


def built_programs(folder, archive, flags=""):
    """kunchrold, with these flags of the compiler if there are any, kunchrol-compact, and a peer."""
    words = ["make", "-s", "-C", TOP / "node/kunchrold", f"OUT={folder}", f"LIBRARY={archive}", f"LIBC={KIT}/c/liblibc_c.a"]
    subprocess.run([*words, f"CFLAGS={flags}"] if flags else words, check=True)
    sources = [TOP / f"node/{it}.c" for it in ("compact", "durable", "notes", "caller", "store", "store_sqlite", "told")]
    subprocess.run(["cc", "-std=c11", "-O2", "-o", folder / "kunchrol-compact", *sources, archive, KIT / "c/liblibc_c.a", "-lsqlite3"], check=True)
    return {"kunchrold": folder / "kunchrold", "compact": folder / "kunchrol-compact", "peer": built(folder, "peer", archive, [])}


class Daemon:
    """kunchrold with a configuration, started."""

    def __init__(self, ends, folder, programs, host="127.0.0.1", records=TOP / "examples/first_route.records", ticks=20, pair="no pair", store=None):
        self.ends, self.folder, self.programs, self.host = ends, folder / host, programs, host
        self.folder.mkdir(exist_ok=True)
        self.store, self.config = folder / "store.db", self.folder / "kunchrold.cfg"
        self.config.write_text(CONFIG.format(host=host, store=store or f"sqlite:{self.store}", records=records, ticks=ticks, pair=pair))
        self.starts = self.most = 0

    def start(self):
        self.starts += 1
        place = self.folder / str(self.starts)
        place.mkdir()
        self.process = Running(self.ends, place, [self.programs["kunchrold"], "-s", "-c", self.config])
        self.waits_for("DSCCP .*up, ")
        self.waits_for_stp()
        return self

    def waits_for_stp(self):
        """Waits until the STP, too, knows that it is there: before, frames for it are lost in the STP."""
        stp, end = Console(self.host, CONSOLE_OF_STP), time.monotonic() + SECONDS
        while "asp-clnt-hlr AS_ACTIVE" not in stp.ask("show cs7 instance 0 as active"):
            check(time.monotonic() < end, f"{self.host}: the STP does not know it")

    def said(self):
        return self.process.said.read_text()

    def waits_for(self, pattern, times=1):
        end = time.monotonic() + SECONDS
        while len(re.findall(pattern, self.said())) < times:
            check(time.monotonic() < end and self.process.process.poll() is None, f"it does not say {pattern}: {self.said()[-1500:]}")
            time.sleep(0.02)

    def kill(self):
        self.process.kill()

    def end(self, status=0):
        """Ends it in order."""
        ended = self.process.end()
        check(ended == status and "ERROR" not in self.said(), f"status {ended}: {self.said()[-1500:]}")

    def console(self):
        return Console(self.host)

    def leads(self):
        return control(self.host, "GET 1 role")[0].split()[3] == "leads"

    def counter(self, name):
        self.most = max(self.most, self.process.memory()[1])
        return int(control(self.host, f"GET 1 rate_ctr.abs.kunchrol.0.{name}")[0].split()[-1])

    def locked(self):
        """A connection that keeps others from writing to the store until it is closed."""
        lock = sqlite3.connect(self.store, isolation_level=None)
        lock.execute("BEGIN IMMEDIATE")
        return lock

    def row(self, number):
        return self.sql(f"SELECT lines FROM log WHERE seq = {number}")[0][0]

    def sql(self, words):
        with sqlite3.connect(self.store, timeout=30) as connection:
            return connection.execute(words).fetchall()


class Console:
    """A console, as one has it with telnet."""

    def __init__(self, host, port=CONSOLE):
        self.socket = socket.create_connection((host, port))
        self.socket.settimeout(10)
        self.until("> ")

    def until(self, prompt):
        text = ""
        while not text.endswith(prompt):
            part = self.socket.recv(1 << 16)
            check(part, f"the console has closed: {text[-300:]}")
            text += part.decode("latin1").replace("\r", "")
        return text

    def ask(self, words, prompt=None):
        """What a command says."""
        self.prompt = prompt or getattr(self, "prompt", "> ")
        self.socket.sendall(words.encode("latin1") + b"\r\n")
        return self.until(self.prompt)

    def enable(self):
        self.ask("enable", "# ")
        return self


def control(host, *all_words):
    """What the control interface answers to each of these."""
    answers = []
    with socket.create_connection((host, CONTROL)) as connection:
        connection.settimeout(10)
        for words in all_words:
            octets = words if isinstance(words, bytes) else words.encode()
            connection.sendall(struct.pack(">HBB", len(octets) + 1, 0xEE, 0) + octets)
            front = b""
            while len(front) < 4:
                part = connection.recv(4 - len(front))
                if not part:
                    return answers
                front += part
            wanted, answer = struct.unpack(">H", front[:2])[0] - 1, b""
            while len(answer) < wanted:
                answer += connection.recv(wanted - len(answer))
            answers.append(answer.decode("latin1"))
    return answers


def many(folder, subscribers=SUBSCRIBERS):
    """Records of many subscribers."""
    path = folder / "records"
    path.write_text(f"HLR1 {NUMBER}\n" + "".join(f"234150{it:09} 447{it:09} 11,21 * -\n" for it in range(1, subscribers + 1)))
    return path


def started(ends, folder, programs, **how):
    """An STP and kunchrold."""
    stp = started_stp(ends, folder, "ipa")
    return stp, Daemon(ends, folder, programs, **how).start()
