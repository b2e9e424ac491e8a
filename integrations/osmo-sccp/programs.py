# SPDX-License-Identifier: Apache-2.0
"""The programs of the rounds: built, and run beside a round."""

import os
import shutil
import signal
import socket
import subprocess
import time
from pathlib import Path

HERE = Path(__file__).resolve().parent
NUMBER = "447700900100"
PACKAGES = "osmo-stp libosmo-sigtran-dev libosmo-netif-dev libosmocore-dev tshark gcc pkg-config"
TOOLS = ("osmo-stp", "tshark", "dumpcap", "gcc", "pkg-config", "rt")
# what each of these programs is made of
SOURCES = {
    "register": "register ticks hlr dialogues script stack told way unsent address transaction",
    "peer": "peer script stack told way unsent address transaction",
    "load": "load script stack told way unsent address transaction",
}
PORTS = {"ipa": 5000, "m3ua": 2905}
SECONDS, UP_SECONDS = 60, 10


class Wrong(Exception):
    """What a round found."""


def check(is_well, words):
    if not is_well:
        raise Wrong(words)


def output(words, **how):
    return subprocess.run(words, check=True, capture_output=True, text=True, timeout=SECONDS, **how).stdout


def built(folder, name, archive, more):
    """A program of this folder."""
    kit = Path(os.path.realpath(shutil.which("rt"))).parent.parent
    osmo = output(["pkg-config", "--cflags", "--libs", "libosmo-sigtran", "libosmo-netif", "libosmocore"]).split()
    sources = [HERE / f"{it}.c" for it in SOURCES[name].split()]
    library = [archive, kit / "c/liblibc_c.a"] if name == "register" else []
    flags = ["-std=gnu11", "-Wall", "-Wextra", "-Werror", "-O1", "-g", *more]
    subprocess.run(["gcc", *flags, "-o", f"{folder}/{name}", *sources, *library, *osmo], check=True)
    return f"{folder}/{name}"


def protocol():
    """By what the programs reach the STP."""
    try:
        socket.socket(socket.AF_INET, socket.SOCK_STREAM, socket.IPPROTO_SCTP).close()
    except OSError:
        return "ipa"
    return "m3ua"


class Running:
    """A program that runs beside, with what it says in a file; it is ended when the run ends."""

    def __init__(self, ends, folder, words):
        self.said = Path(folder, f"{Path(words[0]).name}.said")
        self.out = Path(folder, f"{Path(words[0]).name}.out")
        with open(self.said, "w") as said, open(self.out, "w") as out:
            self.process = subprocess.Popen(list(map(str, words)), stdin=subprocess.DEVNULL, stdout=out, stderr=said)
        ends.callback(self.end)

    def waits_for(self, text, times=1, seconds=UP_SECONDS):
        """Whether it says this, so often, in time."""
        end = time.monotonic() + seconds
        while time.monotonic() < end and self.process.poll() is None:
            if self.said.read_text().count(text) >= times:
                return True
            time.sleep(0.05)
        return self.said.read_text().count(text) >= times

    def send(self, what):
        self.process.send_signal(what)

    def memory(self):
        """The kilobytes that it takes, and the most that it took."""
        status = dict(it.split(":", 1) for it in Path(f"/proc/{self.process.pid}/status").read_text().splitlines())
        return [int(status[it].split()[0]) for it in ("VmRSS", "VmHWM")]

    def processor(self):
        """The seconds of a processor that its threads took."""
        return sum(int(it.read_text().split()[0]) for it in Path(f"/proc/{self.process.pid}/task").glob("*/schedstat")) / 1e9

    def kill(self):
        self.process.kill()
        self.process.wait()

    def end(self, how=signal.SIGTERM):
        if self.process.poll() is None:
            self.process.send_signal(how)
            self.process.send_signal(signal.SIGCONT)  # if it is stopped
        try:
            return self.process.wait(timeout=UP_SECONDS)
        except subprocess.TimeoutExpired:
            self.process.kill()
            return self.process.wait()


def started_stp(ends, folder, way):
    stp = Running(ends, folder, ["osmo-stp", "-c", HERE / f"stp-{way}.cfg"])
    check(stp.waits_for("telnet"), f"the STP did not start: {stp.said.read_text()}")
    return stp
