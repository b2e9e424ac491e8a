#!/usr/bin/env python3
"""Plays a script on records through the library, as the program `hlr` does in one thread: play.py RECORDS SCRIPT [--none] [--list] [--save].

Prints `S <to> <octets>` for each frame that is sent; with --list then the records, which are looked up one by one, the open dialogues and the
journals, which are cut; and with --save the records, each line after `V `. With --none the register keeps no journals. If a journal
is full all are cut, and the call is made again. A line that is not handled is reported on standard error, and the status is then 1."""

import re
import sys
from collections.abc import Callable
from pathlib import Path

from kunchrol import SHARDS, Fault, JournalFull, Register


class Player:
    def __init__(self, register: Register) -> None:
        self.register, self.ids = register, []

    def give(self, call: Callable[..., object], *arguments: object) -> None:
        """An event, and what it sends."""
        try:
            call(*arguments)
        except JournalFull:
            self.journals()
            call(*arguments)
        for to, octets in self.register.sent():
            print(f"S {to} {octets.hex().upper()}")
            self.note_id(octets)

    def note_id(self, octets: bytes) -> None:
        """Notes an id that the register took: that of a Begin or a Continue which it sends."""
        taken = re.match(rb"[\x62\x65](?:[\0-\x7f]|\x81.|\x82..)\x48\x04(.{4})", octets, re.S)
        if taken and taken[1].hex() not in self.ids:
            self.ids.append(taken[1].hex())

    def frame(self, sender: str, field: str) -> None:
        written = re.sub(r"\$([A-Z])", lambda letter: self.ids[ord(letter[1]) - ord("A")], field)
        self.give(self.register.frame, sender, b"" if field == "-" else bytes.fromhex(written))

    def line(self, line: str) -> None:
        kind, *words = line.split(" ")
        if kind == "E":
            for shard in range(SHARDS):
                self.give(self.register.expire, shard)
        elif kind == "C":
            self.give(self.register.clock, int(words[0]))
        elif kind == "F":
            self.frame(*words)
        elif kind != "W":
            self.give({"O": self.register.codes, "X": self.register.withdraw}[kind], *words)

    def journals(self) -> str:
        return "".join(map(self.register.cut, range(SHARDS)))

    def list(self) -> None:
        for line in self.register.save().decode("ascii").splitlines()[1:]:
            imsi, msisdn = line.split(" ")[:2]
            found = self.register.record(imsi)
            print(f"R {found}" if found == self.register.record_of_number(msisdn) else f"R {imsi} is not {msisdn}")
        print("".join(map(self.register.dialogues, range(SHARDS))), self.journals(), sep="", end="")

    def save(self) -> None:
        print(*(f"V {line}" for line in self.register.save().decode("ascii").splitlines()), sep="\n")


def main(records: str, script: str, *options: str) -> int:
    try:
        with Register(Path(records).read_bytes(), journals="--none" not in options) as register:
            player = Player(register)
            for line in Path(script).read_text("ascii").splitlines():
                player.line(line)
            for option in options:
                {"--list": player.list, "--save": player.save, "--none": str}[option]()
    except (Fault, IndexError, KeyError, TypeError, ValueError) as fault:
        print(f"play.py: {fault}", file=sys.stderr)
        return 1
    return 0


if __name__ == "__main__":
    sys.exit(main(*sys.argv[1:]))
