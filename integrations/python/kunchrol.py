"""The register from Python, by ctypes over the shared library that `make -C package install` installs.

    from kunchrol import Register

    with Register(records) as register:              # the octets of a records file
        register.frame("447700909999", octets)       # a frame that came
        for to, answer in register.sent():           # the frames to be sent
            ...

`include/kunchrol.h` says what each call does; a method has the call's name, except `sent`, which is kunchrol_next until no frame waits. The
constructor is kunchrol_open, and the class method `restore` makes a register by kunchrol_restore.
The library is the file that KUNCHROL_LIBRARY names in the environment, or else the one that is installed. A register is used by
the thread that opened it, which is checked here, and has to be closed: a `with` does that.
"""

import ctypes
import ctypes.util
import os
import threading
from collections.abc import Iterator
from ctypes import POINTER, byref, c_char_p, c_size_t, c_uint8, c_uint32, c_uint64
from enum import IntEnum
from types import TracebackType
from typing import NamedTuple

SHARDS, MAX_DIGITS, MAX_OCTETS, MAX_LINE = 16, 16, 4096, 312
MAX_CLOCK = 2**62
# The interface that is called here; another one has another number.
SONAME = "libkunchrol.so.0"


class Code(IntEnum):
    """What a call returns."""

    OK = 0
    NONE = 1
    SMALL = 2
    ARGUMENT = 3
    CLOSED = 4
    OPEN = 5
    JOURNAL = 6
    NO_ROOM = 7
    MEMORY = 8
    LINE = 9
    TWICE = 10
    IMAGE_LINE = 11
    IMAGE_SHORT = 12


class Counts(NamedTuple):
    """How full a shard is: its open dialogues, of which 4,096 fit, and the entries of its journal, of which 65,536 fit."""

    dialogues: int
    entries: int


class Fault(Exception):
    """Why a call did nothing. `line` is that of the records file, of the image or of the log, from 1, or 0; of a log the octets before it, which
    are done, are `used`."""

    def __init__(self, code: int, line: int = 0, used: int = 0) -> None:
        name = Code(code).name if code in iter(Code) else str(code)
        super().__init__(f"{name}, line {line}" if line else name)
        self.code, self.line, self.used = code, line, used


class WrongArgument(Fault, ValueError):
    """Digits, codes, a shard, a clock value or a line of a log are not of their form."""


class Closed(Fault):
    """The register is closed."""


class JournalFull(Fault):
    """A journal in which an entry is to be made has 65,536: `cut` it, then repeat the call."""


class NoRoom(Fault):
    """A change would open a dialogue, and 4,096 are open in the shard."""


class OutOfMemory(Fault, MemoryError):
    """The call may be repeated."""


class BadLine(Fault, ValueError):
    """A line of the records file is not of its form."""


class Twice(BadLine):
    """The IMSI or MSISDN of a line of the records file stands on an earlier line."""


class BadImage(Fault, ValueError):
    """A line of the image is not of its form, or cannot follow those before it."""


class ShortImage(Fault, ValueError):
    """The image ends before all shards are whole."""


FAULTS: dict[int, type[Fault]] = {
    Code.ARGUMENT: WrongArgument,
    Code.CLOSED: Closed,
    Code.JOURNAL: JournalFull,
    Code.NO_ROOM: NoRoom,
    Code.MEMORY: OutOfMemory,
    Code.LINE: BadLine,
    Code.TWICE: Twice,
    Code.IMAGE_LINE: BadImage,
    Code.IMAGE_SHORT: ShortImage,
}


def fault_of(code: int, line: int = 0, used: int = 0) -> Fault:
    return FAULTS.get(code, Fault)(code, line, used)


class Handle(ctypes.Structure):
    """A struct kunchrol."""

    _fields_ = [("at", ctypes.c_void_p)]


HLR, LENGTH = POINTER(Handle), POINTER(c_size_t)
TEXT = [c_char_p, c_size_t]
BUFFER = [*TEXT, LENGTH]
# The parameters of each call.
CALLS: dict[str, list[type]] = {
    "version": [],
    "open": [*TEXT, c_uint8, c_uint32, HLR, POINTER(c_uint64)],
    "restore": [*TEXT, *TEXT, c_uint8, HLR, POINTER(c_uint64)],
    "frame": [HLR, *TEXT, *TEXT],
    "clock": [HLR, c_uint64],
    "expire": [HLR, c_uint8],
    "deadline": [HLR, POINTER(c_uint64)],
    "codes": [HLR, *TEXT, *TEXT],
    "withdraw": [HLR, *TEXT],
    "line": [HLR, *TEXT],
    "replay": [HLR, *TEXT, LENGTH, POINTER(c_uint64)],
    "drop_frames": [HLR],
    "next": [HLR, *BUFFER, *BUFFER],
    "subject": [HLR, *BUFFER],
    "record": [HLR, *TEXT, *BUFFER],
    "record_of_number": [HLR, *TEXT, *BUFFER],
    "counts": [HLR, c_uint8, LENGTH, LENGTH],
    "dialogues": [HLR, c_uint8, *BUFFER],
    "save": [HLR, *BUFFER],
    "image": [HLR, c_uint8, *BUFFER],
    "cut": [HLR, c_uint8, *BUFFER],
    "close": [HLR],
}


def load(path: str | None = None) -> ctypes.CDLL:
    """The shared library at this path, or the one that is found."""
    library = ctypes.CDLL(path or os.environ.get("KUNCHROL_LIBRARY") or SONAME)
    for name, parameters in CALLS.items():
        call = getattr(library, f"kunchrol_{name}")
        call.argtypes, call.restype = parameters, None if name == "close" else c_uint32
    return library


def version(library: ctypes.CDLL | None = None) -> tuple[int, int, int]:
    number = (library or load()).kunchrol_version()
    return number >> 16, number >> 8 & 255, number & 255


def text_of(text: str) -> tuple[bytes, int]:
    """The two words that a text is passed as. What is not ASCII is passed as `?`, which no text has."""
    octets = text.encode("ascii", "replace")
    return octets, len(octets)


class Register:
    """A register. What a call sends waits for `sent`."""

    def __init__(self, records: bytes, *, journals: bool = False, start: int = 0, library: ctypes.CDLL | None = None) -> None:
        self._begin(library, "open", records, len(records), journals, start)

    @classmethod
    def restore(cls, records: bytes, image: bytes, *, journals: bool = False, library: ctypes.CDLL | None = None) -> "Register":
        """The register that goes on where it was saved: `save` and `image` gave these octets, with no event between the two. An image that is cut
        off is refused, unless only its last line feed is missing."""
        register = cls.__new__(cls)
        register._begin(library, "restore", records, len(records), image, len(image), journals)
        return register

    def _begin(self, library: ctypes.CDLL | None, name: str, *arguments: object) -> None:
        self._library, self._handle, self._thread = library or load(), Handle(None), threading.get_ident()
        self._to, self._octets = ctypes.create_string_buffer(MAX_DIGITS), ctypes.create_string_buffer(MAX_OCTETS)
        line = c_uint64()
        code = getattr(self._library, f"kunchrol_{name}")(*arguments, byref(self._handle), byref(line))
        if code:
            raise fault_of(code, line.value)

    def __enter__(self) -> "Register":
        return self

    def __exit__(self, kind: type[BaseException] | None, fault: BaseException | None, trace: TracebackType | None) -> None:
        self.close()

    def frame(self, sender: str, octets: bytes) -> None:
        """Gives a frame that came from these digits."""
        self._does("frame", *text_of(sender), bytes(octets), len(octets))

    def line(self, line: str) -> bool:
        """Does what a line of a log says. False for an expiry where none is due, and for a change of no record."""
        return self._does("line", *text_of(line))

    def replay(self, text: bytes) -> int:
        """Does what each whole line of the text of a log says, and returns how many octets these have: the rest belongs before the next piece."""
        used, line = c_size_t(), c_uint64()
        code = self._code("replay", bytes(text), len(text), byref(used), byref(line))
        if code:
            raise fault_of(code, line.value, used.value)
        return used.value

    def drop_frames(self) -> None:
        """Drops the frames that wait."""
        self._does("drop_frames")

    def clock(self, now: int) -> None:
        """Sets the clocks, in ticks."""
        if not 0 <= now <= MAX_CLOCK:
            raise WrongArgument(Code.ARGUMENT)
        self._does("clock", now)

    def expire(self, shard: int) -> bool:
        """Expires the timer of a shard that has been due longest. False if none is due."""
        return self._does("expire", self._shard(shard))

    def expire_due(self) -> int:
        """Expires all timers that are due, and returns how many there were."""
        return sum(1 for shard in range(SHARDS) for _ in iter(lambda: self.expire(shard), False))

    def deadline(self) -> int | None:
        """When the first timer is due, in ticks. None if no timer runs."""
        when = c_uint64()
        return when.value if self._does("deadline", byref(when)) else None

    def codes(self, imsi: str, codes: str) -> bool:
        """Changes a subscriber's teleservice codes. False if there is no such record."""
        return self._does("codes", *text_of(imsi), *text_of(codes))

    def withdraw(self, imsi: str) -> bool:
        """Ends a subscription. False if there is no such record."""
        return self._does("withdraw", *text_of(imsi))

    def sent(self) -> Iterator[tuple[str, bytes]]:
        """Takes the frames that wait, in the order of sending, each with the digits that it goes to."""
        to_len, octets_len = c_size_t(), c_size_t()
        while self._does("next", self._to, MAX_DIGITS, byref(to_len), self._octets, MAX_OCTETS, byref(octets_len)):
            yield self._to[: to_len.value].decode("ascii"), self._octets[: octets_len.value]

    def subject(self) -> str | None:
        """The IMSI of the subscriber that the last event was about. None if it was about nobody, and if none has come."""
        imsi = self._text("subject", MAX_DIGITS)
        return None if imsi is None else imsi.decode("ascii")

    def record(self, imsi: str) -> str | None:
        """The record with this IMSI, as a line of a records file of version 2. None if there is none."""
        line = self._text("record", MAX_LINE, *text_of(imsi))
        return None if line is None else line.decode("ascii")

    def record_of_number(self, msisdn: str) -> str | None:
        """The record with this MSISDN."""
        line = self._text("record_of_number", MAX_LINE, *text_of(msisdn))
        return None if line is None else line.decode("ascii")

    def counts(self, shard: int) -> Counts:
        """How many dialogues are open in a shard, and how many entries its journal has. It copies nothing."""
        dialogues, entries = c_size_t(), c_size_t()
        self._does("counts", self._shard(shard), byref(dialogues), byref(entries))
        return Counts(dialogues.value, entries.value)

    def dialogues(self, shard: int) -> str:
        """Lists the open dialogues of a shard."""
        return (self._text("dialogues", 1 << 12, self._shard(shard)) or b"").decode("ascii")

    def save(self) -> bytes:
        """The records as a records file of version 2."""
        return self._text("save", 1 << 16) or b""

    def image(self, shard: int | None = None) -> bytes:
        """The image of a shard; without one, of all shards, as `restore` takes it with the records that `save` gives before the next event."""
        if shard is None:
            return b"".join(map(self.image, range(SHARDS)))
        return self._text("image", 1 << 12, self._shard(shard)) or b""

    def cut(self, shard: int) -> str:
        """Empties the journal of a shard, and returns its listing."""
        return (self._text("cut", 1 << 16, self._shard(shard)) or b"").decode("ascii")

    def close(self) -> None:
        """Frees the register's memory. Nothing happens if it is closed."""
        self._look_at_thread()
        self._library.kunchrol_close(byref(self._handle))

    def _look_at_thread(self) -> None:
        if threading.get_ident() != self._thread:
            raise RuntimeError("a register is used by the thread that opened it")

    def _code(self, name: str, *arguments: object) -> int:
        self._look_at_thread()
        return getattr(self._library, f"kunchrol_{name}")(byref(self._handle), *arguments)

    def _does(self, name: str, *arguments: object) -> bool:
        """Calls, and says whether it did what it is for; False for NONE."""
        return is_done(self._code(name, *arguments))

    def _text(self, name: str, size: int, *arguments: object) -> bytes | None:
        """What a call writes into a buffer, first of this size and then of the one that is needed. None for NONE."""
        length, code = c_size_t(size), int(Code.SMALL)
        while code == Code.SMALL:
            buffer = ctypes.create_string_buffer(length.value)
            code = self._code(name, *arguments, buffer, len(buffer), byref(length))
        return buffer[: length.value] if is_done(code) else None

    @staticmethod
    def _shard(shard: int) -> int:
        if not 0 <= shard < SHARDS:
            raise WrongArgument(Code.ARGUMENT)
        return shard


def is_done(code: int) -> bool:
    if code > Code.NONE:
        raise fault_of(code)
    return code == Code.OK
