# SPDX-License-Identifier: Apache-2.0
"""A peer of kunchrold behind the STP: frames as UDT (Q.713), by IPA, libosmo's own way to carry SCCP over TCP; and a VLR that plays updates."""

import select
import socket
import time

from story import TOP, check

IPA_PORT, SCCP, CCM = 5000, 0xFD, 0xFE
ID_GET, ID_RESP, ID_ACK, PING, PONG = 4, 5, 6, 0, 1
UNIT_NAME = 1
# Bits of an address, and the title with translation type, numbering plan and nature.
HAS_PC, HAS_SSN, TITLE, BY_SSN = 1, 2, 4 << 2, 0x40
HLR, VLR, MSC = 6, 7, 8
NUMBER, OWN_POINT_CODE = "447700900100", 23 * 8 + 2


def bcd(digits):
    """Digits two an octet, the first in the low half; a missing one is `filler`."""
    return bytes(int(digits[at]) | (int(digits[at + 1]) if at + 1 < len(digits) else 0) << 4 for at in range(0, len(digits), 2))


def bcd_text(octets):
    return "".join(f"{it & 15}{it >> 4}" for it in octets)


def title(digits, nature=4):
    return bytes([0, 0x11 if len(digits) % 2 else 0x12, nature]) + bcd(digits)


def address(digits="", subsystem=VLR, nature=4, point_code=None):
    """An address by subsystem, with a title if there are digits."""
    front = b"" if point_code is None else point_code.to_bytes(2, "little")
    present = HAS_SSN | (HAS_PC if front else 0) | (TITLE if digits else 0)
    return bytes([BY_SSN | present]) + front + bytes([subsystem]) + (title(digits, nature) if digits else b"")


def without_point_code(octets):
    """An address without its point code, which IPA does not carry: the STP and the library set one."""
    return bytes([octets[0] & ~HAS_PC]) + octets[3:] if octets[0] & HAS_PC else octets


class Peer:
    """A connection to an STP."""

    def __init__(self, host="127.0.0.1", name="asp-clnt-peer"):
        self.socket, self.buffer = socket.create_connection((host, IPA_PORT)), b""
        self.ends = time.monotonic() + 10
        while (message := self.message(self.ends - time.monotonic())) is not None:
            if message[:2] == bytes([CCM, ID_GET]):
                octets = name.encode() + b"\0"
                self.send(CCM, bytes([ID_RESP]) + (len(octets) + 1).to_bytes(2, "big") + bytes([UNIT_NAME]) + octets)
            elif message[:2] == bytes([CCM, ID_ACK]):
                self.send(CCM, bytes([ID_ACK]))
                return
        check(False, "the STP does not take the peer")

    def send(self, stream, octets):
        self.socket.sendall(len(octets).to_bytes(2, "big") + bytes([stream]) + octets)

    def message(self, seconds):
        """The next message, with its stream before it; None if there is none in time."""
        end = time.monotonic() + max(0, seconds)
        while len(self.buffer) < 3 or len(self.buffer) < 3 + int.from_bytes(self.buffer[:2], "big"):
            if not select.select([self.socket], [], [], max(0, end - time.monotonic()))[0]:
                return None
            part = self.socket.recv(1 << 16)
            check(part, "the STP has closed the connection")
            self.buffer += part
        length = 3 + int.from_bytes(self.buffer[:2], "big")
        message, self.buffer = self.buffer[2:length], self.buffer[length:]
        return message

    def give(self, calling, octets, called=address(NUMBER, HLR)):
        """Sends a frame as UDT."""
        pointers = bytes([3, 3 + len(called), 3 + len(called) + len(calling)])
        self.send(SCCP, b"\x09\x00" + pointers + b"".join(bytes([len(it)]) + it for it in (called, calling, octets)))

    def take(self, seconds):
        """The next frame that came, and the address to which it came; None if there is none in time."""
        end = time.monotonic() + seconds
        while (message := self.message(end - time.monotonic())) is not None:
            if message[:2] == bytes([CCM, PING]):
                self.send(CCM, bytes([PONG]))
            elif message[:2] == bytes([SCCP, 9]):
                called, _, data = (message[at + message[at] + 1 :][: message[at + message[at]]] for at in (3, 4, 5))
                return without_point_code(called), data
        return None


# ---- frames of an update and of a route, as examples/whole_update.script has them


def frames_of_example():
    lines = (TOP / "examples/whole_update.script").read_text().splitlines()
    return [line.split()[2] for line in lines if line[0] == "F"]


UPDATE, RESULT, _, ROUTE = frames_of_example()
BEGUN, IMSI, SUBSCRIBER = bytes.fromhex("0000000B"), bytes.fromhex("32140500000000F1"), "447700900000"
FROM, ROUTED = "447700900012", bytes.fromhex("810791")
FIRST_ID = bytes.fromhex("4804")
END, CONTINUE, BEGIN, ABORT = 0x64, 0x65, 0x62, 0x67
# How long an answer to a route may take where others have the machine too, and after how long without a frame it is looked whether it can still come.
ANSWERED, QUIET = 30, 5
# How many updates a VLR begins at most before it hears again, however late it is.
BURST = 50


def octets_of(number):
    return number.to_bytes(4, "big")


def imsi_of(subscriber):
    return f"234150{subscriber:09}"


def msisdn_of(subscriber):
    return f"447{subscriber:09}"


def msc_of(number):
    return f"44771{number:07}"


def update(number, subscriber):
    """A Begin with an updateLocation, whose transaction id and MSC tell its number."""
    frame = bytes.fromhex(UPDATE).replace(BEGUN, octets_of(number), 1)
    imsi = bcd(imsi_of(subscriber))
    imsi = imsi[:-1] + bytes([imsi[-1] | 0xF0])
    check(IMSI in frame and ROUTED + bytes.fromhex("447700090020") in frame, "the example is another one")
    return frame.replace(IMSI, imsi).replace(ROUTED + bytes.fromhex("447700090020"), ROUTED + bcd(msc_of(number)))


def result(number, local):
    """The result of the insertSubscriberData that came with this local id of the register."""
    return bytes.fromhex(RESULT.replace("$A", local.hex())).replace(BEGUN, octets_of(number), 1)


def route(number, subscriber):
    frame = bytes.fromhex(ROUTE).replace(FIRST_ID + octets_of(1), FIRST_ID + octets_of(number), 1)
    return frame.replace(bcd(SUBSCRIBER), bcd(msisdn_of(subscriber)), 1)


def ids_of(frame):
    """The local id of the register, if the message has one, and the number of the peer."""
    at = 2 if frame[1] < 0x80 else 2 + (frame[1] & 15)
    local = frame[at + 2 : at + 6] if frame[at] == 0x48 else b""
    at += 6 if local else 0
    return local, int.from_bytes(frame[at + 2 : at + 2 + frame[at + 1]], "big") if frame[at] == 0x49 else None


def told_by(frame):
    """The number of the update whose MSC the answer to a route tells, or 0 if it tells none."""
    at = frame.find(ROUTED)
    return 0 if at < 0 else int(bcd_text(frame[at + 3 : at + 9])[5:])


def has_error(frame, error):
    """Whether an End has a ReturnError to invocation 1."""
    return bytes([0xA3, 6, 2, 1, 1, 2, 1, error]) in frame


class Vlr:
    """A VLR with updates of many subscribers, each of which has one at most under way."""

    def __init__(self, peer, subscribers):
        self.peer, self.subscribers, self.begun, self.calling = peer, subscribers, 1, address(FROM)
        # By subscriber: the last update that was confirmed, and those begun since. Who was confirmed, in order.
        self.confirmed, self.doubts, self.latest = {}, {}, []
        self.open, self.aborts = {}, 0

    def begin(self):
        number, subscriber = self.begun, 1 + self.begun % self.subscribers
        self.begun += 1
        self.open[number] = subscriber
        self.doubts.setdefault(subscriber, []).append(number)
        self.peer.give(self.calling, update(number, subscriber))

    def answer(self, frame):
        local, number = ids_of(frame)
        subscriber = self.open.get(number)
        if frame[0] == CONTINUE and subscriber is not None:
            self.peer.give(self.calling, result(number, local))
        elif frame[0] == END and subscriber is not None and not has_error(frame, 34):
            self.confirmed[subscriber] = number
            self.latest.append(subscriber)
            self.doubts[subscriber] = [it for it in self.doubts[subscriber] if it > number]
            del self.open[number]
        elif frame[0] == ABORT:
            self.aborts += 1

    def play(self, rate, seconds):
        """Begins so many updates a second, or as many as it can, and answers what comes."""
        start = time.monotonic()
        end, begun = start + seconds, self.begun
        while (now := time.monotonic()) < end:
            for _ in range(min(BURST, int((now - start) * rate) - (self.begun - begun))):
                self.begin()
            came = self.peer.take(0.002)
            while came:
                self.answer(came[1])
                came = self.peer.take(0)

    def rest(self, seconds):
        """Answers what comes until nothing comes for so long."""
        while came := self.peer.take(seconds):
            self.answer(came[1])

    def asked(self, subscriber):
        """The number of the update that a route tells, or 0 if there is none."""
        number, end = 0x40000000 + subscriber, time.monotonic() + ANSWERED
        self.peer.give(address("447700909999", MSC), route(number, subscriber))
        while time.monotonic() < end:
            came = self.peer.take(QUIET)
            if came and ids_of(came[1])[1] == number:
                return told_by(came[1])
            if came:
                self.answer(came[1])
            elif self.turns():
                return self.asked(subscriber)
        check(False, f"no answer to a route of {subscriber}")

    def turns(self):
        """Whether frames go to another process from now on, since the one before may have lost them. (Of a pair.)"""
        return False

    def compare(self, last=0):
        """Each subscriber, or those confirmed last, is where the last confirmed update says, or one begun since. Returns how often it was such a one."""
        wrong, newer = [], 0
        for subscriber in sorted({*self.latest[-last:]} if last else {*self.confirmed, *self.doubts}):
            number = self.asked(subscriber)
            if number in self.doubts.get(subscriber, ()):
                newer += 1
            elif number != self.confirmed.get(subscriber, 0):
                wrong.append((subscriber, number, self.confirmed.get(subscriber)))
        check(not wrong, f"{len(wrong)} subscribers are not where the last confirmed update says: {wrong[:5]}")
        return newer
