#!/usr/bin/env python3
"""Compares the card with QEMU's NE2000, access by access.

    card.py QEMU REPLAY [LISTS]

QEMU is qemu-system-i386. REPLAY is a program that keeps one card with the station address below and
answers each line of its standard input by a line: `r PORT WIDTH` by the bytes that are read, `w PORT
BYTE ..` by `none` or by `sent` and the bytes of the frame that was sent, `a BYTE ..` (a frame
arrives) by any line; all numbers are decimal.

Each list is first what a driver does: it sets up the card by the data sheet's sequence, writes frames to
memory and sends them, takes frames that arrive, and reads them from the ring. What is read, what is
sent and what is stored must be the same on both sides. Two things are left out: bit 7 of ISR, and the
byte behind a frame of odd length (QEMU leaves the four bytes behind a frame as they were; the card
writes zeros in place of the check sequence).

Then it does two of the things in which QEMU's card differs, each followed by a new setup. There each
read of the card is held to what the data sheet or the card's own profile says, and the differences are
counted by their reason; the counts are printed at the end. A difference without a reason ends the run.
"""
import os
import random
import socket
import subprocess
import sys
import tempfile
import time
import zlib
from collections import Counter

STATION = bytes([0x52, 0x54, 0x00, 0x12, 0x34, 0x56])
BROADCAST = b"\xff" * 6
BASE = 0x300
FIRST, PAST = 0x46, 0x80
EXPLAINED = Counter()


class Qemu:
    """QEMU's card, by its test protocol; frames go over a pair of datagram sockets."""

    def __init__(self, program):
        self.wire = socket.socket(socket.AF_INET, socket.SOCK_DGRAM)
        self.wire.bind(("127.0.0.1", 0))
        probe = socket.socket(socket.AF_INET, socket.SOCK_DGRAM)
        probe.bind(("127.0.0.1", 0))
        self.port = probe.getsockname()[1]
        probe.close()
        bios = tempfile.NamedTemporaryFile(suffix=".bin", delete=False)
        rom = bytearray(b"\xf4" * 0x10000)
        rom[0xFFF0:0xFFF4] = b"\xfa\xf4\xeb\xfd"
        bios.write(rom)
        bios.close()
        mac = ":".join("%02x" % byte for byte in STATION)
        self.process = subprocess.Popen(
            [program, "-machine", "isapc", "-display", "none", "-nodefaults", "-bios", bios.name,
             "-qtest", "stdio", "-qtest-log", "/dev/null",
             "-netdev", "dgram,id=n,local.type=inet,local.host=127.0.0.1,local.port=%d,"
             "remote.type=inet,remote.host=127.0.0.1,remote.port=%d"
             % (self.port, self.wire.getsockname()[1]),
             "-device", "ne2k_isa,iobase=0x300,irq=9,netdev=n,mac=" + mac],
            stdin=subprocess.PIPE, stdout=subprocess.PIPE, text=True)
        self.bios = bios.name

    def ask(self, line):
        self.process.stdin.write(line + "\n")
        self.process.stdin.flush()
        while True:
            answer = self.process.stdout.readline().split()
            if answer and answer[0] == "OK":
                return int(answer[1], 16) if len(answer) > 1 else 0
            if not answer or answer[0] == "FAIL":
                sys.exit("qemu: %s at %s" % (answer, line))

    def read(self, port, width):
        value = self.ask("%s 0x%x" % ("inb" if width == 1 else "inw", BASE + port))
        return list(value.to_bytes(width, "little"))

    def write(self, port, data):
        value = int.from_bytes(bytes(data), "little")
        self.ask("%s 0x%x 0x%x" % ("outb" if len(data) == 1 else "outw", BASE + port, value))
        if port == 0 and data[0] & 0x05 == 0x04:
            self.wire.settimeout(5)
            return list(self.wire.recv(4000))
        return None

    def arrive(self, frame, taken):
        self.wire.sendto(bytes(frame), ("127.0.0.1", self.port))
        end = time.time() + (5 if taken else 0.01)
        while time.time() < end and not self.read(7, 1)[0] & 1:
            pass
        for _ in range(4):
            self.read(7, 1)

    def close(self):
        self.process.kill()
        self.process.wait()
        os.unlink(self.bios)


class Card:
    """Our card, by the replay program."""

    def __init__(self, program):
        self.process = subprocess.Popen([program], stdin=subprocess.PIPE, stdout=subprocess.PIPE, text=True)

    def ask(self, *words):
        self.process.stdin.write(" ".join(str(word) for word in words) + "\n")
        self.process.stdin.flush()
        return self.process.stdout.readline().replace("[", " ").replace("]", " ").replace(",", " ").split()

    def read(self, port, width):
        return [int(word) for word in self.ask("r", port, width)]

    def write(self, port, data):
        answer = self.ask("w", port, *data)
        return [int(word) for word in answer[1:]] if answer[0] == "sent" else None

    def arrive(self, frame):
        self.ask("a", *frame)

    def close(self):
        self.process.stdin.close()
        self.process.wait()


class Both:
    """Both cards side by side."""

    def __init__(self, qemu, card):
        self.qemu, self.card, self.accesses, self.trace = qemu, card, 0, []

    def same(self, what, theirs, ours, why=None):
        self.accesses += 1
        self.trace.append((what, theirs, ours))
        if theirs != ours and why:
            EXPLAINED[why] += 1
        elif theirs != ours:
            for entry in self.trace[-20:]:
                print("%s: qemu %s, card %s" % entry)
            sys.exit("different")

    def read(self, port, width=1, mask=0xFF, why=None, want=None):
        """Reads a port of both. A difference is counted under `why`; the card must give `want`."""
        theirs, ours = self.qemu.read(port, width), self.card.read(port, width)
        self.same("read %#x" % port, [byte & mask for byte in theirs], [byte & mask for byte in ours], why)
        if want is not None and ours != list(want):
            print(self.trace[-20:])
            sys.exit("port %#x: card %s, by the sheet %s" % (port, ours, list(want)))
        return ours

    def write(self, port, *data, why=None):
        theirs, ours = self.qemu.write(port, data), self.card.write(port, data)
        self.same("write %#x %s" % (port, list(data)), theirs, ours, why)

    def remote(self, command, address, count):
        for port, byte in ((8, address & 255), (9, address >> 8), (10, count & 255), (11, count >> 8)):
            self.write(port, byte)
        self.write(0, 0x02 | command)

    def memory(self, address, count):
        self.remote(0x08, address, count)
        return [byte for _ in range(count // 2) for byte in self.read(0x10, 2)]


def start(both, rng):
    """The data sheet's initialization."""
    receive = rng.choice([0x04, 0x0C, 0x00, 0x08, 0x14, 0x10])
    mask = [rng.randrange(256) for _ in range(8)]
    both.read(0x1F)
    for port, byte in ((0, 0x21), (0x0E, 0x49), (0x0A, 0), (0x0B, 0), (0x0C, receive), (0x0D, 0),
                       (1, FIRST), (2, PAST), (3, FIRST), (7, 0xFF), (0x0F, 0x3F), (0, 0x61)):
        both.write(port, byte)
    for place, byte in enumerate(STATION):
        both.write(1 + place, byte)
    for place, byte in enumerate(mask):
        both.write(8 + place, byte)
    both.write(7, FIRST + 1)
    for port in range(1, 16):
        both.read(port)
    both.write(0, 0x22)
    return receive


def send(both, rng):
    """A frame is written to memory and sent."""
    count = rng.choice([14, 60, 1514, rng.randrange(14, 1515)])
    even = count + count % 2
    page = rng.randrange(0x40, 0x40 + 1)
    both.remote(0x10, page * 256, even)
    for _ in range(even // 2):
        both.write(0x10, rng.randrange(256), rng.randrange(256))
    both.read(7, mask=0x7F)
    both.write(7, 0x40)
    both.write(4, page)
    both.write(5, count & 255)
    both.write(6, count >> 8)
    both.write(0, 0x26)
    for port in (0, 4):
        both.read(port)
    both.read(7, mask=0x7F)
    both.write(7, 0x02)


def arrive(both, rng, receive):
    """A frame arrives, and the driver reads what is in the ring."""
    kinds = [BROADCAST, STATION, bytes([0x02, 1, 2, 3, 4, rng.randrange(256)])]
    if not receive & 0x10:
        kinds.append(bytes([0x01, 0x00, 0x5E] + [rng.randrange(256) for _ in range(3)]))
        kinds.append(bytes([0x33, 0x33] + [rng.randrange(256) for _ in range(4)]))
    elif not receive & 0x04:
        kinds.remove(BROADCAST)
    length = rng.choice([14, 59, 60, 248, 249, 1514, rng.randrange(14, 1515)])
    frame = rng.choice(kinds) + bytes(rng.randrange(256) for _ in range(length - 6))
    both.card.arrive(frame)
    both.qemu.arrive(frame, both.card.read(7, 1)[0] & 1)
    status = both.read(7, mask=0x7F)[0]
    both.write(0, 0x62)
    both.read(7)
    both.write(0, 0x22)
    if not status & 1:
        return
    both.read(0x0C)
    both.write(7, 0x01)
    both.write(0, 0x62)
    current = both.read(7)[0]
    both.write(0, 0x22)
    boundary = both.read(3)[0]
    page = boundary + 1 if boundary + 1 < PAST else FIRST
    header = both.memory(page * 256, 4)
    count = header[2] + 256 * header[3] - 4
    begin = page * 256 + 4
    even = count + count % 2
    if even != count:
        # the byte behind the frame is one of the four that differ
        both.memory(begin, even - 2)
    else:
        both.memory(begin, even)
    for port in (8, 9):
        both.read(port)
    both.write(7, 0x40)
    both.write(3, header[1] - 1 if header[1] > FIRST else PAST - 1)
    assert header[1] == current


# Where the two differ: each of these does what QEMU's card does otherwise, counts the differences, and
# holds the card to what the sheet or the card's profile says. The list goes on from a new setup.


def set_receiver(both, rcr, current=FIRST + 1, boundary=FIRST):
    """The receiver is set up anew, and both status registers are cleared."""
    for port, byte in ((0, 0x21), (0x0C, rcr), (3, boundary), (0, 0x61)):
        both.write(port, byte)
    both.write(7, current)
    both.write(0, 0x22)
    both.write(7, 0x7F)
    both.read(0x0F, why="CNTR2")


def page_1(both, port, why=None, want=None):
    both.write(0, 0x62)
    value = both.read(port, why=why, want=want)[0]
    both.write(0, 0x22)
    return value


def random_frame(rng, address, length=None):
    length = length or rng.choice([14, 59, 60, 248, 249, 1514, rng.randrange(14, 1515)])
    return address + bytes(rng.randrange(256) for _ in range(length - 6))


def reset_and_stop(both, rng):
    both.read(0x1F, want=[0])
    both.read(0, why="CR of a reset card is 21", want=[0x21])
    both.read(7, want=[0x80])
    both.write(0, 0x22)
    both.read(7, want=[0])
    both.write(0, 0x21)
    both.read(7, why="ISR bit 7 after a stop", want=[0x80])
    both.write(7, 0xFF)
    both.read(7, why="ISR bit 7 after a stop", want=[0x80])
    both.write(0, 0x22)
    both.write(0x1F, 0)
    both.read(0, want=[0x22])
    both.read(0x18 + rng.randrange(7), why="the reset port at 18 to 1E", want=[0])
    both.read(0, why="the reset port at 18 to 1E", want=[0x21])


def prom(both, rng):
    """Words of the PROM, a write to it, and words again."""
    content = [byte for byte in list(STATION) + [0] * 8 + [0x57] * 2 for _ in range(2)]
    for _ in range(2):
        both.remote(0x08, 0, 32)
        for place in range(0, 32, 2):
            both.read(0x10, 2, why="PROM after a second reset or a write", want=content[place:place + 2])
        both.read(7, mask=0x7F)
        both.remote(0x10, 0, 32)
        for _ in range(16):
            both.write(0x10, rng.randrange(256), rng.randrange(256))


def overflow(both, rng):
    """Frames arrive and none is read, until some are missed."""
    boundary = rng.randrange(FIRST, PAST)
    current = boundary + 1 if boundary + 1 < PAST else FIRST
    set_receiver(both, 0x04, current, boundary)
    missed = 0
    while missed < 3:
        frame = random_frame(rng, BROADCAST)
        free = (boundary - current) % (PAST - FIRST) or PAST - FIRST
        pages = (max(len(frame), 60) + 8 + 255) // 256
        theirs = free * 256 >= 1518
        both.card.arrive(frame)
        both.qemu.arrive(frame, theirs)
        if pages < free:
            why = None if theirs else "stored with less than 1,518 bytes free"
            current += pages
            current -= PAST - FIRST if current >= PAST else 0
            both.read(7, why=why, want=[0x01])
        else:
            why = "OVW where CURR would meet BNRY" if theirs else "OVW and CNTR2"
            missed += 1
            both.read(7, why=why, want=[0x10])
        page_1(both, 7, why=why, want=[current])
        both.write(7, 0x7F)
        if pages >= free and theirs:
            break
    both.read(0x0F, why="CNTR2", want=[missed])
    both.read(0x0F, want=[0])


def counter(both, rng):
    """So many frames are missed that the counter stands."""
    set_receiver(both, 0x04, 0x50, 0x51)
    count = rng.choice([127, 128, 192, 200])
    for _ in range(count):
        both.card.arrive(random_frame(rng, BROADCAST, 60))
    both.read(7, why="OVW, CNT", want=[0x30 if count >= 128 else 0x10])
    both.read(0x0F, why="CNTR2", want=[min(count, 192)])
    both.read(0x0F, want=[0])


def hash_of(address):
    crc = zlib.crc32(address) ^ 0xFFFFFFFF
    return int("{:032b}".format(crc)[::-1], 2) >> 26


def filters(both, rng):
    """A frame for each kind of address under a random RCR, PAR and MAR."""
    rcr = rng.randrange(32) & 0x1C
    own = bytes([2, 9, 9, 9, 9, rng.randrange(256)])
    multicast = [rng.randrange(256) for _ in range(8)]
    set_receiver(both, rcr)
    both.write(0, 0x61)
    for place, byte in enumerate(own):
        both.write(1 + place, byte)
    for place, byte in enumerate(multicast):
        both.write(8 + place, byte)
    both.write(0, 0x22)
    for address in (own, STATION, BROADCAST, bytes([1, 0, 0x5E] + [rng.randrange(256) for _ in range(3)])):
        set_receiver(both, rcr)
        in_mar = multicast[hash_of(address) // 8] >> hash_of(address) % 8 & 1
        if address == BROADCAST:
            ours = theirs = rcr & 4
        elif address[0] & 1:
            ours = theirs = rcr & 8 and in_mar
        else:
            ours, theirs = rcr & 0x10 or address == own, address == STATION
        theirs = theirs or rcr & 0x10
        frame = random_frame(rng, address, 60)
        both.card.arrive(frame)
        both.qemu.arrive(frame, theirs)
        why = None
        if bool(ours) != bool(theirs):
            why = "PRO and a group address" if address[0] & 1 else "PAR, not the PROM, is the address"
        both.read(7, why=why, want=[1 if ours else 0])


def monitor_and_loopback(both, rng):
    set_receiver(both, 0x24)
    frame = random_frame(rng, BROADCAST)
    both.card.arrive(frame)
    both.qemu.arrive(frame, True)
    both.read(7, why="monitor", want=[0])
    both.read(0x0F, why="CNTR2", want=[1])
    set_receiver(both, 0x04)
    both.write(0x0D, 0x02)
    both.card.arrive(frame)
    both.qemu.arrive(frame, True)
    both.read(7, why="loopback", want=[0])
    both.write(4, 0x40)
    both.write(5, 60)
    both.write(6, 0)
    both.write(0, 0x26, why="loopback")
    both.read(4, want=[1])
    both.read(7, mask=0x02)


def other_ports(both, rng):
    for page in (2, 3):
        both.write(0, 0x22 + 64 * page)
        for port in range(1, 16):
            both.read(port, why="pages 2 and 3", want=[0])
    both.write(0, 0x22)
    for port in (1, 2, 5, 6, 0x0A, 0x0B, 0x0D, 0x0E):
        both.read(port, why="page 0 read, 0A and 0B: ids of a clone", want=[0])
    both.write(3, 0x55)
    both.read(3, 2, why="a word from a register", want=[0x55, 0])
    both.remote(0x08, 0x2000, 4)
    both.read(0x10, 2, want=[0xFF, 0xFF])
    both.remote(0x08, 0x9000, 4)
    both.read(0x10, 2, why="memory from 8000 on", want=[0xFF, 0xFF])


def data_port(both, rng):
    """Byte mode, counts of 0, odd counts and addresses, abort, and the wrap at 0x7FFF."""
    content = [rng.randrange(256) for _ in range(64)]
    both.write(0x0E, 0x49)
    both.remote(0x10, 0x7FE0, 64)
    for place in range(0, 64, 2):
        both.write(0x10, *content[place:place + 2])
    both.remote(0x08, 0x7FE0, 64)
    for place in range(0, 64, 2):
        both.read(0x10, 2, want=content[place:place + 2])
        both.read(8)
        both.read(9)
        both.read(7, mask=0x7F)
    both.read(0x10, 2, why="the data port with nothing to move", want=[0xFF, 0xFF])
    both.remote(0x08, 0x7FE0, 64)
    both.read(0x11 + rng.randrange(6), 2, why="the data port at 11 to 17", want=content[:2])
    both.write(0x0E, 0x48)
    both.remote(0x08, 0x7FE0, 64)
    for place in range(64):
        both.read(0x10, want=content[place:place + 1])
    both.remote(0x08, 0x7FE0, 64)
    both.read(0x10, 2, why="a word in byte mode", want=content[:2])
    both.write(0x0E, 0x49)
    both.remote(0x08, 0x7FE1, 5)
    for want in (content[1:3], content[3:5], [content[5], 0xFF]):
        both.read(0x10, 2, why="words at an odd address or count", want=want)
    both.remote(0x08, 0x7FE0, 64)
    both.write(0, 0x22)
    both.read(0x10, 2, why="the data port under abort", want=[0xFF, 0xFF])
    both.write(7, 0x40)
    both.remote(0x08, 0x7FE0, 0)
    both.read(7, mask=0x40)


def odd_sends(both, rng):
    """Lengths that a frame has not, places outside memory, and STP beside TXP."""
    both.write(7, 0x7F)
    both.write(4, 0x40)
    for count in (13, 1515, 1600):
        both.write(5, count & 255)
        both.write(6, count >> 8)
        both.write(0, 0x26, why="a length that a frame has not")
        both.read(4, why="a length that a frame has not", want=[0])
        both.read(7, why="a length that a frame has not", want=[0x08])
        both.write(7, 0x7F)
    both.write(5, 60)
    both.write(6, 0)
    both.write(0, 0x24, why="TXP without STA")
    both.read(0, why="TXP without STA", want=[0x24])
    both.read(7, why="TXP without STA", want=[0])
    both.write(7, 0x7F)
    both.write(0, 0x22)
    both.write(0, 0x27, why="a send beside STP")
    both.read(0, why="a send beside STP", want=[0x23])
    both.read(7, why="a send beside STP", want=[0x82])


def not_ready(both, rng):
    """Frames at a card that is stopped, neither stopped nor started, or has no ring in memory."""
    for command, first, past, boundary, theirs, why in (
            (0x21, FIRST, PAST, FIRST, False, "ISR bit 7 after a stop"),
            (0x20, FIRST, PAST, FIRST, True, "reception without STA"),
            (0x22, 0x50, 0x50, 0x50, False, None),
            (0x22, 0x80, 0x50, 0x50, False, None),
            (0x22, FIRST, PAST, 0x40, True, "BNRY outside the ring"),
            (0x22, FIRST, 0x90, FIRST, True, "a ring past 8000")):
        set_receiver(both, 0x04)
        both.write(1, first)
        both.write(2, past)
        both.write(3, boundary)
        both.write(0, command)
        frame = random_frame(rng, BROADCAST)
        both.card.arrive(frame)
        both.qemu.arrive(frame, theirs)
        both.read(7, why=why, want=[0x80 if command & 1 else 0])
        both.read(0x0F, want=[0])
        page_1(both, 7, why=why, want=[FIRST + 1])
        both.write(1, FIRST)
        both.write(2, PAST)


APART = [not_ready, reset_and_stop, prom, overflow, counter, filters, monitor_and_loopback, other_ports, data_port, odd_sends]


def main():
    qemu, card = Qemu(sys.argv[1]), Card(sys.argv[2])
    lists = int(sys.argv[3]) if len(sys.argv) > 3 else 1000
    accesses = 0
    for number in range(lists):
        rng = random.Random(number)
        both = Both(qemu, card)
        receive = start(both, rng)
        for _ in range(rng.randrange(2, 8)):
            if rng.random() < 0.4:
                send(both, rng)
            else:
                arrive(both, rng, receive)
        for apart in rng.sample(APART, 2):
            apart(both, rng)
            start(both, rng)
        accesses += both.accesses
    qemu.close()
    card.close()
    print("%d lists, %d accesses; differences, each explained:" % (lists, accesses))
    for why, count in sorted(EXPLAINED.items()):
        print("%8d  %s" % (count, why))


if __name__ == "__main__":
    main()
