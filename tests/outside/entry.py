#!/usr/bin/python3
"""Compares a log of `run0` with what unicorn, another interpreter, makes of the same image.

Usage: python3 tests/outside/entry.py SYS LOG    (Debian: python3-unicorn)

The image is one that a linker made, such as that of examples/build-entry.sh, and its run ended with
DriverEntry's leave. Between two calls of imports unicorn makes as many instructions as the log's turns
say; each call has the name and the words of the log's, by the rows of docs/IMPORTS.md, and so has the
leave its status. What an import answers is taken from the log's replies, and not judged. Prints how
many calls and instructions there were; stops at the first difference. It is no part of the gate.
"""
import os, re, struct, sys
from unicorn import UC_ARCH_X86, UC_HOOK_CODE, UC_MODE_32, Uc
from unicorn.x86_const import UC_X86_REG_EAX, UC_X86_REG_ECX, UC_X86_REG_EDX, UC_X86_REG_ESP

TOP = os.path.abspath(os.path.join(os.path.dirname(__file__), '..', '..'))
BASE, POOL, STACK, SLOTS, RETURN = 0x80100000, 0x81000000, 0x82000000, 0xF0000000, 0xF0001000

def imports():
    """Number, name, count of words and convention of each import."""
    text = open(os.path.join(TOP, 'docs/IMPORTS.md')).read()
    rows = re.findall(r'^\| (\d+) \| (\w+) \| (\d+) \| (\w+) \|', text, re.M)
    return [(int(n), name, int(words), convention) for n, name, words, convention in rows]

def words_at(data, at, count):
    return struct.unpack_from('<%dI' % count, data, at)

def relocate(image, table, length, moved):
    """Adds to each word that the blocks of relocations name."""
    end = table + length
    while table < end:
        page, size = words_at(image, table, 2)
        for at in range(table + 8, table + size, 2):
            entry, = struct.unpack_from('<H', image, at)
            if entry >> 12 == 3:
                place = page + (entry & 0xFFF)
                word, = words_at(image, place, 1)
                struct.pack_into('<I', image, place, (word + moved) & 0xFFFFFFFF)
        table += size

def bind(image, descriptor, numbers):
    """Writes the address of each import's slot into its word."""
    while True:
        names, _, _, dll, slot = words_at(image, descriptor, 5)
        if not dll:
            return
        thunk = names or slot
        while words_at(image, thunk, 1)[0]:
            at = words_at(image, thunk, 1)[0] + 2
            name = image[at:image.index(0, at)].decode()
            struct.pack_into('<I', image, slot, SLOTS + 16 * (numbers[name] - 1))
            thunk, slot = thunk + 4, slot + 4
        descriptor += 20

def loaded(data, numbers):
    """The bytes of an image in memory at BASE, and the RVA of its entry point."""
    header, = words_at(data, 0x3C, 1)
    sections, optional = struct.unpack_from('<H', data, header + 6)[0], header + 24
    entry, base, size = [words_at(data, optional + at, 1)[0] for at in (16, 28, 56)]
    image = bytearray((size + 0xFFF) & ~0xFFF)
    table = optional + struct.unpack_from('<H', data, header + 20)[0]
    for n in range(sections):
        span, rva, raw, at = words_at(data, table + 40 * n + 8, 4)
        count = min(span, raw)
        image[rva:rva + count] = data[at:at + count]
    relocate(image, *words_at(data, optional + 136, 2), BASE - base)
    bind(image, words_at(data, optional + 104, 1)[0], numbers)
    return image, entry

class Guest:
    """The image in unicorn, which stops at the addresses that the library serves."""
    def __init__(self, image):
        self.made, self.stop = 0, 0
        self.cpu = Uc(UC_ARCH_X86, UC_MODE_32)
        for at, size in (BASE, len(image)), (POOL, 8 << 20), (STACK, 0x4000), (SLOTS, 0x2000):
            self.cpu.mem_map(at, size)
        self.cpu.mem_write(BASE, bytes(image))
        self.cpu.mem_write(STACK + 0x3FF4, struct.pack('<3I', RETURN, 0xE0000000, 0xE0000008))
        self.cpu.reg_write(UC_X86_REG_ESP, STACK + 0x3FF4)
        self.cpu.hook_add(UC_HOOK_CODE, self.step)

    def step(self, cpu, address, size, _):
        if address < SLOTS:
            self.made += 1
        else:
            self.stop = address
            cpu.emu_stop()

    def stack(self, count):
        esp = self.cpu.reg_read(UC_X86_REG_ESP)
        return list(words_at(self.cpu.mem_read(esp, 4 * count), 0, count))

    def reply(self, line, words):
        """Makes what a reply says, and takes so many words and the return address off the stack."""
        _, _, eax, writes = line.split()
        for write in writes.split(',') if writes != '-' else []:
            address, content = write.split(':')
            if content != '-':
                self.cpu.mem_write(int(address, 16), bytes.fromhex(content))
        self.cpu.reg_write(UC_X86_REG_EAX, int(eax, 16))
        self.cpu.reg_write(UC_X86_REG_ESP, self.cpu.reg_read(UC_X86_REG_ESP) + 4 + 4 * words)

def call(guest, row):
    """The line of a call, the address that it returns to, and how many words it takes off the stack."""
    _, name, count, convention = row
    fast = [guest.cpu.reg_read(r) for r in (UC_X86_REG_ECX, UC_X86_REG_EDX)][:count] if convention == 'fastcall' else []
    back, *others = guest.stack(1 + count - len(fast))
    line = 'call 0 %s %s' % (name, ','.join('%08x' % word for word in fast + others))
    return line, back, 0 if convention == 'cdecl' else len(others)

def expect(log, line):
    found = next(log, None)
    assert found == line, 'the log has %s, unicorn %s' % (found, line)

def main(sys_file, log_file):
    rows = imports()
    image, entry = loaded(open(sys_file, 'rb').read(), {name: n for n, name, _, _ in rows})
    guest, at, turns, calls, total = Guest(image), BASE + entry, 0, 0, 0
    log = iter(open(log_file).read().splitlines())
    expect(log, 'enter - 0 driverentry e0000000,e0000008 -')
    for line in log:
        if line.startswith('turn 0 '):
            turns += int(line.split()[2])
            continue
        guest.made = 0
        guest.cpu.emu_start(at, 0)
        assert guest.made == turns, 'before %s: unicorn made %d, the log %d' % (line, guest.made, turns)
        total, turns = total + guest.made, 0
        if guest.stop == RETURN:
            assert line == 'leave 0 %08x' % guest.cpu.reg_read(UC_X86_REG_EAX), line
            break
        made, at, taken = call(guest, rows[(guest.stop - SLOTS) // 16])
        assert line == made, 'the log has %s, unicorn %s' % (line, made)
        reply = next(log)
        guest.reply(next(log) if reply.startswith('time ') else reply, taken)
        calls += 1
    expect(log, None)
    print('%d calls, %d instructions' % (calls, total))

main(*sys.argv[1:])
