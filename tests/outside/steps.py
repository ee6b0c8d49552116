#!/usr/bin/python3
"""Compares ia32_step with this machine's processor, one random instruction at a time, and random programs of 200 instructions.

Usage: /usr/bin/python3 tests/outside/steps.py [instructions, 20000 if left out] [seed] [programs, 0 if left out]

The processor runs them in a 32-bit program (steps_host.c, which gcc -m32 builds). Compared are the
general registers, where EIP goes, the seven flags but for those that Intel leaves undefined (printed
with their counts, which must keep their value in our step), 16 bytes of memory, and divide errors. Of a program it is the state at its end,
and an instruction that leaves flags undefined has a CMP behind it. It prints how many there were by opcode. Faults of memory and repeats of more than
one iteration of a single step are not: the crate's tests have those. It needs the kit (`rt`) and an x86 processor, and
is no part of the gate. It proves and builds PROGRAM first, in a repository of its own, which takes minutes. Where STEP_PROGRAM names
a file, that is PROGRAM, built: it is made where it does not stand.
"""
import collections, os, random, re, shutil, struct, subprocess, sys, tempfile

TOP = os.path.abspath(os.path.join(os.path.dirname(__file__), '..', '..'))
CRATES = {'nd_base': 'thiserror', 'nd_mem': 'nd_base', 'guest_map': 'nd_base nd_mem', 'codes': '', 'ia32_arithmetic': '',
          'ia32_decode': 'codes', 'ia32_step': 'nd_base nd_mem guest_map codes ia32_decode ia32_arithmetic',
          'step_text': 'nd_base nd_mem ia32_arithmetic ia32_step'}
PROGRAM = '''//! Steps once for each 64 bytes of standard input, as tests/outside/steps_host.c does. Where the first is 0, the 2048 bytes behind them are a
//! program, and it steps to its end.
#![tactic(auto)]

use ia32_arithmetic::Flags;
use ia32_step::{Regs, Stepped, step};
use nd_base::Addr;
use nd_mem::{Memory, Rights};
use std::alloc::Global;
use std::io::{self, Read};

const DATA: u32 = 0x2000_0000;

const MEMORY: u32 = 0x2000_0100;

const CODE: u32 = 0x3000_0000;

/// The number at an offset of a record.
fn word(record: &[u8; 64], at: usize) -> u32 {
    if at > 60 {
        return 0;
    }
    u32::from_le_bytes([record[at], record[at + 1], record[at + 2], record[at + 3]])
}

fn registers(record: &[u8; 64]) -> Regs {
    let mut r = Regs::new();
    r.general = [
        word(record, 12),
        word(record, 16),
        word(record, 20),
        word(record, 24),
        word(record, 60),
        word(record, 28),
        word(record, 32),
        word(record, 36),
    ];
    r.flags = Flags::of_word(word(record, 40));
    r.eip = CODE;
    r
}

/// Memory with a page of data and a page of code.
fn lay_out(alloc: Global, m: &mut Memory) {
    let data = Rights {
        read: true,
        write: true,
        execute: false,
    };
    let code = Rights {
        read: true,
        write: false,
        execute: true,
    };
    let _ = m.add_region(alloc, Addr(DATA), 0x1000, data);
    let _ = m.add_region(alloc, Addr(CODE), 0x1000, code);
}

/// Puts a record's memory in its place.
fn place(m: &mut Memory, record: &[u8; 64]) {
    let zeros = [0; 0x200];
    let _ = m.place(Addr(DATA), &zeros);
    let _ = m.place(Addr(MEMORY), &record[44..60]);
}

/// Steps until EIP is behind the code, or there is no result.
fn run_to(end: u32, r: &mut Regs, m: &mut Memory) -> Stepped {
    let mut stepped = step(r, m);
    for _ in 0..1000u32 {
        if r.eip == end || stepped != Stepped::Went {
            break;
        }
        stepped = step(r, m);
    }
    stepped
}

/// Runs the record's instruction, or the program, and prints what came of it.
fn run(rt: &HostRuntime, m: &mut Memory, record: &[u8; 64], program: &[u8]) -> io::Result<()> {
    let mut r = registers(record);
    place(m, record);
    let stepped = if record[0] == 0 {
        let length = u32::from(record[2]) + u32::from(record[3]) * 0x100;
        let _ = m.place(Addr(CODE), program);
        run_to(CODE + length, &mut r, m)
    } else {
        let _ = m.place(Addr(CODE), &record[1..12]);
        step(&mut r, m)
    };
    let mut bytes = [0; 16];
    let _ = m.read(Addr(MEMORY), &mut bytes);
    let flags = r.flags.to_word();
    let eip = r.eip;
    let general = r.general;
    println!(rt; "{stepped:?} {general:?} {flags} {eip} {bytes:?}")
}

fn main(rt: HostRuntime) -> io::Result<()> {
    let mut bytes = Vec::new(rt.alloc());
    rt.reader().read_to_end(&mut bytes)?;
    let mut m = Memory::new(rt.alloc());
    lay_out(rt.alloc(), &mut m);
    let mut rest = &bytes[..];
    for _ in 0..1_000_000u32 {
        if rest.len() < 64 {
            break;
        }
        let mut record = [0; 64];
        record.copy_from_slice(&rest[..64]);
        rest = &rest[64..];
        let size = if record[0] == 0 && rest.len() >= 2048 { 2048 } else { 0 };
        run(&rt, &mut m, &record, &rest[..size])?;
        rest = &rest[size..];
    }
    Ok(())
}
'''
DATA, CODE = 0x20000000, 0x30000000
CF, PF, AF, ZF, SF, DF, OF = 1, 4, 16, 64, 128, 0x400, 0x800
ALL = CF | PF | AF | ZF | SF | DF | OF
NAMES = {CF: 'CF', PF: 'PF', AF: 'AF', ZF: 'ZF', SF: 'SF', OF: 'OF'}
LARGE = [0, 1, 2, 0x7f, 0x80, 0xff, 0x7fff, 0x8000, 0xffff, 0x7fffffff, 0x80000000, 0xffffffff, 0xfffffffe, 0x80000001, 0xff80, 0x10000]
EAX, ECX, EDX, EBX, EBP, ESI, EDI = range(7)

def number():
    return random.choice(LARGE) if random.random() < .3 else random.getrandbits(32)

class Changed(list):
    """Registers, and which of them a family has chosen."""
    def __init__(self, values):
        super().__init__(values)
        self.chosen = set()

    def __setitem__(self, k, v):
        self.chosen.add(k)
        super().__setitem__(k, v)

class Case:
    """An instruction, what it begins with, and which flags are defined after it."""
    def __init__(self):
        self.registers = Changed(number() for _ in range(7))
        self.flags = 2 | sum(f for f in (CF, PF, AF, ZF, SF, OF) if random.random() < .5)
        self.memory = bytes(random.choice([0, 0xff, 0x80, 0x7f, random.getrandbits(8)]) for _ in range(16))
        self.esp = DATA + 0x200
        self.defined = ALL
        self.width = 4
        self.code = None
        self.family = random.choice(FAMILIES)
        self.family(self)
        if self.code and self.lockable() and random.random() < .1:
            self.code = b'\xF0' + self.code

    def lockable(self):
        """Whether LOCK may stand. (Not before BTS and the like with an offset in a register: it might cross a line of the cache.)"""
        plain = self.code[self.code[0] == 0x66:] + b'\xFF'
        if plain[0] == 0x0F:
            return plain[2] < 0xC0 and (plain[1] in (0xB0, 0xB1, 0xC0, 0xC1) or plain[1] == 0xBA and plain[2] >> 3 & 7 > 4)
        kinds = {0x80: range(7), 0x81: range(7), 0x83: range(7), 0xF6: (2, 3), 0xF7: (2, 3), 0xFE: (0, 1), 0xFF: (0, 1)}
        some = plain[0] in (0x86, 0x87) or plain[0] < 0x38 and plain[0] & 7 < 2
        return plain[1] < 0xC0 and (some or plain[0] in kinds and plain[1] >> 3 & 7 in kinds[plain[0]])

    def short(self):
        if random.random() < .4:
            self.width = 2

    def spell(self, *parts):
        prefix = b'\x66' if self.width == 2 else b''
        self.code = prefix + b''.join(p if isinstance(p, bytes) else bytes([p]) for p in parts)

    def modrm(self, reg, byte=False):
        if random.random() < .5:
            return bytes([0xC0 | reg << 3 | random.randrange(8)])
        return bytes([reg << 3 | 5]) + struct.pack('<I', DATA + 0x100 + random.randrange(12))

    def register(self, byte=False):
        return random.randrange(8)

    def immediate(self, byte=False):
        return bytes([random.getrandbits(8)]) if byte else struct.pack('<I', number())[:self.width]

    def record(self):
        return (bytes([len(self.code)]) + self.code.ljust(11, b'\0') + struct.pack('<7I', *self.registers)
                + struct.pack('<I', self.flags) + self.memory + struct.pack('<I', self.esp))

def eight(c):
    op, form = random.randrange(8), random.randrange(9)
    byte = form in (0, 2, 4, 7)
    c.short()
    if form < 4: c.spell(op * 8 + form, c.modrm(c.register(byte), byte))
    elif form < 6: c.spell(op * 8 + form, c.immediate(byte))
    elif form == 6: c.spell(0x83, c.modrm(op), c.immediate(True))
    else: c.spell(0x80 + (not byte), c.modrm(op, byte), c.immediate(byte))
    if op in (1, 4, 6): c.defined &= ~AF

def test(c):
    byte = random.random() < .5
    c.short()
    c.spell(0x84 + (not byte), c.modrm(c.register(byte), byte))
    c.defined &= ~AF

def three(c):
    byte, op = random.random() < .5, random.choice([2, 3, 4, 5, 6, 7])
    c.short()
    c.spell(0xF6 if byte else 0xF7, c.modrm(op, byte))
    if op in (4, 5): c.defined = CF | OF | DF
    if op in (6, 7):
        c.defined = DF
        if random.random() < .6: c.registers[EDX] = random.choice([0, 0, 0xffffffff, 1, 0xffff])

def step_by_one(c):
    byte = random.random() < .5
    c.short()
    c.spell(0xFE if byte else 0xFF, c.modrm(random.randrange(2), byte))

def shift(c):
    byte, op, by = random.random() < .4, random.choice([0, 1, 2, 3, 4, 5, 7]), random.randrange(3)
    c.short()
    place = c.modrm(op, byte)
    n = [random.getrandbits(8), 1, c.registers[ECX] & 255][by]
    c.spell([0xC0, 0xD0, 0xD2][by] + (not byte), place, bytes([n]) if by == 0 else b'')
    if n % 32:
        if op >= 4: c.defined &= ~AF
        if n % 32 != 1: c.defined &= ~OF
        if op in (4, 5) and n % 32 >= (8 if byte else 8 * c.width): c.defined &= ~CF

def double_shift(c):
    op = random.choice([0xA4, 0xA5, 0xAC, 0xAD])
    c.short()
    n = random.getrandbits(8) if op in (0xA4, 0xAC) else c.registers[ECX] & 255
    if n % 32 > 8 * c.width: return
    c.spell(0x0F, op, c.modrm(c.register()), bytes([n]) if op in (0xA4, 0xAC) else b'')
    if n % 32: c.defined &= ~AF
    if n % 32 > 1: c.defined &= ~OF

def bit_string(c):
    c.short()
    g = c.register()
    place = c.modrm(g)
    if place[0] < 0xC0:
        if g == 4: return
        at, offset = [EAX, ECX, EDX, EBX, None, EBP, ESI, EDI][g], random.randrange(-8 * 0x80, 8 * 0x80)
        c.registers[at] = offset & 0xffffffff if c.width == 4 else (c.registers[at] & 0xffff0000) | (offset & 0xffff)
    c.spell(0x0F, random.choice([0xA3, 0xAB, 0xB3, 0xBB]), place)
    c.defined = CF | DF

def bit(c):
    c.short()
    c.spell(0x0F, 0xBA, c.modrm(random.randrange(4, 8)), c.immediate(True))
    c.defined = CF | DF

def scan(c):
    c.short()
    c.spell(0x0F, random.choice([0xBC, 0xBD]), c.modrm(c.register()))
    c.defined = ZF | DF

def extend(c):
    c.short()
    c.spell(0x0F, random.choice([0xB6, 0xB7, 0xBE, 0xBF]), c.modrm(c.register()))

def exchange(c):
    op = random.choice([0xB0, 0xB1, 0xC0, 0xC1])
    byte = not op & 1
    c.short()
    c.spell(0x0F, op, c.modrm(c.register(byte), byte))
    if op == 0xB1 and random.random() < .5: c.registers[EAX] = c.registers[random.randrange(7)]

def multiply(c):
    c.short()
    kind = random.randrange(3)
    place = c.modrm(c.register())
    if kind == 0: c.spell(0x0F, 0xAF, place)
    elif kind == 1: c.spell(0x69, place, c.immediate())
    else: c.spell(0x6B, place, c.immediate(True))
    c.defined = CF | OF | DF

def convert(c):
    kind = random.randrange(4)
    if kind != 1: c.short()
    if kind == 0: c.spell(random.choice([0x98, 0x99]))
    elif kind == 1: c.spell(0x0F, 0xC8 + c.register())
    elif kind == 2: c.spell(0x0F, 0x90 + random.randrange(16), c.modrm(0, True))
    else: c.spell(0x0F, 0x40 + random.randrange(16), c.modrm(c.register()))

def flags(c):
    c.spell(random.choice([0x9E, 0x9F, 0xF5, 0xF8, 0xF9, 0xFC, 0xFD, b'\xF3\x90']))

def string(c):
    c.short()
    c.spell(random.choice([0xA4, 0xA5, 0xA6, 0xA7, 0xAA, 0xAB, 0xAC, 0xAD, 0xAE, 0xAF]))
    c.registers[ESI], c.registers[EDI] = DATA + 0x100 + random.randrange(12), DATA + 0x100 + random.randrange(12)
    if random.random() < .5: c.flags |= DF
    if random.random() < .4:
        c.code = bytes([random.choice([0xF2, 0xF3])]) + c.code
        c.registers[ECX] = random.randrange(2)

def move(c):
    byte, kind = random.random() < .5, random.randrange(4)
    c.short()
    if kind == 0:
        sib = random.getrandbits(8)
        c.spell(0x8D, 0x80 | c.register() << 3 | 4, sib ^ 1 if sib & 7 == 4 else sib, struct.pack('<I', number()))
    elif kind == 1: c.spell(random.choice([0x86, 0x88, 0x8A]) + (not byte), c.modrm(c.register(byte), byte))
    elif kind == 2: c.spell(0xC6 + (not byte), c.modrm(0, byte), c.immediate(byte))
    else: c.spell(random.choice([0xA0, 0xA2]) + (not byte), struct.pack('<I', DATA + 0x100 + random.randrange(12)))

def stack(c):
    kind = random.randrange(10)
    if kind < 5: c.short()
    c.esp = DATA + 0x100 + random.randrange(4, 12)
    if kind == 0: c.spell(0x50 + random.randrange(8))
    elif kind == 1: c.spell(0x58 + random.randrange(8))
    elif kind == 2: c.spell(0x6A, c.immediate(True))
    elif kind == 3: c.spell(0x68, c.immediate())
    elif kind == 4:
        c.spell(random.choice([b'\x8F\x44\x24', b'\xFF\x74\x24']), random.randrange(4))
        c.esp = DATA + 0x100 + random.randrange(4, 8)
    elif kind == 5:
        c.spell(0x60)
        c.esp = DATA + 0x120 + random.randrange(-8, 3)
    elif kind == 6:
        c.spell(0x61)
        c.esp = DATA + 0x100
    elif kind == 7: c.spell(0xC9)
    elif kind == 8: c.spell(0x9D)
    else: c.spell(0x9C)
    if kind == 7: c.registers[EBP] = DATA + 0x100 + random.randrange(12)
    if kind == 8: c.memory = struct.pack('<I', 0x202 | random.getrandbits(12) & ALL) * 4; c.esp = DATA + 0x100

def jump(c):
    """To the address 0x80 behind the instruction's front, or not."""
    kind = random.randrange(8)
    rel8 = lambda n: bytes([0x80 - n])
    rel32 = lambda n: struct.pack('<I', 0x80 - n)
    c.esp = DATA + 0x108
    if kind == 0: c.spell(0x70 + random.randrange(16), rel8(2))
    elif kind == 1: c.spell(0x0F, 0x80 + random.randrange(16), rel32(6))
    elif kind == 2:
        c.spell(random.choice([0xE0, 0xE1, 0xE2, 0xE3]), rel8(2))
        if random.random() < .6: c.registers[ECX] = random.randrange(3)
    elif kind == 3: c.spell(0xEB, rel8(2))
    elif kind == 4: c.spell(random.choice([0xE8, 0xE9]), rel32(5))
    elif kind == 5:
        n = random.choice([0, 1, 2, 3, 6, 7])
        c.registers[n if n < 4 else n - 1] = CODE + 0x80
        c.spell(0xFF, 0xC0 | random.choice([2, 4]) << 3 | n)
    elif kind == 6:
        c.memory = struct.pack('<I', CODE + 0x80) * 4
        c.spell(0xFF, random.choice([2, 4]) << 3 | 5, struct.pack('<I', DATA + 0x100 + 4 * random.randrange(4)))
    else:
        c.memory = struct.pack('<I', CODE + 0x80) * 4
        c.spell(*random.choice([(0xC3,), (0xC2, random.getrandbits(8), random.getrandbits(8))]))

def short_form(c):
    byte, kind, n = random.random() < .5, random.randrange(6), random.randrange(8)
    c.short()
    if kind == 0: c.spell(0xB0 + 8 * (not byte) + n, c.immediate(byte))
    elif kind == 1: c.spell(0x90 + n)
    elif kind == 2: c.spell(0x40 + 8 * byte + n)
    elif kind == 3: c.spell(0xA8 + (not byte), c.immediate(byte))
    elif kind == 4: c.spell(0xF6 + (not byte), c.modrm(0, byte), c.immediate(byte))
    else:
        c.spell(random.choice([0x00, 0x08, 0x10, 0x18, 0x20, 0x28, 0x30, 0x86]) + (not byte),
                bytes([c.register(byte) << 3 | 5]) + struct.pack('<I', DATA + 0x100 + random.randrange(12)))
        c.code = b'\xF0' + c.code
    if kind in (3, 4) or kind == 5 and c.code.lstrip(b'\xF0\x66')[0] in (0x08, 0x09, 0x20, 0x21, 0x30, 0x31): c.defined &= ~AF

def based(c):
    """An operand in memory by base, index, scale and displacement."""
    byte, base, index, scale = random.random() < .3, random.randrange(8), random.choice([0, 1, 2, 3, 5, 6, 7]), random.randrange(4)
    c.short()
    if base == index: return
    small = random.random() < .5
    offset = random.randrange(-128, 128) if small else random.getrandbits(32)
    of = lambda n: n if n < 4 else n - 1
    c.registers[of(index)] = number()
    at = (DATA + 0x100 + random.randrange(12) - offset - (c.registers[of(index)] << scale)) & 0xffffffff
    if base == 4: c.esp = at
    else: c.registers[of(base)] = at
    c.spell(random.choice([0x00, 0x02, 0x10, 0x18, 0x2A, 0x38, 0x88, 0x8A, 0x86]) + (not byte),
            bytes([(0x44 if small else 0x84) | c.register(byte) << 3, scale << 6 | index << 3 | base]),
            struct.pack('<b', offset) if small else struct.pack('<I', offset))

FAMILIES = [short_form] * 2 + [based] * 2 + [eight] * 5 + [test, three, three, step_by_one, bit_string, bit, scan, extend, exchange, multiply, convert, flags, string, string, move,
            stack, stack, jump, jump, double_shift, double_shift] + [shift] * 4

def move_to(n, value):
    return bytes([0xB8 + n]) + struct.pack('<I', value & 0xffffffff)

REGISTER = [0, 1, 2, 3, 5, 6, 7]

class Program(Case):
    """About 200 instructions, which end behind the last one."""
    def __init__(self):
        super().__init__()
        self.registers, self.esp, self.defined = Changed(number() for _ in range(7)), DATA + 0x200, ALL
        self.program, self.instructions = b'', 0
        while self.instructions < 200 and len(self.program) < 1990:
            for part in random.choice([self.jump, self.division] + [self.other] * 12)():
                self.program += part
                self.instructions += 1
        self.code = self.program

    def jump(self):
        hop = random.choice([bytes([0x70 + random.randrange(16)]), bytes([0xE0 + random.randrange(4)]), b'\xEB'])
        if random.random() < .2:
            return [move_to(4, DATA + 0x110), b'\xE8\0\0\0\0']
        return [hop + b'\x05', move_to(random.choice(REGISTER), number())]

    def division(self):
        return [move_to(2, 0), move_to(1, random.randrange(2, 0x7fffffff) >> random.randrange(30) | 2),
                random.choice([b'\xF7\xF1', b'\xF7\xF9']), self.compare()]

    def compare(self):
        return bytes([0x81, 0xF8 + random.choice(REGISTER)]) + struct.pack('<I', number())

    def other(self):
        c = Case()
        plain = c.code and c.code.lstrip(b'\x66\xF0')
        if not c.code or len(c.code) > 11 or c.family is jump or c.family is three and plain[1] >> 3 & 6 == 6: return []
        if c.family in (shift, double_shift): c.registers[ECX] = c.registers[ECX]
        if c.family is string and c.code[0] in (0xF2, 0xF3): c.registers[ECX] = random.randrange(9)
        parts = [move_to(REGISTER[k], c.registers[k]) for k in sorted(c.registers.chosen)]
        if c.family is string: parts.append(b'\xFD' if c.flags & DF else b'\xFC')
        if c.family is stack or c.esp != DATA + 0x200: parts.append(move_to(4, c.esp))
        if c.code == b'\x9D': parts.append(b'\xC7\x05' + struct.pack('<I', DATA + 0x100) + c.memory[:4])
        parts.append(c.code)
        if c.defined != ALL: parts.append(self.compare())
        return parts

    def record(self):
        first = struct.pack('<BBH', 0, 0, len(self.program)).ljust(12, b'\0')
        return (first + struct.pack('<7I', *self.registers) + struct.pack('<I', self.flags & ~DF) + self.memory + struct.pack('<I', self.esp)
                + self.program.ljust(2048, b'\0'))

GROUPS = [b'\x80', b'\x81', b'\x83', b'\x8F', b'\xC0', b'\xC1', b'\xC6', b'\xC7', b'\xD0', b'\xD1', b'\xD2', b'\xD3', b'\xF6', b'\xF7', b'\xFE', b'\xFF', b'\x0F\xBA']

def opcode_of(case):
    """The opcode, with the reg field where that chooses the operation."""
    if isinstance(case, Program): return 'program'
    plain = case.code.lstrip(b'\x66\xF0\xF2\xF3')
    opcode = plain[:2] if plain[0] == 0x0F else plain[:1]
    return opcode.hex() + (f'/{plain[len(opcode)] >> 3 & 7}' if opcode in GROUPS else '')

def program_in(work):
    """PROGRAM, built in a repository of its own."""
    kept = os.environ.get('STEP_PROGRAM')
    if kept and os.path.exists(kept):
        return kept
    for crate in CRATES:
        for part in ('src', 'specs', 'proofs'):
            source = os.path.join(TOP, 'crates', crate, part)
            if os.path.isdir(source):
                shutil.copytree(source, os.path.join(work, 'crates', crate, part))
    program = os.path.join(work, 'crates', 'step_text')
    os.makedirs(os.path.join(program, 'src'))
    open(os.path.join(program, 'src', 'main.rt'), 'w').write(PROGRAM)
    open(os.path.join(work, 'HANDLES'), 'w').write('Handles allowed: none.\n')
    open(os.path.join(work, 'crates.txt'), 'w').write(''.join(f'{c}: {d}\n' for c, d in CRATES.items()))
    run = subprocess.run(['rt', 'run'], cwd=program, stdin=subprocess.DEVNULL, stdout=subprocess.PIPE, stderr=subprocess.STDOUT)
    built = os.path.join(program, 'out', 'step_text')
    assert run.returncode == 0 and os.path.exists(built), run.stdout.decode()[-2000:]
    return shutil.copy(built, kept) if kept else built

def stepped(work, data):
    """What our step answers, a line each."""
    return subprocess.run([program_in(work)], input=data, stdout=subprocess.PIPE).stdout.decode().splitlines()

def differences(case, answer, line):
    faulted, *rest = struct.unpack('<8I', answer[:32])
    word, memory, esp, taken = struct.unpack('<I', answer[32:36])[0], list(answer[36:52]), *struct.unpack('<2I', answer[52:])
    m = re.match(r'(.*?) \[(.*?)\] (\d+) (\d+) \[(.*?)\]$', line)
    general = [int(x) for x in m.group(2).split(', ')]
    ours = [int(m.group(3)), int(m.group(4)), [int(x) for x in m.group(5).split(', ')]]
    if faulted:
        return [] if m.group(1).startswith('Fault(DivideError') else ['no divide error']
    found = []
    if m.group(1) != 'Went': found.append(m.group(1))
    if rest[:4] + [esp] + rest[4:7] != general: found.append('registers')
    if (word ^ ours[0]) & case.defined: found.append('flags')
    if (case.flags ^ ours[0]) & ALL & ~case.defined: found.append('an undefined flag is not kept')
    if memory != ours[2]: found.append('memory')
    if ours[1] != (CODE + 0x80 if taken else CODE + len(case.code)): found.append('EIP')
    return found

def main():
    single, seed, programs = [int(word) for word in sys.argv[1:]] + [20000, 1, 0][len(sys.argv) - 1:]
    random.seed(seed)
    cases = []
    while len(cases) < single:
        case = Case()
        if case.code and len(case.code) <= 11:
            cases.append(case)
    cases += [Program() for _ in range(programs)]
    count = len(cases)
    data = b''.join(c.record() for c in cases)
    work = tempfile.mkdtemp()
    try:
        host = os.path.join(work, 'steps_host')
        subprocess.run(['gcc', '-m32', '-O1', '-nostdlib', '-static', '-fno-pie', '-no-pie', '-fno-stack-protector', '-fcf-protection=none',
                        '-o', host, os.path.join(TOP, 'tests', 'outside', 'steps_host.c')], check=True)
        answers = subprocess.run([host], input=data, stdout=subprocess.PIPE).stdout
        lines = stepped(work, data)
    finally:
        shutil.rmtree(work)
    assert len(answers) == 60 * count and len(lines) == count, (len(answers), len(lines))
    kinds, undefined, wrong, opcodes = collections.Counter(), collections.Counter(), 0, collections.Counter(opcode_of(c) for c in cases)
    for k, case in enumerate(cases):
        undefined.update(name for f, name in NAMES.items() if not case.defined & f)
        found = differences(case, answers[60 * k:60 * k + 60], lines[k])
        if found:
            wrong += 1
            kinds[opcode_of(case) + ' ' + ', '.join(found)] += 1
            if wrong <= 5:
                print(case.code.hex(), found, [hex(r) for r in case.registers], hex(case.flags), case.memory.hex(), answers[60 * k:60 * k + 60].hex(), lines[k])
    print('not compared, since undefined:', dict(undefined))
    print(len(opcodes), 'opcodes:', ' '.join(f'{k}:{n}' for k, n in sorted(opcodes.items())))
    print(single, 'instructions,', programs, 'programs of', sum(c.instructions for c in cases[single:]), 'instructions;', wrong, 'differ', kinds.most_common(40))
    sys.exit(wrong != 0)

main()
