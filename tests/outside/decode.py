#!/usr/bin/python3
"""Compares ia32_decode with objdump and with capstone: lengths, mnemonics, widths and operands.

Usage: /usr/bin/python3 tests/outside/decode.py [random strings, 200000 if left out]

It takes random strings of 15 bytes, and each opcode of both maps with each ModRM byte behind each of
some sets of prefixes. Where the library reads an instruction, both disassemblers must read the same,
of the same length. Where it reads none and they do, the instruction must be one that the library
leaves out, and the reason is counted by name. It needs the kit (`rt`), binutils, and capstone
(Debian's python3-capstone). It is no part of the gate.
"""
import collections, os, random, re, shutil, subprocess, sys, tempfile
import capstone

TOP = os.path.abspath(os.path.join(os.path.dirname(__file__), '..', '..'))
PROGRAM = '''//! Decodes each 16 bytes of standard input: a count, and so many bytes.
#![tactic(auto)]

use ia32_decode::decode;
use std::io::{self, BufReader, BufWriter, Read, Write};

fn main(rt: HostRuntime) -> io::Result<()> {
    let mut input = BufReader::new(rt.alloc(), rt.reader())?;
    let mut output = BufWriter::new(rt.alloc(), io::writer(&rt))?;
    for _ in 0..u64::MAX {
        let mut record = [0u8; 16];
        if input.read(&mut record)? < 16 {
            break;
        }
        let length = usize::from(record[0]);
        if length > 15 {
            break;
        }
        let decoded = decode(&record[1..=length]);
        writeln!(output, "{decoded:?}")?;
    }
    output.flush()
}
'''

def decoded_by_us(strings):
    if 'DECODE_TEXT' in os.environ:
        data = b''.join(bytes([len(s)]) + s.ljust(15, b'\0') for s in strings)
        return subprocess.run([os.environ['DECODE_TEXT']], input=data, stdout=subprocess.PIPE).stdout.decode().splitlines()
    work = tempfile.mkdtemp()
    try:
        crates = os.path.join(work, 'crates')
        for crate in ('codes', 'ia32_decode'):
            for part in ('src', 'specs', 'proofs'):
                source = os.path.join(TOP, 'crates', crate, part)
                if os.path.isdir(source):
                    shutil.copytree(source, os.path.join(crates, crate, part))
        program = os.path.join(crates, 'decode_text')
        os.makedirs(os.path.join(program, 'src'))
        open(os.path.join(program, 'src', 'main.rt'), 'w').write(PROGRAM)
        open(os.path.join(work, 'HANDLES'), 'w').write('Handles allowed: none.\n')
        open(os.path.join(work, 'crates.txt'), 'w').write('codes:\nia32_decode: codes\ndecode_text: ia32_decode\n')
        # proves the program, and builds it
        subprocess.run(['rt', 'run'], cwd=program, input=b'', stdout=subprocess.DEVNULL, stderr=subprocess.DEVNULL)
        data = b''.join(bytes([len(s)]) + s.ljust(15, b'\0') for s in strings)
        run = subprocess.run([os.path.join(program, 'out', 'decode_text')], input=data, stdout=subprocess.PIPE)
        lines = run.stdout.decode().splitlines()
    finally:
        shutil.rmtree(work)
    assert len(lines) == len(strings), (len(lines), len(strings))
    return lines

R32 = 'eax ecx edx ebx esp ebp esi edi'.split()
R16 = 'ax cx dx bx sp bp si di'.split()
R8 = 'al cl dl bl ah ch dh bh'.split()
REGISTERS = {1: R8, 2: R16, 4: R32}
WIDTH_OF = {name: width for width, names in REGISTERS.items() for name in names}
CONDITIONS = dict(zip('Overflow NotOverflow Below AboveOrEqual Equal NotEqual BelowOrEqual Above Sign NotSign Parity NotParity Less GreaterOrEqual LessOrEqual Greater'.split(),
                      'o no b ae e ne be a s ns p np l ge le g'.split()))
STRINGS = 'movs cmps stos lods scas'.split()
SHIFTS = 'rol ror rcl rcr shl shr sar'.split()
LOCKABLE = 'add adc and btc btr bts cmpxchg dec inc neg not or sbb sub xadd xchg xor'.split()
FIXED = 'call ret jecxz jmp leave loop loope loopne popa popf pusha pushf bswap'.split()
PROFILE = set(STRINGS + SHIFTS + LOCKABLE + FIXED + ['j' + c for c in CONDITIONS.values()] + ['set' + c for c in CONDITIONS.values()]
              + ['cmov' + c for c in CONDITIONS.values()]
              + 'bsf bsr bt cbw cwde cwd cdq clc cld cmc cmp div idiv imul lahf lea mov movsx movzx mul nop pop push sahf shld shrd stc std test'.split())

def split_top(text):
    parts, depth, part = [], 0, ''
    for c in text:
        if c in '({': depth += 1
        if c in ')}': depth -= 1
        if c == ',' and depth == 0:
            parts.append(part.strip()); part = ''
        else:
            part += c
    return parts + [part.strip()] if part.strip() else parts

def memory(base, index, scale, offset, width):
    # a base and an index of scale 1 are one place in either order
    if scale == 1 or index is None:
        base, index = sorted((r for r in (base, index) if r), reverse=True)[:2] + [None] * (2 - len([r for r in (base, index) if r]))
    return ('m', base, index, scale if index else 1, offset % 2 ** 32, width)

def ours(line):
    """(length, mnemonic, operands, prefixes) of what we read, or None; in the form that the others are brought to."""
    if not line.startswith('One('):
        return None
    instr, size = split_top(line[4:-1])
    fields = dict(f.split(': ', 1) for f in split_top(instr[len('Instr {'):-1]))
    op, width, imm = fields['op'], int(fields['width']), int(fields['imm'])
    condition = None
    if '(' in op:
        op, condition = op[:-1].split('(')
    def operand(text, width):
        if text == 'Absent': return None
        if text == 'Imm': return ('i', imm % 2 ** 32)
        if text.startswith('Reg('): return ('r', REGISTERS[width][int(text[4:-1])])
        place = dict(f.split(': ', 1) for f in split_top(text[len('Place {'):-1]))
        register = lambda t: None if t == 'None' else R32[int(t[5:-1])]
        return memory(register(place['base']), register(place['index']), int(place['scale']), int(place['offset']), width)
    source = width
    if op in ('MovsxByte', 'MovzxByte'): source = 1
    if op in ('MovsxWord', 'MovzxWord'): source = 2
    first = operand(fields['first'], width)
    second = operand(fields['second'], 1 if op in SHIFTS_OF and fields['second'].startswith('Reg') else source)
    operands = [o for o in (first, second) if o]
    name = op.lower()
    if op in ('Jcc', 'Setcc', 'Cmovcc'): name = {'Jcc': 'j', 'Setcc': 'set', 'Cmovcc': 'cmov'}[op] + CONDITIONS[condition]
    elif op.startswith(('Movsx', 'Movzx')): name = op[:5].lower()
    elif op == 'ImulRegister': name = 'imul'
    elif op == 'ImulImmediate': name = 'imul'; operands.append(('i', imm % 2 ** (8 * width)))
    elif op in ('ShldCl', 'ShrdCl'): name = op[:4].lower(); operands.append(('r', 'cl'))
    elif op in ('ShldImmediate', 'ShrdImmediate'): name = op[:4].lower(); operands.append(('i', imm))
    elif op == 'Cwde': name = {2: 'cbw', 4: 'cwde'}[width]
    elif op == 'Cdq': name = {2: 'cwd', 4: 'cdq'}[width]
    elif op in ('Popad', 'Popfd', 'Pushad', 'Pushfd'): name = op[:-1].lower()
    elif op in ('Movs', 'Cmps', 'Stos', 'Lods', 'Scas'): operands = [('w', width)]
    masked = []
    for o in operands:
        if o[0] == 'i' and name not in ('jmp', 'call', 'ret') and not name.startswith(('j', 'loop')):
            o = ('i', o[1] % 2 ** (8 * width))
        masked.append(o)
    prefixes = ('lock ' if fields['lock'] == 'true' else '') + {'Absent': '', 'F2': 'f2', 'F3': 'f3'}[fields['repeat']]
    return int(size), name, masked, prefixes
SHIFTS_OF = 'Rol Ror Rcl Rcr Shl Shr Sar'.split()

ALIASES = {'sal': 'shl', 'repz': 'f3', 'repnz': 'f2', 'repe': 'f3', 'repne': 'f2', 'rep': 'f3', 'pushaw': 'pusha', 'popaw': 'popa', 'pushal': 'pusha', 'popal': 'popa',
           'pushad': 'pusha', 'popad': 'popa', 'pushfd': 'pushf', 'popfd': 'popf', 'cbtw': 'cbw', 'pause': 'nop',
           'pushw': 'push', 'jz': 'je', 'jnz': 'jne', 'loopz': 'loope', 'loopnz': 'loopne'}
SIZES = {'byte': 1, 'word': 2, 'dword': 4, 'qword': 8, 'fword': 6, 'tbyte': 10, 'xmmword': 16, 'xword': 10, 'ymmword': 32, 'zmmword': 64}

def parse_operand(text, name):
    text = text.strip().lower()
    if text in WIDTH_OF: return ('r', text)
    if re.fullmatch(r'-?(0x[0-9a-f]+|[0-9]+)', text): return ('i', int(text, 0) % 2 ** 32)
    m = re.fullmatch(r'(?:([a-z]+) ptr )?(?:ds:|\[)?([^\]]*?)\]?', text)
    if not m: return ('?', text)
    width = SIZES.get(m.group(1)) if m.group(1) else None
    inner = m.group(2)
    if re.match(r'(cs|es|ss|fs|gs):', inner) or ':' in inner: return ('?', text)
    base = index = None; scale = 1; offset = 0
    terms = re.findall(r'([+-]?)\s*([^+\-\s]+)', inner)
    if not terms: return ('?', text)
    for sign, term in terms:
        if re.fullmatch(r'0x[0-9a-f]+|[0-9]+', term):
            offset += int(term, 0) * (-1 if sign == '-' else 1)
        elif '*' in term:
            a, b = term.split('*')
            if a in ('eiz',): continue
            if a not in R32: return ('?', text)
            index, scale = a, int(b)
        elif term in R32 and base is None: base = term
        elif term in R32: index, scale = term, 1
        else: return ('?', text)
    return memory(base, index, scale, offset, width)

def normal(address, size, words, operand_text, data):
    """A disassembler's instruction in the form of `ours`."""
    prefixes, extra = '', []
    for w in words[:-1]:
        w = ALIASES.get(w, w)
        if w == 'lock': prefixes = 'lock ' + prefixes
        elif w in ('f2', 'f3'): prefixes += w
        else: extra.append(w)
    raw, name = words[-1], ALIASES.get(words[-1], words[-1])
    if raw == 'pause': prefixes += 'f3'
    m = re.fullmatch(r'(movs|cmps|stos|lods|scas)([bwdl]?)', name)
    if m and not operand_text.startswith(('xmm', 'mm')) and 'xmm' not in operand_text and 'mm' not in operand_text.split(',')[0]:
        width = {'b': 1, 'w': 2, 'd': 4, 'l': 4}.get(m.group(2))
        if width is None:
            found = re.search(r'(byte|dword|word) ptr', operand_text.lower())
            width = SIZES[found.group(1)] if found else WIDTH_OF.get(operand_text.split(',')[0].strip(), 0)
        return size, m.group(1), [('w', width)], prefixes, extra
    operands = [parse_operand(o, name) for o in re.split(r',', operand_text)] if operand_text else []
    if (name == 'call' or name.startswith(('j', 'loop'))) and operands and operands[0][0] == 'i':
        operands = [('i', (operands[0][1] - address - size) % 2 ** 32)]
    return size, name, operands, prefixes, extra

def by_objdump(strings):
    slot = 32
    path = tempfile.mktemp()
    found = []
    step = 100000
    for at in range(0, len(strings), step):
        part = strings[at:at + step]
        open(path, 'wb').write(b''.join(s.ljust(15, b'\x90') + b'\x90' * (slot - 15) for s in part))
        run = subprocess.run(['objdump', '-D', '-b', 'binary', '-m', 'i386', '-M', 'intel', '--insn-width=15', '-w', path], stdout=subprocess.PIPE)
        got = {}
        for line in run.stdout.decode().splitlines():
            m = re.match(r'\s*([0-9a-f]+):\t([0-9a-f ]+?)\s*\t(.*)$', line)
            if m and int(m.group(1), 16) % slot == 0:
                got[int(m.group(1), 16) // slot] = (len(m.group(2).split()), m.group(3))
        for i in range(len(part)):
            if i not in got: found.append(None); continue
            size, text = got[i]
            text = re.sub(r'\s+<.*$', '', text).strip()
            text = re.sub(r'\s*#.*$', '', text)
            if '(bad)' in text: found.append(None); continue
            words = text.split()
            k = 0
            while k < len(words) - 1 and (words[k] in ('lock', 'rep', 'repz', 'repnz', 'data16', 'addr16', 'cs', 'ds', 'es', 'fs', 'gs', 'ss', 'bnd', 'xacquire', 'xrelease', 'notrack')): k += 1
            head = [w for w in words[:k + 1]]
            found.append(normal(i * slot, size, head, ' '.join(words[k + 1:]), part[i]) + (text,))
        os.remove(path)
    return found

def by_capstone(strings):
    engine = capstone.Cs(capstone.CS_ARCH_X86, capstone.CS_MODE_32)
    found = []
    for s in strings:
        one = next(engine.disasm_lite(s.ljust(15, b'\x90'), 0x1000, 1), None)
        if one is None: found.append(None); continue
        address, size, mnemonic, operands = one
        words = mnemonic.split()
        found.append(normal(address, size, words, operands, s) + (mnemonic + ' ' + operands,))
    return found

PREFIXES = {0x66, 0xF0, 0xF2, 0xF3, 0x26, 0x2E, 0x36, 0x3E, 0x64, 0x65, 0x67}

def reason(data, other):
    """Why we leave out what another reads: by name, or None."""
    size, name, operands, prefixes, extra, text = other
    before = []
    for b in data:
        if b not in PREFIXES: break
        before.append(b)
    rest = data[len(before):]
    if set(before) & {0x26, 0x2E, 0x36, 0x3E, 0x64, 0x65}: return 'a segment prefix'
    if 0x67 in before: return 'an address-size prefix'
    if len(set(before)) < len(before): return 'a prefix that stands twice'
    if {0xF2, 0xF3} <= set(before): return 'F2 and F3 together'
    if not rest: return 'prefixes alone'
    opcode, modrm = rest[0], rest[1] if len(rest) > 1 else 0
    second = opcode == 0x0F
    if second: opcode, modrm = rest[1], rest[2] if len(rest) > 2 else 0
    reg, register = modrm // 8 % 8, modrm >= 0xC0
    if name not in PROFILE: return 'not of the profile: ' + name
    if not second and opcode == 0x82: return '82, the second spelling of 80'
    if not second and opcode in (0xF6, 0xF7) and reg == 1: return 'TEST as F6 /1, F7 /1'
    if not second and opcode in (0xC0, 0xC1, 0xD0, 0xD1, 0xD2, 0xD3) and reg == 6: return 'shift group /6'
    if not second and opcode in (0x8C, 0x8E): return 'MOV of a segment register'
    if not second and opcode in (0x06, 0x0E, 0x16, 0x1E, 0x07, 0x17, 0x1F): return 'PUSH, POP of a segment register'
    if second and opcode in (0xA0, 0xA1, 0xA8, 0xA9): return 'PUSH, POP of a segment register'
    if not second and (opcode in (0x9A, 0xEA) or opcode == 0xFF and reg in (3, 5)): return 'CALL, JMP far'
    if second and 0x20 <= opcode <= 0x27: return 'MOV of a control or debug register'
    if second and (opcode in (0x0D, 0x18, 0x1F) or 0x19 <= opcode <= 0x1E): return 'NOP of a ModRM byte'
    if not second and opcode in (0x8F, 0xC6, 0xC7) and reg: return 'a reserved member of a group'
    if 0xF0 in before and (0xF2 in before or 0xF3 in before): return 'F0 with F2 or F3'
    if 0xF0 in before and not (name in LOCKABLE and operands and operands[0][0] == 'm'): return 'F0 where nothing may be locked'
    if 0xF2 in before and name not in STRINGS: return 'F2 before no string instruction'
    if 0xF3 in before and name not in STRINGS and not (not second and opcode == 0x90): return 'F3 before no string instruction'
    if 0x66 in before and (name in FIXED or name.startswith(('j', 'loop'))): return '66 before a jump, call, return or other form of four bytes'
    return None

def same(mine, other):
    size, name, operands, prefixes = mine
    osize, oname, ooperands, oprefixes, extra, text = other
    if size != osize: return False
    if (name, oname) in (('nop', 'xchg'),): return all(o in (('r', 'ax'), ('r', 'eax')) for o in ooperands)
    if name == 'nop' and oname == 'nop': return True
    if name == 'xchg' and oname == 'xchg': operands, ooperands = sorted(map(str, operands)), sorted(map(str, ooperands))
    if name != oname: return False
    # capstone prints no REPNE before MOVSD
    if set(prefixes.split()) != set(oprefixes.split()) and not (name == 'movs' and prefixes == 'f2' and text.startswith('movsd')): return False
    if name in ('test',): operands, ooperands = sorted(map(str, operands)), sorted(map(str, ooperands))
    if len(operands) != len(ooperands):
        return name in SHIFTS and len(ooperands) == 1 and operands[1:] == [('i', 1)] and operands[0] == ooperands[0]
    for a, b in zip(operands, ooperands):
        if isinstance(a, str):
            if a != b: return False
        elif a[0] == 'm' and b[0] == 'm':
            if a[1:5] != b[1:5]: return False
            if b[5] is not None and a[5] != b[5] and name != 'lea': return False
        elif a[0] == 'i' and b[0] == 'i':
            w = 2 ** 32
            widths = [WIDTH_OF[o[1]] for o in ooperands if o[0] == 'r' and o[1] in WIDTH_OF] + [o[5] for o in ooperands if o[0] == 'm' and o[5]]
            if widths and name not in SHIFTS and not name.startswith(('b', 'sh')): w = 2 ** (8 * widths[0])
            if name in SHIFTS or name in ('bt', 'bts', 'btr', 'btc', 'shld', 'shrd'): w = 256
            if name == 'push' and a[1] % 2 ** 16 == b[1] % 2 ** 16: continue
            if a[1] % w != b[1] % w: return False
        elif a != b: return False
    return True

def inputs(count):
    seeded = random.Random(14)
    for _ in range(count):
        yield bytes(seeded.randrange(256) for _ in range(15))
    tails = [bytes([0x24, 0x11, 0x82, 0x33, 0xF4, 0x55, 0x66, 0x77, 0x88, 0x99, 0xAA]), bytes([0xAD, 0xFE, 0x7F, 0x80, 0x01, 0xFF, 0x00, 0x40, 0xC0, 0x13, 0x37])]
    for prefixes in (b'', b'\x66', b'\xF0', b'\xF2', b'\xF3', b'\x66\xF0', b'\xF3\x66'):
        for map_ in (b'', b'\x0F'):
            for opcode in range(256):
                if not map_ and opcode in PREFIXES | {0x0F}: continue
                for modrm in range(256):
                    tail = tails[modrm % 2]
                    yield (prefixes + map_ + bytes([opcode, modrm]) + tail)[:15].ljust(15, b'\x5A')
    # each SIB byte
    for mod in (0, 1, 2):
        for sib in range(256):
            yield bytes([0x8B, 64 * mod + 4, sib, 0x85, 0x21, 0x43, 0x65, 0x87]).ljust(15, b'\x90')

def main():
    count = int(sys.argv[1]) if len(sys.argv) > 1 else 200000
    strings = list(inputs(count))
    lines = decoded_by_us(strings)
    mine = [ours(l) for l in lines]
    print(len(strings), 'strings;', sum(m is not None for m in mine), 'read as instructions by us')
    unexplained = 0
    for title, others in (('objdump', by_objdump(strings)), ('capstone', by_capstone(strings))):
        reasons, bad, agree, neither, refused = collections.Counter(), [], 0, 0, collections.Counter()
        for data, line, m, o in zip(strings, lines, mine, others):
            if m is None and o is None: neither += 1
            elif m is None:
                why = reason(data, o)
                if why: reasons[why] += 1
                else: bad.append((data.hex(), line, o))
            elif o is None: bad.append((data.hex(), line, None))
            elif same(m, o): agree += 1
            else: bad.append((data.hex(), line, m, o))
        print(f'{title}: {agree} the same, {neither} that neither reads, {sum(reasons.values())} left out by name, {len(bad)} unexplained')
        profile = collections.Counter()
        for why, n in reasons.items():
            profile['an instruction that is not of the profile' if why.startswith('not of the profile') else why] += n
        for why, n in profile.most_common(): print(f'  {n:8} {why}')
        names = sorted(why.split(': ')[1] for why in reasons if why.startswith('not of the profile'))
        print(f'    of the profile are not: {len(names)} mnemonics: {" ".join(names)}')
        for b in bad[:5]: print('  UNEXPLAINED', b)
        unexplained += len(bad)
    sys.exit(1 if unexplained else 0)

main()
