#!/usr/bin/python3
"""Times `run0` over loops of 32-bit code, with the log written, and Bochs over the same code where it is installed.

Usage: python3 bench/steps.py    (after `rt run` or `rt lib` built crates/hedzvaki/out/hedzvaki)

Each loop is the DriverEntry of an image of its own, which runs until its 4,000,000 instructions are spent; the time of a run whose first
instruction faults is taken off. Bochs (Debian: bochs, bochsbios, vgabios, bochs-term, bsdutils for script) boots from a floppy disk into
flat 32-bit code and runs so many rounds of a loop; its time is that of the many rounds less that of a few, by the instructions that it
counts itself. Times are of the processor, of the program and for it, the least of five runs of ours and of three of Bochs. The code of
`mix` is compiled by i686-w64-mingw32-gcc, or by gcc -m32; without either it is left out.
"""
import os, re, resource, shutil, struct, subprocess, tempfile

TOP = os.path.abspath(os.path.join(os.path.dirname(__file__), '..'))
PROGRAM = os.environ.get('HEDZVAKI') or os.path.join(TOP, 'crates/hedzvaki/out/hedzvaki')
STEPS = 4_000_000
MIX = '''/* A copy of a frame's bytes, and the sums of RFC 1071 over both. */
typedef unsigned char byte;
static unsigned checksum(const byte *at, unsigned count) {
    unsigned sum = 0;
    while (count > 1) { sum += at[0] | at[1] << 8; at += 2; count -= 2; }
    if (count) sum += *at;
    while (sum >> 16) sum = (sum & 0xFFFF) + (sum >> 16);
    return sum;
}
static void copy(byte *to, const byte *from, unsigned count) {
    while (count >= 4) { *(unsigned *)to = *(const unsigned *)from; to += 4; from += 4; count -= 4; }
    while (count--) *to++ = *from++;
}
unsigned one_round(byte *base) {
    copy(base + 0x2000, base, 1514);
    return checksum(base, 1514) - checksum(base + 0x2000, 1514);
}
'''
# What a loop does so many times (rounds of Bochs), with the base of data in EBX; it may change all but EBX, EBP and ESP.
LOOPS = {
    'moves and adds': ('01c8 89c2 01d1 89ce 01f0 89c7 01f9', 10_000_000),     # add eax,ecx; mov edx,eax; add ecx,edx; .. in registers
    'sums': ('89de b900010000 31c0 0306 83d000 83c604 49 75f5', 40_000),      # 256 numbers, added with carry
    'calls': ('e802000000 eb08 55 89e5 8b4504 5d c3', 6_000_000),             # a call, a frame, a return
    'rep movsb': ('89de 8dbb00200000 b900100000 f3a4', 20_000),               # 4,096 bytes
    'rep movsd': ('89de 8dbb00200000 b900040000 f3a5', 80_000),               # 1,024 numbers
    'rep stosd': ('89df b900040000 f3ab', 80_000),
}


def run(words, **how):
    return subprocess.run(words, check=True, **how)


def mixed(folder):
    for compiler in (['i686-w64-mingw32-gcc'], ['gcc', '-m32', '-fno-pic']):
        if shutil.which(compiler[0]):
            source, made = os.path.join(folder, 'mix.c'), os.path.join(folder, 'mix.o')
            with open(source, 'w') as out:
                out.write(MIX)
            run(compiler + ['-O2', '-ffreestanding', '-fno-builtin', '-mno-sse', '-fno-asynchronous-unwind-tables', '-fno-tree-loop-distribute-patterns',
                            '-c', source, '-o', made])
            run(['objcopy', '-O', 'binary', '--only-section=.text', made, made + '.bin'])
            with open(made + '.bin', 'rb') as code:
                text = code.read()
            # push ebx; call the code behind; pop ecx; go on behind it
            return b'\x53\xe8' + struct.pack('<I', 6) + b'\x59\xe9' + struct.pack('<I', len(text)) + text
    return None


def looped(body, base, rounds):
    """EBX is the base of data, and EBP counts the rounds; then a return."""
    head = b'\xbb' + struct.pack('<I', base) + b'\xbd' + struct.pack('<I', rounds)
    back = b'\x4d\x0f\x85'
    return head + body + back + struct.pack('<i', -(len(body) + 7)) + b'\xc3'


def spent():
    usage = resource.getrusage(resource.RUSAGE_CHILDREN)
    return usage.ru_utime + usage.ru_stime


def image(code):
    """An image whose entry is the code, with 64 KiB of data behind it, at 0x80102000 when it is loaded."""
    optional = struct.pack('<HBBIIIIII', 0x10B, 0, 0, 0x1000, 0x10000, 0, 0x1000, 0x1000, 0x2000)
    optional += struct.pack('<IIIHHHHHHIIIIHH', 0x10000, 0x1000, 0x200, 5, 1, 0, 0, 5, 1, 0, 0x12000, 0x400, 0, 1, 0)
    optional += struct.pack('<IIIIII', 0x40000, 0x1000, 0x100000, 0x1000, 0, 16) + bytes(128)
    head = b'MZ'.ljust(60, b'\0') + struct.pack('<I', 64) + b'PE\0\0' + struct.pack('<HHIIIHH', 0x14C, 2, 0, 0, 0, len(optional), 0x102) + optional
    head += struct.pack('<8sIIIIIIHHI', b'.text', 0x1000, 0x1000, 0x1000, 0x400, 0, 0, 0, 0, 0x60000020)
    head += struct.pack('<8sIIIIIIHHI', b'.data', 0x10000, 0x2000, 0, 0, 0, 0, 0, 0, 0xC0000080)
    return head.ljust(0x400, b'\0') + code.ljust(0x1000, b'\0')


def run_once(folder, code):
    path, log = os.path.join(folder, 'loop.sys'), os.path.join(folder, 'loop.log')
    with open(path, 'wb') as out:
        out.write(image(code))
    begun = spent()
    told = subprocess.run([PROGRAM, 'run0', path, log], stdout=subprocess.PIPE, stderr=subprocess.STDOUT).stdout
    return spent() - begun, told


def ours(folder, body):
    loop = looped(body, 0x80102000, 0x7FFFFFFF)
    told = run_once(folder, loop)[1]
    assert b'charged 4000000' in told, told
    return STEPS / (min(run_once(folder, loop)[0] for _ in range(5)) - min(run_once(folder, b'\x0f\x0b')[0] for _ in range(5)))


def disk(code):
    """A floppy disk whose boot sector loads the code to 0x8000, calls it in flat 32-bit mode, and asks Bochs to end."""
    sector = bytearray(512)
    real = bytes.fromhex('fa31c08ed88ec08ed0bc007c b81002bb0080b90200b600cd13fa e4920c02e692 0f0116807d 0f20c00c010f22c0 ea007d0800')
    flat = bytes.fromhex('66b81000 8ed88ec08ed0 bc00000900 fc b800800000 ffd0 66ba0089') + b''.join(bytes([0xB0, c, 0xEE]) for c in b'Shutdown') + b'\xf4\xeb\xfd'
    sector[:len(real)] = real
    sector[0x100:0x100 + len(flat)] = flat
    sector[0x180:0x186] = struct.pack('<HI', 23, 0x7D90)
    sector[0x190:0x1A8] = struct.pack('<3Q', 0, 0x00CF9A000000FFFF, 0x00CF92000000FFFF)
    sector[510:] = b'\x55\xaa'
    return bytes(sector) + code.ljust(1474560 - 512, b'\0')


SETTINGS = '''megs: 32
romimage: file=/usr/share/bochs/BIOS-bochs-latest
vgaromimage: file=/usr/share/vgabios/vgabios.bin
floppya: 1_44=disk, status=inserted
boot: floppy
display_library: term
cpu: model=bx_generic, count=1, ips=50000000
clock: sync=none
log: bochs.log
panic: action=fatal
'''


def bochs_once(folder, body, rounds):
    for name, text in {'disk': disk(looped(body, 0x100000, rounds)), 'settings': SETTINGS.encode(), 'go': b'c\nq\n'}.items():
        with open(os.path.join(folder, name), 'wb') as out:
            out.write(text)
    begun = spent()
    told = subprocess.run(['script', '-qfc', 'bochs -q -f settings -rc go', '/dev/null'], cwd=folder, stdin=subprocess.DEVNULL,
                          stdout=subprocess.PIPE, stderr=subprocess.STDOUT, timeout=900).stdout
    ticks = re.findall(rb'\(0\)\.\[(\d+)\]', told)
    return int(ticks[-1]), spent() - begun


def bochs(folder, body, rounds):
    few, many = ([bochs_once(folder, body, n) for _ in range(3)] for n in (10, rounds))
    return (many[0][0] - few[0][0]) / (min(time for _, time in many) - min(time for _, time in few))


def main():
    with tempfile.TemporaryDirectory() as folder:
        bodies = {name: (bytes.fromhex(text.replace(' ', '')), rounds) for name, (text, rounds) in LOOPS.items()}
        mix = mixed(folder)
        if mix:
            bodies['mix'] = (mix, 20_000)
        there = shutil.which('bochs') and shutil.which('script')
        print('instructions (of a repeat: iterations) a second of the processor, in millions: ours' + (', Bochs, ratio' if there else ''))
        for name, (body, rounds) in bodies.items():
            mine = ours(folder, body)
            line = f'{name:16} {mine / 1e6:7.1f}'
            if there:
                other = bochs(folder, body, rounds)
                line += f' {other / 1e6:7.1f} {mine / other:5.2f}'
            print(line, flush=True)


main()
