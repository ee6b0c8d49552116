"""Each mnemonic with each form of its operands, and what objdump makes of our bytes beside nasm's.

`assembler.py lines` prints the lines of source; `assembler.py compare LINES BYTES` compares.
"""
import re
import subprocess
import sys
import tempfile

REGISTERS = {
    1: "al cl dl bl ah ch dh bh".split(),
    2: "ax cx dx bx sp bp si di".split(),
    4: "eax ecx edx ebx esp ebp esi edi".split(),
}
SIZES = {1: "byte", 2: "word", 4: "dword"}
CONDITIONS = "o no b ae e ne be a s ns p np l ge le g".split()
PLACES = [
    "[0x12345678]", "[eax]", "[esp]", "[ebp]", "[ebp+0]", "[ecx+16]", "[edx+0xfffffff0]", "[esi+0x80]",
    "[eax*2]", "[ebp*8+0x10]", "[eax+ecx*1]", "[esp+ebp*4]", "[ebp+edi*8+0x7f]", "[ebx+esi*4+0x12345678]",
]
START = 0x80101000


def memory(width):
    return [SIZES[width] + " " + place for place in PLACES]


def either(width):
    return REGISTERS[width] + memory(width)


def numbers(width):
    top = (1 << (8 * width)) - 1
    return [str(n) for n in sorted({0, 1, 0x12, 0x7F, 0x80, 0xFF, top // 2, top // 2 + 1, top})]


def lines():
    out = []
    for op in "add or adc sbb and sub xor cmp mov".split():
        for width in (1, 2, 4):
            out += [f"{op} {a}, {b}" for a in either(width) for b in (REGISTERS[width][1], REGISTERS[width][6])]
            out += [f"{op} {REGISTERS[width][3]}, {b}" for b in memory(width)]
            out += [f"{op} {a}, {n}" for a in (REGISTERS[width][0], REGISTERS[width][2], memory(width)[5]) for n in numbers(width)]
    for op in "test xchg xadd cmpxchg".split():
        for width in (1, 2, 4):
            out += [f"{op} {a}, {REGISTERS[width][2]}" for a in either(width)]
    for width in (1, 2, 4):
        out += [f"test {a}, {n}" for a in (REGISTERS[width][0], REGISTERS[width][2], memory(width)[3]) for n in numbers(width)]
    for op in "inc dec not neg mul imul div idiv".split():
        for width in (1, 2, 4):
            out += [f"{op} {a}" for a in either(width)]
    for op in "add or adc sbb and sub xor inc dec not neg".split():
        for width in (1, 2, 4):
            tail = "" if op in ("inc", "dec", "not", "neg") else ", " + REGISTERS[width][1]
            out += [f"lock {op} {memory(width)[7]}{tail}"]
    for op in "btc btr bts cmpxchg xadd xchg".split():
        out += [f"lock {op} {memory(4)[6]}, edx"]
    for op in "rol ror rcl rcr shl shr sar".split():
        for width in (1, 2, 4):
            for a in (REGISTERS[width][0], REGISTERS[width][5], memory(width)[9]):
                out += [f"{op} {a}, 1", f"{op} {a}, 7", f"{op} {a}, 255", f"{op} {a}, cl"]
    for op in ("shld", "shrd"):
        for width in (2, 4):
            for a in (REGISTERS[width][1], memory(width)[11]):
                out += [f"{op} {a}, {REGISTERS[width][6]}, 5", f"{op} {a}, {REGISTERS[width][6]}, cl"]
    for op in "bt btc btr bts".split():
        for width in (2, 4):
            for a in (REGISTERS[width][1], memory(width)[12]):
                out += [f"{op} {a}, {REGISTERS[width][6]}", f"{op} {a}, 9"]
    for op in ("bsf", "bsr", "imul") + tuple("cmov" + c for c in CONDITIONS):
        for width in (2, 4):
            out += [f"{op} {REGISTERS[width][1]}, {b}" for b in either(width)]
    for width in (2, 4):
        for b in (REGISTERS[width][7], memory(width)[8]):
            out += [f"imul {REGISTERS[width][2]}, {b}, {n}" for n in numbers(width)]
    for op in ("movsx", "movzx"):
        for width, narrow in ((2, 1), (4, 1), (4, 2)):
            out += [f"{op} {REGISTERS[width][5]}, {b}" for b in either(narrow)]
    out += [f"lea {REGISTERS[width][2]}, {b}" for width in (2, 4) for b in memory(width)]
    out += [f"push {a}" for width in (2, 4) for a in either(width)] + [f"pop {a}" for width in (2, 4) for a in either(width)]
    out += [f"push {n}" for n in numbers(4)] + [f"bswap {a}" for a in REGISTERS[4]]
    out += [f"set{c} {a}" for c in CONDITIONS for a in either(1)]
    out += [f"{op} {target}" for op in ["jmp", "call"] + ["j" + c for c in CONDITIONS] for target in ("0x80101000", "0x80102345", "0")]
    out += [f"{op} {target}" for op in ("loop", "loope", "loopne", "jecxz") for target in ("0x80101000", "0x80101081", "0x80100f82")]
    out += [f"{op} {a}" for op in ("jmp", "call") for a in either(4)]
    out += ["ret", "ret 0", "ret 8", "ret 65535"]
    out += "cbw cwde cwd cdq clc cld cmc stc std lahf sahf nop leave pushad popad pushfd popfd".split() + ["rep nop"]
    for op in "movs cmps stos lods scas".split():
        for width in "bwd":
            out += [op + width, f"rep {op}{width}", f"repne {op}{width}"]
    return out


def nasm_line(line):
    """The line in nasm's words: its `rep` before CMPS and SCAS is `repe`, and REP NOP is PAUSE."""
    line = re.sub(r"^rep (cmps|scas)", r"repe \1", line)
    line = re.sub(r"^(jmp|call|j\w+|loop\w*) (0x[0-9a-f]+|\d+)$", lambda m: f"{m.group(1)} {'' if m.group(1)[:4] in ('loop', 'jecx') or m.group(1) == 'call' else 'near '}{m.group(2)}", line)
    line = re.sub(r"^(repne) (movs|stos|lods)(.)$", r"db 0xf2\n\2\3", line)
    line = re.sub(r"^lea (\w+), \w+ ", r"lea \1, ", line)
    # else it takes [eax+eax*1] for [eax*2]
    line = line.replace("[eax*2]", "[nosplit eax*2]")
    line = re.sub(r"^ret (\d+)", r"ret word \1", line)
    return line.replace("rep nop", "pause")


def shown(pieces, folder):
    """What objdump prints of each piece, each at the same address."""
    name = f"{folder}/piece.bin"
    out = []
    gap = 32
    with open(name, "wb") as file:
        for piece in pieces:
            file.write(piece + b"\x90" * (gap - len(piece)))
    text = subprocess.run(["objdump", "-D", "-b", "binary", "-m", "i386", "-M", "intel", "--no-show-raw-insn", name], capture_output=True, text=True, check=True).stdout
    found = dict(re.findall(r"^\s*([0-9a-f]+):\s*(.*?)\s*$", text, re.M))
    for place in range(0, gap * len(pieces), gap):
        said = found.get(f"{place:x}", "?")
        jump = re.match(r"^(j\w+|call|loop\w*)\s+0x([0-9a-f]+)$", said)
        if jump:
            said = f"{jump.group(1)} to {(int(jump.group(2), 16) - place) % 2 ** 32:x}"
        # XCHG of two registers is the same in either order
        swap = re.match(r"^xchg\s+(\w+),(\w+)$", said)
        if swap:
            said = "xchg " + ",".join(sorted(swap.groups()))
        # immediates as numbers, and one spelling of a shift by 1
        out.append(re.sub(r"\s+", " ", said).replace(",0x1", ",1"))
    return out


def nasm_bytes(line, folder):
    with open(f"{folder}/line.asm", "w") as file:
        file.write(f"bits 32\norg {START}\n{nasm_line(line)}\n")
    made = subprocess.run(["nasm", "-w-all", "-f", "bin", "-o", f"{folder}/line.bin", f"{folder}/line.asm"], capture_output=True, text=True)
    if made.returncode:
        return None
    with open(f"{folder}/line.bin", "rb") as file:
        return file.read()


def compare(source, answers):
    with open(source) as file:
        wanted = file.read().split("\n")[:-1]
    with open(answers) as file:
        ours = [line for line in file.read().split("\n") if line.startswith("[") or line in ("line", "range", "memory")]
    if len(wanted) != len(ours):
        sys.exit(f"{len(wanted)} lines, {len(ours)} answers")
    bad = 0
    kept = []
    with tempfile.TemporaryDirectory() as folder:
        for line, answer in zip(wanted, ours):
            theirs = nasm_bytes(line, folder)
            if theirs is None or not answer.startswith("["):
                print(f"{line}: ours {answer}, nasm {theirs and theirs.hex()}")
                bad += 1
                continue
            kept.append((line, bytes(int(n) for n in re.findall(r"\d+", answer)), theirs))
        mine = shown([m for _, m, _ in kept], folder)
        nasms = shown([t for _, _, t in kept], folder)
    same = sum(m == t for _, m, t in kept)
    for (line, m, t), one, other in zip(kept, mine, nasms):
        if one != other:
            print(f"{line}: ours {m.hex()} {one}; nasm {t.hex()} {other}")
            bad += 1
    print(f"{len(wanted)} lines, {bad} differ; {same} of them have the same bytes")
    sys.exit(bad > 0)


if sys.argv[1] == "lines":
    print("\n".join(lines()))
else:
    compare(sys.argv[2], sys.argv[3])
