#!/usr/bin/python3
"""Compares the table of imports with MinGW's DDK headers and import libraries.

Usage: python3 tests/outside/imports.py [root of MinGW's files, /usr if left out]

The files are those of Debian's mingw-w64-common (headers) and mingw-w64-i686-dev (libraries), installed
or only unpacked (`apt-get download .. && dpkg-deb -x .. ROOT`). The headers are preprocessed by
clang for i686-w64-mingw32; of each import that they declare, the words and the calling convention
must be those of its row in crates/import_table/src/rows.rt. Where a header has only a macro, its
parameters are counted. The libraries' decorated names (`_Name@bytes`, `@Name@bytes`, `_Name`) are
a second source. Differences are printed by name, and then the status is 1. The rows of docs/IMPORTS.md
must be those of the table, too. It is no part of the gate.
"""
import os, re, subprocess, sys

TOP = os.path.abspath(os.path.join(os.path.dirname(__file__), '..', '..'))
ROOT = sys.argv[1] if len(sys.argv) > 1 else '/usr'
HEADERS = [os.path.join(ROOT, 'share/mingw-w64/include'), os.path.join(ROOT, 'share/mingw-w64/include/ddk')]
LIBRARIES = os.path.join(ROOT, 'i686-w64-mingw32/lib')
SOURCE = '#define NDIS_MINIPORT_DRIVER 1\n#define NDIS51_MINIPORT 1\n#include <string.h>\n#include <ndis.h>\n'
# A source that is wrong: what it says, and why.
EXPLAINED = {('NdisWriteErrorLogEntry', ('Stdcall', 0)): 'the library takes the variadic function for one without parameters; its prototype is cdecl'}
ROW = re.compile(r'row!\(\s*(\d+),\s*b"(\w+)",\s*(\d+),\s*(\w+),\s*(\w+)\s*\)')

def table():
    """The rows of the library: number, name, words, convention, levels."""
    rows = ROW.findall(open(os.path.join(TOP, 'crates/import_table/src/rows.rt')).read())
    assert len(rows) == 64, len(rows)
    return rows

def document():
    """The rows of docs/IMPORTS.md, each as those of the library."""
    text = open(os.path.join(TOP, 'docs/IMPORTS.md')).read()
    levels = {'0': 'PASSIVE', '0 to 2': 'UP_TO_DISPATCH', '2': 'AT_DISPATCH', '0 to 26': 'UP_TO_DEVICE'}
    rows = re.findall(r'^\| (\d+) \| (\w+) \| (\d+) \| (\w+) \| ([\w ]+) \|', text, re.M)
    return [(n, name, words, convention.capitalize(), levels[level]) for n, name, words, convention, level in rows]

def preprocessed(*more):
    """The text that the headers come to. They clash in one enumeration, which preprocessing passes over."""
    command = ['clang', '-target', 'i686-w64-mingw32', '-nostdlibinc', '-w', '-E', *more, '-x', 'c', '-']
    for folder in HEADERS:
        command += ['-isystem', folder]
    return subprocess.run(command, input=SOURCE, text=True, stdout=subprocess.PIPE, check=True).stdout

def parameters(text):
    """How many parameters a list between parentheses has, the dots of a variadic one left out."""
    depth, parts = 0, ['']
    for c in text:
        depth += c in '([' 
        depth -= c in ')]'
        if c == ',' and depth == 0:
            parts.append('')
        else:
            parts[-1] += c
    parts = [part.strip() for part in parts]
    return 0 if parts in ([''], ['void']) else len([part for part in parts if part != '...'])

def list_behind(text, at):
    """What stands between the parenthesis at a place and its partner, and what is behind."""
    depth = 0
    for i in range(at, len(text)):
        depth += (text[i] == '(') - (text[i] == ')')
        if depth == 0:
            return text[at + 1:i], text[i + 1:i + 80]
    return '', ''

def declared(text, name):
    """The words and the convention of each prototype of a name."""
    found = set()
    for match in re.finditer(r'\b%s\s*\(' % name, text):
        before = re.split(r'[;{}]', text[max(0, match.start() - 300):match.start()])[-1]
        inside, behind = list_behind(text, match.end() - 1)
        # A prototype has a type in front and ends with a semicolon; a call has none of the two.
        if not re.search(r'[\w*)]\s*$', before) or re.search(r'\breturn\s*$|[=(,]\s*$', before):
            continue
        if not re.match(r'\s*(__attribute__\s*\(\(.*?\)\)\s*)*[;{]', behind):
            continue
        if re.search(r'^\s*(extern\s+)?$', before):
            continue
        convention = 'Stdcall' if 'stdcall' in before else 'Fastcall' if 'fastcall' in before else 'Cdecl'
        found.add((parameters(inside), convention))
    return found

def macros(text, name):
    return {parameters(inside) for inside in re.findall(r'^#define %s\(([^)]*)\)' % name, text, re.M)}

def decorated():
    """Of each name in the import libraries its convention, and its bytes where the name tells them."""
    found = {}
    for library in ('libndis.a', 'libhal.a', 'libntoskrnl.a'):
        path = os.path.join(LIBRARIES, library)
        symbols = subprocess.run(['nm', path], text=True, stdout=subprocess.PIPE, stderr=subprocess.DEVNULL).stdout
        for symbol in re.findall(r' T (\S+)', symbols):
            match = re.fullmatch(r'@(\w+)@(\d+)|_(\w+)@(\d+)|_(\w+)', symbol)
            if match and match[1]:
                found.setdefault(match[1], set()).add(('Fastcall', int(match[2])))
            elif match and match[3]:
                found.setdefault(match[3], set()).add(('Stdcall', int(match[4])))
            elif match:
                found.setdefault(match[5], set()).add(('Cdecl', None))
    return found

def main():
    rows = {name: (int(words), convention) for _, name, words, convention, _ in table()}
    text, defines, exports = preprocessed(), preprocessed('-dD'), decorated()
    counts, explained, differences, nowhere = dict(prototype=0, macro=0, library=0), [], [], []
    written = document()
    differences += [f'docs/IMPORTS.md: {row} is no row' for row in written if row not in table()]
    differences += [f'docs/IMPORTS.md: without {row}' for row in table() if row not in written]
    for name, (words, convention) in rows.items():
        prototypes, uses, symbols = declared(text, name), macros(defines, name), exports.get(name, set())
        for source, seen, mine in (('prototype', prototypes, (words, convention)), ('macro', uses, words)):
            counts[source] += bool(seen)
            differences += [f'{name}: {source} {other}, the table {mine}' for other in sorted(seen) if other != mine]
        wanted = (convention, None if convention == 'Cdecl' else 4 * words)
        counts['library'] += bool(symbols)
        for other in symbols - {wanted}:
            line = f'{name}: library {other}, the table {wanted}'
            if (name, other) in EXPLAINED:
                explained.append(f'{line}: {EXPLAINED[name, other]}')
            else:
                differences.append(line)
        if not (prototypes or uses or symbols):
            nowhere.append(name)
    print(f"{len(rows)} imports: {counts['prototype']} prototypes, {counts['macro']} macros, {counts['library']} library symbols")
    print('in none of them:', ', '.join(nowhere) or '-')
    print('explained:', '; '.join(explained) or '-')
    print('differences:', len(differences))
    for line in differences:
        print(' ', line)
    return 1 if differences else 0

if __name__ == '__main__':
    sys.exit(main())
