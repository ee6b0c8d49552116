#!/usr/bin/python3
"""Reads logs by one regular expression a kind, writes them back, and compares to the byte.

Usage: python3 tests/outside/log.py LOG..

It knows the kinds of docs/LOG.md and nothing of the library. A line is taken apart into its fields,
each field into a number, a word, bytes or a list, and written again from these. It prints the number
of lines of each kind, and ends with status 1 at the first line that no expression reads or that is
not written back as it was. It is no part of the gate.
"""
import collections, re, sys

def decimal(limit):
    def read(text):
        assert re.fullmatch(r'0|[1-9][0-9]*', text) and int(text) < limit, text
        return int(text)
    return read, str

def one_of(*names):
    def read(text):
        assert text in names, text
        return names.index(text)
    return read, lambda i: names[i]

def hex_bytes(text):
    assert text == '-' or (text and re.fullmatch(r'([0-9a-f]{2})+', text)), text
    return b'' if text == '-' else bytes.fromhex(text)

def hex_word(text):
    assert re.fullmatch(r'[0-9a-f]{8}', text), text
    return int(text, 16)

def listed(item):
    read, write = item
    return (lambda text: [] if text == '-' else [read(part) for part in text.split(',')],
            lambda items: ','.join(map(write, items)) or '-')

SMALL, MEDIUM, LARGE, FLAG = (decimal(2 ** 8), decimal(2 ** 32), decimal(2 ** 64), decimal(2))
WORD = (hex_word, '{:08x}'.format)
BYTES = (hex_bytes, lambda octets: octets.hex() or '-')
WRITE = (lambda text: (hex_word(text[:8]), text[8:9] == ':' and hex_bytes(text[9:])),
         lambda write: WORD[1](write[0]) + ':' + BYTES[1](write[1]))
PORT = (lambda text: bytes.fromhex(text)[0], '{:02x}'.format)
OPTIONAL = (lambda text: None if text == '-' else SMALL[0](text),
            lambda number: '-' if number is None else str(number))
NAME = (lambda text: text, lambda text: text)
HANDLER = one_of(*'driverentry initialize halt reset checkforhang isr disableinterrupt enableinterrupt '
                 'handleinterrupt timer sync send sendpackets returnpacket query set transferdata '
                 'cancelsend pnpevent shutdown'.split())
FAULT = one_of('divide', 'outside', 'unmapped', 'notreadable', 'notwritable', 'notexecutable')

S, D, W, B, L = r'(\d+)', r'(\d+)', r'([0-9a-f]{8})', r'([0-9a-f]+|-)', r'(\S+)'
ROWS = [
    ('bind', f'{S} {S}', [SMALL, SMALL]), ('unbind', S, [SMALL]), ('quiet', S, [SMALL]),
    ('done', S, [SMALL]), ('send', f'{S} {D} {B}', [SMALL, LARGE, BYTES]), ('hand', D, [LARGE]),
    ('requeue', D, [LARGE]), ('late', D, [LARGE]), ('complete', f'{D} {W}', [LARGE, WORD]),
    ('indicate', f'{S} {D} {B} {L} ([01])', [SMALL, LARGE, BYTES, listed(SMALL), FLAG]),
    ('return', f'{S} {D}', [SMALL, LARGE]), ('back', f'{D} ([01])', [LARGE, FLAG]),
    ('ask', f'{S} {D} (query) {W} {D}', [SMALL, LARGE, NAME, WORD, MEDIUM]),
    ('ask', f'{S} {D} (set) {W} {B}', [SMALL, LARGE, NAME, WORD, BYTES]),
    ('handask', D, [LARGE]), ('answer', f'{D} {W} {B}', [LARGE, WORD, BYTES]),
    ('enter', f'(\\d+|-) {S} ([a-z]+) {L} {L}', [OPTIONAL, SMALL, HANDLER, listed(WORD), listed(WRITE)]),
    ('leave', f'{S} {W}', [SMALL, WORD]), ('turn', f'{S} {D}', [SMALL, LARGE]),
    ('call', f'{S} ([A-Za-z_]+) {L}', [SMALL, NAME, listed(WORD)]),
    ('reply', f'{S} {W} {L}', [SMALL, WORD, listed(WRITE)]), ('spin', f'{S} {W}', [SMALL, WORD]),
    ('port', f'{S} (in|out) ([12]) ([0-9a-f]{{2}}) {B}', [SMALL, NAME, SMALL, PORT, BYTES]),
    ('wirein', D, [LARGE]), ('wireout', f'{S} {B}', [SMALL, BYTES]), ('time', D, [LARGE]),
    ('resetbegin', S, [SMALL]), ('resetend', f'{S} {W}', [SMALL, WORD]),
    ('fault', f'{S} ([a-z]+) {W}', [SMALL, FAULT, WORD]),
    ('stop', f'{S} (breach) ([1-9]|1[0-4])', [SMALL, NAME, SMALL]),
    ('stop', f'{S} (budget|memory)', [SMALL, NAME]),
    ('await', f'{S} (frames) {D}', [SMALL, NAME, LARGE]),
    ('await', f'{S} (up|sent|replies|room|all)', [SMALL, NAME]),
    ('tag', f'{D} {D}', [LARGE, MEDIUM]), ('cancel', f'{S} {D}', [SMALL, MEDIUM]),
    ('event', f'{S} {D} {B} ([01])', [SMALL, MEDIUM, BYTES, FLAG]),
]
ROWS = [(kind, re.compile(f'{kind} {form}', re.ASCII), fields) for kind, form, fields in ROWS]

def read(line):
    for kind, form, fields in ROWS:
        match = form.fullmatch(line)
        if match:
            return kind, fields, [field[0](text) for field, text in zip(fields, match.groups())]
    raise AssertionError('no kind')

def main():
    for name in sys.argv[1:]:
        counts = collections.Counter()
        with open(name, 'rb') as file:
            text = file.read().decode('ascii')
        lines = text.split('\n')
        if lines.pop() != '':
            sys.exit(f'{name}: the last line has no LF')
        for number, line in enumerate(lines, 1):
            try:
                kind, fields, values = read(line)
                back = ' '.join([kind] + [field[1](value) for field, value in zip(fields, values)])
            except (AssertionError, ValueError) as error:
                sys.exit(f'{name}: line {number}: {line!r}: {error}')
            if back != line:
                sys.exit(f'{name}: line {number}: {line!r} is written back as {back!r}')
            counts[kind] += 1
        print(name, len(lines), 'lines', *(f'{kind} {count}' for kind, count in sorted(counts.items())))

main()
