#!/usr/bin/env python3
"""Brings the names of this repository's definitions and lemmas to today's spelling, once, behind the kit's port.py.

usage: tools/port_names.py [ROOT]

A definition in camel case turns to snake case (recordOf: record_of), and so does a lemma in words joined by dashes
(mux-length: mux_length). A dash stays where it joins the names of two things (length-pack). A lemma whose name would
fall together with that of a definition is called its law (frame-length beside frameLength: frame_length_law).
What turns: whole words of specs/ and proofs/, of clauses in src/, of must-fail/ and tests/wrong; in comments and pages
only words that are no name of the standard. Names that the check makes stay.
"""
import collections
import os
import re
import sys

ROOT = sys.argv[1] if len(sys.argv) > 1 else '.'
STOPS = r"\s(){}.;,@\"«»:`"
WORD = re.compile(rf"[^{STOPS}]+")
HEAD = re.compile(rf"^\s*(?:abbrev |unfoldable )?(?:pub )?(?:(data|record|mod) )?([^{STOPS}]+) *(?:\([^)]*\)|\{{[^}}]*\}})* *:(?![:=])")
# words of the standard, which stay in prose
STANDARD = set('''allStreamsSameTimeFraming ascLen audioMuxVersion audioMuxVersionA channelConfiguration coreFrameOffset
crcCheckPresent crcCheckSum frameLength frameLengthType latmBufferFullness muxSlotLengthBytes numLayer numProgram
numSubFrames otherDataLenBits otherDataPresent progSIndx streamMuxConfig syncExtension useSameConfig useSameStreamMux
audioSpecificConfig payloadLengthInfo audioMuxElement latmGetValue byteAlignment muxEnding numChunk'''.split())
# names of things that a dash joins
JOINED = re.compile(r"^(length|drop|take|getD|pack|unpack|number|bitsOf|sets|set|tab)-"
                    r"(length|drop|take|pack|unpack|number|bitsOf|sets|set|tab|append|replicate|tab-add)$")
# lemmas that port.py itself turned to the name of a definition: the crate, and the names
TURNED = [('config', 'other_length'), ('writer', 'other_length'), ('asc', 'object_type'), ('sync', 'no_byte'),
          ('writer', 'row_fits'), ('listing_blocks', 'all_said')]
# lemmas with the name of a definition that port.py turned
LAWS = ['all-of', 'bit-at', 'block-of', 'cell-of', 'put-length']


def files(*ends):
    for folder, dirs, names in os.walk(ROOT):
        dirs[:] = sorted(d for d in dirs if d not in ('out', '.git', 'target'))
        for name in sorted(names):
            if name.endswith(ends):
                yield os.path.join(folder, name)


def snake(name):
    if not JOINED.match(name):
        name = name.replace('-', '_')
    return re.sub(r"(?<=[a-z0-9'₂])([A-Z])", lambda m: '_' + m.group(1).lower(), name.replace('getD', 'get_or'))


FUNCTIONS = set()


def functions():
    for path in files('.rt'):
        FUNCTIONS.update(re.findall(r'\bfn (\w+)', open(path, encoding='utf-8').read()))


def declared():
    of_function = re.compile(r'/proofs/(?:[^/]+/)+[^/]+\.antt$')
    names = {'keeps-so'}
    for path in files('.antt'):
        if of_function.search(path):
            continue
        for line in open(path, encoding='utf-8'):
            m = HEAD.match(line)
            if m and m.group(1) is None and re.match(r'[a-z]', m.group(2)):
                names.add(m.group(2))
    return names


def table():
    names = declared()
    camel = {n for n in names if re.search(r"[a-z0-9'][A-Z]", n) and ('-' not in n or JOINED.match(n))}
    dashed = {n for n in names if '-' in n and n not in camel}
    rows = {n: snake(n) for n in camel}
    taken = set(rows.values()) | {snake(n) for n in LAWS if n != 'put-length'}
    for n in sorted(dashed):
        new = snake(n)
        rows[n] = new + '_law' if new in taken else new
    new = collections.Counter(rows.values())
    for n, to in rows.items():
        if new[to] > 1:
            sys.exit(f'{n}: another name turns to {to} as well')
    return rows


def turn_words(text, rows, prose=False, plain=False):
    def one(m):
        w = m.group()
        if plain and re.match(r'[a-z].*-', w):
            return w.replace('-', '_')
        if '-' in w and text[:m.start()].endswith('.') and w.replace('-', '_') in FUNCTIONS:
            return w.replace('-', '_')
        if w not in rows or prose and w in STANDARD:
            return w
        before = text[:m.start()]
        if '-' in w and re.search(r"(?:\b(?:tie|goal|spec|call)\.)$", before[-8:]):
            return w
        return rows[w]
    return WORD.sub(one, text)


def turn_code(text, rows, comment, plain=False):
    out = []
    for line in text.split('\n'):
        m = re.search(rf"(?:(?<=^)|(?<=\s)){comment}.*$", line)
        code, prose = (line[:m.start()], line[m.start():]) if m else (line, '')
        out.append(turn_words(code, rows, plain=plain) + turn_words(prose, rows, prose=True))
    return '\n'.join(out)


def main():
    functions()
    rows = table()
    for crate, name in TURNED:
        for path in files('.antt'):
            if f'/crates/{crate}/proofs/' not in path or path.endswith('/Contracts.antt'):
                continue
            text = open(path, encoding='utf-8').read()
            new = re.sub(rf"(?<![^\s(){{;,]){name}(?![^\s(){{}};,])(?!\.)(?! as\b)", name + '_law', text)
            if new != text:
                open(path, 'w', encoding='utf-8').write(new)
    for path in files('.antt', '.rt', '.edit', '.md'):
        text = open(path, encoding='utf-8').read()
        if path.endswith('.md'):
            new = re.sub(r"`[^`\n]+`", lambda m: turn_words(m.group(), rows, prose=True), text)
        else:
            new = turn_code(text, rows, '--' if path.endswith('.antt') else '//', path.endswith('/Contracts.antt'))
        if path.endswith('.edit'):
            new = new.replace('′', "'")
        if new != text:
            open(path, 'w', encoding='utf-8').write(new)
    with open(os.path.join(ROOT, 'tools', 'port_names.tsv'), 'w', encoding='utf-8') as f:
        f.writelines(f'{old}\t{new}\n' for old, new in sorted(rows.items()))
    print(f'{len(rows)} names')


main()
