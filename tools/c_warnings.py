#!/usr/bin/env python3
"""Compiles the C that `og cc` prints with gcc and with clang, where they are installed, and counts warnings.

    (cd crates/og_main && rt run) ; tools/c_warnings.py [PROGRAM]

The models are those of the cases of crates/og_rows/data that call `cc`. No model has values in its slots yet, so the
structs that og_cemit makes for them are compiled too, as crates/og_cemit/specs/StructExamples.antt spells them out. The
status is 1 where a compiler warns.
"""
import os
import re
import shutil
import subprocess
import sys
import tempfile

HERE = os.path.dirname(os.path.abspath(__file__))
ROWS = os.path.join(HERE, '../crates/og_rows/data')
STRUCTS = os.path.join(HERE, '../crates/og_cemit/specs/StructExamples.antt')
PROGRAM = os.path.abspath(sys.argv[1] if len(sys.argv) > 1 else os.path.join(HERE, '../crates/og_main/out/og_main'))
FLAGS = ['-std=c99', '-Wall', '-Wextra', '-pedantic', '-O2']


def unescaped(text):
    """The bytes that a text of a case stands for."""
    marks = {'n': b'\n', 'r': b'\r', 't': b'\t', '\\': b'\\', 'e': b''}
    out = b''
    for plain, mark in re.findall(r'([^\\]+)|\\(x[0-9A-F]{2}|.)', text):
        out += plain.encode() if plain else bytes([int(mark[1:], 16)]) if mark[0] == 'x' else marks[mark]
    return out


def texts_of(line, name):
    """The bytes of a line that says what stands in a file."""
    count, kind, text = re.fullmatch(r'(?:(\d+) )?([|+])(.*)', line).groups()
    text = text.replace('\\=', name)
    end = b'\n' if kind == '|' else b''
    times = range(int(count or 1))
    return b''.join(unescaped(text.replace('\\#', str(k)).replace('\\+', str(k + 1))) + end for k in times)


def carried_out(lines, name):
    """The words and the files of a case."""
    words, files, at = '', {}, None
    for line in lines:
        if line.startswith('words'):
            words = line[6:].replace('\\=', name)
        elif line.startswith('file '):
            at = unescaped(line[5:].replace('\\=', name)).decode('latin-1')
            files[at] = b''
        elif at and re.match(r'(\d+ )?[|+]', line):
            files[at] += texts_of(line, name)
    return words, files


def cases():
    """The words and the files of each case."""
    for section in open(os.path.join(ROWS, 'index')).read().split():
        head, own, name, inside = [], [], None, 'head'
        for line in open(os.path.join(ROWS, section), encoding='latin-1').read().split('\n') + ['head']:
            begins = re.match(r'(case|with|head)\b ?(.*)', line)
            if begins:
                if inside == 'case':
                    try:
                        yield carried_out(head + own, name)
                    except (KeyError, ValueError):
                        pass  # an escape that is none: the case tries that
                own, inside = [], 'head' if begins[1] == 'head' else 'case'
                name = begins[2] if begins[1] == 'with' else ''
                head = [] if begins[1] == 'head' else head
            elif line and not line.startswith('#'):
                (own if inside == 'case' else head).append(line)


def printed():
    """The C that `cc` prints for the cases."""
    found = set()
    for words, files in cases():
        if words.split()[:1] != ['cc'] or '\\' in words or any('/' in file for file in files):
            continue
        with tempfile.TemporaryDirectory() as folder:
            for name, text in files.items():
                with open(os.path.join(folder, name), 'wb') as file:
                    file.write(text)
            done = subprocess.run([PROGRAM] + words.split(), cwd=folder, capture_output=True)
        if done.returncode == 0:
            found.add(done.stdout)
    return sorted(found)


def structured():
    """The structs, globals and statements of the worked examples as one text."""
    text = open(STRUCTS, encoding='utf-8').read()
    structs = re.search(r'codes "(typedef struct \{ int64_t length ; int64_t items.*?)"', text)[1]
    slots = re.search(r'codes "(T3 w ;.*?)"', text)[1]
    statements = re.findall(r'^-- (\w[\w.\[\] ()-]* = .*;)$', text, re.M)
    body = ''.join(f'    {statement}\n' for statement in statements)
    return f'#include <stdint.h>\n{structs}\n{slots}\nvoid start(void) {{\n{body}}}\n'.encode()


def warned(compiler, texts):
    """How many warnings and errors come for the texts, with the first one."""
    count, first = 0, ''
    with tempfile.TemporaryDirectory() as folder:
        for text in texts:
            name = os.path.join(folder, 'text.c')
            with open(name, 'wb') as file:
                file.write(text)
            words = [compiler, *FLAGS, '-c', name, '-o', os.devnull]
            told = subprocess.run(words, capture_output=True, text=True).stderr
            found = re.findall(r'^.*(?:warning|error):.*$', told, re.M)
            count += len(found)
            first = first or (found[0] if found else '')
    return count, first


def main():
    texts = {'printed by cc': printed(), 'structs, worked out': [structured()]}
    fine = True
    print('| texts | number | lines | ' + ' | '.join(['gcc', 'clang']) + ' |')
    print('|---|---|---|---|---|')
    for name, some in texts.items():
        cells = []
        for compiler in ('gcc', 'clang'):
            if shutil.which(compiler) is None:
                cells.append('not installed')
                continue
            count, first = warned(compiler, some)
            cells.append(f'{count} warnings' + (f' ({first})' if first else ''))
            fine = fine and count == 0
        lines = sum(text.count(b'\n') for text in some)
        print(f'| {name} | {len(some)} | {lines} | ' + ' | '.join(cells) + ' |')
    sys.exit(0 if fine else 1)


main()
