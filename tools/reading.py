#!/usr/bin/env python3
"""The files that must be believed: those that the imports of the promises reach.

The promises are `Analysed` and `Demanded` of the crate `specification`, which `vundayre_analyse` cites, those of `Joining`, which `vundayre_join`
cites, those of `Previewing`, which `vundayre_preview` cites, those of `Hiding` and `HiddenTimes`, which `vundayre_hide` cites, and what
`Bracketing` states of joins, `Sizes` of buffers and `Meaning` of tables that mean the same. The imports of their files are followed through
this repository's crates; the kit's own libraries are left out. A type that code declares stands in the crate's src/.

usage: tools/reading.py           prints the table of docs/READING.md
       tools/reading.py --check   says whether docs/READING.md has this table, and the longest line of the repository's text; status 1 if not
"""
import glob
import os
import re
import sys

BASE = os.path.dirname(os.path.dirname(os.path.abspath(__file__)))
ROOTS = [f'crates/specification/specs/{name}.antt' for name in ('Analysed', 'Demanded', 'Joining', 'Previewing', 'Bracketing', 'Sizes',
                                                              'Meaning', 'Hiding', 'HiddenTimes')]
PAGE = 'docs/READING.md'
MOST_LINE = 300
IMPORT = re.compile(r'^\s*(?:pub |ghost )?use Rattle\.([a-z_]+)\.specs\.([A-Za-z0-9_.]+?)(?:\.\{|\s)', re.M)


def read(path):
    with open(os.path.join(BASE, path), encoding='utf-8') as file:
        return file.read()


def imports(path):
    """The files of this repository that a file imports, in their order."""
    for crate, module in IMPORT.findall(read(path)):
        parts = module.split('.')
        if not os.path.isdir(os.path.join(BASE, 'crates', crate)):
            continue  # a library of the kit
        if parts[0] == 'declared':
            yield f'crates/{crate}/src/lib.rt'
        else:
            yield f'crates/{crate}/specs/{"/".join(parts)}.antt'


def reached(roots):
    """The files that the imports of the roots reach, each behind those that it imports."""
    order = []

    def visit(path):
        if path in order:
            return
        for other in imports(path):
            visit(other)
        order.append(path)

    for root in roots:
        visit(root)
    return order


def size(path):
    """Lines, and lines of definitions: those that are not blank, a comment or an import."""
    lines = read(path).splitlines()
    body = [line for line in lines if line.strip() and not re.match(r'\s*(--|//|use |pub mod )', line)]
    return len(lines), len(body)


def subject(path):
    return re.sub(r'^(--|//) ', '', read(path).splitlines()[0])


def table():
    rows = ['| file | lines | of definitions | subject |', '|---|---|---|---|']
    all_lines = all_body = 0
    files = reached(ROOTS)
    for path in files:
        lines, body = size(path)
        all_lines += lines
        all_body += body
        rows.append(f'| `{path}` | {lines} | {body} | {subject(path)} |')
    rows.append(f'| {len(files)} files | {all_lines} | {all_body} | |')
    return '\n'.join(rows) + '\n'


def longest():
    """The longest line of definitions, proofs and code, and where it stands. rt fmt joins imports, as long as they come."""
    most = (0, '')
    for part in ('src', 'specs', 'proofs'):
        for path in glob.glob(os.path.join(BASE, 'crates', '*', part, '**', '*'), recursive=True):
            if path.endswith(('.antt', '.rt')):
                with open(path, encoding='utf-8') as file:
                    for number, line in enumerate(file, 1):
                        if not line.startswith(('use ', 'ghost use ')):
                            most = max(most, (len(line.rstrip('\n')), f'{os.path.relpath(path, BASE)}:{number}'))
    return most


def main():
    if sys.argv[1:] == []:
        print(table(), end='')
        return 0
    if sys.argv[1:] != ['--check']:
        print(__doc__, file=sys.stderr)
        return 2
    fresh = table() in read(PAGE)
    count, place = longest()
    print(f'{PAGE}: {"as the imports have it" if fresh else "not as the imports have it"}; longest line {count}, {place}')
    return 0 if fresh and count <= MOST_LINE else 1


if __name__ == '__main__':
    sys.exit(main())
