#!/usr/bin/env python3
"""The refusals have the same numbers, names and sentences in the specification, in the code and in the C header."""
import pathlib
import re
import sys

TOP = pathlib.Path(__file__).resolve().parents[2]
SPECIFICATION = TOP / 'docs/SPECIFICATION.md'
CODE = TOP / 'crates/answer_forms/src/reason.rt'
HEADER = TOP / 'include/zilqodur.h'


def specified():
    """The rows of the table of refusals: number, name, when, place."""
    rows = re.findall(r'(?m)^\| (\d+) \| ([A-Z_]+) \| (.*?) \| .*? \|$', SPECIFICATION.read_text())
    return {int(number): (name, when) for number, name, when in rows}


def coded():
    """The variants of the enum, each with the comment above it as its sentence; ArcCount is ARC_COUNT elsewhere."""
    rows = re.findall(r'(?m)^    // (.*)\.\n    ([A-Za-z]+) = (\d+),$', CODE.read_text())
    upper = {name: re.sub(r'(?<!^)(?=[A-Z])', '_', name).upper() for _, name, _ in rows}
    return {int(number): (upper[name], when[0].lower() + when[1:]) for when, name, number in rows}


def in_header():
    """The constants of the enum, each with its sentence in zilqodur_refusal_text."""
    text = HEADER.read_text()
    listed = re.search(r'enum ZilqodurRefusal \{(.*?)\}', text, re.S)[1]
    sentences = dict(re.findall(r'case ZILQODUR_([A-Z_]+): return "(.*)";', text))
    rows = re.findall(r'(?m)^    ZILQODUR_([A-Z_]+) = (\d+)', listed)
    return {int(number): (name, sentences.get(name)) for name, number in rows if name != 'NO_REFUSAL'}


def main():
    table = specified()
    faults = [] if sorted(table) == list(range(1, len(table) + 1)) and table else ['the table does not count from 1 on']
    for where, found in ((CODE, coded()), (HEADER, in_header())):
        for number in sorted(table.keys() | found.keys()):
            if table.get(number) != found.get(number):
                faults.append(f'{where.name}: {number} is {found.get(number)}, specified {table.get(number)}')
    for fault in faults:
        print(fault)
    print(f'refusals: {len(table)} numbers, {len(faults)} differences')
    sys.exit(1 if faults else 0)


if __name__ == '__main__':
    main()
