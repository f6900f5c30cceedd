"""Reads cases and gives the line that the program `compare` must print for each.

    python3 oracle/answers.py < cases.txt

The format of the cases and of the lines is told in README.md beside this file.
"""

import sys

from dltl import NO_LIMIT, Joint, Lasso, Listed, Refused, Step, Study


def members(mask):
    """The numbers of the bits that are set."""
    return frozenset(i for i in range(mask.bit_length()) if mask >> i & 1)


class Reader:
    """Words and numbers parted by a space or a line feed, and raw byte strings."""

    def __init__(self, data):
        self.data = data
        self.at = 0

    def ended(self):
        return self.at == len(self.data)

    def word(self):
        end = self.at
        while self.data[end:end + 1] not in (b' ', b'\n', b''):
            end += 1
        word = self.data[self.at:end]
        self.at = end + 1
        return word.decode()

    def number(self):
        return int(self.word())

    def numbers(self, count):
        return [self.number() for _ in range(count)]

    def raw(self):
        length = self.number()
        text = self.data[self.at:self.at + length]
        assert len(text) == length and self.data[self.at + length:self.at + length + 1] == b'\n'
        self.at += length + 1
        return text

    def steps(self):
        """COUNT, then action, state and marks of each step."""
        return [Step(action, state, members(marks))
                for action, state, marks in (self.numbers(3) for _ in range(self.number()))]

    def table(self):
        acts, states, rows = self.numbers(3)
        records = [(starts, members(marks))
                   for starts, marks in (self.numbers(2) for _ in range(states))]
        return Listed(members(acts), records, [tuple(self.numbers(3)) for _ in range(rows)])

    def system(self):
        shape = self.number()
        a = self.table()
        if shape == 1:
            return a
        b = self.table()
        if shape == 2:
            return Joint(a, b)
        c = self.table()
        if shape == 3:
            return Joint(Joint(a, b), c)
        assert shape == 4
        return Joint(a, Joint(b, c))


def loaded(text, nodes=0, edges=0):
    """A study with the document loaded, or blank if it is refused."""
    study = Study(nodes, edges)
    try:
        study.load(text)
    except Refused:
        study.wipe()
    return study


def load_line(reader):
    study = Study(0, 0)
    try:
        study.load(reader.raw())
    except Refused as fault:
        return f'refused {fault.code} {fault.line} {fault.column}'
    document = study.document
    return (f'ok {len(document.acts)} {len(document.props)} {len(document.progs)} '
            f'{len(document.forms)} {document.weight}')


def verdict_line(reader):
    study = Study(reader.number(), reader.number())
    try:
        study.load(reader.raw())
    except Refused as fault:
        return f'refused {fault.code} {fault.line}'
    _units, report = study.grow(NO_LIMIT)
    counts = f'{len(study.nodes)} {study.edge_count()}'
    if report == 'full':
        return f'full {counts}'
    lasso = study.decide(NO_LIMIT, NO_LIMIT)
    if lasso is None:
        return f'none {counts}'
    assert study.judge(lasso, NO_LIMIT), 'the oracle found a lasso that it judges no'
    return f'found {counts} yes'


def grow_line(reader):
    nodes, edges = reader.numbers(2)
    budgets = reader.numbers(reader.number())
    study = loaded(reader.raw(), nodes, edges)
    if study.document is None:
        return 'refused 7'
    parts = []
    for budget in budgets:
        units, report = study.grow(budget)
        parts.append(f'{units}:{report}:{len(study.nodes)}:{study.edge_count()}')
    return ' '.join(parts)


def judge_line(reader):
    stem, work = reader.numbers(2)
    lasso = Lasso(reader.steps(), stem)
    study = loaded(reader.raw())
    return 'yes' if study.judge(lasso, work) else 'no'


def audit_line(reader):
    stem, work = reader.numbers(2)
    lasso = Lasso(reader.steps(), stem)
    system = reader.system()
    study = loaded(reader.raw())
    return 'yes' if study.audit(lasso, system, work) else 'no'


def examine_line(reader):
    nodes, edges, work, places = reader.numbers(4)
    system = reader.system()
    study = loaded(reader.raw(), nodes, edges)
    if study.document is not None:
        study.grow(NO_LIMIT)
    lasso = study.examine(system, work, places)
    counts = f'{len(study.nodes)} {study.edge_count()}'
    if lasso is None:
        return f'none {counts}'
    assert study.audit(lasso, system, NO_LIMIT), 'the oracle found a lasso that it audits no'
    return f'found {counts} yes'


def scan_line(reader):
    places = reader.number()
    text = reader.raw()
    study = loaded(reader.raw())
    try:
        lasso = study.scan(text, places)
    except Refused as fault:
        return f'refused {fault.code} {fault.line}'
    assert study.print(lasso, NO_LIMIT) == text, 'printing a scanned text gave another'
    return f'{len(lasso.steps)} {lasso.stem} same'


def print_line(reader):
    places, stem = reader.numbers(2)
    lasso = Lasso(reader.steps(), stem)
    study = loaded(reader.raw())
    text = study.print(lasso, places)
    shown = text.decode().replace('\t', ' ').replace('\n', '|')
    return f'{len(text)} {shown}'


KINDS = {'load': load_line, 'verdict': verdict_line, 'grow': grow_line, 'judge': judge_line,
         'audit': audit_line, 'examine': examine_line, 'scan': scan_line, 'print': print_line}


def answers(data):
    """The kind and the whole line of each case."""
    reader = Reader(data)
    while not reader.ended():
        kind = reader.word()
        number = reader.number()
        try:
            line = KINDS[kind](reader)
        except Refused as fault:
            line = f'refused {fault.code}'
        yield kind, f'{number} {line}'


def main():
    for _kind, line in answers(sys.stdin.buffer.read()):
        print(line)


if __name__ == '__main__':
    main()
