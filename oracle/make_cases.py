"""Makes cases for the engine's program `compare`, with the lines it must print.

    python3 oracle/make_cases.py SEED OUTDIR

writes OUTDIR/cases.txt and OUTDIR/expected.txt, the same for the same seed. The
formats are told in README.md beside this file. The lines are made by answers.py,
which reads the cases as the engine's program does.
"""

import os
import random
import sys
from collections import Counter

import answers
import orders
from dltl import (NO_LIMIT, Graph, Joint, Lasso, Listed, Step, declared_marks, is_session,
                  load_document, print_lasso)
from documents import (PLAIN, REFUSED, always_choice, contradictory_document, faulty_document,
                       limit_documents, lines, random_document, random_studied, stated_documents,
                       studied)
from load_cases import load_cases


# ---------------------------------------------------------------------------
# Writing cases
# ---------------------------------------------------------------------------

def raw(text):
    return b'%d\n%s\n' % (len(text), text)


def mask(numbers):
    return sum(1 << number for number in set(numbers))


class Cases:
    def __init__(self):
        self.records = []

    def add(self, kind, numbers, *texts):
        head = ' '.join([kind, str(len(self.records) + 1)] + [str(number) for number in numbers])
        self.records.append(head.encode() + b' ' + b''.join(raw(text) for text in texts))

    def load(self, text):
        self.add('load', [], text)

    def verdict(self, nodes, edges, text):
        self.add('verdict', [nodes, edges], text)

    def grow(self, nodes, edges, budgets, text):
        self.add('grow', [nodes, edges, len(budgets), *budgets], text)

    def judge(self, lasso, work, text):
        self.add('judge', [lasso.stem, work, *step_numbers(lasso)], text)

    def audit(self, lasso, work, plan, text):
        self.add('audit', [lasso.stem, work, *step_numbers(lasso), *plan.numbers()], text)

    def examine(self, nodes, edges, work, places, plan, text):
        self.add('examine', [nodes, edges, work, places, *plan.numbers()], text)

    def scan(self, places, text, document):
        self.add('scan', [places], text, document)

    def print(self, places, lasso, text):
        self.add('print', [places, lasso.stem, *step_numbers(lasso)], text)


def step_numbers(lasso):
    numbers = [len(lasso.steps)]
    for step in lasso.steps:
        numbers += [step.action, step.state, mask(step.marks)]
    return numbers


class Table:
    """A listed system as it is written: acts, (starts, marks) for each state, rows."""

    def __init__(self, acts, records, rows):
        self.acts = acts
        self.records = records
        self.rows = rows

    def numbers(self):
        numbers = [mask(self.acts), len(self.records), len(self.rows)]
        for starts, marks in self.records:
            numbers += [int(starts), mask(marks)]
        for row in self.rows:
            numbers += row
        return numbers

    def system(self):
        return Listed(self.acts, self.records, self.rows)


class Plan:
    """A shape and its tables: 1 is a listed system a, 2 is joint(a,b),
    3 is joint(joint(a,b),c) and 4 is joint(a,joint(b,c))."""

    def __init__(self, shape, *tables):
        self.shape = shape
        self.tables = tables

    def numbers(self):
        numbers = [self.shape]
        for table in self.tables:
            numbers += table.numbers()
        return numbers

    def system(self):
        parts = [table.system() for table in self.tables]
        if self.shape == 1:
            return parts[0]
        if self.shape == 2:
            return Joint(*parts)
        if self.shape == 3:
            return Joint(Joint(parts[0], parts[1]), parts[2])
        return Joint(parts[0], Joint(parts[1], parts[2]))


# ---------------------------------------------------------------------------
# Cases of growing and deciding
# ---------------------------------------------------------------------------

def verdict_cases(cases, rng):
    for text in stated_documents():
        cases.verdict(512, 4096, text)

    wanted = {'found': 165, 'none': 95, 'none without node': 15}
    while any(wanted.values()):
        if wanted['found'] and rng.random() < 0.7:
            text = random_document(rng)
        else:
            text = contradictory_document(rng)
        study = studied(text)
        if study is None or len(study.nodes) < 12 and rng.random() < 0.6:
            continue
        if study.decide(NO_LIMIT, NO_LIMIT) is not None:
            outcome = 'found'
        else:
            outcome = 'none' if study.nodes else 'none without node'
        if not wanted[outcome]:
            continue
        wanted[outcome] -= 1
        tables = rng.choice([(512, 4096), (512, 4096), (4096, 65536), (5000, 70000),
                             (len(study.nodes), study.edge_count())])
        cases.verdict(*tables, text)

    # tables that are too small, each with the same outcome for every order of entering
    left = 60
    while left:
        text, study = random_studied(rng)
        nodes, edges = len(study.nodes), study.edge_count()
        if nodes < 4:
            continue
        tables = rng.choice([(nodes - 1, edges), (nodes, max(edges - 1, 0)),
                             (rng.randrange(nodes), edges + 7),
                             (nodes + 7, rng.randrange(edges)) if edges else (0, 0),
                             (rng.randrange(nodes), rng.randrange(edges + 1))])
        levels = orders.Levels(study.graph)
        if len(levels.first) > tables[0] and rng.random() < 0.85:
            continue        # full at once, which is dull
        if orders.is_sure(levels, *tables, [NO_LIMIT]):
            cases.verdict(*tables, text)
            left -= 1
    for text in stated_documents():
        study = studied(text)
        nodes, edges = len(study.nodes), study.edge_count()
        for tables in ((nodes, edges), (nodes - 1, edges), (nodes, edges - 1), (0, 0)):
            if min(tables) >= 0 and orders.is_sure(orders.Levels(study.graph), *tables, [NO_LIMIT]):
                cases.verdict(*tables, text)

    for tables, text in limit_documents():
        assert orders.is_sure(orders.Levels(Graph(load_document(text))), *tables, [NO_LIMIT])
        cases.verdict(*tables, text)

    # refused documents
    for text in (b'', REFUSED, PLAIN[:-1], PLAIN + b'\n', lines('act a', 'prog x a;(a', 'goal t'),
                 lines('act a', 'act a'), lines('form t true', 'goal t'),
                 b'x' * 16385, lines(*[f'act n{i}' for i in range(17)])):
        cases.verdict(512, 4096, text)
    for _ in range(15):
        cases.verdict(512, 4096, faulty_document(rng))


def grow_cases(cases, rng):
    for text in stated_documents():
        study = studied(text)
        levels = orders.Levels(study.graph)
        nodes, edges = len(study.nodes), study.edge_count()
        for budgets in ([0, 1, 0, 1, 1, 1, 50, 0, 7], [1] * (nodes + 3), [0, 0, 1000, 1000, 0],
                        [nodes, 1, 1], [nodes + 1, 0], [nodes + 2]):
            for tables in ((512, 4096), (nodes, edges)):
                if orders.is_sure(levels, *tables, budgets):
                    cases.grow(*tables, budgets, text)
        for tables in ((0, 0), (1, 1), (nodes // 2, edges), (nodes, edges // 2)):
            budgets = [0, 1, 1, 1, 100, 0, 3]
            if orders.is_sure(levels, *tables, budgets):
                cases.grow(*tables, budgets, text)

    left = {'complete': 30, 'full': 25, 'more': 25}
    while any(left.values()):
        text, study = random_studied(rng, most_nodes=150, most_edges=1200)
        nodes, edges = len(study.nodes), study.edge_count()
        if nodes < 4:
            continue
        levels = orders.Levels(study.graph)
        tables = rng.choice([(512, 4096), (nodes, edges), (rng.randrange(nodes), edges),
                             (nodes, rng.randrange(max(edges, 1)))])
        for _ in range(6):
            budgets = rng.choice([
                [rng.choice([0, 1, 1, 2, 3, 5, 8, 13, 40]) for _ in range(rng.randint(1, 7))],
                [1 + len(levels.first), rng.randrange(4), 1000, 5],
                [1, len(levels.first), 0, 2], [1, len(levels.first) - 1, 1, 3], [nodes, 1, 1],
                [nodes + 1, 1]])
            try:
                reports = orders.grown(levels, *tables, budgets)
            except orders.Undetermined:
                continue
            report = reports[-1][1]
            if left[report]:
                left[report] -= 1
                cases.grow(*tables, budgets, text)
                break

    text = always_choice(8, 16)
    levels = orders.Levels(Graph(load_document(text)))
    for nodes, edges, budgets in (
            (5000, 70000, [0, 1, 1, 126, 0, 1, 100, 283, 1, 0, 5, 0]),
            (640, 65536, [513, 1, 0]), (640, 65535, [513, 1, 0]), (640, 65536, [512, 1, 1]),
            (639, 65536, [384, 1, 1, 0])):
        assert orders.is_sure(levels, nodes, edges, budgets)
        cases.grow(nodes, edges, budgets, text)
    cases.grow(512, 4096, [5, 0], REFUSED)
    cases.grow(0, 0, [0], REFUSED)
    cases.grow(0, 0, [0], b'')
    cases.grow(0, 0, [0, 1, 0], PLAIN)


# ---------------------------------------------------------------------------
# Cases of judge
# ---------------------------------------------------------------------------

def random_lasso(rng, document, most=9):
    count = rng.randint(1, most)
    steps = [Step(rng.randrange(len(document.acts)), rng.choice([0, 0, 1, 7, rng.randrange(4096)]),
                  frozenset(p for p in range(len(document.props)) if rng.random() < 0.5))
             for _ in range(count)]
    return Lasso(steps, rng.randrange(count))


def changed_lasso(rng, document, lasso):
    """A lasso with a mark or an action or the stem changed."""
    steps = list(lasso.steps)
    at = rng.randrange(len(steps))
    if document.props and rng.random() < 0.6:
        steps[at] = steps[at]._replace(marks=steps[at].marks ^ {rng.randrange(len(document.props))})
    elif rng.random() < 0.5:
        steps[at] = steps[at]._replace(action=rng.randrange(len(document.acts)))
    else:
        return Lasso(steps, rng.randrange(len(steps)))
    return Lasso(steps, lasso.stem)


def turning_cases(cases, rng):
    """Untils that need several turns of the loop, or never come true for all turns."""
    for program in ('(a;a)*', '(a;a;a)*', 'a;(a;a;a)*', '(a;a;a;a;a)*;a;a', '(a;a;a+a;a;a;a;a)*'):
        for negated in (False, True):
            text = lines('act a', 'prop p', 'prop q', f'prog x {program}', 'form p prop p',
                         'form q prop q', 'form u until q x p', 'form n not u',
                         'goal n' if negated else 'goal u')
            for loop in rng.sample([1, 2, 3, 4, 5, 6, 7, 9], 4):
                stem = rng.randrange(4)
                marked = rng.randrange(stem + loop)
                hole = rng.choice([None, None, rng.randrange(stem + loop)])     # where q is missing
                steps = [Step(0, 0, frozenset([0] * (i == marked) + [1] * (i != hole)))
                         for i in range(stem + loop)]
                cases.judge(Lasso(steps, stem), 4 * len(steps), text)
    # two actions: the program must keep in step with the loop
    for program in ('(a;b)*', '(a;b;a)*', '(a;b;b;a)*;a', '((a+b);(a+b);(a+b))*', '(a*;b)*;a;a',
                    '(a;(a+b))*;b'):
        text = lines('act a', 'act b', 'prop p', f'prog x {program}', 'form t true',
                     'form p prop p', 'form u until t x p', 'goal u')
        for loop in (1, 2, 3, 4, 5):
            stem = rng.randrange(3)
            pattern = rng.choice([[0, 1], [0, 1, 0], [0, 0, 1], [0],
                                  [rng.randrange(2) for _ in range(stem + loop)]])
            marked = rng.randrange(stem + loop)
            steps = [Step(pattern[i % len(pattern)], 0, frozenset([0] * (i == marked)))
                     for i in range(stem + loop)]
            cases.judge(Lasso(steps, stem), 4 * len(steps), text)
    # nested: always, every third step, an even way to p; and an until within an until on both sides
    head = ['act a', 'prop p', 'prop q', 'prog two (a;a)*', 'prog three (a;a;a)*', 'prog s a*',
            'form t true', 'form p prop p', 'form q prop q']
    nested = lines(*head, 'form u until t two p', 'form n not u', 'form v until t three n',
                   'form w not v', 'goal w')
    sides = lines(*head, 'form u until p two q', 'form v until q three p', 'form w until u s v',
                  'form n not w', 'form o or w n', 'form z and o w', 'goal z')
    for text in (nested, sides):
        document = load_document(text)
        for _ in range(20):
            lasso = random_lasso(rng, document, 8)
            cases.judge(lasso, 4 * len(lasso.steps), text)


def judge_cases(cases, rng):
    turning_cases(cases, rng)

    wanted = {True: 90, False: 90}
    while any(wanted.values()):
        text, study = random_studied(rng)
        lasso = None
        if rng.random() < 0.5:
            lasso = study.decide(NO_LIMIT, NO_LIMIT)
            if lasso is not None and rng.random() < 0.6:
                lasso = changed_lasso(rng, study.document, lasso)
        if lasso is None or len(lasso.steps) > 40:
            lasso = random_lasso(rng, study.document)
        outcome = study.judge(lasso, NO_LIMIT)
        if wanted[outcome]:
            wanted[outcome] -= 1
            cases.judge(lasso, 4 * len(lasso.steps) + rng.choice([0, 0, 1, 50]), text)

    # not lassos, too few work places, a blank study, and their order
    text = lines('act a', 'act b', 'prop p', 'prop q', 'prop r', 'form f prop r', 'goal f')
    good = Step(1, 4095, frozenset([0, 1, 2]))
    for stem, steps in not_lassos(good, acts=2, props=3):
        cases.judge(Lasso(steps, stem), 4 * len(steps), text)
    for stem, steps in ((1, [good]), (0, []), (0, [good._replace(action=2)])):
        cases.judge(Lasso(steps, stem), 0, text)
    for count in (1, 2, 7):
        for work in (4 * count, 4 * count - 1, 4 * count + 1, 3 * count, 0):
            cases.judge(Lasso([good] * count, count - 1), work, text)
    for refused in (REFUSED, b'', PLAIN[:-1]):
        cases.judge(Lasso([good], 0), 4, refused)
        cases.judge(Lasso([good], 1), 0, refused)


def not_lassos(good, acts, props):
    """Steps that are just a lasso, and just not one any more: stem, steps."""
    yield 0, [good]
    yield 1, [good]
    yield 2, [good]
    yield 0, []
    yield 1, []
    yield 65535, [good, good]
    for stem in (0, 1, 2, 3, 4):
        yield stem, [good] * 3
    for action in (0, acts - 1, acts, 15, 16, 255):
        yield 1, [good, good._replace(action=action), good]
    for state in (0, 4095, 4096, 65535):
        yield 1, [good, good, good._replace(state=state)]
    for mark in (0, props - 1, props, 15):
        yield 0, [good._replace(marks=good.marks | {mark}), good]
        yield 0, [good, good._replace(marks=frozenset([mark]))]


# ---------------------------------------------------------------------------
# Cases of audit and examine
# ---------------------------------------------------------------------------

def random_table(rng, document, states=None, acts=None):
    """A listed system, with rows that repeat others or lie outside."""
    count = states or rng.randint(1, 6)
    if acts is None:
        acts = [a for a in range(len(document.acts)) if rng.random() < 0.8]
        acts += [a for a in (len(document.acts), 7, 15) if rng.random() < 0.1]
    # marks that are not declared are rare
    records = [(rng.random() < 0.35,
                [p for p in range(16) if rng.random() < (0.5 if p < len(document.props) else 0.03)])
               for _ in range(count)]
    if not any(starts for starts, _marks in records) and rng.random() < 0.9:
        records[0] = (True, records[0][1])
    rows = []
    for origin in range(count):
        for _ in range(rng.choice([0, 1, 2, 2, 3, 4])):
            if acts:
                rows.append((origin, rng.choice(acts), rng.randrange(count)))
    rng.shuffle(rows)
    for _ in range(rng.choice([0, 0, 1, 3])):
        if rows:
            rows.insert(rng.randrange(len(rows) + 1), rng.choice(rows))
    for _ in range(rng.choice([0, 0, 1, 2])):
        outside = [(count, 0, 0), (0, 0, count), (0, 16, 0), (0, 255, 0), (65535, 0, 0),
                   (0, 0, 65535), (0, rng.randrange(16), rng.randrange(count))]
        rows.insert(rng.randrange(len(rows) + 1), rng.choice(outside))
    return Table(acts, records, rows)


def random_plan(rng, document):
    shape = rng.choice([1, 1, 1, 2, 2, 2, 3, 4])
    if shape == 1:
        return Plan(1, random_table(rng, document))
    most = 5 if shape == 2 else 3
    tables = []
    for _ in range(2 if shape == 2 else 3):
        # half of the joints share all the actions, the others only some
        acts = list(range(len(document.acts))) if rng.random() < 0.5 else None
        tables.append(random_table(rng, document, rng.randint(1, most), acts))
    return Plan(shape, *tables)


def random_session(rng, document, system):
    """A lasso that is a session of the system, or None if the walk gets stuck."""
    starting = [state for state in range(system.count) if system.starts(state)]
    if not starting:
        return None
    states = [rng.choice(starting)]
    actions = []
    while True:
        moves = [move for move in system.moves(states[-1]) if move[0] < len(document.acts)]
        if not moves:
            return None
        action, target = rng.choice(moves)
        actions.append(action)
        # close the loop when the state was met before, mostly at once
        if target in states and (rng.random() < 0.7 or len(states) > 12):
            break
        states.append(target)
    stem = rng.choice([i for i, state in enumerate(states) if state == target])
    return Lasso([Step(action, state, declared_marks(document, system.marks(state)))
                  for action, state in zip(actions, states)], stem)


def changed_session(rng, document, system, lasso):
    steps = list(lasso.steps)
    at = rng.choice([0, len(steps) - 1, rng.randrange(len(steps))])
    change = rng.randrange(5)
    if change == 0 and document.props:
        steps[at] = steps[at]._replace(marks=steps[at].marks ^ {rng.randrange(len(document.props))})
    elif change == 1:
        steps[at] = steps[at]._replace(action=rng.randrange(len(document.acts)))
    elif change == 2:
        steps[at] = steps[at]._replace(state=rng.randrange(system.count + 1))
    elif change == 3:
        return Lasso(steps, rng.randrange(len(steps)))
    else:
        steps = steps[at:] + steps[:at]
    return Lasso(steps, lasso.stem)


def audit_cases(cases, rng):
    # how many that are sessions or not, and meet the goal or not
    wanted = {(True, True): 60, (True, False): 35, (False, True): 35, (False, False): 5}
    while any(wanted.values()):
        text, study = random_studied(rng)
        plan = random_plan(rng, study.document)
        system = plan.system()
        if system.count == 0:
            continue
        lasso = random_session(rng, study.document, system)
        if lasso is None:
            continue
        if rng.random() < 0.5:
            lasso = changed_session(rng, study.document, system, lasso)
        kind = is_session(study.document, system, lasso), study.judge(lasso, NO_LIMIT)
        if wanted[kind]:
            wanted[kind] -= 1
            cases.audit(lasso, 4 * len(lasso.steps), plan, text)

    loop = Table([0], [(True, [0])], [(0, 0, 0)])
    plain = Plan(1, loop)
    step = Step(0, 0, frozenset([0]))
    for work in (0, 3, 4, 5):
        cases.audit(Lasso([step], 0), work, plain, PLAIN)
        cases.audit(Lasso([step], 1), work, plain, PLAIN)
    good = Step(0, 0, frozenset([0]))
    for stem, steps in not_lassos(good, acts=1, props=1):
        cases.audit(Lasso(steps, stem), 4 * len(steps), plain, PLAIN)
    for plan in empty_plans():
        cases.audit(Lasso([step], 0), 4, plan, PLAIN)
        cases.audit(Lasso([step], 0), 3, plan, PLAIN)
        cases.audit(Lasso([step], 1), 4, plan, PLAIN)
    for plan in record_plans():
        cases.audit(Lasso([step], 0), 4, plan, PLAIN)
    cases.audit(Lasso([step], 0), 4, plain, REFUSED)
    cases.audit(Lasso([step], 1), 0, empty_plans()[0], REFUSED)
    # once around the largest joint, and not quite; a state beyond the count
    large = Plan(2, ring(64, [0]), ring(64, [0]))
    around = [Step(0, i * 65, frozenset([0])) for i in range(64)]
    cases.audit(Lasso(around, 0), 256, large, PLAIN)
    cases.audit(Lasso(around[:63], 0), 252, large, PLAIN)
    cases.audit(Lasso([step._replace(state=5)], 0), 4, plain, PLAIN)
    for table in odd_tables():
        cases.audit(Lasso([step], 0), 4, Plan(1, table), PLAIN)
        cases.audit(Lasso([step], 0), 4, Plan(2, Table([3], [(True, [])], []), table), PLAIN)
    # a mark that is not declared is not compared
    cases.audit(Lasso([step], 0), 4, Plan(1, Table([0], [(True, [0, 9])], [(0, 0, 0)])), PLAIN)


def ring(count, marks, acts=(0,)):
    """States in a circle, each with the marks, the first one starting."""
    return Table(list(acts), [(i == 0, marks) for i in range(count)],
                 [(i, acts[0], (i + 1) % count) for i in range(count)])


def split_ring(count):
    """A joint of two rings with so many states in all."""
    left = max(i for i in range(1, 65) if count % i == 0)
    return Plan(2, ring(left, [0], (0,)), ring(count // left, [1], (1,)))


def odd_tables():
    """One state: without start, without moves, with other marks, with an action outside the
    set or not declared; and last one that serves."""
    return [Table([0], [(False, [0])], [(0, 0, 0)]), Table([0], [(True, [0])], []),
            Table([0], [(True, [])], [(0, 0, 0)]), Table([1], [(True, [0])], [(0, 1, 0)]),
            Table([], [(True, [0])], [(0, 0, 0)]), Table([1], [(True, [0])], [(0, 0, 0)]),
            Table([0], [(True, [0])], [(0, 0, 1), (1, 0, 0), (0, 16, 0)]),
            Table([0, 1], [(True, [0, 15])], [(0, 0, 0), (0, 1, 0), (0, 0, 0)])]


def empty_plans():
    """Systems with count 0: too large, or without any state."""
    def bare(count, acts=(0,)):
        return Table(list(acts), [(1, [0])] * count, [(0, 0, 0)])

    one = bare(1)
    return [Plan(2, bare(65), bare(64)), Plan(1, bare(0)), Plan(2, bare(0), one),
            Plan(2, one, bare(0)), Plan(3, bare(65), bare(64), one),
            Plan(4, one, bare(64), bare(65)), Plan(3, bare(64), bare(64), bare(2)),
            Plan(4, bare(2), bare(64), bare(64))]


def record_plans():
    """As many records as a listed system can have, and one more."""
    rows = [(0, 0, 0), (0, 0, 4095), (4095, 0, 4096)]
    return [Plan(1, Table([0], [(i == 0, [0]) for i in range(count)], rows))
            for count in (4096, 4097)]


def examine_cases(cases, rng):
    wanted = {'found': 70, 'none': 70}
    while any(wanted.values()):
        text, study = random_studied(rng, most_nodes=150, most_edges=1200)
        if not study.nodes and rng.random() < 0.95:
            continue
        plan = random_plan(rng, study.document)
        system = plan.system()
        pairs = len(study.nodes) * system.count
        if system.count == 0 or pairs > 8000:
            continue
        outcome = 'none' if study.examine(system, NO_LIMIT, NO_LIMIT) is None else 'found'
        if outcome == 'none' and study.decide(NO_LIMIT, NO_LIMIT) is None and rng.random() < 0.8:
            continue        # none already without the system
        if wanted[outcome]:
            wanted[outcome] -= 1
            more = rng.choice([0, 0, 1, 100])
            cases.examine(len(study.nodes) + more, study.edge_count() + more, 4 * pairs + more,
                          2 * pairs + more, plan, text)

    # too few places: 5 nodes, 5 edges
    two = Plan(1, ring(2, [0]))
    for nodes, edges, work, places in ((5, 5, 40, 20), (5, 5, 39, 20), (5, 5, 40, 19), (5, 5, 0, 0),
                                       (4, 5, 40, 20), (5, 4, 40, 20), (0, 0, 0, 0),
                                       (5, 5, 41, 21), (4, 4, 0, 0)):
        cases.examine(nodes, edges, work, places, two, PLAIN)
    for plan in empty_plans():
        cases.examine(5, 5, 400, 400, plan, PLAIN)
    for plan in record_plans():
        cases.examine(5, 5, 4 * 5 * 4096, 2 * 5 * 4096, plan, PLAIN)
    cases.examine(5, 5, 0, 0, empty_plans()[0], PLAIN)
    cases.examine(5, 4, 400, 400, empty_plans()[0], PLAIN)
    cases.examine(5, 5, 400, 400, two, REFUSED)
    cases.examine(5, 5, 0, 0, empty_plans()[1], b'')
    # no node: no pair, so no place is needed
    cases.examine(0, 0, 0, 0, two, lines('act a', 'form t true', 'form n not t', 'goal n'))
    for table in odd_tables():
        cases.examine(5, 5, 20, 10, Plan(1, table), PLAIN)
        cases.examine(5, 5, 20, 10, Plan(2, table, Table([3], [(True, [])], [])), PLAIN)

    # pairs at the limit and beyond: 4,096 states with 5 and 16 nodes, and with more
    def with_nodes(count):
        """A document whose graph has so many nodes."""
        local = random.Random(count)
        while True:
            text = random_document(local, small=True)
            study = studied(text)
            if study is not None and len(study.nodes) == count and len(study.document.acts) == 2:
                if study.decide(NO_LIMIT, NO_LIMIT) is not None:
                    return text, study.edge_count()

    full = Plan(2, ring(64, [0], (0,)), ring(64, [1], (1,)))
    cases.examine(5, 5, 4 * 5 * 4096, 2 * 5 * 4096, Plan(2, ring(64, [0]), ring(64, [0])), PLAIN)
    for count in (16, 17, 20):
        text, edges = with_nodes(count)
        pairs = 4096 * count
        cases.examine(count, edges, 4 * pairs, 2 * pairs, full, text)
        cases.examine(count, edges, 4 * pairs - 1, 2 * pairs, full, text)
        cases.examine(count, edges - 1, 4 * pairs, 2 * pairs, full, text)
        # as many states as can be, and one more
        most = 65536 // count
        cases.examine(count, edges, 4 * 65536, 2 * 65536, split_ring(most), text)
        cases.examine(count, edges, 4 * most * count - 1, 2 * most * count, split_ring(most), text)
        cases.examine(count, edges, 4 * most * count, 2 * most * count - 1, split_ring(most), text)
        if most < 4096:
            cases.examine(count, edges, 4 * 70000, 2 * 70000, split_ring(most + 1), text)
            cases.examine(count, edges, 0, 0, split_ring(most + 1), text)


# ---------------------------------------------------------------------------
# Cases of lasso texts
# ---------------------------------------------------------------------------

LASSO_DOCUMENT = lines('act a', 'act go_on', 'act ' + 'm' * 16, 'prop p', 'prop q', 'prop a',
                       'prop ' + 'n' * 16, 'form f prop p', 'goal f')


def scan_cases(cases, rng):
    good = 'loop a 0 -'
    first = 'stem a 0 p'
    # a bar stands for a line feed, a blank for a tab
    texts = [
        '', good, first, f'{first}|{good}', f'{good}|{first}', f'{good}|{good}',
        f'{first}|{first}', f'{first}|{good}|{good}', f'{good}|{first}|{good}',
        f'{first}|{good}|{first}|{good}',
        # fields and words
        'loop a 0', 'loop a 0 - -', 'loop a', 'loop', 'Loop a 0 -', 'loo a 0 -', 'loops a 0 -',
        'stemm a 0 -', ' loop a 0 -', 'loop a 0 - ', 'loop  0 -', 'loop a  -', 'loop a 0 ',
        ' a 0 -', f'{good}|', f'{good}||{good}', f'|{good}',
        # actions
        'loop go_on 0 -', 'loop ' + 'm' * 16 + ' 0 -', 'loop ' + 'm' * 17 + ' 0 -', 'loop A 0 -',
        'loop 1 0 -', 'loop zz 0 -', 'loop p 0 -', 'loop _ 0 -',
        # states
        'loop a 7 -', 'loop a 4095 -', 'loop a 4096 -', 'loop a 9999 -', 'loop a 10000 -',
        'loop a 65536 -', 'loop a 4294967296 -', 'loop a 18446744073709551616 -', 'loop a 00 -',
        'loop a 01 -', 'loop a 0004095 -', 'loop a +1 -', 'loop a -1 -', 'loop a x -',
        'loop a 1x -', 'loop a 0x1 -', 'loop a 4.0 -',
        # marks
        'loop a 0 p', 'loop a 0 q', 'loop a 0 p,q', 'loop a 0 q,p', 'loop a 0 p,p',
        'loop a 0 p,q,a,' + 'n' * 16, 'loop a 0 p,a,q', 'loop a 0 a,' + 'n' * 16,
        'loop a 0 ' + 'n' * 16 + ',a', 'loop a 0 p,', 'loop a 0 ,p', 'loop a 0 p,,q', 'loop a 0 ,',
        'loop a 0 --', 'loop a 0 -,p', 'loop a 0 p,-', 'loop a 0 P', 'loop a 0 p,Q',
        'loop a 0 zz', 'loop a 0 p,zz', 'loop a 0 zz,p', 'loop a 0 zz,zz', 'loop a 0 zz,yy',
        'loop a 0 q,zz,p', 'loop a 0 p,zz,p', 'loop a 0 go_on', 'loop a 0 ' + 'n' * 17,
        'loop a 0 p;q', 'loop a 0 p,q|bad',
        # two faults
        'loop zz 0 q,p', 'loop zz 4096 -', 'loop zz 0 P', 'loop a 0 zz|bad', 'bad|loop a 0 zz',
        'loop zz 0 zz', f'{good}|{first}|loop zz 0 -', f'{good}|{first}|bad', f'{first}|bad',
        f'{first}|loop zz 0 -', 'stem zz 0 -', 'stem a 0 p,p',
    ]
    for text in texts:
        whole = text.replace('|', '\n').replace(' ', '\t').encode()
        cases.scan(8, whole + b'\n' if text else b'', LASSO_DOCUMENT)
    for whole in (b'\n', b'loop\ta\t0\t-', b'loop\ta\t0\t-\nloop', b'loop\ta\t0\t-\n\t', b'bad',
                  b'bad\nloop', b'stem\ta\t0\t-\nloop\ta\t0\t-', b'loop\ta\t0\t-\r\n',
                  b'loop\ta\t0\t\xff\n', b'\xff\n', b'loop\ta\t0\tp\x00\n', b'loop a 0 -\n',
                  b'loop\tzz\t0\t-', b'loop\ta\t0\t-\n\x00'):
        cases.scan(8, whole, LASSO_DOCUMENT)
    # places
    text = b'stem\ta\t0\tp\n' * 3 + b'loop\tgo_on\t12\t-\n' * 2
    for places in (0, 1, 4, 5, 6):
        cases.scan(places, text, LASSO_DOCUMENT)
        cases.scan(places, text + b'stem\ta\t0\t-\n', LASSO_DOCUMENT)
        cases.scan(places, text + b'stem\ta\t0\t\n', LASSO_DOCUMENT)
    cases.scan(0, b'', LASSO_DOCUMENT)
    for text in (b'', b'loop\ta\t0\t-\n', b'bad'):
        cases.scan(8, text, REFUSED)
    # random lassos of random documents, some changed
    for i in range(60):
        text = LASSO_DOCUMENT if i % 3 else random_document(rng)
        document = load_document(text)
        lasso = random_lasso(rng, document)
        whole = print_lasso(document, lasso)
        if rng.random() < 0.5:
            at = rng.randrange(len(whole))
            put_in = rng.choice([b'', b'\t', b'\n', b'a', b'p', b',', b'-', b'0', b'5', b'loop',
                                 b'Z'])
            whole = whole[:at] + put_in + whole[at + rng.randint(0, 1):]
        cases.scan(rng.choice([16, 16, len(lasso.steps), len(lasso.steps) - 1]), whole, text)


def print_cases(cases, rng):
    for i in range(45):
        text = LASSO_DOCUMENT if i % 2 else random_document(rng)
        document = load_document(text)
        lasso = random_lasso(rng, document)
        length = len(print_lasso(document, lasso))
        cases.print(length + rng.choice([0, 0, 0, -1, -1, 1, 100, -length]), lasso, text)
    good = Step(2, 4095, frozenset([0, 1, 2, 3]))
    for stem, steps in not_lassos(good, acts=3, props=4):
        cases.print(1000, Lasso(steps, stem), LASSO_DOCUMENT)
    for stem, steps in ((1, [good]), (0, []), (0, [good._replace(state=4096)])):
        cases.print(0, Lasso(steps, stem), LASSO_DOCUMENT)
    for state in (9, 10, 99, 100, 999, 1000):
        cases.print(1000, Lasso([good._replace(state=state, marks=frozenset())], 0), LASSO_DOCUMENT)
    cases.print(1000, Lasso([Step(0, 0, frozenset())], 0), REFUSED)
    cases.print(0, Lasso([], 0), b'')


def large_cases(cases, seed):
    """Lassos at the greatest number of steps; they are long, so each seed has only two."""
    step = Step(0, 0, frozenset())
    text = lines('act a', 'prop p', 'prog x (a;a;a)*', 'form t true', 'form p prop p',
                 'form u until t x p', 'goal u')
    line = b'loop\ta\t0\t-\n'
    if seed % 3 == 1:
        # p at the second step only: from step 0 it is 1 step away, then 1 + 131,072, a multiple
        # of 3, so it is reached in the second turn
        steps = [step, step._replace(marks=frozenset([0]))] + [step] * 131070
        cases.judge(Lasso(steps, 0), 4 * 131072, text)
        cases.judge(Lasso(steps + [step], 0), 4 * 131073, text)
    elif seed % 3 == 2:
        cases.scan(131073, line * 131073, text)
        cases.print(1 << 22, Lasso([step] * 131073, 0), text)
    else:
        cases.scan(131072, line * 131072, text)
        cases.judge(Lasso([step] * 131073, 0), 4 * 131073, text)


def make(seed):
    rng = random.Random(seed)
    cases = Cases()
    load_cases(cases, rng)
    verdict_cases(cases, rng)
    grow_cases(cases, rng)
    judge_cases(cases, rng)
    audit_cases(cases, rng)
    examine_cases(cases, rng)
    scan_cases(cases, rng)
    print_cases(cases, rng)
    large_cases(cases, seed)
    return b''.join(cases.records)


def main():
    if len(sys.argv) != 3:
        sys.exit(__doc__)
    seed, folder = int(sys.argv[1]), sys.argv[2]
    os.makedirs(folder, exist_ok=True)
    data = make(seed)
    with open(os.path.join(folder, 'cases.txt'), 'wb') as file:
        file.write(data)
    counts = Counter()
    with open(os.path.join(folder, 'expected.txt'), 'w') as file:
        for kind, line in answers.answers(data):
            file.write(line + '\n')
            counts[kind, outcome_of(kind, line)] += 1
    for (kind, outcome), count in sorted(counts.items()):
        print(f'{count:5} {kind} {outcome}')
    print(f'{sum(counts.values()):5} cases, {len(data)} bytes')


def outcome_of(kind, line):
    """The outcome in a line, for the counts printed at the end."""
    words = line.split()
    if words[1] == 'refused':
        return f'refused {words[2]}'
    if kind == 'grow':
        return 'ends ' + words[-1].split(':')[1]
    if kind in ('scan', 'print'):
        return 'ok'
    return words[1]


if __name__ == '__main__':
    main()
