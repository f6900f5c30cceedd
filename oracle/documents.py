"""Documents for the cases: random ones, contradictory ones, and some at the limits."""

from dltl import NO_LIMIT, Refused, Study, TooLarge, load_document, program_fault

# A random document is left out when the oracle needs more recursion steps than
# this for its graph, or when the graph has more nodes or edges.
PATIENCE = 12000
MOST_NODES = 400
MOST_EDGES = 3000


def lines(*rows):
    """A text of lines whose fields are parted by blanks here."""
    return ''.join(row.replace(' ', '\t') + '\n' for row in rows).encode()


PLAIN = lines('act a', 'prop p', 'form f prop p', 'goal f')
REFUSED = lines('act a', 'goal f')


# ---------------------------------------------------------------------------
# Random documents
# ---------------------------------------------------------------------------

class Writer:
    """Writes a document; programs and forms get their names here."""

    def __init__(self, acts, props):
        self.acts = acts
        self.props = props
        self.lines = [f'act\t{name}' for name in acts] + [f'prop\t{name}' for name in props]
        self.programs = {}      # program: its name
        self.forms = {}         # kind and operands: name
        self.names = {}         # program name: how many action names it has
        self.weight = 0

    def program(self, text):
        """The name of a program, declared if it is new; None if there is no room."""
        if text not in self.programs:
            if len(self.programs) == 16 or program_fault(text.encode()) is not None:
                return None
            name = f'x{len(self.programs)}'
            self.lines.append(f'prog\t{name}\t{text}')
            self.programs[text] = name
            count = 0
            for char, before in zip(text, '(' + text):
                count += char.isalpha() and not before.isalnum()
            self.names[name] = count
        return self.programs[text]

    def form(self, kind, *operands, again=False):
        """The name of a form. With `again`, a second form is made for the same thing."""
        key = (kind, *operands)
        if again or key not in self.forms:
            weight = 6 * (self.names[operands[1]] + 1) if kind == 'until' else 2
            if self.weight + weight > 256 or len(self.forms) > 60:
                raise NoRoom()
            self.weight += weight
            name = f'f{sum(line.startswith("form") for line in self.lines)}'
            self.lines.append('\t'.join(['form', name, *key]))
            self.forms[key] = name
        return self.forms[key]

    def true(self):
        return self.form('true')

    def some(self, rng):
        """A leaf."""
        if self.props and rng.random() < 0.85:
            return self.form('prop', rng.choice(self.props))
        return self.true()

    def negated(self, f):
        return self.form('not', f)

    def both(self, f, g):
        return self.form('and', f, g)

    def until(self, f, program, g, again=False):
        name = self.program(program)
        if name is None:
            raise NoRoom()
        return self.form('until', f, name, g, again=again)

    def any_word(self):
        """The program whose words are all words."""
        return '(' + '+'.join(self.acts) + ')*'

    def finally_(self, g):
        return self.until(self.true(), self.any_word(), g)

    def always(self, g):
        return self.negated(self.finally_(self.negated(g)))

    def text(self, goal):
        return ('\n'.join(self.lines + [f'goal\t{goal}']) + '\n').encode()


class NoRoom(Exception):
    """The document would become too large; its maker tries another."""


def random_program(rng, acts, names):
    """A program with so many names."""
    def make(count):
        """The text, and how tightly its outermost sign binds: 0 sum, 1 sequence, 2 factor."""
        def inside(part, least):
            text, binding = part
            return text if binding >= least else f'({text})'

        if count == 1:
            part = (rng.choice(acts), 2)
        else:
            cut = rng.randint(1, count - 1)
            left, right = make(cut), make(count - cut)
            if rng.random() < 0.4:
                part = (inside(left, 0) + '+' + inside(right, 0), 0)
            else:
                part = (inside(left, 1) + ';' + inside(right, 1), 1)
        if rng.random() < 0.3:
            part = (inside(part, 2) + '*', 2)
        elif rng.random() < 0.05:
            part = (f'({part[0]})', 2)
        return part

    return make(names)[0]


def random_writer(rng, small=False):
    acts = list('abc')[:rng.choice([1, 2, 2] if small else [1, 1, 2, 2, 2, 3])]
    props = list('pqr')[:rng.choice([1, 2] if small else [0, 1, 2, 2, 3])]
    if not small and rng.random() < 0.15:
        props = props[:1] + [name for name in acts if name not in props][:2]    # names of two kinds
    return Writer(acts, props)


def random_form(rng, writer, depth, most_names):
    """A random form, of nested kinds up to `depth`."""
    if depth == 0 or rng.random() < 0.1:
        return writer.some(rng)
    kind = rng.choice(['until'] * 6 + ['not'] * 3 + ['and'] * 4 + ['or'] * 3 + ['next'] * 2)

    def part():
        return random_form(rng, writer, depth - 1, most_names)

    if kind == 'not':
        return writer.negated(part())
    if kind == 'next':
        return writer.form('next', rng.choice(writer.acts), part())
    if kind == 'until':
        program = random_program(rng, writer.acts, rng.randint(1, most_names))
        f = part() if rng.random() < 0.5 else writer.some(rng)
        return writer.until(f, program, part())
    return writer.form(kind, part(), part())


def random_document(rng, small=False):
    while True:
        writer = random_writer(rng, small)
        try:
            parts = [random_form(rng, writer, rng.choice([2, 2, 3] if small else [2, 3, 3, 4]),
                                 3 if small else rng.choice([3, 5]))
                     for _ in range(rng.choice([1, 2] if small else [1, 1, 2, 3]))]
            goal = parts[0]
            for other in parts[1:]:
                goal = writer.both(goal, other)
            return writer.text(goal)
        except NoRoom:
            continue


def alike_programs(rng, acts):
    """Two programs with the same words."""
    x = random_program(rng, acts, rng.randint(1, 2))
    y = random_program(rng, acts, rng.randint(1, 2))
    return rng.choice([
        (f'({x})*', f'({x})*;({x})*'), (f'({x})*', f'(({x})*)*'), (f'({x})+({y})', f'({y})+({x})'),
        (f'({x});({x})*', f'({x})*;({x})'), (f'(({x})+({y}))*', f'(({x})*;({y})*)*'),
        (f'({x})*', f'(({x});({x}))*+({x});(({x});({x}))*'),
        (f'({x});(({y})+({x}))', f'({x});({y})+({x});({x})'),
        (f'(({x});({y}))*;({x})', f'({x});(({y});({x}))*')])


def smaller_and_larger(rng, acts):
    """Two programs, the words of the first among those of the second."""
    x = random_program(rng, acts, rng.randint(1, 3))
    y = random_program(rng, acts, rng.randint(1, 2))
    return rng.choice([(x, f'({x})+({y})'), (x, f'({x})*'), (x, f'({x});({y})*'),
                       (f'({x});({x})', f'({x})*'), (f'(({x});({x}))*', f'({x})*'),
                       (f'({x});({y})', f'(({x})+({y}))*')])


def contradiction(rng, writer):
    """A form that no lasso meets, for one reason or another."""
    f, g = writer.some(rng), writer.some(rng)
    if rng.random() < 0.3:
        g = random_form(rng, writer, 1, 2)
    t = writer.true()
    reason = rng.randrange(9)
    if reason == 0:
        x, y = alike_programs(rng, writer.acts)
        if rng.random() < 0.5:
            x, y = y, x
        return writer.both(writer.until(f, x, g), writer.negated(writer.until(f, y, g)))
    if reason == 1:
        x, y = smaller_and_larger(rng, writer.acts)
        return writer.both(writer.until(f, x, g), writer.negated(writer.until(f, y, g)))
    if reason == 2:
        x = random_program(rng, writer.acts, rng.randint(1, 4))
        return writer.both(writer.always(g), writer.until(t, x, writer.negated(g)))
    if reason == 3:
        a = rng.choice(writer.acts)
        return writer.both(writer.form('next', a, g), writer.form('next', a, writer.negated(g)))
    if reason == 4:
        never = writer.both(g, writer.negated(g))
        return writer.until(f, random_program(rng, writer.acts, rng.randint(1, 5)), never)
    if reason == 5:
        return writer.both(writer.always(writer.finally_(g)),
                           writer.finally_(writer.always(writer.negated(g))))
    if reason == 6:
        x = random_program(rng, writer.acts, rng.randint(2, 4))
        once = writer.until(f, x, g)
        return writer.both(once, writer.negated(writer.until(f, x, g, again=True)))
    if reason == 7:
        x = random_program(rng, writer.acts, rng.randint(1, 3))
        return writer.until(f, x, contradiction(rng, writer))
    return writer.form('or', contradiction(rng, writer), contradiction(rng, writer))


def contradictory_document(rng):
    while True:
        writer = random_writer(rng)
        try:
            goal = contradiction(rng, writer)
            if rng.random() < 0.3:
                goal = writer.both(goal, random_form(rng, writer, 1, 2))
            if rng.random() < 0.2:
                goal = writer.form('next', rng.choice(writer.acts), goal)
            return writer.text(goal)
        except NoRoom:
            continue


def studied(text, most_nodes=MOST_NODES, most_edges=MOST_EDGES):
    """A study whose graph is complete, or None if that takes too much."""
    study = Study(most_nodes, most_edges, PATIENCE)
    study.load(text)
    try:
        if study.grow(NO_LIMIT)[1] != 'complete':
            return None
    except TooLarge:
        return None
    return study


def random_studied(rng, **limits):
    while True:
        text = random_document(rng) if rng.random() < 0.8 else contradictory_document(rng)
        study = studied(text, **limits)
        if study is not None:
            return text, study


def mutated(rng, text):
    """A valid document with one to three changes."""
    for _ in range(rng.choice([1, 1, 1, 2, 3])):
        change = rng.randrange(9)
        at = rng.randrange(len(text)) if text else 0
        rows = text.split(b'\n')
        row = rng.randrange(len(rows))
        if change == 0:
            text = text[:at] + bytes([rng.choice(b'abpqxf019_(*;+)\t\n \r\xffAZ')]) + text[at + 1:]
        elif change == 1:
            text = text[:at] + text[at + 1:]
        elif change == 2:
            text = text[:at] + bytes([rng.choice(b'abpqxf019_(*;+)\t\n A')]) + text[at:]
        elif change == 3:
            rows.pop(row)
            text = b'\n'.join(rows)
        elif change == 4:
            rows.insert(rng.randrange(len(rows) + 1), rows[row])
            text = b'\n'.join(rows)
        elif change == 5:
            other = rng.randrange(len(rows))
            rows[row], rows[other] = rows[other], rows[row]
            text = b'\n'.join(rows)
        elif change == 6:
            text = text[:at]
        else:
            # one field becomes a field of another line
            fields = rows[row].split(b'\t')
            fields[rng.randrange(len(fields))] = rng.choice(rng.choice(rows).split(b'\t'))
            rows[row] = b'\t'.join(fields)
            text = b'\n'.join(rows)
    return text


def faulty_document(rng):
    while True:
        text = mutated(rng, random_document(rng))
        try:
            load_document(text)
        except Refused:
            return text


# ---------------------------------------------------------------------------
# Stated documents
# ---------------------------------------------------------------------------

def stated_documents():
    """Small documents with known graphs."""
    head = ['act a', 'prop p', 'prog s a*', 'prog r a*;a*', 'prog e (a;a)*', 'form t true',
            'form f prop p']
    until = 'form u until t s f'
    return [
        PLAIN, lines(*head, until, 'goal u'),
        lines(*head, 'form n not f', 'form b and f n', 'goal b'),
        lines('act a', 'act b', 'form t true', 'form x next a t', 'form y next b t',
              'form z and x y', 'goal z'),
        lines(*head, until, 'form v until t r f', 'form n not v', 'form b and u n', 'goal b'),
        lines(*head, 'form v until t e f', 'goal v'),
        lines(*head, 'form v until t e f', 'form n not v', 'goal n'),
        lines('act a', 'form t true', 'goal t'),
        lines('act a', 'form t true', 'form n not t', 'goal n'),
        lines('act a', 'act b', 'form t true', 'goal t'),
        lines('act a', 'act b', 'prog s a', 'form t true', 'form n next b t', 'form u until n s t',
              'goal u'),
        # two forms of one proposition
        lines('act a', 'prop p', 'form f prop p', 'form g prop p', 'form n not g', 'form b and f n',
              'goal b'),
        # a step that reaches no state
        lines('act a', 'act b', 'prog s a;b', 'form t true', 'form n next b t',
              'form u until t s t', 'form x and n u', 'goal x'),
        lines(*[f'act n{i}' for i in range(16)], *[f'prop n{i}' for i in range(16)],
              'form f prop n15', 'form n next n15 f', 'goal n'),
    ]


def choice_of(name, count):
    """Lines of a form with so many expansions, and its name: an or of true forms."""
    rows = [f'form {name}{i} true' for i in range(count)]
    last = f'{name}0'
    for i in range(1, count):
        rows.append(f'form {name}o{i} or {name}{i} {last}')
        last = f'{name}o{i}'
    return rows, last


def product_of(counts):
    """Lines of a form whose number of expansions is the product of the counts, and its name."""
    rows, goal = [], None
    for name, count in zip('bcde', counts):
        more, last = choice_of(name, count)
        rows += more
        if goal is not None:
            rows.append(f'form {name}x and {goal} {last}')
            last = f'{name}x'
        goal = last
    return rows, goal


def many_first(acts, *counts):
    """A document with acts x (product of the counts) first nodes."""
    rows, goal = product_of(counts)
    return lines(*[f'act n{i}' for i in range(acts)], *rows, f'goal {goal}')


def always_choice(*counts):
    """One act, and always one of (product of the counts) alternatives: every node
    has so many successors, and there are five times so many nodes."""
    rows, last = product_of(counts)
    return lines('act a', 'prog x a*', *rows, 'form t true', f'form y not {last}',
                 'form u until t x y', 'form z not u', 'goal z')


def limit_documents():
    """Graphs at the greatest tables that count, with the tables to use."""
    result = []
    # 16 acts and 256 expansions of the goal: 4,096 first nodes, and no place for another
    full = many_first(16, 16, 16)
    result += [((4096, 65536), full), ((9000, 99999), full), ((4095, 65536), full)]
    # 260 expansions would be 4,160 first nodes
    result.append(((9000, 99999), many_first(16, 4, 5, 13)))
    # 252 expansions: 4,032 first nodes and 64 more, 16 edges each: 4,096 nodes and 65,536 edges
    exact = many_first(16, 7, 6, 6)
    result += [((4096, 65536), exact), ((70000, 70000), exact)]
    # 5 x 128 nodes of 128 edges each: full when 512 of them are opened
    edges = always_choice(8, 16)
    for tables in ((9000, 99999), (640, 65536), (640, 1279), (256, 65536), (255, 65536),
                   (128, 65536), (127, 65536)):
        result.append((tables, edges))
    return result
