"""Cases of load: every refusal, with line and column, and both sides of each limit."""

from documents import lines, mutated, random_document, random_program

# Programs, put into a document that declares the actions a and b.
PROGRAMS = [
    # one to three bytes
    '', 'a', 'b', 'zz', '+', ';', '*', '(', ')', '()', 'a+', 'a;', 'a+b', 'a;b', 'a*', 'a**',
    '*a', '(a', 'a)', 'a b', ' a', 'a ', 'aB', 'A', 'Ab', '1a', '_a', 'a_', 'a?', 'a*b',
    # signs out of place
    'a***;b**', 'a++b', 'a;;b', 'a+;b', 'a;+b', 'a+*b', '(*a)', '(+a)', '(a+)', '(a;)', '(a))',
    '((a)', '(a)(b)', 'a(b)', '(a)b', '(a)*b', 'a*(b)', 'a; b',
    # bytes that no program has
    'a_1', '(a_1)', 'a-b', 'a.b', 'a|b', 'a\r', '\x00', 'a\x00', '\xe9', 'a\xe9', '\x7f',
    # names of 16 and more characters
    'a' * 16, 'a' * 17, 'a' * 18, '1' * 17, 'a+' + 'b' * 16, 'a+' + 'b' * 17,
    '(a;(' + 'b' * 17 + '))', 'a' * 16 + '*', 'a' * 17 + '+', 'a' * 16 + '!', 'a' * 17 + '!',
    # parentheses 8 and 9 deep
    '((((((((a))))))))', '(((((((((a)))))))))', '((((((((', '(((((((((', '((((((((a',
    '((((((((a))))))))+((((((((b))))))))', '((((((((a)))))))+((b))))', '(((((((a+(b))))))))',
    '((((((((a+(b)))))))))', '((((((((a)))))))',
    # well formed
    '(a+b)*;a', '((a+b)*;(a;b)*)*', '(a+b)**;(((a)))', 'a;b+b;a',
    # names that are not declared, and 15, 16 and many names
    'a+zz', 'zz;zz', 'a;' * 14 + 'a', 'a;' * 15 + 'a', 'a;' * 15 + 'zz', 'zz;' * 15 + 'zz',
    'a+' * 15, 'a+' * 300 + 'b', 'a+' * 300, '(a*;b)*' + '*' * 3000, 'a' + '*' * 100 + 'b',
]

# A document with every kind of line; each {place} is a name.
SHAPE = ['act {a}', 'prop {p}', 'prog {x} {in_x}', 'form {t} true', 'form {f} prop {in_f}',
         'form {u} until {u1} {u2} {u3}', 'form {n} next {n1} {n2}', 'form {o} not {o1}',
         'form {c} and {c1} {c2}', 'form {d} or {d1} {d2}', 'goal {g}']
PLACES = dict(a='a', p='p', x='x', in_x='a;a', t='t', f='f', in_f='p', u='u', u1='t', u2='x',
              u3='f', n='n', n1='a', n2='u', o='o', o1='n', c='c', c1='o', c2='u', d='d', d1='c',
              d2='f', g='d')


def shaped(**changes):
    """The document of SHAPE with some places changed; bytes are given as Latin-1 characters."""
    rows = [row.replace(' ', '\t').format(**{**PLACES, **changes}) for row in SHAPE]
    return ('\n'.join(rows) + '\n').encode('latin-1')


def load_cases(cases, rng):
    program_cases(cases, rng)
    limit_cases(cases)
    end_cases(cases)
    name_cases(cases, rng)
    line_cases(cases)
    order_cases(cases)
    for _ in range(110):
        cases.load(mutated(rng, random_document(rng)))
    for _ in range(15):
        cases.load(random_document(rng))


def program_cases(cases, rng):
    def load(program):
        cases.load(b'act\ta\nact\tb\nprog\tx\t' + program.encode('latin-1')
                   + b'\nform\tt\ttrue\ngoal\tt\n')

    for program in PROGRAMS:
        load(program)
    for _ in range(60):
        load(''.join(rng.choice('aabb(()))+;*') for _ in range(rng.randint(1, 12))))
    for _ in range(25):
        # a well-formed program with one byte changed, put in or left out
        program = random_program(rng, ['a', 'b'], rng.randint(2, 6))
        at = rng.randrange(len(program))
        put_in = rng.choice(['', 'a', 'B', '(', ')', '*', ';', '+', ' '])
        load(program[:at] + put_in + program[at + rng.randint(0, 1):])


# 2 + 3 x 84 = 254, with programs of 1, 2 and 13 names
HEAVY = ['act a', 'prog o a', 'prog oo a;a', 'prog l ' + ';'.join(['a'] * 13), 'form t true',
         'form u until t l t', 'form v until t l t', 'form w until t l t']


def limit_cases(cases):
    """Numbers of acts, props, progs and forms, weights and lengths, up to and above limits."""
    for count in (15, 16, 17, 18):
        cases.load(lines(*[f'act n{i}' for i in range(count)], 'form t true', 'goal t'))
        cases.load(lines('act a', *[f'prop n{i}' for i in range(count)], 'form t true', 'goal t'))
        cases.load(lines('act a', *[f'prog n{i} a' for i in range(count)], 'form t true', 'goal t'))
    for count in (63, 64, 65):
        cases.load(lines('act a', *[f'form n{i} true' for i in range(count)], 'goal n0'))
    for tail in (['form n not t'], ['form n not t', 'form m not t'], ['form n until t o t'],
                 ['form n true', 'form m until t o t'], []):
        cases.load(lines(*HEAVY, *tail, 'goal u'))
    cases.load(lines(*HEAVY[:-1], 'form n until t oo t', 'form m until t l t', 'goal u'))
    for count in (14, 15):      # untils of weight 12 beside 43 or 44 others: 256 and 268
        cases.load(lines('act a', 'prog o a', 'form t true',
                         *[f'form n{i} until t o t' for i in range(count)],
                         *[f'form m{i} true' for i in range(43)], 'goal t'))
    fifteen = 'prog l ' + '+'.join(['a'] * 15)
    for untils in (2, 3):       # of weight 96
        cases.load(lines('act a', fifteen, 'form t true',
                         *[f'form n{i} until t l t' for i in range(untils)], 'goal n1'))

    def filled(length, tail=b'form\tt\ttrue\ngoal\tt\n'):
        """A text of this length, filled up with stars."""
        head = b'act\ta\nprog\tx\ta'
        return head + b'*' * (length - len(head) - 1 - len(tail)) + b'\n' + tail

    for length in (16383, 16384, 16385):
        cases.load(filled(length))
    cases.load(b'nonsense\n' + filled(16384))               # too long, and line 1 is faulty
    cases.load(filled(16384, b'form\tt\ttrue\ngoal\tt'))    # no final line feed
    cases.load(filled(16384, b'form\tt\ttrue\ngoal\tu\n'))


def end_cases(cases):
    """Ends of texts and of lines, bytes of all sorts, and the goal's place."""
    for text in (b'', b'\n', b'\n\n', b'\t', b'\t\n', b'act', b'act\n', b'act\ta', b'act\ta\n',
                 b'act\t\n', b'goal\t\n', b'act\ta\n\n', b'\nact\ta\n', b'act\ta\n\ngoal\tt\n',
                 b'act\ta\r\n', b'act\ta\t\n', b' act\ta\n', b'act a\n', b'act\t a\n', b'\xff\n',
                 b'act\t\xff\n', b'act\ta\x00\n', b'act\ta\nACT\tb\n', b'acts\ta\n', b'ac\ta\n',
                 b'act\ta\nform\tt\tTrue\n', b'act\ta\nform\tt\ttrue\n', b'act\ta\nform\tt\ttrue'):
        cases.load(text)
    upto_goal = b'act\ta\nform\tt\ttrue\ngoal\tt'
    for rest in (b'', b'\n', b'\t\n', b'\tt\n', b'\n\n', b'\nx', b'\nact\tb\n', b'\ngoal\tt\n',
                 b'\nact\tB\n', b'\nact\ta', b'\nprog\tx\t(\n', b'\nact\tb\nbad\n', b'\n\t'):
        cases.load(upto_goal + rest)
    # a goal before any act, alone and with other faults
    for rows in (['goal t'], ['goal u'], ['goal T'], ['goal t t'], ['goal'], ['goal t', 'act a']):
        cases.load(lines('form t true', *rows))
    for rows in (['goal t'], ['goal'], ['goal t', 'bad'], ['act t', 'goal t'],
                 ['prop p', 'form t prop p', 'goal t']):
        cases.load(lines(*rows))
    cases.load(b'form\tt\ttrue\ngoal\tt')


def name_cases(cases, rng):
    """Names too long, malformed, not declared and repeated, in each place."""
    cases.load(shaped())
    for group in (('a', 'in_x', 'n1'), ('p', 'in_f'), ('x', 'u2'), ('t', 'u1'), ('f', 'u3', 'd2')):
        for name in ('m' * 16, 'm' * 17, 'm_0123456789_abc'):
            cases.load(shaped(**{place: name for place in group}))
    for place in PLACES:
        cases.load(shaped(**{place: 'zz'}))
        if place != 'in_x':
            bad = rng.choice(['', 'A', '1', '_x', 'x-', 'm' * 17, 'x.', '\xe9', 'x ', 'x\x00'])
            cases.load(shaped(**{place: bad}))
    for place, other in (('f', 't'), ('u', 'f'), ('n', 't'), ('c', 'o'), ('d', 'u')):
        cases.load(shaped(**{place: PLACES[other]}))        # repeated
    # one name in four kinds, and words of the format as names
    cases.load(shaped(**{place: 'a' for place in
                         ('a', 'in_x', 'n1', 'p', 'in_f', 'x', 'u2', 't', 'u1')}))
    cases.load(lines('act act', 'prop prop', 'prog prog act', 'form true true',
                     'form until until true prog true', 'goal until'))


def line_cases(cases):
    head = ['act a', 'prop p', 'prog x a', 'form t true']
    for row in head:        # repeated
        cases.load(lines(*head, row, 'goal t'))
    # an operand of another kind, of a later line, or the form itself
    for row in ('form u until t a t', 'form u until x x t', 'form u until t x p', 'form u next x t',
                'form u next p t', 'form u prop a', 'form u prop t', 'form u not p', 'form u not u',
                'form u and t u', 'form u not v', 'prog y x', 'prog y a;y', 'prog y p'):
        cases.load(lines(*head, row, 'form v true', 'goal t'))
    # unknown kinds and field counts
    for row in ('form', 'form u', 'form u true t', 'form u prop', 'form u prop p p', 'form u not',
                'form u not t t', 'form u and t', 'form u and t t t', 'form u or t',
                'form u or t t t', 'form u next a', 'form u next a t t', 'form u next t',
                'form u until', 'form u until t x', 'form u until t x t t', 'form u maybe t',
                'form  true', 'form u  t', 'form u weak', 'form U maybe', 'form u xor t t', 'prog',
                'prog y', 'prog y a a', 'prop', 'prop q q', 'act', 'act b b', 'goal', 'goal t t',
                'make x'):
        cases.load(lines(*head, row, 'goal t'))


def order_cases(cases):
    """Two faults in one line, or in two: the order decides."""
    acts = [f'act n{i}' for i in range(16)]
    props = [f'prop n{i}' for i in range(16)]
    progs = ['act a'] + [f'prog n{i} a' for i in range(16)]
    forms = ['act a'] + [f'form n{i} true' for i in range(64)]
    sixteen = 'a;' * 15 + 'a'
    # malformed name, malformed program, name not declared or repeated, too many
    for row in ('prog X (', 'prog x ' + 'zz;' * 15 + 'a', 'prog x ' + sixteen,
                'prog x ' + sixteen + ';'):
        cases.load(lines('act a', row))
    for row in ('prog x (a', 'prog x a;zz)', 'prog x ' + sixteen):
        cases.load(lines('act a', 'prog x a', row))
    for row in ('prog n16 a+', 'prog n16 zz', 'prog n3 a', 'prog n16 ' + sixteen, 'prog N a'):
        cases.load(lines(*progs, row))
    for row in ('act n5', 'act N', 'act m m'):
        cases.load(lines(*acts, row))
    for row in ('prop n15', 'prop m', 'prop M'):
        cases.load(lines(*props, row))
    for row in ('form n64 not zz', 'form n0 true', 'form m not', 'form m maybe', 'goal zz'):
        cases.load(lines(*forms, row))
    for rows in (['form u until t l t', 'goal u'], ['form n until t l zz', 'goal u'],
                 ['form n until t l'], ['form n until t l t', 'bad']):
        cases.load(lines(*HEAVY, *rows))
    for rows in (['act a', 'bad'], ['bad', 'act a'], ['prog x (', 'bad'], ['form F maybe'],
                 ['form f maybe X'], ['form f not X Y'], ['form f not zz', 'bad'],
                 ['form t true', 'form t not zz']):
        cases.load(lines('act a', *rows))
    for rest in (b'prog\tx\t(', b'act\ta', b'prog\tx\ta\tb(\n', b'prog\tX\t\n', b'prog\tx\t\n',
                 b'prog\t\ta\n', b'prog\t\t\n'):
        cases.load(b'act\ta\n' + rest)
