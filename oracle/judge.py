"""Judges a lasso text.

    python3 oracle/judge.py DOCUMENT-FILE < lasso-text

prints yes, no or `refused CODE LINE`. A refused document is told on standard
error; the answer is then the refusal of a blank study, `refused 7 0`.
"""

import sys

from dltl import NO_LIMIT, Refused, Study


def main():
    if len(sys.argv) != 2:
        sys.exit(__doc__)
    study = Study(0, 0)
    with open(sys.argv[1], 'rb') as file:
        text = file.read()
    try:
        study.load(text)
    except Refused as fault:
        study.wipe()
        print(f'the document is refused: code {fault.code}, line {fault.line}, '
              f'column {fault.column}', file=sys.stderr)
    try:
        lasso = study.scan(sys.stdin.buffer.read(), NO_LIMIT)
        print('yes' if study.judge(lasso, NO_LIMIT) else 'no')
    except Refused as fault:
        print(f'refused {fault.code} {fault.line}')


if __name__ == '__main__':
    main()
