"""What the program `verdict` prints for a document, without the lasso lines.

    python3 oracle/verdict.py < document

Where it prints full, the counts are those of the oracle's own order of entering
nodes; another order may stop with others.
"""

import sys

from dltl import NO_LIMIT, Refused, Study


def main():
    study = Study(512, 4096)
    try:
        study.load(sys.stdin.buffer.read())
    except Refused as fault:
        print(f'refused\t{fault.code}\t{fault.line}')
        return
    _units, report = study.grow(NO_LIMIT)
    if report == 'full':
        verdict = 'full'
    elif study.decide(NO_LIMIT, NO_LIMIT) is None:
        verdict = 'none'
    else:
        verdict = 'found'
    print(f'verdict\t{verdict}\t{len(study.nodes)}\t{study.edge_count()}')


if __name__ == '__main__':
    main()
