"""Writes the list of sheets that test the reader, crates/sheetcases/stdin, and the answers due, stdout beside it.

stdin has one case to a line. In a line `/` stands for LF, `%` and two small
hexadecimal digits for a byte, and `<N>x` for the byte x N times. A line that
begins `!v`, `!m`, `!s` or `!c` has that result list one entry short.

stdout has one line to a case: for a good sheet the numbers of cells, share,
rows, moves, steps and choices; for a slip `N`, number, line and word.

The answers are those of sheet_reader.py. Where a case below has an answer
beside it, that was worked out by hand from docs/SHEET.md, and the reader has to
give the same.
"""

import os
import re
import sys

sys.dont_write_bytecode = True

import sheet_reader

FOLDER = os.path.join(os.path.dirname(os.path.abspath(__file__)), '..', 'crates', 'sheetcases')

# The worked sheet of docs/SHEET.md.
WORKED = [
    b'S 8 300', b'O 3', b'0 31', b'1 32', b'7 0', b'M 5',
    b'11 2', b'T 0 31', b'P 4 31',
    b'12 2', b'T 1 32', b'P 5 32',
    b'13 3', b'L 7 0', b'T 4 31', b'P 6 31',
    b'14 2', b'T 5 32', b'P 0 32',
    b'15 1', b'L 7 0',
    b'C 2', b'0', b'1',
]
# A sheet of each kind with every sort of line once, and the answer to both.
STANDS = [b'S 2 5', b'O 1', b'0 7', b'M 1', b'9 1', b'T 0 7', b'C 1', b'0']
FEEDERS = [b'F 2 5', b'O 1', b'0 7 8', b'M 1', b'9 1', b'A 0 7', b'C 1', b'0']
GOOD = '2 5 1 1 1 1'

cases = []   # each: the sheet, the short list, the answer by hand or None


def case(sheet, answer=None, short=''):
    """One more case; `sheet` is bytes, or lines that each get an LF."""
    if isinstance(sheet, list):
        sheet = b''.join(line + b'\n' for line in sheet)
    cases.append((sheet, short, answer))


def change(lines, number, text):
    """The lines with the one of this number, from 1, changed."""
    return lines[:number - 1] + [text] + lines[number:]


def changes(lines, *rows):
    """Cases of the lines with one change each: line, text, answer."""
    for number, text, answer in rows:
        case(change(lines, number, text), answer)


def whole_inputs():
    for sheet, answer in [
        (b'', 'N 9 1 0'),
        (b'\n', 'N 3 1 0'),
        (b'\r\n', 'N 3 1 0'),
        (b' ', 'N 9 1 0'),
        (b' \n', 'N 3 1 0'),
        (b'F', 'N 9 1 0'),
        (b'F\n', 'N 3 1 0'),
        (b'S 8 300', 'N 9 1 0'),
        (b'S 8 300\n', 'N 9 2 0'),
        (b'F 8 300', 'N 9 1 0'),
        (b'F 8 300\n', 'N 9 2 0'),
        (b'/%<!', 'N 9 1 0'),
        (b'! % <\n', 'N 5 1 1'),
        # Other first bytes are read as stands.
        (b'X 8\n', 'N 3 1 0'),
        (b'X 8 300', 'N 9 1 0'),
        (b'X 8 300\n', 'N 5 1 1'),
        (b'E 8 300\n', 'N 5 1 1'),
        (b'G 8 300\n', 'N 5 1 1'),
        (b'R 8 300\n', 'N 5 1 1'),
        (b'T 8 300\n', 'N 5 1 1'),
        (b's 8 300\n', 'N 5 1 1'),
        (b'f 8 300\n', 'N 5 1 1'),
        (b'0 8 300\n', 'N 5 1 1'),
        (b'\x00 8 300\n', 'N 5 1 1'),
        (b'\xff 8 300\n', 'N 5 1 1'),
        (b'\xef\xbb\xbfS 8 300\n', 'N 5 1 1'),
        (b'SS 8 300\n', 'N 5 1 1'),
        (b'FS 8 300\n', 'N 5 1 1'),
        (b'S\t 8 300\n', 'N 5 1 1'),
        (b' F 8 300\n', 'N 3 1 0'),
        (b'S,8,300\n', 'N 3 1 0'),
        (b'S 8 300 O 1\n', 'N 3 1 0'),
    ]:
        case(sheet, answer)


def worked_sheet():
    case(WORKED, '8 300 3 5 10 2')
    text = b'\n'.join(WORKED)
    case(text, 'N 9 24 0')
    case(text + b'\n\n', 'N 9 25 0')
    case(text.replace(b'\n', b'\r\n') + b'\r\n', 'N 1 1 3')
    changes(
        WORKED,
        (1, b's 8 300', 'N 5 1 1'),
        (1, b'X 8 300', 'N 5 1 1'),
        (1, b'X 8', 'N 3 1 0'),
        (1, b'F 8 300', 'N 3 3 0'),
        (1, b'S 0 300', 'N 4 1 2'),
        (1, b'S 8 1001', 'N 4 1 3'),
        (2, b'O 0', 'N 6 2 2'),
        (2, b'O 1025', 'N 4 2 2'),
        (2, b'O 2', 'N 5 5 1'),
        (2, b'O 4', 'N 1 6 1'),
        (2, b'O\r 3', 'N 5 2 1'),
        (3, b'0 08', 'N 1 3 2'),
        (3, b'0 10000', 'N 4 3 2'),
        (3, b'0 65536', 'N 2 3 2'),
        (3, b'8 31', 'N 4 3 1'),
        (4, b'0 32', 'N 7 4 0'),
        (4, b'0 08', 'N 1 4 2'),
        (4, b'7 32', 'N 7 5 0'),
        (7, b'0 2', 'N 4 7 1'),
        (7, b'11 9', 'N 4 7 2'),
        (7, b'11 1', 'N 3 9 0'),
        (7, b'11 3', 'N 3 10 0'),
        (8, b'A 0 31', 'N 5 8 1'),
        (8, b'T A 31', 'N 1 8 2'),
        (8, b'T 0 0', 'N 4 8 3'),
        (8, b'T  0 31', 'N 3 8 0'),
        (8, b'T 0 31 ', 'N 3 8 0'),
        (8, b'T\t0 31', 'N 3 8 0'),
        (8, b'T 0\t 31', 'N 1 8 2'),
        (8, b'T 0 31\r', 'N 1 8 3'),
        (22, b'C 65', 'N 4 22 2'),
        (22, b'C 64', 'N 9 25 0'),
        (22, b'C 3', 'N 9 25 0'),
        (22, b'C 1', 'N 9 24 0'),
        (23, b'4', '8 300 3 5 10 2'),
        (23, b'5', 'N 4 23 1'),
        (24, b'0', '8 300 3 5 10 2'),
    )


def cuts_and_leftovers():
    case(STANDS, GOOD)
    case(FEEDERS, GOOD)
    for count in range(1, 9):
        case(b'\n'.join(STANDS[:count]), f'N 9 {count} 0')
    for count in range(2, 8):
        case(STANDS[:count], f'N 9 {count + 1} 0')
    for count in (3, 6, 8):
        case(b'\n'.join(FEEDERS[:count]), f'N 9 {count} 0')
    # The same without moves and choices, where the last line is the choices line.
    case(b'S 1 1\nO 1\n0 0\nM 0', 'N 9 4 0')
    case(b'S 1 1\nO 1\n0 0\nM 0\n', 'N 9 5 0')
    case(b'S 1 1\nO 1\n0 0\nM 0\nC 0', 'N 9 5 0')
    # Nothing else of a line without LF is checked.
    case(b'S 2 5\nO', 'N 9 2 0')
    case(b'S 2 5\n  x', 'N 9 2 0')
    case(b'S 2 5\nO 0', 'N 9 2 0')
    case(b'S 2 5\nO 2\n1 7\n0 7', 'N 9 4 0')
    # A slip in a line comes before a lack in a later one.
    case(b'S 0 5\n', 'N 4 1 2')
    case(b'S 0 5\nO', 'N 4 1 2')
    # Bytes that follow.
    for rest in [b'\n', b' ', b'0', b'0\n', b'\x00', b'\r\n', b'C 0\n', b'x y z']:
        case(b'\n'.join(STANDS) + b'\n' + rest, 'N 9 9 0')
    case(b'S 1 1\nO 1\n0 0\nM 0\nC 0\n\n', 'N 9 6 0')
    case(STANDS + STANDS, 'N 9 9 0')


def shapes_of_lines():
    """Spaces, empty lines and words too many or too few, in each sort of line."""
    for lines, number in [(STANDS, number) for number in range(1, 9)] + [(FEEDERS, 3)]:
        text = lines[number - 1]
        words = text.split(b' ')
        refused = f'N 3 {number} 0'
        for shape in [b' ' + text, text + b' ', b'', text + b' 1', b' '.join(words[:-1])]:
            case(change(lines, number, shape), refused)
        if len(words) > 1:
            case(change(lines, number, b' '.join(words[:-1]) + b'  ' + words[-1]), refused)
        # A CR belongs to the last word, and that is a number in every line.
        case(change(lines, number, text + b'\r'), f'N 1 {number} {len(words)}')
    # Two spaces after the first word of three.
    for number in (1, 6):
        case(change(STANDS, number, STANDS[number - 1].replace(b' ', b'  ', 1)), f'N 3 {number} 0')
    # A tab parts no words.
    for number in (1, 2, 3):
        case(change(STANDS, number, STANDS[number - 1].replace(b' ', b'\t')), f'N 3 {number} 0')
    # Empty lines between lines.
    for number in (2, 3, 5, 8):
        case(STANDS[:number - 1] + [b''] + STANDS[number - 1:], f'N 3 {number} 0')


def ranges():
    """Both edges of every range, inside and outside, and of size."""
    changes(
        STANDS,
        (1, b'S 0 5', 'N 4 1 2'),
        (1, b'S 1 5', '1 5 1 1 1 1'),
        (1, b'S 1024 5', '1024 5 1 1 1 1'),
        (1, b'S 1025 5', 'N 4 1 2'),
        (1, b'S 65535 5', 'N 4 1 2'),
        (1, b'S 65536 5', 'N 2 1 2'),
        (1, b'S 2 0', 'N 4 1 3'),
        (1, b'S 2 1', '2 1 1 1 1 1'),
        (1, b'S 2 1000', '2 1000 1 1 1 1'),
        (1, b'S 2 1001', 'N 4 1 3'),
        (1, b'S 2 65535', 'N 4 1 3'),
        (1, b'S 2 65536', 'N 2 1 3'),
        (2, b'O 0', 'N 6 2 2'),
        (2, b'O 2', 'N 1 4 1'),
        (2, b'O 1024', 'N 1 4 1'),
        (2, b'O 1025', 'N 4 2 2'),
        (2, b'O 65535', 'N 4 2 2'),
        (2, b'O 65536', 'N 2 2 2'),
        (3, b'1 7', GOOD),
        (3, b'2 7', 'N 4 3 1'),
        (3, b'65535 7', 'N 4 3 1'),
        (3, b'65536 7', 'N 2 3 1'),
        (3, b'0 0', GOOD),
        (3, b'0 9999', GOOD),
        (3, b'0 10000', 'N 4 3 2'),
        (3, b'0 65535', 'N 4 3 2'),
        (3, b'0 65536', 'N 2 3 2'),
        (4, b'M 0', 'N 5 5 1'),
        (4, b'M 256', 'N 1 7 1'),
        (4, b'M 257', 'N 4 4 2'),
        (4, b'M 65535', 'N 4 4 2'),
        (4, b'M 65536', 'N 2 4 2'),
        (5, b'0 1', 'N 4 5 1'),
        (5, b'1 1', GOOD),
        (5, b'65535 1', GOOD),
        (5, b'65536 1', 'N 2 5 1'),
        (5, b'9 0', 'N 4 5 2'),
        (5, b'9 8', 'N 3 7 0'),
        (5, b'9 9', 'N 4 5 2'),
        (5, b'9 65535', 'N 4 5 2'),
        (5, b'9 65536', 'N 2 5 2'),
        (6, b'T 1 7', GOOD),
        (6, b'T 2 7', 'N 4 6 2'),
        (6, b'T 65535 7', 'N 4 6 2'),
        (6, b'T 65536 7', 'N 2 6 2'),
        (6, b'T 0 0', 'N 4 6 3'),
        (6, b'T 0 1', GOOD),
        (6, b'T 0 9999', GOOD),
        (6, b'T 0 10000', 'N 4 6 3'),
        (6, b'T 0 65535', 'N 4 6 3'),
        (6, b'T 0 65536', 'N 2 6 3'),
        (6, b'P 0 0', 'N 4 6 3'),
        (6, b'P 0 1', GOOD),
        (6, b'P 0 9999', GOOD),
        (6, b'P 0 10000', 'N 4 6 3'),
        (6, b'L 0 0', GOOD),
        (6, b'L 0 9999', GOOD),
        (6, b'L 0 10000', 'N 4 6 3'),
        (7, b'C 0', 'N 9 8 0'),
        (7, b'C 64', 'N 9 9 0'),
        (7, b'C 65', 'N 4 7 2'),
        (7, b'C 65535', 'N 4 7 2'),
        (7, b'C 65536', 'N 2 7 2'),
        (8, b'1', 'N 4 8 1'),
        (8, b'65535', 'N 4 8 1'),
        (8, b'65536', 'N 2 8 1'),
    )
    changes(
        FEEDERS,
        (1, b'F 0 5', 'N 4 1 2'),
        (1, b'F 1024 5', '1024 5 1 1 1 1'),
        (1, b'F 1025 5', 'N 4 1 2'),
        (1, b'F 2 0', 'N 4 1 3'),
        (1, b'F 2 1000', '2 1000 1 1 1 1'),
        (1, b'F 2 1001', 'N 4 1 3'),
        (2, b'O 0', 'N 6 2 2'),
        (2, b'O 1024', 'N 3 4 0'),
        (2, b'O 1025', 'N 4 2 2'),
        (3, b'1 7 8', GOOD),
        (3, b'2 7 8', 'N 4 3 1'),
        (3, b'0 0 0', GOOD),
        (3, b'0 4000 0', GOOD),
        (3, b'0 4001 0', 'N 4 3 2'),
        (3, b'0 65535 0', 'N 4 3 2'),
        (3, b'0 65536 0', 'N 2 3 2'),
        (3, b'0 0 4000', GOOD),
        (3, b'0 0 4001', 'N 4 3 3'),
        (3, b'0 0 65535', 'N 4 3 3'),
        (3, b'0 0 65536', 'N 2 3 3'),
        (3, b'0 4000 4000', GOOD),
        (6, b'A 1 7', GOOD),
        (6, b'A 2 7', 'N 4 6 2'),
        (6, b'A 0 0', 'N 4 6 3'),
        (6, b'A 0 1', GOOD),
        (6, b'A 0 4000', GOOD),
        (6, b'A 0 4001', 'N 4 6 3'),
        (6, b'A 0 65535', 'N 4 6 3'),
        (6, b'A 0 65536', 'N 2 6 3'),
        (6, b'S 0 0', 'N 4 6 3'),
        (6, b'S 0 1', GOOD),
        (6, b'S 0 4000', GOOD),
        (6, b'S 0 4001', 'N 4 6 3'),
        (6, b'H 0 0', GOOD),
        (6, b'H 0 4000', GOOD),
        (6, b'H 0 4001', 'N 4 6 3'),
        (8, b'1', 'N 4 8 1'),
    )
    # The highest cell of the largest board.
    case(b'S 1024 5\nO 1\n1023 9999\nM 1\n9 1\nL 1023 0\nC 0\n', '1024 5 1 1 1 0')
    case(b'S 1024 5\nO 1\n1024 7\nM 0\nC 0\n', 'N 4 3 1')
    case(b'S 1024 5\nO 1\n0 7\nM 1\n9 1\nT 1024 7\nC 0\n', 'N 4 6 2')
    case(b'F 1024 5\nO 1\n1023 0 0\nM 1\n9 1\nH 1024 0\nC 0\n', 'N 4 6 2')
    # The only cell of the smallest.
    case(b'S 1 5\nO 1\n1 7\nM 0\nC 0\n', 'N 4 3 1')
    case(b'S 1 5\nO 1\n0 7\nM 1\n9 1\nT 1 7\nC 0\n', 'N 4 6 2')


def forms():
    """Words that are no number where one is due, and no letter where one is due."""
    # The places of all numbers: lines, line, word.
    places = []
    for number, text in enumerate(STANDS, 1):
        places += [(STANDS, number, word) for word, due in enumerate(text.split(b' '), 1) if due.isdigit()]
    places += [(FEEDERS, 3, 2), (FEEDERS, 3, 3), (FEEDERS, 6, 3)]

    def put(lines, number, word, text, refusal):
        words = lines[number - 1].split(b' ')
        words[word - 1] = text
        case(change(lines, number, b' '.join(words)), f'N {refusal} {number} {word}')

    bad = [(b'01', 1), (b'9' * 40, 2), (b'+5', 1), (b'-1', 1)]
    for count, (lines, number, word) in enumerate(places):
        put(lines, number, word, b'A', 1)
        put(lines, number, word, *bad[count % 4])
    for text in [b'00', b'0' * 40, b'05', b'-0', b'+5', b'-1', b'3.5', b'1_0', b'0x1', b'1e2', b'5S', b's', b'5\t', b'\x005',
                 b'\xb2', b'\xd9\xa1', b'065536', b'9' * 40 + b'x']:
        put(STANDS, 1, 3, text, 1)
    for text in [b'99999', b'65537', b'131073', b'4294967297', b'18446744073709551617', b'1' + b'0' * 40, b'9' * 40, b'9' * 5000]:
        put(STANDS, 1, 3, text, 2)
    for text in [b'5', b'o', b'N', b'P', b'M', b'S', b'OO', b'O\t']:
        put(STANDS, 2, 1, text, 5)
    for text in [b'5', b'm', b'L', b'N', b'O']:
        put(STANDS, 4, 1, text, 5)
    for text in [b'5', b'c', b'B', b'D', b'M']:
        put(STANDS, 7, 1, text, 5)
    # Orders of the other kind, neighbours of the kind's letters, and no letters.
    for text in [b'A', b'S', b'H', b'K', b'M', b'O', b'Q', b'U', b't', b'5', b'TP', b'T\r']:
        put(STANDS, 6, 1, text, 5)
    for text in [b'T', b'P', b'L', b'B', b'G', b'I', b'R', b'a', b'5', b'AS', b'@']:
        put(FEEDERS, 6, 1, text, 5)


def kinds():
    """Sheets with a part of the other kind."""
    changes(
        STANDS,
        (1, b'F 2 5', 'N 3 3 0'),
        (3, b'0 7 8', 'N 3 3 0'),
    )
    changes(
        FEEDERS,
        (1, b'S 2 5', 'N 3 3 0'),
        (1, b'f 2 5', 'N 5 1 1'),
        (1, b'X 2 5', 'N 5 1 1'),
        (3, b'0 7', 'N 3 3 0'),
    )
    case(b'S 2 5\nO 2\n0 7\n1 7 8\n', 'N 3 4 0')
    case(b'F 2 5\nO 2\n0 7 8\n1 7\n', 'N 3 4 0')
    case(b'F 2 5\nO 1\n0 7 8\nM 1\n9 3\nA 0 7\nS 0 7\nH 0 7\nC 0\n', '2 5 1 1 3 0')
    case(b'F 2 5\nO 1\n0 7 8\nM 1\n9 2\nA 0 7\nT 0 7\nC 0\n', 'N 5 7 1')
    case(b'S 2 5\nO 1\n0 7\nM 1\n9 3\nT 0 7\nP 0 7\nL 0 7\nC 0\n', '2 5 1 1 3 0')
    case(b'S 2 5\nO 1\n0 7\nM 1\n9 2\nT 0 7\nS 0 7\nC 0\n', 'N 5 7 1')


def order_of_checks():
    """Two slips or more, of which the first in the order of checks is told."""
    changes(
        STANDS,
        # 3 before 5, 1, 2, 4, 6.
        (1, b's 08 0 1', 'N 3 1 0'),
        (1, b'S 65536', 'N 3 1 0'),
        (2, b'O 0 ', 'N 3 2 0'),
        (3, b'08', 'N 3 3 0'),
        (5, b'0 9 1', 'N 3 5 0'),
        (8, b'01 1', 'N 3 8 0'),
        # A word before the next.
        (1, b's 08 0', 'N 5 1 1'),
        (1, b'S 08 65536', 'N 1 1 2'),
        (1, b'S 65536 08', 'N 2 1 2'),
        (1, b'S 0 08', 'N 4 1 2'),
        (1, b'S 1025 0', 'N 4 1 2'),
        (2, b'o 0', 'N 5 2 1'),
        (2, b'M 65536', 'N 5 2 1'),
        (3, b'2 08', 'N 4 3 1'),
        (3, b'65536 x', 'N 2 3 1'),
        (3, b'x 65536', 'N 1 3 1'),
        (4, b'C 257', 'N 5 4 1'),
        (5, b'0 9', 'N 4 5 1'),
        (5, b'65536 08', 'N 2 5 1'),
        (5, b'A 65536', 'N 1 5 1'),
        (6, b'A 2 0', 'N 5 6 1'),
        (6, b'T 2 0', 'N 4 6 2'),
        (6, b'T 2 08', 'N 4 6 2'),
        (6, b'T 65536 08', 'N 2 6 2'),
        (6, b'T 08 65536', 'N 1 6 2'),
        (6, b'0 0 0', 'N 5 6 1'),
        # Form before size, size before range.
        (1, b'S 065536 5', 'N 1 1 2'),
        (2, b'O 00', 'N 1 2 2'),
        (8, b'065536', 'N 1 8 1'),
    )
    changes(
        FEEDERS,
        (3, b'2 4001 x', 'N 4 3 1'),
        (3, b'0 4001 x', 'N 4 3 2'),
        (3, b'0 x 4001', 'N 1 3 2'),
        (3, b'0 0 065536', 'N 1 3 3'),
    )
    # A slip in a line before one in the next.
    case([b'S 2 1001', b'O 0'], 'N 4 1 3')
    case([b'S 2 5', b'O 0', b''], 'N 6 2 2')


def rising_rows():
    for rows, answer in [
        ([b'0 1', b'0 1'], 'N 7 4 0'),
        ([b'1 1', b'0 1'], 'N 7 4 0'),
        ([b'7 1', b'7 2'], 'N 7 4 0'),
        ([b'0 1', b'7 2', b'1 3'], 'N 7 5 0'),
        ([b'0 1', b'5 2', b'5 3', b'6 4'], 'N 7 5 0'),
        ([b'0 1', b'7 2', b'7 3', b'7 4'], 'N 7 5 0'),
        ([b'3 1', b'2 2', b'x 3'], 'N 7 4 0'),
        # The words of a row come before its place.
        ([b'1 1', b'0 10000'], 'N 4 4 2'),
        ([b'1 1', b'0 65536'], 'N 2 4 2'),
        ([b'1 1', b'0 x'], 'N 1 4 2'),
        ([b'1 1', b'0 1 1'], 'N 3 4 0'),
        ([b'1 1', b'8 1'], 'N 4 4 1'),
    ]:
        case([b'S 8 5', b'O %d' % len(rows)] + rows, answer)
    case(b'F 8 5\nO 2\n3 1 1\n3 1 1\n', 'N 7 4 0')
    case(b'F 8 5\nO 2\n3 1 1\n2 1 1\n', 'N 7 4 0')
    case(b'F 8 5\nO 2\n3 1 1\n2 1 4001\n', 'N 4 4 3')
    # More rows than cells.
    case(b'S 2 5\nO 3\n0 1\n1 2\n2 3\nM 0\nC 0\n', 'N 4 5 1')
    case(b'S 2 5\nO 3\n0 1\n1 2\n1 3\nM 0\nC 0\n', 'N 7 5 0')
    case(b'S 1 5\nO 1024\n0 1\n0 1\n', 'N 7 4 0')
    # As many rows as cells.
    case(b'S 2 5\nO 2\n0 1\n1 1\nM 0\nC 0\n', '2 5 2 0 0 0')
    case(b'F 3 5\nO 3\n0 0 0\n1 4000 0\n2 0 4000\nM 0\nC 0\n', '3 5 3 0 0 0')


def no_moves():
    for head in (b'S 1 1\nO 1\n0 0\nM 0\n', b'F 1 1\nO 1\n0 0 0\nM 0\n'):
        case(head + b'C 0\n', '1 1 1 0 0 0')
        case(head + b'C 1\n0\n', 'N 4 6 1')
    head = b'S 1 1\nO 1\n0 0\nM 0\n'
    case(head + b'C 1\n', 'N 9 6 0')
    case(head + b'C 1\n0', 'N 9 6 0')
    case(head + b'C 1\n\n', 'N 3 6 0')
    case(head + b'C 1\nA\n', 'N 1 6 1')
    case(head + b'C 1\n-1\n', 'N 1 6 1')
    case(head + b'C 1\n65535\n', 'N 4 6 1')
    case(head + b'C 1\n65536\n', 'N 2 6 1')
    case(head + b'C 64\n0\n', 'N 4 6 1')
    case(head + b'C 65\n0\n', 'N 4 5 2')
    case(head + b'9 1\nL 0 0\nC 0\n', 'N 5 5 1')


def large_sheets():
    small = [b'S 1 1', b'O 1', b'0 0']

    def moves(counts):
        lines = []
        for count in counts:
            lines += [b'1 %d' % count] + [b'L 0 0'] * count
        return lines

    # All cells have a row.
    rows = [b'%d 0' % cell for cell in range(1024)]
    case([b'S 1024 1', b'O 1024'] + rows + [b'M 0', b'C 0'], '1024 1 1024 0 0 0')
    case([b'S 1024 1', b'O 1024'] + rows[:1023] + [b'M 0', b'C 0'], 'N 1 1026 1')
    case([b'S 1024 1', b'O 1024'] + rows[:1023] + [b'1022 0'], 'N 7 1026 0')
    case([b'S 1023 1', b'O 1024'] + rows, 'N 4 1026 1')
    # The steps of one move.
    case(small + [b'M 1'] + moves([8]) + [b'C 0'], '1 1 1 1 8 0')
    case(small + [b'M 1'] + moves([9]) + [b'C 0'], 'N 4 5 2')
    # The steps of all moves. The move line of the 129th move is line 5 + 128 * 9.
    full = moves([8] * 128)
    case(small + [b'M 128'] + full + [b'C 0'], '1 1 1 128 1024 0')
    case(small + [b'M 129'] + full + moves([8]) + [b'C 0'], 'N 8 1157 0')
    case(small + [b'M 129'] + full + [b'1 1'], 'N 8 1157 0')
    case(small + [b'M 129'] + full + [b'1 1 '], 'N 3 1157 0')
    case(small + [b'M 129'] + full + [b'0 1'], 'N 4 1157 1')
    case(small + [b'M 129'] + full + [b'1 9'], 'N 4 1157 2')
    case(b'\n'.join(small + [b'M 129'] + full + [b'1 1']), 'N 9 1157 0')
    case(change(WORKED, 6, b'M 129')[:6] + full + moves([8]) + WORKED[21:], 'N 8 1159 0')
    # The last move just fits, and is one too long.
    case(small + [b'M 129'] + moves([8] * 127 + [7, 1]) + [b'C 0'], '1 1 1 129 1024 0')
    case(small + [b'M 129'] + moves([8] * 127 + [7]) + [b'1 2'], 'N 8 1156 0')
    case(small + [b'M 256'] + moves([4] * 256) + [b'C 0'], '1 1 1 256 1024 0')
    case(small + [b'M 256'] + moves([4] * 255) + [b'1 5'], 'N 8 1280 0')
    # Moves, and choices among them. The choices line is line 5 + 2 * 256.
    most = small + [b'M 256'] + moves([1] * 256)
    case(most + [b'C 0'], '1 1 1 256 256 0')
    case(most + [b'C 2', b'255', b'0'], '1 1 1 256 256 2')
    case(most + [b'C 2', b'255', b'256'], 'N 4 519 1')
    case(most + [b'1 1', b'L 0 0', b'C 0'], 'N 5 517 1')
    case(small + [b'M 257'] + moves([1] * 257) + [b'C 0'], 'N 4 4 2')
    one = small + [b'M 1', b'1 1', b'L 0 0']
    case(one + [b'C 64'] + [b'0'] * 64, '1 1 1 1 1 64')
    case(one + [b'C 64'] + [b'0'] * 65, 'N 9 72 0')
    case(one + [b'C 64'] + [b'0'] * 63, 'N 9 71 0')
    case(one + [b'C 64'] + [b'0'] * 63 + [b'1'], 'N 4 71 1')
    case(one + [b'C 65'] + [b'0'] * 65, 'N 4 7 2')
    # As many bytes as a good sheet can have.
    rows = [b'%d 4000 4000' % cell for cell in range(1024)]
    steps = ([b'65535 4'] + [b'S 1023 4000'] * 4) * 256
    case([b'F 1024 1000', b'O 1024'] + rows + [b'M 256'] + steps + [b'C 64'] + [b'255'] * 64, '1024 1000 1024 256 1024 64')


def long_sheets():
    """32,768 bytes and one more."""
    case(b'x' * 32768, 'N 9 1 0')
    case(b'x' * 32769, 'N 10 0 0')
    case(b'x' * 32767 + b'\n', 'N 3 1 0')
    case(b'x' * 32768 + b'\n', 'N 10 0 0')
    case(b'S ' + b'9' * 32763 + b' 1\n', 'N 2 1 2')
    case(b'S ' + b'9' * 32764 + b' 1\n', 'N 10 0 0')
    case(b'S 1 ' + b'9' * 32763 + b'\n', 'N 2 1 3')
    case(b'S 1 ' + b'9' * 32764 + b'\n', 'N 10 0 0')
    case(b'S 1 ' + b'0' * 32763 + b'\n', 'N 1 1 3')
    case(b'S' * 32763 + b' 1 1\n', 'N 5 1 1')
    good = b'S 1 1\nO 1\n0 0\nM 0\nC 0\n'
    case(good + b'x' * (32768 - len(good)), 'N 9 6 0')
    case(good + b'x' * (32769 - len(good)), 'N 10 0 0')
    case(b'S 0 1\n' + b'x' * 32762, 'N 4 1 2')
    case(b'S 0 1\n' + b'x' * 32763, 'N 10 0 0')
    case(b'x' * 100000, 'N 10 0 0')


def short_lists():
    for short in 'vmsc':
        case(STANDS, 'N 11 0 0', short)
        case(FEEDERS, 'N 11 0 0', short)
    case(b'', 'N 11 0 0', 'v')
    case(b'x' * 32769, 'N 11 0 0', 's')
    case(b'S 1 1\nO 1\n0 0\nM 0\nC 0\n', 'N 11 0 0', 'm')
    case(b's', 'N 11 0 0', 'c')


def bytes_of_a_word():
    for byte in range(256):
        case(b'S 1 %c\nO 1\n0 0\nM 0\nC 0\n' % byte)
    for byte in b'\x00\t\n\x0b\r +,-./019:@AZ_a\x7f\x80\xb9\xff':
        case(b'S 1 1%c1\nO 1\n0 0\nM 0\nC 0\n' % byte)
    # The same by hand.
    for byte, answer in [
        (b'0', 'N 4 1 3'), (b'1', '1 1 1 0 0 0'), (b'9', '1 9 1 0 0 0'), (b'/', 'N 1 1 3'), (b':', 'N 1 1 3'),
        (b'\n', 'N 3 1 0'), (b' ', 'N 3 1 0'), (b'\r', 'N 1 1 3'), (b'\x00', 'N 1 1 3'), (b'\xff', 'N 1 1 3'),
        (b'1\n1', 'N 3 2 0'), (b'1 1', 'N 3 1 0'), (b'101', '1 101 1 0 0 0'), (b'1_1', 'N 1 1 3'), (b'1.1', 'N 1 1 3'),
    ]:
        case(b'S 1 ' + byte + b'\nO 1\n0 0\nM 0\nC 0\n', answer)


def written(sheet, short):
    """A case as its line of stdin has it, without the LF."""
    line = '!' + short if short else ''
    for run in re.finditer(rb'(.)\1*', sheet, re.DOTALL):
        count, byte = len(run[0]), run[1][0]
        if byte == 10:
            one = '/'
        elif 32 <= byte <= 126 and byte not in b'/%<!':
            one = chr(byte)
        else:
            one = f'%{byte:02x}'
        if count >= 12 and run[1].isalnum():
            line += f'<{count}>{one}'
        else:
            line += one * count
    return line


def meant(line):
    """The sheet and the short list that a line of stdin stands for."""
    short = ''
    if line.startswith('!'):
        short, line = line[1], line[2:]
    sheet = bytearray()
    for part in re.findall(r'%[0-9a-f]{2}|<[0-9]+>[^/%<!]|[^%<!]', line):
        if part == '/':
            sheet += b'\n'
        elif part.startswith('%'):
            sheet.append(int(part[1:], 16))
        elif part.startswith('<'):
            count, byte = part[1:].split('>', 1)
            sheet += byte.encode('ascii') * int(count)
        else:
            sheet += part.encode('ascii')
    return bytes(sheet), short


def told(answer):
    """An answer of the reader as its line of stdout has it, without the LF."""
    if isinstance(answer, tuple):
        return 'N {} {} {}'.format(*answer[1:])
    numbers = [answer['cells'], answer['share'], answer['rows']]
    numbers += [len(answer['moves']), len(answer['steps']), len(answer['choices'])]
    return ' '.join(map(str, numbers))


def main():
    for make in (whole_inputs, worked_sheet, cuts_and_leftovers, shapes_of_lines, ranges, forms, kinds, order_of_checks,
                 rising_rows, no_moves, large_sheets, long_sheets, short_lists, bytes_of_a_word):
        make()
    answers = {}   # by line of stdin, so that each case stands there once
    by_hand = set()
    for sheet, short, answer in cases:
        line = written(sheet, short)
        assert meant(line) == (sheet, short), line
        answers[line] = told(sheet_reader.read(sheet, short))
        if answer is not None:
            by_hand.add(line)
            assert answers[line] == answer, (line, answers[line], answer)
    os.makedirs(FOLDER, exist_ok=True)
    for name, lines in (('stdin', answers.keys()), ('stdout', answers.values())):
        with open(os.path.join(FOLDER, name), 'w', encoding='ascii', newline='\n') as file:
            for line in lines:
                file.write(line + '\n')
    print(f'{len(answers)} cases, {len(by_hand)} of them answered by hand')


if __name__ == '__main__':
    main()
