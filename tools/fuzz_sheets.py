"""Runs a program on random sheets, good and damaged, and compares what it prints with what sheet_reader.py says.

    python3 tools/fuzz_sheets.py PROGRAM [COUNT] [SEED]

It stops at the first difference and shows the sheet and both answers. At the
end it tells how many sheets were good, and how many had which slip.
"""

import collections
import random
import subprocess
import sys

sys.dont_write_bytecode = True

import sheet_reader

# Numbers at the edges of the ranges and just past them.
EDGES = [0, 1, 2, 7, 8, 9, 63, 64, 65, 255, 256, 257, 999, 1000, 1001, 1023, 1024, 1025, 3999, 4000, 4001,
         9998, 9999, 10000, 65534, 65535, 65536, 65537, 99999, 100000, 131072, 2 ** 32, 2 ** 32 + 1, 2 ** 64 + 1, 10 ** 40]

# Words that are neither a letter nor a number, or are not the one due.
ODD_WORDS = [b'', b' ', b'00', b'01', b'007', b'+5', b'-1', b'3.5', b'1_0', b'0x1', b'x', b's', b'ST', b'A', b'B', b'C', b'F', b'H',
             b'L', b'M', b'O', b'P', b'S', b'T', b'Z', b'5\r', b'5\t', b'\x00', b'\xff', b'\xb2', b'9' * 40, b'0' * 40]

# Bytes that matter in a sheet are put in more often than others.
LIKELY_BYTES = b'\n\n\n   \r\t0123456789-+.SFOMCTPLASH@[`{/:\x00\x7f\x80\xff'


def number_between(rng, low, high):
    """A number from low to high, often at an edge."""
    luck = rng.random()
    if luck < 0.12:
        return low
    if luck < 0.24:
        return high
    return rng.randint(low, high)


def step_counts(rng, moves, total):
    """So many moves with one to eight steps each, and so many steps in all."""
    counts = [1] * moves
    open_moves = list(range(moves))
    for _ in range(total - moves):
        if not open_moves:
            break
        at = rng.randrange(len(open_moves))
        move = open_moves[at]
        counts[move] += 1
        if counts[move] == 8:
            open_moves[at] = open_moves[-1]
            open_moves.pop()
    return counts


def sheet_lines(rng):
    """A random sheet that has no slip, save that some have too many steps.

    It is handed out as its lines, and by what they tell all its numbers, each
    as the place of its line, the place of its word, and its range.
    """
    kind = rng.choice([b'S', b'F'])
    style = rng.choices(['tiny', 'sparse', 'contended', 'large', 'brim', 'over'], [30, 25, 25, 8, 6, 6])[0]
    if style == 'tiny':
        cells = rng.randint(1, 4)
        rows = rng.randint(1, cells)
        moves = rng.randint(0, 3)
        counts = [rng.randint(1, 3) for _ in range(moves)]
        choices = rng.randint(0, 2)
    elif style == 'sparse':
        cells = number_between(rng, 100, 1024)
        rows = rng.randint(1, 8)
        moves = rng.randint(0, 16)
        counts = [rng.randint(1, 3) for _ in range(moves)]
        choices = rng.randint(0, 5)
    elif style == 'contended':
        cells = rng.randint(1, 8)
        rows = rng.randint(1, cells)
        moves = rng.randint(2, 60)
        counts = [number_between(rng, 1, 8) for _ in range(moves)]
        choices = rng.randint(0, 16)
    else:
        cells = number_between(rng, 300, 1024)
        rows = number_between(rng, 1, cells)
        choices = number_between(rng, 0, 64)
        if style == 'large':
            moves = number_between(rng, 40, 256)
            counts = step_counts(rng, moves, min(1024, rng.randint(moves, 8 * moves)))
        elif style == 'brim':
            moves = rng.randint(129, 256)
            counts = step_counts(rng, moves, rng.choice([1023, 1024, 1024, 1025]))
        else:
            moves = rng.randint(150, 256)
            counts = step_counts(rng, moves, rng.randint(1026, 8 * moves))
    if moves == 0:
        choices = 0

    lines = []
    numbers = collections.defaultdict(list)

    def line(*words):
        """One more line; a word is a letter, or what it tells, its number and its range."""
        written = []
        for place, word in enumerate(words):
            if isinstance(word, bytes):
                written.append(word)
            else:
                meaning, number, low, high = word
                numbers[meaning].append((len(lines), place, low, high))
                written.append(b'%d' % number)
        lines.append(b' '.join(written))

    def drawn(meaning, low, high):
        return (meaning, number_between(rng, low, high), low, high)

    line(kind, ('cells', cells, 1, 1024), drawn('share', 1, 1000))
    line(b'O', ('rows', rows, 1, 1024))
    for cell in sorted(rng.sample(range(cells), rows)):
        at = ('cell of a row', cell, 0, cells - 1)
        if kind == b'S':
            line(at, drawn('tram', 0, 9999))
        else:
            line(at, drawn('load', 0, 4000), drawn('limit', 0, 4000))
    line(b'M', ('moves', moves, 0, 256))
    for count in counts:
        line(drawn('label', 1, 65535), ('steps', count, 1, 8))
        for _ in range(count):
            letter = rng.choice([b'T', b'P', b'L'] if kind == b'S' else [b'A', b'S', b'H'])
            low = 0 if letter in (b'L', b'H') else 1
            high = 9999 if kind == b'S' else 4000
            line(letter, drawn('cell of a step', 0, cells - 1), drawn(letter, low, high))
    line(b'C', ('choices', choices, 0, 64))
    for _ in range(choices):
        line(drawn('choice', 0, moves - 1))
    return lines, numbers


def some_byte(rng):
    return rng.choice(LIKELY_BYTES) if rng.random() < 0.7 else rng.randrange(256)


def some_line(rng, lines):
    """The place of a line, often of one that begins a section."""
    heads = [place for place, line in enumerate(lines) if line[:2] in (b'O ', b'M ', b'C ')]
    if heads and rng.random() < 0.4:
        return rng.choice(heads + [0])
    return rng.randrange(len(lines))


# Damages of bytes: each takes the sheet and gives another.

def byte_changed(rng, sheet):
    at = rng.randrange(len(sheet))
    return sheet[:at] + bytes([some_byte(rng)]) + sheet[at + 1:]


def byte_added(rng, sheet):
    at = rng.randint(0, len(sheet))
    return sheet[:at] + bytes([some_byte(rng)]) + sheet[at:]


def byte_lost(rng, sheet):
    at = rng.randrange(len(sheet))
    return sheet[:at] + sheet[at + 1:]


def byte_doubled(rng, sheet):
    at = rng.randrange(len(sheet))
    return sheet[:at + 1] + sheet[at:]


def cut(rng, sheet):
    if rng.random() < 0.3:
        return sheet[:-1]
    return sheet[:rng.randrange(len(sheet))]


def lengthened(rng, sheet):
    """Bytes at the end, or a number of many digits, up to the longest sheet or a little past it."""
    wanted = rng.choice([32767, 32768, 32769, 32769, 32770, 40000, 70000])
    more = max(1, wanted - len(sheet))
    luck = rng.random()
    if luck < 0.5:
        return sheet + bytes([some_byte(rng)]) * more
    at = rng.randint(0, len(sheet))
    return sheet[:at] + bytes([rng.choice(b'019 \nx')]) * more + sheet[at:]


def followed(rng, sheet):
    return sheet + bytes(some_byte(rng) for _ in range(rng.randint(1, 3)))


def carriage_returns(rng, sheet):
    return sheet.replace(b'\n', b'\r\n')


# Damages of lines: each alters the list.

def line_dropped(rng, lines):
    del lines[some_line(rng, lines)]


def line_doubled(rng, lines):
    at = some_line(rng, lines)
    lines.insert(at, lines[at])


def lines_swapped(rng, lines):
    one = some_line(rng, lines)
    other = min(one + 1, len(lines) - 1) if rng.random() < 0.6 else some_line(rng, lines)
    lines[one], lines[other] = lines[other], lines[one]


def line_cut(rng, lines):
    at = some_line(rng, lines)
    if lines[at]:
        lines[at] = lines[at][:rng.randrange(len(lines[at]))]


def line_emptied(rng, lines):
    lines.insert(some_line(rng, lines), b'')


def with_words(rng, lines, alter):
    at = some_line(rng, lines)
    words = lines[at].split(b' ')
    alter(words, rng.randrange(len(words)))
    lines[at] = b' '.join(words)


def number_moved(rng, lines):
    """A number to an edge, or a little up or down."""
    def alter(words, place):
        if not words[place].isdigit():
            place = -1
        if words[place].isdigit() and rng.random() < 0.4 and len(words[place]) < 50:
            words[place] = b'%d' % max(0, int(words[place]) + rng.choice([-2, -1, 1, 2]))
        else:
            words[place] = b'%d' % rng.choice(EDGES)
    with_words(rng, lines, alter)


def number_to_its_edge(rng, lines, numbers):
    """A number to an edge of its range, or one past it."""
    at, place, low, high = rng.choice(numbers[rng.choice(list(numbers))])
    words = lines[at].split(b' ')
    words[place] = b'%d' % max(0, rng.choice([low - 1, low, high, high + 1]))
    lines[at] = b' '.join(words)


def word_changed(rng, lines):
    def alter(words, place):
        words[place] = rng.choice(ODD_WORDS)
    with_words(rng, lines, alter)


def word_lost(rng, lines):
    def alter(words, place):
        del words[place]
    with_words(rng, lines, alter)


def word_doubled(rng, lines):
    def alter(words, place):
        words.insert(place, words[place])
    with_words(rng, lines, alter)


def words_swapped(rng, lines):
    def alter(words, place):
        words[place], words[0] = words[0], words[place]
    with_words(rng, lines, alter)


def kind_changed(rng, lines):
    letter = rng.choice([b'S', b'F', b'S', b'F', b'X', b's', b'f', b'FS', b'SF'])
    lines[0] = letter + lines[0][1:]


def no_rows(rng, lines):
    if len(lines) > 1:
        lines[1] = b'O 0'


def letter_changed(rng, lines):
    """The letter of a step, or of the first line of a section, to another letter."""
    places = [place for place, line in enumerate(lines) if line[:1].isupper()]
    if places:
        at = rng.choice(places)
        lines[at] = bytes([rng.choice(b'TPLASHTPLASHOMCFZ')]) + lines[at][1:]


def moves_lost(rng, lines):
    """No moves, but the choices as they were."""
    heads = [place for place, line in enumerate(lines) if line[:2] in (b'M ', b'C ')]
    if len(heads) == 2:
        lines[heads[0]:heads[1]] = [b'M 0']


def rows_not_rising(rng, lines):
    """A row gets the cell of the row before, or changes place with it."""
    end = next((place for place, line in enumerate(lines) if line[:1] == b'M'), 0)
    if end < 4:
        return
    at = rng.randrange(3, end)
    if rng.random() < 0.5:
        lines[at], lines[at - 1] = lines[at - 1], lines[at]
    else:
        words = lines[at].split(b' ')
        words[0] = lines[at - 1].split(b' ')[0]
        lines[at] = b' '.join(words)


LINE_DAMAGES = [line_dropped, line_doubled, lines_swapped, line_cut, line_emptied, number_moved, number_moved, number_moved,
                number_moved, word_changed, word_changed, word_lost, word_doubled, words_swapped, kind_changed, no_rows,
                letter_changed, moves_lost, rows_not_rising, rows_not_rising]
BYTE_DAMAGES = [byte_changed, byte_changed, byte_changed, byte_added, byte_added, byte_lost, byte_doubled, cut, lengthened,
                followed, carriage_returns]


def random_sheet(rng):
    """A sheet: one in four as made, the others with one to three damages."""
    lines, numbers = sheet_lines(rng)
    damages = []
    luck = rng.random()
    if luck < 0.15:
        number_to_its_edge(rng, lines, numbers)
    elif luck < 0.75:
        for _ in range(rng.choices([1, 2, 3], [70, 20, 10])[0]):
            damages.append(rng.choice(LINE_DAMAGES if rng.random() < 0.6 else BYTE_DAMAGES))
    for damage in damages:
        if damage in LINE_DAMAGES and lines:
            damage(rng, lines)
    sheet = b''.join(line + b'\n' for line in lines)
    for damage in damages:
        if damage in BYTE_DAMAGES and sheet:
            sheet = damage(rng, sheet)
    return sheet


def answer_of(program, sheet):
    """What the program prints, with a remark if it does not end as it should."""
    try:
        run = subprocess.run([program], input=sheet, capture_output=True, timeout=20)
    except subprocess.TimeoutExpired:
        return 'it does not end'
    answer = run.stdout.decode('latin-1')
    if run.returncode != 0 or run.stderr:
        answer += f'[status {run.returncode}, standard error {run.stderr!r}]'
    return answer


def main():
    if not 2 <= len(sys.argv) <= 4:
        sys.exit(__doc__)
    program = sys.argv[1]
    count = int(sys.argv[2]) if len(sys.argv) > 2 else 10000
    seed = int(sys.argv[3]) if len(sys.argv) > 3 else 1
    rng = random.Random(seed)
    good = 0
    slips = collections.Counter()
    for turn in range(1, count + 1):
        sheet = random_sheet(rng)
        due = sheet_reader.read(sheet)
        expected = sheet_reader.printed(due)
        got = answer_of(program, sheet)
        if got != expected:
            print(f'sheet {turn} of seed {seed}: {sheet!r}')
            print(f'reader:\n{expected}')
            print(f'program:\n{got}')
            sys.exit(1)
        if isinstance(due, dict):
            good += 1
        else:
            slips[due[1]] += 1
    print(f'{count} sheets of seed {seed}, no difference: {good} good, {count - good} with a slip')
    for number in sorted(slips):
        print(f'  slip {number}: {slips[number]}')


if __name__ == '__main__':
    main()
