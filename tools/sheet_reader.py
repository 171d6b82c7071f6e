"""Reads a sheet as docs/SHEET.md lays it out, as a second opinion on what the program answers.

As a script it takes a sheet on standard input and prints what docs/PROGRAM.md says.
"""

import re
import sys

LONGEST_SHEET = 32768
LARGEST_NUMBER = 65535
MOST_CELLS = 1024
MOST_MOVES = 256
MOST_STEPS = 1024
MOST_STEPS_OF_A_MOVE = 8
MOST_CHOICES = 64

NUMBER = re.compile(rb'0|[1-9][0-9]*')

# By the letter of the kind line: the name of the kind, the ranges of the words
# of a row after its cell, and the range of the number of each order.
KINDS = {
    b'S': {
        'name': 'stands',
        'value': [(0, 9999)],
        'orders': {b'T': (1, 9999), b'P': (1, 9999), b'L': (0, 9999)},
    },
    b'F': {
        'name': 'feeders',
        'value': [(0, 4000), (0, 4000)],
        'orders': {b'A': (1, 4000), b'S': (1, 4000), b'H': (0, 4000)},
    },
}


class Slip(Exception):
    """A slip: its number, its line, its word."""


class Lines:
    """The lines of a sheet, taken one after the other."""

    def __init__(self, data):
        self.data = data
        self.start = 0    # where the next line begins
        self.line = 0     # the number of the line taken last
        self.words = []   # the words of that line

    def take(self, due):
        """Takes the next line, which has to have so many words."""
        self.line += 1
        end = self.data.find(b'\n', self.start)
        if end < 0:
            raise Slip(9, self.line, 0)
        self.words = self.data[self.start:end].split(b' ')
        self.start = end + 1
        # A space too many leaves an empty word, and so does an empty line.
        if len(self.words) != due or b'' in self.words:
            raise Slip(3, self.line, 0)

    def letter(self, word, due):
        """The letter at this word, which is one of those due."""
        letter = self.words[word - 1]
        if letter not in due:
            raise Slip(5, self.line, word)
        return letter

    def number(self, word, low, high, refusal_of_zero=4):
        """The number at this word, which is low to high."""
        digits = self.words[word - 1]
        if not NUMBER.fullmatch(digits):
            raise Slip(1, self.line, word)
        # Without leading zeros, more than five digits are always too large.
        if len(digits) > 5 or int(digits) > LARGEST_NUMBER:
            raise Slip(2, self.line, word)
        number = int(digits)
        if not low <= number <= high:
            raise Slip(refusal_of_zero if number == 0 else 4, self.line, word)
        return number

    def end(self):
        """Nothing may follow the line taken last."""
        if self.start < len(self.data):
            raise Slip(9, self.line + 1, 0)


def read_whole(data, short):
    """What `read` hands out for a good sheet; raises the slip of any other."""
    if short:
        raise Slip(11, 0, 0)
    if len(data) > LONGEST_SHEET:
        raise Slip(10, 0, 0)
    kind_letter = b'F' if data[:1] == b'F' else b'S'
    kind = KINDS[kind_letter]
    orders = kind['orders']
    lines = Lines(data)

    lines.take(3)
    lines.letter(1, [kind_letter])
    cells = lines.number(2, 1, MOST_CELLS)
    share = lines.number(3, 1, 1000)

    lines.take(2)
    lines.letter(1, [b'O'])
    rows = lines.number(2, 1, MOST_CELLS, refusal_of_zero=6)
    parts = kind['value']
    values = [(0,) * len(parts)] * cells
    cell_before = -1
    for _ in range(rows):
        lines.take(1 + len(parts))
        cell = lines.number(1, 0, cells - 1)
        value = []
        for place, (low, high) in enumerate(parts):
            value.append(lines.number(2 + place, low, high))
        if cell <= cell_before:
            raise Slip(7, lines.line, 0)
        values[cell] = tuple(value)
        cell_before = cell

    lines.take(2)
    lines.letter(1, [b'M'])
    move_count = lines.number(2, 0, MOST_MOVES)
    moves = []
    steps = []
    for _ in range(move_count):
        lines.take(2)
        label = lines.number(1, 1, LARGEST_NUMBER)
        step_count = lines.number(2, 1, MOST_STEPS_OF_A_MOVE)
        if len(steps) + step_count > MOST_STEPS:
            raise Slip(8, lines.line, 0)
        moves.append((label, len(steps), step_count))
        for _ in range(step_count):
            lines.take(3)
            letter = lines.letter(1, orders)
            cell = lines.number(2, 0, cells - 1)
            low, high = orders[letter]
            number = lines.number(3, low, high)
            steps.append((letter.decode(), cell, number))

    lines.take(2)
    lines.letter(1, [b'C'])
    choice_count = lines.number(2, 0, MOST_CHOICES)
    choices = []
    for _ in range(choice_count):
        lines.take(1)
        choices.append(lines.number(1, 0, move_count - 1))
    lines.end()

    return {
        'kind': kind['name'],
        'cells': cells,
        'share': share,
        'rows': rows,
        'values': values,
        'moves': moves,
        'steps': steps,
        'choices': choices,
    }


def read(data, short=''):
    """Reads a sheet of either kind, picked by its first byte.

    `short` names a result list that is one entry short: 'v' values, 'm' moves,
    's' steps, 'c' choices.

    The answer to a slip is ('slip', number, line, word). The answer to a good
    sheet is a dict: kind, cells and share; rows, which is how many there are;
    values, a tuple of numbers for each cell; moves, each its label, the place
    of its first step and the number of its steps; steps, each its letter, cell
    and number; choices.
    """
    if short not in ('', 'v', 'm', 's', 'c'):
        raise ValueError(f'no result list is called {short!r}')
    try:
        return read_whole(data, short)
    except Slip as slip:
        return ('slip', *slip.args)


def printed(answer):
    """What the program prints for an answer of `read`."""
    if isinstance(answer, tuple):
        _, number, line, word = answer
        return f'N {number} {line} {word}\n'
    lines = [
        f'{answer["kind"]}, {answer["cells"]} cells, share {answer["share"]}',
        f'{answer["rows"]} rows',
        f'{len(answer["moves"])} moves, {len(answer["steps"])} steps',
    ]
    for label, first, count in answer['moves']:
        text = f'  {label}:'
        for letter, cell, number in answer['steps'][first:first + count]:
            text += f' {letter} {cell} {number}'
        lines.append(text)
    text = f'{len(answer["choices"])} choices:'
    for place in answer['choices']:
        text += f' {place}'
    lines.append(text)
    return '\n'.join(lines) + '\n'


if __name__ == '__main__':
    sheet = sys.stdin.buffer.read(LONGEST_SHEET + 1)
    sys.stdout.write(printed(read(sheet)))
