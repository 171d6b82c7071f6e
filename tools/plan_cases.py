"""Writes sheets that test a whole planner to standard output, one to a line, from a fixed seed.

In a line `/` stands for LF, `%` and two small hexadecimal digits for a byte, and
`<N>x` for the byte x N times. With `--names` it writes the number and the name
of each line instead.
"""

import random
import re
import sys

SEED = 20261118

cases = []   # each: a name and the bytes of a sheet


def case(name, sheet):
    cases.append((name, sheet))


def lines_of(kind, cells, share, rows, moves, choices):
    """The lines of a sheet. A move is a list of steps, or a label and such a list."""
    lines = [f'{kind} {cells} {share}', f'O {len(rows)}']
    lines += [' '.join(map(str, row)) for row in rows]
    lines.append(f'M {len(moves)}')
    for place, move in enumerate(moves):
        label, steps = move if isinstance(move, tuple) else (place + 1, move)
        lines.append(f'{label} {len(steps)}')
        lines += [f'{letter} {cell} {number}' for letter, cell, number in steps]
    lines.append(f'C {len(choices)}')
    return lines + [str(choice) for choice in choices]


def sheet(*parts):
    return ''.join(line + '\n' for line in lines_of(*parts)).encode('ascii')


# The sheets of the documents.

MORNING_ROWS = [(0, 31), (1, 32), (7, 0)]
MORNING_MOVES = [
    (11, [('T', 0, 31), ('P', 4, 31)]),
    (12, [('T', 1, 32), ('P', 5, 32)]),
    (13, [('L', 7, 0), ('T', 4, 31), ('P', 6, 31)]),
    (14, [('T', 5, 32), ('P', 0, 32)]),
    (15, [('L', 7, 0)]),
]
EVENING_ROWS = [(0, 101), (1, 102), (2, 103), (3, 0), (5, 207), (6, 208), (8, 0), (10, 311), (11, 312), (15, 0)]
EVENING_MOVES = [
    (21, [('T', 0, 101), ('P', 3, 101)]),
    (22, [('T', 1, 102), ('P', 0, 102)]),
    (23, [('L', 8, 0), ('T', 5, 207), ('P', 8, 207)]),
    (24, [('T', 6, 208), ('P', 5, 208)]),
    (25, [('T', 10, 311), ('P', 12, 311)]),
    (26, [('L', 15, 0), ('T', 11, 312), ('P', 10, 312)]),
    (27, [('L', 15, 0), ('T', 2, 103), ('P', 1, 103)]),
    (28, [('L', 12, 311), ('L', 8, 207), ('T', 3, 101), ('P', 6, 101)]),
]
FEEDER_ROWS = [(0, 620, 1000), (1, 340, 800), (2, 0, 600), (4, 900, 1000), (5, 150, 400), (8, 480, 480)]
FEEDER_MOVES = [
    (101, [('S', 0, 120), ('A', 1, 120)]),
    (102, [('H', 2, 300), ('A', 2, 250), ('S', 1, 250)]),
    (103, [('H', 4, 100)]),
    (104, [('S', 4, 200), ('A', 5, 200)]),
    (105, [('S', 8, 80), ('A', 2, 80)]),
    (106, [('H', 8, 0), ('A', 8, 40)]),
]


def morning(share=300, moves=MORNING_MOVES, choices=(0, 1)):
    return sheet('S', 8, share, MORNING_ROWS, moves, choices)


def documents():
    for share in (300, 200, 201, 1):
        case(f'morning, share {share}', morning(share))
    case('morning, no choices', morning(choices=()))
    case('morning, no moves', morning(moves=[], choices=()))
    case('morning, choices the other way round', morning(200, choices=(1, 0)))
    case('morning, a choice twice', morning(choices=(0, 0)))
    case('morning, choices passed over', morning(choices=(4, 3, 0, 1, 2, 4)))
    # The tram is taken twice: in one move, and by two moves.
    twice = [(11, [('T', 0, 31), ('T', 0, 31)])] + MORNING_MOVES[1:]
    case('morning, taken twice in one move', morning(moves=twice))
    case('morning, taken twice by two moves', morning(moves=MORNING_MOVES + [(16, [('T', 0, 31)])]))
    case('morning, moves reversed', morning(moves=MORNING_MOVES[::-1]))
    # One move of eight is skipped: 125 is just the gate.
    for share in (250, 125):
        case(f'evening, share {share}', sheet('S', 16, share, EVENING_ROWS, EVENING_MOVES, [0, 2]))
    for share in (250, 166):
        case(f'feeders, share {share}', sheet('F', 10, share, FEEDER_ROWS, FEEDER_MOVES, [0, 3, 4]))


def limits_of_orders():
    rows = [(0, 900, 1000), (1, 900, 1000), (2, 5, 4), (3, 5, 4), (4, 5, 4), (5, 4000, 4000), (6, 4000, 0), (7, 0, 4000)]
    moves = [
        [('A', 0, 100)], [('A', 0, 1)], [('A', 1, 101)],
        [('H', 2, 0)], [('S', 2, 5)], [('H', 2, 4)], [('H', 2, 5)],
        [('S', 3, 6)], [('S', 3, 1), ('H', 3, 0)], [('H', 3, 1)],
        [('S', 4, 4), ('A', 4, 4)], [('A', 4, 3), ('H', 4, 0)],
        [('S', 5, 4000), ('A', 5, 4000), ('A', 5, 1)], [('S', 5, 4000), ('A', 5, 4000)],
        [('H', 6, 4000)], [('A', 6, 4000)], [('S', 6, 4000)], [('S', 6, 1)],
        [('A', 7, 4000)], [('H', 7, 0)], [('A', 8, 1)], [('H', 8, 0)], [('H', 9, 1)],
    ]
    case('limits of feeders', sheet('F', 10, 100, rows, moves, []))
    rows = [(0, 1), (1, 9999), (2, 7)]
    moves = [
        [('T', 0, 2)], [('P', 0, 1)], [('L', 0, 0)], [('L', 0, 1)], [('T', 0, 1)], [('T', 0, 1)], [('L', 0, 1)], [('L', 0, 0)],
        [('T', 1, 9999), ('P', 1, 9999)], [('L', 1, 9999)], [('P', 3, 9999), ('L', 3, 9999)], [('P', 3, 9999)],
        [('L', 4, 0)], [('L', 4, 1)], [('T', 2, 7), ('L', 2, 0), ('P', 2, 8), ('L', 2, 8), ('T', 2, 8), ('P', 2, 7)],
    ]
    case('limits of stands, labels alike', sheet('S', 5, 100, rows, [(65535, steps) for steps in moves], [3, 10]))


# Sheets of feeders in which every order passes: only the dealing matters.

def adding(*cells):
    """A move that writes these cells."""
    return [('A', cell, 1) for cell in cells]


def looking(*cells):
    return [('H', cell, 0) for cell in cells]


def roomy(cells, share, moves, choices):
    """A sheet with room on every cell that a move writes."""
    written = sorted({cell for steps in moves for letter, cell, _ in steps if letter == 'A'})
    rows = [(cell, 0, 4000) for cell in written] or [(0, 0, 0)]
    return sheet('F', cells, share, rows, moves, choices)


def gates():
    moves = [adding(0), adding(1), adding(0, 1)] + [looking(5)] * 7
    case('gate reached', roomy(6, 100, moves, [0, 1]))
    case('gate missed by the share', roomy(6, 101, moves, [0, 1]))
    case('gate missed by a move', roomy(6, 100, moves + [looking(5)], [0, 1]))
    # Nothing is skipped, so the gate is closed however low the share is.
    case('nothing skipped', roomy(6, 1, [adding(0), adding(1), looking(0), looking(1, 2)], [0, 1]))
    # Everything but two moves is skipped: the gate at the highest shares.
    many = [adding(0), adding(1)] + [adding(0, 1)] * 254
    for share in (992, 993):
        case(f'gate at share {share}', roomy(2, share, many, [0, 1]))


def pairs():
    # Special clusters 0 and 1 with sizes 2 and 1 and pair count 1: just 250. Clusters 2 and 3 keep the gate open.
    moves = [adding(0), adding(0), adding(1), adding(0, 1), adding(2), adding(3)] + [adding(2, 3)] * 5
    for share in (250, 251):
        case(f'pair at share {share}', roomy(4, share, moves, [0, 2, 4, 5]))
    # Sizes are those that fuse left: cluster 1 is joined with 0 before it is asked with 2.
    chain = [adding(0), adding(1), adding(2)] + [adding(0, 1)] * 3 + [adding(1, 2)]
    for share in (333, 334):
        case(f'sizes kept while merging, share {share}', roomy(3, share, chain, [0, 1, 2]))
    # So are the counts: 0 and 2 have 1, 1 and 2 have 1; not 2 when 0 and 1 are one.
    chain = [adding(0), adding(1), adding(2), adding(0, 1), adding(0, 1), adding(0, 2), adding(1, 2)]
    for share in (400, 501):
        case(f'counts kept while merging, share {share}', roomy(3, share, chain, [0, 1, 2]))
    # Clusters 0 and 1 are joined only by way of 2.
    chain = [adding(0), adding(1), adding(2)] + [adding(0, 2)] * 3 + [adding(1, 2)] * 3 + [adding(0, 1)]
    case('joined by way of a third', roomy(3, 500, chain, [0, 1, 2]))
    # The size does not count moves that were joined before the special cluster came by.
    late = [adding(5, 6), adding(6, 7), adding(0, 5), adding(0), adding(1), adding(0, 1), adding(2), adding(3)]
    late += [adding(2, 3)] * 6
    for share in (250, 251):
        case(f'late comers, share {share}', roomy(8, share, late, [3, 4, 6, 7]))
    # Pair counts are those of the clusters that a move touches when it is skipped: cell 5 comes to cluster 2 later.
    later = [adding(0), adding(1), adding(2), adding(0, 1, 5), adding(2, 5)]
    case('a pair that is met later', roomy(6, 200, later, [0, 1, 2]))
    # A choice that is passed over makes nothing grow: cell 5 is free for the third choice.
    case('a choice passed over joins nothing', roomy(6, 1000, [adding(0), adding(0, 5), adding(5), adding(5, 1)], [0, 1, 2]))
    # A look at an active cell counts for a size as a write does.
    looks = [adding(0), looking(0), looking(0, 4), adding(1), looking(0, 1), looking(4)]
    for share in (166, 167):
        case(f'sizes by looks, share {share}', roomy(5, share, looks, [0, 3]))


def takeovers():
    # The cluster of choice 0 gets ever higher roots, then meets the other special cluster.
    climb = [adding(3), adding(3, 500), looking(500, 900), adding(900), adding(900, 1023), adding(4), adding(1023, 4), adding(3, 1022)]
    for share in (125, 126):
        case(f'climbing roots, share {share}', roomy(1024, share, climb, [0, 5]))
    # An ordinary cluster with a higher root takes the special one over, and other special clusters meet it there.
    over = [adding(800, 801), adding(801, 1000), adding(2), adding(2, 800), adding(1000, 7), adding(7, 9), adding(5), adding(5, 6),
            adding(9, 6), adding(1000, 5), adding(2, 1001), adding(6, 900), adding(900, 1001)]
    for share in (230, 231):
        case(f'taken over, share {share}', roomy(1024, share, over, [2, 6]))
    # The same with the choices the other way round, and more of them.
    case('taken over, six choices', roomy(1024, 100, over, [6, 2, 0, 9, 4, 12]))
    # A special cluster that already has the highest cell takes lower ones in.
    case('taking in', roomy(1024, 300, [adding(5), adding(4, 5), adding(1023), adding(1023, 4), adding(0, 1023), adding(0), adding(0, 5)], [2, 1]))


def looks_at_written_cells():
    case('a look at a cell that another writes', roomy(4, 100, [adding(0), looking(0), looking(0, 1), adding(1), looking(2)], []))
    case('looks join', roomy(6, 100, [adding(0), adding(1), adding(2), looking(0, 1), looking(1, 2), looking(3, 4)], []))
    case('looks are skipped', roomy(6, 400, [adding(0), adding(1), adding(2), looking(0, 1), looking(1, 2), looking(3, 4)], [0, 1, 2]))
    case('a look before the write', roomy(3, 100, [looking(1), looking(0, 1), adding(2), adding(1)], [1]))
    between = [looking(9), adding(0), looking(8, 9), adding(1), looking(9), adding(0, 2), looking(7), adding(1), looking(8)]
    case('moves without active cells between others', roomy(10, 100, between, [1, 3]))
    case('moves without active cells, chosen', roomy(10, 100, between, [0, 2, 4, 6, 8, 3, 1]))
    case('a cell named by look and write in one move', roomy(3, 100, [[('H', 0, 0), ('A', 0, 1), ('H', 0, 0), ('H', 1, 0)], looking(1, 0)], [0]))


def eights():
    # Nine moves, one of them skipped: the gate is 111, a pair is joined up to 333.
    moves = [adding(cell) for cell in range(8)] + [adding(*range(8))]
    for share in (111, 112):
        case(f'eight special clusters, share {share}', roomy(8, share, moves, range(8)))
    many = [adding(cell) for cell in range(8)] + [looking(*range(8)), adding(7, 6, 5, 4, 3, 2, 1, 0), looking(0, 0, 1, 1, 2, 2, 3, 3)]
    case('eight special clusters met thrice', roomy(8, 272, many, range(8)))
    # The gate is open up to 466. Only clusters 0 to 3 have a pair count of 7 with each other: they alone are joined.
    case('four of eight special clusters joined', roomy(8, 466, moves + [looking(3, 2, 1, 0)] * 6, range(8)))
    # Of nine clusters only eight are special; the ninth stays alone although the skipped move names it.
    nine = [adding(cell) for cell in range(9)] + [adding(0, 8), adding(*range(1, 9))]
    case('a skipped move joins nothing', roomy(9, 1, nine, [1, 2]))


def many_special_clusters(rng):
    chosen = [adding(cell) for cell in range(64)]
    eight = [adding(*rng.sample(range(64), 8)) for _ in range(120)]
    for share in (30, 1000):
        case(f'64 special clusters, moves of eight, share {share}', roomy(64, share, chosen + eight, range(64)))
    # Sizes are 1: a pair count of 3 is enough up to share 600.
    four = [adding(*rng.sample(range(64), 4)) for _ in range(120)]
    for share in (600, 601):
        case(f'64 special clusters, moves of four, share {share}', roomy(64, share, chosen + four, range(64)))
    two = []
    for _ in range(190):
        first = rng.randrange(63)
        two.append(adding(first, min(63, first + rng.choice((1, 1, 1, 2, 5)))))
    for share in (300, 420):
        case(f'64 special clusters, moves of two, share {share}', roomy(64, share, chosen + two, range(63, -1, -1)))
    case('64 special clusters among looks', roomy(80, 10, [looking(79)] * 30 + chosen + [looking(0, 63), looking(79, 1, 2), looking(78)], range(30, 94)))


def crowds():
    case('one cell written by all, passing', sheet('F', 1, 500, [(0, 0, 4000)], [adding(0)] * 256, [255, 0]))
    case('one cell written by all, half of them failing', sheet('F', 3, 500, [(1, 0, 128)], [adding(1)] * 256, [7]))
    case('one stand written by all', sheet('S', 2, 500, [(0, 5)], [[('T', 0, 5)], [('P', 0, 5)], [('P', 0, 6)]] * 85, [1, 2]))
    case('all looks', sheet('S', 1024, 1, [(0, 5), (1023, 6)], [[('L', place * 4 % 1024, place % 7)] for place in range(256)], range(64)))
    case('one move', roomy(1, 1000, [adding(0)], [0]))
    case('one look', roomy(1, 1, [looking(0)], [0]))


def chains():
    # Of 1,024 steps in 128 moves at most 1 + 128 * 7 = 897 cells can come into one cluster.
    chain = [adding(*range(7 * link, 7 * link + 8)) for link in range(128)]
    case('a chain over all of 897 cells', roomy(897, 1, chain, []))
    high = [[(letter, cell + 127, number) for letter, cell, number in steps] for steps in chain]
    case('a chain from its upper end, chosen', roomy(1024, 500, high[::-1], [127]))
    # Links that meet only at the end: many clusters become one by the last moves.
    links = [adding(*range(4 * link, 4 * link + 4)) for link in range(128)]
    ties = [adding(4 * link + 3, 4 * link + 4) for link in range(127)]
    case('a chain tied at the end, both ends special', roomy(512, 3, links + ties, [0, 127]))
    # 128 clusters of eight cells: every cell of the largest board is active.
    apart = [adding(*range(cell, 1024, 128)) for cell in range(128)]
    rows = [(cell, 3999, 4000) for cell in range(1024)]
    case('all cells active, all changed', sheet('F', 1024, 1000, rows, [(65535, steps) for steps in apart], range(64, 128)))


def fours(rng):
    """256 moves of four steps."""
    rows = [(cell, rng.choice((0, cell + 1))) for cell in range(1024)]
    held = dict(rows)
    moves = []
    for _ in range(256):
        one, other = rng.randrange(1024), rng.randrange(1024)
        moves.append([('L', other, held[other]), ('T', one, one + 1), ('P', other, one + 1), ('L', one, 0)])
    case('256 moves of four steps on 1,024 stands', sheet('S', 1024, 40, rows, moves, rng.sample(range(256), 64)))
    rows = [(cell, 3990, 4000) for cell in range(1024)]
    moves = [(65280 + place, [('A', 1023 - 4 * place - step, 1) for step in range(4)]) for place in range(256)]
    case('the longest listing', sheet('F', 1024, 1000, rows, moves, range(192, 256)))
    rows = [(cell, 4000, 4000) for cell in range(1024)]
    case('the most bytes', sheet('F', 1024, 1000, rows, [(65535, [('S', 1023, 4000), ('A', 1023, 4000)] * 2)] * 256, [255] * 64))
    rows = [(cell, 400, 800) for cell in range(24)]
    moves = []
    for _ in range(256):
        base = rng.randrange(6) * 4
        cells = [base + rng.randrange(4) if rng.random() < 0.95 else rng.randrange(24) for _ in range(4)]
        moves.append([(rng.choice('ASSAH'), cell, rng.choice((1, 20, 50, 199))) for cell in cells])
    for share in (60, 900):
        case(f'256 moves of four steps on 24 feeders, share {share}', sheet('F', 24, share, rows, moves, rng.sample(range(256), 12)))


def failing():
    rows = [(0, 31), (1, 32), (2, 33)]

    def stands(name, moves, choices=(), share=500):
        case(name, sheet('S', 10, share, rows, moves, choices))

    def feeders(name, moves, choices=(), share=500):
        case(name, sheet('F', 6, share, [(0, 10, 20), (1, 20, 20), (2, 0, 20)], moves, choices))

    stands('failing at the first step', [[('T', 0, 32), ('P', 4, 32), ('P', 5, 31)]])
    stands('failing in the middle', [[('T', 0, 31), ('P', 1, 31), ('P', 5, 31)]])
    stands('failing at the last step', [[('T', 0, 31), ('P', 5, 31), ('L', 5, 0)]])
    stands('failing at the eighth step', [[('T', 0, 31), ('P', 3, 31), ('T', 1, 32), ('P', 4, 32), ('T', 2, 33), ('P', 5, 33), ('L', 3, 31), ('L', 4, 31)]])
    stands('a cell written twice and set back', [[('T', 0, 31), ('P', 0, 40), ('T', 0, 40), ('P', 0, 41), ('T', 1, 31)], [('T', 0, 31)]])
    stands('a move that needs the setting back', [[('T', 0, 31), ('P', 4, 31), ('T', 1, 31)], [('L', 4, 0), ('T', 0, 31), ('P', 4, 31)], [('T', 4, 31), ('T', 1, 32)]])
    stands('a move that needs what failed', [[('T', 0, 31), ('P', 4, 31), ('L', 1, 0)], [('T', 4, 31), ('P', 5, 31)], [('L', 0, 31)]])
    stands('changed and changed back', [[('T', 0, 31), ('P', 4, 31)], [('T', 4, 31), ('P', 0, 31)], [('T', 1, 32), ('P', 1, 32)]])
    stands('a tram against another', [[('T', 0, 31), ('T', 1, 32), ('P', 0, 32), ('P', 1, 31)], [('L', 0, 31)], [('L', 0, 32), ('L', 1, 31)]])
    rest = [[('T', 0, 31)], [('T', 1, 32)], [('P', 0, 50), ('P', 1, 51), ('L', 0, 51)], [('P', 0, 60), ('P', 1, 61)], [('T', 0, 60), ('P', 1, 60)], [('L', 0, 60), ('L', 1, 61)]]
    stands('failing in the rest list', rest, [0, 1], 1000)
    stands('the same in one queue', rest, [0], 1000)
    # Move 0 would fail in batch order: it is in the rest list and comes after all queues.
    early = [[('L', 0, 0), ('L', 1, 0)], [('T', 0, 31)], [('T', 1, 32)], [('L', 0, 31), ('T', 2, 33)], [('P', 2, 90)]]
    stands('a rest move before its queues', early, [1, 2], 1000)
    stands('a rest move before its queues, merged', early, [1, 2], 100)
    stands('a rest move before its queues, three clusters', early, [1, 2, 4], 1000)
    feeders('added twice and set back', [[('A', 0, 3), ('A', 0, 4), ('S', 0, 1), ('A', 1, 1)], [('A', 0, 10)], [('A', 0, 1)]])
    feeders('shed twice and set back', [[('S', 1, 5), ('S', 1, 5), ('S', 1, 11)], [('S', 1, 20)], [('A', 1, 20), ('H', 1, 0), ('H', 1, 1)]])
    feeders('two cells in turn, set back', [[('S', 0, 1), ('S', 1, 1), ('A', 0, 2), ('A', 1, 1), ('S', 0, 3), ('A', 1, 1)], [('S', 0, 10)], [('A', 2, 20)]])
    several = [[('A', 0, 5)], [('S', 1, 5)], [('A', 2, 5)], [('S', 0, 15), ('A', 2, 15)], [('H', 2, 0), ('A', 1, 6)], [('A', 1, 5), ('S', 2, 20), ('A', 0, 20)],
               [('A', 0, 1), ('S', 2, 1)], [('H', 0, 0), ('H', 1, 0), ('H', 2, 20)], [('S', 0, 20), ('A', 2, 20), ('H', 1, 1)]]
    feeders('a rest list with several moves', several, [0, 1, 2], 1000)
    # Eleven moves, eight skipped. Pair counts are 3 for 0 and 1, 7 for 0 and 2, 4 for 1 and 2: at share 700 only the second is joined.
    feeders('a rest list and two clusters joined', several + [[('H', 0, 0), ('H', 2, 20)], [('S', 2, 1), ('A', 0, 1)]], [0, 1, 2], 700)


# Small sheets with contended cells and some failing orders.

TRAMS = (31, 32, 33, 34)


def stand_order(rng, value, passing):
    """A letter and a number, and the value after it; it fails if that is None."""
    if passing:
        if value:
            return rng.choice([('T', value, 0), ('T', value, 0), ('L', value, value)])
        tram = rng.choice(TRAMS)
        return rng.choice([('P', tram, tram), ('P', tram, tram), ('L', 0, 0)])
    if value:
        other = rng.choice([tram for tram in TRAMS if tram != value])
        return rng.choice([('P', value, None), ('P', other, None), ('T', other, None), ('L', other, None), ('L', 0, None)])
    return rng.choice([('T', rng.choice(TRAMS), None), ('L', rng.choice(TRAMS), None)])


def feeder_order(rng, value, passing):
    load, limit = value
    room = limit - load
    if passing:
        known = [('H', rng.randint(0, room), value)] if room >= 0 else []
        if room > 0:
            number = rng.choice((room, rng.randint(1, room)))
            known += [('A', number, (load + number, limit))] * 2
        if load > 0:
            number = rng.choice((load, rng.randint(1, load)))
            known += [('S', number, (load - number, limit))] * 2
        if known:
            return rng.choice(known)
    over = max(1, room + 1)
    return rng.choice([('A', over, None), ('H', max(0, room + 1), None), ('S', load + 1, None), ('S', load + 5, None)])


def contended(rng, kind):
    """Groups of cells with moves of their own, and moves that name cells of two groups or more."""
    groups = rng.randint(2, 4)
    width = rng.randint(1, 3)
    cells = groups * width + rng.randint(0, 2)
    if kind == 'S':
        board = [rng.choice((0, 0) + TRAMS) for _ in range(cells)]
        rows = [(cell, value) for cell, value in enumerate(board) if value or rng.random() < 0.2] or [(0, 0)]
    else:
        board = [(rng.randint(0, 12), rng.randint(4, 18)) for _ in range(cells)]
        rows = [(cell, *value) for cell, value in enumerate(board)]
    passing_share = rng.choice((0.75, 0.9, 1.0))
    straying = rng.choice((0.1, 0.3, 0.5))
    make = stand_order if kind == 'S' else feeder_order
    moves = []
    own = []   # the group of each move, or None
    for _ in range(rng.randint(5, 14)):
        values = list(board)
        failed = False
        steps = []
        group = None if rng.random() < straying else rng.randrange(groups)
        for _ in range(rng.choice((1, 2, 2, 3, 4)) + (group is None)):
            cell = rng.randrange(cells) if group is None else group * width + rng.randrange(width)
            letter, number, after = make(rng, values[cell], rng.random() < passing_share)
            steps.append((letter, cell, number))
            if after is None:
                failed = True
            elif not failed:
                values[cell] = after
        moves.append((rng.randint(1, 99), steps))
        own.append(group)
        if not failed:
            board = values
    # A move of each group, for most groups, and sometimes any moves besides.
    choices = [own.index(group) for group in rng.sample(range(groups), groups) if group in own and rng.random() < 0.85]
    choices += [rng.randrange(len(moves)) for _ in range(rng.choice((0, 0, 1, 3)))]
    return sheet(kind, cells, rng.choice((1, 100, 200, 250, 333, 400, 500, 1000)), rows, moves, choices)


def contended_sheets(rng):
    for number in range(36):
        case(f'contended stands {number}', contended(rng, 'S'))
        case(f'contended feeders {number}', contended(rng, 'F'))


def damaged():
    good = morning()
    case('nothing', b'')
    case('cut short', good[:-1])
    case('CR LF', good.replace(b'\n', b'\r\n'))
    case('letter of the other kind', good.replace(b'T 0', b'A 0'))
    case('a choice too high', good[:-2] + b'5\n')
    case('no rows', good.replace(b'O 3\n0 31\n1 32\n7 0\n', b'O 0\n'))
    case('too long', b'S ' + b'9' * 32764 + b' 1\n')
    case('1,032 steps', sheet('S', 8, 1, [(0, 1)], [[('L', 0, 1)] * 8] * 129, []))


def folded(sheet):
    line = ''
    for run in re.finditer(rb'(.)\1*', sheet, re.DOTALL):
        count, byte = len(run[0]), run[1][0]
        if byte == 10:
            one = '/'
        elif 32 <= byte <= 126 and byte not in b'/%<>!':
            one = chr(byte)
        else:
            one = f'%{byte:02x}'
        line += f'<{count}>{one}' if count >= 12 and run[1].isalnum() else one * count
    return line


def all_cases():
    rng = random.Random(SEED)
    documents()
    limits_of_orders()
    gates()
    pairs()
    takeovers()
    looks_at_written_cells()
    eights()
    many_special_clusters(rng)
    crowds()
    chains()
    fours(rng)
    failing()
    contended_sheets(rng)
    damaged()
    return cases


def main():
    for number, (name, sheet_bytes) in enumerate(all_cases(), 1):
        print(f'{number} {name}' if '--names' in sys.argv[1:] else folded(sheet_bytes))


if __name__ == '__main__':
    main()
