"""Rows of boxes one above another with lines between them: an order in which few lines cross, and places at which most run upright.

A stop is a crate, told by its name, or a bend (crate, height): there a line to that crate passes a row.
"""
from drawing.sheet import MARGIN, WIDTH

LITTLE = 6


def is_crate(stop):
    return isinstance(stop, str)


def neighbours(pairs):
    """Of each stop the stops above that lines lead to it from, and those below that lines lead to."""
    up, down = {}, {}
    for upper, lower in pairs:
        down.setdefault(upper, []).append(lower)
        up.setdefault(lower, []).append(upper)
    return up, down


def crossings(upper, lower, down):
    """How often the lines from one row to the row below it cross."""
    at = {stop: k for k, stop in enumerate(lower)}
    ends = [[at[other] for other in down.get(stop, ())] for stop in upper]
    return sum(a > b for k, left in enumerate(ends) for right in ends[k + 1 :] for a in left for b in right)


def all_crossings(rows, down):
    return sum(crossings(upper, lower, down) for lower, upper in zip(rows, rows[1:]))


def total(numbers):
    """The sum, added one by one: by this rule every Python rounds alike."""
    whole = 0
    for number in numbers:
        whole += number
    return whole


def swept(rows, up, down):
    """The rows, each in turn ordered by where its neighbours stand: from the bottom to the top, and back."""
    for towards, order in ((down, range(1, len(rows))), (up, range(len(rows) - 2, -1, -1))):
        for k in order:
            other = rows[k - 1] if towards is down else rows[k + 1]
            at = {stop: place / max(1, len(other) - 1) for place, stop in enumerate(other)}
            own = {stop: place / max(1, len(rows[k]) - 1) for place, stop in enumerate(rows[k])}
            seen = {stop: [at[n] for n in towards.get(stop, ())] or [own[stop]] for stop in rows[k]}
            rows[k] = sorted(rows[k], key=lambda stop: total(seen[stop]) / len(seen[stop]))
    return rows


def exchanged(rows, down):
    """The rows, with two that stand side by side exchanged wherever fewer lines cross then."""
    better = True
    while better:
        better = False
        for k, row in enumerate(rows):
            for place in range(len(row) - 1):
                other = row[:place] + [row[place + 1], row[place]] + row[place + 2 :]
                if all_crossings(rows[max(0, k - 1) : k] + [other] + rows[k + 1 : k + 2], down) < all_crossings(rows[max(0, k - 1) : k + 2], down):
                    rows[k] = row = other
                    better = True
    return rows


def shuffled(row, state):
    """The row in another order; the same state gives the same order always."""
    left, order = list(row), []
    while left:
        state = (state * 1103515245 + 12345) % 2**31
        order.append(left.pop((state >> 8) % len(left)))
    return order


def ordered(rows, up, down, tries=24):
    """The rows in an order in which few lines cross: the best of some tries, each from another beginning."""
    best = None
    for number in range(tries):
        tried = [shuffled(row, 97 * number + k) if number else list(row) for k, row in enumerate(rows)]
        for _ in range(8):
            tried = swept(tried, up, down)
        tried = exchanged(tried, down)
        count = all_crossings(tried, down)
        if best is None or count < best[0]:
            best = count, tried
    return best[1]


def spread(wanted, strengths, gaps, left, right):
    """Places in a row, as near as can be to those wanted, each at its gap from the one before, between left and right.
    Those that would stand too near to one another are moved together as one block."""
    offsets = [sum(gaps[:k]) for k in range(len(wanted))]
    blocks = []
    for want, strength, offset in zip(wanted, strengths, offsets):
        block = want - offset, strength, 1
        while blocks and blocks[-1][0] > block[0]:
            (place, force, size), (other, more, count) = blocks.pop(), block
            block = (place * force + other * more) / (force + more), force + more, size + count
        blocks.append(block)
    places = [place for place, _, size in blocks for _ in range(size)]
    return [min(max(place, left), right - offsets[-1]) + offset for place, offset in zip(places, offsets)]


def gap(one, other, wide):
    """How far apart the middles of two that stand side by side must be."""
    return {2: wide + 22, 1: wide // 2 + 16, 0: 18}[is_crate(one) + is_crate(other)]


def drawn(stop, near, at, is_late):
    """Where a stop's neighbours draw it, and how strongly; late turns heed the near ones most, so that a line runs upright and bends once."""
    pulls = [(at[other], (1, 3, 12)[2 - is_crate(stop) - is_crate(other)]) for other in near] or [(at[stop], 1)]
    pulls = [(place, strength / max(1, abs(place - at[stop])) if is_late else strength) for place, strength in pulls]
    whole = total(strength for _, strength in pulls)
    return total(place * strength for place, strength in pulls) / whole, whole


def upright(at, rows, down):
    """What stands a little aside from what is below it stands straight above it."""
    for stop in (stop for row in rows for stop in row if stop in down):
        near = min((at[other] for other in down[stop]), key=lambda place: abs(place - at[stop]))
        if abs(near - at[stop]) <= LITTLE:
            at[stop] = near
    return at


def leeway(stop, row, at, wide):
    """From where to where a stop may stand in its row."""
    k = row.index(stop)
    left = at[row[k - 1]] + gap(row[k - 1], stop, wide) - LITTLE if k else MARGIN
    right = at[row[k + 1]] - gap(stop, row[k + 1], wide) + LITTLE if k + 1 < len(row) else WIDTH - MARGIN
    return left, right


def straightened(at, rows, wide):
    """The bends of the lines to one crate stand one above another, in as many rows as can be."""
    for crate in {stop[0]: True for row in rows for stop in row if not is_crate(stop)}:
        bends = {stop: leeway(stop, row, at, wide) for row in rows for stop in row if not is_crate(stop) and stop[0] == crate}
        fits = {place: [stop for stop, (left, right) in bends.items() if left <= place <= right] for place in (at[crate], *(at[stop] for stop in bends))}
        best = max(fits, key=lambda place: len(fits[place]))
        at.update({stop: best for stop in fits[best]})
    return at


def placed(rows, up, down, wide, turns=2400):
    """Where each stands in its row: each turn draws it to its neighbours."""
    at, edge = {}, MARGIN + wide / 2
    for row in rows:
        gaps = [gap(*pair, wide) for pair in zip(row, row[1:])]
        at.update({stop: WIDTH / 2 - sum(gaps) / 2 + sum(gaps[:k]) for k, stop in enumerate(row)})
    for turn in range(turns):
        for row in rows if turn % 2 else rows[::-1]:
            wanted, strengths = zip(*(drawn(stop, up.get(stop, []) + down.get(stop, []), at, turn > turns / 3) for stop in row))
            gaps = [gap(*pair, wide) for pair in zip(row, row[1:])]
            at.update(zip(row, spread(wanted, strengths, gaps, edge, WIDTH - edge)))
    return straightened(upright({stop: round(place) for stop, place in at.items()}, rows, down), rows, wide)


def ports(stop, near, at, wide):
    """Where the lines to the neighbours leave a stop: side by side at a crate, all from one point at a bend."""
    near = sorted(near, key=lambda other: at[other])
    step = min(13, (wide - 22) / max(1, len(near) - 1)) if is_crate(stop) else 0
    return {other: at[stop] + (k - (len(near) - 1) / 2) * step for k, other in enumerate(near)}
