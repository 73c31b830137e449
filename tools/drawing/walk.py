"""walk.svg: which segment may follow which, and the reasons of a fault in the order in which they are tried."""
import re

from drawing.sheet import BLUE, GREY, MARGIN, PALE, WHITE, WIDTH, Sheet, short
from drawing.sources import constant, definition, fail, place_name

PROFILE, FAULT = "crates/profile/specs/Profile.antt", "crates/checks/specs/Fault.antt"
START, END = "start", "end"
# how many reasons there are
REASONS = 13


def followers():
    """After each listed segment, and at the start, what may come; the end too."""
    lines = definition(PROFILE, "succession")
    rows = re.findall(r'then "(\w*)" \(([^()]*)\)', lines)
    told = {segment or START: re.findall(r'"(\w+)"', names) for segment, names in rows}
    ends = re.findall(r'"(\w+)"', definition(PROFILE, "ends"))
    if START not in told or len(told) != lines.count("then") or not ends or not {name for names in told.values() for name in names} | set(ends) <= set(told):
        fail(f"{PROFILE}: the succession and the ends are not in the form that is read here")
    return {segment: names + [END] * (segment in ends) for segment, names in told.items()}


def argument_end(text, at):
    """Where the argument that begins here ends: a word, or all up to the parenthesis that closes it."""
    at, depth = at + len(text[at:]) - len(text[at:].lstrip()), 0
    for k in range(at, len(text)):
        depth += (text[k] == "(") - (text[k] == ")")
        if depth == 0 and (text[k] == ")" or text[k].isspace()):
            return k + 1
    fail(f"{FAULT}: a check is not in the form that is read here")


def steps(body):
    """The checks that a text lists, in its order: a reason; None, where the list tells it; or the name of a definition that lists more."""
    for match in re.finditer(r"\bcheck\b|\b\w+_checks\b", body):
        if match.group() != "check":
            yield match.group()
            continue
        number = re.match(r"\s*(\d+)\b", body[argument_end(body, match.end()) :])
        yield int(number.group(1)) if number else None


def listed_steps(name, body=None):
    """The steps of a definition, each with what it is made of."""
    for step in steps(definition(FAULT, name) if body is None else body):
        if not isinstance(step, str):
            yield name, step
        elif step != name:
            yield step, list(listed_steps(step))


def walk_steps():
    """The steps of a segment, and those of the end."""
    clauses = re.split(r"^walk ", definition(FAULT, "walk"), flags=re.MULTILINE)
    end = [clause for clause in clauses if re.match(r"[^=]*\[\] =", clause)]
    segment = [clause for clause in clauses if clause not in end]
    if len(end) != 1 or len(segment) != 1:
        fail(f"{FAULT}: walk has not one clause for a segment and one for the end")
    steps_of = [list(listed_steps("walk", clause)) for clause in (segment[0], end[0])]
    if sorted(set(reasons(steps_of[0] + steps_of[1]))) != list(conditions()):
        fail(f"{FAULT}: the walk has not each reason that a condition is told of")
    return steps_of


def tested(test):
    """The least and the greatest number that meets a test: ltb n 3, leb n 3, 4 to 7, or a number alone."""
    numbers = [int(number) for number in re.findall(r"\d+", test)]
    if test.startswith(("ltb", "leb")):
        return 0, numbers[0] - test.startswith("ltb")
    return numbers[0], numbers[-1]


def conditions():
    """The condition code of each reason: a number from 100 on, and before it the tests that the reason may meet."""
    told, ranges = {}, []
    for test in re.findall(r"\b(?:ltb|leb) n \d+|\b\d+ to \d+|\b\d+", definition(FAULT, "condition")):
        if not re.fullmatch(r"\d{3}", test):
            ranges.append(tested(test))
            continue
        for reason in range(1, REASONS + 1):
            if not ranges or any(low <= reason <= high for low, high in ranges):
                told.setdefault(reason, int(test))
        ranges = []
    if sorted(told) != list(range(1, REASONS + 1)):
        fail(f"{FAULT}: the condition of each reason, 1 to {REASONS}, is not found")
    return dict(sorted(told.items()))


def listed_places():
    """The reasons of the lists, each with the places that have it."""
    told = {}
    for place, *_, reason in constant("tools/profile", "LISTS"):
        told.setdefault(reason, []).append(place_name(*place))
    return dict(sorted(told.items()))


def sides():
    """The arrows of the succession by how they are drawn: straight to the next below; aside and down; aside and up; back to itself. Those that go
    aside to one segment share a line: it is told by where it ends, with all that it begins at."""
    told = followers()
    order = [*told, END]
    at = {name: k for k, name in enumerate(order)}
    pairs = [(at[name], at[other]) for name in told for other in told[name]]
    down, up = {}, {}
    for here, there in pairs:
        if there > here + 1:
            down.setdefault(there, []).append(here)
        elif there < here:
            up.setdefault(there, []).append(here)
    loops = [here for here, there in pairs if here == there]
    return order, [here for here, there in pairs if there == here + 1], down, up, loops


def tracks(shared):
    """How far aside each shared line runs: the shortest nearest to the boxes, no two on one track beside the same box."""
    taken = {}
    for end, begins in sorted(shared.items(), key=lambda item: max(abs(item[0] - k) for k in item[1])):
        low, high = min(end, *begins), max(end, *begins)
        free = (k for k in range(len(shared)) if all(high <= a or b <= low for a, b, other in taken.values() if other == k))
        taken[end] = low, high, next(free)
    return {end: track for end, (_, _, track) in taken.items()}


# a segment's box, how far the next is below it, where the boxes stand
BOX, TALL, PITCH, MIDDLE, TOP = 78, 38, 66, 186, 124


def row_top(k):
    return TOP + PITCH * k


def port(k, end, shared, is_down):
    """How far below its box's upper edge a line leaves or reaches it, so that no two meet: a line that arrives from above does so above those that leave."""
    leaving = sorted((other for other in shared if k in shared[other]), key=lambda other: -abs(other - k))
    order = ([k] if k in shared else []) + leaving
    place = 13 + min(9, (TALL - 17) / max(1, len(order) - 1)) * order.index(end)
    return place if is_down else TALL - place + 6


def draw_aside(sheet, shared, is_down):
    """The lines that go aside: to the right and down, or to the left and up; what they share is drawn once."""
    sign = 1 if is_down else -1
    edge = MIDDLE + sign * BOX / 2
    for end, track in tracks(shared).items():
        x = edge + sign * (28 + 18 * track)
        y2 = row_top(end) + port(end, end, shared, is_down)
        farthest = max(shared[end], key=lambda begin: abs(begin - end))
        for begin in shared[end]:
            y = row_top(begin) + port(begin, end, shared, is_down)
            way = f"M{short(edge)},{short(y)} H{short(x - sign * 7)} Q{short(x)},{short(y)} {short(x)},{short(y + sign * 7)}"
            if begin == farthest:
                way += f" V{short(y2 - sign * 7)} Q{short(x)},{short(y2)} {short(x - sign * 7)},{short(y2)} H{short(edge + sign)}"
            sheet.line(way, arrow=begin == farthest)


def draw_succession(sheet):
    order, straight, down, up, loops = sides()
    sheet.words(MARGIN, 64, "Which listed segment may follow which", 14, font_weight="bold")
    sheet.words(MARGIN, 84, "Any other is reason 1, any other end reason 2.", fill=PALE)
    sheet.words(MARGIN, 101, "Unlisted segments are passed over.", fill=PALE)
    draw_aside(sheet, down, True)
    draw_aside(sheet, up, False)
    for k in straight:
        sheet.line(f"M{MIDDLE},{row_top(k) + TALL} V{row_top(k + 1) - 1}", arrow=True)
    for k in loops:
        x, y = MIDDLE + BOX / 2, row_top(k)
        sheet.line(f"M{short(x)},{y + 5} h5 q7,0 7,-7 v-6 q0,-7 -7,-7 h-10 q-7,0 -7,7 v7", arrow=True)
    for k, name in enumerate(order):
        is_segment = name not in (START, END)
        sheet.box(MIDDLE - BOX / 2, row_top(k), BOX, TALL, fill=BLUE if is_segment else GREY, rx=4 if is_segment else TALL / 2)
        sheet.words(MIDDLE, row_top(k) + 24, name, 14, at="middle", font_weight="bold" if is_segment else "normal")
    return row_top(len(order) - 1) + TALL


FRAMES = {
    "walk": "each listed segment, in message order",
    "field_checks": "each listed field, rising",
    "repetition_checks": "each filled repetition",
    "leaf_checks": "each listed leaf, rising",
}
WORDS = {
    ("walk", 1): ["it is out of place"],
    ("walk", 2): ["the end may not stand there"],
    ("field_checks", 4): ["too many repetitions"],
    ("field_checks", 3): ["required, and its first repetition isn't filled", "(OBX-2 is required when OBX-5's first is filled)"],
    ("leaf_checks", 3): ["an Empty * leaf; other Empty leaves pass"],
    ("leaf_checks", 5): ["too long, an escape counted as one byte"],
    ("leaf_checks", 6): ["bad escape"],
    ("leaf_checks", 7): ["not of its type"],
    ("leaf_checks", 13): ["a date whose month has no such day"],
}
LEFT, RIGHT = 404, WIDTH - MARGIN


def rows_of(name, reason):
    """A step as rows of the picture: a reason and its words. The list of a leaf may have any of several reasons."""
    if reason is None:
        told = {number: ", ".join(places) for number, places in listed_places().items()}
        return [(number, ["not in its list:", places] if "," in places else [f"not in its list: {places}"]) for number, places in told.items()]
    if (name, reason) not in WORDS:
        fail(f"{FAULT}: {name} has a reason {reason} that has no words here")
    return [(reason, WORDS[name, reason])]


def draw_reason(sheet, x, y, reason, words):
    tall = 26 + 15 * (len(words) - 1)
    sheet.box(x, y + 2, 26, 20, rx=10)
    sheet.words(x + 13, y + 16.5, f"{reason}", 12, at="middle", font_weight="bold")
    for k, line in enumerate(words):
        sheet.words(x + 36, y + 16.5 + 15 * k, line)
    sheet.words(RIGHT - 34, y + 16.5, f"{conditions()[reason]}", at="end")
    return y + tall


def draw_frame(sheet, x, y, name, listed):
    """A frame for each time that something is done over and over; what is done in it, from above."""
    begin, where = y, len(sheet.parts)
    sheet.words(x + 10, y + 18, f"for {FRAMES[name]}:", font_weight="bold")
    y = draw_steps(sheet, x + 14, y + 26, listed) + 6
    depth = (x - LEFT) // 14
    sheet.box(x, begin, RIGHT - 5 * depth - x, y - begin, fill=(WHITE, GREY)[depth % 2], rx=5, under=where)
    return y + 6


def draw_steps(sheet, x, y, listed):
    for name, step in listed:
        if isinstance(step, list):
            y = draw_frame(sheet, x, y, name, step) if name in FRAMES else draw_steps(sheet, x, y, step)
            continue
        for reason, words in rows_of(name, step):
            y = draw_reason(sheet, x, y, reason, words)
    return y


def reasons(listed):
    """The reasons in their order."""
    for name, step in listed:
        yield from reasons(step) if isinstance(step, list) else (reason for reason, _ in rows_of(name, step))


def told_steps(listed):
    """The order of the reasons in words."""
    told = []
    for name, step in listed:
        if isinstance(step, list):
            told.append(f"for {FRAMES[name]}: {told_steps(step)}" if name in FRAMES else told_steps(step))
        else:
            told += [f"{reason}" for reason, _ in rows_of(name, step)]
    return ", ".join(told)


def told_walk(segment, end):
    after = ". ".join(f"After {name} may come {', '.join(others)}" for name, others in followers().items())
    codes = ", ".join(f"of {reason} {code}" for reason, code in conditions().items())
    return f"{after}. Reasons in their order, for {FRAMES['walk']}: {told_steps(segment)}. Last: {told_steps(end)}. The condition codes: {codes}."


def picture():
    segment, end = walk_steps()
    sheet = Sheet("The walk of a judgement, and its reasons in their order", told_walk(segment, end))
    sheet.words(MARGIN, 30, "The walk of a judgement", 17, font_weight="bold")
    low = draw_succession(sheet)
    sheet.words(LEFT, 64, "What is tried, in this order; the first that holds is the fault", 14, font_weight="bold")
    sheet.words(LEFT + 14, 96, "reason", fill=PALE)
    sheet.words(RIGHT - 34, 96, "condition", fill=PALE, at="end")
    y = draw_frame(sheet, LEFT, 106, "walk", segment)
    sheet.words(LEFT + 10, y + 18, "last, at the end of the message:", font_weight="bold")
    y = draw_steps(sheet, LEFT + 14, y + 26, end)
    return sheet.svg(max(low, y) + 24)
