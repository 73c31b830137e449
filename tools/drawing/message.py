"""message.svg: a message cut into its parts."""
from drawing.sheet import BLUE, GREY, MARGIN, PALE, WHITE, Sheet, breadth, short
from drawing.sources import fail, found, read

DEPTHS = ("field", "repetition", "component", "subcomponent")
MARKS, STRIKING = "crates/text/specs/Marks.antt", "crates/striking/specs/Striking.antt"


def ordinal(n):
    return f"{n}{ {1: 'st', 2: 'nd', 3: 'rd'}.get(n, 'th') }"


def separators():
    """The five by their names, in the order in which a header has them."""
    told = dict(found(r'(\w+) = byte "\\?(.)"', MARKS, "the separators"))
    if list(told) != ["field", "component", "repetition", "escape", "subcomponent"]:
        fail(f"{MARKS}: the separators are not field, component, repetition, escape and subcomponent")
    return told


def segments():
    """The segments of M, the header first."""
    *whole, rest = read("tests/messages/m.hl7").split("\r")
    first_nine = "MSH" + "".join(separators().values()) + separators()["field"]
    if rest or not whole or not whole[0].startswith(first_nine):
        fail("tests/messages/m.hl7: no header with the five separators in front, or no CR at the end")
    return whole


def trimmed(text, depths=DEPTHS):
    """A text without the empty parts at the ends of its parts."""
    if not depths:
        return text
    mark = separators()[depths[0]]
    return mark.join(trimmed(part, depths[1:]) for part in text.split(mark)).rstrip(mark)


def deep_segment():
    """A segment that has parts of every depth: one that striking leaves, by example."""
    for text in found(r'says with_pid "([^"]*)"', STRIKING, "what is left of a PID"):
        if all(separators()[depth] in trimmed(text) for depth in DEPTHS):
            return trimmed(text)
    fail(f"{STRIKING}: no example leaves a PID that has parts of every depth")


def draw_parts(sheet, x, y, labels, parts, mark, opened=None):
    """The parts side by side, the separator between them; where each stands, from its left to its right edge."""
    edges = []
    for k, (label, part) in enumerate(zip(labels, parts)):
        wide = max(breadth(part, 13), breadth(label, 11)) + 8
        if k:
            sheet.code(x + 9, y + 28, mark, 14, at="middle", font_weight="bold")
            x += 18
        dashes = {} if part else {"stroke_dasharray": "3 3"}
        sheet.words(x + wide / 2, y + 5, label, 11, PALE, at="middle")
        sheet.box(x, y + 10, wide, 25, fill=BLUE if k == opened else WHITE, rx=3, **dashes)
        if part:
            sheet.code(x + wide / 2, y + 27, part, 13, at="middle")
        else:
            sheet.words(x + wide / 2, y + 26, "Empty", 11, PALE, at="middle", font_style="italic")
        edges.append((x, x + wide))
        x += wide
    return edges


def draw_segments(sheet, y):
    sheet.words(MARGIN, y, "A message is segments, each ended by CR.", 14, font_weight="bold")
    for k, segment in enumerate(segments()):
        line = y + 26 + 24 * k
        wide = breadth(segment, 13)
        sheet.code(MARGIN + 6, line, segment, 13, textLength=wide)
        sheet.box(MARGIN + 14 + wide, line - 13, 24, 18, fill=GREY, rx=3)
        sheet.words(MARGIN + 26 + wide, line, "CR", 11, at="middle")
    return y + 26 + 24 * len(segments()) + 22


def draw_bracket(sheet, left, right, y, label):
    sheet.line(f"M{short(left + 4)},{y} v6 H{short(right - 4)} v-6")
    sheet.words((left + right) / 2, y + 20, label, at="middle", font_weight="bold")


def draw_first_nine(sheet, y):
    """The header's first nine bytes, one by one, and what they are."""
    header, marks, cell = segments()[0], separators(), 83
    sheet.words(MARGIN, y, "The header begins with nine fixed bytes.", 14, font_weight="bold")
    names = ["", "", "", *marks, "field, again"]
    for k, name in enumerate(names):
        x = MARGIN + cell * k
        sheet.words(x + cell / 2, y + 24, f"{ordinal(k + 1)} byte", 11, PALE, at="middle")
        sheet.box(x, y + 30, cell, 30, fill=BLUE if name else GREY)
        sheet.code(x + cell / 2, y + 51, header[k], 18, at="middle", font_weight="bold")
        sheet.words(x + cell / 2, y + 75, name, 11, at="middle")
    x = MARGIN + cell * len(names)
    third = header[len(names) :].split(marks["field"])[0]
    sheet.words(x + 8, y + 24, f"from the {ordinal(len(names) + 1)} on", 11, PALE)
    sheet.code(x + 8, y + 51, third, 18)
    for first, last, label in ((0, 3, "the name"), (3, 4, "MSH-1"), (4, 8, "MSH-2, unsplit")):
        draw_bracket(sheet, MARGIN + cell * first, MARGIN + cell * last, y + 84, label)
    draw_bracket(sheet, x, x + breadth(third, 18) + 12, y + 84, "MSH-3 begins")
    return y + 136


def draw_header_fields(sheet, y):
    fields = segments()[0][9:].split(separators()["field"])
    sheet.words(MARGIN, y, f"The fields after the ninth byte, cut at {separators()['field']}, are counted from MSH-3.", 14, font_weight="bold")
    draw_parts(sheet, MARGIN, y + 22, [f"MSH-{k}" for k in range(3, 3 + len(fields))], fields, separators()["field"])
    return y + 94


def opened_part(parts, deeper):
    """Which part is cut further: the first that has parts of every depth that is left."""
    return next((k for k, part in enumerate(parts) if all(separators()[depth] in part for depth in deeper)), 0)


def part_names(depth, parts):
    if depth == "field":
        return ["name", *(f"{parts[0]}-{k}" for k in range(1, len(parts)))]
    return [f"{depth} {k}" for k in range(1, len(parts) + 1)]


def draw_depths(sheet, y):
    """A segment cut at the four depths, one part of each further; also the place that is reached, and what stands there."""
    text, place, left, above = deep_segment(), [], MARGIN + 140, None
    sheet.words(MARGIN, y, "One rule cuts at all four depths, each with its own separator.", 14, font_weight="bold")
    sheet.code(left, y + 28, text, 13)
    y += 48
    for k, depth in enumerate(DEPTHS):
        mark = separators()[depth]
        parts = text.split(mark)
        names, opened = part_names(depth, parts), opened_part(parts, DEPTHS[k + 1 :])
        sheet.words(MARGIN, y + 20, f"{depth}s,", font_weight="bold")
        sheet.words(MARGIN, y + 35, f"cut at {mark}")
        edges = draw_parts(sheet, left, y, names, parts, mark, opened)
        if above:
            sheet.put("path", d=f"M{above[0]},{y - 36} H{above[1]} L{edges[-1][1]},{y - 9} H{left} z", fill=GREY)
        above, text = edges[opened], parts[opened]
        place.append(names[opened])
        y += 72
    sheet.words(left, y, f"So what stands at {', '.join(place)} is {text}.")
    return y, place, text


def picture():
    sheet = Sheet("A message and its parts", "")
    sheet.words(MARGIN, 30, "A message and its parts", 17, font_weight="bold")
    y = draw_header_fields(sheet, draw_first_nine(sheet, draw_segments(sheet, 62)))
    y, place, leaf = draw_depths(sheet, y)
    sheet.words(MARGIN + 140, y + 20, "A part of no bytes is Empty, and so is one that is not there.", fill=PALE)
    fields = segments()[0][9:].split(separators()["field"])
    sheet.told = (
        f"The header's first nine bytes are the name MSH, MSH-1, which is {separators()['field']}, MSH-2, which is {segments()[0][4:8]}, and the field "
        f"separator again. MSH-3 is {fields[0]}. The segment {deep_segment()} is cut into fields, one of them into repetitions, one of these into "
        f"components, one of these into subcomponents: at {', '.join(place)} stands {leaf}."
    )
    return sheet.svg(y + 42)
