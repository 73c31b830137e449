"""slot.svg: M's slip in its slot, byte by byte."""
import re

from drawing.sheet import BLUE, GREY, MARGIN, ORANGE, PALE, WHITE, WIDTH, Sheet
from drawing.sources import definition, fail, found, place_name, read

SLIP, SLOT, RUN = "crates/slip/specs/Slip.antt", "crates/slot/specs/Slot.antt", "crates/slips/stdout"
COUNT = "the group's OBX count"


def tags():
    """Each tag with what it holds, in 01's words."""
    lines, told = definition(SLIP, "slip_values"), {}
    for tag, segment, field in re.findall(r'tagged (\d+) \((?:resolved_at m \(bytes "(\w+)"\) \w+ (\d+)|two_bytes)', lines):
        told[int(tag)] = place_name(segment, int(field), 1) if segment else COUNT
    if not told or list(told) != sorted(told) or len(told) != lines.count("tagged"):
        fail(f"{SLIP}: the values of a slip are not in the form that is read here, or their tags do not rise")
    return told


def slot_bytes():
    """The stored run: the bytes of the slot that the slip of M's first group fills."""
    if read("crates/slips/stdin") != read("tests/messages/m.hl7") or read("crates/slips/args").split() != ["1"]:
        fail("crates/slips: the stored run is not of M's first group")
    digits = read(RUN).split()
    size = int(found(r"^slot_size = (\d+)", SLOT, "the size of a slot")[0])
    if len(digits) != size or not all(re.fullmatch("[0-9A-F]{2}", pair) for pair in digits):
        fail(f"{RUN}: that is not {size} bytes in hexadecimal digits")
    return bytes(int(pair, 16) for pair in digits)


def slip_fields():
    """Where each tagged field begins, its tag and its value; and where the zeros begin."""
    slot, at, fields = slot_bytes(), 0, []
    while at + 3 < len(slot) and slot[at]:
        size = 256 * slot[at + 1] + slot[at + 2]
        fields.append((at, slot[at], slot[at + 3 : at + 3 + size]))
        at += 3 + size
    if any(slot[at:]) or at >= len(slot) or not {tag for _, tag, _ in fields} <= set(tags()):
        fail(f"{RUN}: that is not a slip with zeros after it")
    return fields, at


def draw_bytes(sheet, x, y, values, fill, beneath=None):
    for k, value in enumerate(values):
        sheet.box(x + 32 * k, y, 32, 26, fill=fill)
        sheet.code(x + 32 * k + 16, y + 18, f"{value:02X}", 14, at="middle")
        if beneath:
            sheet.code(x + 32 * k + 16, y + 39, beneath[k], 12, at="middle", fill=PALE)


def told_value(tag, value):
    """What a field's value says, and what stands beneath its bytes."""
    if tags()[tag] == COUNT:
        return f"{len(value)} bytes: the number {256 * value[0] + value[1]}", None
    return f"{len(value)} bytes: {value.decode('ascii')}", value.decode("ascii")


def draw_slip(sheet, y):
    """A row for each tag: where it begins, its bytes, what they say."""
    columns = {"from byte": MARGIN, "tag": 104, "length": 152, "value": 232, "what it is": 484, "what it says": 722}
    for name, x in columns.items():
        sheet.words(x, y, name, fill=PALE)
    y += 12
    fields = {tag: (at, value) for at, tag, value in slip_fields()[0]}
    for tag, source in tags().items():
        if tag not in fields:
            sheet.box(columns["tag"], y, columns["what it is"] - columns["tag"] - 24, 26, rx=3, stroke_dasharray="3 3")
            sheet.words(columns["tag"] + 12, y + 18, "left out", font_style="italic", fill=PALE)
            sheet.words(columns["what it is"], y + 18, f"tag {tag}, {source}", font_weight="bold")
            sheet.words(columns["what it says"], y + 18, "Empty")
            y += 50
            continue
        at, value = fields[tag]
        says, beneath = told_value(tag, value)
        sheet.words(columns["from byte"] + 40, y + 18, f"{at}", at="end")
        draw_bytes(sheet, columns["tag"], y, [tag], ORANGE)
        draw_bytes(sheet, columns["length"], y, divmod(len(value), 256), GREY)
        draw_bytes(sheet, columns["value"], y, value, BLUE, beneath)
        sheet.words(columns["what it is"], y + 18, f"tag {tag}, {source}", font_weight="bold")
        sheet.words(columns["what it says"], y + 18, says)
        y += 50
    return y


def picture():
    fields, used = slip_fields()
    size = len(slot_bytes())
    told = "; ".join(f"tag {tag}, {tags()[tag]}, {told_value(tag, value)[0]}" for _, tag, value in fields)
    sheet = Sheet("M's slip in its slot", f"{told}; then {size - used} zeros, {size:,} bytes in all. An Empty value is left out.")
    sheet.words(MARGIN, 30, "M's slip in its slot", 17, font_weight="bold")
    part = round((WIDTH - 2 * MARGIN) * used / size)
    sheet.box(MARGIN, 48, part, 22, fill=BLUE)
    sheet.box(MARGIN + part, 48, WIDTH - 2 * MARGIN - part, 22)
    sheet.words(MARGIN + part + 12, 63, f"{size - used} zeros")
    sheet.words(MARGIN, 88, f"the slip's {used} bytes", 11, PALE)
    sheet.words(WIDTH - MARGIN, 88, f"{size:,} bytes in all, drawn to scale", 11, PALE, at="end")
    y = draw_slip(sheet, 124)
    sheet.words(MARGIN + 40, y + 18, f"{used}", at="end")
    draw_bytes(sheet, 104, y, slot_bytes()[used : used + 9], WHITE)
    sheet.words(104 + 32 * 9 + 12, y + 18, "... 00")
    sheet.words(484, y + 18, f"{size - used} zeros", font_weight="bold")
    sheet.words(722, y + 18, f"up to byte {size - 1:,}")
    sheet.words(MARGIN, y + 52, "Bytes in two hexadecimal digits, counted from 0; a number of two bytes has its high byte first.", fill=PALE)
    return sheet.svg(y + 72)
