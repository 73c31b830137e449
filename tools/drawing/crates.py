"""crates.svg: the crates and what each may use."""
import re

from drawing.layers import is_crate, neighbours, ordered, placed, ports
from drawing.sheet import BLUE, GREEN, MARGIN, ORANGE, PALE, WHITE, WIDTH, Sheet, breadth, short
from drawing.sources import ROOT, fail, read


def crates():
    """Each crate with those that it may use; what belongs to the kit is no crate."""
    lines = [line.split("#")[0] for line in read("crates.txt").splitlines()]
    told = {line.split(":")[0].split()[0]: line.split(":")[1].split() for line in lines if ":" in line}
    uses = {crate: [other for other in others if other in told] for crate, others in told.items()}
    order = list(uses)
    if not uses or any(order.index(other) > order.index(crate) for crate in uses for other in uses[crate]):
        fail("crates.txt has no line 'crate: what it may use', or a crate stands before one that it may use")
    return uses


def below(uses):
    """Of each crate all that stand below it."""
    under = {}
    for crate in uses:
        under[crate] = set(uses[crate]).union(*(under[other] for other in uses[crate]))
    return under


def heights(uses):
    """How many crates stand one upon another below each, at most."""
    height = {}
    for crate in uses:
        height[crate] = 1 + max((height[other] for other in uses[crate]), default=-1)
    return height


def arrows(uses):
    """From a crate to those that it may use, without those that another of its crates leads to as well."""
    under = below(uses)
    return [(crate, other) for crate in uses for other in uses[crate] if not any(other in under[third] for third in uses[crate])]


def kinds(uses):
    """The programs, the crates for C and Rust, and those that have laws alone, as their own files tell."""
    sources = {crate: "".join(read(str(file.relative_to(ROOT))) for file in sorted((ROOT / "crates" / crate / "src").glob("*.rt"))) for crate in uses}
    programs = {crate for crate in uses if (ROOT / "crates" / crate / "src" / "main.rt").exists()}
    # those with exported functions; also the crate whose functions an archive's crate hands on: `cabi_c` those of `cabi`
    exported = {name for crate in uses if 'extern "C"' in sources[crate] for name in (crate, crate.removesuffix("_c"))}
    users = {crate: {other for other in uses if crate in uses[other]} for crate in uses}
    under = below(uses)
    c_side = {crate for crate in uses if under[crate] & exported or crate in exported or users[crate] and users[crate] <= exported}
    laws = {crate for crate in uses if not re.search(r'^(pub )?(extern "C" )?fn ', sources[crate], re.MULTILINE)}
    if not programs or not exported or "reader" not in uses:
        fail("crates/: no program, no crate with exported functions or no reader is found")
    return programs, c_side, laws


def links(uses):
    """The arrows from height to height. One that passes a height has a bend (crate, height) there; arrows to one crate share their bends."""
    height, made = heights(uses), []
    for upper, lower in arrows(uses):
        way = [lower, *((lower, at) for at in range(height[lower] + 1, height[upper])), upper]
        made += [pair for pair in zip(way[1:], way) if pair not in made]
    return made


def by_height(uses, pairs):
    """The rows of crates and bends, the lowest first."""
    height = heights(uses)
    rows = [[] for _ in range(1 + max(height.values()))]
    for stop in dict.fromkeys([*uses, *(stop for pair in pairs for stop in pair)]):
        rows[height[stop] if is_crate(stop) else stop[1]].append(stop)
    return rows


def levels(rows, pairs, at, tall):
    """The upper edge of each row; more space lies between two rows where lines go far aside."""
    tops, y = {}, 92
    for k in range(len(rows) - 1, -1, -1):
        tops[k] = y
        far = max((abs(at[upper] - at[lower]) for upper, lower in pairs if lower in rows[k - 1] and upper in rows[k]), default=0)
        y += tall + min(56, 24 + far // 6)
    return tops


LOOKS = {
    "program": {"fill": GREEN, "thick": 2.2},
    "c side": {"fill": ORANGE, "stroke_dasharray": "5 3", "thick": 1.4},
    "below": {"fill": BLUE},
    "reader": {"fill": BLUE, "thick": 2.8},
    "other": {"fill": WHITE},
}


def look_of(crate, uses, programs, c_side):
    if crate == "reader":
        return LOOKS["reader"]
    if crate in programs:
        return LOOKS["program"]
    if crate in c_side:
        return LOOKS["c side"]
    return LOOKS["below" if crate in below(uses)["reader"] else "other"]


def draw_key(sheet):
    """What the looks mean."""
    told = {"reader": "the reader", "below": "below the reader", "program": "a program", "c side": "for C and Rust", "other": "other crates"}
    x = MARGIN
    for look, text in told.items():
        sheet.box(x, 54, 26, 16, rx=3, **LOOKS[look])
        sheet.words(x + 33, 66, text)
        x += breadth(text) + 43
    sheet.words(WIDTH - MARGIN, 66, "slanted: laws alone, no code", at="end", font_style="italic")


def draw_links(sheet, rows, pairs, at, tops, wide, tall):
    """The lines: upright in a row, and from row to row as far aside as they must go; so none runs through a box."""
    up, down = neighbours(pairs)
    for k, row in enumerate(rows):
        for stop in row:
            if not is_crate(stop):
                sheet.line(f"M{short(at[stop])},{short(tops[k])} v{tall}")
            for other, start in ports(stop, down.get(stop, []), at, wide).items():
                end = ports(other, up[other], at, wide)[stop]
                y, y2 = tops[k] + tall, tops[k - 1] - (1 if is_crate(other) else 0)
                half = (y + y2) / 2
                way = f"M{short(start)},{short(y)} C{short(start)},{short(half)} {short(end)},{short(half)} {short(end)},{short(y2)}"
                sheet.line(way, arrow=is_crate(other))


def picture():
    uses = crates()
    pairs, wide, tall = links(uses), max(breadth(crate, 13) for crate in uses) + 18, 26
    up, down = neighbours(pairs)
    rows = ordered(by_height(uses, pairs), up, down)
    at = placed(rows, up, down, wide)
    tops = levels(rows, pairs, at, tall)
    told = ". ".join(f"{crate} may use {', '.join(uses[crate])}" for crate in uses if uses[crate])
    sheet = Sheet("The crates and what each may use", f"From the lowest to the highest. {told}.")
    sheet.words(MARGIN, 30, "The crates", 17, font_weight="bold")
    sheet.words(MARGIN + 110, 30, "An arrow leads down from a crate to one that it may use; none is drawn where others lead there.", fill=PALE)
    draw_key(sheet)
    draw_links(sheet, rows, pairs, at, tops, wide, tall)
    programs, c_side, laws = kinds(uses)
    for k, row in enumerate(rows):
        for crate in filter(is_crate, row):
            sheet.box(at[crate] - wide / 2, tops[k], wide, tall, rx=4, **look_of(crate, uses, programs, c_side))
            sheet.words(at[crate], tops[k] + 17.5, crate, 13, at="middle", **({"font_style": "italic"} if crate in laws else {}))
    return sheet.svg(tops[0] + tall + 20)
