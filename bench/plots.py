"""The pictures of docs/SPEED.md: bench/all draws them from the sections of the page that bench/tiers.sh prints.

`pictures_of(sections)` gives, by the name of its file, a picture's title and the picture as SVG, or None where no section has its figures. A mark has its
figure as the page writes it, and says by `data-series` and `data-class`, or `data-panel` and `data-documents`, where that stands: tests/plots compares the two."""
import math
import re
from collections import namedtuple
from html import escape

# What a section says: documents, what they are, and figures as they stand there: of searches by series and class, of the fill by program, of the start and of memory.
Tier = namedtuple("Tier", "documents sentence searches fills start memory")
# Marks are by Okabe and Ito's colours, which the colour-blind tell apart; letters of these colours are darker, as thin strokes need more contrast.
Style = namedtuple("Style", "colour letters shape")
Panel = namedtuple("Panel", "title unit figures")
Point = namedtuple("Point", "x y series documents figure")

BULKS, ONE = "indexd as bulks leave it", "indexd in one segment"
CIRCLE, DIAMOND, SQUARE, TRIANGLE = "m-4.1 0a4.1 4.1 0 1 0 8.2 0a4.1 4.1 0 1 0 -8.2 0z", "m0 -4.1l5 4.1l-5 4.1l-5 -4.1z", "m-3.8 -3.8h7.6v7.6h-7.6z", "m0 -4.1l4.8 8.2h-9.6z"
STYLES = {
    BULKS: Style("#0072b2", "#005a8e", CIRCLE), ONE: Style("#56b4e9", "#2a6f9a", DIAMOND), "indexd": Style("#0072b2", "#005a8e", CIRCLE),
    "SQLite": Style("#d55e00", "#a84a00", SQUARE), "Lucene": Style("#009e73", "#006b4e", TRIANGLE),
}
OTHER = Style("#000000", "#000000", SQUARE)
TIERS = ("tiers_ten_thousand", "tiers", "tiers_million")
WIDTH, ROW, LANE, TOUCH, SMALL = 840, 34, 8.5, 10.5, 11


def style_of(series):
    return STYLES.get(series) or STYLES.get(series.split()[0], OTHER)


def tier_of(section):
    """What a section says, or None where it has no table."""
    rows = re.findall(r"^ {4}([a-z_]+(?: [a-z]+)*) {2,}([\d.]+(?: +[\d.]+){4,})$", section, re.M)
    head = re.search(r"^ +processor us +clock us *(.*)$", section, re.M)
    count = re.search(r"^ {4}(([\d,]+) documents of \d+ bytes)", section, re.M)
    if not (rows and head and count):
        return None
    # Of a row's figures, three are of the server's processor and two of the clock, and each peer has two: after bulks, and in one segment.
    columns = {BULKS: 0, ONE: 1, **{peer: 5 + 2 * at for at, peer in enumerate(re.split(r" {2,}", head[1]) if head[1] else [])}}
    searches = {series: {name: figures.split()[at] for name, figures in rows} for series, at in columns.items()}
    fills = dict(re.findall(r"^ {4}([^:\n]+): geometric mean .* the fill [\d,]+ documents a second, ([\d.]+) us of the processor a document$", section, re.M))
    start, memory = re.search(r"the start took ([\d.]+) seconds", section), re.search(r"memory ([\d,]+) MiB after the fill", section)
    return Tier(int(count[2].replace(",", "")), count[1], searches, fills, start and start[1], memory and memory[1])


def number(figure):
    return float(figure.replace(",", ""))


def mean(figures):
    """The geometric mean."""
    return math.exp(sum(math.log(number(it)) for it in figures) / len(figures))


def short(figure):
    """A figure without digits that are too fine for it."""
    value = number(figure)
    return f"{value:,.0f}" if value >= 100 else f"{value:.1f}" if value >= 10 else figure


def power(exponent):
    """A power of ten as an axis has it."""
    return f"{10**exponent:,}" if exponent >= 0 else f"{10**exponent:.{-exponent}f}"


def decades(figures):
    """The exponents of the powers of ten that stand about figures."""
    logs = [math.log10(number(it)) for it in figures]
    low, high = math.floor(min(logs)), math.ceil(max(logs))
    return low, max(high, low + 1)


def attributes(some):
    return "".join(f' {name.replace("_", "-")}="{escape(f"{it:.1f}" if isinstance(it, float) else str(it))}"' for name, it in some.items())


def text(x, y, words, **more):
    return f"<text{attributes({'x': float(x), 'y': float(y), **more})}>{escape(words, quote=False)}</text>"


def data_of(some):
    return {f"data_{name}": it for name, it in some.items()}


def line(x1, y1, x2, y2, colour="#d0d4d9", **data):
    return f"<path{attributes({'d': f'M{x1:.1f} {y1:.1f}L{x2:.1f} {y2:.1f}', 'stroke': colour, **data_of(data)})}/>"


def mark(x, y, style, said="", **data):
    title = f"<title>{escape(said, quote=False)}</title>" if said else ""
    return f"<path{attributes({'d': f'M{x:.1f} {y:.1f}{style.shape}', 'fill': style.colour, **data_of(data)})}>{title}</path>"


def svg(height, title, description, parts):
    """A picture; text stands on white, so that it is read on a dark page too."""
    head = f'<svg xmlns="http://www.w3.org/2000/svg" viewBox="0 0 {WIDTH} {height}" width="{WIDTH}" height="{height}" font-family="sans-serif" font-size="12" fill="#222222">'
    return "\n".join([head, f"<title>{escape(title)}</title>", f"<desc>{escape(description)}</desc>", f'<rect width="{WIDTH}" height="{height}" fill="#ffffff"/>', *parts, "</svg>"]) + "\n"


def heading(title, lines):
    yield text(24, 30, title, font_size=17, font_weight="bold")
    for at, it in enumerate(lines):
        yield text(24, 50 + 17 * at, it, fill="#505860")


def width_of(words, size):
    """At most so much room does a wide font need for words."""
    return 0.64 * size * len(words)


def legend(y, names):
    for at, it in enumerate(names):
        yield mark(30.0 + 190 * at, y - 4, style_of(it))
        yield text(41 + 190 * at, y, it)


def peers_of(tiers):
    return [*dict.fromkeys(it for tier in tiers for it in tier.searches if it not in (BULKS, ONE))]


def names_of(peers):
    return " and ".join(it.split()[0] for it in peers)


def title_of(what, peers):
    return f"{what}: indexd next to {names_of(peers)}" if peers else what


def http_of(peers):
    """What a program has to read, which is no part of a search."""
    return "indexd answers over HTTP" + (f"; {names_of(peers)} {'has' if len(peers) == 1 else 'have'} no HTTP to read." if peers else ".")


def heights(places):
    """How far from the middle of a row each mark stands: marks that would touch stand one under another."""
    order = sorted(range(len(places)), key=places.__getitem__)
    groups = [order[:1]]
    for before, at in zip(order, order[1:]):
        if places[at] - places[before] < TOUCH:
            groups[-1].append(at)
        else:
            groups.append([at])
    aside = {at: (sorted(group).index(at) - (len(group) - 1) / 2) * LANE for group in groups for at in group}
    return [aside[at] for at in range(len(places))]


def row_of(name, y, figures, across):
    """The marks of a class."""
    places = [across(it) for it in figures.values()]
    yield line(min(places), y, max(places), y, "#9aa2ab")
    for x, aside, (series, figure) in zip(places, heights(places), figures.items()):
        yield mark(x, y + aside, style_of(series), f"{name}, {series}: {figure}", **{"class": name, "series": series, "value": figure})


def searches_picture(tier):
    """A row a class, and in it a mark a series."""
    classes, left, right, top = [*tier.searches[BULKS]], 140, WIDTH - 48, 140
    low, high = decades([it for figures in tier.searches.values() for it in figures.values()])
    bottom = top + ROW * len(classes)

    def across(figure):
        return left + (math.log10(number(figure)) - low) / (high - low) * (right - left)

    peers = peers_of([tier])
    title = title_of("What a search costs", peers)
    beside = f"; {names_of(peers)} as bulks leave {'it' if len(peers) == 1 else 'them'}" if peers else ""
    parts = [*heading(title, [f"{tier.sentence}{beside}.", f"{http_of(peers)} The axis is logarithmic. Left is better."])]
    parts += legend(94, tier.searches)
    parts += [f'<rect x="24" y="{top + ROW * at}" width="{WIDTH - 48}" height="{ROW}" fill="#f3f5f7"/>' for at in range(0, len(classes), 2)]
    for exponent in range(low, high + 1):
        x = across(power(exponent))
        parts.append(line(x, top, x, bottom, tick=power(exponent)))
        parts += [text(x, y, power(exponent), text_anchor="middle", fill="#505860") for y in (top - 8, bottom + 17)]
    for at, name in enumerate(classes):
        y = top + ROW * (at + 0.5)
        parts.append(text(left - 16, y + 4, name, text_anchor="end"))
        parts += row_of(name, y, {series: figures[name] for series, figures in tier.searches.items()}, across)
    parts.append(text((left + right) / 2, bottom + 38, "microseconds of the processor a query", text_anchor="middle"))
    said = f"A row for each class of searches over {tier.sentence}, and in it marks for {', '.join(tier.searches)}, at the microseconds of the processor that a query takes."
    return title, svg(bottom + 54, title, said, parts)


def panels_of(tiers):
    """The panels that have figures: by series, and by number of documents."""
    searches, fills = {}, {}
    for it in tiers:
        for series, figures in it.searches.items():
            if series != ONE:
                searches.setdefault("indexd" if series == BULKS else series, {})[it.documents] = f"{mean(figures.values()):.1f}"
        for series, figure in it.fills.items():
            fills.setdefault(series, {})[it.documents] = figure
    # A logarithmic axis has no place for zero.
    starts, memories = ({it.documents: getattr(it, name) for it in tiers if number(getattr(it, name) or "0")} for name in ("start", "memory"))
    made = [
        Panel("Search", "microseconds of the processor a query", searches), Panel("Bulk", "microseconds of the processor a document", fills),
        Panel("Start", "seconds", {"indexd": starts} if starts else {}), Panel("Memory", "MiB after the fill", {"indexd": memories} if memories else {}),
    ]
    return [it for it in made if it.figures]


def overlap(one, other):
    return one[0] < other[2] and other[0] < one[2] and one[1] < other[3] and other[1] < one[3]


def crossed(box, lines):
    """How many lines go through a box."""
    def inside(x1, y1, x2, y2):
        points = ((x1 + (x2 - x1) * part / 64, y1 + (y2 - y1) * part / 64) for part in range(65))
        return any(box[0] < x < box[2] and box[1] < y < box[3] for x, y in points)

    return sum(inside(*it) for it in lines)


def stacked(points, step, taken):
    """The boxes of labels, each as near above its mark (a step of -1) or below it (of 1) as what is taken leaves room."""
    boxes = []
    for it in points:
        half, middle = width_of(short(it.figure), SMALL) / 2, it.y + step * 13
        while any(overlap((it.x - half, middle - 7, it.x + half, middle + 7), other) for other in [*taken, *boxes]):
            middle += step
        boxes.append((it.x - half, middle - 7, it.x + half, middle + 7))
    return boxes


def labels_of(points, marks, lines, top, bottom):
    """The boxes of the labels of one number of documents, from the highest mark on: some above their marks and the others below, in the order of the marks."""
    def cost(boxes):
        far = sum(abs((box[1] + box[3]) / 2 - it.y) for box, it in zip(boxes, points))
        return far + sum(6 * crossed(it, lines) + 1000 * (it[1] < top or it[3] > bottom) for it in boxes)

    ways = ([*stacked(points[:count][::-1], -1, marks)[::-1], *stacked(points[count:], 1, marks)] for count in range(len(points), -1, -1))
    return min(ways, key=cost)


def grid_of(panel, sizes, left, right, top, bottom):
    """The grid of a panel with its words; and what gives the place of a figure."""
    low, high = decades([it for figures in panel.figures.values() for it in figures.values()])
    first, last = (math.log10(it) for it in (sizes[0], sizes[-1]))

    def place(documents, figure):
        along = (math.log10(documents) - first) / (last - first) if last > first else 0.5
        return left + 44 + along * (right - left - 88), bottom - 16 - (math.log10(number(figure)) - low) / (high - low) * (bottom - top - 32)

    parts = [f'<text x="{left - 50}" y="{top - 12}"><tspan font-weight="bold">{panel.title}</tspan>, {panel.unit}</text>']
    for exponent in range(low, high + 1):
        _, y = place(sizes[0], power(exponent))
        parts += [line(left, y, right, y, panel=panel.title.lower(), tick=power(exponent)), text(left - 7, y + 4, power(exponent), text_anchor="end", fill="#505860", font_size=SMALL)]
    for it in sizes:
        x, _ = place(it, "1")
        parts += [line(x, top, x, bottom, panel=panel.title.lower(), documents=it), text(x, bottom + 15, f"{it:,}", text_anchor="middle", fill="#505860", font_size=SMALL)]
    parts.append(text((left + right) / 2, bottom + 32, "documents", text_anchor="middle", fill="#505860", font_size=SMALL))
    return parts, place


def labelled(panel, points, lines, top, bottom):
    """Marks with their labels."""
    marks = [(it.x - 5, it.y - 5, it.x + 5, it.y + 5) for it in points]
    for count in dict.fromkeys(it.documents for it in points):
        column = sorted((it for it in points if it.documents == count), key=lambda it: it.y)
        for it, box in zip(column, labels_of(column, marks, lines, top, bottom)):
            style, said = style_of(it.series), f"{panel.title}, {it.series}, {count:,} documents: {it.figure}"
            yield mark(it.x, it.y, style, said, panel=panel.title.lower(), series=it.series, documents=count, value=it.figure)
            yield text(it.x, box[1] + 11, short(it.figure), text_anchor="middle", font_size=SMALL, fill=style.letters, stroke="#ffffff", stroke_width=3, paint_order="stroke")


def panel_of(panel, sizes, left, top):
    """A panel: for each series its marks, lines between them and a label for each."""
    parts, place = grid_of(panel, sizes, left, left + 324, top, top + 190)
    points = [Point(*place(count, figure), series, count, figure) for series, figures in panel.figures.items() for count, figure in figures.items()]
    pairs = [(before, after) for before, after in zip(points, points[1:]) if before.series == after.series]
    parts += ['<g stroke-width="1.5">', *(line(before.x, before.y, after.x, after.y, style_of(after.series).colour) for before, after in pairs), "</g>"] if pairs else []
    return [*parts, *labelled(panel, points, [(*before[:2], *after[:2]) for before, after in pairs], top - 6, top + 192)]


def sizes_picture(tiers):
    """A panel each for searches, bulks, the start and memory."""
    tiers = sorted(tiers, key=lambda it: it.documents)
    panels, peers = panels_of(tiers), peers_of(tiers)
    title = title_of("Cost by number of documents", peers)
    lines = ["Search is the geometric mean of the classes, as bulks leave the index. Start and memory are those of indexd.", f"{http_of(peers)} Both axes are logarithmic. Lower is better."]
    parts = [*heading(title, lines), *legend(94, ["indexd", *peers])]
    for at, panel in enumerate(panels):
        parts += panel_of(panel, [it.documents for it in tiers], 74 + 408 * (at % 2), 144 + 270 * (at // 2))
    names = ", ".join(f"{it.title.lower()} ({it.unit})" for it in panels)
    said = f"Panels for {names}; in each, marks for {', '.join(['indexd', *peers])} at {', '.join(f'{it.documents:,}' for it in tiers)} documents."
    return title, svg(144 + 270 * ((len(panels) + 1) // 2) - 26, title, said, parts)


def pictures_of(sections):
    """By file, the title of a picture and the picture, or None where no section has figures for it."""
    tiers = {name: tier for name in TIERS if (tier := tier_of(sections.get(name, "")))}
    return {
        "speed-searches.svg": searches_picture(tiers["tiers"]) if "tiers" in tiers else None,
        "speed-sizes.svg": sizes_picture([*tiers.values()]) if tiers else None,
    }
