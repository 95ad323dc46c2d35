"""The results as a table, and as a chart."""
from html import escape

ROW, TITLE, LEFT, WIDTH, ACROSS = 18, 30, 130, 460, 700
DARK, LIGHT = "#9a3412", "#e3a98a"


def fault(result):
    """In a word why a trial has no figures."""
    return result["fault"].split(":")[0]


def share(result, kind="lost"):
    """The share of lost states in percent."""
    return 100.0 * result[kind] / result["states"]


def percent(part):
    """A share as a text."""
    return "%.1f%%" % part if part else "0"


def part_of(count, whole):
    """A count and what it is of."""
    return "%d of %d" % (count, whole)


def lines(results):
    """The lines of the table, start by start."""
    row = "%-15s %6s %6s  %-10s %-8s %-12s %-8s %-12s %-12s"
    start = None
    for result in results:
        if result["start"] != start:
            start = result["start"]
            yield "\nStart: " + start
            yield row % ("program", "writes", "syncs", "moments", "share", "states", "between",
                         "own reading", "no garbage")
        if "fault" in result:
            yield "%-15s %s" % (result["program"], result["fault"])
            continue
        yield row % (
            result["program"], result["writes"], result["syncs"],
            part_of(result["moments_that_lose"], result["moments"]), percent(share(result)),
            part_of(result["lost"], result["states"]), result["between"],
            part_of(result["lost_by_own_reading"], result["states"]),
            part_of(result["lost_without_garbage"], result["states_without_garbage"]))


def chart(results):
    """The chart, as the text of an SVG file: two bars for each program from each start."""
    shapes, at, start = [], 52, None
    for result in results:
        if result["start"] != start:
            start = result["start"]
            shapes.append(text(8, at + TITLE - 8, "Start: " + start, "bold"))
            at += TITLE
        shapes += row_of(at, result)
        at += ROW
    return "\n".join([
        '<svg xmlns="http://www.w3.org/2000/svg" viewBox="0 0 %d %d" width="%d"'
        ' font-family="sans-serif" font-size="12">' % (ACROSS, at + 12, ACROSS),
        '<title>Share of the tried crash states that lose the table</title>',
        '<style>.bold{font-weight:bold}.head{font-size:15px;font-weight:bold}.end{text-anchor:end}'
        '</style>',
        '<rect width="100%" height="100%" fill="#fff"/>',
        text(8, 22, "Share of the tried crash states that lose the table", "head"),
        bar(8, 34, 14, 8, DARK), text(28, 43, "read by the rules of the format"),
        bar(238, 34, 14, 8, LIGHT), text(258, 43, "read by the program itself"),
        *shapes, "</svg>", ""])


def row_of(at, result):
    """The shapes of a row, with its part of the line from which bars begin."""
    yield '<path d="M%d %dv%d" stroke="#999"/>' % (LEFT, at, ROW)
    yield text(LEFT - 6, at + 12, result["program"], "end")
    if "fault" in result:
        yield text(LEFT + 5, at + 12, fault(result))
        return
    parts = [share(result, kind) for kind in ("lost", "lost_by_own_reading")]
    for down, part, color in zip((2, 9), parts, (DARK, LIGHT)):
        if part:
            yield bar(LEFT, at + down, WIDTH * part / 100, 6, color)
    words = "0" if not any(parts) else ", ".join(map(percent, parts))
    yield text(LEFT + 5 + WIDTH * max(parts) / 100, at + 12, words)


def bar(across, down, width, height, color):
    """A bar at a place."""
    return '<rect x="%d" y="%d" width="%.1f" height="%d" fill="%s"/>' % (
        across, down, width, height, color)


def text(across, down, words, kind=""):
    """A text at a place."""
    return '<text x="%.0f" y="%.0f"%s>%s</text>' % (
        across, down, ' class="%s"' % kind if kind else "", escape(words))
