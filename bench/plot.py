"""Draws bars as SVG: groups of them, one below the other, each bar with its number."""
from html import escape

WIDTH, NAMES, RIGHT, BAR, BETWEEN, TOP = 860, 330, 90, 16, 12, 30
COLOURS = ("#1b6ca8", "#d68910", "#2e8b57", "#8e44ad")


def text(x, y, words, anchor="start", colour="#222222"):
    return f'<text x="{x:.1f}" y="{y:.1f}" text-anchor="{anchor}" fill="{colour}">{escape(words)}</text>'


def bar(y, name, value, most, colour):
    """A bar with its name to the left and its number to the right."""
    wide = (WIDTH - NAMES - RIGHT) * value / most
    yield text(NAMES - 8, y + 12, name, "end")
    yield f'<rect x="{NAMES}" y="{y:.1f}" width="{wide:.1f}" height="{BAR - 3}" fill="{colour}"/>'
    yield text(NAMES + wide + 6, y + 12, f"{value:,.0f}")


def drawing(unit, is_shared, groups):
    """A drawing of groups of bars, each group a list of names with their numbers. One scale is for all groups, or each
    has its own."""
    parts, y = [text(NAMES, TOP - 12, unit)], TOP
    greatest = max(value for group in groups for _, value in group)
    for group in groups:
        most = greatest if is_shared else max(value for _, value in group)
        for place, (name, value) in enumerate(group):
            parts += bar(y, name, value, most, COLOURS[place % len(COLOURS)])
            y += BAR
        y += BETWEEN
    head = (f'<svg xmlns="http://www.w3.org/2000/svg" viewBox="0 0 {WIDTH} {y}" font-family="sans-serif" '
            f'font-size="13">\n<rect width="{WIDTH}" height="{y}" fill="#ffffff"/>')
    return "\n".join([head, *parts, "</svg>", ""])
