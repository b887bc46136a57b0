"""The picture of rows, as SVG."""
import textwrap
from html import escape

from reader.mumble import printable

from .rows import MOST_WORDS, SERVER, shortened

STEP, COLUMN, TOP, ROWS_OF_A_PAGE = 22, 84, 64, 40
COLOURS = {"said": "#333333", "voice": "#1f5fa8", "denied": "#b03030"}


def place(column):
    """Where a column stands."""
    return 70 + COLUMN * column


def words_at(x, y, text, colour="#333333", anchor="start", weight="normal"):
    """Words at a place."""
    return (f'<text x="{x}" y="{y}" font-family="sans-serif" font-size="13" font-weight="{weight}" '
            f'fill="{colour}" text-anchor="{anchor}">{escape(printable(text))}</text>')


def dot(x, y, colour):
    """A dot, where a row begins."""
    return f'<circle cx="{x}" cy="{y}" r="3.5" fill="{colour}"/>'


def head(x, y, to_right, colour):
    """The head of an arrow that ends at a place."""
    back = x - 9 if to_right else x + 9
    return f'<path d="M {x} {y} L {back} {y - 4.5} L {back} {y + 4.5} z" fill="{colour}"/>'


def arrow(row, y):
    """The line of a row, from who said it to all who got it."""
    colour = COLOURS[row.look]
    start, ends = place(row.source), [place(target) for target in row.targets]
    parts = [dot(start, y, colour)]
    for end in ends:
        parts.append(f'<line x1="{start}" y1="{y}" x2="{end}" y2="{y}" stroke="{colour}" stroke-width="1.4"/>')
        parts.append(head(end, y, end > start, colour))
    return parts


def lines_of(row):
    """The words of a row, in lines that are not too long."""
    return textwrap.wrap(printable(row.said()), MOST_WORDS, break_on_hyphens=False) or [""]


def row_parts(row, lines, y, right):
    """A row: its line of the recording, its arrow, and its words."""
    number = words_at(36, y + 4, str(row.line), "#999999", "end")
    words = [words_at(right, y + 4 + STEP * place_of, line, COLOURS[row.look]) for place_of, line in enumerate(lines)]
    return [number] + arrow(row, y) + words


def column_parts(column, name, bottom):
    """A column: who it is, and a line down to the end."""
    x = place(column)
    return names_at(column, name, 26) + [
        f'<line x1="{x}" y1="{TOP - 12}" x2="{x}" y2="{bottom}" stroke="#cccccc" stroke-width="1"/>']


def names_at(column, name, y):
    """Who a column is, and the number of its connection."""
    under = "" if column == SERVER else f"({column})"
    return [words_at(place(column), y, name, anchor="middle", weight="bold"),
            words_at(place(column), y + 17, under, "#999999", "middle")]


def names_again(columns, y):
    """The names of all columns, in front of the rows of a further page."""
    width = place(len(columns)) - 36
    parts = [f'<rect x="40" y="{y - 16}" width="{width - 50}" height="38" fill="#ffffff"/>']
    for column, name in enumerate(columns):
        parts += names_at(column, name, y)
    return parts


def picture(names, rows):
    """The whole picture. In a long one the names come again in front of each further page of rows."""
    columns = [shortened(name or "?", 12) for name in ["server", *names]]
    lines = [lines_of(row) for row in rows]
    right, y, parts = place(len(columns)) - 36, TOP, []
    for place_of, row in enumerate(rows):
        if place_of and place_of % ROWS_OF_A_PAGE == 0:
            parts += names_again(columns, y)
            y += 2 * STEP
        parts += row_parts(row, lines[place_of], y, right)
        y += STEP * len(lines[place_of])
    widest = max((len(line) for words in lines for line in words), default=0)
    width, height = right + 40 + 7 * widest, y + 10
    size = f'width="{width}" height="{height}"'
    start = [f'<svg xmlns="http://www.w3.org/2000/svg" {size} viewBox="0 0 {width} {height}">',
             f'<rect {size} fill="#ffffff"/>']
    for column, name in enumerate(columns):
        start += column_parts(column, name, y)
    return "\n".join(start + parts + ["</svg>"])
