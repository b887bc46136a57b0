"""The table as a page of HTML."""
from html import escape

from reader import mumble

HEAD = """<!DOCTYPE html>
<html lang="en">
<head>
<meta charset="utf-8"/>
<title>{title}</title>
<style>
body {{ font: 15px/1.4 sans-serif; margin: 2em; }}
table {{ border-collapse: collapse; }}
th, td {{ border: 1px solid #ccc; padding: 0.2em 0.5em; text-align: left; vertical-align: top; }}
thead th {{ position: sticky; top: 0; background: #eee; }}
thead th.permission {{ writing-mode: vertical-rl; }}
td.has {{ background: #cfe8cf; text-align: center; }}
tr.channel th {{ background: #f6f6f6; }}
</style>
</head>
<body>
<h1>{title}</h1>
"""


def row_lines(row):
    """A row of those who may do the same."""
    cells = "".join('<td class="has">yes</td>' if row.bits & bit else "<td></td>"
                    for bit in mumble.PERMISSIONS.values())
    inside = "inside: " if row.inside else ""
    yield f"<tr><td>{escape(inside + row.who)}</td>{cells}</tr>"


def channel_lines(channel):
    """A channel and its rows."""
    span = len(mumble.PERMISSIONS) + 1
    yield f'<tr class="channel"><th colspan="{span}">{channel.number} {escape(channel.path)}</th></tr>'
    for row in channel.rows:
        yield from row_lines(row)


def suspicious_lines(suspicious):
    """What is suspicious, as a list."""
    if suspicious:
        yield "<h2>Suspicious</h2>"
        yield "<ul>"
        yield from (f"<li>{escape(line)}</li>" for line in suspicious)
        yield "</ul>"


def page_of(title, channels, suspicious):
    """The page."""
    names = "".join(f'<th class="permission">{name}</th>' for name in mumble.PERMISSIONS)
    lines = [*suspicious_lines(suspicious), "<h2>Who may do what</h2>", "<table>",
             f"<thead><tr><th>Who</th>{names}</tr></thead>", "<tbody>"]
    for channel in channels:
        lines += channel_lines(channel)
    return HEAD.format(title=escape(title)) + "\n".join(lines) + "\n</tbody>\n</table>\n</body>\n</html>\n"
