"""Pages of HTML, and JSON, as docs/who-may writes them: each is to be read back as what it shows."""
import json
import sys
from xml.etree import ElementTree

from . import program, rights
from .suspicious import findings

sys.path.append(str(program.TOP / "docs"))

from rights.page import page_of  # noqa: E402
from rights.table import json_of, table_of  # noqa: E402

DOCTYPE = "<!DOCTYPE html>\n"


def on_page(page):
    """What a page shows: its channels, how many rows they have, and what is suspicious."""
    root = ElementTree.fromstring(page.removeprefix(DOCTYPE))
    rows = root.findall("body/table/tbody/tr")
    channels = [row[0].text for row in rows if row.get("class") == "channel"]
    suspicious = [line.text for line in root.findall("body/ul/li")]
    return " | ".join([*channels, f"{len(rows) - len(channels)} rows", *suspicious])


def in_json(text):
    """The same of a table as JSON."""
    told = json.loads(text)
    channels = [f"{channel['id']} {channel['path']}" for channel in told["channels"]]
    rows = sum(len(channel["rows"]) for channel in told["channels"])
    return " | ".join([*channels, f"{rows} rows", *told["suspicious"]])


def answer(question):
    """The answer of the table `pages`: what the page shows; and the JSON, where that has something else."""
    document, answers = rights.known(question)
    channels, suspicious = table_of(document, answers), findings(document, answers)
    shown, told = on_page(page_of(question, channels, suspicious)), in_json(json_of(channels, suspicious))
    return shown if shown == told else f"{shown}; as JSON {told}"
