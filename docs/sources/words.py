"""What the links of pages lead to, words that two pages have, and lines of sources that a page shows."""
import re

from .files import TOP, pages, text_of

RUN = 8
WRITTEN = ("docs/CALLS.md",)
# The page that shows lines of the sources which it names.
SHOWING = "docs/READING.md"


def headings(page):
    """The anchors of a page's headings."""
    text = re.sub(r"^```.*?^```", "", page.read_text(encoding="utf-8"), flags=re.MULTILINE | re.DOTALL)
    return {re.sub(r"[^\w\- ]", "", heading.lower()).strip().replace(" ", "-")
            for heading in re.findall(r"^#+ (.*)", text, re.MULTILINE)}


def runs_of(page):
    """The runs of RUN words in the lines of a page, code in one piece; the words of its examples do not count."""
    text = re.sub(r"^```.*?^```", "", text_of(page), flags=re.MULTILINE | re.DOTALL)
    for line in re.sub(r"\]\([^)\s]+\)", "]", text.lower()).splitlines():
        words = re.findall(r"`[^`]*`|\w+(?:[,.'/-]\w+)*", line)
        yield from (" ".join(words[start:start + RUN]) for start in range(len(words) - RUN + 1))


def said_twice():
    """The runs of words that a page has and an earlier one, but for pages that a script writes; of runs that follow one
    another the first."""
    first = {}
    for page in (page for page in pages() if page not in WRITTEN):
        before = page
        for run in runs_of(page):
            other = first.setdefault(run, page)
            if other not in (page, before):
                yield f"{page}: it says what {other} says: {run}"
            before = other


def dead_links():
    """The links of pages that lead nowhere."""
    for page in pages():
        for link in re.findall(r"\]\(([^)\s]+)\)", text_of(page)):
            name, _, anchor = link.partition("#")
            target = (TOP / page).parent / name if name else TOP / page
            if not link.startswith("http") and (not target.exists() or anchor and anchor not in headings(target)):
                yield f"{page}: its link {link} leads nowhere"


def lost_lines():
    """The lines in the examples of READING that none of the files which it names has."""
    text = text_of(SHOWING)
    named = [name for name in set(re.findall(r"`((?:crates|cases)/[\w/.-]+)`", text)) if (TOP / name).is_file()]
    sources = {line.strip() for name in named for line in text_of(name).splitlines()}
    for example in re.findall(r"^```\w*\n(.*?)^```", text, re.MULTILINE | re.DOTALL):
        yield from (f"{SHOWING}: no source that it names has {line}" for line in example.splitlines()
                    if line.strip() not in sources)
