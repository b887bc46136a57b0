"""What an administrator is to know of a configuration that was made from a database."""


class Report:
    """Lines, each of one thing: what was left out and why, what was changed, and what means something else here."""

    def __init__(self):
        self.lines = []

    def left_out(self, what, why):
        self.lines.append(visible(f"left out: {what}: {why}"))

    def changed(self, what, how):
        self.lines.append(visible(f"changed: {what}: {how}"))

    def differs(self, what, how):
        self.lines.append(visible(f"differs: {what}: {how}"))


def visible(text):
    """A text on one line, with a question mark for each character that is not seen."""
    return "".join(one if one.isprintable() else "?" for one in text)


def shown(text, most=60):
    """The beginning of a text on one line."""
    return visible(text) if len(text) <= most else visible(text[:most - 2]) + ".."
