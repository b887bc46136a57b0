"""Rows of a picture, and how rows that tell the same are gathered into one."""
SERVER = 0
MOST_WORDS = 110


class Row:
    """A row of the picture: from one column to others, what was said, and what came of it.

    `number` is that of a voice packet, whose text has a `{}` for it.
    """

    def __init__(self, line, source, targets, text, look="said", number=None):
        self.line, self.source, self.targets, self.text, self.look = line, source, targets, text, look
        self.number = self.last_number = number
        self.outcome = ""

    def said(self):
        """The words of the row."""
        return self.words() + (f" [{self.outcome}]" if self.outcome else "")

    def words(self):
        """The text, with the number of its packet, or of the first and the last."""
        if self.number is None:
            return self.text
        if self.last_number == self.number:
            return self.text.format(f"packet {self.number}")
        return self.text.format(f"packets {self.number} to {self.last_number}")

    def is_speech(self):
        """Whether it is a packet of voice."""
        return self.number is not None

    def is_like(self, other):
        """Whether two rows say the same."""
        return (self.source, self.targets, self.said()) == (other.source, other.targets, other.said())

    def is_more_speech(self, other):
        """Whether two packets of voice differ in their numbers alone."""
        return (self.source, self.text, self.outcome) == (other.source, other.text, other.outcome)


def shortened(text, most):
    """A text that is cut off where it is longer."""
    return text if len(text) <= most else text[:most - 2] + ".."


def runs_of(rows):
    """Rows that follow one another and are frames for the same columns."""
    run = []
    for row in rows:
        if run and (row.source, row.targets) != (SERVER, run[-1].targets):
            yield run
            run = []
        run.append(row)
        if row.source != SERVER or not row.targets:
            yield run
            run = []
    if run:
        yield run


def counted(names):
    """Names that follow one another, each once, with how often it comes."""
    groups = []
    for name in names:
        if groups and groups[-1][0] == name:
            groups[-1][1] += 1
        else:
            groups.append([name, 1])
    return ", ".join(name if count == 1 else f"{count} times {name}" for name, count in groups)


def by_types(rows):
    """The rows, where more than two frames in a row for one column are told by their types alone."""
    for run in runs_of(rows):
        if len(run) > 2 and run[0].look == "said":
            text = counted([row.text.split(" ")[0] for row in run])
            yield Row(run[0].line, SERVER, run[0].targets, text)
        else:
            yield from run


def folded(rows):
    """The rows, where those that are alike and follow one another are one row."""
    groups = []
    for row in rows:
        if groups and groups[-1][0].is_like(row):
            groups[-1].append(row)
        else:
            groups.append([row])
    for group in groups:
        if len(group) > 1:
            group[0].text = f"{len(group)} times {group[0].text}"
        yield group[0]


def speeches(rows):
    """Packets of voice, each with the copies of it that follow; any other row alone."""
    group = []
    for row in rows:
        if group and not (group[0].is_speech() and row.source == SERVER and row.look == "voice"):
            yield group
            group = []
        group.append(row)
    if group:
        yield group


def is_more(group, other):
    """Whether two groups are packets of one speaker that go the same way."""
    return (group[0].is_speech() and other[0].is_speech() and group[0].is_more_speech(other[0])
            and len(group) == len(other) and all(one.is_like(two) for one, two in zip(group[1:], other[1:])))


def without_runs_of_speech(rows):
    """The rows, where packets of one speaker that follow one another and go the same way are told once."""
    groups = []
    for group in speeches(rows):
        if groups and is_more(groups[-1], group):
            groups[-1][0].last_number = group[0].last_number
        else:
            groups.append(group)
    return [row for group in groups for row in group]


def gathered(rows):
    """The rows of a picture: frames in a row by their types, runs of speech as one, and rows that are alike once."""
    return list(folded(without_runs_of_speech(by_types(rows))))
