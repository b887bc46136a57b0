"""A transcript beside its recording: the lines that each step told."""

HAVE_FRAMES = ("lacks", "refused", "rejected", "answer")


class Pairing:
    """What is known of connections so far, as far as it tells which `tell` has a frame."""

    def __init__(self):
        self.have_frames = set()
        self.closed = set()

    def count_of_lines(self, step, first):
        """How many lines a step told, the first of which is this one."""
        words = step.split(" ")
        if words[0] == "edit" and first.split(" ")[0] in HAVE_FRAMES:
            self.have_frames.add(words[1])
        elif words[0] == "close":
            self.closed.add(words[1])
        elif words[0] == "tell" and words[1] in self.have_frames:
            self.have_frames.discard(words[1])
            return 1 if words[1] in self.closed else 2
        return 1


def told_by_step(steps, lines):
    """The lines that each step told: one, and two of a `tell` whose verdict has a frame. It ends with the lines."""
    pairing, told, at = Pairing(), [], 0
    for step in steps:
        if at >= len(lines):
            break
        end = at + pairing.count_of_lines(step, lines[at])
        told.append(lines[at:end])
        at = end
    return told
