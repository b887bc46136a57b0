"""What is different between two configurations: of each channel and of each who asks in both, the permissions."""
from . import mumble
from .rights import channels_of, gathered, known, path_text


def change_text(before, after):
    """`+Enter -Speak`: what one may do now, and what no longer."""
    signs = [("+" if after & bit else "-") + name for name, bit in mumble.PERMISSIONS.items() if (before ^ after) & bit]
    return " ".join(signs)


def only_lines(kind, here, there):
    """What is in one document alone, by keys with their names."""
    yield from (f"only in the first: {kind}{name}" for key, name in here.items() if key not in there)
    yield from (f"only in the second: {kind}{name}" for key, name in there.items() if key not in here)


def paths_of(document):
    """The paths of the channels by their numbers."""
    return {number: f"{number} {path_text(document, number)}" for number in channels_of(document)}


def changes(first, second, keys, number):
    """Changes in a channel, each with those whom it concerns; what is different only once they are inside is said."""
    for key, label in keys.items():
        pairs = [(one.at_arrival[number, key], one.inside.get((number, key))) for one in (first, second)]
        (arrival, inside), (arrival_now, inside_now) = pairs
        if arrival != arrival_now:
            yield label, change_text(arrival, arrival_now)
        inside = arrival if inside is None else inside
        inside_now = arrival_now if inside_now is None else inside_now
        if inside ^ inside_now != arrival ^ arrival_now:
            yield label, "inside: " + (change_text(inside, inside_now) or "as before")


def difference_lines(documents, answers):
    """The lines of the difference of two documents, by the answers to those who asked."""
    first, second = answers
    keys, keys_now = ({asker.key: asker.label for asker in one.askers} for one in answers)
    paths, paths_now = map(paths_of, documents)
    for kind, before, now in (("channel ", paths, paths_now), ("", keys, keys_now)):
        yield from only_lines(kind, before, now)
        yield from (f"{kind}{name} is now {now[key]}" for key, name in before.items() if now.get(key, name) != name)
    both = {key: label for key, label in keys_now.items() if key in keys}
    for number in paths_now:
        if number in paths:
            found = list(gathered(changes(first, second, both, number)))
            if found:
                yield paths_now[number]
            yield from (f"  {change}  {', '.join(who)}" for change, who in found)


def answer(question):
    """The answer of the table `differences`: `DOCUMENT becomes DOCUMENT`."""
    documents, answers = zip(*map(known, question.split(" becomes ")))
    return " | ".join(line.strip() for line in difference_lines(documents, answers)) or "nothing"
