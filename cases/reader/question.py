"""One question about a configuration: whether somebody may do something in a channel."""
import difflib

from . import mumble, rights


class NoSuch(Exception):
    """The question names what is not there."""


def nearest(word, names):
    """`; did you mean "Speak"?`, where a name is like a word."""
    near = difflib.get_close_matches(word.lower(), {name.lower(): name for name in names}, 1, 0.6)
    return f'; did you mean "{ {name.lower(): name for name in names}[near[0]]}"?' if near else ""


def asker_named(answers, word):
    """Who is meant: an account by its name or number, a group, a token, guests or any account."""
    by_word = {}
    for asker in answers.askers:
        for name in (asker.key, asker.key.partition(" ")[2], asker.name if asker.key.startswith("account ") else None):
            if name:
                by_word.setdefault(name, asker)
    if word not in by_word:
        raise NoSuch(f'nobody is called "{word}" there{nearest(word, by_word)}')
    return by_word[word]


def permission_named(word):
    """The name of a permission, in any case."""
    for name in mumble.PERMISSIONS:
        if name.lower() == word.lower():
            return name
    raise NoSuch(f'no permission is called "{word}"{nearest(word, mumble.PERMISSIONS)}')


def channel_named(document, word):
    """The number of a channel that is named by its number, its path, or a name that no other has."""
    channels = rights.channels_of(document)
    paths = {number: rights.path_text(document, number) for number in channels}
    found = [number for number in channels if word == str(number)]
    found = found or [number for number, path in paths.items() if path == word]
    found = found or [number for number in channels if channels[number].get("name") == word]
    if len(found) > 1:
        raise NoSuch(f'channels {", ".join(map(str, found))} are called "{word}": name one by its number')
    if not found:
        raise NoSuch(f'no channel is called "{word}"{nearest(word, [path.rpartition(" / ")[2] for path in paths.values()])}')
    return found[0]


def answer_to(document, answers, who, permission, channel):
    """`yes: ann (1) may Speak in 3 Hall / Stage`, with what is different once they are inside."""
    asker, name = asker_named(answers, who), permission_named(permission)
    number = channel_named(document, channel)
    arrival = answers.at_arrival[number, asker.key]
    inside = answers.inside.get((number, asker.key), arrival)
    may, may_inside = (bool(bits & mumble.PERMISSIONS[name]) for bits in (arrival, inside))
    words = f"{asker.label} may {'' if may else 'not '}{name} in {number} {rights.path_text(document, number)}"
    more = "" if may == may_inside else f", and may {'' if may_inside else 'not '}once inside"
    return f"{'yes' if may else 'no'}: {words}{more}"


def answer(question):
    """The answer of the table `questions`: `DOCUMENT may WHO, PERMISSION, CHANNEL`."""
    text, _, rest = question.partition(" may ")
    try:
        return answer_to(*rights.known(text), *rest.split(", "))
    except NoSuch as error:
        return str(error)
