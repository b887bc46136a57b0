"""The order of channels in a configuration, and the text of one that a script makes."""
import json

MOST_BYTES = 65_536


class TooLong(ValueError):
    """A configuration has more bytes than it may have."""


def tree_order(parents, top=0):
    """The numbers of the channels below one, each parent in front of what is in it."""
    below = {}
    for number in sorted(parents):
        below.setdefault(parents[number], []).append(number)
    left = below.get(top, [])[::-1]
    while left:
        yield (number := left.pop())
        left += below.get(number, [])[::-1]


def numbering(parents):
    """The order of the channels below the root in a configuration, and the numbers that they have there.

    `parents` has the parent of each channel but the root. Channels keep their numbers where each parent has a smaller
    one than what is in it; else all get new ones, in the order of the tree.
    """
    if all(parent < number for number, parent in parents.items()):
        return sorted(parents), {0: 0} | {number: number for number in parents}
    order = list(tree_order(parents))
    return order, {0: 0} | {number: at for at, number in enumerate(order, 1)}


def text_of(document):
    """The configuration as a text that ends with a line feed, with white space where there is room for it."""
    for form in ({"indent": 2}, {"separators": (",", ":")}):
        text = json.dumps(document, ensure_ascii=False, **form) + "\n"
        if len(text.encode()) <= MOST_BYTES:
            return text
    raise TooLong(f"the configuration would have {len(text.encode()):,} bytes, and may have {MOST_BYTES:,}")
