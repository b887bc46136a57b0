"""Pictures of generated recordings, as docs/picture draws them: each is to be a document that a browser opens."""
import sys
from xml.etree import ElementTree

from . import program
from .random_steps import WORKERS, generate
from .table import NoCase
from .words import number

sys.path.append(str(program.TOP / "docs"))

from drawing import NoStory, picture_of  # noqa: E402

SVG = "{http://www.w3.org/2000/svg}svg"
EXAMPLES = program.TOP / "examples"
HEAD = ("recording", "workers", "limits", "config")


def drawn(seed, rounds, limits):
    """The kinds of steps of a recording that was generated and drawn. A picture that is no SVG is an error."""
    steps, lines = generate(seed, rounds)
    recording = program.recording_of(None, steps, workers=WORKERS, limits=limits).splitlines()
    for pings in (True, False):
        root = ElementTree.fromstring(picture_of(recording, lines, pings))
        if root.tag != SVG or not list(root):
            raise NoCase(f"seed {seed} is no picture")
    return {step.split(" ")[0] for step in recording if step.partition(" ")[0] not in HEAD}


def generated(question):
    """`SEED..SEED of N rounds`, and the limits of the server behind `under limits`."""
    seeds, _, rest = question.partition(" of ")
    rounds, _, limits = rest.partition(" rounds")
    first, last = map(number, seeds.split(".."))
    kinds = [drawn(seed, number(rounds), limits.removeprefix(" under limits ")) for seed in range(first, last + 1)]
    return f"{len(kinds)} pictures of {' '.join(sorted(set().union(*kinds)))}"


def beside(question):
    """`RECORDING beside TRANSCRIPT`, two files of the folder `examples`."""
    recording, transcript = ((EXAMPLES / name).read_text("utf-8").splitlines() for name in question.split(" beside "))
    try:
        return f"a picture of {len(picture_of(recording, transcript, True).splitlines())} lines"
    except NoStory as error:
        return str(error)


def answer(question):
    """The answer of the table `pictures`."""
    return beside(question) if " beside " in question else generated(question)
