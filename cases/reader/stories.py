"""What docs/picture says became of packets of voice, on servers that the calls of a line make."""
import sys

from . import mumble, program, wire
from .answers import SPEAKING, VOICE
from .asking import posts
from .scene import Scene
from .words import calls_of, word_of

sys.path.append(str(program.TOP / "docs"))

from drawing.story import story_of  # noqa: E402


def answer(question):
    """The answer of the table `stories`: what became of each packet, one after the other."""
    scene, said = Scene(), []
    for call in calls_of(question):
        who, words = word_of(call)
        if who in SPEAKING:
            scene.dismiss()
            said.append(outcome(scene, who, words))
        else:
            scene.set_up(call)
    return "; ".join(said)


def outcome(scene, word, words):
    """Who hears a packet, or why nobody does."""
    document, user = scene.configuration.document(), scene.user(word_of(words)[0])
    frame = wire.frame(mumble.VOICE, bytes([0x80 | SPEAKING[word](words)]) + bytes.fromhex(VOICE))
    steps = delivered(document, scene.steps) + [f"frame {user.connection} {frame.hex()}", f"look 0 {scene.revision}"]
    recording = program.recording_of(document, steps)
    story = story_of(recording.splitlines(), program.run(["replay"], recording).lines, True)
    # the last row is the end
    return story.rows[-2].outcome


def delivered(document, steps):
    """The steps, with each edit published, and its notices collected at once by whoever is still there."""
    done, closed = [], set()
    for step, following in zip(steps, steps[1:] + [""]):
        done.append(step)
        word, connection, *_ = step.split(" ")
        if word == "close":
            closed.add(int(connection))
        if word == "tell" or word == "edit" and not following.startswith("tell "):
            done.append("publish")
            sessions = posts(document, done)
            # sessions of a scene have the numbers of their connections
            done += ["post"] * len(sessions) + [f"collect {one}" for one in sessions if one not in closed]
    return done
