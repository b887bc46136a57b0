"""Draws recordings: their story, its rows, and the picture of them."""
from .rows import gathered
from .story import NoStory, story_of
from .svg import picture


__all__ = ["NoStory", "picture_of"]


def picture_of(recording, transcript, pings):
    """The picture of a recording and its transcript, as lines of text, with its Pings or without."""
    story = story_of(recording, transcript, pings)
    return picture(story.names, gathered(story.rows))
