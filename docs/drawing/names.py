"""The names of users by their sessions and of channels by their numbers, as a recording shows them."""
from reader import mumble


class Names:
    """Users by their sessions and channels by their numbers, as commands and notices have named them."""

    def __init__(self):
        self.channels = {0: "Root"}
        self.names = {}

    def begins(self, document):
        """The channels of a configuration are there."""
        for channel in document.get("channels", []):
            self.channels.setdefault(channel["id"], channel.get("name", ""))

    def joins(self, name):
        """A user logged in; its session."""
        session = len(self.names) + 1
        self.names[session] = name
        return session

    def told(self, kind, message):
        """A notice of a channel names it."""
        if kind == mumble.CHANNEL_STATE and "name" in message:
            self.channels[message.get("channel_id")] = message["name"]

    def user(self, session):
        """The name of a session, or its number."""
        return self.names.get(session, f"session {session}")

    def session_text(self, session):
        """The name of a session behind the name of a field, or its number."""
        return self.names.get(session, str(session))

    def channel(self, number):
        """The name of a channel, or its number."""
        return self.channels.get(number, str(number))
