"""What a script says where it can't do what was asked for, and the statuses that go with it."""

WRONG_WORDS, REFUSED_SESSION, NO_PROGRAM = 1, 2, 125


class Refused(Exception):
    """What was asked for can't be done: the status, and a text for its reader."""

    def __init__(self, status, text):
        super().__init__(text)
        self.status = status
