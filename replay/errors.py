"""Outside the proof. The errors that end a replay."""


class BadInput(Exception):
    """A journal, a state or a policy is not what it must be: exit status 3."""


class BadCommand(Exception):
    """The command line is wrong: exit status 2."""


class Failed(Exception):
    """The allocator, a read or a write failed: exit status 1, or the status given."""

    def __init__(self, message, status=1):
        super().__init__(message)
        self.status = status
