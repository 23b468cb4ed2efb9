"""What the generator does not take: a line of the source, and what to write there by hand."""


class Refusal(Exception):
    """Ends the run with `error: FILE:LINE: MESSAGE`."""

    def __init__(self, line, message):
        super().__init__(message)
        self.line = line
        self.message = message
