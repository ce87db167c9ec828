"""Why a call has no answer."""
import re


class Error(Exception):
    """Each of them. Its text is the library's."""


class _Named(Error):
    """A text that begins with a name."""

    def __init__(self, text: str) -> None:
        super().__init__(text)
        self.name = re.match(r"[A-Za-z0-9]*", text).group()


class Refused(_Named):
    """What was passed is well formed, and refused: `Name { numbers }: words`, of which `name` is the name. docs/USE.md says
    where each stands."""


class Malformed(_Named):
    """What was passed isn't well formed: `Name: place, words`, where the place is the commitment, the matrix, the point and
    the number, counted from 0. `name` is the name."""


class OutOfMemory(Error, MemoryError):
    """Memory was refused, which says nothing of what was passed."""


class ProcessorTooOld(Error):
    """The library was built for newer processors than this one."""
