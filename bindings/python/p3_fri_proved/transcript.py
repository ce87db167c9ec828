"""A transcript of an application: what it absorbs and draws before an opening."""
from __future__ import annotations

import struct

from .flat import bytes_of
from .scheme import challenge
from .types import BABY_BEAR, ExtensionElement, Field

LABEL, ABSORBED, DRAWN = range(3)


class Transcript:
    """What an application absorbs, and the challenges that it draws in between: both sides do the same, and so have the same
    challenges. Its bytes are the context of `open` and `verify`, which draw all that they draw after them.

    It begins with a label that no other application uses: a name and a version. Then all that is public is absorbed, and each
    commitment once it is made. A challenge depends on all that comes before it, and on nothing that comes later. A verifier
    makes a transcript of its own, of what it knows and of the commitments that it was sent.

    Its bytes are parts, one after another, in the order of the calls. A part is a byte for its kind; the number of its bytes, in
    eight bytes, the highest first; and so many bytes. Kind 0 is the label, the first part and no other; 1 what is absorbed by
    one call; 2 a challenge: the numbers of its coefficients, the lowest byte first, in as many bytes as the flat form has. No part
    begins another, so different sequences of calls have different bytes.
    """

    def __init__(self, label: bytes) -> None:
        self._bytes = bytearray()
        self._push(LABEL, label)

    def absorb(self, part: bytes) -> None:
        """Absorbs bytes. Those of one call are one part: `absorb(b"ab")` isn't `absorb(b"a")` and then `absorb(b"b")`."""
        self._push(ABSORBED, part)

    def challenge(self, field: Field = BABY_BEAR) -> ExtensionElement:
        """Draws a challenge of the field's extension, which depends on all that stands before it, and absorbs it. It takes time
        in proportion to the bytes so far, some half a second for a million: of what is long a digest is absorbed. After an
        error the transcript is as it was."""
        drawn = challenge(self.context(), field)
        self._push(DRAWN, bytes_of(drawn, "challenge", field.element_bytes))
        return drawn

    def context(self) -> bytes:
        """The bytes so far."""
        return bytes(self._bytes)

    def _push(self, kind: int, part: bytes) -> None:
        self._bytes += struct.pack(">BQ", kind, len(part)) + bytes(part)
