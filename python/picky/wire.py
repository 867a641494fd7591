"""Fields of the wire (RFC 4251, section 5), where the library hands out or takes several in one run of bytes."""
from __future__ import annotations

from typing import List, Union

from .errors import LibraryFault

Data = Union[bytes, bytearray, memoryview]


class Fields:
    """Fields, taken from the front of some bytes. What the bytes don't have is refused: `LibraryFault`."""

    def __init__(self, content: Data) -> None:
        self.left = memoryview(content)

    def take(self, count: int) -> memoryview:
        """So many bytes."""
        if count > len(self.left):
            raise LibraryFault("a field is longer than what it stands in")
        taken, self.left = self.left[:count], self.left[count:]
        return taken

    def byte(self) -> int:
        """The number of a byte."""
        return self.take(1)[0]

    def uint32(self) -> int:
        """A uint32."""
        return int.from_bytes(self.take(4), "big")

    def string(self) -> memoryview:
        """The bytes of a string."""
        return self.take(self.uint32())

    def text(self) -> str:
        """A string that is UTF-8, as the library says of it."""
        return bytes(self.string()).decode()

    def mpint(self) -> int:
        """An mpint that isn't negative."""
        content = self.string()
        if content and content[0] >= 0x80:
            raise LibraryFault("an mpint is negative")
        return int.from_bytes(content, "big")

    def strings(self) -> List[memoryview]:
        """All strings that are left."""
        found = []
        while self.left:
            found.append(self.string())
        return found


def uint32(number: int) -> bytes:
    """The bytes of a uint32."""
    return number.to_bytes(4, "big")


def string(content: Data) -> bytes:
    """The bytes of a string."""
    return uint32(len(content)) + content


def mpint(number: int) -> bytes:
    """The bytes of an mpint that isn't negative."""
    return string(number.to_bytes(number.bit_length() // 8 + 1, "big") if number else b"")
