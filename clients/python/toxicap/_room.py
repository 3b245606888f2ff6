"""Room for what the library writes."""
import ctypes
import mmap
from typing import Optional

LITTLE = 262144  # bytes of room that are had at once; more is had page by page


class Room:
    """Where it is large it takes memory as it is written, page by page, and gives back the pages that were taken out: so room that stays empty costs
    nothing, and no output is held twice for long."""

    __slots__ = "size", "taken", "given_back", "pages", "buffer"

    def __init__(self, size: int) -> None:
        self.size, self.taken, self.given_back = size, 0, 0  # bytes
        self.pages: Optional[mmap.mmap] = None
        if size <= LITTLE:
            self.buffer = (ctypes.c_char * size)()
            return
        try:
            self.pages = mmap.mmap(-1, size, flags=mmap.MAP_PRIVATE | mmap.MAP_ANONYMOUS)
        except OSError:
            raise MemoryError(f"{size} bytes of room") from None
        self.buffer = (ctypes.c_char * size).from_buffer(self.pages)

    def at_least(self, size: int) -> "Room":
        """This room, or a new one where it is smaller."""
        return self if size <= self.size else Room(size)

    def take(self, size: int) -> bytes:
        """The next bytes."""
        start, self.taken = self.taken, self.taken + size
        taken = memoryview(self.buffer)[start : self.taken].tobytes()
        if self.pages:
            whole = self.taken - self.taken % mmap.PAGESIZE
            if whole > self.given_back:
                self.pages.madvise(mmap.MADV_DONTNEED, self.given_back, whole - self.given_back)
            self.given_back = whole
        return taken


def guessed_room(size: int) -> Room:
    """Room of a size that is guessed. If it is refused there is none, and the library says how much there has to be."""
    try:
        return Room(size)
    except MemoryError:
        return Room(0)
