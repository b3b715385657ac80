"""Memory that is lent to the library, and counts what is asked for."""
from __future__ import annotations

import ctypes
from ctypes import CFUNCTYPE, c_size_t, c_void_p

TAKE = CFUNCTYPE(c_void_p, c_void_p, c_size_t)
GIVE_BACK = CFUNCTYPE(None, c_void_p, c_void_p, c_size_t)
SYSTEM = ctypes.CDLL(None)
SYSTEM.malloc.argtypes, SYSTEM.malloc.restype = [c_size_t], c_void_p
SYSTEM.free.argtypes, SYSTEM.free.restype = [c_void_p], None


class Functions(ctypes.Structure):
    """hayro_jbig2_memory."""

    _fields_ = [("take", TAKE), ("give_back", GIVE_BACK), ("user", c_void_p)]


class CountingMemory:
    """Memory by malloc and free. `asked` are the bytes of all blocks so far, `held` those that weren't given back."""

    def __init__(self) -> None:
        self.asked = self.held = 0
        self.functions = Functions(TAKE(self._take), GIVE_BACK(self._give_back), None)

    @property
    def lent(self) -> object:
        """What calls take as the caller's memory."""
        return ctypes.byref(self.functions)

    def _take(self, _user: int | None, size: int) -> int | None:
        self.asked += size
        self.held += size
        return SYSTEM.malloc(size)

    def _give_back(self, _user: int | None, block: int, size: int) -> None:
        self.held -= size
        SYSTEM.free(block)
