"""The library's functions."""
from __future__ import annotations

import ctypes
import functools
import os
import platform
from typing import List

from .errors import Error, Malformed, OutOfMemory, ProcessorTooOld, Refused
from .types import Field

FILE = "libp3_fri_ffi.so"

# What a processor has to have, by the names of /proc/cpuinfo.
DEFAULT = ("cx16", "popcnt", "pni", "sse4_1", "sse4_2", "ssse3")
NEWER = ("avx", "avx2", "bmi1", "bmi2", "f16c", "fma", "abm", "movbe")
PROCESSORS = {"x86-64-v2": ("", DEFAULT), "x86-64-v3": ("x86-64-v3", DEFAULT + NEWER)}

# Enough for the text of a refusal, and for short answers.
ROOM_FOR_TEXT = 1024

# The functions over a field, which read one request each.
FIELD_CALLS = ("commit", "open", "verify", "challenge", "hiding_commit", "hiding_open", "hiding_verify")

# How many texts each of the others reads.
TEXT_CALLS = {
    "stark_check": 2,
    "stark_prove": 2,
    "stark_prove_hiding": 3,
    "stark_verify": 3,
    "stark_verify_hiding": 3,
}



class Handle(ctypes.Structure):
    """What the library knows a prover by. Its fields are the library's; all zeros it has none."""

    _fields_ = [("at", ctypes.c_void_p), ("is_open", ctypes.c_uint8)]


ANSWERED, REFUSED, MALFORMED, OUT_OF_MEMORY, BUFFER_TOO_SHORT = range(5)


def has_all(features: tuple[str, ...]) -> bool:
    """Whether the processor has these. Where the system doesn't say what it has, it is taken to."""
    if platform.machine() not in ("x86_64", "AMD64"):
        return False
    try:
        with open("/proc/cpuinfo", encoding="utf-8") as file:
            flags = next((line.split() for line in file if line.startswith("flags")), None)
    except OSError:
        return True
    return flags is None or set(features) <= set(flags)


@functools.lru_cache(maxsize=None)
def library() -> ctypes.CDLL:
    """The library, loaded once."""
    named = os.environ.get("P3_FRI_CPU", "x86-64-v2")
    if named not in PROCESSORS:
        raise Error(f"P3_FRI_CPU is {named}, not x86-64-v2 or x86-64-v3")
    part, features = PROCESSORS[named]
    if not has_all(features):
        raise ProcessorTooOld(f"ProcessorTooOld: the library is for processors of {named}")
    beside = os.path.join(os.path.dirname(os.path.abspath(__file__)), "..", "..", "lib")
    path = os.path.join(os.environ.get("P3_FRI_LIB", beside), part, FILE)
    if not os.path.isfile(path):
        raise Error(f"{path} is missing: P3_FRI_LIB names the folder with it, and tools/package writes it")
    loaded = ctypes.CDLL(path)
    size = ctypes.c_size_t
    arguments = {call: [ctypes.c_uint32] + [ctypes.c_char_p, size] for call in FIELD_CALLS}
    arguments.update({call: [ctypes.c_char_p, size] * texts for call, texts in TEXT_CALLS.items()})
    handle = ctypes.POINTER(Handle)
    arguments["prover_begin"] = [ctypes.c_uint32, ctypes.c_char_p, size, handle]
    arguments.update({call: [handle, ctypes.c_char_p, size] for call in ("prover_commit", "prover_open")})
    for call, types in arguments.items():
        function = getattr(loaded, f"p3_fri_{call}")
        function.argtypes = [*types, ctypes.c_char_p, size, ctypes.POINTER(size)]
        function.restype = ctypes.c_uint8
    loaded.p3_fri_prover_close.argtypes = [handle]
    loaded.p3_fri_prover_close.restype = None
    return loaded


def answer_over(field: Field, call: str, request: bytes, room: int = ROOM_FOR_TEXT) -> bytes:
    """What a function over a field answers to a request."""
    return _answered(call, [field.number, request, len(request)], room)


def answer(call: str, *texts: bytes, room: int = ROOM_FOR_TEXT) -> bytes:
    """What a function answers to texts."""
    return _answered(call, [part for text in texts for part in (text, len(text))], room)


def begin(field: Field, parameters: bytes, handle: Handle) -> None:
    """Gives a handle a prover over a field."""
    _answered("prover_begin", [field.number, parameters, len(parameters), ctypes.byref(handle)], ROOM_FOR_TEXT)


def answer_of(handle: Handle, call: str, request: bytes, room: int = ROOM_FOR_TEXT) -> bytes:
    """What a handle's prover answers to a request."""
    return _answered(call, [ctypes.byref(handle), request, len(request)], room)


def close(handle: Handle) -> None:
    """Frees a handle's prover, if it has one."""
    library().p3_fri_prover_close(ctypes.byref(handle))


def _answered(call: str, passed: List[object], room: int) -> bytes:
    """What a function answers, with so much room at first; where that is too short, it is called once more with as much as it
    says."""
    function = getattr(library(), f"p3_fri_{call}")
    needed = ctypes.c_size_t(0)
    for _ in range(2):
        buffer = ctypes.create_string_buffer(room)
        status = function(*passed, buffer, room, ctypes.byref(needed))
        if status != BUFFER_TOO_SHORT:
            break
        room = needed.value
    if status == OUT_OF_MEMORY:
        raise OutOfMemory("OutOfMemory: out of memory")
    written = ctypes.string_at(buffer, needed.value)
    if status == ANSWERED:
        return written
    error = Refused if status == REFUSED else Malformed
    raise error(written.decode("utf-8", "replace"))
