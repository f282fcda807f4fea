"""The shared object: where it is, whether it is the one of this package, and how its calls are made."""

from __future__ import annotations

import ctypes
import operator
import os
from pathlib import Path
from typing import Any, Callable, Union

from ._errors import Fault, LibraryError, OutOfMemory, Refused, StateError

__version__ = "0.9.0"

Text = Union[str, bytes, bytearray, memoryview]

DONE, REFUSED, MISUSED, OUT_OF_MEMORY = range(4)
FIRST_CAPACITY = 4096


class Told(ctypes.Structure):
    """`struct entangle_told` of include/entangle.h."""

    needed: int
    offset: int
    line: int
    column: int
    code: int
    has_place: bool
    _fields_ = [
        ("needed", ctypes.c_size_t),
        ("offset", ctypes.c_size_t),
        ("line", ctypes.c_size_t),
        ("column", ctypes.c_size_t),
        ("code", ctypes.c_uint16),
        ("has_place", ctypes.c_bool),
    ]


class Position(ctypes.Structure):
    """`struct entangle_position` of include/entangle.h."""

    runs: int
    number: int
    kind: int
    failure: int
    _fields_ = [
        ("runs", ctypes.c_uint64),
        ("number", ctypes.c_uint64),
        ("kind", ctypes.c_uint32),
        ("failure", ctypes.c_uint32),
    ]


class Limits(ctypes.Structure):
    """`struct entangle_limits` of include/entangle.h."""

    _fields_ = [("most_waiters", ctypes.c_uint64), ("most_ended", ctypes.c_uint64)]


class TicketPosition(ctypes.Structure):
    """`struct entangle_ticket_state` of include/entangle.h."""

    batches: int
    demand: int
    epoch: int
    number: int
    kind: int
    failure: int
    _fields_ = [
        ("batches", ctypes.c_uint64),
        ("demand", ctypes.c_uint64),
        ("epoch", ctypes.c_uint64),
        ("number", ctypes.c_uint64),
        ("kind", ctypes.c_uint32),
        ("failure", ctypes.c_uint32),
    ]


class SubmissionSeen(ctypes.Structure):
    """`struct entangle_submission` of include/entangle.h."""

    epoch: int
    tx: int
    _fields_ = [("epoch", ctypes.c_uint64), ("tx", ctypes.c_uint64)]


_TEXT = (ctypes.c_char_p, ctypes.c_size_t)
_TOLD = ctypes.POINTER(Told)
_OUT = (ctypes.c_char_p, ctypes.c_size_t, _TOLD)
_DRIVER = ctypes.POINTER(ctypes.c_void_p)
_ROOM = _VALUES = _ROWS = _DRIVER
_NUMBER = ctypes.c_uint64
_TO_NUMBER = ctypes.POINTER(_NUMBER)
_REFUSAL = ctypes.POINTER(ctypes.c_uint32)

# The calls that answer a status, with what they take.
_STATUSES = {
    "version": _OUT,
    "report": (*_TEXT, ctypes.c_uint32, *_OUT),
    "explain": (*_TEXT, *_OUT),
    "check": (*_TEXT, *_OUT),
    "open": (_DRIVER, *_TEXT, _TOLD),
    "submit": (_DRIVER, *_TEXT, ctypes.POINTER(_NUMBER), _TOLD),
    "explain_script": (_DRIVER, *_TEXT, *_OUT),
    "run": (_DRIVER,),
    "make": (_DRIVER, ctypes.c_uint32, _NUMBER, ctypes.POINTER(ctypes.c_uint32)),
    "why": (_DRIVER, _NUMBER, *_OUT),
    "standing": (_DRIVER, _NUMBER, ctypes.POINTER(Position)),
    "answers": (_DRIVER, _NUMBER, *_OUT),
    "table": (_DRIVER, *_TEXT, *_OUT),
    "close": (_DRIVER,),
    "renew": (_DRIVER,),
    "closed_report": (_DRIVER, ctypes.c_uint32, *_OUT),
    "values_int": (_VALUES, *_TEXT, ctypes.c_int64, _REFUSAL),
    "values_text": (_VALUES, *_TEXT, *_TEXT, _REFUSAL),
    "rows_begin": (_ROWS, *_TEXT, _REFUSAL),
    "rows_int": (_ROWS, ctypes.c_int64, _REFUSAL),
    "rows_text": (_ROWS, *_TEXT, _REFUSAL),
    "room_open": (_ROOM, *_TEXT, _ROWS, *[_NUMBER] * 3, ctypes.POINTER(Limits), _REFUSAL, _TOLD),
    "room_put": (_ROOM, *_TEXT, _VALUES, ctypes.c_int64, _TO_NUMBER, _REFUSAL, _TOLD),
    "room_explain": (_ROOM, *_TEXT, _VALUES, *_OUT),
    "room_restore": (_ROOM, _NUMBER, *_TEXT, _VALUES, ctypes.c_int64, _NUMBER, _REFUSAL, _TOLD),
    "room_withdraw": (_ROOM, _NUMBER, _REFUSAL),
    "room_step": (_ROOM, ctypes.POINTER(ctypes.c_uint32), _REFUSAL),
    "room_further": (_ROOM, _REFUSAL),
    "room_state": (_ROOM, _NUMBER, ctypes.POINTER(TicketPosition)),
    "room_why": (_ROOM, _NUMBER, *_OUT),
    "room_waiting": (_ROOM, _NUMBER, _TO_NUMBER),
    "room_ended": (_ROOM, _NUMBER, _TO_NUMBER),
    "room_submission": (_ROOM, _NUMBER, _NUMBER, ctypes.POINTER(SubmissionSeen)),
    "room_groups": (_ROOM, _NUMBER, *_OUT),
    "room_next_group": (_ROOM, _TO_NUMBER),
    "room_settled_through": (_ROOM, _NUMBER),
    "room_table": (_ROOM, *_TEXT, *_OUT),
    "room_epoch": (_ROOM, _TO_NUMBER),
    "room_turn": (_ROOM, *_TEXT, _REFUSAL, _TOLD),
    "room_report": (_ROOM, ctypes.c_uint32, ctypes.c_char_p, ctypes.c_size_t, _TO_NUMBER, _TOLD),
}
_FREES = ("free", "values_free", "rows_free", "room_free")
_SIZES = {
    "size_of_told": Told,
    "size_of_position": Position,
    "size_of_limits": Limits,
    "size_of_ticket_state": TicketPosition,
    "size_of_submission": SubmissionSeen,
}


def _path() -> str:
    """Where the shared object is: as the environment says, beside this file, or where tools/archive links it."""
    here = Path(__file__).resolve().parent
    places = [here / "libentangle.so", here.parent.parent / "archive" / "libentangle.so"]
    found = next((place for place in places if place.is_file()), places[0])
    return os.environ.get("ENTANGLE_LIBRARY", str(found))


def _function(library: ctypes.CDLL, path: str, name: str) -> Any:
    try:
        return getattr(library, f"ent_c_{name}")
    except AttributeError:
        raise LibraryError(f"{path} isn't the library of entangle {__version__}: it has no ent_c_{name}") from None


def _loaded(path: str) -> ctypes.CDLL:
    """The shared object, if it is the one of this package."""
    try:
        library = ctypes.CDLL(path)
    except OSError as error:
        raise LibraryError(f"{error}: tools/archive builds it, see docs/EMBEDDING.md") from None
    for name, struct in _SIZES.items():
        function = _function(library, path, name)
        function.argtypes, function.restype = (), ctypes.c_size_t
        size = function()
        if size != ctypes.sizeof(struct):
            wanted = f"{ctypes.sizeof(struct)} bytes in entangle {__version__}"
            raise LibraryError(f"{path} isn't of this version: ent_c_{name} answers {size}, and it is {wanted}")
    for name, taken in _STATUSES.items():
        function = _function(library, path, name)
        function.argtypes, function.restype = taken, ctypes.c_int32
    for name in _FREES:
        function = _function(library, path, name)
        function.argtypes, function.restype = (_DRIVER,), None
    return library


def encoded(text: Text, what: str) -> bytes:
    """The bytes of a text. A half of a surrogate pair has bytes that aren't UTF-8, which the library refuses."""
    if isinstance(text, str):
        return text.encode("utf-8", "surrogatepass")
    if isinstance(text, (bytes, bytearray, memoryview)):
        return bytes(text)
    raise TypeError(f"{what} is a str or bytes, not {type(text).__name__}")


def checked_version(version: int) -> int:
    """The version of a report."""
    number = operator.index(version)
    if number not in (1, 2):
        raise ValueError(f"a report has version 1 or 2, not {number}")
    return number


def checked_tx(tx: int) -> int:
    """The number of a transaction as C has it; no script has the number 0."""
    number = operator.index(tx)
    return number if 0 <= number < 2**64 else 0


def fault_of(status: int, told: Told) -> Fault:
    """The fault that is told."""
    if status == OUT_OF_MEMORY:
        return OutOfMemory()
    if told.has_place:
        return Refused(told.code, told.offset, told.line, told.column)
    return Refused(told.code)


def raise_for(status: int, told: Told) -> None:
    """Raises what the status of a driver's call says."""
    if status == MISUSED:
        raise StateError("the driver is closed or freed; or, for a report or a renewal, it isn't closed")
    if status != DONE:
        raise fault_of(status, told)


def buffered(call: Callable[..., int], *given: object, capacity: int = FIRST_CAPACITY) -> tuple[int, str, Told]:
    """The status of a call, its text and what is told; it is made again if the first buffer was too short."""
    told = Told()
    while True:
        buffer = ctypes.create_string_buffer(capacity)
        status = call(*given, buffer, capacity, ctypes.byref(told))
        if told.needed <= capacity:
            return status, ctypes.string_at(buffer, told.needed).decode(), told
        capacity = told.needed


LIBRARY = _loaded(_path())


def library_version() -> str:
    """The version of the library, as `entangle --version` prints it behind the program's name: its number, and by what
    it is proved, or that it is built without proof."""
    _, text, _ = buffered(LIBRARY.ent_c_version)
    return text


def _check_version() -> None:
    found, _, _ = library_version().partition(",")
    if found != __version__:
        raise LibraryError(f"{_path()} is the library of entangle {found}, and this package is {__version__}")


_check_version()
