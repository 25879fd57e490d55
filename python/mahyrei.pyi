# Types of mahyrei.py, which is where everything is described. A writing call has two forms: without
# out= it gives bytes, with it a memoryview of what was lent.

from collections.abc import Iterable
from typing import Any, List, NamedTuple, Optional, Protocol, SupportsIndex, Tuple, Union, overload

from _typeshed import ReadableBuffer, WriteableBuffer

class _Array(Protocol):
    """An array of numpy, and what has its interface."""

    @property
    def __array_interface__(self) -> dict[str, Any]: ...

_Readable = Union[ReadableBuffer, _Array]
_Writable = Union[WriteableBuffer, _Array]

__version__: str
__all__: list[str]

class Refused(Exception):
    number: int
    place: int
    sentence: str
    given: Optional[bytes]
    def __init__(self, number: int, place: int, given: Optional[bytes] = ...) -> None: ...

class Fields(NamedTuple):
    rate: int
    m: int
    N: int
    B: int
    F: int
    W: int
    A: int
    copies: int = ...

class Sizes(NamedTuple):
    k: int
    M: int
    group: int
    S: int
    C: int
    R: int
    pooled: int
    symbols: int
    slots: int
    marker_bytes: int
    frame_bytes: int
    slot_bytes: int
    delay_bytes: int

@overload
def word_write(rate: SupportsIndex, block: _Readable, *, out: None = ...) -> bytes: ...
@overload
def word_write(rate: SupportsIndex, block: _Readable, *, out: _Writable) -> memoryview: ...
@overload
def word_read(rate: SupportsIndex, word: _Readable, *, out: None = ...) -> bytes: ...
@overload
def word_read(rate: SupportsIndex, word: _Readable, *, out: _Writable) -> memoryview: ...
@overload
def pass_write(rate: SupportsIndex, blocks: _Readable, *, out: None = ...) -> bytes: ...
@overload
def pass_write(rate: SupportsIndex, blocks: _Readable, *, out: _Writable) -> memoryview: ...
@overload
def pass_read(rate: SupportsIndex, words: _Readable, *, out: None = ...) -> bytes: ...
@overload
def pass_read(rate: SupportsIndex, words: _Readable, *, out: _Writable) -> memoryview: ...
@overload
def bit_spread(rate: SupportsIndex, bit: SupportsIndex, *, out: None = ...) -> bytes: ...
@overload
def bit_spread(rate: SupportsIndex, bit: SupportsIndex, *, out: _Writable) -> memoryview: ...
@overload
def uplink_write(frames: _Readable, *, out: None = ...) -> bytes: ...
@overload
def uplink_write(frames: _Readable, *, out: _Writable) -> memoryview: ...
@overload
def uplink_read(slots: _Readable, *, out: None = ...) -> bytes: ...
@overload
def uplink_read(slots: _Readable, *, out: _Writable) -> memoryview: ...
@overload
def run_write(
    header: _Readable, marker: _Readable, frames: _Readable, *, out: None = ...
) -> bytes: ...
@overload
def run_write(
    header: _Readable, marker: _Readable, frames: _Readable, *, out: _Writable
) -> memoryview: ...
@overload
def run_read(
    header: _Readable, marker: _Readable, slots: _Readable, *, out: None = ...
) -> bytes: ...
@overload
def run_read(
    header: _Readable, marker: _Readable, slots: _Readable, *, out: _Writable
) -> memoryview: ...
def run_find(header: _Readable, marker: _Readable, capture: _Readable) -> int: ...
def run_find_from(
    header: _Readable, marker: _Readable, capture: _Readable, slot: SupportsIndex
) -> int: ...
@overload
def run_cut(
    header: _Readable, capture: _Readable, slot: SupportsIndex, *, out: None = ...
) -> bytes: ...
@overload
def run_cut(
    header: _Readable, capture: _Readable, slot: SupportsIndex, *, out: _Writable
) -> memoryview: ...
@overload
def header_widen(eight: _Readable, *, out: None = ...) -> bytes: ...
@overload
def header_widen(eight: _Readable, *, out: _Writable) -> memoryview: ...
@overload
def header_narrow(ten: _Readable, *, out: None = ...) -> bytes: ...
@overload
def header_narrow(ten: _Readable, *, out: _Writable) -> memoryview: ...

_Fades = Union[_Readable, Iterable[Tuple[SupportsIndex, SupportsIndex]]]

@overload
def fades_count(header: _Readable, fades: _Fades, *, out: None = ...) -> List[int]: ...
@overload
def fades_count(header: _Readable, fades: _Fades, *, out: _Writable) -> memoryview: ...
def delay_area(header: _Readable) -> bytearray: ...
def delay_write(
    header: _Readable, step: SupportsIndex, symbol: SupportsIndex, area: _Writable
) -> int: ...
def delay_read(
    header: _Readable, step: SupportsIndex, symbol: SupportsIndex, area: _Writable
) -> int: ...
@overload
def delay_write_many(
    header: _Readable, step: SupportsIndex, symbols: _Readable, area: _Writable, *, out: None = ...
) -> bytes: ...
@overload
def delay_write_many(
    header: _Readable, step: SupportsIndex, symbols: _Readable, area: _Writable, *, out: _Writable
) -> memoryview: ...
@overload
def delay_read_many(
    header: _Readable, step: SupportsIndex, symbols: _Readable, area: _Writable, *, out: None = ...
) -> bytes: ...
@overload
def delay_read_many(
    header: _Readable, step: SupportsIndex, symbols: _Readable, area: _Writable, *, out: _Writable
) -> memoryview: ...
def rack_area() -> bytearray: ...
def rack_load(
    area: _Writable,
    caller: SupportsIndex,
    owner: SupportsIndex,
    place: SupportsIndex,
    header: _Readable,
) -> None: ...
@overload
def rack_read(
    area: _Readable,
    caller: SupportsIndex,
    owner: SupportsIndex,
    place: SupportsIndex,
    *,
    out: None = ...,
) -> bytes: ...
@overload
def rack_read(
    area: _Readable,
    caller: SupportsIndex,
    owner: SupportsIndex,
    place: SupportsIndex,
    *,
    out: _Writable,
) -> memoryview: ...
def rack_drop(
    area: _Writable, caller: SupportsIndex, owner: SupportsIndex, place: SupportsIndex
) -> None: ...
def rack_lend(
    area: _Writable,
    caller: SupportsIndex,
    owner: SupportsIndex,
    place: SupportsIndex,
    to: SupportsIndex,
) -> None: ...
def sizes(header: _Readable) -> Sizes: ...
def fields(header: _Readable) -> Fields: ...
def header(
    rate: SupportsIndex,
    m: SupportsIndex,
    N: SupportsIndex,
    B: SupportsIndex,
    F: SupportsIndex,
    W: SupportsIndex,
    A: SupportsIndex,
    copies: SupportsIndex = ...,
) -> bytes: ...
def sentence(number: SupportsIndex) -> Optional[str]: ...
@overload
def slots_packed(slots: _Readable, *, out: None = ...) -> bytes: ...
@overload
def slots_packed(slots: _Readable, *, out: _Writable) -> memoryview: ...
@overload
def slots_unpacked(
    packed: _Readable, count: Optional[SupportsIndex] = ..., *, out: None = ...
) -> bytes: ...
@overload
def slots_unpacked(
    packed: _Readable, count: Optional[SupportsIndex] = ..., *, out: _Writable
) -> memoryview: ...
