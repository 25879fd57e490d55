"""What a typed program may write with the module, for mypy --strict. What must be a complaint has
`type: ignore` with its code after it, which mypy in turn complains of where it is none."""

import mmap
from typing import List

import mahyrei

marker: bytes = bytes([5, 12])
header: bytes = mahyrei.header(rate=1, m=4, N=1, B=1, F=223, W=2, A=1)
slots: bytes = mahyrei.run_write(header, marker, bytearray(223))
buffer = bytearray(len(slots))
view: memoryview = mahyrei.run_write(header, marker, memoryview(bytes(223)), out=buffer)
mapped = mmap.mmap(-1, len(slots))
mahyrei.run_write(header, marker, bytes(223), out=mapped)
frames: bytes = mahyrei.run_read(header, marker, mapped)
found: int = mahyrei.run_find(header, marker, slots)
counts: List[int] = mahyrei.fades_count(header, [(0, 1)])
area: bytearray = mahyrei.delay_area(header)
symbol: int = mahyrei.delay_write(header, 0, 1, area)
given: bytes = mahyrei.delay_write_many(header, 0, bytes(10), area)
total: int = mahyrei.sizes(header).slots
factor: int = mahyrei.fields(header).copies
try:
    mahyrei.word_read(0, bytes(1890))
except mahyrei.Refused as refusal:
    number: int = refusal.number
    place: int = refusal.place
    sentence: str = refusal.sentence

mahyrei.run_write("text", marker, bytes(223))  # type: ignore[call-overload]
mahyrei.run_write(header, marker, bytes(223), out="text")  # type: ignore[call-overload]
mahyrei.run_find(header, marker, 8)  # type: ignore[arg-type]
mahyrei.sizes(header).slot  # type: ignore[attr-defined]
mahyrei.word_write(1.5, bytes(941))  # type: ignore[call-overload]
