"""Words and runs of CCSDS high photon efficiency optical telemetry, over libmahyrei.

    import mahyrei

    header = mahyrei.header(rate=1, m=4, N=5, B=189, F=500, W=5, A=3)
    slots = mahyrei.run_write(header, marker, frames)
    try:
        frames = mahyrei.run_read(header, marker, slots)
    except mahyrei.Refused as refusal:
        print(refusal.number, refusal.place, refusal.sentence)

Any contiguous buffer is read where it is: bytes, bytearray, memoryview, array, mmap, a numpy array.
What counts is its bytes, whatever its items are; one that is not contiguous is copied first. A call
gives its whole result or raises Refused. The result is bytes, made without a copy; with out=, a
writable contiguous buffer of exactly the bytes of the result, it is written there, and the call
returns a memoryview of it. A call that refuses writes nothing, out= included, except for the steps that
delay_write_many and delay_read_many took before the refused one. The area of a delay line or of a
rack is a writable buffer too, such as a bytearray, which a call changes in place. What is written
must not overlap what is read: that is a ValueError.

While a call is under way other threads run. They must not change a buffer that the call reads, nor
read or change one that it writes: nobody can test that, and no promise holds where it is broken.

What a refusal says comes from the library: run_write, run_read, run_find, run_find_from, run_cut,
header_widen, header_narrow, fades_count, delay_write, delay_read, rack_load, rack_read, rack_drop,
rack_lend, word_write, word_read, pass_write, pass_read, bit_spread, uplink_write and uplink_read are
proved there; header, fields, sizes, sentence, delay_write_many and delay_read_many are plain C, and tested.
This module adds nothing to their answers; slots_packed and slots_unpacked are its own.

A call works in less than 1 MiB of stack, so a thread that makes one needs a stack above that (see
threading.stack_size; 0, the default, is enough on Linux with glibc). A thread that has less than
768 KiB left, which is more than any call takes, gets a RuntimeError and no crash.

The library is the file that MAHYREI_LIBRARY names, or else the one beside this module, or else the
one that was installed with it, or else the one that the system finds. numpy is not needed; where it
is there, slots_packed and slots_unpacked are done by it. CPython 3.8 or later is needed.
"""

import array
import collections
import ctypes
import functools
import operator
import os
import platform
import sys
import threading

__version__ = "0.5.0"

__all__ = [
    "Fields",
    "Refused",
    "Sizes",
    "bit_spread",
    "delay_area",
    "delay_read",
    "delay_read_many",
    "delay_write",
    "delay_write_many",
    "fades_count",
    "fields",
    "header",
    "header_narrow",
    "header_widen",
    "pass_read",
    "pass_write",
    "rack_area",
    "rack_drop",
    "rack_lend",
    "rack_load",
    "rack_read",
    "run_cut",
    "run_find",
    "run_find_from",
    "run_read",
    "run_write",
    "sentence",
    "sizes",
    "slots_packed",
    "slots_unpacked",
    "uplink_read",
    "uplink_write",
    "word_read",
    "word_write",
]

# `make install` puts the whole path here.
_LIBRARY = "libmahyrei.so.4"

_HEADER_BYTES = 10
_OLD_HEADER_BYTES = 8
_WORD_BYTES = 1890
_BLOCK_BYTES = (626, 941, 1256)  # by rate
_PASS_MOST = 211
_RACK_BYTES = 176
_UPLINK_FRAME_BYTES = 8
_UPLINK_CODEBLOCK_BYTES = 64
_UPLINK_MOST = 64
_U32_MOST = 2**32 - 1
_U64_MOST = 2**64 - 1

# More than the machine code of any call takes, which `make stack` reads, and what Python needs on
# the way there.
_STACK_BYTES = 768 * 1024


class Refused(Exception):
    """The library refused a call, and nothing was written, except for what `given` says.

    number    that of the first question answered no, as in docs/manual/numbers.md and mahyrei(3)
    place     what fails it first, counted from 0; 0 where the number has no place
    sentence  what the number tells the operator
    given     of delay_write_many and delay_read_many: the symbols that the steps before the refused
              one gave; None of all other calls
    """

    def __init__(self, number, place, given=None):
        self.number = number
        self.place = place
        self.sentence = sentence(number)
        self.given = given
        super().__init__(number, place)

    def __str__(self):
        return f"refused, number {self.number}, place {self.place}: {self.sentence}"


Fields = collections.namedtuple("Fields", "rate m N B F W A copies", defaults=(1,))
Fields.__doc__ = """The fields of a header, by the specification's letters; rate is 0, 1 or 2.

copies is the factor: how often each symbol is sent in a row."""

Sizes = collections.namedtuple(
    "Sizes", "k M group S C R pooled symbols slots marker_bytes frame_bytes slot_bytes delay_bytes"
)
Sizes.__doc__ = """What follows from a header.

k             information bits of a block
M             pulse order
group         slots of a symbol, guard slots counted
S             symbols of a word
C             blocks, and words
R             rows of S symbols, each with a marker before it
pooled        symbols of the run, markers counted, as places count them
symbols       the same with all copies
slots         of the run
marker_bytes, frame_bytes, slot_bytes
              of what the run calls take and give
delay_bytes   of the area of a delay line
"""


class _CFields(ctypes.Structure):
    _fields_ = [(name, ctypes.c_uint64) for name in Fields._fields]


class _CSizes(ctypes.Structure):
    _fields_ = [
        (name, ctypes.c_size_t if name.endswith("_bytes") else ctypes.c_uint64)
        for name in Sizes._fields
    ]


# ---- the library


def _path():
    """The file of the library."""
    beside = os.path.join(os.path.dirname(os.path.abspath(__file__)), "libmahyrei.so.4")
    return os.environ.get("MAHYREI_LIBRARY") or (beside if os.path.exists(beside) else _LIBRARY)


def _load():
    """The library, with the types of its calls."""
    library = ctypes.CDLL(_path())
    u64, size, text = ctypes.c_uint64, ctypes.c_size_t, ctypes.c_char_p
    number, pointer = ctypes.c_uint, ctypes.POINTER
    slice_ = [ctypes.c_void_p, size]
    for name, result, arguments in (
        ("mahyrei_word_write", u64, [u64] + slice_ * 2),
        ("mahyrei_word_read", u64, [u64] + slice_ * 2),
        ("mahyrei_pass_write", u64, [u64] + slice_ * 2),
        ("mahyrei_pass_read", u64, [u64] + slice_ * 2),
        ("mahyrei_bit_spread", u64, [u64, u64] + slice_),
        ("mahyrei_run_write", u64, slice_ * 4),
        ("mahyrei_run_read", u64, slice_ * 4),
        ("mahyrei_run_find", u64, slice_ * 3),
        ("mahyrei_run_find_from", u64, slice_ * 3 + [u64]),
        ("mahyrei_run_cut", u64, slice_ * 2 + [u64] + slice_),
        ("mahyrei_header_widen", u64, slice_ * 2),
        ("mahyrei_header_narrow", u64, slice_ * 2),
        ("mahyrei_fades_count", u64, slice_ * 3),
        ("mahyrei_delay_write", u64, slice_ + [u64, u64] + slice_),
        ("mahyrei_delay_read", u64, slice_ + [u64, u64] + slice_),
        ("mahyrei_delay_write_many", u64, slice_ + [u64] + slice_ * 3),
        ("mahyrei_delay_read_many", u64, slice_ + [u64] + slice_ * 3),
        ("mahyrei_rack_load", u64, slice_ + [u64] * 3 + slice_),
        ("mahyrei_rack_read", u64, slice_ + [u64] * 3 + slice_),
        ("mahyrei_rack_drop", u64, slice_ + [u64] * 3),
        ("mahyrei_rack_lend", u64, slice_ + [u64] * 4),
        ("mahyrei_uplink_write", u64, slice_ * 2),
        ("mahyrei_uplink_read", u64, slice_ * 2),
        ("mahyrei_header_fields", number, slice_ + [pointer(_CFields)]),
        ("mahyrei_header_make", number, [pointer(_CFields), ctypes.c_void_p, pointer(text)]),
        ("mahyrei_sizes", number, slice_ + [pointer(_CSizes)]),
        ("mahyrei_sentence", text, [number]),
        ("mahyrei_version", text, []),
    ):
        call = getattr(library, name)
        call.restype, call.argtypes = result, arguments
    return library


_library = _load()

# ---- what a call is lent


class _View(ctypes.Structure):
    """Py_buffer, the same in every CPython since 3.3 and part of its stable interface since 3.11."""

    _fields_ = [
        ("buf", ctypes.c_void_p),
        ("obj", ctypes.c_void_p),
        ("len", ctypes.c_ssize_t),
        ("itemsize", ctypes.c_ssize_t),
        ("readonly", ctypes.c_int),
        ("ndim", ctypes.c_int),
        ("format", ctypes.c_char_p),
        ("shape", ctypes.c_void_p),
        ("strides", ctypes.c_void_p),
        ("suboffsets", ctypes.c_void_p),
        ("internal", ctypes.c_void_p),
    ]


_SIMPLE, _WRITABLE = 0, 1  # what PyObject_GetBuffer is asked for: contiguous bytes
_get_buffer = ctypes.pythonapi.PyObject_GetBuffer
_get_buffer.argtypes = [ctypes.py_object, ctypes.POINTER(_View), ctypes.c_int]
_release = ctypes.pythonapi.PyBuffer_Release
_release.argtypes, _release.restype = [ctypes.POINTER(_View)], None
_new_bytes = ctypes.pythonapi.PyBytes_FromStringAndSize
_new_bytes.argtypes, _new_bytes.restype = [ctypes.c_void_p, ctypes.c_ssize_t], ctypes.py_object


class _Slice:
    """The bytes of an object, in place, until they are let go: meanwhile a bytearray cannot change
    its length, and an mmap cannot be closed. A number or a text is a TypeError."""

    __slots__ = ("address", "item", "length", "view", "writable")

    def __init__(self, value, writable=False):
        self.view, self.writable = None, writable
        self.item = 1  # the bytes of what the library counts
        if type(value) is bytes and not writable:
            self.address, self.length = value, len(value)  # ctypes takes its address
            return
        view = _View()
        try:
            _get_buffer(value, view, _WRITABLE if writable else _SIMPLE)
        except (BufferError, ValueError) as error:
            if writable:
                raise TypeError(f"a writable, contiguous buffer is needed: {error}") from None
            self.address = memoryview(value).tobytes()
            self.length = len(self.address)
            return
        self.view = view
        self.address, self.length = view.buf, view.len

    def let_go(self):
        if self.view is not None:
            _release(self.view)
            self.view = None

    __del__ = let_go

    def overlaps(self, other):
        """Whether both have a byte in common. Of bytes there is no writable view."""
        if type(self.address) is bytes or type(other.address) is bytes:
            return False
        ends = self.address + self.length, other.address + other.length
        return max(self.address, other.address) < min(ends)

    def same(self, other):
        return (self.address, self.length) == (other.address, other.length)


class _NewBytes(_Slice):
    """Bytes that nobody has seen yet, and so may be written: CPython's way to make them."""

    __slots__ = ()

    def __init__(self, length):
        self.view, self.writable, self.item = None, True, 1
        self.address, self.length = _new_bytes(None, length), length


def _let_go(parts):
    for part in parts:
        if isinstance(part, _Slice):
            part.let_go()


def _slices(*values):
    """All of these to be read, or none of them."""
    taken = []
    try:
        for value in values:
            taken.append(_Slice(value))
    except BaseException:
        _let_go(taken)
        raise
    return taken


def _number(value):
    """A number for the library. What it could not hold becomes its largest, which is out of every
    range, so that nothing is cut down to a number that would be let through."""
    value = operator.index(value)
    return value if 0 <= value <= _U64_MOST else _U64_MOST


def _u32(value):
    """A number for a list. What 32 bits cannot hold becomes their largest, which is in no run."""
    return min(_number(value), _U32_MOST)


# ---- the stack of a thread


class _Stack(threading.local):
    """Where the stack of a thread ends, found out once in each; 0 where the system does not tell."""

    def __init__(self):
        self.context, self.end, self.size = None, 0, 0
        try:
            system = ctypes.CDLL(None)
            system.pthread_self.restype = ctypes.c_void_p
            attributes = ctypes.create_string_buffer(256)  # a pthread_attr_t has 56
            thread = ctypes.c_void_p(system.pthread_self())
            if system.pthread_getattr_np(thread, attributes) == 0:
                low, size, guard = ctypes.c_void_p(), ctypes.c_size_t(), ctypes.c_size_t()
                system.pthread_attr_getstack(attributes, ctypes.byref(low), ctypes.byref(size))
                system.pthread_attr_getguardsize(attributes, ctypes.byref(guard))
                system.pthread_attr_destroy(attributes)
                self.size = size.value
                # getcontext gives the stack pointer, at a place that depends on the machine.
                if platform.machine() == "x86_64" and sys.platform == "linux":
                    self.buffer = ctypes.create_string_buffer(4096)  # a ucontext_t has 968
                    self.pointer = ctypes.c_uint64.from_buffer(self.buffer, 160)
                    self.context, self.end = system.getcontext, low.value + guard.value
        except (AttributeError, OSError):
            pass

    def left(self):
        """The bytes of stack that are left, or those of the whole stack; 0 where it is not known."""
        if self.context is not None and self.context(self.buffer) == 0:
            return self.pointer.value - self.end
        return self.size


_stack = _Stack()


def _enough_stack():
    left = _stack.left()
    if 0 < left < _STACK_BYTES:
        raise RuntimeError(
            f"this thread has {left} bytes of stack left, and a call may take {_STACK_BYTES}: "
            "threading.stack_size(2 * 1024 * 1024) before the thread is made gives it enough"
        )


# ---- how calls are made


def _asked(call, *parts, in_place=False):
    """The answer of a call; its parts are numbers and slices, which are let go. With in_place a slice
    that is written may be one that is read, but not overlap it otherwise."""
    words, slices = [], []
    for part in parts:
        if isinstance(part, _Slice):
            slices.append(part)
            words += (part.address, part.length // part.item)
        else:
            words.append(part)
    try:
        for written in slices:
            if written.view is not None and written.writable:
                _keep_apart(written, slices, in_place)
        _enough_stack()
        return call(*words)
    finally:
        _let_go(slices)


def _keep_apart(written, slices, in_place):
    for other in slices:
        if other is not written and written.overlaps(other):
            if not (in_place and written.same(other)):
                raise ValueError("what is written overlaps what else is lent")


def _accepted(answer):
    """The place of an answer that is accepted, or Refused."""
    if answer & 255 != 0:
        raise Refused(answer & 255, answer >> 8)
    return answer >> 8


def _out_slice(length, out, parts):
    """A slice for a result of so many bytes. Where there can be none, the other parts are let go."""
    try:
        if out is None:
            return _NewBytes(length)
        _in_row(out).release()  # that it can be, is asked before the call
        return _Slice(out, writable=True)
    except BaseException:
        _let_go(parts)
        raise


def _in_row(out, item="B"):
    """A memoryview of the items of a buffer, one after another."""
    view = memoryview(out)
    if not (view.format == item and view.ndim == 1) and view.nbytes:
        view = view.cast("B").cast(item)
    return view


def _result(written, out):
    return written.address if out is None else _in_row(out)


def _written(call, length, out, *parts):
    """What a call writes: bytes of this length, or a memoryview of `out`. The slice for it comes
    after the other parts."""
    written = _out_slice(length, out, parts)
    _accepted(_asked(call, *parts, written))
    return _result(written, out)


def _lengths(header):
    """The sizes for a slice, all 0 for a header that is refused: the call itself says why."""
    found = _CSizes()
    _library.mahyrei_sizes(header.address, header.length, found)
    return found


# ---- words and passes


def word_write(rate, block, *, out=None):
    """The word, 1,890 bytes, of a packed block of this rate: 626, 941 or 1,256 bytes for rate 0
    (1/3), 1 (1/2) and 2 (2/3). Its last two bits are spare and may hold anything. Refused with 2
    or 8."""
    rate = _number(rate)
    return _written(_library.mahyrei_word_write, _WORD_BYTES, out, rate, _Slice(block))


def word_read(rate, word, *, out=None):
    """The packed block that makes this word at this rate, its two spare bits zero. Refused with 2,
    8, 13, 14 or 15; for 13 the place is the first wrong coded bit."""
    rate = _number(rate)
    return _written(_library.mahyrei_word_read, _block_bytes(rate), out, rate, _Slice(word))


def _block_bytes(rate):
    """The bytes of a packed block; 0 for a rate that there is not: the call itself says so."""
    return _BLOCK_BYTES[rate] if rate < len(_BLOCK_BYTES) else 0


def _count(length, size, most):
    """How many pieces of this size there are; 0 for more than the most, which the call refuses."""
    return length // size if 0 < length <= most * size else 0


def pass_write(rate, blocks, *, out=None):
    """The words, back to back, of 1 to 211 packed blocks of this rate, back to back: each as
    word_write makes it. Refused with 2 or 8."""
    rate, blocks = _number(rate), _Slice(blocks)
    length = _count(blocks.length, _block_bytes(rate), _PASS_MOST) * _WORD_BYTES
    return _written(_library.mahyrei_pass_write, length, out, rate, blocks)


def pass_read(rate, words, *, out=None):
    """The packed blocks, back to back, that make these 1 to 211 words at this rate: each as
    word_read gives it. Refused with 2, 8, 13, 14 or 15; for 13 to 15 the place is the first word
    that is refused, and no block is given."""
    rate, words = _number(rate), _Slice(words)
    length = _count(words.length, _WORD_BYTES, _PASS_MOST) * _block_bytes(rate)
    return _written(_library.mahyrei_pass_read, length, out, rate, words)


def bit_spread(rate, bit, *, out=None):
    """The coded bits that change with one bit of a block, whatever the block holds: 1,890 bytes,
    15,120 bits, first bit highest, with a 1 for each that changes. At most 110 do at rate 0 (1/3),
    73 at 1 (1/2) and 56 at 2 (2/3). Refused with 2 or 27."""
    return _written(_library.mahyrei_bit_spread, _WORD_BYTES, out, _number(rate), _number(bit))


# ---- the uplink


def uplink_write(frames, *, out=None):
    """The slots, 64 bytes a codeblock, back to back, of 1 to 64 command frames of eight bytes, back
    to back. Refused with 8."""
    frames = _Slice(frames)
    count = _count(frames.length, _UPLINK_FRAME_BYTES, _UPLINK_MOST)
    return _written(_library.mahyrei_uplink_write, count * _UPLINK_CODEBLOCK_BYTES, out, frames)


def uplink_read(slots, *, out=None):
    """The command frames, back to back, that make these slots of 1 to 64 codeblocks. Refused with
    8, 28 or 29; for 28 the place is the group of four slots, for 29 the codeblock."""
    slots = _Slice(slots)
    count = _count(slots.length, _UPLINK_CODEBLOCK_BYTES, _UPLINK_MOST)
    return _written(_library.mahyrei_uplink_read, count * _UPLINK_FRAME_BYTES, out, slots)


# ---- runs and captures


def run_write(header, marker, frames, *, out=None):
    """The slots of a run: header of ten bytes, marker of W, frames of A times F. Refused with a
    number from 1 to 8, or 20."""
    parts = _slices(header, marker, frames)
    return _written(_library.mahyrei_run_write, _lengths(parts[0]).slot_bytes, out, *parts)


def run_read(header, marker, slots, *, out=None):
    """The frames of these slots under this header and marker: those for which run_write sends the
    symbols that the copies tell, pooled, and no others. Refused with a number from 1 to 16, or 18
    or 20. With one copy nothing is corrected."""
    parts = _slices(header, marker, slots)
    return _written(_library.mahyrei_run_read, _lengths(parts[0]).frame_bytes, out, *parts)


def run_find(header, marker, capture):
    """The earliest slot of a capture, counted from 0, at which the whole marker begins, its guard
    slots empty, each symbol once: where a run of factor 1 begins, if no earlier slot fits. Every
    bit of the capture is a slot, so one that has a byte a slot goes through slots_packed first; as
    it is, it gets 19. Refused with a number from 1 to 8, or 20, or with 19 where there is none."""
    return _accepted(_asked(_library.mahyrei_run_find, *_slices(header, marker, capture)))


def run_find_from(header, marker, capture, slot):
    """The same of the slots from this one on: the next marker of a recording. From slot 0 it is
    run_find; from a slot beyond the capture, or one that there is not, it is refused with 19."""
    slot, parts = _number(slot), _slices(header, marker, capture)
    return _accepted(_asked(_library.mahyrei_run_find_from, *parts, slot))


def run_cut(header, capture, slot, *, out=None):
    """The slots of the run that begins at this slot of a capture, packed anew, as run_read takes
    them; they are not judged. Refused with a number from 1 to 8, or 20, with 8 where the run does
    not end within the capture."""
    slot, parts = _number(slot), _slices(header, capture)
    return _written(_library.mahyrei_run_cut, _lengths(parts[0]).slot_bytes, out, *parts, slot)


# ---- headers


def header_widen(eight, *, out=None):
    """The header of ten bytes, with factor 1, that says the same as one of eight bytes, as up to
    version 0.3. Refused with a number from 1 to 7; of 7 only W's range is asked."""
    return _written(_library.mahyrei_header_widen, _HEADER_BYTES, out, _Slice(eight))


def header_narrow(ten, *, out=None):
    """The header of eight bytes that says the same as one of ten, whose factor is 1: header_widen
    undone. Refused with a number from 1 to 7, or 20, or with 21 for another factor."""
    return _written(_library.mahyrei_header_narrow, _OLD_HEADER_BYTES, out, _Slice(ten))


# ---- fades


def fades_count(header, fades, *, out=None):
    """How many symbols of each word of a run the fades hit, as a list of C numbers; with out=, a
    writable buffer of C unsigned numbers of 32 bits, as a memoryview of it.

    Each fade is a pair, its first symbol and how many symbols it has; symbols count from 0, with
    markers and without copies. They ascend, do not overlap, have at least one symbol each and end
    inside the run. A contiguous buffer of unsigned numbers of 32 bits, one after another or in rows
    of two, is read in place. Refused with a number from 1 to 7, or 20, or with 22 where they break
    these rules."""
    fades = _fades(fades)
    header, given = _slices(header, fades)
    words = _lengths(header).C
    counts = (ctypes.c_uint32 * words)() if out is None else out
    written = _out_slice(4 * words, counts, (header, given))
    if written.length % 4 or (written.length and written.address % 4):
        _let_go((header, given, written))
        raise ValueError("counts are numbers of 32 bits, aligned")
    given.item = written.item = 4
    _accepted(_asked(_library.mahyrei_fades_count, header, given, written))
    return list(counts) if out is None else _in_row(out, "I")


def _fades(fades):
    """The numbers of a list of fades, as a buffer that the library can read."""
    try:
        view = memoryview(fades)
    except TypeError:
        view = None
    if view is not None and view.format in ("I", "=I", "<I") and view.ndim in (1, 2):
        if view.itemsize == 4 and view.c_contiguous and sys.byteorder == "little":
            if view.ndim == 2 and view.shape[1] != 2:
                raise ValueError("a fade is a pair of numbers")
            return fades if _aligned(view) else array.array("I", view.tobytes())
    listed = [_u32(number) for first, length in fades for number in (first, length)]
    return (ctypes.c_uint32 * len(listed))(*listed)


def _aligned(view):
    """Whether a buffer begins where numbers of 32 bits may."""
    (lent,) = _slices(view)
    lent.let_go()
    return type(lent.address) is bytes or not lent.length or lent.address % 4 == 0


# ---- delay lines


def delay_area(header):
    """The area of a delay line before step 0: a bytearray of B * N * (N - 1) / 2 zeros. Refused as
    sizes does."""
    return bytearray(sizes(header).delay_bytes)


def delay_write(header, step, symbol, area):
    """One step of the channel interleaver: takes a symbol of the words, below M, and gives the next
    of the interleaved sequence, markers left out. Steps are numbered 0, 1, 2 and so on; the area, a
    bytearray as delay_area makes it, is changed in place and is all that is kept between them.
    Refused with a number from 1 to 8, or 20 or 26, and then nothing was taken."""
    return _stepped(_library.mahyrei_delay_write, header, step, symbol, area)


def delay_read(header, step, symbol, area):
    """The same for the way back, over an area of its own: takes a symbol of the interleaved sequence
    and gives one of the words, N * (N - 1) * B steps after delay_write took it, and 0 before."""
    return _stepped(_library.mahyrei_delay_read, header, step, symbol, area)


def delay_write_many(header, step, symbols, area, *, out=None):
    """delay_write for many symbols, a byte each, in steps step, step + 1 and so on: as many symbols,
    which with out= may be written over those that are read. The first refusal ends it. Its place is
    the symbol that was refused; those before it were taken, and what they gave is its `given`."""
    return _stepped_many(_library.mahyrei_delay_write_many, header, step, symbols, area, out)


def delay_read_many(header, step, symbols, area, *, out=None):
    """The same for the way back, by delay_read."""
    return _stepped_many(_library.mahyrei_delay_read_many, header, step, symbols, area, out)


def _step(step):
    """The number of a step. Every one that the library can hold is accepted, so what it could not hold
    is an OverflowError here."""
    step = operator.index(step)
    if not 0 <= step <= _U64_MOST:
        raise OverflowError("a step number has 64 bits")
    return step


def _stepped(call, header, step, symbol, area):
    symbol, step, area = _number(symbol), _step(step), _Slice(area, writable=True)
    return _accepted(_asked(call, *_slices(header), step, symbol, area))


def _stepped_many(call, header, step, symbols, area, out):
    step, area = _step(step), _Slice(area, writable=True)
    header, symbols = _slices(header, symbols)
    written = _out_slice(symbols.length, out, (area, header, symbols))
    answer = _asked(call, header, step, symbols, area, written, in_place=True)
    if answer & 255 != 0:
        with memoryview(_result(written, out)) as result:
            given = result[: answer >> 8].tobytes()
        raise Refused(answer & 255, answer >> 8, given)
    return _result(written, out)


# ---- racks


def rack_area():
    """An empty rack: a bytearray of 176 zeros. It holds headers of four missions, 0 to 3, in places 0
    to 3 of each, and is all that the rack calls keep."""
    return bytearray(_RACK_BYTES)


def rack_load(area, caller, owner, place, header):
    """Puts a header into the caller's own place; the header that was there is replaced, and a loan
    stays. The area is changed in place. Refused with a number from 1 to 8, or 20 or 23 to 25."""
    numbers = [_number(value) for value in (caller, owner, place)]
    (header,), area = _slices(header), _Slice(area, writable=True)
    _accepted(_asked(_library.mahyrei_rack_load, area, *numbers, header))


def rack_read(area, caller, owner, place, *, out=None):
    """The header in a place, ten bytes: for its owner, and for the mission that it is lent to. Refused
    with 8 or a number from 23 to 25; an empty place and one that is not lent both get 25."""
    numbers = [_number(value) for value in (caller, owner, place)]
    return _written(_library.mahyrei_rack_read, _HEADER_BYTES, out, _Slice(area), *numbers)


def rack_drop(area, caller, owner, place):
    """Empties the caller's own place, and ends its loan. The area is changed in place. Refused with 8
    or a number from 23 to 25."""
    numbers = [_number(value) for value in (caller, owner, place)]
    _accepted(_asked(_library.mahyrei_rack_drop, _Slice(area, writable=True), *numbers))


def rack_lend(area, caller, owner, place, to):
    """Lends reading of the caller's own place, which is loaded, to one other mission; that ends a loan
    before. The area is changed in place. Refused with 8 or a number from 23 to 25."""
    numbers = [_number(value) for value in (caller, owner, place, to)]
    _accepted(_asked(_library.mahyrei_rack_lend, _Slice(area, writable=True), *numbers))


# ---- plain functions


def _taken_apart(call, given, found, kind):
    """What a plain function of C finds in a header, or Refused."""
    (given,) = _slices(given)
    try:
        number = call(given.address, given.length, found)
    finally:
        given.let_go()
    if number != 0:
        raise Refused(number, 0)
    return kind(*(getattr(found, name) for name in kind._fields))


def sizes(header):
    """What follows from a header, as Sizes. Refused with a number from 1 to 7, or 20; of 7 only W's
    range is asked."""
    return _taken_apart(_library.mahyrei_sizes, header, _CSizes(), Sizes)


def fields(header):
    """The fields of a header, as Fields. Refused as sizes does."""
    return _taken_apart(_library.mahyrei_header_fields, header, _CFields(), Fields)


def header(rate, m, N, B, F, W, A, copies=1):
    """The header of these fields, ten bytes. Refused with a number from 2 to 7, or 20."""
    given = _CFields(*map(_number, (rate, m, N, B, F, W, A, copies)))
    made, wrong = ctypes.create_string_buffer(_HEADER_BYTES), ctypes.c_char_p()
    number = _library.mahyrei_header_make(given, made, wrong)
    if number != 0:
        raise Refused(number, 0)
    return made.raw


def sentence(number):
    """What a number of an answer tells the operator; None where no call gives it."""
    number = operator.index(number)
    if not 0 <= number <= 255:
        return None
    text = _library.mahyrei_sentence(number)
    return None if text is None else text.decode()


# ---- slots, a byte each or a bit each

_CHUNK = 1 << 16  # bytes of packed slots at a time, without numpy
_TO_DIGITS = b"0" + b"1" * 255
_FROM_DIGITS = bytes(1 if value == ord("1") else 0 for value in range(256))


@functools.lru_cache(maxsize=None)
def _numpy():
    """numpy where it is there, or None."""
    try:
        import numpy
    except ImportError:
        return None
    return numpy


def slots_packed(slots, *, out=None):
    """Slots of a byte each, packed as the calls take them: eight to a byte, the first highest, spare
    bits at the end zero. A byte that is not 0 is a pulse, as in numpy.packbits; so is True."""
    slots = _flat(slots)
    length = (len(slots) + 7) // 8
    if _numpy() is not None:
        packed = _numpy().packbits(_numpy().frombuffer(slots, dtype="u1")).data if length else b""
    else:
        packed = bytearray(length)
        for at in range(0, length, _CHUNK):
            digits = bytes(slots[8 * at : 8 * (at + _CHUNK)]).translate(_TO_DIGITS)
            count = (len(digits) + 7) // 8
            packed[at : at + count] = int(digits.ljust(8 * count, b"0"), 2).to_bytes(count, "big")
    return _put(packed, length, out)


def slots_unpacked(packed, count=None, *, out=None):
    """So many slots, all of them where no count is given, a byte each: 1 for a pulse and 0 for none.
    sizes(header).slots is the count of a run. As numpy.unpackbits, with a count."""
    packed = _flat(packed, any_item=True)
    count = 8 * len(packed) if count is None else operator.index(count)
    if not 0 <= count <= 8 * len(packed):
        raise ValueError(f"there are {8 * len(packed)} slots, and {count} are asked for")
    if _numpy() is not None:
        slots = _numpy().unpackbits(_numpy().frombuffer(packed, dtype="u1")).data[:count] if count else b""
    else:
        slots = bytearray(count)
        for at in range(0, (count + 7) // 8, _CHUNK):
            chunk = bytes(packed[at : at + _CHUNK])
            digits = format(int.from_bytes(chunk, "big"), f"0{8 * len(chunk)}b").encode()
            slots[8 * at : 8 * at + 8 * len(chunk)] = digits[: count - 8 * at].translate(_FROM_DIGITS)
    return _put(slots, count, out)


def _flat(value, any_item=False):
    """The bytes of a buffer in one row; each is an item where it has to be."""
    view = memoryview(value)
    if view.itemsize != 1 and not any_item:
        raise TypeError(f"a slot is one byte, and the items of this buffer have {view.itemsize}")
    if not view.c_contiguous:
        return memoryview(view.tobytes())
    return view.cast("B") if view.nbytes else memoryview(b"")


def _put(made, length, out):
    """What was made, as bytes or in `out`."""
    if out is None:
        return bytes(made)
    written = _out_slice(length, out, ())
    written.let_go()
    if written.length != length:
        raise ValueError(f"{length} bytes are written, and out has {written.length}")
    result = _in_row(out)
    result[:] = made
    return result
