"""The largest run there is, 5,828,119,040 bytes of slots, out of a memory-mapped file into one and
back: tests/python/large.py FOLDER, which needs 12 GB. What it takes of memory is what the system
keeps of the files."""

import mmap
import os
import sys
import time

import mahyrei

header = mahyrei.header(rate=0, m=8, N=127, B=255, F=2048, W=32, A=64, copies=32)
size = mahyrei.sizes(header)
marker = bytes(range(32))
names = {what: os.path.join(sys.argv[1], what) for what in ("frames", "slots", "cut", "back")}
with open(names["frames"], "wb") as file:
    file.write(os.urandom(size.frame_bytes))


def mapped(what, length=None):
    """A file as memory: one to read, or a new one of this length."""
    with open(names[what], "rb" if length is None else "wb+") as file:
        if length is None:
            return mmap.mmap(file.fileno(), 0, access=mmap.ACCESS_READ)
        file.truncate(length)
        return mmap.mmap(file.fileno(), length)


def timed(what, call):
    begin = time.perf_counter()
    call()
    print(f"python: {what}: {time.perf_counter() - begin:.1f} s")


try:
    with mapped("frames") as frames, mapped("slots", size.slot_bytes) as slots:
        timed("write", lambda: mahyrei.run_write(header, marker, frames, out=slots).release())
    with mapped("slots") as slots, mapped("back", size.frame_bytes) as back:
        timed("read", lambda: mahyrei.run_read(header, marker, slots, out=back).release())
    with open(names["frames"], "rb") as sent, open(names["back"], "rb") as back:
        assert sent.read() == back.read()
    with mapped("slots") as slots, mapped("cut", size.slot_bytes) as cut:
        timed("cut", lambda: mahyrei.run_cut(header, slots, 0, out=cut).release())
        assert memoryview(cut)[-4096:] == memoryview(slots)[-4096:]
    private = [line for line in open("/proc/self/status") if line.startswith("RssAnon")]
    print(f"python: {size.slot_bytes} bytes of slots; {' '.join(private[0].split())}")
finally:
    for name in names.values():
        if os.path.exists(name):
            os.remove(name)
