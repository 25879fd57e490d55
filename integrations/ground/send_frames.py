#!/usr/bin/env python3
"""Frames of a run to other ground software, over UDP or TCP.

    send_frames.py [--cadu] HEADER MARKER SLOTS udp|tcp HOST PORT

HEADER and MARKER are hexadecimal; SLOTS is a file, which is read in place. Over UDP each frame of F
bytes is a datagram; over TCP they follow one another. --cadu puts the frame marker 1ACFFC1D before each,
for software that wants channel access data units. Nothing is sent unless the whole run was accepted.
The status is 0 when all was handed to the system, 1 for a refusal, 2 for anything else.
"""

import argparse
import mmap
import socket
import sys

import mahyrei

FRAME_MARKER = bytes.fromhex("1ACFFC1D")


def send(header, marker, slots, kind, where, cadu):
    """Reads a run, and sends its frames. Returns how many."""
    length = mahyrei.fields(header).F
    frames = mahyrei.run_read(header, marker, slots)
    before = FRAME_MARKER if cadu else b""
    with socket.socket(type=socket.SOCK_DGRAM if kind == "udp" else socket.SOCK_STREAM) as link:
        link.connect(where)
        for at in range(0, len(frames), length):
            link.sendall(before + frames[at : at + length])
    return len(frames) // length


def main():
    words = argparse.ArgumentParser(description="Frames of a run to other ground software.")
    words.add_argument("--cadu", action="store_true", help="the frame marker before each frame")
    words.add_argument("header", type=bytes.fromhex)
    words.add_argument("marker", type=bytes.fromhex)
    words.add_argument("slots")
    words.add_argument("kind", choices=("udp", "tcp"))
    words.add_argument("host")
    words.add_argument("port", type=int)
    given = words.parse_args()
    try:
        with open(given.slots, "rb") as file:
            with mmap.mmap(file.fileno(), 0, access=mmap.ACCESS_READ) as slots:
                where = (given.host, given.port)
                count = send(given.header, given.marker, slots, given.kind, where, given.cadu)
    except mahyrei.Refused as refusal:
        sys.exit(print(refusal, file=sys.stderr) or 1)
    except (OSError, ValueError, OverflowError) as error:  # the last where there is no such port
        sys.exit(print(error, file=sys.stderr) or 2)
    print(f"{count} frames sent")


if __name__ == "__main__":
    main()
