"""Tests of the GNU Radio blocks: tests/gnuradio/blocks.py FOLDER, in which the flowgraph was compiled."""

import io
import pathlib
import sys
import time
import unittest

import numpy
import pmt
import yaml
from gnuradio import blocks, gr

import mahyrei
import mahyrei_gnuradio

ROOT = pathlib.Path(__file__).resolve().parents[2] / "integrations/gnuradio"
HEADER = mahyrei.header(rate=1, m=4, N=5, B=189, F=500, W=5, A=3)
MARKER = bytes.fromhex("05000C0309")
FRAMES = [bytes((i * j + j) % 256 for i in range(1500)) for j in range(3)]
SIZES = mahyrei.sizes(HEADER)


def each(slots, sizes=SIZES):
    """A run as a list, a byte a slot."""
    return list(mahyrei.slots_unpacked(slots, sizes.slots))


def message(data):
    return pmt.cons(pmt.PMT_NIL, pmt.init_u8vector(len(data), list(data)))


def stored(debug):
    """The messages that were kept: of each its dictionary, and its data."""
    for i in range(debug.num_messages()):
        got = debug.get_message(i)
        yield pmt.to_python(pmt.car(got)), bytes(pmt.u8vector_elements(pmt.cdr(got)))


class Blocks(unittest.TestCase):
    def until(self, top, done):
        """Runs until something is so, or half a minute has passed."""
        top.start()
        end = time.monotonic() + 30
        while not done() and time.monotonic() < end:
            time.sleep(0.02)
        top.stop()
        top.wait()

    def reads(self, slots, header=HEADER, marker=MARKER):
        """What the reader gives of these slots: frames, and refusals."""
        top, reader = gr.top_block(), mahyrei_gnuradio.run_reader(header, marker)
        frames, refusals = blocks.message_debug(), blocks.message_debug()
        top.connect(blocks.vector_source_b(slots), reader)
        top.msg_connect(reader, "frames", frames, "store")
        top.msg_connect(reader, "refusals", refusals, "store")
        top.start()
        top.wait()
        time.sleep(0.1)  # the last messages may still be on their way
        return list(stored(frames)), list(stored(refusals))

    def test_run(self):
        top = gr.top_block()
        writer = mahyrei_gnuradio.run_writer(HEADER.hex(), MARKER.hex())
        reader = mahyrei_gnuradio.run_reader(HEADER, MARKER)
        slots, frames, refusals = blocks.vector_sink_b(), blocks.message_debug(), blocks.message_debug()
        top.connect(writer, reader)
        top.connect(writer, slots)
        top.msg_connect(reader, "frames", frames, "store")
        top.msg_connect(writer, "refusals", refusals, "store")
        for given in FRAMES + [b"short"]:
            writer.to_basic_block()._post(pmt.intern("frames"), message(given))
        self.until(top, lambda: frames.num_messages() >= 3 and refusals.num_messages() >= 1)
        self.assertEqual([data for _, data in stored(frames)], FRAMES)
        self.assertEqual([about["at"] for about, _ in stored(frames)], [0, SIZES.slots, 2 * SIZES.slots])
        written = [mahyrei.run_write(HEADER, MARKER, given) for given in FRAMES]
        self.assertEqual(list(slots.data()), [slot for run in written for slot in each(run)])
        ((about, data),) = stored(refusals)
        self.assertEqual((about["number"], about["at"], data), (8, 3, b""))
        self.assertEqual(about["sentence"], mahyrei.sentence(8))

    def test_capture(self):
        # Runs anywhere, with pulses that are none of theirs around them.
        runs = [each(mahyrei.run_write(HEADER, MARKER, given)) for given in FRAMES]
        before, between = [1, 1, 0, 1] * 9 + [0], [0] * 1234
        capture = before + runs[0] + between + runs[1] + runs[2] + [1] * 50 + [0] * SIZES.slots
        frames, refusals = self.reads(capture)
        self.assertEqual([data for _, data in frames], FRAMES)
        second = 37 + SIZES.slots + 1234
        self.assertEqual([about["at"] for about, _ in frames], [37, second, second + SIZES.slots])
        self.assertEqual(refusals, [])
        self.assertEqual(self.reads(before + runs[0][:-1]), ([], []))

    def test_copies(self):
        for copies in (2, 3, 8, 32):
            header = mahyrei.header(rate=1, m=4, N=1, B=1, F=500, W=5, A=1, copies=copies)
            size = mahyrei.sizes(header)
            run = each(mahyrei.run_write(header, MARKER, FRAMES[1][:500]), size)
            run[5 * copies * 20 + 7] ^= 1  # after the first marker
            frames, _ = self.reads([0] * 91 + run + [0] * 8, header)
            self.assertEqual(frames, [({"at": 91}, FRAMES[1][:500])])

    def test_refusals(self):
        run = each(mahyrei.run_write(HEADER, MARKER, FRAMES[0]))
        run[7000 * 20 : 7000 * 20 + 20] = [0] * 20
        with self.assertRaises(mahyrei.Refused) as caught:
            mahyrei.run_read(HEADER, MARKER, mahyrei.slots_packed(bytes(run)))
        frames, refusals = self.reads(run + each(mahyrei.run_write(HEADER, MARKER, FRAMES[1])))
        # The search goes on after it, to the markers of its other lines, and finds the next run.
        self.assertEqual(frames, [({"at": SIZES.slots}, FRAMES[1])])
        about = refusals[0][0]
        self.assertEqual((about["number"], about["place"], about["at"]), (10, 7000, 0))
        self.assertEqual(about["sentence"], caught.exception.sentence)
        self.assertEqual(len(refusals), SIZES.R)
        for number in (1, 7, 8):
            header = HEADER[:9] if number == 1 else HEADER
            marker = b"\x10" * 5 if number == 7 else MARKER[:4] if number == 8 else MARKER
            with self.assertRaises(mahyrei.Refused) as caught:
                mahyrei_gnuradio.run_reader(header, marker)
            self.assertEqual(caught.exception.number, number)

    def test_words(self):
        for rate, length in ((0, 626), (1, 941), (2, 1256)):
            data = bytes((i * i >> 4) % 256 for i in range(5 * length))
            data = b"".join(data[i * length :][: length - 1] + b"\0" for i in range(5))
            top, words, back = gr.top_block(), blocks.vector_sink_b(1890), blocks.vector_sink_b(length)
            writer, reader = mahyrei_gnuradio.word_writer(rate), mahyrei_gnuradio.word_reader(rate)
            top.connect(blocks.vector_source_b(list(data), False, length), writer, reader, back)
            top.connect(writer, words)
            top.run()
            self.assertEqual(bytes(words.data()), mahyrei.pass_write(rate, data))
            self.assertEqual(bytes(back.data()), data)
            wrong = bytearray(mahyrei.pass_write(rate, data))
            wrong[2 * 1890] ^= 1
            top, back = gr.top_block(), blocks.vector_sink_b(length)
            reader, refusals = mahyrei_gnuradio.word_reader(rate), blocks.message_debug()
            top.connect(blocks.vector_source_b(list(wrong), False, 1890), reader, back)
            top.msg_connect(reader, "refusals", refusals, "store")
            top.start()
            top.wait()
            time.sleep(0.1)
            self.assertEqual(bytes(back.data()), data[: 2 * length] + data[3 * length :])
            ((about, _),) = stored(refusals)
            self.assertEqual((about["number"], about["at"]), (13, 2))
        self.assertRaises(mahyrei.Refused, mahyrei_gnuradio.word_reader, 3)
        self.assertRaises(mahyrei.Refused, mahyrei_gnuradio.word_writer, 3)

    def test_lines(self):
        header = mahyrei.header(rate=1, m=8, N=6, B=63, F=900, W=2, A=3)
        symbols = bytes(i * i % 251 for i in range(50000))
        top, there, back = gr.top_block(), blocks.vector_sink_b(), blocks.vector_sink_b()
        line = mahyrei_gnuradio.interleaver(header.hex())
        home = mahyrei_gnuradio.deinterleaver(header)  # GNU Radio does not keep it alive
        top.connect(blocks.vector_source_b(list(symbols)), line, home, back)
        top.connect(line, there)
        top.run()
        area = mahyrei.delay_area(header)
        self.assertEqual(bytes(there.data()), mahyrei.delay_write_many(header, 0, symbols, area))
        self.assertEqual(bytes(back.data()), bytes(1890) + symbols[:-1890])
        # A symbol that is none: what came before it goes on, and then the stream ends.
        top, there, refusals = gr.top_block(), blocks.vector_sink_b(), blocks.message_debug()
        line = mahyrei_gnuradio.interleaver(HEADER)
        top.connect(blocks.vector_source_b([3] * 100 + [16] + [3] * 100), line, there)
        top.msg_connect(line, "refusals", refusals, "store")
        top.start()
        top.wait()
        time.sleep(0.1)
        self.assertEqual(len(there.data()), 100)
        ((about, _),) = stored(refusals)
        self.assertEqual((about["number"], about["at"]), (26, 100))

    def test_flowgraph(self):
        sys.path.insert(0, FOLDER)
        import faint_link

        sent = bytes(i * i % 256 for i in range(1500))
        link = faint_link.faint_link()
        self.until(link, lambda: link.received.num_messages() >= 3)
        got = list(stored(link.received))
        self.assertGreaterEqual(len(got), 3)
        self.assertEqual({data for _, data in got}, {sent})
        self.assertEqual([about["at"] for about, _ in got[:3]], [0, link.slots, 2 * link.slots])
        self.assertEqual(list(stored(link.refused)), [])
        # A fade over all copies of some symbols is too long.
        link = faint_link.faint_link()
        link.set_light([0 if 100000 <= i < 100200 else 1 for i in range(link.slots)])
        self.until(link, lambda: link.refused.num_messages() >= 1)
        about, _ = next(stored(link.refused))
        self.assertEqual((about["number"], about["place"]), (10, 100000 // 60 + 1))
        self.assertEqual(link.received.num_messages(), 0)

    def test_companion(self):
        # Each block is in the companion, and makes the block of its name.
        found = set()
        for path in sorted((ROOT / "grc").glob("*.block.yml")):
            block = yaml.safe_load(path.read_text())
            name = block["id"].replace("mahyrei_", "", 1)
            self.assertEqual(path.name, block["id"] + ".block.yml")
            self.assertTrue(block["templates"]["make"].startswith(f"mahyrei_gnuradio.{name}("))
            made = getattr(mahyrei_gnuradio, name)
            instance = made(0) if name.startswith("word") else made(HEADER.hex(), MARKER.hex()) \
                if name.startswith("run") else made(HEADER.hex())
            for side, ports in (("inputs", instance.message_ports_in()),
                                ("outputs", instance.message_ports_out())):  # fmt: skip
                told = {port["id"] for port in block.get(side, []) if port["domain"] == "message"}
                self.assertEqual(told, set(pmt.to_python(ports)) - {"system"})
            found.add(name)
        self.assertEqual(found, set(mahyrei_gnuradio.__all__))


if __name__ == "__main__":
    FOLDER = sys.argv[1]
    assert numpy
    tests = unittest.defaultTestLoader.loadTestsFromTestCase(Blocks)
    result = unittest.TextTestRunner(stream=io.StringIO(), verbosity=0).run(tests)
    for test, trace in result.errors + result.failures:
        print(f"gnuradio: {test}\n{trace[:1500]}")
    print(f"gnuradio: {gr.version()}; {result.testsRun} tests, "
          f"{len(result.errors + result.failures)} failed")
    sys.exit(not result.wasSuccessful() or result.testsRun == 0)
