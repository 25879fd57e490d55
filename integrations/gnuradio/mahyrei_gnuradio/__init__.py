"""GNU Radio blocks over the Python module `mahyrei`.

    run_writer        messages of frames to a stream of slots
    run_reader        a stream of slots, in which runs are searched for, to messages of frames
    word_writer       blocks to words, as vectors of bytes
    word_reader       words back to blocks
    interleaver       the channel interleaver, a symbol a byte
    deinterleaver     its way back

Slots are a byte each, 1 for a pulse and 0 for none, as GNU Radio has bits. A message of frames is a
PDU: a pair of a dictionary and a vector of A times F bytes.

What the library refuses comes out of the message port "refusals", as a PDU without data: its
dictionary has number, place and sentence as in mahyrei.Refused, and `at`, the slot, word or symbol of
the stream, counted from 0, where what was refused begins. Nothing of what is refused goes on.

A program has to keep its blocks in variables of its own for as long as a flowgraph runs: GNU Radio
does not keep a Python block alive, and ends with a crash where one is gone.
"""

import collections
import time

import numpy
import pmt
from gnuradio import gr

import mahyrei

__all__ = [
    "deinterleaver",
    "interleaver",
    "run_reader",
    "run_writer",
    "word_reader",
    "word_writer",
]

FRAMES, REFUSALS = pmt.intern("frames"), pmt.intern("refusals")


def _bytes(value):
    """A header or a marker: bytes, or hexadecimal text, as the companion gives it."""
    return bytes.fromhex(value.replace(":", "")) if isinstance(value, str) else bytes(value)


def _pdu(data, **about):
    """A PDU of these bytes."""
    return pmt.cons(pmt.to_pmt(about), pmt.init_u8vector(len(data), list(data)))


class _Refusing:
    """What blocks share that put calls: the port of refusals."""

    def add_refusals(self):
        self.message_port_register_out(REFUSALS)

    def refuse(self, refusal, at):
        about = dict(number=refusal.number, place=refusal.place, sentence=refusal.sentence, at=at)
        self.message_port_pub(REFUSALS, _pdu(b"", **about))


class run_writer(gr.sync_block, _Refusing):
    """Each message of A * F bytes becomes the slots of a run, one run after another. Between runs
    nothing is sent. `at` of a refusal counts messages."""

    def __init__(self, header="", marker=""):
        gr.sync_block.__init__(self, "mahyrei run writer", None, [numpy.uint8])
        self.header, self.marker = _bytes(header), _bytes(marker)
        self.slots = mahyrei.sizes(self.header).slots
        self.waiting, self.messages = collections.deque(), 0
        self.add_refusals()
        self.message_port_register_in(FRAMES)
        self.set_msg_handler(FRAMES, self.take)

    def take(self, message):
        frames = bytes(pmt.u8vector_elements(pmt.cdr(message) if pmt.is_pair(message) else message))
        try:
            run = mahyrei.run_write(self.header, self.marker, frames)
            each = mahyrei.slots_unpacked(run, self.slots)
            self.waiting.append(numpy.frombuffer(each, dtype=numpy.uint8))
        except mahyrei.Refused as refusal:
            self.refuse(refusal, self.messages)
        self.messages += 1

    def work(self, input_items, output_items):
        out = output_items[0]
        if not self.waiting:
            time.sleep(0.005)  # messages come between two calls of this
            return 0
        first = self.waiting.popleft()
        count = min(len(out), len(first))
        out[:count] = first[:count]
        if count < len(first):
            self.waiting.appendleft(first[count:])
        return count


class run_reader(gr.sync_block, _Refusing):
    """Runs in a stream of slots, which may begin anywhere. The search finds the first marker; what
    begins there is read as a run. If it is one, its frames go out as a message, with `at` the slot
    where it began, and the search goes on after it. If not, the refusal goes out, and the search goes
    on a slot later; every line of a run has a marker, so that a damaged run can be refused once a line.

    Symbols that are sent several times are searched for by as many symbols of the marker, with all
    their copies, as there are in 32. A first marker that has been hit is not found."""

    def __init__(self, header="", marker=""):
        gr.sync_block.__init__(self, "mahyrei run reader", [numpy.uint8], None)
        self.header, self.marker = _bytes(header), _bytes(marker)
        fields, self.sizes = mahyrei.fields(self.header), mahyrei.sizes(self.header)
        symbols = self.marker[: min(fields.W, 32 // fields.copies)]
        self.sought = bytes(q for q in symbols for _ in range(fields.copies))
        self.search = mahyrei.header(*fields._replace(W=len(self.sought), copies=1))
        mahyrei.run_write(self.header, self.marker, bytes(self.sizes.frame_bytes))  # or Refused
        self.slots, self.at = numpy.zeros(0, dtype=numpy.uint8), 0
        self.later, self.count = [], 0  # what has come since, in pieces, and all slots that are here
        self.add_refusals()
        self.message_port_register_out(FRAMES)

    def drop(self, count):
        self.slots, self.at = self.slots[count:], self.at + count
        self.count -= count

    def work(self, input_items, output_items):
        self.later.append((input_items[0] != 0).astype(numpy.uint8))
        self.count += len(input_items[0])
        if self.count >= self.sizes.slots:
            self.slots, self.later = numpy.concatenate([self.slots] + self.later), []
            while len(self.slots) >= self.sizes.slots and self.attempt():
                pass
        return len(input_items[0])

    def attempt(self):
        """One search in slots that are enough for a run. Whether there may be more."""
        try:
            slot = mahyrei.run_find(self.search, self.sought, mahyrei.slots_packed(self.slots))
        except mahyrei.Refused:  # 19; a marker may have begun at the end
            self.drop(len(self.slots) - len(self.sought) * self.sizes.group + 1)
            return False
        self.drop(slot)
        if len(self.slots) < self.sizes.slots:
            return False
        run = mahyrei.slots_packed(self.slots[: self.sizes.slots])
        try:
            frames = mahyrei.run_read(self.header, self.marker, run)
        except mahyrei.Refused as refusal:
            self.refuse(refusal, self.at)
            self.drop(1)
            return True
        self.message_port_pub(FRAMES, _pdu(frames, at=self.at))
        self.drop(self.sizes.slots)
        return True


class word_writer(gr.sync_block):
    """Packed blocks to words: vectors of 626, 941 or 1,256 bytes by rate, to vectors of 1,890."""

    def __init__(self, rate=0):
        self.rate = rate
        items = [(numpy.uint8, _block_bytes(rate))], [(numpy.uint8, 1890)]
        gr.sync_block.__init__(self, "mahyrei word writer", *items)

    def work(self, input_items, output_items):
        for block, word in zip(input_items[0], output_items[0]):
            mahyrei.word_write(self.rate, numpy.ascontiguousarray(block), out=word)
        return len(output_items[0])


def _block_bytes(rate):
    """The bytes of a packed block; Refused for a rate that there is not."""
    mahyrei.bit_spread(rate, 0)
    return (626, 941, 1256)[rate]


class word_reader(gr.basic_block, _Refusing):
    """Words to packed blocks, those that are accepted; the others go to the port of refusals."""

    def __init__(self, rate=0):
        self.rate, self.words = rate, 0
        items = [(numpy.uint8, 1890)], [(numpy.uint8, _block_bytes(rate))]
        gr.basic_block.__init__(self, "mahyrei word reader", *items)
        self.add_refusals()

    def forecast(self, noutput_items, ninputs):
        return [noutput_items] * ninputs

    def general_work(self, input_items, output_items):
        given = 0
        count = min(len(input_items[0]), len(output_items[0]))
        for word in input_items[0][:count]:
            try:
                mahyrei.word_read(self.rate, word, out=output_items[0][given])
                given += 1
            except mahyrei.Refused as refusal:
                self.refuse(refusal, self.words)
            self.words += 1
        self.consume(0, count)
        return given


class _Line(gr.sync_block, _Refusing):
    """A delay line: a symbol in, a symbol out. One that is not below M goes to the port of refusals,
    and ends the stream, since the line cannot go on without it."""

    def __init__(self, name, call, header):
        gr.sync_block.__init__(self, name, [numpy.uint8], [numpy.uint8])
        self.call, self.header, self.step = call, _bytes(header), 0
        self.area = mahyrei.delay_area(self.header)
        self.add_refusals()

    def work(self, input_items, output_items):
        symbols, out = input_items[0], output_items[0]
        try:
            self.call(self.header, self.step, symbols, self.area, out=out[: len(symbols)])
        except mahyrei.Refused as refusal:
            self.step += refusal.place
            if refusal.place:
                return refusal.place  # the refused one comes first the next time
            self.refuse(refusal, self.step)
            return -1
        self.step += len(symbols)
        return len(symbols)


class interleaver(_Line):
    """The channel interleaver, by mahyrei.delay_write_many."""

    def __init__(self, header=""):
        super().__init__("mahyrei interleaver", mahyrei.delay_write_many, header)


class deinterleaver(_Line):
    """Its way back, by mahyrei.delay_read_many: N * (N - 1) * B symbols later."""

    def __init__(self, header=""):
        super().__init__("mahyrei deinterleaver", mahyrei.delay_read_many, header)
