"""The commands whose power is cut, each with the files that it finds."""

import json

HEADER, OLD_HEADER, MARKER = "50157A3E828304000000", "50157A3E82830000", "05000C0309"
FRAMES = b"".join(b"%-500s" % (b"Frame %d: keep the recording." % i) for i in range(3))
LOG_BEFORE = b"2026-01-01T00:00:00Z uplink-read frames=- status=1\n"
RUN = [HEADER, MARKER]


class Case:
    """A command, the files that are there before it, and those that it makes or adds to.

    `again` has the status of the same command after it was done, and `stdout` the name of the file
    that standard output is; that one is written as any program's is, and so has to be whole only
    when the status says so.
    """

    def __init__(self, name, words, files, outputs, log=None, results=None, again=0, stdout=None):
        self.name, self.words, self.files, self.outputs = name, words, files, outputs
        self.log, self.results, self.again, self.stdout = log, results, again, stdout

    def inputs(self):
        """Files that no run may change."""
        return set(self.files) - set(self.outputs) - {self.log, self.results, self.stdout}

    def must_see(self):
        """The planted faults that cannot stay hidden here."""
        if self.outputs:
            return ["no-fsync", "no-folder-fsync", "rename-before-fsync"]
        is_made = self.log is not None and self.log not in self.files
        return ["no-fsync", "no-folder-fsync"] if is_made else ["no-fsync"]


def bytes_by(mahyrei, words, **files):
    """What a command makes of these files, by way of `out`."""
    return mahyrei(words, files)["out"]


class Fixtures:
    """Files that the cases begin with, made by the command itself."""

    def __init__(self, mahyrei):
        self.frames = FRAMES
        self.slots = bytes_by(mahyrei, ["write", *RUN, "frames", "out"], frames=FRAMES)
        self.capture = b"\xff" + self.slots + b"\xff\xff"
        self.blocks = (FRAMES * 2)[:1882]
        self.words = bytes_by(mahyrei, ["pass-write", "1/2", "blocks", "out"], blocks=self.blocks)
        self.commands = bytes(range(16))
        self.pulses = bytes_by(mahyrei, ["uplink-write", "frames", "out"], frames=self.commands)
        self.rack = bytes_by(mahyrei, ["rack-load", "out", "0", "0", "1", HEADER])
        self.lent = bytes_by(mahyrei, ["rack-lend", "out", "0", "0", "1", "2"], out=self.rack)
        self.old_header, self.header = bytes.fromhex(OLD_HEADER), bytes.fromhex(HEADER)


def outputs_once(made):
    """One way in which each command writes: words, inputs, the status of the same command again."""
    replace = "--force"  # where the output is there
    return [
        ("write", ["write", replace, *RUN, "frames", "out"], {"frames": made.frames}, 0),
        ("write --verify", ["write", "--verify", replace, *RUN, "frames", "out"],
         {"frames": made.frames}, 0),
        ("read", ["read", replace, *RUN, "slots", "out"], {"slots": made.slots}, 0),
        ("read-capture", ["read", "--capture", replace, *RUN, "slots", "out"],
         {"slots": made.capture}, 0),
        ("cut", ["cut", replace, HEADER, "slots", "8", "out"], {"slots": made.capture}, 0),
        ("pass-write", ["pass-write", replace, "1/2", "blocks", "out"], {"blocks": made.blocks}, 0),
        ("pass-read", ["pass-read", replace, "1/2", "words", "out"], {"words": made.words}, 0),
        ("uplink-write", ["uplink-write", replace, "frames", "out"], {"frames": made.commands}, 0),
        ("uplink-read", ["uplink-read", replace, "slots", "out"], {"slots": made.pulses}, 0),
        ("pack", ["pack", replace, "bytes", "out"], {"bytes": bytes([0, 1, 1]) * 500}, 0),
        ("unpack", ["unpack", replace, "slots", "out"], {"slots": made.slots[:500]}, 0),
        ("widen", ["widen", replace, "old", "out"], {"old": made.old_header}, 0),
        ("narrow", ["narrow", replace, "new", "out"], {"new": made.header}, 0),
        ("rack-read", ["rack-read", replace, "rack", "0", "0", "1", "out"], {"rack": made.rack}, 0),
    ]


def list_line(run, frames, slots):
    return json.dumps({"run": run, "header": HEADER, "marker": MARKER, "frames": frames,
                       "slots": slots}).encode() + b"\n"


def batches(made):
    """Runs of a list, one at a time and side by side, and a list that was begun before."""
    runs = [list_line("write", "frames", "out1"), list_line("read", "out2", "slots"),
            list_line("write", "frames", "out3")]
    files = {"frames": made.frames, "slots": made.slots, "list": b"".join(runs)}
    outputs = ["out1", "out2", "out3"]
    for jobs in ("1", "3"):
        yield Case(f"batch of {jobs}", ["batch", "--jobs", jobs, "list"], files, outputs,
                   results="list.results")
    yield Case("batch with a log", ["--log", "log", "batch", "--jobs", "2", "list"], files, outputs,
               log="log", results="list.results")
    torn = b'{"run":"write","status":1,"fra'
    yield Case("batch, begun before", ["batch", "--jobs", "1", "list"],
               {**files, "list.results": torn}, outputs, results="list.results")
    # Outputs, results and log in folders of their own, each of which has to get to the disk.
    apart = [list_line("write", "frames", "to/out1"), list_line("read", "to/out2", "slots")]
    yield Case("batch, all apart",
               ["--log", "logs/log", "batch", "--jobs", "1", "--results", "said/results", "list"],
               {**files, "list": b"".join(apart), "to/a": b"", "logs/a": b"", "said/a": b""},
               ["to/out1", "to/out2"], log="logs/log", results="said/results")
    kinds = [b"pass-read\t1/2\twords\tout1\n", b"uplink-read\tpulses\tout2\n",
             b"read\t--capture\t%s\t%s\tcapture\tout3\n" % (HEADER.encode(), MARKER.encode())]
    yield Case("batch of other kinds", ["batch", "--jobs", "1", "list"],
               {"words": made.words, "pulses": made.pulses, "capture": made.capture,
                "list": b"".join(kinds)}, outputs, results="list.results")
    # The results on standard output, which is a file.
    yield Case("batch -, to a file", ["batch", "--jobs", "1", "--results", "-", "list"],
               {**files, "stdout": b""}, outputs, stdout="stdout")


def racks(made):
    """The four commands on the rack's file; a place that is dropped cannot be dropped again."""
    change = [
        ("rack-load", ["rack-load", "rack", "0", "0", "2", HEADER], 0),
        ("rack-lend", ["rack-lend", "rack", "0", "0", "1", "3"], 0),
        ("rack-drop", ["rack-drop", "rack", "0", "0", "1"], 1),
    ]
    for name, words, again in change:
        yield Case(name, words, {"rack": made.rack}, ["rack"], again=again)
        yield Case(f"{name}, and a line of the log", ["--log", "log", *words],
                   {"rack": made.rack, "log": LOG_BEFORE}, ["rack"], again=again, log="log")
    yield Case("rack-lend none", ["rack-lend", "rack", "0", "0", "1", "none"], {"rack": made.lent},
               ["rack"])
    yield Case("rack-load, the first", ["rack-load", "rack", "1", "1", "0", HEADER], {}, ["rack"])


def reports(made):
    """Commands of which nothing stays but a line of a new log, or of one in another folder."""
    for name, words, files in [
        ("verify", ["verify", *RUN, "slots"], {"slots": made.slots}),
        ("find", ["find", *RUN, "slots"], {"slots": made.capture}),
        ("sheet", ["sheet", HEADER], {}),
        ("fades", ["fades", HEADER, "list"], {"list": b"0 7\n"}),
    ]:
        yield Case(f"{name}, and a new log", ["--log", "log", *words], files, [], log="log")
        yield Case(f"{name}, and a line of the log", ["--log", "log", *words],
                   {**files, "log": LOG_BEFORE}, [], log="log")
    yield Case("write, and a new log elsewhere",
               ["--log", "logs/log", "write", "--force", *RUN, "frames", "out"],
               {"frames": made.frames, "logs/here": b""}, ["out"], log="logs/log")


def pictures(made):
    """Pictures beside a report."""
    for name, words, files in [
        ("inspect --html", ["inspect", *RUN, "slots", "--html", "out"], {"slots": made.slots}),
        ("inspect --svg", ["inspect", *RUN, "slots", "--svg", "out"], {"slots": made.slots}),
        ("fades --svg", ["fades", HEADER, "list", "--svg", "out"], {"list": b"0 7\n"}),
    ]:
        yield Case(name, words, files, ["out"], again=2)
        yield Case(f"{name}, in place of another", [*words, "--force"],
                   {**files, "out": b"<svg/>"}, ["out"])


def metadata(made):
    """Slots and the metadata beside them, which comes after them; and annotations.

    Without --force the slots that a power cut has left alone would be in the way of the same command.
    """
    words = ["write", "--sigmf", "--force", *RUN, "frames", "out"]
    files, outputs = {"frames": made.frames}, ["out", "out.sigmf-meta"]
    yield Case("write --sigmf", words, files, outputs)
    yield Case("write --sigmf, in place of others", [*words, "--verify"],
               {**files, "out": b"what was there before", "out.sigmf-meta": b"{}"}, outputs)
    yield Case("write --sigmf, and a new log", ["--log", "log", *words], files, outputs,
               log="log")
    yield Case("inspect --annotations", ["inspect", *RUN, "slots", "--annotations", "out"],
               {"slots": made.slots}, ["out"], again=2)
    yield Case("scan --annotations", ["scan", *RUN, "slots", "--annotations", "out"],
               {"slots": made.capture}, ["out"], again=2)


def scans(made):
    """The runs of a recording, each to a file of its own; the files of a scan before are as good."""
    recording = made.slots[4000:] + made.capture + made.slots
    starts = [8 * (len(made.slots) - 4000 + 1), 8 * (len(made.slots) - 4000 + len(made.capture))]
    outputs = [f"to/run-{slot}.frames" for slot in starts]
    files = {"recording": recording, "to/here": b""}
    words = ["scan", *RUN, "recording", "to"]
    yield Case("scan", words, files, outputs)
    yield Case("scan, and a new log", ["--log", "log", *words], files, outputs, log="log")
    yield Case("scan, and a line of the log", ["--log", "log", *words],
               {**files, "log": LOG_BEFORE}, outputs, log="log")
    yield Case("scan, in place of others", [*words, "--force"],
               {**files, outputs[0]: b"what was there before"}, outputs)
    yield Case("scan --svg", ["scan", *RUN, "recording", "--svg", "out"], {"recording": recording},
               ["out"], again=2)


def printed(made):
    """Text on standard output, which is a file."""
    fields = ["rate=1/2", "m=4", "N=5", "B=189", "F=500", "W=5", "A=3"]
    for name, words, files in [
        ("read -", ["read", *RUN, "slots", "-"], {"slots": made.slots}),
        ("header", ["header", *fields], {}),
        ("sheet", ["sheet", HEADER], {}),
        ("find", ["find", *RUN, "slots"], {"slots": made.capture}),
        ("find --all", ["find", "--all", *RUN, "slots"], {"slots": made.capture}),
        ("scan", ["scan", *RUN, "slots"], {"slots": made.capture}),
        ("spread", ["spread", "1/2", "7"], {}),
    ]:
        yield Case(f"{name}, to a file", words, {**files, "stdout": b""}, [], stdout="stdout")
    yield Case("header -o", ["header", *fields, "-o", "out"], {}, ["out"], again=2)
    yield Case("header -o, in place of another", ["header", "--force", *fields, "-o", "out"],
               {"out": b"0123456789"}, ["out"])


def all_cases(made):
    for name, words, files, again in outputs_once(made):
        yield Case(name, words, files, ["out"], again=again)
        over = {**files, "out": b"what was there before"}
        yield Case(f"{name}, in place of another", words, over, ["out"], again=again)
        if "pack" in name:
            continue  # they add no line
        logged = ["--log", "log", *words]
        yield Case(f"{name}, and a new log", logged, files, ["out"], again=again, log="log")
        yield Case(f"{name}, and a line of the log", logged, {**over, "log": LOG_BEFORE}, ["out"],
                   again=again, log="log")
    # Without --force a file that is there is left alone: that is status 2.
    yield Case("write, to a new file alone", ["write", *RUN, "frames", "out"],
               {"frames": made.frames}, ["out"], again=2)
    yield Case("read --no-clobber", ["--no-clobber", "read", *RUN, "slots", "out"],
               {"slots": made.slots}, ["out"], again=2)
    yield from racks(made)
    yield from reports(made)
    yield from pictures(made)
    yield from metadata(made)
    yield from scans(made)
    yield from printed(made)
    yield from batches(made)


# One of each way to write, for the tests.
SHORT = ["write, and a new log", "read, in place of another", "read, and a line of the log",
         "verify, and a new log", "write, to a new file alone", "rack-load", "rack-load, the first",
         "header, to a file", "batch of 1", "scan, and a new log",
         "write --sigmf, in place of others"]
