"""A folder, with the folders in it, on a disk whose power may go at any time.

The rules are the usual ones, and no kinder than POSIX is:

  - Bytes written to a file since it was last brought to the disk (fsync of the file) may be there,
    not at all or in part; the file may have its new length with zeros in it; and what was written
    later may be there without what was written before.
  - A name given, taken over or removed since its folder was last brought to the disk (fsync of the
    folder) may show what it meant before. Each such change is there or not, whatever became of the
    others; but a rename is there with both its ends or not at all.

An inode is a number of our own here, since the system uses its numbers again.
"""

import hashlib
import itertools
import os

CHANGES_MOST = 6  # pending changes of names of which every subset is tried
STATES_MOST = 400  # states of one choice of names; above that, a sample


class Unknown(Exception):
    """An operation that this model cannot follow."""


class Disk:
    """Names, from the folder down, and contents."""

    def __init__(self, names, contents):
        self.names, self.contents = names, contents

    def bytes_of(self, name):
        return self.contents[self.names[name]] if name in self.names else None

    def key(self):
        """The same for disks that look the same, whatever the inodes are."""
        first = {}
        for name in sorted(self.names):
            first.setdefault(self.names[name], name)
        return tuple(
            (name, first[inode], hashlib.sha256(self.contents[inode]).digest())
            for name, inode in sorted(self.names.items())
        )

    def write(self, folder):
        made = {}
        for name, inode in self.names.items():
            path = os.path.join(folder, name)
            os.makedirs(os.path.dirname(path), exist_ok=True)
            if inode in made:
                os.link(made[inode], path)
                continue
            made[inode] = path
            with open(path, "wb") as file:
                file.write(self.contents[inode])


def read_disk(folder):
    """The files of a folder, and which of their inodes has which of the system's numbers."""
    names, contents, numbers = {}, {}, {}
    for path, _, files in os.walk(folder):
        for name in (os.path.join(path, file) for file in files):
            inode = numbers.setdefault(os.stat(name).st_ino, len(numbers))
            names[os.path.relpath(name, folder)] = inode
            with open(name, "rb") as file:
                contents[inode] = file.read()
    return Disk(names, contents), numbers


class Power:
    """A folder at work: what is on its disk for good, and what is still on the way there."""

    def __init__(self, folder):
        disk, self.numbers = read_disk(folder)
        self.folder = os.path.realpath(folder)
        self.folders = {os.stat(path).st_ino: path for path, _, _ in os.walk(self.folder)}
        self.names = disk.names  # for good
        self.pending = []  # changes of names since: each a list of names and inodes, None for gone
        self.now = dict(disk.names)
        # Of each inode, the contents since it was last brought to the disk; the first is for good.
        self.contents = {inode: [data] for inode, data in disk.contents.items()}

    def inode(self, number):
        if number not in self.numbers:
            raise Unknown(f"file {number} was never seen in the folder")
        return self.numbers[number]

    def name(self, path):
        folder, name = os.path.split(path)
        if os.path.realpath(folder) not in self.folders.values():
            raise Unknown(f"{path} is outside the folder")
        return os.path.relpath(os.path.join(os.path.realpath(folder), name), self.folder)

    def change(self, *changes):
        if len({os.path.dirname(name) for name, _ in changes}) > 1:
            raise Unknown(f"a rename from one folder to another: {changes}")
        self.pending.append(changes)
        apply(self.now, changes)

    def do(self, operation):
        """Takes a line of the recorder's."""
        kind, number, *words = operation.split("\t")
        getattr(self, kind)(int(number), *words)

    def told(self, operation):
        """The operation in words; it is not done yet."""
        kind, number, *words = operation.split("\t")
        if kind in ("create", "rename", "link", "unlink"):
            return " ".join([kind, *map(self.name, words)])
        if int(number) in self.folders:
            return f"{kind} the folder {os.path.relpath(self.folders[int(number)], self.folder)}"
        inode = self.inode(int(number))
        name = next((name for name, each in self.now.items() if each == inode), "a nameless file")
        if kind == "write":
            return f"write {len(words[1]) // 2} bytes to {name} at {words[0]}"
        return " ".join([kind, name, *words])

    def create(self, number, path):
        inode = self.numbers[number] = len(self.contents)
        self.contents[inode] = [b""]
        self.change((self.name(path), inode))

    def write(self, number, at, digits):
        contents, at, piece = self.contents[self.inode(number)], int(at), bytes.fromhex(digits)
        before = contents[-1].ljust(at, b"\0")
        contents.append(before[:at] + piece + before[at + len(piece) :])

    def truncate(self, number, length):
        contents, length = self.contents[self.inode(number)], int(length)
        contents.append(contents[-1][:length].ljust(length, b"\0"))

    def fsync(self, number):
        if number in self.folders:
            folder, rest = os.path.relpath(self.folders[number], self.folder), []
            for changes in self.pending:
                if os.path.normpath(os.path.dirname(changes[0][0])) == folder:
                    apply(self.names, changes)
                else:
                    rest.append(changes)
            self.pending = rest
        else:
            inode = self.inode(number)
            self.contents[inode] = self.contents[inode][-1:]

    def rename(self, number, old, new):
        self.change((self.name(old), None), (self.name(new), self.inode(number)))

    def link(self, number, new):
        self.change((self.name(new), self.inode(number)))

    def unlink(self, _number, path):
        self.change((self.name(path), None))

    def stays_on(self):
        """The disk if nothing happens to it."""
        return Disk(self.now, {inode: self.contents[inode][-1] for inode in self.now.values()})

    def goes(self, chance):
        """The disks that may be found if the power goes now."""
        for kept in subsets(len(self.pending)):
            names = dict(self.names)
            for i in kept:
                apply(names, self.pending[i])
            inodes = sorted(set(names.values()))
            for choice in choices([remains(self.contents[inode]) for inode in inodes], chance):
                yield Disk(names, dict(zip(inodes, choice)))


def apply(names, changes):
    for name, inode in changes:
        if inode is None:
            names.pop(name, None)
        else:
            names[name] = inode


def subsets(count):
    """The choices among pending changes: all; of many, each prefix and each with one left out."""
    if count <= CHANGES_MOST:
        for size in range(count + 1):
            yield from itertools.combinations(range(count), size)
        return
    for end in range(count + 1):
        yield range(end)
    for left_out in range(count):
        yield [i for i in range(count) if i != left_out]


def remains(contents):
    """What may be left of a file, given its contents since it was last brought to the disk."""
    first, last = contents[0], contents[-1]
    found = [first, last, *contents[1:4], *contents[-4:]]
    if first != last:
        start = len(os.path.commonprefix([first, last]))
        middle = (start + len(last)) // 2
        found += [last[: start + 1], last[:middle], last[:-1]]  # the beginning of what is new
        found += [last[:start].ljust(len(last), b"\0")]  # its length alone
        found += [last[:middle].ljust(len(last), b"\0")]  # its length and beginning
        middle = max(start, middle)
        found += [last[:start] + bytes(middle - start) + last[middle:]]  # its end
    return list(dict.fromkeys(found))


def choices(contents, chance):
    """A content for each file: all combinations; of too many, a sample, and each file by itself."""
    total = 1
    for each in contents:
        total *= len(each)
    if total <= STATES_MOST:
        yield from itertools.product(*contents)
        return
    for usual in (0, 1):  # for good, and all of it
        others = [each[min(usual, len(each) - 1)] for each in contents]
        for i, each in enumerate(contents):
            for one in each:
                yield (*others[:i], one, *others[i + 1 :])
    for _ in range(STATES_MOST):
        yield tuple(chance.choice(each) for each in contents)
