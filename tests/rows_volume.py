#!/usr/bin/env python3
"""What docs/COMMANDS.md and docs/DEFINITIONS.md say of the commands of a script, as a program: a plain tree of files and directories,
the positions that it needs, which of them are dirty since the last point, and the reply to each line."""
import os
import sys
import zlib

from rows_model import bad_geometry, order_of, table
from rows_script import command_in, spelling_of

NO = {"NoEntry": 2, "BadDescriptor": 9, "Busy": 16, "Exists": 17, "NotDir": 20, "IsDir": 21, "Invalid": 22, "NoInodes": 23,
      "TooManyOpen": 24, "TooBig": 27, "NoSpace": 28, "TooManyLinks": 31, "NameTooLong": 36, "NotEmpty": 39}
EVENTS = {name: 1 << bit for bit, name in enumerate(
    ["umount", "create", "unlink", "mkdir", "rename", "link", "close", "write", "fsync", "truncate", "full"])}
MOST_OPEN, MOST_LINKS, MOST_PATH, MOUNTED = 16, 65535, 255, 1281


class Refused(Exception):
    """A command that is refused, and why."""


def refuse_if(holds, refusal):
    if holds:
        raise Refused(refusal)


class File:
    """A size, and the blocks that are present."""
    is_directory = False

    def __init__(self, size=0, blocks=()):
        self.size, self.blocks = size, dict(blocks)

    def indices(self, g):
        return self.blocks.keys()

    def told_size(self, g):
        return self.size


class Directory:
    """Slots, of which an empty one is None and the last is filled; and the number of the directory that names it."""
    is_directory = True

    def __init__(self, parent, slots=()):
        self.parent, self.slots = parent, list(slots)
        while self.slots and self.slots[-1] is None:
            self.slots.pop()

    def indices(self, g):
        return range(-(-len(self.slots) // g.in_block))

    def told_size(self, g):
        return g.size * len(self.indices(g))

    def find(self, name):
        return next((slot for slot, entry in enumerate(self.slots) if entry and entry[0] == name), None)

    def first_empty(self):
        return self.slots.index(None) if None in self.slots else len(self.slots)

    def put(self, slot, entry):
        slots = self.slots + [None] * (slot + 1 - len(self.slots))
        return Directory(self.parent, slots[:slot] + [entry] + slots[slot + 1:])


class Geometry:
    def __init__(self, size, blocks, inodes, name, direct, indirect):
        assert not bad_geometry(size, blocks, inodes, name, direct, indirect)
        self.size, self.name, self.direct, self.indirect, self.numbers = size, name, direct, indirect, range(2, 2 + inodes)
        self.allocable, self.inner = blocks - table(size, blocks) - 2 * inodes, (size - 20) // 4
        self.in_block, doubles = size // (4 + name), (size - 32) // 4 - direct - indirect
        self.most_blocks = direct + indirect * self.inner + doubles * self.inner**2
        self.most = self.most_blocks * size

    def above(self, i):
        """The positions of the pointer nodes above data block i. Those with direct pointers to data are numbered through."""
        if i < self.direct:
            return []
        j = (i - self.direct) // self.inner
        return [("indirect", j)] + ([("double", (j - self.indirect) // self.inner)] if j >= self.indirect else [])

    def positions(self, node):
        if node is None:
            return set()
        return {p for i in node.indices(self) for p in [("data", i), *self.above(i)]}


class Change:
    """New nodes by number, the data positions that are written and removed, and the blocks that stay free."""
    def __init__(self, nodes, writes=(), removes=(), reserve=3):
        self.nodes, self.writes, self.removes, self.reserve = nodes, list(writes), list(removes), reserve


class Open:
    """A descriptor."""
    def __init__(self, number, directory=False, flags=None):
        flags = flags or {}
        self.number, self.directory, self.at = number, directory, 0
        self.read, self.write, self.append = (flags.get(name, False) for name in ("read", "write", "append"))


def names_in(path):
    return path[1:].split(b"/") if len(path) > 1 else []


class Volume:
    """A volume as it is mounted, its tree, and the points taken since."""
    def __init__(self, g):
        self.g, self.last = g, ({2: Directory(0)}, {2: set()})
        self.mount()

    def mount(self):
        """The tree is that of the last point; nothing is dirty or open."""
        self.mask, self.opened, self.points = MOUNTED, [None] * MOST_OPEN, 0
        self.nodes, self.needs = map(dict, self.last)
        self.settle()

    def settle(self):
        """What the last point has, and how many blocks it uses."""
        self.last = dict(self.nodes), dict(self.needs)
        self.kept, self.dirty = self.count(), set()

    # ---- room and points

    def count(self):
        return sum(len(positions) for positions in self.needs.values())

    def in_use(self, dirty):
        return self.kept + len(dirty)

    def point(self):
        self.settle()
        self.points += 1

    def event(self, name):
        if self.mask & EVENTS[name]:
            self.point()

    def dirty_after(self, change, needs):
        """The dirty positions after a change: of those that are there then, the old ones and those that it touches."""
        added = [p for p in change.writes if p not in self.dirty]
        above = {(n, *p) for n, _, i in change.removes + added for p in self.g.above(i)}
        touched = {*self.dirty, *change.writes, *above}
        return {(n, *p) for n, *p in touched if tuple(p) in needs.get(n, self.needs.get(n, ()))}

    def fits(self, change, needs):
        return self.in_use(self.dirty_after(change, needs) | self.dirty) + change.reserve <= self.g.allocable

    def make(self, change):
        """Carries a change out, where there is room: on a full volume after a point that frees blocks."""
        needs = {n: self.g.positions(node) for n, node in change.nodes.items()}
        if not self.fits(change, needs):
            refuse_if(not self.mask & EVENTS["full"] or self.count() >= self.in_use(self.dirty), "NoSpace")
            self.point()
            refuse_if(not self.fits(change, needs), "NoSpace")
        self.dirty = self.dirty_after(change, needs)
        for n, node in change.nodes.items():
            if node is None:
                del self.nodes[n], self.needs[n]
            else:
                self.nodes[n], self.needs[n] = node, needs[n]

    # ---- paths

    def names(self, path):
        self.judge_paths(path)
        return names_in(path)

    def judge_paths(self, *paths):
        bad = (b"", b".", b"..")
        refuse_if(any(path[:1] != b"/" or any(name in bad or 0 in name for name in names_in(path)) for path in paths), "Invalid")
        refuse_if(any(len(path) > MOST_PATH or any(len(name) > self.g.name for name in names_in(path)) for path in paths),
                  "NameTooLong")

    def walk(self, names):
        """Where names lead: to the root, which is None, or to a directory and the last name; and the directories on the way."""
        d, through = 2, []
        for place, name in enumerate(names):
            refuse_if(not self.nodes[d].is_directory, "NotDir")
            through.append(d)
            if place == len(names) - 1:
                return (d, name), through
            slot = self.nodes[d].find(name)
            refuse_if(slot is None, "NoEntry")
            d = self.nodes[d].slots[slot][1]
        return None, through

    def at(self, spot):
        """The slot and the number at a spot, None where its directory has no such name."""
        if spot is None:
            return 0, 2
        slot = self.nodes[spot[0]].find(spot[1])
        return None if slot is None else (slot, self.nodes[spot[0]].slots[slot][1])

    def found(self, path):
        spot, _ = self.walk(self.names(path))
        found = self.at(spot)
        refuse_if(found is None, "NoEntry")
        return spot, *found

    def links(self, n):
        if self.nodes[n].is_directory:
            return 1
        return sum(entry is not None and entry[1] == n for d in self.nodes.values() if d.is_directory for entry in d.slots)

    def is_busy(self, n):
        return self.links(n) == 1 and any(o and o.number == n for o in self.opened)

    # ---- names

    def slot_position(self, d, slot):
        return d, "data", slot // self.g.in_block

    def new_slot(self, d):
        slot = self.nodes[d].first_empty()
        refuse_if(slot // self.g.in_block >= self.g.most_blocks, "TooBig")
        return slot

    def new_name(self, spot, make):
        """Makes a node of the least free number, under a name."""
        d, name = spot
        free = [n for n in self.g.numbers if n not in self.nodes]
        refuse_if(not free, "NoInodes")
        slot = self.new_slot(d)
        placed = self.nodes[d].put(slot, (name, free[0]))
        self.make(Change({d: placed, free[0]: make(d)}, [self.slot_position(d, slot)]))
        return free[0]

    def cleared(self, d, node, slot):
        """A directory without a slot, what that writes, and what it removes."""
        left = node.put(slot, None)
        block = slot // self.g.in_block
        kept, blocks = len(left.indices(self.g)), len(node.indices(self.g))
        writes = [(d, "data", block)] if block < kept else []
        return left, writes, [(d, "data", i) for i in range(kept, blocks)]

    def data_of(self, n):
        return [(n, "data", i) for i in self.nodes[n].indices(self.g)]

    def unname(self, spot, slot, n):
        d = spot[0]
        left, writes, removes = self.cleared(d, self.nodes[d], slot)
        gone = self.links(n) == 1
        self.make(Change({d: left, **({n: None} if gone else {})}, writes, removes + (self.data_of(n) if gone else []), 0))
        self.event("unlink")
        return b"ok"

    def do_link(self, path, to):
        self.judge_paths(path, to)
        found = self.at(self.walk(names_in(path))[0])
        refuse_if(found is None, "NoEntry")
        n = found[1]
        refuse_if(self.nodes[n].is_directory, "IsDir")
        spot, _ = self.walk(names_in(to))
        refuse_if(self.at(spot) is not None, "Exists")
        refuse_if(self.links(n) >= MOST_LINKS, "TooManyLinks")
        slot = self.new_slot(spot[0])
        self.make(Change({spot[0]: self.nodes[spot[0]].put(slot, (spot[1], n))}, [self.slot_position(spot[0], slot)]))
        self.event("link")
        return b"ok"

    def do_unlink(self, path):
        spot, slot, n = self.found(path)
        refuse_if(self.nodes[n].is_directory, "IsDir")
        refuse_if(self.is_busy(n), "Busy")
        return self.unname(spot, slot, n)

    def do_rmdir(self, path):
        names = self.names(path)
        refuse_if(not names, "Busy")
        spot, slot, n = self.found(path)
        refuse_if(not self.nodes[n].is_directory, "NotDir")
        refuse_if(bool(self.nodes[n].slots), "NotEmpty")
        refuse_if(self.is_busy(n), "Busy")
        return self.unname(spot, slot, n)

    def do_mkdir(self, path):
        spot, _ = self.walk(self.names(path))
        refuse_if(self.at(spot) is not None, "Exists")
        self.new_name(spot, Directory)
        self.event("mkdir")
        return b"ok"

    def do_rename(self, path, to):
        self.judge_paths(path, to)
        refuse_if(not names_in(path) or not names_in(to), "Busy")
        spot, _ = self.walk(names_in(path))
        found = self.at(spot)
        refuse_if(found is None, "NoEntry")
        slot, n = found
        moves_directory = self.nodes[n].is_directory
        target, through = self.walk(names_in(to))
        refuse_if(moves_directory and n in through, "Invalid")
        there = self.at(target)
        if there and there[1] == n:
            self.event("rename")
            return b"ok"
        if there:
            old = self.nodes[there[1]]
            refuse_if(moves_directory and not old.is_directory, "NotDir")
            refuse_if(not moves_directory and old.is_directory, "IsDir")
            refuse_if(old.is_directory and bool(old.slots), "NotEmpty")
            refuse_if(self.is_busy(there[1]), "Busy")
        self.move(spot[0], slot, n, *target, there)
        self.event("rename")
        return b"ok"

    def move(self, d, slot, n, holder, name, there):
        """The new name is placed, and then the old one is cleared. A node that is replaced loses a link."""
        place = there[0] if there else self.new_slot(holder)
        nodes = {holder: self.nodes[holder].put(place, (name, n))}
        nodes[d], writes, removes = self.cleared(d, nodes.get(d, self.nodes[d]), slot)
        writes.append(self.slot_position(holder, place))
        if there and self.links(there[1]) == 1:
            nodes[there[1]] = None
            removes += self.data_of(there[1])
        if self.nodes[n].is_directory:
            nodes[n] = Directory(holder, nodes.get(n, self.nodes[n]).slots)
        self.make(Change(nodes, writes, removes))

    # ---- descriptors

    def opened_at(self, h, directory=None):
        refuse_if(h >= MOST_OPEN or self.opened[h] is None, "BadDescriptor")
        o = self.opened[h]
        if directory is not None and o.directory != directory:
            raise Refused("NotDir" if directory else "IsDir")
        return o

    def writable(self, h):
        o = self.opened_at(h, False)
        refuse_if(not o.write, "BadDescriptor")
        return o

    def enter(self, o):
        h = self.opened.index(None)
        self.opened[h] = o
        return b"ok %d" % h

    def do_open(self, path, flags):
        changes = flags["create"] or flags["truncate"] or flags["append"]
        refuse_if(not (flags["read"] or flags["write"]) or (flags["exclusive"] and not flags["create"])
                  or (changes and not flags["write"]), "Invalid")
        spot, _ = self.walk(self.names(path))
        found = self.at(spot)
        if found:
            refuse_if(flags["exclusive"], "Exists")
            refuse_if(self.nodes[found[1]].is_directory, "IsDir")
        else:
            refuse_if(not flags["create"], "NoEntry")
        refuse_if(None not in self.opened, "TooManyOpen")
        n = found[1] if found else self.new_name(spot, lambda d: File())
        if found and flags["truncate"]:
            self.make(Change({n: File()}, [], self.data_of(n), 0))
        told = self.enter(Open(n, False, flags))
        if not found:
            self.event("create")
        elif flags["truncate"]:
            self.event("truncate")
        return told

    def do_close(self, h):
        self.opened_at(h)
        self.opened[h] = None
        self.event("close")
        return b"ok"

    def do_fsync(self, h):
        self.opened_at(h)
        self.event("fsync")
        return b"ok"

    def do_opendir(self, path):
        _, _, n = self.found(path)
        refuse_if(not self.nodes[n].is_directory, "NotDir")
        refuse_if(None not in self.opened, "TooManyOpen")
        return self.enter(Open(n, True))

    def do_readdir(self, h):
        o = self.opened_at(h, True)
        for slot, entry in enumerate(self.nodes[o.number].slots):
            if slot >= o.at and entry:
                o.at = slot + 1
                return b"ok %d %s" % (entry[1], spelling_of(entry[0]))
        return b"end"

    def do_rewind(self, h):
        self.opened_at(h, True).at = 0
        return b"ok"

    # ---- bytes

    def do_seek(self, h, to):
        o = self.opened_at(h, False)
        refuse_if(to > self.g.most, "Invalid")
        o.at = to
        return b"ok"

    def do_read(self, h, count):
        o = self.opened_at(h, False)
        refuse_if(not o.read, "BadDescriptor")
        node, data = self.nodes[o.number], b""
        while o.at < node.size and len(data) < count:
            block, place = node.blocks.get(o.at // self.g.size, bytes(self.g.size)), o.at % self.g.size
            piece = block[place:place + min(count - len(data), node.size - o.at)]
            data, o.at = data + piece, o.at + len(piece)
        return b"data " + data.hex().encode() if data else b"end"

    def do_write(self, h, data):
        o = self.writable(h)
        node, size = self.nodes[o.number], self.g.size
        at = node.size if o.append else o.at
        end = at + len(data)
        refuse_if(end > self.g.most, "TooBig")
        new = File(max(node.size, end), node.blocks)
        touched = range(at // size, (end - 1) // size + 1)
        for i in touched:
            first, last = max(at, i * size), min(end, (i + 1) * size)
            block = bytearray(new.blocks.get(i, bytes(size)))
            block[first - i * size:last - i * size] = data[first - at:last - at]
            new.blocks[i] = bytes(block)
        self.make(Change({o.number: new}, [(o.number, "data", i) for i in touched]))
        o.at = end
        self.event("write")
        return b"ok %d" % len(data)

    def do_fill(self, h, count, byte):
        return self.do_write(h, bytes([byte]) * count)

    def do_truncate(self, h, to):
        o = self.writable(h)
        n, node, size = o.number, self.nodes[o.number], self.g.size
        refuse_if(to > self.g.most, "TooBig")
        cut, kept = divmod(to, size)
        blocks = {i: block for i, block in node.blocks.items() if i * size < to}
        writes = []
        if to < node.size and kept and cut in blocks:
            blocks[cut] = blocks[cut][:kept] + bytes(size - kept)
            writes = [(n, "data", cut)]
        removes = [(n, "data", i) for i in node.blocks if i not in blocks]
        self.make(Change({n: File(to, blocks)}, writes, removes, 0 if to <= node.size else 3))
        self.event("truncate")
        return b"ok"

    # ---- what is told

    def status(self, n):
        node = self.nodes[n]
        return b"ok %d %s %d %d" % (n, b"d" if node.is_directory else b"f", node.told_size(self.g), self.links(n))

    def do_stat(self, path):
        return self.status(self.found(path)[2])

    def do_fstat(self, h):
        return self.status(self.opened_at(h).number)

    def do_space(self):
        room = self.g.allocable
        return b"ok %d %d %d %d %d" % (room - self.in_use(self.dirty), room - self.count(), room,
                                       len(self.g.numbers) - len(self.nodes), len(self.g.numbers))

    def do_mask(self):
        return b"ok %d" % self.mask

    def do_setmask(self, mask):
        refuse_if(mask >= 2 << 10, "Invalid")
        self.mask = mask
        return b"ok"

    def do_transact(self):
        self.point()
        return b"ok"

    def answer(self, line):
        command = command_in(line)
        if command is None:
            return b"bad"
        verb = line.split(b" ")[0].decode()
        try:
            return getattr(self, "do_" + verb)(*(value for _, value in command[1]))
        except Refused as refusal:
            return b"no %d" % NO[refusal.args[0]]

    def finish(self):
        """The end of a session. What came behind its last point is lost."""
        self.event("umount")
        return self.points


# ---- scripts

class Dice:
    """Numbers that look like chance, the same on every machine."""
    def __init__(self, seed):
        self.state = seed

    def below(self, most):
        self.state = (self.state * 6364136223846793005 + 1442695040888963407) % 2**64
        return (self.state >> 33) % most

    def of(self, *choices):
        return choices[self.below(len(choices))]


class Writer:
    """Writes a script for a volume: each line asks what the volume, as it is then, mostly does not refuse."""
    VERBS = ("open open open open close write write write fill fill read read seek seek truncate fsync link unlink unlink rename "
             "rename mkdir mkdir rmdir opendir readdir readdir rewind stat fstat space mask setmask transact").split()

    def __init__(self, volume, seed):
        self.volume, self.dice = volume, Dice(seed)

    def paths(self, wanted, d=2, before="/"):
        for entry in self.volume.nodes[d].slots:
            if not entry:
                continue
            path = before + spelling_of(entry[0]).decode()
            if self.volume.nodes[entry[1]].is_directory:
                yield from [path] if wanted else []
                yield from self.paths(wanted, entry[1], path + "/")
            elif not wanted:
                yield path

    def path(self, directory):
        """A path that is there, now and then any."""
        there = list(self.paths(directory))
        return self.dice.of(*there) if there and self.dice.below(8) else self.new()

    def new(self):
        """A name in some directory."""
        d = self.dice.of("", "", *self.paths(True))
        name = self.dice.of("a", "b", "c", "d", "e", "f", "g", "%20" * 28, "x" * 29, ".", "") if not self.dice.below(9) else (
            self.dice.of(*"abcdefghijklmnop") + self.dice.of("", "", "1", "2"))
        return f"{d}/{name}"

    def handle(self, directory=False):
        there = [h for h, o in enumerate(self.volume.opened) if o and o.directory == directory]
        return self.dice.of(*there) if there and self.dice.below(12) else self.dice.below(17)

    def size(self):
        size = self.volume.g.size
        blocks = self.dice.of(0, 0, 1, 2, 3, 4, 5, self.volume.g.direct, self.volume.g.direct + self.volume.g.inner, 40)
        return max(0, blocks * size + self.dice.of(0, 0, 1, -1, 7, 100))

    def line(self):
        verb, dice = self.dice.of(*self.VERBS), self.dice
        if verb == "open":
            return f"open {self.path(False) if dice.below(3) else self.new()} {dice.of('r', 'w', 'rw', 'wc', 'rwc', 'wct', 'wca', 'wcx', 'rwt', 'c')}"
        rest = {
            "close": lambda: self.handle(not dice.below(4)),
            "write": lambda: f"{self.handle()} {dice.of('00', 'ff', '41' * 64, '0102' * 250, '61' * 600)}",
            "fill": lambda: f"{self.handle()} {max(1, self.size())} {dice.of('00', '5a')}",
            "read": lambda: f"{self.handle()} {dice.of(1, 16, 40)}", "seek": lambda: f"{self.handle()} {self.size()}",
            "truncate": lambda: f"{self.handle()} {self.size()}", "fsync": self.handle,
            "link": lambda: f"{self.path(False)} {self.new()}", "unlink": lambda: self.path(False),
            "rename": lambda: f"{self.path(not dice.below(3))} {self.new() if dice.below(3) else self.path(not dice.below(3))}",
            "mkdir": self.new, "rmdir": lambda: self.path(True), "opendir": lambda: self.path(True),
            "readdir": lambda: self.handle(True), "rewind": lambda: self.handle(True),
            "stat": lambda: self.path(not dice.below(2)), "fstat": lambda: self.handle(not dice.below(2)),
            "setmask": lambda: dice.of(0, 1, 1024, 1024, 1281, 1281, 1281, 2047, 256 + dice.below(1024))}
        return f"{verb} {rest[verb]()}" if verb in rest else verb

    def script(self, count):
        for _ in range(count):
            line = self.line().encode()
            self.volume.answer(line)
            yield line.decode()


# ---- the table

class ScriptTable:
    """Answers the statements of the table of scripts. The image stays from one line to the next."""
    def __init__(self, folder):
        self.folder, self.volume = folder, None

    def answers(self, line):
        verb, _, rest = line.partition(" ")
        return {"volume": self.do_volume, "run": self.do_run, "file": self.do_file}[verb](rest)

    def do_volume(self, text):
        _, _, numbers = order_of(["format", "I", *text.split(" ")])
        self.volume = Volume(Geometry(*numbers))
        yield f"  < formatted {self.volume.g.allocable}"

    def replies(self, lines):
        self.volume.mount()
        yield from map(self.volume.answer, lines)

    def end(self, count):
        return f"  status 0, commands {count}, points {self.volume.finish()}"

    def do_run(self, text):
        lines = text.split("; ")
        for line, reply in zip(lines, self.replies(line.encode() for line in lines)):
            yield f"  {line}: {reply.decode()}"
        yield self.end(len(lines))

    def do_file(self, name):
        with open(os.path.join(self.folder, "data", name), "rb") as file:
            replies = list(self.replies(file.read().splitlines()))
        refused = sum(reply.startswith(b"no ") for reply in replies)
        word = zlib.crc32(b"".join(reply + b"\n" for reply in replies))
        yield f"  {len(replies)} replies, {refused} of them refusals, check word {word:08x}"
        yield self.end(len(replies))


def replies_of(words, lines):
    """The replies to a script on a fresh volume, by the options of `format`."""
    table = ScriptTable(None)
    list(table.do_volume(" ".join(words)))
    return list(table.replies(lines))


def main():
    """usage: tests/rows_volume.py SEED COUNT WORD.., the options of `format`: prints a script of so many lines for such a volume."""
    seed, count, *words = sys.argv[1:]
    _, _, numbers = order_of(["format", "I", *words])
    for line in Writer(Volume(Geometry(*numbers)), int(seed)).script(int(count)):
        print(line)


if __name__ == "__main__":
    main()
