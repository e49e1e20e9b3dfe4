"""What docs/FORMAT.md ("How an image is updated") and docs/DEFINITIONS.md say of a store over a disk, as a program: two
metaroots in turn, two places for each inode and imap node, and which calls of the disk a point takes."""
import copy
import itertools

from rows_model import Unknown, imap_pairs
from rows_store import Block, Nothing, Store

GREATEST = 2**63


class Working(Store):
    """The working view since the last point, with what was changed and which blocks were read or written first."""
    def __init__(self, *geometry):
        super().__init__(*geometry)
        self.nodes = imap_pairs(geometry[0], geometry[1])
        self.kinds = {2: "Directory"}
        self.second, self.changed, self.turned = {2: 0}, set(), set()
        self.known, self.reads = set(), 0

    def begun(self):
        """The working view as it is mounted."""
        new = copy.deepcopy(self)
        new.known, new.reads = set(), 3 + self.nodes
        new.settle()
        return new

    def settle(self):
        self.committed, self.before = set(self.blocks), dict(self.second)
        self.changed, self.turned = set(), set()

    def first_use(self, what):
        if what not in self.known:
            self.known.add(what)
            self.reads += 1

    def at(self, b, form, n):
        self.first_use(b)
        return super().at(b, form, n)

    def take(self, block):
        b = super().take(block)
        self.known.add(b)
        return self.turn(b)

    def drop(self, b, form, n):
        """Of data nothing is read to drop it."""
        if form != "data":
            self.at(b, form, n)
        del self.blocks[self.turn(b)]

    def turn(self, b):
        """A bit of the bitmap that is changed lies in the first imap node, where there is one."""
        if self.nodes:
            assert b < self.table + 8 * (self.size - 16)
            self.turned.add(0)
        return b

    def change(self, n):
        """The inode goes to the place that the last point does not use."""
        if n not in self.changed:
            self.changed.add(n)
            self.second[n] = 1 - self.before[n] if n in self.before else 0
            self.turn(self.place(n))
        self.known.add(("inode", n))

    def there(self, n):
        if n not in self.sizes:
            raise Nothing
        self.first_use(("inode", n))
        return n

    def fill(self, n, at, count, byte):
        """A block that is written whole is not read first."""
        end = at + count
        for i in range(-(-at // self.size), end // self.size):
            *_, b = self.chain(n, i)
            self.known.add(b)
        self.write(n, at, byte * count)
        self.change(n)


class Volume:
    """An image: the view of each metaroot, and what stands in the blocks of nodes."""
    def __init__(self, *geometry):
        fresh = Working(*geometry)
        fresh.settle()
        self.first_number = {fresh.table: ("INOD", 1), 1: ("META", 1)}
        self.first_number.update({3 + 2 * i: ("IMAP", 1) for i in range(fresh.nodes)})
        self.placed, self.pointers = self.first_number, 0
        self.imaps = [0] * fresh.nodes
        self.roots, self.damaged = {1: (1, fresh)}, set()

    def live(self):
        """The block of the metaroot with the greatest sequence number, the first where both have it."""
        there = [b for b in (1, 2) if b in self.roots and b not in self.damaged]
        if not there:
            return None, "NotVolume(4)"
        b = max(there, key=lambda b: (self.roots[b][0], -b))
        return b, "NotVolume(5)" if self.roots[b][0] > GREATEST else None


class Run:
    """Steps over a volume, up to the first fault, with the calls of the disk."""
    def __init__(self, volume):
        self.volume = volume
        self.place, self.fault = volume.live()
        self.writes, self.flushes = 0, 0
        if not self.fault:
            self.sequence, view = volume.roots[self.place]
            self.view = view.begun()

    def do_file(self):
        v = self.view
        free = [n for n in v.numbers if n not in v.sizes]
        if not free:
            raise Nothing
        v.sizes[free[0]], v.held[free[0]], v.kinds[free[0]] = 0, {}, "File"
        v.change(free[0])
        return f"number {free[0]}"

    def do_fill(self, n, at, count, byte):
        self.view.fill(self.view.there(int(n)), int(at), int(count), bytes.fromhex(byte))

    def do_size(self, n, size):
        n = self.view.there(int(n))
        if self.view.sizes[n] != int(size):
            self.view.resize(n, int(size))
            self.view.change(n)

    def do_drop(self, n):
        self.do_size(n, 0)
        v, n = self.view, int(n)
        for of in (v.sizes, v.held, v.kinds, v.second):
            del of[n]

    def do_head(self, n):
        self.view.there(int(n))

    def do_read(self, n, at):
        *_, b = self.view.chain(self.view.there(int(n)), int(at) // self.view.size)
        self.view.at(b, "data", int(n))

    def do_rounds(self, n, count):
        for turn in range(int(count)):
            self.view.fill(self.view.there(int(n)), 0, 64, bytes([turn % 256]))
            self.do_point()

    def do_points(self, count):
        for _ in range(int(count)):
            self.do_point()

    def do_point(self):
        volume, v = self.volume, self.view
        self.sequence, self.place = self.sequence + 1, 3 - self.place
        new = [b for b in v.blocks if v.is_new(b)]
        self.writes += len(v.changed) + len(new) + len(v.turned) + 1
        self.flushes += 2
        for n in v.changed:
            second = v.second.get(n, 1 - v.before.get(n, 1))
            volume.placed[v.place(n) + second] = "INOD", self.sequence
        for i in v.turned:
            volume.imaps[i] = 1 - volume.imaps[i]
            volume.placed[3 + 2 * i + volume.imaps[i]] = "IMAP", self.sequence
        volume.placed[self.place] = "META", self.sequence
        volume.pointers = sum(v.blocks[b].form != "data" for b in new)
        v.settle()
        volume.roots[self.place] = self.sequence, copy.deepcopy(v)
        volume.damaged.discard(self.place)

    def step(self, text):
        """What a step answers, or nothing."""
        verb, *words = text.split(" ")
        try:
            return getattr(self, "do_" + verb)(*words)
        except Nothing:
            return "nothing to ask"

    def calls(self):
        return self.view.reads, self.writes, self.flushes


class PointTable:
    """Answers the statements of the table. The image stays from one line to the next."""
    volume = None

    def answers(self, line):
        for text in line.split("; "):
            verb, _, rest = text.partition(" ")
            yield from getattr(self, "do_" + verb, self.unknown)(rest) or ()

    def unknown(self, text):
        raise Unknown(text)

    def do_volume(self, text):
        self.volume = Volume(*map(int, text.split(" ")))

    def do_put(self, text):
        """A metaroot that is damaged and mended, or that has another sequence number."""
        b, at, digits, *seal = text.split(" ")
        if int(b) not in (1, 2) or (not seal and digits != "ff"):
            raise Unknown(text)
        self.volume.damaged.discard(int(b))
        if not seal:
            self.volume.damaged.add(int(b))
        elif at == "8":
            sequence = int.from_bytes(bytes.fromhex(digits), "little")
            self.volume.roots[int(b)] = sequence, self.volume.roots[int(b)][1]
            self.volume.placed[int(b)] = "META", sequence

    def do_run(self, text):
        run = Run(self.volume)
        if run.fault:
            yield f"  Refused({run.fault})"
            return
        for step in text.split(", "):
            told = run.step(step)
            if told:
                yield f"  {told}"

    def do_show(self, _):
        b, fault = self.volume.live()
        if fault:
            yield f"  {fault}"
            return
        sequence, v = self.volume.roots[b]
        now, after = v.begun().free()
        yield f"  sequence number {sequence}"
        yield f"  free: {len(now)} blocks, {len(after)} after a point, {len(v.numbers) - len(v.sizes)} inodes"
        for n in sorted(v.sizes):
            runs = [(byte, len(list(same))) for byte, same in itertools.groupby(v.read(n, 0, v.sizes[n]))]
            told = "".join(f", {count} x {byte:02x}" for byte, count in runs)
            yield f"  {n}: {v.kinds[n]} of {v.sizes[n]} bytes{told}"

    def do_nodes(self, _):
        placed = self.volume.placed
        for b in sorted(placed):
            yield f"  block {b}: {placed[b][0]} of {placed[b][1]}"
        greatest = max(sequence for _, sequence in placed.values())
        yield f"  {self.volume.pointers} pointer nodes of {greatest}"

    def do_cuts(self, text):
        """Whatever call of the disk fails, a cut of the power leaves the last point, or the one that was under way."""
        yield "  elsewhere: the last point"
        if "point" in text:
            yield "  in a point: the last point"
            yield "  in a point: the point under way"

    def do_calls(self, text):
        """Each block is read at its first use, and no block that is written whole; a point writes what has changed, once."""
        run = Run(copy.deepcopy(self.volume))
        before = 0, 0, 0
        for step in [None, *text.split(", ")]:
            if step:
                run.step(step)
            calls = run.calls()
            reads, writes, flushes = (new - old for new, old in zip(calls, before))
            yield f"  {reads} reads, {writes} writes, {flushes} flushes"
            before = calls
