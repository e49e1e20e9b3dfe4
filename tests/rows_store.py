"""What docs/FORMAT.md ("Files") and docs/DEFINITIONS.md say of the blocks of a node, as a program over a store in memory:
which positions a change makes new, what a cut removes, and which damage is met."""
from rows_dirs import Directories
from rows_faults import Damage, Nothing
from rows_model import Unknown, bad_geometry, table


UNDER = {"double": "indirect", "indirect": "data"}
UNREAD = 0xee


class Block:
    """A block that is used: what it was taken as, whose it is, and its pointers or bytes."""
    def __init__(self, form, owner, held, content):
        self.form, self.owner, self.held, self.content = form, owner, held, content

    def copy(self):
        return Block(self.form, self.owner, dict(self.held), bytearray(self.content))


class Store:
    """Inodes and blocks. A pointer that is absent is not among those held."""
    def __init__(self, size, blocks, inodes, direct, indirect):
        assert not bad_geometry(size, blocks, inodes, 28, direct, indirect)
        self.size, self.direct, self.indirect = size, direct, indirect
        self.entries, self.inner = (size - 32) // 4, (size - 20) // 4
        self.table = table(size, blocks)
        self.first, self.end, self.numbers = self.table + 2 * inodes, blocks, range(2, 2 + inodes)
        self.most = direct + indirect * self.inner + (self.entries - direct - indirect) * self.inner**2
        self.sizes, self.held, self.folders = {2: 0}, {2: {}}, {2}
        self.blocks, self.committed, self.live, self.calls = {}, set(), True, 0

    # -- blocks

    def allocable(self, b):
        return self.first <= b < self.end

    def is_new(self, b):
        return b in self.blocks and b not in self.committed

    def free(self):
        """The blocks that neither view uses, and those that the working one does not use."""
        after = [b for b in range(self.first, self.end) if b not in self.blocks]
        return [b for b in after if b not in self.committed], after

    def least_free(self):
        """The least block that neither view uses, if there is one."""
        return next((b for b in range(self.first, self.end) if b not in self.blocks and b not in self.committed), None)

    def at(self, b, form, n):
        """A block read as one of this form and owner. Bytes alone have no owner and no form of their own."""
        if b not in self.blocks:
            raise Damage("NotUsed", b)
        block = self.blocks[b]
        if form != "data" and block.form != form:
            raise Damage("WrongSignature", b)
        if form != "data" and block.owner != n:
            raise Damage("WrongOwner", b)
        return block

    def take(self, block):
        """The least free block, as this one."""
        b = self.least_free()
        self.blocks[b] = block
        return b

    def drop(self, b, form, n):
        self.at(b, form, n)
        del self.blocks[b]

    def place(self, n):
        return self.table + 2 * (n - 2)

    # -- ways

    def entry_form(self, e):
        return "data" if e < self.direct else "indirect" if e < self.direct + self.indirect else "double"

    def span(self, form):
        """How many data blocks are below a block of a form."""
        return {"data": 1, "indirect": self.inner, "double": self.inner**2}[form]

    def way(self, i):
        """The entry on the way to data block i and the places behind it, each with what it leads to."""
        place, form = i, "data"
        if i >= self.direct:
            i -= self.direct
            place, form = self.direct + i // self.inner, "indirect"
            if i >= self.indirect * self.inner:
                i -= self.indirect * self.inner
                place, form = self.direct + self.indirect + i // self.inner**2, "double"
        yield place, form
        if form == "double":
            yield i // self.inner % self.inner, "indirect"
        if form != "data":
            yield i % self.inner, "data"

    def chain(self, n, i):
        """The blocks of the chain of data block i, the highest first, 0 where one is absent."""
        held = self.held[n]
        for place, form in self.way(i):
            b = held.get(place, 0)
            yield b
            held = self.at(b, form, n).held if b and form != "data" else {}

    # -- changes

    def renewed(self, b, form, n, whole=False):
        """The block where it is new; else a free one, with the same in it, or with nothing where it was absent. One that is written
        whole is not copied: it is dropped, and an empty one is taken."""
        self.calls += 2 if self.is_new(b) else 4 + whole if b else 3
        if self.is_new(b):
            return b
        if self.least_free() is None:
            raise Damage("Tangled", self.place(n))
        if not b:
            return self.take(Block(form, n, {}, bytearray(self.size)))
        new = self.take(self.at(b, form, n).copy())
        del self.blocks[b]
        return new

    def writable(self, n, i, whole=False):
        """Makes each position of the chain new, from the entry down, to write in the data block or all of it."""
        held = self.held[n]
        for place, form in self.way(i):
            held[place] = b = self.renewed(held.get(place, 0), form, n, whole and form == "data")
            held = self.at(b, form, n).held
        return b

    def under(self, b, form, n, first):
        """The indices of the data blocks under a block, of which the first could be this."""
        if form == "data":
            return [first]
        found = []
        for place, below in self.at(b, form, n).held.items():
            found += self.under(below, UNDER[form], n, first + place * self.span(UNDER[form]))
        if not found:
            raise Damage("WrongShape", b)
        return found

    def parts(self, n, i):
        """What a cut at i goes through and what it removes, in what is held by the inode and by each node that is cut."""
        through, gone = [], []

        def split(way, held, form_of, first):
            for place, b in held.items():
                form = form_of(place)
                found = self.under(b, form, n, first(place, form))
                if min(found) >= i:
                    gone.append((way, place, form))
                elif max(found) >= i:
                    through.append((way, place, form))
                    start, below = first(place, form), UNDER[form]
                    split(way + [(place, form)], self.at(b, form, n).held, lambda _: below,
                          lambda inner, _: start + inner * self.span(below))

        split([], self.held[n], self.entry_form, self.first_index)
        return through, gone

    def first_index(self, e, form):
        if form == "data":
            return e
        if form == "indirect":
            return self.direct + (e - self.direct) * self.inner
        return self.direct + self.indirect * self.inner + (e - self.direct - self.indirect) * self.inner**2

    def held_at(self, n, way):
        held = self.held[n]
        for place, form in way:
            held = self.at(held[place], form, n).held
        return held

    def cut_cost(self, n, i):
        """The pointer nodes that a cut goes through and that are not new."""
        through, _ = self.parts(n, i)
        return sum(not self.is_new(self.held_at(n, way)[place]) for way, place, _ in through)

    def cut(self, n, i):
        through, gone = self.parts(n, i)
        for way, place, form in through:
            held = self.held_at(n, way)
            held[place] = self.renewed(held[place], form, n)
        for way, place, form in gone:
            self.drop_tree(self.held_at(n, way)[place], form, n)
            del self.held_at(n, way)[place]

    def cut_calls(self, n):
        """The calls of a cut of all: each entry is asked for, and set where it leads to a block."""
        return self.entries + sum(1 + self.tree_calls(b, self.entry_form(e), n) for e, b in self.held[n].items())

    def tree_calls(self, b, form, n):
        """A block is dropped, and each place of a pointer node is asked for once before."""
        if form == "data":
            return 1
        return self.inner + 1 + sum(self.tree_calls(below, UNDER[form], n) for below in self.at(b, form, n).held.values())

    def drop_tree(self, b, form, n):
        if form != "data":
            for below in list(self.at(b, form, n).held.values()):
                self.drop_tree(below, UNDER[form], n)
        self.drop(b, form, n)

    # -- changes that are not made

    def fresh_of_bytes(self, n, at, count):
        """The positions above and at the data blocks that the bytes lie in whose blocks are not new."""
        found = {}
        for i in range(at // self.size, (at + count - 1) // self.size + 1):
            way, above = [], 0
            for (place, form), b in zip(self.way(i), self.chain(n, i)):
                way.append(place)
                if tuple(way) not in found:
                    self.calls += self.asked(len(way), form, above) + bool(b)
                found[tuple(way)], above = b, b
        return sum(not self.is_new(b) for b in found.values())

    def asked(self, depth, form, above):
        """The calls in which a block is looked up: an entry, or a place of a node that is there, for which the entry above an
        indirect node is asked again."""
        return 1 if depth == 1 else bool(above) + (form == "indirect")

    def fresh_of_size(self, n, size):
        """Of a node that is made shorter: where its last data block has bytes behind the size, those of its chain; else those of
        the cut."""
        if size >= self.sizes[n]:
            return 0
        if size % self.size:
            chain = list(self.chain(n, size // self.size))
            if chain[-1]:
                return sum(not self.is_new(b) for b in chain)
        return self.cut_cost(n, -(-size // self.size))

    # -- bytes

    def sized(self, n):
        if self.sizes[n] > self.most * self.size:
            raise Damage("WrongShape", self.place(n))
        return self.sizes[n]

    def read(self, n, at, count):
        end, data, data_of = min(at + count, self.sized(n)), b"", -1
        self.calls += 1
        for byte in range(at, end):
            if byte // self.size != data_of:
                data_of = byte // self.size
                *above, b = self.chain(n, data_of)
                self.calls += 1 + sum(map(bool, above)) + bool(b)
                content = self.at(b, "data", n).content if b else bytes(self.size)
            data += content[byte % self.size:byte % self.size + 1]
        return data

    def write(self, n, at, data):
        size, end = self.sized(n), at + len(data)
        for done, byte in enumerate(data, at):
            if done == at or done % self.size == 0:
                whole = done % self.size == 0 and end - done >= self.size
                content = self.blocks[self.writable(n, done // self.size, whole)].content
                self.calls += 1
            content[done % self.size] = byte
        self.calls += 1 + (end > size)
        self.sizes[n] = max(size, end)

    def resize(self, n, size):
        if size < self.sized(n):
            index, kept = divmod(size, self.size)
            *_, b = self.chain(n, index) if kept else [0]
            if b:
                content = self.blocks[self.writable(n, index)].content
                content[kept:] = bytes(self.size - kept)
            self.cut(n, index + (kept > 0))
        self.sizes[n] = size


class StoreTable(Directories):
    """Answers the statements of the table. The store stays from one line to the next."""
    store = None

    def answers(self, line):
        for text in line.split("; "):
            verb, *words = text.split(" ")
            if verb == "volume":
                self.store = Store(*map(int, words))
                continue
            yield f"  {text}: {self.told(verb, words)}"

    def told(self, verb, words):
        if not self.store.live:
            return "ended"
        act = getattr(self, "do_" + verb, None)
        if not act:
            raise Unknown(verb)
        try:
            return act(self.store, *words)
        except Nothing:
            return "nothing to ask"
        except Damage as damage:
            self.store.live = False
            kind, block = damage.args
            return f"{kind} at {block}"

    def do_file(self, s, size):
        free = [n for n in s.numbers if n not in s.sizes]
        if not free:
            raise Nothing
        s.sizes[free[0]], s.held[free[0]] = int(size), {}
        return free[0]

    def node(self, s, n, fits=True):
        if int(n) not in s.sizes or not fits:
            raise Nothing
        return int(n)

    def do_size(self, s, n):
        return s.sizes[self.node(s, n)]

    def do_place(self, s, n):
        return s.place(self.node(s, n))

    def do_forget(self, s, n):
        del s.sizes[self.node(s, n)], s.held[int(n)]
        return "done"

    def do_inodes(self, s):
        return len(s.numbers) - len(s.sizes)

    def do_free(self, s):
        now, after = s.free()
        return f"{len(now)} now, {len(after)} after"

    def do_point(self, s):
        s.committed = set(s.blocks)
        return "done"

    def do_block(self, s, n, i):
        return list(s.chain(self.node(s, n, int(i) < s.most), int(i)))[-1]

    def do_chain(self, s, n, i):
        chain = list(s.chain(self.node(s, n, int(i) < s.most), int(i)))
        return f"block {chain[-1]}, fresh {sum(not s.is_new(b) for b in chain)}"

    def do_writable(self, s, n, i):
        return s.writable(self.node(s, n, int(i) < s.most), int(i))

    def do_cost(self, s, n, i):
        return s.cut_cost(self.node(s, n, int(i) <= s.most), int(i))

    def do_cut(self, s, n, i):
        s.cut(self.node(s, n, int(i) <= s.most), int(i))
        return "done"

    def fresh(self, s, change, n, words):
        if change == "bytes":
            at, count = int(words[0]), int(words[1])
            return s.fresh_of_bytes(self.node(s, n, count and at + count <= s.most * s.size), at, count)
        return s.fresh_of_size(self.node(s, n, int(words[0]) <= s.most * s.size), int(words[0]))

    def do_fresh(self, s, change, n, *words):
        return self.fresh(s, change, n, words)

    def do_fits(self, s, change, n, *words):
        room = len(s.free()[0]) - int(words[-1])
        return "fits" if self.fresh(s, change, n, words) <= room else "does not fit"

    def do_read(self, s, n, at, count):
        data = s.read(self.node(s, n), int(at), int(count))
        shown = data + bytes([UNREAD]) * (int(count) - len(data))
        return f"{len(data)}:" + "".join(f" {byte:02x}" for byte in shown)

    def written(self, s, n, at, data):
        s.write(self.node(s, n, int(at) + len(data) <= s.most * s.size), int(at), data)
        return "done"

    def do_write(self, s, n, at, digits, times=1):
        return self.written(s, n, at, bytes.fromhex(digits) * int(times))

    def do_calls(self, s, verb, *words):
        """A statement, and the calls of the store that it makes, with the one that asks for the node."""
        s.calls = 1
        if verb == "cut" and words[1] == "0":
            s.calls += s.cut_calls(int(words[0]))
        elif verb not in ("write", "fill", "read") and [verb, *words][:2] != ["fresh", "bytes"]:
            raise Unknown(verb)
        calls, answer = s.calls, self.told(verb, words)
        return f"{answer}, {calls if verb == 'cut' else s.calls} calls"

    def do_fill(self, s, n, at, count, byte):
        return self.written(s, n, at, bytes.fromhex(byte) * int(count))

    def do_grow(self, s, n, size):
        n = self.node(s, n, int(size) <= s.most * s.size)
        s.sizes[n] = max(s.sized(n), int(size))
        return "done"

    def do_resize(self, s, n, size):
        s.resize(self.node(s, n, int(size) <= s.most * s.size), int(size))
        return "done"

    def do_take(self, s, form, n):
        if int(n) not in s.numbers or not s.free()[0]:
            raise Nothing
        return s.take(Block(form, int(n), {}, bytearray(s.size)))

    def lead(self, s, held, place, to):
        held.pop(place, None)
        if to:
            held[place] = to
        return "done"

    def do_entry(self, s, n, e, to):
        e, to = int(e), int(to)
        n = self.node(s, n, e < s.entries and (to == 0 or s.allocable(to)))
        return self.lead(s, s.held[n], e, to)

    def do_pointer(self, s, form, n, b, i, to):
        n, b, i, to = int(n), int(b), int(i), int(to)
        there = n in s.numbers and s.is_new(b) and i < s.inner and (to == 0 or s.allocable(to))
        if form == "data" or not there:
            raise Nothing
        return self.lead(s, s.at(b, form, n).held, i, to)

    def do_drop(self, s, form, n, b):
        if int(n) not in s.numbers or not s.allocable(int(b)):
            raise Nothing
        s.drop(int(b), form, int(n))
        return "done"
