"""What docs/FORMAT.md ("Directories") and docs/DEFINITIONS.md say of the slots of a directory, as a program over the store
in memory of rows_store.py: what a slot says, where a name stands, and which blocks are left when a slot is cleared."""
from rows_faults import Damage, Nothing
from rows_model import Unknown

NAME_MOST = 28
WIDTH = 4 + NAME_MOST


class Slots:
    """The slots of directory d of a store. They are judged in the order in which they are looked at."""
    def __init__(self, s, d):
        self.s, self.d, self.in_block = s, d, s.size // WIDTH

    def blocks(self):
        return -(-self.s.sized(self.d) // self.s.size)

    def block(self, i):
        """Which block data block i is, and its bytes. One that is absent below the end is damage of the inode."""
        *_, b = self.s.chain(self.d, i)
        if not b:
            raise Damage("WrongShape", self.s.place(self.d))
        return b, bytes(self.s.at(b, "data", self.d).content)

    def said(self, i, k, block=None):
        """None where slot k of data block i is empty, else its name and number."""
        b, content = block or self.block(i)
        slot = content[k * WIDTH:(k + 1) * WIDTH]
        number, text = int.from_bytes(slot[:4], "little"), slot[4:]
        name = text.split(b"\0")[0]
        if text[len(name):].strip(b"\0"):
            raise Damage("WrongSlot", b)
        if not number and not name:
            return None
        allowed = 3 <= number < 2 + len(self.s.numbers) and name not in (b"", b".", b"..") and b"/" not in name
        if not allowed:
            raise Damage("WrongSlot", b)
        return name, number

    def all(self):
        """Each slot with its number, block by block, as far as they are asked for."""
        for i in range(self.blocks()):
            block = self.block(i)
            for k in range(self.in_block):
                yield i * self.in_block + k, self.said(i, k, block)

    def look(self, name):
        """The slot that has the name with its number, or the first empty one."""
        free, end = None, self.blocks() * self.in_block
        for slot, said in self.all():
            if said and said[0] == name:
                return slot, said[1]
            if said is None and free is None:
                free = slot
        return end if free is None else free, None

    def free(self):
        """The first empty slot. Those behind it in its block are judged too."""
        for i in range(self.blocks()):
            block = self.block(i)
            said = [self.said(i, k, block) for k in range(self.in_block)]
            if None in said:
                return i * self.in_block + said.index(None)
        return self.blocks() * self.in_block

    def last(self, i, below):
        """The last filled slot of data block i below one, None where none is."""
        block = self.block(i)
        for k in reversed(range(below)):
            if self.said(i, k, block):
                return k
        return None

    def count(self):
        blocks = self.blocks()
        if not blocks:
            return 0
        last = self.last(blocks - 1, self.in_block)
        return (blocks - 1) * self.in_block + (0 if last is None else last + 1)

    def set(self, slot, data):
        """Writes bytes first into a slot. The directory ends no earlier than with its block."""
        i, k = divmod(slot, self.in_block)
        self.s.write(self.d, i * self.s.size + k * WIDTH, data)
        self.s.sizes[self.d] = max(self.s.sized(self.d), (i + 1) * self.s.size)

    def left(self, slot):
        """How many blocks are left without a slot: fewer only where it lies in the last one and is the only filled one there."""
        i, k = divmod(slot, self.in_block)
        blocks = self.blocks()
        if i + 1 != blocks:
            return blocks
        if self.last(i, self.in_block) not in (k, None) or self.last(i, k) is not None:
            return blocks
        while i and self.last(i - 1, self.in_block) is None:
            i -= 1
        return i

    def clear(self, slot):
        left = self.left(slot)
        if slot // self.in_block < left:
            self.set(slot, bytes(WIDTH))
        else:
            self.s.resize(self.d, left * self.s.size)


class Directories:
    """The statements `dir VERB NUMBER ..` of the table."""
    def do_dir(self, s, verb, d, *words):
        act = getattr(self, "dir_" + verb, None)
        if not act:
            raise Unknown("dir " + verb)
        if verb == "new":
            return act(s, int(d))
        if int(d) not in s.folders:
            raise Nothing
        return act(Slots(s, int(d)), *words)

    def dir_new(self, s, parent):
        n = self.do_file(s, 0)
        s.folders.add(n)
        return n

    def dir_slots(self, slots):
        return slots.count()

    def dir_empty(self, slots):
        return "false" if slots.blocks() else "true"

    def dir_free(self, slots):
        return slots.free()

    def dir_find(self, slots, name):
        slot, number = slots.look(name.encode())
        return f"slot {slot}, number {number}" if number else "none"

    def dir_look(self, slots, name):
        slot, number = slots.look(name.encode())
        return f"taken: slot {slot}, number {number}" if number else f"free: slot {slot}"

    def dir_entry(self, slots, slot):
        i, k = divmod(int(slot), slots.in_block)
        said = slots.said(i, k) if i < slots.blocks() else None
        if said is None:
            return "none"
        name, number = said
        return f"number {number}, {len(name)}:" + "".join(f" {byte:02x}" for byte in name)

    def settable(self, slots, slot, fits=True):
        if int(slot) // slots.in_block >= slots.s.most or not fits:
            raise Nothing
        return int(slot)

    def dir_place(self, slots, slot, name, number):
        name = name.encode()
        slot = self.settable(slots, slot, len(name) <= NAME_MOST)
        slots.set(slot, int(number).to_bytes(4, "little") + name.ljust(NAME_MOST, b"\0"))
        return "done"

    def dir_fill(self, slots, first, count, number):
        answer = "done"
        for slot in range(int(first), int(first) + int(count)):
            try:
                answer = self.dir_place(slots, slot, f"n{slot % 10000:04}", number)
            except Nothing:
                answer = "nothing to ask"
        return answer

    def dir_replace(self, slots, slot, number):
        slots.set(self.settable(slots, slot), int(number).to_bytes(4, "little"))
        return "done"

    def dir_clear(self, slots, slot):
        slots.clear(self.settable(slots, slot))
        return "done"
