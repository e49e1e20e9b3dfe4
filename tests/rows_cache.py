"""Blocks in buffers, and a bitmap in blocks, as the documents have them: what the cases of calls answer."""
import zlib

BUFFERS = 32


class Failed(Exception):
    pass


class Disk:
    """Blocks, and the number of the call that fails."""

    def __init__(self, blocks, size, filled, failing):
        self.blocks, self.size = [bytes([filled]) * size for _ in range(blocks)], size
        self.failing, self.calls = failing, 0

    def call(self):
        self.calls += 1
        if self.calls - 1 == self.failing:
            raise Failed

    def read(self, b):
        self.call()
        return self.blocks[b]

    def write(self, b, content):
        self.call()
        self.blocks[b] = content


class Cache:
    """The block used longest ago gives its buffer up, and is written first where it is changed."""

    def __init__(self, disk):
        self.disk, self.held, self.changed = disk, {}, set()

    def write_place(self, b):
        if b in self.changed:
            self.disk.write(b, self.held[b])
            self.changed.discard(b)

    def reach(self, b, unread=False):
        if b in self.held:
            self.held[b] = self.held.pop(b)
            return
        if len(self.held) == BUFFERS:
            oldest = next(iter(self.held))
            self.write_place(oldest)
        content = bytes(self.disk.size) if unread else self.disk.read(b)
        if len(self.held) == BUFFERS:
            del self.held[oldest]
        self.held[b] = content

    def read(self, b):
        self.reach(b)
        return self.held[b]

    def write(self, b, at, data, node):
        self.reach(b, len(data) == self.disk.size)
        content = self.held[b][:at] + data + self.held[b][at + len(data):]
        if node:
            content = content[:4] + zlib.crc32(content[8:]).to_bytes(4, "little") + content[8:]
        self.held[b] = content
        self.changed.add(b)

    def write_out(self):
        for b in list(self.held):
            self.write_place(b)


def tried(act):
    """What a call answers, and `fault` where the disk failed."""
    try:
        return act()
    except Failed:
        return "fault"


def in_turn(failing, told):
    """What is told where each call of a range fails in turn, once for those in a row that answer alike."""
    if ".." not in failing:
        yield " " + told(None if failing == "-" else int(failing))
        return
    first, last = map(int, failing.split(".."))
    since, same = first, told(first)
    for call in range(first + 1, last + 1):
        then = told(call)
        if then != same:
            yield f"  {since} to {call - 1}:{same}"
            since, same = call, then
    yield f"  {since} to {last}:{same}"


# ---- a cache over a disk of sevens

def cache_told(blocks, size, failing, calls):
    disk = Disk(int(blocks), int(size), 7, failing)
    cache, told = Cache(disk), ""
    calls, _, shown = " ".join(calls).partition("end")
    for call in calls.split():
        told += " " + cache_call(cache, *call.split(":"))
    told += f" {disk.calls} calls"
    for call in shown.split():
        verb, *numbers = call.split(":")
        numbers = [int(number) for number in numbers]
        if verb == "shown":
            told += " " + disk.blocks[numbers[0]][numbers[1]:sum(numbers[1:])].hex()
        else:
            there = sum(disk.blocks[b][99:102] == bytes([7, b, 7]) for b in range(numbers[0]))
            told += f" {there} changed"
    return told


def cache_call(cache, verb, *words):
    numbers = [int(word) for word in words] if verb not in ("write", "node") else None
    if verb == "read":
        return tried(lambda: cache.read(numbers[0])[numbers[1]:sum(numbers[1:])].hex())
    if verb == "reads":
        last = len(cache.disk.blocks) - 1
        answers = [tried(lambda: cache.read(last - i % numbers[1])) for i in range(numbers[0])]
        return f"{answers.count('fault')} failed"
    if verb == "change":
        failed = 0
        for b in range(numbers[0]):
            if tried(lambda: cache.write(b, 100, bytes([b]), False)):
                failed += 1
                tried(lambda: cache.write(b, 100, bytes([b]), False))
        return f"{failed} failed"
    acts = {
        "write": lambda: cache.write(int(words[0]), int(words[1]), bytes.fromhex(words[2]) * int(words[3]), False),
        "node": lambda: cache.write(int(words[0]), int(words[1]), bytes.fromhex(words[2]) * int(words[3]), True),
        "fresh": lambda: cache.write(numbers[0], 0, bytes(cache.disk.size), False),
        "fresh_node": lambda: cache.write(numbers[0], 0, bytes(cache.disk.size), True),
        "out": cache.write_out,
        "flush": cache.disk.call,
    }
    return tried(acts[verb]) or "ok"


# ---- a bitmap whose bits are clear, in the metaroot or in one pair of nodes

class Bitmap:
    """Two lists of bits. The nodes of a pair are the blocks 3 and 4; the list of the last point is in the live one."""

    def __init__(self, blocks, cache):
        self.cache, self.pairs = cache, int(blocks - 3 > 8 * 480)
        self.first = 3 + 2 * self.pairs
        self.bits = blocks - self.first
        self.committed, self.working = set(), set()
        self.live, self.now = 3, 3
        self.read_node(self.live)

    def read_node(self, place):
        if self.pairs:
            self.cache.read(place)

    def read_both(self):
        self.read_node(self.now)
        if self.now != self.live:
            self.read_node(self.live)

    def change(self, bit, used):
        self.read_node(self.now)
        if self.now == self.live:
            self.now = 7 - self.live
        if self.pairs:
            self.cache.write(self.now, 0, bytes(self.cache.disk.size), False)
        (self.working.add if used else self.working.discard)(bit)

    def state(self, bit):
        self.read_both()
        return {(False, False): "Free", (True, True): "Used", (False, True): "New", (True, False): "AlmostFree"}[
            bit in self.committed, bit in self.working]

    def next_free(self, bit):
        self.read_both()
        order = [*range(bit + 1, self.bits), *range(bit + 1)]
        return next((b for b in order if b >= 16 and b not in self.committed | self.working), "none")

    def inode(self):
        self.read_node(self.now)
        return next((2 + n for n in range(8) if not {2 * n, 2 * n + 1} & self.working), "none")

    def counts(self):
        almost = len(self.committed - self.working)
        return f"{self.bits - 16 - len((self.working | self.committed) - set(range(16)))}+{almost}"

    def settle(self):
        self.committed, self.live = set(self.working), self.now

    def others(self):
        for b in range(1000, 1032):
            tried(lambda: self.cache.read(b))


def bitmap_told(failing, blocks, calls):
    told = ""
    try:
        bitmap = Bitmap(int(blocks), Cache(Disk(int(blocks), 512, 0, failing)))
        for call in calls:
            verb, *numbers = call.split(":")
            acts = {"set": lambda b: bitmap.change(b, True), "clear": lambda b: bitmap.change(b, False),
                    "state": bitmap.state, "next": bitmap.next_free, "inode": bitmap.inode, "counts": bitmap.counts,
                    "settle": bitmap.settle, "others": bitmap.others}
            answer = acts[verb](*[int(number) for number in numbers])
            told += " " + ("ok" if answer is None else str(answer))
    except Failed:
        told += " Device"
    return told
