"""What docs/COMMANDS.md and docs/FORMAT.md say, as a program: nodes, disks, and calls of `edge`."""
import os
import struct
import zlib

from rows_script import command_in

SIZES = (512, 1024, 2048, 4096)
LINE, LINES, BYTES = 8209, 2**32 - 1, 2**40


class Unknown(Exception):
    """A statement that the tables' judge does not know."""


class Fault(Exception):
    """What is wrong with a node, and where."""


def number(at, size, block):
    return int.from_bytes(block[at:at + size], "little")


def sealed(block):
    return block[:4] + struct.pack("<I", zlib.crc32(block[8:])) + block[8:]


def bad_geometry(size, blocks, inodes, name, direct, indirect):
    """The first limit that is broken, or nothing."""
    if size not in SIZES:
        return "BlockSize"
    if blocks > 4194304:
        return "Blocks"
    if not 1 <= inodes <= 65536:
        return "Inodes"
    if name % 4 or not 12 <= name <= 252:
        return "NameMax"
    if direct < 1 or direct + indirect > (size - 32) // 4:
        return "Pointers"
    if blocks - table(size, blocks) - 2 * inodes < 3:
        return "Room"
    return None


def imap_pairs(size, blocks):
    """The pairs of imap nodes."""
    if blocks - 3 <= 8 * (size - 32):
        return 0
    pairs = 1
    while 8 * pairs * (size - 16) < blocks - 3 - 2 * pairs:
        pairs += 1
    return pairs


def table(size, blocks):
    """The first block of the inode table."""
    return 3 + 2 * imap_pairs(size, blocks)


def header(block, letters):
    if block[:4] != letters:
        raise Fault("WrongSignature")
    if number(4, 4, block) != zlib.crc32(block[8:]):
        raise Fault("WrongWord")


def field(at, holds):
    if not holds:
        raise Fault(f"WrongField({at})")


def master(block):
    header(block, b"MAST")
    field(8, number(8, 8, block) == 0)
    field(16, number(16, 4, block) == 1)
    field(20, number(20, 8, block) == 0)
    size = 2 ** block[46] if 9 <= block[46] <= 12 else 0
    geometry = (size, number(36, 4, block), number(32, 4, block), number(40, 2, block),
                number(42, 2, block), number(44, 2, block))
    field(32, not bad_geometry(*geometry))
    field(47, block[47] == 1)
    field(48, not any(block[48:]))
    return geometry, number(28, 4, block)


def metaroot(geometry, block):
    header(block, b"META")
    field(28, number(28, 4, block) == 0)
    bits = number(32, len(block) - 32, block)
    size, blocks = geometry[:2]
    field(32, bits >> (imap_pairs(size, blocks) or blocks - 3) == 0)
    return number(8, 8, block), number(16, 4, block), number(20, 4, block), number(24, 4, block), bits


def imap_node(geometry, i, block):
    """The sequence number of imap node i, and its bits, the lowest first."""
    header(block, b"IMAP")
    size, blocks = geometry[:2]
    room = 8 * (size - 16)
    count = max(0, min(room, blocks - table(size, blocks) - i * room))
    bits = number(16, size - 16, block)
    field(16, bits >> count == 0)
    return number(8, 8, block), [bits >> k & 1 for k in range(count)]


def inode(block):
    header(block, b"INOD")
    kind = number(24, 2, block)
    field(24, kind in (1, 2))
    field(26, number(26, 2, block) > 0)
    field(28, kind == 2 or number(28, 4, block) == 0)
    return kind, number(16, 8, block), number(26, 2, block), number(28, 4, block)


class Fails(Exception):
    """A call failed."""


class Disk:
    """The blocks of an image, with the candidates of each: first what reads give."""

    def __init__(self, size, image, room, fails):
        self.size, self.room, self.fails, self.calls, self.failed, self.more = size, room, fails, 0, False, 0
        self.blocks = [[image[at:at + size]] for at in range(0, len(image) // size * size, size)]

    def call(self):
        self.calls += 1
        return self.calls - 1 in self.fails

    def fail(self):
        self.failed = True
        raise Fails

    def read(self, b):
        if self.call():
            self.fail()
        return self.blocks[b][0]

    def write(self, b, block):
        fails = self.call()
        if self.more == self.room:
            self.fail()
        self.more += 1
        if fails:
            self.blocks[b].append(block)
            self.fail()
        self.blocks[b].append(self.blocks[b][0])
        self.blocks[b][0] = block

    def flush(self):
        if self.call():
            self.fail()
        if not self.failed:
            self.blocks, self.more = [candidates[:1] for candidates in self.blocks], 0

    def shown(self):
        return b"".join(candidates[0] for candidates in self.blocks)


class HostDisk:
    """A file of the host as a disk."""

    def __init__(self, name, size, made):
        self.size, self.blocks, self.file, self.synced = size, 0, None, True
        try:
            self.file = os.open(name, os.O_RDWR | (os.O_CREAT if made is not None else 0)) if name != "-" else None
        except OSError:
            return
        if self.file is None:
            return
        length = os.lseek(self.file, 0, os.SEEK_END)
        if made is not None and length < made * size:
            os.truncate(self.file, made * size)
            length = made * size
        self.blocks = length // size
        self.sync()

    def sync(self):
        try:
            if self.file is not None:
                os.fsync(self.file)
        except OSError:
            self.synced = False

    def read(self, b):
        block = os.pread(self.file, self.size, b * self.size)
        if len(block) < self.size:
            raise Fails
        return block

    def write(self, b, block):
        os.pwrite(self.file, block, b * self.size)

    def flush(self):
        if self.synced:
            self.sync()
        if not self.synced:
            raise Fails


class HostFolder:
    """What is below a folder of the host: a directory before what is in it, names by their bytes, no link."""

    def __init__(self, root):
        self.root, self.found, self.file = root, None, None

    def inside(self, path):
        kinds = []
        for entry in os.scandir(os.path.join(self.root, path)):
            if entry.is_symlink() or not (entry.is_dir() or entry.is_file()):
                continue
            kinds.append((os.path.join(path, entry.name), entry.is_dir()))
        return kinds

    def answer(self, call):
        try:
            if self.found is None:
                self.found = self.inside("")
            if call == "bytes":
                return escaped(self.file.read(2)) if self.file else ""
            if not self.found:
                return "none"
            self.found.sort(key=lambda item: [name.encode() for name in item[0].split("/")])
            path, is_folder = self.found[0]
            file = None if is_folder else open(os.path.join(self.root, path), "rb")
            more = self.inside(path) if is_folder else []
        except OSError:
            return "FolderFault"
        self.found, self.file = self.found[1:] + more, file
        return ("Directory " if is_folder else "File ") + path


class Row:
    def __init__(self):
        self.script, self.moments = b"", []
        self.fails = {"disk": [], "source": [], "sink": [], "folder": []}
        self.room = {"disk": 8, "sink": 4096}
        self.pieces = (2**64, 2**64)


def order_of(words):
    """The command, its block size and its numbers, or None where the words are refused."""
    known = {"run": "b", "format": "bnmlai"}
    if not words or words[0] not in known:
        return None
    options, images, rest = {}, [], list(words[1:])
    while rest:
        word = rest.pop(0)
        if not word.startswith("-"):
            images.append(word)
            continue
        if len(word) != 2 or word[1] not in known[words[0]] or word[1] in options or not rest:
            return None
        value = rest.pop(0)
        if not value.isdigit() or (value[0] == "0" and value != "0") or int(value) >= 2**32:
            return None
        options[word[1]] = int(value)
    size = options.get("b", 512)
    if len(images) != 1 or images[0] == "" or size not in SIZES:
        return None
    if words[0] == "run":
        return "run", size, None
    if "n" not in options or "m" not in options:
        return None
    return "format", size, (size, options["n"], options["m"], options.get("l", 28), options.get("a", 4),
                            options.get("i", 32))


def node(letters, fields, size):
    block = letters + bytes(4) + fields
    return sealed(block + bytes(size - len(block)))


def format_disk(disk, g, moment):
    size, blocks, inodes = g[:3]
    pairs, start = imap_pairs(size, blocks), table(size, blocks)
    first = start + 2 * inodes
    disk.write(0, bytes(size))
    disk.flush()
    for i in range(pairs):
        disk.write(3 + 2 * i, node(b"IMAP", struct.pack("<QB", 1, i == 0), size))
    disk.write(start, node(b"INOD", struct.pack("<QQHHI", 1, 0, 2, 1, 0), size))
    disk.write(1, node(b"META", struct.pack("<QIIIII", 1, blocks - first, inodes - 1, first, 0, pairs == 0), size))
    disk.write(2, bytes(size))
    disk.flush()
    log = size.bit_length() - 1
    fields = struct.pack("<QIQIIIHHHBB", 0, 1, 0, moment, inodes, blocks, *g[3:], log, 1)
    disk.write(0, node(b"MAST", fields, size))
    disk.flush()


class Live:
    """What is mounted: the geometry, the block of the live metaroot and its record, which blocks are used from the inode table on,
    and the blocks that have been read."""
    def __init__(self, g, place, root, used):
        self.g, self.place, self.root, self.used = g, place, root, used
        self.known = {*range(3), *(3 + 2 * i + (root[4] >> i & 1) for i in range(imap_pairs(*g[:2])))}


def mount(disk):
    """The reason, or what is mounted."""
    if len(disk.blocks) < 3:
        return 1, None
    try:
        g = master(disk.read(0))[0]
    except Fault:
        return 1, None
    if g[0] != disk.size:
        return 2, None
    if g[1] > len(disk.blocks):
        return 3, None
    roots = []
    for b in (1, 2):
        try:
            roots.append((b, metaroot(g, disk.read(b))))
        except Fault:
            pass
    if not roots:
        return 4, None
    place, live = max(roots, key=lambda found: (found[1][0], -found[0]))
    if live[0] > 2**63:
        return 5, None
    pairs = imap_pairs(*g[:2])
    used = [] if pairs else [live[4] >> i & 1 for i in range(g[1] - 3)]
    for i in range(pairs):
        try:
            used += imap_node(g, i, disk.read(3 + 2 * i + (live[4] >> i & 1)))[1]
        except Fault:
            return 6, None
    free = used[2 * g[2]:].count(0)
    numbers = sum(not used[2 * i] and not used[2 * i + 1] for i in range(g[2]))
    if (free, numbers) != live[1:3]:
        return 7, None
    return (8 if free <= 2 else None), Live(g, place, live, used)


def take_point(disk, live):
    """A point with nothing changed: of all that a point writes the metaroot alone, in the block that is not live."""
    sequence, blocks, inodes, after, bits = live.root
    live.place, live.root = 3 - live.place, (sequence + 1, blocks, inodes, after, bits)
    fields = struct.pack("<QIIII", *live.root[:4], 0) + bits.to_bytes(disk.size - 32, "little")
    disk.flush()
    disk.write(live.place, node(b"META", fields, disk.size))
    disk.flush()


class Damaged(Exception):
    pass


def read_root(disk, live):
    """What the root's inode says. A block is read once, and is in the cache then."""
    first, used = table(*live.g[:2]), live.used
    if not used[0] and not used[1]:
        raise Damaged(first, 6)
    if used[0] and used[1]:
        raise Damaged(first, 7)
    place = first if used[0] else first + 1
    block = disk.blocks[place][0] if place in live.known else disk.read(place)
    live.known.add(place)
    try:
        return inode(block)
    except Fault as fault:
        raise Damaged(place, {"WrongSignature": 1, "WrongWord": 2}.get(str(fault), 3)) from fault


class Run:
    """One call of the program over objects in memory."""

    def __init__(self, row, words, disk_of):
        self.status, self.tail, self.commands, self.taken, self.points, self.output = 0, "", 0, 0, 0, b""
        self.row, self.writes, self.moments = row, 0, list(row.moments) or [0]
        order = order_of(words)
        self.disk = disk_of(order[1] if order else 512)
        try:
            if not order:
                self.status = 2
            elif order[0] == "run":
                self.run()
            else:
                self.format(order[2])
        except Fails:
            self.status = 5

    def write(self, reply):
        """Whether the sink takes the whole reply."""
        piece = max(1, self.row.pieces[1])
        while reply:
            call, self.writes = self.writes, self.writes + 1
            room = self.row.room["sink"] - len(self.output)
            if call in self.row.fails["sink"] or room == 0:
                self.status = 4
                return False
            count = min(len(reply), piece, room)
            self.output, reply = self.output + reply[:count], reply[count:]
        return True

    def moment(self):
        """The clock's next moment. The last one stays."""
        moment, self.moments = self.moments[0], self.moments[1:] or self.moments
        return moment

    def format(self, g):
        if bad_geometry(*g) or g[1] > len(self.disk.blocks):
            self.status = 10
            return
        format_disk(self.disk, g, self.moment())
        self.write(b"formatted %d\n" % (g[1] - table(*g[:2]) - 2 * g[2]))

    def run(self):
        reason, live = mount(self.disk)
        if reason:
            self.status, self.tail = 8, f" reason {reason}"
            return
        self.live, self.mask = live, 1281
        try:
            if self.serve() and self.mask & 1:
                self.take_point()
        except Damaged as damage:
            self.status, self.tail = 6, " block %d kind %d" % damage.args

    def take_point(self):
        take_point(self.disk, self.live)
        self.points += 1

    def serve(self):
        """Answers each line, and tells whether the script was read to its end."""
        script, piece = self.row.script, min(65536, self.row.pieces[0])
        # Reads come in turn while a line is not whole; the one that gives nothing is the end.
        given, reads, end = 0, 0, False
        while True:
            while not end and b"\n" not in script[self.taken:given]:
                if reads in self.row.fails["source"]:
                    self.status = 3
                    return False
                reads, end, given = reads + 1, given >= len(script), min(len(script), given + piece)
            line, feed, _ = script[self.taken:].partition(b"\n")
            if not line and not feed:
                return True
            self.taken += len(line + feed)
            if not self.write(self.answer(line)):
                return False
            self.commands += 1

    def answer(self, line):
        """The reply to a line over a root directory without entries. Commands that would change it are not known here. The clock
        is asked for each command."""
        command = command_in(line)
        if command is None:
            return b"bad\n"
        self.moment()
        verb, words, g = command[0], dict(command[1]), self.live.g
        if verb == "Space":
            free, numbers = self.live.root[1:3]
            return b"ok %d %d %d %d %d\n" % (free, free, g[1] - table(*g[:2]) - 2 * g[2], numbers, g[2])
        if verb == "Mask":
            return b"ok %d\n" % self.mask
        if verb == "SetMask" and words["mask"] > 2047:
            return b"no 22\n"
        if verb == "SetMask":
            self.mask = words["mask"]
            return b"ok\n"
        if verb == "Transact":
            self.take_point()
            return b"ok\n"
        return self.answer_path(verb, words.get("path"))

    def answer_path(self, verb, path):
        if path == b"//":
            return b"no 22\n"
        if path and len(path) > 255:
            return b"no 36\n"
        kind, size, links, _ = read_root(self.disk, self.live)
        if (verb, path) == ("Stat", b"/"):
            return b"ok 2 %s %d %d\n" % (b"fd"[kind - 1:kind], size, links)
        refused = {("Stat", b"/a"): 2, ("OpenFile", b"/"): 21, ("MakeDir", b"/"): 17}
        if (verb, path) not in refused or kind != 2 or size:
            raise Unknown(verb)
        return b"no %d\n" % refused[verb, path]

    def fault_line(self):
        return f"edge: status {self.status}{self.tail}\\0a" if self.status else ""

    def told(self, calls=True):
        text = f"  status {self.status}, commands {self.commands}, taken {self.taken}, points {self.points}"
        text += f", calls {self.disk.calls}" if calls else ""
        text += f", next moment {self.moments[0]}" if self.row.moments else ""
        yield text + (", " + self.fault_line() if self.status else "")
        for line in self.output.splitlines(keepends=True):
            whole = line.endswith(b"\n")
            yield ("  < " if whole else "  <, without its line feed: ") + escaped(line[:-1] if whole else line)


def escaped(text):
    return "".join(chr(c) if 32 <= c < 127 and c != 92 else f"\\{c:02x}" for c in text)


def unescaped(text):
    parts = text.split("\\")
    return parts[0].encode() + b"".join(bytes.fromhex(part[:2]) + part[2:].encode() for part in parts[1:])
