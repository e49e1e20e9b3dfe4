#!/usr/bin/env python3
"""Computes what the tables of crates/edge_rows, crates/edge_part_rows, crates/edge_script_rows, crates/edge_store_rows and
crates/edge_point_rows have to answer, from the documents alone, and compares. Lines with a statement that it does not know are counted and
left out.

usage: tests/rows.py [CRATE..]"""
import os
import sys
import tempfile
import zlib

from rows_cache import bitmap_told, cache_told, in_turn
from rows_model import (
    Disk, Fails, Fault, HostDisk, HostFolder, Row, Run, Unknown, bad_geometry, escaped, imap_node,
    imap_pairs, inode, master, metaroot, number, order_of, sealed, table, unescaped)
from rows_script import (
    Bad, hex_in, number_in, path_in, reply_of, spelling_of, told_command)
from rows_store import StoreTable
from rows_point import PointTable
from rows_volume import ScriptTable, replies_of


NUMBERS = [
    ("NoEntry", 2), ("BadDescriptor", 9), ("Busy", 16), ("Exists", 17), ("CrossVolume", 18), ("NotDir", 20), ("IsDir", 21),
    ("Invalid", 22), ("NoInodes", 23), ("TooManyOpen", 24), ("TooBig", 27), ("NoSpace", 28), ("TooManyLinks", 31),
    ("NameTooLong", 36), ("NotEmpty", 39),
    ("WrongSignature", 1), ("WrongWord", 2), ("WrongField", 3), ("WrongOwner", 4), ("WrongPointer", 5), ("NotUsed", 6),
    ("TwoPlaces", 7), ("WrongSlot", 8), ("WrongShape", 9), ("Tangled", 10)]

FAULTS = ["  edge_words: BadWords", "  edge_io: SourceFault SinkFault FolderFault", "  edge_disk: DeviceFault",
          "  edge_format: Device"]


class Table:
    def __init__(self, folder):
        self.folder, self.image, self.size, self.kept = folder, b"", 512, b""

    def block(self, b):
        return self.image[b * self.size:(b + 1) * self.size]

    def put(self, b, at, data):
        place = b * self.size + at
        self.image = self.image[:place] + data + self.image[place + len(data):]

    def answers(self, line):
        row = Row()
        for text in line.split("; "):
            words = [word if word != "''" else "" for word in text.split(" ")]
            yield from getattr(self, "do_" + words[0], self.unknown)(row, text, *words[1:])

    def unknown(self, row, text, *words):
        raise Unknown(text)

    def changes(act):
        """A statement that answers nothing."""
        def change(self, row, text, *words):
            act(self, row, *words)
            return ()
        return change

    @changes
    def do_stored(self, row, name, size):
        with open(os.path.join(self.folder, "data", name), "rb") as file:
            self.image, self.size = file.read(), int(size)

    @changes
    def do_keep(self, row):
        self.kept = self.image

    @changes
    def do_back(self, row):
        self.image = self.kept

    @changes
    def do_image(self, row, size, blocks, filled):
        self.image, self.size = bytes.fromhex(filled) * (int(size) * int(blocks)), int(size)

    @changes
    def do_length(self, row, length):
        self.image = self.image[:int(length)] + bytes(max(0, int(length) - len(self.image)))

    @changes
    def do_put(self, row, b, at, digits, seal=None):
        self.put(int(b), int(at), bytes.fromhex(digits))
        if seal:
            self.put(int(b), 0, sealed(self.block(int(b))))

    @changes
    def do_fill(self, row, b, filled):
        self.put(int(b), 0, bytes.fromhex(filled) * self.size)

    @changes
    def do_copy(self, row, one, other):
        self.put(int(other), 0, self.block(int(one)))

    @changes
    def do_fail(self, row, what, *calls):
        row.fails[what] = [int(call) for call in calls]

    @changes
    def do_pieces(self, row, source, sink):
        row.pieces = int(source), int(sink)

    @changes
    def do_room(self, row, what, room):
        row.room[what] = int(room)

    @changes
    def do_moments(self, row, *moments):
        row.moments = [int(moment) for moment in moments]

    def do_line(self, row, text, *_):
        row.script += unescaped(text[5:]) + b"\n"
        return ()

    def do_text(self, row, text, *_):
        row.script += unescaped(text[5:])
        return ()

    def do_times(self, row, text, count, *_):
        row.script += unescaped(text.split(" ", 2)[2]) * int(count)
        return ()

    def do_edge(self, row, text, *words):
        run = Run(row, words, lambda size: Disk(size, self.image, row.room["disk"], row.fails["disk"]))
        self.image = run.disk.shown()
        yield from run.told()

    def do_sure(self, row, text, *words):
        yield from Run(row, words, lambda size: Disk(size, self.image, 2**32, [])).told(calls=False)

    def do_cuts(self, row, text, *words):
        def over(fails):
            return Run(row, words, lambda size: Disk(size, self.image, row.room["disk"], fails))

        whole = over([])
        for call in range(whole.disk.calls):
            run = over([call])
            disk = run.disk
            loose = [b for b, candidates in enumerate(disk.blocks) if len(candidates) > 1]
            yield (f"  call {call} fails: status {run.status}, calls {disk.calls}"
                   + "".join(f", block {b} has {len(disk.blocks[b])}" for b in loose))
            counts = {}
            for image, torn in permitted(disk, loose):
                judged = Row()
                judged.script = b"stat /\n"
                answer = Run(judged, ["run", "I", "-b", str(disk.size)], lambda size: Disk(size, image, judged.room["disk"], []))
                known = {self.image: "old image: ", whole.disk.shown(): "new image: "}.get(image, "")
                key = torn + known + answer.fault_line() + escaped(answer.output)
                counts[key] = counts.get(key, 0) + 1
            for key in sorted(counts):
                yield f"    {counts[key]} x {key}"

    def do_show(self, row, text, b):
        block = self.block(int(b))
        shown = len(block.rstrip(block[-1:]))
        for at in range(0, shown, 16):
            yield "  " + block[at:at + 16].hex(" ")
        yield f"  {block[-1]:02x} to the end"

    def told_node(self, tell):
        try:
            yield from tell().splitlines()
        except Fault as fault:
            yield f"  {fault}"

    def do_master(self, row, text, b):
        def tell():
            g, time = master(self.block(int(b)))
            names = ("block size", "blocks", "inodes", "name", "direct", "indirect")
            return "  " + ", ".join(f"{name} {n}" for name, n in zip(names, g)) + f", time {time}"
        return self.told_node(tell)

    def do_metaroot(self, row, text, b):
        def tell():
            sequence, blocks, inodes, after, bits = metaroot(master(self.block(0))[0], self.block(int(b)))
            used = "".join(f" {i}" for i in range(8 * self.size) if bits >> i & 1)
            counts = f"free {blocks} blocks {inodes} inodes, next {after}, {self.size - 32} bytes of bits:"
            return f"  sequence {sequence}, {counts}{used}"
        return self.told_node(tell)

    def do_imap(self, row, text, b, i):
        def tell():
            sequence, bits = imap_node(master(self.block(0))[0], int(i), self.block(int(b)))
            used = "".join(f" {k}" for k, bit in enumerate(bits) if bit)
            return f"  sequence {sequence}, {len(bits)} bits:{used}"
        return self.told_node(tell)

    def do_inode(self, row, text, b):
        def tell():
            kind, size, links, parent = inode(self.block(int(b)))
            told = f"  {('File', 'Directory')[kind - 1]} of {size} bytes, {links} links, parent {parent}"
            entries = [number(at, 4, self.block(int(b))) for at in range(32, self.size, 4)]
            return "\n".join([told] + [f"  entry {i} is {entry}" for i, entry in enumerate(entries) if entry])
        return self.told_node(tell)

    def do_faults(self, row, text):
        return FAULTS

    def do_numbers(self, row, text):
        return [f"  {name} {n}" for name, n in NUMBERS]

    def do_check_word(self, row, text):
        yield f"  {zlib.crc32(row.script):08x}"

    def do_bits(self, row, text, call, length, clear, times):
        length, clear, turn = int(length), int(clear), int(times) - 1
        bits = bytearray(b"\xff" * -(-length // 8))
        if clear < length:
            bits[clear // 8] ^= 1 << clear % 8
        least = f"Some({clear})" if turn % 64 <= clear < length else "None"
        counted = max(0, length - turn % 64)
        zeros = int(clear < counted)
        bits[:1] = bytes([turn % 256])[:len(bits)]
        yield "  " + {"first_zero_from": least, "free_in": least, "count": str(counted - zeros), "counts_in": str(zeros),
                      "check_word": f"{zlib.crc32(bits):08x}"}[call]

    def do_cache(self, row, text, failing, blocks, size, *calls):
        yield from in_turn(failing, lambda call: cache_told(blocks, size, call, calls))

    def do_bitmap(self, row, text, failing, blocks, *calls):
        yield from in_turn(failing, lambda call: bitmap_told(call, blocks, calls))

    def do_imap_search(self, row, text, what, blocks, count, takes):
        blocks, count, takes = int(blocks), int(count), int(takes)
        nodes = 0 if blocks - 3 <= 8 * 480 else next(n for n in range(1, 1058) if blocks - 3 - 2 * n <= n * 8 * 496)
        if nodes > 16:
            raise Unknown(text)
        bits = blocks - 3 - 2 * nodes
        spread = list(range(16, bits, max(1, (bits - 16) // max(1, count))))[:count]
        free = spread if what == "spread" else list(range(max(16, bits - count), bits))
        taken = free[:takes]
        # Each node on the way is read once, and twice where a bit of it is almost free. The cache has room for them all.
        last = nodes - 1 if len(taken) < takes else taken[-1] // 3968 if taken else -1
        pairs = {bit // 3968 for bit in spread if bit not in free} if what == "behind" else set()
        reads = sum(1 + (node in pairs) for node in range(last + 1)) if nodes else 0
        yield f"  {len(taken)} taken, the last {(taken or [16])[-1]}: {reads} reads, 0 writes"

    def do_command(self, row, text, *_):
        yield told_command(row.script + unescaped(text.partition(" ")[2]))

    def do_word(self, row, text, what, *_):
        word = unescaped(text.split(" ", 2)[2] if text.count(" ") > 1 else "")
        if what == "spell":
            yield "  " + escaped(spelling_of(word))
            return
        try:
            read = {"number": number_in, "path": path_in, "hex": hex_in}[what](word)
        except Bad:
            yield "  None"
        else:
            yield f"  Some({read})" if what == "number" else "  " + escaped(read)

    def do_reply(self, row, text, what, *words):
        yield "  > " + escaped(reply_of(what, words, bytes(row.script))[:-1])

    def do_words(self, row, text, *words):
        order = order_of(words)
        if order is None:
            yield "  BadWords"
            yield "  Attached { image: None, block_size: 512, make_blocks: None }"
            return
        name, size, g = order
        rest = list(words[1:])
        place = 1
        while rest[place - 1].startswith("-"):
            place += 2
        image = words[place]
        if g is None:
            yield f'  Run {{ image: "{image}", block_size: {size} }}'
        else:
            names = ("block_size", "blocks", "inodes", "name_max", "direct", "indirect")
            request = ", ".join(f"{name}: {n}" for name, n in zip(names, g))
            yield f'  Format {{ image: "{image}", request: Request {{ {request} }} }}'
        made = f"Some({g[1]})" if g and not bad_geometry(*g) else "None"
        yield f"  Attached {{ image: Some({place}), block_size: {size}, make_blocks: {made} }}"

    def do_geometry(self, row, text, *numbers):
        size, blocks, inodes, name, direct, indirect, *indexes = map(int, numbers)
        limit = bad_geometry(size, blocks, inodes, name, direct, indirect)
        if limit:
            yield f"  {limit}"
            return
        entries, inner = (size - 32) // 4, (size - 20) // 4
        pairs, start = imap_pairs(size, blocks), table(size, blocks)
        first = start + 2 * inodes
        most = direct + indirect * inner + (entries - direct - indirect) * inner**2
        yield (f"  inline {str(pairs == 0).lower()}, imap nodes {pairs}, table {start}, root ({start}, {start + 1}) to {first - 1}, "
               f"{blocks - first} allocable from {first}, "
               f"files of {most} blocks, {most * size} bytes")
        for index in indexes:
            if index >= most:
                continue
            rest, wide = index - direct, indirect * inner
            if index < direct:
                way = f"Direct {{ entry: {index} }}"
            elif rest < wide:
                way = f"Single {{ entry: {direct + rest // inner}, place: {rest % inner} }}"
            else:
                rest -= wide
                way = (f"Double {{ entry: {direct + indirect + rest // inner**2}, outer: {rest // inner % inner}, "
                       f"place: {rest % inner} }}")
            yield f"  block {index}: {way}"

    def calls_of_disk(self, disk, calls, counted):
        for call in calls:
            if call[0] == "p":
                pick = [int(n) for n in call[1:].split(",")]
                there = len(pick) == len(disk.blocks) and all(n < len(c) for n, c in zip(pick, disk.blocks))
                told = "".join(f" {c[n][0]:02x}" for n, c in zip(pick, disk.blocks)) if there else " none"
                yield f"  {call}:{told}"
                continue
            b, _, byte = call[1:].partition(":")
            try:
                if call[0] == "f":
                    disk.flush()
                    told = "00"
                elif call[0] == "r":
                    told = f"{disk.read(int(b))[0]:02x}"
                else:
                    disk.write(int(b), bytes.fromhex(byte) * disk.size)
                    told = byte
            except Fails:
                told = "DeviceFault"
            if counted:
                told += f", {disk.calls} calls, candidates" + "".join(f" {len(c)}" for c in disk.blocks)
            yield f"  {call}: {told}"

    @changes
    def do_make_folder(self, row, path):
        os.makedirs(path)

    @changes
    def do_make_file(self, row, name, content):
        count, byte = content.split(":")
        with open(name, "wb") as file:
            file.write(bytes.fromhex(byte) * int(count))

    @changes
    def do_make_text(self, row, name, content):
        with open(name, "w", encoding="ascii") as file:
            file.write(content)

    @changes
    def do_make_link(self, row, target, name):
        os.symlink(target, name)

    @changes
    def do_remove_file(self, row, name):
        os.remove(name)

    def do_host_disk(self, row, text, name, size, made, *calls):
        disk = HostDisk(name, int(size), None if made == "-" else int(made))
        yield f"  {disk.blocks} blocks"
        for call in calls:
            if call[0] == "t":
                self.do_make_file(row, text, name, call[1:])
                continue
            yield from self.calls_of_disk(disk, [call], False)

    def do_host_folder(self, row, text, name, *calls):
        folder = HostFolder(name)
        for call in calls:
            if call[0] == "-":
                os.remove(call[1:])
            elif call[0] == "+":
                self.do_make_text(row, text, call[1:], "made anew")
            else:
                yield f"  {call}: {folder.answer(call)}"

    def do_host_streams(self, row, text, *answers):
        plain = next((answer for answer in [*answers, "0"] if answer != "i"))
        read = "SourceFault" if plain == "b" else f"read {min(3, int(plain))}"
        written = "SinkFault" if plain in ("b", "0") else f"written {min(3, int(plain))}"
        yield f"  {read}, {written}"

    def do_host_clock(self, row, text, *answers):
        last, told = 0, " "
        for answer in [*answers, "-"]:
            last = int(answer) if answer != "-" and int(answer) < 2**32 else last
            told += f" {last}"
        yield told

    def do_host_now(self, row, text):
        return ["  now: true"]

    def do_disk(self, row, text, *calls):
        disk = Disk(self.size, self.image, row.room["disk"], row.fails["disk"])
        return self.calls_of_disk(disk, calls, True)

    def do_sure_disk(self, row, text, *calls):
        return self.calls_of_disk(Disk(self.size, self.image, 2**32, []), calls, False)

    def do_source(self, row, text, *sizes):
        left = row.script
        for call, size in enumerate(sizes):
            if call in row.fails["source"]:
                yield f"  {size}: SourceFault"
                continue
            yield f"  {size}: {escaped(left[:int(size)])}"
            left = left[int(size):]

    def do_sink(self, row, text, *pieces):
        taken = ""
        for call, piece in enumerate(pieces):
            room = row.room["sink"] - len(taken)
            if call in row.fails["sink"] or (piece and not room):
                yield f"  {piece}: SinkFault"
                continue
            taken += piece[:room]
            yield f"  {piece}: {len(piece[:room])}"
        if taken:
            yield f"  <, without its line feed: {taken}"

    def do_clock(self, row, text, count):
        moments = row.moments or [0]
        yield " " + "".join(f" {moments[min(n, len(moments) - 1)]}" for n in range(int(count)))

    def do_folder(self, row, text, *calls):
        items, left = [("Directory", "b", ""), ("File", "b/c", "xyz"), ("File", "a", "uvw")], ""
        for number, call in enumerate(calls):
            if number in row.fails["folder"]:
                yield f"  {call}: FolderFault"
            elif call == "bytes":
                yield f"  bytes: {left[:2]}"
                left = left[2:]
            elif items:
                kind, path, left = items.pop(0)
                yield f"  next: {kind} {path}"
            else:
                yield "  next: none"


def permitted(disk, loose):
    """Each choice of candidates, the first block's changing fastest, and each again with a torn block."""
    pick = [0] * len(loose)
    for _ in range(64):
        blocks = [candidates[0] for candidates in disk.blocks]
        for b, n in zip(loose, pick):
            blocks[b] = disk.blocks[b][n]
        yield b"".join(blocks), ""
        for b in loose:
            block = blocks[b]
            torn = block[:100] + bytes([block[100] ^ 1]) + block[101:]
            yield b"".join(blocks[:b] + [torn] + blocks[b + 1:]), "torn: "
        for i, b in enumerate(loose):
            if pick[i] + 1 < len(disk.blocks[b]):
                pick[i] += 1
                break
            pick[i] = 0
        else:
            return


TABLES = {"edge_rows": Table, "edge_part_rows": Table, "edge_script_rows": ScriptTable,
          "edge_store_rows": lambda _: StoreTable(), "edge_point_rows": lambda _: PointTable()}


def main():
    """Judges each row of each table, in an empty folder of its own."""
    top = os.path.join(os.path.dirname(os.path.abspath(__file__)), "..")
    crates = [os.path.join(top, "crates", name) for name in sys.argv[1:] or TABLES]
    judged = [judge(os.path.abspath(crate)) for crate in crates]
    return 0 if all(judged) and judge_examples(os.path.join(top, "examples")) else 1


def judge_examples(folder):
    """Whether the stored replies to each example are those that the commands have on a fresh volume."""
    wrong = []
    for name in sorted(name for name in os.listdir(folder) if name.endswith(".script")):
        script, replies = (open(os.path.join(folder, file), "rb").read().splitlines()
                           for file in (name, name.replace(".script", ".replies")))
        if replies != replies_of(["-n", "64", "-m", "8"], script):
            wrong.append(name)
    print("examples:", "wrong are " + " ".join(wrong) if wrong else "all as computed")
    return not wrong


def judge(crate):
    rows, replies = (open(os.path.join(crate, name), encoding="ascii").read().splitlines() for name in ("stdin", "stdout"))
    with tempfile.TemporaryDirectory() as room:
        os.chdir(room)
        table = TABLES[os.path.basename(crate)](crate)
        judged, left, wrong, at = compare(table, rows, replies)
        os.chdir(crate)
    print(f"{os.path.basename(crate)}: {judged} rows judged, {left} left out, {wrong} wrong")
    return not wrong and at == len(replies)


def compare(table, rows, replies):
    judged, left, wrong, at = 0, 0, 0, 0
    for line in rows:
        assert replies[at] == line, f"line {at + 1} of the replies is not: {line}"
        at += 1
        answer = []
        while at < len(replies) and replies[at].startswith("  "):
            answer.append(replies[at])
            at += 1
        if not line or line.startswith("#"):
            continue
        try:
            wanted = list(table.answers(line))
        except Unknown:
            left += 1
            continue
        judged += 1
        if wanted != answer:
            wrong += 1
            print(f"{line}\nis answered", *answer, "and not", *wanted, sep="\n")
    return judged, left, wrong, at


if __name__ == "__main__":
    sys.exit(main())
