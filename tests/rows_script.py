"""The text of a script and of replies, as docs/COMMANDS.md has it: what a line spells, and how an answer is written."""
import re
import zlib

FLAGS = {"r": "read", "w": "write", "c": "create", "x": "exclusive", "t": "truncate", "a": "append"}


class Bad(Exception):
    """A word or line outside the grammar."""


def number_in(word, least=0, most=2**64 - 1):
    if not re.fullmatch(rb"0|[1-9][0-9]{0,19}", word) or not least <= int(word) <= most:
        raise Bad
    return int(word)


def descriptor_in(word):
    return number_in(word, 0, 2**32 - 1)


def path_in(word):
    if not re.fullmatch(rb"([!-$&-~]|%[0-9A-Fa-f]{2})+", word):
        raise Bad
    path = re.sub(rb"%(..)", lambda found: bytes.fromhex(found[1].decode()), word)
    if 0 in path:
        raise Bad
    return path


def hex_in(word):
    if not re.fullmatch(rb"([0-9A-Fa-f]{2}){1,4096}", word):
        raise Bad
    return bytes.fromhex(word.decode())


def byte_in(word):
    if len(word) != 2:
        raise Bad
    return hex_in(word)[0]


def flags_in(word):
    letters = word.decode("latin-1")
    if not 1 <= len(letters) <= 6 or len(set(letters)) != len(letters) or not set(letters) <= set(FLAGS):
        raise Bad
    return {name: letter in letters for letter, name in FLAGS.items()}


PATH, HANDLE = ("path", path_in), ("h", descriptor_in)
TO = ("to", path_in)

COMMANDS = {
    "open": ("OpenFile", [PATH, ("flags", flags_in)]),
    "close": ("Close", [HANDLE]),
    "read": ("Read", [HANDLE, ("count", lambda word: number_in(word, 1, 4096))]),
    "write": ("Write", [HANDLE, ("bytes", hex_in)]),
    "fill": ("Fill", [HANDLE, ("count", lambda word: number_in(word, 1, 65536)), ("byte", byte_in)]),
    "seek": ("Seek", [HANDLE, ("to", number_in)]),
    "truncate": ("Truncate", [HANDLE, ("size", number_in)]),
    "fsync": ("Fsync", [HANDLE]),
    "link": ("Link", [PATH, TO]),
    "unlink": ("Unlink", [PATH]),
    "rename": ("Rename", [PATH, TO]),
    "mkdir": ("MakeDir", [PATH]),
    "rmdir": ("RemoveDir", [PATH]),
    "opendir": ("OpenDir", [PATH]),
    "readdir": ("ReadDir", [HANDLE]),
    "rewind": ("Rewind", [HANDLE]),
    "stat": ("Stat", [PATH]),
    "fstat": ("Fstat", [HANDLE]),
    "space": ("Space", []),
    "mask": ("Mask", []),
    "setmask": ("SetMask", [("mask", descriptor_in)]),
    "transact": ("Transact", []),
}


def command_in(line):
    """The name of a command and the values of its words, or None."""
    verb, *words = line.decode("latin-1").split(" ")
    name, kinds = COMMANDS.get(verb, (None, []))
    if name is None or len(words) != len(kinds) or len(line) > 8209:
        return None
    try:
        return name, [(field, read(word.encode("latin-1"))) for word, (field, read) in zip(words, kinds)]
    except Bad:
        return None


def debug(value):
    if isinstance(value, bytes):
        return "[" + ", ".join(str(b) for b in value) + "]"
    if isinstance(value, dict):
        return "OpenFlags { " + ", ".join(f"{name}: {str(set).lower()}" for name, set in value.items()) + " }"
    return str(value)


def told_command(line):
    """What the table tells of a line."""
    command = command_in(line)
    if command is None:
        return "  bad"
    name, values = command
    if len(line) <= 100:
        return "  " + name + (" { " + ", ".join(f"{field}: {debug(value)}" for field, value in values) + " }" if values else "")
    value = values[-1][1]
    return f"  {name} of {len(value)} bytes, {zlib.crc32(value):08x}"


def spelling_of(path):
    return b"".join(bytes([b]) if 0x21 <= b <= 0x7e and b != 0x25 else b"%%%02x" % b for b in path)


def reply_of(what, words, told):
    """The text of a reply; `told` are the bytes or the name that it tells."""
    texts = {
        "done": b"ok\n", "end": b"end\n", "bad": b"bad\n",
        "bytes": b"data " + told.hex().encode() + b"\n",
        "entry": b" ".join([b"ok", words[0].encode() if words else b"", spelling_of(told)]) + b"\n",
        "no": b"no " + " ".join(words).encode() + b"\n",
    }
    return texts.get(what) or " ".join(["ok", *words]).encode() + b"\n"
