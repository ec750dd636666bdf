"""Programs whose memory is counted and refused, by the library of tools/refuse_memory.c."""

import mmap
import os
import shutil
import struct
import subprocess
import sys
import tempfile

HERE = os.path.dirname(os.path.abspath(__file__))
# The functions by which a program's own memory grows, each with its argument of bytes.
GROWING = {b"rattle_alloc": 1, b"rattle_realloc": 3}


def patience():
    """How many seconds to wait on this machine, which may have more to do than processors."""
    return 60 * max(1, 10 * os.getloadavg()[0] / (os.cpu_count() or 1))


def symbols_of(data):
    """The functions of a program of 64 bits, each with its place in memory and in the file."""
    (table,) = struct.unpack_from("<Q", data, 40)
    size, count = struct.unpack_from("<HH", data, 58)
    sections = [struct.unpack_from("<IIQQQQIIQQ", data, table + at * size) for at in range(count)]
    for section in (one for one in sections if one[1] == 2):
        names = sections[section[6]][4]
        for at in range(section[4], section[4] + section[5], 24):
            name, _, _, of, value, _ = struct.unpack_from("<IBBHQQ", data, at)
            if 0 < of < count:
                start = names + name
                yield (data[start:data.index(b"\0", start)], value,
                       value - sections[of][3] + sections[of][4])


def places_in(program):
    """Where the functions by which a program's memory grows have their first `push %rbp`, where it
    has an allocator of its own; else nothing."""
    with open(program, "rb") as file:
        data = file.read()
    if data[:5] != b"\x7fELF\x02" or not any(name == b"malloc" for name, _, _ in symbols_of(data)):
        return ""
    found = []
    for name, value, at in symbols_of(data):
        if name in GROWING:
            push = 4 if data[at:at + 4] == b"\xf3\x0f\x1e\xfa" else 0
            if data[at + push] != 0x55:
                sys.exit("%s of %s begins otherwise" % (name.decode(), program))
            found.append("%x:%d" % (value + push, GROWING[name]))
    if not found:
        sys.exit("%s has an allocator of its own, and none of %r" % (program, list(GROWING)))
    return ",".join(found)


def built(folder):
    """The library that is preloaded; None where it can't be built."""
    compiler = os.environ.get("CC") or shutil.which("cc")
    if not compiler:
        return None
    library = os.path.join(folder, "refuse_memory.so")
    subprocess.run([compiler, "-std=c11", "-O2", "-shared", "-fPIC", "-o", library,
                    os.path.join(HERE, "refuse_memory.c")], check=True)
    return library


class Memory:
    """What a program's memory may do: growths are counted, and some refused."""

    library = places = None

    def __init__(self, folder):
        file, name = tempfile.mkstemp(dir=folder)
        os.write(file, bytes(40))
        self.shared = mmap.mmap(file, 40)
        os.close(file)
        self.environment = {**os.environ, "LD_PRELOAD": self.library, "REFUSE_FILE": name}
        if self.places:
            self.environment["REFUSE_PLACES"] = self.places

    @property
    def growths(self):
        return struct.unpack_from("<Q", self.shared, 0)[0]

    @property
    def refused(self):
        return struct.unpack_from("<Q", self.shared, 24)[0]

    def refuse(self, first, behind):
        """Refuses the growths of these numbers, from the first to the one ahead of `behind`."""
        self.shared[24:32] = bytes(8)
        self.shared[8:24] = bytes(16)
        self.shared[8:24] = struct.pack("<QQ", first, behind)

    def bound(self, largest):
        """Refuses each growth of more bytes than this; 0 takes that back."""
        self.shared[32:40] = struct.pack("<Q", largest)
