"""Hostile items for tools/fuzz: lines of the handshake, messages, frames and scripts.

Seeds are what examples/ sends on its connections, and the messages, frames and handshakes that
crates/wire_vectors/stdin has; beside them calls and requests are drawn, of places that are there
and not. Each is sent as it is, or changed.
"""

import os
import re
import struct
import sys

from fuzz_rules import (
    CALL, Connection, DOCUMENTS, FILES, METHODS, OBJECTS, PEER, PROPERTIES, STORE, types_of)

TOP = os.path.dirname(os.path.dirname(os.path.abspath(__file__)))
sys.path.insert(0, os.path.join(TOP, "contrib", "clients"))

from docportal_client import Variant, Writer  # noqa: E402

APPS = ("org.ed", "org.view")
# 0000000d is a folder's, which the host exports ahead of all else.
DOCUMENT_IDS = ("0000000a", "0000000a", "0000000b", "0000000c", "0000000d", "0000000d", "00000001",
                "ffffffff")
PATHS = ("/home/a.txt", "/home/b.txt", "/app/org.ed/n.txt", "/app/org.view/n.txt", "/home/p",
         "/app/org.ed/deep", "/home",
         "/home/none.txt", "/", "/home/../etc", "home", "/home/\xff")
NAMES = ("a.txt", "b.txt", "n.txt", "0000000a", "0000000b", "by-app", "org.ed", "..", ".",
         "x" * 256, "p", "s", "s", "t.txt", "s/t.txt", "new", "s/..", "x" * 255)
NUMBERS = (0, 1, 2, 3, 4, 5, 7, 8, 16, 39, 40, 63, 64, 127, 128, 255, 256, 4095, 4096, 65535, 65536,
           131072, 131073, 135168, 135169, 1 << 20, (1 << 20) + 1, 1 << 24, (1 << 24) + 1, 1 << 26,
           (1 << 26) + 1, 0x7fffffff, 0x80000000, 0xfffffff0, 0xfffffff8, 0xffffffff)
LONG_NUMBERS = NUMBERS + (1 << 28, 1 << 32, 1 << 36, 1 << 40, 1 << 63, (1 << 64) - 8, (1 << 64) - 1)
# The numbers 13 are of an exported folder, and those from 17179869184 on of names below it.
NODES = (1, 4294967306, 8589934602) * 3 + (8589934605, 17179869185, 17179869186) * 2 + (
    0, 2, 4294967307, 8589934603, 8589934604, 68719476737, 73014444042, 77309411338, 137438953473,
    4294967309, 77309411341, 17179869184, 17179869187, 17179869188, 85899345921, (1 << 64) - 1)
PIECES = [bytes([n]) for n in (0, 1, 0x0a, 0x0d, 0x20, 0x28, 0x29, 0x61, 0x67, 0x68, 0x76, 0x7b,
                               0x7f, 0x80, 0xc0, 0xff)]
LINES = (b"AUTH EXTERNAL 31303030", b"AUTH EXTERNAL 30", b"AUTH EXTERNAL", b"AUTH", b"DATA",
         b"DATA 30", b"DATA 3", b"CANCEL", b"ERROR", b"ERROR no", b"NEGOTIATE_UNIX_FD", b"BEGIN",
         b"AUTH ANONYMOUS", b"AUTH EXTERNAL ", b"", b"BEGIN ", b"begin", b"OK", b"REJECTED")


# ---- seeds

def bytes_of_row(text):
    """The bytes that a row spells: words of hexadecimal digits, and texts between quotes."""
    found = bytearray()
    for quoted, digits in re.findall(r'"((?:[^"\\]|\\.)*)"|([0-9a-f]+)', text):
        found += bytes.fromhex(digits) if digits else re.sub(
            rb"\\x([0-9a-f]{2})", lambda code: bytes.fromhex(code[1].decode()), quoted.encode())
    return bytes(found)


def rows_of_vectors():
    """The items of crates/wire_vectors/stdin, each with its kind."""
    with open(os.path.join(TOP, "crates", "wire_vectors", "stdin"), encoding="utf-8") as file:
        for line in file:
            word, _, rest = line.rstrip("\n").partition(" ")
            if "<" in rest:
                continue
            if word == "talk":
                for part in rest.split(" | "):
                    yield "line", part.encode() + b"\r\n"
            elif word in ("message", "asks", "split", "frame", "refused"):
                try:
                    data = bytes_of_row(rest)
                except ValueError:
                    continue
                if len(data) >= 16:
                    yield ("frame" if word == "frame" else "message"), data


class Collector(Connection):
    """A connection that keeps its items, each with its kind."""

    def __init__(self, kind, host):
        super().__init__(kind, host)
        self.found = []

    def noted(self, kind, take):
        rest, at = self.rest, self.at
        answers = take()
        if self.at > at:
            self.found.append((kind, rest[:self.at - at]))
        return answers

    def take_line(self):
        return self.noted("line", super().take_line)

    def take_messages(self):
        return self.noted("message", super().take_messages)

    def take_frames(self):
        return self.noted("frame", super().take_frames)


def items_of_scripts():
    """The items that the examples send, each with its kind."""
    for name in sorted(os.listdir(os.path.join(TOP, "examples"))):
        if not name.endswith(".script"):
            continue
        connections = {}
        with open(os.path.join(TOP, "examples", name), "rb") as file:
            for line in file:
                words = line.split()
                if words[:1] == [b"open"]:
                    connections[words[1]] = Collector(words[2].decode(), words[3] == b"host")
                elif words[:1] == [b"data"] and words[1] in connections and words[2] != b"-":
                    connections[words[1]].feed(bytes.fromhex(words[2].decode()))
        for connection in connections.values():
            yield from connection.found


def scripts():
    """The scripts of examples/ that aren't too long."""
    found = []
    for name in sorted(os.listdir(os.path.join(TOP, "examples"))):
        path = os.path.join(TOP, "examples", name)
        if name.endswith(".script") and os.path.getsize(path) < 20_000:
            with open(path, "rb") as file:
                found.append(file.read())
    with open(os.path.join(TOP, "crates", "script_vectors", "stdin"), encoding="utf-8") as file:
        for line in file:
            if line.startswith("replay | ") and not re.search(r'[<{\\"]', line):
                found.append(line[9:].rstrip("\n").replace(" | ", "\n").encode() + b"\n")
    return found


def seeds():
    """All items by kind, each once."""
    found = {"line": {}, "message": {}, "frame": {}}
    for kind, data in [*rows_of_vectors(), *items_of_scripts()]:
        if len(data) < 4096:
            found[kind][data] = None
    return {kind: sorted(items) for kind, items in found.items()}


# ---- drawn items

class Maker:
    """Draws items by a source of chance."""

    def __init__(self, chance):
        self.chance = chance
        self.seeds = seeds()
        self.scripts = scripts()
        self.serial = 0

    def one(self, of):
        return of[self.chance.randrange(len(of))]

    def odds(self, part):
        return self.chance.random() < part

    # ---- messages

    def text(self):
        return self.one(APPS + DOCUMENT_IDS + ("t", "i", "", "yes", "read", "write", "delete",
                                               "documents", "version", "grant-permissions"))

    def value(self, kind):
        """A value of a type."""
        code = kind[0]
        if code in "sog":
            return {"s": self.text(), "o": "/a", "g": "as"}[code]
        if code == "b":
            return self.odds(0.5)
        if code in "ynqiuxtdh":
            most = {"y": 255, "n": 32767, "q": 65535, "i": (1 << 31) - 1}.get(code, 1 << 31)
            return float(1) if code == "d" else min(self.one(NUMBERS[:20]), most)
        if code == "v":
            inner = self.one(("y", "s", "as", "a{sv}", "(yu)", "h", "ah", "v", "t", "d", "g", "o"))
            return Variant(inner, self.value(inner))
        if kind == "ay":
            return self.one(PATHS).encode("latin-1") + (b"\0" if self.odds(0.9) else b"")
        if kind == "a{sv}":
            return {}
        if kind == "a{sas}":
            return {self.text(): [self.text()] for _ in range(self.chance.randrange(3))}
        if code == "a":
            return [self.value(kind[1:]) for _ in range(self.chance.randrange(4))]
        return (1, 2)

    def values(self, member, takes):
        """Arguments of a method that come to something now and then."""
        doc, app = self.one(DOCUMENT_IDS), self.one(APPS)
        rights = [self.one(("read", "write", "grant-permissions", "delete"))
                  for _ in range(self.chance.randrange(3))]
        handle = self.chance.randrange(2)
        flags = self.one((0, 1, 2, 3, 4, 5, 16, 17, 18, 8, 9, 9, 12, 24, 25, 10))
        path = self.one(PATHS[:6]).encode() + b"\0"
        good = {
            b"Add": [handle, True, True], b"AddNamed": [handle, b"b.txt\0", True, False],
            b"AddFull": [[handle], flags, app, rights],
            b"AddNamedFull": [handle, b"b.txt\0", flags, app, rights],
            b"GrantPermissions": [doc, app, rights], b"RevokePermissions": [doc, app, rights],
            b"Info": [doc], b"Present": [path]}
        if member in good and self.odds(0.8):
            return good[member]
        return [self.value(kind) for kind in takes]

    def call(self):
        """A call, as bytes."""
        own, path = self.one([(name, path) for path, name in OBJECTS.items()])
        if self.odds(0.1):
            path = self.one((b"/", b"/a", b"/org/freedesktop"))
        interface = own if self.odds(0.9) else self.one((PEER, PROPERTIES, STORE, b"a.b"))
        member = self.one(sorted(METHODS.get(interface, {b"Nothing": 0})))
        takes = METHODS.get(interface, {}).get(member, ("", ""))[0]
        kinds = types_of(takes)
        values = self.values(member, kinds)
        if interface == PROPERTIES and self.odds(0.8):
            values = [self.one((DOCUMENTS, STORE, FILES, PEER)).decode(), "version"][:len(kinds)]
        body = Writer()
        for kind, value in zip(kinds, values):
            body.put(kind, value)
        fields = [(1, Variant("o", path.decode())), (3, Variant("s", member.decode()))]
        if self.odds(0.9):
            fields.append((2, Variant("s", interface.decode())))
        if takes:
            fields.append((8, Variant("g", takes)))
        if member.startswith(b"Add") or self.odds(0.02):
            fields.append((9, Variant("u", self.one((0, 1, 1, 1, 2, 17)))))
        if self.odds(0.1):
            fields.append((self.one((6, 7, 10, 200)), Variant("s", self.text())))
        return self.message(CALL, fields, bytes(body.out))

    def message(self, kind, fields, body):
        self.serial = self.serial % 0xffffffff + 1
        head = Writer()
        head.out += bytes([0x6c, kind, self.one((0, 0, 0, 0, 1, 2, 0xfe)), 1])
        head.number("u", len(body))
        head.number("u", self.serial)
        head.put("a(yv)", fields)
        head.pad(8)
        return bytes(head.out + body)

    def deep(self):
        """A call whose body, or a field of no known code, is as deep as may be, or deeper."""
        depth = self.one((30, 31, 32, 33, 60, 61, 62, 63, 64, 65))
        signature, body = "v", b"\x01v\0" * (depth - 1) + b"\x01y\0\x05"
        if self.odds(0.3):
            signature, body = "a" * depth + "y", b"\0\0\0\0"
        elif self.odds(0.3):
            depth = min(depth, 126)
            signature, body = "(" * depth + "y" + ")" * depth, b"\x05"
        fields = [(1, Variant("o", "/")), (3, Variant("s", "Ping"))]
        head = bytearray(self.message(CALL, fields, b""))
        field = struct.pack("<B3sB", 8, b"\x01g\0", len(signature)) + signature.encode() + b"\0"
        end = 16 + struct.unpack_from("<I", head, 12)[0]
        head += bytes(-len(head) % 8)
        whole = bytes(head[:end]) + bytes(-end % 8) + field
        length = len(whole) - 16
        whole += bytes(-len(whole) % 8) + body
        return whole[:4] + struct.pack("<I", len(body)) + whole[8:12] + struct.pack(
            "<I", length) + whole[16:]

    # ---- frames

    def frame(self):
        """A request, as bytes."""
        opcode = self.one((1, 1, 2, 3, 3, 4, 14, 14, 15, 15, 16, 16, 17, 18, 20, 25, 26, 27, 27, 28,
                           28, 29, 34, 35, 35, 36, 38, 42, 8, 10, 12, 12, 22, 45))
        return self.framed(opcode, self.one(NODES), self.body_of(opcode))

    def framed(self, opcode, node, body):
        self.serial += 1
        unique = self.serial if self.odds(0.95) else self.one(LONG_NUMBERS)
        return struct.pack("<IIQQ4I", 40 + len(body), opcode, unique, node,
                           self.one((0, 1000, 0xffffffff)), 1000, 1, 0) + body

    def body_of(self, opcode):
        fh = self.one((1, 1, 1, 2, 2, 3, 4, 5, 9)) if self.odds(0.95) else self.one(LONG_NUMBERS)
        name = self.one(NAMES).encode() + b"\0"
        flags = self.one((0, 1, 2, 2, 0o1000, 0o1002, 3, 0xffffffff))
        offset = self.one((0, 0, 0, 1, 5, 4096) + LONG_NUMBERS)
        content = bytes(self.chance.randrange(40))
        names = name + self.one(NAMES).encode() + b"\0"
        bodies = {
            1: lambda: name, 10: lambda: name,
            12: lambda: struct.pack("<Q", self.one(NODES)) + names,
            45: lambda: struct.pack("<QII", self.one(NODES), self.one((0, 0, 0, 1, 2)), 0) + names,
            2: lambda: struct.pack("<Q", self.one(LONG_NUMBERS)),
            3: lambda: struct.pack("<IIQ", self.one((0, 1, 1, 0xffffffff)), 0, fh),
            4: lambda: struct.pack("<IIQQ", self.one((0, 8, 8, 64, 72, 72, 1, 48, 0xffffffff)), 0,
                                   fh, self.one((0, 3, 4096) + LONG_NUMBERS)) + bytes(64),
            14: lambda: struct.pack("<II", flags, 0), 27: lambda: struct.pack("<II", flags, 0),
            15: lambda: struct.pack("<QQIIQII", fh, offset, self.one(NUMBERS), 0, 0, 0, 0),
            28: lambda: struct.pack("<QQIIQII", fh, self.chance.randrange(6), self.one(NUMBERS),
                                    0, 0, 0, 0),
            16: lambda: struct.pack("<QQIIQII", fh, offset, len(content), 0, 0, 0, 0) + content,
            18: lambda: struct.pack("<QIIQ", fh, 0, 0, 0),
            29: lambda: struct.pack("<QIIQ", fh, 0, 0, 0),
            25: lambda: struct.pack("<QIIQ", fh, 0, 0, 0),
            20: lambda: struct.pack("<QII", fh, 0, 0),
            26: lambda: struct.pack("<4I", self.one((7, 7, 7, 6, 8)), self.one((31, 23, 22, 45)),
                                    self.one(NUMBERS), self.one(NUMBERS)) + bytes(48),
            34: lambda: struct.pack("<II", self.chance.randrange(9), 0),
            35: lambda: struct.pack("<4I", flags, 0o600, 0, 0) + name,
            42: lambda: struct.pack("<IIQQ", 1, 0, self.one(NODES), self.one(LONG_NUMBERS)),
        }
        return bodies[opcode]() if opcode in bodies else b""

    # ---- changes

    def changed(self, data):
        """The same with some changes at places that are drawn."""
        data = bytearray(data)
        for _ in range(self.one((1, 1, 1, 2, 3))):
            if data:
                self.change(data)
        return bytes(data)

    def change(self, data):
        at = self.chance.randrange(len(data))
        which = self.chance.randrange(9)
        if which == 0:
            data[at] ^= 1 << self.chance.randrange(8)
        elif which == 1:
            data[at:at + 1] = self.one(PIECES)
        elif which == 2:
            data[at:at] = self.one(PIECES) * self.one((1, 1, 2, 4, 8, 64))
        elif which == 3:
            del data[at:at + self.one((1, 1, 2, 4, 8))]
        elif which == 4:
            at &= ~3
            data[at:at + 4] = struct.pack(self.one("<>") + "I", self.one(NUMBERS))
        elif which == 5:
            at &= ~7
            data[at:at + 8] = struct.pack("<Q", self.one(LONG_NUMBERS))
        elif which == 6:
            part = data[at:at + self.one((1, 4, 8, 16, 40))]
            place = self.chance.randrange(len(data) + 1)
            data[place:place] = part
        elif which == 7:
            number = int.from_bytes(data[at:at + 4], "little") + self.one((-1, 1, -4, 4, 8))
            data[at:at + 4] = (number & 0xffffffff).to_bytes(4, "little")
        else:
            data[at:at + 1] = bytes([self.chance.randrange(256)])

    def repaired(self, kind, data):
        """The same with its lengths as they are, where that can be done."""
        if kind == "frame" and len(data) >= 40:
            return struct.pack("<I", len(data)) + data[4:]
        if kind == "message" and len(data) >= 16:
            order = ">" if data[0] == 0x42 else "<"
            fields = struct.unpack_from(order + "I", data, 12)[0]
            body = len(data) - (16 + fields + -fields % 8)
            if body >= 0:
                return data[:4] + struct.pack(order + "I", body) + data[8:]
        return data

    def item(self, state, hostile):
        """An item for a connection in a state: as it should be, or hostile."""
        if state in ("auth", "data", "begin"):
            return self.line(state, hostile)
        kind = "frame" if state == "frames" else "message"
        drawn = self.frame() if kind == "frame" else self.call()
        data = drawn if self.odds(0.6) else self.one(self.seeds[kind])
        if kind == "message" and self.odds(0.02):
            data = self.deep()
        if hostile:
            data = self.changed(data)
            if self.odds(0.7):
                data = self.repaired(kind, data)
        return data

    def line(self, state, hostile):
        if not hostile and self.odds(0.9):
            right = {"auth": b"AUTH EXTERNAL 30", "data": b"DATA", "begin": b"BEGIN"}
            return right[state] + b"\r\n"
        data = self.one(LINES) + b"\r\n" if self.odds(0.7) else self.one(self.seeds["line"])
        if hostile and self.odds(0.6):
            data = self.changed(data)
        if self.odds(0.005):
            data = b"A" * self.one((1021, 1022, 1023, 1024, 1025)) + b"\r\n"
        return data

    # ---- scripts

    def script(self):
        """A script of examples/ or of the vectors, changed in its lines or in their bytes."""
        lines = self.one(self.scripts).split(b"\n")[:-1]
        for _ in range(self.one((0, 1, 1, 2, 4))):
            at = self.chance.randrange(len(lines) + 1)
            which = self.chance.randrange(5)
            if which == 0:
                lines[at:at + 1] = []
            elif which == 1:
                lines[at:at] = self.one(self.scripts).split(b"\n")[:-1][:3]
            elif which == 2 and at < len(lines):
                place = self.chance.randrange(len(lines) + 1)
                lines[place:place] = [lines[at]]
            elif at < len(lines):
                lines[at] = self.changed_line(lines[at])
        text = b"".join(line + b"\n" for line in lines)
        return text[:-1] if self.odds(0.01) else text

    def changed_line(self, line):
        """A line with another word, or with a change somewhere."""
        words = line.split(b" ")
        if self.odds(0.4):
            return self.changed(line)
        words[self.chance.randrange(len(words))] = self.one((
            b"-", b"0", b"1", b"2", b"65535", b"65536", b"18446744073709551615",
            b"18446744073709551616", b"01", b"host", b"app:org.ed", b"bus", b"mount", b"r", b"rs",
            b"/home/a.txt", b"/home", b"/", b"0000000a", b"org.ed=rw", b"org.ed=r,org.view=rwgd",
            b"00", b"0", b"017900", b"01790007", b"", b"devices", b"documents", b"a=yes", b".."))
        return b" ".join(words)
