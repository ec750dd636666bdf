"""What docportal has to make of any bytes, as far as it can be told without a portal.

It is written apart from the program, by docs/wire.md, handshake.md, calls.md, files.md,
connections.md and scripts.md, and knows no document and no file: so of an answer that the portal
decides it says which ones may come, and of all others which one does.
"""

import re
import struct
from errno import (
    EACCES, EBADF, EEXIST, EFBIG, EINVAL, EIO, EISDIR, EMFILE, ENAMETOOLONG, ENOENT, ENOSYS,
    ENOTDIR, EPERM, EPROTO, EXDEV)

MESSAGE_LIMIT, FRAME_LIMIT, LINE_LIMIT, ARRAY_LIMIT = 16_777_216, 135_168, 1024, 67_108_864
GUID = b"0123456789abcdef0123456789abcdef"


class Broken(Exception):
    """Bytes that break a rule."""


# ---- types and values (docs/wire.md)

FIXED = {"y": 1, "n": 2, "q": 2, "i": 4, "u": 4, "h": 4, "b": 4, "x": 8, "t": 8, "d": 8}
ALIGNED = {**FIXED, "s": 4, "o": 4, "g": 1, "v": 1, "a": 4, "(": 8, "{": 8}
BASIC = set(FIXED) | set("sog")
OBJECT_PATH = re.compile(rb"/|(/[A-Za-z0-9_]+)+")
ELEMENT = rb"[A-Za-z_][A-Za-z0-9_]*"
INTERFACE = re.compile(ELEMENT + rb"(\." + ELEMENT + rb")+")
MEMBER = re.compile(ELEMENT)
DEEPEST = 64
TYPES = {}


def end_of_type(text, at, arrays, brackets):
    """Where the type ends that begins at a place of a signature."""
    code = text[at:at + 1]
    if code and code in "ybnqiuxtdsogvh":
        return at + 1
    if code == "a" and arrays < 32:
        if text[at + 1:at + 2] != "{":
            return end_of_type(text, at + 1, arrays + 1, brackets)
        if brackets < 32 and text[at + 2:at + 3] in BASIC:
            end = end_of_type(text, at + 3, arrays + 1, brackets + 1)
            if text[end:end + 1] == "}":
                return end + 1
    if code == "(" and brackets < 32:
        end = end_of_type(text, at + 1, arrays, brackets + 1)
        while text[end:end + 1] != ")":
            end = end_of_type(text, end, arrays, brackets + 1)
        return end + 1
    raise Broken("signature")


def types_of(text):
    """The types of a signature."""
    if text not in TYPES:
        types, at = [], 0
        while at < len(text):
            end = end_of_type(text, at, 0, 0)
            types.append(text[at:end])
            at = end
        if len(TYPES) > 4096:
            TYPES.clear()
        TYPES[text] = types
    return TYPES[text]


class Values:
    """Values that are read from bytes, each by all rules; `handle` where one of them was an h."""

    def __init__(self, data, at, end, order):
        self.data, self.at, self.end, self.order = data, at, end, order
        self.handle = False

    def pad(self, to):
        end = self.at + -self.at % to
        if end > self.end or any(self.data[self.at:end]):
            raise Broken("padding")
        self.at = end

    def take(self, count):
        if count > self.end - self.at:
            raise Broken("short")
        self.at += count
        return self.data[self.at - count:self.at]

    def number(self, size=4):
        self.pad(size)
        return int.from_bytes(self.take(size), self.order)

    def text(self):
        raw = self.take(self.number())
        if self.take(1) != b"\0" or b"\0" in raw:
            raise Broken("text")
        try:
            raw.decode()
        except UnicodeDecodeError:
            raise Broken("text") from None
        return raw

    def signature(self):
        raw = self.take(self.take(1)[0])
        if self.take(1) != b"\0" or not raw.isascii():
            raise Broken("signature")
        types_of(raw.decode())
        return raw.decode()

    def value(self, kind, depth):
        """Reads a value that stands in so many others: a text, a number, or nothing of interest."""
        if depth > DEEPEST:
            raise Broken("depth")
        code = kind[0]
        if code in FIXED:
            number = self.number(FIXED[code])
            self.handle = self.handle or code == "h"
            if code == "b" and number > 1:
                raise Broken("boolean")
            return number
        if code in "so":
            raw = self.text()
            if code == "o" and not OBJECT_PATH.fullmatch(raw):
                raise Broken("path")
            return raw
        if code == "g":
            return self.signature()
        if code == "v":
            return self.variant(depth)[1]
        if code == "a":
            return self.array(kind[1:], depth)
        self.pad(8)
        for inner in types_of(kind[1:-1]):
            self.value(inner, depth + 1)
        return None

    def variant(self, depth):
        """The type of a variant's value, and the value."""
        types = types_of(self.signature())
        if len(types) != 1:
            raise Broken("variant")
        return types[0], self.value(types[0], depth + 1)

    def array(self, element, depth):
        length = self.number()
        if length > ARRAY_LIMIT:
            raise Broken("array")
        self.pad(ALIGNED[element[0]])
        if length > self.end - self.at:
            raise Broken("short")
        if element == "y" and depth < DEEPEST:
            return self.take(length)
        whole, self.end = self.end, self.at + length
        try:
            while self.at < self.end:
                self.value(element, depth + 1)
        finally:
            self.end = whole
        return None


# ---- messages

FIELD_TYPES = {1: "o", 2: "s", 3: "s", 4: "s", 5: "u", 6: "s", 7: "s", 8: "g", 9: "u"}
FIELD_FORMS = {2: INTERFACE, 3: MEMBER, 4: INTERFACE}
NEEDED = {1: (1, 3), 2: (5,), 3: (4, 5), 4: (1, 2, 3)}
CALL, RETURN, ERROR, SIGNAL = 1, 2, 3, 4


def length_of(head):
    """The length of the message that begins with these 16 bytes; or the number of the rule."""
    order = {0x6c: "little", 0x42: "big"}.get(head[0])
    if order is None:
        raise Broken(1)
    body, serial, fields = (int.from_bytes(head[at:at + 4], order) for at in (4, 8, 12))
    length = 16 + fields + -fields % 8 + body
    for rule, breaks in ((2, head[1] == 0), (3, head[3] != 1), (4, serial == 0),
                         (5, length > MESSAGE_LIMIT)):
        if breaks:
            raise Broken(rule)
    return length


class Message:
    """A whole message by all rules: its type, flags, serial, fields and the length of its body."""

    def __init__(self, data):
        self.order = "little" if data[0] == 0x6c else "big"
        self.type, self.flags = data[1], data[2]
        self.serial = int.from_bytes(data[8:12], self.order)
        fields_end = 16 + int.from_bytes(data[12:16], self.order)
        body_at = fields_end + -fields_end % 8
        found = self.read_fields(data, fields_end)
        self.fields = self.by_code(found)
        if any(code not in self.fields for code in NEEDED.get(self.type, ())):
            raise Broken(8)
        if any(data[fields_end:body_at]):
            raise Broken(9)
        self.body = data[body_at:]
        self.signature = self.fields.get(8, "")
        self.values = self.read_body() if 8 in self.fields else []
        if 8 not in self.fields and self.body:
            raise Broken(11)

    def read_fields(self, data, end):
        reader, found = Values(data, 16, end, self.order), []
        try:
            while reader.at < end:
                reader.pad(8)
                code = reader.take(1)[0]
                found.append((code, reader.variant(2)))
        except Broken:
            raise Broken(6) from None
        return found

    @staticmethod
    def by_code(found):
        fields = {}
        for code, (kind, value) in found:
            known = FIELD_TYPES.get(code)
            if code == 0 or known and (code in fields or kind != known):
                raise Broken(7)
            form = FIELD_FORMS.get(code)
            if form and (len(value) > 255 or not form.fullmatch(value)):
                raise Broken(7)
            if known:
                fields[code] = value
        return fields

    def read_body(self):
        reader = Values(self.body, 0, len(self.body), self.order)
        try:
            values = [reader.value(kind, 0) for kind in types_of(self.signature)]
        except Broken:
            raise Broken(10) from None
        if reader.at != len(self.body):
            raise Broken(10)
        return values


# ---- the handshake (docs/handshake.md)

HEX = rb"([0-9A-Fa-f]{2})+"
OK, REJECTED, WRONG = b"OK " + GUID, b"REJECTED EXTERNAL", b"ERROR"


def handshake(state, line):
    """The answer to a line in a state, and the next state; BEGIN has no answer."""
    if line == b"BEGIN":
        if state != "begin":
            raise Broken(13)
        return None, "messages"
    if line in (b"CANCEL", b"ERROR") or line.startswith(b"ERROR "):
        return REJECTED, "auth"
    if state == "auth" and re.fullmatch(rb"AUTH EXTERNAL " + HEX, line):
        return OK, "begin"
    if state == "auth" and line == b"AUTH EXTERNAL":
        return b"DATA", "data"
    if state == "auth" and (line == b"AUTH" or line.startswith(b"AUTH ")):
        return REJECTED, "auth"
    if state == "data" and re.fullmatch(rb"DATA( " + HEX + rb")?", line):
        return OK, "begin"
    return WRONG, state


# ---- calls (docs/calls.md)

BUS_ERROR, PORTAL_ERROR = b"org.freedesktop.DBus.Error.", b"org.freedesktop.portal.Error."
DOCUMENTS = b"org.freedesktop.portal.Documents"
STORE = b"org.freedesktop.impl.portal.PermissionStore"
FILES, PEER = b"local.docportal.Files1", b"org.freedesktop.DBus.Peer"
PROPERTIES = b"org.freedesktop.DBus.Properties"
METHODS = {
    PEER: {b"Ping": ("", "")},
    PROPERTIES: {b"Get": ("ss", "v"), b"GetAll": ("s", "a{sv}")},
    DOCUMENTS: {
        b"GetMountPoint": ("", "ay"), b"Add": ("hbb", "s"), b"AddNamed": ("haybb", "s"),
        b"AddFull": ("ahusas", "asa{sv}"), b"AddNamedFull": ("hayusas", "sa{sv}"),
        b"GrantPermissions": ("ssas", ""), b"RevokePermissions": ("ssas", ""),
        b"Delete": ("s", ""), b"Lookup": ("ay", "s"), b"Info": ("s", "aya{sas}"),
        b"List": ("s", "a{say}")},
    STORE: {
        b"Lookup": ("ss", "a{sas}v"), b"Set": ("sbsa{sas}v", ""), b"Delete": ("ss", ""),
        b"SetValue": ("sbsv", ""), b"SetPermission": ("sbssas", ""),
        b"DeletePermission": ("sss", ""), b"GetPermission": ("sss", "as"), b"List": ("s", "as")},
    FILES: {b"Present": ("ay", "u")},
}
OBJECTS = {
    b"/org/freedesktop/portal/documents": DOCUMENTS,
    b"/org/freedesktop/impl/portal/PermissionStore": STORE,
    b"/local/docportal/files": FILES,
}
VERSIONS = {DOCUMENTS: 4, STORE: 2}
OF_PORTAL = {BUS_ERROR + name for name in (b"InvalidArgs", b"AccessDenied", b"LimitsExceeded")} | {
    PORTAL_ERROR + name for name in (b"NotFound", b"NotAllowed", b"InvalidArgument", b"Failed")}


class Answer:
    """What answers a call: one error, or a return of these types (and this body), or, where the
    portal decides, one of its errors too."""

    def __init__(self, error=None, types="", body=None, decided=True):
        self.error, self.types, self.body, self.decided = error, types, body, decided


def refused(name):
    return Answer(error=BUS_ERROR + name)


def spelled(text):
    return struct.pack("<I", len(text)) + text


def answer_of(message, host, mount_point):
    """What answers a call."""
    path, member = message.fields[1], message.fields[3]
    interface, own = message.fields.get(2), OBJECTS.get(path)
    if own is None and (interface != PEER or member != b"Ping"):
        return refused(b"UnknownObject")
    here = [PEER] if own is None else [own, PROPERTIES, PEER]
    if interface is not None and interface not in here:
        return refused(b"UnknownInterface")
    found = [name for name in ([interface] if interface else here) if member in METHODS[name]]
    if not found:
        return refused(b"UnknownMethod")
    takes, gives = METHODS[found[0]][member]
    if message.signature != takes:
        return refused(b"InvalidArgs")
    if found[0] == PROPERTIES:
        return property_of(message, here)
    if member == b"Ping":
        return Answer(body=b"")
    if member == b"GetMountPoint":
        return Answer(types="ay", body=spelled(mount_point + b"\0"))
    if found[0] == STORE and not host:
        return refused(b"AccessDenied")
    return Answer(types=gives, decided=False)


def property_of(message, here):
    """What answers Get and GetAll."""
    interface = message.values[0]
    if interface not in here:
        return refused(b"UnknownInterface")
    version = VERSIONS.get(interface)
    if message.fields[3] == b"Get":
        if version is None or message.values[1] != b"version":
            return refused(b"UnknownProperty")
        return Answer(types="v", body=b"\x01u\0\0" + struct.pack("<I", version))
    if version is None:
        return Answer(types="a{sv}", body=bytes(8))
    entry = spelled(b"version") + b"\0" + b"\x01u\0" + bytes(1) + struct.pack("<I", version)
    return Answer(types="a{sv}", body=struct.pack("<II", len(entry), 0) + entry)


# ---- frames (docs/files.md)

NAMED, TWICE_NAMED, QUIET = "named", "twice named", "quiet"
# By opcode: the length of the body, the length of the answer, and the errors that may come.
FRAMES = {
    1: (NAMED, 128, {ENAMETOOLONG, ENOENT, ENOTDIR, EIO, EMFILE}),
    3: (16, 104, {EBADF, EACCES, EIO, ENOENT}),
    4: (88, 104, {EPERM, EBADF, EACCES, EIO, ENOENT, EISDIR, EFBIG}),
    10: (NAMED, 0, {ENAMETOOLONG, ENOENT, EIO, ENOTDIR, EPERM, EACCES}),
    12: (TWICE_NAMED, 0, {ENAMETOOLONG, ENOENT, EIO, ENOTDIR, EPERM, EXDEV, EACCES}),
    14: (8, 16, {EINVAL, ENOENT, EIO, EISDIR, EACCES, EMFILE}),
    15: (40, None, {EINVAL, EBADF, EACCES, EIO, ENOENT}),
    16: (None, 8, {EINVAL, EBADF, EACCES, EFBIG, EIO, ENOENT}),
    18: (24, 0, {EBADF}),
    20: (16, 0, {EBADF, EIO, ENOENT}),
    25: (24, 0, {EBADF}),
    27: (8, 16, {ENOENT, EIO, ENOTDIR, EMFILE}),
    28: (40, None, {EINVAL, EBADF}),
    29: (24, 0, {EBADF}),
    34: (8, 0, {EINVAL, ENOENT, EIO, EACCES}),
    35: (NAMED, 144, {EINVAL, ENAMETOOLONG, ENOENT, EIO, ENOTDIR, EPERM, EACCES, EMFILE, EEXIST}),
    45: (TWICE_NAMED, 0, {EINVAL, ENAMETOOLONG, ENOENT, EIO, ENOTDIR, EPERM, EXDEV, EACCES}),
}
# By the kind of a node: the modes that its attributes may tell. Those of the kind 4 have numbers
# that a connection gave in their order; those of the kind 5 are files that it saves by rename.
FILE_MODES = {0o100400, 0o100600}
FOLDER_MODES = {0o040500}
EXPORTED_MODES = {0o040500, 0o040700}
MODES = {0: FOLDER_MODES, 1: FOLDER_MODES, 2: FILE_MODES | EXPORTED_MODES,
         4: FILE_MODES | EXPORTED_MODES, 5: FILE_MODES}
NAMES_LIMIT = 65536
# Where the names of a request with two begin.
NAMES_AT = {12: 8, 45: 16}
STATFS = struct.pack("<5Q4I", *[1 << 30] * 3, *[1 << 20] * 2, 4096, 255, 4096, 0) + bytes(24)


class Reply:
    """What answers a frame: its unique, and one error or body, or which of them may come."""

    def __init__(self, frame, error=None, body=None, opcode=None):
        self.frame, self.error, self.body, self.opcode = frame, error, body, opcode
        self.unique = struct.unpack_from("<Q", frame, 8)[0]


def is_name(raw):
    return len(raw) > 1 and raw.find(b"\0") == len(raw) - 1


def names_of(opcode, body):
    """The names of a request that has some, without their zero bytes."""
    if opcode in NAMES_AT:
        return body[NAMES_AT[opcode]:].split(b"\0")[:2]
    return [{1: body, 10: body, 35: body[16:]}.get(opcode, b"")[:-1]]


def has_form(opcode, body):
    """Whether the body of a request of the portal has its form."""
    if opcode in NAMES_AT:
        old, zero, new = body[NAMES_AT[opcode]:].partition(b"\0")
        return bool(old and zero) and is_name(new)
    if opcode == 16:
        return len(body) >= 40 and len(body) == 40 + struct.unpack_from("<I", body, 16)[0]
    if opcode == 35:
        return is_name(body[16:])
    wanted = FRAMES[opcode][0]
    return is_name(body) if wanted == NAMED else len(body) == wanted


def first_of_portal(opcode, body):
    """The error that a request gets whatever the portal holds, if there is one."""
    words = struct.unpack("<%dI" % (len(body) // 4), body[:len(body) & ~3])
    checks = (
        (opcode in (14, 35) and words[0] & 3 == 3, EINVAL),
        (opcode == 45 and words[2], EINVAL),
        (any(len(name) > 255 for name in names_of(opcode, body)), ENAMETOOLONG),
        (opcode == 4 and words[0] & 7, EPERM),
        (opcode in (15, 28) and words[4] > 1 << 20, EINVAL),
        (opcode == 16 and words[4] > 1 << 17, EINVAL),
        (opcode == 34 and words[0] > 7, EINVAL))
    return next((error for holds, error in checks if holds), None)


def reply_of(frame):
    """What answers a frame, or None."""
    opcode, body = struct.unpack_from("<I", frame, 4)[0], frame[40:]
    if opcode == 36 or opcode in (2, 42):
        return None
    if opcode in (8, 9, 11):
        return Reply(frame, error=EPERM)
    if opcode == 26:
        return initial(frame, body)
    if opcode == 38:
        return Reply(frame, body=b"")
    if opcode == 17:
        return Reply(frame, error=EINVAL) if body else Reply(frame, body=STATFS)
    if opcode not in FRAMES:
        return Reply(frame, error=ENOSYS)
    if not has_form(opcode, body):
        return Reply(frame, error=EINVAL)
    error = first_of_portal(opcode, body)
    return Reply(frame, error=error) if error else Reply(frame, opcode=opcode)


def initial(frame, body):
    """What answers INIT."""
    if len(body) < 16:
        return Reply(frame, error=EINVAL)
    major, minor, ahead, flags = struct.unpack_from("<4I", body)
    if major < 7 or major == 7 and minor < 23:
        return Reply(frame, error=EPROTO)
    given = (0,) * 6
    if major == 7:
        given = (min(ahead, 131072), flags & 0x28, 16, 12, 131072, 1)
    return Reply(frame, body=struct.pack("<4I2H2I", 7, 31, *given) + bytes(36))


# ---- a connection (docs/connections.md)

class Connection:
    """What one connection is answered: `feed` takes bytes, and gives what they are answered by."""

    def __init__(self, kind, host, mount_point=b"/run/doc"):
        self.kind, self.host, self.mount_point = kind, host, mount_point
        self.rest, self.at = b"", 0
        self.state = "frames" if kind == "mount" else "zero"
        self.end = None
        self.items = 0
        self.serial = 0
        self.opens = 0
        self.names = 0

    def feed(self, data):
        """The answers to the items that are whole now; None stands for signals alone."""
        self.rest += data
        found = []
        while self.end is None:
            before = self.at
            try:
                answer = getattr(self, "take_" + ("line" if self.state in ("auth", "data", "begin")
                                                  else self.state))()
            except Broken as broken:
                self.end = "malformed %d %d" % (self.at, broken.args[0])
                self.items += 1
                break
            if self.at == before:
                break
            self.items += 1
            found += answer
        return found

    def closed(self):
        """How it ends where the input ends now."""
        return self.end or ("cut %d" % len(self.rest) if self.rest else "ended")

    def cut(self, count):
        item, self.rest = self.rest[:count], self.rest[count:]
        self.at += count
        return item

    def take_zero(self):
        if self.rest:
            if self.rest[0]:
                raise Broken(12)
            self.cut(1)
            self.state = "auth"
        return []

    def take_line(self):
        end = self.rest.find(b"\r\n", 0, LINE_LIMIT)
        if end < 0:
            if len(self.rest) >= LINE_LIMIT:
                self.end = "long %d" % self.at
            return []
        answer, self.state = handshake(self.state, self.rest[:end])
        self.cut(end + 2)
        return [answer + b"\r\n"] if answer is not None else []

    def take_messages(self):
        if len(self.rest) < 16:
            return []
        length = length_of(self.rest[:16])
        if len(self.rest) < length:
            return []
        message = Message(self.rest[:length])
        self.cut(length)
        if message.type != CALL:
            return []
        if message.flags & 1:
            return [None] if self.host else []
        return [(message, answer_of(message, self.host, self.mount_point))]

    def take_frames(self):
        if len(self.rest) < 40:
            return []
        length = struct.unpack_from("<I", self.rest)[0]
        if not 40 <= length <= FRAME_LIMIT:
            raise Broken(14)
        if len(self.rest) < length:
            return []
        answer = reply_of(self.cut(length))
        return [answer] if answer else []

    # ---- what came

    def flaw_of(self, wanted, got):
        """What is wrong with a piece of output, or None; it may be a signal ahead of the wanted."""
        if isinstance(wanted, bytes):
            return None if got == wanted else "the handshake wants %r" % wanted
        if isinstance(wanted, Reply):
            return self.flaw_of_frame(wanted, got)
        return self.flaw_of_message(wanted, got)

    def is_signal(self, got):
        return self.host and self.kind == "bus" and got[1:2] == b"\x04"

    def flaw_of_message(self, wanted, got):
        try:
            if length_of(got[:16]) != len(got):
                return "another length than it states"
            message = Message(got)
        except (Broken, IndexError) as broken:
            return "a message that is none: rule %s" % broken
        self.serial = self.serial % 0xffffffff + 1
        if got[:1] + got[2:4] != b"l\x01\x01" or message.serial != self.serial:
            return "its first bytes, or the serial %d and not %d" % (message.serial, self.serial)
        codes = sorted(message.fields)
        if message.type == SIGNAL:
            right = (codes == [1, 2, 3, 8] and message.fields[2] == STORE
                     and message.fields[3] == b"Changed" and message.signature == "ssbva{sas}"
                     and message.fields[1] == b"/org/freedesktop/impl/portal/PermissionStore")
            return None if right else "a signal of another form"
        asked, answer = wanted
        if message.fields.get(5) != asked.serial:
            return "a reply to %r, and not to %d" % (message.fields.get(5), asked.serial)
        return flaw_of_answer(message, answer, codes)

    def flaw_of_frame(self, wanted, got):
        if len(got) < 16:
            return "no frame"
        length, error, unique = struct.unpack_from("<IiQ", got)
        body = got[16:]
        if length != len(got) or unique != wanted.unique or error > 0 or error and body:
            return "a frame of length %d, error %d, unique %d" % (length, error, unique)
        if wanted.opcode is None:
            right = -error == (wanted.error or 0) and (error or body == wanted.body)
            return None if right else "error %d, and not %r" % (-error, wanted.error)
        if error:
            return None if -error in FRAMES[wanted.opcode][2] else "the error %d" % -error
        return self.flaw_of_content(wanted, body)

    def flaw_of_content(self, wanted, body):
        """Of an answer of the portal that is done."""
        opcode, length = wanted.opcode, FRAMES[wanted.opcode][1]
        if length is None:
            offset, most = struct.unpack_from("<QI", wanted.frame, 48)
            if len(body) > most:
                return "more bytes than were asked"
            return flaw_of_entries(body, offset) if opcode == 28 else None
        if len(body) != length:
            return "a body of %d bytes" % len(body)
        if opcode == 16 and body != wanted.frame[56:60] + bytes(4):
            return "another count than was written"
        if opcode in (14, 27, 35):
            self.opens += 1
            if struct.unpack_from("<Q", body, length - 16)[0] != self.opens:
                return "another handle than %d" % self.opens
        if opcode in (1, 3, 4, 35):
            at = 16 if opcode in (3, 4) else 40
            if body[at + 68:at + 76] != wanted.frame[24:32]:
                return "another uid or gid"
            if opcode in (1, 35) and body[:8] != body[at:at + 8]:
                return "another node than its attributes say"
            return self.flaw_of_node(opcode, body[at:])
        return None

    def flaw_of_node(self, opcode, attributes):
        """Of the node that attributes tell of, and of its number where it is a name's."""
        node, = struct.unpack_from("<Q", attributes)
        mode, = struct.unpack_from("<I", attributes, 60)
        kind, number = node >> 32 & 15, node & 0xffffffff
        if mode not in MODES.get(kind, ()):
            return "the mode %o of node %d" % (mode, node)
        if kind == 4:
            most = min(self.names + (opcode in (1, 35)), NAMES_LIMIT)
            if not 1 <= number <= most:
                return "name %d of a connection that has named %d" % (number, self.names)
            self.names = max(self.names, number)
        return None


def flaw_of_entries(body, offset):
    """What is wrong with the entries of a folder from a place on, or None."""
    at = 0
    while at < len(body):
        if at + 24 > len(body):
            return "an entry that is cut"
        _, place, length, kind = struct.unpack_from("<QQII", body, at)
        name, padding = body[at + 24:at + 24 + length], -length % 8
        end, offset = at + 24 + length + padding, offset + 1
        if place != offset or kind not in (4, 8) or body[end - padding:end] != bytes(padding):
            return "the entry %d, of the type %d, at place %d" % (place, kind, offset)
        if (name == b".") != (place == 1) or (name == b"..") != (place == 2) or not name:
            return "the name %r at place %d" % (name, place)
        at = end
    return None


def flaw_of_answer(message, answer, codes):
    """What is wrong with a return or an error, or None."""
    if message.type == ERROR:
        name = message.fields.get(4, b"")
        if answer.error != name and (answer.decided or name not in OF_PORTAL):
            return "the error %s, and not %s" % (name, answer.error or answer.types)
        last = name.rpartition(b".")[2]
        right = codes == [4, 5, 8] and message.body == spelled(last) + b"\0"
        return None if right else "an error of another form"
    if message.type != RETURN or answer.error:
        return "a message of type %d, and not %s" % (message.type, answer.error)
    if message.signature != answer.types or codes != ([5, 8] if answer.types else [5]):
        return "a return of %r, and not of %r" % (message.signature, answer.types)
    if answer.body is not None and message.body != answer.body:
        return "another return"
    return None


# ---- scripts (docs/scripts.md)

NAME = rb"(?!\.{1,2}(?![A-Za-z0-9._-]))[A-Za-z0-9._-]{1,255}"
BYTES = rb"(?:-|(?:[0-9a-f]{2})+)"
COUNT = rb"(?:0|[1-9][0-9]{0,19})"
GRANT = NAME + rb"=(?=[rwgd])r?w?g?d?"
ROW = NAME + rb"=" + NAME + rb"(?:\+" + NAME + rb")*"
FORMS = {
    b"file": re.compile(rb"file ([^ ]+) (" + BYTES + rb")"),
    b"doc": re.compile(rb"doc ([0-9a-f]{8}) (?:-|r|s|rs) ([^ ]+) (-|" + GRANT + rb"(?:," + GRANT
                       + rb")*)"),
    b"entry": re.compile(rb"entry (" + NAME + rb") (" + NAME + rb") (" + BYTES + rb") (-|" + ROW
                         + rb"(?:," + ROW + rb")*)"),
    b"fail": re.compile(rb"fail (?:tree|keeper) (" + COUNT + rb")"),
    b"word": re.compile(rb"word [0-9a-f]{8}"),
    b"now": re.compile(rb"now (" + COUNT + rb")"),
    b"open": re.compile(rb"open (" + COUNT + rb") (bus|mount) (host|app:" + NAME + rb")"),
    b"data": re.compile(rb"data (" + COUNT + rb") (" + BYTES + rb")"),
    b"close": re.compile(rb"close (" + COUNT + rb")"),
}


def is_path(raw):
    """Whether a text is the path of a script."""
    try:
        raw.decode()
    except UnicodeDecodeError:
        return False
    if len(raw) > 4095 or any(byte < 0x20 or byte == 0x7f for byte in raw):
        return False
    return raw == b"/" or raw[:1] == b"/" and all(
        part not in (b"", b".", b"..") for part in raw[1:].split(b"/"))


def rises(listed):
    """Whether the names of grants or rows rise."""
    names = [] if listed == b"-" else [part.split(b"=")[0] for part in listed.split(b",")]
    return all(one < other for one, other in zip(names, names[1:]))


def is_datum(raw):
    """Whether bytes are one whole variant without a handle."""
    reader = Values(raw, 0, len(raw), "little")
    try:
        reader.value("v", 0)
    except Broken:
        return False
    return reader.at == len(raw) and not reader.handle


def bytes_of(word):
    return b"" if word == b"-" else bytes.fromhex(word.decode())


class Order:
    """The lines of a script so far, and whether one more may stand behind them."""

    def __init__(self):
        self.paths, self.above, self.documents, self.entries = set(), set(), set(), set()
        self.open, self.known = set(), set()

    def takes(self, line):
        word = line.split(b" ", 1)[0]
        found = FORMS[word].fullmatch(line) if word in FORMS else None
        if not found or word in (b"file", b"doc", b"entry", b"fail") and self.known:
            return False
        return getattr(self, "takes_" + word.decode())(*found.groups())

    def takes_file(self, path, _content):
        if not is_path(path) or path == b"/" or path in self.paths or path in self.above:
            return False
        parts = path.split(b"/")
        above = {b"/".join(parts[:count]) for count in range(2, len(parts))}
        if above & self.paths:
            return False
        self.paths.add(path)
        self.above |= above
        return True

    def takes_doc(self, number, path, grants):
        if number in self.documents or not is_path(path) or not rises(grants):
            return False
        self.documents.add(number)
        return True

    def takes_entry(self, table, entry, datum, rows):
        key = table, entry
        if key in self.entries or table == b"documents" or not rises(rows):
            return False
        self.entries.add(key)
        return is_datum(bytes_of(datum))

    @staticmethod
    def takes_fail(count):
        return 0 < int(count) < 1 << 64

    @staticmethod
    def takes_now(count):
        return int(count) < 1 << 64

    @staticmethod
    def takes_word():
        return True

    def takes_open(self, number, _kind, _who):
        if not 0 < int(number) < 1 << 16 or number in self.known:
            return False
        self.known.add(number)
        self.open.add(number)
        return True

    def takes_data(self, number, _content):
        return number in self.open

    def takes_close(self, number):
        if number not in self.open:
            return False
        self.open.remove(number)
        return True


def fault_of(text):
    """The first line that is none of a script, counted from 1, or None."""
    lines = text.split(b"\n")
    order = Order()
    for number, line in enumerate(lines[:-1], 1):
        if not order.takes(line):
            return number
    return len(lines) if lines[-1] else None
