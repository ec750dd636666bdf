"""A client of `docportal serve`, in Python 3.8's standard library alone.

    from docportal_client import Bus, Mount

    with Bus.open() as host:                        # host.bus of the service
        document = host.documents.add("/notes.txt", persistent=True)
        host.documents.grant_permissions(document, "org.ed", ["read", "write"])
    with Mount.open("org.ed") as mount:             # app.org.ed.mount
        with mount.open_file(document, "rb") as file:
            print(file.read())

A bus connection is a `Bus`, with the interfaces `documents` and `permissions`; a mount
connection is a `Mount`. Each is for one thread at a time, and a context manager. A call that
is answered by an error raises the `DBusError` of that name, a request on files a `MountError`,
which is an OSError; what can't be reached raises a `ServiceError`, which is a ConnectionError,
and what takes too long a TimeoutError. `docs/clients.md` has the rules that these follow. It is one
file so that a program may take it along.
"""

import enum
import errno
import io
import os
import re
import socket
import struct
import time
from stat import S_ISDIR
from typing import NamedTuple

MESSAGE_LIMIT = 16_777_216
READ_LIMIT = 1_048_576
WRITE_LIMIT = 131_072
LINE_LIMIT = 1024
RIGHTS = ("read", "write", "grant-permissions", "delete")


# ---- errors

class ServiceError(ConnectionError):
    """The service can't be reached, or its connection was lost."""


class NoService(ServiceError):
    """Nothing answers at the socket."""


class ConnectionClosed(ServiceError):
    """The service closed the connection: `at_once` where it was ahead of any answer."""

    def __init__(self, text, at_once=False):
        super().__init__(text)
        self.at_once = at_once


class ProtocolError(ServiceError):
    """What came isn't what the protocol says."""


class DBusError(Exception):
    """A call that was answered by an error; `name` is the error's whole name."""

    name = ""

    def __str__(self):
        return self.name

    @staticmethod
    def of(name):
        """The exception of an error's name."""
        error = ERRORS.get(name, DBusError)()
        error.name = name
        return error


ERRORS = {}


def _error(prefix, name, meaning):
    """The exception of an error's name, as a class of its own."""
    full = prefix + name
    ERRORS[full] = type(name, (DBusError,), {
        "__doc__": meaning, "__module__": __name__, "name": full})
    return ERRORS[full]


_BUS, _PORTAL = "org.freedesktop.DBus.Error.", "org.freedesktop.portal.Error."
UnknownObject = _error(_BUS, "UnknownObject", "There is no object at the path.")
UnknownInterface = _error(_BUS, "UnknownInterface", "The object hasn't that interface.")
UnknownMethod = _error(_BUS, "UnknownMethod", "The interface hasn't that method.")
UnknownProperty = _error(_BUS, "UnknownProperty", "The interface hasn't that property.")
InvalidArgs = _error(_BUS, "InvalidArgs", "Another signature, or a handle of no presented file.")
AccessDenied = _error(_BUS, "AccessDenied", "The call is the host's alone.")
LimitsExceeded = _error(_BUS, "LimitsExceeded", "A limit would be passed, or the history is full.")
NoMemory = _error(_BUS, "NoMemory", "The service has no memory for the request.")
NotFound = _error(_PORTAL, "NotFound", "Nothing is there, or nothing that the caller may know of.")
NotAllowed = _error(_PORTAL, "NotAllowed", "The caller lacks a right, or may not make the call.")
InvalidArgument = _error(_PORTAL, "InvalidArgument", "A text isn't of its form, or no file there.")
Failed = _error(_PORTAL, "Failed", "The files failed, or the records couldn't be kept.")


class MountError(OSError):
    """A request on a mount that was answered by an error number."""


# ---- values of D-Bus as bytes (D-Bus Specification, "Marshaling")

NUMBERS = {
    "y": (1, "B"), "n": (2, "h"), "q": (2, "H"), "i": (4, "i"), "u": (4, "I"),
    "x": (8, "q"), "t": (8, "Q"), "d": (8, "d"), "h": (4, "I"),
}
OBJECT_PATH = re.compile("/|(/[A-Za-z0-9_]+)+")
BASIC = "".join(NUMBERS) + "bsog"


class Variant(NamedTuple):
    """A value with its type, as a variant carries it."""

    signature: str
    value: object


def single_types(signature):
    """The complete types that a signature is made of, in order."""
    types = []
    at = 0
    while at < len(signature):
        end = end_of_type(signature, at)
        types.append(signature[at:end])
        at = end
    return types


def end_of_type(signature, at):
    """Where the complete type that begins at a place ends."""
    code = signature[at:at + 1]
    if code == "a" and signature[at + 1:at + 2] == "{":
        end = end_of_type(signature, at + 3)
        if signature[at + 2] in BASIC and signature[end:end + 1] == "}":
            return end + 1
    elif code == "a":
        return end_of_type(signature, at + 1)
    elif code == "(":
        end = end_of_type(signature, at + 1)
        while signature[end:end + 1] != ")":
            end = end_of_type(signature, end)
        return end + 1
    elif code and code in BASIC + "v":
        return at + 1
    raise ValueError("%r isn't a signature: no type begins at %d" % (signature, at))


def alignment(kind):
    """What a value of a type begins at a multiple of."""
    code = kind[0]
    if code in NUMBERS:
        return NUMBERS[code][0]
    return {"b": 4, "s": 4, "o": 4, "a": 4, "(": 8, "{": 8}.get(code, 1)


class Writer:
    """Values that are written one behind another, with the lowest byte first."""

    def __init__(self):
        self.out = bytearray()

    def pad(self, to):
        self.out += bytes(-len(self.out) % to)

    def number(self, code, value):
        size, form = NUMBERS[code]
        self.pad(size)
        try:
            self.out += struct.pack("<" + form, value)
        except struct.error:
            raise ValueError("%r is no value of the type %s" % (value, code)) from None

    def put(self, kind, value):
        """Writes a value of a complete type."""
        code = kind[0]
        if code in NUMBERS:
            self.number(code, value)
        elif code == "b":
            self.number("u", 1 if value else 0)
        elif code in "so":
            if "\0" in value or code == "o" and not OBJECT_PATH.fullmatch(value):
                raise ValueError("%r is no value of the type %s" % (value, code))
            raw = value.encode()
            self.number("u", len(raw))
            self.out += raw + b"\0"
        elif code == "g":
            single_types(value)
            self.out += bytes([len(value)]) + value.encode() + b"\0"
        elif code == "v":
            self.put("g", value.signature)
            self.put(value.signature, value.value)
        elif code == "a":
            self.array(kind[1:], value)
        else:
            self.pad(8)
            for inner, item in zip(single_types(kind[1:-1]), value):
                self.put(inner, item)

    def array(self, element, items):
        if isinstance(items, str):  # which would be taken for a list of its letters
            raise TypeError("%r is a text, and no array" % items)
        self.number("u", 0)
        counted = len(self.out) - 4
        self.pad(alignment(element))
        start = len(self.out)
        if element == "y":
            self.out += bytes(items)
        else:
            for item in items.items() if isinstance(items, dict) else items:
                self.put(element, item)
        struct.pack_into("<I", self.out, counted, len(self.out) - start)


class Reader:
    """Values that are read one behind another."""

    def __init__(self, data, at=0, order="<"):
        self.data = data
        self.at = at
        self.order = order

    def pad(self, to):
        self.at += -self.at % to

    def number(self, code):
        size, form = NUMBERS[code]
        self.pad(size)
        (value,) = struct.unpack_from(self.order + form, self.data, self.at)
        self.at += size
        return value

    def take(self, count):
        raw = bytes(self.data[self.at:self.at + count])
        if len(raw) != count:
            raise ValueError("the message is too short")
        self.at += count
        return raw

    def get(self, kind):
        """Reads a value of a complete type."""
        code = kind[0]
        if code in NUMBERS:
            return self.number(code)
        if code == "b":
            return self.number("u") == 1
        if code in "so":
            return self.take(self.number("u") + 1)[:-1].decode()
        if code == "g":
            return self.take(self.number("y") + 1)[:-1].decode()
        if code == "v":
            signature = self.get("g")
            return Variant(signature, self.get(signature))
        if code == "a":
            return self.array(kind[1:])
        self.pad(8)
        return tuple(self.get(inner) for inner in single_types(kind[1:-1]))

    def array(self, element):
        length = self.number("u")
        self.pad(alignment(element))
        if element == "y":
            return self.take(length)
        end = self.at + length
        items = []
        while self.at < end:
            items.append(self.get(element))
        if self.at != end:
            raise ValueError("an array has another length than it states")
        return dict(items) if element[0] == "{" else items


# ---- messages (D-Bus Specification, "Message Format")

class MessageType(enum.IntEnum):
    METHOD_CALL = 1
    METHOD_RETURN = 2
    ERROR = 3
    SIGNAL = 4


class Field(enum.IntEnum):
    PATH = 1
    INTERFACE = 2
    MEMBER = 3
    ERROR_NAME = 4
    REPLY_SERIAL = 5
    DESTINATION = 6
    SENDER = 7
    SIGNATURE = 8
    UNIX_FDS = 9


def write_call(serial, path, interface, member, signature="", values=(), fds=0):
    """A call as bytes. `fds` says how many presented files it takes."""
    body = Writer()
    types = single_types(signature)
    if len(types) != len(values):
        raise TypeError("%s takes %d arguments" % (member, len(types)))
    for kind, value in zip(types, values):
        body.put(kind, value)
    fields = [(Field.PATH, Variant("o", path)), (Field.INTERFACE, Variant("s", interface)),
              (Field.MEMBER, Variant("s", member))]
    if signature:
        fields.append((Field.SIGNATURE, Variant("g", signature)))
    if fds:
        fields.append((Field.UNIX_FDS, Variant("u", fds)))
    head = Writer()
    head.out += bytes([ord("l"), MessageType.METHOD_CALL, 0, 1])
    head.number("u", len(body.out))
    head.number("u", serial)
    head.put("a(yv)", fields)
    head.pad(8)
    if len(head.out) + len(body.out) > MESSAGE_LIMIT:
        raise ValueError("the call is longer than a message may be, %d bytes" % MESSAGE_LIMIT)
    return bytes(head.out + body.out)


class Message:
    """A message that came: its `type`, `serial`, `fields` by code, and the values of its `body`."""

    def __init__(self, data):
        try:
            self._read(data)
        except (ValueError, LookupError, TypeError, RecursionError, struct.error) as error:
            raise ProtocolError("a message that can't be read: %s" % error) from error

    def _read(self, data):
        order = "<" if data[:1] == b"l" else ">"
        reader = Reader(data, 4, order)
        self.type = data[1]
        length = reader.number("u")
        self.serial = reader.number("u")
        self.fields = {code: value.value for code, value in reader.get("a(yv)")}
        reader.pad(8)
        if len(data) != reader.at + length:
            raise ValueError("it has another length than it states")
        body = Reader(data[reader.at:], 0, order)
        self.body = [body.get(kind) for kind in single_types(self.fields.get(Field.SIGNATURE, ""))]


def length_of(head):
    """How many bytes the message has whose first 16 bytes these are."""
    order = "<" if head[:1] == b"l" else ">"
    body, _serial, fields = struct.unpack_from(order + "III", head, 4)
    length = 16 + fields + -(16 + fields) % 8 + body
    if length > MESSAGE_LIMIT:
        raise ProtocolError("a message of %d bytes" % length)
    return length


# ---- sockets

def sockets_folder():
    """The folder of the sockets: DOCPORTAL_SOCKETS, or docportal in the runtime directory."""
    runtime = os.environ.get("XDG_RUNTIME_DIR") or "/run/user/%d" % os.getuid()
    return os.environ.get("DOCPORTAL_SOCKETS") or os.path.join(runtime, "docportal")


def is_app_name(name):
    """Whether a text is a name of an application."""
    return re.fullmatch(r"[A-Za-z0-9._-]{1,255}", name) is not None and name not in (".", "..")


def socket_path(folder, app, kind):
    """Where a socket is: the host's (None), or an application's by its name; `bus` or `mount`."""
    if app is not None and not is_app_name(app):
        raise ValueError("%r is no name of an application" % app)
    return os.path.join(folder, "%s.%s" % ("host" if app is None else "app." + app, kind))


class Stream:
    """A connected socket. `timeout` is how many seconds an item may take to be sent or to come."""

    kind = ""

    def __init__(self, path, timeout=30.0):
        self.path = path
        self.timeout = timeout
        self._held = bytearray()
        self._got_any = False
        self._socket = socket.socket(socket.AF_UNIX, socket.SOCK_STREAM)
        deadline = time.monotonic() + timeout
        try:
            self._socket.settimeout(timeout)
            while not self._connects(path, deadline):
                time.sleep(0.02)
        except OSError as error:
            self._socket.close()
            if isinstance(error, TimeoutError):
                raise
            raise NoService("no service at %s: %s" % (path, error.strerror or error)) from error

    @classmethod
    def open(cls, app=None, sockets=None, timeout=30.0):
        """Connects as the host, or as an application by its name, in a folder of sockets."""
        return cls(socket_path(sockets or sockets_folder(), app, cls.kind), timeout)

    def _connects(self, path, deadline):
        """Connects, or says that so many wait already that the socket takes no more."""
        try:
            self._socket.connect(path)
        except (BlockingIOError, socket.timeout):
            if time.monotonic() < deadline:
                return False
            raise TimeoutError("%s took no connection within %g s" % (path, self.timeout)) from None
        return True

    def _within(self, deadline, action, *arguments):
        """What the socket does ahead of a moment; where it doesn't, the connection is closed."""
        try:
            self._socket.settimeout(max(deadline - time.monotonic(), 1e-6))
            return action(*arguments)
        except (socket.timeout, BlockingIOError):
            self.close()
            raise TimeoutError("%s: no answer within %g s" % (self.path, self.timeout)) from None
        except OSError as error:
            self.close()
            raise self._closed() from error
        except BaseException:
            # An item that was cut short, as by an interrupt, would take the next one's bytes.
            self.close()
            raise

    def _closed(self):
        return ConnectionClosed("%s: the connection was closed" % self.path, not self._got_any)

    def send(self, data):
        """Sends bytes."""
        self._within(time.monotonic() + self.timeout, self._socket.sendall, data)

    def take(self, count, deadline=None):
        """The next bytes that come, so many."""
        deadline = deadline or time.monotonic() + self.timeout
        held = self._held
        while len(held) < count:
            piece = self._within(deadline, self._socket.recv, max(65536, count - len(held)))
            if not piece:
                self.close()
                raise self._closed()
            self._got_any = True
            held += piece
        got = bytes(held[:count])
        del held[:count]
        return got

    def close(self):
        """Closes the connection; what it presented and opened is gone with it."""
        self._socket.close()

    def __enter__(self):
        return self

    def __exit__(self, *_):
        self.close()


class Bus(Stream):
    """A bus connection: the handshake is made, and calls follow."""

    kind = "bus"

    def __init__(self, path, timeout=30.0):
        super().__init__(path, timeout)
        self.signals = []  # those of the host pile up here until `permissions.changes` takes them
        self.documents = Documents(self)
        self.permissions = PermissionStore(self)
        self._serial = 0
        self.guid = self._shake_hands()

    def _shake_hands(self):
        identity = str(os.getuid()).encode().hex()
        self.send(b"\0AUTH EXTERNAL " + identity.encode() + b"\r\n")
        deadline = time.monotonic() + self.timeout
        line = bytearray()
        while not line.endswith(b"\r\n") and len(line) < LINE_LIMIT:
            line += self.take(1, deadline)
        if not line.startswith(b"OK "):
            self.close()
            raise ProtocolError("the handshake was answered %r" % bytes(line))
        self.send(b"BEGIN\r\n")
        return line[3:-2].decode()

    def message(self):
        """The next message, whatever it is."""
        deadline = time.monotonic() + self.timeout
        head = self.take(16, deadline)
        return Message(head + self.take(length_of(head) - 16, deadline))

    def post(self, path, interface, member, signature="", values=(), fds=0):
        """Sends a call and doesn't wait for its answer: the serial, which `answer` takes."""
        self._serial += 1
        self.send(write_call(self._serial, path, interface, member, signature, values, fds))
        return self._serial

    def answer(self, serial):
        """The values that a call returns, of calls in their order. Signals ahead are kept."""
        while True:
            message = self.message()
            if message.type == MessageType.SIGNAL:
                self.signals.append(message)
            elif message.fields.get(Field.REPLY_SERIAL) == serial:
                if message.type == MessageType.ERROR:
                    raise DBusError.of(message.fields.get(Field.ERROR_NAME, ""))
                return message.body

    def call(self, path, interface, member, signature="", values=(), fds=0):
        """Makes a call: the values that it returns."""
        return self.answer(self.post(path, interface, member, signature, values, fds))

    def ping(self):
        """Asks for nothing; the signals that waited come ahead of the answer."""
        self.call("/", "org.freedesktop.DBus.Peer", "Ping")

    def get_property(self, path, interface, name):
        """The value of a property."""
        got = self.call(path, "org.freedesktop.DBus.Properties", "Get", "ss", [interface, name])
        return got[0].value


# ---- the interfaces

DOCUMENTS_PATH = "/org/freedesktop/portal/documents"
DOCUMENTS = "org.freedesktop.portal.Documents"
STORE_PATH = "/org/freedesktop/impl/portal/PermissionStore"
STORE = "org.freedesktop.impl.portal.PermissionStore"
FILES_PATH = "/local/docportal/files"
FILES = "local.docportal.Files1"


class AddFlags(enum.IntFlag):
    """The flags of AddFull and AddNamedFull."""

    REUSE_EXISTING = 1
    PERSISTENT = 2
    AS_NEEDED_BY_APP = 4
    # Of AddFull alone: the path is a folder's, and all that lies below it is there.
    EXPORT_DIRECTORY = 8
    # docportal's own: what is revoked is taken from open files too.
    STRICT = 16
    # No flag of the portal: a call with it is refused, and takes the presented files all the same.
    REFUSED = 1 << 31


def path_bytes(path):
    """A path as `ay` has it, with a zero byte behind it."""
    return os.fsencode(path) + b"\0"


def path_text(raw):
    return os.fsdecode(raw.rstrip(b"\0"))


class Documents:
    """org.freedesktop.portal.Documents of a bus connection. Paths are those of the portal."""

    def __init__(self, bus):
        self._bus = bus
        self._queued = 0

    def _call(self, member, signature="", values=(), fds=0):
        return self._bus.call(DOCUMENTS_PATH, DOCUMENTS, member, signature, values, fds)

    @property
    def version(self):
        """The version of the interface."""
        return self._bus.get_property(DOCUMENTS_PATH, DOCUMENTS, "version")

    def get_mount_point(self):
        """Where the documents are mounted."""
        return path_text(self._call("GetMountPoint")[0])

    def present(self, path):
        """Queues a path for an addition: its place in the queue."""
        place = self._bus.call(FILES_PATH, FILES, "Present", "ay", [path_bytes(path)])[0]
        self._queued = place + 1
        return place

    def drop_presented(self):
        """Empties the queue of what was presented and not added."""
        if not self._queued:
            return
        values = [[], AddFlags.REFUSED, "", []]
        try:
            self._call("AddFull", "ahusas", values, fds=self._queued)
        except (InvalidArgument, InvalidArgs, ServiceError, TimeoutError):
            self._queued = 0  # with a connection its queue is gone too
        except DBusError:
            pass  # it stays there; the next addition goes by the places that Present answers

    def _add(self, member, signature, paths, values):
        """Presents files and makes the call that adds them.

        Its handles are the places that Present answered, so that it never takes a file that
        another addition left in the queue; and where it fails, nothing of it is left there.
        """
        self.drop_presented()
        try:
            places = [self.present(path) for path in paths]
            got = self._call(member, signature, values(places), fds=max(places, default=-1) + 1)
        except Exception:
            self.drop_presented()
            raise
        self._queued = 0
        return got

    def add(self, path, reuse_existing=True, persistent=False):
        """Adds a file: its identifier."""
        return self._add("Add", "hbb", [path],
                         lambda places: [places[0], reuse_existing, persistent])[0]

    def add_named(self, folder, name, reuse_existing=True, persistent=False):
        """Adds a file by its folder and name, be it there or not: its identifier."""
        return self._add("AddNamed", "haybb", [folder], lambda places: [
            places[0], path_bytes(name), reuse_existing, persistent])[0]

    def add_full(self, paths, flags=AddFlags.REUSE_EXISTING, app="", permissions=()):
        """Adds files, for an application or for none: their identifiers, and what else is told."""
        return self._add("AddFull", "ahusas", paths,
                         lambda places: [places, flags, app, permissions])

    def add_folder(self, path, flags=AddFlags.REUSE_EXISTING, app="", permissions=()):
        """Exports a folder with all that lies below it, for an application or for none: its
        identifier. It isn't kept by a service that starts anew."""
        return self.add_full([path], flags | AddFlags.EXPORT_DIRECTORY, app, permissions)[0][0]

    def add_named_full(self, folder, name, flags=AddFlags.REUSE_EXISTING, app="", permissions=()):
        """Adds a file by its folder and name, for an application: as `add_full`."""
        return self._add("AddNamedFull", "hayusas", [folder], lambda places: [
            places[0], path_bytes(name), flags, app, permissions])

    def grant_permissions(self, document, app, permissions):
        """Gives an application rights in a document."""
        self._call("GrantPermissions", "ssas", [document, app, permissions])

    def revoke_permissions(self, document, app, permissions):
        """Takes rights in a document from an application."""
        self._call("RevokePermissions", "ssas", [document, app, permissions])

    def delete(self, document):
        """Takes a document away from everybody; its file stays."""
        self._call("Delete", "s", [document])

    def lookup(self, path):
        """The document of a path that was added first, or the empty text."""
        return self._call("Lookup", "ay", [path_bytes(path)])[0]

    def info(self, document):
        """The path of a document, and the rights of each application."""
        path, apps = self._call("Info", "s", [document])
        return path_text(path), apps

    def list(self, app=""):
        """The paths of the documents of an application, or of all, by identifier."""
        documents = self._call("List", "s", [app])[0]
        return {document: path_text(path) for document, path in documents.items()}

    def infos(self, documents):
        """`info` of each document that is there, by identifier, asked many at a time."""
        documents, found = list(documents), {}
        for start in range(0, len(documents), 64):
            asked = [(document, self._bus.post(DOCUMENTS_PATH, DOCUMENTS, "Info", "s", [document]))
                     for document in documents[start:start + 64]]
            failed = None
            for document, serial in asked:
                try:
                    path, apps = self._bus.answer(serial)
                    found[document] = path_text(path), apps
                except NotFound:
                    pass  # deleted meanwhile
                except DBusError as error:
                    failed = error
            if failed:
                raise failed
        return found


class Change(NamedTuple):
    """What a signal Changed tells: an entry as it is now, or a deleted one as it was."""

    table: str
    id: str
    deleted: bool
    data: Variant
    permissions: dict


class PermissionStore:
    """org.freedesktop.impl.portal.PermissionStore of a bus connection of the host."""

    def __init__(self, bus):
        self._bus = bus

    def _call(self, member, signature, values):
        return self._bus.call(STORE_PATH, STORE, member, signature, values)

    @property
    def version(self):
        """The version of the interface."""
        return self._bus.get_property(STORE_PATH, STORE, "version")

    def lookup(self, table, entry):
        """The permissions of each application in an entry, and its data."""
        permissions, data = self._call("Lookup", "ss", [table, entry])
        return permissions, data

    def set(self, table, entry, permissions, data, create=True):
        """Gives an entry these permissions by application, and this Variant as data."""
        self._call("Set", "sbsa{sas}v", [table, create, entry, permissions, data])

    def delete(self, table, entry):
        """Removes an entry."""
        self._call("Delete", "ss", [table, entry])

    def set_value(self, table, entry, data, create=True):
        """Gives an entry this Variant as data."""
        self._call("SetValue", "sbsv", [table, create, entry, data])

    def set_permission(self, table, entry, app, permissions, create=True):
        """Gives an application these permissions in an entry; none take its row away."""
        values = [table, create, entry, app, permissions]
        self._call("SetPermission", "sbssas", values)

    def delete_permission(self, table, entry, app):
        """Takes the row of an application from an entry."""
        self._call("DeletePermission", "sss", [table, entry, app])

    def get_permission(self, table, entry, app):
        """The permissions of an application in an entry."""
        return self._call("GetPermission", "sss", [table, entry, app])[0]

    def list(self, table):
        """The identifiers of a table's entries."""
        return self._call("List", "s", [table])[0]

    def changes(self):
        """Each Change that came since they were last asked for."""
        came = [signal for signal in self._bus.signals
                if signal.fields.get(Field.MEMBER) == "Changed"]
        self._bus.signals.clear()
        return [Change(*signal.body) for signal in came]

    def watch(self, every=1.0):
        """Each Change as it comes, without end. It asks by a Ping, so many seconds apart."""
        while True:
            self._bus.ping()
            yield from self.changes()
            time.sleep(every)


# ---- frames (include/uapi/linux/fuse.h, all numbers with the lowest byte first)

class Opcode(enum.IntEnum):
    LOOKUP = 1
    GETATTR = 3
    SETATTR = 4
    UNLINK = 10
    RENAME = 12
    OPEN = 14
    READ = 15
    WRITE = 16
    RELEASE = 18
    FSYNC = 20
    INIT = 26
    OPENDIR = 27
    READDIR = 28
    RELEASEDIR = 29
    CREATE = 35


ROOT = 1
# The kind of a node's number that tells a file which is to be renamed onto a document's name.
TEMPORARY = 5
FATTR_SIZE, FATTR_FH = 8, 64
GETATTR_FH = 1


def is_temporary(node):
    """Whether a node is of a file that was made beside a document's own."""
    return node >> 32 & 15 == TEMPORARY


def read_attr(data):
    """A `struct fuse_attr` as os.stat gives it."""
    (node, size, _blocks, atime, mtime, ctime, _, _, _, mode, links, uid, gid) = (
        struct.unpack_from("<QQQQQQIIIIIII", data))
    return os.stat_result((mode, node, 0, links, uid, gid, size, atime, mtime, ctime))


def write_frame(opcode, node, body, unique):
    """A request as bytes."""
    ids = (os.getuid(), os.getgid(), os.getpid(), 0)
    return struct.pack("<IIQQIIII", 40 + len(body), opcode, unique, node, *ids) + body


class Entry(NamedTuple):
    """The file of a document, or the folder that it is, or what stands below that."""

    name: str
    stat: os.stat_result

    @property
    def is_folder(self):
        return S_ISDIR(self.stat.st_mode)


class Mount(Stream):
    """A mount connection: requests on nodes by their names in FUSE, and files of documents."""

    kind = "mount"

    def __init__(self, path, timeout=30.0):
        super().__init__(path, timeout)
        self._unique = 0

    def post(self, opcode, node, body=b""):
        """Sends a request and doesn't wait for its answer."""
        self._unique += 1
        self.send(write_frame(opcode, node, body, self._unique))
        return self._unique

    def reply(self):
        """The next answer: its number, its error and its body."""
        deadline = time.monotonic() + self.timeout
        length, error, unique = struct.unpack("<IiQ", self.take(16, deadline))
        if not 16 <= length <= 16 + READ_LIMIT:
            self.close()
            raise ProtocolError("a frame of %d bytes" % length)
        return unique, -error, self.take(length - 16, deadline)

    def ask(self, opcode, node, body=b""):
        """Makes a request: the body of its answer."""
        sent = self.post(opcode, node, body)
        unique, error, got = self.reply()
        if unique != sent:
            self.close()
            raise ProtocolError("the answer %d came to request %d" % (unique, sent))
        if error:
            raise MountError(error, os.strerror(error))
        return got

    def init(self):
        """The version of the protocol that is spoken."""
        body = struct.pack("<IIII", 7, 31, 0, 0)
        return struct.unpack_from("<II", self.ask(Opcode.INIT, 0, body))

    def lookup(self, node, name):
        """What stands by a name in a folder."""
        return read_attr(self.ask(Opcode.LOOKUP, node, os.fsencode(name) + b"\0")[40:])

    def getattr(self, node, handle=None):
        """What stands at a node, or is open by a handle."""
        by = (0, 0, 0) if handle is None else (GETATTR_FH, 0, handle)
        return read_attr(self.ask(Opcode.GETATTR, node, struct.pack("<IIQ", *by))[16:])

    def truncate(self, node, handle, length):
        """Gives the file of a handle a length, by SETATTR."""
        body = struct.pack("<IIQQ", FATTR_SIZE | FATTR_FH, 0, handle, length) + bytes(64)
        return read_attr(self.ask(Opcode.SETATTR, node, body)[16:])

    def open_node(self, node, flags=os.O_RDONLY):
        """A handle of the file at a node."""
        got = self.ask(Opcode.OPEN, node, struct.pack("<II", flags, 0))
        return struct.unpack_from("<Q", got)[0]

    def create(self, folder, name, flags=os.O_RDWR):
        """Makes a document's file where it isn't there, or under another name one that may be
        renamed onto it, and that goes with the connection: what it is, and a handle."""
        body = struct.pack("<IIII", flags, 0o600, 0, 0) + os.fsencode(name) + b"\0"
        got = self.ask(Opcode.CREATE, folder, body)
        return read_attr(got[40:]), struct.unpack_from("<Q", got, 128)[0]

    def rename(self, folder, old, new):
        """Gives a file that was made in a document's folder another name, or the document's."""
        names = os.fsencode(old) + b"\0" + os.fsencode(new) + b"\0"
        self.ask(Opcode.RENAME, folder, struct.pack("<Q", folder) + names)

    def unlink(self, folder, name):
        """Takes a file away that was made in a document's folder under another name."""
        self.ask(Opcode.UNLINK, folder, os.fsencode(name) + b"\0")

    def read(self, node, handle, offset, size):
        """At most so many bytes of an open file, and none at its end."""
        body = struct.pack("<QQIIQII", handle, offset, size, 0, 0, 0, 0)
        return self.ask(Opcode.READ, node, body)

    def write(self, node, handle, offset, content):
        """Writes at most 131,072 bytes: how many were written."""
        body = struct.pack("<QQIIQII", handle, offset, len(content), 0, 0, 0, 0)
        return struct.unpack_from("<I", self.ask(Opcode.WRITE, node, body + content))[0]

    def fsync(self, node, handle):
        """Asks that what was written by a handle is kept."""
        self.ask(Opcode.FSYNC, node, struct.pack("<QII", handle, 0, 0))

    def release(self, node, handle):
        """Gives a handle back."""
        self.ask(Opcode.RELEASE, node, struct.pack("<QIIQ", handle, 0, 0, 0))

    def readdir(self, node):
        """The names in a folder, without `.` and `..`."""
        got = self.ask(Opcode.OPENDIR, node, struct.pack("<II", 0, 0))
        handle = struct.unpack_from("<Q", got)[0]
        names = []
        offset = 0
        while True:
            body = struct.pack("<QQIIQII", handle, offset, 65536, 0, 0, 0, 0)
            got = self.ask(Opcode.READDIR, node, body)
            if not got:
                break
            at = 0
            while at < len(got):
                _node, offset, length, _kind = struct.unpack_from("<QQII", got, at)
                names.append(os.fsdecode(got[at + 24:at + 24 + length]))
                at += 24 + length + -length % 8
        self.ask(Opcode.RELEASEDIR, node, struct.pack("<QIIQ", handle, 0, 0, 0))
        return [name for name in names if name not in (".", "..")]

    # files of documents

    def documents(self):
        """The identifiers of the documents that the caller may read."""
        return [name for name in self.readdir(ROOT) if re.fullmatch("[0-9a-f]{8}", name)]

    def find(self, path):
        """What stands at a path, or None where nothing does: by a document's identifier its file,
        or the folder that it is; by names behind it, as in `5a0c11d7/pictures/cat.png`, what the
        mount shows there."""
        if "/" not in path:
            folder = self._node(path)
            for name in self.readdir(folder):
                return self._entry(folder, name)
            return None
        above, _, name = path.rpartition("/")
        return self._entry(self._node(above), name)

    def _node(self, path):
        """The node at a path from the root on."""
        node = ROOT
        for name in path.split("/"):
            node = self.lookup(node, name).st_ino
        return node

    def _entry(self, folder, name):
        """What stands by a name in a folder, or None."""
        try:
            return Entry(name, self.lookup(folder, name))
        except MountError as error:
            if error.errno != errno.ENOENT:
                raise
        return None

    def entries(self, path):
        """What stands in the folder at a path, by name; what goes meanwhile is left out."""
        entry = self.find(path)
        if entry is None:
            raise MountError(errno.ENOENT, os.strerror(errno.ENOENT))
        folder = entry.stat.st_ino
        found = (self._entry(folder, name) for name in self.readdir(folder))
        return [entry for entry in found if entry]

    def open_file(self, path, mode="rb", create_as=None):
        """Opens a file as `open` does: `rb`, `r+b`, or `wb`, which empties it. The path is a
        document's identifier, or one behind it, as of `find`.

        Where the file isn't there, `wb` makes it, if `create_as` is the document's own name, or
        the path says where.
        """
        access = {"rb": os.O_RDONLY, "r+b": os.O_RDWR, "wb": os.O_WRONLY | os.O_TRUNC}[mode]
        entry = self.find(path)
        above, _, name = path.rpartition("/") if "/" in path else (path, "", create_as)
        if entry:
            node = entry.stat.st_ino
            handle = self.open_node(node, access)
        elif name is not None and mode == "wb":
            folder = self._node(above)
            stat, handle = self.create(folder, name, os.O_WRONLY)
            node = stat.st_ino
            if is_temporary(node):
                # It would go with this connection, and with it all that is written.
                self.release(node, handle)
                self.unlink(folder, name)
                raise MountError(errno.EACCES, "the document has another name")
        else:
            raise MountError(errno.ENOENT, "no file is there")
        buffered = {"rb": io.BufferedReader, "r+b": io.BufferedRandom, "wb": io.BufferedWriter}
        return buffered[mode](DocumentFile(self, node, handle, mode), WRITE_LIMIT)

    def read_document(self, path):
        """The bytes of a document, or of a file in one."""
        with self.open_file(path, "rb") as file:
            return file.read()

    def write_document(self, path, content):
        """Writes a document, or a file in one, anew, and asks that it is kept."""
        with self.open_file(path, "wb") as file:
            file.write(content)
            file.flush()
            file.raw.fsync()


class DocumentFile(io.RawIOBase):
    """An open file of a document; `Mount.open_file` puts a buffer over it."""

    def __init__(self, mount, node, handle, mode):
        super().__init__()
        self._mount, self._node, self._handle, self._mode = mount, node, handle, mode
        self._at = 0

    def readable(self):
        return self._mode != "wb"

    def writable(self):
        return self._mode != "rb"

    def seekable(self):
        return True

    def readinto(self, buffer):
        got = self._mount.read(self._node, self._handle, self._at, min(len(buffer), READ_LIMIT))
        buffer[:len(got)] = got
        self._at += len(got)
        return len(got)

    def readall(self):
        # RawIOBase asks for some thousand bytes at a time, each time by a request.
        return b"".join(iter(lambda: self.read(READ_LIMIT), b""))

    def write(self, content):
        written = self._mount.write(self._node, self._handle, self._at,
                                    bytes(content[:WRITE_LIMIT]))
        self._at += written
        return written

    def seek(self, offset, whence=os.SEEK_SET):
        if whence == os.SEEK_CUR:
            offset += self._at
        elif whence == os.SEEK_END:
            offset += self._mount.getattr(self._node, self._handle).st_size
        elif whence != os.SEEK_SET:
            raise ValueError("whence is %r" % whence)
        if offset < 0:
            raise ValueError("the place %d is ahead of the file" % offset)
        self._at = offset
        return offset

    def truncate(self, size=None):
        size = self._at if size is None else size
        if size < 0:
            raise ValueError("a length of %d" % size)
        self._mount.truncate(self._node, self._handle, size)
        return size

    def fsync(self):
        """Asks that what was written is kept."""
        self._mount.fsync(self._node, self._handle)

    def close(self):
        if not self.closed:
            super().close()
            try:
                self._mount.release(self._node, self._handle)
            except (MountError, ServiceError):
                pass  # the handle is gone with its connection


if __name__ == "__main__":
    raise SystemExit("docportal_client is a library; docportal-client is the command")
