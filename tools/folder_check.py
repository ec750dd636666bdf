"""Exported folders at a service, for serve-check: what is neither listed nor reached there, folders
and files that go and come back, and the most names that a connection may give."""

import errno
import os
import shutil
import socket
import stat
import struct
import tempfile
import time

from service import Service
from docportal_client import AddFlags, MountError, Opcode, ROOT

APP = "org.ed"
NAMES_LIMIT = 65536
# So many files, and as many documents of their folder as make that many names of them.
FILES = 1024
FLIGHT = 64
UNKNOWN_INO = 0xffffffff
NO_TEXT = b"\xff.txt"
# How long the names of a connection may take, in seconds.
PATIENCE = float(os.environ.get("NAMES_PATIENCE", 20))


def lay(path, content=b"a file\n"):
    os.makedirs(os.path.dirname(path), exist_ok=True)
    with open(path, "wb") as file:
        file.write(content)


def error_of(call, *arguments):
    """The number of the error that a request is answered by."""
    try:
        call(*arguments)
    except MountError as error:
        return error.errno
    return None


def lay_out(root, outside):
    """A folder with files, and with all that isn't shown: the names of these."""
    for name in ("a.txt", "cats/one.png", "cats/small/two.png", "\u00fc \u20ac.txt"):
        lay(os.path.join(root, "pictures", name))
    lay(os.path.join(outside, "secret.txt"), b"OUTSIDE")
    lay(os.path.join(root, "other", "note.txt"), b"BESIDE")
    at = os.path.join(root, "pictures")
    for name, target in (("to-file", outside + "/secret.txt"), ("to-folder", outside),
                         ("to-own", "a.txt"), ("to-own-folder", "cats"), ("beside", "../other"),
                         ("up", ".."), ("dead", "none")):
        os.symlink(target, os.path.join(at, name))
    os.mkfifo(os.path.join(at, "pipe"))
    lay(os.path.join(os.fsencode(at), NO_TEXT))
    folder = os.open(at, os.O_RDONLY)
    with socket.socket(socket.AF_UNIX) as listener:
        # (a socket's path is short, and that of the folder may be long)
        listener.bind("/proc/self/fd/%d/socket" % folder)
    os.close(folder)
    try:
        os.mknod(os.path.join(at, "null"), stat.S_IFCHR | 0o666, os.makedev(1, 3))
    except PermissionError:
        pass  # only root may make one
    return sorted({*os.listdir(os.fsencode(at))}
                  - {name.encode() for name in ("a.txt", "cats", "\u00fc \u20ac.txt")})


def open_folder(mount, node):
    """A handle of the folder at a node."""
    return struct.unpack_from("<Q", mount.ask(Opcode.OPENDIR, node, bytes(8)))[0]


def entries(mount, handle):
    """What an open folder has: the name, the inode number and the type of each."""
    found, offset = [], 0
    while True:
        got, at = mount.ask(Opcode.READDIR, ROOT,
                            struct.pack("<QQIIQII", handle, offset, 1 << 16, 0, 0, 0, 0)), 0
        if not got:
            return found
        while at < len(got):
            ino, offset, length, kind = struct.unpack_from("<QQII", got, at)
            found.append((got[at + 24:at + 24 + length].decode(), ino, kind))
            at += 24 + length + -length % 8


def state_of(folder):
    """All that stands below a folder: what it is, how long, and when it changed."""
    found = {}
    for at, folders, files in os.walk(os.fsencode(folder)):
        for name in folders + files:
            state = os.lstat(os.path.join(at, name))
            found[os.path.join(at, name)] = state.st_mode, state.st_size, state.st_mtime_ns
    return found


def what_isnt_shown(see, service, folder):
    """Links, pipes, sockets, devices and names that aren't UTF-8 are neither listed nor reached."""
    outside = os.path.join(folder, "outside")
    odd = lay_out(service.root, outside)
    see("what isn't to be shown", len(odd) >= 10)
    with service.bus() as bus:
        document = bus.documents.add_folder("/pictures", app=APP, permissions=["read", "write"])
        see("the path of a folder", bus.documents.info(document)[0], "/pictures")
    before = state_of(folder)
    with service.mount(APP) as mount:
        own = mount.lookup(ROOT, document).st_ino
        node = mount.lookup(own, "pictures").st_ino
        see("the node of a folder", node, 2 << 32 | int(document, 16))
        listed = [("a.txt", UNKNOWN_INO, 8), ("cats", UNKNOWN_INO, 4),
                  ("\u00fc \u20ac.txt", UNKNOWN_INO, 8)]
        see("what is listed", entries(mount, open_folder(mount, node)),
            [(".", node, 4), ("..", own, 4), *listed])
        for name in odd:
            see("LOOKUP of %r" % name, error_of(mount.lookup, node, name), errno.ENOENT)
            for below in (b"/secret.txt", b"/a.txt", b"/note.txt", b"/one.png", b"/", b"/."):
                see("LOOKUP of %r" % (name + below), error_of(mount.lookup, node, name + below),
                    errno.ENOENT)
            wanted = errno.EACCES if name == NO_TEXT else errno.ENOENT
            for made in (name, name + b"/new"):
                see("CREATE of %r" % made, error_of(mount.create, node, made), wanted)
        for name in (b"..", b".", b"../other", b"cats/../a.txt", b"../../outside/secret.txt"):
            see("LOOKUP of %r" % name, error_of(mount.lookup, node, name), errno.ENOENT)
            see("CREATE of %r" % name, error_of(mount.create, node, name), errno.EACCES)
        see("none of these took a number", mount.lookup(node, "a.txt").st_ino, (4 << 32) + 1)
    see("what was there is as it was", state_of(folder) == before)
    return document


def large_folder(see, service):
    """Of what stands in a large folder only files and folders are listed, whatever their names."""
    at = os.path.join(service.root, "large")
    os.makedirs(at)
    shown = []
    for number in range(2_000):
        # (names of all lengths)
        name = ("%04d" % number).ljust(4 + number % 252, "n")
        path, kind = os.path.join(at, name), number % 10
        if kind < 5:
            lay(path)
            shown.append((name, UNKNOWN_INO, 8))
        elif kind == 5:
            os.mkdir(path)
            shown.append((name, UNKNOWN_INO, 4))
        elif kind == 6:
            os.symlink("%04d" % 0, path)
        elif kind == 7:
            os.symlink(".", path)
        elif kind == 8:
            os.mkfifo(path)
        else:
            lay(os.fsencode(path[:-1]) + b"\xff")
            lay(os.path.join(at, ".docportal-%d" % number))
    with service.bus() as bus:
        document = bus.documents.add_folder("/large", app=APP, permissions=["read"])
    with service.mount(APP) as mount:
        node = mount.lookup(mount.lookup(ROOT, document).st_ino, "large").st_ino
        see("what is listed of a large folder", entries(mount, open_folder(mount, node))[2:],
            sorted(shown))
    shutil.rmtree(at)


def what_goes(see, service, document):
    """A folder that goes while handles on it and below it are open, and comes back."""
    at = os.path.join(service.root, "pictures")
    cats = os.path.join(at, "cats")
    with service.mount(APP) as mount:
        own = mount.lookup(ROOT, document).st_ino
        node = mount.lookup(own, "pictures").st_ino
        folder = mount.lookup(node, "cats").st_ino
        file = mount.lookup(folder, "one.png").st_ino
        listing, handle = open_folder(mount, folder), mount.open_node(file, os.O_RDWR)
        os.rename(cats, cats + ".away")
        see("the entries of a folder that went", [name for name, _, _ in entries(mount, listing)],
            [".", "..", "one.png", "small"])
        see("the bytes of a file that went", mount.read(file, handle, 0, 100), b"a file\n")
        for what, call, *words in (
                ("GETATTR of it", mount.getattr, folder), ("GETATTR below", mount.getattr, file),
                ("LOOKUP of it", mount.lookup, node, "cats"),
                ("LOOKUP in it", mount.lookup, folder, "one.png"),
                ("OPENDIR of it", open_folder, mount, folder),
                ("OPEN below", mount.open_node, file),
                ("CREATE in it", mount.create, folder, "new")):
            see("%s where a folder went" % what, error_of(call, *words), errno.ENOENT)
        os.rename(cats + ".away", cats)
        see("the numbers behind that", (mount.lookup(node, "cats").st_ino,
                                        mount.lookup(node, "cats/one.png").st_ino), (folder, file))
        os.unlink(os.path.join(cats, "one.png"))
        see("GETATTR of a file that is gone", error_of(mount.getattr, file), errno.ENOENT)
        see("what is made in its place", mount.create(folder, "one.png")[0].st_ino, file)
        os.rename(at, at + ".away")
        see("the document's folder where its folder went", mount.readdir(own), [])
        see("its node", error_of(mount.getattr, node), errno.ENOENT)
        see("LOOKUP of its name", error_of(mount.lookup, own, "pictures"), errno.ENOENT)
        lay(at, b"now a file\n")
        see("a file in a folder's place", mount.getattr(node).st_size, 11)
        see("its bytes", mount.read(node, mount.open_node(node), 0, 100), b"now a file\n")
        see("what is below it", error_of(mount.getattr, folder), errno.ENOENT)
        see("LOOKUP in it", error_of(mount.lookup, node, "cats"), errno.ENOTDIR)
        os.unlink(at)
        os.rename(at + ".away", at)
        see("the folder again", mount.readdir(node), ["a.txt", "cats", "\u00fc \u20ac.txt"])


def names_below(see, mount, documents, names):
    """LOOKUPs of all names below each document, with many of one document under way: whether that
    was done in time. A program that is checked while it runs takes a hundred times as long."""
    begun = time.monotonic()
    for at, document in enumerate(documents):
        node = 2 << 32 | int(document, 16)
        numbers = []
        for first in range(0, len(names), FLIGHT):
            # (as many answers as a socket takes, be each sent by itself)
            some = names[first:first + FLIGHT]
            for name in some:
                mount.post(Opcode.LOOKUP, node, name)
            for _ in some:
                _, error, got = mount.reply()
                numbers.append(
                    error or struct.unpack_from("<Q", got)[0] - (4 << 32) - at * FILES)
        see("the names below document %d" % at, numbers == list(range(1, FILES + 1)))
        if time.monotonic() - begun > PATIENCE:
            return False
    return True


def most_names(see, service):
    """A connection gives 65,536 names, and no more; another gives its own."""
    for number in range(FILES):
        lay(os.path.join(service.root, "many", "%04d" % number), b"")
    documents = []
    with service.bus() as bus:
        while len(documents) < NAMES_LIMIT // FILES:
            documents += bus.documents.add_full(["/many"] * 16, AddFlags.EXPORT_DIRECTORY, APP,
                                                ["read", "write"])[0]
        more = bus.documents.add_folder("/pictures", AddFlags(0), APP, ["read", "write"])
    names = [b"%04d\0" % number for number in range(FILES)]
    with service.mount(APP) as mount:
        if not names_below(see, mount, documents, names):
            print("serve-check: the limit of names isn't tried, since this program takes too long")
            return
        node = 2 << 32 | int(more, 16)
        see("one name more", error_of(mount.lookup, node, "a.txt"), errno.EMFILE)
        see("a file more", error_of(mount.create, node, "made.txt"), errno.EMFILE)
        see("the file that isn't made",
            os.path.exists(os.path.join(service.root, "pictures", "made.txt")), False)
        see("nothing there", error_of(mount.lookup, node, "none"), errno.ENOENT)
        see("a name that was given", mount.lookup(2 << 32 | int(documents[-1], 16), "1023").st_ino,
            (4 << 32) + NAMES_LIMIT)
        see("the last number", mount.getattr((4 << 32) + NAMES_LIMIT).st_size, 0)
        with service.mount(APP) as other:
            see("the first name of another", other.lookup(node, "a.txt").st_ino, (4 << 32) + 1)


def check(see):
    """All of it, at one service."""
    with tempfile.TemporaryDirectory(prefix="docportal-") as folder:
        service = Service(folder, [APP])
        service.start()
        try:
            document = what_isnt_shown(see, service, folder)
            what_goes(see, service, document)
            large_folder(see, service)
            most_names(see, service)
            service.kill()
            service.start()
            with service.bus() as bus:
                see("no folder is kept", list(bus.documents.list()), [])
        finally:
            service.kill()
            shutil.rmtree(os.path.join(service.root, "pictures"), ignore_errors=True)
