"""Files that are no store, and a store of version 1, for serve-check and store-worst.

What holds something else than a store is refused with status 3 by one line, and stays byte for byte
as it is, with nothing beside it. A store of version 1, which a program of that version made and kept
in examples/stores, is opened with every document, right and entry as it was.
"""

import gzip
import os
import shutil

from service import TOP, Service, run
from docportal_client import Variant

try:
    import sqlite3
except ImportError:
    sqlite3 = None

KEPT = os.path.join(TOP, "examples", "stores", "version_1.db")

FAULT = "docportal: store fault: "
OTHER = FAULT + "the file of the records holds something else, and is left as it is\n"
NO_FILE = FAULT + "the path of the records leads to no regular file\n"
TWO_NAMES = FAULT + "the file of the records has a second name (a hard link)\n"

# What the store of version 1 holds, as its own program answered of it.
READ_WRITE = ["read", "write"]
ALL_RIGHTS = ["read", "write", "grant-permissions", "delete"]
DOCUMENTS = {
    "167a98e2": ("/b\u00fc.txt", {}),
    "51b61ff5": ("/a.txt", {"org.aa": ["read"], "org.ed": READ_WRITE, "org.tv": ALL_RIGHTS}),
    "7570e3cb": ("/c.txt", {"org.ed": ["read"]}),
    "4844b1c4": ("/d.txt", {"org.tv": ["read"]}),
}
MANY_ROWS = {"k%03d" % number: ["v%d" % (number % 7)] * (1 + number % 3) for number in range(40)}
ENTRIES = {
    ("background", "background"): ({}, Variant("s", "a datum")),
    ("devices", "camera"): ({"org.ed": ["yes"], "org.tv": ["no", "ask"]}, Variant("y", 8)),
    ("devices", "mic"): ({"org.ed": ["yes"]}, Variant("y", 7)),
    ("odd", ""): ({**MANY_ROWS, "k005": ["changed"], "j": ["in between"]},
                  Variant("as", ["one", "two"])),
    ("odd", "names"): ({"": ["", "two\nlines", "back\\slash", "\u00e9t\u00e9"], "a b": ["n"],
                        "z" * 100: ["x"] * 20}, Variant("(si)", ("t", -3))),
}
# The documents in the order of their addition, with what they have in the tables, and the entries
# in that of their creation.
IN_ORDER = [(1, 0x167a98e2, "/b\u00fc.txt".encode(), 1, 0), (2, 0x51b61ff5, b"/a.txt", 1, 0),
            (3, 0x7570e3cb, b"/c.txt", 0, 0), (4, 0x4844b1c4, b"/d.txt", 0, 0)]
ENTRIES_IN_ORDER = [("devices", "mic"), ("devices", "camera"), ("background", "background"),
                    ("odd", "names"), ("odd", "")]


def written(names):
    """A row's names as the store has them."""
    escaped = (name.replace("\\", "\\\\").replace("\n", "\\n") for name in names)
    return "".join(name + "\n" for name in escaped)


def put_version_1(store, with_log=True):
    """Puts the store of version 1 at a path, with its log or with that taken into it."""
    for end in ("", "-wal"):
        with gzip.open(KEPT + end + ".gz") as kept, open(store + end, "wb") as file:
            shutil.copyfileobj(kept, file)
    if not with_log:
        connection = sqlite3.connect(store)
        connection.execute("PRAGMA wal_checkpoint(TRUNCATE)")
        connection.close()


def held(service):
    """What a service answers of its documents and of the tables of version 1's store."""
    with service.bus() as bus:
        documents, store = bus.documents, bus.permissions
        entries = {(table, entry): store.lookup(table, entry)
                   for table in ("background", "devices", "odd") for entry in store.list(table)}
        return {number: documents.info(number) for number in documents.list()}, entries


def check_version_1(see, folder, tables):
    """The store of version 1 is opened, with its log and without."""
    for with_log in (True, False):
        service = Service(os.path.join(folder, "log" if with_log else "none"), [])
        put_version_1(service.store, with_log)
        for _ in range(2):
            service.start()
            see("records of version 1", held(service), (DOCUMENTS, ENTRIES))
            service.kill()
        rows = tables(service.store)
        see("version of its tables", rows["version"], [(2,)])
        see("documents in their order", rows["document"], IN_ORDER)
        see("entries in their order", [row[1:3] for row in rows["entry"]], ENTRIES_IN_ORDER)
        see("names of each row", [row[2:] for row in rows["permission"] if row[1] == 4],
            sorted((app, written(names)) for app, names in ENTRIES[("odd", "names")][0].items()))


# ---- what is no store

def sql(path, *texts):
    """Runs statements over a database, and leaves its log taken in."""
    connection = sqlite3.connect(path)
    for text in texts:
        connection.execute(text)
    connection.commit()
    connection.close()


def with_log(path, *texts):
    """The same in WAL mode, with all of it in the log, as after a program that was killed."""
    connection = sqlite3.connect(path + ".made")
    for text in ("PRAGMA journal_mode = WAL", "PRAGMA wal_autocheckpoint = 0", *texts):
        connection.execute(text)
    connection.commit()
    for end in ("", "-wal"):
        shutil.copyfile(path + ".made" + end, path + end)
    connection.close()
    os.remove(path + ".made")


THINGS = "CREATE TABLE thing (name TEXT)", "INSERT INTO thing VALUES ('a')"
VERSION = "CREATE TABLE version (version INTEGER NOT NULL) STRICT"


def others():
    """Each file that holds something else: what it is, and what makes it at a path."""
    def bytes_of(data):
        def make(path):
            with open(path, "wb") as file:
                file.write(data)
        return make

    yield "a letter", bytes_of(b"Dear store, this is a letter.\n" * 200)
    yield "one byte", bytes_of(b"x")
    yield "one byte of zero", bytes_of(b"\0")
    yield "a page of zeros", bytes_of(b"\0" * 4096)
    yield "the first letters of a database", bytes_of(b"SQLite format 3\0")
    yield "a database with a journal", lambda path: sql(path, *THINGS)
    yield "one in WAL mode", lambda path: sql(path, "PRAGMA journal_mode = WAL", *THINGS)
    yield "one in WAL mode with its log", lambda path: with_log(path, *THINGS)
    yield "one with an application id", lambda path: sql(
        path, "PRAGMA application_id = 77", *THINGS)
    yield "an empty one with an application id", lambda path: sql(
        path, "PRAGMA application_id = 77", "PRAGMA user_version = 1")
    yield "one with a table of our name", lambda path: sql(
        path, VERSION, "INSERT INTO version VALUES (1)", *THINGS)
    yield "one with tables of our names", lambda path: sql(
        path, VERSION, *("CREATE TABLE %s (name TEXT)" % name for name in
                         ("document", "document_grant", "entry", "permission")))
    yield "one with a table of our name in its log", lambda path: with_log(
        path, VERSION, "INSERT INTO version VALUES (1)", *THINGS)


def all_bytes(folder):
    """The names below a folder with what stands there."""
    found = {}
    for name in sorted(os.listdir(folder)):
        path = os.path.join(folder, name)
        if os.path.islink(path):
            found[name] = os.readlink(path)
        elif os.path.isfile(path):
            with open(path, "rb") as file:
                found[name] = (file.read(), os.stat(path).st_mode, os.stat(path).st_mtime_ns)
        else:
            found[name] = os.stat(path).st_mode
    return found


def see_refused(see, what, words, path, line):
    """A start with a store is refused with a line, and leaves all in its folder as it is."""
    place = os.path.dirname(path)
    before = all_bytes(place)
    words = list(words)
    words[words.index("--store") + 1] = path
    status, out, said = run(*words)
    see(what, (status, out, said), (3, "", line))
    see(what + " stays", all_bytes(place) == before)


def see_cut_refused(see, what, words, path):
    """A start with a store of ours that was cut is refused with a line, and leaves all in its folder
    as it is."""
    place = os.path.dirname(path)
    before = all_bytes(place)
    words = list(words)
    words[words.index("--store") + 1] = path
    status, out, said = run(*words)
    see(what, (status, out, said.startswith(FAULT), said.count("\n")), (3, "", True, 1))
    see(what + " stays", all_bytes(place) == before)


def check_others(see, folder, words):
    """Each file that is no store is refused."""
    for number, (what, make) in enumerate(others()):
        place = os.path.join(folder, "other%d" % number)
        os.mkdir(place)
        path = os.path.join(place, "s.db")
        make(path)
        see_refused(see, what, words, path, OTHER)
        link = os.path.join(folder, "link%d" % number)
        os.mkdir(link)
        os.symlink(path, os.path.join(link, "s.db"))
        before = all_bytes(place)
        see_refused(see, "a link to " + what, words, os.path.join(link, "s.db"), OTHER)
        see(what + " stays behind a link", all_bytes(place) == before)


def check_paths(see, folder, words):
    """What stands at the path, and a store of ours with a second name or without its end."""
    place = os.path.join(folder, "paths")
    os.mkdir(place)
    path = os.path.join(place, "s.db")
    os.mkdir(path)
    see_refused(see, "a folder", words, path, NO_FILE)
    os.rmdir(path)
    os.mkfifo(path)
    see_refused(see, "a pipe", words, path, NO_FILE)
    os.remove(path)
    os.symlink("nowhere", path)
    see_refused(see, "a link to nothing", words, path, NO_FILE)
    os.remove(path)
    put_version_1(path, with_log=False)
    os.link(path, path + ".second")
    see_refused(see, "a store with a second name", words, path, TWO_NAMES)
    os.remove(path + ".second")
    size = os.path.getsize(path)
    for left in (size - 1, size - 4096, size // 2, 4096, 100, 1):
        os.truncate(path, left)
        see_cut_refused(see, "a store cut to %d bytes" % left, words, path)
