"""What a service keeps in its store, for serve-check: its tables after changes of each kind, as
Python's own SQLite reads them, restarts, and stores that were changed by hand."""

import os
import shutil
import stat
import tempfile

from foreign_stores import check_others, check_paths, check_version_1
from service import Service, run
from docportal_client import AddFlags, DBusError, Variant

try:
    import sqlite3
except ImportError:
    sqlite3 = None

# The tables, each with what is read of its rows, and what orders these.
TABLES = {
    "version": ("version", "version"),
    "document": ("place, number, path, reusable, strict", "place"),
    "document_grant": ("place, document, application, rights", "document, application"),
    "entry": ("place, store_table, id, datum", "place"),
    "permission": ("place, entry, application, names", "entry, application"),
}

KEPT, SHARED = AddFlags.PERSISTENT, AddFlags.PERSISTENT | AddFlags.REUSE_EXISTING

# The paths of documents.
FIRST, SECOND, THIRD, OTHER = "/b\u00fc.txt", "/a.txt", "/c.txt", "/d.txt"

# The data of entries, and how they are spelled.
SEVEN, EIGHT = Variant("y", 7), Variant("y", 8)
SPELLED_SEVEN, SPELLED_EIGHT = b"\x01y\0\x07", b"\x01y\0\x08"

READ_WRITE, ALL_RIGHTS = 1 + 2, 1 + 2 + 4 + 8

BAD_RECORD = "docportal: bad record 1 in the store\n"
NO_RECORD = "docportal: store fault: the database of the records has a row that is no record\n"


def changed(store, change):
    """Changes a store that no service has open."""
    connection = sqlite3.connect(store)
    connection.executescript(change)
    connection.close()


def tables(store):
    """The rows of each table, read from a copy of the store and of its log."""
    with tempfile.TemporaryDirectory(prefix="docportal-") as folder:
        copy = os.path.join(folder, "copy.db")
        for end in ("", "-wal"):
            if os.path.exists(store + end):
                shutil.copyfile(store + end, copy + end)
        connection = sqlite3.connect(copy)
        rows = {table: connection.execute(
                    "SELECT %s FROM %s ORDER BY %s" % (columns, table, order)).fetchall()
                for table, (columns, order) in TABLES.items()}
        connection.close()
    return rows


def make_first(documents, store):
    """Three documents and three entries are made: the numbers of the documents."""
    first = documents.add_full([FIRST], SHARED)[0]
    second = documents.add_full([SECOND], SHARED, "org.ed", ["read", "write"])[0]
    documents.grant_permissions(second[0], "org.tv", ["write", "read"])
    third = documents.add_full([THIRD], KEPT, "org.ed", ["read"])[0]
    store.set("devices", "mic", {"org.ed": ["yes"]}, SEVEN)
    store.set("devices", "camera", {"org.ed": ["yes"], "org.tv": ["no", "ask"]}, SEVEN)
    store.set("background", "background", {}, SEVEN)
    return [int(identifier, 16) for identifier in first + second + third]


def first_tables(numbers):
    first, second, third = numbers
    return {
        "version": [(2,)],
        "document": [(1, first, b"/b\xc3\xbc.txt", 1, 0), (2, second, b"/a.txt", 1, 0),
                     (3, third, b"/c.txt", 0, 0)],
        "document_grant": [(1, 2, "org.ed", READ_WRITE), (2, 2, "org.tv", READ_WRITE),
                           (3, 3, "org.ed", 1)],
        "entry": [(1, "devices", "mic", SPELLED_SEVEN), (2, "devices", "camera", SPELLED_SEVEN),
                  (3, "background", "background", SPELLED_SEVEN)],
        "permission": [(1, 1, "org.ed", "yes\n"), (2, 2, "org.ed", "yes\n"),
                       (3, 2, "org.tv", "no\nask\n")],
    }


def change_each(documents, store, numbers):
    """A change of each kind."""
    second, third = ("%08x" % number for number in numbers[1:])
    for app in ("org.aa", "org.tv"):
        documents.grant_permissions(second, app, ["read", "write", "grant-permissions", "delete"])
    documents.revoke_permissions(second, "org.ed", ["read", "write"])
    documents.delete(third)
    store.set("devices", "mic", {"org.tv": ["ask"], "org.aa": ["no"], "org.ed": ["yes"]}, EIGHT)
    store.set("devices", "camera", {"org.tv": ["ask", "no"]}, SEVEN)
    store.delete("background", "background")
    store.set("background", "other", {"org.ed": ["yes"]}, SEVEN)


def changed_tables(numbers):
    """Behind those changes: a row that stays, or is changed, keeps its place."""
    first, second, _ = numbers
    return {
        "version": [(2,)],
        "document": [(1, first, b"/b\xc3\xbc.txt", 1, 0), (2, second, b"/a.txt", 1, 0)],
        "document_grant": [(4, 2, "org.aa", ALL_RIGHTS), (2, 2, "org.tv", ALL_RIGHTS)],
        "entry": [(1, "devices", "mic", SPELLED_EIGHT), (2, "devices", "camera", SPELLED_SEVEN),
                  (3, "background", "other", SPELLED_SEVEN)],
        "permission": [(4, 1, "org.aa", "no\n"), (1, 1, "org.ed", "yes\n"), (5, 1, "org.tv", "ask\n"),
                       (3, 2, "org.tv", "ask\nno\n"), (6, 3, "org.ed", "yes\n")],
    }


def records(service):
    """What the service answers of its records."""
    with service.bus() as bus:
        documents, store = bus.documents, bus.permissions
        listed = documents.list()
        entries = {table: [(entry, store.lookup(table, entry)) for entry in store.list(table)]
                   for table in ("background", "devices")}
        return [(document, documents.info(document)) for document in listed], entries


def failed_addition(service):
    """Two documents are added in one call, of which the second breaks a rule of the store."""
    with service.bus() as bus:
        try:
            return bus.documents.add_full([OTHER, SECOND], KEPT)
        except DBusError as error:
            return error.name.rsplit(".", 1)[-1]


def see_changes(see, service):
    """The tables of a new store, and after changes: what the service then answers."""
    see("tables of a new store", tables(service.store),
        {table: [(2,)] if table == "version" else [] for table in TABLES})
    with service.bus() as bus:
        documents, store = bus.documents, bus.permissions
        numbers = make_first(documents, store)
        see("tables after the first changes", tables(service.store), first_tables(numbers))
        change_each(documents, store, numbers)
    held = tables(service.store)
    see("tables after a change of each kind", held, changed_tables(numbers))
    return records(service), held


def see_changes_by_hand(see, service, answers, held):
    """A store whose log was taken into its file; one that has a rule more, by which the second
    change of a call fails; one with a path that is no text; and one with rights that are none."""
    changed(service.store, "PRAGMA wal_checkpoint(TRUNCATE)")
    see("log that was taken into the store", os.path.exists(service.store + "-wal"), False)
    changed(service.store, "CREATE UNIQUE INDEX one_path ON document (path)")
    service.start()
    try:
        see("records of a store without a log", records(service), answers)
        see("an addition of which a part fails", failed_addition(service), "Failed")
        see("records behind it", records(service), answers)
    finally:
        service.kill()
    see("tables behind it", tables(service.store), held)
    changed(service.store, "UPDATE document SET path = x'2f61ff' WHERE place = 2")
    see("a path that is no text", run(*service.words)[::2], (4, BAD_RECORD))
    changed(service.store, "UPDATE document_grant SET rights = 300")
    see("rights that are none", run(*service.words)[::2], (3, NO_RECORD))


def check_store(see, folder):
    """Sees that a store keeps what it should."""
    if sqlite3 is None:
        return
    service = Service(folder, [])
    for name in (FIRST, SECOND, THIRD, OTHER):
        with open(service.root + name, "wb") as file:
            file.write(b"hello\n")
    service.start()
    try:
        answers, held = see_changes(see, service)
        service.kill()
        service.start()
        see("records of a store with its log", records(service), answers)
        see("tables of a store with its log", tables(service.store), held)
    finally:
        service.kill()
    see_changes_by_hand(see, service, answers, held)
    see_mode_of_a_new_store(see, service)
    check_version_1(see, folder, tables)
    check_others(see, folder, service.words)
    check_paths(see, folder, service.words)


def see_mode_of_a_new_store(see, service):
    """A new store and its log are its owner's alone."""
    for end in ("", "-wal"):
        if os.path.exists(service.store + end):
            os.remove(service.store + end)
    service.start()
    modes = [stat.S_IMODE(os.stat(service.store + end).st_mode) for end in ("", "-wal")]
    service.kill()
    see("modes of a new store and its log", modes, [0o600, 0o600])
