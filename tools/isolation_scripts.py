"""Scripts for tools/isolation-check: what one application does in two services, what is done there
alike for it, and what others do beside it in the one and in the other.

A line of a script is

    GROUP SIDE VERB WORDS..         or GROUP<NEEDED where it may stand behind group NEEDED alone

SIDE is the service, `a`, `b`, or `ab` for both. A link is WHO.KIND.NAME: `host.bus.1`,
`org.ed.mount.2`; one of the name `once` is there for one line alone.

    start APPS WORKERS      starts the service, or starts it again with what it kept
    ask LINK BYTES          sends them and waits for the answers. Of OWN's links these are compared
    send LINK BYTES         sends them, and goes on while they are under way
    gives LINK BYTES        as ask; the documents that it tells are OWN's
    close LINK
    disk WHAT PATH WORDS..  changes the files below the root, beside the service: `save` by rename,
                            with a moment; `patch` or `cut` in place; `remove`; or make a `folder`,
                            a `pipe` or a symbolic `link`

A document's number is drawn by the service. So in its place stand 5eGGGGGN, of OWN's documents, and
0dGGGGGN, of all others: the N-th one that group G tells of, in hexadecimal digits. Where OWN names
one of the latter it is the number that `a` drew, in both: there it is another's document, and in
`b` it is none.
"""

import importlib.machinery
import importlib.util
import os
import struct
from typing import NamedTuple

from service import TOP
from fuzz_rules import Connection
from docportal_client import (
    DOCUMENTS, DOCUMENTS_PATH, Documents, FILES, FILES_PATH, Mount, Opcode, PermissionStore, RIGHTS,
    ROOT, STORE, STORE_PATH, Variant, write_call)

OWN, OTHER = "org.ed", "org.view"
HELLO = b"\0AUTH EXTERNAL 30\r\nBEGIN\r\n"
FOLDER, FILE, NAMED = 1 << 32, 2 << 32, 4 << 32
# What OWN has in its own folder. The first is the one that tools/fuzz_items.py draws.
OWN_FILES = ["/app/org.ed/n.txt", "/app/org.ed/m.txt", "/app/org.ed/deep/k.txt",
             "/app/org.ed/none.txt"]
# What is alike in both, and given to OWN. The first two are held from the start to the end.
STEADY = ["/home/h0/a.txt", "/home/h1/b.txt"]
GIVEN = ["/home/h2/n.txt", "/home/h3/none.txt", "/app/org.view/given.txt", OWN_FILES[0]]
# What is exported to OWN. The first is held from the start to the end, or to a restart; the last is
# in its own folder. What lies below is alike in both.
FOLDERS = ["/home/f", "/app/org.view/g", "/app/org.ed/deep"]
BELOW = ["a.txt", "sub/b.txt", "sub/deep/c.txt"]
# What is looked up there.
NAMES = [*BELOW, "sub", "sub/deep", "b.txt", "deep", "c.txt", "k.txt", "new.txt", "sub/new.txt",
         "none.txt", "odd", "..", "."]
# OWN never may read these, so they are others in each.
BLIND, BLIND_FOLDER = "/blind/x.txt", "/blindly"
FOREIGN = ["/othr/a.txt", "/othr/b.txt", "/app/org.view/n.txt", "/app/org.ex/n.txt"]
LEAKS = ("right", "taken", "gone", "bytes", "moment", "made", "below", "name")


def load_fuzz():
    path = os.path.join(TOP, "tools", "fuzz")
    loader = importlib.machinery.SourceFileLoader("docportal_fuzz", path)
    module = importlib.util.module_from_spec(importlib.util.spec_from_loader(loader.name, loader))
    loader.exec_module(module)
    return module


fuzz = load_fuzz()


class Line(NamedTuple):
    group: int
    needed: int
    side: str
    verb: str
    words: tuple

    def __str__(self):
        group = "%d<%d" % (self.group, self.needed) if self.needed else str(self.group)
        return " ".join((group, self.side, self.verb, *self.words))


def read_line(text):
    group, side, verb, *words = text.split()
    group, _, needed = group.partition("<")
    return Line(int(group), int(needed or 0), side, verb, tuple(words))


def own_token(group, place):
    return 0x5e000000 | group << 4 | place


def side_token(group, place):
    return 0x0d000000 | group << 4 | place


def text_of(token):
    return "%08x" % token


class Talk:
    """A bus that keeps the calls which are made on it, and answers them by no matter what."""

    def __init__(self, maker):
        self.maker, self.sent, self.places = maker, [], 0
        self.documents, self.permissions = Documents(self), PermissionStore(self)

    def call(self, path, interface, member, signature="", values=(), fds=0):
        self.maker.serial += 1
        self.sent.append(
            write_call(self.maker.serial, path, interface, member, signature, values, fds))
        self.places += member == "Present"
        return [self.places - 1, 0]


class MountTalk(Mount):
    """The same of a mount: its handles are 1, 2 and so on, as if each request were done."""

    def __init__(self, maker):
        self.maker, self.sent, self.opens = maker, [], 0

    def ask(self, opcode, node, body=b""):
        self.opens += opcode in (Opcode.OPEN, Opcode.OPENDIR, Opcode.CREATE)
        self.sent.append(self.maker.framed(opcode, node, body))
        return b"" if opcode == Opcode.READDIR else struct.pack("<Q", self.opens) * 40


class Held(NamedTuple):
    """A document that is given to OWN, by the lines of a group."""

    group: int
    token: int
    path: str
    flags: int
    rights: list

    def name(self):
        return self.path.rpartition("/")[2]


class Lines:
    """The lines so far, and what they come to."""

    def __init__(self, maker):
        self.maker, self.streams = maker, fuzz.Streams(maker)
        self.lines, self.group, self.needed = [], 0, 0
        # Of each link the state of the connection, by its side.
        self.states = {}
        # The applications beside OWN and OTHER, by the side.
        self.strangers = {side: ["org.s%d%s" % (number, side)
                                 for number in range(maker.one((0, 1, 3)))] for side in "ab"}
        # What OWN was given; the folder that it holds to the end; the numbers that its additions may
        # come to; those of others.
        self.steady, self.given, self.folders = [], [], []
        self.own = []
        # What it was given and has no right in any more, with the group by which it lost them.
        self.lost = {}
        self.others = {"a": [], "b": []}

    def begin(self, needed=0):
        self.group, self.needed = self.group + 1, needed
        return self.group

    def line(self, side, verb, *words):
        self.lines.append(Line(self.group, self.needed, side, verb, words))

    # ---- draws

    def some(self, of, least=0):
        """Some of them, in their order."""
        found = [one for one in of if self.maker.odds(0.5)]
        return found if len(found) >= least else [self.maker.one(of)]

    def content(self):
        count = self.maker.one((0, 1, 5, 40, 700))
        return self.maker.chance.getrandbits(8 * count + 1).to_bytes(count + 1, "little")[:count]

    def moment(self):
        return str(self.maker.chance.randrange(1, 1_600_000_000))

    def other(self, side):
        return self.maker.one([OTHER, OTHER, *self.strangers[side]])

    def tokens(self):
        """All documents that OWN has heard of."""
        return [held.token for held in self.steady + self.given + self.folders] + self.own + [
            *self.lost]

    def loose(self):
        """Those whose rights and life may change."""
        return [held.token for held in self.given] + self.own

    def readable(self):
        return [held.token for held in self.steady + self.given if "read" in held.rights]

    def hidden(self):
        """Those that OWN may not know of: its lost ones, and others' in `a`."""
        return [*self.lost, *self.others["a"][-4:]]

    # ---- what is sent

    def once(self, side, who, talk, verb="ask"):
        """A talk on a connection of its own."""
        kind, data = ("mount", b"") if isinstance(talk, MountTalk) else ("bus", HELLO)
        self.line(side, verb, "%s.%s.once" % (who, kind), (data + b"".join(talk.sent)).hex())

    def by_bus(self, side, who, member, *arguments, verb="ask"):
        """One method of Documents, on a connection of its own."""
        talk = Talk(self.maker)
        getattr(talk.documents, member)(*arguments)
        self.once(side, who, talk, verb)

    def say(self, side, verb, link, data):
        self.states[side, link].feed(data)
        self.line(side, verb, link, data.hex())

    def close(self, side, link):
        if self.states.pop((side, link), None):
            self.line(side, "close", link)

    def is_over(self, side, link):
        state = self.states.get((side, link))
        return state is None or state.end is not None or len(state.rest) > 0

    def new_state(self, side, link):
        who, kind, _ = link.rsplit(".", 2)
        self.states[side, link] = Connection(kind, who == "host")
        return kind

    def tell(self, side, verb, link, talk):
        """What a talk sends, piece by piece, on a link that is ready for it."""
        if self.is_over(side, link) or self.states[side, link].state not in ("messages", "frames"):
            self.close(side, link)
            if self.new_state(side, link) == "bus":
                self.say(side, verb, link, HELLO)
        for data in talk.sent:
            self.say(side, verb, link, data)

    def drawn(self, side, verb, link, tokens, change=lambda data: data):
        """An item of tools/fuzz_items.py, hostile now and then, of documents among these."""
        if self.is_over(side, link):
            first = self.streams.begin(self.new_state(side, link))
            if first:
                self.say(side, verb, link, first)
            if self.is_over(side, link):
                return b""
        data = self.maker.item(self.states[side, link].state, self.maker.odds(0.15))
        three = [text_of(self.maker.one(tokens or [0])) for _ in range(3)]
        data = change(fuzz.with_documents([data], three)[0])
        self.say(side, verb, link, data)
        return data


class Own:
    """What OWN does, alike in both."""

    def __init__(self, lines):
        self.lines, self.maker = lines, lines.maker

    def item(self):
        group, link = self.lines.begin(), "%s.%s" % (
            OWN, self.maker.one(("bus.1", "bus.2", "mount.1", "mount.2")))
        tokens = self.lines.loose() + self.lines.hidden()
        if "mount" in link:
            tokens += 3 * self.lines.readable() + [held.token for held in self.lines.folders]
        data = self.lines.drawn("ab", "ask", link, tokens)
        if b"\0Add" in data:
            self.lines.own.append(own_token(group, 0))

    def talk(self, talk, number=1):
        kind = "mount" if isinstance(talk, MountTalk) else "bus"
        self.lines.tell("ab", "ask", "%s.%s.%d" % (OWN, kind, number), talk)

    def anew(self, talk):
        """On a connection that begins and ends with it."""
        self.talk(talk, 3)
        for kind in ("bus", "mount"):
            self.lines.close("ab", "%s.%s.3" % (OWN, kind))

    def addition(self):
        """One that is in order, mostly."""
        group, talk = self.lines.begin(), Talk(self.maker)
        flags = self.maker.one((0, 1, 2, 3, 4, 16, 17, 32))
        rights = self.lines.some(RIGHTS) if self.maker.odds(0.5) else []
        app = self.maker.one(("", "", OTHER, OWN, "../x"))
        paths = [self.maker.one(OWN_FILES) for _ in range(self.maker.one((1, 1, 2, 3)))]
        which = self.maker.chance.randrange(5)
        folder, _, name = paths[0].rpartition("/")
        if which == 4:
            paths = [FOLDERS[2]]
            talk.documents.add_full(paths, self.maker.one((8, 8, 9, 24, 25, 10)), app, rights)
        elif which == 0:
            talk.documents.add(paths[0], flags & 1 > 0, flags & 2 > 0)
        elif which == 1:
            talk.documents.add_named(folder, name, flags & 1 > 0, flags & 2 > 0)
        elif which == 2:
            talk.documents.add_named_full(folder, name, flags, app, rights)
        else:
            talk.documents.add_full(paths, flags, app, rights)
        self.talk(talk)
        self.lines.own += [own_token(group, place) for place in range(len(paths))]

    def asks(self):
        """Calls about documents that it holds to the end or may not know of, and calls that are
        the host's alone."""
        self.lines.begin()
        talk, held = Talk(self.maker), self.maker.one(self.lines.steady)
        document, entry = text_of(held.token), self.maker.one(("camera", "none"))
        app = self.maker.one((OTHER, "org.nobody", *self.lines.strangers["a"]))
        path = self.maker.one((held.path, BLIND, *FOREIGN)).encode() + b"\0"
        if self.lines.hidden() and self.maker.odds(0.5):
            document = text_of(self.maker.one(self.lines.hidden()))
        self.maker.one((
            lambda: talk.documents.grant_permissions(document, app, self.lines.some(RIGHTS)),
            lambda: talk.documents.revoke_permissions(document, app, self.lines.some(RIGHTS)),
            lambda: talk.documents.delete(document),
            lambda: talk.call(DOCUMENTS_PATH, DOCUMENTS, "Info", "s", [document]),
            lambda: talk.call(DOCUMENTS_PATH, DOCUMENTS, "List", "s", [self.maker.one((OWN, app))]),
            lambda: talk.call(DOCUMENTS_PATH, DOCUMENTS, "Lookup", "ay", [path]),
            lambda: talk.call(FILES_PATH, FILES, "Present", "ay", [path]),
            lambda: talk.permissions.set_permission("devices", entry, OWN, ["yes"]),
            lambda: talk.permissions.lookup("devices", entry),
            lambda: talk.call(STORE_PATH, STORE, "List", "s", ["devices"])))()
        self.talk(talk)

    def session(self):
        """A file of a document, from its name to the release of its handle."""
        self.lines.begin()
        talk, token = MountTalk(self.maker), self.maker.one(
            5 * self.lines.readable() + self.lines.tokens() + self.lines.hidden())
        held = [held for held in self.lines.steady + self.lines.given if held.token == token]
        name = held[0].name() if held else self.maker.one(("n.txt", "m.txt", "k.txt"))
        folder, node = FOLDER | token, FILE | token
        talk.lookup(ROOT, text_of(token))
        talk.readdir(folder)
        if self.maker.odds(0.3):
            talk.create(folder, name, 2)
        else:
            talk.lookup(folder, name)
            talk.open_node(node, self.maker.one((0, 1, 2, 2, os.O_TRUNC | 2)))
        handle = talk.opens
        for _ in range(self.maker.one((1, 3, 6))):
            self.maker.one((
                lambda: talk.read(node, handle, self.maker.one((0, 0, 3, 100)), 4096),
                lambda: talk.write(node, handle, self.maker.one((0, 4, 900)), self.lines.content()),
                lambda: talk.truncate(node, handle, self.maker.one((0, 3, 2000))),
                lambda: talk.fsync(node, handle),
                lambda: talk.getattr(node, self.maker.one((handle, None)))))()
        if self.maker.odds(0.5):
            talk.release(node, handle)
        self.lines.close("ab", OWN + ".mount.1")
        self.talk(talk)

    def below(self):
        """What lies below a folder: it is named, listed, read, written and made."""
        self.lines.begin()
        talk, folders = MountTalk(self.maker), [held.token for held in self.lines.given
                                                if held.flags & 8]
        token = self.maker.one([held.token for held in self.lines.folders] * 2 + folders
                               + self.lines.own + self.lines.hidden() + [0])
        self.lines.close("ab", OWN + ".mount.1")
        talk.lookup(ROOT, text_of(token))
        talk.readdir(FOLDER | token)
        for _ in range(self.maker.one((3, 6, 12))):
            self.below_once(talk, token)
        self.talk(talk)

    def below_once(self, talk, token):
        node = self.maker.one((FILE | token, NAMED | 1, NAMED | 2, NAMED | 3, NAMED | 9))
        name = self.maker.one(NAMES)

        def opens():
            handle = talk.open_node(node, self.maker.one((0, 0, 2, os.O_TRUNC | 2)))
            talk.read(node, handle, 0, 4096)
            talk.write(node, handle, 3, self.lines.content())
            talk.getattr(node, handle)

        self.maker.one((
            lambda: talk.lookup(node, name), lambda: talk.lookup(FILE | token, name), opens,
            lambda: talk.readdir(node), lambda: talk.getattr(node),
            lambda: talk.create(node, name, 2)))()

    def peeks(self):
        """It looks for the views of others, which are the host's alone."""
        self.lines.begin()
        talk, view = MountTalk(self.maker), self.maker.one((1, 2, 3, 4)) << 36
        tokens = self.lines.hidden() + self.lines.readable()
        for node in (2, view | 1, view | NAMED | 1,
                     *(view | FOLDER | token for token in tokens[:3])):
            talk.getattr(node)
            talk.readdir(node)
        talk.lookup(ROOT, "by-app")
        talk.lookup(view | 1, text_of(self.maker.one(tokens)))
        handle = talk.open_node(view | FILE | self.maker.one(tokens))
        talk.read(ROOT, handle, 0, 4096)
        self.anew(talk)

    def survey(self):
        """It looks at all that it may have, and reads it."""
        self.lines.begin()
        talk, every = MountTalk(self.maker), self.lines.steady + self.lines.given
        talk.init()
        talk.readdir(ROOT)
        for held in every:
            talk.lookup(ROOT, text_of(held.token))
            talk.readdir(FOLDER | held.token)
            talk.lookup(FOLDER | held.token, held.name())
            talk.getattr(FILE | held.token)
            talk.open_node(FILE | held.token)
        for token in self.lines.own[-4:] + self.lines.hidden():
            talk.lookup(ROOT, text_of(token))
            talk.getattr(FILE | token)
            talk.open_node(FILE | token)
        for handle in range(talk.opens):
            talk.read(ROOT, handle + 1, 0, 65536)
        self.anew(talk)
        for held in self.lines.folders + [held for held in self.lines.given if held.flags & 8]:
            self.survey_folder(FILE | held.token)
        calls = Talk(self.maker)
        for token in self.lines.tokens() + self.lines.others["a"][-4:]:
            calls.documents.grant_permissions(text_of(token), OTHER, [])
        self.anew(calls)

    def survey_folder(self, folder):
        """All that lies below a folder. Its numbers are those of a connection of its own."""
        talk = MountTalk(self.maker)
        talk.readdir(folder)
        for name in BELOW + ["sub", "sub/deep"]:
            talk.lookup(folder, name)
        for number in range(1, 1 + len(BELOW) + 2):
            talk.getattr(NAMED | number)
            talk.readdir(NAMED | number)
            talk.open_node(NAMED | number)
        for handle in range(talk.opens):
            talk.read(ROOT, handle + 1, 0, 65536)
        self.anew(talk)

    def ends(self):
        """One of its connections ends."""
        self.lines.begin()
        self.lines.close("ab", "%s.%s" % (OWN, self.maker.one(("bus.1", "bus.2", "mount.1",
                                                               "mount.2"))))

    def files(self):
        """Its own folder changes, beside the service."""
        self.lines.begin()
        path, moment = self.maker.one(OWN_FILES), self.lines.moment()
        self.lines.line("ab", "disk", *self.maker.one((
            ("save", path, self.lines.content().hex() or "-", moment),
            ("save", path, self.lines.content().hex() or "-", moment),
            ("patch", path, "2", self.lines.content().hex() or "-"),
            ("remove", path), ("folder", path), ("pipe", path), ("link", path, STEADY[0]))))


class Alike:
    """What others do that the trace of OWN tells, or that its looks show: the same in both, by
    whomever, in the one and in the other."""

    def __init__(self, lines):
        self.lines, self.maker = lines, lines.maker

    def each(self, *ways):
        """One of the ways for each side."""
        for side in "ab":
            self.maker.one(ways)(side)

    def adds(self, side, who, path, flags, app, rights):
        folder, _, name = path.rpartition("/")
        member, words = "add_named_full", [folder, name]
        if flags & 8:
            member, words = "add_full", [[path]]
        self.lines.by_bus(side, who, member, *words, flags, app, rights, verb="gives")

    def give(self, path, flags, rights):
        """A new document, in which OWN gets these rights."""
        group = self.lines.begin()
        token = own_token(group, 0)

        def adds_for(side):
            self.adds(side, "host", path, flags, OWN, rights)

        def adds_and_grants(side):
            self.adds(side, "host", path, flags, "", [])
            self.lines.by_bus(side, "host", "grant_permissions", text_of(token), OWN, rights)

        def by_another(side):
            other = self.lines.other(side)
            self.adds(side, "host", path, flags, other, [*rights, "grant-permissions"])
            self.lines.by_bus(side, other, "grant_permissions", text_of(token), OWN, rights)

        def by_owner(side):
            self.adds(side, OTHER, path, flags, "", [])
            self.lines.by_bus(side, OTHER, "grant_permissions", text_of(token), OWN, rights)

        owns = path.startswith("/app/%s/" % OTHER) and ("delete" not in rights or not flags & 1)
        self.each(adds_for, adds_and_grants, by_another, *([by_owner] if owns else []))
        return Held(group, token, path, flags, rights)

    def call(self, needed, member, *arguments):
        """A call of the host, or of another application that was given the rights for it."""
        self.lines.begin()

        def by_host(side):
            self.lines.by_bus(side, "host", member, *arguments)

        def by_another(side):
            other = self.lines.other(side)
            self.lines.by_bus(side, "host", "grant_permissions", arguments[0], other, needed)
            self.lines.by_bus(side, other, member, *arguments)

        self.each(by_host, by_another)

    def rights(self):
        """OWN gains rights, or loses them, or the document goes."""
        token = self.maker.one(self.lines.loose())
        blind = [held for held in self.lines.given
                 if held.token == token and held.path in (BLIND, BLIND_FOLDER)]
        rights = self.lines.some(RIGHTS[1:] if blind else RIGHTS, 1)
        which = self.maker.chance.randrange(5)
        if which < 2:
            self.call([*rights, "grant-permissions"], "grant_permissions", text_of(token), OWN,
                      rights)
        elif which < 4:
            self.call(["grant-permissions"], "revoke_permissions", text_of(token), OWN, rights)
        else:
            self.call(["delete"], "delete", text_of(token))

    def loses(self):
        """OWN loses all rights in a document. What becomes of it then is no matter to OWN: it can't
        be used again, nor be added by OWN."""
        found = [held for held in self.lines.given
                 if not held.flags & 1 and not held.path.startswith("/app/%s/" % OWN)]
        if found:
            held = self.maker.one(found)
            self.call(["grant-permissions"], "revoke_permissions", text_of(held.token), OWN,
                      list(RIGHTS))
            self.lines.given = [each for each in self.lines.given if each.token != held.token]
            self.lines.lost[held.token] = self.lines.group

    def writes(self):
        """The file of a document that OWN holds is written or cut where it stands."""
        held, content = self.maker.one(self.lines.steady), self.lines.content()
        self.lines.begin(held.group)
        offset, cuts = self.maker.one((0, 3, 1000)), self.maker.odds(0.3)
        node, talk = FILE | held.token, MountTalk(self.maker)
        handle = talk.open_node(node, 1)
        if cuts:
            talk.truncate(node, handle, offset)
        else:
            talk.write(node, handle, offset, content)
        talk.release(node, handle)

        def by_another(side):
            other = self.lines.other(side)
            self.lines.by_bus(side, "host", "grant_permissions", text_of(held.token), other,
                              ["read", "write"])
            self.lines.once(side, other, talk)

        def beside(side):
            change = ("cut", held.path, str(offset)) if cuts else (
                "patch", held.path, str(offset), content.hex() or "-")
            self.lines.line(side, "disk", *change)

        self.each(lambda side: self.lines.once(side, "host", talk), by_another, beside)

    def writes_below(self):
        """A file below the folder that OWN holds is written or cut where it stands, or made."""
        if not self.lines.folders:
            return
        held, content = self.lines.folders[0], self.lines.content()
        self.lines.begin(held.group)
        name, offset = self.maker.one(BELOW), self.maker.one((0, 3, 1000))
        which, talk = self.maker.chance.randrange(3), MountTalk(self.maker)
        if which == 2:
            name = self.maker.one(("new.txt", "sub/new.txt", "sub/deep/new.txt"))
            handle = talk.create(FILE | held.token, name)[1]
        else:
            talk.lookup(FILE | held.token, name)
            handle = talk.open_node(NAMED | 1, 1)
        if which == 1:
            talk.truncate(NAMED | 1, handle, offset)
        else:
            talk.write(NAMED | 1, handle, offset, content)
        talk.release(NAMED | 1, handle)

        def by_another(side):
            other = self.lines.other(side)
            self.lines.by_bus(side, "host", "grant_permissions", text_of(held.token), other,
                              ["read", "write"])
            self.lines.once(side, other, talk)

        def beside(side):
            change = ("cut", held.path + "/" + name, str(offset)) if which == 1 else (
                "patch", held.path + "/" + name, str(offset), content.hex() or "-")
            self.lines.line(side, "disk", *change)

        ways = [lambda side: self.lines.once(side, "host", talk), by_another]
        self.each(*ways, *([beside] if which < 2 else []))

    def changes_below(self):
        """What lies below an exported folder changes, beside the service."""
        self.lines.begin()
        path = self.maker.one(FOLDERS) + "/" + self.maker.one(
            BELOW + ["new.txt", "sub/new.txt", "odd", "odd", "sub/odd"])
        content = self.lines.content().hex() or "-"
        self.lines.line("ab", "disk", *self.maker.one((
            ("save", path, content, self.lines.moment()), ("remove", path), ("folder", path),
            ("pipe", path), ("link", path, STEADY[0]))))

    def makes(self):
        """A document's file is made, where it isn't there."""
        self.lines.begin()
        held = self.maker.one(self.lines.given)
        talk = MountTalk(self.maker)
        talk.create(FOLDER | held.token, held.name())

        def by_another(side):
            other = self.lines.other(side)
            self.lines.by_bus(side, "host", "grant_permissions", text_of(held.token), other,
                              ["read", "write"])
            self.lines.once(side, other, talk)

        self.each(lambda side: self.lines.once(side, "host", talk), by_another)

    def saves(self):
        """An editor of the host saves by rename, or a file goes."""
        self.lines.begin()
        path = self.maker.one(STEADY + GIVEN[:3])
        change = ("save", path, self.lines.content().hex() or "-", self.lines.moment())
        if path not in STEADY and self.maker.odds(0.3):
            change = ("remove", path)
        self.lines.line("ab", "disk", *change)

    def gift(self):
        """One more document."""
        path, flags = self.maker.one(GIVEN), self.maker.one((0, 1, 2, 3, 16, 17))
        if self.maker.odds(0.3):
            path, flags = self.maker.one(FOLDERS), self.maker.one((8, 9, 24, 25))
        self.lines.given.append(self.give(path, flags, self.lines.some(RIGHTS, 1)))


def shifted(data):
    """The bytes of an item, with another application and other files in the place of OWN's."""
    return data.replace(b"org.ed", b"org.ex").replace(b"/home", b"/othr")


class Beside:
    """What others do in one service alone. Nothing of it is in the trace of OWN, nor do its looks
    show it."""

    def __init__(self, lines, side):
        self.lines, self.maker, self.side = lines, lines.maker, side

    def anything(self):
        self.lines.begin()
        self.maker.one((
            self.item, self.item, self.item, self.addition, self.rights_of_others,
            self.rights_as_they_are, self.lost_goes, self.same_file, self.reads, self.names,
            self.entries, self.files, self.ends))()

    def who(self):
        return self.maker.one(("host", "host", self.lines.other(self.side)))

    def link(self, kind):
        return "%s.%s.1" % (self.who(), kind)

    def tell(self, link, talk):
        self.lines.tell(self.side, "send", link, talk)

    def item(self):
        data = self.lines.drawn(self.side, "send", self.link(self.maker.one(("bus", "mount"))),
                                self.lines.others[self.side], shifted)
        if b"\0Add" in data:
            self.lines.others[self.side].append(side_token(self.lines.group, 0))

    def addition(self):
        """Another document, of another file."""
        talk, rights = Talk(self.maker), self.lines.some(RIGHTS, 1)
        talk.documents.add_full([self.maker.one(FOREIGN)], self.maker.one((0, 1, 2, 3, 16, 17)),
                                self.lines.other(self.side), rights)
        self.tell("host.bus.2", talk)
        self.lines.others[self.side].append(side_token(self.lines.group, 0))

    def rights_of_others(self):
        """In any document, also in OWN's."""
        talk = Talk(self.maker)
        token = self.maker.one(self.lines.tokens() + self.lines.others[self.side])
        call = self.maker.one((talk.documents.grant_permissions, talk.documents.revoke_permissions))
        call(text_of(token), self.maker.one((self.lines.other(self.side), "org.nobody")),
             self.lines.some(RIGHTS))
        self.tell("host.bus.2", talk)

    def lost_goes(self):
        """A document in which OWN has no right any more is deleted."""
        if self.lines.lost:
            token = self.maker.one([*self.lines.lost])
            self.lines.begin(self.lines.lost[token])
            talk = Talk(self.maker)
            talk.documents.delete(text_of(token))
            self.tell("host.bus.2", talk)

    def rights_as_they_are(self):
        """OWN is given what it has, or loses what it hasn't."""
        talk, held = Talk(self.maker), self.maker.one(self.lines.steady)
        self.lines.begin(held.group)
        document, rest = text_of(held.token), [name for name in RIGHTS if name not in held.rights]
        if held.flags & 1 and self.maker.odds(0.3):
            # On a connection of its own, so that no other file waits there.
            talk.documents.add_full([held.path], held.flags, OWN, self.lines.some(held.rights))
            self.lines.once(self.side, "host", talk)
        elif self.maker.odds(0.5):
            talk.documents.grant_permissions(document, OWN, self.lines.some(held.rights))
            self.tell("host.bus.2", talk)
        else:
            talk.documents.revoke_permissions(document, OWN, self.lines.some(rest))
            self.tell("host.bus.2", talk)

    def same_file(self):
        """A document of a file of OWN's, which can't be used again. Nobody writes by it."""
        talk = Talk(self.maker)
        path = self.maker.one(STEADY + GIVEN + OWN_FILES + [BLIND])
        talk.documents.add_full([path], self.maker.one((0, 2, 16)), self.lines.other(self.side),
                                ["read", "grant-permissions", "delete"])
        talk.documents.add_full([self.maker.one(FOLDERS)], self.maker.one((8, 24)),
                                self.lines.other(self.side), ["read", "grant-permissions"])
        self.tell("host.bus.2", talk)

    def reads(self):
        """Another reads a file of OWN's."""
        talk, calls = MountTalk(self.maker), Talk(self.maker)
        token, who = self.maker.one(self.lines.tokens()), self.who()
        if who != "host":
            calls.documents.grant_permissions(text_of(token), who, ["read"])
            self.tell("host.bus.2", calls)
        talk.lookup(ROOT, text_of(token))
        talk.readdir(self.maker.one((ROOT, FOLDER | token)))
        talk.getattr(FILE | token)
        handle = talk.open_node(FILE | token)
        talk.read(ROOT, handle, 0, 65536)
        if self.maker.odds(0.7):
            talk.release(ROOT, handle)
        self.lines.close(self.side, who + ".mount.1")
        self.tell(who + ".mount.1", talk)

    def names(self):
        """Another names what lies below a folder of OWN's, and the host in other views too."""
        talk, calls = MountTalk(self.maker), Talk(self.maker)
        folders = self.lines.folders + [held for held in self.lines.given if held.flags & 8]
        if not folders:
            return
        held, who = self.maker.one(folders), self.who()
        self.lines.begin(held.group)
        if who != "host":
            calls.documents.grant_permissions(text_of(held.token), who, ["read"])
            self.tell("host.bus.2", calls)
        view = self.maker.one((0, 0, 1, 2)) << 36 if who == "host" else 0
        for name in self.lines.some(NAMES):
            talk.lookup(view | FILE | held.token, name)
        talk.readdir(view | FILE | held.token)
        handle = talk.open_node(view | NAMED | self.maker.one((1, 2)))
        talk.read(ROOT, handle, 0, 65536)
        self.lines.close(self.side, who + ".mount.1")
        self.tell(who + ".mount.1", talk)

    def entries(self):
        """Of the permission store, also of OWN."""
        talk = Talk(self.maker)
        table, entry = self.maker.one(("devices", "t", "")), self.maker.one(("camera", "i", "x"))
        app = self.maker.one((OWN, OTHER, ""))
        self.maker.one((
            lambda: talk.permissions.set_permission(table, entry, app, ["yes"]),
            lambda: talk.permissions.set(table, entry, {app: ["no"]}, Variant("s", app)),
            lambda: talk.permissions.delete_permission(table, entry, app),
            lambda: talk.permissions.delete(table, entry),
            lambda: talk.permissions.list(table)))()
        self.tell("host.bus.2", talk)

    def files(self):
        """Files that OWN doesn't look at, or may not read."""
        path = self.maker.one([*FOREIGN, BLIND, BLIND, BLIND_FOLDER + "/a.txt",
                               BLIND_FOLDER + "/sub/b.txt",
                               "/home/h0/other%d" % self.lines.group,
                               "/app/org.ed/unseen%d" % self.lines.group])
        content = self.lines.content().hex() or "-"
        self.lines.line(self.side, "disk", *self.maker.one((
            ("save", path, content, self.lines.moment()), ("patch", path, "0", content),
            ("remove", path), ("pipe", path), ("link", path, self.maker.one(STEADY)))))

    def ends(self):
        self.lines.close(self.side, self.link(self.maker.one(("bus", "mount"))))


# ---- a whole script

def opening(lines, alike, restarts):
    """Files, the start, and what OWN holds first."""
    lines.begin()
    for path in OWN_FILES[:3] + STEADY + [GIVEN[0], GIVEN[2]]:
        lines.line("ab", "disk", "save", path, lines.content().hex() or "-", lines.moment())
    for folder in FOLDERS:
        for name in BELOW:
            lines.line("ab", "disk", "save", folder + "/" + name, lines.content().hex() or "-",
                       lines.moment())
    lines.line("ab", "disk", "folder", "/home/h3")
    for side in "ab":
        lines.begin()
        for path in [*FOREIGN, BLIND, BLIND_FOLDER + "/a.txt"]:
            lines.line(side, "disk", "save", path, lines.content().hex() or "-", lines.moment())
        starts(lines, side)
    for path in STEADY:
        flags = lines.maker.one((2, 3) if restarts else (0, 1, 2, 3, 16, 17))
        rights = ["read", *lines.some(["write", "grant-permissions"])]
        lines.steady.append(alike.give(path, flags, rights))
    for path in GIVEN[:3]:
        alike_flags = lines.maker.one((0, 1, 2, 3, 16, 17))
        lines.given.append(alike.give(path, alike_flags, lines.some(RIGHTS, 1)))
    lines.given.append(alike.give(BLIND, lines.maker.one((0, 2, 16)), lines.some(RIGHTS[1:], 1)))
    rights = ["read", *lines.some(["write", "grant-permissions"])]
    lines.folders.append(alike.give(FOLDERS[0], lines.maker.one((8, 9, 24, 25)), rights))
    for path, of in ((FOLDERS[1], RIGHTS), (BLIND_FOLDER, RIGHTS[1:])):
        lines.given.append(alike.give(path, lines.maker.one((8, 24)), lines.some(of, 1)))


def starts(lines, side):
    apps = [OWN, OTHER, *lines.strangers[side]]
    lines.maker.chance.shuffle(apps)
    lines.line(side, "start", ",".join(apps), lines.maker.one(("3", "4", "8")))


def restart(lines):
    lines.begin()
    lines.states.clear()
    for side in "ab":
        starts(lines, side)
    # No folder is kept.
    gone = lines.folders + [held for held in lines.given if held.flags & 8]
    lines.lost.update((held.token, lines.group) for held in gone)
    lines.folders, lines.given = [], [held for held in lines.given if not held.flags & 8]


def leak(lines, which):
    """In one of the two something comes to OWN that doesn't in the other."""
    side = lines.maker.one("ab")
    held = lines.steady[0]
    lines.begin()
    if which == "right":
        lines.by_bus("ab", "host", "add_named", "/othr", "a.txt", False)
        token = text_of(side_token(lines.group, 0))
        lines.by_bus(side, "host", "grant_permissions", token, OWN, ["read"])
    elif which == "taken":
        lines.by_bus(side, "host", "revoke_permissions", text_of(held.token), OWN, ["read"])
    elif which == "gone":
        lines.by_bus(side, "host", "delete", text_of(held.token))
    elif which == "bytes":
        for each in "ab":
            content = b"other bytes" if each == side else b"these bytes"
            lines.line(each, "disk", "save", held.path, content.hex(), "1000")
    elif which in ("below", "name"):
        lines.folders.append(Alike(lines).give(FOLDERS[0], 8, ["read"]))
        lines.begin()
        path = FOLDERS[0] + ("/a.txt" if which == "below" else "/zone.txt")
        for each in "ab" if which == "below" else side:
            content = b"other bytes" if each == side else b"these"
            lines.line(each, "disk", "save", path, content.hex(), "1000")
    elif which == "moment":
        for each in "ab":
            moment = "1001" if each == side else "1000"
            lines.line(each, "disk", "save", held.path, "00", moment)
    else:
        lines.line("ab", "disk", "remove", GIVEN[1])
        lines.line("ab", "disk", "folder", "/home/h3")
        lines.given.append(Alike(lines).give(GIVEN[1], 0, ["read"]))
        lines.begin()
        lines.line(side, "disk", "save", GIVEN[1], "00", "1000")


def draw(maker, steps, leaking=None):
    """A script of so many steps of OWN, and others beside them."""
    lines = Lines(maker)
    own, alike = Own(lines), Alike(lines)
    beside = {side: Beside(lines, side) for side in "ab"}
    again = maker.chance.randrange(steps // 4, steps) if maker.odds(0.2) else None
    opening(lines, alike, again is not None)
    ways = [way for way, odds in (
        (own.item, 40), (own.addition, 8), (own.asks, 8), (own.session, 10), (own.survey, 3),
        (own.below, 12), (alike.writes_below, 4), (alike.changes_below, 4),
        (own.peeks, 3), (own.ends, 3), (own.files, 6), (alike.rights, 8), (alike.loses, 2),
        (alike.writes, 4), (alike.makes, 3), (alike.saves, 4), (alike.gift, 2))
            for _ in range(odds)]
    for step in range(steps):
        for side in "ab":
            for _ in range(maker.one((0, 0, 1, 2, 4))):
                beside[side].anything()
        if step == again:
            restart(lines)
        maker.one(ways)()
    if leaking:
        leak(lines, leaking)
    own.survey()
    return lines.lines
