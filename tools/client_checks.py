"""What a person sees who types commands of docportal-client, for serve-check."""

import errno
import importlib.machinery
import importlib.util
import json
import os
import re
import signal
import subprocess
import sys
import tempfile
import time

from service import TOP, Service
from docportal_client import (
    ConnectionClosed, DBusError, DOCUMENTS, DOCUMENTS_PATH, FILES, FILES_PATH, Failed,
    MESSAGE_LIMIT, ServiceError, Variant, WRITE_LIMIT, path_bytes)

COMMAND = os.path.join(TOP, "contrib", "clients", "docportal-client")


def load_command():
    loader = importlib.machinery.SourceFileLoader("docportal_command", COMMAND)
    module = importlib.util.module_from_spec(importlib.util.spec_from_loader(loader.name, loader))
    loader.exec_module(module)
    return module


MODULE = load_command()


class Person:
    """One who types commands, with the service's places in the environment."""

    def __init__(self, service, folder, **environment):
        self.folder = folder
        self.environment = {"DOCPORTAL_SOCKETS": service.sockets, "DOCPORTAL_ROOT": service.root,
                            "HOME": folder, "TZ": "UTC", "TMPDIR": folder, **environment}

    def begin(self, line, given):
        """Starts a command: its process, and where it writes.

        It is forked off this process, so that it takes milliseconds and no new interpreter.
        """
        out, said = os.pipe(), os.pipe()
        sys.stdout.flush()
        child = os.fork()
        if not child:
            status = 99
            try:
                # Whoever runs the checks in the background may have this one ignored.
                signal.signal(signal.SIGINT, signal.default_int_handler)
                os.dup2(given.fileno(), 0)
                os.dup2(out[1], 1)
                os.dup2(said[1], 2)
                os.closerange(3, 256)
                os.chdir(self.folder)
                os.environ.update(self.environment)
                tempfile.tempdir = None  # or what was found of another TMPDIR stays
                sys.stdin, sys.stdout, sys.stderr = (
                    open(number, mode) for number, mode in ((0, "r"), (1, "w"), (2, "w")))
                sys.argv = ["docportal-client", *(line.split() if isinstance(line, str) else line)]
                time.tzset()
                status = MODULE.main()
            except SystemExit as end:
                status = end.code
            finally:
                sys.stdout.flush()
                sys.stderr.flush()
                os._exit(status)
        os.close(out[1])
        os.close(said[1])
        return child, open(out[0], "rb"), open(said[0], "rb")

    def types(self, line, given=b""):
        """Runs a command: its status, and what it wrote on each stream."""
        with tempfile.TemporaryFile() as file:
            file.write(given)
            file.seek(0)
            child, out, said = self.begin(line, file)
        with out, said:
            told = out.read(), said.read().decode()
        return (os.WEXITSTATUS(os.waitpid(child, 0)[1]), *told)


def file_in(folder, name, content):
    path = os.path.join(folder, name)
    with open(path, "wb") as file:
        file.write(content)
    return path


class Checks:
    """The checks, by what is seen of one service."""

    def __init__(self, see, service, folder):
        self.see = see
        self.service = service
        self.folder = folder
        self.person = Person(service, folder)

    def types(self, line, out="", status=0, said="", given=b""):
        """Sees that a command prints this, and no more."""
        got = self.person.types(line, given)
        wanted = out.encode() if isinstance(out, str) else out
        self.see("docportal-client %s" % (line if isinstance(line, str) else " ".join(line)),
                 got, (status, wanted, said and "docportal-client: %s\n" % said))

    def document(self, line):
        """The document that a command prints."""
        status, out, said = self.person.types(line)
        self.see("docportal-client %s" % line, (status, len(out), said), (0, 9, ""))
        return out.decode().strip()

    def all(self):
        document = self.five_commands()
        self.documents(document)
        self.strict(document)
        self.files(document)
        self.exported()
        self.outputs(document)
        self.permissions()
        self.watch()
        self.refusals(document)
        self.wrong_words()
        self.wrong_names()
        self.sandbox()
        self.types("unexport " + document)

    def five_commands(self):
        """A file is exported, seen, read, revoked, and gone."""
        document = self.document("export files/tour.txt --app org.ed --read --write")
        self.types("--as org.ed ls", "DOCUMENT  NAME      ACCESS  SIZE\n"
                                     "%s  tour.txt  write   6\n" % document)
        self.types("--as org.ed cat " + document, "hello\n")
        self.types("revoke %s org.ed" % document)
        self.types("--as org.ed ls")
        return document

    def documents(self, document):
        file = os.path.join(self.service.root, "tour.txt")
        self.types("lookup files/tour.txt", document + "\n")
        self.types("grant %s org.ed write read" % document)
        self.types("grant files/tour.txt org.view read")
        self.types("revoke %s org.ed write" % document)
        self.types("info " + document, "document: %s\nfile:     %s\nrights:   org.ed: read\n"
                                       "          org.view: read\n" % (document, file))
        rights = {"org.ed": ["read"], "org.view": ["read"]}
        told = {"document": document, "path": "/tour.txt", "file": file, "rights": rights}
        self.types("info --json " + document, json.dumps(told) + "\n")
        width = len(file) + 2
        self.types("documents org.view", "DOCUMENT  %sRIGHTS\n%s  %s  org.ed=read org.view=read\n"
                   % ("FILE".ljust(width), document, file))
        self.types("documents org.view --short", document + "\n")
        self.types("--json documents org.view", json.dumps([told]) + "\n")
        other = self.document("export --unique --persistent files/tour.txt")
        self.see("a document of its own", other != document)
        self.types("unexport " + other)
        self.types("info " + other, status=1,
                   said="org.freedesktop.portal.Error.NotFound: there is no such document; "
                        "docportal-client documents lists them")
        new = self.document("export --noexist files/new.txt -a org.ed -w -r")
        self.types("--as org.ed ls " + new, "DOCUMENT  NAME       ACCESS  SIZE\n"
                                            "%s  (no file)\n" % new)
        self.types("put --name old.txt " + new, status=1,
                   said="EACCES: the document has another name; docportal-client info %s tells it"
                        % new)
        self.types("--as org.ed put --name new.txt " + new, given=b"made\n")
        self.types("cat " + new, "made\n")
        self.types("unexport files/new.txt")

    def strict(self, document):
        """What is revoked is taken from a file that is open, where its document is strict."""
        strict = self.document("export --strict --app org.ed files/tour.txt")
        self.see("a strict document of its own", strict != document)
        self.see("the same again", self.document("export --strict files/tour.txt"), strict)
        with self.service.mount("org.ed") as mount:
            for document, wanted in ((document, "hello"), (strict, "EACCES")):
                self.types("grant %s org.ed read" % document)
                with mount.open_file(document) as file:
                    self.types("revoke %s org.ed read" % document)
                    self.see("bytes of %s behind a revocation" % document, first_of(file), wanted)
                self.types("grant %s org.ed read" % document)
        self.types("unexport " + strict)

    def files(self, document):
        raw = bytes(range(256)) * 1200
        self.types("grant %s org.ed write" % document)
        self.types("--as org.ed put " + document, given=raw)
        self.types("--as org.view cat " + document, raw)
        with open(os.path.join(self.service.root, "tour.txt"), "rb") as file:
            self.see("bytes of the file", file.read(), raw)
        copy = file_in(self.folder, "copy", b"short\n")
        self.types(["put", document, copy])
        os.utime(os.path.join(self.service.root, "tour.txt"), (1e9, 1e9))
        self.types("--as org.view stat " + document,
                   "document: %s\nname:     tour.txt\nsize:     6\naccess:   read\n"
                   "changed:  2001-09-09 01:46:40\nnode:     %d\n"
                   % (document, (2 << 32) + int(document, 16)))
        self.types("ls --json " + document, json.dumps(
            [{"document": document, "name": "tour.txt", "folder": False, "writable": True,
              "size": 6, "mtime": 10 ** 9}]) + "\n")
        self.types("--as org.view put " + document, status=1,
                   said="EACCES: org.view may not write it; docportal-client grant %s org.view "
                        "write lets it" % document)
        self.edit(document)

    def exported(self):
        """A folder is exported, and what lies below it goes by its path."""
        os.makedirs(os.path.join(self.service.root, "pictures", "cats"))
        for name in ("a.txt", "cats/one.png"):
            path = file_in(self.service.root, "pictures/" + name, b"a file\n")
            os.utime(path, (1e9, 1e9))
        self.types("export files/pictures", status=1,
                   said="files/pictures is a folder; --folder exports it with all that lies below it")
        self.types("export --folder files/tour.txt", status=1, said="files/tour.txt isn't a folder")
        document = self.document("export --folder files/pictures --app org.ed --read --write")
        self.see("the folder's document again", self.document("export -f files/pictures"), document)
        self.types("lookup files/pictures", document + "\n")
        self.types("grant files/pictures org.view read")
        self.types("--as org.ed ls " + document, "DOCUMENT  NAME       ACCESS  SIZE\n"
                                                 "%s  pictures/  write\n" % document)
        pictures = document + "/pictures"
        self.types("--as org.view ls %s/" % pictures, "NAME   ACCESS  SIZE\n"
                                                      "a.txt  read    7\n"
                                                      "cats/  read\n")
        self.types("ls --short " + pictures, "a.txt\ncats\n")
        self.types("ls %s/cats/one.png" % pictures, "NAME     ACCESS  SIZE\n"
                                                    "one.png  write   7\n")
        self.types("ls --json " + pictures, json.dumps([
            {"name": "a.txt", "folder": False, "writable": True, "size": 7, "mtime": 10 ** 9},
            {"name": "cats", "folder": True, "writable": True}]) + "\n")
        self.types("--as org.ed stat %s/cats" % pictures,
                   "document: %s\nname:     pictures/cats\nkind:     folder\n"
                   "access:   read, write\nnode:     %d\n" % (document, (4 << 32) + 1))
        self.types("--as org.view stat %s/cats/one.png" % pictures,
                   "document: %s\nname:     pictures/cats/one.png\nsize:     7\n"
                   "access:   read\nchanged:  2001-09-09 01:46:40\nnode:     %d\n"
                   % (document, (4 << 32) + 2))
        self.files_below(document, pictures)
        self.types("unexport files/pictures")

    def files_below(self, document, pictures):
        self.types("--as org.view cat %s/cats/one.png" % pictures, "a file\n")
        self.types("--as org.ed put %s/cats/two.png" % pictures, given=b"another\n")
        self.types("put %s/a.txt" % pictures, given=b"new\n")
        self.person.environment["VISUAL"] = "sed -i s/another/edited/"
        self.types("--as org.ed edit %s/cats/two.png" % pictures)
        for name, wanted in (("a.txt", b"new\n"), ("cats/two.png", b"edited\n")):
            with open(os.path.join(self.service.root, "pictures", name), "rb") as file:
                self.see("bytes of " + name, file.read(), wanted)
        self.types("--as org.view put %s/a.txt" % pictures, status=1,
                   said="EACCES: org.view may not write it; docportal-client grant %s org.view "
                        "write lets it" % document)
        for path in (document, pictures + "/cats"):
            self.types("cat " + path, status=1,
                       said="EISDIR: it is a folder; docportal-client ls %s lists it" % path)
        self.types("cat %s/a.txt/x" % pictures, status=1,
                   said="ENOTDIR: a name on the way is a file's")
        for line in ("cat %s/none", "ls %s/none", "stat %s/none/x", "put %s/none/x"):
            self.types(line % pictures, status=1,
                       said="ENOENT: there is no such document, or its file isn't there; "
                            "docportal-client ls lists them")

    def edit(self, document):
        self.person.environment["VISUAL"] = "sed -i s/short/long/"
        self.types("edit " + document)
        self.types("cat " + document, "long\n")
        self.person.environment["VISUAL"] = "false"
        self.types("edit " + document, status=1,
                   said="false failed; the document is as it was")
        self.is_kept(document, "an editor that fails", b"printf mine > \"$1\"; exit 3\n",
                     "failed; the document is as it was\n")
        self.types("cat " + document, "long\n")
        self.is_kept(document, "what is edited beside another's change",
                     b"printf other > files/tour.txt; printf mine > \"$1\"\n",
                     "the document was changed by another meanwhile, and isn't written\n")
        self.types("cat " + document, "other")
        editor = file_in(self.folder, "editor", b"echo saved > \"$1\"; echo > \"$1~\"\n")
        self.person.environment["VISUAL"] = "sh " + editor
        status, out, said = self.person.types("edit " + document)
        self.see("what an editor leaves beside the copy",
                 (status, out, said.endswith(" is kept: it has what your editor left there\n"),
                  os.listdir(said.split()[1])), (0, b"", True, ["tour.txt~"]))
        self.types("cat " + document, "saved\n")

    def is_kept(self, document, what, editor, why):
        """What is written in an editor, and doesn't come into the document, is kept."""
        editor = file_in(self.folder, "editor", editor)
        self.person.environment["VISUAL"] = "sh " + editor
        status, out, said = self.person.types("edit " + document)
        begin, _, kept = said.split("\n")[0].rpartition(" ")
        with open(kept) as file:
            self.see(what, (status, out, begin, said.endswith(why), file.read()),
                     (1, b"", "docportal-client: what you wrote is kept in", True, "mine"))

    def outputs(self, document):
        """What is printed where nothing can be written: one line, and status 1."""
        line = "for out in '>/dev/full' '>&-'; do eval '\"$0\" cat %s' $out; echo $? >&2; done"
        done = subprocess.run(["sh", "-c", line % document, COMMAND], capture_output=True,
                              env={**os.environ, **self.person.environment}, timeout=60)
        begin = "docportal-client: standard output: "
        self.see("what can't be printed", done.stderr.decode().splitlines(),
                 [begin + "No space left on device", "1", begin + "Bad file descriptor", "1"])

    def permissions(self):
        self.types("permission-set devices camera org.ed yes")
        self.types("permission-set devices camera org.view no ask --data front")
        self.types("permission-set my-table one org.ed x --data [1,2] --type au")
        self.types("permissions devices",
                   "TABLE    ID      APPLICATION  PERMISSIONS  DATA\n"
                   "devices  camera  org.ed       yes          s \"front\"\n"
                   "devices  camera  org.view     no ask       s \"front\"\n")
        self.types("permissions", self.person.types("permissions devices")[1])
        self.types("--json permissions my-table one", json.dumps(
            [{"table": "my-table", "id": "one", "permissions": {"org.ed": ["x"]},
              "data": {"type": "au", "value": [1, 2]}}]) + "\n")
        self.types("tables my-table", "TABLE     ENTRIES\ndevices   1\nmy-table  1\n")
        self.types("permission-show org.ed --table my-table",
                   "TABLE     ID      PERMISSIONS  DATA\n"
                   "devices   camera  yes          s \"front\"\n"
                   "my-table  one     x            au [1, 2]\n")
        self.types("permission-remove devices camera org.view")
        self.types("permission-reset org.ed --table my-table")
        self.types("permissions devices",
                   "TABLE    ID      APPLICATION  PERMISSIONS  DATA\n"
                   "devices  camera                            s \"front\"\n")
        self.types("permission-remove devices camera")
        self.types("permission-remove my-table one")
        self.types("permissions devices camera", status=1,
                   said="org.freedesktop.portal.Error.NotFound: the table has no such entry; "
                        "docportal-client permissions TABLE lists them")

    def watch(self):
        with open(os.devnull) as nothing:
            child, out, said = self.person.begin("watch --every 0.05 devices", nothing)
        with out, said:
            self.see("what watch costs", said.readline().decode(),
                     "docportal-client: asks each 0.05 s; each time costs 128 bytes of the "
                     "service's history, 221.2 MB a day\n")
            self.types("permission-set other one org.ed yes")
            self.types("permission-set devices mic org.ed yes")
            self.types("permission-remove devices mic")
            lines = [out.readline().decode() for _ in range(2)]
            os.kill(child, signal.SIGINT)
            status = os.WEXITSTATUS(os.waitpid(child, 0)[1])
        self.see("what watch prints", (lines, status),
                 (["devices mic: org.ed=yes  y 0\n",
                   "devices mic: deleted; it had  org.ed=yes  y 0\n"], 130))
        self.types("permission-remove other one")

    def refusals(self, document):
        """Calls that are refused, by the service or by the program: status 1."""
        portal = "org.freedesktop.portal.Error."
        host = "only the host may ask this: leave out --as"
        self.types("--as org.view documents", status=1, said=portal + "NotAllowed: " + host)
        self.types("--as org.view unexport " + document, status=1,
                   said=portal + "NotAllowed: org.view lacks the right to do this; the host may "
                                 "(leave out --as)")
        self.types("--as org.ed export files/tour.txt", status=1,
                   said=portal + "NotAllowed: an application exports files of its own folder "
                                 "/app/org.ed alone, and gives no right that it lacks")
        self.types("--as org.ed permissions devices", status=1,
                   said="org.freedesktop.DBus.Error.AccessDenied: only the host may use the "
                        "permission store: leave out --as")
        self.types("permission-set documents a org.ed b", status=1,
                   said=portal + "NotAllowed: documents aren't in the store: docportal-client "
                                 "info, grant and revoke tell and change them")
        self.types("info 1234567", status=1,
                   said="1234567 is neither an identifier (eight digits 0-9 a-f) nor a file; "
                        "docportal-client documents lists them")
        self.types("--as org.ed revoke files/tour.txt org.ed", status=1,
                   said="files/tour.txt is no identifier (eight digits 0-9 a-f), by which an "
                        "application names a document")
        self.types("lookup files/other.txt", status=1,
                   said="files/other.txt is no document; docportal-client export makes it one")
        self.types("export /etc/hostname", status=1,
                   said="/etc/hostname isn't below the service's root %s (--root, DOCPORTAL_ROOT)"
                        % self.service.root)
        self.types("export files/none", status=1,
                   said="files/none isn't a file that is there (--noexist)")
        self.types("export --noexist files/none/new", status=1,
                   said="files/none/new is in no folder that is there")
        self.types(["lookup", "files/a\nb\udcff"], status=1,
                   said="%s/a\\nb\\udcff: a name that isn't UTF-8 can't be a document's"
                        % self.service.root)
        self.types("put %s files/none" % document, status=1,
                   said="files/none: No such file or directory")
        self.types("export files", status=1,
                   said="%s isn't below the service's root %s (--root, DOCPORTAL_ROOT)"
                        % (self.service.root, self.service.root))
        self.types("--root / export files/tour.txt", status=1,
                   said=portal + "InvalidArgument: the service has no such file below its root; is "
                                 "/ its root (--root, DOCPORTAL_ROOT)?")
        self.types("--as org.view cat 00000000", status=1,
                   said="ENOENT: org.view sees no such document, or its file isn't there; "
                        "docportal-client --as org.view ls lists them")

    def wrong_words(self):
        """Words that can't be meant: one line, the usage, and status 2."""
        for line, why, usage in (
                ("", "the following arguments are required: VERB", "[OPTION..] VERB .."),
                ("grant 5a0c11d7", "the following arguments are required: APP, RIGHT",
                 "grant DOC APP RIGHT.."),
                ("grant 5a0c11d7 org.ed fly", "argument RIGHT: fly is no right; they are read, "
                 "write, grant-permissions, delete", "grant DOC APP RIGHT.."),
                ("cat 5a0c", "argument DOC[/PATH]: 5a0c is no identifier, eight digits 0-9 a-f",
                 "cat DOC[/PATH]"),
                ("cat 5a0c11d7/a/../b", "argument DOC[/PATH]: 5a0c11d7/a/../b: a name behind the "
                 "identifier is empty, . or .., or no UTF-8", "cat DOC[/PATH]"),
                ("export --folder --noexist x", "a folder isn't kept when the service is started "
                 "anew, and has to be there: --folder stands without --persistent and --noexist",
                 "export FILE [--app APP [RIGHTS]] [--persistent] [--strict] [--unique] "
                 "[--noexist] [--folder]"),
                ("ls --as ../x", "argument --as: ../x is no name of an application",
                 "ls [DOC[/PATH]] [--short]"),
                ("cat 5a0c11d7 --short", "unrecognized arguments: --short", "cat DOC[/PATH]"),
                (["lookup", ""], "a file's name is empty", "lookup FILE"),
                ("permission-reset", "name an application, or --all",
                 "permission-reset APP|--all [--table TABLE]"),
                ("permission-set a b c --data 256 --type y",
                 "--data: 256 is no value of the type y",
                 "permission-set TABLE ID APP [PERMISSION..] [--data VALUE [--type TYPE]]"),
                ("permission-set a b c --data {} --type a{vs}",
                 "--data: 'a{vs}' isn't a signature: no type begins at 0",
                 "permission-set TABLE ID APP [PERMISSION..] [--data VALUE [--type TYPE]]"),
                ("permission-set a b c --data x --type u",
                 "--data: Expecting value: line 1 column 1 (char 0)",
                 "permission-set TABLE ID APP [PERMISSION..] [--data VALUE [--type TYPE]]")):
            self.types(line, status=2, said="%s\nusage: docportal-client %s" % (why, usage))
        status, out, said = self.person.types("frobnicate")
        self.see("an unknown verb", (status, out, said.count("\n"), "frobnicate" in said),
                 (2, b"", 2, True))
        for name in MODULE.VERBS:
            status, out, said = self.person.types(name + " --help")
            usage = "usage: docportal-client %s " % name
            self.see("%s --help" % name, (status, out.decode().startswith(usage),
                                          b"Example: docportal-client " in out, said),
                     (0, True, True, ""))

    def wrong_names(self):
        path = os.path.join(self.service.sockets, "app.org.nobody.mount")
        self.types("--as org.nobody ls", status=3,
                   said="no service at %s: No such file or directory; this service is there for "
                        "org.ed, org.view" % path)

    def sandbox(self):
        """Where an application has its own two sockets alone, it needs no words."""
        own = os.path.join(self.folder, "own")
        os.makedirs(own)
        for kind in ("bus", "mount"):
            os.symlink(os.path.join(self.service.sockets, "app.org.view." + kind),
                       os.path.join(own, kind))
        self.types("--sockets own ls", self.person.types("--as org.view ls")[1])


def gone(see, service, folder):
    """What is said where the service is gone: status 3."""
    Checks(see, service, folder).types(
        "documents", status=3,
        said="no service at %s/host.bus: Connection refused; is it running (systemctl --user start "
             "docportal), and --sockets right?" % service.sockets)


def full_history(see, folder):
    """What is said where the history is full: a call is refused that it has no room for, and a
    connection closed that took the last of it. The next command is served."""
    service = Service(folder, [], "--history", "1152")
    service.start()
    try:
        checks = Checks(see, service, folder)
        for _ in range(2):
            checks.types("permissions " + "t" * 1000, status=1,
                         said="org.freedesktop.DBus.Error.LimitsExceeded: a limit is reached; "
                              "where it is that of the history, " + MODULE.AGAIN)
            # Each of these costs 256 bytes.
            for _ in range(4):
                checks.types("documents")
            checks.types("documents", status=3,
                         said="the service closed the connection at once: it ended just then, or "
                              + MODULE.AGAIN)
    finally:
        service.kill()


SECRET = "/secret.txt"


def ways_to_fail(service):
    """What an addition of SECRET fails by, and the call that does."""
    def with_root_away(documents):
        os.rename(service.root, service.root + ".away")
        try:
            documents.add(SECRET)
        finally:
            os.rename(service.root + ".away", service.root)

    def fill_queue(documents):
        for _ in range(17):
            documents.present(SECRET)

    def present_behind_its_back(documents):
        for _ in range(3):
            documents._bus.call(FILES_PATH, FILES, "Present", "ay", [path_bytes(SECRET)])
        raise Failed

    return {
        "the root is away": with_root_away,
        "a wrong right": lambda documents: documents.add_full([SECRET], 1, "org.ed", ["fly"]),
        "a wrong application": lambda documents: documents.add_full([SECRET], 1, "..", []),
        "a missing file": lambda documents: documents.add_full([SECRET, "/none"]),
        "a path that is none": lambda documents: documents.add_full([SECRET, "none"]),
        "a text for a list": lambda documents: documents.add_full([SECRET], 1, "org.ed", "read"),
        "17 files": lambda documents: documents.add_full([SECRET] * 17),
        "a full queue": fill_queue,
        "another part of the program presented it": present_behind_its_back,
    }


def addition_that_counts_itself(see, service):
    """A client that takes 0 for its file's place shares what a failed addition left there."""
    def add(bus, path):
        bus.call(FILES_PATH, FILES, "Present", "ay", [path_bytes(path)])
        return bus.call(DOCUMENTS_PATH, DOCUMENTS, "Add", "hbb", [0, False, False], fds=1)[0]

    with service.bus() as bus:
        os.rename(service.root, service.root + ".away")
        try:
            add(bus, SECRET)
            failed = False
        except Failed:
            failed = True
        finally:
            os.rename(service.root + ".away", service.root)
        document = add(bus, "/picked.txt")
        see("what is shared by a client that counts itself",
            (failed, bus.documents.info(document)[0]), (True, SECRET))
        bus.documents.delete(document)


def failed_additions(see, service):
    """An addition that fails leaves no file for the next one of its connection."""
    for name in ("secret.txt", "picked.txt"):
        file_in(service.root, name, b"x")
    addition_that_counts_itself(see, service)
    for what, fails in ways_to_fail(service).items():
        with service.bus() as bus:
            try:
                fails(bus.documents)
                failed = False
            except (DBusError, TypeError):
                failed = True
            added = [bus.documents.add("/picked.txt", reuse_existing=False),
                     bus.documents.add_named("/", "picked.txt", reuse_existing=False),
                     *bus.documents.add_full(["/picked.txt"] * 2, 0)[0]]
            see("what is added behind a failed addition: " + what,
                (failed, {path for path, _ in bus.documents.infos(added).values()}),
                (True, {"/picked.txt"}))
            for document in added:
                bus.documents.delete(document)


def long_messages(see, service):
    """A message beyond what is read at once comes and goes, and one that is too long isn't sent."""
    with service.bus() as bus:
        data = Variant("ay", bytes(range(256)) * 300)
        bus.permissions.set_value("long", "one", data)
        see("a long message", bus.permissions.lookup("long", "one"), ({}, data))
        bus.permissions.delete("long", "one")
        try:
            bus.permissions.set_value("long", "two", Variant("ay", bytes(MESSAGE_LIMIT)))
            sent = True
        except ValueError:
            sent = False
        see("a message that is too long", (sent, bus.permissions.list("long")), (False, []))


def first_of(file):
    """The first bytes of a document's file, or the error by which they are refused."""
    try:
        return file.read(5).decode()
    except OSError as error:
        return errno.errorcode[error.errno]


class Interrupted:
    """A socket that is interrupted half-way through what it sends."""

    def __init__(self, under):
        self.under = under

    def __getattr__(self, name):
        return getattr(self.under, name)

    def sendall(self, data):
        self.under.sendall(data[:len(data) // 2])
        raise KeyboardInterrupt


def interrupted_write(see, service):
    """A write that is cut short takes no bytes of what is written behind it."""
    with service.bus() as bus:
        document = bus.documents.add("/picked.txt")
    ends = []
    with service.mount() as mount:
        mount.write_document(document, b"whole")
        file = mount.open_file(document, "r+b").detach()
        mount._socket = Interrupted(mount._socket)
        for _ in range(2):
            try:
                file.write(bytes(WRITE_LIMIT))
            except (KeyboardInterrupt, ServiceError) as error:
                ends.append(type(error))
            mount._socket = getattr(mount._socket, "under", mount._socket)
    with service.mount() as mount:
        see("a write that is interrupted", (ends, mount.read_document(document)),
            ([KeyboardInterrupt, ConnectionClosed], b"whole"))


def completions(see):
    """Bash completes each verb and its options; zsh and the manual page have each verb."""
    script = ("source contrib/completions/docportal-client.bash; COMP_WORDS=(docportal-client ''); "
              "COMP_CWORD=1; _docportal_client; echo \"${COMPREPLY[@]}\"; "
              "for verb in \"${COMPREPLY[@]}\"; do _docportal_client_options $verb; done")
    done = subprocess.run(["bash", "-c", script], cwd=TOP, capture_output=True, timeout=60)
    verbs, *options = [line.split() for line in done.stdout.decode().splitlines()]
    see("the verbs that bash completes", verbs, list(MODULE.VERBS))
    for name, completed in zip(verbs, options):
        see("the options of %s that bash completes" % name, set(completed), options_of(name))
    with open(os.path.join(TOP, "contrib", "completions", "_docportal-client")) as file:
        text = file.read()
    see("the verbs that zsh completes", re.findall(r"""^        ['"]([a-z-]+):""", text, re.M),
        list(MODULE.VERBS))
    with open(os.path.join(TOP, "contrib", "docportal-client.1")) as file:
        text = file.read()
    found = re.findall(r"^\.BI?R? ([a-z-]+) ", text, re.M)
    see("the verbs of the manual page", [name for name in MODULE.VERBS if name not in found], [])


def options_of(name):
    """The long options of a verb, without flatpak's names for some."""
    found = {"--as", "--sockets", "--root", "--json", "--timeout", "--help"}
    for names, _ in MODULE.VERBS[name][-1]:
        found |= {word for word in names if word.startswith("--") and "allow" not in word}
    return found


def check(see):
    """Each verb at a service that is there, at one that is gone, and at a full history."""
    with tempfile.TemporaryDirectory(prefix="docportal-") as folder:
        service = Service(folder, ["org.ed", "org.view"])
        for name in ("tour.txt", "other.txt"):
            file_in(service.root, name, b"hello\n")
        service.start()
        try:
            Checks(see, service, folder).all()
            failed_additions(see, service)
            interrupted_write(see, service)
            long_messages(see, service)
        finally:
            service.kill()
        gone(see, service, folder)
    completions(see)
    with tempfile.TemporaryDirectory(prefix="docportal-") as folder:
        full_history(see, folder)
