"""What clients see of a service whose history is renewed again and again.

`serve-check` goes through two cases with few calls, and `serve-rounds` through all with many. Four
clients call without end, connect again when they are closed, and know what the store has to hold.
"""

import contextlib
import os
import resource
import socket
import tempfile
import threading
import time

from service import Service, socket_path
from docportal_client import AddFlags, DBusError, MountError, Opcode, ROOT, write_frame

# The usual history of these services, in bytes.
HISTORY = 262144

APPS = ["org.ed", "org.view", *("org.more%d" % number for number in range(6))]

# Files that are added, beside the one that is read and written.
FILES = ["file%d" % number for number in range(8)]

ENOSPC = 28

# Where the services keep their stores: in memory, where there is such a folder, since here no
# machine goes down, and each change that is kept is synced.
PLACE = "/dev/shm" if os.path.isdir("/dev/shm") else None

# The longest message or frame that a client sends in these cases: a FUSE_WRITE of 128 KiB, to the
# handle 0 (struct fuse_write_in: fh, offset, size, write_flags, lock_owner, flags, padding).
GREAT_WRITE = write_frame(Opcode.WRITE, ROOT, bytes(16) + (131072).to_bytes(4, "little")
                          + bytes(20) + bytes(131072), 1)


class Reports(threading.Thread):
    """What a service says on standard error, with the moment of each line."""

    def __init__(self, service):
        super().__init__(daemon=True)
        self.service, self.stream = service, service.process.stderr
        self.full, self.new, self.resident = [], [], []
        self.start()

    def run(self):
        with contextlib.suppress(ValueError, OSError):
            for line in self.stream:
                if b"the history is full" in line:
                    self.full.append(time.monotonic())
                elif b"a new history begins" in line:
                    self.new.append(time.monotonic())
                    self.resident.append(self.service.resident())

    def longest(self):
        """The longest time from a full history to a new one, in seconds."""
        return max((new - full for full, new in zip(self.full, self.new)), default=0.0)


class Caller(threading.Thread):
    """A client that calls without end, and connects again when it is closed."""

    # How it connects: the name of a service's method, and the application or none.
    by = ("bus", None)

    def __init__(self, service):
        super().__init__(daemon=True)
        self.service = service
        self.answered, self.links, self.longest, self.fault = 0, 0, 0.0, None
        self.goes_on = True

    def run(self):
        try:
            while self.goes_on:
                self.connect_and_call()
        except Exception as error:  # the main thread tells it
            self.fault = error

    def connect_and_call(self):
        kind, app = self.by
        last = time.monotonic()
        try:
            with getattr(self.service, kind)(app, 10) as stream:
                self.links += 1
                for _ in self.calls(stream):
                    now = time.monotonic()
                    self.longest = max(self.longest, now - last)
                    last = now
                    self.answered += 1
                    if not self.goes_on:
                        return
        except (ConnectionError, TimeoutError):
            pass
        except DBusError as error:
            if not error.name.endswith(".LimitsExceeded"):
                raise
        except MountError as error:
            if error.errno != ENOSPC:
                raise


class EntryCaller(Caller):
    """It changes fifty entries of a table, and knows what each may hold."""

    def __init__(self, service):
        super().__init__(service)
        self.kept, self.asked = {}, {}

    def calls(self, bus):
        while True:
            entry, value = "entry%d" % (self.answered % 50), "value%d" % self.answered
            self.asked[entry] = value
            bus.permissions.set_permission("rounds", entry, "org.ed", [value])
            self.kept[entry] = value
            yield

    def lost(self, bus):
        """The changes that were answered and aren't in the store."""
        held = {entry: bus.permissions.get_permission("rounds", entry, "org.ed")
                for entry in self.kept}
        return [(entry, value) for entry, value in self.kept.items()
                if held[entry] not in ([value], [self.asked[entry]])]


class DocumentCaller(Caller):
    """It adds documents that are kept, and deletes them. No identifier may come twice."""

    def __init__(self, service):
        super().__init__(service)
        self.seen, self.twice = set(), []
        # What has to be there, and what may be.
        self.live, self.unsure = set(), set()

    def calls(self, bus):
        documents = bus.documents
        # Those of additions whose answers were lost.
        unknown = set(documents.list()) - self.seen
        self.seen |= unknown
        self.unsure |= unknown
        while True:
            path = "/" + FILES[self.answered % len(FILES)]
            document = documents.add_full([path], AddFlags.PERSISTENT, "org.ed", ["read"])[0][0]
            if document in self.seen:
                self.twice.append(document)
            self.seen.add(document)
            self.live.add(document)
            yield
            if len(self.live) > 20:
                document = self.live.pop()
                self.unsure.add(document)
                documents.delete(document)
                self.unsure.discard(document)
                yield

    def lost(self, bus):
        """The documents that are missing, and those that should be."""
        held = set(bus.documents.list())
        return sorted(self.live - held) + sorted(held & self.seen - self.live - self.unsure)


class GrantCaller(Caller):
    """It grants another application what it has itself, as an application may."""

    by = ("bus", "org.ed")

    def __init__(self, service, document):
        super().__init__(service)
        self.document = document

    def calls(self, bus):
        while True:
            bus.documents.grant_permissions(self.document, "org.view", ["read"])
            yield


class FileCaller(GrantCaller):
    """It opens a document by a mount of an application, writes it and reads it."""

    by = ("mount", "org.ed")

    def calls(self, mount):
        mount.init()
        node = mount.find(self.document).stat.st_ino
        handle = mount.open_node(node, os.O_RDWR)
        while True:
            content = b"%08d" % self.answered
            mount.write(node, handle, 0, content)
            yield
            if mount.read(node, handle, 0, 8) != content:
                raise AssertionError("a read doesn't give what was written")
            yield


class GreatWriteCaller(Caller):
    """It sends nothing but FUSE_WRITEs of 128 KiB."""

    by = ("mount", "org.view")

    def calls(self, mount):
        while True:
            mount.send(GREAT_WRITE)
            mount.take(16)
            yield


class Crowd(threading.Thread):
    """Connections that say nothing: so many on each socket, made again when they are closed."""

    def __init__(self, service, counts):
        super().__init__(daemon=True)
        self.service, self.counts, self.goes_on = service, counts, True
        self.held = {socket: [] for socket in counts}
        self.gather()
        self.start()

    def gather(self):
        for (app, kind), count in self.counts.items():
            held = [client for client in self.held[app, kind] if not is_closed(client)]
            while len(held) < count:
                client = connected(socket_path(self.service.sockets, app, kind))
                if client is None:
                    break
                held.append(client)
            self.held[app, kind] = held

    def run(self):
        while self.goes_on:
            self.gather()
            time.sleep(0.02)

    def size(self):
        return sum(len(held) for held in self.held.values())

    def stop(self):
        self.goes_on = False
        self.join()
        for held in self.held.values():
            for client in held:
                client.close()


def connected(path):
    """A connection that says nothing, or none where the socket takes no more."""
    client = socket.socket(socket.AF_UNIX, socket.SOCK_STREAM)
    client.setblocking(False)
    try:
        client.connect(path)
    except BlockingIOError:
        client.close()
        return None
    return client


def is_closed(client):
    """Whether the service has closed a connection, which is closed here too then."""
    try:
        if client.recv(1):
            return False
    except BlockingIOError:
        return False
    except OSError:
        pass
    client.close()
    return True


def sockets(counts):
    """How many connections each socket gets, by its kind."""
    return {(app, kind): counts[kind] for app in [None, *APPS] for kind in ("bus", "mount")}


class Case:
    """A service whose history is small, with a document of org.ed."""

    def __init__(self, folder, apps, workers, history):
        self.service = Service(folder, apps, "--workers", str(workers), "--history", str(history))
        for file in ["notes.txt", *FILES]:
            with open(os.path.join(self.service.root, file), "w") as made:
                made.write("12345678")
        self.service.start()
        self.reports = Reports(self.service)
        with self.service.bus() as bus:
            self.document = bus.documents.add("/notes.txt", persistent=True)
            bus.documents.grant_permissions(
                self.document, "org.ed", ["read", "write", "grant-permissions"])

    def four(self, kinds):
        """Callers of these kinds, which begin."""
        callers = [kind(self.service, self.document) if issubclass(kind, GrantCaller)
                   else kind(self.service) for kind in kinds]
        for caller in callers:
            caller.start()
        return callers

    def wait(self, callers, calls, seconds=600):
        """Waits until they had so many answers in all."""
        end = time.monotonic() + seconds
        while sum(caller.answered for caller in callers) < calls:
            for caller in callers:
                if caller.fault:
                    raise caller.fault
            if time.monotonic() > end or self.service.process.poll() is not None:
                raise AssertionError("the calls aren't answered any more")
            time.sleep(0.01)

    def end(self, callers):
        """Ends the callers and the service, starts it again, and tells what was lost."""
        for caller in callers:
            caller.goes_on = False
        for caller in callers:
            caller.join(30)
            if caller.fault:
                raise caller.fault
        stream = self.service.process.stderr
        self.service.process.kill()
        self.service.process.wait()
        self.reports.join(10)
        stream.close()
        self.service.process.stdout.close()
        self.service.words[self.service.words.index("--history") + 1] = "536870912"
        self.service.start()
        try:
            with self.service.bus() as bus:
                return [caller.lost(bus) for caller in callers if hasattr(caller, "lost")]
        finally:
            self.service.kill()


# At how many workers who calls how often, and what is beside them. A history of this size has room
# for one great write.
PLAIN = [EntryCaller, DocumentCaller, GrantCaller, FileCaller]
CASES = {
    "four clients": (4, PLAIN, 100000, None),
    "idle connections on every socket": (
        8, PLAIN, 20000, sockets({"bus": 6, "mount": 7})),
    "clients that send great writes": (
        4, [*PLAIN, GreatWriteCaller, GreatWriteCaller], 2000, None),
    "nothing but great writes": (2, [GreatWriteCaller] * 2, 200, None),
    "one worker": (1, [EntryCaller, GrantCaller, FileCaller], 20000, None),
    "one worker, and a connection on every other socket": (1, [EntryCaller], 20000, {
        **sockets({"bus": 1, "mount": 1}), (None, "bus"): 0}),
    "every mount taken": (
        2, [EntryCaller, DocumentCaller, GrantCaller], 20000, sockets({"bus": 0, "mount": 2})),
}


def see_case(see, name, calls=None, patience=1.0, history=HISTORY, apps=APPS):
    """One case: how many rounds it had, and what was seen of it, for one who reads it."""
    workers, kinds, usual, counts = CASES[name]
    counts = {place: count for place, count in (counts or {}).items() if place[0] in (None, *apps)}
    with tempfile.TemporaryDirectory(prefix="docportal-", dir=PLACE) as folder:
        case = Case(folder, apps, workers, history)
        crowd = Crowd(case.service, counts) if counts else None
        begun = time.monotonic()
        try:
            callers = case.four(kinds)
            case.wait(callers, calls or usual)
            took = time.monotonic() - begun
        finally:
            if crowd:
                beside = crowd.size()
                crowd.stop()
        rounds, longest = len(case.reports.new), case.reports.longest()
        see("%s: a renewal within %g s" % (name, patience), longest < patience)
        lost = case.end(callers)
        see("%s: what was answered and is lost" % name, lost, [[] for _ in lost])
        twice = [caller.twice for caller in callers if isinstance(caller, DocumentCaller)]
        see("%s: identifiers that came twice" % name, twice, [[] for _ in twice])
    resident = case.reports.resident
    return rounds, ("%s: %d calls answered in %d rounds and %.1f s%s; a renewal took %.0f ms at most, "
                    "a client waited %.0f ms at most; memory in KiB as a new history begins, behind "
                    "each of the first 20 rounds and the last: %s" % (
                        name, sum(caller.answered for caller in callers), rounds, took,
                        " beside %d connections" % beside if crowd else "", longest * 1000,
                        max(caller.longest for caller in callers) * 1000,
                        " ".join(str(size // 1024) for size in (resident[:20] + resident[-1:]))))


def see_backlogs(see, times, patience=1.0):
    """Every socket has as many connections as it takes; a client that was in ends the round.

    Each time it is another service: connections that wait cost an Enter each once they are closed, and
    end rounds of their own.
    """
    soft, hard = resource.getrlimit(resource.RLIMIT_NOFILE)
    resource.setrlimit(resource.RLIMIT_NOFILE, (hard, hard))
    try:
        said = []
        for _ in range(times):
            with tempfile.TemporaryDirectory(prefix="docportal-", dir=PLACE) as folder:
                said.append(see_backlogs_in(see, folder, patience))
        return "\n".join(said)
    finally:
        resource.setrlimit(resource.RLIMIT_NOFILE, (soft, hard))


def see_backlogs_in(see, folder, patience):
    service = Service(folder, [], "--history", str(HISTORY), "--workers", "1")
    service.start()
    reports = Reports(service)
    try:
        with service.bus() as bus:
            bus.ping()
            crowd = Crowd(service, {(None, "bus"): 10 ** 6, (None, "mount"): 10 ** 6})
            most = crowd.size()
            with contextlib.suppress(ConnectionError, DBusError):
                while True:
                    bus.ping()
        end = time.monotonic() + 10
        while not reports.new and time.monotonic() < end:
            time.sleep(0.001)
        see("a renewal with every backlog full", len(reports.new) > 0)
        crowd.stop()
        see("every backlog full: a renewal within %g s" % patience, reports.longest() < patience)
        with service.bus(None, 60) as bus:
            bus.ping()
    finally:
        service.process.kill()
        service.process.wait()
        reports.join(10)
    return "every backlog full: %d connections waited; a renewal took %.0f ms at most" % (
        most, reports.longest() * 1000)


def check(see):
    """The cases that the gate goes through, with few calls."""
    for name in ("four clients", "one worker, and a connection on every other socket"):
        # A program that is checked while it runs takes longer than a second for a renewal.
        rounds, _ = see_case(see, name, 600, 10.0, 32768, APPS[:2])
        see("%s: rounds" % name, rounds >= 2)
