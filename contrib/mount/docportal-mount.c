/* docportal-mount: mounts a folder that shows the files of a mount's socket of docportal.
 *
 *     cc -std=c11 -O2 -o docportal-mount docportal-mount.c
 *     docportal-mount $XDG_RUNTIME_DIR/docportal/app.org.ed.mount /run/user/1000/doc
 *
 * It opens /dev/fuse, mounts the folder, and carries the kernel's requests to the socket and the
 * answers back, each frame as it came (include/uapi/linux/fuse.h), but for one bit of the answer to
 * INIT, by which the kernel asks for several pieces of a file at once. It decides nothing: what a
 * caller may do is settled by the service, from the socket that the request came by. Only the
 * service's own threads are answered here, that nothing is there, since they would wait for
 * themselves. docs/mount.md says how it is used, and what programs may expect of the folder. */

#define _GNU_SOURCE

#include <assert.h>
#include <errno.h>
#include <fcntl.h>
#include <getopt.h>
#include <limits.h>
#include <linux/fuse.h>
#include <poll.h>
#include <signal.h>
#include <stdarg.h>
#include <stdbool.h>
#include <stddef.h>
#include <stdint.h>
#include <stdio.h>
#include <stdlib.h>
#include <string.h>
#include <sys/mount.h>
#include <sys/socket.h>
#include <sys/stat.h>
#include <sys/sysmacros.h>
#include <sys/un.h>
#include <sys/wait.h>
#include <time.h>
#include <unistd.h>

#define VERSION "0.1.0"

static_assert(__BYTE_ORDER__ == __ORDER_LITTLE_ENDIAN__, "the service's frames are little-endian");

/* A frame's longest, which the service keeps too; the kernel asks for a buffer of 131,072 bytes
 * and the headers of a write. */
#define FRAME_MOST 135168
/* Bytes that the kernel asks for in one read, at most: with large pages it would ask for more than
 * a frame holds. */
#define READ_MOST 131072
/* Bytes of a buffer: one frame that isn't whole, and what came with it. */
#define BUFFER (4 * FRAME_MOST)
/* Requests that are sent at once, in bytes, where the kernel has several. */
#define BATCH 65536
/* How long it looks again and again before it sleeps, in nanoseconds: about what it takes to be
 * woken. */
#define LOOK 50000
/* How long the service may take for its first answer, in milliseconds. */
#define FIRST_ANSWER 10000

enum status { STATUS_DONE = 0, STATUS_USAGE = 1, STATUS_NO_MOUNT = 2, STATUS_GONE = 3 };

/* Why frames are no longer carried. */
enum ending { NOT_YET = 0, BY_SIGNAL, UNMOUNTED, NO_MOUNT, NO_SERVICE, SERVICE_GONE, NO_FRAME };

struct options {
    const char *socket;
    char *folder;
    const char *name;
    bool allow_other, read_only, no_exec, retry, background;
    uid_t uid;
    gid_t gid;
};

/* The bytes of a buffer that wait, from start to end. */
struct waiting {
    unsigned char bytes[BUFFER];
    size_t start, end;
};

enum side { REQUESTS, ANSWERS };

struct carrier {
    int kernel, service;
    /* The folder of the service's threads in /proc, or -1; and a thread that isn't among them. */
    int threads;
    uint32_t stranger;
    /* The number of an INIT that offers FUSE_ASYNC_READ, until it is answered, or 0. */
    uint64_t offer;
    struct waiting requests, answers;
    /* Whether something was carried, and what was last. */
    bool moved;
    enum side last;
};

/* ---- what is said, and signals */

static volatile sig_atomic_t ended;
static int ending_pipe[2];

static int say(const char *form, ...)
{
    va_list rest;
    va_start(rest, form);
    fputs("docportal-mount: ", stderr);
    vfprintf(stderr, form, rest);
    fputc('\n', stderr);
    va_end(rest);
    return -1;
}

static void end_by_signal(int number)
{
    int before = errno;
    (void)number;
    ended = 1;
    (void)!write(ending_pipe[1], "", 1);
    errno = before;
}

/* Stands in for standard streams that are closed: /dev/fuse or a pipe would take their numbers,
 * and what is said would be written there. */
static void take_streams(void)
{
    int nowhere;
    do
        nowhere = open("/dev/null", O_RDWR);
    while (nowhere >= 0 && nowhere < 3);
    if (nowhere >= 0)
        close(nowhere);
}

static int catch_signals(void)
{
    struct sigaction action = { .sa_handler = end_by_signal };
    if (pipe2(ending_pipe, O_CLOEXEC | O_NONBLOCK) < 0)
        return say("no pipe: %s", strerror(errno));
    sigaction(SIGTERM, &action, NULL);
    sigaction(SIGINT, &action, NULL);
    signal(SIGPIPE, SIG_IGN);
    /* (nohup asks for it not to be caught) */
    if (signal(SIGHUP, SIG_IGN) != SIG_IGN)
        sigaction(SIGHUP, &action, NULL);
    return 0;
}

/* Waits for a descriptor to be readable, or for a signal that ends the program, so long. */
static bool wait_readable(int descriptor, int milliseconds)
{
    struct pollfd on[] = { { .fd = ending_pipe[0], .events = POLLIN },
                           { .fd = descriptor, .events = POLLIN } };
    int ready;
    do
        ready = poll(on, 2, milliseconds);
    while (ready < 0 && errno == EINTR && !ended);
    return ready > 0 && !ended;
}

/* ---- the service */

static int join_service(const char *path)
{
    struct sockaddr_un address = { .sun_family = AF_UNIX };
    struct timeval limit = { .tv_sec = FIRST_ANSWER / 1000 };
    int room = 1 << 20;
    if (strlen(path) >= sizeof address.sun_path) {
        errno = ENAMETOOLONG;
        return -1;
    }
    strcpy(address.sun_path, path);
    int service = socket(AF_UNIX, SOCK_STREAM | SOCK_CLOEXEC, 0);
    if (service < 0)
        return -1;
    setsockopt(service, SOL_SOCKET, SO_SNDTIMEO, &limit, sizeof limit);
    setsockopt(service, SOL_SOCKET, SO_SNDBUF, &room, sizeof room);
    if (connect(service, (struct sockaddr *)&address, sizeof address) < 0) {
        int why = errno;
        close(service);
        errno = why;
        return -1;
    }
    return service;
}

/* Asks for the size of the file system, which costs the service nothing, and waits for the
 * answer. So the folder is only mounted once a post of the socket serves it. */
static bool is_served(int service)
{
    struct fuse_in_header request = { .len = sizeof request, .opcode = FUSE_STATFS, .unique = 1,
                                      .nodeid = FUSE_ROOT_ID };
    struct {
        struct fuse_out_header header;
        struct fuse_statfs_out body;
    } answer;
    size_t got = 0;
    if (send(service, &request, sizeof request, MSG_NOSIGNAL) != (ssize_t)sizeof request)
        return false;
    while (got < sizeof answer) {
        if (!wait_readable(service, FIRST_ANSWER))
            return false;
        ssize_t count = recv(service, (char *)&answer + got, sizeof answer - got, MSG_DONTWAIT);
        if (count == 0 || (count < 0 && errno != EAGAIN && errno != EINTR))
            return false;
        got += count > 0 ? (size_t)count : 0;
    }
    return answer.header.len == sizeof answer && answer.header.unique == request.unique;
}

/* Opens the folder of the service's threads, or gives -1 where it can't be seen from here. */
static int open_threads(int service)
{
    struct ucred peer;
    socklen_t size = sizeof peer;
    char path[64];
    if (getsockopt(service, SOL_SOCKET, SO_PEERCRED, &peer, &size) < 0 || peer.pid <= 0)
        return -1;
    snprintf(path, sizeof path, "/proc/%d/task", (int)peer.pid);
    return open(path, O_PATH | O_DIRECTORY | O_CLOEXEC);
}

/* ---- the mount */

/* Runs fusermount3, and gives its status, or -1. */
static int run_helper(char *const words[], int given)
{
    char number[16];
    int status;
    pid_t child = fork();
    if (child == 0) {
        if (given >= 0) {
            fcntl(given, F_SETFD, 0);
            snprintf(number, sizeof number, "%d", given);
            setenv("_FUSE_COMMFD", number, 1);
        }
        execvp(words[0], words);
        _exit(127);
    }
    if (child < 0)
        return -1;
    while (waitpid(child, &status, 0) < 0)
        if (errno != EINTR)
            return -1;
    return WIFEXITED(status) ? WEXITSTATUS(status) : -1;
}

/* Takes a descriptor that was sent by a socket. */
static int take_descriptor(int from)
{
    char byte;
    union {
        struct cmsghdr header;
        char bytes[CMSG_SPACE(sizeof(int))];
    } control;
    struct iovec content = { .iov_base = &byte, .iov_len = 1 };
    struct msghdr message = { .msg_iov = &content, .msg_iovlen = 1, .msg_control = &control,
                              .msg_controllen = sizeof control };
    int taken = -1;
    if (recvmsg(from, &message, MSG_CMSG_CLOEXEC | MSG_DONTWAIT) <= 0)
        return -1;
    struct cmsghdr *header = CMSG_FIRSTHDR(&message);
    if (header && header->cmsg_level == SOL_SOCKET && header->cmsg_type == SCM_RIGHTS)
        memcpy(&taken, CMSG_DATA(header), sizeof taken);
    return taken;
}

/* Mounts by fusermount3, which opens /dev/fuse itself and sends it. */
static int mount_by_helper(const struct options *options)
{
    char how[512];
    int pair[2];
    snprintf(how, sizeof how, "fsname=%s,subtype=docportal,nosuid,nodev,max_read=%d%s%s%s",
             options->name, READ_MOST, options->allow_other ? ",allow_other" : "",
             options->read_only ? ",ro" : "", options->no_exec ? ",noexec" : "");
    char *words[] = { "fusermount3", "-o", how, "--", options->folder, NULL };
    if (socketpair(AF_UNIX, SOCK_STREAM | SOCK_CLOEXEC, 0, pair) < 0)
        return say("no socket for fusermount3: %s", strerror(errno));
    int status = run_helper(words, pair[1]);
    close(pair[1]);
    int kernel = status == 0 ? take_descriptor(pair[0]) : -1;
    close(pair[0]);
    if (status == 127)
        return say("%s: it takes root or fusermount3 to mount", options->folder);
    if (kernel < 0)
        return say("%s: fusermount3 couldn't mount it", options->folder);
    return kernel;
}

/* Mounts by mount(2), which takes root, in this or in a user namespace of its own. */
static int mount_directly(const struct options *options)
{
    char how[128];
    unsigned long flags = MS_NOSUID | MS_NODEV | (options->read_only ? MS_RDONLY : 0) |
                          (options->no_exec ? MS_NOEXEC : 0);
    int kernel = open("/dev/fuse", O_RDWR | O_CLOEXEC);
    if (kernel < 0)
        return -1;
    snprintf(how, sizeof how, "fd=%d,rootmode=%o,user_id=%u,group_id=%u,max_read=%d%s", kernel,
             S_IFDIR, options->uid, options->gid, READ_MOST,
             options->allow_other ? ",allow_other" : "");
    if (mount(options->name, options->folder, "fuse.docportal", flags, how) < 0) {
        int why = errno;
        close(kernel);
        errno = why;
        return -1;
    }
    return kernel;
}

/* Mounts the folder, and gives the descriptor that the kernel's requests come by, or -1 where
 * it said why not. */
static int mount_folder(const struct options *options)
{
    int kernel = geteuid() == 0 ? mount_directly(options) : -1;
    if (kernel < 0 && geteuid() == 0 && errno != EPERM && errno != EACCES)
        return say("%s: can't be mounted by /dev/fuse: %s", options->folder, strerror(errno));
    if (kernel < 0)
        kernel = mount_by_helper(options);
    if (kernel >= 0)
        fcntl(kernel, F_SETFL, fcntl(kernel, F_GETFL) | O_NONBLOCK);
    return kernel;
}

/* The number of the file system that a folder is of, without a request to it. */
static dev_t device_of(const char *folder)
{
    struct statx got;
    if (statx(AT_FDCWD, folder, AT_STATX_DONT_SYNC | AT_NO_AUTOMOUNT, 0, &got) < 0)
        return 0;
    return makedev(got.stx_dev_major, got.stx_dev_minor);
}

/* How a look at the folder fails: with ENOTCONN where what is mounted there has no program any
 * more, or 0 where it doesn't fail. */
static int fault_of(const char *folder)
{
    struct stat got;
    return stat(folder, &got) == 0 ? 0 : errno;
}

/* Unmounts the folder, whatever is open there. */
static void unmount_lazily(const struct options *options)
{
    char *words[] = { "fusermount3", "-u", "-q", "-z", "--", options->folder, NULL };
    if (umount2(options->folder, MNT_DETACH | UMOUNT_NOFOLLOW) < 0 && geteuid() != 0)
        run_helper(words, -1);
}

/* ---- frames */

static int64_t now(void)
{
    struct timespec time;
    clock_gettime(CLOCK_MONOTONIC, &time);
    return (int64_t)time.tv_sec * 1000000000 + time.tv_nsec;
}

/* Whether a request came from a thread of the service. It mustn't wait for an answer, which only
 * the service can give. */
static bool is_of_service(struct carrier *carrier, const struct fuse_in_header *request)
{
    char name[16];
    if (carrier->threads < 0 || request->pid == 0 || request->pid == carrier->stranger)
        return false;
    snprintf(name, sizeof name, "%u", request->pid);
    if (faccessat(carrier->threads, name, F_OK, 0) == 0)
        return true;
    carrier->stranger = request->pid;
    return false;
}

/* Notes an INIT by which the kernel offers to ask for several pieces of a file at once. */
static void note_offer(struct carrier *carrier, const unsigned char *frame, size_t length)
{
    struct fuse_in_header request;
    uint32_t flags;
    size_t at = sizeof request + offsetof(struct fuse_init_in, flags);
    memcpy(&request, frame, sizeof request);
    if (request.opcode != FUSE_INIT || length < at + sizeof flags)
        return;
    memcpy(&flags, frame + at, sizeof flags);
    carrier->offer = flags & FUSE_ASYNC_READ ? request.unique : 0;
}

/* Takes that offer in the service's answer, which leaves it open: the service answers each READ by
 * its number, however many wait. */
static void take_offer(struct carrier *carrier, unsigned char *frame, size_t length)
{
    uint32_t flags;
    size_t at = sizeof(struct fuse_out_header) + offsetof(struct fuse_init_out, flags);
    carrier->offer = 0;
    if (length < at + sizeof flags)
        return;
    memcpy(&flags, frame + at, sizeof flags);
    flags |= FUSE_ASYNC_READ;
    memcpy(frame + at, &flags, sizeof flags);
}

/* Answers a request that it can't pass on, that nothing is there, where an answer is expected. */
static void answer_nothing_there(struct carrier *carrier, const struct fuse_in_header *request)
{
    struct fuse_out_header answer = { .len = sizeof answer, .error = -ENOENT,
                                      .unique = request->unique };
    if (request->opcode == FUSE_FORGET || request->opcode == FUSE_BATCH_FORGET ||
        request->opcode == FUSE_INTERRUPT)
        return;
    (void)!write(carrier->kernel, &answer, sizeof answer);
}

static enum ending send_requests(struct carrier *carrier)
{
    struct waiting *out = &carrier->requests;
    while (out->start < out->end) {
        ssize_t count = send(carrier->service, out->bytes + out->start, out->end - out->start,
                             MSG_NOSIGNAL | MSG_DONTWAIT);
        if (count < 0)
            return errno == EAGAIN || errno == EINTR ? NOT_YET : SERVICE_GONE;
        out->start += (size_t)count;
        carrier->moved = true;
        carrier->last = REQUESTS;
    }
    out->start = out->end = 0;
    return NOT_YET;
}

/* Takes one request of the kernel's behind those that wait: its length, 0 where there is none,
 * or -1 where none comes any more, with the reason in errno. */
static ssize_t take_request(struct carrier *carrier)
{
    struct fuse_in_header request;
    unsigned char *to = carrier->requests.bytes + carrier->requests.end;
    ssize_t count = read(carrier->kernel, to, FRAME_MOST);
    /* ENOENT: the request was withdrawn as it was taken. */
    if (count < 0)
        return errno == EAGAIN || errno == EINTR || errno == ENOENT ? 0 : -1;
    memcpy(&request, to, sizeof request);
    if ((size_t)count < sizeof request || request.len != (size_t)count) {
        errno = EPROTO;
        return -1;
    }
    if (is_of_service(carrier, &request)) {
        answer_nothing_there(carrier, &request);
        return count;
    }
    note_offer(carrier, to, (size_t)count);
    carrier->requests.end += (size_t)count;
    return count;
}

/* Takes what the kernel asks, and sends it on. Nothing more is taken while some isn't sent. */
static enum ending carry_requests(struct carrier *carrier)
{
    struct waiting *out = &carrier->requests;
    while (out->start == 0 && out->end < BATCH) {
        ssize_t count = take_request(carrier);
        /* Where the service's INIT asked for longer frames than this carries it is EINVAL. */
        if (count < 0)
            return errno == ENODEV || errno == ECONNABORTED ? UNMOUNTED : NO_FRAME;
        if (count == 0)
            break;
    }
    return send_requests(carrier);
}

/* Gives the kernel one answer. A frame that is none, one without a number, which would be a
 * message of its own, and one that the kernel refuses end the connection. */
static enum ending give_answer(struct carrier *carrier, const unsigned char *frame, size_t length)
{
    if (write(carrier->kernel, frame, length) == (ssize_t)length)
        return NOT_YET;
    /* ENOENT: who asked doesn't wait for it any more. */
    if (errno == ENOENT || errno == EINTR || errno == EAGAIN)
        return NOT_YET;
    return errno == ENODEV || errno == ECONNABORTED ? UNMOUNTED : NO_FRAME;
}

static enum ending give_answers(struct carrier *carrier)
{
    struct waiting *in = &carrier->answers;
    struct fuse_out_header answer;
    while (in->end - in->start >= sizeof answer) {
        memcpy(&answer, in->bytes + in->start, sizeof answer);
        if (answer.len < sizeof answer || answer.len > FRAME_MOST || answer.unique == 0)
            return NO_FRAME;
        if (in->end - in->start < answer.len)
            break;
        if (answer.unique == carrier->offer)
            take_offer(carrier, in->bytes + in->start, answer.len);
        enum ending ending = give_answer(carrier, in->bytes + in->start, answer.len);
        if (ending)
            return ending;
        in->start += answer.len;
    }
    return NOT_YET;
}

/* Takes what the service answers, and gives the kernel each frame that is whole. */
static enum ending carry_answers(struct carrier *carrier)
{
    struct waiting *in = &carrier->answers;
    if (in->start == in->end)
        in->start = in->end = 0;
    if (BUFFER - in->start < FRAME_MOST) {
        memmove(in->bytes, in->bytes + in->start, in->end - in->start);
        in->end -= in->start;
        in->start = 0;
    }
    ssize_t count = recv(carrier->service, in->bytes + in->end, BUFFER - in->end, MSG_DONTWAIT);
    if (count < 0)
        return errno == EAGAIN || errno == EINTR ? NOT_YET : SERVICE_GONE;
    if (count == 0)
        return SERVICE_GONE;
    in->end += (size_t)count;
    carrier->moved = true;
    carrier->last = ANSWERS;
    return give_answers(carrier);
}

/* Sleeps until there is something to carry, or a signal ends the program. */
static enum ending sleep_for_frames(struct carrier *carrier)
{
    bool unsent = carrier->requests.start < carrier->requests.end;
    struct pollfd on[] = {
        { .fd = ending_pipe[0], .events = POLLIN },
        { .fd = carrier->kernel, .events = unsent ? 0 : POLLIN },
        { .fd = carrier->service, .events = unsent ? POLLIN | POLLOUT : POLLIN },
    };
    if (poll(on, 3, -1) < 0 && errno != EINTR)
        return NO_FRAME;
    return on[1].revents & POLLERR ? UNMOUNTED : NOT_YET;
}

/* Carries frames both ways until one side ends. Before it sleeps it looks again for a while, if
 * the last sleep behind a frame of that kind was shorter than that. */
static enum ending carry(struct carrier *carrier)
{
    bool alone = sysconf(_SC_NPROCESSORS_ONLN) < 2;
    int64_t look[] = { [REQUESTS] = alone ? 0 : LOOK, [ANSWERS] = alone ? 0 : LOOK };
    int64_t moved = now();
    while (!ended) {
        carrier->moved = false;
        enum ending ending = carry_answers(carrier);
        if (!ending)
            ending = carry_requests(carrier);
        if (ending)
            return ending;
        if (carrier->moved) {
            moved = now();
            continue;
        }
        if (now() - moved < look[carrier->last])
            continue;
        ending = sleep_for_frames(carrier);
        if (ending)
            return ending;
        look[carrier->last] = now() - moved < LOOK && !alone ? LOOK : 0;
    }
    return BY_SIGNAL;
}

/* ---- the program */

/* Goes to the background: what the first process waits by for the mount. */
static int go_to_background(void)
{
    int pair[2], status;
    char byte;
    if (pipe2(pair, O_CLOEXEC) < 0)
        return say("no pipe: %s", strerror(errno));
    pid_t child = fork();
    if (child < 0)
        return say("no process: %s", strerror(errno));
    if (child == 0) {
        close(pair[0]);
        setsid();
        return pair[1];
    }
    close(pair[1]);
    if (read(pair[0], &byte, 1) == 1)
        _exit(STATUS_DONE);
    _exit(waitpid(child, &status, 0) == child && WIFEXITED(status) ? WEXITSTATUS(status)
                                                                   : STATUS_NO_MOUNT);
}

/* Says that the folder is mounted; in the background it says no more from then on. */
static void tell_mounted(const struct options *options, int *waiter)
{
    printf("docportal-mount: %s is mounted\n", options->folder);
    fflush(stdout);
    if (*waiter < 0)
        return;
    int nowhere = open("/dev/null", O_RDWR | O_CLOEXEC);
    for (int stream = 0; stream < 3 && nowhere >= 0; stream++)
        dup2(nowhere, stream);
    if (nowhere > 2)
        close(nowhere);
    (void)!write(*waiter, "", 1);
    close(*waiter);
    *waiter = -1;
}

/* Mounts the folder on a new connection, and serves it until one of the two ends. A dead mount
 * of an earlier run is taken away first. */
static enum ending serve(const struct options *options, struct carrier *carrier, int *waiter)
{
    if (fault_of(options->folder) == ENOTCONN)
        unmount_lazily(options);
    carrier->kernel = mount_folder(options);
    if (carrier->kernel < 0)
        return NO_MOUNT;
    dev_t device = device_of(options->folder);
    carrier->stranger = 0;
    carrier->offer = 0;
    carrier->requests.start = carrier->requests.end = 0;
    carrier->answers.start = carrier->answers.end = 0;
    tell_mounted(options, waiter);
    enum ending ending = carry(carrier);
    /* With its last descriptor the mount is dead: whatever waits for it ends with an error. A
     * live one that is there by now is another's. */
    close(carrier->kernel);
    if (device_of(options->folder) == device && fault_of(options->folder) != 0)
        unmount_lazily(options);
    return ending;
}

/* Connects, and serves the folder once. */
static enum ending connect_and_serve(const struct options *options, struct carrier *carrier,
                                     int *waiter, bool quiet)
{
    carrier->service = join_service(options->socket);
    if (carrier->service < 0) {
        if (!quiet && !ended)
            say("%s: can't be joined: %s", options->socket, strerror(errno));
        return ended ? BY_SIGNAL : NO_SERVICE;
    }
    enum ending ending = NO_SERVICE;
    if (is_served(carrier->service)) {
        carrier->threads = open_threads(carrier->service);
        ending = serve(options, carrier, waiter);
        if (carrier->threads >= 0)
            close(carrier->threads);
    } else if (!quiet && !ended) {
        say("%s: no answer; its posts may be taken, the history full, or it is no mount's",
            options->socket);
    }
    close(carrier->service);
    return ended ? BY_SIGNAL : ending;
}

/* Serves until it is to end; with --retry, again whenever the service is back. */
static enum ending serve_on(const struct options *options, struct carrier *carrier, int *waiter)
{
    for (int tries = 0;; tries++) {
        enum ending ending = connect_and_serve(options, carrier, waiter, tries > 0);
        bool gone = ending == SERVICE_GONE || ending == NO_SERVICE;
        if (!options->retry || !gone)
            return ending;
        if (ending == SERVICE_GONE) {
            say("%s: the service is gone; waiting for it", options->socket);
            tries = 0;
        }
        if (wait_readable(-1, tries < 20 ? 50 : 1000) || ended)
            return BY_SIGNAL;
    }
}

static int status_of(const struct options *options, enum ending ending)
{
    switch (ending) {
    case SERVICE_GONE:
        say("%s: the service is gone", options->socket);
        return STATUS_GONE;
    case NO_FRAME:
        say("%s: what came was no answer of a mount", options->socket);
        return STATUS_GONE;
    case NO_SERVICE:
    case NO_MOUNT:
        return STATUS_NO_MOUNT;
    default:
        return STATUS_DONE;
    }
}

static void show_help(void)
{
    puts("usage: docportal-mount [OPTION..] SOCKET FOLDER\n"
         "Mounts FOLDER with the files that SOCKET, a mount's socket of docportal, shows.\n"
         "\n"
         "  --retry             when the service goes, mount anew once it is back\n"
         "  --background        come back when FOLDER is mounted, and serve it on\n"
         "  --foreground        stay until FOLDER is unmounted (the default)\n"
         "  -o OPTION[,OPTION]  allow_other (other users may enter), ro, noexec,\n"
         "                      name=NAME (what is mounted, in /proc/mounts),\n"
         "                      uid=N, gid=N (who may enter, where root mounts)\n"
         "  --help, --version   say this, or the version, and end\n"
         "\n"
         "It ends with 0 once FOLDER is unmounted or it gets SIGTERM; 1: the words are faulty;\n"
         "2: FOLDER couldn't be mounted; 3: the service went.");
}

static bool read_number(const char *word, unsigned *number)
{
    char *end;
    errno = 0;
    unsigned long got = word && *word >= '0' && *word <= '9' ? strtoul(word, &end, 10) : ULONG_MAX;
    if (got >= UINT_MAX || errno || *end)
        return false;
    *number = (unsigned)got;
    return true;
}

/* Whether a text can be the name of what is mounted, here and in the words for fusermount3. */
static bool is_name(const char *text)
{
    return text && *text && strlen(text) <= 255 && !strchr(text, '\\');
}

static bool read_mount_options(char *words, struct options *options)
{
    enum { ALLOW_OTHER, READ_ONLY, NO_EXEC, NAME, UID, GID };
    char *const known[] = { [ALLOW_OTHER] = "allow_other", [READ_ONLY] = "ro",
                            [NO_EXEC] = "noexec", [NAME] = "name", [UID] = "uid", [GID] = "gid",
                            NULL };
    bool fine = true;
    char *value;
    while (fine && *words)
        switch (getsubopt(&words, known, &value)) {
        case ALLOW_OTHER: options->allow_other = true; break;
        case READ_ONLY: options->read_only = true; break;
        case NO_EXEC: options->no_exec = true; break;
        case NAME: fine = is_name(options->name = value); break;
        case UID: fine = geteuid() == 0 && read_number(value, &options->uid); break;
        case GID: fine = geteuid() == 0 && read_number(value, &options->gid); break;
        default: fine = false;
        }
    return fine;
}

/* Reads the words; where there is nothing to serve it ends the program. */
static void read_words(int count, char **words, struct options *options)
{
    enum { RETRY = 256, BACKGROUND, FOREGROUND, HELP, VERSION_WORD };
    const struct option known[] = {
        { "retry", no_argument, NULL, RETRY }, { "background", no_argument, NULL, BACKGROUND },
        { "foreground", no_argument, NULL, FOREGROUND }, { "help", no_argument, NULL, HELP },
        { "version", no_argument, NULL, VERSION_WORD }, { NULL, 0, NULL, 0 } };
    bool fine = true;
    for (int word; (word = getopt_long(count, words, "o:", known, NULL)) != -1;)
        switch (word) {
        case RETRY: options->retry = true; break;
        case BACKGROUND: options->background = true; break;
        case FOREGROUND: options->background = false; break;
        case HELP: show_help(); exit(fflush(stdout) ? STATUS_NO_MOUNT : STATUS_DONE);
        case VERSION_WORD: puts("docportal-mount " VERSION); exit(STATUS_DONE);
        case 'o': fine = fine && read_mount_options(optarg, options); break;
        default: fine = false;
        }
    if (!fine || count - optind != 2) {
        say("usage: docportal-mount [--retry] [--background] [-o OPTION,..] SOCKET FOLDER");
        exit(STATUS_USAGE);
    }
    options->socket = words[optind];
    options->folder = words[optind + 1];
}

/* The folder's whole path, or nothing where it said why not. It may be a dead mount. */
static char *find_folder(const char *folder)
{
    struct stat got;
    char *found = realpath(folder, NULL);
    if (found && stat(found, &got) == 0 && !S_ISDIR(got.st_mode)) {
        free(found);
        found = NULL;
        errno = ENOTDIR;
    }
    if (!found)
        say("%s: %s", folder, strerror(errno));
    return found;
}

int main(int argc, char **argv)
{
    struct options options = { .name = "docportal", .uid = geteuid(), .gid = getegid() };
    static struct carrier carrier;
    int waiter = -1;
    take_streams();
    read_words(argc, argv, &options);
    if (catch_signals() < 0)
        return STATUS_NO_MOUNT;
    options.folder = find_folder(options.folder);
    if (!options.folder)
        return STATUS_NO_MOUNT;
    if (options.background && (waiter = go_to_background()) < 0)
        return STATUS_NO_MOUNT;
    enum ending ending = serve_on(&options, &carrier, &waiter);
    free(options.folder);
    return status_of(&options, ending);
}
