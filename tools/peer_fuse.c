/* A peer to measure beside: libfuse's own loop over one connection of a socket, and one file.
 *
 * usage: peer_fuse SOCKET FILE      (paths; a line on standard output once it listens)
 *
 * The file is `a.txt` in the folder of node 2, which is any name below the root.
 */
#define FUSE_USE_VERSION 314
#include <errno.h>
#include <fcntl.h>
#include <fuse_lowlevel.h>
#include <stdio.h>
#include <stdlib.h>
#include <string.h>
#include <sys/socket.h>
#include <sys/stat.h>
#include <sys/un.h>
#include <unistd.h>

enum { FOLDER = 2, FILE_NODE = 3, ROOM = 1 << 22 };

static const char *path;
static char room[ROOM];
static size_t held, begun;

/* The next request as a whole: a socket has no bounds between them, as the kernel's device has. */
static ssize_t next_request(int fd, void *buffer, size_t size, void *data) {
    (void)data;
    for (;;) {
        uint32_t length = 0;
        if (held - begun >= 4) memcpy(&length, room + begun, 4);
        if (length && held - begun >= length) {
            if (length > size) return -EIO;
            memcpy(buffer, room + begun, length);
            begun += length;
            return length;
        }
        if (begun) memmove(room, room + begun, held - begun), held -= begun, begun = 0;
        ssize_t n = recv(fd, room + held, sizeof room - held, 0);
        if (n < 0 && errno == EINTR) continue;
        if (n <= 0) return n ? -errno : -ENODEV;
        held += (size_t)n;
    }
}

static ssize_t answer(int fd, struct iovec *parts, int count, void *data) {
    (void)data;
    size_t wanted = 0;
    for (int n = 0; n < count; n++) wanted += parts[n].iov_len;
    ssize_t sent = writev(fd, parts, count);
    while (sent >= 0 && (size_t)sent < wanted) {
        size_t gone = (size_t)sent;
        for (int n = 0; n < count; n++) {
            if (gone >= parts[n].iov_len) {
                gone -= parts[n].iov_len;
                continue;
            }
            ssize_t more = write(fd, (char *)parts[n].iov_base + gone, parts[n].iov_len - gone);
            if (more < 0) return -1;
            sent += more;
            break;
        }
    }
    return sent;
}

static int seen(fuse_ino_t node, struct stat *found) {
    memset(found, 0, sizeof *found);
    if (node == FILE_NODE && stat(path, found)) return errno;
    if (node != FILE_NODE) found->st_mode = S_IFDIR | 0755;
    found->st_ino = node;
    return 0;
}

static void look_up(fuse_req_t request, fuse_ino_t folder, const char *name) {
    (void)name;
    struct fuse_entry_param entry = {.ino = folder == FUSE_ROOT_ID ? FOLDER : FILE_NODE};
    int error = seen(entry.ino, &entry.attr);
    error ? fuse_reply_err(request, error) : fuse_reply_entry(request, &entry);
}

static void attributes(fuse_req_t request, fuse_ino_t node, struct fuse_file_info *file) {
    (void)file;
    struct stat found;
    int error = seen(node, &found);
    error ? fuse_reply_err(request, error) : fuse_reply_attr(request, &found, 0);
}

static void open_file(fuse_req_t request, fuse_ino_t node, struct fuse_file_info *file) {
    (void)node;
    int fd = open(path, O_RDWR);
    if (fd < 0) {
        fuse_reply_err(request, errno);
        return;
    }
    file->fh = (uint64_t)fd;
    fuse_reply_open(request, file);
}

static void read_file(fuse_req_t request, fuse_ino_t node, size_t size, off_t at,
                      struct fuse_file_info *file) {
    (void)node;
    static char bytes[ROOM];
    ssize_t got = pread((int)file->fh, bytes, size < sizeof bytes ? size : sizeof bytes, at);
    got < 0 ? fuse_reply_err(request, errno) : fuse_reply_buf(request, bytes, (size_t)got);
}

static void write_file(fuse_req_t request, fuse_ino_t node, const char *bytes, size_t size, off_t at,
                       struct fuse_file_info *file) {
    (void)node;
    ssize_t put = pwrite((int)file->fh, bytes, size, at);
    put < 0 ? fuse_reply_err(request, errno) : fuse_reply_write(request, (size_t)put);
}

static const struct fuse_lowlevel_ops calls = {
    .lookup = look_up, .getattr = attributes, .open = open_file, .read = read_file, .write = write_file,
};
static const struct fuse_custom_io over_socket = {.writev = answer, .read = next_request};

int main(int argc, char **argv) {
    struct sockaddr_un address = {.sun_family = AF_UNIX};
    if (argc != 3 || strlen(argv[1]) >= sizeof address.sun_path) return 2;
    strcpy(address.sun_path, argv[1]);
    path = argv[2];
    int listener = socket(AF_UNIX, SOCK_STREAM, 0);
    if (bind(listener, (struct sockaddr *)&address, sizeof address) || listen(listener, 16)) return 1;
    puts("listens");
    fflush(stdout);
    for (int client; (client = accept(listener, NULL, NULL)) >= 0;) {
        char *words[] = {argv[0], NULL};
        struct fuse_args args = FUSE_ARGS_INIT(1, words);
        struct fuse_session *session = fuse_session_new(&args, &calls, sizeof calls, NULL);
        held = begun = 0;
        if (!session || fuse_session_custom_io(session, &over_socket, client)) return 1;
        fuse_session_loop(session);
        fuse_session_destroy(session);
        close(client);
    }
    return 1;
}
