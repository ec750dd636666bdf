/* A peer to measure beside: libsystemd's own server of D-Bus, one connection at a time.
 *
 * usage: peer_bus SOCKET      (a path; a line on standard output once it listens)
 *
 * It answers Ping as every server of libsystemd does, and Info with a path and one application's
 * permissions, as a call on documents is answered.
 */
#include <stdio.h>
#include <string.h>
#include <sys/socket.h>
#include <sys/un.h>
#include <systemd/sd-bus.h>
#include <unistd.h>

static int info(sd_bus_message *call, void *data, sd_bus_error *error) {
    (void)data;
    (void)error;
    const char *document;
    sd_bus_message *answer = NULL;
    int r = sd_bus_message_read(call, "s", &document);
    if (r >= 0) r = sd_bus_message_new_method_return(call, &answer);
    if (r >= 0) r = sd_bus_message_append_array(answer, 'y', "/a.txt", 7);
    if (r >= 0) r = sd_bus_message_append(answer, "a{sas}", 1, "org.ed", 2, "read", "write");
    if (r >= 0) r = sd_bus_send(NULL, answer, NULL);
    sd_bus_message_unref(answer);
    return r;
}

static const sd_bus_vtable calls[] = {
    SD_BUS_VTABLE_START(0),
    SD_BUS_METHOD("Info", "s", "aya{sas}", info, SD_BUS_VTABLE_UNPRIVILEGED),
    SD_BUS_VTABLE_END,
};

static void serve(int client) {
    sd_bus *bus = NULL;
    sd_id128_t id = SD_ID128_NULL;
    if (sd_id128_randomize(&id) >= 0 && sd_bus_new(&bus) >= 0 && sd_bus_set_fd(bus, client, client) >= 0
        && sd_bus_set_server(bus, 1, id) >= 0
        && sd_bus_add_object_vtable(bus, NULL, "/org/freedesktop/portal/documents",
                                    "org.freedesktop.portal.Documents", calls, NULL) >= 0
        && sd_bus_start(bus) >= 0) {
        for (int r = 0; r >= 0;) {
            r = sd_bus_process(bus, NULL);
            if (r == 0) r = sd_bus_wait(bus, UINT64_MAX);
        }
    }
    sd_bus_close_unref(bus);
}

int main(int argc, char **argv) {
    struct sockaddr_un address = {.sun_family = AF_UNIX};
    if (argc != 2 || strlen(argv[1]) >= sizeof address.sun_path) return 2;
    strcpy(address.sun_path, argv[1]);
    int listener = socket(AF_UNIX, SOCK_STREAM, 0);
    if (bind(listener, (struct sockaddr *)&address, sizeof address) || listen(listener, 16)) return 1;
    puts("listens");
    fflush(stdout);
    for (int client; (client = accept(listener, NULL, NULL)) >= 0;) serve(client);
    return 1;
}
