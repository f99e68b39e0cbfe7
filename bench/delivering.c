/* Events to a receiver, without the store around them: the connections, and the writes and syncs of a delivery.
 *
 * delivering receive prints a port of 127.0.0.1, and answers each request there by a 204, one connection after another,
 * until it is ended. delivering send FILE BLOCKS PORT EVENTS makes a connection for each event, says a request of the
 * usual size, and hears the answer; then it writes 22 bytes behind a gate, syncs, writes the gate's byte, and syncs. It
 * prints the seconds that this took.
 */
#define _POSIX_C_SOURCE 200809L
#include <arpa/inet.h>
#include <fcntl.h>
#include <netinet/in.h>
#include <netinet/tcp.h>
#include <stdio.h>
#include <stdlib.h>
#include <string.h>
#include <sys/socket.h>
#include <time.h>
#include <unistd.h>

enum { BLOCK = 4096, RECORD = 22, FIRST = 8213, MOST = 16384 };

static const char ACCEPTED[] = "HTTP/1.1 204 No Content\r\n\r\n";
static const char HEAD[] = "POST /events HTTP/1.1\r\nHost: 127.0.0.1:%d\r\nContent-Type: application/json\r\n"
                           "Content-Length: %zu\r\nConnection: close\r\n\r\n%s";
static const char BODY[] = "{\"event\":{\"flow_id\":\"00000000-0000-4000-8000-0000000000f1\"},"
                           "\"event_id\":\"00000000-0000-4000-8000-000000000001-1000\","
                           "\"event_timestamp\":\"1970-01-01T00:00:00Z\",\"event_type\":\"flows/updated\"}";

static void fail(const char *what) {
    perror(what);
    exit(1);
}

static double seconds(void) {
    struct timespec now;
    clock_gettime(CLOCK_MONOTONIC, &now);
    return (double)now.tv_sec + (double)now.tv_nsec / 1e9;
}

static struct sockaddr_in address_of(int port) {
    struct sockaddr_in address = {.sin_family = AF_INET, .sin_port = htons((unsigned short)port)};
    address.sin_addr.s_addr = htonl(INADDR_LOOPBACK);
    return address;
}

static void say(int peer, const char *bytes, size_t count) {
    for (size_t said = 0; said < count;) {
        ssize_t more = send(peer, bytes + said, count - said, MSG_NOSIGNAL);
        if (more <= 0)
            fail("send");
        said += (size_t)more;
    }
}

/* Hears bytes up to those that end a head, and says how many bytes it has heard. */
static size_t hear_head(int peer, char *heard) {
    size_t count = 0;
    for (;;) {
        ssize_t more = recv(peer, heard + count, MOST - count, 0);
        if (more <= 0)
            fail("recv");
        count += (size_t)more;
        heard[count] = 0;
        if (strstr(heard, "\r\n\r\n"))
            return count;
    }
}

static void hear_request(int peer, char *heard) {
    size_t count = hear_head(peer, heard);
    const char *length = strstr(heard, "Content-Length: ");
    size_t whole = (size_t)(strstr(heard, "\r\n\r\n") - heard) + 4;
    whole += length ? (size_t)atol(length + 16) : 0;
    while (count < whole) {
        ssize_t more = recv(peer, heard + count, MOST - count, 0);
        if (more <= 0)
            fail("recv");
        count += (size_t)more;
    }
}

static void receive_all(void) {
    static char heard[MOST + 1];
    int listener = socket(AF_INET, SOCK_STREAM, 0);
    struct sockaddr_in address = address_of(0);
    socklen_t size = sizeof address;
    if (listener < 0 || bind(listener, (struct sockaddr *)&address, size) || listen(listener, 128) ||
        getsockname(listener, (struct sockaddr *)&address, &size))
        fail("listen");
    printf("%d\n", ntohs(address.sin_port));
    fflush(stdout);
    for (;;) {
        int peer = accept(listener, NULL, NULL);
        if (peer < 0)
            fail("accept");
        hear_request(peer, heard);
        say(peer, ACCEPTED, sizeof ACCEPTED - 1);
        close(peer);
    }
}

static void exchange(int port) {
    static char request[1024], heard[MOST + 1];
    int on = 1, peer = socket(AF_INET, SOCK_STREAM, 0);
    struct sockaddr_in address = address_of(port);
    if (peer < 0 || connect(peer, (struct sockaddr *)&address, sizeof address))
        fail("connect");
    if (setsockopt(peer, IPPROTO_TCP, TCP_NODELAY, &on, sizeof on))
        fail("setsockopt");
    int count = snprintf(request, sizeof request, HEAD, port, sizeof BODY - 1, BODY);
    say(peer, request, (size_t)count);
    hear_head(peer, heard);
    if (strncmp(heard, "HTTP/1.1 2", 10)) {
        fprintf(stderr, "delivering: not accepted\n");
        exit(1);
    }
    close(peer);
}

static void write_at(int file, const void *bytes, size_t count, off_t at) {
    if (pwrite(file, bytes, count, at) != (ssize_t)count)
        fail("pwrite");
}

static void sync_all(int file) {
    if (fdatasync(file) != 0)
        fail("fdatasync");
}

static void send_all(int file, int port, long events) {
    unsigned char record[RECORD], gate = 1;
    memset(record, 7, sizeof record);
    off_t at = FIRST;
    for (long event = 0; event < events; event++) {
        exchange(port);
        write_at(file, record, sizeof record, at + 1);
        sync_all(file);
        write_at(file, &gate, 1, at);
        sync_all(file);
        at += RECORD;
    }
}

int main(int count, char **words) {
    if (count == 2 && !strcmp(words[1], "receive")) {
        receive_all();
        return 0;
    }
    if (count != 6 || strcmp(words[1], "send")) {
        fprintf(stderr, "delivering receive, or delivering send FILE BLOCKS PORT EVENTS\n");
        return 1;
    }
    int file = open(words[2], O_RDWR | O_CREAT, 0600);
    if (file < 0)
        fail("open");
    if (ftruncate(file, (off_t)atoll(words[3]) * BLOCK) != 0)
        fail("ftruncate");
    if (fsync(file) != 0)
        fail("fsync");
    double start = seconds();
    send_all(file, atoi(words[4]), atol(words[5]));
    printf("%.6f\n", seconds() - start);
    return 0;
}
