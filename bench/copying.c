/* A server of media that copies: the calls of the system that the store makes, without the store around them.
 *
 * copying PORT FILE OBJECTS LENGTH CONNECTIONS [PIECE] makes room in the file for so many objects of so many
 * bytes each, behind its first megabyte. It answers so many connections to 127.0.0.1, one after the other, and
 * ends. A piece has 64 KiB where no other size is given. The digits at the end of a target number its object.
 *
 * A GET says the head, and then reads the object piece by piece and sends each. A PUT receives the object in
 * pieces and writes each, as it comes, at its place, and syncs; it writes 64 bytes of a record behind a closed
 * gate, and syncs; it writes the gate's byte, and syncs. Of HTTP it knows what the client of serve.py sends.
 */
#define _POSIX_C_SOURCE 200809L
#include <arpa/inet.h>
#include <ctype.h>
#include <fcntl.h>
#include <netinet/in.h>
#include <netinet/tcp.h>
#include <stdio.h>
#include <stdlib.h>
#include <string.h>
#include <sys/socket.h>
#include <unistd.h>

enum { RECORD = 64, FIRST = 8213, START = 1024 * 1024, PIECE = 65536, LEAST_PIECE = 4096 };

/* What is served: the file and its objects, and the place of the next record's gate. */
struct store {
    int file;
    long objects, length;
    off_t gate_at;
};

/* A connection, and the room for a piece of what it sends or is sent, with a zero behind it. */
struct peer {
    int socket;
    char *room;
    size_t piece;
};

static void fail(const char *what) {
    perror(what);
    exit(1);
}

static void refuse(const char *what) {
    fprintf(stderr, "copying: %s\n", what);
    exit(1);
}

static void write_at(int file, const void *bytes, size_t count, off_t at) {
    if (pwrite(file, bytes, count, at) != (ssize_t)count)
        fail("pwrite");
}

static void read_at(int file, void *bytes, size_t count, off_t at) {
    if (pread(file, bytes, count, at) != (ssize_t)count)
        fail("pread");
}

static void sync_all(int file) {
    if (fdatasync(file) != 0)
        fail("fdatasync");
}

static void send_all(int peer, const char *bytes, size_t count) {
    while (count > 0) {
        ssize_t sent = send(peer, bytes, count, MSG_NOSIGNAL);
        if (sent < 0)
            fail("send");
        bytes += sent;
        count -= (size_t)sent;
    }
}

/* How many bytes came, of so many at most; none at their end. */
static size_t receive(int peer, char *bytes, size_t count) {
    ssize_t received = recv(peer, bytes, count, 0);
    if (received < 0)
        fail("recv");
    return (size_t)received;
}

/* Receives until a head is whole, and says how many bytes it has; none where the peer ended before it. What
 * came is then so many bytes from the beginning of the room on. */
static size_t receive_head(const struct peer *peer, size_t *came) {
    *came = 0;
    for (;;) {
        size_t received = receive(peer->socket, peer->room + *came, peer->piece - *came);
        *came += received;
        peer->room[*came] = 0;
        const char *end = strstr(peer->room, "\r\n\r\n");
        if (end)
            return (size_t)(end - peer->room) + 4;
        if (received == 0 && *came == 0)
            return 0;
        if (received == 0 || *came == peer->piece)
            refuse("no whole head came");
    }
}

/* Where the object lies that the target of a head names. */
static off_t place_of(const struct store *store, const char *head) {
    const char *end = strchr(head + strlen("GET "), ' ');
    if (!end)
        refuse("a head has no target");
    const char *digits = end;
    while (isdigit((unsigned char)digits[-1]))
        digits--;
    long number = atol(digits);
    if (digits == end || number < 0 || number >= store->objects)
        refuse("a target names no object");
    return START + (off_t)number * store->length;
}

static void give_object(const struct store *store, const struct peer *peer, off_t at) {
    char head[80];
    int count = snprintf(head, sizeof head, "HTTP/1.1 200 OK\r\nContent-Length: %ld\r\n\r\n", store->length);
    send_all(peer->socket, head, (size_t)count);
    for (size_t left = (size_t)store->length; left > 0;) {
        size_t piece = left < peer->piece ? left : peer->piece;
        read_at(store->file, peer->room, piece, at);
        send_all(peer->socket, peer->room, piece);
        at += (off_t)piece;
        left -= piece;
    }
}

/* Writes and syncs a record behind its closed gate, and then opens that and syncs. A record ends with the closed
 * gate of the next one. */
static void keep_record(struct store *store) {
    unsigned char record[RECORD], gate = 1;
    memset(record, 7, sizeof record);
    record[RECORD - 1] = 0;
    if (store->gate_at + 1 + RECORD > START)
        refuse("too many records");
    write_at(store->file, record, sizeof record, store->gate_at + 1);
    sync_all(store->file);
    write_at(store->file, &gate, 1, store->gate_at);
    sync_all(store->file);
    store->gate_at += RECORD;
}

/* Receives an object of which some bytes came with its head. */
static void take_object(struct store *store, const struct peer *peer, const char *front, size_t count, off_t at) {
    static const char created[] = "HTTP/1.1 201 Created\r\nContent-Length: 0\r\n\r\n";
    size_t left = (size_t)store->length;
    if (count > left)
        refuse("a request came before the answer to the one before it");
    while (left > 0) {
        write_at(store->file, front, count, at);
        at += (off_t)count;
        left -= count;
        if (left == 0)
            break;
        count = receive(peer->socket, peer->room, left < peer->piece ? left : peer->piece);
        if (count == 0)
            refuse("no whole body came");
        front = peer->room;
    }
    sync_all(store->file);
    keep_record(store);
    send_all(peer->socket, created, sizeof created - 1);
}

static void answer(struct store *store, const struct peer *peer) {
    size_t came, head;
    while ((head = receive_head(peer, &came)) > 0) {
        int gives = strncmp(peer->room, "GET /media/", 11) == 0;
        if (!gives && strncmp(peer->room, "PUT /media/", 11) != 0)
            refuse("a request is neither the GET nor the PUT of an object");
        off_t at = place_of(store, peer->room);
        const char *length = strstr(peer->room, "\r\nContent-Length: ");
        if (gives && !length && came == head)
            give_object(store, peer, at);
        else if (!gives && length && atol(length + 18) == store->length)
            take_object(store, peer, peer->room + head, came - head, at);
        else
            refuse("a request has another length than the objects, or more follows it");
    }
}

static int listener_of(int port) {
    int listener = socket(AF_INET, SOCK_STREAM, 0), yes = 1;
    struct sockaddr_in address = {.sin_family = AF_INET, .sin_port = htons((unsigned short)port)};
    address.sin_addr.s_addr = htonl(INADDR_LOOPBACK);
    if (listener < 0)
        fail("socket");
    if (setsockopt(listener, SOL_SOCKET, SO_REUSEADDR, &yes, sizeof yes) != 0)
        fail("setsockopt");
    if (bind(listener, (struct sockaddr *)&address, sizeof address) != 0)
        fail("bind");
    if (listen(listener, 16) != 0)
        fail("listen");
    return listener;
}

static struct store store_of(const char *path, long objects, long length) {
    struct store store = {.objects = objects, .length = length, .gate_at = FIRST};
    store.file = open(path, O_RDWR | O_CREAT, 0600);
    if (store.file < 0)
        fail("open");
    if (ftruncate(store.file, START + (off_t)objects * length) != 0)
        fail("ftruncate");
    if (fsync(store.file) != 0)
        fail("fsync");
    return store;
}

int main(int count, char **words) {
    if (count != 6 && count != 7)
        refuse("PORT FILE OBJECTS LENGTH CONNECTIONS [PIECE]");
    struct store store = store_of(words[2], atol(words[3]), atol(words[4]));
    struct peer peer = {.piece = count == 7 ? (size_t)atol(words[6]) : PIECE};
    if (peer.piece < LEAST_PIECE)
        refuse("a piece is too small for a head");
    peer.room = malloc(peer.piece + 1);
    if (!peer.room)
        fail("malloc");
    int listener = listener_of(atoi(words[1])), yes = 1;
    for (long left = atol(words[5]); left > 0; left--) {
        peer.socket = accept(listener, NULL, NULL);
        if (peer.socket < 0)
            fail("accept");
        if (setsockopt(peer.socket, IPPROTO_TCP, TCP_NODELAY, &yes, sizeof yes) != 0)
            fail("setsockopt");
        answer(&store, &peer);
        close(peer.socket);
    }
    free(peer.room);
    return 0;
}
