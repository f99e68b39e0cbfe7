/* The ceiling of durable changes: the writes and syncs of records, without the store around them.
 *
 * ceiling FILE BLOCKS CHANGES writes, for each change, 63 bytes behind a gate, syncs, writes the gate's
 * byte, and syncs. ceiling FILE BLOCKS OBJECTS LENGTH writes, for each object, so many bytes at the end of
 * the file in pieces of 64 KiB, syncs, writes 64 bytes behind the ones before, and syncs. It prints the
 * seconds that this took.
 */
#define _POSIX_C_SOURCE 200809L
#include <fcntl.h>
#include <stdio.h>
#include <stdlib.h>
#include <string.h>
#include <time.h>
#include <unistd.h>

enum { BLOCK = 4096, FRAME = 63, FIRST = 8213, PIECE = 65536 };

static void fail(const char *what) {
    perror(what);
    exit(1);
}

static void write_at(int file, const void *bytes, size_t count, off_t at) {
    if (pwrite(file, bytes, count, at) != (ssize_t)count)
        fail("pwrite");
}

static void sync_all(int file) {
    if (fdatasync(file) != 0)
        fail("fdatasync");
}

static double seconds(void) {
    struct timespec now;
    clock_gettime(CLOCK_MONOTONIC, &now);
    return (double)now.tv_sec + (double)now.tv_nsec / 1e9;
}

static void put_changes(int file, long changes) {
    unsigned char frame[FRAME];
    memset(frame, 7, sizeof frame);
    unsigned char gate = 1;
    off_t at = FIRST;
    for (long change = 0; change < changes; change++) {
        write_at(file, frame, sizeof frame, at + 1);
        sync_all(file);
        write_at(file, &gate, 1, at);
        sync_all(file);
        at += FRAME;
    }
}

static void put_objects(int file, off_t size, long objects, long length) {
    static unsigned char piece[PIECE];
    for (size_t place = 0; place < sizeof piece; place++)
        piece[place] = (unsigned char)(place * 2654435761u >> 13);
    unsigned char record[FRAME + 1];
    memset(record, 7, sizeof record);
    off_t record_at = FIRST, at = size - (off_t)objects * length;
    if (at < FIRST + (off_t)objects * (off_t)sizeof record) {
        fprintf(stderr, "ceiling: too few blocks\n");
        exit(1);
    }
    for (long object = 0; object < objects; object++) {
        for (long left = length; left > 0; left -= PIECE) {
            size_t count = left < PIECE ? (size_t)left : PIECE;
            write_at(file, piece, count, at);
            at += (off_t)count;
        }
        sync_all(file);
        write_at(file, record, sizeof record, record_at);
        sync_all(file);
        record_at += (off_t)sizeof record;
    }
}

int main(int count, char **words) {
    if (count != 4 && count != 5) {
        fprintf(stderr, "ceiling FILE BLOCKS CHANGES, or ceiling FILE BLOCKS OBJECTS LENGTH\n");
        return 1;
    }
    off_t size = (off_t)atoll(words[2]) * BLOCK;
    int file = open(words[1], O_RDWR | O_CREAT, 0600);
    if (file < 0)
        fail("open");
    if (ftruncate(file, size) != 0)
        fail("ftruncate");
    if (fsync(file) != 0)
        fail("fsync");
    double start = seconds();
    if (count == 4)
        put_changes(file, atol(words[3]));
    else
        put_objects(file, size, atol(words[3]), atol(words[4]));
    printf("%.6f\n", seconds() - start);
    return 0;
}
