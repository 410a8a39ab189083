/* A file that is replaced as a whole: whoever opens it, after a crash or a power cut too, finds
 * the old words or the new ones.
 *
 * Where a function gives an int, it is 0 or the number of an error (errno). */
#ifndef DISK_H
#define DISK_H

#include <stdbool.h>
#include <stddef.h>
#include <stdint.h>

enum { LONGEST_PATH = 4096 };

struct disk {
    char path[LONGEST_PATH];
    char beside[LONGEST_PATH]; /* the new file, before it takes the name */
    int directory, lock;
};

/* Takes the lock of the file, which the kernel frees when the process ends, however it ends.
 * EWOULDBLOCK: another process has it. */
int disk_open(struct disk *disk, const char *path);

/* Reads the whole file, or as much as there is room for. No error, and not there: no file yet. */
int disk_read(const struct disk *disk, void *bytes, size_t room, size_t *got, bool *there);

/* Writes the new file, and has it on the disk. On error it is removed, so that a full disk has room
 * again. */
int disk_write_beside(const struct disk *disk, const void *bytes, size_t count);

/* Lets it take the name of the old one. On error swapped tells whether it may have done so. */
int disk_swap(const struct disk *disk, bool *swapped);

/* Has the names in the directory on the disk. */
int disk_settle(const struct disk *disk);

#endif
