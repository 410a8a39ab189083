#include "disk.h"

#include <errno.h>
#include <fcntl.h>
#include <stdio.h>
#include <string.h>
#include <sys/file.h>
#include <sys/stat.h>
#include <unistd.h>

static int open_file(const char *path, int flags)
{
    int file;
    do
        file = open(path, flags | O_CLOEXEC, 0600);
    while (file < 0 && errno == EINTR);
    return file;
}

/* False where the name is too long. */
static bool name(char out[LONGEST_PATH], const char *path, const char *ending)
{
    return snprintf(out, LONGEST_PATH, "%s%s", path, ending) < LONGEST_PATH;
}

static int open_directory(const char *path)
{
    char folder[LONGEST_PATH];
    name(folder, path, "");
    char *slash = strrchr(folder, '/');
    if (slash == NULL)
        return open_file(".", O_RDONLY | O_DIRECTORY);
    slash[slash == folder] = '\0';
    return open_file(folder, O_RDONLY | O_DIRECTORY);
}

/* The lock is on a file of its own, since the other is replaced. It stays open, and is never
 * removed: a process that waited to open the removed one would lock what no one else sees. */
int disk_open(struct disk *disk, const char *path)
{
    char lock[LONGEST_PATH];
    if (!name(lock, path, ".lock") || !name(disk->path, path, "")
        || !name(disk->beside, path, ".new"))
        return ENAMETOOLONG;
    disk->lock = open_file(lock, O_RDWR | O_CREAT);
    if (disk->lock < 0 || flock(disk->lock, LOCK_EX | LOCK_NB) != 0)
        return errno;
    disk->directory = open_directory(path);
    return disk->directory < 0 ? errno : 0;
}

static int read_all(int file, unsigned char *bytes, size_t room, size_t *got)
{
    *got = 0;
    while (*got < room) {
        ssize_t more = read(file, bytes + *got, room - *got);
        if (more == 0)
            break;
        if (more > 0)
            *got += (size_t)more;
        else if (errno != EINTR)
            return errno;
    }
    return 0;
}

static bool is_link(const char *path)
{
    struct stat about;
    return lstat(path, &about) == 0 && S_ISLNK(about.st_mode);
}

static bool is_regular(int file)
{
    struct stat about;
    return fstat(file, &about) == 0 && S_ISREG(about.st_mode);
}

/* Only ENOENT means that there is no file yet: whatever else goes wrong, there may be a register
 * that must not be replaced by an empty one. A link that leads nowhere, to a disk that is not
 * mounted, say, is no missing file either. A link to a register is refused, too: its lock would be
 * another one, and rename would put a file in its place. */
int disk_read(const struct disk *disk, void *bytes, size_t room, size_t *got, bool *there)
{
    bool link = is_link(disk->path);
    int file = open_file(disk->path, O_RDONLY | O_NONBLOCK);
    int error = file < 0 ? errno : 0;
    *there = link || error != ENOENT;
    if (file < 0)
        return *there ? error : 0;
    error = link && is_regular(file) ? ELOOP : read_all(file, bytes, room, got);
    close(file);
    return error;
}

static int write_all(int file, const unsigned char *bytes, size_t count)
{
    while (count > 0) {
        ssize_t put = write(file, bytes, count);
        if (put == 0)
            return EIO;
        if (put > 0) {
            bytes += put;
            count -= (size_t)put;
        } else if (errno != EINTR) {
            return errno;
        }
    }
    return 0;
}

static int sync_file(int file)
{
    int done;
    do
        done = fsync(file);
    while (done != 0 && errno == EINTR);
    return done == 0 ? 0 : errno;
}

/* After a failed fsync a second one may say that all is well though words are lost. So it is never
 * repeated: the file is removed, and the next keeping writes another. */
int disk_write_beside(const struct disk *disk, const void *bytes, size_t count)
{
    int file = open_file(disk->beside, O_WRONLY | O_CREAT | O_TRUNC);
    if (file < 0)
        return errno;
    int error = write_all(file, bytes, count);
    if (error == 0)
        error = sync_file(file);
    /* Interrupted, it is closed all the same, and what it has is on the disk. */
    if (close(file) != 0 && errno != EINTR && error == 0)
        error = errno;
    if (error != 0)
        unlink(disk->beside);
    return error;
}

/* Over a network a rename can be made and still be reported as failed. Then the new file is no
 * longer beside the old one. */
int disk_swap(const struct disk *disk, bool *swapped)
{
    *swapped = rename(disk->beside, disk->path) == 0;
    if (*swapped)
        return disk_settle(disk);
    int error = errno;
    *swapped = unlink(disk->beside) != 0 && errno == ENOENT;
    return error;
}

int disk_settle(const struct disk *disk)
{
    return sync_file(disk->directory);
}
