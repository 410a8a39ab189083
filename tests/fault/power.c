/* A disk that forgets: what a power cut may undo, noted while an office runs (LD_PRELOAD).
 *
 * A rename is on the disk for good only once its directory has been synced after it. What a file
 * has is there only once that file has been synced. So each rename leaves a note in the folder
 * POWER_JOURNAL, and a hard link to the file that had the name before; a sync of the directory
 * takes the note away. Where the file that got the name had not been synced as it stood, the note
 * says torn, and stays until the file is synced. After a cut, power.py undoes what the notes tell.
 *
 * The notes are in the folder only, not in memory: a process that is killed takes nothing with it
 * that the disk has not, and the next one finds them. The true sync is left out: nobody cuts the
 * power here. Instead it takes POWER_SLOW microseconds, so that a kill hits the moment before it
 * is done.
 *
 * A note is NUMBER.note, two lines: `old|absent|named whole|torn sure|doubt DIR FILE` (the numbers
 * of the inodes) and the path. named: the name is there for good and only the content is torn.
 * NUMBER.old is the file that had the name.
 *
 * Where there is a file POWER_FAIL, syncs fail: those of directories if it begins with d, those of
 * files if with f. A rename that a failed sync left behind is in doubt: a later sync that says all
 * is well does not mend it, only another rename does. */
#include <dirent.h>
#include <errno.h>
#include <fcntl.h>
#include <libgen.h>
#include <stdint.h>
#include <stdio.h>
#include <stdlib.h>
#include <string.h>
#include <sys/stat.h>
#include <sys/syscall.h>
#include <unistd.h>

struct note {
    char old[8], state[8], doubt[8], path[3000];
    unsigned long directory, file;
};

/* Files as they were when synced last: their content as one number. */
static struct { unsigned long file; uint64_t content; } synced[16];
static unsigned synced_next;

static const char *folder(void)
{
    const char *journal = getenv("POWER_JOURNAL");
    if (journal == NULL)
        abort();
    return journal;
}

static void place(char *name, size_t size, const char *file)
{
    if (snprintf(name, size, "%s/%s", folder(), file) >= (int)size)
        abort();
}

static uint64_t content_of(int file)
{
    unsigned char part[4096];
    uint64_t sum = 14695981039346656037u;
    off_t at = 0;
    ssize_t got;
    while ((got = pread(file, part, sizeof part, at)) > 0) {
        for (ssize_t i = 0; i < got; i++)
            sum = (sum ^ part[i]) * 1099511628211u;
        at += got;
    }
    return sum;
}

/* A file may be open for writing only: it is read by another descriptor. */
static uint64_t content_of_open(int file)
{
    char path[64];
    snprintf(path, sizeof path, "/proc/self/fd/%d", file);
    int again = open(path, O_RDONLY | O_CLOEXEC);
    uint64_t content = content_of(again);
    close(again);
    return content;
}

static int is_synced(const char *path, unsigned long inode)
{
    int file = open(path, O_RDONLY | O_CLOEXEC);
    uint64_t content = content_of(file);
    close(file);
    for (unsigned i = 0; i < 16; i++)
        if (synced[i].file == inode && synced[i].content == content)
            return 1;
    return 0;
}

static void write_note(const char *file, const struct note *note)
{
    char fresh[4096], name[4096];
    place(fresh, sizeof fresh, "fresh");
    place(name, sizeof name, file);
    FILE *out = fopen(fresh, "w");
    if (out == NULL)
        abort();
    fprintf(out, "%s %s %s %lu %lu\n%s\n", note->old, note->state, note->doubt, note->directory,
            note->file, note->path);
    fclose(out);
    syscall(SYS_rename, fresh, name);
}

static int read_note(const char *file, struct note *note)
{
    char name[4096];
    place(name, sizeof name, file);
    FILE *in = fopen(name, "r");
    if (in == NULL)
        return 0;
    int got = fscanf(in, "%7s %7s %7s %lu %lu %2999s", note->old, note->state, note->doubt,
                     &note->directory, &note->file, note->path);
    fclose(in);
    return got == 6;
}

static void old_name(char *name, size_t size, const char *file)
{
    place(name, size, file);
    strcpy(strrchr(name, '.'), ".old");
}

/* First the note, then the old file: half done, it is as if the directory were on the disk. */
static void drop(const char *file)
{
    char name[4096];
    place(name, sizeof name, file);
    unlink(name);
    old_name(name, sizeof name, file);
    unlink(name);
}

static int is_note(const struct dirent *entry)
{
    return strstr(entry->d_name, ".note") != NULL;
}

struct visit {
    unsigned long inode;
    int last; /* no later rename has a note */
};

/* The oldest first: the disk keeps renames in the order in which they were made. */
static void each_note(void (*see)(const char *file, struct note *note, const struct visit *visit),
                      unsigned long inode)
{
    struct dirent **entries;
    int count = scandir(folder(), &entries, is_note, alphasort);
    for (int i = 0; i < count; i++) {
        struct note note;
        struct visit visit = { inode, i == count - 1 };
        if (read_note(entries[i]->d_name, &note))
            see(entries[i]->d_name, &note, &visit);
        free(entries[i]);
    }
    if (count >= 0)
        free(entries);
}

static void directory_synced(const char *file, struct note *note, const struct visit *visit)
{
    if (note->directory != visit->inode || (visit->last && strcmp(note->doubt, "doubt") == 0))
        return;
    if (strcmp(note->state, "whole") == 0) {
        drop(file);
        return;
    }
    strcpy(note->old, "named");
    write_note(file, note);
}

static void directory_failed(const char *file, struct note *note, const struct visit *visit)
{
    if (note->directory != visit->inode)
        return;
    strcpy(note->doubt, "doubt");
    write_note(file, note);
}

static void file_synced(const char *file, struct note *note, const struct visit *visit)
{
    if (note->file != visit->inode)
        return;
    if (strcmp(note->old, "named") == 0) {
        drop(file);
        return;
    }
    strcpy(note->state, "whole");
    write_note(file, note);
}

static void take_time(void)
{
    const char *slow = getenv("POWER_SLOW");
    if (slow != NULL)
        usleep((useconds_t)strtoul(slow, NULL, 10));
}

static int is_to_fail(char kind)
{
    const char *path = getenv("POWER_FAIL");
    FILE *file = path == NULL ? NULL : fopen(path, "r");
    if (file == NULL)
        return 0;
    int first = fgetc(file);
    fclose(file);
    return first == kind;
}

static int fail_sync(const struct stat *stat)
{
    if (S_ISDIR(stat->st_mode))
        each_note(directory_failed, stat->st_ino);
    errno = EIO;
    return -1;
}

int fsync(int file)
{
    struct stat stat;
    if (fstat(file, &stat) != 0)
        return -1;
    take_time();
    if (is_to_fail(S_ISDIR(stat.st_mode) ? 'd' : 'f'))
        return fail_sync(&stat);
    if (S_ISDIR(stat.st_mode)) {
        each_note(directory_synced, stat.st_ino);
        return 0;
    }
    synced[synced_next % 16].file = stat.st_ino;
    synced[synced_next++ % 16].content = content_of_open(file);
    each_note(file_synced, stat.st_ino);
    return 0;
}

int fdatasync(int file)
{
    return fsync(file);
}

static void next_name(char *name, size_t size)
{
    struct dirent **entries;
    unsigned long last = 0;
    int count = scandir(folder(), &entries, is_note, alphasort);
    for (int i = 0; i < count; i++) {
        last = strtoul(entries[i]->d_name, NULL, 10);
        free(entries[i]);
    }
    if (count >= 0)
        free(entries);
    snprintf(name, size, "%08lu.note", last + 1);
}

static void note_rename(const char *from, const char *to)
{
    struct note note = { .old = "absent", .state = "torn", .doubt = "sure" };
    struct stat file, directory;
    char parent[3000], name[32], old[4096];
    snprintf(note.path, sizeof note.path, "%s", to);
    snprintf(parent, sizeof parent, "%s", to);
    if (stat(from, &file) != 0 || stat(dirname(parent), &directory) != 0)
        return;
    note.file = file.st_ino;
    note.directory = directory.st_ino;
    if (is_synced(from, file.st_ino))
        strcpy(note.state, "whole");
    next_name(name, sizeof name);
    old_name(old, sizeof old, name);
    unlink(old);
    if (link(to, old) == 0)
        strcpy(note.old, "old");
    write_note(name, &note);
}

int renameat2(int from_dir, const char *from, int to_dir, const char *to, unsigned flags)
{
    if (from_dir != AT_FDCWD || to_dir != AT_FDCWD)
        abort(); /* the example has no need of it */
    note_rename(from, to);
    take_time();
    return (int)syscall(SYS_renameat2, from_dir, from, to_dir, to, flags);
}

int renameat(int from_dir, const char *from, int to_dir, const char *to)
{
    return renameat2(from_dir, from, to_dir, to, 0);
}

int rename(const char *from, const char *to)
{
    return renameat2(AT_FDCWD, from, AT_FDCWD, to, 0);
}
