#include "line.h"
#include "say.h"

#include <errno.h>
#include <fcntl.h>
#include <stdio.h>
#include <string.h>
#include <sys/stat.h>
#include <unistd.h>

/* For both ways, so that opening does not wait for the other office, nor does its death break the
 * line. POSIX leaves open what this does; Linux does as said. */
int line_open(const char *folder, const char *name, uint32_t number)
{
    char path[4096];
    struct stat about;
    if (snprintf(path, sizeof path, "%s/%s-%u", folder, name, number) >= (int)sizeof path)
        fail("a line has too long a name");
    if (mkfifo(path, 0666) != 0 && errno != EEXIST)
        fail("a line cannot be made: %s", strerror(errno));
    int line = open(path, O_RDWR | O_NONBLOCK | O_CLOEXEC);
    if (line < 0 || fstat(line, &about) != 0)
        fail("a line cannot be opened: %s", strerror(errno));
    if (!S_ISFIFO(about.st_mode))
        fail("a line is no pipe");
    return line;
}

bool line_put(int line, const void *piece, size_t bytes)
{
    return write(line, piece, bytes) == (ssize_t)bytes;
}

bool line_take(int line, void *piece, size_t bytes)
{
    return read(line, piece, bytes) == (ssize_t)bytes;
}
