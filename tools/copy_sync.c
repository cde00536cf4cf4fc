/* The measure for `evf upgrade --to`: copies each file named on standard input, one a line, into a folder and
 * synchronises the copy, one by one. bench_evf builds and runs it.
 *
 *     copy_sync FOLDER <names
 */
#include <errno.h>
#include <fcntl.h>
#include <stdio.h>
#include <stdlib.h>
#include <string.h>
#include <unistd.h>

static unsigned char bytes[2097152];

static void fail(const char *what)
{
    fprintf(stderr, "copy_sync: %s: %s\n", what, strerror(errno));
    exit(1);
}

static size_t read_whole(const char *name)
{
    size_t length = 0;
    ssize_t got;
    int fd = open(name, O_RDONLY);

    if (fd < 0)
        fail(name);
    while ((got = read(fd, bytes + length, sizeof bytes - length)) > 0)
        length += (size_t)got;
    if (got < 0 || close(fd) < 0)
        fail(name);
    return length;
}

static void write_through(const char *name, size_t length)
{
    int fd = open(name, O_WRONLY | O_CREAT | O_EXCL, 0666);

    if (fd < 0 || write(fd, bytes, length) != (ssize_t)length || fsync(fd) < 0 || close(fd) < 0)
        fail(name);
}

int main(int count, char **words)
{
    char name[4096], copy[8192];

    if (count != 2) {
        fputs("use: copy_sync FOLDER <names\n", stderr);
        return 2;
    }
    while (fgets(name, sizeof name, stdin)) {
        const char *last;

        name[strcspn(name, "\n")] = 0;
        last = strrchr(name, '/');
        snprintf(copy, sizeof copy, "%s/%s", words[1], last ? last + 1 : name);
        write_through(copy, read_whole(name));
    }
    return 0;
}
