/* Writes a file whole or not at all. See output.h. */
#define _XOPEN_SOURCE 700
#include "output.h"
#include "stop.h"

#include <errno.h>
#include <fcntl.h>
#include <stdio.h>
#include <stdlib.h>
#include <string.h>
#include <sys/stat.h>
#include <unistd.h>

static _Noreturn void stop_at(const char *name, int wrong)
{
    stop("%s: cannot be written: %s", name, strerror(wrong));
}

/* Writes to an open file and closes it; returns 0, or the error's number. */
static int write_all(int file, const uint8_t *bytes, size_t length)
{
    int wrong = 0;
    while (length > 0 && wrong == 0) {
        ssize_t n = write(file, bytes, length);
        if (n >= 0) {
            bytes += n;
            length -= (size_t)n;
        } else if (errno != EINTR) {
            wrong = errno;
        }
    }
    if (close(file) != 0 && wrong == 0)
        wrong = errno;
    return wrong;
}

/* A name in the same folder, for mkstemp to complete. */
static char *name_beside(const char *name)
{
    static const char own[] = ".cut-log.XXXXXX";
    const char *slash = strrchr(name, '/');
    size_t folder = slash == NULL ? 0 : (size_t)(slash + 1 - name);
    char *beside = malloc(folder + sizeof own);
    if (beside == NULL)
        stop_at(name, ENOMEM);
    memcpy(beside, name, folder);
    memcpy(beside + folder, own, sizeof own);
    return beside;
}

/* Writes a file beside the one at path, then gives it that path. The name is for messages. */
static void replace(const char *name, const char *path, mode_t mode, const uint8_t *bytes,
                    size_t length)
{
    char *beside = name_beside(path);
    int file = mkstemp(beside);
    if (file < 0)
        stop_at(name, errno);
    int wrong = write_all(file, bytes, length);
    if (wrong == 0 && (chmod(beside, mode) != 0 || rename(beside, path) != 0))
        wrong = errno;
    if (wrong != 0) {
        unlink(beside);
        stop_at(name, wrong);
    }
    free(beside);
}

/* The mode of a file that is new. */
static mode_t usual_mode(void)
{
    mode_t mask = umask(0);
    umask(mask);
    return 0666 & ~mask;
}

/* Replaces the file that a name leads to, by a link or not, if it may be written. */
static void replace_old(const char *name, mode_t mode, const uint8_t *bytes, size_t length)
{
    char *path = realpath(name, NULL);
    if (path == NULL || access(path, W_OK) != 0)
        stop_at(name, errno);
    replace(name, path, mode, bytes, length);
    free(path);
}

static void write_into(const char *name, const uint8_t *bytes, size_t length)
{
    int file = open(name, O_WRONLY);
    int wrong = file < 0 ? errno : write_all(file, bytes, length);
    if (wrong != 0)
        stop_at(name, wrong);
}

void write_file(const char *name, const uint8_t *bytes, size_t length)
{
    struct stat old;
    if (stat(name, &old) != 0)
        replace(name, name, usual_mode(), bytes, length);
    else if (S_ISREG(old.st_mode))
        replace_old(name, old.st_mode & 0777, bytes, length);
    else
        write_into(name, bytes, length);
}
