/* Files read whole, and written whole or not at all. */
#define _DEFAULT_SOURCE
#include "files.h"

#include <errno.h>
#include <fcntl.h>
#include <limits.h>
#include <signal.h>
#include <stdio.h>
#include <stdlib.h>
#include <string.h>
#include <sys/stat.h>
#include <unistd.h>

/* Reads on until the file's end. Answers false where the file is too long; what cannot be read ends it too. */
static bool read_all(FILE *file, size_t most, struct bytes *read)
{
    size_t room = 0, got;

    do {
        if (read->length == room) {
            room = room ? 2 * room : 16384;
            read->at = more_memory(read->at, room + 1);
        }
        got = fread(read->at + read->length, 1, room - read->length, file);
        read->length += got;
    } while (got > 0 && read->length <= most);
    return read->length <= most;
}

struct bytes read_file(const char *path, size_t most)
{
    struct bytes read = {take_memory(1, 1), 0};
    FILE *file = fopen(path, "rb");
    bool fits;
    int why;

    if (file == NULL)
        fail("cannot read %s: %s", path, strerror(errno));
    errno = 0;
    fits = read_all(file, most, &read);
    why = ferror(file) ? errno : 0;
    fclose(file);
    if (why != 0)
        fail("cannot read %s: %s", path, strerror(why));
    if (!fits)
        fail("%s is too long: more than %zu bytes", path, most);
    read.at[read.length] = 0;
    return read;
}

/* Ends the command if no file can be made where the path has one. */
static void may_make(const char *path)
{
    const char *slash = strrchr(path, '/');
    size_t before = slash ? (size_t)(slash - path) + 1 : 0;
    char *folder = take_memory(before + sizeof ".", 1);

    memcpy(folder, path, before);
    folder[before] = '.';
    if (access(folder, W_OK | X_OK) != 0)
        fail("cannot write %s: %s", path, strerror(errno));
    give_back(folder);
}

void may_write(const char *path, bool force)
{
    struct stat there;

    may_make(path);
    if (lstat(path, &there) != 0)
        return;
    if (!S_ISREG(there.st_mode))
        fail("cannot write %s: it is no ordinary file and is left as it is, --force or not", path);
    if (!force)
        fail("%s exists and is left as it is; --force writes over it", path);
}

void keep_input(const char *path, const char *input)
{
    if (path != NULL && input != NULL && is_same_file(path, input))
        fail("%s is read by this command and is left as it is, --force or not", path);
}

bool is_same_file(const char *one, const char *other)
{
    struct stat first, second;

    return strcmp(one, other) == 0
           || (stat(one, &first) == 0 && stat(other, &second) == 0 && first.st_dev == second.st_dev
               && first.st_ino == second.st_ino);
}

/* Gives the finished file its name without writing over another. Where the file system has no links, the name is
   taken by an empty file first. */
static bool name_new(const char *finished, const char *path)
{
    int taken; /* a file of that name, then why it could not be used */

    if (link(finished, path) == 0)
        return unlink(finished) == 0;
    if (errno == EEXIST)
        return false;
    taken = open(path, O_WRONLY | O_CREAT | O_EXCL, 0666);
    if (taken < 0)
        return false;
    close(taken);
    if (rename(finished, path) == 0)
        return true;
    taken = errno;
    unlink(path);
    errno = taken;
    return false;
}

static bool write_all(int file, const uint8_t *bytes, size_t length)
{
    while (length > 0) {
        ssize_t written = write(file, bytes, length);

        if (written < 0)
            return false;
        bytes += written;
        length -= (size_t)written;
    }
    return true;
}

/* ---- A file beside the one to be written ---- */

/* What a user or the system sends to end a command. */
static const int ending_signals[] = {SIGINT, SIGTERM, SIGHUP};

enum { ENDING_SIGNALS = sizeof ending_signals / sizeof ending_signals[0] };

/* The file that is not finished; empty where there is none. */
static char unfinished[PATH_MAX];

static void remove_unfinished(int signal)
{
    if (unfinished[0] != '\0')
        unlink(unfinished);
    raise(signal); /* it takes the command away once this is left: the handler holds for one signal alone */
}

void leave_no_parts(void)
{
    const struct sigaction action = {.sa_handler = remove_unfinished, .sa_flags = (int)SA_RESETHAND};
    struct sigaction before;

    for (int at = 0; at < ENDING_SIGNALS; at++)
        if (sigaction(ending_signals[at], NULL, &before) == 0 && before.sa_handler != SIG_IGN)
            sigaction(ending_signals[at], &action, NULL);
    signal(SIGXFSZ, SIG_IGN); /* a file that may not be so long is told as one that cannot be written */
}

/* Keeps these signals back while names of files change, so that `unfinished` is true whenever one comes. */
static void hold_signals(bool hold)
{
    static sigset_t before;
    sigset_t set;

    sigemptyset(&set);
    for (int at = 0; at < ENDING_SIGNALS; at++)
        sigaddset(&set, ending_signals[at]);
    if (hold)
        sigprocmask(SIG_BLOCK, &set, &before);
    else
        sigprocmask(SIG_SETMASK, &before, NULL);
}

/* Makes the file beside a path, under a name of its own, or answers -1. */
static int begin_beside(const char *path)
{
    int file = -1;

    hold_signals(true);
    errno = ENAMETOOLONG;
    if (snprintf(unfinished, sizeof unfinished, "%s.part-XXXXXX", path) < (int)sizeof unfinished)
        file = mkstemp(unfinished);
    if (file < 0)
        unfinished[0] = '\0';
    hold_signals(false);
    return file;
}

/* Gives the file its name, or removes it where it is not good. Answers whether it has its name. */
static bool end_beside(const char *path, bool good, bool force)
{
    bool named = false;
    int why;

    hold_signals(true);
    if (good)
        named = force ? rename(unfinished, path) == 0 : name_new(unfinished, path);
    why = errno;
    if (!named)
        unlink(unfinished);
    unfinished[0] = '\0';
    hold_signals(false);
    errno = why;
    return named;
}

/* The mode of the file that is to be there: that of the one in its place, else as the user has it of new files. */
static mode_t mode_of(const char *path)
{
    struct stat there;
    mode_t mask;

    if (stat(path, &there) == 0)
        return there.st_mode & 07777;
    mask = umask(0);
    umask(mask);
    return 0666 & ~mask;
}

void write_file(const char *path, const uint8_t *bytes, size_t length, bool force)
{
    mode_t mode = mode_of(path);
    int file, why;
    bool good;

    may_write(path, force);
    file = begin_beside(path);
    if (file < 0)
        fail("cannot write %s: %s", path, strerror(errno));
    good = write_all(file, bytes, length) && fchmod(file, mode) == 0 && fsync(file) == 0;
    why = errno;
    if (close(file) != 0 && good) {
        good = false;
        why = errno;
    }
    errno = why;
    if (!end_beside(path, good, force))
        fail("cannot write %s: %s", path, strerror(errno));
}
