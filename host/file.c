#include "file.h"

#include <errno.h>
#include <fcntl.h>
#include <stdio.h>
#include <stdlib.h>
#include <string.h>
#include <sys/stat.h>
#include <unistd.h>

#include "command.h"

#define FIRST_ROOM ((size_t)1 << 16)

bool file_too_long(const struct file *file) { return file->length > FILE_MOST; }

/* Room for one byte more than is there. Doubling it comes to FILE_MOST + 1 in the end, which tells that a file is too long. */
static bool more_room(struct file *file)
{
    if (file->length < file->room)
        return true;
    size_t room = file->room < FIRST_ROOM ? FIRST_ROOM : 2 * file->room;
    if (room > FILE_MOST)
        room = FILE_MOST + 1;
    uint8_t *bytes = realloc(file->bytes, room);
    if (!bytes)
        return false;
    file->bytes = bytes;
    file->room = room;
    return true;
}

static bool read_all(struct file *file, int descriptor)
{
    while (!file_too_long(file)) {
        if (!more_room(file))
            return false;
        ssize_t count = read(descriptor, file->bytes + file->length, file->room - file->length);
        if (count <= 0)
            return count == 0;
        file->length += (size_t)count;
    }
    return true;
}

bool take_standard_input(void)
{
    static bool taken;
    bool there = !taken;
    taken = true;
    return there;
}

const char *file_read(struct file *file, const char *name)
{
    bool standard = strcmp(name, "-") == 0;
    file->name = name;
    file->length = 0;
    if (standard && !take_standard_input())
        return "it was read already";
    int descriptor = standard ? STDIN_FILENO : open(name, O_RDONLY);
    if (descriptor < 0)
        return strerror(errno);
    const char *reason = read_all(file, descriptor) ? NULL : strerror(errno);
    if (!standard)
        close(descriptor);
    return reason;
}

static bool write_and_close(int descriptor, struct buffer *text)
{
    bool written = buffer_write(text, descriptor);
    int error = errno;
    if (close(descriptor) != 0 && written)
        return false;
    errno = error;
    return written;
}

/* Beside the file under a name of its own, then in its place. */
static bool write_beside(const char *name, struct buffer *text, mode_t mode)
{
    struct buffer beside = {0};
    buffer_print(&beside, "%s.XXXXXX", name);
    buffer_add(&beside, "", 1);
    int descriptor = mkstemp(beside.bytes);
    bool written = descriptor >= 0;
    if (written) {
        bool allowed = fchmod(descriptor, mode) == 0;
        written = write_and_close(descriptor, text) && allowed && rename(beside.bytes, name) == 0;
        int error = errno;
        if (!written)
            unlink(beside.bytes);
        errno = error;
    }
    free(beside.bytes);
    return written;
}

static bool write_new(const char *name, struct buffer *text)
{
    mode_t mask = umask(0);
    umask(mask);
    return write_beside(name, text, 0666 & ~mask);
}

/* In the place of the file that a link leads to, not of the link. */
static bool write_again(const char *name, struct buffer *text, mode_t mode)
{
    if (access(name, W_OK) != 0)
        return false;
    char *real = realpath(name, NULL);
    bool written = real && write_beside(real, text, mode & 0777);
    int error = errno;
    free(real);
    errno = error;
    return written;
}

bool file_write(const char *name, struct buffer *text)
{
    struct stat there;
    if (stat(name, &there) != 0)
        return write_new(name, text);
    if (S_ISREG(there.st_mode))
        return write_again(name, text, there.st_mode);
    int descriptor = open(name, O_WRONLY); /* a terminal, a pipe: nothing to keep */
    return descriptor >= 0 && write_and_close(descriptor, text);
}

void keep_standard_descriptors(void)
{
    static const int unusable[] = {O_WRONLY, O_RDONLY, O_RDONLY};
    for (int descriptor = 0; descriptor < 3; descriptor++)
        if (fcntl(descriptor, F_GETFD) < 0 && errno == EBADF && open("/dev/null", unusable[descriptor]) < 0)
            exit(UNUSABLE);
}
