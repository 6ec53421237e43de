/* Files read whole, and written whole or not at all. What goes wrong with a file is said, and the command ends with
   the status of wrong use. */
#ifndef DESK_FILES_H
#define DESK_FILES_H

#include "attempt.h"
#include "refusal.h"

#include <stdbool.h>
#include <stddef.h>
#include <stdint.h>

struct bytes {
    uint8_t *at;
    size_t length;
};

/* The longest files that are read, in bytes. */
enum { FILE_MOST = 1 << 20, SCRIPT_FILE_MOST = 1 << 30 };

/* The caller gives back what is read. A file of more than `most` bytes is wrong use; a 0 stands after the last byte, so
   that a text can be read as a string. */
struct bytes read_file(const char *path, size_t most);

/* Ends the command if the file may not be written: its folder takes no files; or it exists, and `force` is false; or a
   folder, device, pipe or link is there, which a file that gets its name would take away. Asked before any work is
   done. */
void may_write(const char *path, bool force);

/* Fails where a file that is to be written is one that the command reads; either may be NULL for none. */
void keep_input(const char *path, const char *input);

/* Whether two paths name one file. Of files that are not there yet the spelling tells. */
bool is_same_file(const char *one, const char *other);

/* Writes beside the file first and then gives it its name, so that no half of it is ever seen under that name. */
void write_file(const char *path, const uint8_t *bytes, size_t length, bool force);

/* From here on a command that is ended from outside, as by ctrl-C, removes what it has written beside a file. */
void leave_no_parts(void);

#endif
