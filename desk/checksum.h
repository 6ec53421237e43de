/* A file's checksum, as the command cksum prints it (POSIX), so that anyone can check which file a page tells of. */
#ifndef DESK_CHECKSUM_H
#define DESK_CHECKSUM_H

#include "files.h"

uint32_t checksum_of(struct bytes file);

#endif
