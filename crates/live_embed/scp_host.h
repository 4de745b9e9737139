/* scp_host.h: a live host of SCP validators within a program in C.
 *
 * The host is that of `scphost serve`: it takes lines of text, and answers each with a block of lines (docs/FORMATS.md, "Live
 * hosts"). The block of a line is the one that `scphost serve` prints for it. Four functions:
 *
 *     struct scp_host host = SCP_HOST_NONE;
 *     scp_host_new(&host, false);                 makes a host
 *     scp_host_line(&host, line, length);         has it answer a line
 *     scp_host_block(&host, room, sizeof room);   copies the block of that line
 *     scp_host_free(&host);                       lets it go
 *
 * The functions are proved to do what is said here. Nothing checks the caller, who owes this:
 *
 * - A struct scp_host begins as SCP_HOST_NONE, and is changed by these functions alone. It may be moved, but of two copies only
 *   one may be used. It stays in the thread that made the host.
 * - Pointers are not null, also where a length is 0, and as many bytes as the length says may be read or, in a room, written.
 *   A line, a room and a struct scp_host do not overlap. No length is 2^63 or more.
 * - No call begins before another call with the same host has ended. None is made by a signal handler, or by the child of a
 *   process with threads that was forked and has started no other program.
 * - malloc, realloc and free come from one allocator. malloc and realloc align a block to each power of two up to 16 that
 *   divides its size.
 * - The program is linked with libscp_host.a and with the toolchain's functions over malloc; `tools/library` makes the one, and
 *   names both.
 */
#ifndef SCP_HOST_H
#define SCP_HOST_H

#include <stdbool.h>
#include <stddef.h>
#include <stdint.h>

#ifdef __cplusplus
extern "C" {
#endif

/* A host, or none: then the pointer is null. What it points to belongs to the library. */
struct scp_host {
    void *at;
};

#define SCP_HOST_NONE {NULL}

/* The longest line that is answered otherwise than with `bad`, in bytes. */
#define SCP_HOST_LONGEST_LINE 262144

/* What becomes of a call. */
enum {
    SCP_HOST_DONE = 0,      /* it was done; a line was answered, and a journal need not keep it */
    SCP_HOST_KEPT = 1,      /* the line was answered, and a journal keeps it */
    SCP_HOST_NO_MEMORY = 2, /* memory is short */
    SCP_HOST_NO_HOST = 3,   /* there is no host */
    SCP_HOST_NO_NUMBER = 4  /* 2^64 - 1 lines were answered, and no number is left for a further one */
};

/* Makes a host without networks, which prints envelopes as bytes if `bytes` is set, as `scphost serve --bytes` does. A host that
 * was there is let go. Answers SCP_HOST_DONE; or SCP_HOST_NO_MEMORY, and then all is as it was. */
uint32_t scp_host_new(struct scp_host *host, bool bytes);

/* Has the host answer a line of `length` bytes, without its line feed. Lines are numbered from 1; empty lines and comments
 * count, and have an empty block. Answers
 * - SCP_HOST_KEPT, if the line may have changed something. Whoever keeps these lines in a file, an empty line in place of each
 *   other, and has the file on the disk before anybody sees the block, has a journal: a new host that is given its lines comes
 *   to be what this one is. A line whose block has the word NoMemory is not put there; end the host then;
 * - SCP_HOST_DONE, if it changed nothing;
 * - SCP_HOST_NO_MEMORY: the line has no block, and the host is let go, since a part of the line may have been done;
 * - SCP_HOST_NO_HOST or SCP_HOST_NO_NUMBER, and nothing changes. */
uint32_t scp_host_line(struct scp_host *host, const uint8_t *line, size_t length);

/* Answers how many bytes the block of the last line has: 0 if there is none. It is copied to the front of the room if that has
 * room for all of it; else the room stays as it is, and one may ask again with more. The block stays until the next line. */
size_t scp_host_block(struct scp_host *host, uint8_t *room, size_t length);

/* Lets the host go, if there is one. */
void scp_host_free(struct scp_host *host);

#ifdef __cplusplus
}
#endif

#endif
