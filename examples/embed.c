/* examples/embed.c: a live host within a program in C.
 *
 *     cc -o embed -I crates/live_embed examples/embed.c $(tools/library)
 *     ./embed < cases/serve/two-nodes-hear-each-other/lines
 *
 * It reads lines from the standard input, has a host answer each, and prints the blocks, as `scphost serve` does. With the word
 * `--bytes` envelopes are printed as bytes. The status is 0 at the end of the input, 3 if it is out of memory, 4 if it cannot write.
 */
#define _POSIX_C_SOURCE 200809L
#include "scp_host.h"

#include <stdio.h>
#include <stdlib.h>
#include <string.h>

/* Where blocks are copied to. It grows with the longest of them. */
struct room {
    uint8_t *at;
    size_t length;
};

/* Copies the block of the last line, and answers how long it is; SIZE_MAX if there is no room for it. */
static size_t take_block(struct scp_host *host, struct room *room)
{
    size_t length = scp_host_block(host, room->at, room->length);
    if (length <= room->length) return length;
    uint8_t *larger = realloc(room->at, length);
    if (larger == NULL) return SIZE_MAX;
    *room = (struct room){larger, length};
    return scp_host_block(host, room->at, room->length);
}

/* Has each whole line answered, until the input ends. What stands behind its last line feed is no line. */
static int serve(struct scp_host *host, struct room *room)
{
    char *line = NULL;
    size_t size = 0;
    int status = 0;
    for (ssize_t length; status == 0 && (length = getline(&line, &size, stdin)) > 0 && line[length - 1] == '\n';) {
        uint32_t done = scp_host_line(host, (uint8_t *)line, length - 1);
        size_t told = done > SCP_HOST_KEPT ? SIZE_MAX : take_block(host, room);
        if (told == SIZE_MAX)
            status = 3;
        else if (fwrite(room->at, 1, told, stdout) < told || fflush(stdout) != 0)
            status = 4;
    }
    free(line);
    return status == 0 && !feof(stdin) ? 3 : status;
}

int main(int count, char **words)
{
    struct scp_host host = SCP_HOST_NONE;
    struct room room = {malloc(4096), 4096};
    bool bytes = count > 1 && strcmp(words[1], "--bytes") == 0;
    int status = room.at == NULL || scp_host_new(&host, bytes) != SCP_HOST_DONE ? 3 : serve(&host, &room);
    scp_host_free(&host);
    free(room.at);
    if (status == 3) fprintf(stderr, "no memory\n");
    return status;
}
