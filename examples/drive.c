/* examples/drive.c: four validators on one live host, and all that a program has to do for them.
 *
 *     cc -o drive examples/drive.c && ./drive PROGRAM SLOTS
 *
 * The host is a process `PROGRAM serve --bytes`. It takes lines of text and answers each with a block of lines, so a pipe each
 * way is all that is needed of it. Nodes A and B are in network 1, C and D in network 2, as if two hosts had them. What a node
 * emits is brought to the other network as bytes, by a `deliver` line. A timer of number R is fired 1 + R units of time after
 * it was armed. Time is counted and not waited for: the next line is the one that is due first.
 *
 * In each slot the four nodes propose different values. It is printed what they externalize, and last `SLOTS slots, all
 * agreed`, with status 0; or what went wrong, with status 1.
 */
#define _POSIX_C_SOURCE 200809L
#include <signal.h>
#include <stdarg.h>
#include <stdio.h>
#include <stdlib.h>
#include <string.h>
#include <sys/wait.h>
#include <unistd.h>

enum { NODES = 4, UNIT = 10, WAY = 3, PATIENCE = 300 * UNIT };

/* A line that is to be sent, and when. The list is in the order of times, and of the same time in that of `later`. */
struct due {
    unsigned long at;
    struct due *next;
    char line[];
};

static struct due *first_due;
static unsigned long now;
static FILE *to_host, *from_host;
static char decided[NODES][520];

static void fail(const char *what, const char *which)
{
    printf("%s: %s\n", what, which);
    exit(1);
}

/* Has a line sent so much later. Its words are copied. */
static void later(unsigned long delay, const char *format, ...)
{
    va_list words;
    va_start(words, format);
    int length = vsnprintf(NULL, 0, format, words);
    va_end(words);
    struct due *added = malloc(sizeof *added + length + 1);
    if (added == NULL) fail("no memory for a line", format);
    va_start(words, format);
    vsnprintf(added->line, length + 1, format, words);
    va_end(words);
    added->at = now + delay;
    struct due **place = &first_due;
    while (*place != NULL && (*place)->at <= added->at) place = &(*place)->next;
    added->next = *place;
    *place = added;
}

/* Does what a node asks for by one of the things that it gives out. */
static void heed(const char *net, const char *slot, const char *node, const char *out, const char *what)
{
    if (strcmp(out, "emit") == 0)
        later(WAY, "deliver %d * %s", *net == '1' ? 2 : 1, what);
    else if (strcmp(out, "externalized") == 0)
        snprintf(decided[*node - 'A'], sizeof *decided, "%s", what);
    else if (strcmp(out, "arm-nomination") == 0)
        later((1 + strtoul(what, NULL, 10)) * UNIT, "ntimer %s %s %s %s", net, slot, node, what);
    else if (strcmp(out, "arm-ballot") == 0)
        later((1 + strtoul(what, NULL, 10)) * UNIT, "btimer %s %s %s %s", net, slot, node, what);
}

/* Sends a line and reads its block to the end, before the next line is sent: so no pipe fills up. A `deliver` line may be
 * refused, since its bytes come from elsewhere. Of all other lines this program knows that they are right. */
static void ask(const char *line)
{
    static char *text;
    static size_t room;
    fprintf(to_host, "%s\n", line);
    fflush(to_host);
    for (;;) {
        if (getline(&text, &room, from_host) < 0) fail("the host ended after", line);
        text[strcspn(text, "\n")] = 0;
        const char *word = strtok(text, " ") == NULL ? NULL : strtok(NULL, " ");
        if (word == NULL) fail("a line that is in no block", line);
        if (strcmp(word, "ok") == 0 || strcmp(word, "stale") == 0) return;
        if (strcmp(word, "refused") == 0 && strncmp(line, "deliver ", 8) == 0) return;
        if (strcmp(word, "refused") == 0 || strcmp(word, "bad") == 0) fail(word, line);
        const char *slot = strtok(NULL, " "), *node = strtok(NULL, " "), *out, *what;
        while ((out = strtok(NULL, " ")) != NULL && (what = strtok(NULL, " ")) != NULL) heed(word, slot, node, out, what);
    }
}

/* Sends what is due first, if it is due by this time, and says whether it was. */
static int send_next(unsigned long until)
{
    struct due *sent = first_due;
    if (sent == NULL || sent->at > until) return 0;
    first_due = sent->next;
    now = sent->at;
    ask(sent->line);
    free(sent);
    return 1;
}

static void settle(unsigned long slot)
{
    char shown[40];
    unsigned long until = now + PATIENCE;
    snprintf(shown, sizeof shown, "slot %lu", slot);
    memset(decided, 0, sizeof decided);
    for (int net = 1; net <= 2; net++) later(0, "open %d %lu", net, slot);
    for (int node = 0; node < NODES; node++)
        later(0, "propose %d %lu %c %cat%lu", 1 + node / 2, slot, 'A' + node, 'a' + node, slot);
    while (!(*decided[0] && *decided[1] && *decided[2] && *decided[3]))
        if (!send_next(until)) fail(shown, "it did not settle");
    for (int node = 1; node < NODES; node++)
        if (strcmp(decided[node], decided[0]) != 0) fail(shown, "they part");
    printf("%s: %s\n", shown, decided[0]);
    /* What is still on its way is only about this slot, and nobody asks about that any more. */
    for (struct due *left; (left = first_due) != NULL; free(left)) first_due = left->next;
    for (int net = 1; net <= 2; net++) later(0, "close %d %lu", net, slot);
}

int main(int count, char **words)
{
    int down[2], up[2], status;
    if (count != 3) fail("usage", "drive PROGRAM SLOTS");
    /* If the host has ended, its next answer is missing: that is told, and a signal would tell nothing. */
    signal(SIGPIPE, SIG_IGN);
    if (pipe(down) != 0 || pipe(up) != 0) fail("no pipe to", words[1]);
    if (fork() == 0) {
        dup2(down[0], 0), dup2(up[1], 1);
        close(down[0]), close(down[1]), close(up[0]), close(up[1]);
        execlp(words[1], words[1], "serve", "--bytes", (char *)NULL);
        _exit(127);
    }
    close(down[0]), close(up[1]);
    to_host = fdopen(down[1], "w"), from_host = fdopen(up[0], "r");
    for (int net = 1; net <= 2; net++) later(0, "net %d events 1000000000 bytes 1000000000000 slots 1 served", net);
    for (int node = 0; node < NODES; node++) later(0, "node %d %c 3[A,B,C,D]", 1 + node / 2, 'A' + node);
    const unsigned long slots = strtoul(words[2], NULL, 10);
    for (unsigned long slot = 1; slot <= slots; slot++) settle(slot);
    while (send_next(now)) continue;
    fclose(to_host);
    if (wait(&status) < 0 || status != 0) fail("the host ended", "with another status than 0");
    printf("%lu slots, all agreed\n", slots);
    return 0;
}
