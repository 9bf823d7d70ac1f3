/* storm.c: the library without sockets. A feed reports of a storm, a site's controller receives it.
 *
 * cc -std=c99 -I ../include storm.c ../crates/ffi/out/libffi.a -o storm
 */
#include <infod3.h>

#include <stdio.h>
#include <stdlib.h>
#include <string.h>

enum {
    SLOTS = 2,
    STORE = 1024,
    QUEUE = 1024,
    RECORD = 256,
    FEED = 0,
    SITE = 1,
    STREAM = 1 /* the form of a client that speaks frames or text lines */
};

/* All that the broker knows lies here; the size is what infod3_memory_size gives for these sizes. */
static uint8_t memory[13924];

static void check(const char *what, infod3_reply reply) {
    if (reply.answer != 0) {
        fprintf(stderr, "storm: %s: answer %lu\n", what, (unsigned long)reply.answer);
        exit(1);
    }
}

/* Takes all that is queued for a client, and prints it. */
static void take_all(size_t slot) {
    uint8_t out[QUEUE];
    for (;;) {
        infod3_reply reply = infod3_take(memory, sizeof memory, slot, out, sizeof out);
        if (reply.answer == 6) {
            return; /* the queue is empty */
        }
        check("take", reply);
        /* A text client's messages are lines that end with CR LF. */
        printf("  slot %lu > %.*s\n", (unsigned long)slot, (int)reply.count - 2, (char *)out);
    }
}

/* Feeds a client a line, and shows what both then take. */
static void say(size_t slot, const char *line) {
    const uint8_t *input = (const uint8_t *)line;
    infod3_reply reply = infod3_feed(memory, sizeof memory, slot, input, strlen(line));
    printf("slot %lu < %s", (unsigned long)slot, line);
    if (reply.answer >= 100) { /* its ERROR is queued; after 102 a text client is shut */
        printf("  refused with %lu\n", (unsigned long)reply.answer);
    } else {
        check("feed", reply);
    }
    take_all(FEED);
    take_all(SITE);
}

int main(void) {
    if (infod3_memory_size(SLOTS, STORE, QUEUE, RECORD) != sizeof memory) {
        fprintf(stderr, "storm: the memory has another size\n");
        return 1;
    }
    check("set up", infod3_set_up(memory, sizeof memory, SLOTS, STORE, QUEUE, RECORD));
    check("open", infod3_open(memory, sizeof memory, FEED, STREAM));
    check("open", infod3_open(memory, sizeof memory, SITE, STREAM));

    say(SITE, "SUB site.7.*\n");
    say(FEED, "WRITE site.7.state alert\n");
    say(FEED, "BEGIN\n");
    say(FEED, "WRITE site.7.km 4\n");
    say(FEED, "WRITE site.7.state stop\n");
    say(FEED, "COMMIT\n");
    say(SITE, "READ site.9.state\n");
    say(SITE, "NONSENSE\n"); /* a typing error costs it no pattern */
    say(FEED, "WRITE site.7.state clear\n");

    check("close", infod3_close(memory, sizeof memory, FEED));
    check("close", infod3_close(memory, sizeof memory, SITE));
    return 0;
}
