/* interlock.c: a site's controller that is a client of a server (docs/client.md).
 *
 * interlock framed|text SECONDS SITE PATH
 * interlock framed|text SECONDS SITE HOST PORT
 *
 * It connects to a Unix socket or a TCP port and subscribes to site.SITE.*; the site's loading line
 * runs only while site.SITE.state is clear, and while the server has answered within SECONDS. Without
 * a connection the line stops and another one is tried, for ever.
 *
 * cc -std=c99 -I ../include interlock.c ../crates/ffi/out/libffi.a -o interlock
 */
#define _POSIX_C_SOURCE 200809L

#include <infod3.h>

#include <errno.h>
#include <netdb.h>
#include <poll.h>
#include <stdio.h>
#include <stdlib.h>
#include <string.h>
#include <sys/socket.h>
#include <sys/time.h>
#include <sys/un.h>
#include <time.h>
#include <unistd.h>

enum { FRAMED = 1, TEXT = 2 };                                   /* forms */
enum { HELLO = 0x00, SUB = 0x01, PING = 0x07 };                  /* commands */
enum { VERSION = 0x80, INFO = 0x81, PONG = 0x82, ERROR = 0x83 }; /* messages */
enum {
    LONGEST_INPUT = 262152,                    /* no message takes up more .. */
    LONGEST_MESSAGE = 65536,                   /* .. or more than this as ID and payload */
    LONGEST_PAYLOAD = 255,                     /* of the commands that are sent here */
    LONGEST_COMMAND = 4 * LONGEST_PAYLOAD + 9, /* in every form */
    PAUSE = 500                                /* milliseconds from one connection to the next */
};

typedef struct {
    const char *site, *host, *port; /* without a port the host is the path of a Unix socket */
    size_t form;
    int64_t limit;       /* milliseconds: nothing older lets the line run */
    bool runs;           /* the line */
    char why[300];       /* the reason that was last given for it */
    int fd;              /* the connection; all that follows is known from it alone */
    bool asked;          /* a PING is not answered yet */
    int64_t ping;        /* when the last PING was sent */
    int64_t proved;      /* when the last PING that is answered was sent */
    bool settled;        /* every key that matches has come */
    bool present, clear; /* the state has a value; it is clear */
    char km[40];         /* the distance of the nearest cell */
    size_t in_len;       /* bytes that are read and not consumed */
    uint8_t in[LONGEST_INPUT];
    uint8_t message[LONGEST_MESSAGE];
} controller;

static void die(const char *what) {
    perror(what);
    exit(1);
}

/* Milliseconds of a clock that nobody sets. */
static int64_t now(void) {
    struct timespec t;
    if (clock_gettime(CLOCK_MONOTONIC, &t) != 0) {
        die("clock");
    }
    return (int64_t)t.tv_sec * 1000 + t.tv_nsec / 1000000;
}

/* The one place that switches the line. Here it only says so; a real one holds an output that falls
 * back to stop by itself when this program ends. */
static void switch_line(controller *c, bool run, const char *why) {
    if (run != c->runs || strcmp(why, c->why) != 0) {
        c->runs = run;
        snprintf(c->why, sizeof c->why, "%s", why);
        if (printf("%s: the line %s\n", why, run ? "runs" : "stops") < 0 || fflush(stdout) != 0) {
            die("output");
        }
    }
}

/* Stops the line; false, since the connection is of no more use. */
static bool lost(controller *c, const char *why) {
    switch_line(c, false, why);
    return false;
}

/* Copies bytes for people to read: a ? for what is not printable, cut off where the room ends. */
static void show(char *to, size_t room, const uint8_t *bytes, size_t len) {
    size_t i;
    for (i = 0; i < len && i + 1 < room; i++) {
        to[i] = bytes[i] >= ' ' && bytes[i] <= '~' ? (char)bytes[i] : '?';
    }
    to[i] = '\0';
}

/* Switches the line by what is known: until every key has come that is nothing, and it stands. */
static void decide(controller *c) {
    char why[sizeof c->km + 30];
    if (c->settled) {
        snprintf(why, sizeof why, "clear, nearest cell %s km", c->km[0] == '\0' ? "?" : c->km);
        switch_line(c, c->clear, c->clear ? why : c->present ? "not clear" : "no state");
    }
}

/* Whether a key is site.SITE.NAME. */
static bool is_key(const controller *c, const uint8_t *key, size_t len, const char *name) {
    char own[LONGEST_PAYLOAD];
    const int n = snprintf(own, sizeof own, "site.%s.%s", c->site, name);
    return n > 0 && (size_t)n < sizeof own && (size_t)n == len && memcmp(own, key, len) == 0;
}

/* Takes note of an INFO: a key, then NUL and a value, or nothing where the key is absent. The feed
 * writes the state last in its transactions, so that all the rest has come when the state does. */
static void inform(controller *c, const uint8_t *key, size_t len) {
    const uint8_t *nul = (const uint8_t *)memchr(key, '\0', len);
    const size_t key_len = nul == NULL ? len : (size_t)(nul - key);
    const size_t value_len = nul == NULL ? 0 : len - key_len - 1;
    const uint8_t *value = key + len - value_len;
    if (is_key(c, key, key_len, "km")) {
        show(c->km, sizeof c->km, value, value_len);
    } else if (is_key(c, key, key_len, "state")) {
        c->present = nul != NULL;
        c->clear = value_len == 5 && memcmp(value, "clear", 5) == 0;
        decide(c);
    }
}

/* Does what a message asks for. The reader has seen to it that VERSION and ERROR have their number. */
static bool act(controller *c, const uint8_t *message, size_t len) {
    char why[40];
    switch (message[0]) {
    case VERSION:
        return message[1] == 0 || lost(c, "not version 0");
    case INFO:
        inform(c, message + 1, len - 1);
        return true;
    case PONG: /* behind it comes only what changed after the PING was read */
        c->asked = false;
        c->proved = c->ping;
        if (!c->settled) {
            c->settled = true;
            decide(c);
        }
        return true;
    default: /* ERROR: it has sent what it should not, and counts on nothing that it has */
        snprintf(why, sizeof why, "refused with %d", message[1]);
        return lost(c, why);
    }
}

/* Acts on every whole message that has come, and keeps the rest for the next time. */
static bool act_on_all(controller *c) {
    size_t from = 0;
    for (;;) {
        const uint8_t *rest = c->in + from;
        const size_t len = c->in_len - from;
        infod3_read got;
        if (len > 0 && rest[0] == '#') { /* a line of the server itself, in every form, with CR LF */
            const uint8_t *end = (const uint8_t *)memchr(rest, '\r', len);
            char line[sizeof c->why];
            if (end == NULL) {
                break;
            }
            show(line, sizeof line, rest, (size_t)(end - rest));
            return lost(c, line);
        }
        got = infod3_read_message(c->form, rest, len, c->message, sizeof c->message);
        if (got.answer == 1) {
            break;
        }
        from += got.consumed;
        if (got.answer != 0) {
            return lost(c, "not infod3");
        }
        if (!act(c, c->message, got.written)) {
            return false;
        }
    }
    c->in_len -= from;
    memmove(c->in, c->in + from, c->in_len);
    return c->in_len < sizeof c->in || lost(c, "not infod3");
}

/* Sends a command, all of it. A server that has closed is found out by reading: its last words wait. */
static bool command(controller *c, uint8_t id, const char *payload, size_t len) {
    uint8_t packet[1 + LONGEST_PAYLOAD], out[LONGEST_COMMAND];
    infod3_reply written;
    size_t sent = 0;
    if (len > LONGEST_PAYLOAD) {
        return lost(c, "too long a command");
    }
    packet[0] = id;
    memcpy(packet + 1, payload, len);
    written = infod3_write_command(c->form, packet, 1 + len, out, sizeof out);
    if (written.answer != 0) { /* 101 for a SITE that makes no pattern */
        return lost(c, "no such command");
    }
    while (sent < written.count) {
        const ssize_t n = send(c->fd, out + sent, written.count - sent, MSG_NOSIGNAL);
        if (n >= 0) {
            sent += (size_t)n;
        } else if (errno == EPIPE || errno == ECONNRESET) {
            return true;
        } else if (errno != EINTR) {
            return lost(c, "cannot send");
        }
    }
    return true;
}

static bool ping(controller *c) {
    c->asked = true;
    c->ping = now();
    return command(c, PING, "", 0);
}

/* Waits for input and acts on it; asks for an answer when half of the limit has passed. Nothing is done
 * by what comes too late. */
static bool turn(controller *c) {
    const int64_t end = c->proved + c->limit, next = c->ping + c->limit / 2;
    const int64_t left = (!c->asked && next < end ? next : end) - now();
    struct pollfd input;
    ssize_t n;
    input.fd = c->fd;
    input.events = POLLIN;
    if (poll(&input, 1, left > 0 ? (int)left : 0) < 0 && errno != EINTR) {
        die("poll");
    }
    n = recv(c->fd, c->in + c->in_len, sizeof c->in - c->in_len, MSG_DONTWAIT);
    if (n == 0 || (n < 0 && errno != EAGAIN && errno != EINTR)) {
        return lost(c, "connection lost");
    }
    if (now() >= end) {
        return lost(c, "no answer");
    }
    if (!c->asked && now() >= next && !ping(c)) {
        return false;
    }
    c->in_len += n > 0 ? (size_t)n : 0;
    return n < 0 || act_on_all(c);
}

/* Connects, or gives -1. The limit holds for connecting and for sending. */
static int connect_to(const struct sockaddr *address, socklen_t len, int64_t limit) {
    struct timeval t;
    const int fd = socket(address->sa_family, SOCK_STREAM, 0);
    t.tv_sec = (time_t)(limit / 1000);
    t.tv_usec = 0;
    if (fd >= 0 && (setsockopt(fd, SOL_SOCKET, SO_SNDTIMEO, &t, sizeof t) != 0 ||
                    connect(fd, address, len) != 0)) {
        close(fd);
        return -1;
    }
    return fd;
}

static int connect_unix(const controller *c) {
    struct sockaddr_un address;
    const size_t len = strlen(c->host);
    memset(&address, 0, sizeof address);
    address.sun_family = AF_UNIX;
    if (len >= sizeof address.sun_path) {
        return -1;
    }
    memcpy(address.sun_path, c->host, len);
    return connect_to((const struct sockaddr *)&address, sizeof address, c->limit);
}

static int connect_tcp(const controller *c) {
    struct addrinfo wanted, *found, *each;
    int fd = -1;
    memset(&wanted, 0, sizeof wanted);
    wanted.ai_socktype = SOCK_STREAM;
    if (getaddrinfo(c->host, c->port, &wanted, &found) != 0) {
        return -1;
    }
    for (each = found; each != NULL && fd < 0; each = each->ai_next) {
        fd = connect_to(each->ai_addr, each->ai_addrlen, c->limit);
    }
    freeaddrinfo(found);
    return fd;
}

/* Lives through one connection. Nothing that an earlier one said counts. */
static void live(controller *c) {
    char pattern[LONGEST_PAYLOAD + 2]; /* what is cut off is still too long */
    c->fd = c->port == NULL ? connect_unix(c) : connect_tcp(c);
    if (c->fd < 0) {
        lost(c, "cannot connect");
        return;
    }
    c->settled = c->present = c->clear = false;
    c->km[0] = '\0';
    c->in_len = 0;
    c->proved = now();
    snprintf(pattern, sizeof pattern, "site.%s.*", c->site);
    if (command(c, HELLO, "\0interlock", 10) && command(c, SUB, pattern, strlen(pattern)) && ping(c)) {
        while (turn(c)) {
        }
    }
    close(c->fd);
}

int main(int argc, char **argv) {
    controller *c = (controller *)calloc(1, sizeof *c);
    const bool text = argc > 1 && strcmp(argv[1], "text") == 0;
    const int seconds = argc > 2 ? atoi(argv[2]) : 0;
    if (c == NULL) {
        die("memory");
    }
    if (argc < 5 || argc > 6 || (!text && strcmp(argv[1], "framed") != 0) || seconds < 1 ||
        seconds > 86400) {
        fprintf(stderr, "usage: interlock framed|text SECONDS SITE PATH | SITE HOST PORT\n");
        return 2;
    }
    c->form = text ? TEXT : FRAMED;
    c->limit = (int64_t)seconds * 1000;
    c->site = argv[3];
    c->host = argv[4];
    c->port = argv[5]; /* NULL behind the last */
    switch_line(c, false, "start");
    for (;;) {
        live(c);
        if (poll(NULL, 0, PAUSE) < 0 && errno != EINTR) {
            die("poll");
        }
    }
}
