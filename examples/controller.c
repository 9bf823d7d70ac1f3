/* controller.c: a site's controller with the broker inside: one poll loop over a Unix socket.
 *
 * Clients connect to the socket and speak infod3, as frames or as text lines. The controller itself
 * holds slot 0, subscribes to site.7.state there, and stops or starts its loading line by it. SIGINT
 * and SIGTERM end it. The server in host/infod3d does the same with more care (docs/server.md).
 *
 * cc -std=c99 -I ../include controller.c ../crates/ffi/out/libffi.a -o controller
 */
#define _POSIX_C_SOURCE 200809L

#include <infod3.h>

#include <errno.h>
#include <fcntl.h>
#include <poll.h>
#include <signal.h>
#include <stdio.h>
#include <stdlib.h>
#include <string.h>
#include <sys/socket.h>
#include <sys/un.h>
#include <unistd.h>

enum {
    SLOTS = 8,
    STORE = 65536,
    QUEUE = 65536,
    RECORD = 4096,
    SELF = 0,                /* the controller's own slot */
    PACKETS = 0, STREAM = 1, /* forms */
    LONGEST = 65538          /* the longest frame; a client with a longer text line is closed */
};

static const char KEY[] = "site.7.state";

typedef struct {
    int fd;          /* -1 where the slot is free */
    bool ended;      /* nothing more comes in */
    bool leaving;    /* nothing more is fed; closed when all that is queued is written */
    size_t in_len;   /* bytes read and not fed */
    size_t out_len;  /* bytes taken .. */
    size_t out_from; /* .. and of these, written */
    uint8_t in[LONGEST];
    uint8_t out[QUEUE];
} client;

static uint8_t *memory;
static size_t memory_len;
static client clients[SLOTS];
static volatile sig_atomic_t stopped;

static void on_signal(int number) {
    (void)number;
    stopped = 1;
}

static void die(const char *what) {
    perror(what);
    exit(1);
}

/* For calls whose other answers are mistakes of this program, or a memory that is damaged (7). */
static void expect(const char *what, infod3_reply reply) {
    if (reply.answer != 0) {
        fprintf(stderr, "controller: %s: answer %lu\n", what, (unsigned long)reply.answer);
        exit(1);
    }
}

/* Opens the controller's own slot and subscribes: a packet is an ID and a payload. */
static void subscribe(void) {
    uint8_t sub[sizeof KEY];
    sub[0] = 1;
    memcpy(sub + 1, KEY, sizeof KEY - 1);
    expect("open", infod3_open(memory, memory_len, SELF, PACKETS));
    expect("SUB", infod3_feed(memory, memory_len, SELF, sub, sizeof sub));
}

/* Does what the storm's state asks for. INFO is 0x81, key, and NUL and value unless it is absent.
 * ERROR is 0x83: the queue overflowed. SUB brings the state anew, but nothing where it is absent. */
static void act(void) {
    uint8_t *out = clients[SELF].out;
    const size_t head = sizeof KEY; /* 0x81 and the key */
    infod3_reply reply;
    while ((reply = infod3_take(memory, memory_len, SELF, out, QUEUE)).answer != 6) {
        expect("take", reply);
        if (out[0] == 0x83) {
            printf("state unknown: the line stops\n");
            expect("close", infod3_close(memory, memory_len, SELF));
            subscribe();
        } else if (reply.count == head) {
            printf("no state: the line stops\n");
        } else if (reply.count == head + 6 && memcmp(out + head, "\0clear", 6) == 0) {
            printf("clear: the line runs\n");
        } else {
            printf("not clear: the line stops\n");
        }
        fflush(stdout);
    }
}

static void drop(size_t slot) {
    close(clients[slot].fd);
    clients[slot].fd = -1;
    expect("close", infod3_close(memory, memory_len, slot));
}

/* Takes and writes what the socket accepts. A message is taken when the one before is written, so
 * the library's queue is the only one, and a client that does not read is shut by its rule. */
static void deliver(size_t slot) {
    client *c = &clients[slot];
    while (c->fd >= 0) {
        ssize_t n;
        if (c->out_from == c->out_len) {
            infod3_reply reply = infod3_take(memory, memory_len, slot, c->out, sizeof c->out);
            if (reply.answer == 6) {
                if (c->leaving) {
                    drop(slot);
                }
                return;
            }
            expect("take", reply);
            c->out_from = 0;
            c->out_len = reply.count;
        }
        n = send(c->fd, c->out + c->out_from, c->out_len - c->out_from, MSG_NOSIGNAL);
        if (n >= 0) {
            c->out_from += (size_t)n;
        } else if (errno == EAGAIN) {
            return;
        } else if (errno != EINTR) {
            drop(slot);
        }
    }
}

/* Feeds one message; false where none is whole, or the client has not taken its own answers. A text
 * client goes on after a typing error, so only the library says who is shut. */
static bool feed(size_t slot) {
    client *c = &clients[slot];
    infod3_reply reply;
    if (c->fd < 0 || c->leaving || c->out_from < c->out_len) {
        return false;
    }
    reply = infod3_feed(memory, memory_len, slot, c->in, c->in_len);
    if (reply.answer == 1) { /* more is wanted, which may never come or have no room */
        c->leaving = c->ended || c->in_len == sizeof c->in;
        return c->leaving;
    }
    if (reply.answer == 3) { /* shut, by this client's last message or by a full queue: an ERROR is queued */
        c->leaving = true;
    } else if (reply.answer < 100) { /* behind 100 to 103 the next feed tells whether it is shut */
        expect("feed", reply);
    }
    c->in_len -= reply.count;
    memmove(c->in, c->in + reply.count, c->in_len);
    return true;
}

/* Feeds a message of each client in turn, until nothing is left that can be fed. Each may owe
 * something to everybody, so all get what is queued for them in each round. */
static void work(void) {
    bool busy = true;
    while (busy) {
        size_t slot;
        busy = false;
        for (slot = 1; slot < SLOTS; slot++) {
            deliver(slot);
            busy = feed(slot) || busy;
        }
        act();
    }
}

static void receive(client *c) {
    ssize_t n = read(c->fd, c->in + c->in_len, sizeof c->in - c->in_len);
    if (n > 0) {
        c->in_len += (size_t)n;
    } else if (n == 0 || (errno != EAGAIN && errno != EINTR)) {
        c->ended = true; /* what it sent is still fed, and a dead socket shows when it is written to */
    }
}

/* Gives a new client a free slot, or closes it. */
static void welcome(int listener) {
    size_t slot = 1;
    int fd = accept(listener, NULL, NULL);
    while (slot < SLOTS && clients[slot].fd >= 0) {
        slot++;
    }
    if (fd >= 0 && (slot == SLOTS || fcntl(fd, F_SETFL, O_NONBLOCK) < 0)) {
        close(fd);
        fd = -1;
    }
    if (fd < 0) {
        return;
    }
    expect("open", infod3_open(memory, memory_len, slot, STREAM));
    clients[slot].fd = fd;
    clients[slot].ended = clients[slot].leaving = false;
    clients[slot].in_len = clients[slot].out_len = clients[slot].out_from = 0;
}

static int listen_at(const char *path) {
    struct sockaddr_un address;
    int fd = socket(AF_UNIX, SOCK_STREAM, 0);
    memset(&address, 0, sizeof address);
    address.sun_family = AF_UNIX;
    if (strlen(path) >= sizeof address.sun_path) {
        errno = ENAMETOOLONG;
        die(path);
    }
    if (fd < 0) {
        die(path);
    }
    memcpy(address.sun_path, path, strlen(path));
    if (bind(fd, (struct sockaddr *)&address, sizeof address) < 0 || listen(fd, 16) < 0 ||
        fcntl(fd, F_SETFL, O_NONBLOCK) < 0) {
        die(path);
    }
    return fd;
}

/* One turn. A client is read from only while its own output is written. */
static void turn(int listener) {
    struct pollfd fds[SLOTS];
    size_t slot;
    fds[0].fd = listener;
    fds[0].events = POLLIN;
    for (slot = 1; slot < SLOTS; slot++) {
        const client *c = &clients[slot];
        fds[slot].fd = c->fd; /* poll passes over -1 */
        fds[slot].events = c->out_from < c->out_len ? POLLOUT : POLLIN;
    }
    if (poll(fds, SLOTS, 1000) <= 0) {
        return;
    }
    for (slot = 1; slot < SLOTS; slot++) {
        if (fds[slot].fd >= 0 && (fds[slot].revents & (POLLIN | POLLHUP | POLLERR))) {
            receive(&clients[slot]);
        }
    }
    work();
    if (fds[0].revents != 0) {
        welcome(listener);
    }
}

int main(int argc, char **argv) {
    size_t slot;
    int listener;
    if (argc != 2) {
        fprintf(stderr, "usage: controller SOCKET\n");
        return 2;
    }
    memory_len = infod3_memory_size(SLOTS, STORE, QUEUE, RECORD);
    memory = (uint8_t *)malloc(memory_len);
    if (memory == NULL || signal(SIGINT, on_signal) == SIG_ERR ||
        signal(SIGTERM, on_signal) == SIG_ERR) {
        die("controller");
    }
    expect("set up", infod3_set_up(memory, memory_len, SLOTS, STORE, QUEUE, RECORD));
    for (slot = 0; slot < SLOTS; slot++) {
        clients[slot].fd = -1;
    }
    subscribe();
    listener = listen_at(argv[1]);
    while (!stopped) {
        turn(listener);
    }
    unlink(argv[1]);
    free(memory);
    return 0;
}
