/* forms.c: every command and every message in the three forms, as tables (docs/client.md has them).
 *
 * A client writes each command with infod3_write_command; a broker beside it is fed that, and what the
 * broker then gives is read with infod3_read_message. In every form that has to be the same message.
 *
 * cc -std=c99 -I ../include forms.c ../crates/ffi/out/libffi.a -o forms
 */
#include <infod3.h>

#include <stdio.h>
#include <stdlib.h>
#include <string.h>

enum { PACKETS = 0, FRAMED = 1, TEXT = 2, FORMS = 3, ROOM = 300, MOST = 20 };

/* Bytes with a name, such as a command: one byte of ID, then the payload. */
typedef struct {
    const char *name;
    size_t len;
    const char *bytes;
} row;

/* A command, or a message, in one form, and as ID and payload. */
typedef struct {
    size_t len, packet_len;
    uint8_t bytes[ROOM], packet[ROOM];
} cell;

static void check(const char *what, bool holds) {
    if (!holds) {
        fprintf(stderr, "forms: %s\n", what);
        exit(1);
    }
}

/* Prints bytes as hexadecimal numbers, or a text line without its end. */
static void print_bytes(size_t form, const uint8_t *bytes, size_t len) {
    size_t i;
    while (form == TEXT && len > 0 && (bytes[len - 1] == '\n' || bytes[len - 1] == '\r')) {
        len--;
    }
    printf("%s", len == 0 ? "none" : "`");
    for (i = 0; i < len; i++) {
        printf(form == TEXT ? "%c" : i == 0 ? "%02X" : " %02X", bytes[i]);
    }
    printf("%s", len == 0 ? "" : "`");
}

static void print_row(const char *name, cell cells[FORMS][MOST], size_t at) {
    size_t form;
    printf("| %s |", name);
    for (form = 0; form < FORMS; form++) {
        printf(" ");
        print_bytes(form, cells[form][at].bytes, cells[form][at].len);
        printf(" |");
    }
    printf("\n");
}

/* Feeds the broker a command and takes the message that it then gives, if there is one. */
static bool answer(size_t form, uint8_t *mem, size_t len, const cell *command, cell *message) {
    infod3_reply fed = infod3_feed(mem, len, 0, command->bytes, command->len);
    infod3_reply taken = infod3_take(mem, len, 0, message->bytes, ROOM);
    infod3_read got;
    check("the broker does not take a command whole", fed.answer != 1 && fed.count == command->len);
    if (taken.answer == 6) {
        return false;
    }
    check("a take", taken.answer == 0);
    message->len = taken.count;
    got = infod3_read_message(form, message->bytes, taken.count, message->packet, ROOM);
    check("a message is not read whole", got.answer == 0 && got.consumed == taken.count);
    message->packet_len = got.written;
    return true;
}

/* Runs all commands over one broker, in one form; gives the number of messages. */
static size_t run(size_t form, const row *commands, size_t count, cell *written, cell *messages) {
    const size_t len = infod3_memory_size(1, 256, 1024, 256);
    uint8_t *mem = (uint8_t *)malloc(len);
    static const char *const wrong[FORMS] = {"\x08", "\x08\0", "NONSENSE\n"};
    static const size_t wrong_len[FORMS] = {1, 3, 9};
    size_t i, got = 0;
    check("memory", mem != NULL && infod3_set_up(mem, len, 1, 256, 1024, 256).answer == 0);
    check("open", infod3_open(mem, len, 0, form == PACKETS ? 0 : 1).answer == 0);
    for (i = 0; i <= count; i++) {
        cell *c = &written[i];
        if (i < count) {
            infod3_reply reply = infod3_write_command(form, (const uint8_t *)commands[i].bytes,
                                                      commands[i].len, c->bytes, ROOM);
            check("a command is refused", reply.answer == 0);
            c->len = reply.count;
        } else { /* no command, for which there is an ERROR; the frame's last NUL is the literal's */
            c->len = wrong_len[form];
            memcpy(c->bytes, wrong[form], c->len);
        }
        got += answer(form, mem, len, c, &messages[got]) ? 1 : 0;
    }
    free(mem);
    return got;
}

static void print_forms(void) {
    static const row commands[] = {
        {"HELLO, version 0, text `me`", 4, "\0\0me"},
        {"SUB `k*`", 3, "\1k*"},
        {"UNSUB `x*`", 3, "\2x*"},
        {"READ `k`", 2, "\3k"},
        {"WRITE `k`, value `v`", 4, "\4k\0v"},
        {"WRITE `k`, the empty value", 3, "\4k\0"},
        {"WRITE `k`, value NUL LF CR `\"` `\\`", 8, "\4k\0\0\n\r\"\\"},
        {"WRITE `k`, no value: deletes", 2, "\4k"},
        {"BEGIN", 1, "\5"},
        {"COMMIT", 1, "\6"},
        {"PING, identifier `x`", 2, "\7x"},
        {"PING, no identifier", 1, "\7"},
    };
    static const char *const messages[] = {
        "VERSION 0, no text",
        "INFO `k`, absent",
        "INFO `k`, value `v`",
        "INFO `k`, the empty value",
        "INFO `k`, value NUL LF CR `\"` `\\`",
        "INFO `k`, deleted",
        "PONG, identifier `x`",
        "PONG, no identifier",
        "ERROR 100, its text",
    };
    const size_t count = sizeof commands / sizeof commands[0], owed = sizeof messages / sizeof messages[0];
    static cell written[FORMS][MOST], got[FORMS][MOST];
    size_t form, i;
    for (form = 0; form < FORMS; form++) {
        check("other messages", run(form, commands, count, written[form], got[form]) == owed);
        for (i = 0; i < owed; i++) {
            const cell *packet = &got[PACKETS][i], *c = &got[form][i];
            check("a form has another message", c->packet_len == packet->len &&
                                                    memcmp(c->packet, packet->bytes, packet->len) == 0);
        }
    }
    printf("| Command | Packet | Framed | Text, then LF |\n|---|---|---|---|\n");
    for (i = 0; i < count; i++) {
        print_row(commands[i].name, written, i);
    }
    printf("\n| Message | Packet | Framed | Text, then CR LF |\n|---|---|---|---|\n");
    for (i = 0; i < owed; i++) {
        print_row(messages[i], got, i);
    }
}

/* Commands that the writer refuses, in every form alike. */
static void print_refused_commands(void) {
    static char long_pattern[1 + 256], long_value[1 + 65536];
    static const row commands[] = {
        {"no byte at all", 0, ""},
        {"an ID above 7", 1, "\x08"},
        {"HELLO without its version byte", 1, "\0"},
        {"SUB of an invalid pattern, `a**`", 4, "\1a**"},
        {"READ of a key with a NUL", 4, "\3a\0b"},
        {"BEGIN or COMMIT with a payload", 2, "\5x"},
        {"SUB of a pattern of 256 bytes", sizeof long_pattern, long_pattern},
        {"a payload of 65,536 bytes", sizeof long_value, long_value},
        {"any good one, `out` one byte too short", 2, "\7x"},
    };
    const size_t count = sizeof commands / sizeof commands[0];
    static uint8_t out[262152];
    size_t i, form;
    memset(long_pattern, 'a', sizeof long_pattern);
    long_pattern[0] = 1;
    memset(long_value, 'a', sizeof long_value);
    long_value[0] = 7;
    printf("\n| Command | Answer |\n|---|---|\n");
    for (i = 0; i < count; i++) {
        const uint8_t *bytes = (const uint8_t *)commands[i].bytes;
        infod3_reply reply = {0, 0};
        for (form = 0; form < FORMS; form++) {
            const size_t need = infod3_write_command(form, bytes, commands[i].len, out, sizeof out).count;
            const size_t room = need == 0 ? sizeof out : need - 1;
            const uint32_t before = reply.answer;
            reply = infod3_write_command(form, bytes, commands[i].len, out, room);
            check("another answer in another form", (form == 0 || reply.answer == before) && reply.count == 0);
        }
        printf("| %s | %lu |\n", commands[i].name, (unsigned long)reply.answer);
    }
}

/* Input on which the reader gives another answer than 0. */
static void print_refused_messages(void) {
    static const struct {
        size_t form;
        row input;
    } inputs[] = {
        {FRAMED, {"a frame that is not whole", 4, "\x82\0\2x"}},
        {FRAMED, {"an ID that no message has", 3, "\x07\0"}},
        {FRAMED, {"VERSION without its number", 3, "\x80\0"}},
        {TEXT, {"a line that is not whole", 8, "PONG \"x\""}},
        {TEXT, {"a word that no message has; case counts", 10, "pong \"x\"\r\n"}},
        {TEXT, {"a line of the server itself", 14, "# read-only..\n"}},
        {TEXT, {"an empty line", 2, "\r\n"}},
        {TEXT, {"LF without CR", 9, "PONG \"x\"\n"}},
        {TEXT, {"no quotes", 8, "PONG x\r\n"}},
        {TEXT, {"two spaces", 11, "PONG  \"x\"\r\n"}},
        {TEXT, {"an escape for another byte than the five", 13, "PONG \"\\101\"\r\n"}},
        {TEXT, {"a number with a leading zero", 15, "VERSION 00 \"\"\r\n"}},
        {PACKETS, {"an empty packet", 0, ""}},
        {PACKETS, {"a good packet, `out` one byte too short", 3, "\x82xy"}},
    };
    static const char *const forms[FORMS] = {"packets", "framed", "text"};
    size_t i;
    uint8_t out[ROOM];
    printf("\n| Form | Input | | Answer | Consumed |\n|---|---|---|---|---|\n");
    for (i = 0; i < sizeof inputs / sizeof inputs[0]; i++) {
        const row *input = &inputs[i].input;
        const uint8_t *bytes = (const uint8_t *)input->bytes;
        const infod3_read got = infod3_read_message(inputs[i].form, bytes, input->len, out, 2);
        check("something is written beside a refusal", got.answer != 0 && got.written == 0);
        printf("| %s | %s | ", forms[inputs[i].form], input->name);
        print_bytes(inputs[i].form, bytes, input->len);
        printf(" | %lu | %lu |\n", (unsigned long)got.answer, (unsigned long)got.consumed);
    }
}

int main(void) {
    print_forms();
    print_refused_commands();
    print_refused_messages();
    return 0;
}
