/* infod3.h: the Uktervan message broker over lent memory, for C and for every language that calls C;
 * and the client's side of the protocol: commands written and messages read.
 *
 * The broker speaks infod3, version 0. It keeps everything it knows in one slice of bytes that the
 * caller lends with each call, and nothing anywhere else: no globals, no heap, no system calls. A
 * slice is a pointer and a length; NULL with length 0 is an empty slice. The memory may lie at any
 * address. Two calls that run at the same time must not be lent the same memory. The slices of one
 * call must not overlap. A feed needs up to 512 KiB of stack, every other call less than 2 KiB.
 *
 * Every function takes any argument. Every call ends with one of these answers:
 *
 *     0  done
 *     1  feed, read_message: more bytes are wanted; nothing is consumed
 *     2  slot number N or more, or the slot is free (for open: only the first)
 *     3  feed: the client is shut
 *     4  open: the slot is open, or shut and not yet closed
 *     5  a lent slice is too short: the memory of set up, or the out slice of take, write_command or
 *        read_message
 *     6  take: the queue is empty
 *     7  the memory breaks a rule of its layout (docs/layout.md)
 *     8  a size of set up is out of range; or a form is above 2
 *   100  unknown or malformed message
 *   101  bad parameter
 *   102  no room
 *   103  bad command state
 *
 * Answers 1 to 8 leave every lent byte as it was, and the counts beside them are 0. A feed refused with
 * 100 to 103 queues one ERROR to its client; the store and all other clients stay as they were. A text
 * client that was opened in form 1 stays open after 100, 101 and 103 and keeps its patterns; a
 * transaction that it is in is spoiled (see infod3_feed). Any other client, and every client after 102,
 * is shut: its patterns and its recording are dropped, and its queued messages may still be taken. Every
 * refusal of write_command and read_message, 100 to 102 too, leaves the out slice as it was.
 *
 * Every function is proved to meet the contract that these comments put in words; the proofs are in
 * the repository's crates.
 */
#ifndef INFOD3_H
#define INFOD3_H

#include <stdbool.h>
#include <stddef.h>
#include <stdint.h>

#ifdef __cplusplus
extern "C" {
#endif

/* What a call gives back: its answer, and the bytes that a feed consumed, or that a take or a
 * write_command wrote. */
typedef struct {
    uint32_t answer;
    size_t count;
} infod3_reply;

/* What a match gives: its answer (0, 101 or 102), yes or no, and the steps that it took. */
typedef struct {
    uint32_t answer;
    bool matched;
    size_t steps;
} infod3_match_result;

/* What a read_message gives back: its answer, the bytes of the input that the message took up, and the
 * bytes written to out. */
typedef struct {
    uint32_t answer;
    size_t consumed;
    size_t written;
} infod3_read;

/* The bytes of memory that a set up needs for n slots (1 to 32), a store room of s bytes (256 to
 * 1,048,576), and for each slot a queue room of q (1,024 to 1,048,576) and a record room of r (256 to
 * 262,144). 0 where one of them is out of range. */
size_t infod3_memory_size(size_t n, size_t s, size_t q, size_t r);

/* Sets a memory up, whatever it held: every slot is free and the store is empty. Answers, in this
 * order: 8 for a size out of range, 5 for a memory shorter than infod3_memory_size says, else 0. What
 * lies behind those bytes is never looked at and never altered, here and in every other call. */
infod3_reply infod3_set_up(uint8_t *mem, size_t mem_len, size_t n, size_t s, size_t q, size_t r);

/* Opens a client in a free slot: form 0 is packets (each feed is one message), form 1 a stream of
 * frames or of text lines, which its first byte decides, and form 2 such a stream whose client every
 * refusal shuts, a text client too. Answers, in this order: 7, 2, 8, 4, else 0. */
infod3_reply infod3_open(uint8_t *mem, size_t mem_len, size_t slot, size_t form);

/* Feeds a client the front of its input. The first whole message is taken and no more; the count is
 * its length, a text line's one ending byte included, for the answers 0 and 100 to 103. Answers, in
 * this order: 7, 2, 3, 1, then what the message comes to. Feed again with what is left over, and with
 * more input after a 1. The answer is 0 also where the message's own messages did not fit in the
 * client's queue, so that it was shut: take then gives the ERROR, behind what was queued before.
 *
 * The first byte of a stream decides: 0x0A, 0x0D, 0x20 and 0x40 to 0x7E mean text lines, all else means
 * frames. CR and LF each end a line; its word goes from the first byte that is no space to the next space
 * or the line's end. The words of text commands, in letters of either case, each with the letter that will
 * do and its ID: HELLO (no letter) 0, SUB s 1, UNSUB u 2, READ r 3, WRITE w 4, BEGIN b 5, COMMIT c 6, PING
 * p 7. Any other word is 100. So is any other ID of a packet or a frame; a wrong, missing or surplus field
 * of a known command is 101.
 *
 * Of a text client of form 1 a refusal with 100, 101 or 103 is a slip. Its ERROR is queued like any
 * message, which takes its length and 4 bytes more of the queue, and the client stays open; but where it
 * does not fit in q less 64 beside what the queue holds, the client is shut with 102 instead, and 102 is
 * the answer. A slip inside a transaction spoils it, a BEGIN there too, and what was recorded is dropped.
 * From then on commands that would be recorded get 0 and do nothing, however many they are; those whose
 * own form is refused with 100 to 102 are so as ever (`COMMIT x` is 101), a BEGIN is 103, and a COMMIT is
 * 103, does nothing and ends the transaction. */
infod3_reply infod3_feed(uint8_t *mem, size_t mem_len, size_t slot, const uint8_t *input,
                         size_t input_len);

/* Takes the first message of a client's queue, open or shut: it is written at the front of out and
 * removed, and the count is its length. The rest of out stays as it was. Answers, in this order: 7, 2,
 * 6, 5, else 0. No message is longer than q less 4 bytes. */
infod3_reply infod3_take(uint8_t *mem, size_t mem_len, size_t slot, uint8_t *out, size_t out_len);

/* Closes a client: its slot is free, and its patterns, its recording and its queue are gone. The store
 * stays. Answers, in this order: 7, 2, else 0. */
infod3_reply infod3_close(uint8_t *mem, size_t mem_len, size_t slot);

/* Matches a pattern against a key. Answers, in this order: 101 for an invalid pattern, 102 for a
 * pattern over 255 bytes or a key over 65,535, both with no match and 0 steps; else 0. */
infod3_match_result infod3_match(const uint8_t *pattern, size_t pattern_len, const uint8_t *key,
                                 size_t key_len);

/* The client's side. A form is here how bytes are written, and not how a slot was opened: 0 for packets,
 * 1 for framed bytes, 2 for text. Packets go with a slot that was opened in form 0. Frames and text go
 * with one that was opened in form 1 or 2, either of them for as long as it is open. A command that is
 * handed in and a message that is handed out stand as in packets: one byte of ID, then the payload. What
 * write_command writes a feed reads as that command, and what a take gives read_message reads as that
 * message. */

/* Writes a command at the front of out; the count is its length, and the rest of out stays as it was.
 * A text line ends in LF. Answers, in this order: 8 for a form above 2; 100 for an empty command or an
 * ID above 7; 101 for a HELLO without its version byte, a NUL in a key of READ or in a pattern, an
 * invalid pattern, a BEGIN or COMMIT with a payload; 102 for a payload over 65,535 bytes or a pattern
 * over 255; 5 where out is too short; else 0. No command is longer than 262,152 bytes. */
infod3_reply infod3_write_command(size_t form, const uint8_t *command, size_t command_len,
                                  uint8_t *out, size_t out_len);

/* Reads the first message of the input: ID and payload are written at the front of out, and the rest of
 * out stays as it was. A packet is all of its input; a text line ends with its first LF, and only a line
 * in the very form of a take's is read: the word in capitals, single spaces, every field, numbers from 0
 * to 255 without leading zeros, strings in quotes with the five escapes alone, CR LF. Answers, in this
 * order: 8 for a form above 2; 1 where the message is not whole; 100 for an unknown or missing word or
 * ID, an empty packet too; 101 for any other bad form: a VERSION or ERROR without its number, a NUL in
 * the key of a text INFO, a line in another form; 102 for a payload over 65,535 bytes; 5 where out is too
 * short; else 0. Beside 0 and 100 to 102 consumed is the message's length, beside 8, 1 and 5 it is 0. No
 * message needs more than 65,536 bytes of out, and none that a take gives is longer than 262,152: a
 * client that has so many bytes and gets 1 may give up. */
infod3_read infod3_read_message(size_t form, const uint8_t *input, size_t input_len, uint8_t *out,
                                size_t out_len);

#ifdef __cplusplus
}
#endif

#endif
