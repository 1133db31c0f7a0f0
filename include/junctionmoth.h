/* Junctionmoth: the engine of a key box, KMIP 2.1 (TTLV).
 *
 * One request in, one response out, a lent table changed. It is for x86-64 with the System V calling
 * convention (Linux): link libjunctionmoth.a. C99 or newer, or C++.
 */
#ifndef JUNCTIONMOTH_H
#define JUNCTIONMOTH_H

#include <stddef.h>
#include <stdint.h>

/* The place counts that a table may have: how many keys it holds at one time. The four bytes from
 * byte 4 of a table on say its count, the highest first. */
#define JUNCTIONMOTH_SMALL_COUNT 64
#define JUNCTIONMOTH_LARGE_COUNT 256

/* Bytes of a table with so many places: the size follows from the count. */
#define JUNCTIONMOTH_TABLE_SIZE(count) (16 + 128 * (count))

/* Bytes of a small table and of a large one. */
#define JUNCTIONMOTH_SMALL_SIZE 8208
#define JUNCTIONMOTH_LARGE_SIZE 32784

/* Bytes of output room that no response exceeds; a call with less is refused. */
#define JUNCTIONMOTH_ROOM_LEAST 6360

/* Bytes of the fresh strip. */
#define JUNCTIONMOTH_STRIP_SIZE 512

/* Bytes of the longest request that is read. */
#define JUNCTIONMOTH_REQUEST_MOST 4096

/* What a call returns: 0, or why the request was turned away. Where several apply, the lowest. */
enum junctionmoth_refusal {
    JUNCTIONMOTH_ANSWERED = 0,
    JUNCTIONMOTH_REFUSED_ROOM = 1,      /* room below JUNCTIONMOTH_ROOM_LEAST */
    JUNCTIONMOTH_REFUSED_STRIP = 2,     /* strip not of JUNCTIONMOTH_STRIP_SIZE bytes */
    JUNCTIONMOTH_REFUSED_TABLE = 3,     /* place count or size not one of those, or unsound */
    JUNCTIONMOTH_REFUSED_SIZE = 4,      /* request empty or above JUNCTIONMOTH_REQUEST_MOST bytes */
    JUNCTIONMOTH_REFUSED_MALFORMED = 5, /* TTLV malformed */
    JUNCTIONMOTH_REFUSED_FRAME = 6,     /* message frame wrong */
    JUNCTIONMOTH_REFUSED_VERSION = 7,   /* protocol version not 2.1 */
    JUNCTIONMOTH_REFUSED_COUNT = 8,     /* Batch Count not 1 to 16, or not the number of items */
    JUNCTIONMOTH_REFUSED_OPTION = 9,    /* Batch Error Continuation Option none of 1, 2 and 3 */
    JUNCTIONMOTH_REFUSED_CLOCK = 10,    /* clock below 1 */
    JUNCTIONMOTH_REFUSED_UNDO = 11      /* second buffer not of the table's size */
};

/* C99's restrict; C++ has none. */
#if defined(__cplusplus)
#define JUNCTIONMOTH_RESTRICT
#else
#define JUNCTIONMOTH_RESTRICT restrict
#endif

#ifdef __cplusplus
extern "C" {
#endif

/* Makes a blank table of JUNCTIONMOTH_SMALL_COUNT or JUNCTIONMOTH_LARGE_COUNT places in as many bytes
 * as JUNCTIONMOTH_TABLE_SIZE(count) says: all zero but the place count, so no clock has been seen. A
 * host does this once, when a box is set up. A table of any other count is refused. */
static inline void junctionmoth_blank(uint8_t *table, uint32_t count)
{
    const size_t size = JUNCTIONMOTH_TABLE_SIZE((size_t)count);
    size_t i;
    for (i = 0; i < size; i++) {
        table[i] = 0;
    }
    for (i = 0; i < 4; i++) {
        table[4 + i] = (uint8_t)(count >> (24 - 8 * i) & 0xFF);
    }
}

/* Serves one request.
 *
 * request, request_len
 *     Any bytes, which are only read. A request has 1 to JUNCTIONMOTH_REQUEST_MOST.
 * table, table_len
 *     The stored table. Its place count is JUNCTIONMOTH_SMALL_COUNT or JUNCTIONMOTH_LARGE_COUNT, and
 *     its size follows from that: JUNCTIONMOTH_SMALL_SIZE or JUNCTIONMOTH_LARGE_SIZE bytes. The count
 *     is what junctionmoth_blank wrote: no call changes it, so a table keeps its size. Every call
 *     looks at the whole table, and takes the longer the more keys stand in it.
 *     The host keeps the table: whoever loses it loses the keys, and whoever brings an old one back
 *     brings back what was destroyed or granted since. Nobody else may write to it.
 *     Tables of 4,624 bytes, without dates and names, and of 5,648 bytes, without names, are refused;
 *     the program widen turns them into a small table of today.
 *     A key can have a name of 1 to 32 bytes of UTF-8 text, given once, by Create; Re-key moves it to
 *     the new key. No two keys of a table have the same one, and that of a destroyed key stays taken
 *     until its place goes to another key. Names are compared byte for byte: a host that wants one
 *     spelling of a text, or no control characters in it, sees to that before the call.
 *     A name is no secret: it stands in the table as it is, Get Attributes shows it to whoever asks,
 *     Locate answers the identifier of the key that has it, also of a destroyed one, and a Create
 *     that fails tells that a name is taken. So nothing belongs into it that not every client may know.
 * strip, strip_len
 *     JUNCTIONMOTH_STRIP_SIZE bytes from a random source, new for every call; they become key
 *     material, so the host wipes them after the call. They are only read.
 * clock
 *     POSIX seconds. One below 1 is refused. The table keeps the latest clock that was accepted, and an
 *     earlier one counts as that. The clock that counts is the response's Time Stamp, starts and stops
 *     keys by their dates before the first item, is the date that Activate and a Revoke that is no
 *     compromise set, and is stored with every accepted request, also when every item fails.
 *     So a clock that is set back wakes no key. But one far ahead, once accepted, stays the latest for
 *     ever: keys are started and stopped early, and no date up to it can act at its own time any more.
 *     The engine cannot tell such a clock from a right one. So a host checks its clock against a bound
 *     of its own before the call, and keeps the table from before the request until it has accepted
 *     the answer: there is no way back but that table, and none once the answer has been sent.
 * out, out_len
 *     Room for the response, JUNCTIONMOTH_ROOM_LEAST bytes or more. A response to Get holds key bytes:
 *     the host sends it over a channel that keeps them, and wipes out and its own copies afterwards.
 * response_len
 *     Set to the length of the response, or to 0. Never NULL.
 * undo, undo_len
 *     The second buffer. It has the table's size, table_len, and has to be lent with every request,
 *     whatever its Batch Error Continuation Option: a wrong size is refused. What it holds before the
 *     call plays no part. An accepted request with option 3 leaves the table in it that the first item
 *     met, the clock stored and what is due by it done, whether an item failed or not. No other call
 *     touches it. It is then a copy of the whole table, with the bytes of every key: the host guards
 *     it as it does the table, and wipes it. It is no way back from a wrong clock, which is in it too.
 *
 * The Batch Error Continuation Option of a request says what comes of a batch of which an item fails.
 * Option 1 (Continue) goes on with the next item. Option 2 (Stop), which also holds where there is no
 * option, ends the batch there, and what was done before it stays. Option 3 (Undo) ends it there too,
 * and the table is as the first item met it, the last serial issued among the rest: the items before
 * the one that failed are answered with status 3 (Operation Undone) and no payload, also those that
 * only look, and a serial that one of them had issued goes to the next new key. The latest clock and
 * the states that dates change stay. If no item fails, 3 does what 2 does.
 *
 * Returns JUNCTIONMOTH_ANSWERED if the request was answered: the response is the first *response_len
 * bytes of out, the bytes past it are as they were, and the table is changed as the answers say and by
 * the clock: the latest clock, and the states that dates change. Store the table before the response
 * is sent, also when every item failed or the batch was undone, since the clock is in it. It is table
 * that is stored, and never undo: that is the table before the items, and who stores it takes back
 * what was answered. Otherwise returns a refusal: *response_len is 0, and table, out and undo are as
 * they were, byte for byte.
 *
 * Any lengths may be given; each has to be that of its buffer. A buffer of length 0 may be NULL: the
 * call looks at no byte of it. The buffers are lent for the time of the call and must be apart: no two
 * of request, table, strip, out, response_len and undo may overlap.
 *
 * It always returns. It allocates nothing, needs memcpy and memset and nothing else of the C library,
 * and keeps nothing between calls, so threads may call it at the same time on different tables. It
 * takes less than 4 KB of stack and does not wipe what it used there: material of keys that were
 * looked at, made or handed out can be left on the stack, and is the host's to wipe.
 */
uint32_t junctionmoth_serve(const uint8_t *JUNCTIONMOTH_RESTRICT request, size_t request_len,
                            uint8_t *JUNCTIONMOTH_RESTRICT table, size_t table_len,
                            const uint8_t *JUNCTIONMOTH_RESTRICT strip, size_t strip_len,
                            int64_t clock,
                            uint8_t *JUNCTIONMOTH_RESTRICT out, size_t out_len,
                            size_t *JUNCTIONMOTH_RESTRICT response_len,
                            uint8_t *JUNCTIONMOTH_RESTRICT undo, size_t undo_len);

#ifdef __cplusplus
}
#endif

#endif
