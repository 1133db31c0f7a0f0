/* The header as a C host uses it: its sizes, names and blank table against what the linked engine does.
 * Prints each check that fails, and ends with 0 if none did. The calls are those that the header's words are about. */
#include "junctionmoth.h"

#include <stdio.h>
#include <string.h>

#define ROOM (JUNCTIONMOTH_ROOM_LEAST + 8)

/* Create: AES, 128 bits, mask Encrypt. */
static const uint8_t sample[176] = {
    0x42, 0x00, 0x78, 0x01, 0, 0, 0, 0xA8, 0x42, 0x00, 0x77, 0x01, 0, 0, 0, 0x38,
    0x42, 0x00, 0x69, 0x01, 0, 0, 0, 0x20, 0x42, 0x00, 0x6A, 0x02, 0, 0, 0, 0x04,
    0, 0, 0, 0x02, 0, 0, 0, 0, 0x42, 0x00, 0x6B, 0x02, 0, 0, 0, 0x04,
    0, 0, 0, 0x01, 0, 0, 0, 0, 0x42, 0x00, 0x0D, 0x02, 0, 0, 0, 0x04,
    0, 0, 0, 0x01, 0, 0, 0, 0, 0x42, 0x00, 0x0F, 0x01, 0, 0, 0, 0x60,
    0x42, 0x00, 0x5C, 0x05, 0, 0, 0, 0x04, 0, 0, 0, 0x01, 0, 0, 0, 0,
    0x42, 0x00, 0x79, 0x01, 0, 0, 0, 0x48, 0x42, 0x00, 0x57, 0x05, 0, 0, 0, 0x04,
    0, 0, 0, 0x02, 0, 0, 0, 0, 0x42, 0x01, 0x25, 0x01, 0, 0, 0, 0x30,
    0x42, 0x00, 0x28, 0x05, 0, 0, 0, 0x04, 0, 0, 0, 0x03, 0, 0, 0, 0,
    0x42, 0x00, 0x2A, 0x02, 0, 0, 0, 0x04, 0, 0, 0, 0x80, 0, 0, 0, 0,
    0x42, 0x00, 0x2C, 0x02, 0, 0, 0, 0x04, 0, 0, 0, 0x04, 0, 0, 0, 0,
};

/* The same with the name "pump". */
static const uint8_t named[216] = {
    0x42, 0x00, 0x78, 0x01, 0, 0, 0, 0xD0, 0x42, 0x00, 0x77, 0x01, 0, 0, 0, 0x38,
    0x42, 0x00, 0x69, 0x01, 0, 0, 0, 0x20, 0x42, 0x00, 0x6A, 0x02, 0, 0, 0, 0x04,
    0, 0, 0, 0x02, 0, 0, 0, 0, 0x42, 0x00, 0x6B, 0x02, 0, 0, 0, 0x04,
    0, 0, 0, 0x01, 0, 0, 0, 0, 0x42, 0x00, 0x0D, 0x02, 0, 0, 0, 0x04,
    0, 0, 0, 0x01, 0, 0, 0, 0, 0x42, 0x00, 0x0F, 0x01, 0, 0, 0, 0x88,
    0x42, 0x00, 0x5C, 0x05, 0, 0, 0, 0x04, 0, 0, 0, 0x01, 0, 0, 0, 0,
    0x42, 0x00, 0x79, 0x01, 0, 0, 0, 0x70, 0x42, 0x00, 0x57, 0x05, 0, 0, 0, 0x04,
    0, 0, 0, 0x02, 0, 0, 0, 0, 0x42, 0x01, 0x25, 0x01, 0, 0, 0, 0x58,
    0x42, 0x00, 0x28, 0x05, 0, 0, 0, 0x04, 0, 0, 0, 0x03, 0, 0, 0, 0,
    0x42, 0x00, 0x2A, 0x02, 0, 0, 0, 0x04, 0, 0, 0, 0x80, 0, 0, 0, 0,
    0x42, 0x00, 0x2C, 0x02, 0, 0, 0, 0x04, 0, 0, 0, 0x04, 0, 0, 0, 0,
    0x42, 0x00, 0x53, 0x01, 0, 0, 0, 0x20, 0x42, 0x00, 0x55, 0x07, 0, 0, 0, 0x04,
    0x70, 0x75, 0x6D, 0x70, 0, 0, 0, 0, 0x42, 0x00, 0x54, 0x05, 0, 0, 0, 0x04,
    0, 0, 0, 0x01, 0, 0, 0, 0,
};

/* Locate of that name. */
static const uint8_t located[152] = {
    0x42, 0x00, 0x78, 0x01, 0, 0, 0, 0x90, 0x42, 0x00, 0x77, 0x01, 0, 0, 0, 0x38,
    0x42, 0x00, 0x69, 0x01, 0, 0, 0, 0x20, 0x42, 0x00, 0x6A, 0x02, 0, 0, 0, 0x04,
    0, 0, 0, 0x02, 0, 0, 0, 0, 0x42, 0x00, 0x6B, 0x02, 0, 0, 0, 0x04,
    0, 0, 0, 0x01, 0, 0, 0, 0, 0x42, 0x00, 0x0D, 0x02, 0, 0, 0, 0x04,
    0, 0, 0, 0x01, 0, 0, 0, 0, 0x42, 0x00, 0x0F, 0x01, 0, 0, 0, 0x48,
    0x42, 0x00, 0x5C, 0x05, 0, 0, 0, 0x04, 0, 0, 0, 0x08, 0, 0, 0, 0,
    0x42, 0x00, 0x79, 0x01, 0, 0, 0, 0x30, 0x42, 0x01, 0x25, 0x01, 0, 0, 0, 0x28,
    0x42, 0x00, 0x53, 0x01, 0, 0, 0, 0x20, 0x42, 0x00, 0x55, 0x07, 0, 0, 0, 0x04,
    0x70, 0x75, 0x6D, 0x70, 0, 0, 0, 0, 0x42, 0x00, 0x54, 0x05, 0, 0, 0, 0x04,
    0, 0, 0, 0x01, 0, 0, 0, 0,
};

static uint8_t request[JUNCTIONMOTH_REQUEST_MOST + 1];
static uint8_t table[JUNCTIONMOTH_LARGE_SIZE + 1];
static uint8_t strip[JUNCTIONMOTH_STRIP_SIZE + 1];
static uint8_t out[ROOM];
static uint8_t undo[sizeof table];
static uint8_t table_before[sizeof table];
static uint8_t out_before[sizeof out];
static uint8_t undo_before[sizeof undo];
static size_t length;
static int failures;

static void expect(int holds, const char *what)
{
    if (!holds) {
        printf("failed: %s\n", what);
        failures++;
    }
}

/* Every buffer as it is before a call: a blank table of so many places, the sample, output and second buffer that are not
 * zero. */
static void lay_out_for(uint32_t count)
{
    size_t i;
    memset(request, 0, sizeof request);
    memcpy(request, sample, sizeof sample);
    memset(table, 0xEE, sizeof table);
    junctionmoth_blank(table, count);
    for (i = 0; i < sizeof strip; i++) {
        strip[i] = (uint8_t)(i + 1);
    }
    memset(out, 0x55, sizeof out);
    memcpy(table_before, table, sizeof table);
    memcpy(out_before, out, sizeof out);
    memset(undo, 0x77, sizeof undo);
    memcpy(undo_before, undo, sizeof undo);
    length = 7;
}

static void lay_out(void)
{
    lay_out_for(JUNCTIONMOTH_SMALL_COUNT);
}

static void expect_untouched(const char *what)
{
    expect(length == 0, what);
    expect(memcmp(table, table_before, sizeof table) == 0, what);
    expect(memcmp(out, out_before, sizeof out) == 0, what);
    expect(memcmp(undo, undo_before, sizeof undo) == 0, what);
}

/* A call on the small table with this request and clock; everything else has its size. */
static uint32_t serve(const uint8_t *asked, size_t size, int64_t clock)
{
    return junctionmoth_serve(asked, size, table, JUNCTIONMOTH_SMALL_SIZE, strip, JUNCTIONMOTH_STRIP_SIZE, clock, out,
                              sizeof out, &length, undo, JUNCTIONMOTH_SMALL_SIZE);
}

/* A call with these lengths is refused with this number. */
static void refused(size_t asked, size_t stored, size_t fresh, size_t room, uint32_t number, const char *what)
{
    lay_out();
    expect(junctionmoth_serve(request, asked, table, stored, strip, fresh, 1, out, room, &length, undo, stored) == number,
           what);
    expect_untouched(what);
}

static void sizes(void)
{
    const size_t table_size = JUNCTIONMOTH_SMALL_SIZE;
    const size_t strip_size = JUNCTIONMOTH_STRIP_SIZE;
    const size_t room_least = JUNCTIONMOTH_ROOM_LEAST;
    const size_t most = JUNCTIONMOTH_REQUEST_MOST;
    refused(sizeof sample, table_size, strip_size, room_least - 1, JUNCTIONMOTH_REFUSED_ROOM, "room one short");
    refused(sizeof sample, table_size, strip_size - 1, room_least, JUNCTIONMOTH_REFUSED_STRIP, "strip one short");
    refused(sizeof sample, table_size, strip_size + 1, room_least, JUNCTIONMOTH_REFUSED_STRIP, "strip one long");
    refused(sizeof sample, table_size - 1, strip_size, room_least, JUNCTIONMOTH_REFUSED_TABLE, "table one short");
    refused(sizeof sample, table_size + 1, strip_size, room_least, JUNCTIONMOTH_REFUSED_TABLE, "table one long");
    refused(sizeof sample, JUNCTIONMOTH_LARGE_SIZE, strip_size, room_least, JUNCTIONMOTH_REFUSED_TABLE, "64 places, large");
    refused(sizeof sample, 4624, strip_size, room_least, JUNCTIONMOTH_REFUSED_TABLE, "table without dates");
    refused(sizeof sample, 5648, strip_size, room_least, JUNCTIONMOTH_REFUSED_TABLE, "table without names");
    refused(0, table_size, strip_size, room_least, JUNCTIONMOTH_REFUSED_SIZE, "request empty");
    refused(most + 1, table_size, strip_size, room_least, JUNCTIONMOTH_REFUSED_SIZE, "request one long");
    refused(most, table_size, strip_size, room_least, JUNCTIONMOTH_REFUSED_MALFORMED, "request as long as may be");
}

/* The sample with one byte changed is refused with this number. */
static void spoilt(size_t at, uint8_t byte, uint32_t number, const char *what)
{
    lay_out();
    request[at] = byte;
    expect(serve(request, sizeof sample, 1) == number, what);
    expect_untouched(what);
}

static void frames(void)
{
    spoilt(0, 0x43, JUNCTIONMOTH_REFUSED_MALFORMED, "tag of the message");
    spoilt(10, 0x7A, JUNCTIONMOTH_REFUSED_FRAME, "tag of the header");
    spoilt(35, 1, JUNCTIONMOTH_REFUSED_VERSION, "version 1.1");
    spoilt(67, 2, JUNCTIONMOTH_REFUSED_COUNT, "count of 2");
}

/* The sample with a Batch Error Continuation Option in front of the Batch Count; gives its size. */
static size_t lay_out_option(uint8_t value)
{
    static const uint8_t option[16] = {0x42, 0x00, 0x0E, 0x05, 0, 0, 0, 4, 0, 0, 0, 0, 0, 0, 0, 0};
    lay_out();
    memmove(request + 72, request + 56, sizeof sample - 56);
    memcpy(request + 56, option, sizeof option);
    request[67] = value;
    request[7] = 0xB8;
    request[15] = 0x48;
    return sizeof sample + sizeof option;
}

/* "none of 1, 2 and 3" */
static void options(void)
{
    uint8_t value;
    for (value = 0; value <= 4; value++) {
        const size_t size = lay_out_option(value);
        const uint32_t number = value == 0 || value == 4 ? JUNCTIONMOTH_REFUSED_OPTION : JUNCTIONMOTH_ANSWERED;
        expect(serve(request, size, 1) == number, "options 0 to 4");
        if (number != JUNCTIONMOTH_ANSWERED) {
            expect_untouched("options 0 and 4");
        }
        if (value == 1 || value == 2) {
            expect(memcmp(undo, undo_before, sizeof undo) == 0, "options 1 and 2 leave the second buffer");
        }
    }
}

/* "a wrong size is refused", "whatever its Batch Error Continuation Option" */
static void second_buffers(void)
{
    static const size_t wrong[4] = {0, JUNCTIONMOTH_SMALL_SIZE - 1, JUNCTIONMOTH_SMALL_SIZE + 1, JUNCTIONMOTH_LARGE_SIZE};
    uint8_t value;
    size_t i;
    for (value = 1; value <= 3; value++) {
        for (i = 0; i < 4; i++) {
            const size_t size = lay_out_option(value);
            expect(junctionmoth_serve(request, size, table, JUNCTIONMOTH_SMALL_SIZE, strip, JUNCTIONMOTH_STRIP_SIZE, 1, out,
                                      sizeof out, &length, wrong[i] == 0 ? NULL : undo, wrong[i])
                       == JUNCTIONMOTH_REFUSED_UNDO, "a second buffer of another size");
            expect_untouched("a second buffer of another size");
        }
    }
}

/* "leaves the table in it that the first item met" */
static void undone(void)
{
    /* a second item, Activate without identifier, behind the Create: it succeeds once, and not twice */
    static const uint8_t activate[32] = {
        0x42, 0x00, 0x0F, 0x01, 0, 0, 0, 0x18, 0x42, 0x00, 0x5C, 0x05, 0, 0, 0, 0x04,
        0, 0, 0, 0x12, 0, 0, 0, 0, 0x42, 0x00, 0x79, 0x01, 0, 0, 0, 0,
    };
    size_t size = lay_out_option(3);
    table_before[15] = 9;
    memcpy(request + size, activate, sizeof activate);
    request[7] = 0xD8;
    request[83] = 2;
    expect(serve(request, size + 32, 9) == JUNCTIONMOTH_ANSWERED, "Create and Activate under Undo");
    expect(length == 232 && table[3] == 1 && table[20] == 2, "an Active key stands in the table");
    expect(memcmp(undo, table_before, JUNCTIONMOTH_SMALL_SIZE) == 0, "the second buffer holds the table before");
    expect(undo[JUNCTIONMOTH_SMALL_SIZE] == 0x77, "nothing past the second buffer is written");
    size = lay_out_option(3);
    table_before[15] = 9;
    memcpy(request + size, activate, sizeof activate);
    memcpy(request + size + 32, activate, sizeof activate);
    request[7] = 0xF8;
    request[83] = 3;
    expect(serve(request, size + 64, 9) == JUNCTIONMOTH_ANSWERED, "a second Activate fails");
    expect(length == 88 + 40 + 40 + 56, "two items with a status alone, and a third with its reason");
    expect(out[123] == 3 && out[163] == 3 && out[203] == 1 && out[219] == 0x43, "which they are");
    expect(memcmp(out + length, out_before + length, sizeof out - length) == 0, "output past them is as it was");
    expect(memcmp(table, table_before, JUNCTIONMOTH_SMALL_SIZE) == 0, "the table is as before, but for the clock");
    expect(memcmp(undo, table_before, JUNCTIONMOTH_SMALL_SIZE) == 0, "and so is the second buffer");
}

/* "A buffer of length 0 may be NULL" */
static void no_buffers(void)
{
    lay_out();
    expect(junctionmoth_serve(NULL, 0, NULL, 0, NULL, 0, 1, NULL, 0, &length, NULL, 0) == JUNCTIONMOTH_REFUSED_ROOM,
           "all NULL");
    expect_untouched("all NULL");
    lay_out();
    expect(junctionmoth_serve(request, sizeof sample, table, JUNCTIONMOTH_SMALL_SIZE, NULL, 0, 1, out, sizeof out,
                              &length, undo, JUNCTIONMOTH_SMALL_SIZE) == JUNCTIONMOTH_REFUSED_STRIP, "no strip");
    expect_untouched("no strip");
    lay_out();
    expect(junctionmoth_serve(request, sizeof sample, NULL, 0, strip, JUNCTIONMOTH_STRIP_SIZE, 1, out, sizeof out,
                              &length, NULL, 0) == JUNCTIONMOTH_REFUSED_TABLE, "no table");
    expect_untouched("no table");
    lay_out();
    expect(serve(NULL, 0, 1) == JUNCTIONMOTH_REFUSED_SIZE, "no request");
    expect_untouched("no request");
}

/* "One below 1 is refused"; "an earlier one counts as that" */
static void clocks(void)
{
    static const int64_t below[3] = {0, -1, INT64_MIN};
    size_t i;
    for (i = 0; i < 3; i++) {
        lay_out();
        expect(serve(request, sizeof sample, below[i]) == JUNCTIONMOTH_REFUSED_CLOCK, "clock below 1");
        expect_untouched("clock below 1");
    }
    lay_out();
    for (i = 5; i >= 3; i--) {
        expect(serve(request, sizeof sample, (int64_t)i) == JUNCTIONMOTH_ANSWERED, "clocks 5, 4 and 3");
        expect(table[15] == 5, "5 is the latest clock");
        expect(out[71] == 5, "and the Time Stamp");
    }
}

static void answered(void)
{
    lay_out();
    expect(serve(request, sizeof sample, 1) == JUNCTIONMOTH_ANSWERED, "the sample is answered");
    expect(length == 168, "its response has 168 bytes");
    expect(memcmp(out + 160, "00000001", 8) == 0, "and ends with the new identifier");
    expect(memcmp(out + 168, out_before + 168, sizeof out - 168) == 0, "output past it is as it was");
    expect(table[3] == 1, "the last serial issued is 1");
    expect(memcmp(table + 16 + 16 * JUNCTIONMOTH_SMALL_COUNT + 24, strip, 16) == 0, "its material is the strip's front");
    expect(table[JUNCTIONMOTH_SMALL_SIZE] == 0xEE, "nothing past the table is written");
    expect(memcmp(undo, undo_before, sizeof undo) == 0, "nothing is written to the second buffer");
}

/* The sample on a blank table of this count, of which this many bytes are lent. */
static uint32_t serve_large(uint32_t count, size_t stored)
{
    lay_out_for(count);
    return junctionmoth_serve(request, sizeof sample, table, stored, strip, JUNCTIONMOTH_STRIP_SIZE, 1, out, sizeof out,
                              &length, undo, stored);
}

/* "its size follows from that"; "no call changes it" */
static void large(void)
{
    const size_t size = JUNCTIONMOTH_LARGE_SIZE;
    expect(serve_large(256, size - 1) == JUNCTIONMOTH_REFUSED_TABLE, "large table one short");
    expect_untouched("large table one short");
    expect(serve_large(256, size + 1) == JUNCTIONMOTH_REFUSED_TABLE, "large table one long");
    expect_untouched("large table one long");
    expect(serve_large(256, JUNCTIONMOTH_SMALL_SIZE) == JUNCTIONMOTH_REFUSED_TABLE, "256 places, small");
    expect_untouched("256 places, small");
    expect(serve_large(128, JUNCTIONMOTH_TABLE_SIZE(128)) == JUNCTIONMOTH_REFUSED_TABLE, "128 places");
    expect_untouched("128 places");
    expect(serve_large(JUNCTIONMOTH_LARGE_COUNT, size) == JUNCTIONMOTH_ANSWERED, "a large table is served");
    expect(length == 168 && table[3] == 1, "and the last serial issued is 1");
    expect(table[4] == 0 && table[5] == 0 && table[6] == 1 && table[7] == 0, "it says 256 as before");
    expect(memcmp(table + 16 + 16 * 256 + 24, strip, 16) == 0, "the material stands in its first body");
    expect(table[size] == 0xEE, "nothing past the large table is written");
}

/* A call on the table as it is, which is answered. */
static void ask(const uint8_t *asked, size_t size, const char *what)
{
    expect(serve(asked, size, 1) == JUNCTIONMOTH_ANSWERED, what);
}

/* "No two keys of a table have the same one"; "Locate answers the identifier of the key that has it" */
static void names(void)
{
    lay_out();
    ask(located, sizeof located, "a Locate is answered");
    expect(length == 136 && out[135] == 0, "with an empty payload while no key has the name");
    ask(named, sizeof named, "a Create with a name is answered");
    expect(length == 168 && memcmp(out + 160, "00000001", 8) == 0, "with the new identifier");
    expect(memcmp(table + 16 + 16 * JUNCTIONMOTH_SMALL_COUNT + 80, "pump", 4) == 0, "the name stands in the table");
    ask(named, sizeof named, "a second Create with the name is answered");
    expect(length == 144 && out[139] == 0x35, "with Non Unique Name Attribute");
    ask(located, sizeof located, "a Locate is answered again");
    expect(length == 152 && memcmp(out + 144, "00000001", 8) == 0, "with the identifier of that key");
}

int main(void)
{
    sizes();
    frames();
    options();
    second_buffers();
    undone();
    no_buffers();
    clocks();
    answered();
    large();
    names();
    return failures == 0 ? 0 : 1;
}
