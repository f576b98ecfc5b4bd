/* Calls every function of the library as a C caller does: document 01's worked elements, a record by the names of its
 * words, refusals (of a reading 1 to 4 and 15), words that are no record's, and that a refused call leaves what was
 * lent as it stood, save a reading's answer. Expected values are 01's (with C-11 of 02), or follow from it. */
#include <stdio.h>
#include <string.h>

#include "schilfauge.h"

enum { ROOM = 8300 };

static const uint8_t capture[] = {0x56, 0xE0, 0x09, 0x20, 0x00, 0x11, 0x90, 0x1F, 0xE0,
                                  0x15, 0x5E, 0x68, 0x56, 0xE0, 0x02, 0x80, 0x00};
static const uint8_t *const first = capture + 3, *const second = capture + 15;
static const uint8_t payload[] = {0xAB, 0xCD}, bytes[8192], none[1];

static uint32_t held[SCHILF_HELD_WORDS], map[SCHILF_MAP_WORDS];
static size_t answer[SCHILF_ANSWER_WORDS];
static unsigned checks, failures;

static void check(const char *what, bool holds)
{
    checks++;
    if (!holds) {
        failures++;
        printf("library: wrong: %s\n", what);
    }
}

static void hunts(void)
{
    size_t found[] = {7, 7};
    check("hunt from 0", schilf_hunt(capture, 17, 0, found) == 0 && found[SCHILF_FOUND_PLACE] == 0 &&
                             found[SCHILF_FOUND_SIZE] == 9);
    check("hunt from 1", schilf_hunt(capture, 17, 1, found) == 0 && found[SCHILF_FOUND_PLACE] == 12 &&
                             found[SCHILF_FOUND_SIZE] == 2);
    check("hunt behind the last", schilf_hunt(capture, 17, 13, found) == 20 && found[0] == 12 && found[1] == 2);
    check("hunt in no byte", schilf_hunt(none, 0, 0, found) == 20 && found[0] == 12 && found[1] == 2);
}

/* A read of `count` bytes with `words` held and room for `room` numbers: refused with this number, place and count, and
 * held and map stay. */
static void refused(const char *what, const uint8_t *element, size_t count, const uint32_t *words, size_t room,
                    size_t number, size_t place, size_t fields)
{
    uint32_t kept[SCHILF_HELD_WORDS];
    memcpy(kept, words, sizeof kept);
    memset(map, 0x5A, sizeof map);
    bool same = schilf_read(element, count, kept, map, room, answer) == number;
    for (size_t i = 0; i < SCHILF_MAP_WORDS; i++)
        same = same && map[i] == 0x5A5A5A5A;
    check(what, same && memcmp(kept, words, sizeof kept) == 0 && answer[SCHILF_ANSWER_ITEMS] == 0 &&
                    answer[SCHILF_ANSWER_PLACE] == place && answer[SCHILF_ANSWER_FIELDS] == fields &&
                    answer[SCHILF_ANSWER_SENT] == 0);
}

static void accepted(const char *what, const uint8_t *element, size_t count, const uint32_t *items, size_t number,
                     size_t fields, size_t sent)
{
    memset(map, 0x5A, sizeof map);
    check(what, schilf_read(element, count, held, map, SCHILF_MAP_WORDS, answer) == 0 &&
                    answer[SCHILF_ANSWER_ITEMS] == number && answer[SCHILF_ANSWER_PLACE] == 0 &&
                    answer[SCHILF_ANSWER_FIELDS] == fields && answer[SCHILF_ANSWER_SENT] == sent &&
                    memcmp(map, items, 16 * number) == 0 && map[4 * number] == 0x5A5A5A5A);
}

static void reads(void)
{
    static const uint32_t items[] = {1, 0, 0, 1, 2, 0, 1, 44, 3, 0, 45, 8, 4, 0, 53, 16, 6, 0, 69, 3};
    static const uint32_t same[] = {1, 0, 0, 1, 3, 0, 1, 8, 4, 0, 9, 0, 6, 0, 9, 7};
    uint32_t words[SCHILF_HELD_WORDS] = {0}, *const stream = words + SCHILF_STREAM_AT(0);
    refused("4, nothing held", second, 2, words, SCHILF_MAP_WORDS, 4, 0, 1);
    refused("1", first, 9, words, SCHILF_MAP_WORDS - 1, 1, 0, 0);
    refused("2, no byte", none, 0, words, SCHILF_MAP_WORDS, 2, 0, 0);
    refused("2, 8192 bytes", bytes, 8192, words, SCHILF_MAP_WORDS, 2, 0, 0);
    accepted("the first element", first, 9, items, 5, 17, 1);

    words[SCHILF_RECORD_FRAMING] = 1, words[SCHILF_HELD_PRESENT] = 1;
    stream[SCHILF_STREAM_CORE] = 2, stream[SCHILF_STREAM_FREQUENCY] = 3, stream[SCHILF_STREAM_CHANNELS] = 2;
    stream[SCHILF_STREAM_FULLNESS] = 255;
    check("what is then held", memcmp(held, words, sizeof held) == 0);
    accepted("the second element", second, 2, same, 4, 2, 0);
    check("what is held stays", memcmp(held, words, sizeof held) == 0);
    refused("3", second, 1, words, SCHILF_MAP_WORDS, 3, 1, 1);
    refused("15", (const uint8_t[]){0x80, 0, 0}, 3, words, SCHILF_MAP_WORDS, 15, 16, 2);

    words[SCHILF_HELD_PRESENT] = 2;
    refused("4, the last word is not 1", second, 2, words, SCHILF_MAP_WORDS, 4, 0, 1);
    words[SCHILF_HELD_PRESENT] = 1, stream[SCHILF_STREAM_FORM] = 6;
    refused("4, a form of 6", second, 2, words, SCHILF_MAP_WORDS, 4, 0, 1);
    stream[SCHILF_STREAM_FORM] = 0, words[SCHILF_RECORD_FRAMING] = 0;
    refused("4, a record that 16 refuses", second, 2, words, SCHILF_MAP_WORDS, 4, 0, 1);
}

/* The row of what is held, but in version 1 and with this form of SBR and PS over a channel configuration. */
static void row_of_form(const char *what, uint32_t configuration, uint32_t form, uint32_t flag, int64_t sbr, int64_t ps,
                        int64_t channels)
{
    bool extended = form == 1 || form == 2 || form >= 4;
    const int64_t expected[] = {0, 0, 0, 2, 48000, extended ? 96000 : 48000, sbr, ps, channels};
    uint32_t words[SCHILF_HELD_WORDS], *const stream = words + SCHILF_STREAM_AT(0);
    int64_t row[SCHILF_ROW_WORDS] = {0};
    memcpy(words, held, sizeof words);
    words[SCHILF_RECORD_VERSION] = 1, stream[SCHILF_STREAM_CHANNELS] = configuration;
    stream[SCHILF_STREAM_FORM] = form, stream[SCHILF_STREAM_PS] = flag;
    check(what, schilf_row(words, 0, 0, row) == 0 && memcmp(row, expected, sizeof row) == 0);
}

static void rows(void)
{
    static const int64_t expected[] = {0, 0, 0, 2, 48000, 48000, -1, -1, 2};
    static const int64_t absent[SCHILF_ROW_WORDS] = {SCHILF_NO_STREAM};
    uint32_t words[SCHILF_HELD_WORDS];
    int64_t row[SCHILF_ROW_WORDS] = {0};
    check("the row", schilf_row(held, 0, 0, row) == 0 && memcmp(row, expected, sizeof row) == 0);
    memcpy(words, held, sizeof words);
    words[SCHILF_STREAM_AT(0) + SCHILF_STREAM_FORM] = 6;
    check("16, a row of a form of 6", schilf_row(words, 0, 0, row) == 16 && memcmp(row, expected, sizeof row) == 0);
    check("no such layer", schilf_row(held, 0, 1, row) == 0 && memcmp(row, absent, sizeof row) == 0);
    check("no such program",
          schilf_row(held, UINT32_MAX, UINT32_MAX, row) == 0 && memcmp(row, absent, sizeof row) == 0);

    row_of_form("one channel, type 29", 1, 2, 0, 1, 1, 2);
    row_of_form("one channel, PS flag 1", 1, 5, 1, 1, 1, 2);
    row_of_form("one channel, PS flag 0", 1, 5, 0, 1, 0, 1);
    row_of_form("one channel, type 5", 1, 1, 0, 1, -1, 1);
    row_of_form("one channel, flag 1", 1, 4, 0, 1, -1, 1);
    row_of_form("one channel, flag 0", 1, 3, 0, 0, -1, 1);
    row_of_form("one channel, no flag", 1, 0, 0, -1, -1, 1);
    row_of_form("two channels, type 29", 2, 2, 0, 1, 1, 2);
    row_of_form("eight channels, PS flag 1", 7, 5, 1, 1, 1, 8);
}

/* The output, and whether only its first `count` bytes are other than before. */
static uint8_t out[ROOM];

static bool untouched(size_t count)
{
    for (size_t i = count; i < ROOM; i++)
        if (out[i] != 0x5A)
            return false;
    return true;
}

static void unwritten(const char *what, const uint32_t *record, size_t lengths, size_t payloads, size_t other,
                      size_t room, size_t number)
{
    static const uint32_t two[] = {2, 2};
    size_t written = 7;
    memset(out, 0x5A, ROOM);
    size_t answered = schilf_write(record, true, two, lengths, payload, payloads, bytes, other, out, room, &written);
    check(what, answered == number && written == 7 && untouched(0));
}

static void writes(void)
{
    static const uint32_t two = 2, zero = 0;
    uint32_t words[SCHILF_HELD_WORDS], *const stream = words + SCHILF_STREAM_AT(0);
    size_t written = 7;
    memset(out, 0x5A, ROOM);
    check("written with its record", schilf_write(held, true, &two, 1, payload, 2, none, 0, out, ROOM, &written) == 0 &&
                                         written == 9 && memcmp(out, first, 9) == 0 && untouched(9));
    memset(out, 0x5A, ROOM);
    check("written without it", schilf_write(held, false, &zero, 1, none, 0, none, 0, out, 2, &written) == 0 &&
                                    written == 2 && memcmp(out, second, 2) == 0 && untouched(2));
    memcpy(words, held, sizeof words);
    stream[SCHILF_STREAM_FORM] = 6;
    unwritten("16, a form of 6", words, 1, 2, 0, ROOM, 16);
    stream[SCHILF_STREAM_FORM] = 0, stream[SCHILF_STREAM_CORE] = 5;
    unwritten("16, a core of type 5", words, 1, 2, 0, ROOM, 16);
    unwritten("17, two lengths", held, 2, 2, 0, ROOM, 17);
    unwritten("17, a byte of payload too few", held, 1, 1, 0, ROOM, 17);
    unwritten("17, other data that is not present", held, 1, 2, 1, ROOM, 17);
    stream[SCHILF_STREAM_CORE] = 2, words[SCHILF_RECORD_OTHER] = 1, words[SCHILF_RECORD_BITS] = 65536;
    unwritten("18, 8192 bytes of other data", words, 1, 2, 8192, ROOM, 18);
    unwritten("19", held, 1, 2, 0, 8, 19);
}

/* An element whose record has something in every word that may hold something, laid out by tests/layout.py. Behind the
 * configuration all is 0: four subframes, each of two empty slots and two of 29 bytes, then 12 bits of other data. */
static void names(void)
{
    static const uint8_t element[280] = {0x48, 0x09, 0x64, 0x32, 0x02, 0x48, 0xBC, 0x02, 0xB0, 0x60, 0x62, 0xB7, 0x2C,
                                         0xEA, 0x44, 0x03, 0x80, 0x93, 0xDF, 0x00, 0x56, 0x21, 0x5F, 0x00, 0xBB, 0x81,
                                         0x20, 0x19, 0x04, 0x08, 0x06, 0xDA, 0x10, 0x4C, 0x82, 0x60, 0x66, 0x94};
    static const uint32_t lengths[] = {0, 0, 29, 29, 0, 0, 29, 29, 0, 0, 29, 29, 0, 0, 29, 29};
    static const uint32_t streams[][SCHILF_STREAM_WORDS] = {
        {[SCHILF_STREAM_CORE] = 2, [SCHILF_STREAM_CHOICE] = 1, [SCHILF_STREAM_FREQUENCY] = 44056,
         [SCHILF_STREAM_CHANNELS] = 1, [SCHILF_STREAM_FLAG] = 1, [SCHILF_STREAM_FORM] = 5,
         [SCHILF_STREAM_FORM_FREQUENCY] = 3, [SCHILF_STREAM_PS] = 1, [SCHILF_STREAM_FULLNESS] = 7},
        {[SCHILF_STREAM_CORE] = 4, [SCHILF_STREAM_CHOICE] = 1, [SCHILF_STREAM_FREQUENCY] = 22049,
         [SCHILF_STREAM_CHANNELS] = 5, [SCHILF_STREAM_FORM] = 2, [SCHILF_STREAM_FORM_CHOICE] = 1,
         [SCHILF_STREAM_FORM_FREQUENCY] = 48001, [SCHILF_STREAM_FULLNESS] = 200},
        {[SCHILF_STREAM_CORE] = 1, [SCHILF_STREAM_FREQUENCY] = 11, [SCHILF_STREAM_CHANNELS] = 6,
         [SCHILF_STREAM_FLAG] = 1, [SCHILF_STREAM_KIND] = 1, [SCHILF_STREAM_FIXED] = 9},
    };
    uint32_t words[SCHILF_HELD_WORDS] = {
        [SCHILF_RECORD_VERSION] = 1, [SCHILF_RECORD_TARA] = 300, [SCHILF_RECORD_FRAMING] = 1,
        [SCHILF_RECORD_SUBFRAMES] = 3, [SCHILF_RECORD_PROGRAMS] = 2, [SCHILF_RECORD_OTHER] = 1,
        [SCHILF_RECORD_BITS] = 12, [SCHILF_RECORD_CHECKED] = 1, [SCHILF_RECORD_CRC] = 0xA5,
        [SCHILF_RECORD_LAYERS + 2] = 1, [SCHILF_HELD_PRESENT] = 1};
    for (size_t i = 0; i < 4; i++)
        memcpy(words + SCHILF_STREAM_AT(i), streams[i < 3 ? i : 2], sizeof streams[0]);
    size_t written = 7;
    check("read, with all names", schilf_read(element, sizeof element, held, map, SCHILF_MAP_WORDS, answer) == 0 &&
                                      memcmp(held, words, sizeof held) == 0);
    memset(out, 0x5A, ROOM);
    check("written, with all names",
          schilf_write(words, true, lengths, 16, bytes, 232, bytes, 2, out, ROOM, &written) == 0 &&
              written == sizeof element && memcmp(out, element, sizeof element) == 0 && untouched(sizeof element));
}

static void frames(void)
{
    size_t written = 7;
    memset(out, 0x5A, ROOM);
    check("2, a frame of no byte", schilf_frame(none, 0, out, ROOM, &written) == 2 && written == 7 && untouched(0));
    check("2, a frame of 8192 bytes",
          schilf_frame(bytes, 8192, out, ROOM, &written) == 2 && written == 7 && untouched(0));
    check("19, a frame", schilf_frame(first, 9, out, 11, &written) == 19 && written == 7 && untouched(0));
    check("a frame", schilf_frame(first, 9, out, 12, &written) == 0 && written == 12 && memcmp(out, capture, 12) == 0 &&
                         untouched(12));
}

int main(void)
{
    hunts();
    reads();
    rows();
    writes();
    names();
    frames();
    printf("library: %u of %u as expected\n", checks - failures, checks);
    return failures != 0;
}
