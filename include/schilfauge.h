/* Schilfauge: a reader and writer of MPEG-4 audio multiplexes (LOAS / LATM).
 *
 * Every function answers 0, or the number of a refusal. It takes any numbers and any bytes; it reads and writes nothing
 * but what it was lent, and keeps nothing from one call to the next. A refused call leaves all that was lent as it
 * stood, save the answer of schilf_read, which says where it stopped. What each lent word holds afterwards is proved:
 * crates/schilfauge has the promises.
 *
 * What the caller owes: no pointer is null, also where the count is 0; there are as many words as the array or the
 * count says; what a call may write overlaps with nothing else that is lent to it. Counts are of elements, not of
 * bytes.
 *
 * Refusals:
 *    1  the map has room for fewer than 4368 numbers
 *    2  the element has no byte, or more than 8191
 *    3  the element ends before this field, fill, payload or other data does
 *    4  the held configuration is to apply, and none is held
 *    5  audioMuxVersionA is 1
 *    6  the streams are not framed together
 *    7  more than 16 streams
 *    8  audio object type not carried
 *    9  frequency index 13 or 14, or a frequency of 0 Hz
 *   10  a field of the configuration passes ascLen
 *   11  channelConfiguration not carried
 *   12  dependsOnCoreCoder or extensionFlag is 1
 *   13  frameLengthType not carried
 *   14  the length of other data has more than four groups
 *   15  whole bytes are left after the alignment
 *   16  the words are no record, or a value of the record cannot be written
 *   17  the lengths, the payload or the other data do not fit the record
 *   18  the element would have more than 8191 bytes
 *   19  the output is shorter than what is to be written
 *   20  no frame at or after the start, or more than 65536 bytes
 */
#ifndef SCHILFAUGE_H
#define SCHILFAUGE_H

#include <stdbool.h>
#include <stddef.h>
#include <stdint.h>

#ifdef __cplusplus
extern "C" {
#endif

#define SCHILF_CAPTURE_BYTES 65536 /* the most bytes of a capture */
#define SCHILF_ELEMENT_BYTES 8191  /* the most bytes of an element */
#define SCHILF_FRAME_HEAD 3        /* bytes of a frame in front of its element */
#define SCHILF_MAP_WORDS 4368      /* the words of a map: 1,092 items of four */
#define SCHILF_PROGRAMS 16         /* the most programs */
#define SCHILF_LAYERS 8            /* the most layers of a program */
#define SCHILF_STREAMS 16          /* the most streams */

/* The words of a stream. */
enum {
    SCHILF_STREAM_CORE,           /* core object type */
    SCHILF_STREAM_CHOICE,         /* frequency: 0 for an index, 1 for Hz */
    SCHILF_STREAM_FREQUENCY,      /* the index, or Hz */
    SCHILF_STREAM_CHANNELS,       /* channelConfiguration */
    SCHILF_STREAM_FLAG,           /* frameLengthFlag */
    SCHILF_STREAM_DEPENDS,        /* dependsOnCoreCoder */
    SCHILF_STREAM_EXTENSION,      /* extensionFlag */
    SCHILF_STREAM_FORM,           /* 0 none, 1 type 5, 2 type 29, 3 after 0x2B7 with flag 0, 4 with flag 1,
                                   * 5 with flag 1 and a PS flag */
    SCHILF_STREAM_FORM_CHOICE,    /* the form's frequency: 0 for an index, 1 for Hz */
    SCHILF_STREAM_FORM_FREQUENCY, /* the index, or Hz */
    SCHILF_STREAM_PS,             /* the PS flag */
    SCHILF_STREAM_KIND,           /* frameLengthType */
    SCHILF_STREAM_FULLNESS,       /* latmBufferFullness */
    SCHILF_STREAM_FIXED,          /* frameLength */
    SCHILF_STREAM_WORDS
};

/* The words of a record: what it has once, numLayer of each program, and last the streams. What is not sent holds 0,
 * and so do streams and programs past the last. Words that no record has (a form of 6) are no record. */
enum {
    SCHILF_RECORD_VERSION,    /* audioMuxVersion */
    SCHILF_RECORD_SUBVERSION, /* audioMuxVersionA */
    SCHILF_RECORD_TARA,       /* taraBufferFullness */
    SCHILF_RECORD_FRAMING,    /* allStreamsSameTimeFraming */
    SCHILF_RECORD_SUBFRAMES,  /* numSubFrames */
    SCHILF_RECORD_PROGRAMS,   /* numProgram */
    SCHILF_RECORD_OTHER,      /* otherDataPresent */
    SCHILF_RECORD_BITS,       /* the length of other data in bits */
    SCHILF_RECORD_CHECKED,    /* crcCheckPresent */
    SCHILF_RECORD_CRC,        /* crcCheckSum */
    SCHILF_RECORD_LAYERS,     /* numLayer of program 0; those of the other programs behind it */
    SCHILF_RECORD_STREAMS = SCHILF_RECORD_LAYERS + SCHILF_PROGRAMS,
    SCHILF_RECORD_WORDS = SCHILF_RECORD_STREAMS + SCHILF_STREAMS * SCHILF_STREAM_WORDS
};

/* Where the words of a stream begin in those of a record. */
#define SCHILF_STREAM_AT(stream) (SCHILF_RECORD_STREAMS + SCHILF_STREAM_WORDS * (stream))

/* The words held: a record's, and behind them 1 where it is present. */
enum { SCHILF_HELD_PRESENT = SCHILF_RECORD_WORDS, SCHILF_HELD_WORDS };

/* The words that schilf_hunt finds. */
enum { SCHILF_FOUND_PLACE, SCHILF_FOUND_SIZE, SCHILF_FOUND_WORDS };

/* The first frame at or after byte `start`. 0: `found` has the place of the frame and the bytes of its element, which
 * begins SCHILF_FRAME_HEAD bytes after that place. The next hunt starts where the element ends, also where the element
 * was refused. Else 20. */
size_t schilf_hunt(const uint8_t *capture, size_t capture_count, size_t start, size_t found[SCHILF_FOUND_WORDS]);

/* The words of schilf_read's answer. */
enum { SCHILF_ANSWER_ITEMS, SCHILF_ANSWER_PLACE, SCHILF_ANSWER_FIELDS, SCHILF_ANSWER_SENT, SCHILF_ANSWER_WORDS };

/* Reads one element. `held` is what is held before it: a record's words and, behind them, 1. Any other last word, words
 * that are no record, and a record that 16 refuses, mean that nothing is held: so start with all words 0. Where an
 * accepted element sends a configuration, `held` then is that configuration; otherwise it stays word for word.
 * 0: `map` has the items, and behind them what stood there; an item is kind (1 to 6 for U, C, L, P, O, A), stream,
 * first bit and width.
 * `answer` has the number of items, 0, the fields read, and 1 where a configuration was sent.
 * Else 1 to 15: `map` is as it stood; `answer` has 0, the bit where the reading stopped, the fields read, and 0. */
size_t schilf_read(const uint8_t *element, size_t element_count, uint32_t held[SCHILF_HELD_WORDS], uint32_t *map,
                   size_t map_count, size_t answer[SCHILF_ANSWER_WORDS]);

/* The words of a row. */
enum {
    SCHILF_ROW_STREAM,   /* the stream's number, or SCHILF_NO_STREAM */
    SCHILF_ROW_PROGRAM,
    SCHILF_ROW_LAYER,
    SCHILF_ROW_CORE,     /* object type of the core */
    SCHILF_ROW_RATE,     /* Hz of the core */
    SCHILF_ROW_OUTPUT,   /* Hz of the output */
    SCHILF_ROW_SBR,      /* 1, 0, or -1 where the configuration sent no flag */
    SCHILF_ROW_PS,       /* the same */
    SCHILF_ROW_CHANNELS, /* channels of the output: two where PS is 1 over channelConfiguration 1, else its own */
    SCHILF_ROW_WORDS
};

#define SCHILF_NO_STREAM 255

/* The row of a layer of a program. `record` may be the words held. 0: `row` has it, or SCHILF_NO_STREAM and zeros where
 * the record has no such layer. 16: the words are no record, or one that 16 refuses, and `row` is as it stood. */
size_t schilf_row(const uint32_t record[SCHILF_RECORD_WORDS], uint32_t program, uint32_t layer,
                  int64_t row[SCHILF_ROW_WORDS]);

/* Writes one element: with the record in front of it where `send` is true; the bytes of each slot in payload order; all
 * payloads; and other data packed from the top bit. 0: `out` has the element and behind it what stood there, `*written`
 * the bytes of the element. Else 16, 17, 18 or 19, and both are as they stood. */
size_t schilf_write(const uint32_t record[SCHILF_RECORD_WORDS], bool send, const uint32_t *lengths,
                    size_t lengths_count, const uint8_t *payload, size_t payload_count, const uint8_t *other,
                    size_t other_count, uint8_t *out, size_t out_count, size_t *written);

/* Writes the frame of an element: three bytes and the element. 0: `out` has the frame and behind it what stood there,
 * `*written` the bytes of the frame. Else 2 or 19, and both are as they stood. */
size_t schilf_frame(const uint8_t *element, size_t element_count, uint8_t *out, size_t out_count, size_t *written);

#ifdef __cplusplus
}
#endif

#endif
