/* Takes every accepted element of a capture apart and writes it anew, in a frame, to standard output. */
#include <stdio.h>
#include <string.h>

#include "schilfauge.h"

enum { PAYLOAD = 4, OTHER = 5 };

/* The slots of an element: lengths in payload order, payload, and other data packed from the top bit. */
static struct {
    uint32_t lengths[SCHILF_MAP_WORDS / 4];
    size_t slots;
    uint8_t payload[SCHILF_ELEMENT_BYTES], other[SCHILF_ELEMENT_BYTES];
    size_t payload_bytes, other_bytes;
} parts;

/* The bits of an item, from the top bit of out[0] on; the bytes that they take. */
static size_t copy(const uint8_t *element, uint32_t first, uint32_t width, uint8_t *out)
{
    size_t bytes = (width + 7) / 8;
    memset(out, 0, bytes);
    for (uint32_t i = 0; i < width; i++) {
        uint32_t bit = first + i;
        if (element[bit / 8] >> (7 - bit % 8) & 1)
            out[i / 8] |= 128 >> i % 8;
    }
    return bytes;
}

static void take_apart(const uint8_t *element, const uint32_t *map, size_t items)
{
    parts.slots = parts.payload_bytes = parts.other_bytes = 0;
    for (const uint32_t *item = map; item < map + 4 * items; item += 4) {
        uint32_t kind = item[0], first = item[2], width = item[3];
        if (kind == PAYLOAD) {
            parts.lengths[parts.slots++] = width / 8;
            parts.payload_bytes += copy(element, first, width, parts.payload + parts.payload_bytes);
        } else if (kind == OTHER) {
            parts.other_bytes = copy(element, first, width, parts.other);
        }
    }
}

static void write_anew(const uint32_t *record, bool send)
{
    static uint8_t element[SCHILF_ELEMENT_BYTES], frame[SCHILF_FRAME_HEAD + SCHILF_ELEMENT_BYTES];
    size_t size;
    if (schilf_write(record, send, parts.lengths, parts.slots, parts.payload, parts.payload_bytes, parts.other,
                     parts.other_bytes, element, sizeof element, &size) == 0
        && schilf_frame(element, size, frame, sizeof frame, &size) == 0)
        fwrite(frame, 1, size, stdout);
}

int main(int argc, char **argv)
{
    static uint8_t capture[SCHILF_CAPTURE_BYTES];
    static uint32_t map[SCHILF_MAP_WORDS];
    uint32_t held[SCHILF_HELD_WORDS] = {0};
    size_t found[SCHILF_FOUND_WORDS], answer[SCHILF_ANSWER_WORDS];

    if (argc != 2) {
        fprintf(stderr, "usage: rewrite CAPTURE\n");
        return 2;
    }
    FILE *file = fopen(argv[1], "rb");
    size_t size = file == NULL ? 0 : fread(capture, 1, sizeof capture, file);
    if (file == NULL || ferror(file)) {
        perror(argv[1]);
        return 2;
    }
    if (fgetc(file) != EOF)
        fprintf(stderr, "only the first %zu bytes of the capture are read\n", size);
    fclose(file);

    for (size_t at = 0; schilf_hunt(capture, size, at, found) == 0;
         at = found[SCHILF_FOUND_PLACE] + SCHILF_FRAME_HEAD + found[SCHILF_FOUND_SIZE]) {
        const uint8_t *element = capture + found[SCHILF_FOUND_PLACE] + SCHILF_FRAME_HEAD;
        if (schilf_read(element, found[SCHILF_FOUND_SIZE], held, map, SCHILF_MAP_WORDS, answer) != 0)
            continue;
        take_apart(element, map, answer[SCHILF_ANSWER_ITEMS]);
        write_anew(held, answer[SCHILF_ANSWER_SENT] == 1);
    }
    return 0;
}
