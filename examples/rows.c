/* Prints a line for each stream of a capture, whenever an element changes the configuration that is held. */
#include <inttypes.h>
#include <stdio.h>
#include <string.h>

#include "schilfauge.h"

static const char *type_of(int64_t core)
{
    static const char *const types[] = {"?", "1 AAC Main", "2 AAC LC", "3 AAC SSR", "4 AAC LTP"};
    return types[core <= 4 ? core : 0];
}

static const char *flag(int64_t value)
{
    return value < 0 ? "not signalled" : value == 0 ? "no" : "yes";
}

static void print_rows(size_t element, const uint32_t *record)
{
    int64_t row[SCHILF_ROW_WORDS];
    for (uint32_t program = 0; program < SCHILF_PROGRAMS; program++) {
        for (uint32_t layer = 0; layer < SCHILF_LAYERS; layer++) {
            if (schilf_row(record, program, layer, row) != 0 || row[SCHILF_ROW_STREAM] == SCHILF_NO_STREAM)
                continue;
            printf("%7zu  %7" PRIu32 "  %5" PRIu32 "  %6" PRId64 "  %-10s  %8" PRId64 "  %9" PRId64
                   "  %-13s  %-13s  %15" PRId64 "\n",
                   element, program, layer, row[SCHILF_ROW_STREAM], type_of(row[SCHILF_ROW_CORE]),
                   row[SCHILF_ROW_RATE], row[SCHILF_ROW_OUTPUT], flag(row[SCHILF_ROW_SBR]), flag(row[SCHILF_ROW_PS]),
                   row[SCHILF_ROW_CHANNELS]);
        }
    }
}

int main(int argc, char **argv)
{
    static uint8_t capture[SCHILF_CAPTURE_BYTES];
    static uint32_t map[SCHILF_MAP_WORDS];
    uint32_t held[SCHILF_HELD_WORDS] = {0}, before[SCHILF_HELD_WORDS];
    size_t found[SCHILF_FOUND_WORDS], answer[SCHILF_ANSWER_WORDS];

    if (argc != 2) {
        fprintf(stderr, "usage: rows CAPTURE\n");
        return 2;
    }
    FILE *file = fopen(argv[1], "rb");
    size_t size = file == NULL ? 0 : fread(capture, 1, sizeof capture, file);
    if (file == NULL || ferror(file)) {
        perror(argv[1]);
        return 2;
    }
    if (fgetc(file) != EOF)
        fprintf(stderr, "only the first %zu bytes of the capture are read\n", size);
    fclose(file);

    puts("element  program  layer  stream  core type    core Hz  output Hz  "
         "SBR            PS             output channels");
    size_t at = 0;
    for (size_t element = 0; schilf_hunt(capture, size, at, found) == 0; element++) {
        size_t start = found[SCHILF_FOUND_PLACE] + SCHILF_FRAME_HEAD;
        memcpy(before, held, sizeof held);
        schilf_read(capture + start, found[SCHILF_FOUND_SIZE], held, map, SCHILF_MAP_WORDS, answer);
        if (memcmp(before, held, sizeof held) != 0)
            print_rows(element, held);
        at = start + found[SCHILF_FOUND_SIZE];
    }
    return 0;
}
