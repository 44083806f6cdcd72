/* Prints the keys of the stored strip in a file, one line each with its fields, or the refusal. */
#include <inttypes.h>
#include <stdio.h>
#include <stdlib.h>
#include <string.h>

#include "limdroven_strip.h"

/* One byte more than the library takes, so that it sees and refuses (16) a file that is too long. */
#define MOST ((size_t)16777216)

/* The numbers of a key in `rows`: kind, track, place, frame, map, and ten of its fields. */
#define ROW 16

static float float_of(uint32_t bits)
{
    float number;
    memcpy(&number, &bits, sizeof number);
    return number;
}

static void print_floats(const char *name, const uint32_t *bits, int count)
{
    printf(" %s", name);
    for (int i = 0; i < count; i++)
        printf(" %.9g", float_of(bits[i]));
}

static void print_key(const uint32_t *row)
{
    const char *kind = row[0] == 0 ? "bone" : "morph";
    printf("%s %" PRIu32 " key %" PRIu32 " frame %" PRIu32 " map %" PRIu32, kind, row[1], row[2], row[3], row[4]);
    if (row[0] == 1) {
        print_floats("weight", row + 5, 1);
    } else {
        print_floats("translation", row + 5, 3);
        print_floats("orientation", row + 8, 4);
        printf(" curves");
        for (int i = 12; i < ROW; i++)
            printf(" %" PRIu32 ",%" PRIu32 ",%" PRIu32 ",%" PRIu32, row[i] & 255, row[i] >> 8 & 255, row[i] >> 16 & 255,
                   row[i] >> 24);
    }
    printf("\n");
}

int main(int argc, char **argv)
{
    if (argc != 2) {
        fprintf(stderr, "usage: %s STRIP\n", argv[0]);
        return 2;
    }
    FILE *file = fopen(argv[1], "rb");
    uint8_t *strip = malloc(MOST);
    if (!file || !strip) {
        perror(argv[1]);
        return 4;
    }
    size_t length = fread(strip, 1, MOST, file);
    if (ferror(file)) {
        perror(argv[1]);
        return 4;
    }
    fclose(file);

    uint64_t counts[2] = {0}, keys = 0;
    uint32_t number = limdroven_strip_counts(strip, length, counts, 2);
    if (number != 0) {
        printf("refused %" PRIu32 "\n", number);
        free(strip);
        return 3;
    }
    /* Lent no places, the call tells how many keys there are. A strip that one call takes is taken by all. */
    limdroven_strip_keys(strip, length, 0, NULL, 0, &keys, 1);
    uint32_t *rows = calloc((size_t)keys + 1, ROW * sizeof *rows);
    if (!rows) {
        perror("rows");
        return 4;
    }
    limdroven_strip_keys(strip, length, 0, rows, (size_t)keys * ROW, &keys, 1);
    printf("bones %" PRIu64 " morphs %" PRIu64 " keys %" PRIu64 "\n", counts[0], counts[1], keys);
    for (uint64_t key = 0; key < keys; key++)
        print_key(rows + key * ROW);
    free(rows);
    free(strip);
    return 0;
}
