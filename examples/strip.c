/* Makes the strip of the model section in a file and prints its length, reached and loose, or the refusal with its values. */
#include <inttypes.h>
#include <stdio.h>
#include <stdlib.h>

#include "limdroven_strip.h"

/* One byte more than the library takes, so that it sees and refuses (16) a file that is too long. */
#define MOST ((size_t)16777216)

/* How many values are written for each number that is returned; 0 stands for accepted. */
static const int value_count[] = {3, 1, 1, 2, 3, 2, 3, 3, 5, 0, 3, 3, 2, 2, 2, 2, 0, 1, 1, 0, 1};

int main(int argc, char **argv)
{
    if (argc != 2) {
        fprintf(stderr, "usage: %s SECTION\n", argv[0]);
        return 2;
    }
    FILE *file = fopen(argv[1], "rb");
    uint8_t *section = malloc(MOST), *output = malloc(MOST);
    if (!file || !section || !output) {
        perror(argv[1]);
        return 4;
    }
    size_t length = fread(section, 1, MOST, file);
    if (ferror(file)) {
        perror(argv[1]);
        return 4;
    }
    fclose(file);

    /* Lent no places, the call tells by 17 how many each work slice needs. Any other refusal is met again below. */
    uint64_t values[5] = {0};
    uint32_t number = limdroven_strip(section, length, 0, NULL, 0, NULL, 0, NULL, 0, values, 5);
    size_t need = number == 17 ? (size_t)values[0] : 0;
    uint16_t *work = calloc(2 * need + 1, sizeof *work);
    if (!work) {
        perror("work slices");
        return 4;
    }

    /* No strip is longer than its section, so the output is long enough. */
    number = limdroven_strip(section, length, 0, work, need, work + need, need, output, length, values, 5);
    if (number == 0) {
        printf("length %" PRIu64 " reached %" PRIu64 " loose %" PRIu64 "\n", values[0], values[1], values[2]);
    } else {
        printf("refused %" PRIu32, number);
        for (int i = 0; i < value_count[number]; i++)
            printf(" %" PRIu64, values[i]);
        printf("\n");
    }
    free(work);
    free(output);
    free(section);
    return number == 0 ? 0 : 3;
}
