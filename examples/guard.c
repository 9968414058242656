/* The guard interval of a shrink round, from C: the greatest gap between two installs, and one tick more. `guard FILE EVENT EVENT...` reads the text form
 * from FILE and asks for every two of the events. */
#include <inttypes.h>
#include <stdio.h>
#include <stdlib.h>

#include "crankforest.h"

int main(int count, char **words) {
    static uint8_t text[32769];
    if (count < 3) {
        fprintf(stderr, "guard FILE EVENT EVENT...\n");
        return 2;
    }
    FILE *file = fopen(words[1], "rb");
    if (file == NULL) {
        perror(words[1]);
        return 2;
    }
    size_t length = fread(text, 1, sizeof text, file);
    fclose(file);

    int64_t greatest = 0;
    for (int i = 2; i < count; i++) {
        for (int j = 2; j < count; j++) {
            int64_t gap = crankforest_separation(text, length, strtoul(words[i], NULL, 10), strtoul(words[j], NULL, 10));
            if (gap <= CRANKFOREST_REFUSED) {
                printf("refused, %" PRId64 "\n", CRANKFOREST_REFUSED - gap);
                return 1;
            }
            if (gap > greatest) greatest = gap;
        }
    }
    printf("greatest gap %" PRId64 ", guard %" PRId64 "\n", greatest, greatest + 1);
    return 0;
}
