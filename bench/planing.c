/* planing FILE PASSES: the least cuts of the records in FILE, so many times over, by yurbantse_planing.
   planing FILE: prints what is answered, once. FILE has of each record a byte with its length, and its bytes. */
#include <stdio.h>
#include <stdlib.h>

#include "yurbantse.h"

static uint8_t file[1 << 20];

int main(int count, char **words)
{
    FILE *in = count > 1 ? fopen(words[1], "rb") : NULL;
    if (in == NULL)
        return 2;
    size_t end = fread(file, 1, sizeof file, in);
    long passes = count > 2 ? atol(words[2]) : 1;
    uint32_t sum = 0;
    for (long pass = 0; pass < passes; pass++)
        for (size_t at = 0; at < end; at += 1 + file[at]) {
            int32_t n = yurbantse_planing(file + at + 1, file[at]);
            if (count > 2)
                sum += (uint32_t)n;
            else
                printf("%d\n", (int)n);
        }
    if (count > 2)
        printf("%u\n", (unsigned)sum);
    return 0;
}
