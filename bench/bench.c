/* bench FILE PASSES: the cards of the records in FILE, so many times over, by the yurbantse_card that is linked.
   bench FILE: prints the cards once, a refusal as its line. FILE has of each record a byte with its length, and its bytes. */
#include <stdio.h>
#include <stdlib.h>

#include "yurbantse.h"

static uint8_t file[1 << 20];

int main(int count, char **words)
{
    FILE *in = count > 1 ? fopen(words[1], "rb") : NULL;
    if (in == NULL)
        return 2;
    size_t end = fread(file, 1, sizeof file, in);
    long passes = count > 2 ? atol(words[2]) : 1;
    uint32_t sum = 0;
    uint8_t text[YURBANTSE_CARD_MOST];
    for (long pass = 0; pass < passes; pass++)
        for (size_t at = 0; at < end; at += 1 + file[at]) {
            int32_t n = yurbantse_card(file + at + 1, file[at], text, sizeof text);
            if (count > 2) {
                sum += (uint32_t)n;
                continue;
            }
            if (n < 0)
                n = yurbantse_refusal((uint8_t)-n, text, sizeof text);
            fwrite(text, 1, (size_t)n, stdout);
        }
    if (count > 2)
        printf("%u\n", (unsigned)sum);
    return 0;
}
