/* Reads a record from standard input and prints its card, or REFUSED and the refusal's number. Where the record could not be read, or the
   text not be written, it says so on standard error and ends with status 1. */
#include <stdio.h>

#include "yurbantse.h"

int main(void)
{
    if (yurbantse_version() != YURBANTSE_VERSION) {
        fputs("card: the library is not the header's\n", stderr);
        return 1;
    }
    uint8_t bytes[64]; /* the longest record has 54 bytes: of a longer input the first 64 are refused for their length */
    size_t length = fread(bytes, 1, sizeof bytes, stdin);
    if (ferror(stdin)) { /* fread answers less at the end of the input and where a read fails; no byte at all would be panel G */
        perror("card: standard input could not be read");
        return 1;
    }
    uint8_t text[YURBANTSE_CARD_MOST];
    int32_t n = yurbantse_card(bytes, length, text, sizeof text);
    if (n < 0)
        n = yurbantse_refusal((uint8_t)-n, text, sizeof text);
    if (fwrite(text, 1, (size_t)n, stdout) != (size_t)n || fflush(stdout) != 0) { /* it is written when it is flushed */
        perror("card: standard output took not all of the text");
        return 1;
    }
    return 0;
}
