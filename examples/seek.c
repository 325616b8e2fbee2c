/* Decodes a G.722 file twice: as a whole, and in two parts, of which the second takes up the mark that the first one left. */
#include "../include/rozimaha.h"
#include <stdio.h>
#include <stdlib.h>
#include <string.h>

enum { RATE = 16000, ZERO_START = 0, MOST = 1 << 16, BYTES_OUT = 4 }; /* a byte gives two samples of two bytes */

static size_t length_of(const uint8_t *mark)
{
    return (size_t)((const uint8_t *)memchr(mark, '\n', ROZIMAHA_MARK_LENGTH) - mark) + 1;
}

static void done(const char *what, uint32_t number)
{
    if (number != 0) {
        fprintf(stderr, "%s: refused with %u\n", what, (unsigned)number);
        exit(1);
    }
}

int main(int count, char **words)
{
    static uint8_t input[MOST], whole[BYTES_OUT * MOST], parts[BYTES_OUT * MOST];
    uint8_t fresh[ROZIMAHA_MARK_LENGTH], middle[ROZIMAHA_MARK_LENGTH], end[ROZIMAHA_MARK_LENGTH];
    FILE *file = count == 2 ? fopen(words[1], "rb") : NULL;
    if (file == NULL) {
        fprintf(stderr, "usage: seek FILE, of which the first %d bytes are decoded\n", MOST);
        return 2;
    }
    size_t n = fread(input, 1, MOST, file), cut = n / 2;

    done("begin", rozimaha_g722_begin_decoder(RATE, ZERO_START, fresh, sizeof fresh));
    done("the whole", rozimaha_g722_decode(fresh, length_of(fresh), input, n, whole, BYTES_OUT * n, end, sizeof end));
    done("the first part", rozimaha_g722_decode(fresh, length_of(fresh), input, cut, parts, BYTES_OUT * cut, middle, sizeof middle));
    printf("the mark after %zu bytes: %.*s", cut, (int)length_of(middle), (const char *)middle);
    done("the second part", rozimaha_g722_decode(middle, length_of(middle), input + cut, n - cut, parts + BYTES_OUT * cut, BYTES_OUT * (n - cut), end, sizeof end));

    int same = memcmp(whole, parts, BYTES_OUT * n) == 0;
    printf("%zu samples, taken up at sample %zu: %s\n", 2 * n, 2 * cut, same ? "the same" : "NOT THE SAME");
    return same ? 0 : 1;
}
