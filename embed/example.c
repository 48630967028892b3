/* Reads an update text from standard input and prints the report, as the program `pairs` does, through the C functions. */
#include <stdio.h>
#include <stdlib.h>

#include "cupboarddove.h"

/* One byte more than an update text may have, so that a longer one is seen to be too long. */
enum { MOST = 32769 };

int main(void)
{
    static uint8_t text[MOST];
    size_t len = fread(text, 1, sizeof text, stdin);
    size_t need = cupboarddove_report(text, len, NULL, 0);
    uint8_t *out = malloc(need);
    if (need == 0 || out == NULL || cupboarddove_report(text, len, out, need) != need) {
        fputs("no memory for the report\n", stderr);
        return 1;
    }
    fwrite(out, 1, need, stdout);
    free(out);
    return 0;
}
