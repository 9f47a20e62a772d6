/* Pages one file of an image to standard output: page IMAGE SLOT. It ends well only if the whole file was delivered. */
#include "skilletjay.h"
#include <errno.h>
#include <stdio.h>
#include <stdlib.h>
#include <string.h>

static uint8_t image[1638401]; /* the largest image and a byte more, so that a longer file is refused */

static int refused(const char *call, uint32_t refusal, size_t place) {
    fprintf(stderr, "%s: %s (refusal %u, place %zu)\n", call, sj_words(refusal), (unsigned)refusal, place);
    return 1;
}

/* Digits alone are a slot: strtoul would take anything else for 0, or wrap it. */
static bool is_slot(const char *text, size_t *slot) {
    errno = 0;
    *slot = strtoul(text, NULL, 10);
    return *text && text[strspn(text, "0123456789")] == '\0' && errno == 0;
}

int main(int argc, char **argv) {
    if (argc != 3)
        return fputs("usage: page IMAGE SLOT\n", stderr), 2;
    size_t slot, offset = 0;
    if (!is_slot(argv[2], &slot))
        return fprintf(stderr, "page: \"%s\" is no slot: give its number, 0 to 63, or to 511 on an S3000 disk\n", argv[2]), 2;
    FILE *in = fopen(argv[1], "rb");
    if (!in)
        return perror(argv[1]), 2;
    size_t length = fread(image, 1, sizeof image, in);
    if (ferror(in))
        return perror(argv[1]), 2;
    fclose(in);

    sj_listed file = sj_list(image, length, slot);
    if (file.refusal)
        return refused("list", file.refusal, file.place);
    fprintf(stderr, "%.12s, type %c, %zu bytes\n", (const char *)file.name, file.type, file.length);

    uint8_t page[4096];
    for (;;) {
        sj_paged paged = sj_page(image, length, slot, offset, page, sizeof page);
        if (paged.refusal)
            return refused("page", paged.refusal, paged.place);
        if (fwrite(page, 1, paged.count, stdout) != paged.count)
            return perror("standard output"), 2;
        offset += paged.count;
        if (paged.end) /* every byte was delivered once, in order */
            return fflush(stdout) ? 2 : 0;
    }
}
