/* Reads a proof text from the file that is named, or k and the three files of a published proof, and prints the verdict's number
   and its line.
   gcc -Iinclude examples/c/check.c target/staticlib/liblpac_host.a -o check && ./check examples/sample.lpac */
#include "lpac.h"
#include <inttypes.h>
#include <stdio.h>
#include <stdlib.h>

/* One byte more than a call takes, so that a text that is too long is seen to be. */
struct text {
    uint8_t bytes[65537];
    size_t count;
};

static struct text texts[3];

static void read_text(const char *name, struct text *text) {
    FILE *file = fopen(name, "rb");
    if (file == NULL) {
        perror(name);
        exit(2);
    }
    text->count = fread(text->bytes, 1, sizeof text->bytes, file);
    int failed = ferror(file);
    fclose(file);
    if (failed) {
        fprintf(stderr, "%s: cannot be read\n", name);
        exit(2);
    }
}

static uint64_t check_published(uint64_t k, char **names) {
    for (int i = 0; i < 3; i++) {
        read_text(names[i], &texts[i]);
    }
    return lpac_published_verdict(k, texts[0].bytes, texts[0].count, texts[1].bytes, texts[1].count, texts[2].bytes, texts[2].count);
}

static uint64_t check(const char *name) {
    read_text(name, &texts[0]);
    return lpac_verdict(texts[0].bytes, texts[0].count);
}

int main(int count, char **arguments) {
    if (count != 2 && count != 5) {
        fprintf(stderr, "usage: check FILE, or check K CONSTRAINTS TARGET PROOF\n");
        return 2;
    }
    uint64_t answer = count == 2 ? check(arguments[1]) : check_published(strtoull(arguments[1], NULL, 10), arguments + 2);
    printf("%d\t%" PRIu64 "\n", lpac_number_of(answer), lpac_line_of(answer));
    return lpac_number_of(answer) == LPAC_ACCEPTED ? 0 : 1;
}
