/*
 * Encodes the logs of two harts, and prints what `tracebench decode`, `list`, `measure` and `compare` print of them,
 * each by one call, and then why a log is illegal.
 *
 *     all_harts IMAGE LOG LOG
 */
#include "tracebench.h"

#include <inttypes.h>
#include <stdio.h>
#include <stdlib.h>

/* The address of the image's first byte. */
#define BASE UINT64_C(0x80000000)

enum { HARTS = 2 };

static uint8_t image[1 << 16], logs[1 << 20], capture[1 << 20], text[1 << 20];
static struct tracebench_piece program;

static void done(const char *what, uint32_t status) {
    if (status == TRACEBENCH_DONE) return;
    fprintf(stderr, "all_harts: %s: %s\n", what, tracebench_status_text(status));
    exit(1);
}

/* Reads a file into memory, and returns how many bytes it has. */
static size_t read_file(const char *path, uint8_t *at, size_t most) {
    FILE *file = fopen(path, "rb");
    if (file == NULL) {
        perror(path);
        exit(1);
    }
    size_t length = fread(at, 1, most, file);
    fclose(file);
    return length;
}

/* Prints the log of each hart. One call decodes all of them. */
static void decode(size_t length) {
    struct tracebench_hart_end ends[HARTS];
    struct tracebench_decode_all_end ended;
    size_t wanted = 0;
    done("decode", tracebench_decode_all(&program, 1, 1, capture, length, text, sizeof text, &wanted,
                                         ends, HARTS, &ended));
    uint64_t start = 0;
    for (size_t hart = 0; hart < ended.harts; hart++) {
        printf("hart %zu\n", hart);
        fwrite(text + start, 1, (size_t)(ends[hart].end - start), stdout);
        start = ends[hart].end;
        if (ends[hart].closed == 0) printf("hart %zu: no closing packet\n", hart);
    }
}

/* What `nm` prints of the program. */
static const char symbols[] = "0000000080000000 T start\n000000008000000c t loop\n";

static void list(size_t length) {
    struct tracebench_text_end ended;
    size_t wanted = 0;
    done("list", tracebench_list(&program, 1, 1, capture, length, (const uint8_t *)symbols,
                                 sizeof symbols - 1, TRACEBENCH_TEXT, text, sizeof text, &wanted, &ended));
    fwrite(text, 1, (size_t)wanted, stdout);
}

static void measure(const size_t ends[HARTS]) {
    struct tracebench_log_place place;
    size_t wanted = 0;
    done("measure", tracebench_measure(&program, 1, logs, (size_t)ends[HARTS - 1], ends, HARTS, 1024,
                                       TRACEBENCH_DIFFERENTIAL, text, sizeof text, &wanted, &place));
    fwrite(text, 1, (size_t)wanted, stdout);
}

static void compare(size_t length, const size_t ends[HARTS]) {
    struct tracebench_text_end ended;
    struct tracebench_log_place place;
    size_t wanted = 0;
    done("compare", tracebench_compare(&program, 1, 1, capture, length, logs, (size_t)ends[HARTS - 1],
                                       ends, HARTS, text, sizeof text, &wanted, &ended, &place));
    fwrite(text, 1, (size_t)wanted, stdout);
}

/* Explains a log that begins outside of the image. */
static void explain(void) {
    static const char log[] = "addr,itype,priv,cause,tval\n70000000,0,3,,\n";
    struct tracebench_explain_end ended;
    size_t wanted = 0;
    done("explain", tracebench_explain(&program, 1, (const uint8_t *)log, sizeof log - 1, text,
                                       sizeof text, &wanted, &ended));
    printf("row %" PRIu64 ": %s\n", ended.row, tracebench_status_text(ended.fault));
    fwrite(text, 1, (size_t)wanted, stdout);
}

int main(int count, char **words) {
    if (count != 4) {
        fputs("usage: all_harts IMAGE LOG LOG\n", stderr);
        return 2;
    }
    program = tracebench_image(BASE, image, read_file(words[1], image, sizeof image));
    size_t ends[HARTS];
    size_t length = 0;
    for (size_t hart = 0; hart < HARTS; hart++) {
        length += read_file(words[2 + hart], logs + length, sizeof logs - length);
        ends[hart] = length;
    }
    struct tracebench_log_place place;
    size_t wanted = 0;
    done("encode", tracebench_encode(&program, 1, logs, length, ends, HARTS, 1024,
                                     TRACEBENCH_DIFFERENTIAL, TRACEBENCH_VERSION_TWO, capture, sizeof capture, &wanted,
                                     &place));
    decode((size_t)wanted);
    list((size_t)wanted);
    measure(ends);
    compare((size_t)wanted, ends);
    explain();
    return 0;
}
