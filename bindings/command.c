/* Does what the program does, by the library: reads the files that the words name, prints the text, writes the
   sentence to standard error and ends with the status. A word that names no file is lent to nobody, so status 5 comes
   as it does there. */
#include "irs.h"
#include <stdio.h>
#include <stdlib.h>
#include <string.h>

#define MOST_BYTES 4194305 /* one more than a file may have */

static int read_file(const char *name, struct irs_bytes *bytes) {
    FILE *file = fopen(name, "rb");
    if (!file) return 0;
    char *at = malloc(MOST_BYTES);
    size_t len = at ? fread(at, 1, MOST_BYTES, file) : 0;
    int well = at && !ferror(file);
    fclose(file);
    if (!well) { free(at); return 0; }
    bytes->at = (const uint8_t *)at;
    bytes->len = len;
    return 1;
}

int main(int argc, char **argv) {
    size_t n_words = argc > 0 ? (size_t)argc - 1 : 0, n_files = 0;
    struct irs_bytes *words = calloc(n_words + 1, sizeof *words);
    struct irs_file *files = calloc(n_words + 1, sizeof *files);
    if (!words || !files) return 7;
    for (size_t i = 0; i < n_words; i++) {
        words[i] = irs_lend(argv[i + 1], strlen(argv[i + 1]));
        if (i > 0 && read_file(argv[i + 1], &files[n_files].bytes)) files[n_files++].name = words[i];
    }
    size_t room = 1 << 16, needed = 0, said_room = 1 << 10, said_needed = 0;
    uint8_t *out = malloc(room), *said = malloc(said_room);
    if (!out || !said) return 7;
    int status = irs_run(words, n_words, files, n_files, out, room, &needed, said, said_room, &said_needed);
    if (needed > room || said_needed > said_room) {
        free(out); free(said);
        if (needed > room) room = needed;
        if (said_needed > said_room) said_room = said_needed;
        out = malloc(room); said = malloc(said_room);
        if (!out || !said) return 7;
        status = irs_run(words, n_words, files, n_files, out, room, &needed, said, said_room, &said_needed);
    }
    fwrite(out, 1, needed, stdout);
    if (said_needed > 0) fprintf(stderr, "%.*s\n", (int)said_needed, (const char *)said);
    for (size_t i = 0; i < n_files; i++) free((void *)files[i].bytes.at);
    free(words); free(files); free(out); free(said);
    return status;
}
