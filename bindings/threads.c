/* Eight threads call side by side, COUNT times each, and have to agree with the first answer. The first
   argument is COUNT, the others are the words of the command. */
#include "irs.h"
#include <pthread.h>
#include <stdio.h>
#include <stdlib.h>
#include <string.h>
enum { ROOM = 1 << 16, SAID = 1 << 10, THREADS = 8 };
static struct irs_bytes words[32];
static struct irs_file files[32];
static size_t n, whole, said_whole;
static long count;
static uint8_t want[ROOM], want_said[SAID], own;

static void *work(void *p) {
    uint8_t *out = malloc(ROOM), said[SAID];
    for (long k = 0; k < count; k++) {
        size_t needed, told;
        uint8_t status = irs_run(words, n, files, n, out, ROOM, &needed, said, SAID, &told);
        if (status != own || needed != whole || memcmp(out, want, whole)) return (void *)1;
        if (told != said_whole || memcmp(said, want_said, told < SAID ? told : SAID)) return (void *)1;
    }
    free(out);
    return p;
}

int main(int argc, char **argv) {
    count = atol(argv[1]);
    for (n = 0; n + 2 < (size_t)argc && n < 32; n++) {
        words[n] = irs_lend(argv[n + 2], strlen(argv[n + 2]));
        files[n].name = words[n];
        files[n].bytes = irs_lend("", 0);
        FILE *file = n ? fopen(argv[n + 2], "rb") : NULL;
        if (file) {
            char *at = malloc(1 << 20);
            files[n].bytes = irs_lend(at, fread(at, 1, 1 << 20, file));
            fclose(file);
        }
    }
    own = irs_run(words, n, files, n, want, ROOM, &whole, want_said, SAID, &said_whole);
    if (whole > ROOM) return puts("the text is too long for this test"), 1;
    pthread_t threads[THREADS];
    int bad = 0;
    for (int i = 0; i < THREADS; i++) pthread_create(threads + i, NULL, work, NULL);
    for (int i = 0; i < THREADS; i++) { void *r; pthread_join(threads[i], &r); bad |= r != NULL; }
    printf("%d threads, %ld calls: %s\n", THREADS, THREADS * count, bad ? "they differ" : "all agree");
    return bad;
}
