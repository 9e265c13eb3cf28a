/* Each allocation of a call fails in turn: the status is 7, nothing is written and nothing is lost. In a call for
   three trades this holds for each of them, and those that had their memory have their own answer.
   Linked with --wrap=malloc,--wrap=realloc,--wrap=calloc. The words after the first are the command. */
#include "irs.h"
#include <stdio.h>
#include <stdlib.h>
#include <string.h>
static long left = -1, calls = 0;
void *__real_malloc(size_t n);
void *__real_realloc(void *p, size_t n);
void *__real_calloc(size_t n, size_t m);
static int fails(void) { calls++; return left >= 0 && left-- == 0; }
void *__wrap_malloc(size_t n) { return fails() ? NULL : __real_malloc(n); }
void *__wrap_realloc(void *p, size_t n) { return fails() ? NULL : __real_realloc(p, n); }
void *__wrap_calloc(size_t n, size_t m) { return fails() ? NULL : __real_calloc(n, m); }

static struct irs_bytes read_file(const char *name) {
    FILE *file = fopen(name, "rb");
    if (!file) return irs_lend("", 0);
    char *at = __real_malloc(1 << 20);
    struct irs_bytes b = irs_lend(at, fread(at, 1, 1 << 20, file));
    fclose(file);
    return b;
}

enum { ROOM = 1 << 16, SAID = 1 << 10, TRADES = 3 };
static struct irs_bytes words[32];
static struct irs_file files[32];
static uint8_t want[ROOM], out[TRADES * (ROOM + SAID)], want_said[SAID], said[SAID];
static size_t n, whole, said_whole;
static uint8_t own;

/* What a trade of the call comes to, whose text and sentence are at `at`; 7 without a text is one too. */
static int is_own(struct irs_answer answer, const uint8_t *at) {
    if (answer.status == 7) return answer.text_len == 0 && answer.sentence_len == 0;
    return answer.status == own && answer.text_len == whole && answer.sentence_len == said_whole
        && memcmp(at, want, whole) == 0 && memcmp(at + whole, want_said, said_whole) == 0;
}

/* The call for three trades with one document and the other files in common: the first of the trades whose answer is
   neither its own nor 7, counted from 1, or 0. Counts those with 7. */
static int run_each(long *refused) {
    struct irs_trade trades[TRADES];
    struct irs_answer answers[TRADES];
    size_t needed, place = 0;
    for (int k = 0; k < TRADES; k++) {
        trades[k].files = files + 1;
        trades[k].n_files = n > 1 ? 1 : 0;
    }
    memset(out, '#', sizeof out);
    irs_run_each(words, n, files + 2, n > 2 ? n - 2 : 0, trades, TRADES, answers, TRADES, out, sizeof out, &needed);
    for (int k = 0; k < TRADES; k++) {
        if (!is_own(answers[k], out + place)) return k + 1;
        place += answers[k].text_len + answers[k].sentence_len;
        *refused += answers[k].status == 7;
    }
    return needed == place && out[place] == '#' ? 0 : TRADES + 1;
}

int main(int argc, char **argv) {
    size_t needed, said_needed;
    n = (size_t)argc - 1;
    for (size_t i = 0; i < n && i < 32; i++) {
        words[i] = irs_lend(argv[i + 1], strlen(argv[i + 1]));
        files[i].name = words[i];
        files[i].bytes = i ? read_file(argv[i + 1]) : irs_lend("", 0);
    }
    calls = 0;
    own = irs_run(words, n, files, n, want, ROOM, &whole, want_said, SAID, &said_whole);
    long all = calls, refused = 0, none = 0;
    for (long k = 0; k < all; k++) {
        memset(out, '#', ROOM);
        memset(said, '#', SAID);
        needed = said_needed = 77;
        left = k;
        uint8_t status = irs_run(words, n, files, n, out, ROOM, &needed, said, SAID, &said_needed);
        left = -1;
        if (status == 7) {
            refused++;
            if (needed != 0 || out[0] != '#' || said_needed != 0 || said[0] != '#')
                return printf("allocation %ld: something was written\n", k), 1;
        } else if (status != own || needed != whole || memcmp(out, want, whole < ROOM ? whole : ROOM)
                   || said_needed != said_whole || memcmp(said, want_said, said_whole < SAID ? said_whole : SAID)) {
            return printf("allocation %ld: status %d\n", k, status), 1;
        }
    }
    printf("status %d; %ld allocations failed in turn, %ld refused\n", own, all, refused);
    if (whole > ROOM || said_whole > SAID) return puts("its text is too long for three trades"), 0;
    calls = refused = 0;
    if (run_each(&none) || none) return puts("three trades: not the answer of one"), 1;
    all = calls;
    for (long k = 0; k < all; k++) {
        left = k;
        int wrong = run_each(&refused);
        left = -1;
        if (wrong) return printf("allocation %ld of three trades: trade %d\n", k, wrong), 1;
    }
    printf("three trades in one call: %ld allocations failed in turn, %ld trades refused\n", all, refused);
    return 0;
}
