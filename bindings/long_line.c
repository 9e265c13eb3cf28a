/* A run and its sentence with a name of 4,000,000 bytes, in a thread with the least stack that irs.h asks for: a file that
   isn't lent, a document without a reading, and a command that isn't listed. */
#include "irs.h"
#include <pthread.h>
#include <stdio.h>
#include <stdlib.h>
#include <string.h>
#define LENGTH 4000000
#define STACK (256 * 1024)

static uint8_t name[LENGTH];

static int run(const char *command, size_t n_files, int status, size_t least) {
    struct irs_bytes words[] = { irs_lend(command, strlen(command)), { name, LENGTH } };
    struct irs_file files[] = { { { name, LENGTH }, irs_lend("[", 1) } };
    static uint8_t out[64], said[64];
    size_t needed, told;
    return irs_run(words, 2, files, n_files, out, sizeof out, &needed, said, sizeof said, &told) == status
           && needed < sizeof out && told >= least;
}

static void *runs(void *given) {
    int well = run("check", 0, 5, LENGTH) && run("check", 1, 2, 27) && run("what", 0, 4, 1);
    return well ? NULL : given;
}

int main(void) {
    pthread_attr_t attributes;
    pthread_t thread;
    void *failed = NULL;
    memset(name, 'x', LENGTH);
    if (pthread_attr_init(&attributes) || pthread_attr_setstacksize(&attributes, STACK))
        return 1;
    if (pthread_create(&thread, &attributes, runs, name) || pthread_join(thread, &failed))
        return 1;
    puts(failed ? "long line: a sentence isn't given" : "long line: as it should be");
    return failed != NULL;
}
