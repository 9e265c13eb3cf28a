/* What tools/fuzz asserts of the library for C, on bytes that libFuzzer makes; no part of the program.

   An input is a line of words, and after it each file: the mark FF FF, the file's name, a line feed, the file's bytes.
   tools/fuzz writes the examples so, and every command that they have is tried. */
#include "irs.h"
#include <ctype.h>
#include <stdio.h>
#include <stdlib.h>
#include <string.h>

enum { MOST_WORDS = 24, MOST_FILES = 20, UNTOUCHED = 0xA5 };

struct input {
    struct irs_bytes words[MOST_WORDS];
    struct irs_file files[MOST_FILES];
    size_t n_words, n_files;
};

struct answer {
    uint8_t status;
    uint8_t *text, *said;
    size_t length, said_length;
};

static void broken(const char *what) {
    fprintf(stderr, "BROKEN: %s\n", what);
    abort();
}

/* Where the mark or the end is. */
static const uint8_t *mark(const uint8_t *at, const uint8_t *end) {
    for (; at + 1 < end; at++)
        if (at[0] == 0xFF && at[1] == 0xFF) return at;
    return end;
}

/* Bytes of their own, so that a read past them is seen where it is copied. */
static struct irs_bytes own(const uint8_t *at, size_t length) {
    uint8_t *to = malloc(length ? length : 1);
    struct irs_bytes bytes = {to, length};
    if (!to) abort();
    memcpy(to, at, length);
    return bytes;
}

static void take_words(struct input *in, const uint8_t *at, const uint8_t *end) {
    while (at < end && in->n_words < MOST_WORDS) {
        const uint8_t *space = memchr(at, ' ', end - at);
        const uint8_t *stop = space ? space : end;
        in->words[in->n_words++] = own(at, stop - at);
        at = space ? space + 1 : end;
    }
}

static void take_file(struct input *in, const uint8_t *at, const uint8_t *end) {
    const uint8_t *line = memchr(at, '\n', end - at);
    if (!line || in->n_files == MOST_FILES) return;
    in->files[in->n_files].name = own(at, line - at);
    in->files[in->n_files++].bytes = own(line + 1, end - line - 1);
}

static void take(struct input *in, const uint8_t *at, const uint8_t *end) {
    const uint8_t *next = mark(at, end);
    const uint8_t *line = memchr(at, '\n', next - at);
    in->n_words = in->n_files = 0;
    take_words(in, at, line ? line : next);
    while (next < end) {
        const uint8_t *from = next + 2;
        next = mark(from, end);
        take_file(in, from, next);
    }
}

static void drop(struct input *in) {
    for (size_t i = 0; i < in->n_words; i++) free((void *)in->words[i].at);
    for (size_t i = 0; i < in->n_files; i++) {
        free((void *)in->files[i].name.at);
        free((void *)in->files[i].bytes.at);
    }
}

/* Room for a text of this length, with a byte after it that nobody may write. */
static uint8_t *room_for(size_t length) {
    uint8_t *room = malloc(length + 1);
    if (!room) abort();
    room[length] = UNTOUCHED;
    return room;
}

/* The answer to the words: first with no room for the text and the sentence, then with all of it. */
static struct answer run(const struct irs_bytes *words, size_t n_words, const struct irs_file *files, size_t n_files) {
    struct answer is;
    size_t again = 0, said_again = 0;
    uint8_t none[1] = {UNTOUCHED};
    is.status = irs_run(words, n_words, files, n_files, none, 0, &is.length, none, 0, &is.said_length);
    if (none[0] != UNTOUCHED) broken("a byte is written where there is no room");
    is.text = room_for(is.length);
    is.said = room_for(is.said_length);
    uint8_t status = irs_run(words, n_words, files, n_files, is.text, is.length + 1, &again, is.said,
                             is.said_length + 1, &said_again);
    if (status != is.status || again != is.length || said_again != is.said_length)
        broken("the second call answers otherwise");
    if (is.text[is.length] != UNTOUCHED || is.said[is.said_length] != UNTOUCHED)
        broken("a byte is written after the text");
    return is;
}

static void let_go(struct answer *is) {
    free(is->text);
    free(is->said);
}

/* Whether a text has a form: `%d` is a number, `%w` a word, and every other character is itself. */
static int has_form(const uint8_t *at, size_t length, const char *form) {
    const uint8_t *end = at + length;
    for (; *form; form++) {
        const uint8_t *from = at;
        if (*form != '%') {
            if (at == end || *at++ != (uint8_t)*form) return 0;
            continue;
        }
        if (*++form == 'd')
            while (at < end && isdigit(*at)) at++;
        else
            while (at < end && *at > ' ' && *at < 127) at++;
        if (at == from) return 0;
    }
    return at == end;
}

static int begins(const struct answer *is, const char *front) {
    size_t length = strlen(front);
    return is->length >= length && !memcmp(is->text, front, length);
}

static int ends(const struct answer *is, const char *back) {
    size_t length = strlen(back);
    return is->length >= length && !memcmp(is->text + is->length - length, back, length);
}

static int is_word(struct irs_bytes word, const char *text) {
    return word.len == strlen(text) && !memcmp(word.at, text, word.len);
}

/* How the text of each command begins and ends where it is done. */
static const struct { const char *command, *front, *back; } DONE[] = {
    {"check", "ok\n", "ok\n"},
    {"schedule", "irs-schedule 2\nstream 1 ", "\nend\n"},
    {"audit", "yes ", "\n"},
    {"breaks", "irs-breaks 1 ", "\n"},
    {"emit", "{\"swap\":{\"swapStream\":", "}\n"},
    {"emit-xml", "<?xml version=\"1.0\" encoding=\"UTF-8\"?>\n<swap xmlns=", "\n</swap>\n"},
    {"net", "irs-net 1\n", "\nend\n"},
    {"accrue", "irs-accrued 1 ", "\nend\n"},
    {"observations", "irs-observations 1 ", "\nend\n"},
    {"overnight", "# irs-fixings 1\n", "\n"},
    {"average", "# irs-fixings 1\n", "\n"},
    {"interpolate", "# irs-fixings 1\n", "\n"},
};

static int is_plain(const struct answer *is, uint8_t last) {
    for (size_t i = 0; i < is->length; i++)
        if ((is->text[i] < ' ' && is->text[i] != '\n') || is->text[i] > last) return 0;
    return 1;
}

static int is_known(struct irs_bytes command) {
    for (size_t i = 0; i < sizeof DONE / sizeof *DONE; i++)
        if (is_word(command, DONE[i].command)) return 1;
    return 0;
}

static void look_at_done(const struct answer *is, struct irs_bytes command) {
    if (!ends(is, "\n") || !is_plain(is, 255)) broken("a text with a control character, or without a line feed at its end");
    for (size_t i = 0; i < sizeof DONE / sizeof *DONE; i++) {
        if (!is_word(command, DONE[i].command)) continue;
        if (!begins(is, DONE[i].front) || !ends(is, DONE[i].back) || !is_plain(is, '~'))
            broken("the text of a command has another form");
    }
}

static int all_ascii(const struct input *in) {
    for (size_t i = 0; i < in->n_words; i++)
        for (size_t k = 0; k < in->words[i].len; k++)
            if (in->words[i].at[k] >= 128) return 0;
    return 1;
}

/* The status is a lawful one, and the text has the form of the status. */
static void look_at(const struct answer *is, const struct input *in) {
    static const char *const forms[10][4] = {
        [2] = {"refused K%d %d %w %d\n"},
        [3] = {"bad calendar %d %d %w\n", "bad fixings %d %w\n", "bad flows %w %d %w %d\n"},
        [4] = {"bad words\n"},
        [5] = {"no file %d\n"},
        [8] = {"too long %d\n"},
    };
    int found = 0;
    switch (is->status) {
    case 0:
        look_at_done(is, in->words[0]);
        break;
    case 1:
        if (!is_known(in->words[0]) || is_word(in->words[0], "breaks")) look_at_done(is, in->words[0]);
        else if (!is_word(in->words[0], "audit") || !has_form(is->text, is->length, "no %d %w %d %w\n"))
            broken("status 1 for another command than audit or breaks, or its line has another form");
        break;
    case 9:
        if (is->length || all_ascii(in)) broken("status 9 for words that are text, or with a text");
        break;
    default:
        for (const char *const *form = is->status < 9 ? forms[is->status] : forms[0]; *form; form++)
            found |= has_form(is->text, is->length, *form);
        if (!found) broken("a status that can't come, or its line has another form");
    }
}

/* The commands that say how many payments have no amount. */
static int states_amounts(struct irs_bytes command) {
    static const char *const all[] = {"schedule", "audit", "breaks", "emit", "emit-xml", "net", "accrue"};
    for (size_t i = 0; i < sizeof all / sizeof *all; i++)
        if (is_word(command, all[i])) return 1;
    return 0;
}

/* Whether a text has a line that begins with a letter and ends in these two bytes, or in others. */
static int has_line(const struct answer *is, uint8_t letter, const char *last, int ends_so) {
    const uint8_t *at = is->text, *end = at + is->length, *line;
    for (; at < end && (line = memchr(at, '\n', end - at)); at = line + 1)
        if (*at == letter && line - at > 2 && (memcmp(line - 2, last, 2) == 0) == ends_so) return 1;
    return 0;
}

/* Whether the text of a command that is done says that an amount isn't known: 1 or 0, and -1 where it needn't say. */
static int lacks_amount(const struct answer *is, struct irs_bytes command) {
    if (is_word(command, "schedule")) return has_line(is, 'p', " -", 1);
    if (is_word(command, "audit")) return has_line(is, 'y', " 0", 0);
    if (is_word(command, "net")) return has_line(is, 'n', " 0", 0);
    return states_amounts(command) ? -1 : 0;
}

static int says(const struct answer *is, const char *what) {
    size_t length = strlen(what);
    for (size_t i = 0; i + length <= is->said_length; i++)
        if (!memcmp(is->said + i, what, length)) return 1;
    return 0;
}

/* The sentence of an answer is one line without controls. There is none where all is done and each amount is known,
   and none where a word isn't text. */
static void look_at_sentence(const struct answer *is, const struct input *in) {
    if (is->status == 9) {
        if (is->said_length) broken("a meaning for words that aren't text");
        return;
    }
    int speaks = is->said_length > 0, lacks = is->status == 0 ? lacks_amount(is, in->words[0]) : -1;
    if (is->status && !speaks) broken("a status without a meaning");
    if (lacks >= 0 && lacks != speaks) broken("an amount isn't known and nothing is said, or the other way round");
    if (is->status == 0 && speaks && !says(is, "payments without an amount: ")) broken("0 with another meaning");
    if (memchr(is->said, '\n', is->said_length)) broken("a meaning of several lines");
    for (size_t i = 0; i < is->said_length; i++)
        if (is->said[i] < ' ' || is->said[i] == 127) broken("a control character in a meaning");
}

/* `schedule` without fixings keeps and breaks the rules that `check` does. */
static void compare_with_schedule(const struct answer *is, const struct input *in) {
    struct irs_bytes words[MOST_WORDS + 1];
    if (in->n_words < 2 || in->n_words == MOST_WORDS || is->status == 4 || is->status == 5 || is->status == 9) return;
    words[0] = irs_lend("schedule", 8);
    words[1] = in->words[1];
    words[2] = irs_lend("-", 1);
    memcpy(words + 3, in->words + 2, (in->n_words - 2) * sizeof *words);
    struct answer made = run(words, in->n_words + 1, in->files, in->n_files);
    if (made.status != is->status) broken("check and schedule differ in their status");
    if (made.status != 0 && (made.length != is->length || memcmp(made.text, is->text, made.length)))
        broken("check and schedule differ in their line");
    let_go(&made);
}

/* What is emitted is audited with yes. */
static void audit_emitted(const struct answer *is, const struct input *in, const char *name) {
    struct irs_bytes words[MOST_WORDS + 1];
    struct irs_file files[MOST_FILES + 1];
    if (in->n_words < 3 || in->n_words == MOST_WORDS || is->status != 0) return;
    /* A file has no more bytes. */
    if (is->length > 4194304) return;
    words[0] = irs_lend("audit", 5);
    memcpy(words + 1, in->words + 1, 2 * sizeof *words);
    words[3] = irs_lend(name, strlen(name));
    memcpy(words + 4, in->words + 3, (in->n_words - 3) * sizeof *words);
    files[0].name = words[3];
    files[0].bytes = irs_lend(is->text, is->length);
    memcpy(files + 1, in->files, in->n_files * sizeof *files);
    struct answer audited = run(words, in->n_words + 1, files, in->n_files + 1);
    if (audited.status != 0 || !begins(&audited, "yes ")) broken("what is emitted isn't audited with yes");
    let_go(&audited);
}

int LLVMFuzzerTestOneInput(const uint8_t *at, size_t length) {
    struct input in;
    take(&in, at, at + length);
    /* A run over documents of its own reads nothing of the input. */
    if (in.n_words > 0 && !is_word(in.words[0], "bulk")) {
        struct answer is = run(in.words, in.n_words, in.files, in.n_files);
        look_at(&is, &in);
        look_at_sentence(&is, &in);
        if (is_word(in.words[0], "check")) compare_with_schedule(&is, &in);
        if (is_word(in.words[0], "emit")) audit_emitted(&is, &in, "what emit prints");
        if (is_word(in.words[0], "emit-xml")) audit_emitted(&is, &in, "what emit-xml prints.xml");
        let_go(&is);
    }
    drop(&in);
    return 0;
}
