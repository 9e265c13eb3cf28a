/* irs.h: what libirs offers to C and C++, and to whatever calls C.

   irs_run does what a command of the program irs does, on words and files in memory, and says what that means;
   irs_run_each does it for many trades; irs_version names the version. Words, files, texts, sentences and statuses
   are those of the program (docs/FORMATS.md). Nothing is kept between calls.

   What a caller has to keep to:
   - no pointer is NULL, even if it points to nothing (irs_lend helps);
   - `out`, `needed`, `said`, `said_needed` and `answers` overlap neither each other nor what is lent, and nobody
     writes to what is lent while the call runs; otherwise several threads may call at once;
   - it isn't called from a signal handler;
   - the thread has at least 256 KiB of stack (JSON nests up to 127 deep, XML up to 63), and the processor has SSE4.1. */
#ifndef IRS_H
#define IRS_H
#include <stddef.h>
#include <stdint.h>

/* The version of this header; irs_version has that of the library. docs/STABILITY.md says what stays. */
#define IRS_VERSION "1.0.0"

#ifdef __cplusplus
extern "C" {
#endif

/* Bytes that the caller lends for the call. `at` is never NULL, also where `len` is 0. */
struct irs_bytes { const uint8_t *at; size_t len; };

/* A file: a name as the words have it, and its bytes. Of several with one name the first counts. A document or
   cash flows whose name ends in `.xml` are read as FpML XML, and any other as JSON. */
struct irs_file { struct irs_bytes name, bytes; };

/* Answers the status of the command that the words are: 0 to 5 and 8 as the program has them, 7 where
   memory ran out and 9 where a word isn't UTF-8; 6 never comes. Writes the front of the text that fits
   to `out`, and the length of the whole text to `*needed`: where that is above `out_len`, call again
   with as much room. What the text means, in one plain sentence, goes to `said` in the same way, and its length to
   `*said_needed`. At 7 and 9 there is no text and no sentence, and both lengths are 0.

   The sentence is one line without its end: controls in a word are shown by their numbers, as the program does
   (docs/FORMATS.md). At status 0 it is empty where each payment has its amount. Where some have none for want of a
   fixing it says how many, and which fixing the first of them lacks. */
uint8_t irs_run(const struct irs_bytes *words, size_t n_words,
                const struct irs_file *files, size_t n_files,
                uint8_t *out, size_t out_len, size_t *needed,
                uint8_t *said, size_t said_len, size_t *said_needed);

/* A trade of irs_run_each: the files that are its own. */
struct irs_trade { const struct irs_file *files; size_t n_files; };

/* What a trade comes to: the status, and the lengths of its text and of its sentence. */
struct irs_answer { uint8_t status; size_t text_len, sentence_len; };

/* Runs one command for each of many trades: over the common files, and after them the trade's own. `answers[k]` is
   what `trades[k]` comes to: what irs_run gives for these files. The fixings and the calendars that the words name
   are read once where all of them are common. As many trades are run as there is room in `answers`.

   Writes the texts and the sentences to `out`, those of a trade one after the other, as far as there is room; and the
   length of all to `*needed`: where that is above `out_len`, call again with as much room. A trade with status 7 or 9
   has no text and no sentence. Nothing is kept for a later call. */
void irs_run_each(const struct irs_bytes *words, size_t n_words,
                  const struct irs_file *common, size_t n_common,
                  const struct irs_trade *trades, size_t n_trades,
                  struct irs_answer *answers, size_t n_answers,
                  uint8_t *out, size_t out_len, size_t *needed);

/* Writes what `irs --version` prints, as "irs 1.0.0, schedule text 2" and a line with the logic sum of the kit that
   proves it. The text goes to `out` and its length to `*needed` as the text of irs_run does. */
void irs_version(uint8_t *out, size_t out_len, size_t *needed);

/* Lends bytes; NULL with length 0 is fine here. */
static inline struct irs_bytes irs_lend(const void *at, size_t len) {
    struct irs_bytes b;
    b.at = len ? (const uint8_t *)at : (const uint8_t *)"";
    b.len = len;
    return b;
}

#ifdef __cplusplus
}
#endif
#endif
