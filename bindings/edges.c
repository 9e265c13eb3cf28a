/* The edges of the call: a short buffer, none, no words, a file that isn't lent, odd bytes. */
#include "irs.h"
#include <stdio.h>
#include <string.h>
#define S(s) { (const uint8_t *)(s), sizeof(s) - 1 }
#define CHECK(c) do { if (!(c)) { printf("line %d fails\n", __LINE__); return 1; } } while (0)

int main(void) {
    struct irs_bytes words[] = { S("check"), S("D") };
    struct irs_file files[] = { { S("C"), S("") }, { S("D"), S("[") }, { S("D"), S("third") } };
    const char *refused = "refused K1 0 document 0\n";
    size_t length = strlen(refused), needed = 99, told = 99;
    const char *sentence = "K1: the document isn't JSON (reading stopped at line 1, column 2)";
    uint8_t out[64], said[96];
    memset(out, '#', sizeof out);
    memset(said, '#', sizeof said);
    CHECK(irs_run(words, 2, files, 3, out, sizeof out, &needed, said, sizeof said, &told) == 2);
    CHECK(needed == length && memcmp(out, refused, length) == 0 && out[length] == '#');
    CHECK(told == strlen(sentence) && memcmp(said, sentence, told) == 0 && said[told] == '#');
    /* a short buffer */
    memset(out, '#', sizeof out);
    CHECK(irs_run(words, 2, files, 3, out, 3, &needed, said, sizeof said, &told) == 2);
    CHECK(needed == length && memcmp(out, "ref#", 4) == 0);
    /* no buffer: only the length */
    CHECK(irs_run(words, 2, files, 3, out, 0, &needed, said, sizeof said, &told) == 2 && needed == length);
    /* a file that isn't lent */
    CHECK(irs_run(words, 2, files, 1, out, 64, &needed, said, sizeof said, &told) == 5 && needed == 10 && !memcmp(out, "no file 1\n", 10));
    CHECK(irs_run(words, 2, files, 0, out, 64, &needed, said, sizeof said, &told) == 5);
    /* no words, and words that are no command */
    CHECK(irs_run(words, 0, files, 3, out, 64, &needed, said, sizeof said, &told) == 4 && needed == 10 && !memcmp(out, "bad words\n", 10));
    CHECK(irs_run(words, 1, files, 3, out, 64, &needed, said, sizeof said, &told) == 4);
    /* a word that isn't UTF-8 */
    struct irs_bytes bad[] = { S("check"), S("\xff\xfe") };
    memset(out, '#', sizeof out);
    CHECK(irs_run(bad, 2, files, 3, out, 64, &needed, said, sizeof said, &told) == 9 && needed == 0 && out[0] == '#');
    CHECK(told == 0);
    /* what the text means: one line, with the controls of a word shown by their numbers */
    struct irs_bytes named[] = { S("check"), S("\x1b[2J\n") };
    memset(said, '#', sizeof said);
    CHECK(irs_run(named, 2, files, 3, out, sizeof out, &needed, said, sizeof said, &told) == 5);
    CHECK(told == 29 && !memcmp(said, "couldn't be read: \\x1b[2J\\x0a#", 30));
    /* little room for the sentence, and none */
    memset(said, '#', sizeof said);
    CHECK(irs_run(words, 2, files, 3, out, sizeof out, &needed, said, 2, &told) == 2);
    CHECK(told == strlen(sentence) && needed == length && !memcmp(said, "K1#", 3));
    CHECK(irs_run(words, 2, files, 3, out, sizeof out, &needed, said, 0, &told) == 2 && told == strlen(sentence));
    /* any bytes in the name and the contents of a file that no word names */
    struct irs_file odd[] = { { S("\xff\0\xc0"), S("x") }, { S("D"), S("\0\xff\xfe\0") } };
    CHECK(irs_run(words, 2, odd, 2, out, 64, &needed, said, sizeof said, &told) == 2 && needed == length);
    /* many trades: each its own answer, one more than there is room for, a short buffer, and words that aren't UTF-8 */
    struct irs_file own[] = { { S("D"), S("[") } };
    struct irs_trade trades[] = { { own, 1 }, { own, 0 }, { own, 1 } };
    struct irs_answer answers[3];
    uint8_t all[128];
    memset(answers, '#', sizeof answers);
    memset(all, '#', sizeof all);
    irs_run_each(words, 2, files, 1, trades, 3, answers, 2, all, sizeof all, &needed);
    CHECK(answers[0].status == 2 && answers[0].text_len == length && answers[1].status == 5 && answers[1].text_len == 10);
    CHECK(answers[2].status == '#' && needed == length + answers[0].sentence_len + 10 + answers[1].sentence_len);
    CHECK(!memcmp(all, refused, length) && !memcmp(all + length + answers[0].sentence_len, "no file 1\n", 10));
    CHECK(all[needed] == '#');
    memset(all, '#', sizeof all);
    size_t whole = needed;
    irs_run_each(words, 2, files, 1, trades, 2, answers, 3, all, 3, &needed);
    CHECK(needed == whole && !memcmp(all, "ref#", 4));
    irs_run_each(bad, 2, files, 1, trades, 2, answers, 3, all, 3, &needed);
    CHECK(answers[0].status == 9 && answers[1].status == 9 && answers[0].text_len == 0 && needed == 0);
    irs_run_each(words, 2, files, 1, trades, 0, answers, 3, all, 3, &needed);
    CHECK(needed == 0);
    /* the version, whole and with little room */
    memset(out, '#', sizeof out);
    irs_version(out, sizeof out, &needed);
    CHECK(needed < sizeof out && out[needed] == '#' && !memcmp(out, "irs " IRS_VERSION ",", strlen("irs " IRS_VERSION ",")));
    length = needed;
    memset(out, '#', sizeof out);
    irs_version(out, 3, &needed);
    CHECK(needed == length && !memcmp(out, "irs#", 4));
    puts("edges: as they should be");
    return 0;
}
