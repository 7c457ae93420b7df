/* The C interface as a C program uses it: the samples of the scope through include/binnaclebox.h. Prints what differs. */
#include "binnaclebox.h"

#include <inttypes.h>
#include <stdio.h>
#include <string.h>

static int differ;

/* An answer's six entries, and a canary past them. */
static uint64_t answer[BB_ANSWER + 1];

static void expect(const char *what, uint64_t number, uint64_t place, uint64_t first, uint64_t second, uint64_t third) {
    const uint64_t expected[BB_ANSWER + 1] = {number, place, first, second, third, 0, 77};
    if (memcmp(answer, expected, sizeof expected) != 0) {
        differ++;
        printf("%s: %" PRIu64 " at %" PRIu64 ", %" PRIu64 " %" PRIu64 " %" PRIu64 "\n", what, answer[0], answer[1], answer[2],
               answer[3], answer[4]);
    }
    memset(answer, 0xff, sizeof answer);
    answer[BB_ANSWER] = 77;
}

static void diagrams(void) {
    const uint32_t domains[] = {2, 2}, layers[] = {1, 2}, targets[] = {3, 0, 0, 1}, stray[] = {1, 0, 0, 1};
    const uint32_t allowed[] = {0, 1}, other[] = {1, 1}, outside[] = {0, 2};
    int32_t words[78];
    bb_check(domains, 2, layers, 2, targets, 4, answer, BB_ANSWER + 1);
    expect("S3 check", 0, 0, 0, 0, 0);
    bb_check(domains, 2, layers, 2, stray, 4, answer, BB_ANSWER + 1);
    expect("S5 a stray target", BB_TARGET, 0, 0, 0, 0);
    bb_check(domains, 2, layers, 2, targets, 3, answer, BB_ANSWER + 1);
    expect("S5 three targets", BB_TARGET_COUNT, 0, 0, 0, 0);
    bb_encode(domains, 2, layers, 2, targets, 4, words, 77, answer, BB_ANSWER + 1);
    expect("S4 one short", BB_ROOM, 78, 0, 0, 0);
    bb_encode(domains, 2, layers, 2, targets, 4, words, 78, answer, BB_ANSWER + 1);
    expect("S4", 0, 0, 78, 25, 12);
    bb_judge(domains, 2, layers, 2, targets, 4, allowed, 2, answer, BB_ANSWER + 1);
    expect("S3 (0,1)", 0, 0, 1, 0, 0);
    bb_judge(domains, 2, layers, 2, targets, 4, other, 2, answer, BB_ANSWER + 1);
    expect("S3 (1,1)", 0, 0, 0, 0, 0);
    bb_judge(domains, 2, layers, 2, targets, 4, allowed, 1, answer, BB_ANSWER + 1);
    expect("a short build", BB_BUILD_LENGTH, 0, 0, 0, 0);
    bb_judge(domains, 2, layers, 2, targets, 4, outside, 2, answer, BB_ANSWER + 1);
    expect("a value outside", BB_BUILD_VALUE, 1, 0, 0, 0);
}

static void models(void) {
    const uint32_t domains[] = {2}, layers[] = {1}, targets[] = {0, 1};
    const int32_t good[] = {-1, 2}, first[] = {1}, twice[] = {2, -2}, lowest[] = {INT32_MIN};
    uint32_t build[2] = {9, 9};
    bb_model(domains, 1, layers, 1, targets, 2, first, 1, build, 2, answer, BB_ANSWER + 1);
    expect("S8 [1]", BB_NOT_ALLOWED, 0, 0, 0, 0);
    bb_model(domains, 1, layers, 1, targets, 2, first, 0, build, 2, answer, BB_ANSWER + 1);
    expect("S8 []", BB_NOT_ONE_VALUE, 0, 0, 0, 0);
    bb_model(domains, 1, layers, 1, targets, 2, twice, 2, build, 2, answer, BB_ANSWER + 1);
    expect("S8 [2,-2]", BB_NAMED_TWICE, 1, 0, 0, 0);
    bb_model(domains, 1, layers, 1, targets, 2, lowest, 1, build, 2, answer, BB_ANSWER + 1);
    expect("S8 lowest", BB_MODEL_LITERAL, 0, 0, 0, 0);
    if (build[0] != 9 || build[1] != 9) {
        differ++;
        printf("a refusal changed the build\n");
    }
    bb_model(domains, 1, layers, 1, targets, 2, good, 2, build, 2, answer, BB_ANSWER + 1);
    expect("S8 [-1,2]", 0, 0, 1, 0, 0);
    if (build[0] != 1 || build[1] != 9) {
        differ++;
        printf("S8's build: %" PRIu32 " %" PRIu32 "\n", build[0], build[1]);
    }
}

static void read(const char *what, const char *text, uint64_t number, uint64_t place, uint64_t words, uint64_t clauses,
                 uint64_t v) {
    int32_t out[2];
    bb_text_read((const uint8_t *)text, strlen(text), out, 2, answer, BB_ANSWER + 1);
    expect(what, number, place, words, clauses, v);
}

static void texts(void) {
    const int32_t words[] = {1, 0};
    const char *text = "p cnf 1 1\n1 0\n";
    uint8_t out[14];
    read("1 0", "p cnf 1 1\n1 0", 0, 0, 2, 1, 1);
    read("1", "p cnf 1 1\n1", BB_OPEN_CLAUSE, 11, 0, 0, 0);
    read("2 0", "p cnf 1 1\n2 0", BB_CLAUSE_LITERAL, 10, 0, 0, 0);
    read("-0", "p cnf 1 1\n-0", BB_TOKEN, 10, 0, 0, 0);
    read("two clauses", "p cnf 1 2\n1 0", BB_CLAUSE_COUNT, 1, 0, 0, 0);
    read("no clause", "p cnf 0 0\n", 0, 0, 0, 0, 0);
    read("no header", "1 0\n", BB_HEADER, 0, 0, 0, 0);
    bb_text_write(1, words, 2, out, sizeof out, answer, BB_ANSWER + 1);
    expect("a text", 0, 0, 14, 0, 0);
    if (memcmp(out, text, sizeof out) != 0) {
        differ++;
        printf("the text: %.14s\n", (const char *)out);
    }
    bb_text_write(1, words, 1, out, sizeof out, answer, BB_ANSWER + 1);
    expect("an open clause", BB_OPEN_CLAUSE, 1, 0, 0, 0);
    bb_text_write(1000001, words, 2, out, sizeof out, answer, BB_ANSWER + 1);
    expect("too many variables", BB_CLAUSE_LIMIT, 0, 0, 0, 0);
}

/* Fewer than six entries: nothing is written. It also fills the answer for what follows. */
static void short_answer(void) {
    const uint32_t none[] = {0};
    const uint64_t kept[BB_ANSWER + 1] = {5, 5, 5, 5, 5, 0, 77};
    memcpy(answer, kept, sizeof kept);
    bb_check(none, 0, none, 0, none, 0, answer, BB_ANSWER - 1);
    expect("an answer of five", 5, 5, 5, 5, 5);
}

int main(void) {
    short_answer();
    diagrams();
    models();
    texts();
    return differ != 0;
}
