/* Binnaclebox, for C: decision diagrams of a skid's options as clauses for a SAT solver.
 *
 * A list passes as a pointer and its length in elements. No pointer is null, also where the length is 0, and no list that is
 * written overlaps another one. Nothing is kept between calls, nothing is allocated, and calls may run side by side.
 *
 * The diagram is three lists: the options' domains, the nodes' layers, and the targets, for each node in order one
 * reference a value of its option (0 not allowed, 1 allowed, 2 the root, 3 the next node, and so on).
 *
 * Every function takes any contents, and writes its answer into the first six entries of `answer`; later entries are kept.
 * Where `answer` has fewer than six entries, nothing is written anywhere.
 *   answer[0]       0, or the refusal's number; a refusal changes no other list
 *   answer[1]       the refusal's place, or 0
 *   answer[2..5]    the results named below, and 0 for the rest
 * Where `out` is too short the refusal is BB_ROOM and its place is the length needed: a call with out_length 0 asks for it.
 * What `out` has past the result is kept. */
#ifndef BINNACLEBOX_H
#define BINNACLEBOX_H

#include <stddef.h>
#include <stdint.h>

#ifdef __cplusplus
extern "C" {
#endif

enum { BB_ANSWER = 6 };

/* The refusals' numbers. An index, an option and a byte count from 0. */
enum {
    BB_OPTIONS = 1,          /* the options are not 1 to 64 (place 0) */
    BB_DOMAIN = 2,           /* a domain is not 1 to 32 (its index) */
    BB_NODES = 3,            /* the nodes are not 1 to 4,096 (0) */
    BB_LAYER = 4,            /* a layer is wrong: the root's alone is 1, later ones never fall and are 2 to n (its index) */
    BB_TARGET_COUNT = 5,     /* there are not as many targets as edges (0) */
    BB_TARGET = 6,           /* a target is neither 0, nor a node of the next layer, nor, from the last layer, 1 (its index) */
    BB_ROOM = 7,             /* `out` is too short (the length needed) */
    BB_BUILD_LENGTH = 8,     /* the build has not as many values as there are options (0) */
    BB_BUILD_VALUE = 9,      /* a value is not in its option's domain (its index) */
    BB_MODEL_LITERAL = 10,   /* a literal is 0, or beyond the last variable (its index) */
    BB_NAMED_TWICE = 11,     /* a value's variable is named a second time (the index) */
    BB_NOT_ONE_VALUE = 12,   /* an option has not exactly one true value (the option) */
    BB_NOT_ALLOWED = 13,     /* the diagram does not allow the model's build (0) */
    BB_CLAUSE_LITERAL = 14,  /* a literal is beyond the last variable (its index; in a text its first byte) */
    BB_OPEN_CLAUSE = 15,     /* the last clause is not closed by 0 (the number of words; of a text, of bytes) */
    BB_CLAUSE_LIMIT = 16,    /* above 1,000,000 variables, 4,000,000 clauses or 100,000,000 words (0; in a text the header) */
    BB_HEADER = 17,          /* the header line is absent or misformed (its first byte) */
    BB_TOKEN = 18,           /* a misformed token (its first byte) */
    BB_CLAUSE_COUNT = 19     /* the clauses are not as many as the header says (the number found) */
};

/* Is the diagram sound? No results. */
void bb_check(const uint32_t *domains, size_t domain_count, const uint32_t *layers, size_t layer_count,
              const uint32_t *targets, size_t target_count, uint64_t *answer, size_t answer_length);

/* The diagram's clauses, as words: each clause's literals, then 0. [2] words [3] clauses [4] the last variable */
void bb_encode(const uint32_t *domains, size_t domain_count, const uint32_t *layers, size_t layer_count,
               const uint32_t *targets, size_t target_count, int32_t *out, size_t out_length, uint64_t *answer,
               size_t answer_length);

/* Does the diagram allow the build (a value for each option)? [2] 1 allowed, 0 not allowed */
void bb_judge(const uint32_t *domains, size_t domain_count, const uint32_t *layers, size_t layer_count,
              const uint32_t *targets, size_t target_count, const uint32_t *build, size_t build_length, uint64_t *answer,
              size_t answer_length);

/* The build that a solver's model says; its literals come without a closing 0. [2] the number of options */
void bb_model(const uint32_t *domains, size_t domain_count, const uint32_t *layers, size_t layer_count,
              const uint32_t *targets, size_t target_count, const int32_t *literals, size_t literal_count, uint32_t *out,
              size_t out_length, uint64_t *answer, size_t answer_length);

/* The DIMACS text of words whose last variable is v; no byte 0 follows it. [2] bytes */
void bb_text_write(uint32_t v, const int32_t *words, size_t word_count, uint8_t *out, size_t out_length, uint64_t *answer,
                   size_t answer_length);

/* The words of a DIMACS text. [2] words [3] clauses [4] the header's last variable */
void bb_text_read(const uint8_t *text, size_t text_length, int32_t *out, size_t out_length, uint64_t *answer,
                  size_t answer_length);

#ifdef __cplusplus
}
#endif

#endif
