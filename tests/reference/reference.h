/* An independent reference of the simulator's rules in plain C, written from document 01 and docs/FORMAT.md alone.
   It is slow and simple on purpose: the tests compare the library with it. */
#ifndef COMPASSNAIL_REFERENCE_H
#define COMPASSNAIL_REFERENCE_H

#include <stddef.h>
#include <stdint.h>

enum {
  REF_TABLE_WORDS = 8387,
  REF_SESSION_WORDS = 1154,
  REF_BUFFER_BYTES = 4096
};

/* How a call ended. A refusal has its number in `number`, and for 2 to 10 its place. */
enum ref_kind { REF_REFUSED, REF_QUIET, REF_STOP_REACHED, REF_DONE };

struct ref_answer {
  enum ref_kind kind;
  int number;
  uint64_t place;
  uint64_t bytes, time, cycles, steps;
};

/* What a text was read to, beside its table: for tables of counts and for running the statements as written. */
struct ref_design;

/* The refusals 1 to 10 of a text, or its design. The design is freed by ref_free. */
struct ref_answer ref_parse(const uint8_t *text, size_t length, struct ref_design **design);
void ref_free(struct ref_design *design);
void ref_counts(const struct ref_design *design, unsigned *signals, unsigned *processes, unsigned *instructions);

/* The calls of the library, with its order of refusals. Lent buffers are changed only where the call is done. */
struct ref_answer ref_read(const uint8_t *text, size_t length, uint64_t *table, size_t words);
struct ref_answer ref_header(const uint8_t *text, size_t length, uint8_t *out, size_t room);
struct ref_answer ref_start(const uint64_t *table, size_t table_words, uint64_t *session, size_t session_words,
                            uint8_t *out, size_t room);
struct ref_answer ref_advance(const uint64_t *table, size_t table_words, uint64_t *session, size_t session_words,
                              uint64_t stop, uint8_t *out, size_t room);

/* Start and advance over the statements of a design as written, with no table: the session words are the same. */
struct ref_answer ref_start_written(const struct ref_design *design, uint64_t *session, uint8_t *out);
struct ref_answer ref_advance_written(const struct ref_design *design, uint64_t *session, uint64_t stop, uint8_t *out);

#endif
