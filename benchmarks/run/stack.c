/* How much stack a start and an advance take. */
#include <stdio.h>

#include "../measure.h"
#include "compassnail.h"
#include "reference.h"

static uint64_t table[COMPASSNAIL_TABLE_WORDS], session[COMPASSNAIL_SESSION_WORDS], report[COMPASSNAIL_REPORT_WORDS];
static uint8_t out[COMPASSNAIL_OUT_BYTES];
static uint64_t answer;

static void start(void) {
  answer = compassnail_start(table, COMPASSNAIL_TABLE_WORDS, session, COMPASSNAIL_SESSION_WORDS, out, COMPASSNAIL_OUT_BYTES, report, COMPASSNAIL_REPORT_WORDS);
}

static void advance(void) {
  answer = compassnail_advance(table, COMPASSNAIL_TABLE_WORDS, session, COMPASSNAIL_SESSION_WORDS, COMPASSNAIL_LAST_TIME, out, COMPASSNAIL_OUT_BYTES, report, COMPASSNAIL_REPORT_WORDS);
}

static void measure(const char *name, void (*call)(void)) {
  size_t bytes = stack_of(call);
  printf("%-8s %6zu bytes of stack, answer %llu\n", name, bytes, (unsigned long long)answer);
}

int main(void) {
  static const char text[] =
      "entity pair is end; architecture a of pair is signal q, d : boolean; begin process (q) begin q <= transport not q after 3 ns; end process; "
      "process (q) begin d <= transport not q; end process; end;";
  ref_read((const uint8_t *)text, strlen(text), table, COMPASSNAIL_TABLE_WORDS);
  measure("start", start);
  measure("advance", advance);
  return 0;
}
