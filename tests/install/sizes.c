/* What the header says of sizes and of refusals, held against the library: each length is enough, and one less is not. */
#include <cycle_planner.h>
#include <stdio.h>
#include <string.h>

static int failed;

static void holds(const char *what, int is) {
  if (!is) {
    printf("sizes: %s does not hold\n", what);
    failed = 1;
  }
}

static const uint8_t k[] = {1, 0, 8, 0, 0, 3, 0xe8, 0, 0x0f, 0x42, 0x40, 2, 0, 8, 0, 1, 0, 0, 0, 100, 0, 0, 3, 0, 12, 0, 1,
                            0, 1, 0x86, 0xa0, 0, 1, 0, 0xe6, 0, 1, 3, 0, 12, 0, 2, 0, 1, 0xad, 0xb0, 0, 1, 2, 0x5d, 0, 1};
static uint8_t zeros[CP_MAX_PLAN + 1], buffer[CP_MAX_PLAN];
static uint64_t scratch[CP_SCRATCH];
static int64_t spares[CP_SPARES];
static cp_planner held;

static void lengths(void) {
  holds("a plan of CP_MAX_PLAN bytes is read", cp_load(&held, zeros, CP_MAX_PLAN).refusal == CP_UNKNOWN_TAG);
  holds("one byte more is not", cp_load(&held, zeros, CP_MAX_PLAN + 1).refusal == CP_PLAN_SIZE);
  holds("CP_SCRATCH", cp_least(&held, scratch, CP_SCRATCH).refusal == CP_OK);
  holds("one number less", cp_least(&held, scratch, CP_SCRATCH - 1).refusal == CP_SHORT_SCRATCH);
  holds("CP_LEAN_SCRATCH", cp_lean_least(&held, scratch, CP_LEAN_SCRATCH).refusal == CP_OK);
  holds("no number", cp_lean_least(&held, scratch, CP_LEAN_SCRATCH - 1).refusal == CP_SHORT_SCRATCH);
  holds("CP_SPARES", cp_reprice(&held, 100000, 1, 64, spares, CP_SPARES).refusal == CP_OK);
  holds("one spare less", cp_reprice(&held, 100000, 1, 64, spares, CP_SPARES - 1).refusal == CP_SHORT_SCRATCH);
  holds("CP_MAX_GATES", cp_gates(&held, 100000, 0, 1, buffer, CP_MAX_GATES).first == CP_MAX_GATES);
  holds("one byte less", cp_gates(&held, 100000, 0, 1, buffer, CP_MAX_GATES - 1).refusal == CP_SHORT_BUFFER);
  holds("no list of spans", cp_spans(&held, NULL, 0).first == 2);
  holds("CP_PORTS", cp_slack(&held, CP_PORTS + 1, 1).refusal == CP_NOT_CROSSED && sizeof held.rates == 4 * CP_PORTS);
  holds("CP_FLOWS", sizeof held.hops == CP_FLOWS);
}

/* Each refusal has a sentence of its own, and no other number has one. */
static void texts(void) {
  const char *none = cp_refusal_text(CP_BAD_TEXT + 1);
  int sentences = 0;
  for (uint32_t number = 0; number <= CP_BAD_TEXT; number++) {
    const char *text = cp_refusal_text(number);
    if (strcmp(text, none) == 0) continue;
    sentences++;
    for (uint32_t other = 0; other < number; other++) holds("a sentence of its own", strcmp(text, cp_refusal_text(other)) != 0);
  }
  holds("29 sentences", sentences == 29 && strcmp(cp_refusal_text(14), none) == 0 && strcmp(cp_refusal_text(19), none) == 0);
}

int main(void) {
  cp_clear(&held);
  holds("K", cp_load(&held, k, sizeof k).refusal == CP_OK);
  lengths();
  texts();
  return failed;
}
