/* Plan K, what a planner holds after it, and comparisons of the calls on it and on its neighbours. */
#include "same.h"
#include <string.h>

static void same_planner(const char *call, cp_planner got, cp_planner want) {
  same(call, "form", got.form, want.form);
  same(call, "guard", got.guard, want.guard);
  same(call, "top", got.top, want.top);
  same(call, "drift", got.clock.drift, want.clock.drift);
  same(call, "timing_jitter", got.clock.timing_jitter, want.clock.timing_jitter);
  same(call, "sync_error", got.clock.sync_error, want.clock.sync_error);
  SAME_TABLE(call, rates, got, want);
  SAME_TABLE(call, blockings, got, want);
  SAME_TABLE(call, extras, got, want);
  SAME_TABLE(call, periods, got, want);
  SAME_TABLE(call, counts, got, want);
  SAME_TABLE(call, lengths, got, want);
  SAME_TABLE(call, jitters, got, want);
  SAME_TABLE(call, hops, got, want);
  SAME_TABLE(call, routes, got, want);
}

static const uint8_t K[52] = {
    0x01, 0x00, 0x08, 0x00, 0x00, 0x03, 0xE8, 0x00, 0x0F, 0x42, 0x40,
    0x02, 0x00, 0x08, 0x00, 0x01, 0x00, 0x00, 0x00, 0x64, 0x00, 0x00,
    0x03, 0x00, 0x0C, 0x00, 0x01, 0x00, 0x01, 0x86, 0xA0, 0x00, 0x01, 0x00, 0xE6, 0x00, 0x01,
    0x03, 0x00, 0x0C, 0x00, 0x02, 0x00, 0x01, 0xAD, 0xB0, 0x00, 0x01, 0x02, 0x5D, 0x00, 0x01,
};
/* Offsets in K: its top, the port's blocker, the fields after the header. */
enum { TOP_AT = 7, PORT_AT = 11, BLOCKER_AT = 20, FLOW_1_AT = 22, FLOW_2_AT = 37 };
/* Length of a scratch, 3 numbers more than a search writes. */
enum { SCRATCH = 67 };

/* What a planner holds after K: port 1 in slot 0, flows 1 and 2 in slots 0 and 1, routes CP_ROUTE_STRIDE apart; the older form is 0. */
static cp_planner planner_of_k(void) {
  cp_planner k;
  memset(&k, 0, sizeof k);
  k.guard = 1000;
  k.top = 1000000;
  k.rates[0] = 100;
  k.periods[0] = 100000;
  k.periods[1] = 110000;
  k.counts[0] = k.counts[1] = 1;
  k.lengths[0] = 230;
  k.lengths[1] = 605;
  k.hops[0] = k.hops[1] = 1;
  k.routes[0] = k.routes[CP_ROUTE_STRIDE] = 1;
  return k;
}

/* The planner that holds no plan, set over bytes that were none of 0. */
static cp_planner cleared(void) {
  cp_planner planner;
  memset(&planner, 0xA5, sizeof planner);
  cp_clear(&planner);
  return planner;
}

typedef cp_answer (*load)(cp_planner *planner, const uint8_t *plan, size_t length);

/* A load's answer and the planner that it leaves, in either reading; a refused one leaves every byte as it was. */
static cp_planner loaded_by(load read, const char *call, cp_planner before, const uint8_t *plan, size_t length, cp_answer want,
                            cp_planner left) {
  cp_planner planner = before;
  same_answer(call, read(&planner, plan, length), want);
  same_planner(call, planner, left);
  if (want.refusal != 0) same(call, "the planner changed", memcmp(&planner, &before, sizeof before) != 0, 0);
  return planner;
}

static cp_planner loaded(const char *call, cp_planner before, const uint8_t *plan, size_t length, cp_answer want, cp_planner left) {
  return loaded_by(cp_load, call, before, plan, length, want, left);
}

/* A duration with the plain question's refusal and the spare of port 1. */
typedef struct { uint64_t duration; uint32_t refusal; int64_t slack; } row;

static void rows(const char *plan, cp_planner planner, const row *table, size_t count) {
  for (; count > 0; table++, count--) {
    char call[64];
    uint64_t fails = table->refusal == 21;
    snprintf(call, sizeof call, "cp_check of %s at %" PRIu64, plan, table->duration);
    same_answer(call, cp_check(&planner, table->duration), answer(table->refusal, fails, fails));
    snprintf(call, sizeof call, "cp_slack of %s, port 1 at %" PRIu64, plan, table->duration);
    same_slack(call, cp_slack(&planner, 1, table->duration), table->refusal == 10 ? 10 : 0, table->slack);
  }
  same_slack("cp_slack of a port not in K", cp_slack(&planner, 2, 72000), 24, 0);
}

/* The rows of K's table. */
static void rows_of_k(cp_planner k) {
  static const row table[] = {
      {71999, 21, -100},      {72000, 0, 0},          {100000, 0, 2800000}, {110000, 0, 1800000},
      {110001, 21, -3199900}, {120000, 21, -2200000}, {141999, 21, -100},   {142000, 0, 0},
      {1000, 21, -7000000},   {0, 10, 0},             {1000001, 10, 0},
  };
  rows("K", k, table, sizeof table / sizeof table[0]);
}

typedef cp_answer (*search)(const cp_planner *planner, uint64_t *scratch, size_t length);

/* A search on a scratch whose numbers were 1000 + position: the first 64 become port 1's demand and 0s, or nothing changes. */
static void searched(const char *call, search ask, cp_planner planner, size_t length, cp_answer want, uint64_t demand) {
  uint64_t scratch[SCRATCH];
  int writes = want.refusal != 11 && want.refusal != 20;
  for (size_t slot = 0; slot < SCRATCH; slot++) scratch[slot] = 1000 + slot;
  same_answer(call, ask(&planner, scratch, length), want);
  for (size_t slot = 0; slot < SCRATCH; slot++) {
    uint64_t expected = !writes || slot >= 64 ? 1000 + slot : slot == 0 ? demand : 0;
    same_slot(call, "scratch", slot, scratch[slot], expected);
  }
}

static void field_of(const char *call, const uint8_t *plan, size_t length, size_t offset, cp_field_read want) {
  cp_field_read got = cp_field(plan, length, offset);
  same(call, "refusal", got.refusal, want.refusal);
  same(call, "tag", got.tag, want.tag);
  same(call, "offset", got.offset, want.offset);
  SAME_TABLE(call, numbers, got, want);
}
