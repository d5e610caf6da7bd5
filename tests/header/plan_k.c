/* Every function of the header on plan K (document 01, "Plan K and its neighbours"): each field of each struct that comes back, and
 * each number of a lent scratch or buffer, against its expected value. Prints what differs; exit status 1 where something does. */
#include "k.h"
#include "later.h"
#include "lean.h"
#include "steps.h"
#include "strict.h"
#include "save.h"
#include "gates.h"
#include "reprice.h"
#include "batch.h"
#include "spans.h"
#include "nearest.h"
#include "emission.h"
#include "newer.h"
#include "null.h"
#include "fields.h"

_Static_assert(sizeof(cp_planner) == 9944, "a planner has 9,944 bytes");
_Static_assert(offsetof(cp_planner, clock) == 12, "clocks come after top");
_Static_assert(offsetof(cp_planner, extras) == 408, "extra bytes come after the blockers");
_Static_assert(offsetof(cp_planner, jitters) == 2520, "jitters come after the frame lengths");
_Static_assert(sizeof(cp_span_record) == 16, "a span is two numbers");

_Static_assert(sizeof(cp_batch) == 79816, "a batch has 79,816 bytes");
_Static_assert(offsetof(cp_slot, planner) == 28, "a slot's tables come after its numbers");
_Static_assert(offsetof(cp_batch, next) == 79808, "the next slot comes after the slots");

static void searches(cp_planner empty, cp_planner k) {
  searched("cp_least of K", cp_least, k, SCRATCH, answer(0, 72000, 0), 7000);
  searched("cp_margin_safe of K", cp_margin_safe, k, SCRATCH, answer(0, 142000, 0), 14000);
  searched("cp_least, 64 numbers lent", cp_least, k, 64, answer(0, 72000, 0), 7000);
  searched("cp_margin_safe, 64 numbers lent", cp_margin_safe, k, 64, answer(0, 142000, 0), 14000);
  searched("cp_least, 63 numbers lent", cp_least, k, 63, answer(11, 0, 0), 0);
  searched("cp_margin_safe, 63 numbers lent", cp_margin_safe, k, 63, answer(11, 0, 0), 0);
  searched("cp_least without a plan", cp_least, empty, SCRATCH, answer(20, 0, 0), 0);
  searched("cp_margin_safe without a plan", cp_margin_safe, empty, SCRATCH, answer(20, 0, 0), 0);
}

/* K with another number of so many bytes at an offset. */
static cp_planner changed(const char *call, cp_planner before, size_t at, size_t bytes, uint32_t number, cp_planner left) {
  uint8_t plan[sizeof K];
  memcpy(plan, K, sizeof K);
  for (size_t byte = 0; byte < bytes; byte++) plan[at + byte] = (uint8_t)(number >> 8 * (bytes - 1 - byte));
  return loaded(call, before, plan, sizeof plan, answer(0, 1, 2), left);
}

static void neighbours(cp_planner k) {
  cp_planner left = planner_of_k();
  left.blockings[0] = 1480;
  k = changed("cp_load of K with blocker 1,480", k, BLOCKER_AT, 2, 1480, left);
  searched("cp_least of K with blocker 1,480", cp_least, k, SCRATCH, answer(0, 422000, 0), 30000);
  searched("cp_margin_safe of K with blocker 1,480", cp_margin_safe, k, SCRATCH, answer(0, 472000, 0), 35000);
  left = planner_of_k();
  left.top = 71999;
  k = changed("cp_load of K with top 71,999", k, TOP_AT, 4, 71999, left);
  searched("cp_least of K with top 71,999", cp_least, k, SCRATCH, answer(22, 1, 1), 7000);
  left.top = 120000;
  k = changed("cp_load of K with top 120,000", k, TOP_AT, 4, 120000, left);
  searched("cp_margin_safe of K with top 120,000", cp_margin_safe, k, SCRATCH, answer(23, 1, 1), 14000);
}

/* K with port 2, which no flow crosses: rate 1, blocker 2,000. */
static void uncrossed_port(cp_planner k) {
  static const uint8_t port_2[] = {0x02, 0x00, 0x08, 0x00, 0x02, 0x00, 0x00, 0x00, 0x01, 0x07, 0xD0};
  uint8_t plan[sizeof K + sizeof port_2];
  cp_planner left = planner_of_k();
  memcpy(plan, K, sizeof K);
  memcpy(plan + sizeof K, port_2, sizeof port_2);
  left.rates[1] = 1;
  left.blockings[1] = 2000;
  k = loaded("cp_load of K with port 2", k, plan, sizeof plan, answer(0, 2, 2), left);
  searched("cp_least of K with port 2", cp_least, k, SCRATCH, answer(0, 72000, 0), 7000);
  same_slack("cp_slack of port 2, not crossed", cp_slack(&k, 2, 72000), 24, 0);
}

static void field(const char *call, size_t length, size_t offset, cp_field_read want) {
  field_of(call, K, length, offset, want);
}

static void fields(void) {
  static const uint8_t extra[] = {0x04, 0x00, 0x04, 0x00, 0x40, 0x00, 0x20};
  static const uint8_t jitter_256[] = {0x05, 0x00, 0x06, 0x01, 0x00, 0x00, 0x98, 0x96, 0x80};
  static const uint8_t clocks_most[] = {0x06, 0x00, 0x0C, 0x00, 0x00, 0x03, 0xE8, 0x00, 0x00, 0x03, 0xE7, 0x00, 0x0F, 0x42, 0x40};
  static const uint8_t twice[] = {0, 1, 0, 1, 0x86, 0xA0, 0, 1, 0, 0xE6, 0, 1, 0, 2, 0, 1};
  field("cp_field of K's header", sizeof K, 0, (cp_field_read){.tag = 1, .offset = PORT_AT, .numbers = {1000, 1000000}});
  field("cp_field of K's port", sizeof K, PORT_AT, (cp_field_read){.tag = 2, .offset = FLOW_1_AT, .numbers = {1, 100}});
  field("cp_field of K's flow 1", sizeof K, FLOW_1_AT,
        (cp_field_read){.tag = 3, .offset = FLOW_2_AT, .numbers = {1, 100000, 1, 230, 1}});
  field("cp_field of K's flow 2", sizeof K, FLOW_2_AT,
        (cp_field_read){.tag = 3, .offset = sizeof K, .numbers = {2, 110000, 1, 605, 1}});
  field("cp_field of K cut short", sizeof K - 1, FLOW_2_AT, (cp_field_read){.refusal = 2, .offset = FLOW_2_AT});
  field("cp_field at byte 2 of K", sizeof K, 2, (cp_field_read){.refusal = 3, .offset = 2});
  field_of("cp_field of 32 extra bytes at port 64", extra, sizeof extra, 0,
           (cp_field_read){.tag = 4, .offset = sizeof extra, .numbers = {64, 32}});
  field_of("cp_field of jitter 10,000,000 of flow 256", jitter_256, sizeof jitter_256, 0,
           (cp_field_read){.tag = 5, .offset = sizeof jitter_256, .numbers = {256, 10000000}});
  field_of("cp_field of clocks 1,000, 999, 1,000,000", clocks_most, sizeof clocks_most, 0,
           (cp_field_read){.tag = 6, .offset = sizeof clocks_most, .numbers = {1000, 999, 1000000}});
  same("cp_repeats of ports 1, 2, 1", "the answer", cp_repeats(3, twice, sizeof twice), 1);
  same("cp_repeats of ports 1, 2", "the answer", cp_repeats(3, twice, sizeof twice - 2), 0);
  same("cp_repeats of K's flow 2", "the answer", cp_repeats(3, K + FLOW_2_AT + 3, 12), 0);
}

int main(void) {
  static const uint8_t lone_tag[] = {0x04, 0x00, 0x01}, unknown_tag[] = {0x07, 0x00, 0x01, 0x00};
  cp_planner none, k;
  memset(&none, 0, sizeof none);
  same_planner("cp_clear", cleared(), none);
  same_answer("cp_check without a plan", cp_check(&none, 72000), answer(20, 0, 0));
  same_slack("cp_slack without a plan", cp_slack(&none, 1, 72000), 20, 0);
  loaded("cp_load of 04 0001", cleared(), lone_tag, sizeof lone_tag, answer(2, 0, 0), none);
  loaded("cp_load of 07 0001", cleared(), unknown_tag, 3, answer(2, 0, 0), none);
  loaded("cp_load of 07 0001 00", cleared(), unknown_tag, 4, answer(3, 0, 0), none);
  k = loaded("cp_load of K", cleared(), K, sizeof K, answer(0, 1, 2), planner_of_k());
  k = loaded("cp_load of 51 bytes of K", k, K, sizeof K - 1, answer(2, FLOW_2_AT, 0), planner_of_k());
  rows_of_k(k);
  searches(cleared(), k);
  lean_searches(cleared(), k);
  fixed_points(cleared(), k);
  neighbours(k);
  uncrossed_port(k);
  extra_bytes(k);
  jitter(k);
  clocks(k);
  strict(k);
  saving(k);
  gate_lists(cleared(), k);
  repricing(cleared(), k);
  batches();
  spans(cleared(), k);
  nearest(cleared(), k);
  emission(cleared(), k);
  fields();
  newer(k);
  nulls(none, k);
  written_fields();
  printf("header: %u passed, %u failed\n", passed, failed);
  return failed != 0;
}
