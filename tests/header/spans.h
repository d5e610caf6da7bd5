/* The spans of K and of its neighbours, one by one and in a list. */
/* Records of a list, more than a plan here has spans. */
enum { RECORDS = 7 };

/* A duration, then the answer: the span that ends there or later. */
typedef struct { uint64_t duration; cp_answer want; } span_row;

static void spanned(const char *plan, cp_planner planner, const span_row *table, size_t count) {
  for (; count > 0; table++, count--) {
    char call[96];
    snprintf(call, sizeof call, "cp_span of %s at %" PRIu64, plan, table->duration);
    same_answer(call, cp_span(&planner, table->duration), table->want);
  }
}

/* A list whose records were {3,000 + position, 4,000 + position}: the first ones become the spans, or nothing changes. */
static void listed_spans(const char *plan, cp_planner planner, size_t size, cp_answer want, const cp_span_record *spans) {
  cp_span_record list[RECORDS];
  char call[96];
  snprintf(call, sizeof call, "cp_spans of %s, %zu records lent", plan, size);
  for (size_t at = 0; at < RECORDS; at++) list[at] = (cp_span_record){.first = 3000 + at, .last = 4000 + at};
  same_answer(call, cp_spans(&planner, list, size), want);
  for (size_t at = 0; at < RECORDS; at++) {
    int written = want.refusal == 0 && at < want.first;
    same_slot(call, "first of list", at, list[at].first, written ? spans[at].first : 3000 + at);
    same_slot(call, "last of list", at, list[at].last, written ? spans[at].last : 4000 + at);
  }
}

/* Lists of every size up to one that is larger than the count. */
static void every_size(const char *plan, cp_planner planner, const cp_span_record *spans, size_t count) {
  for (size_t size = 0; size <= RECORDS; size++)
    listed_spans(plan, planner, size, answer(size < count ? 13 : 0, count, 0), spans);
}

static void spans(cp_planner empty, cp_planner k) {
  static const span_row of_k[] = {
      {1, {0, 72000, 110000}},        {71999, {0, 72000, 110000}},   {72000, {0, 72000, 110000}},   {110000, {0, 72000, 110000}},
      {110001, {0, 142000, 1000000}}, {141999, {0, 142000, 1000000}}, {142000, {0, 142000, 1000000}}, {1000000, {0, 142000, 1000000}},
      {0, {10, 0, 0}},                {1000001, {10, 0, 0}},         {UINT64_MAX, {10, 0, 0}},
  };
  static const span_row with_blocker[] = {{1, {0, 422000, 440000}}, {440001, {0, 472000, 1000000}}};
  static const span_row low_top[] = {{1, {25, 0, 0}}, {50000, {25, 0, 0}}, {50001, {10, 0, 0}}, {0, {10, 0, 0}}};
  static const span_row top_in_gap[] = {{110000, {0, 72000, 110000}}, {110001, {25, 0, 0}}, {120000, {25, 0, 0}}};
  static const span_row no_plan[] = {{72000, {20, 0, 0}}, {0, {20, 0, 0}}, {UINT64_MAX, {20, 0, 0}}};
  static const cp_span_record two[] = {{72000, 110000}, {142000, 1000000}}, blocked[] = {{422000, 440000}, {472000, 1000000}};
  static const cp_span_record four[] = {{99680, 109987}, {152240, 169981}, {174800, 219976}, {227360, 1000000}};
  spanned("K", k, of_k, sizeof of_k / sizeof of_k[0]);
  every_size("K", k, two, 2);
  spanned("no plan", empty, no_plan, sizeof no_plan / sizeof no_plan[0]);
  for (size_t size = 0; size <= RECORDS; size++) listed_spans("no plan", empty, size, answer(20, 0, 0), two);
  k.blockings[0] = 1480;
  spanned("K with blocker 1,480", k, with_blocker, sizeof with_blocker / sizeof with_blocker[0]);
  every_size("K with blocker 1,480", k, blocked, 2);
  k = planner_of_k();
  k.extras[0] = 32;
  k.jitters[0] = 30000;
  k.clock = (cp_clock){100, 2, 1000};
  every_size("K with extra bytes, jitter and clocks", k, four, 4);
  k = planner_of_k();
  k.top = 50000;
  spanned("K with top 50,000", k, low_top, sizeof low_top / sizeof low_top[0]);
  every_size("K with top 50,000", k, two, 0);
  k.top = 120000;
  spanned("K with top 120,000", k, top_in_gap, sizeof top_in_gap / sizeof top_in_gap[0]);
  every_size("K with top 120,000", k, two, 1);
}
