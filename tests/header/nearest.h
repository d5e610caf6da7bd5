/* The nearest durations of K and of its neighbours. */
/* A duration, then the answer: the nearest below and above, 0 for none. */
typedef struct { uint64_t duration; cp_answer want; } nearest_row;

static void nearest_to(const char *plan, cp_planner planner, const nearest_row *table, size_t count) {
  for (; count > 0; table++, count--) {
    char call[96];
    snprintf(call, sizeof call, "cp_nearest of %s at %" PRIu64, plan, table->duration);
    same_answer(call, cp_nearest(&planner, table->duration), table->want);
  }
}

static void nearest(cp_planner empty, cp_planner k) {
  static const nearest_row of_k[] = {
      {1, {0, 0, 72000}},               {71999, {0, 0, 72000}},        {72000, {0, 72000, 72000}},    {110000, {0, 110000, 110000}},
      {110001, {0, 110000, 142000}},    {120000, {0, 110000, 142000}}, {141999, {0, 110000, 142000}}, {142000, {0, 142000, 142000}},
      {1000000, {0, 1000000, 1000000}}, {0, {10, 0, 0}},               {1000001, {10, 0, 0}},         {UINT64_MAX, {10, 0, 0}},
  };
  static const nearest_row low_top[] = {{1, {0, 0, 0}}, {50000, {0, 0, 0}}, {50001, {10, 0, 0}}};
  static const nearest_row top_in_gap[] = {{110001, {0, 110000, 0}}, {120000, {0, 110000, 0}}};
  static const nearest_row no_plan[] = {{72000, {20, 0, 0}}, {0, {20, 0, 0}}, {UINT64_MAX, {20, 0, 0}}};
  nearest_to("K", k, of_k, sizeof of_k / sizeof of_k[0]);
  nearest_to("no plan", empty, no_plan, sizeof no_plan / sizeof no_plan[0]);
  k.top = 50000;
  nearest_to("K with top 50,000", k, low_top, sizeof low_top / sizeof low_top[0]);
  k.top = 120000;
  nearest_to("K with top 120,000", k, top_in_gap, sizeof top_in_gap / sizeof top_in_gap[0]);
}
