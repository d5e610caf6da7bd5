/* The fixed-point iteration on K. */
/* A start and a number of steps, then the answer and the steps used. */
typedef struct { uint64_t start, steps; cp_answer want; uint64_t used; } steps_row;

static void iterated(const char *plan, cp_planner planner, const steps_row *table, size_t count) {
  for (; count > 0; table++, count--) {
    char call[96];
    snprintf(call, sizeof call, "cp_fixed_point of %s from %" PRIu64 ", %" PRIu64 " steps", plan, table->start, table->steps);
    same_steps(call, cp_fixed_point(&planner, table->start, table->steps), table->want, table->used);
  }
}

static void fixed_points(cp_planner empty, cp_planner k) {
  static const steps_row of_k[] = {
      {1, UINT64_MAX, {0, 72000, 0}, 2},  {1, 2, {0, 72000, 0}, 2},         {1, 1, {26, 72000, 0}, 1},
      {1, 0, {26, 1, 0}, 0},              {72000, 1, {0, 72000, 0}, 1},     {110000, 16, {0, 110000, 0}, 1},
      {110001, 1, {26, 142000, 0}, 1},    {110001, 16, {0, 142000, 0}, 2},  {1000000, 0, {26, 1000000, 0}, 0},
      {0, 16, {10, 0, 0}, 0},             {1000001, 16, {10, 0, 0}, 0},     {UINT64_MAX, 0, {10, 0, 0}, 0},
  };
  static const steps_row low_top[] = {{1, 16, {22, 1, 1}, 1}, {1, 0, {26, 1, 0}, 0}, {72000, 16, {10, 0, 0}, 0}};
  static const steps_row with_blocker[] = {{1, 16, {0, 422000, 0}, 6}, {1, 5, {26, 422000, 0}, 5}, {1, 3, {26, 332000, 0}, 3}};
  static const steps_row no_plan[] = {{1, 16, {20, 0, 0}, 0}, {0, 0, {20, 0, 0}, 0}};
  iterated("K", k, of_k, sizeof of_k / sizeof of_k[0]);
  iterated("no plan", empty, no_plan, sizeof no_plan / sizeof no_plan[0]);
  k.blockings[0] = 1480;
  iterated("K with blocker 1,480", k, with_blocker, sizeof with_blocker / sizeof with_blocker[0]);
  k = planner_of_k();
  k.top = 71999;
  iterated("K with top 71,999", k, low_top, sizeof low_top / sizeof low_top[0]);
}
