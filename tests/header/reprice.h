/* K with another length for one of its flows, and a plan whose flow has the longest route, with extra bytes, jitter and clocks. */
/* Numbers of a list, 3 more than there are ports. */
enum { LIST = 67 };

/* A list whose numbers were -1,000 - position: what the question leaves in it is in want, or nothing changes. */
static void repriced(const char *call, cp_planner planner, uint64_t duration, uint64_t flow, uint64_t length, size_t size, uint32_t refusal,
                     const int64_t *want) {
  int64_t list[LIST];
  cp_planner before = planner;
  for (size_t at = 0; at < LIST; at++) list[at] = -1000 - (int64_t)at;
  same_answer(call, cp_reprice(&planner, duration, flow, length, list, size), answer(refusal, 0, 0));
  for (size_t at = 0; at < LIST; at++)
    same_slot(call, "list", at, (uint64_t)list[at], (uint64_t)(refusal == 0 ? want[at] : -1000 - (int64_t)at));
  same_planner(call, planner, before);
}

/* A duration, a flow, its length and the size of the list, then the refusal or the spare of port 1. */
typedef struct { uint64_t duration, flow, length; size_t size; uint32_t refusal; int64_t spare; } reprice_row;

static void rows_of(const char *plan, cp_planner planner, const reprice_row *table, size_t count) {
  for (; count > 0; table++, count--) {
    int64_t want[LIST];
    char call[160];
    for (size_t at = 0; at < LIST; at++) want[at] = -1000 - (int64_t)at;
    want[0] = table->spare;
    snprintf(call, sizeof call, "cp_reprice of %s at %" PRIu64 ", flow %" PRIu64 " of %" PRIu64 " bytes, %zu numbers lent", plan,
             table->duration, table->flow, table->length, table->size);
    repriced(call, planner, table->duration, table->flow, table->length, table->size, table->refusal, want);
  }
}

/* Ports 49 to 64 at 1,000 Mbit/s, crossed from the last to the first by flow 256 and every other one by flow 1. */
static cp_planner planner_of_long_routes(void) {
  cp_planner p;
  memset(&p, 0, sizeof p);
  p.guard = 500;
  p.top = 1000000;
  p.clock = (cp_clock){100, 2, 1000};
  for (size_t port = 49; port <= 64; port++) {
    p.rates[port - 1] = 1000;
    p.blockings[port - 1] = port == 64 ? 2000 : 0;
    p.extras[port - 1] = (uint8_t)(port - 49);
    p.routes[255 * CP_ROUTE_STRIDE + 64 - port] = (uint8_t)port;
    if (port % 2 == 1) p.routes[(port - 49) / 2] = (uint8_t)port;
  }
  p.periods[0] = 50000;
  p.periods[255] = 40000;
  p.counts[0] = 2;
  p.counts[255] = 3;
  p.lengths[0] = 100;
  p.lengths[255] = 200;
  p.jitters[255] = 25000;
  p.hops[0] = 8;
  p.hops[255] = 16;
  return p;
}

/* At 100,000 ns frames are counted over 100,012: flow 1 brings 2 x 3, flow 256 3 x 4 of them. */
static int64_t long_route_spare(size_t port, int64_t first, int64_t last) {
  int64_t extra = (int64_t)port - 49, bits = 12 * 8 * (last + 20 + extra);
  if (port % 2 == 1) bits += 6 * 8 * (first + 20 + extra);
  if (port == 64) bits += 8 * (2000 + 20 + extra);
  return 1000 * (100000 - 1000) - 1000 * bits;
}

static void long_routes(void) {
  cp_planner p = planner_of_long_routes();
  int64_t want[LIST];
  for (size_t port = 49; port <= 64; port++)
    same_slack("cp_slack of the longest route", cp_slack(&p, port, 100000), 0, long_route_spare(port, 100, 200));
  for (size_t at = 0; at < LIST; at++)
    want[at] = at >= 48 && at < 64 ? long_route_spare(at + 1, 100, 2000) : -1000 - (int64_t)at;
  repriced("cp_reprice of the longest route", p, 100000, 256, 2000, LIST, 0, want);
  repriced("cp_reprice of the longest route, 64 numbers lent", p, 100000, 256, 2000, 64, 0, want);
  for (size_t at = 0; at < LIST; at++)
    want[at] = at >= 48 && at < 64 && at % 2 == 0 ? long_route_spare(at + 1, 64, 200) : -1000 - (int64_t)at;
  repriced("cp_reprice of every other port", p, 100000, 1, 64, LIST, 0, want);
  repriced("cp_reprice of a flow between them", p, 100000, 255, 64, LIST, 29, want);
}

static void repricing(cp_planner empty, cp_planner k) {
  static const reprice_row of_k[] = {
      {100000, 1, 230, LIST, 0, 2800000},
      {100000, 1, 231, LIST, 0, 2792000},
      {100000, 1, 231, 64, 0, 2792000},
      {100000, 2, 705, LIST, 0, 2000000},
      {120000, 2, 500, LIST, 0, -520000},
      {100000, 2, 64, LIST, 0, 7128000},
      {100000, 2, 2000, LIST, 0, -8360000},
      {0, 0, 0, 0, 10, 0},
      {1000001, 1, 231, LIST, 10, 0},
      {100000, 0, 0, 63, 11, 0},
      {100000, 1, 231, 0, 11, 0},
      {100000, 3, 63, LIST, 17, 0},
      {100000, 1, 2001, 64, 17, 0},
      {100000, 1, 65536 + 231, 64, 17, 0},
      {100000, 0, 231, LIST, 29, 0},
      {100000, 3, 231, LIST, 29, 0},
      {100000, 257, 231, LIST, 29, 0},
      {100000, UINT64_MAX, 231, LIST, 29, 0},
  };
  static const reprice_row no_plan[] = {{100000, 1, 231, LIST, 20, 0}, {0, 0, 0, 0, 20, 0}};
  rows_of("K", k, of_k, sizeof of_k / sizeof of_k[0]);
  rows_of("no plan", empty, no_plan, sizeof no_plan / sizeof no_plan[0]);
  long_routes();
}
