/* K's gate control lists. */
enum { ENTRIES = 6, ENTRY_BYTES = 8 };

/* Gate states and an interval; one of 0 is left out. */
typedef struct { uint8_t states; uint32_t interval; } entry;

/* A duration, the even and the odd queue and the bytes lent, then the answer and the list. */
typedef struct { uint64_t duration, even, odd; size_t length; cp_answer want; entry list[ENTRIES]; } gates_row;

/* A list, as bytes, into the front of a buffer. */
static void listed(uint8_t *buffer, const entry *list) {
  for (size_t i = 0; i < ENTRIES; i++) {
    const uint8_t field[ENTRY_BYTES] = {0x21, 0x00, 0x05, list[i].states, (uint8_t)(list[i].interval >> 24),
                                        (uint8_t)(list[i].interval >> 16), (uint8_t)(list[i].interval >> 8), (uint8_t)list[i].interval};
    if (list[i].interval == 0) continue;
    memcpy(buffer, field, ENTRY_BYTES);
    buffer += ENTRY_BYTES;
  }
}

/* Each row on a buffer whose bytes were 200 + position: its first ones become the list, or nothing changes. */
static void gated(const char *plan, cp_planner planner, const gates_row *table, size_t count) {
  for (; count > 0; table++, count--) {
    uint8_t got[64], want[64];
    char call[128];
    for (size_t at = 0; at < sizeof got; at++) got[at] = want[at] = (uint8_t)(200 + at);
    if (table->want.refusal == 0) listed(want, table->list);
    snprintf(call, sizeof call, "cp_gates of %s at %" PRIu64 ", queues %" PRIu64 " and %" PRIu64 ", %zu bytes lent", plan,
             table->duration, table->even, table->odd, table->length);
    same_answer(call, cp_gates(&planner, table->duration, table->even, table->odd, got, table->length), table->want);
    for (size_t at = 0; at < sizeof got; at++) same_slot(call, "buffer", at, got[at], want[at]);
  }
}

static void gate_lists(cp_planner empty, cp_planner k) {
  static const gates_row of_k[] = {
      {100000, 2, 3, 48, {0, 48, 0}, {{0xF3, 1000}, {0xF7, 98000}, {0xF3, 1000}, {0xF3, 1000}, {0xFB, 98000}, {0xF3, 1000}}},
      {100000, 3, 2, 64, {0, 48, 0}, {{0xF3, 1000}, {0xFB, 98000}, {0xF3, 1000}, {0xF3, 1000}, {0xF7, 98000}, {0xF3, 1000}}},
      {72000, 0, 7, 49, {0, 48, 0}, {{0x7E, 1000}, {0x7F, 70000}, {0x7E, 1000}, {0x7E, 1000}, {0xFE, 70000}, {0x7E, 1000}}},
      {100000, 2, 3, 47, {13, 48, 0}, {{0, 0}}},
      {100000, 2, 3, 0, {13, 48, 0}, {{0, 0}}},
      {100000, 2, 2, 0, {18, 0, 0}, {{0, 0}}},
      {100000, 8, 3, 64, {18, 0, 0}, {{0, 0}}},
      {100000, 2, 8, 64, {18, 0, 0}, {{0, 0}}},
      {100000, UINT64_MAX, UINT64_MAX - 1, 64, {18, 0, 0}, {{0, 0}}},
      {120000, 2, 3, 64, {21, 1, 1}, {{0, 0}}},
      {120000, 8, 8, 0, {21, 1, 1}, {{0, 0}}},
      {0, 2, 3, 64, {10, 0, 0}, {{0, 0}}},
      {1000001, 8, 8, 0, {10, 0, 0}, {{0, 0}}},
  };
  static const gates_row unguarded[] = {
      {70000, 2, 3, 16, {0, 16, 0}, {{0xF7, 70000}, {0xFB, 70000}}},
      {70000, 2, 3, 64, {0, 16, 0}, {{0xF7, 70000}, {0xFB, 70000}}},
      {70000, 2, 3, 15, {13, 16, 0}, {{0, 0}}},
      {69999, 2, 3, 64, {21, 1, 1}, {{0, 0}}},
  };
  static const gates_row no_plan[] = {{100000, 2, 3, 64, {20, 0, 0}, {{0, 0}}}, {0, 8, 8, 0, {20, 0, 0}, {{0, 0}}}};
  gated("K", k, of_k, sizeof of_k / sizeof of_k[0]);
  gated("no plan", empty, no_plan, sizeof no_plan / sizeof no_plan[0]);
  k.guard = 0;
  gated("K without a guard band", k, unguarded, sizeof unguarded / sizeof unguarded[0]);
}
