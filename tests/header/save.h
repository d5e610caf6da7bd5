/* K and its neighbours saved, and what is saved read strictly. */
/* Length of a buffer: a few bytes more than the longest plan here. */
enum { BUFFER = 120 };

/* Saving into so many bytes of a buffer whose bytes were 128 + position: its first ones become the plan, or nothing changes. */
static void saved(const char *plan, cp_planner planner, size_t length, cp_answer want, const uint8_t *bytes) {
  uint8_t buffer[BUFFER];
  char call[96];
  size_t written = want.refusal == 0 ? (size_t)want.first : 0;
  for (size_t at = 0; at < BUFFER; at++) buffer[at] = (uint8_t)(128 + at);
  snprintf(call, sizeof call, "cp_save of %s, %zu bytes lent", plan, length);
  same_answer(call, cp_save(&planner, buffer, length), want);
  for (size_t at = 0; at < BUFFER; at++) same_slot(call, "buffer", at, buffer[at], at < written ? bytes[at] : 128 + at);
}

/* Buffers around the length needed, none and more; then the strict reading of what is saved. */
static void saved_as(const char *plan, cp_planner planner, const uint8_t *bytes, size_t needed, cp_planner left) {
  uint8_t buffer[BUFFER];
  for (size_t length = needed - 2; length <= needed + 2; length++)
    saved(plan, planner, length, answer(length < needed ? 13 : 0, needed, 0), bytes);
  saved(plan, planner, 0, answer(13, needed, 0), bytes);
  saved(plan, planner, BUFFER, answer(0, needed, 0), bytes);
  if (cp_save(&planner, buffer, BUFFER).refusal != 0) return;
  loaded_by(cp_load_strict, "cp_load_strict of what is saved", cleared(), buffer, needed, answer(0, 1, 2), left);
}

/* What the plan in given bytes is saved as. */
static void saves(const char *plan, const uint8_t *given, size_t length, const uint8_t *bytes, size_t needed) {
  cp_planner held = cleared();
  same_answer(plan, cp_load(&held, given, length), answer(0, 1, 2));
  saved_as(plan, held, bytes, needed, held);
}

static void saving(cp_planner k) {
  static const size_t exchanged[] = {PORT_AT, FLOW_2_AT, 0, FLOW_1_AT};
  static const uint8_t later[] = {
      0x04, 0x00, 0x04, 0x00, 0x01, 0x00, 0x20, 0x05, 0x00, 0x06, 0x00, 0x02, 0x00, 0x98, 0x96, 0x80,
      0x06, 0x00, 0x0C, 0x00, 0x00, 0x00, 0x64, 0x00, 0x00, 0x00, 0x02, 0x00, 0x00, 0x03, 0xE8,
  };
  static const uint8_t zeros[] = {
      0x06, 0x00, 0x0C, 0, 0, 0, 0, 0, 0, 0, 0, 0, 0, 0, 0, 0x05, 0x00, 0x06, 0x00, 0x01, 0, 0, 0, 0,
      0x04, 0x00, 0x04, 0x00, 0x01, 0, 0,
  };
  uint8_t plan[sizeof K + sizeof later], in_order[sizeof K + sizeof later];
  size_t length = fields_of_k(plan, exchanged, 4);
  saves("K", K, sizeof K, K, sizeof K);
  saves("K in another order", plan, length, K, sizeof K);
  memcpy(in_order, K, sizeof K);
  memcpy(in_order + sizeof K, later, sizeof later);
  memcpy(plan, later, sizeof later);
  memcpy(plan + sizeof later, K, sizeof K);
  saves("K with every kind of field", in_order, sizeof in_order, in_order, sizeof in_order);
  saves("K behind every other kind of field", plan, sizeof plan, in_order, sizeof in_order);
  memcpy(plan, zeros, sizeof zeros);
  memcpy(plan + sizeof zeros, K, sizeof K);
  saves("K with fields of 0", plan, sizeof zeros + sizeof K, K, sizeof K);
  for (size_t length = 0; length <= BUFFER; length += 15) saved("no plan", cleared(), length, answer(20, 0, 0), K);
  for (size_t at = 0; at < sizeof k.routes; at++)
    if (at != 0 && at != CP_ROUTE_STRIDE) k.routes[at] = (uint8_t)(at * 7);
  saved_as("K, other ports behind its routes", k, K, sizeof K, planner_of_k());
  k.clock.drift = 1001;
  saved("K, drift 1,001", k, BUFFER, answer(20, 0, 0), K);
}
