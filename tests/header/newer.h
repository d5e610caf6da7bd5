/* K in the newer form: held, saved and read field by field; planners of no form; the converters on K, on a route of seventeen ports and
 * on plans that they refuse. */
static const uint8_t K_NEWER[74] = {
    0x11, 0x00, 0x14, 0x00, 0x00, 0x03, 0xE8, 0x00, 0x0F, 0x42, 0x40, 0, 0, 0, 0, 0, 0, 0, 0, 0, 0, 0, 0,
    0x12, 0x00, 0x0A, 0x00, 0x01, 0x00, 0x00, 0x00, 0x64, 0x00, 0x00, 0x00, 0x00,
    0x13, 0x00, 0x10, 0x00, 0x01, 0x00, 0x01, 0x86, 0xA0, 0x00, 0x01, 0x00, 0xE6, 0, 0, 0, 0, 0x00, 0x01,
    0x13, 0x00, 0x10, 0x00, 0x02, 0x00, 0x01, 0xAD, 0xB0, 0x00, 0x01, 0x02, 0x5D, 0, 0, 0, 0, 0x00, 0x01,
};
/* Offsets in K_NEWER: the fields after the header. */
enum { NEWER_PORT_AT = 23, NEWER_FLOW_1_AT = 36, NEWER_FLOW_2_AT = 55 };

typedef cp_answer (*converter)(const uint8_t *plan, size_t length, uint8_t *buffer, size_t room);

/* A conversion into so many bytes of a buffer whose bytes were 128 + position: its first ones become the plan, or nothing changes. */
static void converted(const char *call, converter convert, const uint8_t *plan, size_t length, size_t room, cp_answer want,
                      const uint8_t *bytes) {
  uint8_t buffer[BUFFER];
  size_t written = want.refusal == 0 ? (size_t)want.first : 0;
  for (size_t at = 0; at < BUFFER; at++) buffer[at] = (uint8_t)(128 + at);
  same_answer(call, convert(plan, length, buffer, room), want);
  for (size_t at = 0; at < BUFFER; at++) same_slot(call, "buffer", at, buffer[at], at < written ? bytes[at] : 128 + at);
}

/* Buffers around the length needed, none and more. */
static void converted_to(const char *call, converter convert, const uint8_t *plan, size_t length, const uint8_t *bytes, size_t needed) {
  for (size_t room = needed - 2; room <= needed + 2; room++)
    converted(call, convert, plan, length, room, answer(room < needed ? 13 : 0, needed, 0), bytes);
  converted(call, convert, plan, length, 0, answer(13, needed, 0), bytes);
  converted(call, convert, plan, length, BUFFER, answer(0, needed, 0), bytes);
}

static void not_converted(const char *call, converter convert, const uint8_t *plan, size_t length, cp_answer want) {
  for (size_t room = 0; room <= BUFFER; room += 30) converted(call, convert, plan, length, room, want, plan);
}

/* Seventeen ports of 100 Mbit/s behind K's header, and a flow over all of them. */
static size_t seventeen_ports(uint8_t *plan) {
  size_t length = NEWER_PORT_AT;
  memcpy(plan, K_NEWER, NEWER_PORT_AT);
  for (uint8_t port = 1; port <= 17; port++, length += 13) {
    memcpy(plan + length, K_NEWER + NEWER_PORT_AT, 13);
    plan[length + 4] = port;
  }
  memcpy(plan + length, K_NEWER + NEWER_FLOW_1_AT, 17);
  plan[length + 2] = 14 + 2 * 17;
  for (uint8_t hop = 0; hop < 17; hop++) {
    plan[length + 17 + 2 * hop] = 0;
    plan[length + 18 + 2 * hop] = 17 - hop;
  }
  return length + 17 + 2 * 17;
}

static void converters(void) {
  static const size_t exchanged[] = {PORT_AT, FLOW_2_AT, 0, FLOW_1_AT};
  cp_planner held = cleared();
  uint8_t plan[320];
  size_t length = fields_of_k(plan, exchanged, 4);
  converted_to("cp_upgrade of K", cp_upgrade, K, sizeof K, K_NEWER, sizeof K_NEWER);
  converted_to("cp_upgrade of K in another order", cp_upgrade, plan, length, K_NEWER, sizeof K_NEWER);
  converted_to("cp_downgrade of K", cp_downgrade, K_NEWER, sizeof K_NEWER, K, sizeof K);
  not_converted("cp_upgrade of K in the newer form", cp_upgrade, K_NEWER, sizeof K_NEWER, answer(3, 0, 0));
  not_converted("cp_downgrade of K in the older form", cp_downgrade, K, sizeof K, answer(3, 0, 0));
  not_converted("cp_upgrade of 51 bytes of K", cp_upgrade, K, sizeof K - 1, answer(2, FLOW_2_AT, 0));
  not_converted("cp_downgrade of 73 bytes of K", cp_downgrade, K_NEWER, sizeof K_NEWER - 1, answer(2, NEWER_FLOW_2_AT, 0));
  memcpy(plan, K_NEWER + NEWER_PORT_AT, 13);
  memcpy(plan + 13, K_NEWER, NEWER_PORT_AT);
  memcpy(plan + NEWER_FLOW_1_AT, K_NEWER + NEWER_FLOW_1_AT, sizeof K_NEWER - NEWER_FLOW_1_AT);
  not_converted("cp_downgrade of K, its port first", cp_downgrade, plan, sizeof K_NEWER, answer(12, 13, 0));
  loaded("cp_load of K in the newer form, its port first", cleared(), plan, sizeof K_NEWER, answer(3, 0, 0), cleared());
  length = seventeen_ports(plan);
  not_converted("cp_downgrade of seventeen ports", cp_downgrade, plan, length, answer(16, 23 + 17 * 13, 0));
  same_answer("cp_load of seventeen ports", cp_load(&held, plan, length), answer(0, 17, 1));
  same_answer("cp_check of seventeen ports", cp_check(&held, 22000), answer(0, 0, 0));
  held.form = 0;
  same_answer("cp_check of seventeen ports, form 0", cp_check(&held, 22000), answer(20, 0, 0));
}

/* A jitter of 0x00070007, then ports 1 and 2, then 1 again: by the newer flow's tag and by numbers that count as the older one's. */
static void repeated(void) {
  static const uint8_t value[] = {0, 1, 0, 1, 0x86, 0xA0, 0, 1, 0, 0xE6, 0, 7, 0, 7, 0, 1, 0, 2, 0, 1};
  static const uint32_t others[] = {3, 0, 0x12, 0x14, 0x113, UINT32_MAX};
  same("cp_repeats of ports 1, 2, 1", "the answer", cp_repeats(0x13, value, 20), 1);
  same("cp_repeats of ports 1, 2", "the answer", cp_repeats(0x13, value, 18), 0);
  same("cp_repeats of flow 2", "the answer", cp_repeats(0x13, K_NEWER + NEWER_FLOW_2_AT + 3, 16), 0);
  for (size_t at = 0; at < sizeof others / sizeof others[0]; at++) {
    same("cp_repeats of ports 7, 7, 1, 2", "the answer", cp_repeats(others[at], value, 18), 1);
    same("cp_repeats of port 7", "the answer", cp_repeats(others[at], value, 12), 0);
  }
}

static void newer(cp_planner k) {
  cp_planner left = planner_of_k(), held;
  left.form = 1;
  held = loaded("cp_load of K in the newer form", k, K_NEWER, sizeof K_NEWER, answer(0, 1, 2), left);
  loaded_by(cp_load_strict, "cp_load_strict of K in the newer form", cleared(), K_NEWER, sizeof K_NEWER, answer(0, 1, 2), left);
  loaded("cp_load of 73 bytes of K in the newer form", k, K_NEWER, sizeof K_NEWER - 1, answer(2, NEWER_FLOW_2_AT, 0), k);
  rows_of_k(held);
  saved_as("K in the newer form", held, K_NEWER, sizeof K_NEWER, left);
  k = loaded("cp_load of K after K in the newer form", held, K, sizeof K, answer(0, 1, 2), planner_of_k());
  saved_as("K after K in the newer form", k, K, sizeof K, planner_of_k());
  held.form = 0;
  saved_as("K in the newer form, form 0", held, K, sizeof K, planner_of_k());
  held.form = 2;
  saved("K, form 2", held, BUFFER, answer(20, 0, 0), K);
  same_answer("cp_check of K, form 2", cp_check(&held, 0), answer(20, 0, 0));
  field_of("cp_field of the header", K_NEWER, sizeof K_NEWER, 0,
           (cp_field_read){.tag = 0x11, .offset = NEWER_PORT_AT, .numbers = {1000, 1000000}});
  field_of("cp_field of the port", K_NEWER, sizeof K_NEWER, NEWER_PORT_AT,
           (cp_field_read){.tag = 0x12, .offset = NEWER_FLOW_1_AT, .numbers = {1, 100}});
  field_of("cp_field of flow 2", K_NEWER, sizeof K_NEWER, NEWER_FLOW_2_AT,
           (cp_field_read){.tag = 0x13, .offset = sizeof K_NEWER, .numbers = {2, 110000, 1, 605, 0, 1}});
  repeated();
  converters();
}
