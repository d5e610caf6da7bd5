/* The writers of single fields: K put together from them in both forms, each field into buffers of every length, and each refusal in its
 * order. */
enum { MOST_NUMBERS = 5, MARKED = CP_MAX_FIELD + 8 };

/* A field by its tag, numbers and route. */
typedef struct { uint32_t tag, numbers[MOST_NUMBERS]; size_t hops; uint8_t route[32]; } given_field;

static cp_answer written(const given_field *f, uint8_t *buffer, size_t room) {
  const uint32_t *n = f->numbers;
  switch (f->tag) {
    case 1: return cp_write_header(n[0], n[1], buffer, room);
    case 2: return cp_write_port(n[0], n[1], n[2], buffer, room);
    case 3: return cp_write_flow(n[0], n[1], n[2], n[3], f->route, f->hops, buffer, room);
    case 4: return cp_write_extra(n[0], n[1], buffer, room);
    case 5: return cp_write_jitter(n[0], n[1], buffer, room);
    case 6: return cp_write_clocks(n[0], n[1], n[2], buffer, room);
    case 0x11: return cp_write_header2(n[0], n[1], n[2], n[3], n[4], buffer, room);
    case 0x12: return cp_write_port2(n[0], n[1], n[2], n[3], buffer, room);
    default: return cp_write_flow2(n[0], n[1], n[2], n[3], n[4], f->route, f->hops, buffer, room);
  }
}

/* A field into so many bytes of a buffer whose bytes were 128 + position: its first ones become the field, or nothing changes. */
static void wrote(const char *field, const given_field *f, size_t room, cp_answer want, const uint8_t *bytes) {
  uint8_t buffer[MARKED];
  char call[96];
  size_t length = want.refusal == 0 ? (size_t)want.first : 0;
  for (size_t at = 0; at < MARKED; at++) buffer[at] = (uint8_t)(128 + at);
  snprintf(call, sizeof call, "%s, %zu bytes lent", field, room);
  same_answer(call, written(f, buffer, room), want);
  for (size_t at = 0; at < MARKED; at++) same_slot(call, "buffer", at, buffer[at], at < length ? bytes[at] : 128 + at);
}

/* Buffers of every length, from none on. */
static void writes(const char *field, given_field f, const uint8_t *bytes, size_t needed) {
  for (size_t room = 0; room <= MARKED; room++) wrote(field, &f, room, answer(room < needed ? 13 : 0, needed, 0), bytes);
  same_answer(field, written(&f, NULL, 0), answer(13, needed, 0));
}

/* Refused whatever room there is, also where there is none for the field. */
static void refuses(const char *field, given_field f, uint32_t refusal) {
  for (size_t room = 0; room <= MARKED; room++) wrote(field, &f, room, answer(refusal, 0, 0), NULL);
  same_answer(field, written(&f, NULL, 0), answer(refusal, 0, 0));
}

/* Fields one behind the other, each into what remains, are the plan; a buffer with a byte less has no room for the last. */
static void put_together(const char *plan, const given_field *fields, const uint8_t *bytes, size_t length) {
  uint8_t buffer[BUFFER];
  size_t at = 0, last = 0;
  memset(buffer, 0xA5, sizeof buffer);
  for (size_t i = 0; i < 4; i++) {
    cp_answer wrote = written(&fields[i], buffer + at, length - at);
    same(plan, "refusal", wrote.refusal, 0);
    last = at;
    at += (size_t)wrote.first;
  }
  same(plan, "length", at, length);
  for (size_t i = 0; i < BUFFER; i++) same_slot(plan, "buffer", i, buffer[i], i < length ? bytes[i] : 0xA5);
  same_answer(plan, written(&fields[3], buffer + last, length - last - 1), answer(13, length - last, 0));
}

static void k_put_together(void) {
  static const given_field older[] = {
      {1, {1000, 1000000}, 0, {0}}, {2, {1, 100, 0}, 0, {0}}, {3, {1, 100000, 1, 230}, 1, {1}}, {3, {2, 110000, 1, 605}, 1, {1}}};
  static const given_field newer[] = {{0x11, {1000, 1000000, 0, 0, 0}, 0, {0}},
                                      {0x12, {1, 100, 0, 0}, 0, {0}},
                                      {0x13, {1, 100000, 1, 230, 0}, 1, {1}},
                                      {0x13, {2, 110000, 1, 605, 0}, 1, {1}}};
  put_together("K from its fields", older, K, sizeof K);
  put_together("K in the newer form from its fields", newer, K_NEWER, sizeof K_NEWER);
  writes("cp_write_header of K", older[0], K, PORT_AT);
  writes("cp_write_port of K", older[1], K + PORT_AT, FLOW_1_AT - PORT_AT);
  writes("cp_write_flow of K's flow 2", older[3], K + FLOW_2_AT, sizeof K - FLOW_2_AT);
  writes("cp_write_header2 of K", newer[0], K_NEWER, NEWER_PORT_AT);
  writes("cp_write_port2 of K", newer[1], K_NEWER + NEWER_PORT_AT, NEWER_FLOW_1_AT - NEWER_PORT_AT);
  writes("cp_write_flow2 of K's flow 2", newer[3], K_NEWER + NEWER_FLOW_2_AT, sizeof K_NEWER - NEWER_FLOW_2_AT);
}

/* Fields in which every number and every byte of it differs from the others. */
static void every_number(void) {
  static const uint8_t port[] = {0x02, 0, 8, 0, 0x40, 0x00, 0x01, 0x86, 0x9F, 0x07, 0xCF};
  static const uint8_t extra[] = {0x04, 0, 4, 0, 0x3F, 0, 0x3E};
  static const uint8_t jitter[] = {0x05, 0, 6, 0x01, 0x00, 0x00, 0x98, 0x96, 0x7F};
  static const uint8_t clocks[] = {0x06, 0, 12, 0, 0, 0x03, 0xE8, 0, 0, 0x03, 0xE7, 0, 0x0F, 0x42, 0x3F};
  static const uint8_t flow[] = {0x03, 0, 14, 0x01, 0x00, 0x05, 0xF5, 0xE0, 0xFE, 0, 0x3F, 0x07, 0xCE, 0, 0x40, 0, 0x3D};
  static const uint8_t header2[] = {0x11, 0,    20,   0, 0x0F, 0x42, 0x3E, 0x05, 0xF5, 0xE0, 0xFD, 0,
                                    0,    0x03, 0xE6, 0, 0,    0x03, 0xE5, 0,    0x0F, 0x42, 0x3D};
  static const uint8_t port2[] = {0x12, 0, 10, 0, 0x3C, 0, 0x01, 0x86, 0x9E, 0x07, 0xCD, 0, 0x3B};
  static const uint8_t flow2[] = {0x13, 0,    18,   0, 0xFF, 0x05, 0xF5, 0xE0, 0xFC, 0, 0x3A,
                                  0x07, 0xCC, 0x00, 0x98, 0x96, 0x7E, 0,    0x39, 0,    0x38};
  writes("cp_write_port", (given_field){2, {64, 99999, 1999}, 0, {0}}, port, sizeof port);
  writes("cp_write_extra", (given_field){4, {63, 62}, 0, {0}}, extra, sizeof extra);
  writes("cp_write_jitter", (given_field){5, {256, 9999999}, 0, {0}}, jitter, sizeof jitter);
  writes("cp_write_clocks", (given_field){6, {1000, 999, 999999}, 0, {0}}, clocks, sizeof clocks);
  writes("cp_write_flow", (given_field){3, {256, 99999998, 63, 1998}, 2, {64, 61}}, flow, sizeof flow);
  writes("cp_write_header2", (given_field){0x11, {999998, 99999997, 998, 997, 999997}, 0, {0}}, header2, sizeof header2);
  writes("cp_write_port2", (given_field){0x12, {60, 99998, 1997, 59}, 0, {0}}, port2, sizeof port2);
  writes("cp_write_flow2", (given_field){0x13, {255, 99999996, 58, 1996, 9999998}, 2, {57, 56}}, flow2, sizeof flow2);
}

/* A field that is good, and numbers that one of its own may not be. */
typedef struct { uint32_t tag, numbers[MOST_NUMBERS], which, bad[3]; } bad_field;

/* Each number just out of its range at either end; and wider than its 2 bytes, where a cut one would be in range. */
static const bad_field BAD_FIELDS[] = {
    {1, {1000, 1000000}, 0, {1000001, 16778216, UINT32_MAX}},
    {1, {1000, 1000000}, 1, {0, 100000001, UINT32_MAX}},
    {2, {1, 100, 0}, 0, {0, 65, 65537}},
    {2, {1, 100, 0}, 1, {0, 100001, UINT32_MAX}},
    {2, {1, 100, 0}, 2, {63, 2001, 65536}},
    {3, {1, 100000, 1, 230}, 0, {0, 257, 65537}},
    {3, {1, 100000, 1, 230}, 1, {999, 100000001, UINT32_MAX}},
    {3, {1, 100000, 1, 230}, 2, {0, 65, 65537}},
    {3, {1, 100000, 1, 230}, 3, {63, 2001, 65766}},
    {4, {1, 1}, 0, {0, 65, 65537}},
    {4, {1, 1}, 1, {65, 65536, UINT32_MAX}},
    {5, {1, 1}, 0, {0, 257, 65537}},
    {5, {1, 1}, 1, {10000001, 16777216, UINT32_MAX}},
    {6, {1, 1, 1}, 0, {1001, 65536, UINT32_MAX}},
    {6, {1, 1, 1}, 1, {1001, 65536, UINT32_MAX}},
    {6, {1, 1, 1}, 2, {1000001, 16777216, UINT32_MAX}},
    {0x11, {0, 1, 0, 0, 0}, 0, {1000001, 16777216, UINT32_MAX}},
    {0x11, {0, 1, 0, 0, 0}, 1, {0, 100000001, UINT32_MAX}},
    {0x11, {0, 1, 0, 0, 0}, 2, {1001, 65536, UINT32_MAX}},
    {0x11, {0, 1, 0, 0, 0}, 3, {1001, 65536, UINT32_MAX}},
    {0x11, {0, 1, 0, 0, 0}, 4, {1000001, 16777216, UINT32_MAX}},
    {0x12, {1, 100, 64, 0}, 0, {0, 65, 65537}},
    {0x12, {1, 100, 64, 0}, 1, {0, 100001, UINT32_MAX}},
    {0x12, {1, 100, 64, 0}, 2, {63, 2001, 65600}},
    {0x12, {1, 100, 64, 0}, 3, {65, 65536, UINT32_MAX}},
    {0x13, {1, 100000, 1, 230, 0}, 0, {0, 257, 65537}},
    {0x13, {1, 100000, 1, 230, 0}, 1, {999, 100000001, UINT32_MAX}},
    {0x13, {1, 100000, 1, 230, 0}, 2, {0, 65, 65537}},
    {0x13, {1, 100000, 1, 230, 0}, 3, {63, 2001, 65766}},
    {0x13, {1, 100000, 1, 230, 0}, 4, {10000001, 16777216, UINT32_MAX}},
};

static void out_of_range(void) {
  for (size_t row = 0; row < sizeof BAD_FIELDS / sizeof BAD_FIELDS[0]; row++) {
    const bad_field *bad = &BAD_FIELDS[row];
    for (size_t i = 0; i < 3; i++) {
      char field[64];
      given_field f = {bad->tag, {0}, 1, {1}};
      memcpy(f.numbers, bad->numbers, sizeof f.numbers);
      f.numbers[bad->which] = bad->bad[i];
      snprintf(field, sizeof field, "tag %" PRIx32 ", number %" PRIu32 " is %" PRIu32, f.tag, bad->which, bad->bad[i]);
      refuses(field, f, 5);
    }
  }
}

/* Routes of as many ports as there may be and of one more, of none, and of a port twice; 4 before 5, 5 before 7, 7 before 13. */
static void routes(uint32_t tag, size_t most) {
  given_field f = {tag, {1, 100000, 1, 230, 0}, 0, {0}};
  uint8_t many[300];
  for (size_t hop = 0; hop < 32; hop++) f.route[hop] = (uint8_t)(hop + 1);
  for (size_t hop = 0; hop < sizeof many; hop++) many[hop] = (uint8_t)(hop % 64 + 1);
  refuses("a route of no port", f, 4);
  same_answer("cp_write_flow over null", cp_write_flow(1, 100000, 1, 230, NULL, 0, many, 300), answer(4, 0, 0));
  same_answer("cp_write_flow2 over null", cp_write_flow2(1, 100000, 1, 230, 0, NULL, 0, many, 300), answer(4, 0, 0));
  for (f.hops = most + 1; f.hops <= 32; f.hops++) refuses("a route of too many ports", f, 4);
  same_answer("cp_write_flow over 300 ports", cp_write_flow(1, 100000, 1, 230, many, 300, NULL, 0), answer(4, 0, 0));
  same_answer("cp_write_flow2 over 300 ports", cp_write_flow2(1, 100000, 1, 230, 0, many, 300, NULL, 0), answer(4, 0, 0));
  f.numbers[0] = 0;
  f.hops = most + 1;
  refuses("4 before 5", f, 4);
  f.hops = most;
  f.route[most - 1] = 1;
  refuses("5 before 7", f, 5);
  f.numbers[0] = 1;
  refuses("a port twice", f, 7);
  f.route[most - 1] = 65;
  refuses("port 65", f, 5);
  f.route[most - 1] = 0;
  refuses("port 0", f, 5);
  f.route[most - 1] = 64;
  same_answer("as many ports as there may be", written(&f, many, sizeof many), answer(0, (tag == 3 ? 13 : 17) + 2 * most, 0));
}

static void written_fields(void) {
  k_put_together();
  every_number();
  out_of_range();
  routes(3, 16);
  routes(0x13, 24);
}
