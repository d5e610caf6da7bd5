/* K with the fields of document 02. */
/* K and then so many bytes of a field for extra bytes at port 1 (tag 4). */
static cp_planner lengthened(const char *call, cp_planner before, uint8_t extra, size_t bytes, cp_answer want, cp_planner left) {
  const uint8_t field[] = {0x04, 0x00, 0x04, 0x00, 0x01, 0x00, extra};
  uint8_t plan[sizeof K + sizeof field];
  memcpy(plan, K, sizeof K);
  memcpy(plan + sizeof K, field, sizeof field);
  return loaded(call, before, plan, sizeof K + bytes, want, left);
}

static void extra_bytes(cp_planner k) {
  static const row table[] = {
      {77119, 21, -100},      {77120, 0, 0},         {110000, 0, 1032000},   {110001, 21, -4223900}, {152239, 21, -100},
      {152240, 0, 0},         {220000, 0, 4520000},  {220001, 21, -735900},  {227359, 21, -100},     {227360, 0, 0},
      {1000000, 0, 24680000}, {1000, 21, -7512000},  {0, 10, 0},             {1000001, 10, 0},
  };
  cp_planner left = planner_of_k();
  left.extras[0] = 32;
  k = lengthened("cp_load of K with 32 extra bytes", k, 32, 7, answer(0, 1, 2), left);
  rows("K with 32 extra bytes", k, table, sizeof table / sizeof table[0]);
  searched("cp_least of K with 32 extra bytes", cp_least, k, SCRATCH, answer(0, 77120, 0), 7512);
  searched("cp_margin_safe of K with 32 extra bytes", cp_margin_safe, k, SCRATCH, answer(0, 227360, 0), 22536);
  k = lengthened("cp_load of K with 65 extra bytes", k, 65, 7, answer(5, sizeof K, 0), left);
  k = lengthened("cp_load of K with extra bytes cut short", k, 32, 6, answer(2, sizeof K, 0), left);
  lengthened("cp_load of K with 0 extra bytes", k, 0, 7, answer(0, 1, 2), planner_of_k());
  left.extras[1] = 1;
  same_answer("cp_check, extra bytes at an absent port", cp_check(&left, 77120), answer(20, 0, 0));
  left = planner_of_k();
  left.extras[0] = 65;
  same_answer("cp_check, 65 extra bytes", cp_check(&left, 1000000), answer(20, 0, 0));
}

/* K and then so many bytes of a field for the jitter of a flow (tag 5). */
static cp_planner late(const char *call, cp_planner before, uint16_t flow, uint32_t jitter, size_t bytes, cp_answer want,
                       cp_planner left) {
  const uint8_t field[] = {0x05, 0x00, 0x06, (uint8_t)(flow >> 8), (uint8_t)flow, (uint8_t)(jitter >> 24),
                           (uint8_t)(jitter >> 16), (uint8_t)(jitter >> 8), (uint8_t)jitter};
  uint8_t plan[sizeof K + sizeof field];
  memcpy(plan, K, sizeof K);
  memcpy(plan + sizeof K, field, sizeof field);
  return loaded(call, before, plan, sizeof K + bytes, want, left);
}

static void jitter(cp_planner k) {
  static const row flow_1[] = {
      {70000, 21, -200000},  {70001, 21, -2199900},  {91999, 21, -100},    {92000, 0, 0},         {110000, 0, 1800000},
      {110001, 21, -3199900}, {141999, 21, -100},    {142000, 0, 0},       {170000, 0, 2800000}, {170001, 0, 800100},
      {220001, 0, 800100},   {1000, 21, -7000000},   {0, 10, 0},           {1000001, 10, 0},
  };
  static const row flow_2[] = {
      {71999, 21, -100},     {72000, 0, 0},          {72001, 21, -4999900}, {100000, 21, -2200000}, {141999, 21, -100},
      {142000, 0, 0},        {182000, 0, 4000000},   {182001, 21, -999900}, {191999, 21, -100},     {192000, 0, 0},
      {200000, 0, 800000},   {200001, 21, -1199900}, {211999, 21, -100},    {212000, 0, 0},
  };
  cp_planner left = planner_of_k();
  left.jitters[0] = 30000;
  k = late("cp_load of K with jitter 30,000", k, 1, 30000, 9, answer(0, 1, 2), left);
  rows("K with jitter 30,000", k, flow_1, sizeof flow_1 / sizeof flow_1[0]);
  searched("cp_least of K with jitter 30,000", cp_least, k, SCRATCH, answer(0, 92000, 0), 9000);
  searched("cp_margin_safe of K with jitter 30,000", cp_margin_safe, k, SCRATCH, answer(0, 142000, 0), 14000);
  left = planner_of_k();
  left.jitters[1] = 38000;
  k = late("cp_load of K with jitter 38,000", k, 2, 38000, 9, answer(0, 1, 2), left);
  rows("K with jitter 38,000", k, flow_2, sizeof flow_2 / sizeof flow_2[0]);
  searched("cp_least of K with jitter 38,000", cp_least, k, SCRATCH, answer(0, 72000, 0), 7000);
  searched("cp_margin_safe of K with jitter 38,000", cp_margin_safe, k, SCRATCH, answer(0, 212000, 0), 21000);
  k = late("cp_load of K with jitter 10,000,001", k, 1, 10000001, 9, answer(5, sizeof K, 0), left);
  k = late("cp_load of K with jitter of flow 257", k, 257, 0, 9, answer(5, sizeof K, 0), left);
  k = late("cp_load of K with jitter of flow 3", k, 3, 0, 9, answer(9, sizeof K, 0), left);
  k = late("cp_load of K with jitter cut short", k, 2, 38000, 8, answer(2, sizeof K, 0), left);
  late("cp_load of K with jitter 0", k, 1, 0, 9, answer(0, 1, 2), planner_of_k());
  left.jitters[2] = 1;
  same_answer("cp_check, jitter of an absent flow", cp_check(&left, 72000), answer(20, 0, 0));
  left = planner_of_k();
  left.jitters[0] = 10000001;
  same_answer("cp_check, jitter 10,000,001", cp_check(&left, 1000000), answer(20, 0, 0));
}

/* K with 32 extra bytes at port 1 and jitter 30,000 for flow 1 where these are wanted, and then so many bytes of a field for clocks
 * (tag 6). */
static cp_planner apart(const char *call, cp_planner before, int with_both, const uint32_t *numbers, size_t bytes, cp_answer want,
                        cp_planner left) {
  static const uint8_t both[] = {0x04, 0x00, 0x04, 0x00, 0x01, 0x00, 0x20, 0x05, 0x00, 0x06, 0x00, 0x01, 0x00, 0x00, 0x75, 0x30};
  uint8_t plan[sizeof K + sizeof both + 15] = {0};
  size_t at = sizeof K;
  memcpy(plan, K, sizeof K);
  if (with_both) {
    memcpy(plan + at, both, sizeof both);
    at += sizeof both;
  }
  plan[at] = 0x06;
  plan[at + 2] = 0x0C;
  for (size_t byte = 0; byte < 12; byte++) plan[at + 3 + byte] = (uint8_t)(numbers[byte / 4] >> 8 * (3 - byte % 4));
  return loaded(call, before, plan, at + bytes, want, left);
}

static void clocks(cp_planner k) {
  static const row with_clocks[] = {
      {71999, 21, -100},    {72000, 0, 0},      {99988, 0, 2798800},  {99989, 0, 798900},   {109987, 0, 1798700},
      {109988, 21, -3201200}, {141999, 21, -100}, {142000, 0, 0},     {199978, 0, 5797800}, {199979, 0, 3797900},
      {219976, 0, 5797600}, {219977, 0, 797700}, {1000, 21, -7000000}, {0, 10, 0},          {1000001, 10, 0},
  };
  static const row with_all[] = {
      {99679, 21, -100},    {99680, 0, 0},         {109987, 0, 1030700}, {109988, 21, -4225200},
      {152239, 21, -100},   {152240, 0, 0},        {169981, 0, 1774100}, {169982, 21, -481800},
      {174799, 21, -100},   {174800, 0, 0},        {219976, 0, 4517600}, {219977, 21, -738300},
  };
  static const uint32_t paper[] = {100, 2, 1000}, error_only[] = {0, 0, 5000}, no_error[] = {1000, 1000, 0};
  static const uint32_t small_error[] = {1000, 1000, 5}, none[] = {0, 0, 0};
  static const uint32_t much_drift[] = {1001, 2, 1000}, much_jitter[] = {100, 1001, 1000}, much_error[] = {100, 2, 1000001};
  cp_planner left = planner_of_k();
  left.clock.drift = 100, left.clock.timing_jitter = 2, left.clock.sync_error = 1000;
  k = apart("cp_load of K with clocks", k, 0, paper, 15, answer(0, 1, 2), left);
  rows("K with clocks", k, with_clocks, sizeof with_clocks / sizeof with_clocks[0]);
  searched("cp_least of K with clocks", cp_least, k, SCRATCH, answer(0, 72000, 0), 7000);
  searched("cp_margin_safe of K with clocks", cp_margin_safe, k, SCRATCH, answer(0, 142000, 0), 14000);
  k = apart("cp_load of K with drift 1,001", k, 0, much_drift, 15, answer(5, sizeof K, 0), left);
  k = apart("cp_load of K with timing jitter 1,001", k, 0, much_jitter, 15, answer(5, sizeof K, 0), left);
  k = apart("cp_load of K with synchronization error 1,000,001", k, 0, much_error, 15, answer(5, sizeof K, 0), left);
  k = apart("cp_load of K with clocks cut short", k, 0, paper, 14, answer(2, sizeof K, 0), left);
  left.extras[0] = 32, left.jitters[0] = 30000;
  k = apart("cp_load of K with extra bytes, jitter and clocks", k, 1, paper, 15, answer(0, 1, 2), left);
  rows("K with extra bytes, jitter and clocks", k, with_all, sizeof with_all / sizeof with_all[0]);
  searched("cp_least of that", cp_least, k, SCRATCH, answer(0, 99680, 0), 9768);
  searched("cp_margin_safe of that", cp_margin_safe, k, SCRATCH, answer(0, 227360, 0), 22536);
  left = planner_of_k();
  left.clock.sync_error = 5000;
  k = apart("cp_load of K with clocks 0, 0, 5,000", k, 0, error_only, 15, answer(0, 1, 2), left);
  rows_of_k(k);
  left.clock.drift = left.clock.timing_jitter = 1000, left.clock.sync_error = 5;
  k = apart("cp_load of K with clocks 1,000, 1,000, 5", k, 0, small_error, 15, answer(0, 1, 2), left);
  same_answer("cp_check of that at 109,990", cp_check(&k, 109990), answer(0, 0, 0));
  same_answer("cp_check of that at 109,991", cp_check(&k, 109991), answer(21, 1, 1));
  left.clock.sync_error = 0;
  k = apart("cp_load of K with clocks 1,000, 1,000, 0", k, 0, no_error, 15, answer(0, 1, 2), left);
  rows_of_k(k);
  apart("cp_load of K with clocks of 0", k, 0, none, 15, answer(0, 1, 2), planner_of_k());
  left.clock.drift = 1001;
  same_answer("cp_check, drift 1,001", cp_check(&left, 1000000), answer(20, 0, 0));
}
