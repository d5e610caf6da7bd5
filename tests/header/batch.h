/* A batch on K, on K with a blocker, and on a plan that takes 40 steps: what each call answers and leaves. */

/* Guard 1, top 40,000, a port of 1,000 Mbit/s and a flow of 105 bytes every 1,000 ns: 40 steps, and then 22. */
static const uint8_t FULL[] = {
    0x01, 0x00, 0x08, 0x00, 0x00, 0x00, 0x01, 0x00, 0x00, 0x9C, 0x40,
    0x02, 0x00, 0x08, 0x00, 0x01, 0x00, 0x00, 0x03, 0xE8, 0x00, 0x00,
    0x03, 0x00, 0x0C, 0x00, 0x01, 0x00, 0x00, 0x03, 0xE8, 0x00, 0x01, 0x00, 0x69, 0x00, 0x01,
};

/* A slot's numbers; its tables are compared where it has a plan. */
static void same_held(const char *call, cp_slot got, uint32_t state, uint64_t duration, uint64_t steps) {
  same(call, "state", got.state, state);
  if (state == 0) return;
  same(call, "duration reached", got.duration, duration);
  same(call, "steps used", got.steps, steps);
}

static cp_batch placed(const char *call, cp_batch batch, uint64_t slot, const uint8_t *plan, size_t length, cp_answer want) {
  cp_place_outcome got = cp_batch_place(batch, slot, plan, length);
  same_answer(call, got.answer, want);
  same(call, "next", got.batch.next, batch.next);
  if (want.refusal != 0) same(call, "the batch changed", memcmp(&got.batch, &batch, sizeof batch) != 0, 0);
  return got.batch;
}

static cp_batch served(const char *call, cp_batch batch, uint64_t slot) {
  cp_serve_outcome got = cp_batch_serve(batch);
  same(call, "slot", got.slot, slot);
  same(call, "next", got.batch.next, slot == 8 ? batch.next : (slot + 1) % 8);
  if (slot == 8) same(call, "the batch changed", memcmp(&got.batch, &batch, sizeof batch) != 0, 0);
  return got.batch;
}

static cp_batch collected(const char *call, cp_batch batch, uint64_t slot, cp_answer want, uint64_t steps) {
  cp_collect_outcome got = cp_batch_collect(batch, slot);
  same_steps(call, got.answer, want, steps);
  same(call, "next", got.batch.next, batch.next);
  if (want.refusal == 15 || want.refusal == 28) same(call, "the batch changed", memcmp(&got.batch, &batch, sizeof batch) != 0, 0);
  return got.batch;
}

/* K in slot 6, the plan of 40 steps in slot 1. */
static void two_plans(void) {
  cp_batch batch = cp_batch_empty();
  for (size_t slot = 0; slot < 8; slot++) same_held("cp_batch_empty", batch.slots[slot], 0, 0, 0);
  same("cp_batch_empty", "next", batch.next, 0);
  batch = served("a turn of no plan", batch, 8);
  batch = placed("placing in slot 8", batch, 8, K, sizeof K, answer(15, 0, 0));
  batch = placed("placing 51 bytes of K", batch, 6, K, sizeof K - 1, answer(2, FLOW_2_AT, 0));
  batch = placed("placing K", batch, 6, K, sizeof K, answer(0, 1, 2));
  same_held("placing K", batch.slots[6], 1, 1, 0);
  same_planner("placing K", batch.slots[6].planner, planner_of_k());
  batch = placed("placing 51 bytes where K is", batch, 6, K, sizeof K - 1, answer(27, 0, 0));
  batch = placed("placing the plan of 40 steps", batch, 1, FULL, sizeof FULL, answer(0, 1, 1));
  batch = collected("collecting K before its turn", batch, 6, answer(28, 0, 0), 0);
  batch = collected("collecting from slot 8", batch, 8, answer(15, 0, 0), 0);
  batch = served("turn 1", batch, 1);
  same_held("turn 1", batch.slots[1], 1, 16002, 16);
  batch = served("turn 2", batch, 6);
  same_held("turn 2", batch.slots[6], 2, 72000, 2);
  batch = placed("placing where an answer is", batch, 6, K, sizeof K, answer(27, 0, 0));
  batch = collected("collecting K", batch, 6, answer(0, 72000, 0), 2);
  same_held("collecting K", batch.slots[6], 0, 0, 0);
  batch = collected("collecting K again", batch, 6, answer(28, 0, 0), 0);
  batch = served("turn 3", batch, 1);
  same_held("turn 3", batch.slots[1], 1, 32002, 32);
  batch = served("turn 4", batch, 1);
  batch = served("a turn with none unfinished", batch, 8);
  batch = collected("collecting 22", batch, 1, answer(22, 1, 1), 40);
  batch = placed("placing in a slot used before", batch, 1, K, sizeof K, answer(0, 1, 2));
  batch = served("turn 5", batch, 1);
  collected("collecting from a slot used before", batch, 1, answer(0, 72000, 0), 2);
}

/* Eight times the plan of 40 steps: slot 7 ends with turn 24. */
static void eight_plans(void) {
  cp_batch batch = cp_batch_empty();
  for (uint64_t slot = 0; slot < 8; slot++) batch = placed("placing eight times", batch, slot, FULL, sizeof FULL, answer(0, 1, 1));
  for (uint64_t turn = 0; turn < 24; turn++) {
    same("eight plans", "slot 7 is unfinished", batch.slots[7].state, 1);
    batch = served("eight plans", batch, turn % 8);
  }
  for (uint64_t slot = 0; slot < 8; slot++) batch = collected("collecting eight times", batch, slot, answer(22, 1, 1), 40);
  served("a turn of no plan left", batch, 8);
}

/* Batches that no call made. */
static void foreign(void) {
  cp_batch batch = cp_batch_empty();
  batch.next = UINT64_MAX;
  batch.slots[7].state = 1;
  batch.slots[7].duration = 5;
  batch = served("tables that are not valid", batch, 7);
  collected("tables that are not valid", batch, 7, answer(20, 0, 0), 0);
  batch.slots[7].planner = planner_of_k();
  batch.slots[7].state = 1;
  batch.slots[7].duration = 1000001;
  batch.slots[7].steps = 1000000;
  batch = served("a duration above top", batch, 7);
  collected("a duration above top", batch, 7, answer(10, 0, 0), 0);
  batch.slots[7].state = 1;
  batch.slots[7].duration = batch.slots[7].steps = 5;
  served("as many steps as the duration", batch, 8);
  batch.slots[7].state = 6;
  placed("a state that is none", batch, 7, K, sizeof K, answer(0, 1, 2));
}

static void batches(void) {
  two_plans();
  eight_plans();
  foreign();
}
