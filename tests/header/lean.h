/* The two searches over a scratch of one number, on K and its neighbours. */
/* A scratch whose numbers were 1000 + position: the first becomes the demand, or nothing changes. */
static void lean(const char *call, search ask, cp_planner planner, size_t length, cp_answer want, uint64_t demand) {
  uint64_t scratch[SCRATCH];
  int writes = want.refusal != 11 && want.refusal != 20;
  for (size_t slot = 0; slot < SCRATCH; slot++) scratch[slot] = 1000 + slot;
  same_answer(call, ask(&planner, scratch, length), want);
  for (size_t slot = 0; slot < SCRATCH; slot++)
    same_slot(call, "scratch", slot, scratch[slot], writes && slot == 0 ? demand : 1000 + slot);
}

static void lean_searches(cp_planner empty, cp_planner k) {
  static const size_t lengths[] = {1, 2, 64};
  for (size_t i = 0; i < sizeof lengths / sizeof lengths[0]; i++) {
    lean("cp_lean_least of K", cp_lean_least, k, lengths[i], answer(0, 72000, 0), 7000);
    lean("cp_lean_margin_safe of K", cp_lean_margin_safe, k, lengths[i], answer(0, 142000, 0), 14000);
    lean("cp_lean_least without a plan", cp_lean_least, empty, lengths[i], answer(20, 0, 0), 0);
    lean("cp_lean_margin_safe without a plan", cp_lean_margin_safe, empty, lengths[i], answer(20, 0, 0), 0);
  }
  lean("cp_lean_least, an empty scratch", cp_lean_least, k, 0, answer(11, 0, 0), 0);
  lean("cp_lean_margin_safe, an empty scratch", cp_lean_margin_safe, k, 0, answer(11, 0, 0), 0);
  lean("cp_lean_least without a plan, an empty scratch", cp_lean_least, empty, 0, answer(20, 0, 0), 0);
  k.rates[1] = 1;
  k.blockings[1] = 2000;
  lean("cp_lean_least of K with port 2, not crossed", cp_lean_least, k, 1, answer(0, 72000, 0), 7000);
  k.hops[0] = 2;
  k.routes[1] = 2;
  k.rates[1] = 100;
  k.blockings[1] = 0;
  lean("cp_lean_least of K with flow 1 over port 2", cp_lean_least, k, 1, answer(0, 72000, 0), 2000);
  lean("cp_lean_margin_safe of K with flow 1 over port 2", cp_lean_margin_safe, k, 2, answer(0, 142000, 0), 4000);
  k = planner_of_k();
  k.top = 71999;
  lean("cp_lean_least of K with top 71,999", cp_lean_least, k, 1, answer(22, 1, 1), 7000);
  k.top = 120000;
  lean("cp_lean_margin_safe of K with top 120,000", cp_lean_margin_safe, k, 1, answer(23, 1, 1), 14000);
}
