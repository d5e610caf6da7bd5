/* K's fields in several orders, read strictly and loosely. */
/* Fields of K one after the other, each named by its offset there; the plan's length comes back. */
static size_t fields_of_k(uint8_t *plan, const size_t *offsets, size_t count) {
  size_t length = 0;
  for (; count > 0; offsets++, count--) {
    size_t bytes = *offsets < FLOW_1_AT ? 11 : 15;
    memcpy(plan + length, K + *offsets, bytes);
    length += bytes;
  }
  return length;
}

static void strict(cp_planner k) {
  static const size_t exchanged[] = {0, PORT_AT, FLOW_2_AT, FLOW_1_AT}, header_last[] = {PORT_AT, FLOW_1_AT, FLOW_2_AT, 0};
  static const size_t again[] = {0, PORT_AT, FLOW_1_AT, FLOW_2_AT, FLOW_1_AT}, no_port[] = {0, FLOW_1_AT, FLOW_2_AT};
  uint8_t plan[2 * sizeof K];
  size_t length;
  cp_planner left = planner_of_k();
  left.top = 71999;
  loaded_by(cp_load_strict, "cp_load_strict of K", cleared(), K, sizeof K, answer(0, 1, 2), planner_of_k());
  loaded_by(cp_load_strict, "cp_load_strict of K over another plan", left, K, sizeof K, answer(0, 1, 2), planner_of_k());
  loaded_by(cp_load_strict, "cp_load_strict of 51 bytes of K", left, K, sizeof K - 1, answer(2, FLOW_2_AT, 0), left);
  loaded_by(cp_load_strict, "cp_load_strict of nothing", left, K, 0, answer(1, 0, 0), left);
  length = fields_of_k(plan, exchanged, 4);
  left = loaded_by(cp_load_strict, "cp_load_strict of K, flows exchanged", left, plan, length, answer(12, 37, 0), left);
  searched("cp_least after 12", cp_least, left, SCRATCH, answer(22, 1, 1), 7000);
  loaded_by(cp_load_strict, "cp_load_strict of that without a plan", cleared(), plan, length, answer(12, 37, 0), cleared());
  rows_of_k(loaded("cp_load of K, flows exchanged", k, plan, length, answer(0, 1, 2), planner_of_k()));
  length = fields_of_k(plan, header_last, 4);
  loaded_by(cp_load_strict, "cp_load_strict of K, header last", left, plan, length, answer(12, 41, 0), left);
  length = fields_of_k(plan, again, 5);
  loaded_by(cp_load_strict, "cp_load_strict of K and flow 1 again", left, plan, length, answer(6, sizeof K, 0), left);
  length = fields_of_k(plan, no_port, 3);
  loaded_by(cp_load_strict, "cp_load_strict of K without its port", left, plan, length, answer(9, PORT_AT, 0), left);
}
