// The header in C++: calls, by C's linkage. Exit status 1 where the planner that holds no plan answers something else than 20, or a plan of
// no byte something else than 1.
#include "cycle_planner.h"

int main() {
  cp_planner planner;
  cp_clear(&planner);
  bool no_plan = cp_check(&planner, 72000).refusal == CP_NO_PLAN;
  bool no_byte = cp_load(&planner, nullptr, 0).refusal == CP_PLAN_SIZE;
  return no_plan && no_byte ? 0 : 1;
}
