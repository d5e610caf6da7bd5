/* The bad emission of K at 120,000 ns, and what is refused. */
static void same_unsent(const char *call, cp_unsent_answer got, cp_unsent_answer want) {
  same(call, "refusal", got.refusal, want.refusal);
  same(call, "failing", got.failing, want.failing);
  same(call, "port", got.port, want.port);
  same(call, "cycle", got.cycle, want.cycle);
  same(call, "bits", got.bits, want.bits);
  same(call, "most", got.most, want.most);
}

static void same_burst(const char *call, cp_burst_answer got, cp_burst_answer want) {
  same(call, "refusal", got.refusal, want.refusal);
  same(call, "cycle", got.cycle, want.cycle);
  same(call, "frames", got.frames, want.frames);
  same(call, "instant", got.instant, want.instant);
}

static void emission(cp_planner empty, cp_planner k) {
  same_unsent("cp_unsent of K at 120,000", cp_unsent(&k, 120000), (cp_unsent_answer){0, 1, 1, 1, 14000, 11800});
  same_unsent("cp_unsent of K at 100,000", cp_unsent(&k, 100000), (cp_unsent_answer){0, 0, 0, 0, 0, 0});
  same_unsent("cp_unsent of K at 0", cp_unsent(&k, 0), (cp_unsent_answer){10, 0, 0, 0, 0, 0});
  same_unsent("cp_unsent without a plan", cp_unsent(&empty, 120000), (cp_unsent_answer){20, 0, 0, 0, 0, 0});
  same_burst("cp_burst of K, flow 1, frame 0", cp_burst(&k, 120000, 1, 1, 0), (cp_burst_answer){0, 0, 2, 0});
  same_burst("cp_burst of K, flow 1, frame 1", cp_burst(&k, 120000, 1, 1, 1), (cp_burst_answer){0, 0, 2, 100000});
  same_burst("cp_burst of K, flow 1, frame 2", cp_burst(&k, 120000, 1, 1, 2), (cp_burst_answer){0, 0, 2, CP_NO_INSTANT});
  same_burst("cp_burst of K, flow 2, frame 1", cp_burst(&k, 120000, 1, 2, 1), (cp_burst_answer){0, 0, 2, 110000});
  same_burst("cp_burst of K, port 0", cp_burst(&k, 120000, 0, 1, 0), (cp_burst_answer){24, 0, 0, 0});
  same_burst("cp_burst of K, flow 3", cp_burst(&k, 120000, 1, 3, 0), (cp_burst_answer){29, 0, 0, 0});
  same_burst("cp_burst of K above its top", cp_burst(&k, 1000001, 0, 0, 0), (cp_burst_answer){10, 0, 0, 0});
  same_burst("cp_burst without a plan", cp_burst(&empty, 0, 0, 0, 0), (cp_burst_answer){20, 0, 0, 0});
}
