/* A null pointer with length 0 in every call that takes a slice: it is an empty slice. */
static void no_plan_bytes(cp_planner k) {
  uint8_t buffer[BUFFER];
  cp_batch batch = cp_batch_empty();
  loaded("cp_load of null", k, NULL, 0, answer(1, 0, 0), k);
  loaded_by(cp_load_strict, "cp_load_strict of null", k, NULL, 0, answer(1, 0, 0), k);
  same_answer("cp_upgrade of null", cp_upgrade(NULL, 0, buffer, BUFFER), answer(1, 0, 0));
  same_answer("cp_downgrade of null", cp_downgrade(NULL, 0, buffer, BUFFER), answer(1, 0, 0));
  same_answer("cp_upgrade of null into null", cp_upgrade(NULL, 0, NULL, 0), answer(1, 0, 0));
  same_answer("cp_downgrade of null into null", cp_downgrade(NULL, 0, NULL, 0), answer(1, 0, 0));
  field_of("cp_field of null", NULL, 0, 0, (cp_field_read){.refusal = 2});
  field_of("cp_field of null at 7", NULL, 0, 7, (cp_field_read){.refusal = 2, .offset = 7});
  same("cp_repeats of null", "the answer", cp_repeats(3, NULL, 0), 0);
  same("cp_repeats of null, tag 0x13", "the answer", cp_repeats(0x13, NULL, 0), 0);
  placed("cp_batch_place of null", batch, 0, NULL, 0, answer(1, 0, 0));
}

static void nulls(cp_planner empty, cp_planner k) {
  cp_planner low = k;
  low.top = 50000;
  no_plan_bytes(k);
  same_answer("cp_least, null", cp_least(&k, NULL, 0), answer(11, 0, 0));
  same_answer("cp_margin_safe, null", cp_margin_safe(&k, NULL, 0), answer(11, 0, 0));
  same_answer("cp_lean_least, null", cp_lean_least(&k, NULL, 0), answer(11, 0, 0));
  same_answer("cp_lean_margin_safe, null", cp_lean_margin_safe(&k, NULL, 0), answer(11, 0, 0));
  same_answer("cp_least without a plan, null", cp_least(&empty, NULL, 0), answer(20, 0, 0));
  same_answer("cp_reprice, null", cp_reprice(&k, 100000, 1, 231, NULL, 0), answer(11, 0, 0));
  same_answer("cp_spans, null", cp_spans(&k, NULL, 0), answer(13, 2, 0));
  same_answer("cp_spans of K with top 50,000, null", cp_spans(&low, NULL, 0), answer(0, 0, 0));
  same_answer("cp_save, null", cp_save(&k, NULL, 0), answer(13, sizeof K, 0));
  same_answer("cp_gates, null", cp_gates(&k, 100000, 2, 3, NULL, 0), answer(13, 48, 0));
  same_answer("cp_upgrade, null", cp_upgrade(K, sizeof K, NULL, 0), answer(13, sizeof K_NEWER, 0));
  same_answer("cp_downgrade, null", cp_downgrade(K_NEWER, sizeof K_NEWER, NULL, 0), answer(13, sizeof K, 0));
}
