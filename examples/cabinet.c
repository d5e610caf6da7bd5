/* A cabinet that plans its own conveyor: it loads a plan, asks whether the builder's duration is admissible, shows the run of usable
 * durations there or next above, and writes the gate list of queues 2 and 3. Built with
 *     cc cabinet.c $(pkg-config --cflags --libs cycle_planner) -o cabinet
 * and run as: cabinet PLAN DURATION */
#include <cycle_planner.h>
#include <inttypes.h>
#include <stdio.h>
#include <stdlib.h>

enum { EVEN_QUEUE = 2, ODD_QUEUE = 3 };

static uint8_t plan[CP_MAX_PLAN + 1];
static cp_planner held; /* all 0: no plan is held */

/* One byte more than a plan may have is read: a longer file is then refused as too long. */
static size_t read_plan(const char *name) {
  FILE *file = fopen(name, "rb");
  if (file == NULL) {
    perror(name);
    exit(2);
  }
  size_t length = fread(plan, 1, sizeof plan, file);
  fclose(file);
  return length;
}

static int refused(const char *what, uint32_t refusal) {
  printf("%s: refusal %" PRIu32 ", %s\n", what, refusal, cp_refusal_text(refusal));
  return 1;
}

static int load(const char *name) {
  size_t length = read_plan(name);
  cp_answer answer = cp_load(&held, plan, length);
  if (answer.refusal != CP_OK) {
    printf("at byte %" PRIu64 " of the plan, ", answer.first);
    return refused(name, answer.refusal);
  }
  printf("%s: %" PRIu64 " ports, %" PRIu64 " flows\n", name, answer.first, answer.second);
  return 0;
}

/* The duration to use: the one asked for where it is admissible, else the first one above it that is. 0 where there is none. */
static uint64_t usable(uint64_t duration) {
  cp_answer check = cp_check(&held, duration);
  if (check.refusal == CP_OK) printf("%" PRIu64 " ns: admissible\n", duration);
  if (check.refusal == CP_NOT_ADMISSIBLE) printf("port %" PRIu64 " fails, %" PRIu64 " in all; ", check.first, check.second);
  if (check.refusal != CP_OK) refused("the duration", check.refusal);
  cp_answer span = cp_span(&held, duration);
  if (span.refusal != CP_OK) {
    if (span.refusal != check.refusal) refused("the next span", span.refusal);
    return 0;
  }
  printf("usable: %" PRIu64 " to %" PRIu64 " ns\n", span.first, span.second);
  return check.refusal == CP_OK ? duration : span.first;
}

static int write_gates(uint64_t duration) {
  uint8_t list[CP_MAX_GATES];
  cp_answer gates = cp_gates(&held, duration, EVEN_QUEUE, ODD_QUEUE, list, sizeof list);
  if (gates.refusal != CP_OK) return refused("the gate list", gates.refusal);
  printf("gate list for %" PRIu64 " ns:\n", duration);
  for (uint64_t at = 0; at < gates.first; at += 8) { /* tag, length 5, states, interval */
    uint32_t interval = (uint32_t)list[at + 4] << 24 | (uint32_t)list[at + 5] << 16 | (uint32_t)list[at + 6] << 8 | list[at + 7];
    printf("  states %02x for %" PRIu32 " ns\n", list[at + 3], interval);
  }
  return 0;
}

int main(int count, char **words) {
  if (count != 3) {
    fputs("cabinet PLAN DURATION\n", stderr);
    return 2;
  }
  if (load(words[1]) != 0) return 1;
  uint64_t duration = usable(strtoull(words[2], NULL, 10));
  return duration == 0 ? 1 : write_gates(duration);
}
