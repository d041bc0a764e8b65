/* Tests of the archive through meter.h. Answers are worked out by hand from document 01 and CALLS.md.
 * Prints each failed check and, last, 'N passed, M failed', counted in tests. */
#include <inttypes.h>
#include <stdio.h>
#include <stdlib.h>
#include <string.h>

#include "meter.h"

/* One row and one entry above the limits, so that these can be passed too. */
enum { ROWS_ROOM = METER_ROWS_LIMIT + 1, LOG_ROOM = METER_LOG_LIMIT + 1 };

static uint32_t numbers[METER_NUMBERS];
static uint64_t serials[METER_SERIALS];
static uint32_t parents[ROWS_ROOM], crowns[METER_CROWN_NUMBERS * ROWS_ROOM];
static uint64_t amounts[ROWS_ROOM];
static uint32_t logged[METER_ENTRY_NUMBERS * LOG_ROOM];

static struct meter_table table = {numbers, serials, 0, parents, crowns, amounts, 0, logged};

static int failed_checks;

static void check(int holds, int line, const char *what) {
  if (!holds) {
    failed_checks++;
    printf("test.c:%d: not so: %s\n", line, what);
  }
}
#define CHECK(what) check((what), __LINE__, #what)

/* The arrays of a table, to run over all of them. */
struct part {
  void *at;
  size_t bytes;
};
enum { PARTS = 6 };

static void list_parts(struct part *parts) {
  const struct part all[PARTS] = {{numbers, sizeof numbers}, {serials, sizeof serials},
                                  {parents, 4 * table.rows}, {crowns, 4 * METER_CROWN_NUMBERS * table.rows},
                                  {amounts, 8 * table.rows}, {logged, 4 * METER_ENTRY_NUMBERS * table.entries}};
  memcpy(parts, all, sizeof all);
}

/* A fresh table. Rows and log are filled with something: a fresh table may hold anything there. */
static void fresh(size_t rows, size_t entries) {
  struct part parts[PARTS];
  table.rows = rows;
  table.entries = entries;
  list_parts(parts);
  for (int i = 0; i < PARTS; i++) memset(parts[i].at, i < 2 ? 0 : 0xA5, parts[i].bytes);
}

/* All lent memory as one block; the caller frees it. */
static unsigned char *copy_memory(size_t *bytes) {
  struct part parts[PARTS];
  list_parts(parts);
  *bytes = 0;
  for (int i = 0; i < PARTS; i++) *bytes += parts[i].bytes;
  unsigned char *copy = malloc(*bytes ? *bytes : 1);
  if (!copy) abort();
  unsigned char *to = copy;
  for (int i = 0; i < PARTS; i++) {
    memcpy(to, parts[i].at, parts[i].bytes);
    to += parts[i].bytes;
  }
  return copy;
}

/* Whether all lent memory is as in the copy, which is freed. */
static int still_as(unsigned char *copy) {
  size_t bytes;
  unsigned char *now = copy_memory(&bytes);
  int same = memcmp(copy, now, bytes) == 0;
  free(now);
  free(copy);
  return same;
}

static uint64_t answer[METER_ANSWER_NUMBERS];

/* Carries out one call into `answer`, and gives its number. */
static uint64_t ask(uint64_t code, uint64_t a, uint64_t b, uint64_t c) {
  uint64_t call[METER_CALL_NUMBERS];
  meter_put(call, code, a, b, c);
  CHECK(meter_ask(&table, call, answer) == METER_CARRIED_OUT);
  return answer[METER_ANSWER_NO];
}

static uint64_t new_key(uint32_t owner, uint64_t amount) { return ask(METER_CODE_NEW, owner, amount, 0); }
static uint64_t find(uint32_t key) { return ask(METER_CODE_FIND, key, 0, 0); }
static uint64_t join(uint32_t a, uint32_t b) { return ask(METER_CODE_JOIN, a, b, 0); }
static uint64_t post(uint32_t key, uint32_t owner, uint64_t amount) { return ask(METER_CODE_POST, key, owner, amount); }
static uint64_t snapshot(void) { return ask(METER_CODE_SNAPSHOT, 0, 0, 0); }
static uint64_t rollback(uint64_t token) { return ask(METER_CODE_ROLLBACK, token, 0, 0); }
static uint64_t commit(uint64_t token) { return ask(METER_CODE_COMMIT, token, 0, 0); }

static int answered(uint64_t no, uint64_t key, uint64_t token, uint64_t owner, uint64_t amount, uint64_t steps,
                    uint64_t yes, uint64_t from, uint64_t to) {
  const uint64_t wanted[METER_ANSWER_NUMBERS] = {no, key, token, owner, amount, steps, yes, from, to};
  return memcmp(answer, wanted, sizeof wanted) == 0;
}

/* A refusal that reports nothing and leaves everything as it is. */
#define REFUSED(number, asked)                         \
  do {                                                 \
    size_t bytes;                                      \
    unsigned char *before = copy_memory(&bytes);       \
    CHECK((asked) == (number));                        \
    CHECK(answered((number), 0, 0, 0, 0, 0, 0, 0, 0)); \
    CHECK(still_as(before));                           \
  } while (0)

static int row_is(uint32_t key, uint32_t parent, uint32_t rank, uint32_t owner, uint64_t amount) {
  const uint32_t *crown = meter_crown(&table, key);
  return parents[key] == parent && crown[METER_CROWN_RANK] == rank && crown[METER_CROWN_OWNER] == owner &&
         amounts[key] == amount;
}

static int entry_is(size_t at, uint32_t kind, uint32_t key, uint32_t parent, uint32_t rank, uint32_t owner,
                    uint64_t amount) {
  const uint32_t *entry = meter_entry(&table, at);
  return entry[METER_ENTRY_KIND] == kind && entry[METER_ENTRY_KEY] == key && entry[METER_ENTRY_PARENT] == parent &&
         entry[METER_ENTRY_RANK] == rank && entry[METER_ENTRY_OWNER] == owner && meter_entry_amount(entry) == amount;
}

/* Document 01's table T: amounts 1, 2, 4, 8, no owner, joined to one group. */
static void make_t(size_t rows, size_t entries) {
  fresh(rows, entries);
  for (uint32_t i = 0; i < 4; i++) new_key(0, 1u << i);
  join(0, 1);
  join(2, 3);
  join(0, 2);
}

static void example_1_first_join(void) {
  fresh(4, 0);
  new_key(0, 1);
  CHECK(answered(0, 0, 0, 0, 0, 0, 0, 0, 0));
  new_key(0, 2);
  CHECK(answered(0, 1, 0, 0, 0, 0, 0, 0, 0));
  CHECK(join(0, 1) == METER_DONE);
  CHECK(row_is(0, 1, 0, 0, 1));
  CHECK(row_is(1, 1, 1, 0, 3));
}

static void example_2_table_t(void) {
  make_t(4, 0);
  CHECK(answered(0, 0, 0, 0, 0, 2, 0, 0, 0));
  CHECK(parents[0] == 1 && parents[1] == 3 && parents[2] == 3);
  CHECK(row_is(3, 3, 2, 0, 15));
}

static void example_3_find_compresses(void) {
  make_t(4, 0);
  find(0);
  CHECK(answered(0, 3, 0, 0, 0, 2, 0, 0, 0));
  CHECK(parents[0] == 3);
  find(0);
  CHECK(answered(0, 3, 0, 0, 0, 1, 0, 0, 0));
}

static void example_4_join_of_equal_roots(void) {
  make_t(4, 0);
  join(0, 0);
  CHECK(answered(0, 0, 0, 0, 0, 3, 0, 0, 0));
  CHECK(amounts[3] == 15);
}

static void example_5_find_in_a_snapshot(void) {
  make_t(4, 4);
  CHECK(snapshot() == METER_DONE);
  CHECK(answered(0, 0, 1, 0, 0, 0, 0, 0, 0));
  CHECK(find(0) == METER_DONE);
  CHECK(numbers[METER_NUMBERS_USED] == 1 && parents[0] == 3);
  CHECK(entry_is(0, METER_KIND_CHANGED, 0, 1, 0, 0, 1));
  CHECK(rollback(1) == METER_DONE);
  CHECK(answered(0, 0, 0, 0, 0, 0, 0, 0, 0));
  CHECK(parents[0] == 1 && numbers[METER_NUMBERS_USED] == 0 && numbers[METER_NUMBERS_OPEN] == 0);
}

static void example_6_log_full(void) {
  make_t(4, 0);
  snapshot();
  REFUSED(METER_LOG_FULL, find(0));
  CHECK(parents[0] == 1);
  CHECK(find(1) == METER_DONE);
}

static void example_7_owner_clash(void) {
  make_t(5, 0);
  CHECK(post(3, 9, 0) == METER_DONE);
  new_key(7, 0);
  CHECK(join(0, 4) == METER_OWNER_CLASH);
  CHECK(answered(METER_OWNER_CLASH, 0, 0, 0, 0, 2, 0, 0, 0));
  CHECK(parents[0] == 3); /* the walk's rewrite stays */
  CHECK(row_is(4, 4, 0, 7, 0));
}

static void examples_8_and_9_sums(void) {
  fresh(4, 0);
  new_key(0, UINT32_MAX);
  new_key(0, 1);
  CHECK(join(0, 1) == METER_DONE);
  CHECK(amounts[1] == UINT64_C(4294967296));
  new_key(0, UINT64_MAX);
  CHECK(join(2, 0) == METER_TOO_MUCH);
  CHECK(answered(METER_TOO_MUCH, 0, 0, 0, 0, 1, 0, 0, 0));
  CHECK(row_is(2, 2, 0, 0, UINT64_MAX));
  CHECK(post(2, 0, 1) == METER_TOO_MUCH);
}

static void example_10_nested_snapshots(void) {
  fresh(1, 4);
  new_key(9, 5);
  snapshot();
  snapshot();
  CHECK(answered(0, 0, 2, 0, 0, 0, 0, 0, 0));
  CHECK(post(0, 9, 7) == METER_DONE && amounts[0] == 12);
  CHECK(commit(2) == METER_DONE && amounts[0] == 12);
  CHECK(numbers[METER_NUMBERS_USED] == 1); /* an inner commit keeps the entries */
  CHECK(rollback(1) == METER_DONE && amounts[0] == 5);
}

static void examples_11_and_12_old_tokens(void) {
  fresh(1, 1);
  REFUSED(METER_NOT_INNERMOST, rollback(0));
  snapshot();
  snapshot();
  REFUSED(METER_NOT_INNERMOST, rollback(1));
  REFUSED(METER_NOT_INNERMOST, commit(1));
  CHECK(rollback(2) == METER_DONE && rollback(1) == METER_DONE);
  snapshot();
  CHECK(answered(0, 0, 3, 0, 0, 0, 0, 0, 0)); /* serials are never taken back */
  REFUSED(METER_NOT_INNERMOST, rollback(1));
}

static void example_13_empty_table(void) {
  fresh(0, 0);
  REFUSED(METER_NO_KEY, find(0));
  REFUSED(METER_KEYS_FULL, new_key(0, 0));
}

static void example_14_room_for_a_join(void) {
  for (size_t room = 1; room <= 2; room++) {
    fresh(2, room);
    new_key(0, 1);
    new_key(0, 2);
    snapshot();
    if (room == 1) REFUSED(METER_LOG_FULL, join(0, 1));
    if (room == 2) CHECK(join(0, 1) == METER_DONE && numbers[METER_NUMBERS_USED] == 2);
  }
}

static void example_15_at_the_limits(void) {
  const uint32_t all = METER_ROWS_LIMIT;
  fresh(all, 0);
  for (uint32_t i = 0; i < all; i++) new_key(0, 1);
  /* The root of each pair of trees is the last key of its half. */
  for (uint32_t half = 1; half < all; half *= 2)
    for (uint32_t i = 0; i < all; i += 2 * half) join(i + half - 1, i + 2 * half - 1);
  CHECK(row_is(all - 1, all - 1, 16, 0, all));
  CHECK(find(0) == METER_DONE && answered(0, all - 1, 0, 0, 0, 16, 0, 0, 0));
  for (int i = 0; i < METER_SNAPSHOTS_LIMIT; i++) CHECK(snapshot() == METER_DONE);
  REFUSED(METER_TOO_DEEP, snapshot());
}

static void len_and_probes(void) {
  make_t(6, 0);
  new_key(7, 100);
  ask(METER_CODE_LEN, 0, 0, 0);
  CHECK(answered(0, 0, 0, 0, 0, 0, 0, 0, 5));
  ask(METER_CODE_PROBE, 1, 0, 0);
  CHECK(answered(0, 0, 0, 0, 15, 1, 0, 0, 0));
  ask(METER_CODE_PROBE_KEY, 0, 0, 0);
  CHECK(answered(0, 3, 0, 0, 15, 2, 0, 0, 0));
  ask(METER_CODE_TRY_PROBE, 4, 0, 0);
  CHECK(answered(0, 0, 0, 7, 100, 0, 1, 0, 0));
  ask(METER_CODE_TRY_PROBE, 0, 0, 0);
  CHECK(answered(0, 0, 0, 0, 0, 0, 0, 0, 0));
  ask(METER_CODE_UNIONED, 0, 2, 0);
  CHECK(answered(0, 0, 0, 0, 0, 2, 1, 0, 0));
  ask(METER_CODE_UNIONED, 4, 0, 0);
  CHECK(answered(0, 0, 0, 0, 0, 1, 0, 0, 0));
  REFUSED(METER_NO_KEY, ask(METER_CODE_PROBE, 5, 0, 0));
  REFUSED(METER_NO_KEY, ask(METER_CODE_UNIONED, 4, 5, 0));
  REFUSED(METER_NO_KEY, ask(METER_CODE_TRY_PROBE, UINT32_MAX, 0, 0));
}

static void since_a_snapshot(void) {
  make_t(8, 8);
  snapshot();
  ask(METER_CODE_CHANGES, 1, 0, 0);
  CHECK(answered(0, 0, 0, 0, 0, 0, 0, 0, 0));
  new_key(3, 30);
  snapshot();
  new_key(0, 40);
  ask(METER_CODE_KEYS, 1, 0, 0);
  CHECK(answered(0, 0, 0, 0, 0, 0, 0, 4, 6));
  ask(METER_CODE_KEYS, 2, 0, 0);
  CHECK(answered(0, 0, 0, 0, 0, 0, 0, 5, 6));
  ask(METER_CODE_ACTIONS, 2, 0, 0);
  CHECK(answered(0, 0, 0, 0, 0, 0, 0, 1, 2));
  CHECK(entry_is(1, METER_KIND_NEW, 5, 0, 0, 0, 0));
  ask(METER_CODE_CHANGES, 2, 0, 0);
  CHECK(answered(0, 0, 0, 0, 0, 0, 1, 0, 0));
  REFUSED(METER_NOT_OPEN, ask(METER_CODE_KEYS, 3, 0, 0));
  REFUSED(METER_NOT_OPEN, ask(METER_CODE_ACTIONS, 0, 0, 0));
  REFUSED(METER_NOT_OPEN, ask(METER_CODE_CHANGES, UINT64_MAX, 0, 0));
  CHECK(commit(2) == METER_DONE && commit(1) == METER_DONE);
  CHECK(numbers[METER_NUMBERS_USED] == 0 && numbers[METER_NUMBERS_COUNT] == 6); /* the last commit empties the log */
}

/* The log holds an amount as two words. */
static void a_logged_amount_is_whole(void) {
  fresh(1, 1);
  new_key(0, UINT64_MAX - 1);
  snapshot();
  CHECK(post(0, 0, 1) == METER_DONE && amounts[0] == UINT64_MAX);
  CHECK(entry_is(0, METER_KIND_CHANGED, 0, 0, 0, 0, UINT64_MAX - 1));
  CHECK(rollback(1) == METER_DONE && amounts[0] == UINT64_MAX - 1);
}

static void spent_serials(void) {
  fresh(1, 1);
  serials[METER_SERIALS_LAST] = UINT64_MAX - 1;
  CHECK(snapshot() == METER_DONE && answered(0, 0, UINT64_MAX, 0, 0, 0, 0, 0, 0));
  REFUSED(METER_SERIALS_SPENT, snapshot());
}

static void damaged_rows_and_entries(void) {
  make_t(4, 4);
  parents[3] = 4; /* not below the count */
  REFUSED(METER_BROKEN_TABLE, find(0));
  parents[3] = 0; /* round and round */
  REFUSED(METER_BROKEN_TABLE, find(0));
  REFUSED(METER_BROKEN_TABLE, join(1, 2));
  make_t(4, 4);
  snapshot();
  find(0);
  logged[METER_ENTRY_KIND] = 3; /* no known kind */
  REFUSED(METER_BROKEN_TABLE, rollback(1));
}

static void bad_states(void) {
  make_t(4, 4);
  numbers[METER_NUMBERS_COUNT] = 5;
  REFUSED(METER_BAD_STATE, find(0));
  numbers[METER_NUMBERS_COUNT] = 4;
  numbers[METER_NUMBERS_USED] = 1; /* nothing open */
  REFUSED(METER_BAD_STATE, ask(METER_CODE_LEN, 0, 0, 0));
  numbers[METER_NUMBERS_USED] = 0;
  numbers[METER_NUMBERS_OPEN] = 33;
  REFUSED(METER_BAD_STATE, snapshot());
  fresh(METER_ROWS_LIMIT + 1, 0);
  REFUSED(METER_BAD_STATE, new_key(0, 1));
  fresh(0, METER_LOG_LIMIT + 1);
  REFUSED(METER_BAD_STATE, snapshot());
  fresh(METER_ROWS_LIMIT, METER_LOG_LIMIT);
  CHECK(new_key(0, 1) == METER_DONE && snapshot() == METER_DONE);
}

/* The functions themselves, with lengths of their own choosing: numbers, serials, parents, crowns, amounts, log, call,
 * answer. */
enum { SLICES = 8 };

static uint32_t with_lengths(int list, const size_t *lengths, const uint64_t *call, uint64_t *to) {
  const size_t *n = lengths;
  return (list ? meter_calls : meter_call)(numbers, n[0], serials, n[1], parents, n[2], crowns, n[3], amounts, n[4],
                                           logged, n[5], call, n[6], to, n[7]);
}

/* Rows that have no parent, crown or amount, and a log that ends inside an entry. */
static void lent_parts_of_unequal_length(void) {
  const uint64_t call[METER_CALL_NUMBERS] = {METER_CODE_LEN, 0, 0, 0};
  const size_t level[SLICES] = {METER_NUMBERS, METER_SERIALS, 4, 8, 4, 28, 4, 9};
  const size_t uneven[][2] = {{2, 3}, {2, 5}, {3, 4}, {3, 7}, {3, 6}, {4, 3}, {4, 5}, {5, 22}, {5, 27}};
  make_t(4, 4);
  for (size_t i = 0; i < sizeof uneven / sizeof uneven[0]; i++) {
    size_t lengths[SLICES];
    memcpy(lengths, level, sizeof level);
    lengths[uneven[i][0]] = uneven[i][1];
    for (int list = 0; list <= 1; list++) {
      CHECK(with_lengths(list, lengths, call, answer) == METER_CARRIED_OUT);
      CHECK(answered(METER_BAD_STATE, 0, 0, 0, 0, 0, 0, 0, 0));
    }
  }
  CHECK(with_lengths(0, level, call, answer) == METER_CARRIED_OUT && answered(METER_DONE, 0, 0, 0, 0, 0, 0, 0, 4));
}

/* Both functions return `code` for the lengths and the call, and leave memory and answer alone. */
static void not_carried_out(uint32_t code, const size_t *lengths, const uint64_t *call) {
  uint64_t to[METER_ANSWER_NUMBERS], before[METER_ANSWER_NUMBERS];
  memset(to, 0x5A, sizeof to);
  memcpy(before, to, sizeof to);
  for (int list = 0; list <= 1; list++) {
    size_t bytes;
    unsigned char *memory = copy_memory(&bytes);
    CHECK(with_lengths(list, lengths, call, to) == code);
    CHECK(still_as(memory));
    CHECK(memcmp(to, before, sizeof to) == 0);
  }
}

#define LENGTHS(numbers, serials, call, answer) ((const size_t[SLICES]){numbers, serials, 4, 8, 4, 28, call, answer})
#define CALL(code, a, b, c) ((const uint64_t[METER_CALL_NUMBERS]){code, a, b, c})

static void no_state(void) {
  make_t(4, 4);
  not_carried_out(METER_NO_STATE, LENGTHS(66, 33, 4, 9), CALL(METER_CODE_NEW, 0, 0, 0));
  not_carried_out(METER_NO_STATE, LENGTHS(0, 33, 4, 9), CALL(METER_CODE_NEW, 0, 0, 0));
  not_carried_out(METER_NO_STATE, LENGTHS(67, 32, 4, 9), CALL(METER_CODE_NEW, 0, 0, 0));
}

static void no_call(void) {
  const uint64_t wide = UINT64_C(1) << 32;
  make_t(4, 4);
  const uint64_t none[][METER_CALL_NUMBERS] = {{METER_CODE_NEW, wide, 0, 0},
                                               {METER_CODE_NEW, 0, 0, 1},
                                               {METER_CODE_LEN, 1, 0, 0},
                                               {METER_CODE_LEN, 0, 1, 0},
                                               {METER_CODE_LEN, 0, 0, 1},
                                               {METER_CODE_FIND, wide, 0, 0},
                                               {METER_CODE_FIND, 0, 1, 0},
                                               {METER_CODE_UNIONED, wide, 0, 0},
                                               {METER_CODE_UNIONED, 0, wide, 0},
                                               {METER_CODE_UNIONED, 0, 0, 1},
                                               {METER_CODE_JOIN, wide, 1, 0},
                                               {METER_CODE_JOIN, 0, wide, 0},
                                               {METER_CODE_JOIN, 0, 1, 1},
                                               {METER_CODE_POST, wide, 0, 0},
                                               {METER_CODE_POST, 0, wide, 0},
                                               {METER_CODE_PROBE, wide, 0, 0},
                                               {METER_CODE_PROBE, 0, 0, 1},
                                               {METER_CODE_PROBE_KEY, wide, 0, 0},
                                               {METER_CODE_PROBE_KEY, 0, 1, 0},
                                               {METER_CODE_TRY_PROBE, wide, 0, 0},
                                               {METER_CODE_TRY_PROBE, 0, 0, 1},
                                               {METER_CODE_SNAPSHOT, 1, 0, 0},
                                               {METER_CODE_SNAPSHOT, 0, 0, 1},
                                               {METER_CODE_ROLLBACK, 1, 1, 0},
                                               {METER_CODE_COMMIT, 1, 0, 1},
                                               {METER_CODE_KEYS, 1, 1, 0},
                                               {METER_CODE_ACTIONS, 1, 0, 1},
                                               {METER_CODE_CHANGES, 1, 1, 0},
                                               {15, 0, 0, 0},
                                               {UINT64_MAX, 0, 0, 0},
                                               {wide + METER_CODE_NEW, 0, 0, 0}};
  for (size_t i = 0; i < sizeof none / sizeof none[0]; i++)
    not_carried_out(METER_NO_CALL, LENGTHS(67, 33, 4, 9), none[i]);
  not_carried_out(METER_NO_CALL, LENGTHS(67, 33, 3, 9), CALL(METER_CODE_NEW, 0, 0, 0));
  not_carried_out(METER_NO_CALL, LENGTHS(67, 33, 5, 9), (const uint64_t[8]){METER_CODE_NEW});
}

/* One call exactly: no more and no less for the single call, where a list may be empty. */
static void lengths_of_calls(void) {
  const uint64_t calls[8] = {METER_CODE_LEN, 0, 0, 0, METER_CODE_LEN, 0, 0, 0};
  uint64_t to[18];
  make_t(4, 4);
  CHECK(with_lengths(0, LENGTHS(67, 33, 0, 9), calls, to) == METER_NO_CALL);
  CHECK(with_lengths(0, LENGTHS(67, 33, 8, 18), calls, to) == METER_NO_CALL);
  CHECK(with_lengths(1, LENGTHS(67, 33, 8, 18), calls, to) == METER_CARRIED_OUT);
  CHECK(to[METER_ANSWER_TO] == 4 && to[METER_ANSWER_NUMBERS + METER_ANSWER_TO] == 4);
  CHECK(with_lengths(1, LENGTHS(67, 33, 0, 0), calls, to) == METER_CARRIED_OUT);
}

static void no_answers(void) {
  const uint64_t two[8] = {METER_CODE_NEW, 0, 1, 0, METER_CODE_NEW, 0, 2, 0};
  uint64_t to[18] = {0};
  make_t(4, 4);
  not_carried_out(METER_NO_ANSWERS, LENGTHS(67, 33, 4, 8), CALL(METER_CODE_NEW, 0, 0, 0));
  not_carried_out(METER_NO_ANSWERS, LENGTHS(67, 33, 4, 0), CALL(METER_CODE_NEW, 0, 0, 0));
  size_t bytes;
  unsigned char *memory = copy_memory(&bytes);
  CHECK(with_lengths(1, LENGTHS(67, 33, 8, 17), two, to) == METER_NO_ANSWERS);
  CHECK(still_as(memory));
  CHECK(with_lengths(1, LENGTHS(67, 33, 8, 18), two, to) == METER_CARRIED_OUT);
}

static void first_test_that_fails_is_returned(void) {
  make_t(4, 4);
  not_carried_out(METER_NO_STATE, LENGTHS(66, 33, 3, 8), CALL(15, 0, 0, 0));
  not_carried_out(METER_NO_CALL, LENGTHS(67, 33, 4, 8), CALL(15, 0, 0, 0));
}

static void a_list_is_tested_whole(void) {
  uint64_t calls[12], to[27];
  make_t(8, 8);
  meter_put_new(calls, 0, 5);
  meter_put_join(calls + 4, 0, 4);
  meter_put(calls + 8, METER_CODE_FIND, UINT64_C(1) << 32, 0, 0);
  memset(to, 0x5A, sizeof to);
  size_t bytes;
  unsigned char *memory = copy_memory(&bytes);
  CHECK(meter_ask_all(&table, calls, 3, to) == METER_NO_CALL);
  CHECK(still_as(memory));
  for (size_t i = 0; i < 27; i++) CHECK(to[i] == UINT64_C(0x5A5A5A5A5A5A5A5A));
}

static void a_refused_call_does_not_stop_a_list(void) {
  uint64_t calls[12], to[27];
  fresh(2, 0);
  meter_put_new(calls, 3, 5);
  meter_put_find(calls + 4, 9);
  meter_put_probe(calls + 8, 0);
  CHECK(meter_ask_all(&table, calls, 3, to) == METER_CARRIED_OUT);
  CHECK(to[METER_ANSWER_NO] == METER_DONE && to[9 + METER_ANSWER_NO] == METER_NO_KEY);
  CHECK(to[18 + METER_ANSWER_OWNER] == 3 && to[18 + METER_ANSWER_AMOUNT] == 5);
}

static void room_past_the_answers_is_left(void) {
  const uint64_t len[METER_CALL_NUMBERS] = {METER_CODE_LEN, 0, 0, 0};
  uint64_t to[12];
  make_t(4, 4);
  for (int list = 0; list <= 1; list++) {
    memset(to, 0x5A, sizeof to);
    CHECK(with_lengths(list, LENGTHS(67, 33, 4, 12), len, to) == METER_CARRIED_OUT);
    CHECK(to[METER_ANSWER_TO] == 4);
    for (int i = 9; i < 12; i++) CHECK(to[i] == UINT64_C(0x5A5A5A5A5A5A5A5A));
  }
}

static uint64_t seed = 1;

static uint32_t below(uint32_t limit) {
  seed = seed * UINT64_C(6364136223846793005) + 1442695040888963407u;
  return (uint32_t)((seed >> 33) % limit);
}

/* Any of the fifteen calls, mostly with keys and tokens that there are. */
static void put_any(uint64_t *call, uint64_t last_token) {
  const uint32_t a = below(26), b = below(26);
  const uint64_t token = last_token - (below(8) == 0) + (below(20) == 0);
  switch (below(15)) {
    case 0:
      meter_put_new(call, below(3), below(100));
      break;
    case 1:
      meter_put_len(call);
      break;
    case 2:
      meter_put_find(call, a);
      break;
    case 3:
      meter_put_unioned(call, a, b);
      break;
    case 4:
      meter_put_join(call, a, b);
      break;
    case 5:
      meter_put_post(call, a, below(3), below(100));
      break;
    case 6:
      meter_put_probe(call, a);
      break;
    case 7:
      meter_put_probe_key(call, a);
      break;
    case 8:
      meter_put_try_probe(call, a);
      break;
    case 9:
      meter_put_snapshot(call);
      break;
    case 10:
      meter_put_rollback(call, token);
      break;
    case 11:
      meter_put_commit(call, token);
      break;
    case 12:
      meter_put_keys(call, token);
      break;
    case 13:
      meter_put_actions(call, token);
      break;
    default:
      meter_put_changes(call, token);
      break;
  }
}

static void a_list_is_its_calls_one_by_one(void) {
  enum { CALLS = 2000 };
  static uint64_t calls[METER_CALL_NUMBERS * CALLS], singly[METER_ANSWER_NUMBERS * CALLS],
      together[METER_ANSWER_NUMBERS * CALLS];
  fresh(24, 40);
  for (size_t i = 0; i < CALLS; i++) {
    put_any(calls + 4 * i, serials[METER_SERIALS_LAST]);
    CHECK(meter_ask(&table, calls + 4 * i, singly + 9 * i) == METER_CARRIED_OUT);
  }
  size_t bytes;
  unsigned char *left = copy_memory(&bytes);
  fresh(24, 40);
  CHECK(meter_ask_all(&table, calls, CALLS, together) == METER_CARRIED_OUT);
  CHECK(memcmp(singly, together, sizeof singly) == 0);
  CHECK(still_as(left));
  unsigned met = 0; /* the numbers of refusal that the list met: without them the comparison says little */
  for (size_t i = 0; i < CALLS; i++) met |= 1u << singly[9 * i];
  CHECK((met & 0x85F) == 0x85F); /* 0 to 4, 6 and 11 */
}

/* ---- the journal */

enum { JOURNAL_ROOM = 1 << 18 };
static uint8_t bytes[JOURNAL_ROOM];
static struct meter_journal journal;
static uint64_t result[METER_RESULT_NUMBERS];

/* An empty journal in bytes that hold something. */
static void fresh_journal(size_t room) {
  memset(bytes, 0xA5, sizeof bytes);
  journal = (struct meter_journal){.bytes = bytes, .room = room};
}

/* Records one call into `answer`, and gives its number. */
static uint64_t record(uint64_t code, uint64_t a, uint64_t b, uint64_t c) {
  uint64_t call[METER_CALL_NUMBERS];
  meter_put(call, code, a, b, c);
  CHECK(meter_journal_record(&table, &journal, call, 1, answer) == METER_CARRIED_OUT);
  return answer[METER_ANSWER_NO];
}

static int resulted(uint64_t no, uint64_t number) {
  return result[METER_RESULT_NO] == no && result[METER_RESULT_LENGTH] == number;
}

static int known_is(uint64_t used, uint64_t segments, uint64_t opened, uint64_t waiting) {
  const uint64_t wanted[METER_KNOWN_NUMBERS] = {used, segments, opened, waiting};
  return memcmp(journal.known, wanted, sizeof wanted) == 0;
}

static int flushed(uint64_t no, uint64_t length) {
  return meter_journal_flush(&journal, result) == METER_CARRIED_OUT && resulted(no, length);
}

/* new(7, 300); join(0, 0); snapshot; a find, which isn't written; a rollback; a join of no key, which is refused. */
static void record_some(void) {
  CHECK(record(METER_CODE_NEW, 7, 300, 0) == METER_DONE);
  CHECK(record(METER_CODE_JOIN, 0, 0, 0) == METER_DONE);
  CHECK(record(METER_CODE_SNAPSHOT, 0, 0, 0) == METER_DONE);
  const uint64_t token = answer[METER_ANSWER_TOKEN];
  CHECK(known_is(0, 0, 1, 3));
  CHECK(record(METER_CODE_FIND, 0, 0, 0) == METER_DONE);
  CHECK(record(METER_CODE_ROLLBACK, token, 0, 0) == METER_DONE);
  CHECK(record(METER_CODE_JOIN, 0, 1, 0) == METER_NO_KEY);
  CHECK(known_is(0, 0, 0, 4));
}

static void a_journals_bytes(void) {
  fresh(2, 2);
  fresh_journal(200);
  record_some();
  CHECK(flushed(METER_DONE, 108));
  CHECK(known_is(108, 1, 0, 0));
  CHECK(meter_journal_entries(&journal) == 4);
  static const uint8_t wanted[] = {
      1,  0, 0, 0, 0, 0, 0, 0, 0, 0, 0, 0, 7, 0, 0, 0, 44, 1, 0, 0, 0, 0, 0, 0, /* new(7, 300) */
      3,  0, 0, 0, 0, 0, 0, 0, 0, 0, 0, 0, 0, 0, 0, 0, 0,  0, 0, 0, 0, 0, 0, 0, /* join(0, 0) */
      4,  0, 0, 0, 0, 0, 0, 0, 0, 0, 0, 0, 0, 0, 0, 0, 0,  0, 0, 0, 0, 0, 0, 0, /* snapshot */
      5,  0, 0, 0, 0, 0, 0, 0, 0, 0, 0, 0, 0, 0, 0, 0, 0,  0, 0, 0, 0, 0, 0, 0, /* rollback */
      96, 0, 0, 0, 4, 0, 0, 0, 0, 0, 0, 0};                                     /* distance, count, number */
  CHECK(memcmp(bytes, wanted, sizeof wanted) == 0);
  for (size_t i = sizeof wanted; i < sizeof bytes; i++) CHECK(bytes[i] == 0xA5);
  CHECK(flushed(METER_DONE, 108)); /* nothing waits: nothing more */
}

static void a_journal_is_judged(void) {
  fresh(2, 2);
  fresh_journal(200);
  record_some();
  CHECK(flushed(METER_DONE, 108));
  CHECK(record(METER_CODE_SNAPSHOT, 0, 0, 0) == METER_DONE);
  CHECK(flushed(METER_DONE, 144));
  memset(journal.known, 0xFF, sizeof journal.known);
  CHECK(meter_journal_read(&journal, 144, result) == METER_CARRIED_OUT && resulted(METER_DONE, 144));
  CHECK(known_is(144, 2, 1, 0));
  CHECK(meter_journal_read(&journal, 0, result) == METER_CARRIED_OUT && resulted(METER_DONE, 0));
  CHECK(known_is(0, 0, 0, 0));
  /* What is no journal leaves what is known. */
  memset(journal.known, 0x11, sizeof journal.known);
  const struct meter_journal before = journal;
  for (size_t i = 1; i < 144; i++) {
    if (i == 108) continue; /* where the first segment ends */
    CHECK(meter_journal_read(&journal, i, result) == METER_CARRIED_OUT && resulted(METER_BAD_JOURNAL, 0));
  }
  for (size_t i = 0; i < 144; i++) {
    if (i >= 12 && i < 24) continue; /* any owner and any amount will do */
    if (i >= 28 && i < 36) continue; /* and any key of a join, though there may be none */
    bytes[i] ^= 0x80;
    CHECK(meter_journal_read(&journal, 144, result) == METER_CARRIED_OUT && resulted(METER_BAD_JOURNAL, 0));
    bytes[i] ^= 0x80;
  }
  CHECK(memcmp(&before, &journal, sizeof before) == 0);
}

static void a_day_is_replayed(void) {
  enum { CALLS = 12000, KEYS = 40 };
  static uint64_t calls[4 * CALLS], answers[9 * CALLS];
  uint64_t random = 1, tokens[METER_SNAPSHOTS_LIMIT + 1] = {0};
  int open = 0;
  fresh(KEYS, 20000);
  fresh_journal(JOURNAL_ROOM);
  size_t done = 0;
  for (size_t i = 0; i < CALLS; i++) {
    random = random * 6364136223846793005u + 1442695040888963407u;
    const uint64_t r = random >> 33, a = r % KEYS, b = r / KEYS % KEYS;
    static const uint8_t codes[] = {0, 0, 2, 4, 4, 5, 5, 6, 9, 10, 11};
    const uint64_t code = codes[r / 4096 % sizeof codes];
    uint64_t *call = calls + 4 * i;
    if (code == METER_CODE_NEW)
      meter_put_new(call, (uint32_t)(r % 3), r);
    else if (code == METER_CODE_JOIN)
      meter_put_join(call, (uint32_t)a, (uint32_t)b);
    else if (code == METER_CODE_POST)
      meter_put_post(call, (uint32_t)a, (uint32_t)(b % 3), r);
    else if (code == METER_CODE_SNAPSHOT)
      meter_put_snapshot(call);
    else
      meter_put(call, code, code < METER_CODE_SNAPSHOT ? a : tokens[open], 0, 0);
    CHECK(meter_journal_record(&table, &journal, call, 1, answers + 9 * i) == METER_CARRIED_OUT);
    if (answers[9 * i] != METER_DONE || code == METER_CODE_FIND || code == METER_CODE_PROBE) continue;
    done++;
    if (code == METER_CODE_SNAPSHOT)
      tokens[++open] = answers[9 * i + METER_ANSWER_TOKEN];
    else if (code > METER_CODE_SNAPSHOT)
      open--;
  }
  CHECK(meter_journal_entries(&journal) == done && done > METER_JOURNAL_SEGMENT);
  CHECK(journal.known[METER_KNOWN_SEGMENTS] == done / METER_JOURNAL_SEGMENT); /* those that are full, by themselves */
  const uint32_t count = numbers[METER_NUMBERS_COUNT], opened = numbers[METER_NUMBERS_OPEN];
  static uint64_t before[9 * KEYS], after[9 * KEYS];
  for (uint32_t key = 0; key < count; key++) {
    ask(METER_CODE_PROBE_KEY, key, 0, 0);
    memcpy(before + 9 * key, answer, sizeof answer);
  }
  CHECK(journal.known[METER_KNOWN_OPEN] == opened);
  /* All at once, the same answers and the same bytes. */
  const struct meter_journal kept = journal;
  uint8_t *copy = malloc(sizeof bytes);
  if (!copy) abort();
  memcpy(copy, bytes, sizeof bytes);
  static uint64_t together[9 * CALLS];
  fresh(KEYS, 20000);
  fresh_journal(JOURNAL_ROOM);
  CHECK(meter_journal_record(&table, &journal, calls, CALLS, together) == METER_CARRIED_OUT);
  CHECK(memcmp(answers, together, sizeof answers) == 0);
  CHECK(memcmp(&kept, &journal, sizeof kept) == 0 && memcmp(copy, bytes, sizeof bytes) == 0);
  free(copy);
  /* And replayed. */
  fresh(KEYS, 32 * done);
  CHECK(meter_journal_replay(&table, &journal, result) == METER_CARRIED_OUT && resulted(METER_DONE, done));
  CHECK(numbers[METER_NUMBERS_COUNT] == count && numbers[METER_NUMBERS_OPEN] == opened);
  for (uint32_t key = 0; key < count; key++) {
    ask(METER_CODE_PROBE_KEY, key, 0, 0);
    memcpy(after + 9 * key, answer, sizeof answer);
    before[9 * key + METER_ANSWER_STEPS] = after[9 * key + METER_ANSWER_STEPS] = 0; /* other parents may differ */
  }
  CHECK(memcmp(before, after, sizeof before) == 0);
}

static void a_replay_names_where_it_stops(void) {
  fresh(2, 2);
  fresh_journal(200);
  record_some();
  CHECK(record(METER_CODE_NEW, 0, 1, 0) == METER_DONE);
  CHECK(flushed(METER_DONE, 132));
  fresh(1, 2);
  CHECK(meter_journal_replay(&table, &journal, result) == METER_CARRIED_OUT && resulted(METER_KEYS_FULL, 4));
  CHECK(numbers[METER_NUMBERS_COUNT] == 1 && amounts[0] == 300); /* what came before it is there */
  fresh(1, 2);
  size_t size;
  unsigned char *before = copy_memory(&size);
  bytes[4] = 1;
  CHECK(meter_journal_replay(&table, &journal, result) == METER_CARRIED_OUT && resulted(METER_BAD_JOURNAL, 0));
  CHECK(still_as(before));
}

static void a_call_without_room_is_not_carried_out(void) {
  fresh(3, 0);
  fresh_journal(2 * METER_JOURNAL_ENTRY_BYTES + METER_JOURNAL_TRAILER_BYTES);
  CHECK(record(METER_CODE_NEW, 0, 1, 0) == METER_DONE);
  CHECK(record(METER_CODE_NEW, 0, 2, 0) == METER_DONE);
  const struct meter_journal before = journal;
  REFUSED(METER_NO_ROOM, record(METER_CODE_NEW, 0, 3, 0));
  CHECK(record(METER_CODE_PROBE, 0, 0, 0) == METER_DONE); /* what isn't written needs no room */
  CHECK(memcmp(&before, &journal, sizeof before) == 0);
  CHECK(flushed(METER_DONE, 60)); /* a trailer's room is kept */
  REFUSED(METER_NO_ROOM, record(METER_CODE_NEW, 0, 3, 0));
}

static void a_journal_of_another_table(void) {
  fresh(3, 3);
  fresh_journal(200);
  CHECK(snapshot() == METER_DONE); /* not recorded */
  REFUSED(METER_BAD_JOURNAL, record(METER_CODE_NEW, 0, 1, 0));
  CHECK(known_is(0, 0, 0, 0));
  journal.known[METER_KNOWN_OPEN] = 1;
  CHECK(record(METER_CODE_NEW, 0, 1, 0) == METER_DONE);
  journal.known[METER_KNOWN_WAITING] = METER_JOURNAL_SEGMENT;
  REFUSED(METER_BAD_JOURNAL, record(METER_CODE_NEW, 0, 1, 0));
  journal.known[METER_KNOWN_WAITING] = METER_JOURNAL_SEGMENT + 1;
  const struct meter_journal before = journal;
  CHECK(flushed(METER_BAD_JOURNAL, 0));
  CHECK(memcmp(&before, &journal, sizeof before) == 0);
}

static void segments_are_appended(void) {
  uint8_t entries[3 * METER_JOURNAL_ENTRY_BYTES], one[METER_JOURNAL_ENTRY_BYTES];
  meter_put_entry(entries, METER_JOURNAL_NEW, 0, 0, 7, UINT64_MAX);
  meter_put_entry(entries + 24, METER_JOURNAL_SNAPSHOT, 0, 0, 0, 0);
  meter_put_entry(entries + 48, METER_JOURNAL_POST, 0, 0, 7, 0);
  meter_put_entry(one, METER_JOURNAL_ROLLBACK, 0, 0, 0, 0);
  fresh_journal(84 + 35);
  CHECK(meter_journal_append(&journal, one, 1, result) == METER_CARRIED_OUT);
  CHECK(resulted(METER_BAD_JOURNAL, 0)); /* nothing is open */
  CHECK(meter_journal_append(&journal, entries, 0, result) == METER_CARRIED_OUT && resulted(METER_BAD_JOURNAL, 0));
  CHECK(bytes[0] == 0xA5 && known_is(0, 0, 0, 0));
  CHECK(meter_journal_append(&journal, entries, 3, result) == METER_CARRIED_OUT && resulted(METER_DONE, 84));
  CHECK(known_is(84, 1, 1, 0));
  CHECK(meter_journal_append(&journal, one, 1, result) == METER_CARRIED_OUT && resulted(METER_NO_ROOM, 84));
  CHECK(bytes[84] == 0xA5 && known_is(84, 1, 1, 0));
  journal.room++;
  CHECK(meter_journal_append(&journal, one, 1, result) == METER_CARRIED_OUT && resulted(METER_DONE, 120));
  CHECK(known_is(120, 2, 0, 0));
  fresh(1, 4);
  CHECK(meter_journal_replay(&table, &journal, result) == METER_CARRIED_OUT && resulted(METER_DONE, 4));
  CHECK(row_is(0, 0, 0, 7, UINT64_MAX));
  /* What waits isn't lost. */
  journal.room = JOURNAL_ROOM;
  CHECK(record(METER_CODE_POST, 0, 7, 0) == METER_DONE && known_is(120, 2, 0, 1));
  CHECK(meter_journal_append(&journal, entries + 24, 1, result) == METER_CARRIED_OUT && resulted(METER_DONE, 192));
  CHECK(known_is(192, 4, 1, 0) && meter_journal_entries(&journal) == 6);
  /* 2049 entries are no segment. */
  static uint8_t many[2049 * METER_JOURNAL_ENTRY_BYTES];
  for (size_t i = 0; i < 2049; i++) meter_put_entry(many + 24 * i, METER_JOURNAL_NEW, 0, 0, 0, i);
  CHECK(meter_journal_append(&journal, many, 2049, result) == METER_CARRIED_OUT && resulted(METER_BAD_JOURNAL, 192));
  CHECK(meter_journal_append(&journal, many, 2048, result) == METER_CARRIED_OUT && resulted(METER_DONE, 49356));
  /* A used length above the bytes, and bytes that are no whole entries. */
  CHECK(meter_append(bytes, 10, 11, one, 24, result, 2) == METER_CARRIED_OUT && resulted(METER_BAD_JOURNAL, 11));
  CHECK(meter_append(bytes, 100, 0, many, 25, result, 2) == METER_CARRIED_OUT && resulted(METER_BAD_JOURNAL, 0));
}

/* Each function of the journal tests what is lent, and writes nothing where that is not right. */
static void what_the_journals_functions_return(void) {
  fresh(2, 2);
  fresh_journal(200);
  uint64_t call[METER_CALL_NUMBERS], known[5] = {0}, room[3] = {0};
  meter_put_new(call, 1, 2);
  size_t size;
  unsigned char *before = copy_memory(&size);
#define RECORD(calls_len, answers_len, known_len) \
  meter_record(METER_LEND(&table), call, calls_len, answer, answers_len, bytes, 200, known, known_len)
  CHECK(RECORD(4, 9, 3) == METER_NO_STATE);
  CHECK(RECORD(4, 9, 5) == METER_NO_STATE);
  CHECK(RECORD(3, 9, 4) == METER_NO_CALL);
  CHECK(RECORD(4, 8, 4) == METER_NO_ANSWERS);
  known[METER_KNOWN_OPEN] = (uint64_t)1 << 32;
  CHECK(RECORD(3, 8, 4) == METER_NO_STATE); /* the first test that fails */
  CHECK(meter_flush(bytes, 200, known, 4, room, 2) == METER_NO_STATE);
  known[METER_KNOWN_OPEN]--;
  CHECK(RECORD(4, 9, 4) == METER_CARRIED_OUT && answer[METER_ANSWER_NO] == METER_BAD_JOURNAL);
  CHECK(still_as(before));
  CHECK(meter_flush(bytes, 200, known, 3, room, 2) == METER_NO_STATE);
  CHECK(meter_flush(bytes, 200, known, 4, room, 1) == METER_NO_ANSWERS);
  CHECK(meter_flush(bytes, 200, known, 4, room, 3) == METER_NO_ANSWERS);
  CHECK(meter_append(bytes, 200, 0, bytes, 24, room, 1) == METER_NO_ANSWERS);
  CHECK(meter_known(bytes, 0, known, 5, room, 2) == METER_NO_STATE);
  CHECK(meter_known(bytes, 0, known, 4, room, 3) == METER_NO_ANSWERS);
  CHECK(meter_replay(METER_LEND(&table), bytes, 0, room, 3) == METER_NO_ANSWERS);
  CHECK(room[0] == 0 && room[1] == 0 && room[2] == 0 && bytes[0] == 0xA5);
}

#define TEST(name) \
  { #name, name }
static const struct {
  const char *name;
  void (*run)(void);
} tests[] = {TEST(example_1_first_join),
             TEST(example_2_table_t),
             TEST(example_3_find_compresses),
             TEST(example_4_join_of_equal_roots),
             TEST(example_5_find_in_a_snapshot),
             TEST(example_6_log_full),
             TEST(example_7_owner_clash),
             TEST(examples_8_and_9_sums),
             TEST(example_10_nested_snapshots),
             TEST(examples_11_and_12_old_tokens),
             TEST(example_13_empty_table),
             TEST(example_14_room_for_a_join),
             TEST(example_15_at_the_limits),
             TEST(len_and_probes),
             TEST(since_a_snapshot),
             TEST(a_logged_amount_is_whole),
             TEST(spent_serials),
             TEST(damaged_rows_and_entries),
             TEST(bad_states),
             TEST(lent_parts_of_unequal_length),
             TEST(no_state),
             TEST(no_call),
             TEST(lengths_of_calls),
             TEST(no_answers),
             TEST(first_test_that_fails_is_returned),
             TEST(a_list_is_tested_whole),
             TEST(a_refused_call_does_not_stop_a_list),
             TEST(room_past_the_answers_is_left),
             TEST(a_list_is_its_calls_one_by_one),
             TEST(a_journals_bytes),
             TEST(a_journal_is_judged),
             TEST(a_day_is_replayed),
             TEST(a_replay_names_where_it_stops),
             TEST(a_call_without_room_is_not_carried_out),
             TEST(a_journal_of_another_table),
             TEST(segments_are_appended),
             TEST(what_the_journals_functions_return)};

int main(void) {
  int passed = 0, failed = 0;
  for (size_t i = 0; i < sizeof tests / sizeof tests[0]; i++) {
    failed_checks = 0;
    tests[i].run();
    if (failed_checks) printf("FAILED %s\n", tests[i].name);
    if (failed_checks)
      failed++;
    else
      passed++;
  }
  printf("%d passed, %d failed\n", passed, failed);
  return failed != 0;
}
