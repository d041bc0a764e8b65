/* A day's journal in a file, for bindings/test, which has one language write it and another replay it.
 *
 *   journal write FILE     carries out a day's calls, writes their journal, prints the groups
 *   journal replay FILE    replays it into a fresh table, prints the groups
 *   journal longest        replays 16 MiB in segments of one entry */
#include <inttypes.h>
#include <stdio.h>
#include <stdlib.h>
#include <string.h>

#include "meter.h"

enum { ROWS = 60, ROOM = 16 << 20 };

static uint32_t numbers[METER_NUMBERS], parents[ROWS], crowns[METER_CROWN_NUMBERS * ROWS];
static uint64_t serials[METER_SERIALS], amounts[ROWS];
static uint32_t logged[METER_ENTRY_NUMBERS * METER_LOG_LIMIT];
static const struct meter_table table = {numbers, serials, ROWS, parents, crowns, amounts, METER_LOG_LIMIT, logged};

static uint8_t bytes[ROOM];
static struct meter_journal journal = {bytes, ROOM, {0}};
static uint64_t result[METER_RESULT_NUMBERS];

static void need(int holds, const char *what) {
  if (!holds) {
    fprintf(stderr, "journal: %s\n", what);
    exit(1);
  }
}

/* Whether a function of the journal was carried out and done. */
static int done(uint32_t code) { return code == METER_CARRIED_OUT && result[METER_RESULT_NO] == METER_DONE; }

static void print(void) {
  printf("%" PRIu32 " keys, %" PRIu32 " open\n", numbers[METER_NUMBERS_COUNT], numbers[METER_NUMBERS_OPEN]);
  for (uint32_t key = 0; key < numbers[METER_NUMBERS_COUNT]; key++) {
    uint64_t call[METER_CALL_NUMBERS], answer[METER_ANSWER_NUMBERS];
    meter_put_probe_key(call, key);
    need(meter_ask(&table, call, answer) == METER_CARRIED_OUT && answer[METER_ANSWER_NO] == METER_DONE, "no probe");
    const uint64_t root = answer[METER_ANSWER_KEY];
    printf("%" PRIu32 " %" PRIu64 " %" PRIu32 " %" PRIu64 " %" PRIu64 "\n", key, root,
           meter_crown(&table, root)[METER_CROWN_RANK], answer[METER_ANSWER_OWNER], answer[METER_ANSWER_AMOUNT]);
  }
}

static void write_day(const char *file) {
  uint64_t random = 1, tokens[METER_SNAPSHOTS_LIMIT + 1] = {0};
  int open = 0;
  for (int i = 0; i < 9000; i++) {
    random = random * 6364136223846793005u + 1442695040888963407u;
    const uint64_t kind = random >> 60, amount = (random >> 33) << 20;
    const uint32_t r = (uint32_t)(random >> 33), a = r % ROWS, b = r / 64 % ROWS, owner = r % 5 / 2;
    uint64_t call[METER_CALL_NUMBERS], answer[METER_ANSWER_NUMBERS];
    if (kind < 4)
      meter_put_new(call, owner, amount);
    else if (kind < 7)
      meter_put_join(call, a, b);
    else if (kind < 12)
      meter_put_post(call, a, owner, amount);
    else if (kind == 12)
      meter_put_find(call, b);
    else if (kind == 13)
      meter_put_snapshot(call);
    else if (kind == 14)
      meter_put_rollback(call, tokens[open]);
    else
      meter_put_commit(call, tokens[open]);
    need(meter_journal_record(&table, &journal, call, 1, answer) == METER_CARRIED_OUT, "a call was not carried out");
    if (answer[METER_ANSWER_NO] != METER_DONE || kind < 13) continue;
    if (kind == 13)
      tokens[++open] = answer[METER_ANSWER_TOKEN];
    else
      open--;
  }
  need(done(meter_journal_flush(&journal, result)), "no flush");
  FILE *out = fopen(file, "wb");
  const size_t length = (size_t)result[METER_RESULT_LENGTH];
  need(out && fwrite(bytes, 1, length, out) == length && fclose(out) == 0, "the file can't be written");
  print();
}

static void replay(const char *file) {
  FILE *in = fopen(file, "rb");
  need(in != NULL, "the file can't be read");
  const size_t length = fread(bytes, 1, ROOM, in);
  need(feof(in) && fclose(in) == 0, "the file can't be read, or is too long");
  need(done(meter_journal_read(&journal, length, result)), "the file is no journal");
  need(done(meter_journal_replay(&table, &journal, result)), "the replay stopped");
  need(result[METER_RESULT_ENTRY] == meter_journal_entries(&journal), "an entry is missing");
  print();
}

/* A new key, and posts of 1 to it. */
static void replay_longest(void) {
  enum { BYTES = METER_JOURNAL_ENTRY_BYTES + METER_JOURNAL_TRAILER_BYTES, SEGMENTS = ROOM / BYTES };
  for (uint32_t i = 0; i < SEGMENTS; i++) {
    uint8_t *at = bytes + (size_t)BYTES * i;
    uint8_t trailer[METER_JOURNAL_ENTRY_BYTES];
    meter_put_entry(at, i ? METER_JOURNAL_POST : METER_JOURNAL_NEW, 0, 0, 0, i ? 1 : 0);
    meter_put_entry(trailer, METER_JOURNAL_ENTRY_BYTES, 1, i, 0, 0); /* distance, count, number */
    memcpy(at + METER_JOURNAL_ENTRY_BYTES, trailer, METER_JOURNAL_TRAILER_BYTES);
  }
  need(done(meter_journal_read(&journal, (size_t)BYTES * SEGMENTS, result)), "it is no journal");
  need(journal.known[METER_KNOWN_SEGMENTS] == SEGMENTS, "a segment is missing");
  need(done(meter_journal_replay(&table, &journal, result)), "the replay stopped");
  need(result[METER_RESULT_ENTRY] == SEGMENTS && amounts[0] == SEGMENTS - 1, "an entry is missing");
  printf("%d segments\n", SEGMENTS);
}

int main(int count, char **words) {
  if (count == 3 && strcmp(words[1], "write") == 0)
    write_day(words[2]);
  else if (count == 3 && strcmp(words[1], "replay") == 0)
    replay(words[2]);
  else if (count == 2 && strcmp(words[1], "longest") == 0)
    replay_longest();
  else
    need(0, "usage: journal write|replay FILE, or journal longest");
  return 0;
}
