/* The meter's table for C: link target/staticlib/libhost.a (and librecorder.a and
 * libreplayer.a for the journal's functions), or target/bindings/libmeter.so.
 *
 * The archive keeps no memory and allocates none. A table is six arrays that the caller owns and lends for the time of
 * a call: two for the state, three for the rows, one for the log. docs/LIBRARY.md says more, with examples.
 *
 * Every pointer must be aligned for its type and must not be null, also where a length is 0; the arrays must not
 * overlap; and no other thread may read or write them during a call. This is what the caller owes. Whatever the arrays
 * hold, no call traps, loops for ever, or touches anything outside of them. */
#ifndef METER_H
#define METER_H

#include <stddef.h>
#include <stdint.h>

#ifdef __cplusplus
extern "C" {
#endif

/* Limits. A table with more rows or entries lent answers METER_BAD_STATE to every call. */
enum { METER_ROWS_LIMIT = 65536, METER_LOG_LIMIT = 1048576, METER_SNAPSHOTS_LIMIT = 32 };

/* Layout of the state. All zero is a fresh table; the rows and the log then may hold anything.
 * numbers: count, used, open, and for each mark from the outermost on its log length and its keys.
 * serials: the last serial given, and each mark's serial. */
enum {
  METER_NUMBERS = 67,
  METER_SERIALS = 33,
  METER_NUMBERS_COUNT = 0, /* live keys are 0 to count - 1 */
  METER_NUMBERS_USED = 1,  /* entries of the log in use */
  METER_NUMBERS_OPEN = 2,  /* open snapshots */
  METER_NUMBERS_MARKS = 3, /* mark i has its log length here + 2 * i, its keys one further on */
  METER_SERIALS_LAST = 0,
  METER_SERIALS_MARKS = 1 /* mark i has its serial here + i */
};

/* Layout of the rows and of the log. Row i has its parent and its amount at i of these arrays, and two numbers of
 * crowns from METER_CROWN_NUMBERS * i on; only a root's crown and amount mean anything. Entry i is the seven numbers of
 * log from METER_ENTRY_NUMBERS * i on. */
enum {
  METER_CROWN_NUMBERS = 2,
  METER_CROWN_RANK = 0,
  METER_CROWN_OWNER = 1, /* 0 is none */
  METER_ENTRY_NUMBERS = 7,
  METER_ENTRY_KIND = 0,
  METER_ENTRY_KEY = 1,
  METER_ENTRY_PARENT = 2, /* from here on the row as it was before */
  METER_ENTRY_RANK = 3,
  METER_ENTRY_OWNER = 4,
  METER_ENTRY_AMOUNT_LOW = 5, /* the amount's lower 32 bits, and its upper ones */
  METER_ENTRY_AMOUNT_HIGH = 6
};

/* Kinds of log entries. */
enum {
  METER_KIND_NEW = 1,    /* a new key; the entry's row is 0 */
  METER_KIND_CHANGED = 2 /* a changed row */
};

/* A call is four numbers: a code, then a, b and c as named here. Numbers that are not named are 0.
 * Keys and owners are below 2^32; owner 0 is none. Amounts and tokens are any 64 bits. */
enum {
  METER_CALL_NUMBERS = 4,
  METER_CODE_NEW = 0,       /* owner, amount */
  METER_CODE_LEN = 1,       /* */
  METER_CODE_FIND = 2,      /* key */
  METER_CODE_UNIONED = 3,   /* key, key */
  METER_CODE_JOIN = 4,      /* key, key */
  METER_CODE_POST = 5,      /* key, owner, amount */
  METER_CODE_PROBE = 6,     /* key */
  METER_CODE_PROBE_KEY = 7, /* key */
  METER_CODE_TRY_PROBE = 8, /* key */
  METER_CODE_SNAPSHOT = 9,  /* */
  METER_CODE_ROLLBACK = 10, /* token */
  METER_CODE_COMMIT = 11,   /* token */
  METER_CODE_KEYS = 12,     /* token */
  METER_CODE_ACTIONS = 13,  /* token */
  METER_CODE_CHANGES = 14   /* token */
};

/* An answer is nine numbers. Those that a call doesn't name are 0. */
enum {
  METER_ANSWER_NUMBERS = 9,
  METER_ANSWER_NO = 0,     /* METER_DONE or the number of refusal */
  METER_ANSWER_KEY = 1,    /* new: the key; find, probe_key: the root */
  METER_ANSWER_TOKEN = 2,  /* snapshot: the token */
  METER_ANSWER_OWNER = 3,  /* probe, probe_key: the group's; try_probe: the row's, where it is a root */
  METER_ANSWER_AMOUNT = 4, /* as the owner */
  METER_ANSWER_STEPS = 5,  /* find, unioned, join, post, probe, probe_key: redirects followed */
  METER_ANSWER_YES = 6,    /* unioned, changes: yes or no; try_probe: whether there is a value */
  METER_ANSWER_FROM = 7,   /* keys, actions: where the range begins */
  METER_ANSWER_TO = 8      /* keys, actions: its end, not in it; len: the count */
};

/* Refusals of a call, in its answer. 4 and 5 report steps and keep the walks' rewrites; every other refusal leaves
 * rows, log and state untouched. */
enum {
  METER_DONE = 0,
  METER_NO_KEY = 1,         /* a named key is not below the count */
  METER_KEYS_FULL = 2,      /* new: all lent rows are live */
  METER_LOG_FULL = 3,       /* a snapshot is open and the call's entries don't fit */
  METER_OWNER_CLASH = 4,    /* two different named owners */
  METER_TOO_MUCH = 5,       /* a sum above 18446744073709551615 */
  METER_NOT_INNERMOST = 6,  /* rollback, commit: not the token of the innermost open snapshot */
  METER_TOO_DEEP = 7,       /* snapshot: 32 are open */
  METER_BROKEN_TABLE = 8,   /* damaged memory: parents, ranks, marks or entries that no table has */
  METER_BAD_STATE = 9,      /* above the limits, parts of unequal length, or a state that is none */
  METER_SERIALS_SPENT = 10, /* snapshot: the last serial is 18446744073709551615 */
  METER_NOT_OPEN = 11,      /* keys, actions, changes: no open snapshot has the token */
  METER_BAD_JOURNAL = 12,   /* bytes that are no journal, or a journal that this can't be written to */
  METER_NO_ROOM = 16        /* the journal would be longer than its bytes */
};

/* What the functions return, tested in this order. After any but METER_CARRIED_OUT nothing at all was written. */
enum {
  METER_CARRIED_OUT = 0, /* what was asked for was done or refused: the answer or the result says which */
  METER_NO_STATE = 1,    /* numbers is not 67 long, serials not 33, or known not 4 numbers of a journal */
  METER_NO_CALL = 2,     /* a length that is no call's or no list's, or four numbers that are no call */
  METER_NO_ANSWERS = 3   /* fewer than nine numbers of room for each answer, or not two for a result */
};

/* Carries out one call: call_len is 4, and the answer's first nine numbers are written. Lengths are in elements. */
uint32_t meter_call(uint32_t *numbers, size_t numbers_len, uint64_t *serials, size_t serials_len, uint32_t *parents,
                    size_t parents_len, uint32_t *crowns, size_t crowns_len, uint64_t *amounts, size_t amounts_len,
                    uint32_t *log, size_t log_len, const uint64_t *call, size_t call_len, uint64_t *answer,
                    size_t answer_len);

/* Carries out a list: calls_len is 4 for each call, and nine numbers are written for each, one after the other. The
 * whole list is tested before its first call is carried out. A refused call doesn't stop the list. */
uint32_t meter_calls(uint32_t *numbers, size_t numbers_len, uint64_t *serials, size_t serials_len, uint32_t *parents,
                     size_t parents_len, uint32_t *crowns, size_t crowns_len, uint64_t *amounts, size_t amounts_len,
                     uint32_t *log, size_t log_len, const uint64_t *calls, size_t calls_len, uint64_t *answers,
                     size_t answers_len);

/* ---- The journal: the calls that change a table and were answered METER_DONE, to be carried out again later.
 *
 * Its bytes are segments of 1 to 2048 entries of 24 bytes, each ended by a trailer of 12. Entries that are recorded
 * wait behind the last trailer, and are no part of the journal yet: a segment is ended at its 2048th entry, or by a
 * flush. */
enum {
  METER_JOURNAL_ENTRY_BYTES = 24,
  METER_JOURNAL_TRAILER_BYTES = 12,
  METER_JOURNAL_SEGMENT = 2048,
  METER_JOURNAL_NEW = 1,      /* owner, amount */
  METER_JOURNAL_POST = 2,     /* key a, owner, amount */
  METER_JOURNAL_JOIN = 3,     /* key a, key b */
  METER_JOURNAL_SNAPSHOT = 4, /* */
  METER_JOURNAL_ROLLBACK = 5, /* of the innermost snapshot */
  METER_JOURNAL_COMMIT = 6    /* likewise */
};

/* What a recorder knows of the journal that it adds to. All zero is an empty journal's. */
enum {
  METER_KNOWN_NUMBERS = 4,
  METER_KNOWN_USED = 0,     /* the journal's length in bytes */
  METER_KNOWN_SEGMENTS = 1, /* and in segments */
  METER_KNOWN_OPEN = 2,     /* snapshots that are open in it, the waiting entries counted; below 2^32 */
  METER_KNOWN_WAITING = 3   /* entries that wait behind it */
};

/* A result is two numbers. */
enum {
  METER_RESULT_NUMBERS = 2,
  METER_RESULT_NO = 0,     /* METER_DONE or the number of refusal */
  METER_RESULT_LENGTH = 1, /* flush, append, known: the journal's length in bytes, afterwards */
  METER_RESULT_ENTRY = 1   /* replay: the place of the entry that was refused, or how many were carried out */
};

/* Carries out a list as meter_calls does, and writes each call of the six kinds that is answered METER_DONE behind the
 * journal. Such a call is not carried out, and its answer is METER_BAD_JOURNAL, where known can't be of a journal of
 * this table: another number of open snapshots, 2048 entries that wait, or 2^32 segments; else METER_NO_ROOM, where the
 * entry and a trailer don't fit into the bytes. */
uint32_t meter_record(uint32_t *numbers, size_t numbers_len, uint64_t *serials, size_t serials_len, uint32_t *parents,
                      size_t parents_len, uint32_t *crowns, size_t crowns_len, uint64_t *amounts, size_t amounts_len,
                      uint32_t *log, size_t log_len, const uint64_t *calls, size_t calls_len, uint64_t *answers,
                      size_t answers_len, uint8_t *journal, size_t journal_len, uint64_t *known, size_t known_len);

/* Makes the entries that wait a segment, if there are any. METER_BAD_JOURNAL, with nothing changed, where known can't
 * be what meter_record left for these bytes. */
uint32_t meter_flush(uint8_t *journal, size_t journal_len, uint64_t *known, size_t known_len, uint64_t *result,
                     size_t result_len);

/* Appends entries, 24 bytes each, as one segment to the journal that is the first `used` bytes. METER_BAD_JOURNAL where
 * it isn't valid or wouldn't be with them, then METER_NO_ROOM; nothing is written then. What waits is written over, so
 * flush first; and known has to be worked out again. */
uint32_t meter_append(uint8_t *journal, size_t journal_len, size_t used, const uint8_t *entries, size_t entries_len,
                      uint64_t *result, size_t result_len);

/* Judges a whole journal, and writes what a recorder has to know of it. METER_BAD_JOURNAL and length 0 where it isn't
 * valid; known is left then. */
uint32_t meter_known(const uint8_t *journal, size_t journal_len, uint64_t *known, size_t known_len, uint64_t *result,
                     size_t result_len);

/* Carries out a journal's entries, up to the first that isn't answered METER_DONE. The journal is judged whole before:
 * METER_BAD_JOURNAL, and entry 0, where it isn't valid. The table should be fresh. */
uint32_t meter_replay(uint32_t *numbers, size_t numbers_len, uint64_t *serials, size_t serials_len, uint32_t *parents,
                      size_t parents_len, uint32_t *crowns, size_t crowns_len, uint64_t *amounts, size_t amounts_len,
                      uint32_t *log, size_t log_len, const uint8_t *journal, size_t journal_len, uint64_t *result,
                      size_t result_len);

/* The six arrays of a table in one place. */
struct meter_table {
  uint32_t *numbers; /* METER_NUMBERS */
  uint64_t *serials; /* METER_SERIALS */
  size_t rows;
  uint32_t *parents; /* rows */
  uint32_t *crowns;  /* METER_CROWN_NUMBERS * rows */
  uint64_t *amounts; /* rows */
  size_t entries;
  uint32_t *log; /* METER_ENTRY_NUMBERS * entries */
};

#define METER_LEND(t)                                                                             \
  (t)->numbers, METER_NUMBERS, (t)->serials, METER_SERIALS, (t)->parents, (t)->rows, (t)->crowns, \
      METER_CROWN_NUMBERS *(t)->rows, (t)->amounts, (t)->rows, (t)->log, METER_ENTRY_NUMBERS *(t)->entries

/* The numbers of row i's crown, and of entry i. */
static inline const uint32_t *meter_crown(const struct meter_table *t, size_t i) {
  return t->crowns + METER_CROWN_NUMBERS * i;
}

static inline const uint32_t *meter_entry(const struct meter_table *t, size_t i) {
  return t->log + METER_ENTRY_NUMBERS * i;
}

static inline uint64_t meter_entry_amount(const uint32_t *entry) {
  return (uint64_t)entry[METER_ENTRY_AMOUNT_HIGH] << 32 | entry[METER_ENTRY_AMOUNT_LOW];
}

/* One call on a table: four numbers in, nine out. */
static inline uint32_t meter_ask(const struct meter_table *t, const uint64_t *call, uint64_t *answer) {
  return meter_call(METER_LEND(t), call, METER_CALL_NUMBERS, answer, METER_ANSWER_NUMBERS);
}

/* A list of `n` calls on a table: 4 * n numbers in, 9 * n out. */
static inline uint32_t meter_ask_all(const struct meter_table *t, const uint64_t *calls, size_t n, uint64_t *answers) {
  return meter_calls(METER_LEND(t), calls, METER_CALL_NUMBERS * n, answers, METER_ANSWER_NUMBERS * n);
}

/* A journal's bytes, and what is known of it. With all numbers zero it is empty, whatever the bytes hold. */
struct meter_journal {
  uint8_t *bytes;
  size_t room; /* how many bytes are lent */
  uint64_t known[METER_KNOWN_NUMBERS];
};

/* A list of `n` calls on a table, written to a journal. */
static inline uint32_t meter_journal_record(const struct meter_table *t, struct meter_journal *j, const uint64_t *calls,
                                            size_t n, uint64_t *answers) {
  return meter_record(METER_LEND(t), calls, METER_CALL_NUMBERS * n, answers, METER_ANSWER_NUMBERS * n, j->bytes,
                      j->room, j->known, METER_KNOWN_NUMBERS);
}

/* What waits made a segment. From then on the first result[METER_RESULT_LENGTH] bytes are all of the journal. */
static inline uint32_t meter_journal_flush(struct meter_journal *j, uint64_t *result) {
  return meter_flush(j->bytes, j->room, j->known, METER_KNOWN_NUMBERS, result, METER_RESULT_NUMBERS);
}

/* The journal that the first `used` bytes are: judged, and known where it is valid. */
static inline uint32_t meter_journal_read(struct meter_journal *j, size_t used, uint64_t *result) {
  return meter_known(j->bytes, used, j->known, METER_KNOWN_NUMBERS, result, METER_RESULT_NUMBERS);
}

/* Entries, `n` of 24 bytes, appended as one segment. What waits is made a segment first. */
static inline uint32_t meter_journal_append(struct meter_journal *j, const uint8_t *entries, size_t n,
                                            uint64_t *result) {
  uint32_t code = meter_journal_flush(j, result);
  if (code != METER_CARRIED_OUT || result[METER_RESULT_NO] != METER_DONE) return code;
  code = meter_append(j->bytes, j->room, (size_t)j->known[METER_KNOWN_USED], entries, METER_JOURNAL_ENTRY_BYTES * n,
                      result, METER_RESULT_NUMBERS);
  if (code != METER_CARRIED_OUT || result[METER_RESULT_NO] != METER_DONE) return code;
  return meter_journal_read(j, (size_t)result[METER_RESULT_LENGTH], result);
}

/* A journal carried out on a table. What waits is made a segment first. */
static inline uint32_t meter_journal_replay(const struct meter_table *t, struct meter_journal *j, uint64_t *result) {
  const uint32_t code = meter_journal_flush(j, result);
  if (code != METER_CARRIED_OUT || result[METER_RESULT_NO] != METER_DONE) return code;
  return meter_replay(METER_LEND(t), j->bytes, (size_t)j->known[METER_KNOWN_USED], result, METER_RESULT_NUMBERS);
}

/* How many entries a journal has, with those that wait. */
static inline uint64_t meter_journal_entries(const struct meter_journal *j) {
  return (j->known[METER_KNOWN_USED] - METER_JOURNAL_TRAILER_BYTES * j->known[METER_KNOWN_SEGMENTS]) /
             METER_JOURNAL_ENTRY_BYTES +
         j->known[METER_KNOWN_WAITING];
}

/* The 24 bytes of an entry, little-endian, written to `entry`. Numbers that its kind doesn't name are 0. */
static inline void meter_put_entry(uint8_t *entry, uint32_t kind, uint32_t a, uint32_t b, uint32_t owner,
                                   uint64_t amount) {
  const uint32_t words[6] = {kind, a, b, owner, (uint32_t)amount, (uint32_t)(amount >> 32)};
  for (int i = 0; i < METER_JOURNAL_ENTRY_BYTES; i++) entry[i] = (uint8_t)(words[i / 4] >> 8 * (i % 4));
}

/* The four numbers of each call, written to `call`. */
static inline void meter_put(uint64_t *call, uint64_t code, uint64_t a, uint64_t b, uint64_t c) {
  call[0] = code;
  call[1] = a;
  call[2] = b;
  call[3] = c;
}

static inline void meter_put_new(uint64_t *call, uint32_t owner, uint64_t amount) {
  meter_put(call, METER_CODE_NEW, owner, amount, 0);
}

static inline void meter_put_len(uint64_t *call) { meter_put(call, METER_CODE_LEN, 0, 0, 0); }

static inline void meter_put_find(uint64_t *call, uint32_t key) { meter_put(call, METER_CODE_FIND, key, 0, 0); }

static inline void meter_put_unioned(uint64_t *call, uint32_t a, uint32_t b) {
  meter_put(call, METER_CODE_UNIONED, a, b, 0);
}

static inline void meter_put_join(uint64_t *call, uint32_t a, uint32_t b) { meter_put(call, METER_CODE_JOIN, a, b, 0); }

static inline void meter_put_post(uint64_t *call, uint32_t key, uint32_t owner, uint64_t amount) {
  meter_put(call, METER_CODE_POST, key, owner, amount);
}

static inline void meter_put_probe(uint64_t *call, uint32_t key) { meter_put(call, METER_CODE_PROBE, key, 0, 0); }

static inline void meter_put_probe_key(uint64_t *call, uint32_t key) {
  meter_put(call, METER_CODE_PROBE_KEY, key, 0, 0);
}

static inline void meter_put_try_probe(uint64_t *call, uint32_t key) {
  meter_put(call, METER_CODE_TRY_PROBE, key, 0, 0);
}

static inline void meter_put_snapshot(uint64_t *call) { meter_put(call, METER_CODE_SNAPSHOT, 0, 0, 0); }

static inline void meter_put_rollback(uint64_t *call, uint64_t token) {
  meter_put(call, METER_CODE_ROLLBACK, token, 0, 0);
}

static inline void meter_put_commit(uint64_t *call, uint64_t token) { meter_put(call, METER_CODE_COMMIT, token, 0, 0); }

static inline void meter_put_keys(uint64_t *call, uint64_t token) { meter_put(call, METER_CODE_KEYS, token, 0, 0); }

static inline void meter_put_actions(uint64_t *call, uint64_t token) {
  meter_put(call, METER_CODE_ACTIONS, token, 0, 0);
}

static inline void meter_put_changes(uint64_t *call, uint64_t token) {
  meter_put(call, METER_CODE_CHANGES, token, 0, 0);
}

#ifdef __cplusplus
}
#endif

#endif
