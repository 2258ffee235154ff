/* mlir_work as a library: a session holds a module and runs commands on it, one line of a script at a time.

   A line has the same effect as in a script that `mlir_work --brief` runs. docs/GUIDE.md lists the commands,
   docs/REPORTS.md the reports; docs/EMBED.md says how to build, link and call the library, and what is proved.

   Rules for the caller. The library checks only those marked (checked):
   - A handle starts as MLIR_WORK_CLOSED and is released by mlir_work_close. Only these calls read or write it. It may
     be moved to another address, but not copied: use only one of two copies, and neither after one was closed. The
     library can't detect a copy without a table of all sessions, which threads would have to share.
   - Each call accepts a closed handle, and its answer says that the handle is closed (checked). Memory that no call
     wrote counts as a closed handle, unless its `word` field has the bytes "mlirwrk1" (checked).
   - One call at a time on a handle, and only from the thread that opened it. Handles are independent and there is no
     global state, so each thread may have its own handles.
   - No pointer is null, even if the length is 0, and no argument points into memory of another argument.
   - A call reads its input only while it runs, and keeps no pointer to it. Output is copied to the caller. No memory
     changes its owner.
   - A call needs stack for the deepest nesting in the text that it reads: 512 KB of stack are enough (measured:
     288 KB). A thread with less stack may end by SIGSEGV. (musl gives a thread 128 KB by default.)
   - No call from a signal handler, or in the child after a fork of a process with several threads. To stop a run from
     a handler or another thread, set a flag of your own that `stop` of mlir_work_rewrite_unless reads.
   - malloc, realloc and free are of one allocator, and align like those of the C library.
   If memory runs out, the answer is refusal 36, and the module and its marks are unchanged. */
#ifndef MLIR_WORK_H
#define MLIR_WORK_H

#include <stdbool.h>
#include <stddef.h>
#include <stdint.h>

#ifdef __cplusplus
extern "C" {
#endif

/* The version of these calls. It increases if a signature or the meaning of a number changes. A program that was
   compiled with another version than mlir_work_version returns must stop. */
#define MLIR_WORK_VERSION 1
uint32_t mlir_work_version(void);

/* A handle of a session; it starts as MLIR_WORK_CLOSED. */
typedef struct mlir_work_session {
  struct {
    void *at;
  } slot;
  uint64_t word;
} mlir_work_session;

#define MLIR_WORK_CLOSED { { 0 }, 0 }

/* The outcome of a line. */
enum mlir_work_outcome {
  MLIR_WORK_NOTHING = 0,    /* an empty line or a comment: no output, no change */
  MLIR_WORK_OK = 1,         /* done */
  MLIR_WORK_MADE = 2,       /* done; number: the new operation */
  MLIR_WORK_SWEPT = 3,      /* number: how many symbols were erased */
  MLIR_WORK_CONVERGED = 4,  /* number: how many rewrites were made; no rule applies any more */
  MLIR_WORK_LIMIT = 5,      /* number: how many rewrites were made, which is the limit */
  MLIR_WORK_CONVERTED = 6,  /* number: how many rules the conversion applied */
  MLIR_WORK_REFUSED = 7,    /* refusal: why; the session is unchanged */
  MLIR_WORK_REFUSED_ON = 8, /* and number: the operation that caused the refusal */
  MLIR_WORK_REFUSED_AT = 9, /* and number: the byte offset of the fault in the text, from 0 */
  MLIR_WORK_NO_SESSION = 10, /* the handle is closed */
  MLIR_WORK_APPLIED = 11,   /* number: how often the rule or pattern was applied, 0 or 1 */
  MLIR_WORK_HOLDS = 12,     /* number: the width up to which a pattern is right for all values; 0: every width */
  MLIR_WORK_EMPTY = 13,     /* number: the width up to which a pattern never applies */
  MLIR_WORK_FAILS = 14,     /* number: a width at which a pattern is wrong; the output has the values */
  MLIR_WORK_UNREFUTED = 15  /* number: the width at which samples found no counterexample */
};

/* Why a text or a command is refused: docs/REFUSALS.md. */
enum mlir_work_refusal {
  MLIR_WORK_BAD_TOKEN = 1, /* No token starts at this offset. */
  MLIR_WORK_UNEXPECTED = 2, /* A token that isn't allowed here. */
  MLIR_WORK_UNKNOWN_VALUE = 3, /* A name that is not bound, or an operand that is not visible. */
  MLIR_WORK_REDEFINED = 4, /* A name that is bound already. */
  MLIR_WORK_TYPE_MISMATCH = 5, /* The number or the types of operands or results differ from what is written. */
  MLIR_WORK_BAD_WIDTH = 6, /* A width outside the integer types. */
  MLIR_WORK_BAD_VALUE = 7, /* A value outside the range of its type. */
  MLIR_WORK_MULTIPLE_BLOCKS = 8, /* A second block in a region. */
  MLIR_WORK_SUCCESSORS = 9, /* An operation with successors. */
  MLIR_WORK_TOO_DEEP = 10, /* A nesting deeper than its limit. */
  MLIR_WORK_TOO_MANY = 11, /* A count past its limit. */
  MLIR_WORK_DUPLICATE_KEY = 12, /* A key twice in one dictionary. */
  MLIR_WORK_LEFT_OUT = 13, /* A construct of MLIR that isn't supported. */
  MLIR_WORK_NOT_UTF8 = 14, /* A text that is not UTF-8. */
  MLIR_WORK_NO_SUCH_OP = 20, /* No such operation in the module. */
  MLIR_WORK_NO_SUCH_VALUE = 21, /* No such value in the module. */
  MLIR_WORK_HAS_USES = 22, /* A result or argument that is still used. */
  MLIR_WORK_NOT_VISIBLE = 23, /* An operand would not be visible. */
  MLIR_WORK_TYPE_DIFFERS = 24, /* The types of two values differ. */
  MLIR_WORK_NO_SUCH_INDEX = 25, /* No such operand, region or block, or no such place in it. */
  MLIR_WORK_NO_SUCH_KEY = 26, /* No entry with the key. */
  MLIR_WORK_INTO_ITSELF = 27, /* An operation would be inside itself. */
  MLIR_WORK_OTHER_TABLE = 28, /* An operation would leave its symbol table. */
  MLIR_WORK_IS_ROOT = 29, /* The root can be neither moved nor removed. */
  MLIR_WORK_NOT_EMPTY = 30, /* A block still holds operations. */
  MLIR_WORK_FULL = 31, /* A count of the module would exceed its limit. */
  MLIR_WORK_IDS_EXHAUSTED = 32, /* No operation id is left. */
  MLIR_WORK_TOO_DEEP_HERE = 33, /* An operation would exceed the depth limit. */
  MLIR_WORK_TOO_MANY_MARKS = 34, /* Too many marks are open. */
  MLIR_WORK_NO_MARK = 35, /* No mark is open. */
  MLIR_WORK_MEMORY = 36, /* Memory was refused. */
  MLIR_WORK_STALE = 40, /* The analysis is stale. */
  MLIR_WORK_NO_SUCH_KIND = 41, /* No analysis of the kind is attached. */
  MLIR_WORK_KIND_TAKEN = 42, /* An analysis of the kind is attached already. */
  MLIR_WORK_BAD_LIMIT = 50, /* A limit outside its range. */
  MLIR_WORK_NOT_LEGALISED = 51, /* An operation that no rule makes legal. */
  MLIR_WORK_CHAIN_TOO_DEEP = 52, /* A chain of rules beyond the depth limit. */
  MLIR_WORK_UNRECONCILED = 53, /* A remaining cast that can't be lowered. */
  MLIR_WORK_BAD_TARGET = 54, /* A conversion target that contradicts itself. */
  MLIR_WORK_BAD_COMMAND = 60, /* A line that isn't a command. */
};

/* The answer of a call. */
typedef struct mlir_work_answer {
  uint32_t outcome; /* an mlir_work_outcome */
  uint32_t refusal; /* an mlir_work_refusal, or 0 */
  uint64_t number;  /* the number of the outcome, or 0 */
  uint64_t shown;   /* how many bytes of output mlir_work_read copies; valid until the next line runs */
} mlir_work_answer;

/* Returns the word of a refusal, as replies have it, or "" if the number is no refusal. */
static inline const char *mlir_work_refusal_word(uint32_t refusal) {
  switch (refusal) {
  case 1: return "BadToken";
  case 2: return "Unexpected";
  case 3: return "UnknownValue";
  case 4: return "Redefined";
  case 5: return "TypeMismatch";
  case 6: return "BadWidth";
  case 7: return "BadValue";
  case 8: return "MultipleBlocks";
  case 9: return "Successors";
  case 10: return "TooDeep";
  case 11: return "TooMany";
  case 12: return "DuplicateKey";
  case 13: return "LeftOut";
  case 14: return "NotUtf8";
  case 20: return "NoSuchOp";
  case 21: return "NoSuchValue";
  case 22: return "HasUses";
  case 23: return "NotVisible";
  case 24: return "TypeDiffers";
  case 25: return "NoSuchIndex";
  case 26: return "NoSuchKey";
  case 27: return "IntoItself";
  case 28: return "OtherTable";
  case 29: return "IsRoot";
  case 30: return "NotEmpty";
  case 31: return "Full";
  case 32: return "IdsExhausted";
  case 33: return "TooDeepHere";
  case 34: return "TooManyMarks";
  case 35: return "NoMark";
  case 36: return "Memory";
  case 40: return "Stale";
  case 41: return "NoSuchKind";
  case 42: return "KindTaken";
  case 50: return "BadLimit";
  case 51: return "NotLegalised";
  case 52: return "ChainTooDeep";
  case 53: return "Unreconciled";
  case 54: return "BadTarget";
  case 60: return "BadCommand";
  case 61: return "NotProved";
  }
  return "";
}

/* Parses a module and opens a session on it, with all seven analyses. A session that the handle held is closed first.
   `text`: `text_length` bytes, without a terminating 0. `key`: the seed of the library's hash tables. Choose a number
   that the author of the text can't predict, so that the text can't force collisions; no answer depends on it.
   `limit`: the limit of rewrites for a `canon` without a limit. The answer is MLIR_WORK_OK, or MLIR_WORK_REFUSED_AT or
   MLIR_WORK_REFUSED, after which the handle is closed. */
void mlir_work_open(mlir_work_session *session, const uint8_t *text, size_t text_length, uint64_t key, uint32_t limit,
                    mlir_work_answer *answer);

/* Opens a session like mlir_work_open, but keeps unknown types and attributes as their texts, in the module and in
   each line, like `mlir_work --opaque`. */
void mlir_work_open_opaque(mlir_work_session *session, const uint8_t *text, size_t text_length, uint64_t key,
                           uint32_t limit, mlir_work_answer *answer);

/* Runs a line of a script: one command, with or without a line feed at its end. A text of several lines is refused
   (60 BadCommand). The answer to `expect REFUSAL COMMAND` is the answer to COMMAND: the caller compares it with the
   expected refusal. */
void mlir_work_command(mlir_work_session *session, const uint8_t *line, size_t line_length, mlir_work_answer *answer);

/* Defines the user patterns of a text, as `mlir_work --patterns FILE` does: a pattern a line, as `double
   arith.addi(%a, %a) => arith.shli(%a, 1)`. Empty lines and lines that begin with `//` are skipped. The answer is
   MLIR_WORK_OK with the number of patterns; or the refusal of the first pattern that is refused, whose line begins at
   byte `*at` of the text, and the patterns before it stay. (This function is part of the header, not of the library,
   and isn't proved.) */
static inline void mlir_work_patterns(mlir_work_session *session, const uint8_t *text, size_t text_length, size_t *at,
                                      mlir_work_answer *answer) {
  static const char command[] = "pattern ";
  uint8_t line[4096];
  uint64_t count = 0;
  answer->outcome = MLIR_WORK_OK;
  answer->refusal = 0;
  answer->number = answer->shown = 0;
  for (size_t from = 0, end; from < text_length; from = end + 1) {
    size_t first = from;
    for (end = from; end < text_length && text[end] != '\n'; end++) {
    }
    while (first < end && (text[first] == ' ' || text[first] == '\t' || text[first] == '\r'))
      first++;
    if (first == end || (end - first > 1 && text[first] == '/' && text[first + 1] == '/'))
      continue;
    *at = from;
    if (end - first > sizeof line - (sizeof command - 1)) {
      answer->outcome = MLIR_WORK_REFUSED;
      answer->refusal = MLIR_WORK_TOO_MANY;
      return;
    }
    for (size_t i = 0; i < sizeof command - 1; i++)
      line[i] = (uint8_t)command[i];
    for (size_t i = first; i < end; i++)
      line[sizeof command - 1 + (i - first)] = text[i];
    mlir_work_command(session, line, sizeof command - 1 + (end - first), answer);
    if (answer->outcome != MLIR_WORK_OK)
      return;
    count++;
  }
  answer->number = count;
  answer->shown = 0;
}

/* The commands `begin`, `commit` and `rollback`, with the same answers. */
void mlir_work_begin(mlir_work_session *session, mlir_work_answer *answer);
void mlir_work_commit(mlir_work_session *session, mlir_work_answer *answer);
void mlir_work_rollback(mlir_work_session *session, mlir_work_answer *answer);

/* The outcome of a run that `stop` stopped. The library's own answers never have it. */
#define MLIR_WORK_STOPPED 64

/* Says whether a run is to stop. It must not call the library. */
typedef bool mlir_work_stop(void *context);

/* Runs `canon limit LIMIT`, or `rewrite RULES limit LIMIT`, in parts of at most `slice` rewrites, and asks `stop`
   before each part. `command`: `canon` or `rewrite RULES`, without a limit. If `stop` never says yes, the module and
   the answer are those of the command: each rewrite is the first that applies from the root on, so a run is the sum of
   its parts. If `stop` says yes, the outcome is MLIR_WORK_STOPPED, and number: how many rewrites were undone. Then, as
   after a refusal, the module, its ids and its marks are those before the call. A part searches the module from the
   root on: a small `slice` stops soon, and a large one costs less. 1000 is a good number. `stop` may read a flag that a
   signal handler or another thread sets, or a clock. The run opens a mark: if 16 are open, the call is refused (34
   TooManyMarks). It shows nothing. (This function is part of the header, not of the library, and isn't proved.) */
static inline void mlir_work_rewrite_unless(mlir_work_session *session, const uint8_t *command, size_t command_length,
                                            uint32_t limit, uint32_t slice, mlir_work_stop *stop, void *context,
                                            mlir_work_answer *answer) {
  static const char word[] = " limit ";
  const uint32_t largest = 1000000; /* a larger limit is refused (50 BadLimit) */
  uint8_t line[4096], digits[10];
  uint64_t made = 0;
  mlir_work_answer last = {MLIR_WORK_REFUSED, MLIR_WORK_TOO_MANY, 0, 0};
  *answer = last;
  if (command_length > sizeof line - sizeof word - sizeof digits)
    return;
  mlir_work_begin(session, answer);
  if (answer->outcome != MLIR_WORK_OK)
    return;
  for (;;) {
    const uint32_t left = limit - (uint32_t)made;
    uint32_t part = limit <= largest && slice < left ? (slice ? slice : 1) : left;
    size_t length = 0, count = 0;
    if (stop(context)) {
      last.outcome = MLIR_WORK_STOPPED;
      last.refusal = 0;
      break;
    }
    for (; length < command_length; length++)
      line[length] = command[length];
    for (size_t i = 0; i < sizeof word - 1; i++)
      line[length++] = (uint8_t)word[i];
    do
      digits[count++] = (uint8_t)('0' + part % 10);
    while (part /= 10);
    while (count)
      line[length++] = digits[--count];
    mlir_work_command(session, line, length, &last);
    if (last.outcome != MLIR_WORK_CONVERGED && last.outcome != MLIR_WORK_LIMIT)
      break;
    made += last.number;
    if (last.outcome == MLIR_WORK_CONVERGED || made >= limit)
      break;
  }
  if (last.outcome == MLIR_WORK_CONVERGED || last.outcome == MLIR_WORK_LIMIT)
    mlir_work_commit(session, answer);
  else
    mlir_work_rollback(session, answer);
  *answer = last;
  answer->shown = 0;
  if (last.outcome != MLIR_WORK_REFUSED && last.outcome != MLIR_WORK_REFUSED_ON && last.outcome != MLIR_WORK_REFUSED_AT)
    answer->number = made;
}

/* Copies the output of the last line, from byte `from` on, into `into`, at most `into_length` bytes. Returns how many
   bytes were copied: 0 at the end of the output, and for a closed handle. */
size_t mlir_work_read(mlir_work_session *session, size_t from, uint8_t *into, size_t into_length);

/* Replaces the blanks between the cells of report rows by tabs, in place, so that a caller can split the rows of any
   analysis. No cell contains a tab. (This function is part of the header, not of the library, and isn't proved.) */
static inline void mlir_work_tabs(uint8_t *rows, size_t length) {
  bool is_text = false, is_last = false;
  for (size_t i = 0, row = 0; i < length; i++) {
    if (rows[i] == '"') {
      is_text = !is_text;
    } else if (rows[i] == '\n') {
      row = i + 1;
      is_last = false;
    } else if (rows[i] == ' ' && !is_text && !is_last) {
      rows[i] = '\t';
      is_last = rows[row] == '%' && i + 1 < length && rows[i + 1] != '#'; /* a constant may contain blanks */
    }
  }
}

/* Closes the session and frees its memory. A closed handle stays closed. */
void mlir_work_close(mlir_work_session *session);

/* Edits and queries by numbers, without writing or parsing a line. */

/* In the field `region`: the value is a result. */
#define MLIR_WORK_RESULT UINT32_MAX

/* A value: result number `place` of an operation, or argument number `place` of the block of one of its regions. */
typedef struct mlir_work_value {
  uint32_t operation;
  uint32_t region; /* or MLIR_WORK_RESULT */
  uint32_t place;
} mlir_work_value;

/* The kind of an insertion point. */
enum mlir_work_place {
  MLIR_WORK_BEFORE = 0, /* directly before an operation */
  MLIR_WORK_AFTER = 1,  /* directly after it */
  MLIR_WORK_START = 2,  /* at the start of the block of one of its regions */
  MLIR_WORK_END = 3     /* at the end of that block */
};

typedef struct mlir_work_spot {
  uint32_t kind; /* an mlir_work_place; any other is refused (60 BadCommand) */
  uint32_t operation;
  uint32_t region; /* of MLIR_WORK_START and MLIR_WORK_END */
} mlir_work_spot;

/* The commands `set-operand`, `replace`, `erase` and `move`, with the same answers. */
void mlir_work_set_operand(mlir_work_session *session, uint32_t operation, uint32_t operand,
                           const mlir_work_value *value, mlir_work_answer *answer);
void mlir_work_replace(mlir_work_session *session, const mlir_work_value *old_value, const mlir_work_value *new_value,
                       mlir_work_answer *answer);
void mlir_work_erase(mlir_work_session *session, uint32_t operation, mlir_work_answer *answer);
void mlir_work_move(mlir_work_session *session, uint32_t operation, const mlir_work_spot *spot,
                    mlir_work_answer *answer);

/* The result of a query if there is no such operation, or if the handle is closed. */
#define MLIR_WORK_NONE UINT64_MAX

/* Returns whether an operation is in the module. */
bool mlir_work_has(mlir_work_session *session, uint32_t operation);

/* Returns the root: the module's own operation, which contains all others. */
uint64_t mlir_work_root(mlir_work_session *session);

/* Returns the parent operation. */
uint64_t mlir_work_parent(mlir_work_session *session, uint32_t operation);

/* Return the next and the previous operation in the same block. */
uint64_t mlir_work_next(mlir_work_session *session, uint32_t operation);
uint64_t mlir_work_previous(mlir_work_session *session, uint32_t operation);

/* Return the first and the last operation in the block of a region. */
uint64_t mlir_work_first(mlir_work_session *session, uint32_t operation, uint32_t region);
uint64_t mlir_work_last(mlir_work_session *session, uint32_t operation, uint32_t region);

/* Returns whether an operation has operand number `operand`, counted from 0, and writes the operand to `value`. If
   there is none, `value` is unchanged. */
bool mlir_work_operand(mlir_work_session *session, uint32_t operation, size_t operand, mlir_work_value *value);

/* A use of a value: the operation, and the number of its operand. */
typedef struct mlir_work_use {
  uint32_t operation;
  uint32_t operand;
} mlir_work_use;

/* Returns whether a value is used, and writes one of its uses to `use`. After that operand is set to another value, the
   call returns another use. If the value isn't used, `use` is unchanged. */
bool mlir_work_first_use(mlir_work_session *session, const mlir_work_value *value, mlir_work_use *use);

/* Reads of operations. They change nothing. A call that fills an array or a buffer writes as many items as there is
   space for, from the first item on, and returns how many there are: with a capacity of 0 it only counts. If it returns
   more than the capacity, call it again with more space. */

/* The result of a call that fills an array or a buffer, if memory ran out. Nothing was written. */
#define MLIR_WORK_NO_MEMORY (UINT64_MAX - 1)

/* Writes the operations of the module in pre-order, an operation before the operations inside it. Returns how many the
   module has, MLIR_WORK_NO_MEMORY, or MLIR_WORK_NONE if the handle is closed. To count takes no memory. */
uint64_t mlir_work_operations(mlir_work_session *session, uint32_t *operations, size_t capacity);

/* Writes the uses of a value, each once and in any order. Returns how many the value has; takes time proportional to
   them. The order stays the same until the next edit. */
size_t mlir_work_uses(mlir_work_session *session, const mlir_work_value *value, mlir_work_use *uses, size_t capacity);

/* How many operands, results, properties, discardable attributes and regions an operation has. A region has at most one
   block. */
typedef struct mlir_work_count {
  size_t operands;
  size_t results;
  size_t properties;
  size_t attributes;
  size_t regions;
} mlir_work_count;

/* Returns whether the module has an operation, and writes its counts. If there is none, `counts` is unchanged. */
bool mlir_work_counts(mlir_work_session *session, uint32_t operation, mlir_work_count *counts);

/* Returns how many arguments the block of a region has, or MLIR_WORK_NONE if there is no such region or block. */
uint64_t mlir_work_argument_count(mlir_work_session *session, uint32_t operation, uint32_t region);

/* Returns in which region of its parent an operation is. */
uint64_t mlir_work_region_of(mlir_work_session *session, uint32_t operation);

/* Reads of many operations, or of many values, by one call. Each call writes as many items as there is space for, from
   the first item on, and returns how many it wrote: 0 for a closed handle. If a call that can write more than one item
   for each input returns its capacity, there may be more items. */

/* The number of the name of an operation, and its counts. If the module has no such operation, the name is
   MLIR_WORK_NONE, and all counts are 0. */
typedef struct mlir_work_head {
  uint64_t name;
  mlir_work_count counts;
} mlir_work_head;

/* Writes the heads of operations, one for each. */
size_t mlir_work_heads(mlir_work_session *session, const uint32_t *operations, size_t count, mlir_work_head *heads,
                       size_t capacity);

/* Writes the operands of operations, one operation after the other. The heads say how many operands each one has. */
size_t mlir_work_operands(mlir_work_session *session, const uint32_t *operations, size_t count,
                          mlir_work_value *operands, size_t capacity);

/* Writes the numbers of the types of values, one for each, and MLIR_WORK_NONE for a value that the module doesn't
   have. */
size_t mlir_work_types(mlir_work_session *session, const mlir_work_value *values, size_t count, uint64_t *types,
                       size_t capacity);

/* A use of one of several values: the index of the value, the operation, and the number of its operand. */
typedef struct mlir_work_value_use {
  size_t value;
  uint32_t operation;
  uint32_t operand;
} mlir_work_value_use;

/* Writes the uses of values, one value after the other; those of one value each once, and in any order. */
size_t mlir_work_value_uses(mlir_work_session *session, const mlir_work_value *values, size_t count,
                            mlir_work_value_use *uses, size_t capacity);

/* An item of a record. Each has 12 bytes. */
typedef union mlir_work_item {
  struct {
    uint32_t name;     /* the number of the name, or UINT32_MAX if the module has no such operation */
    uint32_t operands; /* how many operands it has */
    uint32_t results;  /* how many results it has */
  } operation;
  mlir_work_value operand;
  struct {
    uint32_t type;   /* the number of the type */
    uint32_t uses;   /* how many uses it has */
    uint32_t unused; /* 0 */
  } result;
  mlir_work_use use;
} mlir_work_item;

/* Writes the records of operations, one operation after the other. A record is the operation; its operands; and for
   each result the result and then its uses, each once and in any order. This is the fastest way to read the names,
   operands, types and uses of many operations. Returns how many items it wrote. If these are fewer than the capacity,
   all records are whole. Otherwise the last one may be cut off: mlir_work_record_end says so, and the next call begins
   with its operation. */
size_t mlir_work_records(mlir_work_session *session, const uint32_t *operations, size_t count, mlir_work_item *items,
                         size_t capacity);

/* Returns the place after the record that begins at item `at` of `count` items, or 0 if the record is cut off. (This
   function is part of the header, not of the library, and isn't proved.) */
static inline size_t mlir_work_record_end(const mlir_work_item *items, size_t count, size_t at) {
  if (at >= count)
    return 0;
  size_t left = count - at - 1, need = items[at].operation.operands;
  if (need > left)
    return 0;
  size_t end = at + 1 + need;
  for (uint32_t results = items[at].operation.results; results > 0; results--) {
    if (end >= count)
      return 0;
    need = items[end].result.uses;
    left = count - end - 1;
    if (need > left)
      return 0;
    end += 1 + need;
  }
  return end;
}

/* Names, types and attributes are interned: a session has a number for each. Two names of a session are equal exactly
   if their numbers are equal, and so are two types and two attributes. A number keeps its meaning until the session is
   closed: neither an edit nor a rollback changes or releases it. Another session has other numbers. */

/* Returns the number of the name of an operation, as of "arith.addi". */
uint64_t mlir_work_name_of(mlir_work_session *session, uint32_t operation);

/* Returns the number of the type of a value, or MLIR_WORK_NONE if the module has no such value. */
uint64_t mlir_work_value_type(mlir_work_session *session, const mlir_work_value *value);

/* An entry of the properties or the discardable attributes of an operation. */
typedef struct mlir_work_entry {
  uint32_t key;       /* the number of a name */
  uint32_t attribute; /* the number of an attribute */
} mlir_work_entry;

/* Return whether an operation has property, or discardable attribute, number `index`, in the order of the keys, and
   write the entry. If there is none, `entry` is unchanged. */
bool mlir_work_property_at(mlir_work_session *session, uint32_t operation, size_t index, mlir_work_entry *entry);
bool mlir_work_attribute_at(mlir_work_session *session, uint32_t operation, size_t index, mlir_work_entry *entry);

/* Return the number of the property, or discardable attribute, of an operation at a key, or MLIR_WORK_NONE if there is
   none. The key is the number of a name. */
uint64_t mlir_work_property_by_key(mlir_work_session *session, uint32_t operation, uint32_t key);
uint64_t mlir_work_attribute_by_key(mlir_work_session *session, uint32_t operation, uint32_t key);

/* Returns the number of the name with this text, or MLIR_WORK_NONE if the session has no such name: then no operation
   has that name or key. Takes time proportional to the names of the session, so call it once a name. */
uint64_t mlir_work_find_name(mlir_work_session *session, const uint8_t *text, size_t text_length);

/* Get the number of the name, type or attribute with this text. A new one is interned, which changes nothing else. The
   answer is MLIR_WORK_OK with the number; or MLIR_WORK_REFUSED_AT or MLIR_WORK_REFUSED. */
void mlir_work_name(mlir_work_session *session, const uint8_t *text, size_t text_length, mlir_work_answer *answer);
void mlir_work_type(mlir_work_session *session, const uint8_t *text, size_t text_length, mlir_work_answer *answer);
void mlir_work_attribute(mlir_work_session *session, const uint8_t *text, size_t text_length, mlir_work_answer *answer);

/* An integer attribute: its value, a number below 2^w of a type of w bits, in two parts of 64 bits; the number of its
   type; and the width w, or 0 for index, which has 64 bits. */
typedef struct mlir_work_integer_value {
  uint64_t low;
  uint64_t high;
  uint32_t type;
  uint32_t width;
} mlir_work_integer_value;

/* Returns whether an attribute is an integer, such as `5 : i32` or `true`, and writes it to `integer`. If it is none,
   `integer` is unchanged. */
bool mlir_work_integer(mlir_work_session *session, uint32_t attribute, mlir_work_integer_value *integer);

/* Edits by the numbers of names, types and attributes. A number that the session doesn't have is refused (60
   BadCommand), and nothing changes. */

/* A new operation: where it is inserted, and the number of its name. */
typedef struct mlir_work_new {
  mlir_work_spot spot;
  uint32_t name;
} mlir_work_new;

/* An entry of a new operation. */
typedef struct mlir_work_new_entry {
  uint32_t key;         /* the number of a name */
  uint32_t attribute;   /* the number of an attribute */
  uint32_t is_property; /* 0: a discardable attribute, or a property if its key is inherent to the operation */
} mlir_work_new_entry;

/* Inserts an operation without regions: its operands, the numbers of the types of its results, and its entries, in any
   order. The operation is that of `insert` with the text: an inherent key is put among the properties, and each
   dictionary is sorted by the texts of its keys. A key that is given twice is refused (12 DuplicateKey), and a 257th
   entry of a dictionary (11 TooMany). The answer is that of `insert`: MLIR_WORK_MADE with the number of the new
   operation, or MLIR_WORK_REFUSED. */
void mlir_work_insert(mlir_work_session *session, const mlir_work_new *operation, const mlir_work_value *operands,
                      size_t operand_count, const uint32_t *results, size_t result_count,
                      const mlir_work_new_entry *entries, size_t entry_count, mlir_work_answer *answer);

/* The commands `set-attr` and `drop-attr`, with the same answers. */
void mlir_work_set_attribute(mlir_work_session *session, uint32_t operation, uint32_t key, uint32_t attribute,
                             mlir_work_answer *answer);
void mlir_work_drop_attribute(mlir_work_session *session, uint32_t operation, uint32_t key, mlir_work_answer *answer);

/* The kinds of analyses. */
enum mlir_work_kind {
  MLIR_WORK_USES = 1,
  MLIR_WORK_SYMBOLS = 2,
  MLIR_WORK_DIAGNOSTICS = 3,
  MLIR_WORK_EFFECTS = 4,
  MLIR_WORK_DEAD = 5,
  MLIR_WORK_CONSTANTS = 6,
  MLIR_WORK_UNREACHED = 7
};

/* What a cell of a report row is. */
enum mlir_work_cell_kind {
  MLIR_WORK_CELL_OPERATION = 0, /* `value.operation` */
  MLIR_WORK_CELL_VALUE = 1,     /* `value` */
  MLIR_WORK_CELL_NUMBER = 2,    /* `low` */
  MLIR_WORK_CELL_NAME = 3,      /* `low`: the number of a name, the text of a symbol */
  MLIR_WORK_CELL_ATTRIBUTE = 4, /* `low`: the number of an attribute, a symbol reference */
  MLIR_WORK_CELL_CONSTANT = 5,  /* `low` and `high`: a number below 2^w; `value.place`: the width w, and 0 for index */
  MLIR_WORK_CELL_RULE = 6,      /* `low`: a rule of the verifier */
  MLIR_WORK_CELL_WORD = 7       /* `low`: an mlir_work_word */
};

/* A word of a report row. */
enum mlir_work_word {
  MLIR_WORK_WORD_DEF = 0,
  MLIR_WORK_WORD_DUPLICATE = 1,
  MLIR_WORK_WORD_USE = 2,
  MLIR_WORK_WORD_UNRESOLVED = 3,
  MLIR_WORK_WORD_MISMATCH = 4,
  MLIR_WORK_WORD_UNKNOWN = 5,
  MLIR_WORK_WORD_ALLOCATE = 6,
  MLIR_WORK_WORD_FREE = 7,
  MLIR_WORK_WORD_READ = 8,
  MLIR_WORK_WORD_WRITE = 9
};

/* A cell of a report row. */
typedef struct mlir_work_cell {
  uint32_t kind; /* an mlir_work_cell_kind */
  mlir_work_value value;
  uint64_t low;
  uint64_t high;
  size_t left; /* how many cells of the row follow: a row ends after a cell with 0 */
} mlir_work_cell;

/* Writes the cells of the rows that `report` shows, one row after the other, as many as there is space for. The answer
   is MLIR_WORK_OK with the number of all cells, or MLIR_WORK_REFUSED. `kind`: an mlir_work_kind. The output of the last
   line is unchanged. */
void mlir_work_report(mlir_work_session *session, uint32_t kind, mlir_work_cell *cells, size_t capacity,
                      mlir_work_answer *answer);

/* Write the text of a name, a type or an attribute, as a printed module has it, without a terminating 0. They return
   its length, MLIR_WORK_NONE if the session has no such number, or MLIR_WORK_NO_MEMORY; a name needs no memory. */
uint64_t mlir_work_name_text(mlir_work_session *session, uint32_t name, uint8_t *into, size_t into_length);
uint64_t mlir_work_type_text(mlir_work_session *session, uint32_t type, uint8_t *into, size_t into_length);
uint64_t mlir_work_attribute_text(mlir_work_session *session, uint32_t attribute, uint8_t *into, size_t into_length);

/* Returns the operation after another one in pre-order, among `root` and the operations inside it, or MLIR_WORK_NONE at
   the end. A walk begins with `root`. To erase or move an operation during a walk, ask for the next one first. (This
   function is part of the header, not of the library, and isn't proved.) */
static inline uint64_t mlir_work_walk_next(mlir_work_session *session, uint32_t operation, uint32_t root) {
  uint64_t region = 0;
  for (;;) {
    mlir_work_count counts;
    uint64_t found;
    if (!mlir_work_counts(session, operation, &counts))
      return MLIR_WORK_NONE;
    for (; region < counts.regions; region++)
      if ((found = mlir_work_first(session, operation, (uint32_t)region)) != MLIR_WORK_NONE)
        return found;
    if (operation == root)
      return MLIR_WORK_NONE;
    if ((found = mlir_work_next(session, operation)) != MLIR_WORK_NONE)
      return found;
    region = mlir_work_region_of(session, operation) + 1; /* the regions of the parent that are still ahead */
    if ((found = mlir_work_parent(session, operation)) == MLIR_WORK_NONE)
      return MLIR_WORK_NONE;
    operation = (uint32_t)found;
  }
}

#ifdef __cplusplus
}
#endif

#endif
