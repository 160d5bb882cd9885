/* Executes the SQL statements of arrivals on the tables of persod with the SQLite library.

     same FILE TEXTS         runs the arrivals on standard input, and prints the nanoseconds of each
     same FILE TEXTS PORT    serves arrivals in the bodies of messages, until it is killed

   The statements are prepared once. The program decides nothing. programs/measure_kit.txt does the
   same with the toolchain's crate `sqlite`, and describes the format of arrivals. */
#include "plain.h"
#include <time.h>

struct value {
  char kind; /* i, t or b */
  sqlite3_int64 number;
  char *bytes;
  int size;
};

struct asked {
  size_t text, first, count; /* its values are `count` values from `first` on */
};

static sqlite3_stmt **texts;
static size_t text_count;
static struct value *values;
static struct asked *asked;
static size_t value_count, value_room, asked_count, asked_room;

static void *grown(void *old, size_t count, size_t *room, size_t size) {
  if (count < *room) return old;
  *room = 2 * count + 64;
  old = realloc(old, *room * size);
  need(old != 0, "memory");
  return old;
}

static void prepare_all(sqlite3 *link, const char *path) {
  char line[4096];
  size_t room = 0;
  FILE *file = fopen(path, "r");
  need(file != 0, path);
  while (fgets(line, sizeof line, file)) {
    texts = grown(texts, text_count, &room, sizeof *texts);
    texts[text_count++] = prepared(link, line);
  }
  fclose(file);
}

static int digit(char it) { return it <= '9' ? it - '0' : (it | 32) - 'a' + 10; }

/* Returns the value that a word denotes. Its bytes overwrite the word. */
static struct value value_of(char *word) {
  struct value it = {.kind = word[0], .bytes = word};
  if (it.kind == 'i') {
    it.number = strtoll(word + 1, 0, 10);
    return it;
  }
  for (char *at = word + 1; *at && at[1]; at += 2) {
    word[it.size++] = (char)(digit(at[0]) << 4 | digit(at[1]));
  }
  return it;
}

/* Reads an arrival, and overwrites it. */
static void read_arrival(char *arrival) {
  char *rest, *word_rest;
  value_count = asked_count = 0;
  for (char *line = strtok_r(arrival, "\n", &rest); line; line = strtok_r(0, "\n", &rest)) {
    char *word = strtok_r(line, " ", &word_rest);
    struct asked it = {strtoul(word, 0, 10), value_count, 0};
    need(it.text < text_count, "no such text");
    while ((word = strtok_r(0, " ", &word_rest))) {
      values = grown(values, value_count, &value_room, sizeof *values);
      values[value_count++] = value_of(word);
    }
    it.count = value_count - it.first;
    asked = grown(asked, asked_count, &asked_room, sizeof *asked);
    asked[asked_count++] = it;
  }
}

/* Reads each value of a row, as a real program does. */
static void take_row(sqlite3_stmt *statement) {
  static volatile sqlite3_int64 taken;
  for (int at = sqlite3_column_count(statement); at-- > 0;) {
    if (sqlite3_column_type(statement, at) == SQLITE_INTEGER)
      taken += sqlite3_column_int64(statement, at);
    else {
      int size = sqlite3_column_bytes(statement, at);
      char *copy = malloc((size_t)size + 1);
      need(copy != 0, "memory");
      memcpy(copy, sqlite3_column_blob(statement, at), (size_t)size);
      taken += size;
      free(copy);
    }
  }
}

static void run_one(struct asked it) {
  sqlite3_stmt *statement = texts[it.text];
  int state;
  for (size_t at = 0; at < it.count; at++) {
    struct value *value = &values[it.first + at];
    if (value->kind == 'i')
      sqlite3_bind_int64(statement, (int)at + 1, value->number);
    else if (value->kind == 't')
      sqlite3_bind_text(statement, (int)at + 1, value->bytes, value->size, SQLITE_STATIC);
    else
      sqlite3_bind_blob(statement, (int)at + 1, value->bytes, value->size, SQLITE_STATIC);
  }
  while ((state = sqlite3_step(statement)) == SQLITE_ROW) take_row(statement);
  need(state == SQLITE_DONE, sqlite3_sql(statement));
  sqlite3_reset(statement);
}

static void run_arrival(void) {
  for (size_t at = 0; at < asked_count; at++) run_one(asked[at]);
}

static void keep(char *body, size_t length) {
  (void)length;
  read_arrival(body);
  run_arrival();
}

static long long now(void) {
  struct timespec it;
  clock_gettime(CLOCK_MONOTONIC, &it);
  return it.tv_sec * 1000000000LL + it.tv_nsec;
}

static void run_all(void) {
  char *arrival = 0;
  size_t room = 0;
  while (getdelim(&arrival, &room, 0, stdin) > 0) {
    read_arrival(arrival);
    long long start = now();
    run_arrival();
    printf("%lld\n", now() - start);
    fflush(stdout);
  }
}

int main(int count, char **words) {
  need(count == 3 || count == 4, "usage: same FILE TEXTS [PORT]");
  sqlite3 *link = opened(words[1], "PRAGMA foreign_keys = ON; PRAGMA cache_size = 2000");
  prepare_all(link, words[2]);
  if (count == 4) serve(listening(atoi(words[3])), keep);
  run_all();
}
