/* A plain server for comparisons. It stores the target and the body of each message in one small
   transaction with the SQLite library.
   usage: yardstick FILE PORT */
#include "plain.h"

static sqlite3_stmt *begin, *insert, *commit;

static void step(sqlite3_stmt *statement) {
  need(sqlite3_step(statement) == SQLITE_DONE, "step");
  sqlite3_reset(statement);
}

static void keep(char *body, size_t length) {
  step(begin);
  sqlite3_bind_blob(insert, 1, message, (int)(strchr(message, '\r') - message), SQLITE_STATIC);
  sqlite3_bind_blob(insert, 2, body, (int)length, SQLITE_STATIC);
  sqlite3_bind_blob(insert, 3, reply, sizeof reply - 1, SQLITE_STATIC);
  step(insert);
  step(commit);
}

int main(int count, char **words) {
  need(count == 3, "usage: yardstick FILE PORT");
  const char *table = "CREATE TABLE IF NOT EXISTS reply (id INTEGER PRIMARY KEY, "
                      "target BLOB NOT NULL, ask BLOB NOT NULL, body BLOB NOT NULL)";
  sqlite3 *link = opened(words[1], table);
  begin = prepared(link, "BEGIN IMMEDIATE");
  insert = prepared(link, "INSERT INTO reply (target, ask, body) VALUES (?, ?, ?)");
  commit = prepared(link, "COMMIT");
  serve(listening(atoi(words[2])), keep);
}
