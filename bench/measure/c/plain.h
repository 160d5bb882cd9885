/* Shared by the plain servers in this folder. They read a message, store it with the SQLite library
   (WAL, synchronous FULL), and respond with as many bytes as a reply with a command. They serve one
   connection at a time. */
#include "need.h"
#include <arpa/inet.h>
#include <netinet/in.h>
#include <signal.h>
#include <sqlite3.h>
#include <string.h>
#include <sys/socket.h>
#include <unistd.h>

static char message[1 << 26];
static const char reply[] =
    "HTTP/1.1 200 OK\r\nContent-Type: application/json\r\n"
    "Content-Length: 81\r\nConnection: close\r\n\r\n"
    "{\"command\":\"80E28000050101027000\",\"index\":1,"
    "\"result\":\"command\",\"session\":100000}\n";

/* Reads a complete message, appends a byte 0, and returns the position of its body, or 0. */
static size_t read_message(int peer, size_t *size) {
  size_t filled = 0, body = 0, length = 0;
  for (;;) {
    ssize_t came = read(peer, message + filled, sizeof message - 1 - filled);
    if (came <= 0) return 0;
    filled += (size_t)came;
    message[filled] = 0;
    char *end = body ? 0 : strstr(message, "\r\n\r\n");
    if (end) {
      char *named = strstr(message, "Content-Length: ");
      body = (size_t)(end + 4 - message);
      length = named && named < end ? strtoul(named + 16, 0, 10) : 0;
    }
    if (body && filled >= body + length) {
      *size = length;
      return body;
    }
  }
}

static sqlite3_stmt *prepared(sqlite3 *link, const char *text) {
  sqlite3_stmt *statement;
  need(sqlite3_prepare_v2(link, text, -1, &statement, 0) == SQLITE_OK, text);
  return statement;
}

static sqlite3 *opened(const char *path, const char *more) {
  sqlite3 *link;
  need(sqlite3_open(path, &link) == SQLITE_OK, "open");
  const char *set =
      "PRAGMA journal_mode = WAL; PRAGMA synchronous = FULL; PRAGMA locking_mode = EXCLUSIVE";
  need(sqlite3_exec(link, set, 0, 0, 0) == SQLITE_OK, set);
  need(sqlite3_exec(link, more, 0, 0, 0) == SQLITE_OK, more);
  return link;
}

/* Listens on a port of 127.0.0.1, and prints `listening`. */
static int listening(int port) {
  struct sockaddr_in at = {.sin_family = AF_INET,
                           .sin_port = htons((unsigned short)port),
                           .sin_addr = {htonl(INADDR_LOOPBACK)}};
  int one = 1, listener = socket(AF_INET, SOCK_STREAM, 0);
  setsockopt(listener, SOL_SOCKET, SO_REUSEADDR, &one, sizeof one);
  need(bind(listener, (struct sockaddr *)&at, sizeof at) == 0 && listen(listener, 128) == 0,
       "port");
  signal(SIGPIPE, SIG_IGN);
  printf("listening 127.0.0.1:%d\n", port);
  fflush(stdout);
  return listener;
}

/* Serves all messages. `keep` gets the body of each and its length. */
static void serve(int listener, void (*keep)(char *body, size_t length)) {
  for (;;) {
    int peer = accept(listener, 0, 0);
    size_t length, body = peer < 0 ? 0 : read_message(peer, &length);
    if (body) {
      keep(message + body, length);
      if (write(peer, reply, sizeof reply - 1) < 0) perror("write");
    }
    if (peer >= 0) close(peer);
  }
}
