/* Simulates the machines of a server. Each machine is a thread that sends its next message when it
   has the response to the last one. Each message has its own connection. The machines aren't Python
   threads, because these take turns, so a fast server would wait for its clients.

     machines CARDS      executes the lines on standard input:

       cards PORT MACHINES COUNT    sends COUNT requests that make cards of the batches B1, B2, ..
                                    with CARDS cards each. A machine continues with its card
       again PORT MACHINES COUNT    sends COUNT messages. The line is followed by the number of
                                    messages of each machine, and the length and bytes of each

   For each line it prints the total time in nanoseconds, and for each machine the number of its
   messages. For each message it prints the nanoseconds until the end of the response, the lengths
   of the message and the response, and both. Numbers have eight bytes in native byte order. */
#include "need.h"
#include <arpa/inet.h>
#include <netinet/in.h>
#include <netinet/tcp.h>
#include <pthread.h>
#include <stdatomic.h>
#include <stdint.h>
#include <string.h>
#include <sys/socket.h>
#include <time.h>
#include <unistd.h>

enum { MOST_MACHINES = 20, LOT = 1000000 };

struct bytes {
  char *at;
  size_t size, room;
};

struct machine {
  pthread_t thread;
  long number, blank, session, index;
  int runs;                           /* has a session, whose next answer is `index` */
  uint64_t count;                     /* the number of its messages */
  struct bytes asked;                 /* the messages to send again */
  struct bytes told;                  /* the output */
};

static struct machine machines[MOST_MACHINES];
static atomic_long left, opened;
static long cards;
static int port;

static char *more(struct bytes *its, size_t size) {
  if (its->size + size > its->room) {
    its->room = 2 * (its->size + size);
    its->at = realloc(its->at, its->room);
    need(its->at != 0, "memory");
  }
  its->size += size;
  return its->at + its->size - size;
}

static uint64_t now(void) {
  struct timespec it;
  clock_gettime(CLOCK_MONOTONIC, &it);
  return (uint64_t)it.tv_sec * 1000000000 + (uint64_t)it.tv_nsec;
}

/* Sends a message on a new connection, appends the response to `reply`, and returns its length. */
static uint64_t exchange(const char *message, size_t size, struct bytes *reply) {
  struct sockaddr_in at = {.sin_family = AF_INET,
                           .sin_port = htons((unsigned short)port),
                           .sin_addr = {htonl(INADDR_LOOPBACK)}};
  int one = 1, peer = socket(AF_INET, SOCK_STREAM, 0);
  setsockopt(peer, IPPROTO_TCP, TCP_NODELAY, &one, sizeof one);
  need(peer >= 0 && connect(peer, (struct sockaddr *)&at, sizeof at) == 0, "no connection");
  while (size > 0) {
    ssize_t sent = send(peer, message, size, MSG_NOSIGNAL);
    need(sent > 0, "not sent");
    message += sent;
    size -= (size_t)sent;
  }
  uint64_t whole = 0;
  for (;;) {
    char piece[65536];
    ssize_t came = recv(peer, piece, sizeof piece, 0);
    need(came >= 0, "not received");
    if (came == 0) break;
    memcpy(more(reply, (size_t)came), piece, (size_t)came);
    whole += (uint64_t)came;
  }
  close(peer);
  return whole;
}

/* Sends a message, appends the output for it, and returns the position of its response. */
static size_t told(struct machine *its, const char *message, uint64_t size) {
  uint64_t numbers[3] = {0, size, 0};
  size_t head = its->told.size;
  more(&its->told, sizeof numbers);
  memcpy(more(&its->told, size), message, size);
  size_t begin = its->told.size;
  uint64_t start = now();
  numbers[2] = exchange(message, size, &its->told);
  numbers[0] = now() - start;
  memcpy(its->told.at + head, numbers, sizeof numbers);
  its->count++;
  return begin;
}

/* ---- cards */

static long member(const char *reply, const char *name) {
  const char *found = strstr(reply, name);
  need(found != 0, reply);
  return strtol(found + strlen(name), 0, 10);
}

static size_t next_message(struct machine *its, char *message, size_t room) {
  char body[256];
  long place = its - machines;
  if (!its->runs) {
    long batch = 1 + atomic_fetch_add(&opened, 1) / cards;
    snprintf(body, sizeof body, "{\"do\":\"open\",\"batch\":\"B%ld\",\"blank\":%ld}", batch,
             place * LOT + ++its->blank);
  } else {
    snprintf(body, sizeof body, "{\"do\":\"answer\",\"session\":%ld,\"index\":%ld,\"sw\":\"9000\"}",
             its->session, its->index);
  }
  const char *text = "POST /c/m%ld/%ld HTTP/1.1\r\nHost: localhost\r\nContent-Length: %zu\r\n\r\n%s";
  return (size_t)snprintf(message, room, text, place, ++its->number, strlen(body), body);
}

static void take(struct machine *its, const char *reply) {
  need(!strncmp(reply, "HTTP/1.1 200 ", 13), reply);
  its->runs = strstr(reply, "\"result\":\"command\"") != 0;
  if (its->runs) {
    its->session = member(reply, "\"session\":");
    its->index = member(reply, "\"index\":");
  } else {
    need(strstr(reply, "\"result\":\"good\"") != 0, reply);
  }
}

static void *makes_cards(void *machine) {
  struct machine *its = machine;
  char message[512];
  while (atomic_fetch_sub(&left, 1) > 0) {
    size_t size = next_message(its, message, sizeof message);
    size_t reply = told(its, message, size);
    *more(&its->told, 1) = 0;
    its->told.size--;
    take(its, its->told.at + reply);
  }
  return 0;
}

/* ---- again */

static void *sends_again(void *machine) {
  struct machine *its = machine;
  for (size_t at = 0; at < its->asked.size;) {
    uint64_t size;
    memcpy(&size, its->asked.at + at, sizeof size);
    told(its, its->asked.at + at + sizeof size, size);
    at += sizeof size + size;
  }
  return 0;
}

static uint64_t number_read(void) {
  uint64_t number;
  need(fread(&number, sizeof number, 1, stdin) == 1, "no number");
  return number;
}

static void read_asked(struct machine *its) {
  its->asked.size = 0;
  for (uint64_t count = number_read(); count-- > 0;) {
    uint64_t size = number_read();
    memcpy(more(&its->asked, sizeof size), &size, sizeof size);
    need(fread(more(&its->asked, size), 1, size, stdin) == size, "no message");
  }
}

/* ---- running */

static void print_number(uint64_t number) { fwrite(&number, sizeof number, 1, stdout); }

static void run(int asking, void *(*work)(void *)) {
  for (int at = 0; at < asking; at++) machines[at].count = machines[at].told.size = 0;
  uint64_t start = now();
  for (int at = 0; at < asking; at++) {
    need(pthread_create(&machines[at].thread, 0, work, &machines[at]) == 0, "no thread");
  }
  for (int at = 0; at < asking; at++) pthread_join(machines[at].thread, 0);
  print_number(now() - start);
  for (int at = 0; at < asking; at++) {
    print_number(machines[at].count);
    fwrite(machines[at].told.at, 1, machines[at].told.size, stdout);
  }
  fflush(stdout);
}

int main(int count, char **words) {
  char what[16];
  int asking;
  long wanted;
  need(count == 2, "usage: machines CARDS");
  cards = atol(words[1]);
  while (scanf("%15s %d %d %ld", what, &port, &asking, &wanted) == 4 && getchar() == '\n') {
    need(asking <= MOST_MACHINES, "too many machines");
    if (!strcmp(what, "cards")) {
      left = wanted;
      run(asking, makes_cards);
    } else {
      for (int at = 0; at < asking; at++) read_asked(&machines[at]);
      run(asking, sends_again);
    }
  }
}
