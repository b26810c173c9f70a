/* A worker over a store in SQLite, the file that is its first word. It goes on with what killed ones have left. With a second word it begins a
 * request, and is killed within its second function. The host decides what is put, who is gone and what is called. */
#define _POSIX_C_SOURCE 200809L /* nanosleep */
#include "cf.h"
#include <signal.h>
#include <sqlite3.h>
#include <stdio.h>
#include <stdlib.h>
#include <time.h>

enum { PRICE, TOTAL, CHARGED, RETRIED, STAGES, DOUBLE = 1, CHARGE = 2, LEASE = 300, MOST = 32 };

static const uint32_t forms[STAGES] = {CF_SOURCE, CF_APPLY, CF_APPLY, CF_EXCEPTIONALLY};
static const cf_note notes[STAGES] = {{0, 0}, {CF_NOTE_CALLS(DOUBLE), 0}, {CF_NOTE_CALLS(CHARGE), 0}, {CF_NOTE_TRIES(CHARGED), 0}};
static const char schema[] =
    "CREATE TABLE IF NOT EXISTS requests(number INTEGER PRIMARY KEY, is_open, changed); INSERT OR IGNORE INTO requests VALUES(7, 1, 1);"
    "CREATE TABLE IF NOT EXISTS entries(request, place, word, token, what, moment, payload, PRIMARY KEY(request, place));"
    "CREATE TABLE IF NOT EXISTS sessions(number INTEGER PRIMARY KEY, count);";
static sqlite3 *store;
static cf_handle host, plan;
static cf_host_order order;
static uint64_t now, session, results[STAGES];
static bool dies;

static void check(bool is_well, const char *what) {
  if (!is_well) fprintf(stderr, "%s: %s\n", what, sqlite3_errmsg(store)), exit(1);
}
#define DO(call) check((call) == CF_OK, #call)

static sqlite3_stmt *ask(const char *text, const uint64_t *numbers) {
  sqlite3_stmt *it;
  check(sqlite3_prepare_v2(store, text, -1, &it, NULL) == SQLITE_OK, text);
  for (int k = 0; k < sqlite3_bind_parameter_count(it); k++) sqlite3_bind_int64(it, k + 1, (int64_t)numbers[k]);
  return it;
}
#define AT(column) ((uint64_t)sqlite3_column_int64(it, column))
#define ASK(text, ...) ask(text, (const uint64_t[]){__VA_ARGS__})

/* Goes on to the next row of an answer, which is over where there is none. */
static bool next(sqlite3_stmt *it) {
  const int told = sqlite3_step(it);
  check(told == SQLITE_ROW || told == SQLITE_DONE, sqlite3_sql(it));
  return told == SQLITE_ROW || (sqlite3_finalize(it), false);
}

static uint64_t last(sqlite3_stmt *it) {
  uint64_t number = 0;
  while (next(it)) number = AT(0);
  return number;
}
#define RUN(...) last(ASK(__VA_ARGS__))

static void beat(void) {
  cf_host_beat beats[MOST];
  size_t n = 0;
  RUN("INSERT INTO sessions VALUES(?, 1) ON CONFLICT DO UPDATE SET count = count + 1", session);
  for (sqlite3_stmt *it = ASK("SELECT number, count FROM sessions", 0); next(it); n++) beats[n] = (cf_host_beat){AT(0), AT(1)};
  DO(cf_host_beats(&host, now, order.ticket, RUN("SELECT CAST(julianday('now') * 86400000 AS INTEGER)", 0), beats, n));
}

static void tell_news(bool of_all) {
  cf_host_length lengths[MOST];
  size_t n = 0;
  const char *text =
      "SELECT number, (SELECT count(*) FROM entries WHERE request = number) FROM requests WHERE iif(?, is_open, changed > ?)";
  const uint64_t mark = RUN("SELECT max(changed) FROM requests", 0);
  for (sqlite3_stmt *it = ASK(text, of_all, order.moment); next(it); n++) lengths[n] = (cf_host_length){AT(0), AT(1)};
  DO(cf_host_news(&host, now, order.ticket, mark, lengths, n));
}

static void begin(void) {
  DO(cf_host_opened(&host, order.ticket, &plan, 0, 1, notes, STAGES));
  DO(cf_host_wants(&host, order.request, RETRIED));
  if (dies) DO(cf_host_act(&host, now, order.request, &(cf_host_acting){.kind = CF_ACT_COMPLETE, .stage = PRICE}, &order.ticket));
}

static void read_row(void) {
  cf_noted row[MOST];
  size_t n = 0;
  const char *text = "SELECT word, token, what, moment FROM entries WHERE request = ? AND place > ? ORDER BY place";
  for (sqlite3_stmt *it = ASK(text, order.request, order.place); next(it); n++) row[n] = (cf_noted){AT(0), AT(1), {AT(2), AT(3)}};
  DO(cf_host_read(&host, now, order.ticket, row, n));
  printf("%d reads %zu entries\n", (int)session, n);
}

/* Puts entries with their payloads. If others stand there, it reads these. */
static void put(void) {
  cf_host_want wants[MOST];
  size_t n;
  DO(cf_host_put(&host, order.request, wants, MOST, &n));
  RUN("BEGIN IMMEDIATE", 0);
  const bool is_free = RUN("SELECT count(*) FROM entries WHERE request = ?", order.request) == order.place;
  for (size_t k = 0; is_free && k < n; k++) {
    const cf_noted *it = &wants[k].entry;
    const uint64_t payload = wants[k].source == CF_OF_ACT ? 21 : wants[k].source == CF_OF_FUNCTION ? results[wants[k].stage] : 0;
    RUN("INSERT INTO entries VALUES(?, ?, ?, ?, ?, ?, ?)", order.request, order.place + k + 1, it->word, it->token, it->note.what,
        it->note.moment, payload);
  }
  if (is_free) RUN("UPDATE requests SET is_open = 1, changed = (SELECT max(changed) + 1 FROM requests) WHERE number = ?", order.request);
  RUN("COMMIT", 0);
  if (is_free) DO(cf_host_answered(&host, now, order.ticket, CF_STANDS)), printf("%d puts %zu entries\n", (int)session, n);
  else read_row();
}

static void close_row(void) {
  const char *text = "UPDATE requests SET is_open = 0 WHERE number = ? AND (SELECT count(*) FROM entries WHERE request = number) = ?";
  RUN(text, order.request, order.place);
  DO(cf_host_answered(&host, now, order.ticket, sqlite3_changes(store) ? CF_CLOSED : CF_NOT_CLOSED));
}

/* Calls a function. A further charge takes what the first one took. */
static void call(void) {
  cf_stage total;
  DO(cf_host_stage(&host, order.request, TOTAL, &total));
  const int32_t place = order.function == DOUBLE ? order.args.first.number : total.outcome.value.number;
  const uint64_t value = RUN("SELECT payload FROM entries WHERE request = ? AND place = ?", order.request, (uint64_t)place);
  printf("%d %s %d\n", (int)session, order.function == DOUBLE ? "doubles" : "charges", (int)value), fflush(stdout);
  if (order.function == CHARGE && dies) raise(SIGKILL);
  results[order.stage] = order.function == DOUBLE ? 2 * value : value;
  DO(cf_host_ended(&host, order.ticket, CF_ENDS_GIVE, 0, 0));
}

int main(int argc, char **argv) {
  dies = argc > 2, session = dies ? 700 : 800;
  check(argc > 1 && sqlite3_open(argv[1], &store) == SQLITE_OK && sqlite3_exec(store, schema, NULL, NULL, NULL) == SQLITE_OK, "FILE");
  DO(cf_builder_new(&plan, STAGES, STAGES));
  for (uint16_t k = 0, of = 0; k < STAGES; k++) DO(cf_builder_stage(&plan, forms[k], &of, k > 0, k ? k : CF_NO_FUNCTION, &of));
  DO(cf_build(&plan));
  DO(cf_host_new(&(cf_host_opening){.session = session, .workers = 1, .lease = LEASE, .takes_all = 1}, &host));
  while (order.kind != CF_ORDER_CLOSE) {
    struct timespec time;
    clock_gettime(CLOCK_MONOTONIC, &time);
    now = (uint64_t)time.tv_sec * 1000 + (uint64_t)time.tv_nsec / 1000000;
    DO(cf_host_turn(&host, now, &order));
    switch (order.kind) {
    case CF_ORDER_SLEEP: nanosleep(&(struct timespec){.tv_nsec = 5000000}, NULL); break;
    case CF_ORDER_BEAT: beat(); break;
    case CF_ORDER_LIST: tell_news(true); break;
    case CF_ORDER_NEWS: tell_news(false); break;
    case CF_ORDER_OPEN: begin(); break;
    case CF_ORDER_READ: read_row(); break;
    case CF_ORDER_PUT: put(); break;
    case CF_ORDER_CLOSE: close_row(); break;
    case CF_ORDER_CALL: call(); break;
    case CF_ORDER_SHOW: printf("%d shows the payload at place %d\n", (int)session, (int)order.outcome.value.number); break;
    }
  }
  cf_free(&host), cf_free(&plan), sqlite3_close(store);
  return 0;
}
