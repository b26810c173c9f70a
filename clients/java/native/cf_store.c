/* The library's views of rows (docs/C.md, "A row in a store") as native methods of cf.store.NativeRow, and the system's lock of cf.store.Line.
 *
 * What the library is owed, and where it is met: each view stands in a block of its own, which isn't moved; the lock of its request orders the
 * calls that have it (RowView.java); NativeRow.java keeps it until it is closed, once, and neither makes a call nor reads its block then. Arrays of
 * Java's are read within their bounds, whatever numbers they hold. No JNI function is called with an exception pending. */
#include "block.h"
#include <errno.h>
#include <fcntl.h>
#include <jni.h>
#include <stdbool.h>
#include <stdlib.h>
#include <sys/file.h>
#include <unistd.h>

struct view {
  cf_handle row;
  struct view_block block;
};

#define VIEW(at) ((struct view *)(intptr_t)(at))
#define CALL(type, name) JNIEXPORT type JNICALL Java_cf_store_NativeRow_##name

/* A view of the row of a plan's request, or a code negated. */
CALL(jlong, open)(JNIEnv *env, jclass self, jintArray rows, jint room, jint first, jlong session) {
  (void)self;
  cf_handle plan = {0};
  size_t stages = 0;
  jint *given = (*env)->GetIntArrayElements(env, rows, NULL);
  struct view *view = calloc(1, sizeof *view);
  uint32_t code = given && view ? build_plan(&plan, given, (*env)->GetArrayLength(env, rows), NULL, &stages) : CF_NO_MEMORY;
  if (code == CF_OK) {
    const cf_row_opening opening = {.room = (uint16_t)room, .first = (uint32_t)first, .session = (uint64_t)session};
    code = cf_row_new(&plan, &opening, &view->row);
  }
  cf_free(&plan);
  if (given) (*env)->ReleaseIntArrayElements(env, rows, given, JNI_ABORT);
  if (code == CF_OK) return (jlong)(intptr_t)view;
  free(view);
  return -(jlong)code;
}

CALL(jobject, memory)(JNIEnv *env, jclass self, jlong view) {
  (void)self;
  return (*env)->NewDirectByteBuffer(env, &VIEW(view)->block, sizeof(struct view_block));
}

CALL(void, close)(JNIEnv *env, jclass self, jlong view) {
  (void)env, (void)self;
  cf_free(&VIEW(view)->row);
  free(VIEW(view));
}

/* The token of the first of these words, or a code negated. */
CALL(jlong, planPut)(JNIEnv *env, jclass self, jlong view, jlongArray words) {
  (void)self;
  uint64_t token = 0;
  const jsize n = (*env)->GetArrayLength(env, words);
  jlong *given = (*env)->GetLongArrayElements(env, words, NULL);
  if (!given) return -(jlong)CF_NO_MEMORY;
  const uint32_t code = cf_row_plan(&VIEW(view)->row, (const uint64_t *)given, (size_t)n, &token);
  (*env)->ReleaseLongArrayElements(env, words, given, JNI_ABORT);
  return code == CF_OK ? (jlong)token : -(jlong)code;
}

/* Whether the put has landed at whose place this entry stands, or a code negated. */
CALL(jint, landed)(JNIEnv *env, jclass self, jlong view, jlong word, jlong token) {
  (void)env, (void)self;
  const cf_entry entry = {.word = (uint64_t)word, .token = (uint64_t)token};
  uint8_t landed = 0;
  const uint32_t code = cf_row_met(&VIEW(view)->row, &entry, &landed);
  return code == CF_OK ? landed : -(jint)code;
}

CALL(void, giveUpPut)(JNIEnv *env, jclass self, jlong view) {
  (void)env, (void)self;
  cf_row_give_up(&VIEW(view)->row);
}

/* Takes in an entry, and says how many stages it changed, or a code negated. The block gets the reply, and the first of these stages. */
CALL(jint, takeIn)(JNIEnv *env, jclass self, jlong view, jlong word, jlong token) {
  (void)env, (void)self;
  struct view *it = VIEW(view);
  const cf_entry entry = {.word = (uint64_t)word, .token = (uint64_t)token};
  size_t n = 0;
  const uint32_t code = cf_row_saw(&it->row, &entry, &it->block.reply, it->block.news, NEWS, &n);
  return code == CF_OK ? (jint)n : -(jint)code;
}

/* The block gets the stages that the last entry changed, from this one in their row on, as far as there is room. */
CALL(void, fetchNews)(JNIEnv *env, jclass self, jlong view, jint from) {
  (void)env, (void)self;
  struct view *it = VIEW(view);
  uint16_t stages[MOST];
  size_t words = 0, n = 0;
  cf_ledger_words(&it->row, 0, NULL, 0, &words);
  cf_ledger_news(&it->row, words - 1, stages, MOST, &n);
  for (size_t k = (size_t)from, at = 0; k < n && at < NEWS; k++, at++) {
    it->block.news[at].stage = stages[k];
    cf_ledger_stage(&it->row, stages[k], &it->block.news[at].now);
  }
}

CALL(jint, grow)(JNIEnv *env, jclass self, jlong view, jint more) {
  (void)env, (void)self;
  return -(jint)cf_row_grow(&VIEW(view)->row, (uint16_t)more);
}

/* This session's number, or a code negated. */
CALL(jint, callerNumber)(JNIEnv *env, jclass self, jlong view) {
  (void)env, (void)self;
  uint8_t who = 0;
  const uint32_t code = cf_row_number(&VIEW(view)->row, &who);
  return code == CF_OK ? who : -(jint)code;
}

/* The lowest ready stage from a number on, or -1. */
CALL(jint, lowestReady)(JNIEnv *env, jclass self, jlong view, jint from) {
  (void)env, (void)self;
  uint16_t stage = 0;
  return cf_ledger_ready(&VIEW(view)->row, (uint16_t)from, &stage) == CF_OK ? stage : -1;
}

/* What the session holds, and its function's answer, if the stage isn't -1. */
static cf_task task_of(jint stage, jint kind, jint number) {
  cf_task task = {.held = stage >= 0, .stage = (uint16_t)stage};
  task.answer.kind = (uint32_t)kind, task.answer.code = (uint32_t)number, task.answer.stage = (uint16_t)number;
  task.answer.value = (cf_value){.kind = number < 0 ? CF_NIL : CF_INT, .number = number};
  return task;
}

/* The word that finishes a stage of the session with this answer, or -1 where it hasn't the stage. */
CALL(jlong, finishWord)(JNIEnv *env, jclass self, jlong view, jint stage, jint kind, jint number) {
  (void)env, (void)self;
  const cf_task task = task_of(stage, kind, number);
  uint64_t word = 0;
  return cf_row_finish(&VIEW(view)->row, &task, &word) == CF_OK ? (jlong)word : -1;
}

/* The lowest stage from a number on that the session could claim behind the finish of what it holds, or -1. */
CALL(jint, nextClaim)(JNIEnv *env, jclass self, jlong view, jint held, jint kind, jint number, jint from) {
  (void)env, (void)self;
  const cf_task task = task_of(held, kind, number);
  uint16_t stage = 0;
  return cf_row_next_claim(&VIEW(view)->row, &task, (uint16_t)from, &stage) == CF_OK ? stage : -1;
}

/* Whether a claim is open of a stage from a number on. The block gets that of the lowest one. */
CALL(jboolean, nextOpenClaim)(JNIEnv *env, jclass self, jlong view, jint from) {
  (void)env, (void)self;
  return cf_row_open_claim(&VIEW(view)->row, (uint16_t)from, &VIEW(view)->block.claim) == CF_OK;
}

/* The word that fails the lowest stage from a number on that a session has, or -1. */
CALL(jlong, abandonWord)(JNIEnv *env, jclass self, jlong view, jlong session, jint from) {
  (void)env, (void)self;
  uint64_t word = 0;
  return cf_row_abandon(&VIEW(view)->row, (uint64_t)session, (uint16_t)from, 0, &word) == CF_OK ? (jlong)word : -1;
}

/* The line in which who writes to a file of SQLite's stands. */

#define LINE(type, name) JNIEXPORT type JNICALL Java_cf_store_Line_##name

/* A file, which is made if it isn't there; or the system's error, negated. */
LINE(jint, open)(JNIEnv *env, jclass self, jbyteArray path) {
  (void)self;
  const jsize n = (*env)->GetArrayLength(env, path);
  char *name = malloc((size_t)n + 1);
  if (!name) return -ENOMEM;
  (*env)->GetByteArrayRegion(env, path, 0, n, (jbyte *)name);
  name[n] = 0;
  const int file = open(name, O_RDWR | O_CREAT | O_CLOEXEC, 0644), error = errno;
  free(name);
  return file < 0 ? -error : file;
}

/* Locks a file for one alone, and waits for that if it is told to. Whether it is locked. */
LINE(jboolean, lock)(JNIEnv *env, jclass self, jint file, jboolean waits) {
  (void)env, (void)self;
  int code = 0;
  do code = flock(file, LOCK_EX | (waits ? 0 : LOCK_NB));
  while (code && errno == EINTR);
  return code == 0;
}

LINE(void, unlock)(JNIEnv *env, jclass self, jint file) {
  (void)env, (void)self;
  flock(file, LOCK_UN);
}

LINE(void, close)(JNIEnv *env, jclass self, jint file) {
  (void)env, (void)self;
  close(file);
}
