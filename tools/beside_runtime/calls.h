/* What a script's operations are in C. Each makes the real Node-API call, keeps its result in a register, and prints the line
 * that the call has in a trace, without its number. It needs <node_api.h> and threads, and nothing of an engine.
 *
 * The addon that `as_c.py` writes includes this file. It has a function for each entry, and tables of plans, threads and turns.
 * A number that names nothing is handed on as NULL. What the manual forbids, and what would lose memory or the process, is not
 * made: its line has the status "~" and why. Beside that nothing is decided here: each status is the runtime's. */
#include <node_api.h>
#include <pthread.h>
#include <stdbool.h>
#include <stdint.h>
#include <stdio.h>
#include <stdlib.h>
#include <string.h>
#include <time.h>

#ifdef WRONG
#include "wrong.h"
#endif

typedef uint64_t u64;

#define NOT_KNOWN UINT64_MAX /* What a register has where a number is told here alone. */
enum {
  ADDONS_MOST = 8,
  REGISTERS = 32,
  GIFTS = 24,
  GIFT_COUNT = 8,
  FRAMES_MOST = 64,
  TABLE = 65536,
  WORD = 96,
  WAIT_SECONDS = 5
};

/* The tables of the addon that is written. */
typedef struct frame frame;
typedef void entry(frame *);
typedef struct {
  size_t count;
  entry *const *entries;
} plan;
typedef struct {
  char kind; /* 'c' calls, 'a' acquires, 'r' releases. */
  u64 function, payload;
  int mode;
} thread_op;
typedef struct {
  size_t count;
  const thread_op *ops;
} thread_plan;
typedef struct {
  const char *first, *then; /* What is made first of two events of two actors. */
} turn;
typedef struct {
  size_t length;
  const char *bytes;
} text;
typedef struct {
  const char *key, *kinds, *duties; /* Of a frame here: what the register of each call keeps, and which duty it makes. */
} answers;
extern const text TEXTS[];
extern const answers ANSWERS[];
extern const plan PLANS[];
extern const thread_plan THREADS[];
extern const turn TURNS[];
extern const u64 HELD_BACK[]; /* The works that a call cancels before they start. */
extern const bool HOOKS_WAIT; /* Whether an asynchronous hook may be left to wait. */
extern const size_t TEXT_COUNT, ANSWER_COUNT, PLAN_COUNT, THREAD_COUNT, TURN_COUNT, HELD_BACK_COUNT, WORKERS;

/* What stands while the script runs. */
struct frame {
  napi_env env;
  int addon;
  u64 *regs;
  size_t base;
  u64 left;
  char *key; /* `init:0.0`, `#3`, `j1`, `f1.2`; of a call's frame its caller's key, and the place of the call. */
  int at, keeps;
  const char *kinds, *duties;
};
typedef struct {
  napi_value value;
  bool open;
} handle;
typedef struct {
  char kind; /* 'f' a frame's, 's' a plain one, 'e' an escapable one. */
  u64 number;
  napi_handle_scope plain;
  napi_escapable_handle_scope escapable;
} scope;
typedef struct {
  u64 handle;
  size_t scope;
} held;
typedef struct {
  u64 ticket;
  int addon, entry;
  u64 payload, hint;
  bool withdrawn;
} finalizer;
typedef struct {
  int addon, entry;
  u64 payload;
} function;
typedef struct {
  napi_async_work work;
  bool mixes;
  u64 n, rounds, value, payload, queued;
  int addon, entry;
  bool waits, cancelled, gone;
} work;
typedef struct {
  napi_threadsafe_function f;
  napi_env env;
  int addon, entry, finalizer;
  u64 number, context, made, begun, maximum, *payloads;
  size_t room;
  bool gone, closing;
  function *target;
} tsfn;
typedef struct {
  napi_env env;
  int addon, entry;
  u64 argument, ticket;
  bool waits;
} hook;
typedef struct {
  napi_env env;
  napi_async_cleanup_hook_handle handle;
  int addon, entry;
  u64 argument, ticket, number;
  bool removed;
} async_hook;

static struct {
  napi_env env;
  u64 regs[REGISTERS];
  finalizer *data;
} ADDONS[ADDONS_MOST];
static handle *HANDLES;
static held *HELD;
static scope *SCOPES;
static napi_ref *REFS;
static work **WORKS;
static tsfn *TSFNS[TABLE]; /* Threads read it, so it stays where it is. */
static hook **HOOKS;
static async_hook **ASYNC_HOOKS;
static function **FUNCTIONS;
static u64 *FUNCTION_HANDLES;
static size_t HANDLE_COUNT = 1, HELD_COUNT, SCOPE_COUNT, FUNCTION_COUNT;
static u64 SCOPE_NUMBER, REF_COUNT, WORK_COUNT, QUEUED, TSFN_COUNT, HOOK_COUNT, ASYNC_HOOK_COUNT, TICKET, ENTERED;
static int DEPTH, NEXT_ADDON;
static bool EXIT, TEARDOWN;
static const char *UNTOLD; /* Why the last status is not that of the script's last call, where it is not. */
static frame *STANDING;
static pthread_mutex_t LOCK = PTHREAD_MUTEX_INITIALIZER;
static __thread char RESULT[64], TAIL[64];

/* Turns. Where the trace says which of two actors came first, the second one waits for the first. One wait that takes too long
 * ends all of them, and is told. */
static pthread_mutex_t TURN_LOCK = PTHREAD_MUTEX_INITIALIZER;
static pthread_cond_t TURN_MADE = PTHREAD_COND_INITIALIZER;
static bool HAPPENED[TABLE], TURNS_LOST;

static void say(const char *actor, const char *name, const char *status, const char *result, const char *tail) {
  pthread_mutex_lock(&LOCK);
  printf("%s %s %s %s%s\n", actor, name, status, result, tail);
  fflush(stdout);
  pthread_mutex_unlock(&LOCK);
}
static void happened(const char *event) {
  pthread_mutex_lock(&TURN_LOCK);
  for (size_t i = 0; i < TURN_COUNT; i++)
    if (!strcmp(TURNS[i].first, event)) HAPPENED[i] = true;
  pthread_cond_broadcast(&TURN_MADE);
  pthread_mutex_unlock(&TURN_LOCK);
}
static void wait_for_turn(size_t i) {
  struct timespec until;
  clock_gettime(CLOCK_REALTIME, &until);
  until.tv_sec += WAIT_SECONDS;
  bool late = false;
  while (!HAPPENED[i] && !TURNS_LOST && !late) late = pthread_cond_timedwait(&TURN_MADE, &TURN_LOCK, &until) != 0;
  if (!HAPPENED[i] && !TURNS_LOST) {
    char what[2 * WORD];
    snprintf(what, sizeof what, "%s waits for %s", TURNS[i].then, TURNS[i].first);
    TURNS_LOST = true;
    say("env", "note", "turns", what, "");
    pthread_cond_broadcast(&TURN_MADE);
  }
}
static void before(const char *event) {
  pthread_mutex_lock(&TURN_LOCK);
  for (size_t i = 0; i < TURN_COUNT; i++)
    if (!strcmp(TURNS[i].then, event)) wait_for_turn(i);
  pthread_mutex_unlock(&TURN_LOCK);
}
static char *event_of(const char *key, const char *what) {
  char *text = malloc(strlen(key) + strlen(what) + 2);
  sprintf(text, "%s %s", key, what);
  return text;
}
static void around(void tell(const char *), const char *key, const char *what) {
  char *event = event_of(key, what);
  tell(event);
  free(event);
}
static const char *place(const frame *f) {
  static char text[16];
  snprintf(text, sizeof text, "%d", f->at);
  return text;
}
/* The next operation of an entry, and the register that keeps its result, or -1. */
static void next(frame *f, int keeps) {
  f->at++;
  f->keeps = keeps;
  if (TURN_COUNT) around(before, f->key, place(f));
}
/* What the operation's register keeps here: 'h' a handle, 'p' that of a promise, 'r' a reference, 'n' another number, '-' nothing;
 * 0 where it is not known. And the duty that it makes here: 't' a ticket, 'j' a work that is queued, '-' none of these. */
static char told_here(const frame *f, const char *list) { return list && (size_t)f->at < strlen(list) ? list[f->at] : 0; }
static char kind_here(const frame *f) { return told_here(f, f->kinds); }
/* Whether what the runtime gave is kept: where the call gives nothing here it is let go, so that both go on from the same
 * registers. */
static bool is_kept(const frame *f, napi_status s) { return s == napi_ok && kind_here(f) != '-'; }
static void fill(frame *f);

/* Lines. */
static const char *number(u64 n) {
  snprintf(RESULT, sizeof RESULT, "%llu", (unsigned long long)n);
  return RESULT;
}
static const char *signed_number(int64_t n) {
  snprintf(RESULT, sizeof RESULT, "%lld", (long long)n);
  return RESULT;
}
static const char *duty(const char *form, u64 a, u64 b) {
  snprintf(TAIL, sizeof TAIL, form, (unsigned long long)a, (unsigned long long)b);
  return TAIL;
}
static void made(const frame *f) {
  if (TURN_COUNT) around(happened, f->key, place(f));
}
static void answer_with(frame *f, const char *name, napi_status s, const char *result, const char *tail) {
  char status[16];
  snprintf(status, sizeof status, "%d", (int)s);
  say("env", name, status, s == napi_ok ? result : "-", s == napi_ok ? tail : "");
  if (s != napi_ok) fill(f);
  UNTOLD = NULL;
  made(f);
}
static void answer(frame *f, const char *name, napi_status s, const char *result) { answer_with(f, name, s, result, ""); }
static bool not_made(frame *f, const char *name, const char *why) {
  say("env", name, "~", why, "");
  fill(f);
  UNTOLD = "the call before it was not made";
  made(f);
  return true;
}

/* Handles and scopes. A list of the run has room for one more. */
#define ROOM_IN(LIST, COUNT)                                                                                                     \
  do {                                                                                                                           \
    static size_t room;                                                                                                          \
    if ((COUNT) + 2 > room) LIST = realloc(LIST, (room = room * 2 + 1024) * sizeof *LIST);                                       \
  } while (0)
static void push_scope(scope s) {
  ROOM_IN(SCOPES, SCOPE_COUNT);
  SCOPES[SCOPE_COUNT++] = s;
}
static u64 issue_in(size_t scope, napi_value v) {
  ROOM_IN(HANDLES, HANDLE_COUNT);
  ROOM_IN(HELD, HELD_COUNT);
  HANDLES[HANDLE_COUNT] = (handle){v, true};
  HELD[HELD_COUNT++] = (held){HANDLE_COUNT, scope};
  return HANDLE_COUNT++;
}
static u64 issue(napi_value v) { return issue_in(SCOPE_COUNT - 1, v); }
static bool is_closed(u64 n) { return n > 0 && n < HANDLE_COUNT && !HANDLES[n].open; }
static bool is_ungiven(u64 n) { return n > 0 && n < HANDLE_COUNT && HANDLES[n].open && !HANDLES[n].value; }
static napi_value value_of(u64 n) { return n > 0 && n < HANDLE_COUNT && HANDLES[n].open ? HANDLES[n].value : NULL; }
static void drop_scope(void) {
  size_t kept = 0;
  SCOPE_COUNT--;
  for (size_t i = 0; i < HELD_COUNT; i++) {
    if (HELD[i].scope >= SCOPE_COUNT) HANDLES[HELD[i].handle].open = false;
    else HELD[kept++] = HELD[i];
  }
  HELD_COUNT = kept;
}
/* Reads the handle of a register into `v`, or ends the operation where its scope is closed. */
#define VALUE(v, r)                                                                                                              \
  if (f->regs[r] == NOT_KNOWN || is_ungiven(f->regs[r])) {                                                                       \
    not_made(f, name, f->regs[r] == NOT_KNOWN ? "its register has a number that is told here alone" : "the runtime gave none");  \
    return;                                                                                                                      \
  }                                                                                                                              \
  if (is_closed(f->regs[r])) {                                                                                                   \
    not_made(f, name, "its scope is closed");                                                                                    \
    return;                                                                                                                      \
  }                                                                                                                              \
  napi_value v = value_of(f->regs[r])
static void keep_handle(frame *f, const char *name, napi_status s, int w, napi_value v) {
  if (is_kept(f, s)) f->regs[w] = issue(v);
  answer(f, name, s, "handle");
}
static void keep_flag(frame *f, const char *name, napi_status s, int w, bool b) {
  if (is_kept(f, s)) f->regs[w] = b;
  answer(f, name, s, b ? "true" : "false");
}
static void keep_number(frame *f, const char *name, napi_status s, int w, u64 n) {
  if (is_kept(f, s)) f->regs[w] = n;
  answer(f, name, s, number(n));
}

/* Frames. A scope that its frame leaves open is closed here, since the process would abort. */
static void close_left(frame *f) {
  while (SCOPE_COUNT > f->base + 1) {
    scope *s = &SCOPES[SCOPE_COUNT - 1];
    if (s->kind == 's') napi_close_handle_scope(f->env, s->plain);
    else napi_close_escapable_handle_scope(f->env, s->escapable);
    drop_scope();
  }
}
/* Runs an entry as a frame. Answers whether it left an exception, and in `result` the value of the handle that it left. */
static bool run(napi_env env, int addon, int at, char *key, const u64 *gifts, napi_value *result) {
  frame f = {env, addon, ADDONS[addon].regs, SCOPE_COUNT, 0, key, -1, -1, NULL, NULL}, *caller = STANDING;
  bool pending = false;
  push_scope((scope){'f', 0, NULL, NULL});
  DEPTH++;
  STANDING = &f;
  for (size_t i = 0; i < ANSWER_COUNT; i++)
    if (!strcmp(ANSWERS[i].key, key)) {
      f.kinds = ANSWERS[i].kinds;
      f.duties = ANSWERS[i].duties;
    }
  UNTOLD = "its frame has made no call before it";
  if (gifts) memcpy(f.regs + GIFTS, gifts, GIFT_COUNT * sizeof(u64));
  if (at >= 0 && (size_t)at < PLANS[addon].count) PLANS[addon].entries[at](&f);
  if (result) *result = value_of(f.left);
  napi_is_exception_pending(env, &pending);
  close_left(&f);
  drop_scope();
  DEPTH--;
  STANDING = caller;
  return pending;
}
static void leave_by_exit(napi_env env) {
  napi_value global, process, exit;
  napi_handle_scope s;
  before("env loop_end");
  if (napi_open_handle_scope(env, &s) != napi_ok) return;
  if (napi_get_global(env, &global) == napi_ok && napi_get_named_property(env, global, "process", &process) == napi_ok &&
      napi_get_named_property(env, process, "exit", &exit) == napi_ok)
    napi_call_function(env, process, exit, 0, NULL, NULL);
  napi_close_handle_scope(env, s);
}
/* Runs an outermost frame. An exception that it leaves is told, and taken. */
static void outermost(napi_env env, const char *cause, int addon, int at, const char *duty, const char *status,
                      const u64 *gifts) {
  char head[WORD];
  bool init = !strcmp(cause, "init"), opened, pending;
  napi_handle_scope s;
  snprintf(head, sizeof head, "%s:%d.%d%s%s", cause, addon, at < 0 ? 0 : at, *duty ? ":" : "", duty);
  char *key = strdup(*duty ? duty : head);
  around(before, key, "begin");
  say("env", "begin", status, head, "");
  around(happened, key, "begin");
  opened = !init && napi_open_handle_scope(env, &s) == napi_ok;
  pending = run(env, addon, at, key, gifts, NULL);
  if (pending) {
    napi_value x;
    napi_get_and_clear_last_exception(env, &x);
  }
  if (opened) napi_close_handle_scope(env, s);
  say("env", "end", "0", pending ? "uncaught" : "-", "");
  around(happened, key, "end");
  around(before, key, "back");
  free(key);
  if (EXIT && !init && !TEARDOWN) leave_by_exit(env);
}
/* An item of a thread-safe function that has no entry for items: the runtime calls its function. */
static bool run_plain_item(napi_env env, function *fn) {
  for (u64 i = 1; i <= TSFN_COUNT; i++) {
    tsfn *t = TSFNS[i];
    if (t->target != fn) continue;
    char text[WORD];
    pthread_mutex_lock(&LOCK);
    u64 gifts[GIFT_COUNT] = {t->begun < t->made ? t->payloads[t->begun] : 0, 1, t->context};
    t->begun++;
    pthread_mutex_unlock(&LOCK);
    snprintf(text, sizeof text, "f%llu.%llu", (unsigned long long)t->number, (unsigned long long)t->begun);
    outermost(env, "item", fn->addon, fn->entry, text, "0", gifts);
    return true;
  }
  return false;
}
static napi_value call_back(napi_env env, napi_callback_info info) {
  size_t count = 4;
  napi_value args[4], self, result = NULL;
  void *data;
  napi_get_cb_info(env, info, &count, args, &self, &data);
  function *fn = data;
  if (DEPTH == 0 && run_plain_item(env, fn)) return NULL;
  char head[WORD];
  snprintf(head, sizeof head, "call:%d.%d", fn->addon, fn->entry);
  say("env", "begin", "0", head, "");
  ENTERED++;
  push_scope((scope){'f', 0, NULL, NULL});
  u64 gifts[GIFT_COUNT] = {count};
  for (size_t i = 0; i < count && i < 4; i++) gifts[1 + i] = issue(args[i]);
  gifts[5] = issue(self);
  gifts[6] = fn->payload;
  char *key = malloc(strlen(STANDING ? STANDING->key : "") + 24);
  sprintf(key, "%s/%d", STANDING ? STANDING->key : "", STANDING ? STANDING->at : 0);
  around(happened, key, "begin");
  bool pending = run(env, fn->addon, fn->entry, key, gifts, &result);
  drop_scope();
  say("env", "end", pending ? "10" : "0", pending ? "-" : "handle", "");
  around(happened, key, "end");
  free(key);
  return result;
}

/* Values. */
#define MAKER(CALL)                                                                                                              \
  static void CALL(frame *f, int w) {                                                                                            \
    napi_value v = NULL;                                                                                                         \
    napi_status s = napi_##CALL(f->env, &v);                                                                                     \
    keep_handle(f, #CALL, s, w, v);                                                                                              \
  }
MAKER(get_undefined)
MAKER(get_null)
MAKER(get_global)
MAKER(create_object)
MAKER(create_array)
MAKER(get_and_clear_last_exception)
static void get_boolean(frame *f, bool b, int w) {
  napi_value v;
  napi_status s = napi_get_boolean(f->env, b, &v);
  keep_handle(f, "get_boolean", s, w, v);
}
static void create_int64(frame *f, int64_t i, int w) {
  napi_value v;
  napi_status s = napi_create_int64(f->env, i, &v);
  keep_handle(f, "create_int64", s, w, v);
}
static void create_bigint_int64(frame *f, int64_t i, int w) {
  napi_value v;
  napi_status s = napi_create_bigint_int64(f->env, i, &v);
  keep_handle(f, "create_bigint_int64", s, w, v);
}
static void create_string_utf8(frame *f, const char *text, size_t length, int w) {
  napi_value v;
  napi_status s = napi_create_string_utf8(f->env, text, length, &v);
  keep_handle(f, "create_string_utf8", s, w, v);
}
static void create_symbol(frame *f, int r, int w) {
  const char *name = "create_symbol";
  napi_value v, none = NULL;
  if (r >= 0) {
    VALUE(description, r);
    if (!description) {
      not_made(f, name, "NULL is no description");
      return;
    }
    none = description;
  }
  napi_status s = napi_create_symbol(f->env, none, &v);
  keep_handle(f, name, s, w, v);
}
static void create_error(frame *f, int r, int message, int w) {
  const char *name = "create_error";
  napi_value v, code = NULL;
  if (r >= 0) {
    VALUE(given, r);
    if (!given) {
      not_made(f, name, "NULL is no code");
      return;
    }
    code = given;
  }
  VALUE(text, message);
  napi_status s = napi_create_error(f->env, code, text, &v);
  keep_handle(f, name, s, w, v);
}
static void create_function(frame *f, int e, u64 payload, int w) {
  napi_value v;
  function *fn = malloc(sizeof *fn);
  *fn = (function){f->addon, e, payload};
  napi_status s = napi_create_function(f->env, NULL, 0, call_back, fn, &v);
  keep_handle(f, "create_function", s, w, v);
  if (s == napi_ok) {
    ROOM_IN(FUNCTIONS, FUNCTION_COUNT);
    ROOM_IN(FUNCTION_HANDLES, FUNCTION_COUNT);
    FUNCTIONS[FUNCTION_COUNT] = fn;
    FUNCTION_HANDLES[FUNCTION_COUNT++] = f->regs[w];
  }
}
static void type_of(frame *f, int r, int w) {
  static const char *const WORDS[] = {"undefined", "null",   "boolean",  "number",   "string",
                                      "symbol",    "object", "function", "external", "bigint"};
  const char *name = "typeof";
  VALUE(v, r);
  napi_valuetype kind = 0;
  napi_status s = napi_typeof(f->env, v, &kind);
  if (is_kept(f, s)) f->regs[w] = kind;
  answer(f, name, s, s == napi_ok && (size_t)kind < sizeof WORDS / sizeof *WORDS ? WORDS[kind] : "?");
}
#define TESTER(CALL)                                                                                                             \
  static void CALL(frame *f, int r, int w) {                                                                                     \
    const char *name = #CALL;                                                                                                    \
    VALUE(v, r);                                                                                                                 \
    bool b = false;                                                                                                              \
    napi_status s = napi_##CALL(f->env, v, &b);                                                                                  \
    keep_flag(f, name, s, w, b);                                                                                                 \
  }
TESTER(is_array)
TESTER(is_error)
TESTER(is_promise)
TESTER(get_value_bool)
static void get_value_int64(frame *f, int r, int w) {
  const char *name = "get_value_int64";
  VALUE(v, r);
  int64_t i = 0;
  napi_status s = napi_get_value_int64(f->env, v, &i);
  if (is_kept(f, s)) f->regs[w] = (u64)i;
  answer(f, name, s, signed_number(i));
}
static void get_value_bigint_int64(frame *f, int r, int w) {
  const char *name = "get_value_bigint_int64";
  VALUE(v, r);
  int64_t i = 0;
  bool lossless;
  napi_status s = napi_get_value_bigint_int64(f->env, v, &i, &lossless);
  if (is_kept(f, s)) f->regs[w] = (u64)i;
  answer(f, name, s, signed_number(i));
}
/* The number of a text is this project's own: its place in the table of the script's texts. */
static u64 text_number(const char *bytes, size_t length) {
  for (size_t i = 0; i < TEXT_COUNT; i++)
    if (TEXTS[i].length == length && !memcmp(TEXTS[i].bytes, bytes, length)) return i;
  return TEXT_COUNT;
}
/* A text as a trace writes it. */
static char *quoted(const char *bytes, size_t length) {
  char *q = malloc(6 * length + 3), *out = q;
  *out++ = '"';
  for (size_t i = 0; i < length; i++) {
    unsigned char c = (unsigned char)bytes[i];
    if (c == '"' || c == '\\') *out++ = '\\';
    if (c < 32) out += sprintf(out, "\\u%04x", c);
    else *out++ = (char)c;
  }
  *out++ = '"';
  *out = 0;
  return q;
}
static void get_value_string_utf8(frame *f, int r, int w) {
  const char *name = "get_value_string_utf8";
  VALUE(v, r);
  size_t length = 0;
  napi_status s = napi_get_value_string_utf8(f->env, v, NULL, 0, &length);
  if (s != napi_ok) {
    answer(f, name, s, "-");
    return;
  }
  char *bytes = malloc(length + 1);
  s = napi_get_value_string_utf8(f->env, v, bytes, length + 1, &length);
  char *q = quoted(bytes, length);
  if (s == napi_ok) f->regs[w] = text_number(bytes, length);
  answer(f, name, s, q);
  free(bytes);
  free(q);
}
static void get_value_external(frame *f, int r, int w) {
  const char *name = "get_value_external";
  VALUE(v, r);
  void *p = NULL;
  napi_status s = napi_get_value_external(f->env, v, &p);
  keep_number(f, name, s, w, s == napi_ok && p ? ((finalizer *)p)->payload : 0);
}
static void get_array_length(frame *f, int r, int w) {
  const char *name = "get_array_length";
  VALUE(v, r);
  uint32_t n = 0;
  napi_status s = napi_get_array_length(f->env, v, &n);
  keep_number(f, name, s, w, n);
}
static void strict_equals(frame *f, int a, int b, int w) {
  const char *name = "strict_equals";
  VALUE(one, a);
  VALUE(other, b);
  bool is = false;
  napi_status s = napi_strict_equals(f->env, one, other, &is);
  keep_flag(f, name, s, w, is);
}

/* Properties and elements. A property of undefined or null leaves an exception in some runtimes. It is told, and taken, so that
 * both go on alike. */
static bool is_nothing(frame *f, napi_value v) {
  napi_valuetype kind = napi_object;
  return v && napi_typeof(f->env, v, &kind) == napi_ok && (kind == napi_undefined || kind == napi_null);
}
static bool throws(frame *f, const char *name, bool of_nothing, napi_status s) {
  bool pending = false;
  napi_value x;
  if (!of_nothing || s != napi_object_expected) return false;
  napi_is_exception_pending(f->env, &pending);
  if (pending) napi_get_and_clear_last_exception(f->env, &x);
  say("env", name, "2", pending ? "an exception is pending" : "-", "");
  fill(f);
  UNTOLD = "what came before it is no call of Node-API";
  made(f);
  return true;
}
static void set_named_property(frame *f, int o, const char *property, int r) {
  const char *name = "set_named_property";
  VALUE(object, o);
  bool of_nothing = is_nothing(f, object);
  VALUE(v, r);
  napi_status s = napi_set_named_property(f->env, object, property, v);
  if (throws(f, name, of_nothing, s)) return;
  answer(f, name, s, "-");
}
static void get_named_property(frame *f, int o, const char *property, int w) {
  const char *name = "get_named_property";
  VALUE(object, o);
  bool of_nothing = is_nothing(f, object);
  napi_value v;
  napi_status s = napi_get_named_property(f->env, object, property, &v);
  if (throws(f, name, of_nothing, s)) return;
  keep_handle(f, name, s, w, v);
}
static void has_named_property(frame *f, int o, const char *property, int w) {
  const char *name = "has_named_property";
  VALUE(object, o);
  bool of_nothing = is_nothing(f, object);
  bool b = false;
  napi_status s = napi_has_named_property(f->env, object, property, &b);
  if (throws(f, name, of_nothing, s)) return;
  keep_flag(f, name, s, w, b);
}
static void delete_property(frame *f, int o, const char *property, int w) {
  const char *name = "delete_property";
  VALUE(object, o);
  bool of_nothing = is_nothing(f, object);
  napi_value key = NULL;
  bool b = false;
  napi_create_string_utf8(f->env, property, NAPI_AUTO_LENGTH, &key);
  napi_status s = napi_delete_property(f->env, object, key, &b);
  if (throws(f, name, of_nothing, s)) return;
  keep_flag(f, name, s, w, b);
}
static void get_property_names(frame *f, int o, int w) {
  const char *name = "get_property_names";
  VALUE(object, o);
  bool of_nothing = is_nothing(f, object);
  napi_value v;
  napi_status s = napi_get_property_names(f->env, object, &v);
  if (throws(f, name, of_nothing, s)) return;
  keep_handle(f, name, s, w, v);
}
static bool is_too_great(frame *f, const char *name, u64 index) {
  return index > UINT32_MAX && not_made(f, name, "an index has 32 bits");
}
static void set_element(frame *f, int o, u64 index, int r) {
  const char *name = "set_element";
  if (is_too_great(f, name, index)) return;
  VALUE(object, o);
  bool of_nothing = is_nothing(f, object);
  VALUE(v, r);
  napi_status s = napi_set_element(f->env, object, (uint32_t)index, v);
  if (throws(f, name, of_nothing, s)) return;
  answer(f, name, s, "-");
}
static void get_element(frame *f, int o, u64 index, int w) {
  const char *name = "get_element";
  if (is_too_great(f, name, index)) return;
  VALUE(object, o);
  bool of_nothing = is_nothing(f, object);
  napi_value v;
  napi_status s = napi_get_element(f->env, object, (uint32_t)index, &v);
  if (throws(f, name, of_nothing, s)) return;
  keep_handle(f, name, s, w, v);
}
static void has_element(frame *f, int o, u64 index, int w) {
  const char *name = "has_element";
  if (is_too_great(f, name, index)) return;
  VALUE(object, o);
  bool of_nothing = is_nothing(f, object);
  bool b = false;
  napi_status s = napi_has_element(f->env, object, (uint32_t)index, &b);
  if (throws(f, name, of_nothing, s)) return;
  keep_flag(f, name, s, w, b);
}

/* Scopes. */
static void open_handle_scope(frame *f, int w) {
  napi_handle_scope h;
  napi_status s = napi_open_handle_scope(f->env, &h);
  if (s == napi_ok) {
    push_scope((scope){'s', ++SCOPE_NUMBER, h, NULL});
    f->regs[w] = SCOPE_NUMBER;
  }
  answer(f, "open_handle_scope", s, "scope");
}
static void open_escapable_handle_scope(frame *f, int w) {
  napi_escapable_handle_scope h;
  napi_status s = napi_open_escapable_handle_scope(f->env, &h);
  if (s == napi_ok) {
    push_scope((scope){'e', ++SCOPE_NUMBER, NULL, h});
    f->regs[w] = SCOPE_NUMBER;
  }
  answer(f, "open_escapable_handle_scope", s, "scope");
}
static void close_scope(frame *f, const char *name, char kind, int r) {
  scope *top = &SCOPES[SCOPE_COUNT - 1];
  if (top->kind == 'f') {
    not_made(f, name, "no scope is open that a call opened");
    return;
  }
  if (top->kind != kind || top->number != f->regs[r]) {
    not_made(f, name, "not the innermost scope of this kind");
    return;
  }
  napi_status s =
      kind == 's' ? napi_close_handle_scope(f->env, top->plain) : napi_close_escapable_handle_scope(f->env, top->escapable);
  if (s == napi_ok) drop_scope();
  answer(f, name, s, "-");
}
static void close_handle_scope(frame *f, int r) { close_scope(f, "close_handle_scope", 's', r); }
static void close_escapable_handle_scope(frame *f, int r) { close_scope(f, "close_escapable_handle_scope", 'e', r); }
static void escape_handle(frame *f, int r, int h, int w) {
  const char *name = "escape_handle";
  VALUE(inner, h);
  size_t at = 0;
  napi_escapable_handle_scope e = NULL;
  napi_value v;
  for (size_t i = f->base + 1; i < SCOPE_COUNT; i++)
    if (SCOPES[i].kind == 'e' && SCOPES[i].number == f->regs[r]) {
      at = i;
      e = SCOPES[i].escapable;
    }
  napi_status s = napi_escape_handle(f->env, e, inner, &v);
  if (is_kept(f, s)) f->regs[w] = issue_in(at - 1, v);
  answer(f, name, s, "handle");
}

/* References. */
#define UNGIVEN ((napi_ref)&REF_COUNT)
static napi_ref ref_of(u64 n) { return n > 0 && n <= REF_COUNT ? REFS[n] : NULL; }
static u64 issue_ref(napi_ref ref) {
  ROOM_IN(REFS, REF_COUNT);
  REFS[++REF_COUNT] = ref;
  return REF_COUNT;
}
/* A call that gave something here gave nothing there: its register has what no call can be made with. */
static void fill(frame *f) {
  char kind = kind_here(f), duty = told_here(f, f->duties);
  u64 n = kind == 'h' || kind == 'p' ? issue(NULL) : kind == 'r' ? issue_ref(UNGIVEN) : NOT_KNOWN;
  if (f->keeps >= 0 && kind && kind != '-') f->regs[f->keeps] = n;
  TICKET += duty == 't';
  QUEUED += duty == 'j';
}
static bool is_deleted(frame *f, const char *name, int r) {
  u64 n = f->regs[r];
  if (n == NOT_KNOWN || (n > 0 && n <= REF_COUNT && REFS[n] == UNGIVEN)) return not_made(f, name, "the runtime gave none");
  return n > 0 && n <= REF_COUNT && !REFS[n] && not_made(f, name, "the reference was deleted");
}
static void create_reference(frame *f, int r, uint32_t count, int w) {
  const char *name = "create_reference";
  VALUE(v, r);
  napi_ref ref;
  napi_status s = napi_create_reference(f->env, v, count, &ref);
  if (is_kept(f, s)) f->regs[w] = issue_ref(ref);
  answer(f, name, s, "ref");
}
static void delete_reference(frame *f, int r) {
  const char *name = "delete_reference";
  if (is_deleted(f, name, r)) return;
  napi_status s = napi_delete_reference(f->env, ref_of(f->regs[r]));
  if (s == napi_ok) REFS[f->regs[r]] = NULL;
  answer(f, name, s, "-");
}
#define COUNTER(CALL)                                                                                                            \
  static void CALL(frame *f, int r, int w) {                                                                                     \
    if (is_deleted(f, #CALL, r)) return;                                                                                         \
    uint32_t n = 0;                                                                                                              \
    napi_status s = napi_##CALL(f->env, ref_of(f->regs[r]), &n);                                                                 \
    keep_number(f, #CALL, s, w, n);                                                                                              \
  }
COUNTER(reference_ref)
COUNTER(reference_unref)
static void get_reference_value(frame *f, int r, int w) {
  const char *name = "get_reference_value";
  if (is_deleted(f, name, r)) return;
  napi_value v = NULL;
  napi_status s = napi_get_reference_value(f->env, ref_of(f->regs[r]), &v);
  if (s != napi_ok || v) {
    keep_handle(f, name, s, w, v);
    return;
  }
  f->regs[w] = 0;
  answer(f, name, s, "none");
}

/* Tickets count as they do here: one that the runtime alone gives has a number beyond. */
static u64 next_ticket(const frame *f) {
  static u64 beyond = 1000000;
  char duty = told_here(f, f->duties);
  return !duty || duty == 't' ? ++TICKET : ++beyond;
}
/* Finalizers, wraps, tags. */
static void finalize(napi_env env, void *data, void *hint) {
  finalizer *it = data;
  char text[32];
  u64 gifts[GIFT_COUNT] = {it->payload, it->hint};
  (void)hint;
  snprintf(text, sizeof text, "#%llu", (unsigned long long)it->ticket);
  if (it->withdrawn) say("env", "note", "withdrawn", text, "");
  outermost(env, "finalize", it->addon, it->entry, text, "0", gifts);
}
static finalizer *finalizer_of(frame *f, u64 payload, int e, u64 hint) {
  finalizer *it = malloc(sizeof *it);
  *it = (finalizer){0, f->addon, e, payload, hint, false};
  return it;
}
static const char *ticket(frame *f, finalizer *it, napi_status s) {
  if (s != napi_ok || it->entry < 0) return "";
  it->ticket = next_ticket(f);
  return duty(" +#%llu", it->ticket, 0);
}
static const char *without(finalizer *it) {
  it->withdrawn = true;
  return it->ticket ? duty(" -#%llu", it->ticket, 0) : "";
}
static bool registers_late(frame *f, const char *name) { return TEARDOWN && not_made(f, name, "it registers, in the teardown"); }
static void create_external(frame *f, u64 payload, int e, u64 hint, int w) {
  const char *name = "create_external";
  if (e >= 0 && registers_late(f, name)) return;
  finalizer *it = finalizer_of(f, payload, e, hint);
  napi_value v;
  napi_status s = napi_create_external(f->env, it, e < 0 ? NULL : finalize, NULL, &v);
  if (is_kept(f, s)) f->regs[w] = issue(v);
  answer_with(f, name, s, "handle", ticket(f, it, s));
}
static const char *keep_ref(frame *f, napi_status s, int w, napi_ref ref) {
  if (s != napi_ok || w < 0) return "-";
  if (is_kept(f, s)) f->regs[w] = issue_ref(ref);
  return "ref";
}
static void wrap(frame *f, int r, u64 payload, int e, u64 hint, int w) {
  const char *name = "wrap";
  if (e >= 0 && registers_late(f, name)) return;
  VALUE(v, r);
  finalizer *it = finalizer_of(f, payload, e, hint);
  napi_ref ref = NULL;
  napi_status s = napi_wrap(f->env, v, it, e < 0 ? NULL : finalize, NULL, w < 0 ? NULL : &ref);
  const char *result = keep_ref(f, s, w, ref);
  answer_with(f, name, s, result, ticket(f, it, s));
}
static void unwrap(frame *f, int r, int w) {
  const char *name = "unwrap";
  VALUE(v, r);
  void *p = NULL;
  napi_status s = napi_unwrap(f->env, v, &p);
  keep_number(f, name, s, w, s == napi_ok && p ? ((finalizer *)p)->payload : 0);
}
static void remove_wrap(frame *f, int r, int w) {
  const char *name = "remove_wrap";
  VALUE(v, r);
  void *p = NULL;
  napi_status s = napi_remove_wrap(f->env, v, &p);
  finalizer *it = p;
  bool done = s == napi_ok && it;
  if (done) f->regs[w] = it->payload;
  answer_with(f, name, s, done ? number(it->payload) : "?", done ? without(it) : "");
}
static void type_tag_object(frame *f, int r, u64 lower, u64 upper) {
  const char *name = "type_tag_object";
  VALUE(v, r);
  napi_type_tag tag = {lower, upper};
  napi_status s = napi_type_tag_object(f->env, v, &tag);
  answer(f, name, s, "-");
}
static void check_object_type_tag(frame *f, int r, u64 lower, u64 upper, int w) {
  const char *name = "check_object_type_tag";
  VALUE(v, r);
  napi_type_tag tag = {lower, upper};
  bool is = false;
  napi_status s = napi_check_object_type_tag(f->env, v, &tag, &is);
  keep_flag(f, name, s, w, is);
}
static void add_finalizer(frame *f, int r, u64 payload, int e, u64 hint, int w) {
  const char *name = "add_finalizer";
  if (registers_late(f, name)) return;
  VALUE(v, r);
  finalizer *it = finalizer_of(f, payload, e, hint);
  napi_ref ref = NULL;
  napi_status s = napi_add_finalizer(f->env, v, it, finalize, NULL, w < 0 ? NULL : &ref);
  const char *result = keep_ref(f, s, w, ref);
  answer_with(f, name, s, result, ticket(f, it, s));
}
static void set_instance_data(frame *f, u64 payload, int e, u64 hint) {
  const char *name = "set_instance_data";
  if (e >= 0 && registers_late(f, name)) return;
  finalizer *it = finalizer_of(f, payload, e, hint), *old = ADDONS[f->addon].data;
  napi_status s = napi_set_instance_data(f->env, it, e < 0 ? NULL : finalize, NULL);
  char tails[2 * sizeof TAIL] = "";
  if (s == napi_ok) {
    if (old && old->ticket && !old->withdrawn) strcat(tails, without(old));
    strcat(tails, ticket(f, it, s));
    ADDONS[f->addon].data = it;
  }
  answer_with(f, name, s, "-", tails);
}
static void get_instance_data(frame *f, int w) {
  void *p = NULL;
  napi_status s = napi_get_instance_data(f->env, &p);
  keep_number(f, "get_instance_data", s, w, p ? ((finalizer *)p)->payload : 0);
}

/* Buffers and views. An external buffer has bytes of zeros that are taken for it, and the finalizer is its hint. Past these numbers the
 * engine would end the process, for want of memory or since a sum of its own wraps round. */
#define BYTES_MOST INT32_MAX
TESTER(is_arraybuffer)
TESTER(is_detached_arraybuffer)
static bool is_too_long(frame *f, const char *name, u64 length) {
  return length > BYTES_MOST && not_made(f, name, "so great a number may end the process");
}
static void create_arraybuffer(frame *f, u64 length, int w) {
  const char *name = "create_arraybuffer";
  if (is_too_long(f, name, length)) return;
  void *bytes;
  napi_value v = NULL;
  napi_status s = napi_create_arraybuffer(f->env, length, &bytes, &v);
  keep_handle(f, name, s, w, v);
}
static void finalize_buffer(napi_env env, void *bytes, void *it) { finalize(env, it, NULL); }
static void create_external_arraybuffer(frame *f, u64 length, u64 payload, int e, u64 hint, int w) {
  const char *name = "create_external_arraybuffer";
  if (registers_late(f, name) || is_too_long(f, name, length)) return;
  finalizer *it = finalizer_of(f, payload, e, hint);
  napi_value v = NULL;
  napi_status s = napi_create_external_arraybuffer(f->env, calloc(length + 1, 1), length, finalize_buffer, it, &v);
  if (is_kept(f, s)) f->regs[w] = issue(v);
  answer_with(f, name, s, "handle", ticket(f, it, s));
}
static void get_arraybuffer_info(frame *f, int r, int w) {
  const char *name = "get_arraybuffer_info";
  VALUE(v, r);
  void *bytes;
  size_t length = 0;
  napi_status s = napi_get_arraybuffer_info(f->env, v, &bytes, &length);
  keep_number(f, name, s, w, length);
}
static void detach_arraybuffer(frame *f, int r) {
  const char *name = "detach_arraybuffer";
  VALUE(v, r);
  napi_status s = napi_detach_arraybuffer(f->env, v);
  answer(f, name, s, "-");
}
/* A view that does not fit leaves an exception in some runtimes. It is told, and taken, so that both go on alike. */
static void create_typedarray(frame *f, u64 type, int r, u64 offset, u64 length, int w) {
  const char *name = "create_typedarray";
  if (is_too_long(f, name, type) || is_too_long(f, name, offset) || is_too_long(f, name, length)) return;
  VALUE(buffer, r);
  napi_value v = NULL, x;
  bool before_it = true, pending = false;
  char status[16];
  napi_is_exception_pending(f->env, &before_it);
  napi_status s = napi_create_typedarray(f->env, (napi_typedarray_type)type, length, buffer, offset, &v);
  if (s != napi_ok && !before_it) napi_is_exception_pending(f->env, &pending);
  if (!pending) {
    keep_handle(f, name, s, w, v);
    return;
  }
  napi_get_and_clear_last_exception(f->env, &x);
  snprintf(status, sizeof status, "%d", (int)s);
  say("env", name, status, "an exception is pending", "");
  fill(f);
  UNTOLD = "what came before it is no call of Node-API";
  made(f);
}
/* An element of a view is read and written in the bytes that the runtime tells of it. There is no call for it. */
typedef struct {
  napi_typedarray_type type;
  size_t length;
  void *bytes;
} view;
static bool has_no_element(frame *f, const char *name, napi_value v, u64 at, view *it) {
  napi_status s = napi_get_typedarray_info(f->env, v, &it->type, &it->length, &it->bytes, NULL, NULL);
  if (s == napi_ok) return at >= it->length && not_made(f, name, "the view has no such element there");
  answer(f, name, s, "-");
  return true;
}
static void get_view(frame *f, int r, u64 at, int w) {
  const char *name = "get_view";
  VALUE(v, r);
  view it;
  if (has_no_element(f, name, v, at, &it)) return;
  u64 n = it.type == napi_uint8_array    ? ((uint8_t *)it.bytes)[at]
          : it.type == napi_uint16_array ? ((uint16_t *)it.bytes)[at]
          : it.type == napi_uint32_array ? ((uint32_t *)it.bytes)[at]
                                         : ((uint64_t *)it.bytes)[at];
  keep_number(f, name, napi_ok, w, n);
}
static void set_view(frame *f, int r, u64 at, u64 n) {
  const char *name = "set_view";
  VALUE(v, r);
  view it;
  if (has_no_element(f, name, v, at, &it)) return;
  if (it.type == napi_uint8_array) ((uint8_t *)it.bytes)[at] = (uint8_t)n;
  else if (it.type == napi_uint16_array) ((uint16_t *)it.bytes)[at] = (uint16_t)n;
  else if (it.type == napi_uint32_array) ((uint32_t *)it.bytes)[at] = (uint32_t)n;
  else ((uint64_t *)it.bytes)[at] = n;
  answer(f, name, napi_ok, "-");
}

/* Calls and exceptions. */
static bool would_enter(frame *f, napi_value fn) {
  bool pending = true;
  napi_valuetype kind = napi_undefined;
  napi_is_exception_pending(f->env, &pending);
  return !pending && fn && napi_typeof(f->env, fn, &kind) == napi_ok && kind == napi_function;
}
static void call_function(frame *f, int self, int r, int count, const int *args, int w) {
  const char *name = "call_function";
  napi_value v = NULL, receiver, values[4];
  u64 before_it = ENTERED;
  if (self < 0) napi_get_undefined(f->env, &receiver);
  else {
    VALUE(given, self);
    receiver = given;
  }
  for (int i = 0; i < count; i++) {
    VALUE(arg, args[i]);
    if (!arg) {
      not_made(f, name, "NULL is no argument");
      return;
    }
    values[i] = arg;
  }
  VALUE(fn, r);
  if (DEPTH >= FRAMES_MOST && would_enter(f, fn)) {
    napi_throw_error(f->env, NULL, "stack depth");
    not_made(f, name, "64 frames stand, and the error is thrown by tools/beside");
    return;
  }
  napi_status s = napi_call_function(f->env, receiver, fn, (size_t)count, values, &v);
  if (is_kept(f, s)) f->regs[w] = issue(v);
  else if (s != napi_ok && ENTERED != before_it) fill(f);
  UNTOLD = NULL;
  if (ENTERED == before_it) answer(f, name, s, "handle");
}
static void throw_value(frame *f, int r) {
  const char *name = "throw";
  VALUE(v, r);
  napi_status s = napi_throw(f->env, v);
  answer(f, name, s, "-");
}
static void throw_error(frame *f, const char *code, const char *message) {
  napi_status s = napi_throw_error(f->env, code, message);
  answer(f, "throw_error", s, "-");
}
static void is_exception_pending(frame *f, int w) {
  bool b = false;
  napi_status s = napi_is_exception_pending(f->env, &b);
  keep_flag(f, "is_exception_pending", s, w, b);
}
static void get_last_error_info(frame *f, int w) {
  if (UNTOLD) {
    not_made(f, "get_last_error_info", UNTOLD);
    return;
  }
  const napi_extended_error_info *info;
  napi_status s = napi_get_last_error_info(f->env, &info);
  keep_number(f, "get_last_error_info", s, w, s == napi_ok ? (u64)info->error_code : 0);
}
static void get_version(frame *f, int w) {
  uint32_t n = 0;
  napi_status s = napi_get_version(f->env, &n);
  keep_number(f, "get_version", s, w, n);
}
static void ask_exit(frame *f) {
  EXIT = true;
  answer(f, "exit", napi_ok, "-");
  UNTOLD = "what came before it is no call of Node-API";
}
/* A collection is the engine's `gc`, which is called twice. How many values it frees nobody is told. */
static void collect(frame *f, int w) {
  napi_handle_scope h;
  napi_value thrown = NULL, global, gc;
  bool pending = false;
  napi_status s = napi_generic_failure;
  napi_is_exception_pending(f->env, &pending);
  napi_open_handle_scope(f->env, &h);
  if (pending) napi_get_and_clear_last_exception(f->env, &thrown);
  if (napi_get_global(f->env, &global) == napi_ok && napi_get_named_property(f->env, global, "gc", &gc) == napi_ok)
    for (int i = 0; i < 2; i++) s = napi_call_function(f->env, global, gc, 0, NULL, NULL);
  if (pending) napi_throw(f->env, thrown);
  napi_close_handle_scope(f->env, h);
  f->regs[w] = NOT_KNOWN;
  if (s == napi_ok) answer(f, "collect", s, "?");
  else not_made(f, "collect", "no collection can be asked for here");
  UNTOLD = "what came before it is no call of Node-API";
}

/* Hooks. The first one that runs tells that the loop has ended. */
static void ends(void *data) {
  (void)data;
  if (TEARDOWN) return;
  TEARDOWN = true;
  before("env loop_end");
  say("env", "loop_end", "0", "?", "");
  happened("env loop_end");
}
static void run_hook(void *data) {
  hook *h = data;
  char text[32];
  u64 gifts[GIFT_COUNT] = {h->argument};
  snprintf(text, sizeof text, "#%llu", (unsigned long long)h->ticket);
  ends(NULL);
  h->waits = false;
  outermost(h->env, "hook", h->addon, h->entry, text, "0", gifts);
}
static hook *hook_of(frame *f, int e, u64 argument) {
  for (u64 i = 0; i < HOOK_COUNT; i++) {
    hook *h = HOOKS[i];
    if (h->waits && h->addon == f->addon && h->entry == e && h->argument == argument) return h;
  }
  return NULL;
}
static void add_env_cleanup_hook(frame *f, int e, u64 argument) {
  const char *name = "add_env_cleanup_hook";
  if (registers_late(f, name)) return;
  if (hook_of(f, e, argument)) {
    not_made(f, name, "the process would abort");
    return;
  }
  hook *h = malloc(sizeof *h);
  *h = (hook){f->env, f->addon, e, argument, 0, true};
  napi_status s = napi_add_env_cleanup_hook(f->env, run_hook, h);
  if (s == napi_ok) {
    h->ticket = next_ticket(f);
    ROOM_IN(HOOKS, HOOK_COUNT);
    HOOKS[HOOK_COUNT++] = h;
  }
  answer_with(f, name, s, "-", duty(" +#%llu", h->ticket, 0));
}
static void remove_env_cleanup_hook(frame *f, int e, u64 argument) {
  static hook none;
  hook *h = hook_of(f, e, argument);
  napi_status s = napi_remove_env_cleanup_hook(f->env, run_hook, h ? h : &none);
  if (s == napi_ok && h) h->waits = false;
  answer_with(f, "remove_env_cleanup_hook", s, "-", h ? duty(" -#%llu", h->ticket, 0) : "");
}

/* Asynchronous hooks. Where here one is abandoned, or a thread calls while one waits, the process would not end: there each one
 * that has not been removed is removed as its frame ends. */
static async_hook *async_hook_of(u64 n) { return n > 0 && n <= ASYNC_HOOK_COUNT ? ASYNC_HOOKS[n] : NULL; }
static napi_status remove_async(async_hook *h) {
  h->removed = true;
  return napi_remove_async_cleanup_hook(h->handle);
}
static void run_async_hook(napi_async_cleanup_hook_handle handle, void *data) {
  async_hook *h = data;
  char text[32];
  u64 gifts[GIFT_COUNT] = {h->argument, h->number};
  (void)handle;
  snprintf(text, sizeof text, "#%llu", (unsigned long long)h->ticket);
  ends(NULL);
  outermost(h->env, "hook", h->addon, h->entry, text, "0", gifts);
  if (!HOOKS_WAIT && !h->removed) remove_async(h);
}
static void add_async_cleanup_hook(frame *f, int e, u64 argument, int w) {
  const char *name = "add_async_cleanup_hook";
  if (registers_late(f, name)) return;
  async_hook *h = calloc(1, sizeof *h);
  *h = (async_hook){f->env, NULL, f->addon, e, argument, 0, 0, false};
  napi_status s = napi_add_async_cleanup_hook(f->env, run_async_hook, h, &h->handle);
  if (s == napi_ok) {
    h->ticket = next_ticket(f);
    ROOM_IN(ASYNC_HOOKS, ASYNC_HOOK_COUNT);
    h->number = ++ASYNC_HOOK_COUNT;
    ASYNC_HOOKS[h->number] = h;
    if (is_kept(f, s)) f->regs[w] = h->number;
  }
  answer_with(f, name, s, "hook", duty(" +#%llu", h->ticket, 0));
}
static void remove_async_cleanup_hook(frame *f, int r) {
  const char *name = "remove_async_cleanup_hook";
  async_hook *h = async_hook_of(f->regs[r]);
  if (f->regs[r] == NOT_KNOWN) {
    not_made(f, name, "the runtime gave none");
    return;
  }
  if (h && h->removed) {
    not_made(f, name, "the hook was removed");
    return;
  }
  answer(f, name, h ? remove_async(h) : napi_remove_async_cleanup_hook(NULL), "-");
}

/* Promises. A deferred is freed as it is settled, and NULL is none: what in C has no deferred is not made. */
typedef struct {
  napi_deferred deferred;
  bool settled;
} deferred;
static deferred *DEFERREDS;
static u64 DEFERRED_COUNT;
static void create_promise(frame *f, int d, int w) {
  napi_deferred given = NULL;
  napi_value v = NULL;
  napi_status s = napi_create_promise(f->env, &given, &v);
  if (is_kept(f, s)) {
    ROOM_IN(DEFERREDS, DEFERRED_COUNT);
    DEFERREDS[++DEFERRED_COUNT] = (deferred){given, false};
    f->regs[d] = DEFERRED_COUNT;
    f->regs[w] = issue(v);
  } else if (kind_here(f) == 'p') f->regs[d] = NOT_KNOWN;
  answer(f, "create_promise", s, "promise");
}
static void settle(frame *f, const char *name, int r, int h, napi_status with(napi_env, napi_deferred, napi_value)) {
  u64 n = f->regs[r];
  VALUE(v, h);
  if (n == NOT_KNOWN) {
    not_made(f, name, "the runtime gave none");
    return;
  }
  if (n == 0 || n > DEFERRED_COUNT) {
    not_made(f, name, "there is no such deferred");
    return;
  }
  if (DEFERREDS[n].settled) {
    not_made(f, name, "the deferred was settled");
    return;
  }
  napi_status s = with(f->env, DEFERREDS[n].deferred, v);
  if (s == napi_ok || s == napi_generic_failure) DEFERREDS[n].settled = true;
  answer(f, name, s, "-");
}
static void resolve_deferred(frame *f, int r, int h) { settle(f, "resolve_deferred", r, h, napi_resolve_deferred); }
static void reject_deferred(frame *f, int r, int h) { settle(f, "reject_deferred", r, h, napi_reject_deferred); }

/* Reactions. JavaScript has them, by `then`, and the manual has no call for them: these two are not made, and no reaction begins. */
static void add_reaction(frame *f, int r, int e, u64 payload) { not_made(f, "add_reaction", "it is no call of Node-API"); }
static void get_reaction_value(frame *f, int w) { not_made(f, "get_reaction_value", "it is no call of Node-API"); }

/* Works. */
static void execute(napi_env env, void *data) {
  work *it = data;
  char what[32];
  (void)env;
  snprintf(what, sizeof what, "j%llu", (unsigned long long)it->queued);
  around(before, what, "start");
  say("w", "start", "0", what, "");
  around(happened, what, "start");
  if (it->mixes) {
    it->value = it->n;
    for (u64 i = 0; i < it->rounds; i++) it->value = it->value * 6364136223846793005u + 1442695040888963407u;
  } else it->value = it->n % 2 ? it->n * ((it->n + 1) / 2) : it->n / 2 * (it->n + 1);
  around(before, what, "finish");
  say("w", "finish", "0", number(it->value), "");
  around(happened, what, "finish");
}
static void complete(napi_env env, napi_status status, void *data) {
  work *it = data;
  char text[32], code[16];
  u64 gifts[GIFT_COUNT] = {(u64)status, status == napi_ok ? it->value : 0, it->payload};
  snprintf(text, sizeof text, "j%llu", (unsigned long long)it->queued);
  snprintf(code, sizeof code, "%d", (int)status);
  it->waits = false;
  outermost(env, "complete", it->addon, it->entry, text, code, gifts);
}
static napi_value resource_name(napi_env env) {
  napi_value name = NULL;
  napi_create_string_utf8(env, "script", NAPI_AUTO_LENGTH, &name);
  return name;
}
/* Keeps every thread of the pool busy until a work that a call cancels was cancelled. */
static void hold(napi_env env, void *data) {
  (void)env;
  before(data);
}
static void let_go(napi_env env, napi_status status, void *data) {
  (void)env;
  (void)status;
  free(data);
}
static void hold_back(napi_env env, u64 queued) {
  for (size_t i = 0; i < HELD_BACK_COUNT; i++)
    for (size_t k = 0; HELD_BACK[i] == queued && k < WORKERS; k++) {
      napi_async_work holder;
      char *event = malloc(WORD);
      snprintf(event, WORD, "hold j%llu", (unsigned long long)queued);
      if (napi_create_async_work(env, NULL, resource_name(env), hold, let_go, event, &holder) == napi_ok)
        napi_queue_async_work(env, holder);
    }
}
static work *work_of(u64 n) { return n > 0 && n <= WORK_COUNT && !WORKS[n]->gone ? WORKS[n] : NULL; }
static bool is_gone(frame *f, const char *name, int r) {
  u64 n = f->regs[r];
  return n > 0 && n <= WORK_COUNT && WORKS[n]->gone && not_made(f, name, "the work was deleted");
}
static void create_async_work(frame *f, bool mixes, u64 n, u64 rounds, int e, u64 payload, int w) {
  const char *name = "create_async_work";
  if (registers_late(f, name)) return;
  work *it = calloc(1, sizeof *it);
  it->mixes = mixes;
  it->n = n;
  it->rounds = rounds;
  it->payload = payload;
  it->addon = f->addon;
  it->entry = e;
  napi_status s = napi_create_async_work(f->env, NULL, resource_name(f->env), execute, complete, it, &it->work);
  if (s == napi_ok) {
    ROOM_IN(WORKS, WORK_COUNT);
    WORKS[++WORK_COUNT] = it;
    f->regs[w] = WORK_COUNT;
  }
  answer(f, name, s, "work");
}
static void queue_async_work(frame *f, int r) {
  const char *name = "queue_async_work";
  work *it = work_of(f->regs[r]);
  if (registers_late(f, name) || is_gone(f, name, r)) return;
  if (it && it->queued) {
    not_made(f, name, "it was queued before");
    return;
  }
  if (it) {
    it->queued = ++QUEUED;
    it->waits = true;
    hold_back(f->env, it->queued);
  }
  napi_status s = napi_queue_async_work(f->env, it ? it->work : NULL);
  answer_with(f, name, s, "-", it ? duty(" +j%llu", it->queued, 0) : "");
}
static void cancel_async_work(frame *f, int r) {
  const char *name = "cancel_async_work";
  work *it = work_of(f->regs[r]);
  if (is_gone(f, name, r)) return;
  if (it && it->cancelled) {
    not_made(f, name, "it was cancelled before");
    return;
  }
  napi_status s = napi_cancel_async_work(f->env, it ? it->work : NULL);
  if (s == napi_ok && it) it->cancelled = true;
  answer(f, name, s, "-");
}
static void delete_async_work(frame *f, int r) {
  const char *name = "delete_async_work";
  work *it = work_of(f->regs[r]);
  if (is_gone(f, name, r)) return;
  if (it && it->waits) {
    not_made(f, name, "it waits or runs");
    return;
  }
  napi_status s = napi_delete_async_work(f->env, it ? it->work : NULL);
  if (s == napi_ok && it) it->gone = true;
  answer(f, name, s, "-");
}

/* Thread-safe functions. */
static void run_item(napi_env env, napi_value js, void *context, void *data) {
  tsfn *t = context;
  char text[48];
  u64 gifts[GIFT_COUNT] = {(u64)(uintptr_t)data, env ? 1 : 0, t->context};
  (void)js;
  snprintf(text, sizeof text, "f%llu.%llu", (unsigned long long)t->number, (unsigned long long)++t->begun);
  outermost(env ? env : t->env, env ? "item" : "torn", t->addon, t->entry, text, "0", gifts);
}
static void end_tsfn(napi_env env, void *data, void *hint) {
  tsfn *t = data;
  char text[32];
  u64 gifts[GIFT_COUNT] = {t->context};
  (void)hint;
  snprintf(text, sizeof text, "f%llu", (unsigned long long)t->number);
  t->gone = true;
  say("env", "finish_tsfn", "0", text, "");
  if (t->finalizer >= 0) outermost(env, "finalize", t->addon, t->finalizer, text, "0", gifts);
}
static function *function_of(u64 handle) {
  for (size_t i = 0; i < FUNCTION_COUNT; i++)
    if (FUNCTION_HANDLES[i] == handle) return FUNCTIONS[i];
  return NULL;
}
static void create_threadsafe_function(frame *f, int r, int e, uint32_t maximum, uint32_t count, int end, u64 context, int w) {
  const char *name = "create_threadsafe_function";
  napi_value fn = NULL;
  if (registers_late(f, name)) return;
  if (TSFN_COUNT + 2 > TABLE) {
    not_made(f, name, "tools/beside has no room for one more");
    return;
  }
  if (r >= 0) {
    VALUE(given, r);
    if (!given) {
      not_made(f, name, "NULL is no function");
      return;
    }
    fn = given;
  }
  tsfn *t = calloc(1, sizeof *t);
  t->env = f->env;
  t->addon = f->addon;
  t->entry = e;
  t->finalizer = end;
  t->context = context;
  t->maximum = maximum;
  if (r >= 0 && e < 0) t->target = function_of(f->regs[r]);
  napi_status s = napi_create_threadsafe_function(f->env, fn, NULL, resource_name(f->env), maximum, count, t, end_tsfn, t,
                                                  e < 0 ? NULL : run_item, &t->f);
  if (s == napi_ok) {
    t->number = ++TSFN_COUNT;
    TSFNS[t->number] = t;
    f->regs[w] = t->number;
  }
  char result[32];
  snprintf(result, sizeof result, "f%llu", (unsigned long long)t->number);
  answer_with(f, name, s, result, end >= 0 ? duty(" +f%llu", t->number, 0) : "");
}
static const char *unfit(u64 n) {
  return n == 0 || n > TSFN_COUNT ? "there is no such function" : TSFNS[n]->gone ? "the function is freed" : NULL;
}
static void item_made(tsfn *t, u64 payload) {
  if (t->made >= t->room) t->payloads = realloc(t->payloads, (t->room = t->room * 2 + 64) * sizeof(u64));
  t->payloads[t->made++] = payload;
}
static bool would_wait(const tsfn *t, int waits) {
  return waits && t->maximum && !t->closing && t->made - t->begun >= t->maximum;
}
static void call_threadsafe_function(frame *f, int r, u64 payload, int waits) {
  const char *name = "call_threadsafe_function", *why = unfit(f->regs[r]);
  if (why) {
    not_made(f, name, why);
    return;
  }
  tsfn *t = TSFNS[f->regs[r]];
  if (registers_late(f, name)) return;
  if (would_wait(t, waits)) {
    not_made(f, name, "it would wait for ever");
    return;
  }
  napi_status s =
      napi_call_threadsafe_function(t->f, (void *)(uintptr_t)payload, waits ? napi_tsfn_blocking : napi_tsfn_nonblocking);
  pthread_mutex_lock(&LOCK);
  if (s == napi_ok) item_made(t, payload);
  pthread_mutex_unlock(&LOCK);
  answer_with(f, name, s, "-", duty(" +f%llu.%llu", t->number, t->made));
}
/* The function of a register, or the end of the operation where none can be named. */
#define FUNCTION(t, r)                                                                                                           \
  const char *why = unfit(f->regs[r]);                                                                                           \
  if (why) {                                                                                                                     \
    not_made(f, name, why);                                                                                                      \
    return;                                                                                                                      \
  }                                                                                                                              \
  tsfn *t = TSFNS[f->regs[r]]
static void acquire_threadsafe_function(frame *f, int r) {
  const char *name = "acquire_threadsafe_function";
  FUNCTION(t, r);
  napi_status s = napi_acquire_threadsafe_function(t->f);
  answer(f, name, s, "-");
}
static void release_threadsafe_function(frame *f, int r, int aborts) {
  const char *name = "release_threadsafe_function";
  FUNCTION(t, r);
  t->closing |= aborts;
  napi_status s = napi_release_threadsafe_function(t->f, aborts ? napi_tsfn_abort : napi_tsfn_release);
  answer(f, name, s, "-");
}
static void ref_threadsafe_function(frame *f, int r) {
  const char *name = "ref_threadsafe_function";
  FUNCTION(t, r);
  napi_status s = napi_ref_threadsafe_function(f->env, t->f);
  answer(f, name, s, "-");
}
static void unref_threadsafe_function(frame *f, int r) {
  const char *name = "unref_threadsafe_function";
  FUNCTION(t, r);
  napi_status s = napi_unref_threadsafe_function(f->env, t->f);
  answer(f, name, s, "-");
}
static void get_threadsafe_function_context(frame *f, int r, int w) {
  const char *name = "get_threadsafe_function_context";
  FUNCTION(t, r);
  void *p = NULL;
  napi_status s = napi_get_threadsafe_function_context(t->f, &p);
  keep_number(f, name, s, w, p ? ((tsfn *)p)->context : 0);
}
static void leave(frame *f, int r) { f->left = r < 0 ? 0 : f->regs[r]; }

/* Threads: each makes its calls in order. After an answer of 16 it has no hold on the function any more, and leaves it alone. */
static napi_status made_by_thread(const thread_op *op, tsfn *t) {
  if (op->kind == 'a') return napi_acquire_threadsafe_function(t->f);
  if (op->kind == 'r') return napi_release_threadsafe_function(t->f, op->mode ? napi_tsfn_abort : napi_tsfn_release);
  pthread_mutex_lock(&LOCK);
  item_made(t, op->payload);
  pthread_mutex_unlock(&LOCK);
  napi_status s =
      napi_call_threadsafe_function(t->f, (void *)(uintptr_t)op->payload, op->mode ? napi_tsfn_blocking : napi_tsfn_nonblocking);
  pthread_mutex_lock(&LOCK);
  if (s != napi_ok) t->made--;
  pthread_mutex_unlock(&LOCK);
  return s;
}
static void thread_step(const char *actor, const thread_op *op, u64 *left_alone) {
  const char *name = op->kind == 'c'   ? "call_threadsafe_function"
                     : op->kind == 'a' ? "acquire_threadsafe_function"
                                       : "release_threadsafe_function";
  const char *why = op->function && op->function == *left_alone ? "the function answered 16 to it before" : unfit(op->function);
  char status[16];
  if (why) {
    say(actor, name, "~", why, "");
    return;
  }
  napi_status s = made_by_thread(op, TSFNS[op->function]);
  if (s == napi_closing) *left_alone = op->function;
  snprintf(status, sizeof status, "%d", (int)s);
  say(actor, name, status, "-", "");
}
static void *run_thread(void *data) {
  size_t at = (size_t)(uintptr_t)data;
  char actor[16], step[16];
  u64 left_alone = 0;
  snprintf(actor, sizeof actor, "t%zu", at);
  for (size_t i = 0; i < THREADS[at].count; i++) {
    snprintf(step, sizeof step, "%zu", i);
    around(before, actor, step);
    thread_step(actor, &THREADS[at].ops[i], &left_alone);
    around(happened, actor, step);
  }
  say(actor, "actor_end", "0", "-", "");
  return NULL;
}

/* The begin and the end of the run. */
static napi_value go(napi_env env, napi_callback_info info) {
  (void)info;
  say("env", "go", "0", "-", "");
  happened("env go");
  for (size_t i = 0; i < THREAD_COUNT; i++) {
    pthread_t t;
    pthread_create(&t, NULL, run_thread, (void *)(uintptr_t)i);
    pthread_detach(t);
  }
  before("env back");
  if (EXIT) leave_by_exit(env);
  return NULL;
}
NAPI_MODULE_INIT() {
  int at = NEXT_ADDON++;
  napi_value f;
  ADDONS[at].env = env;
  if (PLAN_COUNT) outermost(env, "init", at, 0, "", "0", NULL);
  napi_add_env_cleanup_hook(env, ends, &ADDONS[at]); /* Added last of this addon, it runs first. */
  napi_create_function(env, "go", NAPI_AUTO_LENGTH, go, NULL, &f);
  napi_set_named_property(env, exports, "go", f);
  return exports;
}
