/* Refuses one allocation of a program, or all between two marks: see faults/scarce. Loaded before
 * the C library (LD_PRELOAD), or linked with --wrap=malloc, calloc and realloc (-DWRAP).
 *
 * An allocation of one of the sizes below is a mark, and is never refused: h2_test_scarce makes
 * them (record.rt). With COUNT=all every allocation of the program counts, without marks. REFUSE=k
 * refuses the k-th that counts, once. Between ALL and END all are refused where REFUSE is set. A
 * line is appended to the file that REPORT names: how many counted, how many were refused, how
 * often a call was made again, how many connections and decoders had failed, and how many marks
 * ALL there were.
 *
 * It includes nothing, since the clang of the kit has no headers: what it calls of the C library is
 * declared here, as it is on Linux and x86-64. */
typedef __SIZE_TYPE__ size_t;
char *getenv(const char *name);
int strcmp(const char *one, const char *other);
unsigned long strtoul(const char *text, char **end, int base);
int snprintf(char *text, size_t n, const char *format, ...);
int open(const char *path, int flags, ...);
long write(int file, const void *octets, size_t n);
int close(int file);
_Noreturn void _exit(int status);

/* O_WRONLY, O_CREAT and O_APPEND. */
enum { TO_APPEND = 01 | 0100 | 02000 };

enum { BEGIN = 7919, ALL = 7927, END = 7933, AGAIN = 7937, FAILED = 7949 };

#ifdef WRAP
#define OWN(name) __wrap_##name
#define REAL(name) __real_##name
#else
#define OWN(name) name
#define REAL(name) __libc_##name
#endif

void *REAL(malloc)(size_t n);
void *REAL(calloc)(size_t count, size_t n);
void *REAL(realloc)(void *octets, size_t n);
void *OWN(malloc)(size_t n);
void *OWN(calloc)(size_t count, size_t n);
void *OWN(realloc)(void *octets, size_t n);

static unsigned long counted, refused, again, failed, promised, wanted;
static int ready, counts, refuses_all;

static void report(void);

static void read_words(void) {
  const char *count = getenv("COUNT"), *refuse = getenv("REFUSE");
  ready = 1;
  counts = count && !strcmp(count, "all");
  wanted = refuse ? strtoul(refuse, 0, 10) : 0;
}

/* Whether an allocation of so many octets is refused. */
static int is_refused(size_t n) {
  if (!ready) read_words();
  switch (n) {
  case BEGIN: counts = 1; return 0;
  case ALL: promised++; refuses_all = wanted != 0; return 0;
  case END: counts = refuses_all = 0; report(); return 0;
  case AGAIN: again++; return 0;
  case FAILED: failed++; return 0;
  }
  if (counts) counted++;
  if (!refuses_all && !(counts && counted == wanted)) return 0;
  refused++;
  return 1;
}

void *OWN(malloc)(size_t n) { return is_refused(n) ? 0 : REAL(malloc)(n); }

void *OWN(calloc)(size_t count, size_t n) {
  return is_refused(count * n) ? 0 : REAL(calloc)(count, n);
}

void *OWN(realloc)(void *octets, size_t n) {
  return is_refused(n) ? 0 : REAL(realloc)(octets, n);
}

/* The last line that is written counts: a test that fails ends without the second call. */
__attribute__((destructor)) static void report(void) {
  const char *path = getenv("REPORT");
  char line[120];
  int n, file = path ? open(path, TO_APPEND, 0600) : -1;
  if (file < 0) return;
  n = snprintf(line, sizeof line, "%lu %lu %lu %lu %lu\n", counted, refused, again, failed, promised);
  if (write(file, line, n) != n) _exit(99);
  close(file);
}
