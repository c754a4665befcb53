/* Refuses the allocation of a number, or all from it on, of the program that it is preloaded into, and tells how many there were and
   how many bytes they asked for, in all and at most at once. */
#define _GNU_SOURCE
#include <dlfcn.h>
#include <stdio.h>
#include <stdlib.h>
#include <sys/syscall.h>
#include <unistd.h>

static unsigned long at, count, asked, most;
static int from, ready, says;
static void *(*next_malloc)(size_t);
static void *(*next_realloc)(void *, size_t);

static void begin(void) {
  const char *word = getenv("REFUSE_AT");
  at = word ? strtoul(word, NULL, 10) : 0;
  from = getenv("REFUSE_FROM") != NULL;
  says = getenv("REFUSE_COUNT") != NULL;
  next_malloc = (void *(*)(size_t))dlsym(RTLD_NEXT, "malloc");
  next_realloc = (void *(*)(void *, size_t))dlsym(RTLD_NEXT, "realloc");
  ready = 1;
}

static int is_refused(size_t size) {
  unsigned long seen = __atomic_load_n(&most, __ATOMIC_SEQ_CST);
  while (size > seen && !__atomic_compare_exchange_n(&most, &seen, size, 0, __ATOMIC_SEQ_CST, __ATOMIC_SEQ_CST)) {}
  __atomic_add_fetch(&asked, size, __ATOMIC_SEQ_CST);
  unsigned long number = __atomic_add_fetch(&count, 1, __ATOMIC_SEQ_CST);
  return at != 0 && (number == at || (from && number > at));
}

void *malloc(size_t size) {
  if (!ready) begin();
  return is_refused(size) ? NULL : next_malloc(size);
}

void *realloc(void *block, size_t size) {
  if (!ready) begin();
  return is_refused(size) ? NULL : next_realloc(block, size);
}

__attribute__((destructor)) static void end(void) {
  static int told;
  if (!ready) begin();
  if (says && !told) dprintf(2, "allocations=%lu asked=%lu most=%lu\n", count, asked, most);
  told = 1;
}

/* A program of tests may end so, and then no destructor runs. */
void _exit(int status) {
  end();
  syscall(SYS_exit_group, status);
  __builtin_unreachable();
}
