/* Counts the calls that take memory, and refuses the one whose number FAIL_AT says; with FAIL_COUNT it says at
   the end how many there were. Loaded before glibc, whose own calls do the work. */
#include <errno.h>
#include <stdio.h>
#include <stdlib.h>
#include <unistd.h>

extern void *__libc_malloc(size_t);
extern void *__libc_calloc(size_t, size_t);
extern void *__libc_realloc(void *, size_t);
extern void *__libc_memalign(size_t, size_t);

static long calls = 0;
static long refused = -1;

static int is_refused(void) {
    if (refused < 0) {
        const char *at = getenv("FAIL_AT");
        refused = at ? atol(at) : 0;
    }
    calls += 1;
    if (calls != refused)
        return 0;
    errno = ENOMEM;
    return 1;
}

void *malloc(size_t size) { return is_refused() ? NULL : __libc_malloc(size); }
void *calloc(size_t count, size_t size) { return is_refused() ? NULL : __libc_calloc(count, size); }
void *realloc(void *old, size_t size) { return is_refused() ? NULL : __libc_realloc(old, size); }
void *aligned_alloc(size_t align, size_t size) { return is_refused() ? NULL : __libc_memalign(align, size); }

int posix_memalign(void **out, size_t align, size_t size) {
    if (is_refused())
        return ENOMEM;
    *out = __libc_memalign(align, size);
    return *out ? 0 : ENOMEM;
}

__attribute__((destructor)) static void say(void) {
    if (getenv("FAIL_COUNT")) {
        char line[64];
        int length = snprintf(line, sizeof line, "calls %ld\n", calls);
        if (write(2, line, length) < 0)
            _exit(1);
    }
}
