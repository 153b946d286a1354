// Loaded by LD_PRELOAD, it refuses the allocation number REFUSE_AT of the process, counted from 1 over all threads; where REFUSE_ON is set, all later
// ones too. It counts in the file REFUSE_COUNT, whose first eight bytes say afterwards how many were asked for.
#include <errno.h>
#include <fcntl.h>
#include <stdatomic.h>
#include <stdlib.h>
#include <sys/mman.h>
#include <unistd.h>

void *__libc_malloc(size_t), *__libc_calloc(size_t, size_t), *__libc_realloc(void *, size_t), *__libc_memalign(size_t, size_t);
static long at;
static int on;
static _Atomic long *count;

__attribute__((constructor)) static void begin(void) {
    if (!getenv("REFUSE_COUNT") || !getenv("REFUSE_AT")) return;
    int file = open(getenv("REFUSE_COUNT"), O_RDWR | O_CLOEXEC);
    void *place = mmap(NULL, sizeof *count, PROT_READ | PROT_WRITE, MAP_SHARED, file, 0);
    at = atol(getenv("REFUSE_AT"));
    on = getenv("REFUSE_ON") != NULL;
    close(file);
    if (place == MAP_FAILED) abort();
    count = place;
}

static int refused(void) {
    long n = count ? ++*count : 0;
    int is = n && (n == at || (on && n > at));
    if (is) errno = ENOMEM;
    return is;
}

void *malloc(size_t size) { return refused() ? NULL : __libc_malloc(size); }
void *calloc(size_t n, size_t size) { return refused() ? NULL : __libc_calloc(n, size); }
void *realloc(void *old, size_t size) { return refused() ? NULL : __libc_realloc(old, size); }
void *memalign(size_t to, size_t size) { return refused() ? NULL : __libc_memalign(to, size); }
void *aligned_alloc(size_t to, size_t size) { return memalign(to, size); }
int posix_memalign(void **it, size_t to, size_t size) { return (*it = memalign(to, size)) ? 0 : ENOMEM; }
