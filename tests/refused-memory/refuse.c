// An allocator for tests, put under a program by LD_PRELOAD. It hands each request on to the C library, but it refuses one
// of them: that whose number, counted from 1 over all threads, stands in REFUSE, and with REFUSE_ON=1 each later one too.
// It counts them in the first eight bytes of the file whose descriptor stands in REFUSE_COUNTED, where they are read however
// the program ends.
#include <errno.h>
#include <stdatomic.h>
#include <stdlib.h>
#include <sys/mman.h>

void *__libc_malloc(size_t size);
void *__libc_calloc(size_t count, size_t size);
void *__libc_realloc(void *old, size_t size);
void *__libc_memalign(size_t alignment, size_t size);

static atomic_long own;
static atomic_long *asked = &own;
static long first;
static int is_lasting;

static long number_in(const char *name, long none) {
    const char *text = getenv(name);
    return text ? atol(text) : none;
}

__attribute__((constructor)) static void begin(void) {
    first = number_in("REFUSE", 0);
    is_lasting = number_in("REFUSE_ON", 0) == 1;
    int file = (int)number_in("REFUSE_COUNTED", -1);
    void *counted = mmap(NULL, sizeof own, PROT_READ | PROT_WRITE, MAP_SHARED, file, 0);
    if (counted != MAP_FAILED)
        asked = counted;
}

static int is_refused(void) {
    long number = atomic_fetch_add(asked, 1) + 1;
    if (first == 0 || number < first || (number > first && !is_lasting))
        return 0;
    errno = ENOMEM;
    return 1;
}

void *malloc(size_t size) {
    return is_refused() ? NULL : __libc_malloc(size);
}

void *calloc(size_t count, size_t size) {
    return is_refused() ? NULL : __libc_calloc(count, size);
}

void *realloc(void *old, size_t size) {
    return is_refused() ? NULL : __libc_realloc(old, size);
}

void *memalign(size_t alignment, size_t size) {
    return is_refused() ? NULL : __libc_memalign(alignment, size);
}

void *aligned_alloc(size_t alignment, size_t size) {
    return memalign(alignment, size);
}

int posix_memalign(void **to, size_t alignment, size_t size) {
    void *got = memalign(alignment, size);
    if (!got)
        return ENOMEM;
    *to = got;
    return 0;
}
