/* Preloaded before a program, it refuses one of the program's requests for memory, or all from one on, by a null
 * pointer. REFUSE_AT is the number of the first that is refused, from 1; REFUSE_ON=1 refuses those behind it too. Where
 * REFUSE_COUNT names a file, the number of requests stands there, as the bytes of a long: it is counted in the file, as
 * the program may end without a word. tools/refuse-memory builds and uses it. What the loader and the C library ask for
 * before `main` is not counted. */
#define _GNU_SOURCE
#include <errno.h>
#include <fcntl.h>
#include <stdatomic.h>
#include <stddef.h>
#include <stdlib.h>
#include <sys/mman.h>
#include <unistd.h>

extern void *__libc_malloc(size_t);
extern void *__libc_realloc(void *, size_t);
extern void *__libc_calloc(size_t, size_t);
extern void *__libc_memalign(size_t, size_t);

static atomic_ulong own;
static atomic_ulong *asked = &own;
static unsigned long at;
static int on;
static int counts;

static int is_refused(void) {
    if (!counts)
        return 0;
    unsigned long number = atomic_fetch_add(asked, 1) + 1;
    return at && (number == at || (on && number > at));
}

void *malloc(size_t size) { return is_refused() ? (errno = ENOMEM, NULL) : __libc_malloc(size); }

void *realloc(void *old, size_t size) { return is_refused() ? (errno = ENOMEM, NULL) : __libc_realloc(old, size); }

void *calloc(size_t count, size_t size) { return is_refused() ? (errno = ENOMEM, NULL) : __libc_calloc(count, size); }

void *memalign(size_t align, size_t size) { return is_refused() ? (errno = ENOMEM, NULL) : __libc_memalign(align, size); }

void *aligned_alloc(size_t align, size_t size) { return memalign(align, size); }

int posix_memalign(void **made, size_t align, size_t size) {
    if (is_refused())
        return ENOMEM;
    *made = __libc_memalign(align, size);
    return *made ? 0 : ENOMEM;
}

__attribute__((constructor)) static void begin(void) {
    const char *first = getenv("REFUSE_AT"), *name = getenv("REFUSE_COUNT");
    at = first ? strtoul(first, NULL, 10) : 0;
    on = getenv("REFUSE_ON") != NULL;
    int file = name ? open(name, O_RDWR | O_CREAT, 0600) : -1;
    if (file >= 0 && ftruncate(file, sizeof own) == 0) {
        void *there = mmap(NULL, sizeof own, PROT_READ | PROT_WRITE, MAP_SHARED, file, 0);
        if (there != MAP_FAILED)
            asked = there;
    }
    counts = 1;
}
