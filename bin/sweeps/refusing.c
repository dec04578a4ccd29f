/* Preloaded into txkv by bin/sweep: refuses the memory that is asked for as the REFUSED-th, and then says so on standard error. */
#include <errno.h>
#include <stdatomic.h>
#include <stddef.h>
#include <stdlib.h>
#include <unistd.h>

extern void *__libc_malloc(size_t);
extern void *__libc_calloc(size_t, size_t);
extern void *__libc_realloc(void *, size_t);
extern void *__libc_memalign(size_t, size_t);

static atomic_ulong asked;
static unsigned long number;

/* What was asked for before the program began is not counted. */
__attribute__((constructor)) static void begin(void) {
    const char *text = getenv("REFUSED");
    number = text ? strtoul(text, NULL, 10) : 0;
    atomic_store(&asked, 0);
}

static int is_refused(void) {
    static const char said[] = "memory is refused\n";
    if (number == 0 || atomic_fetch_add(&asked, 1) + 1 != number)
        return 0;
    if (write(STDERR_FILENO, said, sizeof said - 1) < 0)
        _exit(99);
    errno = ENOMEM;
    return 1;
}

void *malloc(size_t size) { return is_refused() ? NULL : __libc_malloc(size); }

void *calloc(size_t count, size_t size) { return is_refused() ? NULL : __libc_calloc(count, size); }

void *realloc(void *at, size_t size) { return is_refused() ? NULL : __libc_realloc(at, size); }

void *memalign(size_t align, size_t size) { return is_refused() ? NULL : __libc_memalign(align, size); }

void *aligned_alloc(size_t align, size_t size) { return memalign(align, size); }

int posix_memalign(void **at, size_t align, size_t size) {
    void *made = memalign(align, size);
    if (made == NULL)
        return ENOMEM;
    *at = made;
    return 0;
}
