/* Loaded before the C library, it lets one allocation of a program fail: that whose number, counted from 1, is in the
   variable FAIL_NTH. Where that is 0, none fails. The file that MET_TO names is made when it fails. */
#include <errno.h>
#include <fcntl.h>
#include <stdlib.h>
#include <unistd.h>

void *__libc_malloc(size_t);
void *__libc_realloc(void *, size_t);
void *__libc_calloc(size_t, size_t);
void *__libc_memalign(size_t, size_t);

static long failing = -1;
static long made = 0;

/* Makes the file, without an allocation. */
static void tell(void) {
    const char *file = getenv("MET_TO");
    int to = file ? open(file, O_WRONLY | O_CREAT, 0600) : -1;
    if (to >= 0) {
        close(to);
    }
}

static int fails(void) {
    if (failing < 0) {
        const char *text = getenv("FAIL_NTH");
        failing = text ? strtol(text, NULL, 10) : 0;
    }
    made++;
    if (made != failing) {
        return 0;
    }
    tell();
    return 1;
}

void *malloc(size_t size) { return fails() ? (errno = ENOMEM, NULL) : __libc_malloc(size); }

void *realloc(void *old, size_t size) { return fails() ? (errno = ENOMEM, NULL) : __libc_realloc(old, size); }

void *calloc(size_t count, size_t size) { return fails() ? (errno = ENOMEM, NULL) : __libc_calloc(count, size); }

void *aligned_alloc(size_t align, size_t size) { return fails() ? (errno = ENOMEM, NULL) : __libc_memalign(align, size); }

int posix_memalign(void **to, size_t align, size_t size) {
    if (fails()) {
        return ENOMEM;
    }
    *to = __libc_memalign(align, size);
    return *to ? 0 : ENOMEM;
}
