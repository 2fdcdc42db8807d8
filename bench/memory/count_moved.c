/* Loaded before the C library, it adds up the bytes that a program moves by memcpy and memmove in calls of at least 4,096 bytes,
   and writes them, behind the most memory that the program ever had (VmHWM, in bytes), to the file named by COUNT_TO. */
#include <dlfcn.h>
#include <fcntl.h>
#include <stdio.h>
#include <stdlib.h>
#include <string.h>
#include <unistd.h>

#define LEAST 4096

static unsigned long moved = 0;

static void *move(void *to, const void *from, size_t size) {
    static void *(*real)(void *, const void *, size_t) = NULL;
    if (!real) {
        real = (void *(*)(void *, const void *, size_t))dlsym(RTLD_NEXT, "memmove");
    }
    if (size >= LEAST) {
        moved += size;
    }
    return real(to, from, size);
}

void *memcpy(void *restrict to, const void *restrict from, size_t size) { return move(to, from, size); }

void *memmove(void *to, const void *from, size_t size) { return move(to, from, size); }

/* The number of kB behind VmHWM in this process's status. */
static unsigned long peak(void) {
    static char text[8192];
    int status = open("/proc/self/status", O_RDONLY);
    ssize_t length = status < 0 ? -1 : read(status, text, sizeof text - 1);
    char *line = length < 0 ? NULL : strstr(text, "VmHWM:");
    return line ? strtoul(line + 6, NULL, 10) * 1024 : 0;
}

__attribute__((destructor)) static void tell(void) {
    const char *file = getenv("COUNT_TO");
    int to = file ? open(file, O_WRONLY | O_CREAT | O_TRUNC, 0600) : -1;
    char text[64];
    int length = snprintf(text, sizeof text, "%lu %lu\n", peak(), moved);
    if (to >= 0 && write(to, text, length) != length) {
        _exit(99);
    }
}
