/* malloc and realloc of which one call is refused: the one whose number, counted from 1, stands in REFUSED. How many
 * calls there were is written to the file that COUNTED names. tests/stops loads it in front of the C library. */
#include <errno.h>
#include <stddef.h>
#include <stdio.h>
#include <stdlib.h>

void *__libc_malloc(size_t size);
void *__libc_realloc(void *old, size_t size);

static unsigned long calls, refused;

static int is_refused(void) {
    if (!calls) {
        const char *number = getenv("REFUSED");
        refused = number ? strtoul(number, NULL, 10) : 0;
    }
    calls++;
    if (calls != refused)
        return 0;
    errno = ENOMEM;
    return 1;
}

void *malloc(size_t size) {
    return is_refused() ? NULL : __libc_malloc(size);
}

void *realloc(void *old, size_t size) {
    return is_refused() ? NULL : __libc_realloc(old, size);
}

__attribute__((destructor)) static void tell(void) {
    const char *name = getenv("COUNTED");
    FILE *file = name ? fopen(name, "w") : NULL;
    if (file) {
        fprintf(file, "%lu\n", calls);
        fclose(file);
    }
}
