// Loaded before the C library (memory.py): refuses the allocation whose number REFUSE gives, counted from 1, and with
// REFUSE_ON also each later one. At the end it writes how many there were to the file that COUNT names.
#include <errno.h>
#include <stdio.h>
#include <stdlib.h>

extern void *__libc_malloc(size_t size);
extern void *__libc_realloc(void *block, size_t size);

static unsigned long refused, asked;
static int refuses_on;
static const char *count;

__attribute__((constructor)) static void begin(void) {
    const char *number = getenv("REFUSE");
    refuses_on = getenv("REFUSE_ON") != NULL;
    count = getenv("COUNT");
    refused = number ? strtoul(number, NULL, 10) : 0;
    asked = 0;
}

__attribute__((destructor)) static void end(void) {
    unsigned long all = asked;
    refused = 0;
    FILE *file = count ? fopen(count, "w") : NULL;
    if (file) {
        fprintf(file, "%lu\n", all);
        fclose(file);
    }
}

static int is_refused(void) {
    asked++;
    if (!refused || asked < refused || (asked > refused && !refuses_on))
        return 0;
    errno = ENOMEM;
    return 1;
}

void *malloc(size_t size) {
    return is_refused() ? NULL : __libc_malloc(size);
}

void *realloc(void *block, size_t size) {
    return is_refused() ? NULL : __libc_realloc(block, size);
}
