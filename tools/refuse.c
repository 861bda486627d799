/* Refuses one allocation: that whose number, counted from 1, the environment gives as REFUSED, and then writes a byte to
   descriptor 3. `refusals` loads it before the C library, in the place of whose two calls that get memory it stands;
   tools/try links it there. */
#include <errno.h>
#include <stddef.h>
#include <stdlib.h>
#include <unistd.h>

extern void *__libc_malloc(size_t size);
extern void *__libc_realloc(void *memory, size_t size);

static int is_refused(void) {
    static long left = -1;
    if (left < 0) {
        const char *number = getenv("REFUSED");
        left = number ? atol(number) : 0;
    }
    if (left == 0 || --left > 0) {
        return 0;
    }
    if (write(3, "r", 1) != 1) {
        abort();
    }
    errno = ENOMEM;
    return 1;
}

void *malloc(size_t size) { return is_refused() ? NULL : __libc_malloc(size); }

void *realloc(void *memory, size_t size) { return is_refused() ? NULL : __libc_realloc(memory, size); }
