/* Loaded before the C library (LD_PRELOAD), it refuses one allocation: the one whose number, from
   1, stands in the variable REFUSE. It says so on standard error. For glibc. */
#include <errno.h>
#include <stdlib.h>
#include <unistd.h>

void *__libc_malloc(size_t size);
void *__libc_realloc(void *old, size_t size);

static int refused(void)
{
    static long asked;
    static const char said[] = "allocation refused\n";
    const char *number = getenv("REFUSE");

    asked++;
    if (number == NULL || asked != atol(number))
        return 0;
    errno = ENOMEM;
    return write(2, said, sizeof said - 1) > 0;
}

void *malloc(size_t size)
{
    return refused() ? NULL : __libc_malloc(size);
}

void *realloc(void *old, size_t size)
{
    return refused() ? NULL : __libc_realloc(old, size);
}
