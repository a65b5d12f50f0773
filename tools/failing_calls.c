/* Loaded before the C library: lets the call number FAIL_AT of one kind fail, and every later one too where FAIL_ON is set.
 *
 * FAIL_KIND is alloc (malloc and realloc), open, read or write; calls are counted from 1. FAIL_COUNT names a file that gets the
 * number of calls of that kind when the program ends.
 */
#include <errno.h>
#include <fcntl.h>
#include <stdarg.h>
#include <stddef.h>
#include <stdlib.h>
#include <string.h>
#include <sys/syscall.h>
#include <sys/types.h>
#include <unistd.h>

extern void *__libc_malloc(size_t);
extern void *__libc_realloc(void *, size_t);
extern int __open(const char *, int, ...);
extern ssize_t __read(int, void *, size_t);
extern ssize_t __write(int, const void *, size_t);
extern int __close(int);

static unsigned long fail_at, calls;
static int fail_on;
static char kind;
static const char *count_file;

__attribute__((constructor)) static void begin(void)
{
    const char *word = getenv("FAIL_KIND");
    const char *at = getenv("FAIL_AT");
    fail_at = at ? strtoul(at, NULL, 10) : 0;
    fail_on = getenv("FAIL_ON") != NULL;
    count_file = getenv("FAIL_COUNT");
    calls = 0;
    kind = word ? word[0] : 0;
}

__attribute__((destructor)) static void tell(void)
{
    char digits[24];
    size_t at = sizeof digits;
    unsigned long left = calls;
    int file;
    kind = 0;
    if (!count_file)
        return;
    do
        digits[--at] = '0' + left % 10;
    while (left /= 10);
    file = __open(count_file, O_WRONLY | O_CREAT | O_TRUNC, 0644);
    if (file >= 0) {
        (void)!__write(file, digits + at, sizeof digits - at);
        __close(file);
    }
}

/* how a program with threads ends */
void _exit(int status)
{
    tell();
    for (;;)
        syscall(SYS_exit_group, status);
}

/* whether this call of the kind is to fail; several threads may ask */
static int fails(char asked)
{
    unsigned long number;
    if (kind != asked)
        return 0;
    number = __atomic_add_fetch(&calls, 1, __ATOMIC_SEQ_CST);
    return fail_at && (number == fail_at || (fail_on && number > fail_at));
}

void *malloc(size_t size)
{
    if (fails('a')) {
        errno = ENOMEM;
        return NULL;
    }
    return __libc_malloc(size);
}

void *realloc(void *block, size_t size)
{
    if (fails('a')) {
        errno = ENOMEM;
        return NULL;
    }
    return __libc_realloc(block, size);
}

int open(const char *name, int flags, ...)
{
    va_list more;
    mode_t mode;
    va_start(more, flags);
    mode = va_arg(more, mode_t);
    va_end(more);
    if (fails('o')) {
        errno = EIO;
        return -1;
    }
    return __open(name, flags, mode);
}

ssize_t read(int file, void *bytes, size_t count)
{
    if (fails('r')) {
        errno = EIO;
        return -1;
    }
    return __read(file, bytes, count);
}

ssize_t write(int file, const void *bytes, size_t count)
{
    if (file == 1 && fails('w')) {
        errno = EIO;
        return -1;
    }
    return __write(file, bytes, count);
}
