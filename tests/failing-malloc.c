// Makes one allocation of a program fail: the one whose number stands in FAIL_ALLOC, counted from 1. It writes a byte to
// descriptor 3 then, so that a script sees whether there was one. It is loaded before the C library (LD_PRELOAD).
typedef __SIZE_TYPE__ size_t;

extern void *__libc_malloc(size_t);
extern void *__libc_realloc(void *, size_t);
extern char *getenv(const char *);
extern long write(int, const void *, size_t);

static long wanted = -1, made;

static int fails(void) {
    if (wanted < 0) {
        const char *digits = getenv("FAIL_ALLOC");
        wanted = 0;
        while (digits && *digits) wanted = 10 * wanted + (*digits++ - '0');
    }
    return ++made == wanted && write(3, ".", 1) == 1;
}

void *malloc(size_t size) {
    return fails() ? 0 : __libc_malloc(size);
}

void *realloc(void *old, size_t size) {
    return fails() ? 0 : __libc_realloc(old, size);
}
