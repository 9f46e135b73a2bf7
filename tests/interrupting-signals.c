// Has a timer's signal interrupt a program's reads and writes. The signal has a handler, and calls that it interrupts are
// not begun again by the system: they fail, and the program must make them again. For each such call a byte goes to
// descriptor 3, so that a script sees whether there was one. It is loaded before the C library (LD_PRELOAD).
typedef __SIZE_TYPE__ size_t;

enum { INTERRUPTED = 4, ALARM = 14, MICROSECONDS = 2000 };

extern long __read(int, void *, size_t);
extern long __write(int, const void *, size_t);
extern int *__errno_location(void);
extern void (*signal(int, void (*)(int)))(int);
extern int siginterrupt(int, int);
extern unsigned ualarm(unsigned, unsigned);

static void heard(int number) {
    (void)number;
}

// Before main: a signal every two milliseconds.
__attribute__((constructor)) static void begin(void) {
    signal(ALARM, heard);
    siginterrupt(ALARM, 1);
    ualarm(MICROSECONDS, MICROSECONDS);
}

static long told(long result) {
    if (result < 0 && *__errno_location() == INTERRUPTED) {
        __write(3, ".", 1);
        *__errno_location() = INTERRUPTED;
    }
    return result;
}

long read(int file, void *bytes, size_t count) {
    return told(__read(file, bytes, count));
}

long write(int file, const void *bytes, size_t count) {
    return told(__write(file, bytes, count));
}
