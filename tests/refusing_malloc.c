// A malloc that refuses one growth: the one of the number that REFUSE holds, counted from 1 over all
// threads, and says so on the error output. It stands before the C library's by LD_PRELOAD.
//
// The program asks by malloc and realloc, the C library for a new thread by calloc. No headers are
// included, since the toolchain has none.

typedef unsigned long Size;

void *__libc_malloc(Size size);
void *__libc_calloc(Size count, Size size);
void *__libc_realloc(void *block, Size size);
char *getenv(const char *name);
int *__errno_location(void);
long write(int file, const void *bytes, Size count);

enum { OUT_OF_MEMORY = 12, ERROR_OUTPUT = 2 };

// How many growths there are up to the one that is refused.
static long left;

__attribute__((constructor)) static void begin(void) {
    const char *digit = getenv("REFUSE");
    while (digit && *digit) {
        left = 10 * left + (*digit - '0');
        digit++;
    }
}

static int is_refused(void) {
    if (__atomic_sub_fetch(&left, 1, __ATOMIC_SEQ_CST) != 0) {
        return 0;
    }
    write(ERROR_OUTPUT, "refused\n", 8);
    *__errno_location() = OUT_OF_MEMORY;
    return 1;
}

void *malloc(Size size) {
    return is_refused() ? 0 : __libc_malloc(size);
}

void *calloc(Size count, Size size) {
    return is_refused() ? 0 : __libc_calloc(count, size);
}

void *realloc(void *block, Size size) {
    return is_refused() ? 0 : __libc_realloc(block, size);
}
