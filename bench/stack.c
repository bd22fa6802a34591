/* stack SPOOL..: how much stack ploverdell_check, ploverdell_read and ploverdell_rewrite take. A thread's stack is filled with a pattern, the
 * call is made, and the lowest byte that changed tells: for each spool, at each class with a wire part. For each call it prints one line,
 * `NAME BYTES CLASS WIRE SPOOL` of the deepest, then one `NAME thread BYTES`: the smallest thread in which that spool's call still ends, in
 * steps of 1,024 bytes; below the thread's stack is a page that may not be touched.
 *
 * tools/stack compiles it with the Rattle kit's compiler, for x86-64. The kit has a C library to link with and none of its
 * headers: what is used of it is declared here, as glibc has it on x86-64. */
#include "ploverdell.h"

typedef unsigned long pthread_t;
typedef union {
    char bytes[56];
    long aligned;
} pthread_attr_t;

struct rlimit {
    unsigned long now, most;
};

extern int printf(const char *, ...);
extern int open(const char *, int, ...);
extern long read(int, void *, size_t);
extern int close(int);
extern void *memset(void *, int, size_t);
extern void *mmap(void *, size_t, int, int, int, long);
extern int mprotect(void *, size_t, int);
extern int fork(void);
extern int waitpid(int, int *, int);
extern int setrlimit(int, const struct rlimit *);
extern void exit(int) __attribute__((noreturn));
extern void _exit(int) __attribute__((noreturn));
extern int pthread_attr_init(pthread_attr_t *);
extern int pthread_attr_setstack(pthread_attr_t *, void *, size_t);
extern int pthread_create(pthread_t *, const pthread_attr_t *, void *(*)(void *), void *);
extern int pthread_join(pthread_t, void **);

enum { READ_AND_WRITE = 3, NO_ACCESS = 0, PRIVATE_AND_OF_NO_FILE = 0x22, TO_READ = 0, CORE_FILE = 4 };

#define STACK (512 * 1024)
#define PAGE 4096
#define STEP 1024
#define PATTERN 0xA5
#define MOST_RECORDS 10240 /* no spool has more */

static uint8_t spool[61441], out[61441];
static size_t spool_len;
static struct front {
    uint64_t cls, wire;
} front;
static int64_t table[MOST_RECORDS * PLOVERDELL_RECORD];
static uint8_t *top; /* the stack pointer of the thread just before it makes the call */

static void *do_check(void *unused) {
    top = __builtin_frame_address(0);
    ploverdell_check(spool, spool_len, front.cls, front.wire);
    return unused;
}

static void *do_read(void *unused) {
    uint64_t count;
    top = __builtin_frame_address(0);
    ploverdell_read(spool, spool_len, front.cls, front.wire, table, sizeof table / sizeof *table, &count);
    return unused;
}

static void *do_rewrite(void *unused) {
    uint64_t count;
    top = __builtin_frame_address(0);
    ploverdell_rewrite(spool, spool_len, out, sizeof out, &count);
    return unused;
}

static struct call {
    const char *name;
    void *(*made)(void *);
    size_t most;
    struct front front;
    const char *spool;
} calls[] = {{"check", do_check, 0, {0, 0}, ""}, {"read", do_read, 0, {0, 0}, ""}, {"rewrite", do_rewrite, 0, {0, 0}, ""}};

/* of the last two one has no such class, one no such wire part */
static const struct front fronts[] = {{15, 18}, {3, 8}, {1, 0}, {6, 18}, {15, 9}};

#define LENGTH(array) (sizeof array / sizeof *array)

static void in_thread(void *(*made)(void *), uint8_t *stack, size_t size) {
    pthread_attr_t attr;
    pthread_t thread;
    pthread_attr_init(&attr);
    if (pthread_attr_setstack(&attr, stack, size) != 0 || pthread_create(&thread, &attr, made, 0) != 0) _exit(2);
    pthread_join(thread, 0);
}

static size_t depth(void *(*made)(void *), uint8_t *stack) {
    size_t low = 0;
    memset(stack, PATTERN, STACK);
    in_thread(made, stack, STACK);
    while (low < STACK && stack[low] == PATTERN) low++;
    return (size_t)(top - (stack + low));
}

static void load(const char *path) {
    int file = open(path, TO_READ);
    long n = file < 0 ? -1 : read(file, spool, sizeof spool);
    if (n < 0) {
        printf("stack: %s can't be read\n", path);
        exit(2);
    }
    close(file);
    spool_len = (size_t)n;
}

/* Whether the call ends in a thread with a stack of this size. */
static int holds(void *(*made)(void *), uint8_t *above_guard, size_t size) {
    int status, child = fork();
    if (child == 0) {
        struct rlimit none = {0, 0};
        setrlimit(CORE_FILE, &none);
        close(2); /* a fault here is an answer, and nothing to print */
        in_thread(made, above_guard, size);
        _exit(0);
    }
    return waitpid(child, &status, 0) == child && status == 0;
}

static void measure(struct call *call, const char *path, uint8_t *stack) {
    size_t bytes = depth(call->made, stack);
    if (bytes > call->most) call->most = bytes, call->front = front, call->spool = path;
}

static size_t smallest_thread(const struct call *call, uint8_t *stack) {
    size_t size = STACK;
    load(call->spool);
    front = call->front;
    while (size > PAGE && holds(call->made, stack, size - STEP)) size -= STEP;
    return size;
}

int main(int argc, char **argv) {
    uint8_t *room = mmap(0, PAGE + STACK, READ_AND_WRITE, PRIVATE_AND_OF_NO_FILE, -1, 0), *stack = room + PAGE;
    if (room == (uint8_t *)-1 || mprotect(room, PAGE, NO_ACCESS) != 0 || argc < 2) return 2;
    for (int k = 1; k < argc; k++) {
        load(argv[k]);
        for (size_t f = 0; f < LENGTH(fronts); f++) {
            front = fronts[f];
            for (size_t c = 0; c < LENGTH(calls); c++) measure(&calls[c], argv[k], stack);
        }
    }
    for (size_t c = 0; c < LENGTH(calls); c++) {
        const struct call *call = &calls[c];
        printf("%s %zu %u %u %s\n", call->name, call->most, (unsigned)call->front.cls, (unsigned)call->front.wire, call->spool);
    }
    for (size_t c = 0; c < LENGTH(calls); c++) printf("%s thread %zu\n", calls[c].name, smallest_thread(&calls[c], stack));
    return 0;
}
