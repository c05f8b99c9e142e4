/* The stack of the proved calls on x86-64: paints what is below the stack pointer, calls, and looks how far down the paint is gone.
   A bundle comes on standard input, the type row as the argument; prints answer and bytes for read, for fit and, with -DRUN, for run and check.
   It is compiled by the kit's compiler, which has no headers: what is called is declared here. */
typedef unsigned char byte;
typedef unsigned long size;

long read(int, void *, size);
int printf(const char *, ...);
int atoi(const char *);

size bench_read(const byte *bundle, size bytes, byte *tables, size room);
size bench_fit(const byte *sheet, size bytes, size told);
size bench_check(const byte *sheet, size bytes, byte *working, size working_bytes);
size bench_run(const byte *sheet, size bytes, byte *working, size working_bytes, byte *result, size result_bytes);

enum { PAINTED = 4 << 20, PAINT = 0xa5, BUNDLE = 45057, TABLES = 88 * 508, WORKING = 8 * 6144, RESULT = 8 * 8192 };

static byte bundle[BUNDLE], tables[TABLES];
static volatile byte *lowest;

__attribute__((noinline)) static void paint(void) {
    volatile byte area[PAINTED];
    for (size i = 0; i < PAINTED; i++) area[i] = PAINT;
    lowest = area;
}

/* The bytes between the stack pointer of the caller and the lowest byte whose paint is gone. */
__attribute__((noinline)) static size used(const byte *pointer) {
    size i = 0;
    while (lowest[i] == PAINT) i++;
    return i == 0 ? 0 : (size)(pointer - (const byte *)(lowest + i));
}

/* Paints, makes the call, prints its answer and its stack. */
#define MEASURE(name, call)                                              \
    do {                                                                 \
        byte *pointer;                                                   \
        paint();                                                         \
        __asm__ volatile("mov %%rsp, %0" : "=r"(pointer));               \
        size answer = call;                                              \
        size bytes = used(pointer);                                      \
        printf(name " %lu %lu\n", answer, bytes);                        \
    } while (0)

int main(int count, char **words) {
    size length = 0;
    for (long more; (more = read(0, bundle + length, BUNDLE - length)) > 0;) length += (size)more;
    size told = count > 1 ? (size)atoi(words[1]) : 1;
    MEASURE("read", bench_read(bundle, length, tables, TABLES));
    MEASURE("fit", bench_fit(tables, TABLES, told));
#ifdef RUN
    static byte working[WORKING], result[RESULT];
    MEASURE("run", bench_run(tables, TABLES, working, WORKING, result, RESULT) % 65536);
    MEASURE("check", bench_check(tables, TABLES, working, WORKING) % 65536);
#endif
    return 0;
}
