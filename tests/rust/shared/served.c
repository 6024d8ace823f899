// The shipped bench behind a pipe, for machines that cannot link its x86-64 code: built for x86-64 without a C library and run under an emulator.
// A call on standard input: the function's name in 64 bytes, the number of arguments, then each: 0 and a number, or its bytes an entry,
// its length and its entries, in whole words. The answer on standard output: every slice as the call left it.
typedef unsigned long u64;

#define EXPORTED(F) F(lavrindes_check_tables) F(lavrindes_check_dominance) F(lavrindes_check_requirements) F(lavrindes_check_rules) \
    F(lavrindes_check_numbering) F(lavrindes_check_all) F(lavrindes_check_texts) F(lavrindes_read_back) F(lavrindes_read_module) \
    F(lavrindes_read_sheet)
#define W u64
#define WORDS W, W, W, W, W, W, W, W, W, W, W, W, W, W, W, W, W, W, W, W, W, W, W, W, W, W, W, W, W, W, W, W
typedef void (*Function)(WORDS);
#define DECLARED(f) extern void f(WORDS) __attribute__((weak));
EXPORTED(DECLARED)
#define ROW(f) {#f, f},
static const struct { const char *name; Function call; } exported[] = {EXPORTED(ROW) {0, 0}};

static u64 room[1 << 19];

static long ask(long number, long a, void *b, u64 c) {
    long said;
    __asm__ volatile("syscall" : "=a"(said) : "a"(number), "D"(a), "S"(b), "d"(c) : "rcx", "r11", "memory");
    return said;
}
static void end(int status) {
    ask(60, status, 0, 0);
    __builtin_unreachable();
}
static void get(void *to, u64 bytes) {
    for (long n; bytes; to = (char *)to + n, bytes -= n)
        if ((n = ask(0, 0, to, bytes)) <= 0) end(n < 0);
}
static void put(void *from, u64 bytes) {
    for (long n; bytes; from = (char *)from + n, bytes -= n)
        if ((n = ask(1, 1, from, bytes)) <= 0) end(1);
}
static Function found(const char *name) {
    for (int i = 0; exported[i].name; i++) {
        const char *a = exported[i].name, *b = name;
        while (*a && *a == *b) a++, b++;
        if (*a == *b) return exported[i].call;
    }
    return 0;
}

void *memcpy(void *to, const void *from, u64 n) {
    for (u64 i = 0; i < n; i++) ((char *)to)[i] = ((const char *)from)[i];
    return to;
}
void *memset(void *to, int c, u64 n) {
    for (u64 i = 0; i < n; i++) ((char *)to)[i] = (char)c;
    return to;
}

void serve(void) {
    for (;;) {
        char name[64];
        u64 count, w[32] = {0}, at[16], words[16], slices = 0, k = 0, used = 0;
        get(name, 64);
        get(&count, 8);
        for (u64 i = 0; i < count; i++) {
            u64 bytes, n;
            get(&bytes, 8);
            get(&n, 8);
            if (k + 2 > 32) end(3);
            if (bytes == 0) {
                w[k++] = n;
                continue;
            }
            u64 whole = (bytes * n + 7) / 8;
            if (used + whole > sizeof room / 8) end(3);
            get(room + used, whole * 8);
            w[k++] = (u64)(room + used);
            w[k++] = n;
            at[slices] = used, words[slices++] = whole;
            used += whole;
        }
        Function f = found(name);
        if (!f) end(4);
        f(w[0], w[1], w[2], w[3], w[4], w[5], w[6], w[7], w[8], w[9], w[10], w[11], w[12], w[13], w[14], w[15], w[16], w[17], w[18],
            w[19], w[20], w[21], w[22], w[23], w[24], w[25], w[26], w[27], w[28], w[29], w[30], w[31]);
        for (u64 i = 0; i < slices; i++) put(room + at[i], words[i] * 8);
    }
}
__asm__(".globl _start\n_start:\n xor %ebp, %ebp\n and $-16, %rsp\n call serve\n");
