// Preloaded into a program, this refuses requests for memory and counts what is not freed. The environment says which:
//
//   REFUSE=N           the request with this number, counted from 1
//   REFUSE=N MARKED=1  the same, but numbers begin anew after each request for BEGIN bytes, and no request is refused between one
//                      for END bytes and the next one for BEGIN bytes
//   REFUSE=each        each request in turn: the program goes on in a copy of itself (`fork`) with that request refused, and
//                      then without
//
// REPORT is the number of an open file. With a number, a byte is written to it for each request that is refused. With `each`,
// the copies write their standard output to it, followed by BEFORE_COUNT and the number of blocks that the copy has not freed at
// its end; then come BEFORE_STATUS, the status of the copy as `waitpid` gives it, and a line feed. The last two numbers, without
// output, are those of the program itself, whose standard output is where it was, and whose status the caller sees.

typedef unsigned long size;

void *__libc_malloc(size length);
void *__libc_calloc(size count, size length);
void *__libc_realloc(void *old, size length);
void *__libc_memalign(size alignment, size length);
void __libc_free(void *block);
size malloc_usable_size(void *block);
char *getenv(const char *name);
int atoi(const char *text);
long write(int file, const void *bytes, size length);
int fork(void);
int waitpid(int process, int *status, int options);
int dup2(int old, int new);

enum { BEGIN = 40009, END = 40013, BEFORE_COUNT = 1, BEFORE_STATUS = 2, EACH = -2, NONE = -1 };

static int report, live, is_copy;

static void report_number(char before, long number) {
    char text[24];
    int at = sizeof text;
    long left = number < 0 ? -number : number;
    do {
        text[--at] = '0' + left % 10;
        left /= 10;
    } while (left);
    if (number < 0) {
        text[--at] = '-';
    }
    text[--at] = before;
    write(report, text + at, sizeof text - at);
}

// Whether this process is a copy in which the request is refused. In the program itself it returns when the copy has ended.
static int is_refused_in_copy(void) {
    int status = 0, process;
    if (is_copy) {
        return 0;
    }
    process = fork();
    if (process == 0) {
        is_copy = 1;
        dup2(report, 1);
        return 1;
    }
    waitpid(process, &status, 0);
    report_number(BEFORE_STATUS, process < 0 ? process : status);
    write(report, "\n", 1);
    return 0;
}

static int last;

static void begin(void) {
    const char *text = getenv("REFUSE"), *file = getenv("REPORT");
    last = !text ? NONE : text[0] == 'e' ? EACH : atoi(text);
    report = file ? atoi(file) : 2;
}

static int is_refused(size length) {
    static int asked, is_begun, is_marked, is_between;
    if (!is_begun) {
        is_begun = 1;
        begin();
        is_marked = getenv("MARKED") != 0;
    }
    if (last == EACH) {
        return is_refused_in_copy();
    }
    if (is_marked && (length == BEGIN || length == END)) {
        is_between = length == BEGIN;
        asked = 0;
        return 0;
    }
    if (is_marked && !is_between) {
        return 0;
    }
    asked += 1;
    return asked == last && write(report, "!", 1) == 1;
}

__attribute__((destructor)) static void end(void) {
    if (last == EACH) {
        report_number(BEFORE_COUNT, live);
    }
}

// A block that was given is one more that is to be freed.
static void *given(void *block) {
    live += block != 0;
    return block;
}

void *malloc(size length) { return is_refused(length) ? 0 : given(__libc_malloc(length)); }

void *calloc(size count, size length) { return is_refused(count * length) ? 0 : given(__libc_calloc(count, length)); }

void *realloc(void *old, size length) {
    if (!old) {
        return malloc(length);
    }
    // A program that asks for less gives memory back. If it cannot, it keeps the block, so no error tells of it.
    return length > malloc_usable_size(old) && is_refused(length) ? 0 : __libc_realloc(old, length);
}

void *aligned_alloc(size alignment, size length) { return is_refused(length) ? 0 : given(__libc_memalign(alignment, length)); }

int posix_memalign(void **block, size alignment, size length) {
    *block = aligned_alloc(alignment, length);
    return *block ? 0 : 12;
}

void free(void *block) {
    live -= block != 0;
    __libc_free(block);
}
