/* Refuses what a program asks of its system. Loaded before the C library (LD_PRELOAD), it counts the growths of memory
 * that the program's own code asks for, from 1 on, and refuses those from GROWTHS_FROM to GROWTHS_TO; and also its calls
 * that open, look at, list, read and write, from CALLS_FROM to CALLS_TO, with the error number CALLS_FAULT. The name of
 * the first call that it refuses is written to the file REFUSED. If SHORT is set, each read and write moves one byte. Before
 * the call SWAP_AT, and before the call SWAP_BACK_AT, the paths SWAP_ONE and SWAP_OTHER are exchanged. The path of each
 * file that is opened is added to the file OPENED, a line for each.
 * What the C library does for itself is neither counted nor refused: a call counts if it returns into the program.
 * Built by: cc -shared -fPIC -O2 -o refusing.so refusing.c -ldl */
#define _GNU_SOURCE
#include <dirent.h>
#include <dlfcn.h>
#include <errno.h>
#include <fcntl.h>
#include <link.h>
#include <stdarg.h>
#include <stdint.h>
#include <stdio.h>
#include <stdlib.h>
#include <string.h>
#include <sys/stat.h>
#include <unistd.h>

struct kind {
    unsigned long seen, from, to;
    int fault;
};
static struct kind growths = {.fault = ENOMEM}, calls;
static int moves_a_byte;
static unsigned long swap_at, swap_back_at;
static uintptr_t begin, end;

/* The first object that is reported is the program. */
static int note_program(struct dl_phdr_info *info, size_t size, void *data) {
    (void)size, (void)data;
    for (int i = 0; i < info->dlpi_phnum; i++) {
        const ElfW(Phdr) *part = &info->dlpi_phdr[i];
        if (part->p_type != PT_LOAD || !(part->p_flags & PF_X)) continue;
        uintptr_t from = info->dlpi_addr + part->p_vaddr;
        if (!begin || from < begin) begin = from;
        if (from + part->p_memsz > end) end = from + part->p_memsz;
    }
    return 1;
}

static unsigned long number(const char *name) {
    const char *text = getenv(name);
    return text ? strtoul(text, NULL, 10) : 0;
}

__attribute__((constructor)) static void prepare(void) {
    growths.from = number("GROWTHS_FROM"), growths.to = number("GROWTHS_TO");
    calls.from = number("CALLS_FROM"), calls.to = number("CALLS_TO"), calls.fault = number("CALLS_FAULT");
    moves_a_byte = getenv("SHORT") != NULL;
    swap_at = number("SWAP_AT"), swap_back_at = number("SWAP_BACK_AT");
    dl_iterate_phdr(note_program, NULL);
}

/* Adds a text to the file that a variable names. */
static void add(const char *variable, const char *text) {
    const char *path = getenv(variable);
    int file = path ? open(path, O_WRONLY | O_CREAT | O_APPEND, 0600) : -1;
    if (file < 0) return;
    /* (a byte in each call, as SHORT may have it) */
    for (; *text; text++)
        if (write(file, text, 1) < 0) abort();
    close(file);
}

static int is_of_program(void *caller) {
    uintptr_t at = (uintptr_t)caller;
    return at >= begin && at < end;
}

static void note_opened(const char *path, void *caller) {
    if (!is_of_program(caller)) return;
    add("OPENED", path);
    add("OPENED", "\n");
}

static void swap_at_call(unsigned long call, const char *name) {
    if (call != swap_at && call != swap_back_at) return;
    int fault = errno;
    if (renameat2(AT_FDCWD, getenv("SWAP_ONE"), AT_FDCWD, getenv("SWAP_OTHER"), RENAME_EXCHANGE)) abort();
    if (call == swap_at) add("REFUSED", name);
    errno = fault;
}

static int is_refused(struct kind *kind, const char *name, void *caller) {
    if (!is_of_program(caller)) return 0;
    kind->seen++;
    if (kind == &calls) swap_at_call(kind->seen, name);
    if (kind->seen < kind->from || kind->seen > kind->to) return 0;
    if (kind->seen == kind->from) add("REFUSED", name);
    errno = kind->fault;
    return 1;
}

#define REAL(name) \
    static __typeof__(&name) real; \
    if (!real) real = (__typeof__(&name))dlsym(RTLD_NEXT, #name)
#define REFUSED(kind, name) is_refused(&kind, name, __builtin_return_address(0))
#define MOVED(len) (moves_a_byte && (len) > 1 ? 1 : (len))

void *malloc(size_t size) {
    REAL(malloc);
    return REFUSED(growths, "malloc") ? NULL : real(size);
}

void *calloc(size_t count, size_t size) {
    REAL(calloc);
    return REFUSED(growths, "calloc") ? NULL : real(count, size);
}

void *realloc(void *block, size_t size) {
    REAL(realloc);
    return REFUSED(growths, "realloc") ? NULL : real(block, size);
}

void *aligned_alloc(size_t alignment, size_t size) {
    REAL(aligned_alloc);
    return REFUSED(growths, "aligned_alloc") ? NULL : real(alignment, size);
}

int posix_memalign(void **block, size_t alignment, size_t size) {
    REAL(posix_memalign);
    return REFUSED(growths, "posix_memalign") ? ENOMEM : real(block, alignment, size);
}

/* The mode follows the flags, if they need one. */
#define MODE(flags) \
    mode_t mode = 0; \
    if ((flags) & (O_CREAT | __O_TMPFILE)) { \
        va_list rest; \
        va_start(rest, flags); \
        mode = va_arg(rest, mode_t); \
        va_end(rest); \
    }

int open(const char *path, int flags, ...) {
    REAL(open);
    MODE(flags);
    note_opened(path, __builtin_return_address(0));
    return REFUSED(calls, "open") ? -1 : real(path, flags, mode);
}

int openat(int folder, const char *path, int flags, ...) {
    REAL(openat);
    MODE(flags);
    note_opened(path, __builtin_return_address(0));
    return REFUSED(calls, "open") ? -1 : real(folder, path, flags, mode);
}

int statx(int folder, const char *restrict path, int flags, unsigned mask, struct statx *restrict into) {
    REAL(statx);
    return REFUSED(calls, "look") ? -1 : real(folder, path, flags, mask, into);
}

ssize_t getdents64(int folder, void *into, size_t len) {
    REAL(getdents64);
    return REFUSED(calls, "list") ? -1 : real(folder, into, len);
}

ssize_t read(int file, void *into, size_t len) {
    REAL(read);
    return REFUSED(calls, "read") ? -1 : real(file, into, MOVED(len));
}

ssize_t write(int file, const void *from, size_t len) {
    REAL(write);
    return REFUSED(calls, "write") ? -1 : real(file, from, MOVED(len));
}

ssize_t __write(int file, const void *from, size_t len) {
    REAL(write);
    return REFUSED(calls, "write") ? -1 : real(file, from, MOVED(len));
}
