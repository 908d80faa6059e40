// Refuses one allocation of a program: the one of the number in REFUSED, counted from 1. How many
// there were stands in the file in COUNTED, of eight bytes, whichever way the program ends.
// The thread of the number in UNMADE can't be made, counted from 1.
// To the file in TRACED go the calls that each allocation lies in, the innermost first: for each
// the place in the program where it goes on, of eight bytes, and then a 0, or a 1 where one comes
// that is not known. The program has neither frame pointers nor tables to unwind it, so FRAMES is
// a file that says of each such place, of four bytes, how far above it that of the next one lies,
// of four bytes (growing/frames.py makes it).
// Of files READABLE bytes are read, and of the input LISTENED, and then reading fails by the error
// in ERROR; to the output WRITABLE bytes are written, and then writing does.
#define _GNU_SOURCE
#include <dlfcn.h>
#include <errno.h>
#include <fcntl.h>
#include <link.h>
#include <pthread.h>
#include <stdatomic.h>
#include <stdint.h>
#include <stdlib.h>
#include <sys/mman.h>
#include <sys/stat.h>
#include <sys/syscall.h>
#include <unistd.h>

#define MOST_CALLS 256

struct frame {
    uint32_t place, reach;
};

static atomic_long own;
static atomic_long *made = &own;
static atomic_long threads;
static long refused, unmade, readable, listened, writable, error;
static const struct frame *frames;
static size_t frames_count;
static uintptr_t base;
static int traced = -1;

static long number_in(const char *name, long none) {
    const char *number = getenv(name);
    return number ? atol(number) : none;
}

// The program comes first.
static int take_base(struct dl_phdr_info *of, size_t size, void *with) {
    (void)size, (void)with;
    base = of->dlpi_addr;
    return 1;
}

static void begin_trace(const char *to, const char *from) {
    struct stat has;
    int file = from ? open(from, O_RDONLY) : -1;
    if (file < 0 || fstat(file, &has)) return;
    frames = mmap(NULL, has.st_size, PROT_READ, MAP_PRIVATE, file, 0);
    frames_count = has.st_size / sizeof *frames;
    dl_iterate_phdr(take_base, NULL);
    traced = open(to, O_WRONLY | O_CREAT | O_TRUNC, 0600);
}

static const struct frame *frame_of(uintptr_t place) {
    size_t low = 0, high = frames_count;
    while (low < high) {
        size_t half = (low + high) / 2;
        if (frames[half].place < place) low = half + 1;
        else high = half;
    }
    return low < frames_count && frames[low].place == place ? &frames[low] : NULL;
}

// Writes the calls of an allocation, from where the place stands to which its own call returns.
static void trace(const uintptr_t *at) {
    uint64_t calls[MOST_CALLS];
    size_t count = 0;
    const struct frame *found;
    while (count < MOST_CALLS - 1 && (found = frame_of(*at - base))) {
        calls[count++] = found->place;
        at += 1 + found->reach / sizeof *at;
    }
    calls[count++] = *at - base <= frames[frames_count - 1].place;
    syscall(SYS_write, traced, calls, count * sizeof *calls);
}

__attribute__((constructor)) static void begin(void) {
    const char *path = getenv("COUNTED");
    int file = path ? open(path, O_RDWR) : -1;
    if (file >= 0) made = mmap(NULL, sizeof own, PROT_READ | PROT_WRITE, MAP_SHARED, file, 0);
    refused = number_in("REFUSED", 0);
    unmade = number_in("UNMADE", 0);
    readable = number_in("READABLE", -1);
    listened = number_in("LISTENED", -1);
    writable = number_in("WRITABLE", -1);
    error = number_in("ERROR", EIO);
    if (getenv("TRACED")) begin_trace(getenv("TRACED"), getenv("FRAMES"));
}

static int is_refused(const void *frame) {
    if (traced >= 0) trace((const uintptr_t *)frame + 1);
    return atomic_fetch_add(made, 1) + 1 == refused;
}

void *malloc(size_t size) {
    static void *(*real)(size_t);
    if (!real) real = dlsym(RTLD_NEXT, "malloc");
    return is_refused(__builtin_frame_address(0)) ? NULL : real(size);
}

void *realloc(void *old, size_t size) {
    static void *(*real)(void *, size_t);
    if (!real) real = dlsym(RTLD_NEXT, "realloc");
    return is_refused(__builtin_frame_address(0)) ? NULL : real(old, size);
}

void *aligned_alloc(size_t alignment, size_t size) {
    static void *(*real)(size_t, size_t);
    if (!real) real = dlsym(RTLD_NEXT, "aligned_alloc");
    return is_refused(__builtin_frame_address(0)) ? NULL : real(alignment, size);
}

int pthread_create(pthread_t *to, const pthread_attr_t *how, void *(*of)(void *), void *with) {
    static int (*real)(pthread_t *, const pthread_attr_t *, void *(*)(void *), void *);
    if (!real) real = dlsym(RTLD_NEXT, "pthread_create");
    return atomic_fetch_add(&threads, 1) + 1 == unmade ? EAGAIN : real(to, how, of, with);
}

// How much of so many bytes may pass, of what is left; below 0 all may.
static ssize_t passing(size_t size, long left) {
    if (left == 0) errno = error;
    return left < 0 || size < (size_t)left ? (ssize_t)size : left ? left : -1;
}

ssize_t read(int file, void *to, size_t size) {
    static ssize_t (*real)(int, void *, size_t);
    if (!real) real = dlsym(RTLD_NEXT, "read");
    long none = -1, *left = file == STDIN_FILENO ? &listened : &none;
    if (file > STDERR_FILENO) left = &readable;
    ssize_t some = passing(size, *left);
    ssize_t done = some < 0 ? some : real(file, to, some);
    if (*left > 0 && done > 0) *left -= done;
    return done;
}

ssize_t write(int file, const void *from, size_t size) {
    static ssize_t (*real)(int, const void *, size_t);
    if (!real) real = dlsym(RTLD_NEXT, "write");
    ssize_t some = passing(size, file == STDOUT_FILENO ? writable : -1);
    ssize_t done = some < 0 ? some : real(file, from, some);
    if (file == STDOUT_FILENO && writable > 0 && done > 0) writable -= done;
    return done;
}
