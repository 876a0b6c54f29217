/* Lists a program's calls that open, make or change a file, and lets one of them fail. It is loaded before the C
   library. ODHT_CALLS=FILE names the list, in which each call has a line; ODHT_FAIL_CALL=N has the Nth call fail, with
   the error of the number ODHT_FAIL_WITH, as a full disk (28) or a broken one (5) has it. With ODHT_READS it lists
   reads of files too. */
#define _GNU_SOURCE
#include <dlfcn.h>
#include <errno.h>
#include <fcntl.h>
#include <stdarg.h>
#include <stdio.h>
#include <stdlib.h>
#include <string.h>
#include <sys/stat.h>
#include <unistd.h>

static unsigned long calls;

#define NEXT(name) static __typeof__(&name) next; if (next == NULL) next = (__typeof__(&name))dlsym(RTLD_NEXT, #name)

static unsigned long number_of(const char *name) {
    const char *text = getenv(name);
    return text == NULL ? 0 : strtoul(text, NULL, 10);
}

/* `dprintf` writes by a call of the C library's own, which is not listed */
static int fails(const char *call, const char *what) {
    const char *name = getenv("ODHT_CALLS");
    if (name == NULL) return 0;
    calls += 1;
    int list = (int)(number_of("ODHT_LIST"));
    if (list > 2) dprintf(list, "%s %s\n", call, what);
    if (calls != number_of("ODHT_FAIL_CALL")) return 0;
    errno = (int)number_of("ODHT_FAIL_WITH");
    return 1;
}

static const char *kind_of(int file) {
    struct stat found;
    if (fstat(file, &found) != 0) return "nothing";
    return S_ISDIR(found.st_mode) ? "folder" : S_ISREG(found.st_mode) ? "file" : "stream";
}

__attribute__((constructor)) static void open_list(void) {
    const char *name = getenv("ODHT_CALLS");
    char text[16];
    if (name == NULL) return;
    snprintf(text, sizeof text, "%d", creat(name, 0600));
    setenv("ODHT_LIST", text, 1);
}

static int is_ours(const char *path) { return path[0] != '/' && getenv("ODHT_LIST") != NULL; }

static const char *how(int flags) {
    return flags & O_CREAT ? "make" : (flags & O_ACCMODE) == O_RDONLY ? "read" : "open";
}

int open64(const char *path, int flags, ...) {
    NEXT(open64);
    va_list more;
    va_start(more, flags);
    unsigned mode = va_arg(more, unsigned);
    va_end(more);
    return is_ours(path) && fails(how(flags), path) ? -1 : next(path, flags, mode);
}

int open(const char *path, int flags, ...) {
    NEXT(open);
    va_list more;
    va_start(more, flags);
    unsigned mode = va_arg(more, unsigned);
    va_end(more);
    return is_ours(path) && fails(how(flags), path) ? -1 : next(path, flags, mode);
}

ssize_t write(int file, const void *bytes, size_t len) {
    NEXT(write);
    return file > 2 && fails("write", kind_of(file)) ? -1 : next(file, bytes, len);
}

ssize_t pread64(int file, void *bytes, size_t len, off64_t at) {
    NEXT(pread64);
    return getenv("ODHT_READS") != NULL && fails("pread", kind_of(file)) ? -1 : next(file, bytes, len, at);
}

ssize_t pread(int file, void *bytes, size_t len, off_t at) {
    NEXT(pread);
    return getenv("ODHT_READS") != NULL && fails("pread", kind_of(file)) ? -1 : next(file, bytes, len, at);
}

ssize_t read(int file, void *bytes, size_t len) {
    NEXT(read);
    return getenv("ODHT_READS") != NULL && file > 2 && fails("load", kind_of(file)) ? -1 : next(file, bytes, len);
}

int fchmod(int file, mode_t mode) {
    NEXT(fchmod);
    return fails("fchmod", kind_of(file)) ? -1 : next(file, mode);
}

int fsync(int file) {
    NEXT(fsync);
    return fails("fsync", kind_of(file)) ? -1 : next(file);
}

int rename(const char *from, const char *to) {
    NEXT(rename);
    return fails("rename", to) ? -1 : next(from, to);
}
