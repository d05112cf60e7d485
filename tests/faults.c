/* The calls of the system that tests/faults lets fail, loaded before the C library. The environment says which ones, and where:

   READ_FAILS, WRITE_FAILS   the read or write after so many bytes fails; BY_SIGNAL: with EINTR; TAKES_NONE: the write takes nothing
   OLDER_FAILS               the read after so many bytes of the files that are named OUT or end in -older fails. READ_FAILS leaves them out
   READ_MOST, WRITE_MOST     the most bytes that a call gives or takes
   WRITE_SLEEPS              so many microseconds before each write
   KILLED_AT_WRITE           the write of this number is ended by SIGKILL
   KILLED_AT, CALL_FAILS     the same for one of new, sync, mode, rename and folder, which make an output and give it its name; and of
                             link, copy and keep, which give the older file another name. CALL_FAILS may have several, each after a +
   ERROR                     the number of the error that a failing write or call has
   REFUSED_FROM, REFUSED_TO  the growths of memory that are refused; GROWN: at the end, a + on standard error for each growth

   Standard error is left alone. */
#define _GNU_SOURCE
#include <dlfcn.h>
#include <errno.h>
#include <fcntl.h>
#include <signal.h>
#include <stdarg.h>
#include <stdlib.h>
#include <string.h>
#include <sys/stat.h>
#include <unistd.h>
extern void *__libc_malloc(size_t);
extern void *__libc_realloc(void *, size_t);
static long given, taken, grown, writes, made, older;
static char is_older[1024];
static long told(const char *name) { const char *value = getenv(name); return value ? atol(value) : -1; }
static int stops(const char *call) {
    const char *fails = getenv("CALL_FAILS"), *killed = getenv("KILLED_AT");
    if (killed && !strcmp(killed, call)) raise(SIGKILL);
    const char *found = fails ? strstr(fails, call) : 0;
    if (!found || (found != fails && found[-1] != '+') || (found[strlen(call)] && found[strlen(call)] != '+')) return 0;
    errno = told("ERROR") > 0 ? told("ERROR") : EIO;
    return 1;
}
static int is_folder(int file) { struct stat is; return fstat(file, &is) == 0 && S_ISDIR(is.st_mode); }
static int ends_in(const char *name, const char *end) {
    size_t size = strlen(name), most = strlen(end);
    return size >= most && !strcmp(name + size - most, end);
}
static int opened(const char *symbol, const char *name, int flags, int mode) {
    int (*next)(const char *, int, ...) = dlsym(RTLD_NEXT, symbol);
    if ((flags & O_EXCL) && stops(made ? "copy" : "new")) return -1;
    int file = next(name, flags, mode);
    if ((flags & O_EXCL) && file >= 0) made++;
    if (file >= 0 && file < (int)sizeof is_older) is_older[file] = ends_in(name, "OUT") || ends_in(name, "-older");
    return file;
}
static int mode_in(va_list more, int flags) { return flags & O_CREAT ? va_arg(more, int) : 0; }
int open(const char *name, int flags, ...) {
    va_list more; va_start(more, flags); int mode = mode_in(more, flags); va_end(more);
    return opened("open", name, flags, mode);
}
int open64(const char *name, int flags, ...) {
    va_list more; va_start(more, flags); int mode = mode_in(more, flags); va_end(more);
    return opened("open64", name, flags, mode);
}
int fsync(int file) {
    int (*next)(int) = dlsym(RTLD_NEXT, "fsync");
    return stops(is_folder(file) ? "folder" : "sync") ? -1 : next(file);
}
int fchmod(int file, mode_t mode) {
    int (*next)(int, mode_t) = dlsym(RTLD_NEXT, "fchmod");
    return stops("mode") ? -1 : next(file, mode);
}
int rename(const char *from, const char *to) {
    int (*next)(const char *, const char *) = dlsym(RTLD_NEXT, "rename");
    return stops(ends_in(to, "~") ? "keep" : "rename") ? -1 : next(from, to);
}
int link(const char *from, const char *to) {
    int (*next)(const char *, const char *) = dlsym(RTLD_NEXT, "link");
    return stops("link") ? -1 : next(from, to);
}
static size_t room(size_t size, long done, long fails, long most) {
    if (fails >= 0 && size > (size_t)(fails - done)) size = fails - done;
    return most > 0 && size > (size_t)most ? (size_t)most : size;
}
ssize_t read(int file, void *bytes, size_t size) {
    ssize_t (*next)(int, void *, size_t) = dlsym(RTLD_NEXT, "read");
    if (file >= 0 && file < (int)sizeof is_older && is_older[file]) {
        if (told("OLDER_FAILS") >= 0 && older >= told("OLDER_FAILS")) { errno = EIO; return -1; }
        ssize_t count = next(file, bytes, room(size, older, told("OLDER_FAILS"), told("READ_MOST")));
        if (count > 0) older += count;
        return count;
    }
    if (told("READ_FAILS") >= 0 && given >= told("READ_FAILS")) { errno = told("BY_SIGNAL") > 0 ? EINTR : EIO; return -1; }
    ssize_t count = next(file, bytes, room(size, given, told("READ_FAILS"), told("READ_MOST")));
    if (count > 0) given += count;
    return count;
}
ssize_t write(int file, const void *bytes, size_t size) {
    ssize_t (*next)(int, const void *, size_t) = dlsym(RTLD_NEXT, "write");
    if (file == 2) return next(file, bytes, size);
    if (++writes == told("KILLED_AT_WRITE")) raise(SIGKILL);
    if (told("WRITE_SLEEPS") > 0) usleep(told("WRITE_SLEEPS"));
    if (told("WRITE_FAILS") >= 0 && taken >= told("WRITE_FAILS")) {
        errno = told("ERROR") > 0 ? told("ERROR") : EIO;
        return told("TAKES_NONE") > 0 ? 0 : -1;
    }
    ssize_t count = next(file, bytes, room(size, taken, told("WRITE_FAILS"), told("WRITE_MOST")));
    if (count > 0) taken += count;
    return count;
}
ssize_t __write(int file, const void *bytes, size_t size) { return write(file, bytes, size); }
static int is_refused(void) {
    static long from = -2, to;
    if (from == -2) { from = told("REFUSED_FROM"); to = told("REFUSED_TO"); }
    grown++;
    return from > 0 && grown >= from && (to < 0 || grown <= to);
}
void *malloc(size_t size) { if (is_refused()) { errno = ENOMEM; return 0; } return __libc_malloc(size); }
void *realloc(void *old, size_t size) { if (is_refused()) { errno = ENOMEM; return 0; } return __libc_realloc(old, size); }
__attribute__((destructor)) static void tell(void) {
    if (told("GROWN") == 1) { char at[2] = {0, 0}; for (long left = grown; left > 0; left--) at[0] = '+', (void)!write(2, at, 1); }
}
