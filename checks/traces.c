/* Preloaded over a program (LD_PRELOAD), it tells which calls it makes on files, in their order, in the file TRACE: a
   line for each, with the name of an open file in place of its number, and the error that the call ended with. A path
   that goes by an open folder begins with that one's name, in brackets. Writes in a row to one file are one line. It
   also makes calls fail, or shows other files than there are:

     FAILS=CALL:PATH:ERRNO      this call fails on what begins so
     FAILS_ONCE=1               it does so once
     AGAIN=COMMAND              a shell runs this right before `c.vcd` is opened for the fifth time
     FAILS_AGAIN=1              what is to fail does so only from then on
     AT_SYNC=COMMAND            a shell runs this right before the first fsync
     AT_RENAME=COMMAND          it does so right before the first rename
     LINKS=PATH                 this file gets the second name in place of another one
     LOOKS_AT=PATH              each look at `c.vcd` that follows links shows this file
     LATER=FIELD                statx shows one more in this field of `c.vcd` after the first fsync: dev, ino, size,
                                sec or nsec

   No headers are included: the Rattle kit's clang comes without them. The numbers of calls are those of x86-64, the
   only machine for which the kit builds. */
typedef __SIZE_TYPE__ size_t;
typedef __PTRDIFF_TYPE__ ssize_t;

#define NULL ((void *)0)
#define O_WRONLY 01
#define O_CREAT 0100
#define O_APPEND 02000
#define F_DUPFD_CLOEXEC 1030
#define NAMES 1024

extern int *__errno_location(void);
extern char *getenv(const char *);
extern int unsetenv(const char *);
extern long syscall(long, ...);
extern int system(const char *);
extern int atoi(const char *);
extern int strcmp(const char *, const char *);
extern int strncmp(const char *, const char *, size_t);
extern size_t strlen(const char *);
extern char *strncpy(char *, const char *, size_t);
extern int snprintf(char *, size_t, const char *, ...);

/* The names of open files. */
static char names[NAMES][256] = {"input", "output", "errors"};

static const char *name_of(int file) { return file >= 0 && file < NAMES ? names[file] : "?"; }

/* A path as lines show it. */
static const char *legible(const char *path, char *buffer, size_t size) {
    static const char open_files[] = "/proc/self/fd/";
    const char *rest = path + sizeof open_files - 1;
    if (strncmp(path, open_files, sizeof open_files - 1))
        return path;
    const char *name = name_of(atoi(rest));
    while (*rest && *rest != '/')
        rest++;
    if (!*rest)
        return path;
    snprintf(buffer, size, "[%s]%s", name, rest);
    return buffer;
}

/* The file that the last line was a write to. */
static int written = -1;

static void tell(const char *line) {
    const char *trace = getenv("TRACE");
    if (!trace)
        return;
    int file = syscall(2, trace, O_CREAT | O_WRONLY | O_APPEND, 0600);
    syscall(1, file, line, strlen(line));
    syscall(3, file);
}

/* How often the capture was opened. */
static int opened;

/* Whether this call on this path is to fail. */
static int is_to_fail(const char *call, const char *path) {
    const char *fails = getenv("FAILS");
    size_t length = strlen(call);
    if (!fails || getenv("FAILS_AGAIN") && opened < 5 || strncmp(fails, call, length) || fails[length] != ':')
        return 0;
    const char *begin = fails + length + 1, *end = begin;
    while (*end != ':')
        end++;
    if (strncmp(path, begin, end - begin))
        return 0;
    if (getenv("FAILS_ONCE"))
        unsetenv("FAILS");
    return atoi(end + 1);
}

/* Makes a call unless it is to fail, tells of it, and gives its result as the C library does. */
static long traced(const char *call, const char *path, const char *rest, long number, long a, long b, long c, long d,
                   long e) {
    char line[1200], buffer[600];
    path = legible(path, buffer, sizeof buffer);
    int error = is_to_fail(call, path);
    long result = error ? -1 : syscall(number, a, b, c, d, e);
    if (error)
        *__errno_location() = error;
    error = result < 0 ? *__errno_location() : 0;
    written = -1;
    snprintf(line, sizeof line, error ? "%s %s%s = error %d\n" : "%s %s%s\n", call, path, rest, error);
    tell(line);
    if (error)
        *__errno_location() = error;
    return result;
}

/* Runs the command of a setting in a shell, once. */
static void run_once(const char *setting) {
    const char *command = getenv(setting);
    if (!command)
        return;
    unsetenv("LD_PRELOAD");
    system(command);
    unsetenv(setting);
}

int open(const char *path, int flags, ...) {
    __builtin_va_list rest;
    char shown[60], buffer[600];
    __builtin_va_start(rest, flags);
    int mode = flags & O_CREAT ? __builtin_va_arg(rest, int) : 0;
    __builtin_va_end(rest);
    if (!strcmp(path, "c.vcd") && ++opened == 5)
        run_once("AGAIN");
    snprintf(shown, sizeof shown, flags & O_CREAT ? " %o mode %o" : " %o", flags & ~02000000, mode);
    int file = traced("open", path, shown, 2, (long)path, flags, mode, 0, 0);
    if (file >= 0 && file < NAMES)
        strncpy(names[file], legible(path, buffer, sizeof buffer), sizeof names[file] - 1);
    return file;
}

/* With this command it is a second number for an open file. */
int fcntl(int file, int command, ...) {
    __builtin_va_list rest;
    __builtin_va_start(rest, command);
    long last = __builtin_va_arg(rest, long);
    __builtin_va_end(rest);
    int copy = syscall(72, file, command, last);
    if (command == F_DUPFD_CLOEXEC && copy >= 0 && copy < NAMES)
        strncpy(names[copy], name_of(file), sizeof names[copy] - 1);
    return copy;
}

int mkdir(const char *path, unsigned mode) {
    char shown[40];
    snprintf(shown, sizeof shown, " mode %o", mode);
    return traced("mkdir", path, shown, 83, (long)path, mode, 0, 0, 0);
}

int rmdir(const char *path) { return traced("rmdir", path, "", 84, (long)path, 0, 0, 0, 0); }

int unlink(const char *path) { return traced("unlink", path, "", 87, (long)path, 0, 0, 0, 0); }

int rename(const char *path, const char *target) {
    char shown[600], buffer[500];
    run_once("AT_RENAME");
    snprintf(shown, sizeof shown, " to %s", legible(target, buffer, sizeof buffer));
    return traced("rename", path, shown, 82, (long)path, (long)target, 0, 0, 0);
}

int link(const char *path, const char *other) {
    char shown[600], buffer[500];
    snprintf(shown, sizeof shown, " to %s", legible(other, buffer, sizeof buffer));
    const char *linked = getenv("LINKS");
    return traced("link", path, shown, 86, (long)(linked ? linked : path), (long)other, 0, 0, 0);
}

int chmod(const char *path, unsigned mode) {
    char shown[40];
    snprintf(shown, sizeof shown, " %o", mode);
    return traced("chmod", path, shown, 90, (long)path, mode, 0, 0, 0);
}

/* -1 leaves the owner or the group as it is. */
static long traced_owner(const char *call, const char *path, long number, long what, unsigned owner, unsigned group) {
    char shown[60];
    snprintf(shown, sizeof shown, " %d %d", owner, group);
    return traced(call, path, shown, number, what, owner, group, 0, 0);
}

int chown(const char *path, unsigned owner, unsigned group) {
    return traced_owner("chown", path, 92, (long)path, owner, group);
}

int lchown(const char *path, unsigned owner, unsigned group) {
    return traced_owner("lchown", path, 94, (long)path, owner, group);
}

int fchown(int file, unsigned owner, unsigned group) {
    return traced_owner("fchown", name_of(file), 93, file, owner, group);
}

int fchmod(int file, unsigned mode) {
    char shown[40];
    snprintf(shown, sizeof shown, " %o", mode);
    return traced("fchmod", name_of(file), shown, 91, file, mode, 0, 0, 0);
}

int flock(int file, int how) {
    char shown[40];
    snprintf(shown, sizeof shown, " %d", how);
    return traced("flock", name_of(file), shown, 73, file, how, 0, 0, 0);
}

static int has_synced;

int fsync(int file) {
    run_once("AT_SYNC");
    has_synced = 1;
    return traced("fsync", name_of(file), "", 74, file, 0, 0, 0, 0);
}

int fdatasync(int file) { return traced("fdatasync", name_of(file), "", 75, file, 0, 0, 0, 0); }

int ftruncate(int file, long size) { return traced("ftruncate", name_of(file), "", 77, file, size, 0, 0, 0); }

/* Where the fields of a look are, in its bytes: the inode, the size, the seconds and nanoseconds of the last change, and
   the minor number of the device. */
static void change_later(unsigned char *found) {
    static const struct {
        const char *name;
        int place;
    } fields[] = {{"ino", 32}, {"size", 40}, {"sec", 112}, {"nsec", 120}, {"dev", 140}};
    const char *field = getenv("LATER");
    for (int i = 0; field && i < 5; i++)
        if (!strcmp(field, fields[i].name))
            found[fields[i].place]++;
}

int statx(int folder, const char *path, int flags, unsigned mask, void *found) {
    const char *shown = *path ? path : name_of(folder), *other = getenv("LOOKS_AT");
    if (other && !(flags & 0x100) && !strcmp(path, "c.vcd"))
        path = other;
    int result = traced(flags & 0x100 ? "look at the link" : "look", shown, "", 332, folder, (long)path, flags, mask,
                        (long)found);
    if (result == 0 && has_synced && !strcmp(shown, "c.vcd"))
        change_later(found);
    return result;
}

ssize_t write(int file, const void *bytes, size_t size) {
    char line[300];
    int error = is_to_fail("write", name_of(file));
    if (error) {
        *__errno_location() = error;
        return -1;
    }
    if (written != file) {
        snprintf(line, sizeof line, "write %s\n", name_of(file));
        tell(line);
    }
    written = file;
    return syscall(1, file, bytes, size);
}

/* The programs call it by this name, too. */
ssize_t __write(int file, const void *bytes, size_t size) { return write(file, bytes, size); }
