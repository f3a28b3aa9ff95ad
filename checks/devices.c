/* Preloaded over a program (LD_PRELOAD), it makes memory, readers and writers hostile, and tells what they did:

     GROWTH_REFUSED=N   the Nth growth (malloc, calloc, realloc, also to fewer bytes) is refused
     GROWTHS_MARKED=1   growths are counted only between the lines `refuse` and `allow` that the program writes to
                        standard output, each by one write
     READ_AT_MOST=N     a read gives at most N bytes
     WRITE_AT_MOST=N    a write takes at most N bytes
     REPLY_ROOM=N       standard output takes N bytes in all, and then fails as a full disk does
     OUTPUT_ROOM=N      the file that is written does so
     TAKES_NONE=1       where it would fail so, a write takes no byte instead
     FAILS_ONCE=1       where it would fail so, it does once, and then takes all
     MEMORY=F           the file F is opened in place of /proc/meminfo
     TOLD=F             each read, each write to standard output or to a file, and the refused growth makes the file F
                        longer by a line: `read`, `reply`, `output` or `refused`. So does the line `allow`:
                        `N growths of B bytes, G given back`, where B is how many bytes more were asked for in all

   Each block of memory has its size in front. No headers are included: the Rattle kit's clang comes without them. */
typedef __SIZE_TYPE__ size_t;
typedef __PTRDIFF_TYPE__ ssize_t;

#define NULL ((void *)0)
#define O_WRONLY 01
#define O_CREAT 0100
#define O_APPEND 02000
#define ENOMEM 12
#define ENOSPC 28

struct iovec {
    void *base;
    size_t size;
};

extern int *__errno_location(void);
extern char *getenv(const char *);
extern long atol(const char *);
extern void *memset(void *, int, size_t);
extern int memcmp(const void *, const void *, size_t);
extern int strcmp(const char *, const char *);
extern size_t strlen(const char *);
extern int sprintf(char *, const char *, ...);
extern int close(int);
extern long syscall(long, ...);
extern ssize_t readv(int, const struct iovec *, int);
extern ssize_t writev(int, const struct iovec *, int);
extern void *__libc_malloc(size_t);
extern void *__libc_realloc(void *, size_t);
extern void __libc_free(void *);

static long number_of(const char *name) {
    const char *text = getenv(name);
    return text ? atol(text) : 0;
}

int open(const char *path, int flags, ...) {
    __builtin_va_list rest;
    __builtin_va_start(rest, flags);
    int mode = flags & O_CREAT ? __builtin_va_arg(rest, int) : 0;
    __builtin_va_end(rest);
    const char *memory = getenv("MEMORY");
    return syscall(2, memory && !strcmp(path, "/proc/meminfo") ? memory : path, flags, mode);
}

/* Writes to a device, whatever it is to do. */
static ssize_t pass_on(int device, const void *bytes, size_t size) {
    struct iovec piece = {(void *)bytes, size};
    return writev(device, &piece, 1);
}

static void tell(const char *line) {
    const char *name = getenv("TOLD");
    if (!name)
        return;
    int file = open(name, O_CREAT | O_WRONLY | O_APPEND, 0600);
    pass_on(file, line, strlen(line));
    close(file);
}

/* Whether growths are counted now: less than 0 before the first of all, or the first line that says so. */
static int counted = -1;
static size_t calls, growths, taken, given_back;

static int is_counted(void) {
    if (counted < 0)
        counted = !number_of("GROWTHS_MARKED");
    return counted;
}

/* Looks whether the program writes one of the two lines that say from where on growths are counted. */
static void look_for_mark(int device, const void *bytes, size_t size) {
    if (device != 1 || !number_of("GROWTHS_MARKED"))
        return;
    if (size == 7 && !memcmp(bytes, "refuse\n", 7))
        counted = 1;
    if (size == 6 && !memcmp(bytes, "allow\n", 6)) {
        char line[120];
        counted = 0;
        sprintf(line, "%lu growths of %lu bytes, %lu given back\n", growths, taken, given_back);
        tell(line);
    }
}

/* Counts a growth by so many bytes, which are none where a block shrinks, and says whether it is the one to refuse. */
static int is_refused(size_t bytes) {
    static long refused = -1;
    if (!is_counted())
        return 0;
    if (refused < 0)
        refused = number_of("GROWTH_REFUSED");
    growths += bytes > 0;
    taken += bytes;
    if (++calls != (size_t)refused)
        return 0;
    tell("refused\n");
    *__errno_location() = ENOMEM;
    return 1;
}

/* What comes before a block; blocks keep their alignment of 16 bytes. */
struct head {
    size_t size, unused;
};

static void *block_of(struct head *head, size_t size) {
    if (!head)
        return NULL;
    head->size = size;
    return head + 1;
}

void *malloc(size_t size) {
    return is_refused(size) ? NULL : block_of(__libc_malloc(size + sizeof(struct head)), size);
}

void *calloc(size_t count, size_t size) {
    void *block = malloc(count * size);
    return block ? memset(block, 0, count * size) : NULL;
}

void free(void *block) {
    if (!block)
        return;
    struct head *head = (struct head *)block - 1;
    given_back += is_counted() ? head->size : 0;
    __libc_free(head);
}

void *realloc(void *block, size_t size) {
    if (!block)
        return malloc(size);
    struct head *head = (struct head *)block - 1;
    size_t before = head->size;
    if (is_refused(size > before ? size - before : 0))
        return NULL;
    given_back += is_counted() && size < before ? before - size : 0;
    return block_of(__libc_realloc(head, size + sizeof(struct head)), size);
}

static size_t at_most(const char *name, size_t size) {
    size_t most = (size_t)number_of(name);
    return most && most < size ? most : size;
}

ssize_t read(int device, void *bytes, size_t size) {
    struct iovec piece = {bytes, at_most("READ_AT_MOST", size)};
    tell("read\n");
    return readv(device, &piece, 1);
}

/* Whether the device that has a room failed once, and takes all since. */
static int has_recovered;

/* How many of so many bytes a device still takes, if it has a room. */
static size_t room_left(int device, size_t size) {
    static size_t used;
    const char *room = device == 2 ? NULL : getenv(device == 1 ? "REPLY_ROOM" : "OUTPUT_ROOM");
    if (!room || has_recovered)
        return size;
    size_t left = (size_t)atol(room) - used;
    size = size < left ? size : left;
    used += size;
    return size;
}

ssize_t write(int device, const void *bytes, size_t size) {
    look_for_mark(device, bytes, size);
    if (device != 2)
        tell(device == 1 ? "reply\n" : "output\n");
    size_t taken = room_left(device, at_most("WRITE_AT_MOST", size));
    if (taken == 0 && size > 0 && !number_of("TAKES_NONE")) {
        has_recovered = number_of("FAILS_ONCE") != 0;
        *__errno_location() = ENOSPC;
        return -1;
    }
    return pass_on(device, bytes, taken);
}

/* The programs call it by this name, too. */
ssize_t __write(int device, const void *bytes, size_t size) { return write(device, bytes, size); }
