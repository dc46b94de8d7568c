/*
 * read, write and writev that give and take little, and fail: a read of standard input gives at most FAIL_PIECE bytes,
 * and fails once FAIL_GOOD bytes were given; standard output, or the descriptor that FAIL_FILE names, takes at most
 * FAIL_TAKES bytes a write, FAIL_ROOM bytes in all, and then fails. A variable that isn't set limits nothing. If
 * FAIL_TIMES is set, that many calls fail, and later ones do all that they are asked to. If FAIL_SILENTLY is set, a
 * write that fails says that it took no byte. As the program ends, the number of its writes to that descriptor is
 * written to the file that FAIL_COUNT names. It needs no headers: what it takes from the C library is declared here.
 */
typedef unsigned long size_t;
typedef long ssize_t;

struct part {
    const void *bytes;
    size_t count;
};

extern void *dlsym(void *handle, const char *name);
extern char *getenv(const char *name);
extern unsigned long strtoul(const char *text, char **end, int base);
extern int *__errno_location(void);
extern int creat(const char *name, unsigned int mode);
extern int dprintf(int file, const char *format, ...);

/* The next definition after this one, as the loader finds it. */
#define NEXT ((void *)-1L)
#define INPUT_OUTPUT_ERROR 5

static size_t piece;
static size_t good;
static size_t takes;
static size_t room;
static size_t times;
static int is_silent;
static int writer;
static unsigned long writes;

static size_t limit(const char *name)
{
    const char *text = getenv(name);
    return text ? strtoul(text, 0, 10) : ~0UL;
}

__attribute__((constructor)) static void begin(void)
{
    piece = limit("FAIL_PIECE");
    good = limit("FAIL_GOOD");
    takes = limit("FAIL_TAKES");
    room = limit("FAIL_ROOM");
    times = limit("FAIL_TIMES");
    is_silent = getenv("FAIL_SILENTLY") != 0;
    writer = getenv("FAIL_FILE") ? (int)limit("FAIL_FILE") : 1;
}

__attribute__((destructor)) static void end(void)
{
    const char *name = getenv("FAIL_COUNT");
    if (name)
        dprintf(creat(name, 0600), "%lu\n", writes);
}

static size_t smaller(size_t one, size_t other)
{
    return one < other ? one : other;
}

static ssize_t failed(void)
{
    times--;
    *__errno_location() = INPUT_OUTPUT_ERROR;
    return -1;
}

ssize_t read(int file, void *bytes, size_t count)
{
    ssize_t (*next)(int, void *, size_t) = (ssize_t(*)(int, void *, size_t))dlsym(NEXT, "read");
    if (file != 0 || times == 0)
        return next(file, bytes, count);
    if (good == 0)
        return failed();
    ssize_t given = next(file, bytes, smaller(count, smaller(piece, good)));
    if (given > 0)
        good -= (size_t)given;
    return given;
}

ssize_t write(int file, const void *bytes, size_t count)
{
    ssize_t (*next)(int, const void *, size_t) = (ssize_t(*)(int, const void *, size_t))dlsym(NEXT, "write");
    if (file == writer)
        writes++;
    if (file != writer || times == 0)
        return next(file, bytes, count);
    if (room == 0) {
        ssize_t fault = failed();
        return is_silent ? 0 : fault;
    }
    ssize_t taken = next(file, bytes, smaller(count, smaller(takes, room)));
    if (taken > 0)
        room -= (size_t)taken;
    return taken;
}

/* As many bytes as its first part that isn't empty. */
ssize_t writev(int file, const struct part *parts, int count)
{
    for (int at = 0; at < count; at++)
        if (parts[at].count > 0)
            return write(file, parts[at].bytes, parts[at].count);
    return 0;
}
