/*
 * A disk that fails once: the call whose number FAIL_AT says, counted from 1 over all that change a file or sync it, is
 * refused with EIO, and the later ones do what they are asked to. If FAIL_HALF is set, a write that fails has written
 * half of its bytes before. As the program ends, the number of its calls is written to the file that FAIL_COUNT names.
 * It needs no headers: what it takes from the C library is declared here.
 */
typedef unsigned long size_t;
typedef long ssize_t;
typedef long off_t;

extern void *dlsym(void *handle, const char *name);
extern char *getenv(const char *name);
extern unsigned long strtoul(const char *text, char **end, int base);
extern int *__errno_location(void);
extern int creat(const char *name, unsigned int mode);
extern int dprintf(int file, const char *format, ...);

/* The next definition after this one, as the loader finds it. */
#define NEXT ((void *)-1L)
#define INPUT_OUTPUT_ERROR 5

static unsigned long fails_at;
static unsigned long calls;
static int is_half;

__attribute__((constructor)) static void begin(void)
{
    const char *text = getenv("FAIL_AT");
    fails_at = text ? strtoul(text, 0, 10) : 0;
    is_half = getenv("FAIL_HALF") != 0;
}

__attribute__((destructor)) static void end(void)
{
    const char *name = getenv("FAIL_COUNT");
    if (name)
        dprintf(creat(name, 0600), "%lu\n", calls);
}

/* Whether this call is the one that fails. */
static int is_refused(void)
{
    calls++;
    if (calls != fails_at)
        return 0;
    *__errno_location() = INPUT_OUTPUT_ERROR;
    return 1;
}

static ssize_t written(const char *name, int file, const void *bytes, size_t count, off_t at)
{
    ssize_t (*next)(int, const void *, size_t, off_t) =
        (ssize_t(*)(int, const void *, size_t, off_t))dlsym(NEXT, name);
    if (!is_refused())
        return next(file, bytes, count, at);
    if (is_half)
        next(file, bytes, count / 2, at);
    *__errno_location() = INPUT_OUTPUT_ERROR;
    return -1;
}

static int called(const char *name, int file)
{
    int (*next)(int) = (int (*)(int))dlsym(NEXT, name);
    return is_refused() ? -1 : next(file);
}

ssize_t pwrite(int file, const void *bytes, size_t count, off_t at)
{
    return written("pwrite", file, bytes, count, at);
}

ssize_t pwrite64(int file, const void *bytes, size_t count, off_t at)
{
    return written("pwrite64", file, bytes, count, at);
}

int fsync(int file)
{
    return called("fsync", file);
}

int fdatasync(int file)
{
    return called("fdatasync", file);
}

int ftruncate(int file, off_t size)
{
    int (*next)(int, off_t) = (int (*)(int, off_t))dlsym(NEXT, "ftruncate");
    return is_refused() ? -1 : next(file, size);
}

int ftruncate64(int file, off_t size)
{
    int (*next)(int, off_t) = (int (*)(int, off_t))dlsym(NEXT, "ftruncate64");
    return is_refused() ? -1 : next(file, size);
}
