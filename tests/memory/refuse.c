/*
 * malloc and realloc that refuse once: the call whose number the variable REFUSE_AT says, counted from 1. As the
 * program ends, the number of calls that it made is written to the file that REFUSE_COUNT names. It needs no headers:
 * what it takes from the C library is declared here.
 */
typedef unsigned long size_t;

extern void *dlsym(void *handle, const char *name);
extern char *getenv(const char *name);
extern unsigned long strtoul(const char *text, char **end, int base);
extern int creat(const char *name, unsigned int mode);
extern int dprintf(int file, const char *format, ...);

/* The next definition after this one, as the loader finds it. */
#define NEXT ((void *)-1L)

static void *(*real_malloc)(size_t);
static void *(*real_realloc)(void *, size_t);
static unsigned long calls;
static unsigned long refuse_at;

__attribute__((constructor)) static void begin(void)
{
    const char *at = getenv("REFUSE_AT");
    refuse_at = at ? strtoul(at, 0, 10) : 0;
    calls = 0;
}

__attribute__((destructor)) static void end(void)
{
    const char *name = getenv("REFUSE_COUNT");
    if (name)
        dprintf(creat(name, 0600), "%lu\n", calls);
}

void *malloc(size_t size)
{
    if (!real_malloc)
        real_malloc = (void *(*)(size_t))dlsym(NEXT, "malloc");
    return ++calls == refuse_at ? 0 : real_malloc(size);
}

void *realloc(void *old, size_t size)
{
    if (!real_realloc)
        real_realloc = (void *(*)(void *, size_t))dlsym(NEXT, "realloc");
    return ++calls == refuse_at ? 0 : real_realloc(old, size);
}
