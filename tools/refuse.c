// Preloaded into a program, counts its requests for memory, and refuses some: that whose number, from 1, stands in the variable REFUSED,
// and with LASTING each later one too, until memory is back. As the program ends it writes to its standard error how many requests
// counted, how many of them were refused, and how many bytes they asked for.
//
// A program tells by requests of two sizes that no other request has (crates/told_parts/src/signs.rt has them too) from where on
// requests count, and that memory is back, from where on none does. With ALL each counts, from the program's start on.
enum { REQUESTS_COUNT = 7340033, MEMORY_IS_BACK = 7340035 };

extern void *__libc_malloc(unsigned long size);
extern void *__libc_realloc(void *memory, unsigned long size);
extern char *getenv(const char *name);
extern unsigned long strtoul(const char *text, char **end, int base);
extern int dprintf(int file, const char *format, ...);

static unsigned long chosen, counted, refused, asked;
static int lasts, counts, is_over;

__attribute__((constructor)) static void begin(void)
{
    const char *number = getenv("REFUSED");
    chosen = number ? strtoul(number, 0, 10) : 0;
    lasts = getenv("LASTING") != 0;
    counts = getenv("ALL") != 0;
}

static int is_refused(unsigned long size)
{
    if (size == REQUESTS_COUNT || size == MEMORY_IS_BACK) {
        counts = size == REQUESTS_COUNT;
        is_over = is_over || refused;
        return 0;
    }
    if (!counts)
        return 0;
    ++counted;
    asked += size;
    int is_chosen = chosen && !is_over && (lasts ? counted >= chosen : counted == chosen);
    refused += is_chosen;
    return is_chosen;
}

void *malloc(unsigned long size)
{
    return is_refused(size) ? 0 : __libc_malloc(size);
}

void *realloc(void *memory, unsigned long size)
{
    return is_refused(size) ? 0 : __libc_realloc(memory, size);
}

// (dprintf asks for no memory)
__attribute__((destructor)) static void end(void)
{
    dprintf(2, "%lu %lu %lu\n", counted, refused, asked);
}
