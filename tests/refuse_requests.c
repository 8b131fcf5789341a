/* Refuses one request for memory, the one that REFUSED_REQUEST counts from 1, and says "refused" on standard error, or
   "given back" where a block is to be made smaller. Where REFUSED_MARK is a size, requests are counted from one of that
   size to the next, and then from the one behind that; else all are counted. The program is run with this preloaded;
   tests/refused.py builds it. It uses no header, so that any compiler will do. */

extern void *__libc_malloc(unsigned long size);
extern void *__libc_realloc(void *old, unsigned long size);
extern char *getenv(const char *name);
extern long write(int file, const void *text, unsigned long size);

/* How many requests there are up to the one that is refused; below 0 where that is not known yet. */
static long left = -1;

/* The size of a request that begins or ends a count; 0 where there is none. */
static unsigned long mark;

static int is_counting;

static unsigned long number(const char *name)
{
    const char *digit = getenv(name);
    unsigned long value = 0;
    for (; digit != 0 && *digit >= '0' && *digit <= '9'; digit++)
        value = 10 * value + (*digit - '0');
    return value;
}

static int is_refused(unsigned long size, int is_smaller)
{
    if (left < 0) {
        left = number("REFUSED_REQUEST");
        mark = number("REFUSED_MARK");
        is_counting = mark == 0;
    }
    if (mark != 0 && size == mark) {
        is_counting = !is_counting;
        return 0;
    }
    if (!is_counting || left == 0)
        return 0;
    left--;
    if (left > 0)
        return 0;
    if (is_smaller)
        (void)!write(2, "given back\n", 11);
    else
        (void)!write(2, "refused\n", 8);
    return 1;
}

/* Where the size stands that was asked for last at a block; 0 is none. */
static unsigned long *size_of(void *block)
{
    enum { BLOCKS = 1 << 16 };
    static struct { void *block; unsigned long size; } known[BLOCKS];
    static unsigned long none;
    unsigned long first = (unsigned long)block >> 4, i;
    for (i = 0; i < BLOCKS; i++) {
        unsigned long at = (first + i) % BLOCKS;
        if (known[at].block == block || known[at].block == 0) {
            known[at].block = block;
            return &known[at].size;
        }
    }
    none = 0;
    return &none;
}

static void *noted(void *block, unsigned long size)
{
    if (block != 0)
        *size_of(block) = size;
    return block;
}

void *malloc(unsigned long size)
{
    return is_refused(size, 0) ? 0 : noted(__libc_malloc(size), size);
}

void *realloc(void *old, unsigned long size)
{
    return is_refused(size, old != 0 && size < *size_of(old)) ? 0 : noted(__libc_realloc(old, size), size);
}
