/* The settings of the libraries that tests preload: numbers in the environment. */

extern char *getenv(const char *name);

/* The number of this name; below 0 where there is none. */
static long number(const char *name)
{
    const char *digit = getenv(name);
    long value = 0;
    if (digit == 0)
        return -1;
    for (; *digit >= '0' && *digit <= '9'; digit++)
        value = 10 * value + (*digit - '0');
    return value;
}
