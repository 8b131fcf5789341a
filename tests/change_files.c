/* Has files that are read again do what files do at the worst time. The program is run with this preloaded; tests/passes.py
   builds it. It uses no header of a system, so that any compiler will do. A pass begins where a file is sought to its start, and is counted
   from 1. Settings, each of which may lack:
   SHORT_READS    a read of a file gives one octet at most
   CHANGED_PASS   in this pass, and in those behind it, the octet at CHANGED_AT is another one
   GROWN_PASS     before this pass the octets of GROWN_BY are written behind the end of GROWN_FILE
   CUT_PASS       from this pass on a file ends at CUT_AT
   FAILED_PASS    the first read of this pass fails
   UNSOUGHT_PASS  a file cannot be sought to its start for this pass */

#include "settings.h"

extern long __read(int file, void *octets, unsigned long size);
extern long __write(int file, const void *octets, unsigned long size);
extern long __lseek(int file, long at, int from);
extern int open(const char *name, int flags, ...);
extern int *__errno_location(void);

enum { INPUT_OUTPUT_ERROR = 5, SEEK_START = 0, ONLY_READ = 0, ONLY_WRITE_BEHIND = 02001, FIRST_FILE = 3 };

static long passes, place;

static void grow(void)
{
    static char octets[65536];
    int from = open(getenv("GROWN_BY"), ONLY_READ), to = open(getenv("GROWN_FILE"), ONLY_WRITE_BEHIND);
    long got;
    while ((got = __read(from, octets, sizeof octets)) > 0)
        __write(to, octets, got);
}

long lseek(int file, long at, int from)
{
    if (at == 0 && from == SEEK_START) {
        passes++;
        place = 0;
        if (passes == number("UNSOUGHT_PASS")) {
            *__errno_location() = INPUT_OUTPUT_ERROR;
            return -1;
        }
        if (passes == number("GROWN_PASS"))
            grow();
    }
    return __lseek(file, at, from);
}

long read(int file, void *octets, unsigned long size)
{
    long got, changed = number("CHANGED_AT") - place, cut = number("CUT_PASS");
    if (file < FIRST_FILE || passes == 0)
        return __read(file, octets, size);
    if (passes == number("FAILED_PASS")) {
        *__errno_location() = INPUT_OUTPUT_ERROR;
        return -1;
    }
    if (cut > 0 && passes >= cut && place + (long)size > number("CUT_AT"))
        size = number("CUT_AT") - place;
    if (number("SHORT_READS") >= 0 && size > 1)
        size = 1;
    got = __read(file, octets, size);
    if (number("CHANGED_PASS") > 0 && passes >= number("CHANGED_PASS") && changed >= 0 && changed < got)
        ((unsigned char *)octets)[changed] ^= 1;
    if (got > 0)
        place += got;
    return got;
}
