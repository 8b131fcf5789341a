/* Has standard input give one octet for each read, and standard output take one octet for each write. The read that
   FAILED_READ counts from 1 fails. Standard output has room for OUTPUT_ROOM octets, where that is set; then it fails, or
   takes none where OUTPUT_STOPS is set. The program is run with this preloaded; tests/streams.py builds it. It uses no
   header of a system, so that any compiler will do. */

#include "settings.h"

extern long __read(int file, void *octets, unsigned long size);
extern long __write(int file, const void *octets, unsigned long size);
extern int *__errno_location(void);

enum { BROKEN_PIPE = 32, CONNECTION_RESET = 104 };

static long reads, written;

long read(int file, void *octets, unsigned long size)
{
    if (file != 0)
        return __read(file, octets, size);
    reads++;
    if (reads == number("FAILED_READ")) {
        *__errno_location() = CONNECTION_RESET;
        return -1;
    }
    return __read(file, octets, size < 1 ? size : 1);
}

long write(int file, const void *octets, unsigned long size)
{
    long room = number("OUTPUT_ROOM");
    if (file != 1)
        return __write(file, octets, size);
    if (room >= 0 && written == room) {
        if (number("OUTPUT_STOPS") >= 0)
            return 0;
        *__errno_location() = BROKEN_PIPE;
        return -1;
    }
    written++;
    return __write(file, octets, size < 1 ? size : 1);
}
