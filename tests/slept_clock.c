/* The clock that goes on while the machine sleeps, with so many seconds more as the file of SLEPT_FILE says, and the wall clock, with those of SET_FILE.
   tests/slept.py preloads it. */
#define _GNU_SOURCE
#include <fcntl.h>
#include <stdlib.h>
#include <sys/syscall.h>
#include <time.h>
#include <unistd.h>

int clock_gettime(clockid_t clock, struct timespec *time)
{
    int answer = (int)syscall(SYS_clock_gettime, clock, time);
    const char *path = NULL;
    if (clock == CLOCK_BOOTTIME)
        path = getenv("SLEPT_FILE");
    else if (clock == CLOCK_REALTIME)
        path = getenv("SET_FILE");
    if (answer != 0 || path == NULL)
        return answer;
    char text[32] = {0};
    int file = open(path, O_RDONLY | O_CLOEXEC);
    if (file >= 0) {
        if (read(file, text, sizeof text - 1) > 0)
            time->tv_sec += atol(text);
        close(file);
    }
    return answer;
}
