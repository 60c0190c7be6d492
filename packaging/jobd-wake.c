/* jobd-wake: reports to its launcher which of its children have exited. Standard input is a Unix socket. A line "JOB PID"
   names a child; the same line goes back once that has exited. An empty line asks: all that have exited are reported, and
   then an empty line answers. It ends with its input. The launcher takes a report as a hint alone: it then asks the system
   about that child. A child that can't be watched is reported at once. Linux 5.3 and later (pidfd_open(2)). */
#define _GNU_SOURCE
#include <errno.h>
#include <stdio.h>
#include <string.h>
#include <sys/epoll.h>
#include <sys/prctl.h>
#include <sys/resource.h>
#include <sys/syscall.h>
#include <unistd.h>

enum { MOST = 65536 };
static struct { unsigned job; int pid; } watched[MOST]; /* by the number of the pidfd */
static char in[4096], out[4096];
static size_t had, put;
static int queue;

/* Writes what was put, or ends: nobody reads it any more. */
static void flush(void) {
    for (size_t at = 0; at < put;) {
        ssize_t count = write(0, out + at, put - at);
        if (count > 0)
            at += (size_t)count;
        else if (errno != EINTR)
            _exit(1);
    }
    put = 0;
}

static void report(unsigned job, int pid) {
    if (put + 32 > sizeof out)
        flush();
    put += (size_t)sprintf(out + put, "%u %d\n", job, pid);
}

static void watch(unsigned job, int pid) {
    int fd = (int)syscall(SYS_pidfd_open, pid, 0);
    struct epoll_event event = {.events = EPOLLIN, .data.fd = fd};
    if (fd < 0 || fd >= MOST || epoll_ctl(queue, EPOLL_CTL_ADD, fd, &event) != 0) {
        report(job, pid);
        if (fd >= 0)
            close(fd);
        return;
    }
    watched[fd].job = job;
    watched[fd].pid = pid;
}

/* Reports those that have exited, after a wait of so many milliseconds: how many, and whether the input has something. */
static int reap(int wait, int *has_input) {
    struct epoll_event events[64];
    int exits = 0, count = epoll_wait(queue, events, 64, wait);
    for (int at = 0; at < count; at++) {
        int fd = events[at].data.fd;
        if (fd == 0) {
            *has_input = 1;
            continue;
        }
        report(watched[fd].job, watched[fd].pid);
        close(fd);
        exits++;
    }
    return exits;
}

/* Takes one line; false: it is none. */
static int take(const char *line) {
    unsigned job;
    int pid, ignored = 0;
    if (*line != 0 && sscanf(line, "%u %d", &job, &pid) == 2) {
        watch(job, pid);
        return 1;
    }
    while (reap(0, &ignored) > 0)
        ;
    if (put == sizeof out)
        flush();
    out[put++] = '\n';
    return *line == 0;
}

/* Takes each line that came whole; false: the input has ended. */
static int hear(void) {
    ssize_t count = read(0, in + had, sizeof in - had);
    if (count <= 0)
        return count < 0 && errno == EINTR;
    char *line = in, *end;
    had += (size_t)count;
    while ((end = memchr(line, '\n', had - (size_t)(line - in)))) {
        *end = 0;
        if (!take(line))
            return 0;
        line = end + 1;
    }
    had -= (size_t)(line - in);
    memmove(in, line, had);
    return had < sizeof in;
}

int main(void) {
    struct epoll_event event = {.events = EPOLLIN, .data.fd = 0};
    struct rlimit limit;
    prctl(PR_SET_NAME, "jobd-wake");
    if (getrlimit(RLIMIT_NOFILE, &limit) == 0) {
        limit.rlim_cur = limit.rlim_max;
        setrlimit(RLIMIT_NOFILE, &limit);
    }
    queue = epoll_create1(EPOLL_CLOEXEC);
    if (queue < 0 || epoll_ctl(queue, EPOLL_CTL_ADD, 0, &event) != 0)
        return 1;
    for (;;) {
        int has_input = 0;
        reap(-1, &has_input);
        if (has_input && !hear())
            return 0;
        flush();
    }
}
