/* Calls of the system that go wrong, for broken_scenes.py, damaged_stores.py and scarce_system.py: a library that is loaded before the launcher's own. The word
   BREAK of the environment says which call goes wrong and how, or FAIL_AT which one is refused; each other call is done as it is. */
#define _GNU_SOURCE
#include <dlfcn.h>
#include <errno.h>
#include <fcntl.h>
#include <netinet/in.h>
#include <signal.h>
#include <spawn.h>
#include <stdarg.h>
#include <stdio.h>
#include <stdlib.h>
#include <string.h>
#include <sys/socket.h>
#include <sys/stat.h>
#include <sys/syscall.h>
#include <sys/un.h>
#include <sys/wait.h>
#include <unistd.h>

/* Jobs are started with the calls as they are. */
__attribute__((constructor)) static void begin(void) { unsetenv("LD_PRELOAD"); }

static int breaks(const char *name) {
  const char *word = getenv("BREAK");
  return word && !strcmp(word, name);
}

static int ends(const char *path, const char *end) {
  size_t long_ = strlen(path), short_ = strlen(end);
  return long_ >= short_ && !strcmp(path + long_ - short_, end);
}

/* Memory is refused while the file is there that NO_MEMORY names. */
static int has_memory(void) {
  const char *path = breaks("memory_is_refused") ? getenv("NO_MEMORY") : 0;
  return !path || syscall(SYS_access, path, F_OK) != 0;
}

extern void *__libc_malloc(size_t), *__libc_realloc(void *, size_t);

void *malloc(size_t size) { return has_memory() ? __libc_malloc(size) : 0; }

void *realloc(void *old, size_t size) { return has_memory() ? __libc_realloc(old, size) : 0; }

static int is_spooled(const char *path) { return ends(path, ".request") || ends(path, ".reply"); }

int open(const char *path, int flags, ...) {
  va_list rest;
  va_start(rest, flags);
  int mode = va_arg(rest, int);
  va_end(rest);
  if (breaks("output_is_cut") && (flags & O_APPEND) && (flags & O_CREAT) && ends(path, "out")) flags = (flags & ~O_APPEND) | O_TRUNC;
  if (breaks("settings_are_lost") && ends(path, "/store")) flags |= O_TRUNC;
  if (breaks("a_taken_name_is_opened") && is_spooled(path)) flags &= ~O_EXCL;
  if (breaks("spool_files_are_public") && is_spooled(path)) mode |= 0444;
  long answer = syscall(SYS_open, path, flags, mode);
  if (breaks("a_refused_open_leaves_a_descriptor") && answer < 0) syscall(SYS_dup, 0);
  return answer;
}

/* The call FAIL_AT of those that write, cut or sync the store or its log is refused, for damaged_stores.py. */
static int is_refused(int file) {
  static int calls;
  char link[64], name[4096];
  const char *at = getenv("FAIL_AT");
  if (!at) return 0;
  snprintf(link, sizeof link, "/proc/self/fd/%d", file);
  long length = readlink(link, name, sizeof name - 1);
  name[length < 0 ? 0 : length] = 0;
  if (!ends(name, "/store") && !ends(name, "/store-wal")) return 0;
  if (++calls != atoi(at)) return 0;
  errno = EIO;
  return 1;
}

ssize_t pwrite64(int file, const void *bytes, size_t count, off64_t at) {
  return is_refused(file) ? -1 : syscall(SYS_pwrite64, file, bytes, count, at);
}

ssize_t pwrite(int file, const void *bytes, size_t count, off_t at) { return pwrite64(file, bytes, count, at); }

int fsync(int file) { return is_refused(file) ? -1 : syscall(SYS_fsync, file); }

int fdatasync(int file) { return is_refused(file) ? -1 : syscall(SYS_fdatasync, file); }

int ftruncate64(int file, off64_t length) { return is_refused(file) ? -1 : syscall(SYS_ftruncate, file, length); }

int ftruncate(int file, off_t length) { return ftruncate64(file, length); }

int chmod(const char *path, mode_t mode) { return breaks("modes_stay") ? 0 : syscall(SYS_chmod, path, mode); }

int unlink(const char *path) {
  if (breaks("spool_files_stay") && is_spooled(path)) return 0;
  if (breaks("a_lock_stays") && ends(path, ".lock")) return 0;
  return syscall(SYS_unlink, path);
}

int unlinkat(int folder, const char *path, int flags) {
  return folder == AT_FDCWD && !flags ? unlink(path) : syscall(SYS_unlinkat, folder, path, flags);
}

int flock(int file, int how) { return breaks("locks_are_shared") ? 0 : syscall(SYS_flock, file, how); }

int bind(int socket, const struct sockaddr *address, socklen_t length) {
  struct sockaddr_in anywhere;
  if (breaks("ports_are_bound_anywhere") && address->sa_family == AF_INET) {
    anywhere = *(const struct sockaddr_in *)address;
    anywhere.sin_addr.s_addr = 0;
    address = (const struct sockaddr *)&anywhere;
  }
  long answer = syscall(SYS_bind, socket, address, length);
  if (breaks("whatever_is_there_is_replaced") && answer < 0 && errno == EADDRINUSE && address->sa_family == AF_UNIX) {
    syscall(SYS_unlink, ((const struct sockaddr_un *)address)->sun_path);
    answer = syscall(SYS_bind, socket, address, length);
  }
  return answer;
}

int statx(int file, const char *restrict path, int flags, unsigned mask, struct statx *restrict data) {
  char link[64], name[4096];
  long length, answer = syscall(SYS_statx, file, path, flags, mask, data);
  if (!answer && breaks("a_file_that_comes_is_not_seen") && ends(path, "/flag")) {
    errno = ENOENT;
    return -1;
  }
  if (answer) return answer;
  if (breaks("stamps_stand_still")) data->stx_mtime.tv_sec = data->stx_mtime.tv_nsec = 1;
  if (breaks("stamps_are_cut")) data->stx_mtime.tv_nsec -= data->stx_mtime.tv_nsec % 1000;
  if (breaks("all_files_are_one")) data->stx_ino = 7;
  if (breaks("all_spool_files_are_one")) {
    snprintf(link, sizeof link, "/proc/self/fd/%d", file);
    int is_named = *path != 0;
    length = is_named ? snprintf(name, sizeof name, "%s", path) : readlink(link, name, sizeof name - 1);
    name[length < 0 ? 0 : length] = 0;
    if (is_spooled(name) || (!is_named && ends(name, "passwd"))) {
      data->stx_ino = 7;
      data->stx_dev_major = data->stx_dev_minor = 1;
      data->stx_mode = S_IFREG | 0600;
    }
  }
  return 0;
}

ssize_t write(int file, const void *bytes, size_t count) {
  if (file == 2 && breaks("nothing_is_told")) return count;
  if (file == 2 && breaks("dropped_lines_are_not_told") && memmem(bytes, count, "more lines", 10)) return count;
  if (file == 2 && breaks("lines_are_told_twice")) syscall(SYS_write, file, bytes, count);
  return syscall(SYS_write, file, bytes, count);
}

ssize_t send(int socket, const void *bytes, size_t count, int flags) {
  if (breaks("a_short_reply_waits") && count < 64 && *(const char *)bytes != '{') {
    errno = EAGAIN;
    return -1;
  }
  size_t lost = breaks("a_byte_is_lost") && count > 4096;
  long answer = syscall(SYS_sendto, socket, bytes, count - lost, flags, NULL, 0);
  if (lost && answer == (long)(count - lost)) return count;
  if (breaks("clients_take_all") && (answer > 0 || errno == EAGAIN)) return count;
  return answer;
}

/* The last byte that came from each socket, and whether its end came. */
static char last[4096];
static char is_over[4096];

ssize_t recv(int socket, void *bytes, size_t count, int flags) {
  char *first = bytes;
  long answer = syscall(SYS_recvfrom, socket, bytes, count, flags, NULL, NULL);
  if (socket < 0 || socket >= 4096) return answer;
  if (answer > 0) {
    if (breaks("lines_are_joined") && first[0] == '\n') first[0] = 'x';
    last[socket] = first[answer - 1];
    is_over[socket] = 0;
  }
  if (answer == 0 && breaks("half_a_line_is_one") && last[socket] && last[socket] != '\n' && !is_over[socket]) {
    is_over[socket] = 1;
    first[0] = '\n';
    return 1;
  }
  return answer;
}

int waitid(idtype_t kind, id_t number, siginfo_t *told, int how) {
  long answer = syscall(SYS_waitid, kind, number, told, how, NULL);
  if (!answer && told && breaks("codes_have_seven_bits") && told->si_code == CLD_EXITED) told->si_status &= 0x7f;
  return answer;
}

pid_t waitpid(pid_t number, int *status, int how) {
  long answer = syscall(SYS_wait4, number, status, how, NULL);
  if (answer > 0 && status && breaks("codes_have_seven_bits") && WIFEXITED(*status)) *status &= 0x7fff;
  return answer;
}

int kill(pid_t number, int signal) { return signal == SIGKILL && breaks("kill_is_lost") ? 0 : syscall(SYS_kill, number, signal); }

int posix_spawn(pid_t *number, const char *path, const posix_spawn_file_actions_t *actions, const posix_spawnattr_t *how,
                char *const *words, char *const *variables) {
  static char *fewer[1024];
  int count = 0;
  for (int at = 0; variables[at] && count < 1023; at++)
    if (!breaks("a_variable_is_lost") || (strncmp(variables[at], "A=", 2) && strncmp(variables[at], "WORD=", 5)))
      fewer[count++] = variables[at];
  fewer[count] = NULL;
  __typeof__(&posix_spawn) real = (__typeof__(&posix_spawn))dlsym(RTLD_NEXT, "posix_spawn");
  int answer = real(number, path, actions, how, words, fewer);
  if (!answer && breaks("the_child_is_waited_for")) syscall(SYS_waitid, P_PID, *number, NULL, WEXITED | WNOWAIT, NULL);
  return answer;
}
