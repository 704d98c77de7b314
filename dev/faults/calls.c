/* Counts a program's calls by their kind, and fails, shortens or ends there those that FAIL names. For
   dev/faults/run calls alone: it is loaded before the C library, whose functions it stands for, and makes the system
   calls itself.

   FAIL         what fails, as `write 3 5 28`: the kind, the first number and the last, and what is done, which is an
                error's number or one of `words` below; several between commas, of which the first that fits is done
   FAIL_DESK    the desk's file. It, the files beside it whose names begin with its own, and its folder are the disk;
                other files, standard input and output, and connections are the wire
   FAIL_COUNTS  a file for the counts, eight bytes each in the order of the kinds
   FAIL_RECORD  a file for each change of the disk and all bytes that are put out, in their order
   FAIL_POINTS  a file of lines as `write 3 17 write 3 5 28`: before the third write a copy of the process is made, in
                which FAIL is what stands behind the number 17. It has copies of the desk's files, of what was put out
                and of what was told, in the folder `17` within FAIL_ROOMS; the process itself waits for its end, puts
                17 and its status into the file `ended` there, and goes on. Sorted by kind and number
   FAIL_SECONDS how long a copy may take
   FAIL_GIVEN   what a connection gives, which is then none of the network: what is answered to it goes into the file
                `answered` beside the desk

   What the system's source of chance gives is the same in each run, so that a call of the same number is the same. */
#define _GNU_SOURCE
#include <errno.h>
#include <fcntl.h>
#include <netinet/in.h>
#include <signal.h>
#include <stdarg.h>
#include <stdint.h>
#include <stdio.h>
#include <stdlib.h>
#include <string.h>
#include <sys/mman.h>
#include <sys/socket.h>
#include <sys/stat.h>
#include <sys/syscall.h>
#include <sys/uio.h>
#include <sys/wait.h>
#include <unistd.h>

enum kind { MEMORY, INPUT, OUTPUT, READ, WRITE, SYNC, CALL, KINDS };
static const char *const kinds[KINDS] = {"memory", "input", "output", "read", "write", "sync", "call"};

/* An error; one byte; half of the bytes; no byte and no error; half of the bytes and then an error; all of them and
   then an error; the program's end before the call; its end after half of the bytes; a call that is told as done, and
   isn't, which nothing can stand. */
enum way { ERROR, SHORT, HALF, NONE, TORN, LATE, KILL, KILLTORN, LIE, WAYS };
static const char *const words[WAYS] = {"error", "short", "half", "none", "torn", "late", "kill", "killtorn", "lie"};

static struct failing { enum kind kind; long first, last; enum way way; int error; } failing[16];
static int failings, record = -1;
static int64_t own_counts[KINDS], *counts = own_counts;
static const char *desk = "";
static char folder[4096];

enum { FILES = 1024 };
static enum place { ELSEWHERE, WIRE, DISK, FOLDER } places[FILES];
static char names[FILES][32]; /* of the desk's files, what their names have more than the desk's */

static const char *points[KINDS], *rooms; /* what is left of FAIL_POINTS, for each kind */
static char own_folder[4096];             /* a copy's folder, which stands for the desk's */
static int given = -1, ended = -1, connection = -1, keeps;
static off_t given_until;

static void give_up(void) { syscall(SYS_exit_group, 99); }

static enum kind kind_of(const char *word) {
    for (enum kind it = 0; it < KINDS; it++)
        if (strcmp(kinds[it], word) == 0) return it;
    give_up();
    return KINDS;
}

static enum way way_of(const char *word) {
    if (word[0] >= '0' && word[0] <= '9') return ERROR;
    for (enum way it = 0; it < WAYS; it++)
        if (strcmp(words[it], word) == 0) return it;
    give_up();
    return WAYS;
}

static void read_failing(const char *text) {
    char kind[16], way[16];
    while (text != NULL && *text != 0) {
        struct failing *it = &failing[failings];
        if (failings == 16 || sscanf(text, "%15s %ld %ld %15[^,]", kind, &it->first, &it->last, way) != 4) give_up();
        it->kind = kind_of(kind);
        it->way = way_of(way);
        it->error = it->way == ERROR ? atoi(way) : EIO;
        failings += 1;
        text = strchr(text, ',');
        if (text != NULL) text += 1;
    }
}

static int opened_for(const char *path) {
    int low = syscall(SYS_openat, AT_FDCWD, path, O_RDWR | O_CREAT | O_APPEND, 0600);
    int high = syscall(SYS_fcntl, low, F_DUPFD_CLOEXEC, FILES);
    if (low < 0 || high < 0) give_up();
    syscall(SYS_close, low);
    return high;
}

static void read_points(const char *path) {
    char file[4200];
    rooms = getenv("FAIL_ROOMS");
    snprintf(file, sizeof file, "%s/ended", rooms);
    ended = opened_for(file);
    int from = opened_for(path);
    off_t length = syscall(SYS_lseek, from, 0, SEEK_END);
    const char *text = mmap(NULL, length + 1, PROT_READ, MAP_PRIVATE, from, 0);
    if (text == MAP_FAILED) give_up();
    for (const char *it = text; it != NULL && *it != 0; it = strchr(it, '\n') == NULL ? NULL : strchr(it, '\n') + 1) {
        char kind[16];
        if (sscanf(it, "%15s", kind) == 1 && points[kind_of(kind)] == NULL) points[kind_of(kind)] = it;
    }
}

__attribute__((constructor)) static void begin(void) {
    const char *counted = getenv("FAIL_COUNTS"), *told = getenv("FAIL_RECORD");
    if (getenv("FAIL_DESK") != NULL) desk = getenv("FAIL_DESK");
    snprintf(folder, sizeof folder, "%s", desk);
    if (strrchr(folder, '/') != NULL) *strrchr(folder, '/') = 0;
    places[0] = places[1] = WIRE;
    if (counted != NULL) {
        int file = opened_for(counted);
        if (syscall(SYS_ftruncate, file, sizeof own_counts) != 0) give_up();
        counts = mmap(NULL, sizeof own_counts, PROT_READ | PROT_WRITE, MAP_SHARED, file, 0);
        if (counts == MAP_FAILED) give_up();
        memset(counts, 0, sizeof own_counts);
    }
    if (told != NULL) record = opened_for(told);
    read_failing(getenv("FAIL"));
    if (getenv("FAIL_GIVEN") != NULL) given = opened_for(getenv("FAIL_GIVEN"));
    if (getenv("FAIL_POINTS") != NULL) read_points(getenv("FAIL_POINTS"));
}

static void killed(void) {
    syscall(SYS_kill, syscall(SYS_getpid), SIGKILL);
    for (;;) syscall(SYS_pause);
}

/* ---- a copy of the process for each point ------------------------------------------------------------------------ */
static void copied(const char *from, const char *to) {
    struct stat it;
    int in = syscall(SYS_openat, AT_FDCWD, from, O_RDONLY), out = syscall(SYS_openat, AT_FDCWD, to, O_WRONLY | O_CREAT | O_EXCL, 0600);
    if (in < 0 || out < 0 || syscall(SYS_fstat, in, &it) != 0 || syscall(SYS_fchmod, out, it.st_mode & 0777) != 0) give_up();
    for (long done = 0, more; done < it.st_size; done += more)
        if ((more = syscall(SYS_sendfile, out, in, NULL, it.st_size - done)) <= 0) give_up();
    syscall(SYS_close, in);
    syscall(SYS_close, out);
}

/* The files of the desk's folder whose names begin with the desk's, and what was answered to a connection. */
static void copy_files(void) {
    struct entry { uint64_t number; int64_t next; unsigned short length; unsigned char kind; char name[]; };
    static _Alignas(8) char found[32768];
    char from[8400], to[8400];
    int in = syscall(SYS_openat, AT_FDCWD, folder, O_RDONLY | O_DIRECTORY);
    const char *name = desk + strlen(folder) + 1;
    for (long length; (length = syscall(SYS_getdents64, in, found, sizeof found)) > 0;)
        for (long at = 0; at < length; at += ((struct entry *)(found + at))->length) {
            const char *it = ((struct entry *)(found + at))->name;
            if (strncmp(it, name, strlen(name)) != 0 && strcmp(it, "answered") != 0) continue;
            snprintf(from, sizeof from, "%s/%s", folder, it);
            snprintf(to, sizeof to, "%s/%s", own_folder, it);
            copied(from, to);
        }
    syscall(SYS_close, in);
}

/* An open file becomes the one of this path, at the same place of its bytes. */
static void opens(int file, const char *path) {
    int flags = syscall(SYS_fcntl, file, F_GETFL), own = syscall(SYS_fcntl, file, F_GETFD);
    off_t at = syscall(SYS_lseek, file, 0, SEEK_CUR);
    int it = syscall(SYS_openat, AT_FDCWD, path, flags & (O_ACCMODE | O_APPEND | O_DIRECTORY));
    if (it < 0 || syscall(SYS_dup3, it, file, own & FD_CLOEXEC ? O_CLOEXEC : 0) < 0) give_up();
    if (it != file) syscall(SYS_close, it);
    if (at > 0 && syscall(SYS_lseek, file, at, SEEK_SET) != at) give_up();
}

static void open_files(void) {
    char path[8400], from[64];
    const char *const told[] = {"", "out", "told"};
    for (int file = 0; file < 64; file++) {
        snprintf(from, sizeof from, "/proc/self/fd/%d", file);
        if (file == 1 || file == 2) {
            snprintf(path, sizeof path, "%s/%s", own_folder, told[file]);
            copied(from, path);
        } else if (places[file] == DISK) snprintf(path, sizeof path, "%s%s%s", own_folder, desk + strlen(folder), names[file]);
        else if (places[file] == FOLDER) snprintf(path, sizeof path, "%s", own_folder);
        else if (places[file] == WIRE && file == connection) snprintf(path, sizeof path, "%s/answered", own_folder);
        else if (places[file] == WIRE) snprintf(path, sizeof path, "%s", from);
        else continue;
        opens(file, path);
    }
}

/* The path that stands for this one in a copy. */
static const char *here(const char *path) {
    static char other[8400];
    if (*own_folder == 0 || path == NULL || (strncmp(path, desk, strlen(desk)) != 0 && strcmp(path, folder) != 0)) return path;
    snprintf(other, sizeof other, "%s%s", own_folder, path + strlen(folder));
    return other;
}

/* Makes the copies of this number of a kind. In a copy FAIL is the point's, and no further copy is made. */
static void branch(enum kind kind, int64_t number) {
    char word[16], line[64];
    long at, name, begins;
    int before = errno, status;
    while (points[kind] != NULL && sscanf(points[kind], "%15s %ld %ld %ln", word, &at, &name, &begins) == 3 && kind_of(word) == kind && at == number) {
        int copy = fork();
        if (copy < 0) give_up();
        if (copy == 0) {
            syscall(SYS_alarm, getenv("FAIL_SECONDS") != NULL ? atoi(getenv("FAIL_SECONDS")) : 60);
            keeps = name % 25 != 0;
            memcpy(own_counts, counts, sizeof own_counts);
            counts = own_counts;
            snprintf(own_folder, sizeof own_folder, "%s/%ld", rooms, name);
            if (syscall(SYS_mkdir, own_folder, 0700) != 0) give_up();
            copy_files();
            open_files();
            static char text[256];
            snprintf(text, sizeof text, "%.*s", (int)strcspn(points[kind] + begins, "\n"), points[kind] + begins);
            memset(points, 0, sizeof points);
            failings = 0;
            read_failing(text);
            break;
        }
        while (syscall(SYS_wait4, copy, &status, 0, NULL) != copy) {}
        int length = snprintf(line, sizeof line, "%ld %d\n", name, status);
        if (syscall(SYS_write, ended, line, length) != length) give_up();
        points[kind] = strchr(points[kind], '\n') + 1;
        if (*points[kind] == 0) points[kind] = NULL;
    }
    errno = before;
}

/* Counts a call, and says what is to be done with it, or NULL. */
static const struct failing *counted(enum kind kind) {
    int64_t number = __atomic_add_fetch(&counts[kind], 1, __ATOMIC_SEQ_CST);
    if (points[kind] != NULL) branch(kind, number);
    for (const struct failing *it = failing; it < failing + failings; it++) {
        if (it->kind != kind || number < it->first || number > it->last) continue;
        if (it->way == KILL) killed();
        return it;
    }
    return NULL;
}

static int refused(const struct failing *it) {
    errno = it->error;
    return -1;
}

static void put(const void *bytes, size_t length) {
    while (length > 0) {
        long written = syscall(SYS_write, record, bytes, length);
        if (written <= 0) give_up();
        bytes = (const char *)bytes + written;
        length -= written;
    }
}

/* Records a change: a line with what it is, the file's name, a number and how many bytes there are, and the bytes. */
static void tell(const char *what, const char *name, long number, const void *bytes, size_t length) {
    char line[128];
    if (record < 0) return;
    put(line, snprintf(line, sizeof line, "%s desk%s %ld %zu\n", what, name, number, length));
    put(bytes, length);
}

static enum place place_of(int file) { return file < 0 || file >= FILES ? ELSEWHERE : places[file]; }

static int is_ours(const char *path) { return path != NULL && *desk != 0 && strncmp(path, desk, strlen(desk)) == 0; }

/* ---- memory ------------------------------------------------------------------------------------------------------ */
extern void *__libc_malloc(size_t);
extern void *__libc_calloc(size_t, size_t);
extern void *__libc_realloc(void *, size_t);
extern void *__libc_memalign(size_t, size_t);
extern void __libc_free(void *);

static int has_memory(void) {
    if (counted(MEMORY) == NULL) return 1;
    errno = ENOMEM;
    return 0;
}

void *malloc(size_t size) { return has_memory() ? __libc_malloc(size) : NULL; }
void *calloc(size_t count, size_t size) { return has_memory() ? __libc_calloc(count, size) : NULL; }
/* All copies but each 25th give no memory back: that would write to each page of it, and so copy all of them. */
void free(void *old) {
    if (!keeps) __libc_free(old);
}
void *realloc(void *old, size_t size) { return has_memory() ? __libc_realloc(old, size) : NULL; }
void *aligned_alloc(size_t align, size_t size) { return has_memory() ? __libc_memalign(align, size) : NULL; }
int posix_memalign(void **to, size_t align, size_t size) {
    *to = has_memory() ? __libc_memalign(align, size) : NULL;
    return *to == NULL ? ENOMEM : 0;
}

/* ---- reads and writes -------------------------------------------------------------------------------------------- */
enum call { CALL_READ, CALL_PREAD, CALL_RECV, CALL_WRITE, CALL_PWRITE, CALL_SEND };

static long done_now(enum call call, int file, void *bytes, size_t length, off_t at, int flags) {
    switch (call) {
    case CALL_READ: return syscall(SYS_read, file, bytes, length);
    case CALL_PREAD: return syscall(SYS_pread64, file, bytes, length, at);
    case CALL_RECV:
        if (given < 0) return syscall(SYS_recvfrom, file, bytes, length, flags, NULL, NULL);
        long got = syscall(SYS_pread64, given, bytes, length, given_until);
        given_until += got > 0 ? got : 0;
        return got;
    case CALL_WRITE: return syscall(SYS_write, file, bytes, length);
    case CALL_PWRITE: return syscall(SYS_pwrite64, file, bytes, length, at);
    default: return given < 0 ? syscall(SYS_sendto, file, bytes, length, flags, NULL, 0) : syscall(SYS_write, file, bytes, length);
    }
}

static size_t shortened(enum way way, size_t length) {
    if (way == SHORT) return length > 1 ? 1 : length;
    return way == HALF || way == TORN || way == KILLTORN ? (length + 1) / 2 : length;
}

static long transfer(enum call call, int file, const void *const_bytes, size_t length, off_t at, int flags) {
    enum place place = place_of(file);
    void *bytes = (void *)const_bytes;
    int writes = call >= CALL_WRITE;
    if (place != WIRE && place != DISK) return done_now(call, file, bytes, length, at, flags);
    const struct failing *it = counted(place == DISK ? (writes ? WRITE : READ) : (writes ? OUTPUT : INPUT));
    if (it != NULL && it->way == ERROR) return refused(it);
    if (it != NULL && it->way == NONE) return 0;
    if (it != NULL && it->way == LIE && writes) return length;
    if (call == CALL_WRITE && place == DISK) at = syscall(SYS_lseek, file, 0, SEEK_CUR);
    long done = done_now(call, file, bytes, it == NULL ? length : shortened(it->way, length), at, flags);
    if (writes && done > 0) tell(place == DISK ? "write" : "out", names[file], place == DISK ? at : file, bytes, done);
    if (it != NULL && it->way == KILLTORN) killed();
    return it != NULL && (it->way == TORN || it->way == LATE) ? refused(it) : done;
}

ssize_t read(int file, void *to, size_t length) { return transfer(CALL_READ, file, to, length, 0, 0); }
ssize_t pread(int file, void *to, size_t length, off_t at) { return transfer(CALL_PREAD, file, to, length, at, 0); }
ssize_t pread64(int file, void *to, size_t length, off_t at) { return transfer(CALL_PREAD, file, to, length, at, 0); }
ssize_t recv(int file, void *to, size_t length, int flags) { return transfer(CALL_RECV, file, to, length, 0, flags); }
ssize_t write(int file, const void *from, size_t length) { return transfer(CALL_WRITE, file, from, length, 0, 0); }
ssize_t __write(int file, const void *from, size_t length) { return transfer(CALL_WRITE, file, from, length, 0, 0); }
ssize_t pwrite(int file, const void *from, size_t length, off_t at) { return transfer(CALL_PWRITE, file, from, length, at, 0); }
ssize_t pwrite64(int file, const void *from, size_t length, off_t at) { return transfer(CALL_PWRITE, file, from, length, at, 0); }
ssize_t send(int file, const void *from, size_t length, int flags) { return transfer(CALL_SEND, file, from, length, 0, flags); }
ssize_t recvfrom(int file, void *restrict to, size_t length, int flags, struct sockaddr *restrict from, socklen_t *restrict size) {
    if (place_of(file) == WIRE && from == NULL) return transfer(CALL_RECV, file, to, length, 0, flags);
    return syscall(SYS_recvfrom, file, to, length, flags, from, size);
}
ssize_t sendto(int file, const void *from, size_t length, int flags, const struct sockaddr *to, socklen_t size) {
    if (place_of(file) == WIRE && to == NULL) return transfer(CALL_SEND, file, from, length, 0, flags);
    return syscall(SYS_sendto, file, from, length, flags, to, size);
}

/* A call with several ranges of bytes does the first of them that has any, as it may. */
static const struct iovec *first_of(const struct iovec *ranges, size_t count) {
    while (count > 1 && ranges->iov_len == 0) ranges += 1, count -= 1;
    return ranges;
}

ssize_t readv(int file, const struct iovec *to, int count) {
    const struct iovec *it = first_of(to, count);
    return transfer(CALL_READ, file, it->iov_base, it->iov_len, 0, 0);
}
ssize_t writev(int file, const struct iovec *from, int count) {
    const struct iovec *it = first_of(from, count);
    return transfer(CALL_WRITE, file, it->iov_base, it->iov_len, 0, 0);
}
ssize_t sendmsg(int file, const struct msghdr *from, int flags) {
    if (place_of(file) != WIRE) return syscall(SYS_sendmsg, file, from, flags);
    const struct iovec *it = first_of(from->msg_iov, from->msg_iovlen);
    return transfer(CALL_SEND, file, it->iov_base, it->iov_len, 0, flags);
}

/* ---- what else is asked of the disk ------------------------------------------------------------------------------ */
static int opened(int at, const char *path, int flags, mode_t mode) {
    int is_folder = *folder != 0 && strcmp(path, folder) == 0, ours = is_ours(path);
    const struct failing *it = ours || is_folder ? counted(CALL) : NULL;
    if (it != NULL) return refused(it);
    int is_new = syscall(SYS_faccessat, at, here(path), F_OK) != 0;
    int file = syscall(SYS_openat, at, here(path), flags, mode);
    if (file < 0 || file >= FILES) return file;
    places[file] = is_folder ? FOLDER : ours ? DISK : flags & O_DIRECTORY || strncmp(path, "/proc/", 6) == 0 ? ELSEWHERE : WIRE;
    snprintf(names[file], sizeof names[file], "%s", ours ? path + strlen(desk) : "");
    if (ours && is_new) tell("create", names[file], 0, "", 0);
    if (ours && !is_new && flags & O_TRUNC) tell("length", names[file], 0, "", 0);
    return file;
}

static mode_t mode_in(int flags, va_list rest) { return flags & O_CREAT ? va_arg(rest, mode_t) : 0; }

#define OPENS(name, at, parameters)                     \
    int name parameters {                               \
        va_list rest;                                   \
        va_start(rest, flags);                          \
        mode_t mode = mode_in(flags, rest);             \
        va_end(rest);                                   \
        return opened(at, path, flags, mode);           \
    }
OPENS(open, AT_FDCWD, (const char *path, int flags, ...))
OPENS(open64, AT_FDCWD, (const char *path, int flags, ...))
OPENS(openat, at, (int at, const char *path, int flags, ...))
OPENS(openat64, at, (int at, const char *path, int flags, ...))

int close(int file) {
    enum place place = place_of(file);
    const struct failing *it = place == DISK || place == FOLDER ? counted(CALL) : NULL;
    if (place != ELSEWHERE) places[file] = ELSEWHERE;
    int done = syscall(SYS_close, file);
    return it != NULL ? refused(it) : done;
}

static int synced(long number, int file) {
    enum place place = place_of(file);
    if (place != DISK && place != FOLDER) return syscall(number, file);
    const struct failing *it = counted(SYNC);
    if (it != NULL && it->way == LIE) return 0;
    int fails = it != NULL && it->way != LATE;
    int done = fails ? -1 : syscall(number, file);
    tell(fails ? "unsynced" : "synced", place == FOLDER ? "/.." : names[file], 0, "", 0);
    return it != NULL ? refused(it) : done;
}
int fsync(int file) { return synced(SYS_fsync, file); }
int fdatasync(int file) { return synced(SYS_fdatasync, file); }

static int cut(int file, off_t length) {
    if (place_of(file) != DISK) return syscall(SYS_ftruncate, file, length);
    const struct failing *it = counted(WRITE);
    if (it != NULL && it->way == ERROR) return refused(it);
    int done = syscall(SYS_ftruncate, file, length);
    tell("length", names[file], length, "", 0);
    if (it != NULL && it->way == KILLTORN) killed();
    return it != NULL && (it->way == TORN || it->way == LATE) ? refused(it) : done;
}
int ftruncate(int file, off_t length) { return cut(file, length); }
int ftruncate64(int file, off_t length) { return cut(file, length); }

int unlink(const char *path) {
    const struct failing *it = is_ours(path) ? counted(CALL) : NULL;
    if (it != NULL) return refused(it);
    int done = syscall(SYS_unlink, here(path));
    if (is_ours(path) && done == 0) tell("remove", path + strlen(desk), 0, "", 0);
    return done;
}

/* Calls that change no bytes are failed before they are done. */
#define ASKED(of_disk)                                            \
    do {                                                          \
        const struct failing *it = (of_disk) ? counted(CALL) : NULL; \
        if (it != NULL) return refused(it);                       \
    } while (0)

int statx(int at, const char *restrict path, int flags, unsigned mask, struct statx *restrict to) {
    ASKED(place_of(at) == DISK || is_ours(path));
    return syscall(SYS_statx, at, here(path), flags, mask, to);
}
int fchmod(int file, mode_t mode) {
    ASKED(place_of(file) == DISK);
    return syscall(SYS_fchmod, file, mode);
}
int fchown(int file, uid_t user, gid_t group) {
    ASKED(place_of(file) == DISK);
    return syscall(SYS_fchown, file, user, group);
}
int flock(int file, int operation) {
    ASKED(place_of(file) == DISK);
    return syscall(SYS_flock, file, operation);
}

static int controlled(int file, int command, void *argument) {
    ASKED(place_of(file) == DISK);
    return syscall(SYS_fcntl, file, command, argument);
}
#define CONTROLS(name)                               \
    int name(int file, int command, ...) {           \
        va_list rest;                                \
        va_start(rest, command);                     \
        void *argument = va_arg(rest, void *);       \
        va_end(rest);                                \
        return controlled(file, command, argument);  \
    }
CONTROLS(fcntl)
CONTROLS(fcntl64)

int getentropy(void *to, size_t length) {
    static uint64_t state = 1;
    ASKED(1);
    for (size_t it = 0; it < length; it++) {
        state = state * 6364136223846793005u + 1442695040888963407u;
        ((unsigned char *)to)[it] = state >> 56;
    }
    return 0;
}

/* ---- connections ------------------------------------------------------------------------------------------------- */
int accept4(int file, struct sockaddr *restrict from, socklen_t *restrict length, int flags) {
    ASKED(1);
    if (given < 0) connection = syscall(SYS_accept4, file, from, length, flags);
    else {
        char path[8400];
        snprintf(path, sizeof path, "%s/answered", *own_folder == 0 ? folder : own_folder);
        connection = syscall(SYS_openat, AT_FDCWD, path, O_WRONLY | O_CREAT | O_APPEND | O_CLOEXEC, 0600);
        if (from != NULL && length != NULL && *length >= sizeof(struct sockaddr_in)) {
            *(struct sockaddr_in *)from = (struct sockaddr_in){.sin_family = AF_INET, .sin_port = htons(40000), .sin_addr.s_addr = htonl(INADDR_LOOPBACK)};
            *length = sizeof(struct sockaddr_in);
        }
    }
    if (connection >= 0 && connection < FILES) places[connection] = WIRE;
    return connection;
}
int setsockopt(int file, int level, int name, const void *value, socklen_t length) {
    return given < 0 ? syscall(SYS_setsockopt, file, level, name, value, length) : 0;
}
int accept(int file, struct sockaddr *restrict from, socklen_t *restrict length) { return accept4(file, from, length, 0); }
int socket(int family, int kind, int protocol) {
    ASKED(1);
    return given < 0 ? syscall(SYS_socket, family, kind, protocol) : syscall(SYS_openat, AT_FDCWD, "/dev/null", O_RDWR | O_CLOEXEC);
}
int bind(int file, const struct sockaddr *to, socklen_t length) {
    ASKED(1);
    return given < 0 ? syscall(SYS_bind, file, to, length) : 0;
}
int listen(int file, int waiting) {
    ASKED(1);
    return given < 0 ? syscall(SYS_listen, file, waiting) : 0;
}
