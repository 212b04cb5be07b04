/* A second folder that has only what was synced in a first one, as the disk of a second machine has it.
 *
 * scripts/play/mirrored.py compiles this by the kit's clang, and has it loaded before a server. A write to a file of the
 * folder MIRROR_FROM is made there, and kept in memory. A sync of that file makes the writes that are kept of it, in
 * their order, in the file of the same name in MIRROR_TO, syncs that, and returns only then. So a program that is killed
 * leaves in the second folder what it had synced, perhaps a part of the sync under way, and nothing else: neither the
 * page cache nor the first disk survives. That is what a mirrored disk has (DRBD, protocol C) whose first machine is
 * lost. With MIRROR_MICROSECONDS a sync takes so much longer, half of it before the second folder has the writes. With
 * MIRROR_LATE a sync makes only the writes of the one before, as a mirror that doesn't wait: for a script that looks
 * whether it would see a loss.
 *
 * Mirrored is what the files have that are in both folders. What is made, renamed or deleted while the program runs
 * isn't. No header is used: the kit has none. */

typedef __SIZE_TYPE__ size_t;
typedef __PTRDIFF_TYPE__ ssize_t;

int *__errno_location(void);
int open(const char *, int, ...);
int close(int);
char *getenv(const char *);
long strtol(const char *, char **, int);
ssize_t readlink(const char *, char *, size_t);
int snprintf(char *, size_t, const char *, ...);
int strncmp(const char *, const char *, size_t);
int strcmp(const char *, const char *);
size_t strlen(const char *);
void *malloc(size_t);
void free(void *);
void *memcpy(void *, const void *, size_t);
int usleep(unsigned);
int sched_yield(void);
long lseek(int, long, int);
void *dlsym(void *, const char *);
_Noreturn void abort(void);

enum { LONGEST = 4096, LONGEST_NAME = 256, NOWHERE = -1 };

/* A write, or where length is NOWHERE a change of the file's length to at. */
struct change {
    struct change *next;
    char name[LONGEST_NAME];
    long at;
    ssize_t length;
    char bytes[];
};

static const char *from, *to;
static long microseconds;
static int is_late;
static struct change *kept, **end = &kept; /* what isn't synced, in the order in which it was made */
static struct change *late; /* the changes of the last sync, with MIRROR_LATE */
static char keeping, syncing; /* locks: of the lists, and of the second folder */

__attribute__((constructor)) static void begin(void) {
    from = getenv("MIRROR_FROM");
    to = getenv("MIRROR_TO");
    is_late = getenv("MIRROR_LATE") != 0;
    const char *asked = getenv("MIRROR_MICROSECONDS");
    microseconds = asked ? strtol(asked, 0, 10) : 0;
}

static void lock(char *which) {
    while (__atomic_test_and_set(which, __ATOMIC_ACQUIRE)) sched_yield();
}

static void unlock(char *which) { __atomic_clear(which, __ATOMIC_RELEASE); }

/* Whether an open file is in the first folder, and its name there. */
static int is_mirrored(int file, char *name) {
    char link[64], path[LONGEST];
    if (!from || !to) return 0;
    snprintf(link, sizeof link, "/proc/self/fd/%d", file);
    ssize_t length = readlink(link, path, sizeof path - 1);
    if (length < 0) return 0;
    path[length] = 0;
    size_t folder = strlen(from);
    if (strncmp(path, from, folder) || path[folder] != '/' || strlen(path + folder) > LONGEST_NAME) return 0;
    snprintf(name, LONGEST_NAME, "%s", path + folder + 1);
    return 1;
}

/* Keeps a change until its file is synced. Where that can't be, the program ends: it mustn't answer for what the second
 * folder lacks. */
static void keep(const char *name, long at, const void *bytes, ssize_t length) {
    size_t room = length == NOWHERE ? 0 : (size_t)length;
    struct change *change = malloc(sizeof *change + room);
    if (!change) abort();
    change->next = 0;
    change->at = at;
    change->length = length;
    memcpy(change->name, name, LONGEST_NAME);
    memcpy(change->bytes, bytes, room);
    lock(&keeping);
    *end = change;
    end = &change->next;
    unlock(&keeping);
}

#define NEXT(name) ((__typeof__(&name))dlsym((void *)-1 /* RTLD_NEXT */, #name))

ssize_t pwrite(int, const void *, size_t, long);
ssize_t write(int, const void *, size_t);
int ftruncate(int, long);
int fsync(int);
int fdatasync(int);

ssize_t pwrite(int file, const void *bytes, size_t count, long at) {
    char name[LONGEST_NAME] = "";
    ssize_t made = NEXT(pwrite)(file, bytes, count, at);
    if (made > 0 && is_mirrored(file, name)) keep(name, at, bytes, made);
    return made;
}

ssize_t pwrite64(int file, const void *bytes, size_t count, long at) { return pwrite(file, bytes, count, at); }

ssize_t write(int file, const void *bytes, size_t count) {
    char name[LONGEST_NAME] = "";
    ssize_t made = NEXT(write)(file, bytes, count);
    if (made > 0 && is_mirrored(file, name)) keep(name, lseek(file, 0, 1 /* SEEK_CUR */) - made, bytes, made);
    return made;
}

int ftruncate(int file, long length) {
    char name[LONGEST_NAME] = "";
    int status = NEXT(ftruncate)(file, length);
    if (!status && is_mirrored(file, name)) keep(name, length, "", NOWHERE);
    return status;
}

int ftruncate64(int file, long length) { return ftruncate(file, length); }

/* Makes a change in a file of the second folder. */
static void make(int file, const struct change *change) {
    if (change->length == NOWHERE) {
        if (NEXT(ftruncate)(file, change->at)) abort();
        return;
    }
    for (ssize_t done = 0; done < change->length;) {
        ssize_t made = NEXT(pwrite)(file, change->bytes + done, change->length - done, change->at + done);
        if (made <= 0) abort();
        done += made;
    }
}

/* Takes the changes of a file out of the list, in their order. */
static struct change *taken(const char *name) {
    struct change *first = 0, **last = &first;
    lock(&keeping);
    struct change **at = &kept;
    while (*at) {
        struct change *change = *at;
        if (strcmp(change->name, name)) {
            at = &change->next;
        } else {
            *at = change->next;
            *last = change;
            last = &change->next;
        }
    }
    *last = 0;
    end = at;
    unlock(&keeping);
    return first;
}

/* Makes changes of one file in the second folder, and syncs that. */
static void give(struct change *changes) {
    char path[LONGEST];
    if (!changes) return;
    snprintf(path, sizeof path, "%s/%s", to, changes->name);
    int file = open(path, 02 | 02000000 /* O_RDWR | O_CLOEXEC */);
    if (file < 0 && *__errno_location() != 2 /* ENOENT */) abort();
    while (changes) {
        struct change *change = changes;
        if (file >= 0) make(file, change);
        changes = change->next;
        free(change);
    }
    if (file >= 0 && NEXT(fdatasync)(file)) abort();
    if (file >= 0) close(file);
}

/* The changes of the sync before, in the place of these. */
static struct change *before(struct change *changes) {
    struct change *earlier = late;
    late = changes;
    return earlier;
}

static int mirrored(int file, int (*sync)(int)) {
    char name[LONGEST_NAME];
    if (!is_mirrored(file, name)) return sync(file);
    lock(&syncing);
    struct change *changes = taken(name);
    int status = sync(file);
    usleep(microseconds / 2);
    if (!status) give(is_late ? before(changes) : changes);
    usleep(microseconds - microseconds / 2);
    unlock(&syncing);
    return status;
}

int fsync(int file) { return mirrored(file, NEXT(fsync)); }

int fdatasync(int file) { return mirrored(file, NEXT(fdatasync)); }
