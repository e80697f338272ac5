// What std's code for Linux calls of the C library, over WASI preview 1, the calls by which WebAssembly asks a host for files, arguments and the
// environment: https://github.com/WebAssembly/WASI/blob/main/legacy/preview1/docs.md. Two calls more are of our own, since WASI has no modes.
//
// WASI's addresses have 32 bits, as those of the module have in the end.
typedef unsigned long size_t;
typedef long ssize_t;
typedef unsigned short u16;
typedef unsigned u32;
typedef unsigned long long u64;
typedef u32 address;

#define WASI(name) __attribute__((import_module("wasi_snapshot_preview1"), import_name(#name))) extern u32 wasi_##name
#define OWN(name) __attribute__((import_module("t1check"), import_name(#name))) extern u32 own_##name

WASI(args_get)(address arguments, address texts);
WASI(args_sizes_get)(address count, address size);
WASI(environ_get)(address entries, address texts);
WASI(environ_sizes_get)(address count, address size);
WASI(fd_close)(u32 fd);
WASI(fd_fdstat_get)(u32 fd, address found);
WASI(fd_filestat_get)(u32 fd, address found);
WASI(fd_prestat_dir_name)(u32 fd, address name, u32 size);
WASI(fd_prestat_get)(u32 fd, address found);
WASI(fd_read)(u32 fd, address parts, u32 count, address size);
WASI(fd_readdir)(u32 fd, address entries, u32 size, u64 cookie, address used);
WASI(fd_sync)(u32 fd);
WASI(fd_write)(u32 fd, address parts, u32 count, address size);
WASI(path_create_directory)(u32 fd, address path, u32 size);
WASI(path_filestat_get)(u32 fd, u32 follows, address path, u32 size, address found);
WASI(path_open)(u32 fd, u32 follows, address path, u32 size, u32 how, u64 rights, u64 rights_below, u32 flags, address opened);
WASI(path_readlink)(u32 fd, address path, u32 size, address text, u32 text_size, address used);
WASI(path_rename)(u32 fd, address path, u32 size, u32 to_fd, address to, u32 to_size);
WASI(path_unlink_file)(u32 fd, address path, u32 size);
__attribute__((import_module("wasi_snapshot_preview1"), import_name("proc_exit"), noreturn)) extern void wasi_proc_exit(u32 status);
// The permissions of a file, as the last nine bits of a mode.
OWN(path_mode)(u32 fd, u32 follows, address path, u32 size, address mode);
OWN(fd_set_mode)(u32 fd, u32 mode);

// Linux's numbers, which std knows.
enum { ENOENT = 2, EIO = 5, EBADF = 9, EINVAL = 22, ENOSYS = 38 };
enum { O_ACCESS = 3, O_WRONLY = 1, O_RDWR = 2, O_CREAT = 0100, O_EXCL = 0200, O_TRUNC = 01000, O_APPEND = 02000 };
enum { AT_FDCWD = -100, AT_SYMLINK_NOFOLLOW = 0x100 };
enum { PATH_MAX = 4096 };

// WASI's.
enum { CREATES = 1, IS_FOLDER = 2, IS_NEW = 4, EMPTIES = 8, APPENDS = 1, FOLLOWS = 1 };
enum { RIGHT_READ = 1 << 1, RIGHT_SEEK = 1 << 2, RIGHT_TELL = 1 << 5, RIGHT_WRITE = 1 << 6, RIGHT_SYNC = 1 << 4, RIGHT_READDIR = 1 << 14, RIGHT_STAT = 1 << 21 };
enum { BLOCK_DEVICE = 1, CHARACTER_DEVICE = 2, FOLDER = 3, REGULAR_FILE = 4, LINK = 7 };

// The errors in WASI's order, from 1; what std doesn't know is EIO.
static const unsigned char errors[] = {
  7, 13, 98, 99, 97, 11, 114, EBADF, 74, 16, 125, 10, 103, 111, 104, 35, 89, 33, 122, 17, 14, 27, 113, 43, 84, 115, 4, EINVAL, EIO, 106, 21, 40, 24,
  31, 90, 72, 36, 100, 102, 101, 23, 105, 19, ENOENT, 8, 37, 67, 12, 42, 92, 28, 38, 107, 20, 39, 131, 88, 95, 25, 6, 75, 130, 1, 32, 71, 93, 91, 34,
  30, 29, 3, 116, 110, 26, 18, 13,
};

static int error_now;

int rattle_errno(void) { return error_now; }

void rattle_set_errno(int error) { error_now = error; }

// 0, or -1 with the error of a WASI call.
static int ended(u32 error) {
  if (error == 0) return 0;
  error_now = error <= sizeof errors ? errors[error - 1] : EIO;
  return -1;
}

// A place in memory, as WASI is given it.
#define AT(place) ((address)(size_t)(place))

static size_t length_of(const char *text) {
  size_t length = 0;
  while (text[length]) length++;
  return length;
}

static int begins(const char *text, const char *with, size_t length) {
  for (size_t i = 0; i < length; i++)
    if (text[i] != with[i]) return 0;
  return 1;
}

// ---- Arguments and the environment

extern void *web_room(size_t size);

typedef struct {
  u32 count;
  address *entries;
} Texts;

// Puts a text into a buffer: its length, or -2 where it doesn't fit, and then the buffer is full.
static ssize_t copied(const char *text, char *buffer, size_t size) {
  size_t length = length_of(text);
  __builtin_memcpy(buffer, text, length < size ? length : size);
  return length <= size ? (ssize_t)length : -2;
}

// All that a call of the host has, once. The calls are in the text of this, so that there is no pointer to a function.
#define TEXTS(name)                                                                                                     \
  static Texts *name(void) {                                                                                            \
    static Texts all;                                                                                                   \
    u32 count = 0, size = 0;                                                                                            \
    if (all.entries) return &all;                                                                                       \
    if (wasi_##name##_sizes_get(AT(&count), AT(&size)) != 0) return &all;                                               \
    address *entries = web_room((size_t)count * sizeof(address) + size + 1);                                            \
    if (!entries || wasi_##name##_get(AT(entries), AT(entries + count)) != 0) return &all;                              \
    all = (Texts){count, entries};                                                                                      \
    return &all;                                                                                                        \
  }
TEXTS(args)
TEXTS(environ)

static const char *text_at(Texts *all, size_t i) { return (const char *)(size_t)all->entries[i]; }

size_t rattle_arg_count(void) { return args()->count; }

ssize_t rattle_arg(size_t i, char *buffer, size_t size) {
  Texts *all = args();
  return i < all->count ? copied(text_at(all, i), buffer, size) : -1;
}

ssize_t rattle_env(const char *name, char *buffer, size_t size) {
  Texts *all = environ();
  size_t length = length_of(name);
  for (u32 i = 0; i < all->count; i++) {
    const char *entry = text_at(all, i);
    if (begins(entry, name, length) && entry[length] == '=') return copied(entry + length + 1, buffer, size);
  }
  return -1;
}

// ---- Descriptors

typedef struct {
  address bytes;
  u32 size;
} Part;

ssize_t read(int fd, void *buffer, size_t size) {
  Part part = {AT(buffer), (u32)size};
  u32 count = 0;
  return ended(wasi_fd_read((u32)fd, AT(&part), 1, AT(&count))) ? -1 : (ssize_t)count;
}

ssize_t write(int fd, const void *buffer, size_t size) {
  Part part = {AT(buffer), (u32)size};
  u32 count = 0;
  return ended(wasi_fd_write((u32)fd, AT(&part), 1, AT(&count))) ? -1 : (ssize_t)count;
}

int close(int fd) { return ended(wasi_fd_close((u32)fd)); }

int fsync(int fd) { return ended(wasi_fd_sync((u32)fd)); }

int fchmod(int fd, u32 mode) { return ended(own_fd_set_mode((u32)fd, mode)); }

// What else std names where it changes an open file. No program here calls these.
int fdatasync(int fd) { return fsync(fd); }

int ftruncate(int fd, ssize_t size) {
  (void)fd, (void)size;
  error_now = ENOSYS;
  return -1;
}

int flock(int fd, int how) {
  (void)fd, (void)how;
  error_now = ENOSYS;
  return -1;
}

// As wasi-libc says of a descriptor: a device of characters that has no position.
int isatty(int fd) {
  struct {
    unsigned char type;
    u16 flags;
    u64 rights, rights_below;
  } found;
  return !ended(wasi_fd_fdstat_get((u32)fd, AT(&found))) && found.type == CHARACTER_DEVICE && !(found.rights & (RIGHT_SEEK | RIGHT_TELL));
}

// A host has no signals: a pipe that nobody reads is an error of its write.
void *__sysv_signal(int number, void *handler) {
  (void)number, (void)handler;
  return 0;
}

// ---- Paths

// A path as WASI has it: below a folder that the host has open.
typedef struct {
  u32 fd;
  address path;
  u32 size;
} Below;

// How much of a path leads to the open folder of a name, or -1 where the path isn't below it. The name `.` is that of the working folder.
static ssize_t leads(const char *name, size_t length, const char *path) {
  if (length == 1 && name[0] == '.') return path[0] == '/' ? -1 : 0;
  while (length > 0 && name[length - 1] == '/') length--;
  if (!begins(path, name, length)) return -1;
  return path[length] == '/' || path[length] == 0 ? (ssize_t)length : -1;
}

// Finds the open folder whose name is the longest that leads to a path. They have the descriptors from 3 on.
static int find(const char *path, Below *below) {
  struct {
    u32 type, size;
  } prestat;
  static char name[PATH_MAX];
  ssize_t longest = -1;
  if (!path[0]) {
    error_now = ENOENT;
    return -1;
  }
  for (u32 fd = 3; wasi_fd_prestat_get(fd, AT(&prestat)) == 0; fd++) {
    if (prestat.size > PATH_MAX || wasi_fd_prestat_dir_name(fd, AT(name), prestat.size) != 0) continue;
    ssize_t length = leads(name, prestat.size, path);
    if (length > longest) {
      longest = length;
      below->fd = fd;
    }
  }
  if (longest < 0) return ended(76);
  const char *rest = path + longest;
  // Of the root one slash alone goes: two begin the name of a server on Windows.
  if (*rest == '/') rest++;
  while (longest > 0 && *rest == '/') rest++;
  if (!*rest) rest = ".";
  below->path = AT(rest);
  below->size = (u32)length_of(rest);
  return 0;
}

// The same of a path below an open folder, or below the working folder.
static int find_at(int folder, const char *path, Below *below) {
  if (folder == AT_FDCWD || path[0] == '/') return find(path, below);
  *below = (Below){(u32)folder, AT(path), (u32)length_of(path)};
  return 0;
}

static int opened(Below below, u32 follows, u32 how, u64 rights, u32 flags) {
  u32 fd = 0;
  return ended(wasi_path_open(below.fd, follows, below.path, below.size, how, rights, rights, flags, AT(&fd))) ? -1 : (int)fd;
}

// The mode of a new file is the host's.
int open(const char *path, int flags, ...) {
  int access = flags & O_ACCESS;
  u64 rights = RIGHT_SYNC | RIGHT_STAT | RIGHT_SEEK | RIGHT_TELL | (access != O_WRONLY ? RIGHT_READ : 0) |
               (access == O_WRONLY || access == O_RDWR ? RIGHT_WRITE : 0);
  u32 how = (flags & O_CREAT ? CREATES : 0) | (flags & O_EXCL ? IS_NEW : 0) | (flags & O_TRUNC ? EMPTIES : 0);
  Below below;
  if (find(path, &below)) return -1;
  return opened(below, FOLLOWS, how, rights, flags & O_APPEND ? APPENDS : 0);
}

int rename(const char *path, const char *to) {
  Below from, behind;
  if (find(path, &from) || find(to, &behind)) return -1;
  return ended(wasi_path_rename(from.fd, from.path, from.size, behind.fd, behind.path, behind.size));
}

int unlink(const char *path) {
  Below below;
  if (find(path, &below)) return -1;
  return ended(wasi_path_unlink_file(below.fd, below.path, below.size));
}

int mkdir(const char *path, u32 mode) {
  Below below;
  (void)mode;
  if (find(path, &below)) return -1;
  return ended(wasi_path_create_directory(below.fd, below.path, below.size));
}

ssize_t readlink(const char *path, char *buffer, size_t size) {
  Below below;
  u32 used = 0;
  if (find(path, &below)) return -1;
  return ended(wasi_path_readlink(below.fd, below.path, below.size, AT(buffer), (u32)size, AT(&used))) ? -1 : (ssize_t)used;
}

// ---- What a file is

typedef struct {
  u64 device, number;
  unsigned char type;
  u64 links, size, accessed, modified, changed;
} FileStat;

typedef struct {
  long long seconds;
  u32 nanoseconds, unused;
} Time;

typedef struct {
  u32 mask, block_size;
  u64 attributes;
  u32 links, user, group;
  u16 mode, unused;
  u64 number, size, blocks, attributes_mask;
  Time accessed, made, changed, modified;
} Statx;

enum { KNOWN = 0x7ff };

static u32 kind_of(unsigned char type) {
  switch (type) {
    case BLOCK_DEVICE: return 0060000;
    case CHARACTER_DEVICE: return 0020000;
    case FOLDER: return 0040000;
    case REGULAR_FILE: return 0100000;
    case LINK: return 0120000;
    default: return 0010000;
  }
}

static Time time_of(u64 nanoseconds) {
  return (Time){(long long)(nanoseconds / 1000000000), (u32)(nanoseconds % 1000000000), 0};
}

static void put_stat(Statx *found, FileStat *of, u32 mode) {
  found->mask = KNOWN;
  found->links = (u32)of->links;
  found->mode = (u16)(kind_of(of->type) | mode);
  found->number = of->number;
  found->size = of->size;
  found->accessed = time_of(of->accessed);
  found->changed = time_of(of->changed);
  found->modified = time_of(of->modified);
}

// Of an open file where the path is empty.
int statx(int folder, const char *path, int flags, u32 mask, Statx *found) {
  u32 follows = flags & AT_SYMLINK_NOFOLLOW ? 0 : FOLLOWS, mode = 0;
  FileStat of;
  Below below;
  (void)mask;
  if (!path[0] && folder >= 0) {
    if (ended(wasi_fd_filestat_get((u32)folder, AT(&of)))) return -1;
  } else {
    if (find_at(folder, path, &below)) return -1;
    if (ended(wasi_path_filestat_get(below.fd, follows, below.path, below.size, AT(&of)))) return -1;
    if (ended(own_path_mode(below.fd, follows, below.path, below.size, AT(&mode)))) return -1;
  }
  put_stat(found, &of, mode);
  return 0;
}

// ---- Folders

// WASI is told where to go on, and Linux isn't: here it is, for each descriptor.
enum { MOST_OPEN = 1024, ENTRY = 24, LINUX_ENTRY = 19 };
static u64 cookies[MOST_OPEN];

int rattle_open_dir_at(int folder, const char *name) {
  size_t length = length_of(name);
  Below below;
  if (find_at(folder, name, &below)) return -1;
  int fd = opened(below, length > 0 && name[length - 1] == '/' ? FOLLOWS : 0, IS_FOLDER, RIGHT_READDIR | RIGHT_STAT, 0);
  if (fd >= MOST_OPEN) {
    close(fd);
    return ended(33);
  }
  if (fd >= 0) cookies[fd] = 0;
  return fd;
}

// Rewrites the entries in a buffer in Linux's form, which is shorter, and returns how long they are then. The last may be cut, and is asked for again.
static ssize_t put_entries(int fd, char *buffer, u32 used) {
  size_t to = 0;
  for (size_t from = 0; from + ENTRY <= used;) {
    u64 next = *(u64 *)(void *)(buffer + from);
    u32 length = *(u32 *)(void *)(buffer + from + 16);
    if (from + ENTRY + length > used) break;
    char *entry = buffer + to;
    __builtin_memmove(entry + LINUX_ENTRY, buffer + from + ENTRY, length);
    size_t size = LINUX_ENTRY + length + 1;
    entry[16] = (char)size;
    entry[17] = (char)(size >> 8);
    entry[size - 1] = 0;
    cookies[fd] = next;
    from += ENTRY + length;
    to += size;
  }
  return (ssize_t)to;
}

ssize_t getdents64(int fd, char *buffer, size_t size) {
  u32 used = 0;
  if (fd < 0 || fd >= MOST_OPEN) return ended(8);
  if (ended(wasi_fd_readdir((u32)fd, AT(buffer), (u32)size, cookies[fd], AT(&used)))) return -1;
  ssize_t length = put_entries(fd, buffer, used);
  return length == 0 && used > 0 ? ended(28) : length;
}

// ---- The program

extern int program(int count, char **words) __asm__("main");

void _start(void) { wasi_proc_exit((u32)program(0, 0)); }
