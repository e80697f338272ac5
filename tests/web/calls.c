// Calls the functions of web/system.c in the working folder, and prints a line of each: its name, what it returned, and the error where it failed.
// calls.txt has the wanted lines.
typedef unsigned long size_t;
typedef long ssize_t;
typedef unsigned u32;

extern int open(const char *path, int flags, ...);
extern int close(int fd), fsync(int fd), fdatasync(int fd), ftruncate(int fd, long size), flock(int fd, int how);
extern int fchmod(int fd, u32 mode), isatty(int fd), mkdir(const char *path, u32 mode);
extern int rename(const char *path, const char *to), unlink(const char *path), rattle_errno(void);
extern int rattle_open_dir_at(int folder, const char *name), statx(int folder, const char *path, int flags, u32 mask, void *found);
extern ssize_t read(int fd, void *buffer, size_t size), write(int fd, const void *buffer, size_t size), getdents64(int fd, char *buffer, size_t size);
extern ssize_t readlink(const char *path, char *buffer, size_t size), rattle_arg(size_t i, char *buffer, size_t size);
extern ssize_t rattle_env(const char *name, char *buffer, size_t size);
extern size_t rattle_arg_count(void);

enum { CWD = -100, NOFOLLOW = 0x100, READ = 0, UPDATE = 2, CREATE = 01 | 0100, NEW = 0200, EMPTY = 01000, APPEND = 02000 };

static void put(const char *text) {
  size_t length = 0;
  while (text[length]) length++;
  write(1, text, length);
}

static void put_number(long number, int base) {
  char digits[24], *at = digits + sizeof digits;
  unsigned long left = number < 0 ? -(unsigned long)number : (unsigned long)number;
  *--at = 0;
  do *--at = (char)('0' + left % (unsigned)base);
  while (left /= (unsigned)base);
  if (number < 0) *--at = '-';
  put(at);
}

static long tell(const char *name, long result) {
  put(name);
  put(" ");
  put_number(result, 10);
  if (result < 0) put(" error "), put_number(rattle_errno(), 10);
  put("\n");
  return result;
}

// Whether a call returned a descriptor.
static int opened(const char *name, int fd) {
  tell(name, fd < 0 ? fd : 0);
  return fd;
}

static unsigned char stat[256];

static void tell_stat(const char *path, int flags) {
  if (tell(path, statx(CWD, path, flags, 0, stat)) < 0) return;
  u32 mode = *(unsigned short *)(void *)(stat + 28);
  put("mode ");
  put_number(mode, 8);
  put("\n");
  // That of a folder is its file system's.
  if ((mode & 0170000) == 0100000) tell("size", *(long *)(void *)(stat + 40));
}

// The names in a folder, read with a buffer of so many bytes: how many, and how many bytes they have.
static void tell_folder(const char *path, size_t size) {
  static char buffer[4096];
  int fd = opened(path, rattle_open_dir_at(CWD, path));
  long names = 0, bytes = 0;
  if (fd < 0) return;
  for (;;) {
    ssize_t length = getdents64(fd, buffer, size);
    if (length <= 0) {
      tell("getdents64", length);
      break;
    }
    for (ssize_t at = 0; at < length; at += (unsigned char)buffer[at + 16] | (unsigned char)buffer[at + 17] << 8) {
      char *name = buffer + at + 19;
      if (name[0] == '.' && (!name[1] || (name[1] == '.' && !name[2]))) continue;
      names++;
      while (*name) name++, bytes++;
    }
  }
  tell("names", names);
  tell("bytes", bytes);
  close(fd);
}

int main(int count, char **words) {
  static char text[64];
  (void)count, (void)words;
  tell("words", (long)rattle_arg_count());
  tell("word 1", rattle_arg(1, text, 64));
  put(text), put("\n");
  tell("word 1, which doesn't fit", rattle_arg(1, text, 2));
  tell("word 2", rattle_arg(2, text, 64));
  tell("variable", rattle_env("TRIED", text, 64));
  tell("no variable", rattle_env("TRIE", text, 64));
  tell("isatty", isatty(1));
  tell("mkdir", mkdir("made", 0777));
  tell("mkdir", mkdir("made", 0777));
  int fd = opened("open new", open("made/one", CREATE | NEW, 0666));
  tell("write", write(fd, "eight by", 8));
  tell("fchmod", fchmod(fd, 0640));
  tell("fsync", fsync(fd));
  tell("fdatasync", fdatasync(fd));
  tell("ftruncate", ftruncate(fd, 8));
  tell("flock", flock(fd, 2));
  tell("close", close(fd));
  tell("close", close(fd));
  opened("open new", open("made/one", CREATE | NEW, 0666));
  fd = opened("append", open("made/one", 01 | APPEND));
  tell("write", write(fd, "tes", 3));
  tell("read", read(fd, text, 64));
  close(fd);
  fd = opened("read", open("made/one", READ));
  tell("read", read(fd, text, 4));
  tell("read", read(fd, text, 64));
  tell("read", read(fd, text, 64));
  tell("write", write(fd, "x", 1));
  close(fd);
  opened("none", open("made/none", READ));
  opened("below a file", open("made/one/two", READ));
  opened("empty", open("", READ));
  tell("rename", rename("made/one", "made/another name"));
  tell("rename", rename("made/one", "made/two"));
  tell_stat("made/another name", 0);
  tell_stat("made/one", 0);
  tell_stat("made", 0);
  tell_stat("leads", 0);
  tell_stat("leads", NOFOLLOW);
  tell("readlink", readlink("leads", text, 64));
  tell("readlink", readlink("made", text, 64));
  tell_folder("many/", 4096);
  tell_folder("many/", 64);
  tell_folder("many/", 16);
  tell_folder("made/another name", 64);
  opened("a link to a folder", rattle_open_dir_at(CWD, "leads"));
  tell("unlink", unlink("made/another name"));
  tell("unlink", unlink("made/another name"));
  return 3;
}
