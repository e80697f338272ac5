// The heap of the module: what crates of Rattle call for memory, over WebAssembly's own memory, which only grows.
//
// A block has a class of size: 32 bytes, and from there on each power of two and one and a half times each. A block that is
// given back waits in the list of its class for the next one of that class. The 16 bytes before a block hold its class, and
// while it waits its first bytes hold the next block of the list.
typedef unsigned long size_t;

enum { SMALLEST = 32, BEFORE = 16, CLASSES = 128, PAGE = 65536, PAGES_AT_ONCE = 16 };

// More than this is never there: it keeps the sums below from wrapping.
static const size_t LARGEST = (size_t)1 << 40;

// What the crates take for an answer: whether there is memory, and where. Where there is none, the address is of a byte that
// nobody uses, since it must not be null.
typedef struct {
  size_t ok;
  void *at;
} Tried;

extern unsigned char __heap_base;
static size_t end_of_blocks;
static void *waiting[CLASSES];
static unsigned char no_memory;

static unsigned class_of(size_t size) {
  if (size <= SMALLEST) return 0;
  unsigned power = 63 - __builtin_clzl(size - 1); // 2^power < size <= 2^(power + 1)
  size_t one_and_a_half = (size_t)3 << (power - 1);
  return (power - 5) * 2 + (size <= one_and_a_half ? 1 : 2);
}

static size_t size_of(unsigned class) {
  if (class == 0) return SMALLEST;
  unsigned power = (class - 1) / 2 + 5;
  return class % 2 == 1 ? (size_t)3 << (power - 1) : (size_t)2 << power;
}

static size_t *class_at(void *block) { return (size_t *)((char *)block - BEFORE); }

static size_t memory_size(void) { return (size_t)__builtin_wasm_memory_size(0) * PAGE; }

// Makes memory grow so that it reaches `end`, where it can. What memory.grow returns isn't asked: made one of 32 bits, it says
// that it failed by another number.
static int reaches(size_t end) {
  size_t now = memory_size();
  if (end <= now) return 1;
  size_t pages = (end - now + PAGE - 1) / PAGE;
  __builtin_wasm_memory_grow(0, pages < PAGES_AT_ONCE ? PAGES_AT_ONCE : pages);
  return end <= memory_size();
}

static void *take(size_t size) {
  if (size > LARGEST) return 0;
  unsigned class = class_of(size);
  void *block = waiting[class];
  if (block) {
    waiting[class] = *(void **)block;
    return block;
  }
  if (!end_of_blocks) end_of_blocks = ((size_t)&__heap_base + BEFORE - 1) / BEFORE * BEFORE;
  size_t end = end_of_blocks + BEFORE + size_of(class);
  if (!reaches(end)) return 0;
  block = (char *)end_of_blocks + BEFORE;
  *class_at(block) = class;
  end_of_blocks = end;
  return block;
}

static void give_back(void *block) {
  unsigned class = *class_at(block);
  *(void **)block = waiting[class];
  waiting[class] = block;
}

// Blocks are aligned to 16, and no crate asks for more.
static Tried tried(void *block) { return (Tried){block != 0, block ? block : &no_memory}; }

Tried rattle_alloc(size_t size, size_t alignment) { return tried(alignment > BEFORE ? 0 : take(size)); }

// The first `kept` bytes stay as they are. Where there is no memory, the old block does.
Tried rattle_realloc(void *old, size_t kept, size_t size, size_t alignment) {
  if (alignment > BEFORE) return tried(0);
  if (size <= size_of(*class_at(old))) return tried(old);
  void *block = take(size);
  if (!block) return tried(0);
  __builtin_memcpy(block, old, kept < size ? kept : size);
  give_back(old);
  return tried(block);
}

void rattle_dealloc(void *block) { give_back(block); }

// Room for what the host hands over and is handed: 0 where there is no memory.
void *web_room(size_t size) { return take(size); }

// Gives room back.
void web_free(void *room) { give_back(room); }
