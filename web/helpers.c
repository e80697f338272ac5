// What LLVM calls by name where a machine has no such instruction: products, shifts and quotients of 128 bits.
typedef unsigned long long u64;
typedef unsigned __int128 u128;
typedef __int128 i128;

typedef union {
  u128 whole;
  struct {
    u64 low, high;
  } half;
} Halves;

static u128 joined(u64 low, u64 high) {
  Halves result = {.half = {low, high}};
  return result.whole;
}

// By halves of 64 bits, and the product of the low ones by halves of 32.
u128 __multi3(u128 x, u128 y) {
  Halves a = {x}, b = {y};
  u64 a_low = (unsigned)a.half.low, a_high = a.half.low >> 32, b_low = (unsigned)b.half.low, b_high = b.half.low >> 32;
  u64 first = a_low * b_low;
  u64 second = a_high * b_low + (first >> 32);
  u64 third = a_low * b_high + (unsigned)second;
  u64 carried = a_high * b_high + (second >> 32) + (third >> 32);
  return joined(third << 32 | (unsigned)first, carried + a.half.low * b.half.high + a.half.high * b.half.low);
}

// A shift is by less than 128, and none by 64 at once is left to a machine's shift of 64 bits.
u128 __ashlti3(u128 x, int n) {
  Halves a = {x};
  if (n == 0) return x;
  if (n >= 64) return joined(0, a.half.low << (n - 64));
  return joined(a.half.low << n, a.half.high << n | a.half.low >> (64 - n));
}

u128 __lshrti3(u128 x, int n) {
  Halves a = {x};
  if (n == 0) return x;
  if (n >= 64) return joined(a.half.high >> (n - 64), 0);
  return joined(a.half.low >> n | a.half.high << (64 - n), a.half.high >> n);
}

i128 __ashrti3(i128 x, int n) {
  Halves a = {(u128)x};
  u64 sign = (u64)((long long)a.half.high >> 63);
  if (n == 0) return x;
  if (n >= 64) return (i128)joined((u64)((long long)a.half.high >> (n - 64)), sign);
  return (i128)joined(a.half.low >> n | a.half.high << (64 - n), (u64)((long long)a.half.high >> n));
}

// With -expand-div-rem-bits=64 LLVM writes these out, and calls nothing.
i128 __divti3(i128 x, i128 y) { return x / y; }
i128 __modti3(i128 x, i128 y) { return x % y; }
u128 __udivti3(u128 x, u128 y) { return x / y; }
u128 __umodti3(u128 x, u128 y) { return x % y; }
