/* The heap of the module, over memory that grows: blocks whose sizes are powers of two, and for each size a list of the free ones. It stands in place of the
   kit's heap in C, and has the two calls that the compiler makes for numbers of 128 bits. Nothing proves this file. */
typedef unsigned long u64;
typedef unsigned char u8;
typedef struct { u64 ok; u64 at; } Tried;

/* Before each block its size is kept, as a power of two, in this many bytes. */
enum { HEAD = 16, LEAST = 5, MOST = 40, PAGE_BITS = 16, PAGES_AT_ONCE = 64 };

extern u8 __heap_base;
static u64 top, end;
static u64 free_blocks[64];
static u8 nothing;

static int power_for(u64 size) {
  int power = LEAST;
  while (((u64)1 << power) < size) power++;
  return power;
}

/* Room for so many bytes, or 0. */
static u64 get(u64 size) {
  if (size > (u64)1 << MOST) return 0;
  int power = power_for(size + HEAD);
  u64 block = free_blocks[power];
  if (block) {
    free_blocks[power] = *(u64 *)(block + 8);
  } else {
    if (!top) {
      top = ((u64)&__heap_base + 15) & ~(u64)15;
      end = __builtin_wasm_memory_size(0) << PAGE_BITS;
    }
    u64 bytes = (u64)1 << power;
    if (end - top < bytes) {
      u64 lacking = (bytes - (end - top) + 65535) >> PAGE_BITS, wanted = lacking < PAGES_AT_ONCE ? PAGES_AT_ONCE : lacking;
      u64 before = __builtin_wasm_memory_grow(0, wanted);
      /* (the second where the memory was made one of 32 bits) */
      if (before == (u64)-1 || before == 0xffffffffu) return 0;
      end += wanted << PAGE_BITS;
    }
    block = top;
    top += bytes;
  }
  *(u64 *)block = power;
  return block + HEAD;
}

static void put(u64 at) {
  u64 block = at - HEAD, power = *(u64 *)block;
  *(u64 *)(block + 8) = free_blocks[power];
  free_blocks[power] = block;
}

static Tried tried(u64 at) {
  Tried it = { at != 0, at ? at : (u64)&nothing };
  return it;
}

Tried rattle_alloc(u64 size, u64 align) { return tried(get(size)); }

Tried rattle_realloc(u64 at, u64 kept, u64 size, u64 align) {
  u64 power = *(u64 *)(at - HEAD);
  if (size <= (u64)1 << MOST && power_for(size + HEAD) == (int)power) return tried(at);
  u64 to = get(size);
  if (!to) return tried(0);
  __builtin_memcpy((void *)to, (void *)at, kept < size ? kept : size);
  put(at);
  return tried(to);
}

void rattle_dealloc(u64 at) { put(at); }

/* For the host: room for what it passes. */
u64 web_room(u64 size) { return get(size); }
void web_free(u64 at) { put(at); }

typedef union { __int128 all; struct { u64 low; long high; } s; } Two;

__int128 __multi3(__int128 a, __int128 b) {
  Two x, y, r;
  x.all = a;
  y.all = b;
  const u64 half = 0xffffffffu;
  u64 al = x.s.low & half, ah = x.s.low >> 32, bl = y.s.low & half, bh = y.s.low >> 32;
  u64 low = al * bl, carry = low >> 32, high;
  low &= half;
  carry += ah * bl;
  low += (carry & half) << 32;
  high = carry >> 32;
  carry = low >> 32;
  low &= half;
  carry += bh * al;
  low += (carry & half) << 32;
  high += (carry >> 32) + ah * bh;
  r.s.low = low;
  r.s.high = (long)(high + (u64)x.s.high * y.s.low + x.s.low * (u64)y.s.high);
  return r.all;
}

__int128 __lshrti3(__int128 a, int n) {
  Two x, r;
  x.all = a;
  u64 high = (u64)x.s.high;
  if (!n) return a;
  r.s.high = n & 64 ? 0 : (long)(high >> n);
  r.s.low = n & 64 ? high >> (n & 63) : (high << (64 - n)) | (x.s.low >> n);
  return r.all;
}

__int128 __ashlti3(__int128 a, int n) {
  Two x, r;
  x.all = a;
  u64 high = (u64)x.s.high;
  if (!n) return a;
  r.s.low = n & 64 ? 0 : x.s.low << n;
  r.s.high = n & 64 ? (long)(x.s.low << (n & 63)) : (long)((high << n) | (x.s.low >> (64 - n)));
  return r.all;
}
