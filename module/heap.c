// The heap of the proved code. Its blocks have sizes that are powers of two. Each size has a list of free blocks.
typedef unsigned long u64; typedef unsigned char u8;
struct tried { u64 ok; void *p; };
extern u8 __heap_base;
static u8 none;                      // the target of the pointer that a failed allocation returns
static u8 *top; static void *lists[64];
static u64 end(void) { return (u64)__builtin_wasm_memory_size(0) << 16; }
static int class_of(u64 n) { u64 all = n + 16; int k = 5; while ((1ul << k) < all) k++; return k; }
static void *take(u64 n) {
  if (n >> 40) return 0;
  int k = class_of(n);
  u8 *b = lists[k];
  if (b) { lists[k] = *(void **)(b + 16); return b + 16; }
  if (!top) top = (u8 *)(((u64)&__heap_base + 15) & ~15ul);
  u64 size = 1ul << k;
  while ((u64)top + size > end()) {
    u64 want = ((u64)top + size - end() + 65535) >> 16; if (want < 64) want = 64;
    // A failure is -1. Lowering to 32 bits keeps only the lower half of it.
    if ((unsigned)__builtin_wasm_memory_grow(0, want) == ~0u) return 0;
  }
  b = top; top += size; *(u64 *)b = k; return b + 16;
}
static void give(u8 *p) { u64 k = *(u64 *)(p - 16); *(void **)p = lists[k]; lists[k] = p - 16; }
void *memcpy(void *, const void *, u64);
struct tried rattle_alloc(u64 n, u64 a) {
  void *p = take(n); return p ? (struct tried){1, p} : (struct tried){0, &none};
}
struct tried rattle_realloc(u8 *p, u64 kept, u64 n, u64 a) {
  u64 k = *(u64 *)(p - 16);
  if (n + 16 <= (1ul << k)) return (struct tried){1, p};
  u8 *q = take(n); if (!q) return (struct tried){0, &none};
  __builtin_memcpy(q, p, kept < n ? kept : n); give(p); return (struct tried){1, q};
}
void rattle_dealloc(u8 *p) { give(p); }
// The host allocates and frees its buffers with these, for example for a scenario and a report.
#define EXPORT(name) __attribute__((export_name(#name)))
EXPORT(mencius_room) void *mencius_room(u64 n) { return take(n); }
EXPORT(mencius_give) void mencius_give(u8 *p) { give(p); }
