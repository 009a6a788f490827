/* The calls of mencius.h, over the C that wasm2c makes from module/mencius.wasm. native/translate compiles this
 * file together with the runtime of wasm2c.
 *
 * Each call starts an instance of the module and frees it at the end. A judge has an instance of its own. So no call
 * sees another, and several threads may call at once. If the module stops by itself or runs out of memory, the call
 * ends with status 5. */
#define _GNU_SOURCE
#include <pthread.h>
#include <setjmp.h>
#include <stdint.h>
#include <stdlib.h>
#include <string.h>
#ifdef __linux__
#include <sys/mman.h>
#endif

#include "mencius.h"
#include "translated.h"

#if defined(__BYTE_ORDER__) && __BYTE_ORDER__ != __ORDER_LITTLE_ENDIAN__
#error "This code copies numbers as they are, so it needs a machine that stores the least byte first."
#endif

/* wasm2c 1.0.33 gave its functions other names. native/translate defines OLD_NAMES for earlier versions. */
#ifdef OLD_NAMES
typedef Z_mencius_instance_t instance;
#define EXPORT(name) Z_menciusZ_##name
#define INSTANTIATE Z_mencius_instantiate
#define FREE Z_mencius_free
#else
typedef w2c_mencius instance;
#define EXPORT(name) w2c_mencius_##name
#define INSTANTIATE wasm2c_mencius_instantiate
#define FREE wasm2c_mencius_free
#endif

#define NO_MEMORY (-1)
/* One page less than 4 GiB. The runtime of some versions computes the length in 32 bits. */
#define MOST_PAGES 65535

/* The place to which a call of this thread jumps if it cannot go on. */
static _Thread_local jmp_buf *way_out;

static _Noreturn void stop(int reason) { longjmp(*way_out, reason); }

/* The runtime calls this in place of its own longjmp. */
void mencius_trap(wasm_rt_trap_t reason) { stop((int)reason); }

/* The runtime takes memory by these functions, and does not look at the result of calloc. On Linux, the pages of a
 * block are zero until they are written. So the runtime need not clear them, and growing a block copies nothing.
 * native/translate defines ZERO_PAGES for the versions that use memset only for clearing such pages. */
#if defined(__linux__) && defined(ZERO_PAGES)
enum { HEAD = 64 };

static void *take_zeros(size_t count, size_t size)
{
    size_t length = HEAD + count * size;
    size_t *block = mmap(NULL, length, PROT_READ | PROT_WRITE, MAP_PRIVATE | MAP_ANONYMOUS, -1, 0);
    if (block == MAP_FAILED) stop(NO_MEMORY);
    *block = length;
    return (char *)block + HEAD;
}

static size_t *block_of(void *data) { return (size_t *)((char *)data - HEAD); }

static void *grow_zeros(void *data, size_t size)
{
    if (!data) return take_zeros(1, size);
    size_t *block = mremap(block_of(data), *block_of(data), HEAD + size, MREMAP_MAYMOVE);
    if (block == MAP_FAILED) return NULL;
    *block = HEAD + size;
    return (char *)block + HEAD;
}

static void give_back(void *data)
{
    if (data) munmap(block_of(data), *block_of(data));
}

#define realloc grow_zeros
#define free give_back
#define memset(to, zero, length) ((void)0)
#else
static void *take_zeros(size_t count, size_t size)
{
    void *zeros = calloc(count, size);
    if (!zeros) stop(NO_MEMORY);
    return zeros;
}
#endif

#define WASM_RT_TRAP_HANDLER mencius_trap
#define calloc take_zeros
#include "wasm-rt-impl.c"
#ifdef SEPARATE_MEMORY
#include "wasm-rt-mem-impl.c"
#endif
#undef calloc
#undef realloc
#undef free
#undef memset

enum task { CALL, STATE, TAKE, VERDICT };

struct call {
    enum task task;
    const uint8_t *words; /* of mencius_call */
    size_t words_length;
    const uint8_t *input; /* null for mencius_judge_verdict */
    size_t input_length;
    uint8_t *printed, *said;
    size_t printed_room, said_room;
    struct mencius_answer *answer;
};

static pthread_once_t is_started = PTHREAD_ONCE_INIT;

static void start(void)
{
    wasm_rt_init();
#ifdef OLD_NAMES
    Z_mencius_init_module();
#endif
}

/* Allocates room in the memory of the module. */
static uint64_t room(instance *module, size_t length)
{
    uint64_t at = EXPORT(mencius_room)(module, (uint64_t)length + 1);
    if (!at) stop(NO_MEMORY);
    return at;
}

static uint64_t put(instance *module, const uint8_t *bytes, size_t length)
{
    uint64_t at = room(module, length);
    memcpy(EXPORT(memory)(module)->data + at, bytes, length);
    return at;
}

/* Makes a call. `judge` is the address of a judge in the memory of the module, for the tasks TAKE and VERDICT. */
static void call_module(instance *module, uint64_t judge, const struct call *c)
{
    uint64_t words = c->words ? put(module, c->words, c->words_length) : 0;
    uint64_t input = c->input ? put(module, c->input, c->input_length) : 0;
    uint64_t printed = room(module, c->printed_room), said = room(module, c->said_room);
    uint64_t answer = room(module, sizeof *c->answer);
    switch (c->task) {
    case CALL:
        EXPORT(mencius_call)(module, words, c->words_length, input, c->input_length, printed, c->printed_room, said,
                             c->said_room, answer);
        break;
    case STATE:
        EXPORT(mencius_state)(module, input, c->input_length, printed, c->printed_room, said, c->said_room, answer);
        break;
    case TAKE:
        EXPORT(mencius_judge_take)(module, judge, input, c->input_length, printed, c->printed_room, said, c->said_room,
                                   answer);
        break;
    case VERDICT:
        EXPORT(mencius_judge_verdict)(module, judge, printed, c->printed_room, said, c->said_room, answer);
        break;
    }
    const uint8_t *memory = EXPORT(memory)(module)->data;
    memcpy(c->answer, memory + answer, sizeof *c->answer);
    if (c->answer->printed <= c->printed_room) memcpy(c->printed, memory + printed, c->answer->printed);
    if (c->answer->said <= c->said_room) memcpy(c->said, memory + said, c->answer->said);
    const uint64_t rooms[] = {words, input, printed, said, answer};
    for (size_t i = 0; i < sizeof rooms / sizeof *rooms; i++)
        if (rooms[i]) EXPORT(mencius_give)(module, rooms[i]);
}

/* The answer of a call that could not go on. */
static void answer_without_module(const struct call *c, int reason)
{
    static const char head[] = "mencius: fault 26 NoMemory\nmencius: the module stopped: ";
    const char *why = reason == NO_MEMORY ? "the module has no memory" : wasm_rt_strerror((wasm_rt_trap_t)reason);
    size_t length = sizeof head - 1 + strlen(why) + 1;
    *c->answer = (struct mencius_answer){.status = 5, .said = length, .asked = 1};
    if (length > c->said_room) return;
    memcpy(c->said, head, sizeof head - 1);
    memcpy(c->said + sizeof head - 1, why, strlen(why));
    c->said[length - 1] = '\n';
}

static void try_to_call(instance *module, const struct call *c)
{
    jmp_buf place;
    int reason = setjmp(place);
    if (reason) {
        answer_without_module(c, reason);
        return;
    }
    way_out = &place;
    INSTANTIATE(module);
    EXPORT(memory)(module)->max_pages = MOST_PAGES;
    call_module(module, 0, c);
}

static void run(const struct call *c)
{
    instance module;
    memset(&module, 0, sizeof module);
    pthread_once(&is_started, start);
    try_to_call(&module, c);
    FREE(&module);
}

__attribute__((visibility("default")))
void mencius_call(const uint8_t *words, size_t words_length, const uint8_t *input, size_t input_length,
                  uint8_t *printed, size_t printed_room, uint8_t *said, size_t said_room,
                  struct mencius_answer *answer)
{
    run(&(struct call){CALL, words, words_length, input, input_length, printed, said, printed_room, said_room, answer});
}

__attribute__((visibility("default")))
void mencius_state(const uint8_t *input, size_t input_length, uint8_t *printed, size_t printed_room, uint8_t *said,
                   size_t said_room, struct mencius_answer *answer)
{
    run(&(struct call){STATE, NULL, 0, input, input_length, printed, said, printed_room, said_room, answer});
}

/* A judge has an instance of the module of its own. */
enum { JUDGE_SIZE = 16 };

struct held {
    instance module;
    uint64_t judge; /* its address in the memory of the module */
    int reason;     /* why the module stopped, or 0 */
};

static void begin(struct held *held, int is_brief, int is_json)
{
    jmp_buf place;
    held->reason = setjmp(place);
    if (held->reason) return;
    way_out = &place;
    INSTANTIATE(&held->module);
    EXPORT(memory)(&held->module)->max_pages = MOST_PAGES;
    held->judge = room(&held->module, JUDGE_SIZE);
    memset(EXPORT(memory)(&held->module)->data + held->judge, 0, JUDGE_SIZE);
    EXPORT(mencius_judge_begin)(&held->module, held->judge, is_brief, is_json);
}

static void ask(struct held *held, const struct call *c)
{
    jmp_buf place;
    if (!held) {
        *c->answer = (struct mencius_answer){.status = 5};
        return;
    }
    int reason = held->reason;
    if (!reason && !(reason = setjmp(place))) {
        way_out = &place;
        call_module(&held->module, held->judge, c);
        return;
    }
    held->reason = reason;
    answer_without_module(c, reason);
    c->answer->asked = 0;
}

__attribute__((visibility("default")))
void mencius_judge_free(struct mencius_judge *judge)
{
    struct held *held = judge->state;
    if (held) {
        FREE(&held->module);
        free(held);
    }
    memset(judge, 0, sizeof *judge);
}

__attribute__((visibility("default")))
void mencius_judge_begin(struct mencius_judge *judge, uint8_t is_brief, uint8_t is_json)
{
    mencius_judge_free(judge);
    pthread_once(&is_started, start);
    struct held *held = calloc(1, sizeof *held);
    if (!held) return;
    begin(held, is_brief, is_json);
    judge->is_begun = 1;
    judge->state = held;
}

__attribute__((visibility("default")))
void mencius_judge_take(struct mencius_judge *judge, const uint8_t *bytes, size_t bytes_length, uint8_t *printed,
                        size_t printed_room, uint8_t *said, size_t said_room, struct mencius_answer *answer)
{
    ask(judge->state,
        &(struct call){TAKE, NULL, 0, bytes, bytes_length, printed, said, printed_room, said_room, answer});
}

__attribute__((visibility("default")))
void mencius_judge_verdict(struct mencius_judge *judge, uint8_t *printed, size_t printed_room, uint8_t *said,
                           size_t said_room, struct mencius_answer *answer)
{
    ask(judge->state, &(struct call){VERDICT, NULL, 0, NULL, 0, printed, said, printed_room, said_room, answer});
}
