/* The program `mencius` as C functions. mencius_call does the work of the program on bytes in memory, and mencius_state
 * returns what each server of a cluster knows after a schedule. The functions that begin with mencius_judge_ judge a
 * log that arrives in pieces.
 *
 * The functions use no file, no clock and no environment variable. They access the memory that you pass to them, and
 * memory from malloc and realloc, which they free before they return, except the memory of a judge. They keep no state
 * between calls, except in a judge. So several threads may call them at the same time, if no two calls share an output
 * buffer, an answer or a judge. A call needs 128 kB of stack. Do not call these functions from a signal handler.
 *
 * Link with libmencius.a or libmencius.so, and with the C library only. docs/EMBEDDING.md explains how. */
#ifndef MENCIUS_H
#define MENCIUS_H

#include <stddef.h>
#include <stdint.h>

#ifdef __cplusplus
extern "C" {
#endif

struct mencius_answer {
    uint64_t status;  /* the exit status (docs/FORMATS.md); also 5 if there was no memory for the texts */
    uint64_t printed; /* the length of the text for standard output, in bytes */
    uint64_t said;    /* the length of the text for standard error, in bytes */
    uint64_t asked;   /* 1 if the input was read, otherwise 0 */
};

/* Runs the program once.
 *
 * `words` contains the arguments after the name of the program. A zero byte ends each argument. For example,
 * "replay\0--strict\0" has 16 bytes. `input` is the standard input. Both may contain any bytes. They must not change
 * before the call returns.
 *
 * The call writes the text for standard output to `printed`, and the text for standard error to `said`. It writes a
 * text only if the whole text fits, and otherwise leaves that buffer unchanged. If a text did not fit, call again with
 * the sizes that the answer gives. The same call produces the same bytes again.
 *
 * `words_length` and `input_length` are numbers of bytes. `printed_room` and `said_room` are the sizes of the output
 * buffers, in bytes. None of the four may exceed PTRDIFF_MAX. No pointer may be null, not even for 0 bytes. The two
 * output buffers and the answer must not overlap each other, the words or the input. */
void mencius_call(const uint8_t *words, size_t words_length, const uint8_t *input, size_t input_length,
                  uint8_t *printed, size_t printed_room, uint8_t *said, size_t said_room,
                  struct mencius_answer *answer);

/* Writes to `printed` what each server knows after the events of `input`, a scenario of `replay`. The text begins with
 * a line for each refused event. For each server, it then has a line of the report, and a line for each instance that
 * the server heard of. docs/EMBEDDING.md describes these lines. In all other respects, the call works as mencius_call
 * does with the argument `trace`. */
void mencius_state(const uint8_t *input, size_t input_length, uint8_t *printed, size_t printed_room, uint8_t *said,
                   size_t said_room, struct mencius_answer *answer);

/* A judge that takes a log in pieces. You own this memory. Set all of it to zero (`struct mencius_judge judge =
 * {0};`), then call mencius_judge_begin. Only these functions may read or write it, and you may not copy it. Its calls
 * may come from several threads, one call at a time. A lock, or the start or end of a thread, must order them. */
struct mencius_judge {
    uint8_t is_begun;
    void *state;
};

/* Begins to judge a log. `is_brief` and `is_json` are 0 or 1, and stand for the options `--brief` and `--json` of
 * `mencius judge`. If `judge` already has a judge, frees it first. If there is no memory, the calls below report
 * status 5. */
void mencius_judge_begin(struct mencius_judge *judge, uint8_t is_brief, uint8_t is_json);

/* Gives the judge the next bytes of the log. A piece may end within a line. As long as the judge has no verdict, the
 * answer has the status 0, no texts, and 1 as `asked`. Once a line breaks a promise or is bad, `asked` is 0, and the
 * status and the texts are those of `mencius judge`. The judge keeps this verdict, and takes nothing more. So if a
 * text did not fit, call again with the sizes that the answer gives. Buffers and lengths are as for mencius_call. */
void mencius_judge_take(struct mencius_judge *judge, const uint8_t *bytes, size_t bytes_length, uint8_t *printed,
                        size_t printed_room, uint8_t *said, size_t said_room, struct mencius_answer *answer);

/* Reports the verdict on the log if it ends here. The judge stays the same, so it may take more bytes after that. If
 * a text did not fit, call again with the sizes that the answer gives. */
void mencius_judge_verdict(struct mencius_judge *judge, uint8_t *printed, size_t printed_room, uint8_t *said,
                           size_t said_room, struct mencius_answer *answer);

/* Frees the memory of the judge, if there is one. After that, `judge` is as before mencius_judge_begin. */
void mencius_judge_free(struct mencius_judge *judge);

#ifdef __cplusplus
}
#endif
#endif
