/* cc -o caller embedding/caller.c native/libmencius.a -lm -lpthread
 *
 *     ./caller replay --strict < SCENARIO           does the same as the program
 *     ./caller --threads replay < SCENARIO          also makes 100 calls in each of four threads, on 128 kB of stack */
#define _POSIX_C_SOURCE 200809L
#include "mencius.h"
#include <pthread.h>
#include <stdio.h>
#include <stdlib.h>
#include <string.h>
#include <unistd.h>

static uint8_t *words, *input;
static size_t words_length, input_length;

struct texts {
    uint8_t *printed, *said;
    struct mencius_answer answer;
};

static uint8_t *grow(uint8_t *old, size_t room) {
    uint8_t *grown = realloc(old, room ? room : 1);
    if (!grown) {
        fputs("caller: out of memory\n", stderr);
        exit(5);
    }
    return grown;
}

/* If the texts do not fit, the second call has as much space as the first one requested. */
static void call(struct texts *t) {
    size_t printed = 65536, said = 4096;
    t->printed = grow(NULL, printed);
    t->said = grow(NULL, said);
    for (;;) {
        mencius_call(words, words_length, input, input_length, t->printed, printed, t->said, said, &t->answer);
        if (t->answer.printed <= printed && t->answer.said <= said) return;
        t->printed = grow(t->printed, printed = t->answer.printed);
        t->said = grow(t->said, said = t->answer.said);
    }
}

static void *repeat(void *wanted) {
    struct texts *first = wanted, t;
    for (int i = 0; i < 100; i++) {
        call(&t);
        if (t.answer.status != first->answer.status || t.answer.printed != first->answer.printed ||
            memcmp(t.printed, first->printed, t.answer.printed) || t.answer.said != first->answer.said ||
            memcmp(t.said, first->said, t.answer.said)) {
            fputs("caller: a thread got another answer\n", stderr);
            exit(6);
        }
        free(t.printed);
        free(t.said);
    }
    return NULL;
}

static void repeat_in_threads(struct texts *t) {
    pthread_t ids[4];
    pthread_attr_t small;
    pthread_attr_init(&small);
    pthread_attr_setstacksize(&small, 131072);
    for (int i = 0; i < 4; i++)
        if (pthread_create(&ids[i], &small, repeat, t)) exit(7);
    for (int i = 0; i < 4; i++) pthread_join(ids[i], NULL);
}

int main(int argc, char **argv) {
    int threads = argc > 1 && !strcmp(argv[1], "--threads");
    words = grow(NULL, 0);
    for (int i = 1 + threads; i < argc; i++) {
        size_t length = strlen(argv[i]) + 1;
        words = grow(words, words_length + length);
        memcpy(words + words_length, argv[i], length);
        words_length += length;
    }
    input = grow(NULL, 65536);
    for (ssize_t n; (n = read(0, input + input_length, 65536)) > 0; input = grow(input, input_length + 65536)) input_length += n;
    struct texts t;
    call(&t);
    if (threads) repeat_in_threads(&t);
    fwrite(t.printed, 1, t.answer.printed, stdout);
    fwrite(t.said, 1, t.answer.said, stderr);
    return (int)t.answer.status;
}
