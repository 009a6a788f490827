/* The program mencius, over a library with the calls of mencius.h:
 *
 *     mencius replay|trace|draw|check|judge|run [OPTIONS] < INPUT
 *
 * It reads and writes streams, and module/mencius.mjs does the same in node. A run has no threads, so its workers take
 * their turns one after the other. */
#define _POSIX_C_SOURCE 200809L
#include <errno.h>
#include <poll.h>
#include <signal.h>
#include <stdio.h>
#include <stdlib.h>
#include <string.h>
#include <unistd.h>

#include "mencius.h"

enum { READ_OR_WRITE_FAILED = 4, OUT_OF_MEMORY = 5 };

#define MOST 16777217ul            /* bytes that are read of a scenario: one more than the longest scenario has */
#define MOST_OF_A_LOG 2147483648ul /* bytes; a log of this length gets NoMemory, and its first part gets no verdict */

struct bytes {
    uint8_t *at;
    size_t length, room;
};

static struct bytes words, input, printed, said;
static struct mencius_answer answer;
static int is_judge;

static int write_all(int stream, const uint8_t *bytes, size_t length)
{
    while (length) {
        ssize_t count = write(stream, bytes, length);
        if (count < 0) {
            if (errno != EAGAIN && errno != EINTR) return 0;
            poll(&(struct pollfd){.fd = stream, .events = POLLOUT}, 1, 5);
            continue;
        }
        bytes += count;
        length -= (size_t)count;
    }
    return 1;
}

/* Reports a failure of reading, writing or memory in the words of the program, and ends. */
static void fail(const char *fault, int status)
{
    const char *parts[] = {"mencius: fault ", fault, "\n"};
    for (int i = 0; i < 3; i++) write_all(2, (const uint8_t *)parts[i], strlen(parts[i]));
    exit(status);
}

static void make_room(struct bytes *bytes, size_t room)
{
    if (room <= bytes->room) return;
    uint8_t *at = realloc(bytes->at, room);
    if (!at) fail("26 NoMemory", OUT_OF_MEMORY);
    bytes->at = at;
    bytes->room = room;
}

static void append(struct bytes *bytes, const void *more, size_t length)
{
    if (bytes->length + length > bytes->room) make_room(bytes, 2 * (bytes->length + length));
    memcpy(bytes->at + bytes->length, more, length);
    bytes->length += length;
}

/* Makes a call with the first `length` bytes of the input. If a text does not fit, the second call has room for it. The
 * output for a scenario is rarely longer than eight times the scenario, and the output for a log is one line. */
static void call(size_t length)
{
    make_room(&printed, 65536 + (is_judge ? 0 : 8 * length));
    make_room(&said, 4096);
    for (int i = 0; i < 2; i++) {
        mencius_call(words.at, words.length, input.at, length, printed.at, printed.room, said.at, said.room, &answer);
        if (answer.printed <= printed.room && answer.said <= said.room) return;
        make_room(&printed, answer.printed);
        make_room(&said, answer.said);
    }
}

/* Writes both texts of the answer, and ends with its status. */
static void tell(void)
{
    if (!write_all(1, printed.at, answer.printed)) fail("25 WriteFailed", READ_OR_WRITE_FAILED);
    write_all(2, said.at, answer.said);
    exit((int)answer.status);
}

/* Reads some bytes of standard input. Returns whether there were any. */
static int read_some(size_t most)
{
    uint8_t part[65536];
    for (;;) {
        ssize_t count = read(0, part, most < sizeof part ? most : sizeof part);
        if (count >= 0) {
            append(&input, part, (size_t)count);
            return count > 0;
        }
        if (errno == EAGAIN) poll(&(struct pollfd){.fd = 0, .events = POLLIN}, 1, 5);
        else if (errno != EINTR)
            fail(is_judge ? "24 ReadFailed" : "24 ReadFailed\nthe scenario could not be read to its end",
                 READ_OR_WRITE_FAILED);
    }
}

/* Whether this is one of the arguments. */
static int has_word(int argc, char **argv, const char *word)
{
    for (int i = 2; i < argc; i++)
        if (strcmp(argv[i], word) == 0) return 1;
    return 0;
}

/* Judges a log while it is read. A line is not kept after its end. */
static void judge_in_pieces(int is_brief, int is_json)
{
    struct mencius_judge judge = {0};
    mencius_judge_begin(&judge, is_brief, is_json);
    for (int is_read = 1; is_read;) {
        input.length = 0;
        is_read = read_some(65536);
        for (int i = 0; i < 2; i++) {
            if (is_read)
                mencius_judge_take(&judge, input.at, input.length, printed.at, printed.room, said.at, said.room,
                                   &answer);
            else
                mencius_judge_verdict(&judge, printed.at, printed.room, said.at, said.room, &answer);
            if (answer.printed <= printed.room && answer.said <= said.room) break;
            make_room(&printed, answer.printed);
            make_room(&said, answer.said);
        }
        if (!answer.asked) tell();
    }
}

int main(int argc, char **argv)
{
    signal(SIGPIPE, SIG_IGN);
    make_room(&input, 65536);
    make_room(&words, 1);
    for (int i = 1; i < argc; i++) append(&words, argv[i], strlen(argv[i]) + 1);
    is_judge = argc > 1 && strcmp(argv[1], "judge") == 0;
    call(0);
    if (answer.asked) {
        size_t most = is_judge ? MOST_OF_A_LOG : MOST;
        if (is_judge && !has_word(argc, argv, "--clients"))
            judge_in_pieces(has_word(argc, argv, "--brief"), has_word(argc, argv, "--json"));
        while (input.length < most && read_some(most - input.length)) continue;
        if (is_judge && input.length >= most) fail("26 NoMemory", OUT_OF_MEMORY);
        call(input.length);
    }
    tell();
}
