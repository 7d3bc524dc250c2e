/* ask_cases.c: the program ask as a process, against what the evaluator says it prints, byte for byte.
 *
 *     ask_cases COMMAND...
 *
 * COMMAND is the program, with an emulator in front of it where one is needed. NISHKAVEL_SEED and NISHKAVEL_ASKS in the environment set the seed and the number
 * of random inputs.
 */
#define _DEFAULT_SOURCE
#include "generate.h"

#include <errno.h>
#include <inttypes.h>
#include <signal.h>
#include <stdio.h>
#include <stdlib.h>
#include <string.h>
#include <sys/wait.h>
#include <time.h>
#include <unistd.h>

enum { INPUT = 200000 };

static struct source source, *const r = &source;
static char **command;
static uint64_t seed, runs;
static uint8_t input[INPUT];
static size_t input_len;

/* A pause of a few thousandths of a second. */
static void pause_a_little(void)
{
    struct timespec t = {0, 3000000};
    nanosleep(&t, NULL);
}

/* The input into the pipe, in pieces with pauses between them, or in one. A program that has seen enough may close its end. */
static void feed(int to, size_t pieces)
{
    size_t at = 0;
    for (size_t k = 1; k <= pieces && at < input_len; k++) {
        size_t end = k == pieces ? input_len : at + below(r, input_len - at + 1);
        while (at < end) {
            ssize_t wrote = write(to, input + at, end - at);
            if (wrote < 0 && errno == EPIPE) return;
            if (wrote > 0) at += (size_t)wrote;
        }
        if (pieces > 1) pause_a_little();
    }
}

/* Starts the program with pipes on both ends. */
static pid_t start(int *to, int *from)
{
    int in[2], out[2];
    if (pipe(in) != 0 || pipe(out) != 0) perror("ask_cases: pipe"), exit(1);
    pid_t child = fork();
    if (child < 0) perror("ask_cases: fork"), exit(1);
    if (child == 0) {
        dup2(in[0], 0);
        dup2(out[1], 1);
        close(in[0]), close(in[1]), close(out[0]), close(out[1]);
        signal(SIGPIPE, SIG_DFL);
        execvp(command[0], command);
        _exit(127);
    }
    close(in[0]), close(out[1]);
    *to = in[1], *from = out[0];
    return child;
}

/* All that the program prints. The longest output fits into a pipe, so that it may wait there until the input is written. */
static size_t run(char *text, size_t room, size_t pieces)
{
    int to, from, status;
    size_t length = 0;
    pid_t child = start(&to, &from);
    feed(to, pieces);
    close(to);
    for (ssize_t got; length < room && (got = read(from, text + length, room - length)) > 0;) length += (size_t)got;
    close(from);
    waitpid(child, &status, 0);
    if (!WIFEXITED(status) || WEXITSTATUS(status) == 127) printf("ask_cases: %s did not run to its end\n", command[0]), exit(1);
    return length;
}

/* One input, compared; a mismatch ends the run. */
static void compare(const char *what, size_t pieces)
{
    static char right[ASK_ROOM], got[ASK_ROOM];
    size_t length = expected_ask(input, input_len, right);
    size_t printed = run(got, sizeof got, pieces);
    runs++;
    if (printed == length && memcmp(got, right, length) == 0) return;
    printf("ask_cases: MISMATCH, %s, seed %" PRIu64 ", run %" PRIu64 "\n  input, %zu bytes:", what, seed, runs, input_len);
    for (size_t k = 0; k < input_len && k < 10000; k++) printf(" %02x", input[k]);
    printf("\n  right:\n%.*s  printed:\n%.*s", (int)length, right, (int)printed, got);
    exit(1);
}

/* One packet more at the end of the input. */
static void add_document(const struct document *d, int wrong)
{
    input_len += wrong ? damage_document(r, d, input + input_len) : put_document(d, input + input_len);
}

static void add_pattern(const struct pattern *p, int wrong)
{
    input_len += wrong ? damage_pattern(r, p, input + input_len) : put_pattern(p, input + input_len);
}

/* A document, a view and a query, at times with one packet damaged, the end cut off or bytes added. */
static void random_input(void)
{
    static struct document d;
    static struct pattern v, q;
    struct palette c;
    make_palette(r, &c);
    make_document(r, &c, chance(r, 90) ? between(r, 1, 60) : between(r, 61, 2048), &d);
    if (chance(r, 60)) make_served(r, &c, &q, &v);
    else if (chance(r, 50)) make_met(r, &d, between(r, 1, 5), &v), q = v, alter(r, &c, &q);
    else make_pattern(r, &c, between(r, 1, 40), &v), make_pattern(r, &c, between(r, 1, 40), &q);
    size_t wrong = chance(r, 60) ? 0 : between(r, 1, 7);
    input_len = 0;
    add_document(&d, wrong == 1 || wrong == 4);
    add_pattern(&v, wrong == 2 || wrong == 4 || wrong == 5);
    add_pattern(&q, wrong == 3 || wrong == 5);
    if (wrong == 6) input_len = below(r, input_len);
    if (wrong == 7 || chance(r, 4)) input[input_len++] = (uint8_t)draw(r);
}

/* The largest right input, 8,715 bytes, and the same with more behind it. */
static void largest_input(size_t more)
{
    static struct document d;
    static struct pattern v, q;
    struct palette c = {2, {1, 65535}};
    make_document(r, &c, 2048, &d);
    make_met(r, &d, 64, &v);
    make_met(r, &d, 64, &q);
    input_len = 0;
    add_document(&d, 0);
    add_pattern(&v, 0);
    add_pattern(&q, 0);
    for (size_t k = 0; k < more; k++) input[input_len++] = (uint8_t)draw(r);
}

/* Every node an answer of both: the longest output there is. */
static void longest_output(void)
{
    static struct document d;
    static const struct pattern all = {1, 0, {255}, {1}, {65535}};
    struct palette c = {1, {65535}};
    make_document(r, &c, 2048, &d);
    input_len = 0;
    add_document(&d, 0);
    add_pattern(&all, 0);
    add_pattern(&all, 0);
}

/* Every way to cut a short right input off, and nothing at all. */
static void every_cut(void)
{
    static const uint8_t line[] = {1, 0, 28, 255, 255, 0, 1, 0, 0, 0, 2, 0, 1, 0, 5, 0, 1, 0, 3, 0, 3, 0, 4, 0, 0, 0, 2, 0, 5, 0, 3, /* the document */
                                   1, 0, 9,  1,   255, 1, 0, 2, 0, 1, 0, 3,                                                          /* //strip//frame */
                                   1, 0, 13, 1,   255, 1, 0, 2, 0, 1, 0, 3, 1, 0, 0, 4};                                             /* //strip//frame[pose] */
    memcpy(input, line, sizeof line);
    for (input_len = 0; input_len <= sizeof line; input_len++) compare("flight line seven cut off", 1);
    input_len = sizeof line;
    for (size_t pieces = 2; pieces <= 8; pieces += 2) compare("flight line seven in pieces", pieces);
}

/* A number from the environment. */
static uint64_t setting(const char *name, uint64_t usual)
{
    const char *text = getenv(name);
    return text && *text ? strtoull(text, NULL, 0) : usual;
}

int main(int argc, char **argv)
{
    static const size_t more[] = {0, 0, 1, 2, 260, 10000, 70000, 150000};
    if (argc < 2) return fprintf(stderr, "ask_cases COMMAND...\n"), 2;
    command = argv + 1;
    seed = setting("NISHKAVEL_SEED", 7);
    uint64_t asks = setting("NISHKAVEL_ASKS", 400);
    printf("ask_cases: seed %" PRIu64 ", %" PRIu64 " random inputs\n", seed, asks);
    fflush(stdout);
    signal(SIGPIPE, SIG_IGN);
    sow(r, seed);
    every_cut();
    for (size_t k = 0; k < sizeof more / sizeof more[0]; k++) largest_input(more[k]), compare("the largest input", k % 2 ? 4 : 1);
    longest_output();
    compare("the longest output", 1);
    for (uint64_t k = 0; k < asks; k++) random_input(), compare("a random input", k % 20 == 0 ? between(r, 2, 6) : 1);
    printf("ask_cases: %" PRIu64 " runs, seed %" PRIu64 ": all equal\n", runs, seed);
    return 0;
}
