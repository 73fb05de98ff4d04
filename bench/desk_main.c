/* Times the desk program beside its rival, as processes; sheets are compared before anything is timed.
   Usage: desk_main write DIR SHARE                  writes the streams to DIR, a SHARE-th of each, and tells their commands; with 0 only how they begin
          desk_main compare DIR OURS RIVAL JOB..     sheets of both on the streams, on random small jobs and on the jobs named
          desk_main time DIR OURS RIVAL [BEFORE]     times, ratios and rates; BEFORE is an older desk program */
#define _GNU_SOURCE
#include "rival.h"
#include <fcntl.h>
#include <sched.h>
#include <spawn.h>
#include <stdio.h>
#include <stdlib.h>
#include <string.h>
#include <sys/resource.h>
#include <sys/stat.h>
#include <sys/wait.h>
#include <unistd.h>

extern char **environ;

/* Turns of each program on each stream, an odd number; the older one, which is slow, takes every other. */
enum { TURNS = 3, RANDOM_JOBS = 3000 };
/* The plan of all streams. */
enum { N = 16, T = 2048, PLACES = N * T };

typedef enum { SYMBOLS, RISING, MARKS, SYMBOLS_MARKS, RUNS, SHOWS, SYMBOLS_SHOWS, BLOCKS, STREAMS } stream;
static const char *const stream_names[STREAMS] = {"03", "03_rising", "04", "03_04", "05", "08", "03_08", "blocks"};
/* Commands of each; of the last, blocks. Times of a start, some 0.5 ms, are a hundredth or less of what a stream takes. */
static const size_t stream_counts[STREAMS] = {10000000, 10000000, 12000000, 6000000, 8000000, 5000000, 5000000, 300};
/* A block: a plan, a symbol at each place, marks, then 06, 07 and 08. */
enum { BLOCK_MARKS = 2 * T - 1, BLOCK_COMMANDS = 1 + PLACES + BLOCK_MARKS + 3 };

static void fail(const char *what, const char *where) {
    printf("FAILED: %s: %s\n", where, what);
    exit(1);
}

static uint64_t seed = 1;

/* A number below m, or 0 if there is none (splitmix64). */
static size_t below(size_t m) {
    uint64_t z = (seed += 0x9e3779b97f4a7c15u);
    z = (z ^ z >> 30) * 0xbf58476d1ce4e5b9u;
    z = (z ^ z >> 27) * 0x94d049bb133111ebu;
    return m == 0 ? 0 : (size_t)((z ^ z >> 31) % m);
}

/* ---- commands ---- */

static FILE *job;

static void put_byte(size_t x) {
    putc_unlocked((int)(x & 255), job);
}

static void put_word(size_t x) {
    put_byte(x);
    put_byte(x >> 8);
}

/* A command whose first operand is a byte, and one whose first operand is a word. */
static void put_plan(size_t command, size_t n, size_t t) {
    put_byte(command);
    put_byte(n);
    put_word(t);
}

static void put_place(size_t command, size_t c) {
    put_byte(command);
    put_word(c);
}

static void put_symbol(size_t c, size_t v) {
    put_place(0x03, c);
    put_byte(v);
}

static void put_run(size_t c, size_t m) {
    put_place(0x05, c);
    put_word(m);
}

/* ---- streams ---- */

static size_t root(uint16_t *parent, size_t r) {
    while (parent[r] != r) r = parent[r] = parent[parent[r]];
    return r;
}

/* 2t - 1 marks that can be recovered: two neighbouring sections but for one symbol, or random places that close no ring. */
static void choose_marks(uint8_t *marked, int scattered) {
    memset(marked, 0, PLACES);
    if (!scattered) {
        size_t first = below(N - 1) * T;
        memset(marked + first, 1, 2 * T);
        marked[first + below(2 * T)] = 0;
        return;
    }
    static uint16_t parent[2 * T];
    for (size_t r = 0; r < 2 * T; r++) parent[r] = (uint16_t)r;
    for (size_t count = 0; count < BLOCK_MARKS;) {
        size_t c = below(PLACES), k = c % T, a = root(parent, k), b = root(parent, T + (k + T - c / T) % T);
        if (a == b) continue;
        parent[a] = (uint16_t)b;
        marked[c] = 1;
        count++;
    }
}

/* A codeword put down symbol by symbol, its marks in rising order, recovered, sealed again, and one symbol shown. */
static void put_block(int scattered) {
    static uint8_t message[PLACES], block[PLACES], marked[PLACES];
    fumizhaki_plan plan = {N, T, {0}};
    size_t length = PLACES - (2 * T - 1);
    for (size_t j = 0; j < N; j++) plan.shifts[j] = (uint16_t)j;
    for (size_t i = 0; i < length; i++) message[i] = (uint8_t)below(256);
    if (rival_encode(&plan, message, length, block, PLACES) != 0) fail("cannot encode", "blocks");
    choose_marks(marked, scattered);
    put_plan(0x0A, N, T);
    for (size_t c = 0; c < PLACES; c++) put_symbol(c, block[c]);
    for (size_t c = 0; c < PLACES; c++)
        if (marked[c]) put_place(0x04, c);
    put_byte(0x06);
    put_byte(0x07);
    put_place(0x08, below(PLACES));
}

static void put_stream(stream s, size_t count) {
    seed = 1;
    put_plan(0x0A, N, T);
    /* What is shown is a full block: numbers of one, two and three digits, as they come. */
    for (size_t c = 0; c < PLACES && (s == SHOWS || s == SYMBOLS_SHOWS); c++) put_symbol(c, below(256));
    for (size_t i = 0; i < count; i++) {
        size_t c = below(PLACES);
        if (s == SYMBOLS || (s == SYMBOLS_MARKS && below(2)) || (s == SYMBOLS_SHOWS && below(4)))
            put_symbol(c, below(256));
        else if (s == RISING)
            put_symbol(i % PLACES, c);
        else if (s == MARKS || s == SYMBOLS_MARKS)
            put_place(0x04, c);
        else if (s == RUNS) {
            size_t m = below(17);
            put_run(below(PLACES - m + 1), m);
        } else if (s == BLOCKS)
            put_block(i % 2);
        else
            put_place(0x08, c);
    }
}

static const char *path_of(const char *dir, const char *name) {
    static char path[4096];
    snprintf(path, sizeof path, "%s/%s.job", dir, name);
    return path;
}

static void open_job(const char *dir, const char *name) {
    job = fopen(path_of(dir, name), "wb");
    if (!job) fail("cannot be written", path_of(dir, name));
}

static void close_job(const char *name) {
    if (ferror(job) | fclose(job)) fail("cannot be written", name);
}

static size_t commands_of(int s, size_t count) {
    return s == BLOCKS ? count * BLOCK_COMMANDS : count;
}

static void write_streams(const char *dir, size_t share) {
    for (int s = 0; s < STREAMS; s++) {
        size_t count = share == 0 ? 0 : stream_counts[s] / share;
        open_job(dir, stream_names[s]);
        put_stream((stream)s, count);
        close_job(stream_names[s]);
        printf("%s %zu\n", stream_names[s], commands_of(s, count));
    }
}

/* ---- random small jobs ---- */

/* A number below m; sometimes one that is not. */
static size_t mostly(size_t m) {
    return below(200) ? below(m) : m + below(3);
}

/* A plan of any kind, often a small one, at times one that is refused. Gives its t and, if it has one, its n; n is 0 if there is no plan. */
static void put_random_plan(size_t *n, size_t *t) {
    size_t kind = below(4), odd = below(60) == 0;
    *n = odd ? below(40) : 2 + below(below(4) ? 5 : 31);
    *t = odd ? below(2100) : 1 + below(below(4) ? 9 : 2048 / *n);
    if (kind == 0) {
        put_plan(0x01, *n, *t);
        for (size_t j = below(*n + 1); j-- > 0;) put_plan(0x02, mostly(*n), mostly(*t));
    } else if (kind == 1) {
        if (*t < *n && below(20)) *t = *n;
        put_plan(0x0A, *n, *t);
    } else if (kind == 2) {
        static const size_t primes[] = {5, 7, 11, 13, 17, 101, 2039};
        if (below(20)) *t = primes[below(7)], *n = 3 + below(*t < 17 ? *t - 2 : 14);
        put_plan(0x0B, *n, *t);
        put_word(below(20) ? 2 + below(*t - 1 < 60 ? *t - 1 : 60) : below(65536));
    } else {
        static const size_t lengths[15] = {0, 0, 0, 7, 13, 21, 31, 48, 57, 73, 91, 120, 133, 168, 183};
        *n = below(20) ? 3 + below(12) : below(40);
        *t = *n < 15 ? lengths[*n] : 0;
        put_byte(0x0C);
        put_byte(*n);
    }
}

static void put_random_job(size_t commands) {
    size_t n = 0, t = 0;
    if (below(50)) put_random_plan(&n, &t);
    for (size_t i = 0; i < commands; i++) {
        size_t places = n * t + (n * t == 0), kind = below(100), c = below(400) ? below(places) : places + below(2);
        size_t most = places < c ? 0 : places - c;
        if (kind < 25)
            put_symbol(c, below(256));
        else if (kind < 50)
            put_place(0x04, c);
        else if (kind < 60)
            put_run(c, below(400) ? below((below(4) && most > 5 ? 5 : most) + 1) : most + below(2));
        else if (kind < 71)
            put_byte(0x06);
        else if (kind < 75)
            put_byte(0x0D);
        else if (kind < 82)
            put_byte(0x07);
        else if (kind < 92)
            put_place(0x08, c);
        else if (kind < 95)
            put_byte(0x09);
        else if (kind < 97)
            put_plan(0x02, below(100) ? below(n + (n == 0)) : n, below(100) ? below(t + (t == 0)) : t);
        else if (kind < 99 || below(20))
            put_random_plan(&n, &t);
        else
            put_byte(below(3) ? 14 * below(2) : 14 + below(242)); /* the unknown ones next to the known, or any */
    }
}

/* ---- processes ---- */

/* Starts a program on a job; its sheet goes to `out`. */
static pid_t start(const char *program, const char *path, int out) {
    posix_spawn_file_actions_t files;
    pid_t child;
    char *words[] = {(char *)(uintptr_t)program, NULL};
    posix_spawn_file_actions_init(&files);
    posix_spawn_file_actions_addopen(&files, 0, path, O_RDONLY, 0);
    posix_spawn_file_actions_adddup2(&files, out, 1);
    if (posix_spawn(&child, program, &files, NULL, words, environ) != 0) fail("cannot be run", program);
    posix_spawn_file_actions_destroy(&files);
    return child;
}

/* Waits for it and gives the milliseconds of processor time that it took. */
static double ended(pid_t child, const char *program) {
    struct rusage use;
    int status;
    if (wait4(child, &status, 0, &use) != child || status != 0) fail("does not end as it should", program);
    return (double)(use.ru_utime.tv_sec + use.ru_stime.tv_sec) * 1e3 + (double)(use.ru_utime.tv_usec + use.ru_stime.tv_usec) / 1e3;
}

/* Lines of the sheets of ours by their words, empty fetch lists once more, and refusals by their numbers. */
enum { WORDS = 10 };
static const char *const words[WORDS] = {"recovered", "loose", "crossed", "sealed", "symbol", "figures", "refused", "end", "fetch", "fetch 0"};
static size_t seen[WORDS], refused[12];

/* Takes in a part of a sheet; the front of a line is kept until the part with its rest. */
static void take_in(const char *part, size_t length) {
    static char line[16];
    static size_t column;
    for (size_t i = 0; i < length; i++) {
        if (column < sizeof line - 1) line[column++] = part[i];
        if (part[i] != '\n') continue;
        line[column] = 0;
        column = 0;
        for (int w = 0; w < WORDS; w++) seen[w] += strncmp(line, words[w], strlen(words[w])) == 0;
        if (strncmp(line, "refused ", 8) == 0) refused[strtoul(line + 8, NULL, 10) % 12]++;
    }
}

static size_t read_part(int from, char *part, size_t most) {
    size_t length = 0;
    for (ssize_t got; length < most && (got = read(from, part + length, most - length)) > 0;) length += (size_t)got;
    return length;
}

/* Both programs on one job: the sheets must be the same to the byte. They are read side by side from pipes, so none is too long. */
static void compare(const char *ours, const char *rival, const char *path) {
    static char a[65536], b[65536];
    int from[2][2];
    if (pipe2(from[0], O_CLOEXEC) | pipe2(from[1], O_CLOEXEC)) fail("no pipe", path);
    pid_t first = start(ours, path, from[0][1]), second = start(rival, path, from[1][1]);
    close(from[0][1]);
    close(from[1][1]);
    for (size_t length = 1; length > 0;) {
        length = read_part(from[0][0], a, sizeof a);
        if (read_part(from[1][0], b, sizeof b) != length || memcmp(a, b, length) != 0) fail("the sheets of the desk and the rival differ", path);
        take_in(a, length);
    }
    close(from[0][0]);
    close(from[1][0]);
    ended(first, ours);
    ended(second, rival);
}

/* The job that fails stays behind only as long as the folder does, so its number is told: it is the same in every run. */
static void compare_random(const char *dir, const char *ours, const char *rival) {
    for (size_t i = 0; i < RANDOM_JOBS; i++) {
        char name[64];
        snprintf(name, sizeof name, "random_%zu", i);
        seed = i;
        open_job(dir, name);
        put_random_job(i % 100 == 99 ? 40000 : below(80)); /* some are longer than a part of the input */
        long length = ftell(job);
        close_job(name);
        if (below(4) == 0 && truncate(path_of(dir, name), (long)below((size_t)length + 1)) != 0) fail("cannot be cut", name);
        compare(ours, rival, path_of(dir, name));
        unlink(path_of(dir, name));
    }
    for (int w = 0; w < WORDS; w++)
        if (!seen[w]) fail("no line of this kind came", words[w]);
    if (!refused[1] || !refused[2] || !refused[7] || !refused[8] || !refused[9] || !refused[10]) fail("a refusal never came", "random jobs");
    if (seen[8] == seen[9]) fail("no list with a place in it came", "random jobs");
    printf("# sheets compared on %d random jobs: recovered %zu crossed %zu loose %zu fetch %zu (empty %zu) refused %zu, no difference\n", RANDOM_JOBS, seen[0],
           seen[2], seen[1], seen[8], seen[9], seen[6]);
}

static void compare_all(const char *dir, const char *ours, const char *rival, char **jobs, int how_many) {
    compare_random(dir, ours, rival);
    for (int i = 0; i < how_many; i++) compare(ours, rival, jobs[i]);
    for (int s = 0; s < STREAMS; s++) {
        memset(seen, 0, sizeof seen);
        compare(ours, rival, path_of(dir, stream_names[s]));
        if (seen[7] != 1 || (s == BLOCKS && seen[0] != seen[3])) fail("not the expected sheet", stream_names[s]);
    }
    printf("# sheets compared on %d jobs of examples/ and all streams, no difference\n", how_many);
}

/* ---- times ---- */

enum { OURS, RIVAL, BEFORE, SIDES };
static double times[STREAMS][SIDES][TURNS]; /* sorted */

static void add_time(double *sorted, int count, double ms) {
    for (; count > 0 && sorted[count - 1] > ms; count--) sorted[count] = sorted[count - 1];
    sorted[count] = ms;
}

/* All streams once in each turn, so that a busy second spoils none; the programs take turns on each. */
static void time_all(const char *dir, char *const *programs, int sides) {
    int nowhere = open("/dev/null", O_WRONLY | O_CLOEXEC);
    for (int turn = 0; turn < TURNS; turn++)
        for (int s = 0; s < STREAMS; s++)
            for (int side = 0; side < sides; side++)
                if (side != BEFORE || turn % 2 == 0)
                    add_time(times[s][side], side == BEFORE ? turn / 2 : turn,
                             ended(start(programs[side], path_of(dir, stream_names[s]), nowhere), programs[side]));
}

static double best(int s, int side) {
    return times[s][side][0];
}

static double megabytes(const char *dir, int s) {
    struct stat file;
    if (stat(path_of(dir, stream_names[s]), &file) != 0) fail("is missing", stream_names[s]);
    return (double)file.st_size / 1e6;
}

static void print_times(const char *dir, int sides) {
    for (int s = 0; s < STREAMS; s++)
        printf("desk %s ours_ms %.1f rival_ms %.1f ratio %.2f\n", stream_names[s], best(s, OURS), best(s, RIVAL), best(s, OURS) / best(s, RIVAL));
    for (int s = 0; s < STREAMS; s++) {
        double commands = (double)commands_of(s, stream_counts[s]), size = megabytes(dir, s);
        printf("rate %s ours_ns %.1f rival_ns %.1f ours_mb_s %.0f rival_mb_s %.0f ours_median_ms %.1f rival_median_ms %.1f\n", stream_names[s],
               best(s, OURS) * 1e6 / commands, best(s, RIVAL) * 1e6 / commands, size * 1e3 / best(s, OURS), size * 1e3 / best(s, RIVAL),
               times[s][OURS][TURNS / 2], times[s][RIVAL][TURNS / 2]);
    }
    double blocks = (double)stream_counts[BLOCKS], size = megabytes(dir, BLOCKS);
    printf("block n16_t2048 rival_ms %.3f rival_mb_s %.0f ours_mb_s %.0f ours_ms %.3f\n", best(BLOCKS, RIVAL) / blocks, size * 1e3 / best(BLOCKS, RIVAL),
           size * 1e3 / best(BLOCKS, OURS), best(BLOCKS, OURS) / blocks);
    for (int s = 0; s < STREAMS && BEFORE < sides; s++)
        printf("before %s before_ms %.1f ours_ms %.1f times %.2f\n", stream_names[s], best(s, BEFORE), best(s, OURS), best(s, BEFORE) / best(s, OURS));
}

int main(int argc, char **argv) {
    setvbuf(stdout, NULL, _IOLBF, 0);
    if (argc == 4 && strcmp(argv[1], "write") == 0)
        write_streams(argv[2], strtoul(argv[3], NULL, 10));
    else if (argc >= 5 && strcmp(argv[1], "compare") == 0)
        compare_all(argv[2], argv[3], argv[4], argv + 5, argc - 5);
    else if ((argc == 5 || argc == 6) && strcmp(argv[1], "time") == 0) {
        cpu_set_t core;
        CPU_ZERO(&core);
        CPU_SET(sched_getcpu(), &core);
        sched_setaffinity(0, sizeof core, &core);
        time_all(argv[2], argv + 3, argc - 3);
        print_times(argv[2], argc - 3);
    } else
        fail("bad usage", argv[0]);
    return 0;
}
