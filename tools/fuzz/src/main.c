/* Calls of libgurthapen.a at random: see tools/fuzz/README.md. */
#define _GNU_SOURCE
#include "calls.h"

#include <signal.h>
#include <stdio.h>
#include <stdlib.h>
#include <string.h>
#include <sys/time.h>
#include <time.h>
#include <unistd.h>

static const struct {
    const char *name;
    void (*try)(void);
} calls[CALLS] = {
#define X(name) {#name, try_##name},
    EVERY_CALL(X)
#undef X
};

/* Document 01's order of the refusals. */
static const int order[] = {2, 1, 3, 5, 6, 7, 8, 9, 10, 11, 12, 4};
enum { ANSWERS = 13 };

static uint64_t seed, counts[CALLS][ANSWERS];
static volatile uint64_t made;             /* calls so far */
static volatile sig_atomic_t inside, slow; /* a call runs; ticks that it has run for */
static volatile enum which current;

/* Says where it happened; for a signal's handler too. */
static void say(const char *what, const char *which) {
    char text[400];
    int n = snprintf(text, sizeof text, "fuzz: %s (%s): gurthapen_%s, call %llu of seed %llu\n", what, which, calls[current].name, (unsigned long long)made,
                     (unsigned long long)seed);
    if (write(2, text, (size_t)n) < 0)
        _exit(3);
}

void wrong(const char *what, const char *which) {
    say(what, which);
    exit(1);
}

void enter(enum which call) {
    before_the_call();
    current = call;
    made++;
    slow = 0;
    inside = 1;
}

uint32_t leave(uint32_t answer, uint32_t want) {
    char said[80];
    inside = 0;
    after_the_call(answer);
    if (answer != want) {
        snprintf(said, sizeof said, "%lu, not %lu", (unsigned long)answer, (unsigned long)want);
        wrong("the answer is not the one of document 01's rule", said);
    }
    counts[current][answer]++;
    return answer;
}

static void trapped(int number) {
    say(inside ? "a trap in a call" : "a trap in this program", number == SIGSEGV ? "SIGSEGV" : number == SIGBUS ? "SIGBUS" : "another signal");
    _exit(1);
}

/* A tick is a second of this process' own time, so that other work on the machine makes no call slow. */
static void tick(int number) {
    (void)number;
    if (inside && ++slow > 2) {
        say("a call took more than 2 seconds", "hang");
        _exit(1);
    }
}

static void watch(void) {
    static char stack[65536];
    static const int traps[] = {SIGSEGV, SIGBUS, SIGILL, SIGFPE, SIGABRT};
    stack_t other = {.ss_sp = stack, .ss_size = sizeof stack};
    struct sigaction on_trap = {.sa_handler = trapped, .sa_flags = SA_ONSTACK}, on_tick = {.sa_handler = tick, .sa_flags = SA_RESTART};
    struct itimerval second = {{1, 0}, {1, 0}};
    size_t i;
    sigaltstack(&other, NULL);
    for (i = 0; i < sizeof traps / sizeof traps[0]; i++)
        sigaction(traps[i], &on_trap, NULL);
    sigaction(SIGVTALRM, &on_tick, NULL);
    setitimer(ITIMER_VIRTUAL, &second, NULL);
}

/* Which call comes next. A pulse word or a round trip takes a hundred times as long as a symbol, so these calls are made less often. */
static enum which some_call(void) {
    enum which call = (enum which)below(CALLS);
    int long_one = call == CALL_decode_pulses || call == CALL_encode_pulses || call == CALL_alg_unquant || call == CALL_round_trip;
    return long_one && !one_in(4) ? (enum which)below(CALL_laplace_encode + 1) : call;
}

static void report(void) {
    uint64_t all = 0, answered = 0;
    size_t i, j;
    printf("%-34s %10s %10s %7s  refused as\n", "call", "made", "answered", "share");
    for (i = 0; i < CALLS; i++) {
        uint64_t n = 0;
        for (j = 0; j < ANSWERS; j++)
            n += counts[i][j];
        all += n;
        answered += counts[i][0];
        printf("gurthapen_%-24s %10llu %10llu %6.1f%% ", calls[i].name, (unsigned long long)n, (unsigned long long)counts[i][0],
               n == 0 ? 0.0 : 100.0 * (double)counts[i][0] / (double)n);
        for (j = 0; j < sizeof order / sizeof order[0]; j++)
            if (counts[i][order[j]] != 0)
                printf(" %d: %llu", order[j], (unsigned long long)counts[i][order[j]]);
        printf("\n");
    }
    printf("of the lister's %llu answers %llu are allocations\n", (unsigned long long)listings, (unsigned long long)allocations);
    printf("round trips: %llu agreed, %llu not closed, refused by new %llu, a symbol %llu, the allocation %llu, close %llu\n", (unsigned long long)agreed,
           (unsigned long long)not_closed, (unsigned long long)refused_by[0], (unsigned long long)refused_by[1], (unsigned long long)refused_by[2],
           (unsigned long long)refused_by[3]);
    printf("%-34s %10llu %10llu %6.1f%%\n", "all", (unsigned long long)all, (unsigned long long)answered, 100.0 * (double)answered / (double)all);
}

/* The number after an option. */
static uint64_t value_of(const char *option, const char *text) {
    char *end;
    unsigned long long v;
    if (text == NULL || *text < '0' || *text > '9' || (v = strtoull(text, &end, 10), *end != 0)) {
        fprintf(stderr, "fuzz: %s takes a number\n", option);
        exit(2);
    }
    return v;
}

int main(int argc, char **argv) {
    uint64_t most = 1000000;
    int i;
    seed = (uint64_t)time(NULL);
    for (i = 1; i < argc; i += 2)
        if (strcmp(argv[i], "--seed") == 0)
            seed = value_of(argv[i], argv[i + 1]);
        else if (strcmp(argv[i], "--calls") == 0)
            most = value_of(argv[i], argv[i + 1]);
        else {
            fprintf(stderr, "fuzz: --seed N and --calls N are all there is\n");
            return 2;
        }
    printf("fuzz: seed %llu, %llu calls\n", (unsigned long long)seed, (unsigned long long)most);
    fflush(stdout);
    begin_chance(seed);
    watch();
    while (made < most) {
        new_mood();
        calls[some_call()].try();
        take_back();
    }
    report();
    printf("%llu calls, nothing wrong\n", (unsigned long long)made);
    return 0;
}
