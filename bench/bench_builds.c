/*
 * Two builds of the shared library in turns, over some hundred headers drawn at random: is any of
 * them slower with the second than with the first? Runs are written, read as they were written, and
 * read damaged; answers, frames and slots are compared too.
 *
 *   bench_builds OLD.so NEW.so [HEADERS [SEED]]
 *
 * The last lines are the shares of calls by how long the new build takes against the old one, and
 * the worst of them, which were timed once more before they are listed.
 */
#define _POSIX_C_SOURCE 199309L /* clock_gettime */
#include <dlfcn.h>
#include <string.h>

#include "mahyrei.h"
#include "runs.h"
#include "timing.h"

enum { MARKER_MOST = 32, TURNS_LEAST = 5, TURNS_MOST = 400, WORST = 10 };
static const double LONG_ENOUGH = 4e4; /* microseconds for a call of both builds */
static const size_t BYTES_MOST = (size_t)1 << 25;
static const double SLOWER = 1.05;

typedef uint64_t run_call(const uint8_t *, size_t, const uint8_t *, size_t, const uint8_t *, size_t,
                          uint8_t *, size_t);
struct build {
    run_call *write, *read;
};

static void load(struct build *build, const char *path) {
    void *library = dlopen(path, RTLD_NOW | RTLD_LOCAL);
    require(library != NULL, "a library cannot be loaded");
    /* ISO C has no conversion from an object's address to a function's. */
    *(void **)&build->write = dlsym(library, "mahyrei_run_write");
    *(void **)&build->read = dlsym(library, "mahyrei_run_read");
    require(build->write != NULL && build->read != NULL, "a library has no run calls");
}

static uint64_t drawn;
static uint64_t below(uint64_t n) {
    drawn = drawn * UINT64_C(6364136223846793005) + UINT64_C(1442695040888963407);
    return (drawn >> 33) % n;
}

/* A header that is accepted, whose run is not too large to be timed many times. */
static struct run any_run(void) {
    static const uint64_t FACTORS[] = {1, 1, 1, 2, 3, 4, 8, 16, 32};
    for (;;) {
        struct run run = {below(3),
                          2 + below(7),
                          1,
                          1 + below(256),
                          1 + below(2048),
                          1 + below(32),
                          1 + below(64),
                          FACTORS[below(sizeof FACTORS / sizeof FACTORS[0])]};
        run.N = below(4) == 0 ? 1 : 1 + below(128);
        if (run.N * (run.N - 1) * run.B % word_symbols(&run) == 0 &&
            slot_bytes(&run) <= BYTES_MOST) {
            return run;
        }
    }
}

struct slices {
    struct run run;
    uint8_t header[MAHYREI_HEADER_BYTES], marker[MARKER_MOST];
    uint8_t *frames, *back, *slots, *out;
};

static uint64_t write_by(const struct build *build, const struct slices *s) {
    return build->write(s->header, sizeof s->header, s->marker, s->run.W, s->frames,
                        frame_bytes(&s->run), s->out, slot_bytes(&s->run));
}

static uint64_t read_by(const struct build *build, const struct slices *s) {
    return build->read(s->header, sizeof s->header, s->marker, s->run.W, s->slots,
                       slot_bytes(&s->run), s->back, frame_bytes(&s->run));
}

typedef uint64_t timed(const struct build *build, const struct slices *s);

/* How long the second build takes against the first, best turns. */
static double quotient(const struct build builds[2], const struct slices *s, timed *call) {
    double best[2] = {0}, spent = 0;
    for (int turn = 0; turn < TURNS_LEAST || (spent < LONG_ENOUGH && turn < TURNS_MOST); turn++) {
        uint64_t answers[2];
        for (int i = 0; i < 2; i++) {
            const double start = processor_now();
            answers[i] = call(&builds[i], s);
            const double took = processor_now() - start;
            best[i] = turn == 0 || took < best[i] ? took : best[i];
            spent += took;
        }
        require(answers[0] == answers[1], "the builds answer differently");
    }
    return best[1] / best[0];
}

/* What is timed of a header. */
static const char *const KINDS[] = {"written", "read", "read, some pulses moved",
                                    "read, one pulse lost"};
enum { KIND_COUNT = sizeof KINDS / sizeof KINDS[0] };

struct result {
    struct run run;
    int kind;
    double quotient;
};

/* Some symbols, or one in the middle, lose a pulse; the first kind gets it back elsewhere. */
static void damage(struct slices *s, int kind) {
    const size_t symbols = symbol_count(&s->run);
    memcpy(s->slots, s->out, slot_bytes(&s->run));
    for (size_t k = 0; k < (kind == 2 ? 1 + symbols / 50 : 1); k++) {
        const size_t symbol = kind == 2 ? below(symbols) : symbols / 2;
        const size_t start = copy_start(&s->run, symbol, below(s->run.copies));
        for (size_t q = 0; q < pulse_order(&s->run); q++) {
            if (get_bit(s->slots, start + q) == 1) {
                flip(s->slots, start + q);
                if (kind == 2) {
                    flip(s->slots, start + (q + 1) % pulse_order(&s->run));
                }
                break;
            }
        }
    }
}

static double timed_once(const struct build builds[2], struct slices *s, int kind) {
    if (kind >= 2) {
        damage(s, kind);
    } else {
        memcpy(s->slots, s->out, slot_bytes(&s->run));
    }
    return quotient(builds, s, kind == 0 ? write_by : read_by);
}

static void try_header(const struct build builds[2], struct result results[KIND_COUNT]) {
    struct slices s = {.run = any_run()};
    pack_header(&s.run, s.header);
    for (size_t i = 0; i < s.run.W; i++) {
        s.marker[i] = (uint8_t)below(pulse_order(&s.run));
    }
    s.frames = malloc(frame_bytes(&s.run));
    s.back = malloc(frame_bytes(&s.run));
    s.slots = malloc(slot_bytes(&s.run));
    s.out = malloc(slot_bytes(&s.run));
    require(s.frames != NULL && s.back != NULL && s.slots != NULL && s.out != NULL, "no memory");
    fill(s.frames, frame_bytes(&s.run));
    require(write_by(&builds[0], &s) == 0, "a run is refused");
    memcpy(s.slots, s.out, slot_bytes(&s.run));
    require(write_by(&builds[1], &s) == 0 && memcmp(s.slots, s.out, slot_bytes(&s.run)) == 0,
            "the builds write different slots");
    for (int kind = 0; kind < KIND_COUNT; kind++) {
        double worse = timed_once(builds, &s, kind);
        if (worse > SLOWER) { /* once more: the machine has other things to do */
            const double again = timed_once(builds, &s, kind);
            worse = again < worse ? again : worse;
        }
        results[kind] = (struct result){s.run, kind, worse};
    }
    free(s.frames);
    free(s.back);
    free(s.slots);
    free(s.out);
}

static int by_quotient(const void *a, const void *b) {
    const struct result *x = a, *y = b;
    return (x->quotient < y->quotient) - (x->quotient > y->quotient);
}

int main(int argc, char **argv) {
    if (argc < 3) {
        fprintf(stderr, "usage: bench_builds OLD.so NEW.so [HEADERS [SEED]]\n");
        return 2;
    }
    struct build builds[2] = {{0}};
    load(&builds[0], argv[1]);
    load(&builds[1], argv[2]);
    const size_t headers = argc > 3 ? strtoul(argv[3], NULL, 10) : 200;
    drawn = argc > 4 ? strtoull(argv[4], NULL, 10) : 1;
    struct result *results = calloc(headers * KIND_COUNT, sizeof *results);
    require(results != NULL, "no memory");
    for (size_t i = 0; i < headers; i++) {
        try_header(builds, results + i * KIND_COUNT);
    }
    const size_t count = headers * KIND_COUNT;
    qsort(results, count, sizeof *results, by_quotient);
    static const double STEPS[] = {0.5, 0.8, 0.95, 1.05, 1.2};
    for (size_t k = 0; k <= sizeof STEPS / sizeof STEPS[0]; k++) {
        const double from = k == 0 ? 0 : STEPS[k - 1];
        const double to = k < sizeof STEPS / sizeof STEPS[0] ? STEPS[k] : 1e9;
        size_t these = 0;
        for (size_t i = 0; i < count; i++) {
            these += results[i].quotient >= from && results[i].quotient < to;
        }
        printf("%s %.2f: %zu of %zu\n", to < 1e9 ? "below" : "from", to < 1e9 ? to : from, these,
               count);
    }
    for (size_t i = 0; i < WORST && i < count; i++) {
        const struct run *run = &results[i].run;
        printf("%.3f  rate %u m %u N %u B %u F %u W %u A %u factor %u  %s\n", results[i].quotient,
               (unsigned)run->rate, (unsigned)run->m, (unsigned)run->N, (unsigned)run->B,
               (unsigned)run->F, (unsigned)run->W, (unsigned)run->A, (unsigned)run->copies,
               KINDS[results[i].kind]);
    }
    free(results);
    return 0;
}
