/* Times GEOS on pairs of geometries.
 *
 *     any_geos <PAIRS     a line for each pair: its name and both as well-known text, with tabs between
 *
 * writes a line for each pair, with tabs between: its name, the nine letters of its matrix, and for each of the calls
 * below the nanoseconds of one call, by the clock and of the processor. Reading the texts isn't in them, and preparing
 * a geometry only where the call says so. Each call is repeated for a while, and its fastest batch counts. */
#define _POSIX_C_SOURCE 200809L
#include <geos_c.h>
#include <stdarg.h>
#include <stdio.h>
#include <stdlib.h>
#include <string.h>
#include <time.h>

/* A batch takes as long at least, and all batches of a call about as long at most; a few are enough. */
static const double BATCH_NANOSECONDS = 10e6, ALL_NANOSECONDS = 1e9;
static const int MOST_BATCHES = 6;

struct pair {
    GEOSContextHandle_t context;
    GEOSGeometry *first, *second;
    const GEOSPreparedGeometry *prepared;
    /* Of what the calls answer, so that none can be left out. */
    unsigned long sum;
};

struct cost {
    double clock, processor;
};

typedef void call(struct pair *pair);

static void relate(struct pair *pair) {
    char *matrix = GEOSRelate_r(pair->context, pair->first, pair->second);
    pair->sum += (unsigned char)matrix[0];
    GEOSFree_r(pair->context, matrix);
}

static void intersects(struct pair *pair) {
    pair->sum += (unsigned char)GEOSPreparedIntersects_r(pair->context, pair->prepared, pair->second);
}

static void contains(struct pair *pair) {
    pair->sum += (unsigned char)GEOSPreparedContains_r(pair->context, pair->prepared, pair->second);
}

static void touches(struct pair *pair) {
    pair->sum += (unsigned char)GEOSPreparedTouches_r(pair->context, pair->prepared, pair->second);
}

static void prepare_and_intersects(struct pair *pair) {
    const GEOSPreparedGeometry *prepared = GEOSPrepare_r(pair->context, pair->first);
    pair->sum += (unsigned char)GEOSPreparedIntersects_r(pair->context, prepared, pair->second);
    GEOSPreparedGeom_destroy_r(pair->context, prepared);
}

static call *const CALLS[] = {relate, intersects, contains, touches, prepare_and_intersects};

static double nanoseconds(clockid_t clock) {
    struct timespec now;
    clock_gettime(clock, &now);
    return 1e9 * (double)now.tv_sec + (double)now.tv_nsec;
}

static struct cost batch(call *called, struct pair *pair, long times) {
    const double clock = nanoseconds(CLOCK_MONOTONIC), processor = nanoseconds(CLOCK_THREAD_CPUTIME_ID);
    for (long i = 0; i < times; i++) called(pair);
    return (struct cost){nanoseconds(CLOCK_MONOTONIC) - clock, nanoseconds(CLOCK_THREAD_CPUTIME_ID) - processor};
}

/* What one call costs. The first one, which may build an index, is in no batch. */
static struct cost cost_of(call *called, struct pair *pair) {
    long times = 1;
    called(pair);
    struct cost best = batch(called, pair, times);
    while (best.processor < BATCH_NANOSECONDS) best = batch(called, pair, times *= 2);
    const double more = ALL_NANOSECONDS / best.processor;
    for (int i = 0; i < MOST_BATCHES && i < more; i++) {
        const struct cost next = batch(called, pair, times);
        if (next.clock < best.clock) best.clock = next.clock;
        if (next.processor < best.processor) best.processor = next.processor;
    }
    return (struct cost){best.clock / (double)times, best.processor / (double)times};
}

static void measure(struct pair *pair, const char *name) {
    char *matrix = GEOSRelate_r(pair->context, pair->first, pair->second);
    printf("%s\t%s", name, matrix);
    GEOSFree_r(pair->context, matrix);
    for (size_t i = 0; i < sizeof CALLS / sizeof *CALLS; i++) {
        const struct cost cost = cost_of(CALLS[i], pair);
        printf("\t%.0f\t%.0f", cost.clock, cost.processor);
    }
    printf("\n");
    fflush(stdout);
}

static void say(const char *format, ...) {
    va_list words;
    va_start(words, format);
    fprintf(stderr, "any_geos: ");
    vfprintf(stderr, format, words);
    fprintf(stderr, "\n");
    va_end(words);
}

static GEOSGeometry *geometry_of(GEOSContextHandle_t context, const char *text) {
    GEOSWKTReader *reader = GEOSWKTReader_create_r(context);
    GEOSGeometry *geometry = GEOSWKTReader_read_r(context, reader, text);
    GEOSWKTReader_destroy_r(context, reader);
    if (!geometry) exit(1);
    return geometry;
}

/* Measures the pair of a line. */
static void measure_line(GEOSContextHandle_t context, char *line) {
    const char *name = strtok(line, "\t"), *first = strtok(NULL, "\t"), *second = strtok(NULL, "\t\n");
    if (!second) {
        say("a line without two texts");
        exit(1);
    }
    struct pair pair = {context, geometry_of(context, first), geometry_of(context, second), NULL, 0};
    pair.prepared = GEOSPrepare_r(context, pair.first);
    measure(&pair, name);
    GEOSPreparedGeom_destroy_r(context, pair.prepared);
    GEOSGeom_destroy_r(context, pair.first);
    GEOSGeom_destroy_r(context, pair.second);
}

int main(void) {
    GEOSContextHandle_t context = GEOS_init_r();
    GEOSContext_setErrorHandler_r(context, say);
    char *line = NULL;
    size_t room = 0;
    while (getline(&line, &room, stdin) > 0) measure_line(context, line);
    free(line);
    GEOS_finish_r(context);
    return 0;
}
