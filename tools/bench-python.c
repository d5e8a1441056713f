/* One turn of tools/bench-python in C: KIND FILE PLACES prints the records, the milliseconds from the file's name to six new columns
 * of so many places filled by one call, and those of the same call over the columns once more. */
#include <fcntl.h>
#include <stdio.h>
#include <stdlib.h>
#include <sys/mman.h>
#include <sys/stat.h>
#include <time.h>

#include "chemstation.h"

struct run {
    const uint8_t *bytes;
    size_t length, header[5];
    double numbers[6];
    size_t counts[4];
    uint32_t stored_time;
    uint8_t reading;
};

struct columns {
    double *time, *axis, *unscaled, *scaled;
    uint32_t *minutes, *leftover;
};

static double milliseconds(void) {
    struct timespec now;
    clock_gettime(CLOCK_MONOTONIC, &now);
    return (double)now.tv_sec * 1e3 + (double)now.tv_nsec * 1e-6;
}

static bool open_run(uint8_t kind, const char *name, struct run *run) {
    size_t starts[8], lengths[8];
    double corrections[4];
    struct stat file;
    int at = open(name, O_RDONLY);
    if (at < 0 || fstat(at, &file) != 0)
        return false;
    run->length = (size_t)file.st_size;
    run->bytes = mmap(NULL, run->length, PROT_READ, MAP_PRIVATE, at, 0);
    return run->bytes != MAP_FAILED && chemstation_open(kind, run->bytes, run->length, true, run->header, corrections, starts, lengths,
                                                        run->numbers, run->counts, &run->stored_time, &run->reading) == CHEMSTATION_GIVEN;
}

static struct columns allocated(size_t places) {
    size_t doubles = places * sizeof(double), wholes = places * sizeof(uint32_t);
    return (struct columns){malloc(doubles), malloc(doubles), malloc(doubles), malloc(doubles), malloc(wholes), malloc(wholes)};
}

/* The records; the state in `run` stays. */
static size_t fill(struct run run, struct columns c, size_t places) {
    size_t given[2], size = run.header[CHEMSTATION_SIZE];
    chemstation_fill(run.numbers, run.counts, &run.stored_time, run.reading, run.bytes + size, run.length - size, true, c.time, places, c.axis,
                     places, c.unscaled, places, c.scaled, places, c.minutes, places, c.leftover, places, given);
    return given[CHEMSTATION_RECORDS];
}

int main(int count, char **words) {
    struct run run;
    double start = milliseconds();
    if (count != 4 || !open_run((uint8_t)atoi(words[1]), words[2], &run))
        return 1;
    size_t places = strtoul(words[3], NULL, 10);
    struct columns columns = allocated(places);
    size_t records = fill(run, columns, places);
    double first = milliseconds();
    fill(run, columns, places);
    printf("%zu %.6f %.6f\n", records, first - start, milliseconds() - first);
    return 0;
}
