/* Prints a run as a table, read in parts through a buffer.
 *
 *     table [--log] KIND FILE
 *
 * KIND is a digit: 1 FID, 2 MS, 3 MWD, 4 DAD, 5 UV, 6 array. --log prints the log program's lines (README.md) in its place. The table
 * has times in minutes; for MS, DAD and UV the time as the file stores it stands behind the intensities, in whole minutes and the
 * milliseconds left over. Behind a text of which letters were replaced by U+FFFD stands how many.
 * Status: 0 the run closed with 0; 1 another answer closed it, or the output could not be written; 2 wrong usage, or a file that
 * cannot be read. */
#include <errno.h>
#include <inttypes.h>
#include <math.h>
#include <stdio.h>
#include <string.h>

#include "chemstation.h"

#define BUFFER 32768
#define ROWS 1024

static const char *const corrected[] = {"start", "end", "offset", "multiplier"};

static const char *const texts[] = {"sample", "description", "operator", "instrument", "method", "signal name", "y units", "run date"};

static const char *const meanings[] = {
    "the run ends by the rules of its kind",
    "no such kind; kinds are 1 to 6",
    "the header's size word is 0",
    "the header's size is below 512 bytes",
    "the header's size is above 20,000 bytes",
    "the edition is unknown",
    "the header is too small for its edition",
    "a text of the header is too long for its field",
    "a text of the header is not UTF-8",
    "the header is too small for an array run",
    "an array run with 2^53 scans or more",
    "an MS scan's count is below 14",
    "a UV scan's start is above its end",
    "a UV scan's step is 0",
    "the file ends inside its header or a record",
    "a lent buffer or column has the wrong length",
    "no such text; texts are 1 to 8",
    "the unscaled values do not add up in 64 bits: one is no whole number of a size below 2^53, or a sum leaves the range",
    "no atlas reading of this kind; it is for DAD and UV",
};

static const char *meaning_of(uint8_t answer) {
    return answer == CHEMSTATION_MORE_BYTES ? "too many empty MS scans in a row for the buffer" : meanings[answer];
}

/* The bytes at hand: those of the file from some position on. */
struct part {
    FILE *file;
    uint8_t bytes[BUFFER];
    size_t length;
};

struct state {
    double numbers[6];
    size_t counts[4];
    uint32_t stored_time;
    uint8_t reading;
};

struct columns {
    double time[ROWS], axis[ROWS], unscaled[ROWS], scaled[ROWS];
    uint32_t minutes[ROWS], leftover[ROWS];
};

/* The sum of the unscaled values so far; once refused it stays so. */
struct total {
    int64_t sum;
    bool refused;
};

/* Drops so many bytes and reads on until the buffer is full or the file ends. */
static bool refill(struct part *p, size_t dropped) {
    p->length -= dropped;
    memmove(p->bytes, p->bytes + dropped, p->length);
    p->length += fread(p->bytes + p->length, 1, BUFFER - p->length, p->file);
    return !ferror(p->file);
}

/* A full buffer is not taken as the file's last bytes. */
static bool last(const struct part *p) { return p->length < BUFFER; }

/* The values of an array run are not added up. */
static bool has_sum(uint8_t kind) { return kind != CHEMSTATION_ARRAY; }

/* The kinds with an axis are those with a stored time. */
static bool has_axis(uint8_t kind) { return kind == CHEMSTATION_MS || kind == CHEMSTATION_DAD || kind == CHEMSTATION_UV; }

static void put_text(const uint8_t *text, size_t length) {
    for (size_t i = 0; i < length; i++) {
        if (text[i] < 32 || text[i] == 127)
            printf("\\x%02X", text[i]);
        else
            putchar(text[i]);
    }
}

static void put_number(double x, char after) {
    if (isnan(x))
        printf("nan%c", after);
    else
        printf("%.17g%c", x, after);
}

static void put_header(uint8_t kind, const struct part *p, const size_t header[5], const double corrections[4]) {
    printf("edition\t%zu\nsize\t%zu\n", header[CHEMSTATION_EDITION], header[CHEMSTATION_SIZE]);
    printf("sequence\t%zu\nvial\t%zu\nreplicate\t%zu\n", header[CHEMSTATION_SEQUENCE], header[CHEMSTATION_VIAL],
           header[CHEMSTATION_REPLICATE]);
    for (size_t i = 0; i < 4; i++) {
        printf("%s\t", corrected[i]);
        put_number(corrections[i], '\n');
    }
    for (uint8_t number = 1; number <= 8; number++) {
        uint8_t text[1024] = {0};
        size_t length = 0, replaced = 0;
        uint8_t answer = chemstation_text(kind, number, p->bytes, header[CHEMSTATION_SIZE], text, sizeof text, &length, &replaced);
        printf("%s\t", texts[number - 1]);
        if (answer == CHEMSTATION_GIVEN)
            put_text(text, length);
        else
            printf("(%s)", meaning_of(answer));
        if (replaced > 0)
            printf("\t%zu replaced", replaced);
        putchar('\n');
    }
    printf("time\t%s\tunscaled\tscaled", kind == CHEMSTATION_MS ? "m/z" : has_axis(kind) ? "wavelength" : "-");
    printf(has_axis(kind) ? "\tminutes\tleftover\n" : "\n");
}

/* A double as the log program writes it: 16 digits of its bits, or nan. */
static void put_bits(double x) {
    unsigned long long bits;
    if (isnan(x)) {
        printf(" nan");
        return;
    }
    memcpy(&bits, &x, sizeof bits);
    printf(" %016llX", bits);
}

/* Record i as a line of the log. */
static void put_line(bool axis, const struct columns *c, size_t i) {
    putchar('r');
    put_bits(c->time[i]);
    if (axis)
        put_bits(c->axis[i]);
    else
        printf(" -");
    put_bits(c->unscaled[i]);
    put_bits(c->scaled[i]);
    putchar('\n');
}

/* Record i as a row of the table. */
static void put_row(bool axis, const struct columns *c, size_t i) {
    put_number(c->time[i], '\t');
    if (axis)
        put_number(c->axis[i], '\t');
    else
        printf("-\t");
    put_number(c->unscaled[i], '\t');
    put_number(c->scaled[i], axis ? '\t' : '\n');
    if (axis)
        printf("%" PRIu32 "\t%" PRIu32 "\n", c->minutes[i], c->leftover[i]);
}

static void add_up(struct total *t, const double *unscaled, size_t count) {
    if (!t->refused)
        t->refused = chemstation_sum(unscaled, count, &t->sum) != CHEMSTATION_GIVEN;
}

static void put_sum(bool log, const struct total *t) {
    printf(log ? "t " : "sum\t");
    if (t->refused)
        printf("-\n");
    else
        printf("%" PRId64 "\n", t->sum);
}

static int put_end(bool log, uint8_t answer, unsigned long long count) {
    if (!log)
        printf("closed\t%s\nrecords\t%llu\n", meaning_of(answer), count);
    else if (answer == CHEMSTATION_MORE_BYTES)
        printf("e m %llu\n", count);
    else
        printf("e %u %llu\n", answer, count);
    return answer == CHEMSTATION_FINISHED ? 0 : 1;
}

/* The records of the bytes at hand. */
static uint8_t fill(struct state *st, const struct part *p, struct columns *c, size_t given[2]) {
    return chemstation_fill(st->numbers, st->counts, &st->stored_time, st->reading, p->bytes, p->length, last(p), c->time, ROWS, c->axis,
                            ROWS, c->unscaled, ROWS, c->scaled, ROWS, c->minutes, ROWS, c->leftover, ROWS, given);
}

/* The records, behind the header, and their sum. */
static int put_records(bool log, uint8_t kind, struct part *p, struct state *st) {
    static struct columns c;
    struct total total = {0, false};
    unsigned long long count = 0;
    for (;;) {
        size_t given[2] = {0};
        uint8_t answer = fill(st, p, &c, given);
        for (size_t i = 0; i < given[CHEMSTATION_RECORDS]; i++)
            (log ? put_line : put_row)(has_axis(kind), &c, i);
        add_up(&total, c.unscaled, given[CHEMSTATION_RECORDS]);
        count += given[CHEMSTATION_RECORDS];
        bool stuck = answer == CHEMSTATION_MORE_BYTES && given[CHEMSTATION_CONSUMED] == 0;
        if ((answer != CHEMSTATION_FULL && answer != CHEMSTATION_MORE_BYTES) || stuck) {
            if (has_sum(kind))
                put_sum(log, &total);
            return put_end(log, answer, count);
        }
        if (!refill(p, given[CHEMSTATION_CONSUMED]))
            return 2;
    }
}

static int put_run(bool log, uint8_t kind, struct part *p) {
    size_t header[5] = {0}, text_starts[8] = {0}, text_lengths[8] = {0};
    double corrections[4] = {0};
    struct state st = {{0}, {0}, 0, CHEMSTATION_PLAIN};
    if (!refill(p, 0))
        return 2;
    uint8_t answer = chemstation_open(kind, p->bytes, p->length, last(p), header, corrections, text_starts, text_lengths, st.numbers,
                                      st.counts, &st.stored_time, &st.reading);
    if (answer != CHEMSTATION_GIVEN)
        return put_end(log, answer, 0);
    if (log)
        printf("h %zu %zu\n", header[CHEMSTATION_EDITION], header[CHEMSTATION_SIZE]);
    else
        put_header(kind, p, header, corrections);
    if (!refill(p, header[CHEMSTATION_SIZE]))
        return 2;
    return put_records(log, kind, p, &st);
}

int main(int argc, char **argv) {
    static struct part p;
    bool log = argc > 1 && strcmp(argv[1], "--log") == 0;
    if (argc != 3 + log || strlen(argv[1 + log]) != 1 || argv[1 + log][0] < '0' || argv[1 + log][0] > '9') {
        fprintf(stderr, "usage: table [--log] KIND FILE\nKIND is a digit: 1 FID, 2 MS, 3 MWD, 4 DAD, 5 UV, 6 array\n");
        return 2;
    }
    const char *name = argv[2 + log];
    p.file = fopen(name, "rb");
    if (!p.file) {
        fprintf(stderr, "table: %s: %s\n", name, strerror(errno));
        return 2;
    }
    int status = put_run(log, (uint8_t)(argv[1 + log][0] - '0'), &p);
    if (status == 2)
        fprintf(stderr, "table: %s: %s\n", name, strerror(errno));
    else if (status == 1)
        fprintf(stderr, "table: %s: not printed to its end\n", name);
    if (fclose(stdout) != 0) {
        fprintf(stderr, "table: the output could not be written: %s\n", strerror(errno));
        return status ? status : 1;
    }
    return status;
}
