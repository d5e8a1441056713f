/* Reads runs of Agilent ChemStation: what the header says, its texts, the records as columns, and the sum of a column.
 *
 * The archive is made by `tools/build-library` (target/staticlib/libchemread.a, x86-64 Linux). It allocates nothing, keeps
 * nothing between calls, reads and writes no file, and needs of the C library only memcpy. Calls from several threads do not
 * disturb each other as long as no two of them are lent the same memory to write.
 *
 * Each function is proved to answer, and to leave in all memory that is lent to it, what the rules of docs/FORMAT.md give, for
 * every content of that memory. What no proof can see is how a C program calls it. The caller keeps to this:
 *
 *   - A pointer is never NULL, and points to at least as many elements as the length behind it says, or as the brackets of the
 *     parameter say. This holds for length 0 too: then any pointer to an object of the type will do.
 *   - Pointers to double, size_t and int64_t are aligned to 8 bytes, pointers to uint32_t to 4, as C's own objects of these types are.
 *   - What a call may write (every pointer without `const`) overlaps nothing else that the same call is lent.
 *   - Nothing else writes what a call is lent while the call runs.
 *   - A bool is true or false.
 *
 * Any value of the other parameters has an answer. */
#ifndef CHEMSTATION_H
#define CHEMSTATION_H

#include <stdbool.h>
#include <stddef.h>
#include <stdint.h>

#ifdef __cplusplus
extern "C" {
#endif

/* The kind of a run. The file does not say it. */
enum chemstation_kind {
    CHEMSTATION_FID = 1,
    CHEMSTATION_MS = 2,
    CHEMSTATION_MWD = 3,
    CHEMSTATION_DAD = 4,
    CHEMSTATION_UV = 5,
    CHEMSTATION_ARRAY = 6
};

/* How the scans of a run are counted off. Plain: as the original reader does it, so that of a DAD run's last scan only the first point
 * comes, and UV scans of one point are never counted off. Atlas, for DAD and UV only: a scan is spent when its last point has been
 * given; a DAD run then ends when no scans and no bytes are due. */
enum chemstation_reading {
    CHEMSTATION_PLAIN = 0,
    CHEMSTATION_ATLAS = 1
};

/* Answers. docs/ANSWERS.md says what can be done about the refusals, 1 to 18. */
enum chemstation_answer {
    CHEMSTATION_FINISHED = 0,
    CHEMSTATION_UNKNOWN_KIND = 1,
    CHEMSTATION_SIZE_WORD_ZERO = 2,
    CHEMSTATION_HEADER_TOO_SMALL = 3,
    CHEMSTATION_HEADER_TOO_LARGE = 4,
    CHEMSTATION_UNKNOWN_EDITION = 5,
    CHEMSTATION_BELOW_EDITION_MINIMUM = 6,
    CHEMSTATION_TEXT_TOO_LONG = 7,
    CHEMSTATION_NOT_UTF8 = 8,
    CHEMSTATION_ARRAY_HEADER_TOO_SMALL = 9,
    CHEMSTATION_TOO_MANY_SCANS = 10,
    CHEMSTATION_MS_COUNT_TOO_SMALL = 11,
    CHEMSTATION_UV_START_ABOVE_END = 12,
    CHEMSTATION_UV_STEP_ZERO = 13,
    CHEMSTATION_INCOMPLETE = 14,
    CHEMSTATION_LENT_LENGTH = 15,
    CHEMSTATION_UNKNOWN_TEXT = 16,
    CHEMSTATION_SUM_OUT_OF_RANGE = 17,
    CHEMSTATION_KIND_WITHOUT_ATLAS = 18,
    CHEMSTATION_MORE_BYTES = 101, /* the bytes end inside the header or a record, and were not told to be the last */
    CHEMSTATION_FULL = 102,       /* the columns are full */
    CHEMSTATION_GIVEN = 103       /* a run was opened, a text or all eight fetched, or a column added up */
};

/* Places in `header`. */
enum { CHEMSTATION_EDITION, CHEMSTATION_SIZE, CHEMSTATION_SEQUENCE, CHEMSTATION_VIAL, CHEMSTATION_REPLICATE };

/* Places in `corrections`; times in minutes. */
enum { CHEMSTATION_START_TIME, CHEMSTATION_END_TIME, CHEMSTATION_OFFSET, CHEMSTATION_MULTIPLIER };

/* Places in `given`. */
enum { CHEMSTATION_RECORDS, CHEMSTATION_CONSUMED };

/* Numbers of the texts. */
enum chemstation_text_number {
    CHEMSTATION_SAMPLE = 1,
    CHEMSTATION_DESCRIPTION = 2,
    CHEMSTATION_OPERATOR = 3,
    CHEMSTATION_INSTRUMENT = 4,
    CHEMSTATION_METHOD = 5,
    CHEMSTATION_SIGNAL_NAME = 6,
    CHEMSTATION_Y_UNITS = 7,
    CHEMSTATION_RUN_DATE = 8
};

/* Bytes that are enough for the eight texts of any run: eight times 255 units of UTF-16, each at most three bytes of UTF-8. */
enum { CHEMSTATION_TEXTS_ROOM = 6120 };

/* Opens a run, given the first bytes of its file, and whether the file ends with them. No header is longer than 20,000 bytes.
 *
 * GIVEN: `header` and `corrections` hold what the places above name. The records begin header[CHEMSTATION_SIZE] bytes into the
 * file. text_starts[i] and text_lengths[i] are where text i + 1 stands in the header, in bytes as stored; 0 and 0 for an empty one.
 * `numbers`, `counts`, *stored_time, which is 0, and *reading, which is CHEMSTATION_PLAIN, are the state before the first record, for
 * chemstation_fill.
 * MORE_BYTES, or a refusal (1 to 10, 14): nothing is written. */
uint8_t chemstation_open(uint8_t kind, const uint8_t *bytes, size_t length, bool last, size_t header[5], double corrections[4],
                         size_t text_starts[8], size_t text_lengths[8], double numbers[6], size_t counts[4], uint32_t *stored_time,
                         uint8_t *reading);

/* Opens a DAD or UV run for the atlas reading.
 *
 * GIVEN: all is as chemstation_open has it, but *reading is CHEMSTATION_ATLAS.
 * MORE_BYTES, or a refusal (1, then 18 for a kind other than DAD and UV, both before any byte is looked at; then 2 to 8, 14 as
 * chemstation_open): nothing is written. */
uint8_t chemstation_open_atlas(uint8_t kind, const uint8_t *bytes, size_t length, bool last, size_t header[5], double corrections[4],
                               size_t text_starts[8], size_t text_lengths[8], double numbers[6], size_t counts[4],
                               uint32_t *stored_time, uint8_t *reading);

/* Fetches a text by its number, 1 to 8, in UTF-8. The bytes are a file's, at least its whole header; they are taken as the last.
 *
 * GIVEN: the text stands at the start of `text` and is *text_length bytes long; no zero byte ends it, and the rest of `text` is as
 * it was. 1,024 bytes are enough for every text. *replaced is how many units of the text, in the header's UTF-16, are unpaired
 * surrogates: each of them has become a U+FFFD. A U+FFFD that stands in the header itself is not counted, and a text of an edition up
 * to 102, whose texts are UTF-8, has 0, as has one that the edition lacks. A program that prints or indexes a text should look at it:
 * above 0, letters of the text are lost.
 * A refusal (1 to 10, 14, 15 where the text is longer than `room`, 16): *replaced is 0; `text` and *text_length are as they were. */
uint8_t chemstation_text(uint8_t kind, uint8_t number, const uint8_t *bytes, size_t length, uint8_t *text, size_t room,
                         size_t *text_length, size_t *replaced);

/* Fetches all eight texts at once, in UTF-8: the run is opened once. The bytes are a file's, at least its whole header; they are taken
 * as the last.
 *
 * GIVEN: the texts stand one behind the other from the start of `texts`, in the order of their numbers. Text i + 1 is what
 * chemstation_text gives for number i + 1; it begins at texts[starts[i]] and is lengths[i] bytes long; no zero byte ends it. So starts[0]
 * is 0 and starts[i + 1] is starts[i] + lengths[i]: an empty text, or one that the edition lacks, has length 0 and the start of the
 * next. (These are places in `texts`; those of chemstation_open are places in the header.) The rest of `texts` is as it was.
 * CHEMSTATION_TEXTS_ROOM bytes are enough for every run. replaced[i] is the *replaced of chemstation_text for number i + 1: a program
 * that prints or indexes the texts should look at all eight.
 * A refusal (1 to 10, 14, 15 where the eight together are longer than `room`): all eight of `replaced` are 0; `texts`, `starts` and
 * `lengths` are as they were. */
uint8_t chemstation_texts(uint8_t kind, const uint8_t *bytes, size_t length, uint8_t *texts, size_t room, size_t starts[8],
                          size_t lengths[8], size_t replaced[8]);

/* Reads records into six columns of one length, given the state, the bytes behind those consumed so far, and whether the file
 * ends with them. Record i is time[i], axis[i], unscaled[i], scaled[i], minutes[i], leftover[i]: minutes; m/z for MS, nanometres for
 * DAD and UV, 0.0 for the other kinds; the intensity before and after the corrections; the time of the record's scan as the file
 * stores it, in milliseconds, as whole minutes and the milliseconds left over, both 0 for FID, MWD and array, which store none. The
 * leftover is below 60,000, and minutes[i] * 60000 + leftover[i] is the stored number. The bits of a NaN are not promised, only that it
 * is one.
 *
 * given[CHEMSTATION_RECORDS] records stand at the start of the columns, the places behind them are as they were, and the records
 * took the first given[CHEMSTATION_CONSUMED] bytes. `numbers`, `counts` and *stored_time are the state after the last of them;
 * `reading` is part of the state too, and stays what it was when the run was opened. So it is with each of these answers:
 * FULL: there may be more. MORE_BYTES: there are more, or a refusal is due, and the bytes do not tell. FINISHED: the run has
 * ended. A refusal (11 to 14): it cannot be read on.
 * LENT_LENGTH, the lengths differ: no record is given, both numbers of `given` are 0, the columns are as they were, and so is the
 * state (with 0 in the places that its kind has no use for, and 1 for any record type but 0).
 * UNKNOWN_KIND, counts[0] is not 1 to 6, or `reading` is neither CHEMSTATION_PLAIN nor CHEMSTATION_ATLAS, or it is CHEMSTATION_ATLAS
 * and counts[0] is not 4 or 5: both numbers of `given` are 0, and nothing else is written.
 *
 * The state, for who stores it: numbers = time (in minutes; of DAD the scan's, in milliseconds), intensity, slope or wavelength, step,
 * multiplier, offset; counts = kind, scans due, points or bytes due, record type (0 single, else double precision); *stored_time = the
 * stored time of the scan, in milliseconds; 0 where the kind has no such number; and `reading`. Time and intensity: all kinds; slope:
 * FID; wavelength: DAD, UV; step: all but MS; multiplier: all but MS and DAD; offset: FID, MWD; scans due: MS, DAD, UV, array; points
 * due: MS, MWD, UV; bytes due: DAD; record type: array; stored time: MS, DAD, UV; reading: plain for all kinds, atlas for DAD and UV. Any
 * stored time goes with any numbers and counts: within a scan `minutes` and `leftover` come of it alone, and `time` of numbers[0] alone.
 *
 * A run in parts: open it with as many bytes as are at hand, more after MORE_BYTES; drop the header's bytes. Then fill, use the rows,
 * drop the bytes consumed, put more behind those that are left where the answer was MORE_BYTES, and fill again until another
 * answer than FULL or MORE_BYTES comes. However the bytes are cut, the same records come. A record with the empty MS scans before it
 * has to stand in the buffer as a whole: if a full buffer gives MORE_BYTES and no record, it is too small. */
uint8_t chemstation_fill(double numbers[6], size_t counts[4], uint32_t *stored_time, uint8_t reading, const uint8_t *bytes,
                         size_t length, bool last, double *time, size_t time_length, double *axis, size_t axis_length,
                         double *unscaled, size_t unscaled_length, double *scaled, size_t scaled_length, uint32_t *minutes,
                         size_t minutes_length, uint32_t *leftover, size_t leftover_length, size_t given[2]);

/* Adds the values of a column, one after the other, to *sum, in whole numbers. The caller sets *sum to 0 before the first column; a
 * run in parts goes on with the same *sum. What is added up of a run is `unscaled`, the given[CHEMSTATION_RECORDS] values of each
 * fill: that sum is the one in the log's line t, unless the log closes with m and so holds the first records only.
 *
 * GIVEN: *sum is the new sum. -0.0 adds 0.
 * SUM_OUT_OF_RANGE, a value is no whole number of a size below 2^53 (2^53 and -2^53 are none such, nor are an infinity and a NaN),
 * or the sum after some value leaves 64 bits: *sum is as it was. The run has no sum then, whatever follows: the log says `t -`. */
uint8_t chemstation_sum(const double *values, size_t length, int64_t *sum);

#ifdef __cplusplus
}
#endif

#endif
