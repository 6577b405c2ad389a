/*
 * refusals: brings each of the fifteen refusals about, those of records in the third model's kinds and in a conversion too, and
 * prints the number and the name that is answered. What is lent to be written to lies in memory that can only be read: a refused call
 * writes nothing, not even what stands there already, or the program ends by a fault.
 */
#define _DEFAULT_SOURCE /* for MAP_ANONYMOUS */
#include "refusal.h"

#include <math.h>
#include <stdio.h>
#include <stdlib.h>
#include <string.h>
#include <sys/mman.h>

/* A copy that can only be read, on pages of its own. */
static void *read_only(const void *given, size_t bytes)
{
    void *copy = mmap(NULL, bytes, PROT_READ | PROT_WRITE, MAP_PRIVATE | MAP_ANONYMOUS, -1, 0);
    if (copy == MAP_FAILED || mprotect(memcpy(copy, given, bytes), bytes, PROT_READ) != 0) {
        perror("refusals");
        exit(2);
    }
    return copy;
}

#define READ_ONLY(lent) read_only(&(lent), sizeof(lent))

/* A call of the filter with these numbers over what is otherwise in order. */
static uint8_t filter(size_t channels, size_t samples, size_t map_len, size_t dest_len)
{
    const double a[5] = {1.0}, b[5] = {1.0};
    const double state[XEL_STATE] = {0}, peaks[XEL_MOST_CHANNELS] = {0}, dest[8] = {0};
    const float memory[XEL_MEMORY] = {0}, true_peaks[XEL_MOST_CHANNELS] = {0};
    const int16_t data[8] = {0};
    const uint8_t map[8] = {1, 1, 1, 1, 1, 1, 1, 1};
    return xel_process_i16(channels, 48000, XEL_LOUDNESS | XEL_SAMPLE_PEAK | XEL_TRUE_PEAK, a, b, READ_ONLY(state),
                           READ_ONLY(peaks), READ_ONLY(memory), READ_ONLY(true_peaks), data, samples, map, map_len,
                           READ_ONLY(dest), dest_len, 0);
}

static uint32_t counters[XEL_BINS];

/* An energy that a history takes. */
static const double ENERGY = 0.01;

static uint8_t no_channels(void)
{
    return filter(0, 0, 0, 8);
}

static uint8_t part_frame(void)
{
    return filter(2, 3, 2, 8);
}

static uint8_t short_map(void)
{
    return filter(2, 4, 1, 8);
}

static uint8_t short_destination(void)
{
    return filter(2, 6, 2, 4);
}

static uint8_t head_past_queue(void)
{
    const double store[4] = {0};
    const size_t head = 4, held = 0;
    return xel_queue_add(4, READ_ONLY(head), READ_ONLY(held), READ_ONLY(store), 4, ENERGY);
}

static uint8_t head_past_third_queue(void)
{
    const double store[4] = {0};
    const uint8_t out[XEL_QUEUE_RECORD_HEAD] = {0};
    const size_t written = 0;
    return xel_third_queue_write(4, 4, 0, store, 4, READ_ONLY(out), sizeof out, READ_ONLY(written));
}

static uint8_t full_counter(void)
{
    uint32_t full[XEL_BINS] = {0};
    full[xel_find_histogram_index(ENERGY)] = UINT32_MAX;
    return xel_histogram_add(READ_ONLY(full), XEL_BINS, ENERGY);
}

/* The gate question over entries; counters and energies are one histogram, with no block, and a queue of the energy given. */
static uint8_t gate(const size_t *entries, size_t numbers, double energy)
{
    const uint64_t blocks = 0;
    const double sum = 0;
    return xel_gate(entries, numbers, counters, XEL_BINS, &energy, 1, READ_ONLY(blocks), READ_ONLY(sum));
}

static const size_t HISTOGRAM_AND_QUEUE[2 * XEL_ENTRY_NUMBERS] = {XEL_HISTOGRAM, 0, 0, 0, 0, XEL_QUEUE, 0, 1, 0, 1};

static uint8_t outside(void)
{
    const size_t entry[XEL_ENTRY_NUMBERS] = {XEL_HISTOGRAM, 1, 0, 0, 0};
    return gate(entry, XEL_ENTRY_NUMBERS, ENERGY);
}

static uint8_t mixed(void)
{
    const double work[1] = {0}, low = 0, high = 0;
    return xel_loudness_range(HISTOGRAM_AND_QUEUE, 2 * XEL_ENTRY_NUMBERS, counters, XEL_BINS, &ENERGY, 1, READ_ONLY(work), 1,
                              READ_ONLY(low), READ_ONLY(high));
}

static uint8_t no_block(void)
{
    return gate(HISTOGRAM_AND_QUEUE, XEL_ENTRY_NUMBERS, ENERGY);
}

static uint8_t not_a_number(void)
{
    return gate(HISTOGRAM_AND_QUEUE, 2 * XEL_ENTRY_NUMBERS, (double)NAN);
}

static uint8_t off_scale(void)
{
    const int32_t tenths = 0;
    return xel_reading(0.0, READ_ONLY(tenths));
}

typedef uint8_t queue_reader(const uint8_t *, size_t, size_t *, size_t *, size_t *, double *, size_t);

/* Reads a record's first bytes as a queue of one place. */
static uint8_t read_queue(queue_reader *read, const uint8_t *bytes, size_t length)
{
    const size_t maximum = 0, head = 0, held = 0;
    const double store[1] = {0};
    return read(bytes, length, READ_ONLY(maximum), READ_ONLY(head), READ_ONLY(held), READ_ONLY(store), 1);
}

/* Converts a record's first bytes to an output of so many places. */
static uint8_t convert(uint16_t kind, const uint8_t *bytes, size_t length, size_t room)
{
    const uint8_t out[XEL_QUEUE_RECORD_HEAD] = {0};
    const size_t written = 0;
    return xel_record_convert(kind, bytes, length, READ_ONLY(out), room, READ_ONLY(written));
}

/* The records of a queue of no places, which is none, and of the shortest queue, with no energy: ours and the third model's. */
static const uint8_t NO_PLACES[XEL_QUEUE_RECORD_HEAD] = {10, 0, 0, 0, 2, 0};
static const uint8_t THIRD_OF_NO_PLACES[XEL_QUEUE_RECORD_HEAD] = {10, 0, 0, 0, 2, 1};
static const uint8_t THIRD_OF_ONE_PLACE[XEL_QUEUE_RECORD_HEAD] = {10, 0, 0, 0, 2, 1, 0, 0, 0, 1};

static uint8_t no_bytes(void)
{
    return read_queue(xel_queue_read, NO_PLACES, 0);
}

static uint8_t convert_five_bytes(void)
{
    return convert(258, THIRD_OF_ONE_PLACE, 5, XEL_QUEUE_RECORD_HEAD);
}

static uint8_t other_kind(void)
{
    const uint8_t bytes[6] = {2, 0, 0, 0, 1, 0};
    return read_queue(xel_queue_read, bytes, sizeof bytes);
}

static uint8_t third_as_ours(void)
{
    return read_queue(xel_queue_read, THIRD_OF_ONE_PLACE, XEL_QUEUE_RECORD_HEAD);
}

static uint8_t ours_as_third(void)
{
    const uint8_t bytes[6] = {2, 0, 0, 0, 1, 0};
    return xel_third_histogram_read(bytes, sizeof bytes, READ_ONLY(counters), XEL_BINS);
}

static uint8_t convert_no_kind(void)
{
    return convert(0, THIRD_OF_ONE_PLACE, XEL_QUEUE_RECORD_HEAD, XEL_QUEUE_RECORD_HEAD);
}

static uint8_t maximum_of_none(void)
{
    return read_queue(xel_queue_read, NO_PLACES, XEL_QUEUE_RECORD_HEAD);
}

static uint8_t third_maximum_of_none(void)
{
    return read_queue(xel_third_queue_read, THIRD_OF_NO_PLACES, XEL_QUEUE_RECORD_HEAD);
}

static uint8_t convert_maximum_of_none(void)
{
    return convert(258, THIRD_OF_NO_PLACES, XEL_QUEUE_RECORD_HEAD, XEL_QUEUE_RECORD_HEAD);
}

typedef uint8_t histogram_writer(const uint32_t *, size_t, uint8_t *, size_t, size_t *);

static uint8_t write_too_short(histogram_writer *write)
{
    const uint8_t out[XEL_HISTOGRAM_RECORD - 1] = {0};
    const size_t written = 0;
    return write(counters, XEL_BINS, READ_ONLY(out), sizeof out, READ_ONLY(written));
}

static uint8_t short_output(void)
{
    return write_too_short(xel_histogram_write);
}

static uint8_t third_short_output(void)
{
    return write_too_short(xel_third_histogram_write);
}

static uint8_t convert_short_output(void)
{
    return convert(258, THIRD_OF_ONE_PLACE, XEL_QUEUE_RECORD_HEAD, XEL_QUEUE_RECORD_HEAD - 1);
}

static const struct {
    uint8_t number;
    const char *what;
    uint8_t (*ask)(void);
} cases[] = {
    {XEL_CHANNELS, "a call over no channels", no_channels},
    {XEL_SAMPLES, "three samples of two channels", part_frame},
    {XEL_MAP, "a map of one channel for two", short_map},
    {XEL_DEST, "two places a channel for three frames", short_destination},
    {XEL_STORE, "a queue whose head is past its store", head_past_queue},
    {XEL_STORE, "the third model's record of such a queue", head_past_third_queue},
    {XEL_FULL, "a block more in a full counter", full_counter},
    {XEL_SET, "a histogram that reaches past the counters", outside},
    {XEL_MODE, "the range of a histogram and a queue", mixed},
    {XEL_NONE, "the gate over no block", no_block},
    {XEL_NAN, "the gate over a NaN in a queue", not_a_number},
    {XEL_SCALE, "the reading of no energy", off_scale},
    {XEL_LENGTH, "a record of no bytes", no_bytes},
    {XEL_LENGTH, "five bytes, converted", convert_five_bytes},
    {XEL_KIND, "a histogram's record read as a queue's", other_kind},
    {XEL_KIND, "the third model's record read as ours", third_as_ours},
    {XEL_KIND, "our record read as the third model's", ours_as_third},
    {XEL_KIND, "a record converted as of no kind", convert_no_kind},
    {XEL_CONTENT, "the record of a queue of no places", maximum_of_none},
    {XEL_CONTENT, "the third model's record of one", third_maximum_of_none},
    {XEL_CONTENT, "that record converted", convert_maximum_of_none},
    {XEL_ROOM, "an output a byte too short for a record", short_output},
    {XEL_ROOM, "an output a byte too short for the third model's", third_short_output},
    {XEL_ROOM, "an output a byte too short for a conversion", convert_short_output},
};

int main(void)
{
    int missed = 0;
    for (unsigned i = 0; i < sizeof cases / sizeof *cases; i++) {
        uint8_t answer = cases[i].ask();
        printf("%2u %-8s  %s\n", (unsigned)answer, refusal_name(answer), cases[i].what);
        missed |= answer != cases[i].number;
    }
    return missed;
}
