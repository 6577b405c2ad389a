/*
 * xelamphoun.h: the C interface of the loudness library.
 *
 * Every function is total: it answers for every value of its parameters, and touches no memory
 * beyond what a pointer parameter says. None allocates, blocks or keeps anything between calls, so
 * all may be called from several threads at once.
 *
 * Energies are those of ITU-R BS.1770: loudness = -0.691 + 10 log10(energy), in LUFS.
 */
#ifndef XELAMPHOUN_H
#define XELAMPHOUN_H

#include <stddef.h>
#include <stdint.h>

#ifdef __cplusplus
extern "C" {
#endif

/*
 * The numbers of the refusals. A function that can refuse answers 0 where it did what was asked, or
 * one of these; what it was lent is then as it was before the call. Where several apply, the checks
 * run in this order unless the function says otherwise.
 */
enum xel_refusal {
    XEL_CHANNELS = 1,  /* no channels, or more than 8 */
    XEL_SAMPLES = 2,   /* the samples are not whole frames */
    XEL_MAP = 3,       /* the channel map has another length, or a byte beyond those it admits */
    XEL_DEST = 4,      /* the destination is empty, uneven, or too short for the frames */
    XEL_STORE = 5,     /* the lent store of a history is not one */
    XEL_FULL = 6,      /* a counter would pass 4294967295 */
    XEL_SET = 7,       /* more than 16 histories, or one that reaches outside what was lent */
    XEL_MODE = 8,      /* a range over queues and histograms mixed */
    XEL_NONE = 9,      /* no blocks, or none at or above the gate */
    XEL_NAN = 10,      /* the sum of the energies is not a number */
    XEL_SCALE = 11,    /* an energy outside the scale of the readings, or not a number */
    XEL_LENGTH = 12,   /* the length of a record is wrong */
    XEL_KIND = 13,     /* a record is not of the kind asked for */
    XEL_CONTENT = 14,  /* a field of a record breaks its rule */
    XEL_ROOM = 15      /* an output or work slice is too short */
};

/* The bins of the histogram, and the boundaries around them. */
#define XEL_BINS 1000
#define XEL_BOUNDARIES 1001

/* The most energies that a queue can hold: an hour of blocks, one every 100 ms. */
#define XEL_LONGEST_QUEUE 36000

/* The most histories of a set, the numbers of one, and its kinds. */
#define XEL_MOST_HISTORIES 16
#define XEL_ENTRY_NUMBERS 5
#define XEL_HISTOGRAM 0
#define XEL_QUEUE 1

/* What a range answers that finds no energies: these are no refusals. */
#define XEL_NOTHING 128
#define XEL_NOT_A_NUMBER 129

/* What a sample answers whose channel or frame is not there: this is no refusal. */
#define XEL_PAST_THE_END 130

/*
 * Boundary i of the histogram, in energy. It stands at -70 + i/10 LUFS; bin i runs from boundary i
 * up to, and not including, boundary i + 1.
 *
 *   i        the boundary's number, 0 to 1000
 *   answers  the boundary; NaN for an i past the end
 */
double xel_boundary(size_t i);

/*
 * The energy that stands for all energies of bin i. It stands at -69.95 + i/10 LUFS.
 *
 *   i        the bin's number, 0 to 999
 *   answers  the energy; NaN for an i past the end
 */
double xel_energy(size_t i);

/*
 * The histogram's bin of an energy: the last bin whose boundary is not above the energy.
 *
 *   energy   any value. Where no boundary is at or below it, and for NaN, the bin is 0; for all
 *            from boundary 999 on, infinity too, it is 999
 *   answers  the bin's number, 0 to 999
 */
size_t xel_find_histogram_index(double energy);

/*
 * The reading of an energy: the nearest tenth of a LUFS, in tenths. It is -700 + the energy's bin where
 * the energy is below that bin's table energy, else one more, so -700 to 300.
 *
 *   energy   any value
 *   tenths   receives the reading; must point to an int32_t. Left as it was on a refusal
 *   answers  0, or XEL_SCALE where the energy is NaN, below boundary 0, or at or above boundary 1000
 */
uint8_t xel_reading(double energy, int32_t *tenths);

/*
 * The filter: sample peak, weighting and true peak over interleaved samples, 1 to 8 channels. The
 * caller owns its state, which a call takes and gives back in place:
 *
 *   state       40 doubles: channel c's five at 5c to 5c + 4. All 0 in a new measurement
 *   peaks       8 doubles: channel c's sample peak at c. All 0 at first, and to begin peaks anew
 *   memory      184 floats: channel c's last 23 samples, newest first, from 23c on. All 0 at first
 *   true_peaks  8 floats: channel c's true peak at c. All 0 at first
 *
 * Places of channels that the call does not have stay as they are. What is switched off alters
 * nothing and its arrays must be lent all the same.
 */

/* What a call works out: the sum of these. Higher bits are not looked at. */
#define XEL_LOUDNESS 1
#define XEL_SAMPLE_PEAK 2
#define XEL_TRUE_PEAK 4

#define XEL_MOST_CHANNELS 8
#define XEL_STATE 40
#define XEL_MEMORY 184

/*
 * One call over interleaved samples. Sample peak and true peak look at every channel, the weighting at
 * the used ones; an unused one keeps its state and its part of the destination.
 *
 *   channels    1 to 8
 *   rate        samples a second: below 96000 the true peak looks four times a frame, below 192000
 *               twice, else it is off. Nothing else looks at it
 *   on          a sum of XEL_LOUDNESS, XEL_SAMPLE_PEAK, XEL_TRUE_PEAK
 *   a, b        the weighting's coefficients, five each: a weighs the state, b the output. a[0] is
 *               not looked at
 *   state, peaks, memory, true_peaks  as above
 *   data, data_len  the samples, channel after channel within a frame. An int16_t s counts as s/32768
 *   map, map_len  a byte a channel: 1 where it is used, 0 where not
 *   dest, dest_len  with XEL_LOUDNESS, an equal part for each channel, one after the other. The
 *               weighted frames go to each used channel's part from its place start on; all other
 *               places stay. Without XEL_LOUDNESS it is not touched, and may have length 0
 *   start       the first place within each part
 *   answers  0; XEL_CHANNELS; XEL_SAMPLES where data_len is not a multiple of channels; XEL_MAP where
 *            map_len is not channels or a byte is neither 0 nor 1; XEL_DEST, with XEL_LOUDNESS, where
 *            dest_len is 0 or not a multiple of channels, or a part has no room for the frames from
 *            start on
 */
uint8_t xel_process_i16(size_t channels, uint32_t rate, uint8_t on, const double a[5],
                        const double b[5], double state[40], double peaks[8], float memory[184],
                        float true_peaks[8], const int16_t *data, size_t data_len,
                        const uint8_t *map, size_t map_len, double *dest, size_t dest_len,
                        size_t start);

/* The same over float samples, of any value. */
uint8_t xel_process_f32(size_t channels, uint32_t rate, uint8_t on, const double a[5],
                        const double b[5], double state[40], double peaks[8], float memory[184],
                        float true_peaks[8], const float *data, size_t data_len,
                        const uint8_t *map, size_t map_len, double *dest, size_t dest_len,
                        size_t start);

/*
 * Moves the states as xel_process_i16 would, and writes no peak and no destination: state with
 * XEL_LOUDNESS, memory with XEL_TRUE_PEAK. XEL_SAMPLE_PEAK has nothing to move.
 *
 *   answers  0; XEL_CHANNELS, XEL_SAMPLES or XEL_MAP
 */
uint8_t xel_seed_i16(size_t channels, uint32_t rate, uint8_t on, const double a[5],
                     double state[40], float memory[184], const int16_t *data, size_t data_len,
                     const uint8_t *map, size_t map_len);

/* The same over float samples. */
uint8_t xel_seed_f32(size_t channels, uint32_t rate, uint8_t on, const double a[5],
                     double state[40], float memory[184], const float *data, size_t data_len,
                     const uint8_t *map, size_t map_len);

/*
 * Interleaved samples as frames: frame f is the samples f * channels to f * channels + channels - 1, a
 * channel each. A question is about a part, the frames from first on and before end, both counted in
 * the whole: 0 and SIZE_MAX for all of it. A part ends where the samples do, and is empty where it
 * begins there or at end.
 *
 *   data, data_len  the samples
 *   channels        1 to 8
 *   first, end      any numbers
 */

/* The number of channels of a part: the one that was given, whatever it is. */
size_t xel_interleaved_channels_i16(const int16_t *data, size_t data_len, size_t channels,
                                    size_t first, size_t end);
size_t xel_interleaved_channels_f32(const float *data, size_t data_len, size_t channels,
                                    size_t first, size_t end);

/*
 * How many frames a part has.
 *
 *   frames   receives the number. Left as it was on a refusal
 *   answers  0; XEL_CHANNELS; XEL_SAMPLES where the part's samples are not whole frames
 */
uint8_t xel_interleaved_frames_i16(const int16_t *data, size_t data_len, size_t channels,
                                   size_t first, size_t end, size_t *frames);
uint8_t xel_interleaved_frames_f32(const float *data, size_t data_len, size_t channels,
                                   size_t first, size_t end, size_t *frames);

/*
 * A channel's sample in a frame of a part.
 *
 *   channel, frame  the frame is counted in the part
 *   sample   receives the sample: s/32768 of an int16_t s. Left as it was where the answer is not 0
 *   answers  0; XEL_CHANNELS or XEL_SAMPLES; XEL_PAST_THE_END where there is no such channel or frame
 */
uint8_t xel_interleaved_sample_i16(const int16_t *data, size_t data_len, size_t channels,
                                   size_t first, size_t end, size_t channel, size_t frame,
                                   double *sample);
uint8_t xel_interleaved_sample_f32(const float *data, size_t data_len, size_t channels,
                                   size_t first, size_t end, size_t channel, size_t frame,
                                   double *sample);

/*
 * The interpolator's phases at a frame, from the frame's own sample and those before it, newest
 * first; before the start a sample is 0. Their largest magnitude is what the true peak keeps.
 *
 *   samples  12, or 24, floats of any value
 *   out      receives the phases: 4, or 2
 */
void xel_phases_fourfold(const float samples[12], float out[4]);
void xel_phases_twofold(const float samples[24], float out[2]);

/*
 * Histories of block energies. The caller owns the memory: a histogram is 1000 counters, a queue a
 * store of energies with three numbers beside it. A slice is a pointer and its length, in elements;
 * the pointer must not be null and must point to so many elements, aligned as C aligns them. Slices
 * and numbers that a call may write must not overlap anything else that it is lent.
 */

/*
 * Counts a block of this energy in its bin of a histogram. An energy below boundary 0 is dropped.
 *
 *   counters, counters_len  the histogram: 1000 counters. A new one is all 0
 *   energy                  any value. NaN is counted in bin 0, infinity in bin 999
 *   answers  0, for a dropped energy too; XEL_STORE where these are not 1000 counters; XEL_FULL where
 *            the bin's counter is at 4294967295
 */
uint8_t xel_histogram_add(uint32_t *counters, size_t counters_len, double energy);

/*
 * Adds the counters of one histogram to those of another, bin by bin: all of them, or none.
 *
 *   into, into_len  the histogram that is added to: 1000 counters
 *   from, from_len  the histogram that is added, 1000 counters; it is only read
 *   answers  0; XEL_STORE where either is not 1000 counters; XEL_FULL where any sum would pass
 *            4294967295
 */
uint8_t xel_histogram_merge(uint32_t *into, size_t into_len, const uint32_t *from, size_t from_len);

/*
 * Sets every counter of a histogram to 0.
 *
 *   counters, counters_len  the histogram: 1000 counters
 *   answers  0, or XEL_STORE where these are not 1000 counters
 */
uint8_t xel_histogram_reset(uint32_t *counters, size_t counters_len);

/*
 * Puts an energy into a queue as its newest; a full queue drops its oldest. An energy below
 * boundary 0 is dropped, and all is as it was.
 *
 * The oldest energy stands at place head of the store, the next at head + 1, and so on round the
 * store: the new one goes to (head + held) mod maximum. No other place is touched.
 *
 *   maximum  the most energies that the queue holds, 1 to 36000
 *   head     the place of the oldest, below maximum; moves on by one, mod maximum, where the queue
 *            was full. 0 in a new queue
 *   held     how many are held, at most maximum; grows by one where the queue was not full. 0 in a
 *            new queue, and to empty one
 *   store, store_len  exactly maximum places. What they hold in a new queue does not matter
 *   energy   any value; NaN and infinity enter
 *   answers  0, for a dropped energy too, or XEL_STORE where maximum, head, held or store_len breaks
 *            one of these rules
 */
uint8_t xel_queue_add(size_t maximum, size_t *head, size_t *held, double *store, size_t store_len,
                      double energy);

/*
 * Questions over a set of histories. All histograms of a set lie in one slice of counters, all queues
 * in one slice of energies; they may overlap or repeat, since a question only reads. The set itself is
 * five numbers an entry, 0 to 16 entries:
 *
 *   kind     XEL_HISTOGRAM or XEL_QUEUE
 *   start    the place of its first counter in the counters, or of its store in the energies
 *   maximum, head, held  of a queue, as xel_queue_add has them; not looked at for a histogram
 *
 * Every question refuses first, in this order, and writes nothing where it refuses:
 *
 *   XEL_SET    entries_len is not a multiple of five, or above 80; a kind is another; a histogram's
 *              1000 counters or a queue's maximum energies reach outside their slice
 *   XEL_STORE  a queue's maximum, head or held breaks its rule, or an energy that it holds is below
 *              boundary 0
 *
 * A slice of length 0 may be lent where the set has no history of its kind; its pointer must not be
 * null.
 */

/*
 * The blocks at or above the relative gate, 10 LU below the mean of all blocks of the set, and the sum
 * of their energies. A block of a histogram has the energy of its bin.
 *
 *   blocks   receives the number of blocks
 *   sum      receives the sum of their energies
 *   answers  0; XEL_SET or XEL_STORE; XEL_NONE where there is no block, or none at or above the gate;
 *            XEL_NAN where the sum of all energies is not a number
 */
uint8_t xel_gate(const size_t *entries, size_t entries_len, const uint32_t *counters,
                 size_t counters_len, const double *energies, size_t energies_len,
                 uint64_t *blocks, double *sum);

/*
 * The mean energy of the blocks at or above the relative gate: integrated loudness, as an energy.
 *
 *   energy   receives the mean
 *   answers  as xel_gate
 */
uint8_t xel_gated_energy(const size_t *entries, size_t entries_len, const uint32_t *counters,
                         size_t counters_len, const double *energies, size_t energies_len,
                         double *energy);

/*
 * The relative threshold of a single history: the energy 10 LU below the mean of its blocks.
 *
 *   entry    one entry: five numbers, and XEL_SET where there are others
 *   value    receives the threshold's energy, which is never below 0; -70.0, a loudness in LUFS, where
 *            the history has no block
 *   answers  0; XEL_SET or XEL_STORE; XEL_NAN where the sum of the energies is not a number
 */
uint8_t xel_relative_threshold(const size_t *entry, size_t entry_len, const uint32_t *counters,
                               size_t counters_len, const double *energies, size_t energies_len,
                               double *value);

/*
 * The two energies whose loudnesses the loudness range lies between: those of the 10th and the 95th
 * percentile of the blocks at or above a gate 20 LU below the mean of all blocks of the set. The set
 * is of histograms or of queues.
 *
 *   work, work_len  over queues, at least as many places as they hold energies; must overlap nothing
 *            else that is lent. Where the answer is 0 or XEL_NOTHING its first places then hold these
 *            energies in rising order, and the others are as they were. Over histograms it is not
 *            touched, and may have length 0
 *   low, high  receive the two energies where the answer is 0
 *   answers  0; XEL_NOTHING where there is no block, or none at or above the gate; XEL_NOT_A_NUMBER
 *            where a queue holds NaN, and the work slice is then as it was; XEL_SET or XEL_STORE;
 *            XEL_MODE where the set has histories of both kinds; XEL_ROOM where the work slice is too
 *            short
 */
uint8_t xel_loudness_range(const size_t *entries, size_t entries_len, const uint32_t *counters,
                           size_t counters_len, const double *energies, size_t energies_len,
                           double *work, size_t work_len, double *low, double *high);

/*
 * Records: a history as bytes, as docs/RECORDS.md lays them out. A histogram's record is of kind 1 or
 * 257, a queue's of kind 2 or 258: the second of each is the third model's, whose fields behind length
 * and kind are high byte first. A reader takes one kind and refuses every other. It refuses in the order
 * of the codes below, and alters nothing where it refuses.
 */

/* The bytes of a histogram's record, and those of a queue's record without its energies, 8 bytes each. */
#define XEL_HISTOGRAM_RECORD 4006
#define XEL_QUEUE_RECORD_HEAD 14

/*
 * Reads a histogram's record (kind 1) into 1000 counters.
 *
 *   bytes, bytes_len        the record, and nothing after it
 *   counters, counters_len  receive the counters: 1000 places
 *   answers  0; XEL_LENGTH, XEL_KIND; XEL_STORE where these are not 1000 counters
 */
uint8_t xel_histogram_read(const uint8_t *bytes, size_t bytes_len, uint32_t *counters,
                           size_t counters_len);

/* The same of the third model's record (kind 257). */
uint8_t xel_third_histogram_read(const uint8_t *bytes, size_t bytes_len, uint32_t *counters,
                                 size_t counters_len);

/*
 * Writes a histogram's record (kind 1) to the output's first places; the others stay.
 *
 *   out, out_len  at least 4006 places
 *   written  receives the number of bytes. Left as it was on a refusal
 *   answers  0; XEL_STORE where these are not 1000 counters; XEL_ROOM where the output is too short
 */
uint8_t xel_histogram_write(const uint32_t *counters, size_t counters_len, uint8_t *out,
                            size_t out_len, size_t *written);

/* The same of the third model's record (kind 257). */
uint8_t xel_third_histogram_write(const uint32_t *counters, size_t counters_len, uint8_t *out,
                                  size_t out_len, size_t *written);

/*
 * Reads a queue's record (kind 2): its energies, oldest first, to the store's first places; the others
 * stay.
 *
 *   maximum, head, held  receive the queue's numbers; head is 0. Left as they were on a refusal
 *   store, store_len     exactly as many places as the record's maximum
 *   answers  0; XEL_LENGTH, XEL_KIND; XEL_CONTENT where maximum, held or an energy breaks its rule;
 *            XEL_STORE where the store has another length
 */
uint8_t xel_queue_read(const uint8_t *bytes, size_t bytes_len, size_t *maximum, size_t *head,
                       size_t *held, double *store, size_t store_len);

/* The same of the third model's record (kind 258). */
uint8_t xel_third_queue_read(const uint8_t *bytes, size_t bytes_len, size_t *maximum, size_t *head,
                             size_t *held, double *store, size_t store_len);

/*
 * Writes a queue's record (kind 2) to the output's first places, oldest energy first; the others stay.
 *
 *   maximum, head, held, store, store_len  the queue, as xel_queue_add has it
 *   out, out_len  at least 14 places and 8 for each energy held
 *   written  receives the number of bytes. Left as it was on a refusal
 *   answers  0; XEL_STORE where the queue breaks a rule, or holds an energy below boundary 0;
 *            XEL_ROOM where the output is too short
 */
uint8_t xel_queue_write(size_t maximum, size_t head, size_t held, const double *store,
                        size_t store_len, uint8_t *out, size_t out_len, size_t *written);

/* The same of the third model's record (kind 258). */
uint8_t xel_third_queue_write(size_t maximum, size_t head, size_t held, const double *store,
                              size_t store_len, uint8_t *out, size_t out_len, size_t *written);

/*
 * Converts a record to the other kind of the same content, between 1 and 257 or between 2 and 258, and
 * keeps every count and energy. It goes to the output's first places; the others stay.
 *
 *   kind     that of the record given
 *   bytes, bytes_len  the record, and nothing after it
 *   out, out_len      at least as many places as the record has bytes; must not overlap the record
 *   written  receives the number of bytes. Left as it was on a refusal
 *   answers  0; XEL_LENGTH, XEL_KIND or XEL_CONTENT as the reader of the kind; for a kind that is none of
 *            the four, XEL_LENGTH under 6 bytes, and XEL_KIND from there on; XEL_ROOM where the output is
 *            too short
 */
uint8_t xel_record_convert(uint16_t kind, const uint8_t *bytes, size_t bytes_len, uint8_t *out,
                           size_t out_len, size_t *written);

#ifdef __cplusplus
}
#endif

#endif
