/*
 * measure [--raw CHANNELS RATE] [--record OUT] [--range-record OUT] FILE
 *
 * A whole measurement through include/xelamphoun.h: weighs the samples of FILE (- is standard input), takes sample and true
 * peaks, makes the blocks' energies, counts them in histograms, asks gate and range, writes each histogram's record and reads it
 * back. --record keeps that of the gate, of 400 ms blocks, and --range-record that of the range, of 3 s blocks. A line a reading.
 * FILE is a WAV file of 16-bit PCM or 32-bit float samples; with --raw it is a stream of 16-bit samples, low byte first.
 *
 * The library takes coefficients and energies as they are given, and answers energies. What is the caller's job stands here, after
 * the Rust crate ebur128 0.1.11: the coefficients (filter.rs, filter_coefficients), the blocks (ebur128.rs, add_frames), their energy
 * (filter.rs, calc_gating_block) and the logarithm (utils.rs, energy_to_loudness). Each sum is in the Rust's order, so that every
 * energy is the Rust's to the last bit; for that the compiler must not fuse a product with a sum (-ffp-contract=off).
 */
#include "refusal.h"
#include "sound.h"

#include <inttypes.h>
#include <math.h>
#include <stdarg.h>
#include <stdbool.h>
#include <stdlib.h>
#include <string.h>

/* The rates that the Rust takes. */
static const uint32_t LOWEST_RATE = 16, HIGHEST_RATE = 2822400;

struct options {
    const char *file;
    const char *record, *range_record; /* NULL where it is not to be kept */
    bool raw;
    size_t channels; /* of a raw stream, as is the rate */
    uint32_t rate;
};

/* The blocks of one length. */
struct history {
    uint64_t number;
    double loudest; /* the largest of their energies */
    uint32_t histogram[XEL_BINS];
};

/* What is kept from part to part of the sound. Weighted frames go to a ring, each channel's part of it as long as 3 s. */
struct measurement {
    size_t channels;
    uint32_t rate;
    double weights[XEL_MOST_CHANNELS];
    uint8_t map[XEL_MOST_CHANNELS];
    double a[5], b[5];
    double state[XEL_STATE], peaks[XEL_MOST_CHANNELS];
    float memory[XEL_MEMORY], true_peaks[XEL_MOST_CHANNELS];

    size_t tenth; /* frames of 100 ms */
    double *ring;
    size_t ring_frames;
    size_t at;         /* where the next frame goes */
    size_t since;      /* frames of the short-term block that is under way */
    union samples now; /* room for the samples of one call */

    uint64_t frames;
    struct history blocks;       /* of 400 ms: gate and integrated loudness */
    struct history short_blocks; /* of 3 s: the range */
};

static _Noreturn void die(const char *format, ...)
{
    va_list words;
    va_start(words, format);
    fputs("measure: ", stderr);
    vfprintf(stderr, format, words);
    fputc('\n', stderr);
    va_end(words);
    exit(1);
}

/* Ends the program where a call that the measurement cannot do without was refused. */
static void done(const char *call, uint8_t answer)
{
    if (answer != 0)
        die("%s is refused: %u %s", call, (unsigned)answer, refusal_name(answer));
}

static void *room(size_t number, size_t size)
{
    void *memory = calloc(number, size);
    if (memory == NULL)
        die("no memory");
    return memory;
}

/* A channel's weight in an energy, 0 where it is not used: L R C LFE Ls Rs, with neither C nor LFE at four, no LFE at five. */
static double weight(size_t channels, size_t c)
{
    static const double four[8] = {1.0, 1.0, 1.41, 1.41};
    static const double five[8] = {1.0, 1.0, 1.0, 1.41, 1.41};
    static const double others[8] = {1.0, 1.0, 1.0, 0.0, 1.41, 1.41};
    return channels == 4 ? four[c] : channels == 5 ? five[c] : others[c];
}

/* BS.1770's two filters at a rate, one after the other: a shelf and a high pass. */
static void coefficients(double rate, double a[5], double b[5])
{
    const double pi = 3.14159265358979323846;
    double f = 1681.974450955533, g = 3.999843853973347, q = 0.7071752369554196;
    double k = tan(pi * f / rate);
    double vh = pow(10.0, g / 20.0), vb = pow(vh, 0.4996667741545416);
    double a0 = 1.0 + k / q + k * k;
    double pb[3] = {(vh + vb * k / q + k * k) / a0, 2.0 * (k * k - vh) / a0, (vh - vb * k / q + k * k) / a0};
    double pa[3] = {1.0, 2.0 * (k * k - 1.0) / a0, (1.0 - k / q + k * k) / a0};

    f = 38.13547087602444, q = 0.5003270373238773;
    k = tan(pi * f / rate);
    double rb[3] = {1.0, -2.0, 1.0};
    double ra[3] = {1.0, 2.0 * (k * k - 1.0) / (1.0 + k / q + k * k), (1.0 - k / q + k * k) / (1.0 + k / q + k * k)};

    b[0] = pb[0] * rb[0];
    b[1] = pb[0] * rb[1] + pb[1] * rb[0];
    b[2] = pb[0] * rb[2] + pb[1] * rb[1] + pb[2] * rb[0];
    b[3] = pb[1] * rb[2] + pb[2] * rb[1];
    b[4] = pb[2] * rb[2];
    a[0] = pa[0] * ra[0];
    a[1] = pa[0] * ra[1] + pa[1] * ra[0];
    a[2] = pa[0] * ra[2] + pa[1] * ra[1] + pa[2] * ra[0];
    a[3] = pa[1] * ra[2] + pa[2] * ra[1];
    a[4] = pa[2] * ra[2];
}

/* Asks the library about the channels before anything is laid out for them: no samples move nothing. */
static void ask_channels(size_t channels)
{
    const double a[5] = {0};
    double state[XEL_STATE] = {0};
    float memory[XEL_MEMORY] = {0};
    const int16_t none[1] = {0};
    const uint8_t map[XEL_MOST_CHANNELS] = {0};
    size_t places = channels < XEL_MOST_CHANNELS ? channels : XEL_MOST_CHANNELS;
    done("the number of channels", xel_seed_i16(channels, 0, 0, a, state, memory, none, 0, map, places));
}

static struct measurement *begin(const struct sound *sound)
{
    ask_channels(sound->channels);
    if (sound->rate < LOWEST_RATE || sound->rate > HIGHEST_RATE)
        die("a rate of %" PRIu32 ": it must be %" PRIu32 " to %" PRIu32, sound->rate, LOWEST_RATE, HIGHEST_RATE);

    struct measurement *m = room(1, sizeof *m);
    m->channels = sound->channels;
    m->rate = sound->rate;
    for (size_t c = 0; c < m->channels; c++) {
        m->weights[c] = weight(m->channels, c);
        m->map[c] = m->weights[c] > 0.0;
    }
    coefficients(m->rate, m->a, m->b);
    m->tenth = ((size_t)m->rate + 5) / 10;
    /* whole tenths, so that a block ends where the ring does */
    for (m->ring_frames = 30 * m->tenth; m->ring_frames < 3 * (size_t)m->rate;)
        m->ring_frames += m->tenth;
    m->ring = room(m->channels * m->ring_frames, sizeof *m->ring);
    m->now.any = room(4 * m->tenth * m->channels, sound_width(sound));
    return m;
}

/* Weighs samples into the ring and takes their peaks. */
static void process(struct measurement *m, enum sound_kind kind, size_t samples)
{
    const uint8_t on = XEL_LOUDNESS | XEL_SAMPLE_PEAK | XEL_TRUE_PEAK;
    size_t places = m->channels * m->ring_frames;
    if (kind == SOUND_I16)
        done("process", xel_process_i16(m->channels, m->rate, on, m->a, m->b, m->state, m->peaks, m->memory, m->true_peaks,
                                        m->now.i16, samples, m->map, m->channels, m->ring, places, m->at));
    else
        done("process", xel_process_f32(m->channels, m->rate, on, m->a, m->b, m->state, m->peaks, m->memory, m->true_peaks,
                                        m->now.f32, samples, m->map, m->channels, m->ring, places, m->at));
    m->frames += samples / m->channels;
    m->at += samples / m->channels;
}

static double add_squares(double sum, const double *from, const double *end)
{
    for (; from < end; from++)
        sum += *from * *from;
    return sum;
}

/*
 * The energy of the last frames (BS.1770: the channels' mean squares, weighted and added). The Rust adds up the ring as it lies,
 * its beginning before its end.
 */
static double energy_of_last(const struct measurement *m, size_t frames)
{
    double sum = 0.0;
    for (size_t c = 0; c < m->channels; c++) {
        if (m->map[c] == 0)
            continue;
        const double *part = m->ring + c * m->ring_frames, *end = part + m->ring_frames;
        double squares = 0.0;
        if (m->at < frames) {
            squares = add_squares(squares, part, part + m->at);
            squares = add_squares(squares, end - frames + m->at, end);
        } else {
            squares = add_squares(squares, part + m->at - frames, part + m->at);
        }
        sum += squares * m->weights[c];
    }
    return sum / (double)frames;
}

static void add(struct history *history, double energy)
{
    done("add", xel_histogram_add(history->histogram, XEL_BINS, energy));
    history->number++;
    if (energy > history->loudest)
        history->loudest = energy;
}

/* A block of 400 ms ends here; one of 3 s does every second, the first after three. */
static void end_block(struct measurement *m, size_t frames)
{
    add(&m->blocks, energy_of_last(m, 4 * m->tenth));
    m->since += frames;
    if (m->since == 30 * m->tenth) {
        add(&m->short_blocks, energy_of_last(m, 30 * m->tenth));
        m->since = 20 * m->tenth;
    }
    if (m->at == m->ring_frames)
        m->at = 0;
}

/* The first block needs 400 ms, and each further one the next 100: they overlap by three quarters. */
static void measure(struct measurement *m, struct sound *sound)
{
    for (size_t needed = 4 * m->tenth;; needed = m->tenth) {
        size_t samples = 0;
        const char *wrong = sound_read(sound, needed * m->channels, m->now, &samples);
        if (wrong != NULL)
            die("the sound: %s", wrong);
        process(m, sound->kind, samples);
        if (samples < needed * m->channels)
            return;
        end_block(m, needed);
    }
}

static double loudness(double energy)
{
    return 10.0 * log10(energy) - 0.691;
}

static double decibels(double peak)
{
    return 20.0 * log10(peak);
}

/* A float's bits, which show it to the last one. */
static uint64_t bits(double value)
{
    uint64_t pattern;
    memcpy(&pattern, &value, sizeof pattern);
    return pattern;
}

/* A reading in some unit, and the bits of the float that it was made from. */
static void print_reading(const char *line, double reading, const char *unit, double from)
{
    printf("%-16s%.2f %s  %016" PRIx64 "\n", line, reading, unit, bits(from));
}

static void print_loudness(const char *line, double energy)
{
    print_reading(line, loudness(energy), "LUFS", energy);
}

/* A question that is refused is a reading too: its line has the refusal's number and name. Answers whether it was refused. */
static bool refused(const char *line, uint8_t answer)
{
    if (answer != 0)
        printf("%-16srefused: %u %s\n", line, (unsigned)answer, refusal_name(answer));
    return answer != 0;
}

static void print_peaks(const struct measurement *m)
{
    char line[16];
    for (size_t c = 0; c < m->channels; c++) {
        snprintf(line, sizeof line, "sample peak %u", (unsigned)c + 1);
        print_reading(line, decibels(m->peaks[c]), "dBFS", m->peaks[c]);
    }
    for (size_t c = 0; c < m->channels; c++) {
        /* as the Rust tells it: a true peak is not below the sample peak */
        double peak = m->true_peaks[c] < m->peaks[c] ? m->peaks[c] : m->true_peaks[c];
        snprintf(line, sizeof line, "true peak %u", (unsigned)c + 1);
        print_reading(line, decibels(peak), "dBTP", peak);
    }
}

/* The loudest block of each length: momentary and short-term loudness at their most. */
static void print_loudest(const struct measurement *m)
{
    print_loudness("momentary max", m->blocks.loudest);
    print_loudness("short-term max", m->short_blocks.loudest);
}

/* A set of one histogram, which lies at the counters' first place. */
static const size_t ALONE[XEL_ENTRY_NUMBERS] = {XEL_HISTOGRAM, 0, 0, 0, 0};

/* No queue is asked about. */
static double NO_ENERGIES[1];

static void print_gate(const uint32_t histogram[XEL_BINS])
{
    uint64_t blocks;
    double sum, energy, value;
    int32_t tenths;

    if (!refused("gate", xel_gate(ALONE, XEL_ENTRY_NUMBERS, histogram, XEL_BINS, NO_ENERGIES, 0, &blocks, &sum)))
        printf("gate            %" PRIu64 " blocks  %016" PRIx64 "\n", blocks, bits(sum));
    if (!refused("threshold",
                 xel_relative_threshold(ALONE, XEL_ENTRY_NUMBERS, histogram, XEL_BINS, NO_ENERGIES, 0, &value)))
        /* below 0 it is a loudness: that of a history with no block */
        print_reading("threshold", value < 0.0 ? value : loudness(value), "LUFS", value);
    if (refused("integrated", xel_gated_energy(ALONE, XEL_ENTRY_NUMBERS, histogram, XEL_BINS, NO_ENERGIES, 0, &energy)))
        return;
    print_loudness("integrated", energy);
    if (!refused("reading", xel_reading(energy, &tenths)))
        printf("reading         %" PRId32 " tenths\n", tenths);
}

static void print_range(const uint32_t histogram[XEL_BINS])
{
    double low, high;
    uint8_t answer = xel_loudness_range(ALONE, XEL_ENTRY_NUMBERS, histogram, XEL_BINS, NO_ENERGIES, 0, NO_ENERGIES, 0, &low,
                                        &high);
    if (answer == XEL_NOTHING)
        printf("range           nothing\n");
    else if (answer == XEL_NOT_A_NUMBER)
        printf("range           not a number\n");
    else if (!refused("range", answer))
        printf("range           %.2f LU, %.2f to %.2f LUFS  %016" PRIx64 " %016" PRIx64 "\n", loudness(high) - loudness(low),
               loudness(low), loudness(high), bits(low), bits(high));
}

static void save(const char *name, const uint8_t *bytes, size_t length)
{
    FILE *file = fopen(name, "wb");
    if (file == NULL || fwrite(bytes, 1, length, file) != length || fclose(file) != 0)
        die("%s: it cannot be written", name);
}

/* A histogram as a record, and back. */
static void print_record(const char *line, const uint32_t histogram[XEL_BINS], const char *name)
{
    uint8_t bytes[XEL_HISTOGRAM_RECORD];
    uint32_t back[XEL_BINS];
    size_t written = 0;

    done("write", xel_histogram_write(histogram, XEL_BINS, bytes, sizeof bytes, &written));
    if (name != NULL)
        save(name, bytes, written);
    done("read", xel_histogram_read(bytes, written, back, XEL_BINS));
    if (memcmp(back, histogram, sizeof back) != 0)
        die("the record is read back as another");
    printf("%-16s%zu bytes, read back the same\n", line, written);
}

static void print_readings(const struct measurement *m, const struct sound *sound, const struct options *options)
{
    printf("sound           %s, channels %zu, %" PRIu32 " Hz, %" PRIu64 " frames\n", sound->kind == SOUND_I16 ? "i16" : "f32",
           m->channels, m->rate, m->frames);
    printf("blocks          %" PRIu64 " of 400 ms, %" PRIu64 " of 3 s\n", m->blocks.number, m->short_blocks.number);
    print_peaks(m);
    print_loudest(m);
    print_gate(m->blocks.histogram);
    print_range(m->short_blocks.histogram);
    print_record("record", m->blocks.histogram, options->record);
    print_record("range record", m->short_blocks.histogram, options->range_record);
}

static _Noreturn void usage(void)
{
    fputs("usage: measure [--raw CHANNELS RATE] [--record OUT] [--range-record OUT] FILE\n", stderr);
    exit(2);
}

/* A number of decimal digits and nothing else, at most `most`. */
static uint64_t number_of(const char *word, uint64_t most)
{
    uint64_t number = 0;
    if (*word == '\0')
        usage();
    for (; *word != '\0'; word++) {
        if (*word < '0' || *word > '9')
            usage();
        number = 10 * number + (uint64_t)(*word - '0');
        if (number > most)
            usage();
    }
    return number;
}

static struct options options_of(int words, char **word)
{
    struct options options = {0};
    int i = 1;
    for (; i < words && strncmp(word[i], "--", 2) == 0; i++) {
        if (strcmp(word[i], "--raw") == 0 && i + 2 < words) {
            options.raw = true;
            options.channels = (size_t)number_of(word[++i], UINT16_MAX);
            options.rate = (uint32_t)number_of(word[++i], UINT32_MAX);
        } else if (strcmp(word[i], "--record") == 0 && i + 1 < words) {
            options.record = word[++i];
        } else if (strcmp(word[i], "--range-record") == 0 && i + 1 < words) {
            options.range_record = word[++i];
        } else {
            usage();
        }
    }
    if (i + 1 != words)
        usage();
    options.file = word[i];
    return options;
}

int main(int words, char **word)
{
    struct options options = options_of(words, word);
    struct sound sound = {0};
    FILE *file = strcmp(options.file, "-") == 0 ? stdin : fopen(options.file, "rb");
    if (file == NULL)
        die("%s: it cannot be opened", options.file);
    const char *wrong = options.raw ? sound_open_raw(&sound, file, options.channels, options.rate) : sound_open_wav(&sound, file);
    if (wrong != NULL)
        die("%s: %s", options.file, wrong);

    struct measurement *m = begin(&sound);
    measure(m, &sound);
    print_readings(m, &sound, &options);
    free(m->now.any);
    free(m->ring);
    free(m);
    fclose(file);
    return ferror(stdout) || fflush(stdout) != 0;
}
