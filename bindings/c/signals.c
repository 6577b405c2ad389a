/*
 * signals NAME FILE: writes a test signal, so that none is kept here as bytes. signals alone prints the names, a line each, and
 * after that of a raw stream how it is to be read.
 *
 * A signal is steps of a tone, each of some seconds at some level. `tone` and `steps` are after the first test signals of EBU Tech
 * 3341 (a stereo tone of -23 dBFS has -23.0 LUFS) and Tech 3342 (20 s of -20 and 20 s of -30 dBFS have a range of 10 LU). The
 * others bring a reader or the library to what an ordinary file does not: every number of channels, every class of rates, tenths of a
 * second that are no whole number of frames, and the refusals that a sound can lead to.
 */
#include <math.h>
#include <stdbool.h>
#include <stdint.h>
#include <stdio.h>
#include <string.h>

enum form { I16, F32, RAW };

/* A level at which every sample is 0. */
#define SILENT -1000.0

struct step {
    double seconds, decibels;
};

static const struct signal {
    const char *name;
    enum form form;
    uint16_t channels;
    uint32_t rate;
    double hertz;
    double apart;         /* decibels from one channel to the next, so that no two can be taken for one another */
    uint32_t beyond;      /* samples past the last whole frame */
    struct step steps[6]; /* those past the last have no length */
} signals[] = {
    {"tone", I16, 2, 48000, 1000.0, 0.0, 0, {{20.0, -23.0}}},
    {"steps", F32, 2, 48000, 1000.0, 0.0, 0, {{20.0, -20.0}, {20.0, -30.0}}},
    {"bursts", I16, 6, 44100, 997.0, -1.5, 0, {{0.4, -6.0}, {0.6, SILENT}, {1.7, -30.0}, {0.05, -0.1}, {3.3, -18.0}, {0.35, -50.0}}},
    {"mono", F32, 1, 96000, 11025.0, 0.0, 0, {{1.0, -3.0}, {4.0, -40.0}, {1.013, 1.5}}},
    {"three", F32, 3, 11025, 500.0, -2.5, 0, {{2.5, -8.0}, {2.5, -28.0}, {2.5, -9.0}}},
    {"four", I16, 4, 22050, 440.0, -2.0, 0, {{3.7, -12.0}, {1.0, -60.0}, {3.7, -14.0}}},
    {"five", F32, 5, 192000, 3000.0, -1.0, 0, {{3.2, -9.0}, {1.0, -27.0}}},
    {"seven", I16, 7, 44104, 1500.0, -1.0, 0, {{4.1, -20.0}, {4.1, -15.0}}},
    {"eight", I16, 8, 48000, 60.0, -3.0, 0, {{4.0, -1.0}, {0.5, SILENT}}},
    {"raw", RAW, 2, 44100, 1000.0, -4.0, 0, {{2.0, -10.0}, {2.0, -20.0}, {1.0, -10.0}}},
    {"short", I16, 2, 48000, 1000.0, 0.0, 0, {{0.3, -10.0}}},
    {"silence", I16, 1, 48000, 1000.0, 0.0, 0, {{5.0, SILENT}}},
    {"loud", F32, 2, 48000, 1000.0, 0.0, 0, {{4.0, 60.0}}},
    {"nine", I16, 9, 48000, 1000.0, 0.0, 0, {{0.5, -10.0}}},
    {"uneven", RAW, 2, 48000, 1000.0, 0.0, 1, {{1.0, -10.0}}},
};

static const size_t SIGNALS = sizeof signals / sizeof *signals;

static void put(FILE *file, uint32_t number, int bytes)
{
    for (int i = 0; i < bytes; i++)
        putc((int)(number >> 8 * i & 0xFF), file);
}

static uint32_t frames_of(const struct signal *signal, const struct step *step)
{
    return (uint32_t)lround(step->seconds * signal->rate);
}

static void put_head(FILE *file, const struct signal *signal)
{
    uint32_t width = signal->form == F32 ? 4 : 2, frames = 0;
    for (const struct step *step = signal->steps; step < signal->steps + 6; step++)
        frames += frames_of(signal, step);
    uint32_t length = (frames * signal->channels + signal->beyond) * width;

    fputs("RIFF", file);
    put(file, 36 + length, 4);
    fputs("WAVEfmt ", file);
    put(file, 16, 4);
    put(file, signal->form == F32 ? 3 : 1, 2);
    put(file, signal->channels, 2);
    put(file, signal->rate, 4);
    put(file, signal->rate * signal->channels * width, 4);
    put(file, signal->channels * width, 2);
    put(file, 8 * width, 2);
    fputs("data", file);
    put(file, length, 4);
}

static void put_sample(FILE *file, enum form form, double value)
{
    if (form == F32) {
        float sample = (float)value;
        uint32_t pattern;
        memcpy(&pattern, &sample, sizeof pattern);
        put(file, pattern, 4);
    } else {
        put(file, (uint32_t)lround(value * 32767.0), 2);
    }
}

static double level(double decibels)
{
    return decibels < -300.0 ? 0.0 : pow(10.0, decibels / 20.0);
}

/* A step goes on where the one before it has ended. */
static void put_samples(FILE *file, const struct signal *signal)
{
    const double pi = 3.14159265358979323846;
    uint32_t at = 0;
    for (const struct step *step = signal->steps; step < signal->steps + 6; step++) {
        for (uint32_t end = at + frames_of(signal, step); at < end; at++) {
            double tone = sin(2.0 * pi * signal->hertz * at / signal->rate);
            for (uint16_t c = 0; c < signal->channels; c++)
                put_sample(file, signal->form, tone * level(step->decibels + c * signal->apart));
        }
    }
    for (uint32_t i = 0; i < signal->beyond; i++)
        put_sample(file, signal->form, 0.0);
}

static int write_signal(const struct signal *signal, const char *name)
{
    FILE *file = fopen(name, "wb");
    if (file == NULL) {
        fprintf(stderr, "signals: %s: it cannot be written\n", name);
        return 1;
    }
    if (signal->form != RAW)
        put_head(file, signal);
    put_samples(file, signal);
    bool failed = ferror(file) != 0;
    return fclose(file) != 0 || failed;
}

static void print_name(const struct signal *signal)
{
    printf("%s", signal->name);
    if (signal->form == RAW)
        printf(" --raw %u %lu", (unsigned)signal->channels, (unsigned long)signal->rate);
    putchar('\n');
}

int main(int words, char **word)
{
    for (const struct signal *signal = signals; signal < signals + SIGNALS; signal++) {
        if (words == 1)
            print_name(signal);
        else if (words == 3 && strcmp(word[1], signal->name) == 0)
            return write_signal(signal, word[2]);
    }
    if (words == 1)
        return 0;
    fputs("usage: signals [NAME FILE]\n", stderr);
    return 2;
}
