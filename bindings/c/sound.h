/* Samples of a WAV file or of a raw stream, read in order. */
#ifndef SOUND_H
#define SOUND_H

#include <stddef.h>
#include <stdint.h>
#include <stdio.h>

/* The kinds of samples that are read: those that the library takes. */
enum sound_kind { SOUND_I16, SOUND_F32 };

struct sound {
    FILE *file;
    enum sound_kind kind;
    size_t channels;
    uint32_t rate;
    uint64_t left; /* bytes of samples still to come; UINT64_MAX where they last until the end */
};

/* Room for samples of either kind. */
union samples {
    int16_t *i16;
    float *f32;
    void *any;
};

/* How many bytes a sample has. */
size_t sound_width(const struct sound *sound);

/*
 * Both take an open file and answer NULL, or what is wrong with it. A WAV file has 16-bit PCM or 32-bit float samples; a raw
 * stream is 16-bit samples, low byte first, and nothing else.
 */
const char *sound_open_wav(struct sound *sound, FILE *file);
const char *sound_open_raw(struct sound *sound, FILE *file, size_t channels, uint32_t rate);

/*
 * Reads the next samples into `into`, which has room for `most`, and sets `read` to how many there were: fewer than `most` at
 * the end alone. Answers NULL, or what is wrong.
 */
const char *sound_read(struct sound *sound, size_t most, union samples into, size_t *read);

#endif
