#include "sound.h"

#include <stdbool.h>
#include <string.h>

/* The formats of a WAV file's samples; the third says that the format stands further on in the chunk. */
enum { PCM = 1, FLOAT = 3, EXTENSIBLE = 0xFFFE };

/* What a chunk's length says that was not known when the file was begun. */
static const uint32_t UNKNOWN_LENGTH = 0xFFFFFFFF;

static uint16_t u16_of(const uint8_t *bytes)
{
    return (uint16_t)(bytes[0] | bytes[1] << 8);
}

static uint32_t u32_of(const uint8_t *bytes)
{
    return (uint32_t)u16_of(bytes) | (uint32_t)u16_of(bytes + 2) << 16;
}

static bool take(FILE *file, uint8_t *bytes, size_t length)
{
    return fread(bytes, 1, length, file) == length;
}

/* Reads past bytes, since a stream cannot be sought in. */
static bool skip(FILE *file, uint64_t length)
{
    for (; length > 0; length--)
        if (getc(file) == EOF)
            return false;
    return true;
}

size_t sound_width(const struct sound *sound)
{
    return sound->kind == SOUND_I16 ? sizeof(int16_t) : sizeof(float);
}

/* The chunk `fmt `: 16 bytes, or 40 where it is extensible, whose format is then at 24. */
static const char *read_format(struct sound *sound, uint32_t length)
{
    uint8_t bytes[40] = {0};
    size_t wanted = length < sizeof bytes ? length : sizeof bytes;
    if (length < 16)
        return "its format is too short";
    if (!take(sound->file, bytes, wanted) || !skip(sound->file, length - wanted + length % 2))
        return "it ends within its format";

    unsigned format = u16_of(bytes), bits = u16_of(bytes + 14);
    if (format == EXTENSIBLE)
        format = u16_of(bytes + 24);
    sound->channels = u16_of(bytes + 2);
    sound->rate = u32_of(bytes + 4);
    if (format == PCM && bits == 16)
        sound->kind = SOUND_I16;
    else if (format == FLOAT && bits == 32)
        sound->kind = SOUND_F32;
    else
        return "its samples are neither 16-bit PCM nor 32-bit float";
    return NULL;
}

/* Reads all that stands before the samples. */
static const char *read_head(struct sound *sound)
{
    FILE *file = sound->file;
    uint8_t head[12];
    bool format = false;

    if (!take(file, head, 12) || memcmp(head, "RIFF", 4) != 0 || memcmp(head + 8, "WAVE", 4) != 0)
        return "it is not a WAV file";
    /* chunks of any kind may stand before the samples */
    while (take(file, head, 8)) {
        uint32_t length = u32_of(head + 4);
        if (memcmp(head, "data", 4) == 0) {
            sound->left = length == UNKNOWN_LENGTH ? UINT64_MAX : length;
            return format ? NULL : "its samples come before their format";
        }
        if (memcmp(head, "fmt ", 4) == 0) {
            const char *wrong = read_format(sound, length);
            if (wrong != NULL)
                return wrong;
            format = true;
        } else if (!skip(file, (uint64_t)length + length % 2)) {
            break;
        }
    }
    return "it has no samples";
}

const char *sound_open_wav(struct sound *sound, FILE *file)
{
    sound->file = file;
    const char *wrong = read_head(sound);
    /* what could not be read looks as if it had ended */
    return wrong != NULL && ferror(file) ? "it cannot be read" : wrong;
}

const char *sound_open_raw(struct sound *sound, FILE *file, size_t channels, uint32_t rate)
{
    *sound = (struct sound){file, SOUND_I16, channels, rate, UINT64_MAX};
    return NULL;
}

/* Turns the bytes at a sample's place into the sample, whatever this machine's order of bytes. */
static void decode(const struct sound *sound, union samples samples, size_t number)
{
    const uint8_t *bytes = samples.any;
    for (size_t i = 0; i < number; i++) {
        if (sound->kind == SOUND_I16) {
            uint16_t pattern = u16_of(bytes + 2 * i);
            memcpy(samples.i16 + i, &pattern, sizeof pattern);
        } else {
            uint32_t pattern = u32_of(bytes + 4 * i);
            memcpy(samples.f32 + i, &pattern, sizeof pattern);
        }
    }
}

const char *sound_read(struct sound *sound, size_t most, union samples into, size_t *read)
{
    size_t width = sound_width(sound), wanted = most * width;
    if (wanted > sound->left)
        wanted = (size_t)sound->left;
    size_t got = fread(into.any, 1, wanted, sound->file);
    if (ferror(sound->file))
        return "it cannot be read";
    if (got < wanted && sound->left != UINT64_MAX)
        return "it ends before its samples do";
    if (got % width != 0)
        return "it ends within a sample";
    if (sound->left != UINT64_MAX)
        sound->left -= got;
    *read = got / width;
    decode(sound, into, *read);
    return NULL;
}
