/* marks [SOUND]: reads a take file on standard input and prints the listing of its marks. docs/TAKE-FILE.md
 * says what both look like. SOUND is a WAV file with the samples of the take; without it there are none.
 * Status 1 where something cannot be read or the listing not be written. */
#include "kiddwyr.h"

#include <inttypes.h>
#include <stdio.h>
#include <string.h>

enum { HEAD = 19, RECORD = 17, SOUND_HEAD = 44, MAX_FRAMES = KIDDWYR_MAX_FRAMES };

struct take {
    struct kiddwyr_settings settings;
    size_t frames;
    float db[MAX_FRAMES], pitch[MAX_FRAMES], voiced[MAX_FRAMES], sonority[MAX_FRAMES];
    uint8_t vowel[MAX_FRAMES];
};

/* One byte more than the largest take shows that an input is longer. */
static uint8_t file[HEAD + RECORD * MAX_FRAMES + 1];
static struct take take;
/* One sample more than a take may have shows that a sound is longer. */
static int16_t samples[KIDDWYR_MAX_SAMPLES + 1];
static size_t sample_count;

static uint32_t u32_at(const uint8_t *p)
{
    return (uint32_t)p[0] << 24 | (uint32_t)p[1] << 16 | (uint32_t)p[2] << 8 | p[3];
}

static float f32_at(const uint8_t *p)
{
    uint32_t bits = u32_at(p);
    float value;
    memcpy(&value, &bits, sizeof value);
    return value;
}

static uint32_t bits_of(float value)
{
    uint32_t bits;
    memcpy(&bits, &value, sizeof bits);
    return bits;
}

/* Stores what fits of an input and counts all of it. */
static size_t read_all(FILE *in)
{
    size_t size = fread(file, 1, sizeof file, in);
    if (size == sizeof file) {
        uint8_t rest[4096];
        size_t more;
        while ((more = fread(rest, 1, sizeof rest, in)) > 0)
            size += more;
    }
    return size;
}

/* The samples of a WAV file with the usual head: one channel, 16,000 samples a second, 16 bits each.
 * Returns whether it is one. */
static int read_sound(const char *name)
{
    static const uint8_t form[] = {16, 0, 0, 0, 1, 0, 1, 0, 0x80, 0x3e, 0, 0, 0, 0x7d, 0, 0, 2, 0, 16, 0,
        'd', 'a', 't', 'a'};
    uint8_t head[SOUND_HEAD], pair[2];
    FILE *in = fopen(name, "rb");
    if (in == NULL)
        return 0;
    int good = fread(head, 1, sizeof head, in) == sizeof head && memcmp(head, "RIFF", 4) == 0 &&
        memcmp(head + 8, "WAVEfmt ", 8) == 0 && memcmp(head + 16, form, sizeof form) == 0;
    size_t left = good ? (head[40] | head[41] << 8 | head[42] << 16 | (size_t)head[43] << 24) / 2 : 0;
    for (; left > 0 && sample_count <= KIDDWYR_MAX_SAMPLES && fread(pair, 1, 2, in) == 2; left--) {
        int value = pair[0] | pair[1] << 8;
        samples[sample_count++] = (int16_t)(value < 32768 ? value : value - 65536);
    }
    /* A file that ends before its samples do is none. */
    good = good && (left == 0 || sample_count > KIDDWYR_MAX_SAMPLES);
    fclose(in);
    return good;
}

/* The take of a file of so many bytes; returns the refusal. */
static uint32_t read_take(size_t size)
{
    if (size < 7)
        return KIDDWYR_BAD_FILE;
    size_t n = (size_t)file[5] << 8 | file[6];
    size_t whole = HEAD + RECORD * n;
    if (file[4] != 1 || u32_at(file) != whole - 4 || size != whole)
        return KIDDWYR_BAD_FILE;
    if (n > MAX_FRAMES)
        return KIDDWYR_TOO_LONG;
    take.frames = n;
    take.settings.margin = f32_at(file + 7);
    take.settings.dip = f32_at(file + 11);
    take.settings.gap = u32_at(file + 15);
    for (size_t i = 0; i < n; i++) {
        const uint8_t *record = file + HEAD + RECORD * i;
        take.db[i] = f32_at(record);
        take.pitch[i] = f32_at(record + 4);
        take.voiced[i] = f32_at(record + 8);
        take.sonority[i] = f32_at(record + 12);
        take.vowel[i] = record[16];
    }
    return KIDDWYR_ADMITTED;
}

static void list_nuclei(const char *word, const struct kiddwyr_nucleus *list, size_t count)
{
    for (size_t i = 0; i < count; i++)
        printf("%s %" PRIu32 " %08" PRIx32 "\n", word, list[i].frame, bits_of(list[i].strength));
}

static void list_frames(const char *word, const uint32_t *list, size_t count)
{
    for (size_t i = 0; i < count; i++)
        printf("%s %" PRIu32 "\n", word, list[i]);
}

/* Prints the marks of the take; returns the refusal, before which nothing is printed. */
static uint32_t list_marks(void)
{
    static float pitch[MAX_FRAMES];
    static struct kiddwyr_nucleus nuclei[MAX_FRAMES], extras[MAX_FRAMES];
    static uint32_t edges[MAX_FRAMES], boundaries[MAX_FRAMES + 1];
    size_t n = take.frames;
    memcpy(pitch, take.pitch, sizeof pitch);
    struct kiddwyr_marks found = kiddwyr_chain(
        take.db, n, pitch, n, take.voiced, n, take.sonority, n, take.vowel, n, samples,
        sample_count, take.settings, nuclei, MAX_FRAMES, extras, MAX_FRAMES, edges, MAX_FRAMES,
        boundaries, MAX_FRAMES + 1);
    if (found.refusal != KIDDWYR_ADMITTED)
        return found.refusal;
    for (size_t i = 0; i < n; i++) {
        if (bits_of(pitch[i]) != bits_of(take.pitch[i]))
            printf("pitch %zu %08" PRIx32 "\n", i, bits_of(pitch[i]));
    }
    if (found.found)
        printf("region %" PRIu32 " %" PRIu32 "\n", found.start, found.end);
    else
        puts("region none");
    list_nuclei("nucleus", nuclei, found.nuclei);
    list_nuclei("extra", extras, found.extras);
    list_frames("extra-edge", edges, found.edges);
    list_frames("boundary", boundaries, found.boundaries);
    return KIDDWYR_ADMITTED;
}

int main(int argc, char **argv)
{
    if (argc > 1 && !read_sound(argv[1])) {
        fprintf(stderr, "marks: %s is no WAV file of 16-bit samples, 16,000 a second, in one channel\n", argv[1]);
        return 1;
    }
    size_t size = read_all(stdin);
    if (ferror(stdin)) {
        perror("marks: the input cannot be read");
        return 1;
    }
    uint32_t refusal = read_take(size);
    if (refusal == KIDDWYR_ADMITTED)
        refusal = list_marks();
    if (refusal != KIDDWYR_ADMITTED)
        printf("refused %" PRIu32 "\n", refusal);
    if (fflush(stdout) != 0 || ferror(stdout)) {
        perror("marks: the listing cannot be written");
        return 1;
    }
    return 0;
}
