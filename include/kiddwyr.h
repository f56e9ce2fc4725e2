/* Kiddwyr: the syllables of a spoken take and their pitch, for C and C++ on x86-64 Linux.
 *
 * A take is measured in n frames of 10 ms. A track has one value for each frame:
 *
 *   db        loudness in dB; not finite for a frame without sound
 *   pitch     in Hz; +0.0 for none
 *   voiced    how surely the frame is voiced, 0 to 1
 *   sonority  0 to 1; where its length is not n there are no extras
 *   speech, vowel  marks, 0 or 1; frames past the end of such a list have mark 0
 *   samples   the sound, 16,000 samples of 16 bits a second: frame i is around sample 160 i
 *
 * Every list is a pointer and the number of its entries. The pointer is aligned for its entries; it
 * may be null where the number is 0. A list that a function writes overlaps no other list of the
 * call. Floating point is in the mode that a program starts in: it rounds to nearest, and numbers near
 * 0 are not flushed to it, neither as results nor as operands (FTZ and DAZ are off). Beyond that no
 * function asks anything of its caller: whatever it cannot take it refuses, by a number.
 *
 * Lists without const are lent: results are written to the front of a result list, the answer says
 * how many, and entries past that stay as they were. A result list must have room for n entries, one
 * of boundaries for n + 1, whatever is found. Pitches are changed in place. After a refusal counts
 * are 0, no region is found, and nothing lent has changed.
 *
 * What a call returns and leaves is proved to every bit, but for one thing: the logic knows a single
 * NaN, so which of them an entry that stays still holds is left open. Tests see that its bits stay too.
 *
 * No function allocates, keeps anything between calls or calls the system, so calls in different
 * threads do not meet unless they share a list. This is so because the language that the library
 * is written in has no global state, and gives its heap and the system only to functions that are
 * lent a handle, which none here is; and `nm` lists no undefined symbol but the C library's helpers
 * that copy and fill memory. What a call needs it has on the stack: the chain about
 * 105 KB, the others less.
 */
#ifndef KIDDWYR_H
#define KIDDWYR_H

#include <stdbool.h>
#include <stddef.h>
#include <stdint.h>

#ifdef __cplusplus
extern "C" {
#endif

/* The version of this header, as a text and as a number: 10,000 times its first part, 100 times the second, and the third. */
#define KIDDWYR_VERSION "6.0.0"
#define KIDDWYR_VERSION_NUMBER 60000

/* The longest take, in frames and in samples. */
#define KIDDWYR_MAX_FRAMES 2048
#define KIDDWYR_MAX_SAMPLES 327680

/* Why a call is refused: the lowest number that applies. A function tests only what it is given. */
enum kiddwyr_refusal {
    KIDDWYR_ADMITTED = 0,
    KIDDWYR_TOO_LONG = 1,      /* a track, mark list or nucleus list of more than 2,048 entries */
    KIDDWYR_UNEQUAL = 2,       /* db, pitch and voiced of different lengths */
    KIDDWYR_BAD_SETTING = 3,   /* not finite, or outside its range */
    KIDDWYR_BAD_DB = 4,        /* finite and outside -1,000 to 1,000 */
    KIDDWYR_BAD_PITCH = 5,     /* a pitch that is not +0.0 and outside 20 to 4,000 Hz (repair and chain:
                                * 40 to 2,000), or a voiced outside 0 to 1 */
    KIDDWYR_BAD_SHARE = 6,     /* a sonority outside 0 to 1, a mark above 1 */
    KIDDWYR_BAD_REGION = 7,    /* its start is after its end, or its end past the take */
    KIDDWYR_BAD_NUCLEI = 8,    /* given ones do not rise strictly, or lie past the take */
    KIDDWYR_TOO_MUCH_SOUND = 9, /* more than 327,680 samples */
    KIDDWYR_NO_ROOM = 10,      /* a result list is too short */
    KIDDWYR_BAD_FILE = 11      /* a take file's bytes disagree; for whoever reads one, no function here
                                * answers it */
};

struct kiddwyr_settings {
    float margin; /* dB, 0 to 200: how far over the floor speech lies */
    float dip;    /* dB, 0 to 200: how far the level falls between two nuclei */
    uint32_t gap; /* frames, at most 1,000: how far apart two nuclei are at least */
};

/* What settings start from: struct kiddwyr_settings s = KIDDWYR_DEFAULTS; */
#define KIDDWYR_DEFAULTS {10.0f, 3.0f, 6}
/* What they started from before version 5, for lessons that were marked so. */
#define KIDDWYR_CLASSIC {10.0f, 2.0f, 6}

/* The nucleus of a syllable, or an extra candidate for one. */
struct kiddwyr_nucleus {
    uint32_t frame;
    float strength; /* dB over the floor; not read where nuclei are given */
};

struct kiddwyr_answer {
    uint32_t refusal;
    size_t count;
};

/* A region is the frames from start to before end; both are 0 where none is found. */
struct kiddwyr_span {
    uint32_t refusal;
    bool found;
    uint32_t start;
    uint32_t end;
};

struct kiddwyr_counted {
    uint32_t refusal;
    size_t extras;
    size_t edges;
};

struct kiddwyr_marks {
    uint32_t refusal;
    bool found;
    uint32_t start;
    uint32_t end;
    size_t nuclei;
    size_t extras;
    size_t edges;
    size_t boundaries;
};

/* The version of the library, as KIDDWYR_VERSION_NUMBER has the header's. */
uint32_t kiddwyr_version(void);

/* KIDDWYR_DEFAULTS and KIDDWYR_CLASSIC as the library has them, for callers that do not see a macro. */
struct kiddwyr_settings kiddwyr_defaults(void);
struct kiddwyr_settings kiddwyr_classic(void);

/* Marks the frames of speech with 1 and all others with 0: n marks. Refuses with 1, 3, 4, 10. */
struct kiddwyr_answer kiddwyr_speech_marks(
    const float *db, size_t db_len,
    struct kiddwyr_settings settings,
    uint8_t *marks, size_t marks_room);

/* Finds the region of speech. Refuses with 1, 3, 4. */
struct kiddwyr_span kiddwyr_region(
    const float *db, size_t db_len,
    struct kiddwyr_settings settings);

/* Puts pitches right that are an octave off, and returns the refusal. A repaired pitch may leave 40 to
 * 2,000 Hz, and is then refused here. Refuses with 1, 5. */
uint32_t kiddwyr_repair(float *pitch, size_t pitch_len);

/* Gives pitches to stretches of speech that have none and repeat themselves, and returns the refusal.
 * Tried are the frames with both marks. Refuses with 1, 5, 6, 9. */
uint32_t kiddwyr_recover(
    float *pitch, size_t pitch_len,
    const int16_t *samples, size_t samples_len,
    const uint8_t *speech, size_t speech_len,
    const uint8_t *vowel, size_t vowel_len);

/* The nuclei of a region, frames rising. Refuses with 1 to 5, 7, 10. */
struct kiddwyr_answer kiddwyr_nuclei(
    const float *db, size_t db_len,
    const float *pitch, size_t pitch_len,
    size_t start, size_t end,
    struct kiddwyr_settings settings,
    struct kiddwyr_nucleus *list, size_t list_room);

/* The extra candidates of a region beside given nuclei, and the edges that they bring.
 * Refuses with 1 to 8, 10. */
struct kiddwyr_counted kiddwyr_extras(
    const float *db, size_t db_len,
    const float *pitch, size_t pitch_len,
    const float *sonority, size_t sonority_len,
    size_t start, size_t end,
    const struct kiddwyr_nucleus *nuclei, size_t nuclei_len,
    struct kiddwyr_settings settings,
    struct kiddwyr_nucleus *list, size_t list_room,
    uint32_t *edges, size_t edges_room);

/* The boundaries of a region around given nuclei, as frames, its start and its end among them. A region
 * without frames has one boundary, its start: on a take of no frames that is 0.
 * Refuses with 1 to 5, 7, 8, 10. */
struct kiddwyr_answer kiddwyr_boundaries_with(
    const float *db, size_t db_len,
    const float *pitch, size_t pitch_len,
    const float *voiced, size_t voiced_len,
    size_t start, size_t end,
    const struct kiddwyr_nucleus *nuclei, size_t nuclei_len,
    struct kiddwyr_settings settings,
    uint32_t *out, size_t out_room);

/* The same under KIDDWYR_DEFAULTS: a dip of 3 dB, where versions before 5 had 2. Refuses with 1, 2, 4, 5, 7, 8, 10. */
struct kiddwyr_answer kiddwyr_boundaries(
    const float *db, size_t db_len,
    const float *pitch, size_t pitch_len,
    const float *voiced, size_t voiced_len,
    size_t start, size_t end,
    const struct kiddwyr_nucleus *nuclei, size_t nuclei_len,
    uint32_t *out, size_t out_room);

/* Every stage on the tracks as those before it left them: recovery, by the speech marks; the repair of
 * given and recovered pitches together; then the region, its nuclei, extras and boundaries. Where no
 * region is found the pitches are written all the same. A given pitch is changed by the repair alone, as
 * kiddwyr_repair would change it, whatever is recovered. The chain can write a pitch that it would itself
 * refuse: keep the pitches as given if it is to run again. Of two calls that differ in their samples
 * alone, those of one being those of the other times a whole number other than 0, both return and leave
 * the same. Refuses with 1 to 6, 9, 10. */
struct kiddwyr_marks kiddwyr_chain(
    const float *db, size_t db_len,
    float *pitch, size_t pitch_len,
    const float *voiced, size_t voiced_len,
    const float *sonority, size_t sonority_len,
    const uint8_t *vowel, size_t vowel_len,
    const int16_t *samples, size_t samples_len,
    struct kiddwyr_settings settings,
    struct kiddwyr_nucleus *nuclei, size_t nuclei_room,
    struct kiddwyr_nucleus *extras, size_t extras_room,
    uint32_t *edges, size_t edges_room,
    uint32_t *boundaries, size_t boundaries_room);

#ifdef __cplusplus
}
#endif

#endif
