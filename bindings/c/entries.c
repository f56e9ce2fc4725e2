/* entries: calls every function of the header on small takes and says which answer is wrong; status 1 if
 * one is. */
#include "kiddwyr.h"

#include <math.h>
#include <stdio.h>

enum { N = 40, ROOM = N + 1 };

static float db[N], pitch[N], voiced[N], sonority[N];
static uint8_t speech[N], vowel[N], marks[ROOM];
static int16_t samples[160 * N];
static struct kiddwyr_nucleus nuclei[ROOM], extras[ROOM];
static uint32_t edges[ROOM], boundaries[ROOM];
static int wrong;

#define CHECK(fact) check(fact, #fact, __LINE__)

static void check(bool fact, const char *text, int line)
{
    if (!fact) {
        printf("line %d: not so: %s\n", line, text);
        wrong = 1;
    }
}

/* Loud at 8 to 31, 200 Hz at 10 to 29, and a vowel that changes at 21. */
static void make_take(void)
{
    for (int i = 0; i < N; i++) {
        db[i] = 8 <= i && i <= 31 ? -20.0f : -60.0f;
        voiced[i] = 10 <= i && i <= 29 ? 1.0f : 0.0f;
        pitch[i] = 200.0f * voiced[i];
        sonority[i] = i <= 20 ? 0.75f : i == 21 ? 0.5f : 0.25f;
        speech[i] = vowel[i] = 1;
    }
    for (int j = 0; j < 160 * N; j++)
        samples[j] = (int16_t)(j % 80 < 30 ? 50 * (j % 80) : -20 * (j % 80));
}

static void call_each(struct kiddwyr_settings s, uint32_t refusal)
{
    const struct kiddwyr_nucleus given = {15, NAN};
    bool good = refusal == KIDDWYR_ADMITTED;

    struct kiddwyr_answer a = kiddwyr_speech_marks(db, N, s, marks, ROOM);
    CHECK(a.refusal == refusal && a.count == (good ? N : 0));
    CHECK(!good || (marks[7] == 0 && marks[8] == 1 && marks[31] == 1 && marks[32] == 0));

    struct kiddwyr_span r = kiddwyr_region(db, N, s);
    CHECK(r.refusal == refusal && r.found == good);
    CHECK(r.start == (good ? 8 : 0) && r.end == (good ? 32 : 0));

    a = kiddwyr_nuclei(db, N, pitch, N, 8, 32, s, nuclei, ROOM);
    CHECK(a.refusal == refusal && a.count == (good ? 1 : 0));
    CHECK(!good || (8 <= nuclei[0].frame && nuclei[0].frame < 32 && nuclei[0].strength == 40.0f));

    struct kiddwyr_counted c =
        kiddwyr_extras(db, N, pitch, N, sonority, N, 8, 32, &given, 1, s, extras, ROOM, edges, ROOM);
    CHECK(c.refusal == refusal && c.extras == (good ? 1 : 0) && c.edges == (good ? 1 : 0));
    CHECK(!good || (extras[0].frame == 25 && extras[0].strength == 40.0f && edges[0] == 22));

    a = kiddwyr_boundaries_with(db, N, pitch, N, voiced, N, 8, 32, &given, 1, s, boundaries, ROOM);
    CHECK(a.refusal == refusal && a.count == (good ? 2 : 0));
    CHECK(!good || (boundaries[0] == 8 && boundaries[1] == 32));

    struct kiddwyr_marks m = kiddwyr_chain(
        db, N, pitch, N, voiced, N, sonority, N, vowel, N, samples, 160 * N, s,
        nuclei, ROOM, extras, ROOM, edges, ROOM, boundaries, ROOM);
    CHECK(m.refusal == refusal && m.found == good);
    CHECK(m.start == (good ? 8 : 0) && m.end == (good ? 32 : 0));
    CHECK(m.nuclei == (good ? 1 : 0) && m.boundaries == (good ? 2 : 0) && m.extras == m.edges);
}

static bool same(struct kiddwyr_settings s, struct kiddwyr_settings t)
{
    return s.margin == t.margin && s.dip == t.dip && s.gap == t.gap;
}

/* The sets that have a name are the library's, and two nuclei with a dip of 2 dB and a break of pitch between them
 * are parted at the break's edges by the defaults, and at the lowest frame by the classic set. */
static void call_under_each_set(void)
{
    const struct kiddwyr_settings defaults = KIDDWYR_DEFAULTS, classic = KIDDWYR_CLASSIC;
    const struct kiddwyr_nucleus given[] = {{2, NAN}, {10, NAN}};
    enum { FRAMES = 13 };
    CHECK(same(kiddwyr_defaults(), defaults) && same(kiddwyr_classic(), classic) && !same(defaults, classic));
    for (int i = 0; i < FRAMES; i++) {
        db[i] = i == 6 ? -30.0f : -20.0f;
        voiced[i] = i <= 4 || 8 <= i ? 1.0f : 0.0f;
        pitch[i] = i <= 4 ? 200.0f : 238.0f * voiced[i];
    }
    struct kiddwyr_answer a = kiddwyr_boundaries(
        db, FRAMES, pitch, FRAMES, voiced, FRAMES, 0, FRAMES, given, 2, boundaries, ROOM);
    CHECK(a.refusal == KIDDWYR_ADMITTED && a.count == 4);
    CHECK(boundaries[0] == 0 && boundaries[1] == 5 && boundaries[2] == 8 && boundaries[3] == 13);
    a = kiddwyr_boundaries_with(
        db, FRAMES, pitch, FRAMES, voiced, FRAMES, 0, FRAMES, given, 2, classic, boundaries, ROOM);
    CHECK(a.refusal == KIDDWYR_ADMITTED && a.count == 3);
    CHECK(boundaries[0] == 0 && boundaries[1] == 6 && boundaries[2] == 13);
}

int main(void)
{
    struct kiddwyr_settings s = KIDDWYR_DEFAULTS;
    const struct kiddwyr_nucleus given = {15, NAN};
    CHECK(kiddwyr_version() == KIDDWYR_VERSION_NUMBER);
    call_under_each_set();
    make_take();
    call_each(s, KIDDWYR_ADMITTED);
    s.gap = 1001;
    call_each(s, KIDDWYR_BAD_SETTING);

    struct kiddwyr_answer a =
        kiddwyr_boundaries(db, N, pitch, N, voiced, N, 8, 32, &given, 1, boundaries, ROOM);
    CHECK(a.refusal == KIDDWYR_ADMITTED && a.count == 2);
    a = kiddwyr_boundaries(db, N, pitch, N, voiced, N, 8, N + 1, &given, 1, boundaries, ROOM);
    CHECK(a.refusal == KIDDWYR_BAD_REGION && a.count == 0);

    pitch[20] = 400.0f;
    CHECK(kiddwyr_repair(pitch, N) == KIDDWYR_ADMITTED && pitch[20] == 200.0f);
    for (int i = 0; i < N; i++)
        pitch[i] = 0.0f;
    CHECK(kiddwyr_recover(pitch, N, samples, 160 * N, speech, N, vowel, N) == KIDDWYR_ADMITTED);
    CHECK(199.0f < pitch[20] && pitch[20] < 201.0f);

    /* Without entries a pointer may be null; boundaries still need room for one. */
    CHECK(kiddwyr_repair(NULL, 0) == KIDDWYR_ADMITTED);
    CHECK(kiddwyr_recover(NULL, 0, NULL, 0, NULL, 0, NULL, 0) == KIDDWYR_ADMITTED);
    s.gap = 6;
    struct kiddwyr_marks m = kiddwyr_chain(
        NULL, 0, NULL, 0, NULL, 0, NULL, 0, NULL, 0, NULL, 0, s, NULL, 0, NULL, 0, NULL, 0, NULL, 0);
    CHECK(m.refusal == KIDDWYR_NO_ROOM);
    m = kiddwyr_chain(
        NULL, 0, NULL, 0, NULL, 0, NULL, 0, NULL, 0, NULL, 0, s, NULL, 0, NULL, 0, NULL, 0, boundaries, 1);
    CHECK(m.refusal == KIDDWYR_ADMITTED && !m.found);
    return wrong;
}
