/* How much stack the chain uses: it runs on a thread whose stack was filled with a pattern, and the part that no longer
   holds the pattern is measured. Prints the most of several full takes, in bytes. */
#include <pthread.h>
#include <stdint.h>
#include <stdio.h>
#include <stdlib.h>
#include <string.h>

#include "kiddwyr.h"

enum { FRAMES = 2048, SAMPLES = 160 * FRAMES, STACK = 4 << 20, PATTERN = 0xa5 };

static float db[FRAMES], pitch[FRAMES], voiced[FRAMES], sonority[FRAMES];
static uint8_t vowel[FRAMES];
static int16_t samples[SAMPLES];
static struct kiddwyr_nucleus nuclei[FRAMES], extras[FRAMES];
static uint32_t edges[FRAMES], boundaries[FRAMES + 1];

/* Syllables of some 20 frames: loud and pitched, loud only, or quiet. */
static void make_take(unsigned seed) {
    srand(seed);
    for (int i = 0; i < FRAMES; i++) {
        int kind = (i / 20 + (int)seed) % 3;
        db[i] = kind == 2 ? -60.0f : -20.0f - (float)(rand() % 4);
        pitch[i] = kind == 0 && rand() % 12 ? 150.0f + (float)(rand() % 60) : 0.0f;
        voiced[i] = pitch[i] > 0 ? 1.0f : 0.0f;
        sonority[i] = (float)(rand() % 5) / 4;
        vowel[i] = 1;
    }
    for (int i = 0; i < SAMPLES; i++)
        samples[i] = (int16_t)((i % 80) * 200 - 8000 + rand() % 100);
}

static void *run(void *unused) {
    (void)unused;
    struct kiddwyr_settings p = KIDDWYR_DEFAULTS;
    struct kiddwyr_marks m = kiddwyr_chain(db, FRAMES, pitch, FRAMES, voiced, FRAMES, sonority, FRAMES, vowel, FRAMES,
                                    samples, SAMPLES, p, nuclei, FRAMES, extras, FRAMES, edges, FRAMES, boundaries,
                                    FRAMES + 1);
    if (m.refusal != 0)
        printf("refused %u\n", m.refusal);
    return NULL;
}

/* An empty thread, whose use of the stack is not the chain's. */
static void *rest(void *unused) { return unused; }

static size_t used_by(void *(*body)(void *), unsigned char *stack) {
    pthread_attr_t attr;
    pthread_t thread;
    memset(stack, PATTERN, STACK);
    pthread_attr_init(&attr);
    pthread_attr_setstack(&attr, stack, STACK);
    if (pthread_create(&thread, &attr, body, NULL) != 0)
        exit(2);
    pthread_join(thread, NULL);
    pthread_attr_destroy(&attr);
    size_t untouched = 0;
    while (untouched < STACK && stack[untouched] == PATTERN)
        untouched++;
    return STACK - untouched;
}

int main(void) {
    unsigned char *stack = aligned_alloc(4096, STACK);
    size_t most = 0, least = used_by(rest, stack);
    for (unsigned seed = 0; seed < 8; seed++) {
        make_take(seed);
        size_t used = used_by(run, stack) - least;
        most = used > most ? used : most;
    }
    printf("%zu bytes of stack\n", most);
    free(stack);
    return 0;
}
