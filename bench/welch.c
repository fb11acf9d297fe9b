/* Measures one call of the C library on two classes of input, in turn at random, and tells Welch's t of the two times (the
 * method of dudect: Reparaz, Balasch, Verbauwhede, "Dude, is my code constant time?", 2017). bench/welch.py builds and runs it.
 *
 * usage: welch CASE ALPHABET COUNT SEED
 *   encode          a fixed input of 64 bytes, or random ones
 *   decode          the encoding of a fixed input of 64 bytes, or of random ones
 *   same_places     two tags of 64 bytes that differ in the last byte alone, or in the first
 *   same_equal      two equal tags, or two random ones
 *   control_leaks   as same_places, by a comparison that ends at the first difference
 *   control_cannot  as encode, by a loop that adds all bytes up
 * It prints the number of measurements, the t of all of them, and the greatest |t| of those below each of ten bounds that the first
 * 10,000 measurements give. */
#include <math.h>
#include <pwcheck.h>
#include <stdio.h>
#include <stdlib.h>
#include <string.h>
#include <x86intrin.h>

enum { SIZE = 64, ROOM = 128, BATCH = 10000, BOUNDS = 10 };

struct input { int class_number; size_t len; uint8_t a[ROOM], b[ROOM]; };
struct sums { double n[2], mean[2], squares[2]; };

static uint64_t state;

/* xorshift64* */
static uint64_t draw(void)
{
    state ^= state >> 12;
    state ^= state << 25;
    state ^= state >> 27;
    return state * 2685821657736338717u;
}

static void draw_bytes(uint8_t *to)
{
    for (size_t i = 0; i < SIZE; i++) to[i] = (uint8_t)(draw() >> 32);
}

static __attribute__((noinline)) int control_leaks(const uint8_t *a, const uint8_t *b, size_t n)
{
    for (size_t i = 0; i < n; i++)
        if (a[i] != b[i]) return 0;
    return 1;
}

static __attribute__((noinline)) int control_cannot(const uint8_t *a, size_t n)
{
    int sum = 0;
    for (size_t i = 0; i < n; i++) sum += a[i];
    return sum;
}

static volatile int answer;

static void prepare(struct input *input, const char *what, int alphabet)
{
    static const uint8_t fixed[SIZE] = "a fixed input of sixty-four bytes, which stays in each turn.";
    input->class_number = (int)(draw() >> 63);
    /* both are drawn in both classes, so that the time before a measurement is the same */
    uint8_t random[SIZE];
    draw_bytes(random);
    memcpy(input->a, input->class_number ? random : fixed, SIZE);
    memcpy(input->b, input->a, SIZE);
    input->len = SIZE;
    if (!strcmp(what, "decode")) {
        uint8_t text[ROOM];
        if (pwcheck_base64_encode(alphabet, input->a, SIZE, text, ROOM, &input->len) != PWCHECK_DONE) exit(3);
        memcpy(input->a, text, input->len);
    } else if (!strcmp(what, "same_places") || !strcmp(what, "control_leaks")) {
        input->b[input->class_number ? 0 : SIZE - 1] ^= 1;
    } else if (!strcmp(what, "same_equal") && input->class_number) {
        draw_bytes(input->b);
    }
}

/* The ticks of one call. */
static uint64_t measured(const struct input *input, const char *what, int alphabet)
{
    uint8_t out[ROOM];
    size_t len = 0;
    int which = what[0] == 'e' ? 0 : what[0] == 'd' ? 1 : what[0] == 's' ? 2 : !strcmp(what, "control_leaks") ? 3 : 4;
    unsigned core;
    _mm_mfence();
    _mm_lfence();
    uint64_t before = __rdtsc();
    _mm_lfence();
    switch (which) {
    case 0: answer = pwcheck_base64_encode(alphabet, input->a, SIZE, out, ROOM, &len); break;
    case 1: answer = pwcheck_base64_decode(alphabet, input->a, input->len, out, ROOM, &len); break;
    case 2: answer = pwcheck_same_bytes(input->a, SIZE, input->b, SIZE); break;
    case 3: answer = control_leaks(input->a, input->b, SIZE); break;
    default: answer = control_cannot(input->a, SIZE);
    }
    uint64_t after = __rdtscp(&core);
    _mm_lfence();
    if (which < 2 && answer != PWCHECK_DONE) exit(4);
    return after - before;
}

static void push(struct sums *sums, int class_number, double value)
{
    double n = ++sums->n[class_number], from = value - sums->mean[class_number];
    sums->mean[class_number] += from / n;
    sums->squares[class_number] += from * (value - sums->mean[class_number]);
}

static double welch(const struct sums *sums)
{
    if (sums->n[0] < 1000 || sums->n[1] < 1000) return 0;
    double error = 0;
    for (int c = 0; c < 2; c++) error += sums->squares[c] / (sums->n[c] - 1) / sums->n[c];
    return error > 0 ? (sums->mean[0] - sums->mean[1]) / sqrt(error) : 0;
}

static int by_size(const void *a, const void *b)
{
    uint64_t x = *(const uint64_t *)a, y = *(const uint64_t *)b;
    return (x > y) - (x < y);
}

int main(int argc, char **argv)
{
    if (argc != 5) return 2;
    const char *what = argv[1];
    int alphabet = atoi(argv[2]);
    long count = atol(argv[3]);
    state = strtoull(argv[4], NULL, 10) * 2 + 1;
    static struct input inputs[BATCH];
    static uint64_t ticks[BATCH], sorted[BATCH];
    uint64_t bounds[BOUNDS] = {0};
    struct sums all = {0}, below[BOUNDS] = {0};
    for (long done = -BATCH; done < count; done += BATCH) {
        for (int i = 0; i < BATCH; i++) prepare(&inputs[i], what, alphabet);
        for (int i = 0; i < BATCH; i++) ticks[i] = measured(&inputs[i], what, alphabet);
        if (done < 0) {     /* the first batch gives the bounds, and isn't counted */
            memcpy(sorted, ticks, sizeof sorted);
            qsort(sorted, BATCH, sizeof sorted[0], by_size);
            for (int i = 0; i < BOUNDS; i++) bounds[i] = sorted[(int)(BATCH * (1 - pow(0.5, i + 1)))];
            continue;
        }
        for (int i = 0; i < BATCH; i++) {
            push(&all, inputs[i].class_number, (double)ticks[i]);
            for (int j = 0; j < BOUNDS; j++)
                if (ticks[i] <= bounds[j]) push(&below[j], inputs[i].class_number, (double)ticks[i]);
        }
    }
    double greatest = 0;
    for (int i = 0; i < BOUNDS; i++) greatest = fmax(greatest, fabs(welch(&below[i])));
    printf("%.0f %.2f %.2f %.1f %.1f\n", all.n[0] + all.n[1], fabs(welch(&all)), greatest, all.mean[0], all.mean[1]);
    return 0;
}
