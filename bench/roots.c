/* Latency and throughput of our square root as ratios to the hardware's, from one run on the same inputs.
 *
 * For each input both functions are called CALLS times in a row, each call through a pointer. For the latency each
 * argument waits for the last answer, by a product and a sum that both sides pay; for the throughput it does not. The
 * two sides take turns, all inputs are gone through PASSES times, and the time of an input is the least: other work on
 * the machine lengthens some passes and not others. A row has the ratio of the two medians over its inputs, and the
 * largest ratio that one input has. The row "empty" has a function that hands back its argument, to show what call and
 * links cost. */
#include <math.h>
#include <stdint.h>
#include <stdio.h>
#include <stdlib.h>
#include <time.h>

#include "patterns.h"

enum { CALLS = 256, PASSES = 40, MOST = 2046 };

typedef double function(double);
double measured_sqrt(double);

__attribute__((noinline)) static double hardware(double x) { return sqrt(x); }

__attribute__((noinline)) static double empty(double x)
{
    __asm__ volatile("");
    return x;
}

static double seconds(void)
{
    struct timespec t;
    clock_gettime(CLOCK_MONOTONIC, &t);
    return (double)t.tv_sec + 1e-9 * (double)t.tv_nsec;
}

static volatile double sink;

static double latency(function *f, double x)
{
    double s = 0, from = seconds();
    for (int i = 0; i < CALLS; i++)
        s = f(x + s * 0.0);
    sink = s;
    return seconds() - from;
}

static double throughput(function *f, double x)
{
    static double answers[CALLS];
    double from = seconds();
    for (int i = 0; i < CALLS; i++)
        answers[i] = f(x);
    sink = answers[CALLS - 1];
    return seconds() - from;
}

static uint64_t draw(void)
{
    static uint64_t s = 88172645463325252u;
    s ^= s << 13;
    s ^= s >> 7;
    s ^= s << 17;
    return s;
}

static int ascending(const void *a, const void *b)
{
    double x = *(const double *)a, y = *(const double *)b;
    return (x > y) - (x < y);
}

static double median(double *times, int n)
{
    qsort(times, (size_t)n, sizeof *times, ascending);
    return times[n / 2];
}

struct outcome {
    double median, worst, worst_input;
};

/* The longest time of one call of ours that waits, over all rows, and the processor's median in the first. */
static double longest, longest_input, processors;

static double ours_took[MOST], processor_took[MOST];

static struct outcome compare(double measure(function *, double), function *ours, const double *inputs, int n)
{
    double *a = ours_took, *b = processor_took, sorted[MOST];
    struct outcome o = {0, 0, 0};
    for (int i = 0; i < n; i++)
        a[i] = b[i] = INFINITY;
    for (int pass = 0; pass < PASSES; pass++)
        for (int i = 0; i < n; i++) {
            a[i] = fmin(a[i], measure(ours, inputs[i]));
            b[i] = fmin(b[i], measure(hardware, inputs[i]));
        }
    for (int i = 0; i < n; i++)
        if (a[i] / b[i] > o.worst)
            o.worst = a[i] / b[i], o.worst_input = inputs[i];
    memcpy(sorted, a, sizeof *a * (size_t)n);
    o.median = median(sorted, n) / median(b, n);
    return o;
}

static void row(const char *name, function *ours, const double *inputs, int n)
{
    struct outcome l = compare(latency, ours, inputs, n);
    for (int i = 0; i < n; i++)
        if (ours_took[i] > longest)
            longest = ours_took[i], longest_input = inputs[i];
    if (processors == 0)
        processors = median(processor_took, n);
    struct outcome t = compare(throughput, ours, inputs, n);
    printf("%-22s %5d %10.2f %10.2f ", name, n, l.median, l.worst);
    printf("%12.2f %10.2f   %a\n", t.median, t.worst, l.worst_input);
}

int main(void)
{
    static double inputs[MOST];
    int n = 0;

    printf("%-22s %5s %10s %10s %12s %10s   %s\n", "", "", "latency", "", "throughput", "", "worst input");
    printf("%-22s %5s %10s %10s %12s %10s   %s\n", "inputs", "", "median", "worst", "median", "worst", "(latency)");
    for (n = 0; n < 2046; n++)
        inputs[n] = number((uint64_t)(n + 1) << 52 | draw() >> 12);
    for (int i = 0; i < n; i++)
        if (measured_sqrt(inputs[i]) != sqrt(inputs[i]))
            return fprintf(stderr, "roots: the root of %a differs\n", inputs[i]), 1;
    row("every normal exponent", measured_sqrt, inputs, n);
    row("  the same, empty", empty, inputs, n);
    for (n = 0; n < 512; n++)
        inputs[n] = number((uint64_t)(1023 + n % 2) << 52 | draw() >> 12);
    row("from 1 to 4", measured_sqrt, inputs, n);
    for (n = 0; n < 512; n++)
        inputs[n] = number(0x3ff0000000000000u - 16 + draw() % 33);
    row("within 16 ulps of 1", measured_sqrt, inputs, n);
    for (n = 0; n < 512; n++)
        inputs[n] = 1 + ((double)(draw() >> 11) * 0x1p-53 - 0.5) / 16;
    row("within 1/32 of 1", measured_sqrt, inputs, n);
    for (n = 0; n < 512; n++) {
        double root = (double)(1 + draw() % 67108864);
        inputs[n] = root * root;
    }
    row("exact squares", measured_sqrt, inputs, n);
    for (n = 0; n < 512; n++)
        inputs[n] = number(1 + (draw() >> 12 >> n % 52));
    row("subnormal", measured_sqrt, inputs, n);
    printf("the longest wait: %.2f times the processor's median of the first row, at %a\n", longest / processors,
           longest_input);
    return 0;
}
