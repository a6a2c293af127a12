// units: times the call count_units of the archive that it is linked to, on three texts of 64 KiB, one line each on standard output:
//   text  nanoseconds for 1,000 bytes, the best of 400 batches  units
// By hand, for docs/BENCHMARK.md ("Units"): cc -O2 -Iinclude bench/units.c target/native/libwairokabi.a -o target/bench/units && target/bench/units
#include "wairokabi.h"

#include <stdio.h>
#include <string.h>
#include <time.h>

#define SIZE 65536

static double now(void) {
    struct timespec t;
    clock_gettime(CLOCK_MONOTONIC, &t);
    return t.tv_sec * 1e9 + t.tv_nsec;
}

static void measure(const char *name, const char *words) {
    static uint8_t text[SIZE];
    const size_t one = strlen(words), all = SIZE / one * one;
    for (size_t i = 0; i < all; i++)
        text[i] = (uint8_t)words[i % one];
    double best = 1e18;
    uint64_t units = 0;
    for (int batch = 0; batch < 400; batch++) {
        const double from = now();
        for (int k = 0; k < 4; k++) {
            const wairokabi_counted r = wairokabi_count_units(text, all);
            units = r.number ? 0 : r.units.count;
        }
        const double took = (now() - from) / 4;
        if (took < best)
            best = took;
    }
    printf("%-10s %8.1f %8llu\n", name, best * 1000 / all, (unsigned long long)units);
}

int main(void) {
    measure("plain", "The reading of the second probe was taken at noon. ");
    measure("accented", "L'été dernier, à Genève, où l'on mesurait près du chêne. ");
    measure("emoji", "\xf0\x9f\x98\x80\xf0\x9f\x91\x8d\xf0\x9f\x8e\x89 ");
    return 0;
}
