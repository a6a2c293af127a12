// bench DIR: times the library and yrs's text on the inputs that DIR/list names, one line for each answer and time on standard output:
//   input  work  side  nanoseconds  answer
// Sides: ours, rust, and memcpy of the input's bytes. Each time is the best of several batches, the sides' batches in turn. Both sides' answers are held
// against each other first; where they part, it ends with 1.
#include "wairokabi.h"

#include <stdarg.h>
#include <stdio.h>
#include <stdlib.h>
#include <string.h>
#include <time.h>

int yrs_read(uint8_t form, const uint8_t *p, size_t n, uint64_t out[2]);
int yrs_diff(uint8_t form, const uint8_t *p, size_t n, const uint8_t *v, size_t m, uint8_t to, uint8_t *out, size_t room, uint64_t *len);
int yrs_sort(uint8_t form, const uint8_t *p, size_t n, const uint8_t *v, size_t m, uint64_t out[3]);
int yrs_column(uint8_t kind, const uint8_t *p, size_t n, size_t count, uint64_t *sum);
uint64_t yrs_write_column(uint8_t kind, const uint64_t *values, size_t count);

static void stop(const char *said, ...) {
    va_list of;
    va_start(of, said);
    vfprintf(stderr, said, of);
    va_end(of);
    fputc('\n', stderr);
    exit(1);
}

static const char *dir;

typedef struct {
    uint8_t *bytes;
    size_t count;
} file;

static file load(const char *name, const char *end) {
    char path[4096];
    snprintf(path, sizeof path, "%s/%s.%s", dir, name, end);
    FILE *f = fopen(path, "rb");
    if (!f)
        stop("no %s", path);
    fseek(f, 0, SEEK_END);
    file r = {0, ftell(f)};
    rewind(f);
    r.bytes = malloc(r.count + 1);
    if (fread(r.bytes, 1, r.count, f) != r.count)
        stop("%s cannot be read", path);
    fclose(f);
    return r;
}

// ---- what is lent, to measure: as many rows and words as the input needs

static struct {
    uint8_t form, to, kind;
    file update, vector, held, column, values, lengths;
    size_t blocks, ranges, given; // rows lent
    size_t room, count;
    wairokabi_block *rows, *others;
    uint64_t *words, *more, *order, *holds, *units, counts[128], reaches[384], pending[192];
    uint8_t *out, *copy;
    uint64_t answer[3];
} on;

static void *some(size_t n) {
    void *p = calloc(n + 64, 1);
    if (!p)
        stop("no memory");
    return p;
}

static void check(bool holds, const char *input, const char *work, const char *what) {
    if (!holds)
        stop("%s %s: %s", input, work, what);
}

static void ours_read(void) {
    const wairokabi_update r = wairokabi_read_update(on.form, on.update.bytes, on.update.count, on.rows, on.blocks, on.words, 3 * on.ranges);
    on.answer[0] = r.refusal.number ? (uint64_t)-1 : r.blocks;
    on.answer[1] = r.ranges;
}

static void rust_read(void) {
    if (yrs_read(on.form, on.update.bytes, on.update.count, on.answer))
        on.answer[0] = (uint64_t)-2;
}

static void ours_diff(void) {
    const wairokabi_diff r = wairokabi_encode_diff(on.form, on.update.bytes, on.update.count, on.vector.bytes, on.vector.count, on.to, on.rows, on.blocks,
                                                   on.words, 3 * on.ranges, on.out, on.room);
    on.answer[0] = r.refusal.number ? (uint64_t)-1 : r.bytes;
}

static void rust_diff(void) {
    if (yrs_diff(on.form, on.update.bytes, on.update.count, on.vector.bytes, on.vector.count, on.to, 0, 0, on.answer))
        on.answer[0] = (uint64_t)-2;
}

static const uint8_t none[] = {0};

static void ours_sort(void) {
    const wairokabi_sorted r = wairokabi_sort(28, on.form, on.update.bytes, on.update.count, none, 1, on.rows, on.blocks, on.words, 3 * on.ranges, on.order,
                                              on.blocks, on.counts, 128, on.reaches, 256, on.pending, 192);
    on.answer[0] = r.refusal.number ? (uint64_t)-1 : r.steps;
    on.answer[1] = r.blocks - r.steps;
    on.answer[2] = 0;
    for (size_t k = 0; k < r.reaches; k++)
        on.answer[2] += on.reaches[2 * k + 1];
}

static void rust_sort(void) {
    if (yrs_sort(on.form, on.update.bytes, on.update.count, none, 1, on.answer))
        on.answer[0] = (uint64_t)-2;
}

// against the held ids that are given, or against none
static void ours_held(void) {
    const uint8_t *held = on.held.bytes ? on.held.bytes : none;
    const size_t bytes = on.held.bytes ? on.held.count : 1;
    const wairokabi_sorted_held r = wairokabi_sort_held(on.form, on.update.bytes, on.update.count, held, bytes, on.rows, on.blocks, on.words, 3 * on.ranges,
                                                        on.holds, 3 * on.given, on.order, on.blocks, on.counts, 128, on.pending, 192);
    on.answer[0] = r.refusal.number ? (uint64_t)-1 : r.steps;
    on.answer[1] = r.blocks - r.steps;
    on.answer[2] = r.held;
}

// every message by itself, with 64 rows and 64 ranges lent
static void ours_each(void) {
    const uint8_t *p = on.update.bytes;
    const uint32_t *n = (const uint32_t *)on.lengths.bytes;
    on.answer[0] = on.answer[1] = 0;
    for (size_t k = 0; k < on.count; p += n[k++]) {
        const wairokabi_update r = wairokabi_read_update(1, p, n[k], on.rows, 64, on.words, 192);
        on.answer[0] += r.refusal.number ? 1000000000 : r.blocks;
        on.answer[1] += r.ranges;
    }
}

static void rust_each(void) {
    const uint8_t *p = on.update.bytes;
    const uint32_t *n = (const uint32_t *)on.lengths.bytes;
    uint64_t blocks = 0, ranges = 0;
    for (size_t k = 0; k < on.count; p += n[k++]) {
        if (yrs_read(1, p, n[k], on.answer))
            blocks = (uint64_t)-2;
        blocks += on.answer[0];
        ranges += on.answer[1];
    }
    on.answer[0] = blocks;
    on.answer[1] = ranges;
}

// A whole column in one call; the Rust draws and sums value by value, so ours is summed too.
static void ours_next(void) {
    const uint8_t *s = on.column.bytes;
    const size_t n = on.column.count;
    uint64_t sum = 0;
    size_t read = 0;
    uint8_t bad = 0;
    switch (on.kind) {
    case 0: {
        const wairokabi_numbers_read r = wairokabi_read_numbers(s, n, wairokabi_open_numbers(0), on.words, on.count);
        bad = r.refusal.number;
        read = r.count;
        for (size_t k = 0; k < read; k++)
            sum += on.words[k];
        break;
    }
    case 1: {
        const wairokabi_differences_read r = wairokabi_read_differences(s, n, wairokabi_open_differences(0), on.words, on.count);
        bad = r.refusal.number;
        read = r.count;
        for (size_t k = 0; k < read; k++)
            sum += on.words[k];
        break;
    }
    case 2: {
        uint8_t *bytes = (uint8_t *)on.words;
        const wairokabi_bytes_read r = wairokabi_read_bytes(s, n, wairokabi_open_bytes(0), bytes, on.count);
        bad = r.refusal.number;
        read = r.count;
        for (size_t k = 0; k < read; k++)
            sum += bytes[k];
        break;
    }
    default: {
        const wairokabi_text_opened o = wairokabi_open_text(s, n, 0);
        const wairokabi_texts_read r = wairokabi_read_texts(s, n, o.place, on.words, 2 * on.count);
        bad = o.refusal.number | r.refusal.number;
        read = r.count;
        for (size_t k = 0; k < read; k++)
            sum += on.words[2 * k + 1];
    }
    }
    on.answer[0] = bad || read != on.count ? (uint64_t)-1 : sum;
}

static void rust_next(void) {
    if (yrs_column(on.kind, on.column.bytes, on.column.count, on.count, on.answer))
        on.answer[0] = (uint64_t)-2;
}

static void ours_write(void) {
    const uint64_t *v = (const uint64_t *)on.values.bytes;
    wairokabi_written r;
    switch (on.kind) {
    case 0:
        r = wairokabi_write_numbers(on.out, on.room, v, on.count);
        break;
    case 1:
        r = wairokabi_write_differences(on.out, on.room, v, on.count);
        break;
    case 2:
        r = wairokabi_write_bytes(on.out, on.room, on.values.bytes, on.count);
        break;
    default:
        r = wairokabi_write_texts(on.out, on.room, on.values.bytes + 8, v[0], on.units, on.count);
    }
    on.answer[0] = r.number ? (uint64_t)-1 : r.bytes;
}

static void rust_write(void) {
    on.answer[0] = yrs_write_column(on.kind, (const uint64_t *)on.values.bytes, on.count);
}

static const uint8_t *floor_from;
static size_t floor_bytes;

static void floor_copy(void) {
    memcpy(on.copy, floor_from, floor_bytes);
    __asm__ volatile("" : : "r"(on.copy) : "memory");
}

// ---- times

static double now(void) {
    struct timespec t;
    clock_gettime(CLOCK_MONOTONIC, &t);
    return 1e9 * (double)t.tv_sec + (double)t.tv_nsec;
}

static const char *only; // one side, to profile it; or null
static double batch_ns = 4e6;
static int batches = 5;

static double run(void (*work)(void), size_t times) {
    const double from = now();
    for (size_t k = 0; k < times; k++)
        work();
    return (now() - from) / (double)times;
}

// How often a batch does it, so that a batch lasts a while.
static size_t often(void (*work)(void)) {
    size_t times = 1;
    for (;;) {
        const double one = run(work, times);
        if (one * (double)times * 4 >= batch_ns || times > 100000000)
            return one >= batch_ns ? 1 : (size_t)(batch_ns / one) + 1;
        times *= 4;
    }
}

#define SIDES 3
static const char *const side_names[SIDES] = {"ours", "rust", "memcpy"};

static void measure(const char *input, const char *work, void (*ours)(void), void (*rust)(void), size_t answers, const uint8_t *from, size_t bytes) {
    void (*sides[SIDES])(void) = {ours, rust, floor_copy};
    uint64_t said[2][3] = {{0}};
    floor_from = from;
    floor_bytes = bytes;
    for (int s = 0; s < 2; s++) {
        memset(on.answer, 0, sizeof on.answer);
        if (sides[s])
            sides[s]();
        memcpy(said[s], on.answer, sizeof on.answer);
    }
    for (size_t k = 0; k < answers; k++) {
        if (said[0][k] > (uint64_t)-3 || (rust && said[0][k] != said[1][k]))
            stop("%s %s: answer %zu is %lld here, %lld there", input, work, k, (long long)said[0][k], (long long)said[1][k]);
    }
    for (int s = 0; s < SIDES; s++)
        if (only && strcmp(only, side_names[s]))
            sides[s] = 0;
    size_t times[SIDES];
    double best[SIDES];
    double spent = 0;
    for (int s = 0; s < SIDES; s++)
        if (sides[s]) {
            times[s] = often(sides[s]);
            best[s] = run(sides[s], times[s]);
            spent += best[s] * (double)times[s];
        }
    const int more = spent > 2e8 ? 1 : batches;
    for (int b = 0; b < more; b++)
        for (int s = 0; s < SIDES; s++)
            if (sides[s]) {
                const double t = run(sides[s], times[s]);
                if (t < best[s])
                    best[s] = t;
            }
    for (int s = 0; s < SIDES; s++)
        if (sides[s]) {
            printf("%s\t%s\t%s\t%.1f\t", input, work, side_names[s], best[s]);
            if (s < 2)
                for (size_t k = 0; k < answers; k++)
                    printf("%s%llu", k ? " " : "", (unsigned long long)said[0][k]);
            else
                printf("%zu", bytes);
            putchar('\n');
        }
    fflush(stdout);
}

// ---- the work

// Where nothing is held and no block is taken across a gap, both sorters take the same blocks in the same order.
static void check_held(const char *input, const char *work) {
    ours_sort();
    const uint64_t steps = on.answer[0];
    memcpy(on.others, on.order, 8 * on.blocks);
    ours_held();
    check(on.answer[0] == steps && memcmp(on.others, on.order, 8 * on.blocks) == 0, input, work, "the two sorters part");
}

// Both diffs, read again, have the same blocks and the same delete ranges. (The Rust writes the delete set's clients in another order, so bytes may part.)
static void check_diff(const char *input, const char *work, size_t bytes) {
    uint64_t len;
    check(yrs_diff(on.form, on.update.bytes, on.update.count, on.vector.bytes, on.vector.count, on.to, on.copy, on.update.count * 4 + 4096, &len) == 0,
          input, work, "the Rust has an error");
    check(len == bytes, input, work, "lengths part");
    const wairokabi_update a = wairokabi_read_update(on.to, on.out, bytes, on.rows, on.blocks, on.words, 3 * on.ranges);
    const wairokabi_update b = wairokabi_read_update(on.to, on.copy, len, on.others, on.blocks, on.more, 3 * on.ranges);
    check(a.refusal.number == 0 && b.refusal.number == 0 && a.blocks == b.blocks && a.ranges == b.ranges, input, work, "what is read again parts");
    check(memcmp(on.words, on.more, 24 * on.ranges) == 0, input, work, "ranges part");
    for (size_t k = 0; k < a.blocks; k++) {
        const wairokabi_block *x = &on.rows[k], *y = &on.others[k];
        check(x->client == y->client && x->clock == y->clock && x->length.count == y->length.count && x->kind == y->kind &&
                  x->left_client == y->left_client && x->left_clock == y->left_clock && x->right_client == y->right_client &&
                  x->right_clock == y->right_clock && x->part.bytes.count == y->part.bytes.count &&
                  memcmp(on.out + x->part.place, on.copy + y->part.place, x->part.bytes.count) == 0 && x->type_number == y->type_number &&
                  x->mark.bytes.count == y->mark.bytes.count && memcmp(on.out + x->mark.place, on.copy + y->mark.place, x->mark.bytes.count) == 0,
              input, work, "blocks part");
    }
}

static void lend(size_t blocks, size_t ranges) {
    on.blocks = blocks;
    on.ranges = ranges;
    on.rows = some(blocks * sizeof *on.rows);
    on.others = some(blocks * sizeof *on.rows);
    on.words = some(24 * ranges);
    on.more = some(24 * ranges);
    on.order = some(8 * blocks);
}

static void give_back(void) {
    free(on.rows);
    free(on.others);
    free(on.words);
    free(on.more);
    free(on.order);
}

static void update_work(const char *input, const char *work, size_t blocks, size_t ranges) {
    const char end[2] = {work[strcspn(work, "12")], 0};
    on.form = (uint8_t)(end[0] - '0');
    on.update = load(input, end);
    on.copy = some(on.update.count * 4 + 4096);
    if (!strncmp(work, "read", 4)) {
        lend(blocks, ranges);
        measure(input, work, ours_read, rust_read, 2, on.update.bytes, on.update.count);
    } else if (!strncmp(work, "lent", 4)) {
        lend(65535, 65535);
        measure(input, work, ours_read, rust_read, 2, on.update.bytes, on.update.count);
    } else if (!strncmp(work, "sort", 4)) {
        lend(blocks, ranges);
        measure(input, work, ours_sort, rust_sort, 3, on.update.bytes, on.update.count);
    } else if (!strncmp(work, "held", 4)) {
        lend(blocks, ranges);
        check_held(input, work);
        measure(input, work, ours_held, 0, 3, on.update.bytes, on.update.count);
    } else if (!strncmp(work, "given", 5)) {
        on.held = load(input, "held");
        free(on.copy);
        on.copy = some(on.held.count);
        on.given = 1000000;
        on.holds = some(24 * on.given);
        lend(blocks, ranges);
        ours_held();
        check(on.answer[0] == blocks && on.answer[2] == on.given, input, work, "not all are taken");
        measure(input, work, ours_held, 0, 3, on.held.bytes, on.held.count);
        free(on.holds);
        free(on.held.bytes);
        on.held.bytes = 0;
        on.given = 0;
        on.holds = 0;
    } else if (!strncmp(work, "diff", 4)) {
        lend(blocks, ranges);
        on.to = work[5] - '0';
        on.vector = load(input, "vector");
        on.room = on.update.count * 4 + 4096;
        on.out = some(on.room);
        ours_diff();
        check(on.answer[0] <= on.room, input, work, "refused");
        check_diff(input, work, on.answer[0]);
        ours_diff();
        on.room = on.answer[0];
        measure(input, work, ours_diff, rust_diff, 1, on.update.bytes, on.update.count);
        free(on.out);
        free(on.vector.bytes);
    } else {
        lend(64, 64);
        on.lengths = load(input, "lengths");
        on.count = on.lengths.count / 4;
        measure(input, work, ours_each, rust_each, 2, on.update.bytes, on.update.count);
        free(on.lengths.bytes);
    }
    give_back();
    free(on.copy);
    free(on.update.bytes);
}

static void column_work(const char *input, const char *work, size_t count) {
    const char *const names[] = {"numbers", "differences", "bytes", "texts"};
    for (on.kind = 0; on.kind < 3 && strcmp(names[on.kind], input); on.kind++)
        ;
    on.count = count;
    on.column = load(input, "column");
    on.copy = some(8 * count + on.column.count * 4);
    if (!strcmp(work, "next")) {
        on.words = some(16 * count);
        measure(input, work, ours_next, rust_next, 1, on.column.bytes, on.column.count);
        free(on.words);
    } else {
        on.values = load(input, "values");
        on.room = on.column.count;
        on.out = some(on.room);
        on.units = some(8 * count);
        if (on.kind == 3) // the units stand after the text, at no word's place
            memcpy(on.units, on.values.bytes + 8 + *(uint64_t *)on.values.bytes, 8 * count);
        ours_write();
        check(on.answer[0] == on.column.count && !memcmp(on.out, on.column.bytes, on.column.count), input, work, "not lib0's bytes");
        measure(input, work, ours_write, on.kind < 3 ? rust_write : 0, 1, on.column.bytes, on.column.count);
        free(on.out);
        free(on.units);
        free(on.values.bytes);
    }
    free(on.copy);
    free(on.column.bytes);
}

// bench DIR [QUICK [INPUT [WORK [SIDE]]]]: QUICK of 1 takes few and short batches; only that input, that work, that side.
int main(int n, char **of) {
    if (n < 2)
        stop("bench DIR [QUICK [INPUT [WORK [SIDE]]]]");
    dir = of[1];
    if (n > 2 && of[2][0] == '1') {
        batch_ns = 5e5;
        batches = 2;
    }
    only = n > 5 ? of[5] : 0;
    char path[4096], line[1024];
    snprintf(path, sizeof path, "%s/list", dir);
    FILE *list = fopen(path, "r");
    if (!list)
        stop("no %s", path);
    while (fgets(line, sizeof line, list)) {
        char input[64], works[512];
        size_t blocks, ranges;
        if (sscanf(line, "%63s %zu %zu %511s", input, &blocks, &ranges, works) != 4)
            stop("not a line of a list: %s", line);
        if (n > 3 && strcmp(of[3], input))
            continue;
        for (char *work = strtok(works, ","); work; work = strtok(0, ",")) {
            if (n > 4 && strcmp(of[4], work))
                continue;
            if (!strcmp(work, "next") || !strcmp(work, "write"))
                column_work(input, work, blocks);
            else
                update_work(input, work, blocks, ranges);
        }
    }
    return 0;
}
