// ours REQUESTS: answers the requests of a file with the library, a line each on standard output, for compare/batch.cjs. A request is four bytes (what is
// asked, form or column, form to write or rule to sort by, 0), then two parts, each led by its length in four bytes, lowest first: the update or column, and the vector.
//   1 read    refusal|blocks|ranges        a block: client clock length kind left right name parent key content mark type, `none` for what is not there
//   2 diff    refusal|bytes
//   3 sort    refusal|order|counts|reaches|pending
//   4 column  values|refusal               0 numbers, 1 differences, 2 bytes, 3 texts; at most 64 values, then `more`
//   5 vector  refusal|entries
// A refusal is number@place, in the bytes that were handed over; 0 if there is none.
#include "wairokabi.h"

#include <inttypes.h>
#include <stdio.h>
#include <stdlib.h>
#include <string.h>

#define MOST 64
#define ROWS 65535
#define ROOM (16u << 20)

static void *some(size_t n) {
    void *p = calloc(n, 1);
    if (!p) {
        fputs("ours: no memory\n", stderr);
        exit(1);
    }
    return p;
}

static wairokabi_block *rows;
static uint64_t *ranges, *order, counts[2 * 64], reaches[2 * 128], pending[3 * 64];
static uint8_t *out;

static void refusal(wairokabi_refusal r) {
    printf("%d", r.number);
    if (r.number || r.place)
        printf("@%zu", r.place);
}
static void hex(const uint8_t *bytes, size_t count) {
    putchar('<');
    for (size_t k = 0; k < count; k++) {
        putchar("0123456789abcdef"[bytes[k] >> 4]);
        putchar("0123456789abcdef"[bytes[k] & 15]);
    }
    putchar('>');
}
static void part(bool there, const uint8_t *bytes, wairokabi_part p) {
    putchar(' ');
    if (there)
        hex(bytes + p.place, p.bytes.count);
    else
        fputs("none", stdout);
}
static void id(bool there, uint64_t client, uint32_t clock) {
    if (there)
        printf(" %" PRIu64 ":%" PRIu32, client, clock);
    else
        fputs(" none", stdout);
}
static void block(const uint8_t *update, wairokabi_block b) {
    static const char *kinds[] = {"", "gc", "skip", "deleted", "binary", "text", "format", "type", "any"};
    printf("%" PRIu64 " %" PRIu32 " %" PRIu64 " %s", b.client, b.clock, b.length.count, kinds[b.kind]);
    id(b.has_left, b.left_client, b.left_clock);
    id(b.has_right, b.right_client, b.right_clock);
    part(b.has_name, update, b.name);
    id(b.has_parent, b.parent_client, b.parent_clock);
    part(b.has_key, update, b.key);
    part(b.kind == WAIROKABI_BINARY || b.kind == WAIROKABI_TEXT || b.kind == WAIROKABI_FORMAT || b.kind == WAIROKABI_ANY, update, b.part);
    part(b.kind == WAIROKABI_FORMAT || (b.kind == WAIROKABI_TYPE && (b.type_number == 3 || b.type_number == 5)), update, b.mark);
    if (b.kind == WAIROKABI_TYPE)
        printf(" %d", b.type_number);
    else
        fputs(" none", stdout);
}
// `count` groups of so many words.
static void words(const uint64_t *w, size_t count, size_t of) {
    putchar('|');
    for (size_t k = 0; k < count * of; k++)
        printf("%s%" PRIu64, k == 0 ? "" : k % of == 0 ? "," : " ", w[k]);
}

// Rows and room as short updates need them, since all that is lent is set to zero; all there can be, if that was too little.
static void read_update(uint8_t form, const uint8_t *u, size_t n) {
    wairokabi_update r = wairokabi_read_update(form, u, n, rows, n < ROWS ? n : ROWS, ranges, 3 * n);
    if (r.refusal.number == 8)
        r = wairokabi_read_update(form, u, n, rows, ROWS, ranges, 3 * n);
    refusal(r.refusal);
    putchar('|');
    for (size_t k = 0; k < r.blocks; k++) {
        if (k)
            putchar(',');
        block(u, rows[k]);
    }
    words(ranges, r.ranges, 3);
}
static void diff(uint8_t form, uint8_t to, const uint8_t *u, size_t n, const uint8_t *v, size_t m) {
    wairokabi_diff r = wairokabi_encode_diff(form, u, n, v, m, to, rows, n < ROWS ? n : ROWS, ranges, 3 * n, out, 4 * n < ROOM ? 4 * n : ROOM);
    if (r.refusal.number == 8 || r.refusal.number == 10)
        r = wairokabi_encode_diff(form, u, n, v, m, to, rows, ROWS, ranges, 3 * n, out, ROOM);
    refusal(r.refusal);
    putchar('|');
    hex(out, r.bytes);
}
static void sort(uint8_t rule, uint8_t form, const uint8_t *u, size_t n, const uint8_t *v, size_t m) {
    wairokabi_sorted r = {{8, 0}, 0, 0, 0, 0, 0, 0};
    const size_t fits[] = {n < ROWS ? n : ROWS, ROWS};
    for (int k = 0; k < 2 && r.refusal.number == 8; k++)
        r = wairokabi_sort(rule, form, u, n, v, m, rows, fits[k], ranges, 3 * n, order, fits[k], counts, 2 * 64, reaches, 2 * 128, pending, 3 * 64);
    refusal(r.refusal);
    words(order, r.steps, 1);
    words(counts, r.counts, 2);
    words(reaches, r.reaches, 2);
    words(pending, r.pending, 3);
}

static void vector(const uint8_t *v, size_t n) {
    const wairokabi_vector r = wairokabi_read_state_vector(v, n, reaches, 2 * WAIROKABI_MAX_CLIENTS);
    refusal(r.refusal);
    words(reaches, r.count, 2);
}

static void numbers(const uint8_t *c, size_t n) {
    wairokabi_number_place p = wairokabi_open_numbers(0);
    for (int k = 0; k < MOST; k++) {
        const wairokabi_number_next r = wairokabi_next_number(c, n, p);
        if (r.refusal.number) {
            putchar('|');
            refusal(r.refusal);
            return;
        }
        printf("%s%" PRIu64, k ? "," : "", r.value);
        p = r.place;
    }
    fputs("|more", stdout);
}
static void differences(const uint8_t *c, size_t n) {
    wairokabi_difference_place p = wairokabi_open_differences(0);
    for (int k = 0; k < MOST; k++) {
        const wairokabi_difference_next r = wairokabi_next_difference(c, n, p);
        if (r.refusal.number) {
            putchar('|');
            refusal(r.refusal);
            return;
        }
        printf("%s%" PRIu32, k ? "," : "", r.value);
        p = r.place;
    }
    fputs("|more", stdout);
}
static void bytes(const uint8_t *c, size_t n) {
    wairokabi_byte_place p = wairokabi_open_bytes(0);
    for (int k = 0; k < MOST; k++) {
        const wairokabi_byte_next r = wairokabi_next_byte(c, n, p);
        if (r.refusal.number) {
            putchar('|');
            refusal(r.refusal);
            return;
        }
        printf("%s%d", k ? "," : "", r.value);
        p = r.place;
    }
    fputs("|more", stdout);
}
static void texts(const uint8_t *c, size_t n) {
    const wairokabi_text_opened opened = wairokabi_open_text(c, n, 0);
    wairokabi_string_place p = opened.place;
    for (int k = 0; k < MOST; k++) {
        wairokabi_text_next r = {opened.refusal, {0, {0}}, p};
        if (!opened.refusal.number)
            r = wairokabi_next_text(c, n, p);
        if (r.refusal.number) {
            putchar('|');
            refusal(r.refusal);
            return;
        }
        if (k)
            putchar(',');
        hex(c + r.part.place, r.part.bytes.count);
        p = r.place;
    }
    fputs("|more", stdout);
}

static const uint8_t *at;
static const uint8_t *counted(size_t *count) {
    *count = at[0] | at[1] << 8 | at[2] << 16 | (size_t)at[3] << 24;
    at += 4 + *count;
    return at - *count;
}

int main(int words, char **word) {
    FILE *f = words == 2 ? fopen(word[1], "rb") : 0;
    if (!f)
        return 2;
    fseek(f, 0, SEEK_END);
    const size_t size = ftell(f);
    rewind(f);
    uint8_t *all = some(size + 1);
    if (fread(all, 1, size, f) != size)
        return 2;
    rows = some(ROWS * sizeof *rows);
    ranges = some((3 * size + 3) * sizeof *ranges);
    order = some(ROWS * sizeof *order);
    out = some(ROOM);
    static void (*const columns[])(const uint8_t *, size_t) = {numbers, differences, bytes, texts};
    for (at = all; at < all + size;) {
        const uint8_t op = at[0], form = at[1], to = at[2];
        size_t n, m;
        at += 4;
        const uint8_t *u = counted(&n), *v = counted(&m);
        if (op == 1)
            read_update(form, u, n);
        else if (op == 2)
            diff(form, to, u, n, v, m);
        else if (op == 3)
            sort(to, form, u, n, v, m);
        else if (op == 5)
            vector(u, n);
        else
            columns[form](u, n);
        putchar('\n');
    }
    return 0;
}
