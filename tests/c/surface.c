/*
 * The surface from C: document 01's cases ("## Cases") and its refusals, with their places, equal rank beside equal octets, and rules with a
 * distinguisher, through include/krubbadin.h.
 * Prints each check that fails, and last 'N checks, M failed'. tests/c/run builds and runs it, also as C++.
 */
#include "krubbadin.h"

#include <stdio.h>
#include <string.h>

static unsigned checks, failed;

static void check(int holds, int line, const char *what)
{
    checks++;
    if (!holds) {
        failed++;
        printf("surface.c:%d: %s\n", line, what);
    }
}

#define CHECK(holds) check((holds), __LINE__, #holds)

/* What is lent, with neighbours that must stay. */
struct lent {
    uint64_t words[KRUBBADIN_RULE_WORDS + 1];
    uint64_t values[8];
    uint8_t octets[8];
};

static struct lent fresh(void)
{
    struct lent l;
    memset(&l, 0xA5, sizeof l);
    return l;
}

static int untouched(const struct lent *l)
{
    struct lent f = fresh();
    return memcmp(l, &f, sizeof f) == 0;
}

static int is_at(uint64_t place, struct krubbadin_answer a, uint64_t status, uint64_t first, uint64_t second)
{
    return a.status == status && a.first == first && a.second == second && a.place == place;
}

/* An answer without a place. */
static int is(struct krubbadin_answer a, uint64_t status, uint64_t first, uint64_t second)
{
    return is_at(KRUBBADIN_NOWHERE, a, status, first, second);
}

/* The end before which an octet is missing: the input's, in a standard reading the stated one where that comes first. */
static uint64_t bound(uint8_t family, const uint8_t *input, size_t length)
{
    size_t width, end;
    if (family == 0 || length == 0) {
        return length;
    }
    width = input[0] < 240 ? 1 : 2;
    if (length < width) {
        return length;
    }
    end = width == 1 ? 1u + input[0] : 2u + input[0] % 16u * 256u + input[1];
    return end < length ? end : length;
}

/*
 * A check answers what a reading with room for all does, here of the input and of every truncation of it; and where an octet is missing, the
 * end before which it is.
 */
static int checks_the_same_by(uint8_t standard, uint8_t family, const uint8_t *input, size_t length)
{
    static uint64_t words[KRUBBADIN_RULE_WORDS], values[KRUBBADIN_MOST_OPERATORS];
    static uint8_t octets[KRUBBADIN_MOST_OPERATORS];
    size_t left;
    for (left = 0; left <= length; left++) {
        struct krubbadin_answer a = krubbadin_read(standard, family, input, left, words, KRUBBADIN_RULE_WORDS,
                                                   values, KRUBBADIN_MOST_OPERATORS, octets, KRUBBADIN_MOST_OPERATORS);
        const int missing = a.status == KRUBBADIN_INSUFFICIENT_DATA || a.status == KRUBBADIN_SHORT_DISTINGUISHER;
        if (a.status == KRUBBADIN_NO_ROOM || !is_at(a.place, krubbadin_check(standard, family, input, left), a.status, a.first, a.second)) {
            return 0;
        }
        if (missing && a.place != bound(family, input, left)) {
            return 0;
        }
        if (a.status == KRUBBADIN_SHORT_DISTINGUISHER && standard != KRUBBADIN_WITH_DISTINGUISHER) {
            return 0;
        }
    }
    return 1;
}

static int checks_the_same(uint8_t family, const uint8_t *input, size_t length)
{
    return checks_the_same_by(family != 0, family, input, length);
}

/* Reads into a fresh rule with all its places; plain is family 0. What is read here is checked too. */
static struct krubbadin_answer reads(uint8_t family, const uint8_t *input, size_t length, struct lent *l)
{
    CHECK(checks_the_same(family, input, length));
    *l = fresh();
    return krubbadin_read(family != 0, family, input, length, l->words, 64, l->values, 8, l->octets, 8);
}

/* The octets stand in a text. */
#define READS(family, l, text) reads((family), (const uint8_t *)(text), sizeof(text) - 1, (l))

/* A packet of family 4 from 192.0.2.1, with nothing else in it. */
static void packet4(uint64_t packet[20], uint64_t destination)
{
    memset(packet, 0, 20 * sizeof *packet);
    packet[0] = 4;
    packet[2] = destination;
    packet[4] = 0xC0000201;
}

static void the_port_case(void)
{
    const uint8_t input[] = {0x08, 0x05, 0x03, 0x50, 0x45, 0x5A, 0x91, 0x01, 0xBB};
    const uint64_t component[] = {5, 0, 3, 0};
    uint8_t out[10];
    uint8_t family;
    for (family = 0; family <= 6; family += 2) {
        struct lent l;
        struct lent f = fresh();
        size_t i;
        if (family == 2) {
            continue;
        }
        CHECK(is(reads(family, input, sizeof input, &l), 0, 9, 3));
        CHECK(memcmp(l.words, component, sizeof component) == 0);
        for (i = 4; i < 52; i++) {
            CHECK(l.words[i] == 0);
        }
        CHECK(l.words[KRUBBADIN_WORD_COUNT] == 1 && l.words[KRUBBADIN_WORD_FAMILY] == family && l.words[KRUBBADIN_WORD_FIRST] == 0);
        for (i = 55; i < 64; i++) {
            CHECK(l.words[i] == 0);
        }
        CHECK(l.values[0] == 80 && l.values[1] == 90 && l.values[2] == 443);
        CHECK(l.octets[0] == 0x03 && l.octets[1] == 0x45 && l.octets[2] == 0x91);
        CHECK(l.words[64] == f.words[64]);
        CHECK(memcmp(l.values + 3, f.values + 3, sizeof f.values - 3 * sizeof *f.values) == 0);
        CHECK(memcmp(l.octets + 3, f.octets + 3, sizeof f.octets - 3) == 0);

        memset(out, 0xEE, sizeof out);
        CHECK(is(krubbadin_write(family != 0, family, l.words, 64, l.values, 8, l.octets, 8, out, 10), 0, 9, 0));
        CHECK(memcmp(out, input, 9) == 0 && out[9] == 0xEE);
        memset(out, 0xEE, sizeof out);
        CHECK(is(krubbadin_write(family != 0, family, l.words, 64, l.values, 8, l.octets, 8, out, 8), 9, 9, 0));
        CHECK(out[0] == 0xEE && out[7] == 0xEE);
    }
}

static void accepted(void)
{
    struct lent l;
    uint8_t out[6];
    const uint8_t rewritten[] = {0x05, 0x01, 0x18, 0xC0, 0x00, 0x02};
    CHECK(is(READS(0, &l, "\x00"), 0, 1, 0) && l.words[52] == 0);
    CHECK(is(READS(4, &l, "\x00"), 0, 1, 0) && l.words[52] == 0 && l.words[53] == 4);

    CHECK(is(READS(4, &l, "\xF0\x05\x01\x18\xC0\x00\x02"), 0, 7, 0));
    CHECK(l.words[0] == 1 && l.words[1] == 24 && l.words[2] == 0xC0000200 && l.words[3] == 0);
    CHECK(is(krubbadin_write(1, 4, l.words, 64, NULL, 0, NULL, 0, out, 6), 0, 6, 0));
    CHECK(memcmp(out, rewritten, 6) == 0);

    CHECK(is(READS(0, &l, "\x02\x03\x81\x06\x05"), 0, 3, 1) && l.values[0] == 6);
    CHECK(is(READS(4, &l, "\x03\x03\x89\x06"), 0, 4, 1) && l.octets[0] == 0x81 && l.values[0] == 6);
    CHECK(is(READS(0, &l, "\x03\x01\x04\xFF"), 0, 4, 0) && l.words[2] == 0xFF000000);
    CHECK(is(READS(4, &l, "\x03\x01\x04\xFF"), 0, 4, 0) && l.words[2] == 0xF0000000);
    CHECK(is(READS(6, &l, "\x04\x01\x41\x3F\xC0"), 0, 5, 0));
    CHECK(l.words[0] == 1 + 16 * 3 && l.words[1] == 65 + 256 * 63 && l.words[2] == 1 && l.words[3] == 0x8000000000000000);
    CHECK(is(READS(6, &l, "\x03\x01\x00\x00"), 0, 4, 0) && l.words[0] == 1 + 16 * 3 && l.words[1] == 0);
}

static void refused(void)
{
    static uint8_t many[4098];
    static uint64_t values[600];
    struct lent l;
    uint64_t rule[64] = {0};
    uint8_t out[4];
    CHECK(is_at(0, reads(0, NULL, 0, &l), 1, 0, 0) && untouched(&l));
    CHECK(is_at(1, READS(0, &l, "\xF0"), 1, 0, 0) && untouched(&l));
    CHECK(is_at(1, READS(4, &l, "\xEF"), 1, 0, 0) && untouched(&l));
    CHECK(is_at(3, READS(4, &l, "\x02\x03\x81\x06\x05"), 1, 0, 0) && untouched(&l));
    CHECK(is_at(2, READS(0, &l, "\x03\x03\x89\x06"), 5, 0x89, 0) && untouched(&l));
    CHECK(is_at(3, READS(0, &l, "\x02\x03\x89"), 1, 0, 0) && untouched(&l));
    CHECK(is_at(1, READS(0, &l, "\x01\x00"), 2, 0, 0) && untouched(&l));
    CHECK(is_at(1, READS(0, &l, "\x01\x0E"), 3, 14, 0) && untouched(&l));
    CHECK(is_at(4, READS(4, &l, "\x06\x03\x81\x06\x03\x81\x11"), 2, 3, 3) && untouched(&l));
    CHECK(is_at(2, READS(0, &l, "\x02\x01\x81"), 4, 0, 0) && untouched(&l));
    CHECK(is_at(2, READS(4, &l, "\x02\x01\x81"), 4, 0, 0) && untouched(&l));
    CHECK(is_at(3, READS(6, &l, "\x02\x01\x81"), 1, 0, 0) && untouched(&l));
    CHECK(is_at(3, READS(0, &l, "\x02\x01\x21"), 1, 0, 0) && untouched(&l));
    CHECK(is_at(2, READS(4, &l, "\x02\x01\x21"), 4, 0, 0) && untouched(&l));
    CHECK(is_at(4, READS(0, &l, "\x04\x0D\x81\x00\x0E"), 3, 14, 0) && untouched(&l));
    CHECK(is_at(1, READS(4, &l, "\x04\x0D\x81\x00\x0E"), 3, 13, 0) && untouched(&l));
    CHECK(is_at(2, READS(6, &l, "\x03\x01\x40\x40"), 4, 0, 0) && untouched(&l));
    CHECK(is_at(2, READS(4, &l, "\x04\x0B\x91\x00\x2E"), 6, 1, 0) && untouched(&l));
    CHECK(is_at(2, READS(6, &l, "\x02\x0B\x91"), 6, 1, 0) && untouched(&l));
    CHECK(is(READS(5, &l, "\x00"), 11, 5, 0) && untouched(&l));
    CHECK(is(reads(0, many, sizeof many, &l), 8, 4098, 0) && untouched(&l));
    CHECK(is(reads(4, many, sizeof many, &l), 0, 1, 0));

    /* rooms: words, values, octets */
    l = fresh();
    CHECK(is(krubbadin_read(0, 0, many, 1, l.words, 63, l.values, 8, l.octets, 8), 9, 1, 0) && untouched(&l));
    many[0] = 0x03, many[1] = 0x03, many[2] = 0x81, many[3] = 0x06;
    CHECK(is(krubbadin_read(0, 0, many, 4, l.words, 64, l.values, 0, l.octets, 8), 9, 1, 0) && untouched(&l));
    CHECK(is(krubbadin_read(1, 4, many, 4, l.words, 64, l.values, 8, NULL, 0), 9, 1, 0) && untouched(&l));

    /* words that are no rule: too few, a word that must be 0, a count over 13, operators outside the lists */
    CHECK(is(krubbadin_write(0, 0, rule, 63, NULL, 0, NULL, 0, out, 4), 10, 0, 0));
    CHECK(is(krubbadin_write(0, 0, rule, 64, NULL, 0, NULL, 0, out, 4), 0, 1, 0) && out[0] == 0);
    rule[63] = 1;
    CHECK(is(krubbadin_write(0, 0, rule, 64, NULL, 0, NULL, 0, out, 4), 10, 0, 0));
    rule[63] = 0, rule[52] = 14;
    CHECK(is(krubbadin_write(0, 0, rule, 64, NULL, 0, NULL, 0, out, 4), 10, 0, 0));
    rule[52] = 1, rule[0] = 3, rule[2] = 1;
    CHECK(is(krubbadin_write(0, 0, rule, 64, NULL, 0, NULL, 0, out, 4), 10, 0, 0));
    CHECK(is(krubbadin_write(1, 7, rule, 64, NULL, 0, NULL, 0, out, 4), 11, 7, 0));

    /* a list of 600 values of eight octets is too long */
    rule[2] = 600;
    memset(many, 0x31, 599);
    many[599] = 0xB1;
    CHECK(is(krubbadin_write(1, 4, rule, 64, values, 600, many, 600, out, 4), 7, 5401, 0));
}

/* The octets stand in a text; plain is family 0. */
#define CHECKS(family, text) krubbadin_check((family) != 0, (family), (const uint8_t *)(text), sizeof(text) - 1)

/* Each answer that a check has: used and operators, or a refusal of a reading. */
static void checked(void)
{
    static uint8_t many[4098];
    const uint8_t port_case[] = {0x08, 0x05, 0x03, 0x50, 0x45, 0x5A, 0x91, 0x01, 0xBB, 0x00};
    struct krubbadin_answer a;
    size_t i;
    CHECK(is(krubbadin_check(0, 0, port_case, 9), 0, 9, 3));
    CHECK(is(krubbadin_check(1, 4, port_case, 9), 0, 9, 3));
    CHECK(is(krubbadin_check(1, 6, port_case, 9), 0, 9, 3));
    CHECK(is(krubbadin_check(255, 6, port_case, 10), 0, 9, 3));
    CHECK(is(CHECKS(4, "\x0B\x01\x18\xC0\x00\x02\x03\x81\x06\x04\x81\x19"), 0, 12, 2));
    CHECK(is(CHECKS(4, "\xF0\x05\x01\x18\xC0\x00\x02"), 0, 7, 0));
    CHECK(is(CHECKS(6, "\x04\x01\x41\x3F\xC0"), 0, 5, 0));
    CHECK(is(CHECKS(0, "\x02\x03\x81\x06\x05"), 0, 3, 1));
    CHECK(is(CHECKS(0, "\x00"), 0, 1, 0));

    CHECK(is_at(0, krubbadin_check(0, 0, NULL, 0), 1, 0, 0));
    CHECK(is_at(0, krubbadin_check(1, 4, NULL, 0), 1, 0, 0));
    CHECK(is_at(0, krubbadin_check(1, 6, NULL, 0), 1, 0, 0));
    CHECK(is_at(4, CHECKS(4, "\x06\x03\x81\x06\x03\x81\x11"), 2, 3, 3));
    CHECK(is_at(1, CHECKS(0, "\x01\x0E"), 3, 14, 0));
    CHECK(is_at(1, CHECKS(4, "\x04\x0D\x81\x00\x0E"), 3, 13, 0));
    CHECK(is_at(2, CHECKS(6, "\x03\x01\x40\x40"), 4, 0, 0));
    CHECK(is_at(2, CHECKS(0, "\x03\x03\x89\x06"), 5, 0x89, 0));
    CHECK(is(CHECKS(4, "\x03\x03\x89\x06"), 0, 4, 1));
    CHECK(is_at(2, CHECKS(4, "\x06\x09\xA1\x00\x00\x00\x02"), 6, 2, 0));
    CHECK(is(CHECKS(0, "\x06\x09\xA1\x00\x00\x00\x02"), 0, 7, 1));
    CHECK(is(krubbadin_check(0, 0, many, sizeof many), 8, 4098, 0));
    CHECK(is(krubbadin_check(1, 4, many, sizeof many), 0, 1, 0));
    CHECK(is(krubbadin_check(1, 5, port_case, 9), 11, 5, 0));
    CHECK(is(krubbadin_check(1, 0, NULL, 0), 11, 0, 0));
    CHECK(is(krubbadin_check(0, 5, port_case, 9), 0, 9, 3));

    /* the most operators that there can be, of one octet each: none of them has a place */
    many[0] = 0xFF, many[1] = 0xFF, many[2] = 4;
    for (i = 3; i < 4097; i += 2) {
        many[i] = i == 4095 ? 0x81 : 0x01;
    }
    CHECK(is(krubbadin_check(1, 4, many, 4097), 0, 4097, KRUBBADIN_MOST_OPERATORS));
    CHECK(is(krubbadin_check(0, 0, many, 4097), 0, 4097, KRUBBADIN_MOST_OPERATORS));
    CHECK(checks_the_same(4, many, 4097) && checks_the_same(0, many, 4097));

    /* a reading with the places that it names has room */
    a = krubbadin_check(1, 4, port_case, 9);
    if (a.status == KRUBBADIN_ACCEPTED) {
        struct lent l = fresh();
        CHECK(is(krubbadin_read(1, 4, port_case, 9, l.words, 64, l.values, a.second, l.octets, a.second), 0, 9, 3));
        CHECK(is(krubbadin_read(1, 4, port_case, 9, l.words, 64, l.values, a.second - 1, l.octets, a.second), 9, 3, 0));
    }
}

/* The place of each refusal of an octet, by the readings that have it. */
static void placed(void)
{
    CHECK(sizeof(struct krubbadin_answer) == 32 && offsetof(struct krubbadin_answer, place) == 24);
    CHECK(KRUBBADIN_NOWHERE + 1 == 0);

    /* 1: the length; a stated end past the input; the plain walk's end is the input's, a standard walk's the stated one */
    CHECK(is_at(1, CHECKS(4, "\xF0"), 1, 0, 0) && is_at(1, CHECKS(6, "\xFF"), 1, 0, 0));
    CHECK(is_at(2, CHECKS(0, "\x05\x01"), 1, 0, 0) && is_at(2, CHECKS(4, "\x05\x01"), 1, 0, 0) && is_at(2, CHECKS(6, "\x05\x01"), 1, 0, 0));
    CHECK(is_at(4, CHECKS(0, "\x01\x03\x91\x06"), 1, 0, 0));
    CHECK(is_at(5, CHECKS(0, "\x02\x01\x18\xC0\x00"), 1, 0, 0));
    CHECK(is_at(4, CHECKS(4, "\x03\x03\x91\x06\x50\x00"), 1, 0, 0) && is_at(4, CHECKS(6, "\x03\x03\x91\x06\x50\x00"), 1, 0, 0));
    CHECK(is_at(3, CHECKS(4, "\x02\x01\x18\xC0\x00\x02"), 1, 0, 0));
    CHECK(is_at(3, CHECKS(6, "\x02\x01\x40\x00"), 1, 0, 0));

    /* 2 and 3: the type octet */
    CHECK(is_at(4, CHECKS(0, "\x06\x05\x81\x50\x04\x81\x19"), 2, 5, 4) && is_at(4, CHECKS(6, "\x06\x05\x81\x50\x04\x81\x19"), 2, 5, 4));
    CHECK(is_at(2, CHECKS(4, "\xF0\x01\x00"), 2, 0, 0));
    CHECK(is_at(4, CHECKS(0, "\x04\x03\x81\x06\x0E"), 3, 14, 0) && is_at(4, CHECKS(6, "\x04\x03\x81\x06\x0E"), 3, 14, 0));

    /* 4: the prefix's length octet, in IPv6 whether it is the length or the offset that does not fit */
    CHECK(is_at(5, CHECKS(0, "\x05\x01\x08\x0A\x02\xFF"), 4, 0, 0) && is_at(5, CHECKS(4, "\x05\x01\x08\x0A\x02\xFF"), 4, 0, 0));
    CHECK(is_at(2, CHECKS(6, "\x03\x01\x81\x00"), 4, 0, 0) && is_at(2, CHECKS(6, "\x03\x01\x00\x01"), 4, 0, 0));
    CHECK(is_at(5, CHECKS(6, "\x06\x01\x00\x00\x02\x40\x41"), 4, 0, 0));

    /* 5: the operator octet; numeric, bitmask */
    CHECK(is_at(6, CHECKS(0, "\x08\x05\x03\x50\x45\x5A\x99\x01\xBB"), 5, 0x99, 0));
    CHECK(is_at(4, CHECKS(0, "\x05\x0C\x01\x01\x84\x01"), 5, 0x84, 0));

    /* 6: the operator octet, the first and a later one, its value there or not */
    CHECK(is_at(2, CHECKS(4, "\x02\x0B\x91"), 6, 1, 0) && is_at(2, CHECKS(6, "\x04\x0B\x91\x00\x2E"), 6, 1, 0));
    CHECK(is_at(3, CHECKS(4, "\xF0\x02\x0C\xB1"), 6, 3, 0) && is_at(3, CHECKS(6, "\xF0\x02\x0C\xB1"), 6, 3, 0));
    CHECK(is_at(5, CHECKS(4, "\x05\x09\x11\x01\x00\xA1"), 6, 2, 0) && is_at(5, CHECKS(6, "\x05\x09\x11\x01\x00\xA1"), 6, 2, 0));
    CHECK(is_at(3, CHECKS(0, "\x02\x0B\x91"), 1, 0, 0) && is_at(2, CHECKS(4, "\x01\x0B\x91"), 1, 0, 0));
}

/*
 * Each list type with a value of each width: the plain calls take it, the standard ones where the type has that width. What is refused is
 * lent as the plain reading left it, with the family put in.
 */
static void widths(void)
{
    uint8_t kind, code, family;
    for (kind = 3; kind <= 13; kind++) {
        for (code = 0; code < 4; code++) {
            uint8_t input[11] = {0}, out[11];
            const size_t length = 3 + ((size_t)1 << code);
            const int good = code <= (kind == 9 ? 1 : kind == 11 || kind == 12 ? 0 : 3);
            struct lent l;
            input[0] = (uint8_t)(length - 1);
            input[1] = kind;
            input[2] = (uint8_t)(0x81 | code << 4);
            input[length - 1] = 2;
            for (family = 4; family <= 6; family += 2) {
                uint64_t packet[20] = {0};
                struct krubbadin_answer a;
                if (kind == 13 && family == 4) {
                    continue;
                }
                CHECK(is(reads(0, input, length, &l), 0, length, 1) && l.values[0] == 2 && l.octets[0] == input[2]);
                CHECK(is(krubbadin_write(0, 0, l.words, 64, l.values, 1, l.octets, 1, out, 11), 0, length, 0));
                CHECK(memcmp(out, input, length) == 0);
                packet[0] = family;
                l.words[KRUBBADIN_WORD_FAMILY] = family;
                a = krubbadin_check(1, family, input, length);
                CHECK(good ? is(a, 0, length, 1) : is_at(2, a, 6, code, 0));
                a = krubbadin_write(1, family, l.words, 64, l.values, 1, l.octets, 1, out, 11);
                CHECK(good ? is(a, 0, length, 0) : is(a, 10, 0, 0));
                a = krubbadin_match(l.words, 64, l.values, 1, l.octets, 1, packet, 20);
                CHECK(good ? is(a, 0, 0, 0) : is(a, 10, 0, 0));
                a = krubbadin_rank(l.words, 64, l.values, 1, l.octets, 1, l.words, 64, l.values, 1, l.octets, 1);
                CHECK(good ? is(a, 0, 0, 0) : is(a, 10, 0, 0));
                a = krubbadin_choose(l.words, 64, l.values, 1, l.octets, 1, packet, 20);
                CHECK(good ? is(a, 0, 0, 0) : is(a, 10, 0, 0));
                a = reads(family, input, length, &l);
                CHECK(good ? is(a, 0, length, 1) : is_at(2, a, 6, code, 0) && untouched(&l));
            }
        }
    }
}

static void matched(void)
{
    const uint16_t ports[] = {80, 90, 443, 79, 91};
    struct lent l;
    uint64_t packet[20];
    size_t i;
    READS(4, &l, "\x08\x05\x03\x50\x45\x5A\x91\x01\xBB");
    packet4(packet, 0x0A010203);
    CHECK(is(krubbadin_match(l.words, 64, l.values, 8, l.octets, 8, packet, 20), 0, 0, 0));
    packet[9] = 1;
    for (i = 0; i < 5; i++) {
        packet[11] = ports[i];
        CHECK(is(krubbadin_match(l.words, 64, l.values, 8, l.octets, 8, packet, 20), 0, i < 3, 0));
    }
    CHECK(is(krubbadin_match(l.words, 64, l.values, 2, l.octets, 8, packet, 20), 10, 0, 0));
    CHECK(is(krubbadin_match(l.words, 64, l.values, 8, l.octets, 8, packet, 19), 13, 0, 0));
    packet[5] = 256;
    CHECK(is(krubbadin_match(l.words, 64, l.values, 8, l.octets, 8, packet, 20), 13, 0, 0));
    packet[5] = 0;
    l.words[KRUBBADIN_WORD_FAMILY] = 6;
    CHECK(is(krubbadin_match(l.words, 64, l.values, 8, l.octets, 8, packet, 20), 14, 0, 0));

    packet4(packet, 0x0A010203);
    packet[15] = 1, packet[16] = 0x12;
    READS(4, &l, "\x03\x09\x81\x12");
    CHECK(is(krubbadin_match(l.words, 64, l.values, 8, l.octets, 8, packet, 20), 0, 1, 0));
    packet[16] = 0x02;
    CHECK(is(krubbadin_match(l.words, 64, l.values, 8, l.octets, 8, packet, 20), 0, 0, 0));
    READS(4, &l, "\x03\x09\x80\x12");
    CHECK(is(krubbadin_match(l.words, 64, l.values, 8, l.octets, 8, packet, 20), 0, 1, 0));

    /* The ninth bit; the data offset is left out. */
    CHECK(krubbadin_tcp_flags(0x51, 0x02) == 0x102 && krubbadin_tcp_flags(0xFF, 0xFF) == 4095 && krubbadin_tcp_flags(0xF0, 0) == 0);
    READS(4, &l, "\x04\x09\x91\x01\x00");
    packet[16] = krubbadin_tcp_flags(0x51, 0x00);
    CHECK(is(krubbadin_match(l.words, 64, l.values, 8, l.octets, 8, packet, 20), 0, 1, 0));
    packet[16] = krubbadin_tcp_flags(0x50, 0xFF);
    CHECK(is(krubbadin_match(l.words, 64, l.values, 8, l.octets, 8, packet, 20), 0, 0, 0));
    packet[16] = 4095;
    CHECK(is(krubbadin_match(l.words, 64, l.values, 8, l.octets, 8, packet, 20), 0, 1, 0));
    packet[16] = 4096;
    CHECK(is(krubbadin_match(l.words, 64, l.values, 8, l.octets, 8, packet, 20), 13, 0, 0));
}

static void ranked(void)
{
    struct lent ten, eleven, list;
    READS(4, &ten, "\x03\x01\x08\x0A");
    READS(4, &eleven, "\x04\x01\x10\x0B\x00");
    READS(4, &list, "\x03\x03\x81\x06");
    CHECK(is(krubbadin_rank(ten.words, 64, NULL, 0, NULL, 0, eleven.words, 64, NULL, 0, NULL, 0), 0, 1, 0));
    CHECK(is(krubbadin_rank(eleven.words, 64, NULL, 0, NULL, 0, ten.words, 64, NULL, 0, NULL, 0), 0, 2, 0));
    CHECK(is(krubbadin_rank(ten.words, 64, NULL, 0, NULL, 0, ten.words, 64, NULL, 0, NULL, 0), 0, 0, 0));
    CHECK(is(krubbadin_rank(ten.words, 64, NULL, 0, NULL, 0, list.words, 64, list.values, 1, list.octets, 1), 0, 1, 0));
    CHECK(is(krubbadin_rank(ten.words, 64, NULL, 0, NULL, 0, list.words, 64, NULL, 0, NULL, 0), 10, 0, 0));
    eleven.words[KRUBBADIN_WORD_FAMILY] = 6;
    eleven.words[0] = 1 + 16 * 3;
    eleven.words[2] = 0;
    CHECK(is(krubbadin_rank(ten.words, 64, NULL, 0, NULL, 0, eleven.words, 64, NULL, 0, NULL, 0), 14, 1, 0));
}

/* How two rules of a family rank, if that is 0 exactly where they are written alike and the opposite the other way round; else 3. */
static uint64_t rank_as_written(uint8_t family, const struct lent *one, const struct lent *two)
{
    uint8_t out[2][32];
    struct krubbadin_answer a = krubbadin_write(1, family, one->words, 64, one->values, 8, one->octets, 8, out[0], 32);
    struct krubbadin_answer b = krubbadin_write(1, family, two->words, 64, two->values, 8, two->octets, 8, out[1], 32);
    struct krubbadin_answer r = krubbadin_rank(one->words, 64, one->values, 8, one->octets, 8, two->words, 64, two->values, 8, two->octets, 8);
    struct krubbadin_answer back = krubbadin_rank(two->words, 64, two->values, 8, two->octets, 8, one->words, 64, one->values, 8, one->octets, 8);
    const int alike = a.first == b.first && memcmp(out[0], out[1], (size_t)a.first) == 0;
    if (a.status != 0 || b.status != 0 || r.status != 0 || !is(back, 0, (3 - r.first) % 3, 0)) {
        return 3;
    }
    return alike == (r.first == 0) ? r.first : 3;
}

/* Rules that differ in little, and the same rule lent otherwise. */
static void ranked_as_written(void)
{
    struct lent one, two;
    /* 10.0.0.0/16 precedes 11.0.0.0/8, though 16 is above 8 */
    READS(4, &one, "\x04\x01\x10\x0A\x00");
    READS(4, &two, "\x03\x01\x08\x0B");
    CHECK(rank_as_written(4, &one, &two) == 1);
    /* the last bit of a prefix */
    READS(4, &two, "\x04\x01\x10\x0A\x01");
    CHECK(rank_as_written(4, &one, &two) == 1);
    /* the offset alone */
    READS(6, &one, "\x04\x01\x10\x08\x00");
    READS(6, &two, "\x04\x01\x10\x09\x00");
    CHECK(rank_as_written(6, &one, &two) == 1);
    /* the width of the last value */
    READS(4, &one, "\x05\x03\x01\x05\x81\x06");
    READS(4, &two, "\x06\x03\x01\x05\x91\x00\x06");
    CHECK(rank_as_written(4, &one, &two) == 1);
    /* a list that has ended, and a rule that has */
    READS(4, &two, "\x03\x03\x81\x05");
    CHECK(rank_as_written(4, &one, &two) == 1);
    READS(4, &two, "\x08\x03\x01\x05\x81\x06\x0C\x81\x00");
    CHECK(rank_as_written(4, &one, &two) == 2);
    /* reserved bits, of a number and of a mask */
    two = one;
    two.octets[0] |= 0x08;
    CHECK(rank_as_written(4, &one, &two) == 0);
    READS(4, &one, "\x03\x09\x81\x02");
    two = one;
    two.octets[0] |= 0x0C;
    CHECK(rank_as_written(4, &one, &two) == 0);
    two.octets[0] |= 0x02;
    CHECK(rank_as_written(4, &one, &two) == 1);
    /* other places of the lists, by the rule's first place and by a list's own */
    READS(4, &one, "\x05\x03\x01\x05\x81\x06");
    two = one;
    two.words[KRUBBADIN_WORD_FIRST] = 4;
    two.words[1] = 2;
    memcpy(two.values + 6, one.values, 2 * sizeof *two.values);
    memcpy(two.octets + 6, one.octets, 2);
    two.octets[0] = two.octets[1] = 0;
    CHECK(rank_as_written(4, &one, &two) == 0);
    two.values[7]++;
    CHECK(rank_as_written(4, &one, &two) == 1);
}

static void chosen(void)
{
    static uint64_t many[65 * 64];
    const uint64_t destinations[] = {0x0A010203, 0x0A020001, 0x0B000001};
    uint64_t words[128], packet[20];
    struct lent l;
    READS(4, &l, "\x03\x01\x08\x0A");
    memcpy(words, l.words, 64 * sizeof *words);
    READS(4, &l, "\x04\x01\x10\x0A\x01");
    memcpy(words + 64, l.words, 64 * sizeof *words);
    packet4(packet, destinations[0]);
    CHECK(is(krubbadin_choose(words, 128, NULL, 0, NULL, 0, packet, 20), 0, 1, 1));
    CHECK(is(krubbadin_choose(words, 127, NULL, 0, NULL, 0, packet, 20), 10, 0, 0));
    CHECK(is(krubbadin_choose(NULL, 0, NULL, 0, NULL, 0, packet, 20), 0, 0, 0));
    CHECK(is(krubbadin_choose(NULL, 0, NULL, 0, NULL, 0, NULL, 0), 13, 0, 0));
    packet4(packet, destinations[1]);
    CHECK(is(krubbadin_choose(words, 128, NULL, 0, NULL, 0, packet, 20), 0, 1, 0));
    packet4(packet, destinations[2]);
    CHECK(is(krubbadin_choose(words, 128, NULL, 0, NULL, 0, packet, 20), 0, 0, 0));
    words[64 + KRUBBADIN_WORD_FAMILY] = 0;
    CHECK(is(krubbadin_choose(words, 128, NULL, 0, NULL, 0, packet, 20), 10, 0, 0));
    memset(words + 64, 0, 64 * sizeof *words);
    words[64 + KRUBBADIN_WORD_FAMILY] = 6;
    CHECK(is(krubbadin_choose(words, 128, NULL, 0, NULL, 0, packet, 20), 14, 1, 0));
    CHECK(is(krubbadin_choose(many, 65 * 64, NULL, 0, NULL, 0, NULL, 0), 12, 65, 0));
}

/* As READS, of a rule with a distinguisher. */
static struct krubbadin_answer reads_distinguished(uint8_t family, const uint8_t *input, size_t length, struct lent *l)
{
    CHECK(checks_the_same_by(KRUBBADIN_WITH_DISTINGUISHER, family, input, length));
    *l = fresh();
    return krubbadin_read(KRUBBADIN_WITH_DISTINGUISHER, family, input, length, l->words, 64, l->values, 8, l->octets, 8);
}

#define READS_DISTINGUISHED(family, l, text) reads_distinguished((family), (const uint8_t *)(text), sizeof(text) - 1, (l))

/* The distinguisher 0:64496:7 in a text, and as a number. */
#define RD "\x00\x00\xFB\xF0\x00\x00\x00\x07"
#define RD_BITS 0x0000FBF000000007

/* Whether words 55 to 63 are those of a rule with this distinguisher. */
static int distinguished_by(const uint64_t *words, uint64_t bits)
{
    size_t i;
    for (i = 57; i < 64; i++) {
        if (words[i] != 0) {
            return 0;
        }
    }
    return words[KRUBBADIN_WORD_DISTINGUISHED] == 1 && words[KRUBBADIN_WORD_DISTINGUISHER] == bits;
}

/* A rule that is read with its distinguisher and written back: with it by the standard writing, without it by the plain one. */
static void distinguished(void)
{
    const uint8_t input[] = {0x0E, 0x00, 0x00, 0xFB, 0xF0, 0x00, 0x00, 0x00, 0x07, 0x01, 0x08, 0x0A, 0x05, 0x81, 0x50};
    const uint8_t plain[] = {0x06, 0x01, 0x08, 0x0A, 0x05, 0x81, 0x50};
    const uint64_t components[] = {1, 8, 0x0A000000, 0, 5, 0, 1, 0};
    const uint8_t modes[] = {KRUBBADIN_STANDARD, KRUBBADIN_WITH_DISTINGUISHER, 3, 255};
    const struct lent f = fresh();
    uint64_t packet[20];
    struct lent l;
    uint8_t out[16];
    size_t i;
    CHECK(KRUBBADIN_PLAIN == 0 && KRUBBADIN_STANDARD == 1 && KRUBBADIN_WITH_DISTINGUISHER == 2);
    CHECK(KRUBBADIN_WORD_DISTINGUISHED == 55 && KRUBBADIN_WORD_DISTINGUISHER == 56);
    CHECK(is(reads_distinguished(4, input, sizeof input, &l), 0, 15, 1));
    CHECK(memcmp(l.words, components, sizeof components) == 0 && l.words[KRUBBADIN_WORD_COUNT] == 2);
    CHECK(l.words[KRUBBADIN_WORD_FAMILY] == 4 && l.words[KRUBBADIN_WORD_FIRST] == 0 && distinguished_by(l.words, RD_BITS));
    CHECK(l.values[0] == 80 && l.octets[0] == 0x81 && l.words[64] == f.words[64] && l.values[1] == f.values[1]);
    for (i = 0; i < sizeof modes; i++) {
        memset(out, 0xEE, sizeof out);
        CHECK(is(krubbadin_write(modes[i], 4, l.words, 64, l.values, 1, l.octets, 1, out, 14), 9, 15, 0));
        CHECK(out[0] == 0xEE && out[13] == 0xEE);
        CHECK(is(krubbadin_write(modes[i], 4, l.words, 64, l.values, 1, l.octets, 1, out, 15), 0, 15, 0));
        CHECK(memcmp(out, input, sizeof input) == 0 && out[15] == 0xEE);
    }
    memset(out, 0xEE, sizeof out);
    CHECK(is(krubbadin_write(KRUBBADIN_PLAIN, 0, l.words, 64, l.values, 1, l.octets, 1, out, 6), 9, 7, 0) && out[0] == 0xEE);
    CHECK(is(krubbadin_write(KRUBBADIN_PLAIN, 0, l.words, 64, l.values, 1, l.octets, 1, out, 7), 0, 7, 0));
    CHECK(memcmp(out, plain, sizeof plain) == 0 && out[7] == 0xEE);

    /* it plays no part in matching */
    packet4(packet, 0x0A010203);
    packet[9] = 1, packet[11] = 80;
    CHECK(is(krubbadin_match(l.words, 64, l.values, 1, l.octets, 1, packet, 20), 0, 1, 0));
    packet[11] = 81;
    CHECK(is(krubbadin_match(l.words, 64, l.values, 1, l.octets, 1, packet, 20), 0, 0, 0));

    /* a length of two octets, IPv6, and octets behind that belong to someone else */
    CHECK(is(READS_DISTINGUISHED(6, &l, "\xF0\x0B" RD "\x03\x81\x06\xFF"), 0, 13, 1));
    CHECK(l.words[0] == 3 && l.words[KRUBBADIN_WORD_FAMILY] == 6 && l.values[0] == 6 && distinguished_by(l.words, RD_BITS));

    /* the distinguisher alone is a rule without components; one of zeros is one, too */
    CHECK(is(READS_DISTINGUISHED(4, &l, "\x08" RD), 0, 9, 0));
    CHECK(l.words[KRUBBADIN_WORD_COUNT] == 0 && distinguished_by(l.words, RD_BITS));
    CHECK(is(krubbadin_write(1, 4, l.words, 64, NULL, 0, NULL, 0, out, 9), 0, 9, 0) && memcmp(out, "\x08" RD, 9) == 0);
    CHECK(is(krubbadin_write(1, 4, l.words, 64, NULL, 0, NULL, 0, out, 8), 9, 9, 0));
    CHECK(is(krubbadin_write(0, 0, l.words, 64, NULL, 0, NULL, 0, out, 1), 0, 1, 0) && out[0] == 0);
    CHECK(is(READS_DISTINGUISHED(4, &l, "\x08\x00\x00\x00\x00\x00\x00\x00\x00"), 0, 9, 0) && distinguished_by(l.words, 0));
    memset(out, 0xEE, sizeof out);
    CHECK(is(krubbadin_write(1, 4, l.words, 64, NULL, 0, NULL, 0, out, 9), 0, 9, 0));
    CHECK(memcmp(out, "\x08\x00\x00\x00\x00\x00\x00\x00\x00", 9) == 0);

    /* the other readings expect none: its first octet is a type, and words 55 and 56 are 0 */
    CHECK(is_at(1, krubbadin_check(KRUBBADIN_STANDARD, 4, input, sizeof input), 2, 0, 0));
    CHECK(is_at(1, krubbadin_check(3, 4, input, sizeof input), 2, 0, 0) && is_at(1, krubbadin_check(255, 4, input, sizeof input), 2, 0, 0));
    CHECK(is_at(1, krubbadin_check(KRUBBADIN_PLAIN, 0, input, sizeof input), 2, 0, 0));
    CHECK(is(READS(4, &l, "\x03\x01\x08\x0A"), 0, 4, 0) && l.words[55] == 0 && l.words[56] == 0);
    CHECK(is(READS(0, &l, "\x03\x01\x08\x0A"), 0, 4, 0) && l.words[55] == 0 && l.words[56] == 0);
}

/* The refusals of a reading that expects a distinguisher, in their order, with places counted from the start of the input. */
static void short_distinguishers(void)
{
    const uint8_t tcp[] = {0x0B, 0x00, 0x00, 0xFB, 0xF0, 0x00, 0x00, 0x00, 0x07, 0x03, 0x81, 0x06};
    struct lent l;
    CHECK(is(READS_DISTINGUISHED(5, &l, "\x00"), 11, 5, 0) && untouched(&l));
    CHECK(is(READS_DISTINGUISHED(0, &l, "\x00"), 11, 0, 0) && untouched(&l));

    /* 1 in the length, and where the stated end lies past the input, come before 19 */
    CHECK(is_at(0, reads_distinguished(4, NULL, 0, &l), 1, 0, 0) && untouched(&l));
    CHECK(is_at(1, READS_DISTINGUISHED(4, &l, "\xF0"), 1, 0, 0) && untouched(&l));
    CHECK(is_at(7, READS_DISTINGUISHED(4, &l, "\x07\x00\x00\xFB\xF0\x00\x00"), 1, 0, 0) && untouched(&l));
    CHECK(is_at(8, READS_DISTINGUISHED(6, &l, "\x08\x00\x00\xFB\xF0\x00\x00\x00"), 1, 0, 0) && untouched(&l));

    /* 19 at the stated end, whatever follows it */
    CHECK(is_at(1, READS_DISTINGUISHED(4, &l, "\x00"), 19, 0, 0) && untouched(&l));
    CHECK(is_at(8, READS_DISTINGUISHED(4, &l, "\x07\x00\x00\xFB\xF0\x00\x00\x00"), 19, 0, 0) && untouched(&l));
    CHECK(is_at(8, READS_DISTINGUISHED(6, &l, "\x07" RD "\x01"), 19, 0, 0) && untouched(&l));
    CHECK(is_at(9, READS_DISTINGUISHED(4, &l, "\xF0\x07" RD), 19, 0, 0) && untouched(&l));
    CHECK(is_at(4, READS_DISTINGUISHED(4, &l, "\x03\x0E\x81\x06"), 19, 0, 0) && untouched(&l));
    CHECK(is_at(4, krubbadin_check(2, 4, (const uint8_t *)"\x03\x01\x08\x0A", 4), KRUBBADIN_SHORT_DISTINGUISHER, 0, 0));

    /* what is wrong behind it */
    CHECK(is_at(11, READS_DISTINGUISHED(4, &l, "\x0A" RD "\x03\x81\x06"), 1, 0, 0) && untouched(&l));
    CHECK(is_at(12, READS_DISTINGUISHED(6, &l, "\x0E" RD "\x03\x81\x06\x03\x81\x11"), 2, 3, 3) && untouched(&l));
    CHECK(is_at(9, READS_DISTINGUISHED(4, &l, "\x0C" RD "\x0D\x81\x00\x0E"), 3, 13, 0) && untouched(&l));
    CHECK(is_at(10, READS_DISTINGUISHED(4, &l, "\x0A" RD "\x01\x21"), 4, 0, 0) && untouched(&l));
    CHECK(is_at(11, READS_DISTINGUISHED(6, &l, "\xF0\x0B" RD "\x01\x40\x40"), 4, 0, 0) && untouched(&l));
    CHECK(is_at(10, READS_DISTINGUISHED(4, &l, "\x0A" RD "\x0B\x91"), 6, 1, 0) && untouched(&l));
    CHECK(is(READS_DISTINGUISHED(4, &l, "\x0B" RD "\x03\x89\x06"), 0, 12, 1) && l.octets[0] == 0x81);

    /* 9 comes last */
    l = fresh();
    CHECK(is(krubbadin_read(2, 4, tcp, 12, l.words, 63, l.values, 8, l.octets, 8), 9, 1, 0) && untouched(&l));
    CHECK(is(krubbadin_read(2, 4, tcp, 12, l.words, 64, NULL, 0, l.octets, 8), 9, 1, 0) && untouched(&l));
    CHECK(is(krubbadin_read(2, 4, tcp, 12, l.words, 64, l.values, 8, NULL, 0), 9, 1, 0) && untouched(&l));
    CHECK(is_at(1, krubbadin_read(2, 4, (const uint8_t *)"\x00", 1, NULL, 0, NULL, 0, NULL, 0), 19, 0, 0));
}

/* Words 55 to 63 that no rule has are refused by every call that takes a rule, whichever rule it is. */
static void no_distinguishers(void)
{
    const struct { size_t word; uint64_t other; } wrong[] = {
        {KRUBBADIN_WORD_DISTINGUISHED, 2}, {KRUBBADIN_WORD_DISTINGUISHED, UINT64_MAX}, {KRUBBADIN_WORD_DISTINGUISHED, (uint64_t)1 << 32},
        {KRUBBADIN_WORD_DISTINGUISHER, 1}, {KRUBBADIN_WORD_DISTINGUISHER, RD_BITS},
        {57, 1}, {60, 1}, {63, 1},
    };
    uint64_t packet[20], words[128];
    struct lent good, bad;
    uint8_t out[16], standard;
    size_t i;
    packet4(packet, 0x0A010203);
    READS(4, &good, "\x03\x01\x08\x0A");
    for (i = 0; i < sizeof wrong / sizeof *wrong; i++) {
        bad = good;
        bad.words[wrong[i].word] = wrong[i].other;
        for (standard = 0; standard < 4; standard++) {
            memset(out, 0xEE, sizeof out);
            CHECK(is(krubbadin_write(standard, 4, bad.words, 64, NULL, 0, NULL, 0, out, 16), 10, 0, 0) && out[0] == 0xEE);
        }
        CHECK(is(krubbadin_match(bad.words, 64, NULL, 0, NULL, 0, packet, 20), 10, 0, 0));
        CHECK(is(krubbadin_rank(bad.words, 64, NULL, 0, NULL, 0, good.words, 64, NULL, 0, NULL, 0), 10, 0, 0));
        CHECK(is(krubbadin_rank(good.words, 64, NULL, 0, NULL, 0, bad.words, 64, NULL, 0, NULL, 0), 10, 0, 0));
        CHECK(is(krubbadin_choose(bad.words, 64, NULL, 0, NULL, 0, packet, 20), 10, 0, 0));
        memcpy(words, good.words, 64 * sizeof *words);
        memcpy(words + 64, bad.words, 64 * sizeof *words);
        CHECK(is(krubbadin_choose(words, 128, NULL, 0, NULL, 0, packet, 20), 10, 0, 0));
    }
    /* the words that say it has one, of any bits */
    bad = good;
    bad.words[KRUBBADIN_WORD_DISTINGUISHED] = 1;
    CHECK(is(krubbadin_match(bad.words, 64, NULL, 0, NULL, 0, packet, 20), 0, 1, 0));
    CHECK(is(krubbadin_write(1, 4, bad.words, 64, NULL, 0, NULL, 0, out, 16), 0, 12, 0));
    CHECK(memcmp(out, "\x0B\0\0\0\0\0\0\0\0\x01", 10) == 0);
    bad.words[KRUBBADIN_WORD_DISTINGUISHER] = UINT64_MAX;
    CHECK(is(krubbadin_match(bad.words, 64, NULL, 0, NULL, 0, packet, 20), 0, 1, 0));
    CHECK(is(krubbadin_write(1, 4, bad.words, 64, NULL, 0, NULL, 0, out, 16), 0, 12, 0));
    CHECK(memcmp(out, "\x0B\xFF\xFF\xFF\xFF\xFF\xFF\xFF\xFF\x01", 10) == 0);
}

/* The eight octets count in the 4,095: of 4,087 octets of components and of one more. */
static void long_distinguished(void)
{
    static uint64_t values[458];
    static uint8_t octets[458], out[4097];
    uint64_t rule[64] = {0}, packet[20];
    packet4(packet, 0x0A010203);
    rule[0] = 4, rule[2] = 454, rule[KRUBBADIN_WORD_COUNT] = 1, rule[KRUBBADIN_WORD_FAMILY] = 4;
    memset(octets, 0x31, sizeof octets);
    octets[453] = 0xB1;
    rule[KRUBBADIN_WORD_DISTINGUISHED] = 1, rule[KRUBBADIN_WORD_DISTINGUISHER] = RD_BITS;
    CHECK(is(krubbadin_write(1, 4, rule, 64, values, 454, octets, 454, out, 4096), 9, 4097, 0));
    CHECK(is(krubbadin_write(1, 4, rule, 64, values, 454, octets, 454, out, 4097), 0, 4097, 0));
    CHECK(memcmp(out, "\xFF\xFF" RD "\x04\x31", 12) == 0);
    CHECK(is(krubbadin_check(2, 4, out, 4097), 0, 4097, 454));
    CHECK(is(krubbadin_match(rule, 64, values, 454, octets, 454, packet, 20), 0, 0, 0));
    CHECK(is(krubbadin_rank(rule, 64, values, 454, octets, 454, rule, 64, values, 454, octets, 454), 0, 0, 0));
    CHECK(is(krubbadin_choose(rule, 64, values, 454, octets, 454, packet, 20), 0, 0, 0));

    /* five operators of two octets in place of one of nine */
    memset(octets + 453, 0x01, 5);
    octets[457] = 0x81, rule[2] = 458;
    CHECK(is(krubbadin_write(1, 4, rule, 64, values, 458, octets, 458, out, 4097), 7, 4096, 0));
    CHECK(is(krubbadin_write(2, 4, rule, 64, values, 458, octets, 458, NULL, 0), 7, 4096, 0));
    CHECK(is(krubbadin_match(rule, 64, values, 458, octets, 458, packet, 20), 10, 0, 0));
    CHECK(is(krubbadin_rank(rule, 64, values, 458, octets, 458, rule, 64, values, 458, octets, 458), 10, 0, 0));
    CHECK(is(krubbadin_choose(rule, 64, values, 458, octets, 458, packet, 20), 10, 0, 0));
    CHECK(is(krubbadin_write(0, 0, rule, 64, values, 458, octets, 458, out, 4097), 0, 4090, 0));
    rule[KRUBBADIN_WORD_DISTINGUISHED] = 0, rule[KRUBBADIN_WORD_DISTINGUISHER] = 0;
    CHECK(is(krubbadin_write(1, 4, rule, 64, values, 458, octets, 458, out, 4097), 0, 4090, 0));
    CHECK(is(krubbadin_match(rule, 64, values, 458, octets, 458, packet, 20), 0, 0, 0));
}

/* Puts a rule to a place of a table. */
static void place_rule(uint64_t *words, size_t place, const struct lent *rule)
{
    memcpy(words + 64 * place, rule->words, 64 * sizeof *words);
}

static struct krubbadin_answer rank_of(const struct lent *one, const struct lent *two)
{
    return krubbadin_rank(one->words, 64, NULL, 0, NULL, 0, two->words, 64, NULL, 0, NULL, 0);
}

/* Rules of two distinguishers are not ranked, and not chosen from; none is one of its own. */
static void mixed_distinguishers(void)
{
    struct lent wide, narrow, other, zero, none, six;
    uint64_t words[4 * 64], packet[20];
    READS_DISTINGUISHED(4, &wide, "\x0B" RD "\x01\x08\x0A");
    READS_DISTINGUISHED(4, &narrow, "\x0C" RD "\x01\x10\x0A\x01");
    READS_DISTINGUISHED(4, &other, "\x0B\x00\x00\xFB\xF0\x00\x00\x00\x08\x01\x08\x0A");
    READS_DISTINGUISHED(4, &zero, "\x0B\x00\x00\x00\x00\x00\x00\x00\x00\x01\x08\x0A");
    READS(4, &none, "\x03\x01\x08\x0A");
    READS_DISTINGUISHED(6, &six, "\x08\x00\x00\xFB\xF0\x00\x00\x00\x09");

    CHECK(is(rank_of(&wide, &narrow), 0, 2, 0) && is(rank_of(&narrow, &wide), 0, 1, 0) && is(rank_of(&wide, &wide), 0, 0, 0));
    CHECK(is(rank_of(&zero, &zero), 0, 0, 0) && is(rank_of(&none, &none), 0, 0, 0));
    CHECK(is(rank_of(&wide, &other), 20, 1, 0) && is(rank_of(&other, &wide), 20, 1, 0));
    CHECK(is(rank_of(&wide, &none), 20, 1, 0) && is(rank_of(&none, &wide), 20, 1, 0));
    CHECK(is(rank_of(&zero, &none), 20, 1, 0) && is(rank_of(&none, &zero), 20, 1, 0));
    /* 14 comes before it, and 10 before that */
    CHECK(is(rank_of(&wide, &six), 14, 1, 0) && is(rank_of(&six, &none), 14, 1, 0));
    other.words[63] = 1;
    CHECK(is(rank_of(&wide, &other), 10, 0, 0));
    other.words[63] = 0;

    packet4(packet, 0x0A010203);
#define TABLE(a, b, c, d) (place_rule(words, 0, &(a)), place_rule(words, 1, &(b)), place_rule(words, 2, &(c)), place_rule(words, 3, &(d)))
#define CHOOSE(rules) krubbadin_choose(words, 64 * (rules), NULL, 0, NULL, 0, packet, 20)
    TABLE(wide, narrow, wide, other);
    CHECK(is(CHOOSE(3), 0, 1, 1) && is(CHOOSE(4), 20, 3, 0));
    TABLE(wide, other, other, narrow);
    CHECK(is(CHOOSE(1), 0, 1, 0) && is(CHOOSE(2), 20, 1, 0) && is(CHOOSE(4), 20, 1, 0));
    TABLE(none, none, wide, wide);
    CHECK(is(CHOOSE(2), 0, 1, 0) && is(CHOOSE(3), 20, 2, 0) && is(CHOOSE(4), 20, 2, 0));
    TABLE(wide, none, none, none);
    CHECK(is(CHOOSE(4), 20, 1, 0));
    TABLE(zero, zero, none, none);
    CHECK(is(CHOOSE(2), 0, 1, 0) && is(CHOOSE(3), 20, 2, 0));
    /* also where no rule matches */
    packet4(packet, 0x0B000001);
    CHECK(is(CHOOSE(2), 0, 0, 0) && is(CHOOSE(3), 20, 2, 0));
    /* 14 comes before it, be its place a later one; 10 before 14; 13 before 10 */
    TABLE(wide, other, none, six);
    CHECK(is(CHOOSE(3), 20, 1, 0) && is(CHOOSE(4), 14, 3, 0));
    words[3 * 64 + 63] = 1;
    CHECK(is(CHOOSE(4), 10, 0, 0));
    packet[0] = 5;
    CHECK(is(CHOOSE(4), 13, 0, 0));
#undef TABLE
#undef CHOOSE
}

static void operators(void)
{
    struct krubbadin_operator o = krubbadin_operator_read(0, 0x45, 90);
    unsigned octet;
    CHECK(o.status == 0 && o.carried == 0 && o.end_of_list == 0 && o.and_with_next == 1);
    CHECK(o.value_length == 1 && o.flags == 5 && o.value == 90);
    o = krubbadin_operator_read(1, 0x85, 90);
    CHECK(o.status == 5 && o.carried == 0x85 && o.end_of_list == 0 && o.value_length == 0 && o.flags == 0 && o.value == 0);
    for (octet = 0; octet < 256; octet++) {
        uint8_t bitmask;
        for (bitmask = 0; bitmask < 2; bitmask++) {
            o = krubbadin_operator_read(bitmask, (uint8_t)octet, UINT64_MAX);
            if (octet & (bitmask ? 0x0Cu : 0x08u)) {
                CHECK(o.status == 5 && o.carried == octet);
            } else {
                CHECK(o.status == 0 && o.value == UINT64_MAX);
                CHECK(is(krubbadin_operator_write(bitmask, (uint8_t)o.end_of_list, (uint8_t)o.and_with_next,
                                                  (uint8_t)o.value_length, (uint8_t)o.flags),
                         0, octet, 0));
            }
        }
    }
    CHECK(is(krubbadin_operator_write(0, 1, 0, 3, 1), 10, 0, 0));
    CHECK(is(krubbadin_operator_write(0, 2, 0, 1, 1), 10, 0, 0));
    CHECK(is(krubbadin_operator_write(0, 1, 2, 1, 1), 10, 0, 0));
    CHECK(is(krubbadin_operator_write(0, 1, 0, 1, 8), 10, 0, 0));
    CHECK(is(krubbadin_operator_write(1, 1, 0, 1, 4), 10, 0, 0));

    o = krubbadin_operator_make(KRUBBADIN_EQUAL_TO, 443);
    CHECK(o.status == 0 && o.end_of_list == 1 && o.and_with_next == 0 && o.value_length == 2 && o.flags == 1 && o.value == 443);
    o = krubbadin_operator_make(KRUBBADIN_GREATER_THAN_OR_EQUAL, 0x10000);
    CHECK(o.status == 0 && o.value_length == 4 && o.flags == 3 && o.value == 0x10000);
    o = krubbadin_operator_make(KRUBBADIN_EXACT_MATCH, 0x12);
    CHECK(o.status == 0 && o.value_length == 1 && o.flags == 0 && o.value == 0x12);
    o = krubbadin_operator_make(KRUBBADIN_PARTIAL_MATCH, 0x100000000);
    CHECK(o.status == 0 && o.value_length == 8 && o.flags == 1 && o.value == 0x100000000);
    o = krubbadin_operator_make(4, 6);
    CHECK(o.status == 10 && o.carried == 0 && o.end_of_list == 0 && o.value_length == 0 && o.value == 0);
}

/* Every status has a text of its own, and what is none has the one for that. */
static void texts(void)
{
    const char *unknown = krubbadin_status_text(15);
    uint64_t one, other;
    CHECK(strcmp(unknown, "unknown status") == 0);
    CHECK(strcmp(krubbadin_status_text(UINT64_MAX), unknown) == 0);
    CHECK(strcmp(krubbadin_status_text(((uint64_t)1 << 32) + 1), unknown) == 0);
    CHECK(strcmp(krubbadin_status_text(KRUBBADIN_ACCEPTED), "accepted") == 0);
    CHECK(strcmp(krubbadin_status_text(13), "a field of the packet is out of range") == 0);
    CHECK(strcmp(krubbadin_status_text(19), "the rule ends before the eight octets of its distinguisher") == 0);
    for (one = 0; one <= KRUBBADIN_MIXED_DISTINGUISHER + 1; one++) {
        const int known = one <= KRUBBADIN_MIXED_FAMILY || one == KRUBBADIN_SHORT_DISTINGUISHER || one == KRUBBADIN_MIXED_DISTINGUISHER;
        CHECK((strcmp(krubbadin_status_text(one), unknown) != 0) == known);
        for (other = one + 1; known && other <= KRUBBADIN_MIXED_DISTINGUISHER + 1; other++) {
            CHECK(strcmp(krubbadin_status_text(one), krubbadin_status_text(other)) != 0);
        }
    }
}

int main(void)
{
    texts();
    the_port_case();
    accepted();
    refused();
    checked();
    placed();
    widths();
    matched();
    ranked();
    ranked_as_written();
    chosen();
    distinguished();
    short_distinguishers();
    no_distinguishers();
    long_distinguished();
    mixed_distinguishers();
    operators();
    printf("%u checks, %u failed\n", checks, failed);
    return failed != 0;
}
