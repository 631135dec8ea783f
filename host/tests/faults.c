/*
 * Broken stores against the faults that were put into them (document 02, Req 06): each kind at every entry, alone and in pairs, and the
 * examples of the request's sheet. tacho_store_fault gives the number and the position of the fault, tacho_store_check the number; for a
 * good store both give 0. The reference has to give the same, but what is right is not taken from it. The store stays as it is, and no
 * byte outside it is touched.
 *
 *   faults
 */
#include "spoilt.h"
#include "support.h"

#include <stdio.h>
#include <string.h>

/* The longest buffer that a header can speak of, and bytes behind it; a good store, and its copy with faults. */
enum { SPOKEN_OF = REF_STORE_HEADER + REF_STORE_ENTRY * 0xFFFF + 0xFFFF, BEHIND = 3 };
static guard lent;
static uint8_t good[TACHO_STORE_MOST], spoilt[SPOKEN_OF + BEHIND];

/* Stores judged, by the number wanted of them, and faults put in, by their kind. */
static unsigned long judged[18], put_in[FAULTS];

static bool same_fault(tacho_fault a, tacho_fault b)
{
    return a.number == b.number && a.position == b.position;
}

static void show(const char *what, tacho_fault f)
{
    fprintf(stderr, "%s: number %u, position %zu\n", what, f.number, f.position);
}

/* Whether the proved call and the reference give this fault, and the check its number; shows what they gave where not. */
static bool fault_is(const uint8_t *s, size_t len, tacho_fault wanted)
{
    const uint8_t *at = guard_lend(&lent, s, len);
    tacho_fault proved = tacho_store_fault(at, len), reference = ref_store_fault(s, len);
    uint8_t number = tacho_store_check(at, len);
    judged[wanted.number]++;
    guard_check(&lent, "tacho_store_fault or tacho_store_check");
    bool changed = memcmp(at, s, len) != 0;
    if (!changed && same_fault(proved, wanted) && same_fault(reference, wanted) && number == wanted.number) return true;
    hex(changed ? "store, which was changed" : "store", s, len);
    show("wanted", wanted);
    show("proved", proved);
    fprintf(stderr, "proved, the check: number %u\n", number);
    show("reference", reference);
    return false;
}

/* The examples of the request's sheet: bytes, and so many of one value behind them. */
static void known_faults(void)
{
    static const struct {
        const char *bytes;
        size_t len, behind;
        uint8_t value;
        tacho_fault fault;
    } known[] = {
        {"", 0, 0, 0, {13, 0}},
        {"\x00\x01\x00", 3, 0, 0, {13, 0}},
        {"\x00\x01\x00\x04\x00\x00\x00\x00\x00\x00\x00\x04\x76\x00\x02", 15, 0, 0, {13, 1}},
        {"\x00\x01\x00\x04\x00\x00\x00\x00\x00\x00\x00\x04\x76\x00\x02\x02", 16, 0, 0, {0, 0}},
        {"", 0, 4, 0xFF, {13, 65535}},
        {"", 0, 589818, 0xFF, {13, 65535}},
        {"", 0, 589819, 0xFF, {14, 65535}},
        {"\x00\x41\x00\x00", 4, 520, 0, {14, 65}},
        {"\x00\x00\x00\x00", 4, 0, 0, {0, 0}},
        {"\x00\x00\x00\x01\x76", 5, 0, 0, {15, 0}},
        {"\x00\x01\x00\x05\x00\x00\x00\x00\x00\x00\x00\x04\x76\x00\x02\x02\x00", 17, 0, 0, {15, 1}},
        {"\x00\x02\x00\x04\x00\x00\x00\x00\x00\x00\x00\x02\x00\x00\x00\x00\x00\x01\x00\x02\x75\x00\x76\x01", 24, 0, 0, {15, 1}},
        {"\x00\x02\x00\x04\x00\x00\x00\x00\x00\x00\x00\x02\x00\x00\x00\x01\x00\x02\x00\x02\x76\x01\x76\x02", 24, 0, 0, {16, 1}},
        {"\x00\x04\x00\x08\x00\x00\x00\x00\x00\x00\x00\x02\x00\x00\x00\x00\x00\x02\x00\x02\x00\x00\x00\x00\x00\x04\x00\x02"
         "\x00\x00\x00\x00\x00\x06\x00\x02\x76\x01\x76\x03\x76\x03\x76\x01", 44, 0, 0, {17, 2}},
    };
    for (size_t k = 0; k < sizeof known / sizeof *known; k++) {
        memcpy(spoilt, known[k].bytes, known[k].len);
        memset(spoilt + known[k].len, known[k].value, known[k].behind);
        if (!fault_is(spoilt, known[k].len + known[k].behind, known[k].fault)) fail("the fault of example %zu", k);
    }
}

/* A store of one answer without data: every first byte; every TREP, at days around the multiples of 86,400. */
static void judged_answers(void)
{
    static const struct {
        uint32_t day;
        bool multiple;
    } days[] = {{0, true},      {1, false},     {86399, false},     {86400, true},
                {86401, false}, {172800, true}, {4294944000, true}, {4294967295, false}};
    uint8_t s[] = {0, 1, 0, 2, 0, 0, 0, 0, 0, 0, 0, 2, 0x76, 0x00};
    uint8_t *day = s + REF_STORE_HEADER + REF_ENTRY_AT_DAY, *answer = s + entry_at(1);
    for (unsigned b = 0; b < 256; b++) {
        answer[0] = (uint8_t)b;
        if (!fault_is(s, sizeof s, (tacho_fault){b == 0x76 ? 0 : 16, 0})) fail("an answer's first byte %02X", b);
    }
    answer[0] = 0x76;
    for (unsigned trep = 0; trep < 256; trep++)
        for (size_t k = 0; k < sizeof days / sizeof *days; k++) {
            bool dated = memchr(DATED, (int)trep, sizeof DATED);
            bool right = memchr(TREPS, (int)trep, sizeof TREPS) && (dated ? days[k].multiple : days[k].day == 0);
            answer[1] = (uint8_t)trep;
            put_four(day, days[k].day);
            if (!fault_is(s, sizeof s, (tacho_fault){right ? 0 : 16, 0})) fail("TREP %02X at second %u", trep, (unsigned)days[k].day);
        }
}

/* Names for 64 answers: of any listed TREP, of one TREP, or with TREPs that rise while the days fall; and the order in which they come. */
typedef enum { ANY_TREP, ONE_TREP, DAYS_FALL, NAMES } naming;
typedef enum { RISING, FALLING, MIXED, ORDERS } order;

static uint8_t trep_of(naming names, size_t rank)
{
    if (names == ANY_TREP) return rank < sizeof TREPS ? TREPS[rank] : DATED[rank % 3];
    return DATED[names == ONE_TREP ? 2 : rank / 22];
}

/* 789 days from one to the next reach from the first day to the last but two that four bytes can name. */
static uint32_t day_of(naming names, size_t rank)
{
    if (names == ANY_TREP) return rank < sizeof TREPS ? 0 : 86400 * (uint32_t)rank;
    return 86400 * 789 * (uint32_t)(names == ONE_TREP ? rank : 63 - rank);
}

static size_t rank_of(order o, size_t i)
{
    if (o == MIXED) return (i * 37 + 11) % 64; /* 37 is odd: each rank comes once */
    return o == RISING ? i : 63 - i;
}

static void put_answer(const uint8_t *answer, size_t len, uint32_t day)
{
    uint8_t number = ref_store_append(good, sizeof good, answer, len, day).number;
    if (number) fail("the test's store refuses an answer by %u", number);
}

/* A good store of so many answers, of two bytes or a few more. */
static void make_good(size_t answers, naming names, order o)
{
    memset(good, 0, REF_STORE_HEADER);
    for (size_t i = 0; i < answers; i++) {
        uint8_t answer[] = {0x76, trep_of(names, rank_of(o, i)), 0x76, 0x00};
        put_answer(answer, 2 + i % 3, day_of(names, rank_of(o, i)));
    }
    if (!fault_is(good, whole(good), (tacho_fault){0, 0})) fail("a good store of %zu answers", answers);
}

/* What a fault is called in the good store; `counted` is what the header with the faults counts. */
static tacho_fault fault_given(fault f, size_t counted)
{
    size_t answers = count_in(good);
    uint8_t number = FAULT[f.kind].number;
    switch (f.kind) {
    case HEADER_CUT: return (tacho_fault){number, 0};
    case CUT: case STREAM_OVER: case COUNT_OVER: return (tacho_fault){number, counted};
    case STREAM_LONGER: return (tacho_fault){number, answers};
    case STREAM_SHORTER: return (tacho_fault){number, answers - 1};
    case LENGTH_LESS: case LENGTH_MORE: return (tacho_fault){number, f.at + 1}; /* the next offset, or the end, is wrong by it */
    default: return (tacho_fault){number, f.at};
    }
}

/* Of two faults in the good store, the least number and then the least position is given, whatever stands behind the store. A single fault
 * is put in twice. */
static void least_is_given(fault a, fault b)
{
    memcpy(spoilt, good, whole(good));
    spoil_store(good, spoilt, a);
    spoil_store(good, spoilt, b);
    put_in[a.kind]++;
    put_in[b.kind]++;
    tacho_fault of_a = fault_given(a, count_in(spoilt)), of_b = fault_given(b, count_in(spoilt));
    bool a_first = of_a.number != of_b.number ? of_a.number < of_b.number : of_a.position < of_b.position;
    size_t len_a = spoilt_len(spoilt, a), len_b = spoilt_len(spoilt, b), len = len_a < len_b ? len_a : len_b;
    for (size_t behind = 0; behind <= (len < whole(spoilt) ? 0 : BEHIND); behind += BEHIND)
        if (!fault_is(spoilt, len + behind, a_first ? of_a : of_b)) {
            fprintf(stderr, "put in: %s (%zu, %zu)\n", FAULT[a.kind].name, a.at, a.first);
            fprintf(stderr, "put in: %s (%zu, %zu)\n", FAULT[b.kind].name, b.at, b.first);
            fail("another fault is given than was put into a store with an answer count of %zu", count_in(good));
        }
}

/* Every fault that the good store can have, at every entry, in the order of their kinds. */
static fault listed[4000];
static size_t faults_listed;

static void list_fault(fault f)
{
    if (faults_listed == sizeof listed / sizeof *listed) fail("the test lists more than %zu faults", faults_listed);
    if (fault_fits(good, f)) listed[faults_listed++] = f;
}

static void list_faults(void)
{
    static const size_t streams[] = {60001, 65535}, counts[] = {65, 66, 256, 65535};
    faults_listed = 0;
    for (fault_kind k = 0; k < FAULTS; k++)
        switch (k) {
        case STREAM_LONGER: case STREAM_SHORTER: case CUT: case HEADER_CUT: list_fault((fault){k, 0, 0}); break;
        case STREAM_OVER:
            for (size_t i = 0; i < sizeof streams / sizeof *streams; i++) list_fault((fault){k, streams[i], 0});
            break;
        case COUNT_OVER:
            for (size_t i = 0; i < sizeof counts / sizeof *counts; i++) list_fault((fault){k, counts[i], 0});
            break;
        default:
            for (size_t at = 0; at < count_in(good); at++)
                for (size_t first = 0; first < (k == NAME_TWICE ? at : 1); first++) list_fault((fault){k, at, first});
        }
}

/* Every fault at every entry, and every cut. */
static void every_fault(size_t answers)
{
    make_good(answers, ANY_TREP, MIXED);
    list_faults();
    for (size_t k = 0; k < faults_listed; k++) least_is_given(listed[k], listed[k]);
    for (size_t len = 0; len < whole(good); len++)
        if (!fault_is(good, len, (tacho_fault){13, len < REF_STORE_HEADER ? 0 : answers}))
            fail("a store of %zu answers cut to %zu bytes", answers, len);
}

/* A length that is off by one shows at the next entry, where another fault could make it good again: it is not put in with others. */
static bool shows_at_next(fault f)
{
    return f.kind == LENGTH_LESS || f.kind == LENGTH_MORE;
}

static void every_two_faults(size_t answers)
{
    make_good(answers, ANY_TREP, MIXED);
    list_faults();
    for (size_t a = 0; a < faults_listed; a++)
        for (size_t b = a + 1; b < faults_listed; b++)
            if (!shows_at_next(listed[a]) && !shows_at_next(listed[b])) least_is_given(listed[a], listed[b]);
}

/* Each answer under the name of each earlier one, in stores whose names rise, fall or are mixed. */
static void every_repeat(void)
{
    for (naming names = 0; names < NAMES; names++)
        for (order o = 0; o < ORDERS; o++) {
            make_good(64, names, o);
            for (size_t at = 1; at < 64; at++)
                for (size_t first = 0; first < at; first++)
                    least_is_given((fault){NAME_TWICE, at, first}, (fault){NAME_TWICE, at, first});
        }
}

/* 64 answers and a stream of 60,000 bytes are a store; a byte more of stream is 14, not 15. */
static void full_store(void)
{
    static uint8_t last[TACHO_ANSWER_MOST] = {0x76, 0x32};
    make_good(63, ANY_TREP, RISING);
    put_answer(last, TACHO_ANSWER_MOST - two_at(good + REF_STORE_AT_STREAM_LEN), 86400 * 63);
    if (!fault_is(good, sizeof good, (tacho_fault){0, 0})) fail("a full store");
    if (!fault_is(good, sizeof good - 1, (tacho_fault){13, 64})) fail("a full store without its last byte");
    memcpy(spoilt, good, sizeof good);
    spoil_store(good, spoilt, (fault){STREAM_LONGER, 0, 0});
    if (!fault_is(spoilt, sizeof good + 1, (tacho_fault){14, 64})) fail("a full store and a byte of stream more");
}

/* A number that no store had, or a kind of fault that was put into none, was not judged. Gives the count of all stores. */
static unsigned long all_judged(void)
{
    static const uint8_t numbers[] = {0, 13, 14, 15, 16, 17};
    unsigned long stores = 0;
    for (size_t k = 0; k < sizeof numbers; k++) {
        if (judged[numbers[k]] == 0) fail("no store with the number %u was judged", numbers[k]);
        stores += judged[numbers[k]];
    }
    for (fault_kind k = 0; k < FAULTS; k++)
        if (put_in[k] == 0) fail("%s: no store with this fault was judged", FAULT[k].name);
    if (stores < FAULTS) fail("%lu stores were judged, fewer than the %d kinds of faults", stores, FAULTS);
    return stores;
}

int main(void)
{
    static const size_t answers[] = {1, 2, 3, 5, 64};
    guard_make(&lent, SPOKEN_OF + BEHIND);
    known_faults();
    judged_answers();
    for (size_t k = 0; k < sizeof answers / sizeof *answers; k++) every_fault(answers[k]);
    every_two_faults(4);
    every_repeat();
    full_store();
    printf("faults: %lu good and broken stores have the fault that was put in, or none\n", all_judged());
    return 0;
}
