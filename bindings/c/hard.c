/* Uses the library hard: every function of include/m17.h, called many times in no order with buffers of the right length
 * and of wrong ones (none, one short, one long), frames clean, damaged and of any bytes, states good and bad. Each buffer
 * is memory of its own, of exactly the length that is claimed, so that valgrind sees every step outside. A wrong length has
 * to be refused with 1 and a refusal has to leave what is lent as it was; the first call that does not ends the run.
 *     hard [CALLS [SEED]] */
#include "m17.h"
#include <stdio.h>
#include <stdlib.h>
#include <string.h>

static uint64_t seed = 1;

static uint64_t below(uint64_t limit)
{
    seed ^= seed << 13;
    seed ^= seed >> 7;
    seed ^= seed << 17;
    return (seed >> 11) % limit;
}

/* What is lent to the call: where it is, and how it was before. */
typedef struct {
    void *at;
    size_t len;
} lent;

static struct {
    uint8_t *now, *before;
    size_t size;
} all[8];
static size_t held;
static int wrong;

static void stop(const char *call, int said)
{
    printf("wrong: %s said %d\n", call, said);
    exit(1);
}

static lent lend(size_t len, size_t size, const void *what)
{
    uint8_t *now = malloc(len * size), *before = malloc(len * size);
    if (now == NULL || before == NULL)
        exit(2);
    for (size_t i = 0; i < len * size; i++)
        now[i] = what != NULL ? ((const uint8_t *)what)[i] : below(256);
    memcpy(before, now, len * size);
    all[held].now = now;
    all[held].before = before;
    all[held++].size = len * size;
    return (lent){now, len};
}

/* The length that is called for, or now and then another. */
static size_t about(size_t right)
{
    uint64_t chance = below(16);
    if (chance > 2)
        return right;
    wrong = 1;
    return chance == 0 ? 0 : chance == 1 ? right - 1 : right + 1;
}

static lent bytes(size_t right)
{
    return lend(about(right), 1, NULL);
}

/* Bytes of the right length, cut short or with one more after them. */
static lent holding(const uint8_t *what, size_t right)
{
    uint8_t longer[64];
    memcpy(longer, what, right);
    longer[right] = below(256);
    return lend(about(right), 1, longer);
}

static lent one(size_t size)
{
    return lend(1, size, NULL);
}

static lent callsign(void)
{
    static const char letters[] = " ABCDEFGHIJKLMNOPQRSTUVWXYZ0123456789-/.abcxyz_";
    uint8_t name[9];
    for (size_t i = 0; i < 9; i++)
        name[i] = letters[below(i < 3 ? 46 : sizeof letters - 1)];
    return holding(name, 9);
}

static void make_header(uint8_t *header)
{
    for (size_t i = 0; i < 30; i++)
        header[i] = below(256);
    if (below(4)) {
        uint16_t crc = m17_crc(header, 28);
        header[28] = crc >> 8;
        header[29] = crc & 255;
    }
}

static lent header(void)
{
    uint8_t made[30];
    make_header(made);
    return holding(made, 30);
}

/* A few bits flipped, many, or none. */
static void damage(uint8_t *at, size_t len)
{
    static const uint64_t flips[] = {0, 0, 4, 12, 400};
    for (uint64_t i = below(flips[below(5)] + 1); i > 0; i--)
        at[below(len)] ^= 128 >> below(8);
}

/* A body, most often of the kind, damaged or not. */
static void make_body(uint64_t kind, uint8_t *body)
{
    uint8_t made[30], data[25];
    kind = below(8) ? kind : below(3);
    make_header(made);
    for (size_t i = 0; i < 25; i++)
        data[i] = below(256);
    if (kind == 0)
        m17_write_lsf(made, 30, body, 46);
    else if (kind == 1)
        m17_write_stream(below(6), data, 5, below(32768), below(2), data, 16, body, 46);
    else
        m17_write_packet(below(2), below(26), data, 25, body, 46);
    damage(body, 46);
}

static lent body(uint64_t kind)
{
    uint8_t made[46];
    make_body(kind, made);
    return holding(made, 46);
}

static lent coded(uint8_t kind)
{
    static const size_t plain[] = {30, 18, 26}, sent[] = {46, 34, 46};
    uint8_t data[30], made[46];
    for (size_t i = 0; i < 30; i++)
        data[i] = below(256);
    m17_fec_encode(kind, data, plain[kind], made, 46);
    damage(made, sent[kind]);
    return holding(made, sent[kind]);
}

static lent lich(void)
{
    uint8_t part[5], made[12];
    for (size_t i = 0; i < 5; i++)
        part[i] = below(256);
    m17_encode_lich(below(6), part, 5, made, 12);
    damage(made, 12);
    return holding(made, 12);
}

static lent symbols(uint64_t kind)
{
    static const float odd[] = {0.0f, -0.0f, 0.667f, -0.667f, 0.66700006f, 1e30f, -1e30f, 1.0f / 0.0f, -1.0f / 0.0f, 0.0f / 0.0f};
    float made[193];
    uint8_t of[46];
    make_body(kind, of);
    made[192] = 0;
    m17_body_to_symbols(below(3), of, 46, made, 192);
    for (uint64_t i = below(below(4) ? 4 : 200); i > 0; i--)
        made[below(193)] = below(2) ? odd[below(10)] : (float)below(2000) / 1000 - 1;
    return lend(about(192), 4, made);
}

static lent played(void)
{
    return lend(about(192), 4, NULL);
}

static m17_receiver state;

/* The receiver goes on from its last state, or from one that is made up. */
static uint8_t receive(void)
{
    static const uint8_t syncs[4][2] = {{0x55, 0xF7}, {0xFF, 0x5D}, {0x75, 0xFF}, {0x55, 0x5D}};
    uint8_t slot[49];
    uint64_t kind = below(4);
    make_body(kind % 3, slot + 2);
    memcpy(slot, syncs[kind], 2);
    if (below(16) == 0)
        slot[below(2)] = below(256);
    if (below(4) == 0) {
        state.phase = below(4);
        state.count = below(8) ? below(34) : (size_t)below(UINT64_MAX);
        for (size_t i = 0; i < 30; i++)
            state.parts[i] = below(256);
    }
    lent given = holding(slot, 48), memory = bytes(825);
    m17_received got = m17_receive(state, given.at, given.len, memory.at, memory.len);
    if (got.said == 0 && (got.answer < 1 || got.answer > 7))
        stop("m17_receive, answering", got.answer);
    if (got.answer == 3 && (got.number < 3 || got.number > 825))
        stop("m17_receive, handing out", (int)got.number);
    if (got.said != 1 && got.said != 12 && got.next.count > (got.next.phase == 1 ? 32 : got.next.phase == 2 ? 5 : 0))
        stop("m17_receive, going on", (int)got.next.count);
    state = got.said == 12 ? m17_receiver_new() : got.next;
    return got.said;
}

enum { MOST = 64 };
static struct {
    const char *name;
    unsigned long answered, refused;
} seen[MOST];
static size_t functions;

static void judge(size_t at, const char *call, uint8_t said)
{
    if (said > 12 || (wrong && said != 1) || (!wrong && said == 1))
        stop(call, said);
    for (size_t i = 0; i < held; i++) {
        if (said != 0 && memcmp(all[i].now, all[i].before, all[i].size) != 0)
            stop(call, said);
        free(all[i].now);
        free(all[i].before);
    }
    held = 0;
    wrong = 0;
    seen[at].name = call;
    if (said)
        seen[at].refused++;
    else
        seen[at].answered++;
}

/* A case of the switch below for each function: what is lent, then the call. Buffers are A to D, numbers behind pointers P to S. */
#define CALL(name, lending, ...)                               \
    case __COUNTER__: {                                        \
        lent A = {0}, B = A, C = A, P = A, Q = A, S = A;       \
        lending;                                               \
        judge(at, #name, name(__VA_ARGS__));                   \
        (void)A, (void)B, (void)C, (void)P, (void)Q, (void)S;  \
        break;                                                 \
    }
#define LENT(x) x.at, x.len

static uint8_t crc(const void *at, size_t len) { return m17_crc(at, len) & 0; }
static uint8_t crc_update(uint16_t start, const void *at, size_t len) { return m17_crc_update(start, at, len) & 0; }
static uint8_t next_bit(const void *at, size_t len, void *place, void *read, void *out)
{
    return m17_next_bit(at, len, place, read, out), 0;
}
static uint8_t random_xor(void *at, size_t len) { return m17_random_xor(at, len), 0; }
static uint8_t receiver_new(void) { return m17_receiver_new().phase; }

static int turn(size_t at)
{
    uint8_t k = below(5), f = below(3);
    uint64_t v = below(4) ? 0xEE6B28000000 + below(0x100000000000) : below(UINT64_MAX);
    switch (at) {
    CALL(m17_get_bit, A = lend(below(50), 1, NULL); P = one(1), LENT(A), below(8) ? below(400) : below(UINT64_MAX), P.at)
    CALL(m17_set_bit, A = lend(below(50), 1, NULL), LENT(A), below(8) ? below(400) : below(UINT64_MAX), k)
    CALL(next_bit, A = lend(below(50), 1, NULL); P = one(sizeof(size_t)); Q = one(1); S = one(1);
         if (below(8)) *(size_t *)P.at = below(400), LENT(A), P.at, Q.at, S.at)
    CALL(crc, A = lend(below(900), 1, NULL), LENT(A))
    CALL(crc_update, A = lend(below(900), 1, NULL), below(65536), LENT(A))
    CALL(random_xor, A = lend(below(100), 1, NULL), LENT(A))
    CALL(m17_interleave, A = bytes(46); B = bytes(46), LENT(A), LENT(B))
    CALL(m17_golay_encode, P = one(4), below(4200), P.at)
    CALL(m17_golay_decode, P = one(2), below(4) ? below(1 << 24) : below(UINT32_MAX), P.at)
    CALL(m17_decode_address, A = bytes(6); B = bytes(9); P = one(1); Q = one(8), LENT(A), P.at, Q.at, LENT(B))
    CALL(m17_encode_address, A = callsign(); B = bytes(6), k, v, LENT(A), LENT(B))
    CALL(m17_fec_encode, A = bytes(f == 0 ? 30 : f == 1 ? 18 : 26); B = bytes(46), f, LENT(A), LENT(B))
    CALL(m17_fec_decode, A = coded(f); B = bytes(30), f, LENT(A), LENT(B))
    CALL(m17_check_crc, A = header(); P = one(2), LENT(A), P.at)
    CALL(m17_destination, A = header(); B = bytes(9); P = one(1); Q = one(8), LENT(A), P.at, Q.at, LENT(B))
    CALL(m17_source, A = header(); B = bytes(9); P = one(1); Q = one(8), LENT(A), P.at, Q.at, LENT(B))
    CALL(m17_mode, A = header(); P = one(1), LENT(A), P.at)
    CALL(m17_data_type, A = header(); P = one(1), LENT(A), P.at)
    CALL(m17_encryption_type, A = header(); P = one(1), LENT(A), P.at)
    CALL(m17_channel_access_number, A = header(); P = one(1), LENT(A), P.at)
    CALL(m17_meta, A = header(); B = bytes(14), LENT(A), LENT(B))
    CALL(m17_set_destination, A = header(); B = callsign(), LENT(A), k, v, LENT(B))
    CALL(m17_set_source, A = header(); B = callsign(), LENT(A), k, v, LENT(B))
    CALL(m17_set_mode, A = header(), LENT(A), f)
    CALL(m17_set_data_type, A = header(), LENT(A), k)
    CALL(m17_set_encryption_type, A = header(), LENT(A), k)
    CALL(m17_set_channel_access_number, A = header(), LENT(A), below(20))
    CALL(m17_new_voice, A = callsign(); B = callsign(); C = bytes(30), k, v, LENT(A), f, v, LENT(B), LENT(C))
    CALL(m17_new_packet, A = callsign(); B = callsign(); C = bytes(30), f, v, LENT(A), k, v, LENT(B), LENT(C))
    CALL(m17_valid_segments, A = bytes(6); P = one(1), LENT(A), P.at)
    CALL(m17_set_segment, A = bytes(30); B = bytes(6); C = bytes(5), LENT(A), LENT(B), below(8), LENT(C))
    CALL(m17_try_assemble, A = bytes(30); B = holding((const uint8_t[]){k, 1, 2, 3, 4, 5}, 6); P = one(1); C = bytes(30),
         LENT(A), LENT(B), P.at, LENT(C))
    CALL(m17_encode_lich, A = bytes(5); B = bytes(12), below(8), LENT(A), LENT(B))
    CALL(m17_decode_lich, A = lich(); P = one(1); B = bytes(5), LENT(A), P.at, LENT(B))
    CALL(m17_write_lsf, A = header(); B = bytes(46), LENT(A), LENT(B))
    CALL(m17_read_lsf, A = body(0); B = bytes(30), LENT(A), LENT(B))
    CALL(m17_write_stream, A = bytes(5); B = bytes(16); C = bytes(46), below(7), LENT(A), below(33000), k, LENT(B), LENT(C))
    CALL(m17_read_stream, A = body(1); B = bytes(5); C = bytes(16); P = one(1); Q = one(2); S = one(1),
         LENT(A), P.at, LENT(B), Q.at, S.at, LENT(C))
    CALL(m17_write_packet, A = bytes(25); B = bytes(46), f, below(9) ? below(34) : below(UINT64_MAX), LENT(A), LENT(B))
    CALL(m17_read_packet, A = body(2); B = bytes(25); P = one(1); Q = one(sizeof(size_t)), LENT(A), P.at, Q.at, LENT(B))
    CALL(m17_body_to_symbols, A = body(f); B = played(), k, LENT(A), LENT(B))
    CALL(m17_symbols_to_body, A = symbols(f); B = bytes(46), LENT(A), LENT(B))
    CALL(m17_frame_initial_decode, A = symbols(f); B = bytes(46), LENT(A), LENT(B))
    CALL(m17_encode_lsf, A = header(); B = played(), LENT(A), LENT(B))
    CALL(m17_encode_stream, A = bytes(5); B = bytes(16); C = played(), below(7), LENT(A), below(33000), k, LENT(B), LENT(C))
    CALL(m17_encode_packet, A = bytes(25); B = played(), f, below(9) ? below(34) : below(UINT64_MAX), LENT(A), LENT(B))
    CALL(m17_parse_lsf, A = symbols(0); B = bytes(30), LENT(A), LENT(B))
    CALL(m17_parse_stream, A = symbols(1); B = bytes(5); C = bytes(16); P = one(1); Q = one(2); S = one(1),
         LENT(A), P.at, LENT(B), Q.at, S.at, LENT(C))
    CALL(m17_parse_packet, A = symbols(2); B = bytes(25); P = one(1); Q = one(sizeof(size_t)), LENT(A), P.at, Q.at, LENT(B))
    CALL(receiver_new, (void)0)
    CALL(receive, (void)0)
    default:
        return 0;
    }
    return 1;
}

int main(int words, char **word)
{
    unsigned long calls = words > 1 ? strtoul(word[1], NULL, 10) : 1000000;
    seed += words > 2 ? strtoull(word[2], NULL, 10) : 0;
    while (turn(functions))
        functions++;
    for (unsigned long i = functions; i < calls; i++)
        turn(below(functions));
    for (size_t at = 0; at < functions; at++)
        printf("%-30s %8lu answered %8lu refused\n", seen[at].name, seen[at].answered, seen[at].refused);
    printf("%lu calls of %zu functions\n", calls, functions);
    return 0;
}
