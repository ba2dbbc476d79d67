/* Calls every function of include/m17.h with right lengths and with each of its lengths wrong: 0, one short and one long,
 * then with what it has to refuse by another number. A refusal has to leave all that is lent as it was. The last part
 * looks at what is answered. The first wrong answer ends the run with status 1. */
#include "m17.h"
#if __STDC_HOSTED__
#include <stdio.h>
#include <stdlib.h>
#include <string.h>
#else /* bare.c has these */
int putchar(int character);
_Noreturn void exit(int status);
int memcmp(const void *one, const void *other, size_t count);
void *memcpy(void *to, const void *from, size_t count);
void *memset(void *to, int value, size_t count);
#endif

#define AT(type, field, place) _Static_assert(offsetof(type, field) == place, #type "." #field)
_Static_assert(sizeof(m17_receiver) == 40 && _Alignof(m17_receiver) == 8, "m17_receiver");
AT(m17_receiver, count, 0);
AT(m17_receiver, phase, 8);
AT(m17_receiver, parts, 9);
_Static_assert(sizeof(m17_received) == 112 && _Alignof(m17_received) == 8, "m17_received");
AT(m17_received, number, 0);
AT(m17_received, next, 8);
AT(m17_received, frame_number, 48);
AT(m17_received, said, 50);
AT(m17_received, answer, 51);
AT(m17_received, header, 52);
AT(m17_received, lich_idx, 82);
AT(m17_received, lich_part, 83);
AT(m17_received, end_of_stream, 88);
AT(m17_received, stream_data, 89);

/* What is lent, each buffer with room for one more: what is right for every function, what some have to refuse, the
 * receiver's, and what is there for answers. */
static struct {
    uint8_t header[31], body[47], coded[47], address[7], name[10], other[10], lich[13], part[6], sound[17], payload[26];
    uint8_t parts[31];
    float symbols[193];
    uint8_t far_off[47], bad_lich[13], spaces[10], torn[47];
    float noise[193];
    m17_receiver state;
    uint8_t slot[49], memory[826];
    uint8_t set[7], out[47], small, flag;
    float played[193];
    uint16_t number;
    uint32_t word;
    uint64_t value;
    size_t size;
} r, start;

static unsigned count;

static void say(const char *text)
{
    while (*text)
        putchar(*text++);
}

static void say_number(unsigned number)
{
    if (number > 9)
        say_number(number / 10);
    putchar('0' + number % 10);
}

static void hold(const char *text, int holds)
{
    count++;
    if (holds)
        return;
    say("wrong: ");
    say(text);
    say("\n");
    exit(1);
}

#define HOLD(condition) hold(#condition, condition)

/* An answer changes something that is lent, a refusal nothing. */
static void judge(const char *call, uint8_t said, uint8_t wanted)
{
    hold(call, said == wanted && (memcmp(&r, &start, sizeof r) == 0) == (wanted != 0));
}

static void fresh(void)
{
    memcpy(&r, &start, sizeof r);
}

static void lengths(size_t *n, const size_t *right, size_t turn)
{
    if (turn == 0)
        return;
    size_t at = (turn - 1) / 3, wrong[] = {0, right[at] - 1, right[at] + 1};
    n[at] = wrong[(turn - 1) % 3];
}

/* The lengths are n in the call. */
#define EACH(call, ...)                                                                    \
    do {                                                                                   \
        static const size_t right[] = {__VA_ARGS__};                                       \
        for (size_t turn = 0; turn <= 3 * (sizeof right / sizeof *right); turn++) {        \
            size_t n[] = {__VA_ARGS__};                                                    \
            lengths(n, right, turn);                                                       \
            fresh();                                                                       \
            judge(#call, call, turn ? 1 : 0);                                              \
        }                                                                                  \
    } while (0)

#define SAYS(wanted, call) (fresh(), judge(#call, call, wanted))

static m17_received got;

/* 1 and 12 leave the state as it was given. */
static uint8_t receive(size_t slot_len, size_t memory_len)
{
    got = m17_receive(r.state, r.slot, slot_len, r.memory, memory_len);
    if (got.said == 1 || got.said == 12)
        hold("the state after 1 or 12", memcmp(&got.next, &r.state, offsetof(m17_receiver, parts) + 30) == 0);
    return got.said;
}

static void put_slot(uint8_t first, uint8_t second, const uint8_t *body)
{
    start.slot[0] = first;
    start.slot[1] = second;
    memcpy(start.slot + 2, body, 46);
}

static void put_packet(uint8_t final_frame, size_t number, const uint8_t *payload)
{
    uint8_t body[46];
    HOLD(m17_write_packet(final_frame, number, payload, 25, body, 46) == 0);
    put_slot(0x75, 0xFF, body);
    start.state.phase = 1;
    start.state.count = 0;
}

static void set_up(void)
{
    memcpy(start.name, "AB1CD     ", 10);
    memcpy(start.other, "RIVER-7   ", 10);
    memset(start.spaces, ' ', 10);
    memset(start.set, 1, sizeof start.set);
    memset(start.out, 0xA5, sizeof start.out);
    memset(start.memory, 0xA5, sizeof start.memory);
    start.small = start.flag = 0xA5;
    start.number = 0xA5A5;
    start.word = 0xA5A5A5A5;
    start.value = start.size = 0xA5A5A5A5;
    start.bad_lich[4] = 0x0F;
    for (size_t i = 0; i < 193; i++) {
        start.played[i] = 0.5f;
        start.noise[i] = i % 3 ? 1 : -1;
    }
    /* A body that reads as zeros in each kind; the same with a Golay word that is refused; one that is too far off. */
    HOLD(m17_write_lsf(start.header, 30, start.body, 46) == 0);
    HOLD(m17_body_to_symbols(0, start.body, 46, start.symbols, 192) == 0);
    uint8_t coded[46] = {0};
    coded[4] = 0x0F;
    HOLD(m17_interleave(coded, 46, start.torn, 46) == 0);
    m17_random_xor(start.torn, 46);
    for (size_t i = 0; i < 46; i++)
        start.far_off[i] = start.body[i] ^ 0x88;
    put_packet(0, 0, start.payload);
}

static void any_length(void)
{
    for (size_t len = 0; len <= 46; len++) {
        fresh();
        HOLD(m17_crc_update(0xFFFF, r.body, len) == m17_crc(r.body, len));
        m17_random_xor(r.out, len);
        HOLD(memcmp(r.out + len, start.out + len, 47 - len) == 0);
        m17_random_xor(r.out, len);
        HOLD(memcmp(&r, &start, sizeof r) == 0);
        SAYS(2, m17_get_bit(r.body, len, 8 * len, &r.small));
        SAYS(2, m17_set_bit(r.out, len, 8 * len, 0));
        if (len != 0) {
            SAYS(0, m17_get_bit(r.body, len, 8 * len - 1, &r.small));
            SAYS(0, m17_set_bit(r.out, len, 8 * len - 1, 0));
        }
    }
}

/* All bits in order, and then the end: at once past the bytes, and again. */
static void in_order(void)
{
    for (size_t len = 0; len <= 46; len++) {
        fresh();
        r.size = 0;
        for (size_t i = 0; i < 8 * len; i++) {
            m17_next_bit(r.body, len, &r.size, &r.flag, &r.small);
            HOLD(r.flag == 1 && r.size == i + 1 && r.small == (r.body[i / 8] >> (7 - i % 8) & 1));
        }
        const size_t ends[] = {8 * len, 8 * len, 8 * len + 1, 8 * len + 8, (size_t)-2, (size_t)-1};
        for (size_t i = 0; i < sizeof ends / sizeof *ends; i++) {
            fresh();
            r.size = ends[i];
            m17_next_bit(r.body, len, &r.size, &r.flag, &r.small);
            HOLD(r.flag == 0 && r.size == ends[i] && r.small == start.small);
        }
    }
}

static void leaves(void)
{
    EACH(m17_interleave(r.body, n[0], r.out, n[1]), 46, 46);
    SAYS(0, m17_golay_encode(0xFFF, &r.word));
    SAYS(2, m17_golay_encode(0x1000, &r.word));
    SAYS(0, m17_golay_decode(0, &r.number));
    SAYS(4, m17_golay_decode(0x0F, &r.number));
    SAYS(4, m17_golay_decode(0x1000000, &r.number));
    EACH(m17_decode_address(r.address, n[0], &r.small, &r.value, r.out, n[1]), 6, 9);
    for (uint8_t kind = 0; kind < 4; kind++)
        EACH(m17_encode_address(kind, 0xEE6B28000000, r.name, n[0], r.out, n[1]), 9, 6);
    SAYS(2, m17_encode_address(4, 0, r.name, 9, r.out, 6));
    SAYS(6, m17_encode_address(1, 0, r.spaces, 9, r.out, 6));
    SAYS(6, m17_encode_address(2, 0, r.name, 9, r.out, 6));
    EACH(m17_fec_encode(0, r.parts, n[0], r.out, n[1]), 30, 46);
    EACH(m17_fec_encode(1, r.parts, n[0], r.out, n[1]), 18, 46);
    EACH(m17_fec_encode(2, r.parts, n[0], r.out, n[1]), 26, 46);
    SAYS(2, m17_fec_encode(3, r.parts, 30, r.out, 46));
    EACH(m17_fec_decode(0, r.coded, n[0], r.out, n[1]), 46, 30);
    EACH(m17_fec_decode(1, r.coded, n[0], r.out, n[1]), 34, 30);
    EACH(m17_fec_decode(2, r.coded, n[0], r.out, n[1]), 46, 30);
    SAYS(2, m17_fec_decode(3, r.coded, 46, r.out, 30));
    SAYS(3, m17_fec_decode(0, r.far_off, 46, r.out, 30));
}

static void header(void)
{
    EACH(m17_check_crc(r.header, n[0], &r.number), 30);
    EACH(m17_destination(r.header, n[0], &r.small, &r.value, r.out, n[1]), 30, 9);
    EACH(m17_source(r.header, n[0], &r.small, &r.value, r.out, n[1]), 30, 9);
    EACH(m17_mode(r.header, n[0], &r.small), 30);
    EACH(m17_data_type(r.header, n[0], &r.small), 30);
    EACH(m17_encryption_type(r.header, n[0], &r.small), 30);
    EACH(m17_channel_access_number(r.header, n[0], &r.small), 30);
    EACH(m17_meta(r.header, n[0], r.out, n[1]), 30, 14);
    EACH(m17_set_destination(r.header, n[0], 1, 0, r.name, n[1]), 30, 9);
    SAYS(2, m17_set_destination(r.header, 30, 4, 0, r.name, 9));
    SAYS(6, m17_set_destination(r.header, 30, 1, 0, r.spaces, 9));
    EACH(m17_set_source(r.header, n[0], 1, 0, r.name, n[1]), 30, 9);
    SAYS(2, m17_set_source(r.header, 30, 4, 0, r.name, 9));
    SAYS(6, m17_set_source(r.header, 30, 2, 1, r.name, 9));
    EACH(m17_set_mode(r.header, n[0], 1), 30);
    SAYS(2, m17_set_mode(r.header, 30, 2));
    EACH(m17_set_data_type(r.header, n[0], 3), 30);
    SAYS(2, m17_set_data_type(r.header, 30, 4));
    EACH(m17_set_encryption_type(r.header, n[0], 3), 30);
    SAYS(2, m17_set_encryption_type(r.header, 30, 4));
    EACH(m17_set_channel_access_number(r.header, n[0], 15), 30);
    SAYS(2, m17_set_channel_access_number(r.header, 30, 16));
    EACH(m17_new_voice(1, 0, r.name, n[0], 1, 0, r.other, n[1], r.out, n[2]), 9, 9, 30);
    SAYS(2, m17_new_voice(4, 0, r.name, 9, 1, 0, r.other, 9, r.out, 30));
    SAYS(6, m17_new_voice(1, 0, r.name, 9, 1, 0, r.spaces, 9, r.out, 30));
    EACH(m17_new_packet(1, 0, r.name, n[0], 1, 0, r.other, n[1], r.out, n[2]), 9, 9, 30);
    SAYS(2, m17_new_packet(1, 0, r.name, 9, 4, 0, r.other, 9, r.out, 30));
    SAYS(6, m17_new_packet(1, 0, r.spaces, 9, 1, 0, r.other, 9, r.out, 30));
}

static void gathered(void)
{
    EACH(m17_valid_segments(r.set, n[0], &r.small), 6);
    EACH(m17_set_segment(r.out, n[0], r.set, n[1], 5, r.part, n[2]), 30, 6, 5);
    SAYS(2, m17_set_segment(r.out, 30, r.set, 6, 6, r.part, 5));
    EACH(m17_try_assemble(r.parts, n[0], r.set, n[1], &r.flag, r.out, n[2]), 30, 6, 30);
    EACH(m17_encode_lich(5, r.part, n[0], r.out, n[1]), 5, 12);
    SAYS(2, m17_encode_lich(6, r.part, 5, r.out, 12));
    EACH(m17_decode_lich(r.lich, n[0], &r.small, r.out, n[1]), 12, 5);
    SAYS(4, m17_decode_lich(r.bad_lich, 12, &r.small, r.out, 5));
}

static void bodies(void)
{
    EACH(m17_write_lsf(r.header, n[0], r.out, n[1]), 30, 46);
    EACH(m17_read_lsf(r.body, n[0], r.out, n[1]), 46, 30);
    SAYS(3, m17_read_lsf(r.far_off, 46, r.out, 30));
    EACH(m17_write_stream(5, r.part, n[0], 32767, 1, r.sound, n[1], r.out, n[2]), 5, 16, 46);
    SAYS(2, m17_write_stream(6, r.part, 5, 0, 0, r.sound, 16, r.out, 46));
    SAYS(2, m17_write_stream(0, r.part, 5, 32768, 0, r.sound, 16, r.out, 46));
    EACH(m17_read_stream(r.body, n[0], &r.small, r.part, n[1], &r.number, &r.flag, r.out, n[2]), 46, 5, 16);
    SAYS(3, m17_read_stream(r.far_off, 46, &r.small, r.part, 5, &r.number, &r.flag, r.out, 16));
    SAYS(4, m17_read_stream(r.torn, 46, &r.small, r.part, 5, &r.number, &r.flag, r.out, 16));
    EACH(m17_write_packet(0, 31, r.payload, n[0], r.out, n[1]), 25, 46);
    EACH(m17_write_packet(1, 25, r.payload, n[0], r.out, n[1]), 25, 46);
    SAYS(2, m17_write_packet(0, 32, r.payload, 25, r.out, 46));
    SAYS(2, m17_write_packet(1, 26, r.payload, 25, r.out, 46));
    EACH(m17_read_packet(r.body, n[0], &r.flag, &r.size, r.out, n[1]), 46, 25);
    SAYS(3, m17_read_packet(r.far_off, 46, &r.flag, &r.size, r.out, 25));
}

static void symbols(void)
{
    EACH(m17_body_to_symbols(2, r.body, n[0], r.played, n[1]), 46, 192);
    SAYS(2, m17_body_to_symbols(3, r.body, 46, r.played, 192));
    EACH(m17_symbols_to_body(r.symbols, n[0], r.out, n[1]), 192, 46);
    EACH(m17_frame_initial_decode(r.symbols, n[0], r.out, n[1]), 192, 46);
    EACH(m17_encode_lsf(r.header, n[0], r.played, n[1]), 30, 192);
    EACH(m17_encode_stream(5, r.part, n[0], 32767, 1, r.sound, n[1], r.played, n[2]), 5, 16, 192);
    SAYS(2, m17_encode_stream(6, r.part, 5, 0, 0, r.sound, 16, r.played, 192));
    SAYS(2, m17_encode_stream(0, r.part, 5, 32768, 0, r.sound, 16, r.played, 192));
    EACH(m17_encode_packet(1, 25, r.payload, n[0], r.played, n[1]), 25, 192);
    SAYS(2, m17_encode_packet(0, 32, r.payload, 25, r.played, 192));
    SAYS(2, m17_encode_packet(1, 26, r.payload, 25, r.played, 192));
    EACH(m17_parse_lsf(r.symbols, n[0], r.out, n[1]), 192, 30);
    SAYS(3, m17_parse_lsf(r.noise, 192, r.out, 30));
    EACH(m17_parse_stream(r.symbols, n[0], &r.small, r.part, n[1], &r.number, &r.flag, r.out, n[2]), 192, 5, 16);
    SAYS(3, m17_parse_stream(r.noise, 192, &r.small, r.part, 5, &r.number, &r.flag, r.out, 16));
    EACH(m17_parse_packet(r.symbols, n[0], &r.flag, &r.size, r.out, n[1]), 192, 25);
    SAYS(3, m17_parse_packet(r.noise, 192, &r.flag, &r.size, r.out, 25));
}

static void slots(void)
{
    m17_receiver new = m17_receiver_new();
    HOLD(new.phase == 0 && new.count == 0);
    EACH(receive(n[0], n[1]), 48, 825);
    fresh();
    HOLD(receive(48, 825) == 0 && got.answer == 2 && got.number == 0 && got.next.phase == 1 && got.next.count == 1);
    HOLD(memcmp(r.memory, r.payload, 25) == 0 && memcmp(r.memory + 25, start.memory + 25, 801) == 0);

    start.state.count = 33;
    SAYS(12, receive(48, 825));
    put_packet(0, 1, start.payload);
    SAYS(8, receive(48, 825));
    put_packet(1, 0, start.payload);
    SAYS(9, receive(48, 825));
    put_packet(1, 2, start.payload);
    SAYS(10, receive(48, 825));
    put_packet(1, 3, start.payload);
    SAYS(11, receive(48, 825));
    HOLD(got.next.phase == 0);

    start.state = new;
    put_slot(0x55, 0xF7, start.far_off);
    SAYS(3, receive(48, 825));
    put_slot(0xFF, 0x5D, start.torn);
    SAYS(4, receive(48, 825));
    put_slot(0x55, 0xF7, start.body);
    SAYS(5, receive(48, 825));
    put_slot(0, 0, start.body);
    SAYS(7, receive(48, 825));
    put_slot(0x55, 0x5D, start.far_off);
    fresh();
    HOLD(receive(48, 825) == 0 && got.answer == 7);

    /* Eleven slots of one sender, joined at its part 1: the header comes with the last. */
    uint8_t sent[30];
    HOLD(m17_new_voice(1, 0, start.name, 9, 3, 0, start.name, 9, sent, 30) == 0);
    for (uint8_t i = 1; i < 12; i++) {
        uint8_t body[46];
        HOLD(m17_write_stream(i % 6, sent + 5 * (i % 6), 5, i, 0, start.sound, 16, body, 46) == 0);
        put_slot(0xFF, 0x5D, body);
        fresh();
        HOLD(receive(48, 825) == 0 && got.answer == (i == 11 ? 5 : 4) && got.frame_number == i && got.lich_idx == i % 6);
        start.state = got.next;
    }
    HOLD(memcmp(got.header, sent, 30) == 0 && got.next.phase == 0);

    /* A header that opens a packet, and a packet of one frame with its CRC. */
    HOLD(m17_new_packet(1, 0, start.name, 9, 3, 0, start.name, 9, sent, 30) == 0);
    uint8_t body[46], packet[25] = {5, 'A'};
    HOLD(m17_write_lsf(sent, 30, body, 46) == 0);
    put_slot(0x55, 0xF7, body);
    fresh();
    HOLD(receive(48, 825) == 0 && got.answer == 1 && memcmp(got.header, sent, 30) == 0 && got.next.phase == 1);
    packet[2] = m17_crc(packet, 2) >> 8;
    packet[3] = m17_crc(packet, 2) & 255;
    put_packet(1, 4, packet);
    start.state = got.next;
    fresh();
    HOLD(receive(48, 825) == 0 && got.answer == 3 && got.number == 4 && memcmp(r.memory, packet, 4) == 0);
    HOLD(memcmp(r.memory + 4, start.memory + 4, 822) == 0);
}

static void answers(void)
{
    static const uint8_t ab1cd[] = {0, 0, 0, 0x9F, 0xDD, 0x51};
    HOLD(m17_crc((const uint8_t *)"123456789", 9) == 0x772B && m17_crc(start.body, 0) == 0xFFFF);
    fresh();
    HOLD(m17_golay_encode(1, &r.word) == 0 && r.word == 0x0018EB);
    HOLD(m17_golay_decode(r.word ^ 0x80101, &r.number) == 0 && r.number == 1);
    HOLD(m17_encode_address(1, 0, r.name, 9, r.out, 6) == 0 && memcmp(r.out, ab1cd, 6) == 0);
    HOLD(m17_decode_address(ab1cd, 6, &r.small, &r.value, r.out, 9) == 0 && r.small == 1 && memcmp(r.out, r.name, 9) == 0);
    /* A new header has each address in its own place, whatever its kind. */
    for (int packet = 0; packet < 2; packet++) {
        uint8_t made[30];
        HOLD((packet ? m17_new_packet : m17_new_voice)(1, 0, start.name, 9, 2, 0xEE6B28000007, start.other, 9, made, 30) == 0);
        fresh();
        HOLD(m17_source(made, 30, &r.small, &r.value, r.out, 9) == 0 && r.small == 1 && memcmp(r.out, start.name, 9) == 0);
        HOLD(m17_destination(made, 30, &r.small, &r.value, r.out, 9) == 0 && r.small == 2 && r.value == 0xEE6B28000007);
        HOLD((packet ? m17_new_packet : m17_new_voice)(2, 0xEE6B28000009, start.name, 9, 1, 0, start.other, 9, made, 30) == 0);
        HOLD(m17_source(made, 30, &r.small, &r.value, r.out, 9) == 0 && r.small == 2 && r.value == 0xEE6B28000009);
        HOLD(m17_destination(made, 30, &r.small, &r.value, r.out, 9) == 0 && r.small == 1 && memcmp(r.out, start.other, 9) == 0);
        HOLD(m17_mode(made, 30, &r.small) == 0 && r.small == !packet && m17_data_type(made, 30, &r.small) == 0 && r.small == 2 - packet);
    }
    fresh();
    HOLD(m17_interleave(r.far_off, 46, r.out, 46) == 0 && m17_interleave(r.out, 46, r.torn, 46) == 0);
    HOLD(memcmp(r.torn, r.far_off, 46) == 0);

    fresh();
    HOLD(m17_set_data_type(r.header, 30, 1) == 0 && r.header[12] == 0 && r.header[13] == 2);
    HOLD(m17_data_type(r.header, 30, &r.small) == 0 && r.small == 1);
    HOLD(m17_check_crc(r.header, 30, &r.number) == 0 && r.number == 0);
    HOLD(m17_encode_lsf(r.header, 30, r.played, 192) == 0 && m17_parse_lsf(r.played, 192, r.out, 30) == 0);
    HOLD(memcmp(r.out, r.header, 30) == 0);

    HOLD(m17_encode_stream(5, ab1cd, 5, 9, 7, r.far_off, 16, r.played, 192) == 0);
    HOLD(m17_parse_stream(r.played, 192, &r.small, r.part, 5, &r.number, &r.flag, r.out, 16) == 0);
    HOLD(r.small == 5 && memcmp(r.part, ab1cd, 5) == 0 && r.number == 9 && r.flag == 1 && memcmp(r.out, r.far_off, 16) == 0);
    HOLD(m17_encode_packet(9, 3, r.far_off, 25, r.played, 192) == 0);
    HOLD(m17_parse_packet(r.played, 192, &r.flag, &r.size, r.out, 25) == 0 && r.flag == 1 && r.size == 3);
    HOLD(memcmp(r.out, r.far_off, 3) == 0 && r.out[3] == 0 && r.out[24] == 0);

    fresh();
    r.set[2] = 0;
    HOLD(m17_valid_segments(r.set, 6, &r.small) == 0 && r.small == 5);
    HOLD(m17_try_assemble(r.parts, 30, r.set, 6, &r.flag, r.out, 30) == 0 && r.flag == 0 && r.out[0] == 0xA5);
    HOLD(m17_set_segment(r.parts, 30, r.set, 6, 2, ab1cd, 5) == 0 && r.set[2] == 1);
    HOLD(m17_try_assemble(r.parts, 30, r.set, 6, &r.flag, r.out, 30) == 0 && r.flag == 1);
    HOLD(memcmp(r.out, r.parts, 30) == 0 && memcmp(r.out + 10, ab1cd, 5) == 0);
}

int main(void)
{
    set_up();
    any_length();
    in_order();
    leaves();
    header();
    gathered();
    bodies();
    symbols();
    answers();
    slots();
    say_number(count);
    say(" calls and answers, all as include/m17.h says\n");
    return 0;
}
