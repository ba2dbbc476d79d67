/* Calls functions of the static library for a program of another processor. An emulator runs this one; it takes each
 * call from its input, and gives to its output the answer and what the lent memory then holds. No C library is needed.
 *
 * A call is words of eight bytes: the length of the whole in bytes, the function's place in the list, the number of
 * arguments, and for each two words: a number and NUMBER, or 0 and the size of the memory that is lent. What that memory
 * holds comes after. The answer is a word and the lent memory. The functions of the list take whole numbers and pointers
 * only, so that words are all that has to be passed, and too many of them do no harm. */
#include "m17.h"

typedef unsigned long word;
typedef unsigned char byte;

/* `src/receiver.rs` holds its own structs to the same sizes and places. */
#define AT(type, field, place) _Static_assert(offsetof(type, field) == place, #type "." #field)
_Static_assert(sizeof(m17_receiver) == 40 && _Alignof(m17_receiver) == 8, "m17_receiver");
AT(m17_receiver, count, 0);
AT(m17_receiver, phase, 8);
AT(m17_receiver, parts, 9);
_Static_assert(sizeof(m17_received) == 112 && _Alignof(m17_received) == 8, "m17_received");
AT(m17_received, number, 0);
AT(m17_received, next, 8);
AT(m17_received, frame_number, 48);
AT(m17_received, said, 50);
AT(m17_received, answer, 51);
AT(m17_received, header, 52);
AT(m17_received, lich_idx, 82);
AT(m17_received, lich_part, 83);
AT(m17_received, end_of_stream, 88);
AT(m17_received, stream_data, 89);

/* The receiver's structs go by value: these two take them by pointers. */
static void receiver_new(m17_receiver *new)
{
    *new = m17_receiver_new();
}

static void receive(const m17_receiver *state, const uint8_t *slot, size_t slot_len, uint8_t *memory, size_t memory_len,
                    m17_received *answer)
{
    *answer = m17_receive(*state, slot, slot_len, memory, memory_len);
}

#define F(name) (void (*)(void))name,
static void (*const functions[])(void) = {
#include "functions.h"
};
enum { ARGUMENTS = 12, ROOM = 1 << 16 };
#define NUMBER (~0UL)

typedef word function(word, word, word, word, word, word, word, word, word, word, word, word);

static byte call[ROOM] __attribute__((aligned(16)));
static byte answer[ROOM] __attribute__((aligned(16)));

void *memcpy(void *to, const void *from, word count)
{
    void *start = to;
    __asm__ volatile("rep movsb" : "+D"(to), "+S"(from), "+c"(count) : : "memory");
    return start;
}

void *memset(void *to, int value, word count)
{
    void *start = to;
    __asm__ volatile("rep stosb" : "+D"(to), "+c"(count) : "a"(value) : "memory");
    return start;
}

static long system_call(long number, long first, void *second, word third)
{
    long said;
    __asm__ volatile("syscall" : "=a"(said) : "a"(number), "D"(first), "S"(second), "d"(third) : "rcx", "r11", "memory");
    return said;
}

static void end(int status)
{
    system_call(60, status, 0, 0);
}

/* Reads until there are as many bytes as asked for. The end of the input is the end of the program. */
static void read_to(word *have, word wanted)
{
    while (*have < wanted) {
        long got = system_call(0, 0, call + *have, ROOM - *have);
        if (got <= 0)
            end(got != 0);
        *have += got;
    }
}

static void write_all(word count)
{
    for (word done = 0; done < count;) {
        long put = system_call(1, 1, answer + done, count - done);
        if (put <= 0)
            end(1);
        done += put;
    }
}

/* Lent memory stands right after the answer's first word, each piece at a multiple of 16, as an allocator would give it. */
static word answered(void)
{
    const word *words = (const word *)call;
    word given = words[2], a[ARGUMENTS] = {0}, from = 8 * (3 + 2 * given), to = 16;
    if (given > ARGUMENTS || words[1] >= sizeof functions / sizeof *functions)
        end(1);
    for (word i = 0; i < given; i++) {
        word size = words[4 + 2 * i];
        a[i] = words[3 + 2 * i];
        if (size != NUMBER) {
            a[i] = (word)(answer + to);
            memcpy(answer + to, call + from, size);
            from += size;
            to += (size + 15) / 16 * 16;
        }
    }
    *(word *)answer = ((function *)functions[words[1]])(a[0], a[1], a[2], a[3], a[4], a[5], a[6], a[7], a[8], a[9], a[10],
                                                        a[11]);
    return to;
}

__attribute__((used)) void serve(void)
{
    for (;;) {
        word have = 0;
        read_to(&have, 8);
        read_to(&have, *(const word *)call);
        write_all(answered());
    }
}

__asm__(".globl _start\n_start:\n\txor %ebp, %ebp\n\tand $-16, %rsp\n\tcall serve\n");
