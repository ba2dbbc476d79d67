// The header and the archive as C++ takes them: one slot through a receiver, whose sync word is none of the four.
#include "m17.h"

int main() {
    uint8_t slot[48] = {}, memory[825] = {};
    slot[0] = M17_SYNC_HEADER & 0xFF;
    slot[1] = M17_SYNC_HEADER >> 8;
    m17_received got = m17_receive(m17_receiver_new(), slot, sizeof slot, memory, sizeof memory);
    bool refused = got.said == M17_UNKNOWN_SYNC && got.answer == M17_ANSWER_REFUSED && got.next.phase == M17_PHASE_IDLE;
    return refused ? 0 : 1;
}
