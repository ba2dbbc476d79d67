/* The M17 bit codec, proved. Link with libm17.a, which bindings/library writes to target/staticlib/.
 *
 * Every buffer is a pointer and, right after it, its length. A function that can refuse returns 0 or the number of its
 * refusal; on a refusal it leaves every lent buffer and number as it was. A buffer of another length than the one named,
 * lent for the answer or not, is refused with 1, before anything else is looked at; only where a length goes by the kind of
 * body, the kind of what is to be coded or read is judged before its length, with 2, and after the buffer for the answer. Of
 * buffers that overlap, where one of them is written, the proofs say nothing. Numbers of document 01:
 * 1 wrong length, 2 out of range, 3 nearest word over six, 4 Golay word refused, 5 header CRC not zero, 6 bad address,
 * 7 unknown sync, 8 packet slot out of turn, 9 final length 0 or over 25, 10 total under 3, 11 packet CRC not zero,
 * 12 bad state. The receiver alone answers in a struct, with that number in its field `said`. */
#ifndef M17_H
#define M17_H
#include <stddef.h>
#include <stdint.h>

#ifdef __cplusplus
extern "C" {
#endif

/* ---- the numbers, by name */

/* Refusals. */
enum {
    M17_WRONG_LENGTH = 1,
    M17_OUT_OF_RANGE = 2,
    M17_TOO_FAR = 3,
    M17_BAD_GOLAY = 4,
    M17_BAD_HEADER = 5,
    M17_BAD_ADDRESS = 6,
    M17_UNKNOWN_SYNC = 7,
    M17_OUT_OF_TURN = 8,
    M17_BAD_FINAL = 9,
    M17_TOO_SHORT = 10,
    M17_BAD_PACKET = 11,
    M17_BAD_STATE = 12
};

/* Kinds of address. */
enum { M17_ADDRESS_INVALID = 0, M17_ADDRESS_CALLSIGN = 1, M17_ADDRESS_RESERVED = 2, M17_ADDRESS_BROADCAST = 3 };
/* Kinds of body. */
enum { M17_KIND_HEADER = 0, M17_KIND_STREAM = 1, M17_KIND_PACKET = 2 };
/* Fields of a header's type. */
enum { M17_MODE_PACKET = 0, M17_MODE_STREAM = 1 };
enum { M17_DATA_RESERVED = 0, M17_DATA_DATA = 1, M17_DATA_VOICE = 2, M17_DATA_VOICE_AND_DATA = 3 };
enum { M17_ENCRYPTION_NONE = 0, M17_ENCRYPTION_SCRAMBLER = 1, M17_ENCRYPTION_AES = 2, M17_ENCRYPTION_OTHER = 3 };
/* A receiver's phases, and its answers. */
enum { M17_PHASE_IDLE = 0, M17_PHASE_PACKET = 1, M17_PHASE_GATHERING = 2 };
enum {
    M17_ANSWER_REFUSED = 0,
    M17_ANSWER_HEADER = 1,
    M17_ANSWER_STORED = 2,
    M17_ANSWER_PACKET = 3,
    M17_ANSWER_STREAM = 4,
    M17_ANSWER_LATE_HEADER = 5,
    M17_ANSWER_SPOILED = 6,
    M17_ANSWER_ENDED = 7
};
/* The four sync words, the first two bytes of a slot, high byte first. */
enum { M17_SYNC_HEADER = 0x55F7, M17_SYNC_STREAM = 0xFF5D, M17_SYNC_PACKET = 0x75FF, M17_SYNC_END = 0x555D };

/* ---- leaves */

/* Writes the bit at a place, 0 or 1, to out; bit 0 is the top bit of byte 0. 2: the place is past the bytes. */
uint8_t m17_get_bit(const uint8_t *bytes, size_t bytes_len, size_t place, uint8_t *out);
/* The bit at a place becomes 0 where value is 0, else 1. 2: the place is past the bytes. */
uint8_t m17_set_bit(uint8_t *bytes, size_t bytes_len, size_t place, uint8_t value);
/* Reads bits in order: read becomes 1, the bit at the place is written to out and the place becomes the next; or read becomes 0 ("the
 * end"), and the bit and the place are left. */
void m17_next_bit(const uint8_t *bytes, size_t bytes_len, size_t *place, uint8_t *read, uint8_t *out);
/* The CRC-16 of any number of bytes: 0 over bytes that end in their CRC, high byte first. */
uint16_t m17_crc(const uint8_t *input, size_t input_len);
/* The CRC of what came before, which gave start, and of these bytes after it. */
uint16_t m17_crc_update(uint16_t start, const uint8_t *input, size_t input_len);
/* Xors any number of bytes with the 46 of the sequence, again from its first after the last. */
void m17_random_xor(uint8_t *bytes, size_t bytes_len);
/* 46 bytes to 46: bit i goes to place (45i + 92i^2) mod 368. */
uint8_t m17_interleave(const uint8_t *payload, size_t payload_len, uint8_t *out, size_t out_len);
/* Writes the word of 24 bits for a value of 12. 2: the value is over 4095. */
uint8_t m17_golay_encode(uint16_t value, uint32_t *out);
/* Writes the value of the only codeword within three flipped bits. 4: there is none, or the word is over 24 bits. */
uint8_t m17_golay_decode(uint32_t word, uint16_t *out);
/* Reads 6 bytes: writes the kind (0 invalid, 1 callsign, 2 reserved, 3 broadcast), the value where it is reserved and 0 where not,
 * and the 9 characters of a callsign, else zeros. */
uint8_t m17_decode_address(const uint8_t *encoded, size_t encoded_len, uint8_t *kind, uint64_t *value,
                           uint8_t *callsign, size_t callsign_len);
/* Writes 6 bytes for an address: its kind as above, its value where it is reserved, its 9 characters where it is a callsign.
 * 2: another kind. 6: a callsign with a byte outside the alphabet or all spaces, or a reserved value outside its range. */
uint8_t m17_encode_address(uint8_t kind, uint64_t value, const uint8_t *callsign, size_t callsign_len,
                           uint8_t *out, size_t out_len);
/* Codes 30 bytes of a header (kind 0), 18 of a stream (1) or 26 of a packet (2), of which the last two bits are not sent, and
 * writes 46 bytes: a stream's 34 coded bytes stand first, zeros after. 2: another kind. */
uint8_t m17_fec_encode(uint8_t kind, const uint8_t *plain, size_t plain_len, uint8_t *out, size_t out_len);
/* Reads 46 coded bytes of a header (0) or packet (2), or 34 of a stream (1), and writes 30 bytes: the nearest word's data first,
 * zeros after. 2: another kind. 3: the nearest word is over six bits off. */
uint8_t m17_fec_decode(uint8_t kind, const uint8_t *received, size_t received_len, uint8_t *out, size_t out_len);

/* ---- header: 30 bytes. None of these looks at its CRC, but the first. */

/* Writes the CRC over the 30 bytes, which is 0 where the header is sound. */
uint8_t m17_check_crc(const uint8_t *header, size_t header_len, uint16_t *out);
/* Write an address as m17_decode_address does: kind, value, 9 characters. */
uint8_t m17_destination(const uint8_t *header, size_t header_len, uint8_t *kind, uint64_t *value,
                        uint8_t *callsign, size_t callsign_len);
uint8_t m17_source(const uint8_t *header, size_t header_len, uint8_t *kind, uint64_t *value,
                   uint8_t *callsign, size_t callsign_len);
/* Writes 0 for packet, 1 for stream. */
uint8_t m17_mode(const uint8_t *header, size_t header_len, uint8_t *out);
/* Writes 0 for reserved, 1 data, 2 voice, 3 voice and data. */
uint8_t m17_data_type(const uint8_t *header, size_t header_len, uint8_t *out);
/* Writes 0 for none, 1 scrambler, 2 AES, 3 other. */
uint8_t m17_encryption_type(const uint8_t *header, size_t header_len, uint8_t *out);
/* Writes 0 to 15. */
uint8_t m17_channel_access_number(const uint8_t *header, size_t header_len, uint8_t *out);
/* Writes the 14 bytes of the meta field. */
uint8_t m17_meta(const uint8_t *header, size_t header_len, uint8_t *out, size_t out_len);

/* Setters change one field of the header where it stands and renew its CRC; all other fields stay. */

/* An address as m17_encode_address takes it, 9 characters. 2: another kind. 6: as there. */
uint8_t m17_set_destination(uint8_t *header, size_t header_len, uint8_t kind, uint64_t value,
                            const uint8_t *callsign, size_t callsign_len);
uint8_t m17_set_source(uint8_t *header, size_t header_len, uint8_t kind, uint64_t value,
                       const uint8_t *callsign, size_t callsign_len);
/* 2: a mode over 1. */
uint8_t m17_set_mode(uint8_t *header, size_t header_len, uint8_t mode);
/* 2: a data type over 3. */
uint8_t m17_set_data_type(uint8_t *header, size_t header_len, uint8_t data_type);
/* 2: an encryption type over 3. */
uint8_t m17_set_encryption_type(uint8_t *header, size_t header_len, uint8_t encryption_type);
/* 2: a number over 15. */
uint8_t m17_set_channel_access_number(uint8_t *header, size_t header_len, uint8_t number);
/* Write a new header of 30 bytes from two addresses, each with 9 characters: a stream of voice, or a packet of data; no encryption,
 * channel 0, meta zeros. 2: another kind of address. 6: as m17_encode_address. */
uint8_t m17_new_voice(uint8_t source_kind, uint64_t source_value, const uint8_t *source, size_t source_len,
                      uint8_t destination_kind, uint64_t destination_value, const uint8_t *destination,
                      size_t destination_len, uint8_t *out, size_t out_len);
uint8_t m17_new_packet(uint8_t source_kind, uint64_t source_value, const uint8_t *source, size_t source_len,
                       uint8_t destination_kind, uint64_t destination_value, const uint8_t *destination,
                       size_t destination_len, uint8_t *out, size_t out_len);

/* ---- gathered LICH parts: 30 bytes and six flags; a flag that is not 0 says that its part is set */

/* Writes how many of the six parts are set. */
uint8_t m17_valid_segments(const uint8_t *set, size_t set_len, uint8_t *out);
/* Puts a part of 5 bytes at its place among the 30 and sets its flag; all six flags are written as 0 or 1. 2: a counter over 5. */
uint8_t m17_set_segment(uint8_t *parts, size_t parts_len, uint8_t *set, size_t set_len, uint8_t counter,
                        const uint8_t *part, size_t part_len);
/* With all six set, assembled becomes 1 and the 30 bytes are written; else it becomes 0 ("not yet") and they are left. */
uint8_t m17_try_assemble(const uint8_t *parts, size_t parts_len, const uint8_t *set, size_t set_len,
                         uint8_t *assembled, uint8_t *out, size_t out_len);

/* ---- LICH: 12 bytes */

/* Writes 12 bytes for a counter and its part of 5 bytes. 2: a counter over 5. */
uint8_t m17_encode_lich(uint8_t counter, const uint8_t *part, size_t part_len, uint8_t *out, size_t out_len);
/* Reads 12 bytes: writes the counter, 0 to 7, and the part of 5 bytes. 4: a Golay word is refused. */
uint8_t m17_decode_lich(const uint8_t *lich, size_t lich_len, uint8_t *counter, uint8_t *part, size_t part_len);

/* ---- bodies: 46 bytes */

/* Writes the body of a header of 30 bytes, whatever its CRC. */
uint8_t m17_write_lsf(const uint8_t *header, size_t header_len, uint8_t *out, size_t out_len);
/* Reads a body: writes the 30 bytes of the header, whatever its CRC. 3: the nearest word is over six bits off. */
uint8_t m17_read_lsf(const uint8_t *body, size_t body_len, uint8_t *out, size_t out_len);
/* Writes the body of a stream frame: LICH index and part of 5 bytes, frame number, the end mark (0 no, anything else yes) and 16 bytes
 * of data. 2: an index over 5 or a frame number over 32767. */
uint8_t m17_write_stream(uint8_t lich_idx, const uint8_t *lich_part, size_t lich_part_len, uint16_t frame_number,
                         uint8_t end_of_stream, const uint8_t *stream_data, size_t stream_data_len,
                         uint8_t *out, size_t out_len);
/* Reads a body: writes each field, the index 0 to 7 and the end mark as 0 or 1. 3: the nearest word is over six bits off. 4: a Golay
 * word is refused. */
uint8_t m17_read_stream(const uint8_t *body, size_t body_len, uint8_t *lich_idx, uint8_t *lich_part, size_t lich_part_len,
                        uint16_t *frame_number, uint8_t *end_of_stream, uint8_t *stream_data, size_t stream_data_len);
/* Writes the body of a packet frame of 25 bytes: final_frame 0 for a frame with its index, anything else for the final frame with its
 * length, past which zeros are written. 2: an index over 31 or a length over 25. */
uint8_t m17_write_packet(uint8_t final_frame, size_t number, const uint8_t *payload, size_t payload_len,
                         uint8_t *out, size_t out_len);
/* Reads a body: writes whether it is the final frame, 0 or 1, its index or length, 0 to 31 each, and 25 bytes. 3: the nearest word is
 * over six bits off. */
uint8_t m17_read_packet(const uint8_t *body, size_t body_len, uint8_t *final_frame, size_t *number,
                        uint8_t *payload, size_t payload_len);

/* ---- symbols: 192 floats, the eight of the sync word first, which no reading looks at */

/* Writes the symbols of a body of 46 bytes after the sync word of its kind: 0 header, 1 stream, 2 packet. 2: another kind. */
uint8_t m17_body_to_symbols(uint8_t kind, const uint8_t *body, size_t body_len, float *out, size_t out_len);
/* Writes the 46 bytes of the body. */
uint8_t m17_symbols_to_body(const float *symbols, size_t symbols_len, uint8_t *out, size_t out_len);
/* Writes the body's 46 coded bytes: un-xored, and brought back to coded order. */
uint8_t m17_frame_initial_decode(const float *symbols, size_t symbols_len, uint8_t *out, size_t out_len);
/* As m17_write_lsf, m17_write_stream and m17_write_packet, with the same refusals, to 192 symbols. */
uint8_t m17_encode_lsf(const uint8_t *header, size_t header_len, float *out, size_t out_len);
uint8_t m17_encode_stream(uint8_t lich_idx, const uint8_t *lich_part, size_t lich_part_len, uint16_t frame_number,
                          uint8_t end_of_stream, const uint8_t *stream_data, size_t stream_data_len,
                          float *out, size_t out_len);
uint8_t m17_encode_packet(uint8_t final_frame, size_t number, const uint8_t *payload, size_t payload_len,
                          float *out, size_t out_len);
/* As m17_read_lsf, m17_read_stream and m17_read_packet, with the same refusals, from 192 symbols. */
uint8_t m17_parse_lsf(const float *symbols, size_t symbols_len, uint8_t *out, size_t out_len);
uint8_t m17_parse_stream(const float *symbols, size_t symbols_len, uint8_t *lich_idx, uint8_t *lich_part,
                         size_t lich_part_len, uint16_t *frame_number, uint8_t *end_of_stream,
                         uint8_t *stream_data, size_t stream_data_len);
uint8_t m17_parse_packet(const float *symbols, size_t symbols_len, uint8_t *final_frame, size_t *number,
                         uint8_t *payload, size_t payload_len);

/* ---- the slot receiver: slots of 48 bytes, and 825 bytes of packet memory lent at each call and left alone between calls */

/* A receiver's state. phase: 0 idle, 1 in a packet expecting frame `count`, 2 gathering with `count` parts, which stand at the
 * start of `parts`, five bytes each. A count over 32 in phase 1 or over 5 in phase 2, or any other phase, is refused with 12. */
typedef struct {
    size_t count;
    uint8_t phase;
    uint8_t parts[30];
} m17_receiver;

/* What a slot is answered with. `said` is 0 or the number of the refusal: 1, 3, 4, 5 or 7 to 12. `next` is the state to hand
 * in with the next slot; 1 and 12 leave it as it was given, any other refusal makes it idle. What an answer does not carry is 0.
 * answer: 0 refused; 1 a header, its bytes in `header`; 2 a piece stored, its number in `number`; 3 a packet handed out,
 * `number` bytes from the start of the packet memory, its two CRC bytes included; 4 stream fields; 5 stream fields with a late
 * header, its bytes in `header`; 6 stream fields after six parts whose CRC is not zero; 7 the end of a transmission. Stream fields
 * are `lich_idx`, `lich_part`, `frame_number`, `end_of_stream` (0 or 1) and `stream_data`. */
typedef struct {
    size_t number;
    m17_receiver next;
    uint16_t frame_number;
    uint8_t said;
    uint8_t answer;
    uint8_t header[30];
    uint8_t lich_idx;
    uint8_t lich_part[5];
    uint8_t end_of_stream;
    uint8_t stream_data[16];
} m17_received;

/* The state to start with: idle. */
m17_receiver m17_receiver_new(void);
/* Takes a slot of 48 bytes, with 825 bytes of packet memory. A stored piece changes its 25 bytes of the memory, a packet handed out
 * its final piece's bytes; nothing else does. */
m17_received m17_receive(m17_receiver state, const uint8_t *slot, size_t slot_len, uint8_t *memory, size_t memory_len);

#ifdef __cplusplus
}
#endif

#endif
