//! What the library's functions look like from C. A buffer is a pointer and, right after it, its length, named after it.

use crate::given::{Answer, Argument, Given};

macro_rules! functions {
    ($(fn $name:ident($($given:ident: $kind:ty),* $(,)?) $(-> $answer:ty)?;)*) => {
        #[cfg(linked)]
        extern "C" {
            $(pub fn $name($($given: $kind),*) $(-> $answer)?;)*
        }

        #[cfg(not(linked))]
        mod emulated {
            use crate::bridge::{call, Word};

            /// The bridge's list. The receiver's two stand last.
            #[allow(non_camel_case_types)]
            pub enum Place {
                $($name,)*
                receiver_new,
                receive,
            }

            $(
                #[allow(clippy::too_many_arguments)]
                pub unsafe fn $name($($given: $kind),*) $(-> $answer)? {
                    call(Place::$name as usize, &[$((stringify!($given), Word::from($given))),*])
                }
            )*
        }

        /// Calls a function by its name, so that any buffer can be lent with any length.
        pub fn by_name(name: &str, given: &mut [Given]) -> Option<u8> {
            let mut given = given.iter_mut();
            match name {
                $(stringify!($name) => {
                    $(let $given = <$kind>::given(given.next()?);)*
                    Answer::number(unsafe { $name($($given),*) })
                })*
                _ => None,
            }
        }
    };
}

#[cfg(not(linked))]
pub use emulated::*;

functions! {
    fn m17_get_bit(bytes: *const u8, bytes_len: usize, place: usize, out: *mut u8) -> u8;
    fn m17_set_bit(bytes: *mut u8, bytes_len: usize, place: usize, value: u8) -> u8;
    fn m17_next_bit(bytes: *const u8, bytes_len: usize, place: *mut usize, read: *mut u8, out: *mut u8);
    fn m17_crc(input: *const u8, input_len: usize) -> u16;
    fn m17_crc_update(start: u16, input: *const u8, input_len: usize) -> u16;
    fn m17_random_xor(bytes: *mut u8, bytes_len: usize);
    fn m17_interleave(payload: *const u8, payload_len: usize, out: *mut u8, out_len: usize) -> u8;
    fn m17_golay_encode(value: u16, out: *mut u32) -> u8;
    fn m17_golay_decode(word: u32, out: *mut u16) -> u8;
    fn m17_decode_address(
        encoded: *const u8,
        encoded_len: usize,
        kind: *mut u8,
        value: *mut u64,
        callsign: *mut u8,
        callsign_len: usize,
    ) -> u8;
    fn m17_encode_address(
        kind: u8,
        value: u64,
        callsign: *const u8,
        callsign_len: usize,
        out: *mut u8,
        out_len: usize,
    ) -> u8;
    fn m17_fec_encode(kind: u8, plain: *const u8, plain_len: usize, out: *mut u8, out_len: usize) -> u8;
    fn m17_fec_decode(kind: u8, received: *const u8, received_len: usize, out: *mut u8, out_len: usize) -> u8;

    fn m17_check_crc(header: *const u8, header_len: usize, out: *mut u16) -> u8;
    fn m17_destination(
        header: *const u8,
        header_len: usize,
        kind: *mut u8,
        value: *mut u64,
        callsign: *mut u8,
        callsign_len: usize,
    ) -> u8;
    fn m17_source(
        header: *const u8,
        header_len: usize,
        kind: *mut u8,
        value: *mut u64,
        callsign: *mut u8,
        callsign_len: usize,
    ) -> u8;
    fn m17_mode(header: *const u8, header_len: usize, out: *mut u8) -> u8;
    fn m17_data_type(header: *const u8, header_len: usize, out: *mut u8) -> u8;
    fn m17_encryption_type(header: *const u8, header_len: usize, out: *mut u8) -> u8;
    fn m17_channel_access_number(header: *const u8, header_len: usize, out: *mut u8) -> u8;
    fn m17_meta(header: *const u8, header_len: usize, out: *mut u8, out_len: usize) -> u8;
    fn m17_set_destination(
        header: *mut u8,
        header_len: usize,
        kind: u8,
        value: u64,
        callsign: *const u8,
        callsign_len: usize,
    ) -> u8;
    fn m17_set_source(
        header: *mut u8,
        header_len: usize,
        kind: u8,
        value: u64,
        callsign: *const u8,
        callsign_len: usize,
    ) -> u8;
    fn m17_set_mode(header: *mut u8, header_len: usize, mode: u8) -> u8;
    fn m17_set_data_type(header: *mut u8, header_len: usize, data_type: u8) -> u8;
    fn m17_set_encryption_type(header: *mut u8, header_len: usize, encryption_type: u8) -> u8;
    fn m17_set_channel_access_number(header: *mut u8, header_len: usize, number: u8) -> u8;
    fn m17_new_voice(
        source_kind: u8,
        source_value: u64,
        source: *const u8,
        source_len: usize,
        destination_kind: u8,
        destination_value: u64,
        destination: *const u8,
        destination_len: usize,
        out: *mut u8,
        out_len: usize,
    ) -> u8;
    fn m17_new_packet(
        source_kind: u8,
        source_value: u64,
        source: *const u8,
        source_len: usize,
        destination_kind: u8,
        destination_value: u64,
        destination: *const u8,
        destination_len: usize,
        out: *mut u8,
        out_len: usize,
    ) -> u8;

    fn m17_valid_segments(set: *const u8, set_len: usize, out: *mut u8) -> u8;
    fn m17_set_segment(
        parts: *mut u8,
        parts_len: usize,
        set: *mut u8,
        set_len: usize,
        counter: u8,
        part: *const u8,
        part_len: usize,
    ) -> u8;
    fn m17_try_assemble(
        parts: *const u8,
        parts_len: usize,
        set: *const u8,
        set_len: usize,
        assembled: *mut u8,
        out: *mut u8,
        out_len: usize,
    ) -> u8;

    fn m17_encode_lich(counter: u8, part: *const u8, part_len: usize, out: *mut u8, out_len: usize) -> u8;
    fn m17_decode_lich(lich: *const u8, lich_len: usize, counter: *mut u8, part: *mut u8, part_len: usize) -> u8;

    fn m17_write_lsf(header: *const u8, header_len: usize, out: *mut u8, out_len: usize) -> u8;
    fn m17_read_lsf(body: *const u8, body_len: usize, out: *mut u8, out_len: usize) -> u8;
    fn m17_write_stream(
        lich_idx: u8,
        lich_part: *const u8,
        lich_part_len: usize,
        frame_number: u16,
        end_of_stream: u8,
        stream_data: *const u8,
        stream_data_len: usize,
        out: *mut u8,
        out_len: usize,
    ) -> u8;
    fn m17_read_stream(
        body: *const u8,
        body_len: usize,
        lich_idx: *mut u8,
        lich_part: *mut u8,
        lich_part_len: usize,
        frame_number: *mut u16,
        end_of_stream: *mut u8,
        stream_data: *mut u8,
        stream_data_len: usize,
    ) -> u8;
    fn m17_write_packet(
        final_frame: u8,
        number: usize,
        payload: *const u8,
        payload_len: usize,
        out: *mut u8,
        out_len: usize,
    ) -> u8;
    fn m17_read_packet(
        body: *const u8,
        body_len: usize,
        final_frame: *mut u8,
        number: *mut usize,
        payload: *mut u8,
        payload_len: usize,
    ) -> u8;

    fn m17_body_to_symbols(kind: u8, body: *const u8, body_len: usize, out: *mut f32, out_len: usize) -> u8;
    fn m17_symbols_to_body(symbols: *const f32, symbols_len: usize, out: *mut u8, out_len: usize) -> u8;
    fn m17_frame_initial_decode(symbols: *const f32, symbols_len: usize, out: *mut u8, out_len: usize) -> u8;
    fn m17_encode_lsf(header: *const u8, header_len: usize, out: *mut f32, out_len: usize) -> u8;
    fn m17_encode_stream(
        lich_idx: u8,
        lich_part: *const u8,
        lich_part_len: usize,
        frame_number: u16,
        end_of_stream: u8,
        stream_data: *const u8,
        stream_data_len: usize,
        out: *mut f32,
        out_len: usize,
    ) -> u8;
    fn m17_encode_packet(
        final_frame: u8,
        number: usize,
        payload: *const u8,
        payload_len: usize,
        out: *mut f32,
        out_len: usize,
    ) -> u8;
    fn m17_parse_lsf(symbols: *const f32, symbols_len: usize, out: *mut u8, out_len: usize) -> u8;
    fn m17_parse_stream(
        symbols: *const f32,
        symbols_len: usize,
        lich_idx: *mut u8,
        lich_part: *mut u8,
        lich_part_len: usize,
        frame_number: *mut u16,
        end_of_stream: *mut u8,
        stream_data: *mut u8,
        stream_data_len: usize,
    ) -> u8;
    fn m17_parse_packet(
        symbols: *const f32,
        symbols_len: usize,
        final_frame: *mut u8,
        number: *mut usize,
        payload: *mut u8,
        payload_len: usize,
    ) -> u8;
}
