//! Every function with right lengths, and with each of its lengths wrong: 0, one short and one long.
use okihemon::c::*;

/// What is lent, each buffer with room for one more. It is right for every function; what is there for answers is marked.
#[derive(Clone, PartialEq, Debug)]
struct Room {
    header: [u8; 31],
    body: [u8; 47],
    address: [u8; 7],
    call: [u8; 10],
    other: [u8; 10],
    lich: [u8; 13],
    part: [u8; 6],
    sound: [u8; 17],
    payload: [u8; 26],
    parts: [u8; 31],
    set: [u8; 7],
    symbols: [f32; 193],
    slot: [u8; 49],
    memory: [u8; 826],
    out: [u8; 47],
    played: [f32; 193],
    small: u8,
    flag: u8,
    short: u16,
    word: u32,
    long: u64,
    size: usize,
}

fn room() -> Room {
    let mut room = Room {
        header: [0; 31],
        body: [0; 47],
        address: [0; 7],
        call: *b"AB1CD     ",
        other: *b"RIVER-7   ",
        lich: [0; 13],
        part: [0; 6],
        sound: [0; 17],
        payload: [0; 26],
        parts: [0; 31],
        set: [1; 7],
        symbols: [0.0; 193],
        slot: [0; 49],
        memory: [0xA5; 826],
        out: [0xA5; 47],
        played: [0.5; 193],
        small: 0xA5,
        flag: 0xA5,
        short: 0xA5A5,
        word: 0xA5A5_A5A5,
        long: 0xA5A5_A5A5,
        size: 0xA5A5_A5A5,
    };
    // A body that reads as zeros in each of the three kinds, and its symbols.
    let said = unsafe { m17_write_lsf(room.header.as_ptr(), 30, room.body.as_mut_ptr(), 46) };
    assert_eq!(said, 0);
    let said = unsafe { m17_body_to_symbols(0, room.body.as_ptr(), 46, room.symbols.as_mut_ptr(), 192) };
    assert_eq!(said, 0);
    room.slot[..2].copy_from_slice(&[0x55, 0x5D]);
    room
}

/// Wrong lengths are refused with 1 and leave all that is lent as it was.
fn every<const N: usize>(right: [usize; N], call: impl Fn(&mut Room, [usize; N]) -> u8) {
    let before = room();
    let mut after = before.clone();
    assert_eq!(call(&mut after, right), 0, "{right:?}");
    assert_ne!(after, before, "{right:?}: answered");
    for at in 0..N {
        for wrong in [0, right[at] - 1, right[at] + 1] {
            let mut lengths = right;
            lengths[at] = wrong;
            let mut after = before.clone();
            assert_eq!(call(&mut after, lengths), 1, "{right:?}, {lengths:?}");
            assert_eq!(after, before, "{right:?}, {lengths:?}: lent");
        }
    }
}

#[test]
fn any_length() {
    for len in 0..=47 {
        let mut r = room();
        assert_eq!(unsafe { m17_crc_update(0xFFFF, r.body.as_ptr(), len) }, unsafe { m17_crc(r.body.as_ptr(), len) });
        let before = r.clone();
        unsafe { m17_random_xor(r.out.as_mut_ptr(), len) };
        assert_eq!(r.out[len..], before.out[len..]);
        unsafe { m17_random_xor(r.out.as_mut_ptr(), len) };
        assert_eq!(r, before);
        let places = 8 * len;
        for (place, said) in [(0, if len == 0 { 2 } else { 0 }), (places, 2), (places + 1, 2), (usize::MAX, 2)] {
            assert_eq!(unsafe { m17_get_bit(r.body.as_ptr(), len, place, &mut r.small) }, said);
            assert_eq!(unsafe { m17_set_bit(r.out.as_mut_ptr(), len, place, 0) }, said);
            let (mut next, mut read) = (place, 7);
            r.small = 7;
            unsafe { m17_next_bit(r.body.as_ptr(), len, &mut next, &mut read, &mut r.small) };
            let moved = said == 0;
            assert_eq!((next, read, r.small != 7), (place + moved as usize, moved as u8, moved));
        }
    }
}

#[test]
fn leaves() {
    every([46, 46], |r, n| unsafe { m17_interleave(r.body.as_ptr(), n[0], r.out.as_mut_ptr(), n[1]) });
    every([], |r, _| unsafe { m17_golay_encode(1, &mut r.word) });
    every([], |r, _| unsafe { m17_golay_decode(0, &mut r.short) });
    every([6, 9], |r, n| unsafe {
        m17_decode_address(r.address.as_ptr(), n[0], &mut r.small, &mut r.long, r.out.as_mut_ptr(), n[1])
    });
    for kind in 0..4 {
        every([9, 6], |r, n| unsafe {
            m17_encode_address(kind, 0xEE6B_2800_0000, r.call.as_ptr(), n[0], r.out.as_mut_ptr(), n[1])
        });
    }
    for (kind, plain, coded) in [(0, 30, 46), (1, 18, 34), (2, 26, 46)] {
        every([plain, 46], |r, n| unsafe { m17_fec_encode(kind, r.parts.as_ptr(), n[0], r.out.as_mut_ptr(), n[1]) });
        every([coded, 30], |r, n| unsafe {
            r.body = [0; 47];
            let said = m17_fec_decode(kind, r.body.as_ptr(), n[0], r.out.as_mut_ptr(), n[1]);
            r.body = room().body;
            said
        });
    }
}

#[test]
fn header_fields() {
    every([30], |r, n| unsafe { m17_check_crc(r.header.as_ptr(), n[0], &mut r.short) });
    for read in [m17_destination, m17_source] {
        every([30, 9], |r, n| unsafe {
            read(r.header.as_ptr(), n[0], &mut r.small, &mut r.long, r.out.as_mut_ptr(), n[1])
        });
    }
    for read in [m17_mode, m17_data_type, m17_encryption_type, m17_channel_access_number] {
        every([30], |r, n| unsafe { read(r.header.as_ptr(), n[0], &mut r.small) });
    }
    every([30, 14], |r, n| unsafe { m17_meta(r.header.as_ptr(), n[0], r.out.as_mut_ptr(), n[1]) });
    for set in [m17_set_destination, m17_set_source] {
        every([30, 9], |r, n| unsafe { set(r.header.as_mut_ptr(), n[0], 1, 0, r.call.as_ptr(), n[1]) });
    }
    for set in [m17_set_mode, m17_set_data_type, m17_set_encryption_type, m17_set_channel_access_number] {
        every([30], |r, n| unsafe { set(r.header.as_mut_ptr(), n[0], 1) });
    }
    for new in [m17_new_voice, m17_new_packet] {
        every([9, 9, 30], |r, n| unsafe {
            new(1, 0, r.call.as_ptr(), n[0], 1, 0, r.other.as_ptr(), n[1], r.out.as_mut_ptr(), n[2])
        });
    }
}

#[test]
fn gathered() {
    every([6], |r, n| unsafe { m17_valid_segments(r.set.as_ptr(), n[0], &mut r.small) });
    every([30, 6, 5], |r, n| unsafe {
        m17_set_segment(r.out.as_mut_ptr(), n[0], r.set.as_mut_ptr(), n[1], 5, r.part.as_ptr(), n[2])
    });
    every([30, 6, 30], |r, n| unsafe {
        m17_try_assemble(r.parts.as_ptr(), n[0], r.set.as_ptr(), n[1], &mut r.flag, r.out.as_mut_ptr(), n[2])
    });
    every([5, 12], |r, n| unsafe { m17_encode_lich(5, r.part.as_ptr(), n[0], r.out.as_mut_ptr(), n[1]) });
    every([12, 5], |r, n| unsafe { m17_decode_lich(r.lich.as_ptr(), n[0], &mut r.small, r.out.as_mut_ptr(), n[1]) });
}

#[test]
fn bodies() {
    every([30, 46], |r, n| unsafe { m17_write_lsf(r.header.as_ptr(), n[0], r.out.as_mut_ptr(), n[1]) });
    every([46, 30], |r, n| unsafe { m17_read_lsf(r.body.as_ptr(), n[0], r.out.as_mut_ptr(), n[1]) });
    every([5, 16, 46], |r, n| unsafe {
        m17_write_stream(0, r.part.as_ptr(), n[0], 0, 0, r.sound.as_ptr(), n[1], r.out.as_mut_ptr(), n[2])
    });
    every([46, 5, 16], |r, n| unsafe {
        let (part, out) = (r.part.as_mut_ptr(), r.out.as_mut_ptr());
        m17_read_stream(r.body.as_ptr(), n[0], &mut r.small, part, n[1], &mut r.short, &mut r.flag, out, n[2])
    });
    every([25, 46], |r, n| unsafe { m17_write_packet(0, 0, r.payload.as_ptr(), n[0], r.out.as_mut_ptr(), n[1]) });
    every([46, 25], |r, n| unsafe {
        m17_read_packet(r.body.as_ptr(), n[0], &mut r.flag, &mut r.size, r.out.as_mut_ptr(), n[1])
    });
}

#[test]
fn symbols() {
    every([46, 192], |r, n| unsafe { m17_body_to_symbols(2, r.body.as_ptr(), n[0], r.played.as_mut_ptr(), n[1]) });
    for read in [m17_symbols_to_body, m17_frame_initial_decode] {
        every([192, 46], |r, n| unsafe { read(r.symbols.as_ptr(), n[0], r.out.as_mut_ptr(), n[1]) });
    }
    every([30, 192], |r, n| unsafe { m17_encode_lsf(r.header.as_ptr(), n[0], r.played.as_mut_ptr(), n[1]) });
    every([5, 16, 192], |r, n| unsafe {
        m17_encode_stream(0, r.part.as_ptr(), n[0], 0, 0, r.sound.as_ptr(), n[1], r.played.as_mut_ptr(), n[2])
    });
    every([25, 192], |r, n| unsafe { m17_encode_packet(1, 25, r.payload.as_ptr(), n[0], r.played.as_mut_ptr(), n[1]) });
    every([192, 30], |r, n| unsafe { m17_parse_lsf(r.symbols.as_ptr(), n[0], r.out.as_mut_ptr(), n[1]) });
    every([192, 5, 16], |r, n| unsafe {
        let (part, out) = (r.part.as_mut_ptr(), r.out.as_mut_ptr());
        m17_parse_stream(r.symbols.as_ptr(), n[0], &mut r.small, part, n[1], &mut r.short, &mut r.flag, out, n[2])
    });
    every([192, 25], |r, n| unsafe {
        m17_parse_packet(r.symbols.as_ptr(), n[0], &mut r.flag, &mut r.size, r.out.as_mut_ptr(), n[1])
    });
}

#[test]
fn slots() {
    let new = unsafe { m17_receiver_new() };
    let open = Receiver { count: 1, phase: 2, parts: [7; 30] };
    every([48, 825], |r, n| unsafe {
        let got = m17_receive(open, r.slot.as_ptr(), n[0], r.memory.as_mut_ptr(), n[1]);
        assert_eq!(got.next, if got.said == 0 { new } else { open });
        assert_eq!(got.answer, if got.said == 0 { 7 } else { 0 });
        // An end slot has its answer in the struct alone; the mark is what `every` looks for.
        if got.said == 0 {
            r.small = 0;
        }
        got.said
    });
}
