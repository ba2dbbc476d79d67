//! The fields of a header of 30 bytes, read and set.
use crate::{answered, c, filled, heard, Address, Refused, MARK};

pub type Header = [u8; 30];

pub fn check_crc(header: &[u8]) -> Result<u16, Refused> {
    let mut out = MARK as u16;
    let said = unsafe { c::m17_check_crc(header.as_ptr(), header.len(), &mut out) };
    answered(said, out, MARK as u16)
}

pub fn destination(header: &[u8]) -> Result<Address, Refused> {
    heard(|kind, value, callsign, len| unsafe {
        c::m17_destination(header.as_ptr(), header.len(), kind, value, callsign, len)
    })
}

pub fn source(header: &[u8]) -> Result<Address, Refused> {
    heard(|kind, value, callsign, len| unsafe {
        c::m17_source(header.as_ptr(), header.len(), kind, value, callsign, len)
    })
}

type Field = unsafe fn(*const u8, usize, *mut u8) -> u8;

fn field(function: Field, header: &[u8]) -> Result<u8, Refused> {
    let mut out = MARK;
    let said = unsafe { function(header.as_ptr(), header.len(), &mut out) };
    answered(said, out, MARK)
}

pub fn mode(header: &[u8]) -> Result<u8, Refused> {
    field(|header, len, out| unsafe { c::m17_mode(header, len, out) }, header)
}

pub fn data_type(header: &[u8]) -> Result<u8, Refused> {
    field(|header, len, out| unsafe { c::m17_data_type(header, len, out) }, header)
}

pub fn encryption_type(header: &[u8]) -> Result<u8, Refused> {
    field(|header, len, out| unsafe { c::m17_encryption_type(header, len, out) }, header)
}

pub fn channel_access_number(header: &[u8]) -> Result<u8, Refused> {
    field(|header, len, out| unsafe { c::m17_channel_access_number(header, len, out) }, header)
}

pub fn meta(header: &[u8]) -> Result<[u8; 14], Refused> {
    filled(|out, len| unsafe { c::m17_meta(header.as_ptr(), header.len(), out, len) })
}

/// The header as a setter leaves it.
fn after(before: &Header, set: impl FnOnce(*mut u8, usize) -> u8) -> Result<Header, Refused> {
    let mut header = *before;
    let said = set(header.as_mut_ptr(), header.len());
    answered(said, header, *before)
}

pub fn set_destination(header: &Header, to: &Address) -> Result<Header, Refused> {
    after(header, |header, len| unsafe {
        c::m17_set_destination(header, len, to.kind, to.value, to.callsign.as_ptr(), 9)
    })
}

pub fn set_source(header: &Header, to: &Address) -> Result<Header, Refused> {
    after(header, |header, len| unsafe { c::m17_set_source(header, len, to.kind, to.value, to.callsign.as_ptr(), 9) })
}

pub fn set_mode(header: &Header, mode: u8) -> Result<Header, Refused> {
    after(header, |header, len| unsafe { c::m17_set_mode(header, len, mode) })
}

pub fn set_data_type(header: &Header, data_type: u8) -> Result<Header, Refused> {
    after(header, |header, len| unsafe { c::m17_set_data_type(header, len, data_type) })
}

pub fn set_encryption_type(header: &Header, encryption_type: u8) -> Result<Header, Refused> {
    after(header, |header, len| unsafe { c::m17_set_encryption_type(header, len, encryption_type) })
}

pub fn set_channel_access_number(header: &Header, number: u8) -> Result<Header, Refused> {
    after(header, |header, len| unsafe { c::m17_set_channel_access_number(header, len, number) })
}

pub fn new_voice(source: &Address, destination: &Address) -> Result<Header, Refused> {
    let (from, to) = (source.callsign.as_ptr(), destination.callsign.as_ptr());
    filled(|out, len| unsafe {
        c::m17_new_voice(source.kind, source.value, from, 9, destination.kind, destination.value, to, 9, out, len)
    })
}

pub fn new_packet(source: &Address, destination: &Address) -> Result<Header, Refused> {
    let (from, to) = (source.callsign.as_ptr(), destination.callsign.as_ptr());
    filled(|out, len| unsafe {
        c::m17_new_packet(source.kind, source.value, from, 9, destination.kind, destination.value, to, 9, out, len)
    })
}
