use crate::address::heard;
use crate::protocol::{DataType, EncryptionType, Mode};
use crate::{c, filled, Address, Refusal, Result};

/// A header's 30 bytes. The setters renew its CRC and keep all other fields.
#[derive(Debug, Clone, PartialEq, Eq)]
pub struct LsfFrame(pub [u8; 30]);

type Read = unsafe extern "C" fn(*const u8, usize, *mut u8) -> u8;
type Set = unsafe extern "C" fn(*mut u8, usize, u8) -> u8;

impl LsfFrame {
    pub fn new_voice(source: &Address, destination: &Address) -> Result<Self> {
        let ((kind, value, from), (to_kind, to_value, to)) = (source.parts(), destination.parts());
        filled(|out, len| unsafe {
            c::m17_new_voice(kind, value, from.as_ptr(), 9, to_kind, to_value, to.as_ptr(), 9, out, len)
        })
        .map(Self)
    }

    pub fn new_packet(source: &Address, destination: &Address) -> Result<Self> {
        let ((kind, value, from), (to_kind, to_value, to)) = (source.parts(), destination.parts());
        filled(|out, len| unsafe {
            c::m17_new_packet(kind, value, from.as_ptr(), 9, to_kind, to_value, to.as_ptr(), 9, out, len)
        })
        .map(Self)
    }

    /// The CRC over all 30 bytes. It is zero where the header is whole.
    pub fn check_crc(&self) -> u16 {
        let mut out = 0xFFFF;
        unsafe { c::m17_check_crc(self.0.as_ptr(), 30, &mut out) };
        out
    }

    pub fn destination(&self) -> Address {
        heard(|kind, value, callsign, len| unsafe {
            c::m17_destination(self.0.as_ptr(), 30, kind, value, callsign, len)
        })
    }

    pub fn source(&self) -> Address {
        heard(|kind, value, callsign, len| unsafe { c::m17_source(self.0.as_ptr(), 30, kind, value, callsign, len) })
    }

    pub fn mode(&self) -> Mode {
        match self.field(c::m17_mode) {
            0 => Mode::Packet,
            _ => Mode::Stream,
        }
    }

    /// Type bits 1 and 2.
    pub fn data_type(&self) -> DataType {
        match self.field(c::m17_data_type) {
            1 => DataType::Data,
            2 => DataType::Voice,
            3 => DataType::VoiceAndData,
            _ => DataType::Reserved,
        }
    }

    pub fn encryption_type(&self) -> EncryptionType {
        match self.field(c::m17_encryption_type) {
            0 => EncryptionType::None,
            1 => EncryptionType::Scrambler,
            2 => EncryptionType::Aes,
            _ => EncryptionType::Other,
        }
    }

    pub fn channel_access_number(&self) -> u8 {
        self.field(c::m17_channel_access_number)
    }

    pub fn meta(&self) -> [u8; 14] {
        let mut out = [0; 14];
        unsafe { c::m17_meta(self.0.as_ptr(), 30, out.as_mut_ptr(), 14) };
        out
    }

    pub fn set_destination(&mut self, destination: &Address) -> Result<()> {
        let (kind, value, callsign) = destination.parts();
        Refusal::judge(unsafe { c::m17_set_destination(self.0.as_mut_ptr(), 30, kind, value, callsign.as_ptr(), 9) })
    }

    pub fn set_source(&mut self, source: &Address) -> Result<()> {
        let (kind, value, callsign) = source.parts();
        Refusal::judge(unsafe { c::m17_set_source(self.0.as_mut_ptr(), 30, kind, value, callsign.as_ptr(), 9) })
    }

    pub fn set_mode(&mut self, mode: Mode) {
        let number = match mode {
            Mode::Packet => 0,
            Mode::Stream => 1,
        };
        self.set(c::m17_set_mode, number);
    }

    pub fn set_data_type(&mut self, data_type: DataType) {
        let number = match data_type {
            DataType::Reserved => 0,
            DataType::Data => 1,
            DataType::Voice => 2,
            DataType::VoiceAndData => 3,
        };
        self.set(c::m17_set_data_type, number);
    }

    pub fn set_encryption_type(&mut self, encryption_type: EncryptionType) {
        let number = match encryption_type {
            EncryptionType::None => 0,
            EncryptionType::Scrambler => 1,
            EncryptionType::Aes => 2,
            EncryptionType::Other => 3,
        };
        self.set(c::m17_set_encryption_type, number);
    }

    /// A number over 15 is refused.
    pub fn set_channel_access_number(&mut self, number: u8) -> Result<()> {
        Refusal::judge(self.set(c::m17_set_channel_access_number, number))
    }

    /// No header of 30 bytes is refused.
    fn field(&self, read: Read) -> u8 {
        let mut out = 0;
        unsafe { read(self.0.as_ptr(), 30, &mut out) };
        out
    }

    fn set(&mut self, set: Set, number: u8) -> u8 {
        unsafe { set(self.0.as_mut_ptr(), 30, number) }
    }
}
