use core::fmt;

macro_rules! refusals {
    ($($number:literal $name:ident $meaning:literal)*) => {
        /// Why the library says no: a name for each number of document 01.
        #[derive(Debug, Clone, Copy, PartialEq, Eq, Hash)]
        #[non_exhaustive]
        pub enum Refusal {
            $(#[doc = $meaning] $name,)*
            /// What the library answered has no meaning here: the archive is of another make than this crate.
            Unknown(u8),
        }

        impl Refusal {
            /// The refusal of a number. 0 is none.
            pub fn of(number: u8) -> Option<Refusal> {
                match number {
                    0 => None,
                    $($number => Some(Refusal::$name),)*
                    other => Some(Refusal::Unknown(other)),
                }
            }

            /// 1 to 12. What is unknown has 255, which no table has.
            pub fn number(self) -> u8 {
                match self {
                    $(Refusal::$name => $number,)*
                    Refusal::Unknown(_) => 255,
                }
            }
        }

        impl fmt::Display for Refusal {
            fn fmt(&self, to: &mut fmt::Formatter) -> fmt::Result {
                match self {
                    $(Refusal::$name => to.write_str($meaning),)*
                    Refusal::Unknown(answer) => write!(to, "the library answered {}, which has no meaning here", answer),
                }
            }
        }
    };
}

refusals! {
    1 WrongLength "a buffer isn't as long as called for"
    2 OutOfRange "a field to write is out of range, or a bit place past its bytes"
    3 TooFar "nearest word over six"
    4 BadGolay "a Golay word refused"
    5 BadHeader "header CRC not zero"
    6 BadAddress "callsign with a byte outside the alphabet, or all spaces; reserved value outside its range"
    7 UnknownSync "sync none of the four"
    8 OutOfTurn "packet slot out of turn, or no packet open"
    9 BadFinal "final length 0 or over 25"
    10 TooShort "total under 3"
    11 BadPacket "CRC over the total bytes not zero"
    12 BadState "state with n over 32 or k over 5"
}

#[cfg(core_error)]
impl core::error::Error for Refusal {}

impl Refusal {
    pub(crate) fn judge(said: u8) -> crate::Result<()> {
        Refusal::of(said).map_or(Ok(()), Err)
    }
}
