//! Header fields and gathered LICH parts. `data_type` is not outside the domain, but parts by the document's own word.
use super::{outside, Outside};
use crate::leaves::shown;
use oracle::protocol::{LichCollection, LsfFrame};
use ours::Collection;

pub fn data_types() -> Vec<Outside> {
    const NAMES: [&str; 4] = ["Reserved", "Data", "Voice", "VoiceAndData"];
    let of = |input, place: usize, written| {
        let mut header = [0; 30];
        header[place] = 0x02;
        let ours = || shown(&ours::data_type(&header), |bits| NAMES[*bits as usize & 3].into());
        outside(input, || format!("{:?}", LsfFrame(header).data_type()), ours, written)
    };
    vec![
        of("data_type of 00.., byte 13 = 02", 13, ["Reserved", "Data"]),
        of("data_type of 00.., byte 12 = 02", 12, ["Data", "Reserved"]),
    ]
}

pub fn refused() -> Vec<Outside> {
    let header = [0; 30];
    let number = || {
        let mut frame = LsfFrame(header);
        frame.set_channel_access_number(16);
        format!("sets {}", frame.channel_access_number())
    };
    let segment = || {
        let mut collection = LichCollection::new();
        collection.set_segment(6, [0; 5]);
        format!("{} segments", collection.valid_segments())
    };
    let empty = Collection { parts: header, set: [0; 6] };
    vec![
        outside(
            "channel access number 16",
            number,
            || shown(&ours::set_channel_access_number(&header, 16), |_| "sets it".into()),
            ["sets 0", "refuses 2"],
        ),
        outside(
            "set_segment of counter 6",
            segment,
            || shown(&ours::set_segment(&empty, 6, &[0; 5]), |_| "sets it".into()),
            ["panics", "refuses 2"],
        ),
    ]
}
