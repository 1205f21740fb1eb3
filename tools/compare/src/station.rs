//! The other side: the station, reached through its C boundary.

use crate::reading::{Certificate, Layer, Refusal};
use crate::running::Row;

/// The C boundary. All of its declarations stand here and nowhere else.
mod boundary {
    /// What a heap holds: nothing.
    #[repr(C)]
    #[derive(Clone, Copy)]
    struct Memory {}

    /// The heap from which the station takes its memory.
    #[repr(C)]
    #[derive(Clone, Copy)]
    pub struct Global {
        memory: Memory,
    }

    /// The one heap.
    pub const HEAP: Global = Global { memory: Memory {} };

    #[allow(improper_ctypes)]
    extern "C" {
        pub fn station_verdict(
            heap: Global,
            image: *const u8,
            image_len: usize,
            out: *mut u8,
            out_len: usize,
        ) -> u32;

        pub fn station_run(
            heap: Global,
            image: *const u8,
            image_len: usize,
            calls: *const u8,
            calls_len: usize,
            rows: *const u8,
            rows_len: usize,
            patch: u8,
            out: *mut u8,
            out_len: usize,
        ) -> usize;
    }
}

/// The bytes of a verdict.
pub const VERDICT: usize = 16;

/// What the station says of an image.
#[derive(Clone, PartialEq, Eq, Debug)]
pub enum Verdict {
    Accepted(Certificate),
    Refused(Refusal),
    NoMemory,
    /// Four numbers that mean nothing.
    Unknown([u32; 4]),
}

impl Verdict {
    /// The verdict that a reading comes to.
    pub fn of(reading: Result<Certificate, Refusal>) -> Self {
        reading.map_or_else(Verdict::Refused, Verdict::Accepted)
    }

    fn from(numbers: [u32; 4]) -> Self {
        let [number, second, third, fourth] = numbers;
        let size = |number: u32| number as usize;
        let refused = |layer| {
            let place = size(third);
            Verdict::Refused(Refusal {
                number: number as u8,
                layer,
                place,
            })
        };
        match (number, second, fourth) {
            (0, _, _) => Verdict::Accepted(Certificate {
                lines: size(second),
                stack: size(third),
                scan: size(fourth),
            }),
            (1..=14, 1, 0) => refused(Layer::Image),
            (1..=14, 2, 0) => refused(Layer::Text),
            (u32::MAX, 0, 0) if third == 0 => Verdict::NoMemory,
            _ => Verdict::Unknown(numbers),
        }
    }
}

/// The station's verdict on an image.
pub fn verdict(image: &[u8]) -> Result<Verdict, String> {
    let mut out = [0; VERDICT];
    match verdict_into(image, &mut out) {
        1 => Ok(Verdict::from(four_numbers(&out))),
        other => Err(format!("station_verdict answers {other}")),
    }
}

/// The verdict as it is written; answers what the station answers.
pub fn verdict_into(image: &[u8], out: &mut [u8]) -> u32 {
    // SAFETY: both pointers come from slices and go with those slices' lengths;
    // the station keeps neither of them.
    unsafe {
        boundary::station_verdict(
            boundary::HEAP,
            image.as_ptr(),
            image.len(),
            out.as_mut_ptr(),
            out.len(),
        )
    }
}

fn four_numbers(bytes: &[u8; VERDICT]) -> [u32; 4] {
    let number = |at: usize| u32::from_le_bytes(bytes[4 * at..4 * at + 4].try_into().unwrap());
    [number(0), number(1), number(2), number(3)]
}

/// The records of a session, or none where the station gives none. There is
/// room for exactly so many bytes.
pub fn run(image: &[u8], calls: &[u8], rows: &[Row], patch: bool, room: usize) -> Option<Vec<u8>> {
    let rows: Vec<u8> = rows.iter().flat_map(row_bytes).collect();
    let mut out = vec![0; room];
    // SAFETY: all pointers come from slices and go with those slices' lengths;
    // the station keeps none of them.
    let written = unsafe {
        boundary::station_run(
            boundary::HEAP,
            image.as_ptr(),
            image.len(),
            calls.as_ptr(),
            calls.len(),
            rows.as_ptr(),
            rows.len(),
            u8::from(patch),
            out.as_mut_ptr(),
            out.len(),
        )
    };
    if written == usize::MAX {
        return None;
    }
    assert!(
        written <= room,
        "the station claims {written} bytes where {room} are"
    );
    out.truncate(written);
    Some(out)
}

fn row_bytes(row: &Row) -> [u8; 6] {
    let [a, b, c, d] = row.scan.to_le_bytes();
    [a, b, c, d, row.port, row.byte]
}
