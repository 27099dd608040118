//! The C functions of include/holdamek.h, each behind a safe function over slices. The only unsafe code of this crate;
//! oracle/build takes this file over.
//!
//! All are safe for the same reasons: a slice's pointer and length describe memory that is its own, references are never null,
//! what is lent by `&mut` overlaps nothing else, and the functions keep no pointer.

/// struct holdamek_frame_count.
#[repr(C)]
pub struct FrameCount {
    pub code: u32,
    pub frames: usize,
}

/// struct holdamek_frame_part.
#[repr(C)]
pub struct FramePart {
    pub code: u32,
    pub kind: u32,
    pub start: usize,
    pub length: usize,
}

mod c {
    use super::{FrameCount, FramePart};

    unsafe extern "C" {
        pub fn holdamek_table_check(t: *const i16, t_len: usize) -> u32;
        pub fn holdamek_fresh_state(t: *const i16, t_len: usize, b: *mut i16, b_len: usize) -> u32;
        pub fn holdamek_frame(
            t: *const i16,
            t_len: usize,
            b: *mut i16,
            b_len: usize,
            kind: u32,
            payload: *const u8,
            payload_len: usize,
            out: *mut i16,
            out_len: usize,
            delays: *mut [i16; 4],
            rules: *mut [u32; 2],
        ) -> u32;
        pub fn holdamek_delays(
            carried: *mut i16,
            kind: u32,
            payload: *const u8,
            payload_len: usize,
            delays: *mut [i16; 4],
            rules: *mut [u32; 2],
        ) -> u32;
        pub fn holdamek_fields(bytes: *const u8, len: usize, to: *mut u16, to_len: usize) -> u32;
        pub fn holdamek_write_fields(
            fields: *const u16,
            len: usize,
            to: *mut u8,
            to_len: usize,
        ) -> u32;
        pub fn holdamek_write_fields_parity(
            fields: *const u16,
            len: usize,
            to: *mut u8,
            to_len: usize,
        ) -> u32;
        pub fn holdamek_line(
            text: *const u8,
            text_len: usize,
            kind: *mut u32,
            payload: *mut u8,
            payload_len: usize,
        ) -> u32;
        pub fn holdamek_write_line(
            kind: u32,
            payload: *const u8,
            payload_len: usize,
            out: *mut u8,
            out_len: usize,
            length: *mut usize,
        ) -> u32;
        pub fn holdamek_payload_frames(payload: *const u8, payload_len: usize) -> FrameCount;
        pub fn holdamek_payload_frame(
            payload: *const u8,
            payload_len: usize,
            index: usize,
        ) -> FramePart;
        pub fn holdamek_g711_read(
            law: u32,
            bytes: *const u8,
            bytes_len: usize,
            samples: *mut i16,
            samples_len: usize,
        ) -> u32;
        pub fn holdamek_g711_write(
            law: u32,
            samples: *const i16,
            samples_len: usize,
            bytes: *mut u8,
            bytes_len: usize,
        ) -> u32;
        pub fn holdamek_mix(
            legs: *const i16,
            legs_len: usize,
            heard: *mut i16,
            heard_len: usize,
        ) -> u32;
        pub fn holdamek_playout(
            frames: u32,
            start: u32,
            depth: u32,
            numbers: *const u32,
            numbers_len: usize,
            times: *const u32,
            times_len: usize,
            kinds: *mut u32,
            kinds_len: usize,
            lost: *mut u32,
        ) -> u32;
        pub fn holdamek_count(kind: u32, first: u32, second: u32, counts: *mut [u32; 7]) -> u32;
        pub fn holdamek_agree(
            a: *const i16,
            a_len: usize,
            b: *const i16,
            b_len: usize,
            agreement: *mut u32,
        ) -> u32;
        pub fn holdamek_begin_compare(
            t: *const i16,
            t_len: usize,
            m: *mut i16,
            m_len: usize,
        ) -> u32;
        pub fn holdamek_compare(
            t: *const i16,
            t_len: usize,
            m: *mut i16,
            m_len: usize,
            kind: u32,
            payload: *const u8,
            payload_len: usize,
            far: *const i16,
            far_len: usize,
            computed: *mut i16,
            computed_len: usize,
            what: *mut u32,
            number: *mut u32,
            rest: *mut i32,
        ) -> u32;
    }
}

pub fn table_check(t: &[i16]) -> u32 {
    // SAFETY: see the head of this file.
    unsafe { c::holdamek_table_check(t.as_ptr(), t.len()) }
}

pub fn fresh_state(t: &[i16], b: &mut [i16]) -> u32 {
    // SAFETY: see the head of this file.
    unsafe { c::holdamek_fresh_state(t.as_ptr(), t.len(), b.as_mut_ptr(), b.len()) }
}

pub fn frame(
    t: &[i16],
    b: &mut [i16],
    kind: u32,
    payload: &[u8],
    out: &mut [i16],
    delays: &mut [i16; 4],
    rules: &mut [u32; 2],
) -> u32 {
    // SAFETY: see the head of this file.
    unsafe {
        c::holdamek_frame(
            t.as_ptr(),
            t.len(),
            b.as_mut_ptr(),
            b.len(),
            kind,
            payload.as_ptr(),
            payload.len(),
            out.as_mut_ptr(),
            out.len(),
            delays,
            rules,
        )
    }
}

pub fn delays(
    carried: &mut i16,
    kind: u32,
    payload: &[u8],
    delays: &mut [i16; 4],
    rules: &mut [u32; 2],
) -> u32 {
    // SAFETY: see the head of this file.
    unsafe {
        c::holdamek_delays(
            carried,
            kind,
            payload.as_ptr(),
            payload.len(),
            delays,
            rules,
        )
    }
}

pub fn fields(bytes: &[u8], to: &mut [u16]) -> u32 {
    // SAFETY: see the head of this file.
    unsafe { c::holdamek_fields(bytes.as_ptr(), bytes.len(), to.as_mut_ptr(), to.len()) }
}

pub fn write_fields(fields: &[u16], to: &mut [u8]) -> u32 {
    // SAFETY: see the head of this file.
    unsafe { c::holdamek_write_fields(fields.as_ptr(), fields.len(), to.as_mut_ptr(), to.len()) }
}

pub fn write_fields_parity(fields: &[u16], to: &mut [u8]) -> u32 {
    // SAFETY: see the head of this file.
    unsafe {
        c::holdamek_write_fields_parity(fields.as_ptr(), fields.len(), to.as_mut_ptr(), to.len())
    }
}

pub fn line(text: &[u8], kind: &mut u32, payload: &mut [u8]) -> u32 {
    // SAFETY: see the head of this file.
    unsafe {
        c::holdamek_line(
            text.as_ptr(),
            text.len(),
            kind,
            payload.as_mut_ptr(),
            payload.len(),
        )
    }
}

pub fn write_line(kind: u32, payload: &[u8], out: &mut [u8], length: &mut usize) -> u32 {
    // SAFETY: see the head of this file.
    unsafe {
        c::holdamek_write_line(
            kind,
            payload.as_ptr(),
            payload.len(),
            out.as_mut_ptr(),
            out.len(),
            length,
        )
    }
}

pub fn payload_frames(payload: &[u8]) -> FrameCount {
    // SAFETY: see the head of this file.
    unsafe { c::holdamek_payload_frames(payload.as_ptr(), payload.len()) }
}

pub fn payload_frame(payload: &[u8], index: usize) -> FramePart {
    // SAFETY: see the head of this file.
    unsafe { c::holdamek_payload_frame(payload.as_ptr(), payload.len(), index) }
}

pub fn g711_read(law: u32, bytes: &[u8], samples: &mut [i16]) -> u32 {
    // SAFETY: see the head of this file.
    unsafe {
        c::holdamek_g711_read(
            law,
            bytes.as_ptr(),
            bytes.len(),
            samples.as_mut_ptr(),
            samples.len(),
        )
    }
}

pub fn g711_write(law: u32, samples: &[i16], bytes: &mut [u8]) -> u32 {
    // SAFETY: see the head of this file.
    unsafe {
        c::holdamek_g711_write(
            law,
            samples.as_ptr(),
            samples.len(),
            bytes.as_mut_ptr(),
            bytes.len(),
        )
    }
}

pub fn mix(legs: &[i16], heard: &mut [i16]) -> u32 {
    // SAFETY: see the head of this file.
    unsafe { c::holdamek_mix(legs.as_ptr(), legs.len(), heard.as_mut_ptr(), heard.len()) }
}

pub fn playout(
    frames: u32,
    start: u32,
    depth: u32,
    numbers: &[u32],
    times: &[u32],
    kinds: &mut [u32],
    lost: &mut u32,
) -> u32 {
    // SAFETY: see the head of this file.
    unsafe {
        c::holdamek_playout(
            frames,
            start,
            depth,
            numbers.as_ptr(),
            numbers.len(),
            times.as_ptr(),
            times.len(),
            kinds.as_mut_ptr(),
            kinds.len(),
            lost,
        )
    }
}

pub fn count(kind: u32, first: u32, second: u32, counts: &mut [u32; 7]) -> u32 {
    // SAFETY: see the head of this file.
    unsafe { c::holdamek_count(kind, first, second, counts) }
}

pub fn agree(a: &[i16], b: &[i16], agreement: &mut u32) -> u32 {
    // SAFETY: see the head of this file.
    unsafe { c::holdamek_agree(a.as_ptr(), a.len(), b.as_ptr(), b.len(), agreement) }
}

pub fn begin_compare(t: &[i16], m: &mut [i16]) -> u32 {
    // SAFETY: see the head of this file.
    unsafe { c::holdamek_begin_compare(t.as_ptr(), t.len(), m.as_mut_ptr(), m.len()) }
}

/// The last is what the frame is, its number and the rest.
pub fn compare(
    t: &[i16],
    m: &mut [i16],
    kind: u32,
    payload: &[u8],
    far: &[i16],
    computed: &mut [i16],
    answer: (&mut u32, &mut u32, &mut i32),
) -> u32 {
    // SAFETY: see the head of this file.
    unsafe {
        c::holdamek_compare(
            t.as_ptr(),
            t.len(),
            m.as_mut_ptr(),
            m.len(),
            kind,
            payload.as_ptr(),
            payload.len(),
            far.as_ptr(),
            far.len(),
            computed.as_mut_ptr(),
            computed.len(),
            answer.0,
            answer.1,
            answer.2,
        )
    }
}
