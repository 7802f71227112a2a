//! The proved engine's entries, as host/kp_bench.h declares them. Nothing
//! checks these lines against the engine's own, so they stand once.

#[link(name = "host", kind = "static")]
extern "C" {
    pub fn kp_step(
        record: *mut u16,
        record_len: usize,
        n: usize,
        answers: u16,
        code: u16,
        a1: u16,
        a2: u16,
        a3: u16,
        a4: u16,
        a5: u16,
        a6: u16,
        place: *mut u16,
    ) -> u8;
    pub fn kp_run(
        record: *mut u16,
        record_len: usize,
        answers: u16,
        steps: *const u16,
        steps_len: usize,
        verdicts: *mut u8,
        verdicts_len: usize,
        n: *mut u16,
    ) -> u8;
    pub fn kp_report(record: *const u16, record_len: usize, n: usize, place: usize) -> u8;
    pub fn kp_read(
        text: *const u8,
        text_len: usize,
        steps: *mut u16,
        steps_len: usize,
        answers: *mut u16,
        count: *mut u16,
        line: *mut u16,
    ) -> u8;
}
