//! The library as `include/conuhawe.h` declares it.

/// `conuhawe_answer`.
#[repr(C)]
#[derive(Clone, Copy)]
pub(crate) struct Answer {
    pub(crate) number: usize,
    pub(crate) place: usize,
    pub(crate) index: usize,
    pub(crate) values: [usize; 3],
}

/// `conuhawe_session`: any bytes make one, and it has no padding.
#[repr(C)]
#[derive(Clone, Copy)]
pub(crate) struct Record {
    pub(crate) length: usize,
    pub(crate) last: [i64; 64],
    pub(crate) trial: [i64; 64],
    pub(crate) file: [u8; 1040],
    pub(crate) started: u8,
    pub(crate) held: u8,
    pub(crate) spare: [u8; 6],
}

/// `conuhawe_progress`.
#[repr(C)]
#[derive(Clone, Copy)]
pub(crate) struct Progress {
    pub(crate) line: usize,
}

/// `conuhawe_turned`.
#[repr(C)]
#[derive(Clone, Copy)]
pub(crate) struct Turned {
    pub(crate) answer: Answer,
    pub(crate) progress: Progress,
    pub(crate) checked: usize,
}

/// `conuhawe_looked_up`.
#[repr(C)]
#[derive(Clone, Copy)]
pub(crate) struct LookedUp {
    pub(crate) answer: Answer,
    pub(crate) value: i64,
}

extern "C" {
    pub(crate) fn conuhawe_read(node: *const u8, length: usize) -> Answer;
    pub(crate) fn conuhawe_check(
        node: *const u8,
        node_length: usize,
        certificate: *const u8,
        certificate_length: usize,
    ) -> Answer;
    pub(crate) fn conuhawe_turns_begin() -> Progress;
    pub(crate) fn conuhawe_turn(
        node: *const u8,
        node_length: usize,
        certificate: *const u8,
        certificate_length: usize,
        progress: Progress,
        quota: usize,
    ) -> Turned;
    pub(crate) fn conuhawe_begin(record: *mut Record, node: *const u8, length: usize) -> Answer;
    pub(crate) fn conuhawe_instant(
        record: *mut Record,
        inputs: *const i64,
        input_count: usize,
        values: *mut i64,
        value_count: usize,
    ) -> Answer;
    pub(crate) fn conuhawe_trial(
        record: *mut Record,
        inputs: *const i64,
        input_count: usize,
        values: *mut i64,
        value_count: usize,
    ) -> Answer;
    pub(crate) fn conuhawe_commit(record: *mut Record) -> Answer;
    pub(crate) fn conuhawe_look_up(
        node: *const u8,
        node_length: usize,
        instants: usize,
        inputs: *const i64,
        input_count: usize,
        stream: usize,
        instant: usize,
    ) -> LookedUp;
    pub(crate) fn conuhawe_ranges(
        node: *const u8,
        length: usize,
        table: *const i64,
        numbers: usize,
    ) -> Answer;
    pub(crate) fn conuhawe_node_note(node: *const u8, length: usize) -> usize;
    pub(crate) fn conuhawe_certificate_note(certificate: *const u8, length: usize) -> usize;
}
