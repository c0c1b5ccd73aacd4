//! The C interface as it stands in `include/nesskettle.h`.

/// The answer of [`nk_read`].
#[repr(C)]
#[derive(Clone, Copy, Debug, PartialEq, Eq)]
pub struct ReadAnswer {
    pub outcome: u32,
    pub reason: u32,
    pub line: u64,
    pub column: u64,
    pub funs: u64,
    pub preds: u64,
    pub clauses: u64,
}

/// The answer of [`nk_judge`].
#[repr(C)]
#[derive(Clone, Copy, Debug, PartialEq, Eq)]
pub struct JudgeAnswer {
    pub outcome: u32,
    pub reason: u32,
    pub line: u64,
    pub column: u64,
}

/// The answer of [`nk_explain`].
#[repr(C)]
#[derive(Clone, Copy, Debug, PartialEq, Eq)]
pub struct ExplainAnswer {
    pub outcome: u32,
    pub reason: u32,
    pub line: u64,
    pub column: u64,
    pub clause: u64,
    pub count: u64,
    pub letters: [u8; 8],
    pub values: [u8; 8],
}

/// The answer of [`nk_write`], [`nk_read_back`], [`nk_setting`], [`nk_from_tptp`], [`nk_from_solver`], [`nk_renumber`] and
/// [`nk_least_form`].
#[repr(C)]
#[derive(Clone, Copy, Debug, PartialEq, Eq)]
pub struct WriteAnswer {
    pub outcome: u32,
    pub reason: u32,
    pub line: u64,
    pub column: u64,
    pub length: u64,
}

/// The answer of [`nk_find`] and [`nk_find_plain`].
#[repr(C)]
#[derive(Clone, Copy, Debug, PartialEq, Eq)]
pub struct FindAnswer {
    pub outcome: u32,
    pub reason: u32,
    pub line: u64,
    pub column: u64,
    pub size: u64,
    pub length: u64,
    pub choices: u64,
    pub settled: u32,
}

/// The answer of [`nk_merge`].
#[repr(C)]
#[derive(Clone, Copy, Debug, PartialEq, Eq)]
pub struct MergeAnswer {
    pub outcome: u32,
    pub reason: u32,
    pub line: u64,
    pub column: u64,
    pub length: u64,
    pub sheet: u32,
}

extern "C" {
    pub fn nk_read(sheet: *const u8, sheet_length: usize) -> ReadAnswer;

    pub fn nk_judge(sheet: *const u8, sheet_length: usize, case: *const u8, case_length: usize) -> JudgeAnswer;

    pub fn nk_explain(sheet: *const u8, sheet_length: usize, case: *const u8, case_length: usize) -> ExplainAnswer;

    pub fn nk_write(
        sheet: *const u8,
        sheet_length: usize,
        size: u64,
        named: u32,
        symmetry: u32,
        output: *mut u8,
        output_length: usize,
    ) -> WriteAnswer;

    pub fn nk_read_back(
        sheet: *const u8,
        sheet_length: usize,
        size: u64,
        named: u32,
        setting: *const u8,
        setting_length: usize,
        output: *mut u8,
        output_length: usize,
    ) -> WriteAnswer;

    pub fn nk_setting(
        sheet: *const u8,
        sheet_length: usize,
        case: *const u8,
        case_length: usize,
        output: *mut u8,
        output_length: usize,
    ) -> WriteAnswer;

    pub fn nk_find(
        sheet: *const u8,
        sheet_length: usize,
        low: u64,
        high: u64,
        named: u32,
        symmetry: u32,
        allowance: u64,
        work: *mut u32,
        work_length: usize,
        output: *mut u8,
        output_length: usize,
    ) -> FindAnswer;

    pub fn nk_find_plain(
        sheet: *const u8,
        sheet_length: usize,
        low: u64,
        high: u64,
        output: *mut u8,
        output_length: usize,
    ) -> FindAnswer;

    pub fn nk_from_tptp(text: *const u8, text_length: usize, output: *mut u8, output_length: usize) -> WriteAnswer;

    pub fn nk_from_solver(
        sheet: *const u8,
        sheet_length: usize,
        size: u64,
        text: *const u8,
        text_length: usize,
        output: *mut u8,
        output_length: usize,
    ) -> WriteAnswer;

    pub fn nk_merge(
        first: *const u8,
        first_length: usize,
        second: *const u8,
        second_length: usize,
        output: *mut u8,
        output_length: usize,
    ) -> MergeAnswer;

    pub fn nk_renumber(
        sheet: *const u8,
        sheet_length: usize,
        case: *const u8,
        case_length: usize,
        list: *const u8,
        list_length: usize,
        output: *mut u8,
        output_length: usize,
    ) -> WriteAnswer;

    pub fn nk_least_form(
        sheet: *const u8,
        sheet_length: usize,
        case: *const u8,
        case_length: usize,
        output: *mut u8,
        output_length: usize,
    ) -> WriteAnswer;
}
