//! The routines over lent memory: the text, the cell buffer, the work buffer, the result buffer, and what is handed
//! over in. `include/rumbethola.h` says in words what each returns and leaves in the buffers. Each needs
//! [`STACK`](crate::STACK) bytes of stack.

/// The least length of the cell buffer.
pub const CELLS: usize = 4096;
/// The least length of the work buffer.
pub const WORK: usize = 16384;
/// The least length of the result buffer.
pub const RESULT: usize = 2048;
/// The least length of the answer of [`report`].
pub const ANSWER: usize = 287;
/// The least length of the answer of [`direct`].
pub const DIRECT_ANSWER: usize = 2;
/// The least length of the output of the prints.
pub const OUT: usize = 32768;

/// The status where `answer` is shorter than it must be; no buffer is changed.
pub const NO_ROOM: u8 = 255;
/// What a print returns where `out` is shorter than [`OUT`]; no buffer is changed.
pub const NO_PRINT: u32 = u32::MAX;

// The places of an answer of `report`. That of `direct` has the first two.

/// The count of rows.
pub const AT_ROWS: usize = 0;
/// The count of tables: how many numbers a row of the result has.
pub const AT_TABLES: usize = 1;
/// The count of steps of the plan.
pub const AT_COUNT: usize = 2;
/// The number that the call returns.
pub const AT_STATUS: usize = 3;
/// Where the sets begin, table by table: bit k is condition k.
pub const AT_SETS: usize = 4;
/// Where the steps begin.
pub const AT_STEPS: usize = 12;
/// The count of conditions, written and derived.
pub const AT_CONDITIONS: usize = 92;
/// Where the counts of the conditions begin, by rising number.
pub const AT_TALLIES: usize = 93;
/// 1 where the last J line is a full outer join, kind F; otherwise 0.
pub const AT_FULL_OUTER: usize = 285;
/// The count of rows that a full outer join adds behind the plan; otherwise 0.
pub const AT_ADDED: usize = 286;

// The places of a step.

/// How many numbers a step has.
pub const STEP_NUMBERS: usize = 5;
/// The number of its [`Kind`](crate::Kind).
pub const STEP_KIND: usize = 0;
/// A node, of an outer join the preserved side; of a blanking step its table.
pub const STEP_FIRST: usize = 1;
/// A node.
pub const STEP_SECOND: usize = 2;
/// The count of rows of a pair's result.
pub const STEP_ROWS: usize = 3;
/// Bit k is condition k.
pub const STEP_CONDITIONS: usize = 4;

// The places of a condition's counts.

/// How many numbers a condition has.
pub const TALLY_NUMBERS: usize = 3;
/// How often it is true.
pub const TALLY_TRUE: usize = 0;
/// How often it is false.
pub const TALLY_FALSE: usize = 1;
/// How often it is unknown.
pub const TALLY_UNKNOWN: usize = 2;

/// A routine of the library: the text and four buffers, each as a pointer and a count.
macro_rules! routine {
    ($(#[$about:meta])* $name:ident, $routine:ident, $last:ident: $number:ty, $returned:ty) => {
        $(#[$about])*
        pub fn $name(
            text: &[u8],
            cells: &mut [i32],
            work: &mut [u16],
            result: &mut [u16],
            $last: &mut [$number],
        ) -> $returned {
            unsafe extern "C" {
                fn $routine(
                    text: *const u8,
                    text_count: usize,
                    cells: *mut i32,
                    cell_count: usize,
                    work: *mut u16,
                    work_count: usize,
                    result: *mut u16,
                    result_count: usize,
                    last: *mut $number,
                    last_count: usize,
                ) -> $returned;
            }
            // SAFETY: each pointer and count are those of a slice, and a slice that is borrowed mutably overlaps no
            // other. The routine keeps none of the pointers. Too small a stack is noticed: the routine's functions
            // touch each page of their frames in turn, and so the page behind the stack.
            unsafe {
                $routine(
                    text.as_ptr(),
                    text.len(),
                    cells.as_mut_ptr(),
                    cells.len(),
                    work.as_mut_ptr(),
                    work.len(),
                    result.as_mut_ptr(),
                    result.len(),
                    $last.as_mut_ptr(),
                    $last.len(),
                )
            }
        }
    };
}

routine! {
    /// The report: 0 for an answer, the number of a refusal, or [`NO_ROOM`]. `answer` begins with the counts of rows,
    /// tables and steps and the status; then eight sets and sixteen steps; then the count of conditions and three
    /// counts for each of 64 conditions; then whether the last J line is a full outer join, and the count of rows that
    /// it adds. After a refusal, by question 1 too, these are 0, but for the status.
    report, rumbethola_report, answer: u64, u8
}

routine! {
    /// The direct reading: 0 for an answer, the number of a refusal, or [`NO_ROOM`]. `answer` begins with the counts
    /// of rows and tables; after a refusal, by question 1 too, both are 0.
    direct, rumbethola_direct, answer: u64, u8
}

routine! {
    /// The whole print of the report at the front of `out`, or the E line of a refusal, by question 1 too: the number
    /// of its bytes, or [`NO_PRINT`].
    print_report, rumbethola_print_report, out: u8, u32
}

routine! {
    /// The print of the direct reading at the front of `out`, or the E line of a refusal, by question 1 too: the
    /// number of its bytes, or [`NO_PRINT`].
    print_direct, rumbethola_print_direct, out: u8, u32
}
