//! The C functions of `include/level.h`, written once for all that name, declare or define them.

/// Gives the functions to a macro: of each the arguments, the answer and the call of `Level` that
/// it is. Where they are defined, `lent` makes a slice of its start and its count.
#[macro_export]
macro_rules! header {
    ($to:ident) => {
        $crate::header! { $to:
            level_read(
                file: *const u8, file_bytes: usize,
                held: *mut i64, held_count: usize, lines: *mut i64, lines_count: usize
            ) -> ReadAnswer
                = read(file.lent(file_bytes), held.lent(held_count), lines.lent(lines_count));

            level_write(const lines; file: *mut u8, file_bytes: usize) -> Written
                = write(file.lent(file_bytes));
            level_survey(const lines; rows: *mut i64, rows_count: usize) -> Answer
                = survey(rows.lent(rows_count));
            level_listing(const lines; number: i64, out: *mut i64, out_count: usize) -> Listed
                = listing(number, out.lent(out_count));
            level_listings(const lines; out: *mut i64, out_count: usize) -> Listed
                = listings(out.lent(out_count));
            level_not_checked(const lines; out: *mut i64, out_count: usize) -> Listed
                = not_checked(out.lent(out_count));
            level_sketch(
                const lines; links: *mut i64, links_count: usize, spurs: *mut i64, spurs_count: usize,
                loops: *mut i64, loops_count: usize, run: *mut i64, run_count: usize
            ) -> Sketched
                = sketch(
                    links.lent(links_count), spurs.lent(spurs_count),
                    loops.lent(loops_count), run.lent(run_count)
                );
            level_rerun(
                mut lines; report: *mut i64, report_count: usize, line: i64, difference: i64
            ) -> Answer
                = rerun(report.lent(report_count), line, difference);
            level_withdraw(mut lines; report: *mut i64, report_count: usize, line: i64) -> Answer
                = withdraw(report.lent(report_count), line);
            level_adjust(const lines; heights: *mut i64, heights_count: usize) -> Adjusted
                = adjust(heights.lent(heights_count));
            level_rate(const lines; heights: *const i64, heights_count: usize, line: i64) -> Rated
                = rate(heights.lent(heights_count), line);
        }
    };
    // All but the reader are lent a book first. Only whether its lines may change is not the same in all.
    (
        $to:ident: $reader:ident $file:tt -> $read:ident = $reads:ident $buffers:tt;
        $(
            $name:ident($access:tt lines; $($argument:ident: $kind:ty),*) -> $answer:ident
                = $call:ident($($lent:expr),*);
        )*
    ) => {
        $to! {
            $reader $file -> $read = $reads $buffers;
            $(
                $name(
                    version: i64, b: i64, t: i64,
                    held: *const i64, held_count: usize, lines: *$access i64, lines_count: usize,
                    $($argument: $kind),*
                ) -> $answer = $call(
                    Lent {
                        version, b, t, held: held.lent(held_count), lines: lines.lent(lines_count)
                    },
                    $($lent),*
                );
            )*
        }
    };
}
