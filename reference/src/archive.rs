//! The calls of `liblevel.a`.

use crate::*;

macro_rules! declare {
    ($($name:ident($($argument:ident: $kind:ty),*) -> $answer:ident = $call:ident $lent:tt;)*) => {
        extern "C" {
            $(fn $name($($argument: $kind),*) -> $answer;)*
        }
    };
}

header!(declare);

/// The archive's calls on slices. Each lends whole slices that do not overlap, as the header asks.
pub struct Archive;

impl Level for Archive {
    fn read(&mut self, file: &[u8], held: &mut [i64], lines: &mut [i64]) -> ReadAnswer {
        let (f, h, l) = (file.as_ptr(), held.as_mut_ptr(), lines.as_mut_ptr());
        unsafe { level_read(f, file.len(), h, held.len(), l, lines.len()) }
    }

    fn write(&mut self, book: Lent, file: &mut [u8]) -> Written {
        let Lent { version, b, t, held, lines } = book;
        let (h, l, f) = (held.as_ptr(), lines.as_ptr(), file.as_mut_ptr());
        unsafe { level_write(version, b, t, h, held.len(), l, lines.len(), f, file.len()) }
    }

    fn survey(&mut self, book: Lent, rows: &mut [i64]) -> Answer {
        let Lent { version, b, t, held, lines } = book;
        let (h, l, r) = (held.as_ptr(), lines.as_ptr(), rows.as_mut_ptr());
        unsafe { level_survey(version, b, t, h, held.len(), l, lines.len(), r, rows.len()) }
    }

    fn listing(&mut self, book: Lent, number: i64, out: &mut [i64]) -> Listed {
        let Lent { version, b, t, held, lines } = book;
        let (h, l, o) = (held.as_ptr(), lines.as_ptr(), out.as_mut_ptr());
        unsafe { level_listing(version, b, t, h, held.len(), l, lines.len(), number, o, out.len()) }
    }

    fn listings(&mut self, book: Lent, out: &mut [i64]) -> Listed {
        let Lent { version, b, t, held, lines } = book;
        let (h, l, o) = (held.as_ptr(), lines.as_ptr(), out.as_mut_ptr());
        unsafe { level_listings(version, b, t, h, held.len(), l, lines.len(), o, out.len()) }
    }

    fn not_checked(&mut self, book: Lent, out: &mut [i64]) -> Listed {
        let Lent { version, b, t, held, lines } = book;
        let (h, l, o) = (held.as_ptr(), lines.as_ptr(), out.as_mut_ptr());
        unsafe { level_not_checked(version, b, t, h, held.len(), l, lines.len(), o, out.len()) }
    }

    fn sketch(
        &mut self,
        book: Lent,
        links: &mut [i64],
        spurs: &mut [i64],
        loops: &mut [i64],
        run: &mut [i64],
    ) -> Sketched {
        let Lent { version, b, t, held, lines } = book;
        let (h, l, hs, ls) = (held.as_ptr(), lines.as_ptr(), held.len(), lines.len());
        let (n, s, o, r) =
            (links.as_mut_ptr(), spurs.as_mut_ptr(), loops.as_mut_ptr(), run.as_mut_ptr());
        let (ns, ss, os, rs) = (links.len(), spurs.len(), loops.len(), run.len());
        unsafe { level_sketch(version, b, t, h, hs, l, ls, n, ns, s, ss, o, os, r, rs) }
    }

    fn rerun(&mut self, book: LentMut, report: &mut [i64], line: i64, difference: i64) -> Answer {
        let Lent { version, b, t, held, lines } = book;
        let (h, l, r) = (held.as_ptr(), lines.as_mut_ptr(), report.as_mut_ptr());
        let (hs, ls, rs) = (held.len(), lines.len(), report.len());
        unsafe { level_rerun(version, b, t, h, hs, l, ls, r, rs, line, difference) }
    }

    fn withdraw(&mut self, book: LentMut, report: &mut [i64], line: i64) -> Answer {
        let Lent { version, b, t, held, lines } = book;
        let (h, l, r) = (held.as_ptr(), lines.as_mut_ptr(), report.as_mut_ptr());
        unsafe {
            level_withdraw(version, b, t, h, held.len(), l, lines.len(), r, report.len(), line)
        }
    }

    fn adjust(&mut self, book: Lent, heights: &mut [i64]) -> Adjusted {
        let Lent { version, b, t, held, lines } = book;
        let (h, l, z) = (held.as_ptr(), lines.as_ptr(), heights.as_mut_ptr());
        unsafe { level_adjust(version, b, t, h, held.len(), l, lines.len(), z, heights.len()) }
    }

    fn rate(&mut self, book: Lent, heights: &[i64], line: i64) -> Rated {
        let Lent { version, b, t, held, lines } = book;
        let (h, l, z) = (held.as_ptr(), lines.as_ptr(), heights.as_ptr());
        unsafe { level_rate(version, b, t, h, held.len(), l, lines.len(), z, heights.len(), line) }
    }
}
