//! The C functions of `include/level.h`.

use crate::faults::Faulty;
use reference::*;
use std::slice::{from_raw_parts, from_raw_parts_mut};

/// Where a slice begins that a caller lends. It is lent until the call ends; nothing here keeps it longer.
trait Start {
    type Slice;

    unsafe fn lent(self, count: usize) -> Self::Slice;
}

impl<T: 'static> Start for *const T {
    type Slice = &'static [T];

    unsafe fn lent(self, count: usize) -> &'static [T] {
        if count == 0 {
            &[]
        } else {
            from_raw_parts(self, count)
        }
    }
}

impl<T: 'static> Start for *mut T {
    type Slice = &'static mut [T];

    /// One fault writes a place past the slice's end.
    unsafe fn lent(self, count: usize) -> &'static mut [T] {
        if Faulty::named("writes-past-the-end") {
            self.add(count).write_bytes(0, 1);
        }
        if count == 0 {
            &mut []
        } else {
            from_raw_parts_mut(self, count)
        }
    }
}

/// Defines the functions: the reference answers, well or with its fault.
macro_rules! define {
    ($(
        $name:ident($($argument:ident: $kind:ty),*) -> $answer:ident = $call:ident($($lent:expr),*);
    )*) => {
        $(
            /// # Safety
            /// Pointers and counts are those of slices that do not overlap.
            #[no_mangle]
            pub unsafe extern "C" fn $name($($argument: $kind),*) -> $answer {
                Faulty::new().$call($($lent),*)
            }
        )*
    };
}

header!(define);
