//! Exported functions that are lent the eight tables, as Rust functions.

/// Rust functions by the names of exported ones that are lent the eight tables alike, each as `ptr` or `mut`.
/// A table crosses as a pointer and a length. Without the library there is no handle, and so no call.
macro_rules! exported {
    (@pointer mut) => { *mut u32 };
    (@pointer ptr) => { *const u32 };
    (@lend mut $table:expr) => { $table.as_mut_ptr() };
    (@lend ptr $table:expr) => { $table.as_ptr() };
    (@one $library:ident $name:ident $lender:ty, [$($table:ident $lent:ident),*] ($($more:ident: $type:ty),*) -> $answer:ty) => {
        #[inline(always)]
        #[allow(unused_mut, unused_variables)]
        pub unsafe fn $name(t: $lender $(, $more: $type)*) -> $answer {
            #[cfg($library)]
            {
                // Within this block the name is the exported function's.
                extern "C" {
                    fn $name($($table: $crate::exported::exported!(@pointer $lent), _: usize,)* $($more: $type),*) -> $answer;
                }
                let [$(mut $table),*] = t;
                $name($($crate::exported::exported!(@lend $lent $table), $table.len(),)* $($more),*)
            }
            #[cfg(not($library))]
            unreachable!("no handle without the library")
        }
    };
    ($library:ident $($name:ident),+: $lender:ty, $tables:tt $more:tt -> $answer:ty) => {
        $($crate::exported::exported!(@one $library $name $lender, $tables $more -> $answer);)+
    };
}

pub(crate) use exported;
