//! How a call of Rust is exported to C: a pointer and a length for each slice.
use core::slice;

/// The bytes of an input, or the items of a list.
///
/// # Safety
/// The caller has the duties of the header.
pub unsafe fn input<'a, T>(at: *const T, len: usize) -> &'a [T] {
    // Safety: the caller's duty. Nothing needs no pointer.
    if len == 0 { &[] } else { unsafe { slice::from_raw_parts(at, len) } }
}

/// The bytes of an output, or the verdicts.
///
/// # Safety
/// The caller has the duties of the header.
pub unsafe fn output<'a, T>(at: *mut T, len: usize) -> &'a mut [T] {
    // Safety: the caller's duty. Nothing needs no pointer.
    if len == 0 { &mut [] } else { unsafe { slice::from_raw_parts_mut(at, len) } }
}

/// Exports calls of a module of `slh`: `slh_c` or `slh_c_verify`. An argument is a `number`; a `place`, a pointer
/// to a number of this type; or an `input` or `output`, a pointer and a length. The parameters named `len` do not
/// collide, since each step of the macro makes a new name.
macro_rules! calls {
    (@next [$($call:ident)*] [$($parameter:tt)*] [$($given:expr,)*] $it:ident: number, $($rest:tt)*) => {
        calls! { @next [$($call)*] [$($parameter)* $it: u32,] [$($given,)* $it,] $($rest)* }
    };
    (@next [$($call:ident)*] [$($parameter:tt)*] [$($given:expr,)*] $it:ident: place $type:ty, $($rest:tt)*) => {
        calls! { @next [$($call)*] [$($parameter)* $it: *mut $type,] [$($given,)* unsafe { &mut *$it },] $($rest)* }
    };
    (@next [$($call:ident)*] [$($parameter:tt)*] [$($given:expr,)*] $it:ident: input, $($rest:tt)*) => {
        calls! { @next [$($call)*] [$($parameter)* $it: *const u8, len: usize,]
            [$($given,)* unsafe { input($it, len) },] $($rest)* }
    };
    (@next [$($call:ident)*] [$($parameter:tt)*] [$($given:expr,)*] $it:ident: output, $($rest:tt)*) => {
        calls! { @next [$($call)*] [$($parameter)* $it: *mut u8, len: usize,]
            [$($given,)* unsafe { output($it, len) },] $($rest)* }
    };
    (@next [$of:ident $module:ident $name:ident] [$($parameter:tt)*] [$($given:expr,)*]) => {
        #[unsafe(no_mangle)]
        pub unsafe extern "C" fn $name($($parameter)*) -> u32 {
            $of::$module::$name($($given,)*)
        }
    };
    ($of:ident: $($module:ident::$name:ident($($arguments:tt)*);)*) => {
        $(calls! { @next [$of $module $name] [] [] $($arguments)* })*
    };
}
