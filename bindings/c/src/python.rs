//! Queries with arguments and answers that are objects of CPython, which take a fraction of the time of a call by
//! ctypes. The Python package looks for these exports by name, and passes the calls of CPython that they use, so that
//! the library is linked without Python.

use crate::exports::vers_ask;
use crate::programs::vers_c::handle::VersHandle;
use std::sync::atomic::{
    AtomicPtr,
    Ordering::{Acquire, Release},
};
use std::{ptr, slice};

/// An object of CPython, by its address.
type Object = *mut ();

/// The calls of CPython that a query uses.
#[repr(C)]
#[derive(Clone, Copy)]
pub struct Calls {
    /// `PyLong_AsUnsignedLongLong`
    as_number: unsafe extern "C" fn(Object) -> u64,
    /// `PyLong_FromUnsignedLongLong`
    of_number: unsafe extern "C" fn(u64) -> Object,
    /// `PyLong_FromLongLong`
    of_signed: unsafe extern "C" fn(i64) -> Object,
    /// `PyErr_Occurred`
    error: unsafe extern "C" fn() -> Object,
}

static CALLS: AtomicPtr<Calls> = AtomicPtr::new(ptr::null_mut());

/// Stores the address of CPython's calls.
///
/// # Safety
/// They are those that `Calls` names, and stay there.
#[no_mangle]
pub unsafe extern "C" fn vers_python_begin(calls: *mut Calls) {
    CALLS.store(calls, Release);
}

/// Returns the number that `vers_ask` finds, or its status below 0. The arguments are the address of a handle, the code
/// of a query, and up to three numbers. Sets an exception, and returns null, if one of them is no whole number of 64
/// bits. A function of the kind `METH_FASTCALL`.
///
/// # Safety
/// `vers_python_begin` was called, there are at least two arguments, the handle is one as vers.h requires, and the
/// caller holds Python's lock.
#[no_mangle]
pub unsafe extern "C" fn vers_python_ask(_: Object, arguments: *const Object, count: isize) -> Object {
    // SAFETY: the calls were stored, and there are `count` arguments, as required above.
    let (calls, arguments) = unsafe { (*CALLS.load(Acquire), slice::from_raw_parts(arguments, count as usize)) };
    let mut numbers = [0; 5];
    for (number, argument) in numbers.iter_mut().zip(arguments) {
        // SAFETY: the arguments are objects.
        unsafe {
            *number = (calls.as_number)(*argument);
            if *number == u64::MAX && !(calls.error)().is_null() {
                return ptr::null_mut();
            }
        }
    }
    let [at, code, a, b, c] = numbers;
    // SAFETY: the address is that of a handle, and the caller holds the lock that a new object needs.
    unsafe {
        let answer = vers_ask(&mut *(at as *mut VersHandle), code as u32, a, b, c);
        if answer.status == 0 {
            (calls.of_number)(answer.value)
        } else {
            (calls.of_signed)(-i64::from(answer.status))
        }
    }
}
