//! Keeps each error as the bytes of its value (`TheresError` is Copy), with its span and what the observer of `unify`
//! noted last. The report turns it back to a value.
use crate::errors::TheresError;
use crate::span::Span;
use std::borrow::Cow;
#[cfg(feature = "observe")]
use std::cell::Cell;
use std::cell::RefCell;

pub struct Record {
    pub type_name: &'static str,
    pub value: Value,
    pub span: Span,
    /// Of the call of `unify` entered last, whether or not it raised this error.
    #[cfg(feature = "observe")]
    pub note: Note,
}

/// Room for the bytes of an error.
pub type Value = [u64; 4];

/// What the observer of `unify` notes at each entry: the cause, should the call fail, and whether it fails by itself.
#[cfg(feature = "observe")]
#[derive(Clone, Copy)]
pub struct Note {
    pub cause: u8,
    pub fails: bool,
}

thread_local! {
    pub static RECORDS: RefCell<Vec<Record>> = const { RefCell::new(Vec::new()) };
}

#[cfg(feature = "observe")]
thread_local! {
    pub static NOTE: Cell<Note> = const { Cell::new(Note { cause: 0, fails: false }) };
}

/// In the place of the error's message.
pub fn record<E: TheresError>(err: &E, span: Span) -> Cow<'static, str> {
    const { assert!(size_of::<E>() <= size_of::<Value>()) };
    let mut value: Value = [0; 4];
    // A Copy value may be read as its bytes; padding is never looked at.
    unsafe {
        std::ptr::copy_nonoverlapping((err as *const E).cast::<u8>(), value.as_mut_ptr().cast(), size_of::<E>());
    }
    let type_name = std::any::type_name::<E>();
    let record = Record {
        type_name,
        value,
        span,
        #[cfg(feature = "observe")]
        note: NOTE.get(),
    };
    RECORDS.with_borrow_mut(|all| all.push(record));
    Cow::Borrowed("")
}
