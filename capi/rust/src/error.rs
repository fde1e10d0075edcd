// SPDX-License-Identifier: MIT
//! What a call refuses.
use crate::sys;
use core::fmt;

/// Why a call did nothing. Each method says which of these it answers, and when.
#[derive(Clone, Copy, Debug, PartialEq, Eq, Hash)]
#[non_exhaustive]
pub enum Error {
    /// There is no such queue or command. (`NVMEARB_NONE`)
    Missing,
    /// An argument isn't valid. (`NVMEARB_EARG`)
    Argument,
    /// Another region has this address. (`NVMEARB_EUSED`)
    Used,
    /// There are [`MAX_REGIONS`](crate::MAX_REGIONS) regions of this kind, or queues may lie anywhere. (`NVMEARB_EMANY`)
    TooMany,
    /// A region has 2 to 4096 slots. (`NVMEARB_ESIZE`)
    Size,
    /// Something outside of Rust's rules wrote into the state. (`NVMEARB_ESTATE`)
    State,
    /// The entry of another slot is to be fetched next. (`NVMEARB_ESLOT`)
    Slot,
}

impl fmt::Display for Error {
    fn fmt(&self, f: &mut fmt::Formatter<'_>) -> fmt::Result {
        f.write_str(match self {
            Error::Missing => "there is no such queue or command",
            Error::Argument => "an argument isn't valid",
            Error::Used => "another region has this address",
            Error::TooMany => "no region of this kind can be added",
            Error::Size => "a region has 2 to 4096 slots",
            Error::State => "something else wrote into the state",
            Error::Slot => "the entry of another slot is to be fetched next",
        })
    }
}

#[cfg(feature = "std")]
impl std::error::Error for Error {}

/// Why a doorbell write is invalid. A controller tells its host so by an asynchronous event of the type Error status.
#[derive(Clone, Copy, Debug, PartialEq, Eq, Hash)]
#[non_exhaustive]
pub enum DoorbellError {
    /// The doorbell is that of no open queue: Write to Invalid Doorbell Register.
    Register,
    /// The queue can't come to this value: Invalid Doorbell Write Value.
    Value,
}

impl fmt::Display for DoorbellError {
    fn fmt(&self, f: &mut fmt::Formatter<'_>) -> fmt::Result {
        f.write_str(match self {
            DoorbellError::Register => "write to invalid doorbell register",
            DoorbellError::Value => "invalid doorbell write value",
        })
    }
}

#[cfg(feature = "std")]
impl std::error::Error for DoorbellError {}

/// The answer of a call.
pub(crate) fn checked(code: u32) -> Result<(), Error> {
    Err(match code {
        sys::NVMEARB_OK => return Ok(()),
        sys::NVMEARB_NONE => Error::Missing,
        sys::NVMEARB_EARG => Error::Argument,
        sys::NVMEARB_EUSED => Error::Used,
        sys::NVMEARB_EMANY => Error::TooMany,
        sys::NVMEARB_ESIZE => Error::Size,
        sys::NVMEARB_ESTATE => Error::State,
        sys::NVMEARB_ESLOT => Error::Slot,
        _ => panic!("libnvmearb answered {code}, which can't be"),
    })
}

/// The answer to the write of a doorbell.
pub(crate) fn rung(code: u32) -> Result<(), DoorbellError> {
    match checked(code) {
        Ok(()) => Ok(()),
        Err(Error::Missing) => Err(DoorbellError::Register),
        Err(Error::Argument) => Err(DoorbellError::Value),
        Err(error) => panic!("libnvmearb refused a doorbell: {error}"),
    }
}

/// What a call has written.
pub(crate) fn written<T: Default>(call: impl FnOnce(&mut T) -> u32) -> Result<T, Error> {
    let mut place = T::default();
    checked(call(&mut place))?;
    Ok(place)
}

/// What a call has written, where there was something.
pub(crate) fn found<T: Default>(call: impl FnOnce(&mut T) -> u32) -> Result<Option<T>, Error> {
    match written(call) {
        Err(Error::Missing) => Ok(None),
        told => told.map(Some),
    }
}

/// The value of a call that refuses nothing which its types allow.
pub(crate) fn sure<T>(told: Result<T, Error>) -> T {
    told.unwrap_or_else(|error| panic!("libnvmearb refused a call that it can't refuse: {error}"))
}

/// How many items a call has written that takes an array for them, and their number. It is made again for each part of
/// the items, until it doesn't fill one.
pub(crate) fn filled<F: Copy + Default, T>(
    items: &mut [Option<T>],
    of: impl Fn(&F) -> T,
    mut call: impl FnMut(*mut F, usize, &mut usize) -> u32,
) -> usize {
    const PART: usize = 16;
    let mut done = 0;
    let mut fields = [F::default(); PART];
    for part in items.chunks_mut(PART) {
        let n = sure(found(|n| call(fields.as_mut_ptr(), part.len(), n))).unwrap_or_default();
        for (item, it) in part.iter_mut().zip(&fields[..n]) {
            *item = Some(of(it));
        }
        done += n;
        if n < part.len() {
            break;
        }
    }
    done
}
