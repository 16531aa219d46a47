//! Rewrites instructions of a WebAssembly module so that it behaves as before, or changes them so that the module stays valid and computes
//! something else. This is safe Rust over the static library of Teddertempo, whose header, `teddertempo.h`, states what is proved of the
//! calls.
//!
//! [`rewrite`] and [`change`] edit a module in a vector, [`rewrite_slice`] and [`change_slice`] in place, as a fuzzer's mutator does.
//! [`change_at`] changes the operators that a [`Place`] names, and [`sites`] lists the places. [`either_slice`] rewrites or changes in
//! place, [`splice_slice`] copies code of another module, and [`strip`] drops debugging sections. Each call returns an [`Error`] if nothing
//! is done, and the module is then unchanged.
//!
//! ```
//! use teddertempo::{rewrite, Error, Options};
//! let mut module = b"\0asm\x01\0\0\0".to_vec();
//! assert_eq!(rewrite(&mut module, 4096, &Options::new().seed(7)), Err(Error::NothingApplies));
//! ```
//!
//! With cargo-fuzz, for coverage:
//!
//! ```ignore
//! libfuzzer_sys::fuzz_mutator!(|data: &mut [u8], size: usize, max_size: usize, seed: u32| {
//!     let options = teddertempo::ChangeOptions::new().seed(seed.into());
//!     match teddertempo::change_slice(&mut data[..max_size], size, &options) {
//!         Ok((new_size, _)) => new_size,
//!         Err(_) => libfuzzer_sys::fuzzer_mutate(data, size, max_size),
//!     }
//! });
//! ```

mod error;
mod kinds;
mod options;
mod raw;

pub use error::Error;
pub use kinds::{Change, NoSuchRule, Rule};
pub use options::{ChangeOptions, Options, Place};

/// The edits that a call has made: rewrites by rules, or changes.
#[derive(Clone, Copy, Debug, PartialEq, Eq)]
pub struct Edits<Kind> {
    /// How many edits were made.
    pub made: u64,
    /// The rule or the change of the last edit.
    pub kind: Kind,
    /// The function of the last edit, imported ones counted first.
    pub function: u64,
}

/// A place at which [`change_at`] can make a change.
#[derive(Clone, Copy, Debug, PartialEq, Eq)]
pub struct Site {
    /// The function, imported ones counted first.
    pub function: u64,
    /// The operator of its body, counted from 0.
    pub operator: u64,
    /// The change.
    pub change: Change,
}

impl Site {
    /// The operator alone.
    #[must_use]
    pub fn place(self) -> Place {
        Place::new(self.change, self.function).operators(self.operator..=self.operator)
    }
}

/// The result of a call of the library, by its report.
fn edited<Kind>(
    kind: fn(u32) -> Kind,
    call: impl FnOnce(&mut raw::Report) -> usize,
) -> Result<(usize, Edits<Kind>), Error> {
    let mut report = raw::Report::default();
    let new_size = call(&mut report);
    match Error::of_report(&report) {
        Some(error) => Err(error),
        None => Ok((
            new_size,
            Edits {
                made: report.made,
                kind: kind(report.kind),
                function: report.function,
            },
        )),
    }
}

/// Makes room for a module of at most `max` bytes, passes it and its size to a call that edits it in place, and leaves the new module.
fn in_vec<Kind>(
    module: &mut Vec<u8>,
    max: usize,
    call: impl FnOnce(&mut [u8], usize) -> Result<(usize, Edits<Kind>), Error>,
) -> Result<Edits<Kind>, Error> {
    let size = module.len();
    let extra = max.checked_sub(size).ok_or(Error::BadOptions)?;
    module
        .try_reserve_exact(extra)
        .map_err(|_| Error::NoMemory)?;
    module.resize(max, 0);
    let result = call(module, size);
    module.truncate(result.as_ref().map_or(size, |(new_size, _)| *new_size));
    result.map(|(_, edits)| edits)
}

/// The size that a call returns without a report.
fn sized(new_size: usize) -> Result<usize, Error> {
    if new_size == 0 {
        Err(Error::NothingDone)
    } else {
        Ok(new_size)
    }
}

/// Rewrites the module in `data[..size]` in place, to one of at most `data.len()` bytes, and returns the new size and the rewrites. Bytes
/// after the new module stay unchanged.
///
/// # Errors
///
/// As the library reports it; then all bytes are unchanged.
pub fn rewrite_slice(
    data: &mut [u8],
    size: usize,
    options: &Options,
) -> Result<(usize, Edits<Rule>), Error> {
    let options = options.raw()?;
    edited(Rule, |report| {
        // SAFETY: the declaration is the header's. The pointers are those of a slice, whose length is passed and which isn't null even if
        // that is 0, and of two values apart from it; nothing else reads or writes them during the call. The library checks that `size` is
        // at most the length.
        unsafe {
            raw::teddertempo_rewrite_with(data.as_mut_ptr(), size, data.len(), &options, report)
        }
    })
}

/// Rewrites a module to one of at most `max` bytes; so many are allocated meanwhile.
///
/// # Errors
///
/// As the library reports it; then the module is unchanged.
pub fn rewrite(module: &mut Vec<u8>, max: usize, options: &Options) -> Result<Edits<Rule>, Error> {
    in_vec(module, max, |data, size| rewrite_slice(data, size, options))
}

/// Changes the module in `data[..size]` in place, so that it stays valid and computes something else, to one of at most `data.len()`
/// bytes, and returns the new size and the changes. Bytes after the new module stay unchanged.
///
/// # Errors
///
/// As the library reports it; then all bytes are unchanged.
pub fn change_slice(
    data: &mut [u8],
    size: usize,
    options: &ChangeOptions,
) -> Result<(usize, Edits<Change>), Error> {
    edited(Change, |report| {
        // SAFETY: as in `rewrite_slice`.
        unsafe {
            raw::teddertempo_change_with(data.as_mut_ptr(), size, data.len(), options.raw(), report)
        }
    })
}

/// Changes a module to one of at most `max` bytes; so many are allocated meanwhile.
///
/// # Errors
///
/// As the library reports it; then the module is unchanged.
pub fn change(
    module: &mut Vec<u8>,
    max: usize,
    options: &ChangeOptions,
) -> Result<Edits<Change>, Error> {
    in_vec(module, max, |data, size| change_slice(data, size, options))
}

/// Makes a change at the operators that the place names, from the last one to the first one and without a seed, to a module of at most
/// `max` bytes; so many are allocated meanwhile.
///
/// # Errors
///
/// As the library reports it; then the module is unchanged.
pub fn change_at(module: &mut Vec<u8>, max: usize, place: &Place) -> Result<Edits<Change>, Error> {
    in_vec(module, max, |data, size| {
        edited(Change, |report| {
            // SAFETY: as in `rewrite_slice`.
            unsafe {
                raw::teddertempo_change_at(data.as_mut_ptr(), size, data.len(), place.raw(), report)
            }
        })
    })
}

/// Lists the places at which [`change_at`] can make a change, for the changes and in the function that the options name.
///
/// # Errors
///
/// As the library reports it.
pub fn sites(module: &[u8], options: &ChangeOptions) -> Result<Vec<Site>, Error> {
    let list = |rows: &mut [raw::Site]| {
        let mut report = raw::Report::default();
        // SAFETY: the declaration is the header's. The pointers are those of two slices, whose lengths are passed and which aren't null
        // even if these are 0, and of two values; they lie apart, and nothing else reads or writes them during the call.
        let count = unsafe {
            raw::teddertempo_sites(
                module.as_ptr(),
                module.len(),
                options.raw(),
                rows.as_mut_ptr(),
                rows.len(),
                &mut report,
            )
        };
        Error::of_report(&report).map_or(Ok(count), Err)
    };
    let mut rows = vec![raw::Site::default(); list(&mut [])?];
    list(&mut rows)?;
    let sites = rows.iter().map(|row| Site {
        function: row.function,
        operator: row.operator_index,
        change: Change(u32::try_from(row.change).unwrap_or(u32::MAX)),
    });
    Ok(sites.collect())
}

/// Rewrites the module in `data[..size]` once, in place, or changes it: of a hundred seeds some `keep` rewrite it, and the others change it.
/// Returns the new size.
///
/// # Errors
///
/// [`Error::NothingDone`]; then all bytes are unchanged.
pub fn either_slice(data: &mut [u8], size: usize, seed: u64, keep: u32) -> Result<usize, Error> {
    // SAFETY: as in `rewrite_slice`.
    sized(unsafe { raw::teddertempo_either(data.as_mut_ptr(), size, data.len(), seed, keep) })
}

/// Copies code of the other module into the module in `data[..size]`, in place, so that it stays valid: an operator with its operands
/// replaces such code that produces a value of the same type. Returns the new size.
///
/// # Errors
///
/// [`Error::NothingDone`]; then all bytes are unchanged.
pub fn splice_slice(data: &mut [u8], size: usize, other: &[u8], seed: u64) -> Result<usize, Error> {
    // SAFETY: as in `rewrite_slice`; the other pointer is that of a slice too, whose length is passed, and which lies apart.
    sized(unsafe {
        raw::teddertempo_splice(
            data.as_mut_ptr(),
            size,
            data.len(),
            other.as_ptr(),
            other.len(),
            seed,
        )
    })
}

/// Drops the custom sections of a module that name places in its code, as `.debug_info`.
///
/// # Errors
///
/// [`Error::NothingDone`] if the bytes aren't a preamble and whole sections in order; then they are unchanged.
///
/// ```
/// let mut module = b"\0asm\x01\0\0\0".to_vec();
/// assert_eq!(teddertempo::strip(&mut module), Ok(()));
/// ```
pub fn strip(module: &mut Vec<u8>) -> Result<(), Error> {
    // SAFETY: the declaration is the header's. The pointer is that of a vector's bytes, whose number is passed, and which isn't null even
    // if that is 0; nothing else reads or writes them during the call.
    let new_size = unsafe { raw::teddertempo_strip(module.as_mut_ptr(), module.len()) };
    module.truncate(sized(new_size)?);
    Ok(())
}

/// The library's version as a number, 0x000400 for 0.4.0.
#[must_use]
pub fn version() -> u32 {
    // SAFETY: the declaration is the header's.
    unsafe { raw::teddertempo_version() }
}
