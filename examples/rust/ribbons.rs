//! The proved library for programs in Rust: its calls with slices. Link the archive that `rt lib` writes in crates/ribbons_c.
//! What each call gives and refuses stands in `include/ribbons.h`.

// A program need not use all of it.
#![allow(dead_code)]

// Sizes that always suffice.
pub const MOST_FILE_BYTES: usize = 16384;
pub const MOST_CODES: usize = 128;
pub const MOST_BANDS: usize = 8192;
pub const MOST_NAME_BYTES: usize = 3072;
pub const MOST_SUPPLIED_BANDS: usize = 16384;
pub const MOST_SHEET_BYTES: usize = 17181;

// The numbers of refusals. 14 is retired: no call answers it, and it is not to be used again.
pub const LONG_FILE: u8 = 1;
pub const BROKEN_ROW: u8 = 2;
pub const WRONG_WIDTH: u8 = 3;
pub const WRONG_HEADING: u8 = 4;
pub const BAD_NAME: u8 = 5;
pub const NO_BANDS: u8 = 6;
pub const LONG_CODE: u8 = 7;
pub const UNKNOWN_COLOUR: u8 = 8;
pub const NAME_TAKEN: u8 = 9;
pub const LIST_FULL: u8 = 10;
pub const EMPTY_LIST: u8 = 11;
pub const FALSE_LIST: u8 = 12;
pub const SHORT_BUFFER: u8 = 13;
pub const LONG_RIBBON: u8 = 15;

/// What reading an order list gives.
#[repr(C)]
#[derive(Clone, Copy, Debug, PartialEq, Eq)]
pub struct Orders {
    pub refused: u8,
    pub row: u32,
    pub codes: u32,
    pub bands: u32,
    pub names: u32,
}

/// What laying out a list gives.
#[repr(C)]
#[derive(Clone, Copy, Debug, PartialEq, Eq)]
pub struct Laid {
    pub refused: u8,
    pub bands: u32,
    pub saved: u32,
}

/// What checking a supplied ribbon gives.
#[repr(C)]
#[derive(Clone, Copy, Debug, PartialEq, Eq)]
pub struct Checked {
    pub refused: u8,
    pub held: bool,
    pub missing: u32,
    pub difference: i32,
}

/// What writing a sheet gives.
#[repr(C)]
#[derive(Clone, Copy, Debug, PartialEq, Eq)]
pub struct Sheet {
    pub refused: u8,
    pub bytes: u32,
    pub saved: u32,
}

#[link(name = "ribbons_c", kind = "static")]
extern "C" {
    fn ribbons_read_orders(
        file: *const u8,
        file_count: usize,
        bands: *mut u8,
        bands_count: usize,
        lengths: *mut u16,
        lengths_count: usize,
        names: *mut u8,
        names_count: usize,
        sizes: *mut u16,
        sizes_count: usize,
    ) -> Orders;
    fn ribbons_lay_ribbon(
        bands: *const u8,
        bands_count: usize,
        lengths: *const u16,
        lengths_count: usize,
        ribbon: *mut u8,
        ribbon_count: usize,
    ) -> Laid;
    fn ribbons_check_ribbon(
        bands: *const u8,
        bands_count: usize,
        lengths: *const u16,
        lengths_count: usize,
        ribbon: *const u8,
        ribbon_count: usize,
    ) -> Checked;
    fn ribbons_write_sheet(
        bands: *const u8,
        bands_count: usize,
        lengths: *const u16,
        lengths_count: usize,
        names: *const u8,
        names_count: usize,
        sizes: *const u16,
        sizes_count: usize,
        out: *mut u8,
        out_count: usize,
    ) -> Sheet;
    fn ribbons_ribbon_of(file: *const u8, file_count: usize) -> usize;
}

// The calls ask for nothing but slices, which don't overlap where one is written: Rust sees to both. So they are safe.

/// Reads an order list.
pub fn read_orders(
    file: &[u8],
    bands: &mut [u8],
    lengths: &mut [u16],
    names: &mut [u8],
    sizes: &mut [u16],
) -> Orders {
    unsafe {
        ribbons_read_orders(
            file.as_ptr(),
            file.len(),
            bands.as_mut_ptr(),
            bands.len(),
            lengths.as_mut_ptr(),
            lengths.len(),
            names.as_mut_ptr(),
            names.len(),
            sizes.as_mut_ptr(),
            sizes.len(),
        )
    }
}

/// Lays out a list.
pub fn lay_ribbon(bands: &[u8], lengths: &[u16], ribbon: &mut [u8]) -> Laid {
    unsafe {
        ribbons_lay_ribbon(
            bands.as_ptr(),
            bands.len(),
            lengths.as_ptr(),
            lengths.len(),
            ribbon.as_mut_ptr(),
            ribbon.len(),
        )
    }
}

/// Checks a supplied ribbon against a list.
pub fn check_ribbon(bands: &[u8], lengths: &[u16], ribbon: &[u8]) -> Checked {
    unsafe {
        ribbons_check_ribbon(
            bands.as_ptr(),
            bands.len(),
            lengths.as_ptr(),
            lengths.len(),
            ribbon.as_ptr(),
            ribbon.len(),
        )
    }
}

/// Writes the sheet of a list with names.
pub fn write_sheet(
    bands: &[u8],
    lengths: &[u16],
    names: &[u8],
    sizes: &[u16],
    out: &mut [u8],
) -> Sheet {
    unsafe {
        ribbons_write_sheet(
            bands.as_ptr(),
            bands.len(),
            lengths.as_ptr(),
            lengths.len(),
            names.as_ptr(),
            names.len(),
            sizes.as_ptr(),
            sizes.len(),
            out.as_mut_ptr(),
            out.len(),
        )
    }
}

/// The part of a ribbon file that is its ribbon.
pub fn ribbon_of(file: &[u8]) -> &[u8] {
    let bands = unsafe { ribbons_ribbon_of(file.as_ptr(), file.len()) };
    &file[..bands]
}
