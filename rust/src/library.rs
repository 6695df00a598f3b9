//! The five functions of the static library, over slices.
//!
//! They have all results and all effects of the C functions: an `out` shorter than 3 is left untouched,
//! and nothing else happens then. Without the library they panic.

/// Whether the static library was found when this package was built.
pub const LIBRARY_LINKED: bool = cfg!(vinzagew_library);

pub use linked::{
    vinzagew_check, vinzagew_recognise, vinzagew_run, vinzagew_run_table, vinzagew_write,
};

#[cfg(vinzagew_library)]
mod linked {
    mod c {
        extern "C" {
            pub fn vinzagew_check(
                sheet: *const u8,
                sheet_len: usize,
                work: *mut u8,
                work_len: usize,
                out: *mut u64,
                out_len: usize,
            );

            pub fn vinzagew_write(
                sheet: *const u8,
                sheet_len: usize,
                work: *mut u8,
                work_len: usize,
                image: *mut u8,
                image_len: usize,
                out: *mut u64,
                out_len: usize,
            );

            pub fn vinzagew_run(
                image: *const u8,
                image_len: usize,
                text: *const u8,
                text_len: usize,
                stack: *mut u8,
                stack_len: usize,
                out: *mut u64,
                out_len: usize,
            );

            pub fn vinzagew_run_table(
                image: *const u8,
                image_len: usize,
                text: *const u8,
                text_len: usize,
                table: *mut u16,
                table_len: usize,
                winners: *mut u16,
                winners_len: usize,
                stack: *mut u8,
                stack_len: usize,
                out: *mut u64,
                out_len: usize,
            );

            pub fn vinzagew_recognise(
                sheet: *const u8,
                sheet_len: usize,
                text: *const u8,
                text_len: usize,
                work: *mut u8,
                work_len: usize,
                list: *mut u8,
                list_len: usize,
                out: *mut u64,
                out_len: usize,
            );
        }
    }

    /// Checks a sheet: number, place and 0 go to `out[0..3]`.
    pub fn vinzagew_check(sheet: &[u8], work: &mut [u8], out: &mut [u64]) {
        // SAFETY: each pointer comes from a slice with the length that is passed beside it. The slices
        // that are written to are borrowed for this call alone, so no two overlap. The function keeps
        // no pointer.
        unsafe {
            c::vinzagew_check(
                sheet.as_ptr(),
                sheet.len(),
                work.as_mut_ptr(),
                work.len(),
                out.as_mut_ptr(),
                out.len(),
            );
        }
    }

    /// Checks a sheet and writes its image: number, place and length go to `out[0..3]`.
    pub fn vinzagew_write(sheet: &[u8], work: &mut [u8], image: &mut [u8], out: &mut [u64]) {
        // SAFETY: as for `vinzagew_check`.
        unsafe {
            c::vinzagew_write(
                sheet.as_ptr(),
                sheet.len(),
                work.as_mut_ptr(),
                work.len(),
                image.as_mut_ptr(),
                image.len(),
                out.as_mut_ptr(),
                out.len(),
            );
        }
    }

    /// Runs an image over a text: number, place and count go to `out[0..3]`.
    pub fn vinzagew_run(image: &[u8], text: &[u8], stack: &mut [u8], out: &mut [u64]) {
        // SAFETY: as for `vinzagew_check`. The image and the text are only read.
        unsafe {
            c::vinzagew_run(
                image.as_ptr(),
                image.len(),
                text.as_ptr(),
                text.len(),
                stack.as_mut_ptr(),
                stack.len(),
                out.as_mut_ptr(),
                out.len(),
            );
        }
    }

    /// Runs an image over a text with a table: number, place and count go to `out[0..3]`.
    pub fn vinzagew_run_table(
        image: &[u8],
        text: &[u8],
        table: &mut [u16],
        winners: &mut [u16],
        stack: &mut [u8],
        out: &mut [u64],
    ) {
        // SAFETY: as for `vinzagew_run`. The lengths of `table` and `winners` are in entries.
        unsafe {
            c::vinzagew_run_table(
                image.as_ptr(),
                image.len(),
                text.as_ptr(),
                text.len(),
                table.as_mut_ptr(),
                table.len(),
                winners.as_mut_ptr(),
                winners.len(),
                stack.as_mut_ptr(),
                stack.len(),
                out.as_mut_ptr(),
                out.len(),
            );
        }
    }

    /// Checks a sheet and recognises a text by it: number, place and count go to `out[0..3]`.
    pub fn vinzagew_recognise(
        sheet: &[u8],
        text: &[u8],
        work: &mut [u8],
        list: &mut [u8],
        out: &mut [u64],
    ) {
        // SAFETY: as for `vinzagew_check`. The sheet and the text are only read.
        unsafe {
            c::vinzagew_recognise(
                sheet.as_ptr(),
                sheet.len(),
                text.as_ptr(),
                text.len(),
                work.as_mut_ptr(),
                work.len(),
                list.as_mut_ptr(),
                list.len(),
                out.as_mut_ptr(),
                out.len(),
            );
        }
    }
}

#[cfg(not(vinzagew_library))]
mod linked {
    /// Stands where the library's function would be.
    pub fn vinzagew_check(_sheet: &[u8], _work: &mut [u8], _out: &mut [u64]) {
        missing();
    }

    /// Stands where the library's function would be.
    pub fn vinzagew_write(_sheet: &[u8], _work: &mut [u8], _image: &mut [u8], _out: &mut [u64]) {
        missing();
    }

    /// Stands where the library's function would be.
    pub fn vinzagew_run(_image: &[u8], _text: &[u8], _stack: &mut [u8], _out: &mut [u64]) {
        missing();
    }

    /// Stands where the library's function would be.
    pub fn vinzagew_run_table(
        _image: &[u8],
        _text: &[u8],
        _table: &mut [u16],
        _winners: &mut [u16],
        _stack: &mut [u8],
        _out: &mut [u64],
    ) {
        missing();
    }

    /// Stands where the library's function would be.
    pub fn vinzagew_recognise(
        _sheet: &[u8],
        _text: &[u8],
        _work: &mut [u8],
        _list: &mut [u8],
        _out: &mut [u64],
    ) {
        missing();
    }

    fn missing() {
        panic!("libvinzagew.a was not found when this package was built");
    }
}
