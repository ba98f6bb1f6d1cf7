//! The functions of the archive for Rust callers. Nothing checks these
//! declarations against the library: they say what include/plaitcrumb.h says.

use second::Answer;

extern "C" {
    fn plaitcrumb_check_table(
        model: *const u8,
        model_len: usize,
        table: *const u8,
        table_len: usize,
        node_work: *mut u8,
        node_work_len: usize,
    ) -> u64;
    fn plaitcrumb_check_finding(
        model: *const u8,
        model_len: usize,
        finding: *const u8,
        finding_len: usize,
        node_work: *mut u8,
        node_work_len: usize,
        symbol_work: *mut u8,
        symbol_work_len: usize,
    ) -> u64;
    fn plaitcrumb_name(model: *const u8, model_len: usize, index: usize) -> u64;
    fn plaitcrumb_check_book(model: *const u8, model_len: usize) -> u64;
    fn plaitcrumb_check_table_in(
        model: *const u8,
        model_len: usize,
        table: *const u8,
        table_len: usize,
        node_work: *mut u8,
        node_work_len: usize,
    ) -> u64;
    fn plaitcrumb_name_in(model: *const u8, model_len: usize, index: usize) -> u64;
}

/// A result as its three numbers.
fn unpacked(result: u64) -> Answer {
    Answer {
        number: (result >> 32) as u32,
        place: (result >> 16 & 65535) as u32,
        second: (result & 65535) as u32,
    }
}

/// A name as where it starts in the model, and its length.
fn parted(name: u64) -> (usize, usize) {
    ((name >> 32) as usize, (name & 0xffff_ffff) as usize)
}

/// The table check of the archive.
pub fn check_table(model: &[u8], table: &[u8], node_work: &mut [u8]) -> Answer {
    // Pointers and lengths of live slices that do not overlap.
    unpacked(unsafe {
        plaitcrumb_check_table(
            model.as_ptr(),
            model.len(),
            table.as_ptr(),
            table.len(),
            node_work.as_mut_ptr(),
            node_work.len(),
        )
    })
}

/// The finding check of the archive.
pub fn check_finding(
    model: &[u8],
    finding: &[u8],
    node_work: &mut [u8],
    symbol_work: &mut [u8],
) -> Answer {
    // Pointers and lengths of live slices that do not overlap.
    unpacked(unsafe {
        plaitcrumb_check_finding(
            model.as_ptr(),
            model.len(),
            finding.as_ptr(),
            finding.len(),
            node_work.as_mut_ptr(),
            node_work.len(),
            symbol_work.as_mut_ptr(),
            symbol_work.len(),
        )
    })
}

/// The name call of the archive: where the name starts in the model, and its
/// length.
pub fn name(model: &[u8], index: usize) -> (usize, usize) {
    // Pointer and length of a live slice.
    parted(unsafe { plaitcrumb_name(model.as_ptr(), model.len(), index) })
}

/// The book's own check of the archive.
pub fn check_book(model: &[u8]) -> Answer {
    // Pointer and length of a live slice.
    unpacked(unsafe { plaitcrumb_check_book(model.as_ptr(), model.len()) })
}

/// The table check of the archive after the book's.
pub fn check_table_in(model: &[u8], table: &[u8], node_work: &mut [u8]) -> Answer {
    // Pointers and lengths of live slices that do not overlap.
    unpacked(unsafe {
        plaitcrumb_check_table_in(
            model.as_ptr(),
            model.len(),
            table.as_ptr(),
            table.len(),
            node_work.as_mut_ptr(),
            node_work.len(),
        )
    })
}

/// The name call of the archive after the book's check.
pub fn name_in(model: &[u8], index: usize) -> (usize, usize) {
    // Pointer and length of a live slice.
    parted(unsafe { plaitcrumb_name_in(model.as_ptr(), model.len(), index) })
}
