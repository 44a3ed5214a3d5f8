//! The proved steps, in the static library `speed`. Each wrapper answers false where the library refuses the lengths.

// A slice crosses as a pointer and then a length. Nothing compares these with `crates/speed/src`.
unsafe extern "C" {
    fn speed_hash(labels: *const u8, labels_len: usize, out: *mut u8, out_len: usize) -> bool;
    fn speed_garble(
        offset: *const u8,
        offset_len: usize,
        operands: *const u8,
        operands_len: usize,
        material: *mut u8,
        material_len: usize,
        new: *mut u8,
        new_len: usize,
    ) -> bool;
    fn speed_evaluate(
        operands: *const u8,
        operands_len: usize,
        material: *const u8,
        material_len: usize,
        new: *mut u8,
        new_len: usize,
    ) -> bool;
    fn speed_garble_table(
        gate: u32,
        seed: *const u8,
        seed_len: usize,
        offset: *const u8,
        offset_len: usize,
        zeros: *const u8,
        zeros_len: usize,
        rows: *const u8,
        rows_len: usize,
        material: *mut u8,
        material_len: usize,
        new: *mut u8,
        new_len: usize,
    ) -> bool;
    fn speed_evaluate_table(
        gate: u32,
        labels: *const u8,
        labels_len: usize,
        material: *const u8,
        material_len: usize,
        new: *mut u8,
        new_len: usize,
    ) -> bool;
}

// SAFETY, of all five: the declarations fit the library's, each pointer and length are those of one slice borrowed for
// the call, and the functions ask for nothing more.

pub fn hash_row(labels: &[u8], out: &mut [u8]) -> bool {
    unsafe { speed_hash(labels.as_ptr(), labels.len(), out.as_mut_ptr(), out.len()) }
}

pub fn garble_row(offset: &[u8], operands: &[u8], material: &mut [u8], new: &mut [u8]) -> bool {
    unsafe {
        speed_garble(
            offset.as_ptr(),
            offset.len(),
            operands.as_ptr(),
            operands.len(),
            material.as_mut_ptr(),
            material.len(),
            new.as_mut_ptr(),
            new.len(),
        )
    }
}

pub fn evaluate_row(operands: &[u8], material: &[u8], new: &mut [u8]) -> bool {
    unsafe {
        speed_evaluate(
            operands.as_ptr(),
            operands.len(),
            material.as_ptr(),
            material.len(),
            new.as_mut_ptr(),
            new.len(),
        )
    }
}

pub fn garble_one_table(
    gate: u32,
    seed: &[u8],
    offset: &[u8],
    zeros: &[u8],
    rows: &[u8],
    material: &mut [u8],
    new: &mut [u8],
) -> bool {
    unsafe {
        speed_garble_table(
            gate,
            seed.as_ptr(),
            seed.len(),
            offset.as_ptr(),
            offset.len(),
            zeros.as_ptr(),
            zeros.len(),
            rows.as_ptr(),
            rows.len(),
            material.as_mut_ptr(),
            material.len(),
            new.as_mut_ptr(),
            new.len(),
        )
    }
}

pub fn evaluate_one_table(gate: u32, labels: &[u8], material: &[u8], new: &mut [u8]) -> bool {
    unsafe {
        speed_evaluate_table(
            gate,
            labels.as_ptr(),
            labels.len(),
            material.as_ptr(),
            material.len(),
            new.as_mut_ptr(),
            new.len(),
        )
    }
}
