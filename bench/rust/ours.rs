// The proved call, from the static library libanswer_c.a.

#[repr(C)]
struct Told {
    number: u64,
    value: u64,
}

unsafe extern "C" {
    fn answer_c(
        question: *const u64,
        question_len: usize,
        tables: *const u64,
        tables_len: usize,
        out: *mut u64,
        out_len: usize,
    ) -> Told;
}

// How many rows stand in out, or the refusal's number and its place.
pub fn answer(question: &[u64], tables: &[u64], out: &mut [u64]) -> Result<usize, (u64, u64)> {
    // The three slices are whole and do not overlap, which is all that the call needs.
    let told = unsafe {
        answer_c(
            question.as_ptr(),
            question.len(),
            tables.as_ptr(),
            tables.len(),
            out.as_mut_ptr(),
            out.len(),
        )
    };
    match told.number {
        0 => Ok(told.value as usize),
        number => Err((number, told.value)),
    }
}
