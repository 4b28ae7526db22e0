//! The library's two functions, over slices of bytes.

/// A buffer as a pointer and a length: a write, a load and a page-in only read theirs.
pub type Buffer = (*mut u8, usize);

/// `northbridge_serve` over slices of any lengths. It returns the refusal.
#[inline(always)]
pub fn call(
    request: &[u8],
    state: &mut [u8],
    table: &mut [u8],
    memory: &mut [u8],
    buffer: &mut [u8],
    answer: &mut [u8],
) -> u64 {
    let buffer = (buffer.as_mut_ptr(), buffer.len());
    // The buffer is an exclusive slice.
    unsafe { call_with(request, state, table, memory, buffer, answer, None) }
}

/// `northbridge_serve_leased` over slices of any lengths: the same six, and leases.
#[inline(always)]
pub fn call_leased(
    request: &[u8],
    state: &mut [u8],
    table: &mut [u8],
    memory: &mut [u8],
    buffer: &mut [u8],
    answer: &mut [u8],
    leases: &[u8],
) -> u64 {
    let buffer = (buffer.as_mut_ptr(), buffer.len());
    // The buffer is an exclusive slice.
    unsafe { call_with(request, state, table, memory, buffer, answer, Some(leases)) }
}

/// Either of them, with the buffer as a pointer and a length.
///
/// # Safety
/// The buffer is a slice that overlaps none of the others; it can be written, unless the request is
/// a write, a load or a page-in; and nothing else writes it meanwhile.
#[inline(always)]
pub unsafe fn call_with(
    request: &[u8],
    state: &mut [u8],
    table: &mut [u8],
    memory: &mut [u8],
    (buffer, buffer_length): Buffer,
    answer: &mut [u8],
    leases: Option<&[u8]>,
) -> u64 {
    let (request, request_length) = (request.as_ptr(), request.len());
    let (state, state_length) = (state.as_mut_ptr(), state.len());
    let (table, table_length) = (table.as_mut_ptr(), table.len());
    let (memory, memory_length) = (memory.as_mut_ptr(), memory.len());
    let (answer, answer_length) = (answer.as_mut_ptr(), answer.len());
    // Each pointer and length is that of a slice; those that are written are exclusive, so none of
    // them overlaps another.
    unsafe {
        match leases {
            None => northbridge_serve(
                request,
                request_length,
                state,
                state_length,
                table,
                table_length,
                memory,
                memory_length,
                buffer,
                buffer_length,
                answer,
                answer_length,
            ),
            Some(leases) => northbridge_serve_leased(
                request,
                request_length,
                state,
                state_length,
                table,
                table_length,
                memory,
                memory_length,
                buffer,
                buffer_length,
                answer,
                answer_length,
                leases.as_ptr(),
                leases.len(),
            ),
        }
    }
}

extern "C" {
    fn northbridge_serve(
        request: *const u8,
        request_length: usize,
        state: *mut u8,
        state_length: usize,
        table: *mut u8,
        table_length: usize,
        memory: *mut u8,
        memory_length: usize,
        buffer: *mut u8,
        buffer_length: usize,
        answer: *mut u8,
        answer_length: usize,
    ) -> u64;

    fn northbridge_serve_leased(
        request: *const u8,
        request_length: usize,
        state: *mut u8,
        state_length: usize,
        table: *mut u8,
        table_length: usize,
        memory: *mut u8,
        memory_length: usize,
        buffer: *mut u8,
        buffer_length: usize,
        answer: *mut u8,
        answer_length: usize,
        leases: *const u8,
        leases_length: usize,
    ) -> u64;
}
