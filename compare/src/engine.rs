//! The engine, which is linked as a static library: `crates/engine/src/lib.rt` has the functions and their contracts.

/// The engine writes no more than this, and leaves out what would come after it.
const ROOM: usize = 40_960;

// A slice crosses as a pointer and then a length.
unsafe extern "C" {
    fn bench_check(
        module: *const u8,
        module_len: usize,
        rows: usize,
        out: *mut u8,
        out_len: usize,
    ) -> usize;
    fn bench_unpack(
        module: *const u8,
        module_len: usize,
        entries: usize,
        rows: usize,
        out: *mut u8,
        out_len: usize,
    ) -> usize;
    fn bench_pack(
        entries: *const u8,
        entries_len: usize,
        rows: *const u8,
        rows_len: usize,
        image: *const u8,
        image_len: usize,
        size: usize,
        out: *mut u8,
        out_len: usize,
    ) -> usize;
    fn bench_run(
        module: *const u8,
        module_len: usize,
        host: *const u8,
        host_len: usize,
        calls: *const u8,
        calls_len: usize,
        out: *mut u8,
        out_len: usize,
    ) -> usize;
}

/// What was written into the buffer. Nothing was left out, as there was room for more.
fn written(mut buffer: Vec<u8>, len: usize) -> Vec<u8> {
    assert!(
        len < ROOM,
        "the engine had more to write than it has room for"
    );
    buffer.truncate(len);
    buffer
}

/// What a check of a module writes, over a sheet of so many rows.
pub fn check(module: &[u8], rows: usize) -> Vec<u8> {
    let mut out = vec![0; ROOM];
    // SAFETY: each pointer and length are those of one slice, which is borrowed for the call, the output alone for writing,
    // and the function asks nothing of its caller.
    let len = unsafe {
        bench_check(
            module.as_ptr(),
            module.len(),
            rows,
            out.as_mut_ptr(),
            out.len(),
        )
    };
    written(out, len)
}

/// What calls to a drive of a module over a host write.
pub fn run(module: &[u8], host: &[u8], calls: &[u8]) -> Vec<u8> {
    let mut out = vec![0; ROOM];
    // SAFETY: as in `check`.
    let len = unsafe {
        bench_run(
            module.as_ptr(),
            module.len(),
            host.as_ptr(),
            host.len(),
            calls.as_ptr(),
            calls.len(),
            out.as_mut_ptr(),
            out.len(),
        )
    };
    written(out, len)
}

/// What unpacking a module into so many entries and rows writes.
pub fn unpack(module: &[u8], entries: usize, rows: usize) -> Vec<u8> {
    let mut out = vec![0; ROOM];
    // SAFETY: as in `check`.
    let len = unsafe {
        bench_unpack(
            module.as_ptr(),
            module.len(),
            entries,
            rows,
            out.as_mut_ptr(),
            out.len(),
        )
    };
    written(out, len)
}

/// What packing entries, instructions and an image into an output of so many bytes writes.
pub fn pack(entries: &[u8], rows: &[u8], image: &[u8], size: usize) -> Vec<u8> {
    let mut out = vec![0; ROOM];
    // SAFETY: as in `check`.
    let len = unsafe {
        bench_pack(
            entries.as_ptr(),
            entries.len(),
            rows.as_ptr(),
            rows.len(),
            image.as_ptr(),
            image.len(),
            size,
            out.as_mut_ptr(),
            out.len(),
        )
    };
    written(out, len)
}
