//! The proved code, through the crate `capi`. A Rattle slice passes to C as a pointer and a length.

/// Binds the functions that take a crossing's inputs, and an output of so many numbers where one is named.
macro_rules! of_a_crossing {
    ($($(#[$doc:meta])* $name:ident: $export:ident $(, $output:ident of $room:expr)?;)*) => {$(
        unsafe extern "C" {
            fn $export(
                confusion: f64,
                angular: f64,
                buffer: *const f64,
                lent: usize,
                count: u64,
                corners: *const f64,
                given: usize,
                $($output: *mut f64, room: usize,)?
            ) -> u64;
        }

        $(#[$doc])*
        pub(crate) fn $name(
            confusion: f64,
            angular: f64,
            buffer: &[f64],
            count: u64,
            corners: &[f64],
            $($output: &mut [f64; $room],)?
        ) -> u64 {
            let (s, lent) = (buffer.as_ptr(), buffer.len());
            let (t, given) = (corners.as_ptr(), corners.len());
            // SAFETY: each pointer comes with the length of the slice it was taken from, and the callee keeps neither.
            unsafe { $export(confusion, angular, s, lent, count, t, given $(, $output.as_mut_ptr(), $room)?) }
        }
    )*};
}
pub(crate) use of_a_crossing;

of_a_crossing! {
    /// The answer word of the crossing.
    crossing: geomcore_crossing;
    /// The answer word of the reason for it.
    explain: geomcore_explain;
}

unsafe extern "C" {
    fn geomcore_trace(job: *const u8, bytes: usize, buffer: *mut f64, lent: usize) -> u64;
    fn geomcore_check(
        job: *const u8,
        bytes: usize,
        buffer: *const f64,
        lent: usize,
        count: u64,
        start: u64,
        code: u64,
    ) -> u64;
    fn geomcore_point(
        surface: *const u8,
        bytes: usize,
        u: f64,
        v: f64,
        out: *mut f64,
        outputs: usize,
    ) -> u64;
    pub(crate) safe fn geomcore_sqrt(x: f64) -> f64;
    pub(crate) safe fn geomcore_sin(x: f64) -> f64;
    pub(crate) safe fn geomcore_cos(x: f64) -> f64;
    pub(crate) safe fn geomcore_atan2(y: f64, x: f64) -> f64;
}

/// The answer word of the trace.
pub(crate) fn trace(job: &[u8], buffer: &mut [f64]) -> u64 {
    // SAFETY: as in `crossing`.
    unsafe { geomcore_trace(job.as_ptr(), job.len(), buffer.as_mut_ptr(), buffer.len()) }
}

/// The answer word of the check.
pub(crate) fn check(job: &[u8], buffer: &[f64], count: u64, start: u64, code: u64) -> u64 {
    let (bytes, lent) = (job.len(), buffer.len());
    // SAFETY: as in `crossing`.
    unsafe {
        geomcore_check(
            job.as_ptr(),
            bytes,
            buffer.as_ptr(),
            lent,
            count,
            start,
            code,
        )
    }
}

/// The answer word of the public point.
pub(crate) fn point(surface: &[u8], u: f64, v: f64, out: &mut [f64]) -> u64 {
    let (bytes, outputs) = (surface.len(), out.len());
    // SAFETY: as in `crossing`.
    unsafe { geomcore_point(surface.as_ptr(), bytes, u, v, out.as_mut_ptr(), outputs) }
}

unsafe extern "C" {
    fn geomcore_write_v1(
        buffer: *const f64,
        lent: usize,
        count: u64,
        start: u64,
        code: u64,
        file: *mut u8,
        room: usize,
    ) -> u64;
    fn geomcore_read_v1(file: *const u8, bytes: usize, buffer: *mut f64, lent: usize) -> u64;
}

/// The answer word of the trace file's writer.
pub(crate) fn write(buffer: &[f64], count: u64, start: u64, code: u64, file: &mut [u8]) -> u64 {
    let (lent, room) = (buffer.len(), file.len());
    // SAFETY: as in `crossing`.
    unsafe {
        geomcore_write_v1(
            buffer.as_ptr(),
            lent,
            count,
            start,
            code,
            file.as_mut_ptr(),
            room,
        )
    }
}

/// The answer word of the trace file's reader.
pub(crate) fn read(file: &[u8], buffer: &mut [f64]) -> u64 {
    // SAFETY: as in `crossing`.
    unsafe { geomcore_read_v1(file.as_ptr(), file.len(), buffer.as_mut_ptr(), buffer.len()) }
}
