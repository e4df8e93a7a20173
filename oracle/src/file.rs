//! The trace file of version 1, a plain rule written from request A1 alone. The proved writer and reader are timed beside it; the wide
//! comparison is over Python's struct (tools/compare_file.py).

const HEAD: usize = 10;
const WIDTH: usize = 7;

/// What 20 lets through of a count, a start's index and a code.
fn claim_fits(count: u64, start: u64, code: u64) -> bool {
    (4..=4001).contains(&count) && start < count && code <= 2
}

/// The writer's word: number + 2^32 bytes.
pub(crate) fn write(trace: &[f64], count: u64, start: u64, code: u64, file: &mut [u8]) -> u64 {
    if !claim_fits(count, start, code) {
        return 20;
    }
    let n = WIDTH * count as usize;
    let size = HEAD + 8 * n;
    if trace.len() < n || file.len() < size {
        return 8;
    }
    if !trace[..n].iter().all(|x| x.is_finite()) {
        return 20;
    }
    file[..4].copy_from_slice(&(size as u32 - 4).to_be_bytes());
    file[4] = 1;
    file[5..7].copy_from_slice(&(count as u16).to_be_bytes());
    file[7..9].copy_from_slice(&(start as u16).to_be_bytes());
    file[9] = code as u8;
    for (bytes, x) in file[HEAD..size].chunks_exact_mut(8).zip(trace) {
        bytes.copy_from_slice(&x.to_bits().to_be_bytes());
    }
    (size as u64) << 32
}

fn number(bytes: &[u8]) -> f64 {
    f64::from_bits(u64::from_be_bytes(bytes.try_into().expect("eight bytes")))
}

/// The reader's word: number + 2^8 code + 2^16 start + 2^32 count.
pub(crate) fn read(file: &[u8], trace: &mut [f64]) -> u64 {
    if file.len() < HEAD || file[4] != 1 {
        return 20;
    }
    let two = |at: usize| u64::from(u16::from_be_bytes([file[at], file[at + 1]]));
    let (count, start, code) = (two(5), two(7), u64::from(file[9]));
    if !claim_fits(count, start, code) {
        return 20;
    }
    let n = WIDTH * count as usize;
    let length = u32::from_be_bytes([file[0], file[1], file[2], file[3]]) as usize;
    if length + 4 != HEAD + 8 * n || file.len() != HEAD + 8 * n {
        return 20;
    }
    if !file[HEAD..].chunks_exact(8).all(|b| number(b).is_finite()) {
        return 20;
    }
    if trace.len() < n {
        return 8;
    }
    for (x, bytes) in trace.iter_mut().zip(file[HEAD..].chunks_exact(8)) {
        *x = number(bytes);
    }
    code << 8 | start << 16 | count << 32
}
