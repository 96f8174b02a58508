//! The least that any of the commands does: bytes read, looked at, made one by one and printed.

/// Looks at each byte of the input, makes so many bytes and looks at each, and returns so many to
/// be printed.
pub fn bytes(input: &str, made: usize, printed: usize) -> Vec<u8> {
    let lines = input.bytes().filter(|byte| *byte == b'\n').count();
    let mut section: Vec<u8> = Vec::new();
    for at in 0..made {
        section.push(std::hint::black_box(at as u8));
    }
    let sum: usize = section.iter().map(|byte| usize::from(*byte)).sum();
    vec![b'a' + ((lines + sum) % 16) as u8; printed]
}
