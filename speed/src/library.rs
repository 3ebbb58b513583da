//! The proved library, as a host calls it.

extern "C" {
    fn creamtally_run(bytes: *const u8, size: usize, budget: u32, words: *mut u32, length: usize) -> u32;
}

/// Loads an image into the lent memory, runs it for at most `budget` steps, and tells how many were taken.
pub fn run(image: &[u8], budget: u32, memory: &mut [u32]) -> u32 {
    // SAFETY: the library declares the first parameter as `&[u8]` and the last as `&mut [u32]`, each of which passes as a
    // pointer and a length, and both are lent for the call alone. Nothing else is asked of the arguments: the function's
    // contract has no `requires`.
    unsafe { creamtally_run(image.as_ptr(), image.len(), budget, memory.as_mut_ptr(), memory.len()) }
}
