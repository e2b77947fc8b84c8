//! The library under comparison, `libscript.a`.

/// What answers scripts.
pub trait Subject {
    /// Writes the replies to the front of `out`, and tells how many bytes they are.
    fn run(&mut self, script: &[u8], out: &mut [u8]) -> usize;
}

#[cfg(linked)]
unsafe extern "C" {
    fn script_run(script: *const u8, script_len: usize, out: *mut u8, out_len: usize) -> usize;
}

#[cfg(linked)]
struct Library;

#[cfg(linked)]
impl Subject for Library {
    fn run(&mut self, script: &[u8], out: &mut [u8]) -> usize {
        // SAFETY: both slices live for the call, and the library reads the one and writes within the other.
        unsafe { script_run(script.as_ptr(), script.len(), out.as_mut_ptr(), out.len()) }
    }
}

/// The library, if it was linked.
pub fn library() -> Option<Box<dyn Subject>> {
    #[cfg(linked)]
    return Some(Box::new(Library));
    #[cfg(not(linked))]
    None
}
