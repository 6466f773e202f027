//! The calls of the static library, made safe. No other file has `unsafe`.
//!
//! What a call requires, as `wgsl.h` says, is what Rust's references give: memory that can be read
//! or written, is apart and stays as it is for the call. Of the stack, each level of nesting
//! takes at most 3,800 bytes as measured, and no function takes a page at once, as
//! tools/library_tests checks: so a text which nests too deep for the stack, where a caller lets it
//! nest so deep, reaches the guard page at the end of the stack, as a recursion of Rust's does, and
//! ends the process.

/// The result of a call beside its status: `struct wgsl_answer` of `wgsl.h`.
#[repr(C)]
#[derive(Clone, Copy, Debug, Default)]
pub struct Answer {
    /// How many bytes or items there are to give.
    pub size: usize,
    /// Where a fault starts, in bytes.
    pub start: usize,
    /// Where it ends.
    pub end: usize,
    /// The number of its kind.
    pub kind: usize,
    /// How many texts were expected.
    pub expected: usize,
}

/// A token by the number of its kind: `struct wgsl_token` of `wgsl.h`.
#[repr(C)]
#[derive(Clone, Copy, Debug, Default)]
pub struct PlacedKind {
    /// The number of its kind.
    pub kind: usize,
    /// Where it starts, in bytes.
    pub start: usize,
    /// Where it ends.
    pub end: usize,
}

/// The start and the end of a part of a text: `struct wgsl_place` of `wgsl.h`.
#[repr(C)]
#[derive(Clone, Copy, Debug, Default)]
pub struct Place {
    /// Where it starts, in bytes.
    pub start: usize,
    /// Where it ends.
    pub end: usize,
}

/// The choices for the layout of a text: `struct wgsl_layout` of `wgsl.h`.
#[repr(C)]
#[derive(Clone, Copy, Debug)]
pub struct Choices {
    /// How many columns a line may have.
    pub width: usize,
    /// How many columns a level has.
    pub indent: u8,
    /// Whether it is a tab.
    pub tab: u8,
    /// The number of its line breaks.
    pub newlines: u8,
}

// The exports of the crate `wgsl_c`, of which a slice is a pointer and a length here.
extern "C" {
    fn wgsl_c_format_within(
        depth: usize,
        text: *const u8,
        size: usize,
        room: *mut u8,
        room_size: usize,
        answer: *mut Answer,
    ) -> u32;
    fn wgsl_c_tidy_within(
        depth: usize,
        choices: *const Choices,
        text: *const u8,
        size: usize,
        room: *mut u8,
        room_size: usize,
        answer: *mut Answer,
    ) -> u32;
    fn wgsl_c_minify_within(
        depth: usize,
        names: u32,
        keep: *const u8,
        keep_size: usize,
        text: *const u8,
        size: usize,
        room: *mut u8,
        room_size: usize,
        answer: *mut Answer,
    ) -> u32;
    fn wgsl_c_check_within(
        depth: usize,
        text: *const u8,
        size: usize,
        room: *mut u8,
        room_size: usize,
        answer: *mut Answer,
    ) -> u32;
    #[cfg(test)]
    fn wgsl_c_snippet(
        name: *const u8,
        name_size: usize,
        text: *const u8,
        size: usize,
        room: *mut u8,
        room_size: usize,
        answer: *mut Answer,
    ) -> u32;
    fn wgsl_c_recognize_within(
        depth: usize,
        text: *const u8,
        size: usize,
        room: *mut u8,
        room_size: usize,
        answer: *mut Answer,
    ) -> u32;
    fn wgsl_c_tree_within(
        depth: usize,
        what: u32,
        text: *const u8,
        size: usize,
        room: *mut u8,
        room_size: usize,
        answer: *mut Answer,
    ) -> u32;
    fn wgsl_c_packed_tree_within(
        depth: usize,
        what: u32,
        text: *const u8,
        size: usize,
        room: *mut u8,
        room_size: usize,
        answer: *mut Answer,
    ) -> u32;
    fn wgsl_c_print(
        form: *const u8,
        size: usize,
        room: *mut u8,
        room_size: usize,
        answer: *mut Answer,
    ) -> u32;
    fn wgsl_c_tokens(
        text: *const u8,
        size: usize,
        room: *mut PlacedKind,
        room_size: usize,
        answer: *mut Answer,
    ) -> u32;
    fn wgsl_c_tokens_with_comments(
        text: *const u8,
        size: usize,
        room: *mut PlacedKind,
        room_size: usize,
        answer: *mut Answer,
    ) -> u32;
    fn wgsl_c_lists(
        text: *const u8,
        size: usize,
        room: *mut Place,
        room_size: usize,
        answer: *mut Answer,
    ) -> u32;
    fn wgsl_c_begins_with_list(text: *const u8, size: usize, answer: *mut Answer) -> u32;
    fn wgsl_c_nesting(text: *const u8, size: usize, answer: *mut Answer) -> u32;
}

/// The status of a call, and the rest of its result.
#[derive(Clone, Copy, Debug)]
pub struct Said {
    /// The status: one of the constants of `wgsl.h`.
    pub status: u32,
    /// The rest.
    pub answer: Answer,
}

/// A call that reads bytes and writes others. The first number is how many levels deep a text may
/// nest.
#[derive(Clone, Copy, Debug)]
pub enum Call<'k> {
    /// The printed text.
    Format(usize),
    /// The formatted text, by a layout.
    Tidy(usize, Choices),
    /// The minified text and its new names, by the number of the names that get new ones and the
    /// lines of those that stay.
    Minify(usize, u32, &'k str),
    /// Whether it is a module.
    Check(usize),
    /// Whether it is a module of the dialect.
    Recognize(usize),
    /// The JSON of the tree with this number.
    Tree(usize, u32),
    /// The packed form of the tree with this number.
    PackedTree(usize, u32),
    /// The printed text of a packed form.
    Print,
}

/// Makes a call, which writes into the buffer as far as its capacity. The buffer has what the call
/// wrote then, or nothing, if that does not fit.
pub fn bytes_call(call: Call<'_>, text: &[u8], room: &mut Vec<u8>) -> Said {
    room.clear();
    let mut answer = Answer::default();
    let (at, size) = (text.as_ptr(), text.len());
    let (to, room_size) = (room.as_mut_ptr(), room.capacity());
    // SAFETY: the declarations above are those of the exports. The bytes, the text and the buffer
    // are those of a slice, a `&str` and a `&mut Vec`, which are never null, are apart from each
    // other and from the answer, and are borrowed for the call, and no slice of Rust's is longer
    // than the exports take; the layout lives as long as the call. An export requires nothing
    // else but stack, as said above, does not read the buffer, and writes nowhere else.
    let status = unsafe {
        match call {
            Call::Format(depth) => {
                wgsl_c_format_within(depth, at, size, to, room_size, &mut answer)
            }
            Call::Tidy(depth, by) => {
                wgsl_c_tidy_within(depth, &by, at, size, to, room_size, &mut answer)
            }
            Call::Minify(depth, names, keep) => wgsl_c_minify_within(
                depth,
                names,
                keep.as_ptr(),
                keep.len(),
                at,
                size,
                to,
                room_size,
                &mut answer,
            ),
            Call::Check(depth) => wgsl_c_check_within(depth, at, size, to, room_size, &mut answer),
            Call::Recognize(depth) => {
                wgsl_c_recognize_within(depth, at, size, to, room_size, &mut answer)
            }
            Call::Tree(depth, what) => {
                wgsl_c_tree_within(depth, what, at, size, to, room_size, &mut answer)
            }
            Call::PackedTree(depth, what) => {
                wgsl_c_packed_tree_within(depth, what, at, size, to, room_size, &mut answer)
            }
            Call::Print => wgsl_c_print(at, size, to, room_size, &mut answer),
        }
    };
    if answer.size <= room_size {
        // SAFETY: where the size is at most that of the buffer, an export has written so many
        // bytes at its front.
        unsafe { room.set_len(answer.size) };
    }
    Said { status, answer }
}

/// Writes the lines that show the fault of a text, in a file with a name if that is not empty.
#[cfg(test)]
pub fn snippet_call(name: &str, text: &str, room: &mut [u8]) -> Said {
    let mut answer = Answer::default();
    // SAFETY: as in `bytes_call`, of two texts, neither of which is written to.
    let status = unsafe {
        wgsl_c_snippet(
            name.as_ptr(),
            name.len(),
            text.as_ptr(),
            text.len(),
            room.as_mut_ptr(),
            room.len(),
            &mut answer,
        )
    };
    Said { status, answer }
}

/// Writes the tokens of a text, with the comments between them or without, as many as fit into the
/// buffer.
pub fn tokens_call(text: &str, comments: bool, room: &mut [PlacedKind]) -> Said {
    let mut answer = Answer::default();
    let (at, size) = (text.as_ptr(), text.len());
    let (to, room_size) = (room.as_mut_ptr(), room.len());
    // SAFETY: as in `bytes_call`; `PlacedKind` has the layout of the struct that the exports write.
    let status = unsafe {
        if comments {
            wgsl_c_tokens_with_comments(at, size, to, room_size, &mut answer)
        } else {
            wgsl_c_tokens(at, size, to, room_size, &mut answer)
        }
    };
    Said { status, answer }
}

/// Writes the places of the template lists of a text, as many as fit into the buffer.
pub fn lists_call(text: &str, room: &mut [Place]) -> Said {
    let mut answer = Answer::default();
    // SAFETY: as in `bytes_call`; `Place` has the layout of the struct that the export writes.
    let status = unsafe {
        wgsl_c_lists(
            text.as_ptr(),
            text.len(),
            room.as_mut_ptr(),
            room.len(),
            &mut answer,
        )
    };
    Said { status, answer }
}

/// Checks whether a text begins with a template list: the size is 1 where it does.
pub fn begins_with_list_call(text: &str) -> Said {
    let mut answer = Answer::default();
    // SAFETY: as in `bytes_call`; there is no buffer.
    let status = unsafe { wgsl_c_begins_with_list(text.as_ptr(), text.len(), &mut answer) };
    Said { status, answer }
}

/// Returns how deep a text nests, as the size.
pub fn nesting_call(text: &str) -> Said {
    let mut answer = Answer::default();
    // SAFETY: as in `bytes_call`; there is no buffer.
    let status = unsafe { wgsl_c_nesting(text.as_ptr(), text.len(), &mut answer) };
    Said { status, answer }
}
