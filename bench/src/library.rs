//! Builds of the proved library, with slices for its pointers and lengths.

/// A function over slices, with a mode as its last parameter where one is named.
macro_rules! function {
    ($name:ident, $symbol:expr, $image:ty, $pointer:ty, $as_pointer:ident $(, $mode:ident)?) => {
        pub fn $name(input: &[u32], image: $image, out: &mut [u32], answer: &mut [u32] $(, $mode: u32)?) -> u32 {
            extern "C" {
                #[link_name = $symbol]
                fn $name(
                    input: *const u32,
                    input_words: usize,
                    image: $pointer,
                    image_words: usize,
                    out: *mut u32,
                    out_words: usize,
                    answer: *mut u32,
                    answer_words: usize,
                    $($mode: u32,)?
                ) -> u32;
            }
            // SAFETY: each pointer comes with its slice's own length. An earlier build without modes does not look at
            // the last argument.
            unsafe {
                $name(
                    input.as_ptr(),
                    input.len(),
                    image.$as_pointer(),
                    image.len(),
                    out.as_mut_ptr(),
                    out.len(),
                    answer.as_mut_ptr(),
                    answer.len(),
                    $($mode,)?
                )
            }
        }
    };
}

macro_rules! measure {
    ($symbol:expr) => {
        pub fn measure(list: &[u32], image: &[u32], answer: &mut [u32]) -> u32 {
            extern "C" {
                #[link_name = $symbol]
                fn measure(
                    list: *const u32,
                    list_words: usize,
                    image: *const u32,
                    image_words: usize,
                    answer: *mut u32,
                    answer_words: usize,
                ) -> u32;
            }
            // SAFETY: as above.
            unsafe {
                measure(list.as_ptr(), list.len(), image.as_ptr(), image.len(), answer.as_mut_ptr(), answer.len())
            }
        }
    };
}

/// Several lists in one call: of this build alone, since an earlier one may not have it.
pub mod scenes {
    pub fn read_scenes(
        words: &[u32],
        table: &[u32],
        image: &mut [u32],
        records: &mut [u32],
        answer: &mut [u32],
    ) -> u32 {
        extern "C" {
            fn xp10_read_scenes(
                words: *const u32,
                words_words: usize,
                table: *const u32,
                table_words: usize,
                image: *mut u32,
                image_words: usize,
                records: *mut u32,
                records_words: usize,
                answer: *mut u32,
                answer_words: usize,
            ) -> u32;
        }
        // SAFETY: as above.
        unsafe {
            xp10_read_scenes(
                words.as_ptr(),
                words.len(),
                table.as_ptr(),
                table.len(),
                image.as_mut_ptr(),
                image.len(),
                records.as_mut_ptr(),
                records.len(),
                answer.as_mut_ptr(),
                answer.len(),
            )
        }
    }
}

/// Scene books: of this build alone too.
pub mod books {
    pub fn find_scene(book: &[u32], number: u32, place: &mut [u32]) -> u32 {
        extern "C" {
            fn xp10_find_scene(
                book: *const u32,
                book_words: usize,
                number: u32,
                place: *mut u32,
                place_words: usize,
            ) -> u32;
        }
        // SAFETY: as above.
        unsafe { xp10_find_scene(book.as_ptr(), book.len(), number, place.as_mut_ptr(), place.len()) }
    }

    pub fn write_book(table: &[u32], words: &[u32], book: &mut [u32], answer: &mut [u32]) -> u32 {
        extern "C" {
            fn xp10_write_book(
                table: *const u32,
                table_words: usize,
                words: *const u32,
                words_words: usize,
                book: *mut u32,
                book_words: usize,
                answer: *mut u32,
                answer_words: usize,
            ) -> u32;
        }
        // SAFETY: as above.
        unsafe {
            xp10_write_book(
                table.as_ptr(),
                table.len(),
                words.as_ptr(),
                words.len(),
                book.as_mut_ptr(),
                book.len(),
                answer.as_mut_ptr(),
                answer.len(),
            )
        }
    }
}

/// A build whose symbols start so.
macro_rules! library {
    ($build:ident, $prefix:literal) => {
        pub mod $build {
            function!(read, concat!($prefix, "read"), &mut [u32], *mut u32, as_mut_ptr, mode);
            function!(normalise, concat!($prefix, "normalise"), &[u32], *const u32, as_ptr, mode);
            measure!(concat!($prefix, "measure"));
            function!(to_pci, concat!($prefix, "to_pci"), &[u32], *const u32, as_ptr);
            function!(from_pci, concat!($prefix, "from_pci"), &[u32], *const u32, as_ptr);
        }
    };
}

library!(proved, "xp10_");
#[cfg(before)]
library!(before, "before_xp10_");
