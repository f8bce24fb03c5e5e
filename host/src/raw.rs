//! The calls as the static library has them, over slices: any bytes may be lent, and a number comes back.
//!
//! A host uses [`Linker`](crate::Linker), which owns the register and sees to its room. This layer is for one that keeps the
//! register's buffers itself, as a program in C does; include/fillqhano.h says what each buffer holds.

/// What a call is lent: the window with its address, and the register's three buffers. Any bytes will do.
#[derive(Debug)]
pub struct Buffers<'a> {
    /// The address of the window's first byte.
    pub at: u32,
    /// The window's bytes.
    pub window: &'a mut [u8],
    /// The register's header and one record a module.
    pub records: &'a mut [u8],
    /// The names of modules and exports.
    pub names: &'a mut [u8],
    /// The names that no module provided.
    pub missing: &'a mut [u8],
}

/// What a call answers.
#[derive(Debug, Clone, Copy, PartialEq, Eq)]
pub struct Answer {
    /// 0 if the call is done, 1 to 5 if it is refused.
    pub number: u32,
    /// A load's fixed size, 1 for an unload that removed a module, else 0.
    pub value: u32,
    /// 1 if an access of the call had a byte outside the window, else 0.
    pub touched: u32,
    /// Where the first such access started; 0 if there was none.
    pub first: u32,
}

impl Answer {
    /// The answer of this number, value and touch.
    pub fn new(number: u32, value: u32, touch: Option<u32>) -> Answer {
        Answer { number, value, touched: touch.is_some() as u32, first: touch.unwrap_or(0) }
    }

    /// Where the first access with a byte outside started, if there was one.
    pub fn touch(self) -> Option<u32> {
        (self.touched != 0).then_some(self.first)
    }
}

/// Declares functions of the library, all of which take the buffers first and where to write the answer last, and gives each
/// over slices.
macro_rules! calls {
    ($($(#[$attribute:meta])* $name:ident = $function:ident($($argument:ident),*);)*) => {
        unsafe extern "C" {
            $(fn $function(
                at: u32,
                window: *mut u8,
                window_length: usize,
                records: *mut u8,
                records_length: usize,
                names: *mut u8,
                names_length: usize,
                missing: *mut u8,
                missing_length: usize,
                $($argument: u32,)*
                value: *mut u32,
                touched: *mut u32,
                first: *mut u32,
            ) -> u32;)*
        }

        $($(#[$attribute])*
        pub fn $name(buffers: Buffers, $($argument: u32),*) -> Answer {
            let Buffers { at, window, records, names, missing } = buffers;
            let mut answer = Answer { number: 0, value: u32::MAX, touched: u32::MAX, first: u32::MAX };
            // SAFETY: the pointers and lengths are those of four slices, which do not overlap as they are all mutable, and of
            // three words of a local. The library keeps no pointer.
            answer.number = unsafe {
                $function(
                    at,
                    window.as_mut_ptr(),
                    window.len(),
                    records.as_mut_ptr(),
                    records.len(),
                    names.as_mut_ptr(),
                    names.len(),
                    missing.as_mut_ptr(),
                    missing.len(),
                    $($argument,)*
                    &mut answer.value,
                    &mut answer.touched,
                    &mut answer.first,
                )
            };
            answer
        })*
    };
}

calls! {
    /// Takes in the static module.
    initialize = fillqhano_initialize(base, size);

    /// Loads a module. An `auto_link` other than 0 counts as 1.
    #[allow(clippy::too_many_arguments)]
    load = fillqhano_load(
        base, size, data_segment, data_segment_size, bss_segment, bss_segment_size, auto_link, fix_level
    );

    /// Unloads the first module at this base.
    unload = fillqhano_unload(base);
}

unsafe extern "C" {
    fn fillqhano_write_image(
        description: *const u8,
        description_length: usize,
        image: *mut u8,
        image_length: usize,
        value: *mut u32,
    ) -> u32;

    fn fillqhano_read_image(
        image: *const u8,
        image_length: usize,
        description: *mut u8,
        description_length: usize,
        value: *mut u32,
    ) -> u32;
}

/// What a turn of the desk answers.
#[derive(Debug, Clone, Copy, PartialEq, Eq, Default)]
pub struct Turned {
    /// 3 or 4 if nothing was looked at; 9 for a module at another address; else that of the linker call made, 0 without one.
    pub number: u32,
    /// The linker call's value; 0 without one.
    pub value: u32,
    /// 0 if no buffer was served, 1 if one was answered, 2 if its id is outside 1 to 9: nothing is written then.
    pub served: u32,
    /// Whose buffer was served; 0 if none was.
    pub caller: u32,
    /// Its address; 0 if none was.
    pub buffer: u32,
    /// The linker call's touch: 1 if it had one, else 0. The desk's own accesses are none.
    pub touched: u32,
    /// Where that started; 0 if there was none.
    pub first: u32,
}

impl Turned {
    /// The answer of the linker call made; without one, as if of one that did nothing.
    pub fn answer(self) -> Answer {
        Answer { number: self.number, value: self.value, touched: self.touched, first: self.first }
    }
}

unsafe extern "C" {
    fn fillqhano_send(desk: *mut u8, desk_length: usize, caller: u32, buffer: u32, value: *mut u32) -> u32;

    fn fillqhano_turn(
        at: u32,
        window: *mut u8,
        window_length: usize,
        records: *mut u8,
        records_length: usize,
        names: *mut u8,
        names_length: usize,
        missing: *mut u8,
        missing_length: usize,
        desk: *mut u8,
        desk_length: usize,
        value: *mut u32,
        served: *mut u32,
        caller: *mut u32,
        buffer: *mut u32,
        touched: *mut u32,
        first: *mut u32,
    ) -> u32;
}

/// Puts the address of a command buffer at the end of its caller's queue. Gives the number and the value: 0 and 0, or 8 and 0 for a ninth
/// caller, a seventeenth buffer, or fewer bytes than a desk has; no byte changes then.
pub fn send(desk: &mut [u8], caller: u32, buffer: u32) -> (u32, u32) {
    let mut value = u32::MAX;
    // SAFETY: the pointer and the length are those of a slice, and the last pointer is that of a local word.
    let number = unsafe { fillqhano_send(desk.as_mut_ptr(), desk.len(), caller, buffer, &mut value) };
    (number, value)
}

/// Serves the oldest command buffer of the caller whose turn it is.
pub fn turn(buffers: Buffers, desk: &mut [u8]) -> Turned {
    let Buffers { at, window, records, names, missing } = buffers;
    let not_written = u32::MAX;
    let mut turned = Turned {
        number: 0,
        value: not_written,
        served: not_written,
        caller: not_written,
        buffer: not_written,
        touched: not_written,
        first: not_written,
    };
    // SAFETY: the pointers and lengths are those of five slices, which do not overlap as they are all mutable, and of six words
    // of a local. The library keeps no pointer.
    turned.number = unsafe {
        fillqhano_turn(
            at,
            window.as_mut_ptr(),
            window.len(),
            records.as_mut_ptr(),
            records.len(),
            names.as_mut_ptr(),
            names.len(),
            missing.as_mut_ptr(),
            missing.len(),
            desk.as_mut_ptr(),
            desk.len(),
            &mut turned.value,
            &mut turned.served,
            &mut turned.caller,
            &mut turned.buffer,
            &mut turned.touched,
            &mut turned.first,
        )
    };
    turned
}

/// Writes the image of a description to the buffer's front. Gives the number and the value: 0 and the image's size; 6 and 0 for a description that
/// makes no image that is well laid in every place; 7 and 0 for a buffer that is too short. All other bytes of the buffer stay.
pub fn write_image(description: &[u8], image: &mut [u8]) -> (u32, u32) {
    let mut value = u32::MAX;
    // SAFETY: the pointers and lengths are those of two slices, which do not overlap as one is mutable, and of a local word.
    let number =
        unsafe { fillqhano_write_image(description.as_ptr(), description.len(), image.as_mut_ptr(), image.len(), &mut value) };
    (number, value)
}

/// Writes the description that an image was made from to the buffer's front. Gives the number and the value: 0 and the description's length;
/// 6 and 0 for an image shorter than its header says; 7 and 0 for a buffer that is too short. All other bytes of the buffer stay.
pub fn read_image(image: &[u8], description: &mut [u8]) -> (u32, u32) {
    let mut value = u32::MAX;
    // SAFETY: as above.
    let number =
        unsafe { fillqhano_read_image(image.as_ptr(), image.len(), description.as_mut_ptr(), description.len(), &mut value) };
    (number, value)
}
