//! The calls of `include/ardhrumesh.h`, with slices and arrays in the place of pointers.

mod raw {
    extern "C" {
        pub fn ardh_next_item(
            bytes: *const u8,
            length: usize,
            start: usize,
            remembered: *mut [u16; 3],
            list: *mut i32,
            room: usize,
            item: *mut [usize; 7],
            values: *mut [i32; 4],
        ) -> u8;
        pub fn ardh_write_command(
            first: u8,
            second: u8,
            values: *const [i32; 4],
            list: *const i32,
            entries: usize,
            remembered: *mut [u16; 3],
            out: *mut u8,
            room: usize,
            written: *mut usize,
        ) -> u8;
        pub fn ardh_read_integer_report(
            bytes: *const u8,
            length: usize,
            start: usize,
            value: *mut i32,
            place: *mut usize,
        ) -> u8;
        pub fn ardh_read_string_report(
            bytes: *const u8,
            length: usize,
            start: usize,
            list: *mut i32,
            room: usize,
            count: *mut usize,
            place: *mut usize,
        ) -> u8;
        pub fn ardh_write_integer_report(
            value: i32,
            out: *mut u8,
            room: usize,
            start: usize,
            next: *mut usize,
        ) -> u8;
        pub fn ardh_write_string_report(
            list: *const i32,
            entries: usize,
            out: *mut u8,
            room: usize,
            start: usize,
            next: *mut usize,
        ) -> u8;
        pub fn ardh_fresh(w: usize, h: usize, record: *mut [usize; 7]) -> u8;
        pub fn ardh_set_bits(
            w: usize,
            h: usize,
            record: *mut [usize; 7],
            first: i32,
            second: i32,
            third: i32,
        ) -> u8;
        pub fn ardh_set_viewport(
            w: usize,
            h: usize,
            record: *mut [usize; 7],
            x: i32,
            y: i32,
            other_x: i32,
            other_y: i32,
        ) -> u8;
        pub fn ardh_set_beam(w: usize, h: usize, record: *mut [usize; 7], x: i32, y: i32) -> u8;
        pub fn ardh_step(w: usize, h: usize, record: *mut [usize; 7]) -> u8;
        pub fn ardh_draw_raster(
            surface: *mut u8,
            length: usize,
            w: usize,
            h: usize,
            record: *mut [usize; 7],
            n: i32,
            characters: *const i32,
            entries: usize,
            count: *mut usize,
        ) -> u8;
        pub fn ardh_draw_runs(
            surface: *mut u8,
            length: usize,
            w: usize,
            h: usize,
            record: *mut [usize; 7],
            codes: *const i32,
            entries: usize,
            count: *mut usize,
        ) -> u8;
        pub fn ardh_define(
            store: *mut u8,
            length: usize,
            number: i32,
            contents: *const i32,
            entries: usize,
        ) -> u8;
        pub fn ardh_look_up(
            volatile: *const u8,
            volatile_length: usize,
            saved: *const u8,
            saved_length: usize,
            number: i32,
            place: *mut [usize; 3],
        ) -> u8;
        pub fn ardh_expand(
            volatile: *const u8,
            volatile_length: usize,
            saved: *const u8,
            saved_length: usize,
            number: i32,
            remembered: *mut [u16; 3],
            out: *mut u8,
            room: usize,
            counts: *mut [usize; 2],
        ) -> u8;
    }
}

// Each call below lends slices and references that live as long as the call, and exclusive ones for what it may write to:
// that is all that the header asks of a caller.

pub fn next_item(
    bytes: &[u8],
    start: usize,
    remembered: &mut [u16; 3],
    list: &mut [i32],
    item: &mut [usize; 7],
    values: &mut [i32; 4],
) -> u8 {
    unsafe {
        raw::ardh_next_item(
            bytes.as_ptr(),
            bytes.len(),
            start,
            remembered,
            list.as_mut_ptr(),
            list.len(),
            item,
            values,
        )
    }
}

pub fn write_command(
    letters: [u8; 2],
    values: &[i32; 4],
    list: &[i32],
    remembered: &mut [u16; 3],
    out: &mut [u8],
    written: &mut usize,
) -> u8 {
    unsafe {
        raw::ardh_write_command(
            letters[0],
            letters[1],
            values,
            list.as_ptr(),
            list.len(),
            remembered,
            out.as_mut_ptr(),
            out.len(),
            written,
        )
    }
}

pub fn read_integer_report(bytes: &[u8], start: usize, value: &mut i32, place: &mut usize) -> u8 {
    unsafe { raw::ardh_read_integer_report(bytes.as_ptr(), bytes.len(), start, value, place) }
}

pub fn read_string_report(
    bytes: &[u8],
    start: usize,
    list: &mut [i32],
    count: &mut usize,
    place: &mut usize,
) -> u8 {
    unsafe {
        raw::ardh_read_string_report(
            bytes.as_ptr(),
            bytes.len(),
            start,
            list.as_mut_ptr(),
            list.len(),
            count,
            place,
        )
    }
}

pub fn write_integer_report(value: i32, out: &mut [u8], start: usize, next: &mut usize) -> u8 {
    unsafe { raw::ardh_write_integer_report(value, out.as_mut_ptr(), out.len(), start, next) }
}

pub fn write_string_report(list: &[i32], out: &mut [u8], start: usize, next: &mut usize) -> u8 {
    unsafe {
        raw::ardh_write_string_report(
            list.as_ptr(),
            list.len(),
            out.as_mut_ptr(),
            out.len(),
            start,
            next,
        )
    }
}

pub fn fresh(w: usize, h: usize, record: &mut [usize; 7]) -> u8 {
    unsafe { raw::ardh_fresh(w, h, record) }
}

pub fn set_bits(w: usize, h: usize, record: &mut [usize; 7], integers: [i32; 3]) -> u8 {
    unsafe { raw::ardh_set_bits(w, h, record, integers[0], integers[1], integers[2]) }
}

pub fn set_viewport(w: usize, h: usize, record: &mut [usize; 7], corners: [i32; 4]) -> u8 {
    unsafe { raw::ardh_set_viewport(w, h, record, corners[0], corners[1], corners[2], corners[3]) }
}

pub fn set_beam(w: usize, h: usize, record: &mut [usize; 7], to: [i32; 2]) -> u8 {
    unsafe { raw::ardh_set_beam(w, h, record, to[0], to[1]) }
}

pub fn step(w: usize, h: usize, record: &mut [usize; 7]) -> u8 {
    unsafe { raw::ardh_step(w, h, record) }
}

pub fn draw_raster(
    surface: &mut [u8],
    w: usize,
    h: usize,
    record: &mut [usize; 7],
    n: i32,
    characters: &[i32],
    count: &mut usize,
) -> u8 {
    unsafe {
        raw::ardh_draw_raster(
            surface.as_mut_ptr(),
            surface.len(),
            w,
            h,
            record,
            n,
            characters.as_ptr(),
            characters.len(),
            count,
        )
    }
}

pub fn draw_runs(
    surface: &mut [u8],
    w: usize,
    h: usize,
    record: &mut [usize; 7],
    codes: &[i32],
    count: &mut usize,
) -> u8 {
    unsafe {
        raw::ardh_draw_runs(
            surface.as_mut_ptr(),
            surface.len(),
            w,
            h,
            record,
            codes.as_ptr(),
            codes.len(),
            count,
        )
    }
}

pub fn define(store: &mut [u8], number: i32, contents: &[i32]) -> u8 {
    unsafe {
        raw::ardh_define(
            store.as_mut_ptr(),
            store.len(),
            number,
            contents.as_ptr(),
            contents.len(),
        )
    }
}

pub fn look_up(volatile: &[u8], saved: &[u8], number: i32, place: &mut [usize; 3]) -> u8 {
    unsafe {
        raw::ardh_look_up(
            volatile.as_ptr(),
            volatile.len(),
            saved.as_ptr(),
            saved.len(),
            number,
            place,
        )
    }
}

pub fn expand(
    volatile: &[u8],
    saved: &[u8],
    number: i32,
    remembered: &mut [u16; 3],
    out: &mut [u8],
    counts: &mut [usize; 2],
) -> u8 {
    unsafe {
        raw::ardh_expand(
            volatile.as_ptr(),
            volatile.len(),
            saved.as_ptr(),
            saved.len(),
            number,
            remembered,
            out.as_mut_ptr(),
            out.len(),
            counts,
        )
    }
}
