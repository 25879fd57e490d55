//! The library's calls, as include/mahyrei.h has them, on slices.

mod c {
    extern "C" {
        pub fn mahyrei_word_write(
            rate: u64,
            block: *const u8,
            block_len: usize,
            word: *mut u8,
            word_len: usize,
        ) -> u64;
        pub fn mahyrei_word_read(
            rate: u64,
            word: *const u8,
            word_len: usize,
            block: *mut u8,
            block_len: usize,
        ) -> u64;
        pub fn mahyrei_pass_write(
            rate: u64,
            blocks: *const u8,
            blocks_len: usize,
            words: *mut u8,
            words_len: usize,
        ) -> u64;
        pub fn mahyrei_pass_read(
            rate: u64,
            words: *const u8,
            words_len: usize,
            blocks: *mut u8,
            blocks_len: usize,
        ) -> u64;
        pub fn mahyrei_bit_spread(rate: u64, bit: u64, places: *mut u8, places_len: usize) -> u64;
        pub fn mahyrei_run_write(
            header: *const u8,
            header_len: usize,
            marker: *const u8,
            marker_len: usize,
            frames: *const u8,
            frames_len: usize,
            slots: *mut u8,
            slots_len: usize,
        ) -> u64;
        pub fn mahyrei_run_read(
            header: *const u8,
            header_len: usize,
            marker: *const u8,
            marker_len: usize,
            slots: *const u8,
            slots_len: usize,
            frames: *mut u8,
            frames_len: usize,
        ) -> u64;
        pub fn mahyrei_run_find(
            header: *const u8,
            header_len: usize,
            marker: *const u8,
            marker_len: usize,
            capture: *const u8,
            capture_len: usize,
        ) -> u64;
        pub fn mahyrei_run_find_from(
            header: *const u8,
            header_len: usize,
            marker: *const u8,
            marker_len: usize,
            capture: *const u8,
            capture_len: usize,
            from: u64,
        ) -> u64;
        pub fn mahyrei_run_cut(
            header: *const u8,
            header_len: usize,
            capture: *const u8,
            capture_len: usize,
            slot: u64,
            slots: *mut u8,
            slots_len: usize,
        ) -> u64;
        pub fn mahyrei_header_widen(
            eight: *const u8,
            eight_len: usize,
            ten: *mut u8,
            ten_len: usize,
        ) -> u64;
        pub fn mahyrei_header_narrow(
            ten: *const u8,
            ten_len: usize,
            eight: *mut u8,
            eight_len: usize,
        ) -> u64;
        pub fn mahyrei_fades_count(
            header: *const u8,
            header_len: usize,
            fades: *const u32,
            fades_len: usize,
            counts: *mut u32,
            counts_len: usize,
        ) -> u64;
        pub fn mahyrei_delay_write(
            header: *const u8,
            header_len: usize,
            step: u64,
            symbol: u64,
            area: *mut u8,
            area_len: usize,
        ) -> u64;
        pub fn mahyrei_delay_read(
            header: *const u8,
            header_len: usize,
            step: u64,
            symbol: u64,
            area: *mut u8,
            area_len: usize,
        ) -> u64;
        pub fn mahyrei_rack_load(
            area: *mut u8,
            area_len: usize,
            caller: u64,
            owner: u64,
            place: u64,
            header: *const u8,
            header_len: usize,
        ) -> u64;
        pub fn mahyrei_rack_read(
            area: *const u8,
            area_len: usize,
            caller: u64,
            owner: u64,
            place: u64,
            header: *mut u8,
            header_len: usize,
        ) -> u64;
        pub fn mahyrei_rack_drop(
            area: *mut u8,
            area_len: usize,
            caller: u64,
            owner: u64,
            place: u64,
        ) -> u64;
        pub fn mahyrei_rack_lend(
            area: *mut u8,
            area_len: usize,
            caller: u64,
            owner: u64,
            place: u64,
            to: u64,
        ) -> u64;
        pub fn mahyrei_uplink_write(
            frames: *const u8,
            frames_len: usize,
            slots: *mut u8,
            slots_len: usize,
        ) -> u64;
        pub fn mahyrei_uplink_read(
            slots: *const u8,
            slots_len: usize,
            frames: *mut u8,
            frames_len: usize,
        ) -> u64;
    }
}

// SAFETY, of all: each pointer is valid for the length beside it, and the slice that is
// written overlaps no other, since it is borrowed alone.

pub fn word_write(rate: u64, block: &[u8], word: &mut [u8]) -> u64 {
    let (word, word_len) = (word.as_mut_ptr(), word.len());
    unsafe { c::mahyrei_word_write(rate, block.as_ptr(), block.len(), word, word_len) }
}

pub fn word_read(rate: u64, word: &[u8], block: &mut [u8]) -> u64 {
    let (block, block_len) = (block.as_mut_ptr(), block.len());
    unsafe { c::mahyrei_word_read(rate, word.as_ptr(), word.len(), block, block_len) }
}

pub fn pass_write(rate: u64, blocks: &[u8], words: &mut [u8]) -> u64 {
    let (words, words_len) = (words.as_mut_ptr(), words.len());
    unsafe { c::mahyrei_pass_write(rate, blocks.as_ptr(), blocks.len(), words, words_len) }
}

pub fn pass_read(rate: u64, words: &[u8], blocks: &mut [u8]) -> u64 {
    let (blocks, blocks_len) = (blocks.as_mut_ptr(), blocks.len());
    unsafe { c::mahyrei_pass_read(rate, words.as_ptr(), words.len(), blocks, blocks_len) }
}

pub fn bit_spread(rate: u64, bit: u64, places: &mut [u8]) -> u64 {
    unsafe { c::mahyrei_bit_spread(rate, bit, places.as_mut_ptr(), places.len()) }
}

pub fn run_write(header: &[u8], marker: &[u8], frames: &[u8], slots: &mut [u8]) -> u64 {
    unsafe {
        c::mahyrei_run_write(
            header.as_ptr(),
            header.len(),
            marker.as_ptr(),
            marker.len(),
            frames.as_ptr(),
            frames.len(),
            slots.as_mut_ptr(),
            slots.len(),
        )
    }
}

pub fn run_read(header: &[u8], marker: &[u8], slots: &[u8], frames: &mut [u8]) -> u64 {
    unsafe {
        c::mahyrei_run_read(
            header.as_ptr(),
            header.len(),
            marker.as_ptr(),
            marker.len(),
            slots.as_ptr(),
            slots.len(),
            frames.as_mut_ptr(),
            frames.len(),
        )
    }
}

pub fn run_find(header: &[u8], marker: &[u8], capture: &[u8]) -> u64 {
    unsafe {
        c::mahyrei_run_find(
            header.as_ptr(),
            header.len(),
            marker.as_ptr(),
            marker.len(),
            capture.as_ptr(),
            capture.len(),
        )
    }
}

pub fn run_find_from(header: &[u8], marker: &[u8], capture: &[u8], from: u64) -> u64 {
    unsafe {
        c::mahyrei_run_find_from(
            header.as_ptr(),
            header.len(),
            marker.as_ptr(),
            marker.len(),
            capture.as_ptr(),
            capture.len(),
            from,
        )
    }
}

pub fn run_cut(header: &[u8], capture: &[u8], slot: u64, slots: &mut [u8]) -> u64 {
    unsafe {
        c::mahyrei_run_cut(
            header.as_ptr(),
            header.len(),
            capture.as_ptr(),
            capture.len(),
            slot,
            slots.as_mut_ptr(),
            slots.len(),
        )
    }
}

pub fn header_widen(eight: &[u8], ten: &mut [u8]) -> u64 {
    unsafe { c::mahyrei_header_widen(eight.as_ptr(), eight.len(), ten.as_mut_ptr(), ten.len()) }
}

pub fn header_narrow(ten: &[u8], eight: &mut [u8]) -> u64 {
    unsafe { c::mahyrei_header_narrow(ten.as_ptr(), ten.len(), eight.as_mut_ptr(), eight.len()) }
}

pub fn fades_count(header: &[u8], fades: &[u32], counts: &mut [u32]) -> u64 {
    unsafe {
        c::mahyrei_fades_count(
            header.as_ptr(),
            header.len(),
            fades.as_ptr(),
            fades.len(),
            counts.as_mut_ptr(),
            counts.len(),
        )
    }
}

pub fn delay_write(header: &[u8], step: u64, symbol: u64, area: &mut [u8]) -> u64 {
    let (area, area_len) = (area.as_mut_ptr(), area.len());
    unsafe { c::mahyrei_delay_write(header.as_ptr(), header.len(), step, symbol, area, area_len) }
}

pub fn delay_read(header: &[u8], step: u64, symbol: u64, area: &mut [u8]) -> u64 {
    let (area, area_len) = (area.as_mut_ptr(), area.len());
    unsafe { c::mahyrei_delay_read(header.as_ptr(), header.len(), step, symbol, area, area_len) }
}

pub fn rack_load(area: &mut [u8], caller: u64, owner: u64, place: u64, header: &[u8]) -> u64 {
    let (area, area_len) = (area.as_mut_ptr(), area.len());
    let (header, header_len) = (header.as_ptr(), header.len());
    unsafe { c::mahyrei_rack_load(area, area_len, caller, owner, place, header, header_len) }
}

pub fn rack_read(area: &[u8], caller: u64, owner: u64, place: u64, header: &mut [u8]) -> u64 {
    let (area, area_len) = (area.as_ptr(), area.len());
    let (header, header_len) = (header.as_mut_ptr(), header.len());
    unsafe { c::mahyrei_rack_read(area, area_len, caller, owner, place, header, header_len) }
}

pub fn rack_drop(area: &mut [u8], caller: u64, owner: u64, place: u64) -> u64 {
    unsafe { c::mahyrei_rack_drop(area.as_mut_ptr(), area.len(), caller, owner, place) }
}

pub fn rack_lend(area: &mut [u8], caller: u64, owner: u64, place: u64, to: u64) -> u64 {
    unsafe { c::mahyrei_rack_lend(area.as_mut_ptr(), area.len(), caller, owner, place, to) }
}

pub fn uplink_write(frames: &[u8], slots: &mut [u8]) -> u64 {
    let (slots, slots_len) = (slots.as_mut_ptr(), slots.len());
    unsafe { c::mahyrei_uplink_write(frames.as_ptr(), frames.len(), slots, slots_len) }
}

pub fn uplink_read(slots: &[u8], frames: &mut [u8]) -> u64 {
    let (frames, frames_len) = (frames.as_mut_ptr(), frames.len());
    unsafe { c::mahyrei_uplink_read(slots.as_ptr(), slots.len(), frames, frames_len) }
}
