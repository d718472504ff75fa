//! The functions of libcapi.a that have a code in FORM.md. A pointer and a count behind it are one lent slice; a
//! pointer alone is 64 bytes.
//! Every function answers with one word (call.rs says how it is read).

extern "C" {
    pub fn pair_start(
        settings: *const u64, settings_len: usize, first: *const u8, memory: *const u8, memory_len: usize,
        disk: *const u8, disk_len: usize, dirty: *mut u64, dirty_len: usize, held: *const u8, held_len: usize,
        stream: *const u8, stream_len: usize, standby_memory: *mut u8, standby_memory_len: usize,
        standby_disk: *mut u8, standby_disk_len: usize, staged_pages: *const u8, staged_pages_len: usize,
        staged_marks: *mut u64, staged_marks_len: usize, staged_blocks: *const u8, staged_blocks_len: usize,
        area: *mut u8, area_len: usize, primary: *mut u64, primary_len: usize, standby: *mut u64,
        standby_len: usize, pending: *mut u8, processor: *mut u8,
    ) -> u64;
    pub fn primary_memory_write(
        state: *mut u64, state_len: usize, memory: *mut u8, memory_len: usize, dirty: *mut u64, dirty_len: usize,
        page: usize, offset: usize, bytes: *const u8, bytes_len: usize,
    ) -> u64;
    pub fn primary_disk_write(
        state: *mut u64, state_len: usize, disk: *mut u8, disk_len: usize, stream: *mut u8, stream_len: usize,
        block: usize, bytes: *const u8, bytes_len: usize,
    ) -> u64;
    pub fn primary_packet(
        state: *mut u64, state_len: usize, held: *mut u8, held_len: usize, port: usize, bytes: *const u8,
        bytes_len: usize,
    ) -> u64;
    pub fn primary_checkpoint(
        state: *mut u64, state_len: usize, memory: *const u8, memory_len: usize, dirty: *mut u64, dirty_len: usize,
        stream: *mut u8, stream_len: usize, processor: *const u8,
    ) -> u64;
    pub fn primary_drain(
        state: *mut u64, state_len: usize, stream: *mut u8, stream_len: usize, n: usize, destination: *mut u8,
        destination_len: usize,
    ) -> u64;
    pub fn primary_acknowledge(state: *mut u64, state_len: usize, bytes: *const u8, bytes_len: usize) -> u64;
    pub fn primary_take(
        state: *mut u64, state_len: usize, held: *mut u8, held_len: usize, port: usize, destination: *mut u8,
        destination_len: usize,
    ) -> u64;
    pub fn primary_tick(state: *mut u64, state_len: usize) -> u64;
    pub fn standby_read(
        state: *mut u64, state_len: usize, pending: *mut u8, processor: *mut u8, memory: *mut u8, memory_len: usize,
        staged_pages: *mut u8, staged_pages_len: usize, staged_marks: *mut u64, staged_marks_len: usize,
        staged_blocks: *mut u8, staged_blocks_len: usize, bytes: *const u8, bytes_len: usize, reply: *mut u8,
        reply_len: usize,
    ) -> u64;
    pub fn standby_flush(
        state: *mut u64, state_len: usize, pending: *mut u8, processor: *mut u8, staged_blocks: *mut u8,
        staged_blocks_len: usize, disk: *mut u8, disk_len: usize, n: usize,
    ) -> u64;
    pub fn standby_tick(
        state: *mut u64, state_len: usize, pending: *mut u8, processor: *mut u8, staged_marks: *mut u64,
        staged_marks_len: usize,
    ) -> u64;
    pub fn standby_activate(
        state: *mut u64, state_len: usize, pending: *mut u8, processor: *mut u8, area: *mut u8, area_len: usize,
    ) -> u64;
    pub fn standby_memory_write(
        state: *mut u64, state_len: usize, pending: *mut u8, processor: *mut u8, memory: *mut u8, memory_len: usize,
        page: usize, offset: usize, bytes: *const u8, bytes_len: usize,
    ) -> u64;
    pub fn standby_disk_write(
        state: *mut u64, state_len: usize, pending: *mut u8, processor: *mut u8, disk: *mut u8, disk_len: usize,
        block: usize, bytes: *const u8, bytes_len: usize,
    ) -> u64;
    pub fn pair_disk_choice(
        primary: *const u8, primary_len: usize, standby: *const u8, standby_len: usize, area: *const u8,
        area_len: usize,
    ) -> u64;
    pub fn primary_sum(state: *const u64, state_len: usize, memory: *const u8, memory_len: usize) -> u64;
    pub fn standby_sum(
        state: *const u64, state_len: usize, pending: *const u8, processor: *const u8, memory: *const u8,
        memory_len: usize, order: *const u64, order_len: usize,
    ) -> u64;
    pub fn pair_normal_form(
        u: usize, m: usize, d: usize, b: usize, file: *const u8, file_length: usize, destination: *mut u8,
        destination_length: usize,
    ) -> u64;
}
