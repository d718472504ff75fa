//! The functions of libbench.a and of the memcpy baseline, on slices.

mod foreign {
    extern "C" {
        pub fn bench_checkpoint(
            u: usize,
            m: usize,
            waiting: usize,
            kept: usize,
            memory: *const u8,
            memory_len: usize,
            dirty: *mut u64,
            dirty_len: usize,
            stream: *mut u8,
            stream_len: usize,
        ) -> u64;
        pub fn bench_drain(
            u: usize,
            m: usize,
            waiting: usize,
            kept: usize,
            n: usize,
            rounds: usize,
            stream: *mut u8,
            stream_len: usize,
            destination: *mut u8,
            destination_len: usize,
        ) -> u64;
        pub fn bench_packets(
            kept: usize,
            size: usize,
            bytes: usize,
            rounds: usize,
            held: *mut u8,
            held_len: usize,
            port: usize,
            one: *const u8,
            one_len: usize,
            destination: *mut u8,
            destination_len: usize,
        ) -> u64;
        pub fn bench_read(
            u: usize,
            m: usize,
            s: usize,
            had: usize,
            seen: bool,
            rounds: usize,
            bytes: *const u8,
            bytes_len: usize,
            memory: *mut u8,
            memory_len: usize,
            pages: *mut u8,
            pages_len: usize,
            marks: *mut u64,
            marks_len: usize,
            blocks: *mut u8,
            blocks_len: usize,
            reply: *mut u8,
            reply_len: usize,
        ) -> u64;
        pub fn bench_flush(
            u: usize,
            d: usize,
            s: usize,
            staged: usize,
            n: usize,
            slots: *mut u8,
            slots_len: usize,
            disk: *mut u8,
            disk_len: usize,
        ) -> u64;
        pub fn bench_standby_ticks(
            u: usize,
            m: usize,
            s: usize,
            rounds: usize,
            marks: *mut u64,
            marks_len: usize,
        ) -> u64;
        pub fn bench_count(marks: *const u64, marks_len: usize, m: usize) -> u64;
        pub fn bench_walk(marks: *const u64, marks_len: usize, m: usize) -> u64;
        pub fn base_copy(dst: *mut u8, src: *const u8, n: usize);
        pub fn base_gather(dst: *mut u8, src: *const u8, u: usize, m: usize, step: usize, gap: usize);
        pub fn base_place(dst: *mut u8, src: *const u8, u: usize, m: usize, step: usize);
        pub fn base_scatter(dst: *mut u8, src: *const u8, u: usize, count: usize, gap: usize);
        pub fn base_move_out(dst: *mut u8, src: *mut u8, n: usize, total: usize);
        pub fn base_in_and_out(
            dst: *mut u8,
            held: *mut u8,
            one: *const u8,
            size: usize,
            others: usize,
            at: usize,
            out: usize,
        );
    }
}

pub fn checkpoint(u: usize, m: usize, kept: usize, memory: &[u8], dirty: &mut [u64], stream: &mut [u8]) -> u64 {
    let (d, s) = (dirty.len(), stream.len());
    unsafe {
        foreign::bench_checkpoint(
            u,
            m,
            0,
            kept,
            memory.as_ptr(),
            memory.len(),
            dirty.as_mut_ptr(),
            d,
            stream.as_mut_ptr(),
            s,
        )
    }
}

/// On a primary with U 64 and M 1.
pub fn drain(waiting: usize, n: usize, rounds: usize, stream: &mut [u8], destination: &mut [u8]) -> u64 {
    let (s, d) = (stream.len(), destination.len());
    unsafe { foreign::bench_drain(64, 1, waiting, 0, n, rounds, stream.as_mut_ptr(), s, destination.as_mut_ptr(), d) }
}

/// On a primary that holds kept packets of port 0.
pub fn packets(
    kept: usize,
    size: usize,
    rounds: usize,
    held: &mut [u8],
    port: usize,
    one: &[u8],
    destination: &mut [u8],
) -> u64 {
    let (h, d) = (held.len(), destination.len());
    unsafe {
        foreign::bench_packets(
            kept,
            size,
            kept * size,
            rounds,
            held.as_mut_ptr(),
            h,
            port,
            one.as_ptr(),
            one.len(),
            destination.as_mut_ptr(),
            d,
        )
    }
}

/// The standby's buffers that a read is lent.
pub struct Lent {
    pub memory: Vec<u8>,
    pub pages: Vec<u8>,
    pub marks: Vec<u64>,
    pub blocks: Vec<u8>,
    pub reply: [u8; 8],
}

/// On a standby with 64 slots.
pub fn read(u: usize, m: usize, had: usize, seen: bool, rounds: usize, bytes: &[u8], lent: &mut Lent) -> u64 {
    unsafe {
        foreign::bench_read(
            u,
            m,
            64,
            had,
            seen,
            rounds,
            bytes.as_ptr(),
            bytes.len(),
            lent.memory.as_mut_ptr(),
            lent.memory.len(),
            lent.pages.as_mut_ptr(),
            lent.pages.len(),
            lent.marks.as_mut_ptr(),
            lent.marks.len(),
            lent.blocks.as_mut_ptr(),
            lent.blocks.len(),
            lent.reply.as_mut_ptr(),
            lent.reply.len(),
        )
    }
}

/// On a standby with 64 slots and 64 blocks.
pub fn flush(u: usize, staged: usize, n: usize, slots: &mut [u8], disk: &mut [u8]) -> u64 {
    let (s, d) = (slots.len(), disk.len());
    unsafe { foreign::bench_flush(u, 64, 64, staged, n, slots.as_mut_ptr(), s, disk.as_mut_ptr(), d) }
}

/// On a standby with 64 slots.
pub fn standby_ticks(u: usize, m: usize, rounds: usize, marks: &mut [u64]) -> u64 {
    unsafe { foreign::bench_standby_ticks(u, m, 64, rounds, marks.as_mut_ptr(), marks.len()) }
}

pub fn count(marks: &[u64], m: usize) -> u64 {
    unsafe { foreign::bench_count(marks.as_ptr(), marks.len(), m) }
}

/// How many marked pages the walk passes.
pub fn walk(marks: &[u64], m: usize) -> u64 {
    unsafe { foreign::bench_walk(marks.as_ptr(), marks.len(), m) }
}

pub fn base_copy(dst: &mut [u8], src: &[u8]) {
    assert!(dst.len() >= src.len());
    unsafe { foreign::base_copy(dst.as_mut_ptr(), src.as_ptr(), src.len()) }
}

/// Every step-th page of src, each behind a gap.
pub fn base_gather(dst: &mut [u8], src: &[u8], u: usize, step: usize, gap: usize) {
    let m = src.len() / u;
    assert!(dst.len() >= m.div_ceil(step) * (u + gap));
    unsafe { foreign::base_gather(dst.as_mut_ptr(), src.as_ptr(), u, m, step, gap) }
}

/// Every step-th page of src to its place.
pub fn base_place(dst: &mut [u8], src: &[u8], u: usize, step: usize) {
    assert!(dst.len() == src.len());
    unsafe { foreign::base_place(dst.as_mut_ptr(), src.as_ptr(), u, src.len() / u, step) }
}

/// The data of count records, with gap bytes in front of each, to their places.
pub fn base_scatter(dst: &mut [u8], src: &[u8], u: usize, count: usize, gap: usize) {
    assert!(dst.len() >= count * u && src.len() >= count * (u + gap));
    unsafe { foreign::base_scatter(dst.as_mut_ptr(), src.as_ptr(), u, count, gap) }
}

/// The first n of total bytes out, the rest to the front.
pub fn base_move_out(dst: &mut [u8], src: &mut [u8], n: usize, total: usize) {
    assert!(n <= total && total <= src.len() && n <= dst.len());
    unsafe { foreign::base_move_out(dst.as_mut_ptr(), src.as_mut_ptr(), n, total) }
}

/// One packet behind the others, then the one of these many bytes at a place out.
pub fn base_in_and_out(dst: &mut [u8], held: &mut [u8], one: &[u8], others: usize, at: usize, out: usize) {
    assert!(others + one.len() <= held.len() && out <= dst.len() && at + out <= others + one.len());
    unsafe { foreign::base_in_and_out(dst.as_mut_ptr(), held.as_mut_ptr(), one.as_ptr(), one.len(), others, at, out) }
}
