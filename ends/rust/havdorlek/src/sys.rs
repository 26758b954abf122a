//! The archive's calls, as `ends/c/havdorlek.h` declares them: it says what a caller lends, and for how long.

extern "C" {
    /// [`raw::counts`](crate::raw::counts) on pointers.
    pub fn havdorlek_counts(
        shares: *const u32,
        members: usize,
        u: u32,
        r: u32,
        q: u32,
        out: *mut u32,
        places: usize,
    ) -> u32;

    /// [`raw::first_pair`](crate::raw::first_pair) on pointers.
    pub fn havdorlek_first_pair(
        sending: *const u32,
        sending_members: usize,
        sending_u: u32,
        sending_r: u32,
        receiving: *const u32,
        receiving_members: usize,
        receiving_u: u32,
        receiving_r: u32,
        q: u32,
        k: u64,
        answer: *mut u64,
    ) -> u32;

    /// [`raw::resend_pair`](crate::raw::resend_pair) on pointers.
    pub fn havdorlek_resend_pair(
        sending: *const u32,
        sending_members: usize,
        sending_u: u32,
        sending_r: u32,
        receiving: *const u32,
        receiving_members: usize,
        receiving_u: u32,
        receiving_r: u32,
        q: u32,
        k: u64,
        n: u32,
        answer: *mut u64,
    ) -> u32;

    /// [`raw::open`](crate::raw::open) on pointers.
    pub fn havdorlek_open(
        sending: *const u32,
        sending_members: usize,
        sending_u: u32,
        sending_r: u32,
        receiving: *const u32,
        receiving_members: usize,
        receiving_u: u32,
        receiving_r: u32,
        q: u32,
        window: *mut u64,
    ) -> u32;

    /// [`raw::judge`](crate::raw::judge) on pointers.
    pub fn havdorlek_judge(window: *const u64) -> u32;

    /// [`raw::send`](crate::raw::send) on pointers.
    pub fn havdorlek_send(window: *mut u64, k: u64) -> u32;

    /// [`raw::report`](crate::raw::report) on pointers.
    pub fn havdorlek_report(
        window: *mut u64,
        member: u32,
        number: u64,
        mask: u64,
        out: *mut u8,
        room: usize,
        answer: *mut u64,
    ) -> u32;

    /// [`raw::fresh`](crate::raw::fresh) on pointers.
    pub fn havdorlek_fresh(holdings: *mut u64);

    /// [`raw::arrive`](crate::raw::arrive) on pointers.
    pub fn havdorlek_arrive(holdings: *mut u64, k: u64) -> u32;

    /// [`raw::receiver_report`](crate::raw::receiver_report) on pointers.
    pub fn havdorlek_receiver_report(holdings: *const u64, answer: *mut u64) -> u32;

    /// [`raw::read`](crate::raw::read) on pointers.
    pub fn havdorlek_read(bytes: *const u8, length: usize, answer: *mut u64) -> u32;

    /// [`raw::write`](crate::raw::write) on pointers.
    pub fn havdorlek_write(kind: u8, member: u8, number: u64, mask: u64, out: *mut u8, room: usize) -> u32;

    /// [`raw::plan`](crate::raw::plan) on pointers.
    pub fn havdorlek_plan(input: *const u8, length: usize, out: *mut u8) -> usize;
}
