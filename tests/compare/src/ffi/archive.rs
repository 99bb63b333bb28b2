//! The host interface, as the archive offers it.

extern "C" {
    #[cfg(feature = "sheets")]
    pub fn sepalsail_check(sheet: *const u8, sheet_len: usize) -> u64;
    #[cfg(feature = "sheets")]
    pub fn sepalsail_build(
        kind: u32,
        bound: u32,
        parties: u32,
        out: *mut u8,
        out_len: usize,
    ) -> u64;
    #[cfg(feature = "sessions")]
    pub fn sepalsail_open(
        sheet: *const u8,
        sheet_len: usize,
        proposals: *const u8,
        proposals_len: usize,
        session: *mut u8,
        session_len: usize,
    ) -> u64;
    #[cfg(feature = "sessions")]
    pub fn sepalsail_step(session: *mut u8, session_len: usize, party: u32) -> u64;
    #[cfg(feature = "sessions")]
    pub fn sepalsail_stop(session: *mut u8, session_len: usize, party: u32) -> u64;
    #[cfg(feature = "sessions")]
    pub fn sepalsail_live(session: *const u8, session_len: usize) -> u64;
    #[cfg(feature = "runs")]
    pub fn sepalsail_run(
        sheet: *const u8,
        sheet_len: usize,
        proposals: *const u8,
        proposals_len: usize,
        schedule: *const u8,
        schedule_len: usize,
        out: *mut u8,
        out_len: usize,
    ) -> u64;
}
