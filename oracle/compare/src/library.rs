//! The library's face: twelve C functions; a slice passes as pointer and length.

/// `sandzguli_check`, `sandzguli_check_table`, `sandzguli_check_operators`, `sandzguli_check_older`,
/// `sandzguli_check_newer`, `sandzguli_generations`, `sandzguli_joint_label`; `sandzguli_pattern`, of which the bytes
/// are a pattern.
pub type Asks = unsafe extern "C" fn(page: *const u8, page_len: usize) -> u64;

/// `sandzguli_copy`, `sandzguli_canonical`, `sandzguli_split`; `sandzguli_signature`, of which the bytes are a name.
pub type Writes =
    unsafe extern "C" fn(page: *const u8, page_len: usize, out: *mut u8, out_len: usize) -> u64;

/// The calls of an archive, or what stands in for them.
#[derive(Clone, Copy)]
pub struct Library {
    pub check: Asks,
    pub check_table: Asks,
    pub check_operators: Asks,
    pub check_older: Asks,
    pub check_newer: Asks,
    pub generations: Asks,
    pub joint_label: Asks,
    pub copy: Writes,
    pub canonical: Writes,
    pub split: Writes,
    pub pattern: Asks,
    pub signature: Writes,
}

#[cfg(feature = "library")]
extern "C" {
    fn sandzguli_check(page: *const u8, page_len: usize) -> u64;
    fn sandzguli_check_table(page: *const u8, page_len: usize) -> u64;
    fn sandzguli_check_operators(page: *const u8, page_len: usize) -> u64;
    fn sandzguli_check_older(page: *const u8, page_len: usize) -> u64;
    fn sandzguli_check_newer(page: *const u8, page_len: usize) -> u64;
    fn sandzguli_generations(page: *const u8, page_len: usize) -> u64;
    fn sandzguli_joint_label(page: *const u8, page_len: usize) -> u64;
    fn sandzguli_copy(page: *const u8, page_len: usize, out: *mut u8, out_len: usize) -> u64;
    fn sandzguli_canonical(page: *const u8, page_len: usize, out: *mut u8, out_len: usize) -> u64;
    fn sandzguli_split(page: *const u8, page_len: usize, out: *mut u8, out_len: usize) -> u64;
    fn sandzguli_pattern(pattern: *const u8, pattern_len: usize) -> u64;
    fn sandzguli_signature(name: *const u8, name_len: usize, out: *mut u8, out_len: usize) -> u64;
}

#[cfg(feature = "library")]
impl Library {
    /// The calls of the archive that this program was built with.
    pub fn linked() -> Self {
        Self {
            check: sandzguli_check,
            check_table: sandzguli_check_table,
            check_operators: sandzguli_check_operators,
            check_older: sandzguli_check_older,
            check_newer: sandzguli_check_newer,
            generations: sandzguli_generations,
            joint_label: sandzguli_joint_label,
            copy: sandzguli_copy,
            canonical: sandzguli_canonical,
            split: sandzguli_split,
            pattern: sandzguli_pattern,
            signature: sandzguli_signature,
        }
    }
}

#[cfg(feature = "before")]
extern "C" {
    fn before_check(page: *const u8, page_len: usize) -> u64;
    fn before_joint_label(page: *const u8, page_len: usize) -> u64;
    fn before_copy(page: *const u8, page_len: usize, out: *mut u8, out_len: usize) -> u64;
    fn before_canonical(page: *const u8, page_len: usize, out: *mut u8, out_len: usize) -> u64;
    fn before_split(page: *const u8, page_len: usize, out: *mut u8, out_len: usize) -> u64;
}

#[cfg(feature = "before")]
impl Library {
    /// The calls of the earlier archive that this program was built with.
    pub fn before() -> Self {
        Self {
            check: before_check,
            check_table: missing,
            check_operators: missing,
            check_older: missing,
            check_newer: missing,
            generations: missing,
            joint_label: before_joint_label,
            copy: before_copy,
            canonical: before_canonical,
            split: before_split,
            pattern: missing,
            signature: missing_too,
        }
    }
}

/// The earliest archives have no such call, and no earlier one is asked.
#[cfg(feature = "before")]
unsafe extern "C" fn missing(_: *const u8, _: usize) -> u64 {
    panic!("an earlier archive is not asked about patterns, functions, operators and generations")
}

/// The same of a call that writes.
#[cfg(feature = "before")]
unsafe extern "C" fn missing_too(_: *const u8, _: usize, _: *mut u8, _: usize) -> u64 {
    panic!("an earlier archive is not asked about functions")
}
