//! The calls of the static library, one to one with `lang_ty.h`. docs/HOST.md says what each asks of its pointers and
//! leaves in memory; the rest of this crate needs nothing of this module from its user.

/// The most names and bytes of a table, words and starts of an arena, bytes of the text of a type and of a sheet, and values
/// of a fix.
pub const NAMES: usize = 4_096;
pub const TABLE: usize = 65_536;
pub const WORDS: usize = 16_384;
pub const STARTS: usize = 4_096;
pub const TEXT: usize = 65_536;
pub const SHEET: usize = 65_536;
pub const VALUES: usize = 1_024;
/// How much is lent, no more and no less, where no length is passed.
pub const VARS: usize = 4_096;
pub const TYVAR_NAME: usize = 11;
pub const LINE: usize = 65_544;

/// What `order` is set to.
pub const LESS: u32 = 0;
pub const EQUAL: u32 = 1;
pub const GREATER: u32 = 2;

extern "C" {
    pub fn lang_ty_check_names(table: *const u8, table_len: usize, count: *mut usize) -> u32;

    pub fn lang_ty_name_at(
        table: *const u8,
        table_len: usize,
        number: u32,
        start: *mut usize,
        length: *mut usize,
    ) -> u32;

    pub fn lang_ty_find_name(
        table: *const u8,
        table_len: usize,
        text: *const u8,
        text_len: usize,
        found: *mut u32,
        place: *mut u32,
    ) -> u32;

    pub fn lang_ty_compare_names(
        left: *const u8,
        left_len: usize,
        right: *const u8,
        right_len: usize,
        order: *mut u32,
    ) -> u32;

    pub fn lang_ty_compare(
        table: *const u8,
        table_len: usize,
        words: *const u32,
        words_len: usize,
        starts: *const u32,
        starts_len: usize,
        nodes: usize,
        used: usize,
        left: u32,
        right: u32,
        order: *mut u32,
    ) -> u32;

    pub fn lang_ty_count_reachable(
        table: *const u8,
        table_len: usize,
        words: *const u32,
        words_len: usize,
        starts: *const u32,
        starts_len: usize,
        nodes: usize,
        used: usize,
        root: u32,
        count: *mut u32,
    ) -> u32;

    pub fn lang_ty_unwrap_named(
        table: *const u8,
        table_len: usize,
        words: *const u32,
        words_len: usize,
        starts: *const u32,
        starts_len: usize,
        nodes: usize,
        used: usize,
        root: u32,
        number: *mut u32,
    ) -> u32;

    pub fn lang_ty_has_type_vars(
        table: *const u8,
        table_len: usize,
        words: *const u32,
        words_len: usize,
        starts: *const u32,
        starts_len: usize,
        nodes: usize,
        used: usize,
        root: u32,
        is: *mut u32,
    ) -> u32;

    pub fn lang_ty_needs_var_normalization(
        table: *const u8,
        table_len: usize,
        words: *const u32,
        words_len: usize,
        starts: *const u32,
        starts_len: usize,
        nodes: usize,
        used: usize,
        root: u32,
        is: *mut u32,
    ) -> u32;

    pub fn lang_ty_contains_bare_tyvar(
        table: *const u8,
        table_len: usize,
        words: *const u32,
        words_len: usize,
        starts: *const u32,
        starts_len: usize,
        nodes: usize,
        used: usize,
        root: u32,
        is: *mut u32,
    ) -> u32;

    pub fn lang_ty_has_shared_tyvar_across_lambda_params(
        table: *const u8,
        table_len: usize,
        words: *const u32,
        words_len: usize,
        starts: *const u32,
        starts_len: usize,
        nodes: usize,
        used: usize,
        root: u32,
        is: *mut u32,
    ) -> u32;

    pub fn lang_ty_free_type_vars(
        table: *const u8,
        table_len: usize,
        words: *const u32,
        words_len: usize,
        starts: *const u32,
        starts_len: usize,
        nodes: usize,
        used: usize,
        root: u32,
        vars: *mut [u32; VARS],
        count: *mut usize,
    ) -> u32;

    pub fn lang_ty_structurally_eq(
        left_table: *const u8,
        left_table_len: usize,
        left_words: *const u32,
        left_words_len: usize,
        left_starts: *const u32,
        left_starts_len: usize,
        left_nodes: usize,
        left_used: usize,
        left_root: u32,
        right_table: *const u8,
        right_table_len: usize,
        right_words: *const u32,
        right_words_len: usize,
        right_starts: *const u32,
        right_starts_len: usize,
        right_nodes: usize,
        right_used: usize,
        right_root: u32,
        is: *mut u32,
    ) -> u32;

    pub fn lang_ty_fits(
        table: *const u8,
        table_len: usize,
        words: *const u32,
        words_len: usize,
        starts: *const u32,
        starts_len: usize,
        nodes: usize,
        used: usize,
        root: u32,
        fix: *const u32,
        fix_len: usize,
        answer: *mut u32,
    ) -> u32;

    pub fn lang_ty_display(
        table: *const u8,
        table_len: usize,
        words: *const u32,
        words_len: usize,
        starts: *const u32,
        starts_len: usize,
        nodes: usize,
        used: usize,
        root: u32,
        text: *mut u8,
        text_len: usize,
        len: *mut usize,
    ) -> u32;

    pub fn lang_ty_display_nix(
        table: *const u8,
        table_len: usize,
        words: *const u32,
        words_len: usize,
        starts: *const u32,
        starts_len: usize,
        nodes: usize,
        used: usize,
        root: u32,
        text: *mut u8,
        text_len: usize,
        len: *mut usize,
    ) -> u32;

    pub fn lang_ty_write_sheet(
        table: *const u8,
        table_len: usize,
        words: *const u32,
        words_len: usize,
        starts: *const u32,
        starts_len: usize,
        nodes: usize,
        used: usize,
        root: u32,
        bytes: *mut u8,
        bytes_len: usize,
        len: *mut usize,
    ) -> u32;

    pub fn lang_ty_intern(
        table: *const u8,
        table_len: usize,
        words: *mut u32,
        words_len: usize,
        starts: *mut u32,
        starts_len: usize,
        nodes: *mut usize,
        used: *mut usize,
        node: *const u32,
        node_len: usize,
        number: *mut u32,
    ) -> u32;

    pub fn lang_ty_simplify(
        table: *const u8,
        table_len: usize,
        words: *mut u32,
        words_len: usize,
        starts: *mut u32,
        starts_len: usize,
        nodes: *mut usize,
        used: *mut usize,
        root: u32,
        root_after: *mut u32,
        passes: *mut u32,
    ) -> u32;

    pub fn lang_ty_normalize_vars(
        table: *const u8,
        table_len: usize,
        words: *mut u32,
        words_len: usize,
        starts: *mut u32,
        starts_len: usize,
        nodes: *mut usize,
        used: *mut usize,
        root: u32,
        root_after: *mut u32,
    ) -> u32;

    pub fn lang_ty_normalize_replacing_unknown(
        table: *const u8,
        table_len: usize,
        words: *mut u32,
        words_len: usize,
        starts: *mut u32,
        starts_len: usize,
        nodes: *mut usize,
        used: *mut usize,
        root: u32,
        root_after: *mut u32,
    ) -> u32;

    pub fn lang_ty_normalize_set_ops(
        table: *const u8,
        table_len: usize,
        words: *mut u32,
        words_len: usize,
        starts: *mut u32,
        starts_len: usize,
        nodes: *mut usize,
        used: *mut usize,
        root: u32,
        root_after: *mut u32,
    ) -> u32;

    pub fn lang_ty_compact(
        table: *const u8,
        table_len: usize,
        words: *const u32,
        words_len: usize,
        starts: *const u32,
        starts_len: usize,
        nodes: usize,
        used: usize,
        root: u32,
        target_words: *mut u32,
        target_words_len: usize,
        target_starts: *mut u32,
        target_starts_len: usize,
        target_nodes: *mut usize,
        target_used: *mut usize,
        root_after: *mut u32,
    ) -> u32;

    pub fn lang_ty_import_from_arena(
        table: *const u8,
        table_len: usize,
        words: *const u32,
        words_len: usize,
        starts: *const u32,
        starts_len: usize,
        nodes: usize,
        used: usize,
        root: u32,
        target_table: *const u8,
        target_table_len: usize,
        target_words: *mut u32,
        target_words_len: usize,
        target_starts: *mut u32,
        target_starts_len: usize,
        target_nodes: *mut usize,
        target_used: *mut usize,
        root_after: *mut u32,
    ) -> u32;

    pub fn lang_ty_tyvar_name(index: u32, text: *mut [u8; TYVAR_NAME], len: *mut usize) -> u32;

    pub fn lang_ty_sheet_line(
        sheet: *const u8,
        sheet_len: usize,
        line: *mut [u8; LINE],
        len: *mut usize,
    ) -> u32;

    pub fn lang_ty_convert_sheet(sheet: *mut u8, sheet_len: usize) -> u32;
}
