/* The calls of the static library liblang_ty.a, which host/archive makes. docs/HOST.md says what each number means, who
 * can cause it, and what memory holds after a call.
 *
 * Every call answers 0, or the number of a refusal, which leaves the results as they were. A length counts elements. No
 * pointer may be null, even where its length is 0, and memory that is lent to be written overlaps no other argument. */
#ifndef LANG_TY_H
#define LANG_TY_H

#include <stdbool.h>
#include <stddef.h>
#include <stdint.h>

/* The version of this header and of the crate coombtray. */
#define LANG_TY_VERSION_MAJOR 0
#define LANG_TY_VERSION_MINOR 1
#define LANG_TY_VERSION_PATCH 0

/* The most names and bytes of a table, words and starts of an arena, bytes of the text of a type and of a sheet, and values of a
 * fix. */
#define LANG_TY_NAMES 4096
#define LANG_TY_TABLE 65536
#define LANG_TY_WORDS 16384
#define LANG_TY_STARTS 4096
#define LANG_TY_TEXT 65536
#define LANG_TY_SHEET 65536
#define LANG_TY_VALUES 1024
/* How much is lent, no more and no less, where no length is passed. */
#define LANG_TY_VARS 4096
#define LANG_TY_TYVAR_NAME 11
#define LANG_TY_LINE 65544

/* What `order` is set to. */
#define LANG_TY_LESS 0
#define LANG_TY_EQUAL 1
#define LANG_TY_GREATER 2

/* The index of the unknown variable, which prints as `?`. */
#define LANG_TY_UNKNOWN 4294967295u

/* What a call answers; lang_ty_sentence says it in words. */
enum lang_ty_answer {
    LANG_TY_OK = 0,
    LANG_TY_BAD_TABLE = 1,
    LANG_TY_BAD_ARENA = 2,
    LANG_TY_BAD_NODE = 3,
    LANG_TY_BAD_CHILD_OR_NAME = 4,
    LANG_TY_BAD_FIELD_ORDER = 5,
    LANG_TY_BAD_ROOT = 6,
    LANG_TY_NO_ROOM = 7,
    LANG_TY_TOO_MANY_MEMBERS = 8,
    LANG_TY_TOO_LONG = 9,
    LANG_TY_BAD_SHEET = 10,
    LANG_TY_BAD_OLD_SHEET = 11,
    LANG_TY_LACKING_NAME = 12,
    LANG_TY_BAD_FIX = 13,
    LANG_TY_HAS_VARIABLE = 14
};

/* The kinds of nodes, under the Rust's names; `never` is the bottom and `any` the top. */
enum lang_ty_kind {
    LANG_TY_KIND_BOTTOM = 0,
    LANG_TY_KIND_TOP = 1,
    LANG_TY_KIND_PRIMITIVE = 2,
    LANG_TY_KIND_TYVAR = 3,
    LANG_TY_KIND_LIST = 4,
    LANG_TY_KIND_LAMBDA = 5,
    LANG_TY_KIND_ATTR_SET = 6,
    LANG_TY_KIND_UNION = 7,
    LANG_TY_KIND_INTERSECTION = 8,
    LANG_TY_KIND_NAMED = 9,
    LANG_TY_KIND_NEG = 10
};

/* The codes of the primitive types. */
enum lang_ty_primitive {
    LANG_TY_PRIMITIVE_NULL = 0,
    LANG_TY_PRIMITIVE_BOOL = 1,
    LANG_TY_PRIMITIVE_INT = 2,
    LANG_TY_PRIMITIVE_FLOAT = 3,
    LANG_TY_PRIMITIVE_STRING = 4,
    LANG_TY_PRIMITIVE_PATH = 5,
    LANG_TY_PRIMITIVE_URI = 6,
    LANG_TY_PRIMITIVE_NUMBER = 7
};

/* The kinds of values. */
enum lang_ty_value {
    LANG_TY_VALUE_NULL = 0,
    LANG_TY_VALUE_BOOL = 1,
    LANG_TY_VALUE_INT = 2,
    LANG_TY_VALUE_FLOAT = 3,
    LANG_TY_VALUE_STRING = 4,
    LANG_TY_VALUE_PATH = 5,
    LANG_TY_VALUE_LIST = 6,
    LANG_TY_VALUE_SET = 7
};

#ifdef __cplusplus
extern "C" {
#endif

/* The name table and names. */

/* How many names the table has. */
uint32_t lang_ty_check_names(
    const uint8_t *table, size_t table_len,
    size_t *count);

/* Where the text of the name with this number lies in the table, and how many bytes it has. */
uint32_t lang_ty_name_at(
    const uint8_t *table, size_t table_len,
    uint32_t number, size_t *start, size_t *length);

/* Whether a name of the table is this text, which may be any bytes: `found` is set to 1 and `place` to the name's number, or
 * `found` to 0 and `place` to how many names come before the text. */
uint32_t lang_ty_find_name(
    const uint8_t *table, size_t table_len,
    const uint8_t *text, size_t text_len, uint32_t *found, uint32_t *place);

/* How two names stand in order, without their length bytes. */
uint32_t lang_ty_compare_names(
    const uint8_t *left, size_t left_len, const uint8_t *right, size_t right_len,
    uint32_t *order);

/* Calls that read an arena. */

/* How two nodes stand in order. */
uint32_t lang_ty_compare(
    const uint8_t *table, size_t table_len,
    const uint32_t *words, size_t words_len, const uint32_t *starts, size_t starts_len,
    size_t nodes, size_t used,
    uint32_t left, uint32_t right, uint32_t *order);

/* How many nodes the type of the root has. */
uint32_t lang_ty_count_reachable(
    const uint8_t *table, size_t table_len,
    const uint32_t *words, size_t words_len, const uint32_t *starts, size_t starts_len,
    size_t nodes, size_t used,
    uint32_t root, uint32_t *count);

/* The first node that is no name, from the root down. */
uint32_t lang_ty_unwrap_named(
    const uint8_t *table, size_t table_len,
    const uint32_t *words, size_t words_len, const uint32_t *starts, size_t starts_len,
    size_t nodes, size_t used,
    uint32_t root, uint32_t *number);

/* Four questions; `is` is set to 0 or 1. */
uint32_t lang_ty_has_type_vars(
    const uint8_t *table, size_t table_len,
    const uint32_t *words, size_t words_len, const uint32_t *starts, size_t starts_len,
    size_t nodes, size_t used,
    uint32_t root, uint32_t *is);

uint32_t lang_ty_needs_var_normalization(
    const uint8_t *table, size_t table_len,
    const uint32_t *words, size_t words_len, const uint32_t *starts, size_t starts_len,
    size_t nodes, size_t used,
    uint32_t root, uint32_t *is);

uint32_t lang_ty_contains_bare_tyvar(
    const uint8_t *table, size_t table_len,
    const uint32_t *words, size_t words_len, const uint32_t *starts, size_t starts_len,
    size_t nodes, size_t used,
    uint32_t root, uint32_t *is);

uint32_t lang_ty_has_shared_tyvar_across_lambda_params(
    const uint8_t *table, size_t table_len,
    const uint32_t *words, size_t words_len, const uint32_t *starts, size_t starts_len,
    size_t nodes, size_t used,
    uint32_t root, uint32_t *is);

/* The variables in the order of a first visit, zeros after them. */
uint32_t lang_ty_free_type_vars(
    const uint8_t *table, size_t table_len,
    const uint32_t *words, size_t words_len, const uint32_t *starts, size_t starts_len,
    size_t nodes, size_t used,
    uint32_t root, uint32_t vars[LANG_TY_VARS], size_t *count);

/* Whether two types are structurally equal; `is` is set to 0 or 1. */
uint32_t lang_ty_structurally_eq(
    const uint8_t *left_table, size_t left_table_len,
    const uint32_t *left_words, size_t left_words_len, const uint32_t *left_starts, size_t left_starts_len,
    size_t left_nodes, size_t left_used, uint32_t left_root,
    const uint8_t *right_table, size_t right_table_len,
    const uint32_t *right_words, size_t right_words_len, const uint32_t *right_starts, size_t right_starts_len,
    size_t right_nodes, size_t right_used, uint32_t right_root,
    uint32_t *is);

/* Whether a fix fits the type; `answer` is set to 0 or 1. The fix is 1 to LANG_TY_VALUES values, one after another, and the last
 * is the fix itself: heads of the kinds above, a list with a child for each element, a set with fields by rising name that aren't
 * optional, each child an earlier value. 13: any other words, or none; 14: the type has a variable. */
uint32_t lang_ty_fits(
    const uint8_t *table, size_t table_len,
    const uint32_t *words, size_t words_len, const uint32_t *starts, size_t starts_len,
    size_t nodes, size_t used,
    uint32_t root, const uint32_t *fix, size_t fix_len, uint32_t *answer);

/* The text of the type, with names as they stand in the table; bytes past it stay, and 9 sets all of them to 0. */
uint32_t lang_ty_display(
    const uint8_t *table, size_t table_len,
    const uint32_t *words, size_t words_len, const uint32_t *starts, size_t starts_len,
    size_t nodes, size_t used,
    uint32_t root, uint8_t *text, size_t text_len, size_t *len);

/* The same, with names as the Nix manual writes them: in quotes unless the name is an identifier that isn't reserved, with a
 * backslash before each quote, each backslash and each `$` that `{` follows. A name of 64 bytes has at most 130 so. */
uint32_t lang_ty_display_nix(
    const uint8_t *table, size_t table_len,
    const uint32_t *words, size_t words_len, const uint32_t *starts, size_t starts_len,
    size_t nodes, size_t used,
    uint32_t root, uint8_t *text, size_t text_len, size_t *len);

/* The sheet of the table's names, the arena and the root; bytes past it stay, and a refusal leaves all of them. */
uint32_t lang_ty_write_sheet(
    const uint8_t *table, size_t table_len,
    const uint32_t *words, size_t words_len, const uint32_t *starts, size_t starts_len,
    size_t nodes, size_t used,
    uint32_t root, uint8_t *bytes, size_t bytes_len, size_t *len);

/* Calls that change an arena, or make one. A refusal leaves its words, starts and counters as they were, except that 7
 * leaves the target of lang_ty_compact zero and empty. */

/* The number of the node with these words, which is added where the arena has none. */
uint32_t lang_ty_intern(
    const uint8_t *table, size_t table_len,
    uint32_t *words, size_t words_len, uint32_t *starts, size_t starts_len,
    size_t *nodes, size_t *used,
    const uint32_t *node, size_t node_len, uint32_t *number);

/* What the type of the root becomes, and in how many passes. */
uint32_t lang_ty_simplify(
    const uint8_t *table, size_t table_len,
    uint32_t *words, size_t words_len, uint32_t *starts, size_t starts_len,
    size_t *nodes, size_t *used,
    uint32_t root, uint32_t *root_after, uint32_t *passes);

/* The type with its variables numbered in the order of a first visit. */
uint32_t lang_ty_normalize_vars(
    const uint8_t *table, size_t table_len,
    uint32_t *words, size_t words_len, uint32_t *starts, size_t starts_len,
    size_t *nodes, size_t *used,
    uint32_t root, uint32_t *root_after);

/* The same, but a root that is a variable becomes the unknown one. */
uint32_t lang_ty_normalize_replacing_unknown(
    const uint8_t *table, size_t table_len,
    uint32_t *words, size_t words_len, uint32_t *starts, size_t starts_len,
    size_t *nodes, size_t *used,
    uint32_t root, uint32_t *root_after);

/* The type with every union and intersection flat, sorted and without repeats. */
uint32_t lang_ty_normalize_set_ops(
    const uint8_t *table, size_t table_len,
    uint32_t *words, size_t words_len, uint32_t *starts, size_t starts_len,
    size_t *nodes, size_t *used,
    uint32_t root, uint32_t *root_after);

/* The type copied into a target, which holds it alone afterwards. */
uint32_t lang_ty_compact(
    const uint8_t *table, size_t table_len,
    const uint32_t *words, size_t words_len, const uint32_t *starts, size_t starts_len,
    size_t nodes, size_t used,
    uint32_t root,
    uint32_t *target_words, size_t target_words_len, uint32_t *target_starts, size_t target_starts_len,
    size_t *target_nodes, size_t *target_used, uint32_t *root_after);

/* The type interned in a target with a table of its own, names found there by their text; all that the target had stays. 12: a
 * name of the type isn't in the target's table. Both tables may be the same bytes. */
uint32_t lang_ty_import_from_arena(
    const uint8_t *table, size_t table_len,
    const uint32_t *words, size_t words_len, const uint32_t *starts, size_t starts_len,
    size_t nodes, size_t used,
    uint32_t root,
    const uint8_t *target_table, size_t target_table_len,
    uint32_t *target_words, size_t target_words_len, uint32_t *target_starts, size_t target_starts_len,
    size_t *target_nodes, size_t *target_used, uint32_t *root_after);

/* Calls that need no arena. Only the last is ever refused. */

/* How a variable is printed, zeros after it. */
uint32_t lang_ty_tyvar_name(
    uint32_t index, uint8_t text[LANG_TY_TYVAR_NAME], size_t *len);

/* The line of a sheet, its text as lang_ty_display_nix writes it; that of a refused sheet names the number. */
uint32_t lang_ty_sheet_line(
    const uint8_t *sheet, size_t sheet_len, uint8_t line[LANG_TY_LINE], size_t *len);

/* One whole old sheet, whose field words have 8 bits for the name, becomes the new one in its place: nothing but field words
 * changes, and the length stays. 11: the old rules refuse the sheet before simplification; then all bytes stay. A sheet that
 * is new already is refused so, or stays as it is. */
uint32_t lang_ty_convert_sheet(
    uint8_t *sheet, size_t sheet_len);

#ifdef __cplusplus
}
#endif

/* Helpers of this header, which the library neither has nor needs: a host may write and read words without them. What
 * doesn't fit the bits of a word becomes LANG_TY_NO_WORD, and a node with that as head, child or field is refused by 3, a fix by
 * 13. */
#define LANG_TY_NO_WORD 4294967295u

/* The head of a node or a value with so many words after it. */
static inline uint32_t lang_ty_head(uint32_t kind, uint32_t count)
{
    return kind < 16 && count < 65536 ? kind << 28 | count : LANG_TY_NO_WORD;
}

/* The head of an attribute set. After the words of its fields a dynamic one has a child, the type of all other fields. */
static inline uint32_t lang_ty_set_head(uint32_t fields, bool open, bool dynamic)
{
    uint32_t flags = (uint32_t)open << 27 | (uint32_t)dynamic << 26;
    return fields < 65535 ? lang_ty_head(LANG_TY_KIND_ATTR_SET, fields + dynamic) | flags : LANG_TY_NO_WORD;
}

static inline uint32_t lang_ty_child(uint32_t number)
{
    return number < LANG_TY_STARTS ? number : LANG_TY_NO_WORD;
}

/* A field: the number of its name and that of its type or value. The word of a named type is that of a field that isn't
 * optional. */
static inline uint32_t lang_ty_field(uint32_t name, uint32_t child, bool optional)
{
    return name < 65536 && child < LANG_TY_STARTS ? (uint32_t)optional << 31 | name << 15 | child : LANG_TY_NO_WORD;
}

static inline uint32_t lang_ty_kind_of(uint32_t head)
{
    return head >> 28;
}

/* How many words follow the head. */
static inline uint32_t lang_ty_count_of(uint32_t head)
{
    return head & 65535;
}

static inline bool lang_ty_is_open(uint32_t head)
{
    return head >> 27 & 1;
}

static inline bool lang_ty_is_dynamic(uint32_t head)
{
    return head >> 26 & 1;
}

/* The number in the word of a child or of a field. */
static inline uint32_t lang_ty_child_of(uint32_t word)
{
    return word & 4095;
}

static inline uint32_t lang_ty_name_of(uint32_t field)
{
    return field >> 15 & 65535;
}

static inline bool lang_ty_is_optional(uint32_t field)
{
    return field >> 31;
}

/* An answer in words: who caused the refusal, and how. */
static inline const char *lang_ty_sentence(uint32_t answer)
{
    static const char *const sentences[] = {
        "not refused",
        "refused 1, caused by the host that lends memory: the name table breaks a rule",
        "refused 2, caused by the host that lends memory: the arena is over a limit or unsound",
        "refused 3, caused by the author of the node: it is empty, or a kind, count, code, flag or zero field doesn't fit",
        "refused 4, caused by the author of the node: a child isn't below the node count, or a name isn't in the table",
        "refused 5, caused by the author of the node: its field names don't strictly rise",
        "refused 6, caused by the author of the call: the root isn't below the node count",
        "refused 7, caused by the size of the work: the arena has no room for a node that is needed",
        "refused 8, caused by the size of the work: a member list would have a 65th different member",
        "refused 9, caused by the size of the work: the text or the sheet exceeds the lent bytes, or 65,536 bytes",
        "refused 10, caused by the sender of the sheet: it ends early, goes on, is too long or repeats a node",
        "refused 11, caused by the sender of the old sheet: the rules of old sheets refuse it before simplification",
        "refused 12, caused by the author of the call: a name of the type isn't in the target's table",
        "refused 13, caused by the author of the fix: it has no value or over 1,024, or its words break the layout",
        "refused 14, caused by the author of the call: the type has a variable",
    };
    return answer < sizeof sentences / sizeof *sentences ? sentences[answer] : "no answer of this library";
}

#endif
