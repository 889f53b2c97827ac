/* Calls every function of lang_ty.h and checks its answer, its results and all lent memory. What is expected was worked out
 * by hand from documents 01 and 02. Each call is told on standard output by its name and its answer, so that host/test-c sees
 * which were made. */
#include "lang_ty.h"

#include <inttypes.h>
#include <stdio.h>
#include <stdlib.h>
#include <string.h>

#define COUNT(array) (sizeof(array) / sizeof *(array))

static int failures;

static void check(int line, const char *what, uint64_t got, uint64_t want)
{
    if (got != want) {
        fprintf(stderr, "%s:%d: %s: %" PRIu64 ", not %" PRIu64 "\n", __FILE__, line, what, got, want);
        failures++;
    }
}

static void check_bytes(int line, const char *what, const void *got, const void *want, size_t size)
{
    const uint8_t *left = got, *right = want;
    size_t at = 0;
    while (at < size && left[at] == right[at])
        at++;
    if (at < size) {
        fprintf(stderr, "%s:%d: %s: byte %zu is %d, not %d\n", __FILE__, line, what, at, left[at], right[at]);
        failures++;
    }
}

static uint32_t told(const char *name, uint32_t answer)
{
    printf("%s %" PRIu32 "\n", name, answer);
    return answer;
}

#define TOLD(call, ...) told(#call, call(__VA_ARGS__))

static void *room(size_t size)
{
    void *made = calloc(size ? size : 1, 1); /* of this size, so that valgrind sees what lies past it */
    if (!made)
        exit(2);
    return made;
}

/* Words, and how many. */
struct list {
    const uint32_t *at;
    size_t count;
};

#define WORDS(...) {(const uint32_t[]){__VA_ARGS__}, COUNT(((const uint32_t[]){__VA_ARGS__}))}

/* The words of a node. */
#define FIELD(name, child) lang_ty_field(name, child, false)
#define PRIMITIVE(code) lang_ty_head(LANG_TY_KIND_PRIMITIVE, 1), code
#define NULL_TYPE PRIMITIVE(LANG_TY_PRIMITIVE_NULL)
#define BOOL PRIMITIVE(LANG_TY_PRIMITIVE_BOOL)
#define INT PRIMITIVE(LANG_TY_PRIMITIVE_INT)
#define VAR(index) lang_ty_head(LANG_TY_KIND_TYVAR, 1), index
#define LIST(child) lang_ty_head(LANG_TY_KIND_LIST, 1), lang_ty_child(child)
#define LAMBDA(param, body) lang_ty_head(LANG_TY_KIND_LAMBDA, 2), lang_ty_child(param), lang_ty_child(body)
#define SET(count) lang_ty_set_head(count, false, false)
#define UNION(count) lang_ty_head(LANG_TY_KIND_UNION, count)
#define INTERSECTION(count) lang_ty_head(LANG_TY_KIND_INTERSECTION, count)
#define NAMED(name, child) lang_ty_head(LANG_TY_KIND_NAMED, 1), FIELD(name, child)
#define NEG(child) lang_ty_head(LANG_TY_KIND_NEG, 1), lang_ty_child(child)
/* The words of a value, or its head where it has others within. */
#define VALUE(kind) lang_ty_head(LANG_TY_VALUE_##kind, 0)
#define LIST_OF(count) lang_ty_head(LANG_TY_VALUE_LIST, count)
#define SET_OF(count) lang_ty_head(LANG_TY_VALUE_SET, count)

/* What a host lends: a name table and an arena. No byte of a table is 0. */
struct host {
    const uint8_t *table;
    size_t table_len;
    uint32_t *words;
    size_t words_len;
    uint32_t *starts;
    size_t starts_len;
    size_t nodes, used;
};

#define LENT(h) (h)->table, (h)->table_len, (h)->words, (h)->words_len, (h)->starts, (h)->starts_len
#define READ(h) LENT(h), (h)->nodes, (h)->used
#define CHANGED(h) LENT(h), &(h)->nodes, &(h)->used

static void put_nodes(struct host *h, struct list nodes)
{
    for (size_t at = 0; at < nodes.count; at += 1 + lang_ty_count_of(nodes.at[at]))
        h->starts[h->nodes++] = (uint32_t)(h->used + at);
    memcpy(h->words + h->used, nodes.at, nodes.count * sizeof *nodes.at);
    h->used += nodes.count;
}

static size_t node_count(struct list nodes)
{
    size_t count = 0;
    for (size_t at = 0; at < nodes.count; at += 1 + lang_ty_count_of(nodes.at[at]))
        count++;
    return count;
}

/* An arena of these nodes with so many words and starts to spare. */
static struct host lend(const char *table, struct list nodes, size_t spare_words, size_t spare_starts)
{
    struct host h = {.table = (const uint8_t *)table, .table_len = strlen(table)};
    h.words_len = nodes.count + spare_words;
    h.starts_len = node_count(nodes) + spare_starts;
    h.words = room(h.words_len * sizeof *h.words);
    h.starts = room(h.starts_len * sizeof *h.starts);
    put_nodes(&h, nodes);
    return h;
}

static void give_back(struct host *h)
{
    free(h->words);
    free(h->starts);
}

/* All that a call may write besides the arena that it changes. Before a call every byte is 0xa5. */
struct results {
    uint32_t number, passes;
    size_t length;
    uint32_t vars[LANG_TY_VARS];
    uint8_t text[160];
    size_t target_nodes, target_used;
    uint32_t target_words[LANG_TY_WORDS + 1], target_starts[LANG_TY_STARTS + 1];
};

/* Which results a call writes. */
enum { NUMBER = 1, PASSES = 2, VARS = 4, TEXT = 8, TARGET = 16, SHEET = 32, IMPORT = 64 };

struct row;

struct call {
    uint32_t (*make)(const struct row *row, struct host *h, struct results *r);
    unsigned writes;
};

/* A call with its arguments, its answer and its results. */
struct row {
    int line;
    const struct call *call;
    const char *table;
    struct list given;
    uint32_t root;
    size_t spare_words, spare_starts;

    struct list node;          /* of intern */
    struct list fix;           /* of fits */
    uint32_t other;            /* of compare, and the right root of structurally_eq */
    const char *right_table;   /* of structurally_eq, and the target's before import_from_arena */
    struct list right;
    size_t text_lent;          /* of display, display_nix and write_sheet */
    size_t target_words, target_starts; /* of compact and import_from_arena: how many are lent */

    uint32_t answer;
    uint32_t number, passes;
    struct list added; /* nodes behind those given */
    struct list vars, target;
    const char *text;
    const uint8_t *sheet;
    size_t sheet_len;
};

/* The calls on a root that write one number. */
#define READS_ROOT(name) \
    static uint32_t make_##name(const struct row *row, struct host *h, struct results *r) \
    { \
        return TOLD(lang_ty_##name, READ(h), row->root, &r->number); \
    } \
    static const struct call name = {make_##name, NUMBER};

#define CHANGES_ROOT(name) \
    static uint32_t make_##name(const struct row *row, struct host *h, struct results *r) \
    { \
        return TOLD(lang_ty_##name, CHANGED(h), row->root, &r->number); \
    } \
    static const struct call name = {make_##name, NUMBER};

READS_ROOT(count_reachable)
READS_ROOT(unwrap_named)
READS_ROOT(has_type_vars)
READS_ROOT(needs_var_normalization)
READS_ROOT(contains_bare_tyvar)
READS_ROOT(has_shared_tyvar_across_lambda_params)
CHANGES_ROOT(normalize_vars)
CHANGES_ROOT(normalize_replacing_unknown)
CHANGES_ROOT(normalize_set_ops)

static uint32_t make_compare(const struct row *row, struct host *h, struct results *r)
{
    return TOLD(lang_ty_compare, READ(h), row->root, row->other, &r->number);
}
static const struct call compare = {make_compare, NUMBER};

static uint32_t make_free_type_vars(const struct row *row, struct host *h, struct results *r)
{
    return TOLD(lang_ty_free_type_vars, READ(h), row->root, r->vars, &r->length);
}
static const struct call free_type_vars = {make_free_type_vars, VARS};

static uint32_t make_structurally_eq(const struct row *row, struct host *h, struct results *r)
{
    struct host right = lend(row->right_table ? row->right_table : "", row->right, 0, 0);
    uint32_t answer = TOLD(lang_ty_structurally_eq, READ(h), row->root, READ(&right), row->other, &r->number);
    give_back(&right);
    return answer;
}
static const struct call structurally_eq = {make_structurally_eq, NUMBER};

/* The calls on a root that write into lent bytes. */
#define WRITES_BYTES(name, what) \
    static uint32_t make_##name(const struct row *row, struct host *h, struct results *r) \
    { \
        return TOLD(lang_ty_##name, READ(h), row->root, r->text, row->text_lent, &r->length); \
    } \
    static const struct call name = {make_##name, what};

WRITES_BYTES(display, TEXT)
WRITES_BYTES(display_nix, TEXT)
WRITES_BYTES(write_sheet, SHEET)

/* Where the words lie, which is somewhere even if there are none. */
static const uint32_t *place_of(struct list words)
{
    static const uint32_t none;
    return words.count ? words.at : &none;
}

static uint32_t make_fits(const struct row *row, struct host *h, struct results *r)
{
    return TOLD(lang_ty_fits, READ(h), row->root, place_of(row->fix), row->fix.count, &r->number);
}
static const struct call fits = {make_fits, NUMBER};

static uint32_t make_intern(const struct row *row, struct host *h, struct results *r)
{
    return TOLD(lang_ty_intern, CHANGED(h), place_of(row->node), row->node.count, &r->number);
}
static const struct call intern = {make_intern, NUMBER};

static uint32_t make_simplify(const struct row *row, struct host *h, struct results *r)
{
    return TOLD(lang_ty_simplify, CHANGED(h), row->root, &r->number, &r->passes);
}
static const struct call simplify = {make_simplify, NUMBER | PASSES};

static uint32_t make_compact(const struct row *row, struct host *h, struct results *r)
{
    return TOLD(lang_ty_compact, READ(h), row->root, r->target_words, row->target_words, r->target_starts,
                row->target_starts, &r->target_nodes, &r->target_used, &r->number);
}
static const struct call compact = {make_compact, NUMBER | TARGET};

/* These nodes, and zeros past them, in all that is lent of the target. */
static void lay_target(const struct row *row, struct list nodes, struct results *r)
{
    struct host made = lend("", nodes, row->target_words, row->target_starts);
    memcpy(r->target_words, made.words, row->target_words * sizeof *made.words);
    memcpy(r->target_starts, made.starts, row->target_starts * sizeof *made.starts);
    r->target_nodes = made.nodes;
    r->target_used = made.used;
    give_back(&made);
}

static uint32_t make_import_from_arena(const struct row *row, struct host *h, struct results *r)
{
    const char *table = row->right_table ? row->right_table : "";
    lay_target(row, row->right, r);
    return TOLD(lang_ty_import_from_arena, READ(h), row->root, (const uint8_t *)table, strlen(table), r->target_words,
                row->target_words, r->target_starts, row->target_starts, &r->target_nodes, &r->target_used, &r->number);
}
static const struct call import_from_arena = {make_import_from_arena, NUMBER | IMPORT};

/* The results that the row says, over what stood there. */
static void expect(const struct row *row, struct results *r)
{
    unsigned writes = row->answer == LANG_TY_OK ? row->call->writes : 0;
    if (writes & NUMBER)
        r->number = row->number;
    if (writes & PASSES)
        r->passes = row->passes;
    if (writes & VARS) {
        memset(r->vars, 0, sizeof r->vars);
        if (row->vars.count)
            memcpy(r->vars, row->vars.at, row->vars.count * sizeof *r->vars);
        r->length = row->vars.count;
    }
    if (writes & TEXT) {
        r->length = strlen(row->text);
        memcpy(r->text, row->text, r->length);
    }
    if (writes & SHEET) {
        r->length = row->sheet_len;
        memcpy(r->text, row->sheet, r->length);
    }
    if (row->answer == LANG_TY_TOO_LONG && row->call->writes & TEXT)
        memset(r->text, 0, row->text_lent);
    if (row->call->writes & TARGET && (row->answer == LANG_TY_OK || row->answer == LANG_TY_NO_ROOM))
        lay_target(row, row->target, r);
    if (row->call->writes & IMPORT)
        lay_target(row, row->answer == LANG_TY_OK ? row->target : row->right, r);
}

static void check_results(int line, const struct results *got, const struct results *want)
{
    check(line, "number", got->number, want->number);
    check(line, "passes", got->passes, want->passes);
    check(line, "length", got->length, want->length);
    check_bytes(line, "vars", got->vars, want->vars, sizeof want->vars);
    check_bytes(line, "text", got->text, want->text, sizeof want->text);
    check(line, "target_nodes", got->target_nodes, want->target_nodes);
    check(line, "target_used", got->target_used, want->target_used);
    check_bytes(line, "target_words", got->target_words, want->target_words, sizeof want->target_words);
    check_bytes(line, "target_starts", got->target_starts, want->target_starts, sizeof want->target_starts);
}

static void check_host(int line, const struct host *got, const struct host *want)
{
    check(line, "nodes", got->nodes, want->nodes);
    check(line, "used", got->used, want->used);
    check_bytes(line, "words", got->words, want->words, want->words_len * sizeof *want->words);
    check_bytes(line, "starts", got->starts, want->starts, want->starts_len * sizeof *want->starts);
}

static void run(const struct row *row)
{
    const char *table = row->table ? row->table : "";
    struct host got = lend(table, row->given, row->spare_words, row->spare_starts);
    struct host want = lend(table, row->given, row->spare_words, row->spare_starts);
    if (row->added.count)
        put_nodes(&want, row->added);
    struct results *results = room(2 * sizeof *results);
    memset(results, 0xa5, 2 * sizeof *results);
    expect(row, &results[1]);
    check(row->line, "answer", row->call->make(row, &got, &results[0]), row->answer);
    check_results(row->line, &results[0], &results[1]);
    check_host(row->line, &got, &want);
    free(results);
    give_back(&got);
    give_back(&want);
}

/* U[a, int] is node 2; F[a, U[a, int]] is node 3. */
#define A_OR_INT WORDS(VAR(0), INT, UNION(2), 0, 1, LAMBDA(0, 2))
/* F[h, U[d, h]] is node 3. */
#define H_TO_D_OR_H WORDS(VAR(7), VAR(3), UNION(2), 1, 0, LAMBDA(0, 2))
/* Two sets over F[a, int] and F[a, bool]: node 3 has the first twice, node 6 has both. */
#define P_AND_Q "\1p\1q"
#define SHARED \
    WORDS(VAR(0), INT, LAMBDA(0, 1), SET(2), FIELD(0, 2), FIELD(1, 2), BOOL, LAMBDA(0, 4), SET(2), FIELD(0, 2), FIELD(1, 5))
/* Target stands for Line, which stands for int. */
#define LINE_AND_TARGET "\4Line\6Target"
#define TARGET_TYPE WORDS(INT, NAMED(0, 0), NAMED(1, 1))
/* U[int, null, a] is node 3: what it becomes is a new node. */
#define INT_NULL_A WORDS(INT, NULL_TYPE, VAR(0), UNION(3), 0, 1, 2)
/* I[U[a, b], int] is node 4. */
#define A_OR_B_AND_INT WORDS(VAR(0), VAR(1), UNION(2), 0, 1, INT, INTERSECTION(2), 2, 3)
/* U[int, null, U[null, bool]] is node 4. */
#define UNSORTED WORDS(INT, NULL_TYPE, BOOL, UNION(2), 1, 2, UNION(3), 0, 1, 3)
/* U[f, int] is node 3; node 0 isn't reachable from it. */
#define WITH_A_REST WORDS(NULL_TYPE, INT, VAR(5), UNION(2), 2, 1)
#define COPIED WORDS(VAR(5), INT, UNION(2), 0, 1)
#define TWICE WORDS(VAR(0), VAR(0))
#define BARE WORDS(lang_ty_head(LANG_TY_KIND_BOTTOM, 0), lang_ty_head(LANG_TY_KIND_TOP, 0), NEG(0), LIST(1))
/* A set whose fields are in, in1 and roll angle; in1 is a name for $${x} too, which stands for a. */
#define ODD_NAMES "\5$${x}\2in\3in1\12roll angle"
#define ODD_NAMED WORDS(VAR(0), NAMED(0, 0), NAMED(2, 1), SET(3), FIELD(1, 0), lang_ty_field(2, 1, true), FIELD(3, 2))
#define EMPTY_SETS WORDS(SET(0), lang_ty_set_head(0, true, false))

/* { p: int, q?: null }, open in node 3 and with bool for other fields in node 4; [int], int | null, int & null and ~int are nodes 5
 * to 8, int -> null is node 9, [a] node 11. */
#define FIELDS FIELD(0, 0), lang_ty_field(1, 1, true)
#define HELD \
    WORDS(INT, NULL_TYPE, BOOL, lang_ty_set_head(2, true, false), FIELDS, lang_ty_set_head(2, false, true), FIELDS, lang_ty_child(2), \
          LIST(0), UNION(2), 0, 1, INTERSECTION(2), 0, 1, NEG(0), LAMBDA(0, 1), VAR(0), LIST(10))
#define P_Q_AND_R "\1p\1q\1r"

/* The sheet of document 01, and what it holds. */
static const uint8_t example[] = {0, 0, 0, 3, 0, 2, 0x30, 0, 0, 1, 0, 0, 0, 0, 0x20, 0,
                                  0, 1, 0, 0, 0, 2, 0x70, 0, 0, 2, 0, 0, 0, 0, 0, 0, 0, 1};
#define EXAMPLE WORDS(VAR(0), INT, UNION(2), 0, 1)
/* The names p and qr, the unknown variable, and a set with it under qr. */
static const uint8_t with_names[] = {0, 2, 0, 2, 0, 1, 1, 'p', 2, 'q', 'r', 0x30, 0, 0, 1, 255,
                                     255, 255, 255, 0x60, 0, 0, 1, 0, 0, 0x80, 0};
/* The name or, the variable a, and a set with it under or. */
static const uint8_t with_or[] = {0, 1, 0, 2, 0, 1, 2, 'o', 'r', 0x30, 0, 0, 1, 0, 0, 0, 0, 0x60, 0, 0, 1, 0, 0, 0, 0};
#define SHEET_OF(bytes) .sheet = bytes, .sheet_len = sizeof bytes

/* The helpers of the header: words as document 01 lays them out, and numbers that don't fit. */
static void check_words(void)
{
#define WORD(got, want) check(__LINE__, #got, got, want)
    WORD(lang_ty_head(LANG_TY_KIND_NEG, 1), 0xa0000001);
    WORD(lang_ty_head(15, 65535), 0xf000ffff);
    WORD(lang_ty_set_head(64, true, true), 0x6c000041);
    WORD(lang_ty_set_head(3, false, true), 0x64000004);
    WORD(lang_ty_child(4095), 0xfff);
    WORD(lang_ty_field(65535, 4095, true), 0xffff8fff);
    WORD(lang_ty_field(4095, 4095, false), 0x07ff8fff);
    WORD(lang_ty_field(1, 2, false), 0x00008002);
    WORD(lang_ty_head(16, 0), LANG_TY_NO_WORD);
    WORD(lang_ty_head(0, 65536), LANG_TY_NO_WORD);
    WORD(lang_ty_set_head(65536, false, false), LANG_TY_NO_WORD);
    WORD(lang_ty_set_head(4294967295, false, true), LANG_TY_NO_WORD);
    WORD(lang_ty_child(4096), LANG_TY_NO_WORD);
    WORD(lang_ty_field(65536, 0, false), LANG_TY_NO_WORD);
    WORD(lang_ty_field(0, 4096, false), LANG_TY_NO_WORD);
    WORD(lang_ty_kind_of(0xa5a5a5a5), 10);
    WORD(lang_ty_count_of(0xa5a5a5a5), 0xa5a5);
    WORD(lang_ty_is_open(0xf7ffffff), 0);
    WORD(lang_ty_is_open(0x08000000), 1);
    WORD(lang_ty_is_dynamic(0xfbffffff), 0);
    WORD(lang_ty_is_dynamic(0x04000000), 1);
    WORD(lang_ty_child_of(0xa5a5a5a5), 0x5a5);
    WORD(lang_ty_name_of(0xa5a5a5a5), 0x4b4b);
    WORD(lang_ty_is_optional(0x7fffffff), 0);
    WORD(lang_ty_is_optional(0x80000000), 1);
}

/* Each sentence begins with its own number; tests/host/header.rs holds the rest against the crate's. */
static void check_sentences(void)
{
    for (uint32_t answer = LANG_TY_BAD_TABLE; answer <= LANG_TY_HAS_VARIABLE; answer++) {
        char begins[32];
        int length = snprintf(begins, sizeof begins, "refused %" PRIu32 ", caused by ", answer);
        check(__LINE__, begins, strncmp(lang_ty_sentence(answer), begins, (size_t)length), 0);
    }
    check(__LINE__, "the sentence of 0", strcmp(lang_ty_sentence(LANG_TY_OK), "not refused"), 0);
    check(__LINE__, "the sentence of 15", strcmp(lang_ty_sentence(15), "no answer of this library"), 0);
}

#define RUN(what, ...) run(&(const struct row){.line = __LINE__, .call = &what, __VA_ARGS__})

static void check_questions(void)
{
    RUN(compare, .given = A_OR_INT, .root = 1, .other = 2, .number = LANG_TY_LESS);
    RUN(compare, .given = A_OR_INT, .root = 2, .other = 2, .number = LANG_TY_EQUAL);
    RUN(compare, .given = A_OR_INT, .root = 0, .other = 1, .number = LANG_TY_GREATER);
    RUN(compare, .given = A_OR_INT, .root = 0, .other = 4, .answer = LANG_TY_BAD_ROOT);
    RUN(count_reachable, .given = A_OR_INT, .root = 2, .number = 3);
    RUN(count_reachable, .table = P_AND_Q, .given = SHARED, .root = 6, .number = 6);
    RUN(unwrap_named, .table = LINE_AND_TARGET, .given = TARGET_TYPE, .root = 2, .number = 0);
    RUN(unwrap_named, .given = A_OR_INT, .root = 2, .number = 2);
    RUN(has_type_vars, .given = A_OR_INT, .root = 2, .number = 1);
    RUN(has_type_vars, .given = A_OR_INT, .root = 1, .number = 0);
    RUN(needs_var_normalization, .given = A_OR_INT, .root = 3, .number = 1);
    RUN(needs_var_normalization, .given = A_OR_INT, .root = 1, .number = 0);
    RUN(contains_bare_tyvar, .given = A_OR_INT, .root = 3, .number = 1);
    RUN(contains_bare_tyvar, .table = P_AND_Q, .given = SHARED, .root = 6, .number = 0);
    RUN(has_shared_tyvar_across_lambda_params, .table = P_AND_Q, .given = SHARED, .root = 3, .number = 0);
    RUN(has_shared_tyvar_across_lambda_params, .table = P_AND_Q, .given = SHARED, .root = 6, .number = 1);
    RUN(free_type_vars, .given = H_TO_D_OR_H, .root = 3, .vars = WORDS(7, 3));
    RUN(free_type_vars, .given = A_OR_INT, .root = 1);
}

static void check_equality(void)
{
    RUN(structurally_eq, .table = "\1p", .given = WORDS(INT, SET(1), FIELD(0, 0)), .root = 1,
        .right_table = "\1a\1p", .right = WORDS(BOOL, INT, SET(1), FIELD(1, 1)), .other = 2, .number = 1);
    RUN(structurally_eq, .table = "\1p", .given = WORDS(INT, SET(1), FIELD(0, 0)), .root = 1,
        .right_table = "\1a\1p", .right = WORDS(BOOL, INT, SET(1), FIELD(0, 1)), .other = 2, .number = 0);
    RUN(structurally_eq, .given = A_OR_INT, .root = 4, .right_table = "\2p", .right = TWICE, .other = 9, .answer = LANG_TY_BAD_TABLE);
    RUN(structurally_eq, .given = A_OR_INT, .root = 4, .right = TWICE, .other = 9, .answer = LANG_TY_BAD_ARENA);
    RUN(structurally_eq, .given = TWICE, .right_table = "\2p", .answer = LANG_TY_BAD_ARENA);
    RUN(structurally_eq, .given = A_OR_INT, .root = 2, .right = A_OR_INT, .other = 4, .answer = LANG_TY_BAD_ROOT);
}

#define FITS(of, is, ...) RUN(fits, .table = P_Q_AND_R, .given = HELD, .root = of, .number = is, .fix = WORDS(__VA_ARGS__))
#define REFUSES(of, with, ...) RUN(fits, .table = P_Q_AND_R, .given = HELD, .root = of, .answer = with, .fix = WORDS(__VA_ARGS__))

static void check_fits(void)
{
    FITS(3, 1, VALUE(INT), SET_OF(1), FIELD(0, 0));
    FITS(3, 1, VALUE(NULL), VALUE(INT), SET_OF(2), FIELD(0, 1), FIELD(1, 0));
    FITS(3, 1, VALUE(PATH), VALUE(INT), SET_OF(2), FIELD(0, 1), FIELD(2, 0));
    FITS(3, 0, VALUE(NULL), SET_OF(1), FIELD(1, 0)); /* without p */
    FITS(3, 0, VALUE(NULL), SET_OF(1), FIELD(0, 0));
    FITS(3, 0, VALUE(INT), SET_OF(2), FIELD(0, 0), FIELD(1, 0)); /* q is there, and no null */
    FITS(3, 0, LIST_OF(0));
    FITS(4, 1, VALUE(INT), VALUE(BOOL), SET_OF(2), FIELD(0, 0), FIELD(2, 1));
    FITS(4, 0, VALUE(INT), SET_OF(2), FIELD(0, 0), FIELD(2, 0));
    FITS(5, 1, LIST_OF(0));
    FITS(5, 1, VALUE(INT), LIST_OF(2), lang_ty_child(0), lang_ty_child(0));
    FITS(5, 0, VALUE(INT), VALUE(NULL), LIST_OF(2), lang_ty_child(0), lang_ty_child(1));
    FITS(5, 0, SET_OF(0));
    FITS(6, 1, VALUE(NULL));
    FITS(6, 0, VALUE(BOOL));
    FITS(7, 0, VALUE(INT));
    FITS(8, 0, VALUE(INT));
    FITS(8, 1, VALUE(FLOAT));
    FITS(9, 0, VALUE(NULL));
    FITS(0, 1, VALUE(NULL), VALUE(INT)); /* nothing leads to the first value */
    RUN(fits, .given = BARE, .root = 0, .number = 0, .fix = WORDS(VALUE(STRING)));
    RUN(fits, .given = BARE, .root = 1, .number = 1, .fix = WORDS(VALUE(STRING)));
    RUN(fits, .table = LINE_AND_TARGET, .given = TARGET_TYPE, .root = 2, .number = 1, .fix = WORDS(VALUE(INT)));
    RUN(fits, .table = LINE_AND_TARGET, .given = TARGET_TYPE, .root = 2, .number = 0, .fix = WORDS(VALUE(FLOAT)));
}

static void check_refused_fixes(void)
{
    RUN(fits, .table = P_Q_AND_R, .given = HELD, .root = 0, .answer = LANG_TY_BAD_FIX);
    REFUSES(0, LANG_TY_BAD_FIX, lang_ty_head(8, 0));
    REFUSES(0, LANG_TY_BAD_FIX, LANG_TY_NO_WORD);
    REFUSES(0, LANG_TY_BAD_FIX, lang_ty_head(LANG_TY_VALUE_INT, 1), 0);
    REFUSES(0, LANG_TY_BAD_FIX, VALUE(INT) | 1 << 16);
    REFUSES(0, LANG_TY_BAD_FIX, VALUE(INT), LIST_OF(2), 0);
    REFUSES(0, LANG_TY_BAD_FIX, VALUE(INT), LIST_OF(1), 1);
    REFUSES(0, LANG_TY_BAD_FIX, VALUE(INT), LIST_OF(1), lang_ty_child(4096));
    REFUSES(0, LANG_TY_BAD_FIX, VALUE(INT), SET_OF(1), FIELD(3, 0));
    REFUSES(0, LANG_TY_BAD_FIX, VALUE(INT), SET_OF(1), FIELD(65536, 0));
    REFUSES(0, LANG_TY_BAD_FIX, VALUE(INT), SET_OF(1), lang_ty_field(0, 0, true));
    REFUSES(0, LANG_TY_BAD_FIX, VALUE(INT), SET_OF(2), FIELD(0, 0), FIELD(0, 0));
    REFUSES(0, LANG_TY_BAD_FIX, VALUE(INT), SET_OF(2), FIELD(1, 0), FIELD(0, 0));
    REFUSES(0, LANG_TY_BAD_FIX, lang_ty_head(8, 0), VALUE(INT));
    REFUSES(10, LANG_TY_HAS_VARIABLE, VALUE(INT));
    REFUSES(11, LANG_TY_HAS_VARIABLE, VALUE(INT));
    REFUSES(11, LANG_TY_BAD_FIX, lang_ty_head(8, 0));
    REFUSES(12, LANG_TY_BAD_ROOT, lang_ty_head(8, 0));
    /* As many values as a fix may have, and one more. */
    static const uint32_t nulls[LANG_TY_VALUES + 1];
    RUN(fits, .given = WORDS(NULL_TYPE), .fix = {nulls, LANG_TY_VALUES}, .number = 1);
    RUN(fits, .given = WORDS(NULL_TYPE), .fix = {nulls, LANG_TY_VALUES + 1}, .answer = LANG_TY_BAD_FIX);
}

/* Which values each primitive type takes, one bit a kind. */
static void check_kinds(void)
{
#define TAKES(kind) (1u << LANG_TY_VALUE_##kind)
    static const uint32_t taken[] = {
        [LANG_TY_PRIMITIVE_NULL] = TAKES(NULL), [LANG_TY_PRIMITIVE_BOOL] = TAKES(BOOL),
        [LANG_TY_PRIMITIVE_INT] = TAKES(INT), [LANG_TY_PRIMITIVE_FLOAT] = TAKES(FLOAT),
        [LANG_TY_PRIMITIVE_STRING] = TAKES(STRING), [LANG_TY_PRIMITIVE_PATH] = TAKES(PATH),
        [LANG_TY_PRIMITIVE_URI] = TAKES(STRING), [LANG_TY_PRIMITIVE_NUMBER] = TAKES(INT) | TAKES(FLOAT),
    };
    for (uint32_t code = 0; code < COUNT(taken); code++)
        for (uint32_t kind = LANG_TY_VALUE_NULL; kind <= LANG_TY_VALUE_SET; kind++)
            RUN(fits, .given = WORDS(PRIMITIVE(code)), .fix = WORDS(lang_ty_head(kind, 0)), .number = taken[code] >> kind & 1);
}

static void check_texts(void)
{
    RUN(display, .given = A_OR_INT, .root = 3, .text_lent = 32, .text = "a -> a | int");
    RUN(display, .table = P_AND_Q, .given = SHARED, .root = 3, .text_lent = 28, .text = "{ p: a -> int, q: a -> int }");
    RUN(display, .table = P_AND_Q, .given = SHARED, .root = 3, .text_lent = 27, .answer = LANG_TY_TOO_LONG);
    RUN(display, .table = LINE_AND_TARGET, .given = TARGET_TYPE, .root = 2, .text_lent = 6, .text = "Target");
    RUN(display, .given = EMPTY_SETS, .root = 0, .text_lent = 5, .text = "{  }");
    RUN(display, .given = EMPTY_SETS, .root = 1, .text_lent = 9, .text = "{ ... }");
    RUN(display, .given = WORDS(VAR(LANG_TY_UNKNOWN)), .text_lent = 0, .answer = LANG_TY_TOO_LONG);
    RUN(display, .given = BARE, .root = 2, .text_lent = 64, .text = "~never");
    RUN(display, .given = BARE, .root = 3, .text_lent = 64, .text = "[any]");
    RUN(display, .table = "\1p", .given = WORDS(VAR(0), lang_ty_set_head(1, true, true), lang_ty_field(0, 0, true), lang_ty_child(0)),
        .root = 1, .text_lent = 64, .text = "{ p?: a, _: a, ... }");
}

/* 64 quotes are a name, which has 130 bytes as the manual writes it. */
#define SIXTEEN(text) text text text text text text text text text text text text text text text text
#define SIXTY_FOUR(text) SIXTEEN(text) SIXTEEN(text) SIXTEEN(text) SIXTEEN(text)

static void check_nix_texts(void)
{
    const char *text = "{ \"in\": a, in1?: \"$\\${x}\", \"roll angle\": in1 }";
    RUN(display, .table = ODD_NAMES, .given = ODD_NAMED, .root = 3, .text_lent = 160, .text = "{ in: a, in1?: $${x}, roll angle: in1 }");
    RUN(display_nix, .table = ODD_NAMES, .given = ODD_NAMED, .root = 3, .text_lent = 160, .text = text);
    RUN(display_nix, .table = ODD_NAMES, .given = ODD_NAMED, .root = 3, .text_lent = strlen(text), .text = text);
    RUN(display_nix, .table = ODD_NAMES, .given = ODD_NAMED, .root = 3, .text_lent = strlen(text) - 1, .answer = LANG_TY_TOO_LONG);
    RUN(display_nix, .table = ODD_NAMES, .given = ODD_NAMED, .root = 1, .text_lent = 8, .text = "\"$\\${x}\"");
    RUN(display_nix, .table = ODD_NAMES, .given = ODD_NAMED, .root = 2, .text_lent = 3, .text = "in1");
    RUN(display_nix, .table = ODD_NAMES, .given = ODD_NAMED, .root = 4, .text_lent = 160, .answer = LANG_TY_BAD_ROOT);
    RUN(display_nix, .given = A_OR_INT, .root = 3, .text_lent = 32, .text = "a -> a | int");
    RUN(display_nix, .given = A_OR_INT, .root = 3, .text_lent = 0, .answer = LANG_TY_TOO_LONG);
    RUN(display_nix, .table = "\100" SIXTY_FOUR("\""), .given = WORDS(VAR(0), NAMED(0, 0)), .root = 1, .text_lent = 130,
        .text = "\"" SIXTY_FOUR("\\\"") "\"");
    RUN(display_nix, .table = "\100" SIXTY_FOUR("\""), .given = WORDS(VAR(0), NAMED(0, 0)), .root = 1, .text_lent = 129,
        .answer = LANG_TY_TOO_LONG);
}

static void check_primitives(void)
{
    static const char *const texts[] = {
        [LANG_TY_PRIMITIVE_NULL] = "null", [LANG_TY_PRIMITIVE_BOOL] = "bool", [LANG_TY_PRIMITIVE_INT] = "int",
        [LANG_TY_PRIMITIVE_FLOAT] = "float", [LANG_TY_PRIMITIVE_STRING] = "string", [LANG_TY_PRIMITIVE_PATH] = "path",
        [LANG_TY_PRIMITIVE_URI] = "uri", [LANG_TY_PRIMITIVE_NUMBER] = "number",
    };
    for (uint32_t code = 0; code < COUNT(texts); code++)
        RUN(display, .given = WORDS(PRIMITIVE(code)), .text_lent = 8, .text = texts[code]);
    RUN(intern, .node = WORDS(PRIMITIVE(COUNT(texts))), .spare_words = 2, .spare_starts = 1, .answer = LANG_TY_BAD_NODE);
}

static void check_written_sheets(void)
{
    RUN(write_sheet, .given = EXAMPLE, .root = 2, .text_lent = 64, SHEET_OF(example));
    RUN(write_sheet, .given = EXAMPLE, .root = 2, .spare_words = 3, .spare_starts = 2, .text_lent = 34, SHEET_OF(example));
    RUN(write_sheet, .given = EXAMPLE, .root = 2, .text_lent = 33, .answer = LANG_TY_TOO_LONG);
    RUN(write_sheet, .given = EXAMPLE, .root = 2, .text_lent = 0, .answer = LANG_TY_TOO_LONG);
    RUN(write_sheet, .table = "\1p\2qr", .given = WORDS(VAR(LANG_TY_UNKNOWN), SET(1), FIELD(1, 0)), .root = 1,
        .text_lent = 27, SHEET_OF(with_names));
}

static void check_copies(void)
{
    RUN(compact, .given = WITH_A_REST, .root = 3, .target_words = 12, .target_starts = 6, .number = 2, .target = COPIED);
    RUN(compact, .given = WITH_A_REST, .root = 3, .target_words = 7, .target_starts = 3, .number = 2, .target = COPIED);
    RUN(compact, .given = WITH_A_REST, .root = 3, .target_words = 6, .target_starts = 3, .answer = LANG_TY_NO_ROOM);
    RUN(compact, .given = WITH_A_REST, .root = 3, .target_words = 7, .target_starts = 2, .answer = LANG_TY_NO_ROOM);
    RUN(compact, .given = WITH_A_REST, .root = 4, .target_words = LANG_TY_WORDS + 1, .answer = LANG_TY_BAD_ARENA);
    RUN(compact, .given = WITH_A_REST, .root = 4, .target_starts = LANG_TY_STARTS + 1, .answer = LANG_TY_BAD_ARENA);
}

/* { p: int, q?: Q } is node 3, where Q is q as a name for a. Node 4 is p as a name for a. */
#define P_INT_Q_A WORDS(VAR(0), INT, NAMED(1, 0), SET(2), FIELD(0, 1), lang_ty_field(1, 2, true), NAMED(0, 0))
/* A target with other numbers for both names, before and after. */
#define A_P_AND_Q "\1a\1p\1q"
#define BOOL_AND_A WORDS(BOOL, VAR(0))
#define IMPORTED WORDS(BOOL, VAR(0), INT, NAMED(2, 1), SET(2), FIELD(1, 2), lang_ty_field(2, 3, true))
#define IMPORTS(of, into, ...) RUN(import_from_arena, .table = P_AND_Q, .given = P_INT_Q_A, .root = of, .right_table = into, __VA_ARGS__)

static void check_imports(void)
{
    static const char same[] = P_AND_Q;
    IMPORTS(3, A_P_AND_Q, .right = BOOL_AND_A, .target_words = 15, .target_starts = 8, .number = 4, .target = IMPORTED);
    IMPORTS(3, A_P_AND_Q, .right = BOOL_AND_A, .target_words = 11, .target_starts = 5, .number = 4, .target = IMPORTED);
    IMPORTS(3, A_P_AND_Q, .right = BOOL_AND_A, .target_words = 10, .target_starts = 5, .answer = LANG_TY_NO_ROOM);
    IMPORTS(3, A_P_AND_Q, .right = BOOL_AND_A, .target_words = 11, .target_starts = 4, .answer = LANG_TY_NO_ROOM);
    IMPORTS(3, A_P_AND_Q, .right = BOOL_AND_A, .target_words = 4, .target_starts = 2, .answer = LANG_TY_NO_ROOM);
    /* All of it is there, in a target that is full. */
    IMPORTS(3, A_P_AND_Q, .right = IMPORTED, .target_words = 11, .target_starts = 5, .number = 4, .target = IMPORTED);
    RUN(import_from_arena, .table = same, .given = P_INT_Q_A, .root = 2, .right_table = same, .target_words = 5, .target_starts = 3,
        .number = 1, .target = WORDS(VAR(0), NAMED(1, 0)));
    /* Without p the target takes node 2, and node 3 not, whether there is room or not. */
    IMPORTS(2, "\1q", .target_words = 4, .target_starts = 2, .number = 1, .target = WORDS(VAR(0), NAMED(0, 0)));
    IMPORTS(3, "\1q", .target_words = 15, .target_starts = 8, .answer = LANG_TY_LACKING_NAME);
    IMPORTS(3, "\1q", .answer = LANG_TY_LACKING_NAME);
    IMPORTS(3, "\1p", .right = BOOL_AND_A, .target_words = 15, .target_starts = 8, .answer = LANG_TY_LACKING_NAME);
    /* The target's 1, its 2, then 6, before 12. */
    IMPORTS(5, "\2p", .right = TWICE, .answer = LANG_TY_BAD_TABLE);
    IMPORTS(5, "", .right = TWICE, .target_words = 4, .target_starts = 2, .answer = LANG_TY_BAD_ARENA);
    IMPORTS(5, "", .target_words = LANG_TY_WORDS + 1, .answer = LANG_TY_BAD_ARENA);
    IMPORTS(5, "", .target_starts = LANG_TY_STARTS + 1, .answer = LANG_TY_BAD_ARENA);
    IMPORTS(5, "", .answer = LANG_TY_BAD_ROOT);
    /* The source's 2 before the target's 1. */
    RUN(import_from_arena, .given = TWICE, .right_table = "\2p", .answer = LANG_TY_BAD_ARENA);
}

/* Nodes 0 to 64 are int, [int], [[int]], .., node 65 the union of the first 64, node 66 that union and node 64, node 67 that
 * union and node 63. */
static uint32_t wide[130 + 65 + 3 + 3];
/* All variables below 4,096: every start of an arena is used. */
static uint32_t full[2 * LANG_TY_STARTS];

static void fill(void)
{
    for (uint32_t k = 0; k <= 64; k++) {
        const uint32_t *node = k == 0 ? (const uint32_t[]){INT} : (const uint32_t[]){LIST(k - 1)};
        memcpy(wide + 2 * k, node, 2 * sizeof *node);
    }
    wide[130] = UNION(64);
    for (uint32_t k = 0; k < 64; k++)
        wide[131 + k] = k;
    memcpy(wide + 195, (const uint32_t[]){UNION(2), 65, 64, UNION(2), 65, 63}, 6 * sizeof *wide);
    for (uint32_t k = 0; k < LANG_TY_STARTS; k++)
        memcpy(full + 2 * k, (const uint32_t[]){VAR(k)}, 2 * sizeof *full);
}

#define WIDE {wide, COUNT(wide)}
#define FULL {full, COUNT(full)}
#define ONE_LESS {full, COUNT(full) - 2}

static void check_nodes(void)
{
    RUN(intern, .given = A_OR_INT, .node = WORDS(UNION(2), 0, 1), .number = 2);
    RUN(intern, .given = A_OR_INT, .node = WORDS(VAR(1)), .spare_words = 4, .spare_starts = 3, .number = 4, .added = WORDS(VAR(1)));
    RUN(intern, .given = A_OR_INT, .node = {full, 0}, .spare_words = 2, .spare_starts = 1, .answer = LANG_TY_BAD_NODE);
    RUN(intern, .given = A_OR_INT, .node = WORDS(lang_ty_head(11, 0)), .spare_words = 2, .spare_starts = 1, .answer = LANG_TY_BAD_NODE);
    RUN(intern, .given = A_OR_INT, .node = WORDS(UNION(2), 0), .spare_words = 3, .spare_starts = 1, .answer = LANG_TY_BAD_NODE);
    RUN(intern, .given = A_OR_INT, .node = WORDS(LAMBDA(0, 4)), .spare_words = 3, .spare_starts = 1, .answer = LANG_TY_BAD_CHILD_OR_NAME);
    RUN(intern, .given = A_OR_INT, .node = WORDS(NAMED(0, 0)), .spare_words = 2, .spare_starts = 1, .answer = LANG_TY_BAD_CHILD_OR_NAME);
    RUN(intern, .table = P_AND_Q, .given = SHARED, .node = WORDS(SET(2), FIELD(1, 0), FIELD(0, 0)), .spare_words = 3, .spare_starts = 1,
        .answer = LANG_TY_BAD_FIELD_ORDER);
    RUN(intern, .given = A_OR_INT, .node = WORDS(VAR(1)), .spare_words = 1, .spare_starts = 1, .answer = LANG_TY_NO_ROOM);
    RUN(intern, .given = ONE_LESS, .node = WORDS(VAR(4095)), .spare_words = 2, .spare_starts = 1, .number = 4095,
        .added = WORDS(VAR(4095)));
    RUN(intern, .given = FULL, .node = WORDS(VAR(4096)), .spare_words = 2, .answer = LANG_TY_NO_ROOM);
    RUN(intern, .given = FULL, .node = WORDS(VAR(77)), .number = 77);
    RUN(intern, .given = FULL, .node = WORDS(VAR(77)), .spare_starts = 1, .answer = LANG_TY_BAD_ARENA);
    RUN(intern, .given = A_OR_INT, .node = WORDS(LIST(4096)), .spare_words = 2, .spare_starts = 1, .answer = LANG_TY_BAD_NODE);
    RUN(intern, .given = A_OR_INT, .node = WORDS(NAMED(65536, 0)), .spare_words = 2, .spare_starts = 1, .answer = LANG_TY_BAD_NODE);
    RUN(intern, .given = A_OR_INT, .node = WORDS(NAMED(65535, 0)), .spare_words = 2, .spare_starts = 1,
        .answer = LANG_TY_BAD_CHILD_OR_NAME);
    for (uint32_t zero = 0x1000; zero < 0x8000; zero *= 2)
        RUN(intern, .table = P_AND_Q, .given = SHARED, .node = WORDS(SET(1), FIELD(1, 0) | zero), .spare_words = 2, .spare_starts = 1,
            .answer = LANG_TY_BAD_NODE);
}

static void check_simplify(void)
{
    RUN(simplify, .given = A_OR_INT, .root = 2, .number = 1, .passes = 2);
    RUN(simplify, .given = A_OR_INT, .root = 3, .number = 3, .passes = 2);
    RUN(simplify, .given = INT_NULL_A, .root = 3, .spare_words = 5, .spare_starts = 2, .number = 4, .passes = 2,
        .added = WORDS(UNION(2), 0, 1));
    RUN(simplify, .given = INT_NULL_A, .root = 3, .spare_words = 2, .spare_starts = 1, .answer = LANG_TY_NO_ROOM);
    RUN(simplify, .given = INT_NULL_A, .root = 3, .spare_words = 3, .answer = LANG_TY_NO_ROOM);
    RUN(simplify, .given = A_OR_B_AND_INT, .root = 4, .spare_words = 4, .spare_starts = 1, .number = 3, .passes = 3,
        .added = WORDS(INTERSECTION(2), 0, 3));
    RUN(simplify, .given = WIDE, .root = 66, .spare_words = 66, .spare_starts = 1, .answer = LANG_TY_TOO_MANY_MEMBERS);
    RUN(simplify, .given = WIDE, .root = 67, .number = 65, .passes = 2);
    RUN(simplify, .given = A_OR_INT, .root = 2, .spare_words = LANG_TY_WORDS, .answer = LANG_TY_BAD_ARENA);
}

static void check_normalize(void)
{
    RUN(normalize_vars, .given = H_TO_D_OR_H, .root = 3, .spare_words = 10, .spare_starts = 4, .number = 7,
        .added = WORDS(VAR(0), VAR(1), UNION(2), 5, 4, LAMBDA(4, 6)));
    RUN(normalize_vars, .given = H_TO_D_OR_H, .root = 3, .spare_words = 9, .spare_starts = 4, .answer = LANG_TY_NO_ROOM);
    RUN(normalize_vars, .given = H_TO_D_OR_H, .root = 0, .spare_words = 2, .spare_starts = 1, .number = 4, .added = WORDS(VAR(0)));
    RUN(normalize_replacing_unknown, .given = H_TO_D_OR_H, .root = 3, .spare_words = 11, .spare_starts = 5, .number = 7,
        .added = WORDS(VAR(0), VAR(1), UNION(2), 5, 4, LAMBDA(4, 6)));
    RUN(normalize_replacing_unknown, .given = H_TO_D_OR_H, .root = 0, .spare_words = 2, .spare_starts = 1, .number = 4,
        .added = WORDS(VAR(LANG_TY_UNKNOWN)));
    RUN(normalize_replacing_unknown, .given = H_TO_D_OR_H, .root = 0, .spare_words = 2, .answer = LANG_TY_NO_ROOM);
    RUN(normalize_set_ops, .given = UNSORTED, .root = 4, .spare_words = 6, .spare_starts = 2, .number = 5,
        .added = WORDS(UNION(3), 1, 2, 0));
    RUN(normalize_set_ops, .given = UNSORTED, .root = 4, .spare_words = 3, .spare_starts = 1, .answer = LANG_TY_NO_ROOM);
    RUN(normalize_set_ops, .given = WIDE, .root = 66, .spare_words = 66, .spare_starts = 1, .answer = LANG_TY_TOO_MANY_MEMBERS);
    RUN(normalize_set_ops, .given = WIDE, .root = 67, .number = 65);
}

static const struct call *const all[] = {
    &compare, &count_reachable, &unwrap_named, &has_type_vars, &needs_var_normalization, &contains_bare_tyvar,
    &has_shared_tyvar_across_lambda_params, &free_type_vars, &structurally_eq, &fits, &display, &display_nix, &write_sheet,
    &intern, &simplify, &normalize_vars, &normalize_replacing_unknown, &normalize_set_ops, &compact, &import_from_arena,
};

/* What is refused alike by every call that is lent an arena, in the order of the numbers. Node 9 isn't there. */
static void run_faulty(const struct call *call)
{
#define FAULT(...) {.line = __LINE__, .text_lent = 8, .target_words = 8, .target_starts = 4, .node = WORDS(VAR(9)), \
                    .right = WORDS(VAR(0)), __VA_ARGS__}
    const struct row faulty[] = {
        FAULT(.table = "\2p", .given = TWICE, .root = 9, .answer = LANG_TY_BAD_TABLE),
        FAULT(.table = "\1q\1p", .given = A_OR_INT, .root = 2, .answer = LANG_TY_BAD_TABLE),
        FAULT(.given = TWICE, .root = 9, .answer = LANG_TY_BAD_ARENA),
        FAULT(.given = WORDS(NAMED(0, 0)), .root = 0, .answer = LANG_TY_BAD_ARENA),
        FAULT(.given = A_OR_INT, .root = 9, .answer = LANG_TY_BAD_ROOT),
    };
    for (size_t k = 0; k < COUNT(faulty); k++) {
        struct row row = faulty[k];
        row.call = call;
        if (call != &intern || row.answer != LANG_TY_BAD_ROOT) /* intern is given no root */
            run(&row);
    }
}

/* So many names of so many bytes, which rise by their first two. */
static void fill_table(char *table, int count, int size)
{
    memset(table, '~', (size_t)(count * (size + 1)));
    for (int k = 0; k < count; k++)
        memcpy(table + (size + 1) * k, (const char[]){(char)size, (char)(32 + k / 90), (char)(32 + k % 90)}, 3);
}

static void check_tables(void)
{
    /* 4,096 names of 15 bytes, and 1,008 of 64 with one of 15, are 65,536 bytes. */
    static char most[4097 * 3], full[LANG_TY_TABLE], longest[LANG_TY_TABLE], longer[LANG_TY_TABLE + 1];
    fill_table(most, 4097, 2);
    fill_table(full, 4096, 15);
    fill_table(longest, 1008, 64);
    memcpy(longest + 1008 * 65, "\17~~~~~~~~~~~~~~~", 16);
    memcpy(longer, longest, LANG_TY_TABLE);
    memcpy(longer + 1008 * 65, "\20~~~~~~~~~~~~~~~~", 17);
    const struct {
        int line;
        const char *table;
        size_t len;
        uint32_t answer;
        size_t count;
    } tables[] = {
        {__LINE__, "", 0, LANG_TY_OK, 0},
        {__LINE__, LINE_AND_TARGET, 12, LANG_TY_OK, 2},
        {__LINE__, most, 4096 * 3, LANG_TY_OK, LANG_TY_NAMES},
        {__LINE__, most, 4097 * 3, LANG_TY_BAD_TABLE, 0},
        {__LINE__, full, LANG_TY_TABLE, LANG_TY_OK, LANG_TY_NAMES},
        {__LINE__, full, LANG_TY_TABLE - 1, LANG_TY_BAD_TABLE, 0},
        {__LINE__, longest, LANG_TY_TABLE, LANG_TY_OK, 1009},
        {__LINE__, longer, LANG_TY_TABLE + 1, LANG_TY_BAD_TABLE, 0},
        {__LINE__, "\1p\1p", 4, LANG_TY_BAD_TABLE, 0},
        {__LINE__, "\1\37", 2, LANG_TY_BAD_TABLE, 0},
        {__LINE__, "\0", 1, LANG_TY_BAD_TABLE, 0},
    };
    for (size_t k = 0; k < COUNT(tables); k++) {
        size_t count = 77;
        uint32_t answer = TOLD(lang_ty_check_names, (const uint8_t *)tables[k].table, tables[k].len, &count);
        check(tables[k].line, "answer", answer, tables[k].answer);
        check(tables[k].line, "count", count, answer == LANG_TY_OK ? tables[k].count : 77);
    }
}

static void check_places(void)
{
    static const struct {
        int line;
        const char *table;
        size_t len;
        uint32_t number, answer;
        size_t start, length;
    } places[] = {
        {__LINE__, LINE_AND_TARGET, 12, 0, LANG_TY_OK, 1, 4},
        {__LINE__, LINE_AND_TARGET, 12, 1, LANG_TY_OK, 6, 6},
        {__LINE__, LINE_AND_TARGET, 12, 2, LANG_TY_BAD_CHILD_OR_NAME, 77, 78},
        {__LINE__, LINE_AND_TARGET, 12, LANG_TY_UNKNOWN, LANG_TY_BAD_CHILD_OR_NAME, 77, 78},
        {__LINE__, "", 0, 0, LANG_TY_BAD_CHILD_OR_NAME, 77, 78},
        {__LINE__, "\1p\1p", 4, 0, LANG_TY_BAD_TABLE, 77, 78},
        {__LINE__, "\1p\1p", 4, 9, LANG_TY_BAD_TABLE, 77, 78}, /* 1 before 4 */
    };
    for (size_t k = 0; k < COUNT(places); k++) {
        size_t start = 77, length = 78;
        const uint8_t *table = (const uint8_t *)places[k].table;
        uint32_t answer = TOLD(lang_ty_name_at, table, places[k].len, places[k].number, &start, &length);
        check(places[k].line, "answer", answer, places[k].answer);
        check(places[k].line, "start", start, places[k].start);
        check(places[k].line, "length", length, places[k].length);
    }
}

/* The names a, ab, b and bcd. */
#define PREFIXES "\1a\2ab\1b\3bcd"
#define TEN_BYTES "Line Line "

static const struct {
    int line;
    const char *table;
    size_t table_len;
    const char *text;
    size_t text_len;
    uint32_t answer, found, place;
} finds[] = {
    {__LINE__, LINE_AND_TARGET, 12, "Line", 4, LANG_TY_OK, 1, 0},
    {__LINE__, LINE_AND_TARGET, 12, "Target", 6, LANG_TY_OK, 1, 1},
    {__LINE__, LINE_AND_TARGET, 12, "Axis", 4, LANG_TY_OK, 0, 0},
    {__LINE__, LINE_AND_TARGET, 12, "Roll", 4, LANG_TY_OK, 0, 1},
    {__LINE__, LINE_AND_TARGET, 12, "line", 4, LANG_TY_OK, 0, 2},
    {__LINE__, LINE_AND_TARGET, 12, "", 0, LANG_TY_OK, 0, 0},
    /* A text that can be no name: a byte of 0 or 255, or over 64 bytes. */
    {__LINE__, LINE_AND_TARGET, 12, "\0", 1, LANG_TY_OK, 0, 0},
    {__LINE__, LINE_AND_TARGET, 12, "Line\0", 5, LANG_TY_OK, 0, 1},
    {__LINE__, LINE_AND_TARGET, 12, "\377", 1, LANG_TY_OK, 0, 2},
    {__LINE__, LINE_AND_TARGET, 12, TEN_BYTES TEN_BYTES TEN_BYTES TEN_BYTES TEN_BYTES TEN_BYTES TEN_BYTES, 70, LANG_TY_OK, 0, 1},
    /* A text that begins a name, or that a name begins. */
    {__LINE__, PREFIXES, 11, "a", 1, LANG_TY_OK, 1, 0},
    {__LINE__, PREFIXES, 11, "aa", 2, LANG_TY_OK, 0, 1},
    {__LINE__, PREFIXES, 11, "ab", 2, LANG_TY_OK, 1, 1},
    {__LINE__, PREFIXES, 11, "abc", 3, LANG_TY_OK, 0, 2},
    {__LINE__, PREFIXES, 11, "b", 1, LANG_TY_OK, 1, 2},
    {__LINE__, PREFIXES, 11, "bc", 2, LANG_TY_OK, 0, 3},
    {__LINE__, PREFIXES, 11, "bcd", 3, LANG_TY_OK, 1, 3},
    {__LINE__, PREFIXES, 11, "bcde", 4, LANG_TY_OK, 0, 4},
    {__LINE__, "", 0, "p", 1, LANG_TY_OK, 0, 0},
    {__LINE__, "", 0, "", 0, LANG_TY_OK, 0, 0},
    {__LINE__, "\1p\1p", 4, "p", 1, LANG_TY_BAD_TABLE, 77, 78},
    {__LINE__, "\1q\1p", 4, "", 0, LANG_TY_BAD_TABLE, 77, 78},
};

static void check_finds(void)
{
    for (size_t k = 0; k < COUNT(finds); k++) {
        uint32_t found = 77, place = 78;
        const uint8_t *table = (const uint8_t *)finds[k].table, *text = (const uint8_t *)finds[k].text;
        uint32_t answer = TOLD(lang_ty_find_name, table, finds[k].table_len, text, finds[k].text_len, &found, &place);
        check(finds[k].line, "answer", answer, finds[k].answer);
        check(finds[k].line, "found", found, finds[k].found);
        check(finds[k].line, "place", place, finds[k].place);
    }
}

static void check_names(void)
{
    static const struct {
        int line;
        const char *left, *right;
        uint32_t order;
    } names[] = {
        {__LINE__, "p", "pitch", LANG_TY_LESS},
        {__LINE__, "roll", "roll", LANG_TY_EQUAL},
        {__LINE__, "q", "pitch", LANG_TY_GREATER},
        {__LINE__, "", "p", LANG_TY_LESS},
    };
    for (size_t k = 0; k < COUNT(names); k++) {
        const uint8_t *left = (const uint8_t *)names[k].left, *right = (const uint8_t *)names[k].right;
        uint32_t order = 77;
        uint32_t answer = TOLD(lang_ty_compare_names, left, strlen(names[k].left), right, strlen(names[k].right), &order);
        check(names[k].line, "answer", answer, LANG_TY_OK);
        check(names[k].line, "order", order, names[k].order);
    }
}

static void check_tyvar_names(void)
{
    static const struct {
        int line;
        uint32_t index;
        char text[LANG_TY_TYVAR_NAME + 1];
    } names[] = {
        {__LINE__, 25, "z"},
        {__LINE__, 26, "a1"},
        {__LINE__, 4294967294, "u165191049"},
        {__LINE__, LANG_TY_UNKNOWN, "?"},
    };
    for (size_t k = 0; k < COUNT(names); k++) {
        uint8_t text[LANG_TY_TYVAR_NAME + 1];
        size_t length = 77;
        memset(text, 0xa5, sizeof text);
        check(names[k].line, "answer", TOLD(lang_ty_tyvar_name, names[k].index, text, &length), LANG_TY_OK);
        check(names[k].line, "length", length, strlen(names[k].text));
        check_bytes(names[k].line, "text", text, names[k].text, LANG_TY_TYVAR_NAME);
        check(names[k].line, "the byte past the text", text[LANG_TY_TYVAR_NAME], 0xa5);
    }
}

static void check_sheets(void)
{
    static const uint8_t counts[] = {0x10, 0, 0x10, 1, 0, 0, 0, 0};
    static const struct {
        int line;
        const uint8_t *sheet;
        size_t len;
        const char *answer;
    } sheets[] = {
        {__LINE__, example, sizeof example, "1 2 int\n"},
        {__LINE__, example, sizeof example - 1, "refused 10\n"},
        {__LINE__, with_or, sizeof with_or, "1 2 { \"or\": a }\n"},
        {__LINE__, counts, 6, "refused 10\n"},    /* 4,096 names, of which none is there */
        {__LINE__, counts + 2, 6, "refused 1\n"}, /* 4,097 names */
    };
    for (size_t k = 0; k < COUNT(sheets); k++) {
        uint8_t *line = room(2 * LANG_TY_LINE), *want = line + LANG_TY_LINE;
        size_t length = 77;
        memset(line, 0xa5, 2 * LANG_TY_LINE);
        memcpy(want, sheets[k].answer, strlen(sheets[k].answer));
        check(sheets[k].line, "answer", TOLD(lang_ty_sheet_line, sheets[k].sheet, sheets[k].len, line, &length), LANG_TY_OK);
        check(sheets[k].line, "length", length, strlen(sheets[k].answer));
        check_bytes(sheets[k].line, "line", line, want, LANG_TY_LINE);
        free(line);
    }
}

/* Converts the sheet in memory of its size, which must answer so and leave these bytes. */
static void convert(int line, const uint8_t *sheet, const uint8_t *want, size_t len, uint32_t answer)
{
    uint8_t *lent = room(len);
    memcpy(lent, sheet, len);
    check(line, "answer", TOLD(lang_ty_convert_sheet, lent, len), answer);
    check_bytes(line, "sheet", lent, want, len);
    free(lent);
}

/* The names p and q, a, q as a name for a, and an open set with a under p, that under q, which is optional, and a for all other
 * fields. The two bytes have the number of q, by the old layout or the new. */
#define SHEET_WITH_Q(high, low) \
    {0, 2, 0, 3, 0, 2, 1, 'p', 1, 'q', 0x30, 0, 0, 1, 0, 0, 0, 0, 0x90, 0, 0, 1, 0, high, low, 0, \
     0x6c, 0, 0, 3, 0, 0, 0, 0, 0x80, high, low, 1, 0, 0, 0, 0}

static void check_converted(void)
{
    static const uint8_t old[] = SHEET_WITH_Q(0x80, 0), new[] = SHEET_WITH_Q(0, 0x80), zeros[LANG_TY_SHEET + 1];
    static const struct {
        int line;
        size_t place;
        uint8_t byte;
    } damages[] = {
        {__LINE__, 0, 1},     /* 258 names, which the old rules refuse by 1 */
        {__LINE__, 6, 0},     /* 1: a name without bytes */
        {__LINE__, 18, 0xb0}, /* 3: a kind */
        {__LINE__, 24, 0x10}, /* 3: a zero field */
        {__LINE__, 25, 1},    /* 4: a child */
        {__LINE__, 22, 1},    /* 4: a name, the fourth */
        {__LINE__, 35, 0},    /* 5: p twice */
        {__LINE__, 5, 3},     /* 6 */
        {__LINE__, 3, 4},     /* 10: a fourth node is missing */
    };
    convert(__LINE__, old, new, sizeof old, LANG_TY_OK);
    convert(__LINE__, new, new, sizeof new, LANG_TY_BAD_OLD_SHEET);
    convert(__LINE__, example, example, sizeof example, LANG_TY_OK);
    for (size_t len = 0; len < sizeof old; len++)
        convert(__LINE__, old, old, len, LANG_TY_BAD_OLD_SHEET);
    convert(__LINE__, zeros, zeros, sizeof zeros, LANG_TY_BAD_OLD_SHEET);
    for (size_t k = 0; k < COUNT(damages); k++) {
        uint8_t sheet[sizeof old];
        memcpy(sheet, old, sizeof old);
        sheet[damages[k].place] = damages[k].byte;
        convert(damages[k].line, sheet, sheet, sizeof sheet, LANG_TY_BAD_OLD_SHEET);
    }
}

int main(void)
{
    fill();
    check_words();
    check_sentences();
    check_questions();
    check_equality();
    check_fits();
    check_refused_fixes();
    check_kinds();
    check_texts();
    check_nix_texts();
    check_primitives();
    check_written_sheets();
    check_copies();
    check_imports();
    check_nodes();
    check_simplify();
    check_normalize();
    for (size_t k = 0; k < COUNT(all); k++)
        run_faulty(all[k]);
    check_tables();
    check_places();
    check_finds();
    check_names();
    check_tyvar_names();
    check_sheets();
    check_converted();
    return failures != 0;
}
