/* Builds the type of a drive as inference would leave it, simplifies it and prints it, and holds two fixes against it. Then a
 * node with a name that isn't in the table is refused, the name is added, and the node is stored. It prints what drive.rs does,
 * which goes through the crate; host/test-c holds both against each other.
 *
 *     cc -Ihost host/examples/drive.c target/staticlib/liblang_ty.a -o drive && ./drive
 */
#include "lang_ty.h"

#include <inttypes.h>
#include <stdio.h>
#include <stdlib.h>
#include <string.h>

/* What is lent at each call: the names that nodes may use and an arena, which is empty while all of it is zeros. */
struct host {
    uint8_t table[LANG_TY_TABLE];
    size_t table_len;
    uint32_t words[LANG_TY_WORDS], starts[LANG_TY_STARTS];
    size_t nodes, used;
};

#define LENT(h) (h)->table, (h)->table_len, (h)->words, LANG_TY_WORDS, (h)->starts, LANG_TY_STARTS

/* The numbers of the names: their places in the table. */
enum { CHAINAGE, JACKS, LOG, PITCH, ROLL, STEERING };

/* Ends the program if a call was refused. */
static void must(uint32_t answer)
{
    if (answer != LANG_TY_OK) {
        fprintf(stderr, "drive: %s\n", lang_ty_sentence(answer));
        exit(1);
    }
}

/* Puts a name at the end of the table. Names must rise, so the numbers of those before it stay, and so do the nodes. */
static void add_name(struct host *h, const char *name)
{
    size_t length = strlen(name), count;
    h->table[h->table_len] = (uint8_t)length;
    memcpy(h->table + h->table_len + 1, name, length);
    h->table_len += 1 + length;
    must(lang_ty_check_names(h->table, h->table_len, &count));
}

/* A node and how many words it has. */
#define NODE(...) (const uint32_t[]){__VA_ARGS__}, sizeof((const uint32_t[]){__VA_ARGS__}) / sizeof(uint32_t)

static uint32_t store(struct host *h, const uint32_t *node, size_t count, uint32_t *number)
{
    return lang_ty_intern(LENT(h), &h->nodes, &h->used, node, count, number);
}

/* The number of a node that mustn't be refused. */
static uint32_t intern(struct host *h, const uint32_t *node, size_t count)
{
    uint32_t number;
    must(store(h, node, count, &number));
    return number;
}

static uint32_t primitive(struct host *h, uint32_t code)
{
    return intern(h, NODE(lang_ty_head(LANG_TY_KIND_PRIMITIVE, 1), code));
}

static uint32_t variable(struct host *h, uint32_t index)
{
    return intern(h, NODE(lang_ty_head(LANG_TY_KIND_TYVAR, 1), index));
}

static uint32_t lambda(struct host *h, uint32_t param, uint32_t body)
{
    return intern(h, NODE(lang_ty_head(LANG_TY_KIND_LAMBDA, 2), lang_ty_child(param), lang_ty_child(body)));
}

/* What a fix holds: an angle may be missing, and each has a variable that inference left beside its type. */
static uint32_t fix(struct host *h)
{
    uint32_t float_ty = primitive(h, LANG_TY_PRIMITIVE_FLOAT);
    uint32_t null_ty = primitive(h, LANG_TY_PRIMITIVE_NULL);
    uint32_t open = variable(h, 7);
    uint32_t angle = intern(h, NODE(lang_ty_head(LANG_TY_KIND_UNION, 3), lang_ty_child(open), lang_ty_child(float_ty),
                                    lang_ty_child(null_ty)));
    return intern(h, NODE(lang_ty_set_head(3, true, false), lang_ty_field(CHAINAGE, float_ty, false),
                          lang_ty_field(PITCH, angle, true), lang_ty_field(ROLL, angle, false)));
}

/* A function from a fix, and from anything at all that it hands on, to the next steering command. */
static uint32_t drive(struct host *h)
{
    uint32_t given = fix(h);
    uint32_t log = variable(h, 3);
    uint32_t unseen = variable(h, 9);
    uint32_t never = intern(h, NODE(lang_ty_head(LANG_TY_KIND_BOTTOM, 0)));
    uint32_t int_ty = primitive(h, LANG_TY_PRIMITIVE_INT);
    uint32_t inner = intern(h, NODE(lang_ty_head(LANG_TY_KIND_UNION, 2), lang_ty_child(int_ty), lang_ty_child(unseen)));
    uint32_t jacks = intern(h, NODE(lang_ty_head(LANG_TY_KIND_UNION, 3), lang_ty_child(never), lang_ty_child(inner),
                                    lang_ty_child(int_ty)));
    jacks = intern(h, NODE(lang_ty_head(LANG_TY_KIND_LIST, 1), lang_ty_child(jacks)));
    uint32_t command = intern(h, NODE(lang_ty_set_head(2, false, false), lang_ty_field(JACKS, jacks, false),
                                      lang_ty_field(LOG, log, false)));
    return lambda(h, given, lambda(h, log, command));
}

static void print(const struct host *h, const char *what, uint32_t root)
{
    static uint8_t text[LANG_TY_TEXT];
    size_t length;
    must(lang_ty_display(LENT(h), h->nodes, h->used, root, text, sizeof text, &length));
    printf("%s %.*s\n", what, (int)length, (const char *)text);
}

/* Whether the drive takes a fix: the type of that is its param, the first word after its head. */
static const char *takes(const struct host *h, uint32_t type, const uint32_t *values, size_t count)
{
    uint32_t param = lang_ty_child_of(h->words[h->starts[type] + 1]), answer;
    must(lang_ty_fits(LENT(h), h->nodes, h->used, param, values, count, &answer));
    return answer ? "true" : "false";
}

int main(void)
{
    static struct host host;
    static const char *const names[] = {"chainage", "jacks", "log", "pitch", "roll"};
    uint32_t after, passes, shown, named;
    for (size_t k = 0; k < sizeof names / sizeof *names; k++)
        add_name(&host, names[k]);

    uint32_t given = drive(&host);
    print(&host, "before:", given);
    must(lang_ty_simplify(LENT(&host), &host.nodes, &host.used, given, &after, &passes));
    print(&host, "after: ", after);
    printf("passes: %" PRIu32 "\n", passes);
    must(lang_ty_normalize_vars(LENT(&host), &host.nodes, &host.used, after, &shown));
    print(&host, "shown: ", shown);

    const uint32_t both[] = {lang_ty_head(LANG_TY_VALUE_FLOAT, 0), lang_ty_head(LANG_TY_VALUE_NULL, 0),
                             lang_ty_head(LANG_TY_VALUE_SET, 2), lang_ty_field(CHAINAGE, 0, false), lang_ty_field(ROLL, 1, false)};
    printf("takes chainage and roll: %s\n", takes(&host, shown, both, 5));
    const uint32_t alone[] = {lang_ty_head(LANG_TY_VALUE_FLOAT, 0), lang_ty_head(LANG_TY_VALUE_SET, 1),
                              lang_ty_field(CHAINAGE, 0, false)};
    printf("takes chainage alone: %s\n", takes(&host, shown, alone, 3));

    const uint32_t node[] = {lang_ty_head(LANG_TY_KIND_NAMED, 1), lang_ty_field(STEERING, shown, false)};
    printf("a name that isn't there: %s\n", lang_ty_sentence(store(&host, node, 2, &named)));
    add_name(&host, "steering");
    print(&host, "added: ", intern(&host, node, 2));
    return fflush(stdout) == 0 && !ferror(stdout) ? 0 : 1;
}
