/* docs/SCOPE.md in plain C: queries as trees, sets node by node; of the library it has only the limits in the header.
 */
#include "paper.h"

#include "halyardfig.h"
#include "names.h"
#include "support.h"

#include <stdio.h>
#include <stdlib.h>
#include <string.h>

enum form { FORM_PATH, FORM_STEP, FORM_AND, FORM_OR, FORM_NOT };
enum axis {
    AXIS_SELF,
    AXIS_CHILD,
    AXIS_PARENT,
    AXIS_DESCENDANT_OR_SELF,
    AXIS_ANCESTOR_OR_SELF,
    AXIS_DESCENDANT,
    AXIS_ANCESTOR,
    AXIS_FOLLOWING_SIBLING,
    AXIS_PRECEDING_SIBLING,
    AXIS_FOLLOWING,
    AXIS_PRECEDING
};
enum { AXES = AXIS_PRECEDING + 1 };
enum { TEST_NODE = 0, TEST_TEXT = 1, TEST_NAME = 2, TEST_ANY = 258, TEST_UNKNOWN = 259 };
enum { MOST_KIND = HALYARDFIG_KIND_ELEMENT + HALYARDFIG_NAMES - 1 };
enum { POOL_BYTES = 1 << 27, BUILT_MOST = 20000 };

static const char *const axis_words[AXES] = {[AXIS_SELF] = "self",
                                             [AXIS_CHILD] = "child",
                                             [AXIS_PARENT] = "parent",
                                             [AXIS_DESCENDANT_OR_SELF] = "descendant-or-self",
                                             [AXIS_ANCESTOR_OR_SELF] = "ancestor-or-self",
                                             [AXIS_DESCENDANT] = "descendant",
                                             [AXIS_ANCESTOR] = "ancestor",
                                             [AXIS_FOLLOWING_SIBLING] = "following-sibling",
                                             [AXIS_PRECEDING_SIBLING] = "preceding-sibling",
                                             [AXIS_FOLLOWING] = "following",
                                             [AXIS_PRECEDING] = "preceding"};

/* A step: its predicates and the step after it are lists; place is its name's byte or its item's index. */
struct step {
    enum axis axis;
    unsigned test;
    size_t place;
    bool named; /* it gets V */
    struct expr *predicates;
    struct step *next;
};

/* An expression; `not` has only a left side, a path only steps. Truth remembers what was found of each node. */
struct expr {
    enum form form;
    struct expr *left;
    struct expr *right;
    struct step *steps;
    struct expr *next;
    uint8_t *truth;
};

static _Alignas(16) uint8_t pool[POOL_BYTES];
static size_t pool_used;

static void *take_zeroed(size_t bytes)
{
    size_t rounded = (bytes + 15) & ~(size_t)15;
    if (rounded > POOL_BYTES - pool_used)
        abort();
    void *memory = pool + pool_used;
    pool_used += rounded;
    return memset(memory, 0, bytes);
}

static void must(bool holds, const char *what)
{
    if (holds)
        return;
    printf("the model contradicts docs/SCOPE.md: %s\n", what);
    abort();
}

static struct expr *new_expr(enum form form, struct expr *left, struct expr *right)
{
    struct expr *made = take_zeroed(sizeof *made);
    made->form = form;
    made->left = left;
    made->right = right;
    return made;
}

static struct expr *new_path(struct step *steps)
{
    struct expr *made = new_expr(FORM_PATH, NULL, NULL);
    made->steps = steps;
    return made;
}

static struct step *new_step(enum axis axis, unsigned test, struct expr *predicates)
{
    struct step *made = take_zeroed(sizeof *made);
    made->axis = axis;
    made->test = test;
    made->predicates = predicates;
    return made;
}

static unsigned test_named(const struct names *names, const uint8_t *bytes, size_t length)
{
    size_t v = number_named(names, bytes, length);
    return v < names->count ? TEST_NAME + (unsigned)v : TEST_UNKNOWN;
}

/* Tokens. */

enum sort {
    SLASH,
    SLASHES,
    DOT,
    DOTS,
    COLONS,
    BAR,
    OPEN_SQUARE,
    CLOSE_SQUARE,
    OPEN_ROUND,
    CLOSE_ROUND,
    STAR,
    WORD,
    END,
    NONE
};

struct token {
    enum sort sort;
    size_t place;
    const uint8_t *bytes;
    size_t length;
};

static enum sort sort_of_byte(uint8_t byte)
{
    static const char bytes[] = "/.|[]()*";
    static const enum sort sorts[] = {SLASH, DOT, BAR, OPEN_SQUARE, CLOSE_SQUARE, OPEN_ROUND, CLOSE_ROUND, STAR};
    const char *found = byte == 0 ? NULL : strchr(bytes, byte);
    return found == NULL ? NONE : sorts[found - bytes];
}

static struct token token_at(const uint8_t *text, size_t length, size_t place)
{
    struct token token = {END, place, text + place, 0};
    if (place == length)
        return token;
    uint8_t byte = text[place];
    bool twice = place + 1 < length && text[place + 1] == byte;
    token.length = 1;
    if (starts_name(byte)) {
        token.sort = WORD;
        while (place + token.length < length && continues_name(text[place + token.length]))
            token.length++;
    } else if (twice && (byte == '/' || byte == '.' || byte == ':')) {
        token.sort = byte == '/' ? SLASHES : byte == '.' ? DOTS : COLONS;
        token.length = 2;
    } else {
        token.sort = sort_of_byte(byte);
    }
    return token;
}

static struct token next_token(const uint8_t *text, size_t length, size_t place)
{
    while (place < length && (text[place] == ' ' || text[place] == '\t' || text[place] == '\n' || text[place] == '\r'))
        place++;
    return token_at(text, length, place);
}

static bool word_is(const struct token *token, const char *word)
{
    return token->sort == WORD && token->length == strlen(word) && memcmp(token->bytes, word, token->length) == 0;
}

static unsigned axis_named(const struct token *token)
{
    unsigned axis = 0;
    while (axis < AXES && !word_is(token, axis_words[axis]))
        axis++;
    return axis;
}

static bool is_call(const struct token *token)
{
    return word_is(token, "node") || word_is(token, "text");
}

/* Which token may stand where: one state for what has just been read, and the brackets that are open. */

enum state {
    PATH_DUE,
    ROOT_READ,
    STEP_DUE,
    OPERAND_DUE,
    TEST_DUE,
    WORD_READ,
    CALL_OPEN,
    TEST_READ,
    ABBREVIATION_READ,
    OPERAND_READ
};

struct scan {
    enum state state;
    uint32_t version;
    bool axis_word;
    bool call_word;
    bool not_word;
    size_t open;
    enum sort brackets[HALYARDFIG_NESTING + 1];
};

static bool go(struct scan *scan, enum state state)
{
    scan->state = state;
    return true;
}

static bool open_bracket(struct scan *scan, enum sort bracket)
{
    scan->brackets[scan->open++] = bracket;
    return go(scan, OPERAND_DUE);
}

static bool close_bracket(struct scan *scan, enum sort bracket, enum state state)
{
    if (scan->open == 0 || scan->brackets[scan->open - 1] != bracket)
        return false;
    scan->open--;
    return go(scan, state);
}

static bool take_word(struct scan *scan, const struct token *token, bool axis_may, bool not_may)
{
    scan->axis_word = axis_may && axis_named(token) < AXES;
    scan->not_word = not_may && word_is(token, "not");
    scan->call_word = is_call(token);
    return go(scan, WORD_READ);
}

static bool take_step(struct scan *scan, const struct token *token, bool not_may)
{
    switch (token->sort) {
    case DOT:
    case DOTS:
        return go(scan, ABBREVIATION_READ);
    case STAR:
        return go(scan, TEST_READ);
    case WORD:
        return take_word(scan, token, true, not_may);
    default:
        return false;
    }
}

static bool take_after_operand(struct scan *scan, const struct token *token)
{
    switch (token->sort) {
    case END:
        return scan->open == 0;
    case BAR:
        return scan->open == 0 && go(scan, PATH_DUE);
    case WORD:
        if (scan->open == 0)
            return scan->version == HALYARDFIG_XPATH_2 && word_is(token, "union") && go(scan, PATH_DUE);
        return (word_is(token, "and") || word_is(token, "or")) && go(scan, OPERAND_DUE);
    case CLOSE_SQUARE:
        return close_bracket(scan, OPEN_SQUARE, TEST_READ);
    case CLOSE_ROUND:
        return close_bracket(scan, OPEN_ROUND, OPERAND_READ);
    default:
        return false;
    }
}

static bool take_after_step(struct scan *scan, const struct token *token)
{
    if (token->sort == SLASH || token->sort == SLASHES)
        return go(scan, STEP_DUE);
    return take_after_operand(scan, token);
}

static bool take_after_test(struct scan *scan, const struct token *token)
{
    return token->sort == OPEN_SQUARE ? open_bracket(scan, OPEN_SQUARE) : take_after_step(scan, token);
}

static bool take_after_word(struct scan *scan, const struct token *token)
{
    if (token->sort == COLONS)
        return scan->axis_word && go(scan, TEST_DUE);
    if (token->sort != OPEN_ROUND)
        return take_after_test(scan, token);
    if (scan->call_word)
        return go(scan, CALL_OPEN);
    return scan->not_word && open_bracket(scan, OPEN_ROUND);
}

static bool take_path_start(struct scan *scan, const struct token *token)
{
    if (token->sort == SLASH)
        return go(scan, ROOT_READ);
    return token->sort == SLASHES && go(scan, STEP_DUE);
}

static bool take_operand(struct scan *scan, const struct token *token)
{
    return token->sort == OPEN_ROUND ? open_bracket(scan, OPEN_ROUND) : take_step(scan, token, true);
}

static bool take_test(struct scan *scan, const struct token *token)
{
    if (token->sort == STAR)
        return go(scan, TEST_READ);
    return token->sort == WORD && take_word(scan, token, false, false);
}

/* May this token stand here? */
static bool take(struct scan *scan, const struct token *token)
{
    switch (scan->state) {
    case PATH_DUE:
        return take_path_start(scan, token);
    case ROOT_READ:
        return take_step(scan, token, false) || take_after_operand(scan, token);
    case STEP_DUE:
        return take_step(scan, token, false);
    case OPERAND_DUE:
        return take_operand(scan, token);
    case TEST_DUE:
        return take_test(scan, token);
    case WORD_READ:
        return take_after_word(scan, token);
    case CALL_OPEN:
        return token->sort == CLOSE_ROUND && go(scan, TEST_READ);
    case TEST_READ:
        return take_after_test(scan, token);
    case ABBREVIATION_READ:
        return scan->version == HALYARDFIG_XPATH_2 ? take_after_test(scan, token) : take_after_step(scan, token);
    case OPERAND_READ:
        return take_after_operand(scan, token);
    }
    return false;
}

/* Lines 3 and 4; answers 0 or the refusal. */
static uint64_t check_syntax(const uint8_t *text, size_t length, uint32_t version)
{
    struct scan scan = {.state = PATH_DUE, .version = version};
    struct token token;
    size_t place = 0;
    do {
        token = next_token(text, length, place);
        if (!take(&scan, &token))
            return REFUSED(3, token.place);
        if (scan.open > HALYARDFIG_NESTING)
            return REFUSED(4, token.place);
        place = token.place + token.length;
    } while (token.sort != END);
    return 0;
}

/* Building the tree of a text whose syntax is good. */

struct parse {
    const uint8_t *text;
    size_t length;
    const struct names *names;
    struct token token;
    bool unknown;
    size_t unknown_place;
};

static struct token after(const struct parse *parse, const struct token *token)
{
    return next_token(parse->text, parse->length, token->place + token->length);
}

static struct token advance(struct parse *parse)
{
    struct token taken = parse->token;
    parse->token = after(parse, &taken);
    return taken;
}

static struct expr *parse_or(struct parse *parse);

static struct expr *parse_predicates(struct parse *parse)
{
    struct expr *first = NULL;
    struct expr **link = &first;
    while (parse->token.sort == OPEN_SQUARE) {
        advance(parse);
        *link = parse_or(parse);
        link = &(*link)->next;
        advance(parse);
    }
    return first;
}

static unsigned parse_test(struct parse *parse)
{
    struct token token = advance(parse);
    if (token.sort == STAR)
        return TEST_ANY;
    if (parse->token.sort == OPEN_ROUND) {
        advance(parse);
        advance(parse);
        return word_is(&token, "node") ? TEST_NODE : TEST_TEXT;
    }
    unsigned test = test_named(parse->names, token.bytes, token.length);
    if (test == TEST_UNKNOWN && !parse->unknown) {
        parse->unknown = true;
        parse->unknown_place = token.place;
    }
    return test;
}

static struct step *parse_step(struct parse *parse)
{
    struct token token = parse->token;
    if (token.sort == DOT || token.sort == DOTS) {
        advance(parse);
        return new_step(token.sort == DOT ? AXIS_SELF : AXIS_PARENT, TEST_NODE, parse_predicates(parse));
    }
    enum axis axis = AXIS_CHILD;
    if (after(parse, &token).sort == COLONS) {
        axis = (enum axis)axis_named(&token);
        advance(parse);
        advance(parse);
    }
    unsigned test = parse_test(parse);
    return new_step(axis, test, parse_predicates(parse));
}

static struct step **add_between(struct step **link, enum sort sort)
{
    if (sort != SLASHES)
        return link;
    *link = new_step(AXIS_DESCENDANT_OR_SELF, TEST_NODE, NULL);
    return &(*link)->next;
}

/* Steps with `/` or `//` between them, appended where link points. */
static void parse_steps(struct parse *parse, struct step **link)
{
    for (;;) {
        *link = parse_step(parse);
        link = &(*link)->next;
        if (parse->token.sort != SLASH && parse->token.sort != SLASHES)
            return;
        link = add_between(link, advance(parse).sort);
    }
}

static struct expr *parse_operand(struct parse *parse)
{
    struct token token = parse->token;
    bool negates = word_is(&token, "not") && after(parse, &token).sort == OPEN_ROUND;
    if (negates)
        advance(parse);
    if (negates || token.sort == OPEN_ROUND) {
        advance(parse);
        struct expr *inside = parse_or(parse);
        advance(parse);
        return negates ? new_expr(FORM_NOT, inside, NULL) : inside;
    }
    struct expr *path = new_path(NULL);
    parse_steps(parse, &path->steps);
    return path;
}

static struct expr *parse_and(struct parse *parse)
{
    struct expr *left = parse_operand(parse);
    while (word_is(&parse->token, "and")) {
        advance(parse);
        left = new_expr(FORM_AND, left, parse_operand(parse));
    }
    return left;
}

static struct expr *parse_or(struct parse *parse)
{
    struct expr *left = parse_and(parse);
    while (word_is(&parse->token, "or")) {
        advance(parse);
        left = new_expr(FORM_OR, left, parse_and(parse));
    }
    return left;
}

static struct expr *parse_top_path(struct parse *parse)
{
    struct expr *path = new_path(NULL);
    enum sort lead = advance(parse).sort;
    struct step **link = add_between(&path->steps, lead);
    if (parse->token.sort != BAR && parse->token.sort != END)
        parse_steps(parse, link);
    return path;
}

static struct expr *parse_query(struct parse *parse)
{
    struct expr *first = parse_top_path(parse);
    for (struct expr *last = first; parse->token.sort != END; last = last->next) {
        advance(parse);
        last->next = parse_top_path(parse);
    }
    return first;
}

/* From tree to items; what finds no room is only counted. */

struct items {
    uint32_t *out;
    size_t room;
    size_t count;
};

static void put_item(struct items *items, uint32_t item)
{
    if (items->count < items->room)
        items->out[items->count] = item;
    items->count++;
}

static size_t count_steps(const struct step *step)
{
    size_t count = 0;
    for (; step != NULL; step = step->next)
        count++;
    return count;
}

static size_t count_exprs(const struct expr *expr)
{
    size_t count = 0;
    for (; expr != NULL; expr = expr->next)
        count++;
    return count;
}

static void encode(struct items *items, const struct expr *expr);

static void encode_all(struct items *items, const struct expr *expr)
{
    for (; expr != NULL; expr = expr->next)
        encode(items, expr);
}

static void encode_step(struct items *items, const struct step *step)
{
    put_item(items,
             FORM_STEP | (uint32_t)step->axis << 3 | step->test << 7 | (uint32_t)count_exprs(step->predicates) << 16);
    encode_all(items, step->predicates);
}

static void encode(struct items *items, const struct expr *expr)
{
    if (expr->form != FORM_PATH) {
        put_item(items, expr->form);
        encode(items, expr->left);
        if (expr->form != FORM_NOT)
            encode(items, expr->right);
        return;
    }
    put_item(items, FORM_PATH | (uint32_t)count_steps(expr->steps) << 3);
    for (const struct step *step = expr->steps; step != NULL; step = step->next)
        encode_step(items, step);
}

/* From items to tree; NULL where the items are no query. */

struct source {
    const uint32_t *items;
    size_t count;
    size_t at;
};

static struct expr *decode(struct source *source);

static struct step *decode_step(struct source *source)
{
    if (source->at == source->count)
        return NULL;
    size_t place = source->at++;
    uint32_t item = source->items[place];
    unsigned axis = item >> 3 & 15, test = item >> 7 & 511, predicates = item >> 16 & 8191;
    if ((item & 7) != FORM_STEP || item >> 29 != 0 || axis >= AXES || test > TEST_ANY)
        return NULL;
    struct step *step = new_step((enum axis)axis, test, NULL);
    step->place = place;
    for (struct expr **link = &step->predicates; predicates > 0; predicates--, link = &(*link)->next)
        if ((*link = decode(source)) == NULL || ((*link)->form == FORM_PATH && (*link)->steps == NULL))
            return NULL;
    return step;
}

static struct expr *decode_path(struct source *source, uint32_t item)
{
    unsigned steps = item >> 3;
    if (steps > 8191)
        return NULL;
    struct expr *path = new_path(NULL);
    for (struct step **link = &path->steps; steps > 0; steps--, link = &(*link)->next)
        if ((*link = decode_step(source)) == NULL)
            return NULL;
    return path;
}

/* A side of `and`, `or` or `not`: an expression, and no path of no steps. */
static struct expr *decode_side(struct source *source)
{
    struct expr *side = decode(source);
    return side == NULL || (side->form == FORM_PATH && side->steps == NULL) ? NULL : side;
}

static struct expr *decode(struct source *source)
{
    if (source->at == source->count)
        return NULL;
    uint32_t item = source->items[source->at++];
    if ((item & 7) == FORM_PATH)
        return decode_path(source, item);
    if (item != FORM_AND && item != FORM_OR && item != FORM_NOT)
        return NULL;
    struct expr *left = decode_side(source);
    struct expr *right = left == NULL || item == FORM_NOT ? NULL : decode_side(source);
    if (left == NULL || (item != FORM_NOT && right == NULL))
        return NULL;
    return new_expr((enum form)item, left, right);
}

static struct expr *decode_paths(const uint32_t *items, size_t count)
{
    struct source source = {items, count, 0};
    struct expr *first = NULL;
    for (struct expr **link = &first; source.at < count; link = &(*link)->next)
        if ((*link = decode(&source)) == NULL || (*link)->form != FORM_PATH)
            return NULL;
    return first;
}

/* Printing; what finds no room is only counted. Without names, every name is an x. */

struct pen {
    uint8_t *out;
    size_t room;
    size_t count;
    const struct names *names;
    bool brief; /* the short form */
};

static void put_bytes(struct pen *pen, const void *bytes, size_t length)
{
    if (pen->count < pen->room) {
        size_t space = pen->room - pen->count;
        memcpy(pen->out + pen->count, bytes, length < space ? length : space);
    }
    pen->count += length;
}

static void put_string(struct pen *pen, const char *string)
{
    put_bytes(pen, string, strlen(string));
}

static void print_test(struct pen *pen, unsigned test)
{
    if (test == TEST_NODE)
        put_string(pen, "node()");
    else if (test == TEST_TEXT)
        put_string(pen, "text()");
    else if (test == TEST_ANY)
        put_string(pen, "*");
    else if (pen->names == NULL)
        put_string(pen, "x");
    else
        put_bytes(pen, pen->names->start[test - TEST_NAME], pen->names->length[test - TEST_NAME]);
}

static void print_expr(struct pen *pen, const struct expr *expr);

/* Is this a step along the axis with `node()` and no predicate? */
static bool is_plain(const struct step *step, enum axis axis)
{
    return step->axis == axis && step->test == TEST_NODE && step->predicates == NULL;
}

static void print_head(struct pen *pen, const struct step *step)
{
    if (pen->brief && is_plain(step, AXIS_SELF)) {
        put_string(pen, ".");
        return;
    }
    if (pen->brief && is_plain(step, AXIS_PARENT)) {
        put_string(pen, "..");
        return;
    }
    if (!pen->brief || step->axis != AXIS_CHILD) {
        put_string(pen, axis_words[step->axis]);
        put_string(pen, "::");
    }
    print_test(pen, step->test);
}

static void print_step(struct pen *pen, const struct step *step)
{
    print_head(pen, step);
    for (const struct expr *predicate = step->predicates; predicate != NULL; predicate = predicate->next) {
        put_string(pen, "[");
        print_expr(pen, predicate);
        put_string(pen, "]");
    }
}

/* May `//` stand for this step, which is the first of its path or not, in a predicate or not? */
static bool may_be_deep(const struct pen *pen, const struct step *step, bool first, bool inside)
{
    return pen->brief && is_plain(step, AXIS_DESCENDANT_OR_SELF) && step->next != NULL && !(first && inside);
}

/* In a row of steps for which `//` may stand it stands for the first, the third and so on; what follows it has no `/`.
 */
static void print_steps(struct pen *pen, const struct step *steps, bool inside)
{
    size_t row = 0;
    bool parted = inside;
    for (const struct step *step = steps; step != NULL; step = step->next) {
        row = may_be_deep(pen, step, step == steps, inside) ? row + 1 : 0;
        if (row % 2 == 1) {
            put_string(pen, "//");
            parted = true;
            continue;
        }
        put_string(pen, parted ? "" : "/");
        print_step(pen, step);
        parted = false;
    }
}

static void print_side(struct pen *pen, const struct expr *side, bool brackets)
{
    put_string(pen, brackets ? "(" : "");
    print_expr(pen, side);
    put_string(pen, brackets ? ")" : "");
}

static void print_expr(struct pen *pen, const struct expr *expr)
{
    switch (expr->form) {
    case FORM_AND:
        print_side(pen, expr->left, expr->left->form == FORM_OR);
        put_string(pen, " and ");
        print_side(pen, expr->right, expr->right->form == FORM_OR || expr->right->form == FORM_AND);
        return;
    case FORM_OR:
        print_side(pen, expr->left, false);
        put_string(pen, " or ");
        print_side(pen, expr->right, expr->right->form == FORM_OR);
        return;
    case FORM_NOT:
        put_string(pen, "not");
        print_side(pen, expr->left, true);
        return;
    default:
        print_steps(pen, expr->steps, true);
    }
}

static void print_query(struct pen *pen, const struct expr *path)
{
    for (; path != NULL; path = path->next) {
        if (path->steps == NULL)
            put_string(pen, "/");
        print_steps(pen, path->steps, false);
        if (path->next != NULL)
            put_string(pen, "|");
    }
}

/* Measures. Brackets are counted in the printed text, where only `node()` and `text()` have `()` and axes are words. */

struct brackets {
    size_t most;         /* open at once */
    size_t most_guarded; /* open at once where a guarded step stands */
};

static bool begins_with(const uint8_t *text, size_t length, const char *word)
{
    return length >= strlen(word) && memcmp(text, word, strlen(word)) == 0;
}

/* Does the word of a guarded axis stand here? No such word ends another word of a printed text. */
static bool guarded_word_at(const uint8_t *text, size_t length)
{
    static const char *const guarded_words[] = {
        "child::",     "descendant-or-self::", "descendant::", "following-sibling::", "preceding-sibling::",
        "following::", "preceding::"};
    for (size_t i = 0; i < sizeof guarded_words / sizeof guarded_words[0]; i++)
        if (begins_with(text, length, guarded_words[i]))
            return true;
    return false;
}

static struct brackets count_brackets(const uint8_t *text, size_t length)
{
    size_t open = 0;
    struct brackets found = {0, 0};
    for (size_t i = 0; i < length; i++) {
        bool empty_pair = text[i] == '(' && i + 1 < length && text[i + 1] == ')';
        bool guarded = guarded_word_at(text + i, length - i);
        if (empty_pair)
            i++;
        else if (text[i] == '[' || text[i] == '(')
            open++;
        else if (text[i] == ']' || text[i] == ')')
            open--;
        if (open > found.most)
            found.most = open;
        if (guarded && open > found.most_guarded)
            found.most_guarded = open;
    }
    return found;
}

static struct brackets brackets_of(const struct expr *query)
{
    struct pen counting = {NULL, 0, 0, NULL, false};
    print_query(&counting, query);
    struct pen writing = {take_zeroed(counting.count), counting.count, 0, NULL, false};
    print_query(&writing, query);
    return count_brackets(writing.out, writing.count);
}

static size_t nesting_of(const struct expr *query)
{
    return brackets_of(query).most;
}

static size_t larger(size_t a, size_t b)
{
    return a > b ? a : b;
}

static size_t height_of(const struct expr *expr)
{
    if (expr->form == FORM_NOT)
        return 1 + height_of(expr->left);
    if (expr->form != FORM_PATH)
        return 1 + larger(height_of(expr->left), height_of(expr->right));
    size_t most = 0;
    for (const struct step *step = expr->steps; step != NULL; step = step->next)
        for (const struct expr *predicate = step->predicates; predicate != NULL; predicate = predicate->next)
            most = larger(most, height_of(predicate));
    return 1 + most;
}

static size_t query_height(const struct expr *path)
{
    size_t most = 0;
    for (; path != NULL; path = path->next)
        most = larger(most, height_of(path));
    return most;
}

/* Every axis has its own case, here, in `turned` and in `leads`, so that the compiler refuses one that is forgotten. */
static bool guarded(enum axis axis)
{
    switch (axis) {
    case AXIS_CHILD:
    case AXIS_DESCENDANT_OR_SELF:
    case AXIS_DESCENDANT:
    case AXIS_FOLLOWING_SIBLING:
    case AXIS_PRECEDING_SIBLING:
    case AXIS_FOLLOWING:
    case AXIS_PRECEDING:
        return true;
    case AXIS_SELF:
    case AXIS_PARENT:
    case AXIS_ANCESTOR_OR_SELF:
    case AXIS_ANCESTOR:
        return false;
    }
    abort();
}

static size_t guards_below(const struct expr *expr)
{
    if (expr->form == FORM_NOT)
        return guards_below(expr->left);
    if (expr->form != FORM_PATH)
        return guards_below(expr->left) + guards_below(expr->right);
    size_t count = 0;
    for (const struct step *step = expr->steps; step != NULL; step = step->next) {
        count += guarded(step->axis);
        for (const struct expr *predicate = step->predicates; predicate != NULL; predicate = predicate->next)
            count += guards_below(predicate);
    }
    return count;
}

static size_t query_guards(const struct expr *path)
{
    size_t count = 0;
    for (; path != NULL; path = path->next)
        count += guards_below(path);
    return count;
}

/* The tree of a query that line 6 accepts, else NULL. */
static struct expr *good_query(const uint32_t *items, size_t count)
{
    struct expr *query = decode_paths(items, count);
    return query != NULL && nesting_of(query) <= HALYARDFIG_NESTING ? query : NULL;
}

struct measures measure(const uint32_t *query, size_t query_len)
{
    pool_used = 0;
    struct measures found = {0};
    struct expr *tree = good_query(query, query_len);
    found.is_query = tree != NULL;
    if (tree == NULL)
        return found;
    found.paths = count_exprs(tree);
    found.guards = query_guards(tree);
    found.nesting = nesting_of(tree);
    found.guard_nesting = brackets_of(tree).most_guarded;
    found.height = query_height(tree);
    return found;
}

/* Composition. */

static enum axis turned(enum axis axis)
{
    switch (axis) {
    case AXIS_SELF:
        return AXIS_SELF;
    case AXIS_CHILD:
        return AXIS_PARENT;
    case AXIS_PARENT:
        return AXIS_CHILD;
    case AXIS_DESCENDANT_OR_SELF:
        return AXIS_ANCESTOR_OR_SELF;
    case AXIS_ANCESTOR_OR_SELF:
        return AXIS_DESCENDANT_OR_SELF;
    case AXIS_DESCENDANT:
        return AXIS_ANCESTOR;
    case AXIS_ANCESTOR:
        return AXIS_DESCENDANT;
    case AXIS_FOLLOWING_SIBLING:
        return AXIS_PRECEDING_SIBLING;
    case AXIS_PRECEDING_SIBLING:
        return AXIS_FOLLOWING_SIBLING;
    case AXIS_FOLLOWING:
        return AXIS_PRECEDING;
    case AXIS_PRECEDING:
        return AXIS_FOLLOWING;
    }
    abort();
}

/* not(parent::node()) */
static struct expr *no_parent(void)
{
    return new_expr(FORM_NOT, new_path(new_step(AXIS_PARENT, TEST_NODE, NULL)), NULL);
}

/* Walks from the first step to the last and puts each reversed step in front of those before it. */
static struct expr *reverse(const struct expr *path)
{
    struct step *reversed = new_step(AXIS_SELF, TEST_NODE, no_parent());
    for (const struct step *step = path->steps; step != NULL; step = step->next) {
        reversed->axis = turned(step->axis);
        struct step *front = new_step(AXIS_SELF, step->test, step->predicates);
        front->next = reversed;
        reversed = front;
    }
    return new_path(reversed);
}

/* S: the reverses joined by `or`, grouped left. */
static struct expr *reverses(const struct expr *inner)
{
    struct expr *joined = reverse(inner);
    for (inner = inner->next; inner != NULL; inner = inner->next)
        joined = new_expr(FORM_OR, joined, reverse(inner));
    return joined;
}

static struct expr *somewhere(enum axis axis, struct expr *selected)
{
    return new_path(new_step(axis, TEST_NODE, selected));
}

/* V, a fresh one for each step, since predicates are a list. */
static struct expr *visible(struct expr *selected)
{
    return new_expr(FORM_OR, somewhere(AXIS_DESCENDANT_OR_SELF, selected), somewhere(AXIS_ANCESTOR_OR_SELF, selected));
}

/* Does a step along the axis lead from a node only to nodes at or below it? */
static bool goes_down(enum axis axis)
{
    return axis == AXIS_SELF || axis == AXIS_CHILD || axis == AXIS_DESCENDANT_OR_SELF || axis == AXIS_DESCENDANT;
}

static void name_below(struct expr *expr, bool lean);

/* Which steps get V: those along a guarded axis or, leanly, those whose node may be hidden and that no step which goes
   down follows; the last step follows a top-level path. */
static void name_steps(struct step *step, bool lean, bool last)
{
    for (bool unguarded = false; step != NULL; step = step->next) {
        bool may_be_hidden = guarded(step->axis) || (step->axis == AXIS_SELF && unguarded);
        bool down_follows = step->next != NULL ? goes_down(step->next->axis) : last;
        step->named = lean ? may_be_hidden && !down_follows : guarded(step->axis);
        unguarded = may_be_hidden && !step->named;
        for (struct expr *predicate = step->predicates; predicate != NULL; predicate = predicate->next)
            name_below(predicate, lean);
    }
}

static void name_below(struct expr *expr, bool lean)
{
    if (expr->form == FORM_PATH) {
        name_steps(expr->steps, lean, false);
        return;
    }
    name_below(expr->left, lean);
    if (expr->form != FORM_NOT)
        name_below(expr->right, lean);
}

static void name_query(struct expr *query, bool lean)
{
    for (struct expr *path = query; path != NULL; path = path->next)
        name_steps(path->steps, lean, true);
}

/* Makes each step that is named a child step and every other one a self step, so that it is measured by what is named. */
static void say_by_axes(struct expr *expr)
{
    if (expr->form != FORM_PATH) {
        say_by_axes(expr->left);
        if (expr->form != FORM_NOT)
            say_by_axes(expr->right);
        return;
    }
    for (struct step *step = expr->steps; step != NULL; step = step->next) {
        step->axis = step->named ? AXIS_CHILD : AXIS_SELF;
        for (struct expr *predicate = step->predicates; predicate != NULL; predicate = predicate->next)
            say_by_axes(predicate);
    }
}

static void guard(struct expr *expr, struct expr *selected);

static void guard_steps(struct step *step, struct expr *selected)
{
    for (; step != NULL; step = step->next) {
        for (struct expr *predicate = step->predicates; predicate != NULL; predicate = predicate->next)
            guard(predicate, selected);
        if (!step->named)
            continue;
        struct expr *first = visible(selected);
        first->next = step->predicates;
        step->predicates = first;
    }
}

static void guard(struct expr *expr, struct expr *selected)
{
    if (expr->form == FORM_PATH) {
        guard_steps(expr->steps, selected);
        return;
    }
    guard(expr->left, selected);
    if (expr->form != FORM_NOT)
        guard(expr->right, selected);
}

static void add_last_step(struct expr *path, struct expr *selected)
{
    struct step **link = &path->steps;
    while (*link != NULL)
        link = &(*link)->next;
    *link = new_step(AXIS_DESCENDANT_OR_SELF, TEST_NODE, somewhere(AXIS_ANCESTOR_OR_SELF, selected));
}

static void compose_trees(struct expr *outer, const struct expr *inner)
{
    struct expr *selected = reverses(inner);
    for (struct expr *path = outer; path != NULL; path = path->next) {
        guard(path, selected);
        add_last_step(path, selected);
    }
}

/* The document. */

static uint64_t check_table(const uint16_t *parent, const uint16_t *kind, size_t nodes)
{
    if (nodes == 0 || parent[0] != 0 || kind[0] != HALYARDFIG_KIND_ROOT)
        return REFUSED(7, 0);
    for (size_t i = 1; i < nodes; i++) {
        size_t above = i - 1;
        while (above != parent[i] && above != 0)
            above = parent[above];
        if (above != parent[i] || kind[above] == HALYARDFIG_KIND_TEXT || kind[i] == HALYARDFIG_KIND_ROOT ||
            kind[i] > MOST_KIND)
            return REFUSED(7, i);
    }
    return 0;
}

static uint64_t check_marks(const uint16_t *parent, const uint8_t *marks, size_t nodes)
{
    for (size_t i = 0; i < nodes; i++)
        if (marks[i] > 1 || (marks[i] == 1 && marks[parent[i]] != 1))
            return REFUSED(8, i);
    return 0;
}

struct document {
    const uint16_t *parent;
    const uint16_t *kind;
    const uint8_t *given;
    size_t nodes;
};

static bool is_above_or_same(const struct document *document, size_t high, size_t low)
{
    while (low != high && low != 0)
        low = document->parent[low];
    return low == high;
}

/* Children of one parent; the root is no child. */
static bool are_siblings(const struct document *document, size_t one, size_t other)
{
    return one != 0 && other != 0 && document->parent[one] == document->parent[other];
}

static bool leads(const struct document *document, enum axis axis, size_t from, size_t to)
{
    switch (axis) {
    case AXIS_SELF:
        return from == to;
    case AXIS_CHILD:
        return to != 0 && document->parent[to] == from;
    case AXIS_PARENT:
        return from != 0 && document->parent[from] == to;
    case AXIS_DESCENDANT_OR_SELF:
        return is_above_or_same(document, from, to);
    case AXIS_ANCESTOR_OR_SELF:
        return is_above_or_same(document, to, from);
    case AXIS_DESCENDANT:
        return from != to && is_above_or_same(document, from, to);
    case AXIS_ANCESTOR:
        return from != to && is_above_or_same(document, to, from);
    case AXIS_FOLLOWING_SIBLING:
        return to > from && are_siblings(document, from, to);
    case AXIS_PRECEDING_SIBLING:
        return to < from && are_siblings(document, from, to);
    case AXIS_FOLLOWING:
        return to > from && !is_above_or_same(document, from, to);
    case AXIS_PRECEDING:
        return to < from && !is_above_or_same(document, to, from);
    }
    abort();
}

static bool meets(unsigned test, unsigned kind)
{
    if (test == TEST_NODE)
        return true;
    return test == TEST_ANY ? kind >= HALYARDFIG_KIND_ELEMENT : kind == test;
}

static bool holds(const struct document *document, struct expr *expr, size_t node);

static bool step_keeps(const struct document *document, const struct step *step, size_t node)
{
    if (document->given[node] == 0 || !meets(step->test, document->kind[node]))
        return false;
    for (struct expr *predicate = step->predicates; predicate != NULL; predicate = predicate->next)
        if (!holds(document, predicate, node))
            return false;
    return true;
}

/* The nodes that a path selects from one node, as a fresh set. */
static uint8_t *select_from(const struct document *document, const struct step *step, size_t start)
{
    uint8_t *now = take_zeroed(document->nodes);
    now[start] = 1;
    for (; step != NULL; step = step->next) {
        uint8_t *next = take_zeroed(document->nodes);
        for (size_t from = 0; from < document->nodes; from++)
            for (size_t to = 0; now[from] && to < document->nodes; to++)
                if (!next[to] && leads(document, step->axis, from, to) && step_keeps(document, step, to))
                    next[to] = 1;
        now = next;
    }
    return now;
}

static bool path_holds(const struct document *document, const struct expr *path, size_t node)
{
    size_t used = pool_used;
    const uint8_t *selected = select_from(document, path->steps, node);
    bool any = memchr(selected, 1, document->nodes) != NULL;
    pool_used = used;
    return any;
}

static bool find_out(const struct document *document, struct expr *expr, size_t node)
{
    switch (expr->form) {
    case FORM_AND:
        return holds(document, expr->left, node) && holds(document, expr->right, node);
    case FORM_OR:
        return holds(document, expr->left, node) || holds(document, expr->right, node);
    case FORM_NOT:
        return !holds(document, expr->left, node);
    default:
        return path_holds(document, expr, node);
    }
}

static bool holds(const struct document *document, struct expr *expr, size_t node)
{
    if (expr->truth[node] == 0)
        expr->truth[node] = find_out(document, expr, node) ? 2 : 1;
    return expr->truth[node] == 2;
}

/* Gives every expression of a query room to remember in. */
static void give_memory(struct expr *expr, size_t nodes)
{
    expr->truth = take_zeroed(nodes);
    if (expr->left != NULL)
        give_memory(expr->left, nodes);
    if (expr->right != NULL)
        give_memory(expr->right, nodes);
    for (struct step *step = expr->steps; step != NULL; step = step->next)
        for (struct expr *predicate = step->predicates; predicate != NULL; predicate = predicate->next)
            give_memory(predicate, nodes);
}

static void select_query(const struct document *document, struct expr *path, uint8_t *selected)
{
    for (; path != NULL && document->given[0] == 1; path = path->next) {
        give_memory(path, document->nodes);
        const uint8_t *found = select_from(document, path->steps, 0);
        for (size_t i = 0; i < document->nodes; i++)
            selected[i] |= found[i];
    }
}

/* The subtree rule: a marked node stays if it is selected, or above or below a selected node. */
static size_t keep_subtrees(const struct document *document, const uint8_t *selected, uint8_t *marks)
{
    size_t count = 0;
    memset(marks, 0, document->nodes);
    for (size_t i = 0; i < document->nodes; i++)
        for (size_t j = 0; selected[i] && j < document->nodes; j++)
            if (is_above_or_same(document, i, j) || is_above_or_same(document, j, i))
                marks[j] = document->given[j];
    for (size_t i = 0; i < document->nodes; i++)
        count += marks[i];
    return count;
}

/* The five calls, each with its refusals in the order of docs/SCOPE.md, "Numbers refused". */

uint64_t model_read(const uint8_t *text, size_t text_len, uint32_t version, const uint8_t *names, size_t names_len,
                    uint32_t *out, size_t out_len)
{
    static struct names taken;
    uint64_t refusal;
    pool_used = 0;
    if (text_len > HALYARDFIG_TEXT_BYTES || names_len > HALYARDFIG_NAMES_BYTES || version < HALYARDFIG_XPATH_1 ||
        version > HALYARDFIG_XPATH_2)
        return REFUSED(1, 0);
    if ((refusal = take_names(&taken, names, names_len)) != 0 || (refusal = check_syntax(text, text_len, version)) != 0)
        return refusal;
    struct parse parse = {.text = text, .length = text_len, .names = &taken, .token = next_token(text, text_len, 0)};
    struct expr *query = parse_query(&parse);
    if (parse.unknown)
        return REFUSED(5, parse.unknown_place);
    struct items counted = {NULL, 0, 0};
    encode_all(&counted, query);
    if (counted.count > out_len || counted.count > HALYARDFIG_QUERY_ITEMS)
        return REFUSED(10, counted.count);
    struct items written = {out, out_len, 0};
    encode_all(&written, query);
    return written.count;
}

/* The first item whose name number is not in the list; the number of items if there is none. */
static size_t first_unknown(const uint32_t *query, size_t query_len, size_t names)
{
    for (size_t i = 0; i < query_len; i++) {
        unsigned test = query[i] >> 7 & 511;
        if ((query[i] & 7) == FORM_STEP && test >= TEST_NAME && test != TEST_ANY && test - TEST_NAME >= names)
            return i;
    }
    return query_len;
}

uint64_t model_print(bool brief, const uint32_t *query, size_t query_len, const uint8_t *names, size_t names_len,
                     uint8_t *out, size_t out_len)
{
    static struct names taken;
    uint64_t refusal;
    pool_used = 0;
    if (query_len > HALYARDFIG_QUERY_ITEMS || names_len > HALYARDFIG_NAMES_BYTES)
        return REFUSED(1, 0);
    if ((refusal = take_names(&taken, names, names_len)) != 0)
        return refusal;
    struct expr *tree = good_query(query, query_len);
    if (tree == NULL)
        return REFUSED(6, 0);
    size_t unknown = first_unknown(query, query_len, taken.count);
    if (unknown < query_len)
        return REFUSED(5, unknown);
    struct pen counting = {NULL, 0, 0, &taken, brief};
    print_query(&counting, tree);
    if (counting.count > out_len)
        return REFUSED(10, counting.count);
    struct pen writing = {out, out_len, 0, &taken, brief};
    print_query(&writing, tree);
    return writing.count;
}

static uint64_t composing(bool lean, const uint32_t *outer, size_t outer_len, const uint32_t *inner, size_t inner_len,
                          uint32_t *out, size_t out_len)
{
    pool_used = 0;
    if (outer_len > HALYARDFIG_QUERY_ITEMS || inner_len > HALYARDFIG_QUERY_ITEMS)
        return REFUSED(1, 0);
    struct expr *outer_tree = good_query(outer, outer_len);
    if (outer_tree == NULL)
        return REFUSED(6, 0);
    struct expr *inner_tree = good_query(inner, inner_len);
    if (inner_tree == NULL)
        return REFUSED(6, 1);
    struct expr *said = good_query(outer, outer_len);
    name_query(outer_tree, lean);
    name_query(said, lean);
    for (struct expr *path = said; path != NULL; path = path->next)
        say_by_axes(path);
    size_t k = count_exprs(inner_tree), m = count_exprs(outer_tree), t = query_guards(said);
    size_t s = inner_len + 5 * k - 1;
    size_t size = outer_len + t * (5 + 2 * s) + m * (3 + s);
    size_t guard_nesting = brackets_of(said).most_guarded;
    size_t nesting = larger(nesting_of(outer_tree), guard_nesting + 2 + larger(2, nesting_of(inner_tree)));
    if (size <= BUILT_MOST) {
        struct items counted = {NULL, 0, 0};
        compose_trees(outer_tree, inner_tree);
        encode_all(&counted, outer_tree);
        must(counted.count == size, "size of a composition");
        must(nesting_of(outer_tree) == nesting, "nesting of a composition");
    }
    if (nesting > HALYARDFIG_NESTING)
        return REFUSED(9, nesting);
    if (size > out_len || size > HALYARDFIG_QUERY_ITEMS)
        return REFUSED(10, size);
    struct items written = {out, out_len, 0};
    encode_all(&written, outer_tree);
    return written.count;
}

uint64_t model_compose(const uint32_t *outer, size_t outer_len, const uint32_t *inner, size_t inner_len, uint32_t *out,
                       size_t out_len)
{
    return composing(false, outer, outer_len, inner, inner_len, out, out_len);
}

uint64_t model_compose_lean(const uint32_t *outer, size_t outer_len, const uint32_t *inner, size_t inner_len,
                            uint32_t *out, size_t out_len)
{
    return composing(true, outer, outer_len, inner, inner_len, out, out_len);
}

uint64_t model_run(const uint32_t *query, size_t query_len, const uint16_t *parent, size_t parent_len,
                   const uint16_t *kind, size_t kind_len, const uint8_t *given, size_t given_len, uint8_t *marks,
                   size_t marks_len, uint8_t *scratch, size_t scratch_len)
{
    uint64_t refusal;
    size_t nodes = parent_len;
    pool_used = 0;
    if (query_len > HALYARDFIG_QUERY_ITEMS || nodes > HALYARDFIG_NODES || kind_len != nodes || given_len != nodes ||
        marks_len != nodes)
        return REFUSED(1, 0);
    struct expr *tree = good_query(query, query_len);
    if (tree == NULL)
        return REFUSED(6, 0);
    if ((refusal = check_table(parent, kind, nodes)) != 0 || (refusal = check_marks(parent, given, nodes)) != 0)
        return refusal;
    size_t need = nodes * 2 * (query_height(tree) + 1);
    if (need > scratch_len)
        return REFUSED(10, need);
    struct document document = {parent, kind, given, nodes};
    uint8_t *selected = take_zeroed(nodes);
    select_query(&document, tree, selected);
    memset(scratch, 0, need);
    return keep_subtrees(&document, selected, marks);
}

uint64_t model_extract(const uint16_t *parent, size_t parent_len, const uint16_t *kind, size_t kind_len,
                       const uint8_t *marks, size_t marks_len, uint16_t *out_parent, size_t out_parent_len,
                       uint16_t *out_kind, size_t out_kind_len)
{
    static uint16_t renumbered[HALYARDFIG_NODES];
    uint64_t refusal;
    size_t nodes = parent_len, count = 0;
    if (nodes > HALYARDFIG_NODES || kind_len != nodes || marks_len != nodes || out_parent_len != out_kind_len)
        return REFUSED(1, 0);
    if ((refusal = check_table(parent, kind, nodes)) != 0 || (refusal = check_marks(parent, marks, nodes)) != 0)
        return refusal;
    for (size_t i = 0; i < nodes; i++)
        count += marks[i];
    if (count > out_parent_len)
        return REFUSED(10, count);
    count = 0;
    for (size_t i = 0; i < nodes; i++) {
        if (marks[i] == 0)
            continue;
        renumbered[i] = (uint16_t)count;
        out_parent[count] = renumbered[parent[i]];
        out_kind[count++] = kind[i];
    }
    return count;
}

/* How much scratch to lend. */

uint64_t model_height(const uint32_t *query, size_t query_len)
{
    if (query_len > HALYARDFIG_QUERY_ITEMS)
        return REFUSED(1, 0);
    struct measures found = measure(query, query_len);
    return found.is_query ? found.height : REFUSED(6, 0);
}

uint64_t model_paths(const uint32_t *query, size_t query_len)
{
    if (query_len > HALYARDFIG_QUERY_ITEMS)
        return REFUSED(1, 0);
    struct measures found = measure(query, query_len);
    return found.is_query ? found.paths : REFUSED(6, 0);
}

uint64_t model_scratch(size_t nodes, size_t outer_height, size_t outer_paths, size_t inner_height, size_t inner_paths)
{
    const size_t numbers[] = {nodes, outer_height, outer_paths, inner_height, inner_paths};
    for (size_t i = 0; i < sizeof numbers / sizeof numbers[0]; i++)
        if (numbers[i] < 1 || numbers[i] > 4096)
            return REFUSED(1, 0);
    size_t height = outer_height + larger(3, inner_height) + inner_paths + 1;
    return nodes * 2 * (height + 1);
}
