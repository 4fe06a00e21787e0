/* What the names of a text are, by its tokens. All of it asks for a text that the grammar accepts. */
#include "names.h"

#include <ctype.h>

static int is_at(const struct text *text, const struct tokens *tokens, size_t number, const char *word)
{
    return number < tokens->count && is_word(text, tokens->all[number], word);
}

/* Whether a token stands before the first `begin`, among the declarations. */
static int is_declared(const struct text *text, const struct tokens *tokens, size_t number)
{
    size_t k;
    for (k = 0; k < number; k++)
        if (is_at(text, tokens, k, "begin"))
            return 0;
    return 1;
}

int declares_signal(const struct text *text, const struct tokens *tokens, size_t number)
{
    return number > 0 && (is_at(text, tokens, number - 1, "signal") || is_at(text, tokens, number - 1, ",")) &&
           is_declared(text, tokens, number);
}

int is_label(const struct text *text, const struct tokens *tokens, size_t number)
{
    return is_at(text, tokens, number + 1, ":") && is_at(text, tokens, number + 2, "process");
}

int is_target(const struct text *text, const struct tokens *tokens, size_t number)
{
    return is_at(text, tokens, number + 1, "<=");
}

struct token nth(const struct text *text, const struct tokens *tokens, role *has_role, size_t before)
{
    size_t k;
    for (k = 0; k < tokens->count; k++)
        if (has_role(text, tokens, k) && before-- == 0)
            break;
    return tokens->all[k];
}

struct token first_same(const struct text *text, const struct tokens *tokens, role *has_role, struct token other)
{
    size_t k = 0;
    while (k < tokens->count && !(same_token(text, tokens->all[k], other) && has_role(text, tokens, k)))
        k++;
    return tokens->all[k];
}

/* How many letters two names share from their starts on, or from their ends. */
static size_t shared(const struct text *text, struct token one, struct token other, int from_end)
{
    size_t k = 0;
    while (k < one.length && k < other.length) {
        size_t i = one.place + (from_end ? one.length - 1 - k : k), j = other.place + (from_end ? other.length - 1 - k : k);
        if (tolower(text->bytes[i]) != tolower(text->bytes[j]))
            break;
        k++;
    }
    return k;
}

/* Whether two different names are one letter apart: more, less, other, or two exchanged. */
static int is_near(const struct text *text, struct token one, struct token other)
{
    size_t longer = one.length > other.length ? one.length : other.length;
    size_t first = shared(text, one, other, 0), last = shared(text, one, other, 1);
    struct token left = {one.place + first, 1}, right = {one.place + first + 1, 1};
    struct token left_other = {other.place + first, 1}, right_other = {other.place + first + 1, 1};
    if (one.length == other.length && first + last + 2 == longer)
        return same_token(text, left, right_other) && same_token(text, right, left_other);
    return longer - one.length + longer - other.length <= 1 && first + last + 1 >= longer;
}

struct token nearest_signal(const struct text *text, const struct tokens *tokens, struct token name)
{
    size_t k = 0;
    while (k < tokens->count && !(declares_signal(text, tokens, k) && is_near(text, tokens->all[k], name)))
        k++;
    return tokens->all[k];
}

struct token closed_name(const struct text *text, const struct tokens *tokens, size_t number, struct token *opening)
{
    size_t k;
    if (is_at(text, tokens, number - 1, "process")) {
        for (k = number - 2; !is_at(text, tokens, k, "process"); k--)
            ;
        *opening = tokens->all[k];
        return is_at(text, tokens, k - 1, ":") ? tokens->all[k - 2] : tokens->all[tokens->count];
    }
    for (k = 0; !is_at(text, tokens, k, is_declared(text, tokens, number) ? "entity" : "architecture"); k++)
        ;
    *opening = tokens->all[k];
    return tokens->all[k + 1];
}
