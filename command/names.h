/* What the names of a text are, by its tokens. All of it asks for a text that the grammar accepts. */
#ifndef NAMES_H
#define NAMES_H

#include "text.h"

/* Whether the token of a number declares a signal, is the label of a process, or is the target of an assignment. */
int declares_signal(const struct text *text, const struct tokens *tokens, size_t number);
int is_label(const struct text *text, const struct tokens *tokens, size_t number);
int is_target(const struct text *text, const struct tokens *tokens, size_t number);

/* One of the three. */
typedef int role(const struct text *text, const struct tokens *tokens, size_t number);

/* Of all tokens of a role, the one that has so many before it; the text's end where there are not so many. */
struct token nth(const struct text *text, const struct tokens *tokens, role *has_role, size_t before);

/* The first token of a role that is the same as another; the text's end where there is none. */
struct token first_same(const struct text *text, const struct tokens *tokens, role *has_role, struct token other);

/* The first declared signal that one letter more, less, other or two exchanged make the same; the text's end where there is none. */
struct token nearest_signal(const struct text *text, const struct tokens *tokens, struct token name);

/* What the closing name of a number has to be; the text's end where it closes a process without a label. The opening word, or
   what is named, is where that begins. */
struct token closed_name(const struct text *text, const struct tokens *tokens, size_t number, struct token *opening);

#endif
