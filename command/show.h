/* A place of a text as people read it: file, line and column with a sentence, the line itself, and a caret below the token. */
#ifndef SHOW_H
#define SHOW_H

#include "text.h"

/* Says all three on standard error; the sentence is a format with its arguments. */
void show_place(const struct text *text, struct token token, const char *format, ...);

/* Says a token on standard error, in quotes. */
void quote(const struct text *text, struct token token);

#endif
