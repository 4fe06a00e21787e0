/* A design's text as a file has it, and its tokens. */
#ifndef TEXT_H
#define TEXT_H

#include "compassnail.h"

struct text {
    const char *name; /* as messages name it */
    size_t length;
    uint8_t bytes[COMPASSNAIL_TEXT_BYTES + 1]; /* one more, to see that a text is too long */
};

/* Where a token stands. One of length 0 is the end of the text. */
struct token {
    size_t place, length;
};

/* All tokens of a text, and behind them its end. */
struct tokens {
    size_t count;
    struct token all[COMPASSNAIL_TEXT_BYTES + 1];
};

/* Loads a file's text, or standard input's for `-`. Where that cannot be done, says why and answers 0. */
int load_text(struct text *text, const char *file);

/* The token at a place or behind it. What is in no lexical rule is a token too: a stretch, or one byte. */
struct token token_at(const struct text *text, size_t place);

void find_tokens(const struct text *text, struct tokens *tokens);

/* The number of the token that stands at a place. */
size_t number_at(const struct tokens *tokens, uint64_t place);

/* Whether a token is a word or mark that is given in lower case, and whether two tokens are the same; case does not count. */
int is_word(const struct text *text, struct token token, const char *word);
int same_token(const struct text *text, struct token one, struct token other);

/* Whether a byte may stand in a stretch of letters, digits and underscores. */
int in_stretch(uint8_t byte);

#endif
