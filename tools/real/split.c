#include "split.h"

#include <flite/cst_synth.h>
#include <string.h>

#define MOST_TOKENS 100

struct text open_text(const char *text) {
    cst_tokenstream *stream =
        ts_open_string(text, cst_ts_default_whitespacesymbols, cst_ts_default_singlecharsymbols,
                       cst_ts_default_prepunctuationsymbols, cst_ts_default_postpunctuationsymbols);
    if (stream == NULL)
        stop("no memory");
    return (struct text){stream, 0};
}

static void append_token(cst_relation *tokens, const cst_tokenstream *stream) {
    cst_item *token = relation_append(tokens, NULL);
    item_set_string(token, "name", stream->token);
    item_set_string(token, "whitespace", stream->whitespace);
    item_set_string(token, "prepunctuation", stream->prepunctuation);
    item_set_string(token, "punc", stream->postpunctuation);
}

/* Takes tokens up to the end of a sentence; answers how many. */
static int take_tokens(struct text *text, cst_relation *tokens) {
    cst_tokenstream *stream = text->stream;
    int count = 0;
    for (;;) {
        if (!text->pending)
            ts_get(stream);
        text->pending = 0;
        if (strlen(stream->token) == 0) {
            if (ts_eof(stream))
                return count;
            continue; /* signs alone */
        }
        text->pending = count == MOST_TOKENS || (count > 0 && default_utt_break(stream, stream->token, tokens));
        if (text->pending)
            return count;
        append_token(tokens, stream);
        count++;
    }
}

cst_utterance *next_utterance(struct text *text, cst_voice *voice) {
    cst_utterance *utterance = new_utterance();
    if (take_tokens(text, utt_relation_create(utterance, "Token")) == 0) {
        delete_utterance(utterance);
        return NULL;
    }
    utterance = flite_do_synth(utterance, voice, utt_synth_tokens);
    if (utterance == NULL)
        stop("flite cannot speak this");
    return utterance;
}

int is_spoken(cst_utterance *utterance) {
    const cst_item *segment = NULL;
    if (utt_relation_present(utterance, "Segment"))
        segment = relation_head(utt_relation(utterance, "Segment"));
    for (; segment != NULL; segment = item_next(segment))
        if (strcmp(item_name(segment), "pau") != 0)
            return 1;
    return 0;
}
