/* Messages that are built of files.

   A word is field=FILE, part=FILE:base64|qp:TYPE:NAME (without the last colon there is
   no name), message=FILE:shown|attached, subtype=WORD, charset=WORD, boundary=WORD or
   crlf. */
#include "callbacks.h"

#include <stdlib.h>
#include <string.h>

enum { MOST_ITEMS = 40 };

typedef struct items {
    mimetool_field fields[MOST_ITEMS];
    mimetool_part parts[MOST_ITEMS];
    mimetool_forward messages[MOST_ITEMS];
    mimetool_draft draft;
} items;

/* Cuts a word off a text that goes on after a colon. NULL where there is none. */
static char *cut(char **rest)
{
    char *word = *rest, *colon = word != NULL ? strchr(word, ':') : NULL;

    *rest = colon != NULL ? colon + 1 : NULL;
    if (colon != NULL)
        *colon = 0;
    return word;
}

static void add_field(items *items, char *rest)
{
    bytes text = read_file(rest, false);

    items->fields[items->draft.field_count++] = (mimetool_field){text.at, text.size};
}

static void add_part(items *items, char *rest)
{
    bytes text = read_file(cut(&rest), false);
    bool base64 = strcmp(cut(&rest), "base64") == 0;
    const char *type = cut(&rest);

    items->parts[items->draft.part_count++] = (mimetool_part){type, rest, text.at, text.size, base64};
}

static void add_message(items *items, char *rest)
{
    bytes text = read_file(cut(&rest), false);

    items->messages[items->draft.message_count++] = (mimetool_forward){text.at, text.size, strcmp(rest, "shown") == 0};
}

static void add_word(items *items, char *word)
{
    char *rest = strchr(word, '=');

    if (rest == NULL)
        items->draft.crlf = true;
    else if (strncmp(word, "field=", 6) == 0)
        add_field(items, rest + 1);
    else if (strncmp(word, "part=", 5) == 0)
        add_part(items, rest + 1);
    else if (strncmp(word, "message=", 8) == 0)
        add_message(items, rest + 1);
    else if (strncmp(word, "subtype=", 8) == 0)
        items->draft.subtype = rest + 1;
    else if (strncmp(word, "charset=", 8) == 0)
        items->draft.charset = rest + 1;
    else
        items->draft.boundary = rest + 1;
}

static void free_items(items *items)
{
    size_t index;

    for (index = 0; index < MOST_ITEMS; index++) {
        free((void *)items->fields[index].text);
        free((void *)items->parts[index].content);
        free((void *)items->messages[index].text);
    }
    free(items);
}

int build_words(char **words, int count)
{
    items *items = room(sizeof *items);
    mimetool_bytes message;
    mimetool_place place;
    mimetool_status status;
    int index;

    memset(items, 0, sizeof *items);
    items->draft.fields = items->fields;
    items->draft.parts = items->parts;
    items->draft.messages = items->messages;
    for (index = 0; index < count; index++)
        add_word(items, words[index]);
    AGAIN(status, mimetool_build(&items->draft, &message, &place));
    free_items(items);
    if (status != MIMETOOL_OK) {
        fprintf(stderr, "build: %s %zu\n", mimetool_reason(status), place.edit);
        return REFUSED;
    }
    fwrite(message.bytes, 1, message.size, stdout);
    mimetool_free(&message);
    return ACCEPTED;
}
