/* What the files of this program share: bytes, files and scripts. */
#ifndef LIBRARY_H
#define LIBRARY_H

#include "mimetool.h"

#include <stdio.h>

enum { ACCEPTED = 0, REFUSED = 1, FAULT = 2, GIVEN_UP = 3 };

#define MOST_DEPTH 101

/* Makes a call, and once more where memory ran out: nothing has changed then. */
#define AGAIN(status, call) (((status) = (call)) == MIMETOOL_MEMORY ? ((status) = (call)) : (status))

/* Some bytes: a text, a line of it or a word. */
typedef struct bytes {
    const char *at;
    size_t size;
} bytes;

/* What a line of a script asks for, beside an edit. */
typedef enum order_kind { EDIT, UNDO, REDO, BEGIN, END } order_kind;

typedef struct order {
    order_kind kind;
    size_t line;
    mimetool_edit edit;
    uint32_t path[MOST_DEPTH];
    bytes field; /* a field, which gets the ending of the text */
} order;

typedef struct script {
    order *orders;
    size_t count;
} script;

/* Ends the program. */
void give_up(const char *why);

/* Memory for so many bytes and one more. */
void *room(size_t size);

/* The whole of a stream. */
bytes read_all(FILE *stream);

/* The whole of a file; no bytes at NULL where there is none and it may be missing. */
bytes read_file(const char *name, bool may_be_missing);

/* Puts the bytes of an answer into a file. */
void write_file(const char *name, const mimetool_bytes *whole);

/* Numbers from 1, joined by dots. */
bool read_path(bytes word, uint32_t *path, size_t *depth);

/* Ends the program where a view shows something else than the call beside it answers. */
void look_at_views(mimetool_session *session);

/* Reads a whole script. Its first fault ends the program. */
script read_script(bytes text, const bytes *pieces, size_t count);

#endif
