/* Files, and the lines of a script, read as docs/FORMATS.md says. */
#include "library.h"

#include <errno.h>
#include <stdlib.h>
#include <string.h>

void give_up(const char *why)
{
    fprintf(stderr, "library: %s\n", why);
    exit(GIVEN_UP);
}

void *room(size_t size)
{
    void *made = malloc(size + 1);

    if (made == NULL)
        made = malloc(size + 1);
    if (made == NULL)
        give_up("out of memory");
    return made;
}

bytes read_all(FILE *stream)
{
    size_t size = 0, most = 4096;
    char *at = room(most);

    for (;;) {
        size_t got = fread(at + size, 1, most - size, stream);

        if (got == 0)
            break;
        size += got;
        if (size == most) {
            char *more = room(2 * most);

            memcpy(more, at, size);
            free(at);
            at = more;
            most *= 2;
        }
    }
    return (bytes){at, size};
}

/* Opens a file. Tries it twice, since there may have been no memory for it. */
static FILE *open_file(const char *name, const char *how)
{
    FILE *file = fopen(name, how);

    return file != NULL ? file : fopen(name, how);
}

bytes read_file(const char *name, bool may_be_missing)
{
    FILE *file = open_file(name, "rb");
    bytes whole;

    if (file == NULL && may_be_missing && errno == ENOENT)
        return (bytes){NULL, 0};
    if (file == NULL)
        give_up(name);
    whole = read_all(file);
    fclose(file);
    return whole;
}

void write_file(const char *name, const mimetool_bytes *whole)
{
    FILE *file = open_file(name, "wb");

    if (file == NULL || fwrite(whole->bytes, 1, whole->size, file) != whole->size || fclose(file) != 0)
        give_up(name);
}

/* ---- Scripts */

/* Cuts the word off that a line begins with, up to a space. False where no space
   follows it and one is wanted. */
static bool cut_word(bytes *line, bytes *word, bool is_last)
{
    const char *space = memchr(line->at, ' ', line->size);

    if (is_last) {
        *word = *line;
        *line = (bytes){line->at + line->size, 0};
        return space == NULL;
    }
    if (space == NULL)
        return false;
    *word = (bytes){line->at, (size_t)(space - line->at)};
    line->at = space + 1;
    line->size -= word->size + 1;
    return true;
}

/* A decimal number without zeros before it. */
static bool read_number(bytes word, uint32_t *number)
{
    uint64_t value = 0;
    size_t place;

    if (word.size == 0 || word.size > 10 || (word.size > 1 && word.at[0] == '0'))
        return false;
    for (place = 0; place < word.size; place++) {
        if (word.at[place] < '0' || word.at[place] > '9')
            return false;
        value = value * 10 + (uint64_t)(word.at[place] - '0');
    }
    *number = (uint32_t)value;
    return value <= UINT32_MAX;
}

bool read_path(bytes word, uint32_t *path, size_t *depth)
{
    const char *end = word.at + word.size;

    for (*depth = 0; *depth < MOST_DEPTH; (*depth)++) {
        const char *dot = memchr(word.at, '.', word.size);
        bytes number = {word.at, dot != NULL ? (size_t)(dot - word.at) : word.size};

        if (!read_number(number, &path[*depth]) || path[*depth] == 0)
            return false;
        if (dot == NULL) {
            (*depth)++;
            return true;
        }
        word.at = dot + 1;
        word.size = (size_t)(end - word.at);
    }
    return false;
}

/* A piece, which is named by its number. */
static bool read_piece(bytes *line, const bytes *pieces, size_t count, mimetool_edit *edit)
{
    bytes word;
    uint32_t number;

    if (!cut_word(line, &word, true) || !read_number(word, &number) || number == 0 || number > count)
        return false;
    edit->text = pieces[number - 1].at;
    edit->text_size = pieces[number - 1].size;
    return true;
}

/* A name, and which field of that name. */
static bool read_name(bytes *line, mimetool_edit *edit, bool is_last)
{
    bytes name, number;

    if (!cut_word(line, &name, false) || name.size == 0 || !cut_word(line, &number, is_last))
        return false;
    edit->name = name.at;
    edit->name_size = name.size;
    return read_number(number, &edit->number);
}

/* How many parts come before a new one. */
static bool read_place(bytes *line, mimetool_edit *edit)
{
    bytes word;
    size_t place;

    if (!cut_word(line, &word, false) || word.size == 0 || (word.size > 1 && word.at[0] == '0'))
        return false;
    for (place = 0; place < word.size; place++)
        if (word.at[place] < '0' || word.at[place] > '9')
            return false;
    if (!read_number(word, &edit->number))
        edit->number = UINT32_MAX; /* no multipart has as many parts */
    return true;
}

/* What follows the path in a line of a word that is an edit. */
static bool read_rest(bytes word, bytes rest, const bytes *pieces, size_t count, order *order)
{
    mimetool_edit *edit = &order->edit;
    bytes name;

    switch (edit->kind) {
    case MIMETOOL_ADD_FIELD:
        edit->top = word.at[0] == 't';
        order->field = rest;
        return true;
    case MIMETOOL_REMOVE_FIELD:
        return read_name(&rest, edit, true);
    case MIMETOOL_RENAME_FIELD:
        if (!read_name(&rest, edit, false) || !cut_word(&rest, &name, true) || name.size == 0)
            return false;
        edit->text = name.at;
        edit->text_size = name.size;
        return true;
    case MIMETOOL_SET_FIELD:
        if (!read_name(&rest, edit, false))
            return false;
        order->field = rest;
        return true;
    case MIMETOOL_SET_BODY:
    case MIMETOOL_SET_SECTION:
        return read_piece(&rest, pieces, count, edit);
    case MIMETOOL_INSERT_PART:
        return read_place(&rest, edit) && read_piece(&rest, pieces, count, edit);
    case MIMETOOL_REMOVE_PART:
        return true;
    case MIMETOOL_WRAP:
        if (!cut_word(&rest, &name, false) || name.size == 0)
            return false;
        edit->name = name.at;
        edit->name_size = name.size;
        edit->text = rest.at;
        edit->text_size = rest.size;
        return true;
    }
    return false;
}

static bool is_word(bytes word, const char *name)
{
    return word.size == strlen(name) && memcmp(word.at, name, word.size) == 0;
}

/* Reads a line that is a word alone, or one of the nine edits. */
static bool read_order(bytes line, const bytes *pieces, size_t count, order *made)
{
    static const char *const alone[] = {"undo", "redo", "begin", "end"};
    static const char *const words[] = {"add", "del", "ren", "set", "body", "replace", "insert", "remove", "wrap"};
    bytes word, path;
    size_t index;

    for (index = 0; index < 4; index++)
        if (is_word(line, alone[index])) {
            made->kind = (order_kind)(UNDO + index);
            return true;
        }
    if (!cut_word(&line, &word, false))
        return false;
    made->kind = EDIT;
    for (index = 0; index < 9; index++)
        if (is_word(word, words[index]) || (index == 0 && is_word(word, "top"))) {
            made->edit.kind = (mimetool_edit_kind)index;
            return cut_word(&line, &path, index == MIMETOOL_REMOVE_PART)
                   && read_path(path, made->path, &made->edit.depth)
                   && read_rest(word, line, pieces, count, made);
        }
    return false;
}

/* Cuts a line off a text, without its ending. */
static bytes cut_line(bytes *text)
{
    const char *feed = memchr(text->at, '\n', text->size);
    bytes line = {text->at, feed != NULL ? (size_t)(feed - text->at) : text->size};
    size_t cut = line.size + (feed != NULL);

    text->at += cut;
    text->size -= cut;
    if (feed != NULL && line.size > 0 && line.at[line.size - 1] == '\r')
        line.size--;
    return line;
}

/* Reports the first fault of a script: that of a line, or of a begin before it
   that has no end in the rest. */
static void syntax_fault(size_t line, size_t begun, bytes rest)
{
    while (begun && rest.size > 0)
        if (is_word(cut_line(&rest), "end"))
            begun = 0;
    fprintf(stderr, "script: line %zu: syntax\n", begun ? begun : line);
    exit(FAULT);
}

script read_script(bytes text, const bytes *pieces, size_t count)
{
    script made = {room((text.size + 1) * sizeof(order)), 0};
    size_t number = 0, begun = 0;

    while (text.size > 0) {
        bytes line = cut_line(&text);
        order *next = &made.orders[made.count];

        number++;
        if (line.size == 0 || line.at[0] == '#')
            continue;
        memset(next, 0, sizeof *next);
        if (!read_order(line, pieces, count, next))
            syntax_fault(number, begun, text);
        next->line = number;
        if (begun ? next->kind == BEGIN || next->kind == UNDO || next->kind == REDO : next->kind == END)
            syntax_fault(number, begun, text);
        if (next->kind == BEGIN || next->kind == END)
            begun = next->kind == BEGIN ? number : 0;
        made.count++;
    }
    if (begun)
        syntax_fault(begun, 0, text);
    return made;
}
