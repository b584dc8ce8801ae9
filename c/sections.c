/* Sections, their contents and their names. */
#include "mk_c.h"

#include <stdlib.h>
#include <string.h>

mimetool_status mimetool_extract(mimetool_session *session, const uint32_t *path, size_t depth,
                                 mimetool_bytes *content)
{
    place unused;

    if (!mk_c_can_answer(session, content) || !are_there(path, depth))
        return MIMETOOL_NULL;
    return mk_c_answered(&session->handle, mk_c_extract(&session->handle, numbers_at(path), depth, &unused), content);
}

mimetool_status mimetool_name(mimetool_session *session, const uint32_t *path, size_t depth, mimetool_bytes *name)
{
    place unused;

    if (!mk_c_can_answer(session, name) || !are_there(path, depth))
        return MIMETOOL_NULL;
    return mk_c_answered(&session->handle, mk_c_name(&session->handle, numbers_at(path), depth, &unused), name);
}

mimetool_status mimetool_view_content(mimetool_session *session, const uint32_t *path, size_t depth,
                                      mimetool_view *content)
{
    place unused;

    if (!mk_c_can_view(session, content) || !are_there(path, depth))
        return MIMETOOL_NULL;
    return mk_c_viewed(session, mk_c_extract(&session->handle, numbers_at(path), depth, &unused), content);
}

mimetool_status mimetool_view_name(mimetool_session *session, const uint32_t *path, size_t depth, mimetool_view *name)
{
    place unused;

    if (!mk_c_can_view(session, name) || !are_there(path, depth))
        return MIMETOOL_NULL;
    return mk_c_viewed(session, mk_c_name(&session->handle, numbers_at(path), depth, &unused), name);
}

/* The number that a text goes on with, and the byte after it, which is passed over. */
static size_t next_number(char **rest)
{
    size_t number = 0;

    for (; **rest >= '0' && **rest <= '9'; (*rest)++)
        number = number * 10 + (size_t)(**rest - '0');
    (*rest)++;
    return number;
}

/* The word that a text goes on with. The space after it becomes its end. */
static char *next_word(char **rest)
{
    char *word = *rest;

    while (**rest != ' ')
        (*rest)++;
    *(*rest)++ = 0;
    return word;
}

static mimetool_kind kind_of(const char *word)
{
    if (strcmp(word, "leaf") == 0)
        return MIMETOOL_LEAF;
    return strcmp(word, "multi") == 0 ? MIMETOOL_MULTIPART : MIMETOOL_MESSAGE;
}

static mimetool_encoding encoding_of(const char *word)
{
    if (strcmp(word, "identity") == 0)
        return MIMETOOL_IDENTITY;
    if (strcmp(word, "quoted-printable") == 0)
        return MIMETOOL_QUOTED_PRINTABLE;
    return strcmp(word, "base64") == 0 ? MIMETOOL_BASE64 : MIMETOOL_OTHER;
}

/* Reads a line of a listing into a section, whose path goes where numbers are free. */
static void read_section(char **rest, mimetool_section *section, uint32_t **numbers)
{
    char last;

    section->path = *numbers;
    section->depth = 0;
    do {
        char *number = *rest;

        *(*numbers)++ = (uint32_t)next_number(&number);
        section->depth++;
        last = number[-1];
        *rest = number;
    } while (last == '.');
    section->kind = kind_of(next_word(rest));
    section->type = next_word(rest);
    section->encoding = encoding_of(next_word(rest));
    section->start = next_number(rest);
    section->body = next_number(rest);
    section->end = next_number(rest);
    section->field_lines = next_number(rest);
    section->body_lines = next_number(rest);
}

/* How many sections a listing has, and how many numbers their paths have, at most. */
static void count_listing(const char *listing, size_t size, size_t *lines, size_t *numbers)
{
    size_t at, dots = 0;

    *lines = 0;
    for (at = 0; at < size; at++) {
        *lines += listing[at] == '\n';
        dots += listing[at] == '.';
    }
    *numbers = *lines + dots;
}

/* Puts the sections into a block: first they, then the numbers of their paths, then
   the listing, in which their types are. */
static mimetool_status list(handle *h, block *block, size_t *count)
{
    place unused;
    size_t size, front, numbers, index;
    mimetool_section *sections;
    uint32_t *path;
    char *rest;
    uint32_t status = mk_c_sections(h, &unused);

    if (status != MIMETOOL_OK)
        return (mimetool_status)status;
    size = mk_c_size(h);
    if (!mk_c_make_room(block, size))
        return MIMETOOL_MEMORY;
    mk_c_copy(h, block->at, size, &unused);
    count_listing(block->at, size, count, &numbers);
    front = *count * sizeof *sections + numbers * sizeof *path;
    if (!mk_c_make_room(block, front + size))
        return MIMETOOL_MEMORY;
    sections = block->at;
    path = (uint32_t *)(sections + *count);
    rest = (char *)(path + numbers);
    memmove(rest, block->at, size);
    for (index = 0; index < *count; index++)
        read_section(&rest, &sections[index], &path);
    return MIMETOOL_OK;
}

mimetool_status mimetool_sections(mimetool_session *session, mimetool_section **sections, size_t *count)
{
    block made = {NULL, 0};
    mimetool_status status;

    if (sections == NULL || count == NULL)
        return MIMETOOL_NULL;
    *sections = NULL;
    *count = 0;
    if (session == NULL)
        return MIMETOOL_NULL;
    status = list(&session->handle, &made, count);
    if (status == MIMETOOL_OK) {
        *sections = made.at;
    } else {
        free(made.at);
        *count = 0;
    }
    return status;
}

mimetool_status mimetool_view_sections(mimetool_session *session, const mimetool_section **sections, size_t *count)
{
    mimetool_status status;

    if (sections == NULL || count == NULL)
        return MIMETOOL_NULL;
    *sections = NULL;
    *count = 0;
    if (session == NULL)
        return MIMETOOL_NULL;
    status = list(&session->handle, &session->listed, count);
    if (status == MIMETOOL_OK)
        *sections = session->listed.at;
    else
        *count = 0;
    return status;
}

void mimetool_free_sections(mimetool_section *sections)
{
    free(sections);
}
