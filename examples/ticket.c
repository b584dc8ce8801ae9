/* Takes the attachments out of a stored message, and puts them back next week.

   ticket strip MESSAGE JOURNAL   takes out each part that has a name
   ticket back MESSAGE JOURNAL    gives the message as it was, byte for byte

   cc -Iinclude examples/ticket.c -lmimetool -o ticket */
#include "mimetool.h"

#include <stdio.h>
#include <stdlib.h>
#include <string.h>

/* The whole of a file. */
static mimetool_bytes read_file(const char *name)
{
    mimetool_bytes whole = {NULL, 0};
    FILE *file = fopen(name, "rb");
    long size = 0;

    if (file == NULL || fseek(file, 0, SEEK_END) != 0 || (size = ftell(file)) < 0)
        exit(3);
    rewind(file);
    whole.bytes = malloc((size_t)size + 1);
    if (whole.bytes == NULL || fread(whole.bytes, 1, (size_t)size, file) != (size_t)size)
        exit(3);
    fclose(file);
    whole.size = (size_t)size;
    return whole;
}

static void write_file(const char *name, mimetool_bytes whole)
{
    FILE *file = fopen(name, "wb");

    if (file == NULL || fwrite(whole.bytes, 1, whole.size, file) != whole.size || fclose(file) != 0)
        exit(3);
}

/* Whether a section is a part of a multipart and has a name. */
static bool is_attachment(mimetool_session *session, const mimetool_section *sections, const mimetool_section *one)
{
    const mimetool_section *above;
    mimetool_bytes name;

    if (one->depth < 2 || mimetool_name(session, one->path, one->depth, &name) != MIMETOOL_OK)
        return false;
    mimetool_free(&name);
    for (above = one; above >= sections; above--)
        if (above->depth == one->depth - 1)
            return above->kind == MIMETOOL_MULTIPART;
    return false;
}

/* Takes all attachments out as one step, the last first, so that paths stay true. */
static mimetool_status strip(mimetool_session *session)
{
    mimetool_section *sections;
    mimetool_edit *edits;
    mimetool_status status;
    size_t count, index, found = 0;

    status = mimetool_sections(session, &sections, &count);
    if (status != MIMETOOL_OK)
        return status;
    edits = calloc(count, sizeof *edits);
    if (edits == NULL)
        exit(3);
    for (index = count; index-- > 0;)
        if (is_attachment(session, sections, &sections[index]))
            edits[found++] = (mimetool_edit){
                .kind = MIMETOOL_REMOVE_PART, .path = sections[index].path, .depth = sections[index].depth};
    status = mimetool_group(session, edits, found, NULL);
    free(edits);
    mimetool_free_sections(sections);
    return status;
}

int main(int count, char **words)
{
    mimetool_session *session;
    mimetool_bytes message, journal, text;
    mimetool_status status;

    if (count != 4)
        return 2;
    message = read_file(words[2]);
    if (strcmp(words[1], "strip") == 0) {
        status = mimetool_start(&session, message.bytes, message.size);
        if (status == MIMETOOL_OK)
            status = strip(session);
    } else {
        journal = read_file(words[3]);
        status = mimetool_load(&session, message.bytes, message.size, journal.bytes, journal.size, NULL);
        mimetool_free(&journal);
        if (status == MIMETOOL_OK)
            status = mimetool_undo(session);
    }
    mimetool_free(&message);
    if (status == MIMETOOL_OK)
        status = mimetool_save(session, &journal);
    if (status == MIMETOOL_OK)
        status = mimetool_text(session, &text);
    if (status != MIMETOOL_OK) {
        fprintf(stderr, "%s: %s\n", words[2], mimetool_reason(status));
        mimetool_close(session);
        return 1;
    }
    write_file(words[2], text);
    write_file(words[3], journal);
    mimetool_free(&text);
    mimetool_free(&journal);
    mimetool_close(session);
    return 0;
}
