/* Whether the views of a session show what its other calls answer. */
#include "library.h"

#include <stdlib.h>
#include <string.h>

static void want_same(mimetool_view view, mimetool_bytes *answer)
{
    if (view.size != answer->size || memcmp(view.bytes, answer->bytes, view.size) != 0 || view.bytes[view.size] != 0)
        give_up("a view shows something else");
    mimetool_free(answer);
}

/* The content or the name of a section. */
static void look_at_section(mimetool_session *session, const mimetool_section *one)
{
    mimetool_bytes answer;
    mimetool_view view;
    mimetool_status status, viewed;

    AGAIN(status, mimetool_extract(session, one->path, one->depth, &answer));
    AGAIN(viewed, mimetool_view_content(session, one->path, one->depth, &view));
    if (status != viewed)
        give_up("another status of a content");
    if (status == MIMETOOL_OK)
        want_same(view, &answer);
    AGAIN(status, mimetool_name(session, one->path, one->depth, &answer));
    AGAIN(viewed, mimetool_view_name(session, one->path, one->depth, &view));
    if (status != viewed)
        give_up("another status of a name");
    if (status == MIMETOOL_OK)
        want_same(view, &answer);
}

/* Whether two sections are the same, the paths and types that they lead to, too. */
static bool are_same(const mimetool_section *a, const mimetool_section *b)
{
    return a->depth == b->depth && memcmp(a->path, b->path, a->depth * sizeof *a->path) == 0 && a->kind == b->kind
           && a->encoding == b->encoding && strcmp(a->type, b->type) == 0 && a->start == b->start && a->body == b->body
           && a->end == b->end && a->field_lines == b->field_lines && a->body_lines == b->body_lines;
}

static void look_at_sections(mimetool_session *session)
{
    mimetool_section *answer;
    const mimetool_section *view;
    mimetool_status status;
    size_t count, viewed, index;

    if (AGAIN(status, mimetool_sections(session, &answer, &count)) != MIMETOOL_OK
        || AGAIN(status, mimetool_view_sections(session, &view, &viewed)) != MIMETOOL_OK)
        give_up("no sections");
    if (count != viewed)
        give_up("another number of sections");
    for (index = 0; index < count; index++) {
        /* The sections stay while contents and names are viewed. */
        look_at_section(session, &view[index]);
        if (!are_same(&answer[index], &view[index]))
            give_up("another section");
    }
    mimetool_free_sections(answer);
}

void look_at_views(mimetool_session *session)
{
    mimetool_bytes answer;
    mimetool_view view;
    mimetool_status status;

    if (AGAIN(status, mimetool_text(session, &answer)) != MIMETOOL_OK
        || AGAIN(status, mimetool_view_text(session, &view)) != MIMETOOL_OK)
        give_up("no text");
    want_same(view, &answer);
    if (AGAIN(status, mimetool_save(session, &answer)) != MIMETOOL_OK
        || AGAIN(status, mimetool_view_journal(session, &view)) != MIMETOOL_OK)
        give_up("no journal");
    want_same(view, &answer);
    look_at_sections(session);
}
