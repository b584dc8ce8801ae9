/* Edits: put down one after another, and then made or checked. */
#include "mk_c.h"

#include <string.h>

/* Whether an edit has all that its kind names. */
static bool is_whole(const mimetool_edit *edit)
{
    return are_there(edit->path, edit->depth) && are_there(edit->name, edit->name_size)
           && are_there(edit->text, edit->text_size);
}

/* Puts an edit down for the next call. */
static uint32_t put_down(handle *h, const mimetool_edit *edit, place *told)
{
    const uint32_t *path = numbers_at(edit->path);
    const uint8_t *name = bytes_at(edit->name);
    const uint8_t *text = bytes_at(edit->text);
    size_t depth = edit->depth;

    switch (edit->kind) {
    case MIMETOOL_ADD_FIELD:
        return mk_c_add_field(h, path, depth, edit->top, text, edit->text_size, told);
    case MIMETOOL_REMOVE_FIELD:
        return mk_c_remove_field(h, path, depth, name, edit->name_size, edit->number, told);
    case MIMETOOL_RENAME_FIELD:
        return mk_c_rename_field(h, path, depth, name, edit->name_size, edit->number, text, edit->text_size, told);
    case MIMETOOL_SET_FIELD:
        return mk_c_set_field(h, path, depth, name, edit->name_size, edit->number, text, edit->text_size, told);
    case MIMETOOL_SET_BODY:
        return mk_c_set_body(h, path, depth, text, edit->text_size, told);
    case MIMETOOL_SET_SECTION:
        return mk_c_set_section(h, path, depth, text, edit->text_size, told);
    case MIMETOOL_INSERT_PART:
        return mk_c_insert_part(h, path, depth, edit->number, text, edit->text_size, told);
    case MIMETOOL_REMOVE_PART:
        return mk_c_remove_part(h, path, depth, told);
    case MIMETOOL_WRAP:
        return mk_c_wrap(h, path, depth, name, edit->name_size, text, edit->text_size, told);
    }
    return MIMETOOL_NULL;
}

/* Puts edits down, or none of them. */
static mimetool_status put_all_down(mimetool_session *session, const mimetool_edit *edits, size_t count, place *told)
{
    size_t index;
    place unused;

    *told = (place){0, 0};
    if (session == NULL || !are_there(edits, count))
        return MIMETOOL_NULL;
    for (index = 0; index < count; index++) {
        uint32_t status = is_whole(&edits[index]) ? put_down(&session->handle, &edits[index], told) : MIMETOOL_NULL;

        if (status != MIMETOOL_OK) {
            mk_c_forget(&session->handle, &unused);
            told->edit = index;
            return (mimetool_status)status;
        }
    }
    return MIMETOOL_OK;
}

mimetool_status mimetool_group(mimetool_session *session, const mimetool_edit *edits, size_t count,
                               mimetool_place *where)
{
    place unused;
    place *told = where != NULL ? where : &unused;
    mimetool_status status = put_all_down(session, edits, count, told);

    return status != MIMETOOL_OK ? status : (mimetool_status)mk_c_make(&session->handle, told);
}

mimetool_status mimetool_check(mimetool_session *session, const mimetool_edit *edit, mimetool_place *where)
{
    place unused;
    place *told = where != NULL ? where : &unused;
    mimetool_status status = put_all_down(session, edit, 1, told);

    return status != MIMETOOL_OK ? status : (mimetool_status)mk_c_check(&session->handle, told);
}

/* An edit of the section at a path, of which no more is said yet. */
static mimetool_edit edit_of(mimetool_edit_kind kind, const uint32_t *path, size_t depth)
{
    mimetool_edit edit = {.kind = kind, .path = path, .depth = depth};

    return edit;
}

/* Gives an edit a name, and a text; both end before a 0. NULL lacks a byte, so the
   edit isn't whole then. */
static void take_name(mimetool_edit *edit, const char *name)
{
    edit->name = name;
    edit->name_size = name != NULL ? strlen(name) : 1;
}

static void take_text(mimetool_edit *edit, const char *text)
{
    edit->text = text;
    edit->text_size = text != NULL ? strlen(text) : 1;
}

mimetool_status mimetool_add_field(mimetool_session *session, const uint32_t *path, size_t depth, bool top,
                                   const void *field, size_t size, mimetool_place *where)
{
    mimetool_edit edit = edit_of(MIMETOOL_ADD_FIELD, path, depth);

    edit.top = top;
    edit.text = field;
    edit.text_size = size;
    return mimetool_group(session, &edit, 1, where);
}

mimetool_status mimetool_remove_field(mimetool_session *session, const uint32_t *path, size_t depth, const char *name,
                                      uint32_t number, mimetool_place *where)
{
    mimetool_edit edit = edit_of(MIMETOOL_REMOVE_FIELD, path, depth);

    take_name(&edit, name);
    edit.number = number;
    return mimetool_group(session, &edit, 1, where);
}

mimetool_status mimetool_rename_field(mimetool_session *session, const uint32_t *path, size_t depth, const char *name,
                                      uint32_t number, const char *to, mimetool_place *where)
{
    mimetool_edit edit = edit_of(MIMETOOL_RENAME_FIELD, path, depth);

    take_name(&edit, name);
    edit.number = number;
    take_text(&edit, to);
    return mimetool_group(session, &edit, 1, where);
}

mimetool_status mimetool_set_field(mimetool_session *session, const uint32_t *path, size_t depth, const char *name,
                                   uint32_t number, const void *field, size_t size, mimetool_place *where)
{
    mimetool_edit edit = edit_of(MIMETOOL_SET_FIELD, path, depth);

    take_name(&edit, name);
    edit.number = number;
    edit.text = field;
    edit.text_size = size;
    return mimetool_group(session, &edit, 1, where);
}

mimetool_status mimetool_set_body(mimetool_session *session, const uint32_t *path, size_t depth, const void *body,
                                  size_t size, mimetool_place *where)
{
    mimetool_edit edit = edit_of(MIMETOOL_SET_BODY, path, depth);

    edit.text = body;
    edit.text_size = size;
    return mimetool_group(session, &edit, 1, where);
}

mimetool_status mimetool_set_section(mimetool_session *session, const uint32_t *path, size_t depth, const void *entity,
                                     size_t size, mimetool_place *where)
{
    mimetool_edit edit = edit_of(MIMETOOL_SET_SECTION, path, depth);

    edit.text = entity;
    edit.text_size = size;
    return mimetool_group(session, &edit, 1, where);
}

mimetool_status mimetool_insert_part(mimetool_session *session, const uint32_t *path, size_t depth, uint32_t after,
                                     const void *entity, size_t size, mimetool_place *where)
{
    mimetool_edit edit = edit_of(MIMETOOL_INSERT_PART, path, depth);

    edit.number = after;
    edit.text = entity;
    edit.text_size = size;
    return mimetool_group(session, &edit, 1, where);
}

mimetool_status mimetool_remove_part(mimetool_session *session, const uint32_t *path, size_t depth,
                                     mimetool_place *where)
{
    mimetool_edit edit = edit_of(MIMETOOL_REMOVE_PART, path, depth);

    return mimetool_group(session, &edit, 1, where);
}

mimetool_status mimetool_wrap(mimetool_session *session, const uint32_t *path, size_t depth, const char *subtype,
                              const char *boundary, mimetool_place *where)
{
    mimetool_edit edit = edit_of(MIMETOOL_WRAP, path, depth);

    take_name(&edit, subtype);
    take_text(&edit, boundary);
    return mimetool_group(session, &edit, 1, where);
}
