/* Messages that are built. */
#include "mk_c.h"

#include <string.h>

/* Puts the fields down, up to one that is refused. */
static uint32_t put_fields(handle *h, const mimetool_draft *draft, place *told)
{
    size_t index;

    for (index = 0; index < draft->field_count; index++) {
        const mimetool_field *field = &draft->fields[index];
        uint32_t status = MIMETOOL_NULL;

        if (are_there(field->text, field->size))
            status = mk_c_put_field(h, bytes_at(field->text), field->size, told);
        if (status != MIMETOOL_OK) {
            told->edit = index;
            return status;
        }
    }
    return MIMETOOL_OK;
}

static uint32_t put_parts(handle *h, const mimetool_draft *draft, place *told)
{
    size_t index;

    for (index = 0; index < draft->part_count; index++) {
        const mimetool_part *part = &draft->parts[index];
        const char *name = part->name != NULL ? part->name : "";
        uint32_t status = MIMETOOL_NULL;

        if (part->type != NULL && are_there(part->content, part->size))
            status = mk_c_put_part(h, bytes_at(part->type), strlen(part->type), part->name != NULL, bytes_at(name),
                                   strlen(name), bytes_at(part->content), part->size, part->base64, told);
        if (status != MIMETOOL_OK) {
            told->edit = index;
            return status;
        }
    }
    return MIMETOOL_OK;
}

static uint32_t put_messages(handle *h, const mimetool_draft *draft, place *told)
{
    size_t index;

    for (index = 0; index < draft->message_count; index++) {
        const mimetool_forward *message = &draft->messages[index];
        uint32_t status = MIMETOOL_NULL;

        if (are_there(message->text, message->size))
            status = mk_c_put_message(h, bytes_at(message->text), message->size, message->shown, told);
        if (status != MIMETOOL_OK) {
            told->edit = index;
            return status;
        }
    }
    return MIMETOOL_OK;
}

/* Builds what was put down. */
static uint32_t build(handle *h, const mimetool_draft *draft, place *told)
{
    const char *subtype = draft->subtype != NULL ? draft->subtype : "mixed";
    const char *charset = draft->charset != NULL ? draft->charset : "";

    return mk_c_build(h, bytes_at(subtype), strlen(subtype), draft->charset != NULL, bytes_at(charset),
                      strlen(charset), bytes_at(draft->boundary), strlen(draft->boundary), draft->crlf, told);
}

/* Whether a draft has its boundary, and all that it counts. */
static bool is_whole(const mimetool_draft *draft)
{
    return draft != NULL && draft->boundary != NULL && are_there(draft->fields, draft->field_count)
           && are_there(draft->parts, draft->part_count) && are_there(draft->messages, draft->message_count);
}

mimetool_status mimetool_build(const mimetool_draft *draft, mimetool_bytes *message, mimetool_place *where)
{
    place unused;
    place *told = where != NULL ? where : &unused;
    handle h = {NULL, false};
    mimetool_status answered;
    uint32_t status;

    *told = (place){0, 0};
    if (message == NULL)
        return MIMETOOL_NULL;
    *message = (mimetool_bytes){NULL, 0};
    if (!is_whole(draft))
        return MIMETOOL_NULL;
    status = mk_c_start(&h, bytes_at(NULL), 0, told);
    if (status == MIMETOOL_OK)
        status = put_fields(&h, draft, told);
    if (status == MIMETOOL_OK)
        status = put_parts(&h, draft, told);
    if (status == MIMETOOL_OK)
        status = put_messages(&h, draft, told);
    if (status == MIMETOOL_OK)
        status = build(&h, draft, told);
    answered = mk_c_answered(&h, status, message);
    mk_c_close(&h);
    return answered;
}
