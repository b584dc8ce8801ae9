/* Statuses and sessions. */
#include "mk_c.h"

#include <stdlib.h>

const char *mimetool_version(void)
{
    return MIMETOOL_VERSION;
}

const char *mimetool_reason(mimetool_status status)
{
    switch (status) {
    case MIMETOOL_OK: return "Ok";
    case MIMETOOL_MEMORY: return "Memory";
    case MIMETOOL_NO_NAME: return "NoName";
    case MIMETOOL_NULL: return "Null";
    case MIMETOOL_NO_MESSAGE: return "NoMessage";
    case MIMETOOL_NO_SUCH_SECTION: return "NoSuchSection";
    case MIMETOOL_NOT_MULTIPART: return "NotMultipart";
    case MIMETOOL_NOT_LEAF: return "NotLeaf";
    case MIMETOOL_NOT_PART: return "NotPart";
    case MIMETOOL_NO_SUCH_FIELD: return "NoSuchField";
    case MIMETOOL_BAD_PLACE: return "BadPlace";
    case MIMETOOL_BAD_FIELD: return "BadField";
    case MIMETOOL_BAD_NAME: return "BadName";
    case MIMETOOL_BAD_BOUNDARY: return "BadBoundary";
    case MIMETOOL_BAD_SUBTYPE: return "BadSubtype";
    case MIMETOOL_OPEN_LINE: return "OpenLine";
    case MIMETOOL_HOLDS_BOUNDARY: return "HoldsBoundary";
    case MIMETOOL_RECUT: return "Recut";
    case MIMETOOL_NOTHING_TO_UNDO: return "NothingToUndo";
    case MIMETOOL_NOTHING_TO_REDO: return "NothingToRedo";
    case MIMETOOL_JOURNAL_SYNTAX: return "JournalSyntax";
    case MIMETOOL_JOURNAL_OTHER: return "JournalOther";
    case MIMETOOL_JOURNAL_MISMATCH: return "JournalMismatch";
    case MIMETOOL_BAD_BASE64: return "BadBase64";
    case MIMETOOL_UNKNOWN_ENCODING: return "UnknownEncoding";
    case MIMETOOL_BAD_TYPE: return "BadType";
    case MIMETOOL_BAD_PART_NAME: return "BadName";
    case MIMETOOL_BAD_CHARSET: return "BadCharset";
    case MIMETOOL_READ: return "Read";
    case MIMETOOL_WRITE: return "Write";
    case MIMETOOL_STOPPED: return "Stopped";
    }
    return "Unknown";
}

void mimetool_free(mimetool_bytes *answer)
{
    if (answer == NULL)
        return;
    free(answer->bytes);
    answer->bytes = NULL;
    answer->size = 0;
}

/* A session whose handle is closed. */
static mimetool_session *new_session(void)
{
    mimetool_session *made = malloc(sizeof *made);

    if (made != NULL)
        *made = (mimetool_session){{NULL, false}, {NULL, 0}, {NULL, 0}};
    return made;
}

/* Hands a session out, or closes it where its handle wasn't opened. */
static mimetool_status opened(mimetool_session *made, uint32_t status, mimetool_session **session)
{
    if (status == MIMETOOL_OK)
        *session = made;
    else
        mimetool_close(made);
    return (mimetool_status)status;
}

mimetool_status mimetool_start(mimetool_session **session, const void *text, size_t size)
{
    place unused;
    mimetool_session *made;

    if (session == NULL)
        return MIMETOOL_NULL;
    *session = NULL;
    if (!are_there(text, size))
        return MIMETOOL_NULL;
    made = new_session();
    if (made == NULL)
        return MIMETOOL_MEMORY;
    return opened(made, mk_c_start(&made->handle, bytes_at(text), size, &unused), session);
}

mimetool_status mimetool_load(mimetool_session **session, const void *text, size_t size, const void *journal,
                              size_t journal_size, mimetool_place *where)
{
    place unused;
    place *told = where != NULL ? where : &unused;
    mimetool_session *made;

    *told = (place){0, 0};
    if (session == NULL)
        return MIMETOOL_NULL;
    *session = NULL;
    if (!are_there(text, size) || !are_there(journal, journal_size))
        return MIMETOOL_NULL;
    made = new_session();
    if (made == NULL)
        return MIMETOOL_MEMORY;
    return opened(made, mk_c_load(&made->handle, bytes_at(text), size, bytes_at(journal), journal_size, told),
                  session);
}

void mimetool_close(mimetool_session *session)
{
    if (session == NULL)
        return;
    mk_c_close(&session->handle);
    free(session->viewed.at);
    free(session->listed.at);
    free(session);
}

mimetool_status mk_c_answered(handle *h, uint32_t status, mimetool_bytes *answer)
{
    place unused;
    size_t size;
    unsigned char *bytes;

    if (status != MIMETOOL_OK)
        return (mimetool_status)status;
    size = mk_c_size(h);
    bytes = malloc(size + 1);
    if (bytes == NULL)
        return MIMETOOL_MEMORY;
    mk_c_copy(h, bytes, size, &unused);
    bytes[size] = 0;
    answer->bytes = bytes;
    answer->size = size;
    return MIMETOOL_OK;
}

bool mk_c_make_room(block *block, size_t size)
{
    void *at;

    if (size <= block->size)
        return true;
    at = realloc(block->at, size);
    if (at == NULL)
        return false;
    block->at = at;
    block->size = size;
    return true;
}

mimetool_status mk_c_viewed(mimetool_session *session, uint32_t status, mimetool_view *view)
{
    place unused;
    size_t size;
    unsigned char *bytes;

    if (status != MIMETOOL_OK)
        return (mimetool_status)status;
    size = mk_c_size(&session->handle);
    if (!mk_c_make_room(&session->viewed, size + 1))
        return MIMETOOL_MEMORY;
    bytes = session->viewed.at;
    mk_c_copy(&session->handle, bytes, size, &unused);
    bytes[size] = 0;
    *view = (mimetool_view){bytes, size};
    return MIMETOOL_OK;
}

bool mk_c_can_answer(mimetool_session *session, mimetool_bytes *answer)
{
    if (answer == NULL)
        return false;
    answer->bytes = NULL;
    answer->size = 0;
    return session != NULL;
}

bool mk_c_can_view(mimetool_session *session, mimetool_view *view)
{
    if (view == NULL)
        return false;
    *view = (mimetool_view){NULL, 0};
    return session != NULL;
}

mimetool_status mimetool_text(mimetool_session *session, mimetool_bytes *text)
{
    place unused;

    if (!mk_c_can_answer(session, text))
        return MIMETOOL_NULL;
    return mk_c_answered(&session->handle, mk_c_text(&session->handle, &unused), text);
}

mimetool_status mimetool_save(mimetool_session *session, mimetool_bytes *journal)
{
    place unused;

    if (!mk_c_can_answer(session, journal))
        return MIMETOOL_NULL;
    return mk_c_answered(&session->handle, mk_c_save(&session->handle, &unused), journal);
}

mimetool_status mimetool_view_text(mimetool_session *session, mimetool_view *text)
{
    place unused;

    if (!mk_c_can_view(session, text))
        return MIMETOOL_NULL;
    return mk_c_viewed(session, mk_c_text(&session->handle, &unused), text);
}

mimetool_status mimetool_view_journal(mimetool_session *session, mimetool_view *journal)
{
    place unused;

    if (!mk_c_can_view(session, journal))
        return MIMETOOL_NULL;
    return mk_c_viewed(session, mk_c_save(&session->handle, &unused), journal);
}

mimetool_status mimetool_undo(mimetool_session *session)
{
    place unused;

    if (session == NULL)
        return MIMETOOL_NULL;
    return (mimetool_status)mk_c_undo(&session->handle, &unused);
}

mimetool_status mimetool_redo(mimetool_session *session)
{
    place unused;

    if (session == NULL)
        return MIMETOOL_NULL;
    return (mimetool_status)mk_c_redo(&session->handle, &unused);
}

mimetool_status mimetool_counts(mimetool_session *session, size_t *done, size_t *undone)
{
    place unused;
    size_t ignored[2] = {0, 0};

    if (session == NULL)
        return MIMETOOL_NULL;
    return (mimetool_status)mk_c_counts(&session->handle, done != NULL ? done : &ignored[0],
                                        undone != NULL ? undone : &ignored[1], &unused);
}
