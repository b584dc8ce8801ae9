/* Mailboxes: read message by message, and filtered. */
#include "mk_c.h"

#include <stdlib.h>

enum { CHUNK_BYTES = 65536 };

struct mimetool_mailbox {
    handle handle;
    mimetool_from_lines from_lines;
    mimetool_read *read;
    void *context;
    bool has_ended;         /* read gives no more bytes */
    bool has_answer;        /* the handle answers the next message */
    mimetool_bytes message; /* that message, once it was copied */
    size_t number;          /* how many messages were given */
    size_t at, filled;      /* the bytes of the chunk that mk_c hasn't read yet */
    uint8_t chunk[CHUNK_BYTES];
};

static bool are_from_lines(mimetool_from_lines from_lines)
{
    return from_lines == MIMETOOL_ANY || from_lines == MIMETOOL_DATED || from_lines == MIMETOOL_FIELDED;
}

mimetool_status mimetool_open_mailbox(mimetool_mailbox **mailbox, mimetool_from_lines from_lines, mimetool_read *read,
                                      void *context)
{
    place unused;
    mimetool_mailbox *made;
    uint32_t status;

    if (mailbox == NULL)
        return MIMETOOL_NULL;
    *mailbox = NULL;
    if (read == NULL || !are_from_lines(from_lines))
        return MIMETOOL_NULL;
    made = malloc(sizeof *made);
    if (made == NULL)
        return MIMETOOL_MEMORY;
    made->handle = (handle){NULL, false};
    made->from_lines = from_lines;
    made->read = read;
    made->context = context;
    made->has_ended = made->has_answer = false;
    made->message = (mimetool_bytes){NULL, 0};
    made->number = made->at = made->filled = 0;
    status = mk_c_mailbox(&made->handle, from_lines, &unused);
    if (status == MIMETOOL_OK)
        *mailbox = made;
    else
        mimetool_close_mailbox(made);
    return (mimetool_status)status;
}

void mimetool_close_mailbox(mimetool_mailbox *mailbox)
{
    if (mailbox == NULL)
        return;
    mk_c_close(&mailbox->handle);
    mimetool_free(&mailbox->message);
    free(mailbox);
}

/* Reads the next chunk. What was in the last one is read. */
static mimetool_status refill(mimetool_mailbox *mailbox)
{
    size_t got = SIZE_MAX;

    if (mailbox->read(mailbox->context, mailbox->chunk, CHUNK_BYTES, &got) != 0 || got > CHUNK_BYTES)
        return MIMETOOL_READ;
    mailbox->at = 0;
    mailbox->filled = got;
    mailbox->has_ended = got == 0;
    return MIMETOOL_OK;
}

/* Lets the handle answer the next message. */
static mimetool_status find_message(mimetool_mailbox *mailbox)
{
    while (!mailbox->has_answer) {
        place unused;
        size_t used = 0;
        uint32_t status = mk_c_next(&mailbox->handle, mailbox->chunk + mailbox->at, mailbox->filled - mailbox->at,
                                    mailbox->has_ended, &used, &unused);

        mailbox->at += used;
        mailbox->has_answer = status == MIMETOOL_OK;
        if (status == MK_C_NEEDS_MORE)
            status = refill(mailbox);
        if (status != MIMETOOL_OK)
            return (mimetool_status)status;
    }
    return MIMETOOL_OK;
}

/* Copies the next message, which stays with the mailbox until it is given. */
static mimetool_status hold_message(mimetool_mailbox *mailbox)
{
    mimetool_status status;

    if (mailbox->message.bytes != NULL)
        return MIMETOOL_OK;
    status = find_message(mailbox);
    if (status != MIMETOOL_OK)
        return status;
    status = mk_c_answered(&mailbox->handle, MIMETOOL_OK, &mailbox->message);
    mailbox->has_answer = status != MIMETOOL_OK;
    return status;
}

mimetool_status mimetool_next_message(mimetool_mailbox *mailbox, mimetool_bytes *message)
{
    mimetool_status status;

    if (message == NULL)
        return MIMETOOL_NULL;
    *message = (mimetool_bytes){NULL, 0};
    if (mailbox == NULL)
        return MIMETOOL_NULL;
    status = hold_message(mailbox);
    if (status != MIMETOOL_OK)
        return status;
    *message = mailbox->message;
    mailbox->message = (mimetool_bytes){NULL, 0};
    mailbox->number++;
    return MIMETOOL_OK;
}

bool mimetool_fits(mimetool_from_lines from_lines, const void *message, size_t size, const void *text,
                   size_t text_size)
{
    return are_there(message, size) && are_there(text, text_size) && are_from_lines(from_lines)
           && mk_c_fits(from_lines, bytes_at(message), size, bytes_at(text), text_size);
}

/* What a filter calls. */
typedef struct callbacks {
    mimetool_visit *visit;
    mimetool_write *write;
    mimetool_refused *refused;
    void *context;
} callbacks;

/* Writes the message that is held as a session has it, or as it came. */
static mimetool_status write_edited(mimetool_mailbox *mailbox, const callbacks *calls, mimetool_session *session)
{
    const mimetool_bytes *message = &mailbox->message;
    mimetool_view text = {message->bytes, message->size};
    mimetool_status status;
    size_t steps;
    bool fits = true;

    status = mimetool_counts(session, &steps, NULL);
    /* Without a step the text is the message. */
    if (status == MIMETOOL_OK && steps > 0)
        status = mimetool_view_text(session, &text);
    if (status != MIMETOOL_OK)
        return status;
    if (steps > 0)
        fits = mimetool_fits(mailbox->from_lines, message->bytes, message->size, text.bytes, text.size);
    if (!fits)
        text = (mimetool_view){message->bytes, message->size};
    if (text.size > 0 && calls->write(calls->context, text.bytes, text.size) != 0)
        return MIMETOOL_WRITE;
    if (!fits && calls->refused != NULL)
        calls->refused(calls->context, mailbox->number + 1, MIMETOOL_RECUT);
    return MIMETOOL_OK;
}

/* Lets the next message be visited and written. It is the next one no longer where that is done. */
static mimetool_status filter_next(mimetool_mailbox *mailbox, const callbacks *calls)
{
    mimetool_session *session;
    mimetool_verdict verdict;
    mimetool_status status = hold_message(mailbox);

    if (status != MIMETOOL_OK)
        return status;
    status = mimetool_start(&session, mailbox->message.bytes, mailbox->message.size);
    if (status != MIMETOOL_OK)
        return status;
    verdict = calls->visit(calls->context, session, mailbox->number + 1);
    if (verdict == MIMETOOL_KEEP)
        status = write_edited(mailbox, calls, session);
    else if (verdict != MIMETOOL_DROP)
        status = MIMETOOL_STOPPED;
    mimetool_close(session);
    if (status == MIMETOOL_OK) {
        mimetool_free(&mailbox->message);
        mailbox->number++;
    }
    return status;
}

mimetool_status mimetool_filter(mimetool_mailbox *mailbox, mimetool_visit *visit, mimetool_write *write,
                                mimetool_refused *refused, void *context)
{
    const callbacks calls = {visit, write, refused, context};
    mimetool_status status;

    if (mailbox == NULL || visit == NULL || write == NULL)
        return MIMETOOL_NULL;
    do
        status = filter_next(mailbox, &calls);
    while (status == MIMETOOL_OK);
    return status == MIMETOOL_NO_MESSAGE ? MIMETOOL_OK : status;
}
