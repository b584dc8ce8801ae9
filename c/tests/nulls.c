/* A NULL in each place of each call with callbacks, and of each view and draft. */
#include "callbacks.h"

#include <string.h>

#define WANTS(wanted, call) (wrong += (call) != (wanted))
#define NULLED(call) WANTS(MIMETOOL_NULL, call)

static const uint32_t root[] = {1};

/* Ends the mailbox at once. */
static int read_none(void *context, void *buffer, size_t size, size_t *got)
{
    (void)context;
    memset(buffer, 0, size > 0);
    *got = 0;
    return 0;
}

/* Doesn't say how much it read. */
static int read_silently(void *context, void *buffer, size_t size, size_t *got)
{
    (void)context, (void)buffer, (void)size, (void)got;
    return 0;
}

/* Says more than there is room for. */
static int read_too_much(void *context, void *buffer, size_t size, size_t *got)
{
    (void)context, (void)buffer;
    *got = size + 1;
    return 0;
}

static mimetool_verdict keep(void *context, mimetool_session *session, size_t number)
{
    (void)context, (void)session, (void)number;
    return MIMETOOL_KEEP;
}

static int write_none(void *context, const void *bytes, size_t size)
{
    (void)context, (void)bytes, (void)size;
    return 0;
}

static size_t mailbox_nulls(void)
{
    mimetool_mailbox *mailbox = NULL;
    mimetool_bytes message = {NULL, 7};
    size_t wrong = 0;

    NULLED(mimetool_open_mailbox(NULL, MIMETOOL_ANY, read_none, NULL));
    NULLED(mimetool_open_mailbox(&mailbox, MIMETOOL_ANY, NULL, NULL));
    NULLED(mimetool_open_mailbox(&mailbox, (mimetool_from_lines)3, read_none, NULL));
    wrong += mailbox != NULL;
    WANTS(MIMETOOL_OK, mimetool_open_mailbox(&mailbox, MIMETOOL_FIELDED, read_none, NULL));
    NULLED(mimetool_next_message(NULL, &message));
    NULLED(mimetool_next_message(mailbox, NULL));
    NULLED(mimetool_filter(NULL, keep, write_none, NULL, NULL));
    NULLED(mimetool_filter(mailbox, NULL, write_none, NULL, NULL));
    NULLED(mimetool_filter(mailbox, keep, NULL, NULL, NULL));
    WANTS(MIMETOOL_NO_MESSAGE, mimetool_next_message(mailbox, &message));
    wrong += message.bytes != NULL || message.size != 0;
    WANTS(MIMETOOL_OK, mimetool_filter(mailbox, keep, write_none, NULL, NULL));
    mimetool_close_mailbox(mailbox);
    mimetool_close_mailbox(NULL);
    return wrong;
}

/* A read that can't be right has failed. */
static size_t false_reads(void)
{
    mimetool_mailbox *mailbox = NULL;
    mimetool_bytes message;
    size_t wrong = 0;

    WANTS(MIMETOOL_OK, mimetool_open_mailbox(&mailbox, MIMETOOL_ANY, read_silently, NULL));
    WANTS(MIMETOOL_READ, mimetool_next_message(mailbox, &message));
    mimetool_close_mailbox(mailbox);
    WANTS(MIMETOOL_OK, mimetool_open_mailbox(&mailbox, MIMETOOL_ANY, read_too_much, NULL));
    WANTS(MIMETOOL_READ, mimetool_next_message(mailbox, &message));
    WANTS(MIMETOOL_READ, mimetool_filter(mailbox, keep, write_none, NULL, NULL));
    mimetool_close_mailbox(mailbox);
    return wrong;
}

static size_t fit_nulls(void)
{
    size_t wrong = 0;

    WANTS(false, mimetool_fits(MIMETOOL_ANY, NULL, 1, "", 0));
    WANTS(false, mimetool_fits(MIMETOOL_ANY, "", 0, NULL, 1));
    WANTS(false, mimetool_fits((mimetool_from_lines)3, "x\n", 2, "y\n", 2));
    WANTS(true, mimetool_fits(MIMETOOL_ANY, "x\n", 2, "y\n", 2));
    WANTS(true, mimetool_fits(MIMETOOL_ANY, "x\n", 2, NULL, 0));
    return wrong;
}

static size_t view_nulls(void)
{
    mimetool_session *session = NULL;
    const mimetool_section *sections;
    mimetool_view view = {(const unsigned char *)"x", 1};
    size_t count = 7, wrong = 0;

    WANTS(MIMETOOL_OK, mimetool_start(&session, NULL, 0));
    NULLED(mimetool_view_text(NULL, &view));
    wrong += view.bytes != NULL || view.size != 0;
    NULLED(mimetool_view_text(session, NULL));
    NULLED(mimetool_view_journal(NULL, &view));
    NULLED(mimetool_view_journal(session, NULL));
    NULLED(mimetool_view_sections(NULL, &sections, &count));
    wrong += sections != NULL || count != 0;
    NULLED(mimetool_view_sections(session, NULL, &count));
    NULLED(mimetool_view_sections(session, &sections, NULL));
    NULLED(mimetool_view_content(NULL, root, 1, &view));
    NULLED(mimetool_view_content(session, NULL, 1, &view));
    NULLED(mimetool_view_content(session, root, 1, NULL));
    NULLED(mimetool_view_name(NULL, root, 1, &view));
    NULLED(mimetool_view_name(session, NULL, 1, &view));
    WANTS(MIMETOOL_NO_NAME, mimetool_view_name(session, root, 1, &view));
    wrong += view.bytes != NULL;
    mimetool_close(session);
    return wrong;
}

static size_t draft_nulls(void)
{
    mimetool_field fields[2] = {{"A: b", 4}, {NULL, 1}};
    mimetool_part parts[2] = {{"text/plain", NULL, NULL, 0, false}, {NULL, NULL, "", 0, false}};
    mimetool_forward messages[2] = {{"A: b\n\n", 6, false}, {NULL, 1, false}};
    mimetool_draft draft = {.boundary = NULL};
    mimetool_bytes message = {NULL, 7};
    mimetool_place place = {7, 7};
    size_t wrong = 0;

    NULLED(mimetool_build(NULL, &message, &place));
    NULLED(mimetool_build(&draft, &message, &place));
    wrong += message.size != 0 || place.edit != 0 || place.number != 0;
    draft.boundary = "b";
    NULLED(mimetool_build(&draft, NULL, &place));
    draft.field_count = draft.part_count = draft.message_count = 1;
    NULLED(mimetool_build(&draft, &message, NULL));
    draft.fields = fields, draft.parts = parts;
    NULLED(mimetool_build(&draft, &message, NULL));
    draft.messages = messages;
    WANTS(MIMETOOL_OK, mimetool_build(&draft, &message, NULL));
    mimetool_free(&message);
    draft.message_count = 2;
    WANTS(MIMETOOL_NULL, mimetool_build(&draft, &message, &place));
    wrong += place.edit != 1;
    draft.part_count = 2;
    NULLED(mimetool_build(&draft, &message, &place));
    parts[1].type = "text/plain", parts[1].content = NULL, parts[1].size = 1;
    NULLED(mimetool_build(&draft, &message, &place));
    draft.field_count = 2;
    NULLED(mimetool_build(&draft, &message, &place));
    wrong += message.bytes != NULL;
    return wrong;
}

int give_nulls(void)
{
    size_t wrong = mailbox_nulls() + false_reads() + fit_nulls() + view_nulls() + draft_nulls();

    printf("%zu wrong\n", wrong);
    return wrong ? REFUSED : ACCEPTED;
}
