/* Tags the messages of a mailbox, and forwards a message.

   tag mark TAG < MAILBOX > TAGGED   adds a field X-Tag to each message, and leaves
                                     out those that have a field X-Spam
   tag forward TO < MESSAGE > NEW    makes a message to TO with the other attached

   cc -Iinclude examples/tag.c -lmimetool -o tag */
#include "mimetool.h"

#include <stdio.h>
#include <stdlib.h>
#include <string.h>

static const uint32_t root[] = {1};

/* A mimetool_read of a file. */
static int read_file(void *file, void *buffer, size_t size, size_t *got)
{
    *got = fread(buffer, 1, size, file);
    return ferror(file);
}

/* A mimetool_write, to standard output. */
static int write_output(void *field, const void *bytes, size_t size)
{
    (void)field;
    return fwrite(bytes, 1, size, stdout) != size;
}

/* A mimetool_visit: what the program does with a message. */
static mimetool_verdict tag(void *field, mimetool_session *session, size_t number)
{
    mimetool_status status;

    if (mimetool_remove_field(session, root, 1, "X-Spam", 1, NULL) == MIMETOOL_OK)
        return MIMETOOL_DROP;
    status = mimetool_add_field(session, root, 1, false, field, strlen(field), NULL);
    if (status != MIMETOOL_OK)
        fprintf(stderr, "message %zu isn't tagged: %s\n", number, mimetool_reason(status));
    return status == MIMETOOL_MEMORY ? MIMETOOL_STOP : MIMETOOL_KEEP;
}

static mimetool_status mark(const char *name)
{
    char field[200];
    mimetool_mailbox *mailbox;
    mimetool_status status;

    snprintf(field, sizeof field, "X-Tag: %.150s\n", name);
    status = mimetool_open_mailbox(&mailbox, MIMETOOL_ANY, read_file, stdin);
    if (status == MIMETOOL_OK)
        status = mimetool_filter(mailbox, tag, write_output, NULL, field);
    mimetool_close_mailbox(mailbox);
    return status;
}

/* Makes a message to someone, with a note and the original attached. */
static mimetool_status forward(mimetool_bytes original, const char *to, mimetool_bytes *message)
{
    static const char subject[] = "Subject: a message for you\n";
    static const char note[] = "See the attached message.\n";
    char address[200];
    int size = snprintf(address, sizeof address, "To: %.150s\n", to);
    mimetool_field fields[] = {{address, (size_t)size}, {subject, strlen(subject)}};
    mimetool_part part = {.type = "text/plain", .content = note, .size = strlen(note)};
    mimetool_forward whole = {.text = original.bytes, .size = original.size};
    mimetool_draft draft = {
        .fields = fields, .field_count = 2, .parts = &part, .part_count = 1, .messages = &whole, .message_count = 1,
        .charset = "us-ascii", .boundary = "=_4f1c0a7d2e"};

    return mimetool_build(&draft, message, NULL);
}

/* Writes standard input, which is one message, as an attachment. */
static mimetool_status forward_input(const char *to)
{
    mimetool_mailbox *mailbox;
    mimetool_bytes original = {NULL, 0}, message;
    mimetool_status status = mimetool_open_mailbox(&mailbox, MIMETOOL_DATED, read_file, stdin);

    if (status == MIMETOOL_OK)
        status = mimetool_next_message(mailbox, &original);
    mimetool_close_mailbox(mailbox);
    if (status == MIMETOOL_OK)
        status = forward(original, to, &message);
    mimetool_free(&original);
    if (status != MIMETOOL_OK)
        return status;
    fwrite(message.bytes, 1, message.size, stdout);
    mimetool_free(&message);
    return MIMETOOL_OK;
}

int main(int count, char **words)
{
    mimetool_status status;

    if (count != 3)
        return 2;
    status = strcmp(words[1], "mark") == 0 ? mark(words[2]) : forward_input(words[2]);
    if (status == MIMETOOL_OK && fflush(stdout) != 0)
        status = MIMETOOL_WRITE;
    if (status != MIMETOOL_OK)
        fprintf(stderr, "tag: %s\n", mimetool_reason(status));
    return status == MIMETOOL_OK ? 0 : 1;
}
