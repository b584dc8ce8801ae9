/* A program over the calls of libmimetool that take callbacks, and over those that
   build messages. checks/library compiles and runs it.

   callbacks messages KIND MOST FAIL        the messages of standard input, each after its size
   callbacks filter KIND MOST FAIL RULES    standard input filtered
   callbacks fits KIND MESSAGE TEXT         whether a text fits the place of a message
   callbacks linear                         whether time is linear in a mailbox of one-byte reads
   callbacks build WORD..                   a message of files; see building.c
   callbacks nulls

   KIND is a number of mimetool_from_lines. A read gives at most MOST bytes. The first
   of each FAIL calls of read and write fails, none where it is 0, and the call that
   it was for is made again. A line of RULES is a number of a message and what is done
   with it: drop, stop, odd (a number that is no verdict), field FILE or section FILE;
   an edit that is refused changes nothing. */
#include "callbacks.h"

#include <stdlib.h>
#include <string.h>
#include <time.h>

/* What the callbacks share. */
typedef struct device {
    size_t most, fail, calls;
    const char *rules;
    const char *at; /* what is read next, where standard input isn't read */
    size_t left;
    size_t told; /* the last message that was refused */
} device;

/* Whether a call is to fail. */
static bool fails(device *device)
{
    device->calls++;
    return device->fail != 0 && device->calls % device->fail == 1;
}

static int read_some(void *context, void *buffer, size_t size, size_t *got)
{
    device *device = context;
    size_t most = device->most < size ? device->most : size;

    if (fails(device)) {
        /* What a failed read says isn't looked at. */
        memset(buffer, 'x', most);
        *got = most;
        return 1;
    }
    if (device->at == NULL) {
        *got = fread(buffer, 1, most, stdin);
        return 0;
    }
    *got = most < device->left ? most : device->left;
    memcpy(buffer, device->at, *got);
    device->at += *got;
    device->left -= *got;
    return 0;
}

static int write_all(void *context, const void *bytes, size_t size)
{
    if (fails(context))
        return 1;
    return fwrite(bytes, 1, size, stdout) != size;
}

/* Whether a call is made again: nothing is lost. */
static bool is_again(mimetool_status status)
{
    return status == MIMETOOL_MEMORY || status == MIMETOOL_READ || status == MIMETOOL_WRITE;
}

static mimetool_mailbox *open_mailbox(unsigned kind, device *device)
{
    mimetool_mailbox *mailbox;
    mimetool_status status;

    if (AGAIN(status, mimetool_open_mailbox(&mailbox, (mimetool_from_lines)kind, read_some, device)) != MIMETOOL_OK)
        give_up("no mailbox");
    return mailbox;
}

static int messages(unsigned kind, device *device)
{
    mimetool_mailbox *mailbox = open_mailbox(kind, device);
    mimetool_bytes message;
    mimetool_status status;
    size_t calls;

    for (;;) {
        do
            status = mimetool_next_message(mailbox, &message);
        while (is_again(status));
        if (status != MIMETOOL_OK)
            break;
        if (message.bytes[message.size] != 0)
            give_up("no 0 after a message");
        printf("%zu\n", message.size);
        fwrite(message.bytes, 1, message.size, stdout);
        mimetool_free(&message);
    }
    calls = device->calls;
    if (status != MIMETOOL_NO_MESSAGE || mimetool_next_message(mailbox, &message) != MIMETOOL_NO_MESSAGE)
        give_up("no end");
    if (device->calls != calls)
        give_up("read after the end");
    mimetool_close_mailbox(mailbox);
    return ACCEPTED;
}

/* Does what a rule says. Answers what becomes of the message. */
static mimetool_verdict obey(mimetool_session *session, const char *rule)
{
    static const uint32_t root[] = {1};
    char word[16], name[16];
    bytes text;
    mimetool_status status;

    if (sscanf(rule, " %15[a-z]%*1[ ]%15[^\n]", word, name) < 2) {
        if (strcmp(word, "drop") == 0)
            return MIMETOOL_DROP;
        return strcmp(word, "stop") == 0 ? MIMETOOL_STOP : (mimetool_verdict)99;
    }
    text = read_file(name, false);
    if (strcmp(word, "field") == 0)
        AGAIN(status, mimetool_add_field(session, root, 1, false, text.at, text.size, NULL));
    else
        AGAIN(status, mimetool_set_section(session, root, 1, text.at, text.size, NULL));
    free((void *)text.at);
    if (status == MIMETOOL_MEMORY)
        give_up("out of memory");
    return MIMETOOL_KEEP;
}

static mimetool_verdict visit(void *context, mimetool_session *session, size_t number)
{
    const device *device = context;
    const char *line = device->rules;
    mimetool_verdict verdict = MIMETOOL_KEEP;

    while (line != NULL && *line != 0) {
        char *rule;

        if (strtoul(line, &rule, 10) == number)
            verdict = obey(session, rule);
        line = strchr(line, '\n');
        if (line != NULL)
            line++;
    }
    return verdict;
}

static void tell(void *context, size_t number, mimetool_status status)
{
    device *device = context;

    if (number <= device->told)
        give_up("told twice");
    device->told = number;
    fprintf(stderr, "message %zu: %s\n", number, mimetool_reason(status));
}

static int filter(unsigned kind, device *device, const char *rules)
{
    bytes text = read_file(rules, false);
    mimetool_mailbox *mailbox = open_mailbox(kind, device);
    mimetool_bytes next;
    mimetool_status status;

    ((char *)text.at)[text.size] = 0;
    device->rules = text.at;
    do
        status = mimetool_filter(mailbox, visit, write_all, tell, device);
    while (is_again(status));
    if (status != MIMETOOL_OK) {
        fprintf(stderr, "%s\n", mimetool_reason(status));
        /* The message at which it ended is the next one. */
        do
            status = mimetool_next_message(mailbox, &next);
        while (is_again(status));
        fprintf(stderr, "%zu bytes are next\n", next.size);
        mimetool_free(&next);
    }
    mimetool_close_mailbox(mailbox);
    free((void *)text.at);
    return ACCEPTED;
}

static int fits(unsigned kind, const char *message, const char *text)
{
    bytes old = read_file(message, false), new = read_file(text, false);

    puts(mimetool_fits((mimetool_from_lines)kind, old.at, old.size, new.at, new.size) ? "yes" : "no");
    free((void *)old.at);
    free((void *)new.at);
    return ACCEPTED;
}

/* The processor time that a message of so many bytes takes, in ticks. */
static clock_t time_of(size_t size)
{
    char *text = room(size);
    device device = {.most = 1, .at = text, .left = size};
    mimetool_mailbox *mailbox;
    mimetool_bytes message;
    clock_t start;
    size_t index;

    for (index = 0; index < size; index++)
        text[index] = index % 60 == 59 ? '\n' : 'x';
    start = clock();
    mailbox = open_mailbox(MIMETOOL_ANY, &device);
    if (mimetool_next_message(mailbox, &message) != MIMETOOL_OK || message.size != size)
        give_up("not the message");
    start = clock() - start;
    mimetool_free(&message);
    mimetool_close_mailbox(mailbox);
    free(text);
    return start;
}

/* Four times the bytes take four times as long; were each read as long as what came
   before it, it would be sixteen times. */
static int measure(void)
{
    clock_t small = time_of(1 << 20), large = time_of(1 << 22);

    if (large > 9 * small) {
        fprintf(stderr, "%ld ticks, and %ld for four times the bytes\n", (long)small, (long)large);
        return REFUSED;
    }
    return ACCEPTED;
}

int main(int count, char **words)
{
    const char *command = count > 1 ? words[1] : "";
    unsigned kind = count > 2 ? (unsigned)atoi(words[2]) : 0;
    device device = {.most = 0};

    if (count > 4) {
        device.most = strtoul(words[3], NULL, 10);
        device.fail = strtoul(words[4], NULL, 10);
    }
    if (strcmp(command, "messages") == 0 && count == 5)
        return messages(kind, &device);
    if (strcmp(command, "filter") == 0 && count == 6)
        return filter(kind, &device, words[5]);
    if (strcmp(command, "fits") == 0 && count == 5)
        return fits(kind, words[3], words[4]);
    if (strcmp(command, "linear") == 0)
        return measure();
    if (strcmp(command, "build") == 0)
        return build_words(words + 2, count - 2);
    if (strcmp(command, "nulls") == 0)
        return give_nulls();
    give_up("usage: callbacks messages|filter|fits|linear|build|nulls ..");
    return GIVEN_UP;
}
