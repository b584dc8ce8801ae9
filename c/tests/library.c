/* A program over libmimetool with some of mimetool's own commands, so that the
   library can be run beside the program: edit, undo and redo with and without a
   journal, sections and extract. `nulls` gives each call a NULL. checks/library
   compiles and runs it.

   library edit [-j JOURNAL] SCRIPT PIECE..
   library undo|redo -j JOURNAL
   library sections
   library extract PATH
   library nulls */
#include "library.h"

#include <stdlib.h>
#include <string.h>

/* The ending that new lines of a session's text get. */
static const char *ending_of(mimetool_session *session)
{
    mimetool_bytes text;
    mimetool_status status;
    const unsigned char *feed;
    bool is_long;

    if (AGAIN(status, mimetool_text(session, &text)) != MIMETOOL_OK)
        give_up("no text");
    feed = memchr(text.bytes, '\n', text.size);
    is_long = feed != NULL && feed > text.bytes && feed[-1] == '\r';
    mimetool_free(&text);
    return is_long ? "\r\n" : "\n";
}

/* Gives an edit its path, and its field the ending of the text. */
static void finish_edit(order *order, const char *ending)
{
    order->edit.path = order->path;
    if (order->edit.kind == MIMETOOL_ADD_FIELD || order->edit.kind == MIMETOOL_SET_FIELD) {
        size_t size = order->field.size;
        char *field = room(size + 2);

        memcpy(field, order->field.at, size);
        strcpy(field + size, ending);
        order->edit.text = field;
        order->edit.text_size = size + strlen(ending);
    }
}

/* Says why a line is refused. */
static void say_refused(const order *order, mimetool_status status, mimetool_place place)
{
    size_t index;

    fprintf(stderr, "line %zu: %s", order->line, mimetool_reason(status));
    if (status == MIMETOOL_HOLDS_BOUNDARY)
        for (index = 0; index < place.number; index++)
            fprintf(stderr, "%c%u", index == 0 ? ' ' : '.', order->path[index]);
    fputc('\n', stderr);
}

/* What was made can be taken back, checked and made again. */
static void make_again(mimetool_session *session, const mimetool_edit *edit)
{
    mimetool_status status;

    if (AGAIN(status, mimetool_undo(session)) != MIMETOOL_OK
        || AGAIN(status, mimetool_check(session, edit, NULL)) != MIMETOOL_OK
        || AGAIN(status, mimetool_redo(session)) != MIMETOOL_OK)
        give_up("an edit that was made isn't accepted again");
}

/* Makes the edits of a group, or one edit. Answers whether they were accepted. */
static bool make(mimetool_session *session, order *orders, size_t count)
{
    const char *ending = ending_of(session);
    mimetool_edit *edits = room(count * sizeof *edits);
    mimetool_place place;
    mimetool_status status;
    size_t index;

    for (index = 0; index < count; index++) {
        finish_edit(&orders[index], ending);
        edits[index] = orders[index].edit;
    }
    AGAIN(status, mimetool_group(session, edits, count, &place));
    if (count == 1 && status == MIMETOOL_OK)
        make_again(session, edits);
    if (status != MIMETOOL_OK)
        say_refused(&orders[place.edit], status, place);
    for (index = 0; index < count; index++)
        if (orders[index].field.at != NULL)
            free((void *)orders[index].edit.text);
    free(edits);
    return status == MIMETOOL_OK;
}

/* Runs a script. Answers whether all of it was accepted. */
static bool run_script(mimetool_session *session, script *script)
{
    bool is_accepted = true;
    size_t index = 0;

    while (index < script->count) {
        order *next = &script->orders[index];
        size_t count = 1;

        if (next->kind == EDIT) {
            is_accepted &= make(session, next, 1);
        } else if (next->kind == BEGIN) {
            while (next[count].kind != END)
                count++;
            is_accepted &= make(session, next + 1, count - 1);
            count++;
        } else {
            mimetool_status status;

            AGAIN(status, next->kind == UNDO ? mimetool_undo(session) : mimetool_redo(session));
            if (status != MIMETOOL_OK) {
                say_refused(next, status, (mimetool_place){0, 0});
                is_accepted = false;
            }
        }
        index += count;
    }
    return is_accepted;
}

/* Opens a session with standard input and the journal, where there is one. */
static mimetool_session *open_session(const char *journal)
{
    bytes message = read_all(stdin);
    bytes kept = journal != NULL ? read_file(journal, true) : (bytes){NULL, 0};
    mimetool_session *session;
    mimetool_place place = {0, 0};
    mimetool_status status;

    if (kept.at != NULL)
        AGAIN(status, mimetool_load(&session, message.at, message.size, kept.at, kept.size, &place));
    else
        AGAIN(status, mimetool_start(&session, message.at, message.size));
    free((void *)message.at);
    free((void *)kept.at);
    if (status == MIMETOOL_OK)
        return session;
    fprintf(stderr, "journal: %s", mimetool_reason(status));
    if (status != MIMETOOL_JOURNAL_OTHER)
        fprintf(stderr, " %zu", place.number);
    fputc('\n', stderr);
    exit(REFUSED);
}

/* Writes the text and the journal of a session, and closes it. */
static void close_session(mimetool_session *session, const char *journal)
{
    mimetool_bytes text, kept;
    mimetool_status status;

    look_at_views(session);
    if (AGAIN(status, mimetool_text(session, &text)) != MIMETOOL_OK
        || AGAIN(status, mimetool_save(session, &kept)) != MIMETOOL_OK)
        give_up("out of memory");
    fwrite(text.bytes, 1, text.size, stdout);
    if (journal != NULL)
        write_file(journal, &kept);
    mimetool_free(&text);
    mimetool_free(&kept);
    mimetool_close(session);
}

static int edit(char **words, int count)
{
    const char *journal = NULL;
    bytes *pieces, text;
    script script;
    mimetool_session *session;
    bool is_accepted;
    int index;

    if (count > 1 && strcmp(words[0], "-j") == 0) {
        journal = words[1];
        words += 2;
        count -= 2;
    }
    if (count < 1)
        give_up("no script");
    text = read_file(words[0], false);
    pieces = room((size_t)count * sizeof *pieces);
    for (index = 1; index < count; index++)
        pieces[index - 1] = read_file(words[index], false);
    script = read_script(text, pieces, (size_t)count - 1);
    session = open_session(journal);
    is_accepted = run_script(session, &script);
    close_session(session, journal);
    for (index = 1; index < count; index++)
        free((void *)pieces[index - 1].at);
    free(pieces);
    free((void *)text.at);
    free(script.orders);
    return is_accepted ? ACCEPTED : REFUSED;
}

static int take_step(bool is_undo, const char *journal)
{
    mimetool_session *session = open_session(journal);
    mimetool_status status;

    AGAIN(status, is_undo ? mimetool_undo(session) : mimetool_redo(session));
    if (status != MIMETOOL_OK)
        fprintf(stderr, "line 1: %s\n", mimetool_reason(status));
    close_session(session, journal);
    return status == MIMETOOL_OK ? ACCEPTED : REFUSED;
}

static int sections(void)
{
    static const char *const kinds[] = {"leaf", "multi", "message"};
    static const char *const encodings[] = {"identity", "quoted-printable", "base64", "other"};
    mimetool_session *session = open_session(NULL);
    mimetool_section *all;
    mimetool_status status;
    size_t count, index, place;

    if (AGAIN(status, mimetool_sections(session, &all, &count)) != MIMETOOL_OK)
        give_up("out of memory");
    mimetool_close(session);
    for (index = 0; index < count; index++) {
        const mimetool_section *one = &all[index];

        for (place = 0; place < one->depth; place++)
            printf("%s%u", place == 0 ? "" : ".", one->path[place]);
        printf(" %s %s %s %zu %zu %zu %zu %zu\n", kinds[one->kind], one->type, encodings[one->encoding], one->start,
               one->body, one->end, one->field_lines, one->body_lines);
    }
    mimetool_free_sections(all);
    return ACCEPTED;
}

static int extract(const char *word)
{
    bytes path = {word, strlen(word)};
    uint32_t numbers[MOST_DEPTH];
    size_t depth;
    mimetool_session *session;
    mimetool_bytes content;
    mimetool_status status;

    if (!read_path(path, numbers, &depth))
        give_up("not a path");
    session = open_session(NULL);
    AGAIN(status, mimetool_extract(session, numbers, depth, &content));
    mimetool_close(session);
    if (status != MIMETOOL_OK) {
        fprintf(stderr, "%s: %s\n", word, mimetool_reason(status));
        return REFUSED;
    }
    fwrite(content.bytes, 1, content.size, stdout);
    mimetool_free(&content);
    return ACCEPTED;
}

#define WANTS(wanted, call) (wrong += (call) != (wanted))
#define NULLED(call) WANTS(MIMETOOL_NULL, call)

static const uint32_t root[] = {1};

/* How many of the calls that show something take a NULL. */
static size_t show_nulls(mimetool_session *session)
{
    mimetool_bytes answer;
    mimetool_section *all;
    size_t count, wrong = 0;

    NULLED(mimetool_text(NULL, &answer));
    NULLED(mimetool_text(session, NULL));
    NULLED(mimetool_save(NULL, &answer));
    NULLED(mimetool_save(session, NULL));
    NULLED(mimetool_undo(NULL));
    NULLED(mimetool_redo(NULL));
    NULLED(mimetool_counts(NULL, &count, NULL));
    WANTS(MIMETOOL_OK, mimetool_counts(session, NULL, NULL));
    NULLED(mimetool_sections(NULL, &all, &count));
    NULLED(mimetool_sections(session, NULL, &count));
    NULLED(mimetool_sections(session, &all, NULL));
    NULLED(mimetool_extract(NULL, root, 1, &answer));
    NULLED(mimetool_extract(session, NULL, 1, &answer));
    NULLED(mimetool_extract(session, root, 1, NULL));
    WANTS(MIMETOOL_NO_SUCH_SECTION, mimetool_extract(session, NULL, 0, &answer));
    NULLED(mimetool_name(NULL, root, 1, &answer));
    NULLED(mimetool_name(session, NULL, 1, &answer));
    WANTS(MIMETOOL_NO_NAME, mimetool_name(session, root, 1, &answer));
    return wrong;
}

/* How many of the edits take a NULL, or leave the place of it as it was. */
static size_t edit_nulls(mimetool_session *session)
{
    mimetool_edit edit = {.kind = MIMETOOL_SET_BODY, .path = NULL, .depth = 1};
    mimetool_place place = {7, 7};
    size_t wrong = 0;

    NULLED(mimetool_rename_field(session, root, 1, "A", 1, NULL, &place));
    wrong += place.edit != 0 || place.number != 0;
    NULLED(mimetool_group(NULL, NULL, 0, NULL));
    NULLED(mimetool_group(session, NULL, 1, NULL));
    NULLED(mimetool_group(session, &edit, 1, &place));
    NULLED(mimetool_check(NULL, &edit, &place));
    NULLED(mimetool_check(session, NULL, &place));
    NULLED(mimetool_check(session, &edit, NULL));
    NULLED(mimetool_add_field(session, root, 1, false, NULL, 1, NULL));
    NULLED(mimetool_remove_field(session, root, 1, NULL, 1, NULL));
    NULLED(mimetool_rename_field(session, root, 1, NULL, 1, "A", NULL));
    NULLED(mimetool_rename_field(session, root, 1, "A", 1, NULL, NULL));
    NULLED(mimetool_set_field(session, root, 1, NULL, 1, "", 0, NULL));
    NULLED(mimetool_set_field(session, root, 1, "A", 1, NULL, 1, NULL));
    NULLED(mimetool_set_body(session, NULL, 1, "", 0, NULL));
    NULLED(mimetool_set_section(NULL, root, 1, "", 0, NULL));
    NULLED(mimetool_insert_part(session, root, 1, 0, NULL, 1, NULL));
    NULLED(mimetool_remove_part(session, NULL, 1, NULL));
    NULLED(mimetool_wrap(session, root, 1, NULL, "b", NULL));
    NULLED(mimetool_wrap(session, root, 1, "mixed", NULL, NULL));
    edit = (mimetool_edit){.kind = (mimetool_edit_kind)99, .path = root, .depth = 1};
    NULLED(mimetool_group(session, &edit, 1, &place));
    return wrong;
}

/* Each call with a NULL in each place has to say so, and the session stays as it was. */
static int give_nulls(void)
{
    mimetool_session *session = NULL, *other = NULL;
    mimetool_place place;
    size_t wrong = 0;

    NULLED(mimetool_start(NULL, "", 0));
    NULLED(mimetool_start(&session, NULL, 1));
    WANTS(MIMETOOL_OK, mimetool_start(&session, NULL, 0));
    NULLED(mimetool_load(NULL, "", 0, "", 0, &place));
    NULLED(mimetool_load(&other, NULL, 1, "", 0, NULL));
    NULLED(mimetool_load(&other, "", 0, NULL, 1, &place));
    WANTS(MIMETOOL_JOURNAL_SYNTAX, mimetool_load(&other, NULL, 0, NULL, 0, NULL));
    wrong += other != NULL;
    wrong += show_nulls(session) + edit_nulls(session);
    WANTS(MIMETOOL_NOTHING_TO_UNDO, mimetool_undo(session));
    mimetool_free(NULL);
    mimetool_free_sections(NULL);
    mimetool_close(NULL);
    mimetool_close(session);
    printf("%zu wrong\n", wrong);
    return wrong ? REFUSED : ACCEPTED;
}

/* Runs the command that the words name. */
int main(int count, char **words)
{
    const char *command = count > 1 ? words[1] : "";
    /* -s means here what it means to the program: nothing but the answer is written. */
    int first = count > 2 && strcmp(words[2], "-s") == 0 ? 3 : 2;

    if (strcmp(command, "edit") == 0)
        return edit(words + 2, count - 2);
    if ((strcmp(command, "undo") == 0 || strcmp(command, "redo") == 0) && count == 4)
        return take_step(command[0] == 'u', words[3]);
    if (strcmp(command, "sections") == 0)
        return sections();
    if (strcmp(command, "extract") == 0 && count == first + 1)
        return extract(words[first]);
    if (strcmp(command, "nulls") == 0)
        return give_nulls();
    give_up("usage: library edit|undo|redo|sections|extract|nulls ..");
    return GIVEN_UP;
}
