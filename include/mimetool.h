/* mimetool as a library: Internet messages (RFC 5322) with MIME (RFC 2045 to
   2047), edited so that what an edit doesn't name stays as it is, byte for byte.

   How it is used. A session is opened with a message and holds a copy of it.
   Edits change the message; each accepted edit, or group of edits, is a step
   that can be undone and made again. What a call answers as bytes is allocated
   and belongs to the caller, who frees it with mimetool_free.

   A mailbox is read message by message, or filtered, through callbacks. A message
   is built of fields, parts and messages.

   Errors. Each call answers a status, MIMETOOL_OK or why it did nothing. A call
   that is refused changes nothing, and one that ran out of memory may be made
   again. A NULL where something is needed is MIMETOOL_NULL. No call aborts.

   Paths. A section is named by its path: numbers counted from 1, of which the
   first is 1, the message itself. 1.2 is its second part.

   Threads. A session may be used by one thread at a time, which may be another
   one each time, and so may a mailbox. They share nothing. No call may come from a
   signal handler, or from the child that a process with threads has forked. */

#ifndef MIMETOOL_H
#define MIMETOOL_H

#include <stdbool.h>
#include <stddef.h>
#include <stdint.h>

#define MIMETOOL_VERSION "1.1.0"

#ifdef __cplusplus
extern "C" {
#endif

typedef enum mimetool_status {
    MIMETOOL_OK = 0,
    MIMETOOL_MEMORY = 2,            /* memory ran out; nothing has changed */
    MIMETOOL_NO_NAME = 5,           /* the section's fields say no name */
    MIMETOOL_NULL = 6,              /* a NULL was given where something is needed, or an
                                       edit or From-lines of no kind */
    MIMETOOL_NO_MESSAGE = 7,        /* the mailbox has no more messages */
    MIMETOOL_NO_SUCH_SECTION = 10,  /* there is no section at the path */
    MIMETOOL_NOT_MULTIPART = 11,    /* a part is to be put into what is no multipart */
    MIMETOOL_NOT_LEAF = 12,         /* the section whose body is to be set is no leaf */
    MIMETOOL_NOT_PART = 13,         /* the section to be removed is no part */
    MIMETOOL_NO_SUCH_FIELD = 14,    /* there is no k-th field of the name */
    MIMETOOL_BAD_PLACE = 15,        /* there are fewer parts than are to come first */
    MIMETOOL_BAD_FIELD = 16,        /* the text isn't exactly one field */
    MIMETOOL_BAD_NAME = 17,         /* not the name of a field (RFC 5322, 2.2) */
    MIMETOOL_BAD_BOUNDARY = 18,     /* not a boundary (RFC 2046, 5.1.1) */
    MIMETOOL_BAD_SUBTYPE = 19,      /* not a subtype (RFC 2045, 5.1) */
    MIMETOOL_OPEN_LINE = 20,        /* a line without an ending would come before another */
    MIMETOOL_HOLDS_BOUNDARY = 21,   /* a line would be a delimiter of an enclosing multipart;
                                       the place's number says how long its path is */
    MIMETOOL_RECUT = 22,            /* the message would be read in another way */
    MIMETOOL_NOTHING_TO_UNDO = 23,
    MIMETOOL_NOTHING_TO_REDO = 24,
    MIMETOOL_JOURNAL_SYNTAX = 30,   /* the journal is invalid; the place's number is the
                                       offset in bytes */
    MIMETOOL_JOURNAL_OTHER = 31,    /* the journal belongs to another text */
    MIMETOOL_JOURNAL_MISMATCH = 32, /* a step doesn't fit the text; the place's number
                                       says which, counted from 1 */
    MIMETOOL_BAD_BASE64 = 40,       /* the content isn't valid base64 */
    MIMETOOL_UNKNOWN_ENCODING = 41, /* the transfer encoding is unknown */
    MIMETOOL_BAD_TYPE = 50,         /* not the media type of a part */
    MIMETOOL_BAD_PART_NAME = 51,    /* not a name that a part can have */
    MIMETOOL_BAD_CHARSET = 52,      /* not a charset (RFC 2045, 5.1) */
    MIMETOOL_READ = 60,             /* a read callback failed */
    MIMETOOL_WRITE = 61,            /* a write callback failed */
    MIMETOOL_STOPPED = 62           /* a visit callback ended the filtering */
} mimetool_status;

/* A message under edit. */
typedef struct mimetool_session mimetool_session;

/* Bytes that a call answers. They are followed by a 0 that size doesn't count. */
typedef struct mimetool_bytes {
    unsigned char *bytes;
    size_t size;
} mimetool_bytes;

/* Bytes that belong to a session. A 0 follows them, too. */
typedef struct mimetool_view {
    const unsigned char *bytes;
    size_t size;
} mimetool_view;

/* Where a call was refused: which edit of a group, or which field, part or message
   of a draft, counted from 0, and what the status says of number. Both are 0 where
   there is nothing to say. */
typedef struct mimetool_place {
    size_t edit;
    size_t number;
} mimetool_place;

/* The name of a status as the pages write it, such as "HoldsBoundary"; "Ok" for
   MIMETOOL_OK, and "Unknown" for a number that is no status. It is never freed. */
const char *mimetool_reason(mimetool_status status);

/* MIMETOOL_VERSION as it was when the library was built. */
const char *mimetool_version(void);

/* Frees the bytes of an answer, and leaves none there. NULL is fine. */
void mimetool_free(mimetool_bytes *answer);

/* ---- Sessions */

/* Opens a session with a message, any bytes. After an error *session is NULL. */
mimetool_status mimetool_start(mimetool_session **session, const void *text, size_t size);

/* Opens a session with a message and the journal that mimetool_save gave of it.
   place may be NULL. */
mimetool_status mimetool_load(mimetool_session **session, const void *text, size_t size,
                              const void *journal, size_t journal_size, mimetool_place *place);

/* Closes a session and frees all it has. NULL is fine. */
void mimetool_close(mimetool_session *session);

/* The message as it stands. */
mimetool_status mimetool_text(mimetool_session *session, mimetool_bytes *text);

/* The journal: all steps, and a digest of the message as it stands. */
mimetool_status mimetool_save(mimetool_session *session, mimetool_bytes *journal);

/* Takes the last step back, or makes the one that was taken back last again. */
mimetool_status mimetool_undo(mimetool_session *session);
mimetool_status mimetool_redo(mimetool_session *session);

/* How many steps are done, and how many are undone. Either may be NULL. */
mimetool_status mimetool_counts(mimetool_session *session, size_t *done, size_t *undone);

/* ---- Sections */

typedef enum mimetool_kind { MIMETOOL_LEAF, MIMETOOL_MULTIPART, MIMETOOL_MESSAGE } mimetool_kind;

typedef enum mimetool_encoding {
    MIMETOOL_IDENTITY,         /* 7bit, 8bit, binary or none */
    MIMETOOL_QUOTED_PRINTABLE,
    MIMETOOL_BASE64,
    MIMETOOL_OTHER             /* one that can't be decoded */
} mimetool_encoding;

typedef struct mimetool_section {
    const uint32_t *path; /* depth numbers */
    size_t depth;
    mimetool_kind kind;
    mimetool_encoding encoding;
    const char *type;   /* as "text/plain" */
    size_t start;       /* offsets in bytes: of its first field, */
    size_t body;        /* of its body, */
    size_t end;         /* and of what follows it */
    size_t field_lines; /* how many lines its fields have, */
    size_t body_lines;  /* and its body */
} mimetool_section;

/* All sections of the message, each before those below it. They stay valid when
   the session changes, and are freed with mimetool_free_sections. */
mimetool_status mimetool_sections(mimetool_session *session, mimetool_section **sections,
                                  size_t *count);

/* Frees what mimetool_sections gave. NULL is fine. */
void mimetool_free_sections(mimetool_section *sections);

/* The content of a section: that of a leaf decoded (RFC 2045, 6), that of another
   as it stands. */
mimetool_status mimetool_extract(mimetool_session *session, const uint32_t *path, size_t depth,
                                 mimetool_bytes *content);

/* The name that a section's fields say, in UTF-8 (RFC 2183, 2.3; RFC 2231). It
   may hold any characters: don't open it as a file without a look at it. */
mimetool_status mimetool_name(mimetool_session *session, const uint32_t *path, size_t depth,
                              mimetool_bytes *name);

/* ---- Edits */

typedef enum mimetool_edit_kind {
    MIMETOOL_ADD_FIELD,    /* text: one field with its line endings; top */
    MIMETOOL_REMOVE_FIELD, /* name, number */
    MIMETOOL_RENAME_FIELD, /* name, number; text: the new name */
    MIMETOOL_SET_FIELD,    /* name, number; text: one field with its line endings */
    MIMETOOL_SET_BODY,     /* text: the body of a leaf */
    MIMETOOL_SET_SECTION,  /* text: an entity, fields and body */
    MIMETOOL_INSERT_PART,  /* number: how many parts come first; text: an entity */
    MIMETOOL_REMOVE_PART,
    MIMETOOL_WRAP          /* name: the subtype; text: the boundary */
} mimetool_edit_kind;

/* An edit of the section at a path. What its kind doesn't name is not looked at.
   Fields are named by their name, without regard to case, and by their number
   among those of the name, counted from 1. */
typedef struct mimetool_edit {
    mimetool_edit_kind kind;
    const uint32_t *path;
    size_t depth;
    const void *name;
    size_t name_size;
    uint32_t number;
    bool top; /* the new field goes before the others, not after them */
    const void *text;
    size_t text_size;
} mimetool_edit;

/* Makes edits one after another as one step, all or none. Where one is refused,
   place->edit says which; place may be NULL. No edits are a step, too. */
mimetool_status mimetool_group(mimetool_session *session, const mimetool_edit *edits, size_t count,
                               mimetool_place *place);

/* What mimetool_group would answer to this one edit. Nothing changes. */
mimetool_status mimetool_check(mimetool_session *session, const mimetool_edit *edit,
                               mimetool_place *place);

/* The nine edits, each a step of its own; place may be NULL. */
mimetool_status mimetool_add_field(mimetool_session *session, const uint32_t *path, size_t depth,
                                   bool top, const void *field, size_t size,
                                   mimetool_place *place);
mimetool_status mimetool_remove_field(mimetool_session *session, const uint32_t *path,
                                      size_t depth, const char *name, uint32_t number,
                                      mimetool_place *place);
mimetool_status mimetool_rename_field(mimetool_session *session, const uint32_t *path,
                                      size_t depth, const char *name, uint32_t number,
                                      const char *to, mimetool_place *place);
mimetool_status mimetool_set_field(mimetool_session *session, const uint32_t *path, size_t depth,
                                   const char *name, uint32_t number, const void *field,
                                   size_t size, mimetool_place *place);
mimetool_status mimetool_set_body(mimetool_session *session, const uint32_t *path, size_t depth,
                                  const void *body, size_t size, mimetool_place *place);
mimetool_status mimetool_set_section(mimetool_session *session, const uint32_t *path, size_t depth,
                                     const void *entity, size_t size, mimetool_place *place);
mimetool_status mimetool_insert_part(mimetool_session *session, const uint32_t *path, size_t depth,
                                     uint32_t after, const void *entity, size_t size,
                                     mimetool_place *place);
mimetool_status mimetool_remove_part(mimetool_session *session, const uint32_t *path, size_t depth,
                                     mimetool_place *place);
mimetool_status mimetool_wrap(mimetool_session *session, const uint32_t *path, size_t depth,
                              const char *subtype, const char *boundary, mimetool_place *place);

/* ---- Answers without memory of the caller's

   These answer the same as mimetool_text, mimetool_save, mimetool_sections,
   mimetool_extract and mimetool_name, and there is nothing to free. The bytes are in
   the session until the next of these calls that answers bytes, the sections until
   the next one that answers sections, and all of them until the session is closed.
   After an error there are none. */

mimetool_status mimetool_view_text(mimetool_session *session, mimetool_view *text);
mimetool_status mimetool_view_journal(mimetool_session *session, mimetool_view *journal);
mimetool_status mimetool_view_sections(mimetool_session *session,
                                       const mimetool_section **sections, size_t *count);
mimetool_status mimetool_view_content(mimetool_session *session, const uint32_t *path,
                                      size_t depth, mimetool_view *content);
mimetool_status mimetool_view_name(mimetool_session *session, const uint32_t *path, size_t depth,
                                   mimetool_view *name);

/* ---- Mailboxes

   A mailbox is cut before each From-line that follows an empty line and counts. Its
   messages, one after another, are the mailbox, byte for byte: each has its own
   From-line, and the empty line before the next one. What stands before the first
   From-line is a message, too. One message and 128 KB are kept at a time.

   Callbacks. Each gets the context that it was given with, and has to return: by no
   longjmp, and no exception. It may make any calls but those of its own mailbox. */

/* Which From-lines count. */
typedef enum mimetool_from_lines {
    MIMETOOL_ANY,    /* each */
    MIMETOOL_DATED,  /* those that end with a date */
    MIMETOOL_FIELDED /* those that a field directly follows */
} mimetool_from_lines;

/* A mailbox that is read. */
typedef struct mimetool_mailbox mimetool_mailbox;

/* Puts the next bytes of a mailbox into the buffer, at most size of them and at
   least one, and says in *got how many; 0 is the end. Returns 0, or another number
   where it failed: what it did with the buffer and *got doesn't count then. One that
   says more than size, or doesn't say it, has failed. */
typedef int mimetool_read(void *context, void *buffer, size_t size, size_t *got);

/* Opens a mailbox of which nothing is read yet. After an error *mailbox is NULL. */
mimetool_status mimetool_open_mailbox(mimetool_mailbox **mailbox, mimetool_from_lines from_lines,
                                      mimetool_read *read, void *context);

/* Closes a mailbox and frees all it has. NULL is fine. */
void mimetool_close_mailbox(mimetool_mailbox *mailbox);

/* The next message, or MIMETOOL_NO_MESSAGE after the last one. read is called only
   where a message isn't known to be whole, and never again after the end. Where read
   fails, the status is MIMETOOL_READ. After that, as after MIMETOOL_MEMORY, the call
   may be made again: no byte is lost, and no message is skipped. */
mimetool_status mimetool_next_message(mimetool_mailbox *mailbox, mimetool_bytes *message);

/* Whether a text may stand where a message of a mailbox stood, so that the mailbox is
   cut into the same other messages, and the text is one. False with a NULL. */
bool mimetool_fits(mimetool_from_lines from_lines, const void *message, size_t size,
                   const void *text, size_t text_size);

/* What becomes of a message. Each other number is taken as MIMETOOL_STOP. */
typedef enum mimetool_verdict {
    MIMETOOL_STOP, /* it doesn't go out, and the filter ends */
    MIMETOOL_KEEP, /* it goes out as the session has it then */
    MIMETOOL_DROP  /* it is left out */
} mimetool_verdict;

/* Is given a message and its number in the mailbox, counted from 1. It may edit the
   session, but not close it. */
typedef mimetool_verdict mimetool_visit(void *context, mimetool_session *session, size_t number);

/* Takes a message that is kept, all of it. Returns 0, or another number where it failed. */
typedef int mimetool_write(void *context, const void *bytes, size_t size);

/* Is told that the edits of a message don't stand: it has gone out as it came. The
   status is MIMETOOL_RECUT. */
typedef void mimetool_refused(void *context, size_t number, mimetool_status status);

/* Gives each message that a mailbox still has to visit, and those that are kept to
   write, one call for each. Where the edited text doesn't fit (mimetool_fits), the
   message goes out as it came, byte for byte, and refused, which may be NULL, is told
   after that. So what goes out is a mailbox whose messages are those that were kept.

   The status is MIMETOOL_OK at the end of the mailbox. With any other one, all
   messages before the one at which it ended are done: each has gone out as a whole,
   or was dropped. That message is not:
   - MIMETOOL_READ: read failed while it was looked for. Nothing of it has gone out.
   - MIMETOOL_MEMORY: nothing of it has gone out, but it may have been visited.
   - MIMETOOL_STOPPED: it was visited, and nothing of it has gone out.
   - MIMETOOL_WRITE: it was visited, and has gone out as far as write has taken it.
   It is still the next message of the mailbox. A further call begins with it, visits
   it anew, as it came, and gives it to write as a whole. */
mimetool_status mimetool_filter(mimetool_mailbox *mailbox, mimetool_visit *visit,
                                mimetool_write *write, mimetool_refused *refused, void *context);

/* ---- Messages that are built */

/* A field. A last line without an ending gets one. It isn't one that is made anyway:
   MIME-Version, or Content-.. */
typedef struct mimetool_field {
    const void *text;
    size_t size;
} mimetool_field;

/* A part. */
typedef struct mimetool_part {
    const char *type; /* as "image/png"; no multipart and no message */
    const char *name; /* in UTF-8, or NULL: then it is shown, not attached */
    const void *content;
    size_t size;
    bool base64; /* or else quoted-printable */
} mimetool_part;

/* A message that becomes a part, byte for byte, but for a From-line at its start. */
typedef struct mimetool_forward {
    const void *text;
    size_t size;
    bool shown; /* or else attached */
} mimetool_forward;

/* A multipart that is to be built: first the parts, then the messages. */
typedef struct mimetool_draft {
    const mimetool_field *fields;
    size_t field_count;
    const mimetool_part *parts;
    size_t part_count;
    const mimetool_forward *messages;
    size_t message_count;
    const char *subtype;  /* NULL: "mixed" */
    const char *charset;  /* that of the parts text/..; NULL: none is said */
    const char *boundary; /* one that no line of a message begins with, after "--" */
    bool crlf;            /* lines that are made end with CR LF, not with LF */
} mimetool_draft;

/* The message that a draft describes. The statuses are those of the first reason in
   this order: MIMETOOL_BAD_FIELD, MIMETOOL_BAD_TYPE, MIMETOOL_BAD_PART_NAME,
   MIMETOOL_BAD_SUBTYPE, MIMETOOL_BAD_CHARSET, MIMETOOL_BAD_BOUNDARY,
   MIMETOOL_HOLDS_BOUNDARY. place->edit says which field, part or message it is, as it
   does with MIMETOOL_NULL; place may be NULL. */
mimetool_status mimetool_build(const mimetool_draft *draft, mimetool_bytes *message,
                               mimetool_place *place);

#ifdef __cplusplus
}
#endif

#endif
