/* The calls of crates/mk_c, which prove what they do, and what the files of this
   folder share. These test for NULL, allocate what belongs to the caller, and
   take listings apart. */
#ifndef MK_C_H
#define MK_C_H

#include "mimetool.h"

/* What mk_c says where a call is refused, and what C holds of a session. Only
   mk_c writes to a handle; its bytes are all 0 at first. */
typedef mimetool_place place;

typedef struct handle {
    void *at;
    bool used;
} handle;

uint32_t mk_c_start(handle *, const uint8_t *text, size_t, place *);
uint32_t mk_c_load(handle *, const uint8_t *text, size_t, const uint8_t *journal, size_t, place *);
void mk_c_close(handle *);
uint32_t mk_c_add_field(handle *, const uint32_t *path, size_t, bool top, const uint8_t *text, size_t, place *);
uint32_t mk_c_remove_field(handle *, const uint32_t *path, size_t, const uint8_t *name, size_t, uint32_t k, place *);
uint32_t mk_c_rename_field(handle *, const uint32_t *path, size_t, const uint8_t *name, size_t, uint32_t k,
                           const uint8_t *to, size_t, place *);
uint32_t mk_c_set_field(handle *, const uint32_t *path, size_t, const uint8_t *name, size_t, uint32_t k,
                        const uint8_t *text, size_t, place *);
uint32_t mk_c_set_body(handle *, const uint32_t *path, size_t, const uint8_t *text, size_t, place *);
uint32_t mk_c_set_section(handle *, const uint32_t *path, size_t, const uint8_t *text, size_t, place *);
uint32_t mk_c_insert_part(handle *, const uint32_t *path, size_t, uint32_t after, const uint8_t *text, size_t, place *);
uint32_t mk_c_remove_part(handle *, const uint32_t *path, size_t, place *);
uint32_t mk_c_wrap(handle *, const uint32_t *path, size_t, const uint8_t *subtype, size_t, const uint8_t *boundary,
                   size_t, place *);
uint32_t mk_c_forget(handle *, place *);
uint32_t mk_c_check(handle *, place *);
uint32_t mk_c_make(handle *, place *);
uint32_t mk_c_undo(handle *, place *);
uint32_t mk_c_redo(handle *, place *);
uint32_t mk_c_counts(handle *, size_t *done, size_t *undone, place *);
uint32_t mk_c_text(handle *, place *);
uint32_t mk_c_save(handle *, place *);
uint32_t mk_c_sections(handle *, place *);
uint32_t mk_c_extract(handle *, const uint32_t *path, size_t, place *);
uint32_t mk_c_name(handle *, const uint32_t *path, size_t, place *);
uint32_t mk_c_mailbox(handle *, uint32_t from_lines, place *);
uint32_t mk_c_next(handle *, const uint8_t *bytes, size_t, bool last, size_t *used, place *);
bool mk_c_fits(uint32_t from_lines, const uint8_t *message, size_t, const uint8_t *text, size_t);
uint32_t mk_c_put_field(handle *, const uint8_t *text, size_t, place *);
uint32_t mk_c_put_part(handle *, const uint8_t *media, size_t, bool named, const uint8_t *name, size_t,
                       const uint8_t *text, size_t, bool base64, place *);
uint32_t mk_c_put_message(handle *, const uint8_t *text, size_t, bool shown, place *);
uint32_t mk_c_build(handle *, const uint8_t *subtype, size_t, bool charset_given, const uint8_t *charset, size_t,
                    const uint8_t *boundary, size_t, bool crlf, place *);
size_t mk_c_size(handle *);
uint32_t mk_c_copy(handle *, uint8_t *bytes, size_t, place *);

/* What mk_c_next says where it has read all bytes and needs more. */
enum { MK_C_NEEDS_MORE = 8 };

/* A block of memory, which grows. */
typedef struct block {
    void *at;
    size_t size;
} block;

struct mimetool_session {
    handle handle;
    block viewed; /* the bytes that the last view shows */
    block listed; /* the sections that the last view shows */
};

/* Where a slice of no bytes or numbers points to: mk_c takes no NULL. */
static const uint32_t mk_c_nothing[1];

static inline const uint8_t *bytes_at(const void *at)
{
    return at != NULL ? at : (const uint8_t *)mk_c_nothing;
}

static inline const uint32_t *numbers_at(const uint32_t *at)
{
    return at != NULL ? at : mk_c_nothing;
}

/* Whether there are bytes or numbers where so many are said to be. */
static inline bool are_there(const void *at, size_t count)
{
    return at != NULL || count == 0;
}

/* Copies the answer of a call into memory of the caller's, or says why there is none.
   Where there is no memory for it, the handle still has it. */
mimetool_status mk_c_answered(handle *h, uint32_t status, mimetool_bytes *answer);

/* Makes a block at least so large, or says that it can't be. What it holds stays. */
bool mk_c_make_room(block *block, size_t size);

/* Copies the answer into the session. */
mimetool_status mk_c_viewed(mimetool_session *session, uint32_t status, mimetool_view *view);

/* Whether a call has a session and a place for its answer, which is empty then. */
bool mk_c_can_answer(mimetool_session *session, mimetool_bytes *answer);
bool mk_c_can_view(mimetool_session *session, mimetool_view *view);

#endif
