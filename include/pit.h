/* The pit model store for C: one blob of pages, kept in versions that share what they have in common, on up to sixteen
   lines. Line 0 begins with the store; pit_branch begins another from a published version of a line, with everything up
   to that version shared. A version is named by its line and its number there.

   The functions are proved, and linked as static libraries: -lexports -ltree, for x86-64 Linux.

   The host keeps a store, which is a struct of numbers, and lends it three areas:

     pages      size x pages bytes
     nodes      two numbers a node
     records    the register of updates, a record an update

   A call takes the store by value and each area as a pointer and its length in elements. Where the reply has a store,
   the next call takes that one. Beside the store the host keeps its blast windows, and saves them with it: FORMAT and
   SETWINDOWS give them, PUBLISH and SETWINDOWS take them, and no other call needs them. What the host owes:

     - No pointer is null, also where the length is 0, and as many elements are there as the length says.
     - The areas of one call, the bytes to put, the text and the buffer never overlap.
     - The areas are those of the store, just as the last call left them, and nobody else writes them. A call with a
       const area only reads it. Calls that only read may run beside each other; one that writes runs alone.

   Over a store, windows and areas that do not belong together, whatever they hold, a call ends, stays in bounds and
   refuses by the table; what it answers then means nothing.

   A refused call changes nothing: it gives the number of the first row of its place that applies, and the rest of the
   reply is 0, with the store or the windows as they were (FORMAT: a store of zeros). 0 is no refusal.

      1  FORMAT: the page size is not a power of two from 16 to 4,096
      2  FORMAT: pages not 1 to 65,535, nodes not 1 to 131,072 or updates not 1 to 4,096
      3  every call, first (FORMAT: last): an area's length differs
      4  BEGIN: n is 0 or above 64
      5  BEGIN: no record is unused
      6  BEGIN: fewer than n page numbers are unused
      7  PUT, ASSIGN, WEAVE: no such ticket
      8  PUT or ASSIGN after ASSIGN; WEAVE before it, or with no node left
      9  PUT: i is not below n
     10  PUT: page i is already put
     11  PUT: the bytes are not one page long
     12  ASSIGN: a page is not yet put
     13  ASSIGN as a write: f is above the size of the line's last assigned version
     14  ASSIGN: f + n is above 4,096
     15  ASSIGN: too few node places are unused
     16  READ, SIZE, STAMP, VIEW, BRANCH: the version is not published; 0, which is empty, always is
     17  READ, STAMP, VIEW: the range or page is not inside the version
     18  READ: the buffer is shorter than the length
     19  every call but FORMAT, BEGIN, RECENT and SETWINDOWS, last: the areas are none that the store's calls left
     20  every call that names a line, after 3, 7 and 8: no such line; they count from 0
     21  BRANCH, after 16: sixteen lines exist
     22  PUBLISH, after 20: the minute is above 10,079
     23  SETWINDOWS: a line is malformed, has a number above 10,079 or equal ends; also a line past the 32nd
     24  SETWINDOWS, after 23: there are more than 32 lines */
#ifndef PIT_H
#define PIT_H

#include <stddef.h>
#include <stdint.h>

#ifdef __cplusplus
extern "C" {
#endif

/* A store: what the calls carry from one to the next. A line that has not begun is 0 in `sources` and in `lines`. */
typedef struct pit_store {
    uint64_t size;      /* the page size in bytes */
    uint64_t pages;     /* how many pages the page area holds */
    uint64_t nodes;     /* how many nodes the node area holds */
    uint64_t updates;   /* how many updates the register holds */
    uint64_t tickets;   /* the last ticket given */
    uint64_t taken;     /* how many page numbers are taken */
    uint64_t assigned;  /* how many updates have a version, over all lines */
    uint64_t places;    /* how many node places are taken */
    uint64_t begun;     /* how many lines have begun */
    uint64_t sources;   /* the line that each line begins from: 4 bits a line, bits 4i to 4i + 3 for line i */
    uint64_t lines[16]; /* each line: four numbers of 16 bits, the lowest first: the version that it begins from, up to
                           which its versions are the source's; the last version assigned; the last version published;
                           the size in pages of the last version assigned */
} pit_store;

/* For each line the number of an update, 16 bits a line, four lines a number, the lowest first; 0 for none. */
typedef struct pit_entries {
    uint64_t from0;
    uint64_t from4;
    uint64_t from8;
    uint64_t from12;
} pit_entries;

/* A record of the register: the k-th holds the k-th ticket's part, then the k-th update's, in the order of ASSIGN over
   all lines; and for each line the update that is its own version k. */
typedef struct pit_record {
    uint64_t n;      /* the ticket's pages */
    uint64_t number; /* its first page number */
    uint64_t put;    /* which of its pages are put: bit i for page i */
    uint64_t update; /* the number of its update; 0 before it has a version */
    uint64_t ticket; /* the update's ticket */
    uint64_t name;   /* the line and version that it got: line x 65,536 + version */
    uint64_t f;      /* its first page */
    uint64_t last;   /* its last page */
    uint64_t top;    /* its first node place, with its root's height added */
    uint64_t past;   /* 2f less the number of one bits in f: the sum of f, f/2, f/4 and so on */
    uint64_t span;   /* the span of its root: the smallest power of two not below the size */
    uint64_t size;   /* the blob's size in pages after it, on that line */
    uint64_t count;  /* how many nodes it makes */
    uint64_t woven;  /* how many of its nodes are woven */
    pit_entries entries;
} pit_record;

/* A weekly window, during which no version is published, in minutes of the week 0 to 10,079: `from` is inside, `to` is
   outside; where `from` is above `to` it runs over the week's end. One with equal ends has no minute. */
typedef struct pit_window {
    uint16_t from;
    uint16_t to;
} pit_window;

/* A site's windows, in the order of their text. The places after them are 0, and the first place with equal ends ends
   them; no windows is all zeros. */
typedef struct pit_windows {
    pit_window places[32];
} pit_windows;

typedef struct pit_format_reply {
    uint64_t refusal;
    pit_store store;
    pit_windows windows; /* none */
} pit_format_reply;

typedef struct pit_begin_reply {
    uint64_t refusal;
    pit_store store;
    uint64_t ticket;
} pit_begin_reply;

typedef struct pit_assign_reply {
    uint64_t refusal;
    pit_store store;
    uint64_t version;
    uint64_t nodes; /* how many nodes are to be woven for it */
} pit_assign_reply;

/* Versions are numbers that say their line too: line x 65,536 + version, of the line on which the update got its
   version. */
typedef struct pit_weave_reply {
    uint64_t refusal;
    uint64_t version; /* the node's name: its version, */
    uint64_t first;   /* the first page of its range */
    uint64_t span;    /* and how many pages that has; 1 is a leaf */
    uint64_t left;    /* the left child's version, 0 where no page is there; of a leaf, the page number */
    uint64_t right;   /* the right child's version, 0 where no page is there; of a leaf, 0 */
    uint64_t rest;    /* how many nodes of the version are left to weave */
} pit_weave_reply;

typedef struct pit_publish_reply {
    uint64_t refusal;
    pit_store store;
    uint64_t version; /* 0 with no refusal and not held: waiting, the next version is not due */
    uint64_t held;    /* 1 where the minute is inside a window, else 0 */
} pit_publish_reply;

typedef struct pit_windows_reply {
    uint64_t refusal;
    pit_windows windows; /* the new ones; where the call is refused, those that it was given */
} pit_windows_reply;

typedef struct pit_branch_reply {
    uint64_t refusal;
    pit_store store;
    uint64_t line; /* the new line; 0 where the call is refused */
} pit_branch_reply;

typedef struct pit_size_reply {
    uint64_t refusal;
    uint64_t bytes;
} pit_size_reply;

/* What RECENT and STAMP reply. */
typedef struct pit_version_reply {
    uint64_t refusal;
    uint64_t version;
} pit_version_reply;

typedef struct pit_view_reply {
    uint64_t refusal;
    uint64_t begin;  /* the byte of the page area where the page begins */
    uint64_t length; /* the page size; 0 where the call is refused */
} pit_view_reply;

/* FORMAT: a new store with these limits and no windows, whatever stood in the areas: pages are filled with 0, nodes with
   all ones, the register with records of zeros. Refused, it leaves the areas: 1, 2, 3. */
pit_format_reply pit_format(
    uint64_t size, uint64_t page_count, uint64_t node_count, uint64_t updates,
    uint8_t *pages, size_t pages_len,
    uint32_t *nodes, size_t nodes_len,
    pit_record *records, size_t records_len);

/* BEGIN: the next ticket, for an update of n pages, with the next n page numbers. Refused: 3, 4, 5, 6. */
pit_begin_reply pit_begin(
    pit_store s,
    const uint8_t *pages, size_t pages_len,
    const uint32_t *nodes, size_t nodes_len,
    pit_record *records, size_t records_len,
    uint64_t n);

/* PUT: the bytes of page i of the update, from 0 on, in any order, each page once. The store stays as it is. Gives the
   refusal, or 0: 3, 7, 8, 9, 10, 11, 19. */
uint64_t pit_put(
    pit_store s,
    uint8_t *pages, size_t pages_len,
    const uint32_t *nodes, size_t nodes_len,
    pit_record *records, size_t records_len,
    uint64_t ticket, uint64_t i,
    const uint8_t *bytes, size_t bytes_len);

/* ASSIGN as a write: the line's next version, in which the update's pages stand from page f on. Refused: 3, 7, 8, 20,
   12, 13, 14, 15, 19. */
pit_assign_reply pit_write(
    pit_store s,
    const uint8_t *pages, size_t pages_len,
    const uint32_t *nodes, size_t nodes_len,
    pit_record *records, size_t records_len,
    uint64_t line, uint64_t ticket, uint64_t f);

/* ASSIGN as an append: the same, with f the size of the line's last assigned version. Refused: 3, 7, 8, 20, 12, 14, 15,
   19. */
pit_assign_reply pit_append(
    pit_store s,
    const uint8_t *pages, size_t pages_len,
    const uint32_t *nodes, size_t nodes_len,
    pit_record *records, size_t records_len,
    uint64_t line, uint64_t ticket);

/* WEAVE: stores the next node of the ticket's version. The store stays as it is. Refused: 3, 7, 8, 19. */
pit_weave_reply pit_weave(
    pit_store s,
    const uint8_t *pages, size_t pages_len,
    uint32_t *nodes, size_t nodes_len,
    pit_record *records, size_t records_len,
    uint64_t ticket);

/* PUBLISH at a minute of the week: the version after the line's last published one, if all its nodes are woven. Inside a
   window it is held, due or not, and nothing moves; no record is looked at then. Only the minute given decides. Refused:
   3, 20, 22, 19. */
pit_publish_reply pit_publish(
    pit_store s,
    pit_windows w,
    const uint8_t *pages, size_t pages_len,
    const uint32_t *nodes, size_t nodes_len,
    const pit_record *records, size_t records_len,
    uint64_t line, uint64_t minute);

/* SETWINDOWS: the windows of a text, which replace the old ones whole. Each line of it, the last too, is `from,to` and a
   line feed: numbers in plain digits, with no sign, space or leading zero. The empty text is no windows. The store stays
   as it is. Refused: 3, 23, 24. */
pit_windows_reply pit_set_windows(
    pit_store s,
    pit_windows w,
    const uint8_t *pages, size_t pages_len,
    const uint32_t *nodes, size_t nodes_len,
    const pit_record *records, size_t records_len,
    const uint8_t *text, size_t text_len);

/* BRANCH: the next line, from a published version of a line. It shares everything up to that version, which is published
   there too, and goes on with its own next version. Refused: 3, 20, 16, 21, 19. */
pit_branch_reply pit_branch(
    pit_store s,
    const uint8_t *pages, size_t pages_len,
    const uint32_t *nodes, size_t nodes_len,
    const pit_record *records, size_t records_len,
    uint64_t line, uint64_t version);

/* READ: fills the front of the buffer with len bytes of the version, from byte offset on; the rest of it stays, and
   where it is refused all of it. Gives the refusal, or 0: 3, 20, 16, 17, 18, 19. */
uint64_t pit_read(
    pit_store s,
    const uint8_t *pages, size_t pages_len,
    const uint32_t *nodes, size_t nodes_len,
    const pit_record *records, size_t records_len,
    uint64_t line, uint64_t version, uint64_t offset, uint64_t len,
    uint8_t *buffer, size_t buffer_len);

/* SIZE: the bytes of the version. Refused: 3, 20, 16, 19. */
pit_size_reply pit_size(
    pit_store s,
    const uint8_t *pages, size_t pages_len,
    const uint32_t *nodes, size_t nodes_len,
    const pit_record *records, size_t records_len,
    uint64_t line, uint64_t version);

/* RECENT: the line's last published version; 0 before the first. Refused: 3, 20. */
pit_version_reply pit_recent(
    pit_store s,
    const uint8_t *pages, size_t pages_len,
    const uint32_t *nodes, size_t nodes_len,
    const pit_record *records, size_t records_len,
    uint64_t line);

/* STAMP: the lowest version of the line such that the page is in it and has the same bytes in every version from there to this
   one; versions that a branch shares with its source count. A page that was resent unchanged keeps its stamp: who has the
   page as of some version fetches it again exactly where its stamp is above that one. Refused: 3, 20, 16, 17, 19. */
pit_version_reply pit_stamp(
    pit_store s,
    const uint8_t *pages, size_t pages_len,
    const uint32_t *nodes, size_t nodes_len,
    const pit_record *records, size_t records_len,
    uint64_t line, uint64_t version, uint64_t page);

/* VIEW: where in the page area the version's page lies. Refused: 3, 20, 16, 17, 19. */
pit_view_reply pit_view(
    pit_store s,
    const uint8_t *pages, size_t pages_len,
    const uint32_t *nodes, size_t nodes_len,
    const pit_record *records, size_t records_len,
    uint64_t line, uint64_t version, uint64_t page);

/* The span of the root of a blob of size pages: the smallest power of two not below it. 0 where size is 0 or above
   4,096. */
uint64_t pit_root_span(uint64_t size);

/* How many nodes an update of n pages from page f on makes, where the blob has size pages after it. 0 where n is 0 or
   above 64, size is 0 or above 4,096, or f + n is above size. */
uint64_t pit_node_count(uint64_t f, uint64_t n, uint64_t size);

/* The most nodes that a write of n pages makes in a blob of exactly r pages, the write inside them. 0 unless r is a power
   of two from 2 to 4,096 and n is 1 to the lesser of 64 and r / 2. */
uint64_t pit_worst(uint64_t r, uint64_t n);

#ifdef __cplusplus
}
#endif

#endif
