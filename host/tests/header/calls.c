/* Calls each function of pit.h, accepted and refused, and prints every field of every reply, each read by its name, and
   which areas the call changed. header.rs compares what it prints with answers.txt. */
#include "pit.h"
#include "pit.h" /* it may be included twice */

#include <inttypes.h>
#include <stdio.h>
#include <stdlib.h>
#include <string.h>

/* A store with its windows and its areas, and copies of these that tell what a call changed. */
typedef struct host {
    pit_store s;
    pit_windows w;
    uint8_t *pages, *old_pages;
    size_t pages_len;
    uint32_t *nodes, *old_nodes;
    size_t nodes_len;
    pit_record *records, *old_records;
    size_t records_len;
} host;

#define AREAS(h) (h)->pages, (h)->pages_len, (h)->nodes, (h)->nodes_len, (h)->records, (h)->records_len
#define STORE(h) (h)->s, AREAS(h)

/* Memory of just this length, so that a step outside it can be seen from outside. */
static void *lent(size_t length, int fill)
{
    void *memory = malloc(length);
    if (memory == NULL) {
        exit(2);
    }
    return memset(memory, fill, length);
}

static host new_host(size_t pages_len, size_t nodes_len, size_t records_len)
{
    host h;
    memset(&h, 0, sizeof h);
    h.pages_len = pages_len;
    h.nodes_len = nodes_len;
    h.records_len = records_len;
    h.pages = lent(pages_len, 7);
    h.old_pages = lent(pages_len, 7);
    h.nodes = lent(nodes_len * sizeof *h.nodes, 7);
    h.old_nodes = lent(nodes_len * sizeof *h.nodes, 7);
    h.records = lent(records_len * sizeof *h.records, 7);
    h.old_records = lent(records_len * sizeof *h.records, 7);
    return h;
}

static void free_host(host *h)
{
    free(h->pages);
    free(h->old_pages);
    free(h->nodes);
    free(h->old_nodes);
    free(h->records);
    free(h->old_records);
}

/* Compares an area with its copy, and makes the copy anew. */
static void compare(const char *name, const void *area, void *copy, size_t length)
{
    if (memcmp(area, copy, length) != 0) {
        printf(", %s changed", name);
        memcpy(copy, area, length);
    }
}

static void end_line(host *h)
{
    compare("pages", h->pages, h->old_pages, h->pages_len);
    compare("nodes", h->nodes, h->old_nodes, h->nodes_len * sizeof *h->nodes);
    compare("records", h->records, h->old_records, h->records_len * sizeof *h->records);
    printf("\n");
}

static void show(const char *name, uint64_t value)
{
    printf(" %s=%" PRIu64, name, value);
}

#define SHOW(whole, field) show(#field, (whole).field)

static void show_line(uint64_t line, uint64_t source, uint64_t numbers)
{
    printf("; line %" PRIu64 ":", line);
    show("source", source);
    show("start", numbers & 0xffff);
    show("assigned", numbers >> 16 & 0xffff);
    show("published", numbers >> 32 & 0xffff);
    show("blob", numbers >> 48);
}

/* The lines that have begun, and any other that is not all zeros. */
static void show_store(pit_store s)
{
    uint64_t line;
    SHOW(s, size);
    SHOW(s, pages);
    SHOW(s, nodes);
    SHOW(s, updates);
    SHOW(s, tickets);
    SHOW(s, taken);
    SHOW(s, assigned);
    SHOW(s, places);
    SHOW(s, begun);
    for (line = 0; line < 16; line++) {
        uint64_t source = s.sources >> 4 * line & 0xf;
        if (line < s.begun || source != 0 || s.lines[line] != 0) {
            show_line(line, source, s.lines[line]);
        }
    }
}

/* The places that are not 0, each by its number. */
static void show_windows(pit_windows w)
{
    int place, used = 0;
    printf("; windows:");
    for (place = 0; place < 32; place++) {
        pit_window window = w.places[place];
        if (window.from != 0 || window.to != 0) {
            printf(" %d=%u,%u", place, (unsigned)window.from, (unsigned)window.to);
            used = 1;
        }
    }
    printf("%s", used ? "" : " none");
}

static void show_record(const host *h, size_t index)
{
    pit_record r = h->records[index];
    printf("record %zu:", index);
    SHOW(r, n);
    SHOW(r, number);
    SHOW(r, put);
    SHOW(r, update);
    SHOW(r, ticket);
    SHOW(r, name);
    SHOW(r, f);
    SHOW(r, last);
    SHOW(r, top);
    SHOW(r, past);
    SHOW(r, span);
    SHOW(r, size);
    SHOW(r, count);
    SHOW(r, woven);
    SHOW(r.entries, from0);
    SHOW(r.entries, from4);
    SHOW(r.entries, from8);
    SHOW(r.entries, from12);
    printf("\n");
}

/* Each call: its arguments, then the reply; where the reply has a store or windows, these go on. */

static void format(host *h, uint64_t size, uint64_t pages, uint64_t nodes, uint64_t updates)
{
    pit_format_reply reply = pit_format(size, pages, nodes, updates, AREAS(h));
    printf("FORMAT %" PRIu64 " %" PRIu64 " %" PRIu64 " %" PRIu64 ":", size, pages, nodes, updates);
    SHOW(reply, refusal);
    show_store(reply.store);
    show_windows(reply.windows);
    if (reply.refusal == 0) {
        h->s = reply.store;
        h->w = reply.windows;
    }
    end_line(h);
}

static void begin(host *h, uint64_t n)
{
    pit_begin_reply reply = pit_begin(STORE(h), n);
    printf("BEGIN %" PRIu64 ":", n);
    SHOW(reply, refusal);
    SHOW(reply, ticket);
    show_store(reply.store);
    h->s = reply.store;
    end_line(h);
}

static void put(host *h, uint64_t ticket, uint64_t i, int fill, size_t length)
{
    uint8_t *bytes = lent(length, fill);
    uint64_t refusal = pit_put(STORE(h), ticket, i, bytes, length);
    printf("PUT %" PRIu64 " %" PRIu64 ", %zu times %02x:", ticket, i, length, (unsigned)fill);
    show("refusal", refusal);
    end_line(h);
    free(bytes);
}

static void assigned(host *h, pit_assign_reply reply)
{
    SHOW(reply, refusal);
    SHOW(reply, version);
    SHOW(reply, nodes);
    show_store(reply.store);
    h->s = reply.store;
    end_line(h);
}

static void write_at(host *h, uint64_t line, uint64_t ticket, uint64_t f)
{
    printf("WRITE %" PRIu64 " %" PRIu64 " %" PRIu64 ":", line, ticket, f);
    assigned(h, pit_write(STORE(h), line, ticket, f));
}

static void append(host *h, uint64_t line, uint64_t ticket)
{
    printf("APPEND %" PRIu64 " %" PRIu64 ":", line, ticket);
    assigned(h, pit_append(STORE(h), line, ticket));
}

static void weave(host *h, uint64_t ticket)
{
    pit_weave_reply reply = pit_weave(STORE(h), ticket);
    printf("WEAVE %" PRIu64 ":", ticket);
    SHOW(reply, refusal);
    SHOW(reply, version);
    SHOW(reply, first);
    SHOW(reply, span);
    SHOW(reply, left);
    SHOW(reply, right);
    SHOW(reply, rest);
    end_line(h);
}

static void publish(host *h, uint64_t line, uint64_t minute)
{
    pit_publish_reply reply = pit_publish(h->s, h->w, AREAS(h), line, minute);
    printf("PUBLISH %" PRIu64 " %" PRIu64 ":", line, minute);
    SHOW(reply, refusal);
    SHOW(reply, version);
    SHOW(reply, held);
    show_store(reply.store);
    h->s = reply.store;
    end_line(h);
}

/* The text has ; for each line feed. */
static void set_windows(host *h, const char *text)
{
    size_t i, length = strlen(text);
    uint8_t *bytes = lent(length, 0);
    pit_windows_reply reply;
    for (i = 0; i < length; i++) {
        bytes[i] = text[i] == ';' ? '\n' : (uint8_t)text[i];
    }
    reply = pit_set_windows(h->s, h->w, AREAS(h), bytes, length);
    printf("SETWINDOWS %s:", text);
    SHOW(reply, refusal);
    show_windows(reply.windows);
    h->w = reply.windows;
    end_line(h);
    free(bytes);
}

static void branch(host *h, uint64_t line, uint64_t version)
{
    pit_branch_reply reply = pit_branch(STORE(h), line, version);
    printf("BRANCH %" PRIu64 " %" PRIu64 ":", line, version);
    SHOW(reply, refusal);
    SHOW(reply, line);
    show_store(reply.store);
    h->s = reply.store;
    end_line(h);
}

/* Reads into a buffer of ee, and shows all of it. */
static void read_range(host *h, uint64_t line, uint64_t version, uint64_t offset, uint64_t len, size_t room)
{
    uint8_t *buffer = lent(room, 0xee);
    uint64_t refusal = pit_read(STORE(h), line, version, offset, len, buffer, room);
    size_t i;
    printf("READ %" PRIu64 " %" PRIu64 " %" PRIu64 " %" PRIu64 ":", line, version, offset, len);
    show("refusal", refusal);
    printf(" buffer=");
    for (i = 0; i < room; i++) {
        printf("%02x", buffer[i]);
    }
    end_line(h);
    free(buffer);
}

static void size(host *h, uint64_t line, uint64_t version)
{
    pit_size_reply reply = pit_size(STORE(h), line, version);
    printf("SIZE %" PRIu64 " %" PRIu64 ":", line, version);
    SHOW(reply, refusal);
    SHOW(reply, bytes);
    end_line(h);
}

static void recent(host *h, uint64_t line)
{
    pit_version_reply reply = pit_recent(STORE(h), line);
    printf("RECENT %" PRIu64 ":", line);
    SHOW(reply, refusal);
    SHOW(reply, version);
    end_line(h);
}

static void stamp(host *h, uint64_t line, uint64_t version, uint64_t page)
{
    pit_version_reply reply = pit_stamp(STORE(h), line, version, page);
    printf("STAMP %" PRIu64 " %" PRIu64 " %" PRIu64 ":", line, version, page);
    SHOW(reply, refusal);
    SHOW(reply, version);
    end_line(h);
}

static void view(host *h, uint64_t line, uint64_t version, uint64_t page)
{
    pit_view_reply reply = pit_view(STORE(h), line, version, page);
    printf("VIEW %" PRIu64 " %" PRIu64 " %" PRIu64 ":", line, version, page);
    SHOW(reply, refusal);
    SHOW(reply, begin);
    SHOW(reply, length);
    if (reply.length > 0) {
        printf(" from %02x to %02x", h->pages[reply.begin], h->pages[reply.begin + reply.length - 1]);
    }
    end_line(h);
}

/* The fields of each struct: how long, and where. */
#define AT(type, field) printf(" %s %zu", #field, offsetof(type, field))

static void layout_of_stores(void)
{
    printf("pit_store, %zu bytes:", sizeof(pit_store));
    AT(pit_store, size);
    AT(pit_store, pages);
    AT(pit_store, nodes);
    AT(pit_store, updates);
    AT(pit_store, tickets);
    AT(pit_store, taken);
    AT(pit_store, assigned);
    AT(pit_store, places);
    AT(pit_store, begun);
    AT(pit_store, sources);
    AT(pit_store, lines);
    printf("\n");
}

static void layout_of_records(void)
{
    printf("pit_entries, %zu bytes:", sizeof(pit_entries));
    AT(pit_entries, from0);
    AT(pit_entries, from4);
    AT(pit_entries, from8);
    AT(pit_entries, from12);
    printf("\npit_record, %zu bytes:", sizeof(pit_record));
    AT(pit_record, n);
    AT(pit_record, number);
    AT(pit_record, put);
    AT(pit_record, update);
    AT(pit_record, ticket);
    AT(pit_record, name);
    AT(pit_record, f);
    AT(pit_record, last);
    AT(pit_record, top);
    AT(pit_record, past);
    AT(pit_record, span);
    AT(pit_record, size);
    AT(pit_record, count);
    AT(pit_record, woven);
    AT(pit_record, entries);
    printf("\n");
}

static void layout_of_windows(void)
{
    printf("pit_window, %zu bytes:", sizeof(pit_window));
    AT(pit_window, from);
    AT(pit_window, to);
    printf("\npit_windows, %zu bytes:", sizeof(pit_windows));
    AT(pit_windows, places);
    printf("\n");
}

static void layout_of_replies(void)
{
    printf("pit_format_reply, %zu bytes:", sizeof(pit_format_reply));
    AT(pit_format_reply, refusal);
    AT(pit_format_reply, store);
    AT(pit_format_reply, windows);
    printf("\npit_begin_reply, %zu bytes:", sizeof(pit_begin_reply));
    AT(pit_begin_reply, refusal);
    AT(pit_begin_reply, store);
    AT(pit_begin_reply, ticket);
    printf("\npit_assign_reply, %zu bytes:", sizeof(pit_assign_reply));
    AT(pit_assign_reply, refusal);
    AT(pit_assign_reply, store);
    AT(pit_assign_reply, version);
    AT(pit_assign_reply, nodes);
    printf("\npit_weave_reply, %zu bytes:", sizeof(pit_weave_reply));
    AT(pit_weave_reply, refusal);
    AT(pit_weave_reply, version);
    AT(pit_weave_reply, first);
    AT(pit_weave_reply, span);
    AT(pit_weave_reply, left);
    AT(pit_weave_reply, right);
    AT(pit_weave_reply, rest);
    printf("\npit_publish_reply, %zu bytes:", sizeof(pit_publish_reply));
    AT(pit_publish_reply, refusal);
    AT(pit_publish_reply, store);
    AT(pit_publish_reply, version);
    AT(pit_publish_reply, held);
    printf("\npit_windows_reply, %zu bytes:", sizeof(pit_windows_reply));
    AT(pit_windows_reply, refusal);
    AT(pit_windows_reply, windows);
    printf("\npit_branch_reply, %zu bytes:", sizeof(pit_branch_reply));
    AT(pit_branch_reply, refusal);
    AT(pit_branch_reply, store);
    AT(pit_branch_reply, line);
    printf("\n");
}

static void layout_of_readers_replies(void)
{
    printf("pit_size_reply, %zu bytes:", sizeof(pit_size_reply));
    AT(pit_size_reply, refusal);
    AT(pit_size_reply, bytes);
    printf("\npit_version_reply, %zu bytes:", sizeof(pit_version_reply));
    AT(pit_version_reply, refusal);
    AT(pit_version_reply, version);
    printf("\npit_view_reply, %zu bytes:", sizeof(pit_view_reply));
    AT(pit_view_reply, refusal);
    AT(pit_view_reply, begin);
    AT(pit_view_reply, length);
    printf("\n");
}

/* Document 01's example on line 0, with refused calls between its steps. */
static void example(void)
{
    host h = new_host(64, 16, 2);
    format(&h, 24, 4, 8, 2);
    format(&h, 16, 4, 0, 2);
    format(&h, 16, 4, 8, 3);
    format(&h, 16, 4, 8, 2);
    begin(&h, 65);
    begin(&h, 1);
    begin(&h, 1);
    put(&h, 2, 0, 0x22, 16);
    put(&h, 1, 0, 0x11, 15);
    append(&h, 0, 1);
    put(&h, 1, 0, 0x11, 16);
    put(&h, 1, 0, 0x33, 16);
    append(&h, 0, 2);
    append(&h, 0, 1);
    weave(&h, 1);
    publish(&h, 0, 0);
    weave(&h, 2);
    publish(&h, 0, 0);
    read_range(&h, 0, 2, 0, 0, 2);
    weave(&h, 1);
    weave(&h, 1);
    publish(&h, 0, 0);
    read_range(&h, 0, 2, 14, 4, 6);
    stamp(&h, 0, 2, 0);
    stamp(&h, 0, 2, 2);
    view(&h, 0, 2, 1);
    begin(&h, 1);
    recent(&h, 0);
    free_host(&h);
}

/* An update of n pages: its ticket, which is to be the next, and every page put, the last one first. */
static void update(host *h, uint64_t ticket, uint64_t n)
{
    uint64_t i;
    begin(h, n);
    for (i = n; i > 0; i--) {
        put(h, ticket, i - 1, (int)(16 * ticket + i - 1), (size_t)h->s.size);
    }
}

static void weave_all(host *h, uint64_t ticket, int nodes)
{
    int i;
    for (i = 0; i < nodes; i++) {
        weave(h, ticket);
    }
}

/* The areas are one element longer or shorter than the store's; then one node is missing. */
static void damaged(host *h)
{
    h->records_len -= 1;
    recent(h, 0);
    size(h, 0, 1);
    publish(h, 0, 0);
    weave(h, 4);
    h->records_len += 1;
    h->s.nodes += 1;
    begin(h, 1);
    write_at(h, 0, 2, 0);
    h->s.nodes -= 1;
    h->s.pages -= 1;
    put(h, 2, 0, 0, 32);
    h->s.pages += 1;
    h->nodes[2 * 27] = h->nodes[2 * 27 + 1] = UINT32_MAX; /* version 2's leaf of page 11 */
    printf("a node lost");
    end_line(h);
    stamp(h, 0, 3, 11);
    view(h, 0, 3, 11);
    read_range(h, 0, 3, 350, 4, 4);
    read_range(h, 0, 3, 348, 4, 4);
}

/* A store in which no two numbers of the store are the same, nor of record 2. */
static void all_different(void)
{
    host h = new_host(32 * 40, 2 * 64, 6);
    format(&h, 32, 40, 64, 6);
    update(&h, 1, 9);
    begin(&h, 4);
    update(&h, 3, 3);
    update(&h, 4, 6);
    append(&h, 0, 1);
    append(&h, 0, 3);
    write_at(&h, 0, 4, 13);
    write_at(&h, 0, 4, 5);
    weave_all(&h, 1, 20);
    publish(&h, 0, 0);
    weave_all(&h, 4, 1);
    show_record(&h, 0);
    show_record(&h, 1);
    show_record(&h, 2);
    show_record(&h, 3);
    weave_all(&h, 4, 14);
    weave_all(&h, 3, 8);
    publish(&h, 0, 0);
    publish(&h, 0, 0);
    publish(&h, 0, 0);
    size(&h, 0, 3);
    size(&h, 0, 4);
    stamp(&h, 0, 3, 11);
    view(&h, 0, 3, 11);
    view(&h, 0, 3, 12);
    read_range(&h, 0, 3, 350, 4, 6);
    read_range(&h, 0, 3, 350, 35, 6);
    read_range(&h, 0, 3, 350, 7, 6);
    damaged(&h);
    free_host(&h);
}

/* Lines 1 and 2 from versions 1 and 0, with updates of their own, and line 3 from line 1's. */
static void planned(host *h)
{
    update(h, 1, 3);
    append(h, 0, 1);
    branch(h, 0, 1);
    weave_all(h, 1, 6);
    publish(h, 0, 0);
    branch(h, 0, 1);
    branch(h, 2, 1);
    branch(h, 1, 0);
    update(h, 2, 2);
    write_at(h, 3, 2, 1);
    write_at(h, 2, 2, 1);
    write_at(h, 1, 2, 1);
    write_at(h, 3, 2, 1);
    update(h, 3, 1);
    append(h, 2, 3);
    update(h, 4, 1);
    append(h, 1, 4);
    weave_all(h, 4, 3);
    publish(h, 1, 0);
    weave_all(h, 2, 5);
    publish(h, 0, 0);
    publish(h, 1, 0);
    publish(h, 1, 0);
    weave_all(h, 3, 1);
    publish(h, 2, 0);
    branch(h, 1, 3);
}

/* What each line reads, and sixteen of them. */
static void planning(void)
{
    host h = new_host(16 * 16, 2 * 40, 6);
    uint64_t i;
    format(&h, 16, 16, 40, 6);
    planned(&h);
    for (i = 0; i < 4; i++) {
        show_record(&h, i);
        recent(&h, i);
        size(&h, i, 3);
    }
    recent(&h, 4);
    publish(&h, 4, 0);
    size(&h, 4, 0);
    read_range(&h, 4, 0, 0, 0, 1);
    read_range(&h, 0, 1, 15, 2, 3);
    read_range(&h, 1, 3, 15, 2, 3);
    read_range(&h, 2, 1, 15, 1, 3);
    read_range(&h, 3, 3, 47, 2, 3);
    stamp(&h, 3, 3, 1);
    stamp(&h, 3, 3, 4);
    stamp(&h, 5, 3, 1);
    view(&h, 3, 2, 2);
    view(&h, 2, 1, 0);
    view(&h, 16, 1, 0);
    for (i = 4; i < 15; i++) {
        h.s = pit_branch(STORE(&h), i / 2, 0).store;
    }
    branch(&h, 3, 2);
    branch(&h, 0, 1);
    branch(&h, 0, 2);
    free_host(&h);
}

/* An update of two pages at page 0, each filled with its byte, from its ticket to its publication. */
static void send(host *h, uint64_t line, uint64_t ticket, int one, int other)
{
    begin(h, 2);
    put(h, ticket, 0, one, (size_t)h->s.size);
    put(h, ticket, 1, other, (size_t)h->s.size);
    write_at(h, line, ticket, 0);
    weave_all(h, ticket, 3);
    publish(h, line, 0);
}

/* Pages resent unchanged, changed, and changed back; on a branch too. Then a lower version's leaf is lost. */
static void resent(void)
{
    host h = new_host(16 * 16, 2 * 24, 8);
    uint64_t v;
    format(&h, 16, 16, 24, 8);
    send(&h, 0, 1, 0x11, 0x22);
    send(&h, 0, 2, 0x11, 0x33);
    branch(&h, 0, 2);
    send(&h, 0, 3, 0x11, 0x22);
    send(&h, 1, 4, 0x11, 0x33);
    send(&h, 1, 5, 0x44, 0x33);
    for (v = 1; v <= 4; v++) {
        stamp(&h, 0, v, 0);
        stamp(&h, 0, v, 1);
        stamp(&h, 1, v, 0);
        stamp(&h, 1, v, 1);
    }
    h.nodes[2 * 4] = h.nodes[2 * 4 + 1] = UINT32_MAX; /* version 2's leaf of page 0 */
    printf("a node lost");
    end_line(&h);
    stamp(&h, 0, 3, 0);
    stamp(&h, 0, 2, 0);
    stamp(&h, 0, 3, 1);
    free_host(&h);
}

#define TIMES_10(text) text text text text text text text text text text
#define TIMES_11(text) TIMES_10(text) text

/* A register one record too short; then a version that is due, of which the record is another's. */
static void blasting_on_damaged_areas(host *h)
{
    set_windows(h, "480,540;");
    h->records_len -= 1;
    set_windows(h, "1,1;");
    publish(h, 1, 10080);
    h->records_len += 1;
    update(h, 2, 1);
    append(h, 0, 2);
    h->records[1].name = 7;
    printf("a record changed");
    end_line(h);
    publish(h, 0, 479);
    publish(h, 0, 480);
}

/* Windows set, refused and replaced, and a version that is due while they are open. */
static void blasting(void)
{
    host h = new_host(64, 16, 2);
    format(&h, 16, 4, 8, 2);
    set_windows(&h, "480,540;10000,50;");
    update(&h, 1, 1);
    append(&h, 0, 1);
    publish(&h, 0, 480);
    publish(&h, 0, 540);
    weave(&h, 1);
    publish(&h, 1, 10080);
    publish(&h, 0, 10080);
    publish(&h, 0, 539);
    publish(&h, 0, 10079);
    publish(&h, 0, 49);
    set_windows(&h, "1,2;540,540;");
    set_windows(&h, "1,2;3,4");
    set_windows(&h, TIMES_11("0,1;1,2;2,3;"));
    set_windows(&h, TIMES_11("0,1;1,2;2,3;") "3,10080;");
    publish(&h, 0, 50);
    set_windows(&h, TIMES_10("0,1;1,2;10078,10079;") "65,64;10079,0;");
    publish(&h, 0, 64);
    set_windows(&h, "");
    publish(&h, 0, 10079);
    blasting_on_damaged_areas(&h);
    format(&h, 16, 4, 8, 2);
    free_host(&h);
}

/* A row inside the limits, then two outside, the last with numbers above 32 bits. */
static void worst_counts(void)
{
    static const uint64_t cases[][2] = {
        {2, 1}, {64, 2}, {64, 32}, {128, 64}, {4096, 1}, {4096, 64},
        {0, 0}, {1, 1}, {2, 0}, {2, 2}, {6, 1}, {64, 33}, {128, 65}, {4096, 65}, {8192, 1},
        {UINT64_C(4294967360), 2}, {64, UINT64_C(4294967298)}, {UINT64_MAX, UINT64_MAX},
    };
    size_t i;
    for (i = 0; i < sizeof cases / sizeof *cases; i++) {
        uint64_t r = cases[i][0], n = cases[i][1];
        printf("worst of %" PRIu64 " %" PRIu64 ": %" PRIu64 "\n", r, n, pit_worst(r, n));
    }
}

int main(void)
{
    layout_of_stores();
    layout_of_windows();
    layout_of_records();
    layout_of_replies();
    layout_of_readers_replies();
    example();
    all_different();
    planning();
    resent();
    blasting();
    printf("root span of 5 and 4097: %" PRIu64 " %" PRIu64 "\n", pit_root_span(5), pit_root_span(4097));
    printf("nodes of 31 2 64 and 31 2 32: %" PRIu64 " %" PRIu64 "\n", pit_node_count(31, 2, 64), pit_node_count(31, 2, 32));
    worst_counts();
    return 0;
}
