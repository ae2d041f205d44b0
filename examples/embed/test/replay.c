/* Does the calls that model.py made, and compares each answer with the one that the model gave, and the names of what was freed and the texts
   of a printed host with the model's. It reads them on standard input. */
#include "../kaffe.h"
#include <inttypes.h>
#include <stdio.h>

static void need(void *to, size_t size) {
    if (fread(to, 1, size, stdin) != size) {
        fprintf(stderr, "replay: the input ends too early\n");
        exit(2);
    }
}

static kaffe_host *open_next(void) {
    uint32_t head[3];
    kaffe_rooms rooms;
    kaffe_answer why;
    need(head, sizeof head);
    need(&rooms, sizeof rooms);
    char *text = (char *)malloc((size_t)head[0] + 1);
    if (!text) exit(2);
    need(text, head[0]);
    text[head[0]] = 0;
    kaffe_host *h = kaffe_make_with(text, head[1], head[2], &rooms, &why);
    if (!h) fprintf(stderr, "replay: line %" PRIu32 ", reason %" PRIu32 " of\n%s", why.seg, why.at, text);
    free(text);
    if (!h) exit(1);
    return h;
}

static int by_name(const void *one, const void *other) {
    const kaffe_name *a = (const kaffe_name *)one, *b = (const kaffe_name *)other;
    return a->seg != b->seg ? (a->seg > b->seg) - (a->seg < b->seg) : (a->serial > b->serial) - (a->serial < b->serial);
}

/* Whether the names of what the last collection freed are those that the model gave, in any order. */
static int same_freed(kaffe_host *h) {
    uint32_t count;
    need(&count, sizeof count);
    kaffe_name *due = (kaffe_name *)malloc((count + 1) * sizeof *due), *said = (kaffe_name *)malloc((count + 1) * sizeof *said);
    if (!due || !said) exit(2);
    need(due, count * sizeof *due);
    int same = kaffe_freed(h, said, count) == count;
    qsort(said, same ? count : 0, sizeof *said, by_name);
    same = same && memcmp(said, due, count * sizeof *due) == 0;
    free(due);
    free(said);
    return same;
}

/* Whether a text that was printed, read in pieces of some size, is the one that the model gave. */
static int same_text(kaffe_host *h, enum kaffe_text text) {
    uint32_t head[2]; /* its length, and that of a piece */
    need(head, sizeof head);
    uint8_t *due = (uint8_t *)malloc((size_t)head[0] + 1), *piece = (uint8_t *)malloc((size_t)head[1] + 1);
    if (!due || !piece) exit(2);
    need(due, head[0]);
    size_t from = 0;
    int same = 1;
    for (size_t count = 1; same && count > 0; from += count) {
        piece[head[1]] = 7;
        count = kaffe_read(h, text, from, piece, head[1]);
        same = count <= head[1] && from + count <= head[0] && memcmp(piece, due + from, count) == 0 && piece[head[1]] == 7;
    }
    free(due);
    free(piece);
    return same && from == head[0];
}

static void print(const char *who, kaffe_answer a) {
    fprintf(stderr, "  %-8s status %" PRIu32 " fault %" PRIu32 " at %" PRIu32 " what %" PRIu32 " seg %" PRIu32 " serial %" PRIu32 " number %" PRIu64 "\n", who,
            a.status, a.fault, a.at, a.what, a.seg, a.serial, a.number);
}

/* Whether the answers are the same; else both are printed. */
static int same_answer(kaffe_answer said, kaffe_answer due) {
    if (memcmp(&said, &due, sizeof due) == 0) return 1;
    print("library", said);
    print("model", due);
    return 0;
}

int main(void) {
    kaffe_host *h = NULL;
    unsigned long calls = 0, hosts = 0, lacks = 0, faults = 0, lists = 0, texts = 0, grown = 0;
    for (int tag; (tag = getchar()) != EOF;) {
        if (tag == 'O') {
            h = open_next();
            hosts++;
        } else if (tag == 'E') {
            kaffe_free(h);
            h = NULL;
        } else if (tag == 'F') {
            lists++;
            if (!same_freed(h)) {
                fprintf(stderr, "replay: after call %lu the names of what was freed differ\n", calls);
                return 1;
            }
        } else if (tag == 'T') {
            int same = same_text(h, KAFFE_TRACE);
            if (!same_text(h, KAFFE_REPORT) || !same) {
                fprintf(stderr, "replay: after call %lu what was printed differs\n", calls);
                return 1;
            }
            texts++;
        } else if (tag == 'G') {
            kaffe_rooms rooms;
            kaffe_answer due;
            need(&rooms, sizeof rooms);
            need(&due, sizeof due);
            grown += due.status == 0;
            if (!same_answer(kaffe_grow(h, rooms), due)) {
                fprintf(stderr, "replay: after call %lu larger rooms differ\n", calls);
                return 1;
            }
        } else {
            kaffe_request q;
            kaffe_answer due, said;
            need(&q, sizeof q);
            need(&due, sizeof due);
            said = kaffe_call(h, q);
            calls++;
            lacks += due.status != 0;
            faults += due.fault != 0;
            if (!same_answer(said, due)) {
                fprintf(stderr, "replay: call %lu differs: call %" PRIu32 " pid %" PRIu32 " at %" PRIu32 " to %" PRIu32 " reg %u base %u\n", calls, q.call, q.pid, q.at,
                        q.to, q.reg, q.base);
                return 1;
            }
        }
    }
    printf("%lu calls in %lu hosts, %lu lacking and %lu refused, %lu larger rooms, %lu lists of freed names and %lu pairs of texts: each is the model's\n", calls,
           hosts, lacks, faults, grown, lists, texts);
    return calls == 0;
}
