/* The heap: a hash table of linked lists in memory that the program asks for by
   moving its break, a page at a time. */

#include "calls.h"
#include "text.h"

struct entry {
        unsigned key;
        unsigned times;
        struct entry *next;
};

static char *heap_start, *heap_next, *heap_end;

/* Gives `size` bytes that nothing else uses.  Ends the program with code 1 where
   the break can't be moved. */
static void *take(unsigned size)
{
        size = (size + 7) & ~7u;
        while ((unsigned)(heap_end - heap_next) < size) {
                char *wanted = heap_end + 4096;
                if (set_break(wanted) != wanted)
                        leave(1);
                heap_end = wanted;
        }
        char *given = heap_next;
        heap_next += size;
        return given;
}

struct table {
        struct entry **lists;
        unsigned width;         /* how many lists; a power of two */
        unsigned entries;
};

/* New memory is zero, so all lists of a new table are empty. */
static void widen(struct table *t, unsigned width)
{
        struct entry **lists = take(width * sizeof *lists);
        for (unsigned i = 0; i < t->width; i++)
                while (t->lists[i] != 0) {
                        struct entry *e = t->lists[i];
                        t->lists[i] = e->next;
                        e->next = lists[e->key & (width - 1)];
                        lists[e->key & (width - 1)] = e;
                }
        t->lists = lists;
        t->width = width;
}

static struct entry *count_key(struct table *t, unsigned key)
{
        struct entry *e = t->lists[key & (t->width - 1)];
        while (e != 0 && e->key != key)
                e = e->next;
        if (e == 0) {
                if (t->entries == t->width)
                        widen(t, 2 * t->width);
                e = take(sizeof *e);
                e->key = key;
                e->times = 0;
                e->next = t->lists[key & (t->width - 1)];
                t->lists[key & (t->width - 1)] = e;
                t->entries++;
        }
        e->times++;
        return e;
}

int main(void)
{
        heap_start = heap_next = heap_end = set_break(0);
        struct table t = {0, 0, 0};
        widen(&t, 16);

        unsigned drawn = 1, most = 0, most_key = 0;
        for (int i = 0; i < 5000; i++) {
                drawn = drawn * 1664525 + 1013904223;
                unsigned key = (drawn >> 16) % 1500;
                struct entry *e = count_key(&t, key);
                if (e->times > most) {
                        most = e->times;
                        most_key = key;
                }
        }
        put_number(t.entries);
        put_text(" keys in ");
        put_number(t.width);
        put_text(" lists\nkey ");
        put_number(most_key);
        put_text(" was counted ");
        put_number(most);
        put_text(" times\nthe heap has ");
        put_number((unsigned)(heap_end - heap_start));
        put_text(" bytes\n");
        return 0;
}
