/* Makes lists for the writer, good and bad, with attribute lines and a buffer for each, and what the reference answers.
 *
 * Usage: make_lists SEED COUNT LISTS ANSWERS. Each list is made from its own seed alone, SEED and those behind it. LISTS
 * gets them as crates/vectors reads them: how many lists; for each, how many bytes its attribute lines and its buffer
 * have, and how many elements it has; the attribute lines; 69 bytes for each element: kind, depth, name, the name's
 * length, word, masks, the count of obligations and for each of two places name, length and word. Numbers are two bytes,
 * the higher first, but depth, lengths, words and the count. ANSWERS gets a line for each list: the answer's two numbers
 * and a sum over the buffer afterwards. The exit status is 1 if a good list is not written as the file that it was read
 * from, or if many lists missed some of the answers. */
#include "generate.h"

#include <stdio.h>
#include <stdlib.h>

enum { MANY = 1000, OFTEN = 10 }; /* of so many lists, so many answers of each number */
enum { NUMBERS = 15, TOO_MANY = 65536 };

static unsigned long seen[NUMBERS];
/* Lists written, of which an attribute line is an M, or an element has obligations; lists refused that have obligations on a
 * rule, a count over two, or content in unused places. Elements behind the one that is refused count too. */
static unsigned long with_sets, with_obligations, on_rule, over_two, in_unused;

static void put_pair(FILE *file, size_t number)
{
    putc((int)(number >> 8), file);
    putc((int)(number & 255), file);
}

static void store(FILE *file, const struct list *list)
{
    put_pair(file, list->lines.length);
    put_pair(file, list->room);
    put_pair(file, list->elements);
    fwrite(list->lines.bytes, 1, list->lines.length, file);
    for (size_t i = 0; i < list->elements; i++) {
        const struct record *record = &list->record[i];
        putc(record->kind, file);
        putc(record->depth, file);
        fwrite(record->name, 1, sizeof record->name, file);
        putc(record->length, file);
        putc((int)record->word, file);
        for (int mask = 0; mask < ATTRIBUTES; mask++)
            put_pair(file, record->mask[mask]);
        putc(record->obligations, file);
        for (int i = 0; i < OBLIGATIONS; i++) {
            fwrite(record->place[i].name, 1, sizeof record->place[i].name, file);
            putc(record->place[i].length, file);
            putc((int)record->place[i].word, file);
        }
    }
}

static int has_set(const struct bytes *lines)
{
    for (size_t i = 0; i < lines->length; i++)
        if (lines->bytes[i] == 'M' && (i == 0 || lines->bytes[i - 1] == '\n'))
            return 1;
    return 0;
}

static void count_obligations(const struct list *list, uint32_t number)
{
    int some = 0;

    for (size_t i = 0; i < list->elements; i++) {
        const struct record *record = &list->record[i];
        some |= record->obligations > 0;
        on_rule += number == 14 && record->kind == 'R' && record->obligations > 0;
        over_two += number == 14 && record->kind != 'R' && record->obligations > OBLIGATIONS;
        for (int place = record->obligations; place < OBLIGATIONS; place++)
            in_unused += number == 3 && (record->place[place].length != 0 || record->place[place].word != EFFECT_PERMIT);
    }
    with_obligations += number == 0 && some;
}

static void store_answer(FILE *file, const struct list *list)
{
    static uint8_t out[TOO_MANY];
    struct answer answer = write_to(list, out, list->room);
    uint64_t sum = 0;

    for (size_t i = 0; i < list->room; i++)
        sum = (sum * 257 + out[i] + 1) % 4294967291u;
    fprintf(file, "%lu\t%lu\t%llu\n", (unsigned long)answer.number, (unsigned long)answer.second, (unsigned long long)sum);
    seen[answer.number]++;
    with_sets += answer.number == 0 && has_set(&list->lines);
    count_obligations(list, answer.number);
}

int main(int count, char **words)
{
    static struct list list;
    FILE *lists = count == 5 ? fopen(words[3], "wb") : NULL, *answers = count == 5 ? fopen(words[4], "wb") : NULL;
    unsigned long otherwise = 0, number = count == 5 ? strtoul(words[2], NULL, 10) : TOO_MANY;

    if (lists == NULL || answers == NULL || number >= TOO_MANY) {
        fprintf(stderr, "usage: make_lists SEED COUNT LISTS ANSWERS\n");
        return 2;
    }
    put_pair(lists, number);
    for (unsigned long i = 0; i < number; i++) {
        otherwise += !make_list(&list, strtoull(words[1], NULL, 10) + i);
        store(lists, &list);
        store_answer(answers, &list);
    }
    int all = 1;
    printf("%lu good lists written otherwise; answers for %lu lists by number:", otherwise, number);
    for (int i = 0; i < NUMBERS; i++) {
        printf(" %d:%lu", i, seen[i]);
        all = all && (seen[i] >= OFTEN || i == 10 || i == 12 || i == 13); /* of requests, of reading, of pairs */
    }
    printf(", written with an M: %lu, with obligations: %lu, refused with some on a rule: %lu, over two: %lu,", with_sets,
           with_obligations, on_rule, over_two);
    printf(" content in unused places: %lu\n", in_unused);
    all = all && with_sets >= OFTEN && with_obligations >= OFTEN && on_rule >= OFTEN && over_two >= OFTEN && in_unused >= OFTEN;
    return fclose(lists) != 0 || fclose(answers) != 0 || otherwise != 0 || (number >= MANY && !all);
}
