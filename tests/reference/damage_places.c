/* Damages to the places for obligations in the elements of a list. Some leave a good list. */
#include "generate.h"

#include <string.h>

static struct place *pick_place(struct record *record)
{
    return &record->place[below(OBLIGATIONS)];
}

/* A good obligation in the next place, if there is one; the rule's too. */
static void fill(struct record *record)
{
    static const char *const names[] = {"log", "slow", "Log", "name-of-16-bytes"};
    const char *name = names[below(4)];

    if (record->obligations >= OBLIGATIONS)
        return;
    struct place *place = &record->place[record->obligations++];
    memset(place, 0, sizeof *place);
    memcpy(place->name, name, strlen(name));
    place->length = (uint8_t)strlen(name);
    place->word = one_in(2) ? EFFECT_DENY : EFFECT_PERMIT;
}

static void damage_name(struct place *place)
{
    static const uint8_t lengths[] = {0, 1, 15, 16, 17, 255};

    switch (below(6)) {
    case 0: place->length = lengths[below(sizeof lengths)]; break;
    case 1: place->length++; break; /* a zero byte in it, or 17 bytes */
    case 2: place->length--; break; /* a byte behind it, or 255 */
    case 3: place->name[NAME_BYTES - 1 - below(3)] = tricky_byte(); break;
    case 4: place->name[0] = one_in(2) ? '-' : byte_beside_letters(); break;
    default: memset(place, 0, sizeof *place); break;
    }
}

/* The second name becomes the first but for case, perhaps. */
static void name_alike(struct record *record)
{
    fill(record);
    fill(record);
    size_t length = record->place[0].length;
    if (length > NAME_BYTES)
        return;
    memset(record->place[1].name, 0, NAME_BYTES);
    make_equal(record->place[0].name, record->place[1].name, &length);
    record->place[0].length = record->place[1].length = (uint8_t)length;
}

void damage_places(struct list *list, struct record *record)
{
    static const uint8_t counts[] = {0, 1, 2, 3, 3, 4, 128, 255};
    struct record *other = &list->record[below((uint32_t)list->elements)];

    if (!one_in(3))
        fill(record);
    switch (below(10)) {
    case 0: case 1: record->obligations = counts[below(sizeof counts)]; break;
    case 2: fill(record); fill(record); record->obligations += (uint8_t)(1 + below(2)); break; /* the third */
    case 3: damage_name(pick_place(record)); break;
    case 4: pick_place(record)->word = (enum word)below(WORDS); break;
    case 5: name_alike(record); break;
    case 6: record->obligations = 0; break; /* what is left stands in an unused place */
    case 7: memcpy(record->place, other->place, sizeof record->place); break; /* and another count, perhaps */
    case 8: fill(record); break;
    default: damage_name(&record->place[record->obligations % OBLIGATIONS]); break; /* of an unused place, or the first */
    }
}
