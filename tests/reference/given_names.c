/* Names that a caller gives. */
#include "generate.h"

void make_name(struct bytes *name, const struct bytes *file, const char *letters, uint32_t number)
{
    uint8_t byte = tricky_byte();
    size_t length, at = one_in(6) ? pick_name(file, &length) : pick_field(file, letters, number, &length);

    name->length = 0;
    replace(name, 0, 0, file->bytes + at, length);
    size_t place = below((uint32_t)name->length + 1), inside = place < name->length;
    switch (below(12)) {
    case 0: name->length = 0; break;
    case 1: name->length = 0; put(name, "nothing"); break;
    case 2: while (name->length < NAME_BYTES + 1) put(name, "-"); break;
    case 3: while (name->length < 300) put(name, "-"); break;
    case 4: case 5: replace(name, place, 0, &"\t\n,"[below(3)], 1); break;
    case 6: replace(name, place, inside && one_in(2), &byte, 1); break;
    case 7: name->length -= name->length > 0; break;
    case 8: put(name, "a"); break;
    case 9: name->bytes[place] ^= (uint8_t)(inside << below(8)); break; /* in a letter another case, perhaps */
    case 10: replace(name, 0, 0, "\t", 1); replace(name, 0, 0, letters, 1); break;
    default: turn_case(name->bytes, name->length); break;
    }
}
