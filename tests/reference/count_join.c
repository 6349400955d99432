/* Kinds of pairs that are joined: by what is refused, or by what the joined text is made of. */
#include "compare.h"

#include <string.h>

/* Where both are accepted files; 19 by what differs: */
static struct {
    unsigned long letter, fewer, order, spelling, value; /* fewer or more values; the others where there are as many */
    unsigned long name;                                  /* the attribute's name is in other case */
    unsigned long later;                                 /* behind an attribute of both that is the same */
    unsigned long again;                                 /* a later line differs too */
    unsigned long word;                                  /* the word is none of the four */
} differs;

/* 7 by the word; and where there are over six attributes, and where the joined text would be refused. */
static struct { unsigned long empty, other_case, parted, starts, many, text[7]; } bad_word;

/* What reading the joined text refuses. */
static struct {
    unsigned long too_long, used_too;                /* 1; and a name of both too */
    unsigned long both, other_case, named[2];        /* 4: a name of both, in other case; `joined` in this file */
    unsigned long deep_too;                          /* 4: at depth 8, too */
    unsigned long attributes, space, elements;       /* 5 */
    unsigned long deep[2];                           /* 6, in this file */
    unsigned long short_buffer;                      /* 11 */
} refused_text;

static struct {
    unsigned long word[4];
    unsigned long lacks[2];     /* this file lacks an attribute */
    unsigned long other_order;  /* the second has those of both in another order */
    unsigned long other_case;   /* the second spells a name of both otherwise */
    unsigned long before;       /* the second has one of its own before one of both */
    unsigned long apart;        /* none is of both */
    unsigned long same;         /* all are, in the same order */
    unsigned long set;          /* one of both is an M */
    unsigned long obliged;      /* both have obligations */
    unsigned long deepest, full; /* depth 7, 64 elements */
    unsigned long long_text;    /* of 16,384 bytes */
} done;

static struct { unsigned long first, second, both; } refused;

static int same(struct slice one, struct slice other)
{
    return one.length == other.length && memcmp(one.bytes, other.bytes, one.length) == 0;
}

/* The attribute of equal name, or -1. */
static int named_as(const struct policy *policy, struct slice name)
{
    for (int i = 0; i < policy->attributes; i++)
        if (equal_names(policy->attribute[i].name, name))
            return i;
    return -1;
}

/* How many values of one are among those of the other, to the byte or in any letter case. */
static int among(const struct attribute *one, const struct attribute *other, int spelt_alike)
{
    int count = 0;

    for (int i = 0; i < one->values; i++)
        for (int j = 0; j < other->values; j++)
            count += spelt_alike ? same(one->value[i], other->value[j]) : equal_names(one->value[i], other->value[j]);
    return count;
}

static int is_word(const struct bytes *word)
{
    for (int i = DENY_OVERRIDES; i <= ONLY_ONE_APPLICABLE; i++)
        if (same((struct slice){word->bytes, word->length},
                 (struct slice){(const uint8_t *)words[i].text, strlen(words[i].text)}))
            return 1;
    return 0;
}

static int same_attribute(const struct attribute *one, const struct attribute *other)
{
    int alike = one->letter == other->letter && one->values == other->values;

    for (int i = 0; i < one->values && alike; i++)
        alike = same(one->value[i], other->value[i]);
    return alike;
}

static void count_differing(const struct policy *first, const struct policy *second, int place, const struct bytes *word)
{
    const struct attribute *other = &second->attribute[place];
    const struct attribute *one = &first->attribute[named_as(first, other->name)];

    differs.name += !same(one->name, other->name);
    differs.word += !is_word(word);
    for (int i = 0; i < place; i++)
        differs.later += named_as(first, second->attribute[i].name) >= 0;
    for (int i = place + 1; i < second->attributes; i++) {
        int of_both = named_as(first, second->attribute[i].name);
        differs.again += of_both >= 0 && !same_attribute(&first->attribute[of_both], &second->attribute[i]);
    }
    if (one->letter != other->letter)
        differs.letter++;
    else if (one->values != other->values)
        differs.fewer++;
    else if (among(one, other, 1) == one->values)
        differs.order++;
    else if (among(one, other, 0) == one->values)
        differs.spelling++;
    else
        differs.value++;
}

/* `text` is what a good word would give. */
static void count_bad_word(struct slice word, uint32_t line, struct answer text)
{
    bad_word.empty += word.length == 0;
    bad_word.many += line > ATTRIBUTES + 1;
    bad_word.text[text.number < 7 ? text.number : 0]++;
    bad_word.parted += memchr(word.bytes, '\t', word.length) != NULL || memchr(word.bytes, '\n', word.length) != NULL;
    for (int i = DENY_OVERRIDES; i <= ONLY_ONE_APPLICABLE; i++) {
        struct slice one = {(const uint8_t *)words[i].text, strlen(words[i].text)};
        bad_word.other_case += equal_names(word, one);
        bad_word.starts += word.length > 0 && word.length < one.length && memcmp(word.bytes, one.bytes, word.length) == 0;
    }
}

/* The element on this line of the joined text, and which file it is in; -1 if it is `joined` itself. */
static const struct element *element_on(const struct policy file[2], uint32_t line, uint32_t joined_line, int *which)
{
    uint32_t at = joined_line;

    for (*which = 0; *which < 2; ++*which)
        for (int place = 0; place < file[*which].elements; place++) {
            const struct element *element = &file[*which].element[place];
            at++;
            if (at == line)
                return element;
            at += (uint32_t)element->obligations;
        }
    return NULL;
}

static int of_both(const struct policy *first, const struct policy *second)
{
    int count = 0;

    for (int i = 0; i < second->attributes; i++)
        count += named_as(first, second->attribute[i].name) >= 0;
    return count;
}

static void count_refused_text(const struct policy file[2], struct answer answer)
{
    static const struct slice joined = {(const uint8_t *)"joined", 6};
    uint32_t attributes = (uint32_t)(file[0].attributes + file[1].attributes - of_both(&file[0], &file[1]));
    int which = 0;
    const struct element *element = element_on(file, answer.second, attributes + 1, &which);

    if (answer.number == 1) {
        int used = 0;
        for (int place = 0; place < file[1].elements; place++)
            used |= element_named(&file[0], file[1].element[place].name) >= 0;
        refused_text.too_long++;
        refused_text.used_too += (unsigned long)used;
    } else if (answer.number == 4) {
        int other = element_named(&file[0], element->name), named = equal_names(element->name, joined);
        refused_text.named[which] += (unsigned long)named;
        refused_text.both += !named;
        refused_text.other_case += !named && !same(file[0].element[other].name, element->name);
        refused_text.deep_too += element->depth == 7;
    } else if (answer.number == 5) {
        refused_text.attributes += answer.second == ATTRIBUTES + 1;
        refused_text.space += answer.second <= ATTRIBUTES;
        refused_text.elements += answer.second > attributes;
    } else
        refused_text.deep[which]++;
}

void count_joined(const struct policy file[2], const struct policy *joined, size_t length)
{
    int both = of_both(&file[0], &file[1]), last = -1, rising = 1, own = 0, other_case = 0, before = 0, set = 0, depth = 0;

    for (int i = 0; i < file[1].attributes; i++) {
        int place = named_as(&file[0], file[1].attribute[i].name);
        if (place < 0) {
            own = 1;
            continue;
        }
        before |= own;
        rising &= place > last;
        last = place;
        other_case |= !same(file[0].attribute[place].name, file[1].attribute[i].name);
        set |= file[1].attribute[i].letter == 'M';
    }
    for (int place = 0; place < joined->elements; place++)
        depth = joined->element[place].depth > depth ? joined->element[place].depth : depth;
    done.word[joined->element[0].word - DENY_OVERRIDES]++;
    done.lacks[0] += both < file[1].attributes;
    done.lacks[1] += both < file[0].attributes;
    done.other_order += !rising;
    done.other_case += (unsigned long)other_case;
    done.before += (unsigned long)before;
    done.apart += both == 0;
    done.same += both > 1 && both == file[0].attributes && both == file[1].attributes && rising;
    done.set += (unsigned long)set;
    done.obliged += has_obligation(&file[0]) && has_obligation(&file[1]);
    done.deepest += depth == 7;
    done.full += joined->elements == ELEMENTS;
    done.long_text += length == FILE_BYTES;
}

void count_joining(const struct joining *joining, struct answer answer)
{
    static const char good[] = "deny-overrides";
    static struct policy file[2];
    const struct bytes *first = &joining->first, *second = &joining->second, *word = &joining->word;
    struct answer one = read_policy(first->bytes, first->length, &file[0]);
    struct answer other = read_policy(second->bytes, second->length, &file[1]);

    if (one.number != 0 || other.number != 0) {
        refused.first += one.number != 0;
        refused.second += one.number == 0;
        refused.both += one.number != 0 && other.number != 0 && (one.number != other.number || one.second != other.second);
    } else if (answer.number == 19)
        count_differing(&file[0], &file[1], (int)answer.second - 1, word);
    else if (answer.number == 7)
        count_bad_word((struct slice){word->bytes, word->length}, answer.second,
                       ref_join(first->bytes, first->length, second->bytes, second->length, (const uint8_t *)good,
                                strlen(good), NULL, 0));
    else if (answer.number == 11)
        refused_text.short_buffer++;
    else if (answer.number != 0)
        count_refused_text(file, answer);
}

int joining_seen(void)
{
    const struct seen answers[] = {
        {"first file refused", refused.first}, {"second", refused.second}, {"both", refused.both},
        {"19 for the letter", differs.letter}, {"for more values or fewer", differs.fewer},
        {"for their order", differs.order}, {"for their letter case", differs.spelling}, {"for other values", differs.value},
        {"with a name in other case", differs.name}, {"behind one that is the same", differs.later},
        {"before another", differs.again}, {"with a bad word too", differs.word},
        {"7 for no word", bad_word.empty}, {"for letter case", bad_word.other_case},
        {"for a tab or newline", bad_word.parted}, {"for a beginning", bad_word.starts},
        {"with over six attributes", bad_word.many}, {"before 1", bad_word.text[1]},
        {"before 4", bad_word.text[4]}, {"before 5", bad_word.text[5]}, {"before 6", bad_word.text[6]},
        {"1", refused_text.too_long}, {"1 before 4", refused_text.used_too}, {"4 for a name of both", refused_text.both},
        {"but for case", refused_text.other_case}, {"for joined in the first", refused_text.named[0]},
        {"in the second", refused_text.named[1]}, {"before 6", refused_text.deep_too},
        {"5 for attribute 7", refused_text.attributes}, {"for the space", refused_text.space},
        {"for element 65", refused_text.elements}, {"6 in the first", refused_text.deep[0]},
        {"in the second", refused_text.deep[1]}, {"11", refused_text.short_buffer},
    };
    const struct seen texts[] = {
        {"deny-overrides", done.word[0]}, {"permit-overrides", done.word[1]}, {"first-applicable", done.word[2]},
        {"only-one-applicable", done.word[3]}, {"the first lacks an attribute", done.lacks[0]},
        {"the second", done.lacks[1]}, {"in other order", done.other_order}, {"in other case", done.other_case},
        {"the second's own before one of both", done.before}, {"none of both", done.apart}, {"all of both", done.same},
        {"an M of both", done.set}, {"obligations in both", done.obliged}, {"depth 7", done.deepest},
        {"64 elements", done.full}, {"16,384 bytes", done.long_text},
    };
    int often = seen_often("pairs of files", answers, sizeof answers / sizeof *answers);

    often = seen_often("joined texts", texts, sizeof texts / sizeof *texts) && often;
    return joined_seen() && often;
}
