/* The step to the next request in other forms. All give the same requests; machine_code.py accepts the first and
 * refuses the others, since these compare or branch on value numbers. */
#include "request.h"

struct request by_quotient(struct request q, struct counts c) {
    unsigned carry = 1;
    for (size_t i = q.len; i > 0;) {
        i--;
        unsigned sum = (unsigned)q.values[i] + carry, count = (unsigned)c.counts[i];
        q.values[i] = sum % count;
        carry = sum / count;
    }
    return q;
}

/* the loop stops when nothing is carried on */
struct request stopping_early(struct request q, struct counts c) {
    unsigned carry = 1;
    for (size_t i = q.len; i > 0 && carry != 0;) {
        i--;
        unsigned sum = (unsigned)q.values[i] + carry, count = (unsigned)c.counts[i];
        q.values[i] = sum % count;
        carry = sum / count;
    }
    return q;
}

/* a value is compared with its count */
struct request comparing(struct request q, struct counts c) {
    for (size_t i = q.len; i > 0;) {
        i--;
        if (q.values[i] + 1 < c.counts[i]) {
            q.values[i]++;
            return q;
        }
        q.values[i] = 0;
    }
    return q;
}

/* the comparison is made into a number */
struct request by_truth(struct request q, struct counts c) {
    size_t carry = 1;
    for (size_t i = q.len; i > 0;) {
        i--;
        size_t sum = q.values[i] + carry;
        carry = sum == c.counts[i];
        q.values[i] = sum * (1 - carry);
    }
    return q;
}

/* the last number is stepped at once where it can be, and the loop does the rest */
struct request short_cut(struct request q, struct counts c) {
    if (q.len > 0 && q.values[q.len - 1] + 1 < c.counts[q.len - 1]) {
        q.values[q.len - 1]++;
        return q;
    }
    return by_quotient(q, c);
}

/* numbers that fit into 32 bits are divided apart from others, as a compiler may do with a division of 64 */
struct request by_size(struct request q, struct counts c) {
    size_t carry = 1;
    for (size_t i = q.len; i > 0;) {
        i--;
        size_t sum = q.values[i] + carry, count = c.counts[i];
        if ((sum | count) >> 32 == 0) {
            q.values[i] = (unsigned)sum % (unsigned)count;
            carry = (unsigned)sum / (unsigned)count;
        } else {
            q.values[i] = sum % count;
            carry = sum / count;
        }
    }
    return q;
}

/* what is carried on tells where to go on */
struct request by_label(struct request q, struct counts c) {
    __extension__ static void *const places[] = {&&out, &&on};
    unsigned carry = 1;
    size_t i = q.len;
    if (i == 0) return q;
on:
    i--;
    unsigned sum = (unsigned)q.values[i] + carry, count = (unsigned)c.counts[i];
    q.values[i] = sum % count;
    carry = sum / count;
    if (i == 0) return q;
    __extension__({ goto *places[carry]; });
out:
    return q;
}
