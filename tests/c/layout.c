/*
 * The structs are laid out as the libraries return them: by the rules of C, for x86-64. None has padding: its first field starts
 * at 0, each other where the one before it ends, and the last ends with it.
 */
#include <yendlowa_desk.h>
#include <yendlowa_issuer.h>

#define SIZE(type, size) _Static_assert(sizeof(type) == (size), #type)

#define END(type, field) (offsetof(type, field) + sizeof(((type *)0)->field))
#define FIRST(type, field) _Static_assert(offsetof(type, field) == 0, #type "." #field)
#define NEXT(type, before, field, at) \
    _Static_assert(END(type, before) == (at) && offsetof(type, field) == (at), #type "." #field)
#define LAST(type, field) _Static_assert(END(type, field) == sizeof(type), #type "." #field)

SIZE(size_t, 8);
SIZE(bool, 1);

SIZE(yendlowa_digest, 33);
FIRST(yendlowa_digest, refusal);
NEXT(yendlowa_digest, refusal, bytes, 1);
LAST(yendlowa_digest, bytes);

SIZE(yendlowa_pair, 2);
FIRST(yendlowa_pair, upper);
NEXT(yendlowa_pair, upper, lower, 1);
LAST(yendlowa_pair, lower);

SIZE(yendlowa_policy, 1176);
FIRST(yendlowa_policy, refusal);
NEXT(yendlowa_policy, refusal, zeros, 1);
NEXT(yendlowa_policy, zeros, labels, 8);
NEXT(yendlowa_policy, labels, pairs, 16);
NEXT(yendlowa_policy, pairs, counts, 24);
NEXT(yendlowa_policy, counts, over, 152);
LAST(yendlowa_policy, over);

SIZE(yendlowa_rows, 4097);
FIRST(yendlowa_rows, refusal);
NEXT(yendlowa_rows, refusal, rows, 1);
NEXT(yendlowa_rows, rows[0], rows[1], 65);
LAST(yendlowa_rows, rows);

SIZE(yendlowa_roster, 8336);
FIRST(yendlowa_roster, refusal);
NEXT(yendlowa_roster, refusal, zeros, 1);
NEXT(yendlowa_roster, zeros, labels, 8);
NEXT(yendlowa_roster, labels, counts, 16);
NEXT(yendlowa_roster, counts, states, 144);
NEXT(yendlowa_roster, states, places, 4240);
LAST(yendlowa_roster, places);

SIZE(yendlowa_planned, 400);
FIRST(yendlowa_planned, refusal);
NEXT(yendlowa_planned, refusal, zeros, 1);
NEXT(yendlowa_planned, zeros, total, 4);
NEXT(yendlowa_planned, total, labels, 8);
NEXT(yendlowa_planned, labels, parents, 16);
NEXT(yendlowa_planned, parents, weights, 80);
NEXT(yendlowa_planned, weights, sizes, 336);
LAST(yendlowa_planned, sizes);

SIZE(yendlowa_weighed, 8);
FIRST(yendlowa_weighed, refusal);
NEXT(yendlowa_weighed, refusal, least, 1);
NEXT(yendlowa_weighed, least, zeros, 2);
NEXT(yendlowa_weighed, zeros, total, 4);
LAST(yendlowa_weighed, total);

SIZE(yendlowa_grown, 144);
FIRST(yendlowa_grown, refusal);
NEXT(yendlowa_grown, refusal, zeros, 1);
NEXT(yendlowa_grown, zeros, labels, 8);
NEXT(yendlowa_grown, labels, costs, 16);
NEXT(yendlowa_grown, costs, ceilings, 80);
LAST(yendlowa_grown, ceilings);

SIZE(yendlowa_text, 80);
FIRST(yendlowa_text, text);
LAST(yendlowa_text, text);

SIZE(yendlowa_written, 16);
FIRST(yendlowa_written, refusal);
NEXT(yendlowa_written, refusal, zeros, 1);
NEXT(yendlowa_written, zeros, length, 8);
LAST(yendlowa_written, length);

SIZE(yendlowa_label_key, 33);
FIRST(yendlowa_label_key, refusal);
NEXT(yendlowa_label_key, refusal, key, 1);
LAST(yendlowa_label_key, key);

SIZE(yendlowa_root_fingerprint, 9);
FIRST(yendlowa_root_fingerprint, refusal);
NEXT(yendlowa_root_fingerprint, refusal, bytes, 1);
LAST(yendlowa_root_fingerprint, bytes);

SIZE(yendlowa_derived, 34);
FIRST(yendlowa_derived, refusal);
NEXT(yendlowa_derived, refusal, key, 1);
NEXT(yendlowa_derived, key, applications, 33);
LAST(yendlowa_derived, applications);

SIZE(yendlowa_labels_read, 528);
FIRST(yendlowa_labels_read, refusal);
NEXT(yendlowa_labels_read, refusal, zeros, 1);
NEXT(yendlowa_labels_read, zeros, account, 6);
NEXT(yendlowa_labels_read, account, labels, 8);
NEXT(yendlowa_labels_read, labels, names, 16);
NEXT(yendlowa_labels_read, names[0], names[1], 24);
LAST(yendlowa_labels_read, names);
