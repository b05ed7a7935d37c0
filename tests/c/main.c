/* Every function of both libraries through their headers. Each group is run with inputs and buffers at each side of a page. */
#include "groups.h"

static void everywhere(const char *name, void (*tests)(void))
{
    group(name);
    for (side = 0; side < SIDES; side++) tests();
}

int main(void)
{
    everywhere("hash and HMAC", hashes);
    everywhere("policies read, counted and ordered", policies);
    everywhere("plans and trees weighed", plans);
    everywhere("what one more account costs", growth);
    everywhere("texts and drawings, into buffers of every length", texts);
    everywhere("keys, and envelopes into buffers of every length", issuing);
    everywhere("fingerprints of root secrets", fingerprints);
    everywhere("envelopes read at the desk", deriving);
    everywhere("module files sealed and opened", sealing);
    everywhere("rosters, and what their counts change", rosters);
    everywhere("the words of refusals, and names padded", names);
    everywhere("how much of a file decides", rooms);
    everywhere("every byte of an answer, whatever memory and stack held before", answers);
    everywhere("four threads at once", threads);
    everywhere("four threads at once, with a roster of 4,096 accounts", roster_threads);
    return report();
}
