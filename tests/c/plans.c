/* yendlowa_plan, yendlowa_weigh: the scope paper's examples, and the refusals of tree files. */
#include "groups.h"
#include <string.h>
#include <yendlowa_issuer.h>

static yendlowa_planned plan(bytes file)
{
    bytes p = input(0, file);
    return yendlowa_plan(p.at, p.length);
}

static yendlowa_weighed weigh(bytes file, bytes tree)
{
    bytes p = input(0, file), t = input(1, tree);
    return yendlowa_weigh(p.at, p.length, t.at, t.length);
}

static void planned_e(void)
{
    static const uint32_t weights[] = {2, 3, 5, 7};
    yendlowa_planned e = plan(BYTES(E));
    check(e.refusal == YENDLOWA_ACCEPTED && e.labels == 4 && e.total == 17);
    check(same(e.parents, BYTES("\0\0\0\2")) && all_zero(e.parents + 4, 60));
    check(memcmp(e.weights, weights, sizeof weights) == 0 && all_zero(e.weights + 4, sizeof e.weights - sizeof weights));
    check(same(e.sizes, BYTES("\1\2\1\1")) && all_zero(e.sizes + 4, 60));
}

#define CHAIN "LBA       \0\1LBB       \0\0LBC       \0\4OV\0\1OV\1\2"

static void planned_others(void)
{
    yendlowa_planned chain = plan(BYTES(CHAIN));
    check(chain.refusal == YENDLOWA_ACCEPTED && chain.total == 5 && chain.parents[2] == 1 && chain.weights[2] == 4);
    check(plan(BYTES("LBONE     \0\7")).total == 7);
    yendlowa_planned none = plan(BYTES(E "OV\3\3"));
    check(none.refusal == YENDLOWA_NOT_ABOVE && none.labels == 0 && none.total == 0);
    check(all_zero(none.parents, 64) && all_zero(none.weights, sizeof none.weights) && all_zero(none.sizes, 64));
    check(plan(BYTES("")).refusal == YENDLOWA_EMPTY);
}

static void offered(bytes policy, bytes tree, uint32_t total, bool least)
{
    yendlowa_weighed answer = weigh(policy, tree);
    check(answer.refusal == YENDLOWA_ACCEPTED && answer.total == total && answer.least == least);
}

static void refused(bytes policy, bytes tree, uint8_t number)
{
    yendlowa_weighed answer = weigh(policy, tree);
    check(answer.refusal == number && answer.total == 0 && !answer.least);
}

void plans(void)
{
    planned_e();
    planned_others();
    offered(BYTES(E), BYTES("TR\0\0\0\2"), 17, true);
    offered(BYTES(E), BYTES("TR\0\0\0\1"), 19, false);
    offered(BYTES(E), BYTES("TR\0\0\0\0"), 22, false);
    offered(BYTES(CHAIN), BYTES("TR\0\0\1"), 5, true);
    offered(BYTES(CHAIN), BYTES("TR\0\0\0"), 5, true);
    refused(BYTES(E), BYTES(""), YENDLOWA_BAD_MARK);
    refused(BYTES(E), BYTES("T"), YENDLOWA_BAD_MARK);
    refused(BYTES(E), BYTES("LB\0\0\0\2"), YENDLOWA_BAD_MARK);
    refused(BYTES(E), BYTES("TR\0\0\0"), YENDLOWA_TREE_LENGTH);
    refused(BYTES(E), BYTES("TR\0\0\0\2\0"), YENDLOWA_TREE_LENGTH);
    refused(BYTES(E), BYTES("TR\0\0\1\2"), YENDLOWA_TREE_PARENT);
    refused(BYTES(E), BYTES("TR\1\0\0\2"), YENDLOWA_TREE_PARENT);
    refused(BYTES(E), BYTES("TR\0\0\0\100"), YENDLOWA_TREE_PARENT);
    refused(BYTES(""), BYTES(""), YENDLOWA_EMPTY);
}
