/*
 * Prints the plan of a policy file, and how many keys would be issued if every label were derived straight from the top.
 * After 'make lib': cc -I build/include examples/weigh.c -L build/lib -lyendlowa-issuer -o build/weigh
 * Exit status: 0 an answer, 1 refused, 2 a wrong call or a file that could not be read or written.
 */
#include <stdio.h>
#include <yendlowa_issuer.h>

int main(int argc, char **argv)
{
    static uint8_t policy[YENDLOWA_POLICY_ROOM]; /* of a longer file these bytes decide */
    uint8_t text[YENDLOWA_TEXT_ROOM], tree[2 + YENDLOWA_LABELS] = "TR"; /* each parent is label 0, the top */
    if (argc != 2) {
        fprintf(stderr, "weigh: call it as: weigh POLICY\n");
        return 2;
    }
    FILE *file = fopen(argv[1], "rb");
    size_t length = file != NULL ? fread(policy, 1, sizeof policy, file) : 0;
    if (file == NULL || ferror(file)) {
        perror(argv[1]);
        return 2;
    }
    fclose(file);

    yendlowa_written written = yendlowa_plan_text(policy, length, text, sizeof text);
    if (written.refusal != YENDLOWA_ACCEPTED) {
        printf("REFUSED %d\n", written.refusal);
        fprintf(stderr, "weigh: after %zu records: %s\n", yendlowa_policy_records(policy, length),
                yendlowa_refusal_text(written.refusal).text);
        return fflush(stdout) == 0 ? 1 : 2;
    }
    fwrite(text, 1, written.length, stdout);

    yendlowa_planned plan = yendlowa_plan(policy, length);
    yendlowa_weighed flat = yendlowa_weigh(policy, length, tree, 2 + plan.labels);
    printf("all from the top: %u keys%s\n", flat.total, flat.least ? ", no tree needs fewer" : "");
    return fflush(stdout) == 0 ? 0 : 2;
}
