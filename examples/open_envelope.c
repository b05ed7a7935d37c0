/*
 * Prints the account of an envelope file, and each label that it opens with its key. It needs the desk's library alone.
 * After 'make lib': cc -I build/include examples/open_envelope.c -L build/lib -lyendlowa-desk -o build/open_envelope
 * Exit status: 0 an answer, 1 refused, 2 a wrong call or a file that could not be read or written.
 */
#include <stdio.h>
#include <yendlowa_desk.h>

int main(int argc, char **argv)
{
    static uint8_t envelope[YENDLOWA_ENVELOPE_ROOM]; /* of a longer file these bytes decide */
    if (argc != 2) {
        fprintf(stderr, "open_envelope: call it as: open_envelope ENVELOPE\n");
        return 2;
    }
    FILE *file = fopen(argv[1], "rb");
    size_t length = file != NULL ? fread(envelope, 1, sizeof envelope, file) : 0;
    if (file == NULL || ferror(file)) {
        perror(argv[1]);
        return 2;
    }
    fclose(file);

    yendlowa_labels_read read = yendlowa_labels(envelope, length);
    if (read.refusal != YENDLOWA_ACCEPTED) {
        printf("REFUSED %d\n", read.refusal);
        fprintf(stderr, "open_envelope: after %zu records: %s\n", yendlowa_envelope_records(envelope, length),
                yendlowa_refusal_text(read.refusal).text);
        return fflush(stdout) == 0 ? 1 : 2;
    }
    printf("account %d\n", read.account);
    for (size_t i = 0; i < read.labels; i++) {
        yendlowa_derived derived = yendlowa_derive(envelope, length, read.names[i], YENDLOWA_NAME);
        printf("%.8s ", (const char *)read.names[i]);
        for (int k = 0; k < YENDLOWA_KEY; k++) printf("%02x", derived.key[k]);
        printf("\n");
    }
    return fflush(stdout) == 0 ? 0 : 2;
}
