/*
 * Reads a transaction from a file in pieces, as a radio link brings them, and prints answer, place, inputs, outputs and items. Bytes behind it are
 * no fault here, as they would be to the strict form; those that came with its last piece are told.
 */
#include <stdio.h>
#include <takzulit.h>

/* A reading: its state and its tables stay together. */
static struct {
    size_t state[TAKZULIT_STATE];
    uint32_t inputs[64 * TAKZULIT_INPUT_WIDTH], outputs[64 * TAKZULIT_OUTPUT_WIDTH], items[256 * TAKZULIT_ITEM_WIDTH];
} reading;

#define LENGTH(array) (sizeof(array) / sizeof *(array))
#define TABLES reading.inputs, LENGTH(reading.inputs), reading.outputs, LENGTH(reading.outputs), reading.items, LENGTH(reading.items)

int main(int argc, char **argv) {
    size_t answer[TAKZULIT_ANSWER], n;
    uint32_t head[TAKZULIT_HEAD];
    uint8_t piece[1400];
    FILE *file = argc == 2 ? fopen(argv[1], "rb") : NULL;
    if (file == NULL) {
        fprintf(stderr, "usage: %s FILE (one that can be read)\n", argv[0]);
        return 2;
    }
    takzulit_new(reading.state, TABLES);
    do {
        n = fread(piece, 1, sizeof piece, file);
        if (n > 0)
            takzulit_push_bytes(reading.state, piece, n, TABLES, head, answer);
        else
            takzulit_end(reading.state, TABLES, head, answer);
    } while (answer[TAKZULIT_NUMBER] == TAKZULIT_MORE);
    if (ferror(file)) {
        fprintf(stderr, "%s could not be read\n", argv[1]);
        return 2;
    }
    fclose(file);
    printf("%zu %zu %u %u %u\n", answer[TAKZULIT_NUMBER], answer[TAKZULIT_PLACE], head[TAKZULIT_HEAD_INPUTS], head[TAKZULIT_HEAD_OUTPUTS],
           head[TAKZULIT_HEAD_ITEMS]);
    if (answer[TAKZULIT_NUMBER] == TAKZULIT_FINISHED && answer[TAKZULIT_TAKEN] < n)
        printf("bytes of the last piece that follow it: %zu\n", n - answer[TAKZULIT_TAKEN]);
    return answer[TAKZULIT_NUMBER] != TAKZULIT_FINISHED;
}
