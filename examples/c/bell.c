/* A Bell pair: H on qubit 0, then CX from 0 to 1. Composes the two, shows the tableau, reads its weights, sends strings through it,
 * and undoes it; and shows refusals by their lines. */
#include "renetcleat.h"

#include <stdio.h>
#include <stdlib.h>
#include <string.h>

enum { WIDTH = 2, LENGTH = RC_TABLEAU_LENGTH(WIDTH) };

static const char EXPECTED[] = "CliffordRep(2 qubits):\n"
                               "  X_0 -> +Z0\n"
                               "  Z_0 -> +X0 X1\n"
                               "  X_1 -> +X1\n"
                               "  Z_1 -> +Z0 Z1\n";

/* Writes the line of a refusal of a call with a tableau of this width. */
static void print_refusal(FILE *out, const char *what, struct rc_reply refusal, uint64_t width) {
    char line[RC_REFUSAL_LINE_MOST];
    struct rc_reply length = rc_refusal_line(refusal.number, refusal.value, width, line, sizeof line);
    fprintf(out, "%s refused %.*s\n", what, (int)length.value, line);
}

/* The value of a reply; a refusal ends the program. */
static uint64_t value(const char *what, struct rc_reply reply) {
    if (reply.number != 0) {
        print_refusal(stderr, what, reply, WIDTH);
        exit(1);
    }
    return reply.value;
}

static void expect(const char *what, int held) {
    if (!held) {
        fprintf(stderr, "%s: not as expected\n", what);
        exit(1);
    }
}

/* The pair's tableau. The gate that acts first stands on the right. */
static void bell(uint8_t pair[LENGTH]) {
    uint8_t h[RC_TABLEAU_LENGTH(1)], cx[LENGTH];
    value("on_qubit", rc_on_qubit(RC_H, 0, h, sizeof h));
    value("on_qubits", rc_on_qubits(RC_CX, 0, 1, cx, sizeof cx));
    value("compose", rc_compose(cx, sizeof cx, h, sizeof h, pair, LENGTH));
}

static void show(const uint8_t pair[LENGTH]) {
    char text[200];
    size_t length = value("display", rc_display(pair, LENGTH, text, sizeof text));
    fwrite(text, 1, length, stdout);
    expect("text", length == strlen(EXPECTED) && memcmp(text, EXPECTED, length) == 0);
}

/* The images of X0, X1, Z0 and Z1 have 1, 1, 2 and 2 letters. A row handed out has its weight behind its phase. */
static void weigh(const uint8_t pair[LENGTH]) {
    static const uint8_t weights[2 * WIDTH] = {1, 1, 2, 2};
    size_t row, z0 = value("z_image", rc_z_image(pair, LENGTH, 0));
    for (row = 0; row < 2 * WIDTH; row++) {
        expect("weight", pair[RC_WEIGHT_AT(WIDTH, row)] == weights[row]);
    }
    expect("row", z0 + 1 == RC_WEIGHT_AT(WIDTH, WIDTH));
}

/* The pair sends X0 to Z0 and Z1 to Z0 Z1, so the product X0 Z1 to Z1. */
static void send(const uint8_t pair[LENGTH]) {
    uint8_t s[RC_STRING_LENGTH], image[RC_STRING_LENGTH];
    char text[RC_SPARSE_MOST];
    value("from_str", rc_from_str("X0 Z1", 5, s, sizeof s));
    value("apply", rc_apply(pair, LENGTH, s, sizeof s, image, sizeof image));
    size_t length = value("to_sparse_str", rc_to_sparse_str(image, sizeof image, text, sizeof text));
    expect("image", length == 3 && memcmp(text, "+Z1", 3) == 0);
}

/* The pair's stabilizers X0 X1 and Z0 Z1, the images of Z0 and Z1, anticommute at both qubits: an even number, so they commute. */
static void commute(const uint8_t pair[LENGTH]) {
    uint8_t z[RC_STRING_LENGTH], s[RC_STRING_LENGTH], t[RC_STRING_LENGTH];
    value("from_str", rc_from_str("Z0", 2, z, sizeof z));
    value("apply", rc_apply(pair, LENGTH, z, sizeof z, s, sizeof s));
    value("from_str", rc_from_str("Z1", 2, z, sizeof z));
    value("apply", rc_apply(pair, LENGTH, z, sizeof z, t, sizeof t));
    expect("places", value("anticommuting_places", rc_anticommuting_places(s, sizeof s, t, sizeof t)) == 2);
}

/* The inverse, composed with the pair, is the identity. */
static void undo(const uint8_t pair[LENGTH]) {
    uint8_t back[LENGTH], both[LENGTH], one[LENGTH];
    value("inverse", rc_inverse(pair, LENGTH, back, sizeof back));
    value("compose", rc_compose(back, sizeof back, pair, LENGTH, both, sizeof both));
    value("identity", rc_identity(WIDTH, one, sizeof one));
    expect("inverse", memcmp(both, one, LENGTH) == 0);
}

static void expect_line(const char *expected, struct rc_reply refusal) {
    char line[RC_REFUSAL_LINE_MOST];
    size_t length = value("refusal_line", rc_refusal_line(refusal.number, refusal.value, WIDTH, line, sizeof line));
    expect(expected, length == strlen(expected) && memcmp(line, expected, length) == 0);
}

/* A destination short by one byte is refused, and keeps its bytes; so does a tableau whose new image reaches outside it. A tableau
 * with a false weight is refused too. */
static void refused(const uint8_t pair[LENGTH]) {
    uint8_t small[LENGTH - 1], before[LENGTH - 1];
    memset(small, 0xaa, sizeof small);
    memcpy(before, small, sizeof before);
    struct rc_reply reply = rc_inverse(pair, LENGTH, small, sizeof small);
    expect("refusal", reply.number == RC_REFUSED_ROOM && reply.value == 0 && memcmp(small, before, sizeof small) == 0);
    print_refusal(stdout, "inverse", reply, WIDTH);
    expect_line("7: the destination is too short", reply);

    uint8_t wide[RC_STRING_LENGTH], copy[LENGTH];
    memcpy(copy, pair, LENGTH);
    value("from_str", rc_from_str("X2", 2, wide, sizeof wide));
    reply = rc_set_x_image(copy, sizeof copy, 0, wide, sizeof wide);
    expect("copy", memcmp(copy, pair, LENGTH) == 0);
    print_refusal(stdout, "set_x_image", reply, WIDTH);
    expect_line("14: qubit 2 is outside num_qubits 2; pass a width greater than the maximum qubit index (max qubit + 1)", reply);

    copy[RC_WEIGHT_AT(WIDTH, 0)]++;
    expect_line("24: a row weight is false, at offset 2", rc_is_valid(copy, sizeof copy));
}

int main(void) {
    uint8_t pair[LENGTH];
    bell(pair);
    expect("valid", value("is_valid", rc_is_valid(pair, sizeof pair)) == 1);
    show(pair);
    weigh(pair);
    send(pair);
    commute(pair);
    undo(pair);
    refused(pair);
    return 0;
}
