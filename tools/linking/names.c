/* The names of include/renetcleat.h against the library: what each gate does, the lengths and weights of tableaux, and a call that
 * is refused with each refusal, whose line is not that of an unknown number. It is C99 and C++11, and hands text over as literals. */
#include "renetcleat.h"

#include <stdio.h>
#include <string.h>

#define COUNT(array) (sizeof(array) / sizeof((array)[0]))

/* Each gate by its name, on qubit 0 or on 0 and 1, with the images of X_0, Z_0, X_1, Z_1. */
static const struct {
    enum rc_gate gate;
    const char *images[4];
} GATES[] = {
    {RC_I, {"+X0", "+Z0"}},
    {RC_X, {"+X0", "-Z0"}},
    {RC_Y, {"-X0", "-Z0"}},
    {RC_Z, {"-X0", "+Z0"}},
    {RC_H, {"+Z0", "+X0"}},
    {RC_H2, {"-Z0", "-X0"}},
    {RC_H3, {"+Y0", "-Z0"}},
    {RC_H4, {"-Y0", "-Z0"}},
    {RC_H5, {"-X0", "+Y0"}},
    {RC_H6, {"-X0", "-Y0"}},
    {RC_SX, {"+X0", "-Y0"}},
    {RC_SXDG, {"+X0", "+Y0"}},
    {RC_SY, {"-Z0", "+X0"}},
    {RC_SYDG, {"+Z0", "-X0"}},
    {RC_SZ, {"+Y0", "+Z0"}},
    {RC_SZDG, {"-Y0", "+Z0"}},
    {RC_F, {"+Y0", "+X0"}},
    {RC_FDG, {"+Z0", "+Y0"}},
    {RC_F2, {"-Z0", "+Y0"}},
    {RC_F2DG, {"-Y0", "-X0"}},
    {RC_F3, {"+Y0", "-X0"}},
    {RC_F3DG, {"-Z0", "-Y0"}},
    {RC_F4, {"+Z0", "-Y0"}},
    {RC_F4DG, {"-Y0", "+X0"}},
    {RC_CX, {"+X0 X1", "+Z0", "+X1", "+Z0 Z1"}},
    {RC_CY, {"+X0 Y1", "+Z0", "+Z0 X1", "+Z0 Z1"}},
    {RC_CZ, {"+X0 Z1", "+Z0", "+Z0 X1", "+Z1"}},
    {RC_SWAP, {"+X1", "+Z1", "+X0", "+Z0"}},
    {RC_SXX, {"+X0", "-Y0 X1", "+X1", "-X0 Y1"}},
    {RC_SXXDG, {"+X0", "+Y0 X1", "+X1", "+X0 Y1"}},
    {RC_SYY, {"-Z0 Y1", "+X0 Y1", "-Y0 Z1", "+Y0 X1"}},
    {RC_SYYDG, {"+Z0 Y1", "-X0 Y1", "+Y0 Z1", "-Y0 X1"}},
    {RC_SZZ, {"+Y0 Z1", "+Z0", "+Z0 Y1", "+Z1"}},
    {RC_SZZDG, {"-Y0 Z1", "+Z0", "-Z0 Y1", "+Z1"}},
    {RC_ISWAP, {"+Z0 Y1", "+Z1", "+Y0 Z1", "+Z0"}},
    {RC_ISWAPDG, {"-Z0 Y1", "+Z1", "-Y0 Z1", "+Z0"}},
    {RC_G, {"+X1", "+X0 Z1", "+X0", "+Z0 X1"}},
    {RC_GDG, {"+X1", "+X0 Z1", "+X0", "+Z0 X1"}},
};

static int failures = 0;

static void expect(const char *what, size_t number, int held) {
    if (!held) {
        fprintf(stderr, "%s %d is not as its name in the header says\n", what, (int)number);
        failures++;
    }
}

static void expect_gate(size_t number) {
    uint8_t t[RC_TABLEAU_LENGTH(2)];
    char text[200], expected[200];
    size_t width = number < RC_CX ? 1 : 2, length, row;
    struct rc_reply made, shown;

    made = rc_on_qubits((uint8_t)GATES[number].gate, 0, 1, t, sizeof t);
    shown = rc_display(t, RC_TABLEAU_LENGTH(width), text, sizeof text);
    length = (size_t)sprintf(expected, "CliffordRep(%d qubits):\n", (int)width);
    for (row = 0; row < 2 * width; row++) {
        length += (size_t)sprintf(expected + length, "  %c_%d -> %s\n", "XZ"[row % 2], (int)(row / 2), GATES[number].images[row]);
    }
    expect("gate", number,
           (size_t)GATES[number].gate == number && made.number == 0 && shown.number == 0 && shown.value == length
               && memcmp(text, expected, length) == 0);
}

/* The identity of each width, in no byte less: each row has one letter. The last row is that of the last Z. */
static void expect_widths(void) {
    static uint8_t t[RC_TABLEAU_MOST];
    size_t n, row;

    for (n = 0; n <= 128; n++) {
        size_t length = RC_TABLEAU_LENGTH(n);
        expect("width", n,
               rc_identity(n, t, length - 1).number == RC_REFUSED_ROOM && rc_identity(n, t, length).number == 0
                   && rc_is_valid(t, length).value == 1);
        for (row = 0; row < 2 * n; row++) {
            expect("weight in width", n, t[RC_WEIGHT_AT(n, row)] == 1);
        }
        if (n > 0) {
            expect("row of width", n,
                   rc_z_image(t, length, n - 1).value == length - RC_ROW_LENGTH(n)
                       && RC_WEIGHT_AT(n, 2 * n - 1) == length - RC_ROW_LENGTH(n) + 1);
        }
    }
    expect("width", 128, RC_TABLEAU_LENGTH(128) == RC_TABLEAU_MOST);
}

static void expect_refusal(enum rc_refusal name, uint64_t detail, struct rc_reply reply) {
    char line[RC_REFUSAL_LINE_MOST], unknown[RC_REFUSAL_LINE_MOST];
    struct rc_reply told = rc_refusal_line(reply.number, reply.value, 1, line, sizeof line);
    size_t length = (size_t)sprintf(unknown, "%d: unknown", (int)name);

    expect("refusal", name, reply.number == (uint64_t)name && reply.value == detail);
    expect("line", name,
           told.number == 0 && told.value > length && memcmp(line, unknown, length - strlen("unknown")) == 0
               && memcmp(line, unknown, length) != 0);
}

static void expect_refusals(void) {
    static const uint8_t no_head[] = {1, 2, 0, 0, 0, 0}, no_link[] = {0, 2, 0, 0, 9, 0};
    static const uint8_t loop[] = {0, 2, 0, 0, 1, 0, RC_H, 0, 0, 0, 1, 0};
    uint8_t dst[RC_STRING_LENGTH], one[RC_TABLEAU_LENGTH(1)], x0[RC_STRING_LENGTH], x1[RC_STRING_LENGTH];

    expect("width", 1, rc_identity(1, one, sizeof one).number == 0);
    expect("string", 0, rc_from_str("X0", 2, x0, sizeof x0).number == 0);
    expect("string", 1, rc_from_str("X1", 2, x1, sizeof x1).number == 0);
    expect_refusal(RC_REFUSED_WIDTH, 0, rc_identity(129, dst, sizeof dst));
    expect_refusal(RC_REFUSED_LENGTH, 0, rc_phase(dst, 0));
    expect_refusal(RC_REFUSED_BAD_BYTE, 0, rc_phase_product(4, 0));
    expect_refusal(RC_REFUSED_GATE, 0, rc_gate_inverse(RC_GDG + 1));
    expect_refusal(RC_REFUSED_QUBIT, 128, rc_on_qubit(RC_H, 128, dst, sizeof dst));
    expect_refusal(RC_REFUSED_SAME_QUBIT, 3, rc_on_qubits(RC_CX, 3, 3, dst, sizeof dst));
    expect_refusal(RC_REFUSED_ROOM, 0, rc_identity(1, dst, 4));
    expect_refusal(RC_REFUSED_NOT_ASCII, 2, rc_from_str("X0\x80", 3, dst, sizeof dst));
    expect_refusal(RC_REFUSED_NOT_LETTER, 1, rc_from_dense_str("XQ", 2, dst, sizeof dst));
    expect_refusal(RC_REFUSED_NO_INDEX, 0, rc_from_sparse_str("X", 1, dst, sizeof dst));
    expect_refusal(RC_REFUSED_NOT_NUMERAL, 1, rc_from_sparse_str("Xa", 2, dst, sizeof dst));
    expect_refusal(RC_REFUSED_DUPLICATE, 5, rc_from_str("X5 Z5", 5, dst, sizeof dst));
    expect_refusal(RC_REFUSED_TEXT_QUBIT, 1, rc_from_str("X128", 4, dst, sizeof dst));
    expect_refusal(RC_REFUSED_IMAGE_WIDTH, 1, rc_set_x_image(one, sizeof one, 0, x1, sizeof x1));
    expect_refusal(RC_REFUSED_SLOT, 1, rc_set_x_image(one, sizeof one, 1, x0, sizeof x0));
    expect_refusal(RC_REFUSED_LIST_LENGTH, 0, rc_run(loop, 7, dst, sizeof dst));
    expect_refusal(RC_REFUSED_LIST_RECORD, 0, rc_run(no_head, sizeof no_head, dst, sizeof dst));
    expect_refusal(RC_REFUSED_LINK, 0, rc_run(no_link, sizeof no_link, dst, sizeof dst));
    expect_refusal(RC_REFUSED_LOOP, 1, rc_run(loop, sizeof loop, dst, sizeof dst));
    one[RC_WEIGHT_AT(1, 1)] = 0;
    expect_refusal(RC_REFUSED_FALSE_WEIGHT, RC_WEIGHT_AT(1, 1), rc_is_valid(one, sizeof one));
}

int main(void) {
    uint8_t nothing[1];
    char text[RC_REFUSAL_LINE_MOST];
    size_t number;

    for (number = 0; number < COUNT(GATES); number++) {
        expect_gate(number);
    }
    expect("gate", COUNT(GATES), rc_gate_inverse((uint8_t)COUNT(GATES)).number == RC_REFUSED_GATE);
    expect("gate", RC_NO_GATE, rc_identity(0, nothing, 1).number == 0 && rc_from_clifford_rep(nothing, 1).value == RC_NO_GATE);
    expect_widths();
    expect_refusals();
    expect("line", 0, rc_refusal_line(0, 5, 5, text, sizeof text).value == 10 && memcmp(text, "0: unknown", 10) == 0);
    return failures != 0;
}
