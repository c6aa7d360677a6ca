/* Plain loops over bytes, with tables: what a C program would do without thinking of speed. It trusts its inputs. */
#include <stddef.h>
#include <stdint.h>
#include <string.h>

enum { STRING = 129, QUBITS = 128, GATES = 38, ONE_QUBIT_GATES = 24 };

/* By 4 * left + right: the product's letter, its turns (the exponent of i), and whether the two anticommute. */
static const uint8_t LETTER[16] = {0, 1, 2, 3, 1, 0, 3, 2, 2, 3, 0, 1, 3, 2, 1, 0};
static const uint8_t TURNS[16] = {0, 0, 0, 0, 0, 0, 3, 1, 0, 1, 0, 3, 0, 3, 1, 0};
static const uint8_t ANTI[16] = {0, 0, 0, 0, 0, 0, 1, 1, 0, 1, 0, 1, 0, 1, 1, 0};
/* A phase byte's turns, and the byte of as many turns. */
static const uint8_t PHASE[4] = {0, 2, 1, 3};

/* left becomes left times right; the answer is the turns met. */
static unsigned multiply(uint8_t *restrict left, const uint8_t *restrict right, size_t n) {
    unsigned turns = 0;
    for (size_t q = 0; q < n; q++) {
        unsigned pair = 4u * left[q] + right[q];
        left[q] = LETTER[pair];
        turns += TURNS[pair];
    }
    return turns;
}

/* At how many of n places two rows of letters anticommute. */
static unsigned places(const uint8_t *left, const uint8_t *right, size_t n) {
    unsigned count = 0;
    for (size_t q = 0; q < n; q++) count += ANTI[4u * left[q] + right[q]];
    return count;
}

/* A tableau's row: its phase, its weight (the number of its letters other than I), its letters. */
enum { WEIGHT = 1, LETTERS = 2 };

static size_t row_at(size_t n, size_t place) { return 1 + place * (LETTERS + n); }

static const uint8_t *row(const uint8_t *t, size_t n, size_t place) { return t + row_at(n, place); }

/* The weight of n letters, at most 128. */
static uint8_t weight(const uint8_t *letters, size_t n) {
    uint8_t count = 0;
    for (size_t q = 0; q < n; q++) count = (uint8_t)(count + (letters[q] != 0));
    return count;
}

/* letters becomes letters times the row; the answer is the turns met. */
static unsigned by_row(uint8_t *letters, const uint8_t *t, size_t n, size_t place) {
    const uint8_t *image = row(t, n, place);
    return PHASE[image[0]] + multiply(letters, image + LETTERS, n);
}

/* Sends n letters through the tableau into dst, which is another buffer; the answer is the turns met. */
static unsigned send(const uint8_t *t, size_t n, const uint8_t *letters, uint8_t *dst) {
    unsigned turns = 0;
    memset(dst, 0, n);
    for (size_t q = 0; q < n; q++) {
        if (letters[q] == 3) turns += 1;
        if (letters[q] & 1) turns += by_row(dst, t, n, q);
        if (letters[q] & 2) turns += by_row(dst, t, n, n + q);
    }
    return turns;
}

void plain_mul(const uint8_t *s, const uint8_t *t, uint8_t *dst) {
    memcpy(dst, s, STRING);
    dst[0] = PHASE[(PHASE[s[0]] + PHASE[t[0]] + multiply(dst + 1, t + 1, QUBITS)) & 3];
}

unsigned plain_places(const uint8_t *s, const uint8_t *t) { return places(s + 1, t + 1, QUBITS); }

/* Pairs (letter, qubit), with the phase +1. */
void plain_from_entries(const uint8_t *entries, size_t count, uint8_t *dst) {
    memset(dst, 0, STRING);
    for (size_t i = 0; i < count; i++) dst[1 + entries[2 * i + 1]] = entries[2 * i];
}

/* Letters, each with its index, and spaces between them. */
void plain_from_text(const uint8_t *text, size_t length, uint8_t *dst) {
    memset(dst, 0, STRING);
    for (size_t i = 0; i < length;) {
        uint8_t letter = text[i++];
        size_t qubit = 0;
        while (i < length && text[i] != ' ') qubit = 10 * qubit + (text[i++] - '0');
        dst[1 + qubit] = letter == 'X' ? 1 : letter == 'Z' ? 2 : 3;
        i++;
    }
}

void plain_apply(const uint8_t *t, const uint8_t *s, uint8_t *dst) {
    size_t n = t[0];
    memcpy(dst, s, STRING);
    dst[0] = PHASE[(PHASE[s[0]] + send(t, n, s + 1, dst + 1)) & 3];
}

/* Of two tableaux of one width. */
void plain_compose(const uint8_t *a, const uint8_t *b, uint8_t *dst) {
    size_t n = b[0];
    dst[0] = b[0];
    for (size_t r = 0; r < 2 * n; r++) {
        const uint8_t *from = row(b, n, r);
        uint8_t *to = dst + row_at(n, r);
        to[0] = PHASE[(PHASE[from[0]] + send(a, n, from + LETTERS, to + LETTERS)) & 3];
        to[WEIGHT] = weight(to + LETTERS, n);
    }
}

/* The X row of a qubit in what plain_compose writes, as a string. */
void plain_composed_x_image(const uint8_t *a, const uint8_t *b, size_t qubit, uint8_t *dst) {
    size_t n = b[0];
    const uint8_t *from = row(b, n, qubit);
    memset(dst + 1 + n, 0, QUBITS - n);
    dst[0] = PHASE[(PHASE[from[0]] + send(a, n, from + LETTERS, dst + 1)) & 3];
}

/* Letters by the symplectic transpose, then the conjugate of the phase met when they are sent forward. */
void plain_inverse(const uint8_t *t, uint8_t *dst) {
    uint8_t sent[QUBITS];
    size_t n = t[0];
    dst[0] = t[0];
    for (size_t r = 0; r < 2 * n; r++) {
        uint8_t *to = dst + row_at(n, r);
        size_t q = r % (n ? n : 1);
        unsigned shift = r < n ? 1 : 0;
        for (size_t c = 0; c < n; c++) {
            unsigned x = row(t, n, n + c)[LETTERS + q] >> shift & 1;
            unsigned z = row(t, n, c)[LETTERS + q] >> shift & 1;
            to[LETTERS + c] = (uint8_t)(x | z << 1);
        }
        to[0] = PHASE[(4 - (send(t, n, to + LETTERS, sent) & 3)) & 3];
        to[WEIGHT] = weight(to + LETTERS, n);
    }
}

int plain_is_valid(const uint8_t *t) {
    size_t n = t[0];
    for (size_t r = 0; r < 2 * n; r++) {
        const uint8_t *left = row(t, n, r);
        if (left[0] > 1) return 0;
        for (size_t other = r + 1; other < 2 * n; other++) {
            unsigned count = places(left + LETTERS, row(t, n, other) + LETTERS, n);
            if ((count & 1) != (other == r + n)) return 0;
        }
    }
    return 1;
}

/* By gate and letter, or two letters: the letters that they become, and 16 where the sign turns. */
static uint8_t one_letter[ONE_QUBIT_GATES][4];
static uint8_t two_letters[GATES][16];
/* What two letters add to their row's weight: 0, 1 or 255, which takes 1 away. A one-qubit gate leaves the weight as it is. */
static uint8_t two_weights[GATES][16];

/* Fills in a gate's table from its tableau on qubit 0, or on 0 and 1. */
void plain_gate(unsigned gate, const uint8_t *tableau) {
    size_t n = tableau[0];
    for (unsigned pair = 0; pair < (n == 1 ? 4u : 16u); pair++) {
        uint8_t letters[2] = {pair & 3, pair >> 2}, image[2] = {0, 0};
        unsigned minus = send(tableau, n, letters, image) & 2;
        uint8_t entry = (uint8_t)(image[0] | image[1] << 2 | minus << 3);
        if (n == 1) {
            one_letter[gate][pair] = entry;
        } else {
            two_letters[gate][pair] = entry;
            two_weights[gate][pair] = (uint8_t)(weight(image, 2) - weight(letters, 2));
        }
    }
}

/* A gate and its qubits, on every row of a tableau of width n. */
void plain_play(const uint8_t *gate, uint8_t *dst, size_t n) {
    uint8_t *end = dst + row_at(n, 2 * n);
    size_t q0 = LETTERS + gate[1], q1 = LETTERS + gate[2];
    if (gate[0] < ONE_QUBIT_GATES) {
        const uint8_t *table = one_letter[gate[0]];
        for (uint8_t *r = dst + 1; r < end; r += LETTERS + n) {
            uint8_t entry = table[r[q0]];
            r[q0] = entry & 3;
            r[0] ^= entry >> 4;
        }
        return;
    }
    const uint8_t *table = two_letters[gate[0]], *weights = two_weights[gate[0]];
    for (uint8_t *r = dst + 1; r < end; r += LETTERS + n) {
        unsigned pair = r[q0] | r[q1] << 2;
        uint8_t entry = table[pair], more = weights[pair];
        r[q0] = entry & 3;
        r[q1] = entry >> 2 & 3;
        r[0] ^= entry >> 4;
        r[WEIGHT] = (uint8_t)(r[WEIGHT] + more);
    }
}

/* The number of steps. */
size_t plain_run(const uint8_t *list, uint8_t *dst) {
    size_t n = list[1], steps = 0;
    memset(dst, 0, row_at(n, 2 * n));
    dst[0] = list[1];
    for (size_t q = 0; q < n; q++) {
        uint8_t *x = dst + row_at(n, q), *z = dst + row_at(n, n + q);
        x[WEIGHT] = z[WEIGHT] = 1;
        x[LETTERS + q] = 1;
        z[LETTERS + q] = 2;
    }
    for (size_t at = list[4] + 256u * list[5]; at != 0; steps++) {
        const uint8_t *gate = list + 6 * at;
        plain_play(gate, dst, n);
        at = gate[4] + 256u * gate[5];
    }
    return steps;
}
