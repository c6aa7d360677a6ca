/* Pauli strings and Clifford tableaux over byte records: the C interface.
 *
 * Link with target/staticlib/librenetcleat.a, which `tools/staticlib` writes: x86-64 Linux, calls by the System V
 * convention. It needs memcpy and memset, of any C library, and nothing else: no heap, no input or output, no writable data of its
 * own.
 *
 * Records
 *   phase byte    0 is +1, 1 is -1, 2 is +i, 3 is -i
 *   letter byte   0 I, 1 X, 2 Z, 3 Y
 *   string        129 bytes: a phase, then the letters of qubits 0 to 127
 *   tableau       1 + 2 n (n + 2) bytes: the width n (0 to 128), n X rows, n Z rows; a row is a phase, a weight and n letters
 *   weight byte   the number of letters other than I of its row. To read that of row r, take byte 2 + r (n + 2) (RC_WEIGHT_AT);
 *                 r is q for the X row of qubit q, n + q for its Z row
 *   entries       pairs of bytes: letter, qubit
 *   gate list     1 to 4096 records of six bytes: gate, qubit, second qubit (0 for a one-qubit gate), 0, next index low, high;
 *                 record 0 is the head: 0, width, 0, 0, next low, high; next 0 ends the chain
 *   gate          a number of enum rc_gate: 0 to 23 act on one qubit, 24 to 37 on two
 *   text          ASCII, by its length: a zero byte ends nothing, and none is put behind what is written
 *
 * Replies
 *   Every function takes any bytes of any length and replies with two numbers: 0 and a value, or a refusal's number (enum
 *   rc_refusal) and its detail. The value is 0 where none is named below.
 *   A refusal writes nothing. An answer writes its own bytes at the start of the destination and leaves what lies behind them;
 *   rc_set_x_image, rc_set_z_image and rc_play change the tableau itself and have no destination.
 *
 * The one thing trusted
 *   A pointer is valid for its length: to be read, and to be written where it is not const. A destination overlaps no other buffer
 *   of the call; buffers that are only read may overlap. No call can find an overlap out: rc_inverse or rc_compose with one buffer
 *   in and out replies 0 and leaves wrong bytes. Where a length is 0 nothing is read or written through its pointer: pass the
 *   address of anything, but no null pointer.
 */
#ifndef RENETCLEAT_H
#define RENETCLEAT_H

#include <stddef.h>
#include <stdint.h>

#ifdef __cplusplus
extern "C" {
#endif

struct rc_reply {
    uint64_t number;
    uint64_t value;
};

/* Questions on entry that were answered with no: the reply's number. After the semicolon its detail, 0 where none is named. */
enum rc_refusal {
    RC_REFUSED_WIDTH = 1,        /* a width is above 128 */
    RC_REFUSED_LENGTH = 2,       /* a length is not exact */
    RC_REFUSED_BAD_BYTE = 3,     /* a phase or letter is above 3; the first such offset, 0 for a byte given by itself */
    RC_REFUSED_GATE = 4,         /* a gate is above 37, or above 23 where one qubit is meant; in a list the record */
    RC_REFUSED_QUBIT = 5,        /* a qubit is not below 128, or the width (rc_play, list); the qubit, in a list the record */
    RC_REFUSED_SAME_QUBIT = 6,   /* two qubits are equal; the qubit, in a list the record */
    RC_REFUSED_ROOM = 7,         /* the destination is too short for this answer */
    RC_REFUSED_NOT_ASCII = 8,    /* a byte of the text is above 127; its offset */
    RC_REFUSED_NOT_LETTER = 9,   /* no known letter; its offset */
    RC_REFUSED_NO_INDEX = 10,    /* a letter has no index; the letter's offset */
    RC_REFUSED_NOT_NUMERAL = 11, /* an index is no numeral below 2^64; the numeral's offset */
    RC_REFUSED_DUPLICATE = 12,   /* a qubit is named twice; the smallest such qubit */
    RC_REFUSED_TEXT_QUBIT = 13,  /* the qubit of a non-I letter is not below 128; the offset of numeral or letter */
    RC_REFUSED_IMAGE_WIDTH = 14, /* an image reaches outside the width; its lowest qubit outside */
    RC_REFUSED_SLOT = 15,        /* a row's slot or qubit is not below the width, of two tableaux the larger; the slot or qubit */
    RC_REFUSED_LIST_LENGTH = 16, /* a list is no multiple of 6 bytes, or not from 6 to 24576 */
    RC_REFUSED_LIST_RECORD = 17, /* the head or a fixed zero is wrong; the record */
    RC_REFUSED_LINK = 18,        /* a next index is not below the record count; the record holding it */
    RC_REFUSED_LOOP = 19,        /* the chain does not end; the record met again */
    RC_REFUSED_FALSE_WEIGHT = 24 /* a row's weight is false, asked directly after 3; the offset of the first such weight */
};

/* Gates by number, named as in PECOS's `Clifford`; DG is the inverse. */
enum rc_gate {
    RC_I = 0,
    RC_X = 1,
    RC_Y = 2,
    RC_Z = 3,
    RC_H = 4,
    RC_H2 = 5,
    RC_H3 = 6,
    RC_H4 = 7,
    RC_H5 = 8,
    RC_H6 = 9,
    RC_SX = 10,
    RC_SXDG = 11,
    RC_SY = 12,
    RC_SYDG = 13,
    RC_SZ = 14,
    RC_SZDG = 15,
    RC_F = 16,
    RC_FDG = 17,
    RC_F2 = 18,
    RC_F2DG = 19,
    RC_F3 = 20,
    RC_F3DG = 21,
    RC_F4 = 22,
    RC_F4DG = 23,
    /* on two qubits */
    RC_CX = 24,
    RC_CY = 25,
    RC_CZ = 26,
    RC_SWAP = 27,
    RC_SXX = 28,
    RC_SXXDG = 29,
    RC_SYY = 30,
    RC_SYYDG = 31,
    RC_SZZ = 32,
    RC_SZZDG = 33,
    RC_ISWAP = 34,
    RC_ISWAPDG = 35,
    RC_G = 36,
    RC_GDG = 37
};
/* The value of rc_from_clifford_rep where no gate matches: an answer, and no gate to call with. */
#define RC_NO_GATE 255

/* Lengths in bytes. */
#define RC_STRING_LENGTH 129
#define RC_ROW_LENGTH(n) ((size_t)(n) + 2)
#define RC_TABLEAU_LENGTH(n) (1 + 2 * (size_t)(n) * RC_ROW_LENGTH(n))
/* The most that is ever written: a tableau, sparse text, display text, the program's text, the line of a refusal. */
#define RC_TABLEAU_MOST 33281
#define RC_SPARSE_MOST 531
#define RC_DISPLAY_MOST 138813
#define RC_REPORT_MOST 138557
#define RC_REFUSAL_LINE_MOST 140
/* The offset of the weight of row r in a tableau of width n; the rows are those of X_0, X_1, .. and then of Z_0, Z_1, .. */
#define RC_WEIGHT_AT(n, r) (2 + (size_t)(r) * RC_ROW_LENGTH(n))

/* ---- phases and letters */

/* The product of two phases. */
struct rc_reply rc_phase_product(uint8_t a, uint8_t b);
/* The phase with +i and -i exchanged. */
struct rc_reply rc_phase_conjugate(uint8_t phase);
/* 1 where the phase is +1 or -1, otherwise 0. */
struct rc_reply rc_phase_is_real(uint8_t phase);
/* The product of two letters, as 4 * phase + letter. */
struct rc_reply rc_letter_product(uint8_t a, uint8_t b);

/* ---- strings */

/* The phase of a string. */
struct rc_reply rc_phase(const uint8_t *s, size_t s_len);
/* The letter at a qubit. */
struct rc_reply rc_get(const uint8_t *s, size_t s_len, size_t qubit);
/* The number of qubits at which the two strings have two different letters other than I, so that they anticommute there: 0 to 128.
 * The strings commute where it is even. */
struct rc_reply rc_anticommuting_places(const uint8_t *s, size_t s_len, const uint8_t *t, size_t t_len);
/* Writes the product s t, 129 bytes; the value is the number of places that it took: 1 + the last qubit at which either string has a
 * letter other than I, and 0 where both have only I. */
struct rc_reply rc_mul(const uint8_t *s, size_t s_len, const uint8_t *t, size_t t_len, uint8_t *dst, size_t dst_len);
/* Writes the string of a phase and entries, 129 bytes. */
struct rc_reply rc_with_phase_and_paulis(uint8_t phase, const uint8_t *entries, size_t entries_len, uint8_t *dst, size_t dst_len);
/* Writes the string of a sparse text, as "-i X0 z 7": 129 bytes. */
struct rc_reply rc_from_sparse_str(const char *text, size_t text_len, uint8_t *dst, size_t dst_len);
/* Writes the string of a dense text, as "-iXIIIIIIZ": 129 bytes. */
struct rc_reply rc_from_dense_str(const char *text, size_t text_len, uint8_t *dst, size_t dst_len);
/* Writes the string of a text, sparse where it has a digit, otherwise dense: 129 bytes. */
struct rc_reply rc_from_str(const char *text, size_t text_len, uint8_t *dst, size_t dst_len);
/* Writes the string's sparse text; the value is its length, at most RC_SPARSE_MOST. */
struct rc_reply rc_to_sparse_str(const uint8_t *s, size_t s_len, char *dst, size_t dst_len);

/* ---- tableaux */

/* Writes the identity of width n, RC_TABLEAU_LENGTH(n) bytes. */
struct rc_reply rc_identity(size_t n, uint8_t *dst, size_t dst_len);
/* The offset in t of the X row of a slot, 1 + slot (n + 2). The row has n + 2 bytes: phase, weight, letters. */
struct rc_reply rc_x_image(const uint8_t *t, size_t t_len, size_t slot);
/* The offset in t of the Z row of a slot, 1 + (n + slot) (n + 2). The row has n + 2 bytes: phase, weight, letters. */
struct rc_reply rc_z_image(const uint8_t *t, size_t t_len, size_t slot);
/* Puts the string s, with its weight, in the place of the X row of a slot, in t itself; every other byte of t stays. */
struct rc_reply rc_set_x_image(uint8_t *t, size_t t_len, size_t slot, const uint8_t *s, size_t s_len);
/* Puts the string s, with its weight, in the place of the Z row of a slot, in t itself; every other byte of t stays. */
struct rc_reply rc_set_z_image(uint8_t *t, size_t t_len, size_t slot, const uint8_t *s, size_t s_len);
/* Writes the string that the tableau t sends s to, 129 bytes. */
struct rc_reply rc_apply(const uint8_t *t, size_t t_len, const uint8_t *s, size_t s_len, uint8_t *dst, size_t dst_len);
/* Writes the tableau of b first, then a, in the larger of the two widths. dst is neither a nor b. */
struct rc_reply rc_compose(const uint8_t *a, size_t a_len, const uint8_t *b, size_t b_len, uint8_t *dst, size_t dst_len);
/* Writes the string that the X row of a qubit would hold after rc_compose of a and b, 129 bytes: its phase and letters without its
 * weight, then I. No tableau is made. The qubit is below the larger of the two widths, or 15, which is asked before 7. */
struct rc_reply rc_composed_x_image(const uint8_t *a, size_t a_len, const uint8_t *b, size_t b_len, size_t qubit, uint8_t *dst,
                                    size_t dst_len);
/* Writes the string that the Z row of a qubit would hold, in the same way. */
struct rc_reply rc_composed_z_image(const uint8_t *a, size_t a_len, const uint8_t *b, size_t b_len, size_t qubit, uint8_t *dst,
                                    size_t dst_len);
/* Writes the tableau in width n, or a copy where n is no larger than its width. Two tableaux send every string alike exactly when,
 * in the larger of their widths, they are the same bytes. */
struct rc_reply rc_extended_to(const uint8_t *t, size_t t_len, size_t n, uint8_t *dst, size_t dst_len);
/* Writes the inverse, of the width of t. dst is not t. */
struct rc_reply rc_inverse(const uint8_t *t, size_t t_len, uint8_t *dst, size_t dst_len);
/* 1 where phases are real and images commute as the generators do, otherwise 0. It is 1 exactly when rc_apply sends the product of
 * every two strings to the product of their images, phase included (docs/VALIDITY.md). */
struct rc_reply rc_is_valid(const uint8_t *t, size_t t_len);
/* Writes the qubits that the tableau touches, rising, a byte each; the value is their count. */
struct rc_reply rc_support_qubits(const uint8_t *t, size_t t_len, uint8_t *dst, size_t dst_len);
/* Writes the tableau of conjugation by the string s; its phase is dropped. The width is 1 + the highest qubit with a letter, 1
 * where there is none. */
struct rc_reply rc_from_pauli_string(const uint8_t *s, size_t s_len, uint8_t *dst, size_t dst_len);
/* Writes the tableau's text, a line for each generator; the value is its length, at most RC_DISPLAY_MOST. */
struct rc_reply rc_display(const uint8_t *t, size_t t_len, char *dst, size_t dst_len);

/* ---- gates */

/* Writes one of the 24 products of H and SZ, by its index from 0 to 23, on a qubit: a tableau of width qubit + 1. */
struct rc_reply rc_single_qubit_clifford(size_t index, size_t qubit, uint8_t *dst, size_t dst_len);
/* Writes the gate's tableau on its qubits, of width 1 + the larger qubit. For gates 0 to 23 q1 is not looked at and the width is
 * q0 + 1. */
struct rc_reply rc_on_qubits(uint8_t gate, size_t q0, size_t q1, uint8_t *dst, size_t dst_len);
/* Writes the tableau of a one-qubit gate, of width q + 1. */
struct rc_reply rc_on_qubit(uint8_t gate, size_t q, uint8_t *dst, size_t dst_len);
/* Plays the gate on the tableau t, in t itself: the bytes are those that rc_compose writes of the gate's tableau (rc_on_qubits)
 * and t, so t acts first. Each qubit is below t's own width, or 5; two qubits differ, or 6; q1 is not looked at for gates 0 to 23.
 * A refusal leaves t as it was. Most of the time goes into the questions, which read t once: at width 128 it is some four to sixty
 * times as fast as rc_compose, which does more the wider the gate's tableau and the fuller t. */
struct rc_reply rc_play(uint8_t *t, size_t t_len, uint8_t gate, size_t q0, size_t q1);
/* The one-qubit gate that is h first, then g. */
struct rc_reply rc_gate_compose(uint8_t g, uint8_t h);
/* The gate's inverse. */
struct rc_reply rc_gate_inverse(uint8_t g);
/* The gate of 0 to 23 whose tableau on qubit 0 t is, byte for byte (rc_on_qubit(gate, 0, ..)), or RC_NO_GATE. A gate is named
 * exactly when t has width 1 and is valid (rc_is_valid); PECOS names 72 records more, which have an imaginary phase. */
struct rc_reply rc_from_clifford_rep(const uint8_t *t, size_t t_len);

/* ---- gate lists */

/* Writes the tableau of all gates on the list's chain, of the list's width; the value is the number of steps. */
struct rc_reply rc_run(const uint8_t *list, size_t list_len, uint8_t *dst, size_t dst_len);
/* Writes what the program writes of the list: its run's display text, or "refused N at D" and a newline; the value is its length,
 * at most RC_REPORT_MOST. A list's refusal is text here: only 7 is ever replied. */
struct rc_reply rc_report(const uint8_t *list, size_t list_len, char *out, size_t out_len);

/* ---- refusals, for people */

/* Writes the line of a refusal, of the number and the value that were replied, without a newline: as "3: not a phase or letter, at
 * offset 130". The value is its length, at most RC_REFUSAL_LINE_MOST. Any three numbers have a line: a number without a meaning is
 * unknown, as "29: unknown". The width is looked at for 14 and 15 alone: that of the tableau that was called with, its first byte,
 * or the larger of two. Two refusals that differ in number, or in a detail that is shown, never share a line; docs/REFUSALS.md
 * lists them all. */
struct rc_reply rc_refusal_line(uint64_t number, uint64_t detail, uint64_t width, char *dst, size_t dst_len);

#ifdef __cplusplus
}
#endif

#endif
