/*
 * Our calls beside a chain of other people's parts, from Debian's packages. Each step of the way
 * from frames to slots is made by code that was written by others, for other uses and before this
 * library:
 *
 *   step 7   the sequence            liquid-dsp, msequence
 *   step 2   the check               Boost.CRC, crc_basic
 *   3 and 4  tail, code, puncturing  IT++, Punctured_Convolutional_Code
 *   step 5   the permutation         IT++, Sequence_Interleaver; its order is a formula of ours
 *   step 6   the accumulator         IT++, Rec_Syst_Conv_Code
 *   step 8   bits to symbols         liquid-dsp, liquid_repack_bytes
 *   step 9   the channel interleaver IT++, Cross_Interleaver, one for each of B turns
 *   uplink   the parity check        M4RI, by the check matrix
 *
 * What is ours in between is glue: it copies bits, adds the sequence to them, puts down frame
 * markers, markers, pulses and guard slots, and deals columns out to the B interleavers of step 9.
 * That the book is read rightly (which polynomials, which order) is not tested by this: the parts
 * are told.
 *
 *   peers [--words N] [--runs N] [--steps N] [--frames N] [--seed N]
 *
 * First all is compared. Then one part at a time is told something wrong, and each time a
 * difference has to be seen. Last, a soft decoder of others, IT++'s Viterbi, is put to our words.
 */
#include <algorithm>
#include <boost/crc.hpp>
#include <cstdint>
#include <cstdio>
#include <cstdlib>
#include <cstring>
#include <itpp/itcomm.h>
#include <liquid/liquid.h>
#include <string>
#include <vector>

#include <m4ri/m4ri.h>

#include "mahyrei_plain.h"

using itpp::bin;
using itpp::bvec;
using itpp::ivec;

namespace {

typedef std::vector<uint8_t> Bytes;

/* What is told wrong, one part at a time. */
enum Wrong {
    NOTHING,
    SEQUENCE_TAP,
    SEQUENCE_START,
    CHECK_POLYNOMIAL,
    CHECK_START,
    CHECK_INVERTED,
    CODE_POLYNOMIAL,
    CODE_PUNCTURING,
    ORDER_FORMULA,
    ORDER_BACKWARDS,
    ACCUMULATOR_FEEDBACK,
    SYMBOL_ORDER,
    FORNEY_ROWS,
    FORNEY_STEP,
    FRAME_MARKER,
    MARKER_BEHIND,
    GUARD_BEFORE,
    COPIES_APART,
    PARITY_BLOCK,
    WRONG_COUNT
};
const char *const WRONG_NAMES[] = {
    "nothing",
    "the sequence: another tap",
    "the sequence: from its second bit on",
    "the check: another polynomial",
    "the check: starts at zero",
    "the check: inverted",
    "the code: its two outputs exchanged",
    "puncturing: the other output is dropped",
    "the permutation: 420 in place of 210",
    "the permutation: the way back",
    "the accumulator: feedback over two places",
    "symbols: the first bit lowest",
    "the channel interleaver: its rows upside down",
    "the channel interleaver: B + 1",
    "another frame marker",
    "the marker after its line",
    "guard slots before the data slots",
    "the whole run sent again, in place of each symbol",
    "the parity check: one block of the matrix shifted by 1",
};

Wrong wrong = NOTHING;

/* ---- bits */

bvec bits_of(const uint8_t *bytes, size_t count) {
    bvec bits((int)count);
    for (size_t i = 0; i < count; i++) {
        bits((int)i) = bin(bytes[i / 8] >> (7 - i % 8) & 1);
    }
    return bits;
}

Bytes bytes_of(const bvec &bits) {
    Bytes bytes((size_t)(bits.size() + 7) / 8, 0);
    for (int i = 0; i < bits.size(); i++) {
        if (bits(i) == bin(1)) {
            bytes[(size_t)i / 8] = (uint8_t)(bytes[(size_t)i / 8] | 0x80 >> i % 8);
        }
    }
    return bytes;
}

uint64_t random_state = 1;

uint64_t random_number() {
    random_state ^= random_state >> 12;
    random_state ^= random_state << 25;
    random_state ^= random_state >> 27;
    return random_state * UINT64_C(0x2545F4914F6CDD1D);
}

size_t random_below(size_t limit) {
    return (size_t)(random_number() >> 16) % limit;
}

Bytes random_bytes(size_t len) {
    Bytes bytes(len);
    for (size_t i = 0; i < len; i++) {
        bytes[i] = (uint8_t)(random_number() >> 56);
    }
    return bytes;
}

/* ---- the parts */

/* Step 7's sequence: liquid's generator, x^8 + x^5 + x^3 + x + 1. From all ones it gives bit 8
 * first, and comes back to bit 0 after the rest of its 255. */
bvec sequence(int count) {
    msequence generator = msequence_create(8, wrong == SEQUENCE_TAP ? 0x11D : 0x12B, 0xFF);
    for (int i = 0; i < (wrong == SEQUENCE_START ? 248 : 247); i++) {
        msequence_advance(generator);
    }
    bvec bits(count);
    for (int i = 0; i < count; i++) {
        bits(i) = bin((int)msequence_advance(generator));
    }
    msequence_destroy(generator);
    return bits;
}

/* Step 2: Boost's register, bit by bit. */
bvec with_check(const bvec &block) {
    boost::crc_basic<32> crc(wrong == CHECK_POLYNOMIAL ? 0x04C11DB7 : 0x20044009,
                             wrong == CHECK_START ? 0 : 0xFFFFFFFF,
                             wrong == CHECK_INVERTED ? 0xFFFFFFFF : 0, false, false);
    for (int i = 0; i < block.size(); i++) {
        crc.process_bit(block(i) == bin(1));
    }
    bvec check(32);
    for (int i = 0; i < 32; i++) {
        check(i) = bin((int)(crc.checksum() >> (31 - i) & 1));
    }
    return itpp::concat(block, check);
}

/* Steps 3 and 4: outputs 1 + D^2, 1 + D + D^2 and again 1 + D + D^2, in octal 5, 7, 7. */
itpp::Punctured_Convolutional_Code code_of(uint64_t rate) {
    itpp::Punctured_Convolutional_Code code;
    const char *const kept[] = {"1;1;1", "1;1;0", "1 0;1 1;0 0"};
    code.set_generator_polynomials(ivec(wrong == CODE_POLYNOMIAL ? "7 5 7" : "5 7 7"), 3);
    code.set_puncture_matrix(
        itpp::bmat(rate == 2 && wrong == CODE_PUNCTURING ? "1 1;1 0;0 0" : kept[rate]));
    return code;
}

itpp::Sequence_Interleaver<bin> interleaver() {
    ivec order(MAHYREI_WORD_BITS);
    for (int64_t j = 0; j < MAHYREI_WORD_BITS; j++) {
        order((int)j) =
            (int)((11 * j + (wrong == ORDER_FORMULA ? 420 : 210) * j * j) % MAHYREI_WORD_BITS);
    }
    return itpp::Sequence_Interleaver<bin>(order);
}

/* Step 6: the parity output of a recursive code, 1 / (1 + D). */
bvec accumulated(const bvec &bits) {
    itpp::Rec_Syst_Conv_Code code;
    const bool far = wrong == ACCUMULATOR_FEEDBACK; /* 1 / (1 + D^2) */
    code.set_generator_polynomials(ivec(far ? "5 4" : "3 2"), far ? 3 : 2);
    itpp::bmat parity;
    code.encode(bits, parity);
    return parity.get_col(0);
}

/* Steps 7 and 2 to 6: the word of a block's k bits. */
bvec word_of(uint64_t rate, const bvec &block) {
    itpp::Sequence_Interleaver<bin> order = interleaver();
    bvec coded;
    code_of(rate).encode_tail(with_check(block + sequence(block.size())), coded);
    return accumulated(wrong == ORDER_BACKWARDS ? order.deinterleave(coded)
                                                : order.interleave(coded));
}

/* Step 9: a Forney interleaver with delays of i columns. Delays of i * B columns are B of them in
 * turn, since each then sees every B-th column alone. */
ivec forney(const ivec &symbols, int N, int B, bool back) {
    const int columns = (symbols.size() + N - 1) / N;
    ivec all(columns * N + (back ? 0 : N * (N - 1) * B));
    all.clear();
    for (int turn = 0; turn < B; turn++) {
        const int count = (columns + B - 1 - turn) / B;
        if (count <= 0 && back) {
            continue;
        }
        ivec mine(count * N), out;
        for (int c = 0; c < count; c++) {
            for (int i = 0; i < N; i++) {
                const int at = (c * B + turn) * N + i;
                mine(c * N + i) = at < symbols.size() ? symbols(at) : 0;
            }
        }
        itpp::Cross_Interleaver<int> cross(N);
        const bool turned = wrong == FORNEY_ROWS ? !back : back;
        if (turned) {
            cross.deinterleave(mine, out, 1);
        } else {
            cross.interleave(mine, out);
        }
        for (int c = 0; c * N < out.size(); c++) {
            for (int i = 0; i < N; i++) {
                const int at = (c * B + turn) * N + i;
                if (at < all.size()) {
                    all(at) = out(c * N + i);
                }
            }
        }
    }
    return all;
}

/* ---- words */

unsigned long bits_compared, differences;

bool same(const Bytes &ours, const Bytes &theirs) {
    bits_compared += 8 * ours.size();
    if (ours == theirs) {
        return true;
    }
    differences++;
    return false;
}

/* Our word of a block, and theirs; and our reader on theirs. */
bool try_word(uint64_t rate) {
    const size_t len = mahyrei_word_block_bytes(rate);
    Bytes block = random_bytes(len), word(MAHYREI_WORD_BYTES), back(len);
    block[len - 1] &= 0xFC;
    if (mahyrei_word_write(rate, block.data(), len, word.data(), word.size()) != 0) {
        differences++;
        return false;
    }
    const Bytes theirs = bytes_of(word_of(rate, bits_of(block.data(), 8 * len - 2)));
    const bool read = mahyrei_word_read(rate, theirs.data(), theirs.size(), back.data(), len) == 0;
    return same(word, theirs) && read && same(back, block);
}

/* ---- runs */

struct Fit {
    int m, N, B;
};
const Fit FITS[] = {{2, 21, 18}, {3, 21, 12}, {4, 21, 9}, {5, 28, 4}, {6, 21, 6}, {7, 16, 9},
                    {8, 10, 21}, {4, 5, 189}, {8, 6, 63}, {5, 64, 3}, {6, 36, 2}, {3, 36, 4}};

/* N and B for this order: the simplest, or one of those above, or twice its B. */
void choose_rows(int m, mahyrei_fields *fields) {
    fields->N = 1;
    fields->B = 1 + random_below(256);
    for (int tries = 0; tries < 40; tries++) {
        const Fit &fit = FITS[random_below(sizeof FITS / sizeof FITS[0])];
        const uint64_t B = (uint64_t)fit.B * (1 + random_below(2));
        if (fit.m == m && B <= 256 &&
            (uint64_t)(fit.N * (fit.N - 1)) * B % (uint64_t)(MAHYREI_WORD_BITS / m) == 0) {
            fields->N = (uint64_t)fit.N;
            fields->B = B;
            return;
        }
    }
}

/* Steps 1 to 10. */
Bytes slots_of(const mahyrei_fields &f, const struct mahyrei_sizes &s, const Bytes &marker,
               const Bytes &frames) {
    bvec stream;
    const uint8_t sync[] = {0x1A, 0xCF, 0xFC, (uint8_t)(wrong == FRAME_MARKER ? 0x1E : 0x1D)};
    for (uint64_t a = 0; a < f.A; a++) {
        stream = itpp::concat(stream, bits_of(sync, 32), bits_of(&frames[a * f.F], 8 * f.F));
    }
    const int k = (int)s.k, m = (int)f.m, S = (int)s.S;
    stream = itpp::concat(stream, itpp::zeros_b((int)s.C * k - stream.size()));
    ivec symbols((int)(s.C * s.S));
    for (int c = 0; c < (int)s.C; c++) {
        const bvec word = word_of(f.rate, stream.mid(c * k, k));
        std::vector<unsigned char> each(MAHYREI_WORD_BITS), packed((size_t)S);
        for (int j = 0; j < MAHYREI_WORD_BITS; j++) {
            const int from = wrong == SYMBOL_ORDER ? j / m * m + (m - 1 - j % m) : j;
            each[(size_t)j] = word(from) == bin(1);
        }
        unsigned written = 0;
        liquid_repack_bytes(each.data(), 1, MAHYREI_WORD_BITS, packed.data(), (unsigned)m,
                            (unsigned)S, &written);
        for (int t = 0; t < S; t++) {
            symbols(c * S + t) = packed[(size_t)t];
        }
    }
    const int B = (int)f.B + (wrong == FORNEY_STEP ? 1 : 0);
    ivec places = f.N == 1 ? symbols : forney(symbols, (int)f.N, B, false);
    places.set_size((int)(s.R * s.S), true);
    Bytes slots(s.slot_bytes, 0);
    std::vector<int> sent;
    for (uint64_t line = 0; line < s.R; line++) {
        const bool behind = wrong == MARKER_BEHIND;
        for (uint64_t w = 0; w < f.W && !behind; w++) {
            sent.push_back(marker[w]);
        }
        for (int t = 0; t < S; t++) {
            sent.push_back(places((int)line * S + t));
        }
        for (uint64_t w = 0; w < f.W && behind; w++) {
            sent.push_back(marker[w]);
        }
    }
    const size_t guard = wrong == GUARD_BEFORE ? s.M / 4 : 0, pooled = sent.size();
    for (size_t i = 0; i < pooled * f.copies; i++) {
        const size_t symbol = wrong == COPIES_APART ? i % pooled : i / f.copies;
        const size_t at = i * s.group + guard + (size_t)sent[symbol];
        slots[at / 8] = (uint8_t)(slots[at / 8] | 0x80 >> at % 8);
    }
    return slots;
}

bool try_run(uint64_t rate, uint64_t m, uint64_t copies) {
    mahyrei_fields f = {
        rate, m, 1, 1, 1 + random_below(600), 1 + random_below(32), 1 + random_below(3), copies};
    struct mahyrei_sizes s;
    uint8_t header[MAHYREI_HEADER_BYTES];
    choose_rows((int)m, &f);
    if (mahyrei_header_make(&f, header, NULL) != 0 ||
        mahyrei_sizes(header, sizeof header, &s) != 0) {
        differences++;
        return false;
    }
    Bytes marker(f.W), frames = random_bytes(s.frame_bytes), slots(s.slot_bytes);
    for (uint64_t w = 0; w < f.W; w++) {
        marker[w] = (uint8_t)random_below(s.M);
    }
    if (mahyrei_run_write(header, sizeof header, marker.data(), marker.size(), frames.data(),
                          frames.size(), slots.data(), slots.size()) != 0) {
        differences++;
        return false;
    }
    const Bytes theirs = slots_of(f, s, marker, frames);
    Bytes back(s.frame_bytes);
    const bool read = mahyrei_run_read(header, sizeof header, marker.data(), marker.size(),
                                       theirs.data(), theirs.size(), back.data(), back.size()) == 0;
    return same(slots, theirs) && read && same(back, frames);
}

/* ---- delay lines */

bool try_delays(const Fit &fit, size_t count) {
    const mahyrei_fields f = {0, (uint64_t)fit.m, (uint64_t)fit.N, (uint64_t)fit.B, 1, 1, 1, 1};
    struct mahyrei_sizes s;
    uint8_t header[MAHYREI_HEADER_BYTES];
    if (mahyrei_header_make(&f, header, NULL) != 0 ||
        mahyrei_sizes(header, sizeof header, &s) != 0) {
        differences++;
        return false;
    }
    const size_t all = count / f.N * f.N;
    Bytes symbols(all), area(s.delay_bytes), given(all), back(all);
    ivec theirs((int)all);
    for (size_t i = 0; i < all; i++) {
        symbols[i] = (uint8_t)random_below(s.M);
        theirs((int)i) = symbols[i];
    }
    const int B = fit.B + (wrong == FORNEY_STEP ? 1 : 0);
    uint64_t answer = mahyrei_delay_write_many(header, sizeof header, 0, symbols.data(), all,
                                               area.data(), area.size(), given.data(), all);
    std::fill(area.begin(), area.end(), (uint8_t)0);
    answer |= mahyrei_delay_read_many(header, sizeof header, 0, given.data(), all, area.data(),
                                      area.size(), back.data(), all);
    const ivec out = forney(theirs, fit.N, B, false);
    ivec taken((int)all);
    for (size_t i = 0; i < all; i++) {
        taken((int)i) = given[i];
    }
    const ivec home = forney(taken, fit.N, B, true);
    Bytes their_given(all), their_back(all);
    for (size_t i = 0; i < all; i++) {
        their_given[i] = (uint8_t)out((int)i);
        their_back[i] = (uint8_t)home((int)i);
    }
    const bool good = same(given, their_given);
    return same(back, their_back) && good && answer == 0;
}

/* ---- the uplink */

/* The check matrix: of each block of 16 by 16, the shifts that it adds up, as two numbers; 16 is
 * none. */
const int CHECKS[4][8][2] = {
    {{0, 7}, {2, 16}, {14, 16}, {6, 16}, {16, 16}, {0, 16}, {13, 16}, {0, 16}},
    {{6, 16}, {0, 15}, {0, 16}, {1, 16}, {0, 16}, {16, 16}, {0, 16}, {7, 16}},
    {{4, 16}, {1, 16}, {0, 15}, {14, 16}, {11, 16}, {0, 16}, {16, 16}, {3, 16}},
    {{0, 16}, {1, 16}, {9, 16}, {0, 13}, {14, 16}, {1, 16}, {0, 16}, {16, 16}},
};

mzd_t *check_matrix() {
    mzd_t *H = mzd_init(64, 128);
    for (int row = 0; row < 4; row++) {
        for (int block = 0; block < 8; block++) {
            for (int which = 0; which < 2; which++) {
                int shift = CHECKS[row][block][which];
                if (shift == 16) {
                    continue;
                }
                shift += wrong == PARITY_BLOCK && row == 1 && block == 3 ? 1 : 0;
                for (int r = 0; r < 16; r++) {
                    mzd_write_bit(H, 16 * row + r, 16 * block + (r + shift) % 16, 1);
                }
            }
        }
    }
    return H;
}

/* The parity bits that the checks imply: p = Q^-1 P u, for H = (P Q). All of it is M4RI's. */
bool try_uplink(size_t frames) {
    mzd_t *H = check_matrix();
    mzd_t *P = mzd_submatrix(NULL, H, 0, 0, 64, 64), *Q = mzd_submatrix(NULL, H, 0, 64, 64, 128);
    mzd_t *I = mzd_init(64, 64), *inverse = NULL;
    mzd_set_ui(I, 1);
    inverse = mzd_invert_naive(NULL, Q, I);
    const Bytes lent = random_bytes(8 * frames);
    Bytes slots(64 * frames);
    bool good = inverse != NULL &&
                mahyrei_uplink_write(lent.data(), lent.size(), slots.data(), slots.size()) == 0;
    mzd_t *U = mzd_init(64, (rci_t)frames);
    for (size_t i = 0; i < frames && good; i++) {
        for (int j = 0; j < 64; j++) {
            mzd_write_bit(U, j, (rci_t)i, lent[8 * i + (size_t)j / 8] >> (7 - j % 8) & 1);
        }
    }
    if (good) {
        mzd_t *PU = mzd_mul(NULL, P, U, 0), *parity = mzd_mul(NULL, inverse, PU, 0);
        const bvec added = sequence(128);
        mzd_t *C = mzd_init(128, (rci_t)frames);
        for (size_t i = 0; i < frames; i++) {
            Bytes theirs(64, 0);
            for (int j = 0; j < 128; j++) {
                const int clear =
                    j < 64 ? mzd_read_bit(U, j, (rci_t)i) : mzd_read_bit(parity, j - 64, (rci_t)i);
                const int bit = clear ^ (added(j) == bin(1));
                theirs[(size_t)j / 2] |= (uint8_t)((bit ? 4 : 8) << (j % 2 == 0 ? 4 : 0));
                /* Our codeblock without the sequence, for the check. */
                const int ours = slots[64 * i + (size_t)j / 2] >> (j % 2 == 0 ? 4 : 0) & 15;
                mzd_write_bit(C, j, (rci_t)i, (ours == 4) ^ (added(j) == bin(1)));
            }
            good = same(Bytes(&slots[64 * i], &slots[64 * i] + 64), theirs) && good;
        }
        mzd_t *syndrome = mzd_mul(NULL, H, C, 0);
        if (!mzd_is_zero(syndrome)) {
            differences++;
            good = false;
        }
        mzd_free(syndrome);
        mzd_free(C);
        mzd_free(parity);
        mzd_free(PU);
    }
    mzd_free(U);
    if (inverse != NULL) {
        mzd_free(inverse);
    } else {
        differences++;
    }
    mzd_free(I);
    mzd_free(Q);
    mzd_free(P);
    mzd_free(H);
    return good;
}

/* ---- a soft decoder of others */

/* Our words through noise. The likelihoods of the accumulator's input are those of neighbours,
 * joined by Hagenauer's rule; then the permutation undone, and Viterbi, all by IT++. */
void soft_row(uint64_t rate, double es_n0_db, int words) {
    const double sigma = std::sqrt(0.5 / std::pow(10, es_n0_db / 10));
    const size_t len = mahyrei_word_block_bytes(rate);
    const int k = (int)(8 * len) - 2;
    itpp::Punctured_Convolutional_Code code = code_of(rate);
    ivec order(MAHYREI_WORD_BITS);
    for (int64_t j = 0; j < MAHYREI_WORD_BITS; j++) {
        order((int)j) = (int)((11 * j + 210 * j * j) % MAHYREI_WORD_BITS);
    }
    itpp::Sequence_Interleaver<double> undo(order);
    int hard = 0, soft = 0;
    unsigned long wrong_bits = 0;
    for (int n = 0; n < words; n++) {
        Bytes block = random_bytes(len), word(MAHYREI_WORD_BYTES), seen, back(len);
        block[len - 1] &= 0xFC;
        mahyrei_word_write(rate, block.data(), len, word.data(), word.size());
        const bvec sent = bits_of(word.data(), MAHYREI_WORD_BITS);
        itpp::vec received(MAHYREI_WORD_BITS);
        bvec decided(MAHYREI_WORD_BITS);
        for (int j = 0; j < MAHYREI_WORD_BITS; j++) {
            received(j) = (sent(j) == bin(1) ? -1 : 1) + sigma * itpp::randn();
            decided(j) = bin(received(j) < 0);
            wrong_bits += decided(j) != sent(j);
        }
        seen = bytes_of(decided);
        hard += mahyrei_word_read(rate, seen.data(), seen.size(), back.data(), len) == 0;
        itpp::LLR_calc_unit joined;
        itpp::vec inputs(MAHYREI_WORD_BITS);
        const double scale = 2 / (sigma * sigma);
        for (int j = 0; j < MAHYREI_WORD_BITS; j++) {
            const itpp::QLLR here = joined.to_qllr(scale * received(j));
            const itpp::QLLR before =
                j == 0 ? joined.to_qllr(50) : joined.to_qllr(scale * received(j - 1));
            inputs(j) = joined.to_double(joined.Boxplus(here, before));
        }
        const bvec checked = code.decode_tail(undo.deinterleave(inputs));
        const bvec found = checked.left(k);
        const bvec clear = found + sequence(k);
        if (with_check(found) == checked && bytes_of(clear) == block) {
            soft++;
        }
    }
    const char *const rates[] = {"1/3", "1/2", "2/3"};
    printf("| %s | %.1f dB | %.2f | %d | %d | %d |\n", rates[rate], es_n0_db,
           (double)wrong_bits / words, words, hard, soft);
}

/* ---- all of it */

struct Amounts {
    size_t words, runs, steps, frames;
};

/* Tries all, and says in a row what was compared; returns the differences. */
unsigned long row(const char *what, size_t times, bool print, bool (*attempt)(size_t)) {
    const unsigned long before = bits_compared, wrong_before = differences;
    size_t tried = 0, unlike = 0;
    for (size_t i = 0; i < times; i++, tried++) {
        unlike += attempt(i) ? 0 : 1;
    }
    if (print) {
        printf("| %s | %zu | %lu | %lu |\n", what, tried, bits_compared - before,
               differences - wrong_before);
    }
    return unlike;
}

size_t steps_of_line = 20000;
size_t frames_of_uplink = 64;

bool word_0(size_t) {
    return try_word(0);
}
bool word_1(size_t) {
    return try_word(1);
}
bool word_2(size_t) {
    return try_word(2);
}
bool run_any(size_t i) {
    const uint64_t factors[] = {1, 2, 3, 4, 8, 16, 32};
    return try_run(i / 49 % 3, 2 + i / 7 % 7, factors[i % 7]);
}
bool line_any(size_t i) {
    return try_delays(FITS[i % (sizeof FITS / sizeof FITS[0])], steps_of_line);
}
bool uplink_any(size_t) {
    return try_uplink(frames_of_uplink);
}

unsigned long all(const Amounts &amounts, bool print) {
    unsigned long unlike = 0;
    unlike += row("words at rate 1/3, and read back", amounts.words, print, word_0);
    unlike += row("words at rate 1/2, and read back", amounts.words, print, word_1);
    unlike += row("words at rate 2/3, and read back", amounts.words, print, word_2);
    unlike +=
        row("runs of all rates, orders and factors, and read back", amounts.runs, print, run_any);
    unlike += row("delay lines, there and back", amounts.steps, print, line_any);
    unlike += row("uplinks of 64 frames", amounts.frames, print, uplink_any);
    return unlike;
}

} // namespace

int main(int argc, char **argv) {
    Amounts amounts = {2000, 294, 48, 1000};
    for (int i = 1; i + 1 < argc; i += 2) {
        const std::string name = argv[i];
        const size_t value = (size_t)strtoull(argv[i + 1], NULL, 10);
        (name == "--words"    ? amounts.words
         : name == "--runs"   ? amounts.runs
         : name == "--steps"  ? amounts.steps
         : name == "--frames" ? amounts.frames
                              : random_state) = value;
    }
    random_state = random_state * 2 + 1;
    itpp::RNG_reset(7);
    printf("| What | times | bits compared | differences |\n|---|---|---|---|\n");
    unsigned long failed = all(amounts, true);
    printf("\n| Told wrong | differences, of %zu tried |\n|---|---|\n", (size_t)(9 + 21 + 4 + 1));
    const Amounts few = {3, 21, 4, 1};
    steps_of_line = 4000;
    for (int part = NOTHING; part < WRONG_COUNT; part++) {
        wrong = (Wrong)part;
        const unsigned long seen = all(few, false);
        printf("| %s | %lu |\n", WRONG_NAMES[part], seen);
        failed += (part == NOTHING) != (seen == 0);
    }
    wrong = NOTHING;
    printf(
        "\n| Rate | Es/N0 | wrong bits of 15,120 | words | read by mahyrei_word_read | decoded by "
        "IT++ |\n|---|---|---|---|---|---|\n");
    const double noise[3][3] = {{8.0, 4.0, 2.0}, {8.0, 5.5, 4.0}, {10.0, 7.0, 6.0}};
    for (uint64_t rate = 0; rate < 3; rate++) {
        for (int i = 0; i < 3; i++) {
            soft_row(rate, noise[rate][i], 10);
        }
    }
    printf("\npeers: %lu differences that should not be, or were not seen\n", failed);
    return failed == 0 ? 0 : 1;
}
