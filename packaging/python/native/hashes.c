/* SHA-256 (FIPS 180-4), and sums of hashes, which don't depend on an order. */
#include "native.h"

static const uint32_t constants[64] = {
    0x428a2f98, 0x71374491, 0xb5c0fbcf, 0xe9b5dba5, 0x3956c25b, 0x59f111f1, 0x923f82a4, 0xab1c5ed5, 0xd807aa98, 0x12835b01, 0x243185be,
    0x550c7dc3, 0x72be5d74, 0x80deb1fe, 0x9bdc06a7, 0xc19bf174, 0xe49b69c1, 0xefbe4786, 0x0fc19dc6, 0x240ca1cc, 0x2de92c6f, 0x4a7484aa,
    0x5cb0a9dc, 0x76f988da, 0x983e5152, 0xa831c66d, 0xb00327c8, 0xbf597fc7, 0xc6e00bf3, 0xd5a79147, 0x06ca6351, 0x14292967, 0x27b70a85,
    0x2e1b2138, 0x4d2c6dfc, 0x53380d13, 0x650a7354, 0x766a0abb, 0x81c2c92e, 0x92722c85, 0xa2bfe8a1, 0xa81a664b, 0xc24b8b70, 0xc76c51a3,
    0xd192e819, 0xd6990624, 0xf40e3585, 0x106aa070, 0x19a4c116, 0x1e376c08, 0x2748774c, 0x34b0bcb5, 0x391c0cb3, 0x4ed8aa4a, 0x5b9cca4f,
    0x682e6ff3, 0x748f82ee, 0x78a5636f, 0x84c87814, 0x8cc70208, 0x90befffa, 0xa4506ceb, 0xbef9a3f7, 0xc67178f2};

static inline uint32_t turned(uint32_t word, int by) { return word >> by | word << (32 - by); }

/* A round, after which the eight words have moved on by one place: the callers name them so. */
static inline void round_of(uint32_t a, uint32_t b, uint32_t c, uint32_t *d, uint32_t e, uint32_t f, uint32_t g, uint32_t *h, uint32_t in) {
    uint32_t sum = *h + (turned(e, 6) ^ turned(e, 11) ^ turned(e, 25)) + (g ^ (e & (f ^ g))) + in;
    *d += sum;
    *h = sum + (turned(a, 2) ^ turned(a, 13) ^ turned(a, 22)) + ((a & b) | (c & (a | b)));
}

static void take_block(uint32_t *hash, const uint8_t *block) {
    uint32_t words[64], s[8];
    for (int i = 0; i < 16; i++)
        words[i] = (uint32_t)block[4 * i] << 24 | (uint32_t)block[4 * i + 1] << 16 | (uint32_t)block[4 * i + 2] << 8 | block[4 * i + 3];
    for (int i = 16; i < 64; i++) {
        uint32_t a = words[i - 15], b = words[i - 2];
        words[i] = words[i - 16] + (turned(a, 7) ^ turned(a, 18) ^ a >> 3) + words[i - 7] + (turned(b, 17) ^ turned(b, 19) ^ b >> 10);
    }
    memcpy(s, hash, sizeof s);
    for (int i = 0; i < 64; i += 8) {
        round_of(s[0], s[1], s[2], s + 3, s[4], s[5], s[6], s + 7, constants[i] + words[i]);
        round_of(s[7], s[0], s[1], s + 2, s[3], s[4], s[5], s + 6, constants[i + 1] + words[i + 1]);
        round_of(s[6], s[7], s[0], s + 1, s[2], s[3], s[4], s + 5, constants[i + 2] + words[i + 2]);
        round_of(s[5], s[6], s[7], s + 0, s[1], s[2], s[3], s + 4, constants[i + 3] + words[i + 3]);
        round_of(s[4], s[5], s[6], s + 7, s[0], s[1], s[2], s + 3, constants[i + 4] + words[i + 4]);
        round_of(s[3], s[4], s[5], s + 6, s[7], s[0], s[1], s + 2, constants[i + 5] + words[i + 5]);
        round_of(s[2], s[3], s[4], s + 5, s[6], s[7], s[0], s + 1, constants[i + 6] + words[i + 6]);
        round_of(s[1], s[2], s[3], s + 4, s[5], s[6], s[7], s + 0, constants[i + 7] + words[i + 7]);
    }
    for (int i = 0; i < 8; i++) hash[i] += s[i];
}

/* A text that is hashed as it comes. */
typedef struct {
    uint32_t hash[8];
    uint8_t block[64];
    size_t len;
} hashed;

static void add_bytes(hashed *text, const char *at, size_t len) {
    while (len) {
        size_t held = text->len % 64, part = len < 64 - held ? len : 64 - held;
        memcpy(text->block + held, at, part);
        text->len += part;
        at += part;
        len -= part;
        if (held + part == 64) take_block(text->hash, text->block);
    }
}

static void end_hash(hashed *text) {
    static const char padding[64] = {(char)0x80};
    uint64_t bits = 8 * (uint64_t)text->len;
    char length[8];
    for (int i = 0; i < 8; i++) length[i] = (char)(bits >> (56 - 8 * i));
    add_bytes(text, padding, 1 + (119 - text->len % 64) % 64);
    add_bytes(text, length, sizeof length);
}

/* Adds the hash of a pair's texts, with a space between them, to a sum, whose first word is the highest. -1 with an exception set. */
static int add_pair(uint32_t *sum, PyObject *pair) {
    hashed text = {.hash = {0x6a09e667, 0xbb67ae85, 0x3c6ef372, 0xa54ff53a, 0x510e527f, 0x9b05688c, 0x1f83d9ab, 0x5be0cd19}};
    PyObject *first, *second;
    Py_ssize_t first_len, second_len;
    if (!PyTuple_Check(pair)) return PyErr_SetString(PyExc_TypeError, "a pair of texts is expected"), -1;
    if (!PyArg_ParseTuple(pair, "UU", &first, &second)) return -1;
    const char *one = PyUnicode_AsUTF8AndSize(first, &first_len), *other = one ? PyUnicode_AsUTF8AndSize(second, &second_len) : NULL;
    if (!other) return -1;
    add_bytes(&text, one, (size_t)first_len);
    add_bytes(&text, " ", 1);
    add_bytes(&text, other, (size_t)second_len);
    end_hash(&text);
    uint64_t carried = 0;
    for (int i = 7; i >= 0; i--) {
        carried += (uint64_t)sum[i] + text.hash[i];
        sum[i] = (uint32_t)carried;
        carried >>= 32;
    }
    return 0;
}

static int digit_of(char byte) {
    return byte >= '0' && byte <= '9' ? byte - '0' : byte >= 'a' && byte <= 'f' ? byte - 'a' + 10 : -1;
}

/* Reads 64 hexadecimal digits. */
static int read_sum(uint32_t *sum, const char *digits, Py_ssize_t len) {
    int is_one = len == 64;
    for (int i = 0; is_one && i < 64; i++) {
        int digit = digit_of(digits[i]);
        is_one = digit >= 0;
        sum[i / 8] = sum[i / 8] << 4 | (uint32_t)digit;
    }
    if (!is_one) PyErr_SetString(PyExc_ValueError, "a sum has 64 hexadecimal digits");
    return is_one ? 0 : -1;
}

PyObject *sum_of_hashes(PyObject *module, PyObject *args) {
    uint32_t sum[8] = {0};
    const char *before;
    Py_ssize_t before_len;
    PyObject *pairs, *pair;
    (void)module;
    if (!PyArg_ParseTuple(args, "s#O", &before, &before_len, &pairs) || read_sum(sum, before, before_len) < 0) return NULL;
    PyObject *all = PyObject_GetIter(pairs);
    if (!all) return NULL;
    int status = 0;
    while (!status && (pair = PyIter_Next(all))) {
        status = add_pair(sum, pair);
        Py_DECREF(pair);
    }
    Py_DECREF(all);
    if (PyErr_Occurred()) return NULL;
    char digits[65];
    for (int i = 0; i < 8; i++) PyOS_snprintf(digits + 8 * i, 9, "%08lx", (unsigned long)sum[i]);
    return PyUnicode_FromStringAndSize(digits, 64);
}
