/* The product of two numbers of 128 bits, modulo 2^128: the function that the compiler asks for on
 * wasm32, which has no instruction for it. hosts/js/tests/multi3.mjs compares it with the product
 * words of crates/ed25519_field/src/words.rt. */

typedef unsigned long long word;

/* The two words of a product of two words, by the four products of their halves: every sum fits. */
static void product(word x, word y, word *low, word *high) {
    const word half = 0xffffffffu;
    word x0 = x & half, x1 = x >> 32, y0 = y & half, y1 = y >> 32;
    word w = x0 * y0;
    word t = x1 * y0 + (w >> 32);
    word v = x0 * y1 + (t & half);
    *low = v << 32 | (w & half);
    *high = x1 * y1 + (t >> 32) + (v >> 32);
}

unsigned __int128 __multi3(unsigned __int128 a, unsigned __int128 b) {
    word a0 = (word)a, a1 = (word)(a >> 64), b0 = (word)b, b1 = (word)(b >> 64), low, high;
    product(a0, b0, &low, &high);
    return (unsigned __int128)(high + a0 * b1 + a1 * b0) << 64 | low;
}
