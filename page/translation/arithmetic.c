// The functions for 128 bits that the compiler calls by name for WebAssembly. None may multiply or shift 128 bits itself: the compiler
// would call the same function, which would never end.
typedef unsigned long long u64;
typedef unsigned __int128 u128;

typedef union {
    u128 whole;
    struct {
        u64 low, high;
    };
} Halves;

#define LOW_HALF 0xffffffffULL

// The low 128 bits of the product.
u128 __multi3(u128 x, u128 y) {
    Halves a = {x}, b = {y}, product;
    u64 a0 = a.low & LOW_HALF, a1 = a.low >> 32, b0 = b.low & LOW_HALF, b1 = b.low >> 32;
    // A product of two 32-bit numbers and two more such numbers fit 64 bits.
    u64 first = a0 * b0;
    u64 second = a1 * b0 + (first >> 32);
    u64 third = a0 * b1 + (second & LOW_HALF);
    product.low = third << 32 | (first & LOW_HALF);
    product.high = a1 * b1 + (second >> 32) + (third >> 32) + a.low * b.high + a.high * b.low;
    return product.whole;
}

// In each shift n is from 0 to 127. A shift by 1 and then by 63 - n is one by 64 - n that is defined at n = 0.

u128 __ashlti3(u128 x, int n) {
    Halves a = {x}, shifted;
    if (n & 64) {
        shifted.low = 0;
        shifted.high = a.low << (n & 63);
    } else {
        shifted.low = a.low << (n & 63);
        shifted.high = a.high << (n & 63) | a.low >> 1 >> (63 - (n & 63));
    }
    return shifted.whole;
}

u128 __lshrti3(u128 x, int n) {
    Halves a = {x}, shifted;
    if (n & 64) {
        shifted.low = a.high >> (n & 63);
        shifted.high = 0;
    } else {
        shifted.low = a.low >> (n & 63) | a.high << 1 << (63 - (n & 63));
        shifted.high = a.high >> (n & 63);
    }
    return shifted.whole;
}
