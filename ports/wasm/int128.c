// The arithmetic of 128 bits that the compiler's code for WebAssembly calls, in halves of 64 bits.
typedef unsigned __int128 whole;
typedef unsigned long long half;
typedef union {
    whole all;
    struct {
        half low, high;
    };
} parts;

// n << count, count from 0 to 127
whole __ashlti3(whole n, int count) {
    parts from = {n}, to = {0};
    if (count & 64) {
        to.high = from.low << (count & 63);
    } else if (count) {
        to.low = from.low << count;
        to.high = from.high << count | from.low >> (64 - count);
    } else {
        // a shift of a half by 64 means nothing
        return n;
    }
    return to.all;
}

// n >> count, without a sign
whole __lshrti3(whole n, int count) {
    parts from = {n}, to = {0};
    if (count & 64) {
        to.low = from.high >> (count & 63);
    } else if (count) {
        to.high = from.high >> count;
        to.low = from.low >> count | from.high << (64 - count);
    } else {
        return n;
    }
    return to.all;
}

// m * n, of which the low 128 bits stay: in digits of 32 bits
whole __multi3(whole m, whole n) {
    parts a = {m}, b = {n}, to = {0};
    half a0 = a.low & 0xffffffff, a1 = a.low >> 32, b0 = b.low & 0xffffffff, b1 = b.low >> 32;
    // each sum is below 2^64: a product of two digits, and at most two more digits
    half first = a0 * b0;
    half second = a1 * b0 + (first >> 32);
    half third = a0 * b1 + (second & 0xffffffff);
    to.low = third << 32 | (first & 0xffffffff);
    to.high = a1 * b1 + (second >> 32) + (third >> 32) + a.low * b.high + a.high * b.low;
    return to.all;
}
