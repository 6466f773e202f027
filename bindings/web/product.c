/* The product of two numbers of 128 bits, which compiled code calls where a target has none. */

typedef unsigned long half;
typedef unsigned __int128 wide;

/* The product of two numbers of 64 bits, from those of their halves. */
static wide product(half a, half b) {
    half low_mask = 0xffffffff;
    half low = (a & low_mask) * (b & low_mask);
    half first = (a >> 32) * (b & low_mask) + (low >> 32);
    half second = (a & low_mask) * (b >> 32) + (first & low_mask);
    half high = (a >> 32) * (b >> 32) + (first >> 32) + (second >> 32);
    return (wide)high << 64 | (second << 32 | (low & low_mask));
}

wide __multi3(wide a, wide b) {
    half crossed = (half)a * (half)(b >> 64) + (half)(a >> 64) * (half)b;
    return product((half)a, (half)b) + ((wide)crossed << 64);
}
