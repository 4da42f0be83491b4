/* The product of two numbers of 128 bits. WebAssembly has no instruction for it, and compilers
 * call this to see whether a product of two numbers of 64 bits has more than 64. */

typedef __UINT32_TYPE__ half;
typedef __UINT64_TYPE__ word;
typedef unsigned __int128 wide;

wide __multi3(wide left, wide right) {
    word a = left, b = right;
    word a_low = (half)a, a_high = a >> 32, b_low = (half)b, b_high = b >> 32;
    word first = a_low * b_low;
    word second = a_high * b_low + (first >> 32);
    word third = a_low * b_high + (half)second;
    word low = third << 32 | (half)first;
    word high = a_high * b_high + (second >> 32) + (third >> 32);
    high += a * (word)(right >> 64) + (word)(left >> 64) * b;
    return (wide)high << 64 | low;
}
