/* Arithmetic of 128 bits, which WebAssembly lacks, and for which LLVM calls these, as compiler-rt has them. */
typedef unsigned long long u64;
typedef unsigned __int128 u128;

typedef union {
    u128 all;
    struct {
        u64 low, high;
    } half;
} wide;

static u64 low_half(u64 it)
{
    return it & 0xffffffff;
}

/* The product of two numbers of 64 bits, by those of their halves. */
static u128 product(u64 a, u64 b)
{
    u64 low = low_half(a) * low_half(b), left = (a >> 32) * low_half(b), right = low_half(a) * (b >> 32);
    u64 middle = (low >> 32) + low_half(left) + low_half(right);
    wide made;
    made.half.low = low_half(low) | (middle << 32);
    made.half.high = (a >> 32) * (b >> 32) + (left >> 32) + (right >> 32) + (middle >> 32);
    return made.all;
}

u128 __multi3(u128 a, u128 b)
{
    wide one = {.all = a}, other = {.all = b}, made;
    made.all = product(one.half.low, other.half.low);
    made.half.high += one.half.low * other.half.high + one.half.high * other.half.low;
    return made.all;
}

u128 __ashlti3(u128 it, int bits)
{
    wide from = {.all = it}, made;
    if (bits == 0)
        return it;
    made.half.low = bits < 64 ? from.half.low << bits : 0;
    made.half.high =
        bits < 64 ? (from.half.high << bits) | (from.half.low >> (64 - bits)) : from.half.low << (bits - 64);
    return made.all;
}

u128 __lshrti3(u128 it, int bits)
{
    wide from = {.all = it}, made;
    if (bits == 0)
        return it;
    made.half.high = bits < 64 ? from.half.high >> bits : 0;
    made.half.low =
        bits < 64 ? (from.half.low >> bits) | (from.half.high << (64 - bits)) : from.half.high >> (bits - 64);
    return made.all;
}
