/* The shapes of the CRC that the equations of table 18 (source 004) allow, in C: what docs/FIGURES.md compares. `kept` is the shape that crates/crc has, where
 * it is proved; here only speed is looked at. make shapes */
/* The kit's clang comes without headers. */
typedef __UINT8_TYPE__ uint8_t;
typedef __UINT32_TYPE__ uint32_t;
typedef __UINT64_TYPE__ uint64_t;

static uint64_t high4(const uint8_t *s)
{
    return (uint64_t)s[0] << 24 | (uint64_t)s[1] << 16 | (uint64_t)s[2] << 8 | s[3];
}

static uint64_t high8(const uint8_t *s) { return high4(s) << 32 | high4(s + 4); }

/* A number as a polynomial, bit k the coefficient of x^k. x^8 is x^2 + x + 1, and so on. */
static uint32_t times8(uint32_t t) { return t ^ t << 1 ^ t << 2; }
static uint64_t times64(uint64_t t) { return t ^ t << 1 ^ t << 4; }
static uint32_t fold8(uint32_t t) { return (t & 0xFF) ^ times8(t >> 8); }
static uint64_t fold16(uint64_t t) { return (t & 0xFFFF) ^ t >> 16 ^ t >> 16 << 2 ^ t >> 16 << 4; }
static uint64_t fold32(uint64_t t) { return (t & 0xFFFFFFFF) ^ t >> 32 << 1 ^ t >> 32 << 2 ^ t >> 32 << 4; }
static uint64_t doubled(uint64_t t) { return t << 1 ^ (t >> 63) * 19; }

static uint8_t of_word(uint64_t w)
{
    uint32_t t = times8((uint32_t)fold16(fold32(w)));
    return (uint8_t)fold8(fold8((uint32_t)fold16(t)));
}

static uint8_t of_three(uint8_t r, const uint8_t *s) { return (uint8_t)fold8(times8(times8(times8(r ^ s[0]) ^ s[1]) ^ s[2])); }

static uint8_t of_byte(uint8_t r, uint8_t b)
{
    uint8_t d = r ^ b, y = (uint8_t)(d ^ (d ^ d >> 1) >> 6);
    return (uint8_t)(y ^ y << 1 ^ y << 2);
}

/* Bit by bit, as it was: the compiler makes a table of it, but for small cores not of this text. */
uint8_t crc_bits(const uint8_t *s, uint64_t n)
{
    uint8_t r = 0;
    for (uint64_t i = 0; i < n; i++) {
        r ^= s[i];
        for (int k = 0; k < 8; k++)
            r = (uint8_t)(r < 128 ? r * 2 : 7 ^ (r - 128) * 2);
    }
    return r;
}

/* The table that it makes. */
#define Q(d) (uint8_t)((d) ^ (d) << 1 ^ (d) << 2 ^ ((d) >> 6 & 1) * 7 ^ ((d) >> 7) * 9)
#define Q4(d) Q(d), Q((d) + 1), Q((d) + 2), Q((d) + 3)
#define Q16(d) Q4(d), Q4((d) + 4), Q4((d) + 8), Q4((d) + 12)
#define Q64(d) Q16(d), Q16((d) + 16), Q16((d) + 32), Q16((d) + 48)
uint8_t crc_table(const uint8_t *s, uint64_t n)
{
    static const uint8_t table[256] = {Q64(0), Q64(64), Q64(128), Q64(192)};
    uint8_t r = 0;
    for (uint64_t i = 0; i < n; i++)
        r = table[r ^ s[i]];
    return r;
}

/* A byte a turn by whole-byte shifts; so two, three and four, brought down once a turn. What is left goes byte by byte. */
static uint8_t left(uint8_t r, const uint8_t *s, uint64_t i, uint64_t n)
{
    for (; i < n; i++)
        r = of_byte(r, s[i]);
    return r;
}

uint8_t crc_byte(const uint8_t *s, uint64_t n) { return left(0, s, 0, n); }

uint8_t crc_two(const uint8_t *s, uint64_t n)
{
    uint64_t i = 0;
    uint8_t r = 0;
    for (; 2 <= n - i; i += 2)
        r = (uint8_t)fold8(times8(times8(r ^ s[i]) ^ s[i + 1]));
    return left(r, s, i, n);
}

static uint8_t by_three(uint8_t r, const uint8_t *s, uint64_t i, uint64_t n)
{
    for (; 3 <= n - i; i += 3)
        r = of_three(r, s + i);
    return left(r, s, i, n);
}

uint8_t crc_three(const uint8_t *s, uint64_t n) { return by_three(0, s, 0, n); }

uint8_t crc_four(const uint8_t *s, uint64_t n)
{
    uint64_t i = 0;
    uint8_t r = 0;
    for (; 4 <= n - i; i += 4)
        r = of_word(high4(s + i) ^ (uint64_t)r << 24);
    return left(r, s, i, n);
}

/* Eight a turn in one number; the first n % 8 by three. */
uint8_t crc_eight(const uint8_t *s, uint64_t n)
{
    uint64_t i = n % 8, w;
    uint8_t r = by_three(0, s, 0, i);
    if (n < 8)
        return r;
    w = high8(s + i) ^ (uint64_t)r << 56;
    for (i += 8; i < n; i += 8) {
        uint64_t out = w >> 60 ^ w >> 63;
        w = times64(w) ^ times64(out) ^ high8(s + i);
    }
    return of_word(w);
}

/* Sixteen a turn, each byte of two words shifted by itself: a byte sixteen places on is one shift. What is left by three. */
static uint64_t each_bit(uint64_t a) { return (a & 0x7F7F7F7F7F7F7F7F) << 1 ^ ((a & 0x8080808080808080) >> 7) * 7; }

uint8_t crc_lanes(const uint8_t *s, uint64_t n)
{
    uint64_t i = 0, a = 0, b = 0;
    for (; 16 <= n - i; i += 16) {
        a = each_bit(a) ^ high8(s + i);
        b = each_bit(b) ^ high8(s + i + 8);
    }
    return by_three(i ? of_word(times64(fold32(a)) ^ b) : 0, s, i, n);
}

/* Sixteen a turn in two numbers; fewer than eight as one number, three by themselves. */
uint8_t crc_kept(const uint8_t *s, uint64_t n)
{
    if (n == 3)
        return of_three(0, s);
    if (n < 4)
        return left(0, s, 0, n);
    if (n < 8)
        return of_word((uint64_t)((uint32_t)high4(s) / 256 >> (56 - 8 * n)) << 32 | high4(s + n - 4));
    uint64_t i = (n - 1) % 16 + 1;
    uint64_t a = i <= 8 ? 0 : high8(s) >> (128 - 8 * i);
    uint64_t b = i < 8 ? high8(s) >> (64 - 8 * i) : high8(s + i - 8);
    for (; i < n; i += 16) {
        a = doubled(a) ^ high8(s + i);
        b = doubled(b) ^ high8(s + i + 8);
    }
    return of_word(times64(fold32(a)) ^ b);
}
