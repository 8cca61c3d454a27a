/* Twenty million readings, every second one by a file's answer, against a multiplication and an addition in C, bit for bit. Compiled with -ffp-contract=off. */
#include <float.h>
#include <string.h>

#include "any.h"
#include "hsd.h"
#include "test.h"

static uint64_t bits_of(double x)
{
    uint64_t bits;
    memcpy(&bits, &x, sizeof bits);
    return bits;
}

static double double_of(uint64_t bits)
{
    double x;
    memcpy(&x, &bits, sizeof x);
    return x;
}

/* Random bits rarely make what is special among doubles: every kind of it comes on purpose. */
static double any_double(void)
{
    static const uint64_t special[] = {
        0,                  0x8000000000000000, 0x7ff0000000000000, 0xfff0000000000000, /* zeros, infinities */
        0x7ff8000000000000, 0x7ff0000000000001, 0xffffffffffffffff,                     /* NaNs, quiet and signalling */
        1,                  0x800fffffffffffff, 0x0010000000000000, 0x7fefffffffffffff, /* least, subnormal, normal, greatest */
    };
    uint64_t choice = any(), bits = any();
    switch (choice % 8) {
    case 0: return double_of(special[choice / 8 % (sizeof special / sizeof *special)]);
    case 1: return double_of(bits & 0x800fffffffffffff);                      /* subnormal */
    case 2: return double_of((bits & 0x801fffffffffffff) | 0x7fe0000000000000); /* near the greatest, or not finite */
    case 3: return double_of(bits);
    default: return double_of((bits & 0x807fffffffffffff) | 0x3f80000000000000); /* as a calibration is */
    }
}

static HsdReading expected(double gain, double constant, uint16_t bits, uint16_t count)
{
    HsdReading none = {.radiance = 0, .kind = HSD_ERROR_PIXEL};
    if (count == 65535)
        return none;
    none.kind = HSD_OUTSIDE;
    if (count == 65534)
        return none;
    none.kind = HSD_OVER_RANGE;
    if (bits < 16 && count >= 1U << bits)
        return none;
    double product = gain * (double)count;
    double sum = product + constant;
    none.kind = HSD_UNCALIBRATED;
    bool finite = -DBL_MAX <= sum && sum <= DBL_MAX;
    return finite ? (HsdReading){.radiance = sum, .kind = HSD_RADIANCE} : none;
}

/* Counts of all sizes: small ones are read, large ones are over range, and the two special ones come often. */
static uint16_t any_count(void)
{
    uint64_t choice = any();
    uint16_t count = (uint16_t)(choice >> 16);
    return (uint16_t)(choice % 16 == 0 ? 65535 : choice % 16 == 1 ? 65534 : count >> choice / 16 % 8);
}

int main(void)
{
    unsigned long calls = 20000000, kinds[5] = {0}, wrong = 0;
    for (unsigned long i = 0; i < calls; i++) {
        double gain = any_double(), constant = any_double();
        uint16_t bits = (uint16_t)(any() % 20), count = any_count();
        HsdFile file = {.valid_bits = bits, .gain = gain, .constant = constant};
        HsdReading given = i % 2 ? hsd_reading(file, count) : hsd_read_count(gain, constant, bits, count);
        HsdReading wanted = expected(gain, constant, bits, count);
        wrong += given.kind != wanted.kind || bits_of(given.radiance) != bits_of(wanted.radiance);
        kinds[wanted.kind]++;
    }
    printf("readings: %lu calls (%lu radiances, %lu error pixels, %lu outside, %lu over range, %lu uncalibrated), %lu differ\n",
           calls, kinds[0], kinds[1], kinds[2], kinds[3], kinds[4], wrong);
    return wrong != 0;
}
