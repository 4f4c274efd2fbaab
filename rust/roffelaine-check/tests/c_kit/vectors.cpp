// Empty vectors as empty runs, whose pointer may be null: every call answers as with any other pointer.
#include <cstdio>
#include <vector>

#include "roffelaine.h"
#include "roffelaine_util.h"

static std::vector<uint64_t> numbers;
static std::vector<uint8_t> bytes;

// A pointer and a count, as the calls take them.
#define NUMBERS numbers.data(), numbers.size()
#define BYTES bytes.data(), bytes.size()

int main()
{
    uint64_t place, value, reports, first_row;
    const uint64_t answers[] = {
        roffelaine_open(0, 0, NUMBERS, NUMBERS, NUMBERS, NUMBERS, NUMBERS, NUMBERS, NUMBERS, &place, &value),
        roffelaine_price(NUMBERS, NUMBERS, NUMBERS, 0, 1, &place, &value),
        roffelaine_trade(NUMBERS, NUMBERS, NUMBERS, 0, 1, 1, 1, 2, &place, &value),
        roffelaine_reference_value(NUMBERS, NUMBERS, NUMBERS, &place, &value),
        roffelaine_create(NUMBERS, NUMBERS, NUMBERS, 1, 1, NUMBERS, NUMBERS, NUMBERS, &place, &value, &reports),
        roffelaine_redeem(NUMBERS, NUMBERS, NUMBERS, 1, 1, NUMBERS, NUMBERS, NUMBERS, &place, &value, &reports),
        roffelaine_creation_test(NUMBERS, NUMBERS, NUMBERS, 1, 1, 0, 0, 0, &place, &value, &reports),
        roffelaine_redemption_test(NUMBERS, NUMBERS, NUMBERS, 1, 1, 0, 0, 0, &place, &value, &reports),
        roffelaine_run(NUMBERS, NUMBERS, NUMBERS, NUMBERS, NUMBERS, NUMBERS, NUMBERS, NUMBERS, &place, &value),
        roffelaine_run_public(NUMBERS, NUMBERS, NUMBERS, NUMBERS, NUMBERS, NUMBERS, NUMBERS, NUMBERS, &place, &value),
        roffelaine_read(BYTES, NUMBERS, NUMBERS, NUMBERS, &first_row, &place, &value),
        roffelaine_name(BYTES, 0, 0, NUMBERS),
        roffelaine_letters(BYTES, NUMBERS),
        roffelaine_write(NUMBERS, NUMBERS, NUMBERS, BYTES, BYTES, BYTES, &place, &value),
    };
    std::printf("answers");
    for (uint64_t answer : answers)
        std::printf(" %d", static_cast<int>(answer));
    std::printf("\n%s\n", roffelaine_reason(answers[0]));
    return 0;
}
