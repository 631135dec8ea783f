#include "readdressed.h"

#include "support.h"

const addresses LAB = {REF_UNIT_ADDRESS, REF_TOOL_ADDRESS};

bool same_addresses(addresses a, addresses b)
{
    return a.unit == b.unit && a.tool == b.tool;
}

bool is_lab(addresses a)
{
    return same_addresses(a, LAB);
}

void readdress(uint8_t *frame, size_t len, addresses a, bool to_tool)
{
    if (len < 5) return;
    unsigned before = frame[1] + frame[2];
    frame[1] = to_tool ? a.tool : a.unit;
    frame[2] = to_tool ? a.unit : a.tool;
    frame[len - 1] = (uint8_t)(frame[len - 1] + frame[1] + frame[2] - before);
}

uint8_t some_address(void)
{
    static const uint8_t known[] = {0x00, 0xFF, 0x80, 0x81, 0xFB, REF_UNIT_ADDRESS, REF_TOOL_ADDRESS};
    return (uint8_t)(random_below(2) ? known[random_below(sizeof known)] : random_below(256));
}

addresses different_addresses(void)
{
    addresses a = {some_address(), some_address()};
    while (a.unit == a.tool) a.tool = some_address();
    return a;
}

addresses other_addresses(addresses a)
{
    addresses b = a;
    while (same_addresses(a, b))
        switch (random_below(5)) {
        case 0: b = LAB; break;
        case 1: b = (addresses){a.tool, a.unit}; break;
        case 2: b = (addresses){some_address(), a.tool}; break;
        case 3: b = (addresses){a.unit, some_address()}; break;
        default: b = different_addresses(); break;
        }
    return b;
}
