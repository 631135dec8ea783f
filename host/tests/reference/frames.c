/* Document 01, Frames and Splitting; document 02, Req 05: two equal addresses are 2, before any other check. */
#include "reference.h"

#include <string.h>

uint8_t ref_checksum(const uint8_t *bytes, size_t len)
{
    unsigned sum = 0;
    for (size_t i = 0; i < len; i++) sum += bytes[i];
    return (uint8_t)sum;
}

uint8_t ref_frame_check_at(uint8_t unit, uint8_t tool, const uint8_t *f, size_t n, bool at_tool)
{
    if (unit == tool) return 2;
    if (n < 5) return 1;
    bool start = f[0] == 0x81;
    if (f[0] != 0x80 && !start) return 2;
    if (start ? n != 5 : (f[3] == 0 || n != (size_t)f[3] + 5)) return 1;
    if (f[1] != (at_tool ? tool : unit) || f[2] != (at_tool ? unit : tool)) return 2;
    if (start && (at_tool || f[3] != 0x81)) return 2;
    return ref_checksum(f, n - 1) == f[n - 1] ? 0 : 3;
}

uint8_t ref_frame_check(const uint8_t *f, size_t n, bool at_tool)
{
    return ref_frame_check_at(REF_UNIT_ADDRESS, REF_TOOL_ADDRESS, f, n, at_tool);
}

tacho_part ref_frame_data_at(uint8_t unit, uint8_t tool, const uint8_t *f, size_t n, bool at_tool)
{
    uint8_t number = ref_frame_check_at(unit, tool, f, n, at_tool);
    if (number) return (tacho_part){number, 0, 0};
    if (f[0] == 0x81) return (tacho_part){0, 3, 1};
    return (tacho_part){0, REF_FRAME_DATA, f[3]};
}

tacho_part ref_frame_data(const uint8_t *f, size_t n, bool at_tool)
{
    return ref_frame_data_at(REF_UNIT_ADDRESS, REF_TOOL_ADDRESS, f, n, at_tool);
}

/* The frame with these addresses whose data is a head and then a body. */
static tacho_written frame_of(uint8_t target, uint8_t source, const uint8_t *head, size_t head_len, const uint8_t *body, size_t body_len,
                              uint8_t *out, size_t out_len)
{
    size_t n = head_len + body_len;
    if (n == 0 || n > 255) return (tacho_written){1, 0};
    if (out_len < n + 5) return (tacho_written){4, 0};
    out[0] = 0x80;
    out[1] = target;
    out[2] = source;
    out[3] = (uint8_t)n;
    if (head_len) memcpy(out + REF_FRAME_DATA, head, head_len);
    if (body_len) memcpy(out + REF_FRAME_DATA + head_len, body, body_len);
    out[n + 4] = ref_checksum(out, n + 4);
    return (tacho_written){0, n + 5};
}

tacho_written ref_frame_write_at(uint8_t unit, uint8_t tool, const uint8_t *data, size_t data_len, bool to_tool, uint8_t *out,
                                 size_t out_len)
{
    if (unit == tool) return (tacho_written){2, 0};
    return frame_of(to_tool ? tool : unit, to_tool ? unit : tool, NULL, 0, data, data_len, out, out_len);
}

tacho_written ref_frame_write(const uint8_t *data, size_t data_len, bool to_tool, uint8_t *out, size_t out_len)
{
    return ref_frame_write_at(REF_UNIT_ADDRESS, REF_TOOL_ADDRESS, data, data_len, to_tool, out, out_len);
}

tacho_counted ref_sub_messages(size_t n)
{
    if (n > 59998) return (tacho_counted){8, 0};
    return (tacho_counted){0, n <= 252 ? 1 : n / 251 + 1};
}

tacho_written ref_sub_message_at(uint8_t unit, uint8_t tool, const uint8_t *data, size_t n, uint8_t trep, uint16_t k, uint8_t *out,
                                 size_t out_len)
{
    if (unit == tool) return (tacho_written){2, 0};
    tacho_counted c = ref_sub_messages(n);
    if (c.number) return (tacho_written){c.number, 0};
    if (k < 1 || k > c.count) return (tacho_written){10, 0};
    uint8_t head[4] = {0x76, trep, REF_TWO_BYTES(k)};
    if (n <= 252) return frame_of(tool, unit, head, 2, data, n, out, out_len);
    size_t at = (size_t)(k - 1) * 251;
    size_t len = n - at < 251 ? n - at : 251;
    return frame_of(tool, unit, head, 4, data + at, len, out, out_len);
}

tacho_written ref_sub_message(const uint8_t *data, size_t n, uint8_t trep, uint16_t k, uint8_t *out, size_t out_len)
{
    return ref_sub_message_at(REF_UNIT_ADDRESS, REF_TOOL_ADDRESS, data, n, trep, k, out, out_len);
}

size_t ref_frame_length(const uint8_t *received, size_t len)
{
    if (len == 0) return 0;
    switch (received[0]) {
    case 0x81: return 5;
    case 0x80: return len < 4 ? 0 : (size_t)received[3] + 5;
    default: return 1;
    }
}
