// Plain C of zone plans.
#include "plain.h"
#include "plain_ranges.h"

#include <string.h>

enum { PLACES = 8, VALUES = 4, MOST_BYTES = 51 }; // VALUES: of a zone

// Questions 1, 2, 3, 13, 17 and 14 of zone k of a plan; zones is as in bellpulsar.h.
static uint32_t place_refusal(uint32_t size, const uint32_t *zones, uint32_t k) {
    const uint32_t *zone = zones + VALUES * k;
    uint32_t mode = zone[0], refusal = zone_refusal(mode, size, zone[1], zone[2], zone[3]);
    if (refusal) return refusal;
    if (k == 0) return size == 2048 && mode != PUSC_DL ? 14 : 0;
    return is_amc(zones[VALUES * (k - 1)]) && !is_amc(mode) ? 14 : 0;
}

struct bytes {
    const uint8_t *at, *end;
};

// Questions 10 and 11.
static uint32_t read_value(struct bytes *b, uint32_t *value) {
    uint32_t sum = 0;
    for (uint32_t group = 0; group < 3; group++) {
        if (b->at == b->end) return 10;
        uint32_t byte = *b->at++;
        sum |= (byte & 127) << (7 * group);
        if (byte < 128) {
            *value = sum;
            return byte == 0 && group > 0 ? 11 : 0;
        }
    }
    return 11;
}

static uint32_t read_zone(struct bytes *b, uint32_t size, uint32_t *zones, uint32_t k) {
    for (uint32_t i = VALUES * k; i < VALUES * (k + 1); i++) {
        uint32_t refusal = read_value(b, &zones[i]);
        if (refusal) return refusal;
    }
    return place_refusal(size, zones, k);
}

uint32_t plain_plan_read(const uint8_t *bytes, size_t len, uint32_t *count, uint32_t *size, uint32_t zones[32]) {
    struct bytes b = {bytes, bytes + len};
    uint32_t read_count, read_size, read[VALUES * PLACES], refusal;
    if ((refusal = read_value(&b, &read_count))) return refusal;
    if (read_count < 1 || read_count > PLACES) return 12;
    if ((refusal = read_value(&b, &read_size))) return refusal;
    if (!is_bin_size(read_size)) return 2;
    for (uint32_t k = 0; k < read_count; k++)
        if ((refusal = read_zone(&b, read_size, read, k))) return refusal;
    if (b.at != b.end) return 15;
    *count = read_count;
    *size = read_size;
    for (uint32_t i = 0; i < VALUES * PLACES; i++) zones[i] = i < VALUES * read_count ? read[i] : 0;
    return 0;
}

// The questions of writing but the last.
static uint32_t plan_refusal(uint32_t count, uint32_t size, const uint32_t zones[32]) {
    if (count < 1 || count > PLACES) return 12;
    for (uint32_t i = VALUES * count; i < VALUES * PLACES; i++)
        if (zones[i]) return 12;
    if (!is_bin_size(size)) return 2;
    for (uint32_t k = 0; k < count; k++) {
        uint32_t refusal = place_refusal(size, zones, k);
        if (refusal) return refusal;
    }
    return 0;
}

static uint8_t *write_value(uint8_t *at, uint32_t value) {
    for (; value >= 128; value /= 128) *at++ = (uint8_t)(128 + value % 128);
    *at++ = (uint8_t)value;
    return at;
}

uint32_t plain_plan_write(uint32_t count, uint32_t size, const uint32_t zones[32], uint8_t *dest, size_t dest_len,
                          uint32_t *written) {
    uint8_t bytes[MOST_BYTES], *end = bytes;
    uint32_t refusal = plan_refusal(count, size, zones);
    if (refusal) return refusal;
    end = write_value(end, count);
    end = write_value(end, size);
    for (uint32_t i = 0; i < VALUES * count; i++) end = write_value(end, zones[i]);
    size_t len = (size_t)(end - bytes);
    if (len > dest_len) return 16;
    memcpy(dest, bytes, len);
    *written = (uint32_t)len;
    return 0;
}
