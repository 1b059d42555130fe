/* Rate requests and a received capability frame (document 01, 'Rate requests, in this order', 'The rate request on the wire', 'Capability sets'). */
#include "inplace.h"

#include <string.h>

enum { SHORTEST = 60, LONGEST = 1514, HEADER = 16, BANDS = 20 };

static inline bool groups(const uint8_t *addresses, size_t count)
{
    for (size_t i = 0; i < count; i++)
        if (!(addresses[6 * i] & 1))
            return false;
    return true;
}

static inline bool band_2_right(uint8_t pe)
{
    return pe == 0 || (pe >= 9 && pe <= 15);
}

/* Numbers 18 to 20. */
static inline uint8_t judge_bands(struct pik_request q)
{
    if (q.pe1 < 1 || q.pe1 > 7)
        return PIK_BAND_1;
    if (q.bands >= 2 && !band_2_right(q.pe2))
        return PIK_BAND_2;
    if (q.rank1 == 0 || (q.bands >= 2 && (q.rank2 == 0 || q.rank1 == q.rank2)))
        return PIK_RANKS;
    return PIK_ACCEPTED;
}

/* Numbers 10 to 14. */
static inline uint8_t judge_start(const uint8_t *frame, size_t frame_length)
{
    if (frame_length < SHORTEST || frame_length > LONGEST)
        return PIK_FRAME_LENGTH;
    if (frame[12] != 0x88 || frame[13] != 0x6c)
        return PIK_ETHERTYPE;
    if (frame[14] != 1)
        return PIK_SS_TYPE;
    if (frame[15] < 8 || HEADER + (size_t)frame[15] > frame_length)
        return PIK_SS_LENGTH;
    return frame[16] == 0 ? PIK_ACCEPTED : PIK_SS_VERSION;
}

struct pik_reading PEER_FN(rate_read)(const uint8_t *frame, size_t frame_length)
{
    uint8_t refusal = judge_start(frame, frame_length);
    if (refusal)
        return (struct pik_reading){.number = refusal};
    struct pik_reading r = {.addresses = frame[19]};
    struct pik_request *q = &r.request;
    memcpy(q->destination, frame, 6);
    memcpy(q->source, frame + 6, 6);
    q->opcode = frame[17];
    q->bands = frame[18];
    if (q->opcode > 2)
        return (struct pik_reading){.number = PIK_OPCODE};
    if (q->bands == 0)
        return (struct pik_reading){.number = PIK_NO_BAND};
    r.start = BANDS + 2 * (size_t)q->bands;
    r.extent = 6 * (size_t)r.addresses;
    if (HEADER + (size_t)frame[15] != r.start + r.extent + 2)
        return (struct pik_reading){.number = PIK_COUNTS};
    q->pe1 = frame[20];
    q->rank1 = frame[21];
    if (q->bands >= 2) {
        q->pe2 = frame[22];
        q->rank2 = frame[23];
    }
    refusal = judge_bands(*q);
    if (refusal)
        return (struct pik_reading){.number = refusal};
    if (!groups(frame + r.start, r.addresses))
        return (struct pik_reading){.number = PIK_NO_GROUP};
    if (frame[r.start + r.extent] != 0 || frame[r.start + r.extent + 1] != 0)
        return (struct pik_reading){.number = PIK_NEXT_ETHERTYPE};
    return r;
}

static inline uint8_t judge_request(struct pik_request q, const uint8_t *addresses, size_t addresses_length)
{
    if (q.opcode > 2)
        return PIK_OPCODE;
    if (q.bands == 0)
        return PIK_NO_BAND;
    if (addresses_length % 6 != 0 || q.bands > 2 || (q.bands == 1 && (q.pe2 != 0 || q.rank2 != 0)) || addresses_length > 255
        || 6 + 2u * q.bands + addresses_length > 255)
        return PIK_LAYOUT;
    uint8_t refusal = judge_bands(q);
    if (refusal)
        return refusal;
    return groups(addresses, addresses_length / 6) ? PIK_ACCEPTED : PIK_NO_GROUP;
}

struct pik_written PEER_FN(rate_write)(uint8_t *out, size_t out_length, struct pik_request request, const uint8_t *addresses,
                                       size_t addresses_length)
{
    uint8_t refusal = judge_request(request, addresses, addresses_length);
    if (refusal)
        return (struct pik_written){.number = refusal};
    size_t ss_length = 6 + 2u * request.bands + addresses_length, header = HEADER + ss_length;
    size_t count = header < SHORTEST ? SHORTEST : header;
    if (out_length < count)
        return (struct pik_written){.number = PIK_OUTPUT};
    memcpy(out, request.destination, 6);
    memcpy(out + 6, request.source, 6);
    const uint8_t fixed[8] = {0x88, 0x6c, 1, (uint8_t)ss_length, 0, request.opcode, request.bands, (uint8_t)(addresses_length / 6)};
    memcpy(out + 12, fixed, sizeof fixed);
    uint8_t *at = out + BANDS;
    *at++ = request.pe1;
    *at++ = request.rank1;
    if (request.bands == 2) {
        *at++ = request.pe2;
        *at++ = request.rank2;
    }
    memcpy(at, addresses, addresses_length);
    at += addresses_length;
    memset(at, 0, (size_t)(out + count - at));
    return (struct pik_written){.count = count};
}

static inline struct pik_frame carried(struct pik_station s)
{
    return (struct pik_frame){s.oldest_tx, s.new_tx | s.previous_tx, s.new_rx | s.previous_rx};
}

struct pik_station_answer PEER_FN(station_receive)(struct pik_station station, uint8_t opcode, struct pik_frame frame)
{
    struct pik_station_answer answer = {.timer = PIK_TIMER_KEPT};
    if (opcode > 1) {
        answer.number = PIK_CSA_OPCODE;
    } else {
        uint32_t gone = frame.oldest_tx & ~frame.current_tx;
        answer.reported = frame.current_tx & ~(station.new_rx | station.previous_rx);
        answer.timer = opcode == 1 ? PIK_TIMER_STARTED : PIK_TIMER_KEPT;
        station.new_rx = (station.new_rx | frame.current_tx) & ~gone;
        station.previous_rx &= ~gone;
    }
    answer.station = station;
    answer.frame = carried(station);
    return answer;
}
